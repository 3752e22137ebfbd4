//! The parts of the last assertion of a text: some of them stay, in their order, and all else stays as it is.

use super::with_parts;

const HEAD: &str = "(set-logic QF_BV)\n(declare-fun v0 () (_ BitVec 16))\n(assert (or (= v0 #x0000) false))\n";

/// A text with this last assertion.
fn text(goal: &str) -> String {
    format!("{HEAD}(assert {goal})\n(check-sat)\n")
}

const THREE: &str =
    "(or (= v1 #x0000) (or (not (or (= v2 #x0004) (=> (not (= v3 #x0000)) (= #x0001 v5)))) (or (= v7 #x0000) false)))";

#[test]
fn some_parts_stay() {
    let lines = [4, 2, 9];
    let goals: [(&[u16], &str); 6] = [
        (&[4, 2, 9], THREE),
        (&[4], "(or (= v1 #x0000) false)"),
        (&[2], "(or (not (or (= v2 #x0004) (=> (not (= v3 #x0000)) (= #x0001 v5)))) false)"),
        (&[9], "(or (= v7 #x0000) false)"),
        (&[9, 4], "(or (= v1 #x0000) (or (= v7 #x0000) false))"),
        (&[], "false"),
    ];
    for (wanted, goal) in goals {
        assert_eq!(with_parts(&text(THREE), &lines, |line| wanted.contains(&line)), Some(text(goal)), "{wanted:?}");
    }
    assert_eq!(with_parts(&text("false"), &[], |_| true), Some(text("false")));
}

/// A text that does not end in such an assertion, with a part for each line, is told.
#[test]
fn another_last_assertion() {
    let goals = [
        "true",
        "(and (= v1 #x0000) false)",
        "(or (= v1 #x0000) true)",
        "(or (= v1 #x0000)  false)",
        "(or false (= v1 #x0000))",
        "(or (or (= v1 #x0000) false) (= v1 #x0000))",
        "(or (= v1 #x0000 false)",
        "(or (= v1 #x0000)) false)",
        "(or v1 false)",
        "(or  false)",
        "false",
        "(or (= v1 #x0000) (or (= v3 #x0000) false))",
    ];
    for goal in goals {
        assert_eq!(with_parts(&text(goal), &[4], |_| true), None, "{goal}");
    }
    let whole = text("(or (= v1 #x0000) false)");
    assert_eq!(with_parts(&whole, &[4], |_| true), Some(whole.clone()));
    for text in [
        "",
        "(check-sat)\n",
        "(assert false)\n",
        whole.trim_end(),
        &format!("{whole}\n"),
        &whole.replace("(assert (or (= v1", "(or (= v1"),
    ] {
        assert_eq!(with_parts(text, &[4], |_| true), None, "{text}");
    }
}
