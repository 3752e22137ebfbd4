//! Refusal 9 in full: for each kind and each field, values on both sides of
//! what the kind allows. The group `lines` tries the same lines one by one.

use crate::calls::{Calls, Verdict};
use crate::draft::Draft;
use crate::line::*;
use crate::report::{Outcome, Report, Tally};

/// A good line, and for each of its fields the least and the most that the
/// field may be while the others stay.
struct Rule {
    name: &'static str,
    line: Line,
    target: (u16, u16),
    op: (u16, u16),
    a: (u16, u16),
    b: (u16, u16),
    c: (u16, u16),
}

const NONE: (u16, u16) = (0, 0);
const LOCAL: (u16, u16) = (0, 15);
const OPERAND: (u16, u16) = (0, 16);
const ONLY_CONSTANT: (u16, u16) = (16, 16);
const ANYTHING: (u16, u16) = (0, 65_535);
/// The lines here belong to cases with three globals and two mutexes.
pub const GLOBALS: u16 = 3;
pub const MUTEXES: u16 = 2;
const GLOBAL: (u16, u16) = (0, GLOBALS - 1);
const MUTEX: (u16, u16) = (0, MUTEXES - 1);

pub const KINDS: [&str; 8] = ["compute", "store", "load", "input", "assert", "assume", "lock", "unlock"];

/// The rules of an expression, whatever the kind: "0 gives a (then b is 0)",
/// "An operand 0 to 15 is a local, 16 is the constant c", "c is 0 unless a
/// used operand is 16".
fn expression_rules(kind_name: &'static str, kind: u16, target: (u16, u16)) -> Vec<Rule> {
    let line = |[op, a, b, c]: [u16; 4]| Line { next: 0, kind, guard: 0, target: target.1, op, a, b, c };
    let rule = |expression: [u16; 4], op, a, b, c| Rule { name: kind_name, line: line(expression), target, op, a, b, c };
    vec![
        // Op 0 with a local: any op would do, since b 0 is then a local.
        rule([COPY, 3, 0, 0], (0, 6), OPERAND, NONE, NONE),
        // Op 0 with a constant that is not 0: a must stay the constant.
        rule([COPY, 16, 0, 7], (0, 6), ONLY_CONSTANT, NONE, ANYTHING),
        // Two locals; op 0 would leave b 2 unused.
        rule([SUM, 1, 2, 0], (1, 6), OPERAND, OPERAND, NONE),
        // One constant that is not 0, on either side, or on both.
        rule([LESS, 16, 2, 9], (1, 6), ONLY_CONSTANT, OPERAND, ANYTHING),
        rule([EQUAL, 2, 16, 9], (1, 6), OPERAND, ONLY_CONSTANT, ANYTHING),
        rule([AND, 16, 16, 9], (1, 6), OPERAND, OPERAND, ANYTHING),
        // A constant 0 needs no operand 16; op 0 would leave b 16 unused.
        rule([OR, 2, 16, 0], (1, 6), OPERAND, OPERAND, ANYTHING),
    ]
}

fn rules() -> Vec<Rule> {
    let mut rules = expression_rules("compute", COMPUTE, LOCAL);
    rules.extend(expression_rules("store", STORE, GLOBAL));
    rules.extend(expression_rules("assert", ASSERT, NONE));
    rules.extend(expression_rules("assume", ASSUME, NONE));
    let without = |name, line, target, a| Rule { name, line, target, op: NONE, a, b: NONE, c: NONE };
    rules.push(without("load", load(4, 1), LOCAL, GLOBAL));
    rules.push(without("input", input(4), LOCAL, NONE));
    rules.push(without("lock", lock(1), MUTEX, NONE));
    rules.push(without("unlock", unlock(1), MUTEX, NONE));
    rules
}

pub fn run(calls: &dyn Calls, report: &mut Report) {
    for kind in KINDS {
        report.check(kind, |tally| {
            let mut lines = tried_lines(kind).into_iter();
            lines.try_for_each(|(line, is_good)| verdict(calls, line, is_good, tally))
        });
    }
    report.check("no other kind", |tally| {
        let mut lines = lines_of_no_kind().into_iter();
        lines.try_for_each(|line| verdict(calls, line, false, tally))
    });
    report.check("no globals, no mutexes", |tally| {
        for line in lines_with_items() {
            let draft = Draft::new(2, 1).with_thread(0, &[line]);
            let refused = Verdict::Refused { number: 9, place: 1 };
            tally.same(calls.accept(&draft.bytes()), refused, || format!("{line:?}"))?;
        }
        Ok(())
    });
}

/// Lines that name an item, of which a case may have none.
pub fn lines_with_items() -> [Line; 4] {
    [store(0, constant(1)), load(0, 0), lock(0), unlock(0)]
}

/// Lines with kinds that there are not.
pub fn lines_of_no_kind() -> [Line; 8] {
    [0, 9, 10, 16, 255, 256, 257, 65_535].map(|kind| Line { kind, ..unlock(0) })
}

/// The lines of a kind, each field in turn on both sides of its limits, and
/// whether the line keeps the rules.
pub fn tried_lines(kind: &str) -> Vec<(Line, bool)> {
    let mut lines = Vec::new();
    for rule in rules().iter().filter(|rule| rule.name == kind) {
        // "Guard 0 is always; 1 to 16 [...]; 17 to 32".
        let fields = [(2, (0, 32)), (3, rule.target), (4, rule.op), (5, rule.a), (6, rule.b), (7, rule.c)];
        for (field, (least, most)) in fields {
            for value in tried_values(least, most) {
                let mut fields = rule.line.fields();
                fields[field] = value;
                lines.push((fields.into(), (least..=most).contains(&value)));
            }
        }
    }
    lines
}

/// All small values, both ends with what lies beside them, and large ones.
fn tried_values(least: u16, most: u16) -> Vec<u16> {
    let ends = [least, least.wrapping_sub(1), most, most.wrapping_add(1)];
    let large = [255, 256, 257, 32_767, 32_768, 65_534, 65_535];
    (0..=40).chain(ends).chain(large).collect()
}

/// Demands the verdict on a case whose second record is the line.
fn verdict(calls: &dyn Calls, line: Line, is_good: bool, tally: &mut Tally) -> Outcome {
    let lines = [compute(0, constant(1)), line, compute(1, local(0))];
    let draft = Draft::new(2, 1).with_globals(&[1, 2, 3]).with_mutexes(MUTEXES).with_thread(0, &lines);
    let wanted = match is_good {
        true => Verdict::Accepted,
        false => Verdict::Refused { number: 9, place: 2 },
    };
    tally.same(calls.accept(&draft.bytes()), wanted, || format!("{line:?}"))
}
