//! The constraints as SMT-LIB text, written from `docs/SMT-TEXT.md` and
//! document 01 alone. What is quoted here stands on that page.

use super::case::{Case, Record, ASSERT, ASSUME, COMPUTE, INPUT, LOAD, LOCK, STORE, UNLOCK};
use super::encode::{value_row_of, Row};
use super::wrong::Wrong;

const MOST_SOURCES: usize = 6;

/// "The lines, in this order".
pub fn text(case: &Case, rows: &[Row]) -> String {
    let speller = Speller::new(case, rows);
    let mut lines = vec!["(set-logic QF_BV)".to_string()];
    lines.extend((0..case.variables()).map(|number| format!("(declare-fun v{number} () (_ BitVec 16))")));
    lines.extend(rows.iter().map(|&row| format!("(assert {})", speller.formula(row))));
    lines.push("(check-sat)".into());
    let text = lines.join("\n");
    match case.wrong {
        Wrong::NoLastLineEnd => text,
        _ => text + "\n",
    }
}

fn constant(number: u16) -> String {
    format!("#x{number:04x}")
}

fn is_constant(term: &str) -> bool {
    term.starts_with('#')
}

fn equal(x: &str, y: &str) -> String {
    format!("(= {x} {y})")
}

fn if_else(condition: &str, then: &str, other: &str) -> String {
    format!("(ite {condition} {then} {other})")
}

/// "A, B and C is `(and A (and B C))`", with the last part given apart.
fn nested(connective: &str, parts: Vec<String>, innermost: String) -> String {
    parts.into_iter().rev().fold(innermost, |rest, part| format!("({connective} {part} {rest})"))
}

/// The first formula whose condition is true, else the innermost one.
fn chosen(cases: Vec<(String, String)>, innermost: String) -> String {
    cases.into_iter().rev().fold(innermost, |rest, (condition, formula)| if_else(&condition, &formula, &rest))
}

struct Speller<'a> {
    case: &'a Case,
    rows: &'a [Row],
    /// "the values of the input lines with the lowest record numbers, at most
    /// six, in ascending order of the record numbers"
    sources: Vec<String>,
}

impl<'a> Speller<'a> {
    fn new(case: &'a Case, rows: &'a [Row]) -> Self {
        let mut speller = Speller { case, rows, sources: Vec::new() };
        let most = match case.wrong {
            Wrong::SeventhSource => MOST_SOURCES + 1,
            _ => MOST_SOURCES,
        };
        let mut inputs = case.inputs();
        if case.wrong != Wrong::SourcesByThread {
            inputs.sort();
        }
        speller.sources = inputs.into_iter().take(most).map(|line| speller.value(line)).collect();
        speller
    }

    /// "block of k, for record k: variable 2(k − 1)"
    fn block(&self, line: u16) -> String {
        format!("v{}", 2 * (usize::from(line) - 1))
    }

    /// "not run of k: `(= B #xU)`, where `B` is block of k and `#xU` the constant
    /// n + 1"
    fn not_run(&self, line: u16) -> String {
        match self.case.wrong {
            Wrong::UnrunPastN => format!("(bvule {} {})", constant(self.case.unrun_block()), self.block(line)),
            _ => equal(&self.block(line), &constant(self.case.unrun_block())),
        }
    }

    /// "value of k: variable 2(k − 1) + 1"
    fn value(&self, line: u16) -> String {
        format!("v{}", 2 * (usize::from(line) - 1) + 1)
    }

    /// "item g after block i: variable 2R + i × (G + M) + g"
    fn after(&self, item: usize, block: usize) -> String {
        format!("v{}", 2 * self.case.records.len() + block * self.case.items() + item)
    }

    /// "item g before block i: the constant that is its initial value for
    /// i = 0 (0 for a mutex), else the variable item g after block i − 1"
    fn before(&self, item: usize, block: usize) -> String {
        match block {
            0 if self.case.wrong == Wrong::InitialValueForgotten => constant(0),
            0 => constant(self.case.initial_value(item)),
            _ => self.after(item, block - 1),
        }
    }

    /// "local with copy p: `#x0000` where p is 0, else value of p"
    fn local(&self, copy: u16) -> String {
        match copy {
            0 => constant(0),
            _ => self.value(copy),
        }
    }

    /// "The own blocks of a thread t: t, t + T, t + 2T and on, up to n".
    fn own_blocks(&self, line: u16) -> Vec<usize> {
        let thread = self.case.thread_of_line(line);
        (thread..=self.case.switches).step_by(self.case.threads).collect()
    }

    /// "X is Y, for two terms": a link for each source, and the equation
    /// innermost, "where both are variables".
    fn is(&self, x: &str, y: &str) -> String {
        let linked = !is_constant(x) && !is_constant(y) || self.case.wrong == Wrong::LinksOfConstants;
        let link = |source: &String| format!("(not (xor {} {}))", equal(x, source), equal(y, source));
        let links = if linked { self.sources.iter().map(link).collect() } else { Vec::new() };
        nested("and", links, equal(x, y))
    }

    /// "X is item g as line k reads it with copy p".
    fn is_read(&self, x: &str, item: usize, line: u16, copy: u16) -> String {
        let reader = self.block(line);
        let in_block = |block: usize| (equal(&reader, &constant(block as u16)), self.is(x, &self.before(item, block)));
        let mut cases: Vec<(String, String)> = self.own_blocks(line).into_iter().map(in_block).collect();
        // No line that was run comes to it, by the 1s, 2s and 3s, but the page has the case.
        let innermost = match (self.case.wrong, cases.pop()) {
            (Wrong::LastBlockElse, Some((_, formula))) => formula,
            (_, last) => {
                cases.extend(last);
                "true".into()
            }
        };
        let before = chosen(cases, innermost);
        if copy == 0 {
            return before;
        }
        let here = self.is(x, &self.value(copy));
        match self.case.wrong {
            Wrong::CopyFromEarlierBlock => here,
            Wrong::ReaderBeforeCopy => if_else(&equal(&reader, &self.block(copy)), &here, &before),
            _ => if_else(&equal(&self.block(copy), &reader), &here, &before),
        }
    }

    /// "The guard of line k with copy p"; none for guard 0.
    fn guard(&self, record: &Record, copy: u16) -> Option<String> {
        let is_zero = equal(&self.local(copy), &constant(0));
        match record.guard {
            0 => None,
            1..=16 => Some(format!("(not {is_zero})")),
            _ => Some(is_zero),
        }
    }

    /// "Operands of a line with copy p: the constant c where the operand is
    /// 16, else local with copy p."
    fn operand(&self, record: &Record, operand: u16, copy: u16) -> String {
        match operand {
            16 => constant(record.c),
            _ => self.local(copy),
        }
    }

    /// The formula of each constraint, by its six numbers.
    fn formula(&self, row: Row) -> String {
        let [kind, line, ..] = row;
        match kind {
            1 => self.order_formula(row),
            2 if self.case.wrong == Wrong::UnrunTooLate => format!("(bvule {} {})", self.block(line), constant(row[2])),
            // "block of k and the constant n + 1"
            2 => format!("(bvule {} {})", self.block(line), constant(row[2] + 1)),
            3 => self.thread_formula(row),
            4 => self.value_formula(row),
            5 => self.demand_formula(row),
            6 => self.block_value_formula(row),
            7 => self.violation_formula(),
            _ => self.stay_formula(row),
        }
    }

    /// "8, line k, line before j: `(or U (= B C))`, with `U` for not run of k, `B`
    /// for block of k and `C` for block of j."
    fn stay_formula(&self, row: Row) -> String {
        let [_, line, before, ..] = row;
        // No line is 0 but by mistake.
        let (block, block_before) = (self.block(line), if before == 0 { constant(0) } else { self.block(before) });
        let stays = match self.case.wrong {
            Wrong::LineBeforeFirst => equal(&block_before, &block),
            Wrong::AtMostInText => format!("(bvule {block} {block_before})"),
            _ => equal(&block, &block_before),
        };
        match self.case.wrong {
            Wrong::NoStopAtInvisible => stays,
            _ => format!("(or {} {stays})", self.not_run(line)),
        }
    }

    /// "1, line k, next line l: `(bvule B C)`, block of k and block of l".
    fn order_formula(&self, row: Row) -> String {
        let [_, line, next, ..] = row;
        let order = format!("(bvule {} {})", self.block(line), self.block(next));
        match self.case.wrong {
            Wrong::RunAfterUnrun => format!("(or {} {order})", self.not_run(line)),
            _ => order,
        }
    }

    /// "3, line k, T, t: `(or U M)`, with `U` for not run of k and `M` for
    /// `(= (bvurem B #xT) #xt)`".
    fn thread_formula(&self, row: Row) -> String {
        let [_, line, threads, thread, ..] = row;
        let remainder = format!("(bvurem {} {})", self.block(line), constant(threads));
        let own = equal(&remainder, &constant(thread));
        match self.case.wrong {
            Wrong::UnrunHasThread => own,
            _ => format!("(or {} {own})", self.not_run(line)),
        }
    }

    /// "`(ite U (= V #x0000) F)`, for assert and assume `(ite U (= V #x0001) F)`,
    /// with `U` for not run of k and `V` for value of k."
    fn value_formula(&self, row: Row) -> String {
        let [_, line, ..] = row;
        let record = self.case.record(line);
        let is_unrun_value = equal(&self.value(line), &constant(self.case.unrun_value(record)));
        match self.case.wrong {
            Wrong::UnrunInLastBlock => self.value_of_run(row),
            Wrong::UnrunInputFree if record.kind == INPUT => if_else(&self.not_run(line), "true", &self.value_of_run(row)),
            _ => if_else(&self.not_run(line), &is_unrun_value, &self.value_of_run(row)),
        }
    }

    /// "For guard 0 `F` is `IN`, else `(ite G IN OUT)`".
    fn value_of_run(&self, row: Row) -> String {
        let [_, line, guard_copy, ..] = row;
        let record = self.case.record(line);
        match self.guard(record, guard_copy) {
            None => self.value_guarded_in(record, row),
            Some(guard) if self.case.wrong == Wrong::OldValueOpen => {
                format!("(=> {guard} {})", self.value_guarded_in(record, row))
            }
            Some(guard) => if_else(&guard, &self.value_guarded_in(record, row), &self.value_guarded_out(record, row)),
        }
    }

    /// "`IN`, by the kind of line k".
    fn value_guarded_in(&self, record: &Record, row: Row) -> String {
        let [_, line, _, a_copy, b_copy, _] = row;
        let value = self.value(line);
        let a = self.operand(record, record.a, a_copy);
        let b = self.operand(record, record.b, b_copy);
        match record.kind {
            COMPUTE | STORE if record.op == 0 => self.is(&value, &a),
            COMPUTE | STORE => self.with_facts(record, &a, &b, equal(&value, &expression(self.case.wrong, record, &a, &b))),
            LOAD => self.is_read(&value, usize::from(record.a), line, a_copy),
            INPUT => "true".into(),
            LOCK => equal(&value, &constant(self.case.holder(self.case.thread_of_line(line)))),
            UNLOCK => equal(&value, &constant(0)),
            _ => {
                let is_zero = equal(&expression(self.case.wrong, record, &a, &b), &constant(0));
                let truth = if_else(&is_zero, &constant(0), &constant(1));
                self.with_facts(record, &a, &b, equal(&value, &truth))
            }
        }
    }

    /// "`OUT`, by the kind of line k".
    fn value_guarded_out(&self, record: &Record, row: Row) -> String {
        let [_, line, _, _, _, target_copy] = row;
        let value = self.value(line);
        match record.kind {
            COMPUTE | LOAD | INPUT => self.is(&value, &self.local(target_copy)),
            STORE | LOCK | UNLOCK => self.is_read(&value, self.target_item(record), line, target_copy),
            _ => equal(&value, &constant(1)),
        }
    }

    fn target_item(&self, record: &Record) -> usize {
        let name = record.target_name().expect("the line has a target");
        self.case.item_number(name).expect("the target is an item")
    }

    /// "F with the facts of a comparison, for a line with op 5 or 6 whose
    /// operands X and Y are both variables".
    fn with_facts(&self, record: &Record, x: &str, y: &str, formula: String) -> String {
        if record.op < 5 || is_constant(x) || is_constant(y) {
            return formula;
        }
        let mut facts = Vec::new();
        for (place, s) in self.sources.iter().enumerate() {
            let from = if self.case.wrong == Wrong::FactsOnce { place } else { 0 };
            facts.extend(self.sources[from..].iter().map(|u| fact(self.case.wrong, record, [x, y], [s, u])));
        }
        nested("and", facts, formula)
    }

    /// "5, line k, guard copy, target copy: `(or U F)`, with `U` for not run of
    /// k."
    fn demand_formula(&self, row: Row) -> String {
        let [_, line, ..] = row;
        match self.case.wrong {
            Wrong::DemandOfUnrun => self.demand_of_run(row),
            _ => format!("(or {} {})", self.not_run(line), self.demand_of_run(row)),
        }
    }

    /// "For an assume `F` is `(= V #x0001)`"; a lock finds its mutex at 0.
    fn demand_of_run(&self, row: Row) -> String {
        let [_, line, guard_copy, target_copy, ..] = row;
        match self.case.record(line).kind {
            ASSUME => equal(&self.value(line), &constant(1)),
            _ => self.finds_mutex_at(0, line, guard_copy, target_copy),
        }
    }

    /// "with `D` for '`#x0000` is the mutex as line k reads it with the target
    /// copy', for guard 0 `F` is `D`, else `(=> G D)`", for this number.
    fn finds_mutex_at(&self, number: u16, line: u16, guard_copy: u16, target_copy: u16) -> String {
        let record = self.case.record(line);
        let reads = self.is_read(&constant(number), self.target_item(record), line, target_copy);
        match self.guard(record, guard_copy) {
            Some(guard) if !(record.kind == UNLOCK && self.case.wrong == Wrong::PassedUnlockViolates) => {
                format!("(=> {guard} {reads})")
            }
            _ => reads,
        }
    }

    /// "Walking back from p over the copies of g in its thread, p first, then
    /// p's own target copy and on until there is none".
    fn block_value_formula(&self, row: Row) -> String {
        let [_, item, block, last_copy, ..] = row;
        let after = self.after(usize::from(item), usize::from(block));
        let mut cases = Vec::new();
        let mut copy = last_copy;
        while copy != 0 {
            cases.push((equal(&self.block(copy), &constant(block)), self.is(&after, &self.value(copy))));
            [_, _, _, _, _, copy] = value_row_of(self.rows, copy);
        }
        if self.case.wrong == Wrong::NoWalkBack {
            cases.truncate(1);
        }
        chosen(cases, self.is(&after, &self.before(usize::from(item), usize::from(block))))
    }

    /// "7: with a part for each assert and each unlock, by thread and chain:
    /// `(or A (or B .. false..))`. Without any it is `false`."
    fn violation_formula(&self) -> String {
        let mut lines = self.case.chains.concat();
        if self.case.wrong == Wrong::UnlocksBehindAsserts {
            lines.sort_by_key(|&line| self.case.record(line).kind == UNLOCK);
        }
        let mut parts: Vec<String> = lines.into_iter().filter_map(|line| self.violation_part(line)).collect();
        let innermost = match (self.case.wrong, parts.pop()) {
            (Wrong::NoFalseInnermost, Some(part)) => part,
            (_, last) => {
                parts.extend(last);
                "false".into()
            }
        };
        nested("or", parts, innermost)
    }

    /// "The part of an assert is `(= V #x0000)` [...]. The part of an unlock, line
    /// k of thread t, is `(not (or U F))`", and `F` as in the 5 of a lock, but for
    /// the constant t + 1. "The copies of guard and target are those of the line's
    /// 4."
    fn violation_part(&self, line: u16) -> Option<String> {
        match self.case.record(line).kind {
            ASSERT => Some(equal(&self.value(line), &constant(0))),
            UNLOCK if self.case.wrong != Wrong::OnlyAssertsIn7 => {
                let [_, _, guard_copy, _, _, target_copy] = value_row_of(self.rows, line);
                let thread = self.case.thread_of_line(line);
                let holder = match self.case.wrong {
                    Wrong::ThreadAskedFor => thread as u16,
                    _ => self.case.holder(thread),
                };
                let holds = self.finds_mutex_at(holder, line, guard_copy, target_copy);
                Some(match self.case.wrong {
                    Wrong::UnrunPartHolds => format!("(not {holds})"),
                    _ => format!("(not (or {} {holds}))", self.not_run(line)),
                })
            }
            _ => None,
        }
    }
}

/// "`(C X Y)` is `(= X Y)` for op 5 and `(bvult X Y)` for op 6".
fn comparison(wrong: Wrong, op: u16, x: &str, y: &str) -> String {
    match (op, wrong) {
        (5, _) => equal(x, y),
        (_, Wrong::LessOrEqual) => format!("(bvule {x} {y})"),
        _ => format!("(bvult {x} {y})"),
    }
}

/// "`(=> (and (= X S) (= Y U)) (not (xor (C X Y) (C S U))))`"
fn fact(wrong: Wrong, record: &Record, [x, y]: [&str; 2], [s, u]: [&str; 2]) -> String {
    let ours = comparison(wrong, record.op, x, y);
    let theirs = comparison(wrong, record.op, s, u);
    format!("(=> (and {} {}) (not (xor {ours} {theirs})))", equal(x, s), equal(y, u))
}

/// "The expression with operands X and Y".
fn expression(wrong: Wrong, record: &Record, x: &str, y: &str) -> String {
    match record.op {
        0 => x.into(),
        1 => format!("(bvadd {x} {y})"),
        2 => format!("(bvsub {x} {y})"),
        3 => format!("(bvand {x} {y})"),
        4 => format!("(bvor {x} {y})"),
        op => if_else(&comparison(wrong, op, x, y), &constant(1), &constant(0)),
    }
}
