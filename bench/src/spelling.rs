//! Other spellings of a case's constraints, for `bench/spellings`: which of them solvers answer soonest. The text of a case is the
//! one of docs/SMT-TEXT.md and no other; these are here to be measured beside it. They are written formula by formula, from
//! strings, since no time is taken of the writing.

use crate::plain::case::{holder, Case};
use crate::plain::encode::put_rows;
use crate::plain::record::{Record, ASSERT, ASSUME, COMPUTE, CONSTANT, INPUT, LOAD, LOCK, STORE, UNLOCK};

/// What a spelling has.
#[derive(Clone, Copy, Default)]
pub struct Spelling {
    /// A value that depends on block numbers is one term, and not a choice of formulas.
    terms: bool,
    /// A line that reads an item has every block to choose from, and not only those of its thread.
    all_blocks: bool,
    /// Links beside the equations.
    links: bool,
    /// Facts beside the comparisons.
    facts: bool,
    /// The order of the lines said by the blocks of the thread too: with the 1s, which block the line before may be in, and with
    /// the 2s, that each line is in one of them.
    orders: bool,
}

impl Spelling {
    /// From the simplest on. The one named text is that of docs/SMT-TEXT.md.
    pub fn named(name: &str) -> Option<Spelling> {
        let choices = Spelling::default();
        let text = Spelling { links: true, facts: true, ..choices };
        Some(match name {
            "terms" => Spelling { terms: true, all_blocks: true, ..choices },
            "choices" => choices,
            "links" => Spelling { links: true, ..choices },
            "text" => text,
            "all-blocks" => Spelling { all_blocks: true, ..text },
            "orders" => Spelling { orders: true, ..text },
            _ => return None,
        })
    }

    /// The whole text of an accepted case in this spelling.
    pub fn text(self, case: &Case) -> String {
        let mut text = "(set-logic QF_BV)\n".to_string();
        (0..case.variables()).for_each(|number| text += &format!("(declare-fun v{number} () (_ BitVec 16))\n"));
        let mut writer = Writer::new(self, case);
        put_rows(case, |row| text += &format!("(assert {})\n", writer.formula(row)));
        text + "(check-sat)\n"
    }
}

fn constant(number: usize) -> String {
    format!("#x{number:04x}")
}

fn is_variable(term: &str) -> bool {
    term.starts_with('v')
}

fn equal(x: &str, y: &str) -> String {
    format!("(= {x} {y})")
}

fn block_of(line: u16) -> String {
    format!("v{}", 2 * (line - 1))
}

fn value_of(line: u16) -> String {
    format!("v{}", 2 * (line - 1) + 1)
}

fn local(copy: u16) -> String {
    match copy {
        0 => constant(0),
        line => value_of(line),
    }
}

fn operand(record: &Record, operand: u16, copy: u16) -> String {
    match operand {
        CONSTANT => constant(usize::from(record.c)),
        _ => local(copy),
    }
}

/// The sign of a comparison, if the op is one.
fn comparison(op: u16) -> Option<&'static str> {
    match op {
        5 => Some("="),
        6 => Some("bvult"),
        _ => None,
    }
}

fn expression(op: u16, x: &str, y: &str) -> String {
    let sign = match (op, comparison(op)) {
        (_, Some(sign)) => return format!("(ite ({sign} {x} {y}) #x0001 #x0000)"),
        (0, _) => return x.to_string(),
        (1, _) => "bvadd",
        (2, _) => "bvsub",
        (3, _) => "bvand",
        _ => "bvor",
    };
    format!("({sign} {x} {y})")
}

fn guard(record: &Record, copy: u16) -> String {
    let is_zero = equal(&local(copy), &constant(0));
    match record.guard {
        1..=16 => format!("(not {is_zero})"),
        _ => is_zero,
    }
}

/// Formulas before a last one, all joined by `and`.
fn and(before: impl DoubleEndedIterator<Item = String>, last: String) -> String {
    before.rev().fold(last, |rest, formula| format!("(and {formula} {rest})"))
}

/// Formulas joined by `or`.
fn or(formulas: impl DoubleEndedIterator<Item = String>) -> String {
    formulas.rev().fold("false".to_string(), |rest, formula| format!("(or {formula} {rest})"))
}

/// A condition, and the term where it is the first that holds.
type Choice = (String, String);

struct Writer<'a> {
    spelling: Spelling,
    case: &'a Case<'a>,
    sources: Vec<String>,
    /// The thread of each line, and the copies of its guard and its target, as far as the constraints have told.
    threads: [usize; 257],
    guards: [u16; 257],
    targets: [u16; 257],
}

impl Writer<'_> {
    fn new<'a>(spelling: Spelling, case: &'a Case<'a>) -> Writer<'a> {
        let lines = 1..=case.records() as u16;
        let inputs = lines.filter(|&line| case.record(line).kind == INPUT);
        let sources = inputs.take(6).map(value_of).collect();
        Writer { spelling, case, sources, threads: [0; 257], guards: [0; 257], targets: [0; 257] }
    }

    fn formula(&mut self, row: [u16; 6]) -> String {
        let [kind, line, second, third, _, target] = row;
        let number = usize::from(second);
        match kind {
            3 => {
                self.threads[usize::from(line)] = usize::from(third);
                let rest = format!("(bvurem {} {})", block_of(line), constant(number));
                format!("(or {} {})", self.not_run(line), equal(&rest, &constant(usize::from(third))))
            }
            8 => format!("(or {} {})", self.not_run(line), equal(&block_of(line), &block_of(second))),
            1 => self.in_order(line, second),
            2 => self.in_bounds(line),
            4 => {
                self.guards[usize::from(line)] = second;
                self.targets[usize::from(line)] = target;
                self.value(row)
            }
            5 => format!("(or {} {})", self.not_run(line), self.demand(line, second, third)),
            6 => self.item_after_block(usize::from(line), number, third),
            _ => self.some_line_violates(),
        }
    }

    /// "not run of k".
    fn not_run(&self, line: u16) -> String {
        equal(&block_of(line), &constant(usize::from(self.case.unrun_block())))
    }

    /// The blocks that a line has to choose from.
    fn blocks(&self, line: u16) -> Vec<usize> {
        let (first, step) = match self.spelling.all_blocks {
            true => (0, 1),
            false => (self.threads[usize::from(line)], self.case.threads),
        };
        (first..=self.case.switches).step_by(step).collect()
    }

    fn in_order(&self, line: u16, next: u16) -> String {
        let (block, next_block) = (block_of(line), block_of(next));
        let order = format!("(bvule {block} {next_block})");
        if !self.spelling.orders {
            return order;
        }
        let blocks = self.blocks(line);
        let said = blocks.iter().map(|&last| {
            let up_to = blocks.iter().take_while(|&&own| own <= last).map(|&own| equal(&block, &constant(own)));
            format!("(=> {} {})", equal(&next_block, &constant(last)), or(up_to.collect::<Vec<_>>().into_iter()))
        });
        and(said, order)
    }

    fn in_bounds(&self, line: u16) -> String {
        let unrun = usize::from(self.case.unrun_block());
        let bound = format!("(bvule {} {})", block_of(line), constant(unrun));
        if !self.spelling.orders {
            return bound;
        }
        let chain: Vec<u16> = self.case.chain(self.threads[usize::from(line)]).map(|(line, _)| line).collect();
        let one_of =
            |&line: &u16| or(self.blocks(line).into_iter().chain([unrun]).map(|own| equal(&block_of(line), &constant(own))));
        and(chain.iter().map(one_of), bound)
    }

    /// "X is Y".
    fn is(&self, x: &str, y: &str) -> String {
        let links = self.spelling.links && is_variable(x) && is_variable(y);
        let sources = self.sources.iter().take(if links { self.sources.len() } else { 0 });
        and(sources.map(|source| format!("(not (xor (= {x} {source}) (= {y} {source})))")), equal(x, y))
    }

    /// X is the first of these terms whose condition holds, else the last one; anything where there is no last one.
    fn is_chosen(&self, x: &str, choices: Vec<Choice>, last: Option<String>) -> String {
        let choices = choices.into_iter().rev();
        match last {
            Some(last) if self.spelling.terms => {
                let term = choices.fold(last, |rest, (condition, term)| format!("(ite {condition} {term} {rest})"));
                equal(x, &term)
            }
            last => {
                let last = last.map_or("true".to_string(), |last| self.is(x, &last));
                choices.fold(last, |rest, (condition, term)| format!("(ite {condition} {} {rest})", self.is(x, &term)))
            }
        }
    }

    /// "X is item g as line k reads it with copy p".
    fn is_read(&self, x: &str, item: usize, line: u16, copy: u16) -> String {
        let block = block_of(line);
        let at = |own: usize| (equal(&block, &constant(own)), self.item_before(item, own));
        let mut choices: Vec<Choice> = self.blocks(line).into_iter().map(at).collect();
        let last = if self.spelling.terms { choices.pop().map(|(_, term)| term) } else { None };
        if copy != 0 {
            choices.insert(0, (equal(&block_of(copy), &block), value_of(copy)));
        }
        self.is_chosen(x, choices, last)
    }

    fn item_before(&self, item: usize, block: usize) -> String {
        match block {
            0 => constant(usize::from(self.case.items_at_start()[item])),
            _ => self.item_after(item, block - 1),
        }
    }

    fn item_after(&self, item: usize, block: usize) -> String {
        format!("v{}", self.case.first_block_value() + block * self.case.items() + item)
    }

    fn value(&self, row: [u16; 6]) -> String {
        let [_, line, guard_copy, ..] = row;
        let record = self.case.record(line);
        let guarded_in = self.guarded_in(&record, row);
        let when_run = match record.guard {
            0 => guarded_in,
            _ => format!("(ite {} {guarded_in} {})", guard(&record, guard_copy), self.guarded_out(&record, row)),
        };
        let unrun_value = constant(usize::from(matches!(record.kind, ASSERT | ASSUME)));
        format!("(ite {} {} {when_run})", self.not_run(line), equal(&value_of(line), &unrun_value))
    }

    fn guarded_in(&self, record: &Record, [_, line, _, a_copy, b_copy, _]: [u16; 6]) -> String {
        let value = value_of(line);
        let (x, y) = (operand(record, record.a, a_copy), operand(record, record.b, b_copy));
        match record.kind {
            COMPUTE | STORE if record.op == 0 => self.is(&value, &x),
            COMPUTE | STORE => self.with_facts(record, &x, &y, equal(&value, &expression(record.op, &x, &y))),
            ASSERT | ASSUME => {
                let is_zero = equal(&expression(record.op, &x, &y), &constant(0));
                self.with_facts(record, &x, &y, format!("(= {value} (ite {is_zero} #x0000 #x0001))"))
            }
            LOAD => self.is_read(&value, usize::from(record.a), line, a_copy),
            INPUT => "true".to_string(),
            LOCK => equal(&value, &self.holder(line)),
            _ => equal(&value, &constant(0)),
        }
    }

    /// What a mutex has that the thread of a line holds.
    fn holder(&self, line: u16) -> String {
        constant(usize::from(holder(self.threads[usize::from(line)])))
    }

    fn guarded_out(&self, record: &Record, [_, line, _, _, _, target_copy]: [u16; 6]) -> String {
        let (value, item) = (value_of(line), usize::from(record.target));
        match record.kind {
            COMPUTE | LOAD | INPUT => self.is(&value, &local(target_copy)),
            STORE => self.is_read(&value, item, line, target_copy),
            ASSERT | ASSUME => equal(&value, &constant(1)),
            _ => self.is_read(&value, self.case.globals + item, line, target_copy),
        }
    }

    fn with_facts(&self, record: &Record, x: &str, y: &str, formula: String) -> String {
        let Some(sign) = comparison(record.op) else { return formula };
        if !self.spelling.facts || !is_variable(x) || !is_variable(y) {
            return formula;
        }
        let pairs: Vec<(&String, &String)> =
            self.sources.iter().flat_map(|s| self.sources.iter().map(move |u| (s, u))).collect();
        let fact = |(s, u)| format!("(=> (and (= {x} {s}) (= {y} {u})) (not (xor ({sign} {x} {y}) ({sign} {s} {u}))))");
        and(pairs.into_iter().map(fact), formula)
    }

    fn demand(&self, line: u16, guard_copy: u16, target_copy: u16) -> String {
        match self.case.record(line).kind {
            ASSUME => equal(&value_of(line), &constant(1)),
            _ => self.finds(&constant(0), line, guard_copy, target_copy),
        }
    }

    /// That a lock or unlock with a true guard finds this in its mutex.
    fn finds(&self, x: &str, line: u16, guard_copy: u16, target_copy: u16) -> String {
        let record = self.case.record(line);
        let reads = self.is_read(x, self.case.globals + usize::from(record.target), line, target_copy);
        match record.guard {
            0 => reads,
            _ => format!("(=> {} {reads})", guard(&record, guard_copy)),
        }
    }

    fn item_after_block(&self, item: usize, block: usize, last_copy: u16) -> String {
        let mut choices = Vec::new();
        let mut copy = last_copy;
        while copy != 0 {
            choices.push((equal(&block_of(copy), &constant(block)), value_of(copy)));
            copy = self.targets[usize::from(copy)];
        }
        self.is_chosen(&self.item_after(item, block), choices, Some(self.item_before(item, block)))
    }

    fn some_line_violates(&self) -> String {
        let lines = (0..self.case.threads).flat_map(|thread| self.case.chain(thread));
        let part = |(line, record): (u16, Record)| match record.kind {
            ASSERT => Some(equal(&value_of(line), &constant(0))),
            UNLOCK => Some(self.is_stranger(line)),
            _ => None,
        };
        or(lines.filter_map(part).collect::<Vec<_>>().into_iter())
    }

    /// That an unlock was run with a true guard by a thread that does not hold the mutex.
    fn is_stranger(&self, line: u16) -> String {
        let (guard_copy, target_copy) = (self.guards[usize::from(line)], self.targets[usize::from(line)]);
        let finds_itself = self.finds(&self.holder(line), line, guard_copy, target_copy);
        format!("(not (or {} {finds_itself}))", self.not_run(line))
    }
}
