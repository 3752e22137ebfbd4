//! The text of an accepted case: its constraints in SMT-LIB, as docs/SMT-TEXT.md fixes them. No table is made: each constraint
//! becomes an assertion as it comes.

use super::case::{holder, Case};
use super::encode::put_rows;
use super::record::{Record, ASSERT, ASSUME, COMPUTE, CONSTANT, INPUT, LOAD, LOCK, STORE, UNLOCK};

/// What takes the bytes of a text.
trait Sink {
    fn put(&mut self, bytes: &[u8]);
}

/// Only counts the bytes.
struct Count(usize);

impl Sink for Count {
    fn put(&mut self, bytes: &[u8]) {
        self.0 += bytes.len();
    }
}

/// Writes them to a slice, which has room for all.
struct Slice<'a> {
    text: &'a mut [u8],
    at: usize,
}

impl Sink for Slice<'_> {
    fn put(&mut self, bytes: &[u8]) {
        self.text[self.at..self.at + bytes.len()].copy_from_slice(bytes);
        self.at += bytes.len();
    }
}

/// How many bytes the text has.
pub fn length(case: &Case) -> usize {
    let mut count = Count(0);
    put_text(case, &mut count);
    count.0
}

/// Writes the text to a slice that it fits in.
pub fn write_text(case: &Case, text: &mut [u8]) {
    put_text(case, &mut Slice { text, at: 0 });
}

fn put_text(case: &Case, to: &mut impl Sink) {
    to.put(b"(set-logic QF_BV)\n");
    for number in 0..case.variables() {
        to.put(b"(declare-fun ");
        to.put(Term::variable(number).spelling());
        to.put(b" () (_ BitVec 16))\n");
    }
    let sources = [Term::constant(0); 6];
    let mut writer = Writer { case, sources, links: 0, threads: [0; 257], guards: [0; 257], targets: [0; 257], to };
    let inputs = (1..=case.records() as u16).filter(|&line| case.record(line).kind == INPUT);
    for (source, line) in writer.sources.iter_mut().zip(inputs) {
        *source = value_of(line);
        writer.links += 1;
    }
    put_rows(case, |row| writer.put_assertion(row));
    to.put(b"(check-sat)\n");
}

/// A variable or a constant, spelled.
#[derive(Clone, Copy)]
struct Term {
    bytes: [u8; 6],
    length: usize,
}

const ZERO: &[u8] = b"#x0000";
const ONE: &[u8] = b"#x0001";

impl Term {
    fn constant(number: u16) -> Term {
        let digit = |place: u16| b"0123456789abcdef"[usize::from(number >> place & 15)];
        Term { bytes: [b'#', b'x', digit(12), digit(8), digit(4), digit(0)], length: 6 }
    }

    /// No case has a variable with more than three digits.
    fn variable(number: usize) -> Term {
        let digit = |number: usize| b'0' + (number % 10) as u8;
        let (bytes, length) = match number {
            0..10 => ([b'v', digit(number), 0, 0, 0, 0], 2),
            10..100 => ([b'v', digit(number / 10), digit(number), 0, 0, 0], 3),
            _ => ([b'v', digit(number / 100), digit(number / 10), digit(number), 0, 0], 4),
        };
        Term { bytes, length }
    }

    fn spelling(&self) -> &[u8] {
        &self.bytes[..self.length]
    }

    fn is_variable(&self) -> bool {
        self.bytes[0] == b'v'
    }
}

fn block_of(line: u16) -> Term {
    Term::variable(2 * usize::from(line - 1))
}

fn value_of(line: u16) -> Term {
    Term::variable(2 * usize::from(line - 1) + 1)
}

/// A local by its copy.
fn local(copy: u16) -> Term {
    match copy {
        0 => Term::constant(0),
        line => value_of(line),
    }
}

fn operand(record: &Record, operand: u16, copy: u16) -> Term {
    match operand {
        CONSTANT => Term::constant(record.c),
        _ => local(copy),
    }
}

struct Writer<'a, S: Sink> {
    case: &'a Case<'a>,
    /// The values of the first input lines by record number, and how many there are.
    sources: [Term; 6],
    links: usize,
    /// The thread of each line, and the copies of its guard and its target, as far as the constraints have told.
    threads: [usize; 257],
    guards: [u16; 257],
    targets: [u16; 257],
    to: &'a mut S,
}

impl<S: Sink> Writer<'_, S> {
    fn put_assertion(&mut self, row: [u16; 6]) {
        let [kind, line, second, third, ..] = row;
        self.to.put(b"(assert ");
        match kind {
            3 => {
                self.threads[usize::from(line)] = usize::from(third);
                self.put_thread(line, second, third);
            }
            8 => self.put_stay(line, second),
            1 => self.put_two(b"(bvule ", block_of(line), block_of(second)),
            2 => self.put_two(b"(bvule ", block_of(line), Term::constant(second + 1)),
            4 => {
                self.guards[usize::from(line)] = second;
                self.targets[usize::from(line)] = row[5];
                self.put_value(row);
            }
            5 => self.put_demand(line, second, third),
            6 => self.put_item_after(usize::from(line), usize::from(second), third),
            _ => self.put_some_line_violates(),
        }
        self.to.put(b")\n");
    }

    /// A sign with its parenthesis and a blank, and two terms.
    fn put_two(&mut self, sign: &[u8], x: Term, y: Term) {
        self.to.put(sign);
        self.to.put(x.spelling());
        self.to.put(b" ");
        self.to.put(y.spelling());
        self.to.put(b")");
    }

    fn close(&mut self, times: usize) {
        (0..times).for_each(|_| self.to.put(b")"));
    }

    /// "not run of k", behind what opens the formula that it is the first part of.
    fn open_with_not_run(&mut self, opening: &[u8], line: u16) {
        self.to.put(opening);
        self.put_two(b"(= ", block_of(line), Term::constant(self.case.unrun_block()));
        self.to.put(b" ");
    }

    fn put_thread(&mut self, line: u16, threads: u16, thread: u16) {
        self.open_with_not_run(b"(or ", line);
        self.to.put(b"(= ");
        self.put_two(b"(bvurem ", block_of(line), Term::constant(threads));
        self.to.put(b" ");
        self.to.put(Term::constant(thread).spelling());
        self.to.put(b"))");
    }

    fn put_stay(&mut self, line: u16, before: u16) {
        self.open_with_not_run(b"(or ", line);
        self.put_two(b"(= ", block_of(line), block_of(before));
        self.to.put(b")");
    }

    /// "X is Y": the equation, with a link for each source where both are variables.
    fn put_is(&mut self, x: Term, y: Term) {
        let links = if x.is_variable() && y.is_variable() { self.links } else { 0 };
        for number in 0..links {
            let source = self.sources[number];
            self.to.put(b"(and (not (xor ");
            self.put_two(b"(= ", x, source);
            self.to.put(b" ");
            self.put_two(b"(= ", y, source);
            self.to.put(b")) ");
        }
        self.put_two(b"(= ", x, y);
        self.close(links);
    }

    fn put_is_constant(&mut self, x: Term, constant: &[u8]) {
        self.to.put(b"(= ");
        self.to.put(x.spelling());
        self.to.put(b" ");
        self.to.put(constant);
        self.to.put(b")");
    }

    /// "X is item g as line k reads it with copy p".
    fn put_read(&mut self, x: Term, item: usize, line: u16, copy: u16) {
        if copy != 0 {
            self.to.put(b"(ite ");
            self.put_two(b"(= ", block_of(copy), block_of(line));
            self.to.put(b" ");
            self.put_is(x, value_of(copy));
            self.to.put(b" ");
        }
        let mut opened = usize::from(copy != 0);
        for block in (self.threads[usize::from(line)]..=self.case.switches).step_by(self.case.threads) {
            self.to.put(b"(ite ");
            self.put_two(b"(= ", block_of(line), Term::constant(block as u16));
            self.to.put(b" ");
            self.put_is(x, self.item_before(item, block));
            self.to.put(b" ");
            opened += 1;
        }
        self.to.put(b"true");
        self.close(opened);
    }

    fn item_before(&self, item: usize, block: usize) -> Term {
        match block {
            0 if item < self.case.globals => Term::constant(self.case.initial[item]),
            0 => Term::constant(0),
            _ => self.item_after(item, block - 1),
        }
    }

    fn item_after(&self, item: usize, block: usize) -> Term {
        Term::variable(self.case.first_block_value() + block * self.case.items() + item)
    }

    fn put_guard(&mut self, record: &Record, copy: u16) {
        match record.guard {
            1..=16 => {
                self.to.put(b"(not ");
                self.put_is_constant(local(copy), ZERO);
                self.to.put(b")");
            }
            _ => self.put_is_constant(local(copy), ZERO),
        }
    }

    /// A 4.
    fn put_value(&mut self, row: [u16; 6]) {
        let [_, line, guard, ..] = row;
        let record = self.case.record(line);
        self.open_with_not_run(b"(ite ", line);
        self.put_is_constant(value_of(line), if matches!(record.kind, ASSERT | ASSUME) { ONE } else { ZERO });
        self.to.put(b" ");
        if record.guard == 0 {
            self.put_guarded_in(&record, row);
        } else {
            self.to.put(b"(ite ");
            self.put_guard(&record, guard);
            self.to.put(b" ");
            self.put_guarded_in(&record, row);
            self.to.put(b" ");
            self.put_guarded_out(&record, row);
            self.to.put(b")");
        }
        self.to.put(b")");
    }

    fn put_guarded_in(&mut self, record: &Record, [_, line, _, a, b, _]: [u16; 6]) {
        let value = value_of(line);
        match record.kind {
            COMPUTE | STORE if record.op == 0 => self.put_is(value, operand(record, record.a, a)),
            COMPUTE | STORE | ASSERT | ASSUME => self.put_expression_line(record, value, a, b),
            LOAD => self.put_read(value, usize::from(record.a), line, a),
            INPUT => self.to.put(b"true"),
            LOCK => self.put_two(b"(= ", value, self.holder(line)),
            _ => self.put_is_constant(value, ZERO),
        }
    }

    /// What a mutex has that the thread of a line holds.
    fn holder(&self, line: u16) -> Term {
        Term::constant(holder(self.threads[usize::from(line)]))
    }

    fn put_guarded_out(&mut self, record: &Record, [_, line, _, _, _, target]: [u16; 6]) {
        let value = value_of(line);
        let item = usize::from(record.target);
        match record.kind {
            COMPUTE | LOAD | INPUT => self.put_is(value, local(target)),
            STORE => self.put_read(value, item, line, target),
            ASSERT | ASSUME => self.put_is_constant(value, ONE),
            _ => self.put_read(value, self.case.globals + item, line, target),
        }
    }

    /// The value of a line with an expression, with the facts of a comparison.
    fn put_expression_line(&mut self, record: &Record, value: Term, a: u16, b: u16) {
        let (x, y) = (operand(record, record.a, a), operand(record, record.b, b));
        let opened = self.put_facts(record, x, y);
        self.to.put(b"(= ");
        self.to.put(value.spelling());
        if matches!(record.kind, ASSERT | ASSUME) {
            self.to.put(b" (ite (= ");
            self.put_expression(record.op, x, y);
            self.to.put(b" #x0000) #x0000 #x0001))");
        } else {
            self.to.put(b" ");
            self.put_expression(record.op, x, y);
            self.to.put(b")");
        }
        self.close(opened);
    }

    /// How many parentheses are open behind them.
    fn put_facts(&mut self, record: &Record, x: Term, y: Term) -> usize {
        let sign: &[u8] = match record.op {
            5 => b"(= ",
            6 => b"(bvult ",
            _ => return 0,
        };
        if !x.is_variable() || !y.is_variable() {
            return 0;
        }
        let pairs = self.links * self.links;
        for pair in 0..pairs {
            let (s, u) = (self.sources[pair / self.links], self.sources[pair % self.links]);
            self.to.put(b"(and (=> (and ");
            self.put_two(b"(= ", x, s);
            self.to.put(b" ");
            self.put_two(b"(= ", y, u);
            self.to.put(b") (not (xor ");
            self.put_two(sign, x, y);
            self.to.put(b" ");
            self.put_two(sign, s, u);
            self.to.put(b"))) ");
        }
        pairs
    }

    fn put_expression(&mut self, op: u16, x: Term, y: Term) {
        let sign: &[u8] = match op {
            0 => return self.to.put(x.spelling()),
            1 => b"(bvadd ",
            2 => b"(bvsub ",
            3 => b"(bvand ",
            4 => b"(bvor ",
            5 => b"(ite (= ",
            _ => b"(ite (bvult ",
        };
        self.put_two(sign, x, y);
        if op >= 5 {
            self.to.put(b" #x0001 #x0000)");
        }
    }

    /// A 5.
    fn put_demand(&mut self, line: u16, guard: u16, target: u16) {
        self.open_with_not_run(b"(or ", line);
        self.put_demand_when_run(line, guard, target);
        self.to.put(b")");
    }

    fn put_demand_when_run(&mut self, line: u16, guard: u16, target: u16) {
        let record = self.case.record(line);
        match record.kind {
            ASSUME => self.put_is_constant(value_of(line), ONE),
            _ => self.put_finds(Term::constant(0), &record, line, guard, target),
        }
    }

    /// That a lock or unlock with a true guard finds this in its mutex.
    fn put_finds(&mut self, x: Term, record: &Record, line: u16, guard: u16, target: u16) {
        if record.guard != 0 {
            self.to.put(b"(=> ");
            self.put_guard(record, guard);
            self.to.put(b" ");
        }
        self.put_read(x, self.case.globals + usize::from(record.target), line, target);
        self.close(usize::from(record.guard != 0));
    }

    /// A 6.
    fn put_item_after(&mut self, item: usize, block: usize, last: u16) {
        let after = self.item_after(item, block);
        let (mut copy, mut opened) = (last, 0);
        while copy != 0 {
            self.to.put(b"(ite ");
            self.put_two(b"(= ", block_of(copy), Term::constant(block as u16));
            self.to.put(b" ");
            self.put_is(after, value_of(copy));
            self.to.put(b" ");
            opened += 1;
            copy = self.targets[usize::from(copy)];
        }
        self.put_is(after, self.item_before(item, block));
        self.close(opened);
    }

    /// The 7.
    fn put_some_line_violates(&mut self) {
        let mut opened = 0;
        for thread in 0..self.case.threads {
            for (line, record) in self.case.chain(thread).filter(|(_, record)| matches!(record.kind, ASSERT | UNLOCK)) {
                self.to.put(b"(or ");
                match record.kind {
                    ASSERT => self.put_is_constant(value_of(line), ZERO),
                    _ => self.put_stranger(&record, line),
                }
                self.to.put(b" ");
                opened += 1;
            }
        }
        self.to.put(b"false");
        self.close(opened);
    }

    /// That an unlock was run with a true guard by a thread that does not hold the mutex.
    fn put_stranger(&mut self, record: &Record, line: u16) {
        let (guard, target) = (self.guards[usize::from(line)], self.targets[usize::from(line)]);
        self.open_with_not_run(b"(not (or ", line);
        self.put_finds(self.holder(line), record, line, guard, target);
        self.to.put(b"))");
    }
}
