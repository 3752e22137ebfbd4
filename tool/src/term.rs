//! What the value of a line is made of, with the copies that its constraint has: said here once, read of an assignment by
//! `reads`, and put into words by `demands`.

use crate::case::{Case, Kind, Record};
use crate::names::Name;
use crate::table::Row;

#[derive(Clone, Copy)]
pub enum Term {
    /// An input is free.
    Any,
    /// This value, whatever was read, and why.
    Fixed(u16, &'static str),
    /// What a lock by this thread puts into its mutex.
    Held(u16),
    Local {
        local: Name,
        copy: u16,
    },
    Item {
        item: usize,
        copy: u16,
    },
    /// The line's expression.
    Expression {
        a_copy: u16,
        b_copy: u16,
    },
    /// 1 where the expression is not 0, and else 0.
    Truth {
        a_copy: u16,
        b_copy: u16,
    },
}

impl Term {
    /// The value where the guard is true.
    pub fn if_true(record: &Record, [_, _, _, a_copy, b_copy, _]: Row) -> Term {
        match record.kind {
            Kind::Input => Term::Any,
            Kind::Load => Term::Item { item: usize::from(record.a), copy: a_copy },
            Kind::Lock => Term::Held(record.thread as u16),
            Kind::Unlock => Term::Fixed(0, "an unlock gives 0"),
            Kind::Assert | Kind::Assume => Term::Truth { a_copy, b_copy },
            _ => Term::Expression { a_copy, b_copy },
        }
    }

    /// The value where the guard is false: that of the target, if there is one, which keeps it.
    pub fn if_false(case: &Case, record: &Record, [_, _, _, _, _, copy]: Row) -> Term {
        match record.kind {
            Kind::Assert => Term::Fixed(1, "an assert then has 1"),
            Kind::Assume => Term::Fixed(1, "an assume then has 1"),
            Kind::Store => Term::Item { item: usize::from(record.target), copy },
            Kind::Lock | Kind::Unlock => Term::mutex(case, record, copy),
            _ => Term::Local { local: record.local(record.target), copy },
        }
    }

    /// The value of a line that was not run.
    pub fn if_unrun(record: &Record) -> Term {
        match record.kind {
            Kind::Assert => Term::Fixed(1, "an assert that was not run has 1"),
            Kind::Assume => Term::Fixed(1, "an assume that was not run has 1"),
            _ => Term::Fixed(0, "a line that was not run has 0"),
        }
    }

    /// The mutex that is the line's target.
    pub fn mutex(case: &Case, record: &Record, copy: u16) -> Term {
        Term::Item { item: case.globals + usize::from(record.target), copy }
    }
}
