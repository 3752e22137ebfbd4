//! Taking one line of a thread: the copies of its names, as far as the lines of
//! its thread were handed on.

use super::case::{Name, Record, ASSERT, LOAD};
use super::encode::operand_names;
use super::read::{has_too_many_items, keeps_the_rules, record, refuse_if};
use super::wrong::Wrong;
use crate::calls::{Refusal, Taken, NAMES};

/// What a thread "holds for each name".
pub type Held = [u16; NAMES];

/// A line as a builder hands it on: G and M of the case, the line's record number
/// and its record.
pub struct Handed {
    globals: usize,
    mutexes: usize,
    number: u16,
    record: Record,
    wrong: Wrong,
}

impl Handed {
    pub fn new(globals: u16, mutexes: u16, number: u16, fields: &[u16; 8], wrong: Wrong) -> Handed {
        Handed { globals: globals.into(), mutexes: mutexes.into(), number, record: record(fields), wrong }
    }

    /// The copies of the line's names are those before it; after it the line is
    /// held for its target.
    pub fn take(&self, held: &mut Held) -> Result<Taken, Refusal> {
        if let Err(refusal) = self.check() {
            if self.wrong == Wrong::HeldThoughRefused {
                self.hold(held);
            }
            return Err(refusal);
        }
        let before = *held;
        self.hold(held);
        Ok(self.copies(if self.wrong == Wrong::TakenBeforeRead { held } else { &before }))
    }

    /// Refusals 4, 6 and 9, in this order. No first or next number can name a
    /// record outside 1 to 256; the place of a 9 is the record's number. Next is
    /// not looked at, since a builder may not know it yet.
    fn check(&self) -> Result<(), Refusal> {
        let fields_are_kept = match keeps_the_rules(self.globals, self.mutexes, &self.record) {
            true => Ok(()),
            false => Err(Refusal { number: 9, place: self.number }),
        };
        refuse_if(has_too_many_items(self.globals, self.mutexes), 4)?;
        if self.wrong == Wrong::FieldsBeforeNumber {
            fields_are_kept?;
        }
        refuse_if(!(1..=256).contains(&self.number), 6)?;
        refuse_if(self.wrong == Wrong::NextLookedAt && self.record.next > 256, 6)?;
        fields_are_kept
    }

    /// "4, line, guard copy, a copy, b copy, target copy", from the third on.
    fn copies(&self, held: &Held) -> Taken {
        let copy = |name: Option<Name>| name.map_or(0, |name| held[self.place(name)]);
        let (a, b) = self.operand_names();
        let guard = self.record.guard_local().map(Name::Local);
        Taken::Copies { guard: copy(guard), a: copy(a), b: copy(b), target: copy(self.record.target_name()) }
    }

    fn operand_names(&self) -> (Option<Name>, Option<Name>) {
        let (a, b) = operand_names(&self.record);
        match self.wrong {
            Wrong::ConstantHasCopy if self.record.a == 16 => (Some(Name::Global(0)), b),
            Wrong::UnusedOperandHasCopy if self.record.op == 0 => (a, Some(Name::Local(0))),
            Wrong::LoadOfLocal if self.record.kind == LOAD => (Some(Name::Local(self.record.a)), b),
            _ => (a, b),
        }
    }

    /// "the latest line up to there that has it as target", "guarded or not";
    /// "assert and assume have no target".
    fn hold(&self, held: &mut Held) {
        let target = match self.record.kind {
            ASSERT if self.wrong == Wrong::AssertTaken => Some(Name::Local(0)),
            _ => self.record.target_name(),
        };
        // A line that is refused may name a target that there is not.
        let Some(latest) = target.and_then(|name| held.get_mut(self.place(name))) else { return };
        let is_left = match self.wrong {
            Wrong::GuardedLineNotTaken => self.record.guard != 0,
            Wrong::FirstLineStays => *latest != 0,
            _ => false,
        };
        if !is_left {
            *latest = self.number;
        }
    }

    /// Where a name stands: the 16 locals, the globals, the mutexes.
    fn place(&self, name: Name) -> usize {
        let globals = if self.wrong == Wrong::MutexAmongGlobals { 0 } else { self.globals };
        match name {
            Name::Local(local) => usize::from(local),
            Name::Global(global) => 16 + usize::from(global),
            Name::Mutex(mutex) => 16 + globals + usize::from(mutex),
        }
    }
}
