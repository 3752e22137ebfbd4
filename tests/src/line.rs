//! Lines of a thread, as the tests write them down.

/// The eight fields of a record.
#[derive(Clone, Copy, Debug, PartialEq, Eq)]
pub struct Line {
    pub next: u16,
    pub kind: u16,
    pub guard: u16,
    pub target: u16,
    pub op: u16,
    pub a: u16,
    pub b: u16,
    pub c: u16,
}

pub const COMPUTE: u16 = 1;
pub const STORE: u16 = 2;
pub const LOAD: u16 = 3;
pub const INPUT: u16 = 4;
pub const ASSERT: u16 = 5;
pub const ASSUME: u16 = 6;
pub const LOCK: u16 = 7;
pub const UNLOCK: u16 = 8;

pub const COPY: u16 = 0;
pub const SUM: u16 = 1;
pub const DIFFERENCE: u16 = 2;
pub const AND: u16 = 3;
pub const OR: u16 = 4;
pub const EQUAL: u16 = 5;
pub const LESS: u16 = 6;

/// The operand that stands for the constant c.
pub const CONSTANT: u16 = 16;

impl From<[u16; 8]> for Line {
    fn from([next, kind, guard, target, op, a, b, c]: [u16; 8]) -> Self {
        Line { next, kind, guard, target, op, a, b, c }
    }
}

impl Line {
    pub fn fields(&self) -> [u16; 8] {
        [self.next, self.kind, self.guard, self.target, self.op, self.a, self.b, self.c]
    }

    pub fn guarded(mut self, guard: u16) -> Line {
        self.guard = guard;
        self
    }

    pub fn has_expression(&self) -> bool {
        matches!(self.kind, COMPUTE | STORE | ASSERT | ASSUME)
    }

    /// Whether a switch may come before the line, wherever it stands.
    pub fn is_visible(&self) -> bool {
        matches!(self.kind, LOAD | STORE | LOCK | UNLOCK)
    }

    /// Whether a run may violate at the line.
    pub fn can_violate(&self) -> bool {
        matches!(self.kind, ASSERT | UNLOCK)
    }

    /// The value that stands for the line where it is not run.
    pub fn unrun_value(&self) -> u16 {
        match self.kind {
            ASSERT | ASSUME => 1,
            _ => 0,
        }
    }

    /// The local that the guard looks at.
    pub fn guard_local(&self) -> Option<usize> {
        (self.guard != 0).then(|| usize::from((self.guard - 1) % 16))
    }

    /// Whether the guard lets the line run when its local has this value.
    pub fn guard_is_true(&self, local: u16) -> bool {
        self.guard == 0 || (self.guard <= 16) == (local != 0)
    }
}

/// What a mutex has that this thread holds.
pub fn holder(thread: usize) -> u16 {
    1 + thread as u16
}

/// What an op gives.
pub fn apply(op: u16, a: u16, b: u16) -> u16 {
    let (a, b) = (u32::from(a), u32::from(b));
    let result = match op {
        COPY => a,
        SUM => a + b,
        DIFFERENCE => a + 65_536 - b,
        AND => a & b,
        OR => a | b,
        EQUAL => u32::from(a == b),
        LESS => u32::from(a < b),
        _ => unreachable!("no such op"),
    };
    (result % 65_536) as u16
}

fn line(kind: u16, target: u16, [op, a, b, c]: [u16; 4]) -> Line {
    Line { next: 0, kind, guard: 0, target, op, a, b, c }
}

pub fn compute(target: u16, expression: [u16; 4]) -> Line {
    line(COMPUTE, target, expression)
}

pub fn store(global: u16, expression: [u16; 4]) -> Line {
    line(STORE, global, expression)
}

pub fn load(target: u16, global: u16) -> Line {
    line(LOAD, target, [0, global, 0, 0])
}

pub fn input(target: u16) -> Line {
    line(INPUT, target, [0; 4])
}

pub fn assert(expression: [u16; 4]) -> Line {
    line(ASSERT, 0, expression)
}

pub fn assume(expression: [u16; 4]) -> Line {
    line(ASSUME, 0, expression)
}

pub fn lock(mutex: u16) -> Line {
    line(LOCK, mutex, [0; 4])
}

pub fn unlock(mutex: u16) -> Line {
    line(UNLOCK, mutex, [0; 4])
}

/// The expression that is a constant.
pub fn constant(c: u16) -> [u16; 4] {
    [COPY, CONSTANT, 0, c]
}

/// The expression that is a local.
pub fn local(number: u16) -> [u16; 4] {
    [COPY, number, 0, 0]
}
