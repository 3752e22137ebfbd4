//! A record: its fields, and what its line does with the locals of its thread.

pub const COMPUTE: u16 = 1;
pub const STORE: u16 = 2;
pub const LOAD: u16 = 3;
pub const INPUT: u16 = 4;
pub const ASSERT: u16 = 5;
pub const ASSUME: u16 = 6;
pub const LOCK: u16 = 7;
pub const UNLOCK: u16 = 8;

/// As an operand: the constant c. An operand below is a local.
pub const CONSTANT: u16 = 16;

pub type Locals = [u16; 16];

#[derive(Clone, Copy, Default)]
pub struct Record {
    pub next: u16,
    pub kind: u16,
    pub guard: u16,
    pub target: u16,
    pub op: u16,
    pub a: u16,
    pub b: u16,
    pub c: u16,
}

impl Record {
    pub fn read(bytes: &[u8; 16]) -> Record {
        let field = |j: usize| u16::from_le_bytes([bytes[2 * j], bytes[2 * j + 1]]);
        Record {
            next: field(0),
            kind: field(1),
            guard: field(2),
            target: field(3),
            op: field(4),
            a: field(5),
            b: field(6),
            c: field(7),
        }
    }

    pub fn of(&[next, kind, guard, target, op, a, b, c]: &[u16; 8]) -> Record {
        Record { next, kind, guard, target, op, a, b, c }
    }

    pub fn fields(&self) -> [u16; 8] {
        [self.next, self.kind, self.guard, self.target, self.op, self.a, self.b, self.c]
    }

    /// Whether other threads may see the line.
    pub fn is_visible(&self) -> bool {
        matches!(self.kind, LOAD | STORE | LOCK | UNLOCK)
    }

    /// Whether check 9 passes.
    pub fn keeps_the_rules(&self, globals: u16, mutexes: u16) -> bool {
        let kind_is_kept = match self.kind {
            COMPUTE => self.target < 16 && self.is_expression(),
            STORE => self.target < globals && self.is_expression(),
            LOAD => self.target < 16 && self.a < globals && self.uses_only_a(),
            INPUT => self.target < 16 && self.a == 0 && self.uses_only_a(),
            ASSERT | ASSUME => self.target == 0 && self.is_expression(),
            LOCK | UNLOCK => self.target < mutexes && self.a == 0 && self.uses_only_a(),
            _ => false,
        };
        kind_is_kept && self.guard <= 32
    }

    fn is_expression(&self) -> bool {
        let uses_c = self.a == CONSTANT || self.b == CONSTANT;
        self.op <= 6 && self.a <= CONSTANT && self.b <= CONSTANT && (self.op != 0 || self.b == 0) && (uses_c || self.c == 0)
    }

    fn uses_only_a(&self) -> bool {
        self.op == 0 && self.b == 0 && self.c == 0
    }

    pub fn guard_is_true(&self, locals: &Locals) -> bool {
        match self.guard {
            0 => true,
            1..=16 => locals[usize::from(self.guard - 1)] != 0,
            _ => locals[usize::from(self.guard - 17)] == 0,
        }
    }

    pub fn expression(&self, locals: &Locals) -> u16 {
        let operand = |operand: u16| locals.get(usize::from(operand)).copied().unwrap_or(self.c);
        let (a, b) = (operand(self.a), operand(self.b));
        match self.op {
            0 => a,
            1 => a.wrapping_add(b),
            2 => a.wrapping_sub(b),
            3 => a & b,
            4 => a | b,
            5 => u16::from(a == b),
            _ => u16::from(a < b),
        }
    }
}
