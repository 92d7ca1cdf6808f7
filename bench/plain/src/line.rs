//! What a stored line is made of.

#[derive(Clone, Copy, Debug)]
pub enum Term {
    Number(i32),
    /// The register that holds the parameter.
    Register(usize),
}

#[derive(Clone, Copy, Debug)]
pub enum Op {
    Add,
    Sub,
    Mul,
}

impl Op {
    pub fn apply(self, a: i64, b: i64) -> i64 {
        match self {
            Op::Add => a + b,
            Op::Sub => a - b,
            Op::Mul => a * b,
        }
    }
}

#[derive(Clone, Copy, Debug)]
pub enum Value {
    Bare(Term),
    Apply(Op, Term, Term),
}

#[derive(Clone, Copy, Debug)]
pub enum Relation {
    Eq,
    Ne,
    Lt,
    Le,
    Gt,
    Ge,
}

impl Relation {
    pub fn holds(self, a: i32, b: i32) -> bool {
        match self {
            Relation::Eq => a == b,
            Relation::Ne => a != b,
            Relation::Lt => a < b,
            Relation::Le => a <= b,
            Relation::Gt => a > b,
            Relation::Ge => a >= b,
        }
    }

    pub fn opposite(self) -> Relation {
        match self {
            Relation::Eq => Relation::Ne,
            Relation::Ne => Relation::Eq,
            Relation::Lt => Relation::Ge,
            Relation::Le => Relation::Gt,
            Relation::Gt => Relation::Le,
            Relation::Ge => Relation::Lt,
        }
    }
}

#[derive(Clone, Copy, Debug)]
pub struct Condition {
    pub relation: Relation,
    pub left: Term,
    pub right: Term,
}

impl Condition {
    pub fn opposite(self) -> Condition {
        Condition { relation: self.relation.opposite(), ..self }
    }
}

#[derive(Clone, Copy, Debug, PartialEq, Eq)]
pub enum BlockKind {
    While,
    If,
}

pub const AXES: usize = 4;
pub const PARAMETERS: usize = 6;
/// X, Y, Z, U and then the parameters.
pub const REGISTERS: usize = AXES + PARAMETERS;

/// A line as it is read.
#[derive(Clone, Copy, Debug)]
pub enum Line {
    Plain,
    Setting { register: usize, value: Value },
    Move { values: [Option<Value>; AXES] },
    Open { kind: BlockKind, label: u16, condition: Condition },
    End { kind: BlockKind, label: u16 },
}
