//! Flat equations: one for each input, operator, delay and recurrence.

use crate::tree::BinaryOp;

#[derive(Clone, Copy, PartialEq, Eq, Hash, Debug)]
pub enum Operand {
    Const(u64),
    Eq(u32),
    /// The recurrence's number so many samples ago.
    Past {
        rec: u32,
        by: u16,
    },
}

/// An operand, and whether it is read as signed.
#[derive(Clone, Copy, Debug)]
pub struct Arg {
    pub operand: Operand,
    pub signed: bool,
}

impl Arg {
    pub fn number(self) -> Arg {
        Arg { signed: false, ..self }
    }
}

#[derive(Clone, Copy, PartialEq, Eq, Debug)]
pub enum Op {
    Input,
    Fit,
    Not,
    Binary(BinaryOp),
    Choose,
    Left(u32),
    Right(u32),
    LeftBy,
    RightBy,
    Slice { high: u64, low: u64 },
    Cat,
    Delay(u64),
    Rec { initial: u64, first: u32 },
}

impl Op {
    pub fn arity(self) -> usize {
        match self {
            Op::Input => 0,
            Op::Fit | Op::Not | Op::Left(_) | Op::Right(_) | Op::Slice { .. } | Op::Delay(_) | Op::Rec { .. } => 1,
            Op::Binary(_) | Op::LeftBy | Op::RightBy | Op::Cat => 2,
            Op::Choose => 3,
        }
    }
}

impl BinaryOp {
    pub fn is_comparison(self) -> bool {
        use BinaryOp::*;
        matches!(self, Equal | NotEqual | Less | LessEqual | Greater | GreaterEqual)
    }
}

#[derive(Clone, Copy, Debug)]
pub struct Equation {
    pub op: Op,
    pub declared: Option<u32>,
    args: [Arg; 3],
}

impl Equation {
    pub fn new(op: Op, given: &[Arg], declared: Option<u32>) -> Self {
        let mut args = [Arg { operand: Operand::Const(0), signed: false }; 3];
        args[..given.len()].copy_from_slice(given);
        Equation { op, declared, args }
    }

    pub fn args(&self) -> &[Arg] {
        &self.args[..self.op.arity()]
    }

    pub fn args_mut(&mut self) -> &mut [Arg] {
        &mut self.args[..self.op.arity()]
    }

    /// The arguments whose kinds decide: both sides of an operator, both branches of a choice, what is shifted.
    fn deciding(&self) -> &[Arg] {
        match self.op {
            Op::Choose => &self.args[1..],
            Op::LeftBy | Op::RightBy => &self.args[..1],
            Op::Slice { .. } | Op::Cat | Op::Delay(_) => &[],
            _ => self.args(),
        }
    }

    /// The table for signed operands holds.
    pub fn is_signed(&self) -> bool {
        self.deciding().iter().any(|arg| arg.signed)
    }

    /// The result is read as signed.
    pub fn gives_signed(&self) -> bool {
        self.is_signed() && !matches!(self.op, Op::Binary(op) if op.is_comparison())
    }
}

/// The equations, and the operands that the outputs show.
pub struct Flat {
    pub equations: Vec<Equation>,
    pub outputs: Vec<Operand>,
}

/// How many bits a constant takes.
pub fn bits_of(number: u64) -> u32 {
    (u64::BITS - number.leading_zeros()).max(1)
}
