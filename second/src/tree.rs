//! The tree of a program. Parentheses leave no trace in it.

use crate::token::Name;

pub enum Fixed {
    Number(u64),
    Name(Name, Option<Box<Fixed>>),
    Binary(FixedOp, Box<(Fixed, Fixed)>),
}

#[derive(Clone, Copy)]
pub enum FixedOp {
    Add,
    Sub,
    Mul,
    Div,
    Rem,
}

#[derive(Clone, Copy, PartialEq, Eq, Debug)]
pub enum BinaryOp {
    Add,
    Sub,
    Mul,
    And,
    Or,
    Xor,
    Equal,
    NotEqual,
    Less,
    LessEqual,
    Greater,
    GreaterEqual,
}

#[derive(Clone, Copy, PartialEq, Eq)]
pub enum Direction {
    Left,
    Right,
}

pub struct Reference {
    pub name: Name,
    pub index: Option<Fixed>,
    pub delay: Option<Fixed>,
}

pub enum Expr {
    Number(u64),
    Name(Reference),
    Call(Name, Vec<Expr>),
    Cat(Vec<Expr>),
    Not(Box<Expr>),
    Binary(BinaryOp, Box<(Expr, Expr)>),
    Shift(Direction, Box<(Expr, Expr)>),
    Choose(Box<(Expr, Expr, Expr)>),
    Slice(Box<Expr>, Fixed, Fixed),
}

pub struct Target {
    pub name: Name,
    pub index: Option<Fixed>,
}

pub enum Statement {
    Let { target: Target, width: Option<u64>, body: Expr },
    Rec { target: Target, width: Option<u64>, initial: Fixed, body: Expr },
    For { index: Name, low: Fixed, high: Fixed, body: Vec<Statement> },
}

pub struct Parameter {
    pub name: Name,
    pub width: Option<u64>,
}

pub struct Function {
    pub name: Name,
    pub parameters: Vec<Parameter>,
    pub width: Option<u64>,
    pub body: Vec<Statement>,
    pub result: Expr,
}

pub enum Item {
    Input { name: Name, width: u64 },
    Output { name: Name, width: Option<u64>, body: Expr },
    Const { name: Name, value: Fixed },
    Table { name: Name, entries: Vec<Fixed> },
    Function(Function),
    Statement(Statement),
}
