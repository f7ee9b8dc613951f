//! Why a call ends without the whole answer: its line for people and its status.

/// A refusal with its cause. Tokens, items, equations, units, bytes, words and programs are counted from 0, lines from 1.
#[derive(Clone, PartialEq, Eq, Debug)]
pub enum Refusal {
    Usage,
    Syntax(usize),
    Scope { rule: u8, item: usize },
    NoWidth(usize),
    NoFit(usize),
    Limit(&'static str, u64),
    BadSample(usize),
    BadStall(usize),
    BadConfig { rule: u8, word: usize },
    ReadFault,
    WriteFault,
    BadList(usize),
    Part { program: usize, cause: Box<Refusal> },
}

impl Refusal {
    /// The line of the refusal, without its end.
    pub fn note(&self) -> String {
        match self {
            Refusal::Usage => {
                "usage: piperench MODE FIRST [SECOND] [--stripes P] [--stall FILE] [--fabric F] [--narrow]".to_string()
            }
            Refusal::Syntax(token) => format!("syntax: token {token}"),
            Refusal::Scope { rule, item } => format!("scope: rule {rule} item {item}"),
            Refusal::NoWidth(equation) => format!("no width: equation {equation}"),
            Refusal::NoFit(unit) => format!("no fit: unit {unit}"),
            Refusal::Limit(name, number) => format!("limit: {name} {number}"),
            Refusal::BadSample(line) => format!("bad sample: line {line}"),
            Refusal::BadStall(byte) => format!("bad stall: byte {byte}"),
            Refusal::BadConfig { rule, word } => format!("bad config: rule {rule} word {word}"),
            Refusal::ReadFault => "read fault".to_string(),
            Refusal::WriteFault => "write fault".to_string(),
            Refusal::BadList(line) => format!("bad list: line {line}"),
            Refusal::Part { program, cause } => format!("program {program}: {}", cause.note()),
        }
    }

    pub fn status(&self) -> u8 {
        match self {
            Refusal::Usage => 2,
            Refusal::Syntax(_) | Refusal::Scope { .. } => 3,
            Refusal::NoWidth(_) => 4,
            Refusal::NoFit(_) => 5,
            Refusal::Limit(..) => 6,
            Refusal::BadSample(_) => 7,
            Refusal::BadStall(_) => 8,
            Refusal::BadConfig { .. } => 9,
            Refusal::ReadFault => 10,
            Refusal::WriteFault => 11,
            Refusal::BadList(_) => 14,
            Refusal::Part { cause, .. } => cause.status(),
        }
    }
}
