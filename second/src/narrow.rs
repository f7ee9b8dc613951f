//! Narrowing: numbers in the place of equations that always give the same one, and each other equation cut to the bits that are
//! asked for.

use crate::equation::{bits_of, Arg, Equation, Flat, Op, Operand};
use crate::plant::{self, Plant};
use crate::tree::BinaryOp;
use crate::width::{natural, GREATEST};

pub fn narrow(mut flat: Flat, widths: &[u32]) -> Flat {
    fold(&mut flat, widths);
    let demands = demands(&flat, widths);
    let mut new_widths = Vec::with_capacity(widths.len());
    for (equation, &demand) in flat.equations.iter_mut().zip(&demands) {
        let (narrowed, width) = cut(equation, demand, &new_widths);
        *equation = narrowed;
        new_widths.push(width);
    }
    flat
}

/// The equation as it is to be, and its width.
fn cut(equation: &Equation, demand: u32, before: &[u32]) -> (Equation, u32) {
    if let (Op::Input, Some(width)) = (equation.op, equation.declared) {
        return (*equation, width);
    }
    if demand == 0 {
        return (constant(0, 1), 1);
    }
    match equation.op {
        Op::Delay(initial) => {
            let width = match equation.args()[0].operand {
                Operand::Const(number) => bits_of(number),
                Operand::Eq(place) => before[place as usize],
                Operand::Past { .. } => unreachable!("no delay reads a past"),
            };
            (Equation::new(Op::Delay(low_bits(initial.into(), width) as u64), equation.args(), None), width)
        }
        Op::Rec { initial, first } => {
            let op = Op::Rec { initial: low_bits(initial.into(), demand) as u64, first };
            (Equation::new(op, equation.args(), Some(demand)), demand)
        }
        Op::Slice { high, low } => {
            let op = Op::Slice { high: low + u64::from(demand).min(high - low + 1) - 1, low };
            (Equation::new(op, equation.args(), Some(demand)), demand)
        }
        op => (Equation::new(op, equation.args(), Some(demand)), demand),
    }
}

fn constant(number: u64, width: u32) -> Equation {
    Equation::new(Op::Fit, &[Arg { operand: Operand::Const(number), signed: false }], Some(width))
}

fn low_bits(number: u128, width: u32) -> u128 {
    if width >= GREATEST {
        number
    } else {
        number & ((1 << width) - 1)
    }
}

/// Puts each known number in the place of its equation.
fn fold(flat: &mut Flat, widths: &[u32]) {
    let mut known: Vec<Option<u64>> = Vec::with_capacity(widths.len());
    for (equation, &width) in flat.equations.iter_mut().zip(widths) {
        let number = number_of(equation, width, widths, &known);
        if let Some(number) = number {
            *equation = constant(number, width);
        }
        known.push(number);
    }
}

/// The number of an equation that always gives the same one, of 64 bits at most.
fn number_of(equation: &Equation, width: u32, widths: &[u32], known: &[Option<u64>]) -> Option<u64> {
    if matches!(equation.op, Op::Input | Op::Delay(_) | Op::Rec { .. }) {
        return None;
    }
    let width_of = |operand: Operand| match operand {
        Operand::Const(number) => bits_of(number),
        Operand::Eq(place) | Operand::Past { rec: place, .. } => widths[place as usize],
    };
    let mut args = Vec::with_capacity(3);
    for arg in equation.args() {
        let number = match arg.operand {
            Operand::Const(number) => number,
            Operand::Eq(place) => known[place as usize]?,
            Operand::Past { .. } => return None,
        };
        args.push(Read { number, width: width_of(arg.operand), signed: arg.signed });
    }
    let bits = natural(equation, width_of)?;
    let natural = low_bits(result(equation.op, &args), bits);
    let is_negative = equation.gives_signed() && bits < GREATEST && natural >> (bits - 1) == 1;
    let value = if is_negative { natural | u128::MAX << bits } else { natural };
    u64::try_from(low_bits(value, width)).ok()
}

/// A number as an operator reads it.
struct Read {
    number: u64,
    width: u32,
    signed: bool,
}

impl Read {
    fn value(&self) -> i128 {
        let number = i128::from(self.number);
        let is_negative = self.signed && self.width <= u64::BITS && self.number >> (self.width - 1) == 1;
        if is_negative {
            number - (1 << self.width)
        } else {
            number
        }
    }
}

/// The result, of which the low bits count.
fn result(op: Op, args: &[Read]) -> u128 {
    let value = |place: usize| args[place].value();
    let number = |place: usize| u128::from(args[place].number);
    let compared = |test: fn(&i128, &i128) -> bool| u128::from(test(&value(0), &value(1)));
    match op {
        Op::Fit => value(0) as u128,
        Op::Not => !value(0) as u128,
        Op::Binary(BinaryOp::Add) => (value(0) + value(1)) as u128,
        Op::Binary(BinaryOp::Sub) => (value(0) - value(1)) as u128,
        Op::Binary(BinaryOp::Mul) => (value(0) as u128).wrapping_mul(value(1) as u128),
        Op::Binary(BinaryOp::And) => (value(0) & value(1)) as u128,
        Op::Binary(BinaryOp::Or) => (value(0) | value(1)) as u128,
        Op::Binary(BinaryOp::Xor) => (value(0) ^ value(1)) as u128,
        Op::Binary(BinaryOp::Equal) => compared(i128::eq),
        Op::Binary(BinaryOp::NotEqual) => compared(i128::ne),
        Op::Binary(BinaryOp::Less) => compared(i128::lt),
        Op::Binary(BinaryOp::LessEqual) => compared(i128::le),
        Op::Binary(BinaryOp::Greater) => compared(i128::gt),
        Op::Binary(BinaryOp::GreaterEqual) => compared(i128::ge),
        Op::Choose => value(if number(0) == 1 { 1 } else { 2 }) as u128,
        Op::Left(by) => (value(0) as u128).checked_shl(by).unwrap_or(0),
        Op::Right(by) => (value(0) >> by.min(127)) as u128,
        Op::LeftBy => (value(0) as u128).checked_shl(args[1].number.min(128) as u32).unwrap_or(0),
        Op::RightBy => (value(0) >> number(1).min(127)) as u128,
        Op::Slice { low, .. } => number(0) >> low,
        Op::Cat => number(0).checked_shl(args[1].width).unwrap_or(0) | number(1),
        Op::Input | Op::Delay(_) | Op::Rec { .. } => unreachable!("these are not known"),
    }
}

/// How many bits of each equation are asked for.
fn demands(flat: &Flat, widths: &[u32]) -> Vec<u32> {
    let mut demands = vec![0; widths.len()];
    for output in &flat.outputs {
        if let Operand::Eq(place) = output {
            demands[*place as usize] = widths[*place as usize];
        }
    }
    let mut place = widths.len();
    while place > 0 {
        place -= 1;
        let demand = demands[place];
        if demand == 0 {
            continue;
        }
        let equation = &flat.equations[place];
        for (number, arg) in equation.args().iter().enumerate() {
            let (Operand::Eq(asked) | Operand::Past { rec: asked, .. }) = arg.operand else { continue };
            let asked = asked as usize;
            let bits = asked_of(equation, number, demand, |operand| match operand {
                Operand::Const(number) => bits_of(number),
                Operand::Eq(place) | Operand::Past { rec: place, .. } => widths[place as usize],
            });
            let unit = if plant::is(Plant::DemandNotRounded) { 1 } else { 8 };
            let bits = bits.max(1).next_multiple_of(unit).min(widths[asked]);
            if bits > demands[asked] {
                demands[asked] = bits;
                // A recurrence stands later: its body is asked again.
                place = place.max(asked + 1);
            }
        }
    }
    demands
}

/// What an equation asks of an argument.
fn asked_of(equation: &Equation, number: usize, demand: u32, width_of: impl Fn(Operand) -> u32) -> u32 {
    let arg = equation.args()[number];
    let whole = width_of(arg.operand);
    match (equation.op, number) {
        (Op::Binary(op), _) if op.is_comparison() => whole,
        (Op::RightBy, _) | (Op::LeftBy, 1) => whole,
        (Op::Choose, 0) => 1,
        (Op::Left(by), _) => demand.saturating_sub(by),
        (Op::Right(by), _) if by < whole => demand + by,
        (Op::Right(_), _) => {
            if arg.signed {
                whole
            } else {
                1
            }
        }
        (Op::Slice { low, .. }, _) => demand + low as u32,
        (Op::Cat, 0) => demand.saturating_sub(width_of(equation.args()[1].operand)),
        _ => demand,
    }
}
