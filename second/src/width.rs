//! How wide each equation is: as declared, or as wide as its results can be.

use crate::equation::{bits_of, Equation, Flat, Op, Operand};
use crate::tree::BinaryOp;
use crate::Refusal;

pub const GREATEST: u32 = 128;

/// The width that holds every result, where the operator takes operands of these widths.
pub fn natural(equation: &Equation, width_of: impl Fn(Operand) -> u32) -> Option<u32> {
    let args = equation.args();
    let width = |place: usize| width_of(args[place].operand);
    let signed_width = |place: usize| width(place) + u32::from(!args[place].signed);
    let is_signed = equation.is_signed();
    let wider = |a: usize, b: usize| match is_signed {
        true => signed_width(a).max(signed_width(b)),
        false => width(a).max(width(b)),
    };
    Some(match equation.op {
        Op::Input => 0,
        Op::Fit | Op::Not | Op::LeftBy | Op::RightBy | Op::Delay(_) | Op::Rec { .. } => width(0),
        Op::Binary(BinaryOp::Add) => wider(0, 1) + 1,
        Op::Binary(BinaryOp::Sub) => wider(0, 1) + u32::from(is_signed),
        Op::Binary(BinaryOp::Mul) if is_signed => signed_width(0) + signed_width(1),
        Op::Binary(BinaryOp::Mul) | Op::Cat => width(0) + width(1),
        Op::Binary(BinaryOp::And | BinaryOp::Or | BinaryOp::Xor) => wider(0, 1),
        Op::Binary(_) => 1,
        Op::Choose if width(0) == 1 => wider(1, 2),
        Op::Choose => return None,
        Op::Left(by) => width(0) + by,
        Op::Right(by) => width(0).saturating_sub(by).max(1),
        Op::Slice { high, low } if high < u64::from(width(0)) => (high - low) as u32 + 1,
        Op::Slice { .. } => return None,
    })
}

/// The widths of all equations, or the first equation without one.
pub fn solve(flat: &Flat) -> Result<Vec<u32>, Refusal> {
    let mut solver = Solver { equations: &flat.equations, widths: Vec::with_capacity(flat.equations.len()) };
    let mut free =
        flat.equations.iter().enumerate().filter_map(|(rec, equation)| match (equation.op, equation.declared) {
            (Op::Rec { initial, first }, None) => Some((rec, initial, first as usize)),
            _ => None,
        });
    let mut next = free.next();
    while solver.widths.len() < flat.equations.len() {
        let place = solver.widths.len();
        match next {
            Some((rec, initial, first)) if first == place => {
                solver.free_recurrence(rec, initial).ok_or(Refusal::NoWidth(rec))?;
                next = free.next();
            }
            _ => solver.take(place, 0).ok_or(Refusal::NoWidth(place))?,
        }
    }
    Ok(solver.widths)
}

struct Solver<'e> {
    equations: &'e [Equation],
    widths: Vec<u32>,
}

impl Solver<'_> {
    /// The width of an operand, where the recurrence that is being tried is so wide.
    fn width_of(&self, operand: Operand, tried: u32) -> u32 {
        match operand {
            Operand::Const(number) => bits_of(number),
            Operand::Eq(place) => self.widths[place as usize],
            Operand::Past { rec, .. } => self.equations[rec as usize].declared.unwrap_or(tried),
        }
    }

    fn take(&mut self, place: usize, tried: u32) -> Option<()> {
        let equation = &self.equations[place];
        let natural = natural(equation, |operand| self.width_of(operand, tried))?;
        let width = equation.declared.unwrap_or(natural);
        self.widths.push(width);
        (width <= GREATEST).then_some(())
    }

    /// The least width at which the body has widths and fits.
    fn free_recurrence(&mut self, rec: usize, initial: u64) -> Option<()> {
        let first = self.widths.len();
        let body = self.equations[rec].args()[0].operand;
        for tried in bits_of(initial)..=GREATEST {
            self.widths.truncate(first);
            let is_made = (first..rec).all(|place| self.take(place, tried).is_some());
            if is_made && self.width_of(body, tried) <= tried {
                self.widths.push(tried);
                return Some(());
            }
        }
        None
    }
}

/// The widths of the inputs, in their order.
pub fn of_inputs(flat: &Flat, widths: &[u32]) -> Vec<u32> {
    let inputs = flat.equations.iter().zip(widths).filter(|(equation, _)| equation.op == Op::Input);
    inputs.map(|(_, width)| *width).collect()
}
