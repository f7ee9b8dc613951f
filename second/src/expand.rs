//! From the tree to flat equations: loops unrolled, and functions walked where they are called.

use crate::equation::{Arg, Equation, Flat, Op, Operand};
use crate::plant::{self, Plant};
use crate::scope::{Instance, Offence, Static, Statics, View};
use crate::token::Name;
use crate::tree::*;
use crate::Refusal;
use std::collections::HashMap;

const EQUATIONS: usize = 16_384;

/// The recurrence whose body is being made: its number is not known yet.
const THIS: u32 = u32::MAX;

type Made<T = ()> = Result<T, Refusal>;

pub fn expand(program: &[Item], statics: &Statics) -> Made<Flat> {
    let flat = Flat { equations: Vec::new(), outputs: Vec::new() };
    let mut maker = Maker { statics, flat, delays: HashMap::new(), frame: Frame::new(usize::MAX) };
    for (place, item) in program.iter().enumerate() {
        maker.frame.view.before = place + 1;
        maker.item(item)?;
    }
    Ok(maker.flat)
}

/// What a name stands for: an operand with its kind, and the number before its first sample.
#[derive(Clone, Copy)]
struct Stream {
    arg: Arg,
    initial: u64,
}

struct Frame {
    view: View,
    streams: HashMap<Instance, Stream>,
    own: Option<Instance>,
}

impl Frame {
    fn new(before: usize) -> Self {
        Frame { view: View::new(before), streams: HashMap::new(), own: None }
    }
}

struct Maker<'s, 'p> {
    statics: &'s Statics<'p>,
    flat: Flat,
    delays: HashMap<(Operand, u64), u32>,
    frame: Frame,
}

/// What the scope check has seen to.
fn sure<T>(checked: Result<T, Offence>) -> T {
    checked.ok().expect("the program keeps the rules of scope")
}

fn unsigned(operand: Operand) -> Arg {
    Arg { operand, signed: false }
}

fn narrow_to_u32(width: Option<u64>) -> Option<u32> {
    width.map(|width| width as u32)
}

/// The last equation of the expression is one of its own, to which a declared width can go.
fn is_operator(expr: &Expr) -> bool {
    match expr {
        Expr::Not(_) | Expr::Binary(..) | Expr::Shift(..) | Expr::Choose(_) | Expr::Slice(..) => true,
        Expr::Cat(parts) => parts.len() > 1,
        Expr::Number(_) | Expr::Name(_) | Expr::Call(..) => false,
    }
}

impl Maker<'_, '_> {
    /// A new equation, with the kind of its result.
    fn push(&mut self, op: Op, args: &[Arg], declared: Option<u32>) -> Made<Arg> {
        let place = self.flat.equations.len();
        if place == EQUATIONS {
            return Err(Refusal::Limit("equations", EQUATIONS as u64));
        }
        let equation = Equation::new(op, args, declared);
        self.flat.equations.push(equation);
        Ok(Arg { operand: Operand::Eq(place as u32), signed: equation.gives_signed() })
    }

    fn instance(&self, target: &Target) -> Instance {
        (target.name, sure(self.statics.index(&self.frame.view, &target.index)))
    }

    fn assign(&mut self, instance: Instance, arg: Arg) {
        self.frame.streams.insert(instance, Stream { arg, initial: 0 });
    }

    fn item(&mut self, item: &Item) -> Made {
        match item {
            Item::Input { name, width } => {
                let input = self.push(Op::Input, &[], Some(*width as u32))?;
                self.assign((*name, None), input);
            }
            Item::Output { name, width, body } => {
                let arg = self.assigned(body, *width)?;
                self.flat.outputs.push(arg.operand);
                self.assign((*name, None), arg);
            }
            Item::Statement(statement) => self.statement(statement)?,
            Item::Const { .. } | Item::Table { .. } | Item::Function(_) => {}
        }
        Ok(())
    }

    fn statement(&mut self, statement: &Statement) -> Made {
        match statement {
            Statement::Let { target, width, body } => {
                let instance = self.instance(target);
                let arg = self.assigned(body, *width)?;
                self.assign(instance, arg);
                Ok(())
            }
            Statement::Rec { target, width, initial, body } => {
                let instance = self.instance(target);
                let initial = sure(self.statics.fixed(&self.frame.view, initial));
                self.recurrence(instance, narrow_to_u32(*width), initial, body)
            }
            Statement::For { index, low, high, body } => {
                let low = sure(self.statics.fixed(&self.frame.view, low));
                let high = sure(self.statics.fixed(&self.frame.view, high));
                (low..high).try_for_each(|turn| self.turn(*index, turn, body))
            }
        }
    }

    fn turn(&mut self, index: Name, turn: u64, body: &[Statement]) -> Made {
        self.frame.view.loops.push((index, turn));
        body.iter().try_for_each(|statement| self.statement(statement))?;
        self.frame.view.loops.pop();
        Ok(())
    }

    fn recurrence(&mut self, instance: Instance, declared: Option<u32>, initial: u64, body: &Expr) -> Made {
        let first = self.flat.equations.len();
        self.frame.own = Some(instance);
        let made = self.expr(body)?;
        self.frame.own = None;
        if is_operator(body) && declared.is_some() {
            self.declare(made, declared);
        }
        let rec = self.push(Op::Rec { initial, first: first as u32 }, &[made], declared)?;
        let number = self.flat.equations.len() as u32 - 1;
        for arg in self.flat.equations[first..].iter_mut().flat_map(Equation::args_mut) {
            if let Operand::Past { rec, .. } = &mut arg.operand {
                *rec = number;
            }
        }
        self.frame.streams.insert(instance, Stream { arg: unsigned(rec.operand), initial });
        Ok(())
    }

    fn declare(&mut self, arg: Arg, declared: Option<u32>) {
        if let Operand::Eq(equation) = arg.operand {
            self.flat.equations[equation as usize].declared = declared;
        }
    }

    fn assigned(&mut self, expr: &Expr, width: Option<u64>) -> Made<Arg> {
        let arg = self.expr(expr)?;
        let declared = narrow_to_u32(width);
        if declared.is_none() {
            return Ok(arg);
        }
        if is_operator(expr) {
            self.declare(arg, declared);
            return Ok(arg);
        }
        self.push(Op::Fit, &[arg], declared)
    }

    fn expr(&mut self, expr: &Expr) -> Made<Arg> {
        match expr {
            Expr::Number(number) => Ok(unsigned(Operand::Const(*number))),
            Expr::Name(reference) => self.reference(reference),
            Expr::Call(name, arguments) => self.call(*name, arguments),
            Expr::Cat(parts) => self.joined(parts),
            Expr::Not(part) => {
                let part = self.expr(part)?;
                self.push(Op::Not, &[part], None)
            }
            Expr::Binary(op, pair) => {
                let args = [self.expr(&pair.0)?, self.expr(&pair.1)?];
                self.push(Op::Binary(*op), &args, None)
            }
            Expr::Shift(direction, pair) => self.shifted(*direction, &pair.0, &pair.1),
            Expr::Choose(parts) => {
                let condition = self.expr(&parts.0)?.number();
                let args = [condition, self.expr(&parts.1)?, self.expr(&parts.2)?];
                self.push(Op::Choose, &args, None)
            }
            Expr::Slice(part, high, low) => {
                let part = self.expr(part)?.number();
                let high = sure(self.statics.fixed(&self.frame.view, high));
                let low = sure(self.statics.fixed(&self.frame.view, low));
                self.push(Op::Slice { high, low }, &[part], None)
            }
        }
    }

    fn joined(&mut self, parts: &[Expr]) -> Made<Arg> {
        let parts = parts.iter().map(|part| self.expr(part)).collect::<Made<Vec<_>>>()?;
        let mut whole = parts[0].number();
        for part in &parts[1..] {
            whole = self.push(Op::Cat, &[whole, part.number()], None)?;
        }
        Ok(whole)
    }

    fn shifted(&mut self, direction: Direction, part: &Expr, amount: &Expr) -> Made<Arg> {
        let part = self.expr(part)?;
        if self.statics.is_amount(&self.frame.view, amount) {
            let amount = sure(self.statics.amount(&self.frame.view, amount)) as u32;
            let op = if direction == Direction::Left { Op::Left(amount) } else { Op::Right(amount) };
            return self.push(op, &[part], None);
        }
        let amount = self.expr(amount)?.number();
        let op = if direction == Direction::Left { Op::LeftBy } else { Op::RightBy };
        self.push(op, &[part, amount], None)
    }

    fn reference(&mut self, reference: &Reference) -> Made<Arg> {
        let view = &self.frame.view;
        let instance = (reference.name, sure(self.statics.index(view, &reference.index)));
        let delay = sure(self.statics.index(view, &reference.delay)).unwrap_or(0);
        if self.frame.own == Some(instance) && reference.delay.is_some() {
            return Ok(unsigned(Operand::Past { rec: THIS, by: delay as u16 }));
        }
        if view.turn(reference.name).is_some() || self.statics.get(view, reference.name).is_some() {
            return Ok(unsigned(Operand::Const(sure(self.statics.number(view, instance.0, instance.1)))));
        }
        let stream = self.frame.streams[&instance];
        let mut arg = stream.arg;
        for _ in 0..delay {
            arg.operand = self.delayed(arg.operand, stream.initial)?;
        }
        Ok(arg)
    }

    /// The operand one sample ago: the equation that is there already, or a new one.
    fn delayed(&mut self, operand: Operand, initial: u64) -> Made<Operand> {
        let key = (operand, if plant::is(Plant::DelaysMixed) { 0 } else { initial });
        if let Some(&there) = self.delays.get(&key) {
            return Ok(Operand::Eq(there));
        }
        let there = self.flat.equations.len() as u32;
        self.push(Op::Delay(initial), &[unsigned(operand)], None)?;
        self.delays.insert(key, there);
        Ok(Operand::Eq(there))
    }

    fn call(&mut self, name: Name, arguments: &[Expr]) -> Made<Arg> {
        let mut args = arguments.iter().map(|argument| self.expr(argument)).collect::<Made<Vec<_>>>()?;
        let statics = self.statics;
        let Some(Static::Function(known)) = statics.get(&self.frame.view, name) else {
            unreachable!("what is called is a function")
        };
        let Some(tree) = known.tree else {
            return Ok(Arg { signed: true, ..args[0] });
        };
        for (arg, parameter) in args.iter_mut().zip(&tree.parameters) {
            if parameter.width.is_some() {
                *arg = self.push(Op::Fit, &[*arg], narrow_to_u32(parameter.width))?;
            }
        }
        let outer = std::mem::replace(&mut self.frame, Frame::new(known.item));
        for (arg, parameter) in args.iter().zip(&tree.parameters) {
            self.assign((parameter.name, None), *arg);
        }
        tree.body.iter().try_for_each(|statement| self.statement(statement))?;
        let result = self.assigned(&tree.result, tree.width)?;
        self.frame = outer;
        Ok(result)
    }
}
