//! The rules of scope: the first offence on a walk through the items, with loops unrolled and each function's body walked once.
//! What an accepted program says of constants, tables and functions is kept for the passes that follow.

use crate::token::{Name, SIGNED};
use crate::tree::*;
use crate::Refusal;
use std::collections::{HashMap, HashSet};

const TURNS: u32 = 65_536;
const DEPTH: u32 = 32;
const GREATEST: u64 = 128;
const LONGEST_DELAY: u64 = 256;

/// A broken rule, or too many turns.
pub enum Offence {
    Rule(u8),
    Turns,
}

type Check<T = ()> = Result<T, Offence>;

pub type Instance = (Name, Option<u64>);

/// What is not a stream and stays: a constant, a table, or a function.
pub enum Static<'p> {
    Const(u64),
    Table(Vec<u64>),
    Function(Known<'p>),
}

/// A function that was walked. `signed` has no tree.
pub struct Known<'p> {
    pub tree: Option<&'p Function>,
    /// The number of its item, from 1.
    pub item: usize,
    turns: u32,
    depth: u32,
    has_past: bool,
}

/// The statics by name, each with the number of its item: from 1, because `signed` is there before the first.
#[derive(Default)]
pub struct Statics<'p> {
    by_name: HashMap<Name, (usize, Static<'p>)>,
}

/// What constant expressions see: the statics of the items before one, and the loops around.
pub struct View {
    pub before: usize,
    pub loops: Vec<(Name, u64)>,
}

impl View {
    pub fn new(before: usize) -> Self {
        View { before, loops: Vec::new() }
    }

    pub fn turn(&self, name: Name) -> Option<u64> {
        self.loops.iter().rev().find(|(index, _)| *index == name).map(|(_, value)| *value)
    }
}

impl<'p> Statics<'p> {
    pub fn get(&self, view: &View, name: Name) -> Option<&Static<'p>> {
        self.by_name.get(&name).filter(|(item, _)| *item < view.before).map(|(_, kept)| kept)
    }

    pub fn function(&self, view: &View, name: Name) -> Option<&Known<'p>> {
        match self.get(view, name) {
            Some(Static::Function(known)) => Some(known),
            _ => None,
        }
    }

    /// The number of a constant, an index, or an entry.
    pub fn number(&self, view: &View, name: Name, index: Option<u64>) -> Check<u64> {
        if let (Some(value), None) = (view.turn(name), index) {
            return Ok(value);
        }
        match (self.get(view, name), index) {
            (Some(Static::Const(value)), None) => Ok(*value),
            (Some(Static::Table(entries)), Some(index)) => {
                let entry = usize::try_from(index).ok().and_then(|index| entries.get(index));
                entry.copied().ok_or(Offence::Rule(7))
            }
            _ => Err(Offence::Rule(3)),
        }
    }

    pub fn fixed(&self, view: &View, fixed: &Fixed) -> Check<u64> {
        match fixed {
            Fixed::Number(number) => Ok(*number),
            Fixed::Name(name, index) => {
                let index = index.as_ref().map(|index| self.fixed(view, index)).transpose()?;
                self.number(view, *name, index)
            }
            Fixed::Binary(op, pair) => {
                let left = self.fixed(view, &pair.0)?;
                let right = self.fixed(view, &pair.1)?;
                step(*op, left, right)
            }
        }
    }

    pub fn index(&self, view: &View, index: &Option<Fixed>) -> Check<Option<u64>> {
        index.as_ref().map(|index| self.fixed(view, index)).transpose()
    }

    /// Whether a shift by this is one by a constant.
    pub fn is_amount(&self, view: &View, amount: &Expr) -> bool {
        match amount {
            Expr::Number(_) => true,
            Expr::Name(Reference { name, index: None, delay: None }) => {
                view.turn(*name).is_some() || matches!(self.get(view, *name), Some(Static::Const(_)))
            }
            Expr::Name(Reference { name, index: Some(_), delay: None }) => {
                matches!(self.get(view, *name), Some(Static::Table(_)))
            }
            Expr::Binary(BinaryOp::Add | BinaryOp::Sub | BinaryOp::Mul, pair) => {
                self.is_amount(view, &pair.0) && self.is_amount(view, &pair.1)
            }
            _ => false,
        }
    }

    /// The amount of a shift by a constant.
    pub fn amount(&self, view: &View, amount: &Expr) -> Check<u64> {
        match amount {
            Expr::Number(number) => Ok(*number),
            Expr::Name(reference) => {
                let index = self.index(view, &reference.index)?;
                self.number(view, reference.name, index)
            }
            Expr::Binary(op, pair) => {
                let op = match op {
                    BinaryOp::Add => FixedOp::Add,
                    BinaryOp::Sub => FixedOp::Sub,
                    _ => FixedOp::Mul,
                };
                let left = self.amount(view, &pair.0)?;
                let right = self.amount(view, &pair.1)?;
                step(op, left, right)
            }
            _ => unreachable!("amounts are numbers, names and sums of them"),
        }
    }
}

fn step(op: FixedOp, left: u64, right: u64) -> Check<u64> {
    match op {
        FixedOp::Add => left.checked_add(right).ok_or(Offence::Rule(5)),
        FixedOp::Sub => left.checked_sub(right).ok_or(Offence::Rule(5)),
        FixedOp::Mul => left.checked_mul(right).ok_or(Offence::Rule(5)),
        FixedOp::Div => left.checked_div(right).ok_or(Offence::Rule(6)),
        FixedOp::Rem => left.checked_rem(right).ok_or(Offence::Rule(6)),
    }
}

pub fn check(program: &[Item]) -> Result<Statics<'_>, Refusal> {
    let mut walk = Walk { statics: Statics::default(), frame: Frame::new(usize::MAX) };
    let signed = Known { tree: None, item: 0, turns: 0, depth: 0, has_past: false };
    walk.statics.by_name.insert(SIGNED, (0, Static::Function(signed)));
    for (place, item) in program.iter().enumerate() {
        walk.item(place + 1, item).map_err(|offence| match offence {
            Offence::Rule(rule) => Refusal::Scope { rule, item: place },
            Offence::Turns => Refusal::Limit("turns", TURNS.into()),
        })?;
    }
    let has_input = program.iter().any(|item| matches!(item, Item::Input { .. }));
    let has_output = program.iter().any(|item| matches!(item, Item::Output { .. }));
    if !has_input || !has_output {
        return Err(Refusal::Scope { rule: 10, item: program.len() });
    }
    Ok(walk.statics)
}

/// What is seen and counted in the program, or in the body of a function.
struct Frame {
    view: View,
    streams: HashMap<Name, HashSet<Option<u64>>>,
    own: Option<Instance>,
    turns: u32,
    is_function: bool,
    /// The depth of the deepest function that was called.
    depth: u32,
}

impl Frame {
    fn new(before: usize) -> Self {
        let view = View::new(before);
        Frame { view, streams: HashMap::new(), own: None, turns: 0, is_function: false, depth: 0 }
    }
}

struct Walk<'p> {
    statics: Statics<'p>,
    frame: Frame,
}

fn holds(rule: u8, is_kept: bool) -> Check {
    if is_kept {
        Ok(())
    } else {
        Err(Offence::Rule(rule))
    }
}

fn declared(width: Option<u64>) -> Check {
    holds(8, width.is_none_or(|width| (1..=GREATEST).contains(&width)))
}

impl<'p> Walk<'p> {
    fn count(&mut self, more: u32) -> Check {
        self.frame.turns += more;
        if self.frame.turns > TURNS {
            Err(Offence::Turns)
        } else {
            Ok(())
        }
    }

    fn fixed(&self, fixed: &Fixed) -> Check<u64> {
        self.statics.fixed(&self.frame.view, fixed)
    }

    fn instance(&self, target: &Target) -> Check<Instance> {
        Ok((target.name, self.statics.index(&self.frame.view, &target.index)?))
    }

    /// The name is visible as something that is no stream.
    fn is_other(&self, name: Name) -> bool {
        let view = &self.frame.view;
        view.turn(name).is_some() || self.statics.get(view, name).is_some()
    }

    fn introduce_stream(&mut self, (name, index): Instance) -> Check {
        holds(1, !self.is_other(name))?;
        holds(1, self.frame.streams.entry(name).or_default().insert(index))
    }

    fn fresh(&self, name: Name) -> Check {
        holds(1, !self.is_other(name) && !self.frame.streams.contains_key(&name))
    }

    fn introduce(&mut self, place: usize, name: Name, kept: Static<'p>) -> Check {
        self.fresh(name)?;
        self.statics.by_name.insert(name, (place, kept));
        Ok(())
    }

    fn item(&mut self, place: usize, item: &'p Item) -> Check {
        self.count(1)?;
        match item {
            Item::Input { name, width } => {
                declared(Some(*width))?;
                self.introduce_stream((*name, None))
            }
            Item::Output { name, width, body } => {
                declared(*width)?;
                self.expr(body)?;
                self.introduce_stream((*name, None))
            }
            Item::Const { name, value } => {
                let value = self.fixed(value)?;
                self.introduce(place, *name, Static::Const(value))
            }
            Item::Table { name, entries } => {
                let entries = entries.iter().map(|entry| self.fixed(entry)).collect::<Check<Vec<_>>>()?;
                self.introduce(place, *name, Static::Table(entries))
            }
            Item::Function(function) => self.function(place, function),
            Item::Statement(statement) => self.statement(statement),
        }
    }

    fn function(&mut self, place: usize, tree: &'p Function) -> Check {
        self.fresh(tree.name)?;
        let outer = std::mem::replace(&mut self.frame, Frame { is_function: true, ..Frame::new(place) });
        for parameter in &tree.parameters {
            self.introduce_stream((parameter.name, None))?;
        }
        tree.parameters.iter().try_for_each(|parameter| declared(parameter.width))?;
        declared(tree.width)?;
        self.statements(&tree.body)?;
        self.expr(&tree.result)?;
        let has_past = self.is_past_in(&tree.body) || self.has_past(&tree.result);
        let inner = std::mem::replace(&mut self.frame, outer);
        let known = Known { tree: Some(tree), item: place, turns: inner.turns, depth: inner.depth + 1, has_past };
        self.introduce(place, tree.name, Static::Function(known))
    }

    fn is_past_in(&self, body: &[Statement]) -> bool {
        body.iter().any(|statement| match statement {
            Statement::Let { body, .. } => self.has_past(body),
            Statement::Rec { .. } => true,
            Statement::For { body, .. } => self.is_past_in(body),
        })
    }

    /// The text has `@`, or a call of a function that has a past.
    fn has_past(&self, expr: &Expr) -> bool {
        match expr {
            Expr::Number(_) => false,
            Expr::Name(reference) => reference.delay.is_some(),
            Expr::Call(name, arguments) => {
                let known = self.statics.function(&self.frame.view, *name);
                known.is_some_and(|known| known.has_past) || arguments.iter().any(|part| self.has_past(part))
            }
            Expr::Cat(parts) => parts.iter().any(|part| self.has_past(part)),
            Expr::Not(part) | Expr::Slice(part, _, _) => self.has_past(part),
            Expr::Binary(_, pair) | Expr::Shift(_, pair) => self.has_past(&pair.0) || self.has_past(&pair.1),
            Expr::Choose(parts) => self.has_past(&parts.0) || self.has_past(&parts.1) || self.has_past(&parts.2),
        }
    }

    fn statements(&mut self, body: &[Statement]) -> Check {
        body.iter().try_for_each(|statement| {
            self.count(1)?;
            self.statement(statement)
        })
    }

    fn statement(&mut self, statement: &Statement) -> Check {
        match statement {
            Statement::Let { target, width, body } => {
                let instance = self.instance(target)?;
                declared(*width)?;
                self.expr(body)?;
                self.introduce_stream(instance)
            }
            Statement::Rec { target, width, initial, body } => {
                let instance = self.instance(target)?;
                declared(*width)?;
                let initial = self.fixed(initial)?;
                holds(9, width.is_none_or(|width| width >= 64 || initial >> width == 0))?;
                self.frame.own = Some(instance);
                self.expr(body)?;
                self.frame.own = None;
                self.introduce_stream(instance)
            }
            Statement::For { index, low, high, body } => {
                let low = self.fixed(low)?;
                let high = self.fixed(high)?;
                self.fresh(*index)?;
                (low..high).try_for_each(|turn| self.turn(*index, turn, body))
            }
        }
    }

    fn turn(&mut self, index: Name, turn: u64, body: &[Statement]) -> Check {
        self.count(1)?;
        self.frame.view.loops.push((index, turn));
        self.statements(body)?;
        self.frame.view.loops.pop();
        Ok(())
    }

    fn expr(&mut self, expr: &Expr) -> Check {
        match expr {
            Expr::Number(_) => Ok(()),
            Expr::Name(reference) => self.reference(reference),
            Expr::Call(name, arguments) => {
                arguments.iter().try_for_each(|argument| self.expr(argument))?;
                self.call(*name, arguments.len())
            }
            Expr::Cat(parts) => parts.iter().try_for_each(|part| self.expr(part)),
            Expr::Not(part) => self.expr(part),
            Expr::Binary(_, pair) => {
                self.expr(&pair.0)?;
                self.expr(&pair.1)
            }
            Expr::Shift(_, pair) => {
                self.expr(&pair.0)?;
                if !self.statics.is_amount(&self.frame.view, &pair.1) {
                    return self.expr(&pair.1);
                }
                let amount = self.statics.amount(&self.frame.view, &pair.1)?;
                holds(8, amount <= GREATEST)
            }
            Expr::Choose(parts) => {
                self.expr(&parts.0)?;
                self.expr(&parts.1)?;
                self.expr(&parts.2)
            }
            Expr::Slice(part, high, low) => {
                self.expr(part)?;
                let high = self.fixed(high)?;
                let low = self.fixed(low)?;
                holds(8, high >= low)
            }
        }
    }

    fn reference(&mut self, reference: &Reference) -> Check {
        let index = self.statics.index(&self.frame.view, &reference.index)?;
        if self.is_other(reference.name) {
            holds(3, reference.delay.is_none())?;
            return self.statics.number(&self.frame.view, reference.name, index).map(|_| ());
        }
        let is_own = self.frame.own == Some((reference.name, index));
        let is_assigned = self.frame.streams.get(&reference.name).is_some_and(|seen| seen.contains(&index));
        holds(2, if is_own { reference.delay.is_some() } else { is_assigned })?;
        let Some(delay) = &reference.delay else { return Ok(()) };
        let delay = self.fixed(delay)?;
        holds(8, delay <= LONGEST_DELAY && (delay > 0 || !is_own))
    }

    fn call(&mut self, name: Name, arguments: usize) -> Check {
        let known = self.statics.function(&self.frame.view, name);
        let turns = known.map_or(0, |known| known.turns);
        let call = known.map(|known| (known.tree.map_or(1, |tree| tree.parameters.len()), known.depth, known.has_past));
        self.count(1 + turns)?;
        let (parameters, depth, has_past) = call.ok_or(Offence::Rule(3))?;
        holds(4, arguments == parameters)?;
        holds(4, !self.frame.is_function || depth < DEPTH)?;
        holds(9, self.frame.own.is_none() || !has_past)?;
        self.frame.depth = self.frame.depth.max(depth);
        Ok(())
    }
}
