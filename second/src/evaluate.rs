//! What a program means: each expression is a stream, a whole list of numbers with a width and a kind. The tree is walked as it
//! stands; no equation is made.

use crate::equation::bits_of;
use crate::scope::{Instance, Offence, Statics, View};
use crate::token::Name;
use crate::tree::*;
use crate::width::GREATEST;
use std::collections::HashMap;
use std::ops::Range;
use std::rc::Rc;

/// A stream of numbers below 2 to the power of its width, for some of the samples. Of a wider one than 128 bits the low 128 bits
/// are kept.
#[derive(Clone, Debug)]
struct Stream {
    signed: bool,
    width: u32,
    list: Vec<u128>,
}

/// A stream with a name.
struct Bound {
    stream: Stream,
    initial: u128,
    /// The sample of the first number.
    start: usize,
}

struct Frame {
    view: View,
    streams: HashMap<Instance, Rc<Bound>>,
}

struct Evaluator<'s, 'p> {
    statics: &'s Statics<'p>,
    samples: &'s [Vec<u128>],
    frame: Frame,
}

/// None is what has no width.
type Meant<T> = Option<T>;

/// The rows of the outputs, or none where something has no width.
pub fn evaluate(program: &[Item], statics: &Statics, samples: &[Vec<u128>]) -> Meant<Vec<Vec<u128>>> {
    let frame = Frame { view: View::new(usize::MAX), streams: HashMap::new() };
    let mut evaluator = Evaluator { statics, samples, frame };
    let mut outputs = Vec::new();
    let mut inputs = 0;
    for (place, item) in program.iter().enumerate() {
        evaluator.frame.view.before = place + 1;
        match item {
            Item::Input { name, width } => {
                evaluator.input(*name, *width as u32, inputs);
                inputs += 1;
            }
            Item::Output { name, width, body } => {
                let stream = evaluator.assigned(body, *width, 0..samples.len())?;
                outputs.push(stream.list.clone());
                evaluator.bind((*name, None), stream, 0);
            }
            Item::Statement(statement) => evaluator.statement(statement, 0..samples.len())?,
            Item::Const { .. } | Item::Table { .. } | Item::Function(_) => {}
        }
    }
    Some((0..samples.len()).map(|n| outputs.iter().map(|list| list[n]).collect()).collect())
}

/// What the scope rules have seen to.
fn sure<T>(checked: Result<T, Offence>) -> T {
    checked.ok().expect("the program keeps the rules of scope")
}

fn low_bits(number: u128, width: u32) -> u128 {
    if width >= GREATEST {
        number
    } else {
        number & ((1 << width) - 1)
    }
}

/// A stream that has a width itself.
fn within(stream: Stream) -> Meant<Stream> {
    (stream.width <= GREATEST).then_some(stream)
}

fn fit(width: u32, stream: &Stream) -> Stream {
    let list = (0..stream.list.len()).map(|n| low_bits(stream.value(n).0, width)).collect();
    Stream { signed: stream.signed, width, list }
}

impl Stream {
    /// The value at a place modulo 2 to the power of 128, and whether it is below 0.
    fn value(&self, n: usize) -> (u128, bool) {
        let number = self.list[n];
        if !self.signed || self.width > GREATEST {
            return (number, false);
        }
        let is_negative = number >> (self.width - 1) & 1 == 1;
        let above = if self.width < GREATEST { u128::MAX << self.width } else { 0 };
        (if is_negative { number | above } else { number }, is_negative)
    }

    fn signed_width(&self) -> u32 {
        self.width + u32::from(!self.signed)
    }
}

impl Evaluator<'_, '_> {
    fn input(&mut self, name: Name, width: u32, number: usize) {
        let list = self.samples.iter().map(|sample| sample[number]).collect();
        self.bind((name, None), Stream { signed: false, width, list }, 0);
    }

    fn bind(&mut self, instance: Instance, stream: Stream, start: usize) {
        self.frame.streams.insert(instance, Rc::new(Bound { stream, initial: 0, start }));
    }

    fn statement(&mut self, statement: &Statement, range: Range<usize>) -> Meant<()> {
        match statement {
            Statement::Let { target, width, body } => {
                let instance = self.instance(target);
                let stream = self.assigned(body, *width, range.clone())?;
                self.bind(instance, stream, range.start);
            }
            Statement::Rec { target, width, initial, body } => {
                let instance = self.instance(target);
                let initial = sure(self.statics.fixed(&self.frame.view, initial));
                self.recurrence(instance, *width, initial, body, range)?;
            }
            Statement::For { index, low, high, body } => {
                let low = sure(self.statics.fixed(&self.frame.view, low));
                let high = sure(self.statics.fixed(&self.frame.view, high));
                for turn in low..high {
                    self.frame.view.loops.push((*index, turn));
                    body.iter().try_for_each(|statement| self.statement(statement, range.clone()))?;
                    self.frame.view.loops.pop();
                }
            }
        }
        Some(())
    }

    fn instance(&self, target: &Target) -> Instance {
        (target.name, sure(self.statics.index(&self.frame.view, &target.index)))
    }

    fn assigned(&mut self, expr: &Expr, width: Option<u64>, range: Range<usize>) -> Meant<Stream> {
        let stream = self.expr(expr, range)?;
        match width {
            Some(width) => Some(fit(width as u32, &stream)),
            None => within(stream),
        }
    }

    /// A recurrence takes its own numbers one after the other.
    fn recurrence(
        &mut self,
        instance: Instance,
        declared: Option<u64>,
        initial: u64,
        body: &Expr,
        range: Range<usize>,
    ) -> Meant<()> {
        let width = match declared {
            Some(width) => width as u32,
            None => self.least_width(instance, initial, body, range.start)?,
        };
        let start = range.start;
        let own = |list| Bound { stream: Stream { signed: false, width, list }, initial: initial.into(), start };
        let mut list = Vec::new();
        self.frame.streams.insert(instance, Rc::new(own(Vec::new())));
        self.expr(body, start..start)?;
        for n in range {
            let next = self.expr(body, n..n + 1)?;
            list.push(fit(width, &next).list[0]);
            self.frame.streams.insert(instance, Rc::new(own(list.clone())));
        }
        Some(())
    }

    /// The least width that holds the initial value, and at which the body is no wider.
    fn least_width(&mut self, instance: Instance, initial: u64, body: &Expr, start: usize) -> Meant<u32> {
        (bits_of(initial)..=GREATEST).find(|&width| {
            let stream = Stream { signed: false, width, list: Vec::new() };
            let own = Bound { stream, initial: initial.into(), start };
            self.frame.streams.insert(instance, Rc::new(own));
            self.expr(body, start..start).is_some_and(|body| body.width <= width)
        })
    }

    /// An expression that is a part of another one: it has a width itself.
    fn part(&mut self, expr: &Expr, range: &Range<usize>) -> Meant<Stream> {
        within(self.expr(expr, range.clone())?)
    }

    fn expr(&mut self, expr: &Expr, range: Range<usize>) -> Meant<Stream> {
        match expr {
            Expr::Number(number) => Some(constant(*number, &range)),
            Expr::Name(reference) => Some(self.reference(reference, &range)),
            Expr::Call(name, arguments) => self.call(*name, arguments, &range),
            Expr::Cat(parts) => self.joined(parts, &range),
            Expr::Not(part) => {
                let a = self.part(part, &range)?;
                let width = a.width;
                Some(each(a.signed, width, &range, |n| !a.value(n).0))
            }
            Expr::Binary(op, pair) => {
                let (a, b) = (self.part(&pair.0, &range)?, self.part(&pair.1, &range)?);
                Some(binary(*op, &a, &b, &range))
            }
            Expr::Shift(direction, pair) => self.shifted(*direction, &pair.0, &pair.1, &range),
            Expr::Choose(parts) => {
                let condition = self.part(&parts.0, &range)?;
                let (yes, no) = (self.part(&parts.1, &range)?, self.part(&parts.2, &range)?);
                let (signed, width) = common(&yes, &no);
                let chosen = |n: usize| if condition.list[n] == 1 { yes.value(n).0 } else { no.value(n).0 };
                (condition.width == 1).then(|| each(signed, width, &range, chosen))
            }
            Expr::Slice(part, high, low) => {
                let a = self.part(part, &range)?;
                let high = sure(self.statics.fixed(&self.frame.view, high));
                let low = sure(self.statics.fixed(&self.frame.view, low));
                if high >= u64::from(a.width) {
                    return None;
                }
                Some(each(false, (high - low) as u32 + 1, &range, |n| a.list[n] >> low))
            }
        }
    }

    fn reference(&self, reference: &Reference, range: &Range<usize>) -> Stream {
        let view = &self.frame.view;
        let index = sure(self.statics.index(view, &reference.index));
        let delay = sure(self.statics.index(view, &reference.delay)).unwrap_or(0) as usize;
        let Some(bound) = self.frame.streams.get(&(reference.name, index)) else {
            return constant(sure(self.statics.number(view, reference.name, index)), range);
        };
        let at = |n: usize| match n.checked_sub(delay) {
            Some(place) => bound.stream.list[place - bound.start],
            None => bound.initial,
        };
        Stream { list: range.clone().map(at).collect(), ..bound.stream }
    }

    fn joined(&mut self, parts: &[Expr], range: &Range<usize>) -> Meant<Stream> {
        let mut whole = self.part(&parts[0], range)?;
        whole.signed = false;
        for part in &parts[1..] {
            let whole_before = within(whole)?;
            let part = self.part(part, range)?;
            let joined = |n: usize| whole_before.list[n].checked_shl(part.width).unwrap_or(0) | part.list[n];
            whole = each(false, whole_before.width + part.width, range, joined);
        }
        Some(whole)
    }

    fn shifted(&mut self, direction: Direction, a: &Expr, amount: &Expr, range: &Range<usize>) -> Meant<Stream> {
        let a = self.part(a, range)?;
        let moved = |n: usize, by: u128| match direction {
            Direction::Left => a.value(n).0.checked_shl(by.min(128) as u32).unwrap_or(0),
            Direction::Right if a.signed => ((a.value(n).0 as i128) >> by.min(127)) as u128,
            Direction::Right => a.list[n].checked_shr(by.min(128) as u32).unwrap_or(0),
        };
        if self.statics.is_amount(&self.frame.view, amount) {
            let by = sure(self.statics.amount(&self.frame.view, amount)) as u32;
            let width = match direction {
                Direction::Left => a.width + by,
                Direction::Right => a.width.saturating_sub(by).max(1),
            };
            return Some(each(a.signed, width, range, |n| moved(n, by.into())));
        }
        let by = self.part(amount, range)?;
        Some(each(a.signed, a.width, range, |n| moved(n, by.list[n])))
    }

    fn call(&mut self, name: Name, arguments: &[Expr], range: &Range<usize>) -> Meant<Stream> {
        let args = arguments.iter().map(|argument| self.part(argument, range)).collect::<Meant<Vec<_>>>()?;
        let statics = self.statics;
        let known = statics.function(&self.frame.view, name).expect("what is called is a function");
        let Some(tree) = known.tree else {
            return Some(Stream { signed: true, ..args.into_iter().next().expect("an argument") });
        };
        let inner = Frame { view: View::new(known.item), streams: HashMap::new() };
        let outer = std::mem::replace(&mut self.frame, inner);
        for (arg, parameter) in args.into_iter().zip(&tree.parameters) {
            let arg = if let Some(width) = parameter.width { fit(width as u32, &arg) } else { arg };
            self.bind((parameter.name, None), arg, range.start);
        }
        let result = self.body(tree, range);
        self.frame = outer;
        result
    }

    fn body(&mut self, tree: &Function, range: &Range<usize>) -> Meant<Stream> {
        tree.body.iter().try_for_each(|statement| self.statement(statement, range.clone()))?;
        self.assigned(&tree.result, tree.width, range.clone())
    }
}

/// The stream of what is made for each place, cut to its width.
fn each(signed: bool, width: u32, range: &Range<usize>, made: impl Fn(usize) -> u128) -> Stream {
    Stream { signed, width, list: (0..range.len()).map(|n| low_bits(made(n), width)).collect() }
}

fn constant(number: u64, range: &Range<usize>) -> Stream {
    each(false, bits_of(number), range, |_| number.into())
}

/// The kind and the width of two streams that become one.
fn common(a: &Stream, b: &Stream) -> (bool, u32) {
    if a.signed || b.signed {
        (true, a.signed_width().max(b.signed_width()))
    } else {
        (false, a.width.max(b.width))
    }
}

fn binary(op: BinaryOp, a: &Stream, b: &Stream, range: &Range<usize>) -> Stream {
    use BinaryOp::*;
    let (signed, width) = common(a, b);
    let both = |n: usize| (a.value(n).0, b.value(n).0);
    let product_width = if signed { a.signed_width() + b.signed_width() } else { a.width + b.width };
    match op {
        Add => each(signed, width + 1, range, |n| both(n).0.wrapping_add(both(n).1)),
        Sub => each(signed, width + u32::from(signed), range, |n| both(n).0.wrapping_sub(both(n).1)),
        Mul => each(signed, product_width, range, |n| both(n).0.wrapping_mul(both(n).1)),
        And => each(signed, width, range, |n| both(n).0 & both(n).1),
        Or => each(signed, width, range, |n| both(n).0 | both(n).1),
        Xor => each(signed, width, range, |n| both(n).0 ^ both(n).1),
        Equal | NotEqual | Less | LessEqual | Greater | GreaterEqual => {
            each(false, 1, range, |n| is_so(op, a.value(n), b.value(n)).into())
        }
    }
}

/// A comparison of two values, each modulo 2 to the power of 128 and with whether it is below 0.
fn is_so(op: BinaryOp, (a, a_negative): (u128, bool), (b, b_negative): (u128, bool)) -> bool {
    let order = (!a_negative, a).cmp(&(!b_negative, b));
    match op {
        BinaryOp::Equal => order.is_eq(),
        BinaryOp::NotEqual => order.is_ne(),
        BinaryOp::Less => order.is_lt(),
        BinaryOp::LessEqual => order.is_le(),
        BinaryOp::Greater => order.is_gt(),
        _ => order.is_ge(),
    }
}
