//! From equations to units of cells: a value has a slice for each byte, and a unit is a row of cells that stand side by side.

use crate::equation::{bits_of, Arg, Equation, Flat, Op, Operand};
use crate::plant::{self, Plant};
use crate::tree::BinaryOp;
use crate::width::{natural, GREATEST};
use crate::{Fabric, Refusal};
use std::borrow::Cow;
use std::ops::Range;

const OUTPUTS: usize = 64;
const UNITS: usize = 32_768;
/// The cells of a unit of a chain.
const SEGMENT: usize = 4;

/// Where a byte comes from.
#[derive(Clone, Copy, PartialEq, Eq, Debug)]
pub enum Wire {
    Const(u8),
    /// What a cell shows.
    Cell(u32),
    /// What a cell keeps.
    State(u32),
    /// What a hold unit keeps, in the body of a recurrence whose hold units are not made yet.
    Past {
        by: u16,
        byte: u8,
    },
    Bus(u8),
}

#[derive(Clone, Copy, PartialEq, Eq)]
pub enum Third {
    None,
    Bit(Wire, u8),
    Carry,
}

#[derive(Clone, Copy)]
pub enum Mode {
    Plain = 0,
    Sum = 1,
    Zero = 2,
}

#[derive(Clone, Copy)]
pub enum CarryIn {
    Zero = 0,
    One = 1,
    Chain = 2,
    FromC = 3,
}

#[derive(Clone, Copy)]
pub enum Next {
    Keep = 0,
    Output = 1,
    A = 2,
}

#[derive(Clone, Copy)]
pub struct Cell {
    pub a: Wire,
    pub hi: Wire,
    pub lo: Wire,
    pub c: Third,
    pub shift: u8,
    pub table: u8,
    pub mask: u8,
    pub init: u8,
    pub mode: Mode,
    pub carry: CarryIn,
    pub next: Next,
}

const ZERO: Wire = Wire::Const(0);

const PLAIN: Cell = Cell {
    a: ZERO,
    hi: ZERO,
    lo: ZERO,
    c: Third::None,
    shift: 0,
    table: 0,
    mask: 255,
    init: 0,
    mode: Mode::Plain,
    carry: CarryIn::Zero,
    next: Next::Keep,
};

impl Cell {
    pub fn wires(&self) -> impl Iterator<Item = Wire> {
        let third = if let Third::Bit(wire, _) = self.c { Some(wire) } else { None };
        [self.a, self.hi, self.lo].into_iter().chain(third)
    }

    fn wires_mut(&mut self) -> impl Iterator<Item = &mut Wire> {
        let third = if let Third::Bit(wire, _) = &mut self.c { Some(wire) } else { None };
        [&mut self.a, &mut self.hi, &mut self.lo].into_iter().chain(third)
    }
}

const A: u8 = 0xAA;
const B: u8 = 0xCC;
const C: u8 = 0xF0;
const NOT_A: u8 = 0x55;
const NOT_B: u8 = 0x33;
const NOT_C: u8 = 0x0F;
const A_AND_B: u8 = 0x88;
const A_OR_B: u8 = 0xEE;
const A_XOR_B: u8 = 0x66;
const A_XOR_C: u8 = 0x5A;
const B_AND_C: u8 = 0xC0;
const A_OR_B_AND_C: u8 = 0xEA;
const C_THEN_A_ELSE_B: u8 = 0xAC;
const C_THEN_B_ELSE_A: u8 = 0xCA;

/// Units of cells without a place.
pub struct Net {
    pub cells: Vec<Cell>,
    /// Where each unit's cells begin.
    starts: Vec<u32>,
    /// The unit of each cell.
    pub unit_of: Vec<u32>,
    /// The last unit of the group of each unit.
    pub group_of: Vec<u32>,
    pub inputs: Vec<u32>,
    pub outputs: Vec<(u32, Vec<Wire>)>,
}

impl Net {
    pub fn units(&self) -> usize {
        self.starts.len()
    }

    pub fn cells_of(&self, unit: usize) -> Range<usize> {
        let end = self.starts.get(unit + 1).map_or(self.cells.len(), |&end| end as usize);
        self.starts[unit] as usize..end
    }

    fn begin(&mut self) -> Result<(), Refusal> {
        if self.starts.len() == UNITS {
            return Err(Refusal::Limit("units", UNITS as u64));
        }
        self.group_of.push(self.starts.len() as u32);
        self.starts.push(self.cells.len() as u32);
        Ok(())
    }

    fn push(&mut self, cell: Cell) -> Wire {
        self.cells.push(cell);
        self.unit_of.push(self.starts.len() as u32 - 1);
        Wire::Cell(self.cells.len() as u32 - 1)
    }

    fn unit(&mut self, cells: impl Iterator<Item = Cell>) -> Cut {
        self.begin()?;
        Ok(cells.map(|cell| self.push(cell)).collect())
    }

    /// A chain, in units of at most four cells and what brings the carry from one to the next. A cell whose C is taken gets its
    /// carry from an entry cell.
    fn chain(&mut self, cells: impl ExactSizeIterator<Item = Cell>, first: CarryIn) -> Cut {
        let count = cells.len();
        let mut slices = Vec::with_capacity(count);
        let mut carry = ZERO;
        for (place, mut cell) in cells.enumerate() {
            cell.carry = CarryIn::Chain;
            if place % SEGMENT == 0 {
                self.begin()?;
                if place == 0 {
                    cell.carry = first;
                } else if cell.c == Third::None {
                    cell.carry = CarryIn::FromC;
                    cell.c = Third::Bit(carry, 0);
                } else {
                    self.push(Cell { a: carry, hi: Wire::Const(255), table: B, mode: Mode::Sum, mask: 0, ..PLAIN });
                }
            }
            slices.push(self.push(cell));
            if place % SEGMENT == SEGMENT - 1 && place + 1 < count {
                carry = self.close(C);
                if plant::is(Plant::CarryLost) {
                    carry = ZERO;
                }
            }
        }
        Ok(slices)
    }

    /// A cell that shows the carry of the cell before.
    fn close(&mut self, table: u8) -> Wire {
        self.push(Cell { c: Third::Carry, carry: CarryIn::Chain, table, mask: 1, ..PLAIN })
    }
}

type Cut<T = Vec<Wire>> = Result<T, Refusal>;

fn slices_of(width: u32) -> usize {
    width.div_ceil(8) as usize
}

fn top_mask(width: u32) -> u8 {
    match width % 8 {
        0 => 255,
        bits => (1 << bits) - 1,
    }
}

/// The mask of a value's slice: the highest shows just the bits of the width.
fn mask(slice: usize, width: u32) -> u8 {
    if slice + 1 == slices_of(width) {
        top_mask(width)
    } else {
        255
    }
}

/// An operand with its slices.
struct Given<'v> {
    slices: Cow<'v, [Wire]>,
    width: u32,
    signed: bool,
}

impl Given<'_> {
    fn byte(&self, place: usize) -> Wire {
        self.slices.get(place).copied().unwrap_or(ZERO)
    }

    fn signed_width(&self) -> u32 {
        self.width + u32::from(!self.signed)
    }

    fn sign(&self) -> Third {
        Third::Bit(self.byte(slices_of(self.width) - 1), ((self.width - 1) % 8) as u8)
    }

    /// Sets B to a byte of the value shifted to the left.
    fn moved_up(&self, by: u32, place: usize, cell: Cell) -> Cell {
        let (whole, rest) = ((by / 8) as usize, (by % 8) as u8);
        let below = |back: usize| place.checked_sub(back).map_or(ZERO, |place| self.byte(place));
        let lo = if rest == 0 { ZERO } else { below(whole + 1) };
        Cell { hi: below(whole), lo, shift: rest, ..cell }
    }

    /// Sets B to a byte of the value shifted to the right.
    fn moved_down(&self, by: u32, place: usize, cell: Cell) -> Cell {
        let (whole, rest) = ((by / 8) as usize, (by % 8) as u8);
        match rest {
            0 => Cell { hi: self.byte(place + whole), ..cell },
            _ => Cell { hi: self.byte(place + whole + 1), lo: self.byte(place + whole), shift: 8 - rest, ..cell },
        }
    }
}

pub fn cut(flat: &Flat, widths: &[u32], fabric: Fabric) -> Cut<Net> {
    let inputs: Vec<u32> =
        flat.equations.iter().zip(widths).filter(|(e, _)| e.op == Op::Input).map(|(_, w)| *w).collect();
    let bytes: usize = inputs.iter().map(|width| slices_of(*width)).sum();
    if bytes > fabric.columns {
        return Err(Refusal::Limit("input-bytes", fabric.columns as u64));
    }
    if flat.outputs.len() > OUTPUTS {
        return Err(Refusal::Limit("outputs", OUTPUTS as u64));
    }
    let net = Net { cells: vec![], starts: vec![], unit_of: vec![], group_of: vec![], inputs, outputs: vec![] };
    let values = vec![Vec::new(); flat.equations.len()];
    let mut cutter = Cutter { flat, widths, values, net, body_starts: vec![0; flat.equations.len()] };
    cutter.inputs()?;
    let (needed, holds) = needed(flat);
    for place in 0..flat.equations.len() {
        cutter.body_starts[place] = cutter.net.units() as u32;
        let equation = &flat.equations[place];
        if needed[place] && equation.op != Op::Input {
            cutter.values[place] = match equation.op {
                Op::Rec { initial, first } => cutter.recurrence(place, initial, first as usize, holds[place])?,
                _ => cutter.equation(place)?,
            };
        }
    }
    for output in &flat.outputs {
        let shown = given(&cutter.values, widths, &Arg { operand: *output, signed: false });
        let output = (shown.width, shown.slices.into_owned());
        cutter.net.outputs.push(output);
    }
    Ok(cutter.net)
}

/// Which equations an output needs, and how many hold units each recurrence has.
fn needed(flat: &Flat) -> (Vec<bool>, Vec<u16>) {
    let mut needed = vec![false; flat.equations.len()];
    let mut holds = vec![1; flat.equations.len()];
    for output in &flat.outputs {
        if let Operand::Eq(place) = output {
            needed[*place as usize] = true;
        }
    }
    for (place, equation) in flat.equations.iter().enumerate().rev() {
        if !needed[place] {
            continue;
        }
        for arg in equation.args() {
            match arg.operand {
                Operand::Const(_) => {}
                Operand::Eq(read) => needed[read as usize] = true,
                Operand::Past { rec, by } => holds[rec as usize] = by.max(holds[rec as usize]),
            }
        }
    }
    (needed, holds)
}

struct Cutter<'f> {
    flat: &'f Flat,
    widths: &'f [u32],
    /// The slices of each equation.
    values: Vec<Vec<Wire>>,
    net: Net,
    /// How many units there were before each equation.
    body_starts: Vec<u32>,
}

impl<'f> Cutter<'f> {
    fn inputs(&mut self) -> Cut<()> {
        let mut offset = 0;
        for (place, _) in self.flat.equations.iter().enumerate().filter(|(_, e)| e.op == Op::Input) {
            let width = self.widths[place];
            let count = slices_of(width);
            let cells =
                (0..count).map(|i| Cell { a: Wire::Bus((offset + i) as u8), table: A, mask: mask(i, width), ..PLAIN });
            self.values[place] = self.net.unit(cells)?;
            offset += count;
        }
        Ok(())
    }

    /// The slices of an equation that is neither an input nor a recurrence, after its units are made.
    fn equation(&mut self, place: usize) -> Cut {
        let equation = &self.flat.equations[place];
        let width = self.widths[place];
        let natural = natural(equation, |operand| width_of(self.widths, operand)).expect("equations have widths");
        let operands = equation.args().iter().map(|arg| given(&self.values, self.widths, arg)).collect();
        let bits = width.min(natural);
        let mut slices = operator(&mut self.net, equation, operands, natural, bits)?;
        if equation.gives_signed() && width > natural {
            let result = Given { slices: slices.into(), width: natural, signed: true };
            slices = widen(&mut self.net, result, width)?.slices.into_owned();
        }
        slices.resize(slices_of(width), ZERO);
        Ok(slices)
    }

    /// The hold units, which close the group of what reads their states.
    fn recurrence(&mut self, place: usize, initial: u64, first: usize, holds: u16) -> Cut {
        let width = self.widths[place];
        let arg = &self.flat.equations[place].args()[0];
        let body = given(&self.values, self.widths, arg);
        let body = widen(&mut self.net, body, width)?;
        let begin = self.net.units();
        let held = self.net.cells.len() as u32;
        let count = slices_of(width);
        let init = |i: usize| if i < 8 { initial.to_le_bytes()[i] } else { 0 };
        let hold = |i: usize| Cell { table: A, init: init(i), next: Next::Output, ..PLAIN };
        let slices = self.net.unit((0..count).map(|i| Cell { a: body.byte(i), mask: mask(i, width), ..hold(i) }))?;
        for later in 1..u32::from(holds) {
            let before = held + (later - 1) * count as u32;
            self.net.unit((0..count).map(|i| Cell { a: Wire::State(before + i as u32), ..hold(i) }))?;
        }
        let from = self.body_starts[first] as usize;
        self.close_group(from..begin, held, count);
        Ok(slices)
    }

    /// Joins the hold units, from the first of these cells on, with the units before them that read their states or what those
    /// units show.
    fn close_group(&mut self, body: Range<usize>, held: u32, slices: usize) {
        let net = &mut self.net;
        let group = net.units() as u32 - 1;
        for unit in body.end..net.units() {
            net.group_of[unit] = group;
        }
        for unit in body.start..=body.end {
            let mut joins = false;
            for cell in net.cells_of(unit) {
                for wire in net.cells[cell].wires_mut() {
                    if let Wire::Past { by, byte } = *wire {
                        let by = if plant::is(Plant::PastTooNear) { (by - 1).max(1) } else { by };
                        *wire = Wire::State(held + (u32::from(by) - 1) * slices as u32 + u32::from(byte));
                        joins = true;
                    }
                    if let Wire::Cell(read) = *wire {
                        joins |= net.group_of[net.unit_of[read as usize] as usize] == group;
                    }
                }
            }
            if joins {
                net.group_of[unit] = group;
            }
        }
    }
}

fn width_of(widths: &[u32], operand: Operand) -> u32 {
    match operand {
        Operand::Const(number) => bits_of(number),
        Operand::Eq(place) | Operand::Past { rec: place, .. } => widths[place as usize],
    }
}

fn given<'v>(values: &'v [Vec<Wire>], widths: &[u32], arg: &Arg) -> Given<'v> {
    let width = width_of(widths, arg.operand);
    let count = slices_of(width);
    let slices = match arg.operand {
        Operand::Const(number) => number.to_le_bytes()[..count].iter().map(|byte| Wire::Const(*byte)).collect(),
        Operand::Eq(place) => Cow::Borrowed(&values[place as usize][..]),
        Operand::Past { by, .. } => (0..count).map(|byte| Wire::Past { by, byte: byte as u8 }).collect(),
    };
    Given { slices, width, signed: arg.signed }
}

/// The units of an operator that computes so many bits of its natural width.
fn operator(net: &mut Net, equation: &Equation, mut operands: Vec<Given>, natural: u32, bits: u32) -> Cut {
    let signed = equation.is_signed();
    let count = slices_of(bits);
    match equation.op {
        Op::Fit => extract(net, &operands[0], 0, bits),
        Op::Not => {
            let a = &operands[0];
            net.unit((0..count).map(|i| Cell { a: a.byte(i), table: NOT_A, mask: mask(i, bits), ..PLAIN }))
        }
        Op::Binary(op) => {
            let b = operands.pop().expect("a second operand");
            let a = operands.pop().expect("a first operand");
            binary(net, op, a, b, signed, bits)
        }
        Op::Choose => {
            let no = operands.pop().expect("a second branch");
            let yes = operands.pop().expect("a first branch");
            let (yes, no) = widened(net, signed, yes, no, bits)?;
            let c = Third::Bit(operands[0].byte(0), 0);
            let cell = Cell { c, table: C_THEN_A_ELSE_B, ..PLAIN };
            net.unit((0..count).map(|i| Cell { a: yes.byte(i), hi: no.byte(i), mask: mask(i, bits), ..cell }))
        }
        Op::Left(by) => left(net, &operands[0], by, natural, bits),
        Op::Right(by) if signed => extract(net, &operands[0], by.min(operands[0].width - 1), bits),
        Op::Right(by) if by >= operands[0].width => Ok(Vec::new()),
        Op::Right(by) => extract(net, &operands[0], by, bits),
        Op::LeftBy | Op::RightBy => {
            let by = operands.pop().expect("an amount");
            let a = operands.pop().expect("what is shifted");
            shifted(net, equation.op == Op::LeftBy, signed, a, &by, bits)
        }
        Op::Slice { low, .. } => extract(net, &operands[0], low as u32, bits),
        Op::Cat => joined(net, &operands[0], &operands[1], natural, bits),
        Op::Delay(initial) => delay(net, &operands[0], initial),
        Op::Input | Op::Rec { .. } => unreachable!("inputs and recurrences are made elsewhere"),
    }
}

fn binary(net: &mut Net, op: BinaryOp, a: Given, b: Given, signed: bool, bits: u32) -> Cut {
    use BinaryOp::*;
    match op {
        Less => less(net, a, b, signed, true),
        GreaterEqual => less(net, a, b, signed, false),
        Greater => less(net, b, a, signed, true),
        LessEqual => less(net, b, a, signed, false),
        Equal => equal(net, a, b, signed, C),
        NotEqual => equal(net, a, b, signed, NOT_C),
        Add | Sub | Mul | And | Or | Xor => {
            let (a, b) = widened(net, signed, a, b, bits)?;
            let row = (0..slices_of(bits)).map(|i| Cell { a: a.byte(i), hi: b.byte(i), mask: mask(i, bits), ..PLAIN });
            match op {
                Add => net.chain(row.map(|cell| Cell { mode: Mode::Sum, table: B, ..cell }), CarryIn::Zero),
                Sub => net.chain(row.map(|cell| Cell { mode: Mode::Sum, table: NOT_B, ..cell }), CarryIn::One),
                Mul => product(net, &a, &b, bits),
                And => net.unit(row.map(|cell| Cell { table: A_AND_B, ..cell })),
                Or => net.unit(row.map(|cell| Cell { table: A_OR_B, ..cell })),
                _ => net.unit(row.map(|cell| Cell { table: A_XOR_B, ..cell })),
            }
        }
    }
}

/// Both operands, widened to so many bits where one of them is signed.
fn widened<'v>(net: &mut Net, signed: bool, a: Given<'v>, b: Given<'v>, bits: u32) -> Cut<(Given<'v>, Given<'v>)> {
    if !signed {
        return Ok((a, b));
    }
    let a = widen(net, a, bits)?;
    Ok((a, widen(net, b, bits)?))
}

/// A signed value with copies of its sign up to so many bits. Others keep their slices.
fn widen<'v>(net: &mut Net, given: Given<'v>, bits: u32) -> Cut<Given<'v>> {
    let width = bits.max(given.signed_width());
    if !given.signed || bits <= given.width || plant::is(Plant::SignForgotten) {
        return Ok(Given { width, ..given });
    }
    let kept = (given.width / 8) as usize;
    let split = if given.width % 8 > 0 { kept } else { usize::MAX };
    let above = Wire::Const(255 - top_mask(given.width));
    let unit = net.unit((kept..slices_of(bits)).map(|i| {
        let cell = Cell { c: given.sign(), table: C, mask: mask(i, bits), ..PLAIN };
        if i == split {
            Cell { a: given.byte(i), hi: above, table: A_OR_B_AND_C, ..cell }
        } else {
            cell
        }
    }))?;
    let mut slices = given.slices.into_owned();
    slices.truncate(kept);
    slices.extend(unit);
    Ok(Given { slices: slices.into(), width, signed: true })
}

/// `a < b`, or its opposite.
fn less(net: &mut Net, a: Given, b: Given, signed: bool, is_less: bool) -> Cut {
    if !signed {
        let count = slices_of(a.width.max(b.width));
        let row = (0..count).map(|i| Cell { a: a.byte(i), hi: b.byte(i), mode: Mode::Sum, table: NOT_B, ..PLAIN });
        net.chain(row, CarryIn::One)?;
        return Ok(vec![net.close(if is_less { NOT_C } else { C })]);
    }
    let sign = a.signed_width().max(b.signed_width());
    let bits = sign + 1;
    let (a, b) = widened(net, true, a, b, bits)?;
    let row = (0..slices_of(bits)).map(|i| Cell { a: a.byte(i), hi: b.byte(i), mask: mask(i, bits), ..PLAIN });
    let difference = net.chain(row.map(|cell| Cell { mode: Mode::Sum, table: NOT_B, ..cell }), CarryIn::One)?;
    let c = Third::Bit(difference[(sign / 8) as usize], (sign % 8) as u8);
    let table = if is_less { C } else { NOT_C };
    net.unit(std::iter::once(Cell { c, table, mask: 1, ..PLAIN }))
}

fn equal(net: &mut Net, a: Given, b: Given, signed: bool, table: u8) -> Cut {
    let bits = if signed { a.signed_width().max(b.signed_width()) } else { a.width.max(b.width) };
    let (a, b) = widened(net, signed, a, b, bits)?;
    let cell = Cell { mode: Mode::Zero, table: A_XOR_B, ..PLAIN };
    net.chain((0..slices_of(bits)).map(|i| Cell { a: a.byte(i), hi: b.byte(i), ..cell }), CarryIn::One)?;
    Ok(vec![net.close(table)])
}

fn left(net: &mut Net, a: &Given, by: u32, natural: u32, bits: u32) -> Cut {
    let count = slices_of(bits);
    if by % 8 == 0 && (bits == natural || bits % 8 == 0) {
        let whole = (by / 8) as usize;
        return Ok((0..count).map(|i| i.checked_sub(whole).map_or(ZERO, |i| a.byte(i))).collect());
    }
    net.unit((0..count).map(|i| a.moved_up(by, i, Cell { table: B, mask: mask(i, bits), ..PLAIN })))
}

fn extract(net: &mut Net, a: &Given, low: u32, bits: u32) -> Cut {
    let count = slices_of(bits);
    if low % 8 == 0 && (bits % 8 == 0 || low + bits == a.width) {
        return Ok((0..count).map(|i| a.byte(i + (low / 8) as usize)).collect());
    }
    net.unit((0..count).map(|i| a.moved_down(low, i, Cell { table: B, mask: mask(i, bits), ..PLAIN })))
}

fn joined(net: &mut Net, a: &Given, b: &Given, natural: u32, bits: u32) -> Cut {
    let count = slices_of(bits);
    let whole = (b.width / 8) as usize;
    if b.width % 8 == 0 && (bits == natural || bits % 8 == 0) {
        return Ok((0..count).map(|i| if i < whole { b.byte(i) } else { a.byte(i - whole) }).collect());
    }
    let cell = Cell { table: A_OR_B, ..PLAIN };
    net.unit((0..count).map(|i| a.moved_up(b.width, i, Cell { a: b.byte(i), mask: mask(i, bits), ..cell })))
}

fn delay(net: &mut Net, a: &Given, initial: u64) -> Cut {
    let begin = net.cells.len() as u32;
    let init = |i: usize| if i < 8 { initial.to_le_bytes()[i] } else { 0 };
    let cell = Cell { table: B, next: Next::A, ..PLAIN };
    let own = |i: usize| Wire::State(begin + i as u32);
    net.unit((0..slices_of(a.width)).map(|i| Cell { a: a.byte(i), hi: own(i), init: init(i), ..cell }))
}

/// A row for each bit of the second operand: it adds the first one, moved up, where that bit is 1.
fn product(net: &mut Net, a: &Given, b: &Given, bits: u32) -> Cut {
    let (a_width, b_width) = (a.width.min(GREATEST), b.width.min(GREATEST));
    let mut row: Vec<Wire> = Vec::new();
    for by in 0..b_width.min(bits) {
        let row_bits = bits.min(a_width + by + 1);
        let low = (by / 8) as usize;
        let c = Third::Bit(b.byte(low), (by % 8) as u8);
        let before = std::mem::take(&mut row);
        let byte = |i: usize| before.get(i).copied().unwrap_or(ZERO);
        let sum = Cell { c, mode: Mode::Sum, table: B_AND_C, ..PLAIN };
        let cells =
            (low..slices_of(row_bits)).map(|i| a.moved_up(by, i, Cell { a: byte(i), mask: mask(i, row_bits), ..sum }));
        let sums = net.chain(cells, CarryIn::Zero)?;
        row = before[..low].to_vec();
        row.extend(sums);
    }
    Ok(row)
}

/// A shift by a stream. A signed value that goes down is turned where it is negative, and turned back.
fn shifted(net: &mut Net, is_up: bool, signed: bool, a: Given, by: &Given, bits: u32) -> Cut {
    let sign = a.sign();
    let turns = signed && !is_up;
    let mut row = if turns { flip(net, &a, sign)? } else { a };
    let missed = u32::from(plant::is(Plant::ShiftBitMissed));
    for step in 0..by.width - missed {
        let c = Third::Bit(by.byte((step / 8) as usize), (step % 8) as u8);
        let distance =
            Some(step).filter(|step| *step <= 6).map(|step| 1 << step).filter(|distance| *distance < row.width);
        let slices = net.unit((0..slices_of(row.width)).map(|i| {
            let cell = Cell { a: row.byte(i), c, table: C_THEN_B_ELSE_A, mask: mask(i, row.width), ..PLAIN };
            match distance {
                None => cell,
                Some(distance) if is_up => row.moved_up(distance, i, cell),
                Some(distance) => row.moved_down(distance, i, cell),
            }
        }))?;
        row = Given { slices: slices.into(), ..row };
    }
    let row = if turns { flip(net, &row, sign)? } else { row };
    extract(net, &row, 0, bits)
}

fn flip<'v>(net: &mut Net, a: &Given, sign: Third) -> Cut<Given<'v>> {
    let cell = Cell { c: sign, table: A_XOR_C, ..PLAIN };
    let unit = net.unit((0..slices_of(a.width)).map(|i| Cell { a: a.byte(i), mask: mask(i, a.width), ..cell }))?;
    Ok(Given { slices: unit.into(), width: a.width, signed: a.signed })
}
