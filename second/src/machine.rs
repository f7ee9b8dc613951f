//! The fabric, cycle by cycle: stripes that take the stages in turn, and queues of samples and results.

use crate::configuration::{slices, Configuration, Source, Words};
use crate::plant::{self, Plant};
use crate::Fabric;
use std::collections::VecDeque;

/// How many samples or results a queue holds.
pub const QUEUE: usize = 16;

#[derive(Clone, Copy, PartialEq, Eq)]
enum Third {
    None,
    Bit(Source, u8),
    CarryIn,
}

#[derive(Clone, Copy)]
enum CarryIn {
    Zero,
    One,
    Chain,
    FromC,
}

#[derive(Clone, Copy)]
enum Mode {
    Plain,
    Sum,
    Zero,
}

#[derive(Clone, Copy)]
enum Next {
    Keep,
    Output,
    A,
}

/// A processing element, as its words say.
struct Element {
    a: Source,
    high: Source,
    low: Source,
    third: Third,
    table: u8,
    mask: u8,
    init: u8,
    shift: u32,
    carry_in: CarryIn,
    mode: Mode,
    next: Next,
    write: usize,
}

impl Element {
    fn of(words: &Words, fabric: Fabric) -> Element {
        let source = |half: u32| Source::of(half as u16, fabric).expect("the words keep the rules");
        let [first, second, third, fourth] = *words;
        Element {
            a: source(first >> 16),
            high: source(first),
            low: source(second >> 16),
            third: match third >> 4 & 15 {
                0 => Third::None,
                1 => Third::Bit(source(second), (third & 15) as u8),
                _ => Third::CarryIn,
            },
            table: (third >> 24) as u8,
            mask: (third >> 16) as u8,
            init: (third >> 8) as u8,
            shift: fourth & 15,
            carry_in: [CarryIn::Zero, CarryIn::One, CarryIn::Chain, CarryIn::FromC][(fourth >> 8 & 15) as usize],
            mode: [Mode::Plain, Mode::Sum, Mode::Zero][(fourth >> 4 & 15) as usize],
            next: [Next::Keep, Next::Output, Next::A][(fourth >> 12 & 15) as usize],
            write: (fourth >> 16) as usize,
        }
    }
}

/// The registers of a stripe by register and column, with a row of zeros for register 0.
type Row = Vec<u8>;

/// A stage's elements: those of all-zero words are left out, because they show 0 and write nothing.
struct Stage {
    elements: Vec<(usize, Element)>,
    init: Vec<u8>,
}

impl Stage {
    fn of(words: &[Words], fabric: Fabric) -> Stage {
        let elements: Vec<(usize, Element)> = words
            .iter()
            .enumerate()
            .filter(|(_, words)| **words != [0; 4])
            .map(|(column, words)| (column, Element::of(words, fabric)))
            .collect();
        let mut init = vec![0; fabric.columns];
        elements.iter().for_each(|(column, element)| init[*column] = element.init);
        Stage { elements, init }
    }

    /// The row and the state after a valid row. The first stage reads the sample and no row.
    fn step(&self, fabric: Fabric, state: &mut [u8], before: &[u8], sample: &[u8]) -> Row {
        let mut row = before.to_vec();
        let was = state.to_vec();
        let mut shown = vec![0; fabric.columns];
        let mut carries = vec![false; fabric.columns];
        for (column, element) in &self.elements {
            let byte = |source: Source| match source {
                Source::Const(byte) => byte,
                Source::Prev { column, register } => before[register * fabric.columns + column],
                Source::Here(column) => shown[column],
                Source::State(column) => was[column],
                Source::Bus(place) => sample[place],
            };
            let below = *column > 0 && carries[column.saturating_sub(1)];
            let made = element.compute(byte, below);
            shown[*column] = made.output;
            carries[*column] = made.carry;
            if element.write > 0 {
                row[element.write * fabric.columns + column] = made.output;
            }
            match element.next {
                Next::Keep => {}
                Next::Output => state[*column] = made.output,
                Next::A => state[*column] = made.a,
            }
        }
        row
    }
}

struct Made {
    output: u8,
    a: u8,
    carry: bool,
}

impl Element {
    fn compute(&self, byte: impl Fn(Source) -> u8, below: bool) -> Made {
        let a = byte(self.a);
        let (high, low) = (u32::from(byte(self.high)), u32::from(byte(self.low)));
        let b = if self.shift == 0 { high as u8 } else { (high << self.shift | low >> (8 - self.shift)) as u8 };
        let bit = match self.third {
            Third::Bit(source, place) => byte(source) >> place & 1 == 1,
            Third::None | Third::CarryIn => false,
        };
        let carry_in = match self.carry_in {
            CarryIn::Zero => false,
            CarryIn::One => true,
            CarryIn::Chain => below,
            CarryIn::FromC => bit,
        };
        let c = if self.third == Third::CarryIn { carry_in } else { bit };
        let x = look_up(self.table, a, b, c);
        let sum = u32::from(a) + u32::from(x) + u32::from(carry_in);
        let (result, carry) = match self.mode {
            Mode::Plain => (x, false),
            Mode::Sum => (sum as u8, sum >= 256),
            Mode::Zero => (x, carry_in && x == 0),
        };
        Made { output: result & self.mask, a, carry }
    }
}

/// Each bit place looks its bits of a and b, and c, up in the table.
fn look_up(table: u8, a: u8, b: u8, c: bool) -> u8 {
    let bit_at = |place: u32| {
        let entry = (a >> place & 1) + 2 * (b >> place & 1) + 4 * u8::from(c);
        (table >> entry & 1) << place
    };
    (0..8).fold(0, |x, place| x | bit_at(place))
}

#[derive(Clone)]
struct Stripe {
    stage: Option<usize>,
    is_valid: bool,
    row: Row,
    state: Vec<u8>,
}

/// What an advancing cycle did.
pub struct Cycle {
    pub time: u64,
    /// The stage that was configured, and its stripe.
    pub configured: Option<(usize, usize)>,
    /// The stage that was swapped out, and its state.
    pub saved: Option<(usize, Vec<u8>)>,
    pub entered: Option<u64>,
    pub left: Option<u64>,
}

pub struct Machine {
    fabric: Fabric,
    outputs: Vec<crate::configuration::Output>,
    stages: Vec<Stage>,
    store: Vec<Vec<u8>>,
    stripes: Vec<Stripe>,
    time: u64,
    waiting: VecDeque<Vec<u8>>,
    ready: VecDeque<Vec<u8>>,
    entered: u64,
    left: u64,
}

impl Machine {
    pub fn new(configuration: &Configuration, stripes: usize) -> Machine {
        let fabric = configuration.fabric;
        let stages: Vec<Stage> = configuration.stages.iter().map(|words| Stage::of(words, fabric)).collect();
        let store = stages.iter().map(|stage| stage.init.clone()).collect();
        let blank = Stripe {
            stage: None,
            is_valid: false,
            row: vec![0; fabric.columns * fabric.registers],
            state: vec![0; fabric.columns],
        };
        Machine {
            fabric,
            outputs: configuration.outputs.clone(),
            stages,
            store,
            stripes: vec![blank; stripes],
            time: 0,
            waiting: VecDeque::new(),
            ready: VecDeque::new(),
            entered: 0,
            left: 0,
        }
    }

    pub fn has_room(&self) -> bool {
        self.waiting.len() < QUEUE
    }

    pub fn offer(&mut self, sample: Vec<u8>) {
        self.waiting.push_back(sample);
    }

    pub fn take(&mut self) -> Option<Vec<u8>> {
        self.ready.pop_front()
    }

    pub fn time(&self) -> u64 {
        self.time
    }

    /// Every sample that was offered has left, and every result was taken.
    pub fn is_empty(&self) -> bool {
        self.waiting.is_empty() && self.ready.is_empty() && self.entered == self.left
    }

    /// The stage and the stripe that this cycle configures.
    fn event(&self) -> Option<(usize, usize)> {
        let (v, p, t) = (self.stages.len(), self.stripes.len(), self.time);
        if v > p {
            Some(((t % v as u64) as usize, (t % p as u64) as usize))
        } else {
            (t < v as u64).then_some((t as usize, t as usize))
        }
    }

    /// The stripes that compute in this cycle, each with its stage and whether its row will be valid.
    fn computing(&self) -> Vec<(usize, usize, bool)> {
        let configured = self.event().map(|(_, stripe)| stripe);
        let with_stage = |(number, stripe): (usize, &Stripe)| {
            let stage = stripe.stage.filter(|_| configured != Some(number))?;
            let is_valid = if stage == 0 { !self.waiting.is_empty() } else { self.before(number).is_valid };
            Some((number, stage, is_valid))
        };
        self.stripes.iter().enumerate().filter_map(with_stage).collect()
    }

    fn before(&self, stripe: usize) -> &Stripe {
        &self.stripes[(stripe + self.stripes.len() - 1) % self.stripes.len()]
    }

    /// One cycle; none where it stalls, because a result would leave and as many wait as can.
    pub fn cycle(&mut self) -> Option<Cycle> {
        let computing = self.computing();
        let last = self.stages.len() - 1;
        let leaves = computing.iter().any(|(_, stage, is_valid)| *stage == last && *is_valid);
        let is_full = self.ready.len() >= QUEUE && !(plant::is(Plant::QueueOverfull) && self.ready.len() == QUEUE);
        if leaves && is_full {
            return None;
        }
        let sample = if computing.iter().any(|(_, stage, _)| *stage == 0) { self.waiting.pop_front() } else { None };
        let rows: Vec<Option<Row>> = computing.iter().map(|turn| self.compute(*turn, &sample)).collect();
        for ((stripe, _, is_valid), row) in computing.iter().zip(rows) {
            self.stripes[*stripe].is_valid = *is_valid;
            self.stripes[*stripe].row = row.unwrap_or_else(|| std::mem::take(&mut self.stripes[*stripe].row));
        }
        let entered = sample.map(|_| self.entered);
        self.entered += u64::from(entered.is_some());
        let left = leaves.then_some(self.left);
        if let Some((stripe, _, _)) = computing.iter().find(|(_, stage, _)| leaves && *stage == last) {
            let result = self.tapped(&self.stripes[*stripe].row);
            self.ready.push_back(result);
            self.left += 1;
        }
        let configured = self.event();
        let saved = configured.and_then(|(stage, stripe)| self.configure(stage, stripe));
        self.time += 1;
        Some(Cycle { time: self.time - 1, configured, saved, entered, left })
    }

    /// The row that a stripe shows next, where it is valid; its state goes on.
    fn compute(&mut self, (stripe, stage, is_valid): (usize, usize, bool), sample: &Option<Vec<u8>>) -> Option<Row> {
        if !is_valid {
            return None;
        }
        let mut state = std::mem::take(&mut self.stripes[stripe].state);
        let none = vec![0; self.fabric.columns * self.fabric.registers];
        let before = if stage == 0 { &none } else { &self.before(stripe).row };
        let row = self.stages[stage].step(self.fabric, &mut state, before, sample.as_deref().unwrap_or(&[]));
        self.stripes[stripe].state = state;
        Some(row)
    }

    fn tapped(&self, row: &Row) -> Vec<u8> {
        tapped(&self.outputs, self.fabric, row)
    }

    /// Saves the stage that is in the stripe, and puts the other one there.
    fn configure(&mut self, stage: usize, stripe: usize) -> Option<(usize, Vec<u8>)> {
        let own = &mut self.stripes[stripe];
        let saved = own.stage.map(|old| (old, own.state.clone()));
        if let Some((old, state)) = saved.clone().filter(|_| !plant::is(Plant::StateNotSaved)) {
            self.store[old] = state;
        }
        own.stage = Some(stage);
        own.is_valid = false;
        own.state = self.store[stage].clone();
        saved
    }
}

fn tapped(outputs: &[crate::configuration::Output], fabric: Fabric, row: &[u8]) -> Vec<u8> {
    let byte = |tap: &u16| match Source::of(*tap, fabric) {
        Some(Source::Const(byte)) => byte,
        Some(Source::Prev { column, register }) => row[register * fabric.columns + column],
        _ => unreachable!("a tap is a constant or a register"),
    };
    outputs.iter().flat_map(|output| output.taps.iter().map(byte)).collect()
}

/// What a configuration makes of a whole list of samples: each stage takes all rows before the next one sees any. The results,
/// and the configuration whose stages begin with the states that they are left with.
pub fn through(configuration: &Configuration, samples: &[Vec<u8>]) -> (Vec<Vec<u8>>, Configuration) {
    let fabric = configuration.fabric;
    let mut after = configuration.clone();
    let mut rows = vec![vec![0; fabric.columns * fabric.registers]; samples.len()];
    for words in &mut after.stages {
        let stage = Stage::of(words, fabric);
        let mut state = stage.init.clone();
        for (row, sample) in rows.iter_mut().zip(samples) {
            *row = stage.step(fabric, &mut state, row, sample);
        }
        for (words, state) in words.iter_mut().zip(&state) {
            words[2] = words[2] & 0xFFFF_00FF | u32::from(*state) << 8;
        }
    }
    let results = rows.iter().map(|row| tapped(&configuration.outputs, fabric, row)).collect();
    (results, after)
}

/// The bytes of numbers, each least byte first.
pub fn bytes_of(widths: &[u32], numbers: &[u128]) -> Vec<u8> {
    let bytes = |(width, number): (&u32, &u128)| number.to_le_bytes()[..slices(*width)].to_vec();
    widths.iter().zip(numbers).flat_map(bytes).collect()
}

/// The numbers that such bytes are.
pub fn numbers_of(widths: &[u32], bytes: &[u8]) -> Vec<u128> {
    let mut rest = bytes;
    let mut number = |width: &u32| {
        let (own, others) = rest.split_at(slices(*width));
        rest = others;
        own.iter().rev().fold(0, |number, byte| number << 8 | u128::from(*byte))
    };
    widths.iter().map(&mut number).collect()
}
