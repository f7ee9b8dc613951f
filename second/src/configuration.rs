//! A configuration and its files: big-endian words of 32 bits, in the first format with all columns of each stage, in the second
//! with the working ones alone behind a map of them. A checkpoint is a count of samples before a file of the second format.

use crate::{Fabric, Refusal, BASE, WIDE};

const FIRST: u32 = 0x5049_5031;
const SECOND: u32 = 0x5049_5032;
const MARK: u32 = 0x5049_434B;
const STAGES: u32 = 32_768;
const OUTPUTS: u32 = 64;
/// The most samples that a checkpoint can stand after.
pub const MOST_SAMPLES: u64 = 1 << 40;

/// The four words of a processing element.
pub type Words = [u32; 4];

#[derive(Clone, PartialEq, Eq, Debug)]
pub struct Output {
    pub width: u32,
    /// Where each byte is read, least first.
    pub taps: Vec<u16>,
}

#[derive(Clone, PartialEq, Eq, Debug)]
pub struct Configuration {
    pub fabric: Fabric,
    pub inputs: Vec<u32>,
    pub outputs: Vec<Output>,
    /// For each stage the words of all columns.
    pub stages: Vec<Vec<Words>>,
}

/// Where a byte comes from.
#[derive(Clone, Copy, PartialEq, Eq, Debug)]
pub enum Source {
    Const(u8),
    Prev { column: usize, register: usize },
    Here(usize),
    State(usize),
    Bus(usize),
}

impl Source {
    /// The source that a half word spells, if it spells one of this fabric.
    pub fn of(half: u16, fabric: Fabric) -> Option<Source> {
        let (rest, column, low) = (usize::from(half & 0xFFF), usize::from(half >> 4 & 0xFF), usize::from(half & 15));
        let source = match half >> 12 {
            0 if rest < 256 => return Some(Source::Const(rest as u8)),
            1 if (1..fabric.registers).contains(&low) => Source::Prev { column, register: low },
            2 if low == 0 => Source::Here(column),
            3 if low == 0 => Source::State(column),
            4 => return Some(Source::Bus(rest)),
            _ => return None,
        };
        (column < fabric.columns).then_some(source)
    }
}

pub fn slices(width: u32) -> usize {
    width.div_ceil(8) as usize
}

impl Configuration {
    pub fn sample_bytes(&self) -> usize {
        self.inputs.iter().map(|width| slices(*width)).sum()
    }

    /// The file of the second format.
    pub fn write(&self) -> Vec<u8> {
        let mut file = Writer { bytes: Vec::new() };
        file.head(SECOND, self);
        self.stages.iter().for_each(|stage| file.mapped(stage));
        file.bytes
    }

    /// The file of the first format.
    pub fn write_first(&self) -> Vec<u8> {
        let mut file = Writer { bytes: Vec::new() };
        file.head(FIRST, self);
        self.stages.iter().flatten().flatten().for_each(|word| file.word(*word));
        file.bytes
    }

    /// The file of the checkpoint after so many samples.
    pub fn write_mark(&self, samples: u64) -> Vec<u8> {
        let mut file = Writer { bytes: Vec::new() };
        file.word(MARK);
        file.bytes.extend_from_slice(&samples.to_be_bytes());
        file.bytes.extend(self.write());
        file.bytes
    }
}

struct Writer {
    bytes: Vec<u8>,
}

impl Writer {
    fn word(&mut self, word: u32) {
        self.bytes.extend_from_slice(&word.to_be_bytes());
    }

    fn head(&mut self, format: u32, of: &Configuration) {
        self.word(format);
        self.word((of.fabric.columns * 65536 + of.fabric.registers) as u32);
        self.word(of.stages.len() as u32);
        self.word(of.inputs.len() as u32);
        of.inputs.iter().for_each(|width| self.word(*width));
        self.word(of.outputs.len() as u32);
        for output in &of.outputs {
            self.word(output.width);
            output.taps.iter().for_each(|tap| self.word((*tap).into()));
        }
    }

    fn mapped(&mut self, stage: &[Words]) {
        let works = |words: &Words| words.iter().any(|word| *word != 0);
        let map = stage.iter().enumerate().filter(|(_, words)| works(words)).fold(0, |map, (i, _)| map | 1 << i);
        self.word(map);
        stage.iter().filter(|words| works(words)).flatten().for_each(|word| self.word(*word));
    }
}

/// The fabric that a file says it is for.
pub fn fabric_of(bytes: &[u8]) -> Fabric {
    match bytes.get(4..8) {
        Some([0, 32, 0, 16]) => WIDE,
        _ => BASE,
    }
}

/// Reads a file of either format.
pub fn read(bytes: &[u8]) -> Result<Configuration, Refusal> {
    Reader { bytes, place: 0 }.configuration(fabric_of(bytes), true)
}

/// Reads a checkpoint: the samples before it, and the configuration after them.
pub fn read_mark(bytes: &[u8]) -> Result<(u64, Configuration), Refusal> {
    let mut reader = Reader { bytes, place: 0 };
    reader.word_that(9, |word| word == MARK)?;
    let high = u64::from(reader.word()?);
    let low = u64::from(reader.word()?);
    let samples = high << 32 | low;
    reader.holds(10, samples <= MOST_SAMPLES)?;
    let configuration = reader.configuration(fabric_of(&bytes[12..]), false)?;
    Ok((samples, configuration))
}

struct Reader<'b> {
    bytes: &'b [u8],
    /// The number of the word that comes next.
    place: usize,
}

impl Reader<'_> {
    /// Refuses the word that was read last.
    fn holds(&self, rule: u8, is_kept: bool) -> Result<(), Refusal> {
        if is_kept {
            Ok(())
        } else {
            Err(Refusal::BadConfig { rule, word: self.place - 1 })
        }
    }

    fn word(&mut self) -> Result<u32, Refusal> {
        let bytes = self.bytes.get(self.place * 4..self.place * 4 + 4);
        self.place += 1;
        self.holds(1, bytes.is_some())?;
        Ok(bytes.into_iter().flatten().fold(0, |word, byte| word << 8 | u32::from(*byte)))
    }

    fn word_that(&mut self, rule: u8, test: impl Fn(u32) -> bool) -> Result<u32, Refusal> {
        let word = self.word()?;
        self.holds(rule, test(word))?;
        Ok(word)
    }

    fn configuration(&mut self, fabric: Fabric, may_be_first: bool) -> Result<Configuration, Refusal> {
        let format = self.word_that(2, |word| word == SECOND || (may_be_first && word == FIRST))?;
        let is_first = format == FIRST;
        self.word_that(3, |word| word as usize == fabric.columns * 65536 + fabric.registers)?;
        let count = self.word_that(4, |word| (1..=STAGES).contains(&word))?;
        let widest = if is_first { 64 } else { 128 };
        let inputs = self.inputs(fabric, widest)?;
        let outputs = self.outputs(fabric, widest)?;
        let mut read = Configuration { fabric, inputs, outputs, stages: Vec::new() };
        for stage in 0..count {
            let rules = Rules { fabric, stage, sample_bytes: read.sample_bytes() };
            let words = if is_first { self.whole(&rules)? } else { self.mapped(&rules)? };
            read.stages.push(words);
        }
        if self.bytes.len() > self.place * 4 {
            return Err(Refusal::BadConfig { rule: 7, word: self.place });
        }
        Ok(read)
    }

    fn inputs(&mut self, fabric: Fabric, widest: u32) -> Result<Vec<u32>, Refusal> {
        let count = self.word_that(4, |word| (1..=fabric.columns as u32).contains(&word))?;
        let mut widths = Vec::new();
        let mut bytes = 0;
        for _ in 0..count {
            let width = self.word_that(4, |word| (1..=widest).contains(&word))?;
            bytes += slices(width);
            self.holds(4, bytes <= fabric.columns)?;
            widths.push(width);
        }
        Ok(widths)
    }

    fn outputs(&mut self, fabric: Fabric, widest: u32) -> Result<Vec<Output>, Refusal> {
        let count = self.word_that(4, |word| (1..=OUTPUTS).contains(&word))?;
        let mut outputs = Vec::new();
        for _ in 0..count {
            let width = self.word_that(4, |word| (1..=widest).contains(&word))?;
            let mut taps = Vec::new();
            for _ in 0..slices(width) {
                let tap = self.word_that(5, |word| is_tap(word, fabric))?;
                taps.push(tap as u16);
            }
            outputs.push(Output { width, taps });
        }
        Ok(outputs)
    }

    fn whole(&mut self, rules: &Rules) -> Result<Vec<Words>, Refusal> {
        (0..rules.fabric.columns).map(|column| self.element(rules, column)).collect()
    }

    fn mapped(&mut self, rules: &Rules) -> Result<Vec<Words>, Refusal> {
        let columns = rules.fabric.columns;
        let map = self.word_that(8, |word| u64::from(word) >> columns == 0)?;
        let mut stage = vec![[0; 4]; columns];
        for (column, words) in stage.iter_mut().enumerate() {
            if map >> column & 1 == 1 {
                *words = self.element(rules, column)?;
                self.holds(8, *words != [0; 4])?;
            }
        }
        Ok(stage)
    }

    fn element(&mut self, rules: &Rules, column: usize) -> Result<Words, Refusal> {
        let allowed = |half: u32| rules.allows(half as u16, column);
        let first = self.word_that(6, |word| allowed(word >> 16) && allowed(word))?;
        let second = self.word_that(6, |word| allowed(word >> 16) && allowed(word))?;
        let third = self.word_that(6, |word| {
            let (kind, bit) = (word >> 4 & 15, word & 15);
            kind <= 2 && bit <= 7 && (kind == 1 || (bit == 0 && second & 0xFFFF == 0))
        })?;
        let has_bit = third >> 4 & 15 == 1;
        let fourth = self.word_that(6, |word| {
            let [write, next, carry, mode, shift] =
                [word >> 16, word >> 12 & 15, word >> 8 & 15, word >> 4 & 15, word & 15];
            let carry_is_allowed = match carry {
                0 | 1 => true,
                2 => column > 0,
                3 => has_bit,
                _ => false,
            };
            (write as usize) < rules.fabric.registers && next <= 2 && mode <= 2 && shift <= 7 && carry_is_allowed
        })?;
        Ok([first, second, third, fourth])
    }
}

fn is_tap(word: u32, fabric: Fabric) -> bool {
    let Ok(half) = u16::try_from(word) else { return false };
    matches!(Source::of(half, fabric), Some(Source::Const(_) | Source::Prev { .. }))
}

/// What a stage's elements may read.
struct Rules {
    fabric: Fabric,
    stage: u32,
    sample_bytes: usize,
}

impl Rules {
    fn allows(&self, half: u16, reader: usize) -> bool {
        match Source::of(half, self.fabric) {
            Some(Source::Const(_) | Source::State(_)) => true,
            Some(Source::Prev { .. }) => self.stage > 0,
            Some(Source::Here(column)) => column < reader,
            Some(Source::Bus(byte)) => self.stage == 0 && byte < self.sample_bytes,
            None => false,
        }
    }
}
