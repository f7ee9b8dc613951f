//! What each mode writes.

use crate::configuration::Configuration;
use crate::machine::{bytes_of, numbers_of, through, Cycle, Machine};
use crate::samples::{fed, line, written, Fed, MOST};
use crate::stall::Turn;
use crate::{Refusal, Target};
use std::fmt::Write;

/// A program that was compiled, and what it means for its samples.
pub fn meaning(text: &[u8], samples: &[Vec<u128>]) -> Result<Vec<Vec<u128>>, Refusal> {
    let tokens = crate::token::read(text);
    let program = crate::parse::program(&tokens)?;
    let statics = crate::scope::check(&program)?;
    Ok(crate::evaluate::evaluate(&program, &statics, samples).expect("each equation has a width"))
}

fn widths_of(configuration: &Configuration) -> Vec<u32> {
    configuration.outputs.iter().map(|output| output.width).collect()
}

/// The rows of a configuration's results.
pub fn results(configuration: &Configuration, samples: &[Vec<u128>]) -> Vec<Vec<u128>> {
    let bytes: Vec<_> = samples.iter().map(|sample| bytes_of(&configuration.inputs, sample)).collect();
    let widths = widths_of(configuration);
    through(configuration, &bytes).0.iter().map(|bytes| numbers_of(&widths, bytes)).collect()
}

/// The configuration after these samples.
pub fn after(configuration: &Configuration, samples: &[Vec<u128>]) -> Configuration {
    let bytes: Vec<_> = samples.iter().map(|sample| bytes_of(&configuration.inputs, sample)).collect();
    through(configuration, &bytes).1
}

/// A run with its log, turn by turn.
pub struct Run<'r> {
    pub machine: Machine,
    pub configuration: &'r Configuration,
    pub fed: &'r Fed,
    pub stall: &'r [Turn],
}

impl Run<'_> {
    /// The lines of the results between those of the log, where it is kept.
    pub fn text(mut self, is_logged: bool) -> String {
        let widths = widths_of(self.configuration);
        let mut samples = self.fed.samples.iter();
        let (mut turns, mut text, mut log) = (self.stall.iter(), String::new(), Log::default());
        let mut has_ended = false;
        loop {
            let turn = turns.next().copied().unwrap_or_default();
            if !turn.holds_input && !has_ended && self.machine.has_room() {
                match samples.next() {
                    Some(sample) => self.machine.offer(bytes_of(&self.configuration.inputs, sample)),
                    None => has_ended = true,
                }
            }
            while let Some(result) = if turn.holds_output { None } else { self.machine.take() } {
                text += &line(&numbers_of(&widths, &result));
                log.records += 1;
            }
            if has_ended && self.machine.is_empty() {
                break;
            }
            let time = self.machine.time();
            let cycle = self.machine.cycle();
            let logged = log.line(time, cycle);
            text += if is_logged { &logged } else { "" };
        }
        if is_logged && self.fed.ending.is_none() {
            text += &format!("end cycles {} stalls {} records {}\n", log.cycles, log.stalls, log.records);
        }
        text
    }
}

#[derive(Default)]
struct Log {
    cycles: u64,
    stalls: u64,
    records: u64,
}

impl Log {
    fn line(&mut self, time: u64, cycle: Option<Cycle>) -> String {
        let Some(cycle) = cycle else {
            self.stalls += 1;
            return format!("stall {time}\n");
        };
        self.cycles += 1;
        let configured = cycle.configured.map_or("-".to_string(), |(stage, stripe)| format!("{stage}@{stripe}"));
        let saved = cycle.saved.map_or("-".to_string(), |(stage, state)| {
            let digits = state.iter().fold(String::new(), |mut digits, byte| {
                write!(digits, "{byte:02x}").expect("a text takes it");
                digits
            });
            format!("{stage} {digits}")
        });
        let number = |number: Option<u64>| number.map_or("-".to_string(), |number| number.to_string());
        let (entered, left) = (number(cycle.entered), number(cycle.left));
        format!("cycle {} conf {configured} save {saved} in {entered} out {left}\n", cycle.time)
    }
}

/// The summary of a configuration.
pub fn show(configuration: &Configuration) -> String {
    let (stages, inputs, outputs) =
        (configuration.stages.len(), configuration.inputs.len(), configuration.outputs.len());
    let mut text = format!("stages {stages} inputs {inputs} outputs {outputs}\n");
    for (number, stage) in configuration.stages.iter().enumerate() {
        let cells = stage.iter().filter(|words| **words != [0; 4]).count();
        let writes = stage.iter().filter(|words| words[3] >> 16 > 0).count();
        let states = stage.iter().filter(|words| words[3] >> 12 & 15 != 0).count();
        text += &format!("stage {number} cells {cells} writes {writes} states {states}\n");
    }
    text
}

/// The generated program of so many turns.
pub fn program_of(turns: u64) -> String {
    let table: Vec<String> = (1..=turns).map(|i| ((37 * i + 11) % 256).to_string()).collect();
    let (table, end) = (table.join(", "), turns + 1);
    format!(
        "input x:16;\nconst c = [{table}];\nlet t[0] = x;\n\
         for i in 1..{end} {{ let t[i]:16 = (t[i-1] + c[i-1]) ^ t[i-1]@1; }}\noutput y = t[{turns}];\n"
    )
}

pub fn samples_of() -> String {
    (0..1000).map(|j| format!("{}\n", (40503 * j + 12345) % 65536)).collect()
}

/// When the last of so many results has left, where samples are always ready and results always taken.
fn cycles(samples: u64, stages: u64, stripes: u64) -> u64 {
    if stages <= stripes {
        return samples + stages;
    }
    let (rounds, rest) = ((samples - 1) / (stripes - 1), (samples - 1) % (stripes - 1));
    stages * (rounds + 1) + rest + 1
}

pub fn generated(turns: u64, stripes: usize, target: Target) -> Result<String, Refusal> {
    let text = program_of(turns);
    let units = crate::net(text.as_bytes(), target)?.units();
    let configuration = crate::compile(text.as_bytes(), target)?;
    let samples = fed(samples_of().as_bytes(), &configuration.inputs, MOST).samples;
    let lines = written(&meaning(text.as_bytes(), &samples)?);
    let stages = configuration.stages.len();
    let cycles = cycles(1000, stages as u64, stripes as u64);
    let (first, last) = (lines.lines().next().unwrap_or(""), lines.lines().last().unwrap_or(""));
    Ok(format!("k {turns} units {units} stages {stages} samples 1000 cycles {cycles} first {first} last {last}\n"))
}

/// Lines of programs in turns, each with its program's number before it.
pub fn in_turns(lines: &[(String, usize)]) -> String {
    let mut rest: Vec<_> = lines.iter().map(|(text, quota)| (text.lines(), *quota)).collect();
    let mut text = String::new();
    loop {
        let before = text.len();
        for (number, (lines, quota)) in rest.iter_mut().enumerate() {
            lines.by_ref().take(*quota).for_each(|line| text += &format!("{number}: {line}\n"));
        }
        if text.len() == before {
            return text;
        }
    }
}
