//! A whole call: from the words and the files to what is written and why it ends.

use crate::configuration::{self, Configuration, MOST_SAMPLES};
use crate::machine::Machine;
use crate::modes::{self, Run};
use crate::samples::{fed, written, Fed, EVALUATED, MOST};
use crate::stall::{self, Turn};
use crate::words::{self, Mode, Order};
use crate::{list, Refusal, Target, BASE};

const PROGRAM_BYTES: usize = 1_048_576;
const CONFIG_BYTES: usize = 16_777_216;

/// Where files come from; none is one that can't be read.
pub trait Shelf {
    fn read(&self, name: &str) -> Option<Vec<u8>>;
}

/// What a call writes, and why it ends early.
#[derive(Clone, PartialEq, Eq, Debug)]
pub struct Outcome {
    pub out: Vec<u8>,
    pub refusal: Option<Refusal>,
}

impl Outcome {
    /// The line on standard error.
    pub fn note(&self) -> String {
        self.refusal.as_ref().map_or(String::new(), |refusal| refusal.note() + "\n")
    }

    pub fn status(&self) -> u8 {
        self.refusal.as_ref().map_or(0, Refusal::status)
    }
}

type Answer = Result<Outcome, Refusal>;

fn whole(out: impl Into<Vec<u8>>) -> Answer {
    Ok(Outcome { out: out.into(), refusal: None })
}

/// The answer to the words after the program's name.
pub fn call(words: &[String], shelf: &dyn Shelf) -> Outcome {
    words::read(words)
        .and_then(|order| answer(&order, shelf))
        .unwrap_or_else(|refusal| Outcome { out: Vec::new(), refusal: Some(refusal) })
}

fn answer(order: &Order, shelf: &dyn Shelf) -> Answer {
    let call = Call { order, shelf };
    match order.mode {
        Mode::Run => call.run(),
        Mode::Trace => call.traced(),
        Mode::Compile => whole(call.program()?.1.write()),
        Mode::Exec => call.exec(),
        Mode::Eval => call.eval(),
        Mode::Show => whole(modes::show(&call.configuration()?)),
        Mode::Gen => whole(modes::generated(
            order.first.parse().expect("the words were looked at"),
            order.stripes,
            order.target,
        )?),
        Mode::Migrate => whole(call.configuration()?.write()),
        Mode::Share => call.share(),
        Mode::Checkpoint => call.checkpoint(),
        Mode::Move => call.moved(),
        Mode::Extend => call.extended(),
    }
}

fn read_within(shelf: &dyn Shelf, name: &str, most: usize, limit: &'static str) -> Result<Vec<u8>, Refusal> {
    let bytes = shelf.read(name).ok_or(Refusal::ReadFault)?;
    if bytes.len() > most {
        return Err(Refusal::Limit(limit, most as u64));
    }
    Ok(bytes)
}

struct Call<'c> {
    order: &'c Order,
    shelf: &'c dyn Shelf,
}

impl Call<'_> {
    /// The program's text and configuration.
    fn program(&self) -> Result<(Vec<u8>, Configuration), Refusal> {
        let text = read_within(self.shelf, &self.order.first, PROGRAM_BYTES, "program-bytes")?;
        let configuration = crate::compile(&text, self.order.target)?;
        Ok((text, configuration))
    }

    fn configuration(&self) -> Result<Configuration, Refusal> {
        configuration::read(&read_within(self.shelf, &self.order.first, CONFIG_BYTES, "config-bytes")?)
    }

    fn mark(&self) -> Result<(u64, Configuration), Refusal> {
        configuration::read_mark(&read_within(self.shelf, &self.order.first, CONFIG_BYTES, "config-bytes")?)
    }

    fn stall(&self) -> Result<Vec<Turn>, Refusal> {
        match &self.order.stall {
            None => Ok(Vec::new()),
            Some(name) => stall::read(&self.shelf.read(name).ok_or(Refusal::ReadFault)?),
        }
    }

    fn samples(&self, widths: &[u32], most: u64) -> Fed {
        match self.shelf.read(&self.order.second) {
            Some(text) => fed(&text, widths, most),
            None => Fed { samples: Vec::new(), ending: Some(Refusal::ReadFault) },
        }
    }

    fn run(&self) -> Answer {
        let (text, configuration) = self.program()?;
        self.stall()?;
        let fed = self.samples(&configuration.inputs, MOST);
        let rows = modes::meaning(&text, &fed.samples)?;
        Ok(Outcome { out: written(&rows).into_bytes(), refusal: fed.ending })
    }

    fn traced(&self) -> Answer {
        let (_, configuration) = self.program()?;
        let stall = self.stall()?;
        let fed = self.samples(&configuration.inputs, MOST);
        if fed.ending == Some(Refusal::ReadFault) {
            return Err(Refusal::ReadFault);
        }
        let machine = Machine::new(&configuration, self.order.stripes);
        let run = Run { machine, configuration: &configuration, fed: &fed, stall: &stall };
        Ok(Outcome { out: run.text(true).into_bytes(), refusal: fed.ending })
    }

    fn on_machine(&self, configuration: &Configuration, most: u64) -> Answer {
        let stall = self.stall()?;
        let fed = self.samples(&configuration.inputs, most);
        let machine = Machine::new(configuration, self.order.stripes);
        let run = Run { machine, configuration, fed: &fed, stall: &stall };
        Ok(Outcome { out: run.text(false).into_bytes(), refusal: fed.ending })
    }

    fn exec(&self) -> Answer {
        self.on_machine(&self.configuration()?, MOST)
    }

    fn moved(&self) -> Answer {
        let (samples, configuration) = self.mark()?;
        self.on_machine(&configuration, MOST_SAMPLES - samples)
    }

    fn eval(&self) -> Answer {
        let text = read_within(self.shelf, &self.order.first, PROGRAM_BYTES, "program-bytes")?;
        let (flat, widths) = crate::equations(&text)?;
        let samples = self.shelf.read(&self.order.second).ok_or(Refusal::ReadFault)?;
        if samples.len() > EVALUATED {
            return Err(Refusal::Limit("sample-bytes", EVALUATED as u64));
        }
        let fed = fed(&samples, &crate::width::of_inputs(&flat, &widths), MOST);
        let rows = modes::meaning(&text, &fed.samples)?;
        Ok(Outcome { out: written(&rows).into_bytes(), refusal: fed.ending })
    }

    fn checkpoint(&self) -> Answer {
        let (_, configuration) = self.program()?;
        self.marked(&configuration, 0)
    }

    fn extended(&self) -> Answer {
        let (samples, configuration) = self.mark()?;
        self.marked(&configuration, samples)
    }

    /// The checkpoint after the samples, where as many went before.
    fn marked(&self, configuration: &Configuration, before: u64) -> Answer {
        self.stall()?;
        let fed = self.samples(&configuration.inputs, MOST_SAMPLES - before);
        if let Some(ending) = fed.ending {
            return Err(ending);
        }
        let after = modes::after(configuration, &fed.samples);
        whole(after.write_mark(before + fed.samples.len() as u64))
    }

    fn share(&self) -> Answer {
        let list = self.shelf.read(&self.order.first).ok_or(Refusal::ReadFault)?;
        let entries = list::read(&list)?;
        let mut programs = Vec::new();
        for (number, entry) in entries.iter().enumerate() {
            programs.push(self.shared(&entry.program).map_err(|cause| part(number, cause))?);
        }
        let mut lines = Vec::new();
        let mut endings = Vec::new();
        for (number, (entry, (text, widths))) in entries.iter().zip(&programs).enumerate() {
            let Some(samples) = self.shelf.read(&entry.samples) else {
                lines.push((String::new(), entry.quota));
                endings.push(Refusal::ReadFault);
                continue;
            };
            let fed = fed(&samples, widths, MOST);
            lines.push((written(&modes::meaning(text, &fed.samples)?), entry.quota));
            endings.extend(fed.ending.map(|cause| part(number, cause)));
        }
        let fault = endings.iter().find(|ending| **ending == Refusal::ReadFault).cloned();
        let refusal = fault.or(endings.into_iter().next());
        Ok(Outcome { out: modes::in_turns(&lines).into_bytes(), refusal })
    }

    /// The text of a program of the list, and the widths of its inputs.
    fn shared(&self, name: &str) -> Result<(Vec<u8>, Vec<u32>), Refusal> {
        let text = read_within(self.shelf, name, PROGRAM_BYTES, "program-bytes")?;
        let configuration = crate::compile(&text, Target { fabric: BASE, narrowed: false })?;
        Ok((text, configuration.inputs))
    }
}

/// The refusal of a program of a list. A file that can't be read is one of the whole call.
fn part(program: usize, cause: Refusal) -> Refusal {
    match cause {
        Refusal::ReadFault => cause,
        cause => Refusal::Part { program, cause: Box::new(cause) },
    }
}
