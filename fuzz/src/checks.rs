//! Comparing answers: the program's with the second one's, and the second one's with each other.

use crate::cases::{Case, Files, Words};
use crate::product::{Answer, Product};
use second::call::{call, Shelf};
use second::machine::Machine;
use second::samples::{fed, written, MOST};
use second::{modes, words, Refusal};
use std::panic::{catch_unwind, AssertUnwindSafe};

/// A call that was answered in two ways.
pub struct Difference {
    pub files: Files,
    pub words: Words,
    pub expected: Answer,
    pub got: Answer,
}

struct Memory<'f>(&'f Files);

impl Shelf for Memory<'_> {
    fn read(&self, name: &str) -> Option<Vec<u8>> {
        self.0.get(name).cloned()
    }
}

/// The mode of a call that compares the second program with itself.
pub const SELF: &str = "self";

/// The first call of the case that is answered in two ways; the number of calls is counted.
pub fn differing(case: &Case, product: &Product, calls: &mut u64) -> Option<Difference> {
    for words in &case.calls {
        *calls += 1;
        if let Some((expected, got)) = compared(&case.files, words, product) {
            return Some(Difference { files: case.files.clone(), words: words.clone(), expected, got });
        }
    }
    None
}

/// Both answers of a call, where they differ.
pub fn compared(files: &Files, words: &Words, product: &Product) -> Option<(Answer, Answer)> {
    if words.first().is_some_and(|mode| mode == SELF) {
        // With a wrong body in the second program its difference with the first one is to be found.
        return if second::plant::is_any() { None } else { consistent(files, words) };
    }
    let expected = expected(files, words);
    product.set(files);
    let mut got = product.call(words);
    // Where the samples are not there, lines of the log may come before the note.
    if expected.status == 10 && words.first().is_some_and(|mode| mode == "trace") {
        got.out.clear();
    }
    (expected != got).then_some((expected, got))
}

/// What the second one answers.
pub fn expected(files: &Files, words: &Words) -> Answer {
    sheltered(|| {
        let outcome = call(words, &Memory(files));
        Answer { note: outcome.note().into_bytes(), status: outcome.status().into(), out: outcome.out }
    })
}

/// The answer, or what tells that there was none.
fn sheltered(answer: impl FnOnce() -> Answer) -> Answer {
    catch_unwind(AssertUnwindSafe(answer)).unwrap_or_else(|_| Answer {
        out: Vec::new(),
        note: b"the second one failed\n".to_vec(),
        status: -2,
    })
}

/// Both answers of the second one to what a file means, where they differ: on whole lists, and cycle by cycle.
fn consistent(files: &Files, words: &Words) -> Option<(Answer, Answer)> {
    let [file, samples] = [&words[1], &words[2]].map(|name| files.get(name).cloned().unwrap_or_default());
    let is_configuration = file.starts_with(b"PIP");
    let mut order = words.clone();
    order[0] = "run".to_string();
    let target = words::read(&order).ok()?.target;
    let configuration = match is_configuration {
        true => second::configuration::read(&file).ok()?,
        false => second::compile(&file, target).ok()?,
    };
    let fed = fed(&samples, &configuration.inputs, MOST);
    let by_lists = sheltered(|| match is_configuration {
        true => lines(Ok(modes::results(&configuration, &fed.samples))),
        false => lines(modes::meaning(&file, &fed.samples)),
    });
    let by_cycles = sheltered(|| {
        let machine = Machine::new(&configuration, 3);
        let run = modes::Run { machine, configuration: &configuration, fed: &fed, stall: &[] };
        Answer { out: run.text(false).into_bytes(), ..nothing() }
    });
    (by_lists != by_cycles).then_some((by_lists, by_cycles))
}

fn nothing() -> Answer {
    Answer { out: Vec::new(), note: Vec::new(), status: 0 }
}

fn lines(rows: Result<Vec<Vec<u128>>, Refusal>) -> Answer {
    let text = rows.map_or(String::new(), |rows| written(&rows));
    Answer { out: text.into_bytes(), ..nothing() }
}
