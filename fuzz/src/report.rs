//! What is counted and told while cases are tried, and the folders of differences.

use crate::checks::Difference;
use crate::options::Options;
use crate::product::Answer;
use std::io::IsTerminal;
use std::path::Path;
use std::sync::atomic::{AtomicU64, Ordering};
use std::sync::Mutex;
use std::time::Instant;

pub struct Tally<'o> {
    options: &'o Options,
    begun: Instant,
    /// The number of the next case.
    pub next: AtomicU64,
    programs: AtomicU64,
    calls: AtomicU64,
    differences: AtomicU64,
    /// The second at which progress was told last.
    told: AtomicU64,
    /// The call in which a wrong body was found.
    pub first: Mutex<Option<String>>,
}

/// So many differences end the trial: more would tell the same.
const ENOUGH: u64 = 10;

impl Tally<'_> {
    pub fn new(options: &Options) -> Tally<'_> {
        Tally {
            options,
            begun: Instant::now(),
            next: AtomicU64::new(options.from),
            programs: AtomicU64::new(0),
            calls: AtomicU64::new(0),
            differences: AtomicU64::new(0),
            told: AtomicU64::new(0),
            first: Mutex::new(None),
        }
    }

    pub fn seconds(&self) -> f64 {
        self.begun.elapsed().as_secs_f64()
    }

    pub fn programs(&self) -> u64 {
        self.programs.load(Ordering::SeqCst)
    }

    pub fn differences(&self) -> u64 {
        self.differences.load(Ordering::SeqCst)
    }

    pub fn is_over(&self) -> bool {
        let enough = if self.options.tries_plants { 1 } else { ENOUGH };
        self.programs() >= self.options.count
            || self.begun.elapsed().as_secs() >= self.options.seconds
            || self.differences() >= enough
    }

    pub fn count(&self, programs: u64, calls: u64) {
        self.programs.fetch_add(programs, Ordering::SeqCst);
        self.calls.fetch_add(calls, Ordering::SeqCst);
    }

    fn line(&self) -> String {
        let (seconds, calls) = (self.seconds(), self.calls.load(Ordering::SeqCst));
        let rate = calls as f64 / seconds.max(0.001);
        format!(
            "seed {}: {} programs, {calls} calls, {} differences in {seconds:.0} s; {rate:.0} calls a second; the next case is {}",
            self.options.seed,
            self.programs(),
            self.differences(),
            self.next.load(Ordering::SeqCst)
        )
    }

    /// Each second on a terminal, each minute elsewhere.
    pub fn tell_progress(&self) {
        let (now, told) = (self.begun.elapsed().as_secs(), self.told.load(Ordering::SeqCst));
        let is_terminal = std::io::stderr().is_terminal();
        if self.options.tries_plants || now < told + if is_terminal { 1 } else { 60 } {
            return;
        }
        self.told.store(now, Ordering::SeqCst);
        if is_terminal {
            eprint!("\r{}", self.line());
        } else {
            eprintln!("{}", self.line());
        }
    }

    pub fn tell_end(&self) {
        if self.options.tries_plants {
            return;
        }
        if std::io::stderr().is_terminal() {
            eprintln!();
        }
        println!("{}", self.line());
    }

    /// Writes a difference, unless it is one of a wrong body that was put in.
    pub fn found(&self, case: u64, difference: &Difference) {
        if self.options.tries_plants {
            let mut first = self.first.lock().expect("no job fails with the lock");
            first.get_or_insert(difference.words.join(" "));
            self.differences.fetch_add(1, Ordering::SeqCst);
            return;
        }
        self.differences.fetch_add(1, Ordering::SeqCst);
        let folder = self.options.found.join(format!("{}-{case}", self.options.seed));
        println!("a difference: {} in {}", difference.words.join(" "), folder.display());
        if let Err(wrong) = write(&folder, difference) {
            println!("the folder could not be written: {wrong}");
        }
    }
}

fn write(folder: &Path, difference: &Difference) -> std::io::Result<()> {
    std::fs::create_dir_all(folder)?;
    for (name, bytes) in &difference.files {
        std::fs::write(folder.join(name), bytes)?;
    }
    let words: Vec<String> = difference.words.iter().map(|word| format!("'{word}'")).collect();
    let call = format!(
        "#!/bin/sh\n# Makes the call again. `expected` is what the second program answers, `got` what the program answered.\n\
         cd \"$(dirname \"$0\")\" && exec \"${{PIPERENCH:-../../../piperench}}\" {}\n",
        words.join(" ")
    );
    std::fs::write(folder.join("call"), call)?;
    std::fs::write(folder.join("expected"), text_of(&difference.expected))?;
    std::fs::write(folder.join("got"), text_of(&difference.got))
}

fn text_of(answer: &Answer) -> Vec<u8> {
    let head = format!("status {}\nnote {}\n", answer.status, String::from_utf8_lossy(&answer.note).trim_end());
    let out = if answer.out.starts_with(b"PI") { words_of(&answer.out).into_bytes() } else { answer.out.clone() };
    [head.as_bytes(), &out].concat()
}

/// The words of a configuration or a checkpoint, a line for each.
fn words_of(bytes: &[u8]) -> String {
    let digits = |word: &[u8]| word.iter().map(|byte| format!("{byte:02x}")).collect::<String>();
    bytes.chunks(4).enumerate().map(|(number, word)| format!("word {number}: {}\n", digits(word))).collect()
}
