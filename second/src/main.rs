//! The second `piperench` as a program: the same words, answers, notes and statuses.
//!
//!     second MODE FIRST [SECOND] [OPTIONS]        as `piperench`
//!     second units PROGRAM [OPTIONS]              how many units the program has

use second::call::{call, Outcome, Shelf};
use second::{words, Refusal};
use std::io::Write;
use std::process::ExitCode;

/// The files of the folder that the program is called in.
struct Disk;

impl Shelf for Disk {
    fn read(&self, name: &str) -> Option<Vec<u8>> {
        std::fs::read(name).ok()
    }
}

fn outcome() -> Outcome {
    let words: Option<Vec<String>> = std::env::args_os().skip(1).map(|word| word.into_string().ok()).collect();
    let Some(mut words) = words else {
        return Outcome { out: Vec::new(), refusal: Some(Refusal::Usage) };
    };
    if words.first().is_some_and(|mode| mode == "units") {
        words[0] = "compile".to_string();
        return units(&words).unwrap_or_else(|refusal| Outcome { out: Vec::new(), refusal: Some(refusal) });
    }
    call(&words, &Disk)
}

fn units(words: &[String]) -> Result<Outcome, Refusal> {
    let order = words::read(words)?;
    let text = Disk.read(&order.first).ok_or(Refusal::ReadFault)?;
    let units = second::net(&text, order.target)?.units();
    Ok(Outcome { out: format!("{units}\n").into_bytes(), refusal: None })
}

fn main() -> ExitCode {
    // Calls of functions in calls of functions go deep in the tree: more than the first thread's stack may hold.
    let worker = std::thread::Builder::new().stack_size(1 << 28).spawn(outcome).expect("a thread starts");
    let mut outcome = worker.join().expect("the call ends");
    if std::io::stdout().write_all(&outcome.out).is_err() {
        outcome.refusal = Some(Refusal::WriteFault);
    }
    eprint!("{}", outcome.note());
    ExitCode::from(outcome.status())
}
