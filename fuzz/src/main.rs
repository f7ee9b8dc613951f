//! Compares `piperench` with the second one in `second/` on random programs, texts, files and command lines. `fuzz/run` builds
//! and calls it; `fuzz/README.md` says how to read what it finds.

mod cases;
mod checks;
mod files;
mod generate;
mod options;
mod product;
mod random;
mod report;
mod shrink;
mod texts;

use crate::options::Options;
use crate::product::{Product, Watch};
use crate::random::Random;
use crate::report::Tally;
use std::process::ExitCode;
use std::sync::atomic::Ordering;
use std::time::Duration;

const STACK: usize = 1 << 28;

fn main() -> ExitCode {
    let options = match Options::read(std::env::args().skip(1)) {
        Ok(options) => options,
        Err(wrong) => {
            eprintln!("fuzz: {wrong}\n{}", options::USAGE);
            return ExitCode::from(2);
        }
    };
    if let Some(number) = options.printed {
        print(options.seed, number);
        return ExitCode::SUCCESS;
    }
    if !product::is_program(&options.program) {
        eprintln!("fuzz: there is no program at {}", options.program.display());
        return ExitCode::from(2);
    }
    // What fails in the second one is an answer of its own.
    std::panic::set_hook(Box::new(|_| {}));
    second::plant::put_in(options.plant);
    let is_good = if options.tries_plants { plants(&options) } else { tried(&options).differences() == 0 };
    ExitCode::from(u8::from(!is_good))
}

/// Prints a case: each file, and each call with what the second program answers.
fn print(seed: u64, number: u64) {
    let case = cases::case(&mut Random::of_case(seed, number));
    for (name, bytes) in &case.files {
        println!("-- {name}, {} bytes\n{}", bytes.len(), String::from_utf8_lossy(bytes).trim_end());
    }
    for words in &case.calls {
        let answer = checks::expected(&case.files, words);
        let note = String::from_utf8_lossy(&answer.note).trim_end().to_string();
        println!("-- {} -> status {}, {} bytes {note}", words.join(" "), answer.status, answer.out.len());
    }
}

/// Tries cases until there are enough, or the time is over.
fn tried(options: &Options) -> Tally<'_> {
    let tally = Tally::new(options);
    let watches: Vec<Watch> = (0..options.jobs).map(|_| Watch::default()).collect();
    std::thread::scope(|scope| {
        let mut jobs = Vec::new();
        for (number, watch) in watches.iter().enumerate() {
            let tally = &tally;
            let job = std::thread::Builder::new().stack_size(STACK);
            jobs.push(job.spawn_scoped(scope, move || work(options, tally, number, watch)).expect("a thread starts"));
        }
        while jobs.iter().any(|job| !job.is_finished()) {
            std::thread::sleep(Duration::from_millis(100));
            watches.iter().for_each(Watch::look);
            tally.tell_progress();
        }
    });
    tally.tell_end();
    tally
}

/// Takes one case after the other.
fn work(options: &Options, tally: &Tally, job: usize, watch: &Watch) {
    let folder = std::env::temp_dir().join(format!("fuzz-{}-{job}", std::process::id()));
    let product = Product::new(options.program.clone(), folder, watch);
    while !tally.is_over() {
        let number = tally.next.fetch_add(1, Ordering::SeqCst);
        let case = cases::case(&mut Random::of_case(options.seed, number));
        let mut calls = 0;
        let difference = checks::differing(&case, &product, &mut calls);
        tally.count(case.programs, calls);
        if let Some(difference) = difference {
            let smaller = if options.tries_plants { difference } else { shrink::shrunk(difference, &product) };
            tally.found(number, &smaller);
        }
    }
}

/// Puts each wrong body into the second one, and sees whether a difference is found.
fn plants(options: &Options) -> bool {
    let mut missed = 0;
    for (number, (_, what)) in second::plant::PLANTS.iter().enumerate() {
        second::plant::put_in(number as u8 + 1);
        let tally = tried(options);
        let first = tally.first.lock().expect("no job fails with the lock").clone();
        missed += u32::from(first.is_none());
        let verdict = first.map_or("missed".to_string(), |call| format!("found by {call}"));
        println!("{what}: {verdict}, {:.1} s, {} programs", tally.seconds(), tally.programs());
    }
    second::plant::put_in(0);
    println!("{missed} of {} wrong bodies missed", second::plant::PLANTS.len());
    missed == 0
}
