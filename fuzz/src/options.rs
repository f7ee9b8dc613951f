//! The words of the command line.

use std::path::PathBuf;
use std::time::{SystemTime, UNIX_EPOCH};

pub const USAGE: &str = "usage: fuzz/run [--seed S] [--from N] [--count N] [--seconds T] [--jobs J] [--program PATH] [--found FOLDER] [--print N] [--plant N | --plants]
  --seed S          the seed of the cases; the clock's seconds where none is said
  --from N          begin with the case of this number (0)
  --count N         end after so many programs
  --seconds T       end after so many seconds (60, or none where --count is said; with --plants: at most so many for each)
  --jobs J          so many calls side by side (the processors)
  --program PATH    the program that is tried
  --found FOLDER    where differences are written (fuzz/found)
  --print N         print the files and calls of the case of this number, and make none
  --plant N         put the wrong body of this number, from 1, into the second program, and go on as ever
  --plants          put each of ten wrong bodies into the second program, and see that a difference is found";

pub struct Options {
    pub seed: u64,
    pub from: u64,
    pub count: u64,
    pub seconds: u64,
    pub jobs: usize,
    pub program: PathBuf,
    pub found: PathBuf,
    pub printed: Option<u64>,
    pub plant: u8,
    pub tries_plants: bool,
}

impl Options {
    pub fn read(mut words: impl Iterator<Item = String>) -> Result<Options, String> {
        let mut options = Options {
            seed: SystemTime::now().duration_since(UNIX_EPOCH).map_or(1, |time| time.as_secs()),
            from: 0,
            count: u64::MAX,
            seconds: 0,
            jobs: std::thread::available_parallelism().map_or(1, usize::from),
            program: PathBuf::new(),
            found: PathBuf::from("found"),
            printed: None,
            plant: 0,
            tries_plants: false,
        };
        while let Some(word) = words.next() {
            if word == "--plants" {
                options.tries_plants = true;
                continue;
            }
            let value = words.next().ok_or(format!("{word} wants a value, or is none of the options"))?;
            options.take(&word, &value)?;
        }
        if options.seconds == 0 {
            options.seconds = if options.count == u64::MAX { 60 } else { u64::MAX };
        }
        // The calls go on in other folders.
        options.program = std::path::absolute(&options.program).map_err(|wrong| wrong.to_string())?;
        Ok(options)
    }

    fn take(&mut self, word: &str, value: &str) -> Result<(), String> {
        let number = || value.parse::<u64>().map_err(|_| format!("{value} is no number"));
        match word {
            "--seed" => self.seed = number()?,
            "--from" => self.from = number()?,
            "--count" => self.count = number()?,
            "--seconds" => self.seconds = number()?,
            "--jobs" => self.jobs = number()?.clamp(1, 256) as usize,
            "--program" => self.program = PathBuf::from(value),
            "--print" => self.printed = Some(number()?),
            "--plant" => self.plant = number()?.min(255) as u8,
            "--found" => self.found = PathBuf::from(value),
            _ => return Err(format!("{word} is none of the options")),
        }
        Ok(())
    }
}
