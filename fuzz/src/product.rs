//! The program that is tried: a process for each call, in a folder of its own.

use crate::cases::Files;
use std::cell::RefCell;
use std::path::{Path, PathBuf};
use std::process::{Command, Stdio};
use std::sync::atomic::{AtomicU32, AtomicU64, Ordering};
use std::time::{SystemTime, UNIX_EPOCH};

/// What a call answered.
#[derive(Clone, PartialEq, Eq, Debug)]
pub struct Answer {
    pub out: Vec<u8>,
    pub note: Vec<u8>,
    pub status: i32,
}

/// How long a call may take, in seconds.
const LONGEST: u64 = 120;

/// The call that a job waits for.
#[derive(Default)]
pub struct Watch {
    process: AtomicU32,
    since: AtomicU64,
}

fn now() -> u64 {
    SystemTime::now().duration_since(UNIX_EPOCH).map_or(0, |time| time.as_secs())
}

impl Watch {
    /// Ends the call that takes too long.
    pub fn look(&self) {
        let process = self.process.load(Ordering::SeqCst);
        if process != 0 && now().saturating_sub(self.since.load(Ordering::SeqCst)) > LONGEST {
            let _ = Command::new("kill").arg("-KILL").arg(process.to_string()).status();
        }
    }
}

pub struct Product<'w> {
    program: PathBuf,
    folder: PathBuf,
    watch: &'w Watch,
    /// The files that stand in the folder.
    written: RefCell<Files>,
}

impl<'w> Product<'w> {
    /// The program with a new folder.
    pub fn new(program: PathBuf, folder: PathBuf, watch: &'w Watch) -> Self {
        std::fs::create_dir_all(&folder).expect("a folder for the files can be made");
        Product { program, folder, watch, written: RefCell::default() }
    }

    /// Makes these the files of the folder.
    pub fn set(&self, files: &Files) {
        let mut written = self.written.borrow_mut();
        written.retain(|name, _| {
            let stays = files.contains_key(name);
            if !stays {
                std::fs::remove_file(self.folder.join(name)).expect("a file can be removed");
            }
            stays
        });
        for (name, bytes) in files {
            if written.get(name) != Some(bytes) {
                std::fs::write(self.folder.join(name), bytes).expect("the folder takes a file");
                written.insert(name.clone(), bytes.clone());
            }
        }
    }

    /// The answer to the words; a status below 0 where a signal ended the call.
    pub fn call(&self, words: &[String]) -> Answer {
        let child = Command::new(&self.program)
            .args(words)
            .current_dir(&self.folder)
            .stdin(Stdio::null())
            .stdout(Stdio::piped())
            .stderr(Stdio::piped())
            .spawn()
            .expect("the program starts");
        self.watch.since.store(now(), Ordering::SeqCst);
        self.watch.process.store(child.id(), Ordering::SeqCst);
        let output = child.wait_with_output().expect("the program ends");
        self.watch.process.store(0, Ordering::SeqCst);
        Answer { out: output.stdout, note: output.stderr, status: output.status.code().unwrap_or(-1) }
    }
}

impl Drop for Product<'_> {
    fn drop(&mut self) {
        let _ = std::fs::remove_dir_all(&self.folder);
    }
}

pub fn is_program(path: &Path) -> bool {
    path.is_file()
}
