//! Making a difference smaller: files and options go, then lines, then parts of expressions, then numbers, while the call still
//! has two answers.

use crate::cases::{Files, Words};
use crate::checks::{compared, expected, Difference, SELF};
use crate::product::Product;
use crate::texts::split;
use std::time::{Duration, Instant};

/// How long one difference is worked on.
const LONGEST: Duration = Duration::from_secs(60);
/// How many words of a text go at once.
const LONGEST_RUN: usize = 24;

pub fn shrunk(mut difference: Difference, product: &Product) -> Difference {
    let mut shrinker = Shrinker { product, until: Instant::now() + LONGEST, best: &mut difference };
    shrinker.files();
    shrinker.options();
    let names: Vec<String> = shrinker.best.files.keys().cloned().collect();
    for _ in 0..4 {
        let before = shrinker.best.files.clone();
        names.iter().for_each(|name| shrinker.file(name));
        if shrinker.best.files == before {
            break;
        }
    }
    difference
}

struct Shrinker<'s> {
    product: &'s Product<'s>,
    until: Instant,
    best: &'s mut Difference,
}

impl Shrinker<'_> {
    /// Takes the change where the call still has two answers. The program is asked only where the second one still ends as it did:
    /// most changes make a text that both refuse.
    fn takes(&mut self, files: Files, words: Words) -> bool {
        let is_self = words.first().is_some_and(|mode| mode == SELF);
        if Instant::now() >= self.until || (!is_self && expected(&files, &words).status != self.best.expected.status) {
            return false;
        }
        let Some((expected, got)) = compared(&files, &words, self.product) else { return false };
        *self.best = Difference { files, words, expected, got };
        true
    }

    fn takes_text(&mut self, name: &str, parts: &[String]) -> bool {
        let mut files = self.best.files.clone();
        files.insert(name.to_string(), parts.concat().into_bytes());
        self.takes(files, self.best.words.clone())
    }

    /// Leaves out files that the call does not name. The files of a list are named by it.
    fn files(&mut self) {
        for name in self.best.files.keys().cloned().collect::<Vec<_>>() {
            let is_named = self.best.words.iter().any(|word| word.ends_with(&name)) || self.best.words[0] == "share";
            if !is_named {
                self.best.files.remove(&name);
            }
        }
    }

    /// Leaves out options, with their values.
    fn options(&mut self) {
        let mut place = 0;
        while place < self.best.words.len() {
            let is_shorter = [2, 1].into_iter().any(|count| {
                let mut words = self.best.words.clone();
                if !words[place].starts_with("--") || place + count > words.len() {
                    return false;
                }
                words.drain(place..place + count);
                self.takes(self.best.files.clone(), words)
            });
            place += usize::from(!is_shorter);
        }
    }

    fn file(&mut self, name: &str) {
        let Some(bytes) = self.best.files.get(name).cloned() else { return };
        if bytes.starts_with(b"PIP") || bytes.starts_with(b"PICK") {
            return self.zeros(name);
        }
        let Ok(text) = String::from_utf8(bytes) else { return };
        self.runs(name, text.split_inclusive('\n').map(str::to_string).collect());
        self.runs(name, self.text(name).split_inclusive([';', '{', '}']).map(str::to_string).collect());
        self.names(name);
        self.groups(name);
        self.windows(name);
        self.numbers(name);
    }

    fn text(&self, name: &str) -> String {
        self.best.files.get(name).map_or(String::new(), |bytes| String::from_utf8_lossy(bytes).into_owned())
    }

    /// Leaves out runs of parts, long ones first.
    fn runs(&mut self, name: &str, mut parts: Vec<String>) {
        let mut length = parts.len().next_power_of_two();
        while length > 0 {
            let mut place = 0;
            while place < parts.len() {
                let mut fewer = parts.clone();
                fewer.drain(place..(place + length).min(parts.len()));
                if self.takes_text(name, &fewer) {
                    parts = fewer;
                } else {
                    place += length;
                }
            }
            length /= 2;
        }
    }

    /// Puts the name of the first input in the place of each other name.
    fn names(&mut self, name: &str) {
        let mut parts = split(&self.text(name));
        let Some(input) = parts.iter().position(|part| part == "input").and_then(|place| parts.get(place + 2).cloned())
        else {
            return;
        };
        for place in 0..parts.len() {
            let is_name = parts[place].starts_with(|letter: char| letter.is_ascii_lowercase()) && parts[place] != input;
            let mut changed = parts.clone();
            changed[place] = input.clone();
            if is_name && self.takes_text(name, &changed) {
                parts = changed;
            }
        }
    }

    /// Puts what stands in parentheses, or 1, in the place of the whole.
    fn groups(&mut self, name: &str) {
        let mut parts = split(&self.text(name));
        let mut place = 0;
        while place < parts.len() {
            if let Some(end) = closing(&parts, place) {
                let mut inner = parts.clone();
                inner.remove(end);
                inner.remove(place);
                let mut number = parts.clone();
                number.splice(place..=end, ["1".to_string()]);
                if self.takes_text(name, &number) {
                    parts = number;
                } else if self.takes_text(name, &inner) {
                    parts = inner;
                }
            }
            place += 1;
        }
    }

    /// Leaves out some words that stand one after the other.
    fn windows(&mut self, name: &str) {
        let mut parts = split(&self.text(name));
        let mut place = 0;
        while place < parts.len() {
            let shorter = (1..=LONGEST_RUN.min(parts.len() - place)).rev().find_map(|length| {
                let is_blank = parts[place..place + length].iter().all(|part| part.trim().is_empty());
                let mut fewer = parts.clone();
                fewer.drain(place..place + length);
                (!is_blank && self.takes_text(name, &fewer)).then_some(fewer)
            });
            match shorter {
                Some(fewer) => parts = fewer,
                None => place += 1,
            }
        }
    }

    /// Makes each number 0, 1, half or one less.
    fn numbers(&mut self, name: &str) {
        let mut parts = split(&self.text(name));
        for place in 0..parts.len() {
            while let Ok(number) = parts[place].parse::<u128>() {
                let others = [0, 1, number / 2, number.saturating_sub(1)].map(|other| other.to_string());
                let smaller = others.into_iter().filter(|other| *other != parts[place]).find(|other| {
                    let mut changed = parts.clone();
                    changed[place] = other.clone();
                    self.takes_text(name, &changed)
                });
                match smaller {
                    Some(other) if number > 0 => parts[place] = other,
                    _ => break,
                }
            }
        }
    }

    /// Makes words of a file 0.
    fn zeros(&mut self, name: &str) {
        let length = self.best.files[name].len() / 4 * 4;
        for place in (0..length).step_by(4) {
            let mut files = self.best.files.clone();
            let Some(bytes) = files.get_mut(name) else { return };
            if bytes[place..place + 4] != [0; 4] {
                bytes[place..place + 4].fill(0);
                self.takes(files, self.best.words.clone());
            }
        }
    }
}

/// Where the parenthesis that opens here is closed.
fn closing(parts: &[String], place: usize) -> Option<usize> {
    let mut depth = 0;
    for (number, part) in parts.iter().enumerate().skip(place) {
        match part.as_str() {
            "(" => depth += 1,
            ")" => depth -= 1,
            _ => {}
        }
        if depth == 0 {
            return (number > place).then_some(number);
        }
    }
    None
}
