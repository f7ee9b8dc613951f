//! Texts of samples, and lines of results.

use crate::plant::{self, Plant};
use crate::Refusal;

/// The most samples of a run.
pub const MOST: u64 = 1 << 40;
/// The longest text of samples that `eval` reads.
pub const EVALUATED: usize = 16_777_216;

/// The samples of a text before its end, and what ended them where that was not the end of the text.
#[derive(Clone, PartialEq, Eq, Debug)]
pub struct Fed {
    pub samples: Vec<Vec<u128>>,
    pub ending: Option<Refusal>,
}

/// The samples of the lines, at most so many.
pub fn fed(text: &[u8], widths: &[u32], most: u64) -> Fed {
    let mut samples = Vec::new();
    for (number, line) in lines(text).enumerate() {
        let line = line.strip_suffix(b"\r").unwrap_or(line);
        if line.iter().all(|byte| is_blank(*byte)) {
            continue;
        }
        let Some(sample) = sample(line, widths) else {
            return Fed { samples, ending: Some(Refusal::BadSample(number + 1)) };
        };
        if samples.len() as u64 == most {
            return Fed { samples, ending: Some(Refusal::Limit("samples", MOST)) };
        }
        samples.push(sample);
    }
    Fed { samples, ending: None }
}

/// The lines of a text without their ends. Nothing stands after the last end.
pub fn lines(text: &[u8]) -> impl Iterator<Item = &[u8]> {
    text.split_inclusive(|byte| *byte == b'\n').map(|line| line.strip_suffix(b"\n").unwrap_or(line))
}

pub fn is_blank(byte: u8) -> bool {
    byte == b' ' || byte == b'\t'
}

fn sample(line: &[u8], widths: &[u32]) -> Option<Vec<u128>> {
    let words: Vec<&[u8]> = line.split(|byte| is_blank(*byte)).filter(|word| !word.is_empty()).collect();
    if words.len() != widths.len() {
        return None;
    }
    words.iter().zip(widths).map(|(word, width)| number(word, *width)).collect()
}

/// A decimal number of so many bits at most.
fn number(word: &[u8], width: u32) -> Option<u128> {
    let word = if plant::is(Plant::PlusAccepted) { word.strip_prefix(b"+").unwrap_or(word) } else { word };
    let number = word.iter().try_fold(0u128, |number, byte| {
        let digit = byte.is_ascii_digit().then(|| u128::from(byte - b'0'))?;
        number.checked_mul(10)?.checked_add(digit)
    })?;
    (!word.is_empty() && (width >= 128 || number >> width == 0)).then_some(number)
}

/// A line for each row of results.
pub fn written(rows: &[Vec<u128>]) -> String {
    rows.iter().map(|row| line(row)).collect()
}

/// The line of a row, with its end.
pub fn line(row: &[u128]) -> String {
    let words: Vec<String> = row.iter().map(u128::to_string).collect();
    words.join(" ") + "\n"
}
