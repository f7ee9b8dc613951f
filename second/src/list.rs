//! Lists of programs that share the stripes.

use crate::samples::{is_blank, lines};
use crate::Refusal;

const MOST_BYTES: usize = 65_536;
const MOST_PROGRAMS: usize = 8;
const MOST_QUOTA: u64 = 1_000_000;

/// A line of the list.
#[derive(Clone, PartialEq, Eq, Debug)]
pub struct Entry {
    pub program: String,
    pub samples: String,
    pub quota: usize,
}

pub fn read(text: &[u8]) -> Result<Vec<Entry>, Refusal> {
    if text.len() > MOST_BYTES {
        return Err(Refusal::Limit("list-bytes", MOST_BYTES as u64));
    }
    let mut entries = Vec::new();
    let mut count = 0;
    for line in lines(text) {
        count += 1;
        let line = line.strip_suffix(b"\r").unwrap_or(line);
        if line.iter().all(|byte| is_blank(*byte)) {
            continue;
        }
        let entry = entry(line).filter(|_| entries.len() < MOST_PROGRAMS);
        entries.push(entry.ok_or(Refusal::BadList(count))?);
    }
    if entries.is_empty() {
        return Err(Refusal::BadList(count + 1));
    }
    Ok(entries)
}

fn entry(line: &[u8]) -> Option<Entry> {
    let line = std::str::from_utf8(line).ok()?;
    if line.starts_with([' ', '\t']) {
        return None;
    }
    let words: Vec<&str> = line.split([' ', '\t']).filter(|word| !word.is_empty()).collect();
    let [program, samples, quota] = words[..] else { return None };
    let quota = count(quota, MOST_QUOTA)? as usize;
    Some(Entry { program: program.to_string(), samples: samples.to_string(), quota })
}

/// A number from 1 on in decimal digits, without a zero before them.
pub fn count(word: &str, most: u64) -> Option<u64> {
    let is_plain = word.bytes().all(|byte| byte.is_ascii_digit()) && !word.starts_with('0');
    word.parse().ok().filter(|number| is_plain && *number <= most)
}
