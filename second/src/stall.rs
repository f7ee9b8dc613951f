//! Texts of stalls: which sides are held in each turn of a run.

use crate::Refusal;

const MOST_BYTES: usize = 1_048_576;

#[derive(Clone, Copy, PartialEq, Eq, Default, Debug)]
pub struct Turn {
    pub holds_input: bool,
    pub holds_output: bool,
}

pub fn read(text: &[u8]) -> Result<Vec<Turn>, Refusal> {
    if text.len() > MOST_BYTES {
        return Err(Refusal::Limit("stall-bytes", MOST_BYTES as u64));
    }
    let mut turns = Vec::new();
    for (place, byte) in text.iter().enumerate() {
        let (holds_input, holds_output) = match byte {
            b'\r' | b'\n' => continue,
            b'.' => (false, false),
            b'i' => (true, false),
            b'o' => (false, true),
            b'b' => (true, true),
            _ => return Err(Refusal::BadStall(place)),
        };
        turns.push(Turn { holds_input, holds_output });
    }
    Ok(turns)
}
