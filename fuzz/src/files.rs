//! Random configurations that keep every rule of their file, and damaged files.

use crate::random::Random;
use second::configuration::{slices, Configuration, Output, Words};
use second::{Fabric, BASE, WIDE};

/// A configuration of random elements: what no program compiles to, as well.
pub fn configuration(random: &mut Random) -> Configuration {
    let fabric = if random.percent(20) { WIDE } else { BASE };
    let mut inputs = Vec::new();
    let mut room = fabric.columns;
    for _ in 0..random.from_to(1, 3) {
        let width = random.from_to(1, 30) as u32;
        if slices(width) <= room {
            room -= slices(width);
            inputs.push(width);
        }
    }
    let outputs = (0..random.from_to(1, 3)).map(|_| output(random, fabric)).collect();
    let count = random.weighted(&[(4, 2), (4, 5), (1, 20)]);
    let count = random.from_to(1, count);
    let mut made = Configuration { fabric, inputs, outputs, stages: Vec::new() };
    let fill = *random.pick(&[20, 60, 100]);
    for stage in 0..count {
        let rules = Allowed { fabric, is_first: stage == 0, sample_bytes: made.sample_bytes() };
        let words = |(column, random): (usize, &mut Random)| {
            if random.percent(fill) {
                rules.element(random, column)
            } else {
                [0; 4]
            }
        };
        let stage = (0..fabric.columns).map(|column| words((column, random))).collect();
        made.stages.push(stage);
    }
    made
}

fn output(random: &mut Random, fabric: Fabric) -> Output {
    let width = *random.pick(&[1, 7, 8, 9, 16, 24, 64]);
    let tap = |random: &mut Random| {
        if random.percent(10) {
            return random.below(256) as u16;
        }
        (0x1000 + random.below(fabric.columns) * 16 + random.from_to(1, fabric.registers - 1)) as u16
    };
    Output { width, taps: (0..slices(width)).map(|_| tap(random)).collect() }
}

/// What the elements of a stage may read.
struct Allowed {
    fabric: Fabric,
    is_first: bool,
    sample_bytes: usize,
}

impl Allowed {
    fn source(&self, random: &mut Random, column: usize) -> u32 {
        let any = random.below(self.fabric.columns);
        let source = match random.weighted(&[(2, 0), (6, 1), (3, 2), (2, 3)]) {
            1 if self.is_first => 0x4000 + random.below(self.sample_bytes),
            1 => 0x1000 + any * 16 + random.from_to(1, self.fabric.registers - 1),
            2 if column > 0 => 0x2000 + random.below(column) * 16,
            3 => 0x3000 + any * 16,
            _ => *random.pick(&[0, 0, 1, 255, 0x5A]),
        };
        source as u32
    }

    fn element(&self, random: &mut Random, column: usize) -> Words {
        let kind = random.below(3) as u32;
        let has_bit = kind == 1;
        let third = if has_bit { self.source(random, column) } else { 0 };
        let bit = if has_bit { random.below(8) as u32 } else { 0 };
        let any = random.next().to_le_bytes().map(u32::from);
        let table = *random.pick(&[0xAA, 0xCC, 0xF0, 0x66, 0xC0, 0xAC, 0x0F, 0x33, any[0]]);
        let mask = *random.pick(&[255, 255, 1, 0x7F, any[1]]);
        let init = *random.pick(&[0, 0, 1, 255, any[2]]);
        let mut carry = random.below(4) as u32;
        if (carry == 2 && column == 0) || (carry == 3 && !has_bit) {
            carry = 1;
        }
        let write = random.below(self.fabric.registers) as u32;
        let [next, mode, shift] = [random.below(3), random.below(3), random.below(8)].map(|number| number as u32);
        [
            self.source(random, column) << 16 | self.source(random, column),
            self.source(random, column) << 16 | third,
            table << 24 | mask << 16 | init << 8 | kind << 4 | bit,
            write << 16 | next << 12 | carry << 8 | mode << 4 | shift,
        ]
    }
}

/// The file with a change or two.
pub fn damaged(random: &mut Random, file: &[u8]) -> Vec<u8> {
    let mut file = file.to_vec();
    for _ in 0..random.weighted(&[(8, 1), (2, 2)]) {
        damage(random, &mut file);
    }
    file
}

fn damage(random: &mut Random, file: &mut Vec<u8>) {
    let words = file.len() / 4;
    if words == 0 {
        file.push(random.next() as u8);
        return;
    }
    // The head's words more often than those of the stages.
    let near = random.weighted(&[(3, 12), (2, words)]);
    let place = random.below(words.min(near)) * 4;
    match random.weighted(&[(3, 0), (1, 1), (4, 2), (6, 3), (1, 4), (1, 5), (4, 6)]) {
        0 => file.truncate(if random.percent(50) { random.below(file.len()) } else { place }),
        1 => file.extend((0..random.from_to(1, 5)).map(|_| 0)),
        2 => {
            let byte = random.below(file.len().min(near * 4));
            file[byte] ^= 1 << random.below(8);
        }
        3 => {
            let word = edge(random);
            file[place..place + 4].copy_from_slice(&word.to_be_bytes());
        }
        4 => {
            file.drain(place..place + 4);
        }
        5 => {
            file.splice(place..place, edge(random).to_be_bytes());
        }
        _ => {
            // One half byte of a word, to a number that is just allowed or just not.
            let byte = place + random.below(4);
            let digit = *random.pick(&[0, 1, 2, 3, 4, 7, 8, 15]);
            file[byte] = if random.percent(50) { file[byte] & 0xF0 | digit } else { file[byte] & 15 | digit << 4 };
        }
    }
}

fn edge(random: &mut Random) -> u32 {
    let any = random.next() as u32;
    *random.pick(&[
        0,
        1,
        2,
        3,
        8,
        16,
        17,
        32,
        33,
        64,
        65,
        128,
        129,
        0x5049_5031,
        0x5049_5032,
        0x5049_434B,
        0x0010_0008,
        0x0020_0010,
        0x1001,
        0x1008,
        0x1010,
        0x1100,
        0x10FF,
        0x2000_0000,
        0x3000_2000,
        0x4000_4001,
        32_768,
        32_769,
        0x100,
        0x101,
        0xFFFF_FFFF,
        any,
        any & 0xFFFF,
    ])
}

#[cfg(test)]
mod tests {
    use super::*;
    use second::configuration::{read, read_mark};

    #[test]
    fn random_configurations_keep_the_rules_of_both_formats() {
        for case in 0..200 {
            let made = configuration(&mut Random::of_case(3, case));
            assert_eq!(read(&made.write()).as_ref(), Ok(&made));
            assert_eq!(read(&made.write_first()).as_ref(), Ok(&made));
            assert_eq!(read_mark(&made.write_mark(case)), Ok((case, made)));
        }
    }
}
