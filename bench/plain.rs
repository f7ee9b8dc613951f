// The sums of two programs on numbers of 128 bits, written plainly: text in, text out. No number is known to the compiler.
use std::fmt::Write as _;
use std::hint::black_box;
use std::io::{Read, Write};

const TAPS: [u128; 16] = [8, 9, 10, 11, 12, 13, 14, 15, 15, 14, 13, 12, 11, 10, 9, 8];
const LOW: u128 = (1 << 24) - 1;

/// The filter's result, with the samples before kept in `past`.
fn filter(past: &mut [u128; 16], x: u128) -> u128 {
    past.copy_within(0..15, 1);
    past[0] = x;
    let mut sum = 0;
    for (tap, x) in TAPS.iter().zip(past) {
        sum = (sum + black_box(*x) * black_box(*tap)) & LOW;
    }
    sum
}

/// A number added to itself a hundred times.
fn hundredfold(x: u128) -> u128 {
    let mut sum = x;
    for _ in 0..100 {
        sum = (sum + black_box(x)) & LOW;
    }
    sum
}

fn main() {
    let is_filter = std::env::args().nth(1).as_deref() == Some("filter");
    let mut text = String::new();
    std::io::stdin().read_to_string(&mut text).unwrap();
    let mut past = [0; 16];
    let mut results = String::new();
    for line in text.lines() {
        let x = line.parse().unwrap();
        let result = if is_filter { filter(&mut past, x) } else { hundredfold(x) };
        writeln!(results, "{result}").unwrap();
    }
    std::io::stdout().write_all(results.as_bytes()).unwrap();
}
