//! Random texts of samples and stalls, lists of programs, and changed programs.

use crate::random::Random;

/// Lines of samples for inputs of these widths; a bad one among them now and then.
pub fn samples(random: &mut Random, widths: &[u32], most: usize) -> Vec<u8> {
    let count = random.below(most + 1);
    let bad = if random.percent(20) { random.below(count + 1) } else { usize::MAX };
    let is_plain = random.percent(60);
    let mut text = Vec::new();
    for number in 0..count {
        if !is_plain {
            skipped_lines(random, &mut text);
        }
        let mut line = sample(random, widths, is_plain);
        if number == bad {
            spoil(random, &mut line);
        }
        text.extend(line);
        text.extend_from_slice(if is_plain { b"\n" } else { random.pick(&["\n", "\n", "\r\n"]).as_bytes() });
    }
    if random.percent(15) {
        text.pop();
    }
    if random.percent(5) {
        text.extend_from_slice(random.pick(&["\r", " ", "\n\n", "\t\r\n", "\n \n"]).as_bytes());
    }
    text
}

fn skipped_lines(random: &mut Random, text: &mut Vec<u8>) {
    while random.percent(15) {
        text.extend_from_slice(random.pick(&["\n", " \n", "\t\r\n", "\r\n", "  \t \n"]).as_bytes());
    }
}

fn sample(random: &mut Random, widths: &[u32], is_plain: bool) -> Vec<u8> {
    let mut line = String::new();
    for (place, width) in widths.iter().enumerate() {
        let blanks = if is_plain { " " } else { *random.pick(&[" ", " ", "  ", "\t", " \t "]) };
        if place > 0 || (!is_plain && random.percent(20)) {
            line += blanks;
        }
        if !is_plain && random.percent(15) {
            let zeros = random.weighted(&[(8, 1), (4, 5), (1, 200)]);
            line += &"0".repeat(zeros);
        }
        line += &number(random, *width).to_string();
    }
    if !is_plain && random.percent(20) {
        line.push_str(random.pick::<&str>(&[" ", "\t", "  "]));
    }
    line.into_bytes()
}

/// A number of so many bits, at an edge more often than not.
fn number(random: &mut Random, width: u32) -> u128 {
    let most = u128::MAX >> (128 - width.clamp(1, 128));
    match random.below(8) {
        0 => 0,
        1 => most,
        2 => most / 2 + 1,
        3 => most / 2,
        4 => 1,
        5 => random.wide() & most & 0xFF,
        _ => random.wide() & most,
    }
}

/// Makes a line of samples wrong, or nearly so.
fn spoil(random: &mut Random, line: &mut Vec<u8>) {
    let place = random.below(line.len() + 1);
    match random.below(9) {
        0 => line.clear(),
        1 => line.truncate(place.saturating_sub(1)),
        2 => line.extend_from_slice(b" 1"),
        3 => line.extend_from_slice(b"9999999999999999999999999999999999999999"),
        4 => line.insert(place, *random.pick(b"x+-.,_\r\x00\x0b\xff:")),
        5 | 8 => line.insert(0, b'+'),
        6 => line.insert(0, b'-'),
        _ => line.insert(place, b'9'),
    }
}

pub fn stall(random: &mut Random) -> Vec<u8> {
    if random.percent(25) {
        return long_stall(random);
    }
    let count = random.weighted(&[(2, 3), (4, 20), (3, 80), (1, 300)]);
    let letters: &[u8] = *random.pick(&[&b".iob"[..], b".....i", b"...o", b"ooooob", b"iiib.", b".io\n\r"]);
    let mut text: Vec<u8> = (0..random.below(count + 1)).map(|_| *random.pick(letters)).collect();
    if random.percent(8) {
        let place = random.below(text.len() + 1);
        text.insert(place, *random.pick(b" xI\t0\x00\xff,"));
    }
    text
}

/// Turns in which a side is held until its queue is full.
fn long_stall(random: &mut Random) -> Vec<u8> {
    let mut text = Vec::new();
    for _ in 0..random.from_to(1, 4) {
        text.extend(vec![*random.pick(b"ooib"); random.from_to(10, 70)]);
        text.extend(vec![b'.'; random.below(25)]);
    }
    text
}

/// A line of a list: a program, its samples and its quota.
pub fn list_line(random: &mut Random, program: &str, samples: &str) -> Vec<u8> {
    let quota = random.weighted(&[(5, 1), (3, 2), (2, 7), (1, 1_000_000)]);
    let (first, second) = (*random.pick(&[" ", " ", "\t", "  "]), *random.pick(&[" ", " ", " \t"]));
    let end = *random.pick(&["\n", "\n", "\n", "\r\n", " \n", "\t\r\n"]);
    format!("{program}{first}{samples}{second}{quota}{end}").into_bytes()
}

/// Makes a list wrong, or nearly so.
pub fn spoil_list(random: &mut Random, list: &mut Vec<u8>) {
    let place = random.below(list.len() + 1);
    match random.below(7) {
        0 => list.truncate(place),
        1 => list.insert(place, *random.pick(b" \t\r\n0x\xff9")),
        2 => {
            list.pop();
        }
        3 => list.extend(list.clone()),
        4 => list.clear(),
        5 => list.extend_from_slice(
            random
                .pick(&["p0 s0 0\n", "p0 s0 01\n", "p0 s0\n", " p0 s0 1\n", "p0 s0 1000001\n", "  ", "p0 nothere 1\n"])
                .as_bytes(),
        ),
        _ => {
            list.splice(0..0, random.pick(&["\n", " \r\n", "\r\n\n", "\t"]).bytes());
        }
    }
}

const TOKENS: &str =
    "input output const fn return let rec by for in cat signed : ; = ( ) [ ] { } , .. @ ? + - * / % & | ^ ~ << >> == \
     != < <= > >= 0 1 x 8 128 129 257 18446744073709551615 18446744073709551616 0x 0xFf 08x $ . //";

/// One of the words of a text.
fn word_of<'t>(random: &mut Random, text: &'t str) -> &'t str {
    let words: Vec<&str> = text.split_ascii_whitespace().collect();
    random.pick::<&str>(&words)
}

/// A program with some changes, mostly wrong.
pub fn changed(random: &mut Random, text: &str) -> Vec<u8> {
    let mut tokens = split(text);
    let keeps_grammar = random.percent(65);
    for _ in 0..random.weighted(&[(5, 1), (3, 2), (1, 4)]) {
        if keeps_grammar {
            exchange(random, &mut tokens);
        } else {
            change(random, &mut tokens);
        }
    }
    let mut bytes = tokens.concat().into_bytes();
    if !keeps_grammar && random.percent(10) {
        let place = random.below(bytes.len() + 1);
        bytes.insert(place, *random.pick(b"\x00\xff\r\t#'\"!\\\x80"));
    }
    bytes
}

fn change(random: &mut Random, tokens: &mut Vec<String>) {
    if tokens.is_empty() {
        return;
    }
    let (place, other) = (random.below(tokens.len()), random.below(tokens.len()));
    match random.below(7) {
        0 => {
            tokens.remove(place);
        }
        1 => tokens.insert(place, word_of(random, TOKENS).to_string()),
        2 => tokens[place] = word_of(random, TOKENS).to_string(),
        3 => tokens.swap(place, other),
        4 => tokens[place] = tokens[other].clone(),
        5 => tokens.truncate(place),
        _ => {
            let (first, last) = (place.min(other), place.max(other));
            let copied: Vec<String> = tokens[first..last.min(first + 12)].to_vec();
            tokens.splice(place..place, copied);
        }
    }
}

/// Puts another token of the same kind in the place of one, or moves a line: the grammar mostly holds.
fn exchange(random: &mut Random, tokens: &mut Vec<String>) {
    const OPERATORS: [&str; 10] = ["+", "-", "*", "&", "|", "^", "<<", ">>", "<", "=="];
    const NUMBERS: &str = "0 1 2 7 8 9 64 128 129 256 257 18446744073709551615";
    if tokens.is_empty() {
        return;
    }
    if random.percent(25) {
        return move_line(random, tokens);
    }
    let is_name = |token: &String| token.starts_with(|letter: char| letter.is_ascii_alphabetic());
    let names: Vec<String> = tokens.iter().filter(|token| is_name(token) && token.len() < 6).cloned().collect();
    // A token that something can stand for, if one is near.
    let from = random.below(tokens.len());
    let Some(place) = (from..tokens.len())
        .find(|place| !tokens[*place].trim().is_empty() && !";:=(){}[],@.".contains(&tokens[*place]))
    else {
        return;
    };
    let token = tokens[place].clone();
    tokens[place] = match () {
        _ if token.parse::<u64>().is_ok() => word_of(random, NUMBERS).to_string(),
        _ if OPERATORS.contains(&token.as_str()) => random.pick(&OPERATORS).to_string(),
        _ if names.contains(&token) => random.pick(&names).clone(),
        _ => token,
    };
}

fn move_line(random: &mut Random, tokens: &mut Vec<String>) {
    let text = tokens.concat();
    let mut lines: Vec<&str> = text.split_inclusive('\n').collect();
    let (place, other) = (random.below(lines.len()), random.below(lines.len()));
    match random.below(3) {
        0 => lines.swap(place, other),
        1 => lines.insert(place, lines[other]),
        _ => {
            lines.remove(place);
        }
    }
    let moved = lines.concat();
    *tokens = split(&moved);
}

/// A text as words, symbols and blanks, none of them lost.
pub fn split(text: &str) -> Vec<String> {
    let kind = |letter: char| match letter {
        letter if letter.is_ascii_alphanumeric() || letter == '_' => 0,
        letter if letter.is_ascii_whitespace() => 1,
        _ => 2,
    };
    let mut parts: Vec<String> = Vec::new();
    let mut before = 3;
    for letter in text.chars() {
        let is_pair = matches!(
            (parts.last().map(String::as_str), letter),
            (Some("<"), '<') | (Some(">"), '>') | (Some("."), '.') | (Some("<" | ">" | "=" | "!"), '=')
        );
        match parts.last_mut() {
            Some(last) if (kind(letter) == before && before < 2) || is_pair => last.push(letter),
            _ => parts.push(letter.to_string()),
        }
        before = kind(letter);
    }
    parts
}

/// The words of a command line that is mostly wrong.
pub fn words(random: &mut Random) -> Vec<String> {
    const WORDS: &str =
        "run trace compile exec eval show gen migrate share checkpoint move extend p s c m st list nothere . 1 3 016 \
         256 257 +3 1001 - -- --stripes --stripes=4 --stripes= --stall --stall=st --fabric --fabric=wide --fabric=base \
         --fabric=Wide base wide --narrow --narrow=1 --narro -n -h --help -V --version help -1";
    const CALLS: [&str; 8] =
        ["run p s", "compile p", "exec c s", "show c", "gen 2", "move m s", "eval p s", "share list"];
    let mut words: Vec<String> = Vec::new();
    if random.percent(70) {
        words.extend(random.pick(&CALLS).split(' ').map(str::to_string));
    }
    for _ in 0..random.weighted(&[(3, 1), (3, 2), (2, 4), (1, 8)]) {
        let place = random.below(words.len() + 1);
        let word = if random.percent(3) { "" } else { word_of(random, WORDS) };
        words.insert(place, word.to_string());
    }
    if random.percent(20) && !words.is_empty() {
        words.remove(random.below(words.len()));
    }
    words
}

/// Makes a text as long as a limit, or a byte longer or shorter, by a byte that changes nothing.
pub fn padded(random: &mut Random, text: &[u8], limit: usize, with: u8) -> Vec<u8> {
    let length = random.from_to(limit - 1, limit + 1);
    let mut text = text.to_vec();
    text.resize(length.max(text.len()), with);
    text
}

#[cfg(test)]
mod tests {
    use super::*;

    #[test]
    fn split_loses_nothing() {
        for (text, count) in [("", 0), ("a<<b", 3), ("t[i-1]  ==x", 9), ("0..9;\n", 5), ("a @1", 4)] {
            let parts = split(text);
            assert_eq!((parts.concat().as_str(), parts.len()), (text, count));
        }
    }

    #[test]
    fn padded_texts_are_as_long_as_the_limit_or_a_byte_beside() {
        let mut random = Random::of_case(1, 2);
        for _ in 0..20 {
            let text = padded(&mut random, b"ab", 10, b' ');
            assert!(text.starts_with(b"ab") && (9..=11).contains(&text.len()));
        }
    }
}
