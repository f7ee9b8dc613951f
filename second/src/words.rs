//! The words of a command line.

use crate::list::count;
use crate::{Fabric, Refusal, Target, BASE, WIDE};

#[derive(Clone, Copy, PartialEq, Eq, Debug)]
pub enum Mode {
    Run,
    Trace,
    Compile,
    Exec,
    Eval,
    Show,
    Gen,
    Migrate,
    Share,
    Checkpoint,
    Move,
    Extend,
}

/// A command line that is as it has to be.
#[derive(Clone, Debug)]
pub struct Order {
    pub mode: Mode,
    pub first: String,
    /// The file of samples, in the modes that have one.
    pub second: String,
    pub stripes: usize,
    pub stall: Option<String>,
    pub target: Target,
}

/// The words as they stand, before anything is said of their values.
#[derive(Default)]
struct Raw {
    files: Vec<String>,
    stripes: Option<String>,
    stall: Option<String>,
    fabric: Option<String>,
    narrows: bool,
}

/// Reads the words after the program's name.
pub fn read(words: &[String]) -> Result<Order, Refusal> {
    raw(words).and_then(order).ok_or(Refusal::Usage)
}

/// An option is said once; its value follows it, or an equals sign. After `--` each word is a file.
fn raw(words: &[String]) -> Option<Raw> {
    let mut raw = Raw::default();
    let mut rest = words.iter();
    while let Some(word) = rest.next() {
        if word == "--" {
            raw.files.extend(rest.by_ref().cloned());
        } else if word == "--narrow" {
            let was = std::mem::replace(&mut raw.narrows, true);
            (!was).then_some(())?;
        } else if let Some(option) = word.strip_prefix("--") {
            let (name, value) = match option.split_once('=') {
                Some((name, value)) => (name, value.to_string()),
                None => (option, rest.next().filter(|value| !is_option(value))?.clone()),
            };
            let place = match name {
                "stripes" => &mut raw.stripes,
                "stall" => &mut raw.stall,
                "fabric" => &mut raw.fabric,
                _ => return None,
            };
            place.replace(value).is_none().then_some(())?;
        } else if is_option(word) {
            return None;
        } else {
            raw.files.push(word.clone());
        }
    }
    Some(raw)
}

fn is_option(word: &str) -> bool {
    word.starts_with('-') && word != "-"
}

fn order(raw: Raw) -> Option<Order> {
    let mut files = raw.files.into_iter();
    let mode = match files.next()?.as_str() {
        "run" => Mode::Run,
        "trace" => Mode::Trace,
        "compile" => Mode::Compile,
        "exec" => Mode::Exec,
        "eval" => Mode::Eval,
        "show" => Mode::Show,
        "gen" => Mode::Gen,
        "migrate" => Mode::Migrate,
        "share" => Mode::Share,
        "checkpoint" => Mode::Checkpoint,
        "move" => Mode::Move,
        "extend" => Mode::Extend,
        _ => return None,
    };
    let has_samples = !matches!(mode, Mode::Compile | Mode::Show | Mode::Gen | Mode::Migrate | Mode::Share);
    let first = files.next()?;
    let second = if has_samples { files.next()? } else { String::new() };
    if files.next().is_some() || (mode == Mode::Gen && count(&first, 1000).is_none()) {
        return None;
    }
    let stripes = count(raw.stripes.as_deref().unwrap_or("16"), 256).filter(|stripes| *stripes >= 2)? as usize;
    let fabric: Fabric = match raw.fabric.as_deref().unwrap_or("base") {
        "base" => BASE,
        "wide" => WIDE,
        _ => return None,
    };
    let target = Target { fabric, narrowed: raw.narrows };
    Some(Order { mode, first, second, stripes, stall: raw.stall, target })
}
