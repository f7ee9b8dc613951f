//! Cases: files and the calls that are made on them.

use crate::random::Random;
use crate::{files, generate, texts};
use second::configuration::Configuration;
use second::samples::{fed, MOST};
use second::{Target, BASE, WIDE};
use std::collections::BTreeMap;

pub type Files = BTreeMap<String, Vec<u8>>;
pub type Words = Vec<String>;

#[derive(Default)]
pub struct Case {
    pub files: Files,
    pub calls: Vec<Words>,
    /// How many programs the case has.
    pub programs: u64,
}

#[derive(Clone, Copy)]
enum Kind {
    /// A program in every mode.
    Program,
    /// Eight programs, shared and each alone.
    Batch,
    /// A program with changes, mostly wrong.
    Changed,
    /// A damaged configuration and a damaged checkpoint.
    Damaged,
    /// A configuration of random elements.
    Elements,
    /// A list that is mostly wrong.
    List,
    /// A command line that is mostly wrong.
    Words,
}

pub fn case(random: &mut Random) -> Case {
    let mut case = Case::default();
    let kinds = [
        (8, Kind::Program),
        (4, Kind::Batch),
        (3, Kind::Changed),
        (2, Kind::Damaged),
        (2, Kind::Elements),
        (1, Kind::List),
        (1, Kind::Words),
    ];
    match random.weighted(&kinds) {
        Kind::Program => case.program(random),
        Kind::Batch => case.batch(random),
        Kind::Changed => case.changed(random),
        Kind::Damaged => case.damaged(random),
        Kind::Elements => case.elements(random),
        Kind::List => case.list(random),
        Kind::Words => case.words(random),
    }
    case
}

/// A program that was put in a case.
struct Put {
    text: String,
    target: Target,
    /// None where the program is refused or too large to run often.
    configuration: Option<Configuration>,
}

/// More units make a program that is compiled alone.
const MOST_UNITS: usize = 600;

impl Case {
    fn file(&mut self, name: &str, bytes: impl Into<Vec<u8>>) {
        self.files.insert(name.to_string(), bytes.into());
    }

    fn call(&mut self, words: &[&str], options: &[String]) {
        let words = words.iter().filter(|word| !word.is_empty()).map(|word| word.to_string());
        self.calls.push(words.chain(options.iter().cloned()).collect());
    }

    fn put(&mut self, random: &mut Random, name: &str) -> Put {
        let made = generate::program(random);
        self.programs += 1;
        self.file(name, made.text.clone());
        let target = Target { fabric: made.fabric, narrowed: random.percent(35) };
        let is_small = second::net(made.text.as_bytes(), target).is_ok_and(|net| net.units() <= MOST_UNITS);
        let configuration = if is_small { second::compile(made.text.as_bytes(), target).ok() } else { None };
        Put { text: made.text, target, configuration }
    }

    fn program(&mut self, random: &mut Random) {
        let put = self.put(random, "p");
        let compiled = target_options(&put);
        self.call(&["compile", "p"], &compiled);
        let Some(configuration) = &put.configuration else {
            self.file("s", "1\n");
            self.call(&["run", "p", "s"], &compiled);
            self.call(&["eval", "p", "s"], &[]);
            return;
        };
        let most = random.weighted(&[(2, 3), (4, 12), (3, 40), (1, 120)]);
        for name in ["s", "s2"] {
            let samples = texts::samples(random, &configuration.inputs, most);
            self.file(name, samples);
        }
        let stall = texts::stall(random);
        self.file("st", stall);
        self.call(&["self", "p", "s"], &compiled);
        self.call(&["eval", "p", "s"], &[]);
        let stages = configuration.stages.len();
        for mode in ["run", "run"] {
            let options = [&compiled[..], &machine_options(random, stages)].concat();
            self.call(&[mode, "p", "s"], &options);
        }
        let stall = if random.percent(80) { ["--stall", "st"].map(str::to_string).to_vec() } else { Vec::new() };
        let options = [&compiled[..], &stripes(random, stages), &stall].concat();
        self.call(&["trace", "p", "s"], &options);
        self.configured(random, configuration, stages);
        if random.percent(50) {
            self.moved(random, &put, configuration);
        }
    }

    fn configured(&mut self, random: &mut Random, configuration: &Configuration, stages: usize) {
        self.file("c", configuration.write());
        self.call(&["exec", "c", "s"], &machine_options(random, stages));
        let widths = configuration.outputs.iter().map(|output| &output.width).chain(&configuration.inputs);
        if random.percent(30) && widths.max().is_some_and(|width| *width <= 64) {
            self.file("c1", configuration.write_first());
            self.call(&["migrate", "c1"], &[]);
            self.call(&["exec", "c1", "s2"], &machine_options(random, stages));
        }
        if random.percent(20) {
            self.call(&["show", "c"], &[]);
            self.call(&["migrate", "c"], &[]);
        }
    }

    /// A checkpoint after some of the samples, one after more, and the rest on it.
    fn moved(&mut self, random: &mut Random, put: &Put, configuration: &Configuration) {
        let options = |random: &mut Random| machine_options(random, configuration.stages.len());
        let compiled = target_options(put);
        let first = [&compiled[..], &options(random)].concat();
        self.call(&["checkpoint", "p", "s"], &first);
        let samples = |text: &[u8]| fed(text, &configuration.inputs, MOST).samples;
        let (before, more) = (samples(&self.files["s"]), samples(&self.files["s2"]));
        let after = second::modes::after(configuration, &before);
        let count = match random.below(12) {
            0 => (1 << 40) - random.below(4) as u64,
            _ => before.len() as u64,
        };
        self.file("m", after.write_mark(count));
        self.file("m2", second::modes::after(&after, &more).write_mark(count + more.len() as u64));
        self.call(&["move", "m", "s2"], &options(random));
        self.call(&["extend", "m", "s2"], &options(random));
        self.call(&["move", "m2", "s"], &options(random));
        if random.percent(30) {
            let damaged = files::damaged(random, &self.files["m"]);
            self.file("md", damaged);
            self.call(&[*random.pick(&["move", "extend"]), "md", "s2"], &[]);
        }
    }

    fn batch(&mut self, random: &mut Random) {
        let mut list = Vec::new();
        for number in 0..8 {
            let (name, samples) = (format!("p{number}"), format!("s{number}"));
            let put = self.put(random, &name);
            let compiled = target_options(&put);
            self.call(&["compile", &name], &compiled);
            let Some(configuration) = &put.configuration else { continue };
            let text = texts::samples(random, &configuration.inputs, 10);
            self.file(&samples, text);
            self.call(&["self", &name, &samples], &compiled);
            let mode = *random.pick(&["eval", "run", "trace"]);
            let options = if mode == "eval" { Vec::new() } else { machine_options(random, configuration.stages.len()) };
            self.call(&[mode, &name, &samples], &[&compiled[..], &without_stall(options)].concat());
            let is_shared = second::compile(put.text.as_bytes(), Target { fabric: BASE, narrowed: false }).is_ok();
            if is_shared || random.percent(3) {
                list.extend(texts::list_line(random, &name, &samples));
            }
        }
        self.file("list", list);
        let stripes = stripes(random, 4);
        self.call(&["share", "list"], &stripes);
    }

    fn changed(&mut self, random: &mut Random) {
        let put = self.put(random, "p0");
        self.file("s", "1\n2\n");
        let stall = texts::stall(random);
        self.file("st", stall);
        for number in 1..4 {
            let name = format!("p{number}");
            let text = texts::changed(random, &put.text);
            self.file(&name, text);
            self.programs += 1;
            self.call(&["compile", &name], &target_options(&put));
            let mode = *random.pick(&["run", "eval", "checkpoint", "trace"]);
            let samples = if random.percent(5) { "nothere" } else { "s" };
            let stall = if random.percent(5) { "nothere" } else { "st" };
            let options = if random.percent(30) { ["--stall", stall].map(str::to_string).to_vec() } else { Vec::new() };
            self.call(&[mode, &name, samples], &options);
        }
        if random.percent(2) {
            self.padded(random, &put.text);
        }
    }

    /// Files that are as long as they may be, or a byte longer.
    fn padded(&mut self, random: &mut Random, program: &str) {
        let program = texts::padded(random, program.as_bytes(), 1 << 20, b' ');
        self.file("p4", program);
        self.call(&["compile", "p4"], &[]);
        let stall = texts::padded(random, b"..o", 1 << 20, b'\n');
        self.file("st4", stall);
        self.call(&["run", "p0", "s"], &["--stall", "st4"].map(str::to_string));
        let list = texts::padded(random, b"p0 s 1\n", 1 << 16, b'\n');
        self.file("list4", list);
        self.call(&["share", "list4"], &[]);
    }

    fn damaged(&mut self, random: &mut Random) {
        let Some(configuration) = self.put(random, "p").configuration else { return };
        let samples = texts::samples(random, &configuration.inputs, 5);
        self.file("s", samples);
        let file = if random.percent(50) { configuration.write() } else { configuration.write_first() };
        for number in 0..5 {
            let name = format!("d{number}");
            let damaged = files::damaged(random, &file);
            self.file(&name, damaged);
            self.call(&["migrate", &name], &[]);
            let mode = *random.pick(&["exec", "show"]);
            self.call(&[mode, &name, if mode == "exec" { "s" } else { "" }], &[]);
        }
        let mark = configuration.write_mark(random.below(5) as u64);
        for number in 0..3 {
            let name = format!("m{number}");
            let damaged = files::damaged(random, &mark);
            self.file(&name, damaged);
            self.call(&[*random.pick(&["move", "extend"]), &name, "s"], &[]);
        }
    }

    fn elements(&mut self, random: &mut Random) {
        let configuration = files::configuration(random);
        let stages = configuration.stages.len();
        self.file("c", configuration.write());
        self.file("m", configuration.write_mark(3));
        let samples = texts::samples(random, &configuration.inputs, 40);
        self.file("s", samples);
        let stall = texts::stall(random);
        self.file("st", stall);
        self.call(&["self", "c", "s"], &[]);
        self.call(&["migrate", "c"], &[]);
        for _ in 0..3 {
            self.call(&["exec", "c", "s"], &machine_options(random, stages));
        }
        self.call(&["extend", "m", "s"], &machine_options(random, stages));
        self.call(&["move", "m", "s"], &machine_options(random, stages));
        self.call(&["show", "c"], &[]);
    }

    fn list(&mut self, random: &mut Random) {
        let mut list = Vec::new();
        for number in 0..random.from_to(1, 9) {
            let (name, samples) = (format!("p{}", number % 3), format!("s{}", number % 3));
            list.extend(texts::list_line(random, &name, &samples));
        }
        for number in 0..3 {
            let put = self.put(random, &format!("p{number}"));
            let widths = put.configuration.map_or(vec![8], |configuration| configuration.inputs);
            let samples = texts::samples(random, &widths, 8);
            self.file(&format!("s{number}"), samples);
        }
        if random.percent(15) {
            self.files.remove("s1");
        }
        self.file("list", list.clone());
        let options = stripes(random, 3);
        self.call(&["share", "list"], &options);
        for number in 0..4 {
            let name = format!("list{number}");
            let mut spoiled = list.clone();
            texts::spoil_list(random, &mut spoiled);
            self.file(&name, spoiled);
            self.call(&["share", &name], &options);
        }
    }

    fn words(&mut self, random: &mut Random) {
        self.file("p", "input x:8;\noutput y = x + x@1;\n");
        self.file("s", "1\n2\n3\n");
        self.file("st", ".io");
        self.file("list", "p s 1\n");
        let target = Target { fabric: BASE, narrowed: false };
        let configuration = second::compile(&self.files["p"], target).expect("the program is right");
        self.file("c", configuration.write());
        self.file("m", configuration.write_mark(7));
        for _ in 0..6 {
            self.calls.push(texts::words(random));
        }
        let turns = random.from_to(1, 30).to_string();
        let options = [
            stripes(random, 9),
            target_words(Target { fabric: *random.pick(&[BASE, WIDE]), narrowed: random.percent(50) }),
        ];
        self.call(&["gen", &turns], &options.concat());
    }
}

fn target_words(target: Target) -> Words {
    let mut words = Vec::new();
    if target.fabric == WIDE {
        words.extend(["--fabric", "wide"].map(str::to_string));
    }
    if target.narrowed {
        words.push("--narrow".to_string());
    }
    words
}

fn target_options(put: &Put) -> Words {
    target_words(put.target)
}

/// Stripes near the number of stages, where something changes, or any.
fn stripes(random: &mut Random, stages: usize) -> Words {
    let near = random.from_to(stages.saturating_sub(1), stages + 1);
    let any = random.from_to(2, 40);
    let count = random.weighted(&[(4, 2), (2, 3), (6, near), (2, 16), (3, any), (1, 256)]).clamp(2, 256);
    vec!["--stripes".to_string(), count.to_string()]
}

fn machine_options(random: &mut Random, stages: usize) -> Words {
    let mut words = stripes(random, stages);
    if random.percent(50) {
        words.extend(["--stall", "st"].map(str::to_string));
    }
    words
}

fn without_stall(mut words: Words) -> Words {
    if let Some(place) = words.iter().position(|word| word == "--stall") {
        words.drain(place..place + 2);
    }
    words
}
