//! Random programs. Items are made one after the other; one that the program can't take is left out, most of the time.

use crate::random::Random;
use second::equation::{bits_of, Operand};
use second::{Fabric, Refusal, BASE, WIDE};

/// Widths at which something changes: at bytes, at segments of a chain of four cells, at the greatest width.
const EDGES: [u32; 22] = [1, 1, 2, 3, 7, 8, 8, 9, 15, 16, 17, 24, 31, 32, 33, 40, 63, 64, 65, 96, 127, 128];
const BINARY: [&str; 6] = ["+", "-", "*", "&", "|", "^"];
const COMPARISONS: [&str; 6] = ["==", "!=", "<", "<=", ">", ">="];

/// A program's text, and the fabric that it was made for.
pub struct Program {
    pub text: String,
    pub fabric: Fabric,
}

pub fn program(random: &mut Random) -> Program {
    let fabric = if random.percent(25) { WIDE } else { BASE };
    if random.percent(1) {
        return Program { text: at_a_limit(random), fabric };
    }
    let mut maker = Maker { random, items: Vec::new(), scope: Scope::default(), fresh: 0 };
    maker.inputs(fabric);
    let count = maker.random.weighted(&[(3, 2), (4, 5), (3, 9), (1, 16)]);
    for _ in 0..maker.random.from_to(1, count) {
        maker.item();
    }
    for _ in 0..maker.random.weighted(&[(6, 1), (3, 2), (1, 5)]) {
        maker.output();
    }
    let text = maker.items.concat();
    Program { text: if random.percent(10) { spaced(random, &text) } else { text }, fabric }
}

/// A stream that can be named, and its width.
#[derive(Clone)]
struct Stream {
    name: String,
    width: u32,
}

#[derive(Clone)]
struct Function {
    name: String,
    parameters: usize,
    has_past: bool,
}

#[derive(Clone, Default)]
struct Scope {
    streams: Vec<Stream>,
    consts: Vec<(String, u64)>,
    tables: Vec<(String, usize)>,
    functions: Vec<Function>,
    /// Loop indices, each with its last value.
    indices: Vec<(String, u64)>,
    /// The recurrence whose body is being made.
    own: Option<String>,
    is_pure: bool,
}

struct Maker<'r> {
    random: &'r mut Random,
    items: Vec<String>,
    scope: Scope,
    fresh: u32,
}

#[derive(Clone, Copy)]
enum Item {
    Let,
    Rec,
    Const,
    Table,
    Function,
    Loop,
    Alias,
}

#[derive(Clone, Copy)]
enum Form {
    Leaf,
    Binary,
    Comparison,
    Not,
    Choice,
    Shift,
    ShiftBy,
    Slice,
    Cat,
    Signed,
    Call,
}

impl Maker<'_> {
    fn name(&mut self, kind: &str) -> String {
        self.fresh += 1;
        let decoration = *self.random.pick(&["", "", "", "_", "A", "9"]);
        format!("{kind}{}{decoration}", self.fresh)
    }

    fn width(&mut self) -> u32 {
        match self.random.weighted(&[(6, 0), (3, 1), (1, 2)]) {
            0 => *self.random.pick(&EDGES),
            1 => self.random.from_to(1, 24) as u32,
            _ => self.random.from_to(1, 128) as u32,
        }
    }

    fn declared(&mut self, percent: usize) -> String {
        if self.random.percent(percent) {
            format!(":{}", self.width())
        } else {
            String::new()
        }
    }

    fn inputs(&mut self, fabric: Fabric) {
        let mut room = fabric.columns;
        for _ in 0..self.random.weighted(&[(4, 1), (5, 2), (3, 3), (1, 6)]) {
            let width = self.width();
            let bytes = width.div_ceil(8) as usize;
            if bytes <= room || self.random.percent(2) {
                room = room.saturating_sub(bytes);
                let name = self.name("x");
                self.items.push(format!("input {name}:{width};\n"));
                self.scope.streams.push(Stream { name, width });
            }
        }
        if self.scope.streams.is_empty() {
            let name = self.name("x");
            self.items.push(format!("input {name}:8;\n"));
            self.scope.streams.push(Stream { name, width: 8 });
        }
    }

    fn item(&mut self) {
        let kinds = [
            (9, Item::Let),
            (4, Item::Rec),
            (1, Item::Const),
            (1, Item::Table),
            (2, Item::Function),
            (3, Item::Loop),
            (2, Item::Alias),
        ];
        match self.random.weighted(&kinds) {
            Item::Let => self.assignment(),
            Item::Rec => self.recurrence(),
            Item::Const => self.constant(),
            Item::Table => self.table(),
            Item::Function => self.function(),
            Item::Loop => self.repeated(),
            Item::Alias => self.alias(),
        }
    }

    /// Adds the item where the program still has widths with it, and tells the widths of the streams.
    fn add(&mut self, item: String, names: &[String]) -> bool {
        self.items.push(item);
        let text = self.items.concat() + &shown(names);
        match second::equations(text.as_bytes()) {
            Ok((flat, widths)) => {
                for (name, operand) in names.iter().zip(&flat.outputs[flat.outputs.len() - names.len()..]) {
                    let width = match operand {
                        Operand::Const(number) => bits_of(*number),
                        Operand::Eq(place) | Operand::Past { rec: place, .. } => widths[*place as usize],
                    };
                    self.scope.streams.push(Stream { name: name.clone(), width });
                }
                true
            }
            Err(Refusal::Scope { rule: 10, .. }) => true,
            Err(_) => {
                if !self.random.percent(1) {
                    self.items.pop();
                }
                false
            }
        }
    }

    fn assignment(&mut self) {
        let name = self.target("t");
        let declared = self.declared(50);
        let depth = self.random.from_to(0, 3);
        let body = self.expr(depth);
        self.add(format!("let {name}{declared} = {body};\n"), &[name]);
    }

    /// A second name of a stream. It begins with 0, where a recurrence begins with a number of its own.
    fn alias(&mut self) {
        let (first, second, both) = (self.stream().name, self.name("a"), self.name("b"));
        if !self.add(format!("let {second} = {first};\n"), &[second.clone()]) {
            return;
        }
        let (back, further) = (self.delay(1), self.delay(1));
        let operator = *self.random.pick(&["^", "+", "-", "=="]);
        self.add(format!("let {both} = {first}@{back} {operator} {second}@{further};\n"), &[both]);
    }

    fn target(&mut self, kind: &str) -> String {
        let name = self.name(kind);
        if self.random.percent(15) {
            let index = self.random.below(4);
            format!("{name}[{index}]")
        } else {
            name
        }
    }

    fn recurrence(&mut self) {
        let name = self.target("s");
        let text = self.recurrence_of(&name);
        self.add(text, &[name]);
    }

    fn recurrence_of(&mut self, name: &str) -> String {
        let declared = self.declared(80);
        let initial = *self.random.pick(&[0, 0, 1, 1, 5, 127, 255, 256, 65535, u64::MAX]);
        let initial = match declared.strip_prefix(':').and_then(|width| width.parse::<u32>().ok()) {
            Some(width) if width < 64 => initial & ((1 << width) - 1),
            _ => initial,
        };
        let initial = self.fixed(initial);
        self.scope.own = Some(name.to_string());
        let was_pure = std::mem::replace(&mut self.scope.is_pure, true);
        let depth = self.random.weighted(&[(4, 1), (3, 2), (1, 3)]);
        let back = self.delay(1);
        let past = format!("{name}@{back}");
        let body = match self.random.weighted(&[(5, 0), (3, 1), (2, 2)]) {
            0 => {
                let other = self.expr(depth - 1);
                format!("{past} {} {other}", self.random.pick(&["+", "-", "^", "|", "&"]))
            }
            1 => self.expr(depth),
            _ => {
                let condition = self.condition();
                let other = self.expr(depth - 1);
                format!("{condition} ? {past} : {other}")
            }
        };
        self.scope.is_pure = was_pure;
        self.scope.own = None;
        format!("rec {name}{declared} = {initial} by {body};\n")
    }

    fn constant(&mut self) {
        let name = self.name("c");
        let value = self.number();
        let text = format!("const {name} = {};\n", self.fixed(value));
        if self.add(text, &[]) {
            self.scope.consts.push((name, value));
        }
    }

    fn table(&mut self) {
        let name = self.name("k");
        let count = self.random.from_to(1, 6);
        let entries: Vec<String> = (0..count)
            .map(|_| {
                let value = self.number();
                self.fixed(value)
            })
            .collect();
        if self.add(format!("const {name} = [{}];\n", entries.join(", ")), &[]) {
            self.scope.tables.push((name, count));
        }
    }

    fn function(&mut self) {
        let name = self.name("f");
        let outer = self.scope.clone();
        self.scope.streams.clear();
        let mut parameters = Vec::new();
        for _ in 0..self.random.weighted(&[(1, 0), (5, 1), (4, 2), (1, 4)]) {
            let parameter = self.name("p");
            let width = self.declared(40);
            self.scope.streams.push(Stream { name: parameter.clone(), width: 8 });
            parameters.push(parameter + &width);
        }
        self.scope.is_pure = self.random.percent(50);
        let is_pure = self.scope.is_pure;
        let mut body = String::new();
        for _ in 0..self.random.below(3) {
            body += &self.local();
        }
        let declared = self.declared(40);
        let depth = self.random.from_to(0, 2);
        let result = self.expr(depth);
        self.scope = outer;
        let count = parameters.len();
        let text = format!("fn {name}({}){declared} {{ {body}return {result}; }}\n", parameters.join(", "));
        if self.add(text, &[]) {
            self.scope.functions.push(Function { name, parameters: count, has_past: !is_pure });
        }
    }

    /// A statement of a function's body.
    fn local(&mut self) -> String {
        let name = self.name("v");
        let depth = self.random.from_to(0, 2);
        if !self.scope.is_pure && self.random.percent(30) {
            let text = self.recurrence_of(&name);
            self.scope.streams.push(Stream { name, width: 8 });
            return text.trim_end().to_string() + " ";
        }
        if self.random.percent(30) {
            return self.chain(&name).join(" ").replace('\n', " ");
        }
        let declared = self.declared(50);
        let body = self.expr(depth);
        self.scope.streams.push(Stream { name: name.clone(), width: 8 });
        format!("let {name}{declared} = {body}; ")
    }

    fn repeated(&mut self) {
        let name = self.name("t");
        let before = self.scope.streams.len();
        let texts = self.chain(&name);
        let names: Vec<String> = self.scope.streams.drain(before..).map(|stream| stream.name).collect();
        let [first, rest @ ..] = &texts[..] else { return };
        if self.add(first.clone(), &names[..1]) {
            self.add(rest.concat(), &names[1..]);
        }
    }

    /// A first value and a loop that makes each next one of those before; the streams that are there then.
    fn chain(&mut self, name: &str) -> Vec<String> {
        let turns = self.random.weighted(&[(5, 2), (4, 3), (2, 6), (1, 12)]);
        let depth = self.random.from_to(0, 1);
        let declared = self.declared(70);
        let first = format!("let {name}[0]{declared} = {};\n", self.expr(depth));
        let index = self.name("i");
        let outer = self.scope.clone();
        self.scope.indices.push((index.clone(), turns as u64));
        self.scope.streams.push(Stream { name: format!("{name}[{index}-1]"), width: 8 });
        self.scope.streams.push(Stream { name: format!("{name}[{index} - 1]"), width: 8 });
        let depth = self.random.from_to(1, 2);
        let mut body = String::new();
        if self.random.percent(15) {
            let inner = self.name("j");
            let nested = self.name("u");
            let part = self.expr(1);
            body += &format!("for {inner} in 0..2 {{ let {nested}[{index} * 2 + {inner}] = {part}; }} ");
        }
        if !self.scope.is_pure && self.random.percent(20) {
            let own = format!("{name}r[{index}]");
            body += &(self.recurrence_of(&own).trim_end().to_string() + " ");
            self.scope.streams.push(Stream { name: own, width: 8 });
        }
        body += &format!("let {name}[{index}]{declared} = {}; ", self.expr(depth));
        self.scope = outer;
        let low = self.fixed(1);
        let high = self.fixed(turns as u64);
        for turn in 0..turns {
            self.scope.streams.push(Stream { name: format!("{name}[{turn}]"), width: 8 });
        }
        vec![first, format!("for {index} in {low}..{high} {{ {body}}}\n")]
    }

    fn output(&mut self) {
        let name = self.name("y");
        let declared = self.declared(40);
        let depth = self.random.from_to(0, 3);
        for _ in 0..5 {
            let body = self.expr(depth);
            if self.add(format!("output {name}{declared} = {body};\n"), &[name.clone()]) {
                return;
            }
        }
        let input = self.scope.streams[0].name.clone();
        self.items.push(format!("output {name}_{declared} = {input};\n"));
    }

    fn number(&mut self) -> u64 {
        let shift = self.random.below(64);
        match self.random.weighted(&[(4, 0), (3, 1), (2, 2), (1, 3)]) {
            0 => self.random.below(20) as u64,
            1 => *self.random.pick(&[0, 1, 2, 127, 128, 255, 256, 257, 32767, 65535, 65536]),
            2 => (1u64 << shift).wrapping_sub(self.random.below(2) as u64),
            _ => self.random.next() >> shift,
        }
    }

    /// A constant expression of this value.
    fn fixed(&mut self, value: u64) -> String {
        let part = self.random.below(10) as u64;
        match self.random.weighted(&[(14, 0), (1, 1), (1, 2), (1, 3), (1, 4), (1, 5), (1, 6)]) {
            1 => format!("{value:#x}"),
            2 => format!("00{value}"),
            3 if value >= part => format!("{} + {part}", value - part),
            4 => format!("({value})"),
            5 if value < 1 << 50 => format!("{} / {}", value * (part + 1), part + 1),
            6 if value < 1 << 50 => format!("{} - {part} * 2", value + part * 2),
            _ => value.to_string(),
        }
    }

    /// What stands after `@`, of this number at least.
    fn delay(&mut self, least: usize) -> String {
        let number = self.random.weighted(&[(10, 1), (5, 2), (3, 3), (1, 0), (1, 5), (1, 9)]).max(least) as u64;
        match self.random.below(10) {
            0 => format!("({})", self.fixed(number)),
            1 if !self.scope.indices.is_empty() => self.random.pick(&self.scope.indices).0.clone(),
            _ => number.to_string(),
        }
    }

    fn stream(&mut self) -> Stream {
        if self.scope.streams.is_empty() {
            return Stream { name: "1".to_string(), width: 1 };
        }
        // The newest streams more often, so that programs get deep.
        let count = self.scope.streams.len();
        let place = if self.random.percent(50) {
            self.random.below(count)
        } else {
            count - 1 - self.random.below(count.min(3))
        };
        self.scope.streams[place].clone()
    }

    fn leaf(&mut self) -> String {
        let own = self.scope.own.clone();
        match self.random.weighted(&[(12, 0), (5, 1), (3, 2), (1, 3), (1, 4), (1, 5), (4, 6)]) {
            1 if !self.scope.is_pure || own.is_some() => {
                let stream = self.stream();
                if stream.name.starts_with('1') {
                    return stream.name;
                }
                format!("{}@{}", stream.name, self.delay(0))
            }
            2 => {
                let value = self.number();
                self.fixed(value).replace('/', "+").replace('%', "+")
            }
            3 if !self.scope.consts.is_empty() => self.random.pick(&self.scope.consts).0.clone(),
            4 if !self.scope.tables.is_empty() => {
                let (name, length) = self.random.pick(&self.scope.tables).clone();
                let place = self.random.below(length) as u64;
                match self.scope.indices.last() {
                    Some((index, _)) if place > 0 => format!("{name}[({index} + {place}) % {length}]"),
                    _ => format!("{name}[{}]", self.fixed(place)),
                }
            }
            5 if !self.scope.indices.is_empty() => self.random.pick(&self.scope.indices).0.clone(),
            6 if own.is_some() => format!("{}@{}", own.unwrap_or_default(), self.delay(1)),
            _ => self.stream().name,
        }
    }

    fn expr(&mut self, depth: usize) -> String {
        let forms = [
            (10, Form::Binary),
            (2, Form::Comparison),
            (1, Form::Not),
            (2, Form::Choice),
            (2, Form::Shift),
            (1, Form::ShiftBy),
            (2, Form::Slice),
            (2, Form::Cat),
            (3, Form::Signed),
            (2, Form::Call),
            (2, Form::Leaf),
        ];
        let form = if depth == 0 { Form::Leaf } else { self.random.weighted(&forms) };
        match form {
            Form::Leaf => self.leaf(),
            Form::Binary => self.binary(depth),
            Form::Comparison => self.compared(depth),
            Form::Not => format!("~{}", self.inner(depth)),
            Form::Choice => format!("{} ? {} : {}", self.condition(), self.expr(depth - 1), self.inner(depth)),
            Form::Shift => {
                let by = *self.random.pick(&[0, 1, 3, 7, 8, 9, 16, 17, 31, 64, 127, 128]);
                let direction = *self.random.pick(&["<<", ">>", ">>"]);
                format!("{} {direction} {}", self.inner(depth), self.amount(by))
            }
            Form::ShiftBy => self.shifted(depth),
            Form::Slice => self.sliced(),
            Form::Cat => {
                let count = self.random.weighted(&[(1, 1), (6, 2), (2, 3)]);
                let parts: Vec<String> = (0..count).map(|_| self.expr(depth - 1)).collect();
                format!("cat({})", parts.join(", "))
            }
            Form::Signed => format!("signed({})", self.expr(depth - 1)),
            Form::Call => self.called(depth),
        }
    }

    /// An expression that can stand beside an operator: in parentheses most of the time.
    fn inner(&mut self, depth: usize) -> String {
        let text = self.expr(depth - 1);
        if depth > 1 && self.random.percent(80) {
            format!("({text})")
        } else {
            text
        }
    }

    fn binary(&mut self, depth: usize) -> String {
        let operator = *self.random.pick(&BINARY);
        if operator == "*" {
            // Products are wide and many units: a narrow second factor, most of the time.
            let small = self.random.below(300).to_string();
            let slice = self.sliced();
            let factor = if self.random.percent(50) { small } else { slice };
            return format!("{} * {factor}", self.inner(depth));
        }
        let (left, right) = (self.inner(depth), self.inner(depth));
        format!("{left} {operator} {right}")
    }

    fn compared(&mut self, depth: usize) -> String {
        let operator = *self.random.pick(&COMPARISONS);
        let (left, right) = (self.inner(depth), self.inner(depth));
        format!("{left} {operator} {right}")
    }

    fn condition(&mut self) -> String {
        let bit = self.random.below(3);
        match self.random.below(3) {
            0 => {
                let stream = self.stream();
                let bit = self.random.below(stream.width.min(8) as usize);
                format!("{}{{{bit}..{bit}}}", stream.name)
            }
            1 => format!("({})", self.compared(1)),
            _ => {
                let leaf = self.leaf();
                format!("({leaf} >> {bit} == {bit})")
            }
        }
    }

    fn amount(&mut self, by: u64) -> String {
        match self.random.below(8) {
            0 => format!("({} + {})", by / 2, by - by / 2),
            1 => format!("({by} * 1)"),
            2 if !self.scope.indices.is_empty() => self.random.pick(&self.scope.indices).0.clone(),
            3 if !self.scope.consts.is_empty() => self.random.pick(&self.scope.consts).0.clone(),
            _ => by.to_string(),
        }
    }

    fn shifted(&mut self, depth: usize) -> String {
        let stream = self.stream();
        let bits = self.random.from_to(1, stream.width.min(9) as usize);
        let direction = *self.random.pick(&["<<", ">>"]);
        let amount = if self.random.percent(70) { format!("{}{{{}..0}}", stream.name, bits - 1) } else { stream.name };
        format!("{} {direction} {amount}", self.inner(depth))
    }

    fn sliced(&mut self) -> String {
        let stream = self.stream();
        let low = self.random.below(stream.width as usize);
        let high = match self.random.below(4) {
            0 => low,
            1 => stream.width as usize - 1,
            _ => self.random.from_to(low, stream.width as usize - 1),
        };
        let (high, low) = (self.fixed(high as u64), self.fixed(low as u64));
        format!("{}{{{high}..{low}}}", stream.name)
    }

    fn called(&mut self, depth: usize) -> String {
        let needs_pure = self.scope.is_pure;
        let fit: Vec<Function> =
            self.scope.functions.iter().filter(|function| !(needs_pure && function.has_past)).cloned().collect();
        if fit.is_empty() {
            return self.expr(depth - 1);
        }
        let function = self.random.pick(&fit).clone();
        let arguments: Vec<String> = (0..function.parameters).map(|_| self.expr(depth - 1)).collect();
        format!("{}({})", function.name, arguments.join(", "))
    }
}

/// The text with comments and other blanks.
fn spaced(random: &mut Random, text: &str) -> String {
    let mut spaced = String::new();
    for letter in text.chars() {
        if letter.is_ascii_whitespace() && random.percent(30) {
            spaced += random.pick::<&str>(&["\r\n", "\t", "  ", " // + ( let\n", "\n//\n", "\r"]);
        } else {
            spaced.push(letter);
        }
    }
    spaced
}

/// Outputs that show the streams, with names that no program here has.
fn shown(names: &[String]) -> String {
    names.iter().enumerate().map(|(place, name)| format!("output zz{place} = {name};\n")).collect()
}

/// A program at, below or above a limit.
fn at_a_limit(random: &mut Random) -> String {
    let off = random.from_to(0, 4) as i64 - 2;
    let near = |limit: i64| limit + off;
    let lines = |count: i64, line: &dyn Fn(i64) -> String| (0..count).map(line).collect::<String>();
    match random.below(10) {
        0 => format!("input x:8;\noutput y = {}x{};\n", "(".repeat(near(256) as usize), ")".repeat(near(256) as usize)),
        1 => format!("input x:8;\noutput y = x{};\n", "{7..0}".repeat(near(255) as usize)),
        2 => format!("input x:8;\noutput y = x{};\n", " + x".repeat(random.from_to(3, 258))),
        3 => format!(
            "input x:8;\n{}",
            lines(near(64), &|i| format!("output y{i} = x{};\n", if i % 3 == 0 { " + 1" } else { "" }))
        ),
        4 => format!("{}output y = x0;\n", lines(near(16), &|i| format!("input x{i}:8;\n"))),
        5 => format!("{}output y = x0;\n", lines(near(32), &|i| format!("input x{i}:8;\n"))),
        6 => format!("input x:8;\nfor i in 0..{} {{ }}\noutput y = x;\n", near(65_533)),
        7 => {
            let last = near(31);
            let inner = lines(last, &|i| format!("fn f{}(a) {{ return f{i}(a); }}\n", i + 1));
            format!("input x:8;\nfn f0(a) {{ return ~a; }}\n{inner}output y = f{last}(x);\n")
        }
        8 => format!(
            "input x:8;\nlet t[0] = x;\nfor i in 1..{} {{ let t[i] = ~t[i-1]; }}\noutput y = t[{}];\n",
            near(16_384),
            random.from_to(0, 60)
        ),
        _ => {
            let declared = random.from_to(1, 130);
            format!("input x:{};\nrec s:{declared} = 0 by s@{} + x;\noutput y = s;\n", near(128).min(129), near(256))
        }
    }
}

#[cfg(test)]
mod tests {
    use super::*;

    #[test]
    fn most_programs_are_compiled_and_each_comes_again() {
        let compiled = |case: &u64| {
            let made = program(&mut Random::of_case(9, *case));
            assert_eq!(made.text, program(&mut Random::of_case(9, *case)).text);
            let target = second::Target { fabric: made.fabric, narrowed: false };
            second::compile(made.text.as_bytes(), target).is_ok()
        };
        assert!((0..100).filter(compiled).count() > 75);
    }
}
