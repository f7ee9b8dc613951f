//! From bytes to tokens. A list of tokens ends with `End`, with `Bad` where no token begins, or with `Deep` where the text is
//! nested too deep; the last two are wrong wherever they stand.

use std::collections::HashMap;

/// The number of a name, in the order in which names first stand in the text.
pub type Name = u32;

/// The name `signed`, which is there before any text.
pub const SIGNED: Name = 0;

const NESTING: usize = 256;

#[derive(Clone, Copy, PartialEq, Eq, Debug)]
pub enum Token {
    Name(Name),
    Number(u64),
    Input,
    Output,
    Const,
    Fn,
    Return,
    Let,
    Rec,
    By,
    For,
    In,
    Cat,
    Colon,
    Semicolon,
    Assign,
    Open,
    Close,
    OpenBracket,
    CloseBracket,
    OpenBrace,
    CloseBrace,
    Comma,
    Dots,
    At,
    Question,
    Plus,
    Minus,
    Star,
    Slash,
    Percent,
    And,
    Or,
    Xor,
    Not,
    ShiftLeft,
    ShiftRight,
    Equal,
    NotEqual,
    Less,
    LessEqual,
    Greater,
    GreaterEqual,
    Bad,
    Deep,
    End,
}

pub fn read(text: &[u8]) -> Vec<Token> {
    let mut reader = Reader { text, place: 0, names: HashMap::from([(&b"signed"[..], SIGNED)]) };
    let mut load = Load { now: 0, outer: Vec::new() };
    let mut tokens = Vec::with_capacity(text.len() / 3 + 1);
    loop {
        let token = reader.next();
        load.pass(token);
        tokens.push(if load.now > NESTING { Token::Deep } else { token });
        if matches!(tokens.last(), Some(Token::Bad | Token::Deep | Token::End)) {
            return tokens;
        }
    }
}

struct Reader<'t> {
    text: &'t [u8],
    place: usize,
    names: HashMap<&'t [u8], Name>,
}

impl<'t> Reader<'t> {
    fn peek(&self) -> u8 {
        self.text.get(self.place).copied().unwrap_or(0)
    }

    /// The bytes from here on that the test takes.
    fn take_while(&mut self, test: impl Fn(u8) -> bool) -> &'t [u8] {
        let rest = &self.text[self.place..];
        let length = rest.iter().position(|&byte| !test(byte)).unwrap_or(rest.len());
        self.place += length;
        &rest[..length]
    }

    fn skip_blanks(&mut self) {
        loop {
            self.take_while(|byte| matches!(byte, b' ' | b'\t' | b'\r' | b'\n'));
            if !self.text[self.place..].starts_with(b"//") {
                return;
            }
            self.take_while(|byte| byte != b'\n');
        }
    }

    fn next(&mut self) -> Token {
        self.skip_blanks();
        match self.text.get(self.place) {
            None => Token::End,
            Some(byte) if is_letter(*byte) => self.word(),
            Some(byte) if byte.is_ascii_digit() => self.number(),
            Some(_) => self.symbol(),
        }
    }

    fn word(&mut self) -> Token {
        let word = self.take_while(|byte| is_letter(byte) || byte.is_ascii_digit());
        match word {
            b"input" => Token::Input,
            b"output" => Token::Output,
            b"const" => Token::Const,
            b"fn" => Token::Fn,
            b"return" => Token::Return,
            b"let" => Token::Let,
            b"rec" => Token::Rec,
            b"by" => Token::By,
            b"for" => Token::For,
            b"in" => Token::In,
            b"cat" => Token::Cat,
            _ => {
                let fresh = self.names.len() as Name;
                Token::Name(*self.names.entry(word).or_insert(fresh))
            }
        }
    }

    fn number(&mut self) -> Token {
        let is_hex = self.text[self.place..].starts_with(b"0x");
        self.place += if is_hex { 2 } else { 0 };
        let digits = match is_hex {
            true => self.take_while(|byte| byte.is_ascii_hexdigit()),
            false => self.take_while(|byte| byte.is_ascii_digit()),
        };
        if digits.is_empty() || is_letter(self.peek()) {
            return Token::Bad;
        }
        let base = if is_hex { 16 } else { 10 };
        let value = digits.iter().try_fold(0u64, |value, &byte| {
            let digit = (byte as char).to_digit(base)?;
            value.checked_mul(base.into())?.checked_add(digit.into())
        });
        value.map_or(Token::Bad, Token::Number)
    }

    fn symbol(&mut self) -> Token {
        let rest = &self.text[self.place..];
        let (token, length) = match (rest[0], rest.get(1)) {
            (b'.', Some(b'.')) => (Token::Dots, 2),
            (b'=', Some(b'=')) => (Token::Equal, 2),
            (b'!', Some(b'=')) => (Token::NotEqual, 2),
            (b'<', Some(b'<')) => (Token::ShiftLeft, 2),
            (b'<', Some(b'=')) => (Token::LessEqual, 2),
            (b'>', Some(b'>')) => (Token::ShiftRight, 2),
            (b'>', Some(b'=')) => (Token::GreaterEqual, 2),
            (b'=', _) => (Token::Assign, 1),
            (b'<', _) => (Token::Less, 1),
            (b'>', _) => (Token::Greater, 1),
            (b':', _) => (Token::Colon, 1),
            (b';', _) => (Token::Semicolon, 1),
            (b'(', _) => (Token::Open, 1),
            (b')', _) => (Token::Close, 1),
            (b'[', _) => (Token::OpenBracket, 1),
            (b']', _) => (Token::CloseBracket, 1),
            (b'{', _) => (Token::OpenBrace, 1),
            (b'}', _) => (Token::CloseBrace, 1),
            (b',', _) => (Token::Comma, 1),
            (b'@', _) => (Token::At, 1),
            (b'?', _) => (Token::Question, 1),
            (b'+', _) => (Token::Plus, 1),
            (b'-', _) => (Token::Minus, 1),
            (b'*', _) => (Token::Star, 1),
            (b'/', _) => (Token::Slash, 1),
            (b'%', _) => (Token::Percent, 1),
            (b'&', _) => (Token::And, 1),
            (b'|', _) => (Token::Or, 1),
            (b'^', _) => (Token::Xor, 1),
            (b'~', _) => (Token::Not, 1),
            _ => (Token::Bad, 1),
        };
        self.place += length;
        token
    }
}

fn is_letter(byte: u8) -> bool {
    byte.is_ascii_alphabetic() || byte == b'_'
}

/// How deep the text is nested at a token, and at the brackets that are open there.
struct Load {
    now: usize,
    outer: Vec<usize>,
}

impl Load {
    fn pass(&mut self, token: Token) {
        use Token::*;
        match token {
            Open | OpenBracket | OpenBrace => {
                self.outer.push(self.now);
                self.now += 1;
            }
            Close | CloseBracket => self.now = self.outer.pop().unwrap_or(self.now),
            CloseBrace => self.now = self.outer.pop().map_or(self.now, |top| top + 1),
            Comma | Semicolon | Input | Output | Const | Fn | Return | Let | Rec | For => {
                self.now = self.outer.last().map_or(0, |top| top + 1);
            }
            Colon | At | Question | Plus | Minus | Star | Slash | Percent | And | Or | Xor | Not | ShiftLeft
            | ShiftRight | Equal | NotEqual | Less | LessEqual | Greater | GreaterEqual => self.now += 1,
            Name(_) | Number(_) | By | In | Cat | Assign | Dots | Bad | Deep | End => {}
        }
    }
}
