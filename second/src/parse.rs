//! From tokens to the tree, by recursive descent with one token of look-ahead. The token at which this stops is the wrong one.

use crate::token::{Name, Token};
use crate::tree::*;
use crate::Refusal;

type Parsed<T> = Result<T, Refusal>;

pub fn program(tokens: &[Token]) -> Parsed<Vec<Item>> {
    let mut parser = Parser { tokens, place: 0 };
    let mut items = Vec::new();
    while let Some(item) = parser.item()? {
        items.push(item);
    }
    parser.expect(Token::End)?;
    Ok(items)
}

struct Parser<'t> {
    tokens: &'t [Token],
    place: usize,
}

/// How tight the operators bind: the choice least, and `~` and slices most.
const LOOSEST: u8 = 1;
const COMPARE: u8 = 4;

enum Operator {
    Binary(BinaryOp),
    Shift(Direction),
}

fn operator(token: Token) -> Option<(u8, Operator)> {
    use Operator::{Binary, Shift};
    Some(match token {
        Token::Or => (LOOSEST, Binary(BinaryOp::Or)),
        Token::Xor => (2, Binary(BinaryOp::Xor)),
        Token::And => (3, Binary(BinaryOp::And)),
        Token::Equal => (COMPARE, Binary(BinaryOp::Equal)),
        Token::NotEqual => (COMPARE, Binary(BinaryOp::NotEqual)),
        Token::Less => (COMPARE, Binary(BinaryOp::Less)),
        Token::LessEqual => (COMPARE, Binary(BinaryOp::LessEqual)),
        Token::Greater => (COMPARE, Binary(BinaryOp::Greater)),
        Token::GreaterEqual => (COMPARE, Binary(BinaryOp::GreaterEqual)),
        Token::ShiftLeft => (5, Shift(Direction::Left)),
        Token::ShiftRight => (5, Shift(Direction::Right)),
        Token::Plus => (6, Binary(BinaryOp::Add)),
        Token::Minus => (6, Binary(BinaryOp::Sub)),
        Token::Star => (7, Binary(BinaryOp::Mul)),
        _ => return None,
    })
}

impl Parser<'_> {
    fn peek(&self) -> Token {
        self.tokens[self.place]
    }

    fn wrong<T>(&self) -> Parsed<T> {
        Err(match self.peek() {
            Token::Deep => Refusal::Limit("nesting", 256),
            _ => Refusal::Syntax(self.place),
        })
    }

    /// Takes the token where it is this one.
    fn takes(&mut self, token: Token) -> bool {
        let is_here = self.peek() == token;
        if is_here {
            self.place += 1;
        }
        is_here
    }

    fn expect(&mut self, token: Token) -> Parsed<()> {
        if self.peek() != token {
            return self.wrong();
        }
        self.place += 1;
        Ok(())
    }

    fn name(&mut self) -> Parsed<Name> {
        let Token::Name(name) = self.peek() else { return self.wrong() };
        self.place += 1;
        Ok(name)
    }

    fn number(&mut self) -> Parsed<u64> {
        let Token::Number(number) = self.peek() else { return self.wrong() };
        self.place += 1;
        Ok(number)
    }

    fn item(&mut self) -> Parsed<Option<Item>> {
        let item = match self.peek() {
            Token::Input => self.input()?,
            Token::Output => self.output()?,
            Token::Const => self.constant()?,
            Token::Fn => Item::Function(self.function()?),
            _ => return Ok(self.statement()?.map(Item::Statement)),
        };
        Ok(Some(item))
    }

    fn input(&mut self) -> Parsed<Item> {
        self.place += 1;
        let name = self.name()?;
        self.expect(Token::Colon)?;
        let width = self.number()?;
        self.expect(Token::Semicolon)?;
        Ok(Item::Input { name, width })
    }

    fn output(&mut self) -> Parsed<Item> {
        self.place += 1;
        let name = self.name()?;
        let width = self.width()?;
        let body = self.assigned()?;
        Ok(Item::Output { name, width, body })
    }

    fn constant(&mut self) -> Parsed<Item> {
        self.place += 1;
        let name = self.name()?;
        self.expect(Token::Assign)?;
        let item = if self.takes(Token::OpenBracket) {
            let mut entries = vec![self.fixed()?];
            while self.takes(Token::Comma) {
                entries.push(self.fixed()?);
            }
            self.expect(Token::CloseBracket)?;
            Item::Table { name, entries }
        } else {
            Item::Const { name, value: self.fixed()? }
        };
        self.expect(Token::Semicolon)?;
        Ok(item)
    }

    fn function(&mut self) -> Parsed<Function> {
        self.place += 1;
        let name = self.name()?;
        self.expect(Token::Open)?;
        let mut parameters = Vec::new();
        if self.peek() != Token::Close {
            parameters.push(self.parameter()?);
            while self.takes(Token::Comma) {
                parameters.push(self.parameter()?);
            }
        }
        self.expect(Token::Close)?;
        let width = self.width()?;
        self.expect(Token::OpenBrace)?;
        let body = self.statements()?;
        self.expect(Token::Return)?;
        let result = self.expr()?;
        self.expect(Token::Semicolon)?;
        self.expect(Token::CloseBrace)?;
        Ok(Function { name, parameters, width, body, result })
    }

    fn parameter(&mut self) -> Parsed<Parameter> {
        Ok(Parameter { name: self.name()?, width: self.width()? })
    }

    fn width(&mut self) -> Parsed<Option<u64>> {
        if self.takes(Token::Colon) {
            Ok(Some(self.number()?))
        } else {
            Ok(None)
        }
    }

    fn assigned(&mut self) -> Parsed<Expr> {
        self.expect(Token::Assign)?;
        let body = self.expr()?;
        self.expect(Token::Semicolon)?;
        Ok(body)
    }

    fn statements(&mut self) -> Parsed<Vec<Statement>> {
        let mut statements = Vec::new();
        while let Some(statement) = self.statement()? {
            statements.push(statement);
        }
        Ok(statements)
    }

    fn statement(&mut self) -> Parsed<Option<Statement>> {
        if self.takes(Token::Let) {
            let target = self.target()?;
            let width = self.width()?;
            let body = self.assigned()?;
            return Ok(Some(Statement::Let { target, width, body }));
        }
        if self.takes(Token::Rec) {
            return self.recurrence().map(Some);
        }
        if self.takes(Token::For) {
            return self.repeated().map(Some);
        }
        Ok(None)
    }

    fn recurrence(&mut self) -> Parsed<Statement> {
        let target = self.target()?;
        let width = self.width()?;
        self.expect(Token::Assign)?;
        let initial = self.fixed()?;
        self.expect(Token::By)?;
        let body = self.expr()?;
        self.expect(Token::Semicolon)?;
        Ok(Statement::Rec { target, width, initial, body })
    }

    fn repeated(&mut self) -> Parsed<Statement> {
        let index = self.name()?;
        self.expect(Token::In)?;
        let low = self.fixed()?;
        self.expect(Token::Dots)?;
        let high = self.fixed()?;
        self.expect(Token::OpenBrace)?;
        let body = self.statements()?;
        self.expect(Token::CloseBrace)?;
        Ok(Statement::For { index, low, high, body })
    }

    fn target(&mut self) -> Parsed<Target> {
        Ok(Target { name: self.name()?, index: self.index()? })
    }

    fn index(&mut self) -> Parsed<Option<Fixed>> {
        if !self.takes(Token::OpenBracket) {
            return Ok(None);
        }
        let index = self.fixed()?;
        self.expect(Token::CloseBracket)?;
        Ok(Some(index))
    }

    fn expr(&mut self) -> Parsed<Expr> {
        let condition = self.binary(LOOSEST)?;
        if !self.takes(Token::Question) {
            return Ok(condition);
        }
        let yes = self.expr()?;
        self.expect(Token::Colon)?;
        let no = self.expr()?;
        Ok(Expr::Choose(Box::new((condition, yes, no))))
    }

    /// An expression of operators that bind at least so tight. Comparisons do not chain.
    fn binary(&mut self, least: u8) -> Parsed<Expr> {
        let mut left = self.prefix()?;
        let mut most = u8::MAX;
        while let Some((level, operator)) = operator(self.peek()).filter(|(level, _)| (least..=most).contains(level)) {
            self.place += 1;
            let pair = Box::new((left, self.binary(level + 1)?));
            left = match operator {
                Operator::Binary(op) => Expr::Binary(op, pair),
                Operator::Shift(direction) => Expr::Shift(direction, pair),
            };
            most = if level == COMPARE { level - 1 } else { level };
        }
        Ok(left)
    }

    fn prefix(&mut self) -> Parsed<Expr> {
        if self.takes(Token::Not) {
            return Ok(Expr::Not(Box::new(self.prefix()?)));
        }
        let mut whole = self.primary()?;
        while self.takes(Token::OpenBrace) {
            let high = self.fixed()?;
            self.expect(Token::Dots)?;
            let low = self.fixed()?;
            self.expect(Token::CloseBrace)?;
            whole = Expr::Slice(Box::new(whole), high, low);
        }
        Ok(whole)
    }

    fn primary(&mut self) -> Parsed<Expr> {
        match self.peek() {
            Token::Number(number) => {
                self.place += 1;
                Ok(Expr::Number(number))
            }
            Token::Open => {
                self.place += 1;
                let inner = self.expr()?;
                self.expect(Token::Close)?;
                Ok(inner)
            }
            Token::Cat => {
                self.place += 1;
                self.expect(Token::Open)?;
                Ok(Expr::Cat(self.parts()?))
            }
            Token::Name(name) => {
                self.place += 1;
                self.named(name)
            }
            _ => self.wrong(),
        }
    }

    fn named(&mut self, name: Name) -> Parsed<Expr> {
        if self.takes(Token::Open) {
            let parts = if self.takes(Token::Close) { Vec::new() } else { self.parts()? };
            return Ok(Expr::Call(name, parts));
        }
        let index = self.index()?;
        let delay = if self.takes(Token::At) { Some(self.fixed_primary()?) } else { None };
        Ok(Expr::Name(Reference { name, index, delay }))
    }

    /// One or more expressions, and the closing parenthesis.
    fn parts(&mut self) -> Parsed<Vec<Expr>> {
        let mut parts = vec![self.expr()?];
        while self.takes(Token::Comma) {
            parts.push(self.expr()?);
        }
        self.expect(Token::Close)?;
        Ok(parts)
    }

    fn fixed(&mut self) -> Parsed<Fixed> {
        let mut left = self.fixed_term()?;
        loop {
            let op = match self.peek() {
                Token::Plus => FixedOp::Add,
                Token::Minus => FixedOp::Sub,
                _ => return Ok(left),
            };
            self.place += 1;
            left = Fixed::Binary(op, Box::new((left, self.fixed_term()?)));
        }
    }

    fn fixed_term(&mut self) -> Parsed<Fixed> {
        let mut left = self.fixed_primary()?;
        loop {
            let op = match self.peek() {
                Token::Star => FixedOp::Mul,
                Token::Slash => FixedOp::Div,
                Token::Percent => FixedOp::Rem,
                _ => return Ok(left),
            };
            self.place += 1;
            left = Fixed::Binary(op, Box::new((left, self.fixed_primary()?)));
        }
    }

    fn fixed_primary(&mut self) -> Parsed<Fixed> {
        match self.peek() {
            Token::Number(number) => {
                self.place += 1;
                Ok(Fixed::Number(number))
            }
            Token::Open => {
                self.place += 1;
                let inner = self.fixed()?;
                self.expect(Token::Close)?;
                Ok(inner)
            }
            Token::Name(name) => {
                self.place += 1;
                Ok(Fixed::Name(name, self.index()?.map(Box::new)))
            }
            _ => self.wrong(),
        }
    }
}
