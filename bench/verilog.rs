//! Tokens and trees of gate-level Verilog, for the plain program on whole designs.

use std::collections::HashMap;
use std::convert::TryFrom;

#[derive(Clone, Copy, PartialEq, Eq, Hash)]
pub enum Word {
    Module,
    EndModule,
    Input,
    Output,
    Wire,
    Supply0,
    Supply1,
    Assign,
    Gate(Op),
}

#[derive(Clone, Copy, PartialEq, Eq, Hash)]
pub enum Op {
    And,
    Nand,
    Or,
    Nor,
    Xor,
    Xnor,
    Buf,
    Not,
    Table(u64),
}

const WORDS: [(&str, Word); 16] = [
    ("module", Word::Module),
    ("endmodule", Word::EndModule),
    ("input", Word::Input),
    ("output", Word::Output),
    ("wire", Word::Wire),
    ("supply0", Word::Supply0),
    ("supply1", Word::Supply1),
    ("assign", Word::Assign),
    ("and", Word::Gate(Op::And)),
    ("nand", Word::Gate(Op::Nand)),
    ("or", Word::Gate(Op::Or)),
    ("nor", Word::Gate(Op::Nor)),
    ("xor", Word::Gate(Op::Xor)),
    ("xnor", Word::Gate(Op::Xnor)),
    ("buf", Word::Gate(Op::Buf)),
    ("not", Word::Gate(Op::Not)),
];

#[derive(Clone, Copy, PartialEq)]
enum Kind {
    Name,
    Keyword(Word),
    Number(u32),
    /// The place of its size and value in a list of its own.
    Constant(u32),
    Mark(u8),
}

#[derive(Clone, Copy)]
struct Token {
    kind: Kind,
    start: u32,
    end: u32,
}

/// A text with its tokens.
pub struct Tokens<'t> {
    text: &'t [u8],
    tokens: Vec<Token>,
    constants: Vec<(u32, u128)>,
}

impl<'t> Tokens<'t> {
    pub fn bytes(&self, token: u32) -> &'t [u8] {
        let token = self.tokens[token as usize];
        &self.text[token.start as usize..token.end as usize]
    }

    /// The size and the value of a constant.
    pub fn constant(&self, token: u32) -> (u32, u128) {
        match self.tokens[token as usize].kind {
            Kind::Constant(place) => self.constants[place as usize],
            _ => (0, 0),
        }
    }
}

fn end_where(text: &[u8], at: usize, ends: impl Fn(u8) -> bool) -> usize {
    text[at..].iter().position(|b| ends(*b)).map_or(text.len(), |k| at + k)
}

/// The place after an attribute, whose strings may hold its end.
fn attribute_end(text: &[u8], mut at: usize) -> Option<usize> {
    let mut within = false;
    loop {
        match (text.get(at)?, within) {
            (b'"', _) => within = !within,
            (b'\\', true) => at += 1,
            (b'*', false) if text.get(at + 1) == Some(&b')') => return Some(at + 2),
            _ => {}
        }
        at += 1;
    }
}

/// The place after a directive, whose name begins at a place.
fn directive_end(text: &[u8], at: usize) -> Option<usize> {
    let ends = |b: u8| !b.is_ascii_alphanumeric() && b != b'_';
    let end = end_where(text, at, ends);
    match &text[at..end] {
        b"timescale" => Some(end_where(text, end, |b| b == b'\n')),
        b"default_nettype" => Some(end_where(text, skip(text, end)?, ends)),
        _ => Some(end),
    }
}

/// The place after white space, comments, attributes and directives.
fn skip(text: &[u8], mut at: usize) -> Option<usize> {
    loop {
        at = match (text.get(at), text.get(at + 1)) {
            (Some(b' ' | b'\t' | b'\n' | b'\r' | 12), _) => at + 1,
            (Some(b'/'), Some(b'/')) => end_where(text, at, |b| b == b'\n'),
            (Some(b'/'), Some(b'*')) => text[at + 2..].windows(2).position(|w| w == b"*/").map(|k| at + k + 4)?,
            (Some(b'('), Some(b'*')) => attribute_end(text, at + 2)?,
            (Some(b'`'), _) => directive_end(text, at + 1)?,
            _ => return Some(at),
        };
    }
}

fn decimal(text: &[u8], at: usize) -> Option<(u32, usize)> {
    let end = end_where(text, at, |b| !b.is_ascii_digit() && b != b'_');
    let mut value = 0u64;
    for digit in text[at..end].iter().filter(|b| **b != b'_') {
        value = value.checked_mul(10)?.checked_add(u64::from(digit - b'0'))?;
    }
    Some((u32::try_from(value).ok()?, end))
}

fn after_blank(text: &[u8], at: usize) -> usize {
    end_where(text, at, |b| !matches!(b, b' ' | b'\t' | b'\n' | b'\r' | 12))
}

/// The value and the end of a constant of this size, whose quote stands at a place.
fn based(text: &[u8], at: usize, size: u32) -> Option<(u128, usize)> {
    let base = match text.get(at + 1)?.to_ascii_lowercase() {
        b'b' => 2,
        b'o' => 8,
        b'd' => 10,
        b'h' => 16,
        _ => return None,
    };
    let start = after_blank(text, at + 2);
    let end = end_where(text, start, |b| b != b'_' && !char::from(b).is_digit(base));
    let mut value = 0u128;
    for digit in text[start..end].iter().filter(|b| **b != b'_') {
        value = value.checked_mul(u128::from(base))?.checked_add(u128::from(char::from(*digit).to_digit(base)?))?;
    }
    let kept = if size == 128 { value } else { value & ((1 << size) - 1) };
    Some((kept, end))
}

pub fn tokens(text: &[u8]) -> Option<Tokens<'_>> {
    let words: HashMap<&[u8], Word> = WORDS.iter().map(|(text, word)| (text.as_bytes(), *word)).collect();
    let (mut tokens, mut constants) = (Vec::new(), Vec::new());
    let mut at = 0;
    loop {
        at = skip(text, at)?;
        let Some(&byte) = text.get(at) else {
            return Some(Tokens { text, tokens, constants });
        };
        let mut start = at;
        let (kind, end) = if byte.is_ascii_alphabetic() || byte == b'_' {
            let end = end_where(text, at, |b| !b.is_ascii_alphanumeric() && b != b'_' && b != b'$');
            (words.get(&text[at..end]).map_or(Kind::Name, |word| Kind::Keyword(*word)), end)
        } else if byte == b'\\' {
            start = at + 1;
            (Kind::Name, end_where(text, start, |b| !(33..=126).contains(&b)))
        } else if byte.is_ascii_digit() {
            let (value, end) = decimal(text, at)?;
            let quote = after_blank(text, end);
            if text.get(quote) == Some(&b'\'') {
                let (constant, end) = based(text, quote, value)?;
                constants.push((value, constant));
                (Kind::Constant(constants.len() as u32 - 1), end)
            } else {
                (Kind::Number(value), end)
            }
        } else if b"()[]{},;:=.".contains(&byte) {
            (Kind::Mark(byte), at + 1)
        } else {
            return None;
        };
        tokens.push(Token { kind, start: start as u32, end: end as u32 });
        at = end;
    }
}

pub type Range = Option<(u32, u32)>;

pub enum Expr {
    Whole(u32),
    Bit(u32, u32),
    Part(u32, u32, u32),
    Constant(u32),
    Join(Vec<Expr>),
    Repeat(u32, Vec<Expr>),
}

pub enum Links {
    Empty,
    Ordered(Vec<Option<Expr>>),
    Named(Vec<(u32, Option<Expr>)>),
}

pub struct Inst {
    pub name: u32,
    pub links: Links,
}

pub struct Prim {
    pub name: Option<u32>,
    pub terminals: Vec<Expr>,
}

pub enum Item {
    Ports(bool, Range, Vec<u32>),
    Nets(Range, Vec<(u32, Option<Expr>)>),
    Supply(bool, Range, Vec<u32>),
    Assign(Vec<(Expr, Expr)>),
    Gates(Op, Vec<Prim>),
    Instances(u32, Vec<Inst>),
}

pub struct Module {
    pub name: u32,
    /// The names of a header, with direction and range where it has them.
    pub ports: Vec<(u32, Option<(bool, Range)>)>,
    pub items: Vec<Item>,
}

struct Cursor<'a, 't> {
    tokens: &'a Tokens<'t>,
    at: usize,
}

impl Cursor<'_, '_> {
    fn peek(&self) -> Option<Kind> {
        self.tokens.tokens.get(self.at).map(|token| token.kind)
    }

    fn take(&mut self, kind: Kind) -> Option<()> {
        (self.peek()? == kind).then(|| self.at += 1)
    }

    fn mark(&mut self, byte: u8) -> Option<()> {
        self.take(Kind::Mark(byte))
    }

    fn name(&mut self) -> Option<u32> {
        self.take(Kind::Name)?;
        Some(self.at as u32 - 1)
    }

    fn number(&mut self) -> Option<u32> {
        let Kind::Number(value) = self.peek()? else {
            return None;
        };
        self.at += 1;
        Some(value)
    }

    /// Things parted by commas, up to a mark.
    fn list<T>(&mut self, end: u8, mut one: impl FnMut(&mut Self) -> Option<T>) -> Option<Vec<T>> {
        let mut list = vec![one(self)?];
        while self.mark(b',').is_some() {
            list.push(one(self)?);
        }
        self.mark(end)?;
        Some(list)
    }

    fn range(&mut self) -> Option<Range> {
        if self.mark(b'[').is_none() {
            return Some(None);
        }
        let left = self.number()?;
        self.mark(b':')?;
        let right = self.number()?;
        self.mark(b']')?;
        Some(Some((left, right)))
    }

    fn expr(&mut self) -> Option<Expr> {
        if let Some(name) = self.name() {
            if self.mark(b'[').is_none() {
                return Some(Expr::Whole(name));
            }
            let left = self.number()?;
            if self.mark(b']').is_some() {
                return Some(Expr::Bit(name, left));
            }
            self.mark(b':')?;
            let right = self.number()?;
            self.mark(b']')?;
            return Some(Expr::Part(name, left, right));
        }
        if let Kind::Constant(_) = self.peek()? {
            self.at += 1;
            return Some(Expr::Constant(self.at as u32 - 1));
        }
        self.mark(b'{')?;
        if let Some(times) = self.number() {
            self.mark(b'{')?;
            let parts = self.list(b'}', Self::expr)?;
            self.mark(b'}')?;
            return Some(Expr::Repeat(times, parts));
        }
        Some(Expr::Join(self.list(b'}', Self::expr)?))
    }

    fn place(&mut self) -> Option<Option<Expr>> {
        match self.peek()? {
            Kind::Mark(b',' | b')') => Some(None),
            _ => Some(Some(self.expr()?)),
        }
    }

    fn inst(&mut self) -> Option<Inst> {
        let name = self.name()?;
        self.mark(b'(')?;
        let links = match self.peek()? {
            Kind::Mark(b')') => {
                self.at += 1;
                Links::Empty
            }
            Kind::Mark(b'.') => Links::Named(self.list(b')', |cursor| {
                cursor.mark(b'.')?;
                let port = cursor.name()?;
                cursor.mark(b'(')?;
                let place = cursor.place()?;
                cursor.mark(b')')?;
                Some((port, place))
            })?),
            _ => Links::Ordered(self.list(b')', Self::place)?),
        };
        Some(Inst { name, links })
    }

    fn prim(&mut self) -> Option<Prim> {
        let name = self.name();
        self.mark(b'(')?;
        Some(Prim { name, terminals: self.list(b')', Self::expr)? })
    }

    fn item(&mut self) -> Option<Option<Item>> {
        if let Some(name) = self.name() {
            return Some(Some(Item::Instances(name, self.list(b';', Self::inst)?)));
        }
        let Kind::Keyword(word) = self.peek()? else {
            return None;
        };
        self.at += 1;
        let item = match word {
            Word::EndModule => return Some(None),
            Word::Input | Word::Output => {
                let _ = self.take(Kind::Keyword(Word::Wire));
                Item::Ports(word == Word::Input, self.range()?, self.list(b';', Self::name)?)
            }
            Word::Wire => Item::Nets(self.range()?, self.list(b';', |cursor| {
                let name = cursor.name()?;
                let value = if cursor.mark(b'=').is_some() { Some(cursor.expr()?) } else { None };
                Some((name, value))
            })?),
            Word::Supply0 | Word::Supply1 => Item::Supply(word == Word::Supply1, self.range()?, self.list(b';', Self::name)?),
            Word::Assign => Item::Assign(self.list(b';', |cursor| {
                let left = cursor.expr()?;
                cursor.mark(b'=')?;
                Some((left, cursor.expr()?))
            })?),
            Word::Gate(op) => Item::Gates(op, self.list(b';', Self::prim)?),
            Word::Module => return None,
        };
        Some(Some(item))
    }

    fn port(&mut self, given: &mut Option<(bool, Range)>) -> Option<(u32, Option<(bool, Range)>)> {
        if let Some(Kind::Keyword(word @ (Word::Input | Word::Output))) = self.peek() {
            self.at += 1;
            let _ = self.take(Kind::Keyword(Word::Wire));
            *given = Some((word == Word::Input, self.range()?));
        }
        Some((self.name()?, *given))
    }

    fn module(&mut self) -> Option<Module> {
        self.take(Kind::Keyword(Word::Module))?;
        let name = self.name()?;
        let mut ports = Vec::new();
        if self.mark(b'(').is_some() && self.mark(b')').is_none() {
            let mut given = None;
            ports = self.list(b')', |cursor| cursor.port(&mut given))?;
        }
        self.mark(b';')?;
        let mut items = Vec::new();
        while let Some(item) = self.item()? {
            items.push(item);
        }
        Some(Module { name, ports, items })
    }
}

pub fn parse(tokens: &Tokens) -> Option<Vec<Module>> {
    let mut cursor = Cursor { tokens, at: 0 };
    let mut modules = Vec::new();
    while cursor.peek().is_some() {
        modules.push(cursor.module()?);
    }
    Some(modules)
}
