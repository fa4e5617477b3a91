//! Tokens: a script's bytes as brackets, symbols and words. Nothing is copied.

use crate::basis::BASIS;
use crate::hash::ShortMap;
use crate::refused::{Refusal, Refused};

pub const TEXT_LIMIT: usize = 65_535;
const NAME_LIMIT: usize = 63;
const SYMBOL_LIMIT: usize = 255;
const BRACKET_LIMIT: usize = 64;

/// The reserved words, in the order of [`RESERVED`].
#[derive(Clone, Copy, Debug, PartialEq, Eq)]
pub enum Reserved {
    Colon,
    Blank,
    Arrow,
    If,
    Val,
    Define,
    Datatype,
    Use,
    Case,
    Begin,
    Let,
    Dup,
    Int,
    Bool,
    Sym,
    Unit,
    True,
    False,
}

use Reserved::*;

const RESERVED: [(&[u8], Reserved); 18] = [
    (b":", Colon),
    (b"_", Blank),
    (b"->", Arrow),
    (b"if", If),
    (b"val", Val),
    (b"define", Define),
    (b"datatype", Datatype),
    (b"use", Use),
    (b"case", Case),
    (b"begin", Begin),
    (b"let", Let),
    (b"dup", Dup),
    (b"int", Int),
    (b"bool", Bool),
    (b"sym", Sym),
    (b"unit", Unit),
    (b"true", True),
    (b"false", False),
];

/// A name's number: names with equal bytes have one number. The names of the basis come first, in their order.
#[derive(Clone, Copy, Debug, PartialEq, Eq)]
pub struct NameId(pub u32);

#[derive(Clone, Copy, Debug, PartialEq, Eq)]
pub enum Kind {
    /// An opening bracket, with the number of the token behind the bracket that closes it.
    Open {
        behind: u32,
    },
    Close,
    /// A symbol, by the place of the first literal with its bytes.
    Symbol(u32),
    Integer(i32),
    Reserved(Reserved),
    Name(NameId),
}

#[derive(Clone, Copy, Debug)]
pub struct Token {
    pub kind: Kind,
    pub place: u32,
}

/// The tokens of a text, their brackets paired.
pub struct Tokens<'t> {
    pub tokens: Vec<Token>,
    /// The spelling of each name, by its number.
    pub names: Vec<&'t [u8]>,
    words: ShortMap<&'t [u8], Kind>,
}

impl Tokens<'_> {
    /// The number of a name, if it stands in the text or in the basis.
    pub fn find(&self, spelling: &[u8]) -> Option<NameId> {
        match self.words.get(spelling) {
            Some(&Kind::Name(name)) => Some(name),
            _ => None,
        }
    }
}

/// The tokens of a text, or the first refusal from the left: 1, 2, 3 or 5.
pub fn tokens(text: &[u8]) -> Result<Tokens<'_>, Refused> {
    if text.len() > TEXT_LIMIT {
        return Refusal::Limit.at(TEXT_LIMIT as u32);
    }
    let mut scan = Scan::new(text);
    while scan.token()? {}
    match scan.open.is_empty() {
        true => Ok(scan.found),
        false => Refusal::Bracket.at(text.len() as u32),
    }
}

struct Scan<'t> {
    text: &'t [u8],
    at: usize,
    found: Tokens<'t>,
    symbols: ShortMap<&'t [u8], u32>,
    /// The numbers of the tokens whose brackets are open.
    open: Vec<usize>,
}

impl<'t> Scan<'t> {
    fn new(text: &'t [u8]) -> Self {
        let mut words = ShortMap::default();
        words.extend(RESERVED.map(|(spelling, word)| (spelling, Kind::Reserved(word))));
        let mut names: Vec<&[u8]> = Vec::with_capacity(256);
        for function in BASIS {
            words.insert(function.name().as_bytes(), Kind::Name(NameId(names.len() as u32)));
            names.push(function.name().as_bytes());
        }
        let found = Tokens { tokens: Vec::with_capacity(text.len() / 3), names, words };
        Scan { text, at: 0, found, symbols: ShortMap::default(), open: Vec::with_capacity(BRACKET_LIMIT) }
    }

    /// Passes a token, a blank or a comment; false at the text's end.
    fn token(&mut self) -> Result<bool, Refused> {
        let Some(&byte) = self.text.get(self.at) else { return Ok(false) };
        match byte {
            b' ' | b'\t' | b'\r' | b'\n' => self.at += 1,
            b';' => {
                let rest = &self.text[self.at..];
                self.at += rest.iter().position(|&b| b == b'\n').map_or(rest.len(), |end| end + 1);
            }
            b'(' | b'[' => self.open()?,
            b')' | b']' => self.close(byte)?,
            b'\'' => self.symbol()?,
            _ => self.word()?,
        }
        Ok(true)
    }

    fn push(&mut self, kind: Kind, behind: usize) {
        self.found.tokens.push(Token { kind, place: self.at as u32 });
        self.at = behind;
    }

    fn open(&mut self) -> Result<(), Refused> {
        if self.open.len() == BRACKET_LIMIT {
            return Refusal::Limit.at(self.at as u32);
        }
        self.open.push(self.found.tokens.len());
        // Where the list ends is filled in when its bracket closes.
        self.push(Kind::Open { behind: 0 }, self.at + 1);
        Ok(())
    }

    fn close(&mut self, byte: u8) -> Result<(), Refused> {
        let Some(opening) = self.open.pop() else { return Refusal::Bracket.at(self.at as u32) };
        let tokens = &mut self.found.tokens;
        let wanted = if self.text[tokens[opening].place as usize] == b'(' { b')' } else { b']' };
        if byte != wanted {
            return Refusal::Bracket.at(self.at as u32);
        }
        tokens[opening].kind = Kind::Open { behind: tokens.len() as u32 + 1 };
        self.push(Kind::Close, self.at + 1);
        Ok(())
    }

    fn symbol(&mut self) -> Result<(), Refused> {
        let first = self.at + 1;
        let mut end = first;
        loop {
            match (self.text.get(end), self.text.get(end + 1)) {
                (Some(b'\''), _) => break,
                (Some(b'\\'), Some(b'\'' | b'\\')) => end += 2,
                (Some(b'\\') | None, _) => return Refusal::Symbol.at(self.at as u32),
                (Some(_), _) => end += 1,
            }
        }
        if end - first > SYMBOL_LIMIT {
            return Refusal::Limit.at(self.at as u32);
        }
        let first_literal = *self.symbols.entry(&self.text[first..end]).or_insert(self.at as u32);
        self.push(Kind::Symbol(first_literal), end + 1);
        Ok(())
    }

    fn word(&mut self) -> Result<(), Refused> {
        let rest = &self.text[self.at..];
        let word = &rest[..rest.iter().position(|&b| ends_word(b)).unwrap_or(rest.len())];
        let kind = match integer(word) {
            Some(Some(value)) => Kind::Integer(value),
            Some(None) => return Refusal::Integer.at(self.at as u32),
            None => self.spelt(word)?,
        };
        self.push(kind, self.at + word.len());
        Ok(())
    }

    /// A reserved word or a name.
    fn spelt(&mut self, word: &'t [u8]) -> Result<Kind, Refused> {
        if let Some(&kind) = self.found.words.get(word) {
            return Ok(kind);
        }
        if word.len() > NAME_LIMIT {
            return Refusal::Limit.at(self.at as u32);
        }
        let kind = Kind::Name(NameId(self.found.names.len() as u32));
        self.found.names.push(word);
        self.found.words.insert(word, kind);
        Ok(kind)
    }
}

fn ends_word(byte: u8) -> bool {
    matches!(byte, b' ' | b'\t' | b'\r' | b'\n' | b'(' | b')' | b'[' | b']' | b';' | b'\'')
}

/// None for a word that is no integer, and no value for one outside 32 bits.
fn integer(word: &[u8]) -> Option<Option<i32>> {
    let (negative, digits) = match word {
        [b'-', digits @ ..] => (true, digits),
        [b'+', digits @ ..] => (false, digits),
        digits => (false, digits),
    };
    if digits.is_empty() || !digits.iter().all(u8::is_ascii_digit) {
        return None;
    }
    let sign = if negative { -1 } else { 1 };
    let mut value: i64 = 0;
    for digit in digits {
        value = value * 10 + sign * i64::from(digit - b'0');
        if i32::try_from(value).is_err() {
            return Some(None);
        }
    }
    Some(Some(value as i32))
}
