//! Forms: a script's tokens as definitions and a list of nodes.
//!
//! Forms are judged from the left, each by its head and its number of parts before anything in it. The first refusal is
//! the answer, so it is the one with the least place; at one place 4 comes before 5, and 5 before 21.

use crate::NODES;
use crate::refused::{Refusal, Refused};
use crate::text::{Kind, NameId, Reserved, Token, Tokens, tokens};
use std::ops::Range;

const TYPE_LIMIT: usize = 512;
const FUNCTION_LIMIT: usize = 256;
const DATATYPE_LIMIT: usize = 64;
const CONSTRUCTOR_LIMIT: usize = 256;
/// The most parameters or fields.
pub const PARAMETER_LIMIT: usize = 6;

/// A name where it stands.
#[derive(Clone, Copy, Debug)]
pub struct Word {
    pub name: NameId,
    pub place: u32,
}

/// A name or `_` in a pattern.
#[derive(Clone, Copy, Debug)]
pub enum Part {
    Named(Word),
    Blank,
}

#[derive(Debug)]
pub enum TypeForm {
    Int,
    Bool,
    Sym,
    Unit,
    Datatype(Word),
    Function(Vec<TypeForm>, Box<TypeForm>),
}

#[derive(Clone, Copy, Debug)]
pub enum Literal {
    Int(i32),
    /// By the place of the first literal with these bytes.
    Sym(u32),
    False,
    True,
    Unit,
}

/// One node: an expression, a binding or a branch. Its parts follow it in the list of nodes.
#[derive(Clone, Copy, Debug)]
pub enum Form {
    Literal(Literal),
    Name(NameId),
    If,
    Begin {
        parts: u32,
    },
    Let {
        bindings: u32,
    },
    Case {
        branches: u32,
    },
    Dup(Word),
    Apply {
        arguments: u32,
    },
    Binding(Word),
    /// A branch with a constructor's pattern, whose parts lie in [`Script::parts`].
    Branch {
        pattern: u32,
        head: Word,
        first: u32,
        count: u32,
    },
    /// A branch with a bare `_`.
    Otherwise,
}

#[derive(Clone, Copy, Debug)]
pub struct Node {
    pub form: Form,
    pub place: u32,
}

#[derive(Debug)]
pub struct Constructor {
    pub word: Word,
    pub fields: Vec<TypeForm>,
}

#[derive(Debug)]
pub enum Definition {
    Datatype { word: Word, constructors: Vec<Constructor> },
    Annotation { word: Word, form: TypeForm },
    Define { place: u32, word: Word, parameters: Vec<Word>, body: usize },
    Val { word: Word, body: usize },
}

pub struct Script<'t> {
    pub text: &'t [u8],
    pub tokens: Tokens<'t>,
    pub definitions: Vec<Definition>,
    pub nodes: Vec<Node>,
    pub parts: Vec<Part>,
}

impl Script<'_> {
    pub fn pattern(&self, first: u32, count: u32) -> &[Part] {
        &self.parts[first as usize..][..count as usize]
    }
}

/// Reads a text, with a node list of so many entries: the script, or 1, 2, 3, 4, 5 or 21.
pub fn read(text: &[u8], nodes: usize) -> Result<Script<'_>, Refused> {
    let tokens = tokens(text)?;
    let mut reader = Reader {
        tokens: &tokens.tokens,
        at: 0,
        lent: nodes,
        types: 0,
        functions: 0,
        datatypes: 0,
        constructors: 0,
        definitions: Vec::new(),
        nodes: Vec::with_capacity(nodes.min(NODES)),
        parts: Vec::new(),
    };
    while reader.at < reader.tokens.len() {
        reader.definition()?;
    }
    let Reader { definitions, nodes, parts, .. } = reader;
    Ok(Script { text, tokens, definitions, nodes, parts })
}

struct Reader<'a> {
    tokens: &'a [Token],
    at: usize,
    /// How many entries the node list has.
    lent: usize,
    types: usize,
    functions: usize,
    datatypes: usize,
    constructors: usize,
    definitions: Vec<Definition>,
    nodes: Vec<Node>,
    parts: Vec<Part>,
}

impl Reader<'_> {
    fn here(&self) -> Token {
        self.tokens[self.at]
    }

    fn wrong<T>(&self) -> Result<T, Refused> {
        Refusal::Form.at(self.here().place)
    }

    /// The number of parts of the list that begins here.
    fn count(&self) -> Option<usize> {
        let Kind::Open { .. } = self.here().kind else { return None };
        let mut at = self.at + 1;
        let mut count = 0;
        loop {
            match self.tokens[at].kind {
                Kind::Close => return Some(count),
                Kind::Open { behind } => at = behind as usize,
                _ => at += 1,
            }
            count += 1;
        }
    }

    /// The reserved word that heads the list that begins here.
    fn head(&self) -> Option<Reserved> {
        match self.tokens[self.at + 1].kind {
            Kind::Reserved(word) => Some(word),
            _ => None,
        }
    }

    /// Passes the bracket of a list that may have any number of parts, and answers that number.
    fn list(&mut self) -> Result<usize, Refused> {
        match self.count() {
            Some(count) => {
                self.at += 1;
                Ok(count)
            }
            None => self.wrong(),
        }
    }

    /// Passes the bracket of a list of two parts.
    fn pair(&mut self) -> Result<(), Refused> {
        match self.count() {
            Some(2) => {
                self.at += 1;
                Ok(())
            }
            _ => self.wrong(),
        }
    }

    /// Passes a closing bracket, which the number of parts says to stand here.
    fn close(&mut self) {
        self.at += 1;
    }

    fn word(&mut self) -> Result<Word, Refused> {
        let Token { kind: Kind::Name(name), place } = self.here() else { return self.wrong() };
        self.at += 1;
        Ok(Word { name, place })
    }

    fn definition(&mut self) -> Result<(), Refused> {
        let place = self.here().place;
        let Some(count) = self.count() else { return self.wrong() };
        match (self.head(), count) {
            (Some(Reserved::Datatype), 3) => self.datatype(place),
            (Some(Reserved::Colon), 3) => self.annotation(),
            (Some(Reserved::Define), 4) => self.define(place),
            (Some(Reserved::Val), 3) => self.val(place),
            _ => self.wrong(),
        }
    }

    fn datatype(&mut self, place: u32) -> Result<(), Refused> {
        claim(&mut self.datatypes, DATATYPE_LIMIT, place)?;
        self.at += 2;
        let word = self.word()?;
        let mut constructors = Vec::new();
        for _ in 0..self.list()? {
            constructors.push(self.constructor()?);
        }
        self.close();
        self.close();
        self.definitions.push(Definition::Datatype { word, constructors });
        Ok(())
    }

    fn constructor(&mut self) -> Result<Constructor, Refused> {
        let place = self.here().place;
        self.pair()?;
        claim(&mut self.constructors, CONSTRUCTOR_LIMIT, place)?;
        let word = self.word()?;
        let fields = self.type_list()?;
        self.close();
        Ok(Constructor { word, fields })
    }

    fn annotation(&mut self) -> Result<(), Refused> {
        self.at += 2;
        let word = self.word()?;
        let form = self.type_form(0)?;
        self.close();
        self.definitions.push(Definition::Annotation { word, form });
        Ok(())
    }

    fn define(&mut self, place: u32) -> Result<(), Refused> {
        claim(&mut self.functions, FUNCTION_LIMIT, place)?;
        self.at += 2;
        let word = self.word()?;
        let mut parameters = Vec::new();
        for _ in 0..self.list()? {
            let parameter = self.word()?;
            if parameters.len() == PARAMETER_LIMIT {
                return Refusal::Limit.at(parameter.place);
            }
            parameters.push(parameter);
        }
        self.close();
        let body = self.nodes.len();
        self.expression()?;
        self.close();
        self.definitions.push(Definition::Define { place, word, parameters, body });
        Ok(())
    }

    fn val(&mut self, place: u32) -> Result<(), Refused> {
        claim(&mut self.functions, FUNCTION_LIMIT, place)?;
        self.at += 2;
        let word = self.word()?;
        let body = self.nodes.len();
        self.expression()?;
        self.close();
        self.definitions.push(Definition::Val { word, body });
        Ok(())
    }

    /// A list of parameter types or field types.
    fn type_list(&mut self) -> Result<Vec<TypeForm>, Refused> {
        let count = self.list()?;
        let forms = (0..count).map(|index| self.type_form(index)).collect::<Result<_, _>>()?;
        self.close();
        Ok(forms)
    }

    /// A type, the one of this number in its list. It is judged by its head and its number of parts before it is counted.
    fn type_form(&mut self, index: usize) -> Result<TypeForm, Refused> {
        let Token { kind, place } = self.here();
        let atom = match kind {
            Kind::Reserved(Reserved::Int) => Some(TypeForm::Int),
            Kind::Reserved(Reserved::Bool) => Some(TypeForm::Bool),
            Kind::Reserved(Reserved::Sym) => Some(TypeForm::Sym),
            Kind::Reserved(Reserved::Unit) => Some(TypeForm::Unit),
            Kind::Name(name) => Some(TypeForm::Datatype(Word { name, place })),
            Kind::Open { .. } if self.head() == Some(Reserved::Arrow) && self.count() == Some(3) => None,
            _ => return self.wrong(),
        };
        if index == PARAMETER_LIMIT {
            return Refusal::Limit.at(place);
        }
        claim(&mut self.types, TYPE_LIMIT, place)?;
        if let Some(form) = atom {
            self.at += 1;
            return Ok(form);
        }
        self.at += 2;
        let parameters = self.type_list()?;
        let result = self.type_form(0)?;
        self.close();
        Ok(TypeForm::Function(parameters, Box::new(result)))
    }

    /// Room for one more node.
    fn room(&self, place: u32) -> Result<(), Refused> {
        match self.nodes.len() < self.lent.min(NODES) {
            true => Ok(()),
            false if self.lent < NODES => Refusal::NodeList.at(place),
            false => Refusal::Limit.at(place),
        }
    }

    fn node(&mut self, form: Form, place: u32) -> Result<(), Refused> {
        self.room(place)?;
        self.nodes.push(Node { form, place });
        Ok(())
    }

    fn expression(&mut self) -> Result<(), Refused> {
        let Token { kind, place } = self.here();
        let atom = match kind {
            Kind::Open { .. } => return self.compound(place),
            Kind::Integer(value) => Form::Literal(Literal::Int(value)),
            Kind::Symbol(first) => Form::Literal(Literal::Sym(first)),
            Kind::Reserved(Reserved::True) => Form::Literal(Literal::True),
            Kind::Reserved(Reserved::False) => Form::Literal(Literal::False),
            Kind::Reserved(Reserved::Unit) => Form::Literal(Literal::Unit),
            Kind::Name(name) => Form::Name(name),
            _ => return self.wrong(),
        };
        self.node(atom, place)?;
        self.at += 1;
        Ok(())
    }

    fn expressions(&mut self, range: Range<usize>) -> Result<(), Refused> {
        for _ in range {
            self.expression()?;
        }
        Ok(())
    }

    /// An expression in brackets.
    fn compound(&mut self, place: u32) -> Result<(), Refused> {
        let Some(count) = self.count() else { return self.wrong() };
        match (self.head(), count) {
            (None | Some(Reserved::True | Reserved::False | Reserved::Unit), 1..) => {
                self.node(Form::Apply { arguments: count as u32 - 1 }, place)?;
                self.at += 1;
                self.expressions(0..count)?;
            }
            (Some(Reserved::If), 4) => {
                self.node(Form::If, place)?;
                self.at += 2;
                self.expressions(1..count)?;
            }
            (Some(Reserved::Begin), 2..) => {
                self.node(Form::Begin { parts: count as u32 - 1 }, place)?;
                self.at += 2;
                self.expressions(1..count)?;
            }
            (Some(Reserved::Let), 3) => self.let_form(place)?,
            (Some(Reserved::Case), 3..) => {
                self.node(Form::Case { branches: count as u32 - 2 }, place)?;
                self.at += 2;
                self.expression()?;
                for _ in 2..count {
                    self.branch()?;
                }
            }
            (Some(Reserved::Dup), 2) => {
                // The node is counted before its name is judged.
                self.room(place)?;
                self.at += 2;
                let form = Form::Dup(self.word()?);
                self.nodes.push(Node { form, place });
            }
            _ => return self.wrong(),
        }
        self.close();
        Ok(())
    }

    fn let_form(&mut self, place: u32) -> Result<(), Refused> {
        self.room(place)?;
        self.at += 2;
        let bindings = self.list()?;
        self.nodes.push(Node { form: Form::Let { bindings: bindings as u32 }, place });
        for _ in 0..bindings {
            let place = self.here().place;
            self.pair()?;
            self.room(place)?;
            let form = Form::Binding(self.word()?);
            self.nodes.push(Node { form, place });
            self.expression()?;
            self.close();
        }
        self.close();
        self.expression()
    }

    fn branch(&mut self) -> Result<(), Refused> {
        let place = self.here().place;
        self.pair()?;
        self.room(place)?;
        let form = self.pattern()?;
        self.nodes.push(Node { form, place });
        self.expression()?;
        self.close();
        Ok(())
    }

    fn pattern(&mut self) -> Result<Form, Refused> {
        let place = self.here().place;
        if self.here().kind == Kind::Reserved(Reserved::Blank) {
            self.at += 1;
            return Ok(Form::Otherwise);
        }
        let Some(count @ 1..) = self.count() else { return self.wrong() };
        self.at += 1;
        let head = self.word()?;
        let first = self.parts.len() as u32;
        for _ in 1..count {
            let part = match self.here().kind {
                Kind::Reserved(Reserved::Blank) => {
                    self.at += 1;
                    Part::Blank
                }
                _ => Part::Named(self.word()?),
            };
            self.parts.push(part);
        }
        self.close();
        Ok(Form::Branch { pattern: place, head, first, count: count as u32 - 1 })
    }
}

/// Counts one more, or refuses it with 5 at its place.
fn claim(count: &mut usize, limit: usize, place: u32) -> Result<(), Refused> {
    if *count == limit {
        return Refusal::Limit.at(place);
    }
    *count += 1;
    Ok(())
}
