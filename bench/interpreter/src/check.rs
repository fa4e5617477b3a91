//! The check: names, types and consumption. As it goes it writes the script's code, with every name resolved.

use crate::basis::{BASIS, Basis};
use crate::code::{About, At, Branch, Code, Offset, Op};
use crate::refused::{Refusal, Refused};
use crate::syntax::{Definition, Form, Literal, Node, Part, Script, TypeForm, Word};
use crate::text::NameId;
use crate::types::{Type, Types};

/// The most local names in scope.
const LOCAL_LIMIT: usize = 64;

/// What a name means where an expression stands.
#[derive(Clone, Copy)]
enum Meaning {
    Unbound,
    /// The basis first, then the defines in text order.
    Function(u32),
    /// A val is known after its closing bracket.
    LaterVal,
    Val(u32),
    Constructor(u32),
    /// A local name, by its number in scope from the outermost on.
    Local(u32),
}

struct Constructor {
    datatype: u16,
    fields: Vec<Type>,
}

/// The constructors of a datatype have consecutive numbers.
struct Datatype {
    first: u32,
    count: u32,
}

struct Val {
    ty: Type,
    entry: At,
}

struct Local {
    word: Word,
    ty: Type,
    offset: Offset,
}

/// Checks a script: its code, or 6, 7, 8, 9, 10, 11, or 5 for local names.
pub fn check<'t>(script: &Script<'t>) -> Result<Code<'t>, Refused> {
    let mut check = Check::new(script);
    check.bind_globals()?;
    check.resolve_types()?;
    check.pair_annotations()?;
    let main = check.main()?;
    check.bodies()?;
    Ok(check.finish(main))
}

struct Check<'s, 't> {
    script: &'s Script<'t>,
    types: Types,
    /// For each name.
    meanings: Vec<Meaning>,
    datatype_names: Vec<Option<u16>>,
    annotated: Vec<bool>,
    annotations: Vec<Option<Type>>,

    datatypes: Vec<Datatype>,
    constructors: Vec<Constructor>,
    /// The types of the functions, the basis first.
    functions: Vec<Type>,
    vals: Vec<Val>,

    scope: Vec<Local>,
    /// The names in scope that are consumed, a bit for each.
    consumed: u64,
    /// The next node.
    at: usize,
    /// Types of the arguments of the applications that are being checked.
    arguments: Vec<Type>,

    /// Entries of the running function on the second stack.
    height: Offset,
    owner: u32,
    code: Code<'t>,
}

impl<'s, 't> Check<'s, 't> {
    fn new(script: &'s Script<'t>) -> Self {
        let names = script.tokens.names.len();
        let mut types = Types::default();
        let functions = BASIS.map(|function| {
            let (parameters, result) = function.signature();
            types.function(parameters, result)
        });
        let mut meanings = vec![Meaning::Unbound; names];
        let mut annotated = vec![false; names];
        for number in 0..BASIS.len() {
            meanings[number] = Meaning::Function(number as u32);
            annotated[number] = true;
        }
        let code = Code {
            text: script.text,
            ops: Vec::with_capacity(2 * script.nodes.len() + 2),
            about: Vec::with_capacity(2 * script.nodes.len() + 2),
            entries: Vec::new(),
            branches: Vec::new(),
            tables: Vec::new(),
            owners: Vec::new(),
        };
        Check {
            script,
            types,
            meanings,
            datatype_names: vec![None; names],
            annotated,
            annotations: vec![None; names],
            datatypes: Vec::new(),
            constructors: Vec::new(),
            functions: functions.to_vec(),
            vals: Vec::new(),
            scope: Vec::with_capacity(LOCAL_LIMIT),
            consumed: 0,
            at: 0,
            arguments: Vec::new(),
            height: 0,
            owner: 0,
            code,
        }
    }

    // The script as a whole.

    fn meaning(&self, name: NameId) -> Meaning {
        self.meanings[name.0 as usize]
    }

    /// Binds a global name, or refuses it with 6.
    fn bind_global(&mut self, word: Word, meaning: Meaning) -> Result<(), Refused> {
        let bound = &mut self.meanings[word.name.0 as usize];
        match bound {
            Meaning::Unbound => *bound = meaning,
            _ => return Refusal::Twice.at(word.place),
        }
        Ok(())
    }

    /// 6: bound names, annotations and datatypes are three lists, judged together in text order.
    fn bind_globals(&mut self) -> Result<(), Refused> {
        let script = self.script;
        let mut functions = BASIS.len() as u32;
        let mut constructors_before = 0;
        let mut datatypes = 0;
        for definition in &script.definitions {
            match definition {
                Definition::Datatype { word, constructors } => {
                    if self.datatype_names[word.name.0 as usize].replace(datatypes).is_some() {
                        return Refusal::Twice.at(word.place);
                    }
                    datatypes += 1;
                    for constructor in constructors {
                        self.bind_global(constructor.word, Meaning::Constructor(constructors_before))?;
                        constructors_before += 1;
                    }
                }
                Definition::Annotation { word, .. } => {
                    if std::mem::replace(&mut self.annotated[word.name.0 as usize], true) {
                        return Refusal::Twice.at(word.place);
                    }
                }
                Definition::Define { word, .. } => {
                    self.bind_global(*word, Meaning::Function(functions))?;
                    functions += 1;
                }
                Definition::Val { word, .. } => self.bind_global(*word, Meaning::LaterVal)?,
            }
        }
        Ok(())
    }

    /// 7 in types.
    fn resolve_types(&mut self) -> Result<(), Refused> {
        let script = self.script;
        for definition in &script.definitions {
            match definition {
                Definition::Datatype { constructors, .. } => {
                    let datatype = self.datatypes.len() as u16;
                    let (first, count) = (self.constructors.len() as u32, constructors.len() as u32);
                    self.datatypes.push(Datatype { first, count });
                    for constructor in constructors {
                        let fields = self.resolve_all(&constructor.fields)?;
                        self.constructors.push(Constructor { datatype, fields });
                    }
                }
                Definition::Annotation { word, form } => {
                    self.annotations[word.name.0 as usize] = Some(self.resolve(form)?);
                }
                _ => {}
            }
        }
        Ok(())
    }

    fn resolve_all(&mut self, forms: &[TypeForm]) -> Result<Vec<Type>, Refused> {
        forms.iter().map(|form| self.resolve(form)).collect()
    }

    fn resolve(&mut self, form: &TypeForm) -> Result<Type, Refused> {
        Ok(match form {
            TypeForm::Int => Type::Int,
            TypeForm::Bool => Type::Bool,
            TypeForm::Sym => Type::Sym,
            TypeForm::Unit => Type::Unit,
            TypeForm::Datatype(word) => match self.datatype_names[word.name.0 as usize] {
                Some(datatype) => Type::Data(datatype),
                None => return Refusal::Unknown.at(word.place),
            },
            TypeForm::Function(parameters, result) => {
                let parameters = self.resolve_all(parameters)?;
                let result = self.resolve(result)?;
                self.types.function(&parameters, result)
            }
        })
    }

    /// 8: each define has an annotation and each annotation a define.
    fn pair_annotations(&mut self) -> Result<(), Refused> {
        for definition in &self.script.definitions {
            match definition {
                Definition::Define { word, .. } => match self.annotations[word.name.0 as usize] {
                    Some(ty) => self.functions.push(ty),
                    None => return Refusal::Unpaired.at(word.place),
                },
                Definition::Annotation { word, .. } => match self.meaning(word.name) {
                    Meaning::Function(_) => {}
                    _ => return Refusal::Unpaired.at(word.place),
                },
                _ => {}
            }
        }
        Ok(())
    }

    /// 11: the number of the function `main`.
    fn main(&mut self) -> Result<u32, Refused> {
        let wanted = self.types.function(&[], Type::Unit);
        let meaning = self.script.tokens.find(b"main").map(|name| self.meaning(name));
        match meaning {
            Some(Meaning::Function(number)) if self.functions[number as usize] == wanted => Ok(number),
            _ => Refusal::Main.at(0),
        }
    }

    fn bodies(&mut self) -> Result<(), Refused> {
        // The first two operations call `main` and stand behind that call.
        let main = self.emit(Op::Ended, 0, false);
        self.emit(Op::Ended, 0, true);
        for definition in &self.script.definitions {
            match definition {
                Definition::Define { place, word, parameters, body } => {
                    self.own(word);
                    if self.script.tokens.find(b"main") == Some(word.name) {
                        self.code.about[main] = About { place: *place, owner: self.owner, height: 0, hands: false };
                    }
                    self.define(*place, word, parameters, *body)?;
                }
                Definition::Val { word, body } => {
                    self.own(word);
                    self.val(word, *body)?;
                }
                _ => {}
            }
        }
        Ok(())
    }

    /// What follows lies in this define or val.
    fn own(&mut self, word: &Word) {
        self.owner = self.code.owners.len() as u32;
        self.code.owners.push(self.script.tokens.names[word.name.0 as usize]);
    }

    fn define(&mut self, place: u32, word: &Word, parameters: &[Word], body: usize) -> Result<(), Refused> {
        let Meaning::Function(number) = self.meaning(word.name) else { unreachable!("a define binds a function") };
        let Some((types, result)) = self.types.parts(self.functions[number as usize]) else {
            return Refusal::Type.at(place);
        };
        if types.len() != parameters.len() {
            return Refusal::Type.at(place);
        }
        let types = types.to_vec();
        for (&parameter, ty) in parameters.iter().zip(types) {
            self.bind_local(parameter, ty)?;
        }
        self.code.entries.push(self.here());
        self.at = body;
        if self.expression()? != result {
            return Refusal::Type.at(place);
        }
        let holds_data = self.scope.iter().any(|local| is_data(local.ty));
        let parameters = if holds_data { self.height } else { 0 };
        self.emit(Op::Return { parameters }, place, true);
        self.leave_scope(0);
        Ok(())
    }

    fn val(&mut self, word: &Word, body: usize) -> Result<(), Refused> {
        let entry = self.here();
        self.at = body;
        let ty = self.expression()?;
        self.emit(Op::Return { parameters: 0 }, word.place, true);
        self.meanings[word.name.0 as usize] = Meaning::Val(self.vals.len() as u32);
        self.vals.push(Val { ty, entry });
        Ok(())
    }

    /// Fills in where each call goes.
    fn finish(self, main: u32) -> Code<'t> {
        let mut code = self.code;
        let Code { ops, entries, .. } = &mut code;
        ops[0] = Op::Main { entry: main as At };
        for op in ops {
            if let Op::Main { entry } | Op::Call { entry, .. } | Op::CallNone { entry, .. } = op {
                *entry = entries[*entry as usize - BASIS.len()];
            }
        }
        code
    }

    // Local names.

    /// Binds a local name in the next entry, or refuses it with 5 or 6.
    fn bind_local(&mut self, word: Word, ty: Type) -> Result<(), Refused> {
        if self.scope.len() == LOCAL_LIMIT {
            return Refusal::Limit.at(word.place);
        }
        let bound = &mut self.meanings[word.name.0 as usize];
        let Meaning::Unbound = bound else { return Refusal::Twice.at(word.place) };
        *bound = Meaning::Local(self.scope.len() as u32);
        self.consumed &= !(1 << self.scope.len());
        self.scope.push(Local { word, ty, offset: self.height });
        self.height += 1;
        Ok(())
    }

    /// The names from this one on leave the scope, and their entries the second stack.
    fn leave_scope(&mut self, first: usize) {
        for local in self.scope.drain(first..) {
            self.meanings[local.word.name.0 as usize] = Meaning::Unbound;
            self.height -= 1;
        }
    }

    /// The step that hands the last part of a form to it, and ends the scope of the names from this one on.
    fn end_form(&mut self, first: usize, place: u32) -> usize {
        let holds_data = self.scope[first..].iter().any(|local| is_data(local.ty));
        let behind = self.height;
        let next = self.here() + 1;
        let op = match holds_data {
            true => Op::Drop { first: behind - (self.scope.len() - first) as Offset, behind, next },
            false => Op::Done { next },
        };
        let at = self.emit(op, place, true);
        self.leave_scope(first);
        at
    }

    // Code.

    fn here(&self) -> At {
        self.code.ops.len() as At
    }

    fn emit(&mut self, op: Op, place: u32, hands: bool) -> usize {
        let at = self.code.ops.len();
        self.code.ops.push(op);
        self.code.about.push(About { place, owner: self.owner, height: self.height, hands });
        at
    }

    /// Where the run goes on after an operation that ends an arm or fails a test.
    fn go_on_at(&mut self, op: usize, target: At) {
        match &mut self.code.ops[op] {
            Op::Done { next } | Op::Drop { next, .. } | Op::Test { otherwise: next } => *next = target,
            _ => {}
        }
    }

    // Expressions.

    fn next_node(&mut self) -> Node {
        let node = self.script.nodes[self.at];
        self.at += 1;
        node
    }

    /// Judges the expression at the next node, and writes its code.
    fn expression(&mut self) -> Result<Type, Refused> {
        let Node { form, place } = self.next_node();
        match form {
            Form::Literal(value) => self.literal(value, place),
            Form::Name(name) => self.name(Word { name, place }),
            Form::Dup(word) => self.dup(word, place),
            Form::If => self.if_form(place),
            Form::Begin { parts } => self.begin(parts, place),
            Form::Let { bindings } => self.let_form(bindings, place),
            Form::Case { branches } => self.case(branches, place),
            Form::Apply { arguments } => self.application(arguments as usize, place),
            Form::Binding(_) | Form::Branch { .. } | Form::Otherwise => unreachable!("no expression"),
        }
    }

    fn literal(&mut self, literal: Literal, place: u32) -> Result<Type, Refused> {
        let (op, ty) = match literal {
            Literal::Int(value) => (Op::Int(value), Type::Int),
            Literal::Sym(first) => (Op::Sym(first), Type::Sym),
            Literal::False => (Op::False, Type::Bool),
            Literal::True => (Op::True, Type::Bool),
            Literal::Unit => (Op::Unit, Type::Unit),
        };
        self.emit(op, place, false);
        Ok(ty)
    }

    fn name(&mut self, word: Word) -> Result<Type, Refused> {
        match self.meaning(word.name) {
            Meaning::Local(local) => self.local(local, word, word.place, true),
            Meaning::Function(number) => {
                self.emit(Op::Function(number as u16), word.place, false);
                Ok(self.functions[number as usize])
            }
            Meaning::Val(number) => {
                let Val { ty, entry } = self.vals[number as usize];
                self.emit(Op::Val { entry, above: self.height }, word.place, false);
                Ok(ty)
            }
            Meaning::Constructor(_) => Refusal::Type.at(word.place),
            Meaning::Unbound | Meaning::LaterVal => Refusal::Unknown.at(word.place),
        }
    }

    /// A local name, bare or under `dup`, which stands at the place.
    fn local(&mut self, local: u32, word: Word, place: u32, bare: bool) -> Result<Type, Refused> {
        let Local { ty, offset, .. } = self.scope[local as usize];
        let mark = 1 << local;
        if self.consumed & mark != 0 {
            return Refusal::Consumed.at(word.place);
        }
        let op = match (is_data(ty), bare) {
            (false, _) => Op::Local(offset),
            (true, false) => Op::Copy(offset),
            (true, true) => {
                self.consumed |= mark;
                Op::Leave(offset)
            }
        };
        self.emit(op, place, false);
        Ok(ty)
    }

    fn dup(&mut self, word: Word, place: u32) -> Result<Type, Refused> {
        match self.meaning(word.name) {
            Meaning::Local(local) => self.local(local, word, place, false),
            Meaning::Function(_) | Meaning::Val(_) | Meaning::Constructor(_) => Refusal::Type.at(place),
            Meaning::Unbound | Meaning::LaterVal => Refusal::Unknown.at(word.place),
        }
    }

    fn if_form(&mut self, place: u32) -> Result<Type, Refused> {
        self.emit(Op::Wait, place, false);
        if self.expression()? != Type::Bool {
            return Refusal::Type.at(place);
        }
        let test = self.emit(Op::Test { otherwise: 0 }, place, true);
        let scope = self.scope.len();
        let marks = self.consumed;
        let then = self.expression()?;
        let end = self.end_form(scope, place);
        self.go_on_at(test, self.here());
        let then_marks = std::mem::replace(&mut self.consumed, marks);
        let otherwise = self.expression()?;
        self.end_form(scope, place);
        self.go_on_at(end, self.here());
        self.consumed |= then_marks;
        if then == otherwise { Ok(then) } else { Refusal::Type.at(place) }
    }

    fn begin(&mut self, parts: u32, place: u32) -> Result<Type, Refused> {
        self.emit(Op::Wait, place, false);
        for _ in 1..parts {
            self.expression()?;
            self.emit(Op::Part, place, true);
        }
        let ty = self.expression()?;
        self.end_form(self.scope.len(), place);
        Ok(ty)
    }

    fn let_form(&mut self, bindings: u32, place: u32) -> Result<Type, Refused> {
        self.emit(Op::Wait, place, false);
        let scope = self.scope.len();
        for _ in 0..bindings {
            let Form::Binding(word) = self.next_node().form else { unreachable!("a let has bindings") };
            let ty = self.expression()?;
            self.emit(Op::Hold(self.height), place, true);
            self.bind_local(word, ty)?;
        }
        let ty = self.expression()?;
        self.end_form(scope, place);
        Ok(ty)
    }

    fn case(&mut self, branches: u32, place: u32) -> Result<Type, Refused> {
        self.emit(Op::Wait, place, false);
        let Type::Data(datatype) = self.expression()? else { return Refusal::Type.at(place) };
        let Datatype { first, count } = self.datatypes[datatype as usize];
        let table = self.code.tables.len();
        self.code.tables.resize(table + count as usize, None);
        self.emit(Op::Select { table: table as u32, first_constructor: first as u16 }, place, true);
        let scope = self.scope.len();
        let marks = self.consumed;
        let mut marks_after = marks;
        let mut ends = Vec::with_capacity(branches as usize);
        let mut first_type = None;
        let mut same = true;
        for _ in 0..branches {
            self.consumed = marks;
            let constructor = self.pattern(datatype)?;
            let number = self.code.branches.len() as u32 - 1;
            let fitting = match constructor {
                Some(constructor) => {
                    let entry = table + (constructor - first) as usize;
                    &mut self.code.tables[entry..=entry]
                }
                None => &mut self.code.tables[table..table + count as usize],
            };
            for entry in fitting {
                entry.get_or_insert(number);
            }
            let ty = self.expression()?;
            same &= *first_type.get_or_insert(ty) == ty;
            ends.push(self.end_form(scope, place));
            marks_after |= self.consumed;
        }
        for end in ends {
            self.go_on_at(end, self.here());
        }
        self.consumed = marks_after;
        match first_type {
            Some(ty) if same => Ok(ty),
            _ => Refusal::Type.at(place),
        }
    }

    /// Judges a branch's pattern and binds its names: its constructor, or none for a bare `_`.
    fn pattern(&mut self, datatype: u16) -> Result<Option<u32>, Refused> {
        let mut branch = Branch { entry: self.here(), first: self.height, named: 0, dropped: 0, whole: false };
        let Form::Branch { pattern, head, first, count } = self.next_node().form else {
            branch.whole = true;
            self.code.branches.push(branch);
            return Ok(None);
        };
        let number = match self.meaning(head.name) {
            Meaning::Constructor(number) => number,
            Meaning::Unbound | Meaning::LaterVal => return Refusal::Unknown.at(head.place),
            _ => return Refusal::Type.at(pattern),
        };
        let constructor = &self.constructors[number as usize];
        let parts = self.script.pattern(first, count);
        if constructor.datatype != datatype || constructor.fields.len() != parts.len() {
            return Refusal::Type.at(pattern);
        }
        for (index, part) in parts.iter().enumerate() {
            let ty = self.constructors[number as usize].fields[index];
            match *part {
                Part::Named(word) => {
                    branch.named |= 1 << index;
                    self.bind_local(word, ty)?;
                }
                Part::Blank if is_data(ty) => branch.dropped |= 1 << index,
                Part::Blank => {}
            }
        }
        self.code.branches.push(branch);
        Ok(Some(number))
    }

    fn application(&mut self, arguments: usize, place: u32) -> Result<Type, Refused> {
        if let Form::Name(name) = self.script.nodes[self.at].form
            && let Meaning::Constructor(number) = self.meaning(name)
        {
            self.at += 1;
            return self.construction(number, arguments, place);
        }
        self.emit(Op::Wait, place, false);
        let known = match self.script.nodes[self.at].form {
            Form::Name(name) => match self.meaning(name) {
                Meaning::Function(number) => Some(number),
                _ => None,
            },
            _ => None,
        };
        let head = self.expression()?;
        if arguments > 0 {
            self.emit(if known.is_some() { Op::Head } else { Op::KeepHead }, place, true);
        }
        let first = self.height;
        let held = self.arguments.len();
        self.arguments(arguments, place)?;
        let result = match self.types.parts(head) {
            Some((parameters, result)) if *parameters == self.arguments[held..] => result,
            _ => return Refusal::Type.at(place),
        };
        self.arguments.truncate(held);
        let op = call(known, first, arguments as u8);
        self.emit(op, place, true);
        self.height = first;
        Ok(result)
    }

    fn construction(&mut self, number: u32, arguments: usize, place: u32) -> Result<Type, Refused> {
        if arguments == 0 {
            self.emit(Op::Constant { constructor: number as u16 }, place, false);
        } else {
            self.emit(Op::Wait, place, false);
        }
        let first = self.height;
        let held = self.arguments.len();
        self.arguments(arguments, place)?;
        let constructor = &self.constructors[number as usize];
        if constructor.fields != self.arguments[held..] {
            return Refusal::Type.at(place);
        }
        let ty = Type::Data(constructor.datatype);
        self.arguments.truncate(held);
        if arguments > 0 {
            self.emit(Op::Build { constructor: number as u16, first, used: arguments as u8 }, place, true);
        }
        self.height = first;
        Ok(ty)
    }

    /// Judges the arguments of an application. All but the last are held when it is at hand.
    fn arguments(&mut self, count: usize, place: u32) -> Result<(), Refused> {
        for index in 1..=count {
            let ty = self.expression()?;
            self.arguments.push(ty);
            if index < count {
                self.emit(Op::Hold(self.height), place, true);
                self.height += 1;
            }
        }
        Ok(())
    }
}

/// The step that makes a call, of a function whose name is the head or of the one that the application keeps.
fn call(known: Option<u32>, first: Offset, arguments: u8) -> Op {
    let Some(number) = known else {
        return match arguments {
            0 => Op::CallHead { above: first },
            _ => Op::CallKept { first, arguments },
        };
    };
    match (Basis::from_number(number), arguments) {
        (Some(function), 2) => Op::BasisTwo { function, first },
        (Some(function), 1) => Op::BasisOne { function, first },
        (Some(function), _) => Op::BasisNone { function },
        // The number stands for the entry until all code is written.
        (None, 0) => Op::CallNone { entry: number as At, above: first },
        (None, _) => Op::Call { entry: number as At, first, arguments },
    }
}

fn is_data(ty: Type) -> bool {
    matches!(ty, Type::Data(_))
}
