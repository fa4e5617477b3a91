//! Random scripts that the check accepts, or nearly always: every form, every function of the basis.
//!
//! A script is made by types: an expression of a wanted type, from what is in scope, with the marks of consumption kept
//! as the check keeps them. Where calls go is left to chance, so runs end, run out of steps, cells or entries, or meet
//! any other fault.

use crate::basis::BASIS;
use crate::random::Random;
use crate::types::{Type, Types};

/// More locals than this are never in scope, so that the limit of 64 is not met by accident.
const LOCALS: usize = 40;

const NAMES: [&str; 24] = [
    "f", "g", "h", "len", "sum", "loop", "opt", "tree", "list", "node", "leaf", "mk", "some", "c", "n", "limit",
    "const", "v", "pair", "l", "d", "swap", "fold", "go",
];
const LOCAL_NAMES: [&str; 16] = ["x", "y", "z", "w", "a", "b", "k", "m", "p", "q", "r", "s", "t", "u", "acc", "it"];
const TAILS: [&str; 10] = ["", "", "", "0", "1", "-", "+", ".", "\"", "->"];
const SYMBOLS: [&str; 10] = ["''", "'a'", "'b'", "'hello'", "'a b'", "'x\ny'", "'\\''", "'\\\\'", "'(;'", "'score: '"];
const INTS: [i32; 18] = [0, 1, 2, 3, 7, 8, 10, 31, 32, 33, -1, -2, 255, 256, 65535, 65536, i32::MAX, i32::MIN];

struct Constructor {
    name: String,
    datatype: u16,
    fields: Vec<Type>,
}

struct Function {
    name: String,
    ty: Type,
}

struct Local {
    name: String,
    ty: Type,
    consumed: bool,
}

/// A definition, with its tokens.
struct Definition {
    tokens: Vec<String>,
}

/// Makes one script. A careless one now and then enters a name that is consumed.
pub fn script(random: &mut Random, careless: bool) -> Vec<u8> {
    let mut maker = Maker::new(random);
    maker.careless = careless;
    maker.declare();
    let definitions = maker.define();
    maker.lay_out(definitions)
}

struct Maker<'r> {
    random: &'r mut Random,
    careless: bool,
    types: Types,
    used_names: Vec<String>,
    datatype_names: Vec<String>,
    /// The types that parameters, fields and results may have.
    pool: Vec<Type>,
    constructors: Vec<Constructor>,
    functions: Vec<Function>,
    /// Vals that stand further left.
    vals: Vec<Function>,
    scope: Vec<Local>,
    /// The function whose body is being made. It mostly calls those before it, so that most runs end.
    own: usize,
    tokens: Vec<String>,
}

impl<'r> Maker<'r> {
    fn new(random: &'r mut Random) -> Self {
        let mut types = Types::default();
        let mut functions = Vec::new();
        for function in BASIS {
            let (parameters, result) = function.signature();
            let ty = types.function(parameters, result);
            functions.push(Function { name: function.name().to_owned(), ty });
        }
        let used_names = functions.iter().map(|function| function.name.clone()).collect();
        Maker {
            random,
            careless: false,
            types,
            used_names,
            datatype_names: Vec::new(),
            pool: vec![Type::Int, Type::Bool, Type::Sym, Type::Unit],
            constructors: Vec::new(),
            functions,
            vals: Vec::new(),
            scope: Vec::new(),
            own: BASIS.len(),
            tokens: Vec::new(),
        }
    }

    // Names and types.

    fn fresh_global(&mut self) -> String {
        loop {
            let name = format!("{}{}", self.random.word(&NAMES), self.random.word(&TAILS));
            if !self.used_names.contains(&name) {
                self.used_names.push(name.clone());
                return name;
            }
        }
    }

    fn fresh_local(&mut self) -> String {
        loop {
            let name = match self.random.percent(40) {
                true => (self.random.word(&LOCAL_NAMES)).to_owned(),
                false => format!("x{}", self.random.below(80)),
            };
            if !self.scope.iter().any(|local| local.name == name) && !self.used_names.contains(&name) {
                return name;
            }
        }
    }

    fn some_type(&mut self) -> Type {
        *self.random.pick(&self.pool)
    }

    fn some_types(&mut self, most: usize) -> Vec<Type> {
        let count = self.random.within(0, most);
        (0..count).map(|_| self.some_type()).collect()
    }

    /// Chooses datatypes, constructors and the types of the defines.
    fn declare(&mut self) {
        let datatypes = self.random.within(0, 3);
        for number in 0..datatypes {
            let name = self.datatype_name();
            self.datatype_names.push(name);
            // Twice, so that data is chosen often.
            self.pool.extend([Type::Data(number as u16); 2]);
        }
        // Types of functions that exist: of the basis, and of defines that are made for it.
        for _ in 0..self.random.within(0, 2) {
            let ty = self.random.pick(&self.functions).ty;
            self.pool.push(ty);
        }
        for number in 0..datatypes {
            let datatype = number as u16;
            // The first constructor has no data among its fields, so that each datatype has a value.
            let fields = self.some_types(2).into_iter().filter(|ty| !is_data(*ty)).collect();
            self.declare_constructor(datatype, fields);
            for _ in 0..self.random.within(0, 3) {
                let most = if self.random.percent(10) { 6 } else { 3 };
                let fields = self.some_types(most);
                self.declare_constructor(datatype, fields);
            }
        }
        for _ in 0..self.random.within(0, 5) {
            let most = if self.random.percent(10) { 6 } else { 3 };
            let parameters = self.some_types(most);
            let result = self.some_type();
            let ty = self.types.function(&parameters, result);
            let name = self.fresh_global();
            self.functions.push(Function { name, ty });
            if self.random.percent(30) {
                self.pool.push(ty);
            }
        }
        let main = self.types.function(&[], Type::Unit);
        self.used_names.push("main".to_owned());
        self.functions.push(Function { name: "main".to_owned(), ty: main });
    }

    fn datatype_name(&mut self) -> String {
        loop {
            let name = format!("{}{}", self.random.word(&NAMES), self.random.below(4));
            if !self.datatype_names.contains(&name) {
                return name;
            }
        }
    }

    fn declare_constructor(&mut self, datatype: u16, fields: Vec<Type>) {
        let name = self.fresh_global();
        self.constructors.push(Constructor { name, datatype, fields });
    }

    // Definitions.

    /// All definitions, in an order that vals allow.
    fn define(&mut self) -> Vec<Definition> {
        let mut fixed = Vec::new();
        for number in 0..self.datatype_names.len() {
            self.datatype_definition(number as u16);
            fixed.push(self.definition());
        }
        for number in BASIS.len()..self.functions.len() {
            self.annotation(number);
            fixed.push(self.definition());
        }
        let mut bodies: Vec<Option<usize>> = (BASIS.len()..self.functions.len()).map(Some).collect();
        bodies.extend((0..self.random.within(0, 3)).map(|_| None));
        self.random.shuffle(&mut bodies);
        let mut ordered = Vec::new();
        for body in bodies {
            match body {
                Some(function) => self.define_function(function),
                None => self.define_val(),
            }
            ordered.push(self.definition());
        }
        // Datatypes and annotations may stand anywhere.
        for definition in fixed {
            let place = self.random.within(0, ordered.len());
            ordered.insert(place, definition);
        }
        ordered
    }

    fn definition(&mut self) -> Definition {
        Definition { tokens: std::mem::take(&mut self.tokens) }
    }

    fn put(&mut self, token: impl Into<String>) {
        self.tokens.push(token.into());
    }

    /// What stands in a pair of brackets.
    fn list(&mut self, inside: impl FnOnce(&mut Self)) {
        let square = self.random.percent(25);
        self.put(if square { "[" } else { "(" });
        inside(self);
        self.put(if square { "]" } else { ")" });
    }

    fn datatype_definition(&mut self, datatype: u16) {
        let name = self.datatype_names[datatype as usize].clone();
        let own: Vec<_> = self.constructors.iter().filter(|c| c.datatype == datatype).collect();
        let own: Vec<_> = own.into_iter().map(|c| (c.name.clone(), c.fields.clone())).collect();
        self.list(|maker| {
            maker.put("datatype");
            maker.put(name);
            maker.list(|maker| {
                for (name, fields) in own {
                    maker.list(|maker| {
                        maker.put(name);
                        maker.list(|maker| fields.iter().for_each(|&ty| maker.put_type(ty)));
                    });
                }
            });
        });
    }

    fn put_type(&mut self, ty: Type) {
        match ty {
            Type::Int => self.put("int"),
            Type::Bool => self.put("bool"),
            Type::Sym => self.put("sym"),
            Type::Unit => self.put("unit"),
            Type::Data(number) => self.put(self.datatype_names[number as usize].clone()),
            Type::Function(_) => {
                let (parameters, result) = self.parts(ty);
                self.list(|maker| {
                    maker.put("->");
                    maker.list(|maker| parameters.iter().for_each(|&ty| maker.put_type(ty)));
                    maker.put_type(result);
                });
            }
        }
    }

    fn parts(&self, ty: Type) -> (Vec<Type>, Type) {
        let (parameters, result) = self.types.parts(ty).unwrap_or((&[], ty));
        (parameters.to_vec(), result)
    }

    fn annotation(&mut self, number: usize) {
        let Function { name, ty } = &self.functions[number];
        let (name, ty) = (name.clone(), *ty);
        self.list(|maker| {
            maker.put(":");
            maker.put(name);
            maker.put_type(ty);
        });
    }

    fn define_function(&mut self, number: usize) {
        let Function { name, ty } = &self.functions[number];
        let (name, (parameters, result)) = (name.clone(), self.parts(*ty));
        self.own = number;
        self.list(|maker| {
            maker.put("define");
            maker.put(name.clone());
            maker.list(|maker| {
                for ty in parameters {
                    let name = maker.fresh_local();
                    maker.put(name.clone());
                    maker.scope.push(Local { name, ty, consumed: false });
                }
            });
            if name == "main" {
                maker.main_body();
            } else {
                let size = maker.random.within(3, 40);
                maker.expression(result, size);
            }
            maker.scope.clear();
        });
    }

    /// Calls of several functions, one after another, what they answer printed where that can be.
    fn main_body(&mut self) {
        let calls = self.random.within(1, 6);
        self.list(|maker| {
            maker.put("begin");
            for _ in 0..calls {
                let called = maker.random.within(BASIS.len(), maker.functions.len() - 1);
                let called = if maker.random.percent(70) { called } else { maker.random.below(BASIS.len()) };
                let Function { name, ty } = &maker.functions[called];
                let (name, (parameters, result)) = (name.clone(), maker.parts(*ty));
                let print = match result {
                    Type::Int => "print-int",
                    Type::Bool => "print-bool",
                    Type::Sym => "print-sym",
                    Type::Unit => "print-unit",
                    Type::Data(_) | Type::Function(_) => "begin",
                };
                // To call `main` would be to begin again.
                if name == "main" {
                    maker.expression(Type::Unit, 30);
                    continue;
                }
                let size = maker.random.within(3, 30);
                maker.list(|maker| {
                    maker.put(print);
                    maker.list(|maker| {
                        maker.put(name);
                        maker.arguments(&parameters, size);
                    });
                });
            }
            maker.expression(Type::Unit, 6);
        });
    }

    fn define_val(&mut self) {
        let name = self.fresh_global();
        let ty = self.some_type();
        let size = self.random.within(1, 12);
        self.list(|maker| {
            maker.put("val");
            maker.put(name.clone());
            maker.expression(ty, size);
        });
        self.vals.push(Function { name, ty });
    }

    // Expressions.

    /// An expression of a type, with about so many nodes to spend.
    fn expression(&mut self, ty: Type, size: usize) {
        if size <= 1 {
            return self.small(ty);
        }
        match self.random.below(100) {
            0..8 => self.small(ty),
            8..22 => self.if_form(ty, size),
            22..32 => self.begin(ty, size),
            32..48 => self.let_form(ty, size),
            48..66 => self.case(ty, size),
            _ => self.application(ty, size),
        }
    }

    /// The shortest expressions: literals, names, dup, constructors of little.
    fn small(&mut self, ty: Type) {
        let names = self.scope.iter().enumerate();
        let names = names.filter(|(_, local)| local.ty == ty && (self.careless || !local.consumed));
        let names: Vec<usize> = names.map(|(number, _)| number).collect();
        if !names.is_empty() && self.random.percent(70) {
            let number = *self.random.pick(&names);
            let name = self.scope[number].name.clone();
            if self.random.percent(25) {
                return self.list(|maker| {
                    maker.put("dup");
                    maker.put(name);
                });
            }
            self.scope[number].consumed = is_data(ty);
            return self.put(name);
        }
        let vals: Vec<String> = self.vals.iter().filter(|val| val.ty == ty).map(|val| val.name.clone()).collect();
        if !vals.is_empty() && self.random.percent(30) {
            let name = self.random.pick(&vals).clone();
            return self.put(name);
        }
        match ty {
            Type::Int => self.int(),
            Type::Bool => {
                let truth = self.random.word(&["true", "false"]);
                self.put(truth);
            }
            Type::Sym => {
                let symbol = self.random.word(&SYMBOLS);
                self.put(symbol);
            }
            Type::Unit => self.put("unit"),
            Type::Data(datatype) => {
                let first = self.constructors.iter().position(|c| c.datatype == datatype);
                self.construct(first.unwrap_or(0), 1);
            }
            Type::Function(_) => {
                let of_type = |functions: &[Function]| -> Vec<String> {
                    functions
                        .iter()
                        .filter(|function| function.ty == ty)
                        .map(|function| function.name.clone())
                        .collect()
                };
                let before = of_type(&self.functions[..self.own]);
                let able = if before.is_empty() { of_type(&self.functions) } else { before };
                let name = self.random.pick(&able).clone();
                self.put(name);
            }
        }
    }

    fn int(&mut self) {
        let value = match self.random.percent(35) {
            true => *self.random.pick(&INTS),
            false => self.random.below(40) as i32,
        };
        let spelt = match self.random.below(12) {
            0 if value >= 0 => format!("+{value}"),
            1 if value >= 0 => format!("00{value}"),
            2 if value == 0 => "-0".to_owned(),
            _ => value.to_string(),
        };
        self.put(spelt);
    }

    fn construct(&mut self, constructor: usize, size: usize) {
        let Constructor { name, fields, .. } = &self.constructors[constructor];
        let (name, fields) = (name.clone(), fields.clone());
        self.list(|maker| {
            maker.put(name);
            maker.arguments(&fields, size);
        });
    }

    fn arguments(&mut self, types: &[Type], size: usize) {
        for &ty in types {
            self.expression(ty, size.saturating_sub(1) / types.len());
        }
    }

    fn marks(&self) -> Vec<bool> {
        self.scope.iter().map(|local| local.consumed).collect()
    }

    fn set_marks(&mut self, marks: &[bool]) {
        for (local, &mark) in self.scope.iter_mut().zip(marks) {
            local.consumed = mark;
        }
    }

    /// Arms that each begin with the marks that stand now. Afterwards a name is consumed if some arm consumed it.
    fn arms(&mut self, count: usize, mut arm: impl FnMut(&mut Self, usize)) {
        let before = self.marks();
        let mut after = before.clone();
        for number in 0..count {
            self.set_marks(&before);
            arm(self, number);
            for (mark, now) in after.iter_mut().zip(self.marks()) {
                *mark |= now;
            }
        }
        self.set_marks(&after);
    }

    fn if_form(&mut self, ty: Type, size: usize) {
        self.list(|maker| {
            maker.put("if");
            maker.expression(Type::Bool, size / 3);
            maker.arms(2, |maker, _| maker.expression(ty, size / 3));
        });
    }

    fn begin(&mut self, ty: Type, size: usize) {
        let before = self.random.within(0, 3);
        self.list(|maker| {
            maker.put("begin");
            for _ in 0..before {
                let part = if maker.random.percent(50) { Type::Unit } else { maker.some_type() };
                maker.expression(part, size / (before + 1));
            }
            maker.expression(ty, size / (before + 1));
        });
    }

    fn let_form(&mut self, ty: Type, size: usize) {
        let room = LOCALS.saturating_sub(self.scope.len());
        let bindings = self.random.within(0, 3).min(room);
        let scope = self.scope.len();
        self.list(|maker| {
            maker.put("let");
            maker.list(|maker| {
                for _ in 0..bindings {
                    let bound = maker.some_type();
                    let name = maker.fresh_local();
                    maker.list(|maker| {
                        maker.put(name.clone());
                        maker.expression(bound, size / (bindings + 1));
                    });
                    maker.scope.push(Local { name, ty: bound, consumed: false });
                }
            });
            maker.expression(ty, size / (bindings + 1));
        });
        self.scope.truncate(scope);
    }

    fn case(&mut self, ty: Type, size: usize) {
        if self.datatype_names.is_empty() || self.scope.len() > LOCALS {
            return self.application(ty, size);
        }
        let datatype = self.random.below(self.datatype_names.len()) as u16;
        let own = self.constructors.iter().enumerate().filter(|(_, c)| c.datatype == datatype);
        let mut branches: Vec<Option<usize>> = own.map(|(number, _)| Some(number)).collect();
        self.random.shuffle(&mut branches);
        if self.random.percent(25) {
            branches.truncate(self.random.within(0, branches.len()));
            branches.push(None);
        } else if self.random.percent(10) && branches.len() > 1 {
            // One is missing: the run may meet fault 31.
            branches.pop();
        } else if self.random.percent(10) {
            let again = *self.random.pick(&branches);
            branches.push(again);
        }
        let share = size / (branches.len() + 1);
        self.list(|maker| {
            maker.put("case");
            maker.expression(Type::Data(datatype), share.max(size / 3));
            maker.arms(branches.len(), |maker, number| maker.branch(branches[number], ty, share));
        });
    }

    fn branch(&mut self, constructor: Option<usize>, ty: Type, size: usize) {
        let scope = self.scope.len();
        self.list(|maker| {
            match constructor {
                Some(constructor) => maker.pattern(constructor),
                None => maker.put("_"),
            }
            maker.expression(ty, size);
        });
        self.scope.truncate(scope);
    }

    fn pattern(&mut self, constructor: usize) {
        let Constructor { name, fields, .. } = &self.constructors[constructor];
        let (name, fields) = (name.clone(), fields.clone());
        self.list(|maker| {
            maker.put(name);
            for ty in fields {
                if maker.random.percent(25) || maker.scope.len() >= LOCALS + 10 {
                    maker.put("_");
                    continue;
                }
                let name = maker.fresh_local();
                maker.put(name.clone());
                maker.scope.push(Local { name, ty, consumed: false });
            }
        });
    }

    /// An application with the wanted result, if there is a head for it.
    fn application(&mut self, ty: Type, size: usize) {
        if let Type::Data(datatype) = ty
            && self.random.percent(60)
        {
            let own = self.constructors.iter().enumerate().filter(|(_, c)| c.datatype == datatype);
            let own: Vec<usize> = own.map(|(number, _)| number).collect();
            let constructor = *self.random.pick(&own);
            return self.construct(constructor, size);
        }
        let locals = self.scope.iter().map(|local| local.ty);
        let limit = if self.random.percent(95) { self.own } else { self.functions.len() };
        let functions = self.functions[..limit].iter().chain(&self.vals).map(|function| function.ty);
        let heads = functions.chain(locals).filter(|&head| self.types.parts(head).is_some_and(|(_, r)| r == ty));
        let heads: Vec<Type> = heads.collect();
        if heads.is_empty() {
            return self.small(ty);
        }
        let head = *self.random.pick(&heads);
        let (parameters, _) = self.parts(head);
        self.list(|maker| {
            if maker.random.percent(10) && size > 4 {
                maker.expression(head, size / 4);
            } else {
                maker.small(head);
            }
            maker.arguments(&parameters, size);
        });
    }

    // Layout.

    fn lay_out(&mut self, definitions: Vec<Definition>) -> Vec<u8> {
        let mut text = String::new();
        for definition in definitions {
            for (number, token) in definition.tokens.iter().enumerate() {
                let touches = number == 0 || text.ends_with(['(', '[']) || matches!(token.as_str(), ")" | "]");
                match self.random.below(60) {
                    0 => text.push_str("\n  "),
                    1 => text.push('\t'),
                    2 if number > 0 => text.push_str(" ; it's (\n"),
                    3..10 if number > 0 && touches => text.push(' '),
                    _ if touches => {}
                    _ => text.push(' '),
                }
                text.push_str(token);
            }
            text.push_str(self.random.word(&["\n", "\n\n", "", " ", "\r\n"]));
        }
        text.into_bytes()
    }
}

fn is_data(ty: Type) -> bool {
    matches!(ty, Type::Data(_))
}
