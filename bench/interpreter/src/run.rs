//! A run: the code's operations, one a step, over a store of cells and two stacks of fixed sizes.

use crate::basis::{self, Basis, NoResult, Output};
use crate::cells::{CellStore, FIELDS, Record, StoreRefusal, Value};
use crate::code::{About, At, Code, Offset, Op};
use crate::walks::{Work, copy_value, drop_value};

/// The most steps that an allowance counts as.
pub const ALLOWANCE_LIMIT: u32 = 1_000_000_000;

/// The numbers of faults.
#[derive(Clone, Copy, Debug, PartialEq, Eq)]
#[repr(u8)]
pub enum FaultKind {
    NoBranch = 31,
    ZeroDivisor = 32,
    BadShift = 33,
    TooFewCells = 34,
    StackFull = 35,
    /// Met only if the store was changed behind the run's back.
    Stuck = 36,
    AllowanceSpent = 37,
}

/// Why a run stopped for good: the place of the expression that the step enters or hands to, and a function's name.
#[derive(Clone, Copy, Debug, PartialEq, Eq)]
pub struct Fault<'c> {
    pub kind: FaultKind,
    pub place: u32,
    pub name: &'c [u8],
}

/// How an advance ends.
#[derive(Clone, Copy, Debug, PartialEq, Eq)]
pub enum End<'c> {
    Ended,
    Faulted(Fault<'c>),
    Paused,
    OutputFull,
}

/// The answer of an advance: its end, and its own steps.
#[derive(Clone, Copy, Debug, PartialEq, Eq)]
pub struct Advanced<'c> {
    pub end: End<'c>,
    pub steps: u32,
}

/// The whole run's counts.
#[derive(Clone, Copy, Debug, PartialEq, Eq)]
pub struct Closed {
    pub steps: u32,
    pub taken: u64,
    pub given_back: u64,
}

/// How much memory and time a run gets.
#[derive(Clone, Copy, Debug, PartialEq, Eq)]
pub struct Sizes {
    pub first_stack: usize,
    pub second_stack: usize,
    pub allowance: u32,
}

/// An entry of the first stack. Only calls note something there.
#[derive(Clone, Copy, Default)]
struct Frame {
    /// Where the caller goes on. The operation before that is the call.
    back: At,
    /// The caller's first entry on the second stack.
    base: u32,
    /// The function that an application keeps until its call.
    function: u32,
}

/// Why a step was not taken, or no step is left.
enum Stop {
    Ended,
    OutputFull,
    Fault(FaultKind),
    /// A call of a basis function that has no result.
    NoResult(NoResult, Basis),
}

use FaultKind::*;

impl From<StoreRefusal> for Stop {
    fn from(refusal: StoreRefusal) -> Self {
        match refusal {
            StoreRefusal::NoFreeCell => Stop::Fault(TooFewCells),
            StoreRefusal::DeadCell => Stop::Fault(Stuck),
        }
    }
}

/// Where a run stands between two steps, but for its stacks.
#[derive(Clone, Copy)]
struct State<'c> {
    /// The next operation.
    at: At,
    /// The running function's first entry on the second stack.
    base: usize,
    /// How many entries of the first stack are in use.
    depth: usize,
    /// The value just finished.
    value: Value,
    input: &'c [u8],
    taken: u64,
    given_back: u64,
}

pub struct Run<'c, 't> {
    code: &'c Code<'t>,
    frames: Vec<Frame>,
    entries: Vec<Option<Value>>,
    work: Work,
    allowance: u32,
    steps: u32,
    fault: Option<Fault<'c>>,
    state: State<'c>,
}

impl<'c, 't> Run<'c, 't> {
    pub fn open(code: &'c Code<'t>, input: &'c [u8], sizes: Sizes) -> Self {
        Run {
            code,
            frames: vec![Frame::default(); sizes.first_stack],
            entries: vec![None; sizes.second_stack],
            work: Work::new(),
            allowance: sizes.allowance.min(ALLOWANCE_LIMIT),
            steps: 0,
            fault: None,
            state: State { at: 0, base: 0, depth: 0, value: Value::Unit, input, taken: 0, given_back: 0 },
        }
    }

    /// Takes at most so many steps.
    pub fn advance<S: CellStore>(&mut self, store: &mut S, output: &mut Output, count: u32) -> Advanced<'c> {
        if let Some(fault) = self.fault {
            return Advanced { end: End::Faulted(fault), steps: 0 };
        }
        let limit = count.min(self.allowance - self.steps);
        let (steps, stop) = self.go(store, output, limit);
        self.steps += steps;
        let end = match stop {
            Some(Stop::Ended) => End::Ended,
            Some(Stop::OutputFull) => End::OutputFull,
            Some(Stop::Fault(kind)) => self.fault(kind, None),
            Some(Stop::NoResult(NoResult::ZeroDivisor, function)) => self.fault(ZeroDivisor, Some(function)),
            Some(Stop::NoResult(NoResult::BadShift, function)) => self.fault(BadShift, Some(function)),
            Some(Stop::NoResult(NoResult::Mismatch, _)) => self.fault(Stuck, None),
            None if self.has_ended() => End::Ended,
            None if steps == count => End::Paused,
            None => self.fault(AllowanceSpent, None),
        };
        Advanced { end, steps }
    }

    /// Drops all that is held, and answers the counts.
    pub fn close<S: CellStore>(mut self, store: &mut S) -> Closed {
        let State { at, base, value, taken, mut given_back, .. } = self.state;
        let About { height, hands, .. } = self.code.about[at as usize];
        let mut held = self.entries;
        held.truncate(base + height as usize);
        held.push(hands.then_some(value));
        for value in held.into_iter().flatten() {
            given_back += u64::from(drop_value(store, value, &mut self.work).unwrap_or(0));
        }
        Closed { steps: self.steps, taken, given_back }
    }

    fn has_ended(&self) -> bool {
        matches!(self.code.ops[self.state.at as usize], Op::Ended)
    }

    fn fault(&mut self, kind: FaultKind, function: Option<Basis>) -> End<'c> {
        // The value of a body is handed to the call, which stands before the place to go back to.
        let step = match self.code.ops[self.state.at as usize] {
            Op::Return { .. } => self.frames[self.state.depth - 1].back - 1,
            _ => self.state.at,
        };
        let About { place, owner, .. } = self.code.about[step as usize];
        let owner: &'c [u8] = self.code.owners[owner as usize];
        let fault = Fault { kind, place, name: function.map_or(owner, |function| function.name().as_bytes()) };
        self.fault = Some(fault);
        End::Faulted(fault)
    }

    /// Takes steps up to the limit, and answers how many it took and why it took no more, if not for the limit.
    fn go<S: CellStore>(&mut self, store: &mut S, output: &mut Output, limit: u32) -> (u32, Option<Stop>) {
        let mut machine = Machine {
            ops: &self.code.ops,
            code: self.code,
            frames: &mut self.frames,
            entries: &mut self.entries,
            work: &mut self.work,
            store,
            output,
            state: self.state,
            left: limit,
        };
        let stop = machine.go().err();
        self.state = machine.state;
        (limit - machine.left, stop)
    }
}

/// Takes the steps. What changes from step to step lies in one place, where the compiler can keep it in registers.
struct Machine<'m, 'c, 't, S> {
    ops: &'c [Op],
    code: &'c Code<'t>,
    frames: &'m mut [Frame],
    entries: &'m mut [Option<Value>],
    work: &'m mut Work,
    store: &'m mut S,
    output: &'m mut Output,
    state: State<'c>,
    /// How many steps may still be taken.
    left: u32,
}

impl<S: CellStore> Machine<'_, '_, '_, S> {
    /// Takes steps up to the limit. A step that stops leaves what the run holds as it was, and is not counted.
    fn go(&mut self) -> Result<(), Stop> {
        while self.left > 0 {
            match self.ops[self.state.at as usize] {
                Op::Main { entry } => {
                    self.wait()?;
                    self.call(entry, 0);
                }
                Op::Ended => return Err(Stop::Ended),
                Op::Int(value) => self.finish(Value::Int(value)),
                Op::Sym(first) => self.finish(Value::Sym(first)),
                Op::Function(number) => self.finish(Value::Function(u32::from(number))),
                Op::False => self.finish(Value::False),
                Op::True => self.finish(Value::True),
                Op::Unit => self.finish(Value::Unit),
                Op::Local(offset) => {
                    let value = self.held(offset)?;
                    self.finish(value);
                }
                Op::Leave(offset) => {
                    let data = self.entry(offset)?.take().ok_or(Stop::Fault(Stuck))?;
                    self.finish(data);
                }
                Op::Copy(offset) => {
                    let value = self.held(offset)?;
                    let (copy, count) = copy_value(self.store, value, self.work)?;
                    self.state.taken += u64::from(count);
                    self.finish(copy);
                }
                Op::Constant { constructor } => {
                    let data = self.take(Record { constructor, used: 0, fields: [Value::Unit; FIELDS] })?;
                    self.finish(data);
                }
                Op::Wait => {
                    self.wait()?;
                    self.go_on();
                }
                Op::Val { entry, above } => {
                    self.wait()?;
                    self.call(entry, above);
                }
                Op::Test { otherwise } => match self.state.value {
                    Value::True => self.go_on(),
                    Value::False => self.go_on_at(otherwise),
                    _ => return Err(Stop::Fault(Stuck)),
                },
                Op::Part => {
                    self.drop_data(self.state.value)?;
                    self.go_on();
                }
                Op::Hold(offset) => {
                    *self.entry(offset)? = Some(self.state.value);
                    self.go_on();
                }
                Op::Select { table, first_constructor } => self.select(table, first_constructor)?,
                Op::Done { next } => {
                    self.state.depth -= 1;
                    self.go_on_at(next);
                }
                Op::Drop { first, behind, next } => {
                    self.drop_names(first, behind)?;
                    self.state.depth -= 1;
                    self.go_on_at(next);
                }
                Op::Return { parameters } => {
                    self.drop_names(0, parameters)?;
                    self.state.depth -= 1;
                    let Frame { back, base, .. } = self.frames[self.state.depth];
                    self.state.base = base as usize;
                    self.go_on_at(back);
                }
                Op::Head => self.go_on(),
                Op::KeepHead => {
                    self.frames[self.state.depth - 1].function = self.function()?;
                    self.go_on();
                }
                Op::Build { constructor, first, used } => self.build(constructor, first, used)?,
                Op::Call { entry, first, arguments } => {
                    *self.entry(last(first, arguments))? = Some(self.state.value);
                    self.call(entry, first);
                }
                Op::CallNone { entry, above } => self.call(entry, above),
                Op::BasisTwo { function, first } => self.basis_two(function, first)?,
                Op::BasisOne { function, first } => self.basis_one(function, first)?,
                Op::BasisNone { function } => self.basis_none(function)?,
                Op::CallKept { first, arguments } => {
                    let function = self.frames[self.state.depth - 1].function;
                    match (Basis::from_number(function), arguments) {
                        (Some(function), 1) => self.basis_one(function, first)?,
                        (Some(function), _) => self.basis_two(function, first)?,
                        (None, _) => {
                            *self.entry(last(first, arguments))? = Some(self.state.value);
                            self.call(self.code.entry(function), first);
                        }
                    }
                }
                Op::CallHead { above } => {
                    let function = self.function()?;
                    match Basis::from_number(function) {
                        Some(function) => self.basis_none(function)?,
                        None => self.call(self.code.entry(function), above),
                    }
                }
            }
            self.left -= 1;
        }
        Ok(())
    }

    #[inline(always)]
    fn go_on(&mut self) {
        self.state.at += 1;
    }

    #[inline(always)]
    fn go_on_at(&mut self, at: At) {
        self.state.at = at;
    }

    #[inline(always)]
    fn finish(&mut self, value: Value) {
        self.state.value = value;
        self.go_on();
    }

    /// An application is done, with this value.
    #[inline(always)]
    fn finish_call(&mut self, value: Value) {
        self.state.depth -= 1;
        self.finish(value);
    }

    /// One more expression waits.
    #[inline(always)]
    fn wait(&mut self) -> Result<(), Stop> {
        if self.state.depth == self.frames.len() {
            return Err(Stop::Fault(StackFull));
        }
        self.state.depth += 1;
        Ok(())
    }

    /// An entry that a step needs.
    #[inline(always)]
    fn entry(&mut self, offset: Offset) -> Result<&mut Option<Value>, Stop> {
        self.entries.get_mut(self.state.base + offset as usize).ok_or(Stop::Fault(StackFull))
    }

    /// The value in an entry that is full.
    #[inline(always)]
    fn held(&self, offset: Offset) -> Result<Value, Stop> {
        match self.entries.get(self.state.base + offset as usize) {
            Some(&Some(value)) => Ok(value),
            _ => Err(Stop::Fault(Stuck)),
        }
    }

    /// The function at hand.
    #[inline(always)]
    fn function(&self) -> Result<u32, Stop> {
        match self.state.value {
            Value::Function(function) => Ok(function),
            _ => Err(Stop::Fault(Stuck)),
        }
    }

    /// The newest waiting expression is a call; the function's entries begin at the offset.
    #[inline(always)]
    fn call(&mut self, entry: At, first: Offset) {
        let frame = &mut self.frames[self.state.depth - 1];
        frame.back = self.state.at + 1;
        frame.base = self.state.base as u32;
        self.state.base += first as usize;
        self.go_on_at(entry);
    }

    #[inline(always)]
    fn take(&mut self, record: Record) -> Result<Value, Stop> {
        let cell = self.store.take(record)?;
        self.state.taken += 1;
        Ok(Value::Cell(cell))
    }

    #[inline(always)]
    fn drop_data(&mut self, value: Value) -> Result<(), Stop> {
        if let Value::Cell(_) = value {
            self.state.given_back += u64::from(drop_value(self.store, value, self.work)?);
        }
        Ok(())
    }

    /// Drops what the names between two offsets still hold.
    #[inline(always)]
    fn drop_names(&mut self, first: Offset, behind: Offset) -> Result<(), Stop> {
        for offset in first..behind {
            if let Some(name) = *self.entry(offset)? {
                self.drop_data(name)?;
            }
        }
        Ok(())
    }

    /// Hands a tested value to its `case`.
    #[inline(always)]
    fn select(&mut self, table: u32, first_constructor: u16) -> Result<(), Stop> {
        let Value::Cell(cell) = self.state.value else { return Err(Stop::Fault(Stuck)) };
        let record = self.store.read(cell)?;
        let place = table as usize + record.constructor.wrapping_sub(first_constructor) as usize;
        let number = self.code.tables[place].ok_or(Stop::Fault(NoBranch))?;
        let branch = self.code.branches[number as usize];
        if branch.whole {
            self.drop_data(self.state.value)?;
            self.go_on_at(branch.entry);
            return Ok(());
        }
        let first = self.state.base + branch.first as usize;
        let names = self.entries.get_mut(first..first + branch.named.count_ones() as usize);
        let mut names = names.ok_or(Stop::Fault(StackFull))?.iter_mut();
        let mut dropped = [Value::Unit; FIELDS];
        for (index, &field) in record.used_fields().iter().enumerate() {
            if branch.named & (1 << index) != 0 {
                names.by_ref().take(1).for_each(|name| *name = Some(field));
            } else if branch.dropped & (1 << index) != 0 {
                dropped[index] = field;
            }
        }
        self.store.give_back(cell)?;
        self.state.given_back += 1;
        if branch.dropped != 0 {
            for field in dropped {
                self.drop_data(field)?;
            }
        }
        self.go_on_at(branch.entry);
        Ok(())
    }

    /// Hands the last field to a constructor.
    #[inline(always)]
    fn build(&mut self, constructor: u16, first: Offset, used: u8) -> Result<(), Stop> {
        *self.entry(last(first, used))? = Some(self.state.value);
        let mut fields = [Value::Unit; FIELDS];
        let held = &self.entries[self.state.base + first as usize..][..used as usize];
        for (field, value) in fields.iter_mut().zip(held) {
            *field = value.ok_or(Stop::Fault(Stuck))?;
        }
        let data = self.take(Record { constructor, used, fields })?;
        self.finish_call(data);
        Ok(())
    }

    #[inline(always)]
    fn basis_two(&mut self, function: Basis, first: Offset) -> Result<(), Stop> {
        self.entry(first + 1)?;
        let argument = self.held(first)?;
        match basis::call_two(function, argument, self.state.value) {
            Ok(result) => self.finish_call(result),
            Err(why) => return Err(Stop::NoResult(why, function)),
        }
        Ok(())
    }

    #[inline(always)]
    fn basis_one(&mut self, function: Basis, first: Offset) -> Result<(), Stop> {
        self.entry(first)?;
        if basis::prints(function) {
            return self.print(function);
        }
        match basis::call_one(function, self.state.value) {
            Ok(result) => self.finish_call(result),
            Err(why) => return Err(Stop::NoResult(why, function)),
        }
        Ok(())
    }

    #[inline(always)]
    fn basis_none(&mut self, function: Basis) -> Result<(), Stop> {
        if basis::prints(function) {
            return self.print(function);
        }
        let next = self.state.input.split_first();
        let byte = next.map_or(-1, |(&byte, _)| i32::from(byte));
        self.state.input = next.map_or(&[], |(_, rest)| rest);
        self.finish_call(Value::Int(byte));
        Ok(())
    }

    /// A print goes out whole or not at all.
    #[inline(always)]
    fn print(&mut self, function: Basis) -> Result<(), Stop> {
        match basis::print(function, self.state.value, self.code.text, self.output) {
            Ok(true) => self.finish_call(Value::Unit),
            Ok(false) => return Err(Stop::OutputFull),
            Err(why) => return Err(Stop::NoResult(why, function)),
        }
        Ok(())
    }
}

/// The offset of the last of several arguments.
fn last(first: Offset, arguments: u8) -> Offset {
    first + Offset::from(arguments) - 1
}
