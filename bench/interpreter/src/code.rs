//! A script's code: one operation for each step of a run.
//!
//! A step enters an expression or hands a finished value to the expression that waits for it. Which part has finished
//! is known from where the operation stands, so a waiting expression takes an entry of the first stack and notes
//! nothing there, but for calls. Offsets of entries on the second stack are known too: they count from the first entry
//! of the running function.

use crate::basis::{BASIS, Basis};

/// An offset from the first entry of the running function on the second stack.
pub type Offset = u16;
/// The number of an operation. There are at most three for each of 4,096 nodes, and one for each define and val.
pub type At = u16;

#[derive(Clone, Copy, Debug)]
pub enum Op {
    /// The first step: the call of `main`.
    Main {
        entry: At,
    },
    /// Behind the call of `main`. Not a step: the run has ended.
    Ended,

    // Entering an expression that finishes at once.
    Int(i32),
    Sym(u32),
    Function(u16),
    False,
    True,
    Unit,
    /// A local name, bare or under `dup`, that holds no data.
    Local(Offset),
    /// A local name that holds data, which leaves it.
    Leave(Offset),
    /// `dup` of a local name that holds data.
    Copy(Offset),
    /// A constructor without fields.
    Constant {
        constructor: u16,
    },

    // Entering an expression that waits.
    /// An `if`, `begin`, `let`, `case` or application.
    Wait,
    /// The name of a val: its expression runs over the entries from an offset on.
    Val {
        entry: At,
        above: Offset,
    },

    // Handing a value to the expression that waits for it.
    /// The test of an `if`.
    Test {
        otherwise: At,
    },
    /// A part of a `begin`, not the last.
    Part,
    /// A `let`'s value or an application's argument, not the last: held in the entry at the offset.
    Hold(Offset),
    /// A `case`'s tested value.
    Select {
        table: u32,
        first_constructor: u16,
    },
    /// The last part's value, where no data may be left in names.
    Done {
        next: At,
    },
    /// The last part's value; the names from the first to the last offset are dropped where they still hold data.
    Drop {
        first: Offset,
        behind: Offset,
        next: At,
    },
    /// The body's value of a define or val; so many parameters are dropped where they still hold data.
    Return {
        parameters: Offset,
    },
    /// A head that is a function's name.
    Head,
    /// Any other head: the application keeps the function.
    KeepHead,

    // The same, and the call is made. The offset is that of the first argument.
    /// A constructor with fields.
    Build {
        constructor: u16,
        first: Offset,
        used: u8,
    },
    Call {
        entry: At,
        first: Offset,
        arguments: u8,
    },
    CallNone {
        entry: At,
        above: Offset,
    },
    BasisTwo {
        function: Basis,
        first: Offset,
    },
    BasisOne {
        function: Basis,
        first: Offset,
    },
    BasisNone {
        function: Basis,
    },
    /// The function that the application keeps.
    CallKept {
        first: Offset,
        arguments: u8,
    },
    /// A function without parameters, from a head that is no function's name.
    CallHead {
        above: Offset,
    },
}

/// What an operation belongs to.
#[derive(Clone, Copy, Debug)]
pub struct About {
    /// The place of the expression that the step enters or hands to; not for [`Op::Return`], whose step hands to a call.
    pub place: u32,
    /// The define or val that this lies in, by its name's number.
    pub owner: u32,
    /// How many entries the running function has on the second stack before the step.
    pub height: Offset,
    /// Whether a finished value is at hand before the step.
    pub hands: bool,
}

/// What a branch does with a cell that it fits.
#[derive(Clone, Copy, Debug)]
pub struct Branch {
    pub entry: At,
    /// The entry of the first named field.
    pub first: Offset,
    /// The named fields, a bit for each.
    pub named: u8,
    /// The fields under `_` that hold data.
    pub dropped: u8,
    /// A bare `_`, which drops the whole value.
    pub whole: bool,
}

/// A script that is checked and may run.
pub struct Code<'t> {
    pub text: &'t [u8],
    pub ops: Vec<Op>,
    /// For each operation.
    pub about: Vec<About>,
    /// Where each define's code begins, in text order.
    pub entries: Vec<At>,
    pub branches: Vec<Branch>,
    /// For each `case` and each constructor of its datatype the branch that fits.
    pub tables: Vec<Option<u32>>,
    /// The names of defines and vals, by number.
    pub owners: Vec<&'t [u8]>,
}

impl Code<'_> {
    /// Where a define's code begins, by the number of its function.
    pub fn entry(&self, function: u32) -> At {
        self.entries[function as usize - BASIS.len()]
    }
}
