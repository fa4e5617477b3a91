//! The 33 functions that every script knows.

use crate::cells::Value;
use crate::types::Type;

/// A function of the basis. Its number, the number of its value, is its place in [`BASIS`].
#[derive(Clone, Copy, Debug, PartialEq, Eq)]
#[repr(u8)]
pub enum Basis {
    EqualInts,
    EqualBools,
    EqualSyms,
    EqualUnits,
    Add,
    Subtract,
    Multiply,
    Divide,
    Remainder,
    UnsignedDivide,
    UnsignedRemainder,
    Negate,
    Greater,
    Less,
    GreaterOrEqual,
    LessOrEqual,
    Not,
    And,
    Or,
    Xor,
    BitAnd,
    BitOr,
    BitXor,
    ShiftLeft,
    ShiftRight,
    BitNot,
    PrintInt,
    PrintBool,
    PrintSym,
    PrintUnit,
    PrintNewline,
    PrintAscii,
    Input,
}

use Basis::*;

pub const BASIS: [Basis; 33] = [
    EqualInts,
    EqualBools,
    EqualSyms,
    EqualUnits,
    Add,
    Subtract,
    Multiply,
    Divide,
    Remainder,
    UnsignedDivide,
    UnsignedRemainder,
    Negate,
    Greater,
    Less,
    GreaterOrEqual,
    LessOrEqual,
    Not,
    And,
    Or,
    Xor,
    BitAnd,
    BitOr,
    BitXor,
    ShiftLeft,
    ShiftRight,
    BitNot,
    PrintInt,
    PrintBool,
    PrintSym,
    PrintUnit,
    PrintNewline,
    PrintAscii,
    Input,
];

impl Basis {
    pub fn from_number(number: u32) -> Option<Basis> {
        BASIS.get(number as usize).copied()
    }

    pub fn name(self) -> &'static str {
        match self {
            EqualInts => "=i",
            EqualBools => "=b",
            EqualSyms => "=s",
            EqualUnits => "=u",
            Add => "+",
            Subtract => "-",
            Multiply => "*",
            Divide => "/",
            Remainder => "%",
            UnsignedDivide => "udiv",
            UnsignedRemainder => "umod",
            Negate => "neg",
            Greater => ">",
            Less => "<",
            GreaterOrEqual => ">=",
            LessOrEqual => "<=",
            Not => "not",
            And => "and",
            Or => "or",
            Xor => "xor",
            BitAnd => "&",
            BitOr => "|",
            BitXor => "^",
            ShiftLeft => "<<",
            ShiftRight => ">>",
            BitNot => "~",
            PrintInt => "print-int",
            PrintBool => "print-bool",
            PrintSym => "print-sym",
            PrintUnit => "print-unit",
            PrintNewline => "print-newline",
            PrintAscii => "print-ascii",
            Input => "in",
        }
    }

    /// The types of the parameters and of the result.
    pub fn signature(self) -> (&'static [Type], Type) {
        use Type::{Bool, Int, Sym, Unit};
        match self {
            EqualInts | Greater | Less | GreaterOrEqual | LessOrEqual => (&[Int, Int], Bool),
            EqualBools | And | Or | Xor => (&[Bool, Bool], Bool),
            EqualSyms => (&[Sym, Sym], Bool),
            EqualUnits => (&[Unit, Unit], Bool),
            Add | Subtract | Multiply | Divide | Remainder | UnsignedDivide | UnsignedRemainder => (&[Int, Int], Int),
            BitAnd | BitOr | BitXor | ShiftLeft | ShiftRight => (&[Int, Int], Int),
            Negate | BitNot => (&[Int], Int),
            Not => (&[Bool], Bool),
            PrintInt | PrintAscii => (&[Int], Unit),
            PrintBool => (&[Bool], Unit),
            PrintSym => (&[Sym], Unit),
            PrintUnit => (&[Unit], Unit),
            PrintNewline => (&[], Unit),
            Input => (&[], Int),
        }
    }
}

/// Why a call has no result.
#[derive(Clone, Copy, Debug, PartialEq, Eq)]
pub enum NoResult {
    ZeroDivisor,
    BadShift,
    /// The arguments have other types. A checked script never comes here.
    Mismatch,
}

/// The functions of two arguments.
#[inline(always)]
pub fn call_two(function: Basis, first: Value, second: Value) -> Result<Value, NoResult> {
    if let (Value::Int(a), Value::Int(b)) = (first, second) {
        return ints(function, a, b);
    }
    if let (Some(a), Some(b)) = (first.as_bool(), second.as_bool()) {
        return bools(function, a, b);
    }
    match (function, first, second) {
        (EqualSyms, Value::Sym(a), Value::Sym(b)) => Ok(Value::truth(a == b)),
        (EqualUnits, Value::Unit, Value::Unit) => Ok(Value::True),
        _ => Err(NoResult::Mismatch),
    }
}

fn bools(function: Basis, a: bool, b: bool) -> Result<Value, NoResult> {
    match function {
        EqualBools => Ok(Value::truth(a == b)),
        And => Ok(Value::truth(a && b)),
        Or => Ok(Value::truth(a || b)),
        Xor => Ok(Value::truth(a != b)),
        _ => Err(NoResult::Mismatch),
    }
}

#[inline(always)]
fn ints(function: Basis, a: i32, b: i32) -> Result<Value, NoResult> {
    use Value::Int;
    Ok(match function {
        EqualInts => Value::truth(a == b),
        Add => Int(a.wrapping_add(b)),
        Subtract => Int(a.wrapping_sub(b)),
        Multiply => Int(a.wrapping_mul(b)),
        Divide if b != 0 => Int(a.wrapping_div(b)),
        Remainder if b != 0 => Int(a.wrapping_rem(b)),
        UnsignedDivide if b != 0 => Int((a as u32 / b as u32) as i32),
        UnsignedRemainder if b != 0 => Int((a as u32 % b as u32) as i32),
        Divide | Remainder | UnsignedDivide | UnsignedRemainder => return Err(NoResult::ZeroDivisor),
        Greater => Value::truth(a > b),
        Less => Value::truth(a < b),
        GreaterOrEqual => Value::truth(a >= b),
        LessOrEqual => Value::truth(a <= b),
        BitAnd => Int(a & b),
        BitOr => Int(a | b),
        BitXor => Int(a ^ b),
        ShiftLeft if (0..32).contains(&b) => Int(a << b),
        ShiftRight if (0..32).contains(&b) => Int(a >> b),
        ShiftLeft | ShiftRight => return Err(NoResult::BadShift),
        _ => return Err(NoResult::Mismatch),
    })
}

/// The functions of one argument that print nothing.
pub fn call_one(function: Basis, argument: Value) -> Result<Value, NoResult> {
    match (function, argument) {
        (Negate, Value::Int(a)) => Ok(Value::Int(a.wrapping_neg())),
        (BitNot, Value::Int(a)) => Ok(Value::Int(!a)),
        (Not, Value::False) => Ok(Value::True),
        (Not, Value::True) => Ok(Value::False),
        _ => Err(NoResult::Mismatch),
    }
}

/// Whether a function prints.
pub fn prints(function: Basis) -> bool {
    matches!(function, PrintInt | PrintBool | PrintSym | PrintUnit | PrintNewline | PrintAscii)
}

/// An output slice: bytes as they come, up to a number of them.
pub struct Output {
    pub bytes: Vec<u8>,
    pub room: usize,
}

impl Output {
    /// Puts bytes behind those that are there, if all of them fit.
    fn put(&mut self, bytes: &[u8]) -> bool {
        let fits = bytes.len() <= self.room - self.bytes.len();
        if fits {
            self.bytes.extend_from_slice(bytes);
        }
        fits
    }
}

/// Prints: false if it does not fit. The text is the one that the symbols stand in.
pub fn print(function: Basis, argument: Value, text: &[u8], output: &mut Output) -> Result<bool, NoResult> {
    Ok(match (function, argument) {
        (PrintInt, Value::Int(a)) => output.put(a.to_string().as_bytes()),
        (PrintAscii, Value::Int(a)) => output.put(&[a as u8]),
        (PrintBool, Value::False) => output.put(b"false"),
        (PrintBool, Value::True) => output.put(b"true"),
        (PrintUnit, Value::Unit) => output.put(b"unit"),
        (PrintNewline, _) => output.put(b"\n"),
        (PrintSym, Value::Sym(quote)) => output.put(&symbol(text.get(quote as usize + 1..).unwrap_or(&[]))),
        _ => return Err(NoResult::Mismatch),
    })
}

/// What stands before the quote that ends it, each escape without its backslash.
fn symbol(literal: &[u8]) -> Vec<u8> {
    let mut bytes = literal.iter();
    let mut symbol = Vec::new();
    while let Some(&byte) = bytes.next() {
        match byte {
            b'\'' => break,
            b'\\' => symbol.extend(bytes.next()),
            _ => symbol.push(byte),
        }
    }
    symbol
}
