//! Why a text is refused, and where.

/// The refusals of reading and checking, each with its number.
#[derive(Clone, Copy, Debug, PartialEq, Eq)]
#[repr(u8)]
pub enum Refusal {
    /// A symbol is not closed, or wrongly escaped.
    Symbol = 1,
    /// An integer is outside 32 bits signed.
    Integer = 2,
    /// A closing bracket is missing, or does not match.
    Bracket = 3,
    /// A form, or a token that cannot stand there.
    Form = 4,
    /// A limit is passed.
    Limit = 5,
    /// A name is bound or annotated twice, or not fresh.
    Twice = 6,
    /// A name is unknown.
    Unknown = 7,
    /// A define without annotation, or the reverse.
    Unpaired = 8,
    /// Types or numbers of parts do not fit.
    Type = 9,
    /// A name is used again after it was consumed.
    Consumed = 10,
    /// There is no define `main` of type `(-> () unit)`.
    Main = 11,
    /// The node list is shorter than the script needs.
    NodeList = 21,
}

/// A refusal and its place, the offset of a byte in the text.
#[derive(Clone, Copy, Debug, PartialEq, Eq)]
pub struct Refused {
    pub refusal: Refusal,
    pub place: u32,
}

impl Refused {
    pub fn number(self) -> u8 {
        self.refusal as u8
    }
}

impl Refusal {
    /// The refusal at a place, as the answer of a function.
    pub fn at<T>(self, place: u32) -> Result<T, Refused> {
        Err(Refused { refusal: self, place })
    }
}
