//! The proved runner as a host in Rust sees it: two functions of its static library.

/// What a run is lent.
#[repr(C)]
#[derive(Clone, Copy, Debug)]
pub struct Sizes {
    /// Entries of the node list; no script needs more than 4,096.
    pub nodes: u32,
    pub cells: u32,
    /// Entries of the stack of waiting expressions.
    pub first: u32,
    /// Entries of the stack of names and arguments.
    pub second: u32,
    /// Steps.
    pub allowance: u32,
}

/// What the program `rule` lends.
pub const RULE: Sizes = Sizes { nodes: 4096, cells: 1000, first: 1000, second: 1000, allowance: 1_000_000 };

/// The numbers as the library writes them.
#[repr(C)]
#[derive(Clone, Copy, Debug, Default)]
struct Answer {
    kind: u32,
    number: u32,
    place: u32,
    basis: u32,
    name: u32,
    name_size: u32,
    steps: u32,
    bytes: u32,
    taken: u64,
    given_back: u64,
}

unsafe extern "C" {
    // a slice crosses as a pointer and a length
    fn tosspear_check(text: *const u8, size: usize, answer: *mut Answer);
    fn tosspear_run(
        text: *const u8,
        text_size: usize,
        input: *const u8,
        input_size: usize,
        out: *mut u8,
        out_size: usize,
        sizes: *const Sizes,
        answer: *mut Answer,
    );
}

/// The function that a fault names.
#[derive(Clone, Copy, Debug, PartialEq, Eq)]
pub enum Named<'t> {
    /// One of the basis, by its number.
    Basis(u32),
    /// A define or val, by its name in the text.
    Text(&'t [u8]),
}

/// Why there is no run, or none to its end.
#[derive(Clone, Copy, Debug, PartialEq, Eq)]
pub enum Ending<'t> {
    Ended,
    Faulted { number: u32, place: u32, named: Named<'t> },
    /// The next print did not fit.
    OutputFull,
}

#[derive(Clone, Copy, Debug, PartialEq, Eq)]
pub struct Refused {
    pub number: u32,
    pub place: u32,
}

/// No memory was left on the heap.
#[derive(Clone, Copy, Debug, PartialEq, Eq)]
pub struct NoMemory;

/// A run that is closed.
#[derive(Clone, Copy, Debug, PartialEq, Eq)]
pub struct Closed<'t> {
    pub ending: Ending<'t>,
    /// How many bytes were printed.
    pub bytes: usize,
    pub steps: u32,
    pub taken: u64,
    pub given_back: u64,
}

impl Answer {
    fn refused(self) -> Refused {
        Refused { number: self.number, place: self.place }
    }

    fn named(self, text: &[u8]) -> Named<'_> {
        match self.basis {
            0 => Named::Text(&text[self.name as usize..][..self.name_size as usize]),
            _ => Named::Basis(self.name),
        }
    }

    fn closed(self, text: &[u8]) -> Closed<'_> {
        let ending = match self.kind {
            2 => Ending::Ended,
            3 => Ending::Faulted { number: self.number, place: self.place, named: self.named(text) },
            _ => Ending::OutputFull,
        };
        let Answer { bytes, steps, taken, given_back, .. } = self;
        Closed { ending, bytes: bytes as usize, steps, taken, given_back }
    }
}

/// Reads and checks a script.
pub fn check(text: &[u8]) -> Result<Result<(), Refused>, NoMemory> {
    let mut answer = Answer::default();
    // SAFETY: the text is read, and the answer written, while the call lasts.
    unsafe { tosspear_check(text.as_ptr(), text.len(), &mut answer) };
    match answer.kind {
        0 => Ok(Ok(())),
        1 => Ok(Err(answer.refused())),
        _ => Err(NoMemory),
    }
}

/// Runs a script over an input. What it prints goes to the front of the slice.
pub fn run<'t>(
    text: &'t [u8],
    input: &[u8],
    out: &mut [u8],
    sizes: Sizes,
) -> Result<Result<Closed<'t>, Refused>, NoMemory> {
    let mut answer = Answer::default();
    // SAFETY: text, input and sizes are read, and output and answer written, while the call lasts.
    unsafe {
        tosspear_run(
            text.as_ptr(),
            text.len(),
            input.as_ptr(),
            input.len(),
            out.as_mut_ptr(),
            out.len(),
            &sizes,
            &mut answer,
        )
    };
    match answer.kind {
        1 => Ok(Err(answer.refused())),
        5 => Err(NoMemory),
        _ => Ok(Ok(answer.closed(text))),
    }
}
