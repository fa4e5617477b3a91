//! Cases with their answers, in the line format that `crates/scripts/data/README.md` describes.

use crate::cells::ChainStore;
use crate::prepare;
use crate::run::{Closed, End, Run, Sizes};
use crate::{basis::Output, text::TEXT_LIMIT};
use std::io::{self, Write};

/// A text, what is asked about it, and the answer.
#[derive(Clone, Debug, PartialEq, Eq)]
pub struct Case {
    pub text: Vec<u8>,
    pub question: Question,
}

#[derive(Clone, Debug, PartialEq, Eq)]
pub enum Question {
    /// Is it accepted, with a node list of so many entries?
    Check { nodes: usize, verdict: Verdict },
    /// What do these advances come to?
    Run { input: Vec<u8>, cells: usize, sizes: Sizes, advances: Vec<Advance>, close: Closed },
}

#[derive(Clone, Copy, Debug, PartialEq, Eq)]
pub enum Verdict {
    Accepted,
    Refused { number: u8, place: u32 },
}

/// An advance of so many steps with an output slice of so many bytes, and its answer.
#[derive(Clone, Debug, PartialEq, Eq)]
pub struct Advance {
    pub count: u32,
    pub room: usize,
    pub end: Ending,
    pub steps: u32,
    pub bytes: Vec<u8>,
}

/// [`End`] with a name of its own.
#[derive(Clone, Debug, PartialEq, Eq)]
pub enum Ending {
    Ended,
    Paused,
    Full,
    Fault { number: u8, place: u32, name: Vec<u8> },
}

impl Advance {
    /// An advance that is still to be answered.
    pub fn asked(count: u32, room: usize) -> Self {
        Advance { count, room, end: Ending::Paused, steps: 0, bytes: Vec::new() }
    }
}

impl From<End<'_>> for Ending {
    fn from(end: End) -> Self {
        match end {
            End::Ended => Ending::Ended,
            End::Paused => Ending::Paused,
            End::OutputFull => Ending::Full,
            End::Faulted(fault) => {
                Ending::Fault { number: fault.kind as u8, place: fault.place, name: fault.name.to_vec() }
            }
        }
    }
}

impl Case {
    /// The same case with this interpreter's answer. A text that is refused cannot run: its answer is the verdict.
    pub fn answered(&self) -> Case {
        let nodes = match self.question {
            Question::Check { nodes, .. } => nodes,
            Question::Run { .. } => crate::NODES,
        };
        let code = match prepare(&self.text, nodes) {
            Ok(code) => code,
            Err(refused) => {
                let verdict = Verdict::Refused { number: refused.number(), place: refused.place };
                return Case { text: self.text.clone(), question: Question::Check { nodes, verdict } };
            }
        };
        let question = match &self.question {
            Question::Check { .. } => Question::Check { nodes, verdict: Verdict::Accepted },
            Question::Run { input, cells, sizes, advances, .. } => {
                let mut store = ChainStore::new((*cells).min(TEXT_LIMIT));
                let mut run = Run::open(&code, input, *sizes);
                let advances = advances
                    .iter()
                    .map(|&Advance { count, room, .. }| {
                        let mut output = Output { bytes: Vec::new(), room };
                        let advanced = run.advance(&mut store, &mut output, count);
                        let end = advanced.end.into();
                        Advance { count, room, end, steps: advanced.steps, bytes: output.bytes }
                    })
                    .collect();
                let close = run.close(&mut store);
                Question::Run { input: input.clone(), cells: *cells, sizes: *sizes, advances, close }
            }
        };
        Case { text: self.text.clone(), question }
    }

    pub fn write(&self, out: &mut impl Write) -> io::Result<()> {
        write!(out, "text {}", self.text.len())?;
        block(out, &self.text)?;
        match &self.question {
            Question::Check { nodes, verdict } => {
                writeln!(out, "nodes {nodes}")?;
                match verdict {
                    Verdict::Accepted => writeln!(out, "accepted"),
                    Verdict::Refused { number, place } => writeln!(out, "refused {number} {place}"),
                }
            }
            Question::Run { input, cells, sizes, advances, close } => {
                write!(out, "input {}", input.len())?;
                block(out, input)?;
                let Sizes { first_stack, second_stack, allowance } = sizes;
                writeln!(out, "sizes {cells} {first_stack} {second_stack} {allowance}")?;
                for advance in advances {
                    advance.write(out)?;
                }
                let Closed { steps, taken, given_back } = close;
                writeln!(out, "close {steps} {taken} {given_back}")
            }
        }
    }
}

impl Advance {
    pub fn write(&self, out: &mut impl Write) -> io::Result<()> {
        let Advance { count, room, end, steps, bytes } = self;
        writeln!(out, "advance {count} {room}")?;
        match end {
            Ending::Ended => write!(out, "ended {steps} {}", bytes.len())?,
            Ending::Paused => write!(out, "paused {steps} {}", bytes.len())?,
            Ending::Full => write!(out, "full {steps} {}", bytes.len())?,
            Ending::Fault { number, place, name } => {
                write!(out, "fault {steps} {} {number} {place} ", bytes.len())?;
                out.write_all(name)?;
            }
        }
        block(out, bytes)
    }
}

/// Ends the line that told the length, and writes the bytes and a newline.
fn block(out: &mut impl Write, bytes: &[u8]) -> io::Result<()> {
    out.write_all(b"\n")?;
    out.write_all(bytes)?;
    out.write_all(b"\n")
}

/// The cases of a file, or the line that cannot be read.
pub fn parse(file: &[u8]) -> Result<Vec<Case>, String> {
    let mut lines = Lines { rest: file };
    let mut cases = Vec::new();
    while let Some(line) = lines.line() {
        if !line.is_empty() {
            cases.push(lines.case(line).ok_or_else(|| String::from_utf8_lossy(line).into_owned())?);
        }
    }
    Ok(cases)
}

struct Lines<'f> {
    rest: &'f [u8],
}

impl<'f> Lines<'f> {
    fn line(&mut self) -> Option<&'f [u8]> {
        let end = self.rest.iter().position(|&byte| byte == b'\n')?;
        let line = &self.rest[..end];
        self.rest = &self.rest[end + 1..];
        Some(line)
    }

    fn block(&mut self, length: usize) -> Option<Vec<u8>> {
        let bytes = self.rest.get(..length)?;
        self.rest = self.rest[length..].strip_prefix(b"\n")?;
        Some(bytes.to_vec())
    }

    fn case(&mut self, first: &[u8]) -> Option<Case> {
        let text = self.block(only(first, b"text")?)?;
        let line = self.line()?;
        let question = match words(line)[..] {
            [b"nodes", nodes] => Question::Check { nodes: number(nodes)?, verdict: self.verdict()? },
            [b"input", length] => {
                let input = self.block(number(length)?)?;
                self.run(input)?
            }
            _ => return None,
        };
        Some(Case { text, question })
    }

    fn verdict(&mut self) -> Option<Verdict> {
        match words(self.line()?)[..] {
            [b"accepted"] => Some(Verdict::Accepted),
            [b"refused", n, place] => Some(Verdict::Refused { number: number(n)?, place: number(place)? }),
            _ => None,
        }
    }

    fn run(&mut self, input: Vec<u8>) -> Option<Question> {
        let [b"sizes", cells, first, second, allowance] = words(self.line()?)[..] else { return None };
        let cells = number(cells)?;
        let sizes = Sizes { first_stack: number(first)?, second_stack: number(second)?, allowance: number(allowance)? };
        let mut advances = Vec::new();
        loop {
            match words(self.line()?)[..] {
                [b"advance", count, room] => advances.push(self.advance(number(count)?, number(room)?)?),
                [b"close", steps, taken, given_back] => {
                    let close =
                        Closed { steps: number(steps)?, taken: number(taken)?, given_back: number(given_back)? };
                    return Some(Question::Run { input, cells, sizes, advances, close });
                }
                _ => return None,
            }
        }
    }

    fn advance(&mut self, count: u32, room: usize) -> Option<Advance> {
        let words = words(self.line()?);
        let end = match words[..] {
            [b"ended", _, _] => Ending::Ended,
            [b"paused", _, _] => Ending::Paused,
            [b"full", _, _] => Ending::Full,
            [b"fault", _, _, n, place, name] => {
                Ending::Fault { number: number(n)?, place: number(place)?, name: name.to_vec() }
            }
            _ => return None,
        };
        let steps = number(words[1])?;
        let bytes = self.block(number(words[2])?)?;
        Some(Advance { count, room, end, steps, bytes })
    }
}

fn words(line: &[u8]) -> Vec<&[u8]> {
    line.split(|&byte| byte == b' ').collect()
}

/// The number on a line of a word and a number.
fn only(line: &[u8], word: &[u8]) -> Option<usize> {
    match words(line)[..] {
        [first, n] if first == word => number(n),
        _ => None,
    }
}

fn number<N: std::str::FromStr>(word: &[u8]) -> Option<N> {
    str::from_utf8(word).ok()?.parse().ok()
}
