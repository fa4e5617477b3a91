//! A plain interpreter of Compost, written from the rules of the language alone.
//!
//! It reads, checks and runs scripts as the proved runner of this repository does, shares no code with it, and proves
//! nothing. It serves as a second opinion on what a text comes to, and as the measure of speed.
//!
//! The way of a script: [`text`] makes tokens, [`syntax`] makes nodes, [`check`] judges them and writes [`code`], one
//! operation for each step of a run, and [`run`] carries the operations out over a store of [`cells`].
#![forbid(unsafe_code)]

pub mod basis;
pub mod cases;
pub mod cells;
pub mod check;
pub mod code;
pub mod generate;
pub mod hash;
pub mod random;
pub mod refused;
pub mod run;
pub mod scripts;
pub mod syntax;
pub mod text;
pub mod types;
pub mod walks;

use code::Code;
use refused::Refused;

/// The node list that the program `rule` lends, and the most nodes that any script has.
pub const NODES: usize = 4096;

/// Reads and checks a text, with a node list of so many entries.
pub fn prepare(text: &[u8], nodes: usize) -> Result<Code<'_>, Refused> {
    check::check(&syntax::read(text, nodes)?)
}
