//! Writes random cases with this interpreter's answers, always the same ones for the same seed:
//!
//!     generate texts|damaged|scripts|limits SEED COUNT > FILE
//!
//! or a script of 65,535 bytes that is accepted:
//!
//!     generate large > FILE

use interpreter::generate::{Sort, case, large};
use interpreter::random::Random;
use std::io::{self, BufWriter, Write};
use std::process::ExitCode;

fn main() -> ExitCode {
    let words: Vec<String> = std::env::args().skip(1).collect();
    let words: Vec<&str> = words.iter().map(String::as_str).collect();
    let told = match words[..] {
        ["large"] => io::stdout().write_all(&large()),
        [sort, seed, count] => match (sort_of(sort), seed.parse(), count.parse()) {
            (Some(sort), Ok(seed), Ok(count)) => cases(sort, seed, count),
            _ => return usage(),
        },
        _ => return usage(),
    };
    if told.is_ok() { ExitCode::SUCCESS } else { ExitCode::FAILURE }
}

fn usage() -> ExitCode {
    eprintln!("usage: generate texts|damaged|scripts|limits SEED COUNT, or generate large");
    ExitCode::from(2)
}

fn sort_of(word: &str) -> Option<Sort> {
    match word {
        "texts" => Some(Sort::Texts),
        "damaged" => Some(Sort::Damaged),
        "scripts" => Some(Sort::Scripts),
        "limits" => Some(Sort::Limits),
        _ => None,
    }
}

fn cases(sort: Sort, seed: u64, count: usize) -> io::Result<()> {
    let mut out = BufWriter::new(io::stdout().lock());
    let mut random = Random::new(seed);
    for number in 0..count {
        if number > 0 {
            out.write_all(b"\n")?;
        }
        case(sort, &mut random).write(&mut out)?;
    }
    out.flush()
}
