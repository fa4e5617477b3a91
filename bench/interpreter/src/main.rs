//! Runs a script as the program `rule` does, or in other ways:
//!
//!     interpreter [OPTION ..] SCRIPT < INPUT
//!
//! A script that cannot be read is empty. Of the input the first 65,535 bytes count. What is written is the output, a
//! newline, and a last line: `ended STEPS`, `fault N at PLACE in NAME` or `refused N at PLACE`.
//!
//! - `--nodes N` `--cells N` `--first N` `--second N` `--allowance N`: other sizes than 4,096 nodes, 1,000 cells, 1,000
//!   entries on each stack, 1,000,000 steps.
//! - `--advance COUNT:ROOM`, as often as wanted: these advances in place of one to the end; written are their answers
//!   and the close's, as lines of a case.
//! - `--time RUNS`: reads, checks and runs so often, and says how long it took.
//! - `--shelf`: with a shelf over the store, when timing.

use interpreter::basis::Output;
use interpreter::cases::{Advance, Case, Question, Verdict};
use interpreter::cells::{CellStore, ChainStore, Shelf};
use interpreter::code::Code;
use interpreter::refused::Refused;
use interpreter::run::{Closed, End, Fault, Run, Sizes};
use interpreter::text::TEXT_LIMIT;
use interpreter::{NODES, prepare};
use std::fs::File;
use std::hint::black_box;
use std::io::{self, Read, Write};
use std::process::ExitCode;
use std::time::{Duration, Instant};

struct Options {
    script: String,
    nodes: usize,
    cells: usize,
    sizes: Sizes,
    advances: Vec<Advance>,
    runs: Option<u32>,
    shelf: bool,
}

fn main() -> ExitCode {
    let Some(options) = options() else {
        eprintln!("usage: interpreter [--nodes N] [--cells N] [--first N] [--second N] [--allowance N]");
        eprintln!("                   [--advance COUNT:ROOM] .. [--time RUNS] [--shelf] SCRIPT < INPUT");
        return ExitCode::from(2);
    };
    // One byte past the limit is enough for the text to be refused.
    let text = File::open(&options.script).map_or(Vec::new(), |file| first_bytes(file, TEXT_LIMIT + 1));
    let input = first_bytes(io::stdin(), TEXT_LIMIT);
    let told = match (&options.advances[..], options.runs) {
        ([], None) => tell_rule(&text, &input, &options),
        ([], Some(runs)) => tell_time(&text, &input, &options, runs),
        _ => tell_advances(text, input, options),
    };
    match told {
        Ok(()) => ExitCode::SUCCESS,
        Err(_) => ExitCode::FAILURE,
    }
}

fn options() -> Option<Options> {
    let mut options = Options {
        script: String::new(),
        nodes: NODES,
        cells: 1_000,
        sizes: Sizes { first_stack: 1_000, second_stack: 1_000, allowance: 1_000_000 },
        advances: Vec::new(),
        runs: None,
        shelf: false,
    };
    let mut words = std::env::args().skip(1);
    loop {
        let word = words.next()?;
        match word.as_str() {
            "--nodes" => options.nodes = words.next()?.parse().ok()?,
            "--cells" => options.cells = words.next()?.parse().ok()?,
            "--first" => options.sizes.first_stack = words.next()?.parse().ok()?,
            "--second" => options.sizes.second_stack = words.next()?.parse().ok()?,
            "--allowance" => options.sizes.allowance = words.next()?.parse().ok()?,
            "--advance" => {
                let word = words.next()?;
                let (count, room) = word.split_once(':')?;
                options.advances.push(Advance::asked(count.parse().ok()?, room.parse().ok()?));
            }
            "--time" => options.runs = Some(words.next()?.parse().ok()?),
            "--shelf" => options.shelf = true,
            _ => {
                options.script = word;
                return words.next().is_none().then_some(options);
            }
        }
    }
}

/// The first bytes of what can be read of a stream, up to so many.
fn first_bytes(from: impl Read, limit: usize) -> Vec<u8> {
    let mut bytes = Vec::new();
    // What came before an error is taken as all there is.
    let _ = from.take(limit as u64).read_to_end(&mut bytes);
    bytes
}

fn tell_rule(text: &[u8], input: &[u8], options: &Options) -> io::Result<()> {
    let mut out = io::stdout().lock();
    let code = match prepare(text, options.nodes) {
        Ok(code) => code,
        Err(Refused { refusal, place }) => return writeln!(out, "\nrefused {} at {place}", refusal as u8),
    };
    let mut store = ChainStore::new(options.cells.min(TEXT_LIMIT));
    let (end, output, closed) = run_to_the_end(&code, input, options.sizes, &mut store);
    out.write_all(&output)?;
    match end {
        End::Faulted(Fault { kind, place, name }) => {
            write!(out, "\nfault {} at {place} in ", kind as u8)?;
            out.write_all(name)?;
            writeln!(out)
        }
        End::Ended | End::Paused | End::OutputFull => writeln!(out, "\nended {}", closed.steps),
    }
}

fn run_to_the_end<'c>(
    code: &'c Code,
    input: &'c [u8],
    sizes: Sizes,
    store: &mut impl CellStore,
) -> (End<'c>, Vec<u8>, Closed) {
    let mut run = Run::open(code, input, sizes);
    let mut output = Output { bytes: Vec::new(), room: usize::MAX };
    let advanced = run.advance(store, &mut output, u32::MAX);
    (advanced.end, output.bytes, run.close(store))
}

fn tell_advances(text: Vec<u8>, input: Vec<u8>, options: Options) -> io::Result<()> {
    let Options { cells, sizes, advances, .. } = options;
    let close = Closed { steps: 0, taken: 0, given_back: 0 };
    let case = Case { text, question: Question::Run { input, cells, sizes, advances, close } };
    let mut out = io::stdout().lock();
    match case.answered().question {
        Question::Check { verdict: Verdict::Refused { number, place }, .. } => {
            writeln!(out, "refused {number} {place}")
        }
        Question::Check { verdict: Verdict::Accepted, .. } => Ok(()),
        Question::Run { advances, close, .. } => {
            for advance in advances {
                advance.write(&mut out)?;
            }
            writeln!(out, "close {} {} {}", close.steps, close.taken, close.given_back)
        }
    }
}

fn tell_time(text: &[u8], input: &[u8], options: &Options, runs: u32) -> io::Result<()> {
    let mut out = io::stdout().lock();
    let start = Instant::now();
    for _ in 0..runs {
        let _ = black_box(prepare(black_box(text), options.nodes));
    }
    let each = start.elapsed() / runs.max(1);
    writeln!(out, "read and checked {} bytes in {:.1} us", text.len(), each.as_secs_f64() * 1e6)?;
    let Ok(code) = prepare(text, options.nodes) else { return writeln!(out, "refused") };
    let store = ChainStore::new(options.cells.min(TEXT_LIMIT));
    let (time, closed) = match options.shelf {
        false => time_runs(&code, input, options.sizes, runs, store),
        true => time_runs(&code, input, options.sizes, runs, Shelf::new(store)),
    };
    let seconds = time.as_secs_f64() / f64::from(runs.max(1));
    writeln!(out, "{} steps, {} cells taken, in {:.1} us", closed.steps, closed.taken, seconds * 1e6)?;
    writeln!(out, "{:.0} million steps a second", f64::from(closed.steps) / seconds / 1e6)?;
    match closed.taken {
        0 => Ok(()),
        taken => writeln!(out, "{:.1} ns for each cell taken", seconds * 1e9 / taken as f64),
    }
}

fn time_runs(code: &Code, input: &[u8], sizes: Sizes, runs: u32, mut store: impl CellStore) -> (Duration, Closed) {
    let mut closed = Closed { steps: 0, taken: 0, given_back: 0 };
    let start = Instant::now();
    for _ in 0..runs {
        let (_, output, counts) = run_to_the_end(code, input, sizes, &mut store);
        black_box(output);
        closed = counts;
    }
    (start.elapsed(), closed)
}
