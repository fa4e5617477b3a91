//! Compares this interpreter's answers with those in files of cases, and says how many agree.
//!
//!     cases FILE ..

use interpreter::cases::{Case, parse};
use std::io::{self, Write};
use std::process::ExitCode;

fn main() -> ExitCode {
    let mut all_agree = true;
    for file in std::env::args().skip(1) {
        match judge(&file) {
            Ok(agree) => all_agree &= agree,
            Err(why) => {
                eprintln!("{file}: {why}");
                all_agree = false;
            }
        }
    }
    if all_agree { ExitCode::SUCCESS } else { ExitCode::FAILURE }
}

fn judge(file: &str) -> Result<bool, String> {
    let bytes = std::fs::read(file).map_err(|error| error.to_string())?;
    let cases = parse(&bytes).map_err(|line| format!("no case: {line}"))?;
    let mut agree = 0;
    for case in &cases {
        let answered = case.answered();
        if answered == *case {
            agree += 1;
        } else {
            show(case, &answered).map_err(|error| error.to_string())?;
        }
    }
    println!("{file}: {agree} of {} agree", cases.len());
    Ok(agree == cases.len())
}

fn show(case: &Case, answered: &Case) -> io::Result<()> {
    let mut out = io::stdout().lock();
    writeln!(out, "--- wanted")?;
    case.write(&mut out)?;
    writeln!(out, "--- answered")?;
    answered.write(&mut out)
}
