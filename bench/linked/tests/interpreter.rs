//! Random scripts, damaged scripts, texts and limits, through the proved runner and through the interpreter.

use interpreter::basis::Basis;
use interpreter::cases::{Advance, Case, Ending, Question, Verdict};
use interpreter::generate::{Sort, case};
use interpreter::random::Random;
use linked::{Named, Refused, Sizes, check, run};

const ROOM: usize = 4096;

/// The name of a function.
fn name<'t>(named: Named<'t>) -> &'t [u8] {
    match named {
        Named::Basis(number) => Basis::from_number(number).unwrap().name().as_bytes(),
        Named::Text(name) => name,
    }
}

/// The ending as the interpreter has it.
fn ending(ending: linked::Ending) -> Ending {
    match ending {
        linked::Ending::Ended => Ending::Ended,
        linked::Ending::OutputFull => Ending::Full,
        linked::Ending::Faulted { number, place, named } => {
            Ending::Fault { number: number as u8, place, name: name(named).to_vec() }
        }
    }
}

/// The same case with one advance in place of all that it has.
fn in_one_advance(case: Case, room: usize) -> Case {
    let question = match case.question {
        Question::Run { input, cells, sizes, close, .. } => {
            Question::Run { input, cells, sizes, advances: vec![Advance::asked(u32::MAX, room)], close }
        }
        check => check,
    };
    Case { text: case.text, question }.answered()
}

/// Whether the runner answers the case alike; whether it ran.
fn agrees(case: &Case) -> bool {
    match &case.question {
        Question::Check { nodes, verdict } => {
            let sizes = Sizes { nodes: *nodes as u32, cells: 10, first: 10, second: 10, allowance: 0 };
            let found = run(&case.text, b"", &mut [], sizes).unwrap().map(|_| ());
            let wanted = match *verdict {
                Verdict::Accepted => Ok(()),
                Verdict::Refused { number, place } => Err(Refused { number: u32::from(number), place }),
            };
            assert_eq!(found, wanted, "{}", String::from_utf8_lossy(&case.text));
            if *nodes >= interpreter::NODES {
                assert_eq!(check(&case.text).unwrap(), wanted);
            }
            false
        }
        Question::Run { input, cells, sizes, advances, close } => {
            let lent = Sizes {
                nodes: interpreter::NODES as u32,
                cells: *cells as u32,
                first: sizes.first_stack as u32,
                second: sizes.second_stack as u32,
                allowance: sizes.allowance,
            };
            let [advance] = &advances[..] else { panic!() };
            let mut out = vec![165; advance.room];
            let found = run(&case.text, input, &mut out, lent).unwrap().unwrap();
            let text = String::from_utf8_lossy(&case.text);
            assert_eq!(ending(found.ending), advance.end, "{text}");
            assert_eq!((found.steps, found.taken, found.given_back), (close.steps, close.taken, close.given_back), "{text}");
            let (written, rest) = out.split_at(found.bytes);
            assert_eq!(written, advance.bytes, "{text}");
            assert!(rest.iter().all(|byte| *byte == 165), "{text}");
            true
        }
    }
}

fn all_agree(sort: Sort, seed: u64, count: usize) -> usize {
    let mut random = Random::new(seed);
    (0..count)
        .filter(|_| {
            let room = if random.percent(20) { random.below(12) } else { ROOM };
            agrees(&in_one_advance(case(sort, &mut random), room))
        })
        .count()
}

#[test]
fn scripts_run_alike() {
    assert_eq!(all_agree(Sort::Scripts, 100, 20_000), 20_000);
}

#[test]
fn damaged_scripts_are_judged_alike() {
    all_agree(Sort::Damaged, 101, 20_000);
}

#[test]
fn texts_are_judged_alike() {
    all_agree(Sort::Texts, 102, 20_000);
}

#[test]
fn limits_are_judged_alike() {
    all_agree(Sort::Limits, 103, 2_000);
}
