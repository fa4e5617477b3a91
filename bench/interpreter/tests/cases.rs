//! Every case that lies with the scripts.

use interpreter::cases::{Question, parse};
use interpreter::code::Op;
use interpreter::generate::{Sort, case, large};
use interpreter::random::Random;
use interpreter::{NODES, prepare};

fn all_agree(file: &str, wanted: usize) {
    let path = concat!(env!("CARGO_MANIFEST_DIR"), "/../../crates/scripts/data/").to_owned() + file;
    let cases = parse(&std::fs::read(path).unwrap()).unwrap();
    assert_eq!(cases.len(), wanted);
    for case in cases {
        assert_eq!(case.answered(), case, "{}", String::from_utf8_lossy(&case.text));
    }
}

#[test]
fn refusals() {
    all_agree("refusals.txt", 172);
}

#[test]
fn runs() {
    all_agree("runs.txt", 149);
}

#[test]
fn random_cases() {
    all_agree("random.txt", 440);
}

#[test]
fn an_operation_takes_eight_bytes() {
    assert_eq!(size_of::<Op>(), 8);
}

#[test]
fn the_large_script_is_accepted() {
    assert_eq!(large().len(), 65_535);
    assert!(prepare(&large(), NODES).is_ok());
}

#[test]
fn scripts_made_by_types_are_accepted_and_their_cells_come_back() {
    let mut random = Random::new(20);
    for _ in 0..5_000 {
        let case = case(Sort::Scripts, &mut random);
        let Question::Run { close, .. } = &case.question else {
            panic!("{}", String::from_utf8_lossy(&case.text));
        };
        assert_eq!(close.taken, close.given_back);
    }
}

#[test]
fn one_advance_or_many_come_to_the_same() {
    let mut random = Random::new(21);
    for _ in 0..2_000 {
        let Question::Run { advances, close, .. } = case(Sort::Scripts, &mut random).question else { panic!() };
        assert_eq!(advances.iter().map(|advance| advance.steps).sum::<u32>(), close.steps);
    }
}
