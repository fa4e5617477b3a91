//! Random cases, with this interpreter's answers.

use crate::NODES;
use crate::cases::{Advance, Case, Question, Verdict};
use crate::random::Random;
use crate::run::{Closed, Sizes};
use crate::scripts::script;
use crate::text::TEXT_LIMIT;

/// What a random case is made from.
#[derive(Clone, Copy, Debug)]
pub enum Sort {
    /// Bytes, tokens and forms without meaning: the check is asked.
    Texts,
    /// Scripts that were right and have been damaged: the check is asked.
    Damaged,
    /// Scripts that are right: they run.
    Scripts,
    /// Texts that stay just within a limit, or pass it: the check is asked.
    Limits,
}

/// One case of a sort. A script that is refused nevertheless is a case of the check.
pub fn case(sort: Sort, random: &mut Random) -> Case {
    let (text, question) = match sort {
        Sort::Texts => (meaningless(random), check(random)),
        Sort::Damaged => (damaged(random), check(random)),
        Sort::Scripts => (script(random, false), run(random)),
        Sort::Limits => (near_a_limit(random), Question::Check { nodes: TEXT_LIMIT, verdict: Verdict::Accepted }),
    };
    Case { text, question }.answered()
}

fn check(random: &mut Random) -> Question {
    let nodes = match random.below(20) {
        0 => random.below(8),
        1 => random.below(200),
        2 => TEXT_LIMIT,
        _ => NODES,
    };
    Question::Check { nodes, verdict: Verdict::Accepted }
}

fn run(random: &mut Random) -> Question {
    let input = (0..random.below(6)).map(|_| *random.pick(b"0A\n;\xff\0z")).collect();
    let cells = *random.pick(&[0, 1, 2, 3, 5, 10, 100, 1000, 1000]);
    let mut stack = || if random.percent(20) { random.within(0, 20) } else { *random.pick(&[40, 1000, 1000]) };
    let (first_stack, second_stack) = (stack(), stack());
    let allowance = match random.below(10) {
        0 => random.below(20) as u32,
        1 => random.below(500) as u32,
        2 => 2_000_000_000,
        _ => 20_000,
    };
    let mut advances = Vec::new();
    for _ in 0..random.below(8) {
        let count = *random.pick(&[0, 1, 1, 2, 7, 40, 1000]);
        let room = *random.pick(&[0, 1, 3, 4, 16, 64]);
        advances.push(Advance::asked(count, room));
    }
    if random.percent(80) {
        advances.push(Advance::asked(20_000, 4096));
    }
    let sizes = Sizes { first_stack, second_stack, allowance };
    Question::Run { input, cells, sizes, advances, close: Closed { steps: 0, taken: 0, given_back: 0 } }
}

/// A text that is hardly ever a script.
fn meaningless(random: &mut Random) -> Vec<u8> {
    match random.below(3) {
        0 => bytes(random),
        1 => tokens(random),
        _ => {
            let mut text = String::new();
            for _ in 0..random.within(1, 5) {
                definition(random, &mut text);
            }
            text.into_bytes()
        }
    }
}

fn bytes(random: &mut Random) -> Vec<u8> {
    let count = random.below(60);
    let narrow = random.percent(50);
    (0..count)
        .map(|_| match narrow {
            true => *random.pick(b"()[]''\\;  \n\r\t+-01x_:>\x0b"),
            false => random.below(256) as u8,
        })
        .collect()
}

const TOKENS: [&str; 58] = [
    "(",
    "(",
    "(",
    "(",
    "[",
    ")",
    ")",
    ")",
    ")",
    "]",
    ":",
    "_",
    "->",
    "if",
    "val",
    "define",
    "datatype",
    "use",
    "case",
    "begin",
    "let",
    "dup",
    "int",
    "bool",
    "sym",
    "unit",
    "true",
    "false",
    "main",
    "x",
    "y",
    "f",
    "c",
    "+",
    "-",
    "print-int",
    "in",
    "=s",
    "5",
    "-7",
    "+0",
    "2147483647",
    "2147483648",
    "-2147483648",
    "-2147483649",
    "99999999999999999999",
    "00",
    "'a'",
    "''",
    "'\\''",
    "'\\\\'",
    "'\\n'",
    "'open",
    "; c\n",
    ";",
    "--1",
    "1.5",
    "\u{e9}",
];

fn tokens(random: &mut Random) -> Vec<u8> {
    let mut text = String::new();
    for _ in 0..random.below(40) {
        text.push_str(random.word(&TOKENS));
        text.push_str(random.word(&[" ", " ", " ", "\n", ""]));
    }
    text.into_bytes()
}

const WORDS: [&str; 14] = ["f", "g", "x", "y", "c", "n", "l", "d", "main", "+", "neg", "print-int", "in", "v"];

/// A definition that the grammar derives, now and then with something else inside.
fn definition(random: &mut Random, text: &mut String) {
    let name = random.word(&WORDS);
    match random.below(5) {
        0 => {
            text.push_str(&format!("(datatype {name} ("));
            for _ in 0..random.below(3) {
                text.push_str(&format!("({} (", random.word(&WORDS)));
                some_types(random, text);
                text.push_str("))");
            }
            text.push_str("))");
        }
        1 | 2 => {
            text.push_str(&format!("(: {name} (-> ("));
            some_types(random, text);
            text.push_str(") ");
            some_type(random, text);
            text.push_str("))");
        }
        3 => {
            text.push_str(&format!("(define {name} ("));
            for _ in 0..random.below(4) {
                text.push_str(random.word(&WORDS));
                text.push(' ');
            }
            text.push_str(") ");
            expression(random, text, 5);
            text.push(')');
        }
        _ => {
            text.push_str(&format!("(val {name} "));
            expression(random, text, 5);
            text.push(')');
        }
    }
    text.push('\n');
}

fn some_types(random: &mut Random, text: &mut String) {
    for _ in 0..random.below(4) {
        some_type(random, text);
        text.push(' ');
    }
}

fn some_type(random: &mut Random, text: &mut String) {
    text.push_str(random.word(&[
        "int",
        "int",
        "bool",
        "sym",
        "unit",
        "l",
        "d",
        "(-> (int) int)",
        "(-> () unit)",
        "true",
    ]));
}

fn expression(random: &mut Random, text: &mut String, depth: usize) {
    if depth == 0 || random.percent(20) {
        let atoms =
            ["1", "-2", "'a'", "true", "unit", "f", "g", "x", "y", "c", "n", "v", "+", "in", "(c)", "(n)", "_", "let"];
        return text.push_str(random.word(&atoms));
    }
    let word = random.word(&WORDS);
    let parts = match random.below(7) {
        0 => {
            text.push_str("(if ");
            3
        }
        1 => {
            text.push_str("(begin ");
            random.within(0, 3)
        }
        2 => {
            text.push_str("(let (");
            for _ in 0..random.below(3) {
                text.push_str(&format!("({} ", random.word(&WORDS)));
                expression(random, text, depth - 1);
                text.push(')');
            }
            text.push_str(") ");
            1
        }
        3 => {
            text.push_str("(case ");
            expression(random, text, depth - 1);
            for _ in 0..random.within(0, 2) {
                let pattern = random.word(&["(c x y)", "(n)", "_", "(c _ y)", "(f)", "(c)", "()", "x", "(c 5)"]);
                text.push_str(&format!(" ({pattern} "));
                expression(random, text, depth - 1);
                text.push(')');
            }
            0
        }
        4 => {
            text.push_str(&format!("(dup {word}"));
            0
        }
        _ => {
            text.push_str(&format!("({word} "));
            random.below(4)
        }
    };
    for _ in 0..parts {
        expression(random, text, depth - 1);
        text.push(' ');
    }
    text.push(')');
}

/// A careless script, or a right one with a little damage.
fn damaged(random: &mut Random) -> Vec<u8> {
    if random.percent(25) {
        return script(random, true);
    }
    let mut text = script(random, false);
    for _ in 0..random.within(1, 2) {
        damage(&mut text, random);
    }
    text
}

fn damage(text: &mut Vec<u8>, random: &mut Random) {
    if text.is_empty() {
        return;
    }
    let at = random.below(text.len());
    match random.below(40) {
        0 => {
            text.remove(at);
        }
        1 => text.insert(at, *random.pick(b"()[]'\\; 1x")),
        2 => text[at] = *random.pick(b"()[]'\\; 1x_"),
        3 => text.truncate(at),
        // A word becomes another word of the text, most of all where both are names.
        4..20 => {
            let words = words(text);
            let names: Vec<_> = words.iter().filter(|&&(first, behind)| is_name(&text[first..behind])).collect();
            let (from, to, first, behind) = match names.len() > 1 && random.percent(80) {
                true => {
                    let (&&(from, to), &&(first, behind)) = (random.pick(&names), random.pick(&names));
                    (from, to, first, behind)
                }
                false if words.len() > 1 => {
                    let (&(from, to), &(first, behind)) = (random.pick(&words), random.pick(&words));
                    (from, to, first, behind)
                }
                false => return,
            };
            let other = text[from..to].to_vec();
            text.splice(first..behind, other);
        }
        // A `dup` goes, so that a name is entered twice.
        20..28 => {
            let dups: Vec<usize> = (0..text.len()).filter(|&at| text[at..].starts_with(b"dup ")).collect();
            if !dups.is_empty() {
                let first = *random.pick(&dups);
                text.splice(first..first + 3, *b"begin");
            }
        }
        // A form goes, comes twice, or becomes another one.
        _ => {
            let forms = forms(text);
            if !forms.is_empty() {
                let &(first, behind) = random.pick(&forms);
                let &(from, to) = random.pick(&forms);
                let form = match random.below(4) {
                    0 => Vec::new(),
                    1 => text[first..behind].repeat(2),
                    _ => text[from..to].to_vec(),
                };
                text.splice(first..behind, form);
            }
        }
    }
}

fn is_name(word: &[u8]) -> bool {
    let reserved: [&[u8]; 18] = [
        b":",
        b"_",
        b"->",
        b"if",
        b"val",
        b"define",
        b"datatype",
        b"use",
        b"case",
        b"begin",
        b"let",
        b"dup",
        b"int",
        b"bool",
        b"sym",
        b"unit",
        b"true",
        b"false",
    ];
    !reserved.contains(&word) && !word[0].is_ascii_digit()
}

/// Where the words lie, more or less: inside of comments and symbols, too.
fn words(text: &[u8]) -> Vec<(usize, usize)> {
    let mut words = Vec::new();
    let mut first = 0;
    for (at, byte) in text.iter().enumerate() {
        if b" \t\r\n()[];'".contains(byte) {
            if first < at {
                words.push((first, at));
            }
            first = at + 1;
        }
    }
    words
}

/// Where what stands between brackets lies, more or less.
fn forms(text: &[u8]) -> Vec<(usize, usize)> {
    let mut open = Vec::new();
    let mut forms = Vec::new();
    for (at, byte) in text.iter().enumerate() {
        match byte {
            b'(' | b'[' => open.push(at),
            b')' | b']' => forms.extend(open.pop().map(|first| (first, at + 1))),
            _ => {}
        }
    }
    forms
}

/// So many things where so many are allowed, or one or two more or one less, in a script that is accepted but for that.
fn near_a_limit(random: &mut Random) -> Vec<u8> {
    let sort = random.below(15);
    let sign = random.word(&["", "-", "+"]);
    let mut near = |limit: usize| random.within(limit - 1, limit + 2);
    let ints = |count: usize| "int ".repeat(count);
    let lines = |count: usize, line: &dyn Fn(usize) -> String| (0..count).map(line).collect::<String>();
    let main = "(: main (-> () unit)) (define main () unit)\n";
    let rest = match sort {
        0 => format!("; {}", "-".repeat(near(TEXT_LIMIT) - main.len() - 2)),
        1 => format!("(val {} 1)", "n".repeat(near(63))),
        2 => format!("(val s '{}\\'')", "s".repeat(near(255) - 2)),
        3 => {
            let depth = near(64) - 1;
            format!("(val b {}1{})", "(begin ".repeat(depth), ")".repeat(depth))
        }
        4 => format!("(val b (begin {}))", "1 ".repeat(near(4096) - 2)),
        5 => {
            // A function type with six parameters has eight types, `main`'s two.
            let count = near(512) - 2;
            let eight = |n: usize| format!("(: f{n} (-> ({}) int)) (define f{n} (a b c d e f) 1)\n", ints(6));
            let one = |n: usize| format!("(datatype d{n} ([c{n} (int)]))\n");
            lines(count / 8, &eight) + &lines(count % 8, &one)
        }
        6 => lines(near(256) - 1, &|n| format!("(val v{n} {n})\n")),
        7 => lines(near(64), &|n| format!("(datatype d{n} ())\n")),
        8 => format!("(datatype d ({}))", lines(near(256), &|n| format!("[c{n} ()] "))),
        9 => {
            let count = near(6);
            let names = lines(count, &|n| format!("a{n} "));
            format!("(define f ({names}) 1) (: f (-> ({}) int))", ints(count.min(6)))
        }
        10 => {
            let count = near(6);
            let names = lines(count.min(6), &|n| format!("a{n} "));
            format!("(: f (-> ({}) int)) (define f ({names}) 1)", ints(count))
        }
        11 => format!("(datatype d ([c ({})]))", "(-> () int) ".repeat(near(6))),
        12 => format!("(val b (let ({}) x0))", lines(near(64), &|n| format!("[x{n} 1]"))),
        13 => {
            let names = lines(near(64) - 2, &|n| format!("[x{n} 1]"));
            let branch = "(case (c 1 2 3) [(c y0 _ y1) y1] [_ 2])";
            format!("(datatype d ([c (int int int)])) (val b (let ({names}) {branch}))")
        }
        _ => format!("(val i {sign}{})", near(1 << 31)),
    };
    (main.to_owned() + &rest).into_bytes()
}

/// A script of exactly 65,535 bytes that is accepted, near the limits of nodes and types too.
pub fn large() -> Vec<u8> {
    const DEFINES: usize = 108;
    let mut text = String::from("(: main (-> () unit)) (define main () (print-int (sum-0 1 2)))\n");
    for number in 0..DEFINES {
        let next = (number + 1) % DEFINES;
        text.push_str(&format!(
            "\n;; Sum {number}: what came before is added up by cases. Where the left one is less, the total goes on threefold\n\
             ;; and the spread by its remainder; and where it is not, there is a new line, and the left one is raised.\n\
             ;; The calls go round in a ring, from the last sum back to the first, so that every one of them is named.\n\n\
             (: sum-{number} (-> (int int) int))\n\
             (define sum-{number} (left right)\n  \
               (if (< left right)\n      \
                 (let ([total (+ left right)]\n            \
                       [spread (- right left)])\n        \
                   (sum-{next} (* total 3) (% spread 7)))\n      \
                 (begin\n        \
                   (print-newline)\n        \
                   (sum-{next} (+ left 1) right))))\n"
        ));
    }
    text.push(';');
    let mut text = text.into_bytes();
    text.resize(TEXT_LIMIT, b'-');
    text
}
