//! Compares the C door of the proved library with the plain implementation.
//!
//! ```text
//! outside compare [calls=NAME,NAME..] [part=N] [door PROGRAM WORDS..]
//! outside cases   [door PROGRAM WORDS..]    answers case lines from standard input
//! outside lines   [door PROGRAM WORDS..]    answers request lines from standard input
//! outside steps   [door PROGRAM WORDS..]    answers steps on a register from standard input
//! ```
//!
//! `door` names a program that speaks as door.c does, to be compared in place of the archive that
//! this one is linked with. `calls` names the calls to compare, `part` makes 1/N of their inputs.

mod accounts;
mod cases;
mod compare;
mod doors;
mod floats;
mod frame;
mod histories;
mod inputs;
mod ledger;
mod seeded;
mod sets;
mod steps;
mod streams;
mod texts;

use compare::PLAN;
use doors::{Door, Program};
use seeded::Seeded;
use std::io::{read_to_string, stdin, stdout, Read, Write};
use std::process::ExitCode;

fn main() -> ExitCode {
    let words: Vec<String> = std::env::args().skip(1).collect();
    let place = words.iter().position(|word| word == "door").unwrap_or(words.len());
    let (own, program) = words.split_at(place);
    let mut door = match program {
        [] => Door::Linked,
        [_, words @ ..] => Door::Program(Program::start(words).expect("the door program starts")),
    };
    let done = match own.first().map(String::as_str) {
        Some("compare") => compared(&mut door, &own[1..]),
        Some("cases") => answered_texts(&mut door, cases::answers),
        Some("lines") => answered_lines(&mut door),
        Some("steps") => answered_texts(&mut door, steps::answers),
        _ => {
            Err("usage: outside compare|cases|lines|steps [calls=..] [part=..] [door PROGRAM ..]\n"
                .into())
        }
    };
    match done {
        Ok(()) => ExitCode::SUCCESS,
        Err(why) => {
            eprint!("outside: {why}");
            ExitCode::FAILURE
        }
    }
}

/// The value of an option NAME=VALUE.
fn option<'a>(words: &'a [String], name: &str) -> Option<&'a str> {
    words.iter().find_map(|word| word.strip_prefix(name)?.strip_prefix('='))
}

fn differs(difference: String) -> String {
    format!("differs: {difference}")
}

fn compared(door: &mut Door, words: &[String]) -> Result<(), String> {
    let wanted: Vec<String> =
        option(words, "calls").map_or(vec![], |names| names.split(',').map(String::from).collect());
    let part = option(words, "part").map_or(1, |number| number.parse().expect("part is a number"));
    let known = |name: &String| PLAN.iter().any(|(_, call, _)| call == name);
    if let Some(name) = wanted.iter().find(|name| !known(name)) {
        return Err(format!("no call is named {name}\n"));
    }
    let count = compare::all(door, &wanted, part).map_err(differs)?;
    println!("outside: {count} compared, 0 differ");
    Ok(())
}

/// By a call for each line of text.
fn answered_texts(
    door: &mut Door,
    answers: fn(&mut Door, &str) -> Result<String, String>,
) -> Result<(), String> {
    let asked = read_to_string(stdin()).expect("lines are text");
    print!("{}", answers(door, &asked).map_err(differs)?);
    Ok(())
}

/// By the block call, the stream cut at random.
fn answered_lines(door: &mut Door) -> Result<(), String> {
    let mut asked = Vec::new();
    stdin().read_to_end(&mut asked).expect("standard input can be read");
    let seeded = &mut Seeded::new(0x11ae5);
    let answers = streams::Run { door, seeded }.answers(&asked).map_err(differs)?;
    stdout().write_all(&answers).expect("standard output can be written");
    Ok(())
}
