//! The desk's program through a pipe, every answer to the letter, against a second implementation from the text of documents
//! 01 and 02.
//!
//! `operations drive PROGRAM [COMMANDS [SEED]]` holds conversations with a program. `operations answer NAME` is a program to
//! put in its place, a right one or a wrong one; `operations imitations` has the right one pass and finds each wrong one out.

mod aside;
mod ask;
mod choices;
mod collection;
mod desk;
mod drive;
mod edges;
mod handwriting;
mod help;
mod history;
mod imitation;
mod lending;
mod line;
mod no_command;
mod orders;
mod pieces;
mod program;
mod script;
mod session;
mod talk;
mod tally;
mod weeks;
mod wrong;

use drive::{drive, pass};
use imitation::{Imitation, RIGHT};
use program::Start;
use std::process::ExitCode;
use std::time::Duration;

const SEED: u64 = 2008;
const COMMANDS: u64 = 800_000;

/// So many are enough to meet everything, and to find a wrong program out.
const COMMANDS_OF_AN_IMITATION: u64 = 80_000;

/// How long an answer may take: long beside any answer, since the machine may have other work. Of a wrong program, some of
/// which are found out by waiting in vain, less.
const PATIENCE: Duration = Duration::from_secs(20);
const PATIENCE_WITH_A_WRONG_ONE: Duration = Duration::from_secs(2);

fn main() -> ExitCode {
    let arguments: Vec<String> = std::env::args().skip(1).collect();
    let arguments: Vec<&str> = arguments.iter().map(String::as_str).collect();
    let done = match arguments[..] {
        ["drive", path, ref numbers @ ..] if numbers.len() <= 2 => drive_desk(path, numbers),
        ["answer", name] => answer(name),
        ["imitations"] => imitations(),
        _ => Err("drive PROGRAM [COMMANDS [SEED]], answer NAME, or imitations".to_string()),
    };
    match done {
        Ok(()) => ExitCode::SUCCESS,
        Err(message) => {
            println!("operations: {message}");
            ExitCode::FAILURE
        }
    }
}

fn number(word: &str) -> Result<u64, String> {
    let number = word.parse();
    number.map_err(|_| format!("{word} is no decimal number of 64 bits"))
}

fn drive_desk(path: &str, numbers: &[&str]) -> Result<(), String> {
    let commands = numbers.first().map_or(Ok(COMMANDS), |word| number(word))?;
    let seed = numbers.get(1).map_or(Ok(SEED), |word| number(word))?;
    let desk = Start {
        path: path.into(),
        arguments: Vec::new(),
        patience: PATIENCE,
    };
    pass(&desk, commands, seed).map(|tally| tally.print())
}

fn answer(name: &str) -> Result<(), String> {
    let mut imitations = wrong::all().chain([RIGHT]);
    let imitation = imitations.find(|imitation| imitation.name == name);
    let imitation = imitation.ok_or(format!("no imitation is named {name}"))?;
    imitation.answer_all().map_err(|error| error.to_string())
}

/// The right imitation passes, and each wrong one is found out.
fn imitations() -> Result<(), String> {
    let tally = pass(&start(RIGHT, PATIENCE)?, COMMANDS_OF_AN_IMITATION, SEED)?;
    println!(
        "{} commands answered rightly by the right imitation",
        tally.commands
    );
    for wrong in wrong::all() {
        let (name, start) = (wrong.name, start(wrong, PATIENCE_WITH_A_WRONG_ONE)?);
        match drive(&start, COMMANDS_OF_AN_IMITATION, SEED) {
            Ok(_) => return Err(format!("not found out: {name}")),
            Err(difference) if wrong.can_be_found_out(difference.how) => {
                println!("found out, {}: {name}", difference.how);
            }
            Err(difference) => return Err(format!("{name}: {}", difference.text)),
        }
    }
    Ok(())
}

/// This program itself, as one of them.
fn start(imitation: Imitation, patience: Duration) -> Result<Start, String> {
    Ok(Start {
        path: std::env::current_exe().map_err(|error| error.to_string())?,
        arguments: vec!["answer".to_string(), imitation.name.to_string()],
        patience,
    })
}
