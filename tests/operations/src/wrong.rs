//! The wrong programs: each must be found out.

mod books;
mod checks;
mod held;
mod lines;
mod lists;
mod orders;
mod plans;
mod records;
mod runs;

use crate::desk::Desk;
use crate::imitation::{Imitation, Manner};
use crate::line::{Command, Line};
use reference::{Book, Week};
use std::mem::discriminant;

const ILL_MANNERED: [Imitation; 3] = [
    ill_mannered(
        "answers only at the end of the input",
        Manner::AnswersAtTheEnd,
    ),
    ill_mannered("a line in two pieces taken as two", Manner::PiecesAreLines),
    ill_mannered(
        "the last line without a line feed left",
        Manner::LeavesTheLastLine,
    ),
];

pub fn all() -> impl Iterator<Item = Imitation> {
    let answers = plans::WRONG.into_iter().chain(checks::WRONG);
    let answers = answers.chain(runs::WRONG).chain(lists::WRONG);
    let answers = answers.chain(orders::WRONG).chain(records::WRONG);
    let answers = answers.chain(books::WRONG).chain(held::WRONG);
    answers.chain(lines::WRONG).chain(ILL_MANNERED)
}

const fn ill_mannered(name: &'static str, manner: Manner) -> Imitation {
    Imitation {
        name,
        answer: Desk::answer,
        manner,
    }
}

const fn wrong(name: &'static str, answer: fn(&mut Desk, &[u8]) -> String) -> Imitation {
    Imitation {
        name,
        answer,
        manner: Manner::Right,
    }
}

/// Another text in the place of an answer that begins so.
fn instead(answer: String, start: &str, other: &str) -> String {
    if answer.starts_with(start) {
        other.to_string()
    } else {
        answer
    }
}

/// Wrong where this is asked, right elsewhere.
fn asked(
    command: Command,
    desk: &mut Desk,
    line: &[u8],
    answer: impl Fn(&mut Desk, &[u8]) -> String,
) -> String {
    match Line::of(line) {
        Line::Command(asked) if discriminant(&asked) == discriminant(&command) => {
            answer(desk, line)
        }
        _ => desk.answer(line),
    }
}

/// The list that a line asks of: the book's, or the one written down.
fn list_asked<'a>(desk: &'a Desk, line: &[u8]) -> &'a Week {
    match Line::of(line) {
        Line::Command(Command::Add(_) | Command::Withdraw(_) | Command::Plan | Command::Book) => {
            &desk.book.list
        }
        _ => &desk.week,
    }
}

/// The command that a line is, the book before it was carried out, and the answer to it.
fn carried_out(desk: &mut Desk, line: &[u8]) -> (Option<Command>, Book, String) {
    let before = desk.book.clone();
    let answer = desk.answer(line);
    let command = match Line::of(line) {
        Line::Command(command) => Some(command),
        _ => None,
    };
    (command, before, answer)
}

/// Whether a plan was looked for.
fn chosen(answer: &str) -> bool {
    answer.starts_with("plan ") || answer.starts_with("refused 14 ")
}

/// The place of a refusal that begins so.
fn refused_at(answer: &str, start: &str) -> Option<usize> {
    let (place, _) = answer.strip_prefix(start)?.split_once(' ')?;
    place.parse().ok()
}

/// Whether a call that opens or changes the book is answered so.
fn is_ok(answer: &str) -> bool {
    answer == "ok\n"
}
