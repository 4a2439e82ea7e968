//! Wrong answers of Check, and of what refuses a choice.

use super::{instead, wrong};
use crate::desk::{passed, Desk};
use crate::imitation::Imitation;
use crate::line::{Command, Line};

pub const WRONG: [Imitation; 7] = [
    wrong("15 passes", |desk, line| {
        let none = " 0 0".repeat(desk.week.batches.len());
        let passed = format!("passed 0\nstretches{none}\n");
        instead(desk.answer(line), "refused 15 ", &passed)
    }),
    wrong("15 before looking", |desk, line| {
        instead(desk.answer(line), "passed ", "refused 15 1 0\n")
    }),
    wrong("15 at the lowest position", |desk, line| {
        instead(desk.answer(line), "refused 15 ", "refused 15 1 0\n")
    }),
    wrong(
        "a batch set aside fails if it arrives after the bound",
        aside_fails,
    ),
    wrong(
        "a batch set aside ends at its due minute",
        aside_ends_when_due,
    ),
    wrong("13 forgotten", no_13),
    wrong("a place for a choice of the wrong length", |desk, line| {
        instead(desk.answer(line), "refused 13 0 ", "refused 13 1 0\n")
    }),
];

fn aside_fails(desk: &mut Desk, line: &[u8]) -> String {
    let answer = desk.answer(line);
    let Line::Command(Command::Check(choice)) = Line::of(line) else {
        return answer;
    };
    let Ok(passed) = reference::check(&desk.week, &choice) else {
        return answer;
    };
    let list = desk.week.in_order();
    let stretches = list.batches.iter().zip(&passed.stretches);
    let mut late = stretches.map(|(batch, stretch)| list.ready(batch) > stretch.start);
    match late.rposition(|late| late) {
        Some(i) => format!("refused 15 {} 0\n", i + 1),
        None => answer,
    }
}

fn aside_ends_when_due(desk: &mut Desk, line: &[u8]) -> String {
    let answer = desk.answer(line);
    let Line::Command(Command::Check(choice)) = Line::of(line) else {
        return answer;
    };
    let Ok(mut check) = reference::check(&desk.week, &choice) else {
        return answer;
    };
    let list = desk.week.in_order();
    for (batch, stretch) in list.batches.iter().zip(&mut check.stretches) {
        if stretch.start == stretch.end {
            stretch.start = stretch.start.min(batch.due);
            stretch.end = stretch.start;
        }
    }
    passed(check)
}

/// A choice is made to fit: of the right length, and each number one that its batch has.
fn no_13(desk: &mut Desk, line: &[u8]) -> String {
    let (word, choice) = match Line::of(line) {
        Line::Command(Command::Check(choice)) => ("check", choice),
        Line::Command(Command::Run(choice)) => ("run", choice),
        _ => return desk.answer(line),
    };
    let numbers = choice.into_iter().chain(std::iter::repeat(1));
    let list = desk.week.in_order();
    let fitted = list.batches.iter().zip(numbers).map(|(batch, number)| {
        let number = usize::from(number).min(batch.recipes.len()).max(1);
        format!(" {number}")
    });
    let line = word.to_string() + &fitted.collect::<String>();
    desk.answer(line.as_bytes())
}
