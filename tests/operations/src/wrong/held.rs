//! Wrong plans of the book, and wrong answers where it was made to hold a list.

use super::plans::{clears_table, keeps_table};
use super::{asked, carried_out, instead, is_ok, wrong};
use crate::desk::Desk;
use crate::imitation::Imitation;
use crate::line::{Command, Line};
use reference::{Book, Week};
use std::sync::Mutex;

pub const WRONG: [Imitation; 22] = [
    wrong("a plan of the list written down", |desk, line| {
        asked(Command::Plan, desk, line, |desk, _| desk.answer(b"choose"))
    }),
    wrong("a plan of what was planned before", stale_plan),
    wrong("a plan empties the book", |desk, line| {
        empties_the_book(desk, line, "plan ")
    }),
    wrong("11 empties the book", |desk, line| {
        empties_the_book(desk, line, "refused 11 ")
    }),
    wrong("14 empties the book", |desk, line| {
        empties_the_book(desk, line, "refused 14 ")
    }),
    wrong("a book's table left unfilled", |desk, line| {
        asked(Command::Plan, desk, line, |desk, line| {
            keeps_table(desk, line, "plan ")
        })
    }),
    wrong("a book's table left unfilled on 14", |desk, line| {
        asked(Command::Plan, desk, line, |desk, line| {
            keeps_table(desk, line, "refused 14 ")
        })
    }),
    wrong("a book's table cleared on 11", |desk, line| {
        asked(Command::Plan, desk, line, |desk, line| {
            clears_table(desk, line, "refused 11 ")
        })
    }),
    wrong("a book's table cleared on 9", |desk, line| {
        asked(Command::Plan, desk, line, |desk, line| {
            clears_table(desk, line, "refused 9 ")
        })
    }),
    wrong("add asks nothing of the held list", |desk, line| {
        let (command, before, answer) = carried_out(desk, line);
        match command {
            Some(Command::Add(batch)) if before.is_refused() => {
                let list = &mut desk.book.list;
                let full = list.batches.len() >= Week::MAX_BATCHES;
                if full || list.holds(batch.number) {
                    return answer;
                }
                list.batches.push(batch);
                list.put_in_order();
                "ok\n".to_string()
            }
            _ => answer,
        }
    }),
    wrong("withdraw asks nothing of the held list", |desk, line| {
        let (command, before, answer) = carried_out(desk, line);
        match command {
            Some(Command::Withdraw(number)) if before.is_refused() => {
                let list = &mut desk.book.list;
                if !list.holds(number) {
                    return "refused 21 0 0\n".to_string();
                }
                list.batches.retain(|batch| batch.number != number);
                "ok\n".to_string()
            }
            _ => answer,
        }
    }),
    wrong("21 of number 0 before the held list", |desk, line| {
        let answer = desk.answer(line);
        match Line::of(line) {
            Line::Command(Command::Withdraw(0)) => "refused 21 0 0\n".to_string(),
            _ => answer,
        }
    }),
    wrong("20 before the held list", |desk, line| {
        let (command, before, answer) = carried_out(desk, line);
        let full = before.list.batches.len() >= Week::MAX_BATCHES;
        match command {
            Some(Command::Add(_)) if full => instead(answer, "refused ", "refused 20 0 0\n"),
            _ => answer,
        }
    }),
    wrong("no place of the held list", |desk, line| {
        let (command, _, answer) = carried_out(desk, line);
        let calls = matches!(
            command,
            Some(Command::Add(_) | Command::Withdraw(_) | Command::Plan)
        );
        match answer.split(' ').collect::<Vec<&str>>()[..] {
            ["refused", number, _, recipe] if calls => format!("refused {number} 0 {recipe}"),
            _ => answer,
        }
    }),
    wrong("a held list is put in order", |desk, line| {
        holds(desk, line, |desk, _| desk.book.list.put_in_order())
    }),
    wrong("a faulty list is not held", |desk, line| {
        holds(desk, line, |desk, before| {
            if desk.book.is_refused() {
                desk.book = before;
            }
        })
    }),
    wrong("a held list cut to 16 batches", |desk, line| {
        holds(desk, line, |desk, _| {
            desk.book.list.batches.truncate(Week::MAX_BATCHES)
        })
    }),
    wrong("a held list keeps more than 16 batches", |desk, line| {
        holds(desk, line, |desk, _| desk.book.list = desk.week.clone())
    }),
    wrong(
        "a list that is held is written down no more",
        |desk, line| holds(desk, line, |desk, _| desk.week.batches.clear()),
    ),
    wrong("a week is opened as it is written down", |desk, line| {
        let (command, _, answer) = carried_out(desk, line);
        if matches!(command, Some(Command::Week { .. })) {
            desk.book.list = desk.week.clone();
        }
        answer
    }),
    wrong("a table cleared by what is added", |desk, line| {
        let (command, _, answer) = carried_out(desk, line);
        if matches!(command, Some(Command::Add(_))) {
            desk.table.fill(0);
        }
        answer
    }),
    wrong("what is added is written down as well", |desk, line| {
        let (command, _, answer) = carried_out(desk, line);
        match command {
            Some(Command::Add(batch)) if is_ok(&answer) => desk.week.batches.push(batch),
            _ => {}
        }
        answer
    }),
];

/// The list that was planned first is planned until the book is opened again, or made to hold another.
fn stale_plan(desk: &mut Desk, line: &[u8]) -> String {
    static PLANNED: Mutex<Option<Week>> = Mutex::new(None);
    let mut planned = PLANNED.lock().expect("one thread");
    match Line::of(line) {
        Line::Command(Command::Open { .. } | Command::Hold) => *planned = None,
        Line::Command(Command::Plan) => {
            let list = planned.get_or_insert_with(|| desk.book.list.clone());
            let now = std::mem::replace(&mut desk.book.list, list.clone());
            let answer = desk.answer(line);
            desk.book.list = now;
            return answer;
        }
        _ => {}
    }
    desk.answer(line)
}

/// The book is emptied by a plan that is answered so.
fn empties_the_book(desk: &mut Desk, line: &[u8], start: &str) -> String {
    asked(Command::Plan, desk, line, |desk, line| {
        let answer = desk.answer(line);
        if answer.starts_with(start) {
            desk.book.list.batches.clear();
        }
        answer
    })
}

/// After a list is held, something more is done to the book; the one before is at hand.
fn holds(desk: &mut Desk, line: &[u8], more: fn(&mut Desk, Book)) -> String {
    let (command, before, answer) = carried_out(desk, line);
    if matches!(command, Some(Command::Hold)) {
        more(desk, before);
    }
    answer
}
