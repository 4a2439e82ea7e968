//! Wrong answers of the book, opened, added to and withdrawn from.

use super::{carried_out, instead, is_ok, wrong};
use crate::desk::Desk;
use crate::imitation::Imitation;
use crate::line::{Command, Line};
use reference::{Batch, Book, Week};
use std::sync::atomic::{AtomicUsize, Ordering};

pub const WRONG: [Imitation; 22] = [
    wrong("a refused opening keeps the book", |desk, line| {
        let (command, before, answer) = carried_out(desk, line);
        if matches!(command, Some(Command::Open { .. })) && !is_ok(&answer) {
            desk.book = before;
        }
        answer
    }),
    wrong("an opening keeps the batches", |desk, line| {
        let (command, before, answer) = carried_out(desk, line);
        if matches!(command, Some(Command::Open { .. })) && is_ok(&answer) {
            desk.book.list.batches = before.list.batches;
        }
        answer
    }),
    wrong("a batch added at the end", |desk, line| {
        adds(desk, line, |list, batch| list.batches.push(batch))
    }),
    wrong("a batch added by its due minute alone", |desk, line| {
        adds(desk, line, |list, batch| {
            list.batches.push(batch);
            list.batches.sort_by_key(|batch| batch.due);
        })
    }),
    wrong("a batch added by arrival", |desk, line| {
        adds(desk, line, |list, batch| {
            list.batches.push(batch);
            let order = |batch: &Batch| (batch.due, batch.arrival, batch.number);
            list.batches.sort_by_key(order);
        })
    }),
    wrong("a batch added without its last recipe", |desk, line| {
        adds(desk, line, |list, mut batch| {
            batch.recipes.truncate(batch.recipes.len().max(2) - 1);
            list.batches.push(batch);
            list.put_in_order();
        })
    }),
    wrong("10 on add", |desk, line| {
        let (command, before, answer) = carried_out(desk, line);
        match command {
            Some(Command::Add(batch)) if is_ok(&answer) => {
                if before.list.before(&batch) == before.list.batches.len() {
                    return answer;
                }
                desk.book = before;
                "refused 10 0 0\n".to_string()
            }
            _ => answer,
        }
    }),
    wrong("9 of the batches before the new one alone", |desk, line| {
        takes(desk, line, "refused 9 0 ", |list, batch| {
            let before = &list.batches[..list.before(batch)];
            batch.number != 0 && !before.iter().any(|other| other.number == batch.number)
        })
    }),
    wrong("number 0 is added", |desk, line| {
        takes(desk, line, "refused 9 0 ", |_, batch| batch.number == 0)
    }),
    wrong("a seventeenth batch is added", |desk, line| {
        takes(desk, line, "refused 20 ", |_, _| true)
    }),
    wrong("eleven recipes are added", |desk, line| {
        takes(desk, line, "refused 4 0 ", |_, batch| {
            batch.recipes.len() > Batch::MAX_RECIPES
        })
    }),
    wrong("a batch refused with 7 is in the book", |desk, line| {
        let (command, _, answer) = carried_out(desk, line);
        match command {
            Some(Command::Add(batch)) if answer.starts_with("refused 7 0 ") => {
                desk.book.list.batches.push(batch);
                desk.book.list.put_in_order();
            }
            _ => {}
        }
        answer
    }),
    wrong("a refused add turns the batches round", |desk, line| {
        let (command, _, answer) = carried_out(desk, line);
        if matches!(command, Some(Command::Add(_))) && !is_ok(&answer) {
            desk.book.list.batches.reverse();
        }
        answer
    }),
    wrong("20 after 4", |desk, line| {
        let (command, before, answer) = carried_out(desk, line);
        match command {
            Some(Command::Add(batch)) if answer.starts_with("refused 20 ") => {
                alone(&before.list, batch).unwrap_or(answer)
            }
            _ => answer,
        }
    }),
    wrong("20 after 9", |desk, line| {
        let (command, before, answer) = carried_out(desk, line);
        match command {
            Some(Command::Add(batch)) if before.list.holds(batch.number) => {
                instead(answer, "refused 20 ", "refused 9 0 0\n")
            }
            _ => answer,
        }
    }),
    wrong("a place of the new batch", |desk, line| {
        let (command, before, answer) = carried_out(desk, line);
        let Some(Command::Add(batch)) = command else {
            return answer;
        };
        let place = before.list.before(&batch) + 1;
        match answer.split(' ').collect::<Vec<&str>>()[..] {
            ["refused", number @ ("4" | "5" | "6" | "7" | "8" | "9"), "0", recipe] => {
                format!("refused {number} {place} {recipe}")
            }
            _ => answer,
        }
    }),
    wrong("a withdrawn place is not used again", places_used_once),
    wrong("the first is withdrawn", |desk, line| {
        withdraws(desk, line, |list, _| drop(list.batches.remove(0)))
    }),
    wrong("the last is withdrawn", |desk, line| {
        withdraws(desk, line, |list, _| drop(list.batches.pop()))
    }),
    wrong("all are withdrawn from a number on", |desk, line| {
        withdraws(desk, line, |list, number| {
            let mut batches = list.batches.iter();
            let at = batches.position(|batch| batch.number == number);
            list.batches.truncate(at.unwrap_or(0));
        })
    }),
    wrong("21 is ok", |desk, line| {
        instead(desk.answer(line), "refused 21 ", "ok\n")
    }),
    wrong("21 takes the last batch", |desk, line| {
        let answer = desk.answer(line);
        if answer.starts_with("refused 21 ") {
            desk.book.list.batches.pop();
        }
        answer
    }),
];

/// What an empty book of the same week refuses in this batch.
fn alone(list: &Week, batch: Batch) -> Option<String> {
    let mut book = Book::empty(list.opening, list.closing);
    let refused = book.add(batch).err();
    refused.map(|refused| format!("{refused}\n"))
}

/// An accepted batch is added in another way.
fn adds(desk: &mut Desk, line: &[u8], add: fn(&mut Week, Batch)) -> String {
    let (command, before, answer) = carried_out(desk, line);
    match command {
        Some(Command::Add(batch)) if is_ok(&answer) => {
            desk.book = before;
            add(&mut desk.book.list, batch);
        }
        _ => {}
    }
    answer
}

/// A batch that is refused so is added all the same, where this holds.
fn takes(desk: &mut Desk, line: &[u8], start: &str, holds: fn(&Week, &Batch) -> bool) -> String {
    let answer = desk.answer(line);
    let list = &mut desk.book.list;
    match Line::of(line) {
        Line::Command(Command::Add(batch)) if answer.starts_with(start) && holds(list, &batch) => {
            list.batches.push(batch);
            list.put_in_order();
            "ok\n".to_string()
        }
        _ => answer,
    }
}

/// Another batch is withdrawn.
fn withdraws(desk: &mut Desk, line: &[u8], withdraw: fn(&mut Week, u16)) -> String {
    let (command, before, answer) = carried_out(desk, line);
    match command {
        Some(Command::Withdraw(number)) if is_ok(&answer) => {
            desk.book = before;
            withdraw(&mut desk.book.list, number);
        }
        _ => {}
    }
    answer
}

/// Every accepted batch counts, the withdrawn too.
fn places_used_once(desk: &mut Desk, line: &[u8]) -> String {
    static PLACES: AtomicUsize = AtomicUsize::new(0);
    let (command, before, answer) = carried_out(desk, line);
    match command {
        Some(Command::Open { .. } | Command::Hold) => {
            PLACES.store(desk.book.list.batches.len(), Ordering::Relaxed);
        }
        Some(Command::Add(_)) if is_ok(&answer) => {
            let used = PLACES.fetch_add(1, Ordering::Relaxed);
            if used < Week::MAX_BATCHES {
                return answer;
            }
            desk.book = before;
            return "refused 20 0 0\n".to_string();
        }
        _ => {}
    }
    answer
}
