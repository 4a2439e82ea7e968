//! Lists taken in another order than theirs, and answers that do not follow it.

use super::{asked, carried_out, chosen, is_ok, list_asked, refused_at, wrong};
use crate::desk::{plan, Desk};
use crate::imitation::Imitation;
use crate::line::{Command, Line};
use reference::{refusal_told, Batch, Week};
use std::ops::RangeInclusive;

pub const WRONG: [Imitation; 24] = [
    wrong("10 still answered", |desk, line| match Line::of(line) {
        Line::Command(Command::Choose | Command::Records | Command::Check(_) | Command::Run(_)) => {
            out_of_order(desk, line)
        }
        _ => desk.answer(line),
    }),
    wrong(
        "10 still answered by the book",
        |desk, line| match Line::of(line) {
            Line::Command(Command::Add(_) | Command::Withdraw(_) | Command::Plan) => {
                out_of_order(desk, line)
            }
            _ => desk.answer(line),
        },
    ),
    wrong("9 asked of the list in order", |desk, line| {
        refused_in_order(desk, line, 9..=9)
    }),
    wrong("4 to 8 asked of the list in order", |desk, line| {
        refused_in_order(desk, line, 4..=8)
    }),
    wrong("a list planned as it was handed in", |desk, line| {
        plans(desk, line, |_| {})
    }),
    wrong("a list planned by its due minutes alone", |desk, line| {
        plans(desk, line, by_due_alone)
    }),
    wrong(
        "a list planned by arrival, not by ready minute",
        |desk, line| plans(desk, line, by_arrival),
    ),
    wrong("a list planned without its numbers", |desk, line| {
        plans(desk, line, without_numbers)
    }),
    wrong("a choice read in the order handed in", choice_turned),
    wrong("recipes in the order handed in", |desk, line| {
        turned(desk, line, "recipes", 1)
    }),
    wrong("stretches in the order handed in", |desk, line| {
        turned(desk, line, "stretches", 2)
    }),
    wrong("13 at the place handed in", |desk, line| {
        place_turned(desk, line, "refused 13 ")
    }),
    wrong("15 at the place handed in", |desk, line| {
        place_turned(desk, line, "refused 15 ")
    }),
    wrong("rows of the table in the order handed in", |desk, line| {
        let list = list_asked(desk, line).clone();
        let answer = desk.answer(line);
        if chosen(&answer) {
            let rows: Vec<&[u8]> = desk.table[..list.entries()].chunks(list.closes()).collect();
            let rows = as_handed_in(&list, &rows).concat();
            desk.table[..rows.len()].copy_from_slice(&rows);
        }
        answer
    }),
    wrong("a log of positions handed in", |desk, line| {
        let answer = desk.answer(line);
        if answer.starts_with("ran ") {
            let places = handed_in(&desk.week);
            let minutes = desk.week.closes() - 1;
            let entries = desk.log[..minutes].iter_mut();
            entries
                .filter(|entry| **entry > 0)
                .for_each(|entry| *entry = places[usize::from(*entry) - 1] as u8 + 1);
        }
        answer
    }),
    wrong("choose puts the list in order", |desk, line| {
        asked(Command::Choose, desk, line, |desk, line| {
            let answer = desk.answer(line);
            if answer.starts_with("plan ") {
                desk.week.put_in_order();
            }
            answer
        })
    }),
    wrong("a run puts the list in order", |desk, line| {
        let answer = desk.answer(line);
        if answer.starts_with("ran ") {
            desk.week.put_in_order();
        }
        answer
    }),
    wrong("a list printed in order", |desk, line| {
        printed_in_order(Command::List, desk, line)
    }),
    wrong("a sheet in order", |desk, line| {
        printed_in_order(Command::Sheet, desk, line)
    }),
    wrong("a book's plan leaves it as it stood", |desk, line| {
        let (command, before, answer) = carried_out(desk, line);
        if matches!(command, Some(Command::Plan)) {
            desk.book = before;
        }
        answer
    }),
    wrong(
        "a withdrawal leaves the others as they stood",
        |desk, line| {
            let (command, before, answer) = carried_out(desk, line);
            match command {
                Some(Command::Withdraw(number)) if is_ok(&answer) => {
                    desk.book = before;
                    let batches = &mut desk.book.list.batches;
                    batches.retain(|batch| batch.number != number);
                }
                _ => {}
            }
            answer
        },
    ),
    wrong("14 puts the book in order", |desk, line| {
        puts_the_book_in_order(desk, line, "refused 14 ")
    }),
    wrong("11 puts the book in order", |desk, line| {
        puts_the_book_in_order(desk, line, "refused 11 ")
    }),
    wrong("21 puts the book in order", |desk, line| {
        puts_the_book_in_order(desk, line, "refused 21 ")
    }),
];

/// For each place in order the index at which its batch was handed in.
fn handed_in(list: &Week) -> Vec<usize> {
    let mut places: Vec<usize> = (0..list.batches.len()).collect();
    places.sort_by_key(|&i| list.order(&list.batches[i]));
    places
}

/// What is answered of each batch, in the order handed in.
fn as_handed_in<T: Clone>(list: &Week, in_order: &[T]) -> Vec<T> {
    let mut items = in_order.to_vec();
    for (item, at) in in_order.iter().zip(handed_in(list)) {
        items[at] = item.clone();
    }
    items
}

/// 10 of a list that would be accepted: the first batch that is not in order after the one before.
fn out_of_order(desk: &mut Desk, line: &[u8]) -> String {
    let list = list_asked(desk, line);
    if reference::accept(list).is_err() || list.is_in_order() {
        return desk.answer(line);
    }
    let mut pairs = list.batches.windows(2);
    let at = pairs.position(|pair| list.order(&pair[0]) > list.order(&pair[1]));
    let answer = format!("refused 10 {} 0\n", at.expect("one out of order") + 2);
    // The line counts all the same.
    desk.answer(b"#");
    answer
}

/// One of these refusals is asked of the list in order, and names its place there.
fn refused_in_order(desk: &mut Desk, line: &[u8], refusals: RangeInclusive<usize>) -> String {
    let mut other = desk.clone();
    let answer = desk.answer(line);
    if !refusals.contains(&refusal_told(&answer)) {
        return answer;
    }
    other.week.put_in_order();
    other.book.list.put_in_order();
    other.answer(line)
}

/// Wrong orders of a list: what the key leaves out, or takes for another.
pub fn by_due_alone(list: &mut Week) {
    list.batches.sort_by_key(|batch| batch.due);
}

pub fn by_arrival(list: &mut Week) {
    let order = |batch: &Batch| (batch.due, batch.arrival, batch.number);
    list.batches.sort_by_key(order);
}

pub fn without_numbers(list: &mut Week) {
    let opening = list.opening;
    let order = |batch: &Batch| (batch.due, batch.arrival.max(opening));
    list.batches.sort_by_key(order);
}

/// An accepted list is planned in this order.
fn plans(desk: &mut Desk, line: &[u8], arrange: fn(&mut Week)) -> String {
    asked(Command::Choose, desk, line, |desk, line| {
        let answer = desk.answer(line);
        if !chosen(&answer) {
            return answer;
        }
        let mut list = desk.week.clone();
        arrange(&mut list);
        let best = reference::best_by_recursion(&list, &mut desk.table[..list.entries()]);
        best.map_or("refused 14 0 0\n".to_string(), plan)
    })
}

fn choice_turned(desk: &mut Desk, line: &[u8]) -> String {
    let (word, choice) = match Line::of(line) {
        Line::Command(Command::Check(choice)) => ("check", choice),
        Line::Command(Command::Run(choice)) => ("run", choice),
        _ => return desk.answer(line),
    };
    let places = handed_in(&desk.week);
    if places.len() != choice.len() {
        return desk.answer(line);
    }
    let numbers = places.into_iter().map(|at| format!(" {}", choice[at]));
    let line = word.to_string() + &numbers.collect::<String>();
    desk.answer(line.as_bytes())
}

/// The words after this one, so many a batch.
fn turned(desk: &mut Desk, line: &[u8], word: &str, each: usize) -> String {
    let list = list_asked(desk, line).clone();
    let answer = desk.answer(line);
    let Some((before, rest)) = answer.split_once(&format!("\n{word}")) else {
        return answer;
    };
    let words: Vec<&str> = rest.split_whitespace().collect();
    let items: Vec<&[&str]> = words.chunks(each).collect();
    let words = as_handed_in(&list, &items).concat();
    let words = words.iter().map(|word| format!(" {word}"));
    format!("{before}\n{word}{}\n", words.collect::<String>())
}

/// The place of a refusal that begins so.
fn place_turned(desk: &mut Desk, line: &[u8], start: &str) -> String {
    let answer = desk.answer(line);
    match refused_at(&answer, start) {
        Some(place @ 1..) => {
            let at = handed_in(&desk.week)[place - 1];
            format!("{start}{} 0\n", at + 1)
        }
        _ => answer,
    }
}

fn printed_in_order(command: Command, desk: &mut Desk, line: &[u8]) -> String {
    asked(command, desk, line, |desk, line| {
        let list = desk.week.clone();
        desk.week.put_in_order();
        let answer = desk.answer(line);
        desk.week = list;
        answer
    })
}

/// An answer that begins so leaves the book in order.
fn puts_the_book_in_order(desk: &mut Desk, line: &[u8], start: &str) -> String {
    let (command, _, answer) = carried_out(desk, line);
    let calls = matches!(command, Some(Command::Withdraw(_) | Command::Plan));
    if calls && answer.starts_with(start) {
        desk.book.list.put_in_order();
    }
    answer
}
