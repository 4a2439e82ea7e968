//! Records left wrongly, or not all of them asked.

use super::orders::{by_arrival, by_due_alone, without_numbers};
use super::plans::{clears_table, keeps_table};
use super::{asked, wrong};
use crate::desk::Desk;
use crate::imitation::Imitation;
use crate::line::Command;
use reference::Week;

pub const WRONG: [Imitation; 15] = [
    wrong("records put in order on 14", |desk, line| {
        leaves(desk, line, "refused 14 ", Week::put_in_order)
    }),
    wrong("records put in order on 11", |desk, line| {
        leaves(desk, line, "refused 11 ", Week::put_in_order)
    }),
    wrong("records put in order on 9", |desk, line| {
        leaves(desk, line, "refused 9 ", Week::put_in_order)
    }),
    wrong("records put in order on 3", |desk, line| {
        leaves(desk, line, "refused 3 ", Week::put_in_order)
    }),
    wrong("records never put in order", |desk, line| {
        ordered(desk, line, |_| {})
    }),
    wrong("one record doubled", |desk, line| {
        leaves(desk, line, "plan ", |list| {
            if let [.., before, last] = &mut list.batches[..] {
                last.clone_from(before);
            }
        })
    }),
    wrong("a record without its last recipe", |desk, line| {
        leaves(desk, line, "plan ", |list| {
            if let Some(last) = list.batches.last_mut() {
                last.recipes.truncate(last.recipes.len().max(2) - 1);
            }
        })
    }),
    wrong(
        "records in order by their due minutes alone",
        |desk, line| ordered(desk, line, by_due_alone),
    ),
    wrong(
        "records in order by arrival, not by ready minute",
        |desk, line| ordered(desk, line, by_arrival),
    ),
    wrong("records in order without their numbers", |desk, line| {
        ordered(desk, line, without_numbers)
    }),
    wrong("records by value", |desk, line| {
        asked(Command::Records, desk, line, |desk, _| {
            desk.answer(b"choose")
        })
    }),
    wrong("sixteen records alone are asked", |desk, line| {
        asked(Command::Records, desk, line, |desk, line| {
            let beyond = desk.week.batches.len().min(Week::MAX_BATCHES);
            let beyond = desk.week.batches.split_off(beyond);
            let answer = desk.answer(line);
            desk.week.batches.extend(beyond);
            answer
        })
    }),
    wrong("records cut to sixteen", |desk, line| {
        leaves(desk, line, "refused 3 ", |list| {
            list.batches.truncate(Week::MAX_BATCHES)
        })
    }),
    wrong("records leave the table unfilled on 14", |desk, line| {
        asked(Command::Records, desk, line, |desk, line| {
            keeps_table(desk, line, "refused 14 ")
        })
    }),
    wrong("records fill the table on 11", |desk, line| {
        asked(Command::Records, desk, line, |desk, line| {
            clears_table(desk, line, "refused 11 ")
        })
    }),
];

/// After an answer that begins so, something is done to the records.
fn leaves(desk: &mut Desk, line: &[u8], start: &str, leave: fn(&mut Week)) -> String {
    asked(Command::Records, desk, line, |desk, line| {
        let answer = desk.answer(line);
        if answer.starts_with(start) {
            leave(&mut desk.week);
        }
        answer
    })
}

/// Accepted records are put in this order.
fn ordered(desk: &mut Desk, line: &[u8], order: fn(&mut Week)) -> String {
    asked(Command::Records, desk, line, |desk, line| {
        let lent = desk.week.clone();
        let answer = desk.answer(line);
        if answer.starts_with("plan ") {
            desk.week = lent;
            order(&mut desk.week);
        }
        answer
    })
}
