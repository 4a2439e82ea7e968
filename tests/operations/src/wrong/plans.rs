//! Wrong plans, and wrong bytes in the picks table.

use super::{asked, instead, list_asked, wrong};
use crate::desk::Desk;
use crate::imitation::Imitation;
use crate::line::Command;

pub const WRONG: [Imitation; 10] = [
    wrong("recipe 1 always", |desk, line| {
        let answer = desk.answer(line);
        let ones = " 1".repeat(list_asked(desk, line).batches.len());
        match answer.split_once("\nrecipes") {
            Some((plan, _)) => format!("{plan}\nrecipes{ones}\n"),
            None => answer,
        }
    }),
    wrong("14 to all", |desk, line| {
        instead(desk.answer(line), "plan ", "refused 14 0 0\n")
    }),
    wrong("no choice as a total of 0", |desk, line| {
        let none = " 0".repeat(list_asked(desk, line).batches.len());
        let plan = format!("plan 0\nrecipes{none}\n");
        instead(desk.answer(line), "refused 14 ", &plan)
    }),
    wrong("a tie to the higher recipe", tie_to_the_higher),
    wrong("the table left unfilled", |desk, line| {
        asked(Command::Choose, desk, line, |desk, line| {
            keeps_table(desk, line, "plan ")
        })
    }),
    wrong("the table left unfilled on 14", |desk, line| {
        asked(Command::Choose, desk, line, |desk, line| {
            keeps_table(desk, line, "refused 14 ")
        })
    }),
    wrong("the table filled on 11", |desk, line| {
        asked(Command::Choose, desk, line, |desk, line| {
            clears_table(desk, line, "refused 11 ")
        })
    }),
    wrong("the table filled on 9", |desk, line| {
        asked(Command::Choose, desk, line, |desk, line| {
            clears_table(desk, line, "refused 9 ")
        })
    }),
    wrong("a byte beyond the table's part altered", |desk, line| {
        let answer = desk.answer(line);
        if answer.starts_with("plan ") {
            let beyond = list_asked(desk, line).entries();
            desk.table
                .iter_mut()
                .skip(beyond)
                .take(1)
                .for_each(|byte| *byte ^= 1);
        }
        answer
    }),
    wrong("an entry of 0 as the last recipe", |desk, line| {
        let answer = desk.answer(line);
        if answer.starts_with("plan ") {
            let list = list_asked(desk, line).in_order();
            let rows = desk.table.chunks_exact_mut(list.closes());
            for (row, batch) in rows.zip(&list.batches) {
                let last = batch.recipes.len() as u8;
                row.iter_mut()
                    .filter(|entry| **entry == 0)
                    .for_each(|entry| *entry = last);
            }
        }
        answer
    }),
];

/// The table stays as it was under an answer that begins so.
pub fn keeps_table(desk: &mut Desk, line: &[u8], start: &str) -> String {
    let table = desk.table.clone();
    let answer = desk.answer(line);
    if answer.starts_with(start) {
        desk.table = table;
    }
    answer
}

/// The table is filled with 0 under an answer that begins so.
pub fn clears_table(desk: &mut Desk, line: &[u8], start: &str) -> String {
    let answer = desk.answer(line);
    if answer.starts_with(start) {
        desk.table.fill(0);
    }
    answer
}

/// The plan with the next recipe at one batch, where it has the same total and passes.
fn tie_to_the_higher(desk: &mut Desk, line: &[u8]) -> String {
    let answer = desk.answer(line);
    let Some((plan, recipes)) = answer.split_once("\nrecipes") else {
        return answer;
    };
    let numbers = recipes.split_whitespace().map(str::parse);
    let recipes: Vec<u8> = numbers.collect::<Result<_, _>>().expect("numbers");
    for i in 0..recipes.len() {
        let mut higher = recipes.clone();
        higher[i] += 1;
        let checked = reference::check(list_asked(desk, line), &higher);
        if checked.is_ok_and(|passed| plan == format!("plan {}", passed.total)) {
            let numbers = higher.iter().map(|number| format!(" {number}"));
            return format!("{plan}\nrecipes{}\n", numbers.collect::<String>());
        }
    }
    answer
}
