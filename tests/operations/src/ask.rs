//! The operations, asked of the desk over what is written down.

use crate::choices::choice;
use crate::desk::{Desk, KEPT_BATCHES, MOST_TRIES};
use crate::handwriting;
use crate::script::Script;
use drawn::Chance;
use reference::{refusal_told, Batch, Outcome, Run, Week};

pub fn operation(script: &mut Script, chance: &mut Chance) {
    match chance.below(22) {
        0..=4 => drop(choose(script, &CHOOSE)),
        5..=8 => records(script),
        9..=12 => check(script, chance),
        13..=16 => run(script, chance),
        17 | 18 => drop(list(script)),
        19 | 20 => sheet(script),
        _ if chance.one_in(4) => help(script),
        _ => write_down_again(script, chance),
    }
}

/// Choosing from the list, or from its records, or planning the book, and what is shown by it.
pub struct Choosing {
    command: &'static str,
    of: fn(&Desk) -> &Week,
    by_every_choice: &'static str,
    by_the_recursion: &'static str,
    of_a_full_week: &'static str,
    table: &'static str,
    table_after_a_refusal: &'static str,
    table_filled_on_14: &'static str,
    table_with_bytes_kept: &'static str,
}

pub const CHOOSE: Choosing = Choosing {
    command: "choose",
    of: |desk| &desk.week,
    by_every_choice: "planned by every choice",
    by_the_recursion: "planned by the recursion",
    of_a_full_week: "planned by the recursion, a full week",
    table: "a table",
    table_after_a_refusal: "a table after a refusal",
    table_filled_on_14: "a table filled on 14",
    table_with_bytes_kept: "a table with bytes that are kept",
};

pub const RECORDS: Choosing = Choosing {
    command: "records",
    of: |desk| &desk.week,
    by_every_choice: "records planned by every choice",
    by_the_recursion: "records planned by the recursion",
    of_a_full_week: "records planned by the recursion, a full week",
    table: "a table of records",
    table_after_a_refusal: "a table of records after a refusal",
    table_filled_on_14: "a table of records filled on 14",
    table_with_bytes_kept: "a table of records with bytes that are kept",
};

pub const PLAN: Choosing = Choosing {
    command: "plan",
    of: |desk| &desk.book.list,
    by_every_choice: "a book planned by every choice",
    by_the_recursion: "a book planned by the recursion",
    of_a_full_week: "a book planned by the recursion, a full week",
    table: "a book's table",
    table_after_a_refusal: "a book's table after a refusal",
    table_filled_on_14: "a book's table filled on 14",
    table_with_bytes_kept: "a book's table with bytes that are kept",
};

/// The plan, then every byte of the table.
pub fn choose(script: &mut Script, choosing: &Choosing) -> [String; 2] {
    let before = script.desk.table.clone();
    let answer = script.say(choosing.command);
    let no_plan = answer.starts_with("refused 14 ");
    let refused = answer.starts_with("refused ") && !no_plan;
    if !refused {
        let planned = choosing.planned(&script.desk);
        script.shows(planned);
    }
    let (list, table) = ((choosing.of)(&script.desk), &script.desk.table);
    let left = if refused {
        choosing.table_after_a_refusal
    } else if no_plan && *table != before {
        choosing.table_filled_on_14
    } else if keeps(table, list.entries()) {
        choosing.table_with_bytes_kept
    } else {
        choosing.table
    };
    let shown = script.say("show table");
    script.shows(left);
    [answer, shown]
}

/// Whether bytes follow those that are written, so many, and were lent with a value above 0.
fn keeps(bytes: &[u8], written: usize) -> bool {
    bytes.len() > written && bytes.last() != Some(&0)
}

impl Choosing {
    /// What a plan, or that there is none, was held to.
    fn planned(&self, desk: &Desk) -> &'static str {
        let list = (self.of)(desk);
        let full = list.batches.len() == Week::MAX_BATCHES && list.closes() > 2_390;
        match reference::tries_of_list(list) {
            Some(..=MOST_TRIES) => self.by_every_choice,
            _ if full => self.of_a_full_week,
            _ => self.by_the_recursion,
        }
    }
}

/// The plan by lent records and the table, then the records as they are left.
fn records(script: &mut Script) {
    let lent = script.desk.week.clone();
    let [answer, _] = choose(script, &RECORDS);
    script.say("list");
    script.shows(left_by_records(&lent, &answer));
}

fn left_by_records(lent: &Week, answer: &str) -> &'static str {
    match (refusal_told(answer), lent.is_in_order()) {
        (0, true) => "records that came in order",
        (0, false) => "records put in order",
        (3, _) if lent.batches.len() > KEPT_BATCHES => "more than 64 records left",
        (3, _) => "more than 16 records left",
        (14, false) => "records left out of order on 14",
        (_, false) => "records left out of order by another refusal",
        (_, true) => "records that came in order refused",
    }
}

fn check(script: &mut Script, chance: &mut Chance) {
    let choice = choice(chance, &script.desk.week);
    script.say(handwriting::line(chance, "check", &choice));
}

/// Run, then every byte of the log.
fn run(script: &mut Script, chance: &mut Chance) {
    let choice = choice(chance, &script.desk.week);
    let answer = script.say(handwriting::line(chance, "run", &choice));
    let refused = answer.starts_with("refused ");
    if !refused && late(&script.desk.week, &choice) {
        script.shows("a run with a late batch");
    }
    let Desk { week, log, .. } = &script.desk;
    let left = if refused {
        "a log after a refusal"
    } else if keeps(log, week.closes() - 1) {
        "a log with bytes that are kept"
    } else {
        "a log"
    };
    script.say("show log");
    script.shows(left);
}

/// Whether a batch is finished after its due minute.
fn late(week: &Week, choice: &[u8]) -> bool {
    let week = week.in_order();
    let outcomes = Run::of(&week, choice).outcomes();
    let mut finished = week.batches.iter().zip(&outcomes);
    finished.any(|(batch, outcome)| {
        matches!(outcome, Outcome::Finished(minute) if *minute > usize::from(batch.due))
    })
}

fn list(script: &mut Script) -> String {
    let answer = script.say("list");
    let batches = &script.desk.week.batches;
    let above = |batch: &Batch| batch.recipes.len() > Batch::MAX_RECIPES;
    if batches.len() > KEPT_BATCHES {
        script.shows("a list of more than 64 batches");
    } else if batches.iter().any(above) {
        script.shows("a list with more than 10 recipes");
    }
    answer
}

fn sheet(script: &mut Script) {
    let answer = script.say("sheet");
    let mut batches = script.desk.week.batches.iter();
    if !answer.starts_with("refused ") && batches.any(|batch| batch.recipes.is_empty()) {
        script.shows("a sheet with a batch without recipes");
    }
}

fn help(script: &mut Script) {
    script.say("help");
    script.shows("help");
}

/// What `list` prints is written down again, and everything is answered as before.
fn write_down_again(script: &mut Script, chance: &mut Chance) {
    let choice = choice(chance, &script.desk.week);
    let check = handwriting::line(chance, "check", &choice);
    let ask = |script: &mut Script| [list(script), script.say("sheet"), script.say(check.clone())];
    let before = ask(script);
    for line in before[0].lines() {
        script.say(line);
    }
    let after = ask(script);
    script.shows("a list written down again");
    assert_eq!(before, after, "a list written down again is the same list");
}
