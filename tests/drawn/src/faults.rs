//! Faults of a list, put into a well-formed week on purpose: document 01, "The desk, with a list".

use crate::chance::Chance;
use reference::{Batch, Recipe, Week};

/// A fault of this refusal, and now and then a second one of any, where the first has left every batch a recipe.
pub fn put_in_one_or_two(chance: &mut Chance, week: &mut Week, refusal: usize) {
    put_in(chance, week, refusal);
    if chance.one_in(4) && !week.batches.iter().any(|batch| batch.recipes.is_empty()) {
        let second = chance.between(1..=9);
        put_in(chance, week, second);
    }
}

/// Makes the condition of a refusal from 1 to 9 hold of a week that has a batch. Another may hold as well, and come before
/// it.
pub fn put_in(chance: &mut Chance, week: &mut Week, refusal: usize) {
    match refusal {
        1 => week.closing = chance.value(0..=week.opening),
        2 => long_week(chance, week),
        3 => many_batches(chance, week),
        9 => number(chance, week),
        _ => {
            let closing = week.closing;
            let at = chance.below(week.batches.len());
            put_in_batch(chance, &mut week.batches[at], closing, refusal);
        }
    }
}

/// Makes the condition of a refusal from 4 to 9 hold of a batch that has a recipe and is to be added to this list.
pub fn put_in_new(chance: &mut Chance, batch: &mut Batch, list: &Week, refusal: usize) {
    if refusal != 9 {
        put_in_batch(chance, batch, list.closing, refusal);
    } else if list.batches.is_empty() || chance.one_in(4) {
        batch.number = 0;
    } else {
        batch.number = list.batches[chance.below(list.batches.len())].number;
    }
}

fn put_in_batch(chance: &mut Chance, batch: &mut Batch, closing: u16, refusal: usize) {
    match refusal {
        4 => recipe_count(chance, batch),
        5 => batch.due = chance.value(0..=batch.arrival),
        6 => {
            batch.arrival = chance.one_of(&[closing, closing.saturating_add(1), u16::MAX - 1]);
            batch.due = batch.arrival.saturating_add(1);
        }
        7 => rising_cost(chance, batch),
        _ => worth_aside(chance, batch),
    }
}

/// 2: 2,401 minutes and more.
fn long_week(chance: &mut Chance, week: &mut Week) {
    let least = Week::MAX_MINUTES + 1;
    week.opening = week.opening.min(u16::MAX - least);
    week.closing = if chance.one_in(2) {
        week.opening + least
    } else {
        chance.value(week.opening + least..=u16::MAX)
    };
}

/// 3: 17 batches and more.
fn many_batches(chance: &mut Chance, week: &mut Week) {
    let count = Week::MAX_BATCHES + chance.between(1..=3);
    while week.batches.len() < count {
        let at = chance.below(week.batches.len());
        let mut batch = week.batches[at].clone();
        batch.number = chance.value(1..=u16::MAX);
        week.batches.push(batch);
    }
}

/// 4: no recipe, or 11 and more.
fn recipe_count(chance: &mut Chance, batch: &mut Batch) {
    let count = chance.one_of(&[0, 0, Batch::MAX_RECIPES + 1, Batch::MAX_RECIPES + 2]);
    let first = batch.recipes[0];
    batch.recipes.resize(count, first);
}

/// 7: a recipe that costs more than the one before, or that follows one of cost 0.
fn rising_cost(chance: &mut Chance, batch: &mut Batch) {
    let at = chance.below(batch.recipes.len());
    let before = batch.recipes[at].cost;
    let worth = chance.value(0..=2);
    let cost = if chance.one_in(2) {
        before.saturating_add(1)
    } else {
        batch.recipes[at].cost = 0;
        chance.one_of(&[0, before])
    };
    batch.recipes.insert(at + 1, Recipe { cost, worth });
}

/// 8: a last recipe of cost 0 with a worth.
fn worth_aside(chance: &mut Chance, batch: &mut Batch) {
    let last = batch.recipes.len() - 1;
    batch.recipes[last] = Recipe {
        cost: 0,
        worth: chance.one_of(&[1, u16::MAX]),
    };
}

/// 9: number 0, or the number of another batch. Of the two with one number the first in order is now and then made the last
/// as handed in, which is the one that is refused.
fn number(chance: &mut Chance, week: &mut Week) {
    let at = chance.below(week.batches.len());
    let other = chance.below(week.batches.len());
    if at == other {
        week.batches[at].number = 0;
        return;
    }
    week.batches[at].number = week.batches[other].number;
    let (first, last) = (at.min(other), at.max(other));
    if chance.one_in(2) && week.order(&week.batches[first]) < week.order(&week.batches[last]) {
        week.batches.swap(first, last);
    }
}
