//! The weeks that are talked about: small ones, whose every choice is tried, full ones, and lists that are damaged.

use drawn::weeks::{week, Shape, FULL};
use drawn::{faults, Chance};
use reference::{Batch, Recipe, Week};

/// A week, and the bytes of table and of log that it needs, or would need without its faults.
pub struct Subject {
    pub week: Week,
    pub entries: usize,
    pub minutes: usize,
}

const SMALL: Shape = Shape {
    batches: 0..=4,
    recipes: 1..=4,
    minutes: 1..=14,
};

const LARGER: Shape = Shape {
    batches: 0..=16,
    recipes: 1..=10,
    minutes: 15..=300,
};

/// Lists whose faults are put in on purpose: one batch at least.
const LIST: Shape = Shape {
    batches: 1..=6,
    recipes: 1..=4,
    minutes: 1..=30,
};

pub fn draw(chance: &mut Chance) -> Subject {
    match chance.below(32) {
        0..=12 => Subject::new(week(chance, &SMALL)),
        13..=26 => damaged(chance, fault),
        27..=29 => damaged(chance, great_count),
        30 => Subject::new(week(chance, &LARGER)),
        _ => Subject::new(week(chance, &FULL)),
    }
}

impl Subject {
    fn new(week: Week) -> Subject {
        Subject {
            entries: week.entries(),
            minutes: week.closes() - 1,
            week,
        }
    }
}

fn damaged(chance: &mut Chance, damage: fn(&mut Chance, &mut Week)) -> Subject {
    let mut subject = Subject::new(week(chance, &LIST));
    damage(chance, &mut subject.week);
    subject
}

/// A fault of 1 to 9, or two, in a list that has a batch.
pub fn fault(chance: &mut Chance, week: &mut Week) {
    let refusal = chance.between(1..=9);
    faults::put_in_one_or_two(chance, week, refusal);
}

/// 17 to 70 batches in any order and now and then more than a byte counts, or as many recipes of one batch, in a list that has
/// one.
pub fn great_count(chance: &mut Chance, week: &mut Week) {
    let batches = &mut week.batches;
    let at = chance.below(batches.len());
    if chance.one_in(2) {
        let recipe = Recipe {
            cost: chance.value(1..=9),
            worth: chance.value(0..=9),
        };
        let count = count_above(chance, Batch::MAX_RECIPES);
        batches[at].recipes.resize(count, recipe);
    } else {
        let count = count_above(chance, Week::MAX_BATCHES);
        let batch = batches[at].clone();
        batches.resize(count, batch);
        chance.shuffle(batches);
    }
}

fn count_above(chance: &mut Chance, limit: usize) -> usize {
    match chance.below(8) {
        0 => limit + 1,
        1 => chance.between(254..=300),
        2 => 256 + chance.between(0..=limit),
        3 | 4 => chance.between(64..=70),
        _ => chance.between(limit + 1..=70),
    }
}
