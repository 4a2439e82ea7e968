//! The families of sheets that are compared.

use crate::session::Session;
use crate::{corners, damage, examples, orders, tiny};
use drawn::weeks::{week, Shape, FULL};
use drawn::{faults, Chance};
use reference::{write, Week};

type Compare = fn(&mut Session, &mut Chance);

pub const FAMILIES: [(&str, Compare); 11] = [
    ("examples", |session, _| {
        examples::compare(session);
        corners::compare(session);
    }),
    ("tiny, any batch", |session, _| tiny::any_batch(session)),
    ("tiny, two batches", |session, _| {
        tiny::any_two_batches(session)
    }),
    ("tiny, three batches", |session, _| {
        tiny::any_three_batches(session)
    }),
    ("small", |session, chance| {
        drawn(session, chance, &SMALL, 60_000)
    }),
    ("larger", |session, chance| {
        drawn(session, chance, &LARGER, 16_000)
    }),
    ("full", |session, chance| {
        drawn(session, chance, &FULL, 4_000)
    }),
    ("several orders", orders::compare),
    ("faulty lists", faulty),
    ("damaged sheets", damaged),
    ("sizes", sizes),
];

pub const SMALL: Shape = Shape {
    batches: 0..=5,
    recipes: 1..=5,
    minutes: 1..=20,
};

pub const LARGER: Shape = Shape {
    batches: 0..=16,
    recipes: 1..=10,
    minutes: 15..=1_200,
};

/// Lists whose faults are put in on purpose: one batch at least.
const LIST: Shape = Shape {
    batches: 1..=6,
    recipes: 1..=4,
    minutes: 1..=40,
};

/// Well-formed weeks, as they are drawn.
fn drawn(session: &mut Session, chance: &mut Chance, shape: &Shape, sheets: usize) {
    for _ in 0..sheets {
        let week = week(chance, shape);
        let (table, buffer) = lent(chance, &week);
        session.compare(&write(&week), table, buffer);
    }
}

/// A fault in a list, or two.
fn faulty(session: &mut Session, chance: &mut Chance) {
    for i in 0..40_000 {
        let mut week = week(chance, &LIST);
        let (table, buffer) = lent(chance, &week);
        faults::put_in_one_or_two(chance, &mut week, i % 9 + 1);
        session.compare(&write(&week), table, buffer);
    }
}

/// Damaged bytes, once to three times; now and then in a list that has a fault, too.
fn damaged(session: &mut Session, chance: &mut Chance) {
    for i in 0..60_000 {
        let mut week = week(chance, &LIST);
        let (table, buffer) = lent(chance, &week);
        if chance.one_in(8) {
            faults::put_in(chance, &mut week, i % 9 + 1);
        }
        let mut sheet = write(&week);
        for _ in 0..chance.one_of(&[1, 1, 1, 2, 3]) {
            damage::put_in(chance, &mut sheet);
        }
        session.compare(&sheet, table, buffer);
    }
}

/// Each week with tables and buffers that are empty, short by one, exact, long by one, and longer.
fn sizes(session: &mut Session, chance: &mut Chance) {
    for _ in 0..2_000 {
        let week = week(chance, &LIST);
        let (entries, batches) = (week.entries(), week.batches.len());
        let tables = [0, entries - 1, entries, entries + 1, entries + 300];
        let buffers = [0, batches - 1, batches, batches + 1, batches + 30];
        let sizes = tables.map(|table| buffers.map(|buffer| (table, buffer)));
        session.compare_sizes(&write(&week), sizes.as_flattened());
    }
}

/// The sizes of a table and a buffer for a week: most of them long enough.
pub fn lent(chance: &mut Chance, week: &Week) -> (usize, usize) {
    let table = lent_for(chance, week.entries());
    let buffer = lent_for(chance, week.batches.len());
    (table, buffer)
}

fn lent_for(chance: &mut Chance, needed: usize) -> usize {
    match chance.below(24) {
        0 => needed.saturating_sub(1),
        1 => chance.between(0..=needed),
        2..=12 => needed,
        _ => needed + chance.between(1..=40),
    }
}
