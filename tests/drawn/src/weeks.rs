//! Well-formed weeks, drawn by chance: 1 to 9 do not hold of them; whether they have a plan is left open. Most of them are not
//! in order.

use crate::chance::Chance;
use reference::{Batch, Recipe, Week};
use std::ops::RangeInclusive;

/// How large a week is drawn.
pub struct Shape {
    pub batches: RangeInclusive<usize>,
    pub recipes: RangeInclusive<usize>,
    pub minutes: RangeInclusive<u16>,
}

/// As many batches and recipes as there can be, in the longest weeks.
pub const FULL: Shape = Shape {
    batches: 16..=16,
    recipes: 10..=10,
    minutes: 2_391..=2_400,
};

/// What the batches of one week have in common.
struct Habit {
    recipes: RangeInclusive<usize>,
    /// From a quarter of a batch's share of the week to twice the share.
    greatest_cost: u16,
    /// A small one makes totals tie.
    greatest_worth: u16,
    /// How many batches of four may be set aside.
    aside: usize,
    /// Arrivals lie in the first of so many parts of the week.
    parts: u16,
}

pub fn week(chance: &mut Chance, shape: &Shape) -> Week {
    let minutes = chance.value(shape.minutes.clone());
    let count = chance.between(shape.batches.clone());
    let opening = opening(chance, minutes);
    let share = minutes / count.max(1) as u16;
    let habit = Habit {
        recipes: shape.recipes.clone(),
        greatest_cost: 1 + share * chance.one_of(&[1, 2, 4, 8]) / 4,
        greatest_worth: chance.one_of(&[1, 3, 20, u16::MAX]),
        aside: chance.below(5),
        parts: chance.one_of(&[1, 2, 8]),
    };
    let mut week = Week::empty(opening, opening + minutes);
    for number in numbers(chance, count) {
        let batch = batch(chance, &week, &habit, number);
        week.batches.push(batch);
    }
    if chance.one_in(3) {
        tie(chance, &mut week);
    }
    arrange(chance, &mut week);
    week
}

/// Some batches get the due minute and the ready minute of another, so that their numbers decide. Where that is the opening,
/// their arrivals may differ all the same.
fn tie(chance: &mut Chance, week: &mut Week) {
    for _ in 1..week.batches.len() {
        let other = &week.batches[chance.below(week.batches.len())];
        let (mut arrival, due) = (other.arrival, other.due);
        if arrival <= week.opening {
            arrival = chance.value(0..=week.opening.min(due - 1));
        }
        let at = chance.below(week.batches.len());
        week.batches[at].arrival = arrival;
        week.batches[at].due = due;
    }
}

/// In order, or with two neighbours changed about; from the last to the first; most often as chance has them.
fn arrange(chance: &mut Chance, week: &mut Week) {
    week.put_in_order();
    let batches = &mut week.batches;
    match chance.below(8) {
        0 | 1 => {}
        2 if batches.len() > 1 => {
            let at = chance.below(batches.len() - 1);
            batches.swap(at, at + 1);
        }
        3 => batches.reverse(),
        _ => chance.shuffle(batches),
    }
}

/// At the first minute that there is, at any other, or so that the close is the last one.
fn opening(chance: &mut Chance, minutes: u16) -> u16 {
    let last = u16::MAX - minutes;
    match chance.below(4) {
        0 => 0,
        1 => last,
        2 => chance.value(0..=40),
        _ => chance.value(0..=last),
    }
}

/// Numbers above 0 that are all different, in no order.
fn numbers(chance: &mut Chance, count: usize) -> Vec<u16> {
    let greatest = chance.one_of(&[40, u16::MAX]);
    let mut numbers = Vec::new();
    while numbers.len() < count {
        let number = chance.value(1..=greatest);
        if !numbers.contains(&number) {
            numbers.push(number);
        }
    }
    numbers
}

fn batch(chance: &mut Chance, week: &Week, habit: &Habit, number: u16) -> Batch {
    let (opening, closing) = (week.opening, week.closing);
    let latest = opening + (closing - opening - 1) / habit.parts;
    let arrival = if chance.one_in(4) {
        chance.value(0..=opening)
    } else {
        chance.value(opening..=latest)
    };
    let due = if chance.one_in(4) {
        chance.value(arrival + 1..=closing.saturating_add(closing - opening))
    } else {
        chance.value(arrival.max(opening) + 1..=closing)
    };
    Batch {
        number,
        arrival,
        due,
        recipes: recipes(chance, habit),
    }
}

/// Costs that never rise, the last of them 0 where the batch may be set aside.
fn recipes(chance: &mut Chance, habit: &Habit) -> Vec<Recipe> {
    let count = chance.between(habit.recipes.clone());
    let mut costs: Vec<u16> = (0..count).map(|_| cost(chance, habit)).collect();
    costs.sort_unstable_by(|a, b| b.cmp(a));
    let mut worths: Vec<u16> = (0..count)
        .map(|_| chance.value(0..=habit.greatest_worth))
        .collect();
    if chance.one_in(2) {
        worths.sort_unstable_by(|a, b| b.cmp(a));
    }
    if chance.below(4) < habit.aside {
        costs[count - 1] = 0;
        worths[count - 1] = 0;
    }
    let pairs = costs.into_iter().zip(worths);
    pairs.map(|(cost, worth)| Recipe { cost, worth }).collect()
}

fn cost(chance: &mut Chance, habit: &Habit) -> u16 {
    if chance.one_in(60) {
        chance.value(1..=u16::MAX)
    } else {
        chance.value(1..=habit.greatest_cost)
    }
}
