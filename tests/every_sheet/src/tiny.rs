//! Tiny weeks, every one of a family: no chance in it.

use crate::session::Session;
use reference::{write, Batch, Recipe, Week};
use std::ops::RangeInclusive;

/// An arrival and a due minute.
type Window = (u16, u16);

/// Every value of the first range with every value of the second.
fn pairs(firsts: RangeInclusive<u16>, seconds: RangeInclusive<u16>) -> Vec<(u16, u16)> {
    let pairs = firsts.flat_map(|first| seconds.clone().map(move |second| (first, second)));
    pairs.collect()
}

fn recipe(cost: u16, worth: u16) -> Recipe {
    Recipe { cost, worth }
}

fn batch(number: usize, (arrival, due): Window, recipes: &[Recipe]) -> Batch {
    Batch {
        number: number as u16,
        arrival,
        due,
        recipes: recipes.to_vec(),
    }
}

/// A sheet with a table and a buffer that are longer than they need be.
fn compare(session: &mut Session, opening: u16, closing: u16, batches: Vec<Batch>) {
    let buffer = batches.len() + 2;
    let table = batches.len() * 4 + 3;
    let sheet = write(&Week {
        opening,
        closing,
        batches,
    });
    session.compare(&sheet, table, buffer);
}

/// Every list of at most two recipes with a cost up to this and a worth up to 1, faulty ones among them.
fn any_recipes(greatest_cost: u16) -> Vec<Vec<Recipe>> {
    let single: Vec<Recipe> = (0..=greatest_cost)
        .flat_map(|cost| [recipe(cost, 0), recipe(cost, 1)])
        .collect();
    let mut lists = vec![vec![]];
    for &first in &single {
        lists.push(vec![first]);
        lists.extend(single.iter().map(|&second| vec![first, second]));
    }
    lists
}

fn well_formed(recipes: &[Recipe]) -> bool {
    let falling = recipes
        .windows(2)
        .all(|pair| pair[0].cost > 0 && pair[1].cost <= pair[0].cost);
    let aside = recipes
        .iter()
        .all(|recipe| recipe.cost > 0 || recipe.worth == 0);
    !recipes.is_empty() && falling && aside
}

/// One batch, every value in it from 0 to 4 or less, in every week that opens up to 2 and closes from 1 to 3.
pub fn any_batch(session: &mut Session) {
    let windows = pairs(0..=3, 0..=4);
    let lists = any_recipes(2);
    let kinds = kinds(&windows, &lists);
    for (opening, closing) in pairs(0..=2, 1..=3) {
        for &(window, recipes) in &kinds {
            compare(session, opening, closing, vec![batch(0, window, recipes)]);
            compare(session, opening, closing, vec![batch(1, window, recipes)]);
        }
    }
}

/// Two batches in the week 1 to 3: every window, and every well-formed list of at most two recipes with costs up to 3
/// and worths up to 1; of two that are due together each as the first of the two numbers. The lists of no batch and of one as
/// well.
pub fn any_two_batches(session: &mut Session) {
    let mut windows = pairs(0..=2, 1..=4);
    windows.retain(|(arrival, due)| arrival < due);
    let mut lists = any_recipes(3);
    lists.retain(|recipes| well_formed(recipes));
    let kinds = kinds(&windows, &lists);
    compare(session, 1, 3, vec![]);
    for &(first, of_first) in &kinds {
        compare(session, 1, 3, vec![batch(1, first, of_first)]);
        for &(second, of_second) in &kinds {
            let numbered =
                |one, other| vec![batch(one, first, of_first), batch(other, second, of_second)];
            compare(session, 1, 3, numbered(1, 2));
            if first.1 == second.1 {
                compare(session, 1, 3, numbered(2, 1));
            }
        }
    }
}

/// Three batches in the week 0 to 3, in every order, their numbers rising and falling, over four windows and six lists of
/// recipes.
pub fn any_three_batches(session: &mut Session) {
    let windows = [(0, 1), (0, 3), (1, 2), (1, 3)];
    let lists = [
        vec![recipe(1, 1)],
        vec![recipe(2, 1), recipe(1, 1)],
        vec![recipe(3, 2), recipe(1, 1)],
        vec![recipe(1, 0), recipe(0, 0)],
        vec![recipe(2, 2), recipe(0, 0)],
        vec![recipe(2, 3), recipe(1, 1), recipe(0, 0)],
    ];
    let kinds = kinds(&windows, &lists);
    let count = kinds.len();
    for i in 0..count.pow(3) {
        let chosen = [i / count / count, i / count % count, i % count].map(|kind| kinds[kind]);
        for numbers in [[1, 2, 3], [3, 2, 1]] {
            let batches = numbers.into_iter().zip(chosen);
            let batches = batches.map(|(number, (window, recipes))| batch(number, window, recipes));
            compare(session, 0, 3, batches.collect());
        }
    }
}

/// Every window with every list of recipes.
fn kinds<'a>(windows: &[Window], lists: &'a [Vec<Recipe>]) -> Vec<(Window, &'a [Recipe])> {
    let kinds = windows
        .iter()
        .flat_map(|&window| lists.iter().map(move |list| (window, list.as_slice())));
    kinds.collect()
}
