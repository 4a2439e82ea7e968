//! The best plan by the recursion of source document 000, section 4.3, equation 7a: cell by cell, the recipes inside the
//! minutes, as its algorithm DP-Solve-P goes.

use crate::plan::Plan;
use crate::week::{Batch, Recipe, Week};

/// f(x) of the batches so far for each close x from t on; none is the paper's −∞.
type Row = Vec<Option<u64>>;

pub fn plan(week: &Week, picks: &mut [u8]) -> Option<Plan> {
    // Of no batches there is one choice, and its total is 0.
    let mut before: Row = vec![Some(0); week.closes()];
    let rows = picks.chunks_exact_mut(week.closes());
    for (batch, row) in week.batches.iter().zip(rows) {
        before = fill(week, batch, &before, row);
    }
    Plan::read_off(week, picks)
}

/// Lines 15 to 27: f and p of one batch, p being its row of the table.
fn fill(week: &Week, batch: &Batch, before: &[Option<u64>], row: &mut [u8]) -> Row {
    let closes = week.opening..=week.closing;
    closes
        .zip(row)
        .map(|(close, entry)| {
            let (value, pick) = cell(week, batch, before, close);
            *entry = pick;
            value
        })
        .collect()
}

/// f and p of one batch at one close: the greatest of worth plus f of the batches before at the bound that the recipe
/// leaves, over the recipes that fit; the lowest recipe of those that tie.
fn cell(week: &Week, batch: &Batch, before: &[Option<u64>], close: u16) -> (Option<u64>, u8) {
    let mut best = (None, 0);
    for (&recipe, number) in batch.recipes.iter().zip(1..) {
        let value = bound(week, batch, recipe, close)
            .and_then(|bound| before[bound])
            .map(|value| value + u64::from(recipe.worth));
        if value > best.0 {
            best = (value, number);
        }
    }
    best
}

/// The close that a recipe leaves to the batches before, counted from t: min(d, x) − C where s + C ≤ min(d, x). For a
/// recipe that sets the batch aside lines 20 to 22 decide, as document 01 says: the same close.
///
/// Written out again and not taken from rule.rs, so that the two do not share a mistake.
fn bound(week: &Week, batch: &Batch, recipe: Recipe, close: u16) -> Option<usize> {
    let opening = usize::from(week.opening);
    if recipe.sets_aside() {
        return Some(usize::from(close) - opening);
    }
    let end = usize::from(batch.due.min(close));
    let cost = usize::from(recipe.cost);
    (usize::from(week.ready(batch)) + cost <= end).then(|| end - cost - opening)
}
