//! The best plan and the picks table by trying every choice.

use crate::list;
use crate::plan::Plan;
use crate::rule;
use crate::sheet;
use crate::week::Week;

/// Document 01, "The picks table": the entry for position i and minute x "is the recipe that the best choice for batches
/// 1 to i, with x as the closing minute, gives to batch i; it is 0 if no choice exists".
pub fn plan(week: &Week, picks: &mut [u8]) -> Option<Plan> {
    for (i, row) in picks.chunks_exact_mut(week.closes()).enumerate() {
        for (close, entry) in (week.opening..=week.closing).zip(row) {
            *entry = best(week, i + 1, close).map_or(0, |plan| plan.recipes[i]);
        }
    }
    best(week, week.batches.len(), week.closing)
}

/// The best of all choices of the first batches, this many, that meet the rule under this close.
fn best(week: &Week, batches: usize, close: u16) -> Option<Plan> {
    let mut best: Option<Plan> = None;
    let mut choice = vec![1; batches];
    loop {
        if rule::meets(week, &choice, close)
            && best.as_ref().is_none_or(|plan| beats(week, &choice, plan))
        {
            best = Some(Plan::of(week, choice.clone()));
        }
        if !advance(week, &mut choice) {
            return best;
        }
    }
}

/// "Among the choices with the greatest total .., the one taken has the lowest recipe number at the last batch, then at
/// the one before, and so on to the first."
fn beats(week: &Week, choice: &[u8], plan: &Plan) -> bool {
    let total = rule::total(week, choice);
    let lower = || choice.iter().rev().lt(plan.recipes.iter().rev());
    total > plan.total || total == plan.total && lower()
}

/// The next choice, the first batch's recipe going fastest; false after the last.
fn advance(week: &Week, choice: &mut [u8]) -> bool {
    for (batch, number) in week.batches.iter().zip(choice) {
        if usize::from(*number) < batch.recipes.len() {
            *number += 1;
            return true;
        }
        *number = 1;
    }
    false
}

/// How many choices are tried for the whole table of the list on this sheet; none if the sheet or the list is refused.
pub fn tries(sheet: &[u8]) -> Option<u64> {
    tries_of_list(&sheet::read(sheet).ok()?)
}

/// How many choices are tried for this list's whole table; none if the list is refused.
pub fn tries_of_list(week: &Week) -> Option<u64> {
    let week = list::accept(week).ok()?;
    let mut choices = 1u64;
    let mut tries = 0u64;
    for batch in &week.batches {
        choices = choices.saturating_mul(batch.recipes.len() as u64);
        tries = tries.saturating_add(choices.saturating_mul(week.closes() as u64));
    }
    Some(tries)
}
