//! Document 01, "Operations": the call, over any way to find the best plan.

use crate::list;
use crate::plan::Plan;
use crate::refusal::{Refusal, Refused};
use crate::week::Week;

/// "It gets the total, or minus the refusal number." `best` fills the n × (c − t + 1) entries that it is lent.
pub fn answer(
    sheet: &[u8],
    picks: &mut [u8],
    recipes: &mut [u8],
    best: impl Fn(&Week, &mut [u8]) -> Option<Plan>,
) -> i32 {
    match plan(sheet, picks, recipes, best) {
        Ok(total) => i32::try_from(total).expect("16 worths of 16 bits"),
        Err(refused) => -(refused.refusal as i32),
    }
}

/// "Order: 18; then line by line 16, 17; then 1, 2, 3; then batch by batch 4 to 10 ..; 11; .. 19; then 14", without 10: the
/// sheet is read into a list in order.
fn plan(
    sheet: &[u8],
    picks: &mut [u8],
    recipes: &mut [u8],
    best: impl Fn(&Week, &mut [u8]) -> Option<Plan>,
) -> Result<u64, Refused> {
    let week = list::read(sheet)?;
    Refusal::ShortPicks.when(picks.len() < week.entries())?;
    Refusal::ShortRecipes.when(recipes.len() < week.batches.len())?;
    let plan = best(&week, &mut picks[..week.entries()]).ok_or(Refusal::NoPlan)?;
    // "Acceptance writes one byte a batch and keeps the rest of that buffer."
    recipes[..plan.recipes.len()].copy_from_slice(&plan.recipes);
    Ok(plan.total)
}
