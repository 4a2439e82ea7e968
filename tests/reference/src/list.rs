//! Document 01, "The desk, with a list": "then 1, 2, 3; then batch by batch 4 to 10, each batch whole before the next; then
//! 13". Document 02, Two: a list comes in any order, and "10 no longer occurs".

use crate::refusal::{Refusal, Refused};
use crate::sheet;
use crate::week::{Batch, Week};

/// "Read a sheet, answering a list that passed" the list's refusals.
pub fn read(sheet: &[u8]) -> Result<Week, Refused> {
    accept(&sheet::read(sheet)?)
}

/// The list in order, where it is not refused as it was handed in: "all other calls order inside"; "Choices, answers,
/// tables, logs and the recipe buffer follow the ordered list".
pub fn accept(week: &Week) -> Result<Week, Refused> {
    judge(week)?;
    Ok(week.in_order())
}

/// Whether 1 to 9 let this list pass; it may hold any number of batches, and each of them any number of recipes.
pub fn judge(week: &Week) -> Result<(), Refused> {
    Refusal::CloseNotAfterOpening.when(week.closing <= week.opening)?;
    Refusal::WeekTooLong.when(week.closing - week.opening > Week::MAX_MINUTES)?;
    Refusal::TooManyBatches.when(week.batches.len() > Week::MAX_BATCHES)?;
    (0..week.batches.len())
        .try_for_each(|i| judge_batch(week, i).map_err(|refused| refused.at(i + 1)))
}

/// "13: a choice whose length is not n (position 0), or that names a recipe its batch has not got (the first such
/// position)", of a list that is accepted and in order.
pub fn judge_choice(week: &Week, choice: &[u8]) -> Result<(), Refused> {
    Refusal::Choice.when(choice.len() != week.batches.len())?;
    let mut chosen = week.batches.iter().zip(choice);
    let missing = chosen.position(|(batch, &number)| !batch.has_recipe(number));
    missing.map_or(Ok(()), |i| Err(Refused::from(Refusal::Choice).at(i + 1)))
}

/// The batch with index i, after the batches handed in before it.
fn judge_batch(week: &Week, i: usize) -> Result<(), Refused> {
    judge_beside(&week.batches[i], &week.batches[..i], week.closing)
}

/// 4 to 9 of a batch beside these others, naming no place.
pub fn judge_beside(batch: &Batch, others: &[Batch], closing: u16) -> Result<(), Refused> {
    let count = batch.recipes.len();
    Refusal::RecipeCount.when(count == 0 || count > Batch::MAX_RECIPES)?;
    Refusal::DueNotAfterArrival.when(batch.due <= batch.arrival)?;
    Refusal::ArrivalNotBeforeClose.when(batch.arrival >= closing)?;
    judge_recipes(batch)?;
    let number = batch.number;
    Refusal::BatchNumber.when(number == 0 || others.iter().any(|other| other.number == number))
}

/// "Refusal 7 names the first faulty recipe": the second of the first pair.
fn judge_recipes(batch: &Batch) -> Result<(), Refused> {
    let mut pairs = batch.recipes.windows(2);
    let mut recipes = batch.recipes.iter();
    let rising_cost = pairs.position(|pair| pair[1].cost > pair[0].cost || pair[0].cost == 0);
    Refusal::CostOrder.of_recipe(rising_cost.map(|index| index + 2))?;
    let worth_aside = recipes.position(|recipe| recipe.cost == 0 && recipe.worth > 0);
    Refusal::WorthSetAside.of_recipe(worth_aside.map(|index| index + 1))
}
