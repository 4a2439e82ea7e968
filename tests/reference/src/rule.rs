//! Document 01, "The backward rule".

use crate::week::{Batch, Recipe, Week};

/// "start and end of stretch".
pub struct Stretch {
    pub start: u16,
    pub end: u16,
}

/// The stretch of a batch under this bound, or none where the rule is broken.
///
/// "For a batch that is read, its stretch ends at the smaller of d and the bound, and starts its recipe's cost earlier.
/// The rule asks that s plus the cost is at most that end. .. A batch that is set aside asks nothing and leaves the bound;
/// its stretch starts and ends at the bound."
pub fn stretch(week: &Week, batch: &Batch, recipe: Recipe, bound: u16) -> Option<Stretch> {
    if recipe.sets_aside() {
        return Some(Stretch {
            start: bound,
            end: bound,
        });
    }
    let end = batch.due.min(bound);
    let start = end.checked_sub(recipe.cost)?;
    (week.ready(batch) <= start).then_some(Stretch { start, end })
}

/// "Go from the last batch to the first, with a bound that starts at c", which is `close` here. ".. The start becomes the
/// next bound." The stretches of a choice of the first batches, in that order; none for the first that breaks the rule.
fn backward<'a>(
    week: &'a Week,
    choice: &'a [u8],
    close: u16,
) -> impl Iterator<Item = Option<Stretch>> + 'a {
    let mut bound = close;
    let chosen = week.batches[..choice.len()].iter().zip(choice);
    chosen.rev().map(move |(batch, &number)| {
        let stretch = stretch(week, batch, batch.recipe(number), bound)?;
        bound = stretch.start;
        Some(stretch)
    })
}

/// Whether a choice of the first batches meets the rule: "if what the rule asks holds at every batch".
pub fn meets(week: &Week, choice: &[u8], close: u16) -> bool {
    backward(week, choice, close).all(|stretch| stretch.is_some())
}

/// The stretches of a choice that meets the rule, in list order; of one that breaks it "the first failing position met
/// going backward".
pub fn stretches(week: &Week, choice: &[u8]) -> Result<Vec<Stretch>, usize> {
    let positions = (1..=choice.len()).rev();
    let backward = backward(week, choice, week.closing).zip(positions);
    let mut stretches = backward
        .map(|(stretch, position)| stretch.ok_or(position))
        .collect::<Result<Vec<Stretch>, usize>>()?;
    stretches.reverse();
    Ok(stretches)
}

/// "The total of a choice is the sum of the chosen worths."
pub fn total(week: &Week, choice: &[u8]) -> u64 {
    let worths = week.batches.iter().zip(choice);
    worths
        .map(|(batch, &number)| u64::from(batch.recipe(number).worth))
        .sum()
}
