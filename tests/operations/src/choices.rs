//! Choices for a week, which follow its batches in order: its plan, others that are well formed, and those that 13 refuses.

use crate::line::MAX_CHOICE;
use drawn::Chance;
use reference::{Batch, Week};

/// Most of them well formed, where the list is.
pub fn choice(chance: &mut Chance, week: &Week) -> Vec<u8> {
    let week = &week.in_order();
    let kept = &week.batches[..week.batches.len().min(MAX_CHOICE)];
    let last = |batch: &Batch| batch.recipes.len().clamp(1, 255) as u8;
    let mut any = |batch: &Batch| chance.between(1..=last(batch).into()) as u8;
    let mut choice: Vec<u8> = kept.iter().map(&mut any).collect();
    match chance.below(16) {
        0..=4 => {
            if let Some(plan) = best(week) {
                return plan;
            }
        }
        5 => choice.fill(1),
        6 | 7 => choice = kept.iter().map(last).collect(),
        8 | 9 => wrong_recipe(chance, kept, &mut choice),
        10 => wrong_length(chance, &mut choice),
        11 => {
            choice = (0..chance.below(20))
                .map(|_| chance.below(256) as u8)
                .collect()
        }
        _ => {}
    }
    choice
}

/// The plan, if the week has one.
fn best(week: &Week) -> Option<Vec<u8>> {
    let mut picks = vec![0; Week::MAX_BATCHES * (usize::from(Week::MAX_MINUTES) + 1)];
    let plan = reference::choose(week, &mut picks, reference::best_by_recursion);
    plan.ok().map(|plan| plan.recipes)
}

/// 13, at a position: 0, one more than the batch has, or the greatest number.
fn wrong_recipe(chance: &mut Chance, batches: &[Batch], choice: &mut [u8]) {
    for _ in 0..chance.between(1..=2) {
        if !choice.is_empty() {
            let at = chance.below(choice.len());
            let above = (batches[at].recipes.len() + 1).min(255) as u8;
            choice[at] = chance.one_of(&[0, above, 255]);
        }
    }
}

/// 13, of the whole choice: one too few, one too many, none, or as many as can be said.
fn wrong_length(chance: &mut Chance, choice: &mut Vec<u8>) {
    let count = choice.len();
    let lengths = [
        count.saturating_sub(1),
        count + 1,
        0,
        count + 16,
        MAX_CHOICE,
    ];
    let length = chance.one_of(&lengths).min(MAX_CHOICE);
    choice.resize(length, 1);
}
