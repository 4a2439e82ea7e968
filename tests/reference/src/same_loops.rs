//! The best plan in the planner's order of loops: a row of packed words is swept once for each recipe, so that the innermost
//! loop goes over the minutes, and has no branch.

use crate::plan::Plan;
use crate::week::{Recipe, Week};

/// A choice in one number: 16 times one more than its total, plus 16 less its last recipe; 0 where no choice meets the rule.
/// A score is a word without its recipe.
type Word = i32;

const RADIX: Word = 16;

/// A batch's minutes, counted from the opening.
struct Window {
    ready: usize,
    due: usize,
}

pub fn plan(week: &Week, picks: &mut [u8]) -> Option<Plan> {
    let closes = week.closes();
    let mut scores = vec![RADIX; closes];
    let mut words = vec![0; closes];
    // The batches so far have a choice from this close on, and none before it.
    let mut from = 0;
    for (batch, row) in week.batches.iter().zip(picks.chunks_exact_mut(closes)) {
        words.fill(0);
        let ready = usize::from(week.ready(batch) - week.opening);
        let window = Window {
            ready: ready.max(from),
            due: usize::from(batch.due.saturating_sub(week.opening)),
        };
        let mut level = 0;
        let mut next = closes;
        for (&recipe, number) in batch.recipes.iter().zip(1..) {
            let word = Word::from(recipe.worth) * RADIX + (RADIX - number);
            if recipe.sets_aside() {
                shift(&scores[from..], word, &mut words[from..]);
                next = next.min(from);
            } else if let Some(first) = window.first(recipe) {
                level = level.max(offer(&window, first, recipe, word, &scores, &mut words));
                next = next.min(first);
            }
        }
        raise(level, &mut words[closes.min(window.due)..]);
        settle(&words, &mut scores, row);
        from = next;
    }
    Plan::read_off(week, picks)
}

impl Window {
    /// The first close that a recipe which is read can have; none if it comes too late for the due minute.
    fn first(&self, recipe: Recipe) -> Option<usize> {
        let first = self.ready + usize::from(recipe.cost);
        (first <= self.due).then_some(first)
    }
}

/// A recipe that is read, at every close from its first up to the due minute. Answers what it offers from the due minute
/// on: one word for every close, or 0 if the row ends before.
fn offer(
    window: &Window,
    first: usize,
    recipe: Recipe,
    word: Word,
    scores: &[Word],
    words: &mut [Word],
) -> Word {
    let cost = usize::from(recipe.cost);
    let closes = words.len();
    let end = closes.min(window.due);
    if first < end {
        shift(
            &scores[first - cost..end - cost],
            word,
            &mut words[first..end],
        );
    }
    if window.due < closes {
        scores[window.due - cost] + word
    } else {
        0
    }
}

/// Each close has a start of its own.
fn shift(starts: &[Word], word: Word, words: &mut [Word]) {
    for (&start, best) in starts.iter().zip(words) {
        *best = (start + word).max(*best);
    }
}

fn raise(level: Word, words: &mut [Word]) {
    for word in words {
        *word = level.max(*word);
    }
}

/// Each word, taken apart into its score and its recipe.
fn settle(words: &[Word], scores: &mut [Word], row: &mut [u8]) {
    for ((&word, score), pick) in words.iter().zip(scores).zip(row) {
        *score = word - word % RADIX;
        *pick = ((RADIX - word % RADIX) % RADIX) as u8;
    }
}
