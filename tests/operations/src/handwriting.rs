//! How a command is written: most often plainly; now and then with more spaces, and with zeros before its numbers.

use drawn::Chance;
use reference::{Batch, Week};

/// The line of these words and numbers.
pub fn line<T: ToString>(chance: &mut Chance, word: &str, numbers: &[T]) -> Vec<u8> {
    let plain = !chance.one_in(12);
    let mut line = word.to_string();
    for number in numbers {
        let number = number.to_string();
        if plain {
            line.extend([" ", &number]);
        } else {
            let zeros = "0".repeat(chance.between(0..=5 - number.len()));
            line.extend([spaces(chance, 1), &zeros, &number]);
        }
    }
    if !plain {
        line = [spaces(chance, 0), &line, spaces(chance, 0)].concat();
    }
    line.into_bytes()
}

fn spaces(chance: &mut Chance, least: usize) -> &'static str {
    &"    "[..chance.between(least..=4)]
}

/// The lines that write a week down.
pub fn week(chance: &mut Chance, week: &Week) -> Vec<Vec<u8>> {
    let first = line(chance, "week", &[week.opening, week.closing]);
    let batches = week.batches.iter().map(|it| batch(chance, "batch", it));
    let mut lines: Vec<Vec<u8>> = batches.collect();
    lines.insert(0, first);
    lines
}

/// The line of this word and a batch's numbers.
pub fn batch(chance: &mut Chance, word: &str, batch: &Batch) -> Vec<u8> {
    let mut numbers = vec![batch.number, batch.arrival, batch.due];
    let recipes = batch.recipes.iter();
    numbers.extend(recipes.flat_map(|recipe| [recipe.cost, recipe.worth]));
    line(chance, word, &numbers)
}
