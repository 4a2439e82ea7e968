//! The weeks that are planned: well-formed, with a plan, arrivals and due minutes spread over the week.

use drawn::Chance;
use reference::{Batch, Recipe, Week};

#[derive(Debug)]
pub struct Size {
    pub batches: usize,
    pub recipes: usize,
    pub minutes: usize,
}

impl Size {
    /// The recipes that are weighed: each one of a batch at each close, the opening minute among them.
    pub fn cells(&self) -> f64 {
        (self.batches * self.recipes * (self.minutes + 1)) as f64
    }
}

/// In order.
pub fn week(size: &Size) -> Week {
    Week {
        opening: 0,
        closing: size.minutes as u16,
        batches: (0..size.batches).map(|i| batch(size, i)).collect(),
    }
}

/// The same batches, as chance has them.
pub fn shuffled(week: &Week) -> Week {
    let mut week = week.clone();
    Chance::new(2008).shuffle(&mut week.batches);
    week
}

/// Arrivals go over the first half of the week and due minutes over the second. Every second batch may be set aside; the
/// lightest recipes of the others take less than a third of the week, so that there is a plan.
fn batch(size: &Size, i: usize) -> Batch {
    let step = size.minutes / 2 / size.batches;
    let mut recipes: Vec<Recipe> = (0..size.recipes).map(|k| recipe(size, i, k)).collect();
    if i % 2 == 1 {
        recipes[size.recipes - 1] = Recipe { cost: 0, worth: 0 };
    }
    Batch {
        number: (i + 1) as u16,
        arrival: (i * step) as u16,
        due: (size.minutes / 2 + (i + 1) * step) as u16,
        recipes,
    }
}

/// Costs fall from one and a half of a batch's share of the week to about a half; worths fall with them, unevenly.
fn recipe(size: &Size, i: usize, k: usize) -> Recipe {
    let share = size.minutes / size.batches;
    let cost = share * 3 / 2 - share * k / (size.recipes - 1);
    let worth = cost + (i * 7 + k * 5) % 11;
    Recipe {
        cost: cost as u16,
        worth: worth as u16,
    }
}
