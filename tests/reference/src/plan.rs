//! A plan: the recipes chosen, one a batch, and their total.

use crate::rule;
use crate::week::Week;

pub struct Plan {
    pub recipes: Vec<u8>,
    /// "Totals are worked out inside in 64 bits and answered in 32."
    pub total: u64,
}

impl Plan {
    pub fn of(week: &Week, recipes: Vec<u8>) -> Plan {
        let total = rule::total(week, &recipes);
        Plan { recipes, total }
    }

    /// The plan that a filled table holds for the week's close, from the last batch to the first; none where it has a 0.
    pub fn read_off(week: &Week, picks: &[u8]) -> Option<Plan> {
        let mut recipes = vec![0; week.batches.len()];
        let mut bound = week.closing;
        let rows = picks.chunks_exact(week.closes());
        for ((batch, row), pick) in week.batches.iter().zip(rows).zip(&mut recipes).rev() {
            *pick = row[usize::from(bound - week.opening)];
            if *pick == 0 {
                return None;
            }
            bound = rule::stretch(week, batch, batch.recipe(*pick), bound)?.start;
        }
        Some(Plan::of(week, recipes))
    }
}
