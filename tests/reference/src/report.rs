//! Document 01, "The sheet": what the program weekplan writes. "Numbers are decimal." "Every line ends with a line feed."

use crate::list;
use crate::plan::Plan;
use crate::recursion;
use crate::refusal::{Refusal, Refused};
use crate::rule::{self, Stretch};
use crate::run::{Outcome, Run};
use crate::week::Week;

/// The whole text for a sheet.
pub fn text(sheet: &[u8]) -> String {
    match Planned::of(sheet) {
        Ok(planned) => planned.text(),
        // "A refusal writes one line only".
        Err(refused) => format!("{refused}\n"),
    }
}

/// A week with its plan, and what the text tells of the plan.
struct Planned {
    week: Week,
    plan: Plan,
    stretches: Vec<Stretch>,
    run: Run,
    outcomes: Vec<Outcome>,
}

impl Planned {
    /// The program's own table, log and buffer are long enough: 11, 12 and 19 do not hold.
    fn of(sheet: &[u8]) -> Result<Planned, Refused> {
        let week = list::read(sheet)?;
        let mut picks = vec![0; week.entries()];
        let plan = recursion::plan(&week, &mut picks).ok_or(Refusal::NoPlan)?;
        let run = Run::of(&week, &plan.recipes);
        Ok(Planned {
            stretches: rule::stretches(&week, &plan.recipes).expect("a plan meets the rule"),
            outcomes: run.outcomes(),
            run,
            week,
            plan,
        })
    }

    /// "Line 1 is t and c." The second is the total, the changes and the idle minutes; then there is one for each batch.
    fn text(&self) -> String {
        let (opening, closing) = (self.week.opening, self.week.closing);
        let (total, changes, idle) = (self.plan.total, self.run.changes(), self.run.idle());
        let mut text = format!("week {opening} {closing}\n");
        text += &format!("total {total} changes {changes} idle {idle}\n");
        text.extend((0..self.week.batches.len()).map(|i| self.batch_line(i)));
        text
    }

    /// "A batch line is number, recipe, cost as it counts in the rule, start and end of stretch, finish (0 if set aside)."
    fn batch_line(&self, i: usize) -> String {
        let batch = &self.week.batches[i];
        let (number, recipe) = (batch.number, self.plan.recipes[i]);
        let cost = batch.recipe(recipe).cost;
        let Stretch { start, end } = self.stretches[i];
        let finish = match self.outcomes[i] {
            Outcome::Aside => 0,
            Outcome::Finished(minute) => minute,
            Outcome::Unfinished(_) => panic!("a plan leaves none unfinished"),
        };
        format!("{number} {recipe} {cost} {start} {end} {finish}\n")
    }
}
