//! Document 01, "Operations": Check, Choose and Run over a list as it is handed in, with counts that may be above the
//! limits, and its batches in any order. Document 02, Two: choosing from records.

use crate::list;
use crate::plan::Plan;
use crate::refusal::{Refusal, Refused};
use crate::rule::{self, Stretch};
use crate::run::Run;
use crate::week::Week;

/// What Check answers of a choice that meets the rule.
pub struct Passed {
    pub total: u64,
    pub stretches: Vec<Stretch>,
}

/// "Check: list and choice, answering the stretches and the total." Refused by the list, 13 and 15.
pub fn check(week: &Week, choice: &[u8]) -> Result<Passed, Refused> {
    let week = list::accept(week)?;
    list::judge_choice(&week, choice)?;
    let broken = |position| Refused::from(Refusal::RuleBroken).at(position);
    Ok(Passed {
        stretches: rule::stretches(&week, choice).map_err(broken)?,
        total: rule::total(&week, choice),
    })
}

/// "Choose: list, table, answering the choice and its total." Refused by the list, 11 and 14. `best` fills the
/// n × (c − t + 1) entries that it is lent, also where it finds no plan: "The table is filled as well when refusal 14 is
/// given."
pub fn choose(
    week: &Week,
    picks: &mut [u8],
    best: impl Fn(&Week, &mut [u8]) -> Option<Plan>,
) -> Result<Plan, Refused> {
    let week = list::accept(week)?;
    Refusal::ShortPicks.when(picks.len() < week.entries())?;
    let plan = best(&week, &mut picks[..week.entries()]);
    plan.ok_or(Refusal::NoPlan.into())
}

/// "The desk's system lends its list as records, in the order the parcels came. Choosing from them puts them in order where
/// they are .. After any refusal, 14 too, they keep their old places."
pub fn records(
    week: &mut Week,
    picks: &mut [u8],
    best: impl Fn(&Week, &mut [u8]) -> Option<Plan>,
) -> Result<Plan, Refused> {
    let plan = choose(week, picks, best)?;
    week.put_in_order();
    Ok(plan)
}

/// "Run: list, choice, log." Refused by the list, 13 and 12; "Run takes any well-formed choice, also one that breaks the
/// rule".
pub fn run(week: &Week, choice: &[u8], log: &mut [u8]) -> Result<Run, Refused> {
    let week = list::accept(week)?;
    list::judge_choice(&week, choice)?;
    Refusal::ShortLog.when(log.len() < usize::from(week.closing - week.opening))?;
    let run = Run::of(&week, choice);
    // "Bytes after entry c − t − 1 keep their values."
    for (byte, &entry) in log.iter_mut().zip(run.log()) {
        *byte = u8::try_from(entry).expect("one of 16 positions");
    }
    Ok(run)
}
