//! The planner a second time, from document 01: the operations over a list, the call and the text of its program over a
//! sheet, and three ways to find the best plan. From document 02, One: the week book; Two: lists in any order, and choosing
//! from records. The ways to find a plan, the rule and the run go over a list in order.

mod book;
mod call;
mod every_choice;
mod frame;
mod list;
mod operation;
mod plan;
mod recursion;
mod refusal;
mod report;
mod rule;
mod run;
mod same_loops;
mod sheet;
mod week;

pub use book::Book;
pub use every_choice::{plan as best_of_every_choice, tries, tries_of_list};
pub use list::accept;
pub use operation::{check, choose, records, run, Passed};
pub use plan::Plan;
pub use recursion::plan as best_by_recursion;
pub use refusal::{refusal_told, Refusal, Refused};
pub use rule::Stretch;
pub use run::{Outcome, Run};
pub use sheet::write;
pub use week::{Batch, Recipe, Week};

/// The shape of the planner's call, and of each of the three: a sheet, a picks table and a recipe buffer, answering
/// the total or minus the refusal number.
pub type Call = fn(&[u8], &mut [u8], &mut [u8]) -> i32;

/// By trying every choice: for each batch and each close, all choices of the batches up to it.
pub fn every_choice(sheet: &[u8], picks: &mut [u8], recipes: &mut [u8]) -> i32 {
    call::answer(sheet, picks, recipes, every_choice::plan)
}

/// By the recursion of source document 000, cell by cell.
pub fn recursion(sheet: &[u8], picks: &mut [u8], recipes: &mut [u8]) -> i32 {
    call::answer(sheet, picks, recipes, recursion::plan)
}

/// By the same recursion, in the order in which the planner goes: recipes outside, minutes inside.
pub fn same_loops(sheet: &[u8], picks: &mut [u8], recipes: &mut [u8]) -> i32 {
    call::answer(sheet, picks, recipes, same_loops::plan)
}

/// The whole text that the program weekplan writes for a sheet.
pub fn report(sheet: &[u8]) -> String {
    report::text(sheet)
}
