//! The planner's call beside two programs in Rust, measured in one run: the recursion of source document 000 cell by
//! cell, and the planner's own loops; and beside itself on a sheet of the same batches that is not in order. With the feature
//! `before`, beside the call of another revision too.

mod clock;
mod thread_time;
mod weeks;

use clock::{measure, Case, Times};
use std::process::ExitCode;
use weeks::{shuffled, week, Size};

/// The places of what is measured.
const CALL: usize = 0;
const SAME_LOOPS: usize = 1;
const PAPER: usize = 2;
const SHUFFLED: usize = 3;
const BEFORE: usize = 4;

/// What is measured: all on a sheet in order, and the call on a shuffled one too.
fn cases<'a>(sheet: &'a [u8], shuffled: &'a [u8]) -> Vec<Case<'a>> {
    vec![
        (call::choose, sheet),
        (reference::same_loops, sheet),
        (reference::recursion, sheet),
        (call::choose, shuffled),
        #[cfg(feature = "before")]
        (call::choose_before, sheet),
    ]
}

const HEADER: &str = "\
Whole calls, from the sheet to the recipes, by the planner and by two programs in Rust. Each round takes them in turn; the
time is the thread's own. A ratio is the median over the rounds; growth is of the least time of a round, against the first
line. Cells are batches x recipes x closing minutes. Table and buffer are not cleared between calls: a call that plans
writes every entry. Sheets are in order, but for the shuffled one, which has the same batches: beside the sheet in order it
shows what putting them in order costs.

                              call /   paper /     growth of                        shuffled /    call /
 batches recipes minutes  same loops      call     cells    call  same loops   paper  in order    before";

fn main() -> ExitCode {
    println!("{HEADER}");
    let mut first = None;
    for size in sizes() {
        let week = week(&size);
        let (sheet, shuffled) = (reference::write(&week), reference::write(&shuffled(&week)));
        let cases = cases(&sheet, &shuffled);
        let Some(times) = measure(&cases, week.entries(), week.batches.len()) else {
            println!("the calls do not agree on a plan for {size:?}");
            return ExitCode::FAILURE;
        };
        let (first_cells, first_times) = first.get_or_insert_with(|| (size.cells(), times.clone()));
        print_line(&size, &times, *first_cells, first_times);
    }
    ExitCode::SUCCESS
}

fn sizes() -> Vec<Size> {
    let mut sizes = Vec::new();
    for batches in [4, 8, 16] {
        for recipes in [2, 4, 10] {
            sizes.extend([300, 1_200, 2_400].map(|minutes| Size {
                batches,
                recipes,
                minutes,
            }));
        }
    }
    sizes
}

/// A line of the table, its growth against the cells and the times of the first line.
fn print_line(size: &Size, times: &Times, first_cells: f64, first_times: &Times) {
    let growth = |case: usize| times.least(case) / first_times.least(case);
    let before = if cfg!(feature = "before") {
        format!("{:.2}", times.ratio(CALL, BEFORE))
    } else {
        String::from("-")
    };
    println!(
        "{:>8}{:>8}{:>8}{:>12.2}{:>10.2}{:>10.1}{:>8.1}{:>12.1}{:>8.1}{:>10.2}{:>10}",
        size.batches,
        size.recipes,
        size.minutes,
        times.ratio(CALL, SAME_LOOPS),
        times.ratio(PAPER, CALL),
        size.cells() / first_cells,
        growth(CALL),
        growth(SAME_LOOPS),
        growth(PAPER),
        times.ratio(SHUFFLED, CALL),
        before,
    );
}
