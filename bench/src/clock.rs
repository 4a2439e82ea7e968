//! Times side by side: each round takes every case in turn, so that what slows the machine slows all of them. Each round
//! has the stack at another place: where its arrays lie in a page moves the time of a short call by a tenth and more.

use crate::thread_time;
use reference::Call;
use std::hint::black_box;

const ROUNDS: usize = 201;

/// A call, and the sheet that it is handed.
pub type Case<'a> = (Call, &'a [u8]);

/// A sample repeats its call until this many entries of the table are written.
const SAMPLE: usize = 160_000;

/// The stack stands at one of so many places, a frame apart, which together reach over a page.
const PLACES: usize = 64;

/// For each round the time of each case, in seconds.
#[derive(Clone)]
pub struct Times(Vec<Vec<f64>>);

impl Times {
    /// The median over the rounds of one case's time against another's.
    pub fn ratio(&self, one: usize, other: usize) -> f64 {
        let mut ratios: Vec<f64> = self
            .0
            .iter()
            .map(|round| round[one] / round[other])
            .collect();
        ratios.sort_unstable_by(f64::total_cmp);
        ratios[ratios.len() / 2]
    }

    /// The least time of a case.
    pub fn least(&self, case: usize) -> f64 {
        let times = self.0.iter().map(|round| round[case]);
        times.fold(f64::INFINITY, f64::min)
    }
}

/// None if the cases differ, or have no plan.
pub fn measure(cases: &[Case], entries: usize, batches: usize) -> Option<Times> {
    let mut lent = Lent {
        picks: vec![0; entries],
        recipes: vec![0; batches],
    };
    if !agree(cases, &mut lent) {
        return None;
    }
    let repeats = SAMPLE.div_ceil(entries);
    let rounds = (0..ROUNDS).map(|number| {
        deeper(number % PLACES, &mut || {
            round(cases, number, &mut lent, repeats)
        })
    });
    Some(Times(rounds.collect()))
}

struct Lent {
    picks: Vec<u8>,
    recipes: Vec<u8>,
}

/// Whether all find the same plan and write the same table.
fn agree(cases: &[Case], lent: &mut Lent) -> bool {
    let mut outcomes = cases.iter().map(|(call, sheet)| {
        let answer = call(sheet, &mut lent.picks, &mut lent.recipes);
        (answer, lent.picks.clone(), lent.recipes.clone())
    });
    let first = outcomes.next();
    first.is_some_and(|first| first.0 >= 0 && outcomes.all(|outcome| outcome == first))
}

/// One sample of each, another one first in each round.
fn round(cases: &[Case], first: usize, lent: &mut Lent, repeats: usize) -> Vec<f64> {
    let mut times = vec![0.0; cases.len()];
    for turn in first..first + cases.len() {
        let which = turn % cases.len();
        times[which] = sample(cases[which], lent, repeats);
    }
    times
}

/// What a round gives with so many frames more on the stack.
fn deeper(frames: usize, round: &mut dyn FnMut() -> Vec<f64>) -> Vec<f64> {
    if frames == 0 {
        return round();
    }
    let frame = black_box([0u8; 64]);
    let times = deeper(frames - 1, round);
    black_box(frame);
    times
}

/// The time of one call, over a number of them.
fn sample((call, sheet): Case, lent: &mut Lent, repeats: usize) -> f64 {
    let start = thread_time::now();
    for _ in 0..repeats {
        black_box(call(black_box(sheet), &mut lent.picks, &mut lent.recipes));
    }
    (thread_time::now() - start).as_secs_f64() / repeats as f64
}
