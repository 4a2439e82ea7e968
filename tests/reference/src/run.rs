//! Document 01, "The run".

use crate::week::Week;

pub struct Run {
    opening: u16,
    /// The minutes of the chosen recipes, in list order.
    costs: Vec<u16>,
    /// "Entry m of a lent log .., from 0, is the position of the batch read in minute t + m, or 0 for an idle minute."
    log: Vec<usize>,
}

/// "For each batch the run answers one of: set aside; finished, with the minute after its last; unfinished, with the
/// minutes left."
pub enum Outcome {
    Aside,
    Finished(usize),
    Unfinished(usize),
}

impl Run {
    /// The log is worked out in two ways, which must agree.
    pub fn of(week: &Week, choice: &[u8]) -> Run {
        let chosen = week.batches.iter().zip(choice);
        let costs: Vec<u16> = chosen
            .map(|(batch, &number)| batch.recipe(number).cost)
            .collect();
        let log = minute_by_minute(week, costs.clone());
        assert_eq!(log, batch_by_batch(week, &costs), "two logs of a run");
        Run {
            opening: week.opening,
            costs,
            log,
        }
    }

    /// The entries of the log, one a minute.
    pub fn log(&self) -> &[usize] {
        &self.log
    }

    /// "It answers the idle minutes."
    pub fn idle(&self) -> usize {
        self.log.iter().filter(|&&entry| entry == 0).count()
    }

    /// "the number of changes: the minutes with an entry other than 0 that are the first or differ from the entry before."
    pub fn changes(&self) -> usize {
        let log = &self.log;
        (0..log.len())
            .filter(|&m| log[m] != 0 && (m == 0 || log[m] != log[m - 1]))
            .count()
    }

    /// What the run answers for each batch, in list order.
    pub fn outcomes(&self) -> Vec<Outcome> {
        let costs = self.costs.iter().zip(1..);
        costs
            .map(|(&cost, position)| self.outcome(cost.into(), position))
            .collect()
    }

    fn outcome(&self, cost: usize, position: usize) -> Outcome {
        let left = cost - self.minutes(position);
        match self.finish(position) {
            _ if cost == 0 => Outcome::Aside,
            Some(finish) if left == 0 => Outcome::Finished(finish),
            _ => Outcome::Unfinished(left),
        }
    }

    /// How many "a batch gets": "the minutes from t to c − 1 whose log entry is its position."
    fn minutes(&self, position: usize) -> usize {
        self.log.iter().filter(|&&entry| entry == position).count()
    }

    /// "the minute after its last"; none for a batch that is not read.
    fn finish(&self, position: usize) -> Option<usize> {
        let last = self.log.iter().rposition(|&entry| entry == position)?;
        Some(usize::from(self.opening) + last + 1)
    }
}

/// "For each minute from t to c − 1, the station reads the first batch in list order that has s at or before this minute
/// and minutes left to read."
fn minute_by_minute(week: &Week, mut left: Vec<u16>) -> Vec<usize> {
    let batches = &week.batches;
    let read = |minute| {
        let mut list = 0..batches.len();
        match list.find(|&i| week.ready(&batches[i]) <= minute && left[i] > 0) {
            Some(i) => {
                left[i] -= 1;
                i + 1
            }
            None => 0,
        }
    };
    (week.opening..week.closing).map(read).collect()
}

/// Each batch in list order takes the first minutes that are free from its ready minute on, as many as it has to read.
fn batch_by_batch(week: &Week, costs: &[u16]) -> Vec<usize> {
    let mut log = vec![0; usize::from(week.closing - week.opening)];
    for ((batch, &cost), position) in week.batches.iter().zip(costs).zip(1..) {
        let ready = usize::from(week.ready(batch) - week.opening);
        let free = log.iter_mut().skip(ready).filter(|entry| **entry == 0);
        free.take(cost.into()).for_each(|entry| *entry = position);
    }
    log
}
