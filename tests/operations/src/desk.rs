//! What the desk has written down, and what it answers to a line: the text that the program must write, to the letter.

use crate::line::{Command, Line};
use reference::{Batch, Book, Outcome, Passed, Plan, Refusal, Refused, Run, Week};

/// Every choice is tried where the whole table takes at most this many; the recursion plans the rest.
pub const MOST_TRIES: u64 = 20_000;

/// How many batches are kept; the count goes on.
pub const KEPT_BATCHES: usize = 64;

type Best = fn(&Week, &mut [u8]) -> Option<Plan>;

/// A batch that is counted and not kept.
const NOT_KEPT: Batch = Batch {
    number: 0,
    arrival: 0,
    due: 0,
    recipes: Vec::new(),
};

#[derive(Clone)]
pub struct Desk {
    pub week: Week,
    pub book: Book,
    pub table: Vec<u8>,
    pub log: Vec<u8>,
    /// The lines so far, those that are passed over among them.
    lines: usize,
    help: String,
}

impl Desk {
    /// At the start the week is 0 to 0, in the book as well, and the table and the log are as long as any list needs. The text
    /// of `help` is the program's own.
    pub fn new(help: &str) -> Desk {
        let minutes = usize::from(Week::MAX_MINUTES);
        Desk {
            week: Week::empty(0, 0),
            book: Book::empty(0, 0),
            table: vec![0; Week::MAX_BATCHES * (minutes + 1)],
            log: vec![0; minutes],
            lines: 0,
            help: help.to_string(),
        }
    }

    /// All that is answered to the next line, its line feed taken off; most often a line or two, or nothing.
    pub fn answer(&mut self, line: &[u8]) -> String {
        self.lines += 1;
        match Line::of(line) {
            Line::PassedOver => String::new(),
            Line::NoCommand => format!("no command: line {}\n", self.lines),
            Line::Command(command) => match self.carry_out(command) {
                Ok(text) => text,
                Err(refused) => format!("{refused}\n"),
            },
        }
    }

    fn carry_out(&mut self, command: Command) -> Result<String, Refused> {
        match command {
            Command::Week { opening, closing } => self.week = Week::empty(opening, closing),
            Command::Batch(batch) => self.week.batches.push(batch),
            Command::Table(bytes) => self.table = bytes,
            Command::Log(bytes) => self.log = bytes,
            Command::Choose => return self.choose(),
            Command::Records => return self.records(),
            Command::Check(choice) => return reference::check(&self.week, &choice).map(passed),
            Command::Run(choice) => {
                return reference::run(&self.week, &choice, &mut self.log).map(|run| ran(&run))
            }
            Command::ShowTable => return Ok(runs("table", &self.table)),
            Command::ShowLog => return Ok(runs("log", &self.log)),
            Command::List => return Ok(list(&self.week)),
            Command::Sheet => return self.sheet(),
            Command::Open { opening, closing } => return self.book.open(opening, closing).map(ok),
            Command::Add(batch) => return self.book.add(batch).map(ok),
            Command::Withdraw(number) => return self.book.withdraw(number).map(ok),
            Command::Plan => return self.plan(),
            Command::Book => return Ok(list(&self.book.list)),
            Command::Hold => self.book.list = by_value(&self.week),
            Command::Help => return Ok(self.help.clone()),
        }
        Ok(String::new())
    }

    fn choose(&mut self) -> Result<String, Refused> {
        let best = best(&self.week);
        reference::choose(&self.week, &mut self.table, best).map(plan)
    }

    /// All batches that are kept are lent as records: where more were written, more than sixteen are lent, and 3 is answered.
    fn records(&mut self) -> Result<String, Refused> {
        let best = best(&self.week);
        reference::records(&mut self.week, &mut self.table, best).map(plan)
    }

    fn plan(&mut self) -> Result<String, Refused> {
        let best = best(&self.book.list);
        self.book.plan(&mut self.table, best).map(plan)
    }

    /// "the list's own refusal 3 or 4 if it cannot be written": a list without a fault of these two, but for a batch
    /// without recipes, which can.
    fn sheet(&self) -> Result<String, Refused> {
        let batches = &self.week.batches;
        Refusal::TooManyBatches.when(batches.len() > Week::MAX_BATCHES)?;
        let above = |batch: &Batch| batch.recipes.len() > Batch::MAX_RECIPES;
        match batches.iter().position(above) {
            Some(i) => Err(Refused::from(Refusal::RecipeCount).at(i + 1)),
            None => {
                Ok(String::from_utf8(reference::write(&self.week)).expect("hexadecimal digits"))
            }
        }
    }
}

/// The way in which this list is planned.
fn best(list: &Week) -> Best {
    match reference::tries_of_list(list) {
        Some(..=MOST_TRIES) => reference::best_of_every_choice,
        _ => reference::best_by_recursion,
    }
}

/// A list by value: the first 16 batches, and the count.
fn by_value(week: &Week) -> Week {
    let mut list = week.clone();
    let beyond = list.batches.iter_mut().skip(Week::MAX_BATCHES);
    beyond.for_each(|batch| *batch = NOT_KEPT);
    list
}

fn ok(_: ()) -> String {
    "ok\n".to_string()
}

/// The commands that write a list down.
fn list(week: &Week) -> String {
    let (opening, closing) = (week.opening, week.closing);
    let kept = week.batches.iter().take(KEPT_BATCHES);
    let mut text = format!("week {opening} {closing}\n");
    text.extend(kept.map(batch_line));
    text
}

/// A word and what follows it, a line; the word alone where nothing does.
fn line(word: &str, rest: impl Iterator<Item = String>) -> String {
    let mut line = word.to_string();
    rest.for_each(|item| line.extend([" ", &item]));
    line + "\n"
}

pub fn plan(plan: Plan) -> String {
    let recipes = plan.recipes.iter().map(u8::to_string);
    format!("plan {}\n{}", plan.total, line("recipes", recipes))
}

pub fn passed(passed: Passed) -> String {
    let stretches = passed.stretches.iter();
    let stretches = stretches.map(|stretch| format!("{} {}", stretch.start, stretch.end));
    format!("passed {}\n{}", passed.total, line("stretches", stretches))
}

fn ran(run: &Run) -> String {
    let outcomes = run.outcomes().into_iter().map(|outcome| match outcome {
        Outcome::Aside => "aside".to_string(),
        Outcome::Finished(minute) => format!("finished {minute}"),
        Outcome::Unfinished(left) => format!("unfinished {left}"),
    });
    let (changes, idle) = (run.changes(), run.idle());
    format!(
        "ran changes {changes} idle {idle}\n{}",
        line("outcomes", outcomes)
    )
}

/// Every byte, in runs: "`0x10 2x20 1x71` is ten 0s, twenty 2s, seventy-one 1s".
fn runs(word: &str, bytes: &[u8]) -> String {
    let runs = bytes.chunk_by(|one, next| one == next);
    line(word, runs.map(|run| format!("{}x{}", run[0], run.len())))
}

/// The first ten recipes are kept; where there are more, an eleventh stands for all of them, as `0 0`, so that the line
/// written down again is above the limit too.
fn batch_line(batch: &Batch) -> String {
    let kept = batch.recipes.iter().take(Batch::MAX_RECIPES);
    let kept = kept.map(|recipe| format!("{} {}", recipe.cost, recipe.worth));
    let above = batch.recipes.get(Batch::MAX_RECIPES);
    let recipes = kept.chain(above.map(|_| "0 0".to_string()));
    let (number, arrival, due) = (batch.number, batch.arrival, batch.due);
    line(&format!("batch {number} {arrival} {due}"), recipes)
}

#[cfg(test)]
mod tests {
    use super::*;

    fn answers(lines: &str) -> String {
        let mut desk = Desk::new("");
        lines
            .lines()
            .map(|line| desk.answer(line.as_bytes()))
            .collect()
    }

    /// Case W of document 01, with the answers that it prints.
    #[test]
    fn case_w() {
        let said = "week 0 100\nbatch 7 0 40 30 9 10 4\nbatch 8 20 60 30 8 0 0\nbatch 9 0 100 50 10 20 5\n\
            choose\nrun 2 1 1\nshow log\ncheck 1 1 1\ncheck 1 1 2\nsheet\n";
        let right = "plan 22\nrecipes 2 1 1\n\
            ran changes 4 idle 10\noutcomes finished 10 finished 50 finished 90\n\
            log 1x10 3x10 2x30 3x40 0x2310\n\
            refused 15 1 0\n\
            passed 22\nstretches 0 30 30 60 80 100\n\
            0100000064\n0200070000002802001E0009000A0004\n0200080014003C02001E000800000000\n\
            02000900000064020032000A00140005\n";
        assert_eq!(answers(said), right);
    }

    /// A batch that is set aside between two others, and a table with seven bytes more than it needs.
    #[test]
    fn rows_of_the_table() {
        let said = "week 0 10\nbatch 1 0 4 2 1\nbatch 2 8 9 1 5 0 0\nbatch 3 0 10 9 9 6 9\n\
            table 32 9\nchoose\nshow table\ntable 40 9\nchoose\nshow table\ncheck 1 2 2\n";
        let right = "refused 11 0 0\ntable 9x32\n\
            plan 10\nrecipes 1 2 2\ntable 0x2 1x9 0x2 2x7 1x2 0x8 2x3 9x7\n\
            passed 10\nstretches 2 4 4 4 4 10\n";
        assert_eq!(answers(said), right);
    }

    /// "A late batch goes on being read."
    #[test]
    fn late_batch() {
        let said = "week 0 4\nbatch 1 0 2 3 1\nbatch 2 0 4 3 1\nlog 3 9\nrun 1 1\nlog 6 9\nrun 1 1\nshow log\n\
            run 1\nrun 1 2\ncheck 1 1\n";
        let right = "refused 12 0 0\nran changes 2 idle 0\noutcomes finished 3 unfinished 2\nlog 1x3 2x1 9x2\n\
            refused 13 0 0\nrefused 13 2 0\nrefused 15 1 0\n";
        assert_eq!(answers(said), right);
    }

    #[test]
    fn start_and_empty_answers() {
        let said = "choose\nweek 0 5\nchoose\ncheck\nrun\ntable 0\nshow table\nlog 0\nshow log\nlist\nsheet\n";
        let right =
            "refused 1 0 0\nplan 0\nrecipes\npassed 0\nstretches\nran changes 0 idle 5\noutcomes\n\
            table\nlog\nweek 0 5\n0100000005\n";
        assert_eq!(answers(said), right);
        assert_eq!(
            answers("show table\nshow log\n"),
            "table 0x38416\nlog 0x2400\n"
        );
    }

    #[test]
    fn lines_are_counted() {
        let said = "\n# week 1 2\n  \nweek 00001 65536\n week  00001   65535 \n # week 1 2\nlist\n";
        let right = "no command: line 4\nno command: line 6\nweek 1 65535\n";
        assert_eq!(answers(said), right);
    }

    /// Document 02, One, by the book: case W added from its last batch to its first, and one withdrawn.
    #[test]
    fn case_w_in_the_book() {
        let said = "open 0 100\nadd 9 0 100 50 10 20 5\nadd 8 20 60 30 8 0 0\nadd 7 0 40 30 9 10 4\nbook\n\
            plan\ntable 303\nplan\nshow table\nwithdraw 8\nplan\nwithdraw 8\nwithdraw 0\nlist\n";
        let right =
            "ok\nok\nok\nok\nweek 0 100\nbatch 7 0 40 30 9 10 4\nbatch 8 20 60 30 8 0 0\nbatch 9 0 100 50 10 20 5\n\
            plan 22\nrecipes 2 1 1\nplan 22\nrecipes 2 1 1\n\
            table 0x10 2x20 1x71 0x10 2x40 1x51 0x30 2x30 1x10 2x30 1x1\n\
            ok\nplan 19\nrecipes 1 1\nrefused 21 0 0\nrefused 21 0 0\nweek 0 0\n";
        assert_eq!(answers(said), right);
    }

    /// At the start, and after a refused opening, the book is an empty one of week 0 to 0.
    #[test]
    fn a_refused_opening() {
        let calls = "add 1 0 5 1 1\nwithdraw 1\nplan\nbook\n";
        let refused = "refused 1 0 0\nrefused 1 0 0\nrefused 1 0 0\nweek 0 0\n";
        assert_eq!(answers(calls), refused);
        let said = format!("open 0 9\nadd 1 0 5 1 1\nopen 5 5\n{calls}open 0 2401\n{calls}");
        let right = format!("ok\nok\nrefused 1 0 0\n{refused}refused 2 0 0\n{refused}");
        assert_eq!(answers(&said), right);
    }

    /// 4 to 9 of a new batch name no place, 20 comes before them, and 10 is never asked of it.
    #[test]
    fn refused_batches() {
        let said = "open 0 30\nadd 5 0 20 3 1 2 1\nadd 4 0 20 3 1 2 1\nadd 6 0 20\nadd 6 9 9 1 1\nadd 6 30 31 1 1\n\
            add 6 0 20 1 1 2 1\nadd 6 0 20 2 1 0 1\nadd 0 0 20 1 1\nadd 5 0 9 1 1\nadd 5 0 29 1 1\nbook\n";
        let right = "ok\nok\nok\nrefused 4 0 0\nrefused 5 0 0\nrefused 6 0 0\n\
            refused 7 0 2\nrefused 8 0 2\nrefused 9 0 0\nrefused 9 0 0\nrefused 9 0 0\n\
            week 0 30\nbatch 4 0 20 3 1 2 1\nbatch 5 0 20 3 1 2 1\n";
        assert_eq!(answers(said), right);
        let sixteen: String = (1..=16)
            .map(|number| format!("add {number} 0 20 1 1\n"))
            .collect();
        let said = format!("open 0 30\n{sixteen}add 17 0 20\nadd 3 0 20 1 1\nwithdraw 9\nadd 17 0 20\nadd 17 0 19 1 1\n");
        let oks = "ok\n".repeat(17);
        let right = format!("{oks}refused 20 0 0\nrefused 20 0 0\nok\nrefused 4 0 0\nok\n");
        assert_eq!(answers(&said), right);
    }

    /// The held list is refused as Choose would refuse it, by every call but an opening, and stays as it stands.
    #[test]
    fn held_lists() {
        let said = "week 0 30\nbatch 2 0 20 1 1\nbatch 2 0 10 1 1\nhold\nadd 1 0 20\nwithdraw 0\nplan\nbook\nopen 0 5\nbook\n";
        let right = "refused 9 2 0\nrefused 9 2 0\nrefused 9 2 0\n\
            week 0 30\nbatch 2 0 20 1 1\nbatch 2 0 10 1 1\nok\nweek 0 5\n";
        assert_eq!(answers(said), right);
        let batches = |count: usize| "batch 7 0 10 1 1\n".repeat(count);
        let empty = |count: usize| "batch 0 0 0\n".repeat(count);
        for (written, printed) in [(17, 17), (64, 64), (65, 64)] {
            let said = format!("week 0 30\n{}hold\nbook\nadd 1 0 9 1 1\n", batches(written));
            let right = format!(
                "week 0 30\n{}{}refused 3 0 0\n",
                batches(16),
                empty(printed - 16)
            );
            assert_eq!(answers(&said), right);
        }
    }

    /// Document 02, Two: a held list may stand in any order. A refused call, 14 too, leaves it so, and each accepted call hands
    /// the book back in order.
    #[test]
    fn held_in_any_order() {
        let list = "week 0 30\nbatch 2 0 20 1 1\nbatch 1 0 10 1 1\n";
        let said = format!(
            "{list}hold\nadd 1 0 20\nwithdraw 0\ntable 61\nplan\nbook\ntable 62\nplan\nbook\n"
        );
        let refused = format!("refused 4 0 0\nrefused 21 0 0\nrefused 11 0 0\n{list}");
        let right =
            "plan 2\nrecipes 1 1\nweek 0 30\nbatch 1 0 10 1 1\nbatch 2 0 20 1 1\n".to_string();
        assert_eq!(answers(&said), refused + &right);
        let said = format!(
            "{list}hold\nadd 3 0 15 1 1\nbook\n{list}batch 3 0 15 1 1\nhold\nwithdraw 2\nbook\n"
        );
        let right = "ok\nweek 0 30\nbatch 1 0 10 1 1\nbatch 3 0 15 1 1\nbatch 2 0 20 1 1\n\
            ok\nweek 0 30\nbatch 1 0 10 1 1\nbatch 3 0 15 1 1\n";
        assert_eq!(answers(&said), right);
        let j = "week 0 10\nbatch 2 0 10 5 1\nbatch 1 5 9 4 1\n";
        let right = format!("refused 14 0 0\n{j}");
        assert_eq!(answers(&format!("{j}hold\nplan\nbook\n")), right);
    }

    /// Document 02, Two, by records: case W from its last batch to its first. Choosing from the list leaves it as it stands.
    #[test]
    fn case_w_as_records() {
        let w = "week 0 100\nbatch 7 0 40 30 9 10 4\nbatch 8 20 60 30 8 0 0\nbatch 9 0 100 50 10 20 5\n";
        let reversed = "week 0 100\nbatch 9 0 100 50 10 20 5\nbatch 8 20 60 30 8 0 0\nbatch 7 0 40 30 9 10 4\n";
        let said = format!("{reversed}choose\ncheck 2 1 1\ncheck 1 1 1\nlist\nrecords\nlist\n");
        let plan = "plan 22\nrecipes 2 1 1\n";
        let checked = "passed 22\nstretches 10 20 20 50 50 100\nrefused 15 1 0\n";
        assert_eq!(
            answers(&said),
            format!("{plan}{checked}{reversed}{plan}{w}")
        );
    }

    /// Example J from its last batch to its first: 14 fills the table, and leaves the records where they are.
    #[test]
    fn refused_records() {
        let j = "week 0 10\nbatch 2 0 10 5 1\nbatch 1 5 9 4 1\n";
        let said = format!("{j}table 23 255\nrecords\nlist\nshow table\n");
        let right = format!("refused 14 0 0\n{j}table 0x9 1x2 0x11 255x1\n");
        assert_eq!(answers(&said), right);
        let list = "week 0 50\nbatch 5 0 40 1 1\nbatch 7 0 10 1 1\nbatch 5 0 5 1 1\n";
        let right = format!("refused 9 3 0\n{list}");
        assert_eq!(answers(&format!("{list}records\nlist\n")), right);
        for (written, kept) in [(17, 17), (64, 64), (65, 64)] {
            let list =
                |count: usize| "week 0 30\n".to_string() + &"batch 7 0 10 1 1\n".repeat(count);
            let said = list(written) + "records\nlist\n";
            let right = "refused 3 0 0\n".to_string() + &list(kept);
            assert_eq!(answers(&said), right);
        }
    }

    /// Batches that are due together stand by ready minute, which below the opening is the opening, then by number.
    #[test]
    fn records_due_together() {
        let said = "week 20 40\nbatch 4 10 30 1 1\nbatch 3 25 30 1 1\nbatch 5 0 30 1 1\nbatch 2 20 30 1 1\nbatch 6 0 29 1 1\n\
            records\nlist\n";
        let right = "plan 5\nrecipes 1 1 1 1 1\nweek 20 40\n\
            batch 6 0 29 1 1\nbatch 2 20 30 1 1\nbatch 4 10 30 1 1\nbatch 5 0 30 1 1\nbatch 3 25 30 1 1\n";
        assert_eq!(answers(said), right);
    }

    /// Above a limit the list stays above it.
    #[test]
    fn counts_above_the_limits() {
        let recipes = " 2 1".repeat(12);
        let kept = " 2 1".repeat(10);
        let said = format!("week 0 5\nbatch 1 0 4{recipes}\nlist\nsheet\ncheck 1\n");
        let right = format!("week 0 5\nbatch 1 0 4{kept} 0 0\nrefused 4 1 0\nrefused 4 1 0\n");
        assert_eq!(answers(&said), right);
        let said = format!("week 0 5\n{}list\nsheet\nrun\n", "batch 1 0 4\n".repeat(65));
        let right = format!(
            "week 0 5\n{}refused 3 0 0\nrefused 3 0 0\n",
            "batch 1 0 4\n".repeat(64)
        );
        assert_eq!(answers(&said), right);
    }
}
