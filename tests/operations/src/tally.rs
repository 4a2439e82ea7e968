//! What the conversations have met: the answers of each operation, by their refusal, and what other lines have shown.

use crate::line::{Command, Line};
use crate::no_command;
use crate::script::{Script, Spoken};
use crate::session::Manner;
use reference::refusal_told;
use std::collections::BTreeMap;

/// An operation and the refusals that it can answer.
struct Operation {
    name: &'static str,
    refusals: &'static [usize],
}

/// What `add` refuses for the held list.
const HELD_LIST: &str = "add, of the held list";

const OPERATIONS: [Operation; 10] = [
    Operation {
        name: "choose",
        refusals: &[1, 2, 3, 4, 5, 6, 7, 8, 9, 11, 14],
    },
    Operation {
        name: "records",
        refusals: &[1, 2, 3, 4, 5, 6, 7, 8, 9, 11, 14],
    },
    Operation {
        name: "check",
        refusals: &[1, 2, 3, 4, 5, 6, 7, 8, 9, 13, 15],
    },
    Operation {
        name: "run",
        refusals: &[1, 2, 3, 4, 5, 6, 7, 8, 9, 12, 13],
    },
    Operation {
        name: "sheet",
        refusals: &[3, 4],
    },
    Operation {
        name: "open",
        refusals: &[1, 2],
    },
    Operation {
        name: "add",
        refusals: &[4, 5, 6, 7, 8, 9, 20],
    },
    Operation {
        name: HELD_LIST,
        refusals: &[1, 2, 3, 4, 5, 6, 7, 8, 9],
    },
    Operation {
        name: "withdraw",
        refusals: &[1, 2, 3, 4, 5, 6, 7, 8, 9, 21],
    },
    Operation {
        name: "plan",
        refusals: &[1, 2, 3, 4, 5, 6, 7, 8, 9, 11, 14],
    },
];

/// The greatest refusal of an operation.
const MAX_REFUSAL: usize = 21;

/// What lines must have shown, beside each way in which a line is no command.
const SHOWN: [&str; 69] = [
    "planned by every choice",
    "planned by the recursion",
    "planned by the recursion, a full week",
    "a table",
    "a table filled on 14",
    "a table after a refusal",
    "a table with bytes that are kept",
    "records planned by every choice",
    "records planned by the recursion",
    "records planned by the recursion, a full week",
    "a table of records",
    "a table of records filled on 14",
    "a table of records after a refusal",
    "a table of records with bytes that are kept",
    "records put in order",
    "records that came in order",
    "records that came in order refused",
    "records left out of order on 14",
    "records left out of order by another refusal",
    "more than 16 records left",
    "more than 64 records left",
    "a log",
    "a log after a refusal",
    "a log with bytes that are kept",
    "a run with a late batch",
    "a batch aside",
    "a batch finished",
    "a batch unfinished",
    "a list written down again",
    "a list written down in another order",
    "a list of more than 64 batches",
    "a list with more than 10 recipes",
    "a sheet with a batch without recipes",
    "a book planned by every choice",
    "a book planned by the recursion",
    "a book planned by the recursion, a full week",
    "a book's table",
    "a book's table filled on 14",
    "a book's table after a refusal",
    "a book's table with bytes that are kept",
    "a book planned as a list",
    "an empty book planned as a list",
    "a full book planned as a list",
    "a batch added in front",
    "a batch added between two",
    "a batch added at the end",
    "number 0 added",
    "a number held before the new batch",
    "a number held after the new batch",
    "a full book, and a number that it holds",
    "a full book, and a faulty batch",
    "a withdrawn place used again",
    "the first of several withdrawn",
    "one between two withdrawn",
    "the last withdrawn",
    "a book put in order by what is added",
    "a book put in order by a withdrawal",
    "a book put in order by its plan",
    "a book left out of order on 14",
    "a book left out of order by another refusal",
    "a book of more than 16 batches",
    "a book of more than 64 batches",
    "a book with more than 10 recipes",
    "help",
    "a line passed over",
    "a command at the edge",
    "a line alone",
    "a rest amid a line",
    "no last line feed",
];

/// Of so many lines one must be of each operation and answer, and of so many one must show each thing.
const ANSWER_ONE_OF: u64 = 4_000;
const SHOWN_ONE_OF: u64 = 10_000;

#[derive(Default)]
pub struct Tally {
    pub conversations: u64,
    /// All lines but those that are passed over.
    pub commands: u64,
    /// By refusal number, the accepted at 0.
    answers: [[u64; MAX_REFUSAL + 1]; OPERATIONS.len()],
    shown: BTreeMap<&'static str, u64>,
}

impl Tally {
    /// A conversation that went well.
    pub fn count(&mut self, script: &Script, manner: &Manner) {
        self.conversations += 1;
        script
            .spoken
            .iter()
            .for_each(|spoken| self.count_line(spoken));
        *self.shown.entry("a line alone").or_default() += manner.alone;
        *self.shown.entry("a rest amid a line").or_default() += manner.amid_a_line;
        *self.shown.entry("no last line feed").or_default() += u64::from(manner.no_last_line_feed);
    }

    fn count_line(&mut self, spoken: &Spoken) {
        let line = Line::of(&spoken.line);
        self.commands += u64::from(!matches!(line, Line::PassedOver));
        if let Some(operation) = operation(&line, &spoken.answer) {
            self.answers[operation][refusal_told(&spoken.answer)] += 1;
        }
        if let Some(shows) = spoken.shows {
            *self.shown.entry(shows).or_default() += 1;
        }
        if let Some((_, outcomes)) = spoken.answer.split_once("\noutcomes") {
            self.count_outcomes(outcomes);
        }
    }

    fn count_outcomes(&mut self, outcomes: &str) {
        for word in outcomes.split_whitespace() {
            let name = match word {
                "aside" => "a batch aside",
                "finished" => "a batch finished",
                "unfinished" => "a batch unfinished",
                _ => continue,
            };
            *self.shown.entry(name).or_default() += 1;
        }
    }

    pub fn print(&self) {
        println!(
            "{} commands in {} conversations",
            self.commands, self.conversations
        );
        print!("{:<22}{:>9}", "", "accepted");
        let refusals = (1..=MAX_REFUSAL).filter(|refusal| !matches!(refusal, 10 | 16..20));
        refusals.clone().for_each(|refusal| print!("{refusal:>6}"));
        println!();
        for (operation, answers) in OPERATIONS.iter().zip(&self.answers) {
            print!("{:<22}{:>9}", operation.name, answers[0]);
            let counts = refusals.clone().map(|refusal| answers[refusal]);
            counts.for_each(|count| print!("{count:>6}"));
            println!();
        }
        for name in must_be_shown() {
            println!("{:>9} {name}", self.times_shown(name));
        }
    }

    fn times_shown(&self, name: &str) -> u64 {
        self.shown.get(name).copied().unwrap_or(0)
    }

    /// What should have been met more often, for so many commands.
    pub fn missing(&self) -> Vec<String> {
        let mut missing = Vec::new();
        let least = (self.commands / ANSWER_ONE_OF).max(1);
        for (operation, answers) in OPERATIONS.iter().zip(&self.answers) {
            let accepts = operation.name != HELD_LIST;
            for &refusal in operation.refusals.iter().chain(accepts.then_some(&0)) {
                if answers[refusal] < least {
                    let name = operation.name;
                    missing.push(format!(
                        "fewer than {least} of {name}, refused {refusal} (0: accepted)"
                    ));
                }
            }
        }
        let least = (self.commands / SHOWN_ONE_OF).max(1);
        for name in must_be_shown() {
            if self.times_shown(name) < least {
                missing.push(format!("fewer than {least} of: {name}"));
            }
        }
        missing
    }
}

fn must_be_shown() -> impl Iterator<Item = &'static str> {
    let ways = no_command::WAYS.into_iter().map(|(way, _)| way);
    SHOWN.into_iter().chain(ways)
}

/// Which of the operations a line asks for.
fn operation(line: &Line, answer: &str) -> Option<usize> {
    let Line::Command(command) = line else {
        return None;
    };
    let name = match command {
        Command::Choose => "choose",
        Command::Records => "records",
        Command::Check(_) => "check",
        Command::Run(_) => "run",
        Command::Sheet => "sheet",
        Command::Open { .. } => "open",
        Command::Add(_) if of_the_held_list(answer) => HELD_LIST,
        Command::Add(_) => "add",
        Command::Withdraw(_) => "withdraw",
        Command::Plan => "plan",
        _ => return None,
    };
    OPERATIONS
        .iter()
        .position(|operation| operation.name == name)
}

/// Whether an answer to `add` is the held list's own refusal: 1 to 3, or one that names a place.
fn of_the_held_list(answer: &str) -> bool {
    let place = answer.split(' ').nth(2);
    matches!(refusal_told(answer), 1..=3) || place.is_some_and(|place| place != "0")
}
