//! One run of the test: each sheet is handed to the call, many to the program, and all to the references; every
//! difference is counted.

use crate::judge::{Judge, Judged};
use crate::outcome::Outcome;
use crate::program::Program;
use crate::tally::{Side, Tally};
use reference::{refusal_told, Call};

/// Every choice is tried where the whole table takes at most this many.
const MOST_TRIES: u64 = 100_000;

/// One sheet of so many goes to the program too. No family has a round that is a multiple of it, so that it meets every
/// part of each round.
const PROGRAM_TAKES_ONE_OF: u64 = 19;

/// The ways to find a plan, the one that is not always affordable last.
const REFERENCES: [(&str, Call); 3] = [
    ("the recursion", reference::recursion),
    ("the same loops", reference::same_loops),
    ("every choice", reference::every_choice),
];

const CALL: Side = Side {
    name: "the call",
    refusals: &[1, 2, 3, 4, 5, 6, 7, 8, 9, 11, 14, 16, 17, 18, 19],
    least_sheets: 200_000,
    least_answers: 100,
};

const PROGRAM: Side = Side {
    name: "the program",
    refusals: &[1, 2, 3, 4, 5, 6, 7, 8, 9, 14, 16, 17, 18],
    least_sheets: 15_000,
    least_answers: 50,
};

pub struct Session {
    weekplan: Program,
    call: Tally,
    judged: Judged,
    program: Tally,
}

impl Session {
    pub fn new(weekplan: Program) -> Session {
        Session {
            weekplan,
            call: Tally::new(CALL),
            judged: Judged::default(),
            program: Tally::new(PROGRAM),
        }
    }

    pub fn begin(&mut self, family: &'static str) {
        self.call.begin(family);
        self.program.begin(family);
    }

    pub fn print(&self) {
        self.call.print();
        self.judged.print();
        self.program.print();
    }

    /// What is wrong, a text for each thing.
    pub fn wrong(&self) -> Vec<String> {
        let mut wrong = self.call.wrong();
        wrong.extend(self.judged.missing());
        wrong.extend(self.program.wrong());
        wrong
    }

    /// A sheet, with one table and one buffer.
    pub fn compare(&mut self, sheet: &[u8], table: usize, buffer: usize) {
        self.compare_sizes(sheet, &[(table, buffer)]);
    }

    /// A sheet, with tables and buffers of these sizes.
    pub fn compare_sizes(&mut self, sheet: &[u8], sizes: &[(usize, usize)]) {
        if self.call.sheets().is_multiple_of(PROGRAM_TAKES_ONE_OF) {
            self.compare_text(sheet, None);
        }
        let mut differs = false;
        for &(table, buffer) in sizes {
            differs |= self.call_differs(sheet, table, buffer);
        }
        self.call.count_sheet(differs);
    }

    /// Sheets of one accepted list in several orders: besides what every sheet is held to, the call answers and leaves of each
    /// what it does of the first, and the program writes one text.
    pub fn compare_orders(&mut self, sheets: &[Vec<u8>], table: usize, buffer: usize) {
        if self.call.sheets().is_multiple_of(PROGRAM_TAKES_ONE_OF) {
            let text = self.weekplan.text(&sheets[0]).unwrap_or_default();
            let text = String::from_utf8_lossy(&text);
            for sheet in sheets {
                self.compare_text(sheet, Some(&text));
            }
        }
        let first = Outcome::of(call::choose, &sheets[0], table, buffer);
        for sheet in sheets {
            let found = Outcome::of(call::choose, sheet, table, buffer);
            let moved = found != first;
            if moved {
                self.call.note(|| {
                    let (sheet, other) = (sheet.escape_ascii(), sheets[0].escape_ascii());
                    let (answer, byte) = (found.answer, found.first_difference(&first));
                    format!("sheet {sheet}\nanswer {answer}\n{byte}, of the order {other}")
                });
            }
            let differs = self.call_differs(sheet, table, buffer);
            self.call.count_sheet(moved || differs);
        }
    }

    /// A sheet whose plan is known, and the text of it.
    pub fn expect_plan(&mut self, sheet: &[u8], total: i32, recipes: &[u8], text: &str) {
        self.expect_answer(sheet, total, recipes);
        self.compare_text(sheet, Some(text));
    }

    /// A sheet whose refusal is known: "three numbers: its own, a place and a recipe".
    pub fn expect_refusal(&mut self, sheet: &[u8], [number, place, recipe]: [i32; 3]) {
        self.expect_answer(sheet, -number, &[]);
        self.compare_text(sheet, Some(&format!("refused {number} {place} {recipe}\n")));
    }

    /// The call's answer and recipes are known; the table and the buffer are longer than they need be.
    fn expect_answer(&mut self, sheet: &[u8], answer: i32, recipes: &[u8]) {
        let (table, buffer) = (40_000, 20);
        let found = Outcome::of(call::choose, sheet, table, buffer);
        let written = found.recipes(recipes.len());
        let wrong = found.answer != answer || written != recipes;
        if wrong {
            let sheet = sheet.escape_ascii();
            self.call.note(|| {
                format!(
                    "sheet {sheet}\nanswer {}, {written:?} for {answer}, {recipes:?}",
                    found.answer
                )
            });
        }
        let differs = self.call_differs(sheet, table, buffer);
        self.call.count_sheet(wrong || differs);
    }

    /// One call against each reference that is affordable.
    fn call_differs(&mut self, sheet: &[u8], table: usize, buffer: usize) -> bool {
        let every = reference::tries(sheet).is_some_and(|tries| tries <= MOST_TRIES);
        let affordable = if every { 3 } else { 2 };
        let outcome = |call| Outcome::of(call, sheet, table, buffer);
        let found = outcome(call::choose);
        let expected: Vec<Outcome> = REFERENCES[..affordable]
            .iter()
            .map(|&(_, reference)| outcome(reference))
            .collect();
        let answer = expected[0].answer;
        let refusal = answer.min(0).unsigned_abs();
        self.call.count_answer(refusal as usize);
        self.judged.count(Judge::of(answer, every));
        let Some(at) = expected.iter().position(|other| *other != found) else {
            return false;
        };
        self.call.note(|| {
            let (sheet, name) = (sheet.escape_ascii(), REFERENCES[at].0);
            let (answer, right) = (found.answer, expected[at].answer);
            let byte = found.first_difference(&expected[at]);
            format!("sheet {sheet}\ntable of {table} bytes, buffer of {buffer}\nanswer {answer}; by {name} {right}\n{byte}")
        });
        true
    }

    /// The program's text against the reference's, and against the one that is known, if any.
    fn compare_text(&mut self, sheet: &[u8], known: Option<&str>) {
        let found = self.weekplan.text(sheet);
        let report = reference::report(sheet);
        self.program.count_answer(refusal_told(&report));
        let right = |text: &&str| found.as_ref().is_ok_and(|found| found == text.as_bytes());
        let mut expected = known.into_iter().chain([report.as_str()]);
        let missed = expected.find(|text| !right(text));
        self.program.count_sheet(missed.is_some());
        if let Some(text) = missed {
            self.program.note(|| {
                let (sheet, text) = (sheet.escape_ascii(), text.escape_default());
                let found = found.map(|found| found.escape_ascii().to_string());
                let found = found.unwrap_or_else(|error| error.to_string());
                format!("sheet {sheet}\nfound {found}\nright {text}")
            });
        }
    }
}
