//! What must be believed: the definitions that the contracts of the operations reach, and the structs and enums that these speak of.
//! The last lines have the totals: of the planner, and of what weekdesk reads and writes besides. With the argument `list` they follow
//! the list of all, with `others` that of the definitions which no such contract reaches.

mod contracts;
mod definitions;
mod file;
mod repository;
mod scope;
mod words;

use file::{Entry, Kind};
use repository::Repository;
use scope::Place;
use std::collections::BTreeSet;
use std::process::ExitCode;

/// A contract: the file of a function, and its name.
type Contract = (&'static str, &'static str);

/// The planner's operations.
const PLANNER: [Contract; 14] = [
    ("crates/planner/src/check.rt", "check"),
    ("crates/planner/src/choose.rt", "choose"),
    ("crates/planner/src/choose.rt", "table_fault"),
    ("crates/planner/src/run.rt", "run"),
    ("crates/planner/src/own_memory.rt", "choose_week"),
    ("crates/planner/src/own_memory.rt", "run_week"),
    ("crates/sheet/src/read.rt", "read"),
    ("crates/report/src/lib.rt", "report"),
    ("crates/weekplan_c/src/lib.rt", "weekplan_choose"),
    ("crates/book/src/open.rt", "open"),
    ("crates/book/src/add.rt", "add"),
    ("crates/book/src/withdraw.rt", "withdraw"),
    ("crates/book/src/plan.rt", "plan"),
    ("crates/records/src/choose.rt", "choose_records"),
];

/// What weekdesk is made of: its lines and commands, what it writes down and lends, and what it answers.
const WEEKDESK: [Contract; 15] = [
    ("crates/words/src/line.rt", "extended"),
    ("crates/command/src/lib.rt", "command_of"),
    ("crates/week/src/record.rt", "empty"),
    ("crates/draft/src/record.rt", "with_batch"),
    ("crates/draft/src/record.rt", "week_of"),
    ("crates/draft/src/record.rt", "of_week"),
    ("crates/draft/src/list.rt", "list_text"),
    ("crates/draft/src/frames.rt", "sheet_text"),
    ("crates/lent/src/shown.rt", "shown_text"),
    ("crates/answer/src/operation.rt", "choose_text"),
    ("crates/answer/src/operation.rt", "plan_text"),
    ("crates/answer/src/operation.rt", "check_text"),
    ("crates/answer/src/operation.rt", "run_text"),
    ("crates/answer/src/operation.rt", "ok_text"),
    ("crates/answer/src/operation.rt", "no_command_text"),
];

/// Document 01: "The best total is stated over the backward rule, never over the search." No operation's contract reaches these.
const OF_THE_SEARCH: [&str; 3] = [
    "crates/select/specs/Word.antt",
    "crates/select/specs/Row.antt",
    "crates/select/specs/Contract.antt",
];

/// Something that a file holds.
type Found<'a> = (&'a str, &'a Entry);

fn main() -> ExitCode {
    let argument = std::env::args().nth(1);
    match run(argument.as_deref().unwrap_or_default()) {
        Ok(()) => ExitCode::SUCCESS,
        Err(wrong) => {
            eprintln!("believed: {wrong}");
            ExitCode::FAILURE
        }
    }
}

fn run(argument: &str) -> Result<(), String> {
    let repository = Repository::read("crates")?;
    let of_the_planner = reached(&repository, &PLANNER)?;
    let of_weekdesk = reached(&repository, &WEEKDESK)?;
    let (planner, others): (Vec<Found>, Vec<Found>) = repository
        .entries()
        .partition(|found| of_the_planner.contains(&place(found)));
    let (besides, others): (Vec<Found>, Vec<Found>) = others
        .into_iter()
        .partition(|found| of_weekdesk.contains(&place(found)));
    match argument {
        "list" => print(planner.iter().chain(&besides)),
        "others" => print(others.iter().filter(|found| is_definition(found))),
        _ => {}
    }
    println!("believed: {}", totals(&planner));
    println!("believed of weekdesk: {}", totals(&besides));
    Ok(())
}

fn place((file, entry): &Found) -> Place {
    Place::new(file, &entry.name)
}

fn reached(repository: &Repository, operations: &[Contract]) -> Result<BTreeSet<Place>, String> {
    let mut all = BTreeSet::new();
    for &(file, operation) in operations {
        let reached = repository.reached_from(Place::new(file, operation))?;
        let contract = format!("{file}: the contract of {operation}");
        if !reached.iter().any(|place| place.file.contains("/specs/")) {
            return Err(format!("{contract} names no definition"));
        }
        let mut files = reached.iter().map(|place| place.file.as_str());
        if let Some(search) = files.find(|file| OF_THE_SEARCH.contains(file)) {
            return Err(format!("{contract} rests on {search}"));
        }
        all.extend(reached);
    }
    Ok(all)
}

fn is_definition((_, entry): &Found) -> bool {
    entry.kind == Kind::Definition
}

/// By file, as they stand in it: the lines of each, and its name.
fn print<'a>(list: impl Iterator<Item = &'a Found<'a>>) {
    let mut heading = "";
    for (file, entry) in list {
        if *file != heading {
            println!("{file}");
            heading = file;
        }
        println!("{:6}  {}", entry.lines, entry.name);
    }
}

fn totals(list: &[Found]) -> String {
    let definitions = list.iter().filter(|found| is_definition(found)).count();
    let types = list.len() - definitions;
    let lines: usize = list.iter().map(|(_, entry)| entry.lines).sum();
    let files: BTreeSet<&str> = list.iter().map(|(file, _)| *file).collect();
    let files = files.len();
    format!("{definitions} definitions and {types} types, {lines} lines, in {files} files")
}
