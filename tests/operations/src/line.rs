//! A line of the desk: words with spaces between them. Any byte but a space belongs to a word.

use reference::{Batch, Recipe};

/// A line's greatest length, its line feed not counted.
pub const MAX_BYTES: usize = 4096;

/// The greatest picks table and the greatest log that can be lent.
pub const MAX_TABLE: usize = 40_000;
pub const MAX_LOG: usize = 4_000;

/// How many recipes a choice can name.
pub const MAX_CHOICE: usize = 255;

pub enum Line {
    /// An empty line, one of spaces alone, or a comment of any length.
    PassedOver,
    Command(Command),
    NoCommand,
}

pub enum Command {
    Week { opening: u16, closing: u16 },
    Batch(Batch),
    Table(Vec<u8>),
    Log(Vec<u8>),
    Choose,
    Records,
    Check(Vec<u8>),
    Run(Vec<u8>),
    ShowTable,
    ShowLog,
    List,
    Sheet,
    Open { opening: u16, closing: u16 },
    Add(Batch),
    Withdraw(u16),
    Plan,
    Book,
    Hold,
    Help,
}

impl Line {
    /// What a line is, its line feed taken off.
    pub fn of(line: &[u8]) -> Line {
        if line.starts_with(b"#") {
            return Line::PassedOver;
        }
        if line.len() > MAX_BYTES {
            return Line::NoCommand;
        }
        let words: Vec<&[u8]> = line
            .split(|&byte| byte == b' ')
            .filter(|word| !word.is_empty())
            .collect();
        if words.is_empty() {
            return Line::PassedOver;
        }
        command(&words).map_or(Line::NoCommand, Line::Command)
    }
}

fn command(words: &[&[u8]]) -> Option<Command> {
    let (&word, rest) = words.split_first()?;
    Some(match (word, rest) {
        (b"week", &[opening, closing]) => Command::Week {
            opening: number(opening)?,
            closing: number(closing)?,
        },
        (b"batch", rest) => Command::Batch(batch(rest)?),
        (b"table", rest) => Command::Table(lent(rest, MAX_TABLE)?),
        (b"log", rest) => Command::Log(lent(rest, MAX_LOG)?),
        (b"choose", []) => Command::Choose,
        (b"records", []) => Command::Records,
        (b"check", rest) => Command::Check(choice(rest)?),
        (b"run", rest) => Command::Run(choice(rest)?),
        (b"show", [b"table"]) => Command::ShowTable,
        (b"show", [b"log"]) => Command::ShowLog,
        (b"list", []) => Command::List,
        (b"sheet", []) => Command::Sheet,
        (b"open", &[opening, closing]) => Command::Open {
            opening: number(opening)?,
            closing: number(closing)?,
        },
        (b"add", rest) => Command::Add(batch(rest)?),
        (b"withdraw", &[held]) => Command::Withdraw(number(held)?),
        (b"plan", []) => Command::Plan,
        (b"book", []) => Command::Book,
        (b"hold", []) => Command::Hold,
        (b"help", []) => Command::Help,
        _ => return None,
    })
}

/// "A number is one to five decimal digits, at most 65,535": zeros may lead it.
fn number(word: &[u8]) -> Option<u16> {
    if word.len() > 5 || !word.iter().all(u8::is_ascii_digit) {
        return None;
    }
    std::str::from_utf8(word).ok()?.parse().ok()
}

fn byte(word: &[u8]) -> Option<u8> {
    number(word)?.try_into().ok()
}

/// NUMBER R D COST WORTH COST WORTH ..
fn batch(words: &[&[u8]]) -> Option<Batch> {
    let numbers = words.iter().map(|word| number(word));
    let numbers: Vec<u16> = numbers.collect::<Option<_>>()?;
    let (&[number, arrival, due], recipes) = numbers.split_first_chunk()?;
    let pairs = recipes.chunks_exact(2);
    pairs.remainder().is_empty().then(|| Batch {
        number,
        arrival,
        due,
        recipes: pairs
            .map(|pair| Recipe {
                cost: pair[0],
                worth: pair[1],
            })
            .collect(),
    })
}

/// SIZE V, or SIZE alone for bytes that are 0.
fn lent(words: &[&[u8]], greatest: usize) -> Option<Vec<u8>> {
    let (size, value) = match *words {
        [size] => (size, 0),
        [size, value] => (size, byte(value)?),
        _ => return None,
    };
    let size = usize::from(number(size)?);
    (size <= greatest).then(|| vec![value; size])
}

fn choice(words: &[&[u8]]) -> Option<Vec<u8>> {
    let numbers: Option<Vec<u8>> = words.iter().map(|word| byte(word)).collect();
    numbers.filter(|numbers| numbers.len() <= MAX_CHOICE)
}
