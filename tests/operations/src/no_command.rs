//! Lines that are no command, in each way that there is.

use crate::line::{MAX_BYTES, MAX_CHOICE, MAX_LOG, MAX_TABLE};
use drawn::Chance;

type Draw = fn(&mut Chance) -> Vec<u8>;

pub const WAYS: [(&str, Draw); 14] = [
    ("an unknown word", unknown_word),
    ("a word too many", word_too_many),
    ("a word too few", word_too_few),
    ("a number of six digits", |chance| {
        with_number(
            chance,
            &["100000", "000001", "065535", "999999", "0000000000"],
        )
    }),
    ("a number above 65,535", |chance| {
        let above = chance.between(65_536..=99_999).to_string();
        with_number(chance, &["65536", "65537", "65546", "99999", &above])
    }),
    ("no number", |chance| with_number(chance, &NO_NUMBERS)),
    ("a recipe above 255", recipe_above_a_byte),
    ("a choice of 256 and more", long_choice),
    ("a byte above 255", byte_above),
    ("a table above 40,000", |chance| {
        above(chance, "table", MAX_TABLE)
    }),
    ("a log above 4,000", |chance| above(chance, "log", MAX_LOG)),
    ("a line above 4,096 bytes", long_line),
    ("a byte that is no space", strange_space),
    ("any bytes", any_bytes),
];

/// A line that is no command, and the way in which it is none.
pub fn draw(chance: &mut Chance) -> (&'static str, Vec<u8>) {
    let (way, draw) = chance.one_of(&WAYS);
    (way, draw(chance))
}

const NO_NUMBERS: [&str; 12] = [
    "-1", "+1", "1.", "1,5", "0x1", "1e2", "one", "1\0", "\u{661}", "#1", "/", ":",
];

/// A line that is a command, and says little.
fn command(chance: &mut Chance) -> &'static str {
    chance.one_of(&[
        "week 0 100",
        "batch 7 0 40 30 9 10 4",
        "batch 7 0 40",
        "table 9 7",
        "log 9 7",
        "choose",
        "records",
        "check 1 2",
        "run 1 2",
        "show table",
        "show log",
        "list",
        "sheet",
        "open 0 100",
        "add 7 0 40 30 9 10 4",
        "withdraw 7",
        "plan",
        "book",
        "hold",
        "help",
    ])
}

fn unknown_word(chance: &mut Chance) -> Vec<u8> {
    let mut line = command(chance).as_bytes().to_vec();
    match chance.below(6) {
        0 => line[0].make_ascii_uppercase(),
        1 => line.make_ascii_uppercase(),
        2 => drop(line.remove(0)),
        3 => line.insert(0, chance.one_of(b"x0_\x80")),
        4 => line.splice(0..0, b"show ".iter().copied()).for_each(drop),
        _ => {
            let words = [
                "?",
                "exit",
                "0",
                "65535",
                "weekdesk",
                "weeks 0 100",
                "choosy",
                "record",
                " # week 0 9",
            ];
            line = chance.one_of(&words).into();
        }
    }
    line
}

fn word_too_many(chance: &mut Chance) -> Vec<u8> {
    let line = chance.one_of(&[
        "week 0 100 7",
        "week 0 100 week",
        "batch 7 0 40 30 9 10",
        "batch 7 0 40 30",
        "batch 7 0 40 30 9 x",
        "table 9 7 7",
        "log 9 7 7",
        "choose 1",
        "choose choose",
        "records 1",
        "records 7 0 40 30 9",
        "show table log",
        "show log 1",
        "list 1",
        "sheet 1",
        "open 0 100 7",
        "add 7 0 40 30 9 10",
        "withdraw 7 8",
        "plan 1",
        "book 7",
        "hold list",
        "help choose",
        "check 1 check",
        "run 1 2 run 1",
    ]);
    line.into()
}

fn word_too_few(chance: &mut Chance) -> Vec<u8> {
    let line = chance.one_of(&[
        "week",
        "week 0",
        "batch",
        "batch 7",
        "batch 7 0",
        "table",
        "log",
        "show",
        "open",
        "open 0",
        "add",
        "add 7 0",
        "withdraw",
    ]);
    line.into()
}

/// One of these in the place of a number.
fn with_number(chance: &mut Chance, numbers: &[&str]) -> Vec<u8> {
    let lines = [
        "week N 100",
        "week 0 N",
        "batch N 0 40 30 9 10 4",
        "batch 7 N 40 30 9 10 4",
        "batch 7 0 N 30 9 10 4",
        "batch 7 0 40 N 9 10 4",
        "batch 7 0 40 30 9 10 N",
        "batch 7 0 40 30 N",
        "open N 100",
        "open 0 N",
        "add N 0 40 30 9",
        "add 7 0 40 30 9 10 N",
        "withdraw N",
        "table N",
        "table N 7",
        "table 9 N",
        "log N",
        "log N 7",
        "log 9 N",
        "check N",
        "check 1 1 N",
        "run N",
        "run 2 N 1",
    ];
    let number = chance.one_of(numbers);
    chance.one_of(&lines).replace('N', number).into()
}

fn recipe_above_a_byte(chance: &mut Chance) -> Vec<u8> {
    let number = chance.between(256..=600).to_string();
    let number = chance.one_of(&["256", "257", "65535", &number]);
    let line = chance.one_of(&["check N", "run N", "check 1 N 1", "run 1 1 N"]);
    line.replace('N', number).into()
}

fn long_choice(chance: &mut Chance) -> Vec<u8> {
    let count = MAX_CHOICE + chance.one_of(&[1, 1, 2, 17, 257, 513]);
    let number = chance.one_of(&[" 1", " 2", " 0", " 255"]);
    (chance.one_of(&["check", "run"]).to_string() + &number.repeat(count)).into()
}

fn byte_above(chance: &mut Chance) -> Vec<u8> {
    let word = chance.one_of(&["table", "log"]);
    let byte = chance.one_of(&[256, 257, 300, 65_535]);
    format!("{word} 9 {byte}").into()
}

fn above(chance: &mut Chance, word: &str, greatest: usize) -> Vec<u8> {
    let size = greatest + chance.one_of(&[1, 2, 100, 65_535 - greatest]);
    let value = chance.one_of(&["", " 0", " 7"]);
    format!("{word} {size}{value}").into()
}

/// A command with spaces after it, between its words or before it, a great batch, or spaces alone.
fn long_line(chance: &mut Chance) -> Vec<u8> {
    let length = MAX_BYTES + chance.one_of(&[1, 1, 2, 904, 4096, 70_000]);
    let line = command(chance);
    let (word, rest) = line.split_once(' ').unwrap_or((line, ""));
    let spaces = " ".repeat(length - line.len());
    let long = match chance.below(5) {
        0 => [line, &spaces].concat(),
        1 => [&spaces, line].concat(),
        2 => [word, &spaces, " ", rest].concat(),
        3 => ["batch 7 0 40", &" 1 1".repeat(length / 4)].concat(),
        _ => " ".repeat(length),
    };
    long.into()
}

/// A tab, a carriage return or another byte in a place where a space, or nothing, would make a command.
fn strange_space(chance: &mut Chance) -> Vec<u8> {
    let line = command(chance);
    let byte = chance.one_of(b"\t\r\0\x0b\x0c\x85\xa0\xff");
    let mut line = line.as_bytes().to_vec();
    match line.iter().position(|&byte| byte == b' ') {
        Some(at) if chance.one_in(2) => line[at] = byte,
        _ if chance.one_in(2) => line.push(byte),
        _ => line.insert(0, byte),
    }
    line
}

/// Bytes of any kind after one that begins no command and no comment.
fn any_bytes(chance: &mut Chance) -> Vec<u8> {
    let mut line: Vec<u8> = (0..chance.below(300))
        .map(|_| chance.below(256) as u8)
        .filter(|&byte| byte != b'\n')
        .collect();
    line.insert(0, chance.one_of(b"\0\x1b\x7f\x80\xff"));
    line
}

#[cfg(test)]
mod tests {
    use super::*;
    use crate::line::Line;

    #[test]
    fn every_way_is_no_command() {
        let mut chance = Chance::new(1);
        for (way, draw) in WAYS {
            for _ in 0..2_000 {
                let line = draw(&mut chance);
                let none = matches!(Line::of(&line), Line::NoCommand);
                assert!(none, "{way}: {}", line.escape_ascii());
                assert!(!line.contains(&b'\n'), "{way}");
            }
        }
    }
}
