//! Lines read wrongly.

use super::wrong;
use crate::imitation::Imitation;
use crate::line::{Command, Line, MAX_BYTES};

/// A line that is no command.
const NO_COMMAND: &[u8] = b"no command";

pub const WRONG: [Imitation; 9] = [
    wrong("a number above 65,535 wrapped", |desk, line| {
        desk.answer(&each_word(line, |word| {
            let number: Option<usize> = std::str::from_utf8(word).ok()?.parse().ok();
            let above = number.filter(|_| word.len() == 5)?.checked_sub(65_536)?;
            Some(above.to_string().into())
        }))
    }),
    wrong("a number of six digits is read", |desk, line| {
        desk.answer(&each_word(line, |word| {
            let digits = word.len() == 6 && word.iter().all(u8::is_ascii_digit);
            let zero = digits && word.starts_with(b"0");
            zero.then(|| word[1..].to_vec())
        }))
    }),
    wrong("a zero before a number makes it none", |desk, line| {
        desk.answer(&each_word(line, |word| {
            let zero = word.len() > 1 && word.starts_with(b"0");
            zero.then(|| b"none".to_vec())
        }))
    }),
    wrong("a word too many is passed over", |desk, line| {
        let last = line.iter().rposition(|&byte| byte == b' ');
        let shorter = &line[..last.unwrap_or(line.len())];
        match Line::of(line) {
            Line::NoCommand if line.len() <= MAX_BYTES => desk.answer(shorter),
            _ => desk.answer(line),
        }
    }),
    wrong("the byte of a table is left out", |desk, line| {
        let answer = desk.answer(line);
        if matches!(Line::of(line), Line::Command(Command::Table(_))) {
            desk.table.fill(0);
        }
        answer
    }),
    wrong("a long line cut to 4,096 bytes", |desk, line| {
        desk.answer(&line[..line.len().min(MAX_BYTES)])
    }),
    wrong("a line of 4,096 bytes is too long", |desk, line| {
        let too_long = line.len() >= MAX_BYTES && !line.starts_with(b"#");
        desk.answer(if too_long { NO_COMMAND } else { line })
    }),
    wrong("a long comment is no command", |desk, line| {
        let too_long = line.len() > MAX_BYTES;
        desk.answer(if too_long { NO_COMMAND } else { line })
    }),
    wrong("a comment is not counted as a line", |desk, line| {
        if line.starts_with(b"#") {
            String::new()
        } else {
            desk.answer(line)
        }
    }),
];

/// The line with each word replaced for which there is another.
fn each_word(line: &[u8], other: impl Fn(&[u8]) -> Option<Vec<u8>>) -> Vec<u8> {
    let words = line.split(|&byte| byte == b' ');
    let words: Vec<Vec<u8>> = words
        .map(|word| other(word).unwrap_or(word.to_vec()))
        .collect();
    words.join(&b' ')
}
