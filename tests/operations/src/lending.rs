//! Tables and logs that are lent, most of them long enough.

use crate::handwriting;
use crate::line::{MAX_LOG, MAX_TABLE};
use drawn::Chance;

/// The line that lends a picks table where so many bytes are needed.
pub fn table(chance: &mut Chance, needed: usize) -> Vec<u8> {
    lend(chance, "table", needed, MAX_TABLE)
}

/// The line that lends a log where so many bytes are needed.
pub fn log(chance: &mut Chance, needed: usize) -> Vec<u8> {
    lend(chance, "log", needed, MAX_LOG)
}

fn lend(chance: &mut Chance, word: &str, needed: usize, most: usize) -> Vec<u8> {
    let size = match chance.below(16) {
        0 => 0,
        1 | 2 => needed.saturating_sub(1),
        3 => chance.between(0..=needed),
        4..=8 => needed,
        9 => most,
        _ => needed + chance.between(1..=40),
    };
    let value = chance.one_of(&[0, 1, 7, 99, 200, 255]);
    let numbers = [size.min(most), value];
    let given = if chance.one_in(8) { 1 } else { 2 };
    handwriting::line(chance, word, &numbers[..given])
}
