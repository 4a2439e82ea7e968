//! Lines that are passed over, and commands at the edge of what can be said.

use crate::line::{MAX_BYTES, MAX_CHOICE};
use drawn::Chance;

/// An empty line, one of spaces alone, or a comment.
pub fn passed_over(chance: &mut Chance) -> Vec<u8> {
    let length = chance.one_of(&[1, 2, 80, MAX_BYTES, MAX_BYTES + 1, 70_000]);
    match chance.below(5) {
        0 => Vec::new(),
        1 => vec![b' '; length.min(MAX_BYTES)],
        2 => b"# week 0 100".to_vec(),
        3 => b"#choose\r\t\0\xff".to_vec(),
        _ => vec![b'#'; length],
    }
}

/// A command of 4,096 bytes, the greatest sizes, the longest choice, the greatest recipe and the greatest numbers.
pub fn at_the_edge(chance: &mut Chance) -> Vec<u8> {
    let choice = " 1".repeat(MAX_CHOICE);
    let wide = format!("{:MAX_BYTES$}", "choose");
    let records = format!("{:MAX_BYTES$}", "records");
    let far = format!("{:>MAX_BYTES$}", "list");
    let book = format!("{:>MAX_BYTES$}", "book");
    let full = format!("check{}{}", " ".repeat(MAX_BYTES - 7), " 1");
    let lines = [
        "table 40000 255",
        "table 00000",
        "log 4000 255",
        "log 0",
        "check 255",
        "run 0",
        "check",
        "run",
        "week 65535 65535",
        "batch 65535 65535 65535 65535 65535",
        "open 63135 65535",
        "open 63134 65535",
        "add 65535 65534 65535 65535 65535",
        "withdraw 65535",
        &["check", &choice].concat(),
        &["run", &choice].concat(),
        &wide,
        &records,
        &far,
        &book,
        &full,
    ];
    chance.one_of(&lines).into()
}
