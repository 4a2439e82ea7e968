//! How the input is cut: at the ends of lines, or anywhere. After some pieces nothing more is written until every line that
//! has come whole is answered.

use drawn::Chance;

pub struct Piece {
    /// Where it ends in the whole input.
    pub end: usize,
    /// Whether the answers so far are waited for.
    pub rest: bool,
}

/// The pieces of an input of this length, whose lines end here, each after its line feed.
pub fn cut(chance: &mut Chance, line_ends: &[usize], length: usize) -> Vec<Piece> {
    let mut pieces = Vec::new();
    let mut at = 0;
    let mut way = chance.below(8);
    while at < length {
        if chance.one_in(16) {
            way = chance.below(8);
        }
        let (end, rest) = match way {
            // One line, then its answer.
            0 | 1 => (next_end(line_ends, at, 1), true),
            // Several lines at once.
            2 | 3 => (next_end(line_ends, at, chance.between(2..=20)), true),
            // Anywhere, in the middle of a line too.
            4 => (at + chance.between(1..=4), chance.one_in(8)),
            5 => (at + chance.between(1..=60), chance.one_in(4)),
            6 => (at + chance.between(1..=1_000), chance.one_in(2)),
            _ => (at + chance.between(1..=20_000), chance.one_in(2)),
        };
        at = end.min(length);
        pieces.push(Piece { end: at, rest });
    }
    pieces
}

/// The end of the line that is so many further on.
fn next_end(line_ends: &[usize], at: usize, lines: usize) -> usize {
    let whole = line_ends.partition_point(|&end| end <= at);
    let last = line_ends.len() - 1;
    line_ends[last.min(whole + lines - 1)]
}
