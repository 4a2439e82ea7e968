//! What a call answers, and every byte of the memory that it was lent.

use reference::Call;

/// Bytes before and after what is lent: none of them may change.
const MARGIN: usize = 8;

#[derive(PartialEq)]
pub struct Outcome {
    pub answer: i32,
    picks: Vec<u8>,
    recipes: Vec<u8>,
}

impl Outcome {
    /// The outcome of a call that is lent a table and a buffer of these sizes.
    pub fn of(call: Call, sheet: &[u8], table: usize, buffer: usize) -> Outcome {
        let mut picks = pattern(table);
        let mut recipes = pattern(buffer);
        let answer = call(sheet, lent(&mut picks), lent(&mut recipes));
        Outcome {
            answer,
            picks,
            recipes,
        }
    }

    /// The first bytes of the recipe buffer.
    pub fn recipes(&self, count: usize) -> &[u8] {
        &self.recipes[MARGIN..MARGIN + count]
    }

    /// Where the memory of two outcomes first differs, in words.
    pub fn first_difference(&self, other: &Outcome) -> String {
        let table = differing("picks table", &self.picks, &other.picks);
        table
            .or_else(|| differing("recipe buffer", &self.recipes, &other.recipes))
            .unwrap_or_else(|| "no byte differs".to_string())
    }
}

/// Bytes that are no recipe's number, so that a byte that is kept shows, and one that is cleared too.
fn pattern(size: usize) -> Vec<u8> {
    let bytes = 0..size + 2 * MARGIN;
    bytes.map(|at| 0x80 | (at % 113) as u8).collect()
}

fn lent(bytes: &mut [u8]) -> &mut [u8] {
    let end = bytes.len() - MARGIN;
    &mut bytes[MARGIN..end]
}

fn differing(name: &str, found: &[u8], expected: &[u8]) -> Option<String> {
    let at = (0..found.len()).find(|&at| found[at] != expected[at])?;
    let byte = at as isize - MARGIN as isize;
    let (found, expected) = (found[at], expected[at]);
    Some(format!("byte {byte} of the {name}: {found} for {expected}"))
}
