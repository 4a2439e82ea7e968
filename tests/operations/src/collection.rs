//! "the batches added and not withdrawn since" the book was opened, told by the calls and their answers alone.

use crate::line::{Command, Line};
use reference::Week;

/// The batches as they came; none where no opening was accepted, or a list was put into the book since.
#[derive(Default)]
pub struct Collection(Option<Week>);

impl Collection {
    /// After a line and its answer.
    pub fn hear(&mut self, line: &[u8], answer: &str) {
        let Line::Command(command) = Line::of(line) else {
            return;
        };
        let accepted = answer == "ok\n";
        match (command, &mut self.0) {
            (Command::Hold, _) => self.0 = None,
            (Command::Open { opening, closing }, _) => {
                self.0 = accepted.then(|| Week::empty(opening, closing));
            }
            (Command::Add(batch), Some(week)) if accepted => week.batches.push(batch),
            (Command::Withdraw(number), Some(week)) if accepted => {
                week.batches.retain(|batch| batch.number != number);
            }
            _ => {}
        }
    }

    /// The list of them, in the order in which they came.
    pub fn freshly_written(&self) -> Option<Week> {
        self.0.clone()
    }
}
