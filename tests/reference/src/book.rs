//! Document 02, One: the week book.

use crate::list;
use crate::operation;
use crate::plan::Plan;
use crate::refusal::{Refusal, Refused};
use crate::week::{Batch, Week};

/// "a book that holds one week and its batches in order". It can be made to hold any list, in any order: "every other call
/// first refuses a held list that is not well formed, as Choose would", and "an accepted call hands a book back in that order".
#[derive(Clone)]
pub struct Book {
    pub list: Week,
}

impl Book {
    pub fn empty(opening: u16, closing: u16) -> Book {
        Book {
            list: Week::empty(opening, closing),
        }
    }

    /// Whether the list that it holds is refused.
    pub fn is_refused(&self) -> bool {
        list::judge(&self.list).is_err()
    }

    /// "1 and 2 (opening; a refused one hands back an empty book of week 0 to 0)".
    pub fn open(&mut self, opening: u16, closing: u16) -> Result<(), Refused> {
        *self = Book::empty(opening, closing);
        let judged = list::judge(&self.list);
        if judged.is_err() {
            *self = Book::empty(0, 0);
        }
        judged
    }

    /// "20 the book already holds 16 (add, before 4)"; "add puts the batch in order".
    pub fn add(&mut self, batch: Batch) -> Result<(), Refused> {
        list::judge(&self.list)?;
        Refusal::BookFull.when(self.list.batches.len() >= Week::MAX_BATCHES)?;
        list::judge_beside(&batch, &self.list.batches, self.list.closing)?;
        self.list.batches.push(batch);
        self.list.put_in_order();
        Ok(())
    }

    /// "21 no such number (withdraw)".
    pub fn withdraw(&mut self, number: u16) -> Result<(), Refused> {
        list::judge(&self.list)?;
        Refusal::NotHeld.when(!self.list.holds(number))?;
        self.list.batches.retain(|batch| batch.number != number);
        self.list.put_in_order();
        Ok(())
    }

    /// "planning a book answers, and fills the table lent, as Choose does". 14 is no accepted call.
    pub fn plan(
        &mut self,
        picks: &mut [u8],
        best: impl Fn(&Week, &mut [u8]) -> Option<Plan>,
    ) -> Result<Plan, Refused> {
        let plan = operation::choose(&self.list, picks, best)?;
        self.list.put_in_order();
        Ok(plan)
    }
}
