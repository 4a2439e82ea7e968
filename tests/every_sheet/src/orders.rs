//! Document 02, Two: "Two accepted lists that are rearrangements of each other get the same plan." Sheets of one list in
//! several orders.

use crate::examples::{W_BATCHES, W_TEXT, W_WEEK};
use crate::families::{lent, LARGER, SMALL};
use crate::session::Session;
use drawn::weeks::{week, FULL};
use drawn::Chance;
use reference::{write, Week};

pub fn compare(session: &mut Session, chance: &mut Chance) {
    case_w(session);
    for (shape, weeks) in [(&SMALL, 4_000), (&LARGER, 600), (&FULL, 60)] {
        for _ in 0..weeks {
            let week = week(chance, shape);
            let (table, buffer) = lent(chance, &week);
            session.compare_orders(&sheets(chance, week), table, buffer);
        }
    }
}

/// Case W in each of its orders: its own plan, and its own text.
fn case_w(session: &mut Session) {
    for order in [
        [0, 1, 2],
        [0, 2, 1],
        [1, 0, 2],
        [1, 2, 0],
        [2, 0, 1],
        [2, 1, 0],
    ] {
        let batches = order.map(|i| W_BATCHES[i]).concat();
        let sheet = W_WEEK.to_string() + &batches;
        session.expect_plan(sheet.as_bytes(), 22, &[2, 1, 1], W_TEXT);
    }
}

/// A list as it was drawn, in order, from its last batch to its first, and as chance has it.
fn sheets(chance: &mut Chance, mut week: Week) -> Vec<Vec<u8>> {
    let mut sheets = vec![write(&week)];
    week.put_in_order();
    sheets.push(write(&week));
    week.batches.reverse();
    sheets.push(write(&week));
    for _ in 0..2 {
        chance.shuffle(&mut week.batches);
        sheets.push(write(&week));
    }
    sheets
}
