//! The corners of document 01's "The sheet", each refused with a number and a line that are known without any program;
//! a sheet with every digit, and one with the longest text.

use crate::session::Session;
use reference::{write, Batch, Recipe, Week};

type Case<'a> = (&'a [u8], [i32; 3]);

pub fn compare(session: &mut Session) {
    line_feeds(session);
    digits(session);
    digits_of_later_lines(session);
    frames(session);
    weeks(session);
    first_faults(session);
    recipe_counts(session);
    many_bytes(session);
    every_digit(session);
    longest_text(session);
}

fn expect(session: &mut Session, cases: &[Case]) {
    for &(sheet, refusal) in cases {
        session.expect_refusal(sheet, refusal);
    }
}

/// "Each line is one frame .. ended by a line feed."
fn line_feeds(session: &mut Session) {
    let cases: [Case; 5] = [
        (b"\n0100000064\n", [16, 1, 0]),
        (b"0100000064\n0", [16, 2, 0]),
        (b"01000000640", [16, 1, 0]),
        (b"0100000064\n0200010000006401000100010", [16, 2, 0]),
        (b"0100000064020001000000640100010001\n", [16, 1, 0]),
    ];
    expect(session, &cases);
}

/// "in upper-case hexadecimal": the bytes next to the digits, and others, at places of a week.
fn digits(session: &mut Session) {
    let cases: [Case; 10] = [
        (b"0100000064\x00\n", [16, 1, 0]),
        (b"01000000\x004\n", [16, 1, 0]),
        (b" 0100000064\n", [16, 1, 0]),
        (b"01 00000064\n", [16, 1, 0]),
        (b"010000 064\n", [16, 1, 0]),
        (b"010000006/\n", [16, 1, 0]),
        (b"010000006:\n", [16, 1, 0]),
        (b"010000006@\n", [16, 1, 0]),
        (b"010000006G\n", [16, 1, 0]),
        (b"010000006\xFF\n", [16, 1, 0]),
    ];
    expect(session, &cases);
}

/// The same of a batch, and after it.
fn digits_of_later_lines(session: &mut Session) {
    let cases: [Case; 3] = [
        (b"0100000064\n020001000000640100010001\r\n", [16, 2, 0]),
        (b"0100000064\n0200010000000a0100010001\n", [16, 2, 0]),
        (b"0100000064\n020001000000640100010001\n\x00", [16, 3, 0]),
    ];
    expect(session, &cases);
}

/// "Any other line is no frame."
fn frames(session: &mut Session) {
    let cases: [Case; 6] = [
        (b"0000000064\n", [16, 1, 0]),
        (b"1000000064\n", [16, 1, 0]),
        (b"0100000064\n030001000000640100010001\n", [16, 2, 0]),
        (b"01\n", [16, 1, 0]),
        (b"01000000\n", [16, 1, 0]),
        (b"0100000064\n02\n", [16, 2, 0]),
    ];
    expect(session, &cases);
}

/// "the first line is missing or is no week, or a later one is a week."
fn weeks(session: &mut Session) {
    let cases: [Case; 3] = [
        (b"020001000000640100010001\n0100000064\n", [17, 1, 0]),
        (
            b"0100000064\n020001000000640100010001\n0100000064\n",
            [17, 3, 0],
        ),
        (
            b"0100000064\n020001000000640100010001\n0100000064",
            [16, 3, 0],
        ),
    ];
    expect(session, &cases);
}

/// "line by line 16, 17", before the week itself.
fn first_faults(session: &mut Session) {
    let cases: [Case; 4] = [
        (b"0100000064\n\n0100000064\n", [16, 2, 0]),
        (b"0100000064\n0100000064\n\n", [17, 2, 0]),
        (b"020001000000640100010001\n\n", [17, 1, 0]),
        (b"0100050004\n0100000064\n", [17, 2, 0]),
    ];
    expect(session, &cases);
}

/// "The length must agree with the count."
fn recipe_counts(session: &mut Session) {
    let cases = [(1, 2), (11, 10), (10, 11), (255, 254)];
    for (count, recipes) in cases {
        let recipes = "00010001".repeat(recipes);
        let sheet = format!("0100000064\n02000100000064{count:02X}{recipes}\n");
        session.expect_refusal(sheet.as_bytes(), [16, 2, 0]);
    }
}

/// "above 4,096 bytes", whatever they are; and a second week after more batches than a list has.
fn many_bytes(session: &mut Session) {
    session.expect_refusal(&[0; 4096], [16, 1, 0]);
    session.expect_refusal(&[0; 4097], [18, 0, 0]);
    let batches = "020001000000640100010001\n".repeat(17);
    let sheet = format!("0100000064\n{batches}0100000064\n");
    session.expect_refusal(sheet.as_bytes(), [17, 19, 0]);
}

/// "Values of two bytes stand high byte first": number 62,172, r 837, d 1,656, cost 410, worth 48,350.
fn every_digit(session: &mut Session) {
    let sheet = b"0100000960\n02F2DC0345067801019ABCDE\n";
    let text = "week 0 2400\ntotal 48350 changes 1 idle 1990\n62172 1 410 1246 1656 1247\n";
    session.expect_plan(sheet, 48_350, &[1], text);
}

/// 16 batches of which only the tenth recipe fits, in 2,400 minutes, and every number as long as it can be.
fn longest_text(session: &mut Session) {
    let mut recipes = vec![
        Recipe {
            cost: u16::MAX,
            worth: u16::MAX,
        };
        10
    ];
    recipes[9].cost = 100;
    let batch = |number| Batch {
        number,
        arrival: 63_135,
        due: u16::MAX,
        recipes: recipes.clone(),
    };
    let sheet = write(&Week {
        opening: 63_135,
        closing: u16::MAX,
        batches: (65_520..=u16::MAX).map(batch).collect(),
    });
    let mut text = "week 63135 65535\ntotal 1048560 changes 16 idle 800\n".to_string();
    for i in 0..16 {
        let (number, start, finish) = (65_520 + i, 63_935 + 100 * i, 63_235 + 100 * i);
        text += &format!("{number} 10 100 {start} {} {finish}\n", start + 100);
    }
    session.expect_plan(&sheet, 1_048_560, &[10; 16], &text);
}
