//! Sheets whose answers and texts are known without any program: document 01's fixed examples, and the edges of its
//! refusals.

use crate::session::Session;
use reference::{write, Batch, Recipe, Week};

/// Number, arrival, due minute, and the recipes as cost and worth.
type Row<'a> = (u16, u16, u16, &'a [(u16, u16)]);

/// Case W: the week, and its batches.
pub const W_WEEK: &str = "0100000064\n";
pub const W_BATCHES: [&str; 3] = [
    "0200070000002802001E0009000A0004\n",
    "0200080014003C02001E000800000000\n",
    "02000900000064020032000A00140005\n",
];
pub const W_TEXT: &str = "week 0 100\ntotal 22 changes 4 idle 10\n\
    7 2 10 10 20 10\n8 1 30 20 50 50\n9 1 50 50 100 90\n";

pub fn compare(session: &mut Session) {
    fixed_examples(session);
    source_example(session);
    plans(session);
    great_numbers(session);
    limits(session);
    recipe_counts(session);
    batch_by_batch(session);
    places(session);
    any_order(session);
    last_batch(session);
    lines(session);
    weeks_as_bytes(session);
    long_sheets(session);
}

fn list(opening: u16, closing: u16, rows: &[Row]) -> Vec<u8> {
    let batches = rows.iter().map(|&(number, arrival, due, recipes)| Batch {
        number,
        arrival,
        due,
        recipes: recipes
            .iter()
            .map(|&(cost, worth)| Recipe { cost, worth })
            .collect(),
    });
    write(&Week {
        opening,
        closing,
        batches: batches.collect(),
    })
}

/// Ten recipes whose costs fall by this to this, worth 10 down to 1.
fn falling(cost: u16) -> Vec<(u16, u16)> {
    (1..=10).rev().map(|times| (cost * times, times)).collect()
}

/// Batches with one recipe of one minute, each due a minute after the one before: the k-th is read in minute k − 1.
fn one_a_minute(count: u16) -> Vec<Row<'static>> {
    (1..=count)
        .map(|number| (number, 0, number, &[(1, 1)][..]))
        .collect()
}

/// Document 01, "Fixed examples": A, G to L.
fn fixed_examples(session: &mut Session) {
    let w = W_WEEK.to_string() + &W_BATCHES.concat();
    session.expect_plan(w.as_bytes(), 22, &[2, 1, 1], W_TEXT);
    let g = list(0, 10, &[(1, 0, 10, &[(10, 1)])]);
    let text = "week 0 10\ntotal 1 changes 1 idle 0\n1 1 10 0 10 10\n";
    session.expect_plan(&g, 1, &[1], text);
    session.expect_refusal(&list(0, 10, &[(1, 0, 10, &[(11, 1)])]), [14, 0, 0]);
    let i = list(0, 10, &[(1, 0, 10, &[(11, 1), (0, 0)])]);
    let text = "week 0 10\ntotal 0 changes 0 idle 10\n1 2 0 10 10 0\n";
    session.expect_plan(&i, 0, &[2], text);
    let j: [Row; 2] = [(1, 5, 9, &[(4, 1)]), (2, 0, 10, &[(5, 1)])];
    session.expect_refusal(&list(0, 10, &j), [14, 0, 0]);
    let k = list(20, 30, &[(1, 5, 21, &[(1, 1)])]);
    let text = "week 20 30\ntotal 1 changes 1 idle 9\n1 1 1 20 21 21\n";
    session.expect_plan(&k, 1, &[1], text);
    session.expect_refusal(&list(20, 30, &[(1, 5, 20, &[(1, 1)])]), [14, 0, 0]);
    let text = "week 0 100\ntotal 0 changes 0 idle 100\n";
    session.expect_plan(&list(0, 100, &[]), 0, &[], text);
}

/// Document 01, "Fixed examples": E and F.
fn source_example(session: &mut Session) {
    let (first, third) = (falling(31), falling(22));
    let mut rows: [Row; 3] = [
        (1, 0, 900, &first),
        (2, 0, 1010, &[(910, 10)]),
        (3, 540, 2340, &third),
    ];
    let e = "week 0 2340\ntotal 23 changes 3 idle 1117\n\
        1 8 93 7 100 93\n2 1 910 100 1010 1003\n3 1 220 2120 2340 1223\n";
    session.expect_plan(&list(0, 2340, &rows), 23, &[8, 1, 1], e);
    let f = "week 0 1000\ntotal 13 changes 3 idle 15\n\
        1 10 31 15 46 31\n2 1 910 46 956 941\n3 9 44 956 1000 985\n";
    session.expect_plan(&list(0, 1000, &rows), 13, &[10, 1, 9], f);
    rows.reverse();
    session.expect_plan(&list(0, 2340, &rows), 23, &[8, 1, 1], e);
    session.expect_plan(&list(0, 1000, &rows), 13, &[10, 1, 9], f);
}

/// Ties, and batches that are set aside: one whose stretch lies after its due minute, one between two others.
fn plans(session: &mut Session) {
    let worthless = list(0, 10, &[(1, 0, 10, &[(5, 0), (0, 0)])]);
    let text = "week 0 10\ntotal 0 changes 1 idle 5\n1 1 5 5 10 5\n";
    session.expect_plan(&worthless, 0, &[1], text);
    let last_first: [Row; 2] = [(1, 0, 4, &[(3, 1), (1, 1)]), (2, 0, 10, &[(8, 1), (6, 1)])];
    let text = "week 0 10\ntotal 2 changes 2 idle 1\n1 2 1 1 2 1\n2 1 8 2 10 9\n";
    session.expect_plan(&list(0, 10, &last_first), 2, &[2, 1], text);
    let aside = list(0, 10, &[(1, 0, 5, &[(11, 1), (0, 0)])]);
    let text = "week 0 10\ntotal 0 changes 0 idle 10\n1 2 0 10 10 0\n";
    session.expect_plan(&aside, 0, &[2], text);
    let between: [Row; 3] = [
        (1, 0, 4, &[(2, 1)]),
        (2, 8, 9, &[(1, 5), (0, 0)]),
        (3, 0, 10, &[(9, 9), (6, 9)]),
    ];
    let text = "week 0 10\ntotal 10 changes 2 idle 2\n1 1 2 2 4 2\n2 2 0 4 4 0\n3 2 6 4 10 8\n";
    session.expect_plan(&list(0, 10, &between), 10, &[1, 2, 2], text);
    let ready: [Row; 2] = [(5, 10, 30, &[(1, 1)]), (6, 5, 30, &[(1, 1)])];
    let text = "week 20 40\ntotal 2 changes 2 idle 18\n5 1 1 28 29 21\n6 1 1 29 30 22\n";
    session.expect_plan(&list(20, 40, &ready), 2, &[1, 1], text);
    session.expect_plan(&list(20, 40, &[ready[1], ready[0]]), 2, &[1, 1], text);
}

/// A total and a sum of minutes that 16 bits could not hold, and the station idle between two batches.
fn great_numbers(session: &mut Session) {
    let wide: Row = (1, 65_000, 65_535, &[(65_535, 1)]);
    session.expect_refusal(&list(64_000, 65_535, &[wide]), [14, 0, 0]);
    let rows: [Row; 2] = [
        (65_534, 64_000, 65_535, &[(500, 65_535)]),
        (65_535, 65_000, 65_535, &[(500, 65_535)]),
    ];
    let text = "week 64000 65535\ntotal 131070 changes 2 idle 535\n\
        65534 1 500 64535 65035 64500\n65535 1 500 65035 65535 65500\n";
    session.expect_plan(&list(64_000, 65_535, &rows), 131_070, &[1, 1], text);
}

/// 2,400 minutes and 2,401; 16 batches and 17.
fn limits(session: &mut Session) {
    session.expect_refusal(&list(5, 5, &[]), [1, 0, 0]);
    session.expect_refusal(&list(6, 5, &[]), [1, 0, 0]);
    let text = "week 5 2405\ntotal 0 changes 0 idle 2400\n";
    session.expect_plan(&list(5, 2405, &[]), 0, &[], text);
    session.expect_refusal(&list(5, 2406, &[]), [2, 0, 0]);
    let mut rows = one_a_minute(17);
    let text = "week 0 17\ntotal 16 changes 16 idle 1\n\
        1 1 1 0 1 1\n2 1 1 1 2 2\n3 1 1 2 3 3\n4 1 1 3 4 4\n5 1 1 4 5 5\n6 1 1 5 6 6\n7 1 1 6 7 7\n8 1 1 7 8 8\n\
        9 1 1 8 9 9\n10 1 1 9 10 10\n11 1 1 10 11 11\n12 1 1 11 12 12\n13 1 1 12 13 13\n14 1 1 13 14 14\n\
        15 1 1 14 15 15\n16 1 1 15 16 16\n";
    session.expect_plan(&list(0, 17, &rows[..16]), 16, &[1; 16], text);
    session.expect_refusal(&list(0, 17, &rows), [3, 0, 0]);
    rows[..16].reverse();
    session.expect_plan(&list(0, 17, &rows[..16]), 16, &[1; 16], text);
    session.expect_refusal(&list(0, 17, &rows), [3, 0, 0]);
    rows[0].3 = &[];
    session.expect_refusal(&list(0, 17, &rows), [3, 0, 0]);
}

/// 10 recipes and 11, none, and as many as a byte can count; costs 30, 30.
fn recipe_counts(session: &mut Session) {
    let recipes = [(1, 1); 255];
    let text = "week 0 10\ntotal 1 changes 1 idle 9\n1 1 1 9 10 1\n";
    session.expect_plan(&list(0, 10, &[(1, 0, 10, &recipes[..10])]), 1, &[1], text);
    for count in [0, 11, 255] {
        session.expect_refusal(&list(0, 10, &[(1, 0, 10, &recipes[..count])]), [4, 1, 0]);
    }
    let even = list(0, 60, &[(1, 0, 60, &[(30, 1), (30, 1)])]);
    let text = "week 0 60\ntotal 1 changes 1 idle 30\n1 1 30 30 60 30\n";
    session.expect_plan(&even, 1, &[1], text);
}

/// The order of 4 to 9, each batch whole before the next.
fn batch_by_batch(session: &mut Session) {
    let one: &[(u16, u16)] = &[(1, 1)];
    let cases: [(&[Row], [i32; 3]); 12] = [
        (&[(0, 5, 5, &[])], [4, 1, 0]),
        (&[(0, 10, 10, one)], [5, 1, 0]),
        (&[(0, 10, 11, &[(0, 1), (0, 0)])], [6, 1, 0]),
        (&[(0, 0, 5, &[(0, 5), (0, 0)])], [7, 1, 2]),
        (&[(1, 0, 5, &[(0, 0), (5, 1)])], [7, 1, 2]),
        (&[(1, 0, 5, &[(3, 1), (4, 1), (5, 1)])], [7, 1, 2]),
        (&[(1, 0, 5, &[(3, 1), (0, 0), (0, 0)])], [7, 1, 3]),
        (&[(0, 0, 5, &[(0, 5)])], [8, 1, 1]),
        (&[(1, 0, 5, &[(3, 1), (0, 5)])], [8, 1, 2]),
        (&[(0, 0, 5, one), (1, 0, 6, &[(1, 1), (2, 1)])], [9, 1, 0]),
        (&[(2, 0, 5, one), (1, 0, 6, &[(1, 1), (2, 1)])], [7, 2, 2]),
        (&[(5, 0, 9, one), (5, 0, 8, one)], [9, 2, 0]),
    ];
    for (rows, refusal) in cases {
        session.expect_refusal(&list(0, 10, rows), refusal);
    }
}

/// Document 02, Two: "9 and all desk refusals .. name the place as handed in", and are asked in that order.
fn places(session: &mut Session) {
    let one: &[(u16, u16)] = &[(1, 1)];
    let cases: [(&[Row], [i32; 3]); 7] = [
        (
            &[(5, 0, 40, one), (7, 0, 10, one), (5, 0, 5, one)],
            [9, 3, 0],
        ),
        (&[(5, 0, 8, one), (6, 0, 7, one), (5, 0, 9, one)], [9, 3, 0]),
        (&[(5, 0, 9, one), (0, 0, 8, one)], [9, 2, 0]),
        (&[(5, 0, 9, one), (6, 0, 8, one), (7, 0, 7, &[])], [4, 3, 0]),
        (&[(5, 0, 9, one), (6, 0, 8, &[(1, 1), (2, 1)])], [7, 2, 2]),
        (&[(5, 0, 9, &[(3, 1), (0, 5)]), (6, 0, 8, &[])], [8, 1, 2]),
        (&[(5, 0, 9, one), (6, 8, 8, one), (5, 0, 7, one)], [5, 2, 0]),
    ];
    for (rows, refusal) in cases {
        session.expect_refusal(&list(0, 50, rows), refusal);
    }
}

/// Document 02, Two: "Sheets may come in any order as well." What is written follows due minute, then ready minute, then
/// number.
fn any_order(session: &mut Session) {
    let one: &[(u16, u16)] = &[(1, 1)];
    let by_number = list(0, 10, &[(6, 0, 8, one), (5, 0, 8, one)]);
    let text = "week 0 10\ntotal 2 changes 2 idle 8\n5 1 1 6 7 1\n6 1 1 7 8 2\n";
    session.expect_plan(&by_number, 2, &[1, 1], text);
    let by_ready_minute = list(0, 10, &[(6, 1, 8, one), (7, 0, 8, one)]);
    let text = "week 0 10\ntotal 2 changes 2 idle 8\n7 1 1 6 7 1\n6 1 1 7 8 2\n";
    session.expect_plan(&by_ready_minute, 2, &[1, 1], text);
    let rows: [Row; 2] = [(1, 4, 10, &[(3, 5)]), (2, 0, 10, &[(9, 9), (5, 2)])];
    let text = "week 0 10\ntotal 7 changes 2 idle 2\n2 2 5 2 7 5\n1 1 3 7 10 8\n";
    session.expect_plan(&list(0, 10, &rows), 7, &[2, 1], text);
    let below_the_opening: [Row; 2] = [
        (2, 5, 30, &[(4, 1), (3, 1), (0, 0)]),
        (1, 10, 30, &[(7, 1), (0, 0)]),
    ];
    let text = "week 20 30\ntotal 2 changes 2 idle 0\n1 1 7 20 27 27\n2 2 3 27 30 30\n";
    session.expect_plan(&list(20, 30, &below_the_opening), 2, &[1, 2], text);
    let j: [Row; 2] = [(2, 0, 10, &[(5, 1)]), (1, 5, 9, &[(4, 1)])];
    session.expect_refusal(&list(0, 10, &j), [14, 0, 0]);
}

/// A fault of the sixteenth batch, and of its tenth recipe.
fn last_batch(session: &mut Session) {
    let mut rising_cost = [(1, 1); 10];
    rising_cost[9] = (2, 1);
    let mut worth_aside = [(1, 1); 10];
    worth_aside[9] = (0, 5);
    let cases: [(Row, [i32; 3]); 6] = [
        ((16, 0, 16, &[]), [4, 16, 0]),
        ((16, 16, 16, &[(1, 1)]), [5, 16, 0]),
        ((16, 17, 18, &[(1, 1)]), [6, 16, 0]),
        ((16, 0, 16, &rising_cost), [7, 16, 10]),
        ((16, 0, 16, &worth_aside), [8, 16, 10]),
        ((1, 0, 16, &[(1, 1)]), [9, 16, 0]),
    ];
    for (row, refusal) in cases {
        let mut rows = one_a_minute(16);
        rows[15] = row;
        session.expect_refusal(&list(0, 17, &rows), refusal);
        rows[..15].reverse();
        session.expect_refusal(&list(0, 17, &rows), refusal);
    }
}

/// 16 and 17, line by line, before any fault of the list.
fn lines(session: &mut Session) {
    let cases: [(&[u8], [i32; 3]); 22] = [
        (b"", [17, 1, 0]),
        (b"\n", [16, 1, 0]),
        (b"0100000064", [16, 1, 0]),
        (b"0100000064\r\n", [16, 1, 0]),
        (b"010000000a\n", [16, 1, 0]),
        (b"01000000640\n", [16, 1, 0]),
        (b"010000006\n", [16, 1, 0]),
        (b"010000\x000064\n", [16, 1, 0]),
        (b"0100000064 \n", [16, 1, 0]),
        (b"0100000064\n\n", [16, 2, 0]),
        (b"0300000064\n", [16, 1, 0]),
        (b"010000006400\n", [16, 1, 0]),
        (b"0200010000002801001E0009\n", [17, 1, 0]),
        (b"0200010000002801001E0009", [16, 1, 0]),
        (b"0100000064\n0100000064\n", [17, 2, 0]),
        (b"0100000064\n0100000064", [16, 2, 0]),
        (b"0100000064\n0200010000002801001E0009", [16, 2, 0]),
        (b"0100000064\n0200010000002802001E0009\n", [16, 2, 0]),
        (b"0100000064\n0200010000002800001E0009\n", [16, 2, 0]),
        (b"0100000064\n02000100000028\n", [16, 2, 0]),
        (b"0100640000\n0200010000002800\n\n", [16, 3, 0]),
        (b"0100640000\n0200010000002800\n", [1, 0, 0]),
    ];
    for (sheet, refusal) in cases {
        session.expect_refusal(sheet, refusal);
    }
}

/// The same frames without a fault.
fn weeks_as_bytes(session: &mut Session) {
    let text = "week 0 10\ntotal 0 changes 0 idle 10\n";
    session.expect_plan(b"010000000A\n", 0, &[], text);
    let sheet = b"0100000064\n0200010000002801001E0009\n";
    let text = "week 0 100\ntotal 9 changes 1 idle 70\n1 1 30 10 40 30\n";
    session.expect_plan(sheet, 9, &[1], text);
}

/// 4,096 bytes of frames and one more; lines after the sixteenth batch are still read.
fn long_sheets(session: &mut Session) {
    let recipes = [(1, 1); 100];
    let rows: Vec<Row> = (1..=5)
        .map(|number| (number, 0, number, &recipes[..]))
        .collect();
    let mut sheet = list(0, 100, &rows);
    assert_eq!(sheet.len(), 4096);
    session.expect_refusal(&sheet, [4, 1, 0]);
    sheet.push(b'\n');
    session.expect_refusal(&sheet, [18, 0, 0]);
    let mut sheet = list(0, 17, &one_a_minute(17));
    sheet.extend_from_slice(b"0\n");
    session.expect_refusal(&sheet, [16, 19, 0]);
    let bare: Row = (1, 0, 1, &[]);
    let mut sheet = list(0, 100, &[bare; 240]);
    session.expect_refusal(&sheet, [3, 0, 0]);
    sheet.extend_from_slice(b"0\n");
    session.expect_refusal(&sheet, [16, 242, 0]);
}
