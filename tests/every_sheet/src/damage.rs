//! Damage to the bytes of a sheet: document 01, "The sheet". Each kind takes any sheet, one that is damaged already too.

use drawn::Chance;

type Kind = fn(&mut Chance, &mut Vec<u8>);

/// After these every line is still a frame, most of the time.
const OF_FRAMES: [Kind; 5] = [
    |chance, sheet| change_digit(chance, sheet),
    |chance, sheet| change_value(chance, sheet),
    drop_line,
    double_line,
    swap_lines,
];

/// After these a line is no frame, most of the time.
const OF_BYTES: [Kind; 15] = [
    |chance, sheet| change_byte(chance, sheet),
    drop_byte,
    insert_byte,
    insert_digit,
    cut_short,
    no_last_line_feed,
    no_line_feed,
    |chance, sheet| lower_case(chance, sheet),
    carriage_return,
    empty_line,
    second_week,
    recipe_count,
    extra_recipe,
    lengthen,
    empty,
];

pub fn put_in(chance: &mut Chance, sheet: &mut Vec<u8>) {
    if chance.one_in(2) {
        chance.one_of(&OF_FRAMES)(chance, sheet);
    } else {
        chance.one_of(&OF_BYTES)(chance, sheet);
    }
}

/// A place of a byte in the sheet.
fn place(chance: &mut Chance, sheet: &[u8]) -> usize {
    chance.below(sheet.len().max(1))
}

/// The lines, each with the line feed that ends it.
fn lines(sheet: &[u8]) -> Vec<Vec<u8>> {
    let lines = sheet.split_inclusive(|&byte| byte == b'\n');
    lines.map(<[u8]>::to_vec).collect()
}

fn any_digit(chance: &mut Chance) -> u8 {
    chance.one_of(b"0123456789ABCDEF")
}

/// A byte that stands in no frame, or any byte.
fn any_byte(chance: &mut Chance) -> u8 {
    let any = chance.below(256) as u8;
    chance.one_of(&[
        0, b'\r', b' ', b'/', b':', b'@', b'G', b'`', b'a', b'f', b'x', any,
    ])
}

fn change_byte(chance: &mut Chance, sheet: &mut [u8]) {
    let at = place(chance, sheet);
    if let Some(byte) = sheet.get_mut(at) {
        *byte = any_byte(chance);
    }
}

fn change_digit(chance: &mut Chance, sheet: &mut [u8]) {
    let at = place(chance, sheet);
    match sheet.get_mut(at) {
        Some(byte) if *byte != b'\n' => *byte = any_digit(chance),
        _ => {}
    }
}

/// A value of two bytes, to an edge.
fn change_value(chance: &mut Chance, sheet: &mut [u8]) {
    let lines = sheet.split_inclusive_mut(|&byte| byte == b'\n');
    let mut values: Vec<&mut [u8]> = lines
        .flat_map(|line| line.get_mut(2..).unwrap_or_default().chunks_exact_mut(4))
        .collect();
    if !values.is_empty() {
        let at = chance.below(values.len());
        let edge = chance.one_of(&[b"0000", b"0001", b"FFFE", b"FFFF"]);
        values[at].copy_from_slice(edge);
    }
}

fn drop_byte(chance: &mut Chance, sheet: &mut Vec<u8>) {
    let at = place(chance, sheet);
    sheet.drain(at..sheet.len().min(at + 1));
}

fn insert_byte(chance: &mut Chance, sheet: &mut Vec<u8>) {
    let at = chance.between(0..=sheet.len());
    let byte = any_byte(chance);
    sheet.insert(at, byte);
}

fn insert_digit(chance: &mut Chance, sheet: &mut Vec<u8>) {
    let at = chance.between(0..=sheet.len());
    let digit = any_digit(chance);
    sheet.insert(at, digit);
}

fn cut_short(chance: &mut Chance, sheet: &mut Vec<u8>) {
    let at = place(chance, sheet);
    sheet.truncate(at);
}

fn no_last_line_feed(_: &mut Chance, sheet: &mut Vec<u8>) {
    sheet.pop();
}

fn no_line_feed(chance: &mut Chance, sheet: &mut Vec<u8>) {
    let mut lines = lines(sheet);
    if !lines.is_empty() {
        let at = chance.below(lines.len());
        lines[at].pop();
    }
    *sheet = lines.concat();
}

/// One letter, or all of them.
fn lower_case(chance: &mut Chance, sheet: &mut [u8]) {
    let letters: Vec<usize> = (0..sheet.len())
        .filter(|&at| sheet[at].is_ascii_uppercase())
        .collect();
    if chance.one_in(2) || letters.is_empty() {
        sheet.make_ascii_lowercase();
    } else {
        sheet[chance.one_of(&letters)].make_ascii_lowercase();
    }
}

/// Before one line feed, or before each.
fn carriage_return(chance: &mut Chance, sheet: &mut Vec<u8>) {
    let mut lines = lines(sheet);
    let every = chance.one_in(2);
    let one = chance.below(lines.len().max(1));
    for (at, line) in lines.iter_mut().enumerate() {
        if every || at == one {
            line.insert(line.len() - 1, b'\r');
        }
    }
    *sheet = lines.concat();
}

fn drop_line(chance: &mut Chance, sheet: &mut Vec<u8>) {
    let mut lines = lines(sheet);
    let at = chance.below(lines.len().max(1));
    lines.drain(at..lines.len().min(at + 1));
    *sheet = lines.concat();
}

fn double_line(chance: &mut Chance, sheet: &mut Vec<u8>) {
    let mut lines = lines(sheet);
    if !lines.is_empty() {
        let line = lines[chance.below(lines.len())].clone();
        lines.insert(chance.between(0..=lines.len()), line);
    }
    *sheet = lines.concat();
}

fn swap_lines(chance: &mut Chance, sheet: &mut Vec<u8>) {
    let mut lines = lines(sheet);
    if !lines.is_empty() {
        let (one, other) = (chance.below(lines.len()), chance.below(lines.len()));
        lines.swap(one, other);
    }
    *sheet = lines.concat();
}

fn empty_line(chance: &mut Chance, sheet: &mut Vec<u8>) {
    let mut lines = lines(sheet);
    lines.insert(chance.between(0..=lines.len()), b"\n".to_vec());
    *sheet = lines.concat();
}

fn second_week(chance: &mut Chance, sheet: &mut Vec<u8>) {
    let mut lines = lines(sheet);
    lines.insert(chance.between(0..=lines.len()), b"0100000064\n".to_vec());
    *sheet = lines.concat();
}

/// Another count on a batch's line, the recipes left as they are.
fn recipe_count(chance: &mut Chance, sheet: &mut Vec<u8>) {
    let mut lines = lines(sheet);
    let at = chance.below(lines.len().max(1));
    if let Some(count) = lines.get_mut(at).and_then(|line| line.get_mut(14..16)) {
        count[1] = any_digit(chance);
        count[0] = chance.one_of(b"00F");
    }
    *sheet = lines.concat();
}

/// A recipe more than the count says at the end of a line, whole or in part.
fn extra_recipe(chance: &mut Chance, sheet: &mut Vec<u8>) {
    let mut lines = lines(sheet);
    let at = chance.below(lines.len().max(1));
    let digits = chance.one_of(&[1, 2, 4, 8]);
    if let Some(line) = lines.get_mut(at) {
        let end = line.len() - 1;
        line.splice(end..end, std::iter::repeat_n(b'0', digits));
    }
    *sheet = lines.concat();
}

/// To 4,096 bytes and about it.
fn lengthen(chance: &mut Chance, sheet: &mut Vec<u8>) {
    let length = chance.one_of(&[4095, 4096, 4097, 4098, 5000]);
    let byte = chance.one_of(b"\n0");
    sheet.resize(length, byte);
}

fn empty(_: &mut Chance, sheet: &mut Vec<u8>) {
    sheet.clear();
}
