//! Document 01, "The sheet": refusals 18, 16 and 17, and the list that a sheet holds.

use crate::frame::Frame;
use crate::refusal::{Refusal, Refused};
use crate::week::{Batch, Week};

/// "18: above 4,096 bytes."
const MAX_BYTES: usize = 4096;

/// The list on a sheet, as it stands there: "18; then line by line 16, 17".
pub fn read(sheet: &[u8]) -> Result<Week, Refused> {
    Refusal::SheetTooLong.when(sheet.len() > MAX_BYTES)?;
    let mut lines = sheet.split_inclusive(|&byte| byte == b'\n');
    let (opening, closing) = week(lines.next()).map_err(|refused| refused.at(1))?;
    let batches = lines
        .zip(2..)
        .map(|(line, place)| batch(line).map_err(|refused| refused.at(place)));
    Ok(Week {
        opening,
        closing,
        batches: batches.collect::<Result<_, _>>()?,
    })
}

/// "17: the first line is missing or is no week".
fn week(line: Option<&[u8]>) -> Result<(u16, u16), Refused> {
    match line.map(frame).transpose()? {
        Some(Frame::Week { opening, closing }) => Ok((opening, closing)),
        _ => Err(Refusal::WeekLine.into()),
    }
}

/// "17: .. or a later one is a week."
fn batch(line: &[u8]) -> Result<Batch, Refused> {
    match frame(line)? {
        Frame::Batch(batch) => Ok(batch),
        Frame::Week { .. } => Err(Refusal::WeekLine.into()),
    }
}

/// "16: a line that is no frame, or has no line feed."
fn frame(line: &[u8]) -> Result<Frame, Refusal> {
    line.strip_suffix(b"\n")
        .and_then(Frame::of)
        .ok_or(Refusal::NoFrame)
}

/// The sheet that holds this list, of batches with at most 255 recipes.
pub fn write(week: &Week) -> Vec<u8> {
    let mut sheet = format!("01{:04X}{:04X}\n", week.opening, week.closing);
    for batch in &week.batches {
        let count = batch.recipes.len();
        sheet += &format!(
            "02{:04X}{:04X}{:04X}{count:02X}",
            batch.number, batch.arrival, batch.due
        );
        for recipe in &batch.recipes {
            sheet += &format!("{:04X}{:04X}", recipe.cost, recipe.worth);
        }
        sheet.push('\n');
    }
    sheet.into_bytes()
}
