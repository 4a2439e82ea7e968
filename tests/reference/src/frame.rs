//! Document 01, "The sheet": "Each line is one frame in upper-case hexadecimal, two digits a byte, ended by a line feed."

use crate::week::{Batch, Recipe};

pub enum Frame {
    Week { opening: u16, closing: u16 },
    Batch(Batch),
}

impl Frame {
    /// The frame that these digits are, the line feed not among them; none if they are no frame.
    pub fn of(digits: &[u8]) -> Option<Frame> {
        let mut bytes = Bytes(digits);
        let frame = match bytes.byte()? {
            1 => bytes.week()?,
            2 => Frame::Batch(bytes.batch()?),
            _ => return None,
        };
        // "The length must agree with the count."
        bytes.0.is_empty().then_some(frame)
    }
}

/// The digits of a line that are not read yet.
struct Bytes<'a>(&'a [u8]);

impl Bytes<'_> {
    fn byte(&mut self) -> Option<u8> {
        let (&[high, low], rest) = self.0.split_first_chunk()?;
        self.0 = rest;
        Some((digit(high)? << 4) | digit(low)?)
    }

    /// "Values of two bytes stand high byte first."
    fn value(&mut self) -> Option<u16> {
        Some(u16::from_be_bytes([self.byte()?, self.byte()?]))
    }

    /// "Week: 01, t, c."
    fn week(&mut self) -> Option<Frame> {
        Some(Frame::Week {
            opening: self.value()?,
            closing: self.value()?,
        })
    }

    /// "Batch: 02, number, r, d, one byte with the count of recipes, then cost and worth for each."
    fn batch(&mut self) -> Option<Batch> {
        let mut batch = Batch {
            number: self.value()?,
            arrival: self.value()?,
            due: self.value()?,
            recipes: Vec::new(),
        };
        let count = self.byte()?;
        batch.recipes.reserve_exact(count.into());
        for _ in 0..count {
            batch.recipes.push(Recipe {
                cost: self.value()?,
                worth: self.value()?,
            });
        }
        Some(batch)
    }
}

fn digit(character: u8) -> Option<u8> {
    match character {
        b'0'..=b'9' => Some(character - b'0'),
        b'A'..=b'F' => Some(character - b'A' + 10),
        _ => None,
    }
}
