//! Document 01, "Who can be refused, and why": the numbers, each with a place and a recipe.

use std::fmt;

#[derive(Clone, Copy, Debug)]
pub enum Refusal {
    /// "c is not after t."
    CloseNotAfterOpening = 1,
    /// "c − t is above 2,400."
    WeekTooLong = 2,
    /// "more than 16 batches."
    TooManyBatches = 3,
    /// "a batch has no recipe, or more than 10."
    RecipeCount = 4,
    /// "d is not after r."
    DueNotAfterArrival = 5,
    /// "r is not before c."
    ArrivalNotBeforeClose = 6,
    /// "a recipe from the second on costs more than the one before, or follows one of cost 0."
    CostOrder = 7,
    /// "a recipe of cost 0 has a worth above 0."
    WorthSetAside = 8,
    /// "number 0, or a number that stands earlier in the list."
    BatchNumber = 9,
    /// "picks table shorter than n × (c − t + 1), n being the batches."
    ShortPicks = 11,
    /// "log shorter than c − t."
    ShortLog = 12,
    /// "a choice whose length is not n (position 0), or that names a recipe its batch has not got".
    Choice = 13,
    /// "no choice meets the rule (Choose)."
    NoPlan = 14,
    /// "the choice breaks it (Check)".
    RuleBroken = 15,
    /// "a line that is no frame, or has no line feed."
    NoFrame = 16,
    /// "the first line is missing or is no week, or a later one is a week."
    WeekLine = 17,
    /// "above 4,096 bytes."
    SheetTooLong = 18,
    /// "recipe buffer shorter than n."
    ShortRecipes = 19,
    /// Document 02, One: "the book already holds 16".
    BookFull = 20,
    /// Document 02, One: "no such number".
    NotHeld = 21,
}

impl Refusal {
    /// This refusal, if its condition holds.
    pub fn when(self, condition: bool) -> Result<(), Refused> {
        if condition {
            Err(self.into())
        } else {
            Ok(())
        }
    }

    /// This refusal of the recipe with this number, if there is one: "The recipe is named by 7 and 8, else 0."
    pub fn of_recipe(self, number: Option<usize>) -> Result<(), Refused> {
        match number {
            Some(recipe) => Err(Refused {
                recipe,
                ..self.into()
            }),
            None => Ok(()),
        }
    }
}

/// "An answer of refusal is three numbers: its own, a place and a recipe."
#[derive(Clone, Copy, Debug)]
pub struct Refused {
    pub refusal: Refusal,
    pub place: usize,
    pub recipe: usize,
}

impl Refused {
    /// "The place is the batch's position for 4 to 10, 13, 15 .., the line from 1 for 16 and 17 .., else 0." Document 02, Two:
    /// "9 and all desk refusals .. name the place as handed in .., all else the ordered place."
    pub fn at(self, place: usize) -> Refused {
        Refused { place, ..self }
    }
}

impl From<Refusal> for Refused {
    fn from(refusal: Refusal) -> Refused {
        Refused {
            refusal,
            place: 0,
            recipe: 0,
        }
    }
}

/// The word and the three numbers, without a line feed: `refused 17 1 0`.
impl fmt::Display for Refused {
    fn fmt(&self, text: &mut fmt::Formatter) -> fmt::Result {
        let number = self.refusal as u8;
        write!(text, "refused {number} {} {}", self.place, self.recipe)
    }
}

/// The number of the refusal that a text tells in this form; 0 if it tells none.
pub fn refusal_told(text: &str) -> usize {
    let numbers = text.strip_prefix("refused ");
    let number = numbers.and_then(|numbers| numbers.split(' ').next());
    number.map_or(0, |number| number.parse().expect("a decimal number"))
}
