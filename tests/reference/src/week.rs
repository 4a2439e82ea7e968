//! Document 01, "What the planner holds".

/// "A recipe has a cost in minutes and a worth."
#[derive(Clone, Copy, Debug)]
pub struct Recipe {
    pub cost: u16,
    pub worth: u16,
}

impl Recipe {
    /// "Only the last recipe may cost 0. It means that the batch is set aside".
    pub fn sets_aside(self) -> bool {
        self.cost == 0
    }
}

/// "A batch has a number, an arrival r, a due minute d, and recipes numbered from 1."
#[derive(Clone, Debug)]
pub struct Batch {
    pub number: u16,
    pub arrival: u16,
    pub due: u16,
    pub recipes: Vec<Recipe>,
}

impl Batch {
    pub const MAX_RECIPES: usize = 10;

    pub fn has_recipe(&self, number: u8) -> bool {
        (1..=self.recipes.len()).contains(&usize::from(number))
    }

    /// The recipe with this number, from 1.
    pub fn recipe(&self, number: u8) -> Recipe {
        self.recipes[usize::from(number) - 1]
    }
}

/// "A week is an opening minute t and a closing minute c", with the list of its batches.
#[derive(Clone, Debug)]
pub struct Week {
    pub opening: u16,
    pub closing: u16,
    pub batches: Vec<Batch>,
}

impl Week {
    pub const MAX_BATCHES: usize = 16;
    pub const MAX_MINUTES: u16 = 2400;

    /// The list of no batches.
    pub fn empty(opening: u16, closing: u16) -> Week {
        Week {
            opening,
            closing,
            batches: Vec::new(),
        }
    }

    /// "A batch's ready minute s is the greater of t and r."
    pub fn ready(&self, batch: &Batch) -> u16 {
        self.opening.max(batch.arrival)
    }

    /// A batch's place: "in order of due minute, then ready minute, then number."
    pub fn order(&self, batch: &Batch) -> (u16, u16, u16) {
        (batch.due, self.ready(batch), batch.number)
    }

    /// The same batches in order, each with its recipes as they are.
    pub fn in_order(&self) -> Week {
        let mut week = self.clone();
        week.batches.sort_by_key(|batch| self.order(batch));
        week
    }

    pub fn put_in_order(&mut self) {
        *self = self.in_order();
    }

    pub fn is_in_order(&self) -> bool {
        self.batches.is_sorted_by_key(|batch| self.order(batch))
    }

    /// How many of its batches come before this one.
    pub fn before(&self, batch: &Batch) -> usize {
        let before = |other: &&Batch| self.order(other) < self.order(batch);
        self.batches.iter().filter(before).count()
    }

    /// Whether one of its batches has this number.
    pub fn holds(&self, number: u16) -> bool {
        self.batches.iter().any(|batch| batch.number == number)
    }

    /// The closes from t to c: c − t + 1, of a week that closes after it opens.
    pub fn closes(&self) -> usize {
        usize::from(self.closing - self.opening) + 1
    }

    /// The entries of the picks table: n × (c − t + 1).
    pub fn entries(&self) -> usize {
        self.batches.len() * self.closes()
    }
}
