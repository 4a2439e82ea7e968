//! The counts of the call, and those of the program: by family and by answer, and the sheets that differ.

/// Which of the two is counted, and how much of it must have been met.
pub struct Side {
    pub name: &'static str,
    /// The refusal numbers that it can answer.
    pub refusals: &'static [usize],
    /// How many sheets must have been compared.
    pub least_sheets: u64,
    /// How many answers there must be of each kind.
    pub least_answers: u64,
}

#[derive(Default)]
struct Family {
    name: &'static str,
    sheets: u64,
    /// By refusal number, the plans at 0.
    answers: [u64; 20],
}

pub struct Tally {
    side: Side,
    families: Vec<Family>,
    differing: u64,
    /// The first difference, whole.
    first: Option<String>,
}

impl Tally {
    pub fn new(side: Side) -> Tally {
        Tally {
            side,
            families: Vec::new(),
            differing: 0,
            first: None,
        }
    }

    pub fn begin(&mut self, name: &'static str) {
        self.families.push(Family {
            name,
            ..Family::default()
        });
    }

    /// One sheet more, whatever the number of its answers.
    pub fn count_sheet(&mut self, differs: bool) {
        self.family().sheets += 1;
        self.differing += u64::from(differs);
    }

    /// One answer more, by the refusal number that is right, or 0 for a plan.
    pub fn count_answer(&mut self, refusal: usize) {
        self.family().answers[refusal] += 1;
    }

    pub fn note(&mut self, difference: impl FnOnce() -> String) {
        if self.first.is_none() {
            self.first = Some(difference());
        }
    }

    /// The sheets of the family that has begun last.
    pub fn sheets(&self) -> u64 {
        self.families.last().map_or(0, |family| family.sheets)
    }

    fn family(&mut self) -> &mut Family {
        self.families.last_mut().expect("a family has begun")
    }

    fn total(&self) -> Family {
        let mut total = Family {
            name: "all",
            ..Family::default()
        };
        for family in &self.families {
            total.sheets += family.sheets;
            let counts = total.answers.iter_mut().zip(family.answers);
            counts.for_each(|(count, answers)| *count += answers);
        }
        total
    }

    pub fn print(&self) {
        let total = self.total();
        print!("{:<22}{:>8}{:>8}", self.side.name, "sheets", "plans");
        let refusals = self.side.refusals.iter();
        refusals.for_each(|refusal| print!("{refusal:>7}"));
        println!();
        let families = self.families.iter().chain([&total]);
        families.for_each(|family| self.print_family(family));
        println!("{} of {} sheets differ", self.differing, total.sheets);
    }

    fn print_family(&self, family: &Family) {
        let plans = family.answers[0];
        print!("{:<22}{:>8}{plans:>8}", family.name, family.sheets);
        let refusals = self.side.refusals.iter();
        refusals.for_each(|&refusal| print!("{:>7}", family.answers[refusal]));
        println!();
    }

    /// What is wrong: the first difference, and what the run should have met and has not.
    pub fn wrong(&self) -> Vec<String> {
        let Side {
            name,
            refusals,
            least_sheets,
            least_answers,
        } = self.side;
        let total = self.total();
        let mut wrong = Vec::new();
        if let Some(first) = &self.first {
            wrong.push(format!("{name}, the first difference:\n{first}"));
        }
        if total.sheets < least_sheets {
            wrong.push(format!("{name}: fewer than {least_sheets} sheets"));
        }
        for &answer in refusals.iter().chain([&0]) {
            if total.answers[answer] < least_answers {
                wrong.push(format!(
                    "{name}: fewer than {least_answers} answers of {answer} (0: plans)"
                ));
            }
        }
        wrong
    }
}
