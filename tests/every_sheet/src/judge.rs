//! What the call's answers were held to.

#[derive(Clone, Copy)]
pub enum Judge {
    EveryChoice,
    Recursion,
    Refusals,
}

impl Judge {
    /// A refusal that is given before a plan is looked for needs no reference for the plan.
    pub fn of(answer: i32, every: bool) -> Judge {
        if answer < 0 && answer != -14 {
            Judge::Refusals
        } else if every {
            Judge::EveryChoice
        } else {
            Judge::Recursion
        }
    }
}

/// How many answers each judged.
#[derive(Default)]
pub struct Judged([u64; 3]);

impl Judged {
    pub fn count(&mut self, judge: Judge) {
        self.0[judge as usize] += 1;
    }

    pub fn print(&self) {
        let [every, recursion, refusals] = self.0;
        println!("{} calls", every + recursion + refusals);
        println!("{every} judged by every choice, the recursion and the same loops");
        println!("{recursion} judged by the recursion and the same loops");
        println!("{refusals} refused before a plan is looked for, judged by the reading of the sheet and the list");
    }

    /// What the run should have met and has not.
    pub fn missing(&self) -> Option<String> {
        let idle = self.0.contains(&0);
        idle.then(|| "missing: a reference that judged something".to_string())
    }
}
