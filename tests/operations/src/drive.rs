//! Conversations with a program, until it has answered so many commands; the first difference ends them.

use crate::help;
use crate::program::Start;
use crate::session::{hold, Difference};
use crate::talk::talk;
use crate::tally::Tally;
use drawn::Chance;

pub fn drive(start: &Start, commands: u64, seed: u64) -> Result<Tally, Difference> {
    let help = help::learn(start)?;
    let mut tally = Tally::default();
    while tally.commands < commands {
        let mut chance = Chance::new(seed ^ (tally.conversations << 32));
        let script = talk(&mut chance, &help);
        let manner = hold(start, &mut chance, &script).map_err(|difference| {
            let number = tally.conversations + 1;
            let text = format!("conversation {number}\n{}", difference.text);
            Difference { text, ..difference }
        })?;
        tally.count(&script, &manner);
    }
    Ok(tally)
}

/// A program that must pass, after a run that must have met everything.
pub fn pass(start: &Start, commands: u64, seed: u64) -> Result<Tally, String> {
    println!("seed {seed}");
    let tally = drive(start, commands, seed).map_err(|difference| difference.text)?;
    match &tally.missing()[..] {
        [] => Ok(tally),
        missing => {
            tally.print();
            Err(missing.join("\n"))
        }
    }
}
