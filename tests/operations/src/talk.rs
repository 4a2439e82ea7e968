//! What is said to the desk: weeks written down and operations over them, histories of the book, and lines of every other
//! kind in between.

use crate::aside::aside;
use crate::ask::operation;
use crate::handwriting;
use crate::history::{self, history};
use crate::lending;
use crate::orders;
use crate::script::Script;
use crate::weeks::{self, Subject};
use drawn::Chance;
use reference::Week;

/// One conversation. What it asks before it writes a week down, or opens the book, shows what holds at the start.
pub fn talk(chance: &mut Chance, help: &str) -> Script {
    let mut script = Script::new(help);
    for _ in 0..chance.below(3) {
        operation(&mut script, chance);
    }
    if chance.one_in(3) {
        history::before_any_opening(&mut script, chance);
    }
    for _ in 0..chance.between(0..=24) {
        if chance.one_in(3) {
            history(&mut script, chance);
        } else {
            let subject = weeks::draw(chance);
            write_down(&mut script, chance, &subject.week);
            about(&mut script, chance, &subject);
        }
    }
    script
}

fn about(script: &mut Script, chance: &mut Chance, subject: &Subject) {
    lend(script, chance, subject);
    for _ in 0..chance.between(3..=12) {
        aside(script, chance);
        operation(script, chance);
        if chance.one_in(6) {
            lend(script, chance, subject);
        }
    }
    if chance.one_in(3) {
        orders::another(script, chance);
    }
}

fn write_down(script: &mut Script, chance: &mut Chance, week: &Week) {
    for line in handwriting::week(chance, week) {
        script.say(line);
        if chance.one_in(20) {
            aside(script, chance);
        }
    }
}

/// A table, a log, or both.
fn lend(script: &mut Script, chance: &mut Chance, subject: &Subject) {
    let lent = chance.between(1..=3);
    if lent != 1 {
        script.say(lending::table(chance, subject.entries));
    }
    if lent != 2 {
        script.say(lending::log(chance, subject.minutes));
    }
}
