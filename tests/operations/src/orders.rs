//! A list and the same batches in another order: "Two accepted lists that are rearrangements of each other get the same plan."

use crate::ask::{choose, CHOOSE, PLAN, RECORDS};
use crate::choices::choice;
use crate::handwriting;
use crate::lending;
use crate::script::Script;
use drawn::Chance;
use reference::{refusal_told, Week};

/// What is asked of both lists.
struct Questions {
    table: Vec<u8>,
    log: Vec<u8>,
    check: Vec<u8>,
    run: Vec<u8>,
}

/// The list written down, where it is accepted, and then in another order: everything is answered of it as before.
pub fn another(script: &mut Script, chance: &mut Chance) {
    let list = script.desk.week.clone();
    if reference::accept(&list).is_err() {
        return;
    }
    let questions = Questions::draw(chance, &list);
    let before = questions.ask(script);
    let mut other = list.clone();
    chance.shuffle(&mut other.batches);
    for line in handwriting::week(chance, &other) {
        script.say(line);
    }
    if numbers(&other) != numbers(&list) {
        script.shows("a list written down in another order");
    }
    let after = questions.ask(script);
    assert_eq!(before, after, "a list in another order is the same list");
}

fn numbers(list: &Week) -> Vec<u16> {
    list.batches.iter().map(|batch| batch.number).collect()
}

impl Questions {
    fn draw(chance: &mut Chance, list: &Week) -> Questions {
        let choice = choice(chance, list);
        Questions {
            table: lending::table(chance, list.entries()),
            log: lending::log(chance, list.closes() - 1),
            check: handwriting::line(chance, "check", &choice),
            run: handwriting::line(chance, "run", &choice),
        }
    }

    /// Choose, Check and Run, the book that holds the list, and at the end the records, of which an accepted call makes the
    /// same list.
    fn ask(&self, script: &mut Script) -> Vec<String> {
        let mut answers = Vec::new();
        script.say(self.table.clone());
        answers.extend(choose(script, &CHOOSE));
        answers.push(script.say(self.check.clone()));
        script.say(self.log.clone());
        answers.extend([script.say(self.run.clone()), script.say("show log")]);
        script.say("hold");
        for (choosing, print) in [(&PLAN, "book"), (&RECORDS, "list")] {
            script.say(self.table.clone());
            let [answer, table] = choose(script, choosing);
            let left = script.say(print);
            let accepted = refusal_told(&answer) == 0;
            answers.extend([answer, table]);
            answers.extend(accepted.then_some(left));
        }
        answers
    }
}
