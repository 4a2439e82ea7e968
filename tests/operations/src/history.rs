//! The week book: calls from its opening on, the refused among them, and lists of every kind that it is made to hold.

use crate::aside::aside;
use crate::ask::{choose, operation, Choosing, CHOOSE, PLAN, RECORDS};
use crate::desk::KEPT_BATCHES;
use crate::handwriting;
use crate::lending;
use crate::script::Script;
use crate::weeks;
use drawn::weeks::{week, Shape, FULL};
use drawn::{faults, Chance};
use reference::{refusal_told, Batch, Book, Week};

/// Books whose every choice is tried.
const SMALL: Shape = Shape {
    batches: 1..=6,
    recipes: 1..=3,
    minutes: 1..=12,
};

/// More batches than a book can hold.
const MANY: Shape = Shape {
    batches: 17..=20,
    recipes: 1..=3,
    minutes: 1..=40,
};

const MANY_IN_A_FULL_WEEK: Shape = Shape {
    batches: 17..=18,
    ..FULL
};

/// What is added to a book, and how often of twenty calls.
struct Hand {
    /// A well-formed week, though it may have more batches than a list.
    week: Week,
    adds: usize,
    /// Whether all of it is added before anything else is asked.
    all_first: bool,
}

impl Hand {
    fn draw(chance: &mut Chance) -> Hand {
        let (shape, all_first) = match chance.below(32) {
            0..=15 => (SMALL, 4),
            16..=29 => (MANY, 2),
            _ => (MANY_IN_A_FULL_WEEK, 1),
        };
        Hand {
            week: week(chance, &shape),
            adds: chance.one_of(&[5, 8, 12]),
            all_first: chance.one_in(all_first),
        }
    }

    /// A batch that is new to a list, where there is one; one in three with a fault of 4 to 9, or two.
    fn batch(&self, chance: &mut Chance, list: &Week) -> Batch {
        let batches = self.week.batches.iter();
        let new: Vec<&Batch> = batches.filter(|batch| !list.holds(batch.number)).collect();
        let mut batch = if new.is_empty() {
            self.week.batches[chance.below(self.week.batches.len())].clone()
        } else {
            chance.one_of(&new).clone()
        };
        if chance.one_in(3) {
            let refusal = chance.between(4..=9);
            faults::put_in_new(chance, &mut batch, list, refusal);
            if chance.one_in(4) && !batch.recipes.is_empty() {
                let second = chance.between(4..=9);
                faults::put_in_new(chance, &mut batch, list, second);
            }
        }
        batch
    }
}

/// Calls on the book as it is at the start.
pub fn before_any_opening(script: &mut Script, chance: &mut Chance) {
    let hand = Hand::draw(chance);
    every_call(script, chance, &hand);
}

/// A book opened, or made to hold a list, or gone on with; calls on it; and at the end its batches as a list.
pub fn history(script: &mut Script, chance: &mut Chance) {
    let hand = Hand::draw(chance);
    match chance.below(8) {
        0..=2 => open(script, chance, &hand),
        3..=6 => hold(script, chance, &hand),
        _ => {}
    }
    if hand.all_first {
        add_all(script, chance, &hand);
    }
    let most = chance.one_of(&[3, 12, 48]);
    for _ in 0..chance.between(0..=most) {
        aside(script, chance);
        if script.desk.book.is_refused() && chance.one_in(4) {
            open(script, chance, &hand);
        } else {
            call(script, chance, &hand);
        }
    }
    plan_as_a_list(script, chance);
}

/// Calls of each kind on what the book holds.
fn every_call(script: &mut Script, chance: &mut Chance, hand: &Hand) {
    for _ in 0..chance.between(2..=8) {
        match chance.below(8) {
            0 | 1 => add(script, chance, hand),
            2 | 3 => withdraw(script, chance),
            4..=6 => plan(script, chance, hand),
            _ => print(script),
        }
    }
}

/// Now and then it is no call on the book, but one of the operations over the list, which is another.
fn call(script: &mut Script, chance: &mut Chance, hand: &Hand) {
    match chance.below(20) {
        way if way < hand.adds => add(script, chance, hand),
        ..=14 => withdraw(script, chance),
        15 | 16 => plan(script, chance, hand),
        17 => print(script),
        18 => operation(script, chance),
        _ if chance.one_in(4) => open(script, chance, hand),
        _ if chance.one_in(4) => hold(script, chance, hand),
        _ => print(script),
    }
}

/// One in four is refused.
fn open(script: &mut Script, chance: &mut Chance, hand: &Hand) {
    let (mut opening, mut closing) = (hand.week.opening, hand.week.closing);
    match chance.below(12) {
        0 => std::mem::swap(&mut opening, &mut closing),
        1 => closing = opening,
        2 => {
            opening = opening.min(u16::MAX - Week::MAX_MINUTES - 1);
            closing = opening + Week::MAX_MINUTES + 1;
        }
        _ => {}
    }
    let line = handwriting::line(chance, "open", &[opening, closing]);
    script.say(line);
}

/// A list of some of the batches in hand, in order or not, well formed or not, and calls on it.
fn hold(script: &mut Script, chance: &mut Chance, hand: &Hand) {
    let mut list = hand.week.clone();
    let most = list.batches.len().min(Week::MAX_BATCHES);
    let count = chance.between(1..=most).max(chance.between(1..=most));
    while list.batches.len() > count {
        list.batches.remove(chance.below(list.batches.len()));
    }
    match chance.below(9) {
        0..=4 => weeks::fault(chance, &mut list),
        5 => weeks::great_count(chance, &mut list),
        _ => {}
    }
    for line in handwriting::week(chance, &list) {
        script.say(line);
    }
    script.say("hold");
    print(script);
    every_call(script, chance, hand);
}

fn add(script: &mut Script, chance: &mut Chance, hand: &Hand) {
    let batch = hand.batch(chance, &script.desk.book.list);
    add_batch(script, chance, batch);
}

/// All that is in hand, in any order: a full book, where it is more than one can hold. Then its plan.
fn add_all(script: &mut Script, chance: &mut Chance, hand: &Hand) {
    let mut batches = hand.week.batches.clone();
    while !batches.is_empty() {
        let batch = batches.swap_remove(chance.below(batches.len()));
        add_batch(script, chance, batch);
    }
    plan(script, chance, hand);
}

fn add_batch(script: &mut Script, chance: &mut Chance, batch: Batch) {
    let list = script.desk.book.list.clone();
    let line = handwriting::batch(chance, "add", &batch);
    let answer = script.say(line.clone());
    if let Some(what) = shown_by_adding(&list.in_order(), batch, &answer) {
        script.shows(what);
    }
    let put_in_order = "a book put in order by what is added";
    print_if_out_of_order(script, chance, &list, &answer, put_in_order);
    if answer.starts_with("refused 20 ") && chance.one_in(2) {
        let number = list.batches[chance.below(list.batches.len())].number;
        script.say(handwriting::line(chance, "withdraw", &[number]));
        if script.say(line) == "ok\n" {
            script.shows("a withdrawn place used again");
        }
    }
}

/// What a call leaves of a book whose batches it found out of order, and what it shows where it is accepted; of other refusals
/// than 14 now and then.
fn print_if_out_of_order(
    script: &mut Script,
    chance: &mut Chance,
    found: &Week,
    answer: &str,
    put_in_order: &'static str,
) {
    let what = match refusal_told(answer) {
        _ if found.is_in_order() => return,
        0 => put_in_order,
        14 => "a book left out of order on 14",
        _ if chance.one_in(6) => "a book left out of order by another refusal",
        _ => return,
    };
    script.say("book");
    script.shows(what);
}

/// What the answer shows of a batch and the list, in order, to which it was to be added.
fn shown_by_adding(list: &Week, batch: Batch, answer: &str) -> Option<&'static str> {
    let batches = &list.batches;
    let place = list.before(&batch);
    let same_number = batches
        .iter()
        .position(|other| other.number == batch.number);
    let mut empty = Book::empty(list.opening, list.closing);
    let shown = match (answer, same_number) {
        ("ok\n", _) if place == batches.len() => "a batch added at the end",
        ("ok\n", _) if place == 0 => "a batch added in front",
        ("ok\n", _) => "a batch added between two",
        ("refused 9 0 0\n", None) => "number 0 added",
        ("refused 9 0 0\n", Some(at)) if at < place => "a number held before the new batch",
        ("refused 9 0 0\n", Some(_)) => "a number held after the new batch",
        ("refused 20 0 0\n", Some(_)) => "a full book, and a number that it holds",
        ("refused 20 0 0\n", None) if empty.add(batch).is_err() => {
            "a full book, and a faulty batch"
        }
        _ => return None,
    };
    Some(shown)
}

/// A number that is held, most often; else 0, a place, or any other.
fn withdraw(script: &mut Script, chance: &mut Chance) {
    let list = script.desk.book.list.clone();
    let batches = list.in_order().batches;
    let at = chance.below(batches.len().max(1));
    let number = match (batches.get(at), chance.below(16)) {
        (_, 0) => 0,
        (_, 1) => at as u16 + 1,
        (Some(batch), 2..=14) => batch.number,
        _ => chance.value(1..=u16::MAX),
    };
    let last = batches.len().saturating_sub(1);
    let at = batches.iter().position(|batch| batch.number == number);
    let answer = script.say(handwriting::line(chance, "withdraw", &[number]));
    if answer == "ok\n" {
        script.shows(match at {
            Some(0) if last > 0 => "the first of several withdrawn",
            Some(at) if at < last => "one between two withdrawn",
            _ => "the last withdrawn",
        });
    }
    let put_in_order = "a book put in order by a withdrawal";
    print_if_out_of_order(script, chance, &list, &answer, put_in_order);
}

fn plan(script: &mut Script, chance: &mut Chance, hand: &Hand) {
    if chance.below(3) > 0 {
        let book = &script.desk.book;
        let list = if book.is_refused() {
            &hand.week
        } else {
            &book.list
        };
        script.say(lending::table(chance, list.entries()));
    }
    let list = script.desk.book.list.clone();
    let [answer, _] = choose(script, &PLAN);
    let put_in_order = "a book put in order by its plan";
    print_if_out_of_order(script, chance, &list, &answer, put_in_order);
}

fn print(script: &mut Script) {
    script.say("book");
    let batches = &script.desk.book.list.batches;
    let above = |batch: &Batch| batch.recipes.len() > Batch::MAX_RECIPES;
    if batches.len() > KEPT_BATCHES {
        script.shows("a book of more than 64 batches");
    } else if batches.len() > Week::MAX_BATCHES {
        script.shows("a book of more than 16 batches");
    } else if batches.iter().any(above) {
        script.shows("a book with more than 10 recipes");
    }
}

/// After calls from an opening on, "planning a book answers, and fills the table lent, as Choose does on a freshly written
/// list of the batches added and not withdrawn since".
fn plan_as_a_list(script: &mut Script, chance: &mut Chance) {
    let Some(list) = script.collection.freshly_written() else {
        return;
    };
    let table = lending::table(chance, list.entries());
    let ask = |script: &mut Script, choosing: &Choosing| {
        script.say(table.clone());
        choose(script, choosing)
    };
    let of_the_book = ask(script, &PLAN);
    let book = script.say("book");
    for line in handwriting::week(chance, &list) {
        script.say(line);
    }
    script.shows(match list.batches.len() {
        0 => "an empty book planned as a list",
        Week::MAX_BATCHES => "a full book planned as a list",
        _ => "a book planned as a list",
    });
    let of_the_list = ask(script, &CHOOSE);
    let of_the_records = ask(script, &RECORDS);
    assert_eq!(of_the_book, of_the_list, "a book is planned as a list");
    assert_eq!(of_the_book, of_the_records, "a book is planned as records");
    if refusal_told(&of_the_records[0]) == 0 {
        assert_eq!(book, script.say("list"), "a book is in order");
    }
}
