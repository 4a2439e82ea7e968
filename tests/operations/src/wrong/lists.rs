//! Lists judged wrongly, or not kept as they were written down.

use super::{list_asked, refused_at, wrong};
use crate::imitation::Imitation;
use crate::line::{Command, Line};
use reference::{Batch, Week};

pub const WRONG: [Imitation; 7] = [
    wrong("a count of batches cut to the limit", |desk, line| {
        let answer = desk.answer(line);
        desk.week.batches.truncate(Week::MAX_BATCHES);
        answer
    }),
    wrong("a count of recipes cut to the limit", |desk, line| {
        let answer = desk.answer(line);
        let batches = desk.week.batches.iter_mut();
        batches.for_each(|batch| batch.recipes.truncate(Batch::MAX_RECIPES));
        answer
    }),
    wrong("a count of batches in a byte", |desk, line| {
        let answer = desk.answer(line);
        if desk.week.batches.len() == 256 {
            desk.week.batches.clear();
        }
        answer
    }),
    wrong("the batches of the week before are kept", |desk, line| {
        let batches = desk.week.batches.clone();
        let answer = desk.answer(line);
        if matches!(Line::of(line), Line::Command(Command::Week { .. })) {
            desk.week.batches = batches;
        }
        answer
    }),
    wrong("7 without its recipe", |desk, line| {
        let answer = desk.answer(line);
        let numbers = answer.strip_prefix("refused 7 ");
        match numbers.and_then(|numbers| numbers.split_once(' ')) {
            Some((place, _)) => format!("refused 7 {place} 0\n"),
            None => answer,
        }
    }),
    wrong("8 asked before 7", |desk, line| {
        let answer = desk.answer(line);
        let Some(place) = refused_at(&answer, "refused 7 ") else {
            return answer;
        };
        let batch = match Line::of(line) {
            Line::Command(Command::Add(batch)) if place == 0 => batch,
            _ => list_asked(desk, line).batches[place - 1].clone(),
        };
        let mut recipes = batch.recipes.iter();
        match recipes.position(|recipe| recipe.cost == 0 && recipe.worth > 0) {
            Some(i) => format!("refused 8 {place} {}\n", i + 1),
            None => answer,
        }
    }),
    wrong("list prints more than 64 batches", |desk, line| {
        let mut answer = desk.answer(line);
        if answer.starts_with("week ") && list_asked(desk, line).batches.len() > 64 {
            answer += "batch 65 0 1 1 1\n";
        }
        answer
    }),
];
