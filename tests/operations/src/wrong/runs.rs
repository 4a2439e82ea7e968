//! Wrong answers of Run, and wrong bytes in the log.

use super::wrong;
use crate::imitation::Imitation;

pub const WRONG: [Imitation; 6] = [
    wrong("the log cleared after the week", |desk, line| {
        let answer = desk.answer(line);
        if answer.starts_with("ran ") {
            let minutes = desk.week.closes() - 1;
            desk.log[minutes..].fill(0);
        }
        answer
    }),
    wrong("the log written on 12", |desk, line| {
        let answer = desk.answer(line);
        if answer.starts_with("refused 12 ") {
            desk.log.fill(0);
        }
        answer
    }),
    wrong("the idle minutes at the end of the log", |desk, line| {
        let answer = desk.answer(line);
        if answer.starts_with("ran ") {
            let minutes = desk.week.closes() - 1;
            desk.log[..minutes].sort_by_key(|&entry| entry == 0);
        }
        answer
    }),
    wrong("one change too many", |desk, line| {
        one_more(desk.answer(line), "ran changes ")
    }),
    wrong("one idle minute too many", |desk, line| {
        one_more(desk.answer(line), " idle ")
    }),
    wrong("an unfinished batch is finished", |desk, line| {
        desk.answer(line).replace("unfinished", "finished")
    }),
];

/// The number that follows these words, one more.
fn one_more(answer: String, words: &str) -> String {
    let Some((before, after)) = answer.split_once(words) else {
        return answer;
    };
    let digits = after.find(|character: char| !character.is_ascii_digit());
    let (number, after) = after.split_at(digits.expect("a line feed at least"));
    let number: usize = number.parse().expect("a number");
    format!("{before}{words}{}{after}", number + 1)
}
