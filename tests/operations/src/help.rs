//! The text of `help`: the program's own, of which it is asked only that each line begins with the word of a command, and
//! that there is a line for each.

use crate::program::{Heard, Start};
use crate::session::{Difference, How};

const WORDS: [&str; 18] = [
    "week", "batch", "table", "log", "choose", "records", "check", "run", "show", "list", "sheet",
    "open", "add", "withdraw", "plan", "book", "hold", "help",
];

/// The text that this program gives; in every conversation it must be the same.
pub fn learn(start: &Start) -> Result<String, Difference> {
    let mut program = start.program()?;
    program.say(b"help\n");
    program.say_no_more();
    let mut text = Vec::new();
    loop {
        match program.hear() {
            Heard::Bytes(bytes) => text.extend(bytes),
            Heard::End => break,
            Heard::Silence => {
                return Err(Difference {
                    how: How::Waited,
                    text: "help: it did not end".to_string(),
                })
            }
        }
    }
    let text = String::from_utf8_lossy(&text).into_owned();
    judge(&text).map_err(|text| Difference {
        how: How::Wrote,
        text,
    })?;
    Ok(text)
}

fn judge(text: &str) -> Result<(), String> {
    let first_words: Vec<&str> = text.lines().map(first_word).collect();
    let missing = WORDS.iter().find(|word| !first_words.contains(word));
    let unknown = first_words.iter().find(|word| !WORDS.contains(word));
    match (missing, unknown) {
        (Some(word), _) => Err(format!("help: no line for {word}")),
        (_, Some(word)) => Err(format!("help: a line begins with {word}")),
        _ if !text.ends_with('\n') => Err("help: no last line feed".to_string()),
        _ => Ok(()),
    }
}

/// The letters that a line begins with.
fn first_word(line: &str) -> &str {
    let letters = line.find(|character: char| !character.is_ascii_alphabetic());
    letters.map_or(line, |end| &line[..end])
}

#[cfg(test)]
mod tests {
    use super::*;

    #[test]
    fn a_line_for_each_command() {
        let text: String = WORDS.map(|word| format!("{word} and more\n")).concat();
        assert!(judge(&text).is_ok());
        assert!(judge(text.trim_end()).is_err());
        assert!(judge(&text.replace("sheet", "paper")).is_err());
        assert!(judge(&(text + "and more\n")).is_err());
    }
}
