//! One conversation, held with a program: every answer must be right to the letter.

use crate::pieces::{cut, Piece};
use crate::program::{Heard, Program, Start};
use crate::script::{Script, Spoken};
use drawn::Chance;
use std::fmt;

/// How a program was found out.
#[derive(Clone, Copy, PartialEq)]
pub enum How {
    /// By what it wrote.
    Wrote,
    /// It gave no answer in time, to a line that had come whole, or did not end.
    Waited,
    /// It ended without an answer, or not well.
    Ended,
}

impl fmt::Display for How {
    fn fmt(&self, text: &mut fmt::Formatter) -> fmt::Result {
        text.write_str(match self {
            How::Wrote => "by what it wrote",
            How::Waited => "by its silence",
            How::Ended => "by its end",
        })
    }
}

pub struct Difference {
    pub how: How,
    pub text: String,
}

/// A program that cannot be started has ended before it began.
impl From<std::io::Error> for Difference {
    fn from(error: std::io::Error) -> Difference {
        Difference {
            how: How::Ended,
            text: format!("the program cannot be started: {error}"),
        }
    }
}

/// A script as the program gets it, and as it must answer it.
struct Session<'a> {
    spoken: &'a [Spoken],
    input: Vec<u8>,
    /// Where each line ends in the input, after its line feed; the last one's may be missing, since what stands after the
    /// last line feed is a line too.
    line_ends: Vec<usize>,
    answers: Vec<u8>,
    /// Where the answer to each line ends in the answers.
    answer_ends: Vec<usize>,
    heard: usize,
}

/// What a conversation met besides its lines.
#[derive(Default)]
pub struct Manner {
    /// Lines that were written alone, the answer to which came before anything else was written.
    pub alone: u64,
    /// How often the answers so far were waited for with a line begun.
    pub amid_a_line: u64,
    /// Whether the last line had no line feed.
    pub no_last_line_feed: bool,
}

pub fn hold(start: &Start, chance: &mut Chance, script: &Script) -> Result<Manner, Difference> {
    let mut program = start.program()?;
    let mut session = Session::new(&script.spoken);
    let no_last_line_feed = chance.one_in(3) && session.input.pop().is_some();
    let pieces = cut(chance, &session.line_ends, session.input.len());
    let manner = Manner {
        no_last_line_feed,
        ..session.manner(&pieces)
    };
    let mut at = 0;
    for Piece { end, rest } in pieces {
        program.say(&session.input[at..end]);
        at = end;
        if rest {
            session.hear(&mut program, at)?;
        }
    }
    program.say_no_more();
    session.hear_the_end(&mut program)?;
    Ok(manner)
}

impl Session<'_> {
    fn new(spoken: &[Spoken]) -> Session<'_> {
        let mut session = Session {
            spoken,
            input: Vec::new(),
            line_ends: Vec::new(),
            answers: Vec::new(),
            answer_ends: Vec::new(),
            heard: 0,
        };
        for Spoken { line, answer, .. } in spoken {
            session.input.extend_from_slice(line);
            session.input.push(b'\n');
            session.line_ends.push(session.input.len());
            session.answers.extend_from_slice(answer.as_bytes());
            session.answer_ends.push(session.answers.len());
        }
        session
    }

    fn manner(&self, pieces: &[Piece]) -> Manner {
        let mut manner = Manner::default();
        let mut rested_at = 0;
        for piece in pieces.iter().filter(|piece| piece.rest) {
            let (before, lines) = (self.whole_lines(rested_at), self.whole_lines(piece.end));
            let whole = self.line_ends.binary_search(&piece.end).is_ok();
            let answered = self.answered(before) < self.answered(lines);
            manner.alone += u64::from(whole && lines == before + 1 && answered);
            manner.amid_a_line += u64::from(!whole && answered);
            rested_at = piece.end;
        }
        manner
    }

    /// How many lines have come whole with so much of the input.
    fn whole_lines(&self, at: usize) -> usize {
        self.line_ends.partition_point(|&end| end <= at)
    }

    /// How much must have been answered to the first lines, so many.
    fn answered(&self, lines: usize) -> usize {
        lines
            .checked_sub(1)
            .map_or(0, |last| self.answer_ends[last])
    }

    /// All answers to the lines that have come whole with so much of the input, and nothing more.
    fn hear(&mut self, program: &mut Program, at: usize) -> Result<(), Difference> {
        let due = self.answered(self.whole_lines(at));
        while self.heard < due {
            match program.hear() {
                Heard::Bytes(bytes) => self.compare(&bytes, due)?,
                Heard::End => return Err(self.difference(How::Ended, "it ended")),
                Heard::Silence => return Err(self.difference(How::Waited, "no answer came")),
            }
        }
        Ok(())
    }

    /// The answers that are left, now that the input has ended, and then the end.
    fn hear_the_end(&mut self, program: &mut Program) -> Result<(), Difference> {
        let due = self.answers.len();
        loop {
            match program.hear() {
                Heard::Bytes(bytes) => self.compare(&bytes, due)?,
                Heard::End if self.heard == due && program.ends_well() => return Ok(()),
                Heard::End => return Err(self.difference(How::Ended, "it ended")),
                Heard::Silence => return Err(self.difference(How::Waited, "it did not end")),
            }
        }
    }

    /// What has come next must be what is right next, of the answers that are due.
    fn compare(&mut self, bytes: &[u8], due: usize) -> Result<(), Difference> {
        let right = &self.answers[self.heard..due];
        let same = right
            .iter()
            .zip(bytes)
            .take_while(|(right, found)| right == found);
        let same = same.count();
        self.heard += same;
        if same == bytes.len() {
            return Ok(());
        }
        let found = shortened(&bytes[same..].escape_ascii().to_string());
        let what = if self.heard == due {
            format!("before the next line had come whole it went on with {found}")
        } else {
            format!("it went on with {found}")
        };
        Err(self.difference(How::Wrote, &what))
    }

    /// The conversation from the last week and the last opening of the book on, and how it went wrong.
    fn difference(&self, how: How, what: &str) -> Difference {
        let at = self.answer_ends.partition_point(|&end| end <= self.heard);
        let said = &self.spoken[..self.spoken.len().min(at + 1)];
        let last = |word: &str| {
            said.iter()
                .rposition(|it| it.line.starts_with(word.as_bytes()))
        };
        let from = last("week").min(last("open")).unwrap_or(0);
        let mut text = String::new();
        for spoken in &said[from..] {
            let line = spoken.line.escape_ascii().to_string();
            text += &format!("    {}\n", shortened(&line));
        }
        let right = &self.answers[self.heard..self.answered(said.len()).max(self.heard)];
        let right = shortened(&right.escape_ascii().to_string());
        text += &format!("at line {} or before it: {what}\nright {right}", said.len());
        Difference { how, text }
    }
}

fn shortened(text: &str) -> String {
    match text.get(..300) {
        Some(start) => format!("{start} .."),
        None => text.to_string(),
    }
}
