//! A program to put in the desk's place: it answers from the reference, rightly or with a fault that is planted in it.

use crate::desk::Desk;
use crate::session::How;
use std::io::{stdin, stdout, Read, Result, Write};

#[derive(Clone, Copy)]
pub struct Imitation {
    pub name: &'static str,
    /// The answer to the next line.
    pub answer: fn(&mut Desk, &[u8]) -> String,
    pub manner: Manner,
}

/// How it reads and writes.
#[derive(Clone, Copy, PartialEq)]
pub enum Manner {
    Right,
    /// All answers are written when the input has ended.
    AnswersAtTheEnd,
    /// What is read at once is taken for whole lines.
    PiecesAreLines,
    /// What stands after the last line feed is left.
    LeavesTheLastLine,
}

pub const RIGHT: Imitation = Imitation {
    name: "right",
    answer: Desk::answer,
    manner: Manner::Right,
};

const HELP: &str =
    "week T C\nbatch NUMBER R D COST WORTH ..\ntable SIZE V\nlog SIZE V\nchoose\n\
    records: as choose, by lent records; the list is then as the records are left\ncheck K ..\nrun K ..\n\
    show table\nshow log\nlist\nsheet\nopen T C\nadd NUMBER R D COST WORTH ..\nwithdraw NUMBER\nplan\nbook\nhold\nhelp\n";

impl Imitation {
    /// Whether this is how a wrong one can be found out, and not how one that falls over is. A line taken for another shows
    /// by an answer, or by one that is due and does not come.
    pub fn can_be_found_out(self, how: How) -> bool {
        match self.manner {
            Manner::Right | Manner::PiecesAreLines => how != How::Ended,
            Manner::AnswersAtTheEnd => how == How::Waited,
            Manner::LeavesTheLastLine => how == How::Ended,
        }
    }

    /// Answers standard input on standard output, to its end.
    pub fn answer_all(self) -> Result<()> {
        let mut desk = Desk::new(HELP);
        let mut line = Vec::new();
        let mut answers = String::new();
        let mut buffer = vec![0; 1 << 16];
        loop {
            let length = stdin().read(&mut buffer)?;
            if length == 0 {
                break;
            }
            line.extend_from_slice(&buffer[..length]);
            if self.manner == Manner::PiecesAreLines && !line.ends_with(b"\n") {
                line.push(b'\n');
            }
            answers += &self.answer_lines(&mut desk, &mut line);
            if self.manner != Manner::AnswersAtTheEnd {
                write(&std::mem::take(&mut answers))?;
            }
        }
        if !line.is_empty() && self.manner != Manner::LeavesTheLastLine {
            answers += &(self.answer)(&mut desk, &line);
        }
        write(&answers)
    }

    /// The answers to the lines that are whole; what has begun after them is left.
    fn answer_lines(self, desk: &mut Desk, lines: &mut Vec<u8>) -> String {
        let end = lines.iter().rposition(|&byte| byte == b'\n');
        let whole: Vec<u8> = lines.drain(..end.map_or(0, |end| end + 1)).collect();
        whole
            .split_inclusive(|&byte| byte == b'\n')
            .map(|line| (self.answer)(desk, &line[..line.len() - 1]))
            .collect()
    }
}

fn write(answers: &str) -> Result<()> {
    stdout().write_all(answers.as_bytes())?;
    stdout().flush()
}
