//! A conversation with the desk: lines, each with the answer that is right.

use crate::collection::Collection;
use crate::desk::Desk;

pub struct Spoken {
    /// Without its line feed.
    pub line: Vec<u8>,
    pub answer: String,
    /// What this line is there to show.
    pub shows: Option<&'static str>,
}

pub struct Script {
    pub desk: Desk,
    pub collection: Collection,
    pub spoken: Vec<Spoken>,
}

impl Script {
    pub fn new(help: &str) -> Script {
        Script {
            desk: Desk::new(help),
            collection: Collection::default(),
            spoken: Vec::new(),
        }
    }

    /// One line more, and the answer to it.
    pub fn say(&mut self, line: impl Into<Vec<u8>>) -> String {
        let line = line.into();
        let answer = self.desk.answer(&line);
        self.collection.hear(&line, &answer);
        self.spoken.push(Spoken {
            line,
            answer: answer.clone(),
            shows: None,
        });
        answer
    }

    /// What the line said last is there to show.
    pub fn shows(&mut self, what: &'static str) {
        self.spoken.last_mut().expect("a line").shows = Some(what);
    }
}
