//! A file of the repository: what it holds, and what the names in it mean.

use crate::scope::{Meaning, Place, Scope};
use crate::words::Words;

#[derive(Clone, Copy, PartialEq, Eq)]
pub enum Kind {
    /// Of a function.
    Contract,
    Definition,
    /// A struct or an enum.
    Type,
}

pub struct Entry {
    pub kind: Kind,
    pub name: String,
    /// How many lines it has, blank ones and comments not counted.
    pub lines: usize,
    pub words: Words,
}

pub struct File {
    pub path: String,
    pub scope: Scope,
    pub entries: Vec<Entry>,
}

impl File {
    pub fn new(path: &str) -> File {
        File {
            path: path.to_string(),
            scope: Scope::default(),
            entries: Vec::new(),
        }
    }

    pub fn add(&mut self, kind: Kind, name: &str, lines: usize, words: Words) {
        if kind != Kind::Contract {
            self.declare(name, name);
        }
        self.entries.push(Entry {
            kind,
            name: name.to_string(),
            lines,
            words,
        });
    }

    /// A name that this file has, and its entry that the name stands for.
    pub fn declare(&mut self, name: &str, entry: &str) {
        let place = Place::new(&self.path, entry);
        self.scope.add(name, Meaning::Ours(place));
    }
}

/// The lines that are neither blank nor a comment.
pub fn code<'a>(text: &'a str, comment: &str) -> Vec<&'a str> {
    let is_code = |line: &str| !line.is_empty() && !line.starts_with(comment);
    text.lines().filter(|line| is_code(line.trim())).collect()
}
