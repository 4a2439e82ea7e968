//! The words of antt, the language of definitions and contracts: those that a text uses, and those that it binds.

use std::collections::BTreeSet;

/// Words that come from no `use` line: the language's own, its prelude's, and those of contracts.
const ALWAYS_THERE: &str =
    "pub abbrev unfoldable axiom record data module where let in elim [ | ↦ ] λ → × Type Unit ⊥ _";

const MARKS: [char; 7] = ['(', ')', '{', '}', ';', ',', '@'];

#[derive(Clone, Default)]
pub struct Words {
    pub used: BTreeSet<String>,
    pub bound: BTreeSet<String>,
}

impl Words {
    /// These, and those of a text more.
    pub fn with(&self, text: &str) -> Words {
        let mut words = self.clone();
        words.read(text);
        words
    }

    /// A term, a signature, the head of a record or one of its fields.
    pub fn read(&mut self, term: &str) {
        self.add(tokens(term));
    }

    /// An equation: what stands on its left is bound.
    pub fn read_equation(&mut self, equation: &str) {
        let mut tokens = tokens(equation).into_iter().peekable();
        while let Some(pattern) = tokens.next_if(|token| token != "=") {
            self.bound.insert(pattern);
        }
        self.add(tokens);
    }

    /// Of a word as `plan`, or `plan.total`.
    pub fn binds(&self, word: &str) -> bool {
        let name = word.split('.').next().unwrap_or(word);
        self.bound.contains(name)
    }

    /// Names are bound by what stands right after them: `(a b : A)`, `λ a b.`, `let a = ..`, and the label of a field, `{ a = .. }`; and
    /// those of a case after its constructor, `Some a ↦ ..`.
    fn add(&mut self, tokens: impl IntoIterator<Item = String>) {
        let mut names = Vec::new();
        let mut before = String::new();
        for token in tokens {
            if is_name(&token) {
                names.push(token);
                continue;
            }
            if token == "↦" {
                self.used.extend(names.drain(..names.len().min(1)));
            }
            let binds = match token.as_str() {
                ":" | "." | "↦" => true,
                "=" => names.len() == 1 && before != ":",
                _ => false,
            };
            match binds {
                true => self.bound.extend(names.drain(..)),
                false => self.used.extend(names.drain(..)),
            }
            before = token;
        }
        self.used.extend(names);
    }
}

fn is_name(token: &str) -> bool {
    let numeral_or_mark = |first: char| first.is_ascii_digit() || MARKS.contains(&first);
    !token.starts_with(numeral_or_mark)
        && ![".", ":", "="].contains(&token)
        && ALWAYS_THERE.split(' ').all(|word| word != token)
}

/// Names, numerals and marks. Quoted text is left out, and so is the field that a term asks for, as in `w .count`.
pub fn tokens(text: &str) -> Vec<String> {
    let unquoted: Vec<&str> = text.split('"').step_by(2).collect();
    let mut spaced = unquoted.join(" ").replace(['«', '»'], " ");
    for mark in MARKS {
        spaced = spaced.replace(mark, &format!(" {mark} "));
    }
    let mut tokens = Vec::new();
    for word in spaced.split_whitespace() {
        match word.strip_suffix('.') {
            Some("") => tokens.push(".".to_string()),
            Some(binder) => tokens.extend([binder.to_string(), ".".to_string()]),
            None if word.starts_with('.') => {}
            None => tokens.push(word.to_string()),
        }
    }
    tokens
}
