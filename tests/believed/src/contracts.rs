//! The contracts of functions, the structs and the enums in a file of Rattle.

use crate::file::{code, File, Kind};
use crate::scope::is_type;
use crate::words::Words;

/// The types and the traits that come from no `use` line.
const PRELUDE: [&str; 8] = [
    "Result", "Option", "Self", "Copy", "Drop", "From", "Ok", "Some",
];

/// What may stand before an item.
const MARKS: [&str; 3] = ["pub(crate) ", "pub ", "extern \"C\" "];

pub fn read(path: &str, text: &str) -> File {
    let mut file = File::new(path);
    let own = path.split('/').nth(1).unwrap_or_default();
    let lines = code(text, "//");
    for (at, line) in lines.iter().enumerate() {
        let item = unmarked(line.trim_start());
        let (first, rest) = item.split_once(' ').unwrap_or((item, ""));
        let name = identifiers(rest).next().unwrap_or_default();
        match first {
            "use" => {
                let path = import(&lines[at..]).replace("crate", own);
                let again = line.starts_with("pub use ");
                let path = if again && !path.starts_with(own) {
                    format!("{own}::{path}")
                } else {
                    path
                };
                file.scope.bring_types(&path);
            }
            "ghost" => file.scope.bring(&import(&lines[at..])),
            "struct" | "enum" => {
                let last = if item.ends_with('{') { "}" } else { line };
                let body = upto(last, &lines[at..]);
                file.add(Kind::Type, name, body.len(), words_of_type(first, body));
            }
            "type" => file.add(Kind::Type, name, 1, words_of_type(first, &lines[at..=at])),
            "fn" if !item.ends_with('{') => {
                let head = upto("{", &lines[at..]);
                file.add(Kind::Contract, name, head.len(), words_of_contract(head));
            }
            _ => {}
        }
    }
    file
}

fn unmarked(line: &str) -> &str {
    match MARKS.iter().find_map(|mark| line.strip_prefix(mark)) {
        Some(rest) => unmarked(rest),
        None => line,
    }
}

/// What a `use` item brings in, which can take several lines.
fn import(lines: &[&str]) -> String {
    let text = lines.join(" ");
    let item = text.split(';').next().unwrap_or_default();
    let (_, path) = item.split_once("use ").unwrap_or_default();
    path.to_string()
}

/// The lines to the first that is `end`, which is among them; those of a method are indented.
fn upto<'a>(end: &str, lines: &'a [&'a str]) -> &'a [&'a str] {
    let last = lines
        .iter()
        .position(|line| line.trim_start() == end.trim_start());
    &lines[..=last.unwrap_or(lines.len() - 1)]
}

/// The types of its fields. An enum names its cases itself.
fn words_of_type(keyword: &str, lines: &[&str]) -> Words {
    let mut words = Words::default();
    for line in lines {
        words.used.extend(types(line));
        if keyword == "enum" {
            words.bound.extend(types(line).next());
        }
    }
    words
}

/// The types of its parameters and of its answer, and what its clauses say: `ensures LABEL { .. }`.
fn words_of_contract(lines: &[&str]) -> Words {
    let text = lines.join(" ").replace("requires ", "ensures ");
    let mut parts = text.split("ensures ");
    let signature = parts.next().unwrap_or_default();
    let mut words = Words::default();
    words.used.extend(types(signature));
    words.bound.extend(parameters(signature));
    words.bound.insert("result".to_string());
    for clause in parts {
        let term = clause.split_once('{').map_or(clause, |(_, term)| term);
        words.read(term);
    }
    words
}

/// Those of the language itself are left out.
fn types(text: &str) -> impl Iterator<Item = String> + '_ {
    identifiers(text)
        .filter(|word| is_type(word) && !PRELUDE.contains(word))
        .map(str::to_string)
}

fn parameters(signature: &str) -> impl Iterator<Item = String> + '_ {
    let name = |word: &'_ str| match word {
        "self" => Some(word.to_string()),
        _ => word.strip_suffix(':').map(str::to_string),
    };
    identifiers(signature).filter_map(name)
}

/// With their colons: `week:` is a parameter or a field, and `Week::MAX_BATCHES` is not the type `Week`.
fn identifiers(text: &str) -> impl Iterator<Item = &str> {
    let words = text.split(|letter: char| !letter.is_alphanumeric() && !"_:".contains(letter));
    words.filter(|word| !word.is_empty())
}
