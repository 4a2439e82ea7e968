//! The definitions in a file of antt: records, data types, and signatures with their equations.

use crate::file::{code, File, Kind};
use crate::words::{tokens, Words};

/// What may stand before a declaration.
const MARKS: [&str; 4] = ["pub ", "abbrev ", "unfoldable ", "axiom "];

pub fn read(path: &str, text: &str) -> Result<File, String> {
    let mut file = File::new(path);
    read_groups(&code(text, "--"), &Words::default(), &mut file)?;
    Ok(file)
}

/// A definition in a module has the words of the module's head as well.
fn read_groups(lines: &[&str], module: &Words, file: &mut File) -> Result<(), String> {
    for group in groups(lines) {
        let text = group.join(" ");
        let text = unmarked(&text);
        let (first, rest) = text.split_once(' ').unwrap_or((text, ""));
        match first {
            "use" => file.scope.bring(rest),
            "mod" | "infix" | "infixl" | "infixr" | "unfolding" => {}
            "module" => read_groups(&group[1..], &module.with(group[0]), file)?,
            "record" | "data" => {
                let name = first_word(rest);
                let mut words = module.with(group[0]);
                for field in groups(&group[1..]) {
                    let field = field.join(" ");
                    words.read(&field);
                    if first == "data" {
                        file.declare(first_word(unmarked(&field)), name);
                    }
                }
                file.add(Kind::Definition, name, group.len(), words);
            }
            name if first_sign(text) == ":" => {
                file.add(Kind::Definition, name, group.len(), module.with(text));
            }
            _ => match file.entries.last_mut() {
                Some(entry) if first_sign(text) == "=" => {
                    entry.lines += group.len();
                    entry.words.read_equation(text);
                }
                _ => return Err(format!("{}: what does this define? {text}", file.path)),
            },
        }
    }
    Ok(())
}

/// The lines in groups: each begins as deep as the first line does, and what stands deeper belongs to it.
fn groups<'a>(lines: &'a [&'a str]) -> impl Iterator<Item = &'a [&'a str]> {
    let depth = |line: &str| line.len() - line.trim_start().len();
    let first = lines.first().map_or(0, |line| depth(line));
    lines.chunk_by(move |_, next| depth(next) > first)
}

fn unmarked(text: &str) -> &str {
    let text = text.trim_start();
    match MARKS.iter().find_map(|mark| text.strip_prefix(mark)) {
        Some(rest) => unmarked(rest),
        None => text,
    }
}

fn first_word(text: &str) -> &str {
    text.split(' ').next().unwrap_or(text)
}

/// That of a signature, `:`, or that of an equation, `=`.
fn first_sign(text: &str) -> String {
    let signs = |token: &String| [":", "="].contains(&token.as_str());
    tokens(text).into_iter().find(signs).unwrap_or_default()
}
