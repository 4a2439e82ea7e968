//! What the names in a file mean: by its `use` lines, and by what it holds itself.

use std::collections::BTreeMap;
use std::path::Path;

/// A name of a file of the repository.
#[derive(Clone, PartialEq, Eq, PartialOrd, Ord)]
pub struct Place {
    pub file: String,
    pub name: String,
}

impl Place {
    pub fn new(file: &str, name: &str) -> Place {
        Place {
            file: file.to_string(),
            name: name.to_string(),
        }
    }
}

#[derive(Clone)]
pub enum Meaning {
    Ours(Place),
    /// Of the toolchain's libraries: the logic's own.
    Kit,
}

#[derive(Default)]
pub struct Scope {
    names: BTreeMap<String, Meaning>,
    /// The modules that are brought in under a name, each with its path.
    modules: BTreeMap<String, String>,
}

impl Scope {
    /// Of a name, as `plan`, whatever field is asked of it, `plan.total`; or of a name in a module, as `frame.Week`.
    pub fn meaning(&self, word: &str) -> Option<Meaning> {
        let (first, rest) = word.split_once('.').unwrap_or((word, ""));
        match self.modules.get(first) {
            Some(path) => Some(meaning(path, rest)),
            None => self.names.get(first).cloned(),
        }
    }

    /// An operator, as `◌≡◌`, is used by its parts as well.
    pub fn add(&mut self, name: &str, meaning: Meaning) {
        let parts = name.split('◌').filter(|part| !part.is_empty());
        for used in parts.chain([name]) {
            self.names.insert(used.to_string(), meaning.clone());
        }
    }

    /// What a `use` of antt brings in: `PATH.{a, b as c}`, or `PATH as module`.
    pub fn bring(&mut self, import: &str) {
        if let Some((path, names)) = import.split_once(".{") {
            for name in names.trim_end_matches('}').split(',') {
                let (name, here) = renamed(name.trim());
                self.add(here, meaning(path, name));
            }
        } else {
            let (path, here) = renamed(import);
            let module = here.rsplit('.').next().unwrap_or(here);
            self.modules.insert(module.to_string(), path.to_string());
        }
    }

    /// What a `use` of Rattle brings in, where it is a type: `CRATE::MODULE::Type`, or `CRATE::MODULE::{Type, Another}`.
    pub fn bring_types(&mut self, import: &str) {
        let (path, names) = import.rsplit_once("::").unwrap_or(("", import));
        let [library, modules @ ..] = &path.split("::").collect::<Vec<_>>()[..] else {
            return;
        };
        for name in names.trim_matches(['{', '}']).split(',') {
            let (name, here) = renamed(name.trim());
            if is_type(name) {
                self.add(here, ours(library, &source(modules), name));
            }
        }
    }
}

/// Whether a name of Rattle is that of a type: it begins with a capital, and not all are.
pub fn is_type(name: &str) -> bool {
    name.starts_with(char::is_uppercase)
        && name.contains(char::is_lowercase)
        && name.chars().all(char::is_alphanumeric)
}

fn renamed(name: &str) -> (&str, &str) {
    name.split_once(" as ").unwrap_or((name, name))
}

/// The definitions of a crate are `Rattle.CRATE.specs`, with its structs and enums among them as `declared`.
fn meaning(path: &str, name: &str) -> Meaning {
    let parts: Vec<&str> = path.split('.').collect();
    match &parts[..] {
        ["Rattle", library, "specs", "declared", modules @ .., name, "TheVariants"]
        | ["Rattle", library, "specs", "declared", modules @ .., name] => {
            ours(library, &source(modules), name)
        }
        ["Rattle", library, modules @ ..] => {
            ours(library, &format!("{}.antt", modules.join("/")), name)
        }
        _ => Meaning::Kit,
    }
}

/// A name in a file of a crate, which may be one of the kit's.
fn ours(name_of_crate: &str, file: &str, name: &str) -> Meaning {
    let folder = format!("crates/{name_of_crate}");
    if Path::new(&folder).is_dir() {
        Meaning::Ours(Place::new(&format!("{folder}/{file}"), name))
    } else {
        Meaning::Kit
    }
}

/// The file of a module of Rattle.
fn source(modules: &[&str]) -> String {
    match modules {
        [] => "src/lib.rt".to_string(),
        _ => format!("src/{}.rt", modules.join("/")),
    }
}
