//! The files of the repository, and the walk from contracts to all that they rest on.

use crate::file::{Entry, File};
use crate::scope::{Meaning, Place};
use crate::{contracts, definitions};
use std::collections::{BTreeMap, BTreeSet};
use std::fs;
use std::path::{Path, PathBuf};

#[derive(Default)]
pub struct Repository {
    files: BTreeMap<String, File>,
}

impl Repository {
    /// Every file of definitions and every file of code of the crates in a folder.
    pub fn read(folder: &str) -> Result<Repository, String> {
        let mut repository = Repository::default();
        for folder in inside(Path::new(folder))? {
            for part in ["specs", "src"].map(|part| folder.join(part)) {
                if part.is_dir() {
                    repository.read_below(&part)?;
                }
            }
        }
        Ok(repository)
    }

    fn read_below(&mut self, path: &Path) -> Result<(), String> {
        let name = path.to_string_lossy();
        if path.is_dir() {
            for path in inside(path)? {
                self.read_below(&path)?;
            }
        } else {
            let failed = |error| format!("{name}: {error}");
            let text = fs::read_to_string(path).map_err(failed)?;
            let file = match name.ends_with(".rt") {
                true => contracts::read(&name, &text),
                false => definitions::read(&name, &text)?,
            };
            self.files.insert(name.to_string(), file);
        }
        Ok(())
    }

    /// All that the files hold, by file, as it stands there.
    pub fn entries(&self) -> impl Iterator<Item = (&str, &Entry)> {
        let files = self.files.iter();
        files.flat_map(|(path, file)| file.entries.iter().map(move |entry| (path.as_str(), entry)))
    }

    /// Every definition and every type that a contract rests on.
    pub fn reached_from(&self, contract: Place) -> Result<BTreeSet<Place>, String> {
        let mut reached = BTreeSet::new();
        let mut ahead = vec![contract];
        while let Some(place) = ahead.pop() {
            for next in self.named_by(&place)? {
                if reached.insert(next.clone()) {
                    ahead.push(next);
                }
            }
        }
        Ok(reached)
    }

    /// What an entry names, but for what is the kit's and what it binds itself. A name that it binds and that has a meaning as well counts
    /// as named, so that nothing is left out.
    fn named_by(&self, place: &Place) -> Result<Vec<Place>, String> {
        let Place { file, name } = place;
        let entry = self.entry(place).ok_or(format!("{file} has no {name}"))?;
        let scope = &self.files[file].scope;
        let mut named = Vec::new();
        for word in &entry.words.used {
            let unknown = || format!("{file}: {name} speaks of {word}, which is defined nowhere");
            match scope.meaning(word) {
                Some(Meaning::Ours(there)) => named.push(self.defined(there).ok_or_else(unknown)?),
                Some(Meaning::Kit) => {}
                None if entry.words.binds(word) => {}
                None => return Err(unknown()),
            }
        }
        Ok(named)
    }

    fn entry(&self, place: &Place) -> Option<&Entry> {
        let mut entries = self.files.get(&place.file)?.entries.iter();
        entries.find(|entry| entry.name == place.name)
    }

    /// Where a name is defined that a file is said to have: it can mean something else there, as a constructor its type.
    fn defined(&self, place: Place) -> Option<Place> {
        match self.files.get(&place.file)?.scope.meaning(&place.name)? {
            Meaning::Ours(there) if there == place => Some(place),
            Meaning::Ours(elsewhere) => self.defined(elsewhere),
            Meaning::Kit => None,
        }
    }
}

fn inside(folder: &Path) -> Result<Vec<PathBuf>, String> {
    let failed = |error| format!("{}: {error}", folder.display());
    let entries = fs::read_dir(folder).map_err(failed)?;
    entries
        .map(|entry| entry.map(|entry| entry.path()).map_err(failed))
        .collect()
}
