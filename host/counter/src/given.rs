//! The list of what may differ: a text file, one path a line, or one field of the header.

use crate::failure::Outcome;
use crate::header::Field;
use crate::lines;
use crate::names;
use crate::units;
use std::collections::HashSet;
use std::path::{Path, PathBuf};

/// The paths that may differ.
#[derive(Default)]
pub struct Given {
    files: HashSet<Vec<u8>>,
    /// Folders, with `/` at the end; `/` alone is all.
    folders: HashSet<Vec<u8>>,
    /// Fields of the header, by their offsets.
    fields: HashSet<usize>,
    /// The lines, for what is said about them.
    pub lines: Vec<String>,
    pub listed: bool,
}

impl Given {
    pub fn read(lists: &[PathBuf]) -> Outcome<Given> {
        let mut given = Given { listed: !lists.is_empty(), ..Given::default() };
        for list in lists {
            given.add(list)?;
        }
        if given.covers_all() {
            eprintln!("counter: the list has the line /: it covers every file and folder");
        }
        Ok(given)
    }

    fn add(&mut self, list: &Path) -> Outcome<()> {
        for (number, line) in lines::read(list, "a folder, not a list")? {
            let taken = match of_header(&line) {
                Some(field) => self.field(field),
                None => names::read(&line).and_then(|path| self.line(&path)),
            };
            taken.map_err(|why| lines::wrong(list, number, &why))?;
        }
        Ok(())
    }

    fn line(&mut self, line: &[u8]) -> Result<(), String> {
        let text = names::text(line);
        if line == b"/" {
            self.folders.insert(line.to_vec());
        } else {
            let path = walked(line).map_err(|why| format!("\"{text}\" {why}"))?;
            match units::parts(line).last() {
                Some(&b"") => self.folders.insert([&path[..], b"/"].concat()),
                _ => self.files.insert(path),
            };
        }
        self.lines.push(text);
        Ok(())
    }

    fn field(&mut self, name: &str) -> Result<(), String> {
        let field = Field::named(name)?;
        self.fields.insert(field.at);
        self.lines.push(format!("header: {}", field.name));
        Ok(())
    }

    /// The list says that everything may differ.
    pub fn covers_all(&self) -> bool {
        self.folders.contains(&b"/"[..])
    }

    /// A file's path, or a folder's with `/` at its end; a `/` is in no pair.
    pub fn covers(&self, path: &[u8]) -> bool {
        let ends = (1..=path.len()).filter(|&end| path[end - 1] == b'/');
        self.files.contains(path) || ends.into_iter().any(|end| self.folders.contains(&path[..end]))
    }

    /// Whether a field of the header may differ.
    pub fn gives(&self, field: &Field) -> bool {
        self.fields.contains(&field.at)
    }

    /// What the list has and none of `paths` is.
    pub fn unknown<'a>(&self, paths: impl Iterator<Item = &'a [u8]>) -> Vec<Vec<u8>> {
        let known: HashSet<&[u8]> = paths.collect();
        let all = self.files.iter().chain(&self.folders);
        let mut unknown: Vec<Vec<u8>> =
            all.filter(|path| !known.contains(&path[..])).cloned().collect();
        unknown.sort();
        unknown.dedup();
        unknown
    }
}

/// What a line `header: NAME` names. No entry has a `:` in its name, so it is no path.
fn of_header(line: &[u8]) -> Option<&str> {
    let (word, name) = std::str::from_utf8(line).ok()?.split_once(':')?;
    word.trim().eq_ignore_ascii_case("header").then_some(name.trim())
}

/// A path as lookup walks it. One that ends at the root or goes above it means no file, and is more
/// likely a slip than leave for everything.
fn walked(line: &[u8]) -> Result<Vec<u8>, &'static str> {
    let mut parts: Vec<&[u8]> = Vec::new();
    for part in units::parts(line) {
        match part {
            b"" | b"." => {}
            b".." => {
                parts.pop().ok_or("leads above the root")?;
            }
            part => parts.push(part),
        }
    }
    match parts.is_empty() {
        true => Err("leads to the root; / alone stands for everything"),
        false => Ok([b"/", &parts.join(&b'/')[..]].concat()),
    }
}
