//! The files that a new master is to have: from a list, or from a folder; and what is wrong with them where the
//! library refuses them.

use crate::disc::CLUSTER;
use crate::failure::{DATA, Failure, NO_INPUT, Outcome};
use crate::image::cannot_open;
use crate::lines::{self, MOST_LINES};
use crate::names;
use crate::text::{grouped, number};
use crate::units;
use counter_sys::{self as counter, HEADER_SIZE, MOST_ENTRIES, MOST_LEVELS, MOST_PATH, MOST_TEXT};
use std::collections::HashMap;
use std::fs::{self, DirEntry};
use std::io;
use std::os::unix::ffi::OsStrExt;
use std::path::{Path, PathBuf};

/// Where a file comes from.
pub enum Source {
    Line(usize),
    File(PathBuf),
}

pub struct Wanted {
    /// The path as the image has it, without a `/` in front.
    pub path: Vec<u8>,
    pub size: u32,
    pub source: Source,
}

#[derive(Default)]
pub struct Files {
    /// In the order of their paths' bytes.
    pub files: Vec<Wanted>,
    /// Folders that hold no file: a new master does not have them.
    pub left_out: Vec<PathBuf>,
    /// The list, or the folder.
    from: PathBuf,
}

impl Files {
    /// Those of a list: a path and a size a line.
    pub fn listed(list: &Path) -> Outcome<Files> {
        let mut files = Files { from: list.to_path_buf(), ..Files::default() };
        for (at, text) in lines::read(list, "a folder; --from-dir takes one")? {
            let (path, size) = line(&text).map_err(|why| lines::wrong(list, at, &why))?;
            files.files.push(Wanted { path, size, source: Source::Line(at) });
        }
        files.sort();
        Ok(files)
    }

    /// Those of a folder of the system, and of the folders in it, which are not to have the new image, nor one
    /// that a cut left unfinished.
    pub fn found(folder: &Path, out: &Path) -> Outcome<Files> {
        let told = fs::metadata(folder).map_err(|e| cannot_open(folder, &e))?;
        if !told.is_dir() {
            let text = format!("{}: a folder is wanted", names::file(folder));
            return Err(Failure::error(NO_INPUT, text));
        }
        let place = fs::canonicalize(folder).map_err(|e| cannot_open(folder, &e))?;
        if out.starts_with(&place) {
            let (out, folder) = (names::file(out), names::file(folder));
            let text =
                format!("{out}: this is in {folder}, of which it is made; name a place elsewhere");
            return Err(Failure::error(DATA, text));
        }
        let mut files = Files { from: folder.to_path_buf(), ..Files::default() };
        files.walk(folder, b"")?;
        files.sort();
        Ok(files)
    }

    /// Whether the folder, which is called `inside` in the image, holds a file.
    fn walk(&mut self, folder: &Path, inside: &[u8]) -> Outcome<bool> {
        let failed = |e: io::Error| cannot_open(folder, &e);
        let entries = fs::read_dir(folder).and_then(Iterator::collect);
        let mut entries: Vec<DirEntry> = entries.map_err(failed)?;
        entries.sort_by_key(DirEntry::file_name);
        let (before, left_out) = (self.files.len(), self.left_out.len());
        for entry in entries {
            let path = entry.path();
            let wrong = |status, why: &str| {
                Failure::error(status, format!("{}: {why}", names::file(&path)))
            };
            let name =
                names::read(entry.file_name().as_bytes()).map_err(|why| wrong(DATA, &why))?;
            let told = fs::symlink_metadata(&path).map_err(|e| cannot_open(&path, &e))?;
            if is_unfinished(&name) {
                let why = "a name that a new image has until it is finished; take it away";
                return Err(wrong(DATA, why));
            }
            let inside = [inside, &name].concat();
            if told.is_dir() {
                self.walk(&path, &[&inside[..], b"/"].concat())?;
                continue;
            }
            if !told.is_file() {
                let kind = if told.is_symlink() { "a symbolic link" } else { "a special file" };
                let why = format!("{kind}; a new master is made of plain files and folders alone");
                return Err(wrong(NO_INPUT, &why));
            }
            // A list cannot have more either.
            if self.files.len() == MOST_LINES {
                return Err(wrong(DATA, "there are more than 100,000 files"));
            }
            let size = u32::try_from(told.len()).map_err(|_| {
                let (has, most) = (grouped(told.len()), grouped(u32::MAX.into()));
                wrong(DATA, &format!("it has {has} bytes, and a file of an image at most {most}"))
            })?;
            self.files.push(Wanted { path: inside, size, source: Source::File(path) });
        }
        let holds = self.files.len() > before;
        if !holds && !inside.is_empty() {
            self.left_out.truncate(left_out);
            self.left_out.push(folder.to_path_buf());
        }
        Ok(holds)
    }

    fn sort(&mut self) {
        self.files.sort_by(|a, b| a.path.cmp(&b.path));
    }

    /// What the library is given: the size of each, and the paths, each ended by a zero byte.
    pub fn sizes(&self) -> Vec<u32> {
        self.files.iter().map(|file| file.size).collect()
    }

    pub fn paths(&self) -> Vec<u8> {
        self.files.iter().flat_map(|file| [&file.path[..], b"\0"].concat()).collect()
    }
}

/// What `make` calls an image that is not finished.
pub const UNFINISHED: &str = "counter-new.";

fn is_unfinished(name: &[u8]) -> bool {
    let number = name.strip_prefix(UNFINISHED.as_bytes());
    number.is_some_and(|number| !number.is_empty() && number.iter().all(u8::is_ascii_digit))
}

/// A path, then a size: behind the first tab if there is one, else behind the last space.
fn line(line: &[u8]) -> Result<(Vec<u8>, u32), String> {
    let line = trimmed(line.trim_ascii_end());
    let (path, size) = match line.iter().position(|&b| b == b'\t') {
        Some(tab) => (&line[..tab], &line[tab..]),
        None => {
            let space = line.iter().rposition(|&b| b == b' ');
            let space =
                space.ok_or("a path is wanted, and behind it a space or a tab and a size")?;
            (&line[..space], &line[space..])
        }
    };
    let size = number(size.trim_ascii())?;
    let path = trimmed(path);
    if path.contains(&0) {
        return Err("a zero byte, which no path has".into());
    }
    let path = names::read(path)?;
    Ok((path.strip_prefix(b"/").unwrap_or(&path).to_vec(), size))
}

/// Without the spaces and tabs around it: neither is a pair's second byte.
fn trimmed(path: &[u8]) -> &[u8] {
    let is_ink = |byte: &u8| !b" \t".contains(byte);
    let start = path.iter().position(is_ink).unwrap_or(path.len());
    let end = path.iter().rposition(is_ink).map_or(start, |last| last + 1);
    &path[start..end]
}

// What is wrong ---------------------------------------------------------------------------

/// What a refusal is about.
pub struct Trouble {
    pub why: String,
    /// The least size that would do, if it is one that an image can have.
    pub least: Option<u64>,
}

impl Trouble {
    fn of(why: String) -> Trouble {
        Trouble { why, least: None }
    }
}

impl Files {
    /// What a refusal with the number is about: the first file that is refused for itself or for one before it,
    /// a limit of the whole tree, or the room that is wanted.
    pub fn trouble(&self, number: u32) -> Option<Trouble> {
        if number == 21 {
            return Some(self.too_large());
        }
        let why = match self.of_paths() {
            None if number == 9 => self.past_a_limit(),
            found => found.filter(|(refused, _)| *refused == number).map(|(_, why)| why),
        };
        why.map(Trouble::of)
    }

    /// The first file that the library refuses, and with which number.
    fn of_paths(&self) -> Option<(u32, String)> {
        let mut before: HashMap<&[u8], &Wanted> = HashMap::new();
        for file in &self.files {
            if let Some((number, why)) = by_itself(&file.path) {
                return Some((number, format!("{}: {why}", self.place(file))));
            }
            let path = &file.path[..];
            let folders = (0..path.len()).filter(|&at| path[at] == b'/').map(|at| &path[..at]);
            for around in folders.chain([path]) {
                if let Some(other) = before.get(around) {
                    return Some((19, self.conflict(other, file)));
                }
            }
            before.insert(path, file);
        }
        None
    }

    /// Where a file was named, and how.
    fn place(&self, file: &Wanted) -> String {
        let path = names::short(&[b"/", &file.path[..]].concat());
        match &file.source {
            Source::Line(at) => format!("{}, line {at}: {path}", names::file(&self.from)),
            Source::File(from) => format!("{}: {path}", names::file(from)),
        }
    }

    /// Two files of one path, or one that the other has for a folder.
    fn conflict(&self, first: &Wanted, second: &Wanted) -> String {
        let path = names::short(&[b"/", &first.path[..]].concat());
        let what = match first.path == second.path {
            true => format!("both are {path}"),
            false => format!("{path} is a file in one, and a folder in the other"),
        };
        match (&first.source, &second.source) {
            (Source::Line(a), Source::Line(b)) => {
                let (first, last) = (a.min(b), a.max(b));
                format!("{}, lines {first} and {last}: {what}", names::file(&self.from))
            }
            (Source::File(a), Source::File(b)) => {
                format!("{} and {}: {what}", names::file(a), names::file(b))
            }
            _ => what,
        }
    }

    /// How many entries the tree has, with the root, and how long its texts are.
    fn measures(&self) -> (usize, usize) {
        let (mut entries, mut texts) = (1, 0);
        let mut before: Vec<&[u8]> = Vec::new();
        for file in &self.files {
            let mut parts: Vec<&[u8]> = file.path.split(|&b| b == b'/').collect();
            let name = parts.pop().unwrap_or_default();
            let common = parts.iter().zip(&before).take_while(|(a, b)| a == b).count();
            entries += parts.len() - common + 1;
            texts += parts[common..].iter().map(|part| part.len() + 1).sum::<usize>();
            texts += name.len() + 1;
            before = parts;
        }
        (entries, texts)
    }

    fn past_a_limit(&self) -> Option<String> {
        let (entries, texts) = self.measures();
        let past = |has: usize, most: usize, what: &str| {
            let (has, most) = (grouped(has as u64), grouped(most as u64));
            format!("the table would have {has} {what}, and {most} are the most")
        };
        let deep = |file: &&Wanted| folders_around(file) > MOST_LEVELS;
        if entries > MOST_ENTRIES {
            return Some(past(entries, MOST_ENTRIES, "entries"));
        }
        if texts > MOST_TEXT {
            return Some(past(texts, MOST_TEXT, "bytes of names"));
        }
        self.files.iter().find(deep).map(|file| {
            let levels = folders_around(file);
            format!(
                "{}: {levels} folders one in another, and {MOST_LEVELS} are the most",
                self.place(file)
            )
        })
    }

    /// The least disc end that has room: all files in clusters of their own, but for the unused rest of one.
    fn least(&self) -> u64 {
        let (entries, texts) = self.measures();
        let table_end = (HEADER_SIZE + 12 * entries + texts) as u64;
        let whole = |size: u64| size.next_multiple_of(CLUSTER.into());
        let sizes = || self.files.iter().map(|file| u64::from(file.size));
        match sizes().map(|size| whole(size) - size).max() {
            Some(rest) if sizes().any(|size| size > 0) => {
                whole(table_end) + sizes().map(whole).sum::<u64>() - rest
            }
            _ => table_end,
        }
    }

    fn too_large(&self) -> Trouble {
        let least = self.least();
        let files = "header, table and files, each from a multiple of 0x8000 on";
        if least > u32::MAX.into() {
            let least = grouped(least);
            return Trouble::of(format!("{files}, take {least} bytes, and no disc is that large"));
        }
        let why = format!("--size has to be at least {}: {files}, take as much", grouped(least));
        Trouble { why, least: Some(least) }
    }
}

/// The folders on the way to a file.
fn folders_around(file: &Wanted) -> usize {
    file.path.iter().filter(|&&b| b == b'/').count()
}

/// What a path is refused for whatever else there is, and why.
fn by_itself(path: &[u8]) -> Option<(u32, String)> {
    if path.len() > MOST_PATH {
        let why =
            format!("the path has {} bytes, and 1,024 are the most", grouped(path.len() as u64));
        return Some((9, why));
    }
    let parts = || path.split(|&b| b == b'/');
    let refused = |number| parts().find(|part| judged(part) == number).map(|part| (number, part));
    let (number, part) = refused(13).or_else(|| refused(12))?;
    let why = match part {
        b"" => Some("a part of it is empty".into()),
        b"." | b".." => Some(format!("a part of it is {}", names::text(part))),
        _ => units::trouble(part, number),
    };
    Some((number, why.unwrap_or_else(|| "it is no path of a file".into())))
}

/// What the library answers of a part as a name; it cuts a path at / alone.
fn judged(part: &[u8]) -> u32 {
    match part {
        b"." | b".." => 13,
        _ => counter::name(part),
    }
}
