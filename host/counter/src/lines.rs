//! The lines of a list that the user wrote: a text file in UTF-8, or with --bytes in the image's bytes.

use crate::failure::{DATA, Failure, NO_INPUT, Outcome};
use crate::image::cannot_open;
use crate::names;
use std::fs::{self, File};
use std::io::Read;
use std::path::Path;

/// Most bytes of a list: those of 16,384 paths, the longest that there are.
pub const LONGEST: u64 = 16 << 20;
pub const MOST_LINES: usize = 100_000;

/// Each line that is not empty, with its number, from 1 on. `a_folder` is what is said of a folder.
pub fn read(list: &Path, a_folder: &str) -> Outcome<Vec<(usize, Vec<u8>)>> {
    of(list, &bytes(list, a_folder, "list")?, "list")
}

/// The bytes of a file of lines, which is called `what`.
pub fn bytes(list: &Path, a_folder: &str, what: &str) -> Outcome<Vec<u8>> {
    if fs::metadata(list).is_ok_and(|told| told.is_dir()) {
        return Err(Failure::error(NO_INPUT, format!("{}: {a_folder}", names::file(list))));
    }
    let mut bytes = Vec::new();
    File::open(list)
        .and_then(|file| file.take(LONGEST + 1).read_to_end(&mut bytes))
        .map_err(|e| cannot_open(list, &e))?;
    if bytes.len() as u64 > LONGEST {
        return Err(whole(list, &format!("no {what} has more than 16 MiB")));
    }
    Ok(bytes)
}

/// The lines of these bytes.
pub fn of(list: &Path, bytes: &[u8], what: &str) -> Outcome<Vec<(usize, Vec<u8>)>> {
    if bytes.starts_with(&[0xFF, 0xFE]) || bytes.starts_with(&[0xFE, 0xFF]) {
        return Err(whole(list, &format!("UTF-16; the {what} has to be UTF-8")));
    }
    // In Shift-JIS these three bytes begin a name.
    let text = bytes.strip_prefix(b"\xEF\xBB\xBF").filter(|_| !names::are_raw());
    let text = text.unwrap_or(bytes);
    let mut lines = Vec::new();
    for (i, line) in text.strip_suffix(b"\n").unwrap_or(text).split(|&b| b == b'\n').enumerate() {
        if i >= MOST_LINES {
            return Err(whole(list, &format!("no {what} has more than 100,000 lines")));
        }
        let line = line.strip_suffix(b"\r").unwrap_or(line);
        if !line.is_empty() {
            lines.push((i + 1, line.to_vec()));
        }
    }
    Ok(lines)
}

fn whole(list: &Path, why: &str) -> Failure {
    Failure::error(DATA, format!("{}: {why}", names::file(list)))
}

/// What is wrong with a line.
pub fn wrong(list: &Path, line: usize, why: &str) -> Failure {
    Failure::error(DATA, format!("{}, line {line}: {why}", names::file(list)))
}

/// The same from a byte of the line on. A column is a character, with --bytes a byte.
pub fn wrong_from(list: &Path, (number, line): (usize, &[u8]), at: usize, why: &str) -> Failure {
    let is_first = |byte: &&u8| names::are_raw() || !matches!(byte, 0x80..=0xBF);
    let column = line[..at].iter().filter(is_first).count() + 1;
    let text = format!("{}, line {number}, column {column}: {why}", names::file(list));
    Failure::error(DATA, text)
}
