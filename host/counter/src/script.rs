//! The text of a sheet, which people write: an edit a line, as the commands are written.

use crate::disc::TOO_LONG;
use crate::failure::{DATA, Failure, Outcome};
use crate::lines;
use crate::names::{self, ZERO};
use crate::sheet::{self, Kind, Line, NAMES};
use crate::text::{nearest, number, start_of};
use crate::units;
use counter_sys::{MOST_LINES, MOST_PATH};
use std::path::Path;

/// What is wrong with a line, and from which byte on.
type Wrong = (usize, String);

/// The lines of the sheet that the text is of.
pub fn read(text: &Path) -> Outcome<Vec<Line>> {
    const WHAT: &str = "text of a sheet";
    let bytes = lines::bytes(text, "a folder, not the text of a sheet", WHAT)?;
    if sheet::is_one(&bytes) {
        let why = "this is a sheet already; `counter sheet --show FILE` shows it as text";
        return Err(Failure::error(DATA, format!("{}: {why}", names::file(text))));
    }
    let mut found = Vec::new();
    for (number, line) in lines::of(text, &bytes, WHAT)? {
        let wrong = |(at, why): Wrong| lines::wrong_from(text, (number, &line), at, &why);
        if let Some(read) = read_line(&line).map_err(wrong)? {
            if found.len() == MOST_LINES {
                return Err(wrong((blanks(&line, 0), "a sheet has at most 1,024 lines".into())));
            }
            found.push(read);
        }
    }
    Ok(found)
}

/// A line as text, which reads back as the same.
pub fn written(line: &Line) -> Vec<u8> {
    let path = match is_plain(&line.path) && unfit(line.kind, &line.path).is_none() {
        true => names::shown(&line.path),
        false => names::quoted(&line.path),
    };
    let number = match line.kind {
        Kind::MakeFolder | Kind::Add => String::new(),
        Kind::Move(offset) => format!(" {offset:#x}"),
        Kind::Resize(size) => format!(" {size}"),
    };
    [line.kind.name().as_bytes(), b" ", &path, number.as_bytes(), b"\n"].concat()
}

fn is_blank(byte: u8) -> bool {
    byte == b' ' || byte == b'\t'
}

/// Where something stands again, from `at` on.
fn blanks(line: &[u8], at: usize) -> usize {
    at + line[at..].iter().take_while(|&&b| is_blank(b)).count()
}

/// Whether a path is read back as it is shown, without quotes.
fn is_plain(path: &[u8]) -> bool {
    let ends = path
        .first()
        .zip(path.last())
        .is_some_and(|(first, last)| !is_blank(*first) && !is_blank(*last) && *first != b'"');
    let is_control = |byte: &u8| byte.is_ascii_control();
    ends && !path.iter().any(is_control) && names::read(&names::shown(path)).as_deref() == Ok(path)
}

/// None for one that says nothing.
fn read_line(line: &[u8]) -> Result<Option<Line>, Wrong> {
    let end = line.len() - line.iter().rev().take_while(|&&b| is_blank(b)).count();
    let line = &line[..end];
    let start = blanks(line, 0);
    if start == end || line[start] == b'#' {
        return Ok(None);
    }
    let behind = line[start..].iter().position(|&b| is_blank(b)).map_or(end, |len| start + len);
    let word = &line[start..behind];
    let name = NAMES.into_iter().find(|name| name.as_bytes() == word);
    let name = name.ok_or_else(|| (start, unknown(word)))?;
    let operands = blanks(line, behind);
    if operands == end {
        return Err((end, format!("{name} wants a path")));
    }
    let (kind, path) = match name {
        "mkdir" => (Kind::MakeFolder, alone(line, operands)?),
        "add" => (Kind::Add, alone(line, operands)?),
        "move" => {
            let (path, offset) = with_number(line, operands, "the new offset")?;
            (Kind::Move(offset), path)
        }
        _ => {
            let (path, size) = with_number(line, operands, "the new size")?;
            (Kind::Resize(size), path)
        }
    };
    match unfit(kind, &path).filter(|_| line[operands] != b'"') {
        Some(why) => Err((operands, why)),
        None => Ok(Some(Line { kind, path })),
    }
}

/// What is wrong with a path that no image takes. In quotes any is taken as it is, so that every sheet has a
/// text.
fn unfit(kind: Kind, path: &[u8]) -> Option<String> {
    if path.len() > MOST_PATH {
        return Some(TOO_LONG.into());
    }
    let made = match kind {
        Kind::MakeFolder => "folder",
        Kind::Add => "file",
        Kind::Move(_) | Kind::Resize(_) => return None,
    };
    let name = path.rsplit(|&b| b == b'/').next().unwrap_or_default();
    match name {
        b"" => Some(format!("a line names a {made} without a / at its end")),
        b"." | b".." => Some(format!("no {made} is called {}", names::text(name))),
        _ => [12, 13]
            .into_iter()
            .find_map(|number| units::trouble(name, number))
            .map(|why| format!("no {made} is called {}: {why}", names::short(name))),
    }
}

fn unknown(word: &[u8]) -> String {
    let word = start_of(word);
    let near = nearest(&word, NAMES.into_iter());
    let near = near.map_or(String::new(), |near| format!("; is {near} meant?"));
    format!("a line begins with mkdir, add, move or resize, and not with {word}{near}")
}

/// A path that goes to the end of the line.
fn alone(line: &[u8], at: usize) -> Result<Vec<u8>, Wrong> {
    if line[at] != b'"' {
        return plain(line, at, line.len());
    }
    let (path, behind) = quoted(line, at)?;
    match blanks(line, behind) {
        end if end == line.len() => Ok(path),
        more => Err((more, "nothing stands behind the path here".into())),
    }
}

/// A path, and a number as the last word.
fn with_number(line: &[u8], at: usize, what: &str) -> Result<(Vec<u8>, u32), Wrong> {
    let (path, last) = if line[at] == b'"' {
        let (path, behind) = quoted(line, at)?;
        let last = blanks(line, behind);
        if last < line.len() && last == behind {
            return Err((last, "a space is wanted behind the quote".into()));
        }
        (path, last)
    } else {
        let blank = line[at..].iter().rposition(|&b| is_blank(b)).map(|blank| at + blank);
        let Some(blank) = blank else {
            return Err((line.len(), format!("{what} is wanted behind the path")));
        };
        let before = line[at..blank].iter().rposition(|&b| !is_blank(b)).map_or(0, |last| last + 1);
        (plain(line, at, at + before)?, blank + 1)
    };
    let word = &line[last..];
    if word.is_empty() {
        return Err((last, format!("{what} is wanted behind the path")));
    }
    if word == b"auto" {
        let why = "a sheet knows no `auto`: the new offset is wanted, as `counter place` tells one";
        return Err((last, why.into()));
    }
    number(word).map(|number| (path, number)).map_err(|why| (last, why))
}

fn quoted(line: &[u8], at: usize) -> Result<(Vec<u8>, usize), Wrong> {
    match names::unquoted(&line[at..]) {
        Ok((path, len)) => Ok((path, at + len)),
        Err((from, why)) => Err((at + from, why)),
    }
}

/// A path without quotes: what stands from `at` to `end`.
fn plain(line: &[u8], at: usize, end: usize) -> Result<Vec<u8>, Wrong> {
    let path = &line[at..end];
    if let Some(zero) = path.iter().position(|&b| b == 0) {
        return Err((at + zero, ZERO.into()));
    }
    names::read(path).map_err(|why| (at + first_unread(path), why))
}

/// Where of a path that cannot be read the first letter is with which it cannot.
fn first_unread(path: &[u8]) -> usize {
    let text = path.utf8_chunks().next().map_or("", |chunk| chunk.valid());
    let starts: Vec<usize> = text.char_indices().map(|(at, _)| at).chain([text.len()]).collect();
    let read = starts.partition_point(|&end| names::read(&path[..end]).is_ok());
    starts[read.saturating_sub(1)]
}
