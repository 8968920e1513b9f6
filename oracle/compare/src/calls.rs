//! Calls, how they are written, and how they are made up for an image.

use crate::names;
use crate::random::Random;
use crate::rules::{self, Tree};

#[derive(Clone, Debug, PartialEq)]
pub enum Call {
    Header,
    Open,
    List,
    Listing,
    Free,
    Used,
    Total,
    /// With limits and shares, team 0 first.
    MakeRecord(Vec<u32>, Vec<u32>),
    Entry(u32),
    Lookup(u32, Vec<u8>),
    MaxFile(u32),
    MaxRegion(u32, u32),
    Alloc(u32, u32),
    Window(u64, u64, Vec<String>),
    FileWindow(u32, Vec<String>),
    Dol,
    DolWindow(Vec<String>),
    InsertFile(u32, Vec<u8>),
    InsertDirectory(u32, Vec<u8>),
    MakeDirectories(u32, Vec<u8>),
    Move(u32, u32),
    Resize(u32, u32),
    Fill(u32, Vec<u8>),
    /// With so many zero bytes.
    FillZeros(u32, u64),
    Rewrite,
}

pub fn hex(bytes: &[u8]) -> String {
    if bytes.is_empty() {
        return "-".into();
    }
    let mut out = String::with_capacity(2 * bytes.len());
    for b in bytes {
        out.push(char::from_digit((b >> 4).into(), 16).unwrap());
        out.push(char::from_digit((b & 15).into(), 16).unwrap());
    }
    out
}

/// Numbers parted by commas; zeros at the end are left out.
fn list(numbers: &[u32]) -> String {
    let count = numbers.len() - numbers.iter().rev().take_while(|number| **number == 0).count();
    let words: Vec<String> = numbers[..count].iter().map(u32::to_string).collect();
    if words.is_empty() { "-".into() } else { words.join(",") }
}

pub fn unhex(text: &str) -> Vec<u8> {
    let digit = |c: u8| (c as char).to_digit(16).unwrap() as u8;
    text.trim_start_matches('-')
        .as_bytes()
        .chunks(2)
        .map(|c| digit(c[0]) << 4 | digit(c[1]))
        .collect()
}

impl Call {
    /// The command.
    pub fn name(&self) -> &'static str {
        match self {
            Call::Header => "header",
            Call::Open => "open",
            Call::List => "list",
            Call::Listing => "listing",
            Call::Free => "free",
            Call::Used => "used",
            Call::Total => "total",
            Call::MakeRecord(..) => "make_record",
            Call::Entry(_) => "entry",
            Call::Lookup(..) => "lookup",
            Call::MaxFile(_) => "maxfile",
            Call::MaxRegion(..) => "maxregion",
            Call::Alloc(..) => "alloc",
            Call::Window(..) => "window",
            Call::FileWindow(..) => "filewindow",
            Call::Dol => "dol",
            Call::DolWindow(_) => "dolwindow",
            Call::InsertFile(..) => "insert_file",
            Call::InsertDirectory(..) => "insert_dir",
            Call::MakeDirectories(..) => "mkdirs",
            Call::Move(..) => "move",
            Call::Resize(..) => "resize",
            Call::Fill(..) => "replace",
            Call::FillZeros(..) => "replace_zeros",
            Call::Rewrite => "rewrite",
        }
    }

    pub fn edits(&self) -> bool {
        matches!(
            self,
            Call::InsertFile(..)
                | Call::InsertDirectory(..)
                | Call::MakeDirectories(..)
                | Call::Move(..)
                | Call::Resize(..)
                | Call::Fill(..)
                | Call::FillZeros(..)
                | Call::Rewrite
        )
    }

    pub fn fills(&self) -> bool {
        matches!(self, Call::Fill(..) | Call::FillZeros(..))
    }

    /// The entry and the new size of an edit that resizes; a fill does, to the clip's length.
    pub fn resizes(&self) -> Option<(u32, u64)> {
        match self {
            Call::Resize(number, size) => Some((*number, *size as u64)),
            Call::Fill(number, clip) => Some((*number, clip.len() as u64)),
            Call::FillZeros(number, length) => Some((*number, *length)),
            _ => None,
        }
    }

    /// The entry that an edit names.
    pub fn target(&self) -> Option<u32> {
        match self {
            Call::InsertFile(number, _)
            | Call::InsertDirectory(number, _)
            | Call::MakeDirectories(number, _)
            | Call::Move(number, _) => Some(*number),
            _ => self.resizes().map(|(number, _)| number),
        }
    }

    /// The name or path of the call.
    pub fn text(&self) -> Option<&[u8]> {
        match self {
            Call::Lookup(_, text)
            | Call::InsertFile(_, text)
            | Call::InsertDirectory(_, text)
            | Call::MakeDirectories(_, text) => Some(text),
            _ => None,
        }
    }

    /// The command, with this word for its name or path.
    fn line_with(&self, text: &str) -> String {
        let name = self.name();
        match self {
            Call::MakeRecord(limits, shares) => {
                let [limits, shares] = [limits, shares].map(|numbers| list(numbers));
                match (&*limits, &*shares) {
                    ("-", "-") => name.into(),
                    (_, "-") => format!("{name} {limits}"),
                    _ => format!("{name} {limits} {shares}"),
                }
            }
            Call::Entry(n) | Call::MaxFile(n) => format!("{name} {n}"),
            Call::Lookup(n, _)
            | Call::InsertFile(n, _)
            | Call::InsertDirectory(n, _)
            | Call::MakeDirectories(n, _) => format!("{name} {n} {text}"),
            Call::MaxRegion(a, b) | Call::Alloc(a, b) | Call::Move(a, b) | Call::Resize(a, b) => {
                format!("{name} {a} {b}")
            }
            Call::Fill(n, clip) => format!("{name} {n} {}", hex(clip)),
            Call::FillZeros(n, length) => format!("{name} {n} {length}"),
            Call::Window(start, length, ops) => {
                format!("{name} {start} {length} {}", ops.join(" "))
            }
            Call::FileWindow(n, ops) => format!("{name} {n} {}", ops.join(" ")),
            Call::DolWindow(ops) => format!("{name} {}", ops.join(" ")),
            _ => name.into(),
        }
    }

    pub fn line(&self) -> String {
        self.line_with(&hex(self.text().unwrap_or(b"")))
    }

    /// The command for the original, which has no records: its free regions tell what one would hold.
    pub fn line_of_original(&self) -> String {
        if let Call::MakeRecord(..) = self { Call::Free.line() } else { self.line() }
    }

    /// The command for the original, with the text that it reads these bytes as, even if they do not
    /// come back.
    pub fn line_of_any(&self, text: &[u8]) -> String {
        self.line_with(&format!("any:{}", hex(text)))
    }
}

fn near(r: &mut Random, value: u64) -> u32 {
    let value = match r.below(6) {
        0 => value.saturating_sub(1),
        1 => value + 1,
        _ => value,
    };
    value.min(u32::MAX as u64) as u32
}

pub fn any_number(r: &mut Random) -> u32 {
    let number = r.next() as u32;
    match r.below(4) {
        0 => u32::MAX - r.below(3) as u32,
        1 => r.below(3) as u32,
        _ => number >> r.below(32),
    }
}

fn entry(r: &mut Random, tree: Option<&Tree>) -> u32 {
    let n = tree.map_or(3, |t| t.entries.len());
    match r.below(20) {
        0 => n as u32,
        1 => any_number(r),
        _ => r.below(n) as u32,
    }
}

/// Mostly a file if `directory` is false, mostly a directory otherwise.
pub fn entry_of(r: &mut Random, tree: &Tree, directory: bool) -> u32 {
    let some: Vec<usize> =
        (0..tree.entries.len()).filter(|k| tree.entries[*k].directory == directory).collect();
    if some.is_empty() || r.chance(8) { entry(r, Some(tree)) } else { *r.pick(&some) as u32 }
}

/// A nonempty file more often than not.
fn file(r: &mut Random, tree: &Tree) -> u32 {
    let some: Vec<usize> = (0..tree.entries.len())
        .filter(|k| !tree.entries[*k].directory && tree.entries[*k].size > 0)
        .collect();
    if some.is_empty() || r.chance(30) { entry_of(r, tree, false) } else { *r.pick(&some) as u32 }
}

/// Offsets at which something begins or ends.
pub fn marks(tree: &Tree) -> Vec<u64> {
    let mut marks = vec![0, 0x440, tree.fst_offset, tree.table_end(), tree.disc_end];
    for (offset, size) in &tree.free {
        marks.extend([*offset, offset + size]);
    }
    for entry in tree.entries.iter().filter(|e| !e.directory) {
        marks.extend([entry.offset as u64, entry.offset as u64 + entry.size as u64]);
    }
    if let Some((offset, size)) = tree.program {
        marks.extend([offset, offset + size / 2, offset + size]);
    }
    marks
}

fn ops(r: &mut Random, length: u64) -> Vec<String> {
    (0..r.within(1, 6))
        .map(|_| match r.below(10) {
            0 | 1 => {
                let at = r.below(length.min(1 << 20) as usize + 2) as u64;
                format!("s:{}", if r.chance(15) { u64::MAX - r.below(0x600) as u64 } else { at })
            }
            2 | 3 => {
                let by = r.below(length.min(0x400) as usize + 3) as i64;
                let by = if r.chance(50) { by } else { -by };
                format!(
                    "c:{}",
                    if r.chance(10) { *r.pick(&[0, i64::MIN, i64::MAX, -1]) } else { by }
                )
            }
            4 | 5 => {
                let by = r.below(length.min(0x400) as usize + 3) as i64 - 2;
                let by = if r.chance(25) { by } else { -by };
                format!(
                    "e:{}",
                    if r.chance(10) { *r.pick(&[0, i64::MIN, i64::MAX, -1]) } else { by }
                )
            }
            _ => {
                let most = if r.chance(80) { 24 } else { 0x180 };
                format!("r:{}", r.below(most))
            }
        })
        .collect()
}

const PARTS: [&[u8]; 21] = [
    b"a",
    b"b",
    b"ab",
    b"c",
    b"new",
    b"x y",
    b"",
    b".",
    b"..",
    b"...",
    b"a:",
    b"~",
    b"\x01",
    b"\x7f",
    b"\xe9",
    b"q",
    b"\x95\x5c",
    b"\x81",
    b"\x81\x81",
    b"\xb1",
    b"\x81:",
];

/// A path below `start`: of an entry, with detours, or made of parts.
pub fn path(r: &mut Random, tree: Option<&Tree>, start: u32, lookup: bool) -> Vec<u8> {
    let mut parts: Vec<Vec<u8>> = vec![];
    if let Some(tree) = tree.filter(|t| (start as usize) < t.entries.len()) {
        let target = r.below(tree.entries.len());
        if r.chance(75) {
            parts = tree.path(start as usize, target).unwrap_or_default();
        }
    }
    let more = if lookup { 25 } else { 70 };
    while parts.is_empty() && r.chance(60) || r.chance(more) {
        let part: Vec<u8> = match r.below(20) {
            0 => (0..r.within(1, 40)).map(|_| *r.pick(b"abcdefgh")).collect(),
            1 => names::name(r, false),
            2 => names::any(r),
            _ => r.pick(&PARTS).to_vec(),
        };
        parts.push(part);
        if parts.len() > 8 {
            break;
        }
    }
    written(r, parts)
}

/// A path of these components, with detours; sometimes with a byte that is another, or with as many bytes as a path may
/// have.
pub fn written(r: &mut Random, mut parts: Vec<Vec<u8>>) -> Vec<u8> {
    // Detours.
    let mut i = 0;
    while i < parts.len() {
        if r.chance(8) {
            let back = parts[i].clone();
            parts.splice(i + 1..i + 1, [b"..".to_vec(), back]);
            i += 2;
        } else if r.chance(5) {
            let stay = r.pick(&[&b""[..], b"."]).to_vec();
            parts.insert(i, stay);
            i += 1;
        }
        i += 1;
    }
    let mut path = vec![];
    for (i, part) in parts.iter().enumerate() {
        if i > 0 || r.chance(20) {
            path.push(if r.chance(85) { b'/' } else { b'\\' });
        }
        path.extend(part);
    }
    if r.chance(8) {
        path.push(*r.pick(b"/\\"));
    }
    if r.chance(2) && !path.is_empty() {
        let at = r.below(path.len());
        path[at] = if r.chance(50) { r.byte() } else { *r.pick(&names::BOUNDS) };
    }
    if r.chance(2) {
        // Up to the limit, and past it.
        let to = *r.pick(&[1023, 1024, 1024, 1025, 1026, 2000]);
        let mut long = vec![];
        while long.len() + path.len() < to {
            long.extend(if (to - path.len() - long.len()) % 2 == 1 { &b"/"[..] } else { b"./" });
        }
        long.extend(path);
        path = long;
    }
    path
}

/// A name that makes the new table as long as the room behind it, or as its maximum, or nearly.
fn fitting(r: &mut Random, tree: &Tree) -> Option<usize> {
    let room = tree.most(tree.fst_offset, tree.fst_size);
    let room = if tree.forbids(room) { tree.maximum } else { room };
    let present = (12 * (tree.entries.len() + 1) + tree.texts() + 1) as u64;
    let length = room.checked_sub(present)? + r.below(3) as u64;
    Some(length.checked_sub(1)? as usize).filter(|length| (1..0x900).contains(length))
}

pub fn name(r: &mut Random, tree: &Tree) -> Vec<u8> {
    match r.below(20) {
        0 | 1 => r.pick(&PARTS).to_vec(),
        2 => tree.entries[r.below(tree.entries.len())].name.clone(),
        3 => (0..r.below(4)).map(|_| r.byte()).collect(),
        9 | 10 => names::name(r, false),
        11 => names::any(r),
        4..=8 => match fitting(r, tree) {
            Some(length) => (0..length).map(|i| b'a' + (i % 26) as u8).collect(),
            None => b"f".to_vec(),
        },
        _ => (0..r.within(1, 9)).map(|_| *r.pick(b"abcdefghij. -_Z~")).collect(),
    }
}

/// A call that looks.
pub fn look(r: &mut Random, tree: Option<&Tree>, image: &[u8]) -> Call {
    let length = image.len() as u64;
    match r.below(26) {
        0 => Call::Header,
        1 => Call::Open,
        2 => Call::List,
        3 => Call::Listing,
        4 => Call::Free,
        5 => Call::Used,
        6 => Call::Total,
        7 | 8 => Call::Entry(entry(r, tree)),
        9..=13 => {
            let start = if r.chance(50) { 0 } else { entry(r, tree) };
            let path = path(r, tree, start, true);
            Call::Lookup(start, path)
        }
        14 | 15 => Call::MaxFile(entry(r, tree)),
        16 | 17 => {
            let (a, b) = match tree {
                Some(tree) => {
                    let marks = marks(tree);
                    (*r.pick(&marks), *r.pick(&marks))
                }
                None => (r.below(0x800) as u64, 0x800),
            };
            let size = match r.below(6) {
                0 => 0,
                1 => any_number(r),
                _ => near(r, b.abs_diff(a)),
            };
            let offset = if r.chance(10) { any_number(r) } else { near(r, a.min(b)) };
            Call::MaxRegion(offset, size)
        }
        18..=20 => {
            let align = match r.below(12) {
                0 => any_number(r),
                1 => *r.pick(&[0, 3, 6, 0x18, u32::MAX, 0x8001]),
                2 => 1 << r.below(32),
                _ => 1 << r.below(10),
            };
            let size = match tree {
                Some(tree) if !tree.free.is_empty() && r.chance(80) => {
                    let (at, len) = *r.pick(&tree.free);
                    let step = if align.is_power_of_two() { align as u64 } else { 1 };
                    near(r, (at + len).saturating_sub(at.next_multiple_of(step)))
                }
                _ => any_number(r),
            };
            Call::Alloc(size, align)
        }
        21 => {
            let start = match r.below(6) {
                0 => u64::MAX - r.below(4) as u64,
                1 => 0,
                2 => length.saturating_sub(r.below(3) as u64),
                3 => length + r.below(3) as u64,
                _ => r.below(image.len() + 1) as u64,
            };
            let size = match r.below(6) {
                0 => 0,
                1 => u64::MAX - r.below(3) as u64,
                _ => r.below(0x200) as u64,
            };
            let ops = ops(r, size);
            Call::Window(start, size, ops)
        }
        22 | 23 => {
            let number = tree.map_or(1, |t| file(r, t));
            let size = tree.and_then(|t| t.entries.get(number as usize)).map_or(0, |e| e.size);
            let ops = ops(r, size.min(0x10_0000) as u64);
            Call::FileWindow(number, ops)
        }
        24 => Call::Dol,
        _ => Call::DolWindow(ops(r, 0x300)),
    }
}

pub fn move_file(r: &mut Random, tree: &Tree) -> Call {
    let number = file(r, tree);
    let entry = tree.entries.get(number as usize);
    let (at, size) = entry.map_or((0, 0), |e| (e.offset as u64, e.size as u64));
    let written = tree.fst_offset + (12 * tree.entries.len() + tree.texts()) as u64;
    let to = match r.below(14) {
        0 | 1 => *r.pick(&marks(tree)),
        // Where the table that is written anew ends.
        2..=4 => written,
        5 => at,
        6 => at + size,
        7 => at.saturating_sub(size),
        8 => any_number(r) as u64,
        _ if !tree.free.is_empty() => {
            let (start, len) = *r.pick(&tree.free);
            let inside = start + r.below(len as usize) as u64;
            *r.pick(&[start, start + len - size.min(len), inside])
        }
        _ => written,
    };
    Call::Move(number, near(r, to))
}

pub fn resize_file(r: &mut Random, tree: &Tree) -> Call {
    let number = file(r, tree);
    let entry = tree.entries.get(number as usize);
    let (at, size) = entry.map_or((0, 0), |e| (e.offset as u64, e.size as u64));
    let to = match r.below(10) {
        0 => size,
        1 => 0,
        2 => r.below(size.max(1) as usize) as u64,
        3 | 4 => tree.most(at, size),
        5 | 6 => match tree.place(0, rules::ALIGN) {
            Some((_, rest)) => rest,
            None => size + 1,
        },
        7 => tree.most(at, size) + 1 + r.below(16) as u64,
        8 => size + r.below(0x20) as u64,
        _ => any_number(r) as u64,
    };
    Call::Resize(number, near(r, to))
}

/// A fill, of a length that just fits or just does not; `image`: the image's length.
pub fn fill(r: &mut Random, tree: &Tree, image: usize) -> Call {
    let number = file(r, tree);
    let entry = tree.entries.get(number as usize);
    let (at, size) = entry.map_or((0, 0), |e| (e.offset as u64, e.size as u64));
    let most = tree.most(at, size);
    let place = tree.place(0, rules::ALIGN).map_or(most, |(_, rest)| rest);
    let length = match r.below(16) {
        0 | 1 => size,
        2 => 0,
        3 => size + 1,
        4 => size.saturating_sub(1),
        5 => r.below(size.max(1) as usize) as u64,
        6 => size + r.below(0x20) as u64,
        7 | 8 => most,
        9 | 10 => most + 1 + r.below(16) as u64,
        11 => place,
        12 => place + 1,
        13 => (image + r.below(0x20)) as u64,
        14 => r.next() >> r.within(31, 63),
        _ => (1 << 32) - 1 + r.below(3) as u64,
    };
    // Long ones are mostly zeros, which need not be written out.
    let written = length <= 0x800 || length <= 0xa000 && r.chance(25);
    if !written || r.chance(5) {
        return Call::FillZeros(number, length);
    }
    let mut clip = vec![0; length as usize];
    for chunk in clip.chunks_mut(8) {
        let bytes = r.next().to_be_bytes();
        chunk.copy_from_slice(&bytes[..chunk.len()]);
    }
    Call::Fill(number, clip)
}

/// A call that edits, and is no fill.
pub fn edit(r: &mut Random, tree: &Tree, inserts: bool) -> Call {
    match r.below(if inserts { 20 } else { 12 }) {
        0..=5 => move_file(r, tree),
        6..=10 => resize_file(r, tree),
        11 => Call::Rewrite,
        12 | 13 => Call::InsertFile(entry_of(r, tree, true), name(r, tree)),
        14 | 15 => Call::InsertDirectory(entry_of(r, tree, true), name(r, tree)),
        _ => {
            let start = if r.chance(50) { 0 } else { entry_of(r, tree, true) };
            if r.chance(25)
                && let Some(length) = fitting(r, tree)
            {
                let path = (0..length).map(|i| b'a' + (i % 26) as u8).collect();
                return Call::MakeDirectories(start, path);
            }
            Call::MakeDirectories(start, path(r, Some(tree), start, false))
        }
    }
}
