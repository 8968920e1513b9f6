//! `hash`: a manifest of an image, in the form of sha256sum, and such a manifest read again.

use crate::args::Args;
use crate::digests::{self, digests};
use crate::disc::opened;
use crate::failure::{DATA, Failure, INPUT_OUTPUT, Outcome};
use crate::header::{FIELDS, FST_MAXIMUM_AT, FST_SIZE, FST_SIZE_AT, Field};
use crate::image::Image;
use crate::layout::{Layout, Record};
use crate::names;
use crate::out::say;
use crate::program::Program;
use crate::progress::Progress;
use crate::save::{save, vacant};
use crate::sha256::{self, LANES, Sha256, Sum, hex};
use crate::stored::Departure;
use crate::text::{counted, one_line};
use crate::units;
use counter_sys::{HEADER_SIZE, Region};
use std::fs::{self, File};
use std::io::{Read, Write};
use std::path::Path;
use std::sync::atomic::{AtomicUsize, Ordering};
use std::thread;

/// The first version has no sum of the table and two of the header; it is read still.
const FIRST: [&str; 2] = ["# counter manifest 1", "# counter manifest 2"];
/// Says that an edit of the image was cut.
const CUT: &str = "# cut";
/// Says that paths are the image's bytes, and no UTF-8.
const RAW: &str = "# names bytes";
const LAST: &str = "# sum of the lines above ";

/// A part of the image that is no file, with its sum.
pub struct Part {
    pub name: String,
    pub offset: u64,
    pub size: u64,
    pub sum: Sum,
}

/// An image's layout and sums.
pub struct Manifest {
    /// 1 has no sum of the table, and two of the header.
    pub version: usize,
    /// The sum of the manifest's own file, once it is read from one.
    pub own: Sum,
    /// Whether an edit of the image was cut when it was made.
    pub cut: bool,
    pub layout: Layout,
    pub image: Sum,
    /// Other sums of the image, by their names.
    pub digests: Vec<(&'static str, String)>,
    /// The header's fields, system area, table, program, what lies behind the disc end.
    pub parts: Vec<Part>,
    pub free: Vec<Part>,
}

impl Manifest {
    /// The parts that a manifest of this version has, with what they are sums of.
    fn fixed(layout: &Layout, version: usize) -> Vec<(String, (u64, u64))> {
        let mut fixed = match version {
            1 => OLD_HEADER.map(|(name, at, size)| (name.to_string(), (at, size))).to_vec(),
            _ => FIELDS
                .iter()
                .filter(|field| field.name != FST_SIZE)
                .map(|field| (of_field(field), (field.at as u64, field.size as u64)))
                .collect(),
        };
        fixed.push((SYSTEM.into(), layout.system()));
        if version > 1 {
            fixed.push((TABLE.into(), layout.table()));
        }
        fixed.push((TAIL.into(), layout.tail()));
        fixed
    }
}

/// The header in a manifest of the first version.
pub const OLD_HEADER: [(&str, u64, u64); 2] = {
    let (at, behind, end) = (FST_SIZE_AT as u64, FST_MAXIMUM_AT as u64, HEADER_SIZE as u64);
    [
        ("header up to the table's size", 0, at),
        ("header behind the table's size", behind, end - behind),
    ]
};

/// How a field of the header is called there.
pub fn of_field(field: &Field) -> String {
    format!("header: {}", field.name)
}

/// Most bytes of a manifest; that of a real disc has some hundred KiB.
const LONGEST: u64 = 64 << 20;

/// No file system holds a longer file; sums of sizes stay below 2^64.
const MOST_BYTES: u64 = 1 << 60;

pub const SYSTEM: &str = "system area";
pub const TABLE: &str = "table";
pub const PROGRAM: &str = "program";
pub const TAIL: &str = "behind the disc end";
const FREE: &str = "free";

pub fn hash(args: &Args) -> Outcome<()> {
    let (image, mut desk, disc) = opened(args.image.as_deref())?;
    let disc = disc.with_paths()?;
    disc.tell_of_escapes();
    args.out.as_deref().map_or(Ok(()), vacant)?;
    let layout = Layout::of(&image, &mut desk, &disc)?;
    let files = layout.files().count();
    let mut manifest = Manifest::of(&image, layout);
    if args.all {
        let _progress = Progress::start("hashing", 0);
        manifest.digests = digests(image.bytes());
    }
    let text = manifest.text();
    if text.len() as u64 > LONGEST {
        let text = format!("{}: its manifest would have more than 64 MiB", image.name);
        return Err(Failure::error(DATA, text));
    }
    let Some(out) = &args.out else {
        return say(&text);
    };
    save(out, &text)?;
    let (files, sum) = (counted(files, "file", "files"), hex(&sum_of_bytes(&text)));
    say(format!("{}: {files}, SHA-256 {sum}\n", names::file(out)).as_bytes())
}

// Sums ------------------------------------------------------------------------------------

/// The sum of each span, offset and size, by as many threads as there are processors.
pub fn sums(bytes: &[u8], spans: &[(u64, u64)], progress: &Progress) -> Vec<Sum> {
    let mut order: Vec<usize> = (0..spans.len()).collect();
    order.sort_by_key(|&i| u64::MAX - spans[i].1);
    // The first is most often the whole image, as long as all others together. Beside it go those that are
    // too long to find seven others, one after the other; the rest go side by side.
    let beside = if sha256::has_lanes() { 3 } else { 0 };
    let long = |&&i: &&usize| spans[i].1 > spans[order[0]].1 / 4;
    let (first, others) = order.split_at(order.iter().take(1 + beside).take_while(long).count());
    let next = AtomicUsize::new(0);
    let message = |i: usize| match spans[i] {
        // An empty file's place may be anything.
        (_, 0) => (i, &[][..]),
        (offset, size) => (i, &bytes[offset as usize..][..size as usize]),
    };
    let work = |first: &[usize]| {
        let mut found = Vec::new();
        let mut first = first.iter();
        let mut sums = |width: usize, next: &mut dyn FnMut() -> Option<usize>| {
            let told = |i, sum| found.push((i, sum));
            let advance = |count| progress.advance(count as u64);
            sha256::sums(width, || next().map(message), told, advance);
        };
        sums(2, &mut || first.next().copied());
        sums(LANES, &mut || others.get(next.fetch_add(1, Ordering::Relaxed)).copied());
        found
    };
    let threads = thread::available_parallelism().map_or(1, |n| n.get()).min(16);
    let mut sums = vec![[0; 32]; spans.len()];
    thread::scope(|scope| {
        // Where no thread can be had, this one does it all.
        let worker = |_| thread::Builder::new().spawn_scoped(scope, || work(&[])).ok();
        let workers: Vec<_> = (1..threads).map_while(worker).collect();
        let own = work(first);
        let others = workers.into_iter().map(|worker| worker.join().expect("a sum"));
        for (i, sum) in others.flatten().chain(own) {
            sums[i] = sum;
        }
    });
    sums
}

// Written ---------------------------------------------------------------------------------

impl Manifest {
    pub fn of(image: &Image, mut layout: Layout) -> Manifest {
        let wide = |(offset, size): (u32, u32)| (u64::from(offset), u64::from(size));
        let mut named: Vec<(String, (u64, u64))> = Vec::new();
        named.push(("image".into(), (0, layout.bytes)));
        named.extend(Manifest::fixed(&layout, FIRST.len()));
        if let Some(program) = layout.program {
            named.push((PROGRAM.into(), wide((program.place.offset, program.place.size))));
        }
        let parts = named.len();
        for region in &layout.free {
            named.push((FREE.into(), wide((region.offset, region.size))));
        }
        let free = named.len();
        let mut spans: Vec<(u64, u64)> = named.iter().map(|(_, span)| *span).collect();
        spans.extend(layout.files().map(|file| wide(file.place)));
        let progress = Progress::start("hashing", spans.iter().map(|span| span.1).sum());
        let mut sums = sums(image.bytes(), &spans, &progress);
        let of_files = sums.split_off(free);
        let files = layout.records.iter_mut().filter(|record| !record.folder);
        for (file, sum) in files.zip(of_files) {
            file.sum = Some(sum);
        }
        let mut all: Vec<Part> = named
            .into_iter()
            .zip(sums)
            .map(|((name, (offset, size)), sum)| Part { name, offset, size, sum })
            .collect();
        let free = all.split_off(parts);
        let sum = all.remove(0).sum;
        let (version, cut) = (FIRST.len(), image.is_cut());
        let (own, digests) = ([0; 32], Vec::new());
        Manifest { version, own, cut, layout, image: sum, digests, parts: all, free }
    }

    pub fn text(&self) -> Vec<u8> {
        let layout = &self.layout;
        let mut out = format!("{}\n", FIRST[self.version - 1]).into_bytes();
        if names::are_raw() {
            let _ = writeln!(out, "{RAW}");
        }
        if self.cut {
            let _ = writeln!(out, "{CUT}");
        }
        let _ = writeln!(out, "# image {} {} {}", hex(&self.image), layout.bytes, layout.name);
        for (name, sum) in &self.digests {
            let _ = writeln!(out, "# {name} {sum}");
        }
        let _ = writeln!(out, "# game {}", layout.game);
        let _ = writeln!(out, "# disc-end {:#x}", layout.disc_end);
        let _ = writeln!(out, "# table {:#x} {}", layout.fst.0, layout.fst.1);
        for part in self.parts.iter().chain(&self.free) {
            let (sum, at, size) = (hex(&part.sum), part.offset, part.size);
            let _ = writeln!(out, "# part {sum} {at:#x} {size} {}", part.name);
        }
        for record in &layout.records[1..] {
            let path = names::written(&record.path[1..]);
            match record.sum {
                None => out.extend([b"# folder ", &path[..]].concat()),
                Some(sum) => {
                    let (offset, size) = record.place;
                    let _ = writeln!(out, "# file {offset:#x} {size}");
                    out.extend(sum_line(&hex(&sum), &path));
                }
            }
            out.push(b'\n');
        }
        let sum = hex(&sum_of_bytes(&out));
        let _ = writeln!(out, "{LAST}{sum}");
        out
    }
}

/// A file's line, as sha256sum writes it: where the name has a `\`, that is doubled, and the line begins
/// with one.
fn sum_line(sum: &str, path: &[u8]) -> Vec<u8> {
    if !path.contains(&b'\\') {
        return [sum.as_bytes(), b"  ", path].concat();
    }
    let doubled = path.split(|&b| b == b'\\').collect::<Vec<_>>().join(&b"\\\\"[..]);
    [b"\\", sum.as_bytes(), b"  ", &doubled].concat()
}

/// The same read: the sum, and the path.
fn of_sum_line(line: &[u8]) -> Option<(Sum, Vec<u8>)> {
    let rest = line.strip_prefix(b"\\");
    let (digits, path) = rest.unwrap_or(line).split_at_checked(64)?;
    let path = path.strip_prefix(b"  ")?;
    let sum = sum(&mut std::str::from_utf8(digits).ok()?)?;
    let mut out = Vec::new();
    let mut bytes = path.iter();
    while let Some(&byte) = bytes.next() {
        if byte == b'\\' && rest.is_some() && bytes.next() != Some(&b'\\') {
            return None;
        }
        out.push(byte);
    }
    Some((sum, out))
}

fn sum_of_bytes(text: &[u8]) -> Sum {
    let mut sha = Sha256::new();
    sha.update(text);
    sha.finish()
}

// Read ------------------------------------------------------------------------------------

/// Whether the file begins as a manifest does.
pub fn is_manifest(path: &Path) -> bool {
    let is_file = fs::metadata(path).is_ok_and(|told| told.is_file());
    let mut start = [0; 21];
    is_file
        && File::open(path).is_ok_and(|mut file| {
            let count = file.read(&mut start).unwrap_or(0);
            let start = &start[..count];
            let start = start.strip_prefix(b"\xEF\xBB\xBF").unwrap_or(start);
            start.starts_with(&FIRST[0].as_bytes()[..18])
        })
}

/// Takes the next word off a line.
fn word<'a>(line: &mut &'a str) -> Option<&'a str> {
    let (word, rest) = line.split_once(' ').unwrap_or((line, ""));
    *line = rest;
    (!word.is_empty()).then_some(word)
}

fn number(line: &mut &str) -> Option<u64> {
    let word = word(line)?;
    match word.strip_prefix("0x") {
        Some(digits) => u64::from_str_radix(digits, 16).ok(),
        None => word.parse().ok(),
    }
}

fn small(line: &mut &str) -> Option<u32> {
    number(line).and_then(|number| u32::try_from(number).ok())
}

fn sum(line: &mut &str) -> Option<Sum> {
    let word = word(line)?;
    let mut sum = [0; 32];
    if word.len() != 64 || !word.is_ascii() {
        return None;
    }
    for (byte, i) in sum.iter_mut().zip((0..).step_by(2)) {
        *byte = u8::from_str_radix(&word[i..i + 2], 16).ok()?;
    }
    Some(sum)
}

impl Manifest {
    pub fn read(path: &Path) -> Outcome<Manifest> {
        let wrong = |why: &str| Failure::error(DATA, format!("{}: {why}", names::file(path)));
        let mut bytes = Vec::new();
        File::open(path)
            .and_then(|file| file.take(LONGEST + 1).read_to_end(&mut bytes))
            .map_err(|e| Failure::file(INPUT_OUTPUT, path, &e))?;
        if bytes.len() as u64 > LONGEST {
            return Err(wrong("no manifest has more than 64 MiB"));
        }
        let own = sum_of_bytes(&bytes);
        let bytes = bytes.strip_prefix(b"\xEF\xBB\xBF").unwrap_or(&bytes);
        let lines: Vec<&[u8]> = bytes.split(|&b| b == b'\n').map(without_return).collect();
        let text = lines.join(&b'\n');
        let Some(version) = FIRST.iter().position(|first| lines[0] == first.as_bytes()) else {
            return Err(wrong("a manifest of a later version of this program"));
        };
        let cut = "the manifest was cut or changed: its last line is not the sum of the others";
        let end = text.iter().rposition(|&b| b != b'\n').map_or(0, |at| at + 1);
        let last = text[..end].iter().rposition(|&b| b == b'\n').map_or(0, |at| at + 1);
        if text[last..end] != *format!("{LAST}{}", hex(&sum_of_bytes(&text[..last]))).as_bytes() {
            return Err(wrong(cut));
        }
        let mut reader = Reader::new(version + 1, own);
        let lines = text[..last.saturating_sub(1)].split(|&b| b == b'\n');
        for (i, line) in lines.enumerate().skip(1) {
            let told = reader.line(line);
            told.map_err(|why| wrong(&format!("line {} {why}", i + 1)))?;
        }
        reader.done().map_err(|why| wrong(&why))
    }
}

fn without_return(line: &[u8]) -> &[u8] {
    line.strip_suffix(b"\r").unwrap_or(line)
}

/// A manifest as far as it is read.
struct Reader {
    manifest: Manifest,
    /// Whether its paths are the image's bytes.
    raw: bool,
    /// Offset and size of the file whose line comes next.
    place: Option<(u32, u32)>,
    /// The folders that hold the next entry, innermost last.
    open: Vec<u32>,
}

impl Reader {
    fn new(version: usize, own: Sum) -> Reader {
        let root = Record {
            number: 0,
            parent: 0,
            folder: true,
            path: b"/".to_vec(),
            place: (0, 0),
            sum: None,
        };
        let layout = Layout {
            name: String::new(),
            game: String::new(),
            bytes: 0,
            disc_end: 0,
            fst: (0, 0),
            departure: Departure::None,
            program: None,
            free: Vec::new(),
            records: vec![root],
        };
        let manifest = Manifest {
            version,
            own,
            cut: false,
            layout,
            image: [0; 32],
            digests: Vec::new(),
            parts: Vec::new(),
            free: Vec::new(),
        };
        Reader { manifest, raw: false, place: None, open: vec![0] }
    }

    /// What is wrong where the line is none of a manifest.
    fn line(&mut self, line: &[u8]) -> Result<(), String> {
        let none = || "is none of a manifest".to_string();
        // What stands behind a file's place is its sum.
        if self.place.is_some() && line.starts_with(b"#") {
            return Err("comes where a file's sum has to".into());
        }
        if line == RAW.as_bytes() {
            self.raw = true;
        } else if line == CUT.as_bytes() && self.manifest.version > 1 {
            self.manifest.cut = true;
        } else if let Some(path) = line.strip_prefix(b"# folder ") {
            let path = self.path(path.strip_suffix(b"/").ok_or_else(none)?)?;
            self.record(&path, true, (0, 0), None).ok_or_else(none)?;
        } else if let Some(rest) = line.strip_prefix(b"# ") {
            let told = std::str::from_utf8(rest).ok().and_then(|rest| self.fact(rest));
            told.ok_or_else(none)?;
        } else {
            let (sum, path) = of_sum_line(line).ok_or_else(none)?;
            let place = self.place.take().ok_or_else(none)?;
            let path = self.path(&path)?;
            self.record(&path, false, place, Some(sum)).ok_or_else(none)?;
        }
        Ok(())
    }

    /// A path of the manifest, as the image has it.
    fn path(&self, path: &[u8]) -> Result<Vec<u8>, String> {
        match self.raw {
            true => Ok(path.to_vec()),
            false => names::from_text(path).map_err(|why| format!("is none of a manifest: {why}")),
        }
    }

    /// What a line says that is about no entry.
    fn fact(&mut self, mut rest: &str) -> Option<()> {
        let layout = &mut self.manifest.layout;
        match word(&mut rest)? {
            "image" => {
                self.manifest.image = sum(&mut rest)?;
                layout.bytes = number(&mut rest).filter(|bytes| *bytes <= MOST_BYTES)?;
                layout.name = one_line(rest);
            }
            "game" => layout.game = one_line(rest),
            // For people; nothing is held to them.
            name if digests::NAMES.contains(&name) => {}
            "disc-end" => layout.disc_end = small(&mut rest)?,
            "table" => layout.fst = (small(&mut rest)?, small(&mut rest)?),
            "part" => return self.part(rest),
            "file" => self.place = Some((small(&mut rest)?, small(&mut rest)?)),
            _ => return None,
        }
        Some(())
    }

    fn part(&mut self, mut rest: &str) -> Option<()> {
        let sum = sum(&mut rest)?;
        let (offset, size) = (number(&mut rest)?, number(&mut rest)?);
        let part = Part { name: rest.to_string(), offset, size, sum };
        let layout = &mut self.manifest.layout;
        let place = || {
            let (offset, size) = (u32::try_from(offset).ok()?, u32::try_from(size).ok()?);
            Some(Region { offset, size })
        };
        match rest {
            FREE => {
                layout.free.push(place()?);
                self.manifest.free.push(part);
            }
            PROGRAM => {
                layout.program = Some(Program::at(place()?, layout.table_end()));
                self.manifest.parts.push(part);
            }
            _ => self.manifest.parts.push(part),
        }
        Some(())
    }

    /// An entry, in table order, so that its folder is the innermost open one with that path.
    fn record(
        &mut self,
        path: &[u8],
        folder: bool,
        place: (u32, u32),
        sum: Option<Sum>,
    ) -> Option<()> {
        let records = &mut self.manifest.layout.records;
        let path = [b"/", path].concat();
        let (above, name) = path.split_at(path.iter().rposition(|&b| b == b'/')? + 1);
        while records[*self.open.last()? as usize].path != above {
            self.open.pop();
        }
        // As in an image that opens: paths go to terminals, too.
        if !units::is_name(name) {
            return None;
        }
        let (number, parent) = (records.len() as u32, *self.open.last()?);
        let path = if folder { [&path[..], b"/"].concat() } else { path };
        records.push(Record { number, parent, folder, path, place, sum });
        if folder {
            self.open.push(number);
        }
        Some(())
    }

    /// The whole, if nothing is missing: each part once and of what it has to be of, and every byte of the
    /// disc in a part, a file or a free region.
    fn done(self) -> Result<Manifest, String> {
        let Manifest { layout, version, parts, .. } = &self.manifest;
        let lacks =
            |what: &str| format!("the manifest lacks {what}: a line was left out or changed");
        let unnamed = self.manifest.image == [0; 32];
        if unnamed || u64::from(layout.fst.0) < HEADER_SIZE as u64 || self.place.is_some() {
            return Err(lacks("a line"));
        }
        let fixed = Manifest::fixed(layout, *version);
        for (name, span) in &fixed {
            let mut found = parts.iter().filter(|part| part.name == *name);
            let is = |part: &Part| (part.offset, part.size) == *span;
            if !found.next().is_some_and(is) || found.next().is_some() {
                return Err(lacks(&format!("the one sum of the part \"{name}\"")));
            }
        }
        if parts.len() != fixed.len() + usize::from(layout.program.is_some()) {
            return Err("the manifest has a part that is none".into());
        }
        match uncovered(layout) {
            Some((from, to)) => Err(lacks(&format!("what lies at {from:#x} to {to:#x}"))),
            None => Ok(self.manifest),
        }
    }
}

/// The first bytes of the disc that lie in nothing.
fn uncovered(layout: &Layout) -> Option<(u64, u64)> {
    let wide = |(offset, size): (u32, u32)| (u64::from(offset), u64::from(size));
    let mut spans = vec![(0, layout.table_end())];
    spans.extend(layout.files().map(|file| wide(file.place)));
    spans.extend(layout.free.iter().chain(&layout.behind()).map(|r| wide((r.offset, r.size))));
    spans.push((layout.disc_end.into(), 0));
    spans.sort();
    let mut at = 0;
    for (offset, size) in spans {
        if offset > at {
            return (at < layout.disc_end.into()).then_some((at, offset));
        }
        at = at.max(offset + size);
    }
    None
}
