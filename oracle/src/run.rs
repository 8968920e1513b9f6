//! The commands.

use crate::common::{ReadSeek, Region, string_table, text};
use crate::dvd::disc::{self, DiscStream, OracleField};
use crate::dvd::fst::{self, DirectoryEntry, Entry, EntryId, FileEntry, FileTree, OpenFile};
use crate::dvd::{banner, dol};
use crate::guard::{self, Image};
use encoding_rs::SHIFT_JIS;
use std::collections::HashMap;
use std::fmt::Write as _;
use std::fs;
use std::io::{self, BufRead, BufReader, BufWriter, Cursor, Read, Seek, SeekFrom, Write};
use std::panic::{AssertUnwindSafe, catch_unwind};

/// Why a command has no plain answer.
enum Stop {
    /// The original refused, or the oracle itself did (kinds that begin with `Oracle:`).
    Err(String),
    /// A name or path that the codec does not turn back into equal bytes.
    Skip,
    /// The original would not come back.
    Huge,
    /// The command line is wrong.
    Usage(&'static str),
}

type Answer<T> = Result<T, Stop>;

// The kinds of errors ---------------------------------------------------------------------

fn io_kind(e: &io::Error) -> String {
    format!("Io:{:?}", e.kind())
}

fn text_kind(e: &text::Error) -> String {
    match e {
        text::Error::Encode(_) => "Text:Encode".into(),
        text::Error::TooLong(_) => "Text:TooLong".into(),
        text::Error::UnexpectedNul => "Text:UnexpectedNul".into(),
        text::Error::NoNulTerminator => "Text:NoNulTerminator".into(),
        text::Error::Decode => "Text:Decode".into(),
        text::Error::Other(e) => match e.downcast_ref::<io::Error>() {
            Some(e) => format!("Text:Other:{}", io_kind(e)),
            None => "Text:Other".into(),
        },
    }
}

fn fst_kind(e: &fst::Error) -> String {
    let kind = match e {
        fst::Error::Encode(_) => "Encode",
        fst::Error::Decode(_) => "Decode",
        fst::Error::UnsafeName(_) => "UnsafeName",
        fst::Error::RootIsNotDirectory => "RootIsNotDirectory",
        fst::Error::UnrecognizedKind(_) => "UnrecognizedKind",
        fst::Error::InvalidNextIndex(_) => "InvalidNextIndex",
        fst::Error::ExpectedFile(_) => "ExpectedFile",
        fst::Error::ExpectedFileAt(_) => "ExpectedFileAt",
        fst::Error::ExpectedDirectory(_) => "ExpectedDirectory",
        fst::Error::NotFound(_) => "NotFound",
        fst::Error::AlreadyExists(_) => "AlreadyExists",
        fst::Error::Io(e) => return format!("Fst:{}", io_kind(e)),
        fst::Error::StringTable(e) => match **e {
            string_table::Error::MissingNullTerminator => "StringTable:MissingNullTerminator",
            string_table::Error::InvalidOffset(_) => "StringTable:InvalidOffset",
        },
    };
    format!("Fst:{kind}")
}

fn dol_kind(e: &dol::Error) -> String {
    let kind = match e {
        dol::Error::UnmappedAddress(_) => "UnmappedAddress",
        dol::Error::UnmappedOffset(_) => "UnmappedOffset",
        dol::Error::InvalidTextSection(_) => "InvalidTextSection",
        dol::Error::InvalidDataSection(_) => "InvalidDataSection",
        dol::Error::BssPointer => "BssPointer",
        dol::Error::PastEndOfSection { .. } => "PastEndOfSection",
        dol::Error::Io(e) => return format!("Dol:{}", io_kind(e)),
    };
    format!("Dol:{kind}")
}

fn disc_kind(e: &disc::Error) -> String {
    match e {
        disc::Error::InvalidMagic => "InvalidMagic".into(),
        disc::Error::OverlappingMove => "OverlappingMove".into(),
        disc::Error::NotEnoughSpace(_) => "NotEnoughSpace".into(),
        disc::Error::WiiNotSupported => "WiiNotSupported".into(),
        disc::Error::Banner(e) => match &**e {
            banner::Error::Io(e) => format!("Banner:{}", io_kind(e)),
        },
        disc::Error::Fst(e) => fst_kind(e),
        disc::Error::Dol(e) => dol_kind(e),
        disc::Error::Io(e) => io_kind(e),
        disc::Error::Text(e) => text_kind(e),
    }
}

impl From<disc::Error> for Stop {
    fn from(e: disc::Error) -> Self {
        Stop::Err(disc_kind(&e))
    }
}

impl From<fst::Error> for Stop {
    fn from(e: fst::Error) -> Self {
        Stop::Err(fst_kind(&e))
    }
}

impl From<io::Error> for Stop {
    fn from(e: io::Error) -> Self {
        Stop::Err(io_kind(&e))
    }
}

// Words of a command line -----------------------------------------------------------------

struct Words<'a>(std::str::SplitAsciiWhitespace<'a>);

impl<'a> Words<'a> {
    fn text(&mut self) -> Answer<&'a str> {
        self.0.next().ok_or(Stop::Usage("a word is missing"))
    }

    fn number(&mut self) -> Answer<u64> {
        number(self.text()?)
    }

    fn word(&mut self) -> Answer<u32> {
        u32::try_from(self.number()?).map_err(|_| Stop::Usage("above 32 bits"))
    }

    /// Bytes in hexadecimal; `-` or nothing stands for none.
    fn bytes(&mut self) -> Answer<Vec<u8>> {
        unhex(self.0.next().unwrap_or("-"))
    }

    /// A name or path as the text that the original reads its bytes as. Bytes that do not come back are
    /// skipped; those of `any:HEX` only if there is no such text.
    fn name(&mut self) -> Answer<String> {
        let word = self.0.next().unwrap_or("-");
        let (any, digits) = match word.strip_prefix("any:") {
            Some(digits) => (true, digits),
            None => (false, word),
        };
        let bytes = unhex(digits)?;
        let text = decoded(&bytes).ok_or(Stop::Skip)?;
        let back = any || encoded(&text).is_some_and(|again| again == bytes);
        if back { Ok(text) } else { Err(Stop::Skip) }
    }

    fn end(&mut self) -> Answer<()> {
        if self.0.next().is_none() { Ok(()) } else { Err(Stop::Usage("too many words")) }
    }
}

// Names as bytes and as text, by the two calls of the codec that fst.rs makes ----------------

fn decoded(bytes: &[u8]) -> Option<String> {
    let text = SHIFT_JIS.decode_without_bom_handling_and_without_replacement(bytes)?;
    Some(text.into_owned())
}

fn encoded(text: &str) -> Option<Vec<u8>> {
    let (bytes, _, unmappable) = SHIFT_JIS.encode(text);
    (!unmappable).then(|| bytes.into_owned())
}

/// What the codec makes of bytes: `same`, others, `none` that it can write, or no text at all.
fn codec(mut words: Words) -> Answer<String> {
    let bytes = words.bytes()?;
    words.end()?;
    Ok(match decoded(&bytes).map(|text| encoded(&text)) {
        Some(Some(again)) if again == bytes => "ok same".into(),
        Some(Some(again)) => format!("ok other {}", hex(&again)),
        Some(None) => "ok none".into(),
        None => "ok unknown".into(),
    })
}

fn number(text: &str) -> Answer<u64> {
    match text.strip_prefix("0x") {
        Some(digits) => u64::from_str_radix(digits, 16),
        None => text.parse(),
    }
    .map_err(|_| Stop::Usage("not a number"))
}

fn signed(text: &str) -> Answer<i64> {
    text.parse().map_err(|_| Stop::Usage("not a distance"))
}

fn unhex(text: &str) -> Answer<Vec<u8>> {
    if text == "-" {
        return Ok(vec![]);
    }
    let digit = |c: u8| (c as char).to_digit(16).map(|d| d as u8);
    let bytes = text.as_bytes();
    if bytes.len() % 2 != 0 {
        return Err(Stop::Usage("odd hexadecimal"));
    }
    bytes
        .chunks(2)
        .map(|c| Some(digit(c[0])? << 4 | digit(c[1])?))
        .collect::<Option<_>>()
        .ok_or(Stop::Usage("not hexadecimal"))
}

fn hex(bytes: &[u8]) -> String {
    const DIGITS: &[u8; 16] = b"0123456789abcdef";
    if bytes.is_empty() {
        return "-".into();
    }
    let mut out = String::with_capacity(2 * bytes.len());
    for b in bytes {
        out.push(DIGITS[usize::from(b >> 4)] as char);
        out.push(DIGITS[usize::from(b & 15)] as char);
    }
    out
}

fn fnv(bytes: &[u8]) -> u64 {
    bytes.iter().fold(0xcbf29ce484222325, |h, b| (h ^ u64::from(*b)).wrapping_mul(0x100000001b3))
}

// Entries by preorder number --------------------------------------------------------------

fn entry(files: &FileTree, number: u64) -> Answer<EntryId> {
    let number = usize::try_from(number).unwrap_or(usize::MAX);
    match files.recurse().nth(number) {
        Some((_, id)) => Ok(id),
        None => Err(Stop::Err("Oracle:NoSuchEntry".into())),
    }
}

fn number_of(files: &FileTree, id: EntryId) -> usize {
    files.recurse().position(|(_, other)| other == id).unwrap()
}

struct Line {
    path: String,
    parent: usize,
    next: usize,
    id: EntryId,
}

/// All entries in preorder, with the number of the directory that each is nested in and, for a
/// directory, the number after its last descendant.
fn lines(files: &FileTree) -> Vec<Line> {
    let mut lines: Vec<Line> =
        files.recurse().map(|(path, id)| Line { path, parent: 0, next: 0, id }).collect();
    let numbers: HashMap<EntryId, usize> =
        lines.iter().enumerate().map(|(i, line)| (line.id, i)).collect();
    for i in (0..lines.len()).rev() {
        lines[i].next = i + 1;
        let Entry::Directory(dir) = &files[lines[i].id] else { continue };
        for child in &dir.children {
            lines[numbers[child]].parent = i;
        }
        if let Some(last) = dir.children.last() {
            lines[i].next = lines[numbers[last]].next;
        }
    }
    lines
}

// Windows ---------------------------------------------------------------------------------

const MAX_READ: u64 = 1 << 24;

fn window(stream: &mut dyn ReadSeek, ops: Words) -> Answer<String> {
    let mut out = String::from("ok");
    for op in ops.0 {
        let (kind, value) = op.split_once(':').ok_or(Stop::Usage("an op is KIND:NUMBER"))?;
        let pos = match kind {
            "s" => SeekFrom::Start(number(value)?),
            "c" => SeekFrom::Current(signed(value)?),
            "e" => SeekFrom::End(signed(value)?),
            "r" => {
                let len = number(value)?;
                if len > MAX_READ {
                    return Err(Stop::Usage("r: above 2^24"));
                }
                let mut buf = vec![0xaa; len as usize];
                match stream.read(&mut buf) {
                    Ok(got) => write!(out, " r={got}:{}", hex(&buf)).unwrap(),
                    Err(e) => write!(out, " r=err:{}:{}", io_kind(&e), hex(&buf)).unwrap(),
                }
                continue;
            }
            _ => return Err(Stop::Usage("ops are s c e r")),
        };
        match stream.seek(pos) {
            Ok(at) => write!(out, " {kind}={at}").unwrap(),
            Err(e) => write!(out, " {kind}=err:{}", io_kind(&e)).unwrap(),
        }
    }
    Ok(out)
}

// Commands that only look -----------------------------------------------------------------

fn open(image: &[u8]) -> Answer<DiscStream<Cursor<&[u8]>>> {
    if guard::tree_is_huge(image) {
        return Err(Stop::Huge);
    }
    Ok(DiscStream::open(Cursor::new(image))?)
}

fn look(command: &str, mut words: Words, image: &[u8]) -> Answer<String> {
    match command {
        "header" => {
            words.end()?;
            let (fields, same) = disc::oracle_header(image)?;
            let mut out = String::from("ok");
            for (name, field) in fields {
                match field {
                    OracleField::Word(w) => write!(out, " {name}={w}").unwrap(),
                    OracleField::Bytes(b) => {
                        let len = b.iter().rposition(|b| *b != 0).map_or(0, |i| i + 1);
                        write!(out, " {name}={}", hex(&b[..len])).unwrap();
                    }
                }
            }
            write!(out, " written={}", if same { "same" } else { "differs" }).unwrap();
            Ok(out)
        }
        "open" => {
            words.end()?;
            open(image)?;
            Ok("ok".into())
        }
        "list" => {
            words.end()?;
            let disc = open(image)?;
            let mut out = String::from("ok");
            for (i, line) in lines(disc.files()).iter().enumerate() {
                let path = hex(&encoded(&line.path).ok_or(Stop::Skip)?);
                match &disc.files()[line.id] {
                    Entry::File(f) => write!(out, " f:{i}:{}:{}:{path}", f.offset, f.size),
                    Entry::Directory(d) => {
                        let (parent, next, count) = (line.parent, line.next, d.children.len());
                        write!(out, " d:{i}:{parent}:{next}:{count}:{path}")
                    }
                }
                .unwrap();
            }
            Ok(out)
        }
        "listing" => {
            words.end()?;
            let disc = open(image)?;
            let mut out = format!("total {} used {}\n", disc.total_size(), disc.used_size());
            for (i, line) in lines(disc.files()).iter().enumerate() {
                match &disc.files()[line.id] {
                    Entry::File(f) => writeln!(out, "f {i} {} {} {}", f.offset, f.size, line.path),
                    Entry::Directory(_) => {
                        writeln!(out, "d {i} {} {} {}", line.parent, line.next, line.path)
                    }
                }
                .unwrap();
            }
            for r in disc.free_regions() {
                writeln!(out, "r {} {}", r.offset, r.size).unwrap();
            }
            Ok(format!("ok {}", hex(&encoded(&out).ok_or(Stop::Skip)?)))
        }
        "entry" => {
            let number = words.number()?;
            words.end()?;
            let disc = open(image)?;
            entry(disc.files(), number)?;
            let line = &lines(disc.files())[number as usize];
            Ok(match &disc.files()[line.id] {
                Entry::File(f) => format!("ok f:{number}:{}:{}", f.offset, f.size),
                Entry::Directory(_) => format!("ok d:{number}:{}:{}", line.parent, line.next),
            })
        }
        "free" => {
            words.end()?;
            let disc = open(image)?;
            let mut out = String::from("ok");
            for r in disc.free_regions() {
                write!(out, " {}:{}", r.offset, r.size).unwrap();
            }
            Ok(out)
        }
        "used" => {
            words.end()?;
            Ok(format!("ok {}", open(image)?.used_size()))
        }
        "total" => {
            words.end()?;
            Ok(format!("ok {}", open(image)?.total_size()))
        }
        "lookup" => {
            let start = words.number()?;
            let path = words.name()?;
            words.end()?;
            let disc = open(image)?;
            let id = disc.files().at_descendant(entry(disc.files(), start)?, &path)?;
            Ok(format!("ok {}", number_of(disc.files(), id)))
        }
        "maxfile" => {
            let file = words.number()?;
            words.end()?;
            let disc = open(image)?;
            Ok(format!("ok {}", disc.max_file_size(entry(disc.files(), file)?)?))
        }
        "maxregion" => {
            let (offset, size) = (words.word()?, words.word()?);
            words.end()?;
            Ok(format!("ok {}", open(image)?.max_region_size(offset, size)))
        }
        "alloc" => {
            let (size, align) = (words.word()?, words.word()?);
            words.end()?;
            let region = open(image)?.allocate(size, align)?;
            Ok(format!("ok {} {}", region.offset, region.size))
        }
        "window" => {
            let (start, len) = (words.number()?, words.number()?);
            window(&mut Region::new(Cursor::new(image), start, len), words)
        }
        "filewindow" => {
            let file = words.number()?;
            let mut disc = open(image)?;
            let id = entry(disc.files(), file)?;
            window(&mut *disc.open_file(id)?, words)
        }
        "dol" => {
            words.end()?;
            let mut disc = open(image)?;
            let (header, mut region) = disc.open_dol()?;
            let len = region.seek(SeekFrom::End(0))?;
            region.seek(SeekFrom::Start(0))?;
            let mut bytes = vec![];
            region.read_to_end(&mut bytes)?;
            let (size, got) = (header.file_size(), bytes.len());
            Ok(format!("ok {size} {len} {got} {:016x}", fnv(&bytes)))
        }
        "dolwindow" => {
            let mut disc = open(image)?;
            let (_, mut region) = disc.open_dol()?;
            window(&mut *region, words)
        }
        _ => Err(Stop::Usage("no such command")),
    }
}

// Commands that edit ----------------------------------------------------------------------

const MAX_CLIP: u64 = 1 << 33;

/// So many zero bytes to be read, without memory for them.
struct Zeros {
    len: u64,
    at: u64,
}

impl Read for Zeros {
    fn read(&mut self, buf: &mut [u8]) -> io::Result<usize> {
        let count = (buf.len() as u64).min(self.len.saturating_sub(self.at));
        buf[..count as usize].fill(0);
        self.at += count;
        Ok(count as usize)
    }
}

impl Seek for Zeros {
    fn seek(&mut self, pos: SeekFrom) -> io::Result<u64> {
        let at = match pos {
            SeekFrom::Start(at) => Some(at),
            SeekFrom::Current(by) => self.at.checked_add_signed(by),
            SeekFrom::End(by) => self.len.checked_add_signed(by),
        };
        self.at = at.ok_or(io::ErrorKind::InvalidInput)?;
        Ok(self.at)
    }
}

fn edit(command: &str, mut words: Words, image: &mut Vec<u8>) -> Answer<String> {
    // All words are read before the image is opened, as the original's caller has them then.
    let target = if command == "rewrite" { 0 } else { words.number()? };
    let (mut name, mut number, mut size, mut bytes) = (String::new(), 0, 0, vec![]);
    let mut zeros = Zeros { len: 0, at: 0 };
    match command {
        "insert_file" | "insert_dir" | "mkdirs" => name = words.name()?,
        "move" | "resize" => number = words.word()?,
        "place" => (number, size) = (words.word()?, words.word()?),
        "replace" => bytes = words.bytes()?,
        "replace_zeros" => zeros.len = words.number()?,
        _ => (),
    }
    words.end()?;
    if zeros.len > MAX_CLIP {
        return Err(Stop::Usage("too long"));
    }

    if guard::tree_is_huge(image) {
        return Err(Stop::Huge);
    }
    let mut disc = DiscStream::open(Image::new(image))?;
    let id = entry(disc.files(), target)?;
    let made = match command {
        "insert_file" => {
            Some(disc.oracle_files_mut().insert(id, FileEntry::new(name, 0, 0).into())?)
        }
        "insert_dir" => Some(disc.oracle_files_mut().insert(id, DirectoryEntry::new(name).into())?),
        "mkdirs" => Some(disc.oracle_files_mut().make_directories_from(id, &name)?),
        _ => None,
    };
    match command {
        "move" => disc.move_file(id, number)?,
        "resize" => disc.resize_file(id, number)?,
        "place" => disc.move_and_resize_file(id, number, size)?,
        "replace" => disc.replace_file(id, Cursor::new(bytes))?,
        "replace_zeros" => disc.replace_file(id, zeros)?,
        _ => disc.commit_file_tree()?,
    }
    Ok(match made {
        Some(id) => format!("ok {}", number_of(disc.files(), id)),
        None => "ok".into(),
    })
}

// The current image -----------------------------------------------------------------------

#[derive(Default)]
struct State {
    image: Vec<u8>,
    saved: HashMap<String, Vec<u8>>,
}

const MAX_IMAGE: u64 = 1 << 33;

impl State {
    fn length(&self) -> Answer<String> {
        Ok(format!("ok {}", self.image.len()))
    }

    /// Commands on the bytes of the current image; the original has no part in them.
    fn bytes(&mut self, command: &str, mut words: Words) -> Answer<String> {
        match command {
            "image" => {
                let path = words.text()?;
                words.end()?;
                self.image = fs::read(path)?;
                self.length()
            }
            "dump" => {
                let path = words.text()?;
                words.end()?;
                fs::write(path, &self.image)?;
                self.length()
            }
            "size" => {
                let len = words.number()?;
                words.end()?;
                if len > MAX_IMAGE {
                    return Err(Stop::Usage("too long"));
                }
                self.image.resize(len as usize, 0);
                self.length()
            }
            "patch" => {
                let at = usize::try_from(words.number()?).unwrap_or(usize::MAX);
                let bytes = words.bytes()?;
                words.end()?;
                let end = at.saturating_add(bytes.len());
                let place = self.image.get_mut(at..end).ok_or(Stop::Usage("past the image"))?;
                place.copy_from_slice(&bytes);
                self.length()
            }
            "peek" => {
                let at = usize::try_from(words.number()?).unwrap_or(usize::MAX);
                let len = usize::try_from(words.number()?).unwrap_or(usize::MAX);
                words.end()?;
                let place = self.image.get(at..at.saturating_add(len));
                Ok(format!("ok {}", hex(place.ok_or(Stop::Usage("past the image"))?)))
            }
            "save" => {
                let name = words.text()?;
                words.end()?;
                self.saved.insert(name.into(), self.image.clone());
                self.length()
            }
            "load" => {
                let name = words.text()?;
                words.end()?;
                self.image.clone_from(self.saved.get(name).ok_or(Stop::Usage("not saved"))?);
                self.length()
            }
            "hash" => {
                words.end()?;
                Ok(format!("ok {:016x} {}", fnv(&self.image), self.image.len()))
            }
            _ => unreachable!(),
        }
    }

    fn answer(&mut self, line: &str) -> String {
        let mut words = Words(line.split_ascii_whitespace());
        let command = words.0.next().unwrap_or("");
        let (result, kept) = match command {
            "image" | "dump" | "size" | "patch" | "peek" | "save" | "load" | "hash" => {
                (Ok(self.bytes(command, words)), "")
            }
            "insert_file" | "insert_dir" | "mkdirs" | "move" | "resize" | "place" | "rewrite"
            | "replace" | "replace_zeros" => {
                let mut work = self.image.clone();
                let result = catch_unwind(AssertUnwindSafe(|| edit(command, words, &mut work)));
                let kept = if work == self.image { " same" } else { " changed" };
                if let Ok(Ok(_)) = result {
                    self.image = work;
                }
                (result, kept)
            }
            "codec" => (Ok(codec(words)), ""),
            _ => (catch_unwind(AssertUnwindSafe(|| look(command, words, &self.image))), ""),
        };
        match result {
            Ok(Ok(answer)) => answer,
            Ok(Err(Stop::Err(kind))) => format!("err {kind}{kept}"),
            Ok(Err(Stop::Skip)) => "skip".into(),
            Ok(Err(Stop::Huge)) => "huge".into(),
            Ok(Err(Stop::Usage(why))) => format!("usage {why}"),
            Err(_) => format!("panic{kept}"),
        }
    }
}

pub fn main() {
    let mut state = State::default();
    let mut input = BufReader::with_capacity(1 << 20, io::stdin().lock());
    let mut out = BufWriter::with_capacity(1 << 16, io::stdout().lock());
    let mut line = vec![];
    while input.read_until(b'\n', &mut line).is_ok_and(|length| length > 0) {
        let answer = match std::str::from_utf8(&line) {
            Ok(line) => state.answer(line),
            Err(_) => "usage not UTF-8".into(),
        };
        line.clear();
        // Whoever writes one command at a time waits for its answer, and whoever reads the answers
        // may have gone.
        let waited_for = !input.buffer().contains(&b'\n');
        let told = writeln!(out, "{answer}");
        if told.and_then(|()| if waited_for { out.flush() } else { Ok(()) }).is_err() {
            return;
        }
    }
    let _ = out.flush();
}
