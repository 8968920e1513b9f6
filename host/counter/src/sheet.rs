//! An edit sheet: a list of edits in one piece of bytes. Whether bytes are one the library tells; which lines
//! they have is read here, to be told and to be run one by one, and held to what it tells.

use crate::beside::{self, LONGEST_SHEET};
use crate::failure::{DATA, Failure, INTERNAL, NO_INPUT, Outcome};
use crate::image::cannot_open;
use crate::names;
use crate::sha256::Sum;
use crate::text::{counted, grouped};
use counter_sys::{
    self as counter, MOST_LINES, Memory, Record, SHEET_HEADER_SIZE, SHEET_LINE_SIZE, Stopped,
    TEAMS, Team,
};
use std::fs::{self, File};
use std::io::Read;
use std::path::{Path, PathBuf};

// Its lines -------------------------------------------------------------------------------

#[derive(Debug, Clone, Copy, PartialEq, Eq)]
pub enum Kind {
    /// One folder, whose parent is there.
    MakeFolder,
    Add,
    Move(u32),
    Resize(u32),
}

/// As the commands of the same names, in the order of the kinds' numbers.
pub const NAMES: [&str; 4] = ["mkdir", "add", "move", "resize"];

impl Kind {
    /// Its number, the new offset and the new size.
    fn numbers(self) -> [u32; 3] {
        match self {
            Kind::MakeFolder => [1, 0, 0],
            Kind::Add => [2, 0, 0],
            Kind::Move(offset) => [3, offset, 0],
            Kind::Resize(size) => [4, 0, size],
        }
    }

    pub fn name(self) -> &'static str {
        NAMES[self.numbers()[0] as usize - 1]
    }
}

#[derive(Debug, Clone, PartialEq, Eq)]
pub struct Line {
    pub kind: Kind,
    /// As the image has it.
    pub path: Vec<u8>,
}

/// A sheet of these lines: header, lines, and the paths in turn, each ended by a zero byte.
pub fn written(lines: &[Line]) -> Vec<u8> {
    let texts: Vec<u8> = lines.iter().flat_map(|line| [&line.path[..], b"\0"].concat()).collect();
    let (header, behind) = (SHEET_HEADER_SIZE, SHEET_HEADER_SIZE + SHEET_LINE_SIZE * lines.len());
    let mut words: Vec<u32> =
        [lines.len(), header, behind, texts.len()].map(|number| number as u32).into();
    let mut at = 0;
    for line in lines {
        let [kind, offset, size] = line.kind.numbers();
        words.extend([kind, at, offset, size]);
        at += line.path.len() as u32 + 1;
    }
    words.into_iter().flat_map(u32::to_be_bytes).chain(texts).collect()
}

// A file of one ---------------------------------------------------------------------------

pub struct Sheet {
    /// As it was given, and where it lies after every link.
    pub file: PathBuf,
    pub place: PathBuf,
    pub sum: Sum,
    bytes: Vec<u8>,
    /// Of each line the kind, and where in the bytes its path begins.
    lines: Vec<(Kind, usize)>,
}

impl Sheet {
    /// The sheet in the file, checked whole: 30, and what is wrong with it.
    pub fn read(file: &Path) -> Outcome<Sheet> {
        if fs::metadata(file).is_ok_and(|told| told.is_dir()) {
            let text = format!("{}: a folder, not a sheet", names::file(file));
            return Err(Failure::error(NO_INPUT, text));
        }
        let mut bytes = Vec::new();
        File::open(file)
            .and_then(|file| file.take(LONGEST_SHEET + 1).read_to_end(&mut bytes))
            .map_err(|e| cannot_open(file, &e))?;
        if bytes.len() as u64 > LONGEST_SHEET {
            let text = format!("{}: no sheet has more than 16 MiB", names::file(file));
            return Err(Failure::error(DATA, text));
        }
        let name = names::file(file);
        let lines = match (judged(&bytes), lines(&bytes)) {
            (Ok(()), Ok(lines)) => lines,
            (Err(30), Err(why)) => return Err(none(&name, &bytes, why)),
            _ => return Err(disagreed(&name)),
        };
        // One that is read from a pipe has no place.
        let place = fs::canonicalize(file).unwrap_or(file.to_path_buf());
        let sum = beside::sum_of(&bytes);
        Ok(Sheet { file: file.to_path_buf(), place, sum, bytes, lines })
    }

    /// The name under which another program finds it, if there is one.
    pub fn named(&self) -> Option<&Path> {
        let is_file = |path: &Path| fs::metadata(path).is_ok_and(|told| told.is_file());
        let mut names = [&self.file, &self.place].map(PathBuf::as_path).into_iter();
        names.find(|path| !beside::is_of_a_run(path) && is_file(path))
    }

    /// How many lines it has.
    pub fn count(&self) -> u32 {
        self.lines.len() as u32
    }

    /// Line `n`, from 1 on.
    pub fn line(&self, n: u32) -> Line {
        let (kind, at) = self.lines[n as usize - 1];
        let path = self.bytes[at..].split(|&b| b == 0).next().unwrap_or_default();
        Line { kind, path: path.to_vec() }
    }

    pub fn lines(&self) -> impl Iterator<Item = Line> {
        (1..=self.count()).map(|n| self.line(n))
    }
}

/// That bytes which were written here are a sheet of these lines.
pub fn holds(bytes: &[u8], lines: &[Line]) -> Outcome<()> {
    let sheet = Sheet {
        file: PathBuf::new(),
        place: PathBuf::new(),
        sum: Sum::default(),
        bytes: bytes.to_vec(),
        lines: self::lines(bytes).unwrap_or_default(),
    };
    match judged(bytes).is_ok() && sheet.lines().eq(lines.iter().cloned()) {
        true => Ok(()),
        false => Err(Failure::error(INTERNAL, "a sheet that was compiled does not read back")),
    }
}

/// Whether bytes are a sheet.
pub fn is_one(bytes: &[u8]) -> bool {
    lines(bytes).is_ok()
}

/// What the library answers of the bytes: a sheet is checked before anything else, so of no image at all the
/// answer is 30, or what opening says of that.
fn judged(bytes: &[u8]) -> Result<(), u32> {
    const NO_IMAGE: u32 = 1;
    let mut memory = Memory { words: &mut [], bytes: &mut [] };
    let mut record = Record { used: 0, largest: 0, teams: [Team::default(); TEAMS] };
    match counter::sheet(&mut [], &mut memory, &mut record, 0, bytes) {
        Err(Stopped { number: NO_IMAGE, line: 0 }) => Ok(()),
        Err(Stopped { number, line: 0 }) => Err(number),
        _ => Err(0),
    }
}

fn disagreed(name: &str) -> Failure {
    let text = format!("{name}: libcounter reads this sheet otherwise than the program");
    Failure::error(INTERNAL, text)
}

// What is wrong ---------------------------------------------------------------------------

fn none(name: &str, bytes: &[u8], why: String) -> Failure {
    let text = match is_text(bytes) {
        true => {
            "; it looks like the text of one, of which `counter sheet --compile TEXT FILE` makes a sheet"
        }
        false => "",
    };
    Failure::refused(30, name).because(why + text)
}

/// Whether people may have written it.
fn is_text(bytes: &[u8]) -> bool {
    let is_read = |b: &u8| *b >= b' ' || b.is_ascii_whitespace();
    !bytes.is_empty() && bytes.iter().all(is_read)
}

/// The lines of a sheet, each with where in the bytes its path begins; or what is wrong first.
fn lines(bytes: &[u8]) -> Result<Vec<(Kind, usize)>, String> {
    let len = bytes.len();
    if len < SHEET_HEADER_SIZE {
        let has = counted(len, "byte", "bytes");
        return Err(format!("it has {has}, and a sheet's header alone has {SHEET_HEADER_SIZE}"));
    }
    let [count, lines_at, texts_at, texts_len] = words(bytes, 0).map(|word| word as usize);
    if count > MOST_LINES {
        let [states, most] = [count, MOST_LINES].map(|number| grouped(number as u64));
        return Err(format!("its header states {states} lines, and {most} are the most"));
    }
    let past = |what: &str, end: usize| {
        Err(format!("its {what} would end at {end:#x}, and it ends at {len:#x}"))
    };
    let lines_end = lines_at + SHEET_LINE_SIZE * count;
    if lines_end > len {
        return past("lines", lines_end);
    }
    if texts_at + texts_len > len {
        return past("texts", texts_at + texts_len);
    }
    let texts = &bytes[texts_at..][..texts_len];
    // From here on no path is ended.
    let ended = texts.iter().rposition(|&b| b == 0).map_or(0, |last| last + 1);
    let line = |k: usize| {
        let [kind, path, offset, size] = words(bytes, lines_at + SHEET_LINE_SIZE * k);
        let path = path as usize;
        let kind = kind_of(kind, offset, size)?;
        match path < ended {
            true => Ok((kind, texts_at + path)),
            false => Err(format!(
                "its path begins at {path:#x} of the texts, which have {}, and no zero byte there ends it",
                counted(texts_len, "byte", "bytes")
            )),
        }
    };
    (0..count).map(|k| line(k).map_err(|why| format!("line {}: {why}", k + 1))).collect()
}

fn kind_of(kind: u32, offset: u32, size: u32) -> Result<Kind, String> {
    let found = match kind {
        1 => Kind::MakeFolder,
        2 => Kind::Add,
        3 => Kind::Move(offset),
        4 => Kind::Resize(size),
        _ => return Err(format!("its kind is {kind}, and they go from 1 to 4")),
    };
    let [_, own_offset, own_size] = found.numbers();
    let field = match (offset == own_offset, size == own_size) {
        (true, true) => return Ok(found),
        (false, _) => format!("offset is {offset:#x}"),
        (_, false) => format!("size is {}", grouped(size.into())),
    };
    Err(format!("its kind is {kind} ({}), and its new {field}, where 0 is wanted", found.name()))
}

/// Four numbers, the highest byte first.
fn words(bytes: &[u8], at: usize) -> [u32; 4] {
    std::array::from_fn(|i| {
        let word = bytes[at + 4 * i..].first_chunk().expect("its end was looked at");
        u32::from_be_bytes(*word)
    })
}
