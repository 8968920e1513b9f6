//! The journal beside an image, which is counter-write's: whether an edit was cut, and what people should know of
//! that edit. It is only read here. What the program writes in it for itself stands in docs/DISK.md; behind the
//! path of the record's file it keeps a note, which is ours.

use crate::json::Json;
use crate::names;
use crate::sha256::{self, Sha256, Sum, hex};
use crate::text::one_line;
use crate::value::Value;
use counter_sys::HEADER_SIZE;
use std::ffi::OsString;
use std::fs::{self, File, Metadata};
use std::io;
use std::os::unix::ffi::{OsStrExt, OsStringExt};
use std::os::unix::fs::{FileExt, MetadataExt};
use std::path::{Path, PathBuf};

/// What a journal of a version before begins with.
const OLD: &[u8; 16] = b"counter journal\n";

/// Bytes of a journal's head, which the header of its image ends, and the longest text of a record behind it.
const HEAD: usize = 1266;
const HEADER_AT: usize = HEAD - HEADER_SIZE;
const LONGEST_RECORD: u64 = 0x1000;
/// No note is longer: two paths, and a few numbers.
const LONGEST_NOTE: u64 = 1 << 20;

/// Most bytes of a sheet's file, above those that 1,024 lines can want.
pub const LONGEST_SHEET: u64 = 16 << 20;

// Its name --------------------------------------------------------------------------------

/// The name of the journal of the image at `path`, which is no link.
pub fn beside(path: &Path) -> PathBuf {
    let mut name = path.as_os_str().to_os_string();
    name.push(END);
    PathBuf::from(name)
}

const END: &str = ".counter-journal";

/// Whether a file of this name, or the one that it leads to, can be the journal of an image.
pub fn is_ours(path: &Path) -> bool {
    let ours =
        |path: &Path| path.file_name().unwrap_or_default().as_bytes().ends_with(END.as_bytes());
    ours(path) || fs::canonicalize(path).is_ok_and(|path| ours(&path))
}

/// What is said of it.
pub const OURS: &str = "a name that a journal has";

/// What the disk tells of the journal's name. An error says that nobody knows whether there is one.
fn told(path: &Path) -> io::Result<Option<Metadata>> {
    match fs::symlink_metadata(path) {
        // A name too long for a journal has none.
        Err(e) if matches!(e.kind(), io::ErrorKind::NotFound | io::ErrorKind::InvalidFilename) => {
            Ok(None)
        }
        told => told.map(Some),
    }
}

// What is there ---------------------------------------------------------------------------

pub enum Beside {
    /// No journal, or one that is closed: no edit was cut.
    Nothing,
    /// No file: it was never a journal.
    InTheWay,
    /// The journal of a version before.
    Old,
    /// That of an edit that was cut.
    Cut(Box<Journal>),
}

/// A journal, as its program reads it.
pub struct Journal {
    /// What the image was called by the system, how long it was, and its header.
    number: u64,
    len: u64,
    header: Vec<u8>,
    /// The record that goes with the edit: its file, and the text that it gets.
    pub record: Option<(PathBuf, Vec<u8>)>,
    pub note: Note,
}

/// What is beside the image.
pub fn look(image: &Path) -> io::Result<Beside> {
    let path = beside(image);
    match told(&path)? {
        None => Ok(Beside::Nothing),
        Some(told) if !told.is_file() => Ok(Beside::InTheWay),
        Some(_) => opened(&path),
    }
}

fn opened(path: &Path) -> io::Result<Beside> {
    let file = File::open(path)?;
    let mut head = vec![0; HEAD];
    let got = read_up_to(&file, 0, &mut head)?;
    if head[..got].starts_with(OLD) {
        return Ok(Beside::Old);
    }
    match got == HEAD && head[0] == 1 {
        true => Ok(Beside::Cut(Box::new(Journal::read(&file, &head)?))),
        false => Ok(Beside::Nothing),
    }
}

/// As many bytes as there are.
fn read_up_to(file: &File, at: u64, bytes: &mut [u8]) -> io::Result<usize> {
    let mut got = 0;
    while got < bytes.len() {
        match file.read_at(&mut bytes[got..], at + got as u64) {
            Ok(0) => break,
            Ok(more) => got += more,
            Err(e) if e.kind() == io::ErrorKind::Interrupted => {}
            Err(e) => return Err(e),
        }
    }
    Ok(got)
}

impl Journal {
    fn read(file: &File, head: &[u8]) -> io::Result<Journal> {
        let number =
            |at: usize| u64::from_be_bytes(head[at..at + 8].try_into().expect("eight bytes"));
        let part = |at: u64, len: u64| {
            let mut bytes = vec![0; len as usize];
            let got = read_up_to(file, at, &mut bytes)?;
            bytes.truncate(got);
            io::Result::Ok(bytes)
        };
        let text = number(18).saturating_sub(1).min(LONGEST_RECORD);
        let note = part(HEAD as u64 + text, number(26).min(LONGEST_NOTE))?;
        let (path, note) = parted(&note).unwrap_or_default();
        let record = match path {
            _ if number(18) == 0 => None,
            // It is of no use, and the program says so.
            [] => None,
            path => Some((OsString::from_vec(path.to_vec()).into(), part(HEAD as u64, text)?)),
        };
        Ok(Journal {
            number: number(10),
            len: number(2),
            header: head[HEADER_AT..].to_vec(),
            record,
            note: Note::read(note),
        })
    }

    /// Whether it is that of this image, but perhaps for the number of its file.
    pub fn fits(&self, image: &[u8]) -> bool {
        // All but the two words that edits write.
        let same = |from: usize, to: usize| image.get(from..to) == self.header.get(from..to);
        self.len == image.len() as u64 && same(0, 0x428) && same(0x430, HEADER_SIZE)
    }

    /// Whether it is that of a file of this number.
    pub fn is_of(&self, told: &Metadata) -> bool {
        self.number == told.ino()
    }
}

/// The path of the record's file, and what stands behind it.
fn parted(note: &[u8]) -> Option<(&[u8], &[u8])> {
    let (len, rest) = note.split_first_chunk()?;
    rest.split_at_checked(u32::from_be_bytes(*len) as usize)
}

/// Whether an edit of the image was cut. A journal that cannot be read may be of one.
pub fn is_cut(image: &Path) -> bool {
    let path = beside(image);
    let is_file = matches!(told(&path), Ok(Some(told)) if told.is_file());
    is_file && !matches!(opened(&path), Ok(Beside::Nothing))
}

/// Why nobody knows whether an edit of the image was cut, where the disk does not tell. A folder that may
/// not be looked into holds an image that was reached by other ways, and no edit of it could begin.
pub fn untold(image: &Path) -> Option<io::Error> {
    told(&beside(image)).err().filter(|e| e.kind() != io::ErrorKind::PermissionDenied)
}

/// The edit that was cut, in words.
pub fn words(image: &Path) -> Option<String> {
    match look(image) {
        Ok(Beside::Cut(journal)) => Some(journal.note.words()),
        _ => None,
    }
}

/// The line of a sheet that was cut.
pub fn line(image: &Path) -> Option<Line> {
    match look(image) {
        Ok(Beside::Cut(journal)) => journal.note.line,
        _ => None,
    }
}

// Its note --------------------------------------------------------------------------------

/// What people should know of an edit that was cut.
#[derive(Debug, Clone, Default, PartialEq, Eq)]
pub struct Note {
    /// The edit in words; none where the note is not ours.
    pub edit: Option<String>,
    /// Whether it states another FST maximum, which counts in no record.
    pub maximum: bool,
    /// The team that it goes by.
    pub team: u32,
    /// The sum of the record's text before the edit, where one goes with it; zeros where there was no file.
    pub old: Option<Sum>,
    pub line: Option<Line>,
}

/// The line of a sheet whose edit it is, of how many, where the sheet was, and the sum of its bytes, by
/// which it is known.
#[derive(Debug, Clone, PartialEq, Eq)]
pub struct Line {
    pub number: u32,
    pub of: u32,
    pub sheet: PathBuf,
    pub sum: Sum,
}

/// What is now where a line's sheet was.
#[derive(Debug, Clone, Copy, PartialEq, Eq)]
pub enum Now {
    Same,
    Another,
    Gone,
    /// It came through a pipe, or under a name that says nothing to another program.
    Nowhere,
}

impl Note {
    pub fn written(&self) -> Vec<u8> {
        let line = self.line.as_ref().map(|line| {
            Json::Object(vec![
                ("number", line.number.into()),
                ("of", line.of.into()),
                ("sheet", hex(line.sheet.as_os_str().as_bytes()).into()),
                ("sum", hex(&line.sum).into()),
            ])
        });
        let note = Json::Object(vec![
            ("edit", self.edit.clone().into()),
            ("maximum", self.maximum.into()),
            ("team", self.team.into()),
            ("old", self.old.as_ref().map(|sum| hex(sum)).into()),
            ("line", line.into()),
        ]);
        note.document().into_bytes()
    }

    /// One that is not ours says nothing.
    pub fn read(bytes: &[u8]) -> Note {
        Note::found(bytes).unwrap_or_default()
    }

    fn found(bytes: &[u8]) -> Option<Note> {
        let note = Value::read(std::str::from_utf8(bytes).ok()?)?;
        let line = match note.get("line")? {
            Value::Null => None,
            line => Some(Line::found(line)?),
        };
        Some(Note {
            // Whoever wrote them, people are to read them.
            edit: Some(one_line(note.get("edit")?.text()?)),
            maximum: note.get("maximum")?.flag()?,
            team: note.get("team")?.number()?.try_into().ok()?,
            old: match note.get("old")? {
                Value::Null => None,
                sum => Some(sum.sum()?),
            },
            line,
        })
    }

    /// The edit in words, and where it belongs to.
    pub fn words(&self) -> String {
        let words = self.edit.as_deref().unwrap_or("an edit of which nothing more is told");
        match &self.line {
            Some(line) => format!("{}: {words}", line.words()),
            None => words.into(),
        }
    }
}

/// Whether the name is another file's to each program.
pub fn is_of_a_run(path: &Path) -> bool {
    ["/proc", "/dev/fd", "/dev/stdin"].iter().any(|name| path.starts_with(name))
}

impl Line {
    fn found(line: &Value) -> Option<Line> {
        let number = |name: &str| u32::try_from(line.get(name)?.number()?).ok();
        let (number, of) = (number("number")?, number("of")?);
        let sheet = OsString::from_vec(line.get("sheet")?.bytes()?).into();
        let sum = line.get("sum")?.sum()?;
        (1..=of).contains(&number).then_some(Line { number, of, sheet, sum })
    }

    /// The line in words, before those of its edit.
    pub fn words(&self) -> String {
        let (file, line) =
            (names::file(&self.sheet), format!("line {} of {}", self.number, self.of));
        match self.now() {
            Now::Another => format!("{line} of another sheet that was at {file}"),
            _ => format!("{file}, {line}"),
        }
    }

    pub fn now(&self) -> Now {
        match fs::metadata(&self.sheet) {
            _ if is_of_a_run(&self.sheet) => Now::Nowhere,
            Ok(told) if told.is_file() => match told.len() <= LONGEST_SHEET && self.is_there() {
                true => Now::Same,
                false => Now::Another,
            },
            Ok(told) if !told.is_dir() => Now::Nowhere,
            _ => Now::Gone,
        }
    }

    fn is_there(&self) -> bool {
        fs::read(&self.sheet).is_ok_and(|bytes| sum_of(&bytes) == self.sum)
    }
}

/// The sum of a sheet's bytes, or of a record's text.
pub fn sum_of(bytes: &[u8]) -> sha256::Sum {
    let mut sum = Sha256::new();
    sum.update(bytes);
    sum.finish()
}

#[cfg(test)]
mod tests {
    use super::*;

    fn note() -> Note {
        let sheet = OsString::from_vec(b"/day \xFF.sheet".to_vec()).into();
        Note {
            edit: Some("move \"/a\" to 0x600 漢".into()),
            maximum: false,
            team: 7,
            old: Some(sum_of(b"counter record 1\n")),
            line: Some(Line { number: 2, of: 3, sheet, sum: sum_of(b"sheet") }),
        }
    }

    #[test]
    fn a_note_reads_back() {
        let more = note();
        let less = Note { old: None, line: None, maximum: true, team: 0, ..note() };
        for note in [more, less] {
            assert_eq!(Note::read(&note.written()), note);
        }
        for other in [&b""[..], b"{}", b"\xFF", b"{\"edit\":1}"] {
            assert_eq!(Note::read(other), Note::default());
        }
        assert_eq!(Note::default().words(), "an edit of which nothing more is told");
    }

    #[test]
    fn a_journal_is_read() {
        let (text, path) = (b"counter record 1\n..", b"/disc.totals");
        let note = [&12u32.to_be_bytes()[..], path, &note().written()].concat();
        let mut journal = vec![0; HEAD];
        let header: Vec<u8> = (0..HEADER_SIZE).map(|i| i as u8).collect();
        let numbers = [(2, 0x2000), (10, 77), (18, text.len() as u64 + 1), (26, note.len() as u64)];
        for (at, number) in numbers {
            journal[at..at + 8].copy_from_slice(&u64::to_be_bytes(number));
        }
        journal[HEADER_AT..].copy_from_slice(&header);
        journal.extend([&text[..], &note, b"table"].concat());
        let folder = std::env::temp_dir().join(format!("counter-beside-{}", std::process::id()));
        fs::create_dir(&folder).unwrap();
        let image = folder.join("disc.iso");
        assert!(matches!(look(&image), Ok(Beside::Nothing)));
        let put = |bytes: &[u8]| fs::write(beside(&image), bytes).unwrap();
        // A gate that is closed, and one without a whole head behind it.
        put(&journal);
        assert!(matches!(look(&image), Ok(Beside::Nothing)));
        journal[0] = 1;
        put(&journal[..HEAD - 1]);
        assert!(matches!(look(&image), Ok(Beside::Nothing)));
        put(&journal);
        let Ok(Beside::Cut(found)) = look(&image) else { panic!("no edit was cut") };
        assert_eq!(found.record, Some(("/disc.totals".into(), text.to_vec())));
        assert_eq!(found.note, super::tests::note());
        let mut bytes = [&header[..], &vec![0; 0x2000 - HEADER_SIZE]].concat();
        assert!(found.fits(&bytes) && !found.fits(&bytes[1..]));
        bytes[0x428..0x430].fill(9);
        assert!(found.fits(&bytes));
        bytes[0x430] += 1;
        assert!(!found.fits(&bytes));
        put(b"counter journal\n and more");
        assert!(matches!(look(&image), Ok(Beside::Old)));
        fs::remove_file(beside(&image)).unwrap();
        fs::create_dir(beside(&image)).unwrap();
        assert!(matches!(look(&image), Ok(Beside::InTheWay)));
        fs::remove_dir_all(folder).unwrap();
    }
}
