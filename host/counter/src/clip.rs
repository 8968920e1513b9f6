//! The clip of a fill: given bytes, from a file, from standard input or out of another image. It is read
//! before the image is locked, so whoever is waited for keeps nobody out.

use crate::args::Args;
use crate::beside;
use crate::disc::{no_path, not_opened};
use crate::disk::{self, PART, parts};
use crate::failure::{DATA, Failure, INPUT_OUTPUT, NO_INPUT, Outcome};
use crate::image::{Desk, Image, cannot_open, regular, same_file};
use crate::names;
use crate::os::{self, Mapping};
use crate::progress::Progress;
use crate::text::{counted, grouped};
use crate::writer::Lent;
use counter_sys as counter;
use std::ffi::OsStr;
use std::fs::{self, File, Metadata};
use std::io::{self, Read, Seek};
use std::os::fd::AsFd;
use std::os::unix::ffi::OsStrExt;
use std::os::unix::fs::FileExt;
use std::path::{Path, PathBuf};

/// The longest clip that a file can hold.
const LONGEST: u64 = u32::MAX as u64;

pub struct Clip {
    /// How it is called in what the program says.
    pub name: String,
    file: File,
    /// Where in the file it begins.
    start: u64,
    pub len: u64,
    /// Whether it goes on: no file of the image can be that long, so the rest was not read.
    goes_on: bool,
    zeros: Mapping,
}

impl Clip {
    /// The clip that the command line names, for the file at `entry` of the image. One of no bytes must be
    /// meant, and one of another length than is expected is not taken.
    pub fn open(args: &Args, entry: &[u8], image: &Path) -> Outcome<Clip> {
        let clip = match &args.from {
            Some(from) => Clip::out_of(from, entry, image)?,
            None => Clip::read(&args.path(1), image)?,
        };
        let why = match args.size {
            Some(size) if clip.has(size.into()) => return Ok(clip),
            Some(size) => format!("--size says {}", grouped(size.into())),
            None if clip.len > 0 || args.empty => return Ok(clip),
            None => clip.why_empty(),
        };
        Err(not_begun(&clip.words(), DATA, &why))
    }

    /// The file at `path`, or standard input for `-`.
    fn read(path: &Path, image: &Path) -> Outcome<Clip> {
        let (name, file) = match path.as_os_str() == "-" {
            true => (STANDARD_INPUT.into(), io::stdin().as_fd().try_clone_to_owned()),
            false => (names::file(path), File::open(path).map(Into::into)),
        };
        let failed = |e: io::Error| cannot_open(Path::new(&name), &e);
        let file = File::from(file.map_err(failed)?);
        let told = file.metadata().map_err(failed)?;
        if told.is_dir() {
            return Err(Failure::error(NO_INPUT, format!("{name}: a folder, not a clip")));
        }
        let most = may_be_used(&name, path, &told, image)?.len().min(LONGEST);
        let (file, start, len, goes_on) = measured(file, &told, most).map_err(failed)?;
        Clip::of(name, file, start, len, goes_on)
    }

    /// A file of another image, which nobody edits as long as the clip is in use.
    fn out_of(from: &Path, entry: &[u8], image: &Path) -> Outcome<Clip> {
        let (path, entry) = other(from, entry)?;
        let name = format!("{}:{}", names::file(&path), names::text(&entry));
        may_be_used(&name, &path, &regular(&path, fs::metadata(&path))?, image)?;
        let other = Image::read(Some(&path))?;
        let mut desk = Desk::new();
        let failed = |e: io::Error| cannot_open(&path, &e);
        counter::open(other.bytes(), &mut desk.lend()).map_err(|n| not_opened(&other, n))?;
        let window = counter::lookup(other.bytes(), &mut desk.lend(), 0, &entry)
            .and_then(|found| counter::open_file(other.bytes(), &mut desk.lend(), found.number()))
            .map_err(|number| no_path(&other, &mut desk, number, &entry).about(&name))?;
        // It has the lock of the other image, and gives it back with the last of both.
        let file = other.file().ok_or_else(|| failed(io::ErrorKind::NotFound.into()))?;
        let file = file.try_clone().map_err(failed)?;
        Clip::of(name, file, window.start, window.length, false)
    }

    fn of(name: String, file: File, start: u64, len: u64, goes_on: bool) -> Outcome<Clip> {
        // Above the longest one as many bytes more as there may be make no difference.
        let zeros = Mapping::zeros(len.min(LONGEST + 1) as usize)
            .map_err(|e| cannot_open(Path::new(&name), &e))?;
        Ok(Clip { name, file, start, len, goes_on, zeros })
    }

    /// Whether it can have so many bytes.
    fn has(&self, size: u64) -> bool {
        self.len == size || self.goes_on && size > self.len
    }

    fn why_empty(&self) -> String {
        let pipe = match self.name == STANDARD_INPUT {
            true => " (did the command before the | fail?)",
            false => "",
        };
        format!("the clip is empty{pipe}; --empty says that this is meant")
    }

    /// What is told of its file.
    pub fn told(&self) -> Option<Metadata> {
        self.file.metadata().ok()
    }

    pub fn words(&self) -> String {
        let (more, len) = match self.goes_on {
            true => ("more than ", self.len - 1),
            false => ("", self.len),
        };
        format!("{} ({more}{})", self.name, counted(len as usize, "byte", "bytes"))
    }

    /// As many zeros: what an edit is tried with, since the library never looks at the clip.
    pub fn zeros(&self) -> &[u8] {
        self.zeros.bytes()
    }

    /// Whether these are its bytes.
    pub fn is(&self, bytes: &[u8]) -> Outcome<bool> {
        if bytes.len() as u64 != self.len {
            return Ok(false);
        }
        let mut part = vec![0; PART as usize];
        for (at, len) in parts(0..self.len) {
            self.file
                .read_exact_at(&mut part[..len], self.start + at)
                .map_err(|e| not_begun(&self.name, INPUT_OUTPUT, &reason(&e)))?;
            if part[..len] != bytes[at as usize..][..len] {
                return Ok(false);
            }
        }
        Ok(true)
    }

    /// Whether its bytes lie at a place of the file.
    pub fn is_in(&self, file: &File, at: u64) -> io::Result<bool> {
        let (mut own, mut other) = (vec![0; PART as usize], vec![0; PART as usize]);
        for (start, len) in parts(0..self.len) {
            self.file.read_exact_at(&mut own[..len], self.start + start)?;
            file.read_exact_at(&mut other[..len], at + start)?;
            if own[..len] != other[..len] {
                return Ok(false);
            }
        }
        Ok(true)
    }

    /// The file that it is in, for the program that writes it.
    pub fn lend(&self) -> Outcome<Lent> {
        Lent::new(&self.file).map_err(|e| not_begun(&self.name, INPUT_OUTPUT, &e.to_string()))
    }

    /// Where in the file it begins.
    pub fn start(&self) -> u64 {
        self.start
    }
}

/// How standard input is called.
const STANDARD_INPUT: &str = "standard input";

/// That the file has no other use in the edit; the answer is what is told of the image. The image cannot be
/// filled with itself, and its journal is written while the clip is read.
fn may_be_used(name: &str, path: &Path, told: &Metadata, image: &Path) -> Outcome<Metadata> {
    let target = regular(image, fs::metadata(image))?;
    if same_file(told, &target) {
        return Err(Failure::usage(format!("{name}: the image cannot be filled with itself")));
    }
    let image = fs::canonicalize(image).unwrap_or(image.to_path_buf());
    let journal = fs::metadata(beside::beside(&image));
    let is_journal = journal.is_ok_and(|journal| same_file(&journal, told));
    match beside::is_ours(path) || is_journal {
        true => Err(Failure::usage(format!("{name}: this is {}; give it another", beside::OURS))),
        false => Ok(target),
    }
}

/// The other image, and the path in it: no name in an image has a `:`, and one of the system may.
fn other(from: &Path, entry: &[u8]) -> Outcome<(PathBuf, Vec<u8>)> {
    let bytes = from.as_os_str().as_bytes();
    match bytes.iter().rposition(|&b| b == b':') {
        Some(at) if fs::symlink_metadata(from).is_err() => {
            let entry = names::taken(&bytes[at + 1..]).map_err(Failure::usage)?;
            Ok((PathBuf::from(OsStr::from_bytes(&bytes[..at])), entry))
        }
        _ => Ok((from.to_path_buf(), entry.to_vec())),
    }
}

fn not_begun(name: &str, status: u8, why: &str) -> Failure {
    Failure::error(status, format!("{name}: {why}; nothing was written"))
}

fn reason(why: &io::Error) -> String {
    match why.kind() {
        io::ErrorKind::UnexpectedEof => "it became shorter meanwhile".into(),
        _ => disk::reason(why),
    }
}

/// Where a clip begins in its file, how long it is, and whether it goes on. What cannot be read twice is
/// kept in memory, up to a byte more than a file of the image can have.
fn measured(mut file: File, told: &Metadata, most: u64) -> io::Result<(File, u64, u64, bool)> {
    // A file that the system makes up while it is read has no length.
    if told.is_file() && told.len() > 0 {
        let start = file.stream_position()?;
        let len = told.len().saturating_sub(start);
        return Ok((file, start, len, false));
    }
    let _progress = Progress::start("reading", 0);
    let mut memory = os::memory()?;
    let len = io::copy(&mut file.take(most + 1), &mut memory)?;
    Ok((memory, 0, len, len > most))
}
