//! An image: a file that is locked and mapped, one in memory alone, or the built-in small master.

use crate::beside;
use crate::disk::{self, On};
use crate::failure::{BUSY, CUT, Failure, INPUT_OUTPUT, NO_INPUT, NOT_ALLOWED, Outcome};
use crate::names;
use crate::os::{self, Access, Mapping};
use counter_sys::{MOST_TABLE, MOST_WORDS, Memory};
use std::fs::{self, File, Metadata, OpenOptions, TryLockError};
use std::io;
use std::ops::Range;
use std::os::fd::AsFd;
use std::os::unix::fs::{MetadataExt, OpenOptionsExt, PermissionsExt};
use std::path::{Path, PathBuf};
use std::slice;
use std::sync::atomic::{AtomicBool, Ordering};

/// How an image without a file is called in what the program says.
pub const BUILT_IN: &str = "built-in small master";

/// One file `a` of 0x100 bytes at 0x500, the table at 0x440.
const SMALL_MASTER: &[u8; 0x2000] = include_bytes!("../../../crates/list/stdin");

enum Bytes {
    Mapped { file: File, mapping: Mapping },
    Blank(Mapping),
    BuiltIn(Vec<u8>),
}

pub struct Image {
    pub name: String,
    /// Where the file lies, after every link.
    path: Option<PathBuf>,
    bytes: Bytes,
}

static AS_IS: AtomicBool = AtomicBool::new(false);
static KNOWS_AS_IS: AtomicBool = AtomicBool::new(false);

/// Whether an image is read although an edit of it was cut, and whether the command knows that option.
pub fn as_is(wanted: bool, known: bool) {
    AS_IS.store(wanted, Ordering::SeqCst);
    KNOWS_AS_IS.store(known, Ordering::SeqCst);
}

impl Image {
    /// The file at `path`, or without one the built-in small master.
    pub fn read(path: Option<&Path>) -> Outcome<Image> {
        let Some(path) = path else {
            let bytes = Bytes::BuiltIn(SMALL_MASTER.to_vec());
            return Ok(Image { name: BUILT_IN.into(), path: None, bytes });
        };
        Image::whole(path, Access::Read)
    }

    /// The file at `path`, to try an edit on: what is written to it stays in memory.
    pub fn dry(path: &Path) -> Outcome<Image> {
        Image::whole(path, Access::Private)
    }

    fn whole(path: &Path, access: Access) -> Outcome<Image> {
        let file = open(path)?;
        not_the_output(path, &file)?;
        lock(path, &file, Lock::Shared)?;
        let image = Image::map(path, file, access)?;
        if AS_IS.load(Ordering::SeqCst) {
            return Ok(image);
        }
        let place = image.path().unwrap_or(path);
        match beside::untold(place) {
            Some(why) => Err(untold(place, &why)),
            None if image.is_cut() => Err(unfinished(place)),
            None => Ok(image),
        }
    }

    /// Whether an edit of it was cut: its journal is there.
    pub fn is_cut(&self) -> bool {
        self.path.as_deref().is_some_and(beside::is_cut)
    }

    /// The file at `path`, which another program is to edit: that one locks it, and deals with a journal. What
    /// is written to it here stays in memory.
    pub fn edit(path: &Path) -> Outcome<Image> {
        may_be_written(path)?;
        let file = open(path)?;
        not_the_output(path, &file)?;
        Image::map(path, file, Access::Private)
    }

    /// An image of zeros in memory. What is written behind the first `kept` bytes takes none, and is lost.
    pub fn blank(path: &Path, len: usize, kept: usize) -> Outcome<Image> {
        let behind = kept.min(len)..len;
        let made = Mapping::blank(len)
            .and_then(|mut mapping| mapping.stand_in(slice::from_ref(&behind)).map(|()| mapping));
        let mapping = made.map_err(|e| Failure::file(INPUT_OUTPUT, path, &e))?;
        Ok(Image { name: names::file(path), path: None, bytes: Bytes::Blank(mapping) })
    }

    /// A new file that nobody else knows yet, to be written to.
    pub fn fresh(path: &Path, file: File) -> Outcome<Image> {
        let mapping = mapped(path, &file, Access::Shared)?;
        Ok(Image { name: names::file(path), path: None, bytes: Bytes::Mapped { file, mapping } })
    }

    fn map(path: &Path, file: File, access: Access) -> Outcome<Image> {
        let mapping = mapped(path, &file, access)?;
        // A file without a name (of a descriptor) can be read; a journal finds no place beside it.
        let place = fs::canonicalize(path).unwrap_or(path.to_path_buf());
        let name = names::file(path);
        Ok(Image { name, path: Some(place), bytes: Bytes::Mapped { file, mapping } })
    }

    /// The same file to try an edit on: what is written stays in memory. The bytes of `spans` are none of the
    /// file's, so that copying them takes no memory. Of an image that is one for trials itself, `tried` is
    /// taken along, and nothing else that was written to it.
    pub fn trial(&self, spans: &[Range<u64>], tried: &[Range<usize>]) -> Outcome<Image> {
        let Bytes::Mapped { file, mapping: from } = &self.bytes else {
            let bytes = Bytes::BuiltIn(self.bytes().to_vec());
            return Ok(Image { name: self.name.clone(), path: None, bytes });
        };
        let path = Path::new(&self.name);
        let failed = |e: io::Error| Failure::file(INPUT_OUTPUT, path, &e);
        let file = file.try_clone().map_err(failed)?;
        let mut mapping = mapped(path, &file, Access::Private)?;
        let spans: Vec<_> =
            spans.iter().map(|span| span.start as usize..span.end as usize).collect();
        mapping.stand_in(&spans).map_err(failed)?;
        if from.is_private() {
            for span in tried {
                mapping.bytes_mut()[span.clone()].copy_from_slice(&from.bytes()[span.clone()]);
            }
        }
        let bytes = Bytes::Mapped { file, mapping };
        Ok(Image { name: self.name.clone(), path: self.path.clone(), bytes })
    }

    /// Lets small memory stand in for parts of an image that is written in memory only, as for a trial.
    pub fn stand_in(&mut self, spans: &[Range<u64>]) -> Outcome<()> {
        let Bytes::Mapped { mapping, .. } = &mut self.bytes else { return Ok(()) };
        let spans: Vec<_> =
            spans.iter().map(|span| span.start as usize..span.end as usize).collect();
        let failed = |e: io::Error| Failure::file(INPUT_OUTPUT, Path::new(&self.name), &e);
        mapping.stand_in(&spans).map_err(failed)
    }

    /// Does something while nobody edits it.
    pub fn while_still<T>(&self, work: impl FnOnce() -> T) -> Outcome<T> {
        let Some(file) = self.file() else { return Ok(work()) };
        let path = Path::new(&self.name);
        lock(path, file, Lock::Shared)?;
        let done = work();
        let _ = file.unlock();
        Ok(done)
    }

    /// Another program uses it: that is told, or waited for if that is wanted.
    pub fn wait_for_others(&self) -> Outcome<()> {
        let Some(file) = self.file() else { return Ok(()) };
        let path = Path::new(&self.name);
        if !WAIT.load(Ordering::Relaxed) {
            return Err(busy(path, Lock::Alone));
        }
        wait(path, file, Lock::Alone)
            .and_then(|()| file.unlock())
            .map_err(|e| Failure::file(INPUT_OUTPUT, path, &e))
    }

    pub fn path(&self) -> Option<&Path> {
        self.path.as_deref()
    }

    pub fn bytes(&self) -> &[u8] {
        match &self.bytes {
            Bytes::Mapped { mapping, .. } | Bytes::Blank(mapping) => mapping.bytes(),
            Bytes::BuiltIn(bytes) => bytes,
        }
    }

    pub fn bytes_mut(&mut self) -> &mut [u8] {
        match &mut self.bytes {
            Bytes::Mapped { mapping, .. } | Bytes::Blank(mapping) => mapping.bytes_mut(),
            Bytes::BuiltIn(bytes) => bytes,
        }
    }

    pub fn file(&self) -> Option<&File> {
        match &self.bytes {
            Bytes::Mapped { file, .. } => Some(file),
            Bytes::Blank(_) | Bytes::BuiltIn(_) => None,
        }
    }

    /// Waits until every written byte is on the disk.
    pub fn sync(&self) -> io::Result<()> {
        let Bytes::Mapped { file, mapping } = &self.bytes else {
            return Ok(());
        };
        disk::synced(On::Image, || mapping.sync().and_then(|()| file.sync_all()))
    }
}

/// A shell empties the file behind `>` before the program begins, and what is said would go into the image.
fn not_the_output(path: &Path, file: &File) -> Outcome<()> {
    let output = io::stdout().as_fd().try_clone_to_owned().map(File::from);
    let told = |file: &File| file.metadata().ok();
    match (told(file), output.ok().as_ref().and_then(told)) {
        (Some(image), Some(output)) if same_file(&image, &output) => {
            let emptied = if image.len() == 0 { " (a shell empties what is behind >)" } else { "" };
            let text =
                format!("{}: standard output goes into the image{emptied}", names::file(path));
            Err(Failure::usage(text))
        }
        _ => Ok(()),
    }
}

fn mapped(path: &Path, file: &File, access: Access) -> Outcome<Mapping> {
    let len = regular(path, file.metadata())?.len();
    usize::try_from(len)
        .map_err(io::Error::other)
        .and_then(|len| Mapping::new(file, len, access))
        .map_err(|e| Failure::file(INPUT_OUTPUT, path, &e))
}

/// Nobody knows whether there is a journal: nothing is to be taken away.
pub fn untold(path: &Path, why: &io::Error) -> Failure {
    let text = format!(
        "{}: {}: it cannot be told whether there is a journal, and so whether an edit of the image was cut. \
         Nothing was done; a command that only reads takes the image as it is with --as-is",
        names::file(beside::beside(path)),
        disk::reason(why)
    );
    Failure::error(INPUT_OUTPUT, text)
}

/// For a command that does not edit.
fn unfinished(path: &Path) -> Failure {
    let edit = beside::words(path).map_or(String::new(), |words| format!(" ({words})"));
    let or = match KNOWS_AS_IS.load(Ordering::SeqCst) {
        true => "; --as-is takes the image as it is",
        false => "",
    };
    let text = format!(
        "{0}: an edit of this image was cut{edit}, and it may hold a part of it. Nothing was done. \
         `counter recover {0}` finishes the edit{or}",
        names::file(path)
    );
    Failure::error(CUT, text)
}

fn open(path: &Path) -> Outcome<File> {
    regular(path, fs::metadata(path))?;
    OpenOptions::new()
        .read(true)
        .custom_flags(os::O_NONBLOCK)
        .open(path)
        .map_err(|e| cannot_open(path, &e))
}

fn may_be_written(path: &Path) -> Outcome<()> {
    let told = regular(path, fs::metadata(path))?;
    // The owner of the machine may write to anything; a file marked read-only is still kept.
    if told.permissions().mode() & 0o222 == 0 {
        return Err(Failure::error(
            NOT_ALLOWED,
            format!("{}: the file is read-only", names::file(path)),
        ));
    }
    os::may_write_to(path).map_err(|e| cannot_open(path, &e))
}

/// Why a file that is to be read or edited cannot be had.
pub fn cannot_open(path: &Path, error: &io::Error) -> Failure {
    if error.raw_os_error() == Some(os::EROFS) {
        let text = format!("{}: the file is on a read-only disk", names::file(path));
        return Failure::error(NOT_ALLOWED, text);
    }
    let status = match error.kind() {
        io::ErrorKind::PermissionDenied => NOT_ALLOWED,
        io::ErrorKind::NotFound => NO_INPUT,
        _ => INPUT_OUTPUT,
    };
    Failure::file(status, path, error)
}

/// What is told of the file at `path`, which has to be one that can be an image.
pub fn regular(path: &Path, told: io::Result<Metadata>) -> Outcome<Metadata> {
    let told = told.map_err(|e| cannot_open(path, &e))?;
    if told.is_file() {
        return Ok(told);
    }
    let kind = if told.is_dir() { "a folder" } else { "a special file" };
    Err(Failure::error(NO_INPUT, format!("{}: {kind}, not an image", names::file(path))))
}

/// Whether two names lead to one file.
pub fn same_file(a: &Metadata, b: &Metadata) -> bool {
    (a.dev(), a.ino()) == (b.dev(), b.ino())
}

static WAIT: AtomicBool = AtomicBool::new(false);

/// From here on an image that another program uses is waited for.
pub fn wait_for_others() {
    WAIT.store(true, Ordering::Relaxed);
}

/// Readers share an image; an editor has it alone, and its record.
#[derive(Clone, Copy, PartialEq, Eq)]
pub enum Lock {
    Shared,
    Alone,
}

pub fn lock(path: &Path, file: &File, how: Lock) -> Outcome<()> {
    let got = match how {
        Lock::Alone => file.try_lock(),
        Lock::Shared => file.try_lock_shared(),
    };
    let failed = |e: io::Error| Failure::file(INPUT_OUTPUT, path, &e);
    match got {
        Ok(()) => Ok(()),
        Err(TryLockError::WouldBlock) if WAIT.load(Ordering::Relaxed) => {
            wait(path, file, how).map_err(failed)
        }
        Err(TryLockError::WouldBlock) => Err(busy(path, how)),
        Err(TryLockError::Error(e)) => Err(failed(e)),
    }
}

fn wait(path: &Path, file: &File, how: Lock) -> io::Result<()> {
    eprintln!("counter: {}: another program is using it; waiting", names::file(path));
    match how {
        Lock::Alone => file.lock(),
        Lock::Shared => file.lock_shared(),
    }
}

fn busy(path: &Path, how: Lock) -> Failure {
    let who = if how == Lock::Alone { "using" } else { "editing" };
    let text = format!("{}: another program is {who} it; try again later", names::file(path));
    Failure::error(BUSY, text)
}

/// Working memory for every call: enough for the largest table that opens.
pub struct Desk {
    words: Vec<u32>,
    bytes: Vec<u8>,
}

impl Desk {
    pub fn new() -> Desk {
        Desk { words: vec![0; MOST_WORDS], bytes: vec![0; MOST_TABLE] }
    }

    /// Enough to read images of so many entries. A call writes to all that it is lent, which takes longer than
    /// to read a small one.
    pub fn to_read(entries: u32) -> Desk {
        Desk { words: vec![0; 4 * (entries as usize + 2)], bytes: Vec::new() }
    }

    pub fn lend(&mut self) -> Memory<'_> {
        Memory { words: &mut self.words, bytes: &mut self.bytes }
    }
}
