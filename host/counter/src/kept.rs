//! The file that keeps a totals record from one edit to the next (`--record FILE`): where it lies, what is in
//! it, and how it is replaced. While an edit goes on it is locked.

use crate::account::Account;
use crate::args::Args;
use crate::beside::{self, sum_of};
use crate::disk::{self, On};
use crate::failure::{CANNOT_CREATE, Failure, INPUT_OUTPUT, NOT_ALLOWED, Outcome};
use crate::image::{Lock, cannot_open, lock, same_file};
use crate::names;
use crate::os;
use crate::sha256::Sum;
use std::fs::{self, File, Metadata};
use std::io::{self, ErrorKind, Read};
use std::os::unix::ffi::OsStrExt;
use std::os::unix::fs::{MetadataExt, OpenOptionsExt, fchown};
use std::path::{Path, PathBuf};
use std::process;

/// No record has more bytes.
const LONGEST: u64 = 0x1000;

// Where it lies ---------------------------------------------------------------------------

/// Where FILE lies, after every link. It is no file that the edit has another use for.
pub fn place(args: &Args, clip: Option<Metadata>) -> Outcome<Option<PathBuf>> {
    let Some(file) = args.record.as_deref() else {
        return Ok(None);
    };
    let place = resolved(file)?;
    let told = fs::metadata(&place).ok();
    let image = args.image.as_ref().and_then(|image| fs::metadata(image).ok());
    let is = |other: Option<Metadata>| match (&told, other) {
        (Some(told), Some(other)) => same_file(told, &other),
        _ => false,
    };
    let what = match &told {
        Some(told) if told.is_dir() => "a folder",
        Some(told) if !told.is_file() => "a special file",
        _ if is(image) => "the image",
        _ if is(clip) => "the clip",
        _ if beside::is_ours(file) => beside::OURS,
        _ => return Ok(Some(place)),
    };
    Err(Failure::usage(format!(
        "--record {}: this is {what}; name another file",
        names::file(file)
    )))
}

/// The same of any file. A folder that nothing can be written to is told before the edit begins.
fn resolved(file: &Path) -> Outcome<PathBuf> {
    let name = file.file_name().filter(|_| !file.as_os_str().as_bytes().ends_with(b"/"));
    let name = name.ok_or_else(|| Failure::usage("--record wants the name of a file"))?;
    let place = match fs::canonicalize(file) {
        Err(e) if e.kind() == ErrorKind::NotFound => {
            let folder = file.parent().filter(|folder| !folder.as_os_str().is_empty());
            let folder = fs::canonicalize(folder.unwrap_or(Path::new(".")));
            let place = folder.map_err(|e| not_written(file, &e))?.join(name);
            if fs::symlink_metadata(&place).is_ok() {
                let text = format!("{}: a link that leads nowhere", names::file(file));
                return Err(Failure::error(CANNOT_CREATE, text));
            }
            place
        }
        found => found.map_err(|e| cannot_open(file, &e))?,
    };
    let folder = place.parent().unwrap_or(Path::new("/"));
    os::may_write(folder).map_err(|e| not_written(file, &e))?;
    Ok(place)
}

// What is in it ---------------------------------------------------------------------------

pub struct Kept {
    pub file: PathBuf,
    /// None if there is no file; no bytes if it cannot be a record.
    pub bytes: Option<Vec<u8>>,
    /// What is locked: the file, or where there is none its folder.
    held: Option<File>,
}

impl Kept {
    /// The file, which is no link; locked if it is to be replaced.
    pub fn open(file: &Path, locked: bool) -> Outcome<Kept> {
        let failed = |e: io::Error| cannot_open(file, &e);
        let (is_there, held) = match locked {
            true => hold(file)?,
            false => {
                let held = open(file, false).map_err(failed)?;
                (held.is_some(), held)
            }
        };
        let read = held.as_ref().filter(|_| is_there).map(contents);
        let bytes = read.transpose().map_err(failed)?;
        Ok(Kept { file: file.to_path_buf(), bytes, held })
    }

    /// The sum of its text; zeros where there is no file.
    pub fn sum(&self) -> Sum {
        self.bytes.as_deref().map_or(Sum::default(), sum_of)
    }

    /// Whether it is there as it was found; for whoever replaces it next.
    pub fn is_unchanged(&self) -> Outcome<()> {
        match unchanged(&self.file, self.bytes.as_deref()) {
            Ok(_) => Ok(()),
            Err(why) => Err(not_written(&self.file, &why).with("; nothing was written")),
        }
    }

    /// Another program has replaced it by this text, for this one. Nobody else gets at it, as long as this is in
    /// use.
    pub fn is_replaced(&mut self, text: String) {
        let held = open(&self.file, true).ok().flatten();
        // Where the disk has no locks, the old one has none either. Whoever was faster is told of later.
        self.held = held.inspect(|held| _ = held.try_lock());
        self.bytes = Some(text.into_bytes());
    }

    /// Puts a new text there.
    pub fn put(&mut self, text: &str) -> Outcome<()> {
        let new = put(&self.file, self.bytes.as_deref(), text.as_bytes());
        self.held = Some(new.map_err(|e| not_written(&self.file, &e))?);
        self.bytes = Some(text.into());
        Ok(())
    }
}

/// The record of an edit that was cut, locked. It has to be the one before the edit, or the one behind it.
pub fn before_or_behind(file: &Path, old: Option<&Sum>, new: &[u8]) -> Result<Kept, Misfit> {
    if fs::symlink_metadata(file).is_ok_and(|told| !told.is_file()) {
        return Err(Misfit::NoFile);
    }
    let kept = Kept::open(file, true).map_err(Misfit::Unread)?;
    let is_old = old.is_none_or(|old| kept.sum() == *old);
    match &kept.bytes {
        Some(bytes) if bytes == new => Ok(kept),
        Some(bytes) if is_old && Account::parse(bytes).is_err() => Err(Misfit::NoRecord),
        _ if is_old => Ok(kept),
        Some(_) => Err(Misfit::Changed),
        None => Err(Misfit::Gone),
    }
}

/// What is wrong with the record of an edit that was cut.
pub enum Misfit {
    Unread(Failure),
    Changed,
    Gone,
    /// A link, say: the program would put the record in its place.
    NoFile,
    /// No edit with this record can have begun.
    NoRecord,
}

/// Whether the file is there, and its lock, or else that of its folder, in which two first edits would make one
/// each. Whoever had it may have put another in its place.
fn hold(file: &Path) -> Outcome<(bool, Option<File>)> {
    let failed = |e: io::Error| cannot_open(file, &e);
    loop {
        let Some(held) = open(file, true).map_err(failed)? else {
            // Not every disk locks folders.
            let folder = File::open(file.parent().unwrap_or(Path::new("/"))).ok();
            if let Some(folder) = &folder {
                lock(file, folder, Lock::Alone)?;
            }
            match fs::symlink_metadata(file).is_ok() {
                true => continue,
                false => return Ok((false, folder)),
            }
        };
        lock(file, &held, Lock::Alone)?;
        let told = held.metadata().map_err(failed)?;
        if fs::metadata(file).is_ok_and(|now| same_file(&now, &told)) {
            return Ok((true, Some(held)));
        }
    }
}

fn open(file: &Path, write: bool) -> io::Result<Option<File>> {
    let mut how = File::options();
    match how.read(true).write(write).custom_flags(os::O_NONBLOCK).open(file) {
        Err(e) if e.kind() == ErrorKind::NotFound => Ok(None),
        opened => opened.map(Some),
    }
}

fn contents(mut file: &File) -> io::Result<Vec<u8>> {
    let told = file.metadata()?;
    let mut bytes = Vec::new();
    if told.is_file() && told.len() <= LONGEST {
        file.read_to_end(&mut bytes)?;
    }
    Ok(bytes)
}

// How it is replaced ----------------------------------------------------------------------

/// Puts the new text in the place of the old one, which must still be there, and waits until it is on the
/// disk. The file that has it is locked.
fn put(file: &Path, old: Option<&[u8]>, text: &[u8]) -> io::Result<File> {
    let was = unchanged(file, old)?;
    let (early, new) = create_beside(file)?;
    // Nobody else knows the file yet. Where the disk has no locks, the old one has none either.
    let _ = new.try_lock();
    let named = write(&new, was.as_ref(), text).and_then(|()| match was {
        Some(_) => disk::rename(On::Record, &early, file),
        None => disk::rename_new(On::Record, &early, file),
    });
    if named.is_err() {
        let _ = disk::remove(On::Record, &early);
    }
    named.and_then(|()| disk::sync_folder(file)).map(|()| new)
}

/// What is told of the file, if there is one. It must be as it was found.
fn unchanged(file: &Path, old: Option<&[u8]>) -> io::Result<Option<Metadata>> {
    let file = open(file, false)?;
    let now = file.as_ref().map(contents).transpose()?;
    match now.as_deref() == old {
        true => file.map(|file| file.metadata()).transpose(),
        false if now.is_none() => Err(io::Error::other("it is not there any more")),
        false => Err(io::Error::other("another program changed it meanwhile")),
    }
}

/// A new file in the same folder. One that a cut left has its name for good.
fn create_beside(file: &Path) -> io::Result<(PathBuf, File)> {
    let mut number = process::id();
    loop {
        let path = file.with_file_name(format!("counter-record.{number}"));
        match disk::create(On::Record, &path) {
            Err(e) if e.kind() == ErrorKind::AlreadyExists => number = number.wrapping_add(1),
            created => return created.map(|new| (path, new)),
        }
    }
}

fn write(new: &File, was: Option<&Metadata>, text: &[u8]) -> io::Result<()> {
    if let Some(was) = was {
        // Where the disk has no owners or modes, there are none to be kept. Only root gives a file away; its
        // group stays where whoever edits is of it.
        let _ = fchown(new, Some(was.uid()), Some(was.gid()))
            .or_else(|_| fchown(new, None, Some(was.gid())));
        let _ = new.set_permissions(was.permissions());
    }
    disk::write_at(On::Record, new, 0, text)?;
    disk::sync(On::Record, new)
}

/// Whoever asked adds what became of the image.
fn not_written(file: &Path, why: &io::Error) -> Failure {
    let status = match why.kind() {
        ErrorKind::PermissionDenied | ErrorKind::ReadOnlyFilesystem => NOT_ALLOWED,
        _ if disk::is_full(why) => INPUT_OUTPUT,
        _ => CANNOT_CREATE,
    };
    let text =
        format!("{}: the record cannot be written: {}", names::file(file), disk::reason(why));
    Failure::error(status, text)
}
