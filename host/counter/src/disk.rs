//! The writes and syncs of a new image, and of a record: all of them pass here, so that a test can log them, or
//! let one fail. (An image that is there is written by counter-write alone.)
//!
//! COUNTER_LOG_WRITES names the file of the log. COUNTER_FULL_FROM=n lets the n-th step that takes room,
//! and all after it, fail as on a full disk; COUNTER_ASSUME_ROOM lets an edit begin on a disk that is
//! really full. They are for tests; without them nothing is kept.

use crate::os;
use std::env;
use std::fs::{self, File, OpenOptions};
use std::io::{self, Write};
use std::ops::Range;
use std::os::unix::fs::FileExt;
use std::path::Path;
use std::sync::OnceLock;
use std::sync::atomic::{AtomicU64, Ordering};

/// Which file a step is about.
#[derive(Clone, Copy)]
pub enum On {
    Image,
    Record,
}

/// Bytes that are read at once.
pub const PART: u64 = 1 << 20;

/// Whether an error says that there is no room left.
pub fn is_full(error: &io::Error) -> bool {
    matches!(error.kind(), io::ErrorKind::StorageFull | io::ErrorKind::QuotaExceeded)
}

pub fn reason(why: &io::Error) -> String {
    if is_full(why) { "the disk is full".into() } else { why.to_string() }
}

pub fn write_at(on: On, file: &File, at: u64, bytes: &[u8]) -> io::Result<()> {
    step()?;
    file.write_all_at(bytes, at)?;
    log(b'w', on, at, bytes);
    Ok(())
}

/// A span in parts: where each begins, and how long it is.
pub fn parts(span: Range<u64>) -> impl Iterator<Item = (u64, usize)> {
    let end = span.end;
    span.step_by(PART as usize).map(move |at| (at, PART.min(end - at) as usize))
}

pub fn sync(on: On, file: &File) -> io::Result<()> {
    synced(on, || file.sync_all())
}

/// A sync done in another way.
pub fn synced(on: On, work: impl FnOnce() -> io::Result<()>) -> io::Result<()> {
    step()?;
    work()?;
    log(b's', on, 0, &[]);
    Ok(())
}

/// A new image, or a record that is not there yet.
pub fn create(on: On, path: &Path) -> io::Result<File> {
    step()?;
    let file = OpenOptions::new().read(true).write(true).create_new(true).open(path)?;
    log(b'c', on, 0, &[]);
    Ok(file)
}

/// The record gets the name under which it is found.
pub fn rename(on: On, from: &Path, to: &Path) -> io::Result<()> {
    fs::rename(from, to)?;
    log(b'r', on, 0, &[]);
    Ok(())
}

/// The same, unless that name is taken.
pub fn rename_new(on: On, from: &Path, to: &Path) -> io::Result<()> {
    os::rename_new(from, to)?;
    log(b'r', on, 0, &[]);
    Ok(())
}

/// A record goes that did not get its name.
pub fn remove(on: On, path: &Path) -> io::Result<()> {
    fs::remove_file(path)?;
    log(b'd', on, 0, &[]);
    Ok(())
}

/// Waits until the names in the folder of `path` are on the disk.
pub fn sync_folder(path: &Path) -> io::Result<()> {
    let folder = path.parent().unwrap_or(Path::new("/"));
    match File::open(folder)?.sync_all() {
        // Some disks sync no folders; what they do with names cannot be helped.
        Err(e) if matches!(e.kind(), io::ErrorKind::InvalidInput | io::ErrorKind::Unsupported) => {}
        synced => synced?,
    }
    log(b'f', On::Image, 0, &[]);
    Ok(())
}

// What tests turn on ----------------------------------------------------------------------

fn the_log() -> Option<&'static File> {
    static LOG: OnceLock<Option<File>> = OnceLock::new();
    LOG.get_or_init(|| {
        let path = env::var_os("COUNTER_LOG_WRITES")?;
        OpenOptions::new().append(true).create(true).open(path).ok()
    })
    .as_ref()
}

/// One step: what is done, to which file, where, with which bytes.
fn log(what: u8, on: On, at: u64, bytes: &[u8]) {
    let Some(mut file) = the_log() else {
        return;
    };
    let on = match on {
        On::Image => b'i',
        On::Record => b'r',
    };
    let mut entry = vec![what, on];
    entry.extend(at.to_le_bytes());
    entry.extend((bytes.len() as u64).to_le_bytes());
    entry.extend(bytes);
    file.write_all(&entry).expect("the log of a test is written");
}

pub fn assumes_room() -> bool {
    env::var_os("COUNTER_ASSUME_ROOM").is_some()
}

fn step() -> io::Result<()> {
    static FAILS: OnceLock<Option<u64>> = OnceLock::new();
    static STEPS: AtomicU64 = AtomicU64::new(0);
    let fails = FAILS.get_or_init(|| env::var("COUNTER_FULL_FROM").ok()?.parse().ok());
    let count = STEPS.fetch_add(1, Ordering::SeqCst) + 1;
    match fails.is_some_and(|from| from <= count) {
        true => Err(io::ErrorKind::StorageFull.into()),
        false => Ok(()),
    }
}
