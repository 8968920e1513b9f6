//! New files: what cannot be finished is taken away again, and nothing is overwritten.

use crate::beside;
use crate::disk;
use crate::failure::{CANNOT_CREATE, Failure, INPUT_OUTPUT, Outcome};
use crate::image::Image;
use crate::os;
use crate::progress::Progress;
use counter_sys::Window;
use std::fs::{self, File, OpenOptions};
use std::io::{self, Write};
use std::path::Path;

const CHUNK: usize = 1 << 20;

/// Hands the window's bytes on, a part at a time.
pub fn pump(
    image: &Image,
    mut window: Window,
    progress: &Progress,
    mut to: impl FnMut(&[u8]) -> Outcome<()>,
) -> Outcome<()> {
    let mut part = vec![0; CHUNK];
    loop {
        let count = window
            .read(image.bytes(), &mut part)
            .map_err(|number| Failure::refused(number, image.name.as_str()))?;
        if count == 0 {
            return Ok(());
        }
        to(&part[..count as usize])?;
        progress.advance(count);
    }
}

/// Writes a window to a new file.
pub fn save_window(image: &Image, window: Window, path: &Path, progress: &Progress) -> Outcome<()> {
    let mut file = create(path)?;
    let done = pump(image, window, progress, |part| {
        file.write_all(part).map_err(|e| Failure::file(INPUT_OUTPUT, path, &e))
    });
    finished(path, done)
}

/// That nothing is there, before work is done that would be in vain.
pub fn vacant(path: &Path) -> Outcome<()> {
    match fs::symlink_metadata(path) {
        Ok(_) => Err(Failure::file(CANNOT_CREATE, path, &io::ErrorKind::AlreadyExists.into())),
        Err(_) => Ok(()),
    }
}

/// The same of a new image, and that something can have its name and its journal's: one that is there would be
/// taken for one of it, and no edit could make one whose name is too long.
pub fn vacant_image(path: &Path) -> Outcome<()> {
    for path in [path.to_path_buf(), beside::beside(path)] {
        vacant(&path)?;
        match fs::symlink_metadata(&path) {
            Err(e) if e.kind() != io::ErrorKind::NotFound => return Err(not_made(&path, &e)),
            _ => {}
        }
    }
    Ok(())
}

/// Why there is no new file.
pub fn not_made(path: &Path, why: &io::Error) -> Failure {
    Failure::file(if disk::is_full(why) { INPUT_OUTPUT } else { CANNOT_CREATE }, path, why)
}

/// Writes bytes to a new file.
pub fn save(path: &Path, bytes: &[u8]) -> Outcome<()> {
    let done = create(path)?.write_all(bytes);
    finished(path, done.map_err(|e| Failure::file(INPUT_OUTPUT, path, &e)))
}

/// A new file, which a signal takes away until it is finished.
fn create(path: &Path) -> Outcome<File> {
    let file = os::holding(|| {
        let file = OpenOptions::new().write(true).create_new(true).open(path);
        if file.is_ok() {
            os::unfinished(Some(path));
        }
        file
    });
    file.map_err(|e| Failure::file(CANNOT_CREATE, path, &e))
}

/// Keeps the file, or takes it away.
fn finished(path: &Path, done: Outcome<()>) -> Outcome<()> {
    if done.is_err() {
        let _ = fs::remove_file(path);
    }
    os::unfinished(None);
    done
}
