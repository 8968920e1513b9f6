//! What is looked at of an image to decide on an edit, as a file in memory: its header, its table, and the header of
//! its program. The lines of a sheet that is tried alone are decided on there, each on what the one before leaves.

use crate::disc::Disc;
use crate::failure::{Failure, INPUT_OUTPUT, Outcome};
use crate::header::{DOL_OFFSET, Header};
use crate::image::Image;
use crate::os;
use crate::planned::{Bytes, Planned};
use counter_sys::{DOL_WORDS, HEADER_SIZE};
use std::fs::File;
use std::io;
use std::os::unix::fs::FileExt;
use std::path::Path;

pub struct Outline {
    pub file: File,
}

impl Outline {
    /// As long as the image; what is left out takes no memory.
    pub fn of(image: &Image, disc: &Disc) -> Outcome<Outline> {
        let bytes = image.bytes();
        let program = Header::read(bytes).map_or(0, |header| header.word(DOL_OFFSET)) as usize;
        let (at, size) = disc.fst();
        let parts = [(0, HEADER_SIZE), (at as usize, size as usize), (program, 4 * DOL_WORDS)];
        let made = os::memory().and_then(|file| {
            file.set_len(bytes.len() as u64)?;
            for (at, len) in parts {
                let part = bytes.get(at..).unwrap_or_default();
                file.write_all_at(&part[..len.min(part.len())], at as u64)?;
            }
            Ok(Outline { file })
        });
        made.map_err(|e| failed(image, &e))
    }

    /// What an edit leaves of it.
    pub fn put(&self, planned: &Planned, image: &Image) -> Outcome<()> {
        for Bytes { at, bytes } in [&planned.table, &planned.word] {
            self.file.write_all_at(bytes, *at).map_err(|e| failed(image, &e))?;
        }
        Ok(())
    }
}

fn failed(image: &Image, why: &io::Error) -> Failure {
    Failure::file(INPUT_OUTPUT, Path::new(&image.name), why)
}
