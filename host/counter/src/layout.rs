//! How a disc is laid out, from an image or from a manifest: what is compared, and what maps show.

use crate::disc::{Disc, Kind, not_opened, table_anew};
use crate::failure::Outcome;
use crate::header::Header;
use crate::image::{Desk, Image};
use crate::names;
use crate::program::Program;
use crate::sha256::Sum;
use crate::stored::{Departure, departure};
use crate::text::{one_line, shown};
use counter_sys::{HEADER_SIZE, Region};

/// An entry of the table.
pub struct Record {
    pub number: u32,
    pub parent: u32,
    pub folder: bool,
    /// From the root on, a folder's with `/` at the end; the image's bytes.
    pub path: Vec<u8>,
    /// Offset and size; a folder has neither.
    pub place: (u32, u32),
    /// A manifest has it for files.
    pub sum: Option<Sum>,
}

impl Record {
    /// A `/` is in no pair.
    pub fn name(&self) -> &[u8] {
        let path = self.path.strip_suffix(b"/").unwrap_or(&self.path);
        path.rsplit(|&b| b == b'/').next().unwrap_or_default()
    }

    /// The path as maps show it.
    pub fn text(&self) -> String {
        names::text(&self.path)
    }
}

pub struct Layout {
    /// The file's name without its folders.
    pub name: String,
    /// Game code and game name.
    pub game: String,
    pub bytes: u64,
    pub disc_end: u32,
    pub fst: (u32, u32),
    /// A manifest's is not looked at.
    pub departure: Departure,
    pub program: Option<Program>,
    pub free: Vec<Region>,
    pub records: Vec<Record>,
}

impl Layout {
    pub fn of(image: &Image, desk: &mut Desk, disc: &Disc) -> Outcome<Layout> {
        let header = Header::read(image.bytes()).map_err(|n| not_opened(image, n))?;
        let records = disc.nodes.iter().map(|node| Record {
            number: node.number,
            parent: node.parent,
            folder: node.is_directory(),
            path: node.path.clone(),
            place: match node.kind {
                Kind::File { offset, size } => (offset, size),
                Kind::Directory { .. } => (0, 0),
            },
            sum: None,
        });
        let game = format!("{} {}", shown(header.game()), shown(header.game_name()));
        Ok(Layout {
            name: one_line(image.name.rsplit('/').next().unwrap_or("")),
            game: game.trim().to_string(),
            bytes: image.bytes().len() as u64,
            disc_end: disc.opened.disc_end,
            fst: disc.fst(),
            departure: departure(image, disc.fst(), &table_anew(image, desk)),
            program: Program::read(image, desk, &disc.opened)?,
            free: disc.free.clone(),
            records: records.collect(),
        })
    }

    pub fn table_end(&self) -> u64 {
        u64::from(self.fst.0) + u64::from(self.fst.1)
    }

    /// The program, where it lies behind the table.
    pub fn behind(&self) -> Option<Region> {
        self.program.filter(|program| program.behind).map(|program| program.place)
    }

    pub fn files(&self) -> impl Iterator<Item = &Record> {
        self.records.iter().filter(|record| !record.folder)
    }

    pub fn free_bytes(&self) -> u64 {
        self.free.iter().map(|region| u64::from(region.size)).sum()
    }

    /// All before the table but the header, a program there too.
    pub fn system(&self) -> (u64, u64) {
        let header = HEADER_SIZE as u64;
        (header, u64::from(self.fst.0).saturating_sub(header))
    }

    pub fn table(&self) -> (u64, u64) {
        (self.fst.0.into(), self.fst.1.into())
    }

    /// What lies behind the disc end.
    pub fn tail(&self) -> (u64, u64) {
        let end = u64::from(self.disc_end);
        (end, self.bytes.saturating_sub(end))
    }
}
