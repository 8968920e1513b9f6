//! One call on either side, timed. The Rust's time is that of its opening and of the call, without the time to free what it opened;
//! Counter opens in each call. An answer is a list of numbers, so that both can be compared.

use crate::dvd::disc::{DiscRegion, DiscStream};
use crate::dvd::fst::{DirectoryEntry, EntryId, FileEntry, FileTree};
use crate::measure::Watch;
use counter_sys::{self as counter, CLUSTER_WORDS, Memory, REGION_WORDS, Record, TEAMS, Team};
use encoding_rs::SHIFT_JIS;
use std::borrow::Cow;
use std::hint::black_box;
use std::io::Cursor;
use std::rc::Rc;
use std::time::Duration;

#[derive(Clone)]
pub enum Call {
    Open,
    Lookup(Vec<u8>),
    FreeRegions,
    FreeClusters,
    Program,
    Allocate(u32, u32),
    MaxFileSize(u32),
    InsertFile(u32, Vec<u8>),
    InsertDirectory(u32, Vec<u8>),
    MakeDirectories(Vec<u8>),
    Move(u32, u32),
    Resize(u32, u32),
    Fill(u32, Rc<[u8]>),
    Rewrite,
}

impl Call {
    pub fn edits(&self) -> bool {
        use Call::*;
        !matches!(
            self,
            Open | Lookup(_) | FreeRegions | FreeClusters | Program | Allocate(..) | MaxFileSize(_)
        )
    }

    /// The path or the name as the Rust takes it.
    fn text(&self) -> Cow<'_, str> {
        match self {
            Call::Lookup(bytes)
            | Call::InsertFile(_, bytes)
            | Call::InsertDirectory(_, bytes)
            | Call::MakeDirectories(bytes) => {
                SHIFT_JIS.decode_without_bom_handling_and_without_replacement(bytes).unwrap()
            }
            _ => Cow::Borrowed(""),
        }
    }
}

pub type Timed = (Duration, Vec<u32>);

/// The team that every edit carries.
pub const TEAM: u32 = 11;

/// What goes into every edit: numbers that no edit here takes past their bounds. All teams have some of their share left.
pub const RECORD: Record = Record {
    used: 1 << 31,
    largest: 0,
    teams: [Team { limit: u32::MAX, share: (1 << 31) + 1, taken: 1 << 31, edits: 0 }; TEAMS],
};

/// Counter's side, with the memory it is lent.
pub struct Lent {
    pub words: Vec<u32>,
    pub bytes: Vec<u8>,
    pub list: Vec<u32>,
}

impl Lent {
    /// What a call is lent at `entries` entries and a table of `table` bytes, and `regions` free regions.
    pub fn new(entries: usize, table: usize, regions: usize) -> Self {
        let words = vec![0; 4 * (entries + 2)];
        Self { words, bytes: vec![0; table], list: vec![0; CLUSTER_WORDS * regions] }
    }

    pub fn run(&mut self, call: &Call, image: &mut [u8]) -> (Duration, Result<Vec<u32>, u32>) {
        let memory = &mut Memory { words: &mut self.words, bytes: &mut self.bytes };
        let record = &mut { RECORD };
        let start = Watch::start();
        let answer = match call {
            Call::Open => counter::open(image, memory).map(|o| vec![o.disc_end, o.used]),
            Call::Lookup(path) => {
                let found = counter::lookup(image, memory, 0, path);
                let time = start.elapsed();
                return (time, found.map(|entry| vec![entry.number()]));
            }
            Call::FreeRegions => {
                let found = counter::free_regions(image, memory, &mut self.list);
                let time = start.elapsed();
                return (time, found.map(|n| self.list[..REGION_WORDS * n as usize].to_vec()));
            }
            Call::FreeClusters => {
                let found = counter::free_clusters(image, memory, &mut self.list);
                let time = start.elapsed();
                return (time, found.map(|n| self.list[..CLUSTER_WORDS * n as usize].to_vec()));
            }
            Call::Program => {
                let found = counter::program(image, memory);
                let time = start.elapsed();
                return (
                    time,
                    found.map(|program| program.map_or(vec![], |r| vec![r.offset, r.size])),
                );
            }
            Call::Allocate(size, align) => {
                counter::allocate(image, memory, *size, *align).map(|r| vec![r.offset, r.size])
            }
            Call::MaxFileSize(file) => {
                counter::max_file_size(image, memory, *file).map(|n| vec![n])
            }
            Call::InsertFile(parent, name) => {
                counter::insert_file(image, memory, record, TEAM, *parent, name).map(|n| vec![n])
            }
            Call::InsertDirectory(parent, name) => {
                counter::insert_directory(image, memory, record, TEAM, *parent, name)
                    .map(|n| vec![n])
            }
            Call::MakeDirectories(path) => {
                counter::make_directories(image, memory, record, TEAM, 0, path).map(|n| vec![n])
            }
            Call::Move(file, to) => {
                counter::move_file(image, memory, record, TEAM, *file, *to).map(|()| vec![])
            }
            Call::Resize(file, to) => {
                counter::resize_file(image, memory, record, TEAM, *file, *to).map(|()| vec![])
            }
            Call::Fill(file, clip) => {
                counter::fill_file(image, memory, record, TEAM, *file, clip).map(|()| vec![])
            }
            Call::Rewrite => counter::rewrite(image, memory, record, TEAM).map(|()| vec![]),
        };
        (start.elapsed(), answer)
    }
}

fn number_of(files: &FileTree, id: EntryId) -> u32 {
    files.recurse().position(|(_, other)| other == id).unwrap() as u32
}

/// The Rust's name of an entry. Opening gives the same names each time, so this is not part of a call.
pub fn id_of(image: &[u8], number: u32) -> EntryId {
    let disc = DiscStream::open(Cursor::new(image)).unwrap();
    disc.files().recurse().nth(number as usize).unwrap().1
}

/// A free region in clusters, which the Rust has no call for: the bytes before its first multiple of 0x8000,
/// the whole clusters and the rest.
fn in_clusters(region: &DiscRegion) -> [u32; CLUSTER_WORDS] {
    let before = region.size.min(region.offset.wrapping_neg() % 0x8000);
    let behind = region.size - before;
    [before, behind / 0x8000, behind % 0x8000]
}

pub fn rust_reads(call: &Call, image: &[u8], id: EntryId) -> Timed {
    let text = call.text();
    let start = Watch::start();
    let mut disc = DiscStream::open(Cursor::new(image)).unwrap();
    match call {
        Call::Open => {
            let answer = black_box([disc.total_size(), disc.used_size()]);
            (start.elapsed(), answer.to_vec())
        }
        Call::Lookup(_) => {
            let found = black_box(disc.files().at(&text).unwrap());
            (start.elapsed(), vec![number_of(disc.files(), found)])
        }
        Call::FreeRegions => {
            let regions = black_box(disc.free_regions());
            (start.elapsed(), regions.iter().flat_map(|r| [r.offset, r.size]).collect())
        }
        Call::FreeClusters => {
            let each: Vec<_> = black_box(disc.free_regions().iter().map(in_clusters).collect());
            (start.elapsed(), each.concat())
        }
        // The program, which the Rust has no call for: the DOL header read, and at least as long as it.
        Call::Program => {
            let size = black_box(disc.open_dol().unwrap().0.file_size().max(0xe4));
            let time = start.elapsed();
            (time, vec![u32::from_be_bytes(image[0x420..0x424].try_into().unwrap()), size])
        }
        Call::Allocate(size, align) => {
            let region = black_box(disc.allocate(*size, *align).unwrap());
            (start.elapsed(), vec![region.offset, region.size])
        }
        Call::MaxFileSize(_) => {
            let size = black_box(disc.max_file_size(id).unwrap());
            (start.elapsed(), vec![size])
        }
        _ => unreachable!(),
    }
}

pub fn rust_edits(call: &Call, image: &mut Vec<u8>, id: EntryId) -> Timed {
    let text = &*call.text();
    let start = Watch::start();
    let mut disc = DiscStream::open(Cursor::new(image)).unwrap();
    let mut made = None;
    match call {
        Call::InsertFile(..) => {
            let entry = FileEntry::new(text, 0, 0).into();
            made = Some(disc.oracle_files_mut().insert(id, entry).unwrap());
            disc.commit_file_tree()
        }
        Call::InsertDirectory(..) => {
            let entry = DirectoryEntry::new(text).into();
            made = Some(disc.oracle_files_mut().insert(id, entry).unwrap());
            disc.commit_file_tree()
        }
        Call::MakeDirectories(_) => {
            made = Some(disc.oracle_files_mut().make_directories(text).unwrap());
            disc.commit_file_tree()
        }
        Call::Move(_, to) => disc.move_file(id, *to),
        Call::Resize(_, to) => disc.resize_file(id, *to),
        Call::Fill(_, clip) => disc.replace_file(id, Cursor::new(clip)),
        Call::Rewrite => disc.commit_file_tree(),
        _ => unreachable!(),
    }
    .unwrap();
    let time = start.elapsed();
    (time, made.iter().map(|&id| number_of(disc.files(), id)).collect())
}
