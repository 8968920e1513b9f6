//! What the library tells of an image, with names and paths: the ground of every command.

use crate::failure::{DATA, Failure, INTERNAL, Outcome};
use crate::image::{Desk, Image};
use crate::names;
use crate::trouble;
use crate::units;
use counter_sys::{
    self as counter, Answer, CLUSTER_WORDS, ENTRY_WORDS, MOST_ENTRIES, MOST_REGIONS, MOST_TABLE,
    Memory, Opened, REGION_WORDS, Region,
};
use std::path::Path;
use std::sync::atomic::{AtomicBool, Ordering};

/// Most bytes that all paths of an image may take to be kept. Names can share one long text, so that
/// 16,384 paths of 64 MiB each are possible; those of a real disc take some hundred KiB.
const MOST_PATHS: u64 = 64 << 20;

/// Games' files begin on multiples of a cluster, so a place is looked for there if nothing else is said, and
/// planners count free space in them.
pub const CLUSTER: u32 = counter::CLUSTER_SIZE;

#[derive(Clone, Copy, PartialEq, Eq)]
pub enum Kind {
    File { offset: u32, size: u32 },
    Directory { next: u32 },
}

pub struct Node {
    pub number: u32,
    /// The directory it is nested in; the root's is 0.
    pub parent: u32,
    pub kind: Kind,
    /// Where its name lies in the image, and how long it is.
    place: (u32, u32),
    /// Name and path are the image's bytes.
    pub name: Vec<u8>,
    /// From the root on, a directory's with `/` at the end; `entry N` where paths are not kept.
    pub path: Vec<u8>,
}

impl Node {
    pub fn is_directory(&self) -> bool {
        matches!(self.kind, Kind::Directory { .. })
    }

    /// Where its name lies in the image.
    pub fn name_offset(&self) -> usize {
        self.place.0 as usize
    }

    /// The name as the table has it, kept or not.
    pub fn stored_name<'a>(&self, image: &'a Image) -> &'a [u8] {
        let rest = image.bytes().get(self.name_offset()..).unwrap_or_default();
        rest.get(..self.place.1 as usize).unwrap_or_default()
    }
}

/// Opens the image at `path`, or without one the built-in small master, and reads it.
pub fn opened(path: Option<&Path>) -> Outcome<(Image, Desk, Disc)> {
    let image = Image::read(path)?;
    let mut desk = Desk::new();
    let disc = Disc::read(&image, &mut desk)?;
    Ok((image, desk, disc))
}

/// The same without names.
pub fn space(path: Option<&Path>) -> Outcome<(Image, Desk, Space)> {
    let image = Image::read(path)?;
    let mut desk = Desk::new();
    let space = Space::read(&image, &mut desk)?;
    Ok((image, desk, space))
}

/// What opening tells, and the free regions, without names.
pub struct Space {
    pub opened: Opened,
    pub free: Vec<Region>,
    pub files: usize,
}

impl Space {
    pub fn read(image: &Image, desk: &mut Desk) -> Outcome<Space> {
        let (opened, list) = entries(image, desk)?;
        let free = free_regions(image, desk)?;
        let files = list.iter().filter(|words| words[0] == 0).count();
        tell_of_nkit(image);
        Ok(Space { opened, free, files })
    }

    /// Folders but for the root.
    pub fn folders(&self) -> usize {
        self.opened.entries as usize - self.files - 1
    }

    /// What is not used, below the disc end, is free.
    pub fn free_bytes(&self) -> u64 {
        self.opened.disc_end.saturating_sub(self.opened.used).into()
    }
}

pub fn table_end(opened: &Opened) -> u64 {
    u64::from(opened.fst_offset) + u64::from(opened.fst_size)
}

fn free_regions(image: &Image, desk: &mut Desk) -> Outcome<Vec<Region>> {
    let regions = of_each_region::<REGION_WORDS>(image, desk, counter::free_regions)?;
    Ok(regions.into_iter().map(|[offset, size]| Region { offset, size }).collect())
}

/// A free region in clusters: the bytes before its first multiple of `CLUSTER`, the whole clusters from
/// there on, and the bytes behind them.
pub struct Clusters {
    pub before: u32,
    pub whole: u32,
    pub rest: u32,
}

/// The free regions in clusters, in the order of `Space::free`.
pub fn free_clusters(image: &Image, desk: &mut Desk) -> Outcome<Vec<Clusters>> {
    let regions = of_each_region::<CLUSTER_WORDS>(image, desk, counter::free_clusters)?;
    Ok(regions.into_iter().map(|[before, whole, rest]| Clusters { before, whole, rest }).collect())
}

/// What a call of the library tells of each free region.
fn of_each_region<const WORDS: usize>(
    image: &Image,
    desk: &mut Desk,
    call: fn(&[u8], &mut Memory, &mut [u32]) -> Answer<u32>,
) -> Outcome<Vec<[u32; WORDS]>> {
    let mut list = vec![[0; WORDS]; MOST_REGIONS];
    let count = call(image.bytes(), &mut desk.lend(), list.as_flattened_mut())
        .map_err(|number| not_opened(image, number))?;
    list.truncate(count as usize);
    Ok(list)
}

pub struct Disc {
    pub opened: Opened,
    pub nodes: Vec<Node>,
    pub free: Vec<Region>,
    /// Whether the paths are kept.
    named: bool,
}

impl Disc {
    /// Opens the image and reads its entries and free regions.
    pub fn read(image: &Image, desk: &mut Desk) -> Outcome<Disc> {
        let (opened, list) = entries(image, desk)?;
        let nodes = list.iter().enumerate().map(|(i, words)| node(i as u32, words)).collect();
        let free = free_regions(image, desk)?;
        let mut disc = Disc { opened, nodes, free, named: false };
        disc.keep_paths(image)?;
        tell_of_nkit(image);
        Ok(disc)
    }

    /// Keeps every name and path, if they are not too long in all.
    fn keep_paths(&mut self, image: &Image) -> Outcome<()> {
        let mut lengths: Vec<u64> = Vec::with_capacity(self.nodes.len());
        for node in &self.nodes {
            let above = lengths.get(node.parent as usize).copied().unwrap_or(0);
            lengths.push(above + u64::from(node.place.1) + 1);
        }
        self.named = lengths.iter().sum::<u64>() <= MOST_PATHS;
        if !self.named {
            return Ok(());
        }
        for i in 0..self.nodes.len() {
            let node = &self.nodes[i];
            let name = name(image, node).ok_or_else(|| {
                Failure::error(INTERNAL, format!("{}: libcounter told a wrong name", image.name))
            })?;
            let above = if i == 0 { &[][..] } else { &self.nodes[node.parent as usize].path };
            let end: &[u8] = if node.is_directory() { b"/" } else { b"" };
            let path = [above, name, end].concat();
            let name = name.to_vec();
            self.nodes[i].path = path;
            self.nodes[i].name = name;
        }
        Ok(())
    }

    /// The table's offset and size.
    pub fn fst(&self) -> (u32, u32) {
        (self.opened.fst_offset, self.opened.fst_size)
    }

    /// Whether every path is kept.
    pub fn has_paths(&self) -> bool {
        self.named
    }

    /// For a command that shows every path.
    pub fn with_paths(self) -> Outcome<Disc> {
        match self.named {
            true => Ok(self),
            false => Err(Failure::error(DATA, "the paths of this image take more than 64 MiB")),
        }
    }

    /// Says that names are written as escapes, where the system does not know their characters.
    pub fn tell_of_escapes(&self) {
        let names = self.nodes.iter().map(|node| &node.name);
        if !names::are_raw() && names::have_no_characters(names) {
            eprintln!(
                "counter: this system's iconv has no CP932: names are written with \\xHH; --bytes keeps their \
                 bytes"
            );
        }
    }

    /// The entry's path, kept or not.
    pub fn path(&self, image: &Image, node: &Node) -> Vec<u8> {
        if self.named {
            return node.path.clone();
        }
        let mut parts: Vec<&[u8]> = Vec::new();
        let mut at = node;
        while at.number > 0 {
            parts.push(at.stored_name(image));
            at = &self.nodes[at.parent as usize];
        }
        parts.reverse();
        let end: &[u8] = if node.is_directory() && node.number > 0 { b"/" } else { b"" };
        [b"/", &parts.join(&b'/')[..], end].concat()
    }

    /// The entry at `path`, from the root on.
    pub fn find(&self, image: &Image, desk: &mut Desk, path: &[u8]) -> Outcome<&Node> {
        let found = counter::lookup(image.bytes(), &mut desk.lend(), 0, path)
            .map_err(|number| no_path(image, desk, number, path))?;
        Ok(&self.nodes[found.number() as usize])
    }
}

/// Says once that the image is one of NKit's, which may open.
fn tell_of_nkit(image: &Image) {
    static TOLD: AtomicBool = AtomicBool::new(false);
    if let Some(words) = trouble::nkit(image.bytes())
        && !TOLD.swap(true, Ordering::Relaxed)
    {
        eprintln!("counter: {}: {words}", image.name);
    }
}

/// What opening tells, and the six words of each entry.
fn entries(image: &Image, desk: &mut Desk) -> Outcome<(Opened, Vec<[u32; ENTRY_WORDS]>)> {
    let mut list = vec![[0; ENTRY_WORDS]; MOST_ENTRIES];
    let opened = counter::entries(image.bytes(), &mut desk.lend(), list.as_flattened_mut())
        .map_err(|number| not_opened(image, number))?;
    list.truncate(opened.entries as usize);
    Ok((opened, list))
}

/// The table that a rewrite of the image's tree writes, each name by itself; 9 where it passes a limit.
pub fn table_anew(image: &Image, desk: &mut Desk) -> Result<Vec<u8>, u32> {
    let mut table = vec![0; MOST_TABLE];
    let len = counter::table_anew(image.bytes(), desk.lend().words, &mut table)?;
    table.truncate(len);
    Ok(table)
}

/// The entry that six words tell, without its path.
fn node(number: u32, words: &[u32; ENTRY_WORDS]) -> Node {
    let kind = match words[0] {
        0 => Kind::File { offset: words[2], size: words[3] },
        _ => Kind::Directory { next: words[3] },
    };
    let (place, path) = ((words[4], words[5]), format!("entry {number}").into_bytes());
    Node { number, parent: words[1], kind, place, name: Vec::new(), path }
}

/// The entry's name. None where it is not one that opening lets through: names become files' names
/// in `extract`, so they are looked at once more.
fn name<'a>(image: &'a Image, node: &Node) -> Option<&'a [u8]> {
    let (start, size) = (node.place.0 as usize, node.place.1 as usize);
    let name = image.bytes().get(start..)?.get(..size)?;
    let fit = if node.number == 0 { name.is_empty() } else { units::is_name(name) };
    fit.then_some(name)
}

/// What is said of a path that is longer than any may be.
pub const TOO_LONG: &str = "a path has at most 1,024 bytes";

/// What is said of a folder in the place of a file.
pub const A_FOLDER: &str = "it is a folder";

pub fn no_path(image: &Image, desk: &mut Desk, number: u32, path: &[u8]) -> Failure {
    let failure = Failure::refused(number, names::text(path));
    match number {
        9 => failure.because(TOO_LONG),
        16 => failure.because(A_FOLDER),
        17 => failure.because(a_file_on(image, desk, path)),
        _ => failure,
    }
}

/// Which part of the path leads to a file, where a folder is wanted.
pub fn a_file_on(image: &Image, desk: &mut Desk, path: &[u8]) -> String {
    let mut way: Vec<&[u8]> = Vec::new();
    for part in units::parts(path) {
        match part {
            b"" | b"." => continue,
            b".." => _ = way.pop(),
            part => way.push(part),
        }
        let way = [b"/", &way.join(&b'/')[..]].concat();
        let found = counter::lookup(image.bytes(), &mut desk.lend(), 0, &way);
        if matches!(found, Ok(counter::Entry::File { .. })) {
            return format!("{} is a file", names::text(&way));
        }
    }
    "a part of the path is a file".into()
}

/// Opening's refusal, with what the image shows of its cause.
pub fn not_opened(image: &Image, number: u32) -> Failure {
    let failure = Failure::refused(number, image.name.as_str());
    let nkit = trouble::nkit(image.bytes()).map(String::from);
    let more: Vec<String> = trouble::words(image.bytes(), number).into_iter().chain(nkit).collect();
    if more.is_empty() { failure } else { failure.because(more.join("; ")) }
}
