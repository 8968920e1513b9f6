//! Power cuts: from the log of what the program writes, syncs and names (shim.rs) the disk is rebuilt as a cut
//! at every step can leave it.
//!
//! What was synced is there. Of what was not, any part may be there, in sectors of 512 bytes and in any
//! order, in any mix of the files; a sector may be written in part, and may hold anything at all within the
//! range of the write. A file that grows may have its length before its bytes. The names of a folder change in
//! their order, and are there once that folder is synced.

use super::shim::*;
use std::collections::{HashMap, HashSet};
use std::hash::{DefaultHasher, Hash, Hasher};

pub const SECTOR: u64 = 0x200;

// A disk ----------------------------------------------------------------------------------

/// The names that come and go: the journal's, that of a record's new text, and the record's own.
#[derive(Debug, Clone, Copy, PartialEq, Eq, Hash)]
pub enum Name {
    Journal,
    Early,
    Own,
}

/// A state that the disk can be found in.
#[derive(Clone, PartialEq, Eq)]
pub struct Found {
    pub image: Vec<u8>,
    pub journal: Option<Vec<u8>>,
    /// The record's new text, under its first name: nobody reads it.
    pub early: Option<Vec<u8>>,
    pub record: Option<Vec<u8>>,
}

impl Found {
    /// As it is before an edit.
    pub fn new(image: Vec<u8>, record: Option<Vec<u8>>) -> Found {
        Found { image, journal: None, early: None, record }
    }

    /// Whether there is a journal with an open gate and a whole head behind it.
    pub fn is_open(&self) -> bool {
        self.journal.as_ref().is_some_and(|bytes| is_open(bytes))
    }

    fn key(&self) -> u64 {
        let mut hash = DefaultHasher::new();
        (&self.image, &self.journal, &self.record).hash(&mut hash);
        hash.finish()
    }
}

/// How many bytes the head of a journal has.
pub const HEAD: usize = 1266;

pub fn is_open(journal: &[u8]) -> bool {
    journal.len() >= HEAD && journal[0] == 1
}

/// A file while the program runs: what is surely on the disk, and what may be.
#[derive(Clone, Default)]
struct Kept {
    sure: Vec<u8>,
    unsure: Vec<(u64, Vec<u8>)>,
}

/// A folder's next change: which name leads where from then on.
#[derive(Clone)]
struct Change {
    folder: u64,
    names: Vec<(Name, Option<usize>)>,
}

/// The disk while the program runs.
#[derive(Clone)]
pub struct Disk {
    /// The image is the first.
    files: Vec<Kept>,
    /// Where the names surely lead, and where they lead for whoever reads now.
    sure: [Option<usize>; 3],
    seen: [Option<usize>; 3],
    changes: Vec<Change>,
    /// The numbers that files have while this program runs.
    numbers: HashMap<u64, usize>,
    /// How many edits the program has said to be done.
    pub said: usize,
}

impl Disk {
    pub fn new(found: Found) -> Disk {
        let mut files = vec![Kept { sure: found.image, unsure: Vec::new() }];
        let names = [found.journal, found.early, found.record].map(|bytes| {
            let sure = bytes?;
            files.push(Kept { sure, unsure: Vec::new() });
            Some(files.len() - 1)
        });
        let (changes, numbers) = Default::default();
        Disk { files, sure: names, seen: names, changes, numbers, said: 0 }
    }

    /// What whoever reads finds: the end of the program alone leaves this.
    pub fn seen(&self) -> Found {
        let bytes = |file: usize| {
            let mut bytes = self.files[file].sure.clone();
            self.files[file].unsure.iter().for_each(|(at, part)| write(&mut bytes, *at, part));
            bytes
        };
        let [journal, early, record] = self.seen.map(|file| file.map(bytes));
        Found { image: bytes(0), journal, early, record }
    }

    /// The program ended, and another begins.
    pub fn begin_anew(&mut self) {
        self.numbers.clear();
    }

    fn file(&self, step: &Step) -> usize {
        *self
            .numbers
            .get(&step.number)
            .unwrap_or_else(|| panic!("a file that was not opened: {step:?}"))
    }

    /// The name that a step is about.
    fn name_of(step: &Step) -> Name {
        match step.on {
            JOURNAL => Name::Journal,
            RECORD if is_early(&step.bytes) => Name::Early,
            _ => Name::Own,
        }
    }

    pub fn take(&mut self, step: &Step) {
        if step.failed {
            // It asked for a file that is not there; what changes a file does not fail here.
            assert!(!step.counts(), "a step that failed: {step:?}");
            return;
        }
        match (step.what, step.on) {
            (b'o', IMAGE) => _ = self.numbers.insert(step.number, 0),
            (b'o', JOURNAL | RECORD) => {
                let file = self.seen[Disk::name_of(step) as usize];
                self.numbers.insert(step.number, file.expect("a file that is there"));
            }
            (b'c', JOURNAL | RECORD) => {
                self.files.push(Kept::default());
                let file = self.files.len() - 1;
                self.numbers.insert(step.number, file);
                self.change(step.folder, vec![(Disk::name_of(step), Some(file))]);
            }
            (b'w', IMAGE | JOURNAL | RECORD) => {
                let file = self.file(step);
                self.files[file].unsure.extend(sectors(step.at, &step.bytes));
            }
            (b's', IMAGE | JOURNAL | RECORD) => {
                let file = self.file(step);
                let Kept { sure, unsure } = &mut self.files[file];
                unsure.drain(..).for_each(|(at, bytes)| write(sure, at, &bytes));
            }
            (b'r', RECORD) => {
                let file = self.file(step);
                self.change(step.folder, vec![(Name::Early, None), (Name::Own, Some(file))]);
            }
            (b'u', JOURNAL) => self.change(step.folder, vec![(Name::Journal, None)]),
            (b'u', RECORD) => self.change(step.folder, vec![(Name::Early, None)]),
            (b'f', _) => {
                let (done, left) =
                    self.changes.drain(..).partition(|change| change.folder == step.folder);
                self.changes = left;
                done.into_iter().for_each(|change: Change| apply(&mut self.sure, &change));
            }
            (b'a', _) => self.said += usize::from(is_done(&step.bytes)),
            // What changes nothing on the disk.
            (b'o' | b'l' | b'x' | b'm' | b'b' | b'e' | b'R' | b's', _) => {}
            other => panic!("step {other:?}"),
        }
    }

    fn change(&mut self, folder: u64, names: Vec<(Name, Option<usize>)>) {
        let change = Change { folder, names };
        apply(&mut self.seen, &change);
        self.changes.push(change);
    }

    /// The disk after a cut: of what is not sure, what `pick` says.
    fn cut(&self, mut pick: impl FnMut(usize) -> Pick) -> Found {
        let mut names = self.sure;
        let mut stopped = Vec::new();
        for change in &self.changes {
            // Of one folder each change comes after those before it.
            if stopped.contains(&change.folder) {
                continue;
            }
            match pick(1) {
                Pick::None => stopped.push(change.folder),
                _ => apply(&mut names, change),
            }
        }
        let mut bytes = |file: usize| {
            let Kept { sure, unsure } = &self.files[file];
            let mut bytes = sure.clone();
            for (at, part) in unsure {
                match pick(part.len()) {
                    // The length may be there before the bytes.
                    Pick::None => {
                        if file > 0 && pick(1) != Pick::None {
                            let end = *at as usize + part.len();
                            bytes.resize(end.max(bytes.len()), 0);
                        }
                    }
                    Pick::Whole => write(&mut bytes, *at, part),
                    Pick::Part(len) => write(&mut bytes, *at, &part[..len % (part.len() + 1)]),
                    Pick::Spoiled(seed) => {
                        let mut any = Random(seed | 1);
                        let spoiled: Vec<u8> = part.iter().map(|_| any.below(256) as u8).collect();
                        write(&mut bytes, *at, &spoiled);
                    }
                }
            }
            bytes
        };
        let image = bytes(0);
        let [journal, early, record] = names.map(|file| file.map(&mut bytes));
        Found { image, journal, early, record }
    }

    /// How many parts may be there or not.
    pub fn unsure(&self) -> usize {
        self.files.iter().map(|file| file.unsure.len()).sum::<usize>() + self.changes.len()
    }
}

fn apply(names: &mut [Option<usize>; 3], change: &Change) {
    change.names.iter().for_each(|(name, file)| names[*name as usize] = *file);
}

/// Whether a path is that of a record's new text.
fn is_early(path: &[u8]) -> bool {
    path.rsplit(|&b| b == b'/').next().unwrap().starts_with(b"counter-record.")
}

/// Whether an answer says that an edit, or one that was cut, is on the disk.
fn is_done(answer: &[u8]) -> bool {
    let text = String::from_utf8_lossy(answer);
    text.contains("{\"answer\":\"done\"") || text.contains("\"found\":\"finished\"")
}

#[derive(Clone, Copy, PartialEq, Eq)]
enum Pick {
    None,
    Whole,
    /// So many of its first bytes.
    Part(usize),
    /// Any bytes.
    Spoiled(u64),
}

fn sectors(at: u64, bytes: &[u8]) -> Vec<(u64, Vec<u8>)> {
    let mut parts = Vec::new();
    let (mut at, mut bytes) = (at, bytes);
    while !bytes.is_empty() {
        let len = ((SECTOR - at % SECTOR) as usize).min(bytes.len());
        parts.push((at, bytes[..len].to_vec()));
        (at, bytes) = (at + len as u64, &bytes[len..]);
    }
    parts
}

fn write(file: &mut Vec<u8>, at: u64, bytes: &[u8]) {
    let end = at as usize + bytes.len();
    if file.len() < end {
        file.resize(end, 0);
    }
    file[at as usize..end].copy_from_slice(bytes);
}

// Cuts ------------------------------------------------------------------------------------

#[derive(Clone)]
pub struct Random(pub u64);

impl Random {
    pub fn below(&mut self, n: usize) -> usize {
        self.0 ^= self.0 << 13;
        self.0 ^= self.0 >> 7;
        self.0 ^= self.0 << 17;
        (self.0 % n as u64) as usize
    }
}

/// Random states at a point where much is unsure.
pub const SUBSETS: usize = 20;

/// The states that a cut can leave, each once, with how many edits had been said to be done: at every step nothing
/// and all of what is unsure; every subset where there are few unsure parts, and random ones, with parts and with any
/// bytes, where there are many.
pub fn cuts(disk: &Disk, steps: &[Step], random: &mut Random, mut each: impl FnMut(&Found, usize)) {
    let mut known = HashSet::new();
    let mut insert = |found: Found, said: usize| {
        if known.insert((found.key(), said)) {
            each(&found, said);
        }
    };
    let mut disk = disk.clone();
    for at in 0..=steps.len() {
        insert(disk.cut(|_| Pick::None), disk.said);
        insert(disk.cut(|_| Pick::Whole), disk.said);
        let unsure = disk.unsure();
        if unsure > 0 && unsure <= 6 {
            for set in 0..1usize << unsure {
                let mut bit = 0;
                let found = disk.cut(|_| {
                    bit += 1;
                    if (set >> (bit - 1)) & 1 == 1 { Pick::Whole } else { Pick::None }
                });
                insert(found, disk.said);
            }
        }
        // Where nothing is synced next, the following step has these states too.
        let last = steps.get(at).is_none_or(|step| matches!(step.what, b's' | b'f'));
        if unsure > 0 && (last || random.below(8) == 0) {
            for turn in 0..SUBSETS {
                // Some with few parts, some with most of them.
                let most = [2, 8, 1][turn % 3];
                let found = disk.cut(|len| match random.below(10) {
                    0 if len > 2 => Pick::Part(1 + random.below(len - 1)),
                    1 => Pick::Spoiled(random.0),
                    n if n % (most + 1) != 0 => Pick::Whole,
                    _ => Pick::None,
                });
                insert(found, disk.said);
            }
        }
        if let Some(step) = steps.get(at) {
            disk.take(step);
        }
    }
}
