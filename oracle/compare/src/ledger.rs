//! The ledger, written down here a second time: it is fed the first image and then each accepted
//! call alone. After the list the image has to be what it says, and so has a record that went
//! through the list.

use crate::calls::Call;
use crate::rules::{self, Record, TEAMS, Tree};

struct Entry {
    directory: bool,
    name: Vec<u8>,
    depth: usize,
    file: History,
}

/// What is held of a file; nothing of a directory.
#[derive(Default)]
struct History {
    size: u64,
    /// Starting place and bytes.
    place: u64,
    bytes: Vec<u8>,
    /// How many of these bytes no edit has cut.
    m: usize,
    named: bool,
    filled: bool,
}

pub struct Ledger {
    /// In preorder, the root first.
    entries: Vec<Entry>,
    pub first: Vec<u8>,
    /// The accepted calls, as lines.
    pub accepted: Vec<String>,
    /// What each team has taken, by the used bytes of the images alone, and its accepted calls.
    teams: [(u64, u64); TEAMS],
    used: u64,
}

impl Ledger {
    pub fn of(tree: &Tree, image: &[u8]) -> Self {
        let entry = |number: usize| {
            let entry = &tree.entries[number];
            let (place, size) = (entry.offset as usize, entry.size as usize);
            let mut file = History::default();
            if !entry.directory {
                let bytes = if size > 0 { image[place..place + size].to_vec() } else { vec![] };
                (file.place, file.size, file.m) = (place as u64, size as u64, size);
                file.bytes = bytes;
            }
            let (directory, name, depth) =
                (entry.directory, entry.name.clone(), tree.depth(number));
            Entry { directory, name, depth, file }
        };
        let entries = (0..tree.entries.len()).map(entry).collect();
        let (first, accepted, teams) = (image.to_vec(), vec![], [(0, 0); TEAMS]);
        Self { entries, first, accepted, teams, used: tree.used() }
    }

    /// The number behind the last entry below this one.
    fn end(&self, number: usize) -> usize {
        let depth = self.entries[number].depth;
        let below = self.entries[number + 1..].iter().take_while(|entry| entry.depth > depth);
        number + 1 + below.count()
    }

    /// A new entry as last child; the answer is its number.
    fn insert(&mut self, parent: usize, name: &[u8], directory: bool) -> usize {
        let (end, depth) = (self.end(parent), self.entries[parent].depth + 1);
        let entry = Entry { directory, name: name.to_vec(), depth, file: History::default() };
        self.entries.insert(end, entry);
        end
    }

    fn child(&self, parent: usize, name: &[u8]) -> Option<usize> {
        let depth = self.entries[parent].depth + 1;
        let mut below = parent + 1..self.end(parent);
        below.find(|k| self.entries[*k].depth == depth && self.entries[*k].name == name)
    }

    pub fn accept(&mut self, call: &Call) {
        self.accepted.push(call.line());
        match call {
            Call::InsertFile(parent, name) => {
                self.insert(*parent as usize, name, false);
            }
            Call::InsertDirectory(parent, name) => {
                self.insert(*parent as usize, name, true);
            }
            Call::MakeDirectories(start, path) => {
                let mut steps = vec![*start as usize];
                for part in rules::components(path) {
                    match part {
                        b"" | b"." => (),
                        b".." => {
                            steps.pop();
                        }
                        _ => {
                            let at = *steps.last().unwrap();
                            let found = self.child(at, part);
                            steps.push(found.unwrap_or_else(|| self.insert(at, part, true)));
                        }
                    }
                }
            }
            Call::Move(number, _) => self.entries[*number as usize].file.named = true,
            Call::Resize(number, size) => {
                let file = &mut self.entries[*number as usize].file;
                file.size = *size as u64;
                file.m = file.m.min(*size as usize);
                file.named = true;
            }
            Call::Fill(number, clip) => self.fill(*number, clip.clone()),
            Call::FillZeros(number, length) => self.fill(*number, vec![0; *length as usize]),
            _ => (),
        }
    }

    /// The call before carried this team, and left so many bytes used.
    pub fn charge(&mut self, team: Option<u32>, used: u64) {
        if let Some(team) = team {
            let (taken, edits) = &mut self.teams[team as usize];
            *taken = (*taken + used).saturating_sub(self.used);
            *edits += 1;
        }
        self.used = used;
    }

    /// The clip is what the file starts with.
    fn fill(&mut self, number: u32, clip: Vec<u8>) {
        let file = &mut self.entries[number as usize].file;
        (file.size, file.m) = (clip.len() as u64, clip.len());
        (file.bytes, file.named, file.filled) = (clip, true, true);
    }

    /// What each nonempty file has to begin with, by its number.
    pub fn begins(&self) -> Vec<(usize, &[u8])> {
        let files = self.entries.iter().enumerate().filter(|(_, entry)| entry.file.m > 0);
        files.map(|(number, entry)| (number, &entry.file.bytes[..entry.file.m])).collect()
    }

    /// What is wrong with the tree that the image opens as.
    pub fn wrong(&self, tree: &Tree) -> Option<&'static str> {
        if self.entries.len() != tree.entries.len() {
            return Some("the ledger: how many entries there are");
        }
        for (number, (held, found)) in self.entries.iter().zip(&tree.entries).enumerate() {
            let same = held.directory == found.directory && held.depth == tree.depth(number);
            if !same || held.name != found.name {
                return Some("the ledger: names, kinds, nesting, order");
            }
            if !held.directory && held.file.size != found.size as u64 {
                return Some("the ledger: a file's size");
            }
            if !held.directory && !held.file.named && held.file.place != found.offset as u64 {
                return Some("the ledger: a file that no edit named was moved");
            }
        }
        None
    }

    /// What is wrong with a record that was made at opening and went through every edit of the
    /// list.
    pub fn wrong_record(&self, tree: &Tree, record: Option<Record>) -> Option<&'static str> {
        let record = record?;
        let afresh = Record::of(tree, &[], &[]);
        if (record.used, record.largest) != (afresh.used, afresh.largest) {
            return Some("the record's used bytes or largest region after a list of edits");
        }
        let held = record.teams.map(|team| (team.taken, team.edits));
        (held != self.teams).then_some("what the teams have taken, or their counts, after a list")
    }

    pub fn features(&self) -> Vec<&'static str> {
        let mut met = vec!["ledger: lists of edits held to it"];
        for file in self.entries.iter().filter(|entry| !entry.directory).map(|entry| &entry.file) {
            met.push(match file {
                History { filled: true, m, bytes, .. } if *m < bytes.len() => {
                    "ledger: files filled, and then cut"
                }
                History { filled: true, size, m, .. } if *m < *size as usize => {
                    "ledger: files filled, and then grown"
                }
                History { filled: true, .. } => "ledger: files filled, with all of the clip",
                History { named: true, .. } => "ledger: files named, and never filled",
                _ => "ledger: files never named",
            });
        }
        met
    }
}
