//! A second writing of a new master, by docs/RULES.md alone: which number the call answers, and what
//! an image is that it makes. Which places the files take is not written again: an image is held to
//! what any placement has to be, and 21 to there being none.

use crate::rules::{self, ALIGN, DEPTH, ENTRIES, GAMECUBE, PATH, TEXTS, set_word, word};
use std::collections::{HashMap, HashSet};

/// Where the table of a new master lies.
pub const FST_OFFSET: usize = 0x440;

/// Lists of at most so many files with bytes are placed in every order.
const EVERY_ORDER: usize = 5;

/// What is wished for.
#[derive(Clone, Debug, PartialEq)]
pub struct WishList {
    pub game_code: [u8; 4],
    pub disc_end: u32,
    pub sizes: Vec<u32>,
    /// The paths, each ended by a zero byte.
    pub paths: Vec<u8>,
}

/// An entry of the new tree.
struct Wished {
    directory: bool,
    name: Vec<u8>,
    parent: usize,
    /// A file's size or a directory's next.
    second: u32,
}

/// The tree of a list of good paths.
pub struct WishedTree {
    entries: Vec<Wished>,
    /// The entry of each file, in the order of the list.
    pub files: Vec<usize>,
    texts: usize,
    pub depth: usize,
}

/// Where in a path its slashes are: no pair has one for its second byte.
fn slashes(path: &[u8]) -> impl Iterator<Item = usize> {
    path.iter().enumerate().filter(|(_, byte)| **byte == b'/').map(|(at, _)| at)
}

/// One path: 9, 13 or 12.
fn path_alone(path: &[u8]) -> Result<(), u32> {
    let parts = || path.split(|byte| *byte == b'/');
    if path.len() > PATH {
        Err(9)
    } else if parts().any(rules::unsafe_name) {
        Err(13)
    } else if !parts().all(|part| rules::units(part).all(rules::fit)) {
        Err(12)
    } else {
        Ok(())
    }
}

/// The paths in turn; 19 is a path that is not behind the last one, or in a directory that is a file of any
/// path before.
fn paths_in_turn(paths: &[&[u8]]) -> Result<(), u32> {
    let mut before = HashSet::new();
    let mut last: Option<&[u8]> = None;
    for path in paths {
        path_alone(path)?;
        let in_a_file = slashes(path).any(|at| before.contains(&path[..at]));
        if last.is_some_and(|last| last >= *path) || in_a_file {
            return Err(19);
        }
        before.insert(*path);
        last = Some(path);
    }
    Ok(())
}

/// The least disc end at which files of these sizes, none of them empty, lie behind `start` in this order.
fn end_in_order(start: u64, sizes: &[u64]) -> u64 {
    sizes.iter().fold(start, |end, size| end.next_multiple_of(ALIGN) + size)
}

/// The same over all orders, each of which is tried.
fn end_in_any_order(start: u64, sizes: &mut [u64], placed: usize) -> u64 {
    if placed == sizes.len() {
        return end_in_order(start, sizes);
    }
    let mut least = u64::MAX;
    for next in placed..sizes.len() {
        sizes.swap(placed, next);
        least = least.min(end_in_any_order(start, sizes, placed + 1));
        sizes.swap(placed, next);
    }
    least
}

/// The same by a sum: of all files but the last each begins and ends at a multiple.
fn end_by_sum(start: u64, sizes: &[u64]) -> u64 {
    let whole = |size: u64| size.next_multiple_of(ALIGN);
    let all: u64 = whole(start) + sizes.iter().map(|size| whole(*size)).sum::<u64>();
    let ends = sizes.iter().map(|last| all - whole(*last) + last);
    ends.min().unwrap_or(start)
}

impl WishList {
    /// The paths, one for each size; or 8.
    fn cut(&self) -> Result<Vec<&[u8]>, u32> {
        let mut paths: Vec<&[u8]> = self.paths.split(|byte| *byte == 0).collect();
        let behind_the_last = paths.pop().unwrap();
        if behind_the_last.is_empty() && paths.len() == self.sizes.len() {
            Ok(paths)
        } else {
            Err(8)
        }
    }

    /// The paths of a list that has one for each size.
    pub fn each_path(&self) -> Vec<&[u8]> {
        self.cut().unwrap_or_default()
    }

    /// The tree; or 8, 9, 13, 12 or 19 of the paths, whatever is lent.
    pub fn tree(&self) -> Result<WishedTree, u32> {
        let paths = self.cut()?;
        paths_in_turn(&paths)?;
        Ok(WishedTree::of(&paths, &self.sizes))
    }

    /// The least disc end at which table and files have a place.
    pub fn least_end(&self, tree: &WishedTree) -> u64 {
        let table_end = (FST_OFFSET + tree.table_size()) as u64;
        let sizes = self.sizes.iter().map(|size| u64::from(*size));
        let mut sizes: Vec<u64> = sizes.filter(|size| *size > 0).collect();
        let by_sum = end_by_sum(table_end, &sizes);
        if sizes.len() <= EVERY_ORDER {
            assert_eq!(by_sum, end_in_any_order(table_end, &mut sizes, 0), "{sizes:?}");
        }
        by_sum
    }

    /// The number that refuses the list in an image of `room` bytes with so many words and bytes lent.
    pub fn refused(&self, tree: &Result<WishedTree, u32>, room: usize, lent: [usize; 2]) -> u32 {
        let tree = match tree {
            Ok(tree) => tree,
            Err(number) => return *number,
        };
        if tree.passes_limits() || tree.wants(lent) || room < self.disc_end as usize {
            9
        } else if self.least_end(tree) > u64::from(self.disc_end) {
            21
        } else {
            0
        }
    }

    /// What a new master begins with: its header, and the table with the files at these offsets.
    pub fn head(&self, tree: &WishedTree, offsets: &[u32]) -> Vec<u8> {
        let mut head = vec![0; FST_OFFSET];
        head[..4].copy_from_slice(&self.game_code);
        set_word(&mut head, 0x1c, GAMECUBE);
        set_word(&mut head, 0x424, FST_OFFSET as u32);
        set_word(&mut head, 0x428, tree.table_size() as u32);
        set_word(&mut head, 0x434, self.disc_end);
        head.extend(tree.table(offsets));
        head
    }

    /// What is wrong with the offsets of the files, if anything is.
    pub fn misplaced(&self, tree: &WishedTree, offsets: &[u32]) -> Option<&'static str> {
        let table_end = (FST_OFFSET + tree.table_size()) as u64;
        let mut taken = vec![];
        for (size, offset) in self.sizes.iter().zip(offsets) {
            let (size, offset) = (u64::from(*size), u64::from(*offset));
            if size == 0 {
                if offset != 0 {
                    return Some("an empty file is not at 0");
                }
                continue;
            }
            if offset % ALIGN != 0 {
                return Some("a file does not begin at a multiple of 0x8000");
            }
            if offset < table_end {
                return Some("a file lies in header or table");
            }
            if offset + size > u64::from(self.disc_end) {
                return Some("a file passes the disc end");
            }
            taken.push((offset, offset + size));
        }
        taken.sort();
        let overlap = taken.windows(2).any(|pair| pair[1].0 < pair[0].1);
        overlap.then_some("two files share a byte")
    }
}

impl WishedTree {
    /// The files in the order of the list, and each directory where the first path in it comes.
    fn of(paths: &[&[u8]], sizes: &[u32]) -> Self {
        let entry = |directory, name: &[u8], parent, second| Wished {
            directory,
            name: name.to_vec(),
            parent,
            second,
        };
        let mut entries = vec![entry(true, b"", 0, 1)];
        let (mut files, mut depth) = (vec![], 0);
        let mut directories: HashMap<&[u8], usize> = HashMap::new();
        for (path, size) in paths.iter().zip(sizes) {
            let (mut parent, mut start) = (0, 0);
            for at in slashes(path) {
                parent = *directories.entry(&path[..at]).or_insert_with(|| {
                    entries.push(entry(true, &path[start..at], parent, 0));
                    entries.len() - 1
                });
                start = at + 1;
            }
            depth = depth.max(slashes(path).count());
            files.push(entries.len());
            entries.push(entry(false, &path[start..], parent, *size));
        }
        // A directory's next is the number behind the last entry in it.
        for k in (1..entries.len()).rev() {
            let Wished { directory, parent, second, .. } = entries[k];
            let next = if directory { second } else { k as u32 + 1 };
            let around = &mut entries[parent];
            around.second = around.second.max(next);
        }
        let texts = entries[1..].iter().map(|entry| entry.name.len() + 1).sum();
        Self { entries, files, texts, depth }
    }

    pub fn count(&self) -> usize {
        self.entries.len()
    }

    pub fn texts(&self) -> usize {
        self.texts
    }

    pub fn table_size(&self) -> usize {
        12 * self.entries.len() + self.texts
    }

    /// The least words and bytes that the call takes.
    pub fn least(&self) -> [usize; 2] {
        [4 * (self.entries.len() + 2), self.table_size()]
    }

    pub fn passes_limits(&self) -> bool {
        self.entries.len() > ENTRIES || self.texts > TEXTS || self.depth > DEPTH
    }

    /// Whether less is lent than the call takes.
    pub fn wants(&self, lent: [usize; 2]) -> bool {
        let least = self.least();
        lent[0] < least[0] || lent[1] < least[1]
    }

    /// The offsets of the files in the table that an image begins with.
    pub fn offsets(&self, head: &[u8]) -> Vec<u32> {
        self.files.iter().map(|k| word(head, FST_OFFSET + 12 * k + 4)).collect()
    }

    fn table(&self, offsets: &[u32]) -> Vec<u8> {
        let (mut records, mut texts) = (vec![], vec![]);
        let mut offsets = offsets.iter();
        for (k, entry) in self.entries.iter().enumerate() {
            let kind = u32::from(entry.directory) << 24;
            let second =
                if entry.directory { entry.parent as u32 } else { *offsets.next().unwrap() };
            for number in [kind | texts.len() as u32, second, entry.second] {
                records.extend(number.to_be_bytes());
            }
            if k > 0 {
                texts.extend(&entry.name);
                texts.push(0);
            }
        }
        [records, texts].concat()
    }

    /// The entries as `list` writes them: a directory's path ends in `/`.
    pub fn listed(&self, offsets: &[u32]) -> Vec<(String, Vec<u8>)> {
        let mut children = vec![0; self.entries.len()];
        for entry in &self.entries[1..] {
            children[entry.parent] += 1;
        }
        let mut offsets = offsets.iter();
        let mut listed: Vec<(String, Vec<u8>)> = vec![];
        for (k, entry) in self.entries.iter().enumerate() {
            let around = if k > 0 { listed[entry.parent].1.clone() } else { vec![] };
            let (parent, second) = (entry.parent, entry.second);
            listed.push(if entry.directory {
                let numbers = format!("d:{k}:{parent}:{second}:{}", children[k]);
                (numbers, [&around, &entry.name[..], b"/"].concat())
            } else {
                let numbers = format!("f:{k}:{}:{second}", offsets.next().unwrap());
                (numbers, [&around, &entry.name[..]].concat())
            });
        }
        listed
    }
}
