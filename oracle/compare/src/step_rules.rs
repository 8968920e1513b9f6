//! A second writing of a move and a resize in three calls, by docs/RULES.md alone: what each of them
//! writes, which span is left, and 29 byte by byte.

use crate::calls::Call;
use crate::judge::{keeps_size, new_place};
use crate::rules::{self, Entry, Tree, set_word};
use std::ops::Range;

/// Where the header states the table's size.
const FST_SIZE: Range<usize> = 0x428..0x42c;

/// Offset and size.
pub type Place = (u64, u64);

/// An edit that has a place, in its parts.
pub struct Parts {
    /// The file's number, its old place and its new one.
    pub file: usize,
    pub from: Place,
    pub to: Place,
    /// None where the file has that size.
    pub table: Option<Vec<u8>>,
}

fn bytes((offset, size): Place) -> Range<usize> {
    offset as usize..(offset + size) as usize
}

/// The table of these entries, laid out anew.
pub fn encode(entries: &[Entry]) -> Vec<u8> {
    let (mut records, mut texts) = (vec![], vec![]);
    for (number, entry) in entries.iter().enumerate() {
        let name = if number == 0 { 0 } else { texts.len() as u32 };
        let first = if entry.directory { entry.parent as u32 } else { entry.offset };
        for word in [u32::from(entry.directory) << 24 | name, first, entry.size] {
            records.extend(word.to_be_bytes());
        }
        if number > 0 {
            texts.extend(&entry.name);
            texts.push(0);
        }
    }
    [records, texts].concat()
}

/// The image of this tree with another table, and no byte of the old one behind it.
pub fn with_table(tree: &Tree, image: &[u8], table: &[u8]) -> Vec<u8> {
    let mut after = image.to_vec();
    after[bytes((tree.fst_offset, tree.fst_size))].fill(0);
    after[bytes((tree.fst_offset, table.len() as u64))].copy_from_slice(table);
    set_word(&mut after, FST_SIZE.start, table.len() as u32);
    after
}

impl Parts {
    pub fn of(tree: &Tree, call: &Call) -> Option<Self> {
        let file = call.target()? as usize;
        let to = new_place(tree, call)?;
        let entry = &tree.entries[file];
        let from = (entry.offset as u64, entry.size as u64);
        let table = (!keeps_size(tree, call))
            .then(|| encode(&Self { file, from, to, table: None }.tree(tree).entries));
        Some(Self { file, from, to, table })
    }

    /// The tree behind the edit.
    pub fn tree(&self, tree: &Tree) -> Tree {
        let mut tree = tree.clone();
        let entry = &mut tree.entries[self.file];
        (entry.offset, entry.size) = (self.to.0 as u32, self.to.1 as u32);
        tree
    }

    /// Of the file's bytes, how many stay its own.
    fn kept(&self) -> u64 {
        self.from.1.min(self.to.1)
    }

    pub fn goes(&self) -> bool {
        self.from.0 != self.to.0
    }

    /// What is left to be zeroed.
    pub fn span(&self) -> (u32, u32) {
        let (offset, size) = match self.goes() {
            true => self.from,
            false => (self.from.0 + self.kept(), self.from.1 - self.kept()),
        };
        if size == 0 { (0, 0) } else { (offset as u32, size as u32) }
    }

    /// Where the kept bytes are, and where they go.
    fn copies(&self) -> Option<[Range<usize>; 2]> {
        let place = |offset| bytes((offset, self.kept()));
        (self.goes() && self.kept() > 0).then(|| [self.from.0, self.to.0].map(place))
    }

    /// The image behind the copy.
    pub fn copied(&self, image: &[u8]) -> Vec<u8> {
        let mut after = image.to_vec();
        if let Some([from, to]) = self.copies() {
            after[to].copy_from_slice(&image[from]);
        }
        after
    }

    /// The image behind the table, which is written into this one.
    pub fn tabled(&self, tree: &Tree, image: &[u8]) -> Vec<u8> {
        match &self.table {
            Some(table) => with_table(tree, image, table),
            None => image.to_vec(),
        }
    }

    /// The image behind the whole edit.
    pub fn whole(&self, tree: &Tree, image: &[u8]) -> Vec<u8> {
        let mut after = self.tabled(tree, &self.copied(image));
        let (offset, size) = self.span();
        after[bytes((offset as u64, size as u64))].fill(0);
        after
    }

    /// What is wrong with an image behind the copy, by what is claimed of it alone.
    pub fn wrong_copy(&self, tree: &Tree, before: &[u8], after: &[u8]) -> Option<&'static str> {
        let [from, to] = self.copies().unwrap_or([0..0, 0..0]);
        if !differ_only_in(before, after, std::slice::from_ref(&to)) {
            return Some("the copy writes beside the kept bytes' new place");
        }
        if rules::open(after, usize::MAX).as_ref() != Ok(tree) {
            return Some("the copy: the tree is another");
        }
        if files(tree).any(|place| before[bytes(place)] != after[bytes(place)]) {
            return Some("the copy: a file's bytes are others");
        }
        (after[to] != before[from]).then_some("the copy: the kept bytes are not at their new place")
    }

    /// The same behind the table, by the image that the call was made on. `whole`: the image behind the whole
    /// edit, where the first call was made.
    pub fn wrong_table(
        &self,
        tree: &Tree,
        before: &[u8],
        after: &[u8],
        whole: Option<&[u8]>,
    ) -> Option<&'static str> {
        let written = match &self.table {
            Some(table) => {
                let most = tree.fst_size.max(table.len() as u64);
                [bytes((tree.fst_offset, most)), FST_SIZE]
            }
            None => [0..0, 0..0],
        };
        if !differ_only_in(before, after, &written) {
            return Some("the table: a byte outside it is another");
        }
        let Ok(new) = rules::open(after, usize::MAX) else {
            return Some("the table: the image does not open");
        };
        let mut right = self.tree(tree);
        if self.table.is_some() {
            // What is written there is right.
            let directories = right.entries.iter_mut().filter(|entry| entry.directory);
            directories.for_each(|entry| entry.offset = entry.parent as u32);
        }
        if new.entries != right.entries
            || new.maximum != tree.maximum
            || new.program != tree.program
        {
            return Some("the table: not the new tree");
        }
        let bytes_of = |image: &[u8]| -> Vec<u8> {
            files(&new).flat_map(|place| image[bytes(place)].to_vec()).collect()
        };
        whole
            .is_some_and(|whole| bytes_of(whole) != bytes_of(after))
            .then_some("the table: a file's bytes are not those of the whole edit")
    }
}

/// The places of the files with bytes.
fn files(tree: &Tree) -> impl Iterator<Item = Place> {
    let files = tree.entries.iter().filter(|entry| !entry.directory && entry.size > 0);
    files.map(|file| (file.offset as u64, file.size as u64))
}

fn differ_only_in(before: &[u8], after: &[u8], places: &[Range<usize>]) -> bool {
    let mut masked = after.to_vec();
    for place in places {
        masked[place.clone()].copy_from_slice(&before[place.clone()]);
    }
    masked == before
}

/// An image, and for each byte of its disc whether it is free.
pub struct Bytes {
    pub tree: Tree,
    pub image: Vec<u8>,
    free: Vec<bool>,
}

impl Bytes {
    pub fn of(tree: &Tree, image: Vec<u8>) -> Self {
        let mut free = vec![true; tree.disc_end as usize];
        free[..tree.table_end() as usize].fill(false);
        for place in files(tree).chain(tree.behind()) {
            free[bytes(place)].fill(false);
        }
        Self { tree: tree.clone(), image, free }
    }

    /// Whether the byte there is free; none past the disc end.
    pub fn free(&self, at: u64) -> Option<bool> {
        self.free.get(usize::try_from(at).ok()?).copied()
    }

    /// The image behind `zero`, or 29.
    pub fn zero(&self, (offset, size): (u32, u32)) -> Result<Vec<u8>, u32> {
        let mut after = self.image.clone();
        for at in offset as u64..offset as u64 + size as u64 {
            if self.free(at) != Some(true) {
                return Err(29);
            }
            after[at as usize] = 0;
        }
        Ok(after)
    }
}
