//! A tree as its directories hold it. Images are made from it, and none is read for it: what an edit
//! makes of it, by docs/RULES.md alone, and its entries in the table's order.

use crate::calls::Call;
use crate::rules::{self, Entry};

#[derive(Clone, Debug)]
pub enum Item {
    File { name: Vec<u8>, offset: u32, size: u32 },
    Directory { name: Vec<u8>, items: Vec<Item> },
}

impl Item {
    pub fn file(name: &[u8], offset: u32, size: u32) -> Self {
        Self::File { name: name.to_vec(), offset, size }
    }

    pub fn directory(name: &[u8], items: Vec<Self>) -> Self {
        Self::Directory { name: name.to_vec(), items }
    }

    pub fn name(&self) -> &[u8] {
        match self {
            Self::File { name, .. } | Self::Directory { name, .. } => name,
        }
    }

    fn items(&self) -> &[Self] {
        match self {
            Self::File { .. } => &[],
            Self::Directory { items, .. } => items,
        }
    }

    /// This entry and all below it.
    fn count(&self) -> usize {
        1 + self.items().iter().map(Self::count).sum::<usize>()
    }

    /// Offset and size of each file.
    pub fn places(&mut self) -> Vec<[&mut u32; 2]> {
        match self {
            Self::File { offset, size, .. } => vec![[offset, size]],
            Self::Directory { items, .. } => items.iter_mut().flat_map(Self::places).collect(),
        }
    }

    /// The entry so many numbers further on.
    fn at(&mut self, further: &mut usize) -> Option<&mut Self> {
        if *further == 0 {
            return Some(self);
        }
        *further -= 1;
        match self {
            Self::File { .. } => None,
            Self::Directory { items, .. } => items.iter_mut().find_map(|item| item.at(further)),
        }
    }

    fn numbered(&mut self, number: u32) -> Option<&mut Self> {
        self.at(&mut (number as usize))
    }

    /// In the table's order; of a directory the offset is what an edit stores as its parent.
    pub fn entries(&self) -> Vec<Entry> {
        let mut entries = vec![];
        self.list(0, &mut entries);
        entries
    }

    fn list(&self, parent: usize, entries: &mut Vec<Entry>) {
        let (number, name) = (entries.len(), self.name().to_vec());
        match self {
            Self::File { offset, size, .. } => {
                let (offset, size) = (*offset, *size);
                entries.push(Entry { directory: false, name, parent, offset, size });
            }
            Self::Directory { items, .. } => {
                let offset = parent as u32;
                entries.push(Entry { directory: true, name, parent, offset, size: 0 });
                items.iter().for_each(|item| item.list(number, entries));
                entries[number].size = entries.len() as u32;
            }
        }
    }

    /// The tree behind an edit that is accepted, and the number that it answers with. `place`: where a file
    /// goes that gets more bytes. None if there is nothing that this edit could be made on.
    pub fn after(&self, call: &Call, place: u32) -> Option<(Self, Option<usize>)> {
        let mut tree = self.clone();
        let number = match call {
            Call::Rewrite => None,
            Call::InsertFile(parent, name) => Some(tree.insert(*parent, Self::file(name, 0, 0))?),
            Call::InsertDirectory(parent, name) => {
                Some(tree.insert(*parent, Self::directory(name, vec![]))?)
            }
            Call::MakeDirectories(start, path) => Some(tree.make(*start, path)?),
            _ => {
                let Self::File { offset, size, .. } = tree.numbered(call.target()?)? else {
                    return None;
                };
                match call.resizes() {
                    Some((_, new)) => {
                        let new = u32::try_from(new).ok()?;
                        if new > *size {
                            *offset = place;
                        }
                        *size = new;
                    }
                    None => {
                        let Call::Move(_, to) = call else { return None };
                        *offset = *to;
                    }
                }
                None
            }
        };
        Some((tree, number))
    }

    /// A new last child of entry `parent`; its number.
    fn insert(&mut self, parent: u32, item: Self) -> Option<usize> {
        let directory = self.numbered(parent)?;
        let number = parent as usize + directory.count();
        let Self::Directory { items, .. } = directory else { return None };
        items.push(item);
        Some(number)
    }

    /// The directories of a path that are not there yet; the number of the one where it ends.
    fn make(&mut self, start: u32, path: &[u8]) -> Option<usize> {
        let start_item = self.numbered(start)?;
        // Which child, from the start on.
        let mut steps: Vec<usize> = vec![];
        for part in rules::components(path) {
            let Self::Directory { items, .. } = start_item.below(&steps).1 else { return None };
            match part {
                b"" | b"." => (),
                b".." => {
                    steps.pop()?;
                }
                _ => {
                    let found = items.iter().position(|item| item.name() == part);
                    steps.push(found.unwrap_or_else(|| {
                        items.push(Self::directory(part, vec![]));
                        items.len() - 1
                    }));
                }
            }
        }
        let (further, end) = start_item.below(&steps);
        matches!(end, Self::Directory { .. }).then_some(start as usize + further)
    }

    /// The entry where these steps lead, and how many numbers further on it is.
    fn below(&mut self, steps: &[usize]) -> (usize, &mut Self) {
        let (mut further, mut here) = (0, self);
        for step in steps {
            let Self::Directory { items, .. } = here else { unreachable!() };
            further += 1 + items[..*step].iter().map(Self::count).sum::<usize>();
            here = &mut items[*step];
        }
        (further, here)
    }
}
