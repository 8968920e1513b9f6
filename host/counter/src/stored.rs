//! The table as it is stored, held against what a rewrite of its tree writes: opening goes by the nesting, so
//! stored parents, name offsets and texts that no entry uses may be anything.

use crate::disc::{Disc, Node};
use crate::image::Image;
use crate::json::{self, Json};
use crate::names;
use crate::text::counted;

/// Bytes of an entry.
const ENTRY: usize = 12;

/// The table as it is, by its offset and size.
pub fn table(image: &Image, (fst, size): (u32, u32)) -> &[u8] {
    let rest = image.bytes().get(fst as usize..).unwrap_or_default();
    rest.get(..size as usize).unwrap_or_default()
}

/// Where two tables differ first, if they do; one that ends before the other differs there.
pub fn first_difference(a: &[u8], b: &[u8]) -> Option<usize> {
    let common = a.len().min(b.len());
    let at = a.iter().zip(b).position(|(a, b)| a != b);
    at.or((a.len() != b.len()).then_some(common))
}

/// Where in the image the table begins to be another than a rewrite of its tree writes. It is held
/// against that table, its size too, and not against the bytes that follow it: one that ends before the
/// other departs there.
#[derive(Clone, Copy, PartialEq, Eq)]
pub enum Departure {
    /// It is exactly that.
    None,
    At(u64),
    /// No rewrite writes one: a limit refuses it (9).
    Refused(u32),
}

/// Of the table at this place, held against the one written anew.
pub fn departure(image: &Image, fst: (u32, u32), anew: &Result<Vec<u8>, u32>) -> Departure {
    match anew.as_ref().map(|anew| first_difference(table(image, fst), anew)) {
        Ok(None) => Departure::None,
        Ok(Some(at)) => Departure::At(u64::from(fst.0) + at as u64),
        Err(&number) => Departure::Refused(number),
    }
}

/// What lies at a place of a table that begins at `fst`.
pub fn what_lies_at(at: u64, fst: u64, table: &[u8]) -> String {
    let (rel, count) = ((at - fst) as usize, word(table, 8) as usize);
    let (k, part) = (rel / ENTRY, rel % ENTRY);
    if rel >= table.len() {
        return "its end".into();
    }
    if k >= count {
        return "its texts".into();
    }
    let folder = table[ENTRY * k] != 0;
    let field = match (part, folder) {
        (0, _) => "kind",
        (1..4, _) => "name offset",
        (4..8, true) => "stored parent",
        (4..8, false) => "offset",
        (_, true) => "next",
        (_, false) => "size",
    };
    format!("the {field} of entry {k}")
}

fn word(bytes: &[u8], at: usize) -> u32 {
    let four = bytes.get(at..at + 4).and_then(|four| four.try_into().ok());
    four.map_or(0, u32::from_be_bytes)
}

// What check tells --------------------------------------------------------------------------

/// What of a table that opens no lookup sees.
pub struct Stored {
    /// Folders whose stored parent is not the folder that holds them: number, path, stored, nested in.
    parents: Vec<(u32, Vec<u8>, u32, u32)>,
    /// The root's name offset and stored parent, which are 0.
    root: (u32, u32),
    /// Texts that no entry uses: how many bytes, where the first is, and whether all are zero.
    unused: Option<(u64, u64, bool)>,
}

impl Stored {
    pub fn read(image: &Image, disc: &Disc) -> Stored {
        let table = table(image, disc.fst());
        let stored = |node: &Node| word(table, ENTRY * node.number as usize + 4);
        let folders = disc.nodes.iter().skip(1).filter(|node| node.is_directory());
        let wrong = folders.filter(|node| stored(node) != node.parent);
        let parents =
            wrong.map(|node| (node.number, node.path.clone(), stored(node), node.parent)).collect();
        Stored {
            parents,
            root: (word(table, 0) & 0xFF_FFFF, word(table, 4)),
            unused: unused(image, disc, table),
        }
    }

    pub fn notes(&self) -> Vec<String> {
        let mut notes = Vec::new();
        if let Some((number, path, stored, parent)) = self.parents.first() {
            let more = match self.parents.len() - 1 {
                0 => String::new(),
                more => format!("; so it is with {}", counted(more, "more folder", "more folders")),
            };
            notes.push(format!(
                "entry {number}, {}, stores {stored} as its parent, and lies in entry {parent}{more}. \
                 Counter goes by the nesting; other programs may not, and refuse the disc",
                names::short(path)
            ));
        }
        if self.root != (0, 0) {
            let (name, parent) = self.root;
            notes.push(format!(
                "the root stores name offset {name} and parent {parent}, which are 0 elsewhere"
            ));
        }
        if let Some((bytes, first, zeros)) = self.unused {
            let what = if zeros { ", all zero," } else { "" };
            notes.push(format!(
                "{} of the table's texts{what} {} of no entry's name, the first at {first:#x}",
                counted(bytes as usize, "byte", "bytes"),
                if bytes == 1 { "is" } else { "are" },
            ));
        }
        notes
    }

    pub fn fields(&self) -> Vec<(&'static str, Json)> {
        let parents = self.parents.iter().map(|(number, path, stored, parent)| {
            let mut fields = vec![("number", Json::from(*number))];
            fields.extend(json::path(path));
            fields.push(("stored", (*stored).into()));
            fields.push(("parent", (*parent).into()));
            Json::Object(fields)
        });
        let root = vec![("name_offset", self.root.0.into()), ("parent", self.root.1.into())];
        vec![
            ("stored_parents", Json::List(parents.collect())),
            ("root", Json::Object(root)),
            ("unused_texts", self.unused.map_or(0, |unused| unused.0).into()),
            ("unused_texts_at", self.unused.map(|unused| unused.1).into()),
        ]
    }
}

/// The texts' bytes that are none of a name, its zero byte included. Names may share a text.
fn unused(image: &Image, disc: &Disc, table: &[u8]) -> Option<(u64, u64, bool)> {
    let fst = disc.opened.fst_offset as usize;
    let start = fst + ENTRY * disc.nodes.len();
    let end = fst + table.len();
    let mut used: Vec<(usize, usize)> = disc.nodes[1..]
        .iter()
        .map(|node| (node.name_offset(), node.name_offset() + node.stored_name(image).len() + 1))
        .collect();
    used.sort();
    used.push((end, end));
    let (mut at, mut bytes, mut first, mut zeros) = (start, 0, None, true);
    for (from, until) in used {
        if from > at {
            bytes += (from - at) as u64;
            first = first.or(Some(at as u64));
            zeros &= table[at - fst..from - fst].iter().all(|&b| b == 0);
        }
        at = at.max(until);
    }
    first.map(|first| (bytes, first, zeros))
}
