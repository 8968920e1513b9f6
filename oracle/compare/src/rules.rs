//! A second writing of opening, with the program and the names, of the totals record and the table
//! maximum, and of the few sums that the sorting of differences needs: by docs/RULES.md alone, so
//! that a difference is sorted by what the rules say of its input and not by what either side
//! answers.

use std::fmt::{self, Write as _};
use std::ops::Range;

pub const ENTRIES: usize = 16_384;
pub const TEXTS: usize = 1_048_576;
pub const DEPTH: usize = 64;
pub const PATH: usize = 1_024;
pub const ALIGN: u64 = 0x8000;
pub const DOL_HEADER: u64 = 0xe4;
/// Where the header states the table maximum.
pub const MAXIMUM: usize = 0x42c;

pub const WII: u32 = 0x5d1c_9ea3;
pub const GAMECUBE: u32 = 0xc233_9f3d;

pub fn word(image: &[u8], at: usize) -> u32 {
    u32::from_be_bytes(image[at..at + 4].try_into().unwrap())
}

pub fn set_word(image: &mut [u8], at: usize, value: u32) {
    image[at..at + 4].copy_from_slice(&value.to_be_bytes());
}

#[derive(Clone, Debug, PartialEq)]
pub struct Entry {
    pub directory: bool,
    pub name: Vec<u8>,
    /// The directory it is nested in.
    pub parent: usize,
    pub offset: u32,
    /// A file's size or a directory's next.
    pub size: u32,
}

/// An image that opens.
#[derive(Clone, Debug, PartialEq)]
pub struct Tree {
    pub entries: Vec<Entry>,
    pub fst_offset: u64,
    pub fst_size: u64,
    /// The stated maximum of the table, which opening does not judge.
    pub maximum: u64,
    pub disc_end: u64,
    /// The program, before the table or behind it: offset and size.
    pub program: Option<(u64, u64)>,
    /// Free regions: offset and size.
    pub free: Vec<(u64, u64)>,
}

pub const TEAMS: usize = 16;
/// The largest number of 32 bits.
pub const MOST: u64 = u32::MAX as u64;

/// What a record holds of a team.
#[derive(Clone, Copy, Debug, Default, PartialEq, Eq)]
pub struct Team {
    pub limit: u64,
    pub share: u64,
    pub taken: u64,
    pub edits: u64,
}

impl Team {
    /// Of its share what it has not taken.
    pub fn left(&self) -> u64 {
        self.share.saturating_sub(self.taken)
    }
}

/// A totals record: used bytes, the largest free region, and the teams.
#[derive(Clone, Copy, Debug, PartialEq, Eq)]
pub struct Record {
    pub used: u64,
    pub largest: u64,
    pub teams: [Team; TEAMS],
}

/// What an edit does to the image: used bytes before it, and used bytes, free bytes and the largest
/// free region after it.
#[derive(Clone, Copy, Debug)]
pub struct Change {
    pub before: u64,
    pub after: u64,
    pub free: u64,
    pub largest: u64,
}

impl Change {
    /// From one image to another.
    pub fn between(before: &Tree, after: &Tree) -> Self {
        let (free, largest) = (after.free_bytes(), largest(&after.free));
        Self { before: before.used(), after: after.used(), free, largest }
    }

    pub fn cost(&self) -> i64 {
        self.after as i64 - self.before as i64
    }
}

impl Record {
    /// Of an image, before any edit; teams that no limit or share is named for get 0.
    pub fn of(tree: &Tree, limits: &[u32], shares: &[u32]) -> Self {
        Self::made(tree.used(), largest(&tree.free), limits, shares)
    }

    pub fn made(used: u64, largest: u64, limits: &[u32], shares: &[u32]) -> Self {
        let number = |list: &[u32], k: usize| list.get(k).map_or(0, |number| *number as u64);
        let team =
            |k| Team { limit: number(limits, k), share: number(shares, k), taken: 0, edits: 0 };
        Self { used, largest, teams: std::array::from_fn(team) }
    }

    /// What the other teams have not taken of their shares.
    pub fn left_to_others(&self, team: usize) -> u64 {
        let others = self.teams.iter().enumerate().filter(|(k, _)| *k != team);
        others.map(|(_, other)| other.left()).sum()
    }

    /// After an edit of this team, which all else accepts; or the number that it is refused with.
    pub fn moved(mut self, team: usize, change: Change) -> Result<Self, u32> {
        let own = self.teams[team];
        let (taken, used) = (own.taken as i64 + change.cost(), self.used as i64 + change.cost());
        if taken > own.limit as i64 {
            return Err(27);
        }
        if change.free < self.left_to_others(team) {
            return Err(28);
        }
        let used = u32::try_from(used).map_err(|_| 25u32)?;
        if own.edits == MOST {
            return Err(25);
        }
        (self.used, self.largest) = (used as u64, change.largest);
        self.teams[team] = Team { taken: taken.max(0) as u64, edits: own.edits + 1, ..own };
        Ok(self)
    }

    /// The words by which the probe is told it: teams at the end that hold nothing are left out.
    pub fn words(&self) -> String {
        let count = TEAMS - self.teams.iter().rev().take_while(|t| **t == Team::default()).count();
        self.with(count)
    }

    fn with(&self, count: usize) -> String {
        let mut words = format!("{} {}", self.used, self.largest);
        for Team { limit, share, taken, edits } in &self.teams[..count] {
            write!(words, " {limit}:{share}:{taken}:{edits}").unwrap();
        }
        words
    }

    /// The record that the probe tells.
    pub fn told(answer: &str) -> Option<Self> {
        let mut words = answer.strip_prefix("ok ")?.split(' ');
        let mut number = || words.next()?.parse().ok();
        let (used, largest) = (number()?, number()?);
        let mut teams = [Team::default(); TEAMS];
        for team in &mut teams {
            let mut numbers = words.next()?.split(':').map(|number| number.parse().ok());
            let mut number = || numbers.next()?;
            let (limit, share, taken, edits) = (number()?, number()?, number()?, number()?);
            *team = Team { limit, share, taken, edits };
        }
        Some(Self { used, largest, teams })
    }
}

/// The words of a record, as the probe tells them.
impl fmt::Display for Record {
    fn fmt(&self, f: &mut fmt::Formatter) -> fmt::Result {
        f.write_str(&self.with(TEAMS))
    }
}

/// The size of the largest of these regions, 0 if there is none.
pub fn largest(regions: &[(u64, u64)]) -> u64 {
    regions.iter().map(|(_, size)| *size).max().unwrap_or(0)
}

/// The header alone: 1, 2, 3 or accepted.
pub fn header(image: &[u8]) -> Result<(), u32> {
    if image.len() < 0x1c {
        return Err(1);
    }
    if word(image, 0x18) == WII {
        return Err(2);
    }
    if image.len() < 0x20 {
        return Err(1);
    }
    if word(image, 0x1c) != GAMECUBE {
        return Err(3);
    }
    if image.len() < 0x440 { Err(1) } else { Ok(()) }
}

/// The parts of cause 4, in the order in which they are tested.
#[derive(Clone, Copy, PartialEq, Eq, Debug)]
pub enum Bound {
    FstOffset,
    DiscEnd,
    TableEnd,
    ImageShort,
}

pub fn bounds(image: &[u8]) -> Option<Bound> {
    let (fst_offset, fst_size) = (word(image, 0x424) as u64, word(image, 0x428) as u64);
    let disc_end = word(image, 0x434) as u64 + word(image, 0x438) as u64;
    if fst_offset < 0x440 {
        Some(Bound::FstOffset)
    } else if disc_end > u32::MAX as u64 {
        Some(Bound::DiscEnd)
    } else if fst_offset + fst_size > disc_end {
        Some(Bound::TableEnd)
    } else if (image.len() as u64) < disc_end {
        Some(Bound::ImageShort)
    } else {
        None
    }
}

fn table(image: &[u8]) -> &[u8] {
    let (at, size) = (word(image, 0x424) as usize, word(image, 0x428) as usize);
    &image[at..at + size]
}

/// Offset and size of every nonempty file among the first `count` records.
fn files(table: &[u8], count: usize) -> Vec<(u64, u64)> {
    (1..count)
        .filter(|i| table[12 * i] == 0)
        .map(|i| (word(table, 12 * i + 4) as u64, word(table, 12 * i + 8) as u64))
        .filter(|(_, size)| *size > 0)
        .collect()
}

/// The largest of the 18 sums in the DOL header at `at`; none if it is not all in the image.
pub fn dol_size(image: &[u8], at: u64) -> Option<u64> {
    let header = image.get(at as usize..(at + DOL_HEADER) as usize)?;
    let sum = |i: usize| word(header, 4 * i) as u64 + word(header, 4 * (36 + i)) as u64;
    (0..18).map(sum).max()
}

/// The program's region, none where the DOL offset is 0; or 24.
fn program(image: &[u8]) -> Result<Option<(u64, u64)>, u32> {
    let at = word(image, 0x420) as u64;
    if at == 0 {
        return Ok(None);
    }
    match dol_size(image, at) {
        Some(size) if size <= u32::MAX as u64 => Ok(Some((at, size.max(DOL_HEADER)))),
        _ => Err(24),
    }
}

/// What a program adds to the used regions: nothing before the table, itself from the table end on;
/// anywhere else it is 14.
fn beside_the_table(
    program: Option<(u64, u64)>,
    fst_offset: u64,
    table_end: u64,
) -> Result<Option<(u64, u64)>, u32> {
    match program {
        Some((at, _)) if at >= table_end => Ok(program),
        Some((at, size)) if at < 0x440 || at + size > fst_offset => Err(14),
        _ => Ok(None),
    }
}

/// The free regions, or 14.
pub fn free(
    mut used: Vec<(u64, u64)>,
    table_end: u64,
    disc_end: u64,
) -> Result<Vec<(u64, u64)>, u32> {
    used.push((0, table_end));
    used.sort();
    let mut free = vec![];
    let mut end = 0;
    for (offset, size) in used {
        if offset < end || offset + size > disc_end {
            return Err(14);
        }
        if offset > end {
            free.push((end, offset - end));
        }
        end = offset + size;
    }
    if end < disc_end {
        free.push((end, disc_end - end));
    }
    Ok(free)
}

/// The nonempty files of a table whose records are all there, whatever the walk would say.
pub fn files_of(image: &[u8]) -> Vec<(u64, u64)> {
    let table = table(image);
    files(table, (word(table, 8) as usize).max(1).min(table.len() / 12))
}

/// Whether files overlap, pass the disc end or lie in the table; the program plays no part. Only
/// for a table whose records are all there.
pub fn files_are_bad(image: &[u8]) -> bool {
    let table_end = word(image, 0x424) as u64 + word(image, 0x428) as u64;
    let disc_end = word(image, 0x434) as u64 + word(image, 0x438) as u64;
    free(files_of(image), table_end, disc_end).is_err()
}

/// The first byte of a pair.
fn lead(byte: u8) -> bool {
    matches!(byte, 0x81..=0x9f | 0xe0..=0xfc)
}

fn trail(byte: u8) -> bool {
    matches!(byte, 0x40..=0x7e | 0x80..=0xfc)
}

/// How many bytes the unit at the start of a text has: any byte that begins no pair is one of its
/// own, a lead byte without its trail too.
fn unit(text: &[u8]) -> usize {
    match text {
        [first, second, ..] if lead(*first) && trail(*second) => 2,
        _ => 1,
    }
}

/// A lead byte without its trail.
pub fn stray(unit: &[u8]) -> bool {
    matches!(unit, [byte] if lead(*byte))
}

/// A name or a path, cut into pairs and single bytes from its start.
pub fn units(mut text: &[u8]) -> impl Iterator<Item = &[u8]> {
    std::iter::from_fn(move || {
        let (first, rest) = text.split_at_checked(unit(text))?;
        text = rest;
        Some(first)
    })
}

/// Whether a name may hold this unit: 0x20 to 0x7E, 0xA1 to 0xDF, and pairs.
pub fn fit(unit: &[u8]) -> bool {
    matches!(unit, [0x20..=0x7e | 0xa1..=0xdf] | [_, _])
}

/// The second byte of a pair is no `/`, `\` or `:`.
pub fn unsafe_name(name: &[u8]) -> bool {
    matches!(name, b"" | b"." | b"..") || units(name).any(|u| matches!(u, b"/" | b"\\" | b":"))
}

/// The components of a path, which is cut at `/` and `\`.
pub fn components(path: &[u8]) -> Vec<&[u8]> {
    let (mut parts, mut start, mut at) = (vec![], 0, 0);
    for unit in units(path) {
        if matches!(unit, b"/" | b"\\") {
            parts.push(&path[start..at]);
            start = at + 1;
        }
        at += unit.len();
    }
    parts.push(&path[start..]);
    parts
}

/// A refusal, with what the sorting asks about it.
#[derive(Clone, Copy, Debug, PartialEq, Eq)]
pub struct Refusal {
    pub number: u32,
    /// The entry at which 5, 10 to 13 were met.
    pub entry: usize,
    /// 10 because a next passes its parent's, and nothing else.
    pub past_parent: bool,
}

fn refusal(number: u32, entry: usize) -> Refusal {
    Refusal { number, entry, past_parent: false }
}

pub fn open(image: &[u8], words: usize) -> Result<Tree, Refusal> {
    header(image).map_err(|number| refusal(number, 0))?;
    if bounds(image).is_some() {
        return Err(refusal(4, 0));
    }
    let table = table(image);
    if table.len() < 12 {
        return Err(refusal(5, 0));
    }
    match table[0] {
        0 => return Err(refusal(7, 0)),
        1 => (),
        _ => return Err(refusal(6, 0)),
    }
    let count = word(table, 8) as usize;
    if count > ENTRIES {
        return Err(refusal(9, 0));
    }
    let n = count.max(1);
    for i in 1..n {
        if 12 * (i + 1) > table.len() {
            return Err(refusal(5, i));
        }
        if table[12 * i] > 1 {
            return Err(refusal(6, i));
        }
    }
    let texts = &table[12 * n..];
    if texts.last().is_some_and(|b| *b != 0) {
        return Err(refusal(8, 0));
    }
    if texts.len() > TEXTS || words < 4 * (n + 2) {
        return Err(refusal(9, 0));
    }
    let entries = walk(table, texts, count)?;
    let (fst_offset, fst_size) = (word(image, 0x424) as u64, word(image, 0x428) as u64);
    let (table_end, disc_end) =
        (fst_offset + fst_size, word(image, 0x434) as u64 + word(image, 0x438) as u64);
    let number = |number| refusal(number, 0);
    let program = program(image).map_err(number)?;
    let mut used = files(table, n);
    used.extend(beside_the_table(program, fst_offset, table_end).map_err(number)?);
    let free = free(used, table_end, disc_end).map_err(number)?;
    let maximum = word(image, MAXIMUM) as u64;
    Ok(Tree { entries, fst_offset, fst_size, maximum, disc_end, program, free })
}

/// Where in the texts the name of a record lies.
fn name_in(texts: &[u8], record: &[u8]) -> Option<Range<usize>> {
    let at = (word(record, 0) & 0xff_ffff) as usize;
    let length = texts.get(at..)?.iter().position(|b| *b == 0)?;
    Some(at..at + length)
}

/// Where in the image the names of the records behind the root lie, as far as they have one. Only for a
/// table whose records are all there.
pub fn names(image: &[u8]) -> Vec<Range<usize>> {
    let table = table(image);
    let count = (word(table, 8) as usize).max(1).min(table.len() / 12);
    (1..count).filter_map(|entry| name(image, entry)).collect()
}

/// The same for one record.
pub fn name(image: &[u8], entry: usize) -> Option<Range<usize>> {
    let table = table(image);
    let count = (word(table, 8) as usize).max(1).min(table.len() / 12);
    let (records, texts) = table.split_at(12 * count);
    let start = word(image, 0x424) as usize + records.len();
    let name = name_in(texts, &records[12 * entry..])?;
    Some(start + name.start..start + name.end)
}

fn walk(table: &[u8], texts: &[u8], count: usize) -> Result<Vec<Entry>, Refusal> {
    if count == 0 {
        return Err(refusal(10, 0));
    }
    let root = Entry { directory: true, name: vec![], parent: 0, offset: 0, size: count as u32 };
    let mut entries = vec![root];
    let mut around = vec![0]; // the directories that the entry is nested in
    for k in 1..count {
        while k >= entries[*around.last().unwrap()].size as usize {
            around.pop();
        }
        let parent = *around.last().unwrap();
        let record = &table[12 * k..12 * k + 12];
        let name = &texts[name_in(texts, record).ok_or(refusal(11, k))?];
        if !units(name).all(fit) {
            return Err(refusal(12, k));
        }
        if unsafe_name(name) {
            return Err(refusal(13, k));
        }
        let directory = record[0] == 1;
        let (offset, size) = (word(record, 4), word(record, 8));
        if directory {
            let next = size as usize;
            let past_parent = next > entries[parent].size as usize;
            if next <= k || next > count || past_parent {
                let past_parent = past_parent && next > k && next <= count;
                return Err(Refusal { number: 10, entry: k, past_parent });
            }
            if around.len() > DEPTH {
                return Err(refusal(9, k));
            }
            around.push(k);
        }
        entries.push(Entry { directory, name: name.to_vec(), parent, offset, size });
    }
    Ok(entries)
}

impl Tree {
    pub fn table_end(&self) -> u64 {
        self.fst_offset + self.fst_size
    }

    /// The program where it lies behind the table.
    pub fn behind(&self) -> Option<(u64, u64)> {
        self.program.filter(|(at, _)| *at >= self.table_end())
    }

    /// Table end, all files, and the program where it lies behind the table.
    pub fn used(&self) -> u64 {
        let files = self.entries.iter().filter(|e| !e.directory).map(|e| e.size as u64);
        self.table_end() + files.sum::<u64>() + self.behind().map_or(0, |(_, size)| size)
    }

    pub fn free_bytes(&self) -> u64 {
        self.free.iter().map(|(_, size)| size).sum()
    }

    /// Texts of the table written anew.
    pub fn texts(&self) -> usize {
        self.entries[1..].iter().map(|e| e.name.len() + 1).sum()
    }

    /// The size of the table written anew, of the entries as they are.
    pub fn written(&self) -> u64 {
        (12 * self.entries.len() + self.texts()) as u64
    }

    /// Whether a table of that size is above the stated maximum.
    pub fn forbids(&self, size: u64) -> bool {
        self.maximum != 0 && size > self.maximum
    }

    pub fn depth(&self, mut number: usize) -> usize {
        let mut depth = 0;
        while number != 0 {
            number = self.entries[number].parent;
            depth += 1;
        }
        depth
    }

    /// The path of an entry below `start`, if it is below it.
    pub fn path(&self, start: usize, mut number: usize) -> Option<Vec<Vec<u8>>> {
        let mut parts = vec![];
        while number != start {
            if number == 0 {
                return None;
            }
            parts.push(self.entries[number].name.clone());
            number = self.entries[number].parent;
        }
        parts.reverse();
        Some(parts)
    }

    pub fn child(&self, directory: usize, name: &[u8]) -> Option<usize> {
        (1..self.entries.len())
            .find(|k| self.entries[*k].parent == directory && self.entries[*k].name == name)
    }

    /// Whether an entry before this one has its name, in the same directory.
    pub fn is_twin(&self, number: u32) -> bool {
        let entry = &self.entries[number as usize];
        number > 0 && self.child(entry.parent, &entry.name) != Some(number as usize)
    }

    /// `max_region_size` in whole numbers.
    pub fn most(&self, offset: u64, size: u64) -> u64 {
        if let Some((_, size)) = self.free.iter().find(|(at, _)| *at == offset) {
            return *size;
        }
        let end = offset + size;
        let next = self.free.iter().position(|(at, _)| *at > offset).unwrap_or(self.free.len());
        if next > 0 {
            let (at, size) = self.free[next - 1];
            if end < at + size {
                return at + size - offset;
            }
        }
        match self.free.get(next) {
            Some((at, more)) if *at == end => size + more,
            _ => size,
        }
    }

    /// The place with the largest rest at a multiple of `align`, the last among equals.
    pub fn place(&self, size: u64, align: u64) -> Option<(u64, u64)> {
        self.free
            .iter()
            .filter_map(|(at, len)| {
                let first = at.next_multiple_of(align);
                let rest = (at + len).checked_sub(first).filter(|rest| *rest > 0)?;
                (rest >= size).then_some((first, rest))
            })
            .max_by_key(|(_, rest)| *rest)
    }
}
