//! A second writing of an edit sheet, by docs/RULES.md alone: how its bytes are read, what it is refused for,
//! what each line comes to, and the image and the record that it leaves.

use crate::calls::Call;
use crate::judge::{Account, New, keeps_size, record_after};
use crate::rules::{self, Entry, Record, TEAMS, Tree};
use crate::step_rules::{Parts, encode, with_table};

/// Bytes of a sheet's header, and of each of its lines.
pub const HEADER: usize = 16;
pub const LINE: usize = 16;
pub const LINES: u64 = 1024;

pub const DIRECTORY: u32 = 1;
pub const FILE: u32 = 2;
pub const MOVE: u32 = 3;
pub const RESIZE: u32 = 4;

#[derive(Clone, Debug, PartialEq)]
pub struct Line {
    pub kind: u32,
    pub path: Vec<u8>,
    pub offset: u32,
    pub size: u32,
}

/// A part of a sheet that is no sheet, with its line where it is one's.
#[derive(Clone, Copy, Debug, PartialEq, Eq, PartialOrd, Ord)]
pub enum Bad {
    Header,
    Count,
    Lines,
    Texts,
    Kind(usize),
    Offset(usize),
    Size(usize),
    Path(usize),
}

fn word(bytes: &[u8], at: u64) -> Option<u32> {
    let at = usize::try_from(at).ok()?;
    let bytes = bytes.get(at..at.checked_add(4)?)?;
    Some(bytes.iter().fold(0, |number, byte| number << 8 | u32::from(*byte)))
}

fn part(bytes: &[u8], from: u64, length: u64) -> Option<&[u8]> {
    bytes.get(usize::try_from(from).ok()?..usize::try_from(from + length).ok()?)
}

/// The four numbers of a header: how many lines, where lines and texts begin, how many bytes the texts have.
pub fn header(sheet: &[u8]) -> Option<[u64; 4]> {
    let numbers = [0, 4, 8, 12].map(|at| word(sheet, at).map(u64::from));
    let [Some(count), Some(lines), Some(texts), Some(length)] = numbers else { return None };
    Some([count, lines, texts, length])
}

/// The path that begins there in the texts, if it is ended.
fn path_in(texts: &[u8], at: u32) -> Option<Vec<u8>> {
    let rest = part(texts, at as u64, (texts.len() as u64).checked_sub(at as u64)?)?;
    let mut path = vec![];
    for byte in rest {
        if *byte == 0 {
            return Some(path);
        }
        path.push(*byte);
    }
    None
}

/// The lines of a sheet, or all that 30 is due for.
pub fn read(sheet: &[u8]) -> Result<Vec<Line>, Vec<Bad>> {
    let [count, lines, texts, length] = header(sheet).ok_or(vec![Bad::Header])?;
    let mut bad = vec![];
    if count > LINES {
        bad.push(Bad::Count);
    }
    let rows = part(sheet, lines, LINE as u64 * count);
    if rows.is_none() {
        bad.push(Bad::Lines);
    }
    let texts = part(sheet, texts, length);
    if texts.is_none() {
        bad.push(Bad::Texts);
    }
    let (Some(rows), Some(texts)) = (rows, texts) else { return Err(bad) };
    let mut all = vec![];
    for (k, row) in rows.chunks(LINE).enumerate() {
        let [kind, at, offset, size] = [0, 4, 8, 12].map(|at| word(row, at).unwrap());
        if !(1..=4).contains(&kind) {
            bad.push(Bad::Kind(k));
        }
        if kind != MOVE && offset != 0 {
            bad.push(Bad::Offset(k));
        }
        if kind != RESIZE && size != 0 {
            bad.push(Bad::Size(k));
        }
        match path_in(texts, at) {
            Some(path) => all.push(Line { kind, path, offset, size }),
            None => bad.push(Bad::Path(k)),
        }
    }
    if bad.is_empty() { Ok(all) } else { Err(bad) }
}

/// The bytes before the last `/`, none where there is no such byte, and those behind it.
pub fn cut(path: &[u8]) -> (&[u8], &[u8]) {
    for (at, byte) in path.iter().enumerate().rev() {
        if *byte == b'/' {
            return (&path[..at], &path[at + 1..]);
        }
    }
    (&[], path)
}

/// The entry that a path leads to from the root: 17, 18.
pub fn lookup(tree: &Tree, path: &[u8]) -> Result<usize, u32> {
    let mut steps = vec![0];
    for component in rules::components(path) {
        let here = *steps.last().unwrap();
        if !tree.entries[here].directory {
            return Err(17);
        }
        match component {
            b"" | b"." => (),
            b".." if steps.len() == 1 => return Err(18),
            b".." => {
                steps.pop();
            }
            name => steps.push(tree.child(here, name).ok_or(18u32)?),
        }
    }
    Ok(*steps.last().unwrap())
}

impl Line {
    /// The path that is looked up.
    pub fn sought(&self) -> &[u8] {
        if self.kind < MOVE { cut(&self.path).0 } else { &self.path }
    }

    /// The edit of the entry that the path leads to.
    pub fn call(&self, found: usize) -> Call {
        let (number, name) = (found as u32, cut(&self.path).1.to_vec());
        match self.kind {
            DIRECTORY => Call::InsertDirectory(number, name),
            FILE => Call::InsertFile(number, name),
            MOVE => Call::Move(number, self.offset),
            _ => Call::Resize(number, self.size),
        }
    }
}

fn file(tree: &Tree, number: u32) -> Result<(u64, u64), u32> {
    let entry = tree.entries.get(number as usize).ok_or(15u32)?;
    if entry.directory { Err(16) } else { Ok((entry.offset as u64, entry.size as u64)) }
}

fn overlap((from, size): (u64, u64), (other, length): (u64, u64)) -> bool {
    from < other + length && other < from + size
}

/// An edit's own tests, before those of its table.
fn own_tests(tree: &Tree, call: &Call) -> Result<(), u32> {
    let refuse = |due: bool, number: u32| if due { Err(number) } else { Ok(()) };
    match call {
        Call::InsertDirectory(parent, name) | Call::InsertFile(parent, name) => {
            let parent = *parent as usize;
            refuse(parent >= tree.entries.len(), 15)?;
            refuse(rules::unsafe_name(name), 13)?;
            refuse(!tree.entries[parent].directory, 17)?;
            refuse(tree.child(parent, name).is_some(), 19)?;
            refuse(!rules::units(name).all(rules::fit), 12)
        }
        Call::Move(number, offset) => {
            let (from, size) = file(tree, *number)?;
            let to = *offset as u64;
            refuse(overlap((from, size), (to, size)), 20)?;
            let fits = |(at, length): &(u64, u64)| *at <= to && to + size <= at + length;
            refuse(size > 0 && !tree.free.iter().any(fits), 21)
        }
        Call::Resize(number, size) => {
            let (from, old) = file(tree, *number)?;
            let size = *size as u64;
            if size <= old || size <= tree.most(from, old) {
                return Ok(());
            }
            let (to, _) = tree.place(size, rules::ALIGN).ok_or(21u32)?;
            // An empty file lies in the new place.
            refuse(to < from + old && from < to + size, 20)
        }
        _ => unreachable!("no line makes such an edit"),
    }
}

/// The entries with a new one, the last child of its parent.
fn with_entry(tree: &Tree, parent: usize, directory: bool, name: &[u8]) -> Vec<Entry> {
    let number = tree.entries[parent].size as usize;
    let mut around = vec![parent];
    while *around.last().unwrap() != 0 {
        around.push(tree.entries[*around.last().unwrap()].parent);
    }
    let mut entries = tree.entries.clone();
    for (k, entry) in entries.iter_mut().enumerate() {
        if entry.directory && (entry.size as usize > number || around.contains(&k)) {
            entry.size += 1;
        }
        if entry.parent >= number {
            entry.parent += 1;
        }
    }
    let size = if directory { number as u32 + 1 } else { 0 };
    entries.insert(number, Entry { directory, name: name.to_vec(), parent, offset: 0, size });
    entries
}

/// What a run is on its way: the image, its tree, and the account, if a record is in use.
#[derive(Clone)]
pub struct Stage {
    pub image: Vec<u8>,
    pub tree: Tree,
    pub account: Option<Account>,
    pub memory: [usize; 2],
}

impl Stage {
    /// Opening, and the team.
    pub fn open(image: &[u8], account: Option<Account>, memory: [usize; 2]) -> Result<Self, u32> {
        let tree = rules::open(image, memory[0]).map_err(|refusal| refusal.number)?;
        if account.is_some_and(|account| account.team as usize >= TEAMS) {
            return Err(15);
        }
        Ok(Self { image: image.to_vec(), tree, account, memory })
    }

    /// The entry that a line's path leads to: 9, 17, 18.
    pub fn found(&self, line: &Line) -> Result<usize, u32> {
        if line.path.len() > rules::PATH { Err(9) } else { lookup(&self.tree, line.sought()) }
    }

    /// The image behind an edit; all of its tests but those of the record.
    pub fn edited(&self, call: &Call) -> Result<Vec<u8>, u32> {
        let Self { tree, image, memory: [words, bytes], .. } = self;
        own_tests(tree, call)?;
        if keeps_size(tree, call) {
            return Ok(image.clone());
        }
        let new = New::of(tree, call).unwrap();
        if new.past_limits(*words, *bytes) {
            return Err(9);
        }
        if tree.forbids(new.size()) {
            return Err(26);
        }
        let no_room = new.size() > tree.most(tree.fst_offset, tree.fst_size);
        match call {
            Call::InsertDirectory(parent, name) | Call::InsertFile(parent, name) => {
                let directory = matches!(call, Call::InsertDirectory(..));
                let entries = with_entry(tree, *parent as usize, directory, name);
                let table = encode(&entries);
                assert_eq!(table.len() as u64, new.size());
                if no_room { Err(21) } else { Ok(with_table(tree, image, &table)) }
            }
            _ => {
                let parts = Parts::of(tree, call).unwrap();
                let (to, size) = parts.to;
                let over = size > 0 && tree.fst_offset + new.size() > to;
                if no_room || over { Err(21) } else { Ok(parts.whole(tree, image)) }
            }
        }
    }

    /// The edit, with the record; where it is refused all stays.
    pub fn make(&mut self, call: &Call) -> Result<(), u32> {
        let image = self.edited(call)?;
        if let Some(account) = &mut self.account {
            account.record = record_after(&self.tree, call, *account).unwrap()?;
        }
        self.tree = rules::open(&image, self.memory[0]).expect("an accepted edit opens");
        self.image = image;
        Ok(())
    }
}

/// A line that was begun.
pub struct Begun {
    pub line: Line,
    /// What it was begun on.
    pub before: Stage,
    /// The entry that its path leads to.
    pub found: Result<usize, u32>,
    /// 0, or the number that it is refused with.
    pub number: u32,
}

/// A run of a sheet: its answer, the lines that were begun, what it leaves.
pub struct Ran {
    pub number: u32,
    pub line: u32,
    pub begun: Vec<Begun>,
    pub image: Vec<u8>,
    pub record: Option<Record>,
}

impl Ran {
    pub fn answer(&self) -> String {
        match self.number {
            0 => "ok".into(),
            number => format!("err {number} {}", self.line),
        }
    }
}

/// 30, opening and the team, then the lines in turn.
pub fn run(sheet: &[u8], image: &[u8], account: Option<Account>, memory: [usize; 2]) -> Ran {
    let record = account.map(|account| account.record);
    let refused = |number| Ran { number, line: 0, begun: vec![], image: image.to_vec(), record };
    let Ok(lines) = read(sheet) else { return refused(30) };
    let mut stage = match Stage::open(image, account, memory) {
        Ok(stage) => stage,
        Err(number) => return refused(number),
    };
    let (mut begun, mut told) = (vec![], (0, 0));
    for (k, line) in lines.into_iter().enumerate() {
        let (before, found) = (stage.clone(), stage.found(&line));
        let made = found.and_then(|found| stage.make(&line.call(found)));
        let number = made.err().unwrap_or(0);
        begun.push(Begun { line, before, found, number });
        if number != 0 {
            told = (number, k as u32 + 1);
            break;
        }
    }
    let record = stage.account.map(|account| account.record);
    Ran { number: told.0, line: told.1, begun, image: stage.image, record }
}
