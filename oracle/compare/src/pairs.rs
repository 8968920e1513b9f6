//! Images of one tree that differ in all that a table written anew does not show: how its texts are shared
//! and what lies between them, stored parents, the root's name offset, where the table lies and how long it
//! is, and every byte beside it. What an edit writes of them has to be one table.

use crate::calls::{self, Call, hex};
use crate::codec::Codec;
use crate::features::{of_class, of_one_table, of_texts};
use crate::judge::{Account, keeps_size, mapped, new_place, odd_name, record_after};
use crate::masters::{self, NAMES, Program, dol_header, find};
use crate::names;
use crate::pair_rules::Item;
use crate::random::Random;
use crate::records;
use crate::rules::{self, ALIGN, DEPTH, Entry, MAXIMUM, MOST, Tree, set_word};
use crate::run::{
    Asked, Batch, Case, Run, Take, WAVE, ask_edit_with, ask_look_with, image_lines, other,
};
use crate::step_rules::encode;
use crate::steps;
use crate::teams;
use std::ops::Range;

/// A class of images for so many of `random`.
const PART: u64 = 32;

/// Edits of each class, the first a rewrite.
const ROUNDS: usize = 8;

/// Memory that is enough for any of these images.
const AMPLE: [usize; 2] = [0x4000, 0x1_0000];

const FST_SIZE: usize = 0x428;

/// A tree, and its images among those under way.
struct Class {
    tree: Item,
    cases: Range<usize>,
}

// The generator -------------------------------------------------------------------------------

/// Names of which many are equal, or ends of others.
fn pool(r: &mut Random, codec: &Codec) -> Vec<Vec<u8>> {
    let ends = |text: &[u8]| (0..text.len()).map(|at| text[at..].to_vec()).collect();
    let mut pool: Vec<Vec<u8>> = match r.below(6) {
        0 => NAMES.iter().map(|name| name.to_vec()).collect(),
        1 => (0..r.within(1, 3)).map(|_| r.pick(&NAMES).to_vec()).collect(),
        2 | 3 => ends(r.pick::<&[u8]>(&names::ENDS)),
        4 => (0..r.within(2, 6)).map(|_| names::name(r, false)).collect(),
        _ => {
            let long: Vec<u8> = (0..r.within(20, 120)).map(|_| *r.pick(b"abc")).collect();
            [0, 1, long.len() / 2, long.len() - 1].map(|at| long[at..].to_vec()).to_vec()
        }
    };
    // The original has to write the names as it reads them.
    pool.retain(|name| names::fine(name) && codec.class(name).is_none());
    if pool.is_empty() { vec![b"a".to_vec()] } else { pool }
}

/// How a tree grows.
struct Growth {
    names: Vec<Vec<u8>>,
    equal_names: bool,
    /// Of 100 entries so many are directories.
    directories: usize,
    /// Of 100 times that an entry could follow in a directory, it ends so often.
    up: usize,
    left: usize,
}

impl Growth {
    fn items(&mut self, r: &mut Random, depth: usize) -> Vec<Item> {
        let mut items: Vec<Item> = vec![];
        while self.left > 0 && (depth == 0 || !r.chance(self.up)) {
            self.left -= 1;
            let mut name = r.pick(&self.names).clone();
            while !self.equal_names && items.iter().any(|item| item.name() == name) {
                name.push(*r.pick(b"abc.-"));
            }
            items.push(match depth < DEPTH && r.chance(self.directories) {
                true => Item::directory(&name, self.items(r, depth + 1)),
                false => Item::file(&name, 0, 0),
            });
        }
        items
    }
}

/// A tree whose files have no places yet; `wide`: the tables are to end around 0x8000, the first place
/// that a growth looks at.
fn tree(r: &mut Random, codec: &Codec, wide: bool) -> Item {
    let left = match r.below(if wide { 85 } else { 100 }) {
        0..=2 if !wide => 0,
        0..=49 => r.within(1, 6),
        50..=84 => r.within(7, 20),
        85..=95 => r.within(21, 70),
        _ => r.within(100, 400),
    };
    let directories = *r.pick(&[10, 35, 35, 60, 90, if wide { 35 } else { 100 }]);
    let (names, equal_names, up) = (pool(r, codec), r.chance(40), *r.pick(&[0, 5, 30, 60]));
    let mut growth = Growth { names, equal_names, directories, up, left };
    Item::directory(b"", growth.items(r, 0))
}

/// The texts of a table, and where in them each name lies: in any order, shared or not, with anything
/// before, between and behind them.
fn texts(r: &mut Random, entries: &[Entry]) -> (Vec<u8>, Vec<usize>) {
    let mut order: Vec<usize> = (1..entries.len()).collect();
    match r.below(6) {
        0 => order.reverse(),
        1 => order.sort_by_key(|k| MOST as usize - entries[*k].name.len()),
        2 => (1..order.len()).rev().for_each(|i| order.swap(i, r.below(i + 1))),
        _ => (),
    }
    let (share, [before, between, behind]) = (r.below(3), [(); 3].map(|()| r.chance(25)));
    let slack = |r: &mut Random, ended: bool| -> Vec<u8> {
        let any: [&[u8]; 7] = [b"\0", b"zz\0", b"\x01\xff\0", b"/\0\0", b"\x95\0", b"q", b"\x95"];
        r.pick(&any[..if ended { 5 } else { 7 }]).to_vec()
    };
    let (mut texts, mut places) = (vec![], vec![0; entries.len()]);
    if before && entries.len() > 1 {
        texts = slack(r, false);
    }
    for k in order {
        let text = [&entries[k].name[..], b"\0"].concat();
        let shared = find(&texts, &text).filter(|at| match share {
            0 => false,
            1 => *at == 0 || texts[at - 1] == 0,
            _ => true,
        });
        places[k] = shared.unwrap_or(texts.len());
        if shared.is_none() {
            if between && r.chance(30) {
                texts.extend(slack(r, false));
                places[k] = texts.len();
            }
            texts.extend(text);
        }
    }
    if behind {
        let long = if r.chance(20) { r.within(1, 0x200) } else { 0 };
        texts.extend((0..long).map(|_| r.byte()));
        texts.extend(slack(r, true));
    }
    (texts, places)
}

/// A table of a class, and where it lies.
struct Shape {
    texts: Vec<u8>,
    names: Vec<usize>,
    fst_offset: u64,
    size: u64,
    /// A program before the table.
    program: Option<Program>,
}

impl Shape {
    fn new(r: &mut Random, entries: &[Entry], wide: bool) -> Self {
        let (texts, names) = texts(r, entries);
        let size = (12 * entries.len() + texts.len()) as u64;
        let mut program = r.chance(if wide { 0 } else { 20 }).then(|| masters::program(r));
        let fst_offset = match &mut program {
            Some(program) => {
                program.at = 0x440 + r.below(0x40) as u64;
                program.at + program.length() + r.below(0x40) as u64
            }
            // Up to the first place that a growth looks at, and past it.
            None if wide && r.chance(40) => ALIGN - size + r.below(3) as u64 - 1,
            None if wide && r.chance(50) => ALIGN - r.within(1, 0x200) as u64,
            None => match r.below(10) {
                0..=4 => 0x440,
                5..=7 => r.within(0x441, 0x480) as u64,
                _ => r.within(0x481, 0x900) as u64,
            },
        };
        Self { texts, names, fst_offset, size, program }
    }

    fn end(&self) -> u64 {
        self.fst_offset + self.size
    }

    fn write(&self, r: &mut Random, table: &mut [u8], entries: &[Entry]) {
        let wrong = *r.pick(&[0, 0, 50, 100]);
        for (k, entry) in entries.iter().enumerate() {
            let stored = match entry.directory && r.chance(wrong) {
                true => r.next() as u32 >> r.below(32),
                false => entry.offset,
            };
            let name = u32::from(entry.directory) << 24 | self.names[k] as u32;
            for (i, word) in [name, stored, entry.size].into_iter().enumerate() {
                set_word(table, 12 * k + 4 * i, word);
            }
        }
        if r.chance(40) {
            let any = r.next() as u32;
            let place = *r.pick(&[1, self.texts.len() as u32, 0xff_ffff, any]);
            set_word(table, 0, 1 << 24 | place & 0xff_ffff);
        }
        table[12 * entries.len()..self.size as usize].copy_from_slice(&self.texts);
    }
}

/// Gives each file a place from `floor` on; the answer is the end of the last one.
fn layout(r: &mut Random, tree: &mut Item, floor: u64) -> u64 {
    let mut files = tree.places();
    (1..files.len()).rev().for_each(|i| files.swap(i, r.below(i + 1)));
    let (mut end, mut marks) = (floor, vec![0, 0x440, 0x450, floor - 1, floor, MOST]);
    let mut empty = vec![];
    for [offset, size] in files {
        if r.chance(25) {
            empty.push(offset);
            continue;
        }
        let gap = match r.below(6) {
            _ if end == floor => 0,
            0..=2 => 0,
            3 => 1,
            4 => r.within(2, 0x10),
            _ => r.within(0x11, 0x100),
        };
        let length = match r.below(6) {
            0 => 1,
            1 => 2,
            2 => 0x10,
            3 => r.within(3, 0x20),
            4 => 0x100,
            _ => r.within(0x20, 0x80),
        };
        (*offset, *size) = (end as u32 + gap as u32, length as u32);
        marks.extend([end, end + gap as u64, end + (gap + length / 2) as u64]);
        end += (gap + length) as u64;
    }
    marks.extend([end, end + 1, end.next_multiple_of(ALIGN)]);
    for offset in empty {
        *offset = (*r.pick(&marks) + r.below(2) as u64).min(MOST) as u32;
    }
    end
}

/// Two to six images of one tree.
fn class(r: &mut Random, codec: &Codec) -> (Item, Vec<Vec<u8>>) {
    let wide = r.chance(12);
    let mut tree = tree(r, codec, wide);
    let entries = tree.entries();
    let written = encode(&entries).len() as u64;
    let count = r.within(2, 6);
    let shapes: Vec<Shape> = (0..count).map(|_| Shape::new(r, &entries, wide)).collect();
    let end = shapes.iter().map(Shape::end).max().unwrap();
    let anew = |shape: &Shape| shape.fst_offset + written;
    let floor = match r.below(10) {
        _ if wide => end.max(r.within(0x8100, 0x8700) as u64),
        0 | 1 => end + r.below(3) as u64,
        // One of them just has room for its new table, or just not.
        2..=4 => end.max(anew(r.pick(&shapes)) + r.below(3) as u64 - 1),
        _ => shapes.iter().map(anew).max().unwrap().max(end) + r.within(0x10, 0x300) as u64,
    };
    let last = layout(r, &mut tree, floor);
    let entries = tree.entries();
    let one_end = r.chance(if wide { 75 } else { 50 }).then(|| disc_end(r, last, wide));
    let image = |shape: &Shape| {
        let disc_end = one_end.unwrap_or_else(|| disc_end(r, last, wide));
        image(r, &entries, shape, written, [last, disc_end])
    };
    let images = shapes.iter().map(image).collect();
    (tree, images)
}

fn disc_end(r: &mut Random, last: u64, wide: bool) -> u64 {
    match r.below(8) {
        // A little of the second place that a growth looks at.
        _ if wide => last.max(2 * ALIGN) + r.within(1, 0x600) as u64,
        0 => last,
        1 => last + 1,
        2 | 3 => last + r.within(2, 0x80) as u64,
        4..=6 => last + r.within(0x80, 0x400) as u64,
        _ => last + r.within(0x400, 0x1000) as u64,
    }
}

fn image(
    r: &mut Random,
    entries: &[Entry],
    shape: &Shape,
    written: u64,
    [last, disc_end]: [u64; 2],
) -> Vec<u8> {
    let beyond = if r.chance(70) { 0 } else { r.within(1, 0x100) };
    let mut image = vec![0; disc_end as usize + beyond];
    for chunk in image.chunks_mut(8) {
        let bytes = r.next().to_be_bytes();
        chunk.copy_from_slice(&bytes[..chunk.len()]);
    }
    masters::header(r, &mut image);
    while odd_name(&image).is_some() {
        masters::header(r, &mut image);
    }
    let maximum = match r.below(12) {
        0 => r.next() as u32,
        1 | 2 => written as u32 + r.below(40) as u32 - 1,
        _ => 0,
    };
    let user = r.next() % (disc_end + 1);
    let header = [shape.fst_offset, shape.size, maximum as u64, r.next(), user, disc_end - user];
    for (i, word) in header.into_iter().enumerate() {
        set_word(&mut image, 0x424 + 4 * i, word as u32);
    }
    set_word(&mut image, 0x420, 0);
    let behind = r.chance(20).then(|| masters::program(r)).map(|mut program| {
        program.at = last + r.below(0x40) as u64;
        program
    });
    let behind = behind.filter(|program| program.at + program.length() <= disc_end);
    if let Some(program) = shape.program.or(behind) {
        set_word(&mut image, 0x420, program.at as u32);
        dol_header(r, &mut image[program.at as usize..], program.size);
    }
    shape.write(r, &mut image[shape.fst_offset as usize..], entries);
    image
}

/// The path of a directory that is there, and perhaps of some more.
fn path(r: &mut Random, tree: &Tree, start: u32, directory: u32) -> Vec<u8> {
    let mut parts = tree.path(start as usize, directory as usize).unwrap_or_default();
    if parts.is_empty() || r.chance(60) {
        parts.extend((0..r.within(1, 3)).map(|_| r.pick(&NAMES).to_vec()));
    }
    parts.join(&b'/')
}

/// An edit of a tree, by one of its images.
fn edit(r: &mut Random, codec: &Codec, tree: &Tree, length: usize, inserts: bool) -> Call {
    let numbers = |directory: bool| -> Vec<u32> {
        let of = (0..tree.entries.len()).filter(|k| tree.entries[*k].directory == directory);
        of.map(|number| number as u32).collect()
    };
    let (directories, mut files) = (numbers(true), numbers(false));
    files.retain(|number| tree.entries[*number as usize].size > 0);
    // Not the first of its name where it is.
    let twins: Vec<u32> = directories.iter().copied().filter(|k| tree.is_twin(*k)).collect();
    let name = |r: &mut Random| match r.below(5) {
        0 => tree.entries[r.below(tree.entries.len())].name.clone(),
        1 => names::name(r, false),
        _ => r.pick(&NAMES).to_vec(),
    };
    loop {
        let directory = *r.pick(&directories);
        let call = match r.within(if inserts { 0 } else { 10 }, 20) {
            // Where there are places to go to.
            _ if length > ALIGN as usize && r.chance(35) => steps::edit(r, tree, 1),
            _ if inserts && !twins.is_empty() && r.chance(15) => {
                let twin = *r.pick(&twins);
                Call::MakeDirectories(0, path(r, tree, 0, twin))
            }
            0 | 1 => Call::InsertFile(directory, name(r)),
            2 | 3 => Call::InsertDirectory(directory, name(r)),
            4..=9 => {
                let start = if r.chance(50) { 0 } else { *r.pick(&directories) };
                let made = match r.chance(40) {
                    true => calls::path(r, Some(tree), start, false),
                    false => path(r, tree, start, directory),
                };
                Call::MakeDirectories(start, made)
            }
            10 => Call::Rewrite,
            11..=13 => steps::edit(r, tree, 0),
            14..=16 if !files.is_empty() => {
                let number = *r.pick(&files);
                let size = r.below(tree.entries[number as usize].size as usize);
                let size = if r.chance(30) { 0 } else { size };
                match r.chance(30) {
                    true => Call::Fill(number, (0..size).map(|_| r.byte()).collect()),
                    false => Call::Resize(number, size as u32),
                }
            }
            17 | 18 => steps::edit(r, tree, 1),
            19 => calls::fill(r, tree, length),
            _ => calls::edit(r, tree, inserts),
        };
        if call.text().is_none_or(|text| codec.class(text).is_none()) {
            return call;
        }
    }
}

/// Bytes that no edit reads, put over those of an image: stored parents, and the root's name offset.
fn unread(r: &mut Random, tree: &Tree) -> Vec<String> {
    let directories = (0..tree.entries.len()).filter(|k| tree.entries[*k].directory);
    let directories: Vec<usize> = directories.collect();
    let parent = |r: &mut Random, number: usize| {
        let bytes = match r.below(4) {
            0 => u32::MAX,
            1 => r.below(tree.entries.len() + 1) as u32,
            _ => r.next() as u32,
        };
        let at = tree.fst_offset as usize + 12 * number + 4;
        format!("patch {at} {}", hex(&bytes.to_be_bytes()))
    };
    let mut lines = match r.below(4) {
        0 => vec![parent(r, 0)],
        1 => {
            let number = *r.pick(&directories);
            vec![parent(r, number)]
        }
        2 => vec![],
        _ => directories.iter().map(|number| parent(r, *number)).collect(),
    };
    if lines.is_empty() || r.chance(30) {
        let bytes = r.next().to_be_bytes();
        lines.push(format!("patch {} {}", tree.fst_offset + 1, hex(&bytes[..3])));
    }
    lines
}

// What is asked -------------------------------------------------------------------------------

/// Where in the batch of a side these are: FST size and table behind an edit; the answer of a second rewrite,
/// and the hash behind it.
struct Behind {
    size: usize,
    table: usize,
    again: usize,
    hash: usize,
}

fn ask_behind(
    mut ask: impl FnMut(String) -> usize,
    name: &str,
    [at, length]: [usize; 2],
    lines: &[String],
) -> Behind {
    ask(format!("load {name}"));
    let size = ask(format!("peek {FST_SIZE} 4"));
    let table = ask(format!("peek {at} {length}"));
    for line in lines {
        ask(line.clone());
    }
    Behind { size, table, again: ask(Call::Rewrite.line()), hash: ask("hash".into()) }
}

/// The same edit of an image with other bytes where no edit reads them: the hash before it, the answer, and
/// the hash behind it.
struct Variant {
    patches: Vec<String>,
    ours: [usize; 3],
    theirs: Option<[usize; 3]>,
    record: Option<usize>,
}

fn ask_variant(
    mut ask: impl FnMut(String) -> usize,
    name: &str,
    lines: &[String],
    call: &Call,
) -> [usize; 3] {
    ask(format!("load {name}"));
    for line in lines {
        ask(line.clone());
    }
    [ask("hash".into()), ask(call.line()), ask("hash".into())]
}

/// What the second writing says of an edit that writes a table: FST size and table behind it, as `peek`
/// tells them, and the answer.
struct Due {
    table: [String; 2],
    answer: String,
}

impl Due {
    fn of(tree: &Item, call: &Call, place: u32) -> Option<Self> {
        let (after, number) = tree.after(call, place)?;
        let table = encode(&after.entries());
        let size = (table.len() as u32).to_be_bytes();
        Some(Self {
            table: [&size[..], &table].map(|bytes| format!("ok {}", hex(bytes))),
            answer: number.map_or("ok".into(), |number| format!("ok {number}")),
        })
    }

    fn length(&self) -> usize {
        self.table[1].len() / 2 - 1
    }
}

/// An edit of one image of a class, and what is asked behind it.
struct One {
    asked: Asked,
    /// None where no table is written, or nothing could be edited.
    due: Option<Due>,
    /// Where a file goes that gets more bytes.
    place: u32,
    /// Where the edit is accepted and writes a table: on either side.
    ours: Option<Behind>,
    theirs: Option<Behind>,
    /// What a second rewrite has to answer; its record has to be this, and where it is told.
    again: &'static str,
    record: Option<(String, usize)>,
    variants: Vec<Variant>,
}

/// The lines by which the probe is lent what an edit takes.
fn lent(asked: &Asked, account: Option<Account>) -> Vec<String> {
    let mut lines = vec![];
    if let Some(account) = account {
        lines.extend([Take::set(account).line(), format!("team {}", account.team)]);
    }
    lines.push(format!("lend {} {}", asked.words, asked.bytes));
    lines
}

impl Run {
    fn differ(&mut self, what: &str, cases: &[&Case], asked: &Asked, told: [&str; 2]) {
        let mut lines = vec![];
        if !self.over() {
            let taken = asked.taken.map(|taken| taken.account);
            for case in cases {
                lines.extend(image_lines(case.image()));
                lines.extend(lent(asked, taken));
            }
        }
        self.fault(what, &lines, &asked.call.line(), "", told[0], told[1]);
    }

    /// The images of these classes are one tree to both sides, whatever stands in the bytes that no edit
    /// reads.
    fn look_alike(&mut self, classes: &[Class], cases: &mut [Case]) {
        let (mut lines, mut all) = (Batch::default(), vec![]);
        for (i, case) in cases.iter_mut().enumerate() {
            self.counts.images += 1;
            case.load(&mut lines, &self.place.join(i.to_string()));
            let looks = [Call::List, Call::Listing, Call::Free, Call::Used];
            let asked =
                looks.map(|call| ask_look_with(&mut lines, i, case, call, [AMPLE[0], 0], None));
            let patches = unread(&mut case.aside, case.opened.as_ref().unwrap());
            patches.iter().for_each(|line| lines.both(line.clone()));
            let again = asked.each_ref().map(|asked| {
                let line = asked.call.line();
                [lines.probe(line.clone()), lines.oracle(line)]
            });
            all.push((asked, patches, again));
        }
        let (probe, oracle) = self.ask(&lines);
        for (i, (asked, patches, again)) in all.iter().enumerate() {
            for (asked, [ours, theirs]) in asked.iter().zip(again) {
                if !self.hold(&cases[i], asked, &probe, &oracle) {
                    continue;
                }
                let [now, before] = [&probe[*ours], &probe[asked.probe]];
                if now != before || oracle[*theirs] != oracle[asked.oracle] {
                    let mut lines = image_lines(cases[i].image());
                    lines.extend(patches.clone());
                    let (call, what) =
                        (asked.call.line(), "pairs: a look at bytes that none reads");
                    self.fault(what, &lines, &call, &oracle[*theirs], now, before);
                }
                self.count_answer(asked.call.name(), &probe[*ours]);
            }
        }
        for class in classes {
            let first = &all[class.cases.start].0[0];
            for i in class.cases.clone() {
                let asked = &all[i].0[0];
                let two = [&cases[class.cases.start], &cases[i]];
                for (answers, at, due) in
                    [(&probe, asked.probe, first.probe), (&oracle, asked.oracle, first.oracle)]
                {
                    if answers[at] != answers[due] {
                        let told = [&answers[at][..], &answers[due]];
                        self.differ("pairs: no one tree", &two, asked, told);
                    }
                }
                let tree = cases[i].opened.as_ref().unwrap();
                self.met(of_texts(cases[i].image(), tree));
            }
            let trees = cases[class.cases.clone()].iter();
            let trees: Vec<&Tree> = trees.map(|case| case.opened.as_ref().unwrap()).collect();
            self.met(of_class(&trees));
        }
    }

    /// One edit of each class, on each of its images.
    fn edit_alike(&mut self, classes: &[Class], cases: &mut [Case], calls: &[Call]) {
        let (mut lines, mut asked) = (Batch::default(), vec![]);
        for (class, call) in classes.iter().zip(calls) {
            for i in class.cases.clone() {
                let case = &mut cases[i];
                let ample = case.r.chance(75);
                let memory = if ample { AMPLE } else { case.lend(call).into() };
                let tree = case.opened.clone().unwrap();
                let account = case.aside.chance(25).then(|| match case.aside.chance(50) {
                    true => records::beside(&mut case.aside, &tree, call),
                    false => teams::beside(&mut case.aside, &tree, call),
                });
                let take = account.map(Take::set);
                asked.push(ask_edit_with(&mut lines, i, case, call.clone(), memory, take));
            }
        }
        let (probe, oracle) = self.ask(&lines);
        let mut ones = vec![];
        let mut lines = Batch::default();
        for asked in asked {
            let (case, i) = (&mut cases[asked.case], asked.case);
            if !self.hold(case, &asked, &probe, &oracle) {
                continue;
            }
            let class = classes.iter().find(|class| class.cases.contains(&i)).unwrap();
            ones.push(ask_more(&mut lines, case, &class.tree, asked, &probe, &oracle));
        }
        let (more, more_of_theirs) = self.ask(&lines);
        for one in &ones {
            let case = &cases[one.asked.case];
            self.hold_again(case, one, [&probe, &oracle], [&more, &more_of_theirs]);
            for variant in &one.variants {
                let now = [&more[..], &more_of_theirs];
                self.hold_unread(case, one, variant, [&probe, &oracle], now);
            }
            if self.over() {
                return;
            }
        }
        for (class, call) in classes.iter().zip(calls) {
            let ones = ones.iter().filter(|one| class.cases.contains(&one.asked.case));
            let ones: Vec<&One> = ones.collect();
            self.hold_class(cases, call, &ones, &probe, [&more, &more_of_theirs]);
            if self.over() {
                return;
            }
        }
    }

    /// The second rewrite, on both sides.
    fn hold_again(
        &mut self,
        case: &Case,
        one: &One,
        [probe, oracle]: [&[String]; 2],
        [more, more_of_theirs]: [&[String]; 2],
    ) {
        let Some((ours, theirs, _)) = one.asked.hashes else { return };
        let sides = [
            (&one.ours, more, &probe[ours], one.again),
            (&one.theirs, more_of_theirs, &oracle[theirs], "ok"),
        ];
        for (side, (behind, more, hash, due)) in sides.into_iter().enumerate() {
            let Some(behind) = behind else { continue };
            let [again, left] = [&more[behind.again][..], &more[behind.hash][..]];
            let (what, told) = match (again == due, left == *hash) {
                (false, _) => {
                    (["a second rewrite", "a second rewrite of the original"][side], [again, due])
                }
                (_, false) => (
                    ["a second rewrite alters", "the original's second alters"][side],
                    [left, hash],
                ),
                _ => continue,
            };
            self.differ(&format!("pairs: {what}"), &[case], &one.asked, told);
        }
        if let Some((due, at)) = &one.record
            && more[*at] != *due
        {
            let what = "pairs: the record behind a second rewrite";
            self.differ(what, &[case], &one.asked, [&more[*at], due]);
        }
        let (Some(_), Some(due)) = (&one.ours, &one.due) else { return };
        self.count_answer("rewrite", one.again);
        let accepted = one.again == "ok";
        let cases = [
            (accepted, "pairs: a second rewrite alters nothing"),
            (!accepted, "pairs: a second rewrite, 25 for the count"),
            (
                accepted && one.asked.bytes == due.length(),
                "pairs: a second rewrite, with memory just enough",
            ),
            (
                accepted && one.record.is_some(),
                "pairs: a second rewrite, with the record that came back",
            ),
        ];
        self.met(cases.iter().filter(|(is, _)| *is).map(|(_, met)| *met).collect());
    }

    /// The edit of an image with other bytes where no edit reads them.
    fn hold_unread(
        &mut self,
        case: &Case,
        one: &One,
        variant: &Variant,
        [probe, oracle]: [&[String]; 2],
        [more, more_of_theirs]: [&[String]; 2],
    ) {
        let asked = &one.asked;
        let Some((ours, theirs, _)) = asked.hashes else { return };
        let writes = !keeps_size(case.opened.as_ref().unwrap(), &asked.call);
        let answers = [&probe[asked.probe], &oracle[asked.oracle]];
        let hashes = [&probe[ours], &oracle[theirs]];
        let sides = [(Some(variant.ours), more), (variant.theirs, more_of_theirs)];
        let mut right = true;
        for (side, (at, more)) in sides.into_iter().enumerate() {
            let Some([before, answer, after]) = at else { continue };
            right &= more[answer] == *answers[side];
            right &= match (answers[side].starts_with("ok"), writes) {
                (true, true) => more[after] == *hashes[side],
                // A clip is written, and such bytes stay.
                (true, false) if asked.call.fills() => true,
                _ => more[after] == more[before],
            };
        }
        if let (Some(record), Some(taken)) = (variant.record, asked.taken) {
            right &= more[record] == probe[taken.after];
        }
        if !right {
            let mut lines = image_lines(case.image());
            lines.extend(variant.patches.clone());
            lines.extend(lent(asked, asked.taken.map(|taken| taken.account)));
            let what = "pairs: an edit by bytes that no edit reads";
            let now = &more[variant.ours[1]];
            self.fault(what, &lines, &asked.call.line(), answers[1], now, answers[0]);
            return;
        }
        self.count_answer(asked.call.name(), &mapped(&more[variant.ours[1]]));
        let tree = case.opened.as_ref().unwrap();
        let root = format!("patch {} ", tree.fst_offset + 4);
        let name = format!("patch {} ", tree.fst_offset + 1);
        let has = |start: &str| variant.patches.iter().any(|line| line.starts_with(start));
        let accepted = answers[0].starts_with("ok");
        let mut others = variant.patches.iter();
        let others = others.any(|line| !line.starts_with(&root) && !line.starts_with(&name));
        let cases = [
            (accepted && has(&root), "pairs: four bytes over the root's stored parent"),
            (accepted && others, "pairs: four bytes over another directory's"),
            (accepted && has(&name), "pairs: three bytes over the root's name offset"),
            (!accepted, "pairs: such bytes, and the edit is refused alike"),
            (accepted && !writes, "pairs: such bytes, and no table is written"),
        ];
        self.met(cases.iter().filter(|(is, _)| *is).map(|(_, met)| *met).collect());
    }

    /// One table of all that accept the edit, on each side, and the second writing's.
    fn hold_class(
        &mut self,
        cases: &[Case],
        call: &Call,
        ones: &[&One],
        probe: &[String],
        more: [&[String]; 2],
    ) {
        let told = |side: usize, one: &One| {
            let behind = [&one.ours, &one.theirs][side].as_ref()?;
            Some([&more[side][behind.size][..], &more[side][behind.table]])
        };
        let of = |one: &One| &cases[one.asked.case];
        let mut first: [Option<&One>; 2] = [None, None];
        for one in ones {
            let Some(due) = &one.due else { continue };
            for side in 0..2 {
                let Some(now) = told(side, one) else { continue };
                let by = ["Counter's", "the original's"][side];
                if now != due.table.each_ref().map(|text| &text[..]) {
                    let what = format!("pairs: {by} table is not the second writing's");
                    let two = [now.join(" "), due.table.join(" ")];
                    self.differ(&what, &[of(one)], &one.asked, two.each_ref().map(|t| &t[..]));
                }
                // A file may have gone elsewhere, and then the tree is another.
                let same = first[side].filter(|first| first.place == one.place);
                if let Some(before) = same
                    && told(side, before) != Some(now)
                {
                    let what = format!("pairs: {by} tables of one tree differ");
                    let two = [now.join(" "), told(side, before).unwrap().join(" ")];
                    let two = two.each_ref().map(|text| &text[..]);
                    self.differ(&what, &[of(before), of(one)], &one.asked, two);
                }
                first[side].get_or_insert(one);
            }
            let answer = &probe[one.asked.probe];
            if one.ours.is_some() && *answer != due.answer {
                let what = "pairs: the answer is not the second writing's";
                self.differ(what, &[of(one)], &one.asked, [answer, &due.answer]);
            }
        }
        let met: Vec<_> = ones
            .iter()
            .map(|one| {
                let tree = of(one).opened.as_ref().unwrap();
                (tree, &probe[one.asked.probe][..], one.place)
            })
            .collect();
        self.met(of_one_table(call, &met));
    }
}

/// Behind an edit that was held: the table, a second rewrite, and the edit of images with other unread bytes.
fn ask_more(
    lines: &mut Batch,
    case: &mut Case,
    class: &Item,
    asked: Asked,
    probe: &[String],
    oracle: &[String],
) -> One {
    let tree = case.opened.clone().unwrap();
    let call = &asked.call;
    let grows = call.resizes().is_some_and(|(number, size)| {
        tree.entries.get(number as usize).is_some_and(|file| size > file.size as u64)
    });
    let place = new_place(&tree, call).filter(|_| grows).map_or(0, |(at, _)| at as u32);
    let writes = !keeps_size(&tree, call);
    let due = writes.then(|| Due::of(class, call, place)).flatten();
    let told = [&probe[asked.probe], &oracle[asked.twin.unwrap_or(asked.oracle)]];
    let [ours, theirs] = told.map(|answer| due.is_some() && answer.starts_with("ok"));
    let at = tree.fst_offset as usize;
    let length = due.as_ref().map_or(0, Due::length);
    let table = [at, length.min(case.image().len() - at)];
    let to = other(&case.name);
    let account = asked.taken.map(|taken| taken.account);
    let (mut again, mut record) = ("ok", None);
    let behind_ours = ours.then(|| {
        let back = account.map(|account| {
            let record = record_after(&tree, call, account).unwrap().unwrap();
            Account { record, ..account }
        });
        let behind = ask_behind(|line| lines.probe(line), &to, table, &lent(&asked, back));
        if let Some(Account { record: mut moved, team }) = back {
            let edits = &mut moved.teams[team as usize].edits;
            match *edits {
                MOST => again = "err 25",
                _ => *edits += 1,
            }
            record = Some((format!("ok {moved}"), lines.probe("record".into())));
        }
        lines.probe("drop_record".into());
        behind
    });
    // The original grows where it likes if Counter does not.
    let behind_theirs = (theirs && (ours || !grows))
        .then(|| ask_behind(|line| lines.oracle(line), &to, table, &[]));
    let count = *case.aside.pick(&[0, 1, 1, 2]);
    let variants = (0..count).map(|_| {
        let patches = unread(&mut case.aside, &tree);
        let before = [&patches[..], &lent(&asked, account)].concat();
        let ours = ask_variant(|line| lines.probe(line), &case.name, &before, call);
        let record = account.map(|_| lines.probe("record".into()));
        lines.probe("drop_record".into());
        // Where the original was told a place it is not asked by itself.
        let theirs = asked.twin.is_none();
        let theirs =
            theirs.then(|| ask_variant(|line| lines.oracle(line), &case.name, &patches, call));
        Variant { patches, ours, theirs, record }
    });
    let variants = variants.collect();
    let (ours, theirs) = (behind_ours, behind_theirs);
    One { due, place, ours, theirs, again, record, variants, asked }
}

// What is fed ---------------------------------------------------------------------------------

/// Four entries: `/a/a/ba` on the small master's disc, in each way of sharing its texts, with stored parents
/// that are right and that are not, a name offset of the root, and tables in two places.
fn worked() -> (Item, Vec<Vec<u8>>) {
    let file = Item::file(b"ba", 0x500, 0x100);
    let inner = Item::directory(b"a", vec![file]);
    let tree = Item::directory(b"", vec![Item::directory(b"a", vec![inner])]);
    let entries = tree.entries();
    let sharings: [(&[u8], [usize; 4]); 5] = [
        (b"a\0a\0ba\0", [0, 0, 2, 4]),
        (b"a\0ba\0", [0, 0, 0, 2]),
        (b"ba\0", [0, 1, 1, 0]),
        (b"ba\0a\0a\0", [0, 5, 3, 0]),
        (b"zz\0a\0q\0a\0\0ba\0slack\0", [0, 3, 7, 10]),
    ];
    let mut images = vec![];
    for (texts, names) in sharings {
        for (k, parents) in
            [None, Some([0, 0, 0]), Some([7, 2, 1]), Some([u32::MAX; 3])].into_iter().enumerate()
        {
            let fst_offset = if k % 2 == 0 { 0x440 } else { 0x470 };
            let size = 12 * entries.len() + texts.len();
            let mut image: Vec<u8> = (0..0x2000).map(|i| (i % (241 + k)) as u8 + 1).collect();
            image[..0x440].fill(0);
            set_word(&mut image, 0x1c, rules::GAMECUBE);
            set_word(&mut image, 0x424, fst_offset);
            set_word(&mut image, 0x428, size as u32);
            set_word(&mut image, 0x434, 0x2000);
            set_word(&mut image, MAXIMUM, 0);
            let at = fst_offset as usize;
            for (number, entry) in entries.iter().enumerate() {
                let stored = match parents {
                    Some(parents) if entry.directory => parents[number],
                    _ => entry.offset,
                };
                let root = if number == 0 && k > 1 { 0xff_ffff - k as u32 } else { 0 };
                let name = u32::from(entry.directory) << 24 | names[number] as u32 | root;
                for (i, word) in [name, stored, entry.size].into_iter().enumerate() {
                    set_word(&mut image, at + 12 * number + 4 * i, word);
                }
            }
            image[at + 12 * entries.len()..at + size].copy_from_slice(texts);
            images.push(image);
        }
    }
    (tree, images)
}

/// Two files one behind the other, from 0x20000 on, and tables that end at 0x7000 and at 0x9000: the
/// first file can only grow elsewhere, and goes to two places.
fn apart() -> (Item, Vec<Vec<u8>>) {
    let files = [(&b"a"[..], 0x2_0000), (b"b", 0x2_0010)];
    let files = files.map(|(name, at)| Item::file(name, at, 0x10));
    let tree = Item::directory(b"", files.to_vec());
    let table = encode(&tree.entries());
    let of = |end: u32| {
        let mut image = vec![0x5a; 0x2_0020];
        image[..0x440].fill(0);
        set_word(&mut image, 0x1c, rules::GAMECUBE);
        let at = end - table.len() as u32;
        set_word(&mut image, 0x424, at);
        set_word(&mut image, 0x428, table.len() as u32);
        set_word(&mut image, 0x434, 0x2_0020);
        image[at as usize..end as usize].copy_from_slice(&table);
        image
    };
    (tree, vec![of(0x7000), of(0x9000)])
}

/// A class under way, and its images.
fn begin(
    run: &Run,
    r: &mut Random,
    (tree, images): (Item, Vec<Vec<u8>>),
    cases: &mut Vec<Case>,
) -> Class {
    let start = cases.len();
    for image in images {
        let (own, name) = (Random::new(r.next()), format!("p{}a", cases.len()));
        let case = Case::new(own, image, name, &run.codec);
        assert!(
            case.opened.is_ok() && case.mixed.is_none(),
            "an image of a class that does not open"
        );
        cases.push(case);
    }
    Class { tree, cases: start..cases.len() }
}

/// Every edit of the suite `records` on the small classes.
fn small(run: &mut Run) {
    for (k, class) in [worked(), apart()].into_iter().enumerate() {
        let (mut r, mut cases) = (Random::new(k as u64), vec![]);
        let classes = [begin(run, &mut r, class, &mut cases)];
        run.look_alike(&classes, &mut cases);
        for call in records::edits(&cases[0].opened.clone().unwrap()) {
            if run.over() {
                return;
            }
            let known = call.text().is_none_or(|text| run.codec.class(text).is_none());
            if known && (run.inserts || call.text().is_none()) {
                run.edit_alike(&classes, &mut cases, &[call]);
            }
        }
    }
}

fn random(run: &mut Run, seed: u64, classes: u64) {
    let (mut begun, mut waves) = (0u64, 0);
    while begun < classes && !run.over() {
        let (mut all, mut cases, mut own) = (vec![], vec![], vec![]);
        while cases.len() < WAVE && begun < classes {
            let mut r = Random::new(seed.wrapping_add(begun.wrapping_mul(0x9e6c_63d0_876a_3f6b)));
            let class = class(&mut r, &run.codec);
            all.push(begin(run, &mut r, class, &mut cases));
            own.push(r);
            begun += 1;
        }
        run.look_alike(&all, &mut cases);
        for round in 0..ROUNDS {
            if run.over() {
                return;
            }
            let calls = all.iter().zip(&mut own).map(|(class, r)| {
                let case = &cases[r.within(class.cases.start, class.cases.end - 1)];
                match round {
                    0 => Call::Rewrite,
                    _ => {
                        let tree = case.opened.as_ref().unwrap();
                        edit(r, &run.codec, tree, case.image().len(), run.inserts)
                    }
                }
            });
            let calls: Vec<Call> = calls.collect();
            run.edit_alike(&all, &mut cases, &calls);
        }
        waves += 1;
        if waves % 20 == 0 {
            eprintln!("{begun} classes, {} calls", run.counts.total());
        }
    }
}

/// Images of one tree: small ones, and random ones.
pub fn pairs(run: &mut Run, seed: u64, images: u64) {
    small(run);
    if !run.over() {
        random(run, seed, images.div_ceil(PART));
    }
}
