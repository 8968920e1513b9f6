//! Every edit with a record of teams, against an earlier library, which may have no teams, or no records; and a record made, beside its
//! totals.

use crate::calls::{NEW, Table, clip, directory};
use crate::images::{self, FST_OFFSET, KINDS, Plan};
use crate::measure::{Undo, tenth};
use crate::places::{Case, TOTALS_BEFORE, time_open, time_record};
use crate::sides::{Call, Lent, RECORD, TEAM};
use counter_sys::{self as counter, Memory, REGION_WORDS, Record, TEAMS, Team};
use std::time::Duration;

const BAR: f64 = 1.1;
const FST_MAXIMUM: usize = 0x42C;
const BUDGET: Duration = Duration::from_secs(2);

/// What comes of an edit: the file in the middle stays where it is, or goes elsewhere, or nothing changes.
#[derive(Clone, Copy, PartialEq)]
enum End {
    Stays,
    Moves,
    Refused,
}

impl End {
    fn number(self) -> u32 {
        if self == End::Refused { 21 } else { 0 }
    }
}

/// Name, edit, the size of the file in the middle, and what comes of it.
fn cases(plan: &Plan) -> Vec<(&'static str, Call, u32, End)> {
    use End::*;
    let file = plan.file;
    vec![
        ("rewrite", Call::Rewrite, 64, Stays),
        ("insert a file, root", Call::InsertFile(0, b"new.bin".to_vec()), 64, Stays),
        ("insert a directory, root", Call::InsertDirectory(0, b"new".to_vec()), 64, Stays),
        ("make-directories, 3 new", Call::MakeDirectories(b"x/y/z".to_vec()), 64, Stays),
        ("make-directories, all there", Call::MakeDirectories(directory(plan)), 64, Stays),
        ("move, 1 byte", Call::Move(file, plan.free), 1, Moves),
        ("resize, smaller", Call::Resize(file, 32), 64, Stays),
        ("resize, larger where it is", Call::Resize(file, 65), 64, Stays),
        ("resize, 64 bytes go elsewhere", Call::Resize(file, 128), 64, Moves),
        ("resize, the present size", Call::Resize(file, 64), 64, Stays),
        ("resize, refused with 21", Call::Resize(file, plan.disc_end), 64, Refused),
        ("fill, its own size", Call::Fill(file, clip(64)), 64, Stays),
        ("fill, a byte longer where it is", Call::Fill(file, clip(65)), 64, Stays),
        ("fill, 64 bytes go elsewhere", Call::Fill(file, clip(128)), 64, Moves),
    ]
}

/// The image, with the memory that an edit wants which adds entries. It states a maximum that no table
/// passes, so that an edit has one to judge.
fn case(plan: &Plan) -> Case {
    let table = images::table_of(&plan.nodes).len();
    let Lent { words, bytes, .. } = Lent::new(plan.nodes.len() + NEW, table + 20 * NEW, 0);
    let mut image = images::image(plan);
    image[FST_MAXIMUM..FST_MAXIMUM + 4].copy_from_slice(&u32::MAX.to_be_bytes());
    Case { image, words, bytes }
}

/// Before and now, each at the best of its four places in memory.
fn best(all: [Duration; 8]) -> [Duration; 2] {
    [&all[..4], &all[4..]].map(|side| *side.iter().min().unwrap())
}

/// Limits and shares, each another number.
fn limits_and_shares() -> [[u32; TEAMS]; 2] {
    [1 << 20, 1 << 10].map(|first| std::array::from_fn(|k| first + k as u32))
}

/// Used bytes as `totals` tells them, the largest of the free regions, and teams that have taken nothing.
fn record_of(image: &[u8], entries: usize) -> Record {
    let Lent { mut words, mut bytes, mut list } = Lent::new(entries, 0, entries + 1);
    let memory = &mut Memory { words: &mut words, bytes: &mut bytes };
    let (_, used) = counter::totals(image, memory).unwrap();
    let count = counter::free_regions(image, memory, &mut list).unwrap() as usize;
    let sizes = list.chunks(REGION_WORDS).take(count).map(|region| region[1]);
    let [limits, shares] = limits_and_shares();
    let team = |k: usize| Team { limit: limits[k], share: shares[k], taken: 0, edits: 0 };
    Record { used, largest: sizes.max().unwrap_or(0), teams: std::array::from_fn(team) }
}

/// Where the table says that the file in the middle lies.
pub fn place(plan: &Plan, image: &[u8]) -> [u8; 4] {
    let at = FST_OFFSET + 12 * plan.file as usize + 4;
    image[at..at + 4].try_into().unwrap()
}

/// Both libraries come to the same image, and this one gives back the record that it has to.
fn hold(plan: &Plan, call: &Call, end: End, case: &mut Case) -> Undo {
    let (before, room) = (case.image.clone(), case.bytes.len());
    let earlier = case.edit(call, 0, 0, room);
    let after = std::mem::replace(&mut case.image, before.clone());
    let now = case.edit(call, 1, 0, room);
    assert!(case.image == after);
    assert_eq!([earlier.number, now.number], [end.number(); 2]);
    assert_eq!(place(plan, &before) != place(plan, &after), end == End::Moves);
    let [old, new] = [&before, &after].map(|image| record_of(image, plan.nodes.len() + NEW));
    let mut right = RECORD;
    if end != End::Refused {
        (right.used, right.largest) = (RECORD.used + new.used - old.used, new.largest);
        let own = &mut right.teams[TEAM as usize];
        (own.taken, own.edits) = (own.taken + new.used - old.used, 1);
    }
    assert_eq!(now.record, right);
    let undo = Undo::between(&before, &after);
    undo.apply(&mut case.image);
    assert!(case.image == before);
    undo
}

fn edit(plan: &Plan, call: &Call, end: End) -> [Duration; 2] {
    let mut case = case(plan);
    let undo = hold(plan, call, end, &mut case);
    let room = case.bytes.len();
    best(tenth(BUDGET, |side| {
        let edited = case.edit(call, side / 4, side % 4, room);
        assert_eq!(edited.number, end.number());
        undo.apply(&mut case.image);
        edited.time
    }))
}

fn made(plan: &Plan) -> [Duration; 2] {
    let Case { image, mut words, mut bytes } = case(plan);
    let memory = &mut Memory { words: &mut words, bytes: &mut bytes };
    let lists = limits_and_shares();
    let made = counter::make_record(&image, memory, &lists[0], &lists[1]);
    assert_eq!(made, Ok(record_of(&image, plan.nodes.len())));
    best(tenth(BUDGET, |side| match side {
        0..4 => time_open(TOTALS_BEFORE[side], &image, &mut words),
        _ => time_record(side - 4, &image, &mut words, &lists),
    }))
}

pub fn run(misses: &mut Vec<String>) {
    println!();
    if !cfg!(before) {
        println!("Edits with a record: not judged, COUNTER_BEFORE names no earlier library.");
        return;
    }
    let [mut edits, mut makes] = [(); 2].map(|()| Table::of_kinds());
    for (entries, sorted) in KINDS {
        let plan = |size| images::plan(entries - NEW, sorted, size);
        let count = cases(&plan(64)).len();
        for i in 0..count {
            let plan = plan(cases(&plan(64))[i].2);
            let (name, call, _, end) = cases(&plan).swap_remove(i);
            edits.add(&format!("{name}, with a record"), edit(&plan, &call, end));
        }
        makes.add("make a record, to totals", made(&plan(64)));
    }
    println!(
        "µs of the library before, of this one, and in brackets the second as a part of the first:"
    );
    edits.print(misses, &[BAR; 6]);
    println!();
    println!(
        "The same of its totals and of a record made, a new call that does one loop more; told, no bar:"
    );
    makes.print(misses, &[f64::INFINITY; 6]);
}
