//! Every call at 16, 1,024 and 16,384 entries, sorted and unsorted.

use crate::dvd::fst::EntryId;
use crate::images::{self, Plan};
use crate::long;
use crate::measure::{Undo, micros, ratio, shortest};
use crate::sides::{self, Call, Lent};
use std::rc::Rc;
use std::time::Duration;

/// Entries that a call adds at most; the table then grows by at most 20 bytes for each.
pub const NEW: usize = 3;

/// Name, call, the entry that it is about, and the size of the file in the middle.
fn cases(plan: &Plan, size: u32) -> Vec<(&'static str, Call, u32, u32)> {
    let (file, free) = (plan.file, plan.free);
    let last = plan.path_of.last().unwrap().clone();
    vec![
        ("open", Call::Open, 0, 64),
        ("lookup of the last entry", Call::Lookup(last), 0, 64),
        ("free regions", Call::FreeRegions, 0, 64),
        ("free clusters", Call::FreeClusters, 0, 64),
        ("program", Call::Program, 0, 64),
        ("allocate", Call::Allocate(0x40, 0x20), 0, 64),
        ("max file size", Call::MaxFileSize(file), file, 64),
        ("move, 1 byte", Call::Move(file, free), file, 1),
        ("resize, smaller", Call::Resize(file, 32), file, 64),
        ("resize, larger where it is", Call::Resize(file, 66), file, 64),
        ("fill, its own size", Call::Fill(file, clip(64)), file, 64),
        ("fill, a byte longer where it is", Call::Fill(file, clip(65)), file, 64),
        ("rewrite", Call::Rewrite, 0, 64),
        ("insert a file, first directory", Call::InsertFile(1, b"new.bin".to_vec()), 1, 64),
        ("insert a file, root", Call::InsertFile(0, b"new.bin".to_vec()), 0, 64),
        ("insert a directory, root", Call::InsertDirectory(0, b"new".to_vec()), 0, 64),
        ("make-directories, 3 new", Call::MakeDirectories(b"x/y/z".to_vec()), 0, 64),
        ("make-directories, all there", Call::MakeDirectories(directory(plan)), 0, 64),
    ]
    .into_iter()
    .filter(|case| case.3 == size)
    .collect()
}

pub fn clip(size: u32) -> Rc<[u8]> {
    vec![b'c'; size as usize].into()
}

/// The path of the last directory.
pub fn directory(plan: &Plan) -> Vec<u8> {
    let last = plan.nodes.iter().rposition(|node| node.is_directory).unwrap();
    plan.path_of[last].clone()
}

/// The image after an edit, to which both sides come.
pub fn both(call: &Call, image: &mut Vec<u8>, lent: &mut Lent, id: EntryId) -> Vec<u8> {
    let before = image.clone();
    let (_, rust) = sides::rust_edits(call, image, id);
    let after = std::mem::replace(image, before.clone());
    let (_, counter) = lent.run(call, image);
    assert_eq!(counter, Ok(rust));
    assert!(*image == after);
    *image = before;
    after
}

/// The Rust's time and Counter's, for a call that adds at most `new` entries.
pub fn measure(
    call: &Call,
    plan: &Plan,
    image: &mut Vec<u8>,
    entry: u32,
    new: usize,
) -> [Duration; 2] {
    let table = images::table_of(&plan.nodes).len();
    let mut lent = Lent::new(plan.nodes.len() + new, table + 20 * new, plan.nodes.len() + 1);
    let id = sides::id_of(image, entry);
    if !call.edits() {
        let (_, counter) = lent.run(call, image);
        assert_eq!(counter.as_ref(), Ok(&sides::rust_reads(call, image, id).1));
        return shortest(|side| match side {
            0 => sides::rust_reads(call, image, id).0,
            _ => lent.run(call, image).0,
        });
    }
    let after = both(call, image, &mut lent, id);
    let undo = Undo::between(image, &after);
    drop(after);
    shortest(|side| {
        let time = match side {
            0 => sides::rust_edits(call, image, id).0,
            _ => lent.run(call, image).0,
        };
        undo.apply(image);
        time
    })
}

/// One line for a call, one column for each kind of image.
pub struct Table {
    columns: Vec<String>,
    rows: Vec<(String, Vec<[Duration; 2]>)>,
}

impl Table {
    /// One column for each of `images::KINDS`.
    pub fn of_kinds() -> Self {
        let columns = images::KINDS.map(|(n, sorted)| format!("{n} {}", images::order(sorted)));
        Self { columns: columns.to_vec(), rows: vec![] }
    }

    pub fn add(&mut self, name: &str, times: [Duration; 2]) {
        match self.rows.iter_mut().find(|row| row.0 == name) {
            Some(row) => row.1.push(times),
            None => self.rows.push((name.to_string(), vec![times])),
        }
    }

    /// The µs of either side, and in brackets the second as a part of the first, which is not to pass the column's bar.
    pub fn print(&self, misses: &mut Vec<String>, bars: &[f64]) {
        println!();
        println!("| call | {} |", self.columns.join(" | "));
        println!("|---|{}", "---|".repeat(self.columns.len()));
        for (name, times) in &self.rows {
            print!("| {name} |");
            for (([first, second], column), &bar) in times.iter().zip(&self.columns).zip(bars) {
                let ratio = ratio(*second, *first);
                print!(" {} {} ({ratio:.2}) |", micros(*first), micros(*second));
                if ratio > bar {
                    misses.push(format!("{name}, {column}: {ratio:.2}; bar {bar}"));
                }
            }
            println!();
        }
    }
}

/// By `images::KINDS`: no call slower than the Rust's, and where files are in no order a sort that shows little.
const BARS: [f64; 6] = [1.0, 1.0, 1.0, 0.3, 1.0, 0.28];

pub fn run(misses: &mut Vec<String>) {
    let mut table = Table::of_kinds();
    for (entries, sorted) in images::KINDS {
        for size in [64, 1] {
            let whole = images::plan(entries, sorted, size);
            // What a call adds stays within the limit of 16,384.
            let smaller = images::plan(entries - NEW, sorted, size);
            for i in 0..cases(&whole, size).len() {
                let grows = matches!(
                    cases(&whole, size)[i].1,
                    Call::InsertFile(..) | Call::InsertDirectory(..) | Call::MakeDirectories(..)
                );
                let plan = if grows { &smaller } else { &whole };
                let (name, call, entry, _) = cases(plan, size).swap_remove(i);
                let mut image = images::image(plan);
                if let Call::Program = call {
                    images::put_program(&mut image, images::behind(plan));
                }
                let times = measure(&call, plan, &mut image, entry, NEW);
                table.add(name, times);
            }
        }
    }
    table.print(misses, &BARS);
}

/// Paths as long as they may be.
pub fn run_long(misses: &mut Vec<String>) {
    let columns = vec!["1024".into(), "16384".into()];
    let mut table = Table { columns, rows: vec![] };
    for entries in [1024, 16384] {
        for (name, call) in [
            ("lookup, 204 steps back", long::back_and_forth()),
            ("lookup, 204 steps back, two at a time", long::two_back_and_forth()),
            ("make-directories, 146 new, side by side", long::many_new()),
            ("make-directories, 145 new, first of all", long::many_new_first()),
            ("make-directories, 62 new, nested", long::deep_new()),
            ("make-directories, 63 new, nested, first of all", long::deep_new_first()),
        ] {
            let new = if call.edits() { 146 } else { 0 };
            let plan = long::plan(entries - new);
            table.add(name, measure(&call, &plan, &mut images::image(&plan), 0, new));
        }
    }
    table.print(misses, &[1.0; 2]);
}
