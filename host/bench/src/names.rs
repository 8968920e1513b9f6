//! Japanese names, and ASCII names of the same lengths: opening, lookup, insert and rewrite against the Rust, and on the ASCII names
//! against an earlier library.

use crate::calls::{self, Table};
use crate::images::{self, KINDS, Naming, Plan, Random};
use crate::measure::{Undo, tenth};
use crate::places::{Case, LOOKUP, LOOKUP_BEFORE, OPEN, OPEN_BEFORE, time_lookup, time_open};
use crate::sides::{Call, Lent};
use std::fs;
use std::path::Path;
use std::time::Duration;

/// How much slower than before a call may be.
const BAR: f64 = 1.1;
const BUDGET: Duration = Duration::from_secs(8);
const NAMINGS: [(&str, Naming); 2] = [("Japanese", japanese), ("ASCII", ascii)];
const CALLS: [&str; 4] = ["open", "lookup of the last entry", "insert a file, root", "rewrite"];

/// A number that no entry has, for the name of a new one.
const NEW: u32 = 16384;

/// 4 to 12 characters: kanji (of Shift-JIS's leads 0x89 to 0x97 every trail has one) and some half-width katakana, then three katakana
/// that count the entries.
fn japanese(number: u32, _: bool) -> Vec<u8> {
    let mut random = Random::new(u64::from(number));
    let mut name = vec![];
    for _ in 0..1 + random.below(9) {
        if random.below(8) == 0 {
            name.push(0xa1 + random.below(0x3f) as u8);
            continue;
        }
        // 0x7F is no trail.
        let trail = 0x40 + random.below(188);
        name.extend([0x89 + random.below(15) as u8, (trail + usize::from(trail >= 0x7f)) as u8]);
    }
    for digit in [number >> 10, number >> 5, number] {
        name.extend([0x83, 0x40 + (digit % 32) as u8]);
    }
    name
}

/// As many bytes as the Japanese name has.
fn ascii(number: u32, is_directory: bool) -> Vec<u8> {
    let length = japanese(number, is_directory).len();
    format!("{number:a>length$}").into()
}

fn last_path(plan: &Plan) -> Vec<u8> {
    plan.path_of.last().unwrap().clone()
}

/// The plan of the image, and of one with an entry less, so that an insert stays within the limit of 16,384.
fn plans((entries, sorted): (usize, bool), naming: Naming) -> [Plan; 2] {
    [entries, entries - 1].map(|n| images::plan_with_names(n, sorted, naming))
}

fn against_the_rust(misses: &mut Vec<String>) {
    let mut table = Table::of_kinds();
    for kind in KINDS {
        for (words, naming) in NAMINGS {
            let [whole, smaller] = plans(kind, naming);
            let calls = [
                Call::Open,
                Call::Lookup(last_path(&whole)),
                Call::InsertFile(0, naming(NEW, false)),
                Call::Rewrite,
            ];
            for (name, call) in CALLS.iter().zip(calls) {
                let plan = if let Call::InsertFile(..) = call { &smaller } else { &whole };
                // A new entry takes up to 37 bytes of the table, as many as two of those that `measure` counts on.
                let times = calls::measure(&call, plan, &mut images::image(plan), 0, 2);
                table.add(&format!("{name}, {words}"), times);
            }
        }
    }
    println!();
    println!("µs of the Rust, of Counter, and in brackets the second as a part of the first:");
    table.print(misses, &[1.0; 6]);
}

/// For each of `CALLS` the time before and now on ASCII names, each at the best of its four places in memory.
fn before_and_now(kind: (usize, bool)) -> [[Duration; 2]; 4] {
    let [whole, smaller] = plans(kind, ascii);
    let (path, name) = (last_path(&whole), ascii(NEW, false));
    let table = images::table_of(&whole.nodes).len();
    // Both are lent the same: enough for the table with the new entry.
    let case = |plan: &Plan| {
        let Lent { words, bytes, .. } = Lent::new(kind.0, table + 13 + name.len(), 0);
        Case { image: images::image(plan), words, bytes }
    };
    let (mut whole, mut smaller) = (case(&whole), case(&smaller));
    let (before, insert) = (smaller.image.clone(), Call::InsertFile(0, name));
    smaller.time(&insert, 1, 0);
    let undo = Undo::between(&before, &smaller.image);
    undo.apply(&mut smaller.image);
    let all: [Duration; 32] = tenth(BUDGET, |side| {
        let (call, is_now, place) = (side / 8, side / 4 % 2, side % 4);
        let Case { image, words, .. } = &mut whole;
        match call {
            0 => time_open([OPEN_BEFORE, OPEN][is_now][place], image, words),
            1 => time_lookup([LOOKUP_BEFORE, LOOKUP][is_now][place], image, words, &path),
            2 => {
                let time = smaller.time(&insert, is_now, place);
                undo.apply(&mut smaller.image);
                time
            }
            _ => whole.time(&Call::Rewrite, is_now, place),
        }
    });
    let best = |side: usize| *all[side..side + 4].iter().min().unwrap();
    std::array::from_fn(|call| [best(8 * call), best(8 * call + 4)])
}

pub fn run(misses: &mut Vec<String>) {
    against_the_rust(misses);
    let mut table = Table::of_kinds();
    for kind in KINDS {
        for (name, times) in CALLS.iter().zip(before_and_now(kind)) {
            table.add(&format!("{name}, ASCII, to before"), times);
        }
    }
    let before = if cfg!(before) { "the library before" } else { "the same library" };
    println!();
    println!("µs of {before}, of this one, and in brackets the second as a part of the first:");
    table.print(misses, &[BAR; 6]);
}

/// The images as files, for valgrind over the probe.
pub fn write(folder: &Path) -> std::io::Result<()> {
    for (entries, sorted) in KINDS {
        for (words, naming) in NAMINGS {
            let name = format!("{entries}-{}-{words}.iso", images::order(sorted));
            let plan = images::plan_with_names(entries, sorted, naming);
            fs::write(folder.join(name), images::image(&plan))?;
        }
    }
    Ok(())
}
