//! Edits in which a megabyte goes elsewhere, beside memcpy and memset of the same bytes, each less the same with 64 bytes: what a
//! megabyte takes is for the machine's memory to say, which also has to bring back what the megabyte put out of the caches.

use crate::calls::{both, clip};
use crate::dvd::fst::EntryId;
use crate::giant::copy_and_zero;
use crate::images::{self, FST_OFFSET, Plan};
use crate::measure::{Undo, Watch, micros, ratio, shortest_within};
use crate::record::place;
use crate::sides::{self, Call, Lent};
use std::time::Duration;

const MEGABYTE: u32 = 1 << 20;
const SMALL: u32 = 64;
const BUDGET: Duration = Duration::from_secs(2);

/// With so many entries the table decides and not the megabyte: the bar is that of every other edit there.
const LARGEST: usize = 16384;
const TO_RUST_OF_LARGEST: f64 = 0.28;

/// The edit of the file in the middle, by its size. There is no room for so many bytes more behind it.
type Edit = fn(&Plan, u32) -> Call;

const EDITS: [(&str, Edit); 3] = [
    ("move, 1 MB", |plan, _| Call::Move(plan.file, plan.free)),
    ("resize, 1 MB goes elsewhere", |plan, size| Call::Resize(plan.file, size + 64)),
    ("fill, 1 MB goes elsewhere", |plan, size| Call::Fill(plan.file, clip(size + 64))),
];

/// An edit on an image of its own, and where the file lies before and after.
struct Case {
    call: Call,
    image: Vec<u8>,
    id: EntryId,
    lent: Lent,
    undo: Undo,
    size: usize,
    from: usize,
    to: usize,
}

impl Case {
    fn new((entries, sorted): (usize, bool), edit: Edit, size: u32) -> Self {
        let plan = images::plan(entries, sorted, size);
        let call = edit(&plan, size);
        let mut image = images::image(&plan);
        let mut lent = Lent::new(entries, images::table_of(&plan.nodes).len(), 0);
        let id = sides::id_of(&image, plan.file);
        let after = both(&call, &mut image, &mut lent, id);
        let undo = Undo::between(&image, &after);
        let [from, to] = [&image, &after].map(|i| u32::from_be_bytes(place(&plan, i)) as usize);
        assert!(from != to);
        let mut case = Self { call, image, id, lent, undo, size: size as usize, from, to };
        // The same bytes at both places as after the edit.
        case.copy_and_zero();
        for at in [from, to] {
            assert!(case.image[at..][..case.size] == after[at..][..case.size]);
        }
        case.undo.apply(&mut case.image);
        case
    }

    /// The bytes that a file has more are those that are there.
    fn copy_and_zero(&mut self) {
        let Self { image, size, from, to, .. } = self;
        match &self.call {
            Call::Fill(_, clip) => {
                image[*to..][..clip.len()].copy_from_slice(clip);
                image[*from..][..*size].fill(0);
            }
            _ => copy_and_zero(image, *from, *to, *size),
        }
    }

    fn time(&mut self, run: impl FnOnce(&mut Self) -> Duration) -> Duration {
        let time = run(self);
        self.undo.apply(&mut self.image);
        time
    }

    /// What no such edit can do without, with the lent memory as opening and the new table leave it: besides, the table copied from there
    /// to the image, and what was lent zeroed.
    fn least(&mut self) -> Duration {
        self.time(|case| {
            let table = FST_OFFSET..FST_OFFSET + case.lent.bytes.len();
            case.lent.words.fill(1);
            case.lent.bytes.copy_from_slice(&case.image[table.clone()]);
            let start = Watch::start();
            case.copy_and_zero();
            case.image[table].copy_from_slice(&case.lent.bytes);
            case.lent.words.fill(0);
            case.lent.bytes.fill(0);
            start.elapsed()
        })
    }

    fn rust(&mut self) -> Duration {
        self.time(|case| sides::rust_edits(&case.call, &mut case.image, case.id).0)
    }

    fn counter(&mut self) -> Duration {
        self.time(|case| case.lent.run(&case.call, &mut case.image).0)
    }
}

pub fn run(misses: &mut Vec<String>) {
    println!();
    println!(
        "| call | entries | places | memcpy and memset, the same with {SMALL} bytes, µs | the Rust, µs | Counter, with {SMALL} bytes, µs | Counter to the Rust | what the megabyte adds to memcpy and memset |"
    );
    println!("|---|---|---|---|---|---|---|---|");
    for (name, edit) in EDITS {
        for (entries, sorted) in images::KINDS {
            let [mut large, mut small] =
                [MEGABYTE, SMALL].map(|size| Case::new((entries, sorted), edit, size));
            // The Rust frees much, and page tables and caches are then the next side's to fill: that one's time is not used.
            let [rust, _, least, least_small, counter, small] =
                shortest_within(BUDGET, |side| match side {
                    0 => large.rust(),
                    1 | 2 => large.least(),
                    3 => small.least(),
                    4 => large.counter(),
                    _ => small.counter(),
                });
            let to_rust = ratio(counter, rust);
            let to_least = ratio(counter.saturating_sub(small), least.saturating_sub(least_small));
            let order = images::order(sorted);
            let [rust, least, least_small, counter, small] =
                [rust, least, least_small, counter, small].map(micros);
            println!(
                "| {name} | {entries} | {order} | {least} {least_small} | {rust} | {counter} {small} | {to_rust:.2} | {to_least:.2} |"
            );
            let memory_decides = entries < LARGEST;
            if to_rust > (if memory_decides { 1.0 } else { TO_RUST_OF_LARGEST }) {
                misses.push(format!("{name}, {entries}, {order}: {to_rust:.2}"));
            }
            if memory_decides && to_least > 1.3 {
                misses.push(format!(
                    "{name}, {entries}, {order}: {to_least:.2} times memcpy and memset"
                ));
            }
        }
    }
}
