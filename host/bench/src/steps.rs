//! A move and a resize in three calls, beside the single call and two openings. And 1 GiB moved so: how many bytes are copied and zeroed,
//! and how long it takes beside memcpy and memset.

use crate::calls::Table;
use crate::giant::copy_and_zero;
use crate::images::{self, KINDS, Plan};
use crate::measure::{Undo, ratio, tenth, thread_time};
use crate::places::{Case, OPEN, time_open};
use crate::record::place;
use crate::sides::{Call, Lent, RECORD, TEAM};
use std::sync::atomic::{AtomicUsize, Ordering::Relaxed};
use std::time::Duration;

const BAR: f64 = 1.15;
const BUDGET: Duration = Duration::from_secs(2);

const MEGABYTE: u32 = 1 << 20;
const GIGABYTE: u32 = 1 << 30;
const N: usize = GIGABYTE as usize;
const ROUNDS: usize = 9;

/// The giant's bars: what is copied and zeroed beside the file's bytes, as a part of them, and the time to memcpy and memset.
const MORE: f64 = 0.01;
const TO_LEAST: f64 = 1.3;

/// Name, the size of the file in the middle, and the edit of it.
type Edit = (&'static str, u32, fn(&Plan) -> Call);

const EDITS: [Edit; 7] = [
    ("move, 1 byte", 1, |plan| Call::Move(plan.file, plan.free)),
    ("move, 1 MB", MEGABYTE, |plan| Call::Move(plan.file, plan.free)),
    ("resize, smaller", 64, |plan| Call::Resize(plan.file, 32)),
    ("resize, larger where it is", 64, |plan| Call::Resize(plan.file, 65)),
    ("resize, 64 bytes go elsewhere", 64, |plan| Call::Resize(plan.file, 128)),
    ("resize, 1 MB smaller", MEGABYTE, |plan| Call::Resize(plan.file, 32)),
    ("resize, 1 MB goes elsewhere", MEGABYTE, |plan| Call::Resize(plan.file, MEGABYTE + 64)),
];

fn case(plan: &Plan) -> Case {
    let table = images::table_of(&plan.nodes).len();
    let Lent { words, bytes, .. } = Lent::new(plan.nodes.len(), table, 0);
    Case { image: images::image(plan), words, bytes }
}

/// The single call and two openings, of the image before it and behind it, as the second call and the third find it; and the three calls.
/// Each at the best of its four places in memory.
fn measure(plan: &Plan, call: &Call) -> [Duration; 2] {
    let mut case = case(plan);
    let (before, room) = (case.image.clone(), case.bytes.len());
    let single = case.edit(call, 1, 0, room);
    let after = std::mem::replace(&mut case.image, before.clone());
    let three = case.three(call, 0);
    assert!(case.image == after);
    assert_eq!([single.number, three.number], [0; 2]);
    assert_eq!(single.record, three.record);
    let undo = Undo::between(&before, &after);
    drop((before, after));
    undo.apply(&mut case.image);
    let all: [Duration; 16] = tenth(BUDGET, |side| {
        let at = side % 4;
        let time = match side / 4 {
            0 => case.edit(call, 1, at, room).time,
            1 => return time_open(OPEN[at], &case.image, &mut case.words),
            2 => {
                case.edit(call, 1, at, room);
                time_open(OPEN[at], &case.image, &mut case.words)
            }
            _ => case.three(call, at).time,
        };
        undo.apply(&mut case.image);
        time
    });
    let best = [0, 4, 8, 12].map(|at| *all[at..at + 4].iter().min().unwrap());
    let [single, opening, opening_behind, three] = best;
    [single + opening + opening_behind, three]
}

pub fn run(misses: &mut Vec<String>) {
    println!();
    println!(
        "µs of the single call and two openings, of the image before and behind it, of the three calls, and in brackets the second as a part of the first:"
    );
    let mut table = Table::of_kinds();
    for (entries, sorted) in KINDS {
        for (name, size, edit) in EDITS {
            let plan = images::plan(entries, sorted, size);
            table.add(&format!("{name}, in three calls"), measure(&plan, &edit(&plan)));
        }
    }
    table.print(misses, &[BAR; 6]);
}

// The library's copy whose memcpy, memmove and memset these are (build.rs) ---------------------------------------------------------

static COPIED: AtomicUsize = AtomicUsize::new(0);
static SET: AtomicUsize = AtomicUsize::new(0);

unsafe extern "C" {
    fn memcpy(to: *mut u8, from: *const u8, n: usize) -> *mut u8;
    fn memmove(to: *mut u8, from: *const u8, n: usize) -> *mut u8;
    fn memset(to: *mut u8, byte: i32, n: usize) -> *mut u8;

    fn counted_move_copy(
        image: *mut u8,
        n: usize,
        words: *mut u32,
        m: usize,
        bytes: *mut u8,
        room: usize,
        record: *const u32,
        team: u32,
        file: u32,
        to: u32,
    ) -> u32;
    fn counted_move_table(
        image: *mut u8,
        n: usize,
        words: *mut u32,
        m: usize,
        bytes: *mut u8,
        room: usize,
        record: *mut u32,
        team: u32,
        file: u32,
        to: u32,
        span: *mut u32,
    ) -> u32;
    fn counted_zero(
        image: *mut u8,
        n: usize,
        words: *mut u32,
        m: usize,
        offset: u32,
        size: u32,
    ) -> u32;
}

#[unsafe(no_mangle)]
unsafe extern "C" fn counted_memcpy(to: *mut u8, from: *const u8, n: usize) -> *mut u8 {
    COPIED.fetch_add(n, Relaxed);
    unsafe { memcpy(to, from, n) }
}

#[unsafe(no_mangle)]
unsafe extern "C" fn counted_memmove(to: *mut u8, from: *const u8, n: usize) -> *mut u8 {
    COPIED.fetch_add(n, Relaxed);
    unsafe { memmove(to, from, n) }
}

#[unsafe(no_mangle)]
unsafe extern "C" fn counted_memset(to: *mut u8, byte: i32, n: usize) -> *mut u8 {
    SET.fetch_add(n, Relaxed);
    unsafe { memset(to, byte, n) }
}

/// How many bytes each of the three calls of a move copies, and sets.
fn count(case: &mut Case, file: u32, to: u32) -> [[usize; 2]; 3] {
    let (mut record, mut span) = (RECORD.slots(), [0; 2]);
    let (image, n) = (case.image.as_mut_ptr(), case.image.len());
    let (words, m) = (case.words.as_mut_ptr(), case.words.len());
    let (bytes, room) = (case.bytes.as_mut_ptr(), case.bytes.len());
    let (r, s) = (record.as_mut_ptr(), span.as_mut_ptr());
    [0, 1, 2].map(|call| {
        COPIED.store(0, Relaxed);
        SET.store(0, Relaxed);
        let number = unsafe {
            match call {
                0 => counted_move_copy(image, n, words, m, bytes, room, r, TEAM, file, to),
                1 => counted_move_table(image, n, words, m, bytes, room, r, TEAM, file, to, s),
                _ => counted_zero(image, n, words, m, *s, *s.add(1)),
            }
        };
        assert_eq!(number, 0);
        [&COPIED, &SET].map(|count| count.load(Relaxed))
    })
}

/// The file of 1 GiB goes up and back: timed, and once counted.
pub fn run_giant(misses: &mut Vec<String>) {
    println!();
    println!(
        "| move of 1 GiB in three calls | entries | places | memcpy and memset, ms | three calls, ms | to memcpy and memset | copied by copy, table, zeros | set |"
    );
    println!("|---|---|---|---|---|---|---|---|");
    for (entries, sorted) in [(16, false), (16384, false)] {
        let plan = images::plan(entries, sorted, GIGABYTE);
        let mut case = case(&plan);
        let (near, far) = (plan.nodes[plan.file as usize].first, plan.free);
        let first = case.image[near as usize..][..4096].to_vec();
        let ways = [(near, far), (far, near)];
        let mut best = [[Duration::MAX; 2]; 2];
        for _ in 0..ROUNDS {
            for (side, best) in best.iter_mut().enumerate() {
                for ((from, to), best) in ways.into_iter().zip(best) {
                    let time = match side {
                        0 => {
                            let start = thread_time();
                            copy_and_zero(&mut case.image, from as usize, to as usize, N);
                            thread_time() - start
                        }
                        _ => {
                            let edited = case.three(&Call::Move(plan.file, to), 0);
                            assert_eq!(edited.number, 0);
                            assert_eq!(place(&plan, &case.image), to.to_be_bytes());
                            edited.time
                        }
                    };
                    *best = (*best).min(time);
                    assert!(case.image[to as usize..][..4096] == first);
                    assert!(case.image[from as usize..][..N].iter().all(|byte| *byte == 0));
                }
            }
        }
        for (way, name) in ["up", "down"].into_iter().enumerate() {
            let [least, three] = best.map(|side| side[way]);
            let counts = count(&mut case, plan.file, ways[way].1);
            let order = images::order(sorted);
            let [copied, set] = [0, 1].map(|k| counts.map(|call| call[k]));
            let to_least = ratio(three, least);
            println!(
                "| {name} | {entries} | {order} | {} | {} | {to_least:.2} | {copied:?} | {set:?} |",
                least.as_millis(),
                three.as_millis(),
            );
            if to_least > TO_LEAST {
                misses.push(format!("1 GiB in three calls, {name}, {entries}: {to_least:.2}"));
            }
            for (what, sums) in [("copied", copied), ("set", set)] {
                let sum: usize = sums.iter().sum();
                if sum < N || sum as f64 > N as f64 * (1.0 + MORE) {
                    misses.push(format!(
                        "1 GiB in three calls, {name}, {entries}: {sum} bytes {what}"
                    ));
                }
            }
        }
    }
}
