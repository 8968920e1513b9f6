//! A move of 1 GB, beside memcpy and memset of the same bytes.

use crate::images;
use crate::measure::{ratio, thread_time};
use crate::sides::{self, Call, Lent};
use std::time::Duration;

const GIGABYTE: u32 = 1 << 30;
const N: usize = GIGABYTE as usize;
const ROUNDS: usize = 9;
const MOVE: &str = "move of 1 GB";

/// What no move can do without: the bytes copied, and their old place zeroed.
pub fn copy_and_zero(image: &mut [u8], from: usize, to: usize, n: usize) {
    assert!(from + n <= to || to + n <= from);
    assert!(from.max(to) + n <= image.len());
    let base = image.as_mut_ptr();
    unsafe {
        std::ptr::copy_nonoverlapping(base.add(from), base.add(to), n);
        std::ptr::write_bytes(base.add(from), 0, n);
    }
}

pub fn print_head(what: &str) {
    println!();
    println!(
        "| {what} | entries | places | memcpy and memset, ms | the Rust, ms | Counter, ms | Counter to the Rust | to memcpy and memset |"
    );
    println!("|---|---|---|---|---|---|---|---|");
}

/// One line, with the times of memcpy and memset, of the Rust and of Counter.
pub fn print_line(
    misses: &mut Vec<String>,
    what: &str,
    name: &str,
    (entries, sorted): (usize, bool),
    times: [Duration; 3],
) {
    let [least, rust, counter] = times;
    let (to_rust, to_least) = (ratio(counter, rust), ratio(counter, least));
    let order = images::order(sorted);
    let [least, rust, counter] = times.map(|time| time.as_millis());
    println!(
        "| {name} | {entries} | {order} | {least} | {rust} | {counter} | {to_rust:.2} | {to_least:.2} |"
    );
    if to_rust > 1.0 {
        misses.push(format!("{what}, {name}, {entries}, {order}: {to_rust:.2}"));
    }
    if to_least > 1.3 {
        misses.push(format!(
            "{what}, {name}, {entries}, {order}: {to_least:.2} times memcpy and memset"
        ));
    }
}

pub fn run(misses: &mut Vec<String>) {
    print_head(MOVE);
    let mut image = vec![0u8; (2usize << 30) + (16 << 20)];
    for (entries, sorted) in images::KINDS {
        let plan = images::plan(entries, sorted, GIGABYTE);
        image.fill(0);
        image.truncate(plan.disc_end as usize);
        image.resize(plan.disc_end as usize, 0);
        images::write(&plan, &mut image);
        let id = sides::id_of(&image, plan.file);
        let table = images::table_of(&plan.nodes);
        let mut lent = Lent::new(entries, table.len(), 0);
        let (near, far) = (plan.nodes[plan.file as usize].first, plan.free);
        let first = image[near as usize..][..4096].to_vec();
        // There and back: [up, down] of each of the three.
        let mut best = [[Duration::MAX; 2]; 3];
        for _ in 0..ROUNDS {
            for (side, best) in best.iter_mut().enumerate() {
                for (way, best) in best.iter_mut().enumerate() {
                    let (from, to) = if way == 0 { (near, far) } else { (far, near) };
                    let call = Call::Move(plan.file, to);
                    let start = thread_time();
                    match side {
                        0 => copy_and_zero(&mut image, from as usize, to as usize, N),
                        1 => drop(sides::rust_edits(&call, &mut image, id)),
                        _ => assert_eq!(lent.run(&call, &mut image).1, Ok(vec![])),
                    }
                    let time = thread_time() - start;
                    *best = (*best).min(time);
                    assert!(image[to as usize..][..4096] == first);
                    assert!(image[from as usize..][..4096].iter().all(|&b| b == 0));
                }
            }
        }
        for (way, name) in ["up", "down"].into_iter().enumerate() {
            print_line(misses, MOVE, name, (entries, sorted), best.map(|side| side[way]));
        }
    }
}
