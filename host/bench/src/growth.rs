//! How opening grows from 1,024 to 16,384 entries.

use crate::images;
use crate::measure::{micros, ratio, shortest};
use crate::sides::{self, Call, Lent};

const SIZES: [usize; 5] = [1024, 2048, 4096, 8192, 16384];

/// The sort goes by digits, so that it grows with the entries and no faster.
const UNSORTED: f64 = 18.0;

pub fn run(misses: &mut Vec<String>) {
    println!();
    println!("| opening | entries | the Rust, µs | Counter, µs | Counter, times 1,024 | n log n |");
    println!("|---|---|---|---|---|---|");
    for sorted in [true, false] {
        let order = images::order(sorted);
        let mut images: Vec<Vec<u8>> =
            SIZES.iter().map(|&n| images::image(&images::plan(n, sorted, 64))).collect();
        let mut lent: Vec<Lent> = SIZES.iter().map(|&n| Lent::new(n, 0, 0)).collect();
        let id = sides::id_of(&images[0], 0);
        let times: [_; 10] = shortest(|side| match side % 2 {
            0 => sides::rust_reads(&Call::Open, &images[side / 2], id).0,
            _ => lent[side / 2].run(&Call::Open, &mut images[side / 2]).0,
        });
        for (i, n) in SIZES.into_iter().enumerate() {
            let (rust, counter) = (times[2 * i], times[2 * i + 1]);
            let grown = ratio(counter, times[1]);
            let n_log_n = (n as f64 * (n as f64).log2()) / (1024.0 * 10.0);
            let bar = if sorted { n_log_n } else { UNSORTED };
            let (rust, counter) = (micros(rust), micros(counter));
            println!("| {order} | {n} | {rust} | {counter} | {grown:.1} | {n_log_n:.1} |");
            if grown > bar && n == 16384 {
                misses.push(format!("opening grows {grown:.1} times, {order}; bar {bar:.1}"));
            }
        }
    }
}
