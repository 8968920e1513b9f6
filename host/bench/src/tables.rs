//! Every small table of 1 to 8 entries, beside a plain writer of the same tables.

use crate::measure::{Watch, micros, ratio, shortest};
use counter_sys as counter;
use std::hint::black_box;
use std::time::Duration;

const BAR: Duration = Duration::from_millis(20);

/// The entries so far, the root first.
struct Plain<'a> {
    count: usize,
    /// Of a directory its next, of a file 0.
    nexts: [u32; 8],
    /// The directory that each is in.
    parents: [usize; 8],
    list: &'a mut [u8],
    at: usize,
}

impl Plain<'_> {
    /// Writes every table that begins with the first k entries.
    fn write(&mut self, k: usize) {
        if k == self.count {
            return self.write_one();
        }
        let mut parent = k - 1;
        while self.nexts[parent] <= k as u32 {
            parent = self.parents[parent];
        }
        self.parents[k] = parent;
        self.nexts[k] = 0;
        self.write(k + 1);
        for next in k as u32 + 1..=self.nexts[parent] {
            self.nexts[k] = next;
            self.write(k + 1);
        }
    }

    fn write_one(&mut self) {
        for k in 0..self.count {
            let name = 2 * k.saturating_sub(1) as u32;
            match self.nexts[k] {
                0 => self.put([name, 0, 0]),
                next => self.put([1 << 24 | name, self.parents[k] as u32, next]),
            }
        }
        for letter in (b'a'..).take(self.count - 1) {
            self.list[self.at..self.at + 2].copy_from_slice(&[letter, 0]);
            self.at += 2;
        }
    }

    fn put(&mut self, words: [u32; 3]) {
        let record = &mut self.list[self.at..self.at + 12];
        record.copy_from_slice(words.map(u32::to_be_bytes).as_flattened());
        self.at += 12;
    }
}

fn plain(count: u32, list: &mut [u8]) -> Duration {
    let start = Watch::start();
    let (mut nexts, parents) = ([0; 8], [0; 8]);
    nexts[0] = count;
    Plain { count: count as usize, nexts, parents, list: black_box(list), at: 0 }.write(1);
    start.elapsed()
}

fn ours(count: u32, list: &mut [u8]) -> (Duration, u32) {
    let start = Watch::start();
    let number = counter::small_tables(count, black_box(list));
    (start.elapsed(), number.unwrap())
}

pub fn run(misses: &mut Vec<String>) {
    println!();
    println!("| small tables of | tables | bytes | a plain writer, µs | Counter, µs | to it |");
    println!("|---|---|---|---|---|---|");
    for count in 1..=counter::MOST_SMALL {
        let mut list = vec![0xaa; counter::MOST_SMALL_TABLES];
        let number = ours(count, &mut list).1;
        let length = number as usize * counter::small_table_size(count);
        let mut other = vec![0xaa; list.len()];
        plain(count, &mut other);
        assert!(other == list);
        let [plain, time] = shortest(|side| match side {
            0 => plain(count, &mut other[..length]),
            _ => ours(count, &mut list[..length]).0,
        });
        let apart = ratio(time, plain);
        println!(
            "| {count} | {number} | {length} | {} | {} | {apart:.2} |",
            micros(plain),
            micros(time)
        );
        if time > BAR {
            misses.push(format!("small tables of {count}: {}; bar {}", micros(time), micros(BAR)));
        }
    }
}
