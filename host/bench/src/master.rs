//! What a new master takes, from 1,024 to 16,383 entries behind the root: beside memset of its image and one opening of what
//! was written, and how it grows.

use crate::measure::{Watch, micros, ratio, shortest};
use crate::sides::{self, Call, Lent};
use counter_sys::{self as counter, Memory};
use std::collections::HashSet;
use std::hint::black_box;
use std::time::Duration;

const SIZES: [usize; 5] = [1024, 2048, 4096, 8192, 16383];
const CODE: &[u8; 4] = b"GBNE";

/// Name, the path of a file by its number, and the bytes of each file.
type Shape = (&'static str, fn(usize) -> String, u32);

const SHAPES: [Shape; 4] = [
    ("in the root, empty", flat, 0),
    ("in the root, 40 bytes each", flat, 40),
    ("in directories of 12, up to 5 deep, empty", nested, 0),
    ("64 deep, paths of 1,023 bytes, empty", deep, 0),
];

fn flat(k: usize) -> String {
    format!("file_{k:06}.bin")
}

fn nested(k: usize) -> String {
    let groups = [k / 62_208, k / 10_368, k / 1_728, k / 144, k / 12];
    let depth = 1 + k / 12 % 5;
    let around: String =
        groups[5 - depth..].iter().map(|group| format!("folder_{group:05}/")).collect();
    format!("{around}{}", flat(k))
}

/// Names of 14 and 63 bytes: with so many files the texts are all but as long as they may be.
fn deep(k: usize) -> String {
    format!("{}{k:059}.bin", "folder_of_all_/".repeat(64))
}

/// What is lent, and the list: paths in their order with as many entries as wanted.
struct Case {
    paths: Vec<u8>,
    sizes: Vec<u32>,
    lent: Lent,
    image: Vec<u8>,
    last: Vec<u8>,
}

impl Case {
    fn new(n: usize, (_, path, size): Shape) -> Self {
        let (mut paths, mut directories, mut texts) = (vec![], HashSet::new(), 0);
        for k in 0.. {
            let path = path(k);
            let mut new: Vec<String> = vec![];
            for (at, _) in path.match_indices('/') {
                if !directories.contains(&path[..at]) {
                    new.push(path[..at].into());
                }
            }
            if paths.len() + directories.len() + new.len() + 1 > n {
                break;
            }
            let name = |path: &str| path.rsplit('/').next().unwrap().len() + 1;
            texts += name(&path) + new.iter().map(|path| name(path)).sum::<usize>();
            directories.extend(new);
            paths.push(path);
        }
        paths.sort();
        let count = paths.len() + directories.len() + 1;
        let table = 12 * count + texts;
        let lent = Lent::new(count, table, 0);
        let table_end = 0x440 + table;
        let disc_end = match size {
            0 => table_end,
            _ => table_end.next_multiple_of(0x8000) + (paths.len() - 1) * 0x8000 + size as usize,
        };
        let last = paths.last().unwrap().clone().into_bytes();
        let sizes = vec![size; paths.len()];
        let paths = paths.iter().flat_map(|path| [path.as_bytes(), b"\0"].concat()).collect();
        Self { paths, sizes, lent, image: vec![0xaa; disc_end], last }
    }

    fn write(&mut self) -> Duration {
        let memory = &mut Memory { words: &mut self.lent.words, bytes: &mut self.lent.bytes };
        let disc_end = self.image.len() as u32;
        let start = Watch::start();
        let answer =
            counter::master(&mut self.image, memory, CODE, disc_end, &self.sizes, &self.paths);
        let time = start.elapsed();
        assert_eq!(answer, Ok(()));
        time
    }

    fn clear(&mut self) -> Duration {
        let start = Watch::start();
        black_box(&mut self.image).fill(0);
        start.elapsed()
    }

    fn open(&mut self) -> Duration {
        let (time, answer) = self.lent.run(&Call::Open, &mut self.image);
        assert!(answer.is_ok());
        time
    }

    /// Both sides open what was written, and find the last path.
    fn check(&mut self) {
        self.write();
        let id = sides::id_of(&self.image, 0);
        for call in [Call::Open, Call::Lookup(self.last.clone())] {
            let theirs = sides::rust_reads(&call, &self.image, id).1;
            assert_eq!(self.lent.run(&call, &mut self.image).1, Ok(theirs));
        }
    }
}

fn n_log_n(n: usize) -> f64 {
    (n as f64 * (n as f64).log2()) / (1024.0 * 10.0)
}

pub fn run(misses: &mut Vec<String>) {
    println!();
    println!(
        "| a new master, its files | paths | image, bytes | memset, µs | opening, µs | master, µs | to these two | master, times 1,024 | n log n |"
    );
    println!("|---|---|---|---|---|---|---|---|---|");
    for shape in SHAPES {
        let mut least = None;
        for n in SIZES {
            let mut case = Case::new(n, shape);
            case.check();
            let [master, opening, memset] = shortest(|side| match side {
                0 => case.write(),
                1 => case.open(),
                _ => case.clear(),
            });
            let grown = ratio(master, *least.get_or_insert(master));
            let bar = n_log_n(n);
            println!(
                "| {} | {} | {} | {} | {} | {} | {:.2} | {grown:.1} | {bar:.1} |",
                shape.0,
                case.sizes.len(),
                case.image.len(),
                micros(memset),
                micros(opening),
                micros(master),
                ratio(master, memset + opening),
            );
            if grown > bar && n == 16383 {
                misses.push(format!(
                    "a new master grows {grown:.1} times, {}; bar {bar:.1}",
                    shape.0
                ));
            }
        }
    }
}
