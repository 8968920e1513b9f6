//! The cheapest run to clear, beside an opening of the same image: sizes for which a run touches no file,
//! some, and thousands, and every budget from none to more than there are candidates.

use crate::calls::Table;
use crate::images::{self, KINDS, Node, Plan};
use crate::measure::{ratio, tenth};
use crate::places::{OPEN, time_clear, time_open};
use counter_sys::{self as counter, CheapestRun, Memory};
use std::time::Duration;

const MOST: usize = 16384;
const BAR: f64 = 1.2;
const BUDGET: Duration = Duration::from_millis(300);

/// Budgets by the number of candidates.
const BUDGETS: [(&str, fn(u32) -> u32); 4] =
    [("0", |_| 0), ("1", |_| 1), ("half", |count| count / 2), ("all", |_| u32::MAX)];

/// The files that have a byte of so many from `start` on.
fn touched(plan: &Plan, start: u32, size: u32) -> impl Iterator<Item = &Node> {
    let files = plan.nodes.iter().filter(|node| !node.is_directory);
    files.filter(move |file| file.first < start + size && start < file.first + file.second)
}

/// Sizes by what a run of them touches.
fn sizes(image: &[u8], plan: &Plan, memory: &mut Memory) -> [(&'static str, u32); 6] {
    let mut list = vec![0; counter::REGION_WORDS * (plan.nodes.len() + 1)];
    let count = counter::free_regions(image, memory, &mut list).unwrap() as usize;
    let regions = list.as_chunks::<{ counter::REGION_WORDS }>().0.iter().take(count);
    let largest = regions.map(|[_, size]| *size).max().unwrap();
    let room =
        plan.disc_end - counter::open(image, memory).map(|o| o.fst_offset + o.fst_size).unwrap();
    [
        ("1 byte, no file", 1),
        ("500 bytes, some files", 500),
        ("as the largest free region", largest),
        ("a third of all behind the table", room / 3),
        ("all of it, every file", room),
        ("a byte more, no run", room + 1),
    ]
}

/// What is told of a run is its own, and all were tried where there was a budget for them.
fn hold(plan: &Plan, size: u32, budget: u32, found: Option<CheapestRun>, count: u32) {
    let Some(CheapestRun { tried, offset, cost, bound }) = found else {
        return assert_eq!(budget, 0);
    };
    assert_eq!(tried, budget.min(count));
    assert_eq!(cost, touched(plan, offset, size).map(|file| file.second).sum::<u32>());
    assert!(bound <= cost && (budget < count || bound == 0));
}

/// The opening's time and the call's, each at the best of its four places in memory.
fn times(image: &[u8], words: &mut [u32], asked: [u32; 2], number: u32) -> [Duration; 2] {
    let all: [Duration; 8] = tenth(BUDGET, |side| match side {
        0..4 => time_open(OPEN[side], image, words),
        _ => time_clear(side - 4, image, words, asked, number),
    });
    [&all[..4], &all[4..]].map(|side| *side.iter().min().unwrap())
}

pub fn run(misses: &mut Vec<String>) {
    let mut table = Table::of_kinds();
    let mut worst = (0.0, String::new());
    for (entries, sorted) in KINDS {
        let plan = images::plan_with_gap(entries, sorted, 64, images::PROGRAM);
        let mut image = images::image(&plan);
        let mut words = vec![0; 4 * (entries + 2)];
        for program in ["", ", a program in the middle"] {
            if !program.is_empty() {
                images::put_program(&mut image, plan.gap as usize);
            }
            let memory = &mut Memory { words: &mut words, bytes: &mut [] };
            for (what, size) in sizes(&image, &plan, memory) {
                let all = counter::clear(&image, memory, size, u32::MAX);
                let count = all.map_or(0, |found| found.unwrap().tried);
                for (name, budget) in BUDGETS.map(|(name, of)| (name, of(count))) {
                    let found = counter::clear(&image, memory, size, budget);
                    assert_eq!(found.is_ok(), all.is_ok());
                    match found {
                        Ok(found) => hold(&plan, size, budget, found, count),
                        Err(number) => assert_eq!(number, 21),
                    }
                    let asked = [size, budget];
                    let times = times(&image, memory.words, asked, found.err().unwrap_or(0));
                    let row = format!("{what}, budget {name}{program}");
                    let apart = ratio(times[1], times[0]);
                    if entries == MOST && apart > worst.0 {
                        worst = (apart, format!("{}, {row}", images::order(sorted)));
                    }
                    table.add(&row, times);
                }
            }
        }
    }
    println!();
    println!(
        "µs of an opening, of `clear`, and in brackets the second as a part of the first; fewer entries told, no bar:"
    );
    table.print(
        misses,
        &KINDS.map(|(entries, _)| if entries == MOST { BAR } else { f64::INFINITY }),
    );
    println!();
    println!("the worst on {MOST} entries: {:.2}, {}", worst.0, worst.1);
}
