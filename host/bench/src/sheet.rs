//! Edit sheets of 1,024 lines on images of 16,384 entries, beside the same single calls with a lookup each. And sheets whose texts are
//! long and hold one zero byte, which is not to be sought for once a line.

use crate::images::{self, Plan};
use crate::measure::{Undo, Watch, ratio};
use crate::places::{Case, Line};
use crate::sides::Lent;
use std::hint::black_box;
use std::time::Duration;

const ENTRIES: usize = 16384;
const LINES: usize = 1024;

/// The bytes of a new entry and its name in the table.
const NEW: usize = 12 + 13;

/// Twice at each of the four places in memory.
const ROUNDS: usize = 8;

const BAR: f64 = 1.1;

/// Texts of 64 MB, and how many times one pass over them a sheet may take.
const TEXTS: usize = 64 << 20;
const PASSES: f64 = 4.0;

fn bytes_of(lines: &[Line]) -> Vec<u8> {
    let (mut rows, mut texts) = (vec![], vec![]);
    for line in lines {
        let at = texts.len() as u32;
        let row = match line.kind {
            3 => [3, at, line.number, 0],
            4 => [4, at, 0, line.number],
            kind => [kind, at, 0, 0],
        };
        rows.extend(row);
        texts.extend(&line.sought);
        if line.kind < 3 {
            texts.push(b'/');
            texts.extend(&line.name);
        }
        texts.push(0);
    }
    sheet_of(&rows, &texts)
}

fn sheet_of(rows: &[u32], texts: &[u8]) -> Vec<u8> {
    let numbers = [rows.len() / 4, 16, 16 + 4 * rows.len(), texts.len()].map(|n| n as u32);
    let words = numbers.iter().chain(rows).flat_map(|word| word.to_be_bytes());
    [&words.collect::<Vec<_>>(), texts].concat()
}

/// So many of these, spread over all of them.
fn spread(all: &[usize]) -> impl Iterator<Item = usize> {
    (0..LINES).map(|k| all[k * all.len() / LINES])
}

/// Files by turns moved behind all others, and made a byte smaller.
fn moves_and_resizes(plan: &Plan) -> Vec<Line> {
    let nodes = &plan.nodes;
    let files: Vec<usize> = (0..nodes.len()).filter(|k| !nodes[*k].is_directory).collect();
    let line = |(k, file): (usize, usize)| {
        let (sought, name) = (plan.path_of[file].clone(), vec![]);
        match k % 2 {
            0 => Line { kind: 3, sought, name, number: plan.free + 128 * k as u32 },
            _ => Line { kind: 4, sought, name, number: nodes[file].second - 1 },
        }
    };
    spread(&files).enumerate().map(line).collect()
}

/// New directories and files by turns, in directories all over the table.
fn inserts(plan: &Plan) -> Vec<Line> {
    let nodes = &plan.nodes;
    let directories: Vec<usize> = (0..nodes.len()).filter(|k| nodes[*k].is_directory).collect();
    let line = |(k, directory): (usize, usize)| {
        let (sought, name) = (plan.path_of[directory].clone(), format!("new_{k:04}.bin"));
        Line { kind: 1 + (k % 2) as u32, sought, name: name.into_bytes(), number: 0 }
    };
    spread(&directories).enumerate().map(line).collect()
}

/// The single calls and the sheet, each at the best of its places in memory.
fn measure(plan: &Plan, lines: &[Line]) -> [Duration; 2] {
    let table = images::table_of(&plan.nodes).len() + NEW * LINES;
    let Lent { words, bytes, .. } = Lent::new(plan.nodes.len() + LINES, table, 0);
    let mut case = Case { image: images::image(plan), words, bytes };
    let (sheet, before) = (bytes_of(lines), case.image.clone());
    let singles = case.one_by_one(lines, 0);
    let after = std::mem::replace(&mut case.image, before.clone());
    let (run, line) = case.sheet(&sheet, 0);
    assert!(case.image == after && before != after);
    assert_eq!([singles.number, run.number, line], [0; 3]);
    assert_eq!(singles.record, run.record);
    let undo = Undo::between(&before, &after);
    let mut best = [Duration::MAX; 2];
    for round in 0..ROUNDS {
        for (side, best) in best.iter_mut().enumerate() {
            undo.apply(&mut case.image);
            let edited = match side {
                0 => case.one_by_one(lines, round % 4),
                _ => case.sheet(&sheet, round % 4).0,
            };
            assert_eq!(edited.number, 0);
            *best = (*best).min(edited.time);
        }
    }
    best
}

pub fn run(misses: &mut Vec<String>) {
    println!();
    println!(
        "| a sheet of 1,024 lines | entries | places | single calls with a lookup each, ms | the sheet, ms | to them |"
    );
    println!("|---|---|---|---|---|---|");
    for sorted in [true, false] {
        let order = images::order(sorted);
        let whole = images::plan(ENTRIES, sorted, 64);
        let smaller = images::plan(ENTRIES - LINES, sorted, 64);
        for (name, plan, lines) in [
            ("moves and resizes", &whole, moves_and_resizes(&whole)),
            ("new directories and files", &smaller, inserts(&smaller)),
        ] {
            let [singles, sheet] = measure(plan, &lines);
            let (entries, to_singles) = (plan.nodes.len(), ratio(sheet, singles));
            println!(
                "| {name} | {entries} | {order} | {} | {} | {to_singles:.2} |",
                singles.as_millis(),
                sheet.as_millis(),
            );
            if to_singles > BAR {
                misses.push(format!("a sheet, {name}, {order}: {to_singles:.2}; bar {BAR}"));
            }
        }
    }
}

/// Every line has its path from the texts' first byte on; the zero byte is the last one, or the first.
pub fn run_long_texts(misses: &mut Vec<String>) {
    let plan = images::plan(16, true, 64);
    let Lent { words, bytes, .. } = Lent::new(16, images::table_of(&plan.nodes).len(), 0);
    let mut case = Case { image: images::image(&plan), words, bytes };
    println!();
    println!(
        "| texts of 64 MB, one zero byte | lines | answer | one pass over them, ms | the sheet, ms | passes |"
    );
    println!("|---|---|---|---|---|---|");
    for (place, zero, answer) in [("the last", TEXTS - 1, (9, 1)), ("the first", 0, (16, 1))] {
        let mut texts = vec![b'x'; TEXTS];
        texts[zero] = 0;
        for lines in [1, LINES] {
            let sheet = sheet_of(&[4, 0, 0, 9].repeat(lines), &texts);
            let mut best = [Duration::MAX; 2];
            for round in 0..ROUNDS {
                let start = Watch::start();
                let sum = texts.iter().fold(0u8, |sum, byte| sum.rotate_left(1) ^ byte);
                black_box(sum);
                best[0] = best[0].min(start.elapsed());
                let (run, line) = case.sheet(&sheet, round % 4);
                assert_eq!((run.number, line), answer);
                best[1] = best[1].min(run.time);
            }
            let passes = ratio(best[1], best[0]);
            let [pass, sheet] = best.map(|time| time.as_nanos() as f64 / 1e6);
            let (number, line) = answer;
            println!(
                "| {place} | {lines} | {number}, line {line} | {pass:.1} | {sheet:.3} | {passes:.2} |"
            );
            if passes > PASSES {
                misses.push(format!(
                    "64 MB of texts, zero {place}, {lines} lines: {passes:.1} passes"
                ));
            }
        }
    }
}
