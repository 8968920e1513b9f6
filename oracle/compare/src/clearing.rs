//! Runs to clear: every answer of Counter is held to the starts that `clearing_rules` tries, and to what that
//! answers. The original has no such call.

use crate::calls::any_number;
use crate::clearing_rules::{Answer, Cheapest, Occupied, Run as ToClear, Runs};
use crate::masters;
use crate::random::Random;
use crate::rules::{self, MOST, set_word};
use crate::run::{Batch, Run, image_lines};
use crate::suites::{nested_master, small_master};
use std::fs;

/// A random image of the suite for so many of `random`.
const PART: u64 = 4;

/// Images that are under way at a time, and sizes that are asked for on a random one.
const WAVE: usize = 96;
const SIZES: usize = 12;

/// Bytes behind the table on which every layout is tried.
const CELLS: u32 = 8;

/// A call, and where in the batch its answer is.
struct Asked {
    image: usize,
    words: usize,
    size: u64,
    budget: u64,
    at: usize,
}

struct Image {
    bytes: Vec<u8>,
    /// What lies on it where it opens, and the words that it wants.
    disc: Option<Occupied>,
    least: usize,
}

/// Images with the calls on them.
#[derive(Default)]
struct Wave {
    images: Vec<Image>,
    lines: Batch,
    asked: Vec<Asked>,
}

/// What the probe tells: none where it is no such answer.
fn told(answer: &str) -> Option<Answer> {
    if let Some(number) = answer.strip_prefix("err ") {
        return Some(Err(number.parse().ok()?));
    }
    let words = answer.strip_prefix("ok ")?;
    if words == "none" {
        return Some(Ok(None));
    }
    let numbers: Vec<u64> = words.split(' ').map(|n| n.parse().ok()).collect::<Option<_>>()?;
    let [tried, start, cost, bound] = numbers[..] else { return None };
    Some(Ok(Some(Cheapest { tried, run: ToClear { start, cost }, bound })))
}

fn shown(answer: Answer) -> String {
    match answer {
        Err(number) => format!("err {number}"),
        Ok(None) => "ok none".into(),
        Ok(Some(Cheapest { tried, run, bound })) => {
            format!("ok {tried} {} {} {bound}", run.start, run.cost)
        }
    }
}

impl Wave {
    /// The image is the current one from here on.
    fn image(&mut self, run: &Run, bytes: Vec<u8>) -> &Image {
        let opened = rules::open(&bytes, usize::MAX).ok();
        let least = opened.as_ref().map_or(400, |tree| 4 * (tree.entries.len() + 2));
        let path = run.place.join(format!("clear{}", self.images.len()));
        fs::write(&path, &bytes).unwrap();
        self.lines.probe(format!("image {}", path.display()));
        self.images.push(Image { bytes, disc: opened.as_ref().map(Occupied::of), least });
        self.images.last().unwrap()
    }

    /// Calls on the last image, with so many words lent.
    fn ask(&mut self, words: usize, size: u64, budgets: impl IntoIterator<Item = u64>) {
        self.lines.probe(format!("lend {words} 0"));
        for budget in budgets {
            let at = self.lines.probe(format!("clear {size} {budget}"));
            let image = self.images.len() - 1;
            self.asked.push(Asked { image, words, size, budget, at });
        }
    }

    /// The image, which has to open, and calls on it: each size with each budget that counts.
    fn every_budget(&mut self, run: &Run, image: Vec<u8>, sizes: impl IntoIterator<Item = u64>) {
        let Image { disc, least, .. } = self.image(run, image);
        let (disc, least) = (disc.as_ref().expect("it opens"), *least);
        let sizes = sizes.into_iter().map(|size| (size, disc.runs(size).candidates.len() as u64));
        for (size, count) in sizes.collect::<Vec<_>>() {
            self.ask(least, size, budgets(count));
        }
    }

    fn hold(self, run: &mut Run) {
        let (probe, _) = run.ask(&self.lines);
        run.counts.images += self.images.len() as u64;
        let refused = self.images.iter().filter(|image| image.disc.is_none()).count();
        run.counts.refused_images += refused as u64;
        // Calls of one size on one image stand together.
        for calls in self.asked.chunk_by(|a, b| (a.image, a.size) == (b.image, b.size)) {
            let Image { bytes, disc, .. } = &self.images[calls[0].image];
            let tried = disc.as_ref().map(|disc| (disc, disc.runs(calls[0].size)));
            for asked in calls {
                let due = match (rules::open(bytes, asked.words), &tried) {
                    (Ok(_), Some((_, runs))) => runs.answer(asked.budget),
                    (opened, _) => Err(opened.unwrap_err().number),
                };
                hold(run, bytes, tried.as_ref(), asked, &probe[asked.at], due);
            }
        }
    }
}

/// Holds one answer to what is due; where the image opens, to the runs on it.
fn hold(
    run: &mut Run,
    image: &[u8],
    tried: Option<&(&Occupied, Runs)>,
    asked: &Asked,
    answer: &str,
    due: Answer,
) {
    let Some(what) = wrong(tried, asked, answer, due) else {
        run.count_answer("clear", answer);
        return run.met(features(tried, asked, due));
    };
    let lines = [image_lines(image), vec![format!("lend {} 0", asked.words)]].concat();
    let call = format!("clear {} {}", asked.size, asked.budget);
    run.fault(&format!("a run to clear: {what}"), &lines, &call, "", answer, &shown(due));
}

/// What is wrong with an answer, if anything is.
fn wrong(
    tried: Option<&(&Occupied, Runs)>,
    asked: &Asked,
    answer: &str,
    due: Answer,
) -> Option<&'static str> {
    let Some(told) = told(answer) else { return Some("no such answer") };
    if let (Some((disc, runs)), Ok(Some(found))) = (tried, told)
        && let Some(what) = runs.wrong(disc, asked.size, &found)
    {
        return Some(what);
    }
    match (told, due) {
        _ if told == due => None,
        (Err(21), Ok(_)) => Some("21, and there is one"),
        (Ok(_), Err(21)) => Some("there is none"),
        (Err(_), _) | (_, Err(_)) => Some("the number"),
        (Ok(Some(found)), Ok(Some(wanted))) => Some(match () {
            () if found.tried != wanted.tried => "how many were tried",
            () if found.run.cost != wanted.run.cost => "a cheaper one was tried",
            () if found.run != wanted.run => "not the first of equals",
            () => "the bound",
        }),
        _ => Some("none tried"),
    }
}

/// What stands out about a call.
fn features(tried: Option<&(&Occupied, Runs)>, asked: &Asked, due: Answer) -> Vec<&'static str> {
    let Some((disc, runs)) = tried else { return vec![] };
    let (count, size) = (runs.candidates.len() as u64, asked.size);
    let room = disc.disc_end - disc.table_end;
    let mut cases = vec![
        (due == Err(21) && size == 0, "run to clear: 21, no byte"),
        (
            due == Err(21) && size == room + 1,
            "run to clear: 21, a byte more than there is behind the table",
        ),
        (due == Err(21) && 0 < size && size <= room, "run to clear: 21 for the program alone"),
        (due == Err(21) && size > room && asked.budget == 0, "run to clear: 21 with a budget of 0"),
        (
            due == Err(21) && disc.ends().iter().any(|end| end + size > MOST),
            "run to clear: 21, an end above 2^32 - 1",
        ),
        (due == Ok(None), "run to clear: none tried"),
    ];
    if let Ok(Some(Cheapest { tried, run, bound })) = due {
        let least = runs.least().unwrap_or(0);
        let others = &runs.candidates[..tried as usize];
        let equals = others.iter().filter(|other| other.cost == run.cost).count();
        let end = run.start + size;
        let tight = size > disc.largest && size <= disc.free_bytes;
        cases.extend([
            (asked.budget == count, "run to clear: a budget of all candidates"),
            (asked.budget + 1 == count, "run to clear: a budget of all but one"),
            (asked.budget > count, "run to clear: a budget above the candidates"),
            (equals > 1, "run to clear: others tried cost as much"),
            (run.cost < others[0].cost, "run to clear: a later one is cheaper"),
            (run.cost == 0, "run to clear: nothing to move"),
            (run.start == disc.table_end, "run to clear: at the table's end"),
            (
                disc.program.is_some_and(|(at, size)| run.start == at + size),
                "run to clear: behind the program",
            ),
            (disc.program.is_some_and(|(at, _)| end == at), "run to clear: up to the program"),
            (end == disc.disc_end, "run to clear: up to the disc's end"),
            (size == disc.largest, "run to clear: as large as the largest free region"),
            (
                runs.floor == 0 && bound > 0,
                "run to clear: a bound where so many free bytes are in a row",
            ),
            (tight && tried < count, "run to clear: a floor of 1, with enough free bytes"),
            (runs.floor > 1 && tried < count, "run to clear: a floor above 1"),
            (
                bound > 0 && least + bound == run.cost,
                "run to clear: one as cheap as the bound allows",
            ),
            (least == runs.floor && least > 0, "run to clear: as cheap as the floor"),
        ]);
    }
    cases.into_iter().filter(|(is_so, _)| *is_so).map(|(_, feature)| feature).collect()
}

/// Budgets around the number of candidates.
fn budgets(count: u64) -> Vec<u64> {
    let mut all = vec![0, 1, count.saturating_sub(1), count, count + 1, MOST];
    all.sort();
    all.dedup();
    all
}

// Images that are not made up at random -------------------------------------------------------

/// A disc that ends there, with these files and perhaps a program of zeros.
fn with_files(files: &[(u32, u32)], program: Option<u32>, disc_end: u32) -> Vec<u8> {
    let mut image = small_master();
    image.resize(disc_end as usize, 0);
    let count = files.len() + 1;
    set_word(&mut image, 0x428, 12 * count as u32 + 2);
    set_word(&mut image, 0x434, disc_end);
    set_word(&mut image, 0x448, count as u32);
    for (i, (offset, size)) in files.iter().enumerate() {
        for (k, value) in [0, *offset, *size].into_iter().enumerate() {
            set_word(&mut image, 0x44c + 12 * i + 4 * k, value);
        }
    }
    let texts = 0x440 + 12 * count;
    image[texts..texts + 2].copy_from_slice(b"a\0");
    if let Some(at) = program {
        set_word(&mut image, 0x420, at);
        image[at as usize..][..rules::DOL_HEADER as usize].fill(0);
    }
    image
}

/// Every way to take some of so many bytes by files: of each byte whether it is free, the first of a file, or
/// one more of the file before it.
fn layouts(cells: u32) -> Vec<Vec<(u32, u32)>> {
    let mut all: Vec<Vec<(u32, u32)>> = vec![vec![]];
    for cell in 0..cells {
        let mut longer = all.clone();
        for files in &all {
            longer.push([&files[..], &[(cell, 1)]].concat());
            if let Some((last, before)) = files.split_last()
                && last.0 + last.1 == cell
            {
                longer.push([before, &[(last.0, last.1 + 1)]].concat());
            }
        }
        all = longer;
    }
    all
}

/// Every layout of a few bytes behind the table, with an empty file anywhere; without a program, and with one
/// of 0xE4 bytes before, between and behind them; every size and budget.
fn every_layout(run: &mut Run) {
    let mut r = Random::new(0);
    let mut wave = Wave::default();
    let programs = (0..=CELLS - 2).map(|cell| (CELLS - 2, Some(cell)));
    for (cells, program) in [(CELLS, None)].into_iter().chain(programs) {
        for files in layouts(cells) {
            let cut = |(at, size): &(u32, u32)| program.is_some_and(|p| *at < p && p < at + size);
            if files.iter().any(cut) {
                continue;
            }
            let start = 0x440 + 12 * (files.len() as u32 + 2) + 2;
            let length = rules::DOL_HEADER as u32;
            let behind = |cell| if program.is_some_and(|p| p <= cell) { length } else { 0 };
            let place = |cell| start + cell + behind(cell);
            let end = place(cells);
            let mut placed: Vec<_> = files.iter().map(|(at, size)| (place(*at), *size)).collect();
            let empty = start + r.below((end - start) as usize + 1) as u32;
            placed.insert(r.below(files.len() + 1), (empty, 0));
            let image = with_files(&placed, program.map(|cell| start + cell), end);
            let room = u64::from(end - start);
            let sizes = (0..=u64::from(cells) + 1).chain([room, room + 1, MOST]);
            wave.every_budget(run, image, sizes);
            if wave.images.len() >= WAVE {
                std::mem::take(&mut wave).hold(run);
            }
            if run.over() {
                return;
            }
        }
    }
    wave.hold(run);
}

/// Every size on small images.
fn every_size(run: &mut Run) {
    let mut roomy = nested_master();
    set_word(&mut roomy, 0x440 + 12 * 4 + 4, 0x600);
    let mut beside = small_master();
    set_word(&mut beside, 0x420, 0x1000);
    beside[0x1000..0x1100].fill(0);
    for image in [small_master(), nested_master(), roomy, beside] {
        let mut wave = Wave::default();
        wave.every_budget(run, image, (0..0x2010).chain(MOST - 0x2010..=MOST));
        wave.hold(run);
    }
}

/// As many entries as there can be: files of one to three bytes, each two bytes behind the one before it.
fn limits(run: &mut Run) {
    let count = rules::ENTRIES as u32 - 1;
    let start = 0x440 + 12 * (count + 1) + 2;
    let files: Vec<_> = (0..count).map(|k| (start + 5 * k, 1 + k % 3)).collect();
    let disc_end = start + 5 * count;
    let mut wave = Wave::default();
    let Image { disc, least, .. } = wave.image(run, with_files(&files, None, disc_end));
    let (words, free) = (*least, disc.as_ref().expect("it opens").free_bytes);
    let (room, count) = (u64::from(disc_end - start), u64::from(count));
    for size in [1, 2, 0x1000, free, room, room + 1] {
        wave.ask(words, size, [0, 1, count / 2, count - 1, count, MOST]);
    }
    wave.ask(words - 1, 1, [0, 1]);
    wave.hold(run);
}

// Images that are made up at random -----------------------------------------------------------

/// Often one at which a run from some end just reaches something, or all that is free, or just does not.
fn size(r: &mut Random, disc: &Occupied) -> u64 {
    let ends = disc.ends();
    let end = *r.pick(&ends);
    let begins = disc.files.iter().chain(&disc.program).map(|(at, _)| *at);
    let begins: Vec<u64> = begins.chain([disc.disc_end]).filter(|at| *at >= end).collect();
    let size = match r.below(16) {
        0..=5 => r.pick(&begins) - end + r.below(2) as u64,
        6 => disc.largest + r.below(2) as u64,
        7 | 8 => disc.free_bytes + r.below(3) as u64,
        9 => disc.disc_end - disc.table_end + r.below(2) as u64,
        10 | 11 => 1 + r.below((disc.disc_end - disc.table_end) as usize + 1) as u64,
        // Its end is a small number in 32 bits.
        12 => MOST + 1 - end + r.below(disc.disc_end as usize) as u64,
        13 => r.below(4) as u64,
        14 => any_number(r).into(),
        _ => MOST - r.below(2) as u64,
    };
    size.min(MOST)
}

fn random(run: &mut Run, seed: u64, images: u64) {
    let mut begun = 0;
    while begun < images && !run.over() {
        let mut wave = Wave::default();
        while wave.images.len() < WAVE && begun < images {
            let mut r = Random::new(seed.wrapping_add(begun.wrapping_mul(0x5851_f42d_4c95_7f2d)));
            begun += 1;
            let image =
                if r.chance(8) { masters::damaged(&mut r) } else { masters::master(&mut r) };
            let Image { disc, least, .. } = wave.image(run, image);
            let least = *least;
            let asked: Vec<(u64, u64)> = match disc {
                None => vec![(any_number(&mut r).into(), 1), (0, 0)],
                Some(disc) => (0..SIZES)
                    .map(|_| {
                        let size = size(&mut r, disc);
                        (size, disc.runs(size).candidates.len() as u64)
                    })
                    .collect(),
            };
            for (size, count) in asked {
                let words = match r.below(40) {
                    0 => least - 1,
                    1 => 0,
                    2 => 65_544,
                    _ => least,
                };
                let some = r.within(0, count as usize) as u64;
                let any = any_number(&mut r).into();
                let last = *r.pick(&[count + 1, MOST, any]);
                let all = [0, some, count.saturating_sub(1), count, last];
                let first = r.below(3);
                wave.ask(words, size, all.into_iter().skip(first).take(3));
            }
        }
        wave.hold(run);
    }
}

pub fn clearing(run: &mut Run, seed: u64, images: u64) {
    every_layout(run);
    for part in [every_size, limits] {
        if !run.over() {
            part(run);
        }
    }
    if !run.over() {
        random(run, seed, images.div_ceil(PART));
    }
}
