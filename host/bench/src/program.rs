//! Opening an image with a program, wherever it lies, against the same image with a DOL offset of 0, and against an earlier library.

use crate::images::{self, PROGRAM, Plan};
use crate::measure::{micros, ratio, tenth};
use crate::places::{OPEN, OPEN_BEFORE, time_open};
use crate::sides::{Call, Lent};
use std::fs;
use std::path::Path;
use std::time::Duration;

const BAR: f64 = 1.05;
const BUDGET: Duration = Duration::from_secs(8);
const KINDS: [(usize, bool); 4] = [(1024, true), (1024, false), (16384, true), (16384, false)];
const PLACES: [&str; 5] = ["none", "before", "behind", "middle", "last"];

/// The same files with the program at each of the places; only the DOL offset differs, so what is the program in one image is free
/// space in another.
fn images_of(plan: &Plan) -> [Vec<u8>; 5] {
    let last = plan.disc_end as usize - PROGRAM;
    let places = [0, 0x440, images::behind(plan), plan.gap as usize, last];
    let mut image = images::image(plan);
    for at in &places[1..] {
        images::put_program(&mut image, *at);
    }
    places.map(|at| {
        image[0x420..0x424].copy_from_slice(&(at as u32).to_be_bytes());
        image.clone()
    })
}

fn plan(entries: usize, sorted: bool) -> Plan {
    images::plan_with_gap(entries, sorted, 64, PROGRAM)
}

/// For each image the time before and now, each at the best of its four places in memory. Another image is opened before each run: a
/// processor that has learnt the files' order takes half the time to sort them, and which contender it learns from is chance. Without
/// an earlier library the bar is the time without a program, by this one.
fn times(images: &[Vec<u8>; 5], other: &[u8], entries: usize) -> [[Duration; 2]; 5] {
    let mut words = vec![0; 4 * (entries + 2)];
    let all: [Duration; 40] = tenth(BUDGET, |side| {
        let (image, place, is_now) = (side / 8, side % 4, side / 4 % 2 == 1);
        let open = if is_now { OPEN[place] } else { OPEN_BEFORE[place] };
        let image = if is_now || cfg!(before) { &images[image] } else { &images[0] };
        time_open(open, other, &mut words);
        time_open(open, image, &mut words)
    });
    let best = |side: usize| *all[side..side + 4].iter().min().unwrap();
    std::array::from_fn(|image| [best(8 * image), best(8 * image + 4)])
}

pub fn run(misses: &mut Vec<String>) {
    let before = if cfg!(before) { "the library before" } else { "DOL offset 0" };
    println!();
    println!("Opening, µs; in brackets as a part of the time with DOL offset 0, and of {before}:");
    println!();
    println!(
        "| entries | DOL offset 0 | before the table | behind it | in the middle of the files | last |"
    );
    println!("|---|---|---|---|---|---|");
    for (entries, sorted) in KINDS {
        let order = images::order(sorted);
        let mut images = images_of(&plan(entries, sorted));
        for image in &mut images {
            assert!(Lent::new(entries, 0, 0).run(&Call::Open, image).1.is_ok());
        }
        let times = times(&images, &images::image(&plan(entries - 1, sorted)), entries);
        print!("| {entries}, {order} |");
        for (place, [old, new]) in PLACES.iter().zip(times) {
            let (to_none, to_before) = (ratio(new, times[0][1]), ratio(new, old));
            print!(" {} ({to_none:.2}, {to_before:.2}) |", micros(new));
            if to_before > BAR {
                misses.push(format!(
                    "opening, {entries} {order}, program {place}: {to_before:.2} of {before}; bar {BAR}"
                ));
            }
        }
        println!();
    }
}

/// The images as files, and those of 16 entries too, for valgrind over the probe.
pub fn write(folder: &Path) -> std::io::Result<()> {
    for (entries, sorted) in images::KINDS {
        let images = images_of(&plan(entries, sorted));
        for (place, image) in PLACES.iter().zip(images) {
            let name = format!("{entries}-{}-{place}.iso", images::order(sorted));
            fs::write(folder.join(name), image)?;
        }
    }
    Ok(())
}
