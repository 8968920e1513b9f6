//! Programs on small images: at every offset, with every sum that decides, and the calls on images
//! that have one at each place where it may lie.

use crate::calls::Call;
use crate::rules::{self, DOL_HEADER, GAMECUBE, Tree, set_word};
use crate::run::Run;
use crate::suites::clip;

/// A master with room before its table: the FST at 0x600, and files `ab` and `b`, which share a text.
struct Master {
    /// Offsets and sizes.
    files: [(u32, u32); 2],
    disc_end: usize,
    length: usize,
    /// Bytes in place of zeros behind the table.
    filled: bool,
}

const FST: usize = 0x600;
const TABLE_END: u32 = 0x627;

/// The file that all masters here have, between two stretches of free space.
const FILE: (u32, u32) = (0x900, 0x100);

impl Master {
    fn image(&self) -> Vec<u8> {
        let mut image = vec![0; self.length];
        if self.filled {
            for (i, byte) in image.iter_mut().enumerate().skip(0x440) {
                *byte = (i % 251) as u8 + 1;
            }
        }
        set_word(&mut image, 0x1c, GAMECUBE);
        set_word(&mut image, 0x424, FST as u32);
        set_word(&mut image, 0x428, TABLE_END - FST as u32);
        set_word(&mut image, 0x434, self.disc_end as u32);
        let [(a, a_size), (b, b_size)] = self.files;
        let table = [0x0100_0000, 0, 3, 0, a, a_size, 1, b, b_size];
        for (i, word) in table.into_iter().enumerate() {
            set_word(&mut image, FST + 4 * i, word);
        }
        image[FST + 36..FST + 39].copy_from_slice(b"ab\0");
        image
    }

    /// The same with a program whose header tells `size`.
    fn with_program(&self, at: usize, size: u32) -> Vec<u8> {
        let mut image = self.image();
        set_word(&mut image, 0x420, at as u32);
        image[at..at + DOL_HEADER as usize].fill(0);
        set_word(&mut image, at + 4 * (36 + at % 18), size);
        image
    }
}

fn bytes(word: u32) -> Vec<u8> {
    word.to_be_bytes().to_vec()
}

/// Every DOL offset, with file sizes for which the program just fits somewhere, or just does not.
fn every_offset(run: &mut Run) {
    let calls = [Call::Free, Call::Used, Call::Listing, Call::MaxFile(1)];
    let room = [0x600 - 0x440, FILE.0 - TABLE_END, 0x2000 - FILE.0 - FILE.1];
    let sizes = [0, 1, 0xe3, 0xe4, 0xe5].into_iter().chain(room.iter().flat_map(|n| [*n, n + 1]));
    // The image ends with the disc, or goes on for more than a header.
    for (length, first) in [(0x2100, 0), (0x2000, 0x1d00)] {
        let master = Master { files: [FILE, (0, 0)], disc_end: 0x2000, length, filled: false };
        let mut variants = vec![];
        for size in sizes.clone() {
            for at in first..=length + 1 {
                let mut patches = vec![(0x420, bytes(at as u32))];
                // The header is all zeros but for one size, where that is off header and table.
                let apart = |word: &usize| {
                    *word >= 0x440
                        && (word + 4 <= FST || *word >= TABLE_END as usize)
                        && word + 4 <= length
                };
                let word = (0..18).map(|i| at + 4 * (36 + i)).find(apart);
                patches.extend(word.map(|word| (word, bytes(size))));
                variants.push(patches);
            }
        }
        run.variants(&master.image(), &variants, &calls);
    }
}

/// Each of the 18 sums at and above 2^32 - 1, before the table, behind it and with a DOL offset of 0.
fn every_sum(run: &mut Run) {
    let pairs: [(u32, u32); 8] = [
        (u32::MAX, 0),
        (0, u32::MAX),
        (u32::MAX, 1),
        (1, u32::MAX),
        (0x8000_0000, 0x7fff_ffff),
        (0x8000_0000, 0x8000_0000),
        (0x8000_0000, 0x8000_0001),
        (u32::MAX, u32::MAX),
    ];
    let calls = [Call::Dol, Call::DolWindow(vec!["e:0".into(), "s:0".into(), "r:8".into()])];
    let master = Master { files: [FILE, (0, 0)], disc_end: 0x2000, length: 0x2000, filled: false };
    let mut variants = vec![];
    for at in [0, 0x450, 0x700] {
        for i in 0..18 {
            for (mut offset, mut size) in pairs {
                if at == 0 && i == 7 {
                    // The GameCube magic stands there.
                    let sum = offset as u64 + size as u64;
                    offset = GAMECUBE;
                    size = (sum - GAMECUBE as u64).min(u32::MAX as u64) as u32;
                }
                let words = [(at + 4 * i, bytes(offset)), (at + 4 * (36 + i), bytes(size))];
                variants.push([&[(0x420, bytes(at as u32))], &words[..]].concat());
            }
        }
    }
    run.variants(&master.image(), &variants, &calls);
}

/// Programs that are fine and programs that are not, with other causes of a refusal.
fn with_other_causes(run: &mut Run) {
    let word = |at: usize, word: u32| (at, bytes(word));
    let causes = [
        vec![],
        vec![(0x1c, vec![0])],                    // 3
        vec![word(0x424, 0x43f)],                 // 4
        vec![word(0x608, 4)],                     // 5
        vec![(0x60c, vec![2])],                   // 6
        vec![(0x626, vec![1])],                   // 8
        vec![word(0x608, 16_385)],                // 9
        vec![word(0x60c, 0x0100_0000)],           // 10
        vec![word(0x60c, 3)],                     // 11
        vec![(0x625, vec![0x1f])],                // 12
        vec![(0x625, vec![b':'])],                // 13
        vec![word(0x610, TABLE_END - 1)],         // 14: over the table
        vec![word(0x610, 0x1f01)],                // 14: past the disc end
        vec![word(0x61c, 0x9ff), word(0x620, 1)], // 14: over the other file
        vec![word(0x610, 0x2001)],                // 14: behind the disc end
    ];
    let program = |at: u32, size: u32| vec![word(0x420, at), word(at as usize + 0x90, size)];
    let programs = [
        vec![],
        program(0x440, 0),
        program(0x700, 0),
        program(0x700, 0x200),
        program(0x700, 0x201),
        program(0x700, u32::MAX),
        [program(0x700, u32::MAX), vec![word(0x700, 1)]].concat(),
        program(0x1f1c, 0),
        program(0x1f1c, 0xe5),
        vec![word(0x420, 0x1f1d)],
        vec![word(0x420, u32::MAX)],
        vec![word(0x420, 0x43f)],
        vec![word(0x420, 0x600)],
    ];
    let master = Master { files: [FILE, (0, 0)], disc_end: 0x2000, length: 0x2000, filled: false };
    let mut variants = vec![];
    for cause in &causes {
        for program in &programs {
            variants.push([&program[..], cause].concat());
        }
    }
    run.variants(&master.image(), &variants, &[Call::Free, Call::Used, Call::Dol]);
}

/// Numbers around the places where something begins or ends.
fn around(marks: &[u64], by: u64) -> Vec<u32> {
    let mut numbers: Vec<u32> = marks
        .iter()
        .flat_map(|mark| mark.saturating_sub(by)..=mark + by)
        .map(|number| number.min(u32::MAX as u64) as u32)
        .collect();
    numbers.sort();
    numbers.dedup();
    numbers
}

fn marks(tree: &Tree) -> Vec<u64> {
    let mut marks = vec![0x440, tree.fst_offset, tree.table_end(), tree.disc_end];
    marks.extend(tree.program.iter().flat_map(|(at, size)| [*at, at + size / 2, at + size]));
    for file in tree.entries.iter().filter(|entry| !entry.directory) {
        marks.extend([file.offset as u64, file.offset as u64 + file.size as u64]);
    }
    marks
}

/// Calls that look, and edits of files 1 and 2, to and around every place that counts.
fn near_marks(tree: &Tree, inserts: bool) -> Vec<Call> {
    let marks = marks(tree);
    let mut calls = vec![Call::Listing, Call::List, Call::Free, Call::Used, Call::Total, Call::Dol];
    calls.push(Call::Rewrite);
    for number in [1, 2] {
        let file = &tree.entries[number as usize];
        let (offset, size) = (file.offset as u64, file.size as u64);
        calls.push(Call::MaxFile(number));
        calls.extend(around(&marks, 2).into_iter().map(|to| Call::Move(number, to)));
        let to_end: Vec<u64> = marks.iter().filter_map(|mark| mark.checked_sub(size)).collect();
        calls.extend(around(&to_end, 2).into_iter().map(|to| Call::Move(number, to)));
        let sizes: Vec<u64> = marks.iter().filter_map(|mark| mark.checked_sub(offset)).collect();
        for size in around(&sizes, 1) {
            calls.push(Call::Resize(number, size));
            calls.push(Call::Fill(number, clip(size as usize)));
        }
    }
    let starts = around(&marks, 1);
    for (k, start) in starts.iter().enumerate() {
        for end in starts.iter().skip(k) {
            calls.push(Call::MaxRegion(*start, end - start));
        }
    }
    for align in [1, 4, 0x20, 0x100, 0x1000, 0x8000] {
        let rests = tree
            .free
            .iter()
            .map(|(at, size)| (at + size).saturating_sub(at.next_multiple_of(align)));
        let sizes = around(&rests.collect::<Vec<_>>(), 1);
        calls.extend(sizes.into_iter().map(|size| Call::Alloc(size, align as u32)));
    }
    if inserts {
        for length in 1..40 {
            calls.push(Call::InsertFile(0, vec![b'x'; length]));
            calls.push(Call::InsertDirectory(0, vec![b'x'; length]));
            calls.push(Call::MakeDirectories(0, [&vec![b'x'; length][..], b"/y"].concat()));
        }
    }
    calls
}

/// The calls on an image: with memory enough, and a few of them with just enough and too little.
fn on(run: &mut Run, image: Vec<u8>, calls: impl Fn(&Tree) -> Vec<Call>) {
    let Ok(tree) = rules::open(&image, usize::MAX) else { return };
    let mut with: Vec<_> = calls(&tree).into_iter().map(|call| (call, 64, 0x100)).collect();
    let least = 4 * (tree.entries.len() + 2);
    let table = 12 * tree.entries.len() + tree.texts();
    for (words, bytes) in [(least, table), (least - 1, table), (least, table - 1)] {
        for call in
            [Call::Open, Call::Free, Call::Rewrite, Call::Resize(1, 1), Call::Move(1, 0x627)]
        {
            with.push((call, words, bytes));
        }
        for length in [1, FILE.1 as usize] {
            with.push((Call::Fill(1, clip(length)), words, bytes));
        }
    }
    run.each(image, &with);
}

/// Where in a small master a program may lie, and where it lies right beside something.
fn places(length: u32) -> Vec<u32> {
    let (file, file_end) = (FILE.0, FILE.0 + FILE.1);
    let mut places = vec![0x440, 0x441, 0x600 - length, 0x5ff - length, 0x1000];
    // The table grows by 2 where it is written anew, and by 13 and the name for an entry more.
    places.extend([0, 1, 2, 3, 15, 16, 17, 18, 30, 40].map(|by| TABLE_END + by));
    places.extend([0, 1, 0x10].map(|by| file - length - by));
    places.extend([0, 1, 0x10].map(|by| file_end + by));
    places.extend([0, 1, 0x100, 0x101].map(|by| 0x2000 - length - by));
    places
}

fn edits_beside(run: &mut Run) {
    for size in [0, 0x180] {
        let length = size.max(DOL_HEADER as u32);
        for at in places(length) {
            // The second file: none, one of some bytes, or an empty one at every odd place.
            let mut seconds = vec![(0, 0), (0x1800, 0x10)];
            seconds.extend([at - 1, at, at + 1, at + length - 1, at + length].map(|at| (at, 0)));
            for second in seconds {
                let files = [FILE, second];
                let master = Master { files, disc_end: 0x2000, length: 0x2000, filled: true };
                let image = master.with_program(at as usize, size);
                let inserts = run.inserts;
                on(run, image, |tree| near_marks(tree, inserts));
                if run.over() {
                    return;
                }
            }
        }
    }
    // Every number, with the program between two stretches of free space behind the file.
    let master =
        Master { files: [FILE, (0xe00, 0)], disc_end: 0x2000, length: 0x2040, filled: true };
    on(run, master.with_program(0x1400, 0x200), |_| {
        let all = 0..0x2044;
        all.flat_map(|number| {
            [
                Call::Move(1, number),
                Call::Move(2, number),
                Call::Resize(1, number),
                Call::Resize(2, number),
                Call::Fill(1, clip(number as usize)),
                Call::FillZeros(2, number as u64),
                Call::MaxRegion(number, number % 0x300),
                Call::Alloc(number, 1 << (number % 16)),
            ]
        })
        .collect()
    });
}

/// Growth that looks for a place at a multiple of 0x8000, with the program in the places found.
fn growth_beside(run: &mut Run) {
    let disc_end = 0x28_000;
    for size in [0, 0x300] {
        let length = size.max(DOL_HEADER as u32);
        let mut places = vec![disc_end - length, disc_end - length - 1];
        for multiple in [0x8000, 0x1_0000, 0x1_8000, 0x2_0000] {
            let before = [1, 0].map(|by| multiple - length - by);
            places.extend(before);
            places.extend([multiple - length + 1, multiple - 1, multiple, multiple + 1]);
            places.extend([multiple + 0x100, multiple + 0x7f00 - length]);
        }
        for at in places {
            // The second file lies right behind the first, or is empty inside a place.
            for second in [(0xa00, 0x10), (0xa00, 1), (0x1_0010, 0), (at, 0)] {
                let files = [FILE, second];
                let end = disc_end as usize;
                let master = Master { files, disc_end: end, length: end, filled: true };
                on(run, master.with_program(at as usize, size), |tree| {
                    let rests: Vec<u64> = tree
                        .free
                        .iter()
                        .map(|(at, size)| {
                            (at + size).saturating_sub(at.next_multiple_of(rules::ALIGN))
                        })
                        .collect();
                    let mut calls = vec![Call::Listing, Call::Free];
                    for size in around(&rests, 1).into_iter().chain([0x101, 0x7f00, 0x8001]) {
                        calls.push(Call::Resize(1, size));
                        calls.push(Call::Resize(2, size));
                        calls.push(Call::Alloc(size, rules::ALIGN as u32));
                        for number in [1, 2] {
                            calls.push(match size {
                                0..=0x200 => Call::Fill(number, clip(size as usize)),
                                _ => Call::FillZeros(number, size as u64),
                            });
                        }
                    }
                    calls
                });
                if run.over() {
                    return;
                }
            }
        }
    }
}

pub fn programs(run: &mut Run) {
    for part in [every_offset, every_sum, with_other_causes, edits_beside, growth_beside] {
        if !run.over() {
            part(run);
        }
    }
}
