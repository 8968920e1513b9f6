//! Inputs that are not made up at random: every small table, every number and every clip's length on
//! a small image, and the limits.

use crate::calls::Call;
use crate::masters::{chain, crowd, deep_crowd};
use crate::rules::{GAMECUBE, MAXIMUM, set_word};
use crate::run::Run;

/// Memory that is enough for any image.
const WORDS: usize = 65_544;
const BYTES: usize = 2_097_152;

/// The small master, with bytes in place of zeros behind the table.
pub fn small_master() -> Vec<u8> {
    let mut image = vec![0; 0x2000];
    for (i, byte) in image.iter_mut().enumerate().skip(0x45a) {
        *byte = (i % 251) as u8 + 1;
    }
    set_word(&mut image, 0x1c, GAMECUBE);
    set_word(&mut image, 0x424, 0x440);
    set_word(&mut image, 0x428, 0x1a);
    set_word(&mut image, 0x434, 0x2000);
    let table = [0x0100_0000, 0, 2, 0, 0x500, 0x100];
    for (i, word) in table.into_iter().enumerate() {
        set_word(&mut image, 0x440 + 4 * i, word);
    }
    image[0x458..0x45a].copy_from_slice(b"a\0");
    image
}

/// `/a/b`, `/a/a/`, `/ab`, `/b/`, with names shared in one text; the table abuts on the file `/ab`.
pub fn nested_master() -> Vec<u8> {
    let mut image = small_master();
    let table = [
        [0x0100_0000, 0, 6],
        [0x0100_0004, 0, 4],
        [0x0000_0001, 0x700, 0x10],
        [0x0100_0004, 1, 4],
        [0x0000_0000, 0x48e, 0x20],
        [0x0100_0001, 0, 6],
    ];
    for (i, word) in table.as_flattened().iter().enumerate() {
        set_word(&mut image, 0x440 + 4 * i, *word);
    }
    image[0x488..0x48e].copy_from_slice(b"ab\0\0a\0");
    set_word(&mut image, 0x428, 0x4e);
    image
}

/// A clip of so many bytes, which are not those of the images here.
pub fn clip(length: usize) -> Vec<u8> {
    (0..length).map(|i| (7 * i + 3) as u8).collect()
}

/// The small master made `length` bytes long, of which `disc_end` are the disc, with other entries.
pub fn other_master(length: usize, disc_end: u32, entries: &[[u32; 3]], texts: &[u8]) -> Vec<u8> {
    let mut image = small_master();
    let known = image.len();
    image.resize(length, 0);
    for (i, byte) in image.iter_mut().enumerate().skip(known) {
        *byte = (i % 251) as u8 + 1;
    }
    set_word(&mut image, 0x428, (12 * entries.len() + texts.len()) as u32);
    set_word(&mut image, 0x434, disc_end);
    for (i, word) in entries.as_flattened().iter().enumerate() {
        set_word(&mut image, 0x440 + 4 * i, *word);
    }
    let at = 0x440 + 12 * entries.len();
    image[at..at + texts.len()].copy_from_slice(texts);
    image
}

pub fn all_texts(alphabet: &[u8], length: usize) -> Vec<Vec<u8>> {
    let mut all = vec![vec![]];
    let mut last = all.clone();
    for _ in 0..length {
        last = last
            .iter()
            .flat_map(|text| alphabet.iter().map(move |b| [&text[..], &[*b]].concat()))
            .collect();
        all.extend(last.clone());
    }
    all
}

/// Every number in reach on a small image, and every short path.
pub fn numbers(run: &mut Run) {
    let with = |calls: Vec<Call>| -> Vec<(Call, usize, usize)> {
        calls.into_iter().map(|call| (call, 64, 0x400)).collect()
    };
    let mut calls = vec![Call::Header, Call::Listing, Call::List, Call::Rewrite];
    for number in 0..0x2010 {
        calls.push(Call::Move(1, number));
        calls.push(Call::Resize(1, number));
        calls.push(Call::MaxRegion(number, number % 7));
        calls.push(Call::Alloc(number, 1 << (number % 16)));
    }
    for offset in [0, 0x440, 0x459, 0x45a, 0x45b, 0x4ff, 0x500, 0x501, 0x5ff, 0x600, 0x601, 0x1fff]
    {
        for size in 0..0x2010 {
            calls.push(Call::MaxRegion(offset, size));
        }
    }
    for align in 0..0x420 {
        for size in [0, 1, 0xa5, 0xa6, 0xa7, 0x19ff, 0x1a00, 0x1a01] {
            calls.push(Call::Alloc(size, align));
        }
    }
    run.each(small_master(), &with(calls));

    let mut calls = vec![Call::Header, Call::Listing, Call::List, Call::Rewrite];
    for path in all_texts(b"ab./\\:\x01", 4) {
        for start in [0, 1, 2] {
            calls.push(Call::Lookup(start, path.clone()));
            if run.inserts {
                calls.push(Call::MakeDirectories(start, path.clone()));
            }
        }
    }
    if run.inserts {
        let bytes: Vec<u8> = (0..=255).collect();
        for name in all_texts(&bytes, 1).into_iter().chain(all_texts(b"ab./:\0\x7f", 3)) {
            calls.push(Call::InsertFile(0, name.clone()));
            calls.push(Call::InsertDirectory(1, name));
        }
    }
    // The table may not grow here, and may there.
    run.each(nested_master(), &with(calls.clone()));
    let mut roomy = nested_master();
    set_word(&mut roomy, 0x440 + 12 * 4 + 4, 0x600);
    run.each(roomy, &with(calls));
    let mut calls = vec![];
    for number in 0..0x900 {
        calls.push(Call::Move(2, number));
        calls.push(Call::Resize(2, number));
        calls.push(Call::Move(4, number));
        calls.push(Call::Resize(4, number));
    }
    run.each(nested_master(), &with(calls));
}

/// Every length of a clip on small images, the lengths around 2^32, and clips for which a file has to
/// move or the table has no room.
pub fn fills(run: &mut Run) {
    let every = |number: u32, lengths: std::ops::Range<usize>| {
        lengths.map(move |length| (Call::Fill(number, clip(length)), 64, 0x400))
    };
    run.each(small_master(), &every(1, 0..0x2010).collect::<Vec<_>>());
    let calls = every(2, 0..0x900).chain(every(4, 0..0x900)).collect::<Vec<_>>();
    run.each(nested_master(), &calls);

    let longest = 1u64 << 32;
    let lengths: [u64; 20] = [
        0,
        1,
        0xff,
        0x100,
        0x101,
        0x1aff,
        0x1b00,
        0x1b01,
        0x2000,
        0x2001,
        longest - 2,
        longest - 1,
        longest,
        longest + 1,
        // Cut to 32 bits: the file's size, what it can grow to, and more.
        longest + 0x100,
        longest + 0x1b00,
        longest + 0x1b01,
        2 * longest - 1,
        2 * longest - 0x100,
        2 * longest,
    ];
    let mut calls = vec![];
    for (words, bytes) in [(64, 0x400), (16, 0x1a), (16, 0x19), (16, 0), (15, 0x1a), (0, 0)] {
        for number in [0, 1, 2, 9, u32::MAX] {
            for length in lengths {
                calls.push((Call::FillZeros(number, length), words, bytes));
                if length < longest / 2 {
                    calls.push((Call::Fill(number, clip(length as usize)), words, bytes));
                }
            }
        }
    }
    run.each(small_master(), &calls);
    // Refused at opening: 4, 14.
    for (at, value) in [(0x424, 0x43f), (0x450, 0x459)] {
        let mut image = small_master();
        set_word(&mut image, at, value);
        run.each(image, &calls[..64]);
    }
    fills_elsewhere(run);
}

/// `a` has `b` right behind it; two places of 0x2000 bytes at multiples of 0x8000, and an empty file in
/// one of them; the image goes on behind the disc end. Then names that share a text.
fn fills_elsewhere(run: &mut Run) {
    let entries = [
        [0x0100_0000, 0, 5],
        [0, 0x600, 0x20],
        [2, 0x620, 0x79e0],
        [4, 0xa000, 0x6000],
        [6, 0x1_0001, 0],
    ];
    let image = other_master(0x1_2040, 0x1_2000, &entries, b"a\0b\0c\0d\0");
    let (least, table) = (4 * (entries.len() + 2), 12 * entries.len() + 8);
    let mut calls = vec![];
    for (words, bytes) in [(64, 0x400), (least, table), (least, table - 1), (least - 1, table)] {
        let lengths = [
            (1, 0..0x30),
            (1, 0x1ff0..0x2010),
            (2, 0x79df..0x79e2),
            (3, 0x5fff..0x6002),
            (4, 0..4),
            (4, 0x1ffd..0x2003),
        ];
        for (number, lengths) in lengths {
            calls.extend(lengths.map(|length| (Call::Fill(number, clip(length)), words, bytes)));
        }
        for length in [0x1_2000, 0x1_2040, 0x1_2041] {
            calls.push((Call::FillZeros(1, length), words, bytes));
        }
    }
    run.each(image, &calls);
    // The table written anew is longer than the room behind it.
    let entries = [[0x0100_0000, 0, 4], [0, 0x500, 0x100], [0, 0x474, 2], [0, 0x600, 2]];
    let lengths = [0, 1, 2, 3, 0x10, 0xff, 0x100, 0x101];
    let calls = (1..=3).flat_map(|number| lengths.map(|n| Call::Fill(number, clip(n))));
    let calls: Vec<_> = calls.map(|call| (call, 64, 0x400)).collect();
    run.each(other_master(0x9000, 0x9000, &entries, b"a\0"), &calls);
    // It reaches an empty file that grows where it is.
    let entries = [[0x0100_0000, 0, 4], [0, 0x500, 0x10], [0, 0x472, 0], [0, 0x474, 0]];
    run.each(other_master(0x2000, 0x2000, &entries, b"a\0"), &calls);
}

/// Every table of up to four records over a few names, kinds and nexts, with every count up to
/// five.
pub fn tables(run: &mut Run) {
    let base = small_master();
    let texts = b"a\0b\0.\0\x1f\0";
    // Names `a`, `b`, an empty one, `.`, one with a byte 0x1F, one at the texts' end.
    let names = [0, 2, 1, 4, 6, 8];
    let mut records = vec![];
    for name in names {
        for size in [0, 0x10] {
            records.push((0u32, name, size));
        }
        for next in 0..6 {
            records.push((1, name, next));
        }
        records.push((2, name, 0));
    }
    for length in 1..=4u32 {
        let mut tables = vec![];
        let kinds = records.len().pow(length - 1);
        for count in 0..6 {
            for mut number in 0..kinds {
                let mut table = vec![0; 0x18 + 12 * length as usize];
                table[..0x18].copy_from_slice(&base[0x428..0x440]);
                let size = 12 * length + texts.len() as u32;
                set_word(&mut table, 0, size);
                let (root, rest) = table[0x18..].split_at_mut(12);
                set_word(root, 0, 1 << 24);
                set_word(root, 8, count);
                for (i, record) in rest.chunks_mut(12).enumerate() {
                    let (kind, name, value) = records[number % records.len()];
                    number /= records.len();
                    set_word(record, 0, kind << 24 | name);
                    let place = if kind == 0 && value > 0 { 0x500 + 0x10 * i as u32 } else { 0 };
                    set_word(record, 4, place);
                    set_word(record, 8, value);
                }
                table.extend(texts);
                tables.push(table);
            }
        }
        open_tables(run, &base, tables);
        if run.over() {
            return;
        }
    }
    // The root's own record, and tables too short for it.
    let mut tables = vec![];
    for kind in 0..4 {
        for size in 0..30 {
            let mut table = base[0x428..0x45a].to_vec();
            set_word(&mut table, 0, size);
            set_word(&mut table, 0x18, kind << 24);
            tables.push(table);
        }
    }
    open_tables(run, &base, tables);
}

/// FST size and table in the place of those of `base`: opened, listed, and their free regions.
fn open_tables(run: &mut Run, base: &[u8], tables: Vec<Vec<u8>>) {
    let variants: Vec<_> = tables.into_iter().map(|table| vec![(0x428, table)]).collect();
    run.variants(base, &variants, &[Call::List, Call::Free]);
}

/// Calls at the limits: entries, texts, depth, memory.
pub fn limits(run: &mut Run) {
    let up = Call::Lookup(0, b"..".to_vec());
    let made = Call::MakeRecord(vec![u32::MAX; 16], vec![1; 16]);
    let looks = [Call::Open, Call::Free, Call::Used, Call::Total, made, up];
    let edits = |run: &Run| {
        let mut edits = vec![Call::Rewrite];
        if run.inserts {
            edits.push(Call::InsertFile(0, b"x".to_vec()));
            edits.push(Call::InsertDirectory(0, b"x".to_vec()));
            edits.push(Call::MakeDirectories(0, b"x/y".to_vec()));
            edits.push(Call::MakeDirectories(0, b"".to_vec()));
        }
        edits
    };
    for depth in 60..=67 {
        for with_file in [false, true] {
            let mut calls = looks.to_vec();
            calls.push(Call::Listing);
            calls.extend(edits(run));
            let deep = [b"a".to_vec(), b"/a".repeat(depth.min(63))].concat();
            calls.push(Call::Lookup(0, deep.clone()));
            if with_file {
                calls.push(Call::Move(depth as u32 + 1, 0x1900));
                calls.push(Call::Resize(depth as u32 + 1, 0x20));
                calls.push(Call::Fill(depth as u32 + 1, clip(0x10)));
                calls.push(Call::Fill(depth as u32 + 1, clip(0x20)));
            }
            if run.inserts {
                calls.push(Call::InsertFile(depth as u32, b"z".to_vec()));
                calls.push(Call::InsertDirectory(depth as u32, b"z".to_vec()));
                calls.push(Call::InsertDirectory(depth as u32 - 1, b"z".to_vec()));
                for more in 0..4 {
                    let path = [&b"z/"[..], &b"y/".repeat(more)].concat();
                    calls.push(Call::MakeDirectories(depth as u32 - 1, path));
                }
            }
            let calls: Vec<_> = calls.into_iter().map(|call| (call, WORDS, BYTES)).collect();
            run.each(chain(depth, with_file), &calls);
        }
    }
    // Entries and texts: count, length of the one name, length of the texts, room behind.
    let crowds = [
        (16_383, 1, 2, 0x40_000),
        (16_384, 1, 2, 0x40_000),
        (16_385, 1, 2, 0x40_000),
        (16_384, 63, 64, 0x120_000), // written anew: texts of 16,383 x 64 bytes, just below the limit
        (16_384, 64, 65, 0x120_000), // past it
        (2, 5, 1_048_575, 0x100),
        (2, 5, 1_048_576, 0x100),
        (2, 5, 1_048_577, 0x100),
        (3, 1_048_574, 1_048_575, 0x20_0000),
        (2, 1_048_575, 1_048_576, 0x100),
        (2, 1_048_574, 1_048_576, 0x100),
    ];
    for (count, length, texts, room) in crowds {
        let mut calls = looks.to_vec();
        calls.extend(edits(run));
        calls.push(Call::Entry(count as u32 - 1));
        calls.push(Call::Entry(count as u32));
        calls.push(Call::Resize(1, 0x10));
        calls.push(Call::Fill(1, clip(0x10)));
        calls.push(Call::FillZeros(1, 1 << 32));
        calls.push(Call::Move(1, 7));
        let mut with: Vec<_> = calls.iter().map(|call| (call.clone(), WORDS, BYTES)).collect();
        with.extend(calls.iter().map(|call| (call.clone(), 4 * (count + 2), 12 * count + texts)));
        with.push((Call::Open, 4 * (count + 2) - 1, 0));
        run.each(crowd(count, length, texts, room), &with);
    }
    // The new table's size to the byte: each name is read from the one text and written for itself.
    for (image, count) in [
        (chain(64, false), 65),
        (chain(64, true), 66),
        (crowd(16_383, 1, 2, 0x40_000), 16_383),
        (deep_crowd(16_383, 0x40_000), 16_383),
        (deep_crowd(16_384, 0x40_000), 16_384),
    ] {
        let size = 12 * count + 2 * (count - 1);
        let with: Vec<_> = edits(run)
            .into_iter()
            .chain([Call::Fill(1, clip(0x10))])
            .flat_map(|call| {
                let new = match &call {
                    Call::InsertFile(..) | Call::InsertDirectory(..) => 14,
                    Call::MakeDirectories(_, path) if !path.is_empty() => 28,
                    _ => 0,
                };
                [1, 0].map(|less| (call.clone(), WORDS, size + new - less))
            })
            .collect();
        run.each(image, &with);
    }
}

/// All trees of up to four entries over two names: kinds, nesting and names, each entry a
/// directory, an empty file or one of 0x10 bytes.
fn small_trees() -> Vec<Vec<(bool, u8, u32)>> {
    let mut trees: Vec<Vec<(bool, u8, u32)>> = vec![vec![]];
    let mut all = trees.clone();
    for _ in 0..3 {
        let mut longer = vec![];
        for tree in &trees {
            for name in [0, 2] {
                for size in [0, 0x10] {
                    longer.push([&tree[..], &[(false, name, size)]].concat());
                }
                for next in 1..=4 {
                    longer.push([&tree[..], &[(true, name, next)]].concat());
                }
            }
        }
        all.extend(longer.clone());
        trees = longer;
    }
    all
}

/// The image of a small tree; its files begin `gap` bytes behind the table. Names are shared.
fn small_image(tree: &[(bool, u8, u32)], gap: u32) -> Vec<u8> {
    let mut image = small_master();
    let size = 12 * (tree.len() as u32 + 1) + 4;
    set_word(&mut image, 0x428, size);
    set_word(&mut image, 0x448, tree.len() as u32 + 1);
    let mut place = 0x440 + size + gap;
    for (i, (directory, name, value)) in tree.iter().enumerate() {
        let at = 0x44c + 12 * i;
        set_word(&mut image, at, u32::from(*directory) << 24 | u32::from(*name));
        set_word(&mut image, at + 4, if *directory { 0 } else { place });
        set_word(&mut image, at + 8, *value);
        if !directory {
            place += value;
        }
    }
    let texts = 0x440 + size as usize - 4;
    image[texts..texts + 4].copy_from_slice(b"a\0b\0");
    image
}

/// Every small tree, with little room behind its table and much, or with a maximum, and on each the
/// edits that its entries allow or just do not allow.
pub fn trees(run: &mut Run) {
    let names: [&[u8]; 7] = [b"a", b"b", b"x", b"", b":", b"\x01", b"x\x01"];
    let paths: [&[u8]; 14] = [
        b"",
        b"a",
        b"b",
        b"x",
        b"..",
        b"a/",
        b"a/b",
        b"a/../b",
        b"x/y",
        b"x/../x/y",
        b"a/x/../b/x",
        b"a/a/a",
        b"x/:",
        b"\x01/x",
    ];
    for tree in small_trees() {
        let count = tree.len() as u32 + 1;
        let rooms = [0, 1, 2, 13, 14, 15, 28, 0x80].map(|gap| (gap, 0));
        // A maximum a byte short of the table written anew, and one that lets a short name in.
        let written = 12 * count + 2 * (count - 1);
        for (gap, maximum) in rooms.into_iter().chain([(0, written - 1), (0x80, written + 14)]) {
            let mut image = small_image(&tree, gap);
            set_word(&mut image, MAXIMUM, maximum);
            if crate::rules::open(&image, usize::MAX).is_err() {
                break;
            }
            let table_end = 0x440 + 12 * count + 4;
            let mut calls = vec![Call::Listing, Call::Rewrite];
            for entry in 0..=count {
                for path in paths {
                    calls.push(Call::Lookup(entry, path.to_vec()));
                }
                for place in [0, table_end - 1, table_end, table_end + gap, 0x600, u32::MAX] {
                    calls.push(Call::Move(entry, place));
                }
                for by in 0..=2 * count {
                    calls.push(Call::Move(entry, table_end + by));
                }
                for size in [0, 1, 0x0f, 0x10, 0x11, 0x20, 0x1c00, u32::MAX] {
                    calls.push(Call::Resize(entry, size));
                    calls.push(match size {
                        0..=0x20 => Call::Fill(entry, clip(size as usize)),
                        _ => Call::FillZeros(entry, size as u64),
                    });
                }
                calls.push(Call::FillZeros(entry, 1 << 32));
                if run.inserts {
                    for name in names {
                        calls.push(Call::InsertFile(entry, name.to_vec()));
                        calls.push(Call::InsertDirectory(entry, name.to_vec()));
                    }
                    for path in paths {
                        calls.push(Call::MakeDirectories(entry, path.to_vec()));
                    }
                }
            }
            let calls: Vec<_> = calls.into_iter().map(|call| (call, 64, 0x100)).collect();
            run.each(image, &calls);
            if run.over() {
                return;
            }
        }
    }
}
