//! Images to feed: masters that open, of many shapes, and damaged copies of them.

use crate::names;
use crate::random::Random;
use crate::rules::{self, GAMECUBE, WII, set_word, word};

pub const NAMES: [&[u8]; 20] = [
    b"a",
    b"b",
    b"ab",
    b"ba",
    b"aab",
    b"b.c",
    b"c",
    b"x y",
    b"~",
    b" ",
    b"opening.bnr",
    b"...",
    b"A",
    b"a.",
    b".a",
    b"0",
    b"!",
    b"cc",
    b"cab",
    b"longer name of a file.ext",
];

/// A record of the table before it has bytes.
struct Record {
    directory: bool,
    name: Vec<u8>,
    parent: usize,
    next: usize,
    offset: u64,
    size: u64,
}

/// Kinds and nesting of `n` entries, with names.
fn nesting(r: &mut Random, n: usize) -> Vec<Record> {
    let (directories, up) = (*r.pick(&[10, 35, 35, 60, 90]), *r.pick(&[5, 30, 60]));
    let equal_names = r.chance(30);
    // Japanese names; in a few of these images some that the codec does not turn back.
    let (japanese, others) = (r.chance(40), r.chance(15));
    let mut records: Vec<Record> = vec![];
    let mut around: Vec<usize> = vec![];
    for k in 0..n {
        while around.len() > 1 && r.chance(up) {
            records[around.pop().unwrap()].next = k;
        }
        let parent = *around.last().unwrap_or(&0);
        let mut name = vec![];
        if k > 0 {
            name = match japanese && r.chance(60) {
                true => names::name(r, others),
                false => r.pick(&NAMES).to_vec(),
            };
            let taken = |name: &Vec<u8>| {
                records[1..].iter().any(|other| other.parent == parent && other.name == *name)
            };
            while !equal_names && taken(&name) {
                name.push(*r.pick(b"abc.-"));
            }
        }
        let directory = k == 0 || r.chance(directories);
        if directory {
            around.push(k);
        }
        records.push(Record { directory, name, parent, next: 0, offset: 0, size: 0 });
    }
    for k in around {
        records[k].next = n;
    }
    records
}

pub fn find(texts: &[u8], wanted: &[u8]) -> Option<usize> {
    texts.windows(wanted.len()).position(|at| at == wanted)
}

/// The texts, and where in them each name lies.
fn texts(r: &mut Random, records: &mut [Record]) -> (Vec<u8>, Vec<usize>) {
    let (mut texts, mut places) = (vec![], vec![0; records.len()]);
    let style = r.below(6);
    if style == 5 && records.len() > 1 {
        // One text for all: every name is one of its ends.
        let text = if r.chance(50) { names::ENDS[0] } else { *r.pick(&names::ENDS) };
        let ends: Vec<usize> = (0..text.len()).filter(|at| names::fine(&text[*at..])).collect();
        for k in 1..records.len() {
            places[k] = *r.pick(&ends);
            records[k].name = text[places[k]..].to_vec();
        }
        return ([text, b"\0"].concat(), places);
    }
    let mut order: Vec<usize> = (1..records.len()).collect();
    if style == 3 {
        order.reverse();
    }
    for k in order {
        let mut text = records[k].name.clone();
        text.push(0);
        let shared = match style {
            1 => find(&texts, &text).filter(|at| *at == 0 || texts[at - 1] == 0),
            2 => find(&texts, &text),
            _ => None,
        };
        places[k] = shared.unwrap_or(texts.len());
        if shared.is_none() {
            texts.extend(text);
        }
        if style == 4 && r.chance(40) {
            let slack: [&[u8]; 5] = [b"\0", b"zz\0", b"\x01\xff\0", b"/\0\0", b"\x95\0"];
            texts.extend(*r.pick(&slack));
        }
    }
    if r.chance(5) && style != 4 {
        texts.extend(b"unused\0");
    }
    (texts, places)
}

/// A program: its offset, the file size that its header tells, and its length.
#[derive(Clone, Copy)]
pub struct Program {
    pub at: u64,
    pub size: u64,
}

impl Program {
    pub fn length(&self) -> u64 {
        self.size.max(rules::DOL_HEADER)
    }
}

pub fn program(r: &mut Random) -> Program {
    let size = match r.below(8) {
        0 => 0,
        1 => r.within(1, 0xe2),
        2 => 0xe3,
        3 => 0xe4,
        4 => 0xe5,
        5 => 0x100,
        _ => r.within(0xe4, 0x400),
    };
    Program { at: 0, size: size as u64 }
}

/// Places and sizes of the files, and a place for the program between them; the answer is the end of
/// the last one.
fn layout(
    r: &mut Random,
    records: &mut [Record],
    mut program: Option<&mut Program>,
    table_end: u64,
    growth: u64,
) -> u64 {
    let mut files: Vec<usize> = (0..records.len()).filter(|k| !records[*k].directory).collect();
    for i in (1..files.len()).rev() {
        files.swap(i, r.below(i + 1));
    }
    // The number behind all entries stands for the program.
    let mut order = files.clone();
    if program.is_some() {
        order.insert(r.below(order.len() + 1), records.len());
    }
    let tight = r.chance(30);
    // Gaps of one size, for largest rests that occur twice.
    let even = r.chance(20).then_some(r.within(1, 40) as u64);
    let (mut end, mut first) = (table_end, true);
    let mut marks = vec![0, 0x440, table_end - 1, table_end, u32::MAX as u64];
    for k in order {
        let is_program = k == records.len();
        if !is_program && r.chance(25) {
            continue; // empty: placed below
        }
        let gap = match r.below(if tight { 4 } else { 10 }) {
            0..=3 if !first || tight => 0,
            4 => 1,
            5 => r.within(2, 16),
            6 => r.within(17, 64),
            7 => r.within(0x41, 0x200),
            _ => r.below(4),
        } as u64;
        // The table's growth decides about the first gap.
        let gap = match r.below(10) {
            0..=3 if first => (growth + r.below(3) as u64).max(1) - 1,
            4..=7 if first => r.within(0x20, 0x300) as u64,
            _ => even.unwrap_or(gap),
        };
        first = false;
        let size = match r.below(8) {
            0 => 1,
            1 => 2,
            2 => 0x10,
            3 => r.within(3, 0x20),
            4 => r.within(0x20, 0x80),
            5 => 0x100,
            6 => r.within(0x80, 0x200),
            _ => r.within(1, 8),
        } as u64;
        let size = match program.as_deref_mut().filter(|_| is_program) {
            Some(program) => {
                program.at = end + gap;
                program.length()
            }
            None => {
                (records[k].offset, records[k].size) = (end + gap, size);
                size
            }
        };
        marks.extend([end, end + gap, end + gap + size / 2]);
        end += gap + size;
    }
    let aligned = end.next_multiple_of(rules::ALIGN);
    marks.extend([end, end + 1, end + 0x100, aligned, aligned + 8]);
    for k in &files {
        let k = *k;
        if records[k].size == 0 {
            let at = *r.pick(&marks) + if r.chance(30) { r.below(3) as u64 } else { 0 };
            records[k].offset = at.min(u32::MAX as u64);
        }
    }
    end + even.unwrap_or(0)
}

/// Up to three files more, each ending at a multiple of the alignment that growth looks for, so
/// that the places it finds are alike; empty files inside such places, and perhaps the program.
fn spread(r: &mut Random, records: &mut [Record], program: Option<&mut Program>, end: u64) -> u64 {
    let mut at = end.next_multiple_of(rules::ALIGN);
    let size = r.within(1, 0x40) as u64;
    let mut left = r.within(1, 3);
    if let Some(program) = program
        && r.chance(60)
    {
        let length = program.length();
        let before = at.checked_sub(length).filter(|start| *start >= end);
        let inside = at + r.within(1, 0x4000) as u64;
        program.at = *r.pick(&[before.unwrap_or(at), at, inside]);
        at = (program.at + length).next_multiple_of(rules::ALIGN) + rules::ALIGN;
    }
    for record in records.iter_mut().filter(|record| !record.directory && record.size == 0) {
        if left > 0 && r.chance(70) {
            (record.offset, record.size) = (at - size, size);
            if at - size < end {
                record.offset = at;
            }
            at += rules::ALIGN;
            left -= 1;
        } else if r.chance(70) {
            record.offset = at - r.below(0x100) as u64;
        }
    }
    (at - if r.chance(50) { size } else { r.below(0x40) as u64 }).max(end)
}

/// A sum of the DOL header: offset and size of section `i` of 18.
fn set_sum(r: &mut Random, dol: &mut [u8], i: usize, sum: u64) {
    let least = sum.saturating_sub(u32::MAX as u64);
    let offset = match r.below(4) {
        0 => least,
        1 => sum - least,
        _ => least + r.next() % (sum - 2 * least + 1),
    };
    set_word(dol, 4 * i, offset as u32);
    set_word(dol, 4 * (36 + i), (sum - offset) as u32);
}

/// A DOL header that tells this file size; what else it holds is any number.
pub fn dol_header(r: &mut Random, dol: &mut [u8], size: u64) {
    let largest = r.below(18);
    for i in 0..18 {
        let sum = match r.below(4) {
            _ if i == largest => size,
            0 => size,
            1 => 0,
            _ => r.next() % (size + 1),
        };
        set_sum(r, dol, i, sum);
        set_word(dol, 4 * (18 + i), r.next() as u32);
    }
    for i in 54..57 {
        set_word(dol, 4 * i, r.next() as u32);
    }
}

pub fn header(r: &mut Random, image: &mut [u8]) {
    if word(image, 0x18) == WII {
        image[0x18] ^= 1;
    }
    set_word(image, 0x1c, GAMECUBE);
    let name = &mut image[0x20..0x400];
    // Mostly a text and zeros; some with bytes behind the text, a few without a zero byte.
    let length = *r.pick(&[0, 1, 5, 40, 0x3de, 0x3df]);
    let (behind, ended) = (r.chance(4), r.chance(98));
    for (i, byte) in name.iter_mut().enumerate() {
        if i < length || !ended {
            *byte = (*byte).max(1);
        } else if i == length || !behind {
            *byte = 0;
        }
    }
}

/// A master, which opens if it has enough words.
pub fn master(r: &mut Random) -> Vec<u8> {
    let n = match r.below(100) {
        0..=2 => 1,
        3..=69 => r.within(2, 8),
        70..=94 => r.within(9, 20),
        _ => r.within(21, 70),
    };
    let mut records = nesting(r, n);
    let (texts, places) = texts(r, &mut records);
    // No program, one before the table, one behind it.
    let (mut before, mut behind) = match r.below(10) {
        0..=3 => (None, None),
        4 | 5 => (Some(program(r)), None),
        _ => (None, Some(program(r))),
    };
    let fst_offset = match (r.below(10), &mut before) {
        (k, Some(program)) => {
            program.at = 0x440 + if k < 4 { 0 } else { r.within(1, 0x40) as u64 };
            let end = program.at + program.length();
            end + if r.chance(40) { 0 } else { r.within(1, 0x40) as u64 }
        }
        (0..=6, None) => 0x440,
        (7 | 8, None) => r.within(0x441, 0x480) as u64,
        _ => r.within(0x481, 0x640) as u64,
    };
    let fst_size = 12 * n as u64 + texts.len() as u64;
    let written: u64 = records.iter().map(|record| 13 + record.name.len() as u64).sum::<u64>() - 1;
    let growth = written.saturating_sub(fst_size);
    let end = layout(r, &mut records, behind.as_mut(), fst_offset + fst_size, growth);
    let wide = r.chance(5);
    let end = if wide { spread(r, &mut records, behind.as_mut(), end) } else { end };
    let disc_end = match r.below(20) {
        _ if wide => end,
        0..=4 => end,
        5 => end + 1,
        6..=11 => end + r.within(2, 0x80) as u64,
        12..=16 => end + r.within(0x80, 0x400) as u64,
        _ => {
            let far = *r.pick(&[0, 1, 0x10, 0x100, 0x101]) + r.below(2) as u64 * rules::ALIGN;
            end.next_multiple_of(rules::ALIGN) + far
        }
    };
    let beyond = if r.chance(70) { 0 } else { *r.pick(&[1, 0x10, 0x100, 0x123]) };
    let mut image = vec![0; disc_end as usize + beyond];
    for chunk in image.chunks_mut(8) {
        let bytes = r.next().to_be_bytes();
        chunk.copy_from_slice(&bytes[..chunk.len()]);
    }
    header(r, &mut image);
    set_word(&mut image, 0x424, fst_offset as u32);
    set_word(&mut image, 0x428, fst_size as u32);
    let user = match r.below(3) {
        0 => disc_end,
        1 => 0,
        _ => r.below(disc_end as usize) as u64,
    };
    set_word(&mut image, 0x434, user as u32);
    set_word(&mut image, 0x438, (disc_end - user) as u32);
    set_word(&mut image, 0x420, 0);
    if let Some(program) = before.or(behind) {
        set_word(&mut image, 0x420, program.at as u32);
        dol_header(r, &mut image[program.at as usize..], program.size);
    }
    write_table(r, &mut image[fst_offset as usize..], &records, &places, &texts);
    image
}

fn write_table(
    r: &mut Random,
    table: &mut [u8],
    records: &[Record],
    places: &[usize],
    texts: &[u8],
) {
    let wrong_parents = r.chance(30);
    for (k, record) in records.iter().enumerate() {
        let at = 12 * k;
        set_word(table, at, places[k] as u32 | if record.directory { 1 << 24 } else { 0 });
        if record.directory {
            let parent =
                if wrong_parents { r.next() as u32 >> r.below(32) } else { record.parent as u32 };
            set_word(table, at + 4, parent);
            set_word(table, at + 8, record.next as u32);
        } else {
            set_word(table, at + 4, record.offset as u32);
            set_word(table, at + 8, record.size as u32);
        }
    }
    if r.chance(20) {
        // The root's name is not looked at.
        let place = r.next() as u32 & 0xff_ffff;
        set_word(table, 0, 1 << 24 | place);
    }
    table[12 * records.len()..12 * records.len() + texts.len()].copy_from_slice(texts);
}

/// A directory in a directory, `depth` of them, each next to nothing.
pub fn chain(depth: usize, with_file: bool) -> Vec<u8> {
    let n = 1 + depth + usize::from(with_file);
    let mut image = vec![0x5a; 0x2000];
    image[..0x440].fill(0);
    set_word(&mut image, 0x1c, GAMECUBE);
    set_word(&mut image, 0x424, 0x440);
    set_word(&mut image, 0x428, 12 * n as u32 + 2);
    set_word(&mut image, 0x434, 0x2000);
    for k in 0..n {
        let file = with_file && k == n - 1;
        set_word(&mut image, 0x440 + 12 * k, if file { 0 } else { 1 << 24 });
        set_word(&mut image, 0x444 + 12 * k, if file { 0x1800 } else { k.max(1) as u32 - 1 });
        set_word(&mut image, 0x448 + 12 * k, if file { 0x10 } else { n as u32 });
    }
    image[0x440 + 12 * n] = b'a';
    image[0x441 + 12 * n] = 0;
    image
}

/// `count` empty files, all with the name of `length` bytes that is the table's first text, and
/// texts of `texts` bytes; `room` bytes are free behind the table.
pub fn crowd(count: usize, length: usize, texts: usize, room: usize) -> Vec<u8> {
    let fst_size = 12 * count + texts;
    let mut image = vec![0; 0x440 + fst_size + room];
    set_word(&mut image, 0x1c, GAMECUBE);
    set_word(&mut image, 0x424, 0x440);
    set_word(&mut image, 0x428, fst_size as u32);
    let end = image.len() as u32;
    set_word(&mut image, 0x434, end);
    set_word(&mut image, 0x440, 1 << 24);
    set_word(&mut image, 0x448, count as u32);
    let at = 0x440 + 12 * count;
    image[at..at + texts].fill(b'n');
    image[at + length] = 0;
    image[at + texts - 1] = 0;
    image
}

/// The same count of entries and names of one byte, but 64 deep: directories each in the one before
/// it, with an empty file in the last, again and again.
pub fn deep_crowd(count: usize, room: usize) -> Vec<u8> {
    let mut image = crowd(count, 1, 2, room);
    for start in (1..count).step_by(65) {
        let end = count.min(start + 65);
        for k in start..end - 1 {
            let parent = if k == start { 0 } else { k - 1 };
            set_word(&mut image, 0x440 + 12 * k, 1 << 24);
            set_word(&mut image, 0x444 + 12 * k, parent as u32);
            set_word(&mut image, 0x448 + 12 * k, end as u32);
        }
    }
    image
}

/// A change of one of the places that opening looks at.
fn damage_once(r: &mut Random, image: &mut Vec<u8>) {
    if image.len() < 0x440 {
        image.truncate(r.below(image.len() + 1));
        return;
    }
    let (fst_offset, fst_size) = (word(image, 0x424), word(image, 0x428));
    let disc_end = word(image, 0x434).wrapping_add(word(image, 0x438));
    let near = |r: &mut Random, value: u32| match r.below(8) {
        0 => value.wrapping_sub(1),
        1 => value.wrapping_add(1),
        2 => value.wrapping_add(12),
        3 => value.wrapping_sub(12),
        4 => r.below(0x600) as u32,
        5 => u32::MAX - r.below(2) as u32,
        6 => r.next() as u32,
        _ => value.wrapping_add(r.below(64) as u32).wrapping_sub(32),
    };
    let at = fst_offset as usize;
    let table = image.get(at..at.saturating_add(fst_size as usize)).map_or(0, |t| t.len());
    if table >= 12 && r.chance(25) {
        return damage_program(r, image);
    }
    match r.below(if table >= 12 { 20 } else { 7 }) {
        0 => {
            let to = *r.pick(&[
                0, 0x17, 0x18, 0x1b, 0x1c, 0x1f, 0x20, 0x21, 0x3ff, 0x400, 0x401, 0x427, 0x43f,
                0x440, 0x441, 0x44c,
            ]);
            let cut = (disc_end as usize).wrapping_sub(r.below(3));
            let to = if r.chance(50) { to } else { cut.min(image.len()) };
            image.truncate(to.min(image.len()));
        }
        1 => match r.below(3) {
            0 => set_word(image, 0x18, WII),
            1 => image[0x1c + r.below(4)] ^= 1 << r.below(8),
            _ => image[0x18 + r.below(4)] = r.byte(),
        },
        2 => {
            let to = near(r, fst_offset);
            set_word(image, 0x424, to);
        }
        3 => {
            // The table, taken to a place from below the header's end to its own.
            let to = r.within(0x100, 0x44c);
            if let Some(place) = image.get(at..at.saturating_add(fst_size as usize)) {
                let table = place.to_vec();
                if to + table.len() <= image.len() {
                    image[to..to + table.len()].copy_from_slice(&table);
                    set_word(image, 0x424, to as u32);
                }
            }
        }
        4 => {
            let to = near(r, fst_size);
            set_word(image, 0x428, to);
        }
        5 => {
            let to = near(r, word(image, 0x434));
            set_word(image, 0x434, to);
        }
        6 => {
            let to = match r.below(4) {
                0 => u32::MAX - word(image, 0x434),
                1 => (u32::MAX - word(image, 0x434)).wrapping_add(1),
                _ => near(r, word(image, 0x438)),
            };
            set_word(image, 0x438, to);
        }
        7 => {
            let count = word(image, at + 8);
            let to = match r.below(6) {
                0 => *r.pick(&[0, 1, 16_384, 16_385, u32::MAX]),
                _ => near(r, count),
            };
            set_word(image, at + 8, to);
        }
        8 | 9 => {
            // A text's byte.
            let n = (word(image, at + 8) as usize).max(1);
            let texts = (at + 12 * n.min(table / 12)).min(at + table - 1);
            let place = if r.chance(20) { at + table - 1 } else { r.within(texts, at + table - 1) };
            image[place] = match r.below(10) {
                0 => 0,
                1 => 1 + r.below(0x1f) as u8,
                2 => 0x7f,
                3 => 0x80 | r.byte(),
                4 => *r.pick(b"/\\:"),
                5 => b'.',
                6 => 0x7e,
                7 | 8 => *r.pick(&names::BOUNDS),
                _ => 0x20,
            };
        }
        10 => image[at + r.below(table)] = r.byte(),
        _ => damage_record(r, &mut image[at..at + table]),
    }
}

/// The DOL offset or a sum of the DOL header, such that the program passes something by a byte or
/// two, or just does not.
fn damage_program(r: &mut Random, image: &mut [u8]) {
    let (fst_offset, fst_size) = (word(image, 0x424) as u64, word(image, 0x428) as u64);
    let disc_end = word(image, 0x434) as u64 + word(image, 0x438) as u64;
    let at = word(image, 0x420) as u64;
    let size = rules::dol_size(image, at).unwrap_or(0);
    let mut files = rules::files_of(image);
    files.push((0, fst_offset + fst_size));
    let (start, len) = *r.pick(&files);
    // What a program may come to: the start of something, or its end.
    let (starts, ends) =
        ([fst_offset, start, disc_end, image.len() as u64], [0x440, start + len, disc_end]);
    if at != 0 && r.chance(50) {
        let (start, end) = (*r.pick(&starts), image.len() as u64);
        if let Some(dol) = image.get_mut(at as usize..(at + rules::DOL_HEADER).min(end) as usize)
            && dol.len() as u64 == rules::DOL_HEADER
        {
            let i = r.below(18);
            let sum = match r.below(6) {
                0 => u32::MAX as u64,
                1 => u32::MAX as u64 + 1,
                2 => r.next() as u32 as u64,
                _ => (start + r.below(3) as u64).saturating_sub(at + 1),
            };
            set_sum(r, dol, i, sum);
        }
        return;
    }
    let length = size.max(rules::DOL_HEADER);
    let to = match r.below(10) {
        0 => r.next() as u32 as u64,
        1 => r.below(image.len()) as u64,
        2 => (image.len() as u64 + r.below(3) as u64).saturating_sub(rules::DOL_HEADER + 1),
        3..=6 => (*r.pick(&starts) + r.below(3) as u64).saturating_sub(length + 1),
        _ => (*r.pick(&ends) + r.below(3) as u64).saturating_sub(1),
    };
    set_word(image, 0x420, to.min(u32::MAX as u64) as u32);
    // Mostly the header goes with it, where it stays off the disc header and the table.
    let table = fst_offset..fst_offset + fst_size;
    let end = to + rules::DOL_HEADER;
    let apart = to >= 0x440 && (end <= table.start || to >= table.end);
    if apart && end <= image.len() as u64 && r.chance(85) {
        dol_header(r, &mut image[to as usize..], size.min(0x1000));
    }
}

fn damage_record(r: &mut Random, table: &mut [u8]) {
    let count = (table.len() / 12).min((word(table, 8) as usize).max(1));
    let k = r.below(count);
    let texts = table.len() - 12 * count;
    let record = &mut table[12 * k..12 * k + 12];
    let value = word(record, 8);
    match r.below(9) {
        0 => record[0] = *r.pick(&[0, 1, 2, 3, 0xff]),
        1 => record[0] ^= 1,
        2 => {
            let place = texts as u32 + r.below(3) as u32;
            let kind = word(record, 0) & 0xff00_0000;
            set_word(record, 0, kind | (place.wrapping_sub(1) & 0xff_ffff));
        }
        3 => {
            let kind = word(record, 0) & 0xff00_0000;
            let place = if r.chance(50) { r.below(texts + 1) as u32 } else { r.next() as u32 };
            set_word(record, 0, kind | (place & 0xff_ffff));
        }
        4 | 5 if record[0] == 1 => {
            let near = [0, k, k + 1, k + 2, value as usize + 1, count - 1, count, count + 1];
            let next = *r.pick(&near) as u32;
            set_word(record, 8, next);
        }
        4 => {
            let by = r.below(5) as u32;
            let offset = word(record, 4).wrapping_add(by).wrapping_sub(2);
            set_word(record, 4, offset);
        }
        5 => set_word(record, 8, value.wrapping_add(r.below(5) as u32).wrapping_sub(2)),
        6 => set_word(record, 4, r.next() as u32 >> r.below(32)),
        7 => set_word(record, 8, r.next() as u32 >> r.below(32)),
        _ => {
            let other = r.below(count);
            let offset = word(table, 12 * other + 4);
            set_word(table, 12 * k + 4, offset);
        }
    }
}

pub fn damaged(r: &mut Random) -> Vec<u8> {
    let mut image = if r.chance(5) { chain(r.within(60, 66), r.chance(50)) } else { master(r) };
    for _ in 0..*r.pick(&[1, 1, 1, 1, 2, 2, 3]) {
        damage_once(r, &mut image);
    }
    if r.chance(3) && image.len() >= 0x400 {
        image[0x20..0x400].fill(0x41); // a game name without a zero byte
    }
    image
}
