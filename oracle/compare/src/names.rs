//! Names: real ones, units at the boundaries of the ranges, and on small images every name of two
//! bytes, every short text over the bytes that count, and names that share a text.

use crate::calls::Call;
use crate::random::Random;
use crate::rules;
use crate::run::Run;
use crate::suites::{all_texts, other_master};

/// Real names, by the published table of Shift-JIS.
const REAL: [&[u8]; 21] = [
    b"\x95\x5c.bin",                                         // 表.bin
    b"\x83\x5c",                                             // ソ
    b"\x94\x5c\x97\xcd\x95\x5c",                             // 能力表
    b"\x83\x5e\x83\x43\x83\x67\x83\x8b",                     // タイトル
    b"\x83\x49\x81\x5b\x83\x76\x83\x6a\x83\x93\x83\x4f.bnr", // オープニング.bnr
    b"\x8e\x9a\x96\x8b_\x93\xfa\x96\x7b\x8c\xea.txt",        // 字幕_日本語.txt
    b"\xb1\xb2\xb3\xb4\xb5.dat",                             // ｱｲｳｴｵ.dat
    b"\x91\xe6\x82\x50\x98\x62",                             // 第１話
    b"\x8d\x5c\x90\xac\x81\x5e\x97\x5c\x92\xe8",             // 構成／予定
    b"\x81\x5f",                                             // ＼
    b"\x82\x60\x81\x46\x82\x61",                             // Ａ：Ｂ
    b"\x8f\x5c",                                             // 十
    b"\x83\x7e",                                             // ミ
    b"\x83\x80",                                             // ム
    b"\x81\x40",                                             //
    b"\x9f\xfc",                                             // 滌
    b"\xe0\x40",                                             // 漾
    b"\xfc\x4b",                                             // 黑
    b"\xb1\x95\x5ca",                                        // ｱ表a
    b"\x93\x5c.\x93\x5c",                                    // 貼.貼
    b"\x95\xb6\x8e\x9a.\x95\x5c",                            // 文字.表
];

/// Pairs that the codec does not turn back.
const OTHERS: [&[u8]; 10] = [
    b"\x81\xad",
    b"\x85\x40",
    b"\xfc\xfc",
    b"\xef\x5c",
    b"\xf0\x40",
    b"\xf9\xfc",
    b"\xf4\x5c",
    b"\xed\x40",
    b"\x87\x90",
    b"\xfa\x4a",
];

/// What the ranges of bytes begin and end with, the bytes beside them, and those that stand for themselves.
pub const BOUNDS: [u8; 22] = [
    0x1f, 0x20, 0x2e, 0x2f, 0x3a, 0x3f, 0x40, 0x5c, 0x61, 0x7e, 0x7f, 0x80, 0x81, 0x9f, 0xa0, 0xa1,
    0xdf, 0xe0, 0xfc, 0xfd, 0xfe, 0xff,
];

/// Texts of which many ends are names, some of them cut inside a pair of the others.
pub const ENDS: [&[u8]; 6] = [
    b"c.aab",
    b"\x95\xb6\x8e\x9a.\x95\x5c",
    b"\x81\x95\x95\xb1\x81\x95\x5ca",
    b"\xe0\x9f\x83\x5c\xdf",
    b"\x83\x83\x83\x83\xb1a",
    b"\x95\x95\x95\x95\x95\xb1",
];

/// Whether opening takes it as a name.
pub fn fine(name: &[u8]) -> bool {
    rules::units(name).all(rules::fit) && !rules::unsafe_name(name)
}

fn unit(r: &mut Random, others: bool) -> Vec<u8> {
    match r.below(10) {
        0 if others => r.pick(&OTHERS).to_vec(),
        0..=2 => vec![*r.pick(b" .a~")],
        3 | 4 => vec![*r.pick(&[0xa1, 0xb1, 0xdf])],
        _ => {
            let lead = *r.pick(&[0x81, 0x95, 0x9f, 0xe0]);
            vec![lead, *r.pick(&[0x40, 0x5c, 0x5c, 0x7e, 0x80, 0xfc])]
        }
    }
}

/// A name that opening takes; with `others` it may hold pairs that the codec does not turn back.
pub fn name(r: &mut Random, others: bool) -> Vec<u8> {
    loop {
        let name = match r.below(if others { 3 } else { 2 }) {
            0 => r.pick(&REAL).to_vec(),
            _ => (0..r.within(1, 4)).flat_map(|_| unit(r, others)).collect(),
        };
        if fine(&name) {
            return name;
        }
    }
}

/// A name or a component that may be anything.
pub fn any(r: &mut Random) -> Vec<u8> {
    match r.below(4) {
        0 => (0..r.within(1, 4)).map(|_| *r.pick(&BOUNDS)).collect(),
        1 => (0..r.within(1, 3)).map(|_| r.byte()).collect(),
        _ => name(r, true),
    }
}

/// The bytes of a name in an image with one file, and zeros up to the table's end.
fn one_name(text: &[u8]) -> Vec<(usize, Vec<u8>)> {
    vec![(0x458, [text, &[0; 6][text.len()..]].concat())]
}

/// Every name of up to two bytes and longer ones over fewer, opened and inserted.
fn every_name(run: &mut Run) {
    let bytes: Vec<u8> = (0..=255).collect();
    let long = [all_texts(&BOUNDS, 3), all_texts(b"./\\@a\x81\x95\xb1\xe0", 4)].concat();
    let mut names = all_texts(&bytes, 2);
    names.extend(long.into_iter().filter(|text| text.len() > 2));
    let image = other_master(0x2000, 0x2000, &[[1 << 24, 0, 2], [0, 0x500, 0x10]], b"\0\0\0\0\0\0");
    let texts: Vec<_> = names.iter().map(|name| one_name(name)).collect();
    run.variants(&image, &texts, &[Call::List]);
    if run.inserts && !run.over() {
        let insert = |(i, name): (usize, Vec<u8>)| match i % 3 {
            0 => Call::InsertDirectory(0, name),
            1 => Call::MakeDirectories(0, name),
            _ => Call::InsertFile(0, name),
        };
        let calls = names.into_iter().enumerate().map(insert).map(|call| (call, 64, 0x400));
        run.each(nested(), &calls.collect::<Vec<_>>());
    }
}

/// `/表/`, in it `ｱ`, `＝/` and `a`; `/ｱ/`; `/＼`; `/.表`: the last shares the first one's text.
fn nested() -> Vec<u8> {
    let entries = [
        [1 << 24, 0, 8],
        [0x0100_0001, 0, 5],
        [4, 0x600, 0x10],
        [0x0100_0006, 1, 4],
        [9, 0x620, 0x10],
        [0x0100_0004, 0, 6],
        [11, 0x640, 0],
        [0, 0x700, 0x10],
    ];
    other_master(0x2000, 0x2000, &entries, b".\x95\x5c\0\xb1\0\x81\x81\0a\0\x81\x5f\0")
}

/// Every short path over the bytes that decide where it is cut, looked up and made; paths at the limit.
fn every_path(run: &mut Run) {
    let mut calls = vec![];
    let mut push = |run: &Run, path: &[u8]| {
        for start in [0, 1, 2] {
            calls.push((Call::Lookup(start, path.to_vec()), 64, 0x400));
            if run.inserts {
                calls.push((Call::MakeDirectories(start, path.to_vec()), 64, 0x1000));
            }
        }
    };
    for path in all_texts(b"./\\:a\x81\x95\xb1", 4) {
        push(run, &path);
    }
    // Two components of a few, with what may stand between them.
    let parts: [&[u8]; 9] =
        [b"\x95\x5c", b"\x95", b"\x81\x81", b"\xb1", b"\x81", b"\xf0\x40", b"..", b".", b"a"];
    for first in parts {
        for second in parts {
            for between in
                [&b"/"[..], b"\\", b"//", b"\\/", b"/./", b"\\..\\", b"\x81/", b"\x95\\\\"]
            {
                push(run, &[first, between, second].concat());
            }
        }
    }
    for length in 1_020..1_028 {
        for pair in [&b"\x95\x5c"[..], b"\x5c\x95", b"\x81\x81", b"./"] {
            let mut path = pair.repeat(length / 2);
            path.extend(&b"\x95"[..length % 2]);
            push(run, &path);
        }
    }
    run.each(nested(), &calls);
}

/// Every text of a few bytes with two names in it: each is cut from its own start.
fn shared(run: &mut Run) {
    let starts = |length: usize| {
        (0..length).flat_map(move |a| (a + 1..=length).map(move |b| (a as u32, b as u32)))
    };
    let (mut variants, mut opened) = (vec![], vec![]);
    let image = |text: &[u8], (a, b): (u32, u32)| {
        let entries = [[1 << 24, 0, 3], [a, 0x500, 0x10], [0x0100_0000 | b, 0, 3]];
        other_master(0x2000, 0x2000, &entries, &[text, &[0; 6][text.len()..]].concat())
    };
    for text in all_texts(b"\x81\x95\x5c\xb1.", 5).into_iter().filter(|text| text.len() > 1) {
        for places in starts(text.len() - 1) {
            let image = image(&text, places);
            variants.push(vec![(0x440, image[0x440..0x46a].to_vec())]);
            if text.len() < 5 && rules::open(&image, usize::MAX).is_ok() {
                opened.push(image);
            }
        }
    }
    run.variants(&image(b"a", (0, 0)), &variants, &[Call::List]);
    for image in opened {
        if run.over() {
            return;
        }
        let tree = rules::open(&image, usize::MAX).unwrap();
        if run.is_mixed(&image) {
            continue;
        }
        let [first, second] = [1, 2].map(|number: usize| tree.entries[number].name.clone());
        let below = [&second[..], b"/", &first].concat();
        let mut calls =
            vec![Call::Listing, Call::Rewrite, Call::Move(1, 0x800), Call::Move(1, 0x46b)];
        calls.extend([Call::Resize(1, 0x20), Call::Fill(1, b"clip".to_vec())]);
        for path in [&first, &second, &below] {
            calls.push(Call::Lookup(0, path.clone()));
            calls.extend(run.inserts.then(|| Call::MakeDirectories(0, path.clone())));
        }
        if run.inserts {
            calls.extend([Call::InsertFile(0, first), Call::InsertFile(2, second)]);
        }
        let calls: Vec<_> = calls.into_iter().map(|call| (call, 64, 0x400)).collect();
        run.each(image, &calls);
    }
}

/// Pairs that the codec does not turn back, in the table, beside the bytes that it writes for one of them.
fn others(run: &mut Run) {
    let pairs = || OTHERS.iter().copied().chain([&b"\xfa\x5c"[..], b"\x81\xe0", b"\x87\x54"]);
    for first in OTHERS {
        for second in pairs() {
            let entries = [[1 << 24, 0, 4], [0, 0x500, 0x10], [0x0100_0003, 0, 4], [0, 0x520, 8]];
            let image =
                other_master(0x2000, 0x2000, &entries, &[first, b"\0", second, b"\0"].concat());
            let mut calls = vec![Call::List, Call::Listing, Call::Rewrite, Call::Move(1, 0x800)];
            calls.extend([Call::Resize(1, 8), Call::Fill(1, b"clip".to_vec()), Call::Used]);
            calls.extend([
                Call::Fill(1, b"as long as it is".to_vec()),
                Call::MaxFile(1),
                Call::Entry(3),
            ]);
            for text in pairs() {
                calls.push(Call::Lookup(0, [text, b"\\.."].concat()));
                calls.push(Call::Lookup(0, [second, b"/", text].concat()));
                if run.inserts {
                    calls.push(Call::InsertFile(0, text.to_vec()));
                    calls.push(Call::InsertDirectory(2, [text, b"."].concat()));
                    calls
                        .push(Call::MakeDirectories(0, [second, b"/", text, b"\\", text].concat()));
                }
            }
            let calls: Vec<_> = calls.into_iter().map(|call| (call, 64, 0x400)).collect();
            run.each(image, &calls);
            if run.over() {
                return;
            }
        }
    }
}

pub fn names(run: &mut Run) {
    for part in [every_name, every_path, shared, others] {
        if !run.over() {
            part(run);
        }
    }
}
