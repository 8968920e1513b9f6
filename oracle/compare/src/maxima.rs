//! Maxima that images state for their tables: such that 26 is just due or just not.

use crate::calls::{Call, any_number};
use crate::judge::New;
use crate::masters::{chain, crowd};
use crate::random::Random;
use crate::records::{edits, images, with_count};
use crate::rules::{self, MAXIMUM, MOST, Tree, set_word, word};
use crate::run::Run;
use crate::suites::clip;

/// A maximum for an image, whether it opens or not: mostly around the size of its table, as it is or
/// written anew, or a little above it, so that some entries more go in.
pub fn any(r: &mut Random, image: &[u8]) -> u32 {
    let size = word(image, 0x428);
    let written = match rules::open(image, usize::MAX) {
        Ok(tree) => tree.written() as u32,
        Err(_) => size,
    };
    let by = r.below(3) as u32;
    match r.below(10) {
        0 => 1 + by,
        1 => u32::MAX - by,
        2 => 0,
        3 => any_number(r),
        4 | 5 => size.wrapping_add(by).wrapping_sub(1),
        6 | 7 => written.wrapping_add(by).wrapping_sub(1),
        _ => written.wrapping_add(r.below(64) as u32),
    }
}

/// The size of the table that an edit would write; none if its path leads into trouble.
fn size(tree: &Tree, call: &Call) -> Option<u64> {
    let inside = call.target().is_none_or(|target| (target as usize) < tree.entries.len());
    inside.then(|| New::of(tree, call))?.map(|new| new.size())
}

/// A maximum for this edit.
pub fn beside(r: &mut Random, tree: &Tree, call: &Call) -> u32 {
    let room = tree.most(tree.fst_offset, tree.fst_size);
    let new = size(tree, call).unwrap_or(tree.written());
    let near = match r.below(16) {
        0 => return 0,
        1 => return 1,
        2 => return u32::MAX,
        3 => return any_number(r),
        4 => tree.fst_size,
        5 => tree.written(),
        6 => room,
        7 => new + r.below(64) as u64,
        _ => new,
    };
    (near + r.below(3) as u64).saturating_sub(1) as u32
}

/// An image that states a maximum.
fn stating(image: &[u8], maximum: u32) -> Vec<u8> {
    let mut image = image.to_vec();
    set_word(&mut image, MAXIMUM, maximum);
    image
}

/// On small images every maximum up to past the largest table, with edits that are accepted and edits
/// that are refused, on each entry; with ample memory, a byte too little for the table, and a record for
/// which 25 is due.
fn every_maximum(run: &mut Run) {
    for image in images() {
        let tree = rules::open(&image, usize::MAX).unwrap();
        let edits = edits(&tree);
        let sizes = edits.iter().filter_map(|call| size(&tree, call));
        let most = sizes.max().unwrap().max(tree.fst_size) as u32;
        let full = with_count(tree.used(), 0, MOST);
        let made = Call::MakeRecord(vec![], vec![]);
        let mut calls = vec![Call::Open, Call::Header, Call::Listing, made]
            .into_iter()
            .map(|call| (call, 64, 0, None))
            .collect::<Vec<_>>();
        for call in edits {
            let table = size(&tree, &call).unwrap_or(tree.written()) as usize;
            calls.push((call.clone(), 64, 0x400, None));
            calls.push((call.clone(), 64, table, Some(full)));
            calls.push((call, 64, table - 1, None));
        }
        for maximum in (0..=most + 2).chain([u32::MAX - 1, u32::MAX]) {
            run.each_with(stating(&image, maximum), &calls);
            if run.over() {
                return;
            }
        }
    }
}

/// Tables at the limits, which come before a maximum.
fn at_the_limits(run: &mut Run) {
    // With the count of entries, the length of each name, and a file.
    let crowds = [
        (chain(64, true), 66, 1, 65),
        (crowd(16_383, 1, 2, 0x40_000), 16_383, 1, 1),
        (crowd(16_384, 1, 2, 0x40_000), 16_384, 1, 1),
        (crowd(2, 1_048_574, 1_048_576, 0x100), 2, 1_048_574, 1),
        (crowd(3, 1_048_574, 1_048_575, 0x20_0000), 3, 1_048_574, 1),
    ];
    for (image, count, name, file) in crowds {
        let table = 12 * count + (count - 1) * (name + 1);
        let mut calls = vec![Call::Open, Call::Rewrite, Call::Move(file, 7)];
        calls.extend([Call::Resize(file, 1), Call::Fill(file, clip(0x10))]);
        calls.push(Call::MakeDirectories(0, b"".to_vec()));
        calls.push(Call::InsertFile(0, b"x".to_vec()));
        calls.push(Call::InsertDirectory(count as u32 - 2, b"x".to_vec()));
        calls.push(Call::MakeDirectories(0, b"x/y".to_vec()));
        let memory = [0x20_0000, table - 1];
        let with = calls.into_iter().flat_map(|call| memory.map(|b| (call.clone(), 65_544, b)));
        let with: Vec<_> = with.collect();
        for maximum in [1, table - 1, table, table + 13, table + 14, table + 28] {
            run.each(stating(&image, maximum as u32), &with);
            if run.over() {
                return;
            }
        }
    }
}

pub fn maxima(run: &mut Run) {
    every_maximum(run);
    if !run.over() {
        at_the_limits(run);
    }
}
