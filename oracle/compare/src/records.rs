//! Records that edits take: such that 25 is just due or just not.

use crate::calls::{Call, any_number};
use crate::judge::{Account, used_after};
use crate::random::Random;
use crate::rules::{self, MOST, Record, TEAMS, Team, Tree, set_word};
use crate::run::Run;
use crate::suites::{clip, nested_master, other_master, small_master};

/// The team that these edits carry.
const TEAM: usize = 3;

/// A record with this count for the team that the edits carry, which may take all that there is; the
/// other teams, whose counts play no part, are at the last.
pub fn with_count(used: u64, largest: u64, edits: u64) -> Account {
    let other = Team { edits: MOST, ..Team::default() };
    let mut teams = [other; TEAMS];
    teams[TEAM] = Team { limit: MOST, edits, ..Team::default() };
    Account { record: Record { used, largest, teams }, team: TEAM as u32 }
}

/// Used bytes that an edit which changes them by `change` moves to 0 or to 2^32 - 1, or one byte past.
pub fn around(change: i64) -> [u64; 4] {
    let by = change.unsigned_abs().min(MOST);
    match change {
        0 => [0, 1, MOST - 1, MOST],
        1.. => [0, MOST - by, (MOST - by + 1).min(MOST), MOST],
        _ => [0, by - 1, by, MOST],
    }
}

pub fn change(tree: &Tree, call: &Call) -> i64 {
    used_after(tree, call).map_or(0, |after| after as i64 - tree.used() as i64)
}

/// A record for this edit.
pub fn beside(r: &mut Random, tree: &Tree, call: &Call) -> Account {
    let used = match r.below(8) {
        0 => tree.used(),
        1 => any_number(r) as u64,
        _ => *r.pick(&around(change(tree, call))),
    };
    let edits = match r.below(6) {
        0 => MOST,
        1 => MOST - 1,
        2 => any_number(r) as u64,
        _ => r.below(20) as u64,
    };
    with_count(used, any_number(r) as u64, edits)
}

/// Images with room behind the table and without, with slack and shared names in the texts, with a
/// program, with no free byte, and with places to grow elsewhere.
pub fn images() -> Vec<Vec<u8>> {
    let mut slack = small_master();
    set_word(&mut slack, 0x428, 0x20);
    slack[0x45a..0x460].fill(0);
    let mut program = small_master();
    set_word(&mut program, 0x420, 0x1000);
    program[0x1000..0x10e4].fill(0);
    let mut abutted = program.clone();
    abutted.copy_within(0x1000..0x10e4, 0x45a);
    set_word(&mut abutted, 0x420, 0x45a);
    set_word(&mut abutted, 0x450, 0x600);
    let mut full = small_master();
    set_word(&mut full, 0x434, 0x45a);
    set_word(&mut full, 0x454, 0);
    // Nothing is free, and two names share a text.
    let shared = [[0x0100_0000, 0, 3], [0, 0x466, 0x1b9a], [0, 0, 0]];
    let shared = other_master(0x2000, 0x2000, &shared, b"a\0");
    // Two places at multiples of 0x8000.
    let entries = [[0x0100_0000, 0, 4], [0, 0x600, 0x20], [2, 0x620, 0x79e0], [4, 0xa000, 0x6000]];
    let elsewhere = other_master(0x1_2040, 0x1_2000, &entries, b"a\0b\0c\0");
    vec![small_master(), slack, program, abutted, full, shared, elsewhere, nested_master()]
}

/// Edits that are accepted and edits that are refused, on any of these images.
pub fn edits(tree: &Tree) -> Vec<Call> {
    let mut calls = vec![Call::Rewrite];
    let names: [&[u8]; 5] = [b"a", b"x", b"long name", b":", b"\x01"];
    let paths: [&[u8]; 7] = [b"", b"x", b"x/y/z", b"a", b"..", b"x/:", b"x/\x01"];
    for number in 0..=tree.entries.len() as u32 {
        for name in names {
            calls.push(Call::InsertFile(number, name.to_vec()));
            calls.push(Call::InsertDirectory(number, name.to_vec()));
        }
        calls.extend(paths.map(|path| Call::MakeDirectories(number, path.to_vec())));
        let Some(file) = tree.entries.get(number as usize).filter(|entry| !entry.directory) else {
            calls.extend([Call::Move(number, 0), Call::Resize(number, 0)]);
            calls.push(Call::FillZeros(number, 1 << 32));
            continue;
        };
        let (offset, size) = (file.offset as u64, file.size as u64);
        let end = tree.fst_offset + (12 * tree.entries.len() + tree.texts()) as u64;
        let places = [0, offset, offset + size, end - 1, end, end + 1, 0x1000, 0x1_0000];
        calls.extend(places.map(|place| Call::Move(number, place as u32)));
        let most = tree.most(offset, size);
        let place = tree.place(0, rules::ALIGN).map_or(most, |(_, rest)| rest);
        for size in [0, 1, size.saturating_sub(1), size, size + 1, most, most + 1, place, place + 1]
        {
            calls.push(Call::Resize(number, size as u32));
            calls.push(match size {
                0..=0x400 => Call::Fill(number, clip(size as usize)),
                _ => Call::FillZeros(number, size),
            });
        }
        calls.push(Call::FillZeros(number, 1 << 32));
    }
    calls
}

/// Every such edit with used bytes and counts at and around what they may be, and with the memory that
/// it wants, a byte less and none.
pub fn records(run: &mut Run) {
    for image in images() {
        let tree = rules::open(&image, usize::MAX).unwrap();
        let (least, table) = (4 * (tree.entries.len() + 2), 12 * tree.entries.len() + tree.texts());
        let mut calls = vec![(Call::MakeRecord(vec![], vec![]), 64, 0, None)];
        for call in edits(&tree) {
            let used = around(change(&tree, &call)).into_iter().chain([tree.used()]);
            for used in used {
                for (edits, largest) in [(0, MOST), (MOST - 1, 0), (MOST, 7)] {
                    let account = Some(with_count(used, largest, edits));
                    calls.push((call.clone(), 64, 0x400, account));
                }
            }
            for (words, bytes) in
                [(least, table), (least, table - 1), (least, 0), (least - 1, table)]
            {
                let account = Some(with_count(MOST, 0, MOST));
                calls.push((call.clone(), words, bytes, account));
            }
        }
        run.each_with(image, &calls);
        if run.over() {
            return;
        }
    }
}
