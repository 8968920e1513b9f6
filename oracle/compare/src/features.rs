//! Boundaries that calls meet, counted so that a run shows that it met them.

use crate::calls::Call;
use crate::judge::{Account, New, keeps_size, new_place, no_room, record_after, used_after};
use crate::rules::{self, Entry, MOST, Record, Refusal, TEAMS, Team, Tree, stray, word};
use std::collections::BTreeMap;

/// Those that are met.
fn of(cases: &[(bool, &'static str)]) -> Vec<&'static str> {
    cases.iter().filter(|(met, _)| *met).map(|(_, feature)| *feature).collect()
}

/// What stands out about the program of an image that opens, or that only its program keeps from it.
pub fn of_program(image: &[u8], opened: &Result<Tree, Refusal>) -> Vec<&'static str> {
    let number = opened.as_ref().map_or_else(|refusal| refusal.number, |_| 0);
    if !matches!(number, 0 | 14 | 24) || number == 14 && rules::files_are_bad(image) {
        return vec![];
    }
    let at = word(image, 0x420) as u64;
    if at == 0 {
        return vec!["program: none"];
    }
    let length = image.len() as u64;
    let Some(size) = rules::dol_size(image, at) else {
        let by_one = at + rules::DOL_HEADER == length + 1;
        return if by_one { vec!["program: its header one byte past the image"] } else { vec![] };
    };
    let (fst_offset, fst_size) = (word(image, 0x424) as u64, word(image, 0x428) as u64);
    let disc_end = word(image, 0x434) as u64 + word(image, 0x438) as u64;
    let (table_end, end) = (fst_offset + fst_size, at + size.max(rules::DOL_HEADER));
    let (before, behind) = (at >= 0x440 && end <= fst_offset, at >= table_end);
    let files = rules::files_of(image);
    let starts = |at: u64| files.iter().any(|(start, _)| *start == at);
    let ends = |at: u64| files.iter().any(|(start, size)| start + size == at);
    let met: &[(bool, &'static str)] = match number {
        0 => &[
            (before, "program: before the table"),
            (before && at == 0x440, "program: before the table, from 0x440 on"),
            (before && end == fst_offset, "program: before the table, up to it"),
            (behind, "program: behind the table"),
            (at == table_end, "program: behind the table, right behind it"),
            (behind && starts(end), "program: right before a file"),
            (behind && ends(at), "program: right behind a file"),
            (end == disc_end, "program: up to the disc end"),
            (at + rules::DOL_HEADER == length, "program: its header up to the image's end"),
            (size < rules::DOL_HEADER, "program: file size below 0xE4"),
        ],
        14 => &[
            (at + 1 == 0x440 && end <= fst_offset, "program: one byte below 0x440"),
            (at >= 0x440 && end == fst_offset + 1, "program: one byte over the table's start"),
            (at + 1 == table_end, "program: one byte over the table's end"),
            (behind && starts(end - 1), "program: one byte over a file's start"),
            (behind && ends(at + 1), "program: one byte over a file's end"),
            (at < disc_end && end == disc_end + 1, "program: one byte past the disc end"),
            (at >= disc_end, "program: behind the disc end, its header in the image"),
            (size == u32::MAX as u64, "program: a sum of 2^32 - 1"),
        ],
        _ => &[(size == 1 << 32, "program: a sum of 2^32")],
    };
    of(met)
}

/// What stands out about the names of an image that opens, or about the one that it is refused for.
pub fn of_names(image: &[u8], opened: &Result<Tree, Refusal>) -> Vec<&'static str> {
    let tree = match opened {
        Ok(tree) => tree,
        Err(refusal) if matches!(refusal.number, 12 | 13) => {
            let name = rules::name(image, refusal.entry).map(|name| &image[name]);
            return of_refused_name(name.unwrap_or(b""), refusal.number);
        }
        Err(_) => return vec![],
    };
    let names: Vec<&[u8]> = tree.entries[1..].iter().map(|entry| &entry.name[..]).collect();
    let any = |is: fn(&[u8]) -> bool| names.iter().any(|name| rules::units(name).any(is));
    let cases = [
        (any(|u| matches!(u, [0xa1..=0xdf])), "name: a byte 0xA1 to 0xDF"),
        (any(|u| matches!(u, [0xa1 | 0xdf])), "name: a byte 0xA1 or 0xDF"),
        (any(|u| u.len() == 2), "name: a pair"),
        (any(|u| matches!(u, [_, 0x5c])), "name: a pair with the trail byte 0x5C"),
        (
            any(|u| matches!(u, [_, 0x40 | 0x7e | 0x80 | 0xfc])),
            "name: a pair with an outermost trail",
        ),
        (
            any(|u| matches!(u, [0x81 | 0x9f | 0xe0 | 0xfc, _])),
            "name: a pair with an outermost lead",
        ),
        (begins_inside(image), "name: begins inside a pair of another"),
    ];
    of(&cases)
}

/// Whether a name of the image starts at the second byte of a pair of another.
fn begins_inside(image: &[u8]) -> bool {
    let names: BTreeMap<usize, usize> =
        rules::names(image).into_iter().map(|name| (name.start, name.end)).collect();
    names.iter().any(|(start, end)| {
        let mut at = *start;
        rules::units(&image[*start..*end]).any(|unit| {
            at += unit.len();
            unit.len() == 2 && names.contains_key(&(at - 1))
        })
    })
}

fn of_refused_name(name: &[u8], number: u32) -> Vec<&'static str> {
    let units: Vec<&[u8]> = rules::units(name).collect();
    let beside = |is: fn(&[u8]) -> bool| units.windows(2).any(|two| stray(two[0]) && is(two[1]));
    let behind_pair = units.windows(2).any(|two| two[0].len() == 2 && two[1] == b"\\");
    let cases = match number {
        12 => vec![
            (units.last().is_some_and(|unit| stray(unit)), "name: a lead byte at its end, 12"),
            (
                beside(|u| matches!(u, [0x3f | 0x7f | 0xfd])),
                "name: a lead byte and one that just is no trail, 12",
            ),
            (beside(|u| matches!(u, b"/" | b":")), "name: a lead byte before `/` or `:`, 12"),
            (
                units.iter().any(|u| matches!(u, [0x80 | 0xa0 | 0xfd..=0xff])),
                "name: a byte 0x80, 0xA0 or 0xFD to 0xFF, 12",
            ),
        ],
        _ => vec![(behind_pair, "name: a backslash behind a pair, 13")],
    };
    of(&cases)
}

/// What stands out about the name or path of a call that is answered `expected`.
pub fn of_text(call: &Call, expected: &str) -> Vec<&'static str> {
    let Some(text) = call.text().filter(|text| text.iter().any(|b| *b >= 0x80)) else {
        return vec![];
    };
    let (accepted, units) = (expected.starts_with("ok"), rules::units(text).collect::<Vec<_>>());
    let pairs = units.iter().any(|unit| unit.len() == 2);
    let trail = units.iter().any(|unit| matches!(unit, [_, b'\\']));
    let strays = units.iter().any(|unit| stray(unit));
    let two = |is: &dyn Fn(&[u8], &[u8]) -> bool| units.windows(2).any(|two| is(two[0], two[1]));
    let behind_pair = two(&|a, b| a.len() == 2 && b == b"\\");
    let cut_stray = two(&|a, b| stray(a) && b == b"/");
    let cases = match call {
        Call::Lookup(..) => vec![
            (accepted && trail, "lookup: found, with a trail byte 0x5C"),
            (accepted && behind_pair, "lookup: found, cut at a backslash behind a pair"),
            (expected == "err 18" && cut_stray, "lookup: a lead byte before `/`, 18"),
            (
                expected == "err 18" && units.last().is_some_and(|u| stray(u)),
                "lookup: a lead byte at the end, 18",
            ),
        ],
        Call::MakeDirectories(..) => vec![
            (accepted && trail, "make-directories: done, with a trail byte 0x5C"),
            (accepted && behind_pair, "make-directories: done, cut at a backslash behind a pair"),
            (expected == "err 12" && strays, "make-directories: a lead byte without its trail, 12"),
            (expected == "err 12" && cut_stray, "make-directories: a lead byte before `/`, 12"),
            (
                matches!(expected, "err 13" | "err 17" | "err 18") && strays,
                "make-directories: a lead byte without its trail, and other trouble before 12",
            ),
        ],
        _ => vec![
            (accepted && pairs, "insert: a name with a pair"),
            (accepted && trail, "insert: a name with a trail byte 0x5C"),
            (expected == "err 12" && strays, "insert: a lead byte without its trail, 12"),
            (
                expected == "err 13" && two(&|a, b| stray(a) && b == b":"),
                "insert: a lead byte before `:`, 13",
            ),
            (expected == "err 13" && behind_pair, "insert: a backslash behind a pair, 13"),
            (expected == "err 19" && pairs, "insert: a name with a pair, which is there, 19"),
        ],
    };
    of(&cases)
}

/// What stands out about the record that an edit takes, on `tree` if the image opens; `made`: of this image.
pub fn of_record(
    tree: Option<&Tree>,
    call: &Call,
    account: &Account,
    made: bool,
    expected: &str,
) -> Vec<&'static str> {
    let Account { record, team } = account;
    let Some(own) = record.teams.get(*team as usize) else { return vec![] };
    let full = own.edits == MOST;
    let Some(tree) = tree else {
        return of(&[(full, "record: 25 due, and the image does not open")]);
    };
    let (before, after) = (tree.used(), used_after(tree, call));
    let change = after.unwrap_or(before) as i64 - before as i64;
    let used = record.used as i64 + change;
    let outside = used < 0 || used > MOST as i64;
    if expected == "err 25" {
        return of(&[
            (full && !outside, "record: 25 for the count"),
            (!full && used < 0, "record: 25 for used bytes below 0"),
            (!full && used > MOST as i64, "record: 25 for used bytes above 2^32 - 1"),
            (full && outside, "record: 25 for both"),
            (used == -1, "record: used bytes one below 0"),
            (used == MOST as i64 + 1, "record: used bytes one above 2^32 - 1"),
            (full && change == 0, "record: 25 for the count, and used bytes stay"),
        ]);
    }
    let table = no_room(tree, call, expected) && after.is_some();
    if matches!(expected, "err 27" | "err 28") {
        let due = full || outside;
        return of(&[
            (due && expected == "err 27", "record: 25 due, and 27 comes first"),
            (due && expected == "err 28", "record: 25 due, and 28 comes first"),
        ]);
    }
    if !expected.starts_with("ok") {
        let due = full || outside;
        return of(&[
            (due && expected == "err 26", "record: 25 due, and 26 comes first"),
            (due && table, "record: 25 due, and the table's 21 comes first"),
            (
                due && expected == "err 21" && !table,
                "record: 25 due, and the file's 21 comes first",
            ),
            (due && expected == "err 9", "record: 25 due, and 9 comes first"),
            (
                due && !matches!(expected, "err 9" | "err 21" | "err 26"),
                "record: 25 due, and a number of 12 to 20 comes first",
            ),
            (outside && table, "record: used bytes would leave, and the table's 21 comes first"),
        ]);
    }
    let Ok(Ok(moved)) = record_after(tree, call, *account) else { return vec![] };
    let afresh = Record::of(tree, &[], &[]);
    let true_one = record.used == afresh.used && record.largest == afresh.largest;
    of(&[
        (made, "record: made at opening"),
        (!made && true_one, "record: handed on"),
        (record.largest != afresh.largest, "record: another largest region goes in"),
        (moved.largest == 0, "record: no free region afterwards"),
        (moved.largest == afresh.largest, "record: the largest region stays"),
        (moved.largest > afresh.largest, "record: the largest region grows"),
        (moved.largest < afresh.largest, "record: the largest region shrinks"),
        (change > 0, "record: used bytes rise"),
        (change < 0, "record: used bytes fall"),
        (change == 0, "record: used bytes stay"),
        (moved.used == 0, "record: used bytes 0 afterwards"),
        (moved.used == MOST, "record: used bytes 2^32 - 1 afterwards"),
        (own.edits + 1 == MOST, "record: count 2^32 - 1 afterwards"),
    ])
}

/// What stands out about a record that is made with these limits and shares.
pub fn of_made(tree: &Tree, limits: &[u32], shares: &[u32]) -> Vec<&'static str> {
    let made = Record::of(tree, limits, shares);
    let (sum, free) = (made.left_to_others(TEAMS), tree.free_bytes());
    of(&[
        (limits.len() == TEAMS && shares.len() == TEAMS, "teams: a record made, all named"),
        (limits.is_empty() && shares.is_empty(), "teams: a record made, none named"),
        (limits.is_empty() && !shares.is_empty(), "teams: a record made, shares alone named"),
        (sum > free, "teams: a record made, shares above the free bytes"),
        (sum > MOST, "teams: a record made, shares above 2^32 - 1 together"),
        (limits.contains(&u32::MAX), "teams: a record made, a limit of 2^32 - 1"),
    ])
}

/// What stands out about the team that an edit carries and what the record holds of all teams.
pub fn of_team(
    tree: Option<&Tree>,
    call: &Call,
    account: &Account,
    expected: &str,
) -> Vec<&'static str> {
    let Account { record, team } = account;
    let above = *team as usize >= TEAMS;
    let Some(tree) = tree else {
        return of(&[
            (true, "teams: edits of an image that does not open"),
            (above, "teams: above 15, and the image does not open"),
        ]);
    };
    let mut met = vec!["teams: edits of an image that opens"];
    if above {
        let long = call.text().is_some_and(|text| text.len() > rules::PATH);
        let outside = call.target().is_some_and(|target| target as usize >= tree.entries.len());
        met.extend(of(&[
            (*team == 16, "teams: 15 for team 16"),
            (*team == u32::MAX, "teams: 15 for team 2^32 - 1"),
            (long, "teams: above 15, and a path over 1,024 bytes"),
            (!outside && New::of(tree, call).is_none(), "teams: above 15, and a path with trouble"),
            (used_after(tree, call).is_some(), "teams: above 15, and file and table are planned"),
        ]));
        return met;
    }
    let after = used_after(tree, call);
    let cost = after.map_or(0, |after| after as i64 - tree.used() as i64);
    let free = tree.disc_end.saturating_sub(after.unwrap_or(tree.used()));
    let place = *team as usize;
    let (own, left) = (record.teams[place], record.left_to_others(place));
    let others = || record.teams.iter().enumerate().filter(|(k, _)| *k != place).map(|(_, t)| t);
    let passed = own.taken as i64 + cost;
    let (due_27, due_28) = (passed > own.limit as i64, free < left);
    let used = record.used as i64 + cost;
    let due_25 = own.edits == MOST || used < 0 || used > MOST as i64;
    let unclipped: i64 = others().map(|t| t.share as i64 - t.taken as i64).sum();
    let (keeps, rewrite) = (keeps_size(tree, call), *call == Call::Rewrite);
    // By a rule that is not this one.
    let own_counts = left + own.left() > free;
    let free_before = tree.free_bytes();
    let full = |team: &Team| team.edits == MOST;
    met.extend(match expected {
        "err 27" => of(&[
            (passed == own.limit as i64 + 1, "teams: 27, by one byte"),
            (
                own.taken > own.limit,
                "teams: 27, and the taken bytes that go in are above the limit",
            ),
            (cost == 0, "teams: 27, and it costs nothing"),
            (cost < 0, "teams: 27, and it costs less than nothing"),
            (keeps, "teams: 27 for a resize to the present size"),
            (rewrite, "teams: 27 for a rewrite"),
            (passed > MOST as i64, "teams: 27, and the sum is above 2^32 - 1"),
            (passed <= own.share as i64, "teams: 27 within the share"),
            (due_28 && !due_25, "teams: 27, and 28 is due too"),
            (due_25 && !due_28, "teams: 27, and 25 is due too"),
            (due_28 && due_25, "teams: 27, and 28 and 25 are due too"),
        ]),
        "err 28" => of(&[
            (free + 1 == left, "teams: 28, by one byte"),
            (cost == 0, "teams: 28, and it costs nothing"),
            (cost < 0, "teams: 28, and it costs less than nothing"),
            (keeps, "teams: 28 for a resize to the present size"),
            (rewrite, "teams: 28 for a rewrite"),
            (free_before >= left, "teams: 28, and the free bytes of before would do"),
            (unclipped <= free as i64, "teams: 28, and less for who took more than the share"),
            (left > MOST, "teams: 28, and the remainders are above 2^32 - 1 together"),
            (passed <= own.share as i64, "teams: 28 within the share"),
            (due_25, "teams: 28, and 25 is due too"),
        ]),
        "err 25" => of(&[
            (own.edits == MOST && !others().any(full), "teams: 25 for the own count alone"),
            (free == left, "teams: 25, and free bytes are just the remainders"),
        ]),
        _ if expected.starts_with("ok") => of(&[
            (place == 0, "teams: accepted, team 0"),
            (place == 15, "teams: accepted, team 15"),
            (passed == own.limit as i64, "teams: accepted, up to the limit exactly"),
            (passed == own.share as i64, "teams: accepted, up to the share exactly"),
            (passed > own.share as i64, "teams: accepted, past the share"),
            (left > 0 && free == left, "teams: accepted, free bytes just the remainders"),
            (own_counts, "teams: accepted, and not with the own share"),
            (free_before < left, "teams: accepted, and not by the free bytes of before"),
            (others().any(full), "teams: accepted, another team's count is 2^32 - 1"),
            (
                others().any(|t| t.taken > t.share) && left > 0,
                "teams: accepted, another team has taken more than its share",
            ),
            (own.taken > own.share, "teams: accepted, taken bytes above the share go in"),
            (passed < 0, "teams: accepted, and the cost gives back more than is taken"),
            (cost < 0 && passed == 0, "teams: accepted, and the cost gives back just all"),
            (cost < 0 && passed > 0, "teams: accepted, and the cost gives back some"),
            (own.taken > 0 && cost == 0, "teams: accepted, costs nothing and something is taken"),
        ]),
        _ => of(&[
            (due_27 && expected == "err 26", "teams: 27 due, and 26 comes first"),
            (due_27 && expected == "err 21", "teams: 27 due, and 21 comes first"),
            (due_27 && expected == "err 9", "teams: 27 due, and 9 comes first"),
            (due_28 && expected == "err 26", "teams: 28 due, and 26 comes first"),
            (due_28 && expected == "err 21", "teams: 28 due, and 21 comes first"),
            (due_28 && expected == "err 9", "teams: 28 due, and 9 comes first"),
            (
                due_27 && due_28 && !matches!(expected, "err 9" | "err 21" | "err 26"),
                "teams: 27 and 28 due, and a number of 12 to 20 comes first",
            ),
        ]),
    });
    met
}

/// What stands out about a turn in a list that began with shares within the free bytes.
pub fn of_turn(tree: &Tree, call: &Call, account: &Account, answer: &str) -> Vec<&'static str> {
    let Account { record, team } = account;
    let Some(own) = record.teams.get(*team as usize) else {
        return vec!["turns: a team above 15"];
    };
    let Some(after) = used_after(tree, call) else { return vec!["turns: no plan"] };
    let passed = own.taken as i64 + after as i64 - tree.used() as i64;
    let (within, accepted) = (passed <= own.share as i64, answer.starts_with("ok"));
    let waiting = record.left_to_others(*team as usize) > 0;
    of(&[
        (within && accepted && waiting, "turns: accepted within the share, and others wait"),
        (
            accepted && waiting && own.share > 0 && passed == own.share as i64,
            "turns: accepted up to the share exactly, and others wait",
        ),
        (!within && accepted && waiting, "turns: accepted past the share, and others wait"),
        (within && !accepted && answer != "err 27", "turns: refused within the share, not by 27"),
        (answer == "err 27", "turns: 27"),
        (answer == "err 28", "turns: 28"),
        (accepted && passed < 0, "turns: the cost gives back more than is taken"),
        (own.taken > own.share, "turns: a team that has taken more than its share"),
    ])
}

/// What stands out about an image of a class: how its texts lie, and the bytes that no edit reads.
pub fn of_texts(image: &[u8], tree: &Tree) -> Vec<&'static str> {
    let at = tree.fst_offset as usize;
    let (start, end) = (at + 12 * tree.entries.len(), tree.table_end() as usize);
    let names = rules::names(image);
    let mut spans: Vec<(usize, usize)> = names.iter().map(|name| (name.start, name.end)).collect();
    spans.sort();
    spans.dedup();
    let apart = spans.len() == names.len();
    // The same zero byte ends both.
    let ends = spans.iter().any(|(a, end)| spans.iter().any(|(b, other)| a != b && end == other));
    let back = names.windows(2).any(|two| two[1].start < two[0].start);
    let (mut covered, mut between) = (spans.first().map_or(start, |span| span.0), false);
    for (start, end) in &spans {
        between |= *start > covered;
        covered = covered.max(end + 1);
    }
    let stored = |number: usize| word(image, at + 12 * number + 4) as usize;
    let wrong = |number: &usize| {
        let entry = &tree.entries[*number];
        entry.directory && stored(*number) != entry.parent
    };
    let root = word(image, at) & 0xff_ffff;
    of(&[
        (apart && !ends && !back && !names.is_empty(), "pairs: texts as they are written"),
        (!apart, "pairs: equal names share a text"),
        (ends, "pairs: a name is the end of another's text"),
        (apart && !ends && back, "pairs: texts in another order"),
        (spans.first().is_some_and(|span| span.0 > start), "pairs: slack before the texts"),
        (between, "pairs: slack between them"),
        (covered < end, "pairs: slack behind them"),
        (begins_inside(image), "pairs: a name begins inside a pair of another"),
        (!(0..tree.entries.len()).any(|number| wrong(&number)), "pairs: stored parents are right"),
        ((1..tree.entries.len()).any(|number| wrong(&number)), "pairs: a stored parent is not"),
        (wrong(&0), "pairs: the root's is not"),
        (root > 0, "pairs: the root has a name offset"),
        (root as usize >= end - start, "pairs: the root has one past the texts"),
    ])
}

/// What stands out about a class of images, and their tree.
pub fn of_class(trees: &[&Tree]) -> Vec<&'static str> {
    let (first, entries) = (trees[0], &trees[0].entries);
    let differ = |of: fn(&Tree) -> u64| trees.iter().any(|tree| of(tree) != of(first));
    let directories: Vec<usize> = (1..entries.len()).filter(|k| entries[*k].directory).collect();
    let ends = |next: u32| directories.iter().filter(|k| entries[**k].size == next).count();
    let name = |k: usize| &entries[k].name;
    let end_of_other = |k: usize| {
        let longer = |j: usize| name(j).len() > name(k).len() && name(j).ends_with(name(k));
        (1..entries.len()).any(longer)
    };
    let in_table = |tree: &&Tree| {
        let table = tree.fst_offset..tree.table_end();
        let mut files = entries.iter().filter(|entry| !entry.directory && entry.size == 0);
        files.any(|file| table.contains(&(file.offset as u64)))
    };
    let program = |tree: &&Tree| tree.program.is_some();
    of(&[
        (entries.len() == 1, "pairs: a class with the root alone"),
        (entries.len() > 100, "pairs: a class with more than 100 entries"),
        (trees.len() == 2, "pairs: two images of one tree"),
        (trees.len() == 6, "pairs: six images of one tree"),
        (directories.iter().any(|k| first.depth(*k) == 64), "pairs: a directory 64 deep"),
        (
            directories
                .iter()
                .any(|k| entries[*k].parent > 0 && entries[*k].size as usize == k + 1),
            "pairs: an empty directory in another",
        ),
        (
            directories.iter().any(|k| ends(entries[*k].size) > 2),
            "pairs: three directories end together",
        ),
        ((1..entries.len() as u32).any(|k| first.is_twin(k)), "pairs: equal names in a directory"),
        ((1..entries.len()).any(end_of_other), "pairs: a name is the end of another"),
        (
            (1..entries.len()).any(|k| rules::units(name(k)).any(|unit| unit.len() == 2)),
            "pairs: a name with a pair",
        ),
        (
            trees.iter().any(in_table) && !trees.iter().all(in_table),
            "pairs: an empty file lies in the table of one, and not of all",
        ),
        (differ(|tree| tree.fst_offset), "pairs: tables in two places"),
        (differ(|tree| tree.fst_size), "pairs: tables of two sizes"),
        (
            trees.iter().enumerate().any(|(i, tree)| {
                let place = (tree.fst_offset, tree.fst_size);
                trees[..i].iter().any(|other| (other.fst_offset, other.fst_size) == place)
            }),
            "pairs: two tables of one place and size",
        ),
        (differ(|tree| tree.disc_end), "pairs: discs of two sizes"),
        (
            trees.iter().any(program) && !trees.iter().all(program),
            "pairs: a program on one, and not on all",
        ),
    ])
}

/// What stands out about an edit of a class, by what each of its images is answered, and where a file goes
/// that gets more bytes.
pub fn of_one_table(call: &Call, told: &[(&Tree, &str, u32)]) -> Vec<&'static str> {
    let accepted: Vec<_> = told.iter().filter(|told| told.1.starts_with("ok")).collect();
    let Some((tree, _, place)) = accepted.first() else { return vec![] };
    let refused = |answer: &str| told.iter().any(|told| told.1 == answer);
    let mut met = of(&[
        (refused("err 9"), "pairs: accepted of one image, 9 of another"),
        (refused("err 21"), "pairs: accepted of one image, 21 of another"),
        (refused("err 26"), "pairs: accepted of one image, 26 of another"),
        (refused("err 25"), "pairs: accepted of one image, 25 of another"),
        (
            refused("err 15") || refused("err 27") || refused("err 28"),
            "pairs: accepted of one team, 15, 27 or 28 of another",
        ),
    ]);
    if accepted.len() < 2 || keeps_size(tree, call) {
        return met;
    }
    let file = call.target().map(|number| &tree.entries[number as usize]);
    let size = |file: Option<&Entry>| file.map_or(0, |file| file.size as u64);
    let two_places = || accepted.iter().any(|(_, _, other)| other != place);
    met.push(match (call, call.resizes()) {
        (Call::Rewrite, _) => "pairs: one table, of a rewrite",
        (Call::InsertFile(..), _) => "pairs: one table, with a new file",
        (Call::InsertDirectory(..), _) => "pairs: one table, with a new directory",
        (Call::MakeDirectories(..), _) => match New::of(tree, call) {
            Some(new) if new.entries > tree.entries.len() => "pairs: one table, directories made",
            _ => "pairs: one table, of a path that is all there",
        },
        (_, Some((_, 0))) => "pairs: one table, a file cut to nothing",
        (_, Some((_, new))) if new < size(file) && call.fills() => {
            "pairs: one table, a file filled with less"
        }
        (_, Some((_, new))) if new < size(file) => "pairs: one table, a file cut",
        (_, Some(_)) if two_places() => "pairs: a growth in two places",
        (_, Some(_)) if file.is_some_and(|file| file.offset == *place) => {
            "pairs: one table, of a growth where it is"
        }
        (_, Some(_)) => "pairs: one table, of a growth elsewhere",
        _ if size(file) == 0 => "pairs: one table, an empty file moved",
        _ => "pairs: one table, a file moved",
    });
    let alike = |a: &Tree, b: &Tree| {
        a.disc_end == b.disc_end && a.behind().is_none() && b.behind().is_none()
    };
    let by_tables = |(a, _, one): &(&Tree, &str, u32)| {
        accepted.iter().any(|(b, _, other)| one != other && alike(a, b))
    };
    let elsewhere = |told: &(&Tree, &str, u32)| file.is_some_and(|file| file.offset != told.2);
    let written = |tree: &Tree| {
        tree.entries.len() as u64 * 12 + New::of(tree, call).map_or(0, |new| new.texts as u64)
    };
    let is = |of: fn(&u64, &u64) -> bool| {
        accepted.iter().any(|(tree, ..)| of(&written(tree), &tree.fst_size))
    };
    let along_twins = || {
        let Call::MakeDirectories(_, path) = call else { return false };
        let twin = |k: &u32| tree.entries[*k as usize].directory && tree.is_twin(*k);
        let name = |k: u32| &tree.entries[k as usize].name[..];
        let twins = (1..tree.entries.len() as u32).filter(twin);
        let twins: Vec<&[u8]> = twins.map(name).collect();
        rules::components(path).iter().any(|part| twins.contains(part))
    };
    let growth = met.last() == Some(&"pairs: a growth in two places");
    met.extend(of(&[
        (
            growth && accepted.iter().any(|told| by_tables(told)),
            "pairs: a growth in two places, by where the tables end alone",
        ),
        (
            growth && !accepted.iter().all(|told| elsewhere(told)),
            "pairs: a growth where it is, and elsewhere",
        ),
        (along_twins(), "pairs: one table, along a name that two directories have"),
        (is(u64::gt) && is(u64::lt), "pairs: one table gets longer, and another shorter"),
        (
            accepted.iter().any(|told| told.0.fst_offset != tree.fst_offset),
            "pairs: one table, in two places",
        ),
        (accepted.len() == 6 && told.len() == 6, "pairs: one table, of six images"),
    ]));
    met
}

/// What stands out about the maximum that an image states, and a call on it that is answered `expected`,
/// with so many working bytes lent.
pub fn of_maximum(tree: &Tree, call: &Call, expected: &str, bytes: usize) -> Vec<&'static str> {
    let (most, present, rewritten) = (tree.maximum, tree.fst_size, tree.written());
    let above = tree.forbids(present);
    if *call == Call::Open {
        return of(&[
            (most == 0, "maximum: none, and the image opens"),
            (above, "maximum: the table is above it, and the image opens"),
            (most != 0 && present == most, "maximum: the table is just within it"),
        ]);
    }
    if !call.edits() || most == 0 {
        return vec![];
    }
    let accepted = expected.starts_with("ok");
    if keeps_size(tree, call) {
        let due = accepted && tree.forbids(rewritten);
        return of(&[
            (due && call.fills(), "maximum: a fill of the file's size writes no table"),
            (due && !call.fills(), "maximum: a resize to the present size writes no table"),
        ]);
    }
    if !matches!(expected, "err 9" | "err 21" | "err 26") && !accepted {
        let due = tree.forbids(rewritten);
        return of(&[(due, "maximum: 26 due, and a number of 12 to 20 comes first")]);
    }
    if call.target().is_some_and(|target| target as usize >= tree.entries.len()) {
        return vec![];
    }
    let Some(size) = New::of(tree, call).map(|new| new.size()) else { return vec![] };
    let place = new_place(tree, call);
    let over = place.is_some_and(|(at, length)| length > 0 && tree.fst_offset + size > at);
    let no_table = size > tree.most(tree.fst_offset, present) || over;
    let cases = match expected {
        "err 26" => vec![
            (size == most + 1, "maximum: 26, by one byte"),
            (no_table, "maximum: 26, and the table's 21 is due too"),
            (
                no_table && size == most + 1,
                "maximum: 26, by one byte, and the table's 21 is due too",
            ),
            (present == most, "maximum: 26, and the present table is just within it"),
            (
                above && size > present,
                "maximum: 26 for a table longer than the present one, which is above it",
            ),
            (above && size == present, "maximum: 26 for a table as long as the present one"),
            (above && size < present, "maximum: 26 for a table shorter than the present one"),
            (
                *call == Call::Rewrite && !above,
                "maximum: 26 for a rewrite of names that share a text",
            ),
            (most == 1, "maximum: 26, and it is 1"),
        ],
        "err 9" => {
            let (due, short) = (place.is_some() && size > most, (bytes as u64) < size);
            vec![
                (due && short, "maximum: 26 due, and the working bytes' 9 comes first"),
                (due && !short, "maximum: 26 due, and the 9 of limits or words comes first"),
            ]
        }
        "err 21" if no_room(tree, call, expected) => {
            vec![
                (size == most, "maximum: just met, and the table's 21"),
                (size < most, "maximum: not met, and the table's 21"),
            ]
        }
        "err 21" => vec![(size > most, "maximum: 26 due, and the file's 21 comes first")],
        _ => vec![
            (size == most, "maximum: accepted, with a table exactly as long"),
            (size + 1 == most, "maximum: accepted, with a table one byte shorter"),
            (above, "maximum: accepted, and the table was above it"),
            (
                above && size == most,
                "maximum: accepted, exactly as long, and the table was above it",
            ),
            (most == u32::MAX as u64, "maximum: accepted, and it is 2^32 - 1"),
        ],
    };
    of(&cases)
}

/// What stands out about a call on `tree` that is answered `expected`, with the memory lent.
pub fn features(
    tree: &Tree,
    call: &Call,
    expected: &str,
    words: usize,
    bytes: usize,
) -> Vec<&'static str> {
    let mut met = vec![];
    let accepted = expected.starts_with("ok");
    let no_space = expected == "err 21";
    let least = 4 * (tree.entries.len() + 2);
    if accepted && !call.edits() && words == least {
        met.push("memory: exactly the words that opening wants");
        if *call == Call::Open && tree.behind().is_some() {
            met.push("memory: exactly the words, and a program behind the table");
        }
    }
    if *call == Call::Free && tree.free.len() > tree.entries.len() {
        met.push("free regions: one more than entries");
    }
    match call {
        Call::Alloc(size, align) if align.is_power_of_two() => {
            let (size, align) = (*size as u64, *align as u64);
            let rests: Vec<u64> = tree
                .free
                .iter()
                .filter_map(|(at, len)| (at + len).checked_sub(at.next_multiple_of(align)))
                .filter(|rest| *rest > 0)
                .collect();
            let most = rests.iter().max().copied().unwrap_or(0);
            if accepted && rests.iter().filter(|rest| **rest == most).count() > 1 {
                met.push("allocate: the largest rest occurs twice");
            }
            if accepted && size == most {
                met.push("allocate: exactly the largest rest");
            }
            if no_space && size == most + 1 && most > 0 {
                met.push("allocate: one byte more than the largest rest");
            }
        }
        Call::MaxRegion(offset, size) => {
            let (offset, size) = (*offset as u64, *size as u64);
            for (at, len) in &tree.free {
                if offset == *at {
                    met.push("max_region_size: from a free region's start");
                }
                if offset > *at && offset + size == at + len {
                    met.push("max_region_size: up to a free region's end, from inside");
                }
                if offset > *at && offset + size < at + len {
                    met.push("max_region_size: inside a free region");
                }
                if offset < *at && offset + size == *at {
                    met.push("max_region_size: up to a free region's start");
                }
                if offset < *at && offset + size > *at {
                    met.push("max_region_size: over a free region's start");
                }
            }
        }
        _ => (),
    }
    if call.edits() && (accepted || no_space || expected == "err 9") {
        of_edit(&mut met, tree, call, expected, words, bytes);
    }
    met
}

/// An edit that gives `file` the size `size`.
fn of_size(
    met: &mut Vec<&'static str>,
    tree: &Tree,
    file: &Entry,
    size: u64,
    fills: bool,
    accepted: bool,
) {
    let named = |resize, fill| if fills { fill } else { resize };
    let old = file.size as u64;
    let here = size <= old || size <= tree.most(file.offset as u64, old);
    if accepted {
        met.push(match size {
            size if size == old => named("resize: to the present size", "fill: of the file's size"),
            0 => named("resize: to nothing", "fill: with nothing"),
            size if size < old => named("resize: a shrink", "fill: shorter than the file"),
            _ if old == 0 && here => named(
                "resize: an empty file grows where it is",
                "fill: an empty file grows where it is",
            ),
            _ if old == 0 => named(
                "resize: an empty file grows elsewhere",
                "fill: an empty file grows elsewhere",
            ),
            _ if here => named("resize: growth where it is", "fill: growth where it is"),
            _ => named("resize: growth elsewhere", "fill: growth elsewhere"),
        });
    }
    let places = |rest: u64| {
        let rest_of =
            |(at, len): &(u64, u64)| (at + len).checked_sub(at.next_multiple_of(rules::ALIGN));
        tree.free.iter().filter(|region| rest_of(region) == Some(rest)).count()
    };
    if accepted && !here && tree.place(size, rules::ALIGN).is_some_and(|(_, rest)| places(rest) > 1)
    {
        met.push(named(
            "resize: growth elsewhere, and the largest place occurs twice",
            "fill: growth elsewhere, and the largest place occurs twice",
        ));
    }
    if accepted && here && size > old && size == tree.most(file.offset as u64, old) {
        met.push(named("resize: exactly as far as it goes", "fill: exactly as far as it goes"));
        if tree.behind().is_some_and(|(at, _)| file.offset as u64 + size == at) {
            met.push(named("resize: exactly up to the program", "fill: exactly up to the program"));
        }
    }
    let past = |(at, _): (u64, u64)| size == old + 1 && file.offset as u64 + old == at;
    if old > 0 && !here && tree.behind().is_some_and(past) {
        met.push(named(
            "resize: one byte more, and the program lies right behind",
            "fill: one byte more, and the program lies right behind",
        ));
    }
}

/// A clip of `size` bytes for `file`.
fn of_clip(met: &mut Vec<&'static str>, tree: &Tree, file: &Entry, size: u64, expected: &str) {
    let (old, most) = (file.size as u64, tree.most(file.offset as u64, file.size as u64));
    let rest = tree.place(0, rules::ALIGN).map_or(0, |(_, rest)| rest);
    let (accepted, no_space) = (expected.starts_with("ok"), expected == "err 21");
    let cases = [
        (accepted && size == old + 1, "fill: one byte more than the file has"),
        (accepted && size + 1 == old, "fill: one byte less than the file has"),
        (accepted && size > old && size == most + 1, "fill: one byte more than it can grow"),
        (accepted && size > most && size == rest, "fill: exactly as long as the largest place"),
        (no_space && size > most && size == rest + 1, "fill: one byte more than any place has"),
        (no_space && size >= tree.disc_end, "fill: as long as the disc, or longer"),
        (no_space && size == u32::MAX as u64, "fill: of 2^32 - 1 bytes"),
        (no_space && size == 1 << 32, "fill: of 2^32 bytes"),
        (no_space && size == 1 << 33, "fill: of 2^33 bytes"),
    ];
    met.extend(of(&cases));
}

fn of_edit(
    met: &mut Vec<&'static str>,
    tree: &Tree,
    call: &Call,
    expected: &str,
    words: usize,
    bytes: usize,
) {
    let accepted = expected.starts_with("ok");
    let count = tree.entries.len();
    if call.target().is_some_and(|target| target as usize >= count) {
        return;
    }
    let Some(new) = New::of(tree, call) else { return };
    let file = call.target().map(|target| &tree.entries[target as usize]);
    let mut writes = true;
    if let (Some((_, size)), Some(file)) = (call.resizes(), file.filter(|file| !file.directory)) {
        writes = size != file.size as u64;
        of_size(met, tree, file, size, call.fills(), accepted);
        if call.fills() {
            of_clip(met, tree, file, size, expected);
            if accepted && !writes && (bytes as u64) < new.size() {
                met.push("fill: of the file's size, with too few bytes for a table");
            }
        }
    }
    if let (Call::Move(_, offset), Some(file)) = (call, file.filter(|file| !file.directory)) {
        let (at, size) = (file.offset as u64, file.size as u64);
        if accepted && size == 0 {
            met.push("move: an empty file");
        }
        if accepted && size > 0 && (*offset as u64 == at + size || *offset as u64 + size == at) {
            met.push("move: right beside its old place");
        }
        if accepted && size > 0 && tree.most(*offset as u64, 0) == size {
            met.push("move: up to the end of a free region");
        }
        if let Some((program, length)) = tree.behind().filter(|_| size > 0) {
            let (to, end) = (*offset as u64, *offset as u64 + size);
            let beside = end == program || to == program + length;
            let into = to < program && end == program + 1 || to + 1 == program + length;
            if accepted && beside {
                met.push("move: right beside the program");
            }
            if expected == "err 21" && into {
                met.push("move: one byte into the program");
            }
        }
    }
    if !writes {
        return;
    }
    let room = tree.most(tree.fst_offset, tree.fst_size);
    let place = new_place(tree, call);
    if accepted {
        met.push(match new.size().cmp(&tree.fst_size) {
            std::cmp::Ordering::Less => "table: shorter than before",
            std::cmp::Ordering::Equal => "table: as long as before",
            std::cmp::Ordering::Greater => "table: longer than before",
        });
        if new.size() == room && room > tree.fst_size {
            met.push("table: grows exactly to what lies behind it");
        }
        if words == 4 * (new.entries + 2) {
            met.push("memory: exactly the words that the new tree wants");
        }
        if bytes as u64 == new.size() {
            met.push("memory: exactly the bytes of the new table");
        }
    }
    if expected == "err 9" {
        if words + 1 == 4 * (new.entries + 2) {
            met.push("memory: one word too few for the new tree");
        }
        if bytes as u64 + 1 == new.size() {
            met.push("memory: one byte too few for the new table");
        }
    }
    if expected == "err 21" && place.is_some() && new.size() == room + 1 {
        met.push("table: one byte too long for the room behind it");
    }
    if let Some((program, _)) = tree.behind().filter(|(at, _)| tree.fst_offset + room == *at) {
        let end = tree.fst_offset + new.size();
        if accepted && end == program {
            met.push("table: grows exactly up to the program, or abuts it");
        }
        if expected == "err 21" && place.is_some() && end == program + 1 {
            met.push("table: one byte over the program");
        }
    }
    if let Some((offset, size)) = place
        && size > 0
        && new.size() <= room
    {
        let end = tree.fst_offset + new.size();
        if accepted && end == offset && new.size() > tree.fst_size {
            met.push("table: grows exactly up to the file's new place");
        }
        if expected == "err 21" && end == offset + 1 {
            met.push("table: one byte over the file's new place");
        }
    }
    if accepted {
        match call {
            Call::InsertFile(parent, _) | Call::InsertDirectory(parent, _) => {
                let behind = (tree.entries[*parent as usize].size as usize) < count;
                met.push(if behind {
                    "insert: entries behind it shift"
                } else {
                    "insert: as last entry"
                });
            }
            Call::MakeDirectories(..) => met.push(match new.entries - count {
                0 => "make-directories: all are there",
                1 => "make-directories: one is new",
                _ => "make-directories: two or more are new",
            }),
            _ => (),
        }
        if new.depth == rules::DEPTH {
            met.push("depth: a new directory at 64");
        }
    }
}
