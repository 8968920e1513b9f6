//! Teams and records of teams that edits take: such that 15, 27, 28 and 25 are just due or just not,
//! for one edit, and for lists of edits by turns on which one record is handed on.

use crate::calls::{self, Call, any_number};
use crate::judge::{Account, used_after};
use crate::random::Random;
use crate::records::{around, change, edits, images};
use crate::rules::{self, MOST, Record, TEAMS, Team, Tree};
use crate::run::Run;
use crate::suites::clip;

/// A random image of the suite for so many of `random`.
const PART: u64 = 8;

const ABOVE: [u32; 7] = [16, 17, 31, 0x100, 0x1_0000, 1 << 31, u32::MAX];

/// A team, one in twenty above 15.
fn team(r: &mut Random) -> u32 {
    match r.below(20) {
        0 => *r.pick(&ABOVE),
        1..=3 => 0,
        4..=6 => 15,
        _ => r.below(TEAMS) as u32,
    }
}

fn number(r: &mut Random) -> u64 {
    any_number(r) as u64
}

/// One of the numbers at and beside this one.
fn near(r: &mut Random, number: i64) -> u64 {
    (number + r.below(3) as i64 - 1).clamp(0, MOST as i64) as u64
}

fn any_team(r: &mut Random) -> Team {
    let [limit, share, taken, edits] = [(); 4].map(|()| number(r));
    Team { limit, share, taken, edits }
}

/// Any numbers, often the outermost.
pub fn any(r: &mut Random) -> Account {
    let (used, largest) = (number(r), number(r));
    let teams = std::array::from_fn(|_| any_team(r));
    Account { record: Record { used, largest, teams }, team: team(r) }
}

/// Limits and shares, of none to all of the teams.
pub fn lists(r: &mut Random) -> (Vec<u32>, Vec<u32>) {
    let [limits, shares] = [(); 2].map(|()| {
        let count = *r.pick(&[0, 1, 2, 3, 15, 16]);
        (0..count).map(|_| any_number(r)).collect()
    });
    (limits, shares)
}

/// Parts, at most `count`, that are `sum` together; none of them is above 2^32 - 1.
fn parts(r: &mut Random, mut sum: u64, count: usize) -> Vec<u64> {
    let mut parts = vec![];
    while parts.len() + 1 < count && sum > 0 {
        let rest = (count - parts.len() - 1) as u64 * MOST;
        let least = sum.saturating_sub(rest);
        let part = (least + r.next() % (sum - least + 1)).min(MOST);
        parts.push(part);
        sum -= part;
    }
    parts.push(sum.min(MOST));
    parts
}

/// Of a team that has so many bytes of its share left.
fn with_left(r: &mut Random, left: u64) -> Team {
    let taken = match r.below(3) {
        0 => 0,
        1 => MOST - left,
        _ => r.next() % (MOST - left + 1),
    };
    let edits = if r.chance(30) { MOST } else { number(r) };
    Team { limit: number(r), share: taken + left, taken, edits }
}

/// Of a team that has taken more than its share, or just all of it.
fn past_share(r: &mut Random) -> Team {
    let taken = number(r);
    let share = if r.chance(20) { taken } else { r.next() % (taken + 1) };
    Team { limit: number(r), share, taken, edits: number(r) }
}

/// All teams but this one: these parts are what some of them have left, and nothing the others.
fn set_others(r: &mut Random, record: &mut Record, team: usize, parts: &[u64]) {
    let mut others: Vec<usize> = (0..TEAMS).filter(|k| *k != team).collect();
    for i in (1..others.len()).rev() {
        others.swap(i, r.below(i + 1));
    }
    for (i, k) in others.into_iter().enumerate() {
        record.teams[k] = match parts.get(i) {
            Some(part) => with_left(r, *part),
            None => past_share(r),
        };
    }
}

/// What an edit is planned to leave free, and what it costs.
fn planned(tree: &Tree, call: &Call) -> (u64, i64) {
    let after = used_after(tree, call).unwrap_or(tree.used());
    (tree.disc_end.saturating_sub(after), change(tree, call))
}

/// A team and a record for this edit.
pub fn beside(r: &mut Random, tree: &Tree, call: &Call) -> Account {
    let (free, cost) = planned(tree, call);
    let team = team(r);
    let place = team as usize % TEAMS;
    let by = cost.unsigned_abs() as i64;
    let taken = match r.below(8) {
        0 | 1 => 0,
        2 | 3 => near(r, by),
        4 => near(r, MOST as i64 - by),
        5 => number(r),
        _ => r.below(2 * by as usize + 10) as u64,
    };
    let passed = taken as i64 + cost;
    let limit = match r.below(10) {
        0..=2 => passed.clamp(0, MOST as i64) as u64,
        3 | 4 => (passed - 1).clamp(0, MOST as i64) as u64,
        5 => taken.saturating_sub(1),
        6 => number(r),
        7 => near(r, passed),
        _ => MOST,
    };
    let share = match r.below(6) {
        0 => 0,
        1 => number(r),
        2 => near(r, taken as i64),
        3 => near(r, passed),
        4 => MOST,
        _ => (taken + free).min(MOST),
    };
    let edits = match r.below(8) {
        0 => MOST,
        1 => MOST - 1,
        2 => number(r),
        _ => r.below(20) as u64,
    };
    let used = match r.below(8) {
        0 => *r.pick(&around(cost)),
        1 => number(r),
        _ => tree.used(),
    };
    let sum = match r.below(12) {
        0..=2 => free,
        3 | 4 => free + 1,
        5 => tree.free_bytes(),
        6 => tree.free_bytes() + 1,
        7 => free + MOST + 1,
        8 => number(r),
        9 => free.saturating_sub(1),
        _ => 0,
    };
    let count = *r.pick(&[1, 1, 2, 3, 15]).max(&(1 + (sum / MOST) as usize));
    let mut record = Record { used, largest: number(r), teams: [Team::default(); TEAMS] };
    let parts = parts(r, sum, count);
    set_others(r, &mut record, place, &parts);
    record.teams[place] = Team { limit, share, taken, edits };
    Account { record, team }
}

/// Limits and shares at a start: mostly such that the shares together are within the free bytes.
pub fn start(r: &mut Random, tree: &Tree) -> (Vec<u32>, Vec<u32>) {
    let free = tree.free_bytes();
    let sum = match r.below(10) {
        0 => return (vec![u32::MAX; TEAMS], vec![]),
        1 => return lists(r),
        2 => free + 1 + r.below(40) as u64,
        3..=6 => free,
        _ => r.next() % (free + 1),
    };
    let mut shares = vec![0; TEAMS];
    let count = *r.pick(&[1, 2, 3, 5, TEAMS]);
    for share in parts(r, sum, count) {
        // Few teams, so that each comes by turns.
        let place = r.below(if count > 5 { TEAMS } else { 6 });
        shares[place] = (shares[place] + share).min(MOST);
    }
    let limit = |share: u64| match r.below(10) {
        0..=3 => MOST,
        4 | 5 => share,
        6 => r.next() % (share + 1),
        7 => any_number(r) as u64,
        _ => (share + r.next() % (free + 1)).min(MOST),
    };
    let limits: Vec<u64> = shares.iter().copied().map(limit).collect();
    let [limits, shares] =
        [limits, shares].map(|list| list.into_iter().map(|number| number as u32).collect());
    (limits, shares)
}

/// Whose turn it is.
pub fn turn(r: &mut Random, record: &Record) -> u32 {
    if r.chance(3) {
        return *r.pick(&ABOVE);
    }
    let sharing: Vec<usize> = (0..TEAMS).filter(|k| record.teams[*k].share > 0).collect();
    match sharing.is_empty() || r.chance(30) {
        true => r.below(TEAMS) as u32,
        false => *r.pick(&sharing) as u32,
    }
}

/// How large a file can be made, where it is or elsewhere.
fn room(tree: &Tree, number: usize) -> u64 {
    let file = &tree.entries[number];
    let place = tree.place(0, rules::ALIGN).map_or(0, |(_, rest)| rest);
    tree.most(file.offset as u64, file.size as u64).max(place).max(file.size as u64)
}

/// An edit for a turn: half of them cost just as much as the record allows, or a byte more or less.
pub fn edit(r: &mut Random, tree: &Tree, account: &Account, image: usize, inserts: bool) -> Call {
    let files: Vec<usize> =
        (1..tree.entries.len()).filter(|k| !tree.entries[*k].directory).collect();
    match r.below(20) {
        0 => return Call::Rewrite,
        1 => return calls::fill(r, tree, image),
        2..=8 => return calls::edit(r, tree, inserts),
        _ if files.is_empty() => return calls::edit(r, tree, inserts),
        _ => (),
    }
    let number = match r.chance(50) {
        true => *r.pick(&files),
        false => *files.iter().max_by_key(|k| room(tree, **k)).unwrap(),
    };
    let (number, size) = (number as u32, tree.entries[number].size as i64);
    if r.chance(6) {
        return Call::Resize(number, size as u32);
    }
    let (team, free) = (account.team as usize % TEAMS, tree.free_bytes() as i64);
    let own = account.record.teams[team];
    // The table is written anew.
    let (table, most) =
        (tree.written() as i64 - tree.fst_size as i64, room(tree, number as usize) as i64);
    let mut costs = vec![
        own.limit as i64 - own.taken as i64,
        own.share as i64 - own.taken as i64,
        free - account.record.left_to_others(team) as i64,
        -(own.taken as i64),
    ];
    costs.retain(|cost| (-1..=most + 1).contains(&(size + cost - table)));
    let cost = match r.below(10) {
        0..=5 if !costs.is_empty() => *r.pick(&costs) + r.below(3) as i64 - 1,
        6 => -(r.below(size as usize + 1) as i64),
        7 => r.below(0x20) as i64,
        _ => r.below(most as usize + 1) as i64 - size,
    };
    let size = (size + cost - table).clamp(0, MOST as i64) as u64;
    match r.below(3) {
        0 if size <= 0x400 => Call::Fill(number, clip(size as usize)),
        0 => Call::FillZeros(number, size),
        _ => Call::Resize(number, size as u32),
    }
}

/// Records for this edit and this team: limits, shares, counts and what is taken at and around what they
/// may be, and every mixture of the causes.
fn every(tree: &Tree, call: &Call, team: usize) -> Vec<Record> {
    let (free, cost) = planned(tree, call);
    let by = cost.unsigned_abs();
    let open = Team { limit: MOST, share: 0, taken: 0, edits: 0 };
    let bare = Record { used: tree.used(), largest: 7, teams: [Team::default(); TEAMS] };
    let with = |own: Team| {
        let mut record = bare;
        record.teams[team] = own;
        record
    };
    let mut all = vec![];
    // What is taken, and the limit.
    let mut takens = vec![0, by.saturating_sub(1), by, by + 1, 9, MOST - by, MOST];
    takens.push((MOST - by + 1).min(MOST));
    for taken in takens {
        let passed = taken as i64 + cost;
        for limit in [passed - 1, passed, passed + 1, taken as i64 - 1, MOST as i64] {
            let limit = limit.clamp(0, MOST as i64) as u64;
            all.push(with(Team { limit, share: taken / 2, taken, edits: 0 }));
        }
    }
    // What the others have left, and who of them; the own share, used or not.
    let other = |k: usize| (team + k) % TEAMS;
    let before = tree.free_bytes();
    let sums = [free.saturating_sub(1), free, free + 1, before, before + 1, MOST, MOST + 1 + free];
    for sum in sums {
        for share in [0, by + 1, MOST] {
            let mut alone = with(Team { share, ..open });
            alone.teams[other(1)].share = sum.min(MOST);
            alone.teams[other(2)].share = sum - sum.min(MOST);
            // One that has taken more than its share, and one that has taken some of it.
            let mut mixed = alone;
            mixed.teams[other(1)] = Team { taken: 5, share: 4, ..open };
            mixed.teams[other(15)] = Team { taken: MOST, share: 0, ..open };
            mixed.teams[other(7)] = Team { taken: MOST - sum.min(MOST), share: MOST, ..open };
            let mut many = alone;
            for k in 1..TEAMS {
                let rest = sum % 15 * u64::from(k == 15);
                many.teams[other(k)] = Team { share: sum / 15 + rest, edits: MOST, ..open };
            }
            all.extend([alone, mixed, many]);
        }
    }
    // The count, and used bytes.
    for edits in [MOST - 1, MOST] {
        all.push(with(Team { edits, ..open }));
    }
    let mut counts = bare;
    counts.teams = [Team { limit: MOST, share: 0, taken: 0, edits: MOST }; TEAMS];
    counts.teams[team].edits = 3;
    all.push(counts);
    all.extend(around(cost).map(|used| Record { used, ..with(open) }));
    // Every mixture.
    for due in 0..8 {
        let taken = by + 20;
        let passed = (taken as i64 + cost) as u64;
        let limit = passed - (due & 1);
        let edits = if due & 4 > 0 { MOST } else { 0 };
        let mut record = with(Team { limit, share: 0, taken, edits });
        record.teams[other(1)].share = free + (due >> 1 & 1);
        all.push(record);
    }
    all
}

/// Edits on small images with records of teams, and lists of edits by turns on random ones.
pub fn teams(run: &mut Run, seed: u64, images: u64) {
    for (i, image) in self::images().into_iter().enumerate() {
        let tree = rules::open(&image, usize::MAX).unwrap();
        let (least, table) = (4 * (tree.entries.len() + 2), tree.written() as usize);
        let mut calls = vec![];
        for lists in [vec![], vec![0], vec![u32::MAX; TEAMS], vec![0, 7, 0], vec![0x1000; 3]] {
            for others in [vec![], vec![1; TEAMS], vec![u32::MAX; TEAMS]] {
                calls.push((Call::MakeRecord(lists.clone(), others), least, 0, None));
            }
        }
        let mut edits = edits(&tree);
        edits.extend([1024, 1025].map(|length| Call::MakeDirectories(0, vec![b'/'; length])));
        for (j, call) in edits.into_iter().enumerate() {
            let mut push = |record: Record, team: u32, words: usize, bytes: usize| {
                calls.push((call.clone(), words, bytes, Some(Account { record, team })));
            };
            // Each of the teams has its turn; the outermost have more.
            let team = [0, 15, (i + j) % TEAMS][j % 3];
            let records = every(&tree, &call, team);
            // Few where another number comes first in any case.
            let step = if used_after(&tree, &call).is_some() { 1 } else { 11 };
            for record in records.iter().step_by(step) {
                push(*record, team as u32, 64, 0x400);
            }
            // All three are due, with too little memory.
            let last = records[records.len() - 1];
            for (words, bytes) in [(least, table), (least, table - 1), (least, 0), (0, 0)] {
                push(last, team as u32, words, bytes);
            }
            for above in ABOVE {
                push(last, above, 64, 0x400);
                push(records[0], above, 0, 0);
            }
        }
        run.each_with(image, &calls);
        if run.over() {
            return;
        }
    }
    run.by_turns(seed, images.div_ceil(PART));
}
