//! Edit sheets: each answer, record and image is held to `sheet_rules`; of some, each line besides is asked
//! for as the single call that it comes to, of both sides, on the image that the lines before it left.

use crate::calls::{self, Call, any_number, hex};
use crate::judge::{Account, Class, New, keeps_size, odd_name};
use crate::masters::{self, chain, crowd};
use crate::random::Random;
use crate::records::{images, with_count};
use crate::rules::{self, MAXIMUM, MOST, PATH, Record, TEAMS, Team, Tree, set_word};
use crate::run::{Asked, Batch, Case, Run, Take, WAVE, ask_edit_with, ask_look_with, image_lines};
use crate::sheet_rules::{
    self, Bad, Begun, DIRECTORY, FILE, HEADER, LINE, LINES, Line, MOVE, RESIZE, Ran, Stage,
};
use crate::steps;
use crate::suites::{all_texts, nested_master, small_master};
use crate::teams;

/// A random image of the suite for so many of `random`.
const PART: u64 = 8;

/// Sheets of each random image one behind the other, and how often each is run in other ways.
const ROUNDS: usize = 6;
const AGAIN: usize = 6;

/// Of an image that does not open.
const REFUSED: usize = 24;

/// Images up to this length are compared byte by byte as they are told, longer ones by their hash.
const TOLD: usize = 0x8000;

const AMPLE: [usize; 2] = [0x4000, 0x8000];

// A sheet's bytes -----------------------------------------------------------------------------

/// Where the parts of a sheet lie, and how many lines it states.
#[derive(Clone)]
struct Layout {
    sheet: Vec<u8>,
    lines: usize,
    texts: usize,
}

impl Layout {
    fn set(&mut self, at: usize, value: u32) {
        if let Some(place) = self.sheet.get_mut(at..at + 4) {
            place.copy_from_slice(&value.to_be_bytes());
        }
    }

    fn number(&self, at: usize) -> u32 {
        self.sheet.get(at..at + 4).map_or(0, |word| u32::from_be_bytes(word.try_into().unwrap()))
    }

    fn count(&self) -> usize {
        self.number(0) as usize
    }
}

fn words(numbers: &[u32]) -> Vec<u8> {
    numbers.iter().flat_map(|number| number.to_be_bytes()).collect()
}

/// The texts with these paths in them, and where each begins; `shared`: where one stands already, also inside
/// another.
fn texts_of(lines: &[Line], shared: bool) -> (Vec<u8>, Vec<u32>) {
    let (mut texts, mut places) = (vec![], vec![]);
    for line in lines {
        let text = [&line.path[..], &[0]].concat();
        let there = if shared { masters::find(&texts, &text) } else { None };
        places.push(there.unwrap_or(texts.len()) as u32);
        if there.is_none() {
            texts.extend(text);
        }
    }
    (texts, places)
}

fn rows_of(lines: &[Line], places: &[u32]) -> Vec<u8> {
    let row = |(line, place): (&Line, &u32)| words(&[line.kind, *place, line.offset, line.size]);
    lines.iter().zip(places).flat_map(row).collect()
}

/// Header, lines and texts, one behind the other.
fn plain(lines: &[Line]) -> Layout {
    let (texts, places) = texts_of(lines, false);
    let rows = rows_of(lines, &places);
    let behind = HEADER + rows.len();
    let header = [lines.len(), HEADER, behind, texts.len()].map(|number| number as u32);
    let sheet = [words(&header), rows, texts].concat();
    Layout { sheet, lines: HEADER, texts: behind }
}

fn sheet_of(lines: &[Line]) -> Vec<u8> {
    plain(lines).sheet
}

fn some_bytes(r: &mut Random, most: usize) -> Vec<u8> {
    (0..r.below(most + 1)).map(|_| r.byte()).collect()
}

/// The same lines, wherever they and their texts may lie.
fn laid_out(r: &mut Random, lines: &[Line]) -> Layout {
    let (mut texts, mut places) = texts_of(lines, r.chance(50));
    if r.chance(30) {
        let front = some_bytes(r, 9);
        places.iter_mut().for_each(|place| *place += front.len() as u32);
        texts.splice(0..0, front);
    }
    if r.chance(30) {
        // Nobody ends these.
        texts.extend((0..r.below(5)).map(|_| r.byte().max(1)));
    }
    let mut bytes = vec![0; HEADER];
    if r.chance(30) {
        bytes.extend(some_bytes(r, 9));
    }
    let texts_first = r.chance(40);
    let (mut at_texts, mut at_lines) = (0, 0);
    for part in [texts_first, !texts_first] {
        if part {
            at_texts = bytes.len();
            bytes.extend(&texts);
        } else {
            at_lines = bytes.len();
            bytes.resize(bytes.len() + LINE * lines.len(), 0);
        }
        if r.chance(20) {
            bytes.extend(some_bytes(r, 5));
        }
    }
    // The texts may begin before their first path, and end behind their last one.
    let before = if r.chance(30) { r.below(at_texts + 1) } else { 0 };
    let end = at_texts + texts.len();
    let behind = if r.chance(30) { r.below(bytes.len() - end + 1) } else { 0 };
    places.iter_mut().for_each(|place| *place += before as u32);
    let (at_texts, length) = (at_texts - before, texts.len() + before + behind);
    let header = [lines.len(), at_lines, at_texts, length].map(|number| number as u32);
    bytes[..HEADER].copy_from_slice(&words(&header));
    let rows = rows_of(lines, &places);
    bytes[at_lines..at_lines + rows.len()].copy_from_slice(&rows);
    Layout { sheet: bytes, lines: at_lines, texts: at_texts }
}

/// Lines that begin in the header: at byte 12 or 15, where the first one's kind is a part of the texts'
/// length; or at byte 0, where it is the number of lines.
fn in_the_header(r: &mut Random, lines: &[Line]) -> Option<Layout> {
    let first = lines.first()?;
    let at = match r.below(5) {
        0 | 1 => 12,
        2 | 3 => 15,
        _ => 0,
    };
    if at == 0 {
        // Four lines, the first a resize along an empty path to as many bytes as the texts have.
        let mut lines: Vec<Line> = lines.iter().take(3).cloned().collect();
        while lines.len() < 3 {
            lines.push(lines[0].clone());
        }
        let (texts, mut places) = texts_of(&lines, false);
        places.iter_mut().for_each(|place| *place += 64);
        let length = 64 + texts.len() as u32;
        let rows = rows_of(&lines, &places);
        let sheet = [words(&[4, 0, 0, length]), rows, texts].concat();
        return Some(Layout { sheet, lines: 0, texts: 0 });
    }
    let behind = at + LINE * lines.len();
    let (mut texts, mut places) = texts_of(lines, false);
    let mut start = behind;
    if at == 12 {
        // The texts' length is the kind; they are the end of a path of up to three bytes.
        let length = first.kind as usize;
        let more = length.checked_sub(first.path.len() + 1).filter(|_| lines.len() == 1)?;
        texts.splice(0..0, vec![b'x'; more]);
        places[0] = more as u32;
    } else {
        // Its last byte is 0, and the line begins with it.
        let more = (256 - texts.len() % 256) % 256;
        texts.extend(vec![b'y'; more]);
        if r.chance(50) {
            // They begin among the lines.
            let back = r.below(behind - at);
            if back < more {
                texts.truncate(texts.len() - back);
                places.iter_mut().for_each(|place| *place += back as u32);
                start -= back;
            }
        }
    }
    let length = texts.len() + behind - start;
    let header = [lines.len(), at, start, length].map(|number| number as u32);
    let mut sheet = words(&header);
    sheet.truncate(at);
    sheet.extend(rows_of(lines, &places));
    sheet.extend(texts);
    Some(Layout { sheet, lines: at, texts: start })
}

// Damages -------------------------------------------------------------------------------------

fn near(r: &mut Random, number: usize) -> u32 {
    (number as u32).wrapping_add(r.below(3) as u32).wrapping_sub(1)
}

/// One of the numbers that 30 goes by is another, or the sheet is cut off.
fn damage(r: &mut Random, layout: &mut Layout) {
    let length = layout.sheet.len();
    let count = layout.count().min(length.saturating_sub(layout.lines) / LINE);
    let row = if count > 0 { layout.lines + LINE * r.below(count) } else { layout.lines };
    match r.below(16) {
        0 => {
            let cut = *r.pick(&[1, 1, 1, 2, length.saturating_sub(15), length.saturating_sub(16)]);
            layout.sheet.truncate(length.saturating_sub(cut));
        }
        1 => layout.sheet.truncate(r.below(18)),
        2 => {
            let wraps = (1 << 28) + *r.pick(&[0, 1, 2]) * count as u32;
            let value = *r.pick(&[0, 1, 1023, 1024, 1025, 1 << 28, wraps, 1 << 31, u32::MAX]);
            layout.set(0, value);
        }
        3 => {
            let value = near(r, count);
            layout.set(0, value);
        }
        4 => {
            let last = length.wrapping_sub(LINE * count);
            let near_last = near(r, last);
            let any = any_number(r);
            let value =
                *r.pick(&[near_last, near_last, length as u32, u32::MAX, u32::MAX - 15, any]);
            layout.set(4, value);
        }
        5 | 6 => {
            let last = length.wrapping_sub(layout.number(12) as usize);
            let near_last = near(r, last);
            let any = any_number(r);
            let value = *r.pick(&[near_last, near_last, length as u32, u32::MAX, any]);
            layout.set(8, value);
        }
        7 => {
            let rest = length.wrapping_sub(layout.texts);
            let near_rest = near(r, rest);
            let less = near(r, layout.number(12) as usize);
            let any = any_number(r);
            let wraps = 0u32.wrapping_sub(layout.texts as u32);
            let value = *r.pick(&[near_rest, less, 0, u32::MAX, wraps, any]);
            layout.set(12, value);
        }
        8 | 9 => {
            let kind = layout.number(row);
            let any = any_number(r);
            let value =
                *r.pick(&[0, 5, 5, kind << 8, kind << 16, kind << 24, kind | 256, u32::MAX, any]);
            layout.set(row, value);
        }
        10 | 11 => {
            let field = *r.pick(&[8, 12]);
            let any = any_number(r);
            let value = *r.pick(&[1, 1 << 8, 1 << 16, 1 << 24, 1 << 31, u32::MAX, any]);
            layout.set(row + field, value);
        }
        12 | 13 => {
            let texts = layout.number(12) as usize;
            let end = layout.texts.saturating_add(texts);
            let last = layout.sheet.get(layout.texts..end);
            let last = last.and_then(|texts| texts.iter().rposition(|byte| *byte == 0));
            let near_last = last.map_or(0, |last| last as u32);
            let any = any_number(r);
            let at = texts as u32;
            let value = *r.pick(&[
                near_last,
                near_last.wrapping_add(1),
                near_last.wrapping_add(1),
                at,
                at.wrapping_add(1),
                u32::MAX,
                1 << 31,
                any,
            ]);
            layout.set(row + 4, value);
        }
        14 => {
            // The texts lose a zero byte.
            let zeros: Vec<usize> =
                (layout.texts..length).filter(|at| layout.sheet[*at] == 0).collect();
            if let Some(last) = zeros.last() {
                let at = if r.chance(70) { *last } else { *r.pick(&zeros) };
                layout.sheet[at] = b'z';
            }
        }
        _ => {
            if length > 0 {
                let at = r.below(length);
                layout.sheet[at] = r.byte();
            }
        }
    }
}

// Lines ---------------------------------------------------------------------------------------

/// A path of as many bytes as a path may have, or about so many, to where this one leads.
fn padded(r: &mut Random, path: &[u8], most: usize) -> Vec<u8> {
    let Some(more) = most.checked_sub(path.len()) else { return path.to_vec() };
    let mut long = vec![];
    while long.len() < more {
        let pieces: &[&[u8]] = &[b"/", b"./", b"\\"];
        let piece = r.pick(pieces);
        if long.len() + piece.len() <= more {
            long.extend(*piece);
        }
    }
    [&long, path].concat()
}

/// A line for this edit.
fn line_for(r: &mut Random, tree: &Tree, call: &Call) -> Line {
    let bare = |number: u32| tree.path(0, number as usize).unwrap_or_default();
    let way = |r: &mut Random, number: u32| match r.below(10) {
        0..=4 => bare(number).join(&b'/'),
        5..=8 => {
            let parts = bare(number);
            calls::written(r, parts)
        }
        _ => calls::path(r, Some(tree), 0, true),
    };
    let known = |number: &u32| (*number as usize) < tree.entries.len();
    let number = call.target().filter(known).unwrap_or(0);
    let way = way(r, number);
    let (kind, mut path, offset, size) = match call {
        Call::InsertDirectory(_, name) | Call::InsertFile(_, name) => {
            let kind = if let Call::InsertFile(..) = call { FILE } else { DIRECTORY };
            let slash: &[u8] = if way.is_empty() && r.chance(60) { b"" } else { b"/" };
            (kind, [&way, slash, name].concat(), 0, 0)
        }
        Call::Move(_, offset) => (MOVE, way, *offset, 0),
        Call::Resize(_, size) => (RESIZE, way, 0, *size),
        _ => unreachable!("no line makes such an edit"),
    };
    if r.chance(2) {
        let most = *r.pick(&[PATH - 1, PATH, PATH, PATH + 1, PATH + 1, PATH + 2]);
        path = padded(r, &path, most);
    }
    path.retain(|byte| *byte != 0);
    Line { kind, path, offset, size }
}

/// A line for a tree: an edit that has a place or just has not, or whose path leads nowhere.
fn any_line(r: &mut Random, tree: &Tree) -> Line {
    let call = match r.below(12) {
        0..=2 => Call::InsertFile(calls::entry_of(r, tree, true), calls::name(r, tree)),
        3..=5 => Call::InsertDirectory(calls::entry_of(r, tree, true), calls::name(r, tree)),
        6 => calls::move_file(r, tree),
        7 => calls::resize_file(r, tree),
        8 | 9 => steps::edit(r, tree, 0),
        _ => steps::edit(r, tree, 1),
    };
    line_for(r, tree, &call)
}

/// So many lines, each made up for what the lines before it leave; one that is refused is mostly left out.
fn planned(r: &mut Random, stage: &Stage, count: usize) -> Vec<Line> {
    let mut stage = Stage { account: None, memory: [usize::MAX; 2], ..stage.clone() };
    let mut lines = vec![];
    // Refused ones come in the end, as a rule.
    let stops = if r.chance(50) { 3 } else { 40 };
    let mut tries = 0;
    while lines.len() < count && tries < 8 * count {
        tries += 1;
        let line = any_line(r, &stage.tree);
        let made = stage.found(&line).and_then(|found| stage.make(&line.call(found)));
        if made.is_ok() || r.chance(stops) {
            lines.push(line);
        }
    }
    lines
}

/// As many lines as a sheet mostly has.
fn some(r: &mut Random) -> usize {
    match r.below(20) {
        0 => 0,
        1..=5 => 1,
        6..=9 => 2,
        10..=13 => 3,
        14..=18 => r.within(4, 8),
        _ => r.within(9, 30),
    }
}

/// A record, a team and memory for which one of these lines is just refused, or just not.
fn beside(r: &mut Random, stage: &Stage, lines: &[Line]) -> (Option<Account>, [usize; 2]) {
    let mut open = Stage { account: None, memory: [usize::MAX; 2], ..stage.clone() };
    // Of each line that can run: the tree before it, its edit, and what it costs.
    let mut ran: Vec<(Tree, Call, i64)> = vec![];
    for line in lines {
        let Ok(found) = open.found(line) else { break };
        let (tree, call) = (open.tree.clone(), line.call(found));
        if open.make(&call).is_err() {
            break;
        }
        let cost = open.tree.used() as i64 - tree.used() as i64;
        ran.push((tree, call, cost));
    }
    if ran.is_empty() {
        let account = r.chance(50).then(|| teams::any(r));
        let words = 4 * (stage.tree.entries.len() + 2);
        return (account, [*r.pick(&[words, words, words - 1, 0x4000]), *r.pick(&[0, 0x8000])]);
    }
    let chosen = r.below(ran.len());
    let (tree, call, cost) = &ran[chosen];
    let memory = match r.below(10) {
        0 | 1 => {
            let new = New::of(tree, call).unwrap();
            let (words, table) = (4 * (new.entries + 2), new.size() as usize);
            *r.pick(&[
                [words, table],
                [words - 1, table],
                [words, table - 1],
                [words, 0x8000],
                [words - 1, 0x8000],
                [0x4000, table],
                [0x4000, table - 1],
                [4 * (stage.tree.entries.len() + 2) - 1, table],
                [0x4000, 0],
            ])
        }
        _ => AMPLE,
    };
    if r.chance(25) {
        return (None, memory);
    }
    let before: i64 = ran[..chosen].iter().map(|(_, _, cost)| cost).sum();
    let mut account = teams::beside(r, tree, call);
    if r.chance(80) {
        account.team %= TEAMS as u32;
    }
    let own = &mut account.record.teams[account.team as usize % TEAMS];
    // What the lines before it take is not taken yet.
    let back = |number: u64, by: i64| (number as i64 - by).clamp(0, MOST as i64) as u64;
    own.taken = back(own.taken, before);
    account.record.used = back(account.record.used, before);
    if own.edits >= MOST - 1 {
        own.edits -= chosen as u64;
    }
    match r.below(6) {
        // Only one of the causes, and that in the chosen line.
        0 => {
            let limit = own.taken as i64 + before + cost - r.below(2) as i64;
            *own = Team { limit: limit.clamp(0, MOST as i64) as u64, share: 0, ..*own };
            quiet(&mut account);
        }
        1 => {
            *own = Team {
                limit: MOST,
                share: 0,
                taken: 0,
                edits: MOST - chosen as u64 - r.below(2) as u64,
            };
            quiet(&mut account);
            account.record.used = 1 << 31;
        }
        2 => {
            let most = if *cost > 0 { MOST as i64 - before - cost } else { -before - cost };
            *own = Team { limit: MOST, share: 0, taken: 0, edits: 0 };
            quiet(&mut account);
            account.record.used = (most + r.below(3) as i64 - 1).clamp(0, MOST as i64) as u64;
        }
        3 => {
            *own = Team { limit: MOST, share: 0, taken: 0, edits: 0 };
            quiet(&mut account);
            let free = tree.free_bytes() as i64 - cost;
            let other = (account.team as usize + 1 + r.below(TEAMS - 1)) % TEAMS;
            account.record.teams[other].share = (free + r.below(2) as i64).max(0) as u64;
            account.record.used = 1 << 31;
        }
        _ => (),
    }
    (Some(account), memory)
}

/// The other teams keep nothing.
fn quiet(account: &mut Account) {
    let own = account.team as usize % TEAMS;
    for (k, team) in account.record.teams.iter_mut().enumerate() {
        if k != own {
            team.share = team.taken;
        }
    }
}

// What stands out -----------------------------------------------------------------------------

/// Of what 30 is due for, or of where the parts lie.
fn of_layout(sheet: &[u8]) -> Vec<&'static str> {
    let mut met = vec![];
    let length = sheet.len() as u64;
    let Some([count, lines, texts, size]) = sheet_rules::header(sheet) else {
        return match sheet.len() {
            0 => vec!["sheet: 30, no byte"],
            15 => vec!["sheet: 30, 15 bytes"],
            _ => vec!["sheet: 30, fewer than 15 bytes"],
        };
    };
    let lines_end = lines + LINE as u64 * count;
    match sheet_rules::read(sheet) {
        Err(bad) => {
            let alone = bad.len() == 1;
            if !alone {
                met.push("sheet: 30, for two things or more");
            }
            for what in &bad {
                met.push(match (what, alone) {
                    (Bad::Header, _) => unreachable!(),
                    (Bad::Count, true) => "sheet: 30, the number of lines alone",
                    (Bad::Count, false) => "sheet: 30, the number of lines and more",
                    (Bad::Lines, true) => "sheet: 30, the lines' end alone",
                    (Bad::Lines, false) => "sheet: 30, the lines' end and more",
                    (Bad::Texts, true) => "sheet: 30, the texts' end alone",
                    (Bad::Texts, false) => "sheet: 30, the texts' end and more",
                    (Bad::Kind(_), true) => "sheet: 30, a kind alone",
                    (Bad::Kind(_), false) => "sheet: 30, a kind and more",
                    (Bad::Offset(_), true) => "sheet: 30, a new offset alone",
                    (Bad::Offset(_), false) => "sheet: 30, a new offset and more",
                    (Bad::Size(_), true) => "sheet: 30, a new size alone",
                    (Bad::Size(_), false) => "sheet: 30, a new size and more",
                    (Bad::Path(_), true) => "sheet: 30, a path alone",
                    (Bad::Path(_), false) => "sheet: 30, a path and more",
                });
                let line = match what {
                    Bad::Kind(k) | Bad::Offset(k) | Bad::Size(k) | Bad::Path(k) => *k as u64,
                    _ => continue,
                };
                if alone && count > 2 {
                    met.push(match line {
                        0 => "sheet: 30, in the first line alone",
                        line if line + 1 == count => "sheet: 30, in the last line alone",
                        _ => "sheet: 30, in a line between",
                    });
                }
            }
            let row = |k: usize, at: usize| {
                let at = lines as usize + LINE * k + at;
                u32::from_be_bytes(sheet[at..at + 4].try_into().unwrap())
            };
            let of_header = !bad.iter().any(|what| matches!(what, Bad::Lines | Bad::Texts));
            let cases = [
                (count == 1025, "sheet: 30, 1,025 lines"),
                (count == 1 << 28, "sheet: 30, 2^28 lines, of as many bytes as none"),
                (count == MOST, "sheet: 30, 2^32 - 1 lines"),
                (lines_end == length + 1, "sheet: 30, the lines end a byte behind the sheet"),
                (texts + size == length + 1, "sheet: 30, the texts end a byte behind the sheet"),
                (count == 0 && lines > length, "sheet: 30, no lines, behind the sheet's end"),
                (size == 0 && texts > length, "sheet: 30, no texts, behind the sheet's end"),
                (lines == MOST, "sheet: 30, lines from 2^32 - 1 on"),
                (texts == MOST, "sheet: 30, texts from 2^32 - 1 on"),
                (lines_end > MOST && count <= LINES, "sheet: 30, the lines' end is above 2^32 - 1"),
                (texts + size > MOST, "sheet: 30, the texts' end is above 2^32 - 1"),
            ];
            met.extend(cases.iter().filter(|(is, _)| *is).map(|(_, feature)| *feature));
            if of_header && alone {
                let texts = &sheet[texts as usize..(texts + size) as usize];
                let zero = texts.iter().rposition(|byte| *byte == 0);
                let behind = zero.map_or(0, |zero| zero as u32 + 1);
                met.extend(match bad[0] {
                    Bad::Kind(k) => match row(k, 0) {
                        0 => Some("sheet: 30, kind 0 alone"),
                        5 => Some("sheet: 30, kind 5 alone"),
                        kind if (1..=4).contains(&(kind & 0xff)) => {
                            Some("sheet: 30, a kind that is good in its last byte")
                        }
                        kind if (1..=4).contains(&kind.swap_bytes()) => {
                            Some("sheet: 30, a kind that is good the other way round")
                        }
                        _ => None,
                    },
                    Bad::Offset(k) if row(k, 8) & 0xff == 0 => {
                        Some("sheet: 30, a new offset whose last byte is 0")
                    }
                    Bad::Offset(k) => Some(match row(k, 0) {
                        RESIZE => "sheet: 30, a new offset of a resize",
                        _ => "sheet: 30, a new offset of a new entry",
                    }),
                    Bad::Size(k) if row(k, 12) & 0xff == 0 => {
                        Some("sheet: 30, a new size whose last byte is 0")
                    }
                    Bad::Size(k) => Some(match row(k, 0) {
                        MOVE => "sheet: 30, a new size of a move",
                        _ => "sheet: 30, a new size of a new entry",
                    }),
                    Bad::Path(k) => match row(k, 4) {
                        at if at == behind => {
                            Some("sheet: 30, a path right behind the last zero byte")
                        }
                        at if at as u64 == size => Some("sheet: 30, a path from the texts' end on"),
                        at if at as u64 == MOST => Some("sheet: 30, a path from 2^32 - 1 on"),
                        at if at as u64 > size => Some("sheet: 30, a path behind the texts' end"),
                        _ => Some("sheet: 30, a path before the texts' end"),
                    },
                    _ => None,
                });
                if let Bad::Path(k) = bad[0] {
                    let from =
                        texts.as_ptr() as usize - sheet.as_ptr() as usize + row(k, 4) as usize;
                    if sheet.get(from..).is_some_and(|rest| rest.contains(&0)) {
                        met.push("sheet: 30, a path with a zero byte behind the texts' end");
                    }
                }
            }
        }
        Ok(read) => {
            let row = |k: usize| (lines as usize + LINE * k) as u64;
            let place = |k: usize| {
                texts
                    + u64::from(u32::from_be_bytes(
                        sheet[row(k) as usize + 4..row(k) as usize + 8].try_into().unwrap(),
                    ))
            };
            let last = &sheet[texts as usize..(texts + size) as usize];
            let meet = |a: (u64, u64), b: (u64, u64)| a.0 < b.1 && b.0 < a.1;
            let all =
                || (0..read.len()).map(|k| (place(k), place(k) + read[k].path.len() as u64 + 1));
            let inside = all().enumerate().any(|(i, one)| {
                all().enumerate().any(|(j, two)| i != j && two.0 < one.0 && one.1 == two.1)
            });
            let places: Vec<u64> = all().map(|path| path.0).collect();
            let again = (1..places.len()).any(|k| places[..k].contains(&places[k]));
            let some = count > 0;
            let long = |length: usize| read.iter().any(|line| line.path.len() == length);
            let zero = last.iter().rposition(|byte| *byte == 0).map_or(0, |at| at as u64);
            let cases = [
                (count == 0, "sheet: no lines"),
                (count == 1, "sheet: one line"),
                (count == LINES, "sheet: 1,024 lines"),
                (some && lines == 0, "sheet: lines from byte 0 on"),
                (some && lines == 12, "sheet: lines from byte 12 on"),
                (some && lines == 15, "sheet: lines from byte 15 on"),
                (some && lines == 16, "sheet: lines right behind the header"),
                (some && lines % 4 != 0, "sheet: lines not at a multiple of four"),
                (some && lines_end == length, "sheet: lines up to the sheet's end"),
                (!some && lines == length, "sheet: no lines, at the sheet's end"),
                (!some && size == 0 && texts == length, "sheet: no texts, at the sheet's end"),
                (size > 0 && texts + size == length, "sheet: texts up to the sheet's end"),
                (
                    some && meet((lines, lines_end), (texts, texts + size)),
                    "sheet: lines over texts",
                ),
                (texts < 16 && size > 0, "sheet: texts over the header"),
                (all().any(|path| path.0 < 16), "sheet: a path in the header"),
                (
                    some && all().any(|path| meet(path, (lines, lines_end))),
                    "sheet: a path in the lines",
                ),
                (some && texts < lines, "sheet: texts before the lines"),
                (inside, "sheet: a path is the end of another"),
                (again, "sheet: two lines have one path"),
                (some && last.last() != Some(&0), "sheet: texts that nobody ends"),
                (places.contains(&(texts + zero)), "sheet: a path at the last zero byte"),
                (read.iter().any(|line| line.path.is_empty()), "sheet: an empty path"),
                (long(PATH - 1), "sheet: a path of 1,023 bytes"),
                (long(PATH), "sheet: a path of 1,024 bytes"),
                (long(PATH + 1), "sheet: a path of 1,025 bytes"),
                (long(PATH + 2), "sheet: a path of 1,026 bytes"),
            ];
            met.extend(cases.iter().filter(|(is, _)| *is).map(|(_, feature)| *feature));
        }
    }
    met
}

/// Of a line that was begun, with what became of it.
fn of_line(begun: &Begun) -> Vec<&'static str> {
    let Begun { line, before, found, number } = begun;
    let (tree, path) = (&before.tree, &line.path[..]);
    let mut met = vec![];
    let (front, name) = sheet_rules::cut(path);
    let units = || rules::units(path);
    let new = line.kind < MOVE;
    let ran = *number == 0;
    let cases = [
        (units().any(|unit| matches!(unit, [_, 0x5c])), "line: a path with a trail byte 0x5C"),
        (units().any(rules::stray), "line: a path with a lead byte without its trail"),
        (new && front.is_empty() && !path.contains(&b'/'), "line: no `/`, so in the root"),
        (new && front.is_empty() && path.starts_with(b"/"), "line: the only `/` is the first byte"),
        (new && front.contains(&b'/'), "line: cut at the last `/` of several"),
        (new && path.contains(&b'\\'), "line: a new entry's path with a byte 0x5C"),
        (new && path.ends_with(b"/"), "line: a new entry's path ends in `/`"),
        (new && front.ends_with(b"/"), "line: `//` before the name"),
        (ran && new && !front.is_empty(), "line: a new entry in a directory"),
        (ran && rules::components(line.sought()).contains(&&b".."[..]), "line: along `..`"),
        (ran && path.len() == PATH, "line: ran along 1,024 bytes"),
        (*number == 9 && path.len() == PATH + 1, "line: 9 for a path of 1,025 bytes"),
        (
            *number == 9 && path.len() > PATH && sheet_rules::lookup(tree, line.sought()).is_err(),
            "line: 9 for a path that leads nowhere",
        ),
        (
            *number == 17 && found.is_err() && new && rules::unsafe_name(name),
            "line: 17 on the way, and 13 is due too",
        ),
        (
            *number == 18 && new && rules::unsafe_name(name),
            "line: 18 on the way, and 13 is due too",
        ),
        (
            *number == 13 && found.is_ok_and(|found| !tree.entries[found].directory),
            "line: 13, and the parent is a file",
        ),
        (*number == 17 && found.is_ok(), "line: 17, the parent is a file"),
        (*number == 16 && path.is_empty(), "line: 16 for an empty path"),
    ];
    met.extend(cases.iter().filter(|(is, _)| *is).map(|(_, feature)| *feature));
    let Ok(found) = *found else { return met };
    let call = line.call(found);
    if *number == 9 {
        let past = New::of(tree, &call).is_some_and(|new| new.past_tree_limits());
        let words =
            New::of(tree, &call).is_some_and(|new| before.memory[0] < 4 * (new.entries + 2));
        met.push(match (past, words) {
            (true, _) => "line: 9 for a limit of the tree",
            (false, true) => "line: 9 for words, which the tree before had",
            (false, false) => "line: 9 for working bytes",
        });
    }
    if ran && keeps_size(tree, &call) {
        met.push("line: a resize to the present size");
    }
    met
}

/// Of a run: which line stopped it, and what came before.
fn of_run(ran: &Ran, given: &Given, opened: bool) -> Vec<&'static str> {
    let mut met = vec![];
    let lines = sheet_rules::header(&given.sheet).map_or(0, |header| header[0]) as usize;
    let above = given.account.is_some_and(|account| account.team as usize >= TEAMS);
    if ran.line == 0 && ran.number != 0 {
        let cases = [
            (ran.number == 30 && !opened, "sheet: 30, and the image does not open"),
            (ran.number == 30 && above, "sheet: 30, and the team is above 15"),
            (ran.number == 15 && lines == 0, "sheet: 15 with line 0, no lines"),
            (ran.number == 15 && lines > 0, "sheet: 15 with line 0, before the first"),
            (!opened && ran.number != 30 && lines == 0, "sheet: the number of opening, no lines"),
            (!opened && ran.number != 30 && lines > 0, "sheet: the number of opening"),
            (
                !opened && ran.number != 30 && above,
                "sheet: the number of opening, the team above 15",
            ),
        ];
        met.extend(cases.iter().filter(|(is, _)| *is).map(|(_, feature)| *feature));
        return met;
    }
    if ran.number == 0 {
        met.push(match lines {
            0 => "run: no lines, accepted",
            1 => "run: the only line ran",
            _ => "run: all of several lines ran",
        });
    } else {
        met.push(match ran.line as usize {
            _ if lines == 1 => "run: stopped at the only line",
            1 => "run: stopped at the first of several",
            line if line == lines => "run: stopped at the last of several",
            _ => "run: stopped between",
        });
    }
    if ran.line > 1 {
        met.push(match ran.number {
            9 => "run: 9 behind lines that ran",
            12 => "run: 12 behind lines that ran",
            13 => "run: 13 behind lines that ran",
            16 => "run: 16 behind lines that ran",
            17 => "run: 17 behind lines that ran",
            18 => "run: 18 behind lines that ran",
            19 => "run: 19 behind lines that ran",
            20 => "run: 20 behind lines that ran",
            21 => "run: 21 behind lines that ran",
            25 => "run: 25 behind lines that ran",
            26 => "run: 26 behind lines that ran",
            27 => "run: 27 behind lines that ran",
            28 => "run: 28 behind lines that ran",
            _ => "run: another number behind lines that ran",
        });
    }
    let first = ran.begun.first().map(|begun| &begun.before.tree);
    for (k, begun) in ran.begun.iter().enumerate() {
        met.extend(of_line(begun));
        let (Ok(found), Some(first)) = (begun.found, first) else { continue };
        if k > 0 && begun.number == 0 {
            let tree = &begun.before.tree;
            let alone = sheet_rules::lookup(first, begun.line.sought());
            met.push(match alone {
                Err(_) => "run: along a path that a line before it made",
                Ok(number) if number != found => {
                    "run: an entry whose number a line before it changed"
                }
                Ok(number) if tree.entries[number] != first.entries[number] => {
                    "run: an entry that a line before it changed"
                }
                Ok(_) => "run: an entry that was there as it is",
            });
        }
    }
    if ran.number == 0 && given.account.is_some() && !ran.begun.is_empty() {
        let taken = |record: Option<Record>, team: usize| record.unwrap().teams[team].taken;
        let account = given.account.unwrap();
        let team = account.team as usize;
        let cost = |tree: &Tree| tree.used() as i64;
        let last = rules::open(&ran.image, usize::MAX).unwrap();
        let all = cost(&last) - cost(&ran.begun[0].before.tree);
        let before = taken(Some(account.record), team) as i64;
        if taken(ran.record, team) as i64 != (before + all).max(0) {
            met.push("run: what is taken was 0 in between");
        }
    }
    met
}

// Asked and held ------------------------------------------------------------------------------

/// A sheet, and what it is run with.
#[derive(Clone)]
struct Given {
    sheet: Vec<u8>,
    memory: [usize; 2],
    account: Option<Account>,
}

/// Where in the batch its answers are.
struct At {
    answer: usize,
    record: Option<usize>,
    image: usize,
}

fn ask(lines: &mut Batch, name: &str, length: usize, given: &Given) -> At {
    lines.probe(format!("load {name}"));
    if let Some(account) = given.account {
        lines.probe(Take::set(account).line());
        lines.probe(format!("team {}", account.team));
    }
    lines.probe(format!("lend {} {}", given.memory[0], given.memory[1]));
    let answer = lines.probe(format!("sheet {}", hex(&given.sheet)));
    let record = given.account.map(|_| lines.probe("record".into()));
    let image = if length <= TOLD { format!("peek 0 {length}") } else { "hash".into() };
    let image = lines.probe(image);
    if given.account.is_some() {
        lines.probe("drop_record".into());
    }
    At { answer, record, image }
}

/// The answer of `hash`.
fn hash(image: &[u8]) -> String {
    let fnv = image.iter().fold(0xcbf2_9ce4_8422_2325_u64, |hash, byte| {
        (hash ^ u64::from(*byte)).wrapping_mul(0x100_0000_01b3)
    });
    format!("ok {fnv:016x} {}", image.len())
}

/// A line that both sides were asked for as a single call.
struct Single {
    case: Case,
    lookup: Option<Asked>,
    edit: Option<Asked>,
    /// What the path leads to by the second writing, and the image behind the line.
    found: Result<usize, u32>,
    hash: String,
}

/// Each line that was begun, on the image that the lines before it left.
fn ask_singles(run: &Run, lines: &mut Batch, ran: &Ran, given: &Given, name: &str) -> Vec<Single> {
    let mut singles = vec![];
    for (k, begun) in ran.begun.iter().enumerate() {
        let Begun { line, before, found, .. } = begun;
        let name = format!("{name}{k}a");
        let mut case = Case::new(Random::new(k as u64), before.image.clone(), name, &run.codec);
        // A game name without a zero byte the original does not open.
        let nameless = odd_name(case.image()) == Some(Class::NameWithoutZero);
        if case.mixed.is_some() || nameless || line.path.len() > PATH {
            continue;
        }
        case.load(lines, &run.place.join(&case.name));
        let sought = Call::Lookup(0, line.sought().to_vec());
        let lookup = ask_look_with(lines, 0, &mut case, sought, given.memory, None);
        let edit = found.ok().map(|found| {
            let take = before.account.map(Take::set);
            ask_edit_with(lines, 0, &mut case, line.call(found), given.memory, take)
        });
        let next = ran.begun.get(k + 1).map(|next| &next.before.image).unwrap_or(&ran.image);
        let found = *found;
        singles.push(Single { case, lookup: Some(lookup), edit, found, hash: hash(next) });
    }
    singles
}

impl Run {
    fn report_sheet(&mut self, what: &str, image: &[u8], given: &Given, ours: &str, due: &str) {
        let mut lines = vec![];
        if !self.over() {
            lines = image_lines(image);
            if let Some(account) = given.account {
                lines.push(Take::set(account).line());
                lines.push(format!("team {}", account.team));
            }
            lines.push(format!("lend {} {}", given.memory[0], given.memory[1]));
        }
        let call = format!("sheet {}", hex(&given.sheet));
        self.fault(what, &lines, &call, "", ours, due);
    }

    /// The answers to a sheet, held to the second writing; true if all is well.
    fn hold_sheet(
        &mut self,
        image: &[u8],
        opened: bool,
        given: &Given,
        ran: &Ran,
        at: &At,
        probe: &[String],
    ) -> bool {
        let due = ran.answer();
        if probe[at.answer] != due {
            self.report_sheet("sheet: Counter's answer", image, given, &probe[at.answer], &due);
            return false;
        }
        if let (Some(told), Some(record)) = (at.record, ran.record) {
            let due = format!("ok {record}");
            if probe[told] != due {
                self.report_sheet("the record behind a sheet", image, given, &probe[told], &due);
                return false;
            }
        }
        let told =
            if image.len() <= TOLD { format!("ok {}", hex(&ran.image)) } else { hash(&ran.image) };
        if probe[at.image] != told {
            self.report_sheet("the image behind a sheet", image, given, &probe[at.image], &told);
            return false;
        }
        self.count_answer("sheet", due.rsplit_once(' ').map_or("ok", |(number, _)| number));
        self.met(of_layout(&given.sheet));
        self.met(of_run(ran, given, opened));
        true
    }

    /// Each line as the single call, by both sides.
    fn hold_singles(
        &mut self,
        singles: &[Single],
        given: &Given,
        probe: &[String],
        oracle: &[String],
    ) -> bool {
        for single in singles {
            let case = &single.case;
            let asked = single.lookup.iter().chain(&single.edit);
            for asked in asked {
                if !self.hold(case, asked, probe, oracle) {
                    return false;
                }
            }
            if let Some((told, due)) = single.wrong(probe) {
                let what = "a line of a sheet is not its single call";
                self.report_sheet(what, case.image(), given, &told, &due);
                return false;
            }
            self.met(vec![match single.edit.is_some() {
                true => "run: a line whose edit both sides were asked for",
                false => "run: a line whose path alone both sides were asked for",
            }]);
        }
        true
    }

    /// Sheets on an image, each of them by itself.
    fn each_sheet(&mut self, image: &[u8], all: &[Given]) {
        self.counts.images += 1;
        let opened = rules::open(image, usize::MAX).is_ok();
        self.counts.refused_images += u64::from(!opened);
        let path = self.place.join("sheet");
        std::fs::write(&path, image).unwrap();
        let mut lines = Batch::default();
        lines.probe(format!("image {}", path.display()));
        lines.probe("save sheet".into());
        self.ask(&lines);
        for part in all.chunks(256) {
            let (mut lines, mut asked) = (Batch::default(), vec![]);
            for given in part {
                let at = ask(&mut lines, "sheet", image.len(), given);
                let ran = sheet_rules::run(&given.sheet, image, given.account, given.memory);
                asked.push((given, ran, at));
            }
            let (probe, _) = self.ask(&lines);
            for (given, ran, at) in &asked {
                let opens = rules::open(image, given.memory[0]).is_ok();
                self.hold_sheet(image, opens, given, ran, at, &probe);
                if self.over() {
                    return;
                }
            }
        }
    }

    /// A sheet on an image, and each of its lines as a single call.
    fn each_line(&mut self, image: &[u8], given: &Given) {
        self.each_sheet(image, std::slice::from_ref(given));
        if self.over() {
            return;
        }
        let ran = sheet_rules::run(&given.sheet, image, given.account, given.memory);
        let mut lines = Batch::default();
        let singles = ask_singles(self, &mut lines, &ran, given, "line");
        let (probe, oracle) = self.ask(&lines);
        self.hold_singles(&singles, given, &probe, &oracle);
    }
}

impl Single {
    /// What the probe told, and what it had to by the second writing.
    fn wrong(&self, probe: &[String]) -> Option<(String, String)> {
        let lookup = self.lookup.as_ref()?;
        let due = match self.found {
            Ok(number) => format!("ok {number}"),
            Err(number) => format!("err {number}"),
        };
        if probe[lookup.probe] != due {
            return Some((probe[lookup.probe].clone(), due));
        }
        let (ours, _, _) = self.edit.as_ref()?.hashes?;
        (probe[ours] != self.hash).then(|| (probe[ours].clone(), self.hash.clone()))
    }
}

// What is fed ---------------------------------------------------------------------------------

fn line(kind: u32, path: &[u8], number: u32) -> Line {
    let (offset, size) = match kind {
        MOVE => (number, 0),
        RESIZE => (0, number),
        _ => (0, 0),
    };
    Line { kind, path: path.to_vec(), offset, size }
}

fn amply(sheet: Vec<u8>) -> Given {
    Given { sheet, memory: [64, 0x400], account: None }
}

/// Every header of small numbers over a few bytes, every number of a line and every path offset at a
/// boundary, and every length of a sheet.
fn layouts(run: &mut Run) {
    let image = small_master();
    let mut all = vec![];
    let lines = [line(FILE, b"b", 0), line(RESIZE, b"a", 0x80)];
    let body = sheet_of(&lines);
    let length = body.len() as u32;
    for length in 0..body.len() {
        all.push(amply(body[..length].to_vec()));
    }
    let with = |header: [u32; 4]| amply([words(&header), body[HEADER..].to_vec()].concat());
    let places: Vec<u32> = (0..=length + 1).collect();
    for count in 0..=3 {
        for at in &places {
            for (texts, size) in [(48, 4), (0, length), (16, 0), (48, 2), (16, 36)] {
                all.push(with([count, *at, texts, size]));
            }
        }
    }
    for texts in &places {
        for size in &places {
            all.push(with([2, 16, *texts, *size]));
            all.push(with([1, 12, *texts, *size]));
        }
    }
    let outer = [0, 1, 2, 4, 15, 16, 17, 48, length - 1, length, length + 1];
    let far = [1023, 1024, 1025, 1 << 16, (1 << 28) - 1, 1 << 28, (1 << 28) + 2, 1 << 31];
    let last = [u32::MAX - 47, u32::MAX - 15, u32::MAX - 1, u32::MAX];
    let numbers: Vec<u32> = outer.into_iter().chain(far).chain(last).collect();
    for count in &numbers {
        for at in &numbers {
            for texts in &numbers {
                all.push(with([*count, *at, *texts, 4]));
                all.push(with([*count, 16, *texts, *at]));
            }
        }
    }
    run.each_sheet(&image, &all);
    if run.over() {
        return;
    }
    // The numbers of one line, before and behind a good one.
    let (mut all, texts) = (vec![], b"b\0a\0\0d".to_vec());
    let mut kinds = vec![0, 1, 2, 3, 4, 5, 6, 255, 256, 1 << 31, u32::MAX];
    kinds.extend(
        (1..=4).flat_map(|kind| [kind << 8, kind << 16, kind << 24, kind | 256, kind | 1 << 31]),
    );
    let fields = [0, 1, 0x80, 0x700, 1 << 8, 1 << 16, 1 << 24, 1 << 31, u32::MAX];
    for kind in kinds {
        for at in [0, 1, 2, 3, 4, 5, 6, 7, 255, 256, 1 << 31, u32::MAX - 1, u32::MAX] {
            for offset in fields {
                for size in fields {
                    if kind > 6 && offset > 1 && size > 1 {
                        continue;
                    }
                    let odd = words(&[kind, at, offset, size]);
                    let good = words(&[RESIZE, 2, 0, 0x100]);
                    let header = words(&[2, 16, 48, 6]);
                    let both = if at % 2 == 0 { [good, odd] } else { [odd, good] };
                    all.push(amply([header, both.concat(), texts.clone()].concat()));
                }
            }
        }
    }
    run.each_sheet(&image, &all);
}

/// Every short path of each kind, names of every byte, of pairs and of three bytes, and paths around 1,024
/// bytes.
fn paths(run: &mut Run) {
    let mut all = vec![];
    for path in all_texts(b"ab./\\\x83:\x01", 4) {
        for kind in DIRECTORY..=RESIZE {
            let number = if kind == MOVE { 0x800 } else { 0x20 };
            all.push(amply(sheet_of(&[line(kind, &path, number)])));
        }
    }
    let bytes: Vec<u8> = (1..=255).collect();
    for (i, name) in all_texts(&bytes, 2).into_iter().enumerate() {
        let kind = if i % 2 == 0 { DIRECTORY } else { FILE };
        let front: &[u8] = [&b""[..], b"a/", b"/"][i % 3];
        all.push(amply(sheet_of(&[line(kind, &[front, &name].concat(), 0)])));
    }
    for path in all_texts(b"\x83\x5c\x2f\xb1\xe0\x40a", 5) {
        all.push(amply(sheet_of(&[line(FILE, &path, 0), line(RESIZE, &path, 0)])));
    }
    let mut roomy = nested_master();
    set_word(&mut roomy, 0x440 + 12 * 4 + 4, 0x600);
    run.each_sheet(&roomy, &all);
    if run.over() {
        return;
    }
    let mut all = vec![];
    let mut r = Random::new(7);
    for length in PATH - 4..PATH + 5 {
        for end in [
            &b"x"[..],
            b"a/x",
            b"a/b",
            b"q/x",
            b"ab",
            b":",
            b"a/",
            b"\x83\x5c",
            b"\x83/x",
            b"../x",
            b"",
        ] {
            for kind in DIRECTORY..=RESIZE {
                all.push(amply(sheet_of(&[line(kind, &padded(&mut r, end, length), 0)])));
                let front = [end, &b"/".repeat(length - end.len())[..]].concat();
                all.push(amply(sheet_of(&[line(FILE, b"y", 0), line(kind, &front, 0)])));
            }
        }
        all.push(amply(sheet_of(&[line(FILE, &vec![b'n'; length], 0)])));
    }
    let ample = all.into_iter().map(|given| Given { memory: AMPLE, ..given });
    run.each_sheet(&roomy, &ample.collect::<Vec<_>>());
}

/// 1,023 to 1,025 lines; all of them one edit, lists that are made up, and with the bad one anywhere. Each
/// line of one is asked for by itself.
fn counts(run: &mut Run) {
    let image = small_master();
    let mut all = vec![];
    let same = line(RESIZE, b"a", 0x100);
    let account = Some(with_count(0x1_0000, 7, 3));
    let mut r = Random::new(5);
    for count in [1022, 1023, 1024, 1025, 1026, 1279, 2048] {
        let lines = vec![same.clone(); count];
        for sheet in [sheet_of(&lines), laid_out(&mut r, &lines).sheet] {
            all.push(Given { account, ..amply(sheet.clone()) });
            all.push(Given { memory: [15, 0], ..amply(sheet) });
        }
        let mut layout = plain(&vec![same.clone(); count.min(1024)]);
        layout.set(0, count as u32);
        all.push(amply(layout.sheet));
    }
    for at in [0, 1, 511, 1022, 1023] {
        for other in [line(5, b"a", 0), line(RESIZE, b"q", 0), line(MOVE, b"a", 0x580)] {
            let mut lines = vec![same.clone(); 1024];
            lines[at] = other;
            all.push(Given { account, ..amply(sheet_of(&lines)) });
        }
    }
    run.each_sheet(&image, &all);
    if run.over() {
        return;
    }
    let mut image = small_master();
    image.resize(0x1_0000, 0x5a);
    set_word(&mut image, 0x434, 0x1_0000);
    set_word(&mut image, 0x450, 0x6000);
    let stage = Stage::open(&image, None, AMPLE).unwrap();
    let lines = planned_long(&mut r, &stage);
    let given = Given { sheet: sheet_of(&lines), memory: AMPLE, account };
    run.each_line(&image, &given);
}

/// 1,024 lines that all run: new entries at first, then moves and resizes.
fn planned_long(r: &mut Random, stage: &Stage) -> Vec<Line> {
    let mut stage = Stage { account: None, ..stage.clone() };
    let mut lines = vec![];
    while lines.len() < LINES as usize {
        let tree = &stage.tree;
        let call = match lines.len() {
            0..200 => {
                let name = format!("n{}", lines.len()).into_bytes();
                let parent = calls::entry_of(r, tree, true);
                if r.chance(70) {
                    Call::InsertFile(parent, name)
                } else {
                    Call::InsertDirectory(parent, name)
                }
            }
            _ if r.chance(50) => steps::edit(r, tree, 0),
            _ => steps::edit(r, tree, 1),
        };
        let line = line_for(r, tree, &call);
        let found = stage.found(&line);
        if found.is_ok_and(|found| stage.make(&line.call(found)).is_ok()) {
            lines.push(line);
        }
    }
    lines
}

/// Lists of lines on small images: limits, shares, counts, used bytes and memory that end at each of them;
/// each line is asked for by itself.
fn small(run: &mut Run) {
    for (i, image) in images().into_iter().enumerate() {
        let mut r = Random::new(i as u64);
        let stage = Stage::open(&image, None, AMPLE).unwrap();
        for _ in 0..6 {
            let lines = planned(&mut r, &stage, 5);
            let given = Given { sheet: sheet_of(&lines), memory: AMPLE, account: None };
            run.each_line(&image, &given);
            if run.over() {
                return;
            }
            let mut all = vec![];
            for _ in 0..150 {
                let (account, memory) = beside(&mut r, &stage, &lines);
                all.push(Given { sheet: given.sheet.clone(), memory, account });
            }
            // Memory from too little for opening to enough for all lines.
            let least = 4 * (stage.tree.entries.len() + 2);
            for words in least - 2..least + 24 {
                all.push(Given { memory: [words, 0x400], ..given.clone() });
            }
            for bytes in 0..2 * stage.tree.written() as usize + 20 {
                all.push(Given { memory: [64, bytes], ..given.clone() });
            }
            run.each_sheet(&image, &all);
            if run.over() {
                return;
            }
        }
        // A stated maximum around each table on the way.
        let lines = planned(&mut r, &stage, 5);
        let sheet = sheet_of(&lines);
        for maximum in 0..stage.tree.written() as u32 + 90 {
            let mut image = image.clone();
            set_word(&mut image, MAXIMUM, maximum);
            run.each_sheet(&image, &[Given { sheet: sheet.clone(), memory: AMPLE, account: None }]);
            if run.over() {
                return;
            }
        }
    }
}

/// Sheets that are good and sheets that are none, on images that do not open, and with teams above 15.
fn orders(run: &mut Run) {
    let refused: [(usize, &[u8]); 9] = [
        (0x1c, b"\0"),
        (0x424, b"\0\0\x04\x3f"),
        (0x434, b"\0\0\x20\x01"),
        (0x440, b"\0"),
        (0x440, b"\x02"),
        (0x448, b"\0\0\0\0"),
        (0x459, b"a"),
        (0x458, b":"),
        (0x450, b"\0\0\x04\x59"),
    ];
    let mut images = vec![vec![], small_master()[..0x43f].to_vec(), small_master()];
    for (at, bytes) in refused {
        let mut image = small_master();
        image[at..at + bytes.len()].copy_from_slice(bytes);
        images.push(image);
    }
    let good = line(FILE, b"b", 0);
    let lists = [
        vec![],
        vec![good.clone()],
        vec![line(FILE, b"a", 0)],
        vec![line(FILE, &[b'a'; 1025], 0)],
        vec![good.clone(), line(5, b"c", 0)],
        vec![line(FILE, b"a", 0), line(0, b"c", 0)],
    ];
    let full = with_count(MOST, 0, MOST);
    let mut r = Random::new(3);
    for image in images {
        let mut all = vec![];
        for lines in &lists {
            let sheet = sheet_of(lines);
            for sheet in [sheet[..sheet.len() - 1].to_vec(), vec![], sheet] {
                for memory in [[64, 0x400], [16, 26], [15, 26], [0, 0], [16, 0]] {
                    all.push(Given { sheet: sheet.clone(), memory, account: None });
                    for team in [0, 3, 15, 16, 17, 1 << 16, 1 << 31, u32::MAX] {
                        let account = Some(Account { team, ..full });
                        all.push(Given { sheet: sheet.clone(), memory, account });
                    }
                    let account = Some(teams::any(&mut r));
                    all.push(Given { sheet: sheet.clone(), memory, account });
                }
            }
        }
        run.each_sheet(&image, &all);
        if run.over() {
            return;
        }
    }
}

/// Lines that pass a limit of the tree: entries, texts, depth.
fn limits(run: &mut Run) {
    let (file, directory) = (line(FILE, b"x", 0), line(DIRECTORY, b"x", 0));
    for (image, lines) in [
        (crowd(16_383, 1, 2, 0x40_000), [file.clone(), line(FILE, b"y", 0), line(RESIZE, b"x", 0)]),
        (crowd(16_384, 1, 2, 0x40_000), [line(RESIZE, b"n", 0), directory.clone(), file.clone()]),
        (
            crowd(16_384, 64, 65, 0x120_000),
            [line(MOVE, &[b'n'; 64], 7), line(RESIZE, b"n", 0), file],
        ),
    ] {
        let table = rules::open(&image, usize::MAX).unwrap().written() as usize;
        for memory in
            [[65_544, 2_097_152], [65_544, table], [65_544, table + 14], [65_540, table + 14]]
        {
            let given = Given { sheet: sheet_of(&lines), memory, account: None };
            run.each_line(&image, &given);
            if run.over() {
                return;
            }
        }
    }
    for depth in [62, 63, 64] {
        let image = chain(depth, false);
        let deep = vec![b"a".to_vec(); depth].join(&b'/');
        let in_it = |name: &[u8]| [&deep[..], b"/", name].concat();
        let lines = [
            line(DIRECTORY, &in_it(b"x"), 0),
            line(FILE, &in_it(b"x/f"), 0),
            line(DIRECTORY, &in_it(b"x/y"), 0),
            line(DIRECTORY, &in_it(b"x/y/z"), 0),
        ];
        for count in 1..=4 {
            let given = Given { sheet: sheet_of(&lines[..count]), memory: AMPLE, account: None };
            run.each_line(&image, &given);
            if run.over() {
                return;
            }
        }
    }
}

// Random images -------------------------------------------------------------------------------

/// A random image under way.
struct Walk {
    r: Random,
    image: Vec<u8>,
    name: String,
}

/// Sheets of one image as they are asked in a batch; the first is that by which the image goes on.
struct Group {
    walk: usize,
    stage: Stage,
    all: Vec<(Given, Ran, At)>,
    singles: Vec<Single>,
}

fn random(run: &mut Run, seed: u64, images: u64) {
    let (mut begun, mut waves) = (0, 0);
    while begun < images && !run.over() {
        let mut walks = vec![];
        while walks.len() < WAVE && begun < images {
            let mut r = Random::new(seed.wrapping_add(begun.wrapping_mul(0x9e6c_63d0_876a_9a47)));
            let image =
                if r.chance(8) { masters::damaged(&mut r) } else { masters::master(&mut r) };
            let name = format!("s{}a", walks.len());
            let case = Case::new(r.clone(), image, name.clone(), &run.codec).with_maximum();
            let (opens, image) = (case.opened.is_ok(), case.into_image());
            begun += 1;
            if !opens {
                refuses(run, &mut r, &image);
                continue;
            }
            run.counts.images += 1;
            walks.push(Walk { r, image, name });
        }
        for round in 0..ROUNDS {
            if run.over() {
                return;
            }
            step(run, &mut walks, round);
        }
        waves += 1;
        if waves % 10 == 0 {
            eprintln!("{begun} images, {} calls", run.counts.total());
        }
    }
}

/// Sheets on an image that does not open.
fn refuses(run: &mut Run, r: &mut Random, image: &[u8]) {
    let tree = Stage::open(&small_master(), None, AMPLE).unwrap().tree;
    let mut all = vec![];
    for _ in 0..REFUSED {
        let count = some(r).min(4);
        let lines: Vec<Line> = (0..count).map(|_| any_line(r, &tree)).collect();
        let mut layout = laid_out(r, &lines);
        if r.chance(30) {
            damage(r, &mut layout);
        }
        let account = r.chance(50).then(|| teams::any(r));
        let memory = [*r.pick(&[400, 400, 16, 15, 0]), r.below(64)];
        all.push(Given { sheet: layout.sheet, memory, account });
    }
    run.each_sheet(image, &all);
}

/// Sheets for an image: one that is planned for it, and the same with other memory and records, laid out
/// otherwise, damaged, in another order, or another one.
fn group_of(r: &mut Random, stage: &Stage) -> Vec<Given> {
    let count = some(r);
    let lines = planned(r, stage, count);
    let layout = laid_out(r, &lines);
    let (account, memory) = if r.chance(40) { beside(r, stage, &lines) } else { (None, AMPLE) };
    let mut all = vec![Given { sheet: layout.sheet.clone(), memory, account }];
    while all.len() < AGAIN {
        let (account, memory) = beside(r, stage, &lines);
        let sheet = match r.below(8) {
            0 | 1 => layout.sheet.clone(),
            2 => laid_out(r, &lines).sheet,
            3 => {
                let mut lines = lines.clone();
                if lines.len() > 1 {
                    let (i, j) = (r.below(lines.len()), r.below(lines.len()));
                    lines.swap(i, j);
                }
                in_the_header(r, &lines).unwrap_or_else(|| plain(&lines)).sheet
            }
            4 => {
                // One short line more, so that lines may begin in the header.
                let short = match r.below(4) {
                    0 => line(MOVE, b"a", any_number(r)),
                    1 => line(RESIZE, b"a", r.below(0x40) as u32),
                    2 => line(FILE, b"z", 0),
                    _ => line(RESIZE, b"", 0),
                };
                let more = if r.chance(70) { vec![] } else { lines.clone() };
                let lines = [vec![short], more].concat();
                in_the_header(r, &lines).unwrap_or_else(|| plain(&lines)).sheet
            }
            _ => {
                let mut damaged = laid_out(r, &lines);
                for _ in 0..*r.pick(&[1, 1, 1, 1, 2, 3]) {
                    damage(r, &mut damaged);
                }
                damaged.sheet
            }
        };
        all.push(Given { sheet, memory, account });
    }
    all
}

fn step(run: &mut Run, walks: &mut [Walk], round: usize) {
    let (mut lines, mut groups) = (Batch::default(), vec![]);
    for (i, walk) in walks.iter_mut().enumerate() {
        let Ok(stage) = Stage::open(&walk.image, None, [usize::MAX; 2]) else { unreachable!() };
        let path = run.place.join(&walk.name);
        std::fs::write(&path, &walk.image).unwrap();
        lines.probe(format!("image {}", path.display()));
        lines.probe(format!("save {}", walk.name));
        let mut all = vec![];
        for given in group_of(&mut walk.r, &stage) {
            let ran = sheet_rules::run(&given.sheet, &walk.image, given.account, given.memory);
            let at = ask(&mut lines, &walk.name, walk.image.len(), &given);
            all.push((given, ran, at));
        }
        let mut singles = vec![];
        if (i + round) % 3 == 0 {
            let (given, ran, _) = &all[0];
            singles = ask_singles(run, &mut lines, ran, given, &format!("l{i}x"));
        }
        groups.push(Group { walk: i, stage, all, singles });
    }
    let (probe, oracle) = run.ask(&lines);
    for group in groups {
        let image = &walks[group.walk].image;
        for (given, ran, at) in &group.all {
            let opens = given.memory[0] >= 4 * (group.stage.tree.entries.len() + 2);
            run.hold_sheet(image, opens, given, ran, at, &probe);
            if run.over() {
                return;
            }
        }
        let (given, ran, _) = &group.all[0];
        run.hold_singles(&group.singles, given, &probe, &oracle);
        if run.over() {
            return;
        }
        run.counts.states += 1;
        let image = ran.image.clone();
        walks[group.walk].image = image;
    }
}

/// Edit sheets: their bytes, paths, counts and orders on small images, at the limits, and on random ones.
pub fn sheets(run: &mut Run, seed: u64, images: u64) {
    for part in [layouts, paths, orders, counts, small, limits] {
        if !run.over() {
            part(run);
        }
    }
    if !run.over() {
        random(run, seed, images.div_ceil(PART));
    }
}
