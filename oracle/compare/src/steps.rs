//! Moves and resizes in three calls, beside the single call that the original is asked for too: each
//! answer, record and image, the second call without the first, and zeros over any span.

use crate::calls::{self, Call, any_number, hex, unhex};
use crate::judge::{Account, record_after};
use crate::masters::{self, crowd};
use crate::random::Random;
use crate::records::{edits, images, with_count};
use crate::rules::{self, MAXIMUM, MOST, Tree, set_word};
use crate::run::{Asked, Batch, Case, Run, Take, WAVE, ask_again, ask_edit_with, image_lines};
use crate::step_rules::{Bytes, Parts};
use crate::teams;

/// A random image of the suite for so many of `random`.
const PART: u64 = 16;

/// Edits of each random image, moves and resizes by turns, and how often each is asked again, with another
/// record and team.
const ROUNDS: usize = 20;
const AGAIN: usize = 1;

/// Of an image that does not open: so many calls of each kind.
const REFUSED: usize = 20;

const KINDS: [&str; 5] = ["move_copy", "move_table", "resize_copy", "resize_table", "zero"];

/// The first call and the second for an edit: their names, and what they take.
fn parts_of(call: &Call) -> ([&'static str; 2], String) {
    match call {
        Call::Move(number, offset) => (["move_copy", "move_table"], format!("{number} {offset}")),
        Call::Resize(number, size) => (["resize_copy", "resize_table"], format!("{number} {size}")),
        _ => unreachable!(),
    }
}

/// Where in the batch the answers are: a call's, the record's and the whole image's behind it.
struct At {
    line: String,
    answer: usize,
    record: Option<usize>,
    image: usize,
}

/// What they have to be.
struct Due<'a> {
    answer: String,
    record: Option<String>,
    image: &'a Held,
}

/// An image, and as `peek` tells it.
struct Held {
    image: Vec<u8>,
    told: String,
}

impl Held {
    fn of(image: Vec<u8>) -> Self {
        let told = format!("ok {}", hex(&image));
        Self { image, told }
    }
}

/// The three calls, and the second without the first.
struct Three {
    copy: At,
    table: At,
    span: (u32, u32),
    zero: At,
    hash: usize,
    alone: At,
}

/// A span zeroed before the edit, behind the copy or behind the table.
struct Zero {
    state: usize,
    span: (u32, u32),
    words: usize,
    at: At,
}

/// An edit, asked with one record or more, whole and in three calls.
struct Group {
    case: usize,
    parts: Option<Parts>,
    each: Vec<(Asked, Three)>,
    zeros: Vec<Zero>,
    /// The call is one of an earlier image.
    later: bool,
}

fn ask(lines: &mut Batch, line: String, takes: bool, length: usize) -> At {
    let answer = lines.probe(line.clone());
    let record = takes.then(|| lines.probe("record".into()));
    At { line, answer, record, image: lines.probe(format!("peek 0 {length}")) }
}

/// Names that the images behind the copy and behind the table are kept under.
fn states(name: &str) -> [String; 3] {
    [name.into(), format!("{name}1"), format!("{name}2")]
}

fn ask_three(lines: &mut Batch, case: &Case, asked: &Asked, span: (u32, u32), keep: bool) -> Three {
    let (names, given) = parts_of(&asked.call);
    let [copy, table] = names.map(|name| format!("{name} {given}"));
    let (length, takes) = (case.image().len(), asked.taken.is_some());
    let begin = |lines: &mut Batch| {
        lines.probe(format!("load {}", case.name));
        if let Some(taken) = &asked.taken {
            lines.probe(Take::set(taken.account).line());
            lines.probe(format!("team {}", taken.account.team));
        }
        lines.probe(format!("lend {} {}", asked.words, asked.bytes));
    };
    let [_, behind_copy, behind_table] = states(&case.name);
    begin(lines);
    let copy = ask(lines, copy, takes, length);
    if keep {
        lines.probe(format!("save {behind_copy}"));
    }
    let behind = ask(lines, table.clone(), takes, length);
    if keep {
        lines.probe(format!("save {behind_table}"));
    }
    let zero = ask(lines, format!("zero {} {}", span.0, span.1), takes, length);
    let hash = lines.probe("hash".into());
    begin(lines);
    let alone = ask(lines, table, takes, length);
    lines.probe("drop_record".into());
    Three { copy, table: behind, span, zero, hash, alone }
}

fn ask_zero(
    lines: &mut Batch,
    case: &Case,
    state: usize,
    span: (u32, u32),
    [words, bytes]: [usize; 2],
) -> Zero {
    lines.probe(format!("load {}", states(&case.name)[state]));
    lines.probe(format!("lend {words} {bytes}"));
    let at = ask(lines, format!("zero {} {}", span.0, span.1), false, case.image().len());
    Zero { state, span, words, at }
}

/// An edit of an image that opens, with these records: whole, in three calls, and the second alone.
fn ask_group(
    lines: &mut Batch,
    (i, case): (usize, &mut Case),
    call: Call,
    memory: [usize; 2],
    account: Option<Account>,
    again: usize,
) -> Group {
    let tree = case.opened.clone().unwrap();
    let parts = Parts::of(&tree, &call);
    let first = ask_edit_with(lines, i, case, call, memory, account.map(Take::set));
    let mut asked = vec![];
    for _ in 0..again {
        asked.push(ask_again(lines, case, &first));
    }
    asked.insert(0, first);
    let spans = asked.iter().map(|_| match &parts {
        Some(parts) => parts.span(),
        None => span(&mut case.aside, &tree, None),
    });
    let spans: Vec<_> = spans.collect();
    let each = asked.into_iter().zip(spans).enumerate();
    let each = each.map(|(k, (asked, span))| {
        let three = ask_three(lines, case, &asked, span, k == 0);
        (asked, three)
    });
    Group { case: i, parts, each: each.collect(), zeros: vec![], later: false }
}

// Spans ---------------------------------------------------------------------------------------

fn cut(number: i64) -> u32 {
    number.clamp(0, MOST as i64) as u32
}

/// The number, or one beside it.
fn near(r: &mut Random, number: u64) -> i64 {
    number as i64 + *r.pick(&[0, 0, 0, -1, 1])
}

/// A span that is just free or just not, at random.
fn span(r: &mut Random, tree: &Tree, parts: Option<&Parts>) -> (u32, u32) {
    let marks = calls::marks(tree);
    let between = |from: i64, to: i64| (cut(from), cut(to - from));
    let free = match tree.free.is_empty() {
        true => (tree.disc_end, 0),
        false => *r.pick(&tree.free),
    };
    let (at, end) = (free.0, free.0 + free.1);
    match r.below(13) {
        0 => {
            let mark = *r.pick(&marks);
            (if r.chance(50) { any_number(r) } else { cut(near(r, mark)) }, 0)
        }
        1..=3 => between(near(r, at), near(r, end)),
        4 if free.1 > 0 => {
            let from = at + r.next() % free.1;
            between(from as i64, (from + 1 + r.next() % (end - from)) as i64)
        }
        // Over whatever lies between two regions.
        5 | 6 if tree.free.len() > 1 => {
            let i = r.below(tree.free.len() - 1);
            let j = if r.chance(70) { i + 1 } else { r.within(i + 1, tree.free.len() - 1) };
            let ((first, size), (last, more)) = (tree.free[i], tree.free[j]);
            let from = first + r.next() % size;
            between(from as i64, (last + 1 + r.next() % more) as i64)
        }
        7 => between(near(r, at), near(r, tree.disc_end)),
        // The end is 2^32, one beside it, or wraps to a place that may be free.
        8 if at > 0 => {
            let from = at + r.next() % free.1.max(1);
            let wrapped = r.next() % tree.disc_end;
            let to = (1 << 32) + *r.pick(&[0, 0, at + 1, end, wrapped]);
            between(from as i64, near(r, to))
        }
        9 => (any_number(r), any_number(r)),
        10 => {
            let (from, to) = (*r.pick(&marks), *r.pick(&marks));
            between(near(r, from.min(to)), near(r, from.max(to)))
        }
        _ => match parts {
            Some(parts) => {
                let (from, size) = *r.pick(&[parts.from, parts.to]);
                between(near(r, from), near(r, from + size))
            }
            None => between(near(r, at), near(r, end)),
        },
    }
}

/// What stands out about a span.
fn of_span(bytes: &Bytes, (offset, size): (u32, u32), accepted: bool) -> Vec<&'static str> {
    let tree = &bytes.tree;
    let (from, end) = (offset as u64, offset as u64 + size as u64);
    let free = |at: u64| bytes.free(at) == Some(true);
    let used = |at: u64| bytes.free(at) == Some(false);
    let first_used = || (from..end.min(tree.disc_end)).find(|at| used(*at));
    let ends = size > 1 && free(from) && free(end - 1);
    let files = || tree.entries.iter().filter(|entry| !entry.directory && entry.size > 0);
    let own = files().any(|file| (file.offset, file.size) == (offset, size));
    let in_program =
        |at: u64| tree.behind().is_some_and(|(start, n)| (start..start + n).contains(&at));
    let cases: &[(bool, &'static str)] = match (accepted, size) {
        (true, 0) => &[
            (used(from), "zero: an empty span at a used byte"),
            (
                from > 0 && used(from - 1) && free(from),
                "zero: an empty span where free space begins",
            ),
            (from >= tree.disc_end && size == 0, "zero: an empty span past the disc end"),
            (offset == u32::MAX, "zero: an empty span at 2^32 - 1"),
        ],
        (true, _) => &[
            (tree.free.contains(&(from, size as u64)), "zero: a whole free region"),
            (end == tree.disc_end, "zero: up to the disc end"),
            (used(from - 1), "zero: right behind a used byte"),
            (used(end), "zero: right before a used byte"),
            (free(from - 1) && free(end), "zero: inside a free region"),
            (size == 1, "zero: one byte"),
        ],
        (false, _) => &[
            (
                size > 1 && used(from) && free(from + 1) && ends_free(bytes, from + 1, end),
                "zero: 29, one used byte in front",
            ),
            (
                size > 1 && used(end - 1) && ends_free(bytes, from, end - 1),
                "zero: 29, one used byte at the end",
            ),
            (
                end == tree.disc_end + 1 && ends_free(bytes, from, end - 1),
                "zero: 29, one byte past the disc end",
            ),
            (end == 1 << 32, "zero: 29, an end of 2^32"),
            (end > 1 << 32, "zero: 29, an end above 2^32"),
            (
                end > 1 << 32 && free(from) && free((end - 1) % (1 << 32)),
                "zero: 29, and the end would wrap to a free byte",
            ),
            (
                ends && first_used().is_some_and(|at| !in_program(at)),
                "zero: 29, over two free regions with a file between",
            ),
            (
                ends && first_used().is_some_and(in_program),
                "zero: 29, over two free regions with the program between",
            ),
            (own, "zero: 29, a file's own place"),
            (from < tree.table_end(), "zero: 29, from a byte of table or header"),
            (from >= tree.disc_end, "zero: 29, wholly past the disc end"),
            (size == u32::MAX, "zero: 29, of 2^32 - 1 bytes"),
        ],
    };
    cases.iter().filter(|(met, _)| *met).map(|(_, feature)| *feature).collect()
}

/// Whether each of these bytes is free.
fn ends_free(bytes: &Bytes, from: u64, end: u64) -> bool {
    (from..end).all(|at| bytes.free(at) == Some(true))
}

/// What stands out about an edit that is accepted.
fn of_parts(tree: &Tree, parts: &Parts, call: &Call) -> Vec<&'static str> {
    let ((from, old), (to, new)) = (parts.from, parts.to);
    let kind = match call {
        Call::Move(..) if old == 0 => "steps: an empty file moved",
        Call::Move(..) => "steps: a file moved",
        _ if new == old => "steps: a resize to the present size",
        _ if new == 0 => "steps: a shrink to nothing",
        _ if new < old => "steps: a shrink",
        _ if old == 0 && parts.goes() => "steps: an empty file grows elsewhere",
        _ if parts.goes() => "steps: a growth elsewhere",
        _ => "steps: a growth where it is",
    };
    let mut met = vec![kind];
    let Some(table) = &parts.table else { return met };
    let (end, before) = (tree.fst_offset + table.len() as u64, tree.table_end());
    met.push(match end.cmp(&before) {
        std::cmp::Ordering::Less => "steps: the old table's tail zeroed",
        std::cmp::Ordering::Equal => "steps: a table as long as before",
        std::cmp::Ordering::Greater => "steps: a table longer than before",
    });
    let grows = end > before;
    let cases = [
        (grows && end == to && new > 0, "steps: a longer table up to the file's new place"),
        (
            grows && end == from && old > 0,
            "steps: a longer table up to the place that the file had",
        ),
        (
            parts.goes() && new > 0 && (from + old == to || to + new == from),
            "steps: right beside its old place",
        ),
        (to + new == tree.disc_end && new > 0, "steps: up to the disc end"),
    ];
    met.extend(cases.iter().filter(|(is, _)| *is).map(|(_, feature)| *feature));
    met
}

// Held to the rules ---------------------------------------------------------------------------

/// What is wrong with the answers to a call.
fn trouble(at: &At, due: &Due, probe: &[String]) -> Option<(&'static str, String)> {
    if probe[at.answer] != due.answer {
        return Some(("Counter's answer", due.answer.clone()));
    }
    if let (Some(record), Some(due)) = (at.record, &due.record)
        && probe[record] != *due
    {
        return Some(("the record behind a call", due.clone()));
    }
    (probe[at.image] != due.image.told).then(|| ("the image behind a call", String::new()))
}

struct Images {
    before: Held,
    /// Behind the copy, the table, the zeros, and the table without the copy.
    copied: Held,
    tabled: Held,
    zeroed: Held,
    alone: Held,
}

impl Images {
    /// Of an edit that is accepted.
    fn of(tree: &Tree, parts: &Parts, image: &[u8]) -> Self {
        let copied = parts.copied(image);
        let tabled = parts.tabled(tree, &copied);
        let (from, size) = parts.span();
        let mut zeroed = tabled.clone();
        zeroed[from as usize..(from + size) as usize].fill(0);
        let alone = parts.tabled(tree, image);
        let [before, copied, tabled, zeroed, alone] =
            [image.to_vec(), copied, tabled, zeroed, alone].map(Held::of);
        Self { before, copied, tabled, zeroed, alone }
    }

    /// Of one that is refused.
    fn same(image: &[u8]) -> Self {
        let [before, copied, tabled, zeroed, alone] =
            [(); 5].map(|()| Held { image: vec![], told: String::new() });
        let images = Self { before, copied, tabled, zeroed, alone };
        Self { before: Held::of(image.to_vec()), ..images }
    }
}

/// What is claimed of the cuts and of each call's own part, by the bytes behind the copy, the table, the zeros,
/// and the table alone.
fn wrong(
    tree: &Tree,
    parts: &Parts,
    before: &[u8],
    [copied, tabled, zeroed, alone]: [&[u8]; 4],
) -> Option<&'static str> {
    if [copied, tabled, zeroed, alone].map(|image| image.len()) != [before.len(); 4] {
        return Some("the image's length");
    }
    parts
        .wrong_copy(tree, before, copied)
        .or_else(|| parts.wrong_table(tree, copied, tabled, Some(zeroed)))
        .or_else(|| parts.wrong_table(tree, before, alone, None))
}

/// The same by what the probe told.
fn wrong_as_told(
    tree: &Tree,
    parts: &Parts,
    before: &[u8],
    three: &Three,
    probe: &[String],
) -> Option<&'static str> {
    let told = [&three.copy, &three.table, &three.zero, &three.alone];
    let images = told.map(|at| unhex(probe[at.image].strip_prefix("ok ").unwrap_or("")));
    let [copied, tabled, zeroed, alone] = &images;
    wrong(tree, parts, before, [copied, tabled, zeroed, alone])
}

struct Fault {
    what: String,
    lines: Vec<String>,
    call: String,
    ours: String,
    due: String,
}

impl Run {
    fn report(&mut self, case: &Case, fault: Fault) {
        let lines = match self.over() {
            true => vec![],
            false => [image_lines(case.image()), fault.lines].concat(),
        };
        self.fault(&fault.what, &lines, &fault.call, "", &fault.ours, &fault.due);
    }

    /// The three calls beside the single one that was held before; true if all is well.
    fn hold_three(
        &mut self,
        case: &Case,
        group: &Group,
        (asked, three): &(Asked, Three),
        images: &Images,
        probe: &[String],
    ) -> bool {
        let tree = case.opened.as_ref().unwrap();
        let single = &probe[asked.probe];
        let accepted = single == "ok";
        let taken = asked.taken.map(|taken| taken.account);
        let told = |record| format!("ok {record}");
        let before = taken.map(|account| told(account.record));
        let after = match taken {
            Some(account) if accepted => {
                record_after(tree, &asked.call, account).ok().and_then(Result::ok).map(told)
            }
            _ => before.clone(),
        };
        let Images { before: image, copied, tabled, zeroed, alone } = images;
        let [copied, tabled, alone] =
            [copied, tabled, alone].map(|behind| if accepted { behind } else { image });
        let span = group.parts.as_ref().map_or((0, 0), Parts::span);
        let second = match accepted {
            true => format!("ok {} {}", span.0, span.1),
            false => single.clone(),
        };
        let (third, at_last) = match case.opened_with(asked.words) {
            Err(refusal) => (format!("err {}", refusal.number), None),
            Ok(_) if accepted => ("ok".into(), None),
            Ok(_) => match Bytes::of(tree, image.image.clone()).zero(three.span) {
                Ok(after) => ("ok".into(), Some(Held::of(after))),
                Err(number) => (format!("err {number}"), None),
            },
        };
        let at_last = at_last.as_ref().unwrap_or(if accepted { zeroed } else { image });
        let due = |answer: &String, record: &Option<String>, image| Due {
            answer: answer.clone(),
            record: record.clone(),
            image,
        };
        let names = parts_of(&asked.call).0;
        let calls = [
            (names[0], &three.copy, due(single, &before, copied)),
            (names[1], &three.table, due(&second, &after, tabled)),
            ("zero", &three.zero, due(&third, &after, at_last)),
            (names[1], &three.alone, due(&second, &after, alone)),
        ];
        let mut lines = vec![];
        if let Some(account) = taken {
            lines.extend([Take::set(account).line(), format!("team {}", account.team)]);
        }
        lines.push(format!("lend {} {}", asked.words, asked.bytes));
        for (name, at, due) in &calls {
            let is_alone = std::ptr::eq(*at, &three.alone);
            if let Some((what, wanted)) = trouble(at, due, probe) {
                let parts = group.parts.as_ref().filter(|_| accepted);
                let why = parts
                    .and_then(|parts| wrong_as_told(tree, parts, &image.image, three, probe))
                    .filter(|_| what == "the image behind a call");
                let lines = if is_alone { lines[..lines.len() - 3].to_vec() } else { lines };
                let fault = Fault {
                    what: format!("{name}: {}", why.unwrap_or(what)),
                    lines,
                    call: at.line.clone(),
                    ours: probe[at.answer].clone(),
                    due: wanted,
                };
                self.report(case, fault);
                return false;
            }
            lines.push(at.line.clone());
            self.count_answer(name, &due.answer);
        }
        let whole = asked.hashes.map(|(ours, _, _)| &probe[ours]);
        if accepted && whole != Some(&probe[three.hash]) {
            let fault = Fault {
                what: "the three calls leave another image than the single call".into(),
                lines,
                call: String::new(),
                ours: probe[three.hash].clone(),
                due: whole.cloned().unwrap_or_default(),
            };
            self.report(case, fault);
            return false;
        }
        true
    }

    fn hold_zero(&mut self, case: &Case, zero: &Zero, bytes: &Bytes, probe: &[String]) -> bool {
        let opened = case.opened_with(zero.words);
        let after = match &opened {
            Ok(_) => bytes.zero(zero.span),
            Err(refusal) => Err(refusal.number),
        };
        let (answer, image) = match after {
            Ok(image) => ("ok".to_string(), image),
            Err(number) => (format!("err {number}"), bytes.image.clone()),
        };
        let due = Due { answer, record: None, image: &Held::of(image) };
        if let Some((what, wanted)) = trouble(&zero.at, &due, probe) {
            let fault = Fault {
                what: format!("zero: {what}"),
                lines: match zero.state {
                    0 => vec![format!("lend {} 0", zero.words)],
                    state => vec![format!("(behind call {state})")],
                },
                call: zero.at.line.clone(),
                ours: probe[zero.at.answer].clone(),
                due: wanted,
            };
            self.report(case, fault);
            return false;
        }
        self.count_answer("zero", &due.answer);
        if opened.is_ok() {
            self.met(of_span(bytes, zero.span, due.answer == "ok"));
        }
        true
    }

    /// The image before an edit, behind the copy, the table and the zeros, and behind the table alone; none
    /// of an edit that is refused, or if something is wrong.
    fn hold_group(
        &mut self,
        case: &Case,
        group: &Group,
        probe: &[String],
        oracle: &[String],
    ) -> Option<[Vec<u8>; 4]> {
        let tree = case.opened.as_ref().unwrap();
        for (asked, _) in &group.each {
            if !self.hold(case, asked, probe, oracle) {
                return None;
            }
        }
        let accepted = |asked: &Asked| probe[asked.probe] == "ok";
        let parts = group.parts.as_ref();
        let parts = parts.filter(|_| group.each.iter().any(|(asked, _)| accepted(asked)));
        let images = match parts {
            Some(parts) => Images::of(tree, parts, case.image()),
            None => Images::same(case.image()),
        };
        for each in &group.each {
            if !self.hold_three(case, group, each, &images, probe) {
                return None;
            }
            let call = &each.0.call;
            if let Some(parts) = parts.filter(|_| accepted(&each.0)) {
                self.met(of_parts(tree, parts, call));
            }
            if group.later {
                self.met(vec![match accepted(&each.0) {
                    true => "steps: a call of an earlier image, accepted",
                    false => "steps: a call of an earlier image, refused",
                }]);
            }
        }
        if let Some(parts) = parts {
            // The bytes are Counter's and the second writing's; what is claimed of them is held by itself.
            let Images { before, copied, tabled, zeroed, alone } = &images;
            let bytes = [copied, tabled, zeroed, alone].map(|held| &held.image[..]);
            if let Some(what) = wrong(tree, parts, &before.image, bytes) {
                let (ours, due) = (String::new(), String::new());
                let call = group.each[0].0.call.line();
                self.report(case, Fault { what: what.into(), lines: vec![], call, ours, due });
                return None;
            }
        }
        let first = accepted(&group.each[0].0);
        let behind = |state: usize| match (state, first) {
            (1, true) => (tree.clone(), &images.copied.image),
            (2, true) => {
                let image = &images.tabled.image;
                (rules::open(image, usize::MAX).unwrap(), image)
            }
            _ => (tree.clone(), &images.before.image),
        };
        for state in 0..3 {
            let zeros = || group.zeros.iter().filter(|zero| zero.state == state);
            if zeros().next().is_some() {
                let (tree, image) = behind(state);
                let bytes = Bytes::of(&tree, image.clone());
                for zero in zeros() {
                    if !self.hold_zero(case, zero, &bytes, probe) {
                        return None;
                    }
                }
            }
        }
        let Images { copied, tabled, zeroed, alone, .. } = images;
        first.then(|| [copied, tabled, zeroed, alone].map(|held| held.image))
    }

    /// Calls of each kind on an image that does not open: the number of opening, and nothing else.
    fn refuses(&mut self, case: &mut Case) {
        let mut lines = Batch::default();
        case.load(&mut lines, &self.place.join("steps"));
        let mut asked = vec![];
        for k in 0..REFUSED * KINDS.len() {
            let kind = KINDS[k % KINDS.len()];
            let account =
                (kind != "zero" && case.aside.chance(50)).then(|| teams::any(&mut case.aside));
            if let Some(account) = account {
                lines.probe(Take::set(account).line());
                lines.probe(format!("team {}", account.team));
            }
            let (words, bytes) = case.lend(&Call::Open);
            lines.probe(format!("lend {words} {bytes}"));
            let r = &mut case.r;
            let first = if kind == "zero" { any_number(r) } else { r.below(4) as u32 };
            let second = if r.chance(30) { 0 } else { any_number(r) };
            let at = ask(
                &mut lines,
                format!("{kind} {first} {second}"),
                account.is_some(),
                case.image().len(),
            );
            lines.probe("drop_record".into());
            asked.push((kind, words, account, at));
        }
        let (probe, _) = self.ask(&lines);
        let image = Held::of(case.image().to_vec());
        for (kind, words, account, at) in asked {
            let Err(refusal) = case.opened_with(words) else { unreachable!() };
            let answer = format!("err {}", refusal.number);
            let record = account.map(|account| format!("ok {}", account.record));
            let due = Due { answer, record, image: &image };
            if let Some((what, due)) = trouble(&at, &due, &probe) {
                let (what, ours) = (format!("{kind}: {what}"), probe[at.answer].clone());
                let lines = vec![format!("lend {words} 0")];
                return self.report(case, Fault { what, lines, call: at.line, ours, due });
            }
            self.count_answer(kind, &due.answer);
        }
    }
}

// What is fed ---------------------------------------------------------------------------------

fn small_images() -> Vec<Vec<u8>> {
    let mut all = images();
    // A maximum that is a byte short of the table written anew, and one that is just met.
    for less in [1, 0] {
        let mut image = all[7].clone();
        let tree = rules::open(&image, usize::MAX).unwrap();
        set_word(&mut image, MAXIMUM, tree.written() as u32 - less);
        all.push(image);
    }
    all
}

/// Small images with every edit of the suite `records` that is a move or a resize, and spans from and to
/// each place where something begins or ends and the bytes beside it.
fn small(run: &mut Run) {
    for (i, image) in small_images().into_iter().enumerate() {
        run.counts.images += 1;
        let mut r = Random::new(i as u64);
        let tree = rules::open(&image, usize::MAX).unwrap();
        let (least, table) = (4 * (tree.entries.len() + 2), tree.written() as usize);
        let mut given = vec![];
        for call in edits(&tree) {
            if !matches!(call, Call::Move(..) | Call::Resize(..)) {
                continue;
            }
            let all_due = with_count(MOST, 0, MOST);
            for (memory, account) in [
                ([64, 0x400], None),
                ([least, table], None),
                ([least, table.saturating_sub(1)], None),
                ([least, 0], Some(all_due)),
                ([least - 1, table], Some(all_due)),
                ([64, 0x400], Some(all_due)),
                ([64, 0x400], Some(Account { team: 16, ..all_due })),
                ([least, table], Some(teams::beside(&mut r, &tree, &call))),
                ([64, 0x400], Some(teams::beside(&mut r, &tree, &call))),
            ] {
                given.push((call.clone(), memory, account));
            }
        }
        for part in given.chunks(32) {
            let mut case =
                Case::new(Random::new(i as u64), image.clone(), "smalla".into(), &run.codec);
            let (mut lines, mut groups) = (Batch::default(), vec![]);
            case.load(&mut lines, &run.place.join("small"));
            for (call, memory, account) in part {
                let again = usize::from(account.is_some());
                groups.push(ask_group(
                    &mut lines,
                    (0, &mut case),
                    call.clone(),
                    *memory,
                    *account,
                    again,
                ));
            }
            let (probe, oracle) = run.ask(&lines);
            for group in &groups {
                run.hold_group(&case, group, &probe, &oracle);
                if run.over() {
                    return;
                }
            }
        }
        spans(run, &tree, image, least);
        if run.over() {
            return;
        }
    }
}

fn spans(run: &mut Run, tree: &Tree, image: Vec<u8>, least: usize) {
    let mut places: Vec<i64> = calls::marks(tree).into_iter().map(|at| at as i64).collect();
    places = places.iter().flat_map(|at| [at - 1, *at, at + 1]).filter(|at| *at >= 0).collect();
    places.extend([MOST as i64 - 1, MOST as i64]);
    places.sort();
    places.dedup();
    let mut all = vec![];
    for from in &places {
        let ends = places.iter().copied();
        // Past 2^32: what would wrap to such a place.
        let wrapped = ends.clone().map(|end| end + (1 << 32));
        let sizes = ends.chain(wrapped).map(|end| end - from);
        all.extend(
            sizes
                .filter(|size| (0..=MOST as i64).contains(size))
                .map(|size| (*from as u32, size as u32)),
        );
    }
    let bytes = Bytes::of(tree, image.clone());
    let case = Case::new(Random::new(0), image, "spana".into(), &run.codec);
    let mut lines = Batch::default();
    case.load(&mut lines, &run.place.join("span"));
    run.ask(&lines);
    for part in all.chunks(256) {
        let (mut lines, mut zeros) = (Batch::default(), vec![]);
        for (k, span) in part.iter().enumerate() {
            let words = if k % 50 == 49 { least - 1 } else { least };
            zeros.push(ask_zero(&mut lines, &case, 0, *span, [words, k % 3]));
        }
        let (probe, _) = run.ask(&lines);
        for zero in &zeros {
            if !run.hold_zero(&case, zero, &bytes, &probe) && run.over() {
                return;
            }
        }
    }
}

/// Many entries and long texts, with memory just enough and one too little.
fn limits(run: &mut Run) {
    for (count, length, texts, room) in [(16_384, 1, 2, 0x40_000), (16_384, 64, 65, 0x120_000)] {
        let image = crowd(count, length, texts, room);
        run.counts.images += 1;
        let mut case = Case::new(Random::new(0), image, "crowda".into(), &run.codec);
        let table = case.opened.as_ref().unwrap().written() as usize;
        let least = 4 * (count + 2);
        let (mut lines, mut groups) = (Batch::default(), vec![]);
        case.load(&mut lines, &run.place.join("crowd"));
        for call in
            [Call::Move(count as u32 - 1, 7), Call::Resize(1, 0x10), Call::Move(count as u32, 0)]
        {
            for memory in [[least, table], [least, table - 1], [least - 1, table]] {
                groups.push(ask_group(&mut lines, (0, &mut case), call.clone(), memory, None, 0));
            }
        }
        let (probe, oracle) = run.ask(&lines);
        for group in &groups {
            run.hold_group(&case, group, &probe, &oracle);
        }
        if run.over() {
            return;
        }
    }
}

/// A random image under way.
struct Walk {
    case: Case,
    /// A call that was made on an image before this one.
    last: [Option<Call>; 2],
}

fn random(run: &mut Run, seed: u64, images: u64) {
    let (mut begun, mut waves) = (0, 0);
    while begun < images && !run.over() {
        let mut walks = vec![];
        while walks.len() < WAVE && begun < images {
            let mut r = Random::new(seed.wrapping_add(begun.wrapping_mul(0x5851_f42d_4c95_7f2d)));
            let image =
                if r.chance(10) { masters::damaged(&mut r) } else { masters::master(&mut r) };
            let mut case = Case::new(r, image, format!("s{}a", walks.len()), &run.codec);
            begun += 1;
            if case.mixed.is_some() {
                run.counts.left_out += 1;
                continue;
            }
            run.counts.images += 1;
            if case.opened.is_err() {
                run.counts.refused_images += 1;
                run.refuses(&mut case);
                continue;
            }
            walks.push(Walk { case: case.with_maximum(), last: [None, None] });
        }
        for round in 0..ROUNDS {
            if run.over() {
                return;
            }
            step(run, &mut walks, round % 2);
        }
        waves += 1;
        if waves % 20 == 0 {
            eprintln!("{begun} images, {} calls", run.counts.total());
        }
    }
}

/// A move (`kind` 0) or a resize (1), which half of the time is one that has a place.
pub fn edit(r: &mut Random, tree: &Tree, kind: usize) -> Call {
    let files = (1..tree.entries.len()).filter(|number| !tree.entries[*number].directory);
    let files: Vec<usize> = files.collect();
    if files.is_empty() || r.chance(50) {
        return match kind {
            0 => calls::move_file(r, tree),
            _ => calls::resize_file(r, tree),
        };
    }
    let number = *r.pick(&files);
    let (at, size) = (tree.entries[number].offset as u64, tree.entries[number].size as u64);
    let most = tree.most(at, size);
    let place = tree.place(0, rules::ALIGN).map_or(0, |(_, rest)| rest);
    if kind == 1 {
        let size = match r.below(5) {
            0..=2 if place > most => most + 1 + r.next() % (place - most),
            0 | 1 if most > size => size + 1 + r.next() % (most - size),
            2 | 3 if size > 0 => r.next() % size,
            _ => size.saturating_sub(1),
        };
        return Call::Resize(number as u32, size as u32);
    }
    let long = tree.free.iter().filter(|(_, length)| *length > 0 && *length >= size);
    let to = match long.collect::<Vec<_>>()[..] {
        [] => at,
        ref regions => {
            let (start, length) = **r.pick(regions);
            let last = start + length - size;
            let inside = start + r.next() % (length - size + 1);
            *r.pick(&[start, last, last, inside, inside])
        }
    };
    Call::Move(number as u32, to as u32)
}

/// A move of each image (`kind` 0) or a resize (1); the image is then one of those on the way.
fn step(run: &mut Run, walks: &mut [Walk], kind: usize) {
    let (mut lines, mut groups) = (Batch::default(), vec![]);
    for (i, Walk { case, last }) in walks.iter_mut().enumerate() {
        case.load(&mut lines, &run.place.join(i.to_string()));
        let tree = case.opened.clone().unwrap();
        let earlier = last[kind].take().filter(|_| case.r.chance(60));
        let later = earlier.is_some();
        let call = earlier.unwrap_or_else(|| edit(&mut case.r, &tree, kind));
        if case.aside.chance(15) {
            case.state_for(&mut lines, &call);
        }
        let tree = case.opened.clone().unwrap();
        let memory = if case.r.chance(85) { (0x4000, 0x8000) } else { case.lend(&call) };
        let account = case.aside.chance(30).then(|| teams::beside(&mut case.aside, &tree, &call));
        let mut group = ask_group(&mut lines, (i, case), call, memory.into(), account, AGAIN);
        group.later = later;
        let least = 4 * (tree.entries.len() + 2);
        for state in 0..3 {
            let words = *case.aside.pick(&[least, least, least, 0x4000, least - 1]);
            let bytes = case.aside.below(100);
            let span = span(&mut case.aside, &tree, group.parts.as_ref());
            group.zeros.push(ask_zero(&mut lines, case, state, span, [words, bytes]));
        }
        groups.push(group);
    }
    let (probe, oracle) = run.ask(&lines);
    for group in &groups {
        let Walk { case, last } = &mut walks[group.case];
        let images = run.hold_group(case, group, &probe, &oracle);
        if run.over() {
            return;
        }
        let Some(images) = images else { continue };
        run.counts.states += 1;
        // Behind the copy, the table or the zeros, or behind the table without the copy.
        let which = case.r.below(5);
        if which < 4 {
            let [copied, tabled, zeroed, alone] = images;
            case.become_image(match which {
                0 => copied,
                1 => tabled,
                2 => zeroed,
                _ => alone,
            });
            if which % 3 == 0 {
                last[kind] = Some(group.each[0].0.call.clone());
            }
        }
    }
}

/// Moves and resizes in three calls: on small images, at the limits, and on random ones.
pub fn steps(run: &mut Run, seed: u64, images: u64) {
    small(run);
    if !run.over() {
        limits(run);
    }
    if !run.over() {
        random(run, seed, images.div_ceil(PART));
    }
}
