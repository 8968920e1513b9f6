//! Every small table: what Counter tells of them is held to those of `shape_rules`, and the small master with
//! each of them is fed to both sides. The original has no such call.

use crate::calls::{Call, hex};
use crate::pair_rules::Item;
use crate::random::Random;
use crate::rules::{self, Entry};
use crate::run::{Asked, Batch, Case, Run, ask_edit_with, ask_look_with, image_lines};
use crate::shape_rules::{self as all, MOST, Shape};
use crate::suites::small_master;

/// Masters that are under way at a time.
const WAVE: usize = 128;

/// Up to so many entries each length of a list is asked for that is too short, and some more.
const EVERY_LENGTH: usize = 5;

/// Numbers for which there are none.
const OTHERS: [u64; 12] =
    [0, 9, 10, 16, 255, 256, 257, 264, 1 << 16, 1 << 31, (1 << 31) + 8, (1 << 32) - 1];

/// Bytes that the tables of nine entries would take.
const NINE: u64 = 41_586 * 124;

/// The tables of so many entries, one behind the other, and how many there are.
struct Tables {
    number: usize,
    bytes: Vec<u8>,
}

impl Tables {
    fn of(shapes: &[Shape]) -> Self {
        let bytes = shapes.iter().flat_map(|shape| all::table(shape)).collect();
        Self { number: shapes.len(), bytes }
    }

    /// What has to be told of them.
    fn told(&self) -> String {
        let hash = self.bytes.iter().fold(0xcbf2_9ce4_8422_2325_u64, |hash, byte| {
            (hash ^ u64::from(*byte)).wrapping_mul(0x100_0000_01b3)
        });
        format!("ok {} {} {hash:016x}", self.number, self.bytes.len())
    }
}

// The call ------------------------------------------------------------------------------------

/// A call, with what is lent, and where in the batch its answer is. Without a list's length it is long
/// enough.
struct Told {
    entries: u64,
    list: Option<u64>,
    at: usize,
}

impl Told {
    fn lines(&self) -> [String; 2] {
        let list = self.list.map_or("-".into(), |length| length.to_string());
        [format!("lend_list {list}"), format!("tables {}", self.entries)]
    }
}

/// Lengths of lists at which an answer changes, the bytes beside them and a table less.
fn lengths(tables: &[Tables]) -> Vec<u64> {
    let mut lengths = vec![0, 1, 1 << 20, (1 << 20) + 1, NINE - 1, NINE, 1 << 32, u64::MAX];
    for (count, tables) in (1..).zip(tables) {
        let (length, each) = (tables.bytes.len() as u64, 14 * count - 2);
        lengths.extend([length - 1, length, length + 1, length - each, length - each + 1]);
    }
    lengths.sort();
    lengths.dedup();
    lengths
}

/// Every number of entries with every list, whatever the image is and what else is lent: nothing of either is
/// altered.
fn calls(run: &mut Run, tables: &[Tables]) {
    let dues: Vec<String> = tables.iter().map(Tables::told).collect();
    let master: Vec<String> = image_lines(&small_master());
    let settings: [&[&str]; 3] = [
        &["size 0", "lend 0 0"],
        &["lend 65544 2097152"],
        &["patch 0x1c 00", "lend 1 1", "set_record 7 8"],
    ];
    for setting in settings {
        let (mut lines, mut asked) = (Batch::default(), vec![]);
        for line in master.iter().map(String::as_str).chain(setting.iter().copied()) {
            lines.probe(line.into());
        }
        let before = ["hash", "record"].map(|line| lines.probe(line.into()));
        let numbers = (1..=MOST as u64).chain(OTHERS);
        for entries in numbers {
            let mut lists: Vec<Option<u64>> = lengths(tables).into_iter().map(Some).collect();
            lists.push(None);
            if let Some(tables) = tables.get((entries as usize).wrapping_sub(1))
                && entries as usize <= EVERY_LENGTH
            {
                lists.extend((0..tables.bytes.len() as u64 + 15).map(Some));
            }
            lists.sort();
            lists.dedup();
            for list in lists {
                let mut told = Told { entries, list, at: 0 };
                let [lend, call] = told.lines();
                lines.probe(lend);
                told.at = lines.probe(call);
                asked.push(told);
            }
        }
        let after = ["hash", "record"].map(|line| lines.probe(line.into()));
        for line in ["lend_list -", "drop_record", "lend 65544 2097152"] {
            lines.probe(line.into());
        }
        let (probe, _) = run.ask(&lines);
        for told in &asked {
            hold_told(run, told, &probe[told.at], tables, &dues, setting);
        }
        for (now, before) in after.into_iter().zip(before) {
            if probe[now] != probe[before] {
                let what = "small tables: image or record";
                run.fault(what, &[], "tables", "", &probe[now], &probe[before]);
            }
        }
        if run.over() {
            return;
        }
    }
}

fn hold_told(
    run: &mut Run,
    told: &Told,
    answer: &str,
    tables: &[Tables],
    dues: &[String],
    setting: &[&str],
) {
    let place = (told.entries as usize).wrapping_sub(1);
    let needed = tables.get(place).map(|tables| tables.bytes.len() as u64);
    let list = told.list.unwrap_or(u64::MAX);
    let due = match needed {
        Some(needed) if needed <= list => &dues[place],
        _ => "err 9",
    };
    if answer == due {
        run.count_answer("tables", answer);
        let each = 14 * told.entries as i128 - 2;
        let beside = needed.map(|needed| i128::from(list) - i128::from(needed));
        let cases = [
            (needed.is_none(), "small tables: 9, no such number of entries"),
            (
                needed.is_none() && list > 1 << 20,
                "small tables: 9 for the number, of the longest list",
            ),
            (beside == Some(0), "small tables: a list of just their length"),
            (beside == Some(-1), "small tables: 9, a byte too short"),
            (beside == Some(-each), "small tables: 9, a table too short"),
            (beside.is_some_and(|by| by > 0), "small tables: bytes behind the last one"),
            (needed.is_some() && list == 0, "small tables: 9, a list of no byte"),
        ];
        return run
            .met(cases.into_iter().filter(|(is_so, _)| *is_so).map(|(_, what)| what).collect());
    }
    let words = |text: &str| text.split(' ').map(String::from).collect::<Vec<_>>();
    let (ours, wanted) = (words(answer), words(due));
    let what = match () {
        () if answer.starts_with("dirty") => "dirty",
        () if due == "err 9" => "9 is due",
        () if ours.len() != wanted.len() => "refused",
        () if ours[1] != wanted[1] => "how many",
        () if ours[2] != wanted[2] => "their length",
        () => "their bytes",
    };
    let lines = setting.iter().map(|line| line.to_string()).chain(told.lines()).collect::<Vec<_>>();
    let (call, lines) = lines.split_last().unwrap();
    run.fault(&format!("small tables: {what}"), lines, call, "", answer, due);
}

// The masters ---------------------------------------------------------------------------------

/// FST size and table in the small master.
fn patches(shape: &[Option<usize>]) -> Vec<(usize, Vec<u8>)> {
    let table = all::table(shape);
    vec![(0x428, (table.len() as u32).to_be_bytes().to_vec()), (0x440, table)]
}

fn master(shape: &[Option<usize>]) -> Vec<u8> {
    let mut image = small_master();
    for (at, bytes) in patches(shape) {
        image[at..at + bytes.len()].copy_from_slice(&bytes);
    }
    image
}

/// What `list` has to answer of these entries.
fn listed(entries: &[Entry]) -> String {
    let mut paths: Vec<Vec<u8>> = vec![];
    let mut lines = vec!["ok".to_string()];
    for (k, entry) in entries.iter().enumerate() {
        let mut path = if k == 0 { vec![] } else { paths[entry.parent].clone() };
        path.extend(&entry.name);
        if entry.directory {
            path.push(b'/');
            let inside = (1..entries.len()).filter(|child| entries[*child].parent == k).count();
            let (parent, next) = (entry.parent, entry.size);
            lines.push(format!("d:{k}:{parent}:{next}:{inside}:{}", hex(&path)));
        } else {
            lines.push(format!("f:{k}:{}:{}:{}", entry.offset, entry.size, hex(&path)));
        }
        paths.push(path);
    }
    lines.join(" ")
}

/// The path of entry k, from the root.
fn path(entries: &[Entry], k: usize) -> Vec<u8> {
    match k {
        0 => vec![],
        _ => [path(entries, entries[k].parent), b"/".to_vec(), entries[k].name.clone()].concat(),
    }
}

/// A master under way: the tree that its table nests, and what is asked of it.
struct Master {
    shape: Shape,
    case: Case,
    looks: Vec<(Asked, Option<String>)>,
    edits: Vec<Edited>,
}

/// An edit, and where both sides list what it left.
struct Edited {
    asked: Asked,
    due: String,
    ours: usize,
    theirs: usize,
}

/// A rewrite; a file and a directory as last child of each directory; and a name that is there.
fn edits(run: &Run, entries: &[Entry]) -> Vec<Call> {
    let mut calls = vec![Call::Rewrite];
    if run.inserts {
        for k in (0..entries.len()).filter(|k| entries[*k].directory) {
            calls.push(Call::InsertFile(k as u32, b"z".to_vec()));
            calls.push(Call::InsertDirectory(k as u32, b"z".to_vec()));
        }
        if let [_, .., last] = entries {
            calls.push(Call::InsertFile(last.parent as u32, last.name.clone()));
        }
    }
    calls
}

/// Bytes of a table in which each name but the root's has one byte.
fn length(entries: usize) -> usize {
    14 * entries - 2
}

impl Master {
    fn ask(run: &Run, i: usize, shape: &Shape, lines: &mut Batch) -> Self {
        let image = master(shape);
        let mut case = Case::new(Random::new(i as u64), image, format!("s{i}a"), &run.codec);
        case.load(lines, &run.place.join(i.to_string()));
        let tree: Item = all::tree(shape);
        let entries = tree.entries();
        let words = |count: usize| 4 * (count + 2);
        let mut looks = vec![];
        let mut look = |case: &mut Case, call, due| {
            let memory = [words(entries.len()), 0];
            looks.push((ask_look_with(lines, i, case, call, memory, None), due));
        };
        look(&mut case, Call::Open, Some("ok".into()));
        look(&mut case, Call::List, Some(listed(&entries)));
        look(&mut case, Call::Listing, None);
        look(&mut case, Call::Free, None);
        for k in 0..entries.len() {
            look(&mut case, Call::Lookup(0, path(&entries, k)), Some(format!("ok {k}")));
        }
        let mut all = vec![];
        for call in edits(run, &entries) {
            let after = tree.after(&call, 0);
            let there = |name: &Vec<u8>| entries.iter().any(|entry| entry.name == *name);
            let refused = matches!(&call, Call::InsertFile(_, name) if there(name));
            let after =
                after.filter(|_| !refused).map_or(entries.clone(), |(tree, _)| tree.entries());
            let memory = [words(after.len()), length(after.len())];
            let asked = ask_edit_with(lines, i, &mut case, call, memory, None);
            lines.probe(format!("lend {} 0", memory[0]));
            let [ours, theirs] = [lines.probe("list".into()), lines.oracle("list".into())];
            all.push(Edited { asked, due: listed(&after), ours, theirs });
        }
        Self { shape: shape.clone(), case, looks, edits: all }
    }

    fn hold(&self, run: &mut Run, probe: &[String], oracle: &[String]) {
        run.counts.images += 1;
        let wrong = |run: &mut Run,
                     what: &str,
                     call: &Call,
                     ours: &str,
                     theirs: &str,
                     due: &str| {
            let lines = image_lines(self.case.image());
            run.fault(&format!("small tables: {what}"), &lines, &call.line(), theirs, ours, due);
        };
        for (asked, due) in &self.looks {
            if !run.hold(&self.case, asked, probe, oracle) {
                continue;
            }
            let (ours, theirs) = (&probe[asked.probe], &oracle[asked.oracle]);
            if let Some(due) = due
                && (ours != due || theirs != due)
            {
                wrong(run, "a master", &asked.call, ours, theirs, due);
            }
        }
        for Edited { asked, due, ours, theirs } in &self.edits {
            if !run.hold(&self.case, asked, probe, oracle) {
                continue;
            }
            let (ours, theirs) = (&probe[*ours], &oracle[*theirs]);
            if ours != due || theirs != due {
                wrong(run, "listed behind an edit", &asked.call, ours, theirs, due);
            }
            run.count_answer("list", ours);
            run.met(vec!["small table: listed behind an edit"]);
        }
        run.met(features(&self.shape));
    }
}

/// What stands out about a shape.
fn features(shape: &Shape) -> Vec<&'static str> {
    let count = shape.len();
    let inner: Vec<(usize, usize)> =
        (1..count).filter_map(|k| shape[k].map(|next| (k, next))).collect();
    let end_at = |end: usize| inner.iter().filter(|(_, next)| *next == end).count();
    let cases = [
        (inner.is_empty() && count > 1, "small table: files alone"),
        (inner.len() + 1 == count && count > 1, "small table: directories alone"),
        (
            inner.len() + 1 == count && end_at(count) == inner.len() && count > 2,
            "small table: each directory in the one before it",
        ),
        (
            inner.iter().any(|(k, next)| k + 1 == *next),
            "small table: a directory with nothing in it",
        ),
        (
            (1..count).any(|end| end_at(end) > 1),
            "small table: directories that end together before its end",
        ),
        (end_at(count) > 2, "small table: three or more that end with it"),
        (
            inner.iter().any(|(k, next)| *next == shape[all::parent(shape, *k)].unwrap_or(0)),
            "small table: a next that is just its parent's",
        ),
        (count == MOST, "small table: eight entries"),
    ];
    cases.into_iter().filter(|(is_so, _)| *is_so).map(|(_, what)| what).collect()
}

/// The small master with each table, looked at and edited.
fn masters(run: &mut Run, shapes: &[Shape]) {
    for part in shapes.chunks(WAVE) {
        let mut lines = Batch::default();
        let ask = |(i, shape)| Master::ask(run, i, shape, &mut lines);
        let masters: Vec<Master> = part.iter().enumerate().map(ask).collect();
        let (probe, oracle) = run.ask(&lines);
        for master in &masters {
            master.hold(run, &probe, &oracle);
            if run.over() {
                return;
            }
        }
    }
}

/// Lists that are shapes and lists that are not: a next that is small, or past the count, or past the
/// parent's. Opening by the second writing has to accept just the shapes.
fn others(run: &mut Run) {
    let few = (2..=5).flat_map(|count| all::lists(count, count + 1));
    let past = |shape: &Shape| {
        (1..shape.len()).all(|k| shape[k].is_none_or(|next| k < next && next <= shape.len()))
    };
    let six = all::lists(6, 6).filter(past);
    let mut variants = vec![];
    for shape in few.chain(six) {
        let opened = rules::open(&master(&shape), usize::MAX);
        assert_eq!(
            opened.map_err(|refusal| refusal.number).err(),
            (!all::is_shape(&shape)).then_some(10),
            "{shape:?}"
        );
        variants.push(patches(&shape));
    }
    run.variants(&small_master(), &variants, &[Call::List]);
}

pub fn shapes(run: &mut Run) {
    let shapes: Vec<Vec<Shape>> = (1..=MOST).map(all::shapes).collect();
    let tables: Vec<Tables> = shapes.iter().map(|shapes| Tables::of(shapes)).collect();
    calls(run, &tables);
    if !run.over() {
        others(run);
    }
    for shapes in &shapes {
        if !run.over() {
            masters(run, shapes);
        }
    }
}
