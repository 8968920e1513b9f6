//! Wish lists for a new master: what Counter answers and writes is held to `wish_rules`, and the
//! original opens what was written, where its tree has to be the wish list. Some masters are then
//! looked at and edited as any other image.

use crate::calls::{Call, any_number, hex, unhex};
use crate::names;
use crate::random::Random;
use crate::rules::{self, ALIGN};
use crate::run::{Batch, Case, Run};
use crate::suites::all_texts;
use crate::wish_rules::{WishList, WishedTree};
use std::fs;

/// What the buffers hold before the call, as far as they reach: no byte of it is 0.
const BUFFER: usize = 0x20_0000;

/// Buffers of these lengths are kept by the probe, and cut to the length that is wanted.
const KEPT: [usize; 7] = [0x600, 0x4000, 0x1_2000, 0x2_2000, 0x4_2000, 0x8_2000, BUFFER];

/// Calls that are under way at a time.
const WAVE: usize = 64;

/// Memory that is enough for any list.
const AMPLE: [usize; 2] = [65_544, 2_097_152];

const FNV_START: u64 = 0xcbf2_9ce4_8422_2325;
const FNV_PRIME: u64 = 0x100_0000_01b3;

/// The hash that `hash` tells, carried on.
fn fnv(hash: u64, bytes: &[u8]) -> u64 {
    bytes.iter().fold(hash, |hash, byte| (hash ^ u64::from(*byte)).wrapping_mul(FNV_PRIME))
}

/// The same over so many zeros.
fn fnv_of_zeros(hash: u64, mut count: usize) -> u64 {
    let (mut power, mut square) = (1_u64, FNV_PRIME);
    while count > 0 {
        if count % 2 == 1 {
            power = power.wrapping_mul(square);
        }
        square = square.wrapping_mul(square);
        count /= 2;
    }
    hash.wrapping_mul(power)
}

/// The call on a list, with an image of `room` bytes, and words and bytes lent.
#[derive(Clone)]
struct Asked {
    list: WishList,
    room: usize,
    lent: [usize; 2],
    /// The file that is looked up afterwards.
    sought: usize,
}

impl Asked {
    /// The room is just the disc, and memory is ample.
    fn amply(list: WishList) -> Self {
        let room = (list.disc_end as usize).min(BUFFER);
        Self { list, room, lent: AMPLE, sought: 0 }
    }

    fn line(&self) -> String {
        let WishList { game_code, disc_end, sizes, paths } = &self.list;
        let sizes: Vec<String> = sizes.iter().map(u32::to_string).collect();
        let sizes = if sizes.is_empty() { "-".into() } else { sizes.join(",") };
        format!("master {disc_end} {} {sizes} {}", hex(game_code), hex(paths))
    }
}

/// Where in the batch the answers are.
struct At {
    answer: usize,
    hash: usize,
    /// Of a list that the rules accept: what the image begins with, its entries, and a file's number.
    accepted: Option<[usize; 3]>,
}

/// A master that was written as the rules have it.
struct Made {
    which: usize,
    case: Case,
    listed: String,
    /// Where in the oracle's batch its list is.
    at: usize,
}

struct Wishing<'a> {
    run: &'a mut Run,
    /// What buffers hold, and the hash of as many bytes of it.
    buffer: Vec<u8>,
    hashes: Vec<u64>,
    /// Masters to be edited.
    kept: Vec<Vec<u8>>,
    seed: u64,
}

impl<'a> Wishing<'a> {
    fn new(run: &'a mut Run, seed: u64) -> Self {
        let mut r = Random::new(seed);
        let buffer: Vec<u8> = (0..BUFFER).map(|_| r.byte().max(1)).collect();
        let mut hashes = vec![FNV_START];
        for byte in &buffer {
            hashes.push(fnv(*hashes.last().unwrap(), &[*byte]));
        }
        let path = run.place.join("buffer");
        fs::write(&path, &buffer).unwrap();
        let mut lines = Batch::default();
        lines.probe(format!("image {}", path.display()));
        for length in KEPT.iter().rev() {
            lines.probe(format!("size {length}"));
            lines.probe(format!("save buffer{length}"));
        }
        run.ask(&lines);
        Self { run, buffer, hashes, kept: vec![], seed }
    }

    fn begin(&self, lines: &mut Batch, asked: &Asked) {
        let kept = KEPT.iter().find(|length| **length >= asked.room).unwrap();
        lines.probe(format!("load buffer{kept}"));
        lines.probe(format!("size {}", asked.room));
        lines.probe(format!("lend {} {}", asked.lent[0], asked.lent[1]));
    }

    fn all(&mut self, asked: &[Asked]) {
        for part in asked.chunks(WAVE) {
            if self.run.over() {
                return;
            }
            self.wave(part);
        }
    }

    fn wave(&mut self, asked: &[Asked]) {
        let trees: Vec<_> = asked.iter().map(|asked| asked.list.tree()).collect();
        let mut numbers = vec![];
        let (mut lines, mut ats) = (Batch::default(), vec![]);
        for (asked, tree) in asked.iter().zip(&trees) {
            let number = asked.list.refused(tree, asked.room, asked.lent);
            self.begin(&mut lines, asked);
            let [answer, hash] = [asked.line(), "hash".into()].map(|line| lines.probe(line));
            let accepted = tree.as_ref().ok().filter(|_| number == 0).map(|tree| {
                let head = lines.probe(format!("peek 0 {}", 0x440 + tree.table_size()));
                let path = asked.list.each_path().get(asked.sought).map_or("-".into(), |p| hex(p));
                let list = lines.probe("list".into());
                [head, list, lines.probe(format!("lookup 0 {path}"))]
            });
            numbers.push(number);
            ats.push(At { answer, hash, accepted });
        }
        let (probe, _) = self.run.ask(&lines);
        let (mut lines, mut made) = (Batch::default(), vec![]);
        for (which, (asked, tree)) in asked.iter().zip(&trees).enumerate() {
            match self.held(asked, tree, numbers[which], &ats[which], &probe) {
                Err(what) => self.fault(&what, asked, &probe[ats[which].answer], numbers[which]),
                Ok(image) => {
                    self.count(asked, tree, numbers[which]);
                    if let (Some((image, offsets)), Ok(tree)) = (image, tree) {
                        made.push(self.opens(&mut lines, which, tree, image, &offsets));
                    }
                }
            }
        }
        let (_, oracle) = self.run.ask(&lines);
        for made in made {
            let asked = &asked[made.which];
            let told = made.case.back(&Call::List, &oracle[made.at]);
            if told != made.listed {
                let what = "the original's list of a new master";
                self.fault(what, asked, &oracle[made.at], 0);
                continue;
            }
            self.run.met(vec!["wish list: the original's tree is the list"]);
            if self.kept.len() < WAVE && made.case.image().len() <= 0x3_0000 {
                self.kept.push(made.case.into_image());
            }
        }
    }

    /// The image and the files' offsets of a list that is accepted, if the answers are as they have to be.
    fn held(
        &self,
        asked: &Asked,
        tree: &Result<WishedTree, u32>,
        number: u32,
        at: &At,
        probe: &[String],
    ) -> Result<Option<(Vec<u8>, Vec<u32>)>, String> {
        let expected = if number == 0 { "ok".into() } else { format!("err {number}") };
        if probe[at.answer] != expected {
            return Err("the answer to a wish list".into());
        }
        let told = |hash: u64| format!("ok {hash:016x} {}", asked.room);
        let (Some([head, list, lookup]), Ok(tree)) = (at.accepted, tree) else {
            if probe[at.hash] != told(self.hashes[asked.room]) {
                return Err("a refused wish list, and the image changed".into());
            }
            return Ok(None);
        };
        let Some(head) = probe[head].strip_prefix("ok ").map(unhex) else {
            return Err("what a new master begins with".into());
        };
        let offsets = tree.offsets(&head);
        let wanted = asked.list.head(tree, &offsets);
        if head[..0x440] != wanted[..0x440] {
            return Err("the header of a new master".into());
        }
        if let Some(what) = asked.list.misplaced(tree, &offsets) {
            return Err(format!("a new master: {what}"));
        }
        if head != wanted {
            return Err("the table of a new master".into());
        }
        let disc_end = asked.list.disc_end as usize;
        let behind = &self.buffer[disc_end..asked.room];
        let hash = fnv_of_zeros(fnv(FNV_START, &head), disc_end - head.len());
        if probe[at.hash] != told(fnv(hash, behind)) {
            return Err("a new master's bytes behind its table".into());
        }
        let mut image = head;
        image.resize(disc_end, 0);
        image.extend(behind);
        if let Err(refusal) = rules::open(&image, asked.lent[0]) {
            return Err(format!("a new master that does not open: {refusal:?}"));
        }
        if probe[list] != listed(tree, &offsets) {
            return Err("the list of a new master".into());
        }
        let sought = tree.files.get(asked.sought).map_or("ok 0".into(), |k| format!("ok {k}"));
        if probe[lookup] != sought {
            return Err("a path looked up in a new master".into());
        }
        Ok(Some((image, offsets)))
    }

    /// Asks the original to list a new master.
    fn opens(
        &self,
        lines: &mut Batch,
        which: usize,
        tree: &WishedTree,
        image: Vec<u8>,
        offsets: &[u32],
    ) -> Made {
        lines.oracle("size 0".into());
        lines.oracle(format!("size {}", image.len()));
        lines.oracle(format!("patch 0 {}", hex(&image[..0x440 + tree.table_size()])));
        let case = Case::new(Random::new(0), image, String::new(), &self.run.codec);
        assert!(case.mixed.is_none(), "no names of a new table share bytes");
        case.stand_in(lines);
        Made { which, case, listed: listed(tree, offsets), at: lines.oracle("list".into()) }
    }

    fn count(&mut self, asked: &Asked, tree: &Result<WishedTree, u32>, number: u32) {
        self.run.counts.images += 1;
        let answer = if number == 0 { "ok".into() } else { format!("err {number}") };
        self.run.count_answer("master", &answer);
        if number == 0 {
            self.run.count_answer("list", "ok");
            self.run.count_answer("lookup", "ok");
        }
        self.run.met(features(asked, tree, number));
    }

    fn fault(&mut self, what: &str, asked: &Asked, ours: &str, number: u32) {
        let expected = if number == 0 { "ok".into() } else { format!("err {number}") };
        let lines = ["size 0".into(), format!("size {}", asked.room)];
        let lent = format!("lend {} {}", asked.lent[0], asked.lent[1]);
        let lines = [&lines[..], &[lent]].concat();
        self.run.fault(what, &lines, &asked.line(), "", ours, &expected);
    }

    /// Looks at the masters that were kept, and edits them.
    fn edit(&mut self) {
        let images = std::mem::take(&mut self.kept);
        self.seed = self.seed.wrapping_add(0x1000);
        if !images.is_empty() && !self.run.over() {
            self.run.met(vec!["wish list: lists of edits on new masters"]);
            self.run.given(self.seed, images);
        }
    }
}

/// The answer to `list`.
fn listed(tree: &WishedTree, offsets: &[u32]) -> String {
    let entry = |(numbers, path): (String, Vec<u8>)| format!(" {numbers}:{}", hex(&path));
    format!("ok{}", tree.listed(offsets).into_iter().map(entry).collect::<String>())
}

/// What stands out about a call.
fn features(asked: &Asked, tree: &Result<WishedTree, u32>, number: u32) -> Vec<&'static str> {
    let list = &asked.list;
    let paths: Vec<&[u8]> = list.paths.split(|byte| *byte == 0).collect();
    let paths = &paths[..paths.len() - 1];
    let any = |test: &dyn Fn(&[u8]) -> bool| paths.iter().any(|path| test(path));
    let mut cases = vec![
        (
            number == 8 && list.paths.last().is_some_and(|byte| *byte != 0),
            "wish list: 8, bytes behind the last zero byte",
        ),
        (number == 8 && paths.len() < list.sizes.len(), "wish list: 8, too few paths"),
        (number == 8 && paths.len() > list.sizes.len(), "wish list: 8, too many paths"),
        (number == 9 && any(&|path| path.len() == 1025), "wish list: a path of 1,025 bytes"),
        (number == 0 && any(&|path| path.len() == 1024), "wish list: a path of 1,024 bytes"),
        (number == 13 && asked.lent == [0, 0], "wish list: 13 with no memory lent"),
        (number == 12 && asked.lent == [0, 0], "wish list: 12 with no memory lent"),
        (number == 19 && asked.lent == [0, 0], "wish list: 19 with no memory lent"),
        (
            number == 0 && any(&|path| path.windows(2).any(|pair| pair[1] == b'\\')),
            "wish list: a trail byte 0x5C",
        ),
        (
            number == 19 && in_a_file_between(paths),
            "wish list: 19, a file used as a directory, other paths between",
        ),
        (
            number == 19 && paths.windows(2).any(|pair| pair[0] == pair[1]),
            "wish list: 19, a path twice in a row",
        ),
    ];
    if let Ok(tree) = tree {
        let least = list.least_end(tree);
        let end = u64::from(list.disc_end);
        let [words, bytes] = tree.least();
        let fits = asked.lent[0] >= words && asked.lent[1] >= bytes && !tree.passes_limits();
        let has_bytes = list.sizes.iter().any(|size| *size > 0);
        let table_end = 0x440 + tree.table_size() as u64;
        let in_order = list
            .sizes
            .iter()
            .filter(|size| **size > 0)
            .fold(table_end, |end, size| end.next_multiple_of(ALIGN) + u64::from(*size));
        cases.extend([
            (
                number == 0 && end == least && has_bytes,
                "wish list: the disc end the least, files with bytes",
            ),
            (
                number == 21 && end + 1 == least && has_bytes,
                "wish list: the disc end one less, files with bytes",
            ),
            (number == 0 && end == least && !has_bytes, "wish list: the disc end the table's end"),
            (
                number == 21 && end + 1 == least && !has_bytes,
                "wish list: the disc end one below the table's end",
            ),
            (
                number == 0 && end < in_order,
                "wish list: no place in the order of the list, and another",
            ),
            (number == 0 && list.sizes.is_empty(), "wish list: no paths"),
            (number == 0 && list.sizes.len() > 1 && !has_bytes, "wish list: all files empty"),
            (number == 0 && tree.depth == 64, "wish list: 64 directories"),
            (number == 9 && tree.depth == 65, "wish list: 65 directories"),
            (number == 0 && tree.count() == 16_384, "wish list: 16,384 entries"),
            (number == 9 && tree.count() == 16_385, "wish list: 16,385 entries"),
            (number == 0 && tree.texts() == 1_048_576, "wish list: texts of 1,048,576 bytes"),
            (number == 9 && tree.texts() == 1_048_577, "wish list: texts of 1,048,577 bytes"),
            (number == 0 && asked.lent == [words, bytes], "wish list: words and bytes just enough"),
            (number == 9 && asked.lent[0] + 1 == words, "wish list: a word too few"),
            (number == 9 && asked.lent[1] + 1 == bytes, "wish list: a byte too few"),
            (
                number == 9 && fits && asked.room as u64 + 1 == end,
                "wish list: the image a byte short of the disc",
            ),
            (number == 9 && fits && least > end, "wish list: the image short, before 21"),
            (number == 0 && asked.room as u64 > end, "wish list: bytes behind the disc end"),
            (
                number == 0 && table_end == ALIGN && has_bytes,
                "wish list: a table up to 0x8000, and files with bytes",
            ),
            (
                number == 0 && table_end > ALIGN && has_bytes,
                "wish list: a table that passes 0x8000, and files with bytes",
            ),
            (
                number == 21 && least > 1 << 32 && least % (1 << 32) <= end,
                "wish list: sizes past 2^32, whose lower bits have a place",
            ),
        ]);
    }
    cases.iter().filter(|(met, _)| *met).map(|(_, feature)| *feature).collect()
}

/// Whether a path lies in a file that is not the path before it.
fn in_a_file_between(paths: &[&[u8]]) -> bool {
    let inside = |path: &[u8], file: &[u8]| {
        path.len() > file.len() && path.starts_with(file) && path[file.len()] == b'/'
    };
    (2..paths.len()).any(|k| {
        paths[..k - 1].iter().any(|file| inside(paths[k], file)) && !inside(paths[k], paths[k - 1])
    })
}

// Lists made up at random ---------------------------------------------------------------------

const PARTS: [&[u8]; 16] = [
    b"a",
    b"b",
    b"ab",
    b"a-b",
    b"a.b",
    b"a0",
    b"-",
    b"...",
    b" ",
    b"~",
    b"x y",
    b"A",
    b".a",
    b"a.",
    b"c",
    b"opening.bnr",
];

/// A part that no path may have.
fn bad_part(r: &mut Random) -> Vec<u8> {
    let known: [&[u8]; 18] = [
        b"",
        b".",
        b"..",
        b"a:",
        b":",
        b"a\\b",
        b"\\",
        b"\x01",
        b"\x1f",
        b"\x7f",
        b"\x80",
        b"a\xa0",
        b"\xfd",
        b"\x81",
        b"a\xfc",
        b"\x95/",
        b"\x83\x3a",
        b"\x01:",
    ];
    if r.chance(30) { names::any(r) } else { r.pick(&known).to_vec() }
}

fn part(r: &mut Random, japanese: bool, others: bool) -> Vec<u8> {
    if japanese && r.chance(50) { names::name(r, others) } else { r.pick(&PARTS).to_vec() }
}

/// Paths in their order, none of them used as a directory by another.
fn good_paths(r: &mut Random) -> Vec<Vec<u8>> {
    let count = match r.below(100) {
        0..=3 => 0,
        4..=79 => r.within(1, 8),
        80..=96 => r.within(9, 24),
        _ => r.within(25, 80),
    };
    let (japanese, others) = (r.chance(30), r.chance(15));
    let (nested, wide) = (*r.pick(&[0, 20, 40, 80]), r.chance(50));
    let mut around: Vec<Vec<u8>> = vec![vec![]];
    let mut paths: Vec<Vec<u8>> = vec![];
    for _ in 0..count {
        let mut path = if wide { r.pick(&around).clone() } else { around.last().unwrap().clone() };
        while r.chance(nested) {
            path.extend(part(r, japanese, others));
            path.push(b'/');
            around.push(path.clone());
        }
        path.extend(part(r, japanese, others));
        paths.push(path);
    }
    paths.sort();
    paths.dedup();
    let all = paths.clone();
    let used = |file: &Vec<u8>| {
        let inside = [&file[..], b"/"].concat();
        all.iter().any(|path| path.starts_with(&inside))
    };
    paths.retain(|path| !used(path));
    paths
}

/// One thing that may be wrong with some paths.
fn damage(r: &mut Random, paths: &mut Vec<Vec<u8>>) {
    if paths.is_empty() {
        paths.push(bad_part(r));
        return;
    }
    let k = r.below(paths.len());
    match r.below(13) {
        0 => paths.swap(k, r.below(k + 1)),
        1 => paths.insert(k, paths[k].clone()),
        2 => {
            let other = paths.remove(k);
            paths.insert(r.below(paths.len() + 1), other);
        }
        // The file is used as a directory, where the order wants it.
        3..=5 => {
            let inside = [&paths[k][..], b"/", *r.pick(&PARTS)].concat();
            if r.chance(60) {
                // Between them in the order of bytes.
                paths.push([&paths[k][..], *r.pick(&[&b"-"[..], b".b", b" ", b"!/x"])].concat());
            }
            paths.push(inside);
            paths.sort();
            paths.dedup();
        }
        6 | 7 => {
            let mut parts: Vec<Vec<u8>> =
                paths[k].split(|b| *b == b'/').map(<[u8]>::to_vec).collect();
            let at = r.below(parts.len());
            parts[at] = bad_part(r);
            paths[k] = parts.join(&b'/');
        }
        8 => {
            let at = r.below(paths[k].len() + 1);
            paths[k].insert(at, *r.pick(b"/\\:.\x1f\x81\xff"));
        }
        9 => {
            let length = *r.pick(&[1_023, 1_024, 1_025, 1_025, 1_026]);
            let filling = *r.pick(b"aa:\x01");
            while paths[k].len() < length {
                paths[k].push(filling);
            }
            paths[k..].sort();
        }
        10 => {
            let depth = *r.pick(&[63, 64, 65, 66]);
            let deep = [&b"a/".repeat(depth)[..], b"a"].concat();
            paths.push(deep);
            paths.sort();
        }
        11 => paths[k] = bad_part(r),
        _ => paths.reverse(),
    }
}

fn size(r: &mut Random, small: bool) -> u32 {
    match r.below(if small { 4 } else { 16 }) {
        0 | 1 => 0,
        2 => 1,
        3 => r.within(1, 0x100) as u32,
        4 => 0x7fff,
        5 => 0x8000,
        6 => 0x8001,
        7 | 8 => r.within(1, 0x8000) as u32,
        9 | 10 => r.within(0x8001, 0x1_0000) as u32,
        11 => 0x1_0000 - r.below(3) as u32,
        12 => r.within(1, 0x1_8000) as u32,
        13 if r.chance(25) => any_number(r),
        14 if r.chance(15) => u32::MAX - r.below(2) as u32,
        _ => 0,
    }
}

fn near(value: u64, r: &mut Random) -> u32 {
    let value = value + *r.pick(&[0, 0, 0, 1, 2]);
    value.saturating_sub(r.below(2) as u64).min(u32::MAX.into()) as u32
}

/// The least disc end; of one past 32 bits the lower ones, for a sum that wraps.
fn least_end(list: &WishList, tree: &WishedTree) -> u64 {
    list.least_end(tree) % (1 << 32)
}

fn wished(r: &mut Random) -> Asked {
    let mut paths = good_paths(r);
    if r.chance(35) {
        for _ in 0..*r.pick(&[1, 1, 1, 2, 3]) {
            damage(r, &mut paths);
        }
    }
    let small = r.chance(25) || paths.len() > 12;
    let empty = r.chance(20) || paths.len() > 24;
    let mut sizes: Vec<u32> =
        paths.iter().map(|_| if empty { 0 } else { size(r, small) }).collect();
    if sizes.len() > 1 && r.chance(4) {
        // Together some clusters more than 2^32 bytes.
        let k = r.below(sizes.len() - 1);
        sizes[k] = any_number(r) | 0x4000_0000;
        sizes[k + 1] = (r.below(3) as u32 * 0x8000).wrapping_sub(sizes[k]);
    }
    let mut bytes: Vec<u8> = paths.iter().flat_map(|path| [&path[..], b"\0"].concat()).collect();
    match r.below(100) {
        0 => sizes.push(size(r, small)),
        1 => _ = sizes.pop(),
        2 => _ = bytes.pop(),
        3 => bytes.push(0),
        4 => bytes.extend(*r.pick(&PARTS)),
        5 => bytes.insert(r.below(bytes.len() + 1), 0),
        _ => (),
    }
    let game_code = [r.byte(), r.byte(), r.byte(), r.byte()];
    let mut list = WishList { game_code, disc_end: 0, sizes, paths: bytes };
    let tree = list.tree();
    list.disc_end = match (&tree, r.below(20)) {
        (_, 0) => any_number(r),
        (Err(_), _) => r.below(0x600) as u32,
        (Ok(_), 1) => r.below(0x600) as u32,
        (Ok(tree), 2 | 3) => near(0x440 + tree.table_size() as u64, r),
        (Ok(tree), 4..=9) => least_end(&list, tree) as u32,
        (Ok(tree), 10..=14) => near(least_end(&list, tree), r),
        (Ok(tree), 15) => near(least_end(&list, tree).next_multiple_of(ALIGN), r),
        (Ok(tree), 16) => near(least_end(&list, tree) + r.below(0x9000) as u64, r),
        (Ok(tree), _) => near(least_end(&list, tree) + r.below(0x300) as u64, r),
    };
    let disc = list.disc_end as usize;
    let room = match r.below(24) {
        0 => disc.saturating_sub(1),
        1 => r.below(disc.min(BUFFER) + 1),
        2..=8 => disc + *r.pick(&[1, 2, 0x10, 0x123, 0x1000]),
        _ => disc,
    };
    let [least, table] = tree.as_ref().map_or([16, 64], WishedTree::least);
    let words = match r.below(24) {
        0 => least - 1,
        1..=4 => least,
        5 if r.chance(50) => 0,
        6 => r.below(16),
        _ => least + r.below(100),
    };
    let bytes = match r.below(24) {
        0 => table - 1,
        1..=4 => table,
        5 if r.chance(50) => 0,
        _ => table + r.below(200),
    };
    let lent = match r.below(400) {
        0..=7 => [0, 0],
        8 => AMPLE,
        _ => [words, bytes],
    };
    let sought = r.below(list.sizes.len().max(1));
    Asked { list, room: room.min(BUFFER), lent, sought }
}

// Lists that are not made up at random --------------------------------------------------------

fn list(disc_end: u32, paths: &[&[u8]], sizes: &[u32]) -> WishList {
    let paths = paths.iter().flat_map(|path| [path, &b"\0"[..]].concat()).collect();
    WishList { game_code: *b"GWLE", disc_end, sizes: sizes.to_vec(), paths }
}

/// Every short text over a few bytes as the paths, with as many sizes as zero bytes, one more and one fewer.
fn every_text() -> Vec<Asked> {
    let mut texts = all_texts(b"\0a-/.", 6);
    texts.extend(all_texts(b"\0a/\x81\\:", 5));
    texts.extend(all_texts(&names::BOUNDS, 3).into_iter().map(|text| [&text[..], b"\0"].concat()));
    let mut asked = vec![];
    for text in texts {
        let ends = text.iter().filter(|byte| **byte == 0).count();
        for count in ends.saturating_sub(1)..=ends + 1 {
            if count == ends || text.len() <= 4 {
                let (game_code, sizes) = (*b"GWLE", vec![0; count]);
                let list = WishList { game_code, disc_end: 0x500, sizes, paths: text.clone() };
                asked.push(Asked { lent: [64, 0x100], ..Asked::amply(list) });
            }
        }
    }
    asked
}

/// Every list of up to four of these paths, in any order.
fn every_list() -> Vec<Asked> {
    let pool: [&[u8]; 12] = [
        b"a", b"a-b", b"a.b", b"a/b", b"a/b/c", b"a/c", b"a0", b"ab", b"b", b"a/b-c", b"A",
        b"\xb1/a",
    ];
    let mut asked = vec![];
    let indices: Vec<u8> = (0..pool.len() as u8).collect();
    for which in all_texts(&indices, 4) {
        let paths: Vec<&[u8]> = which.iter().map(|k| pool[usize::from(*k)]).collect();
        let list = list(0x600, &paths, &vec![0; paths.len()]);
        asked.push(Asked { lent: [64, 0x100], ..Asked::amply(list) });
    }
    asked
}

/// Every number of bytes at which a disc may end around the table of a file or of none; files of sizes at the
/// boundaries, at the least disc end and one below it.
fn every_end() -> Vec<Asked> {
    let mut asked = vec![];
    for disc_end in 0..0x4a0 {
        for room in [disc_end as usize, (disc_end as usize).saturating_sub(1), 0x4a0] {
            for list in [list(disc_end, &[], &[]), list(disc_end, &[b"a", b"b/a"], &[0, 0])] {
                asked.push(Asked { room, lent: [64, 0x100], list, sought: 0 });
            }
        }
    }
    let all = [0, 1, 2, 0x7fff, 0x8000, 0x8001];
    for which in all_texts(&[0, 1, 2, 3, 4, 5], 4) {
        let sizes: Vec<u32> = which.iter().map(|k| all[usize::from(*k)]).collect();
        let paths: [&[u8]; 4] = [b"a", b"b/a", b"b/b", b"c"];
        let mut list = list(0, &paths[..sizes.len()], &sizes);
        let least = list.least_end(&list.tree().unwrap_or_else(|number| panic!("{number}"))) as u32;
        for disc_end in [least - 1, least, least + 1] {
            list.disc_end = disc_end;
            asked.push(Asked { lent: [64, 0x100], ..Asked::amply(list.clone()) });
        }
    }
    asked
}

/// So many paths of eight bytes, each in a directory of a hundred where `nested`.
fn many(count: usize, nested: bool) -> Vec<Vec<u8>> {
    let path = |k: usize| {
        let text = format!("{k:06}");
        if nested { format!("d{}/{}", &text[..4], &text[4..]) } else { format!("f.{text}") }
    };
    (0..count).map(|k| path(k).into_bytes()).collect()
}

/// Lists at the limits.
fn limits() -> Vec<Asked> {
    let mut asked = vec![];
    let mut with = |paths: Vec<Vec<u8>>, sizes: &dyn Fn(usize) -> u32| {
        let paths: Vec<&[u8]> = paths.iter().map(Vec::as_slice).collect();
        let sizes: Vec<u32> = (0..paths.len()).map(sizes).collect();
        let mut list = list(0, &paths, &sizes);
        let tree = list.tree();
        let least = tree.as_ref().map_or(0x500, |tree| least_end(&list, tree));
        let lent = tree.as_ref().map_or(AMPLE, WishedTree::least);
        for disc_end in [least as u32, least as u32 - 1] {
            list.disc_end = disc_end;
            for lent in [AMPLE, lent, [lent[0] - 1, lent[1]], [lent[0], lent[1] - 1]] {
                let room = (disc_end as usize).min(BUFFER);
                let sought = list.sizes.len().saturating_sub(1);
                asked.push(Asked { list: list.clone(), room, lent, sought });
            }
        }
    };
    for depth in 60..=67 {
        with(vec![[&b"a/".repeat(depth)[..], b"a"].concat()], &|_| 1);
        let beside = [&b"a/".repeat(depth)[..], b"b/c"].concat();
        with(vec![b"A/x/y".to_vec(), [&b"a/".repeat(depth)[..], b"a"].concat(), beside], &|_| 0);
    }
    for length in 1_022..=1_026 {
        with(vec![b"a".repeat(length)], &|_| 1);
        with(vec![b":".repeat(length)], &|_| 1);
        with(vec![b"\x01".repeat(length)], &|_| 1);
        with(vec![b"\x83\x5c".repeat(length / 2), b"\x83\x5c".repeat(length / 2 + 1)], &|_| 1);
        with(vec![[&b"a".repeat(length - 2)[..], b"/b"].concat()], &|_| 1);
    }
    for count in [16_382, 16_383, 16_384] {
        with(many(count, false), &|k| u32::from(k == 7) * 9);
    }
    // With 164 directories.
    for count in [16_218, 16_219, 16_220, 16_221] {
        with(many(count, true), &|_| 0);
    }
    // Tables that end just below 0x8000 or behind it.
    for count in 1_500..1_512 {
        with(many(count, false), &|k| [0x8000, 5, 0][k.min(2)]);
    }
    // Texts at the limit.
    for more in [0, 1] {
        let name = |k: usize| [format!("{k:04}").as_bytes(), &b"x".repeat(1_019)].concat();
        let mut names: Vec<Vec<u8>> = (0..1_024).map(name).collect();
        names[1_023].extend(b"x".repeat(more));
        with(names, &|_| 0);
    }
    with(vec![b"a".to_vec(), b"b".to_vec()], &|_| u32::MAX);
    with((b'a'..=b'z').map(|b| vec![b]).collect(), &|_| u32::MAX);
    with(many(9, false), &|k| [0x18_0000, 1, 0x7fff, 0x8001, 0, 0, 2, 0x8000, 3][k]);
    asked
}

/// Lists at the boundaries and `count` random ones, and lists of edits on some of the masters.
pub fn wishes(run: &mut Run, seed: u64, count: u64) {
    let mut wishing = Wishing::new(run, seed);
    for asked in [every_text(), every_list(), every_end(), limits()] {
        wishing.all(&asked);
    }
    wishing.edit();
    let mut begun = 0;
    while begun < count && !wishing.run.over() {
        let wave: Vec<Asked> = (begun..count.min(begun + 4_096))
            .map(|k| {
                let seed = seed.wrapping_add(k.wrapping_mul(0x2545_f491_4f6c_dd1d));
                wished(&mut Random::new(seed ^ 0x5769_7368))
            })
            .collect();
        begun += wave.len() as u64;
        wishing.all(&wave);
        wishing.edit();
        let calls = wishing.run.counts.calls.get("master").map_or(0, |(calls, _)| *calls);
        eprintln!("{calls} wish lists, {} calls", wishing.run.counts.total());
    }
}
