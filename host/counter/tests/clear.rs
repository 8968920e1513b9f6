//! `clear`: the run that costs least, by the rule's own words; the files in it, and the moves that make it
//! free, which are really made.

mod support;

use std::ffi::OsStr;
use std::fs;
use std::os::unix::ffi::OsStrExt;
use std::path::Path;
use std::process::Command;
use support::power::Random;
use support::*;

// The rule --------------------------------------------------------------------------------

/// A file that has bytes: its place in the table, its offset, its end.
type Bytes = (usize, u64, u64);

fn files(table: &Table) -> Vec<Bytes> {
    let files = table.entries.iter().enumerate().filter(|(_, e)| !e.folder && e.size > 0);
    files.map(|(i, e)| (i, e.offset.into(), u64::from(e.offset) + u64::from(e.size))).collect()
}

/// The files in a run of n bytes at x, if it is one.
fn in_run(table: &Table, n: u64, x: u64) -> Option<Vec<Bytes>> {
    let shares = |start: u64, end: u64| start < x + n && x < end;
    let is_run = x >= table.table_end
        && x + n <= table.end
        && table.program.is_none_or(|(start, end)| !shares(start, end));
    is_run.then(|| files(table).into_iter().filter(|file| shares(file.1, file.2)).collect())
}

fn cost(table: &Table, n: u64, x: u64) -> Option<u64> {
    in_run(table, n, x).map(|files| files.into_iter().map(|file| file.2 - file.1).sum())
}

/// How many were tried, where the cheapest starts, its cost and the bound; None for 21.
fn cheapest(table: &Table, n: u64, budget: usize) -> Option<Option<[u64; 4]>> {
    let mut ends: Vec<u64> = files(table).into_iter().map(|file| file.2).collect();
    ends.push(table.table_end);
    ends.extend(table.program.map(|program| program.1));
    ends.sort();
    ends.dedup();
    let runs: Vec<(u64, u64)> =
        ends.into_iter().filter_map(|x| Some((cost(table, n, x)?, x))).collect();
    if n == 0 || runs.is_empty() {
        return None;
    }
    let tried = runs.len().min(budget);
    let least = runs[..tried].iter().min();
    Some(least.map(|&(cost, x)| {
        let free: u64 = table.free().iter().map(|region| region.1).sum();
        let floor = if table.largest() >= n { 0 } else { n.saturating_sub(free).max(1) };
        let bound = if tried == runs.len() { 0 } else { cost - floor };
        [tried as u64, x, cost, bound]
    }))
}

/// The longest run that there is.
fn longest(table: &Table) -> u64 {
    match table.program {
        None => table.end - table.table_end,
        Some((start, end)) => (start - table.table_end).max(table.end - end),
    }
}

// What is told ----------------------------------------------------------------------------

/// Asks for n bytes, within a budget or not, and holds the answer to the rule; gives it where a run was
/// tried.
fn asked(image: &Path, n: u64, budget: Option<usize>) -> Option<Json> {
    let table = Table::of(image);
    let (size, most) = (n.to_string(), budget.unwrap_or(0).to_string());
    let mut rest = vec![size.as_str(), "--json"];
    if budget.is_some() {
        rest.extend(["--budget", &most]);
    }
    let run = on("clear", image, &rest);
    let told = Json::read(&run.out);
    let Some(wanted) = cheapest(&table, n, budget.unwrap_or(usize::MAX)) else {
        assert_eq!((run.status, told.at("refused").number()), (21, 21), "{n}: {}", run.err);
        assert_eq!(told.at("most").number(), longest(&table), "{n}");
        return None;
    };
    assert_eq!((run.status, run.err.as_str()), (0, ""), "{n} {budget:?}");
    assert_eq!(told.at("size").number(), n);
    let Some([tried, offset, cost, bound]) = wanted else {
        assert_eq!((told.at("tried").number(), told.at("offset")), (0, &Json::Null), "{n}");
        return None;
    };
    for (name, value) in [
        ("tried", tried),
        ("offset", offset),
        ("end", offset + n),
        ("cost", cost),
        ("bound", bound),
    ] {
        assert_eq!(told.at(name).number(), value, "{n} {budget:?}: {name}");
    }
    let all = cheapest(&table, n, usize::MAX).unwrap().unwrap()[0];
    assert_eq!(told.at("all_tried").flag(), tried == all, "{n} {budget:?}");
    let mut wanted: Vec<Bytes> = in_run(&table, n, offset).unwrap();
    wanted.sort_by_key(|file| file.1);
    let listed = told.at("files").list().iter().map(|file| {
        let [number, offset, size] =
            ["number", "offset", "size"].map(|name| file.at(name).number());
        (number as usize, offset, offset + size)
    });
    assert_eq!(listed.collect::<Vec<Bytes>>(), wanted, "{n} {budget:?}");
    Some(told)
}

fn bytes_of(path_bytes: &str) -> Vec<u8> {
    let digits = path_bytes.as_bytes().chunks(2).map(|pair| std::str::from_utf8(pair).unwrap());
    digits.map(|pair| u8::from_str_radix(pair, 16).unwrap()).collect()
}

/// Makes the moves of an answer in the table alone: each to a place that is free then, outside of the run.
/// The files that stay have no place that is free, and the others are gone from the run.
fn replayed(image: &Path, told: &Json) -> Table {
    let mut table = Table::of(image);
    let (start, end) = (told.at("offset").number(), told.at("end").number());
    for step in told.at("moves").list() {
        let path = bytes_of(step.at("path_bytes").text());
        let entry = table.entries.iter().position(|entry| entry.bytes == path).unwrap();
        let (to, size) = (step.at("offset").number(), u64::from(table.entries[entry].size));
        let is_free = |&(at, len): &(u64, u64)| at <= to && to + size <= at + len;
        assert!(table.free().iter().any(is_free), "{to:#x} {size:#x} {:x?}", table.free());
        assert!(to + size <= start || end <= to, "{to:#x} {size:#x}");
        table.entries[entry].offset = to as u32;
    }
    let left: Vec<u64> = table
        .free()
        .into_iter()
        .flat_map(|(at, len)| [(at, (at + len).min(start)), (at.max(end), at + len)])
        .map(|(at, end)| end.saturating_sub(at))
        .collect();
    let largest = left.into_iter().max().unwrap_or(0);
    assert_eq!(told.at("largest_left").number(), largest);
    let mut stay = 0;
    for file in told.at("files").list() {
        let number = file.at("number").number() as usize;
        match file.at("to") {
            Json::Null => {
                stay += 1;
                assert!(file.at("size").number() > largest, "{file:?}");
                assert!(file.at("detail").text().contains("no free place"), "{file:?}");
            }
            to => assert_eq!(u64::from(table.entries[number].offset), to.number()),
        }
    }
    assert_eq!(told.at("no_place").number(), stay);
    assert_eq!(told.at("files").list().len() as u64, stay + told.at("moves").list().len() as u64);
    table
}

/// Whether the run of an answer is free in the image as it is.
fn is_free(image: &Path, told: &Json) -> bool {
    let (start, end) = (told.at("offset").number(), told.at("end").number());
    let regions = json("free", image, &[]);
    regions.at("regions").list().iter().any(|region| {
        let at = region.at("offset").number();
        at <= start && end <= at + region.at("size").number()
    })
}

/// Makes the moves by their sheet: the run is free, each file is whole, nothing else is written.
fn cleared(temp: &Temp, image: &Path, told: &Json, ask: &[&str]) {
    let before = Table::of(image);
    let contents = |table: &Table| -> Vec<Vec<u8>> {
        let span =
            |e: &Entry| span(image, e.offset.into(), if e.folder { 0 } else { e.size.into() });
        table.entries.iter().map(span).collect()
    };
    let was = contents(&before);
    let sheet = temp.at("moves.sheet");
    let sheet = sheet.to_str().unwrap();
    let _ = fs::remove_file(sheet);
    let made = json("clear", image, &[ask, &["--sheet", sheet]].concat());
    assert_eq!(made.at("moves"), told.at("moves"));
    assert_eq!(made.at("out").text(), sheet);
    let run = on("sheet", image, &[sheet]);
    assert_eq!(run.status, 0, "{}", run.err);
    assert!(is_free(image, told));
    let after = replayed_of(&before, told);
    assert_eq!(Table::of(image).entries, after.entries);
    assert!(contents(&after) == was);
}

/// The table of before with the files where an answer has them.
fn replayed_of(before: &Table, told: &Json) -> Table {
    let mut table = before.clone();
    for file in told.at("files").list().iter().filter(|file| *file.at("to") != Json::Null) {
        table.entries[file.at("number").number() as usize].offset = file.at("to").number() as u32;
    }
    table
}

// The small master ------------------------------------------------------------------------

#[test]
fn the_small_master_in_words() {
    let temp = Temp::new();
    temp.write("small.iso", &filled_master());
    let here = |rest: &[&str]| -> Run {
        let mut command = program();
        command.arg("clear").arg("small.iso").args(rest).current_dir(temp.at(""));
        command.output().unwrap().into()
    };
    let before = State::of(&temp.at("small.iso"));
    for (rest, wanted) in [
        (
            &["167", "--budget", "1"][..],
            "offset            0x45a (1,114)\n\
             end               0x501 (1,281)\n\
             size              0xa7 (167 bytes)\n\
             aligned           no multiple of 0x8000 is in it\n\
             tried             1 candidate, and there are more\n\
             cost              0x100 (256 bytes), 1 file\n\
             cheaper           another run may be, by 0x100 (256 bytes) at most\n\
             \x20   offset        size          bytes     goes to  path\n\
             0x00000500  0x00000100            256  0x00000600  /a\n\
             note: what goes to 0x45c lies right behind the table: no entry can be added while it is there\n\
             1 move; tried on a private copy and accepted:\n\
             counter move small.iso /a 0x600\n\
             then a new file of at most 420 bytes (added, empty, before this was asked) goes there by\n\
             counter move small.iso PATH 0x45c\n\
             counter fill small.iso PATH CLIP\n",
        ),
        (
            &["0xa7"],
            "offset            0x600 (1,536)\n\
             end               0x6a7 (1,703)\n\
             size              0xa7 (167 bytes)\n\
             aligned           no multiple of 0x8000 is in it\n\
             tried             2 candidates, all that there are\n\
             cost              0: the run is free\n\
             cheaper           no run is\n\
             then a new file of at most 6,656 bytes (added, empty, before this was asked) goes there by\n\
             counter move small.iso PATH 0x600\n\
             counter fill small.iso PATH CLIP\n",
        ),
        // 7,078 bytes are all that there is, so nothing is left for `a`.
        (
            &["7078", "--budget", "9"],
            "offset            0x45a (1,114)\n\
             end               0x2000 (8,192)\n\
             size              0x1ba6 (7,078 bytes, 6.91 KiB)\n\
             aligned           no multiple of 0x8000 is in it\n\
             tried             1 candidate, all that there are\n\
             cost              0x100 (256 bytes), 1 file\n\
             cheaper           no run is\n\
             \x20   offset        size          bytes     goes to  path\n\
             0x00000500  0x00000100            256        none  /a\n\
             no place is left for 1 file of 256 bytes; the largest free region that is left outside of the run \
             has 0 bytes\n\
             note: SIZE is 256 bytes more than all that is free: files have to be made smaller by as much, no move \
             does it\n\
             no move frees the run: 1 file stays in it\n",
        ),
        (
            &["5389", "--budget", "0"],
            "tried             none, with a budget of 0; there is a run\n",
        ),
    ] {
        let run = here(rest);
        assert_eq!((run.status, run.err.as_str(), run.out.as_str()), (0, "", wanted), "{rest:?}");
    }
    let all = "the longest has 7,078, from the table's end, 0x45a, to the disc end, 0x2000";
    for (size, more) in [("7079", ""), ("4294967295", ""), ("0", "a run has at least 1 byte; ")] {
        for budget in [&[][..], &["--budget", "0"], &["--budget", "1"]] {
            let run = here(&[&[size], budget].concat());
            let what = if size == "4294967295" {
                "4,294,967,295"
            } else {
                &grouped(size.parse().unwrap())
            };
            let wanted =
                format!("counter: a run of {what} bytes: refused 21: no space ({more}{all})\n");
            assert_eq!((run.status, run.out.as_str(), run.err), (21, "", wanted), "{size}");
        }
    }
    assert_eq!(State::of(&temp.at("small.iso")), before);
}

#[test]
fn the_small_master_in_json() {
    let temp = Temp::new();
    let image = temp.write("small.iso", &filled_master());
    let name = image.display();
    let told = done("clear", &image, &["167", "--budget", "1", "--json"]);
    let wanted = format!(
        r#"{{
  "status": 0,
  "image": "{name}",
  "size": 167,
  "budget": 1,
  "tried": 1,
  "all_tried": false,
  "offset": 1114,
  "end": 1281,
  "aligned": null,
  "cost": 256,
  "bound": 256,
  "files": [
    {{"number": 1, "path": "/a", "path_bytes": "2f61", "offset": 1280, "size": 256, "to": 1536, "detail": null}}
  ],
  "no_place": 0,
  "largest_left": 6400,
  "table_in_run": null,
  "moves": [
    {{"path": "/a", "path_bytes": "2f61", "offset": 1536}}
  ],
  "accepted": 1,
  "refusal": null,
  "untried": null,
  "clears": true,
  "place": 1116,
  "room": 420,
  "out": null,
  "notes": ["what goes to 0x45c lies right behind the table: no entry can be added while it is there"]
}}
"#
    );
    assert_eq!(told, wanted);
    let told = done("clear", &image, &["5389", "--budget", "0", "--json"]);
    let wanted = format!(
        r#"{{
  "status": 0,
  "image": "{name}",
  "size": 5389,
  "budget": 0,
  "tried": 0,
  "all_tried": false,
  "offset": null,
  "end": null,
  "aligned": null,
  "cost": null,
  "bound": null,
  "files": [],
  "no_place": null,
  "largest_left": null,
  "table_in_run": null,
  "moves": [],
  "accepted": 0,
  "refusal": null,
  "untried": null,
  "clears": false,
  "place": null,
  "room": null,
  "out": null,
  "notes": []
}}
"#
    );
    assert_eq!(told, wanted);
    let refused = on("clear", &image, &["7079", "--json"]);
    let refused = Json::read(&refused.out);
    assert_eq!(refused.at("status").number(), 21);
    assert_eq!(refused.at("cause").text(), "no space");
    assert_eq!(refused.at("about").text(), "a run of 7,079 bytes");
    assert_eq!(refused.at("most").number(), 7078);
}

/// Each with the answer by hand: tried, offset, cost, bound.
#[test]
fn the_numbers_of_the_small_master() {
    let temp = Temp::new();
    let image = temp.write("small.iso", &filled_master());
    let answer = |image: &Path, n: u64, budget: usize| {
        let told = asked(image, n, Some(budget))?;
        Some(["tried", "offset", "cost", "bound"].map(|name| told.at(name).number()))
    };
    for (n, budget, wanted) in [
        (167, 1, [1, 1114, 256, 256]),
        (167, 2, [2, 1536, 0, 0]),
        (166, 2, [2, 1114, 0, 0]),
        (6656, 2, [2, 1536, 0, 0]),
        // More than any free region, and not more than all of them: at least a byte has to go.
        (6657, 9, [1, 1114, 256, 0]),
        (7078, 9, [1, 1114, 256, 0]),
        (5389, 9, [2, 1536, 0, 0]),
    ] {
        assert_eq!(answer(&image, n, budget), Some(wanted), "{n} {budget}");
    }
    for (n, budget) in [(7079, 0), (7079, 9), (u32::MAX.into(), 9), (0, 0), (0, 9), (5389, 0)] {
        assert_eq!(answer(&image, n, budget), None, "{n} {budget}");
    }
    // `a` with 756 bytes at 0x800 leaves 5,388 behind it.
    done("resize", &image, &["a", "756"]);
    done("move", &image, &["a", "0x800"]);
    assert_eq!(answer(&image, 5389, 9), Some([1, 1114, 756, 0]));
    assert_eq!(answer(&image, 5388, 9), Some([2, 2804, 0, 0]));
    // Behind the run are 1,689 bytes, none of them a multiple of 0x800.
    let told = json("clear", &image, &["5389"]);
    assert_eq!(told.at("files").list()[0].at("to").number(), 6504);
    let note = "/a lies on a multiple of 0x800, and 0x1968 is none: no place on one is left";
    assert_eq!(notes(&told)[0], note);
    let text = done("clear", &image, &["5389"]);
    assert!(text.contains(&format!("\nnote: {note}\nnote: from 0x45c on, ")), "{text}");
    cleared(&temp, &image, &told, &["5389"]);
}

// Programs --------------------------------------------------------------------------------

/// The small master with a program of 0x123 bytes at 0x1000, 4096 to 4387.
#[test]
fn a_program_behind_the_table_is_in_no_run() {
    let temp = Temp::new();
    let mut bytes = filled_master();
    put_program(&mut bytes, 0x1000, 0x100, 0x23);
    let image = temp.write("small.iso", &bytes);
    for (n, budget, wanted) in [
        // Up to the program are 2,982 bytes, 2,560 of them behind `a`; behind it 3,805.
        (2560, 1, [1, 1114, 256, 256]),
        (2560, 9, [3, 1536, 0, 0]),
        (2561, 1, [1, 1114, 256, 256]),
        (2561, 9, [2, 4387, 0, 0]),
        (2982, 9, [2, 4387, 0, 0]),
        (2983, 1, [1, 4387, 0, 0]),
        (3805, 9, [1, 4387, 0, 0]),
    ] {
        let told = asked(&image, n, Some(budget)).unwrap();
        let found = ["tried", "offset", "cost", "bound"].map(|name| told.at(name).number());
        assert_eq!(found, wanted, "{n} {budget}");
        replayed(&image, &told);
    }
    assert!(asked(&image, 3806, None).is_none());
    let run = on("clear", &image, &["3806"]);
    let wanted = "counter: a run of 3,806 bytes: refused 21: no space (the longest has 3,805, from the \
                  program's end, 0x1123, to the disc end, 0x2000)\n";
    assert_eq!((run.status, run.err.as_str()), (21, wanted));
    // At the disc's end the room before it is the longest: 7,938 - 1,114.
    put_program(&mut bytes, 0x1F02, 0, 0xFE);
    let image = temp.write("end.iso", &bytes);
    let run = on("clear", &image, &["7000"]);
    let wanted =
        "the longest has 6,824, from the table's end, 0x45a, to the program's start, 0x1f02";
    assert!(run.status == 21 && run.err.contains(wanted), "{}", run.err);
    let told = asked(&image, 6824, None).unwrap();
    assert_eq!(told.at("no_place").number(), 1);
    // Where it takes all that there is behind the table, there is no run at all.
    let mut bytes = small_master();
    put(&mut bytes, 0x440 + 12 + 8, 0);
    put_program(&mut bytes, 0x45A, 0x100, 0x2000 - 0x45A - 0x100);
    let image = temp.write("full.iso", &bytes);
    let run = on("clear", &image, &["1"]);
    let wanted = "counter: a run of 1 byte: refused 21: no space (between the table's end and the disc end \
                  there is room for none)\n";
    assert_eq!((run.status, run.err.as_str()), (21, wanted));
    assert!(asked(&image, 1, None).is_none());
    // Before the table it is a part of what lies there.
    let usual = usual_master(&temp);
    let told = asked(&usual, 0x10_0000, None).unwrap();
    replayed(&usual, &told);
}

// Many files ------------------------------------------------------------------------------

/// A disc of `end` bytes with so many files of up to `most` bytes, some of them empty, gaps between them, in
/// folders, in any order; with a program behind the table before the file with this number, if there is one.
fn any_disc(
    random: &mut Random,
    path: &Path,
    (count, most): (usize, usize),
    end: u32,
    program: Option<usize>,
) {
    let mut places = Vec::new();
    let mut at = FST as u32 + 40 * count as u32;
    let mut lies_at = None;
    for i in 0..count {
        if program == Some(i) {
            at += random.below(2) as u32 * 77;
            lies_at = Some(at);
            at += DOL_SIZE as u32;
        }
        let size = if random.below(8) == 0 { 0 } else { 1 + random.below(most) as u32 };
        at += if random.below(3) == 0 { 0 } else { random.below(most) as u32 };
        at = if random.below(2) == 0 { at.next_multiple_of(1 << random.below(8)) } else { at };
        if at + size > end {
            break;
        }
        places.push((at, size));
        at += size;
    }
    for i in (1..places.len()).rev() {
        places.swap(i, random.below(i + 1));
    }
    let files: Vec<Wish> = places
        .iter()
        .enumerate()
        .map(|(i, &(offset, size))| match size {
            // The end of an empty file is none.
            0 => file(format!("{i}"), random.below(end as usize) as u32, 0),
            size => file(format!("{i}"), offset, size),
        })
        .collect();
    let mut tree: Vec<Wish> = Vec::new();
    let mut rest = files;
    while !rest.is_empty() {
        let some = rest.split_off(rest.len().saturating_sub(1 + random.below(9)));
        tree.push(folder(format!("f{}", tree.len()), some));
    }
    let _ = fs::remove_file(path);
    sparse(path, &tree, end);
    lies_at.into_iter().for_each(|at| program_to(path, at));
}

#[test]
fn any_disc_is_answered_by_the_rule_and_cleared() {
    const END: u32 = 0x18_0000;
    let temp = Temp::in_memory();
    let image = temp.at("any.iso");
    let mut random = Random(0x0BAD_5EED_1234_5678);
    let (mut runs, mut freed, mut stay) = (0, 0, 0);
    for turn in 0..40 {
        let most = [30, 300, 3000, 10_000][turn % 4];
        // Before all files, in the midst, behind most of them, or before the table.
        let program = [None, Some(0), Some(50), Some(95), None][turn % 5];
        any_disc(&mut random, &image, (100, most), END, program);
        let table = Table::of(&image);
        assert_eq!(table.program.is_some(), program.is_some());
        let free = table.largest();
        let used = files(&table).iter().map(|file| file.2).max().unwrap_or(0) - table.table_end;
        let (all, long) = (longest(&table), u64::from(most as u32));
        let mut sizes = vec![1, long / 2, 4 * long, free, free + 1, used, all, all + 1];
        sizes.extend((0..6).map(|_| 1 + random.below(all as usize) as u64));
        for n in sizes {
            let told = asked(&image, n, None);
            for budget in [0, 1, 2, 1 + random.below(100), 1000] {
                if let Some(told) = asked(&image, n, Some(budget)) {
                    replayed(&image, &told);
                }
            }
            let Some(told) = told else { continue };
            runs += 1;
            replayed(&image, &told);
            let (moves, no_place) = (told.at("moves").list().len(), told.at("no_place").number());
            assert_eq!(told.at("accepted").number(), moves as u64);
            stay += no_place;
            // Each line is synced, so not too many of them.
            if moves > 0 && moves < 30 && no_place == 0 {
                let copy = temp.at("copy.iso");
                fs::copy(&image, &copy).unwrap();
                cleared(&temp, &copy, &told, &[&n.to_string()]);
                freed += 1;
            }
        }
    }
    println!("{runs} runs, {freed} made free, {stay} files without a place");
    assert!(runs > 300 && freed > 40 && stay > 100, "{runs} {freed} {stay}");
}

/// A disc with the table at 0x440 and no program; what is free holds a pattern.
fn small_disc(entries: &[Wish], end: u32) -> Vec<u8> {
    let table = table(entries);
    let mut image = vec![0; end as usize];
    pattern(&mut image[0x440..], end);
    put(&mut image, 0x1C, 0xC233_9F3D);
    put(&mut image, 0x424, 0x440);
    put(&mut image, 0x428, table.len() as u32);
    put(&mut image, 0x434, end);
    image[0x440..0x440 + table.len()].copy_from_slice(&table);
    image
}

/// On a disc of a few files the runs at all starts are tried.
#[test]
fn no_run_at_any_start_is_cheaper() {
    let temp = Temp::in_memory();
    let mut random = Random(0x05EE_D0FD_15C5);
    let mut tried = 0;
    for _ in 0..60 {
        let mut at = 0x4C0 + random.below(0x40) as u32;
        let mut entries = Vec::new();
        for i in 0..random.below(7) {
            let size = [0, 1, 40, 100][random.below(4)] * (1 + random.below(4) as u32);
            entries.push(file(format!("{i}"), at, size));
            at += size + [0, 0, 1, 50, 200][random.below(5)];
        }
        let image = temp.write("small.iso", &small_disc(&entries, at + random.below(200) as u32));
        let table = Table::of(&image);
        for n in (1..longest(&table) + 2).step_by(20 + random.below(97)) {
            let least = (0..table.end).filter_map(|x| cost(&table, n, x)).min();
            let told = asked(&image, n, None);
            assert_eq!(told.map(|told| told.at("cost").number()), least, "{n}");
            for budget in 1..3 {
                let Some(told) = asked(&image, n, Some(budget)) else { continue };
                let [cost, bound] = ["cost", "bound"].map(|name| told.at(name).number());
                assert!(cost <= least.unwrap() + bound, "{n} {budget}");
                replayed(&image, &told);
                tried += 1;
            }
        }
    }
    assert!(tried > 500, "{tried}");
}

// Places, by hand -------------------------------------------------------------------------

fn moves(told: &Json) -> Vec<(&str, u64)> {
    let moves = told.at("moves").list().iter();
    moves.map(|step| (step.at("path").text(), step.at("offset").number())).collect()
}

fn notes(told: &Json) -> Vec<&str> {
    told.at("notes").list().iter().map(Json::text).collect()
}

#[test]
fn what_a_moved_file_leaves_is_used() {
    let temp = Temp::new();
    // The table ends at 0x468. Of the first run, 0x468 to 0x668, `l` goes to the only room for it, 0x900 to
    // 0xd00. It leaves 0x668 to 0x900, where 0x680 is the first multiple of 0x80, which `s` lies on.
    let entries = [file("s", 0x480, 0x40), file("l", 0x500, 0x400)];
    let image = temp.write("left.iso", &small_disc(&entries, 0xD00));
    let ask = ["0x200", "--budget", "1"];
    let told = asked(&image, 0x200, Some(1)).unwrap();
    assert_eq!(moves(&told), [("/l", 0x900), ("/s", 0x680)]);
    cleared(&temp, &image, &told, &ask);
}

#[test]
fn the_smallest_room_on_the_files_own_multiple_is_taken() {
    let temp = Temp::new();
    // `f` lies on a multiple of 0x1000. There is room at 0x1a10 (0x120 bytes), 0x2f00 (0x300) and 0x4000.
    let entries = |end: u32| {
        let rest =
            [file("g", 0x1100, 0x910), file("h", 0x1B30, 0x13D0), file("i", end, 0x4000 - end)];
        [file("f", 0x1000, 0x100)].into_iter().chain(rest).collect::<Vec<Wish>>()
    };
    for (end, to) in [(0x3200, 0x3000), (0x3100, 0x3000), (0x30FF, 0x4000)] {
        let image = temp.write("f.iso", &small_disc(&entries(end), 0x6000));
        let told = asked(&image, 0xB7D, Some(1)).unwrap();
        assert_eq!(moves(&told), [("/f", to)], "{end:#x}");
        assert!(!notes(&told)[0].contains("lies on a multiple"));
    }
    // Without a room there on a multiple of 4, the first one of the smallest.
    let image = temp.write("f.iso", &small_disc(&entries(0x30FF), 0x4080));
    let told = asked(&image, 0xB7D, Some(1)).unwrap();
    assert_eq!(moves(&told), [("/f", 0x1A10)]);
    assert!(notes(&told)[0].contains("lies on a multiple"));
}

/// Where the new file goes, how many bytes it may have there, and what is noted of it.
#[test]
fn the_new_files_place() {
    let temp = Temp::new();
    // `a` takes all from the table on up to 0x10001, `b` what lies behind the room.
    let disc = |room: u32| {
        let (a, end) = (0x1_0001 - 0x468, 0x1_0001 + room);
        let files = [file("a", 0x468, a), file("b", end, 0x4_0000 - end)];
        temp.write("place.iso", &small_disc(&files, 0x4_0000))
    };
    let told = |room: u32, size: &str| {
        let told = json("clear", &disc(room), &[size]);
        assert_eq!((told.at("offset").number(), told.at("clears").flag()), (0x1_0001, true));
        let notes = notes(&told).into_iter().map(String::from).collect::<Vec<_>>();
        (told.at("place").number(), told.at("room").number(), notes)
    };
    // From 0x18000 on 0x8001 bytes are free, or 0x8000, or one fewer.
    assert_eq!(told(0x1_0000, "0x8000"), (0x1_8000, 0x8001, vec![]));
    assert_eq!(told(0xFFFF, "0x8000"), (0x1_8000, 0x8000, vec![]));
    let note = "0x10004 is no multiple of 0x8000: a file of at most 32,767 bytes can go to 0x18000 in its place; \
                for one of 32,768 bytes ask for 65,535 bytes, 0x7fff more";
    assert_eq!(told(0xFFFE, "0x8000"), (0x1_0004, 0xFFFB, vec![note.into()]));
    let text = done("clear", &disc(0xFFFE), &["0x8000"]);
    assert!(
        text.contains("\naligned           0x18000 (98,304), with 32,767 bytes from there on\n")
    );
    assert!(text.contains("\nthen a new file of at most 65,531 bytes (added, "), "{text}");
    assert!(text.contains(&format!(" PATH {:#x}\n", 0x1_0004)), "{text}");
    // From the first multiple of 4 on there are fewer bytes than were asked for, though SIZE are free.
    let notes = |only: &str, fewer: u32, size: u32| {
        let (ask, larger) = (size + 3, grouped(u64::from(size) + 0x7FFF));
        vec![
            format!(
                "from 0x10004 on, the first multiple of 4, there is room for only {only}, {fewer} fewer than SIZE: ask for {ask}"
            ),
            format!(
                "0x10004 is no multiple of 0x8000: for one of {size} bytes ask for {larger} bytes, 0x7fff more"
            ),
        ]
    };
    assert_eq!(told(31, "31"), (0x1_0004, 28, notes("28 bytes", 3, 31)));
    assert_eq!(told(31, "29"), (0x1_0004, 28, notes("28 bytes", 1, 29)));
    assert_eq!(told(31, "28").2.len(), 1);
    assert_eq!(told(4, "4"), (0x1_0004, 1, notes("1 byte", 3, 4)));
    // From 0x45a, the table's end, to the disc end are 2,982 bytes, of which 2,980 from 0x45c on.
    let image = temp.write("all.iso", &small_disc(&[file("y", 0, 0)], 0x1000));
    let all = json("clear", &image, &["2982"]);
    assert_eq!((all.at("place").number(), all.at("room").number()), (0x45C, 2980));
    let note = "from 0x45c on, the first multiple of 4, there is room for only 2,980 bytes, 2 fewer than SIZE; no \
                run is 3 bytes longer";
    assert_eq!(self::notes(&all)[0], note);
    // No multiple of 4 is in it.
    let note =
        "0x10001 is no multiple of 0x8000: for one of 3 bytes ask for 32,770 bytes, 0x7fff more";
    assert_eq!(told(3, "3"), (0x1_0001, 3, vec![note.into()]));
    assert!(done("clear", &disc(1), &["1"]).contains("\nsize              0x1 (1 byte)\n"));
}

#[test]
fn what_lies_right_behind_the_table_is_told() {
    let temp = Temp::new();
    let words = |at: u32| {
        format!(
            "what goes to {at:#x} lies right behind the table: no entry can be added while it is there"
        )
    };
    // The table ends at 0x45a, where `y` begins: an entry takes 14 bytes at least.
    for (size, place, is_told) in [(10, 0x464, true), (14, 0x468, false)] {
        let entries = [file("y", 0x45A, size)];
        let image = temp.write("near.iso", &small_disc(&entries, 0x1000));
        let told = json("clear", &image, &["0x100"]);
        assert_eq!(told.at("place").number(), place.into());
        let wanted = if is_told { vec![words(place)] } else { vec![] };
        assert_eq!(notes(&told), wanted);
    }
    // It ends at 0x468, and the one room for `x` is there.
    let entries = [file("x", 0x500, 0x40), file("y", 0x4A8, 0x58)];
    let image = temp.write("near.iso", &small_disc(&entries, 0x1000));
    let told = asked(&image, 0xAC1, None).unwrap();
    assert_eq!(moves(&told), [("/x", 0x468)]);
    assert!(notes(&told).contains(&words(0x468).as_str()));
    done("move", &image, &["x", "0x468"]);
    assert_eq!(on("add", &image, &["z"]).status, 21);
}

#[test]
fn files_go_right_behind_the_table_last() {
    let temp = Temp::new();
    // The table ends at 0x476, and 0x40 bytes are free there, the fewest that hold `x`; of a run of 0x140,
    // which starts behind `y`, it goes behind `z`, as long as there is room.
    for (end, to) in [(0xE80, 0xE00), (0xE10, 0xE00), (0xE0F, 0x478)] {
        let entries = [file("y", 0x4B6, 0x400), file("x", 0x904, 0x10), file("z", 0xA00, 0x400)];
        let image = temp.write("last.iso", &small_disc(&entries, end));
        let told = asked(&image, 0x140, None).unwrap();
        assert_eq!((told.at("offset").number(), moves(&told)), (0x8B6, vec![("/x", to)]));
        let is_behind = notes(&told).iter().any(|note| note.contains("right behind the table"));
        assert_eq!(is_behind, to == 0x478);
        cleared(&temp, &image, &told, &["0x140"]);
    }
}

/// Of two runs of 0x200 bytes the cheaper one has `b` of 0x150 in its way, for which there is no place, the
/// other one `p` and `q` of 0xb0 each. The table ends at 0x4a0.
#[test]
fn another_run_whose_files_find_places() {
    let temp = Temp::new();
    let told = |entries: [Wish; 6], end: u32, offset: u64, ask: &str| -> Json {
        let image = temp.write("other.iso", &small_disc(&entries, end));
        let told = asked(&image, 0x200, None).unwrap();
        let found = ["offset", "cost", "no_place"].map(|name| told.at(name).number());
        assert_eq!(found, [offset, 0x150, 1]);
        assert!(!told.at("clears").flag());
        if ask.is_empty() {
            assert_eq!(
                notes(&told),
                ["another run, which costs more, may do; a larger SIZE may show one"]
            );
            return told;
        }
        let note = format!("with {ask} every file finds a place: that run, at ");
        assert!(notes(&told)[0].starts_with(&note), "{told:?}");
        assert!(notes(&told)[0].ends_with(", costs 352 bytes"), "{told:?}");
        let words: Vec<&str> = ask.split(' ').collect();
        let (size, budget) = match words[..] {
            ["--budget", most] => ("0x200", Some(most)),
            _ => (words[3], None),
        };
        let rest = budget.map_or(vec![size], |most| vec![size, "--budget", most]);
        let other = json("clear", &image, &rest);
        assert!(other.at("clears").flag());
        cleared(&temp, &image, &other, &rest);
        other
    };
    let far = [
        file("w", 0x550, 0x400),
        file("p", 0x9F0, 0xB0),
        file("q", 0xAA0, 0xB0),
        file("v", 0xB50, 0x400),
        file("b", 0x1000, 0x150),
        file("u", 0x1150, 0x400),
    ];
    let other = told(far, 0x1600, 0xF50, "--budget 4");
    assert_eq!((other.at("offset").number(), other.at("cost").number()), (0x950, 0x160));
    let near = |u: u32| {
        [
            file("w", 0x550, 0x400),
            file("b", 0xA00, 0x150),
            file("v", 0xB50, 0x400),
            file("p", 0x1020, 0xB0),
            file("q", 0x10D0, 0xB0),
            file("u", 0x1180, u),
        ]
    };
    let other = told(near(0x400), 0x1630, 0x950, "a SIZE of 516");
    assert_eq!((other.at("offset").number(), other.at("cost").number()), (0xF50, 0x160));
    // Without the room behind `w` there is none for both.
    let mut entries = near(0x420);
    entries[0] = file("w", 0x4A0, 0x4B0);
    told(entries, 0x1630, 0x950, "");
}

// What stands in the way of moves ---------------------------------------------------------

/// The small master with `a` in the midst of it, 0x1200 to 0x1300: with budget 1 a run of 0x1000 bytes
/// touches it.
fn in_the_midst() -> Vec<u8> {
    let mut image = small_master();
    put(&mut image, 0x440 + 12 + 4, 0x1200);
    pattern(&mut image[0x1200..0x1300], 5);
    image
}

const MIDST: [&str; 3] = ["0x1000", "--budget", "1"];

#[test]
fn a_refused_move_is_told_with_its_cause() {
    let temp = Temp::new();
    // The header states a maximum of 25 bytes, and the table has 26.
    let mut bytes = in_the_midst();
    let image = temp.write("free.iso", &bytes);
    let free = json("clear", &image, &MIDST);
    assert_eq!((moves(&free), free.at("clears").flag()), (vec![("/a", 0x1600)], true));
    put(&mut bytes, 0x42C, 25);
    let image = temp.write("small.iso", &bytes);
    let before = State::of(&image);
    let told = asked(&image, 0x1000, Some(1)).unwrap();
    assert!(moves(&told).is_empty() && !told.at("clears").flag());
    assert_eq!((told.at("no_place"), told.at("place")), (&Json::Null, &Json::Null));
    assert_eq!(told.at("files").list()[0].at("detail").text(), "no place was looked for");
    let refusal = told.at("refusal");
    assert_eq!(refusal.at("number").number(), 26);
    assert_eq!(refusal.at("cause").text(), "new table above the maximum");
    assert!(refusal.at("detail").text().contains("1 above the maximum of 25"), "{refusal:?}");
    let why = format!(
        "no moves are told: a rewrite, and every edit that writes the table, is refused 26 (new table above the \
         maximum): {}",
        refusal.at("detail").text()
    );
    assert_eq!(notes(&told), [&why]);
    let text = done("clear", &image, &MIDST);
    assert!(text.ends_with(&format!("           -  /a\nnote: {why}\n")), "{text}");
    refused(&image, &["move", "a", "0x1600"], 26);
    let sheet = temp.at("moves.sheet");
    let run = on("clear", &image, &[&MIDST[..], &["--sheet", sheet.to_str().unwrap()]].concat());
    assert_eq!((run.status, run.err), (65, format!("counter: {}: {why}\n", image.display())));
    assert!(!sheet.exists());
    // A run that is free: no file can go there either.
    let text = done("clear", &image, &["1"]);
    assert!(text.ends_with(&format!("\nnote: {why}\n")), "{text}");
    assert_eq!(State::of(&image), before);
    done("maximum", &image, &["26"]);
    assert_eq!(moves(&json("clear", &image, &MIDST)), moves(&free));
    cleared(&temp, &image, &free, &MIDST);
}

/// A folder and a file in it share one name text, so that a table that is written anew has two bytes more.
fn shared(b_at: u32) -> Vec<u8> {
    let entries = [folder("x", vec![file("x", 0x1200, 0x100)]), file("y", b_at, 0x40)];
    let mut image = small_disc(&entries, 0x2000);
    // The file's name is the folder's, and the last text, `y`, moves to its place.
    put(&mut image, 0x440 + 24, 0);
    put(&mut image, 0x440 + 36, 2);
    image[0x440 + 48..][..6].copy_from_slice(b"x\0y\0\0\0");
    put(&mut image, 0x428, 48 + 4);
    image
}

#[test]
fn a_table_that_would_grow_into_the_run_comes_first() {
    let temp = Temp::new();
    // It ends at 0x474, and written anew at 0x476.
    let image = temp.write("shared.iso", &shared(0x600));
    let name = image.display();
    let told = json("clear", &image, &MIDST);
    assert_eq!(told.at("offset").number(), 0x474);
    assert_eq!(told.at("table_in_run").number(), 0x476);
    assert_eq!((told.at("moves").list().len(), told.at("no_place")), (0, &Json::Null));
    let to: Vec<&Json> = told.at("files").list().iter().map(|file| file.at("to")).collect();
    assert_eq!(to, [&Json::Null; 2]);
    let why = format!(
        "no moves are told: the next edit writes the table anew, and then it ends at 0x476, behind the run's start; \
         give `counter rewrite {name}`, and ask again"
    );
    assert_eq!(told.at("notes").list()[0].text(), why);
    let text = done("clear", &image, &MIDST);
    assert!(text.ends_with(&format!("           -  /x/x\nnote: {why}\n")), "{text}");
    let sheet = temp.at("moves.sheet");
    let run = on("clear", &image, &[&MIDST[..], &["--sheet", sheet.to_str().unwrap()]].concat());
    assert_eq!((run.status, run.err), (65, format!("counter: {name}: {why}\n")));
    assert!(!sheet.exists());
    // A run behind that is no matter; one that is free, is.
    let told = json("clear", &image, &["0x900", "--budget", "2"]);
    assert_eq!(told.at("offset").number(), 0x640);
    assert_eq!((told.at("table_in_run"), told.at("clears").flag()), (&Json::Null, true));
    for size in ["0x10", "1"] {
        let told = json("clear", &image, &[size]);
        assert_eq!((told.at("cost").number(), told.at("table_in_run").number()), (0, 0x476));
        assert!(!told.at("clears").flag());
    }
    // Then all is as it is told.
    done("rewrite", &image, &[]);
    let told = asked(&image, 0x1000, Some(1)).unwrap();
    assert_eq!((told.at("offset").number(), told.at("table_in_run")), (0x476, &Json::Null));
    replayed(&image, &told);
    cleared(&temp, &image, &told, &MIDST);
    // Where the table has no room to grow, no edit can write it.
    let image = temp.write("stuck.iso", &shared(0x474));
    let told = json("clear", &image, &["0x1000", "--budget", "2"]);
    assert_eq!((told.at("offset").number(), moves(&told).len()), (0x4B4, 0));
    assert_eq!((told.at("refusal").at("number").number(), told.at("accepted").number()), (21, 0));
    let why = told.at("refusal").at("detail").text();
    assert_eq!(why, json("check", &image, &[]).at("rewrite_detail").text());
    assert_eq!(on("move", &image, &["x/x", "0x1f00"]).status, 21);
    // A run before that file would be in the table's way: it is the refusal that is told.
    let told = json("clear", &image, &["0x30", "--budget", "1"]);
    assert_eq!((told.at("offset").number(), told.at("table_in_run")), (0x474, &Json::Null));
    assert_eq!(told.at("refusal").at("detail").text(), why);
}

#[test]
fn files_that_no_command_reaches_stay() {
    let temp = Temp::new();
    let run = ["0x30000", "--budget", "1"];
    let image = temp.at("equal.iso");
    let entries = [
        file("x", 0x6_0000, 0x100),
        file("x", 0x6_1000, 0x200),
        folder("d", vec![]),
        folder("d", vec![file("y", 0x6_2000, 0x300)]),
    ];
    sparse(&image, &entries, 0x18_0000);
    let told = json("clear", &image, &run);
    let details = |told: &Json| -> Vec<Json> {
        told.at("files").list().iter().map(|file| file.at("detail").clone()).collect()
    };
    let hidden = Json::Text("its path does not lead to it".into());
    assert_eq!(details(&told), [Json::Null, hidden.clone(), hidden]);
    assert_eq!((told.at("no_place").number(), moves(&told).len()), (2, 1));
    let text = done("clear", &image, &run);
    let words =
        "\nno command moves 2 files of 1,280 bytes together: their paths do not lead to them\n";
    assert!(text.contains(words), "{text}");
    let words = "these moves do not free the run: 2 files stay in it";
    let command = format!("counter move {} /x {:#x}\n", image.display(), moves(&told)[0].1);
    assert!(text.ends_with(&format!("{command}{words}\n")), "{text}");
    assert_eq!((told.at("clears").flag(), told.at("place")), (false, &Json::Null));
    assert_eq!(notes(&told), ["another run, which costs more, may do; a larger SIZE may show one"]);
    let sheet = temp.at("moves.sheet");
    let no_sheet = on("clear", &image, &[&run[..], &["--sheet", sheet.to_str().unwrap()]].concat());
    let words = format!("counter: {}: {words}\n", image.display());
    assert_eq!((no_sheet.status, no_sheet.err, sheet.exists()), (65, words, false));
    // Where another run has files in it that commands reach, that one is told, be there a move or none.
    let entries = [
        file("x", 0x600, 0x18),
        file("x", 0x900, 0x20),
        file("y", 0x1000, 0x22),
        file("z", 0x1400, 0x400),
    ];
    let image = temp.write("hidden.iso", &small_disc(&entries, 0x2000));
    let told = asked(&image, 0x900, None).unwrap();
    let found = ["offset", "cost", "no_place"].map(|name| told.at(name).number());
    assert_eq!(found, [0x618, 0x20, 1]);
    let note = "with a SIZE of 2574 every file finds a place: that run, at 0x920, costs 34 bytes";
    assert_eq!(notes(&told)[0], note);
    assert!(json("clear", &image, &["2574"]).at("clears").flag());
    let text = done("clear", &image, &["0x900"]);
    assert!(text.ends_with("\nno move frees the run: 1 file stays in it\n"), "{text}");
    // Four folders with names of 250 bytes: with a name of 21 a path has 1,026, with one of 20 it has 1,025,
    // and is taken without its first `/`.
    let image = temp.at("long.iso");
    let name = "-".repeat(249) + " ";
    let inner = vec![file("f".repeat(20), 0x6_0000, 0x100), file("f".repeat(21), 0x6_1000, 0x100)];
    let entries = (0..4).fold(inner, |inner, _| vec![folder(&name, inner)]);
    sparse(&image, &entries, 0x18_0000);
    let told = json("clear", &image, &run);
    let long = Json::Text("a path has at most 1,024 bytes".into());
    assert_eq!(details(&told), [Json::Null, long]);
    let text = done("clear", &image, &run);
    let words = "\nno command moves 1 file of 256 bytes: a path has at most 1,024 bytes\n";
    assert!(text.contains(words), "{text}");
    // It begins with a `-`, behind a quote.
    let line = text.lines().rfind(|line| line.starts_with("counter")).unwrap();
    assert!(line.starts_with(&format!("counter move -- {} '----", image.display())), "{line}");
    assert_eq!(in_shell(&temp, line.as_bytes()).status, 0);
    assert_eq!(json("clear", &image, &run).at("files").list().len(), 1);
}

#[test]
fn names_of_any_kind_pass_through_a_shell() {
    let temp = Temp::new();
    let names: [&[u8]; 7] = [
        b"\x95\x5c.bin",
        b"it's a film.thp",
        b"\x81\xad",
        b"$(touch spoiled)",
        b"~a;b&c",
        b"\"quoted\" #1",
        b"\xb1\xb2\xb3-!x",
    ];
    let files = names.iter().zip(0..).map(|(name, i)| file(name, 0x6_0000 + 0x1000 * i, 0x800));
    let entries = [folder(b"\x83\x65\x83\x58\x83\x67 1", files.collect())];
    for (rest, image) in [(&[][..], "my disc.iso"), (&["--bytes"], "it's.iso"), (&[], "-disc.iso")]
    {
        let path = temp.at(image);
        let _ = fs::remove_file(&path);
        sparse(&path, &entries, 0x18_0000);
        let mut command = program();
        command.args(["clear", "--budget", "1"]).args(rest).args(["--", image, "0x20000"]);
        let asked: Run = command.current_dir(temp.at("")).output().unwrap().into();
        assert_eq!((asked.status, asked.err.as_str()), (0, ""));
        let lines = asked.bytes.split(|&b| b == b'\n');
        let moves: Vec<&[u8]> = lines.filter(|line| line.starts_with(b"counter move ")).collect();
        assert_eq!(moves.len(), names.len() + 1, "{}", asked.out);
        for line in &moves[..names.len()] {
            let run = in_shell(&temp, line);
            assert_eq!(run.status, 0, "{}: {}", String::from_utf8_lossy(line), run.err);
        }
        assert!(!temp.at("spoiled").exists());
        let told = json("clear", &path, &["0x20000", "--budget", "1"]);
        assert_eq!((told.at("cost").number(), told.at("files").list().len()), (0, 0));
        assert_eq!(rest == ["--bytes"], asked.bytes.windows(4).any(|bytes| bytes == b"\x95\x5c.b"));
    }
}

#[test]
fn sheets_of_any_name_pass_through_a_shell() {
    let temp = Temp::new();
    for sheet in ["-a b", "-a", "it's", "--"] {
        let image = temp.write("small.iso", &filled_master());
        let mut command = program();
        command.args(["clear", "small.iso", "167", "--budget", "1", &format!("--sheet={sheet}")]);
        let asked: Run = command.current_dir(temp.at("")).output().unwrap().into();
        assert_eq!((asked.status, asked.err.as_str()), (0, ""));
        let line = asked.out.lines().find(|line| line.starts_with("counter ")).unwrap();
        let run = in_shell(&temp, line.as_bytes());
        assert_eq!(run.status, 0, "{line}: {}", run.err);
        assert_eq!(json("find", &image, &["a"]).at("offset").number(), 0x600);
    }
}

#[test]
fn an_image_whose_name_is_escaped() {
    let temp = Temp::new();
    let name = OsStr::from_bytes(b"a\n'b\\\xff.iso");
    fs::write(temp.at("").join(name), filled_master()).unwrap();
    let mut command = program();
    command.args(["clear", "--budget", "1"]).arg(name).arg("167");
    let asked: Run = command.current_dir(temp.at("")).output().unwrap().into();
    let line = r"counter move $'a\x0a\'b\\\xff.iso' /a 0x600";
    assert_eq!(asked.out.lines().find(|line| line.starts_with("counter ")), Some(line));
    let run = in_shell(&temp, format!("exec bash -c {}", quoted(line)).as_bytes());
    // It is the image, but none that is edited, since the name is no UTF-8.
    assert!(run.status == 64 && run.err.contains("no UTF-8"), "{}", run.err);
    let named = line.replace(r"\xff", "ü");
    fs::rename(temp.at("").join(name), temp.at("a\n'b\\ü.iso")).unwrap();
    let run = in_shell(&temp, format!("exec bash -c {}", quoted(&named)).as_bytes());
    assert_eq!(run.status, 0, "{}", run.err);
}

fn quoted(line: &str) -> String {
    format!("'{}'", line.replace('\'', r"'\''"))
}

fn in_shell(temp: &Temp, line: &[u8]) -> Run {
    let program = Path::new(env!("CARGO_BIN_EXE_counter")).parent().unwrap();
    let path = format!("{}:{}", program.display(), std::env::var("PATH").unwrap());
    let mut command = Command::new("sh");
    command.arg("-c").arg(OsStr::from_bytes(line)).current_dir(temp.at(""));
    command.env("PATH", path).env("LC_ALL", "C.UTF-8").output().unwrap().into()
}

#[test]
fn more_moves_than_a_sheet_has_lines() {
    let temp = Temp::in_memory();
    let image = temp.at("many.iso");
    let place = |i: u32| file(format!("{i}"), 0x8_0000 + 0x100 * i, 0x40);
    sparse(&image, &(0..1100).map(place).collect::<Vec<Wish>>(), 0x20_0000);
    let ask = ["0x90000", "--budget", "1"];
    let told = asked(&image, 0x9_0000, Some(1)).unwrap();
    assert_eq!(told.at("offset").number(), Table::of(&image).table_end);
    assert_eq!((moves(&told).len(), told.at("accepted").number()), (1100, 1024));
    replayed(&image, &told);
    let text = done("clear", &image, &ask);
    assert!(text.contains("\n1,100 moves, in this order; the first 1,024 were tried "), "{text}");
    let sheet = temp.at("moves.sheet");
    let sheet = sheet.to_str().unwrap();
    let text = done("clear", &image, &[&ask[..], &["--sheet", sheet]].concat());
    let note = "\nnote: a sheet has at most 1,024 lines, and there are 1,100 moves: ask again once those are made\n";
    assert!(text.contains(note), "{text}");
    assert!(text.contains(&format!("\nmade {sheet}: 1,024 lines, ")), "{text}");
    let command = format!("counter sheet {} {sheet}\n", image.display());
    assert!(
        text.ends_with(&format!("; tried on a private copy and accepted:\n{command}")),
        "{text}"
    );
    done("sheet", &image, &[sheet]);
    let told = asked(&image, 0x9_0000, Some(1)).unwrap();
    assert_eq!((moves(&told).len(), told.at("accepted").number()), (76, 76));
    cleared(&temp, &image, &told, &ask);
}

// Usage -----------------------------------------------------------------------------------

#[test]
fn what_cannot_be_asked() {
    let temp = Temp::new();
    let image = temp.write("small.iso", &filled_master());
    let there = temp.write("there", b"keep me");
    let (there, new) = (there.to_str().unwrap(), temp.at("new"));
    let new = new.to_str().unwrap();
    let before = State::of(&image);
    for (rest, status, words) in [
        (&[][..], 64, "usage: counter clear IMAGE SIZE [--budget N] [--sheet OUT] "),
        (&["1", "2"], 64, "usage: "),
        (&["-1"], 64, "has no option"),
        (&["x"], 64, "a number is wanted"),
        (&["4G"], 64, "above 2^32 - 1"),
        (&["1", "--budget", "x"], 64, "a number is wanted"),
        (&["1", "--budget"], 64, "--budget wants a number of candidates"),
        (&["1", "--budget", "4G"], 64, "4G: above 2^32 - 1 (4,294,967,295)\n"),
        (&["1", "--budget", "1", "--budget", "2"], 64, "--budget is given twice"),
        (&["1", "--sheet"], 64, "--sheet wants the name of a file"),
        (&["1", "--sheet", new, "--sheet", new], 64, "--sheet is given twice"),
        (&["1", "--sheet", new, "--budget", "0"], 64, "--budget 0 tries no run"),
        (&["167", "--budget", "1", "--sheet", there], 73, "is there already"),
        (&["167", "--budget", "1", "--sheet", image.to_str().unwrap()], 73, "is there already"),
        (&["7079", "--sheet", new], 21, "refused 21: no space"),
        (&["1", "--sheet", new], 65, "the run is free, so there are no moves\n"),
        (&["7078", "--sheet", new], 65, "no move frees the run: 1 file stays in it\n"),
    ] {
        let run = on("clear", &image, rest);
        assert_eq!((run.status, run.out.as_str()), (status, ""), "{rest:?}: {}", run.err);
        assert!(run.err.contains(words), "{rest:?}: {}", run.err);
    }
    assert_eq!(fs::read(there).unwrap(), b"keep me");
    assert!(!Path::new(new).exists());
    assert_eq!(State::of(&image), before);
    // Whatever does not open is refused as elsewhere.
    let mut short = small_master();
    short.truncate(0x1FFF);
    let image = temp.write("short.iso", &short);
    for command in ["clear", "place"] {
        let run = on(command, &image, &["1"]);
        assert_eq!((run.status, run.out.as_str()), (4, ""), "{}", run.err);
    }
    assert_eq!(on("clear", &temp.at("none.iso"), &["1"]).status, 66);
}

#[test]
fn an_image_of_which_an_edit_was_cut() {
    let temp = Temp::new();
    let image = temp.write("small.iso", &filled_master());
    fs::write(journal_of(&image), OPEN_JOURNAL).unwrap();
    let run = on("clear", &image, &["167", "--budget", "1"]);
    assert_eq!((run.status, run.out.as_str()), (78, ""));
    let text = done("clear", &image, &["167", "--budget", "1", "--as-is"]);
    let name = image.display();
    let note = format!(
        "\nnote: an edit of {name} was cut, and the next one finishes it first: ask again then\n"
    );
    assert!(text.contains(&note), "{text}");
}

// The picture -----------------------------------------------------------------------------

#[test]
fn the_run_is_marked_in_the_map() {
    let temp = Temp::new();
    let image = temp.at("usual.iso");
    sparse(&image, &usual(0x10_0000, 0x4_5678), 0x20_0000);
    let draw = |rest: &[&str]| -> (String, Run) {
        let out = temp.at("map.svg");
        let _ = fs::remove_file(&out);
        let run = on("map", &image, &[&[out.to_str().unwrap()], rest].concat());
        (fs::read_to_string(&out).unwrap_or_default(), run)
    };
    // 1 MiB from the table's end on, over six files with bytes.
    let told = json("clear", &image, &["1M", "--budget", "1"]);
    let [offset, end, cost] = ["offset", "end", "cost"].map(|name| told.at(name).number());
    let blocking = told.at("files").list().len();
    assert!(blocking > 3);
    let (picture, run) = draw(&["--clear", "1M", "--budget", "1"]);
    let words = format!(
        "a run of 1,048,576 bytes: {offset:#x} to {end:#x}, {blocking} files of {} bytes in its way",
        grouped(cost)
    );
    assert!(
        run.status == 0 && run.out.ends_with(&format!(", {words}\n")),
        "{}{}",
        run.out,
        run.err
    );
    // In the start of the disc, in each row that has a byte of it, and in the legend.
    let each = 0x20_0000 / 32;
    let rows = (end - 1) / each - offset / each + 1;
    let frame = format!("stroke-dasharray=\"7 3\"><title>{words}</title>");
    assert_eq!(picture.matches(&frame).count() as u64, rows + 2);
    assert!(picture.contains(&format!(">{words}</text>")));
    assert!(picture.contains(">a file in its way</text>"));
    // Those files have a frame of their own, and no others.
    for entry in Table::of(&image).entries.iter().filter(|entry| !entry.folder && entry.size > 0) {
        let in_it = u64::from(entry.offset) < end && offset < u64::from(entry.offset + entry.size);
        let marked = format!("stroke=\"#000000\" stroke-width=\"2\"><title>{}:", entry.path);
        assert_eq!(picture.contains(&marked), in_it, "{}", entry.path);
    }
    // Rows that are wholly free are folded, but those of the run.
    let (plain, run) = draw(&[]);
    assert!(
        !plain.contains("7 3")
            && !plain.contains("in its way")
            && plain.contains(" rows, all free: ")
    );
    assert!(!run.out.contains("run"), "{}", run.out);
    let (picture, run) = draw(&["--clear", "512K"]);
    assert!(run.out.contains(", a free run of 524,288 bytes: 0x"), "{}", run.out);
    assert!(picture.contains("7 3") && !picture.contains("in its way"));
    let run = Json::read(&draw(&["--clear", "1M", "--budget", "1", "--json"]).1.out);
    let run = run.at("run");
    let found =
        ["offset", "end", "size", "cost", "tried", "files"].map(|name| run.at(name).number());
    assert_eq!(found, [offset, end, 1 << 20, cost, 1, blocking as u64]);
    assert!(!run.at("all_tried").flag());
    for (rest, status, words) in [
        (&["--budget", "1"][..], 64, "--budget is for --clear SIZE"),
        (&["--clear", "1", "--budget", "0"], 64, "--budget 0 tries no run"),
        (&["--clear", "1G"], 21, "refused 21: no space (the longest has "),
        (&["--clear", "1", "--clear", "2"], 64, "--clear is given twice"),
        (&["--sheet", "x"], 64, "map has no option --sheet"),
    ] {
        let (picture, run) = draw(rest);
        assert_eq!((run.status, picture.as_str()), (status, ""), "{rest:?}: {}", run.err);
        assert!(run.err.contains(words), "{rest:?}: {}", run.err);
    }
    let out = temp.at("demo.svg");
    let run = run_map(&["--demo", out.to_str().unwrap(), "--clear", "7000"]);
    assert_eq!(run.status, 0, "{}", run.err);
    assert!(
        run.out
            .ends_with(", a run of 7,000 bytes: 0x45a to 0x1fb2, 1 file of 256 bytes in its way\n")
    );
}

fn run_map(rest: &[&str]) -> Run {
    run(&[&["map"], rest].concat())
}
