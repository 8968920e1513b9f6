//! `tables`: every small table in the small master, held to tables that are put together here by the rules'
//! own words.

mod support;

use std::fs::{self, File};
use std::os::unix::fs::symlink;
use std::path::{Path, PathBuf};
use std::process::{Child, Command, Stdio};
use std::thread;
use std::time::{Duration, Instant};
use support::*;

// The rules -------------------------------------------------------------------------------

/// An entry of a shape: of a directory its next.
type Kind = Option<usize>;

/// The directory that an entry is in: the last one before it whose next is above its number.
fn parent(shape: &[Kind], k: usize) -> usize {
    (0..k).rev().find(|&d| shape[d].is_some_and(|next| next > k)).unwrap()
}

/// Whether cause 10 does not refuse entry k: a directory's next is above its own number, and neither above
/// the count nor above its parent's next.
fn is_good(list: &[Kind], count: usize, k: usize) -> bool {
    list[k].is_none_or(|next| next > k && next <= count && next <= list[parent(list, k)].unwrap())
}

/// The shapes of so many entries in their order: by entries from 1 on, file before directory, then smaller
/// next first. Of all lists those are left out that have an entry that is refused, which none behind it
/// changes.
fn shapes(n: usize) -> Vec<Vec<Kind>> {
    let kinds: Vec<Kind> = [None].into_iter().chain((0..=n + 1).map(Some)).collect();
    let mut lists = vec![vec![Some(n)]];
    for k in 1..n {
        let longer = |list: Vec<Kind>| {
            let with = |&kind: &Kind| [&list[..], &[kind]].concat();
            kinds.iter().map(with).collect::<Vec<_>>()
        };
        lists = lists.into_iter().flat_map(longer).collect();
        lists.retain(|list| is_good(list, n, k));
    }
    lists
}

/// A table written anew.
fn table_of(shape: &[Kind]) -> Vec<u8> {
    let mut table = Vec::new();
    for (k, kind) in shape.iter().enumerate() {
        let name = 2 * k.saturating_sub(1);
        let up = if k == 0 { 0 } else { parent(shape, k) };
        let [first, second] = kind.map_or([0, 0], |next| [up, next]);
        table.push(u8::from(kind.is_some()));
        table.extend(&(name as u32).to_be_bytes()[1..]);
        table.extend((first as u32).to_be_bytes());
        table.extend((second as u32).to_be_bytes());
    }
    for letter in (b'a'..).take(shape.len() - 1) {
        table.extend([letter, 0]);
    }
    table
}

/// The small master with a table put over 0x440, and its size in the header.
fn master_of(table: &[u8]) -> Vec<u8> {
    let mut image = small_master();
    image[0x440..0x440 + table.len()].copy_from_slice(table);
    put(&mut image, 0x428, table.len() as u32);
    image
}

/// The paths of its entries, of a directory with `/` at the end.
fn paths_of(shape: &[Kind]) -> Vec<String> {
    let mut paths: Vec<String> = vec!["/".into()];
    for k in 1..shape.len() {
        let end = if shape[k].is_some() { "/" } else { "" };
        let name = (b'a' + k as u8 - 1) as char;
        paths.push(format!("{}{name}{end}", paths[parent(shape, k)]));
    }
    paths
}

const NUMBERS: [usize; 8] = [1, 2, 6, 22, 90, 394, 1_806, 8_558];

/// The files' names in their order.
fn names_of(n: usize) -> Vec<String> {
    let digits = [1, 1, 1, 2, 2, 3, 4, 4][n - 1];
    (1..=NUMBERS[n - 1]).map(|i| format!("{i:0digits$}.iso")).collect()
}

// What is there ---------------------------------------------------------------------------

fn tables(n: &str, into: &Path, more: &[&str]) -> Run {
    let mut command = asked(n, into);
    command.args(more).output().unwrap().into()
}

fn asked(n: &str, into: &Path) -> Command {
    let mut command = program();
    command.args(["tables", n, "--into"]).arg(into);
    command
}

/// Runs, wants success, gives what was said.
fn made(n: usize, into: &Path) -> String {
    let run = tables(&n.to_string(), into, &[]);
    assert_eq!((run.status, run.err.as_str()), (0, ""), "{n}");
    run.out
}

/// What is in a folder, links too: the bytes of each file.
fn inside(folder: &Path) -> Vec<(String, Option<Vec<u8>>)> {
    let entries = fs::read_dir(folder).unwrap().map(|entry| entry.unwrap());
    let mut found: Vec<_> = entries
        .map(|entry| {
            let name = entry.file_name().into_string().unwrap();
            let is_file = entry.file_type().unwrap().is_file();
            (name, is_file.then(|| fs::read(entry.path()).unwrap()))
        })
        .collect();
    found.sort();
    found
}

fn names(folder: &Path) -> Vec<String> {
    inside(folder).into_iter().map(|(name, _)| name).collect()
}

/// A set as it has to be.
fn is_set(n: usize, into: &Path) {
    let found = inside(into);
    let shapes = shapes(n);
    assert_eq!(shapes.len(), NUMBERS[n - 1]);
    assert_eq!(found.len(), shapes.len());
    for ((shape, name), (is, bytes)) in shapes.iter().zip(names_of(n)).zip(found) {
        assert_eq!(is, name);
        assert!(bytes.unwrap() == master_of(&table_of(shape)), "{n}: {name}");
    }
}

// The masters -----------------------------------------------------------------------------

/// The tables of 1, 2 and 3 entries, written out.
const WRITTEN: [&[&str]; 3] = [
    &["010000000000000000000001"],
    &[
        "010000000000000000000002 000000000000000000000000 6100",
        "010000000000000000000002 010000000000000000000002 6100",
    ],
    &[
        "010000000000000000000003 000000000000000000000000 000000020000000000000000 61006200",
        "010000000000000000000003 000000000000000000000000 010000020000000000000003 61006200",
        "010000000000000000000003 010000000000000000000002 000000020000000000000000 61006200",
        "010000000000000000000003 010000000000000000000002 010000020000000000000003 61006200",
        "010000000000000000000003 010000000000000000000003 000000020000000000000000 61006200",
        "010000000000000000000003 010000000000000000000003 010000020000000100000003 61006200",
    ],
];

#[test]
fn the_tables_of_one_to_three_entries_written_out() {
    let temp = Temp::new();
    for (n, written) in (1..).zip(WRITTEN) {
        let into = temp.at(&format!("of {n}"));
        made(n, &into);
        assert_eq!(names(&into), names_of(n));
        for (name, table) in names_of(n).iter().zip(written) {
            let digits = table.replace(' ', "");
            let bytes = (0..digits.len()).step_by(2);
            let table: Vec<u8> =
                bytes.map(|i| u8::from_str_radix(&digits[i..i + 2], 16).unwrap()).collect();
            assert_eq!(table.len(), 14 * n - 2);
            assert!(fs::read(into.join(name)).unwrap() == master_of(&table), "{n}: {name}");
        }
        is_set(n, &into);
    }
    // Behind a table that is shorter than the small master's own its bytes stay: the entry and the text of
    // `a`.
    let one = fs::read(temp.at("of 1/1.iso")).unwrap();
    assert_eq!(get(&one, 0x428), 12);
    assert_eq!(one[0x44C..0x45B], small_master()[0x44C..0x45B]);
    assert_eq!((get(&one, 0x450), one[0x458]), (0x500, b'a'));
}

#[test]
fn what_is_said() {
    let temp = Temp::new();
    let said = |n: usize| {
        let into = temp.at(&n.to_string());
        made(n, &into).replace(&into.display().to_string(), "DIR")
    };
    assert_eq!(said(1), "1.iso  /\nmade 1 master in DIR: every table of 1 entry, 12 bytes each\n");
    assert_eq!(
        said(2),
        "1.iso  /a\n2.iso  /a/\nmade 2 masters in DIR: every table of 2 entries, 26 bytes each\n"
    );
    assert_eq!(
        said(3),
        "1.iso  /a /b\n2.iso  /a /b/\n3.iso  /a/ /b\n4.iso  /a/ /b/\n5.iso  /a/ /a/b\n6.iso  /a/ /a/b/\n\
         made 6 masters in DIR: every table of 3 entries, 40 bytes each\n"
    );
    for n in 4..=6 {
        let lines = shapes(n).into_iter().zip(names_of(n));
        let lines =
            lines.map(|(shape, name)| format!("{name}  {}\n", paths_of(&shape)[1..].join(" ")));
        let (count, size) = (NUMBERS[n - 1], 14 * n - 2);
        let last =
            format!("made {count} masters in DIR: every table of {n} entries, {size} bytes each\n");
        assert_eq!(said(n), lines.collect::<String>() + &last);
    }
}

/// It opens, and reads as its shape; a rewrite alters nothing; and it reads as it should after new entries.
fn is_edited(image: &Path, shape: &[Kind]) {
    let name = image.display();
    let table = Table::of(image);
    assert_eq!(done("list", image, &[]), table.listing(), "{name}");
    let paths = |table: &Table| -> Vec<String> {
        let end = |folder| if folder { "/" } else { "" };
        table.entries.iter().map(|e| e.path.clone() + end(e.folder)).collect()
    };
    let wanted = paths_of(shape);
    assert_eq!(paths(&table), wanted, "{name}");
    assert_eq!(done("tree", image, &["--paths"]), wanted.join("\n") + "\n", "{name}");
    let before = fs::read(image).unwrap();
    let rewritten = done("rewrite", image, &[]);
    assert!(rewritten.ends_with("\ndone: there was nothing to write\n"), "{name}: {rewritten}");
    assert!(fs::read(image).unwrap() == before, "{name}");
    // A new entry in every folder, as its last, from the last folder on: so the others keep their numbers.
    let folders: Vec<&String> = wanted.iter().filter(|path| path.ends_with('/')).collect();
    let mut left = wanted.clone();
    for (i, folder) in folders.into_iter().enumerate().rev() {
        let (command, new) = match i % 2 {
            0 => ("mkdir", format!("{folder}z/")),
            _ => ("add", format!("{folder}z")),
        };
        done(command, image, &[new.trim_end_matches('/')]);
        let last = left.iter().rposition(|path| path.starts_with(folder.as_str())).unwrap();
        left.insert(last + 1, new);
    }
    let table = Table::of(image);
    assert_eq!(paths(&table), left, "{name}");
    assert_eq!(done("list", image, &[]), table.listing(), "{name}");
    let checked = done("check", image, &[]);
    assert!(checked.ends_with("\na rewrite would alter nothing\n"), "{name}: {checked}");
}

#[test]
fn each_opens_and_is_edited() {
    let temp = Temp::in_memory();
    for n in 1..=6 {
        let into = temp.at(&n.to_string());
        made(n, &into);
        is_set(n, &into);
        let sets: Vec<(PathBuf, Vec<Kind>)> =
            names_of(n).iter().map(|name| into.join(name)).zip(shapes(n)).collect();
        thread::scope(|scope| {
            for part in sets.chunks(sets.len().div_ceil(4)) {
                scope.spawn(|| part.iter().for_each(|(image, shape)| is_edited(image, shape)));
            }
        });
    }
}

#[test]
fn eight_thousand_masters_take_no_minutes() {
    let temp = Temp::new();
    let into = temp.at("all");
    let since = Instant::now();
    let said = made(8, &into);
    let took = since.elapsed();
    println!("8,558 masters in {took:?}");
    assert!(took < Duration::from_secs(60), "{took:?}");
    is_set(8, &into);
    let lines: Vec<&str> = said.lines().collect();
    assert_eq!(lines.len(), 8_559);
    assert_eq!(lines[0], "0001.iso  /a /b /c /d /e /f /g");
    assert_eq!(
        lines[8_557],
        "8558.iso  /a/ /a/b/ /a/b/c/ /a/b/c/d/ /a/b/c/d/e/ /a/b/c/d/e/f/ /a/b/c/d/e/f/g/"
    );
    let into = into.display();
    assert_eq!(
        lines[8_558],
        format!("made 8,558 masters in {into}: every table of 8 entries, 110 bytes each")
    );
    made(7, &temp.at("7"));
    is_set(7, &temp.at("7"));
}

#[test]
fn the_answer_as_json() {
    let temp = Temp::new();
    let into = temp.at("small");
    let run = tables("2", &into, &["--json"]);
    assert_eq!((run.status, run.err.as_str()), (0, ""));
    let folder = into.display();
    let hex = |text: &str| text.bytes().map(|b| format!("{b:02x}")).collect::<String>();
    let file = |name: &str| {
        let file = format!("{folder}/{name}");
        format!("\"file\": \"{file}\",\n      \"file_bytes\": \"{}\"", hex(&file))
    };
    let root = r#"{"number": 0, "kind": "directory", "parent": 0, "next": 2, "path": "/", "path_bytes": "2f"}"#;
    let wanted = format!(
        r#"{{
  "status": 0,
  "into": "{folder}",
  "entries": 2,
  "fst_size": 26,
  "tables": 2,
  "masters": [
    {{
      {},
      "table": [
        {root},
        {{"number": 1, "kind": "file", "parent": 0, "offset": 0, "size": 0, "path": "/a", "path_bytes": "2f61"}}
      ]
    }},
    {{
      {},
      "table": [
        {root},
        {{"number": 1, "kind": "directory", "parent": 0, "next": 2, "path": "/a/", "path_bytes": "2f612f"}}
      ]
    }}
  ]
}}
"#,
        file("1.iso"),
        file("2.iso")
    );
    assert_eq!(run.out, wanted);
    is_set(2, &into);
    // Of a larger set each master as its shape.
    let into = temp.at("5");
    let told = Json::read(&tables("5", &into, &["--json"]).out);
    let number = |json: &Json, name: &str| json.at(name).number() as usize;
    assert_eq!(["entries", "fst_size", "tables"].map(|name| number(&told, name)), [5, 68, 90]);
    let masters = told.at("masters").list();
    assert_eq!(masters.len(), 90);
    for ((master, shape), name) in masters.iter().zip(shapes(5)).zip(names_of(5)) {
        assert_eq!(master.at("file").text(), into.join(name).to_str().unwrap());
        let table = master.at("table").list();
        let kinds = table.iter().map(|entry| match entry.at("kind").text() {
            "file" => None,
            _ => Some(number(entry, "next")),
        });
        assert_eq!(kinds.collect::<Vec<Kind>>(), shape);
        let paths: Vec<&str> = table.iter().map(|entry| entry.at("path").text()).collect();
        assert_eq!(paths, paths_of(&shape));
    }
    let help = run_help();
    let words: Vec<&str> = help.split(|c: char| !c.is_ascii_alphanumeric() && c != '_').collect();
    assert!(fields(&told).iter().all(|name| words.contains(&name.as_str())), "{help}");
    // A refusal, an error and wrong usage too.
    let told = |n: &str, into: &Path| Json::read(&tables(n, into, &["--json"]).out);
    let refused = told("9", &temp.at("9"));
    assert_eq!([number(&refused, "status"), number(&refused, "refused")], [9, 9]);
    assert_eq!(refused.at("about").text(), "tables of 9 entries");
    assert_eq!(
        refused.at("detail").text(),
        "a small table has 1 to 8 entries, the root among them"
    );
    assert_eq!(number(&told("5", &into), "status"), 73);
    assert_eq!(number(&told("x", &into), "status"), 64);
}

fn run_help() -> String {
    run(&["help", "tables"]).out
}

// DIR -------------------------------------------------------------------------------------

/// Whatever has one of the names, nothing is written.
#[test]
fn what_is_there_stays() {
    let temp = Temp::new();
    let into = temp.at("small");
    fs::create_dir(&into).unwrap();
    temp.write("small/notes.txt", b"mine");
    temp.write("small/0.iso", b"mine");
    temp.write("small/7.iso", b"mine");
    temp.write("small/01.iso", b"mine");
    let log = temp.at("log");
    let taken = |name: &str| {
        let before = inside(&into);
        let run: Run = asked("3", &into).env("COUNTER_LOG_WRITES", &log).output().unwrap().into();
        assert!(!log.exists(), "{name}: something was written");
        assert_eq!((run.status, run.out.as_str()), (73, ""), "{name}: {}", run.err);
        let place = into.join(name);
        let told =
            format!("counter: {}: is there already, and nothing is overwritten\n", place.display());
        assert_eq!(run.err, told);
        assert_eq!(inside(&into), before, "{name}");
        match place.is_dir() {
            true => fs::remove_dir(&place).unwrap(),
            false => fs::remove_file(&place).unwrap(),
        }
    };
    for name in ["1.iso", "4.iso", "6.iso"] {
        let place = into.join(name);
        fs::write(&place, b"mine").unwrap();
        taken(name);
        fs::write(&place, small_master()).unwrap();
        taken(name);
        fs::create_dir(&place).unwrap();
        taken(name);
        symlink("nowhere", &place).unwrap();
        taken(name);
        symlink("notes.txt", &place).unwrap();
        taken(name);
        assert!(Command::new("mkfifo").arg(&place).status().unwrap().success());
        taken(name);
        // What would be taken for one of the new master's.
        fs::write(into.join(format!("{name}.counter-journal")), b"").unwrap();
        taken(&format!("{name}.counter-journal"));
    }
    // Other names are no matter.
    made(3, &into);
    let mut wanted =
        [&["0.iso", "01.iso", "7.iso", "notes.txt"].map(String::from)[..], &names_of(3)].concat();
    wanted.sort();
    assert_eq!(names(&into), wanted);
    let found = inside(&into).into_iter().filter(|(_, bytes)| bytes.as_deref() == Some(b"mine"));
    assert_eq!(found.count(), 4);
    // So a set is made once, and another one goes beside it where the names are others.
    let before = inside(&into);
    assert_eq!(tables("3", &into, &[]).status, 73);
    assert_eq!(tables("2", &into, &[]).status, 73);
    assert_eq!(inside(&into), before);
    made(6, &into);
    assert_eq!(names(&into).len(), before.len() + 394);
}

#[test]
fn where_a_set_is_made() {
    let temp = Temp::new();
    fs::create_dir(temp.at("there")).unwrap();
    temp.write("file", b"mine");
    symlink("there", temp.at("way")).unwrap();
    symlink("nowhere", temp.at("lost")).unwrap();
    symlink("round", temp.at("round")).unwrap();
    symlink("file", temp.at("link")).unwrap();
    let ask = |into: &str, more: &[&str]| -> Run {
        let mut command = program();
        command.args(["tables", "2", "--into", into]).args(more).current_dir(temp.at(""));
        command.output().unwrap().into()
    };
    let before = names(&temp.at(""));
    for (into, status, words) in [
        ("file", 73, "counter: file: is there, and is no folder\n"),
        ("file/", 73, "counter: file/: is there, and is no folder\n"),
        ("link", 73, "counter: link: is there, and is no folder\n"),
        ("lost", 73, "counter: lost: is there, and is no folder\n"),
        ("round", 73, "counter: round: is there, and is no folder\n"),
        ("/dev/null", 73, "counter: /dev/null: is there, and is no folder\n"),
        (
            "none/small",
            73,
            "counter: none/small: the folder that it should stand in is not there\n",
        ),
        (
            "lost/small",
            73,
            "counter: lost/small: the folder that it should stand in is not there\n",
        ),
        ("file/small", 73, "counter: file/small: what it should stand in is no folder\n"),
        (
            "",
            64,
            "counter: --into DIR is missing; usage: counter tables ENTRIES --into DIR [--json]\n",
        ),
        ("small.counter-journal", 64, "a name that a journal has"),
    ] {
        let run = ask(into, &[]);
        assert_eq!((run.status, run.out.as_str()), (status, ""), "{into}: {}", run.err);
        assert!(run.err.contains(words), "{into}: {}", run.err);
        assert_eq!(names(&temp.at("")), before, "{into}");
        assert!(names(&temp.at("there")).is_empty());
    }
    // A new folder, one that is there, a link to one, and that where one stands.
    let sets = [("new", "new"), ("last/", "last"), ("way", "there"), ("-", "-")];
    for (into, folder) in sets {
        let run = ask(into, &[]);
        assert_eq!((run.status, run.err.as_str()), (0, ""), "{into}");
        is_set(2, &temp.at(folder));
    }
    assert_eq!(ask(".", &[]).status, 0);
    assert!(temp.at("1.iso").is_file() && temp.at("2.iso").is_file());
    // No name is obeyed.
    let run = ask("a\x1b[31m\nb", &[]);
    assert_eq!(run.status, 0);
    assert!(run.out.contains("in a\\x1b[31m\\x0ab: every table"), "{}", run.out);
}

#[test]
fn numbers_that_are_refused() {
    let temp = Temp::new();
    let into = temp.at("small");
    for n in ["0", "9", "0x9", "10", "1K", "4294967295"] {
        let run = tables(n, &into, &[]);
        assert_eq!((run.status, run.out.as_str()), (9, ""), "{n}: {}", run.err);
        let words =
            "refused 9: limit or memory (a small table has 1 to 8 entries, the root among them)\n";
        assert!(run.err.ends_with(words), "{n}: {}", run.err);
        assert!(!into.exists());
    }
    let run = tables("9", &into, &[]);
    assert!(run.err.starts_with("counter: tables of 9 entries: refused 9: "), "{}", run.err);
    // That comes first.
    let file = temp.write("file", b"mine");
    assert_eq!(tables("0", &file, &[]).status, 9);
    made(2, &temp.at("other"));
    made(3, &into);
    assert_eq!(tables("9", &into, &[]).status, 9);
    assert_eq!(tables("0x3", &temp.at("hex"), &[]).status, 0);
    is_set(3, &temp.at("hex"));
}

#[test]
fn wrong_usage() {
    let temp = Temp::new();
    let into = temp.at("small");
    let dir = into.to_str().unwrap();
    let usage = "usage: counter tables ENTRIES --into DIR [--json]\n";
    for (args, words) in [
        (&[][..], usage),
        (&["3"], "--into DIR is missing; usage: counter tables ENTRIES --into DIR [--json]\n"),
        (&["--into", dir], usage),
        (&["3", "4", "--into", dir], usage),
        (&["3", dir], usage),
        (&["3", "--into"], "--into wants the name of a folder\n"),
        (&["3", "--into", dir, "--into", dir], "--into is given twice\n"),
        (&["x", "--into", dir], "x: a number is wanted, in base ten or with 0x"),
        (&["", "--into", dir], "a number is wanted"),
        (&["3.5", "--into", dir], "3.5: a number is wanted"),
        (&["4G", "--into", dir], "4G: above 2^32 - 1 (4,294,967,295)\n"),
        (&["-1", "--into", dir], "tables has no option -1"),
        (&["3", "--into", dir, "--dry-run"], "tables has no option --dry-run"),
        (&["3", "--into", dir, "--in"], "is --into meant?"),
    ] {
        let run = run(&[&["tables"], args].concat());
        assert_eq!((run.status, run.out.as_str()), (64, ""), "{args:?}: {}", run.err);
        assert!(run.err.contains(words), "{args:?}: {}", run.err);
        // No image is missing.
        assert!(!run.err.contains("small master"), "{args:?}: {}", run.err);
        assert!(!into.exists());
    }
    assert!(run(&["table"]).err.contains("is tables meant?"));
    assert_eq!(run(&["tables", &format!("--into={dir}"), "--", "3"]).status, 0);
    is_set(3, &into);
}

// When it is cut --------------------------------------------------------------------------

/// A disk that is full at the n-th step that takes room, for every n: nothing is left.
#[test]
fn on_a_full_disk_nothing_is_left() {
    let temp = Temp::new();
    let there = temp.at("there");
    fs::create_dir(&there).unwrap();
    temp.write("there/notes.txt", b"mine");
    for into in [temp.at("new"), there.clone()] {
        let mut steps = 0;
        loop {
            let full = (steps + 1).to_string();
            let run: Run =
                asked("3", &into).env("COUNTER_FULL_FROM", full).output().unwrap().into();
            if run.status == 0 {
                break;
            }
            assert_eq!((run.status, run.out.as_str()), (74, ""), "{}", run.err);
            let name = format!("{}.iso", steps / 2 + 1);
            let told = format!("counter: {}: the disk is full\n", into.join(name).display());
            assert_eq!(run.err, told);
            assert_eq!(names(&temp.at("")), ["there"]);
            assert_eq!(names(&there), ["notes.txt"]);
            steps += 1;
        }
        assert_eq!(steps, 12, "each file, and its bytes");
        match into == there {
            true => assert_eq!(names(&there).len(), 7),
            false => fs::remove_dir_all(&into).unwrap(),
        }
    }
    // Files may not be as long: a part of the first one was written.
    let line = format!(
        "ulimit -f 4; exec {} tables 3 --into {}",
        env!("CARGO_BIN_EXE_counter"),
        temp.at("new").display()
    );
    let run: Run = Command::new("bash").args(["-c", &line]).output().unwrap().into();
    assert_eq!((run.status, run.out.as_str()), (74, ""), "{}", run.err);
    assert!(run.err.contains("/new/1.iso: "), "{}", run.err);
    assert!(!temp.at("new").exists());
}

/// A run that waits in the midst of the writing, with three files at least. (A pipe holds 64 KiB at most,
/// and a master has 8.)
fn cut_short(temp: &Temp, into: &Path) -> (Child, File) {
    waiting(temp, asked("5", into), |_| into.join("03.iso").is_file())
}

#[test]
fn a_signal_leaves_nothing() {
    for number in MINDED {
        for is_there in [false, true] {
            let temp = Temp::new();
            let into = temp.at("small");
            if is_there {
                fs::create_dir(&into).unwrap();
                temp.write("small/notes.txt", b"mine");
            }
            let (child, log) = cut_short(&temp, &into);
            send(&child, number);
            // A second one says nothing more.
            thread::sleep(Duration::from_millis(20));
            send(&child, number);
            let run = go_on(child, log);
            assert_eq!((run.signal, run.out.as_str()), (Some(number), ""), "{}", run.err);
            let lines: Vec<&str> = run.err.lines().collect();
            assert_eq!(lines.len(), 2, "{}", run.err);
            assert!(lines[0].ends_with(": what was made is taken away"), "{}", run.err);
            assert!(lines[1].starts_with("counter: stopped by "), "{}", run.err);
            assert!(lines[1].ends_with("; nothing is left of the masters"), "{}", run.err);
            match is_there {
                true => assert_eq!(names(&into), ["notes.txt"]),
                false => assert_eq!(names(&temp.at("")), ["log"]),
            }
        }
    }
    // Nobody can tidy up after SIGKILL: some are there, and are told by the next run.
    let temp = Temp::new();
    let into = temp.at("small");
    let (mut child, _log) = cut_short(&temp, &into);
    child.kill().unwrap();
    child.wait().unwrap();
    assert!((3..9).contains(&names(&into).len()));
    assert_eq!(tables("5", &into, &[]).status, 73);
}

#[test]
fn other_signals_wait() {
    for number in [10, 12, 14, 24, 30, 34] {
        let temp = Temp::new();
        let into = temp.at("small");
        let (child, log) = cut_short(&temp, &into);
        send(&child, number);
        let run = go_on(child, log);
        assert_eq!(run.signal, Some(number), "{}", run.err);
        let words =
            format!("counter: signal {number} came meanwhile; the set of masters is made\n");
        assert_eq!(run.err, words);
        assert_eq!(run.out.lines().count(), 91);
        is_set(5, &into);
    }
}

/// What somebody else puts there meanwhile stays, and nothing else is left.
#[test]
fn a_name_that_is_taken_meanwhile() {
    for is_link in [false, true] {
        let temp = Temp::new();
        let into = temp.at("small");
        let (child, log) = cut_short(&temp, &into);
        let place = into.join("77.iso");
        match is_link {
            true => symlink("nowhere", &place).unwrap(),
            false => fs::write(&place, b"mine").unwrap(),
        }
        let run = go_on(child, log);
        assert_eq!((run.status, run.out.as_str()), (73, ""), "{}", run.err);
        let told =
            format!("counter: {}: is there already, and nothing is overwritten\n", place.display());
        assert_eq!(run.err, told);
        let left = (!is_link).then(|| b"mine".to_vec());
        assert_eq!(inside(&into), [("77.iso".to_string(), left)]);
        assert!(!into.join("nowhere").exists());
    }
}

/// Nor does what somebody else puts in the place of a master go when the others do.
#[test]
fn a_name_that_has_another_file_meanwhile() {
    let temp = Temp::new();
    let into = temp.at("small");
    let mine = temp.write("mine", b"mine");
    let (child, log) = cut_short(&temp, &into);
    let has_birth = fs::metadata(&mine).unwrap().created().is_ok();
    // A disk may give the new file the number of the old one; the times of birth differ, where it keeps them.
    if has_birth {
        thread::sleep(Duration::from_millis(50));
        fs::remove_file(into.join("01.iso")).unwrap();
        fs::write(into.join("01.iso"), b"mine").unwrap();
    }
    fs::rename(mine, into.join("02.iso")).unwrap();
    // One that is gone is no fault.
    fs::remove_file(into.join("03.iso")).unwrap();
    send(&child, SIGINT);
    let run = go_on(child, log);
    assert_eq!(run.signal, Some(SIGINT), "{}", run.err);
    let told = "\ncounter: stopped by Ctrl-C (SIGINT); nothing is left of the masters\n";
    assert!(run.err.ends_with(told), "{}", run.err);
    let left: Vec<_> =
        ["01.iso", "02.iso"].map(|name| (name.into(), Some(b"mine".to_vec()))).into();
    assert_eq!(inside(&into), left[usize::from(!has_birth)..]);
}

/// What cannot be taken away is told, and where it is.
#[test]
fn what_is_left_is_told() {
    for (case, is_sent) in [
        ("closed", true),
        ("closed", false),
        ("renamed", true),
        ("renamed and closed", true),
        ("above closed", true),
        ("gone", true),
        ("gone", false),
    ] {
        let temp = Temp::new();
        mode(&temp.at(""), 0o777);
        let (into, other) = (temp.at("small"), temp.at("other"));
        let mut command = held_back(&copied(&temp));
        command.args(["tables", "5", "--into", "small"]).current_dir(temp.at(""));
        let (child, log) = waiting(&temp, command, |_| into.join("03.iso").is_file());
        if case.starts_with("renamed") {
            fs::rename(&into, &other).unwrap();
        }
        let folder = if into.is_dir() { &into } else { &other };
        match case {
            "closed" | "renamed and closed" => mode(folder, 0o555),
            "above closed" => mode(&temp.at(""), 0o555),
            // A file may come before the folder goes.
            "gone" => while fs::remove_dir_all(folder).is_err() {},
            _ => {}
        }
        if is_sent {
            send(&child, SIGTERM);
        }
        let run = go_on(child, log);
        let last = run.err.lines().last().unwrap();
        let at = fs::canonicalize(folder).map_or("".into(), |path| path.display().to_string());
        let left = if folder.is_dir() { names(folder) } else { Vec::new() };
        let count = left.len();
        let told = match case {
            "closed" | "renamed and closed" => {
                assert!((3..20).contains(&count), "{case}: {left:?}");
                format!("{count} masters are left in {at}: permission denied")
            }
            "above closed" => {
                assert!(folder.is_dir() && left.is_empty(), "{left:?}");
                format!("nothing is left of the masters but the folder {at}: permission denied")
            }
            _ => {
                assert!(!folder.exists(), "{case}: {left:?}");
                "nothing is left of the masters".into()
            }
        };
        match is_sent {
            true => {
                assert_eq!(run.signal, Some(SIGTERM), "{case}: {}", run.err);
                assert_eq!(last, format!("counter: stopped by a kill (SIGTERM); {told}"), "{case}");
            }
            false if case == "gone" => {
                assert_eq!(run.status, 73, "{}", run.err);
                assert!(last.ends_with(".iso: no such file"), "{last}");
            }
            false => {
                assert_eq!(run.status, 73, "{}", run.err);
                let why = format!("small/{:02}.iso: permission denied", count + 1);
                assert_eq!(last, format!("counter: {why}; {told}"));
            }
        }
        mode(&temp.at(""), 0o777);
    }
}

#[test]
fn an_answer_that_cannot_be_printed() {
    let temp = Temp::new();
    let into = temp.at("small");
    let mut command = asked("3", &into);
    command.stderr(Stdio::piped()).stdout(File::options().write(true).open("/dev/full").unwrap());
    let run: Run = command.spawn().unwrap().wait_with_output().unwrap().into();
    assert_eq!(run.status, 76);
    assert_eq!(
        run.err,
        "counter: the set of masters is made, but its answer could not be printed: standard output: the disk is full\n"
    );
    is_set(3, &into);
}
