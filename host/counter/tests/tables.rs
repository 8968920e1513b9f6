//! `compare --tables` and what `check` tells of a rewrite. What is wanted is worked out by hand: a table
//! written anew has 12 bytes for the root, and 13 and its name for each further entry. None of it is
//! libcounter's.

mod support;

use std::fs;
use std::path::{Path, PathBuf};
use std::process::Command;
use support::*;

/// Kind and name offset, offset or parent, size or next.
type Entry = [u32; 3];

const FOLDER: u32 = 0x0100_0000;

/// The small master with a table of these entries and texts at `fst`, and no file's bytes.
fn master(fst: usize, entries: &[Entry], texts: &[u8]) -> Vec<u8> {
    let mut image = small_master();
    image[0x440..0x45A].fill(0);
    let mut table: Vec<u8> = entries.iter().flatten().flat_map(|word| word.to_be_bytes()).collect();
    table.extend(texts);
    image[fst..][..table.len()].copy_from_slice(&table);
    put(&mut image, 0x424, fst as u32);
    put(&mut image, 0x428, table.len() as u32);
    image
}

/// The files `a`, `b/a` and `ba`: the table with its names offset so, and these parents of the root and
/// of `b/`. Written anew it has 12 + 14 + 14 + 14 + 15 = 69 bytes, and so ends at 0x485.
fn entries(names: [u32; 4], parents: [u32; 2]) -> [Entry; 5] {
    let [a, b, b_a, ba] = names;
    [
        [FOLDER, parents[0], 5],
        [a, 0x500, 0x10],
        [FOLDER | b, parents[1], 4],
        [b_a, 0x700, 0x10],
        [ba, 0x800, 0x20],
    ]
}

const ANEW: [u32; 4] = [0, 2, 4, 6];
const NAMES: &[u8] = b"a\0b\0a\0ba\0";
const SIZE: u32 = 69;

/// Both `a` are the end of `ba`: 65 bytes.
const SHARED: [u32; 4] = [1, 3, 1, 0];
const SHORT: &[u8] = b"ba\0b\0";

fn written(temp: &Temp, name: &str) -> PathBuf {
    temp.write(name, &master(0x440, &entries(ANEW, [0, 0]), NAMES))
}

fn tables(before: &Path, after: &Path, rest: &[&str]) -> Run {
    let args = [&[after.to_str().unwrap(), "--tables"], rest].concat();
    on("compare", before, &args)
}

/// The run and its document. Both write nothing.
fn compared(before: &Path, after: &Path) -> (Run, Json) {
    let states = [before, after].map(State::of);
    let run = tables(before, after, &[]);
    let told = tables(before, after, &["--json"]);
    assert_eq!((told.status, told.err.as_str()), (run.status, ""), "{}", told.out);
    let told = Json::read(&told.out);
    assert_eq!(told.at("status").number() as i32, run.status);
    assert_eq!([before, after].map(State::of), states);
    (run, told)
}

/// How many bytes differ but for the table's size in the header, as `cmp -l` counts them, and the first.
fn differing(before: &[u8], after: &[u8]) -> (u64, Option<u64>) {
    assert_eq!(before.len(), after.len());
    let pairs = before.iter().zip(after).enumerate();
    let differ = pairs.filter(|(at, (a, b))| !(0x428..0x42C).contains(at) && a != b);
    let places: Vec<u64> = differ.map(|(at, _)| at as u64).collect();
    (places.len() as u64, places.first().copied())
}

fn maybe(number: Option<u64>) -> Json {
    number.map_or(Json::Null, |number| Json::Number(number as f64))
}

/// What `check` tells behind its first line of a table as a rewrite writes it. That is no note.
const NOTHING: &str = "\na rewrite would alter nothing\n";

const LAST: &str = "only trees and tables were compared: no file's bytes were read\n";

/// One of the images with the same tree: how its rewrite is told.
struct Form {
    image: Vec<u8>,
    /// The table's size now, how many bytes a rewrite alters, the first of them, and what lies there.
    size: u32,
    bytes: u64,
    first: Option<u64>,
    words: &'static str,
}

impl Form {
    /// Where the table begins to be another than the one of 69 bytes: where zeros stand behind the
    /// names, at their end, although a rewrite leaves them as they are.
    fn departs(&self) -> Option<u64> {
        if self.size > SIZE { Some(0x485) } else { self.first }
    }
}

/// The same tree in every form: shared texts, texts of no entry, false parents, elsewhere on the disc.
fn forms() -> Vec<Form> {
    let mut forms = Vec::new();
    let mut form = |image: Vec<u8>, size, bytes, first, words| {
        forms.push(Form { image, size, bytes, first, words });
    };
    const NAME_1: &str = "0x44f, the name offset of entry 1";
    const ROOT: &str = "0x443, the name offset of entry 0";
    form(master(0x440, &entries(ANEW, [0, 0]), NAMES), 69, 0, None, "nothing");
    form(master(0x470, &entries(ANEW, [0, 0]), NAMES), 69, 0, None, "nothing");
    // Four name offsets. `ba\0b\0` and four zeros become `a\0b\0a\0ba\0`: seven bytes, all but the sixth
    // and the last.
    let shared = master(0x440, &entries(SHARED, [0, 0]), SHORT);
    form(shared.clone(), 65, 11, Some(0x44F), NAME_1);
    // Behind its end stands `xba\0` as free space: x becomes 0, and the rest is what is written.
    let mut behind = shared;
    behind[0x481..0x485].copy_from_slice(b"xba\0");
    form(behind, 65, 10, Some(0x44F), NAME_1);
    // The root's name offset 5 and parent 7: a byte each; the parent of `b/` 0xFFFFFFFF: four.
    let mut false_parents = entries(SHARED, [7, u32::MAX]);
    false_parents[0][0] |= 5;
    form(master(0x440, &false_parents, SHORT), 65, 17, Some(0x443), ROOT);
    // `b/a` has the text of `a`: the offsets of `b/a` and `ba`, and `ba\0` with two zeros become
    // `a\0ba\0`: four.
    let one = master(0x440, &entries([0, 2, 0, 4], [0, 0]), b"a\0b\0ba\0");
    form(one, 67, 6, Some(0x467), "0x467, the name offset of entry 3");
    // Six bytes behind the names: zeros stay, and others become zeros.
    let zeros = [NAMES, &[0; 6]].concat();
    form(master(0x440, &entries(ANEW, [0, 0]), &zeros), 75, 0, None, "no byte");
    let hidden = [NAMES, b"hidde\0"].concat();
    form(master(0x440, &entries(ANEW, [0, 0]), &hidden), 75, 5, Some(0x485), "0x485, its texts");
    // Another order of the texts, `ba\0a\0b\0a\0`: all four offsets, and all bytes but the last two.
    let order = master(0x440, &entries([3, 5, 7, 0], [0, 0]), b"ba\0a\0b\0a\0");
    form(order, 69, 4 + 7, Some(0x44F), NAME_1);
    forms
}

/// What a rewrite would alter, in words.
fn altered(form: &Form) -> String {
    let bytes = if form.bytes == 1 { "byte" } else { "bytes" };
    let size = match form.size {
        SIZE => String::new(),
        size if form.bytes == 0 => format!(", only its size, {size} -> 69 bytes"),
        size => format!(", and its size, {size} -> 69 bytes"),
    };
    match form.words {
        "nothing" => "nothing".into(),
        "no byte" => format!("no byte of the table{size}"),
        words => format!("{} {bytes} of the table, first at {words}{size}", form.bytes),
    }
}

#[test]
fn the_same_tree_is_the_same_table_written_anew() {
    let temp = Temp::new();
    let anew = written(&temp, "anew.iso");
    let name = anew.display();
    for (i, form) in forms().iter().enumerate() {
        let other = temp.write("other.iso", &form.image);
        let (run, told) = compared(&anew, &other);
        assert_eq!(run.status, 0, "{i}: {}{}", run.out, run.err);
        // Where it lies plays no part in what it is.
        let same = i < 2;
        let now = match form.size {
            SIZE if same => "the same, 69 bytes".into(),
            SIZE => "not the same, 69 bytes each".into(),
            size => format!("not the same, 69 bytes and {size} bytes"),
        };
        let wanted = format!(
            "{name} and {0} have the same tree: 5 entries, with the same names, order, kinds, folders, offsets and \
             sizes\ntables now: {now}\ntables as a rewrite would write them: the same, 69 bytes\n{name}: a rewrite would \
             alter nothing\n{0}: a rewrite would alter {1}\n{LAST}",
            other.display(),
            altered(form)
        );
        assert_eq!(run.out, wanted, "{i}");
        assert!(told.at("same_tree").flag() && told.at("same_rewritten").flag(), "{i}");
        assert_eq!(*told.at("difference"), Json::Null);
        assert_eq!(told.at("same_tables").flag(), same, "{i}");
        let [one, two] = ["before", "after"].map(|side| told.at("tables").at(side));
        assert_eq!(one.at("rewrite_alters_bytes").number(), 0);
        assert_eq!(two.at("rewrite_alters_bytes").number(), form.bytes, "{i}");
        assert_eq!(*two.at("rewrite_first_altered"), maybe(form.first), "{i}");
        assert_eq!(*two.at("rewrite_alters_at"), maybe(form.departs()), "{i}");
        let numbers = ["entries", "fst_offset", "fst_size", "rewrite_size"];
        let fst = get(&form.image, 0x424).into();
        let wanted = [5, fst, form.size.into(), SIZE.into()];
        assert_eq!(numbers.map(|name| two.at(name).number()), wanted, "{i}");
        for name in ["rewrite_refused", "rewrite_refusal", "rewrite_cause", "rewrite_detail"] {
            assert_eq!(*two.at(name), Json::Null);
        }
        // The other way round.
        let (run, told) = compared(&other, &anew);
        assert_eq!(run.status, 0, "{i}");
        let one = told.at("tables").at("before");
        assert_eq!(one.at("rewrite_alters_bytes").number(), form.bytes, "{i}");
    }
}

/// What `check` counts is what a rewrite then alters.
#[test]
fn check_counts_what_a_rewrite_alters() {
    let temp = Temp::new();
    let wanted = master(0x440, &entries(ANEW, [0, 0]), NAMES);
    for (i, form) in forms().iter().enumerate() {
        let image = temp.write("image.iso", &form.image);
        let told = json("check", &image, &[]);
        assert_eq!(told.at("rewrite_alters_bytes").number(), form.bytes, "{i}");
        assert_eq!(*told.at("rewrite_first_altered"), maybe(form.first), "{i}");
        assert_eq!(*told.at("rewrite_alters_at"), maybe(form.departs()), "{i}");
        assert_eq!(told.at("rewrite_size").number(), SIZE.into());
        assert_eq!(*told.at("rewrite_refused"), Json::Null);
        assert_eq!(*told.at("rewrite_refusal"), Json::Null);
        let text = done("check", &image, &[]);
        let note = format!(
            "note: a rewrite would alter {}; every edit that writes the table writes it anew\n",
            altered(form)
        );
        assert_eq!(text.contains(&note), form.words != "nothing", "{i}: {text}");
        assert_eq!(text.matches("a rewrite would").count(), 1, "{i}: {text}");
        assert_eq!(text.ends_with(NOTHING), form.words == "nothing", "{i}: {text}");
        done("rewrite", &image, &[]);
        let after = fs::read(&image).unwrap();
        assert_eq!(differing(&form.image, &after), (form.bytes, form.first), "{i}");
        assert_eq!(get(&after, 0x428), SIZE);
        let fst = get(&after, 0x424) as usize;
        assert_eq!(after[fst..][..69], wanted[0x440..0x485], "{i}");
        let told = json("check", &image, &[]);
        assert_eq!(told.at("rewrite_alters_bytes").number(), 0, "{i}");
        let text = done("check", &image, &[]);
        assert!(text.ends_with(NOTHING) && text.lines().count() == 2, "{i}: {text}");
    }
}

/// A realistic master: the folders' parents, the root's own fields and texts that stand twice.
#[test]
fn a_larger_table_is_counted_too() {
    let temp = Temp::new();
    let image = usual_master(&temp);
    let good = fs::read(&image).unwrap();
    let size = get(&good, 0x428) as usize;
    let at = |number: usize, word: usize| FST + 12 * number + 4 * word;
    let mut bytes = good.clone();
    // text/fr/msg.bin has the text of text/en/msg.bin, and its own text, the last one, is free space.
    let message = get(&good, at(13, 0));
    put(&mut bytes, at(15, 0), message);
    put(&mut bytes, 0x428, size as u32 - 8);
    bytes[FST + size - 8..FST + size].fill(0xAA);
    for folder in [0, 2, 12] {
        put(&mut bytes, at(folder, 1), 0x0101_0101);
    }
    fs::write(&image, &bytes).unwrap();
    let told = json("check", &image, &[]);
    // The parents 0, 0 and 11 have no byte 1.
    assert_eq!([0, 2, 12].map(|folder| get(&good, at(folder, 1))), [0, 0, 11]);
    let other = get(&good, at(15, 0));
    let (ours, wanted) = (message.to_be_bytes(), other.to_be_bytes());
    let offsets = ours.iter().zip(wanted).filter(|(a, b)| **a != *b);
    let count = offsets.count() as u64 + 8 + 12;
    assert_eq!(told.at("rewrite_alters_bytes").number(), count);
    assert_eq!(told.at("rewrite_alters_at").number() as usize, at(0, 1));
    done("rewrite", &image, &[]);
    let after = fs::read(&image).unwrap();
    assert_eq!(differing(&bytes, &after), (count, Some(at(0, 1) as u64)));
    assert!(after == good);
}

// Other trees -----------------------------------------------------------------------------

/// The first difference: its entry, in what, and the entry in both images.
type First<'a> = (u64, &'a str, &'a str, &'a str);

fn differ(temp: &Temp, entries: &[Entry], texts: &[u8], wanted: First) {
    let before = written(temp, "before.iso");
    let after = temp.write("after.iso", &master(0x440, entries, texts));
    let (number, parts, one, other) = wanted;
    for (before, after, one, other) in
        [(&before, &after, one, other), (&after, &before, other, one)]
    {
        let (run, told) = compared(before, after);
        assert_eq!(run.status, 1, "{}{}", run.out, run.err);
        let names = [before, after].map(|path| path.display());
        let longer = if one.starts_with("no entry") { &names[1] } else { &names[0] };
        let what = match parts {
            "" => format!("{longer} has more entries, from entry {number} on"),
            parts => format!("entry {number} is the first that differs, by {parts}"),
        };
        let start = format!(
            "{} and {} do not have the same tree: {what}\n  {0}: {one}\n  {1}: {other}\ntables now: not the same, ",
            names[0], names[1]
        );
        assert!(run.out.starts_with(&start), "{}", run.out);
        assert!(
            run.out.contains("\ntables as a rewrite would write them: not the same, "),
            "{}",
            run.out
        );
        assert!(run.out.ends_with(LAST), "{}", run.out);
        for name in ["same_tree", "same_tables", "same_rewritten"] {
            assert!(!told.at(name).flag(), "{name}");
        }
        let difference = told.at("difference");
        assert_eq!(difference.at("number").number(), number);
        let list: Vec<&str> = difference.at("parts").list().iter().map(Json::text).collect();
        assert_eq!(list.join(", "), parts);
        for (side, line) in [("before", one), ("after", other)] {
            let entry = difference.at(side);
            if line.starts_with("no entry") {
                assert_eq!(*entry, Json::Null);
                continue;
            }
            let words: Vec<&str> = line.split([' ', ',']).collect();
            let kind = if words[0] == "file" { "file" } else { "directory" };
            assert_eq!((entry.at("kind").text(), entry.at("path").text()), (kind, words[1]));
            assert_eq!(entry.at("number").number(), number);
        }
    }
}

#[test]
fn every_kind_of_difference_is_told() {
    let temp = Temp::new();
    let base = entries(ANEW, [0, 0]);
    let with = |number: usize, entry: Entry| {
        let mut entries = base;
        entries[number] = entry;
        entries
    };
    const A: &str = "file /a at 0x500, 16 bytes, in / (entry 0)";
    const B_A: &str = "file /b/a at 0x700, 16 bytes, in /b/ (entry 2)";
    const BA: &str = "file /ba at 0x800, 32 bytes, in / (entry 0)";
    // The name, in case alone too. Of the texts' nine bytes another one differs.
    let c = "file /c at 0x500, 16 bytes, in / (entry 0)";
    differ(&temp, &base, b"c\0b\0a\0ba\0", (1, "name", A, c));
    let a = "file /A at 0x500, 16 bytes, in / (entry 0)";
    differ(&temp, &base, b"A\0b\0a\0ba\0", (1, "name", A, a));
    // The kind: the file `a` is a folder now, whose next is the entry behind it.
    let folder = "folder /a/, in / (entry 0)";
    differ(&temp, &with(1, [FOLDER, 0, 2]), NAMES, (1, "kind", A, folder));
    // The folder: `ba` lies in `b/` now, which ends behind it.
    let nested = "file /b/ba at 0x800, 32 bytes, in /b/ (entry 2)";
    differ(&temp, &with(2, [FOLDER | 2, 0, 5]), NAMES, (4, "folder", BA, nested));
    // The folder: `b/` is empty.
    let out = "file /a at 0x700, 16 bytes, in / (entry 0)";
    differ(&temp, &with(2, [FOLDER | 2, 0, 3]), NAMES, (3, "folder", B_A, out));
    // Offset and size.
    let moved = "file /b/a at 0x740, 16 bytes, in /b/ (entry 2)";
    differ(&temp, &with(3, [4, 0x740, 0x10]), NAMES, (3, "offset", B_A, moved));
    let resized = "file /ba at 0x800, 1 byte, in / (entry 0)";
    differ(&temp, &with(4, [6, 0x800, 1]), NAMES, (4, "size", BA, resized));
    let both = "file /ba at 0x900, 33 bytes, in / (entry 0)";
    differ(&temp, &with(4, [6, 0x900, 33]), NAMES, (4, "offset, size", BA, both));
    // The order: `a` and `ba` have changed their places.
    let mut order = base;
    (order[1], order[4]) = ([6, 0x800, 0x20], [0, 0x500, 0x10]);
    differ(&temp, &order, NAMES, (1, "name, offset, size", A, BA));
    // More entries, and fewer.
    let mut more = base.to_vec();
    more.push([9, 0, 0]);
    more[0][2] = 6;
    let z = "file /z at 0x0, 0 bytes, in / (entry 0)";
    differ(&temp, &more, b"a\0b\0a\0ba\0z\0", (5, "", "no entry 5", z));
    let mut fewer = base[..4].to_vec();
    fewer[0][2] = 4;
    differ(&temp, &fewer, b"a\0b\0a\0", (4, "", BA, "no entry 4"));
    // A folder in the place of a file, with the rest behind it: an entry that comes first is told first.
    let mut inserted = base.to_vec();
    inserted.insert(1, [FOLDER | 9, 0, 2]);
    (inserted[0][2], inserted[3][2]) = (6, 5);
    let z = "folder /z/, in / (entry 0)";
    differ(&temp, &inserted, b"a\0b\0a\0ba\0z\0", (1, "name, kind", A, z));
}

/// Names go by their bytes; they are shown as text, or as bytes where these are wanted.
#[test]
fn names_are_shown_as_elsewhere() {
    let temp = Temp::new();
    let image = |name: &str, second: u8| {
        let texts = [0x95, second, 0];
        temp.write(name, &master(0x440, &[[FOLDER, 0, 2], [0, 0x500, 0x10]], &texts))
    };
    // 0x95 0x5C and 0x95 0x5D.
    let (one, two) = (image("one.iso", 0x5C), image("two.iso", 0x5D));
    let (run, told) = compared(&one, &two);
    assert_eq!(run.status, 1);
    assert!(run.out.contains(": file /表 at 0x500, 16 bytes, in / (entry 0)\n"), "{}", run.out);
    assert_eq!(told.at("difference").at("before").at("path_bytes").text(), "2f955c");
    assert_eq!(told.at("difference").at("after").at("path_bytes").text(), "2f955d");
    let run = tables(&one, &two, &["--bytes"]);
    assert!(run.bytes.windows(7).any(|bytes| bytes == b" /\x95\x5C at"), "{}", run.out);
}

/// Header, files' bytes, free space and what lies behind the disc end are none of the tree.
#[test]
fn nothing_but_trees_and_tables_is_compared() {
    let temp = Temp::new();
    let one = written(&temp, "one.iso");
    let mut bytes = fs::read(&one).unwrap();
    bytes[..6].copy_from_slice(b"GCTE01");
    put(&mut bytes, 0x42C, 0x1000);
    pattern(&mut bytes[0x485..], 5);
    bytes.extend(b"tail");
    let two = temp.write("two.iso", &bytes);
    let (run, told) = compared(&one, &two);
    assert_eq!(run.status, 0, "{}", run.out);
    assert!(told.at("same_tables").flag());
    assert_eq!(on("compare", &one, &[two.to_str().unwrap()]).status, 1);
}

// A rewrite that is refused ---------------------------------------------------------------

/// One of the sides, and the notes of `check` about a rewrite. They are of one mind: number, cause and
/// detail. And where the table departs, or the limit, is told as of a rewrite that is not refused.
fn refusal(image: &Path, told: &Json, number: u64, cause: &str, departs: Option<u64>) -> String {
    refused(image, &["rewrite"], number as i32);
    let limit = (number == 9).then_some(number);
    let check = json("check", image, &[]);
    for side in [told, &check] {
        assert_eq!(side.at("rewrite_refusal").number(), number);
        assert_eq!(side.at("rewrite_cause").text(), cause);
        assert_eq!(*side.at("rewrite_detail"), *check.at("rewrite_detail"));
        assert_eq!(*side.at("rewrite_alters_bytes"), Json::Null);
        assert_eq!(*side.at("rewrite_first_altered"), Json::Null);
        assert_eq!(*side.at("rewrite_alters_at"), maybe(departs));
        assert_eq!(*side.at("rewrite_refused"), maybe(limit));
    }
    let text = done("check", image, &[]);
    assert!(!text.contains("would alter"), "{text}");
    let detail = check.at("rewrite_detail").text();
    let words =
        format!("every edit that writes the table, is refused {number} ({cause}): {detail}\n");
    // The maximum's own note tells it already.
    assert_eq!(text.contains(&words), number != 26, "{text}");
    text.lines()
        .filter(|line| line.contains("a rewrite"))
        .map(|line| [line, "\n"].concat())
        .collect()
}

/// Of the shared texts: the table's name offset 1 of entry 1, where 0 is written.
fn note_1(fst: u64) -> String {
    let at = fst + 15;
    format!(
        "note: what a rewrite would write differs from the table first at {at:#x}, the name offset of entry 1\n"
    )
}

#[test]
fn a_maximum_that_refuses_a_rewrite_is_told() {
    let temp = Temp::new();
    let one = written(&temp, "one.iso");
    let mut bytes = master(0x440, &entries(SHARED, [0, 0]), SHORT);
    for (maximum, refuses) in [(65, true), (68, true), (69, false)] {
        put(&mut bytes, 0x42C, maximum);
        let two = temp.write("two.iso", &bytes);
        let (run, told) = compared(&one, &two);
        assert_eq!(run.status, 0, "{}", run.out);
        let anew = "\ntables as a rewrite would write them: the same, 69 bytes\n";
        assert!(run.out.contains(anew), "{}", run.out);
        let side = told.at("tables").at("after");
        assert_eq!(side.at("rewrite_size").number(), 69);
        let words = format!(
            "{}: a rewrite is refused 26: new table above the maximum (the new table, with no name shared, has 69 bytes, \
             {} above the maximum of {maximum} that the header states at 0x42c; ",
            two.display(),
            69 - maximum
        );
        assert_eq!(run.out.contains(&words), refuses, "{}", run.out);
        assert_eq!(run.out.contains("); the table stays as it is\n"), refuses, "{}", run.out);
        match refuses {
            true => {
                let cause = "new table above the maximum";
                let notes = refusal(&two, side, 26, cause, Some(0x44F));
                assert!(notes.ends_with(&note_1(0x440)), "{notes}");
                let text = done("check", &two, &[]);
                let note = "with no name shared, has 69 bytes, ";
                assert!(text.contains(note) && text.contains("is refused\n"), "{text}");
            }
            false => assert_eq!(side.at("rewrite_alters_bytes").number(), 11),
        }
    }
}

/// The table at 0x460 ends at 0x4A1, and written anew at 0x4A5.
#[test]
fn a_file_that_leaves_no_room_for_a_rewrite_is_told() {
    let temp = Temp::new();
    for (at, refuses) in [(0x4A1, true), (0x4A4, true), (0x4A5, false)] {
        let with = |names, parents| {
            let mut entries = entries(names, parents);
            entries[1][1] = at;
            entries
        };
        let one = temp.write("one.iso", &master(0x440, &with(ANEW, [0, 0]), NAMES));
        let two = temp.write("two.iso", &master(0x460, &with(SHARED, [0, 0]), SHORT));
        let (run, told) = compared(&one, &two);
        assert_eq!(run.status, 0, "{}", run.out);
        assert!(told.at("same_rewritten").flag());
        let side = told.at("tables").at("after");
        let why = "with no name shared the table has 69 bytes, and what lies behind it leaves no room for them";
        let words = format!(
            "\n{}: a rewrite is refused 21: no space ({why}); the table stays as it is\n",
            two.display()
        );
        assert_eq!(run.out.contains(&words), refuses, "{}", run.out);
        let note = format!(
            "note: a rewrite, and every edit that writes the table, is refused 21 (no space): {why}\n"
        );
        match refuses {
            true => {
                let notes = refusal(&two, side, 21, "no space", Some(0x46F));
                assert_eq!(notes, [note_1(0x460), note].concat());
                // Of the edits themselves: what lies there may be some bytes behind the table.
                for edit in [&["rewrite"][..], &["mkdir", "d"], &["add", "d"]] {
                    let words = "21: no space (what lies behind the table leaves no room for a larger one)\n";
                    let run = on(edit[0], &two, &edit[1..]);
                    assert!(run.err.ends_with(words), "{}", run.err);
                }
            }
            false => assert_eq!(side.at("rewrite_alters_bytes").number(), 11),
        }
    }
}

/// Two files share a name of 1,048,575 bytes: apart they would pass the limit of the texts.
#[test]
fn a_limit_that_refuses_a_rewrite_is_told() {
    let temp = Temp::new();
    let long = |name: &str, parent: u32| {
        let mut bytes = small_master();
        bytes.resize(0x20_0000, 0);
        put(&mut bytes, 0x434, 0x20_0000);
        let table = [FOLDER, parent, 3, 0, 0, 0, 0, 0, 0];
        for (i, word) in table.into_iter().enumerate() {
            put(&mut bytes, 0x440 + 4 * i, word);
        }
        bytes[0x464..][..0xF_FFFF].fill(b'n');
        put(&mut bytes, 0x428, 36 + 0x10_0000);
        temp.write(name, &bytes)
    };
    let (one, two) = (long("one.iso", 0), long("two.iso", 5));
    let (run, told) = compared(&one, &two);
    assert_eq!(run.status, 0, "{}", run.out);
    let none = "\ntables now: not the same, 1,048,612 bytes each\n\
                tables as a rewrite would write them: none, a limit refuses both (9)\n";
    assert!(run.out.contains(none), "{}", run.out);
    let words = ": a rewrite is refused 9: limit or memory (with no name shared the table would pass its limits); the \
                 table stays as it is\n";
    assert_eq!(run.out.matches(words).count(), 2, "{}", run.out);
    assert!(told.at("same_tree").flag());
    assert_eq!(*told.at("same_rewritten"), Json::Null);
    let side = told.at("tables").at("after");
    assert_eq!(*side.at("rewrite_size"), Json::Null);
    let note = "note: a rewrite, and every edit that writes the table, is refused 9 (limit or memory): with no name \
                shared the table would pass its limits\n";
    assert_eq!(refusal(&two, side, 9, "limit or memory", None), note);
    // One of them alone.
    let small = written(&temp, "small.iso");
    for (before, after) in [(&small, &one), (&one, &small)] {
        let (run, told) = compared(before, after);
        assert_eq!(run.status, 1, "{}", run.out);
        let name = one.display();
        let none = format!(
            "\ntables as a rewrite would write them: none of {name}, which a limit refuses (9)\n"
        );
        assert!(run.out.contains(&none), "{}", run.out);
        assert_eq!(*told.at("same_rewritten"), Json::Null);
        assert_eq!(told.at("difference").at("number").number(), 1);
    }
}

/// A rewrite is tried on a private copy. Where the machine gives no memory for one, the rest is told.
#[test]
fn a_rewrite_that_cannot_be_tried_is_told() {
    let temp = Temp::new();
    let long = |name: &str, image: &[u8]| {
        let path = temp.write(name, image);
        fs::OpenOptions::new().write(true).open(&path).unwrap().set_len(1 << 30).unwrap();
        path
    };
    let one = long("one.iso", &master(0x440, &entries(ANEW, [0, 0]), NAMES));
    let two = long("two.iso", &master(0x440, &entries(SHARED, [0, 0]), SHORT));
    // So many KiB have room for each image once, and for half of one besides.
    let limited = |kilobytes: u32, args: &[&str]| {
        let script = "ulimit -v \"$1\"; shift; exec \"$@\"";
        let mut command = Command::new("bash");
        command.args(["-c", script, "bash", &kilobytes.to_string(), env!("CARGO_BIN_EXE_counter")]);
        let run = Run::from(command.env("LC_ALL", "C.UTF-8").args(args).output().expect("bash"));
        assert_eq!(run.status, 0, "{}{}", run.out, run.err);
        run.out
    };
    let [a, b] = [&one, &two].map(|path| path.to_str().unwrap());
    let why = |name: &str| format!("{name}: Cannot allocate memory (os error 12)");
    let untried = |name: &str| format!("a rewrite could not be tried: {}\n", why(name));
    const MIB: u32 = 1 << 10;
    let text = limited(1536 * MIB, &["check", a]);
    assert!(text.contains(": opens: 3 files, 1 folder, "), "{text}");
    assert!(text.ends_with(&format!("\nnote: {}", untried(a))), "{text}");
    let text = limited(1536 * MIB, &["check", b]);
    assert!(text.ends_with(&format!("\n{}note: {}", note_1(0x440), untried(b))), "{text}");
    let told = Json::read(&limited(1536 * MIB, &["check", b, "--json"]));
    assert_eq!(told.at("rewrite_alters_at").number(), 0x44F);
    assert_eq!(told.at("rewrite_size").number(), SIZE.into());
    assert_eq!(told.at("rewrite_detail").text(), why(b));
    for name in ["alters_bytes", "first_altered", "refused", "refusal", "cause"] {
        assert_eq!(*told.at(&format!("rewrite_{name}")), Json::Null, "{name}");
    }
    let text = limited(2560 * MIB, &["compare", a, b, "--tables"]);
    let sizes = "the same, 69 bytes";
    let lines = [a, b].map(|name| format!("{name}: {}", untried(name))).concat();
    let wanted = format!("\ntables as a rewrite would write them: {sizes}\n{lines}{LAST}");
    assert!(text.ends_with(&wanted), "{text}");
}

// What cannot be compared -----------------------------------------------------------------

#[test]
fn options_that_say_nothing_of_tables_are_wrong_usage() {
    let temp = Temp::new();
    let (one, two) = (written(&temp, "one.iso"), written(&temp, "two.iso"));
    let list = temp.write("list.txt", b"/\n");
    let (list, svg) = (list.to_str().unwrap(), temp.at("both.svg"));
    let options: [&[&str]; 3] =
        [&["--given", list], &["--only-differences"], &["--map", svg.to_str().unwrap()]];
    for rest in options {
        let run = tables(&one, &two, rest);
        assert_eq!((run.status, run.out.as_str()), (64, ""), "{}", run.err);
        let words =
            format!("{} and --tables: with --tables trees and tables alone are compared", rest[0]);
        assert!(run.err.contains(&words), "{}", run.err);
    }
    assert!(!svg.exists());
    // A manifest has no table; on either side.
    let sums = temp.write("one.sums", done("hash", &one, &[]).as_bytes());
    for (before, after) in [(&sums, &two), (&two, &sums)] {
        let run = tables(before, after, &[]);
        assert_eq!((run.status, run.out.as_str()), (64, ""), "{}", run.err);
        let words = "one.sums: a manifest; --tables wants two images\n";
        assert!(run.err.contains(words), "{}", run.err);
    }
    // One file under two names.
    let (link, hard) = (temp.at("link.iso"), temp.at("hard.iso"));
    std::os::unix::fs::symlink(&one, &link).unwrap();
    fs::hard_link(&one, &hard).unwrap();
    for other in [&one, &link, &hard] {
        let run = tables(&one, other, &[]);
        assert_eq!((run.status, run.out.as_str()), (64, ""), "{}", run.err);
        assert!(run.err.contains("one and the same file"), "{}", run.err);
    }
    // No other command takes it.
    assert_eq!(on("check", &one, &["--tables"]).status, 64);
}

#[test]
fn images_that_do_not_open_end_it_with_their_number() {
    let temp = Temp::new();
    let one = written(&temp, "one.iso");
    let bad = temp.write("bad.iso", &[0; 0x440]);
    let short = temp.write("short.iso", &[0; 10]);
    for (other, status) in [(&bad, 3), (&short, 65), (&temp.at("nothing.iso"), 66)] {
        for (before, after) in [(&one, other), (other, &one)] {
            let run = tables(before, after, &[]);
            assert_eq!((run.status, run.out.as_str()), (status, ""), "{}", run.err);
            let told = tables(before, after, &["--json"]);
            assert_eq!(Json::read(&told.out).at("status").number() as i32, status);
        }
    }
}

/// An image of which an edit was cut is read with --as-is, and is no master to go by.
#[test]
fn an_edit_that_was_cut_is_told() {
    let temp = Temp::new();
    let (one, two) = (written(&temp, "one.iso"), written(&temp, "two.iso"));
    fs::write(journal_of(&two), OPEN_JOURNAL).unwrap();
    assert_eq!(tables(&one, &two, &[]).status, 78);
    let run = tables(&one, &two, &["--as-is"]);
    assert_eq!(run.status, 78, "{}", run.out);
    assert!(
        run.out.contains(" have the same tree: ") && run.out.contains(" was cut, "),
        "{}",
        run.out
    );
    let told = Json::read(&tables(&one, &two, &["--as-is", "--json"]).out);
    assert_eq!(told.at("status").number(), 78);
    assert_eq!(told.at("cut").list().len(), 1);
    // Another tree is another tree.
    fs::write(&one, master(0x440, &[[FOLDER, 0, 1]], b"")).unwrap();
    assert_eq!(tables(&one, &two, &["--as-is"]).status, 1);
}

#[test]
fn help_names_every_field_of_a_difference() {
    let temp = Temp::new();
    let one = written(&temp, "one.iso");
    let two = temp.write("two.iso", &master(0x440, &[[FOLDER, 0, 1]], b""));
    let help = run(&["help", "compare"]).out;
    let words: Vec<&str> = help.split(|c: char| !c.is_ascii_alphanumeric() && c != '_').collect();
    let found = fields(&compared(&one, &two).1);
    assert!(found.len() > 25, "{found:?}");
    for name in found {
        assert!(words.contains(&name.as_str()), "{name}");
    }
}
