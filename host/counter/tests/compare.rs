//! `compare`: the licence check.

mod support;

use std::fs;
use std::os::unix::fs::FileExt;
use std::path::{Path, PathBuf};
use support::*;

const END: u32 = 0x20_0000;

struct Pair {
    temp: Temp,
    before: PathBuf,
    after: PathBuf,
}

/// Two equal realistic masters.
fn pair() -> Pair {
    pair_of(&usual(0x10_0000, 0x4_5678))
}

fn pair_of(entries: &[Wish]) -> Pair {
    let temp = Temp::new();
    let (before, after) = (temp.at("before.iso"), temp.at("after.iso"));
    sparse(&before, entries, END);
    fs::copy(&before, &after).unwrap();
    Pair { temp, before, after }
}

impl Pair {
    fn compare(&self, rest: &[&str]) -> Run {
        let mut args = vec![self.after.to_str().unwrap()];
        args.extend(rest);
        on("compare", &self.before, &args)
    }

    fn given(&self, list: &str) -> Run {
        let path = self.temp.write("list.txt", list.as_bytes());
        self.compare(&["--given", path.to_str().unwrap()])
    }

    fn json(&self) -> Json {
        Json::read(&self.compare(&["--json"]).out)
    }

    fn edit(&self, args: &[&str]) {
        done(args[0], &self.after, &args[1..]);
    }

    fn spoil(&self, at: u64) {
        let file = fs::OpenOptions::new().read(true).write(true).open(&self.after).unwrap();
        let mut byte = [0];
        file.read_exact_at(&mut byte, at).unwrap();
        file.write_all_at(&[byte[0] ^ 1], at).unwrap();
    }
}

fn status(told: &Json, path: &str) -> String {
    let files = told.at("files").list();
    let file = files.iter().find(|file| file.at("path").text() == path).unwrap();
    file.at("status").text().to_string()
}

#[test]
fn equal_images_pass() {
    let pair = pair();
    let run = pair.compare(&[]);
    assert_eq!(run.status, 0, "{}", run.out);
    assert!(run.out.contains("unchanged        /audio/theme.adp\n"), "{}", run.out);
    assert!(run.out.contains("8 files: 8 unchanged, 0 moved, 0 resized, 0 changed, 0 new, 0 gone"));
    assert!(run.out.contains("passed"), "{}", run.out);
    let told = pair.json();
    assert!(told.at("passed").flag());
    assert_eq!(told.at("counts").at("unchanged").number(), 8);
}

#[test]
fn every_kind_of_difference_is_told_and_held_against_the_list() {
    let pair = pair();
    pair.edit(&["move", "audio/theme.adp", "0x190000"]);
    pair.edit(&["resize", "text/en/msg.bin", "0x1000"]);
    pair.edit(&["resize", "audio/se/se000.dsp", "0x401"]);
    pair.edit(&["add", "text/en/new.bin"]);
    pair.edit(&["mkdir", "extra"]);
    let theme = Table::of(&pair.after).entry("/audio/theme.adp").offset;
    assert_eq!(theme, 0x19_0000);
    pair.spoil(0x10_0000 + 0x2345);

    let told = pair.json();
    assert_eq!(status(&told, "/audio/theme.adp"), "moved");
    assert_eq!(status(&told, "/text/en/msg.bin"), "resized");
    assert_eq!(status(&told, "/audio/se/se000.dsp"), "moved+resized");
    assert_eq!(status(&told, "/movie/intro.thp"), "changed");
    assert_eq!(status(&told, "/text/en/new.bin"), "new");
    assert_eq!(status(&told, "/opening.bnr"), "unchanged");
    assert!(!told.at("passed").flag());
    let extra: Vec<&str> = told
        .at("folders")
        .list()
        .iter()
        .filter(|folder| folder.at("status").text() == "new")
        .map(|folder| folder.at("path").text())
        .collect();
    assert_eq!(extra, ["/extra/"]);

    let run = pair.compare(&[]);
    assert_eq!(run.status, 1);
    assert!(
        run.out
            .contains("moved            /audio/theme.adp  offset 0x80000 -> 0x190000  [NOT GIVEN]")
    );
    assert!(
        run.out.contains("resized          /text/en/msg.bin  size 4,660 -> 4,096  [NOT GIVEN]")
    );
    assert!(run.out.contains("FAILED: 4 differences"), "{}", run.out);

    let all = "audio/theme.adp\r\n\n/text/en/msg.bin\n./audio/se/../se/se000.dsp\nmovie\\intro.thp";
    let run = pair.given(all);
    assert_eq!(run.status, 0, "{}{}", run.out, run.err);
    assert!(run.out.contains("[given]") && !run.out.contains("NOT GIVEN"), "{}", run.out);
    // Each single line is needed.
    for line in
        ["audio/theme.adp", "/text/en/msg.bin", "./audio/se/../se/se000.dsp", "movie\\intro.thp"]
    {
        let run = pair.given(&all.replace(line, ""));
        assert_eq!(run.status, 1, "{line}: {}", run.out);
    }
    // A line that ends in / stands for the files below it, and for no more.
    assert_eq!(pair.given("audio/\ntext/en/\nmovie/\n").status, 0);
    let run = pair.given("/\n");
    assert_eq!(run.status, 0);
    assert!(run.err.contains("covers every file and folder"), "{}", run.err);
    assert!(run.out.contains("the list has the line /: it covers every"), "{}", run.out);
    assert_eq!(pair.given("audio/\ntext/e/\nmovie/\n").status, 1);
    let run = pair.given(&format!("{all}\nno/such/file\naudio\n"));
    assert_eq!(run.status, 0);
    assert!(run.err.contains("the list has /no/such/file"), "{}", run.err);
    assert!(run.err.contains("the list has /audio,"), "{}", run.err);
}

#[test]
fn one_byte_anywhere_in_a_file_is_found() {
    for (path, entry_at) in [("/opening.bnr", 0x6_0000u64), ("/text/fr/msg.bin", 0xA_8000)] {
        let pair = pair();
        let size = u64::from(Table::of(&pair.after).entry(path).size);
        for at in [0, size / 2, size - 1] {
            fs::copy(&pair.before, &pair.after).unwrap();
            pair.spoil(entry_at + at);
            assert_eq!(pair.compare(&[]).status, 1);
            assert_eq!(status(&pair.json(), path), "changed");
        }
        // Free space may hold anything.
        fs::copy(&pair.before, &pair.after).unwrap();
        pair.spoil(entry_at + size);
        assert_eq!(pair.compare(&[]).status, 0);
    }
}

#[test]
fn header_program_and_tail_are_watched() {
    for (at, words) in [
        (0x21, "changed          (header: game name at 0x21)  [NOT GIVEN]"),
        (0x43F, "changed          (header: unused 0x43C at 0x43c)  [NOT GIVEN]"),
        (0x409, "changed          (header: unused 0x408 at 0x409)  [NOT GIVEN]"),
        (APPLOADER as u64 + 0x30, "changed          (system area: at 0x2470)  [NOT GIVEN]"),
        (DOL as u64 + 0x1000, "changed          (system area: at 0x1f800, in the program)"),
    ] {
        let pair = pair();
        pair.spoil(at);
        let run = pair.compare(&[]);
        assert_eq!(run.status, 1, "{at:#x}: {}", run.out);
        assert!(run.out.contains(words), "{at:#x}: {}", run.out);
        // No path gives leave for that.
        assert_eq!(pair.given("/\n").status, 1, "{at:#x}");
    }
    let pair = pair();
    for path in [&pair.before, &pair.after] {
        let mut bytes = fs::read(path).unwrap();
        bytes.extend(b"tail");
        fs::write(path, bytes).unwrap();
    }
    assert_eq!(pair.compare(&[]).status, 0);
    pair.spoil(END.into());
    let run = pair.compare(&[]);
    assert_eq!(run.status, 1);
    let line = "changed          (disc end and all behind it: at 0x200000)  [NOT GIVEN]";
    assert!(run.out.contains(line), "{}", run.out);
    // The manifest of it tells the part, and the field.
    let manifest = pair.manifest();
    let run = pair.against(&manifest, &[]);
    let words = "(disc end and all behind it: somewhere in 0x200000 to 0x200004)  [NOT GIVEN]";
    assert!(run.out.contains(words), "{}", run.out);
    pair.spoil(DOL as u64 + 0x1000);
    let run = pair.against(&manifest, &[]);
    assert!(run.out.contains("(system area: somewhere in 0x440 to 0x50000)"), "{}", run.out);
    pair.spoil(DOL as u64 + 0x1000);
    pair.spoil(END.into());
    pair.spoil(0x42F);
    for run in [pair.compare(&[]), pair.against(&manifest, &[])] {
        assert_eq!(run.status, 1);
        assert!(run.out.contains("changed          (header: FST maximum at 0x42c)"), "{}", run.out);
        assert!(run.out.contains("FAILED: 1 difference "), "{}", run.out);
    }
}

#[test]
fn a_program_behind_the_table_is_watched() {
    let pair = pair();
    let (start, end) = (0x18_0000, 0x18_0000 + DOL_SIZE as u64);
    for path in [&pair.before, &pair.after] {
        program_to(path, start as u32);
    }
    let sums = pair.temp.write("before.sums", done("hash", &pair.before, &[]).as_bytes());
    let verdicts = |list: &str| {
        let list = pair.temp.write("list.txt", list.as_bytes());
        let args = [pair.after.to_str().unwrap(), "--given", list.to_str().unwrap()];
        [&pair.before, &sums].map(|before| on("compare", before, &args))
    };
    // Edits beside it leave it as it was.
    pair.edit(&["move", "opening.bnr", "0x17e6a0"]);
    pair.edit(&["move", "audio/theme.adp", "0x1ac000"]);
    for run in verdicts("opening.bnr\naudio/theme.adp\n") {
        assert_eq!(run.status, 0, "{}", run.out);
        assert!(run.out.contains("unchanged        (program)"), "{}", run.out);
    }
    // A byte of its header (an address), one in the midst and its last; no list gives leave for that.
    for at in [start + 0x48, start + 0x1000, end - 1] {
        pair.spoil(at);
        for run in verdicts("/\n") {
            assert_eq!(run.status, 1, "{at:#x}: {}", run.out);
            let told =
                |words: &str| run.out.contains(&format!("changed          (program: {words}"));
            let part = format!("somewhere in {start:#x} to {end:#x})");
            assert!(told(&format!("at {at:#x})")) || told(&part), "{at:#x}: {}", run.out);
            assert!(run.out.contains("FAILED: 1 difference not on the list"), "{}", run.out);
        }
        pair.spoil(at);
    }
    // What is free before it and behind it is none of its bytes.
    pair.spoil(start - 0x1960 - 1);
    pair.spoil(end + 0x8123);
    for run in verdicts("opening.bnr\naudio/theme.adp\n") {
        assert_eq!(run.status, 0, "{}", run.out);
        assert!(run.out.contains("unchanged        (program)"), "{}", run.out);
    }
}

#[test]
fn a_file_that_is_gone_fails_and_a_renamed_one_is_gone_and_new() {
    let pair = pair();
    let mut bytes = fs::read(&pair.after).unwrap();
    let at = bytes[FST..].windows(9).position(|w| w == b"theme.adp").unwrap();
    bytes[FST + at] = b'T';
    fs::write(&pair.after, bytes).unwrap();
    let told = pair.json();
    assert_eq!(status(&told, "/audio/theme.adp"), "gone");
    assert_eq!(status(&told, "/audio/Theme.adp"), "new");
    assert_eq!(pair.compare(&[]).status, 1);
    assert_eq!(pair.given("audio/theme.adp").status, 0);
}

#[test]
fn equal_names_are_matched_by_their_order() {
    let entries = [
        file("x", 0x6_0000, 0x10),
        file("x", 0x6_1000, 0x20),
        folder("x", vec![file("x", 0x6_2000, 0x30)]),
    ];
    let pair = pair_of(&entries);
    assert_eq!(pair.compare(&[]).status, 0);
    // The first `x` moves: that is all that differs, and the list's `x` means it.
    pair.edit(&["move", "x", "0x70000"]);
    let told = pair.json();
    let statuses: Vec<&str> =
        told.at("files").list().iter().map(|file| file.at("status").text()).collect();
    assert_eq!(statuses, ["moved", "unchanged", "unchanged"]);
    assert_eq!(pair.given("x").status, 0);
    // The second one differs: the list's `x` does not mean it.
    pair.spoil(0x6_1000);
    let run = pair.given("x");
    assert_eq!(run.status, 1);
    assert!(run.out.contains("changed          /x (entry 2)  [NOT GIVEN]"), "{}", run.out);
}

#[test]
fn images_that_do_not_open_and_lists_that_are_not_there() {
    let pair = pair();
    let bad = pair.temp.write("bad.iso", &[0; 0x440]);
    let short = pair.temp.write("short.iso", &[0; 10]);
    let other = |a: &Path, b: &Path| on("compare", a, &[b.to_str().unwrap()]);
    assert_eq!(other(&bad, &pair.after).status, 3);
    assert_eq!(other(&pair.before, &bad).status, 3);
    // 1 always says that something differs.
    let run = other(&pair.before, &short);
    assert_eq!(run.status, 65);
    assert!(run.err.contains("refused 1"), "{}", run.err);
    assert_eq!(other(&pair.before, &pair.temp.at("nothing")).status, 66);
    assert_eq!(pair.compare(&["--given", "/no/such/list"]).status, 66);
    let run = pair.compare(&["--given", "/no/such/list", "--json"]);
    assert_eq!(Json::read(&run.out).at("status").number(), 66);
}

#[test]
fn empty_files_may_lie_anywhere() {
    let pair = pair();
    pair.edit(&["move", "audio/silence.adp", "0xFFFFFFFF"]);
    let told = pair.json();
    assert_eq!(status(&told, "/audio/silence.adp"), "moved");
    assert_eq!(pair.compare(&[]).status, 1);
    assert_eq!(pair.given("audio/silence.adp").status, 0);
}

#[test]
fn a_file_is_not_compared_with_itself() {
    let pair = pair();
    let link = pair.temp.at("link.iso");
    std::os::unix::fs::symlink(&pair.before, &link).unwrap();
    let hard = pair.temp.at("hard.iso");
    fs::hard_link(&pair.before, &hard).unwrap();
    for other in [&pair.before, &link, &hard] {
        for command in ["compare", "report"] {
            let page = pair.temp.at("page.html");
            let mut args = vec![other.to_str().unwrap()];
            if command == "report" {
                args.push(page.to_str().unwrap());
            }
            let run = on(command, &pair.before, &args);
            assert_eq!(run.status, 64, "{}", run.out);
            assert!(run.err.contains("one and the same file"), "{}", run.err);
            assert!(!page.exists() && run.out.is_empty());
        }
    }
}

#[test]
fn a_list_gives_leave_for_no_more_than_it_names() {
    let pair = pair();
    pair.edit(&["move", "audio/theme.adp", "0x190000"]);
    let lines = [
        "../",
        "./",
        "\\",
        "nosuch/../",
        "..",
        ".",
        "//",
        "/.",
        "/./",
        "audio/..",
        "audio/../..",
        "../audio/theme.adp",
        "audio/../../audio/theme.adp",
        "/../",
        "\\..\\",
    ];
    for line in lines {
        for list in [line.to_string(), format!("/audio/theme.adp\r\n{line}\r\n")] {
            let run = pair.given(&list);
            assert_eq!(run.status, 65, "{list:?}: {}{}", run.out, run.err);
            let words = if run.err.contains("above") { "above the root" } else { "to the root" };
            assert!(run.err.contains(words) && run.err.contains(", line "), "{}", run.err);
            assert!(run.out.is_empty(), "{}", run.out);
        }
    }
    // What only passes by the root is a path like another.
    assert_eq!(pair.given("text/../audio/theme.adp").status, 0);
    assert_eq!(pair.given("").status, 1);
    // As an editor of text may leave it.
    assert_eq!(pair.given("\u{FEFF}/audio/theme.adp\r\n").status, 0);
    let wide: Vec<u8> =
        [0xFF, 0xFE].into_iter().chain("/\n".encode_utf16().flat_map(u16::to_le_bytes)).collect();
    let path = pair.temp.write("wide.txt", &wide);
    let run = pair.compare(&["--given", path.to_str().unwrap()]);
    assert_eq!(run.status, 65, "{}", run.out);
    assert!(run.err.contains("UTF-16"), "{}", run.err);
}

#[test]
fn lists_add_up() {
    let pair = pair();
    pair.edit(&["move", "audio/theme.adp", "0x190000"]);
    pair.edit(&["resize", "text/en/msg.bin", "0x1000"]);
    let one = pair.temp.write("one.txt", b"audio/theme.adp");
    let two = pair.temp.write("two.txt", b"text/en/msg.bin");
    let (one, two) = (one.to_str().unwrap(), two.to_str().unwrap());
    assert_eq!(pair.compare(&["--given", one]).status, 1);
    assert_eq!(pair.compare(&["--given", two]).status, 1);
    assert_eq!(pair.compare(&["--given", one, "--given", two]).status, 0);
    assert_eq!(pair.compare(&[&format!("--given={two}"), "--given", one]).status, 0);
}

#[test]
fn only_differences_are_shown_where_that_is_wished() {
    let pair = pair();
    pair.edit(&["move", "audio/theme.adp", "0x190000"]);
    let run = pair.compare(&["--only-differences"]);
    assert_eq!(run.status, 1);
    let wanted = "moved            /audio/theme.adp  offset 0x80000 -> 0x190000  [NOT GIVEN]\n\
                  written anew     (table)\n\
                  8 files: 7 unchanged, 1 moved, 0 resized, 0 changed, 0 new, 0 gone\n\
                  FAILED: 1 difference not given (there is no list)\n";
    assert_eq!(run.out, wanted);
    let told = Json::read(&pair.compare(&["--only-differences", "--json"]).out);
    assert_eq!(told.at("files").list().len(), 1);
    assert_eq!(told.at("folders").list().len(), 0);
    assert_eq!(told.at("counts").at("unchanged").number(), 7);
}

/// The image with another table, in the same place.
fn with_table(path: &Path, entries: &[Wish]) {
    let mut bytes = fs::read(path).unwrap();
    let table = table(entries);
    let old = (Table::of(path).table_end - FST as u64) as usize;
    bytes[FST..FST + old].fill(0);
    bytes[FST..FST + table.len()].copy_from_slice(&table);
    put(&mut bytes, 0x428, table.len() as u32);
    fs::write(path, bytes).unwrap();
}

#[test]
fn an_empty_folder_that_is_gone_fails() {
    let pair = pair();
    let mut entries = usual(0x10_0000, 0x4_5678);
    entries.remove(3);
    with_table(&pair.after, &entries);
    let run = pair.compare(&[]);
    assert_eq!(run.status, 1, "{}", run.out);
    assert!(run.out.contains("gone             /empty/  [NOT GIVEN]\n"), "{}", run.out);
    assert!(run.out.contains("FAILED: 1 difference"), "{}", run.out);
    assert_eq!(pair.given("audio/\n").status, 1);
    assert_eq!(pair.given("empty\n").status, 1);
    assert_eq!(pair.given("empty/\n").status, 0);
    let told = pair.json();
    let gone: Vec<&str> = told
        .at("folders")
        .list()
        .iter()
        .filter(|folder| folder.at("status").text() == "gone")
        .map(|folder| folder.at("path").text())
        .collect();
    assert_eq!(gone, ["/empty/"]);
}

#[test]
fn an_entry_that_hides_another_fails() {
    // A folder of the same name in front: the path leads to it now, and the file is where it was.
    for (at, name, hidden) in [(0, "opening.bnr", "/opening.bnr"), (1, "audio", "/audio/theme.adp")]
    {
        let pair = pair();
        let manifest = pair.manifest();
        let mut entries = usual(0x10_0000, 0x4_5678);
        let other = if at == 0 { folder(name, vec![]) } else { file(name, 0, 0) };
        entries.insert(at, other);
        with_table(&pair.after, &entries);
        for run in [pair.compare(&[]), pair.against(&manifest, &[])] {
            assert_eq!(run.status, 1, "{}", run.out);
            let line =
                format!("hidden           {hidden}  (another entry of its name stands before it)");
            assert!(run.out.contains(&line), "{}", run.out);
        }
        assert_eq!(status(&pair.json(), hidden), "hidden");
    }
}

#[test]
fn an_entry_that_differs_in_case_alone_and_hides_another_fails() {
    // Full-width a and A: 0x82 0x81 and 0x82 0x60.
    let cases: [(&[u8], &[u8]); 4] = [
        (b"opening.bnr", b"Opening.BNR"),
        (b"audio", b"AUDIO"),
        (b"\x82\x81.bin", b"\x82\x60.bin"),
        (b"x-\x83\xBF", b"X-\x83\x9F"),
    ];
    for (name, other) in cases {
        let mut entries = usual(0x10_0000, 0x4_5678);
        if name[0] != b'o' && name[0] != b'a' {
            entries.push(file(name, 0x1A_0000, 0x100));
        }
        let at = match name {
            b"opening.bnr" => 0,
            b"audio" => 1,
            _ => entries.len() - 1,
        };
        let pair = pair_of(&entries);
        let manifest = pair.manifest();
        for run in [pair.compare(&[]), pair.against(&manifest, &[])] {
            assert_eq!(run.status, 0, "{}", run.out);
        }
        // Behind the other it is hidden itself, which is told.
        entries.insert(at + 1, file(other, 0, 0));
        with_table(&pair.after, &entries);
        for run in [pair.compare(&[]), pair.against(&manifest, &[])] {
            assert_eq!(run.status, 0, "{}", run.out);
            assert!(
                run.out.contains("  (a game that looks up without case finds /"),
                "{}",
                run.out
            );
        }
        // Before it, it hides what was found.
        let new = entries.remove(at + 1);
        entries.insert(at, new);
        with_table(&pair.after, &entries);
        for run in [pair.compare(&[]), pair.against(&manifest, &[])] {
            assert_eq!(run.status, 1, "{}", run.out);
            let line = run.out.lines().find(|line| line.starts_with("hidden           /")).unwrap();
            assert!(line.contains("(a game that looks up without case finds /"), "{line}");
            assert!(line.ends_with("[NOT GIVEN]"), "{line}");
        }
        let note = done("check", &pair.after, &[]);
        assert_eq!(
            note.matches(": a game that looks up without case finds /").count(),
            1,
            "{note}"
        );
        let told = json("check", &pair.after, &[]);
        assert_eq!(told.at("alike").list().len(), 1);
    }
    // All below a folder are hidden with it.
    let pair = pair();
    let mut entries = usual(0x10_0000, 0x4_5678);
    entries.insert(0, folder("Audio", vec![]));
    with_table(&pair.after, &entries);
    let told = pair.json();
    assert_eq!(status(&told, "/audio/se/se000.dsp"), "hidden");
    assert_eq!(status(&told, "/opening.bnr"), "unchanged");
    assert_eq!(pair.given("audio/\n").status, 0);
    // What was so before is no difference.
    fs::copy(&pair.after, &pair.before).unwrap();
    assert_eq!(pair.compare(&[]).status, 0);
}

#[test]
fn another_order_and_other_free_bytes_are_told() {
    let pair = pair();
    let run = pair.compare(&[]);
    assert!(run.out.contains("\nunchanged        (order of the entries)\n"), "{}", run.out);
    assert!(run.out.contains("\nunchanged        (free space)\n"), "{}", run.out);
    let mut entries = usual(0x10_0000, 0x4_5678);
    entries.swap(1, 2);
    with_table(&pair.after, &entries);
    let run = pair.compare(&[]);
    assert_eq!(run.status, 0, "{}", run.out);
    assert!(run.out.contains("\nchanged          (order of the entries)\n"), "{}", run.out);
    assert!(pair.json().at("order_changed").flag());

    fs::copy(&pair.before, &pair.after).unwrap();
    // What edits leave behind is no change: the old place is free only after the move.
    pair.edit(&["move", "audio/theme.adp", "0x190000"]);
    pair.edit(&["resize", "text/en/msg.bin", "0x100"]);
    pair.edit(&["mkdir", "extra"]);
    let run = pair.compare(&[]);
    assert!(run.out.contains("\nunchanged        (free space)\n"), "{}", run.out);
    assert!(run.out.contains("\nunchanged        (order of the entries)\n"), "{}", run.out);
    pair.spoil(0x1F_FFFF);
    pair.spoil(0x1F_0000);
    let run = pair.compare(&[]);
    let line = "\nchanged          (free space: 2 bytes differ, the first at 0x1f0000)\n";
    assert!(run.out.contains(line), "{}", run.out);
    assert!(run.out.contains("FAILED: 2 differences"), "{}", run.out);
    assert_eq!(pair.json().at("free_space").text(), "changed");
}

// The table -------------------------------------------------------------------------------

/// Entries of `usual`: text/, en/ in it, and the two files msg.bin.
const TEXT: u64 = 11;
const EN: u64 = 12;
const MESSAGES: [u64; 2] = [13, 15];

fn at_entry(number: u64, byte: u64) -> u64 {
    FST as u64 + 12 * number + byte
}

impl Pair {
    fn put(&self, at: u64, bytes: &[u8]) {
        let file = fs::OpenOptions::new().write(true).open(&self.after).unwrap();
        file.write_all_at(bytes, at).unwrap();
    }

    /// Both ways, with a list that gives leave for every file.
    fn both(&self, manifest: &Path) -> [Run; 2] {
        let list = self.temp.write("all.txt", b"/\n");
        let rest = ["--given", list.to_str().unwrap()];
        [self.compare(&rest), self.against(manifest, &rest)]
    }
}

#[test]
fn a_table_is_as_it_was_or_written_anew_or_told() {
    let size = table(&usual(0x10_0000, 0x4_5678)).len() as u64;
    let count = 16;
    assert_eq!(Table::of(&pair().after).entries[EN as usize].path, "/text/en");
    // Where, what is written there, and what is said of it.
    let damages: [(u64, &[u8], u64, &str); 6] = [
        (at_entry(EN, 4), &[0, 0, 0, 9], at_entry(EN, 7), "the stored parent of entry 12"),
        (at_entry(0, 4), &[0, 0, 0, 1], at_entry(0, 7), "the stored parent of entry 0"),
        (at_entry(0, 1), &[0, 0, 2], at_entry(0, 3), "the name offset of entry 0"),
        // A name offset that leads to an equal name elsewhere: the two msg.bin.
        (at_entry(15, 1), &[], at_entry(15, 3), "the name offset of entry 15"),
        // 900 bytes behind the names, zeros and not.
        (0x428, &[], FST as u64 + size, "its texts"),
        (0x428, b"hidden", FST as u64 + size, "its texts"),
    ];
    for (i, (at, bytes, first, words)) in damages.into_iter().enumerate() {
        let pair = pair();
        let manifest = pair.manifest();
        let before = fs::read(&pair.after).unwrap();
        match (at, bytes) {
            (0x428, bytes) => {
                pair.put(0x428, &((size + 900) as u32).to_be_bytes());
                pair.put(FST as u64 + size, bytes);
            }
            (at, &[]) => {
                let other = get(&before, at_entry(MESSAGES[0], 0) as usize);
                pair.put(at, &other.to_be_bytes()[1..]);
            }
            (at, bytes) => pair.put(at, bytes),
        }
        assert_eq!(Table::of(&pair.after).entries.len(), count);
        for (run, manifest) in pair.both(&manifest).into_iter().zip([false, true]) {
            assert_eq!(run.status, 1, "{i} {manifest}: {}", run.out);
            assert!(run.out.contains("FAILED: 1 difference"), "{i}: {}", run.out);
            let line = run.out.lines().find(|line| line.contains("(table: ")).unwrap();
            assert!(line.starts_with("changed          (table: "), "{line}");
            assert!(line.ends_with("  [NOT GIVEN]"), "{line}");
            assert!(line.contains(&format!("at {first:#x}, {words}")), "{i} {first:#x}: {line}");
            assert_eq!(
                line.contains("; what a rewrite writes differs there, too"),
                !manifest,
                "{line}"
            );
        }
        let told = pair.json();
        let areas = told.at("areas").list();
        let table = areas.iter().find(|area| area.at("name").text() == "table").unwrap();
        assert_eq!(table.at("status").text(), "changed");
        assert!(table.at("changed").flag() && !table.at("given").flag());
        // An edit writes the table anew, and then it is exactly that.
        pair.edit(&["rewrite"]);
        for run in pair.both(&manifest) {
            assert_eq!(run.status, 0, "{i}: {}", run.out);
            let anew = run.out.contains("\nwritten anew     (table)\n");
            assert!(anew || run.out.contains("\nunchanged        (table)\n"), "{}", run.out);
        }
    }
}

#[test]
fn every_edit_leaves_a_table_that_is_written_anew() {
    let pair = pair();
    let manifest = pair.manifest();
    let tables = |words: &str| {
        for run in pair.both(&manifest) {
            assert!(run.out.contains(&format!("\n{words} (table)\n")), "{}", run.out);
            assert_eq!(run.status, 0, "{}", run.out);
        }
    };
    tables("unchanged       ");
    let clip = pair.temp.write("clip", &clip(0x2345, 1));
    for edit in [
        &["move", "audio/theme.adp", "0x190000"][..],
        &["resize", "text/en/msg.bin", "0x1000"],
        &["add", "text/en/new.bin"],
        &["mkdir", "text/de/more"],
        &["fill", "text/fr/msg.bin", clip.to_str().unwrap()],
        &["rewrite"],
    ] {
        pair.edit(edit);
        tables("written anew    ");
        // A stored parent that is damaged afterwards is found behind all edits.
        pair.put(at_entry(TEXT, 4), &[0, 0, 1, 0]);
        for run in pair.both(&manifest) {
            assert_eq!(run.status, 1, "{}", run.out);
            assert!(run.out.contains("the stored parent of entry 11"), "{}", run.out);
        }
        pair.put(at_entry(TEXT, 4), &[0; 4]);
    }
}

/// A table in which names share a text opens; it is not what a rewrite writes, and passes as it was.
#[test]
fn a_table_that_no_rewrite_writes_passes_as_it_was() {
    let pair = pair();
    let mut bytes = fs::read(&pair.before).unwrap();
    let [one, two] = MESSAGES.map(|number| at_entry(number, 0) as usize);
    let shared = get(&bytes, one);
    put(&mut bytes, two, shared);
    fs::write(&pair.before, &bytes).unwrap();
    fs::write(&pair.after, &bytes).unwrap();
    let manifest = pair.manifest();
    for run in pair.both(&manifest) {
        assert_eq!(run.status, 0, "{}", run.out);
        assert!(run.out.contains("\nunchanged        (table)\n"), "{}", run.out);
    }
    // A manifest of the first version cannot tell whether it is as it was, unless the image is the same.
    let old = pair.version_1(&manifest);
    let run = pair.against(&old, &[]);
    assert_eq!(run.status, 0, "{}{}", run.out, run.err);
    assert!(run.out.contains("it is of version 1, which has no sum of the table"), "{}", run.out);
    pair.spoil(0x1F_FFFF);
    let run = pair.against(&old, &[]);
    assert_eq!(run.status, 1, "{}", run.out);
    let line = "\nunknown          (table: the manifest has no sum of it; what a rewrite writes differs first at";
    assert!(run.out.contains(line), "{}", run.out);
    pair.edit(&["rewrite"]);
    let run = pair.against(&old, &[]);
    assert_eq!(run.status, 0, "{}", run.out);
    assert!(run.out.contains("\nwritten anew     (table)\n"), "{}", run.out);
    // The header has two sums there.
    pair.put(0x42C, &[0, 1, 0, 0]);
    let list = pair.temp.write("leave.txt", b"header: FST maximum\n");
    let run = pair.against(&old, &["--given", list.to_str().unwrap()]);
    assert_eq!(run.status, 1, "{}", run.out);
    assert!(
        run.out.contains("changed          (header: somewhere in 0x42c to 0x440)"),
        "{}",
        run.out
    );
    assert_eq!(pair.against(&manifest, &["--given", list.to_str().unwrap()]).status, 0);
}

impl Pair {
    /// The manifest as the first version wrote it; None where there is no sha256sum.
    fn version_1(&self, manifest: &Path) -> PathBuf {
        let text = fs::read_to_string(manifest).unwrap();
        let mut lines: Vec<String> = Vec::new();
        for line in text.lines() {
            let part = line.strip_prefix("# part ").map(|rest| rest.splitn(4, ' ').nth(3).unwrap());
            match part {
                Some("table") => continue,
                Some(name) if name.starts_with("header: ") => continue,
                Some("system area") => {
                    let bytes = fs::read(&self.before).unwrap();
                    for (name, at, end) in [
                        ("header up to the table's size", 0, 0x428),
                        ("header behind the table's size", 0x42C, 0x440),
                    ] {
                        let (sum, size) = (sha256(&bytes[at..end]), end - at);
                        lines.push(format!("# part {sum} {at:#x} {size} {name}"));
                    }
                }
                _ if line.starts_with("# sum of ") => continue,
                _ => {}
            }
            lines.push(line.replace("manifest 2", "manifest 1"));
        }
        self.with_sum("version1.sums", &lines)
    }

    /// Lines with a last one that is their sum.
    fn with_sum(&self, name: &str, lines: &[impl AsRef<str>]) -> PathBuf {
        let lines: String = lines.iter().map(|line| format!("{}\n", line.as_ref())).collect();
        let sum = sha256(lines.as_bytes());
        self.temp.write(name, format!("{lines}# sum of the lines above {sum}\n").as_bytes())
    }
}

// The header --------------------------------------------------------------------------------

#[test]
fn a_line_of_the_list_gives_leave_for_a_field_of_the_header() {
    // The fields and their places (FORMAT, The header); FST offset and the magics would make another disc.
    let fields: [(&str, u64); 17] = [
        ("game code", 0),
        ("maker", 4),
        ("disc", 6),
        ("version", 7),
        ("audio", 8),
        ("stream buffer", 9),
        ("unused 0x0A", 0xA),
        ("Wii magic", 0x18),
        ("game name", 0x20),
        ("debug offset", 0x400),
        ("debug address", 0x404),
        ("unused 0x408", 0x408),
        ("FST maximum", 0x42C),
        ("user position", 0x430),
        ("user size", 0x434),
        ("disc size", 0x438),
        ("unused 0x43C", 0x43C),
    ];
    for (name, at) in fields {
        let pair = pair();
        let manifest = pair.manifest();
        let word = get(&fs::read(&pair.after).unwrap(), at as usize);
        let other = if name.ends_with(" size") { word - 0x100 } else { word ^ 0x0100_0000 };
        pair.put(at, &other.to_be_bytes());
        let given = |lines: &str| {
            let list = pair.temp.write("list.txt", lines.as_bytes());
            let rest = ["--given", list.to_str().unwrap()];
            [pair.compare(&rest), pair.against(&manifest, &rest)]
        };
        for lines in [format!("header: {name}\n"), format!("HEADER:  {}\r\n", name.to_uppercase())]
        {
            for run in given(&lines) {
                assert_eq!(run.status, 0, "{name}: {}{}", run.out, run.err);
                let line = run.out.lines().find(|line| line.contains("(header: ")).unwrap();
                let words = format!("changed          (header: {name} at 0x");
                assert!(line.starts_with(&words) && line.ends_with(")  [given]"), "{line}");
            }
        }
        // No other field's leave, and no path, is leave for it.
        let others: String = fields
            .iter()
            .filter(|(other, _)| *other != name)
            .map(|(other, _)| format!("header: {other}\n"))
            .collect();
        for run in given(&format!("/\n{others}")) {
            assert_eq!(run.status, 1, "{name}: {}", run.out);
            assert!(run.out.contains("[NOT GIVEN]"), "{name}: {}", run.out);
        }
    }
    let pair = pair();
    for (line, words) in [
        ("header: FST maximun", "the header has no field \"FST maximun\"; it has game code, maker"),
        ("header:", "the header has no field \"\""),
        ("header: unused", "unused 0x0A"),
        ("header: /opening.bnr", "no field"),
    ] {
        let run = pair.given(&format!("/opening.bnr\n{line}\n"));
        assert_eq!(run.status, 65, "{line}: {}", run.err);
        assert!(run.err.contains(", line 2: ") && run.err.contains(words), "{line}: {}", run.err);
    }
    // `info` calls two of them otherwise; both are taken.
    assert_eq!(pair.given("header: audio streaming\nheader: unused at 0x43c\n").status, 0);
}

// Manifests -------------------------------------------------------------------------------

/// What a comparison with a manifest says, but for the sums of manifest and images.
fn without_sums(run: &Run) -> String {
    run.out.split_inclusive('\n').filter(|line| !line.contains("SHA-256")).collect()
}

impl Pair {
    /// The manifest of the first image, in the place of it.
    fn manifest(&self) -> PathBuf {
        self.temp.write("before.sums", done("hash", &self.before, &[]).as_bytes())
    }

    fn against(&self, manifest: &Path, rest: &[&str]) -> Run {
        let mut args = vec![self.after.to_str().unwrap()];
        args.extend(rest);
        on("compare", manifest, &args)
    }
}

#[test]
fn a_manifest_stands_for_the_image() {
    let pair = pair();
    let manifest = pair.manifest();
    let run = pair.against(&manifest, &[]);
    assert_eq!(run.status, 0, "{}{}", run.out, run.err);
    assert_eq!(without_sums(&run), pair.compare(&[]).out);
    pair.edit(&["move", "audio/theme.adp", "0x190000"]);
    pair.edit(&["resize", "audio/se/se000.dsp", "0x800"]);
    pair.edit(&["add", "text/en/new.bin"]);
    pair.spoil(0x10_0000 + 0x2345);
    // The same lines, but for the free space: a region that holds something now has no sum.
    let (image, sums) = (pair.compare(&[]), pair.against(&manifest, &[]));
    assert_eq!((image.status, sums.status), (1, 1));
    let rows = |run: &Run| -> Vec<String> {
        without_sums(run).lines().filter(|l| !l.contains("(free space")).map(String::from).collect()
    };
    assert_eq!(rows(&image), rows(&sums));
    assert!(sums.out.contains("unknown          (free space: "), "{}", sums.out);
    let list = pair.temp.write("l", b"audio/\nmovie/intro.thp\n");
    assert_eq!(pair.against(&manifest, &["--given", list.to_str().unwrap()]).status, 0);
    // What is shorter has no sum of its bytes.
    pair.edit(&["resize", "text/en/msg.bin", "0x1000"]);
    let run = pair.against(&manifest, &[]);
    let line = "resized          /text/en/msg.bin  size 4,660 -> 4,096  (shorter than";
    assert!(run.out.contains(line), "{}", run.out);
    // Header, what lies behind the disc end, free space.
    for at in [0x21, APPLOADER as u64 + 0x30, DOL as u64 + 0x1000] {
        fs::copy(&pair.before, &pair.after).unwrap();
        pair.spoil(at);
        assert_eq!(pair.against(&manifest, &[]).status, 1, "{at:#x}");
    }
    fs::copy(&pair.before, &pair.after).unwrap();
    pair.spoil(0x1F_0000);
    let run = pair.against(&manifest, &[]);
    assert_eq!(run.status, 0);
    assert!(run.out.contains("changed          (free space: the region at"), "{}", run.out);
    let mut bytes = fs::read(&pair.before).unwrap();
    bytes.push(0);
    fs::write(&pair.after, bytes).unwrap();
    assert_eq!(pair.against(&manifest, &[]).status, 1);
}

#[test]
fn a_manifest_is_one_of_sha256sum_too() {
    let pair = pair();
    let manifest = pair.manifest();
    let files = pair.temp.at("files");
    done("extract", &pair.before, &["--all", files.to_str().unwrap()]);
    let sha256sum = |args: &[&str]| {
        let mut command = std::process::Command::new("sha256sum");
        Run::from(command.args(args).current_dir(&files).output().expect("sha256sum"))
    };
    let held = sha256sum(&["--check", "--strict", manifest.to_str().unwrap()]);
    assert_eq!(held.status, 0, "{}{}", held.out, held.err);
    assert_eq!(held.out.lines().filter(|line| line.ends_with(": OK")).count(), 8);
    let whole = sha256sum(&[pair.before.to_str().unwrap()]);
    let text = fs::read_to_string(&manifest).unwrap();
    assert!(text.contains(&format!("# image {} ", &whole.out[..64])), "{text}");
    // One byte of an extracted file.
    fs::write(files.join("opening.bnr"), b"x").unwrap();
    let held = sha256sum(&["--check", manifest.to_str().unwrap()]);
    assert_eq!(held.status, 1);
}

/// Long files are summed beside the image, wherever in a block they begin.
#[test]
fn long_files_have_their_sums() {
    const START: u32 = 0x10_0000;
    let temp = Temp::new();
    for (count, odd) in (1..=6u32).flat_map(|count| [0, 4, 33].map(|odd| (count, odd))) {
        // The first is the longest.
        let room = 0x18_0000 / count;
        let long = |i: u32| file(format!("{i}.bin"), START + i * room + odd, room - odd - i * 123);
        let image = temp.at(&format!("{count}-{odd}.iso"));
        sparse(&image, &(0..count).map(long).collect::<Vec<_>>(), START + 0x18_0000);
        let bytes = fs::read(&image).unwrap();
        let table = read_table(&fs::File::open(&image).unwrap());
        let text = done("hash", &image, &[]);
        assert!(text.contains(&format!("# image {} ", sha256(&bytes))), "{text}");
        for entry in table.entries.iter().filter(|entry| !entry.folder) {
            let sum = sha256(&bytes[entry.offset as usize..][..entry.size as usize]);
            assert!(text.contains(&format!("\n{sum}  {}\n", &entry.path[1..])), "{text}");
        }
    }
}

#[test]
fn a_manifest_that_was_cut_or_changed_is_none() {
    let pair = pair();
    // A name that would make two lines.
    let odd = pair.temp.at("a\nb.iso");
    fs::copy(&pair.before, &odd).unwrap();
    let manifest = pair.temp.write("odd.sums", done("hash", &odd, &[]).as_bytes());
    assert_eq!(pair.against(&manifest, &[]).status, 0);
    let text = done("hash", &pair.before, &[]);
    assert!(text.is_ascii() && text.starts_with("# counter manifest 2\n"));
    let lines: Vec<&str> = text.lines().collect();
    for cut in 1..lines.len() {
        let manifest = pair.temp.write("cut.sums", lines[..cut].join("\n").as_bytes());
        let run = pair.against(&manifest, &[]);
        assert_eq!(run.status, 65, "{cut}: {}", run.out);
    }
    let changed = text.replace("# disc-end 0x200000", "# disc-end 0x200001");
    let manifest = pair.temp.write("changed.sums", changed.as_bytes());
    let run = pair.against(&manifest, &[]);
    assert_eq!(run.status, 65);
    assert!(run.err.contains("cut or changed"), "{}", run.err);
    // Line ends as Windows has them, and a byte order mark.
    let windows = format!("\u{FEFF}{}", text.replace('\n', "\r\n"));
    let manifest = pair.temp.write("windows.sums", windows.as_bytes());
    let run = pair.against(&manifest, &[]);
    assert_eq!(run.status, 0, "{}", run.err);
    let newer = pair.temp.write("newer.sums", text.replace("manifest 2", "manifest 3").as_bytes());
    let run = pair.against(&newer, &[]);
    assert_eq!(run.status, 65);
    assert!(run.err.contains("a later version"), "{}", run.err);
    // AFTER is an image.
    assert_eq!(on("compare", &pair.before, &[manifest.to_str().unwrap()]).status, 64);
}

#[test]
fn equal_names_have_each_their_sum() {
    let entries = [
        file("x", 0x6_0000, 0x10),
        file("x", 0x6_1000, 0x20),
        folder("x", vec![file("x", 0x6_2000, 0x30)]),
        folder("x", vec![file("x", 0x6_3000, 0x30), folder("x", vec![])]),
        file(" # x  ", 0x6_4000, 0x30),
    ];
    let pair = pair_of(&entries);
    let manifest = pair.manifest();
    let run = pair.against(&manifest, &[]);
    assert_eq!(run.status, 0, "{}{}", run.out, run.err);
    assert_eq!(without_sums(&run), pair.compare(&[]).out);
    for at in [0x6_0000, 0x6_1000, 0x6_2000, 0x6_3000, 0x6_4000] {
        fs::copy(&pair.before, &pair.after).unwrap();
        pair.spoil(at);
        let (image, sums) = (pair.compare(&[]), pair.against(&manifest, &[]));
        assert_eq!((image.status, sums.status), (1, 1), "{at:#x}");
        assert_eq!(image.out, without_sums(&sums));
    }
}

#[test]
fn a_manifest_with_lines_left_out_is_none_and_its_own_sum_is_told() {
    let pair = pair();
    let manifest = pair.manifest();
    let text = fs::read_to_string(&manifest).unwrap();
    let lines: Vec<&str> = text.lines().filter(|line| !line.starts_with("# sum of ")).collect();
    let own = sha256(text.as_bytes());
    let whole = sha256(&fs::read(&pair.before).unwrap());
    pair.edit(&["move", "audio/theme.adp", "0x190000"]);
    let now = sha256(&fs::read(&pair.after).unwrap());
    let run = pair.against(&manifest, &[]);
    for words in [
        format!(
            "before.sums has SHA-256 {own}: hold that against what its maker told you elsewhere"
        ),
        format!("it says that it is of before.iso, SHA-256 {whole}"),
        format!("after.iso has SHA-256 {now}"),
    ] {
        assert!(run.out.contains(&words), "{words}: {}", run.out);
    }
    let told = Json::read(&pair.against(&manifest, &["--json"]).out);
    assert_eq!(told.at("manifest_sum").text(), own);
    assert_eq!(told.at("before_sum").text(), whole);
    assert_eq!(told.at("after_sum").text(), now);
    let page = pair.temp.at("page.html");
    let after = pair.after.to_str().unwrap();
    assert_eq!(on("report", &manifest, &[after, page.to_str().unwrap()]).status, 1);
    let html = fs::read_to_string(&page).unwrap();
    assert!(html.contains(&own) && html.contains("Anyone can write a manifest"), "{html}");

    // Each line, and the two of a file, left out with the last sum made anew.
    let left_out = |path: &str| -> Vec<&str> {
        let at = lines.iter().position(|line| line.ends_with(&format!("  {path}"))).unwrap();
        [&lines[..at - 1], &lines[at + 1..]].concat()
    };
    for path in ["audio/theme.adp", "audio/se/se000.dsp", "text/fr/msg.bin"] {
        let spoiled = pair.with_sum("spoiled.sums", &left_out(path));
        let run = pair.against(&spoiled, &[]);
        assert_eq!(run.status, 65, "{path}: {}{}", run.out, run.err);
        assert!(run.err.contains("the manifest lacks what lies at 0x"), "{path}: {}", run.err);
    }
    for (i, line) in lines.iter().enumerate().skip(1) {
        let spoiled = pair.with_sum("spoiled.sums", &[&lines[..i], &lines[i + 1..]].concat());
        let run = pair.against(&spoiled, &[]);
        let told = ["# game", "# folder empty/"];
        let told = told.iter().any(|word| line.starts_with(word)) || line.ends_with(" program");
        let wanted = if told { 1 } else { 65 };
        assert_eq!(run.status, wanted, "{line}: {}{}", run.out, run.err);
    }
    // What has no bytes leaves no gap; with the image itself at hand it is found.
    for path in ["audio/silence.adp", "# folder empty/"] {
        let lines = match path.strip_prefix("# ") {
            None => left_out(path),
            Some(_) => lines.iter().copied().filter(|line| *line != path).collect(),
        };
        let spoiled = pair.with_sum("spoiled.sums", &lines);
        let run = on("compare", &spoiled, &[pair.before.to_str().unwrap()]);
        assert_eq!(run.status, 65, "{path}: {}{}", run.out, run.err);
        let words = "names the sum of ";
        assert!(run.err.contains(words) && run.err.contains(" lacks /"), "{path}: {}", run.err);
    }
    // What it says of the image's name goes to a terminal.
    let odd: Vec<String> =
        lines.iter().map(|line| line.replace(" before.iso", " \x1b[2J")).collect();
    let odd = pair.with_sum("odd.sums", &odd);
    let run = pair.against(&odd, &[]);
    assert!(run.out.contains("it says that it is of ") && !run.out.contains('\x1b'), "{}", run.out);
    // A file's place taken for free space, with its sum: the image at hand tells.
    let at = lines.iter().position(|line| line.ends_with("  text/fr/msg.bin")).unwrap();
    let mut spoiled = lines.clone();
    let (sum, free) = (&lines[at][..64], spoiled.remove(at));
    assert!(free.starts_with(sum));
    let free = format!("# part {sum} 0xa8000 {} free", 0x1235);
    spoiled[at - 1] = &free;
    let spoiled = pair.with_sum("spoiled.sums", &spoiled);
    let run = on("compare", &spoiled, &[pair.before.to_str().unwrap()]);
    assert_eq!(run.status, 65, "{}{}", run.out, run.err);
    assert!(run.err.contains("lacks /text/fr/msg.bin"), "{}", run.err);
}

#[test]
fn an_image_of_which_an_edit_was_cut_does_not_pass() {
    let pair = pair();
    let manifest = pair.manifest();
    // A journal that is closed, or no journal, keeps nobody out.
    fs::write(journal_of(&pair.after), b"torn").unwrap();
    assert_eq!(pair.compare(&[]).status, 0);
    fs::write(journal_of(&pair.after), OPEN_JOURNAL).unwrap();
    assert_eq!(pair.compare(&[]).status, 78);
    let page = pair.temp.at("page.html");
    let after = pair.after.to_str().unwrap().to_string();
    for (i, before) in [&pair.before, &manifest].into_iter().enumerate() {
        let run = on("compare", before, &[&after, "--as-is"]);
        assert_eq!(run.status, 78, "{}", run.out);
        assert!(run.out.contains("after.iso was cut, and it may hold a part of it"), "{}", run.out);
        assert!(run.out.ends_with("but an edit was cut\n"), "{}", run.out);
        let told = Json::read(&on("compare", before, &[&after, "--as-is", "--json"]).out);
        assert_eq!((told.at("status").number(), told.at("passed").flag()), (78, false));
        assert_eq!(told.at("cut").list().len(), 1);
        let page = pair.temp.at(&format!("page{i}.html"));
        let run = on("report", before, &[&after, page.to_str().unwrap(), "--as-is"]);
        assert_eq!(run.status, 78, "{}", run.out);
        let html = fs::read_to_string(&page).unwrap();
        assert!(html.contains("<title>Unfinished: ") && html.contains("class=\"verdict warn\""));
        assert!(html.contains("was cut, and it was read as it is"), "{html}");
        assert!(!html.contains("Passed"));
    }
    pair.spoil(0x6_0000);
    let run = on("report", &pair.before, &[&after, page.to_str().unwrap(), "--as-is"]);
    assert_eq!(run.status, 1, "{}", run.out);
    assert!(fs::read_to_string(&page).unwrap().contains("was cut, and it was read as it is"));
    // The other way round: what was is such an image, or a manifest of one.
    let sums = pair.temp.write("cut.sums", done("hash", &pair.after, &["--as-is"]).as_bytes());
    for before in [&pair.after, &sums] {
        let clean = pair.temp.at("clean.iso");
        fs::copy(&pair.after, &clean).unwrap();
        let run = on("compare", before, &[clean.to_str().unwrap(), "--as-is"]);
        assert_eq!(run.status, 78, "{}{}", run.out, run.err);
    }
    fs::remove_file(journal_of(&pair.after)).unwrap();
    assert!(!done("hash", &pair.after, &["--as-is"]).contains("# cut"));
}

#[test]
fn lists_and_manifests_have_an_end() {
    let pair = pair();
    let many: String = (0..100).map(|i| format!("/no/such/{i}\n")).collect();
    let run = pair.given(&many);
    assert_eq!(run.status, 0, "{}", run.out);
    let lines: Vec<&str> = run.err.lines().collect();
    assert!(lines.len() <= 14, "{}", run.err);
    assert!(lines.last().unwrap().contains("88 more that neither image has"), "{}", run.err);
    let run = pair.compare(&["--given", "/dev/zero"]);
    assert_eq!(run.status, 65, "{}", run.err);
    assert!(run.err.contains("no list has more than 16 MiB"), "{}", run.err);
    let long = pair.temp.at("long.sums");
    fs::write(&long, b"# counter manifest 2\n").unwrap();
    fs::OpenOptions::new().write(true).open(&long).unwrap().set_len(1 << 40).unwrap();
    let run = pair.against(&long, &[]);
    assert_eq!(run.status, 65, "{}", run.err);
    assert!(run.err.contains("no manifest has more than 64 MiB"), "{}", run.err);
    // Many folders are looked up, and not gone through one by one.
    let folders: String = (0..99_999).map(|i| format!("/f{i}/\n")).collect();
    assert_eq!(pair.given(&folders).status, 0);
    let run = pair.given(&format!("{folders}\n\n"));
    assert_eq!(run.status, 65);
    assert!(run.err.contains("no list has more than 100,000 lines"), "{}", run.err);
}

/// SHA-256 by another program.
fn sha256(bytes: &[u8]) -> String {
    use std::io::Write;
    let piped = std::process::Stdio::piped;
    let mut child =
        std::process::Command::new("sha256sum").stdin(piped()).stdout(piped()).spawn().unwrap();
    child.stdin.take().unwrap().write_all(bytes).unwrap();
    let out = child.wait_with_output().unwrap().stdout;
    String::from_utf8_lossy(&out)[..64].to_string()
}

#[test]
fn no_manifest_makes_the_program_fall_over() {
    let pair = pair();
    let text = done("hash", &pair.before, &[]);
    let (lines, _) = text.trim_end().rsplit_once('\n').unwrap();
    // Another image than the manifest names, so that it is not known at once to be false.
    pair.spoil(0x1F_FFFF);
    let mut state = 0x2545_F491u32;
    let mut random = move |n: usize| {
        state ^= state << 13;
        state ^= state >> 17;
        state ^= state << 5;
        state as usize % n
    };
    let odd =
        ["0", "0x0", "0xffffffff", "4294967295", "18446744073709551615", "-1", "/", "", " ", "#"];
    let mut statuses = [0; 3];
    for turn in 0..240 {
        let mut lines: Vec<String> = lines.lines().map(String::from).collect();
        for _ in 0..=random(3) {
            let at = 1 + random(lines.len() - 1);
            match random(6) {
                0 => drop(lines.remove(at)),
                1 => {
                    let other = 1 + random(lines.len() - 1);
                    lines.swap(at, other);
                }
                kind => {
                    let mut words: Vec<&str> = lines[at].split(' ').collect();
                    let is_number = |word: &str| word.starts_with(char::is_numeric);
                    let numbers: Vec<usize> = (0..words.len())
                        .filter(|&i| is_number(words[i]) && words[i].len() < 20)
                        .collect();
                    match (kind, numbers.is_empty()) {
                        (2, _) | (_, true) => {
                            let word = random(words.len());
                            words[word] = odd[random(odd.len())];
                        }
                        _ => words[numbers[random(numbers.len())]] = odd[random(5)],
                    }
                    lines[at] = words.join(" ");
                }
            }
        }
        let spoiled = lines.join("\n") + "\n";
        let sum = sha256(spoiled.as_bytes());
        let spoiled = format!("{spoiled}# sum of the lines above {sum}\n");
        let manifest = pair.temp.write("spoiled.sums", spoiled.as_bytes());
        let page = pair.temp.at(&format!("page{turn}.html"));
        let svg = pair.temp.at(&format!("map{turn}.svg"));
        let run = pair.against(&manifest, &["--map", svg.to_str().unwrap()]);
        let again =
            on("report", &manifest, &[pair.after.to_str().unwrap(), page.to_str().unwrap()]);
        for run in [&run, &again] {
            assert!([0, 1, 65].contains(&run.status), "turn {turn}: {} {}", run.status, run.err);
            assert!(!run.err.contains("panicked"), "turn {turn}: {}", run.err);
        }
        assert_eq!(run.status, again.status);
        statuses[[0, 1, 65].iter().position(|s| *s == run.status).unwrap()] += 1;
    }
    println!("passed {}, failed {}, no manifest {}", statuses[0], statuses[1], statuses[2]);
    assert!(statuses[1] > 3 && statuses[2] > 10, "{statuses:?}");
    pair.spoil(0x1F_FFFF);
    // The picture of a manifest is that of its image.
    let manifest = pair.manifest();
    pair.edit(&["move", "audio/theme.adp", "0x190000"]);
    let (one, other) = (pair.temp.at("one.svg"), pair.temp.at("other.svg"));
    pair.compare(&["--map", one.to_str().unwrap()]);
    pair.against(&manifest, &["--map", other.to_str().unwrap()]);
    assert!(fs::read(one).unwrap() == fs::read(other).unwrap());
}
