//! The commands that edit: what they do to the file, and what they leave alone.

mod support;

use std::fs::{self, OpenOptions, Permissions};
use std::os::unix::fs::PermissionsExt;
use std::path::{Path, PathBuf};
use support::*;

fn small(temp: &Temp) -> PathBuf {
    temp.write("small.iso", &filled_master())
}

fn free_of(image: &Path) -> Vec<(u64, u64)> {
    Table::of(image).free()
}

// Move and resize, as the worked examples have them -------------------------------------------

#[test]
fn move_overlapping_itself_or_into_the_table_is_refused() {
    let temp = Temp::new();
    let image = small(&temp);
    refused(&image, &["move", "a", "0x580"], 20); // P4
    refused(&image, &["move", "a", "0x400"], 21); // P6
    refused(&image, &["move", "a", "0x500"], 20);
    refused(&image, &["move", "a", "0x1F01"], 21);
    refused(&image, &["move", "b", "0x600"], 18);
    refused(&image, &["move", "", "0x600"], 16);
    refused(&image, &["move", "a/", "0x600"], 17);
}

#[test]
fn move_carries_the_bytes_and_zeroes_the_old_place() {
    let temp = Temp::new();
    let image = small(&temp);
    let bytes = span(&image, 0x500, 0x100);
    let out = accepted(&image, &["move", "/a", "0x600"]); // P5
    assert!(out.contains("moved /a: 0x500 -> 0x600, 256 bytes"), "{out}");
    assert_eq!(free_of(&image), [(0x45A, 0x1A6), (0x700, 0x1900)]);
    assert_eq!(span(&image, 0x600, 0x100), bytes);
    assert_eq!(span(&image, 0x500, 0x100), vec![0; 0x100]);
    // Every other byte is that of the filled master with the new offset in its table.
    let mut wanted = filled_master();
    wanted[0x500..0x600].fill(0);
    wanted[0x600..0x700].copy_from_slice(&bytes);
    put(&mut wanted, 0x450, 0x600);
    assert_eq!(fs::read(&image).unwrap(), wanted);
    assert_eq!(on("cat", &image, &["a"]).bytes, bytes);
}

#[test]
fn a_place_that_other_programs_stumble_over_is_told() {
    let temp = Temp::new();
    let image = small(&temp);
    let out = accepted(&image, &["move", "a", "0x1000"]);
    assert!(!out.contains("note:"), "{out}");
    let out = accepted(&image, &["move", "a", "0x602"]);
    assert!(out.contains("note: 0x602 is no multiple of 4"), "{out}");
    accepted(&image, &["resize", "a", "0"]);
    let out = accepted(&image, &["move", "a", "0x2000"]);
    assert!(!out.contains("note:"), "{out}");
    let out = accepted(&image, &["move", "a", "0x2004"]);
    assert!(out.contains("note: 0x2004 is behind the disc end"), "{out}");
}

#[test]
fn resize_grows_where_it_lies_shrinks_and_refuses() {
    let temp = Temp::new();
    let image = small(&temp);
    let bytes = span(&image, 0x500, 0x100);
    refused(&image, &["resize", "a", "0x1B01"], 21); // P8
    refused(&image, &["resize", "", "1"], 16);
    let out = accepted(&image, &["resize", "a", "0x1B00"]); // P7
    assert!(out.contains("resized /a: 256 -> 6,912 bytes"), "{out}");
    let entry = Table::of(&image).entry("/a").clone();
    assert_eq!((entry.offset, entry.size), (0x500, 0x1B00));
    assert_eq!(span(&image, 0x500, 0x100), bytes);
    accepted(&image, &["resize", "a", "3"]);
    assert_eq!(span(&image, 0x500, 4), [bytes[0], bytes[1], bytes[2], 0]);
    assert_eq!(span(&image, 0x504, 0x1AFC), vec![0; 0x1AFC]);
    assert_eq!(Table::of(&image).entry("/a").size, 3);
    // To the present size: accepted, and not a byte is written, nor the time.
    let before = State::of(&image);
    let out = accepted(&image, &["resize", "a", "3"]);
    assert!(out.contains("has 3 bytes already") && !out.contains("written"), "{out}");
    assert_eq!(State::of(&image), before);
    accepted(&image, &["resize", "a", "0"]);
    assert_eq!(Table::of(&image).entry("/a").size, 0);
    // An empty file may go anywhere.
    accepted(&image, &["move", "a", "0xFFFFFFFF"]);
    assert_eq!(Table::of(&image).entry("/a").offset, 0xFFFF_FFFF);
}

#[test]
fn resize_that_has_to_move_takes_the_largest_place_on_a_cluster() {
    let temp = Temp::new();
    let image = usual_master(&temp);
    let bytes = span(&image, 0x9_0000, 0x400);
    let regions = free_of(&image);
    // se000.dsp has se001.dsp right behind it.
    let out = accepted(&image, &["resize", "audio/se/se000.dsp", "0x401"]);
    let rests = regions.iter().filter_map(|&(start, size)| {
        let at = start.next_multiple_of(0x8000);
        (at < start + size).then(|| (start + size - at, at))
    });
    let (_, wanted) = rests.max().unwrap();
    let entry = Table::of(&image).entry("/audio/se/se000.dsp").clone();
    assert_eq!((u64::from(entry.offset), entry.size), (wanted, 0x401));
    assert!(out.contains(&format!("0x90000 -> {wanted:#x}")), "{out}");
    assert_eq!(span(&image, wanted, 0x400), bytes);
    assert_eq!(span(&image, 0x9_0000, 0x400), vec![0; 0x400]);
}

#[test]
fn numbers_are_read_in_every_form() {
    let temp = Temp::new();
    let forms = [
        ("1536", 0x600),
        ("0x600", 0x600),
        ("0X600", 0x600),
        ("2K", 0x800),
        ("2k", 0x800),
        ("0x2K", 0x800),
        ("7K", 0x1C00),
    ];
    for (text, wanted) in forms {
        let image = small(&temp);
        done("move", &image, &["a", text]);
        assert_eq!(Table::of(&image).entry("/a").offset, wanted, "{text}");
    }
    let image = small(&temp);
    done("resize", &image, &["a", "0"]);
    for (text, wanted) in [("3G", 3 << 30), ("4095M", 4095 << 20), ("4294967295", u32::MAX)] {
        done("move", &image, &["a", text]);
        assert_eq!(Table::of(&image).entry("/a").offset, wanted, "{text}");
    }
    let before = State::of(&image);
    let wrong = [
        "",
        "x",
        "0x",
        "K",
        "-1",
        "+1",
        "1.5K",
        "1KB",
        "0xG",
        "4G",
        "4294967296",
        "0x100000000",
        "99999999999999999999",
        "18446744073709551615G",
        "1 ",
        "\u{663}",
    ];
    for text in wrong {
        // `--` keeps -1 from being read as an option.
        let run: Run =
            program().args(["move"]).arg(&image).args(["--", "a", text]).output().unwrap().into();
        assert_eq!(run.status, 64, "{text:?}: {}", run.err);
    }
    assert_eq!(State::of(&image), before);
}

// Tables ----------------------------------------------------------------------------------

#[test]
fn rewrite_writes_each_name_by_itself() {
    let temp = Temp::new();
    // Two files share the text `ab`, and one of them only its end; 4 unused bytes follow.
    let mut bytes = small_master();
    let table = [0x0100_0000u32, 0, 3, 0, 0x500, 0x10, 1, 0x600, 0x10];
    for (i, word) in table.into_iter().enumerate() {
        put(&mut bytes, 0x440 + 4 * i, word);
    }
    bytes[0x464..0x46C].copy_from_slice(b"ab\0zzzz\0");
    put(&mut bytes, 0x428, 0x2C);
    let image = temp.write("shared.iso", &bytes);
    let listing = done("list", &image, &[]);
    let out = accepted(&image, &["rewrite"]);
    assert!(out.contains("table: 44 -> 41 bytes"), "{out}");
    let mut wanted = bytes.clone();
    put(&mut wanted, 0x428, 0x29);
    put(&mut wanted, 0x458, 3);
    wanted[0x464..0x46C].copy_from_slice(b"ab\0b\0\0\0\0");
    assert_eq!(fs::read(&image).unwrap(), wanted);
    let shorter = listing.replace("used 1164", "used 1161");
    let after = done("list", &image, &[]);
    assert_eq!(
        after.lines().filter(|l| !l.starts_with('r')).collect::<Vec<_>>(),
        shorter.lines().filter(|l| !l.starts_with('r')).collect::<Vec<_>>()
    );
    accepted(&image, &["rewrite"]);
    assert_eq!(fs::read(&image).unwrap(), wanted);
}

#[test]
fn a_table_with_no_room_is_refused() {
    let temp = Temp::new();
    let mut bytes = filled_master();
    // A file right behind the table.
    put(&mut bytes, 0x450, 0x45A);
    let image = temp.write("tight.iso", &bytes);
    refused(&image, &["add", "b"], 21);
    refused(&image, &["mkdir", "b"], 21);
    done("rewrite", &image, &[]);
    assert_eq!(fs::read(&image).unwrap(), bytes);
    // And one that the move itself would put there: the table would not grow, so it may.
    done("move", &image, &["a", "0x600"]);
    done("move", &image, &["a", "0x45A"]);
    assert_eq!(fs::read(&image).unwrap(), bytes);
}

/// The spoiled master: the original writes the table, which grows since no name is shared any more,
/// over the file that was just moved right behind it.
#[test]
fn a_file_is_not_moved_to_where_the_new_table_would_reach() {
    let temp = Temp::new();
    let mut bytes = small_master();
    let table = [0x0100_0000u32, 0, 3, 0, 0x500, 0x10, 1, 0x700, 0x10];
    for (i, word) in table.into_iter().enumerate() {
        put(&mut bytes, 0x440 + 4 * i, word);
    }
    bytes[0x464..0x467].copy_from_slice(b"ba\0");
    put(&mut bytes, 0x428, 0x27);
    pattern(&mut bytes[0x700..0x710], 9);
    let image = temp.write("shared.iso", &bytes);
    for place in ["0x467", "0x468"] {
        refused(&image, &["move", "a", place], 21);
    }
    let film = span(&image, 0x700, 0x10);
    accepted(&image, &["move", "a", "0x469"]);
    assert_eq!(on("cat", &image, &["a"]).bytes, film);
    assert_eq!(Table::of(&image).table_end, 0x469);
}

// Folders and files -----------------------------------------------------------------------

#[test]
fn add_puts_an_empty_file_last() {
    let temp = Temp::new();
    let image = usual_master(&temp);
    let before = Table::of(&image);
    let out = accepted(&image, &["add", "audio/se/se002.dsp"]);
    let table = Table::of(&image);
    let at = before.entries.iter().position(|e| e.path == "/audio/se/se001.dsp").unwrap() + 1;
    assert_eq!(table.entries.len(), before.entries.len() + 1);
    let new = &table.entries[at];
    assert_eq!(
        (new.path.as_str(), new.offset, new.size, new.folder),
        ("/audio/se/se002.dsp", 0, 0, false)
    );
    assert!(out.contains(&format!("added /audio/se/se002.dsp as entry {at}")), "{out}");
    // All else is there as before, in order.
    let mut rest = table.entries.clone();
    rest.remove(at);
    let files = |entries: &[Entry]| {
        let file = |e: &Entry| (!e.folder).then(|| (e.path.clone(), e.offset, e.size));
        entries.iter().filter_map(file).collect::<Vec<_>>()
    };
    let paths = |entries: &[Entry]| entries.iter().map(|e| e.path.clone()).collect::<Vec<_>>();
    assert_eq!(files(&rest), files(&before.entries));
    assert_eq!(paths(&rest), paths(&before.entries));
    assert_eq!(table.table_end - before.table_end, 12 + 10);

    refused(&image, &["add", "audio/se/se002.dsp"], 19);
    refused(&image, &["add", "audio"], 19);
    refused(&image, &["add", "nothing/x"], 18);
    refused(&image, &["add", "opening.bnr/x"], 17);
    refused(&image, &["add", "audio/"], 13);
    refused(&image, &["add", "audio/.."], 13);
    refused(&image, &["add", "audio/a:b"], 13);
    refused(&image, &["add", "audio/a\\b"], 13);
    refused(&image, &["add", "audio/caf\\x80"], 12);
    accepted(&image, &["add", "/last"]);
    accepted(&image, &["resize", "/last", "0x100"]);
    assert_eq!(Table::of(&image).entry("/last").size, 0x100);
}

#[test]
fn mkdir_makes_all_folders_of_a_path_or_none() {
    let temp = Temp::new();
    let image = usual_master(&temp);
    let out = accepted(&image, &["mkdir", "/text/de/voice/intro/"]);
    for path in ["/text/de", "/text/de/voice", "/text/de/voice/intro"] {
        assert!(Table::of(&image).entry(path).folder);
        assert!(out.contains(&format!("made {path}/ as entry ")), "{out}");
    }
    let out = accepted(&image, &["mkdir", "text/de/voice"]);
    assert!(out.contains("was there"), "{out}");
    refused(&image, &["mkdir", "new/opening.bnr/../../opening.bnr"], 17);
    refused(&image, &["mkdir", "opening.bnr/x"], 17);
    refused(&image, &["mkdir", "new/../.."], 18);
    refused(&image, &["mkdir", "new/a:b"], 13);
    refused(&image, &["mkdir", "new/caf\\x80"], 12);
    refused(&image, &["mkdir", &"x/".repeat(65)], 9);
    refused(&image, &["mkdir", &"x".repeat(1025)], 9);
    assert_eq!(done("list", &image, &[]), Table::of(&image).listing());
}

/// Entries behind a new one have other numbers: a script that kept them is told.
#[test]
fn entries_behind_a_new_one_are_told_to_have_other_numbers() {
    let temp = Temp::new();
    let image = usual_master(&temp);
    let before = Table::of(&image).entries;
    let told = json("add", &image, &["audio/se/se002.dsp", "--dry-run"]);
    let out = accepted(&image, &["add", "audio/se/se002.dsp"]);
    let after = Table::of(&image).entries;
    let moved: Vec<usize> =
        (0..before.len()).filter(|&at| before[at].path != after[at].path).collect();
    let (first, last) = (moved[0], before.len() - 1);
    assert!(
        out.contains(&format!("\nentries {first} to {last} have higher numbers now\n")),
        "{out}"
    );
    let told = told.at("renumbered");
    assert_eq!((told.at("first").number(), told.at("last").number()), (first as u64, last as u64));
    // Folders too; nothing is said where nothing stands behind.
    let out = accepted(&image, &["mkdir", "audio/x/y"]);
    assert!(out.contains(" have higher numbers now\n"), "{out}");
    assert_eq!(json("add", &image, &["last", "--dry-run"]).at("renumbered"), &Json::Null);
    let out = accepted(&image, &["add", "last"]);
    assert!(!out.contains("higher numbers"), "{out}");
    let out = accepted(&image, &["mkdir", "text/en"]);
    assert!(!out.contains("higher numbers"), "{out}");
}

/// A game that looks up without case finds the first of two names, letter by letter or byte by byte. The
/// bytes of a character are those of the published table (CP932.TXT of the Unicode Consortium).
#[test]
fn names_that_differ_in_case_only_are_told() {
    let temp = Temp::new();
    let image = usual_master(&temp);
    let note = |hidden: &str, found: &str| {
        format!("{hidden}: a game that looks up without case finds {found} in its place")
    };
    let cases: [(&[&str], &[(&str, &str)]); 8] = [
        (&["add", "/OPENING.bnr"], &[("/OPENING.bnr", "/opening.bnr")]),
        (&["add", "/audio/Theme.adp"], &[("/audio/Theme.adp", "/audio/theme.adp")]),
        // A folder and a file; the folders on the way too, but not what is in the new one.
        (&["add", "/Movie"], &[("/Movie", "/movie/")]),
        (&["mkdir", "/Text/EN/x"], &[("/Text/", "/text/")]),
        (&["mkdir", "/text/Ｗ/Я"], &[]),
        (&["mkdir", "/text/ｗ/я"], &[("/text/ｗ/", "/text/Ｗ/")]),
        // 0x8341 and 0x8361: byte by byte a capital letter and a small one.
        (&["add", "/empty/ア"], &[]),
        (&["add", "/empty/ヂ"], &[("/empty/ヂ", "/empty/ア")]),
    ];
    for (args, wanted) in cases {
        let told = json(args[0], &image, &[args[1], "--dry-run"]);
        let told: Vec<&str> = told.at("notes").list().iter().map(Json::text).collect();
        let wanted: Vec<String> = wanted.iter().map(|(a, b)| note(a, b)).collect();
        assert_eq!(told, wanted, "{args:?}");
        let out = accepted(&image, args);
        let lines: Vec<&str> = out.lines().filter_map(|line| line.strip_prefix("note: ")).collect();
        assert_eq!(lines, wanted, "{args:?}");
    }
    // In the image's bytes where these are wanted.
    let run = on("mkdir", &image, &["/TEXT", "--dry-run", "--bytes"]);
    assert!(run.out.contains("note: /TEXT/: a game "), "{}", run.out);
}

/// A name that no file outside can have, and a path that no command takes.
#[test]
fn names_and_paths_that_are_too_long_are_told() {
    let temp = Temp::new();
    let image = usual_master(&temp);
    let notes = |args: &[&str]| {
        let out = accepted(&image, args);
        let notes = out.lines().filter_map(|line| line.strip_prefix("note: "));
        let notes = notes.map(|note| note.rsplit(": the ").next().unwrap().to_string());
        notes.collect::<Vec<_>>()
    };
    let name = "the name has 256 bytes, and a file's at most 255: `extract` refuses it";
    assert_eq!(notes(&["add", &"x".repeat(255)]), [""; 0]);
    assert_eq!(notes(&["add", &"y".repeat(256)]), [name[4..].to_string()]);
    assert_eq!(notes(&["mkdir", &"z".repeat(256)]), [name[4..].to_string()]);
    // Half-width katakana have three bytes each in UTF-8.
    assert_eq!(notes(&["add", &"ｱ".repeat(85)]), [""; 0]);
    let long = "name has 258 bytes in UTF-8, and a file's at most 255: `extract` refuses it without --bytes";
    assert_eq!(notes(&["add", &"ｱ".repeat(86)]), [long]);
    // Folders of 204 bytes each: 1,019 bytes and a / for the fifth.
    let deep = vec!["d".repeat(203); 5].join("/");
    assert_eq!(notes(&["mkdir", &deep]), [""; 0]);
    assert_eq!(notes(&["add", &format!("{deep}/abc")]), [""; 0]);
    done("find", &image, &[&format!("/{deep}/abc")]);
    let longest = format!("{deep}/abcd");
    assert_eq!(
        notes(&["add", &longest]),
        ["path is at its longest: it is taken without its first / alone"]
    );
    done("find", &image, &[&longest]);
    refused(&image, &["resize", &format!("/{longest}"), "1"], 9);
    assert_eq!(
        notes(&["add", &format!("{deep}/abcde")]),
        ["path has 1,025 bytes, and PATH at most 1,024: no command can reach it"]
    );
    refused(&image, &["resize", &format!("{deep}/abcde"), "1"], 9);
}

/// What a shrink or a fill takes is told before it is done.
#[test]
fn bytes_that_are_lost_are_told() {
    let temp = Temp::new();
    let image = usual_master(&temp);
    let clip = temp.write("clip", b"new");
    let clip = clip.to_str().unwrap();
    let cases: [(&[&str], u64, &str); 7] = [
        (&["resize", "opening.bnr", "0x1960"], 0, ""),
        (&["resize", "opening.bnr", "0x1961"], 0, ""),
        (&["resize", "opening.bnr", "0x1960"], 1, "lost: 1 byte at its end"),
        (&["resize", "opening.bnr", "96"], 6400, "lost: 6,400 bytes at its end"),
        (&["fill", "opening.bnr", clip], 96, "lost: 96 bytes, all that it held"),
        (&["fill", "opening.bnr", clip], 0, ""),
        (&["fill", "audio/silence.adp", clip], 0, ""),
    ];
    for (args, lost, words) in cases {
        let told = json(args[0], &image, &[&args[1..], &["--dry-run"]].concat());
        assert_eq!(told.at("lost").number(), lost, "{args:?}");
        let out = accepted(&image, args);
        let lines: Vec<&str> = out.lines().filter(|line| line.starts_with("lost: ")).collect();
        assert_eq!(lines.join(""), words, "{args:?}");
    }
    assert_eq!(json("move", &image, &["opening.bnr", "auto"]).at("lost").number(), 0);
}

// Files that cannot be edited -------------------------------------------------------------

#[test]
fn an_image_that_does_not_open_is_not_edited() {
    let temp = Temp::new();
    let mut bytes = filled_master();
    put(&mut bytes, 0x450, 0x459);
    let image = temp.write("overlap.iso", &bytes);
    for args in [
        &["mkdir", "x"][..],
        &["add", "x"],
        &["move", "a", "0x600"],
        &["resize", "a", "5"],
        &["rewrite"],
    ] {
        refused(&image, args, 14);
    }
    for (len, number) in [(0usize, 1), (0x43F, 1), (0x1FFF, 4)] {
        let image = temp.write("short.iso", &filled_master()[..len]);
        refused(&image, &["rewrite"], number);
    }
}

#[test]
fn read_only_missing_and_special_files_are_told() {
    let temp = Temp::new();
    let image = small(&temp);
    fs::set_permissions(&image, Permissions::from_mode(0o444)).unwrap();
    let before = State::of(&image);
    let run = on("move", &image, &["a", "0x600"]);
    assert_eq!(run.status, 77);
    assert!(run.err.contains("read-only"), "{}", run.err);
    // A dry run needs no leave to write.
    done("move", &image, &["a", "0x600", "--dry-run"]);
    assert_eq!(State::of(&image), before);

    let run = on("move", &temp.at("nothing"), &["a", "0x600"]);
    assert_eq!(run.status, 66);
    assert!(!temp.at("nothing").exists());
    assert_eq!(on("rewrite", &temp.at(""), &[]).status, 66);
}

#[test]
fn a_second_editor_is_kept_out() {
    let temp = Temp::new();
    let image = small(&temp);
    let before = State::of(&image);
    let other = OpenOptions::new().read(true).write(true).open(&image).unwrap();
    other.lock().unwrap();
    for rest in [&["a", "0x600"][..], &["a", "0x600", "--dry-run"]] {
        let run = on("move", &image, rest);
        assert_eq!(run.status, 75, "{}", run.err);
        assert!(run.err.contains("another program is"), "{}", run.err);
    }
    other.unlock().unwrap();
    // A reader keeps an editor out too, and lets a dry run in.
    other.lock_shared().unwrap();
    assert_eq!(on("move", &image, &["a", "0x600"]).status, 75);
    assert_eq!(on("move", &image, &["a", "0x600", "--dry-run"]).status, 0);
    assert_eq!(State::of(&image), before);
    other.unlock().unwrap();
    assert_eq!(on("move", &image, &["a", "0x600"]).status, 0);
}

#[test]
fn an_image_reached_through_a_link_is_edited_in_its_place() {
    let temp = Temp::new();
    let image = small(&temp);
    let link = temp.at("link.iso");
    std::os::unix::fs::symlink(&image, &link).unwrap();
    done("move", &link, &["a", "0x600"]);
    assert_eq!(Table::of(&image).entry("/a").offset, 0x600);
    assert!(fs::symlink_metadata(&link).unwrap().is_symlink());
}

#[test]
fn bytes_past_the_disc_end_stay() {
    let temp = Temp::new();
    let mut bytes = filled_master();
    bytes.extend(b"trailer of another program");
    let image = temp.write("longer.iso", &bytes);
    done("move", &image, &["a", "0x1F00"]);
    refused(&image, &["resize", "a", "0x1B00"], 21);
    assert_eq!(&fs::read(&image).unwrap()[0x2000..], b"trailer of another program");
}

#[test]
fn a_done_edit_whose_word_is_not_heard_is_still_done() {
    let temp = Temp::new();
    let image = small(&temp);
    let mut command = program();
    command.arg("move").arg(&image).args(["a", "0x600"]);
    command.stdout(OpenOptions::new().write(true).open("/dev/full").unwrap());
    let run: Run = command.output().unwrap().into();
    assert_eq!(run.status, 76);
    assert!(run.err.contains("the edit is done and synced"), "{}", run.err);
    assert_eq!(Table::of(&image).entry("/a").offset, 0x600);

    // A pipe that nobody reads.
    let mut command = program();
    command.arg("move").arg(&image).args(["a", "0x700"]);
    let (reads, writes) = std::io::pipe().unwrap();
    drop(reads);
    let run: Run = command.stdout(writes).output().unwrap().into();
    assert_eq!(run.status, 76, "{}", run.err);
    assert!(run.err.contains("the edit is done and synced"), "{}", run.err);
    assert_eq!(Table::of(&image).entry("/a").offset, 0x700);
}
