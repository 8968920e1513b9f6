//! The commands that look: what they say, as text and as JSON, and how they fail.

mod support;

use std::fs::{self, File, OpenOptions};
use std::io::{BufRead, BufReader, Read};
use std::os::unix::fs::PermissionsExt;
use std::process::Stdio;
use support::*;

const END: u32 = 0x20_0000;

#[test]
fn built_in_small_master_is_listed() {
    let listing = "total 8192 used 1370\nd 0 0 2 /\nf 1 1280 256 /a\nr 1114 166\nr 1536 6656\n";
    let run = run(&["list"]);
    assert_eq!((run.status, run.out.as_str()), (0, listing));
    assert!(run.err.contains("built-in small master"));
    let temp = Temp::new();
    let image = temp.write("small.iso", &small_master());
    assert_eq!(done("list", &image, &[]), listing);
}

#[test]
fn only_bare_commands_show_the_small_master() {
    let temp = Temp::new();
    let svg = temp.at("map.svg").display().to_string();
    let shown: [&[&str]; 4] = [&["info"], &["list"], &["tree"], &["map", "--demo", &svg]];
    for args in shown {
        let run = run(args);
        assert_eq!(run.status, 0, "{args:?}: {}", run.err);
        assert!(run.err.contains("built-in small master"), "{args:?}: {}", run.err);
    }
    // What a script says where its variable is empty.
    let other = temp.at("other.svg").display().to_string();
    let folder = temp.at("all").display().to_string();
    let missing: [&[&str]; 17] = [
        &["check"],
        &["free"],
        &["free", "--clusters"],
        &["dol"],
        &["hash"],
        &["list", "--json"],
        &["tree", "--json"],
        &["info", "--wait"],
        &["list", "--"],
        &["find", "/a"],
        &["place", "0x100"],
        &["cat", "/a"],
        &["extract", "/a", &folder],
        &["extract", "--all", &folder],
        &["map", &other],
        &["compare", "x"],
        &["move", "/a", "0x600"],
    ];
    for args in missing {
        let run = run(args);
        assert_eq!(run.status, 64, "{args:?}: {}", run.err);
        assert!(run.err.contains(&format!("usage: counter {} ", args[0])), "{}", run.err);
    }
    assert!(!temp.at("other.svg").exists() && !temp.at("all").exists());
    assert_eq!(run(&["list", ""]).status, 66);
}

#[test]
fn listing_equals_a_reading_of_the_table_by_itself() {
    let temp = Temp::new();
    let image = usual_master(&temp);
    let table = Table::of(&image);
    assert_eq!(done("list", &image, &[]), table.listing());

    let told = json("list", &image, &[]);
    assert_eq!(told.at("total").number(), u64::from(END));
    let entries = told.at("entries").list();
    assert_eq!(entries.len(), table.entries.len());
    for (i, (told, entry)) in entries.iter().zip(&table.entries).enumerate() {
        assert_eq!(told.at("number").number(), i as u64);
        assert_eq!(told.at("parent").number(), u64::from(entry.parent));
        let last = if entry.folder { told.at("next") } else { told.at("size") };
        assert_eq!(last.number(), u64::from(entry.size));
        assert_eq!(told.at("path").text().trim_end_matches('/'), entry.path);
        assert_eq!(told.at("kind").text(), if entry.folder { "directory" } else { "file" });
    }
    let free: Vec<(u64, u64)> = told
        .at("free")
        .list()
        .iter()
        .map(|r| (r.at("offset").number(), r.at("size").number()))
        .collect();
    assert_eq!(free, table.free());
    let regions = json("free", &image, &[]);
    assert_eq!(regions.at("regions").list().len(), free.len());
    assert_eq!(regions.at("free").number(), free.iter().map(|r| r.1).sum::<u64>());
    assert!(done("free", &image, &[]).contains(&format!("{:#010x}", free[0].0)));
}

#[test]
fn info_tells_the_header() {
    let temp = Temp::new();
    let image = usual_master(&temp);
    let told = json("info", &image, &[]);
    assert_eq!(told.at("game_code").text(), "GCTE");
    assert_eq!(told.at("maker").text(), "01");
    assert_eq!(told.at("game_name").text(), "Counter's test");
    assert_eq!(told.at("version").number(), 2);
    let words = [
        ("gamecube_magic", 0xC233_9F3D),
        ("debug_offset", 0x2_0000),
        ("dol_offset", DOL as u64),
        ("fst_offset", FST as u64),
        ("fst_maximum", 0x8000),
        ("user_position", 0x8_0000),
        ("user_size", 0x10_0000),
        ("disc_size", 0x10_0000),
        ("disc_end", 0x20_0000),
        ("files", 8),
        ("directories", 8),
        ("image_bytes", 0x20_0000),
    ];
    for (name, value) in words {
        assert_eq!(told.at(name).number(), value, "{name}");
    }
    let text = done("info", &image, &[]);
    assert!(text.contains("GCTE01") && text.contains("Counter's test") && text.contains("0x50000"));
}

#[test]
fn any_bytes_of_a_game_name_are_valid_json() {
    let temp = Temp::new();
    let mut bytes = small_master();
    for (i, byte) in (1..=255u8).enumerate() {
        bytes[0x20 + i] = byte;
    }
    bytes[0..6].copy_from_slice(&[0xFF, b'"', b'\\', 1, 0x80, b'\n']);
    let image = temp.write("odd.iso", &bytes);
    let told = json("info", &image, &[]);
    let name: Vec<u32> = told.at("game_name").text().chars().map(|c| c as u32).collect();
    assert_eq!(name, (1..=255).collect::<Vec<u32>>());
    assert_eq!(told.at("game_code").text(), "\u{FF}\"\\\u{1}");
    assert!(done("info", &image, &[]).is_ascii());
}

#[test]
fn tree_shows_folders_and_sizes() {
    let temp = Temp::new();
    let image = usual_master(&temp);
    let text = done("tree", &image, &[]);
    let lines: Vec<&str> = text.lines().collect();
    assert_eq!(lines.len(), Table::of(&image).entries.len());
    assert!(lines[0].starts_with("/ ") && lines[0].contains("8 files"), "{text}");
    assert!(text.contains("|-- audio/") && text.contains("|   |-- se/"), "{text}");
    assert!(text.contains("`-- msg.bin") && text.contains("at 0x000a0000"), "{text}");
    let told = json("tree", &image, &[]);
    let names: Vec<&str> =
        told.at("children").list().iter().map(|child| child.at("name").text()).collect();
    assert_eq!(names, ["opening.bnr", "audio", "movie", "empty", "text"]);
    let audio = &told.at("children").list()[1];
    assert_eq!(audio.at("bytes").number(), 0x8123 + 0x400 + 0x3FF);
    assert_eq!(audio.at("files").number(), 4);
}

#[test]
fn find_answers_as_the_worked_examples_do() {
    let temp = Temp::new();
    let image = temp.write("small.iso", &small_master());
    // P1: the largest size of `a`; P9 to P11: lookups.
    let told = json("find", &image, &["a"]);
    assert_eq!(told.at("largest_size").number(), 0x1B00);
    assert_eq!((told.at("offset").number(), told.at("size").number()), (0x500, 0x100));
    let root = json("find", &image, &[""]);
    assert_eq!((root.at("number").number(), root.at("kind").text()), (0, "directory"));
    for (path, number) in [("a/", 17), ("..", 18), ("b", 18), ("a/b", 17), ("/./a/../b", 17)] {
        let run = on("find", &image, &[path]);
        assert_eq!(run.status, number, "{path}: {}", run.err);
        assert!(run.err.contains(&format!("refused {number}")), "{}", run.err);
    }
    for path in ["a", "/a", "//a", "./a", "\\a"] {
        assert_eq!(on("find", &image, &[path]).status, 0, "{path}");
    }
    assert_eq!(on("find", &image, &[&"x".repeat(1024)]).status, 18);
    let long = on("find", &image, &[&"x".repeat(1025)]);
    assert_eq!(long.status, 9);
    assert!(long.err.contains("1,024"), "{}", long.err);

    let usual = usual_master(&temp);
    let told = json("find", &usual, &["audio/se/se000.dsp"]);
    assert_eq!(told.at("offset").number(), 0x9_0000);
    assert_eq!(told.at("largest_size").number(), 0x400);
    let text = done("find", &usual, &["audio/se"]);
    assert!(text.contains("folder") && text.contains("/audio/se/"), "{text}");
}

#[test]
fn check_names_number_and_cause() {
    let temp = Temp::new();
    type Case = (u32, &'static str, fn(&mut Vec<u8>));
    let cases: [Case; 20] = [
        (1, "header field past the image (the file has 1087 bytes", |b| b.truncate(0x43F)),
        (1, "the file is empty", |b| b.clear()),
        (2, "Wii magic", |b| put(b, 0x18, 0x5D1C_9EA3)),
        (3, "not GameCube magic", |b| put(b, 0x1C, 0)),
        (4, "FST offset 0x43f", |b| put(b, 0x424, 0x43F)),
        (4, "the file has 8191 bytes, the disc 8192", |b| b.truncate(0x1FFF)),
        (4, "disc end 0x100001fff", |b| put(b, 0x438, 0xFFFF_FFFF)),
        (4, "table end 0x2001, disc end 0x2000", |b| put(b, 0x428, 0x1BC1)),
        (5, "entry past the table (the table has 26 bytes, and 3 entries take 36)", |b| {
            put(b, 0x448, 3)
        }),
        (6, "kind above 1 (entry 1 has kind 2)", |b| b[0x44C] = 2),
        (6, "kind above 1 (entry 0 has kind 2)", |b| b[0x440] = 2),
        (7, "root a file", |b| b[0x440] = 0),
        (8, "last text unended", |b| b[0x459] = b'b'),
        (9, "limit or memory", |b| put(b, 0x448, 16_385)),
        (10, "its parent's next (entry 1 has next 1)", |b| {
            b[0x44C] = 1;
            put(b, 0x454, 1)
        }),
        (10, "its parent's next (entry 1 has next 3)", |b| {
            b[0x44C] = 1;
            put(b, 0x454, 3)
        }),
        (10, "its parent's next (entry 0 has next 0)", |b| put(b, 0x448, 0)),
        (11, "the texts' end (entry 1 has name offset 2)", |b| put(b, 0x44C, 2)),
        (12, "name byte (entry 1 is called \"\\x80\": the byte 0x80)", |b| b[0x458] = 0x80),
        (13, "unsafe or empty name (entry 1 is called \":\": it holds :)", |b| b[0x458] = b':'),
    ];
    for (number, words, spoil) in cases {
        let mut bytes = small_master();
        spoil(&mut bytes);
        let image = temp.write("spoiled.iso", &bytes);
        let run = on("check", &image, &[]);
        assert_eq!(run.status, number as i32, "{words}: {}", run.err);
        assert!(run.err.contains(&format!("refused {number}")), "{words}: {}", run.err);
        assert!(run.err.contains(words), "{words}: {}", run.err);
        assert_eq!(run.out, "");

        let told = on("check", &image, &["--json"]);
        let json = Json::read(&told.out);
        assert_eq!(json.at("refused").number(), number.into());
        assert_eq!(json.at("status").number(), number.into());

        let listed = on("list", &image, &[]);
        assert_eq!((listed.status, listed.out), (number as i32, format!("refused {number}\n")));
    }
}

#[test]
fn a_folder_that_is_too_deep_is_told() {
    let temp = Temp::new();
    // Entries 1 to 64 are folders, each in the one before it; now 65 is one too.
    let mut bytes = fs::read(long_names(&temp, 100)).unwrap();
    put(&mut bytes, 0x440 + 12 * 65, 0x0100_0000);
    put(&mut bytes, 0x440 + 12 * 65 + 8, 100);
    let run = on("check", &temp.write("deeper.iso", &bytes), &[]);
    assert_eq!(run.status, 9);
    assert!(run.err.contains("(entry 65 is a folder deeper than 64 levels)"), "{}", run.err);
}

#[test]
fn check_finds_overlaps_and_accepts_what_is_sound() {
    let temp = Temp::new();
    let mut bytes = small_master();
    put(&mut bytes, 0x450, 0x459);
    let image = temp.write("overlap.iso", &bytes);
    let run = on("check", &image, &[]);
    assert_eq!(run.status, 14);
    assert!(run.err.contains("used regions overlap or pass the disc end"));
    let more = "(the table 0x0 to 0x45a and entry 1 \"a\" 0x459 to 0x559)";
    assert!(run.err.contains(more), "{}", run.err);
    put(&mut bytes, 0x450, 0x1F01);
    let image = temp.write("past.iso", &bytes);
    let run = on("check", &image, &[]);
    assert_eq!(run.status, 14);
    assert!(run.err.contains("the disc ends at 0x2000"), "{}", run.err);

    let image = usual_master(&temp);
    let text = done("check", &image, &[]);
    assert!(text.contains("opens") && text.contains("8 files, 7 folders"), "{text}");
    let told = json("check", &image, &[]);
    assert!(told.at("opens").flag());
    let (used, free) = (told.at("used").number(), told.at("free").number());
    assert_eq!(used + free, u64::from(END));
}

#[test]
fn cat_and_extract_give_the_file_byte_for_byte() {
    let temp = Temp::new();
    let image = usual_master(&temp);
    let all = temp.at("out");
    done("extract", &image, &["--all", all.to_str().unwrap()]);
    for entry in Table::of(&image).entries.iter().skip(1) {
        let place = all.join(&entry.path[1..]);
        if entry.folder {
            assert!(place.is_dir(), "{}", entry.path);
            continue;
        }
        let bytes = span(&image, entry.offset.into(), entry.size.into());
        assert_eq!(fs::read(&place).unwrap(), bytes, "{}", entry.path);
        assert_eq!(on("cat", &image, &[&entry.path]).bytes, bytes, "{}", entry.path);
    }
    let told = json("cat", &image, &["audio/se/se001.dsp"]);
    let bytes = span(&image, 0x9_0400, 0x3FF);
    let hex: String = bytes.iter().map(|b| format!("{b:02x}")).collect();
    assert_eq!(told.at("hex").text(), hex);
    assert_eq!(told.at("size").number(), 0x3FF);
    assert_eq!(json("cat", &image, &["audio/silence.adp"]).at("hex").text(), "");

    let text = temp.at("text");
    let told = json("extract", &image, &["text", text.to_str().unwrap()]);
    assert_eq!(told.at("files").list().len(), 2);
    assert_eq!(told.at("bytes").number(), 0x1234 + 0x1235);
    assert_eq!(fs::read(text.join("fr/msg.bin")).unwrap(), span(&image, 0xA_8000, 0x1235));
    // Into a folder that is there, under its own name.
    done("extract", &image, &["opening.bnr", text.to_str().unwrap()]);
    assert_eq!(fs::read(text.join("opening.bnr")).unwrap(), span(&image, 0x6_0000, 0x1960));
    assert_eq!(on("cat", &image, &["audio"]).status, 16);
    assert_eq!(on("cat", &image, &["nothing"]).status, 18);
}

/// `-` is standard output, and no file of that name is made.
#[test]
fn extract_writes_to_standard_output() {
    let temp = Temp::new();
    let image = usual_master(&temp);
    let here = |rest: &[&str]| -> Run {
        let mut command = program();
        command.arg("extract").arg(&image).args(rest).current_dir(temp.at(""));
        command.output().unwrap().into()
    };
    let bytes = span(&image, 0x6_0000, 0x1960);
    for rest in
        [&["opening.bnr", "-"][..], &["/opening.bnr", "-", "--number"], &["--", "opening.bnr", "-"]]
    {
        let run = here(rest);
        assert_eq!((run.status, run.err.as_str()), (0, ""), "{rest:?}");
        assert!(run.bytes == bytes, "{rest:?}");
    }
    assert_eq!(here(&["audio/silence.adp", "-"]).bytes, b"");
    // A folder has no place there, and neither has JSON.
    for (rest, status) in [
        (&["audio", "-"][..], 16),
        (&["--all", "-"], 16),
        (&["nothing", "-"], 18),
        (&["opening.bnr", "-", "--json"], 64),
    ] {
        let run = here(rest);
        assert_eq!(run.status, status, "{rest:?}: {}", run.err);
        assert_eq!(run.out.is_empty(), !rest.contains(&"--json"), "{rest:?}");
    }
    assert!(!temp.at("-").exists());
    assert_eq!(here(&["opening.bnr", "./-"]).status, 0);
    assert!(fs::read(temp.at("-")).unwrap() == bytes);
    // A file of that name changes nothing.
    assert!(here(&["opening.bnr", "-"]).bytes == bytes);
}

#[test]
fn nothing_is_overwritten() {
    let temp = Temp::new();
    let image = temp.write("small.iso", &filled_master());
    let before = State::of(&image);
    let there = temp.write("there", b"keep me");
    for args in [vec!["a", there.to_str().unwrap()], vec!["a", image.to_str().unwrap()]] {
        let run = on("extract", &image, &args);
        assert_eq!(run.status, 73, "{}", run.err);
        assert!(run.err.contains("is there already"), "{}", run.err);
    }
    assert_eq!(on("map", &image, &[there.to_str().unwrap()]).status, 73);
    assert_eq!(on("map", &image, &[image.to_str().unwrap()]).status, 73);
    // IMAGE forgotten: what was meant as the image is not written over.
    assert_eq!(run(&["map", "--demo", image.to_str().unwrap()]).status, 73);
    for option in ["--map", "--given"] {
        let copy = temp.write("copy.iso", &small_master());
        let args = [copy.to_str().unwrap(), option, image.to_str().unwrap()];
        assert_ne!(on("compare", &image, &args).status, 0, "{option}");
    }
    let copy = temp.at("copy.iso");
    let args = [copy.to_str().unwrap(), there.to_str().unwrap()];
    assert_eq!(on("report", &image, &args).status, 73);
    assert_eq!(on("dol", &image, &["--out", there.to_str().unwrap()]).status, 73);
    let folder = temp.at("full");
    fs::create_dir(&folder).unwrap();
    fs::write(folder.join("x"), b"").unwrap();
    let run = on("extract", &image, &["--all", folder.to_str().unwrap()]);
    assert_eq!(run.status, 73);
    assert!(!folder.join("a").exists());
    assert_eq!(fs::read(&there).unwrap(), b"keep me");
    assert_eq!(State::of(&image), before);
    let missing = temp.at("no/such/folder");
    assert_eq!(on("extract", &image, &["a", missing.to_str().unwrap()]).status, 73);
}

#[test]
fn equal_names_are_not_made_one_file() {
    let temp = Temp::new();
    let entries = vec![
        file("x", 0x6_0000, 5),
        file("x", 0x6_1000, 6),
        folder("x", vec![file("y", 0x6_2000, 7)]),
    ];
    let image = temp.at("equal.iso");
    sparse(&image, &entries, END);
    let out = temp.at("out");
    let run = on("extract", &image, &["--all", out.to_str().unwrap()]);
    assert_eq!(run.status, 73);
    assert!(run.err.contains("/x: entries 1 and 2 would be one file"), "{}", run.err);
    assert!(!out.exists());
    done("extract", &image, &["--all", "--number", out.to_str().unwrap()]);
    assert_eq!(fs::read(out.join("x")).unwrap(), span(&image, 0x6_0000, 5));
    assert_eq!(fs::read(out.join("x~2")).unwrap(), span(&image, 0x6_1000, 6));
    assert_eq!(fs::read(out.join("x~3/y")).unwrap(), span(&image, 0x6_2000, 7));
}

#[test]
fn dol_tells_the_program() {
    let temp = Temp::new();
    let image = usual_master(&temp);
    let told = json("dol", &image, &[]);
    assert_eq!(told.at("offset").number(), DOL as u64);
    assert_eq!(told.at("size").number(), 0x2_C000);
    assert_eq!(told.at("entry_point").number(), 0x8000_3154);
    assert_eq!(told.at("bss_address").number(), 0x8003_0000);
    assert_eq!(told.at("bss_size").number(), 0x4_0000);
    let sections = told.at("sections").list();
    let names: Vec<&str> = sections.iter().map(|section| section.at("name").text()).collect();
    assert_eq!(names, ["text0", "text1", "data0"]);
    assert_eq!(sections[2].at("address").number(), 0x8002_5000);
    assert!(done("dol", &image, &[]).contains("0x80003154"));
    let out = temp.at("main.dol");
    done("dol", &image, &["--out", out.to_str().unwrap()]);
    assert_eq!(fs::read(&out).unwrap(), span(&image, DOL as u64, 0x2_C000));

    let mut bytes = small_master();
    put(&mut bytes, 0x420, 0x2000 - 0xE3);
    let image = temp.write("short.iso", &bytes);
    let run = on("dol", &image, &[]);
    assert_eq!(run.status, 24);
    assert!(run.err.contains("DOL header past the image"), "{}", run.err);
}

#[test]
fn map_is_a_labelled_picture() {
    let temp = Temp::new();
    let image = usual_master(&temp);
    let out = temp.at("map.svg");
    let told = json("map", &image, &[out.to_str().unwrap()]);
    let kinds: Vec<&str> =
        told.at("pieces").list().iter().map(|piece| piece.at("kind").text()).collect();
    for kind in ["table", "program", "file", "free", "system"] {
        assert!(kinds.contains(&kind), "{kind}");
    }
    assert_eq!(kinds.iter().filter(|kind| **kind == "file").count(), 7);
    let picture = fs::read_to_string(&out).unwrap();
    well_formed(&picture);
    let words = [
        "GCTE01 Counter's test",
        "table at 0x50000",
        "program at 0x1e800",
        "/audio/theme.adp",
        "Largest files",
        "Largest free regions",
        "free",
    ];
    for words in words {
        assert!(picture.contains(words), "{words}");
    }
    // Each nonempty file is drawn somewhere, with its place.
    for entry in Table::of(&image).entries.iter().filter(|e| !e.folder && e.size > 0) {
        let title = format!("<title>{}: {:#x}, ", entry.path, entry.offset);
        assert!(picture.contains(&title), "{title}");
    }
    let again = temp.at("again.svg");
    done("map", &image, &[again.to_str().unwrap()]);
    assert_eq!(fs::read_to_string(&again).unwrap(), picture);
}

/// Tags are nested, and no text holds a stray `<` or `&`.
fn well_formed(xml: &str) {
    let mut open: Vec<&str> = Vec::new();
    for part in xml.split('<').skip(1) {
        let (tag, text) = part.split_once('>').expect("an ended tag");
        for entity in text.split('&').skip(1) {
            let name = entity.split(';').next().unwrap();
            assert!(["amp", "lt", "gt", "quot"].contains(&name), "&{name}");
        }
        if tag.starts_with('?') || tag.ends_with('/') {
            continue;
        }
        match tag.strip_prefix('/') {
            Some(name) => assert_eq!(open.pop(), Some(name)),
            None => open.push(tag.split(' ').next().unwrap()),
        }
    }
    assert!(open.is_empty());
}

#[test]
fn names_with_odd_signs_are_kept_apart_from_markup() {
    let temp = Temp::new();
    let image = temp.at("odd.iso");
    sparse(&image, &[file("<&>\"'", 0x6_0000, 0x8_0000)], END);
    let out = temp.at("map.svg");
    done("map", &image, &[out.to_str().unwrap()]);
    well_formed(&fs::read_to_string(&out).unwrap());
    assert_eq!(json("list", &image, &[]).at("entries").list()[1].at("path").text(), "/<&>\"'");
}

#[test]
fn place_answers_as_the_worked_examples_do() {
    let temp = Temp::new();
    let image = temp.write("small.iso", &small_master());
    // P2, P3, and a number that is no power of two.
    let told = json("place", &image, &["0x100", "0x100"]);
    assert_eq!((told.at("offset").number(), told.at("room").number()), (0x600, 0x1A00));
    assert_eq!(on("place", &image, &["0x1A01", "1"]).status, 21);
    let told = json("place", &image, &["0x1A00", "1"]);
    assert_eq!((told.at("offset").number(), told.at("room").number()), (0x600, 0x1A00));
    assert_eq!(on("place", &image, &["1", "3"]).status, 22);
    assert_eq!(on("place", &image, &["1", "0"]).status, 22);
    assert_eq!(on("place", &image, &["x"]).status, 64);
    assert_eq!(on("place", &image, &["1"]).status, 21);
    let usual = usual_master(&temp);
    let told = json("place", &usual, &["64K"]);
    assert_eq!(told.at("align").number(), 0x8000);
    let (at, room) = (told.at("offset").number(), told.at("room").number());
    let holds = |&(start, size): &(u64, u64)| start <= at && at + room == start + size;
    assert!(at % 0x8000 == 0 && Table::of(&usual).free().iter().any(holds), "{at:#x} {room:#x}");
    let text = done("place", &usual, &["64K"]);
    assert!(text.contains(&format!("offset            {at:#x} (")), "{text}");
}

/// Offset, size, bytes before the first multiple of 0x8000, whole clusters, rest.
type InClusters = (u64, u64, u64, u64, u64);

/// Wants these regions, this sum of whole clusters and this text below the columns' names.
fn in_clusters(image: &std::path::Path, wanted: &[InClusters], sum: u64, text: &str) {
    let table = Table::of(image);
    let free: Vec<(u64, u64)> = wanted.iter().map(|region| (region.0, region.1)).collect();
    assert_eq!(table.free(), free);
    let told = json("free", image, &["--clusters"]);
    let read = |region: &Json| {
        let field = |name| region.at(name).number();
        (field("offset"), field("size"), field("before"), field("clusters"), field("rest"))
    };
    let regions: Vec<InClusters> = told.at("regions").list().iter().map(read).collect();
    assert_eq!(regions, wanted);
    for (_, size, before, clusters, rest) in regions {
        assert_eq!(before + 0x8000 * clusters + rest, size);
    }
    let bytes = free.iter().map(|region| region.1).sum();
    for (name, value) in
        [("disc_end", table.end), ("free", bytes), ("cluster_size", 0x8000), ("clusters", sum)]
    {
        assert_eq!(told.at(name).number(), value, "{name}");
    }
    let text = format!("    offset        size  before  clusters    rest\n{text}");
    assert_eq!(done("free", image, &["--clusters"]), text);
}

#[test]
fn free_space_of_the_small_master_in_clusters() {
    let temp = Temp::new();
    let image = temp.write("small.iso", &small_master());
    // Both regions end before 0x8000.
    let wanted = [(0x45A, 0xA6, 0xA6, 0, 0), (0x600, 0x1A00, 0x1A00, 0, 0)];
    let text = "0x0000045a  0x000000a6     166         0       0\n\
                0x00000600  0x00001a00   6,656         0       0\n\
                0 whole clusters of 0x8000 bytes in 2 regions\n\
                0x1aa6 (6,822 bytes, 6.66 KiB) free beside them\n";
    in_clusters(&image, &wanted, 0, text);
    // Without the option nothing is told of clusters.
    let text = "    offset        size          bytes\n\
                0x0000045a  0x000000a6            166  166 B\n\
                0x00000600  0x00001a00          6,656  6.50 KiB\n\
                0x1aa6 (6,822 bytes, 6.66 KiB) free of 8 KiB in 2 regions\n";
    assert_eq!(done("free", &image, &[]), text);
    let told = r#"{
  "status": 0,
  "disc_end": 8192,
  "free": 6822,
  "program": null,
  "regions": [
    {"offset": 1114, "size": 166},
    {"offset": 1536, "size": 6656}
  ]
}
"#;
    assert_eq!(done("free", &image, &["--json"]), told);
}

#[test]
fn regions_in_clusters_at_every_boundary() {
    let temp = Temp::new();
    let image = temp.at("boundaries.iso");
    // Ten entries and nine names of one letter: the table has 138 bytes and ends at 0x5008a.
    let entries = [
        file("a", 0x5_8000, 0x8000),
        file("b", 0x6_8000, 0x8000),
        file("c", 0x7_7FFF, 0x8001),
        file("d", 0x8_8001, 0x8000),
        file("e", 0xA_0000, 0x10),
        file("f", 0xA_0030, 0x7FCF),
        file("g", 0xA_8001, 0x7FFF),
        file("h", 0xB_0001, 0x7FFE),
        file("i", 0xB_8000, 0x123),
    ];
    sparse(&image, &entries, 0x10_0123);
    let wanted = [
        // The first multiple is the end.
        (0x5_008A, 0x7F76, 0x7F76, 0, 0),
        // From a multiple: exactly a cluster, a byte less, a byte more.
        (0x6_0000, 0x8000, 0, 1, 0),
        (0x7_0000, 0x7FFF, 0, 0, 0x7FFF),
        (0x8_0000, 0x8001, 0, 1, 1),
        // From a byte behind a multiple to a multiple.
        (0x9_0001, 0xFFFF, 0x7FFF, 1, 0),
        // The first multiple is past the end.
        (0xA_0010, 0x20, 0x20, 0, 0),
        // A byte on each side of a multiple; one byte from it on; one byte before it.
        (0xA_7FFF, 2, 1, 0, 1),
        (0xB_0000, 1, 0, 0, 1),
        (0xB_7FFF, 1, 1, 0, 0),
        // All three, cut at 0xc0000 and 0x100000.
        (0xB_8123, 0x4_8000, 0x7EDD, 8, 0x123),
    ];
    let text = "0x0005008a  0x00007f76  32,630         0       0\n\
                0x00060000  0x00008000       0         1       0\n\
                0x00070000  0x00007fff       0         0  32,767\n\
                0x00080000  0x00008001       0         1       1\n\
                0x00090001  0x0000ffff  32,767         1       0\n\
                0x000a0010  0x00000020      32         0       0\n\
                0x000a7fff  0x00000002       1         0       1\n\
                0x000b0000  0x00000001       0         0       1\n\
                0x000b7fff  0x00000001       1         0       0\n\
                0x000b8123  0x00048000  32,477         8     291\n\
                11 whole clusters of 0x8000 bytes in 10 regions\n\
                0x1ff99 (130,969 bytes, 127 KiB) free beside them\n";
    in_clusters(&image, &wanted, 11, text);
}

#[test]
fn no_free_space_and_one_cluster_of_it() {
    let temp = Temp::new();
    // Two entries and a name of one letter: the table has 26 bytes and ends at 0x5001a.
    let image = temp.at("full.iso");
    sparse(&image, &[file("a", 0x5_001A, 0xA_FFE6)], 0x10_0000);
    let text = "0 whole clusters of 0x8000 bytes in 0 regions\n\
                0x0 (0 bytes) free beside them\n";
    in_clusters(&image, &[], 0, text);
    let image = temp.at("one.iso");
    sparse(&image, &[file("a", 0x5_001A, 0xA_7FE6)], 0x10_0000);
    let text = "0x000f8000  0x00008000       0         1       0\n\
                1 whole cluster of 0x8000 bytes in 1 region\n\
                0x0 (0 bytes) free beside them\n";
    in_clusters(&image, &[(0xF_8000, 0x8000, 0, 1, 0)], 1, text);
}

#[test]
fn thousands_of_clusters_stay_in_their_columns() {
    let temp = Temp::new();
    let image = temp.at("retail.iso");
    // Three entries and two names of eight letters: the table has 54 bytes and ends at 0x50036.
    let entries = [file("film.thp", 0x10_0000, 0x1000_0001), file("last.bin", 0x5705_0010, 0x10)];
    sparse(&image, &entries, 0x5705_8000);
    // From 0x10108000 to 0x57050000 there are 0x46f48000 bytes, 2 * 0x46f5 - 1 clusters.
    let wanted = [
        (0x5_0036, 0xA_FFCA, 0x7FCA, 21, 0),
        (0x1010_0001, 0x46F5_000F, 0x7FFF, 36_329, 0x10),
        (0x5705_0020, 0x7FE0, 0x7FE0, 0, 0),
    ];
    let text = "0x00050036  0x000affca  32,714        21       0\n\
                0x10100001  0x46f5000f  32,767    36,329      16\n\
                0x57050020  0x00007fe0  32,736         0       0\n\
                36,350 whole clusters of 0x8000 bytes in 3 regions\n\
                0x17fb9 (98,233 bytes, 95.9 KiB) free beside them\n";
    in_clusters(&image, &wanted, 36_350, text);
}

#[test]
fn a_refused_image_is_refused_in_clusters_too() {
    let temp = Temp::new();
    type Case = (i32, fn(&mut Vec<u8>));
    let cases: [Case; 5] = [
        (1, |b| b.truncate(0x43F)),
        (3, |b| put(b, 0x1C, 0)),
        (9, |b| put(b, 0x448, 16_385)),
        (12, |b| b[0x458] = 0x80),
        (14, |b| put(b, 0x450, 0x459)),
    ];
    for (number, spoil) in cases {
        let mut bytes = small_master();
        spoil(&mut bytes);
        let image = temp.write("spoiled.iso", &bytes);
        for more in [&[][..], &["--json"]] {
            let plain = on("free", &image, more);
            let run = on("free", &image, &[more, &["--clusters"]].concat());
            assert_eq!((run.status, run.out, run.err), (number, plain.out, plain.err));
        }
    }
    let missing = on("free", &temp.at("nothing.iso"), &["--clusters"]);
    assert_eq!((missing.status, missing.out.as_str()), (66, ""));
}

#[test]
fn help_tells_of_clusters() {
    let help = run(&["free", "--help"]).out;
    for words in [
        "counter free IMAGE [--clusters] [--json]",
        "\n  --clusters  counts each free region in clusters of 0x8000 bytes",
        "before + 0x8000 * clusters + rest = size",
        "\n  counter free disc.iso --clusters\n",
        "cluster_size",
    ] {
        assert!(help.contains(words), "{words}: {help}");
    }
    assert!(run(&["help", "all"]).out.contains("counter free IMAGE [--clusters]"));
    assert!(run(&["help", "man"]).out.contains("counter free disc.iso \\-\\-clusters"));
}

#[test]
fn an_unwritable_standard_error_ends_nothing() {
    let temp = Temp::new();
    let image = temp.write("small.iso", &small_master());
    let full = || File::options().write(true).open("/dev/full").unwrap();
    let runs: [(&[&str], i32); 6] = [
        (&["list"], 0),
        (&["frobnicate"], 64),
        (&[], 64),
        (&["check", "/no/such/file"], 66),
        (&["check", "/no/such/file", "--json"], 66),
        (&["find", image.to_str().unwrap(), "nothing"], 18),
    ];
    for (args, status) in runs {
        let run: Run = program().args(args).stderr(full()).output().unwrap().into();
        assert_eq!(run.status, status, "{args:?}");
        let (reader, writer) = std::io::pipe().unwrap();
        drop(reader);
        let run: Run = program().args(args).stderr(writer).output().unwrap().into();
        assert_eq!(run.status, status, "{args:?}");
    }
    // Neither stream can be written.
    let run: Run = program()
        .args(["move", image.to_str().unwrap(), "a", "0x600"])
        .stdout(full())
        .stderr(full())
        .output()
        .unwrap()
        .into();
    assert!(run.status > 64 && run.status != 101, "{}", run.status);
    assert_eq!(Table::of(&image).entry("/a").offset, 0x600);
}

#[test]
fn waiting_for_the_lock() {
    let temp = Temp::new();
    let image = temp.write("small.iso", &small_master());
    for args in [&["list"][..], &["move", "a", "0x600"]] {
        let other = OpenOptions::new().read(true).write(true).open(&image).unwrap();
        other.lock().unwrap();
        let mut rest = args[1..].to_vec();
        assert_eq!(on(args[0], &image, &rest).status, 75);
        rest.push("--wait");
        let mut child = program()
            .arg(args[0])
            .arg(&image)
            .args(&rest)
            .stdout(Stdio::piped())
            .stderr(Stdio::piped())
            .spawn()
            .unwrap();
        let mut told = BufReader::new(child.stderr.take().unwrap());
        let mut line = String::new();
        told.read_line(&mut line).unwrap();
        assert!(line.contains("waiting"), "{line}");
        other.unlock().unwrap();
        assert!(child.wait().unwrap().success());
    }
    assert_eq!(Table::of(&image).entry("/a").offset, 0x600);
}

/// What wait4 tells of a child: its time in the program and in the system, seconds and microseconds,
/// and more that is not looked at.
#[repr(C)]
#[derive(Default)]
struct Usage {
    times: [i64; 4],
    rest: [i64; 14],
}

unsafe extern "C" {
    fn wait4(process: i32, status: *mut i32, options: i32, usage: *mut Usage) -> i32;
}

/// Runs, and tells how long the processor worked at it: other programs do not count.
fn worked(command: &str, image: &std::path::Path) -> (std::time::Duration, Run) {
    let mut child = program()
        .arg(command)
        .arg(image)
        .stdout(Stdio::null())
        .stderr(Stdio::piped())
        .spawn()
        .unwrap();
    let mut err = String::new();
    child.stderr.take().unwrap().read_to_string(&mut err).unwrap();
    let (mut status, mut usage) = (0, Usage::default());
    // SAFETY: both are there, and the child is nobody else's.
    let waited = unsafe { wait4(child.id() as i32, &mut status, 0, &mut usage) };
    assert_eq!(waited, child.id() as i32);
    let [seconds, micros, in_system, micros_in_system] = usage.times.map(|time| time as u64);
    let time = std::time::Duration::from_secs(seconds + in_system)
        + std::time::Duration::from_micros(micros + micros_in_system);
    let status = status >> 8 & 0xFF;
    (time, Run { status, signal: None, bytes: Vec::new(), out: String::new(), err })
}

#[test]
fn a_refusal_is_looked_into_in_no_time() {
    let temp = Temp::new();
    // 16,384 names in one text of 1 MiB; the last entry is the one that is wrong.
    let sound = fs::read(long_names(&temp, 16_384)).unwrap();
    let last = 0x440 + 12 * 16_383;
    let texts = 0x440 + 12 * 16_384;
    type Case = (u32, &'static str, fn(&mut [u8], usize, usize));
    let cases: [Case; 7] = [
        (10, "entry 16383 has next 16383", |b, at, _| {
            put(b, at, 0x0100_0000);
            put(b, at + 8, 16_383);
        }),
        (11, "entry 16383 has name offset 1048576", |b, at, _| put(b, at, 0x10_0000)),
        (12, "entry 16383 is called \"\\x7f\"", |b, at, texts| {
            // A text of its own: the end of the long one.
            b[texts + 0xF_FFFD] = 0;
            b[texts + 0xF_FFFE] = 0x7F;
            put(b, at, 0xF_FFFE);
        }),
        (13, "entry 16383 is called \":\"", |b, at, texts| {
            b[texts + 0xF_FFFD] = 0;
            b[texts + 0xF_FFFE] = b':';
            put(b, at, 0xF_FFFE);
        }),
        (13, "entry 16383 is called \"\"", |b, at, _| put(b, at, 0xF_FFFF)),
        (13, "entry 16383 is called \"..\"", |b, at, texts| {
            b[texts + 0xF_FFFC] = 0;
            b[texts + 0xF_FFFD] = b'.';
            b[texts + 0xF_FFFE] = b'.';
            put(b, at, 0xF_FFFD);
        }),
        (14, "entry 16383 \"nnn", |b, at, _| {
            put(b, at + 4, 0x40_0000);
            put(b, at + 8, 1);
        }),
    ];
    let best = |path: &std::path::Path| {
        (0..5).map(|_| worked("check", path)).min_by_key(|(time, _)| *time).unwrap()
    };
    let (alone, _) = best(&temp.at("deep.iso"));
    for (number, words, spoil) in cases {
        let mut bytes = sound.clone();
        spoil(&mut bytes, last, texts);
        let image = temp.write("spoiled.iso", &bytes);
        let (time, run) = best(&image);
        assert_eq!(run.status, number as i32, "{}", run.err);
        assert!(run.err.contains(words), "{words}: {:.300}", run.err);
        println!("{number}: {time:?}; the same image where it opens: {alone:?}");
        let most = (8 * alone).max(std::time::Duration::from_millis(400));
        assert!(time < most, "{number}: {time:?}");
    }
}

#[test]
fn wrong_files_give_clear_errors() {
    let temp = Temp::new();
    let missing = on("list", &temp.at("nothing.iso"), &[]);
    assert_eq!(missing.status, 66);
    assert!(missing.err.contains("no such file"), "{}", missing.err);
    let json = Json::read(&on("list", &temp.at("nothing.iso"), &["--json"]).out);
    assert_eq!(json.at("status").number(), 66);
    assert!(json.at("error").text().contains("no such file"));

    let folder = on("list", &temp.at(""), &[]);
    assert_eq!(folder.status, 66);
    assert!(folder.err.contains("a folder, not an image"), "{}", folder.err);
    for command in ["list", "rewrite"] {
        let special = on(command, std::path::Path::new("/dev/null"), &[]);
        assert_eq!(special.status, 66);
        assert!(special.err.contains("special file"), "{}", special.err);
    }
    // A pipe with a name and no writer: an error and not a wait.
    let pipe = temp.at("pipe");
    assert!(std::process::Command::new("mkfifo").arg(&pipe).status().unwrap().success());
    assert_eq!(on("list", &pipe, &[]).status, 66);
}

#[test]
fn a_file_that_may_not_be_read_is_told() {
    let temp = Temp::new();
    let image = temp.write("secret.iso", &small_master());
    fs::set_permissions(&image, fs::Permissions::from_mode(0o000)).unwrap();
    if File::open(&image).is_ok() {
        not_tried("a file that may not be read: root reads every file");
        return;
    }
    let run = on("list", &image, &[]);
    assert_eq!(run.status, 77);
    assert!(run.err.contains("permission denied"), "{}", run.err);
}

#[test]
fn an_image_that_is_being_edited_is_not_read() {
    let temp = Temp::new();
    let image = temp.write("small.iso", &small_master());
    let editor = OpenOptions::new().read(true).write(true).open(&image).unwrap();
    editor.lock().unwrap();
    let run = on("list", &image, &[]);
    assert_eq!(run.status, 75);
    assert!(run.err.contains("another program is editing it"), "{}", run.err);
    editor.unlock().unwrap();
    editor.lock_shared().unwrap();
    assert_eq!(on("list", &image, &[]).status, 0);
}

#[test]
fn wrong_usage_is_64() {
    let cases: [&[&str]; 22] = [
        &[],
        &["frobnicate"],
        &["list", "a", "b"],
        &["find"],
        &["list", "--dry-run"],
        &["list", "--jso"],
        &["list", "image", "--clusters"],
        &["place", "image", "1", "--clusters"],
        &["free", "image", "--clusters=1"],
        &["extract", "x"],
        &["compare", "x"],
        &["compare", "x", "y", "--given"],
        &["rewrite"],
        &["move", "x", "y"],
        &["mkdir", "image"],
        &["rewrite", "image", "--over-program"],
        &["hash", "image", "--as-ist"],
        &["place", "image"],
        &["place", "image", "1", "2", "3"],
        &["report", "x", "y"],
        &["info", "--json=1"],
        &["help", "nothing"],
    ];
    for args in cases {
        let run = run(args);
        assert_eq!(run.status, 64, "{args:?}: {}", run.err);
        assert!(!run.err.is_empty() && run.out.is_empty(), "{args:?}");
    }
}

#[test]
fn help_documents_commands_statuses_and_safety() {
    let run_help = run(&["help", "all"]);
    assert_eq!(run_help.status, 0);
    let commands = [
        "info", "list", "tree", "free", "find", "place", "clear", "check", "extract", "cat", "dol",
        "map", "compare", "hash", "report", "mkdir", "add", "move", "resize", "fill", "rewrite",
        "recover", "new", "tables",
    ];
    for command in commands {
        assert!(run_help.out.contains(&format!("counter {command} ")), "{command}");
        assert!(run(&["help", command]).out.contains(&format!("counter {command} ")));
    }
    // The causes; c.rs has their words.
    assert!(run_help.out.contains("\n      1 to 30: refused"));
    for number in 1..=30 {
        assert!(run_help.out.contains(&format!("\n  {number:2}  refused: ")), "{number}");
    }
    for status in [64, 65, 66, 70, 73, 74, 75, 77] {
        assert!(run_help.out.contains(&format!("\n  {status}  ")), "{status}");
    }
    assert!(run(&["help", "safety"]).out.contains("SIGKILL"));
    assert!(run(&["help", "exit"]).out.contains("128 + n"));
    assert_eq!(run(&["--help"]).out, run(&["help"]).out);
    let version = run(&["--version"]);
    assert_eq!(version.status, 0);
    let sum = version.out.lines().nth(1).unwrap().strip_prefix("libcounter.a SHA-256 ").unwrap();
    assert!(sum.len() == 64 && sum.chars().all(|c| c.is_ascii_hexdigit()), "{sum}");
    // A test, and no proof.
    let check = run_help.out.find("\nCheck\n").unwrap();
    let compare = run_help.out.find("\n  counter compare ").unwrap();
    let edit = run_help.out.find("\nEdit\n").unwrap();
    assert!(check < compare && compare < edit);
}

#[test]
fn help_names_every_field_of_the_json() {
    let temp = Temp::new();
    let image = usual_master(&temp);
    let help = run(&["help", "json"]).out;
    let words: Vec<&str> = help.split(|c: char| !c.is_ascii_alphanumeric() && c != '_').collect();
    let (out, svg, page) = (temp.at("out"), temp.at("map.svg"), temp.at("page.html"));
    let (copy, run_svg) = (temp.at("copy.iso"), temp.at("run.svg"));
    fs::copy(&image, &copy).unwrap();
    let copy = copy.to_str().unwrap();
    let lines = temp.write("lines.bin", b"lines");
    let commands: [(&str, &[&str]); 24] = [
        ("info", &[]),
        ("list", &[]),
        ("tree", &[]),
        ("find", &["opening.bnr"]),
        ("free", &[]),
        ("free", &["--clusters"]),
        ("check", &[]),
        ("extract", &["opening.bnr", out.to_str().unwrap()]),
        ("cat", &["audio/se/se000.dsp"]),
        ("dol", &[]),
        ("map", &[svg.to_str().unwrap()]),
        ("map", &[run_svg.to_str().unwrap(), "--clear", "64K"]),
        ("place", &["64K"]),
        ("clear", &["1M"]),
        ("compare", &[copy]),
        ("compare", &[copy, "--tables"]),
        ("report", &[copy, page.to_str().unwrap()]),
        ("mkdir", &["new"]),
        ("add", &["new/file"]),
        ("move", &["opening.bnr", "0x190002"]),
        ("resize", &["opening.bnr", "0"]),
        ("fill", &["opening.bnr", lines.to_str().unwrap()]),
        ("rewrite", &[]),
        ("maximum", &["0"]),
    ];
    for (command, rest) in commands {
        let help = run(&["help", command]).out;
        let words: Vec<&str> =
            help.split(|c: char| !c.is_ascii_alphanumeric() && c != '_').collect();
        for name in fields(&json(command, &image, rest)) {
            assert!(words.contains(&name.as_str()), "{command}: {name}");
        }
    }
    let refused = Json::read(&on("find", &image, &["nothing", "--json"]).out);
    let failed = Json::read(&on("list", &temp.at("nothing"), &["--json"]).out);
    for name in fields(&refused).into_iter().chain(fields(&failed)) {
        assert!(words.contains(&name.as_str()), "{name}");
    }
}

#[test]
fn check_tells_what_of_a_table_no_lookup_sees() {
    let temp = Temp::new();
    let image = usual_master(&temp);
    let notes = |image: &std::path::Path| -> (Vec<String>, Json) {
        let out = done("check", image, &[]);
        let notes = out.lines().filter_map(|line| line.strip_prefix("note: ")).map(String::from);
        (notes.collect(), json("check", image, &[]))
    };
    let (none, told) = notes(&image);
    assert!(none.is_empty(), "{none:?}");
    assert!(told.at("stored_parents").list().is_empty() && told.at("notes").list().is_empty());
    assert_eq!(told.at("rewrite_alters_at"), &Json::Null);
    assert_eq!(told.at("rewrite_alters_bytes").number(), 0);
    let good = fs::read(&image).unwrap();
    let size = get(&good, 0x428) as usize;
    // Entry 12 is text/en/, which lies in 11; entry 14 is text/fr/.
    let mut bytes = good.clone();
    put(&mut bytes, FST + 12 * 12 + 4, 9);
    put(&mut bytes, FST + 12 * 14 + 4, 0xFFFF_FFFF);
    fs::write(&image, &bytes).unwrap();
    let (parents, told) = notes(&image);
    assert_eq!(parents.len(), 2, "{parents:?}");
    let words = "entry 12, /text/en/, stores 9 as its parent, and lies in entry 11; so it is with 1 more folder";
    assert!(parents[0].starts_with(words), "{parents:?}");
    // 9 for 11 is a byte, and 0xFFFFFFFF for 11 are four.
    let words = format!(
        "a rewrite would alter 5 bytes of the table, first at {:#x}, the stored parent of entry 12; every edit that \
         writes the table writes it anew",
        FST + 12 * 12 + 7
    );
    assert_eq!(parents[1], words);
    let wrong = told.at("stored_parents").list();
    assert_eq!(wrong.len(), 2);
    assert_eq!((wrong[1].at("stored").number(), wrong[1].at("parent").number()), (0xFFFF_FFFF, 11));
    assert_eq!(wrong[1].at("path").text(), "/text/fr/");
    for name in ["rewrite_alters_at", "rewrite_first_altered"] {
        assert_eq!(told.at(name).number(), (FST + 12 * 12 + 7) as u64);
    }
    assert_eq!(told.at("rewrite_alters_bytes").number(), 5);
    // The root's own.
    let mut bytes = good.clone();
    put(&mut bytes, FST, 0x0100_0003);
    put(&mut bytes, FST + 4, 7);
    fs::write(&image, &bytes).unwrap();
    let (root, told) = notes(&image);
    assert!(root[0].starts_with("the root stores name offset 3 and parent 7"), "{root:?}");
    assert_eq!(told.at("root").at("parent").number(), 7);
    // Texts behind the names, and between them: the first name is not used any more.
    let mut bytes = good.clone();
    put(&mut bytes, 0x428, size as u32 + 3);
    fs::write(&image, &bytes).unwrap();
    let (unused, told) = notes(&image);
    let words = format!(
        "3 bytes of the table's texts, all zero, are of no entry's name, the first at {:#x}",
        FST + size
    );
    let size_alone = format!(
        "a rewrite would alter no byte of the table, only its size, {} -> {size} bytes; every edit that writes the table \
         writes it anew",
        size + 3
    );
    assert_eq!(unused, [words, size_alone]);
    // The table departs there, and no byte is altered.
    assert_eq!(told.at("rewrite_alters_at").number(), (FST + size) as u64);
    assert_eq!(told.at("rewrite_first_altered"), &Json::Null);
    assert_eq!(told.at("rewrite_alters_bytes").number(), 0);
    assert_eq!(
        (told.at("unused_texts").number(), told.at("unused_texts_at").number()),
        (3, (FST + size) as u64)
    );
    let mut bytes = good.clone();
    let msg = get(&good, FST + 12 * 13);
    put(&mut bytes, FST + 12 * 15, msg);
    fs::write(&image, &bytes).unwrap();
    let (unused, _) = notes(&image);
    assert!(
        unused[0].starts_with("8 bytes of the table's texts are of no entry's name"),
        "{unused:?}"
    );
    // A rewrite settles all of it.
    done("rewrite", &image, &[]);
    assert!(notes(&image).0.is_empty());
}

#[test]
fn every_answer_in_json_has_its_status() {
    let temp = Temp::new();
    let image = usual_master(&temp);
    let copy = temp.at("copy.iso");
    fs::copy(&image, &copy).unwrap();
    let [copy, out, svg, page] =
        ["copy.iso", "out", "map.svg", "page.html"].map(|name| temp.at(name));
    let [copy, out, svg, page] = [&copy, &out, &svg, &page].map(|path| path.to_str().unwrap());
    let answers: [(&str, &[&str]); 17] = [
        ("info", &[]),
        ("list", &[]),
        ("tree", &[]),
        ("free", &[]),
        ("find", &["opening.bnr"]),
        ("place", &["64K"]),
        ("clear", &["64K"]),
        ("record", &[]),
        ("cat", &["audio/se/se000.dsp"]),
        ("extract", &["opening.bnr", out]),
        ("dol", &[]),
        ("map", &[svg]),
        ("check", &[]),
        ("compare", &[copy]),
        ("compare", &[copy, "--tables"]),
        ("report", &[copy, page]),
        ("recover", &[]),
    ];
    for (command, rest) in answers {
        assert_eq!(json(command, &image, rest).at("status").number(), 0, "{command}");
    }
    // Wrong usage too, whether the command knows --json or is none at all.
    let path = image.to_str().unwrap();
    let wrong: [&[&str]; 8] = [
        &["nonsense", "--json"],
        &["--json"],
        &["hash", path, "--json"],
        &["find", path, "--json"],
        &["find", path, "a", "--jsn", "--json"],
        &["move", path, "/opening.bnr", "x", "--json"],
        &["help", "nothing", "--json"],
        &["extract", path, "--json", "--all"],
    ];
    for args in wrong {
        let run = run(args);
        assert_eq!(run.status, 64, "{args:?}: {}", run.err);
        assert_eq!(Json::read(&run.out).at("status").number(), 64, "{args:?}");
        assert!(!run.err.is_empty());
    }
    // Behind -- it is an operand.
    assert_eq!(run(&["find", path, "--", "--json"]).out, "");
}

#[test]
fn the_kind_of_an_entry_is_told_where_another_is_wanted() {
    let temp = Temp::new();
    let image = usual_master(&temp);
    for (args, words) in [
        (&["cat", "audio"][..], "refused 16: file wanted (it is a folder)"),
        (&["move", "audio/se", "0x190000"], "refused 16: file wanted (it is a folder)"),
        (&["move", "audio/se", "auto"], "refused 16: file wanted (it is a folder)"),
        (&["resize", "/", "5"], "refused 16: file wanted (it is a folder)"),
        (&["find", "opening.bnr/x"], "refused 17: directory wanted (/opening.bnr is a file)"),
        (
            &["find", "audio/theme.adp/"],
            "refused 17: directory wanted (/audio/theme.adp is a file)",
        ),
        (
            &["find", "audio\\theme.adp\\x"],
            "refused 17: directory wanted (/audio/theme.adp is a file)",
        ),
        (&["add", "opening.bnr/x"], "refused 17: directory wanted (/opening.bnr is a file)"),
        (
            &["mkdir", "new/../opening.bnr/x"],
            "refused 17: directory wanted (/opening.bnr is a file)",
        ),
        (&["mkdir", "opening.bnr"], "refused 17: directory wanted (/opening.bnr is a file)"),
    ] {
        let run = on(args[0], &image, &args[1..]);
        assert!(run.err.contains(words), "{args:?}: {}", run.err);
    }
}

#[test]
fn other_forms_of_images_are_named_with_what_converts_them() {
    let temp = Temp::new();
    // First bytes, by each form's own description; a long file and one shorter than a header.
    let forms: [(&[u8], &str); 5] = [
        (b"RVZ\x01", "RVZ"),
        (b"WIA\x01", "WIA"),
        (b"CISO", "CISO"),
        (&0xB10B_C001u32.to_le_bytes(), "GCZ"),
        (b"WBFS", "WBFS"),
    ];
    for (magic, name) in forms {
        for (len, number) in [(0x8000, 3), (0x10, 1)] {
            let mut bytes = vec![0; len];
            bytes[..4].copy_from_slice(magic);
            let image = temp.write("image", &bytes);
            for command in ["check", "rewrite", "list"] {
                let run = on(command, &image, &[]);
                assert_eq!(run.status, number, "{name}: {}", run.err);
                let words =
                    format!("this is an image in the form {name}; `dolphin-tool convert -f iso ");
                assert!(run.err.contains(&words), "{name}: {}", run.err);
            }
        }
    }
    // NKit's looks like any other; cut short it is refused, and else it opens.
    let mut bytes = small_master();
    bytes[0x200..0x204].copy_from_slice(b"NKIT");
    let image = temp.write("nkit.iso", &bytes);
    for command in ["check", "info", "tree"] {
        let run = on(command, &image, &[]);
        assert_eq!(run.status, 0, "{}", run.err);
        assert_eq!(run.err.matches("this is an NKit image").count(), 1, "{}", run.err);
    }
    let run = on("rewrite", &image, &["--dry-run"]);
    assert_eq!(run.err.matches("this is an NKit image").count(), 1, "{}", run.err);
    assert!(done("check", &image, &[]).contains("note: this is an NKit image"));
    let image = temp.write("short.nkit.iso", &bytes[..0x1000]);
    let run = on("check", &image, &[]);
    assert_eq!(run.status, 4);
    let words = "the file has 4096 bytes, the disc 8192; this is an NKit image";
    assert!(run.err.contains(words), "{}", run.err);
}

#[test]
fn info_shows_the_banner() {
    // YAGCD: the magic, a picture, and from 0x1820 on the titles, 0x20, 0x20, 0x40, 0x40 and 0x80 bytes long.
    let banner = |magic: &[u8], texts: [&[u8]; 5]| -> Vec<u8> {
        let mut bytes = vec![0; 0x1960];
        bytes[..4].copy_from_slice(magic);
        for (text, at) in texts.into_iter().zip([0x1820, 0x1840, 0x1860, 0x18A0, 0x18E0]) {
            bytes[at..at + text.len()].copy_from_slice(text);
        }
        bytes
    };
    let temp = Temp::new();
    let image = usual_master(&temp);
    let put = |code: u8, banner: &[u8]| {
        let mut bytes = fs::read(&image).unwrap();
        bytes[3] = code;
        bytes[0x6_0000..0x6_0000 + 0x1960].fill(0);
        bytes[0x6_0000..0x6_0000 + banner.len()].copy_from_slice(banner);
        fs::write(&image, bytes).unwrap();
    };
    let shown = |name: &str| {
        let out = done("info", &image, &[]);
        let line = out.lines().find(|line| line.starts_with(name));
        line.map(|line| line[name.len()..].trim().to_string())
    };
    assert_eq!(shown("banner title"), None);
    assert_eq!(json("info", &image, &[]).at("banner"), &Json::Null);
    put(b'E', &banner(b"BNR1", [b"Short", b"Maker", b"Caf\xe9 \xabLong\xbb", b"", b"a\nb\x1b[2J"]));
    assert_eq!(shown("banner title").unwrap(), "Café «Long»");
    assert_eq!(shown("banner maker").unwrap(), "Maker");
    let told = json("info", &image, &[]);
    assert_eq!(told.at("banner").at("short_title").text(), "Short");
    assert_eq!(told.at("banner").at("kind").text(), "BNR1");
    assert_eq!(told.at("banner").at("comment").text(), "a\\x0ab\\x1b[2J");
    // 0x95 0x5C is one character in Shift-JIS, and two in Latin-1.
    put(b'J', &banner(b"BNR1", [b"\x95\x5c", b"", b"", b"", b""]));
    assert_eq!(shown("banner title").unwrap(), "表");
    put(b'P', &banner(b"BNR2", [b"Titre", b"", b"", b"", b""]));
    assert_eq!(shown("banner title").unwrap(), "Titre");
    // A full field has no zero byte, an empty banner no title, and another file is no banner.
    put(b'E', &banner(b"BNR1", [b"", b"", &[b'x'; 0x40], &[b'y'; 0x40], b""]));
    assert_eq!(shown("banner title").unwrap(), "x".repeat(0x40));
    put(b'E', &banner(b"BNR1", [b""; 5]));
    assert_eq!(shown("banner title").unwrap(), "none");
    put(b'E', &banner(b"BNR3", [b"no"; 5]));
    assert_eq!(shown("banner title"), None);
    // A short one has what it has.
    put(b'E', &banner(b"BNR1", [b"Short", b"Maker", b"Long", b"", b""]));
    for (size, title) in [("0x1830", "Short"), ("0x1820", "none"), ("4", "none"), ("3", "")] {
        done("resize", &image, &["opening.bnr", size]);
        assert_eq!(shown("banner title").unwrap_or_default(), title, "{size}");
    }
}

#[test]
fn a_manifest_goes_to_a_new_file_and_never_over_another() {
    let temp = Temp::new();
    let image = usual_master(&temp);
    let before = State::of(&image);
    let sums = temp.at("disc.sums");
    let out = done("hash", &image, &["--out", sums.to_str().unwrap()]);
    assert_eq!(fs::read_to_string(&sums).unwrap(), done("hash", &image, &[]));
    let own = std::process::Command::new("sha256sum").arg(&sums).output().expect("sha256sum");
    let own = String::from_utf8_lossy(&own.stdout)[..64].to_string();
    assert!(out.contains(&format!("8 files, SHA-256 {own}")), "{out}");
    let record = temp.at("totals");
    done("record", &image, &["--record", record.to_str().unwrap()]);
    let link = temp.at("link");
    std::os::unix::fs::symlink(&image, &link).unwrap();
    for there in [&image, &sums, &record, &link] {
        let was = fs::read(there).unwrap();
        let run = on("hash", &image, &["--out", there.to_str().unwrap()]);
        assert_eq!(run.status, 73, "{}", run.err);
        assert!(fs::read(there).unwrap() == was);
    }
    // What has the name of a journal would be taken for one, whoever makes it.
    for name in [journal_of(&image), temp.at("x.counter-journal")] {
        let name = name.to_str().unwrap();
        let runs = [
            on("hash", &image, &["--out", name]),
            on("dol", &image, &["--out", name]),
            on("map", &image, &[name]),
            on("clear", &image, &["1", "--sheet", name]),
            on("extract", &image, &["opening.bnr", name]),
            on("extract", &image, &["--all", name]),
            run(&["map", "--demo", name]),
            run(&["tables", "1", "--into", name]),
        ];
        for run in runs {
            assert_eq!(run.status, 64, "{}", run.err);
            assert!(run.err.contains("a name that a journal has"), "{}", run.err);
        }
        assert!(!std::path::Path::new(name).exists());
    }
    // Standard output that goes into the image is noticed; a shell has emptied it before.
    for command in ["hash", "list", "check"] {
        let output = File::options().append(true).open(&image).unwrap();
        let run: Run = program()
            .args([command.as_ref(), image.as_os_str()])
            .stdout(output)
            .output()
            .unwrap()
            .into();
        assert_eq!(run.status, 64, "{}", run.err);
        assert!(run.err.contains("standard output goes into the image"), "{}", run.err);
    }
    assert_eq!(State::of(&image), before);
    assert!(run(&["help", "hash"]).out.contains("counter hash only.iso > only.iso"));
}

#[test]
fn the_sums_of_public_databases_are_told() {
    let temp = Temp::new();
    let image = usual_master(&temp);
    let text = done("hash", &image, &["--all"]);
    for (name, tool) in [("md5", "md5sum"), ("sha1", "sha1sum")] {
        let told = std::process::Command::new(tool).arg(&image).output().expect(tool);
        let told = String::from_utf8_lossy(&told.stdout).to_string();
        let sum = told.split(' ').next().unwrap();
        assert!(text.contains(&format!("\n# {name} {sum}\n")), "{name}");
    }
    // The small master's, by Python's zlib: zeros but for its header and table.
    let small = temp.write("small.iso", &small_master());
    assert!(done("hash", &small, &["--all"]).contains("\n# crc32 1960bcc8\n"));
    let sums = temp.write("all.sums", text.as_bytes());
    let run = on("compare", &sums, &[image.to_str().unwrap()]);
    assert_eq!(run.status, 0, "{}{}", run.out, run.err);
    assert!(!done("hash", &image, &[]).contains("# md5"));
}

#[test]
fn output_that_cannot_be_written_is_told() {
    let full = File::options().write(true).open("/dev/full").unwrap();
    let run: Run =
        program().arg("list").stdout(full).stderr(Stdio::piped()).output().unwrap().into();
    assert_eq!(run.status, 74);
    assert!(run.err.contains("standard output: the disk is full"), "{}", run.err);

    // A reader that goes away ends the program quietly, as a signal would.
    let (reader, writer) = std::io::pipe().unwrap();
    drop(reader);
    let run: Run =
        program().arg("list").stdout(writer).stderr(Stdio::piped()).output().unwrap().into();
    assert_eq!(run.signal, Some(13), "{}", run.err);
    assert!(!run.err.contains("panic"), "{}", run.err);
}

#[test]
fn reading_leaves_the_file_as_it_was() {
    let temp = Temp::new();
    let image = usual_master(&temp);
    let before = State::of(&image);
    for command in ["info", "list", "tree", "free", "check", "dol"] {
        done(command, &image, &[]);
        json(command, &image, &[]);
    }
    done("free", &image, &["--clusters"]);
    done("find", &image, &["audio"]);
    let copy = temp.at("copy.iso");
    fs::copy(&image, &copy).unwrap();
    done("compare", &image, &[copy.to_str().unwrap()]);
    done("hash", &image, &[]);
    done("place", &image, &["64K"]);
    let page = temp.at("page.html");
    done("report", &image, &[copy.to_str().unwrap(), page.to_str().unwrap()]);
    assert_eq!(State::of(&image), before);
    fs::set_permissions(&image, fs::Permissions::from_mode(0o444)).unwrap();
    done("list", &image, &[]);
}

/// A table of `count` entries, 64 folders deep, all called by one text of 1 MiB.
fn long_names(temp: &Temp, count: u32) -> std::path::PathBuf {
    let mut table: Vec<u8> = Vec::new();
    for k in 0..count {
        let (kind, next) = if k <= 64 { (0x0100_0000u32, count) } else { (0, 0) };
        for word in [kind, 0, next] {
            table.extend(word.to_be_bytes());
        }
    }
    table.extend(vec![b'n'; 0xF_FFFF]);
    table.push(0);
    let mut bytes = small_master();
    bytes.resize(0x40_0000, 0);
    put(&mut bytes, 0x428, table.len() as u32);
    put(&mut bytes, 0x434, 0x40_0000);
    bytes[0x440..0x440 + table.len()].copy_from_slice(&table);
    temp.write("deep.iso", &bytes)
}

#[test]
fn names_without_end_do_not_eat_the_machine() {
    let temp = Temp::new();
    // The most that a table may hold.
    let image = long_names(&temp, 16_384);
    assert!(done("check", &image, &[]).contains("16,319 files, 64 folders"));
    assert_eq!(json("info", &image, &[]).at("entries").number(), 16_384);
    assert_eq!(json("free", &image, &[]).at("regions").list().len(), 1);

    let image = long_names(&temp, 100);
    assert_eq!(on("find", &image, &["n"]).status, 18);
    // Not shared any more, the names would not fit.
    assert_eq!(on("rewrite", &image, &[]).status, 9);
    let note =
        "note: a rewrite, and every edit that writes the table, is refused 9 (limit or memory): ";
    let check = done("check", &image, &[]);
    assert!(check.contains(note), "{check}");
    let told = json("check", &image, &[]);
    assert_eq!(told.at("rewrite_alters_at"), &Json::Null);
    assert_eq!(told.at("rewrite_refused").number(), 9);
    assert_eq!(told.at("rewrite_refusal").number(), 9);
    for args in [&["tree"][..], &["list", "--json"]] {
        let run = on(args[0], &image, &args[1..]);
        assert_eq!(run.status, 65, "{args:?}");
        assert!(run.err.contains("paths of this image take more than 64 MiB"), "{}", run.err);
    }
    // The listing itself has no such bound: its first lines come at once.
    let mut child = program().arg("list").arg(&image).stdout(Stdio::piped()).spawn().unwrap();
    let mut out = vec![0; 5 << 20];
    child.stdout.take().unwrap().read_exact(&mut out).unwrap();
    child.wait().unwrap();
    let end = 0x440 + 1200 + 0x10_0000;
    let wanted = format!("total 4194304 used {end}\nd 0 0 100 /\nd 1 0 100 /nnn");
    assert!(out.starts_with(wanted.as_bytes()));
}

// Progress on a terminal ------------------------------------------------------------------

#[test]
fn progress_is_shown_on_a_terminal_after_a_second() {
    let temp = Temp::new();
    let image = usual_master(&temp);
    let Some((mut shows, writes)) = terminal() else {
        not_tried("progress: no terminal to be had");
        return;
    };
    // Nobody reads the pipe until progress is shown, so that `cat` is slow.
    let mut child = program()
        .arg("cat")
        .arg(&image)
        .arg("movie/intro.thp")
        .stdout(Stdio::piped())
        .stderr(writes)
        .spawn()
        .unwrap();
    let mut pipe = child.stdout.take().unwrap();
    let mut bytes = vec![0];
    pipe.read_exact(&mut bytes).unwrap();
    let (tell, told) = std::sync::mpsc::channel();
    std::thread::spawn(move || {
        let mut shown = [0; 256];
        let count = shows.read(&mut shown).unwrap_or(0);
        tell.send(String::from_utf8_lossy(&shown[..count]).into_owned())
    });
    let shown = told.recv_timeout(std::time::Duration::from_secs(60)).unwrap();
    pipe.read_to_end(&mut bytes).unwrap();
    assert!(child.wait().unwrap().success());
    assert_eq!(bytes, span(&image, 0x10_0000, 0x4_5678));
    assert!(shown.contains("cat: ") && shown.contains("of 277 KiB"), "{shown:?}");
    // Not on a terminal: nothing.
    assert_eq!(on("cat", &image, &["movie/intro.thp"]).err, "");
}
