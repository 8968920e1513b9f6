//! A program (main.dol) behind the table, and before it: where it lies is told, no edit writes there,
//! and an image whose program lies wrongly does not open.

mod support;

use std::fs;
use std::path::{Path, PathBuf};
use support::*;

const END: u32 = 0x20_0000;

/// The small master with a program of 0x123 bytes at 0x1000: 0x23 bytes of text behind 0x100 others.
fn small(temp: &Temp) -> PathBuf {
    let mut bytes = filled_master();
    put_program(&mut bytes, 0x1000, 0x100, 0x23);
    pattern(&mut bytes[0x10E4..0x1123], 7);
    temp.write("small.iso", &bytes)
}

/// A realistic master of 2 MiB whose program lies at 0x180000 to 0x1ac000, behind the film.
fn behind(temp: &Temp) -> PathBuf {
    let path = temp.at("behind.iso");
    sparse(&path, &usual(0x10_0000, 0x4_5678), END);
    program_to(&path, 0x18_0000);
    path
}

/// Offset, size, and whether it lies behind the table.
fn told(program: &Json) -> (u64, u64, bool) {
    let number = |name| program.at(name).number();
    (number("offset"), number("size"), program.at("behind_table").flag())
}

// What is told ----------------------------------------------------------------------------

#[test]
fn behind_the_table_it_is_used() {
    let temp = Temp::new();
    let image = small(&temp);
    // 0x45a bytes up to the table's end, 0x100 of `a` and 0x123 of the program: 1,661.
    let listing = "total 8192 used 1661\nd 0 0 2 /\nf 1 1280 256 /a\nr 1114 166\nr 1536 2560\n\
                   r 4387 3805\n";
    assert_eq!(done("list", &image, &[]), listing);
    assert_eq!(Table::of(&image).listing(), listing);

    let info = json("info", &image, &[]);
    for (name, value) in
        [("used", 1661), ("free", 6531), ("free_regions", 3), ("largest_free", 3805)]
    {
        assert_eq!(info.at(name).number(), value, "{name}");
    }
    assert!(info.at("program_behind_table").flag());
    assert_eq!(told(info.at("program")), (0x1000, 0x123, true));
    let line = "\nprogram           291 bytes at 0x1000, behind the table\n";
    let text = done("info", &image, &[]);
    assert!(text.contains(line), "{text}");

    let check = json("check", &image, &[]);
    assert_eq!((check.at("used").number(), check.at("free").number()), (1661, 6531));
    let text = done("check", &image, &[]);
    assert!(text.contains("1.62 KiB used and 6.37 KiB free of 8 KiB"), "{text}");
    let tree = json("tree", &image, &[]);
    assert_eq!(told(tree.at("program")), (0x1000, 0x123, true));
    assert_eq!(tree.at("children").list().len(), 1);
    assert_eq!(done("tree", &image, &[]).lines().count(), 2);
    // `a` grows up to it.
    assert_eq!(json("find", &image, &["a"]).at("largest_size").number(), 0xB00);
    // The largest free place is behind it.
    let place = json("place", &image, &["0x100", "4"]);
    assert_eq!((place.at("offset").number(), place.at("room").number()), (0x1124, 0xEDC));
    assert_eq!(on("place", &image, &["0xEDD", "4"]).status, 21);
    assert_eq!(done("place", &image, &["0x100", "4"]).lines().count(), 2);
    assert_eq!(json("dol", &image, &[]).at("size").number(), 0x123);
}

#[test]
fn free_tells_why_its_bytes_are_not_free() {
    let temp = Temp::new();
    let image = small(&temp);
    let text = "    offset        size          bytes\n\
                0x0000045a  0x000000a6            166  166 B\n\
                0x00000600  0x00000a00          2,560  2.50 KiB\n\
                0x00001123  0x00000edd          3,805  3.71 KiB\n\
                0x1983 (6,531 bytes, 6.37 KiB) free of 8 KiB in 3 regions\n\
                not free: the program, 291 bytes at 0x1000, behind the table\n";
    assert_eq!(done("free", &image, &[]), text);
    let text = "    offset        size  before  clusters    rest\n\
                0x0000045a  0x000000a6     166         0       0\n\
                0x00000600  0x00000a00   2,560         0       0\n\
                0x00001123  0x00000edd   3,805         0       0\n\
                0 whole clusters of 0x8000 bytes in 3 regions\n\
                0x1983 (6,531 bytes, 6.37 KiB) free beside them\n\
                not free: the program, 291 bytes at 0x1000, behind the table\n";
    assert_eq!(done("free", &image, &["--clusters"]), text);
    let text = r#"{
  "status": 0,
  "disc_end": 8192,
  "free": 6531,
  "program": {"offset": 4096, "size": 291, "behind_table": true},
  "regions": [
    {"offset": 1114, "size": 166},
    {"offset": 1536, "size": 2560},
    {"offset": 4387, "size": 3805}
  ]
}
"#;
    assert_eq!(done("free", &image, &["--json"]), text);
    let clusters = json("free", &image, &["--clusters"]);
    assert_eq!(told(clusters.at("program")), (0x1000, 0x123, true));
    assert_eq!(clusters.at("regions").list().len(), 3);
}

/// Its window is as long as the sections say, the program at least as long as its header.
#[test]
fn a_header_alone_is_a_program_of_228_bytes() {
    let temp = Temp::new();
    let mut bytes = filled_master();
    put_program(&mut bytes, 0x1F1C, 0, 0);
    let image = temp.write("header.iso", &bytes);
    assert_eq!(told(json("info", &image, &[]).at("program")), (0x1F1C, 0xE4, true));
    assert_eq!(json("check", &image, &[]).at("used").number(), 1370 + 0xE4);
    assert_eq!(json("dol", &image, &[]).at("size").number(), 0);
    let out = temp.at("main.dol");
    done("dol", &image, &["--out", out.to_str().unwrap()]);
    assert_eq!(fs::read(&out).unwrap(), b"");
}

#[test]
fn an_image_without_a_program_says_so() {
    let temp = Temp::new();
    let image = temp.write("small.iso", &small_master());
    for (command, more) in
        [("info", &[][..]), ("tree", &[]), ("free", &[]), ("free", &["--clusters"])]
    {
        assert_eq!(json(command, &image, more).at("program"), &Json::Null, "{command}");
    }
    assert!(!json("info", &image, &[]).at("program_behind_table").flag());
    assert!(done("info", &image, &[]).contains("\nprogram           none\n"));
    assert!(!done("free", &image, &[]).contains("program"));
    // `dol` reads what stands at 0 all the same.
    let told = json("dol", &image, &[]);
    assert_eq!(told.at("offset").number(), 0);
    assert!(done("dol", &image, &[]).contains("names no program"));
}

#[test]
fn before_the_table_it_is_among_what_lies_there() {
    let temp = Temp::new();
    let image = temp.at("usual.iso");
    sparse(&image, &usual(0x10_0000, 0x4_5678), END);
    let listing = done("list", &image, &[]);
    assert_eq!(listing, Table::of(&image).listing());
    let info = json("info", &image, &[]);
    assert!(!info.at("program_behind_table").flag());
    for program in [&info, &json("free", &image, &[]), &json("tree", &image, &[])] {
        assert_eq!(told(program.at("program")), (DOL as u64, DOL_SIZE as u64, false));
    }
    let text = done("info", &image, &[]);
    assert!(text.contains("\nprogram           180,224 bytes at 0x1e800, before the table\n"));
    assert!(!done("free", &image, &[]).contains("program"));
    // Used and free are the same as with no program at all.
    let mut bytes = fs::read(&image).unwrap();
    put(&mut bytes, 0x420, 0);
    let none = temp.write("none.iso", &bytes);
    assert_eq!(done("list", &none, &[]), listing);
}

/// Kind, offset and size of every piece of the map.
fn pieces(image: &Path, temp: &Temp) -> (Vec<(String, u64, u64)>, String) {
    let out = temp.at("map.svg");
    let told = json("map", image, &[out.to_str().unwrap()]);
    let read = |piece: &Json| {
        let kind = piece.at("kind").text().to_string();
        (kind, piece.at("offset").number(), piece.at("size").number())
    };
    let mut pieces: Vec<_> = told.at("pieces").list().iter().map(read).collect();
    pieces.sort_by_key(|piece| piece.1);
    (pieces, fs::read_to_string(&out).unwrap())
}

#[test]
fn the_map_shows_it_as_used() {
    let temp = Temp::new();
    let (told, picture) = pieces(&small(&temp), &temp);
    let wanted = [
        ("system", 0, 0x440),
        ("table", 0x440, 0x1A),
        ("free", 0x45A, 0xA6),
        ("file", 0x500, 0x100),
        ("free", 0x600, 0xA00),
        ("program", 0x1000, 0x123),
        ("free", 0x1123, 0xEDD),
    ];
    assert_eq!(told, wanted.map(|(kind, at, size)| (kind.to_string(), at, size)));
    assert!(picture.contains("<title>program: 0x1000, 291 bytes (291 B)</title>"));
    assert!(picture.contains("program 291 B (3.6%)") && picture.contains("free 6.37 KiB (79.7%)"));

    // Before the table the system area lies around it.
    let temp = Temp::new();
    let image = temp.at("usual.iso");
    sparse(&image, &[file("a", 0x6_0000, 0x1_0000)], 0x10_0000);
    let (told, _) = pieces(&image, &temp);
    let wanted = [
        ("system", 0, 0x440),
        ("system", 0x440, 0x1_E3C0),
        ("program", 0x1_E800, 0x2_C000),
        ("system", 0x4_A800, 0x5800),
        ("table", 0x5_0000, 0x1A),
        ("free", 0x5_001A, 0xFFE6),
        ("file", 0x6_0000, 0x1_0000),
        ("free", 0x7_0000, 0x9_0000),
    ];
    assert_eq!(told, wanted.map(|(kind, at, size)| (kind.to_string(), at, size)));
}

/// One region behind the table, one behind the program, one behind each file: one more than entries.
#[test]
fn the_most_free_regions_that_a_disc_can_have() {
    let temp = Temp::new();
    let count = 16_384u32;
    let mut table: Vec<u8> = Vec::new();
    for k in 0..count {
        // Files of one byte, with one free byte behind each; all have the one name.
        let words = match k {
            0 => [0x0100_0000, 0, count],
            _ => [0, 0x3_0600 + 2 * (k - 1), 1],
        };
        table.extend(words.iter().flat_map(|word| word.to_be_bytes()));
    }
    table.extend(b"a\0");
    let mut bytes = small_master();
    bytes.resize(0x3_8600, 0);
    put(&mut bytes, 0x428, table.len() as u32);
    put(&mut bytes, 0x434, 0x3_8600);
    bytes[0x440..0x440 + table.len()].copy_from_slice(&table);
    // The table ends at 0x30442.
    put_program(&mut bytes, 0x3_0443, 0, 0);
    let image = temp.write("most.iso", &bytes);
    for more in [&[][..], &["--clusters"]] {
        let told = json("free", &image, more);
        let regions = told.at("regions").list();
        assert_eq!(regions.len(), 16_385);
        // A byte, 0xd9 bytes, 16,382 single bytes and three.
        assert_eq!(told.at("free").number(), 1 + 0xD9 + 16_382 + 3);
        let place = |i: usize| (regions[i].at("offset").number(), regions[i].at("size").number());
        assert_eq!([place(0), place(1)], [(0x3_0442, 1), (0x3_0527, 0xD9)]);
        assert_eq!([place(2), place(16_384)], [(0x3_0601, 1), (0x3_85FD, 3)]);
    }
    assert!(done("list", &image, &[]) == Table::of(&image).listing());
}

// Edits -----------------------------------------------------------------------------------

#[test]
fn no_file_is_moved_or_grown_into_it() {
    let temp = Temp::new();
    let image = behind(&temp);
    let program = span(&image, 0x18_0000, DOL_SIZE as u64);
    let kept = |image: &Path| span(image, 0x18_0000, DOL_SIZE as u64) == program;
    // opening.bnr has 0x1960 bytes: inside, around its ends, and a byte over each.
    for place in ["0x181000", "0x180000", "0x1abfff", "0x17e6a1", "0x1aa6a0"] {
        refused(&image, &["move", "opening.bnr", place], 21);
    }
    // The film grows up to it; a byte more has no place.
    assert_eq!(json("find", &image, &["movie/intro.thp"]).at("largest_size").number(), 0x8_0000);
    refused(&image, &["resize", "movie/intro.thp", "0x80001"], 21);
    done("resize", &image, &["movie/intro.thp", "0x80000"]);
    assert!(kept(&image));
    refused(&image, &["resize", "movie/intro.thp", "0x80001"], 21);
    done("resize", &image, &["movie/intro.thp", "0x45678"]);
    // Right before it, and right behind it.
    done("move", &image, &["opening.bnr", "0x17e6a0"]);
    done("move", &image, &["audio/theme.adp", "0x1ac000"]);
    assert!(kept(&image));
    assert_eq!(done("list", &image, &[]), Table::of(&image).listing());
}

/// The rests behind a multiple of 0x8000: 0x50000 from 0xb0000 on, 0x38000 between film and program,
/// 0x50000 from 0x1b0000 on; the last of the largest is taken.
#[test]
fn a_place_is_found_beside_it() {
    let temp = Temp::new();
    let image = behind(&temp);
    let place = json("place", &image, &["64K"]);
    assert_eq!((place.at("offset").number(), place.at("room").number()), (0x1B_0000, 0x5_0000));
    assert_eq!(on("place", &image, &["0x50001"]).status, 21);
    // se001.dsp lies right behind it, so that it has to go elsewhere to grow.
    let bytes = span(&image, 0x9_0000, 0x400);
    let program = span(&image, 0x18_0000, DOL_SIZE as u64);
    let out = done("resize", &image, &["audio/se/se000.dsp", "0x401"]);
    assert!(out.contains("0x90000 -> 0x1b0000"), "{out}");
    assert_eq!(span(&image, 0x1B_0000, 0x400), bytes);
    let out = done("move", &image, &["audio/se/se001.dsp", "auto"]);
    assert!(out.contains("0x90400 -> 0xb0000"), "{out}");
    assert!(span(&image, 0x18_0000, DOL_SIZE as u64) == program);
}

#[test]
fn the_table_does_not_grow_into_it() {
    let temp = Temp::new();
    let mut bytes = filled_master();
    // `a` makes room; the table ends at 0x45a, and the program begins there.
    bytes.copy_within(0x500..0x600, 0x600);
    put(&mut bytes, 0x450, 0x600);
    put_program(&mut bytes, 0x45A, 0, 0);
    let image = temp.write("abuts.iso", &bytes);
    for args in [&["add", "b"][..], &["mkdir", "b"], &["mkdir", "b/c"]] {
        refused(&image, args, 21);
    }
    // A table of the same size is written.
    done("rewrite", &image, &[]);
    assert!(fs::read(&image).unwrap() == bytes);
    done("move", &image, &["a", "0x700"]);
    assert_eq!(span(&image, 0x45A, 0xE4), &bytes[0x45A..0x53E]);

    // Room for one entry with a name of one byte, and no more.
    let mut bytes = filled_master();
    put(&mut bytes, 0x450, 0x600);
    put_program(&mut bytes, 0x468, 0, 0);
    let image = temp.write("near.iso", &bytes);
    refused(&image, &["add", "bb"], 21);
    done("add", &image, &["b"]);
    assert_eq!(Table::of(&image).table_end, 0x468);
    assert_eq!(span(&image, 0x468, 0xE4), &bytes[0x468..0x54C]);
    refused(&image, &["add", "c"], 21);
}

/// Names that share a text are written by themselves, so that the table grows with every edit.
#[test]
fn a_rewritten_table_does_not_grow_into_it() {
    let temp = Temp::new();
    let mut bytes = small_master();
    let table = [0x0100_0000u32, 0, 3, 0, 0x800, 0x10, 0, 0x900, 0x10];
    for (i, word) in table.into_iter().enumerate() {
        put(&mut bytes, 0x440 + 4 * i, word);
    }
    bytes[0x464..0x466].copy_from_slice(b"a\0");
    put(&mut bytes, 0x428, 0x26);
    pattern(&mut bytes[0x800..0x810], 1);
    // The table ends at 0x466, and two bytes further when it is written.
    for (at, number) in [(0x466, 21), (0x467, 21), (0x468, 0)] {
        let mut bytes = bytes.clone();
        put_program(&mut bytes, at, 0, 0);
        let image = temp.write("shared.iso", &bytes);
        for args in [&["rewrite"][..], &["move", "a", "0x700"], &["resize", "a", "8"]] {
            match number {
                0 => drop(done(args[0], &image, &[&args[1..], &["--dry-run"]].concat())),
                _ => refused(&image, args, number),
            }
        }
        if number == 0 {
            done("move", &image, &["a", "0x700"]);
            assert_eq!(span(&image, 0x468, 0xE4), &bytes[0x468..0x54C]);
        }
    }
}

// What does not open ----------------------------------------------------------------------

/// The small master with `a` at 0x800 and its table at `fst`; the image goes on behind the disc end,
/// 0x2000, up to 0x2100.
fn roomy(fst: usize) -> Vec<u8> {
    let mut bytes = small_master();
    bytes.resize(0x2100, 0);
    let table = bytes[0x440..0x45A].to_vec();
    bytes[0x440..0x45A].fill(0);
    bytes[fst..fst + 0x1A].copy_from_slice(&table);
    put(&mut bytes, 0x424, fst as u32);
    put(&mut bytes, fst + 0x10, 0x800);
    bytes
}

/// The same with a program at `at` that has one section, of `size` bytes. All else there is zero.
fn with(fst: usize, at: usize, size: u32) -> Vec<u8> {
    let mut bytes = roomy(fst);
    put(&mut bytes, 0x420, at as u32);
    put(&mut bytes, at + 0x90, size);
    bytes
}

/// Wants this number with these words, from every kind of command, and the file left as it was.
fn does_not_open(temp: &Temp, bytes: &[u8], number: i32, words: &str) {
    let image = temp.write("spoiled.iso", bytes);
    let before = State::of(&image);
    let run = on("check", &image, &[]);
    assert_eq!(run.status, number, "{words}: {}", run.err);
    assert!(run.err.contains(&format!("refused {number}: ")), "{words}: {}", run.err);
    assert!(run.err.contains(words), "{words}: {}", run.err);
    let listed = on("list", &image, &[]);
    assert_eq!((listed.status, listed.out), (number, format!("refused {number}\n")));
    for args in [&["info"][..], &["free", "--clusters"], &["tree", "--json"], &["dol"]] {
        assert_eq!(on(args[0], &image, &args[1..]).status, number, "{words}: {args:?}");
    }
    for args in [&["move", "a", "0xa00"][..], &["resize", "a", "1"], &["add", "b"], &["rewrite"]] {
        assert_eq!(on(args[0], &image, &args[1..]).status, number, "{words}: {args:?}");
    }
    assert_eq!(State::of(&image), before, "{words}");
}

/// Wants the image to open, with this used total.
fn opens(temp: &Temp, bytes: &[u8], used: u64) {
    let image = temp.write("sound.iso", bytes);
    assert_eq!(json("check", &image, &[]).at("used").number(), used);
    assert_eq!(done("list", &image, &[]), Table::of(&image).listing());
}

#[test]
fn a_program_that_overlaps_something_by_a_byte_is_14() {
    let temp = Temp::new();
    // Behind the table: up to the file, from its end on, from the table's end on, up to the disc end.
    let used = 0x45A + 0x100 + 0xE4;
    for at in [0x71C, 0x900, 0x45A, 0x1F1C] {
        opens(&temp, &with(0x440, at, 0), used);
    }
    let wrong = [
        (0x71D, "(the program 0x71d to 0x801 and entry 1 \"a\" 0x800 to 0x900)"),
        (0x8FF, "(entry 1 \"a\" 0x800 to 0x900 and the program 0x8ff to 0x9e3)"),
        (0x80F, "(entry 1 \"a\" 0x800 to 0x900 and the program 0x80f to 0x8f3)"),
        (0x1F1D, "(the program 0x1f1d to 0x2001, the disc ends at 0x2000)"),
        // Its header is in the image, and behind the disc.
        (0x2000, "(the program 0x2000 to 0x20e4, the disc ends at 0x2000)"),
        (0x201C, "(the program 0x201c to 0x2100, the disc ends at 0x2000)"),
    ];
    for (at, words) in wrong {
        does_not_open(&temp, &with(0x440, at, 0), 14, words);
    }
    // As long as its section says.
    opens(&temp, &with(0x440, 0x700, 0x100), 0x45A + 0x100 + 0x100);
    let words = "the program 0x700 to 0x801 and entry 1 \"a\" 0x800 to 0x900";
    does_not_open(&temp, &with(0x440, 0x700, 0x101), 14, words);
    opens(&temp, &with(0x440, 0x900, 0x1700), 0x45A + 0x100 + 0x1700);
    let words = "the program 0x900 to 0x2001, the disc ends at 0x2000";
    does_not_open(&temp, &with(0x440, 0x900, 0x1701), 14, words);

    // Between header and table, which is at 0x600 to 0x61a: all of it, its start, its end.
    for (at, size) in [(0x440, 0x1C0), (0x440, 0), (0x51C, 0)] {
        opens(&temp, &with(0x600, at, size), 0x61A + 0x100);
    }
    let wrong = [
        (0x43F, 0, "(the header 0x0 to 0x440 and the program 0x43f to 0x523)"),
        (0x440, 0x1C1, "(the table 0x600 to 0x61a and the program 0x440 to 0x601)"),
        (0x51D, 0, "(the table 0x600 to 0x61a and the program 0x51d to 0x601)"),
        (0x440, 0x300, "(the table 0x600 to 0x61a and the program 0x440 to 0x740)"),
    ];
    for (at, size, words) in wrong {
        does_not_open(&temp, &with(0x600, at, size), 14, words);
    }
    // Over the table's end. With the name before it, the bytes say that a text lies at 0x61000000.
    let wrong = [
        (0x459, "(the table 0x440 to 0x45a and the program 0x459 to 0x53d)"),
        (0x458, "(the program 0x458 to 0x61000458, the disc ends at 0x2000)"),
        (0x440, "(the program 0x440 to 0x61000440, the disc ends at 0x2000)"),
    ];
    for (at, words) in wrong {
        does_not_open(&temp, &with(0x440, at, 0), 14, words);
    }
}

#[test]
fn a_header_past_the_image_or_a_sum_of_2_to_the_32_is_24() {
    let temp = Temp::new();
    // The image ends at 0x2000.
    for at in [0x1F1Du32, 0x1FFF, 0x2000, 0xFFFF_FFFF] {
        let mut bytes = filled_master();
        put(&mut bytes, 0x420, at);
        let end = u64::from(at) + 0xE4;
        let words = format!("(the program's header {at:#x} to {end:#x}, the file has 8192 bytes)");
        does_not_open(&temp, &bytes, 24, &words);
    }
    // The first text and the last data; 2^32 - 1 is a length, and passes the disc end.
    for (name, i) in [("text0", 0), ("text6", 6), ("data0", 7), ("data10", 17)] {
        let mut bytes = filled_master();
        put_program(&mut bytes, 0x1000, 0, 0);
        put(&mut bytes, 0x1000 + 4 * i, 0xFFFF_FFFF);
        let words = "(the program 0x1000 to 0x100000fff, the disc ends at 0x2000)";
        does_not_open(&temp, &bytes, 14, words);
        put(&mut bytes, 0x1090 + 4 * i, 1);
        let words = format!("(the program at 0x1000: {name} has offset 0xffffffff and size 0x1)");
        does_not_open(&temp, &bytes, 24, &words);
    }
    // An offset of 0 names no program: the image opens, whatever stands at 0; `dol` reads it.
    let mut bytes = filled_master();
    put(&mut bytes, 0, 0xFFFF_FFFF);
    put(&mut bytes, 0x90, 1);
    let image = temp.write("none.iso", &bytes);
    assert_eq!(json("check", &image, &[]).at("used").number(), 1370);
    let run = on("dol", &image, &[]);
    assert_eq!(run.status, 24);
    assert!(run.err.contains("(the program at 0x0: text0 has offset"), "{}", run.err);
}

#[test]
fn the_walk_comes_before_24_and_24_before_14() {
    let temp = Temp::new();
    let past = |bytes: &mut Vec<u8>| put(bytes, 0x420, 0x1F1D);
    let sum = |bytes: &mut Vec<u8>| put_program(bytes, 0x1000, 0xFFFF_FFFF, 1);
    type Spoil<'a> = &'a dyn Fn(&mut Vec<u8>);
    for program in [&past as Spoil, &sum] {
        let walk: [(i32, &str, Spoil); 6] = [
            (10, "entry 1 has next 1", &|b| {
                b[0x44C] = 1;
                put(b, 0x454, 1)
            }),
            (11, "entry 1 has name offset 2", &|b| put(b, 0x44C, 2)),
            (12, "entry 1 is called", &|b| b[0x458] = 0x80),
            (13, "entry 1 is called \":\"", &|b| b[0x458] = b':'),
            // 24 before 14: `a` over the table's end, and past the disc end.
            (24, "the program", &|b| put(b, 0x450, 0x459)),
            (24, "the program", &|b| put(b, 0x450, 0x1F01)),
        ];
        for (number, words, spoil) in walk {
            let mut bytes = filled_master();
            program(&mut bytes);
            spoil(&mut bytes);
            does_not_open(&temp, &bytes, number, words);
        }
    }
}

#[test]
fn an_option_to_write_over_it_is_gone() {
    let temp = Temp::new();
    let image = small(&temp);
    let before = State::of(&image);
    let run = on("move", &image, &["a", "0x1000", "--over-program"]);
    assert_eq!((run.status, run.out.as_str()), (64, ""));
    assert!(run.err.contains("move has no option --over-program"), "{}", run.err);
    assert_eq!(State::of(&image), before);
    for page in ["move", "man", "bash", "zsh", "fish", "safety"] {
        assert!(!support::run(&["help", page]).out.contains("over-program"), "{page}");
    }
}
