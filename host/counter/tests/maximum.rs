//! The maximum that the header states for the table at 0x42c: what `info` and `check` tell of it, and edits that
//! would write a larger table, which are refused (26). The sizes that are wanted are worked out by hand: 12 bytes
//! for the root, and 13 and its name for each further entry. None is libcounter's.

mod support;

use std::fs;
use std::path::{Path, PathBuf};
use support::*;

const FIELD: usize = 0x42C;

/// What is said where 26 is.
const MORE: &str = "if the publisher allows it, `counter maximum IMAGE N` states more, or 0 for no maximum, and the \
                    line `header: FST maximum` of LIST gives leave for it";

/// The small master, whose table has 26 bytes, with `a` filled and this maximum.
fn stated(temp: &Temp, maximum: u32) -> PathBuf {
    let mut bytes = filled_master();
    put(&mut bytes, FIELD, maximum);
    temp.write("stated.iso", &bytes)
}

/// The same with 6 bytes behind the names that no name uses: 32 bytes, written anew 26.
fn slack(temp: &Temp, maximum: u32) -> PathBuf {
    let mut bytes = filled_master();
    put(&mut bytes, 0x428, 0x20);
    put(&mut bytes, FIELD, maximum);
    temp.write("slack.iso", &bytes)
}

/// Files `ba` and `a` share a text: 39 bytes, written anew 41. The table ends at 0x467, written anew at 0x469.
fn shared(temp: &Temp, maximum: u32) -> PathBuf {
    let mut bytes = small_master();
    let table = [0x0100_0000u32, 0, 3, 0, 0x500, 0x10, 1, 0x700, 0x10];
    for (i, word) in table.into_iter().enumerate() {
        put(&mut bytes, 0x440 + 4 * i, word);
    }
    bytes[0x464..0x467].copy_from_slice(b"ba\0");
    put(&mut bytes, 0x428, 39);
    put(&mut bytes, FIELD, maximum);
    pattern(&mut bytes[0x700..0x710], 9);
    temp.write("shared.iso", &bytes)
}

/// `a`, `b/` and `b/a`, two of which share a text: 52 bytes, written anew 54.
fn nested(temp: &Temp, maximum: u32) -> PathBuf {
    let mut bytes = small_master();
    let table =
        [0x0100_0000u32, 0, 4, 0, 0x500, 0x10, 0x0100_0002, 0, 4, 0, 0x700, 0x10, 0x6100_6200];
    for (i, word) in table.into_iter().enumerate() {
        put(&mut bytes, 0x440 + 4 * i, word);
    }
    put(&mut bytes, 0x428, 52);
    put(&mut bytes, FIELD, maximum);
    temp.write("nested.iso", &bytes)
}

// Looking -----------------------------------------------------------------------------------

/// Lines of `info` about the table; in JSON what is left, by how much the table is above, its size rewritten and by
/// how much that is; and the note of `check`.
type Told = (&'static [&'static str], Option<u64>, u64, Option<(u64, u64)>, &'static str);

fn told(image: &Path, maximum: u32, wanted: Told) {
    let before = State::of(image);
    let (lines, left, above, rewritten, note) = wanted;
    let text = done("info", image, &[]);
    let tables: Vec<&str> = text.lines().filter(|line| line.starts_with("table")).collect();
    assert_eq!(tables, lines);
    assert!(text.contains(&format!("\nFST maximum       {maximum:#x}\n")), "{text}");
    let size = u64::from(get(&fs::read(image).unwrap(), 0x428));
    for command in ["info", "check"] {
        let json = json(command, image, &[]);
        let number = |number: Option<u64>| number.map_or(Json::Null, |n| Json::Number(n as f64));
        for (name, value) in [
            ("fst_size", Some(size)),
            ("fst_maximum", Some(maximum.into())),
            ("fst_left", left),
            ("fst_above", Some(above)),
            ("fst_rewritten", rewritten.map(|(size, _)| size)),
            ("fst_rewritten_above", rewritten.map(|(_, above)| above)),
        ] {
            assert_eq!(*json.at(name), number(value), "{command} {name}");
        }
    }
    // It opens in any case.
    let text = done("check", image, &[]);
    let (first, rest) = text.split_once('\n').unwrap();
    assert!(first.contains(": opens: "), "{text}");
    assert_eq!(of_the_maximum(rest), note);
    assert!(json("check", image, &[]).at("opens").flag());
    assert_eq!(State::of(image), before);
}

#[test]
fn info_and_check_tell_of_the_maximum() {
    let temp = Temp::new();
    let none: &[&str] = &["table             0x1a (26 bytes), no maximum stated"];
    told(&stated(&temp, 0), 0, (none, None, 0, None, ""));
    let cases: [(u32, &[&str], u64, u64, &str); 5] = [
        (0x20, &["table             0x1a (26 bytes), 6 bytes left of the maximum of 32"], 6, 0, ""),
        (0x1B, &["table             0x1a (26 bytes), 1 byte left of the maximum of 27"], 1, 0, ""),
        (0x1A, &["table             0x1a (26 bytes), 0 bytes left of the maximum of 26"], 0, 0, ""),
        (
            0x19,
            &["table             0x1a (26 bytes), 1 byte above the maximum of 25"],
            0,
            1,
            "note: the table has 26 bytes, 1 above the maximum of 25 that the header states; every edit that \
             writes a table is refused\n",
        ),
        (
            1,
            &["table             0x1a (26 bytes), 25 bytes above the maximum of 1"],
            0,
            25,
            "note: the table has 26 bytes, 25 above the maximum of 1 that the header states; every edit that \
             writes a table is refused\n",
        ),
    ];
    for (maximum, lines, left, above, note) in cases {
        let image = stated(&temp, maximum);
        // Written anew the table is the same.
        told(&image, maximum, (lines, Some(left), above, Some((26, above)), note));
    }
    let lines: &[&str] = &[
        "table             0x1a (26 bytes), 4,294,967,269 bytes left of the maximum of 4,294,967,295",
    ];
    told(&stated(&temp, u32::MAX), u32::MAX, (lines, Some(4_294_967_269), 0, Some((26, 0)), ""));
}

/// An edit writes another size than the table has now: that is told too.
#[test]
fn the_size_that_an_edit_writes_is_told() {
    let temp = Temp::new();
    let lines: &[&str] = &[
        "table             0x20 (32 bytes), 6 bytes above the maximum of 26",
        "table, rewritten  0x1a (26 bytes), 0 bytes left of the maximum of 26",
    ];
    let note = "note: the table has 32 bytes, 6 above the maximum of 26 that the header states; a rewrite brings \
                it down to 26\n";
    told(&slack(&temp, 26), 26, (lines, Some(0), 6, Some((26, 0)), note));
    let lines: &[&str] = &[
        "table             0x20 (32 bytes), 7 bytes above the maximum of 25",
        "table, rewritten  0x1a (26 bytes), 1 byte above the maximum of 25",
    ];
    let note = "note: the table has 32 bytes, 7 above the maximum of 25 that the header states; rewritten it would \
                have 26, 1 above; every edit that writes a table is refused\n";
    told(&slack(&temp, 25), 25, (lines, Some(0), 7, Some((26, 1)), note));
    let lines: &[&str] = &[
        "table             0x20 (32 bytes), 8 bytes left of the maximum of 40",
        "table, rewritten  0x1a (26 bytes), 14 bytes left of the maximum of 40",
    ];
    told(&slack(&temp, 40), 40, (lines, Some(8), 0, Some((26, 0)), ""));
    let lines: &[&str] = &[
        "table             0x27 (39 bytes), 1 byte left of the maximum of 40",
        "table, rewritten  0x29 (41 bytes), 1 byte above the maximum of 40",
    ];
    let note = "note: the table, rewritten with no name shared, has 41 bytes, 1 above the maximum of 40 that the \
                header states; every edit that writes a table is refused\n";
    told(&shared(&temp, 40), 40, (lines, Some(1), 0, Some((41, 1)), note));
    // Without a maximum it does not matter.
    let none: &[&str] = &["table             0x27 (39 bytes), no maximum stated"];
    told(&shared(&temp, 0), 0, (none, None, 0, None, ""));
}

/// A publisher who states what `check` tells is not refused: the size that an edit writes is told, and by how much
/// it is above.
#[test]
fn the_size_that_has_to_be_stated_is_told() {
    let temp = Temp::new();
    let lines: &[&str] = &[
        "table             0x34 (52 bytes), 22 bytes above the maximum of 30",
        "table, rewritten  0x36 (54 bytes), 24 bytes above the maximum of 30",
    ];
    let note = "note: the table has 52 bytes, 22 above the maximum of 30 that the header states; rewritten it would \
                have 54, 24 above; every edit that writes a table is refused\n";
    told(&nested(&temp, 30), 30, (lines, Some(0), 22, Some((54, 24)), note));
    let lines: &[&str] = &[
        "table             0x34 (52 bytes), 0 bytes left of the maximum of 52",
        "table, rewritten  0x36 (54 bytes), 2 bytes above the maximum of 52",
    ];
    let note = "note: the table, rewritten with no name shared, has 54 bytes, 2 above the maximum of 52 that the \
                header states; every edit that writes a table is refused\n";
    told(&nested(&temp, 52), 52, (lines, Some(0), 0, Some((54, 2)), note));
    for maximum in [30, 52, 53] {
        above(&temp, &nested(&temp, maximum), &["rewrite"], 54, ", with no name shared,");
    }
    let lines: &[&str] = &[
        "table             0x34 (52 bytes), 2 bytes left of the maximum of 54",
        "table, rewritten  0x36 (54 bytes), 0 bytes left of the maximum of 54",
    ];
    let image = nested(&temp, 54);
    told(&image, 54, (lines, Some(2), 0, Some((54, 0)), ""));
    accepted(&image, &["rewrite"]);
    let lines: &[&str] = &["table             0x36 (54 bytes), 0 bytes left of the maximum of 54"];
    told(&image, 54, (lines, Some(0), 0, Some((54, 0)), ""));
}

// Refusals ----------------------------------------------------------------------------------

/// Runs an edit that would write a table of `after` bytes, dry and real, with a record, without one and where
/// there is none yet, in words and as JSON: each is refused with 26, and nothing is written.
fn above(temp: &Temp, image: &Path, args: &[&str], after: u64, more: &str) {
    let (before, bytes) = (State::of(image), fs::read(image).unwrap());
    let (table, maximum) = (u64::from(get(&bytes, 0x428)), u64::from(get(&bytes, FIELD)));
    let bytes_above = after - maximum;
    let record = Table::of(image).record_file(5);
    let kept = temp.write("kept.totals", record.as_bytes());
    let new = temp.at("new.totals");
    let (kept_name, new_name) = (kept.to_str().unwrap(), new.to_str().unwrap());
    for rest in [
        &[][..],
        &["--dry-run"],
        &["--record", kept_name],
        &["--record", kept_name, "--dry-run"],
        &["--record", new_name],
    ] {
        let rest = [&args[1..], rest].concat();
        let run = on(args[0], image, &rest);
        let words = format!(
            "refused 26: new table above the maximum (the new table{more} has {} bytes, {} above the maximum of {} \
             that the header states at 0x42c; ",
            grouped(after),
            grouped(bytes_above),
            grouped(maximum)
        );
        assert_eq!((run.status, run.out.as_str()), (26, ""), "{rest:?}: {}", run.err);
        assert!(run.err.contains(&words), "{rest:?}: {}", run.err);
        assert_eq!(run.err.lines().count(), 1, "{}", run.err);
        let run = on(args[0], image, &[&rest[..], &["--json"]].concat());
        let told = Json::read(&run.out);
        assert_eq!((run.status, told.at("status").number()), (26, 26), "{rest:?}");
        assert_eq!(told.at("refused").number(), 26);
        assert_eq!(told.at("cause").text(), "new table above the maximum");
        let numbers =
            ["before", "after", "maximum", "above"].map(|name| told.at("table").at(name).number());
        assert_eq!(numbers, [table, after, maximum, bytes_above], "{rest:?}");
        assert!(
            run.err.contains(&words) && told.at("detail").text().contains(" above the maximum")
        );
        // Nothing was written, nor is anything left.
        assert_eq!(State::of(image), before, "{rest:?}");
        assert!(fs::read(image).unwrap() == bytes, "{rest:?}");
        assert!(!journal_of(image).exists(), "{rest:?}");
        assert_eq!(fs::read_to_string(&kept).unwrap(), record, "{rest:?}");
        assert!(!new.exists(), "{rest:?}");
    }
}

/// 25: a byte less than the table has, so that every edit that writes one is refused.
#[test]
fn a_table_above_its_maximum_is_not_written() {
    let temp = Temp::new();
    let clip = temp.write("clip", &clip(300, 1));
    let clip = clip.to_str().unwrap();
    let image = stated(&temp, 25);
    let edits: [(&[&str], u64); 10] = [
        (&["rewrite"], 26),
        (&["mkdir", "."], 26),
        (&["mkdir", "/"], 26),
        (&["move", "a", "0x600"], 26),
        (&["resize", "a", "255"], 26),
        (&["resize", "a", "0x1B00"], 26),
        (&["resize", "a", "0"], 26),
        (&["fill", "a", clip], 26),
        (&["add", "b"], 40),
        (&["mkdir", "b"], 40),
    ];
    for (args, after) in edits {
        above(&temp, &image, args, after, "");
        let run = on(args[0], &image, &args[1..]);
        assert!(
            run.err.ends_with(&format!("; so is every table that an edit would write; {MORE})\n")),
            "{}",
            run.err
        );
    }
    // The present size writes no table.
    let before = State::of(&image);
    let same = temp.write("same", &span(&image, 0x500, 0x100));
    accepted(&image, &["resize", "a", "256"]);
    accepted(&image, &["fill", "a", same.to_str().unwrap()]);
    assert_eq!(State::of(&image), before);
    let other = temp.write("other", &[7; 0x100]);
    accepted(&image, &["fill", "a", other.to_str().unwrap()]);
    let mut wanted = filled_master();
    put(&mut wanted, FIELD, 25);
    wanted[0x500..0x600].fill(7);
    assert!(fs::read(&image).unwrap() == wanted);
}

#[test]
fn what_is_added_is_counted() {
    let temp = Temp::new();
    let image = stated(&temp, 26);
    let edits: [(&[&str], u64); 9] = [
        (&["add", "b"], 26 + 14),
        (&["add", "bb"], 26 + 15),
        (&["add", "/a name with blanks"], 26 + 31),
        (&["mkdir", "b"], 26 + 14),
        (&["mkdir", "d/e"], 26 + 14 + 14),
        (&["mkdir", "/text/fr/lines/"], 26 + 17 + 15 + 18),
        // Found again, left again.
        (&["mkdir", "n/../n"], 26 + 14),
        (&["mkdir", "n/../m\\."], 26 + 14 + 14),
        // Six bytes in Shift-JIS.
        (&["add", "表.bin"], 26 + 19),
    ];
    for (args, after) in edits {
        above(&temp, &image, args, after, "");
        let run = on(args[0], &image, &args[1..]);
        assert!(run.err.ends_with(&format!("; no further entry fits; {MORE})\n")), "{}", run.err);
    }
    for args in [
        &["rewrite"][..],
        &["mkdir", "."],
        &["move", "a", "0x600"],
        &["resize", "a", "0x1000"],
        &["resize", "a", "16"],
    ] {
        accepted(&image, args);
        assert_eq!(get(&fs::read(&image).unwrap(), FIELD), 26);
    }
    // A byte less than the edit wants, and as many.
    for (args, after) in edits {
        above(&temp, &stated(&temp, after as u32 - 1), args, after, "");
        let image = stated(&temp, after as u32);
        accepted(&image, args);
        let bytes = fs::read(&image).unwrap();
        assert_eq!((get(&bytes, 0x428), get(&bytes, FIELD)), (after as u32, after as u32));
        // 0 is the old rule.
        accepted(&stated(&temp, 0), args);
    }
}

/// An entry takes 14 bytes at least: 12, one of a name and a zero byte.
#[test]
fn room_is_told_where_an_entry_fits() {
    let temp = Temp::new();
    let long = "n".repeat(2000);
    for (maximum, words) in [
        (26, "no further entry fits"),
        (27, "no further entry fits"),
        (39, "no further entry fits"),
        (40, "there is room for 14 bytes of new entries, 13 and the name's each"),
        (41, "there is room for 15 bytes of new entries, 13 and the name's each"),
        (1_026, "there is room for 1,000 bytes of new entries, 13 and the name's each"),
    ] {
        let image = stated(&temp, maximum);
        let run = on("add", &image, &[&long]);
        let wanted = format!("; {words}; {MORE})\n");
        assert!(run.status == 26 && run.err.ends_with(&wanted), "{maximum}: {}", run.err);
        // And it is so.
        let short = on("mkdir", &image, &["b"]);
        assert_eq!(short.status, if maximum < 40 { 26 } else { 0 }, "{maximum}: {}", short.err);
        assert!(maximum >= 40 || short.err.ends_with(&wanted), "{maximum}: {}", short.err);
    }
    // What shared texts take when they are written apart is no room: 41 bytes, and 55.
    for (maximum, words) in [
        (41, "no further entry fits"),
        (54, "no further entry fits"),
        (55, "there is room for 14 bytes of new entries, "),
    ] {
        let run = on("add", &shared(&temp, maximum), &["cc"]);
        assert!(run.status == 26 && run.err.contains(&format!("; {words}")), "{}", run.err);
    }
}

/// Where 21 would follow, 26 comes first, with its size.
#[test]
fn a_table_without_room_is_measured_too() {
    let temp = Temp::new();
    let mut bytes = filled_master();
    // `a` lies right behind the table.
    put(&mut bytes, 0x450, 0x45A);
    for (maximum, number) in [(26, 26), (39, 26), (40, 21), (0, 21)] {
        put(&mut bytes, FIELD, maximum);
        let image = temp.write("tight.iso", &bytes);
        for args in [["add", "b"], ["mkdir", "b"]] {
            refused(&image, &args, number);
            if number == 26 {
                above(&temp, &image, &args, 40, "");
            }
        }
    }
    // The edit's own 20 and 21, and too deep a path, come before it.
    let image = stated(&temp, 25);
    refused(&image, &["move", "a", "0x580"], 20);
    refused(&image, &["move", "a", "0x400"], 21);
    refused(&image, &["move", "a", "auto"], 21);
    refused(&image, &["resize", "a", "0x1B01"], 21);
    refused(&image, &["add", "a"], 19);
    refused(&image, &["mkdir", &"x/".repeat(65)], 9);
    above(&temp, &image, &["mkdir", &"x/".repeat(64)], 26 + 64 * 14, "");
}

/// Two files share one name of 1 MiB, the most that a table may hold: rewritten it would have too many bytes of
/// names, and 9 comes first.
#[test]
fn a_limit_comes_before_the_maximum() {
    let temp = Temp::new();
    let mut bytes = small_master();
    bytes.resize(0x40_0000, 0);
    put(&mut bytes, 0x434, 0x40_0000);
    let table = [0x0100_0000u32, 0, 3, 0, 0, 0, 0, 0, 0];
    for (i, word) in table.into_iter().enumerate() {
        put(&mut bytes, 0x440 + 4 * i, word);
    }
    bytes[0x464..0x464 + 0xF_FFFF].fill(b'n');
    put(&mut bytes, 0x428, 36 + 0x10_0000);
    let above = "note: the table has 1,048,612 bytes, 1,048,611 above the maximum of 1 that the header states\n";
    for (maximum, note) in [(1, above), (1_048_612, "")] {
        put(&mut bytes, FIELD, maximum);
        let image = temp.write("long.iso", &bytes);
        refused(&image, &["rewrite"], 9);
        refused(&image, &["add", "b"], 9);
        let text = done("check", &image, &[]);
        let rest = text.split_once('\n').unwrap().1;
        assert_eq!(of_the_maximum(rest), note);
        assert!(rest.contains("every edit that writes the table, is refused 9 ("), "{rest}");
        let told = json("info", &image, &[]);
        assert_eq!(told.at("fst_rewritten"), &Json::Null);
    }
}

/// The notes of `check`, but for those of the table as it is stored.
fn of_the_maximum(notes: &str) -> String {
    const OTHERS: [&str; 4] = ["would alter ", "would write ", "table's texts", "is refused 9"];
    let other = |line: &&str| OTHERS.iter().any(|words| line.contains(words));
    notes.split_inclusive('\n').filter(|line| !other(line)).collect()
}

/// Names share a text: written anew the table has 41 bytes.
#[test]
fn names_that_share_a_text_are_counted_apart() {
    let temp = Temp::new();
    let more = ", with no name shared,";
    let clip = temp.write("clip", b"seven b");
    let clip = clip.to_str().unwrap();
    for maximum in [39, 40] {
        let image = shared(&temp, maximum);
        let edits: [(&[&str], u64); 8] = [
            (&["rewrite"], 41),
            (&["mkdir", "."], 41),
            (&["move", "a", "0x600"], 41),
            // 21 would follow: the new table reaches there.
            (&["move", "a", "0x467"], 41),
            (&["resize", "ba", "15"], 41),
            (&["fill", "a", clip], 41),
            (&["add", "c"], 55),
            (&["mkdir", "c/d"], 69),
        ];
        for (args, after) in edits {
            above(&temp, &image, args, after, more);
        }
        accepted(&image, &["resize", "a", "16"]);
    }
    let image = shared(&temp, 41);
    refused(&image, &["move", "a", "0x467"], 21);
    above(&temp, &image, &["add", "c"], 55, more);
    accepted(&image, &["move", "a", "0x469"]);
    assert_eq!(Table::of(&image).table_end, 0x469);
    assert_eq!(get(&fs::read(&image).unwrap(), FIELD), 41);
    above(&temp, &image, &["add", "c"], 55, "");
}

/// A table above its maximum is edited down to it.
#[test]
fn bytes_that_no_name_uses_are_given_back() {
    let temp = Temp::new();
    let edits: [&[&str]; 4] =
        [&["rewrite"], &["mkdir", "."], &["move", "a", "0x600"], &["resize", "a", "300"]];
    for args in edits {
        let image = slack(&temp, 26);
        let out = accepted(&image, args);
        assert!(out.contains("\ntable: 32 -> 26 bytes\n"), "{args:?}: {out}");
        let bytes = fs::read(&image).unwrap();
        assert_eq!((get(&bytes, 0x428), get(&bytes, FIELD)), (26, 26));
        assert!(!done("check", &image, &[]).contains("note:"));
        above(&temp, &slack(&temp, 25), args, 26, "");
        above(&temp, &slack(&temp, 31), &["add", "b"], 40, "");
    }
    let image = slack(&temp, 26);
    accepted(&image, &["resize", "a", "256"]);
    assert_eq!(get(&fs::read(&image).unwrap(), 0x428), 32);
}

/// 4,001 entries, and names of up to 100 bytes.
#[test]
fn a_large_table_is_measured_to_the_byte() {
    let temp = Temp::new();
    let mut after = 12;
    let names = (0..4000u32).map(|i| {
        let name = format!("{i}{}", "n".repeat((i % 97) as usize));
        after += 13 + name.len() as u64;
        file(name, 0, 0)
    });
    let entries: Vec<Wish> = names.collect();
    let path = temp.at("large.iso");
    sparse(&path, &entries, 0x40_0000);
    let mut bytes = fs::read(&path).unwrap();
    assert_eq!(u64::from(get(&bytes, 0x428)), after);
    for (maximum, number) in [(after, 0), (after - 1, 26), (0x8000, 26), (1, 26)] {
        put(&mut bytes, FIELD, maximum as u32);
        let image = temp.write("large.iso", &bytes);
        above(&temp, &image, &["add", "one more"], after + 21, "");
        above(&temp, &image, &["mkdir", "one more/and one"], after + 21 + 20, "");
        match number {
            0 => done("rewrite", &image, &[]),
            _ => {
                above(&temp, &image, &["rewrite"], after, "");
                String::new()
            }
        };
    }
}

/// A maximum is kept through a list of edits, and each table stays below it.
#[test]
fn a_list_of_edits_stays_below_the_maximum() {
    let temp = Temp::new();
    let image = usual_master(&temp);
    let size = |image: &Path| u64::from(get(&span(image, 0x428, 4), 0));
    let maximum = size(&image) + 100;
    let mut bytes = fs::read(&image).unwrap();
    put(&mut bytes, FIELD, maximum as u32);
    fs::write(&image, &bytes).unwrap();
    let mut added = 0;
    for i in 0..40 {
        let path = format!("/text/{}", "n".repeat(i % 9 + 1) + &i.to_string());
        let name = path.len() as u64 - 6;
        let edit = if i % 3 == 0 { "mkdir" } else { "add" };
        if added + 13 + name <= 100 {
            added += 13 + name;
            accepted(&image, &[edit, &path]);
        } else {
            above(&temp, &image, &[edit, &path], maximum - 100 + added + 13 + name, "");
        }
        assert_eq!(size(&image), maximum - 100 + added);
        assert_eq!(u64::from(get(&span(&image, 0x42C, 4), 0)), maximum);
    }
    assert_eq!(json("info", &image, &[]).at("fst_left").number(), 100 - added);
    accepted(&image, &["move", "/opening.bnr", "0x190000"]);
    accepted(&image, &["resize", "/text/en/msg.bin", "0"]);
    let lines = temp.write("lines.bin", b"the lines");
    accepted(&image, &["fill", "/text/fr/msg.bin", lines.to_str().unwrap()]);
    assert_eq!(u64::from(get(&span(&image, 0x42C, 4), 0)), maximum);
}

#[test]
fn help_tells_of_the_maximum() {
    let exit = run(&["help", "exit"]).out;
    assert!(exit.contains("\n  26  refused: new table above the maximum\n"), "{exit}");
    for command in ["mkdir", "add", "move", "resize", "fill", "rewrite", "safety"] {
        let help = run(&["help", command]).out;
        assert!(
            help.contains("FST maximum, at 0x42c") && help.contains("is refused (26)"),
            "{help}"
        );
    }
    for command in ["info", "check", "json"] {
        let help = run(&["help", command]).out;
        // Each is in the list of fields, and what it is is told.
        let words: Vec<&str> = help.split_whitespace().collect();
        for name in ["fst_left", "fst_above", "fst_rewritten", "fst_rewritten_above"] {
            let told = words.contains(&name) && words.contains(&format!("{name}:").as_str());
            assert!(told, "{command} {name}: {help}");
        }
        assert!(words.contains(&"fst_maximum"), "{command}: {help}");
    }
    let help = run(&["help", "json"]).out;
    assert!(help.contains("26 also table{before after maximum above}"), "{help}");
}

// Another maximum ---------------------------------------------------------------------------

/// States a maximum, dry and real: the four bytes of the field are all that is written.
fn state(image: &Path, given: &str, stated: u32) -> String {
    let mut wanted = fs::read(image).unwrap();
    put(&mut wanted, FIELD, stated);
    let out = accepted(image, &["maximum", given]);
    assert!(fs::read(image).unwrap() == wanted, "{given}: {out}");
    out
}

#[test]
fn another_maximum_is_stated() {
    let temp = Temp::new();
    let image = stated(&temp, 26);
    above(&temp, &image, &["mkdir", "fr"], 41, "");
    let out = state(&image, "0x28", 40);
    assert_eq!(
        out,
        "FST maximum: 0x1a (26 bytes) -> 0x28 (40 bytes)\n\
         table             0x1a (26 bytes), 14 bytes left of the maximum of 40\n\
         done: written and synced\n"
    );
    above(&temp, &image, &["mkdir", "fr"], 41, "");
    let time = modified(&image);
    let out = state(&image, "40", 40);
    assert!(out.starts_with("FST maximum: 0x28 (40 bytes) already\n"), "{out}");
    assert!(out.ends_with("done: there was nothing to write\n"), "{out}");
    assert_eq!(modified(&image), time);
    state(&image, "41", 41);
    accepted(&image, &["mkdir", "fr"]);
    // 0 states none, and the largest number is one.
    let out = state(&image, "0", 0);
    assert!(out.starts_with("FST maximum: 0x29 (41 bytes) -> 0 (none stated)\n"), "{out}");
    accepted(&image, &["mkdir", "de"]);
    state(&image, "4294967295", u32::MAX);
    let out = state(&image, "64K", 0x1_0000);
    assert!(out.contains(" -> 0x10000 (65,536 bytes, 64 KiB)\n"), "{out}");
}

/// Less than the table has may be stated, and is told.
#[test]
fn a_maximum_below_the_table_is_stated_and_told() {
    let temp = Temp::new();
    let image = stated(&temp, 0);
    let out = state(&image, "25", 25);
    let note = "the table has 26 bytes, 1 above the maximum of 25 that the header states; every edit that writes a \
                table is refused";
    assert!(out.contains(&format!("\nnote: {note}\n")), "{out}");
    above(&temp, &image, &["rewrite"], 26, "");
    let told = json("maximum", &image, &["1", "--dry-run"]);
    assert!(told.at("notes").list()[0].text().contains("25 above the maximum of 1"));
    assert!(!state(&image, "26", 26).contains("note: "));
    // A table whose names share a text is held as an edit writes it.
    let image = shared(&temp, 0);
    let out = state(&image, "40", 40);
    assert!(
        out.contains("\ntable, rewritten  0x29 (41 bytes), 1 byte above the maximum of 40\n"),
        "{out}"
    );
    assert!(
        out.contains("\nnote: the table, rewritten with no name shared, has 41 bytes"),
        "{out}"
    );
}

#[test]
fn a_maximum_that_is_stated_answers_in_json() {
    let temp = Temp::new();
    let image = stated(&temp, 26);
    for (dry, given, before, written) in
        [(true, "40", 26, false), (false, "40", 26, true), (false, "40", 40, false)]
    {
        let rest: &[&str] = if dry { &[given, "--dry-run"] } else { &[given] };
        let told = json("maximum", &image, rest);
        assert_eq!((told.at("status").number(), told.at("edit").text()), (0, "maximum"));
        assert_eq!((told.at("dry_run").flag(), told.at("written").flag()), (dry, written));
        let field = told.at("fst_maximum");
        assert_eq!((field.at("before").number(), field.at("after").number()), (before, 40));
        let numbers = ["fst_size", "fst_left", "fst_above", "fst_rewritten", "fst_rewritten_above"];
        assert_eq!(numbers.map(|name| told.at(name).number()), [26, 14, 0, 26, 0]);
        assert_eq!(told.at("notes").list(), []);
    }
}

/// What cannot be stated, and images that are not edited.
#[test]
fn a_maximum_that_cannot_be_stated_is_told() {
    let temp = Temp::new();
    let image = stated(&temp, 26);
    let before = State::of(&image);
    for given in ["", "x", "-1", "auto", "4294967296", "0x100000000", "4G", "1.5"] {
        let run = on("maximum", &image, &["--", given]);
        assert_eq!(run.status, 64, "{given}: {}", run.err);
    }
    for rest in [&[][..], &["1", "2"], &["1", "--record", "totals"], &["1", "--bytes"]] {
        assert_eq!(on("maximum", &image, rest).status, 64, "{rest:?}");
    }
    assert_eq!(on("maximum", &temp.at("nothing.iso"), &["1"]).status, 66);
    assert_eq!(State::of(&image), before);
    let mut bytes = filled_master();
    put(&mut bytes, 0x450, 0x459);
    refused(&temp.write("overlap.iso", &bytes), &["maximum", "40"], 14);
    refused(&temp.write("short.iso", &bytes[..0x400]), &["maximum", "40"], 1);
    // A record of the image is one still: no used byte is another, and no edit of it is counted.
    let record = temp.at("totals");
    done("resize", &image, &["a", "256", "--record", record.to_str().unwrap()]);
    done("maximum", &image, &["0"]);
    let out = done("add", &image, &["b", "--record", record.to_str().unwrap()]);
    assert!(out.contains(", edits 2\n"), "{out}");
}
