//! The record: what every edit says of used bytes, the largest free region and the edits so far, and the
//! file that keeps it between runs. The numbers that are wanted come from the small master, by hand, and
//! from the tests' own reader of tables; none from libcounter.

mod support;

use std::fs::{self, File};
use std::os::unix::fs::{PermissionsExt, symlink};
use std::path::{Path, PathBuf};
use std::process::Stdio;
use support::shim::*;
use support::*;

/// The small master: its table ends at 1114, /a has 256 bytes at 1280, the disc ends at 8192.
fn small(temp: &Temp) -> PathBuf {
    temp.write("small.iso", &filled_master())
}

fn read(file: &Path) -> String {
    fs::read_to_string(file).unwrap()
}

/// Whether anything is left beside the record's file or the image.
fn is_left(image: &Path, file: &Path) -> bool {
    let folder = fs::read_dir(file.parent().unwrap());
    let early =
        |entry: fs::DirEntry| entry.file_name().as_encoded_bytes().starts_with(b"counter-record.");
    journal_of(image).exists() || folder.is_ok_and(|found| found.flatten().any(early))
}

/// The record's numbers in JSON.
const FIELDS: [&str; 4] = ["used", "free", "largest_free", "edits"];

/// Runs an edit with a record.
fn with(image: &Path, file: &Path, args: &[&str]) -> Run {
    let more = ["--record", file.to_str().unwrap()];
    on(args[0], image, &[&args[1..], &more].concat())
}

/// The same, which must be done; what it says of the record.
fn said(image: &Path, file: &Path, args: &[&str]) -> String {
    let run = with(image, file, args);
    assert_eq!(run.status, 0, "{args:?}: {}", run.err);
    assert!(!is_left(image, file), "{args:?}");
    let line = run.out.lines().rev().nth(1).unwrap();
    format!("{line}\n")
}

/// The same, which must end with this status and leave image and record as they were.
fn not_done(image: &Path, file: &Path, args: &[&str], status: i32, words: &str) {
    let (before, kept) = (State::of(image), fs::read(file).ok());
    for dry in [&["--dry-run"][..], &[]] {
        let run = with(image, file, &[args, dry].concat());
        assert_eq!(run.status, status, "{args:?}: {}", run.err);
        assert!(run.err.contains(words), "{args:?}: {}", run.err);
        assert_eq!(run.out, "", "{args:?}");
        assert_eq!(State::of(image), before, "{args:?}");
        assert_eq!(fs::read(file).ok(), kept, "{args:?}");
        assert!(!is_left(image, file), "{args:?}");
    }
}

// What is said ----------------------------------------------------------------------------

#[test]
fn each_edit_says_its_record() {
    let temp = Temp::new();
    let clip = temp.write("clip", b"x");
    let clip = clip.to_str().unwrap();
    // Used, free, largest.
    let edits: [(&[&str], [u64; 3]); 9] = [
        // A record of 12 bytes and a name of two; the largest region lies behind /a.
        (&["add", "b"], [1384, 6808, 6656]),
        (&["mkdir", "d/e"], [1398, 6794, 6656]),
        (&["mkdir", "."], [1370, 6822, 6656]),
        (&["move", "a", "0x600"], [1370, 6822, 6400]),
        (&["resize", "a", "0x1B00"], [8026, 166, 166]),
        (&["resize", "a", "256"], [1370, 6822, 6656]),
        (&["resize", "a", "0"], [1114, 7078, 7078]),
        (&["fill", "a", clip], [1115, 7077, 6911]),
        (&["rewrite"], [1370, 6822, 6656]),
    ];
    for (args, [used, free, largest]) in edits {
        for dry in [&["--dry-run"][..], &[]] {
            let image = small(&temp);
            let told = json(args[0], &image, &[&args[1..], dry].concat());
            let numbers = FIELDS.map(|name| told.at("record").at(name).number());
            assert_eq!(numbers, [used, free, largest, 1], "{args:?}");
        }
        let image = small(&temp);
        // The dry run says the same (support).
        let out = accepted(&image, args);
        let [used, free, largest] = [used, free, largest].map(grouped);
        let line = format!(
            "used {used} bytes, free {free} bytes, largest free region {largest} bytes, edits 1\n"
        );
        assert!(out.contains(&format!("\n{line}done: ")), "{args:?}: {out}");
        assert_eq!(line, Table::of(&image).record_line(1), "{args:?}");
    }
}

#[test]
fn a_full_disc_has_no_free_region() {
    let temp = Temp::new();
    let mut bytes = filled_master();
    // /a lies right behind the table.
    put(&mut bytes, 0x450, 0x45A);
    let image = temp.write("tight.iso", &bytes);
    let out = accepted(&image, &["resize", "a", "7078"]);
    let line = "used 8,192 bytes, free 0 bytes, largest free region 0 bytes, edits 1\n";
    assert!(out.contains(line), "{out}");
    let file = temp.at("totals");
    assert_eq!(said(&image, &file, &["rewrite"]), line);
    assert_eq!(read(&file), "counter record 1\nused 8192 largest 0 edits 1\n");
    assert_eq!(said(&image, &file, &["resize", "a", "7078"]), line.replace("edits 1", "edits 2"));
}

#[test]
fn a_program_behind_the_table_is_used() {
    let temp = Temp::new();
    let image = usual_master(&temp);
    let used = Table::of(&image).used();
    program_to(&image, 0x18_0000);
    let file = temp.at("totals");
    let line = said(&image, &file, &["rewrite"]);
    assert_eq!(line, Table::of(&image).record_line(1));
    assert_eq!(Table::of(&image).used(), used + DOL_SIZE as u64);
}

// From one run to the next ----------------------------------------------------------------

#[test]
fn edits_are_counted_from_one_run_to_the_next() {
    let temp = Temp::new();
    let image = usual_master(&temp);
    let file = temp.at("totals");
    let clip = temp.write("clip", &clip(0x9000, 1));
    let edits: [&[&str]; 9] = [
        &["mkdir", "text/de"],
        &["add", "text/de/msg.bin"],
        &["fill", "text/de/msg.bin", clip.to_str().unwrap()],
        &["move", "opening.bnr", "0x190000"],
        &["resize", "audio/theme.adp", "0x100"],
        // Nothing is to be written, and they count.
        &["resize", "audio/theme.adp", "0x100"],
        &["mkdir", "text/de"],
        &["fill", "text/de/msg.bin", clip.to_str().unwrap()],
        &["rewrite"],
    ];
    for (args, count) in edits.iter().zip(1..) {
        let wanted = said(&image, &file, args);
        let table = Table::of(&image);
        assert_eq!(wanted, table.record_line(count), "{args:?}");
        assert_eq!(read(&file), table.record_file(count), "{args:?}");
        // A dry run tells the next count, a refused edit none; both leave the file.
        let run = with(&image, &file, &["rewrite", "--dry-run"]);
        assert!(run.out.contains(&format!(", edits {}\n", count + 1)), "{}", run.out);
        not_done(&image, &file, &["move", "movie/intro.thp", "0x100001"], 20, "refused 20");
        not_done(&image, &file, &["move", "movie/intro.thp", "0xA0000"], 21, "refused 21");
        not_done(&image, &file, &["add", "movie"], 19, "refused 19");
        assert_eq!(read(&file), table.record_file(count), "{args:?}");
    }
    let told = json("rewrite", &image, &["--record", file.to_str().unwrap()]);
    assert_eq!(told.at("record").at("edits").number(), 10);
    let run = with(&image, &file, &["add", "movie", "--json"]);
    assert_eq!((run.status, Json::read(&run.out).at("refused").number()), (19, 19));
    assert!(!run.out.contains("record"), "{}", run.out);
    // Without a record the count begins anew.
    assert!(done("rewrite", &image, &[]).contains(", edits 1\n"));
    assert_eq!(read(&file), Table::of(&image).record_file(10));
}

/// Edits of every kind at random, some of them refused.
#[test]
fn any_edits_one_after_another() {
    let temp = Temp::in_memory();
    let image = usual_master(&temp);
    let file = temp.at("totals");
    let mut random = 0x2468_ACE1u32;
    let mut below = |n: u32| {
        random ^= random << 13;
        random ^= random >> 17;
        random ^= random << 5;
        random % n
    };
    let (mut count, mut refused) = (0, 0);
    for turn in 0..120 {
        let table = Table::of(&image);
        let files: Vec<&Entry> = table.entries.iter().filter(|entry| !entry.folder).collect();
        let one = files[below(files.len() as u32) as usize];
        let path = one.path.as_str();
        let (place, size) = (below(0x20_0000).to_string(), below(2 * one.size + 0x100).to_string());
        let given = temp.write("clip", &clip(below(0x9000) as usize, turn));
        let name = format!("new{}", below(40));
        let args = match below(6) {
            0 => vec!["add", &name],
            1 => vec!["mkdir", &name],
            2 => vec!["move", path, &place],
            3 => vec!["resize", path, &size],
            4 => vec!["fill", path, given.to_str().unwrap()],
            _ => vec!["rewrite"],
        };
        let run = with(&image, &file, &args);
        assert!(run.status <= 26, "{args:?}: {}", run.err);
        let table = Table::of(&image);
        match run.status {
            0 => {
                count += 1;
                assert!(run.out.contains(&table.record_line(count)), "{args:?}: {}", run.out);
            }
            _ => refused += 1,
        }
        if count > 0 {
            assert_eq!(read(&file), table.record_file(count), "{args:?}");
        }
    }
    assert!(count > 60 && refused > 10, "{count} accepted, {refused} refused");
}

#[test]
fn a_refused_edit_and_a_dry_run_make_no_file() {
    let temp = Temp::new();
    let image = small(&temp);
    let file = temp.at("totals");
    not_done(&image, &file, &["move", "a", "0x580"], 20, "refused 20");
    let run = with(&image, &file, &["rewrite", "--dry-run"]);
    assert_eq!(run.status, 0, "{}", run.err);
    assert!(!file.exists() && !is_left(&image, &file));
}

#[test]
fn a_file_that_has_another_use_is_no_record() {
    let temp = Temp::new();
    let image = small(&temp);
    let clip = temp.write("clip", &[7; 300]);
    let folder = temp.at("folder");
    fs::create_dir(&folder).unwrap();
    let (link, hard) = (temp.at("link"), temp.at("hard"));
    symlink(&image, &link).unwrap();
    fs::hard_link(&image, &hard).unwrap();
    let journal = journal_of(&image);
    let to_journal = temp.at("to-journal");
    let foreign = temp.write("other.iso.counter-journal", b"counter record 1\n");
    symlink(&foreign, &to_journal).unwrap();
    let slash = temp.at("totals/");
    let edits: [&[&str]; 4] = [
        &["move", "a", "0x600"],
        &["resize", "a", "256"],
        &["fill", "a", clip.to_str().unwrap()],
        &["record"],
    ];
    let names = [&image, &link, &hard, &journal, &to_journal, &foreign, &folder, &slash];
    let names = names.map(|name| name.to_str().unwrap());
    let before = (State::of(&image), fs::read(&foreign).unwrap());
    for args in edits {
        for name in names.iter().copied().chain(["", "/", ".", "..", "/dev/null"]) {
            let run = on(args[0], &image, &[&args[1..], &["--record", name]].concat());
            assert_eq!(run.status, 64, "{args:?} {name}: {}", run.err);
            assert_eq!((State::of(&image), fs::read(&foreign).unwrap()), before, "{args:?} {name}");
        }
        let run = on(args[0], &image, &[&args[1..], &["--record"]].concat());
        assert_eq!(run.status, 64, "{args:?}: {}", run.err);
        let twice = ["--record", "one", "--record", "two"];
        let run = on(args[0], &image, &[&args[1..], &twice].concat());
        assert_eq!(run.status, 64, "{args:?}: {}", run.err);
        assert!(run.err.contains("--record is given twice"), "{}", run.err);
    }
    // The clip of a fill, by its name or as standard input.
    let (name, words) = (clip.to_str().unwrap(), "this is the clip; name another file");
    not_done(&image, &clip, &["fill", "a", name], 64, words);
    let mut command = program();
    command.arg("fill").arg(&image).args(["a", "-", "--record", name]);
    let run: Run = command.stdin(File::open(&clip).unwrap()).output().unwrap().into();
    assert!(run.status == 64 && run.err.contains(words), "{}", run.err);
    assert_eq!(State::of(&image), before.0);
    let run = on("record", &image, &["--force"]);
    assert!(run.status == 64 && run.err.contains("--force is for --record"), "{}", run.err);
}

/// It is counted although nobody hears of it.
#[test]
fn an_edit_whose_answer_cannot_be_printed_is_counted() {
    let temp = Temp::new();
    let image = small(&temp);
    let file = temp.at("totals");
    for (args, count) in [(["resize", "a", "256"], 1), (["resize", "a", "255"], 2)] {
        let full = File::options().write(true).open("/dev/full").unwrap();
        let mut command = program();
        command.arg(args[0]).arg(&image).args(&args[1..]).arg("--record").arg(&file).stdout(full);
        let run: Run = command.output().unwrap().into();
        assert_eq!(run.status, 76, "{args:?}: {}", run.err);
        assert_eq!(read(&file), Table::of(&image).record_file(count), "{args:?}");
    }
}

#[test]
fn a_record_reached_through_a_link_is_written_in_its_place() {
    let temp = Temp::new();
    let image = small(&temp);
    let (file, link) = (temp.at("totals"), temp.at("link"));
    said(&image, &file, &["rewrite"]);
    symlink(&file, &link).unwrap();
    assert!(said(&image, &link, &["rewrite"]).ends_with(", edits 2\n"));
    assert!(fs::symlink_metadata(&link).unwrap().is_symlink());
    assert_eq!(read(&file), Table::of(&image).record_file(2));
    // And by a name from the folder that the program runs in.
    let run: Run = program()
        .args(["rewrite", "small.iso", "--record=totals"])
        .current_dir(temp.at(""))
        .output()
        .unwrap()
        .into();
    assert!(run.out.contains(", edits 3\n"), "{}{}", run.out, run.err);
    assert_eq!(read(&file), Table::of(&image).record_file(3));
}

#[test]
fn a_link_that_leads_nowhere_is_not_replaced() {
    let temp = Temp::new();
    let image = small(&temp);
    let link = temp.at("link");
    symlink(temp.at("nothing"), &link).unwrap();
    for args in [&["move", "a", "0x600"][..], &["resize", "a", "256"]] {
        not_done(&image, &link, args, 73, "a link that leads nowhere");
    }
    let run = on("record", &image, &["--record", link.to_str().unwrap()]);
    assert_eq!(run.status, 73, "{}", run.err);
    assert!(fs::symlink_metadata(&link).unwrap().is_symlink() && !temp.at("nothing").exists());
}

#[test]
fn the_mode_of_the_file_is_kept() {
    let temp = Temp::new();
    let image = small(&temp);
    let file = temp.at("totals");
    said(&image, &file, &["rewrite"]);
    for mode in [0o600, 0o640, 0o666] {
        fs::set_permissions(&file, fs::Permissions::from_mode(mode)).unwrap();
        for args in [&["move", "a", "0x600"][..], &["rewrite"], &["move", "a", "0x1000"]] {
            said(&image, &file, args);
            assert_eq!(fs::metadata(&file).unwrap().permissions().mode() & 0o777, mode, "{args:?}");
        }
    }
}

// Records that do not fit -----------------------------------------------------------------

#[test]
fn a_record_that_is_not_the_images_is_told() {
    let temp = Temp::new();
    let image = small(&temp);
    let file = temp.at("totals");
    said(&image, &file, &["rewrite"]);
    // Somebody makes a folder without it: 14 bytes more are used.
    done("mkdir", &image, &["d"]);
    let words =
        "it has 1,370 bytes used and 6,656 in the largest free region, the image 1,384 and 6,656.";
    not_done(&image, &file, &["rewrite"], 65, words);
    not_done(&image, &file, &["resize", "a", "256"], 65, "or take the file away");
    // Before the edit's own refusal.
    not_done(&image, &file, &["move", "nothing", "0"], 65, "nothing was written");
    let run = with(&image, &file, &["rewrite", "--json"]);
    let told = Json::read(&run.out);
    assert_eq!((run.status, told.at("status").number()), (65, 65));
    assert!(told.at("error").text().contains(words), "{}", run.out);

    // As it is told: a new one.
    let force = format!("counter record {0} --record {1} --force", image.display(), file.display());
    assert!(told.at("error").text().contains(&force), "{}", run.out);
    let args: Vec<&str> = force.split(' ').skip(1).collect();
    assert_eq!(support::run(&args).status, 0);
    assert!(said(&image, &file, &["rewrite"]).ends_with(", edits 1\n"));
    // Or without the file. A move alters the largest region alone.
    done("move", &image, &["a", "0x1000"]);
    let words =
        "it has 1,384 bytes used and 6,656 in the largest free region, the image 1,384 and 3,840.";
    not_done(&image, &file, &["rewrite"], 65, words);
    fs::remove_file(&file).unwrap();
    assert!(said(&image, &file, &["rewrite"]).ends_with(", edits 1\n"));
}

#[test]
fn a_spoiled_record_is_told() {
    let temp = Temp::new();
    let image = small(&temp);
    let good = "counter record 1\nused 1370 largest 6656 edits 7\n";
    let file = temp.write("totals", good.as_bytes());
    assert!(said(&image, &file, &["rewrite"]).ends_with(", edits 8\n"));
    let spoiled = [
        "".to_string(),
        "my notes\n".into(),
        "\0".repeat(good.len()),
        good.replace('1', "2"),
        good.replacen('1', "2", 1),
        good.replace("7", "-7"),
        good.replace("7", "+7"),
        good.replace("7", "07"),
        good.replace("7", "4294967296"),
        good.replace("7", ""),
        good.replace("7\n", "7"),
        good.replace('\n', "\r\n"),
        good.replace("used", "free"),
        good.replace("edits", "edits 1"),
        format!("{good}{good}"),
        format!("{good}\n"),
        format!("{good}{}", " ".repeat(0x1000)),
        format!("\u{feff}{good}"),
    ];
    for (i, text) in spoiled.iter().enumerate() {
        fs::write(&file, text).unwrap();
        // Nobody is told to take a file away that is not the program's.
        let begins = text.trim_start_matches('\u{feff}').starts_with("counter record ")
            && text.len() <= 0x1000;
        let words = match begins {
            true => ": this record is torn, or of another version of counter: ",
            false => ": this is no record; name another file. Nothing was written\n",
        };
        not_done(&image, &file, &["move", "a", "0x600"], 65, words);
        not_done(&image, &file, &["resize", "a", "256"], 65, words);
        // What begins as a record does may be replaced, and nothing else; one with teams is not (teams.rs).
        let run = on("record", &image, &["--record", file.to_str().unwrap(), "--force"]);
        let replaced = begins && !text.starts_with("counter record 2\n");
        assert_eq!(run.status, if replaced { 0 } else { 73 }, "{i}: {}", run.err);
    }
    for len in 0..good.len() {
        fs::write(&file, &good[..len]).unwrap();
        assert_eq!(with(&image, &file, &["rewrite"]).status, 65, "{len}");
    }
    fs::write(&file, "counter record 3\nused 1370 largest 6656 edits 7\n").unwrap();
    not_done(&image, &file, &["rewrite"], 65, "of another version of counter");
}

/// The count ends at 2^32 - 1.
#[test]
fn an_edit_past_the_last_count_is_refused() {
    let temp = Temp::new();
    let image = small(&temp);
    let clip = temp.write("clip", &[7; 300]);
    let full = "counter record 1\nused 1370 largest 6656 edits 4294967295\n";
    let file = temp.write("totals", full.as_bytes());
    let edits: [&[&str]; 7] = [
        &["add", "b"],
        &["mkdir", "b"],
        &["move", "a", "0x600"],
        &["resize", "a", "1"],
        &["resize", "a", "256"],
        &["fill", "a", clip.to_str().unwrap()],
        &["rewrite"],
    ];
    for args in edits {
        let words = "refused 25: used bytes or edit count would leave 0 to 2^32 - 1 (the record's count is \
                     at its end; `counter record IMAGE --record FILE --force` makes a new one)";
        not_done(&image, &file, args, 25, words);
        assert!(fs::read(&image).unwrap() == filled_master(), "{args:?}");
        assert_eq!(read(&file), full);
    }
    // It is tested last.
    not_done(&image, &file, &["move", "a", "0x580"], 20, "refused 20");
    not_done(&image, &file, &["move", "a", "0x400"], 21, "refused 21");
    let run = with(&image, &file, &["rewrite", "--json"]);
    let told = Json::read(&run.out);
    assert_eq!((run.status, told.at("refused").number()), (25, 25));
    assert_eq!(told.at("cause").text(), "used bytes or edit count would leave 0 to 2^32 - 1");
    // The one before it is counted.
    fs::write(&file, full.replace("295", "294")).unwrap();
    assert!(said(&image, &file, &["rewrite"]).ends_with(", edits 4,294,967,295\n"));
    assert_eq!(read(&file), full);
}

// The command -----------------------------------------------------------------------------

#[test]
fn record_makes_a_new_one() {
    let temp = Temp::new();
    let image = small(&temp);
    let before = State::of(&image);
    let line = "used 1,370 bytes, free 6,822 bytes, largest free region 6,656 bytes, edits 0\n";
    assert_eq!(done("record", &image, &[]), line);
    let file = temp.at("totals");
    let name = file.to_str().unwrap();
    assert_eq!(done("record", &image, &["--record", name]), format!("{line}written to {name}\n"));
    let text = "counter record 1\nused 1370 largest 6656 edits 0\n";
    assert_eq!(read(&file), text);
    assert!(!is_left(&image, &file));
    let told = json("record", &image, &[]);
    let numbers = FIELDS.map(|name| told.at("record").at(name).number());
    assert_eq!((numbers, told.at("out")), ([1370, 6822, 6656, 0], &Json::Null));
    assert_eq!(State::of(&image), before);

    // Nothing is overwritten but a record, with --force.
    said(&image, &file, &["move", "a", "0x600"]);
    let run = on("record", &image, &["--record", name]);
    assert_eq!(run.status, 73, "{}", run.err);
    assert!(run.err.contains("is there already; --force replaces it"), "{}", run.err);
    assert_eq!(read(&file), "counter record 1\nused 1370 largest 6400 edits 1\n");
    let told = json("record", &image, &["--record", name, "--force"]);
    assert_eq!(told.at("out").text(), name);
    assert_eq!(read(&file), "counter record 1\nused 1370 largest 6400 edits 0\n");
    let notes = temp.write("notes", b"my notes\n");
    let before = State::of(&notes);
    let run = on("record", &image, &["--force", "--record", notes.to_str().unwrap()]);
    assert_eq!(run.status, 73, "{}", run.err);
    assert!(run.err.contains("is there already, and is no record"), "{}", run.err);
    assert_eq!(State::of(&notes), before);
    assert!(said(&image, &file, &["rewrite"]).ends_with(", edits 1\n"));
}

#[test]
fn an_image_that_does_not_open_has_no_record() {
    let temp = Temp::new();
    let mut bytes = filled_master();
    put(&mut bytes, 0x450, 0x459);
    let image = temp.write("overlap.iso", &bytes);
    let file = temp.at("totals");
    let run = on("record", &image, &["--record", file.to_str().unwrap()]);
    assert_eq!((run.status, file.exists()), (14, false), "{}", run.err);
    not_done(&image, &file, &["rewrite"], 14, "refused 14");
    assert_eq!(on("record", &temp.at("nothing"), &[]).status, 66);
    assert_eq!(support::run(&["record"]).status, 64);
}

// Disks and cuts --------------------------------------------------------------------------

#[test]
fn a_folder_that_is_not_there_ends_the_edit_before_it_begins() {
    let temp = Temp::new();
    let image = small(&temp);
    let file = temp.at("no/folder/totals");
    for args in [&["move", "a", "0x600"][..], &["resize", "a", "256"]] {
        not_done(&image, &file, args, 73, "the record cannot be written: No such file");
    }
    // A file that a cut left has its name for good.
    let file = temp.at("totals");
    for n in 1..200 {
        let number = std::process::id() + n;
        temp.write(&format!("counter-record.{number}"), b"counter record 1\nused");
    }
    let run = with(&image, &file, &["move", "a", "0x600"]);
    assert_eq!(run.status, 0, "{}", run.err);
    assert_eq!(read(&file), Table::of(&image).record_file(1));
    // A name as long as a name may be.
    let file = temp.at(&"n".repeat(255));
    assert_eq!(with(&image, &file, &["move", "a", "0x1000"]).status, 0);
    assert_eq!(read(&file), Table::of(&image).record_file(1));
}

/// Runs an edit with a record on a disk that is full from that step on.
fn full_from(shim: Shim, at: At, image: &Path, file: &Path, args: &[&str]) -> Run {
    let mut command = program();
    command.arg(args[0]).arg(image).args(&args[1..]).arg("--record").arg(file);
    shim.at(&mut command, at, Do::From(FULL));
    command.output().unwrap().into()
}

/// Whatever becomes of the edit, the record is the image's, and has counted what was done.
#[test]
fn the_record_goes_with_the_edit_when_the_disk_is_full() {
    let Some(shim) = Shim::get() else { return };
    let temp = Temp::in_memory();
    let given = temp.write("clip", &clip(0x300, 1));
    let edits: [&[&str]; 5] = [
        &["move", "a", "0x1000"],
        &["resize", "a", "0x80"],
        &["fill", "a", given.to_str().unwrap()],
        &["mkdir", "d"],
        &["resize", "a", "256"],
    ];
    let first = "counter record 1\nused 1370 largest 6656 edits 4\n";
    let mut unrecorded = 0;
    for args in edits {
        let mut seen = Vec::new();
        for n in 1.. {
            let image = small(&temp);
            let file = temp.write("totals", first.as_bytes());
            // What takes room, and waits for it.
            let run = full_from(shim, At { kinds: "wscf", files: "", n }, &image, &file, args);
            seen.push(run.status);
            let what = format!("{args:?}, full from {n}: {}{}", run.out, run.err);
            match run.status {
                0 => {}
                74 => {
                    assert_eq!(read(&file), first, "{what}");
                    assert!(run.err.contains("; nothing was written"), "{what}");
                }
                78 => {
                    let whole = run.err.contains("The edit is written and synced");
                    assert_eq!(run.err.contains("the record cannot be written"), whole, "{what}");
                    let closed = run.err.contains("whether its journal is closed for good");
                    let part = run.err.contains("may hold a part of the edit");
                    assert!(whole || part || closed, "{what}");
                    let kept = read(&file);
                    unrecorded += usize::from(whole);
                    // A gate that is closed, of which nobody knows whether the disk has it so.
                    let open =
                        fs::read(journal_of(&image)).is_ok_and(|bytes| bytes.first() == Some(&1));
                    let out = done("recover", &image, &[]);
                    // Where its folder cannot be synced, or the gate not closed, it is there.
                    let record = Table::of(&image).record_file(5);
                    assert!([first, &record].contains(&&*kept), "{what}");
                    let line = Table::of(&image).record_line(5);
                    let told = out.contains(&format!("\n{line}record written to "));
                    assert_eq!(told, open, "{what}: {out}");
                }
                _ => panic!("{what}"),
            }
            let count = if run.status == 74 { 4 } else { 5 };
            assert_eq!(read(&file), Table::of(&image).record_file(count), "{what}");
            assert!(!is_left(&image, &file), "{what}");
            if run.status == 0 {
                break;
            }
        }
        println!("{args:?}: {seen:?}");
        assert!(seen.contains(&74), "{args:?}: {seen:?}");
    }
    // Create, write, sync.
    assert!(unrecorded >= 15, "{unrecorded}");
}

const FIRST: &str = "counter record 1\nused 1370 largest 6656 edits 4\n";
const SECOND: &str = "counter record 1\nused 1370 largest 3840 edits 5\n";

/// A move that is cut when its table is written, with its record in a folder of its own.
fn cut(shim: Shim, temp: &Temp) -> (PathBuf, PathBuf) {
    let _ = fs::remove_dir_all(temp.at("desk"));
    fs::create_dir(temp.at("desk")).unwrap();
    cut_with(shim, temp, temp.write("desk/totals", FIRST.as_bytes()))
}

fn cut_with(shim: Shim, temp: &Temp, file: PathBuf) -> (PathBuf, PathBuf) {
    let image = small(temp);
    let kept = fs::read(&file).ok();
    // Behind the copy.
    let run = full_from(shim, image_write(2), &image, &file, &["move", "a", "0x1000"]);
    assert_eq!(run.status, 78, "{}", run.err);
    assert!(journal_of(&image).exists());
    assert_eq!(fs::read(&file).ok(), kept);
    (image, file)
}

#[test]
fn a_cut_edit_is_counted_when_it_is_finished() {
    let Some(shim) = Shim::get() else { return };
    let temp = Temp::in_memory();
    let (image, file) = cut(shim, &temp);
    assert_eq!(on("record", &image, &[]).status, 78);
    let told = json("recover", &image, &[]);
    assert_eq!(told.at("record").at("edits").number(), 5);
    assert_eq!(told.at("record").at("largest_free").number(), 3840);
    // Which file was written is told, whatever name it was given by.
    let place = fs::canonicalize(&file).unwrap();
    assert_eq!(told.at("out").text(), place.to_str().unwrap());
    assert_eq!(json("recover", &image, &[]).at("out"), &Json::Null);
    let written = format!("record written to {}\n", place.display());
    assert_eq!(read(&file), "counter record 1\nused 1370 largest 3840 edits 5\n");

    // The next edit finishes it first, and both count.
    let (image, file) = cut(shim, &temp);
    let run = with(&image, &file, &["mkdir", "d"]);
    assert_eq!(run.status, 0, "{}", run.err);
    let words = format!("finished an edit that was cut: move a to 0x1000; {written}");
    assert!(run.err.contains(&words), "{}", run.err);
    assert!(run.out.contains(", edits 6\n"), "{}", run.out);
    assert_eq!(read(&file), "counter record 1\nused 1384 largest 3840 edits 6\n");
    assert!(!is_left(&image, &file));

    // The first one, after which there is a file.
    fs::remove_file(&file).unwrap();
    let (image, file) = cut_with(shim, &temp, file);
    let out = done("recover", &image, &[]);
    assert!(out.ends_with(&format!(", edits 1\n{written}done: written and synced\n")), "{out}");
    assert_eq!(read(&file), "counter record 1\nused 1370 largest 3840 edits 1\n");
    assert!(!is_left(&image, &file));
    // The file has its new text already.
    let (image, file) = cut(shim, &temp);
    fs::write(&file, SECOND).unwrap();
    assert!(done("recover", &image, &[]).contains(", edits 5\n"));
    assert_eq!(read(&file), SECOND);
    assert!(!is_left(&image, &file));
    // One that is left is not written.
    let (image, _) = cut(shim, &temp);
    assert_eq!(json("recover", &image, &["--without-record"]).at("out"), &Json::Null);
}

/// The record is not as the edit left it, which was cut: nothing is touched, whoever comes next.
fn is_unrecorded(image: &Path, words: &str) {
    let before = (State::of(image), fs::read(journal_of(image)).unwrap());
    for args in [&["recover"][..], &["rewrite"], &["recover", "--json"]] {
        let run = on(args[0], image, &args[1..]);
        assert_eq!(run.status, 78, "{args:?}: {}", run.err);
        assert!(run.err.contains(words), "{args:?}: {}", run.err);
        assert!(run.err.contains("neither the image nor its journal was touched"), "{}", run.err);
        let without = format!("`counter recover {} --without-record`", image.display());
        assert!(run.err.contains(&without), "{args:?}: {}", run.err);
        let now = (State::of(image), fs::read(journal_of(image)).unwrap());
        assert_eq!(now, before, "{args:?}");
    }
}

#[test]
fn a_record_that_cannot_be_written_keeps_the_journal() {
    let Some(shim) = Shim::get() else { return };
    let temp = Temp::in_memory();
    // Its folder is away, and comes back.
    let (image, file) = cut(shim, &temp);
    fs::rename(temp.at("desk"), temp.at("away")).unwrap();
    is_unrecorded(&image, "totals: this record is not there any more");
    fs::rename(temp.at("away"), temp.at("desk")).unwrap();
    assert!(done("recover", &image, &[]).contains(", edits 5\n"));
    assert_eq!(read(&file), SECOND);

    // It is gone, which an empty folder in the place of a disk looks like too.
    let (image, file) = cut(shim, &temp);
    fs::remove_file(&file).unwrap();
    is_unrecorded(&image, "totals: this record is not there any more");
    assert!(!file.exists());
    // A link is none, wherever it leads: the record would come in its place.
    for to in ["nothing", "elsewhere"] {
        fs::write(temp.at("elsewhere"), FIRST).unwrap();
        symlink(temp.at(to), &file).unwrap();
        is_unrecorded(&image, "totals: no file is here any more, but a link or the like");
        fs::remove_file(&file).unwrap();
    }
    fs::write(&file, FIRST).unwrap();
    done("recover", &image, &[]);
    assert_eq!(read(&file), SECOND);

    // Somebody changed it.
    let (image, file) = cut(shim, &temp);
    for other in [FIRST.replace("edits 4", "edits 6"), "my notes".into(), "".into()] {
        fs::write(&file, &other).unwrap();
        is_unrecorded(&image, "totals: another program changed this record since");
        assert_eq!(read(&file), other);
    }
    // And goes on with it.
    let run = on("recover", &image, &["--without-record"]);
    assert_eq!(run.status, 0, "{}", run.err);
    assert!(run.err.contains("totals: left as it is, without this edit"), "{}", run.err);
    assert!(run.out.contains(&Table::of(&image).record_line(5)), "{}", run.out);
    assert_eq!(read(&file), "");
    assert!(!is_left(&image, &file));
}

// Two at the same time --------------------------------------------------------------------

/// What came meanwhile is not overwritten, and the edit is told of.
#[test]
fn a_record_that_came_meanwhile_is_kept() {
    let Some(shim) = Shim::get() else { return };
    let temp = Temp::in_memory();
    let (image, file) = cut_with(shim, &temp, temp.at("totals"));
    for other in ["counter record 1\nused 1370 largest 6656 edits 1\n", "my notes", ""] {
        fs::write(&file, other).unwrap();
        is_unrecorded(&image, "totals: another program changed this record since");
        assert_eq!(read(&file), other);
    }
}

#[test]
fn a_record_in_use_is_told_or_waited_for() {
    let temp = Temp::in_memory();
    let image = small(&temp);
    let file = temp.write("totals", FIRST.as_bytes());
    let other = File::open(&file).unwrap();
    other.lock().unwrap();
    let before = State::of(&image);
    for args in [&["move", "a", "0x1000"][..], &["resize", "a", "256"], &["record", "--force"]] {
        let run = with(&image, &file, args);
        assert_eq!(run.status, 75, "{args:?}: {}", run.err);
        assert!(run.err.contains("totals: another program is using it"), "{}", run.err);
        assert_eq!(State::of(&image), before, "{args:?}");
        assert_eq!(read(&file), FIRST, "{args:?}");
        assert!(!is_left(&image, &file), "{args:?}");
    }
    // A dry run reads it.
    assert_eq!(with(&image, &file, &["move", "a", "0x1000", "--dry-run"]).status, 0);
    let mut command = program();
    command.arg("move").arg(&image).args(["a", "0x1000", "--wait", "--record"]).arg(&file);
    let waits = command.stdout(Stdio::null()).stderr(Stdio::piped()).spawn().unwrap();
    std::thread::sleep(std::time::Duration::from_millis(200));
    // Another takes its place before it is free.
    let new = temp.write("new", FIRST.replace("edits 4", "edits 7").as_bytes());
    fs::rename(&new, &file).unwrap();
    other.unlock().unwrap();
    let run: Run = waits.wait_with_output().unwrap().into();
    assert_eq!(run.status, 0, "{}", run.err);
    assert_eq!(read(&file), SECOND.replace("edits 5", "edits 8"));
    // The edit that was cut is told of it too.
    let Some(shim) = Shim::get() else { return };
    let (image, file) = cut(shim, &temp);
    let other = File::open(&file).unwrap();
    other.lock().unwrap();
    is_unrecorded(&image, "totals: another program is using it");
    other.unlock().unwrap();
    done("recover", &image, &[]);
    assert_eq!(read(&file), SECOND);
}

/// Whoever is not told otherwise is counted.
#[test]
fn one_record_for_many_images_loses_no_edit_unsaid() {
    let temp = Temp::in_memory();
    let file = temp.at("totals");
    let clip = temp.write("given", &[9; 256]);
    let images: Vec<PathBuf> =
        (0..12).map(|i| temp.write(&format!("{i}.iso"), &filled_master())).collect();
    let run = |image: &PathBuf| {
        let mut command = program();
        command.arg("fill").arg(image).arg("a").arg(&clip).arg("--wait").arg("--record").arg(&file);
        command.stdout(Stdio::null()).stderr(Stdio::piped()).spawn().unwrap()
    };
    let runs: Vec<_> = images.iter().map(run).collect();
    let runs = runs.into_iter().map(|run| Run::from(run.wait_with_output().unwrap()));
    let mut counted = 0;
    for (run, image) in runs.zip(&images) {
        assert!(span(image, 0x500, 256) == [9; 256], "{}", run.err);
        assert!(!journal_of(image).exists(), "{}", run.err);
        assert_eq!(run.status, 0, "{}", run.err);
        counted += 1;
    }
    println!("{counted} of {} counted", images.len());
    assert_eq!(read(&file), Table::of(&images[0]).record_file(counted));
}

/// Each reads the record when it has the image alone.
#[test]
fn edits_at_the_same_time_are_all_counted() {
    let temp = Temp::in_memory();
    let image = usual_master(&temp);
    let file = temp.at("totals");
    let edits: Vec<_> = (0..12)
        .map(|i| {
            let mut command = program();
            command.arg("add").arg(&image).arg(format!("new{i}")).arg("--wait");
            command.arg("--record").arg(&file).stderr(Stdio::null());
            command.stdout(File::create(temp.at("out")).unwrap()).spawn().unwrap()
        })
        .collect();
    for mut edit in edits {
        assert!(edit.wait().unwrap().success());
    }
    assert_eq!(read(&file), Table::of(&image).record_file(12));
}
