//! The program in front: it opens images for reading alone, starts the one that writes, and tells what becomes of
//! that, whatever that one says.

mod support;

use std::fs;
use std::os::unix::ffi::OsStringExt;
use std::path::{Path, PathBuf};
use std::process::Command;
use support::shim::*;
use support::*;

/// Whatever is done to an image: by its name, and by one that leads to it.
#[test]
fn it_opens_no_image_for_writing() {
    let Some(shim) = Shim::get() else { return };
    let temp = Temp::new();
    let image = usual_master(&temp);
    let clip = temp.write("given", &clip(0x123, 1));
    let text = temp.write("text", b"mkdir /s\nmove /movie/intro.thp 0x180000\n");
    let sheet = temp.at("sheet");
    assert!(
        program().args(["sheet", "--compile"]).args([&text, &sheet]).status().unwrap().success()
    );
    let record = temp.at("totals");
    let (clip, sheet) = (clip.to_str().unwrap(), sheet.to_str().unwrap());
    let with = ["--record", record.to_str().unwrap()];
    // All are done but for the last.
    let edits: [&[&str]; 17] = [
        &["info"],
        &["recover"],
        &["clear", "0x1000"],
        &["mkdir", "d"],
        &["add", "d/new"],
        &["fill", "d/new", clip, "--dry-run"],
        &["fill", "d/new", clip],
        &["rewrite"],
        &["maximum", "0x10000"],
        &["sheet", sheet, "--dry-run"],
        &["sheet", sheet],
        // One that is not there yet, one that is, and one that is only counted.
        &["resize", "d/new", "5", with[0], with[1]],
        &["move", "d/new", "auto", with[0], with[1]],
        &["resize", "d/new", "5", with[0], with[1]],
        &["resize", "d/new", "6", with[0], with[1], "--dry-run"],
        &["record"],
        &["move", "movie/intro.thp", "1"],
    ];
    let log = temp.at("log");
    for args in edits {
        let _ = fs::remove_file(&log);
        let mut command = program();
        command.arg(args[0]).arg(&image).args(&args[1..]);
        shim.log(&mut command, &log);
        command.env("SHIM_IN", "counter").env("SHIM_RECORD", &record);
        let run: Run = command.output().unwrap().into();
        assert_eq!(run.status == 0, args[args.len() - 1] != "1", "{args:?}: {}", run.err);
        let steps = read_log(&log);
        let named = |what: &[u8]| steps.iter().filter(|step| what.contains(&step.what)).count();
        let opened = steps.iter().filter(|step| step.what == b'o' && step.on == IMAGE).count();
        assert!(named(b"o") > 0, "{args:?}: nothing is logged");
        assert_eq!((opened, named(b"crut")), (0, 0), "{args:?}");
    }
}

/// A program in the place of the one that writes: it says these lines, one a request that wants an answer.
fn saying(temp: &Temp, lines: &[&str]) -> PathBuf {
    let script = temp.at("says");
    let mut text = String::from("#!/bin/sh\n");
    for (i, line) in lines.iter().enumerate() {
        if i > 0 {
            // Up to an edit, or a yes.
            text += "while read -r word rest; do case $word in edit|maximum|go|stop) break ;; esac; done\n";
        }
        text += &match line.strip_prefix("! ") {
            Some(command) => format!("{command}\n"),
            None => format!("printf '%s\\n' '{line}'\n"),
        };
    }
    fs::write(&script, text).unwrap();
    mode(&script, 0o755);
    script
}

const READY: &str = r#"{"answer":"ready","found":"nothing","note":""}"#;

fn decided(table: &str) -> String {
    let totals = [&["1370", "6400"][..], &["4294967295", "0", "0", "1"].repeat(16)].concat();
    format!(
        "{{\"answer\":\"decided\",\"number\":1,\"old_size\":26,\"copy\":[1280,1536,256],\"clip\":[0,0],\
         \"table\":[1088,\"{table}\"],\"tail\":[0,0],\"word\":[1064,\"0000001a\"],\"lost\":[1280,256],\
         \"totals\":[{}]}}",
        totals.join(",")
    )
}

/// The table of the small master whose file lies at 0x600.
const MOVED: &str = "0100000000000000000000020000000000000600000001006100";

fn failed(on: &str, begun: bool, kind: &str, why: &str) -> String {
    format!(
        "{{\"answer\":\"failed\",\"on\":\"{on}\",\"begun\":{begun},\"kind\":\"{kind}\",\"why\":\"{why}\"}}"
    )
}

/// Each answer has its words and its status, and whoever reads them knows what state the image is in.
#[test]
fn it_tells_what_the_other_one_says() {
    let temp = Temp::new();
    let image = temp.write("disc.iso", &filled_master());
    let before = State::of(&image);
    let name = image.display().to_string();
    let (part, whole) =
        ("the image may hold a part of the edit (move a to 0x600)", "; nothing was written");
    let finishes = format!("`counter recover {name}` finishes it");
    let decided = decided(MOVED);
    let cases: &[(&[&str], i32, &[&str])] = &[
        (&[r#"{"answer":"locked"}"#], 75, &["another program is using it; try again later"]),
        (&[r#"{"answer":"in_the_way"}"#], 73, &["this is where the journal of an edit belongs"]),
        (&[r#"{"answer":"old"}"#], 78, &["of a version of counter before this one"]),
        (&[r#"{"answer":"another"}"#], 78, &["it belongs to another image"]),
        (&[r#"{"answer":"unknown"}"#], 70, &["answers otherwise than counter expects", whole]),
        (&["! exit 3"], 70, &["ended without an answer (status 3)", whole]),
        (&["! kill -9 $$"], 70, &["ended without an answer (signal 9)", whole]),
        (&["ready"], 70, &["answers otherwise than counter expects", whole]),
        (
            &[&failed("image", false, "denied", "Permission denied")],
            77,
            &["Permission denied", whole],
        ),
        (&[&failed("journal", false, "full", "No space")], 74, &["disk is full", whole]),
        (&[READY, r#"{"answer":"refused","number":21}"#], 21, &["refused 21: no space"]),
        (
            &[READY, r#"{"answer":"refused","number":99}"#],
            70,
            &["99, which is no number of a cause"],
        ),
        (&[READY, r#"{"answer":"done","number":1}"#], 70, &["reads this edit otherwise", whole]),
        // Another table than is asked for, one that does not open, and bytes outside of the image.
        (&[READY, &decided.replace("0600000001006100", "0700000001006100")], 70, &[whole]),
        (&[READY, &decided.replace("010000000000", "020000000000")], 70, &[whole]),
        (&[READY, &decided.replace("[1280,1536,256]", "[1280,8000,256]")], 70, &[whole]),
        (
            &[READY, &decided, &failed("journal", false, "denied", "Permission denied")],
            73,
            &["the journal of the edit cannot be written: Permission denied", whole],
        ),
        (
            &[READY, &decided, &failed("image", true, "full", "No space")],
            78,
            &[
                "the disk is full: ",
                part,
                "Nothing is lost: make room on the disk, then ",
                &finishes,
            ],
        ),
        (
            &[READY, &decided, &failed("image", true, "other", "Input/output error")],
            78,
            &["Input/output error: ", part, "Nothing is lost: `counter", &finishes],
        ),
        (
            &[READY, &decided, &failed("record", true, "full", "No space")],
            78,
            &[
                "the record cannot be written: the disk is full. The edit is written and synced",
                "--without-record",
            ],
        ),
        (
            &[READY, &decided, "! kill -9 $$"],
            78,
            &["ended without an answer (signal 9): ", part, &finishes],
        ),
        (
            &[READY, &decided, "what"],
            78,
            &["answers otherwise than counter expects: ", part, &finishes],
        ),
        (&[READY, &decided, r#"{"answer":"done","number":1}"#], 0, &[]),
    ];
    for (lines, status, words) in cases {
        let mut command = program();
        command.arg("move").arg(&image).args(["a", "0x600"]);
        let run: Run = command.env("COUNTER_WRITE", saying(&temp, lines)).output().unwrap().into();
        assert_eq!(run.status, *status, "{lines:?}: {}{}", run.out, run.err);
        for word in *words {
            assert!(run.err.contains(word), "{lines:?}: {}", run.err);
        }
        // It tells what it is told: it writes nothing itself.
        let done = run.out.contains("moved /a: 0x500 -> 0x600")
            && run.out.ends_with("written and synced\n");
        assert_eq!(done, *status == 0, "{lines:?}: {}", run.out);
        assert_eq!(State::of(&image), before, "{lines:?}");
    }
}

#[test]
fn a_program_that_is_not_there_is_told() {
    let temp = Temp::new();
    let image = temp.write("disc.iso", &filled_master());
    let before = State::of(&image);
    let nowhere = temp.at("nowhere/counter-write");
    for args in [&["move", "a", "0x600"][..], &["move", "a", "0x600", "--dry-run"], &["recover"]] {
        let mut command = program();
        command.arg(args[0]).arg(&image).args(&args[1..]).env("COUNTER_WRITE", &nowhere);
        let run: Run = command.output().unwrap().into();
        assert_eq!(run.status, 70, "{args:?}: {}", run.err);
        let words = format!(
            "{}: this program, which writes to images, cannot be started: no such file",
            nowhere.display()
        );
        assert!(run.err.contains(&words), "{}", run.err);
        assert_eq!(State::of(&image), before);
    }
    // Whoever only reads needs none; it is looked for beside the program that runs.
    let mut command = program();
    assert!(
        command
            .arg("info")
            .arg(&image)
            .env("COUNTER_WRITE", &nowhere)
            .output()
            .unwrap()
            .status
            .success()
    );
    let alone = copied(&temp);
    fs::remove_file(alone.with_file_name("counter-write")).unwrap();
    let mut command = Command::new(&alone);
    let run: Run =
        command.arg("rewrite").arg(&image).env_remove("COUNTER_WRITE").output().unwrap().into();
    let words = format!("{}: this program", alone.with_file_name("counter-write").display());
    assert!(run.status == 70 && run.err.contains(&words), "{}", run.err);
}

/// What its program cannot be told is told before anything is done.
#[test]
fn names_that_are_no_utf_8() {
    let temp = Temp::new();
    let odd = |name: &[u8]| temp.at("").join(std::ffi::OsString::from_vec(name.to_vec()));
    let image = odd(b"\xFF.iso");
    fs::write(&image, filled_master()).unwrap();
    let before = State::of(&image);
    let run = on("move", &image, &["a", "0x600"]);
    assert_eq!(run.status, 64, "{}", run.err);
    assert!(run.err.contains("no UTF-8"), "{}", run.err);
    assert_eq!(on("move", &image, &["a", "0x600", "--dry-run"]).status, 0);
    assert_eq!(State::of(&image), before);
    // A folder on the way may be called as it likes; a record's may not.
    let folder = odd(b"\xFE");
    fs::create_dir(&folder).unwrap();
    let other = folder.join("disc.iso");
    fs::write(&other, filled_master()).unwrap();
    done("move", &other, &["a", "0x600"]);
    let mut command = program();
    command.arg("move").arg(&other).args(["a", "0x700", "--record"]).arg(folder.join("totals"));
    let run: Run = command.output().unwrap().into();
    assert!(run.status == 64 && run.err.contains("a record whose path is no UTF-8"), "{}", run.err);
    // A name that looks like a flag is a name.
    for name in ["--dry-run", "-x", "a b.iso", "{\"}.iso"] {
        let image = temp.write(name, &filled_master());
        done("move", &image, &["a", "0x600"]);
        assert_eq!(Table::of(Path::new(&image)).entry("/a").offset, 0x600);
    }
}
