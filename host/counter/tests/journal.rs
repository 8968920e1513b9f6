//! The journal of an edit: what is said when there is one, and that a journal which is not this image's, torn,
//! spoiled or foreign, is never applied. (Power cuts: crash.rs; kills and failing disks: cut.rs.)

mod support;

use std::fs::{self, File};
use std::os::unix::fs::{FileExt, symlink};
use std::path::{Path, PathBuf};
use std::process::Command;
use support::journal::{Journal, Note};
use support::power::{HEAD, Random};
use support::shim::*;
use support::*;

const MOVE: [&str; 3] = ["move", "film", "0x20000"];

/// An image whose edit was cut, with its journal, and as it is afterwards.
struct Cut {
    temp: Temp,
    image: PathBuf,
    after: Vec<u8>,
}

impl Cut {
    /// A move that was cut when its table was written.
    fn new() -> Option<Cut> {
        let fst = get(&film_master(), 0x424);
        Cut::at(&MOVE, |step| step.on == IMAGE && step.what == b'w' && step.at == u64::from(fst))
    }

    /// One that was cut before anything was written to the image.
    fn early(args: &[&str]) -> Option<Cut> {
        Cut::at(args, |step| step.on == IMAGE && step.what == b'w')
    }

    /// A fill that was cut before its table was written, where the file lies.
    fn fill() -> Option<Cut> {
        let fst = get(&film_master(), 0x424);
        Cut::at(&["fill", "d/song", "8000"], |step| {
            step.on == IMAGE && step.what == b'w' && step.at == u64::from(fst)
        })
    }

    /// The same elsewhere.
    fn fill_elsewhere() -> Option<Cut> {
        let fst = get(&film_master(), 0x424);
        Cut::at(&["fill", "film", "13000"], |step| {
            step.on == IMAGE && step.what == b'w' && step.at == u64::from(fst)
        })
    }

    /// The disk is full from the first step on that is so.
    fn at(args: &[&str], is_it: impl Fn(&Step) -> bool) -> Option<Cut> {
        let shim = Shim::get()?;
        let temp = Temp::in_memory();
        let args = with_clip(&temp, args);
        let image = temp.write("disc.iso", &film_master());
        let log = temp.at("log");
        let mut command = program();
        command.arg(&args[0]).arg(&image).args(&args[1..]);
        shim.log(&mut command, &log);
        let run = Run::from(command.output().unwrap());
        assert_eq!(run.status, 0, "{args:?}: {}", run.err);
        let after = fs::read(&image).unwrap();
        let steps = read_log(&log).into_iter().filter(Step::counts);
        let n = 1 + steps.collect::<Vec<_>>().iter().position(is_it).expect("such a step");
        fs::write(&image, film_master()).unwrap();
        let mut command = program();
        command.arg(&args[0]).arg(&image).args(&args[1..]);
        shim.full_from(&mut command, n);
        let run = Run::from(command.output().unwrap());
        assert_eq!(run.status, 78, "{args:?}: {}{}", run.out, run.err);
        assert!(run.err.contains("the image may hold a part of the edit ("), "{}", run.err);
        let recover = format!("`counter recover {}` finishes it", image.display());
        assert!(run.err.contains(&recover), "{}", run.err);
        assert!(journal_of(&image).exists());
        Some(Cut { temp, image, after })
    }

    fn journal(&self) -> Vec<u8> {
        fs::read(journal_of(&self.image)).unwrap()
    }

    fn put_journal(&self, bytes: &[u8]) {
        fs::write(journal_of(&self.image), bytes).unwrap();
    }

    fn state(&self) -> (State, Vec<u8>) {
        (State::of(&self.image), self.journal())
    }

    /// Changes one byte of the image.
    fn spoil(&self, at: u64) {
        let file = File::options().read(true).write(true).open(&self.image).unwrap();
        let mut byte = [0];
        file.read_exact_at(&mut byte, at).unwrap();
        file.write_all_at(&[byte[0] ^ 0x5A], at).unwrap();
    }

    fn is_finished(&self) {
        let out = done("recover", &self.image, &[]);
        assert!(out.starts_with("finished an edit that was cut: "), "{out}");
        assert!(fs::read(&self.image).unwrap() == self.after);
        assert!(!journal_of(&self.image).exists());
    }

    /// No command touches image or journal; all say why, and what to do.
    fn is_left_alone(&self, why: &str) {
        let before = self.state();
        for args in [&["recover"][..], &["mkdir", "x"], &["recover", "--anyway"]] {
            let run = on(args[0], &self.image, &args[1..]);
            assert_eq!(run.status, 78, "{why} {args:?}: {}{}", run.out, run.err);
            assert!(run.err.contains(why), "{why} {args:?}: {}", run.err);
            assert!(run.err.contains("take"), "{why} {args:?}: {}", run.err);
            assert!(self.state() == before, "{why} {args:?}");
        }
        // Whoever reads is told, or reads at his own risk.
        let run = on("check", &self.image, &[]);
        assert_eq!(run.status, 78, "{why}: {}{}", run.out, run.err);
        assert!(self.state() == before, "{why}");
    }
}

/// The same words, with a clip of so many bytes in the place of its length.
fn with_clip(temp: &Temp, args: &[&str]) -> Vec<String> {
    let mut args: Vec<String> = args.iter().map(|word| word.to_string()).collect();
    if args[0] == "fill" {
        let clip = temp.write("clip.bin", &clip(args[2].parse().unwrap(), 7));
        args[2] = clip.to_str().unwrap().into();
        args.push("--empty".into());
    }
    args
}

const FOREIGN: &str = "this journal cannot be used: ";

// What is said ----------------------------------------------------------------------------

#[test]
fn a_cut_edit_is_told_and_finished() {
    let Some(cut) = Cut::new() else { return };
    let before = cut.state();
    let svg = cut.temp.at("map.svg");
    let other = cut.temp.write("other.iso", &film_master());
    let other = other.to_str().unwrap();
    let page = cut.temp.at("page.html");
    let reading: [&[&str]; 9] = [
        &["list"],
        &["hash"],
        &["compare", other],
        &["report", other, page.to_str().unwrap()],
        &["check"],
        &["cat", "film"],
        &["map", svg.to_str().unwrap()],
        &["mkdir", "x", "--dry-run"],
        &["move", "film", "0x30000", "--dry-run"],
    ];
    for args in reading {
        let run = on(args[0], &cut.image, &args[1..]);
        assert_eq!(run.status, 78, "{args:?}: {}", run.err);
        let told = "an edit of this image was cut (move film to 0x20000)";
        assert!(run.err.contains(told), "{args:?}: {}", run.err);
        assert!(run.err.contains("counter recover "), "{args:?}: {}", run.err);
        // It is told of commands that take it.
        assert_eq!(run.err.contains("--as-is"), !args.contains(&"--dry-run"), "{}", run.err);
        assert_eq!(run.out, "", "{args:?}");
    }
    assert!(!svg.exists() && !page.exists());
    for args in [&["list"][..], &["check"], &["cat", "film"], &["hash"]] {
        let mut rest = args[1..].to_vec();
        rest.push("--as-is");
        assert_eq!(on(args[0], &cut.image, &rest).status, 0, "{args:?}");
    }
    assert_eq!(on("mkdir", &cut.image, &["x", "--as-is"]).status, 64);
    assert!(cut.state() == before);
    // Through a link too.
    let link = cut.temp.at("link.iso");
    symlink(&cut.image, &link).unwrap();
    assert_eq!(on("check", &link, &[]).status, 78);

    let out = done("recover", &link, &[]);
    let record = Table::of(&cut.image).record_line(1);
    assert_eq!(
        out,
        format!(
            "finished an edit that was cut: move film to 0x20000\n{record}done: written and synced\n"
        )
    );
    assert!(fs::read(&cut.image).unwrap() == cut.after);
    assert!(!journal_of(&cut.image).exists());
    let out = done("recover", &cut.image, &[]);
    assert!(out.contains("no edit was cut"), "{out}");
    assert!(fs::read(&cut.image).unwrap() == cut.after);
}

#[test]
fn what_became_of_a_cut_edit_is_told_as_json() {
    let Some(cut) = Cut::new() else { return };
    let run = on("list", &cut.image, &["--json"]);
    assert_eq!(run.status, 78);
    assert_eq!(Json::read(&run.out).at("status").number(), 78);
    let told = json("recover", &cut.image, &[]);
    assert_eq!(told.at("finished").text(), "move film to 0x20000");
    assert!(told.at("written").flag());
    assert_eq!(told.at("record").at("used").number(), Table::of(&cut.image).used());
    assert_eq!(told.at("record").at("edits").number(), 1);
    assert!(fs::read(&cut.image).unwrap() == cut.after);
    let told = json("recover", &cut.image, &[]);
    assert!(!told.at("written").flag());
    assert_eq!(told.at("record"), &Json::Null);

    // The disk fails in the midst of the edit.
    let Some(shim) = Shim::get() else { return };
    fs::write(&cut.image, film_master()).unwrap();
    let mut command = program();
    command.arg("move").arg(&cut.image).args(&MOVE[1..]).arg("--json");
    shim.at(&mut command, image_write(1), Do::From(FULL));
    let run = Run::from(command.output().unwrap());
    assert_eq!(run.status, 78, "{}", run.err);
    assert_eq!(Json::read(&run.out).at("status").number(), 78);
}

#[test]
fn the_next_edit_finishes_the_one_that_was_cut() {
    let Some(cut) = Cut::new() else { return };
    let run = on("resize", &cut.image, &["next", "0x600"]);
    assert_eq!(run.status, 0, "{}", run.err);
    assert!(run.err.contains("finished an edit that was cut: move film to 0x20000"), "{}", run.err);
    let mut wanted = cut.after.clone();
    wanted[0xB810..0xB910].fill(0);
    let table = Table::of(&cut.image);
    assert_eq!((table.entry("/film").offset, table.entry("/next").size), (0x2_0000, 0x600));
    let at = 0x440 + 12 * 2 + 8;
    put(&mut wanted, at, 0x600);
    assert!(fs::read(&cut.image).unwrap() == wanted);
    assert!(!journal_of(&cut.image).exists());
}

/// It is in the journal, whatever became of the file that was given.
#[test]
fn a_cut_fill_is_finished_from_its_journal() {
    for cut in [Cut::fill(), Cut::fill_elsewhere()] {
        let Some(cut) = cut else { return };
        let run = on("check", &cut.image, &[]);
        assert_eq!(run.status, 78, "{}", run.err);
        let told = run.err.contains("clip.bin (") && run.err.contains("was cut (fill ");
        assert!(told, "{}", run.err);
        fs::remove_file(cut.temp.at("clip.bin")).unwrap();
        cut.is_finished();
    }
}

/// Another maximum writes four bytes, and recovery no other: the table's size is none of them.
#[test]
fn a_maximum_that_was_cut_is_finished() {
    let Some(cut) = Cut::early(&["maximum", "0x12345678"]) else { return };
    let run = on("check", &cut.image, &[]);
    assert!(run.err.contains("was cut (maximum 305,419,896)"), "{}", run.err);
    let whole = cut.journal();
    // Whatever the four bytes are.
    for word in [[0, 0, 0, 0], [0x12, 0, 0, 0x78], [0, 0x34, 0x56, 0], [9, 9, 9, 9]] {
        let file = File::options().write(true).open(&cut.image).unwrap();
        file.write_all_at(&word, 0x42C).unwrap();
        cut.put_journal(&whole);
        assert_eq!(
            done("recover", &cut.image, &[]),
            "finished an edit that was cut: maximum 305,419,896\ndone: written and synced\n"
        );
        assert!(fs::read(&cut.image).unwrap() == cut.after);
    }
    cut.put_journal(&whole);
    cut.spoil(0x427);
    cut.is_left_alone(FOREIGN);
    cut.spoil(0x427);
    let told = json("recover", &cut.image, &[]);
    assert_eq!(told.at("finished").text(), "maximum 305,419,896");
    assert_eq!(told.at("record"), &Json::Null);
    assert!(fs::read(&cut.image).unwrap() == cut.after);
}

// Journals that are none ------------------------------------------------------------------

/// One that is shorter than a head, or whose gate is not open, begins no edit: image and reading are as if it were
/// not there, and the next edit takes it away.
#[test]
fn a_journal_that_is_closed_begins_no_edit() {
    let Some(cut) = Cut::early(&MOVE) else { return };
    let whole = cut.journal();
    let closed = |gate: u8| [&[gate], &whole[1..]].concat();
    let mut all: Vec<Vec<u8>> =
        [0, 1, 2, 15, 16, 100, 0x440, HEAD - 1].iter().map(|&len| whole[..len].to_vec()).collect();
    all.extend([0, 2, 3, 0x81, 0xFE, 0xFF].map(closed));
    all.push(b"my notes on this image\n".to_vec());
    all.push(vec![7; 6 << 20]);
    let before = film_master();
    for journal in &all {
        let what = format!("{} bytes, gate {:?}", journal.len(), journal.first());
        fs::write(&cut.image, &before).unwrap();
        cut.put_journal(journal);
        let state = cut.state();
        for args in [&["check"][..], &["cat", "film"], &["mkdir", "x", "--dry-run"]] {
            let run = on(args[0], &cut.image, &args[1..]);
            assert_eq!(run.status, 0, "{what} {args:?}: {}", run.err);
            assert!(cut.state() == state, "{what} {args:?}");
        }
        let out = done("recover", &cut.image, &[]);
        assert!(out.contains("no edit was cut"), "{what}: {out}");
        assert!(fs::read(&cut.image).unwrap() == before, "{what}");
        assert!(!journal_of(&cut.image).exists(), "{what}");
        cut.put_journal(journal);
        let run = on(MOVE[0], &cut.image, &MOVE[1..]);
        assert_eq!((run.status, run.err.as_str()), (0, ""), "{what}");
        assert!(fs::read(&cut.image).unwrap() == cut.after, "{what}");
        assert!(!journal_of(&cut.image).exists(), "{what}");
    }
}

/// An open one that lost its end is never carried out in part.
#[test]
fn a_journal_that_was_cut_off_is_never_applied() {
    for cut in [Cut::early(&["mkdir", "d/x"]), Cut::early(&["fill", "d/song", "300"]), Cut::new()] {
        let Some(cut) = cut else { return };
        let whole = cut.journal();
        let mut random = Random(99);
        let mut lens: Vec<usize> =
            (0..20).map(|_| HEAD + random.below(whole.len() - HEAD)).collect();
        lens.extend([HEAD, HEAD + 1, whole.len() / 2, whole.len() - 9, whole.len() - 8]);
        lens.extend([whole.len() - 7, whole.len() - 1]);
        for len in lens.into_iter().filter(|&len| (HEAD..whole.len()).contains(&len)) {
            cut.put_journal(&whole[..len]);
            cut.is_left_alone(FOREIGN);
        }
        cut.put_journal(&whole);
        cut.is_finished();
    }
}

/// Whichever byte of an open journal is another one, it is not carried out at all, or exactly. (The two gates are
/// written by themselves, and no sum can hold them: without the first there is no edit.)
#[test]
fn no_spoiled_byte_of_a_journal_reaches_the_image() {
    let threads: Vec<_> =
        [&["mkdir", "d/x"][..], &["fill", "next", "600"], &["resize", "film", "77"]]
            .into_iter()
            .flat_map(|args| [(args, 1), (args, 0)])
            .map(|(args, half)| std::thread::spawn(move || spoiled(args, half)))
            .collect();
    let all: Vec<_> = threads.into_iter().map(|thread| thread.join().unwrap()).collect();
    println!("bytes spoiled, refused, finished exactly: {all:?}");
}

/// Every second byte of its journal, from that one on.
fn spoiled(args: &[&str], first: usize) -> (usize, usize, usize) {
    let Some(cut) = Cut::early(args) else { return (0, 0, 0) };
    let whole = cut.journal();
    let before = fs::read(&cut.image).unwrap();
    let mut random = Random(0x51_4EED + first as u64);
    let (mut refused, mut finished) = (0, 0);
    let places: Vec<usize> = (0..whole.len()).filter(|at| at % 2 == first).collect();
    for &at in &places {
        let mut bytes = whole.clone();
        bytes[at] ^= match at % 3 {
            0 => 1 << random.below(8),
            _ => 1 + random.below(255) as u8,
        };
        cut.put_journal(&bytes);
        fs::write(&cut.image, &before).unwrap();
        let state = cut.state();
        let run = on("recover", &cut.image, &[]);
        let what =
            format!("{args:?}, byte {at:#x}, {:#x} for {:#x}: {}", bytes[at], whole[at], run.err);
        match run.status {
            78 => {
                assert!(
                    run.err.contains("his journal ") || run.err.contains("journal was"),
                    "{what}"
                );
                assert!(cut.state() == state, "{what}");
                refused += 1;
            }
            0 if at == 0 => assert!(fs::read(&cut.image).unwrap() == before, "{what}"),
            0 => {
                assert!(fs::read(&cut.image).unwrap() == cut.after, "{what}");
                finished += 1;
            }
            status => panic!("{status}: {what}"),
        }
    }
    (places.len(), refused, finished)
}

/// A journal with the sum that belongs to it is carried out where it can be, and else not at all: no number in it
/// leads outside the image or the journal, nor into what is no edit's.
#[test]
fn a_journal_whose_numbers_lie_is_never_applied() {
    let Some(cut) = Cut::early(&MOVE) else { return };
    let whole = Journal::read(&cut.journal());
    assert!(whole.bytes() == cut.journal());
    let end = u64::from(FILM_END);
    let edges = [0x43F, 0x427, 0x42D, 0x430, end - 1, end, end + 1, 1 << 32, 1 << 63, u64::MAX];
    let change = |change: &dyn Fn(&mut Journal)| {
        let mut lies = whole.clone();
        change(&mut lies);
        cut.put_journal(&lies.bytes());
        cut.is_left_alone(FOREIGN);
    };
    for number in edges {
        // The copy: from, to, and how long.
        change(&|lies| lies.copy[0] = number.max(end - 0x320F));
        change(&|lies| lies.copy[1] = number.max(end - 0x320F));
        change(&|lies| lies.copy[2] = number.max(end));
        // The table's place and length, and where its bytes are.
        change(&|lies| lies.steps[1].at = number.max(end));
        change(&|lies| lies.steps[1].len = number.max(end));
        change(&|lies| lies.steps[1].from = number.max(1 << 31));
        // The zeros.
        change(&|lies| lies.steps[4].at = number.max(end));
        change(&|lies| lies.steps[4].len = number.max(end));
        change(&|lies| lies.record_count = number.max(0x1002));
    }
    // Over the header, but for its two words; over itself; out of the journal's own head.
    for at in [0, 1, 0x41C, 0x424, 0x427, 0x42D, 0x430, 0x434, 0x43C, 0x43F] {
        change(&|lies| (lies.steps[4].at, lies.steps[4].len) = (at, 4));
    }
    for to in [0x8000 - 0x320F, 0x7FFF, 0x8001, 0x8000 + 0x320F] {
        change(&|lies| lies.copy[1] = to);
    }
    for from in [1, 177, HEAD as u64 - 1] {
        change(&|lies| lies.steps[1].from = from);
    }
    // Of another image, by its length; a copy of that image has another number.
    change(&|lies| lies.image_len += 1);
    for at in [0, 0x1C, 0x427, 0x430, 0x43F] {
        change(&|lies| lies.header[at] ^= 0x40);
    }
    cut.put_journal(&whole.bytes());
    cut.is_finished();
}

/// A journal names a record's file and holds its text; the path has to be there, and the note to be a note.
#[test]
fn a_journal_without_a_note_of_its_own_is_never_applied() {
    let Some(cut) = Cut::early(&MOVE) else { return };
    let whole = Journal::read(&cut.journal());
    let text = &b"counter record 1\nused 1 largest 1 edits 2\n"[..];
    let words = whole.note().words;
    let path = |path: &[u8]| Note { path: path.to_vec(), words: words.clone() };
    for lies in [
        whole.with(Some(text), &path(b"")),
        whole.with(Some(text), &path(b"/\xFF\xFE")),
        whole.with(None, &path(b"/\xFF\xFE")),
        whole.with_parts(None, b""),
        whole.with_parts(None, &[0, 0, 0]),
        whole.with_parts(None, &[0, 0, 0, 1]),
        whole.with_parts(Some(text), &[0xFF; 8]),
    ] {
        cut.put_journal(&lies.bytes());
        cut.is_left_alone(FOREIGN);
    }
    cut.put_journal(&whole.bytes());
    cut.is_finished();
}

/// What a journal says of a record is written if it is one, and over nothing but a record.
#[test]
fn a_journal_writes_no_file_but_a_record() {
    let Some(cut) = Cut::early(&MOVE) else { return };
    let whole = Journal::read(&cut.journal());
    let words = String::from_utf8(whole.note().words).unwrap();
    let record = &b"counter record 1\nused 1 largest 1 edits 2\n"[..];
    let before = fs::read(&cut.image).unwrap();
    let file = fs::canonicalize(cut.temp.at("")).unwrap().join("notes");
    let path = file.as_os_str().as_encoded_bytes().to_vec();
    for (old, new) in [
        (&b""[..], &b"my notes\n"[..]),
        (b"my notes\n", record),
        (b"my notes\n", b"counter record 2\n"),
        (
            b"",
            b"counter record 2\nused 1 largest 1 teams 1\nteam 0 limit 1 share 1 taken 1 edits 2",
        ),
    ] {
        let _ = fs::remove_file(&file);
        if !old.is_empty() {
            fs::write(&file, old).unwrap();
        }
        // As its writer would note it: with the sum of what was there.
        let sum = Command::new("sh")
            .args(["-c", "sha256sum < \"$1\" | cut -c -64", "sh"])
            .arg(if old.is_empty() { Path::new("/dev/null") } else { file.as_path() })
            .output()
            .unwrap();
        let sum = String::from_utf8(sum.stdout).unwrap();
        let words = words.replace("\"old\": null", &format!("\"old\": \"{}\"", sum.trim()));
        assert!(words.contains(sum.trim()), "{words}");
        let note = Note { path: path.clone(), words: words.into_bytes() };
        fs::write(&cut.image, &before).unwrap();
        cut.put_journal(&whole.with(Some(new), &note).bytes());
        let state = cut.state();
        let run = on("recover", &cut.image, &[]);
        assert_eq!(run.status, 78, "{}{}", run.out, run.err);
        assert!(cut.state() == state, "{}", run.err);
        assert_eq!(fs::read(&file).unwrap_or_default(), old);
    }
}

/// Whoever wrote a journal, its words and the names of its record and its sheet are read by people.
#[test]
fn words_of_a_foreign_journal_are_not_obeyed() {
    for odd in ["x\u{1b}[2J\ny", "x\u{202e}\u{2066}y", "x\r\u{9b}y"] {
        let Some(cut) = Cut::early(&MOVE) else { return };
        let whole = Journal::read(&cut.journal());
        let escaped: String = odd.chars().map(|c| format!("\\u{:04x}", c as u32)).collect();
        let hex: String = odd.bytes().map(|byte| format!("{byte:02x}")).collect();
        let words = format!(
            "{{\"edit\":\"{escaped}\",\"maximum\":false,\"team\":0,\"old\":null,\"line\":{{\"number\":1,\"of\":2,\
             \"sheet\":\"{hex}\",\"sum\":\"{}\"}}}}",
            "07".repeat(32)
        );
        let note = Note { path: Vec::new(), words: words.clone().into_bytes() };
        cut.put_journal(&whole.with(None, &note).bytes());
        let raw = |c: char| c != '\n' && (c.is_control() || "\u{202e}\u{2066}".contains(c));
        for args in [&["check"][..], &["mkdir", "x", "--dry-run"], &["recover"]] {
            let run = on(args[0], &cut.image, &args[1..]);
            assert_eq!(run.status, if args[0] == "recover" { 0 } else { 78 }, "{}", run.err);
            let text = [run.out, run.err].concat();
            assert!(!text.contains(raw) && !text.contains("\ny"), "{args:?}: {text:?}");
            assert!(text.contains("x\\x") && text.contains('y'), "{args:?}: {text:?}");
        }
        assert!(fs::read(&cut.image).unwrap() == cut.after);
    }
}

#[test]
fn a_journal_of_an_earlier_version_is_told_and_left() {
    let Some(cut) = Cut::early(&MOVE) else { return };
    for rest in [&b""[..], b"\x05\0\0\0\0\0\0\0", &[7; 5000]] {
        cut.put_journal(&[b"counter journal\n", rest].concat());
        cut.is_left_alone("this journal is of a version of counter before this one");
        let run = on("recover", &cut.image, &[]);
        for words in
            ["Nothing was touched", "with the version that wrote it", "your copy of the image"]
        {
            assert!(run.err.contains(words), "{}", run.err);
        }
    }
}

#[test]
fn a_journal_of_another_image_is_never_applied() {
    // Another header, another length.
    for (at, len) in [(0x20, FILM_END), (0x434, FILM_END), (FILM_END as usize - 1, FILM_END - 1)] {
        let Some(cut) = Cut::new() else { return };
        let file = File::options().write(true).open(&cut.image).unwrap();
        file.write_all_at(&[0x55], at as u64).unwrap();
        file.set_len(len.into()).unwrap();
        cut.is_left_alone("it belongs to another image");
    }
    // A copy, or the image brought back: the same name, another file.
    let Some(cut) = Cut::new() else { return };
    let aside = cut.temp.at("aside");
    fs::copy(&cut.image, &aside).unwrap();
    fs::rename(&aside, &cut.image).unwrap();
    let before = cut.state();
    for args in [&["recover"][..], &["mkdir", "x"]] {
        let run = on(args[0], &cut.image, &args[1..]);
        assert_eq!(run.status, 78, "{args:?}: {}", run.err);
        assert!(run.err.contains("its journal was written for another file"), "{}", run.err);
        assert!(run.err.contains("counter recover --anyway"), "{}", run.err);
        assert!(cut.state() == before, "{args:?}");
    }
    done("recover", &cut.image, &["--anyway"]);
    assert!(fs::read(&cut.image).unwrap() == cut.after);
    // The copy from before the edit, brought back: it gets what the journal says.
    let Some(cut) = Cut::new() else { return };
    let aside = cut.temp.write("aside", &film_master());
    let whole = cut.journal();
    let mut early = Journal::read(&whole);
    early.gates[1] = 0;
    cut.put_journal(&early.bytes());
    fs::rename(&aside, &cut.image).unwrap();
    done("recover", &cut.image, &["--anyway"]);
    assert!(fs::read(&cut.image).unwrap() == cut.after);
}

/// What else is in the image is neither compared nor written.
#[test]
fn recovery_writes_what_the_journal_says_and_nothing_else() {
    for at in [0x500, 0xB300, 0xC001, 0x3_0000, u64::from(FILM_END) - 1] {
        let Some(cut) = Cut::new() else { return };
        cut.spoil(at);
        let mut wanted = cut.after.clone();
        wanted[at as usize] = fs::read(&cut.image).unwrap()[at as usize];
        assert!(wanted != cut.after);
        done("recover", &cut.image, &[]);
        assert!(fs::read(&cut.image).unwrap() == wanted, "{at:#x}");
    }
}

// Names -----------------------------------------------------------------------------------

/// 78 says that there is a journal. What is in its place and can be none is told otherwise, and reading goes on.
#[test]
fn what_is_no_journal_is_not_taken_for_one() {
    let temp = Temp::in_memory();
    let image = temp.write("disc.iso", &film_master());
    let path = journal_of(&image);
    let before = State::of(&image);
    let whole = Cut::early(&MOVE).map(|cut| cut.journal()).unwrap_or_default();
    temp.write("elsewhere", &whole);
    let ways: [fn(&Path); 5] = [
        |path| fs::create_dir(path).unwrap(),
        |path| symlink("nothing", path).unwrap(),
        |path| symlink("elsewhere", path).unwrap(),
        |path| symlink(path, path).unwrap(),
        |path| assert!(Command::new("mkfifo").arg(path).status().unwrap().success()),
    ];
    for (turn, way) in ways.into_iter().enumerate() {
        way(&path);
        for args in [&["check"][..], &["cat", "film"], &["mkdir", "x", "--dry-run"]] {
            done(args[0], &image, &args[1..]);
        }
        for args in [&["recover"][..], &["mkdir", "x"], &["recover", "--anyway"], &["maximum", "5"]]
        {
            let run = on(args[0], &image, &args[1..]);
            assert_eq!(run.status, 73, "{turn} {args:?}: {}", run.err);
            assert!(run.err.contains("It is no journal, and nothing was written"), "{}", run.err);
            assert_eq!(State::of(&image), before, "{turn} {args:?}");
        }
        assert!(fs::symlink_metadata(&path).is_ok());
        match turn {
            0 => fs::remove_dir(&path).unwrap(),
            _ => fs::remove_file(&path).unwrap(),
        }
    }
    assert!(fs::read(temp.at("elsewhere")).unwrap() == whole && !temp.at("nothing").exists());
    done("mkdir", &image, &["x"]);
}

/// The record lies where its name leads; a link that comes into its place meanwhile is replaced, and what it leads to
/// is not written.
#[test]
fn no_link_leads_a_record_elsewhere() {
    let Some(shim) = Shim::get() else { return };
    let temp = Temp::in_memory();
    let image = temp.write("disc.iso", &film_master());
    let (record, link) = (temp.at("totals"), temp.at("link"));
    symlink("totals", &link).unwrap();
    let first = Table::of(&image).record_file(0);
    fs::write(&record, &first).unwrap();
    let args = ["move", "film", "0x20000", "--record", link.to_str().unwrap()];
    done(args[0], &image, &args[1..]);
    let after = Table::of(&image).record_file(1);
    assert_eq!(fs::read_to_string(&record).unwrap(), after);
    assert!(fs::symlink_metadata(&link).unwrap().is_symlink());

    fs::write(&image, film_master()).unwrap();
    fs::write(&record, &first).unwrap();
    let mut command = program();
    command.arg(args[0]).arg(&image).args(&args[1..]);
    shim.at(&mut command, image_write(1), Do::Kill);
    assert_eq!(Run::from(command.output().unwrap()).status, 78);
    let other = temp.write("other", first.as_bytes());
    fs::remove_file(&record).unwrap();
    symlink("other", &record).unwrap();
    let run = on("recover", &image, &[]);
    assert_eq!(fs::read_to_string(&other).unwrap(), first, "{}{}", run.out, run.err);
    match run.status {
        0 => assert_eq!(fs::read_to_string(&record).unwrap(), after),
        78 => {
            assert!(fs::symlink_metadata(&record).unwrap().is_symlink());
            fs::remove_file(&record).unwrap();
            fs::write(&record, &first).unwrap();
            done("recover", &image, &[]);
            assert_eq!(fs::read_to_string(&record).unwrap(), after);
        }
        status => panic!("{status}: {}", run.err),
    }
}

#[test]
fn a_journal_that_cannot_be_written_ends_the_edit_before_it_begins() {
    let temp = Temp::in_memory();
    // The journal's name would be longer than a name may be.
    let image = temp.write(&"n".repeat(250), &film_master());
    let before = State::of(&image);
    let run = on("move", &image, &MOVE[1..]);
    assert_eq!(run.status, 73, "{}", run.err);
    assert!(run.err.contains("nothing was written"), "{}", run.err);
    assert_eq!(State::of(&image), before);
    done("check", &image, &[]);
}

/// A disk that fails when it is asked for the journal's name: the error is told (74), nothing is said of a journal
/// that may not be there, and nothing is written.
#[test]
fn a_disk_that_does_not_tell_of_a_journal_is_an_error() {
    let Some(shim) = Shim::get() else { return };
    let temp = Temp::in_memory();
    let image = temp.write("disc.iso", &film_master());
    let before = State::of(&image);
    for within in ["counter", WRITER] {
        for args in [&["check"][..], &["recover"], &["mkdir", "x"], &["move", "film", "0x20000"]] {
            if within == WRITER && args[0] == "check" {
                continue;
            }
            let mut command = program();
            command.arg(args[0]).arg(&image).args(&args[1..]);
            shim.at(&mut command, At { kinds: "x", files: "j", n: 1 }, Do::From(FAILS));
            command.env("SHIM_IN", within);
            let run = Run::from(command.output().unwrap());
            let status = if within == WRITER { [73, 74] } else { [74, 74] };
            assert!(status.contains(&run.status), "{within} {args:?}: {} {}", run.status, run.err);
            let name = journal_of(&image);
            assert!(run.err.contains(&*name.to_string_lossy()), "{args:?}: {}", run.err);
            assert!(run.err.contains("Input/output error"), "{args:?}: {}", run.err);
            assert!(!run.err.contains("away"), "{args:?}: {}", run.err);
            assert_eq!(State::of(&image), before);
            assert!(!name.exists());
        }
    }
}

/// `ulimit -f` ends a program by a signal, unless it minds it.
#[test]
fn a_limit_of_a_files_size_is_an_error_like_others() {
    let temp = Temp::in_memory();
    let mut seen = Vec::new();
    for kilobytes in ["0", "1", "64", "100", "1000"] {
        let image = temp.write("disc.iso", &film_master());
        let script = "ulimit -f \"$1\"; exec \"$2\" move \"$3\" film 0x20000 2>&1";
        let mut command = Command::new("bash");
        command.args(["-c", script, "bash", kilobytes, env!("CARGO_BIN_EXE_counter")]).arg(&image);
        let run = Run::from(command.output().expect("bash"));
        seen.push(run.status);
        let now = fs::read(&image).unwrap();
        match run.status {
            0 => assert!(run.out.ends_with("done: written and synced\n"), "{}", run.out),
            73 | 74 => assert!(now == film_master(), "{kilobytes}: {}", run.out),
            78 => {
                let out = done("recover", &image, &[]);
                assert!(out.contains("finished an edit that was cut"), "{kilobytes}: {out}");
            }
            _ => panic!("{kilobytes}: {} {}", run.status, run.out),
        }
        assert!(!journal_of(&image).exists(), "{kilobytes}");
    }
    assert!(seen[..2].iter().all(|status| [73, 74].contains(status)), "{seen:?}");
    assert!(seen[2..4].iter().all(|&status| status == 78) && seen[4] == 0, "{seen:?}");
}
