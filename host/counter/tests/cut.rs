//! Edits that are cut: killed at each step, signalled, on disks that fail or are full at each step, or short of
//! threads. `counter help safety` says what is promised then; here it is tried. (Power cuts: crash.rs.)

mod support;

use std::fs::{self, File};
use std::io::Read;
use std::os::unix::fs::FileExt;
use std::os::unix::process::CommandExt;
use std::path::{Path, PathBuf};
use std::process::{Child, Command, Stdio};
use std::thread;
use std::time::{Duration, Instant};
use support::power::Random;
use support::shim::*;
use support::*;

// Each step -------------------------------------------------------------------------------

/// An edit of a small master, with a record or without.
#[derive(Clone, Copy)]
struct Try {
    args: &'static [&'static str],
    with_record: bool,
}

const fn one(args: &'static [&'static str], with_record: bool) -> Try {
    Try { args, with_record }
}

/// Every kind; the third word of a fill is its length.
const TRIES: [Try; 10] = [
    one(&["move", "film", "0x20000"], true),
    one(&["move", "next", "0x30000"], false),
    one(&["resize", "film", "0x5000"], false),
    one(&["resize", "film", "0x1001"], true),
    one(&["fill", "d/song", "8000"], true),
    one(&["fill", "film", "13000"], false),
    one(&["add", "d/new.bin"], true),
    one(&["mkdir", "d/x/y"], false),
    one(&["rewrite"], false),
    one(&["maximum", "0x12345678"], false),
];

fn master() -> Vec<u8> {
    let entries = [
        file("film", 0x8000, 0x3210),
        file("next", 0xB210, 0x700),
        folder("d", vec![file("song", 0xC000, 0x2001)]),
    ];
    let mut image = program_master(&entries, 0x4_0000, 78);
    // A text that no entry has, so that a rewrite has something to do.
    let (at, size) = (get(&image, 0x424) as usize, get(&image, 0x428) as usize);
    image[at + size..at + size + 8].copy_from_slice(b"no name\0");
    put(&mut image, 0x428, size as u32 + 8);
    image
}

#[derive(Clone, PartialEq, Eq)]
struct State {
    image: Vec<u8>,
    record: Option<Vec<u8>>,
}

struct Bench {
    temp: Temp,
    shim: Shim,
    image: PathBuf,
    record: PathBuf,
    args: Vec<String>,
    before: State,
    after: State,
    /// What an edit does that nothing comes between, and how many reads it has.
    steps: Vec<Step>,
    reads: usize,
}

impl Bench {
    fn new(what: Try) -> Option<Bench> {
        let shim = Shim::get()?;
        let temp = Temp::in_memory();
        fs::create_dir(temp.at("records")).unwrap();
        let image = temp.write("disc.iso", &master());
        let record = fs::canonicalize(temp.at("records")).unwrap().join("totals");
        let mut args: Vec<String> = what.args.iter().map(|word| word.to_string()).collect();
        if args[0] == "fill" {
            let clip = temp.write("clip.bin", &clip(args[2].parse().unwrap(), 7));
            args[2] = clip.to_str().unwrap().into();
            args.push("--empty".into());
        }
        let mut text = None;
        if what.with_record {
            args.extend(["--record".into(), record.to_str().unwrap().into()]);
            text = Some(Table::of(&image).record_file(41).into_bytes());
        }
        let before = State { image: master(), record: text };
        let (after, steps) = (before.clone(), Vec::new());
        let mut bench = Bench { temp, shim, image, record, args, before, after, steps, reads: 0 };
        bench.reset();
        let log = bench.temp.at("log");
        let mut command = bench.command();
        shim.log(&mut command, &log);
        command.env("SHIM_READS", "1");
        let run = Run::from(command.output().unwrap());
        assert_eq!(run.status, 0, "{}", run.err);
        bench.after = bench.now();
        assert!(bench.after.image != bench.before.image, "{:?}", bench.args);
        bench.steps = read_log(&log);
        bench.reads = bench.steps.iter().filter(|step| step.what == b'R').count();
        Some(bench)
    }

    fn command(&self) -> Command {
        let mut command = program();
        command.arg(&self.args[0]).arg(&self.image).args(&self.args[1..]);
        command.env("SHIM_RECORD", &self.record);
        command
    }

    fn count(&self) -> usize {
        self.steps.iter().filter(|step| step.counts()).count()
    }

    /// The n-th step of those that count, in words.
    fn named(&self, n: usize) -> String {
        let step = self.steps.iter().filter(|step| step.counts()).nth(n - 1);
        step.map_or("none".into(), |step| {
            format!("{} {} at {:#x}", step.what as char, step.on as char, step.at)
        })
    }

    fn reset(&self) {
        let image = File::options().write(true).open(&self.image).unwrap();
        image.write_all_at(&self.before.image, 0).unwrap();
        let _ = fs::remove_file(journal_of(&self.image));
        for left in fs::read_dir(self.temp.at("records")).unwrap() {
            fs::remove_file(left.unwrap().path()).unwrap();
        }
        if let Some(text) = &self.before.record {
            fs::write(&self.record, text).unwrap();
        }
    }

    fn now(&self) -> State {
        State { image: fs::read(&self.image).unwrap(), record: fs::read(&self.record).ok() }
    }

    /// Runs the edit; something happens at that step. It is waited for the program that writes, too.
    fn run(&self, at: At, what: Do) -> Run {
        self.reset();
        let log = self.temp.at("log");
        let _ = fs::remove_file(&log);
        let mut command = self.command();
        self.shim.log(&mut command, &log);
        self.shim.at(&mut command, at, what);
        let run = command.output().unwrap().into();
        if let Some(step) = read_log(&log).first() {
            wait_for_end(step.process);
        }
        run
    }

    /// Recovers, and wants image and record from before or after; says whether after.
    fn recovered(&self, what: &str) -> bool {
        let run = on("recover", &self.image, &[]);
        assert_eq!(run.status, 0, "{what}: {}{}", run.out, run.err);
        assert!(!journal_of(&self.image).exists(), "{what}");
        let now = self.now();
        assert!(now == self.before || now == self.after, "{what}: neither before nor after");
        now == self.after
    }

    /// Whether a file that was begun is left in the record's folder.
    fn is_left(&self) -> bool {
        let mut all = fs::read_dir(self.temp.at("records")).unwrap();
        all.any(|left| left.unwrap().path() != self.record)
    }
}

/// Waits until a process is gone that nobody else waits for.
fn wait_for_end(process: u32) {
    for _ in 0..20_000 {
        let told = fs::read_to_string(format!("/proc/{process}/stat")).unwrap_or_default();
        match told.rsplit(')').next() {
            Some(rest) if !rest.is_empty() && !rest.starts_with(" Z") => {
                thread::sleep(Duration::from_millis(1));
            }
            _ => return,
        }
    }
    panic!("{process} does not end");
}

/// Each of the edits on a thread of its own.
fn each(of: impl Fn(&Bench) + Send + Copy + 'static) {
    let threads: Vec<_> = TRIES
        .into_iter()
        .map(|one| {
            thread::spawn(move || {
                if let Some(bench) = Bench::new(one) {
                    of(&bench);
                }
            })
        })
        .collect();
    threads.into_iter().for_each(|thread| thread.join().unwrap());
}

/// The program that writes is killed before each step, and in the midst of each write: what counter says, and what
/// the image is then.
#[test]
fn a_killed_writer_leaves_an_edit_finished_or_never_begun() {
    each(|bench| {
        let mut seen = Vec::new();
        for n in 1..=bench.count() {
            for how in [Do::Kill, Do::Torn] {
                let run = bench.run(any(n), how);
                let args = &bench.args;
                let what = format!(
                    "{args:?}, {how:?} at {n} ({}): {}{}",
                    bench.named(n),
                    run.out,
                    run.err
                );
                let now = bench.now();
                seen.push(run.status);
                match run.status {
                    // It had said that all is done.
                    0 => assert!(now == bench.after, "{what}"),
                    70 => {
                        assert!(now == bench.before, "{what}");
                        assert!(
                            run.err.contains("counter-write ended without an answer"),
                            "{what}"
                        );
                        assert!(run.err.contains("; nothing was written"), "{what}");
                    }
                    78 => {
                        assert!(
                            run.err.contains("counter-write ended without an answer"),
                            "{what}"
                        );
                        let part = run.err.contains("the image may hold a part of the edit (");
                        assert!(part && run.err.contains("Nothing is lost: "), "{what}");
                    }
                    status => panic!("{status}: {what}"),
                }
                let after = bench.recovered(&what);
                assert!(after || run.status != 0, "{what}");
                assert!(!after || run.status != 70, "{what}");
            }
        }
        println!("{:?}: {} steps, killed: {}", bench.args, bench.count(), counted(&seen));
        assert!(seen.contains(&78), "{:?}: {seen:?}", bench.args);
    });
}

/// So many of each status.
fn counted(seen: &[i32]) -> String {
    let mut known: Vec<i32> = seen.to_vec();
    known.sort();
    known.dedup();
    let times = |status: i32| seen.iter().filter(|&&one| one == status).count();
    known.into_iter().map(|status| format!("{status} {} times ", times(status))).collect()
}

/// counter is killed: the program that writes goes on to the edit's end, or has not begun.
#[test]
fn a_killed_counter_leaves_an_edit_finished_or_never_begun() {
    each(|bench| {
        let (mut before, mut after) = (0, 0);
        for n in 1..=bench.count() {
            let run = bench.run(any(n), Do::Parent);
            let what = format!("{:?}, killed at {n} ({}): {}", bench.args, bench.named(n), run.err);
            assert_eq!(run.signal, Some(SIGKILL), "{what}");
            let now = bench.now();
            assert!(now == bench.before || now == bench.after, "{what}");
            assert!(!journal_of(&bench.image).exists() && !bench.is_left(), "{what}");
            match now == bench.after {
                true => after += 1,
                false => before += 1,
            }
            let out = done("recover", &bench.image, &[]);
            assert!(out.contains("no edit was cut"), "{what}: {out}");
            assert!(bench.now() == now, "{what}");
        }
        println!("{:?}: {before} before, {after} after", bench.args);
        assert!(after > 2, "{:?}: {before} before, {after} after", bench.args);
    });
}

#[test]
fn both_killed_leave_an_edit_finished_or_never_begun() {
    each(|bench| {
        for n in 1..=bench.count() {
            let run = bench.run(any(n), Do::Both);
            let what = format!("{:?}, killed at {n} ({})", bench.args, bench.named(n));
            assert_eq!(run.signal, Some(SIGKILL), "{what}");
            bench.recovered(&what);
        }
    });
}

/// The recovery is killed at each of its steps too, and the next one comes to the same.
#[test]
fn a_killed_recovery_is_taken_up_again() {
    each(|bench| {
        // Cut when its first byte was written to the image.
        let run = bench.run(image_write(1), Do::Torn);
        assert_eq!(run.status, 78, "{}", run.err);
        let (image, journal) = (bench.now(), fs::read(journal_of(&bench.image)).unwrap());
        let mut ended = 0;
        for n in 1.. {
            for how in [Do::Kill, Do::Torn, Do::Parent] {
                bench.reset();
                fs::write(&bench.image, &image.image).unwrap();
                fs::write(journal_of(&bench.image), &journal).unwrap();
                let log = bench.temp.at("log");
                let _ = fs::remove_file(&log);
                let mut command = program();
                command.arg("recover").arg(&bench.image).env("SHIM_RECORD", &bench.record);
                bench.shim.log(&mut command, &log);
                bench.shim.at(&mut command, any(n), how);
                let run = Run::from(command.output().unwrap());
                wait_for_end(read_log(&log)[0].process);
                let what = format!("{:?}, recovery, {how:?} at {n}: {}", bench.args, run.err);
                if let Do::Parent = how {
                    ended = if run.signal.is_none() { n } else { 0 };
                } else {
                    assert!([0, 78].contains(&run.status), "{what}");
                }
                assert!(bench.recovered(&what), "{what}");
            }
            if ended > 0 {
                break;
            }
        }
        assert!(ended > 5, "{:?}: {ended}", bench.args);
    });
}

// Disks that fail -------------------------------------------------------------------------

/// What each exit status says of the image, where a step fails: once, with a part of it done, or on a disk that is
/// full or broken from then on.
#[test]
fn each_status_says_what_the_image_is_where_a_step_fails() {
    const DENIED: i32 = 13;
    each(|bench| {
        let mut seen = Vec::new();
        for n in 1..=bench.count() {
            for how in [
                Do::From(FULL),
                Do::Fail(FULL),
                Do::Fail(QUOTA),
                Do::From(FAILS),
                Do::Fail(FAILS),
                Do::Half(FAILS),
                Do::Fail(DENIED),
            ] {
                let run = bench.run(any(n), how);
                seen.push(run.status);
                let step = bench.named(n);
                let what =
                    format!("{:?}, {how:?} at {n} ({step}): {}{}", bench.args, run.out, run.err);
                let (now, has_journal) = (bench.now(), journal_of(&bench.image).exists());
                match run.status {
                    // Only what comes after the edit's end may fail and leave it done.
                    0 => {
                        assert!(now == bench.after, "{what}");
                        assert!(run.out.ends_with("done: written and synced\n"), "{what}");
                    }
                    73 | 74 | 77 => {
                        assert!(now == bench.before, "{what}");
                        assert!(run.err.contains("nothing was written"), "{what}");
                        let full = matches!(how, Do::From(FULL) | Do::Fail(FULL | QUOTA));
                        assert_eq!(run.err.contains("the disk is full"), full, "{what}");
                        assert!(!full || run.status == 74, "{what}");
                    }
                    78 => {
                        // Where the gate itself could not be written, or not closed, all is whole.
                        let whole = now == bench.before || now == bench.after;
                        assert!(has_journal || whole, "{what}");
                        let told = |words: &str| run.err.contains(words);
                        let part = told("the image may hold a part of the edit (");
                        let kept = told("The edit is written and synced, and its journal is kept");
                        let closed = told("whether its journal is closed for good is not known");
                        assert!(part || kept || closed, "{what}");
                        assert!(!kept || now.image == bench.after.image, "{what}");
                        assert!(!closed || now == bench.after, "{what}");
                    }
                    status => panic!("{status}: {what}"),
                }
                let after = bench.recovered(&what);
                assert!(after || run.status != 0, "{what}");
                assert!(!after || run.status == 0 || run.status == 78, "{what}");
            }
        }
        println!("{:?}: {} steps, each fails: {}", bench.args, bench.count(), counted(&seen));
        assert!(seen.contains(&74) && seen.contains(&78), "{:?}: {seen:?}", bench.args);
    });
}

/// Bytes that cannot be read: of the image, of the clip, of the journal.
#[test]
fn a_read_that_fails_is_told_and_nothing_is_lost() {
    each(|bench| {
        let mut seen = Vec::new();
        for n in 1..=bench.reads {
            let run = bench.run(At { kinds: "R", files: "ijc", n }, Do::Fail(FAILS));
            let what = format!("{:?}, read {n} fails: {}{}", bench.args, run.out, run.err);
            let now = bench.now();
            seen.push(run.status);
            match run.status {
                // The last one is whether the journal may be taken away.
                0 => assert!(now == bench.after, "{what}"),
                73 | 74 => {
                    assert!(now == bench.before, "{what}");
                    assert!(run.err.contains("nothing was written"), "{what}");
                }
                78 => {}
                status => panic!("{status}: {what}"),
            }
            bench.recovered(&what);
        }
        println!("{:?}: each read fails: {}", bench.args, counted(&seen));
        assert!(seen.len() > 4, "{:?}: {seen:?}", bench.args);
    });
}

/// The system may do less than it is asked for, or be interrupted: that is no failure.
#[test]
fn short_and_interrupted_calls_are_gone_on_with() {
    const INTERRUPTED: i32 = 4;
    each(|bench| {
        let mut count = 0;
        for how in [Do::Short, Do::Fail(INTERRUPTED)] {
            for n in 1..=bench.reads + bench.count() {
                let at = At { kinds: "wRs", files: "ijrc", n };
                let run = bench.run(at, how);
                let what = format!("{:?}, {how:?} at {n}: {}{}", bench.args, run.out, run.err);
                assert_eq!((run.status, run.err.as_str()), (0, ""), "{what}");
                assert!(bench.now() == bench.after, "{what}");
                assert!(!journal_of(&bench.image).exists() && !bench.is_left(), "{what}");
                count += 1;
            }
        }
        assert!(count > 20, "{:?}: {count}", bench.args);
    });
}

/// What cannot be opened, locked or asked for ends the edit before it begins.
#[test]
fn a_file_that_cannot_be_opened_ends_the_edit_before_it_begins() {
    each(|bench| {
        let mut seen = Vec::new();
        for error in [FAILS, 13, 11, 30] {
            for n in 1..6 {
                let run = bench.run(At { kinds: "oxl", files: "ij", n }, Do::Fail(error));
                let what =
                    format!("{:?}, {n} fails with {error}: {}{}", bench.args, run.out, run.err);
                seen.push(run.status);
                match run.status {
                    0 => assert!(bench.now() == bench.after, "{what}"),
                    73..=75 | 77 => {
                        assert!(bench.now() == bench.before, "{what}");
                        assert!(!journal_of(&bench.image).exists(), "{what}");
                    }
                    status => panic!("{status}: {what}"),
                }
            }
        }
        assert!(seen.iter().any(|&status| status != 0), "{:?}: {seen:?}", bench.args);
    });
}

// A long edit -----------------------------------------------------------------------------

const END: u32 = 0x280_0000;
const FROM: u32 = 0x10_0000;
const TO: u32 = 0x180_0000;
const SIZE: u32 = 0xC0_0000;
const MOVE: [&str; 3] = ["move", "movie/intro.thp", "0x1800000"];

/// A master with a film of 12 MiB, every byte of which says where it is from.
struct Stage {
    temp: Temp,
    bytes: Vec<u8>,
}

impl Stage {
    fn new() -> Stage {
        let temp = Temp::in_memory();
        let path = temp.at("first.iso");
        sparse(&path, &usual(FROM, SIZE), END);
        let mut bytes = fs::read(&path).unwrap();
        for (i, word) in bytes[FROM as usize..][..SIZE as usize].chunks_exact_mut(4).enumerate() {
            word.copy_from_slice(&(i as u32 | 0x8000_0000).to_be_bytes());
        }
        fs::remove_file(&path).unwrap();
        Stage { temp, bytes }
    }

    /// The image as it was; the zeros between stay holes.
    fn reset(&self) -> PathBuf {
        let path = self.temp.at("image.iso");
        let _ = fs::remove_file(&path);
        let file = File::create_new(&path).unwrap();
        file.set_len(END.into()).unwrap();
        for (i, part) in self.bytes.chunks(0x1000).enumerate() {
            if part.iter().any(|&b| b != 0) {
                file.write_all_at(part, i as u64 * 0x1000).unwrap();
            }
        }
        path
    }

    /// In a process group of its own, as a shell starts it.
    fn command(&self, image: &Path, args: &[&str]) -> Command {
        let mut command = program();
        command.arg(args[0]).arg(image).args(&args[1..]);
        command.stdout(Stdio::piped()).stderr(Stdio::piped()).process_group(0);
        command
    }

    fn film(&self) -> &[u8] {
        &self.bytes[FROM as usize..][..SIZE as usize]
    }

    /// The image after the move: the film at its new place, zeros at the old one, the new offset in the
    /// table.
    fn moved(&self) -> Vec<u8> {
        let mut bytes = self.bytes.clone();
        bytes[TO as usize..][..SIZE as usize].copy_from_slice(self.film());
        bytes[FROM as usize..][..SIZE as usize].fill(0);
        let word = bytes[FST..].chunks_exact(4).position(|word| word == FROM.to_be_bytes());
        put(&mut bytes, FST + 4 * word.unwrap(), TO);
        bytes
    }
}

fn finish(child: Child) -> Run {
    child.wait_with_output().unwrap().into()
}

/// The program that a running counter has started.
fn writer_of(child: &Child) -> u32 {
    let told = fs::read_to_string(format!("/proc/{0}/task/{0}/children", child.id())).unwrap();
    told.split(' ').next().and_then(|number| number.parse().ok()).expect("a child")
}

fn group_of(process: u32) -> u32 {
    let told = fs::read_to_string(format!("/proc/{process}/stat")).unwrap();
    let rest = told.rsplit(')').next().unwrap().to_string();
    rest.split(' ').nth(3).unwrap().parse().unwrap()
}

unsafe extern "C" {
    fn kill(process: i32, signal: i32) -> i32;
}

/// Killed by the clock, wherever it is then.
#[test]
fn a_long_edit_that_is_killed_is_finished_or_never_begun() {
    let stage = Stage::new();
    let moved = stage.moved();
    let start = Instant::now();
    let image = stage.reset();
    done(MOVE[0], &image, &MOVE[1..]);
    let time = start.elapsed().as_micros() as usize;
    let mut random = Random(u64::from(std::process::id()) << 20 | 1);
    let mut seen = [0; 3];
    for turn in 0..24 {
        let image = stage.reset();
        let child = stage.command(&image, &MOVE).spawn().unwrap();
        thread::sleep(Duration::from_micros(random.below(time) as u64));
        // The program that writes, if it is there yet.
        let path = format!("/proc/{0}/task/{0}/children", child.id());
        let told = fs::read_to_string(path).unwrap_or_default();
        let writer = told.split(' ').next().and_then(|number| number.parse::<i32>().ok());
        if turn % 3 != 1 {
            send(&child, SIGKILL);
        }
        if let Some(writer) = writer.filter(|_| turn % 3 != 0) {
            unsafe { kill(writer, SIGKILL) };
        }
        finish(child);
        // Whoever is left goes on to its end, and holds the image until then.
        let mut run = on("recover", &image, &[]);
        while run.status == 75 {
            thread::sleep(Duration::from_millis(5));
            run = on("recover", &image, &[]);
        }
        assert_eq!(run.status, 0, "{turn}: {}", run.err);
        let now = fs::read(&image).unwrap();
        assert!(now == moved || now == stage.bytes, "{turn}");
        assert!(!journal_of(&image).exists(), "{turn}");
        match (now == moved, run.out.contains("finished an edit")) {
            (false, _) => seen[0] += 1,
            (true, true) => seen[1] += 1,
            (true, false) => seen[2] += 1,
        }
    }
    println!("never begun, finished by recovery, finished by itself: {seen:?}");
}

/// A recovery may have as much to write as its edit, and says how far it is before it is ready.
#[test]
fn a_long_edit_is_recovered() {
    let Some(shim) = Shim::get() else { return };
    let stage = Stage::new();
    for args in [&["recover"][..], &["mkdir", "/x"]] {
        let image = stage.reset();
        let mut command = stage.command(&image, &MOVE);
        shim.at(&mut command, image_write(1), Do::Kill);
        assert_eq!(Run::from(command.output().unwrap()).status, 78);
        let run = on(args[0], &image, &args[1..]);
        assert_eq!(run.status, 0, "{args:?}: {}", run.err);
        let told = [run.out, run.err].concat();
        assert!(told.contains("finished an edit that was cut: move "), "{args:?}: {told}");
        if args.len() == 1 {
            assert!(fs::read(&image).unwrap() == stage.moved());
        }
        assert!(span(&image, TO.into(), SIZE.into()) == stage.film(), "{args:?}");
        assert!(!journal_of(&image).exists(), "{args:?}");
    }
}

/// Ctrl-C reaches whoever is in the terminal's process group: the program that writes is not. The edit is finished
/// first, whatever step it is at, and that is told.
#[test]
fn a_signal_during_an_edit_waits_for_its_end() {
    let Some(shim) = Shim::get() else { return };
    let stage = Stage::new();
    let given = stage.temp.write("clip.bin", &clip(SIZE as usize, 1));
    let fill = ["fill", "movie/intro.thp", given.to_str().unwrap()];
    let filled = filled(&stage.reset(), "/movie/intro.thp", &clip(SIZE as usize, 1));
    let pieces = |n| At { kinds: "w", files: "i", n };
    // The first piece of the copy, one in its midst, the table, the zeros; the note of a clip.
    let cases: [(&[&str], At, i32); 9] = [
        (&MOVE, pieces(1), SIGINT),
        (&MOVE, pieces(20), SIGINT),
        (&MOVE, pieces(50), SIGTERM),
        (&MOVE, pieces(70), SIGHUP),
        (&MOVE, At { kinds: "s", files: "j", n: 3 }, SIGQUIT),
        (&fill, At { kinds: "w", files: "j", n: 20 }, SIGINT),
        (&fill, pieces(20), SIGQUIT),
        (&MOVE, At { kinds: "u", files: "j", n: 1 }, SIGINT),
        (&["mkdir", "/x"], pieces(1), SIGINT),
    ];
    for (args, at, signal) in cases {
        let image = stage.reset();
        let what = format!("{args:?} {at:?} {signal}");
        let (mut child, gate) = shim.stopped(&stage.temp, stage.command(&image, args), at);
        let writer = writer_of(&child);
        assert!(group_of(writer) != group_of(child.id()), "{what}");
        // To all of the group, as a terminal does.
        assert_eq!(unsafe { kill(-(child.id() as i32), signal) }, 0);
        // Before it is finished, what becomes of it is told.
        let mut line = String::new();
        if at.kinds != "u" {
            line = first_line(&mut child);
            assert!(line.contains(": the edit is finished first"), "{what}: {line}");
        }
        drop(gate);
        let run = finish(child);
        let told = format!("{line}\n{}", run.err);
        assert!(run.out.ends_with("done: written and synced\n"), "{what}: {}{told}", run.out);
        let now = fs::read(&image).unwrap();
        match args[0] {
            "move" => assert!(now == stage.moved(), "{what}"),
            "fill" => assert!(now == filled, "{what}"),
            _ => assert!(Table::of(&image).entry("/x").folder, "{what}"),
        }
        assert!(!journal_of(&image).exists(), "{what}");
        assert_eq!(run.signal, Some(signal), "{what}: {told}");
        assert!(
            told.contains("came during the edit; the edit is done and synced"),
            "{what}: {told}"
        );
    }
}

/// USR1, USR2, ALRM, VTALRM, PROF, IO, XCPU and a real-time one end a program too. They may end counter; not the edit.
#[test]
fn other_signals_do_not_cut_an_edit_either() {
    let Some(shim) = Shim::get() else { return };
    let stage = Stage::new();
    for (i, signal) in [10, 12, 14, 26, 27, 29, 24, 40].into_iter().enumerate() {
        let image = stage.reset();
        let at = At { kinds: "w", files: "i", n: 1 + 10 * i };
        let (child, gate) = shim.stopped(&stage.temp, stage.command(&image, &MOVE), at);
        let writer = writer_of(&child);
        assert_eq!(unsafe { kill(-(child.id() as i32), signal) }, 0);
        thread::sleep(Duration::from_millis(20));
        drop(gate);
        let run = finish(child);
        wait_for_end(writer);
        assert_eq!(run.signal, Some(signal), "{}{}", run.out, run.err);
        assert!(fs::read(&image).unwrap() == stage.moved(), "{signal}");
        assert!(!journal_of(&image).exists(), "{signal}");
    }
}

/// Before anything is written, Ctrl-C ends it at once, and the image is as it was.
#[test]
fn a_signal_before_an_edit_begins_ends_it() {
    let Some(shim) = Shim::get() else { return };
    let stage = Stage::new();
    for signal in MINDED {
        let image = stage.reset();
        // The image is about to be locked.
        let at = At { kinds: "l", files: "i", n: 1 };
        let (child, gate) = shim.stopped(&stage.temp, stage.command(&image, &MOVE), at);
        let writer = writer_of(&child);
        assert_eq!(unsafe { kill(-(child.id() as i32), signal) }, 0);
        // It does not wait for the other one, which has its standard error too.
        let mut child = child;
        child.wait().unwrap();
        drop(gate);
        let run = finish(child);
        wait_for_end(writer);
        assert_eq!((run.signal, run.out.as_str()), (Some(signal), ""), "{}", run.err);
        assert!(run.err.contains("stopped by "), "{}", run.err);
        assert!(run.err.contains("the image is as it was"), "{}", run.err);
        assert!(fs::read(&image).unwrap() == stage.bytes);
        assert!(!journal_of(&image).exists());
    }
}

/// The first line that it says on standard error; the rest is for whoever waits for its end.
fn first_line(child: &mut Child) -> String {
    let mut line = Vec::new();
    let mut byte = [0];
    let err = child.stderr.as_mut().unwrap();
    while err.read(&mut byte).unwrap() == 1 && byte != *b"\n" {
        line.push(byte[0]);
    }
    String::from_utf8(line).unwrap()
}

/// While an edit waits or goes on, nobody else writes to the image, reads it unwarned, or finishes the edit.
#[test]
fn an_image_that_is_written_is_in_use() {
    let Some(shim) = Shim::get() else { return };
    let stage = Stage::new();
    let image = stage.reset();
    let (child, gate) = shim.stopped(&stage.temp, stage.command(&image, &MOVE), image_write(20));
    for args in [&["recover"][..], &["mkdir", "/x"], &["maximum", "5"], &["recover", "--anyway"]] {
        let run = on(args[0], &image, &args[1..]);
        assert_eq!(run.status, 75, "{args:?}: {}", run.err);
    }
    // Even where counter is gone.
    let (writer, mut child) = (writer_of(&child), child);
    send(&child, SIGKILL);
    child.wait().unwrap();
    assert_eq!(on("recover", &image, &[]).status, 75);
    drop(gate);
    wait_for_end(writer);
    assert!(fs::read(&image).unwrap() == stage.moved());
    assert!(!journal_of(&image).exists());
    done("check", &image, &[]);
}

/// A long edit tells how far it is, on a terminal.
#[test]
fn an_edit_shows_its_progress_on_a_terminal() {
    let Some(shim) = Shim::get() else { return };
    let stage = Stage::new();
    let image = stage.reset();
    let Some((mut shows, writes)) = terminal() else {
        not_tried("progress: no terminal to be had");
        return;
    };
    let mut command = stage.command(&image, &MOVE);
    command.stderr(writes);
    // The edit waits in the midst of its zeros until progress is shown.
    let (child, gate) = shim.stopped(&stage.temp, command, image_write(75));
    let (tell, told) = std::sync::mpsc::channel();
    thread::spawn(move || {
        let mut part = [0; 256];
        while let Ok(count @ 1..) = shows.read(&mut part) {
            let _ = tell.send(String::from_utf8_lossy(&part[..count]).into_owned());
        }
    });
    let mut all = String::new();
    let mut wait_for = |wanted: &str| {
        while !all.contains(wanted) {
            all +=
                &told.recv_timeout(Duration::from_secs(60)).unwrap_or_else(|_| panic!("{all:?}"));
        }
        all.clone()
    };
    // 12 MiB are copied and zeroed, and a table is written.
    let shown = wait_for("%");
    let at = shown.rfind("writing: ").unwrap_or_else(|| panic!("{shown:?}"));
    let percent = shown[at..].split(&[' ', '%'][..]).find_map(|word| word.parse().ok());
    assert!(percent.is_some_and(|percent: u32| (1..100).contains(&percent)), "{shown:?}");
    send(&child, SIGINT);
    wait_for("Ctrl-C (SIGINT): the edit is finished first");
    drop(gate);
    assert_eq!(finish(child).signal, Some(SIGINT));
    assert!(fs::read(&image).unwrap() == stage.moved());
}

#[test]
fn a_signal_while_reading_ends_at_once_and_leaves_no_half_file() {
    let stage = Stage::new();
    let image = stage.reset();
    // Nobody reads the pipe: `cat` waits in the midst of its output.
    let mut child = program()
        .arg("cat")
        .arg(&image)
        .arg("movie/intro.thp")
        .stdout(Stdio::piped())
        .stderr(Stdio::piped())
        .spawn()
        .unwrap();
    let mut first = [0; 1];
    child.stdout.as_mut().unwrap().read_exact(&mut first).unwrap();
    send(&child, SIGINT);
    let mut err = String::new();
    child.stderr.take().unwrap().read_to_string(&mut err).unwrap();
    let run = finish(child);
    assert_eq!(run.signal, Some(SIGINT), "{err}");
    assert!(err.contains("stopped by Ctrl-C (SIGINT); the image is as it was"), "{err}");

    for delay in [0, 2, 5, 10, 15, 20] {
        let out = stage.temp.at(&format!("film{delay}"));
        let child = program()
            .arg("extract")
            .arg(&image)
            .arg("movie/intro.thp")
            .arg(&out)
            .stdout(Stdio::null())
            .stderr(Stdio::piped())
            .spawn()
            .unwrap();
        thread::sleep(Duration::from_millis(delay));
        send(&child, SIGTERM);
        let run = finish(child);
        // There is all of it or nothing.
        match fs::read(&out) {
            Ok(bytes) => assert!(bytes == stage.film(), "{} bytes, {}", bytes.len(), run.err),
            Err(_) => assert_eq!(run.signal, Some(SIGTERM)),
        }
    }
}

#[test]
fn an_image_that_shrinks_while_it_is_read_is_told() {
    let stage = Stage::new();
    let image = stage.reset();
    let mut child = program()
        .arg("cat")
        .arg(&image)
        .arg("movie/intro.thp")
        .stdout(Stdio::piped())
        .stderr(Stdio::piped())
        .spawn()
        .unwrap();
    let mut first = [0; 1];
    child.stdout.as_mut().unwrap().read_exact(&mut first).unwrap();
    File::options().write(true).open(&image).unwrap().set_len(0x20_0000).unwrap();
    let run = finish(child);
    assert_eq!(run.status, 74, "{}", run.err);
    assert!(run.err.contains("could not be read to its end"), "{}", run.err);
}

/// RLIMIT_NPROC, which holds nobody who may do everything: then the edit is done as another user.
const PROCESSES: i32 = 6;

unsafe extern "C" {
    fn setrlimit(what: i32, limit: *const [u64; 2]) -> i32;
}

/// Without a thread sums are made all the same. No edit is: the program that writes cannot be started.
#[test]
fn sums_are_made_where_no_thread_can_be_had() {
    let stage = Stage::new();
    let image = stage.reset();
    let counter = copied(&stage.temp);
    mode(&image, 0o666);
    mode(&stage.temp.at(""), 0o777);
    let limited = |program: &Path| {
        let mut command = held_back(program);
        // SAFETY: between fork and exec only `setrlimit` is called, which may be called there.
        unsafe {
            command.pre_exec(|| {
                setrlimit(PROCESSES, &[0, 0]);
                Ok(())
            });
        }
        command
    };
    // It holds: a shell cannot start another program.
    let held = limited(Path::new("/bin/sh")).args(["-c", "/bin/true; exit 0"]).output();
    if held.is_ok_and(|held| held.stderr.is_empty()) {
        not_tried("sums without threads: nothing keeps threads back here");
        return;
    }
    for rest in [&[][..], &["--all"]] {
        let wanted = done("hash", &image, rest);
        let run: Run =
            limited(&counter).arg("hash").arg(&image).args(rest).output().unwrap().into();
        assert_eq!((run.status, run.out.as_str()), (0, wanted.as_str()), "{}", run.err);
    }
    let mut command = limited(&counter);
    command.arg(MOVE[0]).arg(&image).args(&MOVE[1..]);
    let run: Run = command.output().unwrap().into();
    assert_eq!((run.status, run.out.as_str()), (70, ""), "{}", run.err);
    assert!(run.err.contains("cannot be started"), "{}", run.err);
    assert!(run.err.contains("nothing was written"), "{}", run.err);
    assert!(fs::read(&image).unwrap() == stage.bytes && !journal_of(&image).exists());
}

/// A disk in memory that is nearly full; needs leave to mount one.
#[test]
fn a_full_disk_is_told_before_anything_is_written() {
    let stage = Stage::new();
    let image = stage.reset();
    let small = stage.temp.at("small");
    fs::create_dir(&small).unwrap();
    let script = "set -e
        mount -t tmpfs -o size=20M tmpfs \"$1\"
        cp --sparse=always \"$2\" \"$1/image.iso\"
        cp \"$1/image.iso\" \"$1/copy\" 2>/dev/null || true
        sum=$(cksum < \"$1/image.iso\"); time=$(stat -c %y \"$1/image.iso\")
        status=0; \"$3\" move \"$1/image.iso\" movie/intro.thp 0x1800000 || status=$?
        test \"$sum\" = \"$(cksum < \"$1/image.iso\")\"
        test \"$time\" = \"$(stat -c %y \"$1/image.iso\")\"
        status2=0; \"$3\" extract \"$1/image.iso\" movie/intro.thp \"$1/film\" || status2=$?
        test ! -e \"$1/film\"
        status3=0; \"$3\" fill \"$1/image.iso\" movie/intro.thp \"$4\" || status3=$?
        test \"$sum\" = \"$(cksum < \"$1/image.iso\")\"
        status4=0; COUNTER_ASSUME_ROOM=1 \"$3\" fill \"$1/image.iso\" movie/intro.thp \"$4\" || status4=$?
        test \"$sum\" = \"$(cksum < \"$1/image.iso\")\"
        test ! -e \"$1/image.iso.counter-journal\"
        rm \"$1/copy\"; \"$3\" move \"$1/image.iso\" opening.bnr 0x1800000
        echo \"statuses $status $status2 $status3 $status4\"";
    let given = stage.temp.write("clip.bin", &clip(SIZE as usize, 1));
    let output = Command::new("unshare")
        .args(["-m", "sh", "-c", script, "sh"])
        .args([&small, &image])
        .arg(env!("CARGO_BIN_EXE_counter"))
        .arg(&given)
        .output();
    let Ok(output) = output else {
        not_tried("a disk without room: no unshare here");
        return;
    };
    let run = Run::from(output);
    if run.status != 0 && (run.err.contains("mount:") || run.err.contains("unshare")) {
        not_tried(&format!("a disk without room: {}", run.err.trim_end()));
        return;
    }
    assert_eq!(run.status, 0, "{}{}", run.out, run.err);
    assert!(run.out.contains("statuses 74 74 74 74"), "{}{}", run.out, run.err);
    let told = run.err.matches("the disk is full: the edit takes 12 MiB of new room").count();
    assert_eq!(told, 2, "{}", run.err);
    let told = "the journal of the edit cannot be written: the disk is full; nothing was written";
    assert!(run.err.contains(told), "{}", run.err);
}
