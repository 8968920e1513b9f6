//! The program that alone writes to images: which program opens what, and how much of an image it reads, writes
//! and holds.

mod support;

use std::fs::{self, File};
use std::os::unix::fs::{FileExt, symlink};
use std::path::{Path, PathBuf};
use std::process::{Command, Stdio};
use support::shim::*;
use support::*;

// What is opened --------------------------------------------------------------------------

/// A call that names a file, as strace tells it: by which program, and where the name leads.
#[derive(Debug)]
struct Call {
    program: String,
    call: String,
    /// All that is told of it.
    line: String,
    /// The file that was opened.
    file: Option<PathBuf>,
}

impl Call {
    fn writes(&self) -> bool {
        !self.line.contains("O_RDONLY")
    }
}

/// Runs under strace; none, where it is not there or may not watch.
fn watched(temp: &Temp, args: &[&str], input: Option<&Path>) -> Option<(Run, Vec<Call>)> {
    let log = temp.at("strace");
    let _ = fs::remove_file(&log);
    let mut command = Command::new("strace");
    // %file: all that take a file's name; and what else gives a file another length or other bytes by its number.
    command.args(["-f", "-y", "-s", "4096", "-qq", "-e", "signal=none"]);
    command.args(["-e", "trace=%file,ftruncate,fallocate,copy_file_range,pwrite64,pwritev,mmap"]);
    command.arg("-o").arg(&log).arg(env!("CARGO_BIN_EXE_counter")).args(args);
    command.env("LC_ALL", "C.UTF-8").stdin(match input {
        Some(path) => Stdio::from(File::open(path).unwrap()),
        None => Stdio::null(),
    });
    let Ok(output) = command.output() else {
        not_tried("who opens images for writing: there is no strace");
        return None;
    };
    let run = Run::from(output);
    let text = fs::read_to_string(&log).unwrap_or_default();
    if !text.contains("execve(") {
        not_tried(&format!("who opens images for writing: {}", run.err.trim_end()));
        return None;
    }
    let mut programs: Vec<(String, String)> = Vec::new();
    let mut begun: Vec<(String, String)> = Vec::new();
    let mut calls = Vec::new();
    for line in text.lines() {
        let (process, line) = line.split_once(' ').unwrap();
        let mut line = line.trim_start().to_string();
        // A call that another process came into.
        if let Some(first) = line.strip_suffix(" <unfinished ...>") {
            begun.push((process.into(), first.into()));
            continue;
        }
        if line.starts_with("<... ") {
            let at = begun.iter().position(|(of, _)| of == process).expect("a call that was begun");
            let rest = line.split_once("resumed>").unwrap().1;
            line = format!("{}{rest}", begun.swap_remove(at).1);
        }
        let Some((call, rest)) = line.split_once('(') else { continue };
        if call == "execve" && line.ends_with(" = 0") {
            let name = rest.split('"').nth(1).unwrap().rsplit('/').next().unwrap();
            programs.push((process.into(), name.into()));
        }
        // A thread or a child that has begun nothing else is of the program that made it: of counter.
        let program = programs.iter().rev().find(|(of, _)| of == process);
        let program = program.map_or("counter".into(), |(_, name)| name.clone());
        let file = line.rsplit_once(" = ").and_then(|(_, result)| {
            let (_, file) = result.split_once('<')?;
            Some(PathBuf::from(file.strip_suffix('>')?))
        });
        calls.push(Call { program, call: call.into(), file, line });
    }
    Some((run, calls))
}

/// All commands that may have to do with an image's bytes. counter opens it for reading alone; counter-write opens it
/// for writing, and else its journal and the record's new file.
#[test]
fn counter_opens_no_image_for_writing() {
    let temp = Temp::in_memory();
    let folder = fs::canonicalize(temp.at("")).unwrap();
    let (image, link) = (folder.join("disc.iso"), folder.join("link.iso"));
    symlink("disc.iso", &link).unwrap();
    let clip = temp.write("clip.bin", &clip(700, 1));
    let text =
        temp.write("text", b"mkdir /e\nmove /film 0x20000\nresize /next 0x600\nadd /e/new\n");
    let (sheet, record) = (temp.at("day.sheet"), temp.at("totals"));
    let other = temp.write("other.iso", &film_master());
    let [clip, text, sheet, record, other] =
        [&clip, &text, &sheet, &record, &other].map(|path| path.to_str().unwrap());
    assert_eq!(run(&["sheet", "--compile", text, sheet]).status, 0);
    let (svg, out) = (temp.at("map.svg"), temp.at("out"));
    let (svg, out) = (svg.to_str().unwrap(), out.to_str().unwrap());
    // With how the run ends.
    let edits: [&[&str]; 14] = [
        &["move", "IMAGE", "film", "0x20000"],
        &["move", "IMAGE", "film", "auto"],
        &["resize", "IMAGE", "film", "0x4000"],
        &["resize", "IMAGE", "film", "0x1001"],
        &["fill", "IMAGE", "next", clip],
        &["fill", "IMAGE", "next", "/dev/stdin"],
        &["add", "IMAGE", "d/new.bin"],
        &["mkdir", "IMAGE", "d/x/y"],
        &["rewrite", "IMAGE"],
        &["maximum", "IMAGE", "0x12345"],
        &["sheet", "IMAGE", sheet],
        &["move", "IMAGE", "film", "0x20000", "--record", record],
        &["sheet", "IMAGE", sheet, "--record", record],
        &["resize", "IMAGE", "film", "0x3210", "--record", record],
    ];
    let others: [&[&str]; 13] = [
        &["recover", "IMAGE"],
        &["record", "IMAGE", "--record", record, "--force"],
        &["list", "IMAGE"],
        &["info", "IMAGE"],
        &["tree", "IMAGE"],
        &["free", "IMAGE"],
        &["check", "IMAGE"],
        &["hash", "IMAGE"],
        &["cat", "IMAGE", "film"],
        &["map", "IMAGE", svg],
        &["extract", "IMAGE", "film", out],
        &["compare", "IMAGE", other],
        &["place", "IMAGE", "0x100"],
    ];
    let mut written = 0;
    let mut look = |args: &[&str], path: &Path, cut: bool| {
        let name = path.to_str().unwrap();
        let args: Vec<&str> =
            args.iter().map(|&word| if word == "IMAGE" { name } else { word }).collect();
        let input = args.contains(&"/dev/stdin").then(|| Path::new(clip));
        let Some((run, calls)) = watched(&temp, &args, input) else { return false };
        assert!([0, 20].contains(&run.status), "{args:?}: {} {}", run.status, run.err);
        assert_eq!(calls[0].program, "counter", "{calls:?}");
        let journal = journal_of(&image);
        let mut of_writer = 0;
        for call in &calls {
            let of_image = call.file.as_deref() == Some(&*image) || call.line.contains("disc.iso");
            let by_name = ["open", "openat", "openat2", "creat"].contains(&&*call.call);
            if call.program == "counter" {
                let harmless = [
                    "execve",
                    "access",
                    "faccessat",
                    "faccessat2",
                    "stat",
                    "lstat",
                    "statx",
                    "newfstatat",
                    "readlink",
                    "readlinkat",
                    "statfs",
                    "chdir",
                    "getcwd",
                    "mmap",
                ];
                match of_image || call.line.contains("link.iso") {
                    true if by_name => assert!(!call.writes(), "{args:?}: {}", call.line),
                    true if call.call == "mmap" => {
                        let shared =
                            call.line.contains("PROT_WRITE") && call.line.contains("MAP_SHARED");
                        assert!(!shared, "{args:?}: {}", call.line);
                    }
                    true => assert!(harmless.contains(&&*call.call), "{args:?}: {}", call.line),
                    false => {}
                }
                continue;
            }
            assert_eq!(call.program, WRITER, "{args:?}: {}", call.line);
            of_writer += 1;
            if !(by_name && call.writes()) {
                continue;
            }
            let Some(file) = &call.file else { continue };
            let name = file.file_name().unwrap().to_str().unwrap();
            let known = *file == image || *file == journal || name.starts_with("counter-record.");
            assert!(known, "{args:?}: {}", call.line);
            let dry = args.contains(&"--dry-run");
            assert!(!dry, "{args:?}: {}", call.line);
            written += usize::from(*file == image);
        }
        let edits = !others.iter().any(|other| other[0] == args[0]) || args[0] == "recover";
        assert_eq!(of_writer > 0, edits, "{args:?}: {of_writer} calls of {WRITER}");
        assert!(
            !cut || args[0] != "recover" || run.out.contains("finished an edit"),
            "{}",
            run.out
        );
        true
    };
    for args in edits {
        for path in [&image, &link] {
            fs::write(&image, film_master()).unwrap();
            let _ = fs::remove_file(record);
            let dry = [args, &["--dry-run"]].concat();
            if !look(&dry, path, false) || !look(args, path, false) {
                return;
            }
        }
    }
    fs::write(&image, film_master()).unwrap();
    for args in others {
        look(args, &link, false);
    }
    // One that was cut is finished by the next edit, and by recover.
    let Some(shim) = Shim::get() else { return };
    for args in [&["recover", "IMAGE"][..], &["recover", "IMAGE", "--anyway"], edits[7]] {
        fs::write(&image, film_master()).unwrap();
        let mut command = program();
        command.args(["move", image.to_str().unwrap(), "film", "0x20000", "--record", record]);
        let _ = fs::remove_file(record);
        shim.at(&mut command, image_write(1), Do::Kill);
        assert_eq!(Run::from(command.output().unwrap()).status, 78);
        look(args, &link, true);
    }
    assert!(written > 20, "{written}");
    println!("{written} times an image was opened for writing, each time by {WRITER}");
}

// How much --------------------------------------------------------------------------------

/// The most memory that a process has had, in KiB.
fn memory_of(process: u32) -> u64 {
    let told = fs::read_to_string(format!("/proc/{process}/status")).unwrap();
    let line = told.lines().find_map(|line| line.strip_prefix("VmHWM:")).unwrap();
    line.trim().split(' ').next().unwrap().parse().unwrap()
}

/// That of a C program that does nothing but wait, with the shim in it.
fn empty_program(temp: &Temp, shim: Shim) -> u64 {
    let source =
        temp.write("empty.c", b"#include <stdio.h>\nint main(void) { return getchar(); }\n");
    let out = temp.at("empty");
    assert!(Command::new("cc").arg("-o").args([&out, &source]).status().unwrap().success());
    let mut command = Command::new(out);
    shim.watch(&mut command);
    let mut child = command.stdin(Stdio::piped()).spawn().unwrap();
    // It waits, and has all that it ever has.
    let state = format!("/proc/{}/stat", child.id());
    while !fs::read_to_string(&state).unwrap().contains(") S ") {}
    let memory = memory_of(child.id());
    drop(child.stdin.take());
    child.wait().unwrap();
    memory
}

/// The writer's memory at the end of an edit, when its journal is about to be taken away; and its steps.
fn measured(temp: &Temp, shim: Shim, image: &Path, args: &[&str]) -> (u64, Vec<Step>) {
    let log = temp.at("log");
    let _ = fs::remove_file(&log);
    let mut command = program();
    command.arg(args[0]).arg(image).args(&args[1..]).stdout(Stdio::piped());
    shim.log(&mut command, &log);
    command.env("SHIM_BARE", "1").env("SHIM_READS", "1");
    let (child, gate) = shim.stopped(temp, command, At { kinds: "u", files: "j", n: 1 });
    let memory = memory_of(read_log(&log)[0].process);
    drop(gate);
    let run = Run::from(child.wait_with_output().unwrap());
    assert_eq!(run.status, 0, "{args:?}: {}", run.err);
    (memory, read_log(&log))
}

/// As many entries as a table may have, and texts as long as they may be; the first file has bytes.
fn largest_table() -> Vec<u8> {
    use counter_sys::{MOST_ENTRIES, MOST_TEXT};
    let count = MOST_ENTRIES - 1;
    let name = MOST_TEXT / MOST_ENTRIES;
    let mut table = vec![0; 12 * count];
    table[0] = 1;
    put(&mut table, 8, count as u32);
    let mut texts = Vec::new();
    for entry in 1..count {
        put(&mut table, 12 * entry, texts.len() as u32);
        if entry == 1 {
            put(&mut table, 12 + 4, 0x40_0000);
            put(&mut table, 12 + 8, 0x10_0000);
        }
        texts.extend(format!("{entry:05}").bytes());
        texts.resize(texts.len() + name - 6, b'x');
        texts.push(0);
    }
    table.extend(texts);
    table
}

/// An image of 1.46 GB with that table, sparse.
fn largest(path: &Path) {
    const DISC: u32 = 0x5705_8000;
    let table = largest_table();
    let mut start = vec![0; 0x500];
    put(&mut start, 0x1C, 0xC233_9F3D);
    put(&mut start, 0x424, 0x500);
    put(&mut start, 0x428, table.len() as u32);
    put(&mut start, 0x434, DISC);
    start.extend(&table);
    let file = File::create(path).unwrap();
    file.set_len(DISC.into()).unwrap();
    file.write_all_at(&start, 0).unwrap();
    file.write_all_at(&clip(0x10_0000, 5), 0x40_0000).unwrap();
}

/// The bytes of the image that it read, and those that it wrote; no byte is written twice.
fn amounts(steps: &[Step]) -> (u64, u64) {
    let of = |what: u8| steps.iter().filter(move |step| step.what == what && step.on == IMAGE);
    let read = of(b'R').map(|step| step.len).sum();
    let mut spans: Vec<(u64, u64)> = of(b'w').map(|step| (step.at, step.at + step.len)).collect();
    spans.sort();
    assert!(spans.windows(2).all(|two| two[0].1 <= two[1].0), "a byte is written twice");
    (read, spans.iter().map(|(start, end)| end - start).sum())
}

#[test]
fn the_writer_holds_little_and_reads_what_it_needs() {
    let Some(shim) = Shim::get() else { return };
    let temp = Temp::in_memory();
    let image = temp.at("disc.iso");
    let empty = empty_program(&temp, shim);
    println!("an empty program: {empty} KiB");
    let given = temp.at("clip.bin");
    File::create(&given).unwrap().set_len(64 << 20).unwrap();
    let given = given.to_str().unwrap();
    largest(&image);
    let first = Table::of(&image).entries[1].path.clone();
    let table = u64::from(get(&span(&image, 0, 0x440), 0x428));
    let edits: [&[&str]; 6] = [
        &["move", &first, "0x30000000"],
        &["resize", &first, "0x200000"],
        &["add", "new.bin"],
        &["fill", &first, given],
        &["maximum", "0x1234567"],
        &["resize", &first, "5"],
    ];
    for args in edits {
        let (memory, steps) = measured(&temp, shim, &image, args);
        let (read, written) = amounts(&steps);
        println!("{args:?}: {memory} KiB, {read} bytes read, {written} bytes written");
        assert!(memory <= empty + (4 << 10), "{args:?}: {memory} KiB, empty {empty} KiB");
        // Header and table, perhaps twice, and what is copied within the image.
        assert!(read < 4 * table + (3 << 20), "{args:?}: {read} bytes read");
    }
}

/// How many bytes may be had on the disk that holds a folder.
fn room(folder: &Path) -> u64 {
    let told = Command::new("df").args(["-B1", "--output=avail"]).arg(folder).output().unwrap();
    let told = String::from_utf8(told.stdout).unwrap();
    told.lines().last().unwrap().trim().parse().unwrap()
}

/// 1 GiB, where there is room; each byte of it is written once at its new place and once zeroed at its old one.
#[test]
fn a_long_move_writes_each_byte_once() {
    let Some(shim) = Shim::get() else { return };
    let temp = Temp::in_memory();
    let size: u32 = if room(&temp.at("")) > 6 << 30 { 1 << 30 } else { 256 << 20 };
    let image = temp.at("disc.iso");
    let disc = File::create(&image).unwrap();
    let (from, to) = (0x10_0000, 0x10_0000 + size);
    let entries = [file("film", from, size), file("next", 0x6_0000, 0x700)];
    disc.set_len(u64::from(to) + u64::from(size)).unwrap();
    disc.write_all_at(&start_of_disc(&entries, to + size), 0).unwrap();
    // Its first and last bytes, and one of each MiB; all else is a hole.
    let marks: Vec<u64> =
        (0..u64::from(size)).step_by((1 << 20) - 1).chain([u64::from(size) - 9]).collect();
    for &at in &marks {
        disc.write_all_at(&at.to_be_bytes(), u64::from(from) + at).unwrap();
    }
    let empty = empty_program(&temp, shim);
    let (memory, steps) = measured(&temp, shim, &image, &["move", "film", &to.to_string()]);
    let (read, written) = amounts(&steps);
    println!(
        "{size} bytes moved: {memory} KiB (an empty program {empty}), {read} read, {written} written"
    );
    let table = Table::of(&image);
    let all =
        2 * u64::from(size) + (table.table_end - u64::from(get(&span(&image, 0, 0x440), 0x424)));
    assert!((2 * u64::from(size)..=all + 4).contains(&written), "{written} of {all}");
    assert!(read < u64::from(size) + (1 << 20), "{read}");
    assert!(memory <= empty + (4 << 10), "{memory} KiB, empty {empty} KiB");
    assert_eq!(table.entry("/film").offset, to);
    for &at in &marks {
        assert_eq!(span(&image, u64::from(to) + at, 8), at.to_be_bytes());
        assert_eq!(span(&image, u64::from(from) + at, 8), [0; 8]);
    }
}
