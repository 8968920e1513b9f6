//! What the tests share: a folder that goes away, runs of the program, images made from YAGCD's
//! layouts, a reader of tables of its own, and a reader of JSON. Nothing here asks libcounter.

#![allow(dead_code)]

pub mod journal;
pub mod power;
pub mod shim;

use std::collections::BTreeMap;
use std::ffi::{CStr, OsStr, c_char};
use std::fs::{self, File, OpenOptions};
use std::io::{Read as _, Write as _};
use std::os::fd::FromRawFd;
use std::os::unix::fs::{FileExt, MetadataExt, OpenOptionsExt, PermissionsExt};
use std::os::unix::process::CommandExt;
use std::os::unix::process::ExitStatusExt;
use std::path::{Path, PathBuf};
use std::process::{Child, Command, Output, Stdio};
use std::sync::OnceLock;
use std::sync::atomic::{AtomicU32, Ordering};
use std::thread;
use std::time::Duration;

// A folder --------------------------------------------------------------------------------

pub struct Temp(PathBuf);

impl Temp {
    pub fn new() -> Temp {
        Temp::below(&std::env::temp_dir())
    }

    /// In memory where there is such a disk, so that a sync takes no time.
    pub fn in_memory() -> Temp {
        let memory = Path::new("/dev/shm");
        if memory.is_dir() { Temp::below(memory) } else { Temp::new() }
    }

    fn below(folder: &Path) -> Temp {
        static NEXT: AtomicU32 = AtomicU32::new(0);
        let n = NEXT.fetch_add(1, Ordering::SeqCst);
        let path = folder.join(format!("counter-test-{}-{n}", std::process::id()));
        fs::create_dir(&path).unwrap();
        Temp(path)
    }

    pub fn at(&self, name: &str) -> PathBuf {
        self.0.join(name)
    }

    pub fn write(&self, name: &str, bytes: &[u8]) -> PathBuf {
        let path = self.at(name);
        fs::write(&path, bytes).unwrap();
        path
    }
}

impl Drop for Temp {
    fn drop(&mut self) {
        let _ = fs::remove_dir_all(&self.0);
    }
}

/// Says what this machine has not, past the test runner, which keeps what a test that passes prints.
/// Only for what docs/GUIDE.md names: what else is not there fails its test.
pub fn not_tried(what: &str) {
    let _ = writeln!(std::io::stderr(), "not tried: {what}");
}

// Runs ------------------------------------------------------------------------------------

pub struct Run {
    pub status: i32,
    pub signal: Option<i32>,
    pub bytes: Vec<u8>,
    pub out: String,
    pub err: String,
}

impl From<Output> for Run {
    fn from(output: Output) -> Run {
        Run {
            status: output.status.code().unwrap_or(-1),
            signal: output.status.signal(),
            out: String::from_utf8_lossy(&output.stdout).into_owned(),
            bytes: output.stdout,
            err: String::from_utf8_lossy(&output.stderr).into_owned(),
        }
    }
}

unsafe extern "C" {
    fn signal(number: i32, handler: usize) -> usize;
}

/// The program, with the signals that it minds as a terminal leaves them: whoever runs the tests in
/// the background may ignore some, and what is ignored would stay so.
pub fn program() -> Command {
    let mut command = Command::new(env!("CARGO_BIN_EXE_counter"));
    // Whoever runs the tests may have another locale.
    command.stdin(Stdio::null()).env("LC_ALL", "C.UTF-8");
    // Only where it is wanted: a plain start takes a third of the time.
    if signals_are_ignored() {
        // SAFETY: between fork and exec only `signal` is called, which may be called there.
        unsafe {
            command.pre_exec(|| {
                for number in MINDED {
                    signal(number, DEFAULT);
                }
                Ok(())
            });
        }
    }
    command
}

/// Those that people send.
pub const MINDED: [i32; 4] = [SIGHUP, SIGINT, SIGQUIT, SIGTERM];
const DEFAULT: usize = 0;
const IGNORED: usize = 1;

fn signals_are_ignored() -> bool {
    static FOUND: OnceLock<bool> = OnceLock::new();
    *FOUND.get_or_init(|| {
        MINDED.into_iter().any(|number| {
            // SAFETY: what is found is put back.
            let found = unsafe { signal(number, DEFAULT) };
            unsafe { signal(number, found) };
            found == IGNORED
        })
    })
}

/// The program that alone writes to images, where `program` finds it too.
pub fn writer() -> PathBuf {
    let beside = || Path::new(env!("CARGO_BIN_EXE_counter")).with_file_name("counter-write");
    std::env::var_os("COUNTER_WRITE").map_or_else(beside, PathBuf::from)
}

pub fn run<S: AsRef<OsStr>>(args: &[S]) -> Run {
    program().args(args).output().unwrap().into()
}

/// Runs with the image as the second argument.
pub fn on(command: &str, image: &Path, rest: &[&str]) -> Run {
    program().arg(command).arg(image).args(rest).output().unwrap().into()
}

/// Runs, wants success, gives standard output.
pub fn done(command: &str, image: &Path, rest: &[&str]) -> String {
    let run = on(command, image, rest);
    assert_eq!(run.status, 0, "{command} {rest:?}: {}", run.err);
    run.out
}

/// Who may do what a file's mode lets others do.
pub fn mode(path: &Path, mode: u32) {
    fs::set_permissions(path, fs::Permissions::from_mode(mode)).unwrap();
}

unsafe extern "C" {
    fn geteuid() -> u32;
}

/// A copy of the program that everybody may run, with the one that writes beside it.
pub fn copied(temp: &Temp) -> PathBuf {
    let (counter, beside) = (temp.at("counter"), temp.at("counter-write"));
    // Not by fs::copy: a child that another test starts meanwhile would hold the copy open, and none could
    // run it.
    for (from, to) in [(Path::new(env!("CARGO_BIN_EXE_counter")), &counter), (&writer(), &beside)] {
        let copied = Command::new("cp").arg(from).arg(to).status();
        assert!(copied.unwrap().success());
        mode(to, 0o755);
    }
    counter
}

/// A program whose user may not do everything: whoever may runs it as another user.
pub fn held_back(program: &Path) -> Command {
    const NOBODY: u32 = 65534;
    let mut command = Command::new(program);
    // The one that writes lies beside the copy.
    command.env_remove("COUNTER_WRITE");
    if unsafe { geteuid() } == 0 {
        command.uid(NOBODY);
    }
    command
}

/// A run that waits in the midst of the writing: its log is a pipe, `log`, of which nobody reads what the
/// pipe cannot hold.
pub fn waiting(
    temp: &Temp,
    mut command: Command,
    is_there: impl Fn(&Child) -> bool,
) -> (Child, File) {
    let pipe = temp.at("log");
    assert!(Command::new("mkfifo").arg(&pipe).status().unwrap().success());
    mode(&pipe, 0o666);
    const O_NONBLOCK: i32 = 0x800;
    let log = File::options().read(true).custom_flags(O_NONBLOCK).open(&pipe).unwrap();
    command.stdout(Stdio::piped()).stderr(Stdio::piped()).env("COUNTER_LOG_WRITES", &pipe);
    let child = command.spawn().unwrap();
    let mut asleep = 0;
    for _ in 0..4000 {
        asleep = if is_there(&child) && sleeps(&child) { asleep + 1 } else { 0 };
        // Ten looks in a row: then it is the pipe that it waits for.
        if asleep == 10 {
            return (child, log);
        }
        thread::sleep(Duration::from_millis(5));
    }
    panic!("{command:?} does not write");
}

/// Whether the program waits for something, by the letter behind its name.
fn sleeps(child: &Child) -> bool {
    let told = fs::read_to_string(format!("/proc/{}/stat", child.id())).unwrap();
    told.rsplit(')').next().is_some_and(|rest| rest.starts_with(" S"))
}

/// Lets it go on to its end.
pub fn go_on(child: Child, mut log: File) -> Run {
    let reader = thread::spawn(move || {
        let mut part = [0; 0x1_0000];
        while let Ok(1..) | Err(_) = log.read(&mut part) {
            thread::sleep(Duration::from_millis(1));
        }
    });
    let run = child.wait_with_output().unwrap().into();
    reader.join().unwrap();
    run
}

/// Runs with --json, wants success, gives the document.
pub fn json(command: &str, image: &Path, rest: &[&str]) -> Json {
    let mut args = rest.to_vec();
    args.push("--json");
    Json::read(&done(command, image, &args))
}

// Edits -----------------------------------------------------------------------------------

/// Runs an edit that must be refused, dry and real, and leave the file as it was.
pub fn refused(image: &Path, args: &[&str], number: i32) {
    let before = State::of(image);
    for dry in [true, false] {
        let mut rest = args[1..].to_vec();
        if dry {
            rest.push("--dry-run");
        }
        let run = on(args[0], image, &rest);
        assert_eq!(run.status, number, "{args:?}: {}{}", run.out, run.err);
        assert!(run.err.contains(&format!("refused {number}: ")), "{args:?}: {}", run.err);
        assert_eq!(run.out, "", "{args:?}");
    }
    assert_eq!(State::of(image), before, "{args:?}");
    assert!(!journal_of(image).exists() && !clip_of(image).exists(), "{args:?}");
}

/// Runs an edit dry, which must leave the file as it was, then real.
pub fn accepted(image: &Path, args: &[&str]) -> String {
    let before = State::of(image);
    let mut dry = args[1..].to_vec();
    dry.push("--dry-run");
    let told = done(args[0], image, &dry);
    assert!(told.contains("nothing was written"), "{told}");
    assert_eq!(State::of(image), before, "{args:?}");
    let out = done(args[0], image, &args[1..]);
    match State::of(image) == before {
        true => assert!(out.ends_with("done: there was nothing to write\n"), "{out}"),
        false => assert!(out.ends_with("done: written and synced\n"), "{out}"),
    }
    assert!(!journal_of(image).exists() && !clip_of(image).exists(), "{args:?}");
    // The dry run said the same things.
    let said = |text: &str| text.lines().rev().skip(1).map(str::to_string).collect::<Vec<_>>();
    let dry: Vec<String> = said(&out).iter().map(|line| format!("dry run: {line}")).collect();
    assert_eq!(said(&told), dry);
    out
}

/// A journal whose gate is open, of no image that there is.
pub const OPEN_JOURNAL: [u8; 1266] = [1; 1266];

/// The journal of an edit of this image, and the clip of a fill.
pub fn journal_of(image: &Path) -> PathBuf {
    beside(image, ".counter-journal")
}

pub fn clip_of(image: &Path) -> PathBuf {
    beside(image, ".counter-clip")
}

fn beside(image: &Path, end: &str) -> PathBuf {
    let mut name = image.as_os_str().to_os_string();
    name.push(end);
    name.into()
}

// A file's state --------------------------------------------------------------------------

/// All that a refusal must leave alone.
#[derive(Debug, PartialEq, Eq)]
pub struct State {
    bytes: u64,
    len: u64,
    modified: (i64, i64),
}

impl State {
    pub fn of(path: &Path) -> State {
        let told = fs::metadata(path).unwrap();
        let modified = (told.mtime(), told.mtime_nsec());
        State { bytes: sum(&fs::read(path).unwrap()), len: told.len(), modified }
    }
}

/// FNV-1a: enough to tell two images apart.
pub fn sum(bytes: &[u8]) -> u64 {
    bytes
        .iter()
        .fold(0xcbf2_9ce4_8422_2325, |h, &b| (h ^ u64::from(b)).wrapping_mul(0x100_0000_01b3))
}

// Images ----------------------------------------------------------------------------------

pub fn put(image: &mut [u8], at: usize, word: u32) {
    image[at..at + 4].copy_from_slice(&word.to_be_bytes());
}

pub fn get(image: &[u8], at: usize) -> u32 {
    u32::from_be_bytes(image[at..at + 4].try_into().unwrap())
}

/// The small master, byte for byte (FORMAT, The small master).
pub fn small_master() -> Vec<u8> {
    let mut image = vec![0; 0x2000];
    put(&mut image, 0x1C, 0xC233_9F3D);
    put(&mut image, 0x424, 0x440);
    put(&mut image, 0x428, 0x1A);
    put(&mut image, 0x434, 0x2000);
    let table = "01000000000000000000000200000000000005000000010061 00".replace(' ', "");
    for i in 0..table.len() / 2 {
        image[0x440 + i] = u8::from_str_radix(&table[2 * i..2 * i + 2], 16).unwrap();
    }
    image
}

/// The small master with `a` filled, so that a copy can be told from zeros.
pub fn filled_master() -> Vec<u8> {
    let mut image = small_master();
    for i in 0..0x100 {
        image[0x500 + i] = i as u8 ^ 0x5A;
    }
    image
}

/// A wish for a tree. Names are bytes.
pub enum Wish {
    File(Vec<u8>, u32, u32),
    Folder(Vec<u8>, Vec<Wish>),
}

pub fn file(name: impl AsRef<[u8]>, offset: u32, size: u32) -> Wish {
    Wish::File(name.as_ref().to_vec(), offset, size)
}

pub fn folder(name: impl AsRef<[u8]>, entries: Vec<Wish>) -> Wish {
    Wish::Folder(name.as_ref().to_vec(), entries)
}

/// A table in YAGCD's layout.
pub fn table(entries: &[Wish]) -> Vec<u8> {
    let (mut records, mut texts) = (Vec::new(), Vec::new());
    records.push([0x0100_0000, 0, 0]);
    lay(entries, 0, &mut records, &mut texts);
    records[0][2] = records.len() as u32;
    let mut out: Vec<u8> = Vec::new();
    for word in records.iter().flatten() {
        out.extend(word.to_be_bytes());
    }
    out.extend(texts);
    out
}

fn lay(entries: &[Wish], parent: u32, records: &mut Vec<[u32; 3]>, texts: &mut Vec<u8>) {
    for wish in entries {
        let at = texts.len() as u32;
        let (Wish::File(name, ..) | Wish::Folder(name, ..)) = wish;
        texts.extend(name);
        texts.push(0);
        match wish {
            Wish::File(_, offset, size) => records.push([at, *offset, *size]),
            Wish::Folder(_, below) => {
                let number = records.len();
                records.push([0x0100_0000 | at, parent, 0]);
                lay(below, number as u32, records, texts);
                records[number][2] = records.len() as u32;
            }
        }
    }
}

/// The offsets of a master as games have them: settings, apploader, program, table.
pub const APPLOADER: usize = 0x2440;
pub const DOL: usize = 0x1E800;
pub const FST: usize = 0x50000;

/// How long its program is.
pub const DOL_SIZE: usize = 0x2_C000;

/// Copies the program of a realistic master to `at`, where the header now finds it.
pub fn program_to(path: &Path, at: u32) {
    let file = OpenOptions::new().write(true).open(path).unwrap();
    file.write_all_at(&span(path, DOL as u64, DOL_SIZE as u64), at.into()).unwrap();
    file.write_all_at(&at.to_be_bytes(), 0x420).unwrap();
}

/// Where the disc of `film_master` ends.
pub const FILM_END: u32 = 0x4_0000;

/// Three files, and free space full of bytes that say where they are from.
pub fn film_master() -> Vec<u8> {
    let entries = [
        file("film", 0x8000, 0x3210),
        file("next", 0xB210, 0x700),
        folder("d", vec![file("song", 0xC000, 0x2001)]),
    ];
    program_master(&entries, FILM_END, 78)
}

/// A disc of `end` bytes with these entries, slack behind their names and an empty program before the table;
/// what is free holds a pattern.
pub fn program_master(entries: &[Wish], end: u32, seed: u32) -> Vec<u8> {
    let mut table = table(entries);
    table.extend([b'x', b'x', 0]);
    let mut image = vec![0; end as usize];
    pattern(&mut image, seed);
    image[..0x440].fill(0);
    put(&mut image, 0x1C, 0xC233_9F3D);
    put_program(&mut image, 0x600, 0, 0);
    put(&mut image, 0x424, 0x440);
    put(&mut image, 0x428, table.len() as u32);
    put(&mut image, 0x434, end);
    image[0x440..0x440 + table.len()].copy_from_slice(&table);
    image
}

/// A program at `at` with one section, the first text: its offset in the program, and its size.
pub fn put_program(image: &mut [u8], at: usize, offset: u32, size: u32) {
    put(image, 0x420, at as u32);
    image[at..at + 0xE4].fill(0);
    put(image, at, offset);
    put(image, at + 0x90, size);
}

/// The start of a realistic master up to the end of its table, which ends at `end`.
pub fn start_of_disc(entries: &[Wish], end: u32) -> Vec<u8> {
    let table = table(entries);
    let mut image = vec![0; FST + table.len()];
    image[..6].copy_from_slice(b"GCTE01");
    image[7] = 2;
    image[0x20..0x2E].copy_from_slice(b"Counter's test");
    put(&mut image, 0x1C, 0xC233_9F3D);
    put(&mut image, 0x400, 0x2_0000);
    put(&mut image, 0x420, DOL as u32);
    put(&mut image, 0x424, FST as u32);
    put(&mut image, 0x428, table.len() as u32);
    // The FST maximum: the table may grow.
    put(&mut image, 0x42C, 0x8000.max(2 * table.len() as u32));
    put(&mut image, 0x430, 0x8_0000);
    put(&mut image, 0x434, end - 0x10_0000);
    put(&mut image, 0x438, 0x10_0000);
    image[APPLOADER..APPLOADER + 10].copy_from_slice(b"2004/02/01");
    pattern(&mut image[APPLOADER + 0x20..APPLOADER + 0x4000], 1);
    dol(&mut image[DOL..DOL + DOL_SIZE]);
    image[FST..].copy_from_slice(&table);
    image
}

/// A program of `DOL_SIZE` bytes: two texts, one data.
fn dol(image: &mut [u8]) {
    let sections: [(usize, u32, u32, u32); 3] = [
        (0, 0x100, 0x8000_3100, 0x2000),
        (1, 0x2100, 0x8000_5100, 0x1_FF00),
        (7, 0x2_2000, 0x8002_5000, 0xA000),
    ];
    for (i, offset, address, size) in sections {
        put(image, 4 * i, offset);
        put(image, 0x48 + 4 * i, address);
        put(image, 0x90 + 4 * i, size);
    }
    put(image, 0xD8, 0x8003_0000);
    put(image, 0xDC, 0x4_0000);
    put(image, 0xE0, 0x8000_3154);
    pattern(&mut image[0x100..], 2);
}

/// Bytes that say where they are from.
pub fn pattern(bytes: &mut [u8], seed: u32) {
    let mut x = seed.wrapping_mul(0x9E37_79B9) | 1;
    for byte in bytes {
        x ^= x << 13;
        x ^= x >> 17;
        x ^= x << 5;
        *byte = x as u8;
    }
}

/// Files of a realistic master of at least 1.5 MiB; `movie` is the size of its film.
pub fn usual(film_at: u32, film: u32) -> Vec<Wish> {
    vec![
        file("opening.bnr", 0x6_0000, 0x1960),
        folder(
            "audio",
            vec![
                file("theme.adp", 0x8_0000, 0x8123),
                folder(
                    "se",
                    vec![file("se000.dsp", 0x9_0000, 0x400), file("se001.dsp", 0x9_0400, 0x3FF)],
                ),
                file("silence.adp", 0, 0),
            ],
        ),
        folder("movie", vec![file("intro.thp", film_at, film)]),
        folder("empty", vec![]),
        folder(
            "text",
            vec![
                folder("en", vec![file("msg.bin", 0xA_0000, 0x1234)]),
                folder("fr", vec![file("msg.bin", 0xA_8000, 0x1235)]),
            ],
        ),
    ]
}

/// A realistic master of 2 MiB.
pub fn usual_master(temp: &Temp) -> PathBuf {
    let path = temp.at("usual.iso");
    sparse(&path, &usual(0x10_0000, 0x4_5678), 0x20_0000);
    path
}

/// A sparse image on the disk: the start, then each file with bytes at its start, middle and end.
pub fn sparse(path: &Path, entries: &[Wish], end: u32) {
    let file = OpenOptions::new().read(true).write(true).create_new(true).open(path).unwrap();
    file.set_len(end.into()).unwrap();
    file.write_all_at(&start_of_disc(entries, end), 0).unwrap();
    for entry in read_table(&file).entries {
        if !entry.folder {
            fill(&file, entry.offset, entry.size);
        }
    }
}

fn fill(file: &File, offset: u32, size: u32) {
    let part = size.min(0x2000);
    for at in [0, ((size - part) / 2) & !0xFFF, size - part] {
        let mut bytes = vec![0; part as usize];
        pattern(&mut bytes, offset ^ at ^ 3);
        file.write_all_at(&bytes, u64::from(offset) + u64::from(at)).unwrap();
    }
}

// Tables, read by themselves --------------------------------------------------------------

#[derive(Debug, Clone, PartialEq, Eq)]
pub struct Entry {
    pub folder: bool,
    /// Without `/` at the end; the root's is empty.
    pub path: String,
    /// The same as it is in the image.
    pub bytes: Vec<u8>,
    pub parent: u32,
    pub offset: u32,
    /// A file's size, a folder's next.
    pub size: u32,
}

#[derive(Debug, Clone, PartialEq, Eq)]
pub struct Table {
    pub end: u64,
    pub table_end: u64,
    pub entries: Vec<Entry>,
    /// Where a program behind the table starts and ends.
    pub program: Option<(u64, u64)>,
}

pub fn read_table(file: &File) -> Table {
    let word = |at: u64| {
        let mut bytes = [0; 4];
        file.read_exact_at(&mut bytes, at).unwrap();
        u32::from_be_bytes(bytes)
    };
    let (fst, size) = (u64::from(word(0x424)), u64::from(word(0x428)));
    let mut table = vec![0; size as usize];
    file.read_exact_at(&mut table, fst).unwrap();
    let end = u64::from(word(0x434)) + u64::from(word(0x438));
    let table_end = fst + size;
    let dol = u64::from(word(0x420));
    // As long as its file size, and at least as its header.
    let program = (dol >= table_end).then(|| {
        let sum = |i: u64| u64::from(word(dol + 4 * i)) + u64::from(word(dol + 0x90 + 4 * i));
        (dol, dol + (0..18).map(sum).max().unwrap().max(0xE4))
    });
    Table { end, table_end, entries: read_entries(&table), program }
}

fn read_entries(table: &[u8]) -> Vec<Entry> {
    let count = get(table, 8) as usize;
    let mut open: Vec<u32> = Vec::new();
    let mut entries: Vec<Entry> = Vec::new();
    for i in 0..count {
        let record = &table[12 * i..12 * i + 12];
        while open.last().is_some_and(|&at| entries[at as usize].size <= i as u32) {
            open.pop();
        }
        let name = 12 * count + (get(record, 0) & 0xFF_FFFF) as usize;
        let name = table[name.min(table.len())..].split(|&b| b == 0).next().unwrap();
        let parent = open.last().copied().unwrap_or(0);
        let bytes = match i {
            0 => Vec::new(),
            _ => [&entries[parent as usize].bytes, &b"/"[..], name].concat(),
        };
        let folder = record[0] == 1;
        if folder {
            open.push(i as u32);
        }
        let (path, offset, size) =
            (String::from_utf8_lossy(&bytes).into_owned(), get(record, 4), get(record, 8));
        entries.push(Entry { folder, path, bytes, parent, offset, size });
    }
    entries
}

impl Table {
    pub fn of(path: &Path) -> Table {
        read_table(&File::open(path).unwrap())
    }

    pub fn entry(&self, path: &str) -> &Entry {
        self.entries.iter().find(|entry| entry.path == path).unwrap()
    }

    /// The free regions, byte by byte of their definition: what no used region covers.
    pub fn free(&self) -> Vec<(u64, u64)> {
        let mut used: Vec<(u64, u64)> = vec![(0, self.table_end)];
        used.extend(self.program);
        for entry in self.entries.iter().filter(|entry| !entry.folder && entry.size > 0) {
            used.push((entry.offset.into(), u64::from(entry.offset) + u64::from(entry.size)));
        }
        used.sort();
        let mut free = Vec::new();
        let mut at = 0;
        for (start, end) in used {
            if start > at {
                free.push((at, start - at));
            }
            at = at.max(end);
        }
        if at < self.end {
            free.push((at, self.end - at));
        }
        free
    }

    pub fn used(&self) -> u64 {
        let files: u64 = self.entries.iter().filter(|e| !e.folder).map(|e| u64::from(e.size)).sum();
        self.table_end + files + self.program.map_or(0, |(start, end)| end - start)
    }

    /// The largest free region's size, 0 if there is none.
    pub fn largest(&self) -> u64 {
        self.free().into_iter().map(|(_, size)| size).max().unwrap_or(0)
    }

    /// What an edit says of its record.
    pub fn record_line(&self, edits: u64) -> String {
        let (used, largest) = (self.used(), self.largest());
        let [used, free, largest, edits] = [used, self.end - used, largest, edits].map(grouped);
        format!(
            "used {used} bytes, free {free} bytes, largest free region {largest} bytes, edits {edits}\n"
        )
    }

    /// The same in the record's file.
    pub fn record_file(&self, edits: u64) -> String {
        let (used, largest) = (self.used(), self.largest());
        format!("counter record 1\nused {used} largest {largest} edits {edits}\n")
    }

    /// Its listing.
    pub fn listing(&self) -> String {
        String::from_utf8_lossy(&self.listing_bytes()).into_owned()
    }

    pub fn listing_bytes(&self) -> Vec<u8> {
        let mut out = format!("total {} used {}\n", self.end, self.used()).into_bytes();
        for (i, e) in self.entries.iter().enumerate() {
            let (letter, first, end) = match e.folder {
                true => ('d', e.parent, "/\n"),
                false => ('f', e.offset, "\n"),
            };
            out.extend(format!("{letter} {i} {first} {} ", e.size).as_bytes());
            out.extend([&e.bytes, end.as_bytes()].concat());
        }
        for (offset, size) in self.free() {
            out.extend(format!("r {offset} {size}\n").as_bytes());
        }
        out
    }
}

/// A number with a comma before each three digits.
pub fn grouped(number: u64) -> String {
    match number {
        0..1000 => number.to_string(),
        _ => format!("{},{:03}", grouped(number / 1000), number % 1000),
    }
}

/// The image at `image` with the file at `path` filled, by the rules' words: the clip where the
/// file lies, if there is room, or else at the largest free multiple of 0x8000, the last among equals;
/// zeros where the file was and is no more; place and size in the table, which has no name shared.
pub fn filled(image: &Path, path: impl AsRef<[u8]>, clip: &[u8]) -> Vec<u8> {
    let table = Table::of(image);
    let number = table.entries.iter().position(|entry| entry.bytes == path.as_ref()).unwrap();
    let Entry { offset, size, .. } = table.entries[number];
    let (from, old_end, len) = (u64::from(offset), u64::from(offset + size), clip.len() as u64);
    // An empty file may lie in the midst of free space.
    let behind = table.free().into_iter().map(|(start, room)| start..start + room);
    let behind = behind.filter(|free| free.contains(&old_end)).map(|free| free.end - old_end);
    let room = old_end - from + behind.sum::<u64>();
    let rests = table.free().into_iter().filter_map(|(start, room)| {
        let at = start.next_multiple_of(0x8000);
        (at + len <= start + room).then(|| (start + room - at, at))
    });
    let to = if len <= room { from } else { rests.max().unwrap().1 };
    let mut bytes = fs::read(image).unwrap();
    bytes[from as usize..old_end as usize].fill(0);
    bytes[to as usize..][..clip.len()].copy_from_slice(clip);
    let record = get(&bytes, 0x424) as usize + 12 * number;
    put(&mut bytes, record + 4, to as u32);
    put(&mut bytes, record + 8, clip.len() as u32);
    bytes
}

/// Bytes that no image has: each clip has its own.
pub fn clip(len: usize, seed: u32) -> Vec<u8> {
    let mut bytes = vec![0; len];
    pattern(&mut bytes, seed ^ 0x5EED);
    bytes
}

/// The bytes of a span of a file.
pub fn span(path: &Path, offset: u64, size: u64) -> Vec<u8> {
    let mut bytes = vec![0; size as usize];
    File::open(path).unwrap().read_exact_at(&mut bytes, offset).unwrap();
    bytes
}

/// When a file was modified, and how many bytes it takes on the disk.
pub fn modified(path: &Path) -> (i64, i64) {
    let told = fs::metadata(path).unwrap();
    (told.mtime(), told.mtime_nsec())
}

pub fn on_disk(path: &Path) -> u64 {
    File::open(path).unwrap().sync_all().unwrap();
    fs::metadata(path).unwrap().blocks() * 512
}

// Signals ---------------------------------------------------------------------------------

pub const SIGKILL: i32 = 9;
pub const SIGHUP: i32 = 1;
pub const SIGINT: i32 = 2;
pub const SIGQUIT: i32 = 3;
pub const SIGTERM: i32 = 15;

unsafe extern "C" {
    fn kill(process: i32, signal: i32) -> i32;
}

pub fn send(child: &Child, signal: i32) {
    unsafe { kill(child.id() as i32, signal) };
}

// A terminal ------------------------------------------------------------------------------

unsafe extern "C" {
    fn posix_openpt(flags: i32) -> i32;
    fn grantpt(fd: i32) -> i32;
    fn unlockpt(fd: i32) -> i32;
    fn ptsname(fd: i32) -> *const c_char;
}

/// A terminal: the side that shows, and the side that a program writes to.
pub fn terminal() -> Option<(File, File)> {
    const O_RDWR_NOCTTY: i32 = 0o402;
    let (shows, name) = unsafe {
        let fd = posix_openpt(O_RDWR_NOCTTY);
        if fd < 0 || grantpt(fd) != 0 || unlockpt(fd) != 0 {
            return None;
        }
        let name = CStr::from_ptr(ptsname(fd)).to_str().ok()?.to_string();
        (File::from_raw_fd(fd), name)
    };
    let writes = OpenOptions::new().read(true).write(true).open(name).ok()?;
    Some((shows, writes))
}

// JSON, read ------------------------------------------------------------------------------

#[derive(Debug, Clone, PartialEq)]
pub enum Json {
    Null,
    Flag(bool),
    Number(f64),
    Text(String),
    List(Vec<Json>),
    Object(BTreeMap<String, Json>),
}

impl Json {
    /// Reads one document; anything that is not JSON fails the test.
    pub fn read(text: &str) -> Json {
        let mut reader = Reader { rest: text };
        let value = reader.value();
        reader.blanks();
        assert_eq!(reader.rest, "", "after the JSON document");
        value
    }

    pub fn at(&self, name: &str) -> &Json {
        match self {
            Json::Object(fields) => {
                fields.get(name).unwrap_or_else(|| panic!("no {name} in {self:?}"))
            }
            _ => panic!("no object: {self:?}"),
        }
    }

    pub fn list(&self) -> &[Json] {
        match self {
            Json::List(items) => items,
            _ => panic!("no list: {self:?}"),
        }
    }

    pub fn number(&self) -> u64 {
        match self {
            Json::Number(number) => *number as u64,
            _ => panic!("no number: {self:?}"),
        }
    }

    pub fn text(&self) -> &str {
        match self {
            Json::Text(text) => text,
            _ => panic!("no text: {self:?}"),
        }
    }

    pub fn flag(&self) -> bool {
        match self {
            Json::Flag(flag) => *flag,
            _ => panic!("no flag: {self:?}"),
        }
    }
}

/// The names of all fields, of what is inside too.
pub fn fields(json: &Json) -> Vec<String> {
    match json {
        Json::Object(all) => all
            .iter()
            .flat_map(|(name, value)| [vec![name.clone()], fields(value)].concat())
            .collect(),
        Json::List(items) => items.iter().flat_map(fields).collect(),
        _ => Vec::new(),
    }
}

struct Reader<'a> {
    rest: &'a str,
}

impl Reader<'_> {
    fn blanks(&mut self) {
        self.rest = self.rest.trim_start_matches([' ', '\n', '\t', '\r']);
    }

    fn take(&mut self, token: &str) -> bool {
        self.blanks();
        match self.rest.strip_prefix(token) {
            Some(rest) => {
                self.rest = rest;
                true
            }
            None => false,
        }
    }

    fn want(&mut self, token: &str) {
        assert!(self.take(token), "{token} wanted at {:.60}", self.rest);
    }

    fn value(&mut self) -> Json {
        if self.take("null") {
            return Json::Null;
        }
        if self.take("true") {
            return Json::Flag(true);
        }
        if self.take("false") {
            return Json::Flag(false);
        }
        if self.take("[") {
            return Json::List(self.members("]", Reader::value));
        }
        if self.take("{") {
            let fields = self.members("}", |reader| {
                reader.blanks();
                let name = reader.string();
                reader.want(":");
                (name, reader.value())
            });
            let count = fields.len();
            let fields: BTreeMap<String, Json> = fields.into_iter().collect();
            assert_eq!(fields.len(), count, "a name twice");
            return Json::Object(fields);
        }
        if self.rest.starts_with('"') {
            return Json::Text(self.string());
        }
        let end =
            self.rest.find(|c: char| !"-+.eE0123456789".contains(c)).unwrap_or(self.rest.len());
        let (digits, rest) = self.rest.split_at(end);
        self.rest = rest;
        Json::Number(digits.parse().unwrap_or_else(|_| panic!("no number: {digits:?} {rest:.40}")))
    }

    fn members<T>(&mut self, end: &str, mut one: impl FnMut(&mut Self) -> T) -> Vec<T> {
        let mut items = Vec::new();
        if self.take(end) {
            return items;
        }
        loop {
            items.push(one(self));
            if self.take(end) {
                return items;
            }
            self.want(",");
        }
    }

    fn string(&mut self) -> String {
        self.want("\"");
        let mut out = String::new();
        loop {
            let c = self.rest.chars().next().expect("an ended string");
            self.rest = &self.rest[c.len_utf8()..];
            match c {
                '"' => return out,
                '\\' => {
                    let c = self.rest.chars().next().unwrap();
                    self.rest = &self.rest[1..];
                    out.push(match c {
                        'u' => {
                            let (digits, rest) = self.rest.split_at(4);
                            self.rest = rest;
                            char::from_u32(u32::from_str_radix(digits, 16).unwrap()).unwrap()
                        }
                        'n' => '\n',
                        't' => '\t',
                        c => {
                            assert!("\"\\/".contains(c), "escape {c}");
                            c
                        }
                    });
                }
                c => {
                    assert!(c >= ' ', "a control character in a string");
                    out.push(c);
                }
            }
        }
    }
}
