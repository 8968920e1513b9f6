//! counter.h from C: the worked example is compiled and run, and the header's numbers hold.

mod support;

use counter_sys::{
    CLUSTER_SIZE, MOST_ENTRIES, MOST_LEVELS, MOST_LINES, MOST_PATH, MOST_REGIONS, MOST_SMALL,
    MOST_SMALL_TABLES, MOST_TABLE, MOST_TEXT, MOST_WORDS, Memory, RECORD_WORDS, Record,
    SHEET_HEADER_SIZE, SHEET_LINE_SIZE, TEAMS, Team, small_table_size,
};
use std::fs;
use std::path::{Path, PathBuf};
use std::process::Command;
use support::*;

fn include() -> PathBuf {
    Path::new(env!("CARGO_MANIFEST_DIR")).join("../include")
}

/// Where libcounter.a is, as host/sys looks for it.
fn library() -> PathBuf {
    let sys = Path::new(env!("CARGO_MANIFEST_DIR")).join("../sys");
    match std::env::var_os("COUNTER_LIB") {
        Some(folder) => sys.join(folder),
        None => sys.join("../../crates/counter/out"),
    }
}

/// Runs a compiler with every warning an error; false if there is none. A C compiler has to be there.
fn compile(compiler: &str, args: &[&str]) -> bool {
    let run = Command::new(compiler)
        .args(["-Wall", "-Wextra", "-Werror", "-pedantic", "-I"])
        .arg(include())
        .args(args)
        .output();
    let Ok(run) = run else {
        assert_ne!(compiler, "cc", "there is no cc");
        not_tried(&format!("counter.h as C++: there is no {compiler}"));
        return false;
    };
    assert!(run.status.success(), "{}", String::from_utf8_lossy(&run.stderr));
    true
}

/// A program over the library.
fn over_library(source: &Path, temp: &Temp) -> PathBuf {
    linked(&[source.to_str().unwrap()], temp)
}

/// The same, of several sources and with options of the linker.
fn linked(sources: &[&str], temp: &Temp) -> PathBuf {
    let out = temp.at("program");
    let folder = library();
    let rest = ["-L", folder.to_str().unwrap(), "-lcounter", "-o", out.to_str().unwrap()];
    compile("cc", &[&["-std=c99"], sources, &rest].concat());
    out
}

#[test]
fn the_worked_example_does_what_the_program_does() {
    let temp = Temp::new();
    let example = over_library(&include().join("example.c"), &temp);
    let image = temp.write("disc.iso", &filled_master());
    let moved = temp.at("moved.iso");
    let run: Run = Command::new(&example)
        .args([image.as_path(), Path::new("/a"), moved.as_path()])
        .output()
        .unwrap()
        .into();
    // The small master's listing; P2 has the place, P5 the free regions after the move.
    let sum: u32 = (0..0x100u32).map(|i| i ^ 0x5A).sum();
    let wanted = format!(
        "8192 bytes, 1370 of them used, 2 entries\n\
         directory 0 \"\" in 0\n\
         file 1 \"a\" in 0: 256 bytes at 1280\n\
         free: 166 bytes at 1114\n\
         free: 6656 bytes at 1536\n\
         the bytes of /a add up to {sum}\n\
         moved /a from 1280 to 1536\n\
         1370 bytes used, 6400 in the largest free region, 1 edit\n\
         free: 422 bytes at 1114\n\
         free: 6400 bytes at 1792\n\
         the bytes of /a add up to {sum}\n"
    );
    assert_eq!((run.status, run.out), (0, wanted), "{}", run.err);
    done("move", &image, &["/a", "0x600"]);
    assert!(fs::read(&image).unwrap() == fs::read(&moved).unwrap());
    // A refusal is told by its number and in words.
    let bad = temp.write("bad.iso", &[0; 0x440]);
    let run: Run = Command::new(&example)
        .args([bad.as_path(), Path::new("/a"), moved.as_path()])
        .output()
        .unwrap()
        .into();
    assert_eq!((run.status, run.err.as_str()), (1, "entries: refused 3: not GameCube magic\n"));
}

#[test]
fn free_space_is_counted_in_clusters_from_c() {
    let temp = Temp::new();
    let text = r#"
#include "counter.h"
#include <stdio.h>
static uint8_t image[0x18123];
static uint32_t words[COUNTER_MOST_WORDS];
static uint32_t list[COUNTER_CLUSTER_WORDS * COUNTER_MOST_REGIONS];
int main(void)
{
    size_t len = fread(image, 1, sizeof image, stdin);
    uint32_t count[1] = { 0 };
    uint32_t number = counter_free_clusters(image, len, words, COUNTER_MOST_WORDS, list,
        sizeof list / sizeof list[0], count);
    uint32_t i;
    for (i = 0; i < count[0]; i++) {
        const uint32_t *region = list + COUNTER_CLUSTER_WORDS * i;
        printf("%u + %u * %u + %u\n", (unsigned)region[0], (unsigned)COUNTER_CLUSTER_SIZE,
            (unsigned)region[1], (unsigned)region[2]);
    }
    return (int)number;
}
"#;
    let program = over_library(&temp.write("clusters.c", text.as_bytes()), &temp);
    // The small master with a longer disc: its second region is 0x600 to 0x18123.
    let mut bytes = small_master();
    bytes.resize(0x1_8123, 0);
    let lines = "166 + 32768 * 0 + 0\n31232 + 32768 * 2 + 291\n";
    for (disc_end, status, lines) in [(0x1_8123, 0, lines), (0x1_8124, 4, "")] {
        put(&mut bytes, 0x434, disc_end);
        let image = fs::File::open(temp.write("disc.iso", &bytes)).unwrap();
        let run: Run = Command::new(&program).stdin(image).output().unwrap().into();
        assert_eq!((run.status, run.out.as_str()), (status, lines));
    }
}

/// The program makes the same of the same list.
#[test]
fn a_master_is_made_from_c() {
    let temp = Temp::new();
    let text = r#"
#include "counter.h"
#include <stdio.h>
#include <string.h>
static uint8_t image[0x10001];
static uint32_t words[COUNTER_MOST_WORDS];
static uint8_t bytes[COUNTER_MOST_TABLE];
int main(int argc, char **argv)
{
    static const uint8_t code[4] = { 'G', 'C', 'T', 'E' };
    static const uint8_t paths[] = "a\0b\0"; /* and the one that ends the text */
    static const uint32_t sizes[2] = { 1, 0x8000 };
    uint32_t disc_end = argc > 1 && strcmp(argv[1], "less") == 0 ? 0x10000 : 0x10001;
    uint32_t number;
    memset(image, 7, sizeof image);
    number = counter_master(image, sizeof image, words, COUNTER_MOST_WORDS, bytes, sizeof bytes, code, disc_end,
        sizes, 2, paths, sizeof paths - 1);
    fwrite(image, 1, sizeof image, stdout);
    return (int)number;
}
"#;
    let program = over_library(&temp.write("master.c", text.as_bytes()), &temp);
    let made: Run = Command::new(&program).output().unwrap().into();
    assert_eq!(made.status, 0);
    let (list, out) = (temp.write("list", b"a 1\nb 0x8000\n"), temp.at("new.iso"));
    let rest = ["--size", "0x10001", "--code", "GCTE", "--from", list.to_str().unwrap()];
    done("new", &out, &rest);
    assert!(fs::read(&out).unwrap() == made.bytes);
    let refused: Run = Command::new(&program).arg("less").output().unwrap().into();
    assert_eq!(refused.status, 21);
    assert!(refused.bytes == [7; 0x1_0001]);
}

/// The program does the same with the same sheet, and stops at the same line.
#[test]
fn a_sheet_is_run_from_c() {
    let temp = Temp::new();
    let text = r#"
#include "counter.h"
#include <stdio.h>
static uint8_t image[0x2000], sheet[0x1000];
static uint32_t words[COUNTER_MOST_WORDS];
static uint8_t bytes[COUNTER_MOST_TABLE];
static const uint32_t limits[COUNTER_TEAMS] = { UINT32_MAX }, shares[COUNTER_TEAMS] = { 0 };
int main(int argc, char **argv)
{
    uint32_t record[COUNTER_RECORD_SLOTS], line[1] = { 7 }, number;
    FILE *file = fopen(argv[argc - 1], "rb");
    size_t len = fread(image, 1, sizeof image, stdin), sheet_len = file ? fread(sheet, 1, sizeof sheet, file) : 0;
    if (counter_make_record(image, len, words, COUNTER_MOST_WORDS, limits, shares, record) != 0)
        return 70;
    number = counter_sheet(image, len, words, COUNTER_MOST_WORDS, bytes, sizeof bytes, record, 0, sheet, sheet_len, line);
    fwrite(image, 1, len, stdout);
    fprintf(stderr, "line %u, %u edits\n", (unsigned)line[0], (unsigned)record[5]);
    return (int)number;
}
"#;
    let program = over_library(&temp.write("sheet.c", text.as_bytes()), &temp);
    let text = "mkdir /d\nadd /d/x\nresize /a 0x180\nmove /a 0x1000\nadd /d/x\nmkdir /e\n";
    let (day, sheet) = (temp.write("day.txt", text.as_bytes()), temp.at("day.sheet"));
    assert_eq!(
        run(&["sheet", "--compile", day.to_str().unwrap(), sheet.to_str().unwrap()]).status,
        0
    );
    let image = temp.write("disc.iso", &filled_master());
    let stdin = fs::File::open(&image).unwrap();
    let from_c: Run = Command::new(&program).arg(&sheet).stdin(stdin).output().unwrap().into();
    assert_eq!((from_c.status, from_c.err.as_str()), (19, "line 5, 4 edits\n"));
    let run = on("sheet", &image, &[sheet.to_str().unwrap()]);
    assert_eq!(run.status, 19);
    assert!(run.err.contains("line 5 of 6: add /d/x: refused 19"), "{}", run.err);
    assert!(fs::read(&image).unwrap() == from_c.bytes);
}

#[test]
fn the_programs_region_is_told_from_c() {
    let temp = Temp::new();
    let text = r#"
#include "counter.h"
#include <stdio.h>
static uint8_t image[0x2000];
static uint32_t words[COUNTER_MOST_WORDS];
static uint32_t list[COUNTER_REGION_WORDS * COUNTER_MOST_REGIONS];
int main(void)
{
    size_t len = fread(image, 1, sizeof image, stdin);
    uint32_t program[COUNTER_PROGRAM_SLOTS] = { 7, 7 };
    uint32_t opened[COUNTER_OPEN_SLOTS] = { 0 };
    uint32_t count[1] = { 0 };
    uint32_t number = counter_program(image, len, words, COUNTER_MOST_WORDS, program);
    printf("%u bytes at %u\n", (unsigned)program[1], (unsigned)program[0]);
    if (number == 0 && counter_open(image, len, words, COUNTER_MOST_WORDS, opened) == 0
        && counter_free_regions(image, len, words, COUNTER_MOST_WORDS, list,
               COUNTER_REGION_WORDS * (opened[3] + 1), count) == 0)
        printf("%u used, %u free regions of %u entries\n", (unsigned)opened[4], (unsigned)count[0],
            (unsigned)opened[3]);
    return (int)number;
}
"#;
    let program = over_library(&temp.write("program.c", text.as_bytes()), &temp);
    let told = |bytes: &[u8]| -> (i32, String) {
        let image = fs::File::open(temp.write("disc.iso", bytes)).unwrap();
        let run: Run = Command::new(&program).stdin(image).output().unwrap().into();
        (run.status, run.out)
    };
    let mut bytes = small_master();
    let lines = "0 bytes at 0\n1370 used, 2 free regions of 2 entries\n";
    assert_eq!(told(&bytes), (0, lines.into()));
    // At least as long as its header.
    put_program(&mut bytes, 0x1000, 0, 1);
    let lines = "228 bytes at 4096\n1598 used, 3 free regions of 2 entries\n";
    assert_eq!(told(&bytes), (0, lines.into()));
    // A refusal leaves the slots as they were.
    put_program(&mut bytes, 0x1000, 0, 0x1001);
    assert_eq!(told(&bytes), (14, "7 bytes at 7\n".into()));
    put_program(&mut bytes, 0x1000, 1, 0xFFFF_FFFF);
    assert_eq!(told(&bytes), (24, "7 bytes at 7\n".into()));
}

/// Ends the process before or behind one of the guide's program's syncs and renames: CUT counts both of each.
/// What is synced is kept in a folder beside the station's, where the program stands.
const CUTTING: &str = r#"
#include <stdio.h>
#include <stdlib.h>
#include <sys/stat.h>
int __real_msync(void *start, size_t len, int how);
int __real_fsync(int file);
int __real_rename(const char *from, const char *to);
static int passed(int answer)
{
    static int count;
    const char *cut = getenv("CUT");
    if (cut != NULL && atoi(cut) == count++)
        _Exit(99);
    return answer;
}
static void write_out(const char *name, const void *start, size_t len)
{
    FILE *file = fopen(name, "wb");
    if (file == NULL || fwrite(start, 1, len, file) != len || fclose(file) != 0)
        _Exit(98);
}
static void keep(const char *name, const char *kept)
{
    static char bytes[4096];
    FILE *file = fopen(name, "rb");
    if (file != NULL) {
        write_out(kept, bytes, fread(bytes, 1, sizeof bytes, file));
        fclose(file);
    } else
        remove(kept);
}
int __wrap_msync(void *start, size_t len, int how)
{
    int answer;
    passed(0);
    answer = __real_msync(start, len, how);
    write_out("../synced/image", start, len);
    return passed(answer);
}
int __wrap_fsync(int file)
{
    struct stat told;
    int answer;
    passed(0);
    answer = __real_fsync(file);
    if (fstat(file, &told) == 0 && S_ISDIR(told.st_mode)) {
        keep("note", "../synced/note");
        keep("record", "../synced/record");
    }
    return passed(answer);
}
int __wrap_rename(const char *from, const char *to)
{
    passed(0);
    return passed(__real_rename(from, to));
}
"#;

// The guide's program syncs the copy and the note, renames it and syncs the folder; then it syncs the table and
// the zeros, renames the note again and syncs the folder.
const NOTE_WRITTEN: usize = 2;
const NOTE_SYNCED: usize = 7;
const TABLE_WRITTEN: usize = 8;
const TABLE_SYNCED: usize = 9;
const DONE: usize = 15;

/// What a cut loses of what was not synced: that of the image, that of the folder.
const LOSSES: [(bool, bool); 4] = [(false, false), (true, false), (false, true), (true, true)];

type PlaceEdit = (&'static str, u32, u32);

/// The guide's program, with the files that it works on.
struct Station {
    temp: Temp,
    program: PathBuf,
    image: PathBuf,
    record: PathBuf,
    note: PathBuf,
}

impl Station {
    fn new() -> Station {
        let temp = Temp::in_memory();
        let page = Path::new(env!("CARGO_MANIFEST_DIR")).join("../../docs/GUIDE.md");
        let page = fs::read_to_string(page).unwrap();
        let blocks: Vec<&str> = page.split("\n```c\n").skip(1).collect();
        assert_eq!(blocks.len(), 1);
        let text = blocks[0].split_once("\n```\n").unwrap().0.to_string() + "\n";
        let source = temp.write("station.c", text.as_bytes());
        let cutting = temp.write("cutting.c", CUTTING.as_bytes());
        let wrap = "-Wl,--wrap=msync,--wrap=fsync,--wrap=rename";
        let sources = [source.to_str().unwrap(), cutting.to_str().unwrap(), wrap];
        let program = linked(&sources, &temp);
        fs::create_dir(temp.at("kept")).unwrap();
        let [image, record, note] =
            ["disc.iso", "kept/record", "kept/note"].map(|name| temp.at(name));
        Station { temp, program, image, record, note }
    }

    /// As before the edit.
    fn begin(&self, image: &[u8], record: Option<&Record>) {
        for folder in ["kept", "synced"].map(|name| self.temp.at(name)) {
            let _ = fs::remove_dir_all(&folder);
            fs::create_dir(&folder).unwrap();
            if let Some(record) = record {
                fs::write(folder.join("record"), noted(record)).unwrap();
            }
        }
        fs::write(&self.image, image).unwrap();
        self.temp.write("synced/image", image);
    }

    fn run(&self, edit: PlaceEdit, cut: Option<usize>) -> Run {
        let (what, file, to) = edit;
        let mut command = Command::new(&self.program);
        command.args([&self.image, &self.temp.at("kept")]);
        command.args([what, &file.to_string(), &to.to_string()]).env_remove("CUT");
        if let Some(cut) = cut {
            command.env("CUT", cut.to_string());
        }
        command.output().unwrap().into()
    }

    /// Takes back what was not synced; false if that is nothing.
    fn lose(&self, (of_image, of_folder): (bool, bool)) -> bool {
        let back = |is_lost: bool, name: &str, file: &Path| {
            let (there, synced) = (fs::read(file).ok(), fs::read(self.temp.at(name)).ok());
            if !is_lost || there == synced {
                return false;
            }
            match synced {
                Some(bytes) => fs::write(file, bytes).unwrap(),
                None => fs::remove_file(file).unwrap(),
            }
            true
        };
        let image = back(of_image, "synced/image", &self.image);
        let note = back(of_folder, "synced/note", &self.note);
        let record = back(of_folder, "synced/record", &self.record);
        image == of_image && (note || record) == of_folder
    }

    /// As the page says it: the note is there, or the record is the old one.
    fn wants_another_run(&self, record: Option<&Record>) -> bool {
        self.note.exists() || fs::read(&self.record).ok() == record.map(noted)
    }

    /// After a cut: the edit is done, or another run does it.
    fn goes_on(
        &self,
        edit: PlaceEdit,
        record: Option<&Record>,
        wanted: &(Vec<u8>, Record),
        what: &str,
    ) {
        if self.wants_another_run(record) {
            let run = self.run(edit, None);
            assert_eq!(run.status, 0, "{what}: {}", run.err);
        }
        assert!(fs::read(&self.image).unwrap() == wanted.0, "{what}");
        assert_eq!(self.kept(), wanted.1.slots(), "{what}");
        assert!(!self.note.exists(), "{what}");
    }

    /// The record, as it is kept.
    fn kept(&self) -> [u32; RECORD_WORDS] {
        let bytes = fs::read(&self.record).unwrap();
        let words: Vec<u32> =
            bytes.chunks(4).map(|word| u32::from_ne_bytes(word.try_into().unwrap())).collect();
        assert_eq!(words.len(), 3 + RECORD_WORDS + 2);
        words[3..3 + RECORD_WORDS].try_into().unwrap()
    }

    /// Nothing but free space tells the image from this one: not tree, header or table, and no file's bytes.
    fn reads_as(&self, wanted: &[u8], what: &str) {
        let wanted = self.temp.write("wanted.iso", wanted);
        let run = on("compare", &wanted, &[self.image.to_str().unwrap()]);
        assert_eq!(run.status, 0, "{what}: {}{}", run.out, run.err);
        assert_eq!(done("list", &self.image, &[]), done("list", &wanted, &[]), "{what}");
    }
}

/// A record in the form of the guide's program.
fn noted(record: &Record) -> Vec<u8> {
    let words = [&[0; 3], &record.slots()[..], &[0; 2]].concat();
    words.into_iter().flat_map(u32::to_ne_bytes).collect()
}

/// The single call, with the record that the guide's program begins with where it has none.
fn whole(image: &[u8], record: Option<Record>, edit: PlaceEdit) -> Result<(Vec<u8>, Record), u32> {
    let (mut words, mut bytes) = (vec![0; MOST_WORDS], vec![0; MOST_TABLE]);
    let mut memory = Memory { words: &mut words, bytes: &mut bytes };
    let mut limits = [0; TEAMS];
    limits[0] = u32::MAX;
    let made = counter_sys::make_record(image, &mut memory, &limits, &[0; TEAMS]);
    let (mut image, mut record) = (image.to_vec(), record.unwrap_or(made.unwrap()));
    let (what, file, to) = edit;
    let call = if what == "move" { counter_sys::move_file } else { counter_sys::resize_file };
    call(&mut image, &mut memory, &mut record, 0, file, to)?;
    Ok((image, record))
}

/// Teams that have edited before, and a record whose first numbers are not the image's.
fn of_teams() -> Record {
    let mut record = Record { used: 0x10_0000, largest: 7, teams: Default::default() };
    record.teams[0] = Team { limit: 0x10_0000, share: 100, taken: 0x1_0000, edits: 5 };
    record.teams[15] = Team { limit: 0, share: 300, taken: 200, edits: u32::MAX };
    record
}

/// Of a team above its limit, which only an edit that costs less than nothing brings below it.
fn of_a_team_above_its_limit() -> Record {
    let mut record = of_teams();
    record.teams[0] = Team { limit: 90, share: 0, taken: 100, edits: u32::MAX - 1 };
    record
}

/// The small master with a table that gets shorter, or, as names are shared, longer.
fn with_another_table(is_shared: bool) -> Vec<u8> {
    let mut image = filled_master();
    if is_shared {
        put(&mut image, 0x448, 3);
        let entries = [0, 0x500, 0x100, 1, 0x1800, 0x80];
        for (i, word) in entries.into_iter().enumerate() {
            put(&mut image, 0x44C + 4 * i, word);
        }
        image[0x464..0x467].copy_from_slice(b"ba\0");
        put(&mut image, 0x428, 0x27);
    } else {
        put(&mut image, 0x428, 0x30);
        image[0x45A..0x46F].fill(b'x');
    }
    image
}

/// Moves, growth elsewhere and in place, shrinks, the present size, on a usual image.
fn usual_edits(temp: &Temp) -> Vec<(Vec<u8>, PlaceEdit)> {
    let usual = usual_master(temp);
    let number = |path: &str| json("find", &usual, &[path]).at("number").number() as u32;
    let edits = [
        ("move", "audio/theme.adp", 0x19_0000),
        ("move", "audio/silence.adp", 0x7_0000),
        ("resize", "audio/se/se000.dsp", 0x2000),
        ("resize", "opening.bnr", 0x3000),
        ("resize", "movie/intro.thp", 0x1000),
        ("resize", "text/fr/msg.bin", 0),
        ("resize", "text/en/msg.bin", 0x1234),
    ];
    let bytes = fs::read(&usual).unwrap();
    edits.map(|(what, path, to)| (bytes.clone(), (what, number(path), to))).into()
}

/// The same on small images, with tables that get shorter and longer; and an empty file that is moved, also to
/// the offset that it has.
fn small_edits() -> Vec<(Vec<u8>, PlaceEdit)> {
    let mut edits = Vec::new();
    for is_shared in [false, true] {
        let image = with_another_table(is_shared);
        for edit in [("move", 1, 1536), ("resize", 1, 128), ("resize", 1, 256)] {
            edits.push((image.clone(), edit));
        }
        let mut image = image;
        put(&mut image, 0x454, 0);
        for to in [0x500, 0x600, 0x440] {
            edits.push((image.clone(), ("move", 1, to)));
        }
    }
    edits.push((with_another_table(false), ("resize", 1, 6912)));
    edits
}

#[test]
fn the_guides_station_goes_on_after_every_cut() {
    let station = Station::new();
    let usual = usual_edits(&station.temp).into_iter().enumerate();
    // A record that is there, and none, by turns.
    let usual = usual.map(|(i, edit)| (edit, (i % 2 == 0).then(of_teams)));
    let small = small_edits().into_iter().enumerate();
    let small = small.map(|(i, edit)| (edit, (i % 2 == 0).then(of_teams)));
    let above = small_edits().into_iter().map(|edit| (edit, Some(of_a_team_above_its_limit())));
    let mut is_above = 0;
    for ((before, edit), record) in usual.chain(small).chain(above) {
        let record = record.as_ref();
        let Ok(wanted) = whole(&before, record.cloned(), edit) else { continue };
        is_above += u32::from(record.is_some_and(|record| record.teams[0].limit == 90));
        for cut in 0..=DONE {
            for loss in LOSSES {
                station.begin(&before, record);
                let run = station.run(edit, Some(cut));
                let what = format!("{edit:?} {cut} {loss:?}");
                assert_eq!(run.status, 99, "{what}: {}", run.err);
                if !station.lose(loss) {
                    continue;
                }
                let from = if loss.0 { TABLE_SYNCED } else { TABLE_WRITTEN };
                station.reads_as(if cut >= from { &wanted.0 } else { &before }, &what);
                station.goes_on(edit, record, &wanted, &what);
            }
        }
        // It has no other step.
        station.begin(&before, record);
        assert_eq!(station.run(edit, Some(DONE + 1)).status, 0);
    }
    // Two moves of an empty file, and that of a full one, and two shrinks cost less than nothing.
    assert!(is_above >= 4, "{is_above}");
}

#[test]
fn the_guides_station_is_cut_twice() {
    let station = Station::new();
    // A shrink, moves, an empty file moved to its own offset: with a table that gets shorter, and longer.
    let edits = small_edits();
    for (i, (before, edit)) in [1, 6, 9].map(|i| edits[i].clone()).into_iter().enumerate() {
        let record = (i % 2 == 1).then(of_teams);
        let record = record.as_ref();
        let wanted = whole(&before, record.cloned(), edit).unwrap();
        for (cut, loss) in (0..=DONE).flat_map(|cut| LOSSES.map(|loss| (cut, loss))) {
            for second in 0.. {
                let mut is_through = false;
                for second_loss in [LOSSES[0], LOSSES[3]] {
                    station.begin(&before, record);
                    station.run(edit, Some(cut));
                    if !station.lose(loss) || !station.wants_another_run(record) {
                        is_through = true;
                        break;
                    }
                    let run = station.run(edit, Some(second));
                    let what = format!("{edit:?} {cut} {loss:?}, {second} {second_loss:?}");
                    assert!([0, 99].contains(&run.status), "{what}: {}", run.err);
                    is_through |= run.status == 0;
                    station.lose(second_loss);
                    station.goes_on(edit, record, &wanted, &what);
                }
                if is_through {
                    break;
                }
            }
        }
    }
}

#[test]
fn the_guides_station_syncs_a_table_that_it_finds() {
    let station = Station::new();
    for (before, edit) in small_edits() {
        station.begin(&before, None);
        station.run(edit, Some(TABLE_WRITTEN));
        let image = fs::read(&station.image).unwrap();
        // It may be in memory only: no zero is written before it is on the drive.
        for cut in 0.. {
            let run = station.run(edit, Some(cut));
            assert_eq!(run.status, 99, "{edit:?} {cut}");
            assert!(fs::read(&station.image).unwrap() == image, "{edit:?} {cut}");
            if fs::read(station.temp.at("synced/image")).unwrap() == image {
                break;
            }
        }
    }
}

#[test]
fn the_guides_station_makes_the_copy_again() {
    let station = Station::new();
    // Something else wrote the new place, which is free, while the table was not written yet.
    let (before, edit) = small_edits().swap_remove(0);
    let wanted = whole(&before, None, edit).unwrap();
    for cut in 0..TABLE_WRITTEN {
        station.begin(&before, None);
        station.run(edit, Some(cut));
        let mut image = fs::read(&station.image).unwrap();
        image[1536..1792].fill(0xAA);
        fs::write(&station.image, &image).unwrap();
        station.goes_on(edit, None, &wanted, &format!("{cut}"));
    }
}

#[test]
fn the_guides_station_takes_no_torn_file_for_none() {
    let station = Station::new();
    let (before, edit) = small_edits().swap_remove(0);
    for record in [None, Some(of_teams())] {
        let record = record.as_ref();
        let wanted = whole(&before, record.cloned(), edit).unwrap();
        // What was written of the note before it had its name is of no account.
        for len in [0, 100, 300] {
            station.begin(&before, record);
            station.run(edit, Some(NOTE_WRITTEN));
            fs::write(station.temp.at("kept/note.new"), vec![0; len]).unwrap();
            station.goes_on(edit, record, &wanted, "note.new");
        }
        for name in ["kept/note", "kept/record"] {
            // One that does not open, one that is not read, two that are torn.
            for (is_link, len) in
                [(true, None), (false, None), (false, Some(0)), (false, Some(283))]
            {
                station.begin(&before, record);
                let file = station.temp.at(name);
                let _ = fs::remove_file(&file);
                match len {
                    None if is_link => std::os::unix::fs::symlink(&file, &file).unwrap(),
                    None => fs::create_dir(&file).unwrap(),
                    Some(len) => fs::write(&file, vec![0; len]).unwrap(),
                }
                let run = station.run(edit, None);
                assert_eq!(run.status, 74, "{name} {is_link} {len:?}: {}", run.err);
                assert!(fs::read(&station.image).unwrap() == before);
                assert_eq!(fs::read(&file).ok().map(|bytes| bytes.len()), len);
            }
        }
    }
    // Nor a folder that is not there.
    fs::remove_dir_all(station.temp.at("kept")).unwrap();
    assert_eq!(station.run(edit, None).status, 74);
    assert!(fs::read(&station.image).unwrap() == before);
}

#[test]
fn the_guides_station_refuses_and_loses_a_note() {
    let station = Station::new();
    let (before, edit) = usual_edits(&station.temp).swap_remove(0);
    let (after, _) = whole(&before, None, edit).unwrap();
    // A refusal leaves all as it was.
    let file = edit.1;
    let full = Record { teams: [Team { taken: 1, ..Team::default() }; TEAMS], ..of_teams() };
    for (refused, record, number) in [
        (("move", 99, 0), None, 15),
        (("move", 0, 0), None, 16),
        (("move", file, 0x8_0001), None, 20),
        (("move", file, 0x10_0000), None, 21),
        (("resize", file, u32::MAX), None, 21),
        (("resize", file, 0x8124), Some(full), 27),
    ] {
        assert_eq!(whole(&before, record, refused).err(), Some(number));
        station.begin(&before, record.as_ref());
        let run = station.run(refused, None);
        assert_eq!(run.status, number as i32, "{}", run.err);
        assert!(fs::read(&station.image).unwrap() == before && !station.note.exists());
        assert_eq!(fs::read(&station.record).ok(), record.as_ref().map(noted));
    }
    // Another edit waits.
    for cut in [NOTE_SYNCED, TABLE_SYNCED] {
        station.begin(&before, None);
        station.run(edit, Some(cut));
        let image = fs::read(&station.image).unwrap();
        assert_eq!(station.run(("move", edit.1, edit.2 + 1), None).status, 65);
        assert!(fs::read(&station.image).unwrap() == image);
        assert_eq!(station.run(edit, None).status, 0);
        assert!(fs::read(&station.image).unwrap() == after);
    }
    // Without the note the old place keeps its bytes, and nothing else is lost. The record is made anew.
    for (before, edit) in [(before, edit)].into_iter().chain(small_edits()) {
        let (after, _) = whole(&before, None, edit).unwrap();
        station.begin(&before, Some(&of_teams()));
        station.run(edit, Some(TABLE_SYNCED));
        let image = fs::read(&station.image).unwrap();
        fs::remove_file(&station.note).unwrap();
        let refused = whole(&image, Some(of_teams()), edit).err().unwrap_or(0);
        assert_eq!(station.run(edit, None).status, refused as i32);
        assert!(fs::read(&station.image).unwrap() == image);
        station.reads_as(&after, "no note");
        fs::remove_file(&station.record).unwrap();
        let file_there = ("resize", edit.1, if edit.0 == "resize" { edit.2 } else { 0 });
        let (image, counted) = whole(&image, None, file_there).unwrap();
        assert_eq!(station.run(file_there, None).status, 0);
        assert!(fs::read(&station.image).unwrap() == image);
        assert_eq!(station.kept(), counted.slots());
    }
}

#[test]
fn the_header_compiles_alone_as_c_and_as_c_plus_plus() {
    let temp = Temp::new();
    let text = "#include \"counter.h\"\n#include \"counter.h\"\n\
                int main(void) { return counter_cause(31) != 0 || counter_cause(0) == 0; }\n";
    for (compiler, name, standard) in [
        ("cc", "alone.c", "-std=c99"),
        ("cc", "alone.c", "-std=c17"),
        ("c++", "alone.cc", "-std=c++11"),
    ] {
        let source = temp.write(name, text.as_bytes());
        let out = temp.at("alone");
        let args = [standard, source.to_str().unwrap(), "-o", out.to_str().unwrap()];
        if compile(compiler, &args) {
            assert!(Command::new(&out).status().unwrap().success(), "{standard}");
        }
    }
}

/// The causes as the library's `Display` tells them, by their numbers; no call of the C face does.
fn of_the_library() -> Vec<String> {
    let source = Path::new(env!("CARGO_MANIFEST_DIR")).join("../../crates/refusal/src/lib.rt");
    let source = fs::read_to_string(source).unwrap();
    let (causes, display) = source.split_once("impl fmt::Display").unwrap();
    let text = |name: &str| {
        let arm = display.split_once(&format!("Refusal::{name} =>")).unwrap().1;
        arm.split('"').nth(1).unwrap().to_string()
    };
    let numbered =
        causes.lines().filter_map(|line| line.trim().strip_suffix(',')?.split_once(" = "));
    let numbered: Vec<(usize, String)> =
        numbered.map(|(name, number)| (number.parse().unwrap(), text(name))).collect();
    assert!(numbered.iter().map(|(number, _)| *number).eq(1..=numbered.len()));
    numbered.into_iter().map(|(_, text)| text).collect()
}

#[test]
fn causes_and_limits_are_those_of_the_rules() {
    let header = fs::read_to_string(include().join("counter.h")).unwrap();
    let table = header.split("causes[] = {\n").nth(1).unwrap().split("};").next().unwrap();
    let causes: Vec<&str> = table
        .lines()
        .filter_map(|line| line.trim().strip_prefix('"')?.strip_suffix("\","))
        .collect();
    assert_eq!(causes[1..], of_the_library());
    let exit = run(&["help", "exit"]).out;
    for (number, cause) in causes.iter().enumerate().skip(1) {
        assert!(exit.contains(&format!("{number:2}  refused: {cause}\n")), "{number} {cause}");
    }
    // RULES, Limits; and what an image within them wants to be lent at most.
    let limits = [
        ("MOST_ENTRIES", MOST_ENTRIES, 16384),
        ("MOST_TEXT", MOST_TEXT, 1048576),
        ("MOST_LEVELS", MOST_LEVELS, 64),
        ("MOST_PATH", MOST_PATH, 1024),
        ("MOST_LINES", MOST_LINES, 1024),
        ("MOST_SMALL", MOST_SMALL as usize, 8),
        ("MOST_SMALL_TABLES", MOST_SMALL_TABLES, 941380),
    ];
    for (name, from_rust, rule) in limits {
        assert_eq!(from_rust, rule, "{name}");
        assert!(header.contains(&format!("#define COUNTER_{name} {rule} ")), "{name}");
    }
    assert_eq!(MOST_REGIONS, MOST_ENTRIES + 1);
    assert_eq!(MOST_WORDS, 4 * (MOST_ENTRIES + 2));
    assert_eq!(MOST_TABLE, 12 * MOST_ENTRIES + MOST_TEXT);
    assert!(header.contains(&format!("#define COUNTER_CLUSTER_SIZE {CLUSTER_SIZE:#x}\n")));
    for (name, bytes) in [("HEADER", SHEET_HEADER_SIZE), ("LINE", SHEET_LINE_SIZE)] {
        assert!(header.contains(&format!("#define COUNTER_SHEET_{name}_BYTES {bytes}\n")));
    }
    assert_eq!(
        (small_table_size(MOST_SMALL), 8_558 * small_table_size(MOST_SMALL)),
        (110, MOST_SMALL_TABLES)
    );
    for line in [
        "#define COUNTER_SMALL_TABLE_BYTES(entries) (14 * (entries) - 2) ",
        "#define COUNTER_MOST_REGIONS (COUNTER_MOST_ENTRIES + 1)\n",
        "#define COUNTER_MOST_WORDS (4 * (COUNTER_MOST_ENTRIES + 2))\n",
        "#define COUNTER_MOST_TABLE (12 * COUNTER_MOST_ENTRIES + COUNTER_MOST_TEXT)\n",
    ] {
        assert!(header.contains(line), "{line}");
    }
    for word in ["01", "Rust", "unplug"] {
        assert!(!header.contains(word), "{word}");
    }
}
