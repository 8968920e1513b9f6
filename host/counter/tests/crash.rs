//! Power cuts (support/power.rs): the disk as a cut at every step can leave it is recovered, and compared
//! with image and record before and after the edit, every byte. So is a disk on which the recovery was cut
//! too, or the program was killed and then the recovery cut.

mod support;

use std::fs::{self, File};
use std::ops::Range;
use std::os::unix::fs::FileExt;
use std::path::{Path, PathBuf};
use support::power::*;
use support::shim::*;
use support::*;

// A master --------------------------------------------------------------------------------

const END: u32 = 0x4_0000;
const TABLE: usize = 0xE40;

/// A table of several sectors over a page's end, files of several pages, and free space full of bytes
/// that say where they are from. Names can be shared, so that a rewrite changes the table's size.
fn master(spare: usize) -> Vec<u8> {
    let mut entries = vec![
        file("film", 0x8000, 0x3210),
        file("next", 0xB210, 0x700),
        folder("d", vec![file("song", 0xC000, 0x2001), folder("e", vec![file("none", 0, 0)])]),
        file("far", 0x3_8000, 0x1800),
    ];
    for i in 0..60 {
        let name: &'static str = Box::leak(format!("part{i:02}.bin").into_boxed_str());
        entries.push(file(name, 0x1_0000 + i * 0x100, 0x80 + i));
    }
    let mut table = table(&entries);
    // Texts that no entry has: a rewrite leaves them out.
    table.extend(vec![b'x'; spare]);
    *table.last_mut().unwrap() = 0;
    let mut image = vec![0; END as usize];
    pattern(&mut image, 77);
    image[..TABLE].fill(0);
    put(&mut image, 0x1C, 0xC233_9F3D);
    put(&mut image, 0x420, 0x500);
    put(&mut image, 0x424, TABLE as u32);
    put(&mut image, 0x428, table.len() as u32);
    put(&mut image, 0x434, END);
    image[TABLE..TABLE + table.len()].copy_from_slice(&table);
    image
}

// A bench ---------------------------------------------------------------------------------

/// Image and record at one time.
#[derive(Clone, PartialEq, Eq)]
struct Stage {
    image: Vec<u8>,
    record: Option<Vec<u8>>,
}

/// The image lies in one folder, and the record in another: each has its own names to sync.
struct Bench {
    temp: Temp,
    shim: Shim,
    image: PathBuf,
    record: PathBuf,
    has_record: bool,
    /// Before, and after each edit.
    stages: Vec<Stage>,
}

impl Bench {
    fn new(before: Vec<u8>, record: Option<Vec<u8>>) -> Option<Bench> {
        let shim = Shim::get()?;
        let temp = Temp::in_memory();
        for folder in ["images", "records"] {
            fs::create_dir(temp.at(folder)).unwrap();
        }
        let image = temp.write("images/disc.iso", &before);
        let record_path = fs::canonicalize(temp.at("records")).unwrap().join("totals");
        let stages = vec![Stage { image: before, record }];
        let (record, has_record) = (record_path, false);
        let bench = Bench { temp, shim, image, record, has_record, stages };
        bench.lay(&bench.start());
        Some(bench)
    }

    fn start(&self) -> Found {
        Found::new(self.stages[0].image.clone(), self.stages[0].record.clone())
    }

    fn last(&self) -> &Stage {
        self.stages.last().unwrap()
    }

    /// As it is now.
    fn stage(&self) -> Stage {
        Stage { image: fs::read(&self.image).unwrap(), record: fs::read(&self.record).ok() }
    }

    /// A file outside the image to fill one with.
    fn clip(&self, bytes: &[u8]) -> String {
        self.temp.write("clip.bin", bytes).to_str().unwrap().to_string()
    }

    /// Lays the disk out as it was found; the image stays the same file.
    fn lay(&self, found: &Found) {
        let image = File::options().write(true).open(&self.image).unwrap();
        image.write_all_at(&found.image, 0).unwrap();
        let early = self.temp.at("records/counter-record.1");
        for (path, bytes) in [
            (&journal_of(&self.image), &found.journal),
            (&early, &found.early),
            (&self.record, &found.record),
        ] {
            let _ = fs::remove_file(path);
            bytes.as_ref().map_or(Ok(()), |bytes| fs::write(path, bytes)).unwrap();
        }
        // What recoveries left that were cut themselves.
        for left in fs::read_dir(self.temp.at("records")).unwrap().map(|left| left.unwrap()) {
            if left.file_name().as_encoded_bytes().starts_with(b"counter-record.")
                && left.path() != early
            {
                fs::remove_file(left.path()).unwrap();
            }
        }
    }

    /// Where the files lie that the edit does not name.
    fn others(&self, args: &[&str]) -> Vec<Range<usize>> {
        let named = args.get(1).map_or(String::new(), |path| format!("/{path}"));
        let path = self.temp.write("before.iso", &self.stages[0].image);
        let others = Table::of(&path).entries.into_iter();
        let others = others.filter(|entry| !entry.folder && entry.path != named);
        others.map(|file| file.offset as usize..(file.offset + file.size) as usize).collect()
    }

    /// Runs with the log on; the steps that it logged.
    fn logged(&self, args: &[&str]) -> (Run, Vec<Step>) {
        let log = self.temp.at("log");
        let _ = fs::remove_file(&log);
        let mut command = program();
        command.arg(args[0]).arg(&self.image).args(&args[1..]).env("SHIM_RECORD", &self.record);
        self.shim.log(&mut command, &log);
        (command.output().unwrap().into(), read_log(&log))
    }

    /// Recovers what was found; the number of the stage that this gives, and what was told of it. So many edits
    /// had been said to be done.
    fn recovered(&self, found: &Found, said: usize, way: Way, what: &str) -> (usize, String) {
        self.try_recover(found, said, way).unwrap_or_else(|why| panic!("{what}: {why}"))
    }

    fn try_recover(&self, found: &Found, said: usize, way: Way) -> Result<(usize, String), String> {
        self.lay(found);
        let open = found.is_open();
        let (run, told) = match way {
            Way::Recover => {
                let run = on("recover", &self.image, &[]);
                let told = run.out.clone();
                (run, told)
            }
            Way::NextEdit => {
                let run = on("maximum", &self.image, &["0x12345"]);
                let told = run.err.clone();
                (run, told)
            }
            Way::Writer | Way::Again => {
                let mut command = std::process::Command::new(writer());
                command.current_dir(self.temp.at("images")).arg("disc.iso");
                let run: Run = command.stdin(std::process::Stdio::null()).output().unwrap().into();
                let told =
                    run.out.replace("\"found\":\"finished\"", "finished an edit that was cut: ");
                (run, told)
            }
        };
        wanted(run.status == 0, || format!("{} {}{}", run.status, run.out, run.err))?;
        let finished = told.contains("finished an edit that was cut: ");
        wanted(finished == open, || format!("open {open}: {}{}", run.out, run.err))?;
        if let Way::NextEdit = way {
            // All else is as recovery makes it.
            let image = File::options().read(true).write(true).open(&self.image).unwrap();
            let mut word = [0; 4];
            image.read_exact_at(&mut word, 0x42C).unwrap();
            wanted(word == 0x12345u32.to_be_bytes(), || format!("{word:?}"))?;
            let before = if open { &self.last().image } else { &found.image };
            image.write_all_at(&before[0x42C..0x430], 0x42C).unwrap();
        }
        wanted(!journal_of(&self.image).exists(), || "its journal is left".into())?;
        let now = self.stage();
        let Some(at) = self.stages.iter().position(|stage| *stage == now) else {
            return Err(format!("neither before nor after: {}", self.differences(&now)));
        };
        wanted(said <= at && at <= said + 1, || {
            format!("{said} were said to be done, and {at} are")
        })?;
        if !open {
            let same = now.image == found.image && now.record == found.record;
            wanted(same, || "without a journal something is written".into())?;
        }
        // The record is never ahead.
        if self.has_record {
            let record = self.stages.iter().position(|stage| stage.record == found.record);
            let record = record.ok_or("the record is no stage's")?;
            let next = record == at || record + 1 == at;
            wanted(next, || format!("the record is at {record}, the image at {at}"))?;
            // A recovery that finds the new record in its place may be cut while it writes the same bytes again.
            let whole = found.image == now.image;
            let behind = record != at || whole || matches!(way, Way::Again);
            wanted(behind, || "the record is ahead of the image".into())?;
        }
        Ok((at, told))
    }

    fn differences(&self, now: &Stage) -> String {
        let places = |stage: &Stage| {
            let both = || now.image.iter().zip(&stage.image);
            let at = both().position(|(a, b)| a != b).unwrap_or(0);
            let count = both().filter(|(a, b)| a != b).count();
            format!("{count} bytes from {at:#x} on, record {}", now.record == stage.record)
        };
        self.stages.iter().map(places).collect::<Vec<_>>().join("; ")
    }
}

fn wanted(is_so: bool, why: impl FnOnce() -> String) -> Result<(), String> {
    if is_so { Ok(()) } else { Err(why()) }
}

/// Who recovers.
#[derive(Debug, Clone, Copy)]
enum Way {
    Recover,
    NextEdit,
    /// The program that writes, without counter.
    Writer,
    /// The same after a recovery that was cut.
    Again,
}

/// How many cuts were tried, of what.
#[derive(Default)]
struct Count {
    steps: usize,
    cut: usize,
    stages: Vec<usize>,
    recovery_cut: usize,
    killed: usize,
}

/// Cuts one edit everywhere.
fn cut_everywhere(before: Vec<u8>, args: &[&str], seed: u64) {
    let Some(bench) = Bench::new(before, None) else { return };
    cut_on(bench, args, seed);
}

/// The same for a fill, after which the file is the clip.
fn cut_fill(before: Vec<u8>, path: &str, len: usize, seed: u64) {
    let Some(bench) = Bench::new(before, None) else { return };
    let bytes = clip(len, seed as u32);
    let given = bench.clip(&bytes);
    let bench = cut_on(bench, &["fill", path, &given, "--empty"], seed);
    fs::write(&bench.image, &bench.last().image).unwrap();
    let entry = Table::of(&bench.image).entry(&format!("/{path}")).clone();
    assert!(span(&bench.image, entry.offset.into(), entry.size.into()) == bytes, "{path}");
}

/// The same with a record, which has counted the edit exactly if the image is the one after it: one that is
/// there, and one that the edit makes.
fn cut_with_record(before: Vec<u8>, args: &[&str], seed: u64) {
    for count in [Some(41), None] {
        let temp = Temp::in_memory();
        let table = Table::of(&temp.write("before.iso", &before));
        let old = count.map(|count| table.record_file(count).into_bytes());
        let Some(mut bench) = Bench::new(before.clone(), old) else { return };
        bench.has_record = true;
        let record = bench.record.to_str().unwrap().to_string();
        let bench = cut_on(bench, &[args, &["--record", &record]].concat(), seed);
        let after = Table::of(&temp.write("after.iso", &bench.last().image));
        let wanted = after.record_file(count.unwrap_or(0) + 1).into_bytes();
        assert!(bench.last().record == Some(wanted), "{args:?}");
    }
}

/// The same of a record with teams, where the edit costs its team so many bytes.
fn cut_with_teams(before: Vec<u8>, args: &[&str], cost: u64, seed: u64) {
    let temp = Temp::in_memory();
    let text = |image: &[u8], taken: u64, edits: u64| {
        let table = Table::of(&temp.write("image.iso", image));
        let (used, largest) = (table.used(), table.largest());
        format!(
            "counter record 2\nused {used} largest {largest} teams 2\n\
             team 3 limit none share 9 taken {taken} edits {edits} name desk\n\
             team 4 limit 0 share 1 taken 0 edits 7\n"
        )
        .into_bytes()
    };
    let Some(mut bench) = Bench::new(before.clone(), Some(text(&before, 5, 41))) else { return };
    bench.has_record = true;
    let record = bench.record.to_str().unwrap().to_string();
    let bench = cut_on(bench, &[args, &["--record", &record, "--team", "desk"]].concat(), seed);
    let wanted = text(&bench.last().image, 5 + cost, 42);
    assert!(bench.last().record == Some(wanted), "{args:?}");
}

fn cut_on(mut bench: Bench, args: &[&str], seed: u64) -> Bench {
    let (run, steps) = bench.logged(args);
    assert_eq!(run.status, 0, "{args:?}: {}", run.err);
    bench.stages.push(bench.stage());
    let others = bench.others(args);
    let mut random = Random(seed);
    let what = format!("{args:?}");
    let count = cut_steps(&bench, &steps, &others, &mut random, &what, |_, _| {});
    println!(
        "{args:?}: {} steps, {} cuts, of which {:?} came before and after; {} cuts of recoveries, {} after a kill",
        count.steps, count.cut, count.stages, count.recovery_cut, count.killed
    );
    assert!(count.stages.iter().all(|&count| count > 2), "{args:?}: {:?}", count.stages);
    bench
}

/// All cuts of these steps, which come from the first stage to the last one.
fn cut_steps(
    bench: &Bench,
    steps: &[Step],
    others: &[Range<usize>],
    random: &mut Random,
    what: &str,
    goes_on: impl Fn(usize, &str),
) -> Count {
    let start = Disk::new(bench.start());
    let done = bench.stages.len() - 1;
    // The log is true: all steps together give image and record after the edit, and no journal.
    let mut disk = start.clone();
    steps.iter().for_each(|step| disk.take(step));
    assert_eq!(disk.unsure(), 0, "{what}: the last step is a sync");
    let last = bench.last();
    let wanted = Found::new(last.image.clone(), last.record.clone());
    assert!(disk.seen() == wanted, "{what}: the log is not what was done");
    assert_eq!(disk.said, done, "{what}");

    let mut count =
        Count { steps: steps.iter().filter(|step| step.counts()).count(), ..Count::default() };
    count.stages = vec![0; done + 1];
    let mut again = Vec::new();
    let mut other = random.clone();
    cuts(&start, steps, random, |found, said| {
        // Even before it is recovered.
        let first = &bench.stages[0].image;
        let whole = |span: &Range<usize>| found.image[span.clone()] == first[span.clone()];
        assert!(others.iter().all(whole), "{what}: a file that the edit does not name");
        let way = if count.cut % 8 == 7 { Way::NextEdit } else { Way::Recover };
        let (at, told) = bench.recovered(found, said, way, &format!("{what}, cut {}", count.cut));
        if let Way::Recover = way {
            goes_on(at, &told);
        }
        count.stages[at] += 1;
        count.cut += 1;
        let few = again.len() < 2 || other.below(12) == 0;
        if found.is_open() && again.len() < 4 * done && few {
            again.push((found.clone(), at));
        }
    });

    // The recovery is cut too, and then what it left is recovered.
    for (found, at) in again {
        bench.lay(&found);
        let (run, steps) = bench.logged(&["recover"]);
        assert_eq!(run.status, 0, "{what}: {}{}", run.out, run.err);
        let what = format!("{what}, recovery cut");
        cuts(&Disk::new(found), &steps, random, |found, said| {
            let (now, _) = bench.recovered(found, at - 1 + said, Way::Again, &what);
            assert_eq!(now, at, "{what}");
            count.recovery_cut += 1;
        });
    }

    // The program is killed: what is read may be newer than what is on the disk, and the recovery is cut.
    let kills: Vec<usize> = (1..steps.len()).filter(|&at| steps[at].counts()).collect();
    for _ in 0..3 * done {
        let at = kills[random.below(kills.len())];
        let mut disk = start.clone();
        steps[..at].iter().for_each(|step| disk.take(step));
        bench.lay(&disk.seen());
        let (run, steps) = bench.logged(&["recover"]);
        assert_eq!(run.status, 0, "{what}: {}{}", run.out, run.err);
        disk.begin_anew();
        let what = format!("{what}, killed before step {at}, recovery cut");
        cuts(&disk, &steps, random, |found, said| {
            bench.recovered(found, said, Way::Again, &what);
            count.killed += 1;
        });
    }
    count
}

// The edits -------------------------------------------------------------------------------

#[test]
fn inserts_survive_a_power_cut() {
    cut_everywhere(master(0), &["add", "d/e/new.bin"], 1);
    cut_everywhere(master(700), &["add", "last"], 2);
    cut_everywhere(master(0), &["mkdir", "d/x/y/z"], 3);
}

#[test]
fn moves_survive_a_power_cut() {
    cut_everywhere(master(0), &["move", "film", "0x20000"], 4);
    cut_everywhere(master(0), &["move", "far", "0x5000"], 5);
    cut_everywhere(master(0), &["move", "next", "0x2FFFE"], 6);
    cut_everywhere(master(1500), &["move", "d/song", "0x30001"], 7);
}

/// Of a file that is copied in more than one piece.
#[test]
fn a_move_in_pieces_survives_a_power_cut() {
    let entries = [file("film", 0x8000, 0x8_1234), file("next", 0x9_0000, 0x700)];
    cut_everywhere(program_master(&entries, 0x12_0000, 80), &["move", "film", "0x98001"], 44);
}

#[test]
fn a_move_of_an_empty_file_survives_a_power_cut() {
    cut_everywhere(master(0), &["move", "d/e/none", "0xFFFFFFFF"], 8);
}

#[test]
fn shrinks_survive_a_power_cut() {
    cut_everywhere(master(0), &["resize", "film", "0x1001"], 9);
    cut_everywhere(master(0), &["resize", "far", "0"], 10);
    cut_everywhere(master(1200), &["resize", "d/song", "0x2000"], 11);
}

#[test]
fn growing_in_place_survives_a_power_cut() {
    cut_everywhere(master(0), &["resize", "far", "0x7000"], 12);
    cut_everywhere(master(900), &["resize", "d/song", "0x3000"], 13);
}

#[test]
fn growing_elsewhere_survives_a_power_cut() {
    cut_everywhere(master(0), &["resize", "film", "0x4000"], 14);
    cut_everywhere(master(1100), &["resize", "next", "0x5432"], 15);
}

#[test]
fn fills_where_the_file_lies_survive_a_power_cut() {
    cut_fill(master(0), "film", 0x3210, 17);
    cut_fill(master(0), "film", 0x1001, 18);
    cut_fill(master(800), "far", 0x2345, 19);
    cut_fill(master(0), "next", 0, 20);
    cut_fill(master(0), "part07.bin", 0x87, 21);
}

#[test]
fn fills_that_move_survive_a_power_cut() {
    cut_fill(master(0), "film", 0x3211, 22);
    cut_fill(master(1100), "next", 0x1432, 23);
    cut_fill(master(0), "d/e/none", 0x777, 24);
}

#[test]
fn a_rewrite_that_shrinks_the_table_survives_a_power_cut() {
    cut_everywhere(master(2000), &["rewrite"], 16);
}

/// No byte of the image is written but the four of the field, nor in the recovery.
#[test]
fn another_maximum_survives_a_power_cut() {
    let Some(bench) = Bench::new(master(0), None) else { return };
    let mut wanted = bench.last().image.clone();
    put(&mut wanted, 0x42C, 0x1234_5678);
    let bench = cut_on(bench, &["maximum", "0x12345678"], 33);
    assert!(bench.last().image == wanted);
    bench.lay(&bench.start());
    let (_, steps) = bench.logged(&["maximum", "0x12345678"]);
    let outside = |step: &&Step| {
        let field = step.at == 0x42C && step.bytes.len() == 4;
        step.on == IMAGE && step.what == b'w' && !field
    };
    assert_eq!(steps.iter().find(outside).map(|step| step.at), None);
}

#[test]
fn a_record_goes_with_its_edit_through_a_power_cut() {
    cut_with_record(master(0), &["mkdir", "d/x"], 25);
    cut_with_record(master(0), &["move", "next", "0x2FFFE"], 26);
    cut_with_record(master(0), &["resize", "far", "0x1001"], 27);
    cut_with_record(master(900), &["rewrite"], 28);
}

#[test]
fn a_record_goes_with_a_fill_through_a_power_cut() {
    let temp = Temp::new();
    let given = temp.write("given", &clip(0x700, 28));
    cut_with_record(master(0), &["fill", "next", given.to_str().unwrap()], 35);
    let given = temp.write("longer", &clip(0x1432, 29));
    cut_with_record(master(0), &["fill", "next", given.to_str().unwrap()], 36);
}

#[test]
fn a_record_with_teams_goes_with_its_edit_through_a_power_cut() {
    cut_with_teams(master(0), &["mkdir", "e"], 14, 33);
    cut_with_teams(master(0), &["move", "next", "0x2FFFE"], 0, 34);
}

/// An edit that leaves the image as it is and is counted: the record is the old one or the new one, whole.
#[test]
fn a_record_alone_survives_a_power_cut() {
    cut_with_record(master(0), &["resize", "film", "0x3210"], 29);
}

// Sheets ----------------------------------------------------------------------------------

/// Cuts a sheet at every step: behind each line that was said to be done image and record stay.
fn cut_sheet(lines: &[&str], seed: u64) {
    let temp = Temp::in_memory();
    let table = Table::of(&temp.write("before.iso", &master(0)));
    let record = table.record_file(41).into_bytes();
    let Some(mut bench) = Bench::new(master(0), Some(record)) else { return };
    bench.has_record = true;
    let name = bench.record.to_str().unwrap().to_string();
    for line in lines {
        let words: Vec<&str> = line.split(' ').collect();
        done(words[0], &bench.image, &[&words[1..], &["--record", &name]].concat());
        bench.stages.push(bench.stage());
    }
    bench.lay(&bench.start());
    let text = temp.write("text", lines.join("\n").as_bytes());
    let sheet = temp.at("day.sheet");
    let (text, sheet) = (text.to_str().unwrap(), sheet.to_str().unwrap());
    assert_eq!(run(&["sheet", "--compile", text, sheet]).status, 0);
    let (run, steps) = bench.logged(&["sheet", sheet, "--record", &name]);
    assert_eq!(run.status, 0, "{}", run.err);
    assert!(bench.stage() == *bench.last(), "{}", run.out);
    let image = bench.image.display();
    // What was told of a line that was finished, and from there to the end.
    let goes_on = |at: usize, told: &str| {
        let from = (at + 1).to_string();
        if told.contains("finished") {
            let line = format!("was cut: {sheet}, line {at} of {}: {}", lines.len(), lines[at - 1]);
            let command: String = line.split(' ').take(8).collect::<Vec<_>>().join(" ");
            assert!(told.contains(&command), "{told}: {command}");
            let next = match at == lines.len() {
                true => "that was the last line of the sheet".into(),
                false => format!(
                    "go on with `counter sheet {image} {sheet} --from {from} --record {name}`"
                ),
            };
            assert!(told.contains(&next), "{told}: {next}");
        }
        if at < lines.len() {
            done("sheet", &bench.image, &[sheet, "--from", &from, "--record", &name]);
            assert!(bench.stage() == *bench.last(), "from line {from}");
        }
    };
    let what = format!("{lines:?}");
    let count = cut_steps(&bench, &steps, &[], &mut Random(seed), &what, goes_on);
    println!(
        "a sheet of {} lines: {} steps, {} cuts, of which {:?} came behind each line; {} cuts of recoveries, {} \
         after a kill",
        lines.len(),
        count.steps,
        count.cut,
        count.stages,
        count.recovery_cut,
        count.killed
    );
    assert!(count.stages.iter().all(|&count| count > 2), "{:?}", count.stages);
}

#[test]
fn a_sheet_survives_a_power_cut_at_each_line() {
    cut_sheet(&["add d/new.bin", "move film 0x20000", "resize far 0x1001"], 41);
    cut_sheet(&["move next 0x2FFFE", "mkdir d/x", "resize film 0x4000", "mkdir d/x/z"], 42);
}

/// A line that writes nothing counts all the same.
#[test]
fn lines_that_write_nothing_are_counted_through_a_power_cut() {
    cut_sheet(&["mkdir x", "resize film 12816", "mkdir y"], 43);
}

// The tests' own eyes ---------------------------------------------------------------------

/// If one of the syncs were left out, a cut would show it. Those are not needed that find nothing new, and the last
/// ones, after which an edit that is done again comes to the same.
#[test]
fn a_sync_that_is_left_out_would_be_seen() {
    let temp = Temp::in_memory();
    let record = Table::of(&temp.write("before.iso", &master(0))).record_file(41).into_bytes();
    let Some(mut bench) = Bench::new(master(0), Some(record)) else { return };
    bench.has_record = true;
    let name = bench.record.to_str().unwrap().to_string();
    let (run, steps) = bench.logged(&["move", "film", "0x20000", "--record", &name]);
    assert_eq!(run.status, 0, "{}", run.err);
    bench.stages.push(bench.stage());
    let start = Disk::new(bench.start());
    let (mut seen, mut unseen) = (Vec::new(), Vec::new());
    for at in (0..steps.len()).filter(|&at| matches!(steps[at].what, b's' | b'f')) {
        let mut less = steps.clone();
        let step = less.remove(at);
        let mut random = Random(7 + at as u64);
        let mut why = None;
        cuts(&start, &less, &mut random, |found, said| {
            if why.is_none() {
                why = bench.try_recover(found, said, Way::Writer).err();
            }
        });
        let name = format!("{} {}", step.what as char, step.on as char);
        match why {
            Some(why) => seen.push((name, why)),
            None => unseen.push(name),
        }
    }
    println!("seen: {seen:#?}\nnot needed: {unseen:?}");
    let of = |name: &str| seen.iter().filter(|(one, _)| one == name).count();
    // The journal's name and the record's; the note and both gates; the copy and what follows it; the record.
    assert!(of("f f") >= 2 && of("s j") >= 3 && of("s i") >= 2 && of("s r") >= 1, "{seen:#?}");
}

// Any edits -------------------------------------------------------------------------------

/// Edits one after another, at random: files and table that share sectors, places right beside each
/// other, sizes of every kind.
#[test]
fn any_edits_survive_a_power_cut() {
    let mut random = Random(0x1234_5678_9ABC_DEF1);
    let Some(mut bench) = Bench::new(master(300), None) else { return };
    let (mut accepted, mut states) = (0, 0);
    for turn in 0..120 {
        if accepted == 36 {
            break;
        }
        let given = bench.clip(&clip(random.below(0x3000), turn));
        let args = any_edit(&bench.image, turn, given, &mut random);
        let args: Vec<&str> = args.iter().map(String::as_str).collect();
        let (run, steps) = bench.logged(&args);
        bench.stages.push(bench.stage());
        if bench.stages[0] == bench.stages[1] {
            let touched = steps.iter().any(|step| step.on == IMAGE && step.what == b'w');
            assert!(!touched, "{args:?}");
            bench.stages.pop();
            continue;
        }
        assert_eq!(run.status, 0, "{args:?}: {}", run.err);
        accepted += 1;
        let mut found = Vec::new();
        cuts(&Disk::new(bench.start()), &steps, &mut random, |one, said| {
            if one.is_open() {
                found.push((one.clone(), said));
            }
        });
        // Those that differ most from both ends first.
        found.sort_by_cached_key(|(found, _)| {
            let is_stage = bench.stages.iter().any(|stage| stage.image == found.image);
            (is_stage, sum(&found.image) ^ sum(found.journal.as_ref().unwrap()))
        });
        for (found, said) in found.iter().take(12) {
            let what = format!("turn {turn}, {args:?}");
            assert_eq!(bench.recovered(found, *said, Way::Recover, &what).0, 1, "{what}");
            states += 1;
        }
        bench.stages.remove(0);
        bench.lay(&bench.start());
    }
    println!("{accepted} edits, {states} cuts");
    assert!(accepted > 20 && states > 100, "{accepted} edits, {states} cuts");
}

fn any_edit(image: &Path, turn: u32, given: String, random: &mut Random) -> Vec<String> {
    let table = Table::of(image);
    let files: Vec<&Entry> = table.entries.iter().filter(|entry| !entry.folder).collect();
    let file = match random.below(3) {
        // The large ones more often.
        0 => files[random.below(files.len())],
        _ => files.iter().max_by_key(|file| file.size ^ (random.below(0x4000) as u32)).unwrap(),
    };
    let behind = u64::from(file.offset) + u64::from(file.size);
    let words: Vec<String> = match random.below(11) {
        0 => vec!["add".into(), format!("new{turn}")],
        1 => vec!["mkdir".into(), format!("d/m{turn}/n")],
        2 => vec!["rewrite".into()],
        3 => vec!["resize".into(), file.path.clone(), random.below(0x5000).to_string()],
        4 => vec!["resize".into(), file.path.clone(), (file.size / 2).to_string()],
        5 => vec!["move".into(), file.path.clone(), table.table_end.to_string()],
        6 => vec!["move".into(), file.path.clone(), behind.to_string()],
        10 => vec!["maximum".into(), (0x8000 + turn).to_string()],
        7..=8 => vec!["fill".into(), file.path.clone(), given, "--empty".into()],
        _ => vec!["move".into(), file.path.clone(), random.below(END as usize).to_string()],
    };
    words
}
