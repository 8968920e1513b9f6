//! Edits on a sparse image of 1.46 GB, the size of a real disc.

mod support;

use std::fs::{self, File};
use std::path::Path;
use std::process::Stdio;
use std::thread;
use std::time::Duration;
use support::*;

const DISC: u32 = 0x5705_8000;
const FILM: u32 = 0x1000_0000;
const REEL: u32 = 0x80_0000;
const SMALL: u32 = 2_000;

/// The usual files, a film of 256 MiB, a reel of 8 MiB and 2,000 small files.
fn entries() -> Vec<Wish> {
    let mut entries = usual(0x1000_0000, FILM);
    entries.push(file("reel.thp", 0x3000_0000, REEL));
    let many = (0..SMALL).map(|i| {
        let name: &'static str = Box::leak(format!("part{i:04}.bin").into_boxed_str());
        file(name, 0x4000_0000 + i * 0x8000, 0x1000 + i)
    });
    entries.push(folder("data", many.collect()));
    entries
}

/// Each file's bytes, but for the holes of the film.
fn sums(image: &Path) -> Vec<(String, u64)> {
    let files = Table::of(image).entries.into_iter().filter(|entry| !entry.folder);
    let sum_of = |e: &Entry| {
        let size = u64::from(e.size);
        let part = size.min(0x2000);
        let last = span(image, u64::from(e.offset) + size - part, part);
        sum(&[span(image, e.offset.into(), part), last].concat())
    };
    files.map(|e| (e.path.clone(), if e.size == 0 { 0 } else { sum_of(&e) })).collect()
}

/// Runs, and gives the most memory it was seen to have, in KiB. Pages that it has mapped many times
/// count once.
fn memory_of(image: &Path, args: &[&str]) -> u64 {
    let mut command = program();
    command.arg(args[0]).arg(image).args(&args[1..]).stdout(Stdio::null());
    let mut child = command.spawn().unwrap();
    let seen = format!("/proc/{}/smaps_rollup", child.id());
    let mut most = 0;
    loop {
        let told = fs::read_to_string(&seen).unwrap_or_default();
        let line = told.lines().find_map(|line| line.strip_prefix("Pss:"));
        let memory = line.and_then(|line| line.trim().split(' ').next()?.parse().ok());
        most = most.max(memory.unwrap_or(0));
        if let Some(status) = child.try_wait().unwrap() {
            assert_eq!(status.code(), Some(0), "{args:?}");
            return most;
        }
        thread::sleep(Duration::from_millis(2));
    }
}

fn compare(before: &Path, after: &Path, list: &Path) -> Run {
    on("compare", before, &[after.to_str().unwrap(), "--given", list.to_str().unwrap()])
}

#[test]
fn a_disc_of_real_size_is_read_edited_and_compared() {
    let temp = Temp::new();
    let (before, image) = (temp.at("before.iso"), temp.at("disc.iso"));
    sparse(&before, &entries(), DISC);
    sparse(&image, &entries(), DISC);
    let at_first = on_disk(&image);
    assert!(at_first < 32 << 20, "{at_first}");
    assert!(done("list", &image, &[]) == Table::of(&image).listing());
    assert_eq!(json("info", &image, &[]).at("disc_end").number(), u64::from(DISC));
    assert!(done("tree", &image, &[]).contains("intro.thp"));

    // Refusals and dry runs leave it alone.
    let (old_sums, time) = (sums(&image), modified(&image));
    let film = "movie/intro.thp";
    for (args, number) in [
        (["move", film, "0x10000001"], 20),
        (["move", film, "0x30000000"], 21),
        (["resize", film, "1300M"], 21),
        (["move", "reel.thp", "0x57000000"], 21),
    ] {
        let run = on(args[0], &image, &args[1..]);
        assert_eq!(run.status, number, "{args:?}: {}", run.err);
    }
    done("move", &image, &["reel.thp", "0x56000000", "--dry-run"]);
    // The film's 256 MiB are not copied for it.
    let (long, as_long) = (temp.at("long.bin"), temp.at("as-long.bin"));
    File::create_new(&long).unwrap().set_len(257 << 20).unwrap();
    File::create_new(&as_long).unwrap().set_len(FILM.into()).unwrap();
    for args in [
        ["move", film, "0x44000000"],
        ["resize", film, "1"],
        ["resize", film, "257M"],
        ["fill", film, long.to_str().unwrap()],
        ["fill", film, as_long.to_str().unwrap()],
        ["fill", "data/part0001.bin", long.to_str().unwrap()],
    ] {
        let memory = memory_of(&image, &[args[0], args[1], args[2], "--dry-run"]);
        println!("{args:?}: {memory} KiB");
        assert!(memory < 64 << 10, "{args:?}: {memory} KiB");
    }
    assert_eq!((modified(&image), on_disk(&image)), (time, at_first));

    // A day's work.
    done("move", &image, &["reel.thp", "0x56000000"]);
    done("resize", &image, &["audio/theme.adp", "9M"]);
    done("mkdir", &image, &["/text/de/voice"]);
    done("add", &image, &["text/de/voice/line.bin"]);
    done("resize", &image, &["text/de/voice/line.bin", "64K"]);
    done("resize", &image, &["data/part0007.bin", "100"]);
    let lines = temp.write("lines.bin", &clip(0x1008, 1));
    done("fill", &image, &["data/part0008.bin", lines.to_str().unwrap()]);
    done("rewrite", &image, &[]);

    let table = Table::of(&image);
    assert_eq!(table.entry("/reel.thp").offset, 0x5600_0000);
    assert_eq!(table.entry("/audio/theme.adp").size, 9 << 20);
    assert_eq!(table.entry("/text/de/voice/line.bin").size, 0x1_0000);
    assert_eq!(table.entry("/data/part0007.bin").size, 100);
    assert!(on("cat", &image, &["data/part0008.bin"]).bytes == clip(0x1008, 1));
    assert!(done("list", &image, &[]) == table.listing());
    assert!(span(&image, 0x5600_0000, REEL.into()) == span(&before, 0x3000_0000, REEL.into()));
    assert!(span(&image, 0x3000_0000, REEL.into()).iter().all(|&b| b == 0));
    // The pages that no edit names are neither written nor filled.
    let now = on_disk(&image);
    assert!(now < at_first + 2 * u64::from(REEL) + (2 << 20), "{at_first} -> {now}");
    assert_eq!(fs::metadata(&image).unwrap().len(), u64::from(DISC));

    let named =
        ["/audio/theme.adp", "/data/part0007.bin", "/data/part0008.bin", "/text/de/voice/line.bin"];
    let kept = |sums: &[(String, u64)]| {
        let kept = sums.iter().filter(|(path, _)| !named.contains(&path.as_str()));
        kept.cloned().collect::<Vec<_>>()
    };
    assert!(kept(&sums(&image)) == kept(&old_sums));

    let list = b"reel.thp\naudio/theme.adp\ndata/part0007.bin\ndata/part0008.bin\n";
    let list = temp.write("given.txt", list);
    let run = compare(&before, &image, &list);
    let end = run.out.lines().rev().take(5).collect::<Vec<_>>();
    assert_eq!(run.status, 0, "{end:?}");
    let counts = "2,010 files: 2,005 unchanged, 2 moved, 2 resized, 1 changed, 1 new, 0 gone";
    assert!(end.contains(&counts), "{end:?}");
    let list = temp.write("less.txt", b"reel.thp\naudio/theme.adp\n");
    let run = compare(&before, &image, &list);
    assert_eq!(run.status, 1);
    assert!(run.out.contains("/data/part0007.bin  size 4,103 -> 100  [NOT GIVEN]"));

    let map = temp.at("map.svg");
    done("map", &image, &[map.to_str().unwrap()]);
    assert!(fs::metadata(&map).unwrap().len() < 2 << 20);
    let part = span(&before, 0x4000_0000 + 9 * 0x8000, 0x1009);
    assert!(on("cat", &image, &["data/part0009.bin"]).bytes == part);
}
