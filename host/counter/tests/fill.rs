//! `fill`: the file is exactly the clip afterwards, and nothing else of the image is touched. The image
//! that is wanted is made here (support), never by libcounter.

mod support;

use std::fs::{self, File};
use std::io::{Read, Seek, SeekFrom, Write};
use std::path::{Path, PathBuf};
use std::process::Stdio;
use support::*;

/// Fills a file, dry and real, and holds the whole image to what is wanted.
fn fill(image: &Path, path: &str, bytes: &[u8]) -> String {
    let wanted = filled(image, path, bytes);
    let clip = image.with_extension("clip");
    fs::write(&clip, bytes).unwrap();
    let out = accepted(image, &["fill", path, clip.to_str().unwrap(), "--empty"]);
    assert!(fs::read(image).unwrap() == wanted, "{path}, {} bytes: {out}", bytes.len());
    assert!(on("cat", image, &[path]).bytes == bytes, "{path}");
    assert_eq!(done("list", image, &[]), Table::of(image).listing());
    out
}

fn place(image: &Path, path: &str) -> (u32, u32) {
    let entry = Table::of(image).entry(path).clone();
    (entry.offset, entry.size)
}

// What it does ----------------------------------------------------------------------------

#[test]
fn a_clip_of_every_length_is_written_where_the_file_lies() {
    let temp = Temp::new();
    let image = usual_master(&temp);
    let path = "/text/en/msg.bin";
    let out = fill(&image, path, &clip(0x1234, 1));
    assert!(out.contains("filled /text/en/msg.bin with "), "{out}");
    assert!(out.contains("usual.clip, byte for byte: 4,660 -> 4,660 bytes\n"), "{out}");
    assert!(out.contains("/text/en/msg.bin stays at 0xa0000\n"), "{out}");
    let out = fill(&image, path, &clip(0x1000, 2));
    assert!(out.contains("4,660 -> 4,096 bytes\n"), "{out}");
    // Up to the file behind it: the grown part is the clip's too, not what the free space held.
    let out = fill(&image, path, &clip(0x8000, 3));
    assert!(out.contains("4,096 -> 32,768 bytes\n") && !out.contains("free space"), "{out}");
    assert_eq!(place(&image, path), (0xA_0000, 0x8000));
    let out = fill(&image, path, &[7]);
    assert!(out.contains("32,768 -> 1 bytes\n"), "{out}");
    let out = fill(&image, path, &[]);
    assert!(out.contains("1 -> 0 bytes\n"), "{out}");
    assert_eq!(place(&image, path), (0xA_0000, 0));
    assert!(span(&image, 0xA_0000, 0x8000).iter().all(|&b| b == 0));
}

#[test]
fn a_clip_that_has_no_room_there_takes_the_largest_place_on_a_cluster() {
    let temp = Temp::new();
    let image = usual_master(&temp);
    // se001.dsp lies right behind it.
    let out = fill(&image, "/audio/se/se000.dsp", &clip(0x401, 4));
    let (to, size) = place(&image, "/audio/se/se000.dsp");
    assert!(to.is_multiple_of(0x8000) && to != 0x9_0000 && size == 0x401, "{to:#x}");
    let moved = format!("moved /audio/se/se000.dsp: 0x90000 -> {to:#x}, 1,025 bytes\n");
    assert!(out.contains(&moved), "{out}");
    assert_eq!(span(&image, 0x9_0000, 0x400), vec![0; 0x400]);
    // One that was empty lies nowhere.
    let out = fill(&image, "/audio/silence.adp", &clip(0x9000, 5));
    assert!(out.contains("0 -> 36,864 bytes\nmoved /audio/silence.adp: 0x0 -> 0x"), "{out}");
    let out = fill(&image, "/audio/silence.adp", &[]);
    assert!(out.contains("stays at 0x"), "{out}");
}

/// Files right behind each other, sizes of every kind, clips of zeros and clips that are there already.
#[test]
fn any_fills_one_after_another() {
    let temp = Temp::in_memory();
    let image = temp.at("tight.iso");
    let names: Vec<&str> = (0..20).map(|i| &"abcdefghijklmnopqrst"[i..=i]).collect();
    let tight = names.iter().zip(0..).map(|(name, i)| file(name, 0x6_0000 + 0x400 * i, 0x400));
    sparse(&image, &tight.collect::<Vec<_>>(), 0x20_0000);
    let files: Vec<String> = names.iter().map(|name| format!("/{name}")).collect();
    let mut random = 0x1357_9BDFu32;
    let mut below = |n: u32| {
        random ^= random << 13;
        random ^= random >> 17;
        random ^= random << 5;
        random % n
    };
    let mut moved = 0;
    for turn in 0..80 {
        let path = &files[below(files.len() as u32) as usize];
        let (from, size) = place(&image, path);
        let len = match below(5) {
            0 => size,
            1 => size + 1,
            2 => size.saturating_sub(below(0x300)),
            3 => below(0x200),
            _ => below(0x6000),
        };
        let bytes = match below(4) {
            0 => vec![0; len as usize],
            _ => clip(len as usize, turn),
        };
        fill(&image, path, &bytes);
        moved += u32::from(place(&image, path).0 != from);
    }
    assert!((10..50).contains(&moved), "{moved} moved");
}

#[test]
fn a_clip_that_is_there_already_is_not_written() {
    let temp = Temp::new();
    let image = usual_master(&temp);
    let time = modified(&image);
    let bytes = span(&image, 0xA_0000, 0x1234);
    let out = fill(&image, "/text/en/msg.bin", &bytes);
    assert!(out.contains("usual.clip already, byte for byte: 4,660 bytes\n"), "{out}");
    assert!(out.ends_with("done: there was nothing to write\n"), "{out}");
    fill(&image, "/audio/silence.adp", &[]);
    assert_eq!(modified(&image), time);
    // Its last byte differs.
    let mut other = bytes.clone();
    *other.last_mut().unwrap() ^= 1;
    let out = fill(&image, "/text/en/msg.bin", &other);
    assert!(out.ends_with("done: written and synced\n"), "{out}");
}

// The way back ----------------------------------------------------------------------------

#[test]
fn extract_and_fill_undo_each_other() {
    let temp = Temp::new();
    let image = usual_master(&temp);
    let before = fs::read(&image).unwrap();
    let out = temp.at("files");
    done("extract", &image, &["--all", out.to_str().unwrap()]);
    let files: Vec<Entry> =
        Table::of(&image).entries.into_iter().filter(|entry| !entry.folder).collect();
    for entry in &files {
        let file = out.join(&entry.path[1..]);
        done("fill", &image, &[&entry.path, file.to_str().unwrap(), "--empty"]);
        assert!(fs::read(&image).unwrap() == before, "{}", entry.path);
        // Other bytes, and back.
        let other = temp.write("other", &clip(entry.size as usize, entry.offset));
        done("fill", &image, &[&entry.path, other.to_str().unwrap(), "--empty"]);
        assert_eq!(fs::read(&image).unwrap() == before, entry.size == 0, "{}", entry.path);
        done("fill", &image, &[&entry.path, file.to_str().unwrap(), "--empty"]);
        assert!(fs::read(&image).unwrap() == before, "{}", entry.path);
    }
    for (i, entry) in files.iter().enumerate() {
        let bytes = clip(entry.size as usize + 0x100 * i, i as u32);
        let (given, got) = (temp.write("given", &bytes), temp.at(&format!("got{i}")));
        done("fill", &image, &[&entry.path, given.to_str().unwrap()]);
        done("extract", &image, &[&entry.path, got.to_str().unwrap()]);
        assert!(fs::read(&got).unwrap() == bytes, "{}", entry.path);
    }
}

#[test]
fn compare_tells_the_file_that_was_filled_and_no_other() {
    let temp = Temp::new();
    let image = usual_master(&temp);
    let before = temp.at("before.iso");
    fs::copy(&image, &before).unwrap();
    let cases = [
        ("/text/en/msg.bin", 0x1234, "changed"),
        ("/opening.bnr", 0x1000, "resized+changed"),
        ("/text/fr/msg.bin", 0x2000, "resized+changed"),
        ("/audio/se/se000.dsp", 0x500, "moved+resized+changed"),
    ];
    for (path, len, wanted) in cases {
        fs::copy(&before, &image).unwrap();
        fill(&image, path, &clip(len, 6));
        let run = on("compare", &before, &[image.to_str().unwrap(), "--json"]);
        assert_eq!(run.status, 1, "{path}: {}", run.err);
        let told = Json::read(&run.out);
        for file in told.at("files").list() {
            let status = if file.at("path").text() == path { wanted } else { "unchanged" };
            assert_eq!(file.at("status").text(), status, "{path}: {file:?}");
        }
        assert!(told.at("areas").list().iter().all(|area| !area.at("changed").flag()), "{path}");
        let list = temp.write("given.txt", format!("{path}\n").as_bytes());
        let args = [image.to_str().unwrap(), "--given", list.to_str().unwrap()];
        assert_eq!(on("compare", &before, &args).status, 0, "{path}");
    }
}

// Where the clip comes from ---------------------------------------------------------------

/// Fills with what standard input gives.
fn fill_from(image: &Path, path: &str, more: &[&str], input: impl Into<Stdio>) -> Run {
    let mut command = program();
    command.arg("fill").arg(image).args([path, "-"]).args(more).stdin(input);
    command.output().unwrap().into()
}

#[test]
fn a_clip_from_standard_input() {
    let temp = Temp::new();
    let image = usual_master(&temp);
    let path = "/text/en/msg.bin";
    let bytes = clip(0x3000, 7);
    let given = temp.write("given", &bytes);
    let piped = |more: &[&str]| {
        let mut cat = std::process::Command::new("cat");
        let mut cat = cat.arg(&given).stdout(Stdio::piped()).spawn().unwrap();
        let run = fill_from(&image, path, more, cat.stdout.take().unwrap());
        cat.wait().unwrap();
        run
    };
    let before = State::of(&image);
    let run = piped(&["--dry-run"]);
    assert_eq!((run.status, State::of(&image)), (0, before), "{}", run.err);
    let wanted = filled(&image, path, &bytes);
    let run = piped(&[]);
    assert_eq!(run.status, 0, "{}", run.err);
    assert!(run.out.contains("with standard input, byte for byte: 4,660 -> 12,288"), "{}", run.out);
    assert!(fs::read(&image).unwrap() == wanted);
    assert!(piped(&[]).out.ends_with("done: there was nothing to write\n"));

    // A file, from where it was read to.
    let mut file = File::open(&given).unwrap();
    file.seek(SeekFrom::Start(0x123)).unwrap();
    let wanted = filled(&image, path, &bytes[0x123..]);
    assert_eq!(fill_from(&image, path, &[], file).status, 0);
    assert!(fs::read(&image).unwrap() == wanted);
    // Nothing at all is an empty clip, which is to be meant.
    let wanted = filled(&image, path, &[]);
    assert_eq!(fill_from(&image, path, &["--empty"], Stdio::null()).status, 0);
    assert!(fs::read(&image).unwrap() == wanted);
    assert!(!journal_of(&image).exists());
}

/// Runs a line of the shell in the folder, with the program on its way.
fn shell(temp: &Temp, line: &str) -> Run {
    let program = Path::new(env!("CARGO_BIN_EXE_counter")).parent().unwrap();
    let path = format!("{}:{}", program.display(), std::env::var("PATH").unwrap());
    let mut command = std::process::Command::new("bash");
    command.args(["-c", line]).current_dir(temp.at("")).env("PATH", path);
    command.env("LC_ALL", "C.UTF-8").output().unwrap().into()
}

/// What stands before a `|` can fail or be cut short, and a clip can be missing in other ways: the file of the
/// only copy is left as it is.
#[test]
fn an_empty_clip_is_not_taken_unless_it_is_meant() {
    let temp = Temp::new();
    let image = usual_master(&temp);
    temp.write("nothing", b"");
    temp.write("short", &clip(0x1000, 20));
    temp.write("none.iso", b"no image");
    let before = State::of(&image);
    let lines = [
        "counter cat usual.iso /no/such | counter fill usual.iso /text/en/msg.bin -",
        "counter cat none.iso /text/en/msg.bin | counter fill usual.iso /text/en/msg.bin -",
        "counter fill usual.iso /text/en/msg.bin - </dev/null",
        "counter fill usual.iso /text/en/msg.bin - <&-",
        "counter fill usual.iso /text/en/msg.bin - <nothing",
        "counter fill usual.iso /text/en/msg.bin nothing",
        "counter fill usual.iso /text/en/msg.bin /dev/null",
        "counter fill usual.iso /text/en/msg.bin nothing --size 1",
        "counter fill usual.iso /text/en/msg.bin nothing --size 1 --empty",
        "counter fill usual.iso /text/en/msg.bin --from usual2.iso:/audio/silence.adp",
        "mkfifo pipe; true > pipe & counter fill usual.iso /text/en/msg.bin pipe",
        // Whatever is read to its end before.
        "exec <short; cat >/dev/null; counter fill usual.iso /text/en/msg.bin -",
        // An empty one too: who filled a file that was just added takes it for done.
        "counter fill usual.iso /audio/silence.adp - </dev/null",
    ];
    fs::copy(&image, temp.at("usual2.iso")).unwrap();
    for line in lines {
        for more in ["", " --dry-run", " --json"] {
            let run = shell(&temp, &format!("rm -f pipe; {line}{more}"));
            assert_eq!(run.status, 65, "{line}{more}: {}{}", run.out, run.err);
            let words =
                if line.contains("--size") { "--size says 1;" } else { "the clip is empty" };
            assert!(run.err.contains(words), "{line}: {}", run.err);
            assert!(run.err.ends_with("; nothing was written\n"), "{line}: {}", run.err);
            assert_eq!(run.out.is_empty(), more != " --json", "{line}: {}", run.out);
            assert_eq!(State::of(&image), before, "{line}");
        }
    }
    let run = shell(&temp, "counter fill usual.iso /text/en/msg.bin - </dev/null");
    assert!(run.err.contains("did the command before the | fail?"), "{}", run.err);
    assert!(!journal_of(&image).exists());
    for meant in ["--empty", "--size 0", "--size=0 --empty"] {
        fs::copy(temp.at("usual2.iso"), &image).unwrap();
        let wanted = filled(&image, "/text/en/msg.bin", &[]);
        let line = format!("counter fill usual.iso /text/en/msg.bin {meant} - </dev/null");
        let run = shell(&temp, &line);
        assert_eq!(run.status, 0, "{line}: {}", run.err);
        assert!(fs::read(&image).unwrap() == wanted, "{line}");
        // Another time there is nothing to be written.
        assert!(shell(&temp, &line).out.ends_with("done: there was nothing to write\n"), "{line}");
    }
}

/// A clip is held to the number of bytes that is expected, from wherever it comes.
#[test]
fn the_number_of_bytes_that_is_expected_is_held_to() {
    let temp = Temp::new();
    let image = usual_master(&temp);
    fs::copy(&image, temp.at("other.iso")).unwrap();
    temp.write("given", &clip(0x1234, 21));
    let sources = [
        ("given", "given", 0x1234),
        ("- <given", "standard input", 0x1234),
        ("- < <(cat given)", "standard input", 0x1234),
        ("--from other.iso:/text/fr/msg.bin", "other.iso:/text/fr/msg.bin", 0x1235),
    ];
    for (source, name, len) in sources {
        let before = State::of(&image);
        for (size, more) in [(len - 1, ""), (len + 1, "--dry-run"), (0, ""), (u32::MAX, "--empty")]
        {
            let line =
                format!("counter fill usual.iso /text/en/msg.bin --size {size} {more} {source}");
            let run = shell(&temp, &line);
            assert_eq!(run.status, 65, "{line}: {}", run.err);
            let [has, says] = [len, size].map(|n| grouped(n.into()));
            let words = format!("{name} ({has} bytes): --size says {says}; nothing was written");
            assert!(run.err.contains(&words), "{line}: {}", run.err);
        }
        assert_eq!(State::of(&image), before, "{source}");
        for size in [len.to_string(), format!("{len:#x}")] {
            let line = format!("counter fill usual.iso /text/en/msg.bin --size {size} {source}");
            assert_eq!(shell(&temp, &line).status, 0, "{line}");
        }
        assert_eq!(place(&image, "/text/en/msg.bin").1, len, "{source}");
    }
    // One without an end is as long as can be told.
    let run = shell(&temp, "counter fill usual.iso /text/en/msg.bin /dev/zero --size 0x1000");
    assert_eq!(run.status, 65, "{}", run.err);
    assert!(run.err.contains("(more than 2,097,152 bytes): --size says 4,096"), "{}", run.err);
    refused(&image, &["fill", "/text/en/msg.bin", "/dev/zero", "--size", "4294967295"], 21);
    for size in ["", "x", "-1", "4294967296", "0x100000000"] {
        let run = on("fill", &image, &["/text/en/msg.bin", "-", "--size", size]);
        assert_eq!(run.status, 64, "{size}: {}", run.err);
    }
    for twice in [["--size", "1", "--size", "1"], ["--from", "a", "--from", "b"]] {
        let run = on("fill", &image, &[&["/text/en/msg.bin"][..], &twice].concat());
        assert!(run.status == 64 && run.err.contains("is given twice"), "{}", run.err);
    }
}

#[test]
fn a_file_of_another_image_is_a_clip() {
    let temp = Temp::new();
    let image = usual_master(&temp);
    let other = temp.at("other.iso");
    fs::copy(&image, &other).unwrap();
    fill(&other, "/text/fr/msg.bin", &clip(0x3000, 22));
    fill(&other, "/opening.bnr", &clip(0x1234, 23));
    let kept = State::of(&other);
    let name = other.to_str().unwrap();
    // At the same path, at another one, as every path may be written.
    let cases = [
        ("/text/fr/msg.bin", name.to_string(), clip(0x3000, 22)),
        ("text/en/msg.bin", format!("{name}:/opening.bnr"), clip(0x1234, 23)),
        ("text/en/msg.bin", format!("{name}:text/../text\\fr/msg.bin"), clip(0x3000, 22)),
    ];
    for (path, from, bytes) in cases {
        let entry = format!("/{}", path.trim_start_matches('/'));
        let wanted = filled(&image, &entry, &bytes);
        let out = accepted(&image, &["fill", path, "--from", &from]);
        assert!(fs::read(&image).unwrap() == wanted, "{from}: {out}");
        assert!(out.contains(" with ") && out.contains("other.iso:"), "{out}");
        let told = json("fill", &image, &[path, "--from", &from]);
        assert!(!told.at("written").flag());
        assert_eq!(told.at("clip").at("size").number(), bytes.len() as u64);
        assert!(told.at("clip").at("name").text().starts_with(name));
    }
    // A name of the system may have a `:`.
    let odd = temp.at("a:b.iso");
    fs::copy(&other, &odd).unwrap();
    for from in [odd.to_str().unwrap().to_string(), format!("{}:opening.bnr", odd.display())] {
        done("fill", &image, &["opening.bnr", "--from", &from]);
        assert!(on("cat", &image, &["opening.bnr"]).bytes == clip(0x1234, 23), "{from}");
    }
    assert_eq!(State::of(&other), kept);
    assert!(!journal_of(&image).exists());
}

#[test]
fn another_image_that_cannot_be_read_is_told_and_nothing_is_written() {
    let temp = Temp::new();
    let image = usual_master(&temp);
    let (other, link) = (temp.at("other.iso"), temp.at("link.iso"));
    fs::copy(&image, &other).unwrap();
    fs::hard_link(&image, &link).unwrap();
    fs::create_dir(temp.at("folder")).unwrap();
    temp.write("none.iso", b"no image");
    assert!(shell(&temp, "mkfifo pipe.iso").status == 0);
    let before = State::of(&image);
    let not_taken = |from: &str, status: i32, words: &str| {
        for more in ["", "--dry-run", "--json"] {
            let line = format!("counter fill usual.iso /opening.bnr --from {from} {more}");
            let run = shell(&temp, &line);
            assert_eq!(run.status, status, "{line}: {}", run.err);
            assert!(run.err.contains(words), "{line}: {}", run.err);
            assert_eq!(State::of(&image), before, "{line}");
        }
    };
    not_taken("usual.iso", 64, "usual.iso:/opening.bnr: the image cannot be filled with itself");
    not_taken("usual.iso:/text/en/msg.bin", 64, "cannot be filled with itself");
    not_taken("link.iso", 64, "cannot be filled with itself");
    not_taken("nothing.iso", 66, "nothing.iso: no such file");
    not_taken("nothing.iso:/opening.bnr", 66, "nothing.iso: no such file");
    not_taken("folder", 66, "folder: a folder, not an image");
    not_taken("pipe.iso", 66, "pipe.iso: a special file, not an image");
    not_taken("none.iso", 1, "none.iso: refused 1: ");
    not_taken("other.iso:/audio", 16, "other.iso:/audio: refused 16: file wanted");
    not_taken("other.iso:", 16, "refused 16: file wanted");
    not_taken("other.iso:/nothing", 18, "other.iso:/nothing: refused 18: not found");
    not_taken("other.iso:/opening.bnr/x", 17, "refused 17: directory wanted");
    not_taken("other.iso:/caf\u{e9}", 64, "U+00E9");
    not_taken("''", 66, "no such file");
    // Both of it, or neither.
    not_taken("other.iso other.iso", 64, "usage: counter fill IMAGE PATH CLIP|--from OTHER[:PATH]");
    // Somebody edits it; an edit of it was cut.
    let held = File::open(&other).unwrap();
    held.lock().unwrap();
    not_taken("other.iso", 75, "other.iso: another program is editing it");
    // Not only dropped: a child of another test that was just started may have it, too.
    held.unlock().unwrap();
    temp.write("other.iso.counter-journal", b"counter journal\n");
    not_taken("other.iso", 78, "other.iso: an edit of this image was cut");
    fs::remove_file(temp.at("other.iso.counter-journal")).unwrap();
    done("fill", &image, &["/opening.bnr", "--from", other.to_str().unwrap()]);
}

/// The edit writes such a file while it reads the clip.
#[test]
fn a_clip_by_the_name_of_a_journal_is_not_taken() {
    let temp = Temp::new();
    let image = usual_master(&temp);
    let before = State::of(&image);
    let bytes = clip(0x1000, 24);
    for name in ["usual.iso.counter-journal", "k.iso.counter-journal"] {
        let left = temp.write(name, &bytes);
        std::os::unix::fs::symlink(&left, temp.at("link")).unwrap();
        let mut ways = vec![name, "link"];
        // What standard input is called cannot be told; that it is beside this image can.
        ways.extend((!name.starts_with('k')).then_some("- <link"));
        for clip in ways {
            for more in ["", "--dry-run"] {
                let run =
                    shell(&temp, &format!("counter fill usual.iso /opening.bnr {more} {clip}"));
                assert_eq!(run.status, 64, "{name} {clip}: {}", run.err);
                assert!(run.err.contains("this is a name that a journal has; "), "{}", run.err);
                assert!(fs::read(&left).unwrap() == bytes, "{name} {clip}");
                assert_eq!(State::of(&image), before, "{name} {clip}");
            }
        }
        fs::remove_file(temp.at("link")).unwrap();
        fs::remove_file(&left).unwrap();
    }
}

/// The image is locked when the whole clip is there: whoever makes it may look into the image.
#[test]
fn a_clip_that_is_waited_for_keeps_nobody_out() {
    let temp = Temp::new();
    let image = usual_master(&temp);
    let mut command = program();
    command.arg("fill").arg(&image).args(["opening.bnr", "-"]).stdin(Stdio::piped());
    let mut child = command.stdout(Stdio::piped()).stderr(Stdio::piped()).spawn().unwrap();
    let mut input = child.stdin.take().unwrap();
    input.write_all(&clip(0x1000, 8)).unwrap();
    done("mkdir", &image, &["/text/de"]);
    let mut more = Vec::new();
    let mut old = File::open(&image).unwrap();
    old.seek(SeekFrom::Start(0x6_1000)).unwrap();
    old.take(0x960).read_to_end(&mut more).unwrap();
    input.write_all(&more).unwrap();
    let bytes = [clip(0x1000, 8), more].concat();
    let wanted = filled(&image, "/opening.bnr", &bytes);
    drop(input);
    let run: Run = child.wait_with_output().unwrap().into();
    assert_eq!(run.status, 0, "{}", run.err);
    assert!(fs::read(&image).unwrap() == wanted);
}

#[test]
fn a_clip_that_cannot_be_had_is_told_and_nothing_is_written() {
    let temp = Temp::new();
    let image = usual_master(&temp);
    let link = temp.at("link");
    fs::hard_link(&image, &link).unwrap();
    let folder = temp.at("folder");
    fs::create_dir(&folder).unwrap();
    let name = |path: &PathBuf| path.to_str().unwrap().to_string();
    let cases = [
        (name(&temp.at("nothing")), 66, "no such file"),
        (name(&folder), 66, "a folder, not a clip"),
        (name(&image), 64, "the image cannot be filled with itself"),
        (name(&link), 64, "the image cannot be filled with itself"),
        // A file of the system whose first byte cannot be read.
        ("/proc/self/mem".into(), 74, "/proc/self/mem: "),
    ];
    let before = State::of(&image);
    for (clip, status, words) in cases {
        for more in [&["--dry-run"][..], &[]] {
            let run = on("fill", &image, &[&["opening.bnr", clip.as_str()][..], more].concat());
            assert_eq!(run.status, status, "{clip}: {}", run.err);
            assert!(run.err.contains(words), "{clip}: {}", run.err);
        }
    }
    let run = fill_from(&image, "opening.bnr", &[], File::open(&image).unwrap());
    assert_eq!(run.status, 64, "{}", run.err);
    assert_eq!(on("fill", &image, &["opening.bnr"]).status, 64);
    assert_eq!(on("fill", &temp.at("nothing"), &["a", link.to_str().unwrap()]).status, 66);
    assert_eq!(State::of(&image), before);
}

#[test]
fn a_clip_that_becomes_shorter_ends_the_edit_before_it_begins() {
    let temp = Temp::new();
    let image = usual_master(&temp);
    let before = State::of(&image);
    // A file of the system that says it has 4,096 bytes, and has fewer.
    let short = Path::new("/sys/kernel/mm/transparent_hugepage/enabled");
    if !short.exists() {
        not_tried("a clip that becomes shorter: no file of the system is shorter than it says");
        return;
    }
    let run = on("fill", &image, &["opening.bnr", short.to_str().unwrap()]);
    assert_eq!(run.status, 74, "{}", run.err);
    assert!(run.err.contains("it became shorter meanwhile; nothing was written"), "{}", run.err);
    assert_eq!(State::of(&image), before);
    assert!(!journal_of(&image).exists());
}

// Refusals --------------------------------------------------------------------------------

#[test]
fn a_refused_fill_writes_nothing() {
    let temp = Temp::new();
    let image = usual_master(&temp);
    let given = temp.write("given", &clip(0x100, 10));
    let given = given.to_str().unwrap();
    refused(&image, &["fill", "audio", given], 16);
    refused(&image, &["fill", "", given], 16);
    refused(&image, &["fill", "nothing", given], 18);
    refused(&image, &["fill", "opening.bnr/x", given], 17);
    refused(&image, &["fill", &"x".repeat(1025), given], 9);
    let long = temp.at("long");
    File::create_new(&long).unwrap().set_len(0x10_0000).unwrap();
    refused(&image, &["fill", "opening.bnr", long.to_str().unwrap()], 21);
    // The folder comes before the length, and 2^32 - 1 bytes are the most.
    for len in [u32::MAX.into(), 1 << 32, 1 << 40] {
        File::options().write(true).open(&long).unwrap().set_len(len).unwrap();
        refused(&image, &["fill", "opening.bnr", long.to_str().unwrap()], 21);
        refused(&image, &["fill", "audio", long.to_str().unwrap()], 16);
    }
    let run = on("fill", &image, &["opening.bnr", long.to_str().unwrap()]);
    assert!(run.err.contains("a file has at most 4,294,967,295 bytes"), "{}", run.err);
    // One without an end is read until it has no place.
    refused(&image, &["fill", "opening.bnr", "/dev/zero"], 21);
    let run = on("fill", &image, &["opening.bnr", "/dev/zero"]);
    assert!(run.err.contains("(more than 2,097,152 bytes)"), "{}", run.err);

    // The largest that fits.
    let small = temp.write("small.iso", &filled_master());
    let most = temp.write("most", &clip(0x1B01, 11));
    refused(&small, &["fill", "a", most.to_str().unwrap()], 21);
    fill(&small, "/a", &clip(0x1B00, 11));
    let mut bytes = filled_master();
    put(&mut bytes, 0x450, 0x459);
    let overlap = temp.write("overlap.iso", &bytes);
    refused(&overlap, &["fill", "a", given], 14);
}

/// A program behind the table is used like a file: a clip goes up to it, and no byte further.
#[test]
fn a_clip_stops_before_the_program() {
    let temp = Temp::new();
    let image = usual_master(&temp);
    program_to(&image, 0x18_0000);
    let most = temp.write("most", &clip(0x8_0001, 12));
    refused(&image, &["fill", "movie/intro.thp", most.to_str().unwrap()], 21);
    fill(&image, "/movie/intro.thp", &clip(0x8_0000, 12));
    fill(&image, "/audio/se/se000.dsp", &clip(0x5_0000, 13));
    assert_eq!(place(&image, "/audio/se/se000.dsp").0, 0x1B_0000);
}

// For scripts -----------------------------------------------------------------------------

#[test]
fn a_fill_answers_in_json() {
    let temp = Temp::new();
    let image = usual_master(&temp);
    let given = temp.write("given", &clip(0x1234, 14));
    let given = given.to_str().unwrap();
    let before = State::of(&image);
    let told = json("fill", &image, &["text/en/msg.bin", given, "--dry-run"]);
    assert!(told.at("dry_run").flag() && !told.at("written").flag());
    assert_eq!(State::of(&image), before);
    let told = json("fill", &image, &["text/en/msg.bin", given]);
    assert_eq!((told.at("status").number(), told.at("edit").text()), (0, "fill"));
    assert_eq!(told.at("path").text(), "text/en/msg.bin");
    assert!(told.at("written").flag());
    let told_clip = told.at("clip");
    assert_eq!((told_clip.at("name").text(), told_clip.at("size").number()), (given, 0x1234));
    // The file is told although its place and size are the same.
    let entries = told.at("entries").list();
    assert_eq!(entries.len(), 1);
    assert_eq!(entries[0].at("path").text(), "/text/en/msg.bin");
    assert_eq!(entries[0].at("before"), entries[0].at("after"));
    let told = json("fill", &image, &["text/en/msg.bin", given]);
    assert!(!told.at("written").flag() && told.at("entries").list().is_empty());
    let run = on("fill", &image, &["text", given, "--json"]);
    assert_eq!((run.status, Json::read(&run.out).at("refused").number()), (16, 16));
    let run = on("fill", &image, &["text/en/msg.bin", "/", "--json"]);
    assert_eq!((run.status, Json::read(&run.out).at("status").number()), (66, 66));
}
