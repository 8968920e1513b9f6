//! The listing program of crates/list itself, on every image whose report a script has: it writes what `report` has to give.
//! ../test makes it, and so does `rt ci`. Only over a library that was there already (COUNTER_LIB) may it be missing.

use replay::run::Stage;
use replay::script;
use std::io::Write;
use std::path::{Path, PathBuf};
use std::process::{Command, Stdio};
use std::{env, fs, io, thread};

fn here() -> &'static Path {
    Path::new(env!("CARGO_MANIFEST_DIR"))
}

/// The program; None, said aloud, where nothing is proved.
fn program() -> Option<PathBuf> {
    let program = here().join("../../crates/list/out/list");
    if program.exists() {
        return Some(program);
    }
    let is_given = env::var_os("COUNTER_LIB").is_some_and(|folder| !folder.is_empty());
    assert!(is_given, "{} is not there: host/test makes it", program.display());
    let said = "not tried: the listing program, which is not there beside a library that was";
    let _ = writeln!(io::stderr(), "{said}");
    None
}

fn listing(program: &Path, image: &[u8]) -> Vec<u8> {
    let mut child =
        Command::new(program).stdin(Stdio::piped()).stdout(Stdio::piped()).spawn().unwrap();
    let (mut stdin, image) = (child.stdin.take().unwrap(), image.to_vec());
    // It reads one byte more than it accepts, and no further.
    let writer = thread::spawn(move || drop(stdin.write_all(&image)));
    let output = child.wait_with_output().unwrap();
    writer.join().unwrap();
    assert!(output.status.success());
    output.stdout
}

#[test]
fn the_listing_program_writes_each_report() {
    let Some(program) = program() else { return };
    let script = fs::read_to_string(here().join("scripts/listing.txt")).unwrap();
    let (mut stage, mut reports) = (Stage::new(), 0);
    for line in script::lines(&script).unwrap() {
        match &line.right {
            None => assert!(stage.set_up(&line.left).unwrap(), "line {}", line.place),
            // The program lends 16,384 words and a long buffer: lines about less are not its affair.
            Some(right)
                if line.left.words[0] == "report"
                    && stage.words() == 16384
                    && line.left.numbers(1).unwrap()[0] >= 0x80 =>
            {
                let given = listing(&program, stage.image());
                assert_eq!(given, right.text, "line {}", line.place);
                reports += 1;
            }
            Some(_) => {}
        }
    }
    assert!(reports > 20, "{reports} reports");
}

/// The small master with zeros behind the disc end, in an input as long as is accepted, and in a longer one.
#[test]
fn an_input_of_65536_bytes_is_judged_and_a_longer_one_refused() {
    let Some(program) = program() else { return };
    let crate_of_list = here().join("../../crates/list");
    let mut image = fs::read(crate_of_list.join("stdin")).unwrap();
    let judged = fs::read(crate_of_list.join("stdout")).unwrap();
    assert!(judged.starts_with(b"total 8192 used 1370\n"));
    assert_eq!(listing(&program, &image), judged);
    for length in [65_535, 65_536] {
        image.resize(length, 0);
        assert_eq!(listing(&program, &image), judged, "{length}");
    }
    for length in [65_537, 65_538, 131_072] {
        image.resize(length, 0);
        assert_eq!(listing(&program, &image), b"refused 9\n", "{length}");
    }
}
