// The original's files, byte for byte, into OUT_DIR: the oracle's own script. And some calls of libcounter.a four times, 16 bytes further
// on each time, and the same of an earlier library where COUNTER_BEFORE names its folder: where a loop comes to lie in memory makes a
// tenth of its time, so that a few percent can be told only over several places.

mod original {
    include!("../../oracle/build.rs");

    pub fn copy() {
        main();
    }
}

use std::env;
use std::ffi::OsStr;
use std::path::Path;
use std::process::Command;

/// Where a function may begin: at these multiples of 16 behind a multiple of 64.
const PLACES: usize = 4;

/// The calls that are timed at four places.
const CALLS: [&str; 18] = [
    "open",
    "totals",
    "lookup",
    "make_record",
    "clear",
    "insert_file",
    "insert_directory",
    "make_directories",
    "move_file",
    "resize_file",
    "fill_file",
    "rewrite",
    "move_copy",
    "move_table",
    "resize_copy",
    "resize_table",
    "zero",
    "sheet",
];

/// What a library moves and zeroes bytes with.
const MEMORY: [&str; 3] = ["memcpy", "memmove", "memset"];

fn main() {
    original::copy();
    println!("cargo:rustc-check-cfg=cfg(before)");
    println!("cargo:rustc-check-cfg=cfg(records_before)");
    println!("cargo:rustc-check-cfg=cfg(teams_before)");
    let folder = env::var_os("COUNTER_LIB").expect("set COUNTER_LIB to the folder of libcounter.a");
    four_times("now", &folder);
    counted(&folder);
    println!("cargo:rerun-if-env-changed=COUNTER_LIB");
    println!("cargo:rerun-if-env-changed=COUNTER_BEFORE");
    if let Some(folder) = env::var_os("COUNTER_BEFORE") {
        four_times("before", &folder);
        println!("cargo:rustc-cfg=before");
        if has_records(&folder) {
            println!("cargo:rustc-cfg=records_before");
            if has_teams(&folder) {
                println!("cargo:rustc-cfg=teams_before");
            }
        }
    }
}

fn run(program: &str, args: &[&OsStr]) {
    let done = Command::new(program).args(args).status();
    assert!(done.is_ok_and(|status| status.success()), "{program} {args:?}");
}

/// Whether the edits of the library in `folder` take a record.
fn has_records(folder: &OsStr) -> bool {
    let library = std::fs::read(Path::new(folder).join("libcounter.a")).unwrap();
    let name = b"counter_make_record";
    library.windows(name.len()).any(|part| part == name)
}

/// Asks for a record of an image that holds the root alone: where it has teams, limits and shares stand before it.
const HAS_TEAMS: &str = "
#include <stddef.h>
#include <stdint.h>
uint32_t counter_make_record(const uint8_t *, size_t, uint32_t *, size_t, uint32_t *, uint32_t *, uint32_t *);
int main(void)
{
    static uint8_t image[0x1000] = { [0x1c] = 0xc2, 0x33, 0x9f, 0x3d, [0x426] = 4, 0x40, [0x42b] = 12,
        [0x436] = 16, [0x440] = 1, [0x44b] = 1 };
    static uint32_t words[64], limits[16], shares[16], record[66];
    return counter_make_record(image, sizeof image, words, 64, limits, shares, record) != 0 || record[0] == 0;
}
";

/// Whether a record of the library in `folder` holds teams.
fn has_teams(folder: &OsStr) -> bool {
    let out = env::var("OUT_DIR").unwrap();
    let [source, program] = ["has_teams.c", "has_teams"].map(|name| Path::new(&out).join(name));
    std::fs::write(&source, HAS_TEAMS).unwrap();
    let library = Path::new(folder).join("libcounter.a");
    let words = [source.as_os_str(), library.as_os_str(), OsStr::new("-o"), program.as_os_str()];
    run("cc", &words);
    Command::new(&program).status().unwrap().success()
}

/// Links in `NAME_CALL_0` to `NAME_CALL_3`: `counter_CALL` of the library in `folder`.
fn four_times(name: &str, folder: &OsStr) {
    for place in 0..PLACES {
        copy(
            &format!("{name}_{place}"),
            &|call| format!("{name}_{call}_{place}"),
            folder,
            16 * place,
            &[],
        );
    }
}

/// Links in `counted_CALL`, which call `counted_memcpy` in place of memcpy, and so on.
fn counted(folder: &OsStr) {
    let words = MEMORY.map(|name| format!("--redefine-sym={name}=counted_{name}"));
    copy("counted", &|call| format!("counted_{call}"), folder, 0, &words);
}

/// Links in a copy of the library, with other names for its calls, so many bytes further on.
fn copy(symbol: &str, named: &dyn Fn(&str) -> String, folder: &OsStr, by: usize, more: &[String]) {
    let out = env::var("OUT_DIR").unwrap();
    let from = Path::new(folder).join("libcounter.a");
    println!("cargo:rerun-if-changed={}", from.display());
    println!("cargo:rustc-link-search=native={out}");
    let file = |ending: &str| Path::new(&out).join(format!("lib{symbol}.{ending}"));
    let [script, object, library] = ["ld", "o", "a"].map(file);
    let text = format!("SECTIONS {{ .text : {{ . = . + {by}; *(.text .text.*) }} }}");
    std::fs::write(&script, text).unwrap();
    let word = |text: &'static str| OsStr::new(text);
    let (object, library) = (object.as_os_str(), library.as_os_str());
    let whole = [word("-r"), word("--whole-archive"), from.as_os_str()];
    run("ld", &[&whole[..], &[word("-T"), script.as_os_str(), word("-o"), object]].concat());
    let mut words = vec!["--set-section-alignment=.text=64".to_string()];
    for call in CALLS {
        let name = named(call);
        words.push(format!("--redefine-sym=counter_{call}={name}"));
        words.push(format!("--keep-global-symbol={name}"));
    }
    words.extend_from_slice(more);
    let words: Vec<&OsStr> = words.iter().map(OsStr::new).collect();
    run("objcopy", &[&words[..], &[object]].concat());
    run("ar", &[word("rcs"), library, object]);
    println!("cargo:rustc-link-lib=static={symbol}");
}
