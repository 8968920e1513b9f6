//! The probe on the small master: its listing, P1 to P12, every refusal number once, free regions in
//! clusters, a program behind the table or before it, lists of edits, files filled from given bytes, records,
//! teams, the stated table maximum, new masters, edits in three calls, edit sheets, runs to clear, every
//! small table, and calls with too little memory or too short a list. `dirty` is never an answer.

use std::io::{Read, Write};
use std::process::{Command, Stdio};
use std::thread;

const LISTING: &str = "total 8192 used 1370\nd 0 0 2 /\nf 1 1280 256 /a\nr 1114 166\nr 1536 6656\n";

/// Commands that make the small master.
const MASTER: [&str; 6] = [
    "size 0",
    "size 0x2000",
    "patch 0x1c c2339f3d",
    "patch 0x424 000004400000001a",
    "patch 0x434 00002000",
    "patch 0x440 0100000000000000000000020000000000000500000001006100",
];

/// Its table at 0x600, and `a` at 0x800: between 0x440 and 0x600 there is room for a program.
const TABLE_AT_0X600: [&str; 3] = [
    "patch 0x600 0100000000000000000000020000000000000800000001006100",
    "patch 0x440 0000000000000000000000000000000000000000000000000000",
    "patch 0x424 000006000000001a",
];

/// A record of the image with a team 0 that may take anything, and no share.
const OPEN: &str = "make_record 4294967295";

fn hex(bytes: &[u8]) -> String {
    if bytes.is_empty() {
        return "-".into();
    }
    bytes.iter().map(|b| format!("{b:02x}")).collect()
}

/// A line of a sheet: its kind, path, new offset and new size.
type Line<'a> = (u32, &'a [u8], u32, u32);

fn words(words: &[u32]) -> Vec<u8> {
    words.iter().flat_map(|word| word.to_be_bytes()).collect()
}

/// The command for a sheet with these lines, and behind them the path of each.
fn sheet(lines: &[Line]) -> String {
    let (mut numbers, mut texts) = (vec![], vec![]);
    for (kind, path, offset, size) in lines {
        numbers.extend([*kind, texts.len() as u32, *offset, *size]);
        texts.extend([path, &[0][..]].concat());
    }
    let (count, length) = (lines.len() as u32, texts.len() as u32);
    let header = words(&[count, 16, 16 + 16 * count, length]);
    format!("sheet {}", hex(&[header, words(&numbers), texts].concat()))
}

/// The probe's answers to `commands`, whatever they are.
fn said(commands: &[String]) -> Vec<String> {
    let mut probe = Command::new(env!("CARGO_BIN_EXE_probe"))
        .stdin(Stdio::piped())
        .stdout(Stdio::piped())
        .spawn()
        .unwrap();
    let (mut input, text) = (probe.stdin.take().unwrap(), commands.join("\n") + "\n");
    let writer = thread::spawn(move || input.write_all(text.as_bytes()).unwrap());
    let mut output = String::new();
    probe.stdout.take().unwrap().read_to_string(&mut output).unwrap();
    writer.join().unwrap();
    assert!(probe.wait().unwrap().success());
    let answers: Vec<String> = output.lines().map(String::from).collect();
    assert_eq!(answers.len(), commands.len());
    answers
}

/// Its answers to commands that it knows and that leave nothing dirty.
fn answers(commands: &[String]) -> Vec<String> {
    let answers = said(commands);
    for (command, answer) in commands.iter().zip(&answers) {
        assert!(
            !answer.starts_with("dirty") && !answer.starts_with("usage"),
            "{command}: {answer}"
        );
    }
    answers
}

/// A record's answer whose teams end in ` ..`: those behind them are all 0.
fn with_all_teams(answer: &str) -> String {
    let Some(named) = answer.strip_suffix(" ..") else {
        return answer.into();
    };
    let teams = named.split(' ').count() - 3;
    named.to_string() + &" 0:0:0:0".repeat(16 - teams)
}

/// Each list of commands on a fresh small master; its last answer.
fn hold(cases: &[(&[&str], &str)]) {
    hold_from(&[], cases);
}

/// The same behind these commands.
fn hold_from(first: &[&str], cases: &[(&[&str], &str)]) {
    let mut commands: Vec<String> = vec![];
    let mut ends = vec![];
    for (list, _) in cases {
        commands.extend(MASTER.iter().chain(first).chain(*list).map(|line| line.to_string()));
        ends.push(commands.len() - 1);
    }
    let answers = answers(&commands);
    for (end, (list, expected)) in ends.into_iter().zip(cases) {
        assert_eq!(answers[end], with_all_teams(expected), "{list:?}");
    }
}

#[test]
fn listing() {
    let listing = format!("ok {}", hex(LISTING.as_bytes()));
    hold(&[
        (&["listing"], &listing),
        (&["list"], "ok d:0:0:2:1:2f f:1:1280:256:2f61"),
        (&["free"], "ok 1114:166 1536:6656"),
        (&["clusters"], "ok 166:0:0 6656:0:0"),
        (&["used"], "ok 1370"),
        (&["total"], "ok 8192"),
        (&["entry 0"], "ok d:0:0:2"),
        (&["entry 1"], "ok f:1:1280:256"),
    ]);
}

#[test]
fn p1_to_p12() {
    hold(&[
        (&["maxfile 1"], "ok 6912"),
        (&["alloc 0x100 0x100"], "ok 1536 6656"),
        (&["alloc 0x1a01 1"], "err 21"),
        (&["move 1 0x580"], "err 20"),
        (&["move 1 0x600"], "ok"),
        (&["move 1 0x600", "free"], "ok 1114:422 1792:6400"),
        (&["move 1 0x400"], "err 21"),
        (&["resize 1 0x1b00"], "ok"),
        (&["resize 1 0x1b00", "list"], "ok d:0:0:2:1:2f f:1:1280:6912:2f61"),
        (&["resize 1 0x1b01"], "err 21"),
        (&["lookup 0 -"], "ok 0"),
        (&["lookup 0 612f"], "err 17"),
        (&["lookup 0 2e2e"], "err 18"),
        (&["window 0x500 0x100 c:-1 c:0"], "ok c=err:23 c=0"),
        (&["filewindow 1 c:-1 c:0"], "ok c=err:23 c=0"),
    ]);
}

#[test]
fn every_refusal() {
    hold(&[
        (&["size 0x43f", "open"], "err 1"),
        (&["patch 0x18 5d1c9ea3", "size 0x1c", "header"], "err 2"),
        (&["patch 0x1c 00", "size 0x20", "header"], "err 3"),
        (&["patch 0x424 0000043f", "open"], "err 4"),
        (&["size 0x1fff", "open"], "err 4"),
        (&["patch 0x448 00000003", "open"], "err 5"),
        (&["patch 0x44c 02", "open"], "err 6"),
        (&["patch 0x440 00", "open"], "err 7"),
        (&["patch 0x459 61", "open"], "err 8"),
        (&["patch 0x448 ffffffff", "open"], "err 9"),
        (&["lend 15 0", "open"], "err 9"),
        (&["lend 16 0", "open"], "ok"),
        (&["patch 0x448 00000000", "open"], "err 10"),
        (&["patch 0x44f 02", "open"], "err 11"),
        (&["patch 0x458 01", "open"], "err 12"),
        (&["patch 0x458 3a", "open"], "err 13"),
        (&["patch 0x450 00000459", "open"], "err 14"),
        (&["entry 2"], "err 15"),
        (&["maxfile 0"], "err 16"),
        (&["insert_file 1 62"], "err 17"),
        (&["lookup 0 62"], "err 18"),
        (&["insert_dir 0 61"], "err 19"),
        (&["move 1 0x500"], "err 20"),
        (&["resize 1 0xffffffff"], "err 21"),
        (&["alloc 1 0"], "err 22"),
        (&["window 1 1 e:-2"], "ok e=err:23"),
        (&["window 1 1 e:-3"], "ok e=18446744073709551614"),
        (&["patch 0x420 00001f1d", "dol"], "err 24"),
        (&["patch 0x420 00001f1c", "dol"], "ok 0 0 0 cbf29ce484222325"),
        (&["lend 16 0x1a", "set_record 0 0 0:0:0:4294967295", "rewrite"], "err 25"),
        (&["patch 0x42c 00000019", "rewrite"], "err 26"),
        (&["set_record 0 0 0:0:1:0", "rewrite"], "err 27"),
        (&["make_record - 0,6823", "rewrite"], "err 28"),
        (&["team 16", "rewrite"], "err 15"),
        (&["zero 0x500 1"], "err 29"),
        (&["sheet -"], "err 30 0"),
    ]);
}

/// Regions that begin or end on a multiple of 0x8000 (32768), or a byte beside it.
#[test]
fn clusters() {
    // Disc end, offset and size of `a`, answer. The table ends at 0x45a.
    let cases = [
        // The last region begins at 0x600: its first multiple is past its end, exactly its end,
        // before it.
        (0x7fff, 0x500, 0x100, "ok 166:0:0 31231:0:0"),
        (0x8000, 0x500, 0x100, "ok 166:0:0 31232:0:0"),
        (0x8001, 0x500, 0x100, "ok 166:0:0 31232:0:1"),
        (0xffff, 0x500, 0x100, "ok 166:0:0 31232:0:32767"),
        (0x10000, 0x500, 0x100, "ok 166:0:0 31232:1:0"),
        (0x10001, 0x500, 0x100, "ok 166:0:0 31232:1:1"),
        // It begins on a multiple; at 0x10000 it is exactly one cluster.
        (0x8000, 0x7000, 0x1000, "ok 27558:0:0"),
        (0x8001, 0x7000, 0x1000, "ok 27558:0:0 0:0:1"),
        (0xffff, 0x7000, 0x1000, "ok 27558:0:0 0:0:32767"),
        (0x10000, 0x7000, 0x1000, "ok 27558:0:0 0:1:0"),
        (0x10001, 0x7000, 0x1000, "ok 27558:0:0 0:1:1"),
        // The first region ends around a multiple, the last one begins there.
        (0x28000, 0x7fff, 1, "ok 31653:0:0 0:4:0"),
        (0x28000, 0x8000, 1, "ok 31654:0:0 32767:3:0"),
        (0x28000, 0x8001, 1, "ok 31654:0:1 32766:3:0"),
        (0x28000, 0xffff, 1, "ok 31654:0:32767 0:3:0"),
        (0x28000, 0x10000, 0x8000, "ok 31654:1:0 0:2:0"),
        (0x28000, 0x10001, 0x17fff, "ok 31654:1:1"),
        // A cluster's size, and no whole cluster.
        (0x28000, 0x845a, 0x1fba6, "ok 31654:0:1114"),
    ];
    let mut commands = vec![];
    for (end, offset, size, _) in cases {
        commands.extend(MASTER.map(String::from));
        commands.push(format!("size {end}"));
        commands.push(format!("patch 0x434 {end:08x}"));
        commands.push(format!("patch 0x450 {offset:08x}{size:08x}"));
        commands.push("clusters".into());
    }
    let answers = answers(&commands);
    let lines = commands.len() / cases.len();
    for (said, (end, offset, size, expected)) in answers.chunks(lines).zip(cases) {
        assert_eq!(said[lines - 1], expected, "{end:#x} {offset:#x} {size:#x}");
    }
}

/// A program of 0xe4 bytes at 0x1000, behind the table: its header is all zero.
#[test]
fn program_behind_the_table() {
    const AT: &str = "patch 0x420 00001000";
    let listing = "total 8192 used 1598\nd 0 0 2 /\nf 1 1280 256 /a\nr 1114 166\nr 1536 2560\n\
                   r 4324 3868\n";
    let listing = format!("ok {}", hex(listing.as_bytes()));
    hold(&[
        (&[AT, "open"], "ok"),
        (&[AT, "used"], "ok 1598"),
        (&[AT, "total"], "ok 8192"),
        (&[AT, "free"], "ok 1114:166 1536:2560 4324:3868"),
        (&[AT, "clusters"], "ok 166:0:0 2560:0:0 3868:0:0"),
        (&[AT, "listing"], &listing),
        // The window is as long as the file size, the program at least as its header.
        (&[AT, "dol"], "ok 0 0 0 cbf29ce484222325"),
        (&[AT, "patch 0x1090 000000e4", "dolwindow e:0"], "ok e=228"),
        (&[AT, "patch 0x1090 000000e3", "used"], "ok 1598"),
        (&[AT, "patch 0x1090 000000e5", "used"], "ok 1599"),
        // Three regions of two entries.
        (&[AT, "lend_list 5", "free"], "err 9"),
        (&[AT, "lend_list 6", "free"], "ok 1114:166 1536:2560 4324:3868"),
        (&[AT, "lend_list 8", "clusters"], "err 9"),
        (&[AT, "lend_list 9", "clusters"], "ok 166:0:0 2560:0:0 3868:0:0"),
        (&[AT, "lend_list -", "lend 15 0", "free"], "err 9"),
        (&[AT, "lend 16 0", "free"], "ok 1114:166 1536:2560 4324:3868"),
        (&[AT, "lend 65544 2097152", "maxfile 1"], "ok 2816"),
        (&[AT, "maxregion 0x600 1"], "ok 2560"),
        (&[AT, "maxregion 0x10e4 1"], "ok 3868"),
        (&[AT, "alloc 0xa00 1"], "ok 4324 3868"),
        (&[AT, "alloc 0xf1c 4"], "ok 4324 3868"),
        (&[AT, "alloc 0xf1d 1"], "err 21"),
        // Edits up to it, and not into it.
        (&[AT, "move 1 0xf01"], "err 21"),
        (&[AT, "move 1 0x1000"], "err 21"),
        (&[AT, "move 1 0x10e3"], "err 21"),
        (&[AT, "move 1 0xf00", "free"], "ok 1114:2726 4324:3868"),
        (&[AT, "move 1 0x10e4", "free"], "ok 1114:2982 4580:3612"),
        (&[AT, "resize 1 0xb01"], "err 21"),
        (&[AT, "resize 1 0xb00", "free"], "ok 1114:166 4324:3868"),
        (&[AT, "patch 0x10e3 07", "move 1 0x10e4", "peek 0x10e3 2"], "ok 0700"),
        // The table ends at 0x45a; with an entry called `b` at 0x468.
        (&["patch 0x450 00000600", "patch 0x420 0000045a", "insert_file 0 62"], "err 21"),
        (&["patch 0x450 00000600", "patch 0x420 00000467", "insert_file 0 62"], "err 21"),
        (&["patch 0x450 00000600", "patch 0x420 00000467", "insert_dir 0 62"], "err 21"),
        (&["patch 0x450 00000600", "patch 0x420 00000467", "mkdirs 0 62"], "err 21"),
        (&["patch 0x450 00000600", "patch 0x420 0000045a", "rewrite"], "ok"),
        (&["patch 0x450 00000600", "patch 0x420 00000468", "insert_file 0 62"], "ok 2"),
    ]);
}

#[test]
fn program_before_the_table() {
    let cases: [(&[&str], &str); 12] = [
        (&["free"], "ok 1562:486 2304:5888"),
        (&["patch 0x420 00000440", "free"], "ok 1562:486 2304:5888"),
        (&["patch 0x420 00000440", "used"], "ok 1818"),
        (&["patch 0x420 0000051c", "used"], "ok 1818"),
        (&["patch 0x420 00000440", "patch 0x4d0 000001c0", "used"], "ok 1818"),
        (&["patch 0x420 00000440", "patch 0x4d0 000001c0", "insert_file 0 62"], "ok 2"),
        // A byte over the table, from before 0x440, over the table's end; then from its end on.
        (&["patch 0x420 00000440", "patch 0x4d0 000001c1", "open"], "err 14"),
        (&["patch 0x420 0000051d", "open"], "err 14"),
        (&["patch 0x420 0000043f", "open"], "err 14"),
        (&["patch 0x420 00000600", "open"], "err 14"),
        (&["patch 0x420 00000619", "open"], "err 14"),
        (&["patch 0x420 0000061a", "used"], "ok 2046"),
    ];
    hold_from(&TABLE_AT_0X600, &cases);
}

/// 24 comes after the walk and before 14, and only for a DOL offset other than 0.
#[test]
fn program_that_cannot_be_read() {
    hold(&[
        (&["patch 0x420 00001f1d", "open"], "err 24"),
        (&["patch 0x420 ffffffff", "open"], "err 24"),
        (&["patch 0x420 ffffffffffff0440", "open"], "err 4"),
        (&["patch 0x420 00001000", "patch 0x1000 ffffffff", "open"], "err 14"),
        (&["patch 0x420 00001000", "patch 0x1000 ffffffff", "patch 0x1093 01", "open"], "err 24"),
        (&["patch 0x420 00001000", "patch 0x1044 ffffffff", "patch 0x10d7 01", "open"], "err 24"),
        (&["patch 0x420 00001f1d", "patch 0x458 3a", "open"], "err 13"),
        (&["patch 0x420 00001f1d", "patch 0x458 80", "open"], "err 12"),
        (&["patch 0x420 00001f1d", "patch 0x450 00000459", "open"], "err 24"),
        (&["patch 0x420 00001f1d", "lend 15 0", "open"], "err 9"),
        (&["patch 0x420 00001f1d", "lend 16 0", "rewrite"], "err 24"),
        // The image goes on behind the disc end: the header is there, the program is not on the disc.
        (&["size 0x3000", "patch 0x420 00002000", "open"], "err 14"),
        (&["size 0x3000", "patch 0x420 00001f1d", "open"], "err 14"),
        // At 0 nothing is tested by opening; `dol` reads there.
        (&["patch 0 ffffffff", "patch 0x90 00000001", "open"], "ok"),
        (&["patch 0 ffffffff", "patch 0x90 00000001", "used"], "ok 1370"),
        (&["patch 0 ffffffff", "patch 0x90 00000001", "dol"], "err 24"),
    ]);
}

/// Where the least has to be moved away: free are 1114 to 1280 and 1536 to 8192.
#[test]
fn runs_to_clear() {
    hold(&[
        (&["clear 1 0"], "ok none"),
        (&["clear 1 1"], "ok 1 1114 0 0"),
        (&["clear 166 2"], "ok 2 1114 0 0"),
        (&["clear 167 1"], "ok 1 1114 256 256"),
        (&["clear 167 2"], "ok 2 1536 0 0"),
        (&["clear 0xa7 0xffffffff"], "ok 2 1536 0 0"),
        // Behind `a` there are 6656 bytes, from the table's end on 7078.
        (&["clear 6656 1"], "ok 1 1114 256 256"),
        (&["clear 6656 2"], "ok 2 1536 0 0"),
        (&["clear 6657 1"], "ok 1 1114 256 0"),
        (&["clear 7078 9"], "ok 1 1114 256 0"),
        (&["clear 7078 0"], "ok none"),
        (&["clear 7079 0"], "err 21"),
        (&["clear 7079 9"], "err 21"),
        (&["clear 4294967295 0"], "err 21"),
        (&["clear 4294967295 4294967295"], "err 21"),
        (&["clear 0 0"], "err 21"),
        (&["clear 0 4294967295"], "err 21"),
        // What opening refuses comes first.
        (&["patch 0x1c 00", "clear 0 0"], "err 3"),
        (&["patch 0x450 00000459", "clear 7079 0"], "err 14"),
        (&["lend 15 0", "clear 0 1"], "err 9"),
        (&["lend 16 0", "clear 0 1"], "err 21"),
        (&["clear 167 2"], "ok 2 1536 0 0"),
        // `a` at the table's end, at the disc's end, and empty; a disc that ends with the table.
        (&["patch 0x450 0000045a", "clear 1 1"], "ok 1 1114 256 256"),
        (&["patch 0x450 0000045a", "clear 1 2"], "ok 2 1370 0 0"),
        (&["patch 0x450 00001f00", "clear 6822 9"], "ok 1 1114 0 0"),
        (&["patch 0x450 00001f00", "clear 6823 9"], "ok 1 1114 256 0"),
        (&["patch 0x454 00000000", "clear 7078 9"], "ok 1 1114 0 0"),
        (&["patch 0x454 00000000", "patch 0x434 0000045a", "clear 1 0"], "err 21"),
    ]);
    // `b` behind `a`: free are 1128 to 1280, 1536 to 2560 and from 6656 on, 2712 bytes.
    let large = ["lend 65544 2097152", "insert_file 0 62", "move 2 0xa00", "resize 2 0x1000"];
    hold_from(
        &large,
        &[
            (&["clear 1536 2"], "ok 2 1536 4096 4096"),
            (&["clear 1536 3"], "ok 3 6656 0 0"),
            (&["clear 1537 1"], "ok 1 1128 4352 4351"),
            (&["clear 1537 2"], "ok 2 1536 4096 0"),
            (&["clear 2712 1"], "ok 1 1128 4352 4351"),
            (&["clear 2713 1"], "ok 1 1128 4352 4351"),
            (&["clear 2714 1"], "ok 1 1128 4352 4350"),
            (&["clear 6656 1"], "ok 1 1128 4352 408"),
            (&["clear 6656 2"], "ok 2 1536 4096 0"),
            (&["clear 6657 1"], "ok 1 1128 4352 0"),
            // Of equals the first.
            (&["resize 2 0x100", "clear 153 1"], "ok 1 1128 256 256"),
            (&["resize 2 0x100", "clear 153 2"], "ok 2 1536 0 0"),
            (&["resize 2 0x100", "clear 153 3"], "ok 3 1536 0 0"),
        ],
    );
}

/// A run spares the program: behind the files, at the table's end, at the disc's end, before the table.
#[test]
fn runs_that_spare_the_program() {
    hold(&[
        (&["patch 0x420 00001000", "clear 2982 1"], "ok 1 1114 256 256"),
        (&["patch 0x420 00001000", "clear 2982 9"], "ok 2 4324 0 0"),
        (&["patch 0x420 00001000", "clear 2983 1"], "ok 1 4324 0 0"),
        (&["patch 0x420 00001000", "clear 3868 1"], "ok 1 4324 0 0"),
        (&["patch 0x420 00001000", "clear 3869 0"], "err 21"),
        (&["patch 0x450 00000600", "patch 0x420 0000045a", "clear 195 1"], "ok 1 1342 256 256"),
        (&["patch 0x450 00000600", "patch 0x420 0000045a", "clear 195 2"], "ok 2 1792 0 0"),
        (&["patch 0x450 00000600", "patch 0x420 0000045a", "clear 6850 9"], "ok 1 1342 256 0"),
        (&["patch 0x450 00000600", "patch 0x420 0000045a", "clear 6851 9"], "err 21"),
        (&["patch 0x420 00001f1c", "clear 6428 9"], "ok 2 1536 0 0"),
        (&["patch 0x420 00001f1c", "clear 6429 9"], "ok 1 1114 256 0"),
        (&["patch 0x420 00001f1c", "clear 6850 9"], "ok 1 1114 256 0"),
        (&["patch 0x420 00001f1c", "clear 6851 9"], "err 21"),
    ]);
    hold_from(
        &TABLE_AT_0X600,
        &[
            (&["patch 0x420 00000440", "clear 487 1"], "ok 1 1562 256 256"),
            (&["patch 0x420 00000440", "clear 487 9"], "ok 2 2304 0 0"),
            (&["patch 0x420 00000440", "clear 6630 9"], "ok 1 1562 256 0"),
            (&["patch 0x420 00000440", "clear 6631 0"], "err 21"),
        ],
    );
}

/// One probe carries out all of these, so what `lend_list` names holds for the next image too.
#[test]
fn lists_of_a_named_length() {
    let listing = format!("ok {}", hex(LISTING.as_bytes()));
    let (free, clusters) = ("ok 1114:166 1536:6656", "ok 166:0:0 6656:0:0");
    hold(&[
        (&["lend_list 0"], "ok"),
        (&["free"], "err 9"),
        (&["clusters"], "err 9"),
        (&["listing"], &listing),
        (&["list"], "ok d:0:0:2:1:2f f:1:1280:256:2f61"),
        (&["lend_list 3", "free"], "err 9"),
        (&["lend_list 4", "free"], free),
        (&["lend_list 5", "free"], free),
        (&["clusters"], "err 9"),
        (&["lend 65544 0", "save x", "load x", "clusters"], "err 9"),
        (&["lend_list 6", "clusters"], clusters),
        (&["lend_list 7", "clusters"], clusters),
        (&["lend_list 0x100000", "clusters"], clusters),
        (&["lend_list 4294967296", "clusters"], clusters),
        (&["lend_list 18446744073709551615", "clusters"], clusters),
        (&["free"], free),
        // No free region: the disc ends with the table, and `a` is empty.
        (&["lend_list 0", "patch 0x434 0000045a", "patch 0x454 00000000", "clusters"], "ok"),
        (&["lend_list -", "patch 0x434 0000045a", "patch 0x454 00000000", "clusters"], "ok"),
        (&["clusters"], clusters),
        (&["free"], free),
        // What opening refuses comes first.
        (&["lend_list 0", "size 0", "clusters"], "err 1"),
        (&["patch 0x1c 00", "clusters"], "err 3"),
        (&["patch 0x450 00000459", "free"], "err 14"),
        (&["lend_list -", "patch 0x450 00000459", "clusters"], "err 14"),
        (&["lend 15 0", "clusters"], "err 9"),
        (&["lend 16 0", "clusters"], clusters),
    ]);
}

/// What `tables` answers of 1 to 8 entries.
const TABLES: [&str; 8] = [
    "ok 1 12 5f242e39c2422d97",
    "ok 2 52 a26a3aefe92eadd6",
    "ok 6 240 af00c22473b84e9e",
    "ok 22 1188 76fb5605ddf1d062",
    "ok 90 6120 0aaae847186f44b6",
    "ok 394 32308 630e54ebc00a3c0e",
    "ok 1806 173376 96b3e5aafc20226a",
    "ok 8558 941380 675025b1b26afec2",
];

/// Neither the image nor what is lent has any part in them, and none is changed; the list's length is that of
/// `lend_list`.
#[test]
fn every_small_table() {
    let mut cases: Vec<(Vec<String>, &str)> = vec![];
    for (n, told) in (1..).zip(TABLES) {
        let all: usize = told.split(' ').nth(2).unwrap().parse().unwrap();
        let asked = format!("tables {n}");
        for (list, expected) in [
            ("lend_list -".into(), told),
            (format!("lend_list {all}"), told),
            (format!("lend_list {}", all + 1), told),
            (format!("lend_list {}", all - 1), "err 9"),
            ("lend_list 0".into(), "err 9"),
            ("lend_list 1048576".into(), told),
            ("lend_list 18446744073709551615".into(), told),
        ] {
            cases.push((vec![list, asked.clone()], expected));
        }
    }
    for n in ["0", "9", "10", "0x100", "0x80000000", "4294967295"] {
        // Those of nine would take 5,156,664 bytes.
        for list in
            ["lend_list -", "lend_list 0", "lend_list 5156664", "lend_list 18446744073709551615"]
        {
            cases.push((vec![list.into(), format!("tables {n}")], "err 9"));
        }
    }
    let mut hash = MASTER.map(String::from).to_vec();
    hash.extend(["lend 0 0", "hash"].map(String::from));
    let hash = answers(&hash).pop().unwrap();
    for (list, expected) in [
        ("lend_list -, lend 0 0, tables 3", TABLES[2]),
        ("size 0, tables 3", TABLES[2]),
        ("patch 0x1c 00, tables 0x3", TABLES[2]),
        ("tables 8, hash", &hash),
        ("tables 9, hash", &hash),
        ("set_record 5 6 4294967295:0:0:7, tables 8, record", "ok 5 6 4294967295:0:0:7 .."),
        ("drop_record, team 16, tables 2", TABLES[1]),
        ("tables 2, lend_list 3, free", "err 9"),
        ("lend_list 3, tables 1", "err 9"),
        ("lend_list 12, tables 1", TABLES[0]),
        ("lend_list -, lend 65544 2097152, tables 1, free", "ok 1114:166 1536:6656"),
    ] {
        cases.push((list.split(", ").map(String::from).collect(), expected));
    }
    let lists: Vec<Vec<&str>> =
        cases.iter().map(|(list, _)| list.iter().map(String::as_str).collect()).collect();
    let cases: Vec<(&[&str], &str)> =
        lists.iter().zip(&cases).map(|(list, (_, expected))| (&list[..], *expected)).collect();
    hold(&cases);
}

/// A line that is no command changes nothing.
#[test]
fn usage() {
    let mut commands = MASTER.map(String::from).to_vec();
    commands.extend(["lend_list 5", "lend 16 0x1a", "save here", "hash"].map(String::from));
    commands.push("set_record 7 8 4294967295:0:0:9".into());
    commands.push("team 0".into());
    let seventeen = format!("set_record 1 2{}", " 1:2:3:4".repeat(17));
    let wrong = [
        ("lend 16", "usage a word is missing"),
        ("lend 15 0 0", "usage too many words"),
        ("lend 18446744073709551615 0", "usage too long"),
        ("lend 0 18446744073709551615", "usage too long"),
        ("size 0 0", "usage too many words"),
        ("patch 0x1c 00 00", "usage too many words"),
        ("save there too", "usage too many words"),
        ("load there", "usage not saved"),
        ("load here too", "usage too many words"),
        ("lend_list", "usage a word is missing"),
        ("lend_list 6 7", "usage too many words"),
        ("lend_list - -", "usage too many words"),
        ("lend_list 18446744073709551616", "usage not a number"),
        ("lend_list -1", "usage not a number"),
        ("lend_list all", "usage not a number"),
        ("clusters 1", "usage too many words"),
        ("cluster", "usage no such command"),
        ("tables", "usage a word is missing"),
        ("tables 3 3", "usage too many words"),
        ("tables 4294967296", "usage above 32 bits"),
        ("tables 18446744073709551616", "usage not a number"),
        ("tables -", "usage not a number"),
        ("tables -1", "usage not a number"),
        ("table 3", "usage no such command"),
        ("clear", "usage a word is missing"),
        ("clear 1", "usage a word is missing"),
        ("clear 1 2 3", "usage too many words"),
        ("clear 4294967296 1", "usage above 32 bits"),
        ("clear 1 4294967296", "usage above 32 bits"),
        ("clear 18446744073709551616 1", "usage not a number"),
        ("clear 1 -", "usage not a number"),
        ("clears 1 1", "usage no such command"),
        ("replace", "usage a word is missing"),
        ("replace 1", "usage a word is missing"),
        ("replace 1 0", "usage odd hexadecimal"),
        ("replace 1 0g", "usage not hexadecimal"),
        ("replace 1 00 00", "usage too many words"),
        ("replace 4294967296 00", "usage above 32 bits"),
        ("replace_zeros 1", "usage a word is missing"),
        ("replace_zeros 1 1 1", "usage too many words"),
        ("replace_zeros 4294967296 1", "usage above 32 bits"),
        ("replace_zeros 1 -", "usage not a number"),
        ("replace_zeros 1 8589934593", "usage too long"),
        ("replace_zeros 1 18446744073709551615", "usage too long"),
        ("replace_zeros 1 18446744073709551616", "usage not a number"),
        ("make_record 1 2 3", "usage too many words"),
        ("make_record - - -", "usage too many words"),
        ("make_record 4294967296", "usage above 32 bits"),
        ("make_record - 4294967296", "usage above 32 bits"),
        ("make_record 1,4294967296", "usage above 32 bits"),
        ("make_record 18446744073709551616", "usage not a number"),
        ("make_record 1,", "usage not a number"),
        ("make_record ,1", "usage not a number"),
        ("make_record 1,,2", "usage not a number"),
        ("make_record 1 -,2", "usage not a number"),
        ("make_record 1 -1", "usage not a number"),
        ("make_record 1:2", "usage not a number"),
        ("make_record 0,1,2,3,4,5,6,7,8,9,10,11,12,13,14,15,16", "usage too many teams"),
        ("make_record - 0,1,2,3,4,5,6,7,8,9,10,11,12,13,14,15,16", "usage too many teams"),
        ("set_record", "usage a word is missing"),
        ("set_record 1", "usage a word is missing"),
        ("set_record 4294967296 2", "usage above 32 bits"),
        ("set_record 1 4294967296 3:0:0:0", "usage above 32 bits"),
        ("set_record 1 2 4294967296:0:0:0", "usage above 32 bits"),
        ("set_record 1 2 0:4294967296:0:0", "usage above 32 bits"),
        ("set_record 1 2 0:0:4294967296:0", "usage above 32 bits"),
        ("set_record 1 2 0:0:0:0 0:0:0:0x100000000", "usage above 32 bits"),
        ("set_record 18446744073709551616 2", "usage not a number"),
        ("set_record - 2", "usage not a number"),
        ("set_record 1 2 -", "usage not a number"),
        ("set_record 1 2 -1:0:0:0", "usage not a number"),
        ("set_record 1 2 0::0:0", "usage not a number"),
        ("set_record 1 2 0:0:0:", "usage not a number"),
        ("set_record 1 2 0,0,0,0", "usage not a number"),
        ("set_record 1 2 3", "usage a team is LIMIT:SHARE:TAKEN:EDITS"),
        ("set_record 1 2 0:0:0", "usage a team is LIMIT:SHARE:TAKEN:EDITS"),
        ("set_record 1 2 0:0:0:0:0", "usage a team is LIMIT:SHARE:TAKEN:EDITS"),
        (&seventeen, "usage too many words"),
        ("team", "usage a word is missing"),
        ("team 1 2", "usage too many words"),
        ("team -", "usage not a number"),
        ("team -1", "usage not a number"),
        ("team 4294967296", "usage above 32 bits"),
        ("teams 1", "usage no such command"),
        ("record 1", "usage too many words"),
        ("record 1 2 3", "usage too many words"),
        ("record 4294967296", "usage too many words"),
        ("drop_record 1", "usage too many words"),
        ("drop_record 1 2 3", "usage too many words"),
        ("drop_record 4294967296", "usage too many words"),
        ("drop", "usage no such command"),
        ("rewrite 1", "usage too many words"),
        ("master 0x44c 47434c45 -", "usage a word is missing"),
        ("master 0x44c 47434c45 - - -", "usage too many words"),
        ("master 0x44c 47434c - -", "usage a game code has 4 bytes"),
        ("master 0x44c 47434c4500 - -", "usage a game code has 4 bytes"),
        ("master 0x44c - - -", "usage a game code has 4 bytes"),
        ("master 4294967296 47434c45 - -", "usage above 32 bits"),
        ("master 0x44c 47434c45 1,4294967296 -", "usage above 32 bits"),
        ("master 0x44c 47434c45 1, -", "usage not a number"),
        ("master 0x44c 47434c45 1,,2 -", "usage not a number"),
        ("master 0x44c 47434c45 - 0", "usage odd hexadecimal"),
        ("sheet", "usage a word is missing"),
        ("sheet - -", "usage too many words"),
        ("sheet 000", "usage odd hexadecimal"),
        ("sheet 0x00", "usage not hexadecimal"),
        ("sheets -", "usage no such command"),
    ];
    commands.extend(wrong.map(|(line, _)| line.into()));
    commands.extend(["hash", "record", "rewrite", "clusters"].map(String::from));
    let answers = said(&commands);
    let from = MASTER.len() + 6;
    for ((line, expected), answer) in wrong.iter().zip(&answers[from..]) {
        assert_eq!(answer, expected, "{line}");
    }
    let end = from + wrong.len();
    assert_eq!(answers[from - 3], answers[end], "the image");
    let record = with_all_teams("ok 7 8 4294967295:0:0:9 ..");
    assert_eq!(answers[end + 1], record, "the record");
    assert_eq!(answers[end + 2..], ["ok", "err 9"], "the memory and the list");
}

#[test]
fn edits() {
    hold(&[
        (&["insert_file 0 62"], "ok 2"),
        (&["insert_file 0 62", "list"], "ok d:0:0:3:2:2f f:1:1280:256:2f61 f:2:0:0:2f62"),
        (&["insert_dir 0 62", "insert_file 2 63", "entry 3"], "ok f:3:0:0"),
        (&["mkdirs 0 6e2f6d"], "ok 3"),
        (&["mkdirs 0 6e2f2e2e2f6e", "list"], "ok d:0:0:3:2:2f f:1:1280:256:2f61 d:2:0:3:0:2f6e2f"),
        (&["mkdirs 0 -"], "ok 0"),
        (&["mkdirs 0 61"], "err 17"),
        (&["insert_file 0 3a01"], "err 13"),
        (&["insert_file 0 ff"], "err 12"),
        (&["lend 20 0x27", "insert_file 0 62"], "err 9"),
        (&["lend 19 0x28", "insert_file 0 62"], "err 9"),
        (&["lend 20 0x28", "insert_file 0 62"], "ok 2"),
        (&["lend 16 0", "resize 1 0x100"], "ok"),
        (&["lend 16 0x19", "rewrite"], "err 9"),
        (&["lend 16 0x1a", "rewrite"], "ok"),
        // The lost end is zeroed, and growth shows what the free space held.
        (
            &["patch 0x5fe aabbcc", "resize 1 0xff", "resize 1 0x101", "filewindow 1 s:254 r:8"],
            "ok s=254 r=3:aa00ccaaaaaaaaaa",
        ),
        // The bytes go with the file, and the old place is zeroed.
        (&["patch 0x500 0102", "move 1 0x1f00", "peek 0x1f00 3"], "ok 010200"),
        (&["patch 0x500 0102", "move 1 0x1f00", "peek 0x500 3"], "ok 000000"),
    ]);
}

/// A file filled from given bytes is exactly these; all else is as a resize leaves it.
#[test]
fn fills() {
    let bytes = |length: usize| hex(&(0..length).map(|i| (i % 251) as u8 + 1).collect::<Vec<_>>());
    let [same, longer] = [0x100, 0x101].map(|length| format!("replace 1 {}", bytes(length)));
    let (same, longer) = (same.as_str(), longer.as_str());
    // All of `a`, and a byte on either side of it.
    let [own, grown] = [0x100, 0x101].map(|length| format!("ok ee{}ee", bytes(length)));
    let (before, behind) = ("patch 0x4ff ee", "patch 0x600 eeee");
    hold(&[
        // Its own size: no table is written, and no working byte is wanted.
        (&["lend 16 0", before, behind, same, "peek 0x4ff 0x102"], &own),
        (&["lend 15 0", same], "err 9"),
        // A byte more, and what stood there is gone; the table's size in bytes, and one less.
        (&["lend 16 0x1a", before, behind, longer, "peek 0x4ff 0x103"], &grown),
        (&[longer, "list"], "ok d:0:0:2:1:2f f:1:1280:257:2f61"),
        (&["lend 16 0x19", longer], "err 9"),
        (&["replace 1 aa"], "err 9"),
        (&["lend 15 0x1a", longer], "err 9"),
        // Shorter: the lost end is zeroed. Nothing at all: as a resize to 0.
        (&["lend 65544 2097152", same, "replace 1 aabb", "peek 0x500 4"], "ok aabb0000"),
        (&[same, "replace 1 aabb", "peek 0x5fe 2"], "ok 0000"),
        (&[same, "replace 1 -", "list"], "ok d:0:0:2:1:2f f:1:1280:0:2f61"),
        (&[same, "replace 1 -", "peek 0x500 2"], "ok 0000"),
        (&["lend 16 0", "patch 0x454 00000000", "replace 1 -"], "ok"),
        // As far as it goes, and a byte more.
        (&["lend 65544 2097152", "replace_zeros 1 0x1b00", "free"], "ok 1114:166"),
        (&[same, "replace_zeros 1 0x1b00", "filewindow 1 r:4"], "ok r=4:00000000"),
        (&["replace_zeros 1 0x1b01"], "err 21"),
        (&["insert_file 0 62", "replace 2 aa"], "err 21"),
        (&["insert_file 0 62", "move 2 0x1fff", "replace 2 aa", "peek 0x1ffe 2"], "ok 00aa"),
        (&["insert_file 0 62", "move 2 0x1fff", "replace 2 aabb"], "err 21"),
    ]);
}

/// `b` lies right behind `a`, and the disc has a multiple of 0x8000.
#[test]
fn fills_that_move_the_file() {
    const TWO: [&str; 6] = [
        "size 0x9000",
        "patch 0x434 00009000",
        "patch 0x428 00000028",
        "patch 0x440 010000000000000000000003000000000000050000000100",
        "patch 0x458 00000002000006000000001061006200",
        "patch 0x5ff ee11",
    ];
    let clip = "c7".repeat(0x101);
    let fill = format!("replace 1 {clip}");
    let there = format!("ok {clip}00");
    let cases: [(&[&str], &str); 8] = [
        (&[&fill, "list"], "ok d:0:0:3:2:2f f:1:32768:257:2f61 f:2:1536:16:2f62"),
        (&[&fill, "peek 0x8000 0x102"], &there),
        (&[&fill, "peek 0x5ff 2"], "ok 0011"),
        (&["replace_zeros 1 0x1000", "free"], "ok 1128:408 1552:31216"),
        (&["replace_zeros 1 0x1001"], "err 21"),
        (&["lend 20 0x27", "replace_zeros 1 0x1001"], "err 21"),
        (&["replace_zeros 1 0x1000"], "err 9"),
        (&["lend 20 0x28", "replace_zeros 1 0x1000"], "ok"),
    ];
    let lists: Vec<Vec<&str>> = cases.iter().map(|(lines, _)| [&TWO[..], lines].concat()).collect();
    let cases: Vec<(&[&str], &str)> =
        lists.iter().zip(cases).map(|(list, (_, said))| (&list[..], said)).collect();
    hold(&cases);
}

/// Opening; 15; 16; a clip above 2^32 - 1 bytes 21; then as a resize.
#[test]
fn fills_refused() {
    hold(&[
        (&["replace_zeros 1 4294967295"], "err 21"),
        (&["replace_zeros 1 4294967296"], "err 21"),
        (&["replace_zeros 1 4294967552"], "err 21"),
        (&["replace_zeros 1 8589934592"], "err 21"),
        (&["replace_zeros 0 4294967296"], "err 16"),
        (&["replace_zeros 9 8589934592"], "err 15"),
        (&["replace 2 00"], "err 15"),
        (&["replace 4294967295 -"], "err 15"),
        (&["replace 0 00"], "err 16"),
        (&["size 0x43f", "replace_zeros 1 8589934592"], "err 1"),
        (&["patch 0x450 00000459", "replace_zeros 9 8589934592"], "err 14"),
        (&["lend 16 0", "replace_zeros 1 4294967296"], "err 21"),
        (&["replace_zeros 1 0x1b01"], "err 21"),
        (&["replace 2 00"], "err 15"),
        (&["replace 0 00"], "err 16"),
        (&["replace 1 00"], "err 9"),
        (&["lend 15 0", "replace_zeros 1 4294967296"], "err 9"),
        (&["replace 2 00"], "err 9"),
    ]);
}

/// Used bytes, the largest free region and the count after each edit.
#[test]
fn records() {
    let zeros = format!("replace 1 {}", hex(&[0; 0x100]));
    hold(&[
        (&["record"], "ok none"),
        (&["rewrite", "record"], "ok none"),
        // None in use, and none can be made: the edit's number, and still none.
        (&["size 0x43f", "resize 1 0"], "err 1"),
        (&["record"], "ok none"),
        (&["patch 0x450 00000459", "rewrite"], "err 14"),
        (&["record"], "ok none"),
        (&["lend 15 0x1a", "rewrite"], "err 9"),
        (&["record"], "ok none"),
        (&["insert_file 0 62"], "err 9"),
        (&["record"], "ok none"),
        (&["lend 65544 2097152", "drop_record"], "ok"),
        (&[OPEN], "ok 1370 6656 4294967295:0:0:0 .."),
        (&["record"], "ok 1370 6656 4294967295:0:0:0 .."),
        (&[OPEN, "resize 1 756", "record"], "ok 1870 6156 4294967295:0:500:1 .."),
        // Made anew: no edit.
        (&["resize 1 756", OPEN], "ok 1870 6156 4294967295:0:0:0 .."),
        // All else that is accepted counts too.
        (&[OPEN, "resize 1 256", "record"], "ok 1370 6656 4294967295:0:0:1 .."),
        (&[OPEN, "rewrite", "record"], "ok 1370 6656 4294967295:0:0:1 .."),
        (&[OPEN, "mkdirs 0 -", "record"], "ok 1370 6656 4294967295:0:0:1 .."),
        (&[OPEN, &zeros, "record"], "ok 1370 6656 4294967295:0:0:1 .."),
        (&[OPEN, "replace_zeros 1 256", "record"], "ok 1370 6656 4294967295:0:0:1 .."),
        (&[OPEN, "insert_file 0 62", "record"], "ok 1384 6656 4294967295:0:14:1 .."),
        (&[OPEN, "insert_dir 0 6262", "record"], "ok 1385 6656 4294967295:0:15:1 .."),
        (&[OPEN, "mkdirs 0 6e2f6d", "record"], "ok 1398 6656 4294967295:0:28:1 .."),
        (&[OPEN, "move 1 0x600", "record"], "ok 1370 6400 4294967295:0:0:1 .."),
        (&[OPEN, "replace 1 aabb", "record"], "ok 1116 6910 4294967295:0:0:1 .."),
        (&[OPEN, "replace_zeros 1 756", "record"], "ok 1870 6156 4294967295:0:500:1 .."),
        (&[OPEN, "resize 1 0x1b00", "record"], "ok 8026 166 4294967295:0:6656:1 .."),
        // The table's last six bytes are slack: a write of the table gives them back.
        (&["patch 0x428 00000020", OPEN], "ok 1376 6656 4294967295:0:0:0 .."),
        (&["patch 0x428 00000020", OPEN, "rewrite", "record"], "ok 1370 6656 4294967295:0:0:1 .."),
        (
            &["patch 0x428 00000020", OPEN, "move 1 0x600", "record"],
            "ok 1370 6400 4294967295:0:0:1 ..",
        ),
        (
            &["patch 0x428 00000020", OPEN, "resize 1 256", "record"],
            "ok 1376 6656 4294967295:0:0:1 ..",
        ),
        (
            &["patch 0x428 00000020", OPEN, "resize 1 257", "record"],
            "ok 1371 6655 4294967295:0:0:1 ..",
        ),
        // No free region.
        (&["patch 0x434 0000045a", "patch 0x454 00000000", OPEN], "ok 1114 0 4294967295:0:0:0 .."),
        (
            &["patch 0x434 0000045a", "patch 0x454 00000000", "rewrite", "record"],
            "ok 1114 0 4294967295:0:0:1 ..",
        ),
        // A program of 0xe4 bytes behind the table.
        (&["patch 0x420 00001000", OPEN], "ok 1598 3868 4294967295:0:0:0 .."),
        (
            &["patch 0x420 00001000", OPEN, "resize 1 0xb00", "record"],
            "ok 4158 3868 4294967295:0:2560:1 ..",
        ),
        (
            &["patch 0x420 00001000", OPEN, "move 1 0x10e4", "record"],
            "ok 1598 3612 4294967295:0:0:1 ..",
        ),
        // Handed on, with refusals between.
        (
            &[
                OPEN,
                "resize 1 756",
                "resize 1 0x1b01",
                "move 1 2048",
                "move 1 2049",
                "insert_file 1 62",
                "resize 1 0",
                "record",
            ],
            "ok 1114 7078 4294967295:0:0:3 ..",
        ),
        (&["drop_record", "resize 1 756", "record"], "ok none"),
    ]);
}

/// A refusal, and every other command, leaves the record that is in use.
#[test]
fn records_stay() {
    let file = format!("{}/records_stay", env!("CARGO_TARGET_TMPDIR"));
    let (dump, image) = (format!("dump {file}"), format!("image {file}"));
    hold(&[
        (&["set_record 0xffffffff 0x0 0xffffffff:0:0:0x1"], "ok 4294967295 0 4294967295:0:0:1 .."),
        (&["record"], "ok 4294967295 0 4294967295:0:0:1 .."),
        (&["set_record 1 2 4294967295:0:0:3"], "ok 1 2 4294967295:0:0:3 .."),
        (&["record"], "ok 1 2 4294967295:0:0:3 .."),
        (&["move 1 0x501", "record"], "ok 1 2 4294967295:0:0:3 .."),
        (&["resize 0 0", "record"], "ok 1 2 4294967295:0:0:3 .."),
        (&["insert_file 0 61", "record"], "ok 1 2 4294967295:0:0:3 .."),
        (&["insert_dir 0 2f", "record"], "ok 1 2 4294967295:0:0:3 .."),
        (&["mkdirs 0 61", "record"], "ok 1 2 4294967295:0:0:3 .."),
        (&["replace 2 00", "record"], "ok 1 2 4294967295:0:0:3 .."),
        (&["replace_zeros 1 4294967296", "record"], "ok 1 2 4294967295:0:0:3 .."),
        (&["lend 16 0x19", "rewrite", "record"], "ok 1 2 4294967295:0:0:3 .."),
        (&["lend 65544 2097152", "record"], "ok 1 2 4294967295:0:0:3 .."),
        // An image that does not open.
        (&["size 0x43f", OPEN], "err 1"),
        (&["size 0x43f", "rewrite"], "err 1"),
        (&["patch 0x1c 00", OPEN], "err 3"),
        (&["patch 0x450 00000459", OPEN], "err 14"),
        (&["patch 0x420 00001f1d", OPEN], "err 24"),
        (&["lend 15 0", OPEN], "err 9"),
        (&["record"], "ok 1 2 4294967295:0:0:3 .."),
        (&["lend 65544 2097152", &dump, &image, "record"], "ok 1 2 4294967295:0:0:3 .."),
        (&["save x", "size 0", "load x", "record"], "ok 1 2 4294967295:0:0:3 .."),
        (
            &["listing", "free", "used", "alloc 1 1", "lend_list -", "record"],
            "ok 1 2 4294967295:0:0:3 ..",
        ),
        (&["drop_record", "size 0", OPEN], "err 1"),
        (&["record"], "ok none"),
        (&["lend 16 0", OPEN], "ok 1370 6656 4294967295:0:0:0 .."),
    ]);
}

/// 25, on the numbers that the record holds, behind all other tests.
#[test]
fn records_that_hold_anything() {
    hold(&[
        // The count.
        (
            &["set_record 1370 6656 4294967295:0:0:4294967294", "rewrite", "record"],
            "ok 1370 6656 4294967295:0:0:4294967295 ..",
        ),
        (&["set_record 1370 6656 4294967295:0:0:4294967295", "rewrite"], "err 25"),
        (&["record"], "ok 1370 6656 4294967295:0:0:4294967295 .."),
        (&["resize 1 256"], "err 25"),
        (&["mkdirs 0 -"], "err 25"),
        (&["mkdirs 0 62"], "err 25"),
        (&["insert_file 0 62"], "err 25"),
        (&["insert_dir 0 62"], "err 25"),
        (&["move 1 0x600"], "err 25"),
        (&["replace 1 -"], "err 25"),
        (&["replace_zeros 1 256"], "err 25"),
        // Used bytes: below 0.
        (&["set_record 0 0 4294967295:0:0:0", "resize 1 255"], "err 25"),
        (&["set_record 0 0 4294967295:0:0:0", "replace 1 -"], "err 25"),
        (
            &["set_record 1 0 4294967295:0:0:0", "resize 1 255", "record"],
            "ok 0 6657 4294967295:0:0:1 ..",
        ),
        (&["set_record 5 0 4294967295:0:0:0", "patch 0x428 00000020", "rewrite"], "err 25"),
        (
            &["set_record 6 0 4294967295:0:0:0", "patch 0x428 00000020", "rewrite", "record"],
            "ok 0 6656 4294967295:0:0:1 ..",
        ),
        (
            &["set_record 0 0 4294967295:0:0:0", "patch 0x428 00000020", "resize 1 262", "record"],
            "ok 0 6650 4294967295:0:0:1 ..",
        ),
        // And above 2^32 - 1.
        (&["set_record 4294967295 0 4294967295:0:0:0", "resize 1 257"], "err 25"),
        (
            &["set_record 4294967294 0 4294967295:0:0:0", "resize 1 257", "record"],
            "ok 4294967295 6655 4294967295:0:1:1 ..",
        ),
        (&["set_record 4294967282 0 4294967295:0:0:0", "insert_file 0 62"], "err 25"),
        (
            &["set_record 4294967281 0 4294967295:0:0:0", "insert_file 0 62", "record"],
            "ok 4294967295 6656 4294967295:0:14:1 ..",
        ),
        (
            &["set_record 4294967295 0 4294967295:0:0:0", "move 1 0x600", "record"],
            "ok 4294967295 6400 4294967295:0:0:1 ..",
        ),
        // Whatever the largest region is said to be.
        (
            &["set_record 5 4294967295 4294967295:0:0:7", "resize 1 256", "record"],
            "ok 5 6656 4294967295:0:0:8 ..",
        ),
        (
            &["set_record 5 0 4294967295:0:0:7", "rewrite", "record"],
            "ok 5 6656 4294967295:0:0:8 ..",
        ),
        // Every other cause comes first; the table's 9 and 21 too.
        (&["set_record 0 0 4294967295:0:0:4294967295", "patch 0x1c 00", "rewrite"], "err 3"),
        (&["patch 0x450 00000459", "resize 1 0"], "err 14"),
        (&["resize 2 0"], "err 15"),
        (&["resize 0 0"], "err 16"),
        (&["insert_file 1 62"], "err 17"),
        (&["mkdirs 0 2e2e"], "err 18"),
        (&["insert_dir 0 61"], "err 19"),
        (&["insert_dir 0 ff"], "err 12"),
        (&["move 1 0x500"], "err 20"),
        (&["move 1 0x400"], "err 21"),
        (&["resize 1 0x1b01"], "err 21"),
        (&["replace_zeros 1 4294967296"], "err 21"),
        (&["patch 0x450 00000600", "patch 0x420 0000045a", "insert_file 0 62"], "err 21"),
        (&["patch 0x450 00000600", "patch 0x420 0000045a", "rewrite"], "err 25"),
        (&["lend 16 0x19", "rewrite"], "err 9"),
        (&["lend 16 0x1a", "rewrite"], "err 25"),
        (&["lend 16 0", "resize 1 256"], "err 25"),
        (&["record"], "ok 0 0 4294967295:0:0:4294967295 .."),
    ]);
}

/// What a team may take, what is kept free for the others, and a record's numbers after that. `a` has 256 of
/// 6,912 bytes that it can have; 6,822 of the image are free.
#[test]
fn teams() {
    const TWO: &str = "make_record 500,4294967295 100,6000";
    const THIRD: &str = "make_record 4294967295,4294967295,4294967295 0,0,167";
    hold(&[
        (&["make_record"], "ok 1370 6656 .."),
        (&["make_record - -"], "ok 1370 6656 .."),
        (&["make_record 5"], "ok 1370 6656 5:0:0:0 .."),
        (&["make_record 5 -"], "ok 1370 6656 5:0:0:0 .."),
        (&["make_record - 1,0x10"], "ok 1370 6656 0:1:0:0 0:16:0:0 .."),
        (&["make_record 1,2,3 4294967295"], "ok 1370 6656 1:4294967295:0:0 2:0:0:0 3:0:0:0 .."),
        (&[TWO], "ok 1370 6656 500:100:0:0 4294967295:6000:0:0 .."),
        (&["resize 1 757"], "err 27"),
        (&["record"], "ok 1370 6656 500:100:0:0 4294967295:6000:0:0 .."),
        (&["resize 1 756"], "ok"),
        (&["record"], "ok 1870 6156 500:100:500:1 4294967295:6000:0:0 .."),
        // It has taken its limit, and all but 500 of its share; the other team has neither.
        (&["rewrite", "resize 1 257"], "err 27"),
        (&["insert_file 0 62"], "err 27"),
        (&["mkdirs 0 62"], "err 27"),
        (&["replace_zeros 1 257"], "err 27"),
        (&["resize 1 1", "record"], "ok 1615 6911 500:100:245:3 4294967295:6000:0:0 .."),
        (
            &["team 1", "resize 1 257", "record"],
            "ok 1616 6655 500:100:245:3 4294967295:6000:1:1 ..",
        ),
        // All 16 are told.
        (&["make_record - 1,2,3,4,5,6,7,8,9,10,11,12,13,14,15,16", "team 2"], "ok"),
        (
            &["record"],
            "ok 1370 6656 0:1:0:0 0:2:0:0 0:3:0:0 0:4:0:0 0:5:0:0 0:6:0:0 0:7:0:0 0:8:0:0 0:9:0:0 \
             0:10:0:0 0:11:0:0 0:12:0:0 0:13:0:0 0:14:0:0 0:15:0:0 0:16:0:0",
        ),
        (
            &["resize 1 255", "record"],
            "ok 1369 6657 0:1:0:0 0:2:0:0 0:3:0:1 0:4:0:0 0:5:0:0 0:6:0:0 0:7:0:0 0:8:0:0 0:9:0:0 \
             0:10:0:0 0:11:0:0 0:12:0:0 0:13:0:0 0:14:0:0 0:15:0:0 0:16:0:0",
        ),
        // A cost below 0: what is taken goes down by it, to 0 at least.
        (&["team 0", "set_record 9000 1 9:0:5:3"], "ok 9000 1 9:0:5:3 .."),
        (&["resize 1 252", "record"], "ok 8996 6660 9:0:1:4 .."),
        (&["resize 1 250", "record"], "ok 8990 6662 9:0:0:5 .."),
        (&["set_record 9000 1 9:0:5:3", "resize 1 251", "record"], "ok 8995 6661 9:0:0:4 .."),
        // 27 and 28 whatever an edit costs.
        (&["set_record 9 9 5:0:9:9", "rewrite"], "err 27"),
        (&["resize 1 256"], "err 27"),
        (&["replace_zeros 1 256"], "err 27"),
        (&["mkdirs 0 -"], "err 27"),
        (&["move 1 0x600"], "err 27"),
        (&["resize 1 253"], "err 27"),
        (&["record"], "ok 9 9 5:0:9:9 .."),
        (&["resize 1 252", "record"], "ok 5 6660 5:0:5:10 .."),
        (&["make_record 0 0,6823", "rewrite"], "err 28"),
        (&["resize 1 256"], "err 28"),
        (&["replace_zeros 1 256"], "err 28"),
        (&["make_record 0 0,6822", "rewrite", "record"], "ok 1370 6656 0:0:0:1 0:6822:0:0 .."),
        (&["make_record 0 0,6823", "resize 1 255", "record"], "ok 1369 6657 0:0:0:1 0:6823:0:0 .."),
        (&["make_record 0 0,6824", "resize 1 255"], "err 28"),
        (&["set_record 0 0 4294967295:0:4294967295:0", "resize 1 257"], "err 27"),
        (&["set_record 0 0 4294967295:0:4294967294:0", "resize 1 257"], "ok"),
        // Shares are added up as whole numbers; its own plays no part, however large.
        (&["make_record 0 0,4294967295,1"], "ok 1370 6656 0:0:0:0 0:4294967295:0:0 0:1:0:0 .."),
        (&["rewrite"], "err 28"),
        (&["make_record 0 4294967295", "rewrite"], "ok"),
        // A team that has taken more than its share wants nothing kept, and gives nothing to the others.
        (&["team 0", THIRD, "resize 1 257"], "ok"),
        (&[THIRD, "resize 1 257", "team 1", "resize 1 6912"], "err 28"),
        (
            &["resize 1 257", "resize 1 6911", "record"],
            "ok 8026 166 4294967295:0:1:1 4294967295:0:6655:2 4294967295:167:0:0 ..",
        ),
        (&["team 0", THIRD, "resize 1 257", "team 2", "resize 1 6912"], "ok"),
        (&["drop_record", "team 0"], "ok"),
    ]);
}

/// Opening, the team, the edit's own numbers, 26 and the table's 21; 27, 28, 25.
#[test]
fn teams_in_their_order() {
    let long = |len: usize| format!("mkdirs 0 {}", "2f".repeat(len));
    let (longest, too_long) = (long(1024), long(1025));
    // Due to every edit: its taken bytes are above its limit, nothing is free for the others, and the count is full.
    const ALL: &str = "set_record 5 6 0:0:1:4294967295 0:4294967295:0:0";
    const TIGHT: &str = "patch 0x450 0000045a";
    hold(&[
        // Teams go up to 15, and none above it is taken.
        (&[OPEN, "team 15", "resize 1 257"], "err 27"),
        (&["resize 1 255"], "ok"),
        (&["team 16", "resize 1 255"], "err 15"),
        (&["team 17", "rewrite"], "err 15"),
        (&["team 0x100", "rewrite"], "err 15"),
        (&["team 4294967295", "resize 1 256"], "err 15"),
        (&["insert_file 0 62"], "err 15"),
        (&["insert_dir 0 62"], "err 15"),
        (&["mkdirs 0 62"], "err 15"),
        (&["move 1 0x600"], "err 15"),
        (&["replace 1 aa"], "err 15"),
        (&["replace_zeros 1 4294967296"], "err 15"),
        // Behind opening, and before all else.
        (&["size 0x43f", "rewrite"], "err 1"),
        (&["patch 0x450 00000459", "rewrite"], "err 14"),
        (&["patch 0x420 00001f1d", "rewrite"], "err 24"),
        (&["lend 15 0", "rewrite"], "err 9"),
        (&["lend 16 0", "rewrite"], "err 15"),
        (&[&too_long], "err 15"),
        (&["resize 0 0"], "err 15"),
        (&["insert_file 1 62"], "err 15"),
        (&["move 1 0x500"], "err 15"),
        (&["lend 65544 2097152", &too_long], "err 15"),
        (
            &["record"],
            "ok 1369 6657 4294967295:0:0:0 0:0:0:0 0:0:0:0 0:0:0:0 0:0:0:0 0:0:0:0 0:0:0:0 \
             0:0:0:0 0:0:0:0 0:0:0:0 0:0:0:0 0:0:0:0 0:0:0:0 0:0:0:0 0:0:0:0 0:0:0:1",
        ),
        // It stays until another is named; without a record there is none.
        (&["drop_record", "rewrite"], "ok"),
        (&["resize 1 257"], "ok"),
        (&[&too_long], "err 9"),
        (&["make_record", "rewrite"], "err 15"),
        (&["set_record 1 2", "rewrite"], "err 15"),
        (&["team 0", "rewrite"], "ok"),
        // Before 27, 28 and 25, which are all due.
        (&[ALL, "rewrite"], "err 27"),
        (&["resize 2 0"], "err 15"),
        (&["resize 0 0"], "err 16"),
        (&["insert_file 1 62"], "err 17"),
        (&["mkdirs 0 2e2e"], "err 18"),
        (&["insert_dir 0 61"], "err 19"),
        (&["insert_file 0 3a"], "err 13"),
        (&["insert_dir 0 ff"], "err 12"),
        (&["move 1 0x500"], "err 20"),
        (&["move 1 0x400"], "err 21"),
        (&["resize 1 0x1b01"], "err 21"),
        (&["replace_zeros 1 4294967296"], "err 21"),
        (&[&too_long], "err 9"),
        (&[&longest], "err 27"),
        (&["lend 16 0x19", "rewrite"], "err 9"),
        (&["lend 16 0", "resize 1 256"], "err 27"),
        (&["lend 65544 2097152", SHORT, "rewrite"], "err 26"),
        (&[SHORT, "resize 1 256"], "err 27"),
        (&[TIGHT, "insert_file 0 62"], "err 21"),
        (&[TIGHT, EXACT, "insert_file 0 62"], "err 26"),
        (&["record"], "ok 5 6 0:0:1:4294967295 0:4294967295:0:0 .."),
        // Then each of the three, as the one before it is not due.
        (&["set_record 5 6 1:0:1:4294967295 0:4294967295:0:0", "rewrite"], "err 28"),
        (&["resize 1 256"], "err 28"),
        (&["resize 1 257"], "err 27"),
        (&["set_record 5 6 1:0:1:4294967295 0:6822:0:0", "rewrite"], "err 25"),
        (&["resize 1 256"], "err 25"),
        (&["resize 1 257"], "err 27"),
        (&["set_record 5 6 1:0:1:4294967294 0:6822:0:0", "rewrite"], "ok"),
        (&["record"], "ok 5 6656 1:0:1:4294967295 0:6822:0:0 .."),
        // The count is the team's own.
        (&["set_record 5 6 0:0:0:4294967294 0:0:0:4294967295", "rewrite"], "ok"),
        (&["team 1", "rewrite"], "err 25"),
        (&["set_record 0 6 0:0:0:4294967295 9:0:9:0", "resize 1 255"], "err 25"),
        (&["rewrite", "record"], "ok 0 6656 0:0:0:4294967295 9:0:9:1 .."),
        (&["drop_record", "team 0"], "ok"),
    ]);
}

/// The table has 26 bytes (0x1a): 12 for the root, 12, a name and a zero byte for `a`.
const EXACT: &str = "patch 0x42c 0000001a";
const SHORT: &str = "patch 0x42c 00000019";

/// A maximum of the table's size: every edit that adds no entry writes as much.
#[test]
fn a_table_of_exactly_the_maximum() {
    hold(&[
        (&[EXACT, "rewrite"], "ok"),
        (&[EXACT, "mkdirs 0 -"], "ok 0"),
        (&[EXACT, "mkdirs 0 2e"], "ok 0"),
        (&[EXACT, "move 1 0x600"], "ok"),
        (&[EXACT, "resize 1 255"], "ok"),
        (&[EXACT, "resize 1 0x1b00"], "ok"),
        (&[EXACT, "replace 1 aabb"], "ok"),
        (&[EXACT, "replace_zeros 1 0x1b00"], "ok"),
        (&[EXACT, "insert_file 0 62"], "err 26"),
        (&[EXACT, "insert_dir 0 62"], "err 26"),
        (&[EXACT, "mkdirs 0 62"], "err 26"),
        // An entry called `b` takes 14 bytes: 40 in all.
        (&["patch 0x42c 00000027", "insert_file 0 62"], "err 26"),
        (&["patch 0x42c 00000028", "insert_file 0 62"], "ok 2"),
        (&["patch 0x42c 00000027", "insert_dir 0 62"], "err 26"),
        (&["patch 0x42c 00000028", "insert_dir 0 62"], "ok 2"),
        (&["patch 0x42c 00000028", "insert_file 0 6262"], "err 26"),
        (&["patch 0x42c 00000029", "insert_file 0 6262"], "ok 2"),
        (&["patch 0x42c 00000028", "insert_file 0 62", "insert_file 0 63"], "err 26"),
        // Two directories, 54 bytes; the same one found again, 40.
        (&["patch 0x42c 00000035", "mkdirs 0 6e2f6d"], "err 26"),
        (&["patch 0x42c 00000036", "mkdirs 0 6e2f6d"], "ok 3"),
        (&["patch 0x42c 00000027", "mkdirs 0 6e2f2e2e2f6e"], "err 26"),
        (&["patch 0x42c 00000028", "mkdirs 0 6e2f2e2e2f6e"], "ok 2"),
        // No edit writes the field.
        (&["patch 0x42c 00000028", "insert_file 0 62", "peek 0x428 8"], "ok 0000002800000028"),
        (&[EXACT, "move 1 0x600", "peek 0x428 8"], "ok 0000001a0000001a"),
        (&[EXACT, "insert_file 0 62", "peek 0x428 8"], "ok 0000001a0000001a"),
        // 0 states no maximum; the largest number is one.
        (&["patch 0x42c 00000000", "insert_file 0 62"], "ok 2"),
        (&["patch 0x42c 00000000", "rewrite"], "ok"),
        (&["patch 0x42c ffffffff", "insert_file 0 62"], "ok 2"),
    ]);
}

/// The table is above the maximum: the image opens, and what writes no table is done.
#[test]
fn a_table_above_the_maximum() {
    let listing = format!("ok {}", hex(LISTING.as_bytes()));
    let own = format!("replace 1 {}", hex(&[7; 0x100]));
    hold(&[
        (&[SHORT, "open"], "ok"),
        (&[SHORT, "listing"], &listing),
        (&[SHORT, "used"], "ok 1370"),
        (&[SHORT, "maxfile 1"], "ok 6912"),
        (&[SHORT, "alloc 0x100 0x100"], "ok 1536 6656"),
        (&["patch 0x42c 00000001", "listing"], &listing),
        (&[SHORT, "rewrite"], "err 26"),
        (&[SHORT, "mkdirs 0 -"], "err 26"),
        (&[SHORT, "mkdirs 0 62"], "err 26"),
        (&[SHORT, "insert_file 0 62"], "err 26"),
        (&[SHORT, "insert_dir 0 62"], "err 26"),
        (&[SHORT, "move 1 0x600"], "err 26"),
        (&[SHORT, "resize 1 255"], "err 26"),
        (&[SHORT, "resize 1 257"], "err 26"),
        (&[SHORT, "resize 1 0"], "err 26"),
        (&[SHORT, "replace 1 aabb"], "err 26"),
        (&[SHORT, "replace_zeros 1 257"], "err 26"),
        (&["patch 0x42c 00000001", "rewrite"], "err 26"),
        // The present size.
        (&[SHORT, "resize 1 256"], "ok"),
        (&[SHORT, &own], "ok"),
        (&[SHORT, &own, "peek 0x5fe 3"], "ok 070700"),
        (&[SHORT, "replace_zeros 1 256"], "ok"),
        (&[SHORT, "lend 16 0", "resize 1 256"], "ok"),
        (&[SHORT, "patch 0x454 00000000", "replace 1 -"], "ok"),
        (&[SHORT, "lend 65544 2097152", "patch 0x454 00000000", "move 1 0xffffffff"], "err 26"),
    ]);
}

/// What is judged is the table that the edit would write, and not the one that is there.
#[test]
fn a_table_edited_down() {
    // 6 bytes behind the names that no name uses: 32 bytes, written anew 26.
    const SLACK: &str = "patch 0x428 00000020";
    // 38 bytes of slack: 64 bytes.
    const MORE: &str = "patch 0x428 00000040";
    // Two files share the text `a`: 38 bytes, written anew 40.
    const SHARED: [&str; 3] = [
        "patch 0x428 00000026",
        "patch 0x440 010000000000000000000003000000000000050000000010",
        "patch 0x458 0000000000000700000000106100",
    ];
    // `ab` and its end, with 5 bytes of slack: 44 bytes, written anew 41.
    const BOTH: [&str; 3] = [
        "patch 0x428 0000002c",
        "patch 0x440 010000000000000000000003000000000000050000000010",
        "patch 0x458 00000001000006000000001061620000000000",
    ];
    hold(&[
        (&[SLACK, EXACT, "open"], "ok"),
        (&[SLACK, EXACT, "used"], "ok 1376"),
        (&[SLACK, EXACT, "rewrite"], "ok"),
        (&[SLACK, EXACT, "rewrite", "peek 0x428 8"], "ok 0000001a0000001a"),
        (&[SLACK, EXACT, "move 1 0x600", "used"], "ok 1370"),
        (&[SLACK, EXACT, "resize 1 257", "used"], "ok 1371"),
        (&[SLACK, EXACT, "replace 1 -", "used"], "ok 1114"),
        (&[SLACK, EXACT, "mkdirs 0 -", "used"], "ok 1370"),
        (&[SLACK, SHORT, "rewrite"], "err 26"),
        (&[SLACK, SHORT, "move 1 0x600"], "err 26"),
        (&[SLACK, EXACT, "insert_file 0 62"], "err 26"),
        // The present size: the table stays as it is, above the maximum.
        (&[SLACK, EXACT, "resize 1 256", "peek 0x428 8"], "ok 000000200000001a"),
        (&[SLACK, EXACT, "replace_zeros 1 256", "used"], "ok 1376"),
        (&[MORE, "patch 0x42c 00000028", "insert_file 0 62"], "ok 2"),
        (
            &[MORE, "patch 0x42c 00000028", "insert_file 0 62", "peek 0x428 8"],
            "ok 0000002800000028",
        ),
        (&[MORE, "patch 0x42c 00000027", "insert_file 0 62"], "err 26"),
    ]);
    for (table, cases) in [
        (
            SHARED,
            &[
                (&["patch 0x42c 00000026", "used"][..], "ok 1158"),
                (&["patch 0x42c 00000026", "rewrite"], "err 26"),
                (&["patch 0x42c 00000027", "rewrite"], "err 26"),
                (&["patch 0x42c 00000027", "resize 1 15"], "err 26"),
                (&["patch 0x42c 00000027", "resize 1 16"], "ok"),
                (&["patch 0x42c 00000028", "rewrite", "peek 0x428 8"], "ok 0000002800000028"),
                (&["patch 0x42c 00000028", "resize 1 15", "used"], "ok 1159"),
            ][..],
        ),
        (
            BOTH,
            &[
                (&["patch 0x42c 00000028", "used"], "ok 1164"),
                (&["patch 0x42c 00000028", "rewrite"], "err 26"),
                (&["patch 0x42c 00000029", "rewrite", "peek 0x428 8"], "ok 0000002900000029"),
                (&["patch 0x42c 00000029", "move 2 0x700", "used"], "ok 1161"),
            ],
        ),
    ] {
        let lists: Vec<Vec<&str>> =
            cases.iter().map(|(lines, _)| [&table[..], lines].concat()).collect();
        let cases: Vec<(&[&str], &str)> =
            lists.iter().zip(cases).map(|(list, (_, said))| (&list[..], *said)).collect();
        hold(&cases);
    }
}

/// Opening and the edit's own numbers; the limits' and the memory's 9; 26; the table's 21; 25.
#[test]
fn twenty_six_in_its_order() {
    let deep = |levels: usize| format!("mkdirs 0 {}", "782f".repeat(levels));
    let (deepest, too_deep) = (deep(64), deep(65));
    // `a` lies right behind the table, which has no room then.
    const TIGHT: &str = "patch 0x450 0000045a";
    // Two files share the text `a`. The table ends at 0x466, written anew at 0x468.
    const SHARED: [&str; 3] = [
        "patch 0x428 00000026",
        "patch 0x440 010000000000000000000003000000000000050000000010",
        "patch 0x458 0000000000000700000000106100",
    ];
    let [one, two, three] = SHARED;
    hold(&[
        // Opening.
        (&[SHORT, "size 0x43f", "rewrite"], "err 1"),
        (&[SHORT, "patch 0x450 00000459", "rewrite"], "err 14"),
        (&[SHORT, "patch 0x420 00001f1d", "rewrite"], "err 24"),
        // The edit's own.
        (&[SHORT, "resize 2 0"], "err 15"),
        (&[SHORT, "resize 0 0"], "err 16"),
        (&[SHORT, "insert_file 1 62"], "err 17"),
        (&[SHORT, "insert_file 0 61"], "err 19"),
        (&[SHORT, "insert_file 0 3a"], "err 13"),
        (&[SHORT, "insert_file 0 ff"], "err 12"),
        (&[SHORT, "mkdirs 0 2e2e"], "err 18"),
        (&[SHORT, "mkdirs 0 61"], "err 17"),
        (&[SHORT, "mkdirs 0 ff"], "err 12"),
        (&[SHORT, "move 1 0x580"], "err 20"),
        (&[SHORT, "move 1 0x500"], "err 20"),
        (&[SHORT, "move 1 0x400"], "err 21"),
        (&[SHORT, "resize 1 0x1b01"], "err 21"),
        (&[SHORT, "replace_zeros 1 0x1b01"], "err 21"),
        (&[SHORT, "replace_zeros 1 4294967296"], "err 21"),
        // 9: the limits of the new tree, words, bytes.
        (&[EXACT, &too_deep], "err 9"),
        (&[EXACT, &deepest], "err 26"),
        (&[SHORT, "lend 15 0x1a", "rewrite"], "err 9"),
        (&[SHORT, "lend 16 0x19", "rewrite"], "err 9"),
        (&[SHORT, "lend 16 0x1a", "rewrite"], "err 26"),
        (&[SHORT, "lend 16 0", "move 1 0x600"], "err 9"),
        (&[EXACT, "lend 19 0x28", "insert_file 0 62"], "err 9"),
        (&[EXACT, "lend 20 0x27", "insert_file 0 62"], "err 9"),
        (&[EXACT, "lend 20 0x28", "insert_file 0 62"], "err 26"),
        (&["lend 65544 2097152", "drop_record"], "ok"),
        // The table's 21: no room behind it, or the file's new place in its way.
        (&[TIGHT, "insert_file 0 62"], "err 21"),
        (&[TIGHT, EXACT, "insert_file 0 62"], "err 26"),
        (&[TIGHT, "patch 0x42c 00000027", "mkdirs 0 62"], "err 26"),
        (&[TIGHT, "patch 0x42c 00000028", "mkdirs 0 62"], "err 21"),
        (&[one, two, three, "move 2 0x466"], "err 21"),
        (&[one, two, three, "patch 0x42c 00000027", "move 2 0x466"], "err 26"),
        (&[one, two, three, "patch 0x42c 00000028", "move 2 0x466"], "err 21"),
        (&[one, two, three, "patch 0x42c 00000028", "move 2 0x468"], "ok"),
        // 25, and the record as it was.
        (&[SHORT, "set_record 0 0 4294967295:0:0:4294967295", "rewrite"], "err 26"),
        (&["record"], "ok 0 0 4294967295:0:0:4294967295 .."),
        (&[SHORT, "insert_dir 0 62"], "err 26"),
        (&[SHORT, "resize 1 255"], "err 26"),
        (&[SHORT, "resize 1 256"], "err 25"),
        (&[EXACT, "rewrite"], "err 25"),
        (&["set_record 7 8 4294967295:0:0:9"], "ok 7 8 4294967295:0:0:9 .."),
        (&[SHORT, "move 1 0x600"], "err 26"),
        (&["record"], "ok 7 8 4294967295:0:0:9 .."),
        (&["drop_record"], "ok"),
    ]);
}

/// A list of calls made up by a small generator: nothing is ever left dirty.
#[test]
fn never_dirty() {
    let mut state = 7u64;
    let mut random = move |below: u64| {
        state = state.wrapping_mul(6364136223846793005).wrapping_add(1442695040888963407);
        (state >> 33) % below
    };
    let mut commands: Vec<String> = vec![];
    for _ in 0..200 {
        commands.extend(MASTER.map(String::from));
        for _ in 0..30 {
            let (entry, at, len) = (random(5), 0x440 + random(0x1c00), random(0x400));
            commands.push(format!("lend {} {}", random(80), random(160)));
            commands.push(match random(3) {
                0 => "lend_list -".into(),
                _ => format!("lend_list {}", random(16)),
            });
            commands.extend(match random(24) {
                0 => Some(format!("make_record {} 0,{}", random(600), random(8000))),
                1 => Some("drop_record".into()),
                2 => Some(format!("set_record {} 0 9999:0:0:{}", random(300), u32::MAX - 1)),
                3 => Some(format!(
                    "set_record {} 0 {}:{}:{}:3 {}:{}:{}:4",
                    u32::MAX - random(300) as u32,
                    random(1000),
                    random(9000),
                    random(900),
                    random(1000),
                    random(9000),
                    random(900)
                )),
                4 => Some(format!("team {}", random(3))),
                5 => Some(format!("team {}", 14 + random(4))),
                _ => None,
            });
            // All three of one edit; the span is that of the file as it was made.
            commands.extend(match random(12) {
                0 => vec![
                    format!("move_copy 1 {at}"),
                    format!("move_table 1 {at}"),
                    "zero 1280 256".into(),
                ],
                1 => vec![
                    format!("resize_copy 1 {}", len & 255),
                    format!("resize_table 1 {}", len & 255),
                    format!("zero {} {}", 1280 + (len & 255), 256 - (len & 255)),
                ],
                _ => vec![],
            });
            commands.extend(match random(6) {
                0 => {
                    let paths: [&[u8]; 6] = [b"a", b"b", b"", b"b/c", b"a/c", b"b\\c"];
                    let lines: Vec<Line> = (0..random(5))
                        .map(|_| {
                            let path = paths[random(6) as usize];
                            match random(40) {
                                0..10 => (1, path, 0, 0),
                                10..20 => (2, path, 0, 0),
                                20..30 => (3, path, at as u32, 0),
                                30..39 => (4, path, 0, random(0x400) as u32),
                                _ => (5, path, 0, 0),
                            }
                        })
                        .collect();
                    Some(sheet(&lines))
                }
                _ => None,
            });
            commands.push(match random(26) {
                0 => format!("move {entry} {at}"),
                1 => format!("resize {entry} {len}"),
                2 => "rewrite".into(),
                3 => format!("insert_file {entry} {:02x}", random(256)),
                4 => format!("insert_dir {entry} {:02x}", random(256)),
                5 => format!("mkdirs {entry} {:02x}2f{:02x}", random(256), random(256)),
                6 => format!("lookup {entry} {:02x}", random(256)),
                7 => "free".into(),
                8 => "list".into(),
                9 => format!("maxregion {at} {len}"),
                10 => format!("alloc {len} {}", random(64)),
                11 => format!("filewindow {entry} e:-1 r:4"),
                12 => "clusters".into(),
                13 | 14 => {
                    format!("replace {entry} {}", hex(&vec![random(256) as u8; len as usize]))
                }
                15 => format!("replace_zeros {entry} {}", len << random(24)),
                16 => format!("patch 0x42f {:02x}", random(100)),
                17 => {
                    let (a, b) = (random(256), random(256));
                    format!(
                        "master {} 47434c45 {},0 {a:02x}00{b:02x}00",
                        len << random(8),
                        len >> 9
                    )
                }
                18 => format!("zero {at} {len}"),
                19 => format!("move_copy {entry} {at}"),
                20 => format!("move_table {entry} {at}"),
                21 => format!("resize_copy {entry} {len}"),
                22 => format!("resize_table {entry} {len}"),
                23 => format!("clear {} {}", len << random(4), random(4)),
                24 => format!("tables {}", random(10)),
                _ => format!("patch {} {:02x}", 0x420 + random(0x44), random(4)),
            });
        }
    }
    answers(&commands);
}

/// The current image is the buffer, whatever it holds, and keeps its length; a record is left alone.
#[test]
fn new_masters() {
    let listing =
        "total 65537 used 33897\nd 0 0 3 /\nf 1 65536 1 /a\nf 2 32768 32768 /b\nr 1128 31640\n";
    let listing = format!("ok {}", hex(listing.as_bytes()));
    let two = "master 0x10001 47434c45 1,0x8000 61006200";
    hold(&[
        (&[two], "err 9"),
        (&["size 0x10001", two], "ok"),
        (&["size 0x10001", two, "listing"], &listing),
        (&["size 0x10001", two, "peek 0 4"], "ok 47434c45"),
        (&["size 0x10001", "master 0x10000 47434c45 1,0x8000 61006200"], "err 21"),
        (&["size 0x10001", "master 0x10000 47434c45 1,0x8000 61006200", "used"], "ok 1370"),
        (&["size 4", "patch 0 ffffffff", two, "peek 0 4"], "ok ffffffff"),
        (&["size 0", "size 0x10002", "patch 0x10001 ff", two, "peek 0x10000 2"], "ok 00ff"),
        (&["master 0x44b 47434c45 - -"], "err 21"),
        (&["master 0x44c 47434c45 - -"], "ok"),
        (&["master 0x44c 47434c45 - -", "free"], "ok"),
        (&["master 0x44d 47434c45 - -", "free"], "ok 1100:1"),
        (&["master 0x2000 47434c45 1 -"], "err 8"),
        (&["master 0x2000 47434c45 - 00"], "err 8"),
        (&["lend 0 0", "master 0x2000 47434c45 1 2e00"], "err 13"),
        (&["lend 0 0", "master 0x2000 47434c45 0 6100"], "err 9"),
        (&["lend 16 26", "master 0x2000 47434c45 0 6100"], "ok"),
        (&["lend 15 26", "master 0x2000 47434c45 0 6100"], "err 9"),
        (&["lend 16 25", "master 0x2000 47434c45 0 6100"], "err 9"),
        (&["lend 16 26", "lend_list 0", "master 0x2000 47434c45 0 6100"], "ok"),
        (
            &["set_record 5 6 4294967295:0:0:7", "master 0x2000 47434c45 0 6100", "record"],
            "ok 5 6 4294967295:0:0:7 ..",
        ),
        (
            &["set_record 5 6 4294967295:0:0:7", "master 0x2000 47434c45 1 6100", "record"],
            "ok 5 6 4294967295:0:0:7 ..",
        ),
        (&[OPEN, "master 0x2000 47434c45 0 6100", "record"], "ok 1370 6656 4294967295:0:0:0 .."),
        (&["master 0x2000 47434c45 0 6100", OPEN], "ok 1114 7078 4294967295:0:0:0 .."),
    ]);
}

/// The copy, the table, the zeros: what is left to be zeroed, and the image and the record of the whole edit at last.
#[test]
fn edits_in_three_calls() {
    const BYTES: &str = "patch 0x500 0102030405060708";
    const TWO: &str = "make_record 500,4294967295 100,6000";
    hold(&[
        (&["resize_copy 1 6912"], "ok"),
        (&["resize_table 1 6912"], "ok 0 0"),
        (&["resize_table 1 128"], "ok 1408 128"),
        (&["resize_table 1 0"], "ok 1280 256"),
        (&["resize_table 1 256"], "ok 0 0"),
        (&["move_copy 1 1536"], "ok"),
        (&["move_copy 1 1536", "move_table 1 1536"], "ok 1280 256"),
        (&["move_copy 1 1536", "move_table 1 1536", "zero 1280 256"], "ok"),
        (&["zero 1114 4294967295"], "err 29"),
        (&["zero 4294967295 0"], "ok"),
        (&["size 0x43f", "zero 4294967295 0"], "err 1"),
        (&["patch 0x450 00000459", "zero 4294967295 0"], "err 14"),
        // Behind the copy: the old tree; the copy is in free space.
        (&[BYTES, "move_copy 1 1536", "peek 0x500 8"], "ok 0102030405060708"),
        (&[BYTES, "move_copy 1 1536", "peek 0x600 8"], "ok 0102030405060708"),
        (&[BYTES, "move_copy 1 1536", "entry 1"], "ok f:1:1280:256"),
        // Behind the table: the new tree; the old place still has its bytes.
        (&[BYTES, "move_copy 1 1536", "move_table 1 1536", "entry 1"], "ok f:1:1536:256"),
        (&[BYTES, "move_copy 1 1536", "move_table 1 1536", "peek 0x500 8"], "ok 0102030405060708"),
        (
            &[BYTES, "move_copy 1 1536", "move_table 1 1536", "zero 1280 256", "peek 0x500 8"],
            "ok 0000000000000000",
        ),
        // The second without the first, the third without either, and each again.
        (&[BYTES, "move_table 1 1536", "peek 0x600 8"], "ok 0000000000000000"),
        (&["zero 1280 256"], "err 29"),
        (&["zero 1536 6656"], "ok"),
        (&["move_copy 1 1536", "move_copy 1 1536"], "ok"),
        (&["move_table 1 1536", "move_table 1 1536"], "err 20"),
        (&["move_table 1 1536", "move_copy 1 1536"], "err 20"),
        (&["move_table 1 1536", "zero 1280 256", "zero 1280 256"], "ok"),
        // A record goes through the first as it is.
        (&[TWO, "move_copy 1 2048", "record"], "ok 1370 6656 500:100:0:0 4294967295:6000:0:0 .."),
        (
            &[TWO, "resize_table 1 756", "record"],
            "ok 1870 6156 500:100:500:1 4294967295:6000:0:0 ..",
        ),
        (&[TWO, "resize_copy 1 757"], "err 27"),
        (&[TWO, "resize_table 1 757"], "err 27"),
        (&["record"], "ok 1370 6656 500:100:0:0 4294967295:6000:0:0 .."),
        // The third takes neither record nor team.
        (&["team 16", "move_copy 1 2048"], "err 15"),
        (&["team 16", "move_table 1 2048"], "err 15"),
        (&["team 16", "zero 1536 1"], "ok"),
        (&["record"], "ok 1370 6656 500:100:0:0 4294967295:6000:0:0 .."),
        (&["team 0", "drop_record", "move_copy 1 2048"], "ok"),
        (&["move_table 1 2048", "zero 1280 756"], "ok"),
        (&["move_table 1 2048", "zero 2048 1"], "err 29"),
    ]);
    // The table's last six bytes are slack, which a table that is written zeroes; it tells its size.
    const SLACK: &str = "patch 0x45a 736c61636b00";
    const SIZE: &str = "patch 0x428 00000020";
    hold(&[
        (&[SLACK, SIZE, "move_copy 1 1536", "peek 0x45a 6"], "ok 736c61636b00"),
        (&[SLACK, SIZE, "move_copy 1 1536", "peek 0x428 4"], "ok 00000020"),
        (&[SLACK, SIZE, "move_table 1 1536", "peek 0x45a 6"], "ok 000000000000"),
        (&[SLACK, SIZE, "move_table 1 1536", "peek 0x428 4"], "ok 0000001a"),
        (&[SLACK, SIZE, "resize_table 1 256", "peek 0x45a 6"], "ok 736c61636b00"),
        (&[SLACK, SIZE, "zero 0x460 160"], "ok"),
        (&[SLACK, SIZE, "zero 0x45f 161"], "err 29"),
        (&[SLACK, SIZE, "resize_table 1 257", "zero 0x45f 161"], "ok"),
    ]);
    // Of a file of 756 bytes.
    hold(&[
        (&["resize 1 756", "move_copy 1 2048", "move_table 1 2048"], "ok 1280 756"),
        (
            &["resize 1 756", "move_copy 1 2048", "move_table 1 2048", "zero 1280 756", "free"],
            "ok 1114:934 2804:5388",
        ),
    ]);
}

/// Every test of the whole edit is made by its parts: on a small master that is changed as said, each number.
#[test]
fn parts_are_refused_as_the_whole_edit() {
    // Two files share the text `a`: the table ends at 0x466, written anew at 0x468.
    const SHARED: [&str; 3] = [
        "patch 0x428 00000026",
        "patch 0x440 010000000000000000000003000000000000050000000010",
        "patch 0x458 0000000000000700000000106100",
    ];
    let cases: [(&[&str], &str, &str); 25] = [
        (&["size 0x43f"], "move 1 1536", "err 1"),
        (&["patch 0x1c 00"], "resize 1 0", "err 3"),
        (&["patch 0x450 00000459"], "resize 1 256", "err 14"),
        (&["patch 0x420 00001f1d"], "resize 1 0", "err 24"),
        (&["make_record", "team 16"], "move 2 1536", "err 15"),
        (&[], "move 2 1536", "err 15"),
        (&[], "resize 2 0", "err 15"),
        (&[], "move 0 1536", "err 16"),
        (&[], "resize 0 0", "err 16"),
        (&[], "move 1 0x501", "err 20"),
        (&[], "move 1 0x400", "err 21"),
        (&[], "resize 1 0x1b01", "err 21"),
        (&["lend 15 26"], "move 1 1536", "err 9"),
        (&["lend 16 25"], "move 1 1536", "err 9"),
        (&["lend 16 25"], "resize 1 255", "err 9"),
        (&["lend 16 0"], "resize 1 256", "ok"),
        (&[SHORT], "move 1 1536", "err 26"),
        (&[SHORT], "resize 1 256", "ok"),
        (&SHARED, "move 2 0x466", "err 21"),
        (&SHARED, "move 2 0x467", "err 21"),
        (&SHARED, "resize 2 16", "ok"),
        (&["set_record 9 9 5:0:9:9"], "move 1 1536", "err 27"),
        (&["make_record 0 0,6823"], "resize 1 256", "err 28"),
        (&["set_record 0 0 9:0:0:0"], "resize 1 255", "err 25"),
        (&["set_record 0 0 9:0:0:4294967295"], "resize 1 256", "err 25"),
    ];
    let all = "lend 65544 2097152";
    let mut lists: Vec<(Vec<String>, String)> = vec![];
    for (before, edit, expected) in cases {
        let (kind, numbers) = edit.split_once(' ').unwrap();
        for part in ["", "_copy", "_table"] {
            let mut list: Vec<String> = [&["drop_record", "team 0", all], before]
                .concat()
                .iter()
                .map(|l| l.to_string())
                .collect();
            list.push(format!("{kind}{part} {numbers}"));
            let none = expected == "ok" && part == "_table";
            lists.push((list, if none { "ok 0 0" } else { expected }.into()));
        }
    }
    let lists: Vec<(Vec<&str>, &str)> = lists
        .iter()
        .map(|(list, said)| (list.iter().map(String::as_str).collect(), said.as_str()))
        .collect();
    let cases: Vec<(&[&str], &str)> = lists.iter().map(|(list, said)| (&list[..], *said)).collect();
    hold(&cases);
}

/// The span of the third call: to the end of a free region and of the disc, a byte past them, and over a file.
#[test]
fn spans_that_are_free() {
    const LENT: &str = "lend 16 0";
    hold(&[
        (&[LENT], "ok"),
        (&["zero 0 0"], "ok"),
        (&["zero 0 1"], "err 29"),
        (&["zero 0x459 1"], "err 29"),
        (&["zero 0x45a 1"], "ok"),
        (&["zero 0x45a 166"], "ok"),
        (&["zero 0x45a 167"], "err 29"),
        (&["zero 0x459 167"], "err 29"),
        (&["zero 0x45a 7078"], "err 29"),
        (&["zero 0x500 256"], "err 29"),
        (&["zero 0x5ff 1"], "err 29"),
        (&["zero 0x600 6656"], "ok"),
        (&["zero 0x600 6657"], "err 29"),
        (&["zero 0x1fff 1"], "ok"),
        (&["zero 0x1fff 2"], "err 29"),
        (&["zero 0x2000 0"], "ok"),
        (&["zero 0x2000 1"], "err 29"),
        (&["zero 0x600 4294965760"], "err 29"), // its end is 2^32
        (&["zero 0x600 4294965761"], "err 29"),
        (&["zero 4294967295 1"], "err 29"),
        (&["zero 4294967295 4294967295"], "err 29"),
        // The image goes on behind the disc end.
        (
            &["size 0x3000", "patch 0x1ffe 01010101", "zero 0x1fff 1", "peek 0x1ffe 4"],
            "ok 01000101",
        ),
        (&["size 0x3000", "zero 0x1fff 2"], "err 29"),
        // An empty file inside it takes no byte.
        (&["patch 0x450 0000070000000000", "zero 0x45a 7078"], "ok"),
        // A program of 0xe4 bytes behind the table.
        (&["patch 0x420 00001000", "zero 0x600 2560"], "ok"),
        (&["patch 0x420 00001000", "zero 0x600 2561"], "err 29"),
        (&["patch 0x420 00001000", "zero 0x10e3 1"], "err 29"),
        (&["patch 0x420 00001000", "zero 0x10e4 3868"], "ok"),
        (&["lend 15 0", "zero 0 0"], "err 9"),
        (&["zero 0 1"], "err 9"),
        (&["lend 65544 2097152"], "ok"),
    ]);
}

/// One line on the small master; which number comes first.
#[test]
fn sheets_of_one_line() {
    let cases: [(u32, &[u8], u32, u32, &str); 30] = [
        (1, b"a/:", 0, 0, "err 13 1"),
        (1, b"q/:", 0, 0, "err 18 1"),
        (1, b"a/x", 0, 0, "err 17 1"),
        (1, b"a//x", 0, 0, "err 17 1"),
        (1, b"", 0, 0, "err 13 1"),
        (1, b"a\\b", 0, 0, "err 13 1"),
        (1, b"\x83/q", 0, 0, "err 18 1"),
        (2, b"\x83\\", 0, 0, "ok"),
        (4, b"", 0, 0, "err 16 1"),
        // The cut is at the last `/` alone; what is before it is a lookup's, with `\`, `.`, `..` and empty parts.
        (1, b"/", 0, 0, "err 13 1"),
        (2, b"/b", 0, 0, "ok"),
        (2, b"//./b", 0, 0, "ok"),
        (2, b"./\\/b", 0, 0, "ok"),
        (2, b"../b", 0, 0, "err 18 1"),
        (2, b"a/../b", 0, 0, "err 17 1"),
        (2, b"a\\../b", 0, 0, "err 17 1"),
        (2, b"q\\../b", 0, 0, "err 18 1"),
        (2, b"b/", 0, 0, "err 18 1"),
        (2, b"a/", 0, 0, "err 13 1"),
        (1, b"a", 0, 0, "err 19 1"),
        (2, b"a", 0, 0, "err 19 1"),
        (2, b"\x83", 0, 0, "err 12 1"),
        (2, b"b\x83/", 0, 0, "err 18 1"),
        (2, b"\x83\\/b", 0, 0, "err 18 1"),
        (3, b"./a", 0x600, 0, "ok"),
        (3, b"a/", 0x600, 0, "err 17 1"),
        (3, b"q", 0x600, 0, "err 18 1"),
        (3, b"a", 0x580, 0, "err 20 1"),
        (4, b"\\a", 0, 0x1b00, "ok"),
        (4, b"a", 0, 0x1b01, "err 21 1"),
    ];
    for (kind, path, offset, size, expected) in cases {
        hold(&[(&[&sheet(&[(kind, path, offset, size)])], expected)]);
    }
    // A path of 1,024 bytes, and one more, whatever it leads to.
    let long = |count: usize| [&[b'/'; 1023][..], &[b'a'; 3][..count]].concat();
    for (kind, offset, size) in [(1, 0, 0), (2, 0, 0), (3, 0x600, 0), (4, 0, 1)] {
        let of = |path: &[u8]| sheet(&[(kind, path, offset, size)]);
        let known = if kind < 3 { "err 19 1" } else { "ok" };
        hold(&[(&[&of(&long(1))], known)]);
        hold(&[(&[&of(&long(2))], "err 9 1")]);
        let bad = [&[b':'; 1024][..], b"/"].concat();
        hold(&[(&[&of(&bad)], "err 9 1")]);
        let refused = if kind < 3 { "err 13 1" } else { "err 18 1" };
        hold(&[(&[&of(&bad[..1024])], refused)]);
    }
}

/// What is 30, wherever it stands, and before anything else; and what is none.
#[test]
fn sheets_that_are_none() {
    let of = |bytes: &[u8]| format!("sheet {}", hex(bytes));
    let line =
        |numbers: [u32; 4]| of(&[words(&[1, 16, 32, 2]), words(&numbers), b"a\0".into()].concat());
    let mut cases = vec![
        (of(&[0; 15]), "err 30 0"),
        (of(&[0; 16]), "ok"),
        (of(&words(&[0, 16, 16, 0])), "ok"),
        (of(&words(&[0, 17, 16, 0])), "err 30 0"),
        (of(&words(&[0, 16, 17, 0])), "err 30 0"),
        (of(&words(&[0, 16, 15, 2])), "err 30 0"),
        (of(&words(&[0, 16, 15, 1])), "ok"),
        (of(&words(&[0, 0, 0xffff_ffff, 1])), "err 30 0"),
        (of(&words(&[0, 0xffff_fff0, 0, 0])), "err 30 0"),
        (of(&words(&[1 << 28, 0, 0, 0])), "err 30 0"),
        (of(&words(&[0xffff_ffff, 0, 0, 0])), "err 30 0"),
        (line([0, 0, 0, 0]), "err 30 0"),
        (line([1, 0, 0, 0]), "err 19 1"),
        (line([4, 0, 0, 0x100]), "ok"),
        (line([5, 0, 0, 0]), "err 30 0"),
        (line([0x0100_0000, 0, 0, 0]), "err 30 0"),
        (line([1, 0, 1, 0]), "err 30 0"),
        (line([2, 0, 0, 1]), "err 30 0"),
        (line([3, 0, 0x600, 1]), "err 30 0"),
        (line([4, 0, 1, 0x100]), "err 30 0"),
        (line([4, 1, 0, 0x100]), "err 16 1"),
        (line([4, 2, 0, 0x100]), "err 30 0"),
        (line([4, 0xffff_ffff, 0, 0x100]), "err 30 0"),
        // The second line of kind 5; whatever the first comes to.
        (sheet(&[(1, b"x", 0, 0), (5, b"y", 0, 0)]), "err 30 0"),
        (sheet(&[(1, b"a", 0, 0), (5, b"y", 0, 0)]), "err 30 0"),
        // Lines from byte 12 on: its kind is the texts' length; from byte 16 on the line behind it.
        (of(&words(&[1, 12, 12, 4, 2, 0, 0])), "err 16 1"),
        (of(&[words(&[1, 12, 28, 2, 0, 0, 0]), b"b\0".into()].concat()), "ok"),
        (of(&[words(&[1, 12, 28, 3, 0, 0x600, 0]), b"a\0x".into()].concat()), "ok"),
        (of(&[words(&[1, 12, 28, 5, 0, 0, 0]), b"b\0\0\0\0".into()].concat()), "err 30 0"),
    ];
    let many = |count: usize| sheet(&vec![(4, &b"a"[..], 0, 0x100); count]);
    cases.extend([(many(1024), "ok"), (many(1025), "err 30 0")]);
    for (command, expected) in &cases {
        hold(&[(&[command], expected)]);
        // Before opening and the team, which are due of a sheet without lines too.
        let (short, none) = (["lend 15 0", command], *expected == "err 30 0");
        hold(&[(&short, if none { expected } else { "err 9 0" })]);
        let other = [OPEN, "team 16", command];
        hold(&[(&other, if none { expected } else { "err 15 0" })]);
    }
}

/// Up to the refused line all has run, with one team and one record; without a record team and limits play no part.
#[test]
fn sheets_up_to_the_refused_line() {
    let two = "sheet 000000020000001000000030000000040000000100000000000000000000000000000004000000020000000000000000\
               78006200";
    let lines: [Line; 3] = [(4, b"a", 0, 0x200), (2, b"b", 0, 0), (4, b"a", 0, 0x100)];
    let all = sheet(&lines);
    let listing = "ok d:0:0:3:2:2f f:1:1280:256:2f61 f:2:0:0:2f62";
    hold(&[
        (&[two], "err 18 2"),
        (&[two, "list"], "ok d:0:0:3:2:2f f:1:1280:256:2f61 d:2:0:3:0:2f782f"),
        (&[OPEN, two, "record"], "ok 1384 6656 4294967295:0:14:1 .."),
        (&["drop_record", "team 16", two, "record"], "ok none"),
        (&["team 16", OPEN, two, "record"], "ok 1370 6656 4294967295:0:0:0 .."),
        (&["drop_record", two], "err 18 2"),
        (&[&all, "list"], listing),
        (&["make_record 270,14", "team 0", &all, "record"], "ok 1384 6656 270:0:14:3 14:0:0:0 .."),
        // The limit falls in the first line, and in the second.
        (&["make_record 255", &all], "err 27 1"),
        (&["make_record 255", &all, "record"], "ok 1370 6656 255:0:0:0 .."),
        (&["make_record 269", &all], "err 27 2"),
        (&["make_record 269", &all, "record"], "ok 1626 6400 269:0:256:1 .."),
        (&["make_record 269", &all, "list"], "ok d:0:0:2:1:2f f:1:1280:512:2f61"),
        // The others' shares: 6,822 bytes are free at first.
        (&["make_record 270 0,6566", &all], "err 28 2"),
        (&["make_record 270 0,6567", &all], "err 28 1"),
        (&["make_record 270 0,6552", &all], "ok"),
        (&["make_record 270 0,6553", &all], "err 28 2"),
        // Counts and used bytes.
        (&["set_record 9 9 600:0:0:4294967294", &all], "err 25 2"),
        (&["set_record 4294967040 9 600:0:0:0", &all], "err 25 1"),
        (&["set_record 4294967026 9 600:0:0:0", &all], "err 25 2"),
        (&["set_record 4294967025 9 600:0:0:0", &all], "ok"),
        (&["drop_record", "patch 0x42c 0000001a", &all], "err 26 2"),
        // Memory for two entries, and for three.
        (&["lend 16 0x1a", &all], "err 9 2"),
        (&["lend 20 0x27", &all], "err 9 2"),
        (&["lend 20 0x28", &all], "ok"),
        (&["lend 16 0x19", &all], "err 9 1"),
    ]);
}
