//! Every script of this folder gives what it has to; and what is wrong with an answer, or with a script, is told.

use replay::replay;
use std::{fs, path::Path, process::Command};

#[test]
fn every_call_of_every_script() {
    let folder = Path::new(env!("CARGO_MANIFEST_DIR")).join("scripts");
    let mut calls = 0;
    for entry in fs::read_dir(folder).unwrap() {
        let path = entry.unwrap().path();
        let outcome =
            replay(&path.display().to_string(), &fs::read_to_string(&path).unwrap()).unwrap();
        assert!(outcome.calls > 0, "{}: no call", path.display());
        assert!(outcome.differ.is_empty(), "{}", outcome.differ.join("\n"));
        calls += outcome.calls;
    }
    assert_eq!(calls, 14669, "all of them, so that none is lost");
}

/// A script that a program of this folder puts together is as it does.
fn put_together(program: &str, script: &str) {
    let folder = Path::new(env!("CARGO_MANIFEST_DIR"));
    let made = Command::new("python3").arg(folder.join(program)).output().unwrap();
    assert!(made.status.success(), "{}", String::from_utf8_lossy(&made.stderr));
    assert!(made.stdout == fs::read(folder.join("scripts").join(script)).unwrap());
}

#[test]
fn new_masters_are_put_together() {
    put_together("masters.py", "master.txt");
}

#[test]
fn records_of_teams_are_put_together() {
    put_together("teams.py", "teams.txt");
}

#[test]
fn edits_in_three_calls_are_put_together() {
    put_together("steps.py", "steps.txt");
}

#[test]
fn edit_sheets_are_put_together() {
    put_together("sheets.py", "sheets.txt");
}

#[test]
fn runs_to_clear_are_put_together() {
    put_together("runs.py", "clear.txt");
}

#[test]
fn small_tables_are_put_together() {
    put_together("small.py", "small_tables.txt");
}

const MASTER: &str =
    "lend 0x1000 0x1000 0x400\nsize 0x2000\npatch 0x1c :c2339f3d\npatch 0x424 :000004400000001a
patch 0x434 :0000200000000000\npatch 0x440 :0100000000000000000000020000000000000500000001006100\n";

/// What `replay` says of one line behind the small master.
fn of(line: &str) -> Vec<String> {
    replay("s", &format!("{MASTER}{line}\n")).unwrap().differ
}

#[test]
fn right_answers_of_the_small_master() {
    for line in [
        "max_file_size 1 = 0 0x1b00",
        "allocate 0x100 0x100 = 0 0x600 0x1a00",
        "clear 167 1 = 0 1 0x45a 0x100 0x100",
        "clear 167 0 = 0 0 0 0 0",
        "clear 7079 0 = 21",
        "free_regions = 0 2 0x45a 0xa6 0x600 0x1a00",
        "free_clusters = 0 2 0xa6 0 0 0x1a00 0 0",
        "program = 0 0 0",
        "patch 0x420 :00001000\nprogram = 0 0x1000 0xe4",
        "lookup 0 \"a/\" = 17",
        // Fills that leave the image as it is.
        "fill_zeros 1 0x100 = 0 0x203a64a4776abcd2",
        "fill_file 1 0x100 0 :00 = 0 0x203a64a4776abcd2",
        "fill_file 0 :00 = 16 0x203a64a4776abcd2",
        "fill_zeros 1 0x1b01 = 21 0x203a64a4776abcd2",
        "fill_zeros 1 0x100000000 = 21 0x203a64a4776abcd2",
        // Records: none in use, made, set, refused, set aside.
        "rewrite = 0 0x203a64a4776abcd2",
        "make_record = 0 1370 6656\nrewrite = 0 0x203a64a4776abcd2 1370 6656 0:0:0:1",
        "make_record 7,0,8 5 = 0 1370 6656 7:5:0:0 0:0:0:0 8:0:0:0",
        "make_record - 0,5 = 0 1370 6656 0:0:0:0 0:5:0:0",
        "record 5 6\nrewrite = 0 0x203a64a4776abcd2 5 6656 0:0:0:1",
        "record 5 6 4:3:2:7\nrewrite = 0 0x203a64a4776abcd2 5 6656 4:3:2:8",
        "record 5 6 0:0:0:0xffffffff\nrewrite = 25 0x203a64a4776abcd2 5 6 0:0:0:0xffffffff",
        "record 5 6 4:3:2:7\nmove_file 1 0x500 = 20 0x203a64a4776abcd2 5 6 4:3:2:7",
        "record 5 6 4:3:2:7\nsize 4\nmake_record 1 2 = 1\nrewrite = 1 0x4d25767f9dce13f5 5 6 4:3:2:7",
        "record 5 6\nrecord\nrewrite = 0 0x203a64a4776abcd2",
        // Teams: another one's, one that there is not, and none without a record.
        "team 1\nrecord 5 6 0:0:9:9 1:0:1:0\nrewrite = 0 0x203a64a4776abcd2 5 6656 0:0:9:9 1:0:1:1",
        "team 15\nrecord 5 6 0:6823:0:0\nrewrite = 28 0x203a64a4776abcd2 5 6 0:6823:0:0",
        "record 5 6 8:0:9:0\nrewrite = 27 0x203a64a4776abcd2 5 6 8:0:9:0",
        "team 16\nrecord 5 6\nrewrite = 15 0x203a64a4776abcd2 5 6",
        "team 16\nrewrite = 0 0x203a64a4776abcd2",
        // The table maximum: just met, missed by a byte, and by an insert.
        "patch 0x42c :0000001a\nrewrite = 0 0x5b12f8ccc73eb054",
        "patch 0x42c :00000019\nrewrite = 26 0x7b45e1b0436abd75",
        "patch 0x42c :0000001a\ninsert_file 0 \"b\" = 26 0x5b12f8ccc73eb054",
        // A move or a resize in three calls; all that the file has is zeros.
        "move_copy 1 0x600 = 0 0x203a64a4776abcd2",
        "resize_copy 1 0x1b00 = 0 0x203a64a4776abcd2",
        "resize_copy 1 0x1b01 = 21 0x203a64a4776abcd2",
        "resize_table 1 0x100 = 0 0x203a64a4776abcd2 0 0",
        "move_table 1 0x500 = 20 0x203a64a4776abcd2",
        "zero 0x600 0x1a00 = 0 0x203a64a4776abcd2",
        "zero 0x600 0x1a01 = 29 0x203a64a4776abcd2",
        "zero 0xffffffff 0 = 0 0x203a64a4776abcd2",
        "lend 15 0 0\nzero 0xffffffff 0 = 9 0x203a64a4776abcd2",
        "record 5 6 4:3:2:7\nmove_copy 1 0x600 = 0 0x203a64a4776abcd2 5 6 4:3:2:7",
        "record 5 6 4:3:2:7\nresize_table 1 0x100 = 0 0x203a64a4776abcd2 0 0 5 6656 4:3:2:8",
        "record 5 6 8:0:9:0\nmove_copy 1 0x600 = 27 0x203a64a4776abcd2 5 6 8:0:9:0",
        "team 16\nrecord 5 6\nmove_table 1 0x600 = 15 0x203a64a4776abcd2 5 6",
        "team 16\nrecord 5 6\nzero 0x600 1 = 0 0x203a64a4776abcd2",
        // Sheets: none, one without lines, and one that stops at its second line.
        "sheet \"\" = 30 0x203a64a4776abcd2 0",
        "sheet :00000000000000100000001000000000 = 0 0x203a64a4776abcd2 0",
        "team 16\nrecord 5 6\nsheet :00000000000000100000001000000000 = 15 0x203a64a4776abcd2 0 5 6",
        "record 5 6 4:3:2:7\nsheet :000000020000001000000030000000040000000400000000000000000000010000000004000000020000000000000000 :61007800 = 18 0x203a64a4776abcd2 2 5 6656 4:3:2:8",
        "sheet :000000020000001000000030000000040000000400000000000000000000010000000004000000020000000000000000 :61007800 = 18 0x203a64a4776abcd2 2",
        "lend 15 0 0\nsheet :00000000000000100000001000000000 = 9 0x203a64a4776abcd2 0",
        // A new master, refused, and with no files.
        "master 0x44b 0 = 21 0x203a64a4776abcd2",
        "record 5 6\nmaster 0x2000 0 1 \"a\" = 8 0x203a64a4776abcd2",
        "master 0x44c 0x47434c45 = 0 0xd5219a723b1c27a8",
        // Small tables, whatever the image and what else is lent.
        "small_tables 3 240 = 0 6 0xaf00c22473b84e9e",
        "small_tables 3 241 = 0 6 0xaf00c22473b84e9e",
        "size 0\nlend 0 0 0\nsmall_tables 3 240 = 0 6 0xaf00c22473b84e9e",
        "small_tables 3 239 = 9",
        "small_tables 0 0x100000 = 9",
        "small_tables 9 0x1000000 = 9",
        "list 0x46 = 0 0x46 \"total 8192 used 1370\nd 0 0 2 /\nf 1 1280 256 /a\nr 1114 166\nr 1536 6656\n\"",
    ] {
        assert_eq!(of(line), [""; 0], "{line}");
    }
}

#[test]
fn a_wrong_answer_is_told() {
    for (line, told) in [
        (
            "max_file_size 1 = 0 0x1b01",
            "s:7: max_file_size 1: gave 0x0 0x1b00, has to give 0x0 0x1b01",
        ),
        ("max_file_size 1 = 21", "s:7: max_file_size 1: gave 0x0 0x1b00, has to give 0x15"),
        (
            "free_regions = 0 1 0x45a 0xa6",
            "s:7: free_regions: gave 0x0 0x2 0x45a 0xa6 0x600 0x1a00, has to give 0x0 0x1 0x45a 0xa6",
        ),
        (
            "free_clusters = 0 2 0xa6 0 0 0x1a00 0 1",
            "s:7: free_clusters: gave 0x0 0x2 0xa6 0x0 0x0 0x1a00 0x0 0x0, has to give 0x0 0x2 0xa6 0x0 0x0 0x1a00 0x0 0x1",
        ),
        ("free_clusters 1 = 0 0", "s:7: free_clusters 1: a number too many or too few"),
        (
            "clear 167 2 = 0 2 0x45a 0 0",
            "s:7: clear 167 2: gave 0x0 0x2 0x600 0x0 0x0, has to give 0x0 0x2 0x45a 0x0 0x0",
        ),
        ("clear 167 = 21", "s:7: clear 167: a number too many or too few"),
        ("fill_file 1 2 :00 = 0", "s:7: fill_file 1 2: a number too many or too few"),
        ("fill_file 1 2 0 = 0", "s:7: fill_file 1 2 0: a text is missing"),
        ("fill_zeros 1 = 0", "s:7: fill_zeros 1: a number too many or too few"),
        (
            "fill_zeros 1 0x100 = 0 1",
            "s:7: fill_zeros 1 0x100: gave 0x0 0x203a64a4776abcd2, has to give 0x0 0x1",
        ),
        (
            "record 5 6\nrewrite = 0 0x203a64a4776abcd2 5 6 0:0:0:1",
            "s:8: rewrite: gave 0x0 0x203a64a4776abcd2 0x5 0x1a00 0x0 0x0 0x0 0x1, has to give 0x0 0x203a64a4776abcd2 0x5 0x6 0x0 0x0 0x0 0x1",
        ),
        ("master 0x2000 = 0", "s:7: master 0x2000: a number too many or too few"),
        (
            "master 0x2000 0x100000000 = 0",
            "s:7: master 0x2000 0x100000000: 4294967296 has more than 32 bits",
        ),
        (
            "master 0x44b 0 = 0",
            "s:7: master 0x44b 0: gave 0x15 0x203a64a4776abcd2, has to give 0x0",
        ),
        (
            "resize_table 1 0x100 = 0 0x203a64a4776abcd2 0 1",
            "s:7: resize_table 1 0x100: gave 0x0 0x203a64a4776abcd2 0x0 0x0, has to give 0x0 0x203a64a4776abcd2 0x0 0x1",
        ),
        ("zero 1 = 0 0x203a64a4776abcd2", "s:7: zero 1: a number too many or too few"),
        (
            "small_tables 2 52 = 0 2 0",
            "s:7: small_tables 2 52: gave 0x0 0x2 0xa26a3aefe92eadd6, has to give 0x0 0x2 0x0",
        ),
        ("small_tables 2 = 9", "s:7: small_tables 2: a number too many or too few"),
        ("sheet 1 = 30 0x203a64a4776abcd2 0", "s:7: sheet 1: a number too many or too few"),
        (
            "sheet \"\" = 30 0x203a64a4776abcd2 1",
            "s:7: sheet: gave 0x1e 0x203a64a4776abcd2 0x0, has to give 0x1e 0x203a64a4776abcd2 0x1",
        ),
        ("make_record 1 2 3 = 0", "s:7: make_record 1 2 3: a number too many or too few"),
        ("make_record 1, = 0", "s:7: make_record 1,: `` is no number"),
        (
            "make_record - 0,1,2,3,4,5,6,7,8,9,10,11,12,13,14,15,16 = 0",
            "s:7: make_record - 0,1,2,3,4,5,6,7,8,9,10,11,12,13,14,15,16: a number too many",
        ),
        ("rewrite = 0 1", "s:7: rewrite: gave 0x0 0x203a64a4776abcd2, has to give 0x0 0x1"),
        ("read 2 = 0 0 0 \"\"", "s:7: read 2: gave 0x0 0x0 0x0 \"..\", has to give 0x0 0x0 0x0"),
        ("fly 1 = 0", "s:7: fly 1: `fly` is no call"),
    ] {
        assert_eq!(of(line), [told], "{line}");
    }
}

#[test]
fn a_script_that_cannot_be_read_is_told() {
    assert_eq!(
        replay("s", "size 4\npatch 3 :0000\n").unwrap_err(),
        "s:2: patch 3: bytes past the image's end"
    );
    assert_eq!(replay("s", "size 4\nfill 0 4\n").unwrap_err(), "s:2: fill 0 4: a text is missing");
    assert_eq!(replay("s", "turn 4\n").unwrap_err(), "s:1: turn 4: no such line");
    assert_eq!(replay("s", "lend 1 2\n").unwrap_err(), "s:1: lend 1 2: a number is missing");
    let seventeen = format!("record 1 2{}", " 1:2:3:4".repeat(17));
    for (line, why) in [
        ("record 1", "a number is missing"),
        ("record 1 2 3", "a team has four numbers"),
        ("record 1 2 3:4:5:6:7", "a team has four numbers"),
        (&seventeen, "a number too many"),
        ("record 1 0x100000000", "4294967296 has more than 32 bits"),
        ("record 1 2 3:4:5:0x100000000", "4294967296 has more than 32 bits"),
        ("team", "a number too many or too few"),
        ("team 1 2", "a number too many or too few"),
        ("team 0x100000000", "4294967296 has more than 32 bits"),
    ] {
        let told = format!("s:1: {line}: {why}");
        assert_eq!(replay("s", &format!("{line}\n")).unwrap_err(), told);
    }
}
