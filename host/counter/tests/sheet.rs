//! Edit sheets: run line by line, made of their text and shown as that; refused as a whole, refused in the
//! middle, cut, and gone on with.

mod support;

use counter_sys::{MOST_TABLE, MOST_WORDS, Memory, TEAMS};
use std::fs::{self, File};
use std::io::{Read, Write};
use std::os::unix::process::ExitStatusExt;
use std::path::{Path, PathBuf};
use std::process::{Child, Command, Stdio};
use std::thread;
use std::time::Duration;
use support::power::Random;
use support::shim::*;
use support::*;

// Sheets, by themselves -------------------------------------------------------------------

/// Kind, path, new offset, new size.
type Line = (u32, Vec<u8>, u32, u32);

fn line(kind: u32, path: impl AsRef<[u8]>, offset: u32, size: u32) -> Line {
    (kind, path.as_ref().to_vec(), offset, size)
}

/// Header, lines right behind it, then the paths in turn.
fn sheet_of(lines: &[Line]) -> Vec<u8> {
    let texts: Vec<u8> = lines.iter().flat_map(|line| [&line.1[..], b"\0"].concat()).collect();
    let header = [lines.len(), 16, 16 + 16 * lines.len(), texts.len()].map(|number| number as u32);
    let mut out: Vec<u8> = header.into_iter().flat_map(u32::to_be_bytes).collect();
    let mut at = 0;
    for (kind, path, offset, size) in lines {
        out.extend([*kind, at, *offset, *size].into_iter().flat_map(u32::to_be_bytes));
        at += path.len() as u32 + 1;
    }
    out.extend(texts);
    out
}

fn read_sheet(sheet: &[u8]) -> Vec<Line> {
    let word = |at: usize| get(sheet, at) as usize;
    let [count, lines, texts, length] = [word(0), word(4), word(8), word(12)];
    let texts = &sheet[texts..][..length];
    let one = |at: usize| {
        let path = texts[word(at + 4)..].split(|&b| b == 0).next().unwrap().to_vec();
        (word(at) as u32, path, word(at + 8) as u32, word(at + 12) as u32)
    };
    (0..count).map(|k| one(lines + 16 * k)).collect()
}

fn compile(temp: &Temp, text: &[u8], name: &str, rest: &[&str]) -> Run {
    let (text, out) = (temp.write("text", text), temp.at(name));
    let _ = fs::remove_file(&out);
    let mut command = program();
    command.args(["sheet", "--compile"]).args([&text, &out]).args(rest);
    command.output().unwrap().into()
}

fn compiled(temp: &Temp, text: &str) -> PathBuf {
    let run = compile(temp, text.as_bytes(), "day.sheet", &[]);
    assert_eq!(run.status, 0, "{}", run.err);
    temp.at("day.sheet")
}

fn show(sheet: &Path, rest: &[&str]) -> Run {
    program().args(["sheet", "--show"]).arg(sheet).args(rest).output().unwrap().into()
}

/// The arguments of a run, behind the image.
fn args_of<'a>(sheet: &'a Path, rest: &[&'a str]) -> Vec<&'a str> {
    [&[sheet.to_str().unwrap()], rest].concat()
}

// The text --------------------------------------------------------------------------------

#[test]
fn a_sheet_is_made_of_its_text_and_shown_as_it() {
    let temp = Temp::new();
    let text = "# a day's edits\r\n\n  mkdir /text/de\nadd\t/text/de/表 1.bin \nmove text/en/msg.bin 0x1A0000\n\
                \t# more\nresize /text/en/msg.bin 8K\nadd \"/ends with \\\"\\\\\\x81 \"\nmkdir #x\n\
                resize a 5 4294967295\nmove /a\\x95\\x5cb 0";
    let run = compile(&temp, text.as_bytes(), "day.sheet", &[]);
    assert_eq!((run.status, run.err.as_str()), (0, ""));
    let lines = [
        line(1, "/text/de", 0, 0),
        line(2, b"/text/de/\x95\x5c 1.bin", 0, 0),
        line(3, "text/en/msg.bin", 0x1A_0000, 0),
        line(4, "/text/en/msg.bin", 0, 8192),
        line(2, b"/ends with \"\\\x81 ", 0, 0),
        line(1, "#x", 0, 0),
        line(4, "a 5", 0, u32::MAX),
        line(3, b"/a\x95\x5cb", 0, 0),
    ];
    let bytes = fs::read(temp.at("day.sheet")).unwrap();
    assert!(bytes == sheet_of(&lines));
    assert_eq!(
        run.out,
        format!("made {}: 8 lines, {} bytes\n", temp.at("day.sheet").display(), bytes.len())
    );
    let shown = show(&temp.at("day.sheet"), &[]);
    let wanted = "mkdir /text/de\nadd /text/de/表 1.bin\nmove text/en/msg.bin 0x1a0000\n\
                  resize /text/en/msg.bin 8192\nadd \"/ends with \\\"\\\\\\x81 \"\nmkdir #x\n\
                  resize a 5 4294967295\nmove /a表b 0x0\n";
    assert_eq!((shown.status, shown.out.as_str(), shown.err.as_str()), (0, wanted, ""));
    // The bytes of docs/FORMAT.md, whose first text is no line's.
    let format =
        b"\0\0\0\x01\0\0\0\x10\0\0\0\x20\0\0\0\x04\0\0\0\x04\0\0\0\x02\0\0\0\0\0\0\0\x04x\0b\0";
    assert_eq!(show(&temp.write("format.sheet", format), &[]).out, "resize b 4\n");
    // Without lines.
    assert_eq!(show(&compiled(&temp, "# nothing\n"), &[]).out, "");
}

/// Any bytes but zero, pairs and what looks like escapes among them.
fn any_path(random: &mut Random) -> Vec<u8> {
    const SOME: &[u8] =
        b"\x81\x95\xe0\xed\xfc\x5c\x40\x7e\xad\xb1\xdf\x80\xa0\xfdAx815c/.: \"'#\t\n\r\x01\x7f";
    let len = [0, 1, 3, 8, 40][random.below(5)];
    let any = random.below(3) == 0;
    let mut byte = || match any {
        true => 1 + random.below(255) as u8,
        false => SOME[random.below(SOME.len())],
    };
    (0..len).map(|_| byte()).collect()
}

fn any_lines(random: &mut Random) -> Vec<Line> {
    (0..1024)
        .map(|_| {
            let (path, number) = (any_path(random), (random.0 >> 7) as u32);
            match random.below(4) {
                0 => line(1, path, 0, 0),
                1 => line(2, path, 0, 0),
                2 => line(3, path, number >> random.below(32), 0),
                _ => line(4, path, 0, number >> random.below(32)),
            }
        })
        .collect()
}

#[test]
fn any_sheet_is_shown_as_a_text_that_compiles_to_the_same_lines() {
    let temp = Temp::new();
    let mut random = Random(0x1F2E_3D4C_5B6A_7988);
    for (turn, locale) in
        ["C.UTF-8", "ja_JP.SJIS", "C.ISO-8859-1"].into_iter().cycle().take(9).enumerate()
    {
        let lines = any_lines(&mut random);
        let sheet = temp.write("day.sheet", &sheet_of(&lines));
        let rest: &[&str] = if turn % 2 == 0 { &[] } else { &["--bytes"] };
        let shown: Run = program()
            .env("LC_ALL", locale)
            .args(["sheet", "--show"])
            .arg(&sheet)
            .args(rest)
            .output()
            .unwrap()
            .into();
        assert_eq!((shown.status, shown.err.as_str()), (0, ""), "{locale} {rest:?}");
        assert_eq!(shown.bytes.iter().filter(|&&b| b == b'\n').count(), 1024);
        let run = compile(&temp, &shown.bytes, "again.sheet", rest);
        assert_eq!((run.status, run.err.as_str()), (0, ""), "{locale} {rest:?}");
        let again = read_sheet(&fs::read(temp.at("again.sheet")).unwrap());
        for (n, (a, b)) in lines.iter().zip(&again).enumerate() {
            assert_eq!(a, b, "line {}", n + 1);
        }
        assert!(fs::read(temp.at("again.sheet")).unwrap() == sheet_of(&lines));
        // As JSON the paths stand in bytes.
        let told = Json::read(&show(&sheet, &["--json"]).out);
        assert_eq!(told.at("lines").number(), 1024);
        for (told, (kind, path, offset, size)) in told.at("edits").list().iter().zip(&lines) {
            let hex: String = path.iter().map(|byte| format!("{byte:02x}")).collect();
            assert_eq!(told.at("path_bytes").text(), hex);
            let name = ["mkdir", "add", "move", "resize"][*kind as usize - 1];
            assert_eq!(told.at("edit").text(), name);
            let number =
                |of: u32, n: u32| if *kind == of { Json::Number(n.into()) } else { Json::Null };
            assert_eq!(told.at("offset"), &number(3, *offset));
            assert_eq!(told.at("size"), &number(4, *size));
        }
    }
}

/// A text with the third line wrong: from which column on, and why.
#[test]
fn what_is_wrong_with_a_text_is_told_with_line_and_column() {
    let temp = Temp::new();
    let cases: [(&[u8], usize, &str); 40] = [
        (
            b"mdkir /a",
            1,
            "a line begins with mkdir, add, move or resize, and not with mdkir; is mkdir meant?",
        ),
        (b"  rm /a", 3, "and not with rm"),
        (b"counter mkdir /a", 1, "and not with counter"),
        (b"MKDIR /a", 1, "is mkdir meant?"),
        (b"mkdir", 6, "mkdir wants a path"),
        (b"  add  ", 6, "add wants a path"),
        (b"move", 5, "move wants a path"),
        (b"move /a", 8, "the new offset is wanted behind the path"),
        (b"resize /a ", 10, "the new size is wanted behind the path"),
        (b"resize \"/a b\"", 14, "the new size is wanted behind the path"),
        (b"move /a b", 9, "b: a number is wanted, in base ten or with 0x, with K, M or G"),
        (
            b"move /a auto",
            9,
            "a sheet knows no `auto`: the new offset is wanted, as `counter place` tells one",
        ),
        (b"resize /a 4G", 11, "4G: above 2^32 - 1 (4,294,967,295), the largest offset and size"),
        (b"move /a 0x100000000", 9, "0x100000000: above 2^32 - 1"),
        (b"resize /a 99999999999999999999", 11, "above 2^32 - 1"),
        (b"resize /a -1", 11, "-1: a number is wanted"),
        (b"add /a\0b", 7, "a zero byte, which no path has"),
        (b"move /a\0b 5", 8, "a zero byte, which no path has"),
        (b"add \"a\0b\"", 7, "a zero byte, which no path has"),
        (b"add \"a\\x00b\"", 7, "a zero byte, which no path has"),
        (b"add \"/a", 5, "the quote is not ended"),
        (b"add \"/a\\\"", 5, "the quote is not ended"),
        (b"add \"/a\\n\"", 8, "in quotes a \\ is one of \\\\, \\\" and \\xHH"),
        (b"add \"/a\\x8\"", 8, "in quotes a \\ is one of"),
        (b"add \"/a\" b", 10, "nothing stands behind the path here"),
        (b"move \"/a\"5", 10, "a space is wanted behind the quote"),
        ("add /表/ü.bin".as_bytes(), 8, "ü (U+00FC) has no bytes in Shift-JIS"),
        ("resize \"/表 ü\" 7".as_bytes(), 12, "ü (U+00FC) has no bytes in Shift-JIS"),
        (b"add /a\xFFb", 7, "is no UTF-8"),
        ("add /\\x95表".as_bytes(), 10, "\\x95 is a lead byte"),
        (b"mkdir /text/", 7, "a line names a folder without a / at its end"),
        (b"add text/", 5, "a line names a file without a / at its end"),
        (b"mkdir /", 7, "a line names a folder without a / at its end"),
        (b" mkdir /a/..", 8, "no folder is called .."),
        (b"add /a\rb", 5, "no file is called a\\x0db: the byte 0x0d"),
        (b"add /a\x1fb", 5, "no file is called a\\x1fb: the byte 0x1f"),
        (b"add /a\\b", 5, "no file is called a\\b: it holds \\"),
        (&[b"resize /", &[b'x'; 1024][..], b" 5"].concat(), 8, "a path has at most 1,024 bytes"),
        (&[b'x'; 300], 1, "and not with xxxxxxxxxxxxxxxxxxxxxxxxxxxxxxxxxxxxxxxx...\n"),
        (&[&b"move /a "[..], &[b'5'; 300]].concat(), 9, "5555555555...: above 2^32 - 1"),
    ];
    for (wrong, column, why) in cases {
        let text = [b"mkdir /text\n\n", wrong, b"\nadd /b\n"].concat();
        let run = compile(&temp, &text, "day.sheet", &[]);
        let wanted = format!("counter: {}, line 3, column {column}: ", temp.at("text").display());
        let shown = String::from_utf8_lossy(wrong);
        assert_eq!((run.status, run.out.as_str()), (65, ""), "{shown}: {}", run.err);
        assert!(run.err.starts_with(&wanted) && run.err.contains(why), "{shown}: {}", run.err);
        assert!(!temp.at("day.sheet").exists(), "{shown}");
    }
    // In quotes a path is taken as it is.
    let text = b"mkdir \"/text/\"\nadd \"\"\nadd \"/a\\x0d\"\n";
    assert_eq!(compile(&temp, text, "day.sheet", &[]).status, 0);
    assert_eq!(show(&temp.at("day.sheet"), &[]).bytes, text);
    // A sheet is no text, nor is what no program knows.
    let sheet = fs::read(temp.at("day.sheet")).unwrap();
    let run = compile(&temp, &sheet, "other.sheet", &[]);
    assert_eq!(run.status, 65);
    assert!(
        run.err.contains("this is a sheet already; `counter sheet --show FILE` shows it as text"),
        "{}",
        run.err
    );
    let run = compile(&temp, &[0xFE; 5000], "other.sheet", &[]);
    assert!(run.status == 65 && run.err.len() < 400, "{}", run.err);
    let long = temp.at("long");
    File::create(&long).unwrap().set_len((16 << 20) + 1).unwrap();
    let run = support::run(&["sheet", "--compile", long.to_str().unwrap(), "x"]);
    assert!(run.err.contains("no text of a sheet has more than 16 MiB"), "{}", run.err);
    // With --bytes a column is a byte.
    let run = compile(&temp, b"add \"\x95\x5c\x95\x5c\\y\"", "day.sheet", &["--bytes"]);
    assert!(run.err.contains("line 1, column 10: in quotes"), "{}", run.err);
    // As many lines as there may be, and one more.
    let text: Vec<u8> = (0..1024).flat_map(|n| format!("# {n}\nadd /{n}\n").into_bytes()).collect();
    assert_eq!(compile(&temp, &text, "day.sheet", &[]).status, 0);
    let run = compile(&temp, &[&text[..], b"\n\n add /x"].concat(), "day.sheet", &[]);
    assert_eq!(run.status, 65);
    assert!(
        run.err.contains("line 2051, column 2: a sheet has at most 1,024 lines"),
        "{}",
        run.err
    );
    let run = Json::read(&compile(&temp, b"add", "day.sheet", &["--json"]).out);
    assert!(run.at("error").text().ends_with("line 1, column 4: add wants a path"), "{run:?}");
}

#[test]
fn nothing_is_overwritten_by_a_sheet() {
    let temp = Temp::new();
    let (text, old) = (temp.write("day.txt", b"add /x\n"), temp.write("old", b"mine"));
    let made = |out: &Path, rest: &[&str]| -> Run {
        let mut command = program();
        command.args(["sheet", "--compile"]).args([&text, out]).args(rest).output().unwrap().into()
    };
    let run = made(&old, &[]);
    assert_eq!((run.status, run.out.as_str()), (73, ""), "{}", run.err);
    assert!(run.err.contains("is there already, and nothing is overwritten"), "{}", run.err);
    assert_eq!(made(&old, &["--dry-run"]).status, 73);
    assert_eq!(fs::read(&old).unwrap(), b"mine");
    // Whatever has a journal's name would be taken for one.
    assert_eq!(made(&temp.at("disc.iso.counter-journal"), &[]).status, 64);
    assert_eq!(made(&temp.at("nothing/day.sheet"), &[]).status, 73);
    let out = temp.at("day.sheet");
    let run = made(&out, &["--dry-run"]);
    assert_eq!(run.status, 0, "{}", run.err);
    assert!(
        run.out.ends_with("dry run: all this would be done; nothing was written\n"),
        "{}",
        run.out
    );
    assert!(run.out.starts_with(&format!("dry run: made {}: 1 line, 35 bytes\n", out.display())));
    assert!(!out.exists());
    let told = Json::read(&made(&out, &["--json"]).out);
    assert_eq!(told.at("lines").number(), 1);
    assert_eq!(told.at("bytes").number(), 35);
    assert_eq!(told.at("out").text(), out.to_str().unwrap());
    assert!(told.at("written").flag() && !told.at("dry_run").flag());
    assert!(fs::read(&out).unwrap() == sheet_of(&[line(2, "/x", 0, 0)]));
}

#[test]
fn options_that_do_not_go_together_are_told() {
    let temp = Temp::new();
    let (text, sheet) = (temp.write("text", b""), temp.write("sheet", &sheet_of(&[])));
    let image = temp.write("disc.iso", &small_master());
    let [text, sheet, image] = [&text, &sheet, &image].map(|path| path.to_str().unwrap());
    for (args, why) in [
        (&["--compile", text, "x", "--show"][..], "--compile does not go with --show"),
        (&["--compile", text, "x", "--from", "1"], "--compile does not go with --from"),
        (&["--compile", text, "x", "--record", "r"], "--compile does not go with --record"),
        (&["--compile", text, "x", "--wait"], "--compile does not go with --wait"),
        (&["--show", sheet, "--dry-run"], "--show does not go with --dry-run"),
        (&["--show", sheet, "--from", "1"], "--show does not go with --from"),
        (&["--show", sheet, "--record", "r"], "--show does not go with --record"),
        (&["--show"], "usage: counter sheet IMAGE FILE [--from LINE]"),
        (&["--show"], ", or counter sheet --show FILE [--bytes] [--json]\n"),
        (&["--show", sheet, sheet], "usage: counter sheet "),
        (&["--compile", text], "usage: counter sheet "),
        (&["--compile"], "--compile wants the name of a file"),
        (&[image], "usage: counter sheet "),
        (&[image, sheet, "x"], "usage: counter sheet "),
        (&[image, sheet, "--from"], "--from wants the number of a line"),
        (&[image, sheet, "--from", "x"], "x: a number is wanted"),
        (&[image, sheet, "--from", "1", "--from", "1"], "--from is given twice"),
        (&[image, sheet, "--from", "2"], "has 0 lines"),
        (&[image, sheet, "--team", "1"], "--team is for --record FILE"),
        (&[image, sheet, "--as-is"], "sheet has no option --as-is"),
    ] {
        let run = run(&[&["sheet"], args].concat());
        assert_eq!((run.status, run.out.as_str()), (64, ""), "{args:?}: {}", run.err);
        assert!(run.err.contains(why), "{args:?}: {}", run.err);
    }
    // What is not there, or no file.
    let folder = temp.at("");
    let folder = folder.to_str().unwrap();
    for (args, status, why) in [
        (&["--show", "nothing"][..], 66, "no such file"),
        (&["--show", folder], 66, "a folder, not a sheet"),
        (&["--compile", "nothing", "x"], 66, "no such file"),
        (&["--compile", folder, "x"], 66, "a folder, not the text of a sheet"),
        (&[image, "nothing"], 66, "no such file"),
        (&[image, folder], 66, "a folder, not a sheet"),
    ] {
        let run = run(&[&["sheet"], args].concat());
        assert_eq!(run.status, status, "{args:?}: {}", run.err);
        assert!(run.err.contains(why), "{args:?}: {}", run.err);
    }
}

// 30 --------------------------------------------------------------------------------------

#[test]
fn what_is_no_sheet_is_told_in_words_before_anything_else() {
    let temp = Temp::new();
    let image = temp.write("disc.iso", &small_master());
    let before = State::of(&image);
    let lines =
        [line(1, "/d", 0, 0), line(3, "/a", 0x600, 0), line(4, "/a", 0, 5), line(2, "/x", 0, 0)];
    let good = sheet_of(&lines);
    let len = good.len() as u32;
    // Words of the good one with others in their place.
    let with = |words: &[(usize, u32)]| {
        let mut bytes = good.clone();
        words.iter().for_each(|(at, word)| put(&mut bytes, *at, *word));
        bytes
    };
    let cases: [(Vec<u8>, &str); 20] = [
        (vec![], "it has 0 bytes, and a sheet's header alone has 16"),
        (good[..15].to_vec(), "it has 15 bytes, and a sheet's header alone has 16"),
        (with(&[(0, 1025)]), "its header states 1,025 lines, and 1,024 are the most"),
        (with(&[(0, u32::MAX)]), "its header states 4,294,967,295 lines"),
        (with(&[(0, 5), (4, 32)]), "its lines would end at 0x70, and it ends at 0x5c"),
        (with(&[(4, u32::MAX)]), "its lines would end at 0x10000003f, and it ends at 0x5c"),
        (with(&[(0, 0), (4, len + 1)]), "its lines would end at 0x5d, and it ends at 0x5c"),
        (with(&[(12, 13)]), "its texts would end at 0x5d, and it ends at 0x5c"),
        (with(&[(8, u32::MAX), (12, u32::MAX)]), "its texts would end at 0x1fffffffe"),
        (with(&[(8, len + 1), (12, 0)]), "its texts would end at 0x5d"),
        (with(&[(16, 0)]), "line 1: its kind is 0, and they go from 1 to 4"),
        (with(&[(64, 5)]), "line 4: its kind is 5, and they go from 1 to 4"),
        (
            with(&[(24, 1)]),
            "line 1: its kind is 1 (mkdir), and its new offset is 0x1, where 0 is wanted",
        ),
        (
            with(&[(28, 1)]),
            "line 1: its kind is 1 (mkdir), and its new size is 1, where 0 is wanted",
        ),
        (
            with(&[(72, 0x600)]),
            "line 4: its kind is 2 (add), and its new offset is 0x600, where 0 is wanted",
        ),
        (
            with(&[(44, 5000)]),
            "line 2: its kind is 3 (move), and its new size is 5,000, where 0 is wanted",
        ),
        (
            with(&[(56, 7)]),
            "line 3: its kind is 4 (resize), and its new offset is 0x7, where 0 is wanted",
        ),
        (
            with(&[(52, 12)]),
            "line 3: its path begins at 0xc of the texts, which have 12 bytes, and no zero byte there ends it",
        ),
        (
            with(&[(12, 11)]),
            "line 4: its path begins at 0x9 of the texts, which have 11 bytes, and no zero byte there ends it",
        ),
        (with(&[(20, u32::MAX)]), "line 1: its path begins at 0xffffffff of the texts"),
    ];
    for (bytes, why) in cases {
        let sheet = temp.write("bad.sheet", &bytes);
        let wanted = format!(
            "counter: {}: refused 30: no edit sheet: its count, bounds, or a line's kind, fields or path ({why}",
            sheet.display()
        );
        let image = image.to_str().unwrap();
        // An image that is none, or not there, plays no part.
        for run in [
            show(&sheet, &[]),
            on("sheet", Path::new(image), &args_of(&sheet, &[])),
            on("sheet", Path::new(image), &args_of(&sheet, &["--dry-run", "--from", "9"])),
            on("sheet", &sheet, &args_of(&sheet, &[])),
            on("sheet", Path::new("nothing"), &args_of(&sheet, &["--record", "r"])),
        ] {
            assert_eq!((run.status, run.out.as_str()), (30, ""), "{why}: {}", run.err);
            assert!(run.err.starts_with(&wanted), "{}", run.err);
        }
        let told = Json::read(&on("sheet", Path::new(image), &args_of(&sheet, &["--json"])).out);
        assert_eq!(told.at("refused").number(), 30);
        assert!(told.at("detail").text().starts_with(why), "{told:?}");
    }
    // A text in the place of the sheet.
    for text in ["mkdir /a\n", "# a day\n", "\u{feff}\n resize /a 5", "\tdelete /表\r\n"] {
        let run = show(&temp.write("day.txt", text.as_bytes()), &[]);
        assert_eq!(run.status, 30);
        let hint = "; it looks like the text of one, of which `counter sheet --compile TEXT FILE` makes a sheet)";
        assert!(run.err.contains(hint), "{}", run.err);
    }
    assert_eq!(State::of(&image), before);
    // Longer than any that is wanted.
    let sheet = temp.at("long.sheet");
    File::create(&sheet).unwrap().set_len((16 << 20) + 1).unwrap();
    let run = on("sheet", &image, &args_of(&sheet, &[]));
    assert_eq!(run.status, 65, "{}", run.err);
    assert!(run.err.contains("no sheet has more than 16 MiB"), "{}", run.err);
    // Lines that share one long path.
    let path = [vec![b'x'; 20_000], vec![0]].concat();
    let mut shared = sheet_of(&vec![line(1, "", 0, 0); 1024]);
    shared.truncate(16 + 16 * 1024);
    put(&mut shared, 12, path.len() as u32);
    (0..1024).for_each(|k| put(&mut shared, 16 + 16 * k + 4, 0));
    shared.extend(path);
    let run = show(&temp.write("shared.sheet", &shared), &[]);
    assert_eq!(run.status, 65, "{}", run.err);
    assert!(run.err.contains("its text has more than 16 MiB"), "{}", run.err);
}

/// Lines, texts and header may overlap, and lie where they like.
#[test]
fn a_sheet_may_be_laid_out_otherwise() {
    let temp = Temp::new();
    // The lines begin at 12: the header's last number is the line's kind, and the texts' length.
    let mut bytes = vec![0; 28];
    for (i, word) in [1, 12, 24, 2, 1, 0, 0].into_iter().enumerate() {
        put(&mut bytes, 4 * i, word);
    }
    // Kind 2, its path at 1 of the texts, which are the line's last number.
    let sheet = temp.write("overlap.sheet", &bytes);
    assert_eq!(show(&sheet, &[]).out, "add \"\"\n");
    // The texts before the lines, and one path for two of them.
    let mut bytes = vec![0; 56];
    let words = [2, 24, 16, 8, 0x2F61_0000, 0x7800_0000, 4, 0, 0, 0x200, 3, 0, 0x800, 0];
    for (i, word) in words.into_iter().enumerate() {
        put(&mut bytes, 4 * i, word);
    }
    let sheet = temp.write("before.sheet", &bytes);
    assert_eq!(show(&sheet, &[]).out, "resize /a 512\nmove /a 0x800\n");
    let image = temp.write("disc.iso", &filled_master());
    let out = done("sheet", &image, &args_of(&sheet, &[]));
    assert!(out.ends_with("done: 2 lines, written and synced\n"), "{out}");
    let entry = Table::of(&image).entry("/a").clone();
    assert_eq!((entry.offset, entry.size), (0x800, 0x200));
}

// Runs ------------------------------------------------------------------------------------

/// A day's edits on the usual master.
const DAY: &str = "mkdir /text/de
add text/de/msg.bin
move /text/de/msg.bin 0x190000
resize /text/de/msg.bin 0x1234
resize /audio/theme.adp 0x9000
resize /movie/intro.thp 0x45678
mkdir /text/de/old
move /opening.bnr 0x1A0002
resize /text/en/msg.bin 0x34
";

/// The lines of a text are commands.
fn commands(text: &str) -> Vec<Vec<&str>> {
    text.lines().map(|line| line.split(' ').collect()).collect()
}

/// An image, and what it is after each line.
struct Stage {
    temp: Temp,
    image: PathBuf,
    sheet: PathBuf,
    /// From before the first line on.
    images: Vec<Vec<u8>>,
    /// The record's text, and what is said of each line.
    records: Vec<String>,
    lines: Vec<String>,
}

impl Stage {
    /// Each line by the command of its name.
    fn new(temp: Temp, master: &[u8], text: &str) -> Stage {
        let sheet = compiled(&temp, text);
        let (image, single) = (temp.write("disc.iso", master), temp.write("single.iso", master));
        let record = temp.at("single.totals");
        let mut stage = Stage {
            temp,
            image,
            sheet,
            images: Vec::new(),
            records: Vec::new(),
            lines: Vec::new(),
        };
        done("record", &single, &["--record", record.to_str().unwrap()]);
        stage.note(&single, &record, String::new());
        for command in commands(text) {
            let rest = [&command[1..], &["--record", record.to_str().unwrap()]].concat();
            let said = done(command[0], &single, &rest);
            stage.note(&single, &record, said);
        }
        stage
    }

    fn usual() -> Stage {
        let temp = Temp::new();
        let master = fs::read(usual_master(&temp)).unwrap();
        Stage::new(temp, &master, DAY)
    }

    fn note(&mut self, image: &Path, record: &Path, said: String) {
        self.images.push(fs::read(image).unwrap());
        self.records.push(fs::read_to_string(record).unwrap());
        self.lines.push(said);
    }

    fn count(&self) -> usize {
        self.images.len() - 1
    }

    fn run(&self, rest: &[&str]) -> Run {
        on("sheet", &self.image, &args_of(&self.sheet, rest))
    }

    /// What lines `first` to `last` say, without what they leave.
    fn said(&self, first: usize, last: usize) -> String {
        let is_left = |line: &&str| {
            ["table: ", "used ", "team ", "done: "].iter().any(|start| line.starts_with(start))
        };
        let of = |n: usize| self.lines[n].lines().filter(move |line| !is_left(line));
        let lines =
            (first..=last).flat_map(|n| of(n).map(move |line| format!("line {n}: {line}\n")));
        lines.collect()
    }

    /// What a dry run says of them: behind each the record as it leaves it.
    fn tried(&self, first: usize, last: usize) -> String {
        let of = |n: usize| {
            let after = self.temp.write("after.iso", &self.images[n]);
            let record = Table::of(&after).record_line((n + 1 - first) as u64);
            self.said(n, n) + &format!("line {n}: {record}")
        };
        (first..=last).map(of).collect()
    }

    /// What is said of table and record after line `last`, if line `first` was the first.
    fn left(&self, first: usize, last: usize) -> String {
        let size = |n: usize| u64::from(get(&self.images[n], 0x428));
        let (old, new) = (size(first - 1), size(last));
        let table = match old == new {
            true => String::new(),
            false => format!("table: {} -> {} bytes\n", grouped(old), grouped(new)),
        };
        let after = self.temp.write("after.iso", &self.images[last]);
        table + &Table::of(&after).record_line((last + 1 - first) as u64)
    }

    fn is_at(&self, n: usize) {
        assert!(fs::read(&self.image).unwrap() == self.images[n], "after line {n}");
        assert!(!journal_of(&self.image).exists());
    }

    fn reset(&self, n: usize) {
        fs::write(&self.image, &self.images[n]).unwrap();
    }
}

fn dry(text: &str) -> String {
    text.lines().map(|line| format!("dry run: {line}\n")).collect()
}

#[test]
fn a_run_is_its_lines_one_after_another() {
    let stage = Stage::usual();
    let count = stage.count();
    assert_eq!(count, 9);
    let before = State::of(&stage.image);
    let run = stage.run(&["--dry-run"]);
    assert_eq!((run.status, run.err.as_str()), (0, ""));
    assert_eq!(State::of(&stage.image), before);
    let tried = stage.tried(1, count) + &stage.left(1, count);
    assert_eq!(run.out, dry(&tried) + "dry run: all this would be done; nothing was written\n");
    let said = stage.said(1, count) + &stage.left(1, count);
    let run = stage.run(&[]);
    assert_eq!((run.status, run.err.as_str()), (0, ""));
    assert_eq!(run.out, said + "done: 9 lines, written and synced\n");
    stage.is_at(count);
    // With a record that it makes, that is there, and that is handed on from one run to the next.
    let record = stage.temp.at("totals");
    let name = record.to_str().unwrap();
    stage.reset(0);
    assert_eq!(stage.run(&["--record", name]).status, 0);
    stage.is_at(count);
    assert_eq!(fs::read_to_string(&record).unwrap(), stage.records[count]);
    fs::write(&record, &stage.records[0]).unwrap();
    stage.reset(0);
    assert_eq!(stage.run(&["--record", name, "--dry-run"]).status, 0);
    assert_eq!(fs::read_to_string(&record).unwrap(), stage.records[0]);
    assert_eq!(stage.run(&["--record", name, "--json"]).status, 0);
    stage.is_at(count);
    assert_eq!(fs::read_to_string(&record).unwrap(), stage.records[count]);
    // From a line on.
    for first in 1..=count {
        stage.reset(first - 1);
        fs::write(&record, &stage.records[first - 1]).unwrap();
        let run = stage.run(&["--from", &first.to_string(), "--record", name]);
        assert_eq!((run.status, run.err.as_str()), (0, ""));
        assert!(run.out.starts_with(&stage.said(first, count)), "{}", run.out);
        stage.is_at(count);
        assert_eq!(fs::read_to_string(&record).unwrap(), stage.records[count]);
    }
    // Another program holds the record.
    stage.reset(0);
    fs::write(&record, &stage.records[0]).unwrap();
    let held = File::open(&record).unwrap();
    held.lock().unwrap();
    assert_eq!(stage.run(&["--record", name]).status, 75);
    stage.is_at(0);
    for from in ["0", "10", "4294967295"] {
        let run = stage.run(&["--from", from]);
        assert_eq!(run.status, 64, "{}", run.err);
        assert!(run.err.contains("has 9 lines, numbered from 1 on"), "{}", run.err);
    }
}

/// The sheet may come through a pipe, and standard output may be gone: the lines are run all the same.
#[test]
fn a_sheet_comes_through_a_pipe_and_runs_without_a_listener() {
    let stage = Stage::usual();
    let mut child = program()
        .arg("sheet")
        .arg(&stage.image)
        .arg("/dev/stdin")
        .stdin(Stdio::piped())
        .stdout(Stdio::piped())
        .stderr(Stdio::piped())
        .spawn()
        .unwrap();
    drop(child.stdout.take());
    child.stdin.take().unwrap().write_all(&fs::read(&stage.sheet).unwrap()).unwrap();
    let run: Run = child.wait_with_output().unwrap().into();
    assert_eq!(run.status, 76, "{}", run.err);
    let why = "the sheet is done and synced, but its answer could not be printed";
    assert!(run.err.contains(why), "{}", run.err);
    stage.is_at(stage.count());
}

#[test]
fn a_sheet_without_lines_opens_the_image_all_the_same() {
    let temp = Temp::new();
    let image = temp.write("disc.iso", &small_master());
    let sheet = temp.write("empty.sheet", &sheet_of(&[]));
    let before = State::of(&image);
    let out = done("sheet", &image, &args_of(&sheet, &[]));
    let record = Table::of(&image).record_line(0);
    assert_eq!(out, format!("{record}done: 0 lines, there was nothing to write\n"));
    assert_eq!(State::of(&image), before);
    let none = temp.write("none.iso", &[0; 0x440]);
    let run = on("sheet", &none, &args_of(&sheet, &[]));
    assert_eq!((run.status, run.out.as_str()), (3, ""));
    let why = "none.iso: refused 3: not GameCube magic (this is no GameCube disc image)\n";
    assert!(run.err.ends_with(why), "{}", run.err);
}

#[test]
fn lines_that_write_nothing_count() {
    let temp = Temp::new();
    let image = temp.write("disc.iso", &filled_master());
    let sheet = compiled(&temp, "resize /a 256\nresize a 0x100\n");
    let before = State::of(&image);
    let record = temp.at("totals");
    let out = done("sheet", &image, &args_of(&sheet, &["--record", record.to_str().unwrap()]));
    let left = Table::of(&image).record_line(2);
    let said = "line 1: /a has 256 bytes already\nline 2: /a has 256 bytes already\n";
    assert_eq!(out, format!("{said}{left}done: 2 lines, there was nothing to write\n"));
    assert_eq!(State::of(&image), before);
    assert_eq!(fs::read_to_string(&record).unwrap(), Table::of(&image).record_file(2));
    assert!(!journal_of(&image).exists());
}

/// As many lines as there may be, in a table that grows with each.
#[test]
fn a_sheet_of_1024_lines_is_run() {
    let temp = Temp::in_memory();
    let image = temp.at("large.iso");
    sparse(&image, &usual(0x10_0000, 0x4_5678), 0x20_0000);
    put_word(&image, 0x42C, 0);
    let text: String = (0..1024).map(|n| format!("add /text/new{n:04}.bin\n")).collect();
    let sheet = compiled(&temp, &text);
    let dry = done("sheet", &image, &args_of(&sheet, &["--dry-run"]));
    let out = done("sheet", &image, &args_of(&sheet, &[]));
    let last = |text: &str| text.lines().rev().nth(1).unwrap().to_string();
    assert_eq!(last(&dry), format!("dry run: {}", last(&out)));
    assert!(out.ends_with("done: 1,024 lines, written and synced\n"), "{out}");
    let table = Table::of(&image);
    assert!(out.contains(&table.record_line(1024)));
    assert_eq!(
        table.entries.iter().filter(|entry| entry.path.starts_with("/text/new")).count(),
        1024
    );
}

fn put_word(image: &Path, at: usize, word: u32) {
    let mut bytes = fs::read(image).unwrap();
    put(&mut bytes, at, word);
    fs::write(image, bytes).unwrap();
}

/// Lines at random, most of which pass, in a folder, a file or a new entry that there may be.
fn any_day(random: &mut Random) -> Vec<Line> {
    const PLACES: [&str; 7] = ["", "/", "d/", "/d/n0/", "/d/n1/", "/d/x/", "/film/"];
    let mut lines = Vec::new();
    for n in 0..40 {
        let file = ["film", "/next", "d/song", "/far", "/d/../film", "/d/n2", "nothing", "d"];
        let file = file[random.below(if n < 20 { 5 } else { 8 })];
        let new = format!("{}n{}", PLACES[random.below(PLACES.len())], random.below(9));
        let number = (random.below(0x40) * 0x1000 + random.below(3) * 0x7FF) as u32;
        lines.push(match random.below(5) {
            0 if n < 10 => line(1, format!("/d/n{n}"), 0, 0),
            0 => line(1, new, 0, 0),
            1 => line(2, new, 0, 0),
            2 | 3 => line(3, file, number, 0),
            _ => line(4, file, 0, number / 8),
        });
    }
    lines
}

/// The whole sheet as one call of the library, against the program, which runs it line by line: the same image, the
/// same record, the same line and number. And a dry run, which says beforehand what the run says.
#[test]
fn any_sheet_does_what_the_library_makes_of_it_at_once() {
    let temp = Temp::in_memory();
    let mut random = Random(0x0DDB_1A5E_5BAD_5EED);
    let (mut words, mut bytes) = (vec![0; MOST_WORDS], vec![0; MOST_TABLE]);
    let (image, record) = (temp.at("disc.iso"), temp.at("totals"));
    let (mut whole_days, mut ran) = (0, 0);
    for _ in 0..60 {
        // What is refused is left out, down to so many lines, so that more of them run.
        let mut lines = any_day(&mut random);
        let least = random.below(40);
        let (whole, kept, stopped) = loop {
            let mut memory = Memory { words: &mut words, bytes: &mut bytes };
            let mut whole = master();
            let limits = [u32::MAX; TEAMS];
            let kept = counter_sys::make_record(&whole, &mut memory, &limits, &[0; TEAMS]);
            let mut kept = kept.unwrap();
            let sheet = sheet_of(&lines);
            let run = counter_sys::sheet(&mut whole, &mut memory, &mut kept, 0, &sheet);
            match run {
                Err(stopped) if lines.len() > least => {
                    lines.remove(stopped.line as usize - 1);
                }
                run => break (whole, kept, run.err()),
            }
        };
        fs::write(&image, master()).unwrap();
        let _ = fs::remove_file(&record);
        let sheet = temp.write("day.sheet", &sheet_of(&lines));
        let rest = ["--record", record.to_str().unwrap()];
        let dry = on("sheet", &image, &args_of(&sheet, &["--dry-run"]));
        let run = on("sheet", &image, &args_of(&sheet, &rest));
        let status = stopped.map_or(0, |stopped| stopped.number as i32);
        assert_eq!((run.status, dry.status), (status, status), "{}", run.err);
        let last = stopped.map_or(lines.len() as u32 + 1, |stopped| stopped.line);
        if status != 0 {
            let place = format!("line {last} of {}: ", lines.len());
            assert!(run.err.contains(&place) && dry.err.contains(&place), "{place}: {}", run.err);
            let why = |err: &str| err.split("; ").next().unwrap().to_string();
            assert_eq!(why(&run.err), why(&dry.err));
        }
        let said = run.out.lines().filter(|line| !line.starts_with("done: "));
        let is_record =
            |line: &&str| line.starts_with("dry run: line ") && line.contains(": used ");
        assert_eq!(dry.out.lines().filter(is_record).count() as u32, last - 1);
        let told = dry.out.lines().filter(|line| !is_record(line));
        let told = told.filter(|line| !line.starts_with("dry run: all this"));
        assert!(said.map(|line| format!("dry run: {line}")).eq(told), "{}{}", run.out, dry.out);
        assert!(fs::read(&image).unwrap() == whole, "{last} {}", run.err);
        let edits = kept.teams[0].edits;
        assert_eq!(edits, last - 1);
        let text = format!(
            "counter record 1\nused {} largest {} edits {edits}\n",
            kept.used, kept.largest
        );
        assert_eq!(fs::read_to_string(&record).unwrap_or(text.clone()), text);
        assert!(last == 1 || record.exists());
        ran += edits;
        whole_days += u32::from(status == 0);
    }
    println!("{ran} lines ran, {whole_days} of 60 sheets were run whole");
    assert!(ran > 600 && (10..50).contains(&whole_days), "{ran} {whole_days}");
}

// Refused ---------------------------------------------------------------------------------

#[test]
fn the_first_line_that_is_refused_ends_the_sheet() {
    let stage = Stage::usual();
    let text = DAY.replace("move /opening.bnr 0x1A0002", "move /opening.bnr 0x60001");
    let sheet = compiled(&stage.temp, &text);
    let record = stage.temp.at("totals");
    fs::write(&record, &stage.records[0]).unwrap();
    let (name, shown, image) = (record.to_str().unwrap(), sheet.display(), stage.image.display());
    let about = format!("{shown}, line 8 of 9: move /opening.bnr to 0x60001");
    let why =
        format!("{about}: refused 20: move overlaps itself (the new place overlaps the old one)");
    let before = State::of(&stage.image);
    let run = stage.run(&["--dry-run", "--record", name]);
    assert_eq!(run.status, 20);
    assert_eq!(run.err, format!("counter: {why}; lines 1 to 7 would run; nothing was written\n"));
    let said = stage.said(1, 7) + &stage.left(1, 7);
    assert_eq!(run.out, dry(&(stage.tried(1, 7) + &stage.left(1, 7))));
    assert_eq!(State::of(&stage.image), before);
    assert_eq!(fs::read_to_string(&record).unwrap(), stage.records[0]);

    let run = stage.run(&["--record", name]);
    let next = format!(
        "once this one is put right, go on with `counter sheet {image} {shown} --from 8 --record {name}`"
    );
    assert_eq!(run.err, format!("counter: {why}; lines 1 to 7 ran and stay; {next}\n"));
    assert_eq!((run.status, run.out), (20, said));
    stage.is_at(7);
    assert_eq!(fs::read_to_string(&record).unwrap(), stage.records[7]);
    // Again from there: still wrong, and not even the time of modification is another.
    let before = State::of(&stage.image);
    let run = stage.run(&["--record", name, "--from", "8"]);
    assert_eq!(run.err, format!("counter: {why}; no line ran; {next}\n"));
    assert_eq!(State::of(&stage.image), before);
    let told = Json::read(&stage.run(&["--record", name, "--from", "8", "--json"]).out);
    assert_eq!(told.at("about").text(), about);
    assert_eq!((told.at("status").number(), told.at("refused").number()), (20, 20));
    assert_eq!(told.at("cause").text(), "move overlaps itself");
    assert_eq!(told.at("detail").text(), "the new place overlaps the old one");
    let number = |name: &str| told.at(name).number();
    assert_eq!(["lines", "from", "line", "ran"].map(number), [9, 8, 8, 0]);
    assert!(!told.at("written").flag() && told.at("edits").list().is_empty());
    assert_eq!(State::of(&stage.image), before);
    // Put right, it goes on.
    fs::remove_file(&sheet).unwrap();
    compiled(&stage.temp, DAY);
    assert_eq!(stage.run(&["--record", name, "--from", "8"]).status, 0);
    stage.is_at(9);
    assert_eq!(fs::read_to_string(&record).unwrap(), stage.records[9]);
    // One line before it.
    let sheet = compiled(&stage.temp, "mkdir /x\nmkdir /x\n");
    let run = on("sheet", &stage.image, &args_of(&sheet, &[]));
    assert_eq!(run.status, 19);
    assert!(run.err.contains("; line 1 ran and stays; once"), "{}", run.err);
    let run = on("sheet", &stage.image, &args_of(&sheet, &["--dry-run", "--from", "2"]));
    assert!(run.err.ends_with("; no line would run; nothing was written\n"), "{}", run.err);
}

/// The rules' own examples, and every other test that a line can fail, each between two lines that pass.
#[test]
fn a_line_is_refused_as_the_rules_say() {
    let temp = Temp::new();
    let image = temp.write("small.iso", &small_master());
    let before = State::of(&image);
    let long = |len: usize| vec![b'x'; len];
    let under = |folder: &str, len: usize| [folder.as_bytes(), &long(len)].concat();
    let cases: Vec<(Line, i32, &str)> = vec![
        (line(1, "a/:", 0, 0), 13, "mkdir a/:: refused 13: unsafe or empty name (it holds :)"),
        (line(1, "q/:", 0, 0), 18, "(there is no folder q; a line makes one folder alone)"),
        (line(1, "a/x", 0, 0), 17, "mkdir a/x: refused 17: directory wanted (/a is a file)"),
        (line(1, "a//x", 0, 0), 17, "(/a is a file)"),
        (line(1, "", 0, 0), 13, "mkdir \"\": refused 13: unsafe or empty name (it is empty)"),
        (line(1, "/", 0, 0), 13, "(it is empty)"),
        (line(1, "/d/", 0, 0), 18, "(there is no folder /d;"),
        (line(1, "/../q", 0, 0), 18, "(a path begins at the root, and nothing is above it)"),
        (line(1, "/..", 0, 0), 13, "no entry is called .."),
        (line(1, "a\\b", 0, 0), 13, "(it holds \\)"),
        (line(1, b"\x83/q", 0, 0), 18, "(there is no folder \\x83;"),
        (line(1, b"\x83", 0, 0), 12, "a lead byte 0x83 without its trail byte"),
        (line(2, "/a", 0, 0), 19, "add /a: refused 19: name exists"),
        (line(1, "a", 0, 0), 19, "mkdir a: refused 19: name exists"),
        (line(2, "a\n", 0, 0), 12, "add a\\x0a: refused 12: name byte (the byte 0x0a)"),
        (line(3, "", 0x600, 0), 16, "move \"\" to 0x600: refused 16: file wanted (it is a folder)"),
        (line(4, "", 0, 5), 16, "resize \"\" to 5 bytes: refused 16: file wanted (it is a folder)"),
        (line(4, "b", 0, 5), 18, "resize b to 5 bytes: refused 18: not found;"),
        (line(3, "a/b", 0, 0), 17, "(/a is a file)"),
        (line(3, "a", 0x501, 0), 20, "the new place overlaps the old one"),
        (line(3, "a", 0x400, 0), 21, "the new place is not free, or the table has no room"),
        (line(4, "a", 0, 0x1B01), 21, "it cannot grow where it lies, and no free place"),
        (
            line(3, long(1025), 0x600, 0),
            9,
            "x... to 0x600: refused 9: limit or memory (a path has at most 1,024",
        ),
        (line(1, under("a/", 1023), 0, 0), 9, "(a path has at most 1,024 bytes)"),
        (line(2, under("q/", 1023), 0, 0), 9, "(a path has at most 1,024 bytes)"),
        (line(1, under("q/", 1022), 0, 0), 18, "(there is no folder q;"),
        (line(4, long(1024), 0, 1), 18, "refused 18: not found;"),
    ];
    for (wrong, number, why) in cases {
        let lines = [line(4, "a", 0, 0x100), wrong, line(3, "a", 0x600, 0)];
        let sheet = temp.write("day.sheet", &sheet_of(&lines));
        for rest in [&["--dry-run"][..], &[]] {
            let run = on("sheet", &image, &args_of(&sheet, rest));
            assert_eq!(run.status, number, "{why}: {}", run.err);
            let wanted = format!("counter: {}, line 2 of 3: ", sheet.display());
            assert!(run.err.starts_with(&wanted) && run.err.contains(why), "{why}: {}", run.err);
            assert!(run.out.contains("line 1: /a has 256 bytes already\n"), "{}", run.out);
        }
        assert_eq!(State::of(&image), before, "{why}");
        assert!(!journal_of(&image).exists());
    }
    // A trail byte cuts nothing.
    let sheet = temp.write("day.sheet", &sheet_of(&[line(2, b"\x83\x5c", 0, 0)]));
    let out = done("sheet", &image, &args_of(&sheet, &[]));
    assert!(out.starts_with("line 1: added /ソ as entry 2\n"), "{out}");
}

/// 26, 27, 28 and 25 in the midst of a sheet, with what is told of them.
#[test]
fn maximum_and_teams_hold_for_each_line() {
    let temp = Temp::new();
    let mut bytes = filled_master();
    put(&mut bytes, 0x42C, 26 + 14);
    let image = temp.write("disc.iso", &bytes);
    let sheet = compiled(&temp, "mkdir /d\nmkdir /e\n");
    let run = on("sheet", &image, &args_of(&sheet, &["--json"]));
    assert_eq!(run.status, 26, "{}", run.err);
    assert!(
        run.err.contains("the new table has 54 bytes, 14 above the maximum of 40"),
        "{}",
        run.err
    );
    let told = Json::read(&run.out);
    assert_eq!(told.at("table").at("above").number(), 14);
    assert_eq!((told.at("line").number(), told.at("ran").number()), (2, 1));
    assert!(told.at("written").flag());
    let edits = told.at("edits").list();
    assert_eq!(edits.len(), 1);
    assert_eq!(edits[0].at("table").at("after").number(), 40);

    let image = temp.write("disc.iso", &filled_master());
    let record = temp.at("totals");
    let name = record.to_str().unwrap();
    let teams = |list: &[u8]| {
        let list = temp.write("teams", list);
        done("record", &image, &["--record", name, "--teams", list.to_str().unwrap(), "--force"]);
    };
    teams(b"1 300 0 art\n2 none 6000 sound\n");
    // 14 bytes, 100 and 200 more: 14 above the limit.
    let sheet = compiled(&temp, "mkdir /d\nresize /a 356\nresize /a 556\n");
    let before = State::of(&image);
    let rest = ["--record", name, "--team", "art"];
    let dry = on("sheet", &image, &args_of(&sheet, &[&rest[..], &["--dry-run"]].concat()));
    assert_eq!(dry.status, 27, "{}", dry.err);
    assert_eq!(State::of(&image), before);
    let run = on("sheet", &image, &args_of(&sheet, &rest));
    assert_eq!(run.status, 27, "{}", run.err);
    let why = "line 3 of 3: resize /a to 556 bytes: refused 27: taken bytes above the team's limit (team art has \
               taken 114 bytes and the edit costs 200 bytes: 14 above its limit of 300";
    assert!(run.err.contains(why) && dry.err.contains(why), "{}", run.err);
    let left = "team art: taken 114 bytes, limit 300 bytes, 0 bytes left of its share of 0 bytes, edits 2\n";
    assert!(run.out.ends_with(left), "{}", run.out);
    let kept = fs::read_to_string(&record).unwrap();
    assert!(kept.contains("team 1 limit 300 share 0 taken 114 edits 2 name art\n"), "{kept}");
    // The shares of the others, and a team that is left out or not known.
    let sheet = compiled(&temp, "resize /a 500\nresize /a 1500\n");
    teams(b"1 none 0 art\n2 none 6000 sound\n");
    let run = on("sheet", &image, &args_of(&sheet, &[&rest[..], &["--json"]].concat()));
    assert_eq!(run.status, 28, "{}", run.err);
    let told = Json::read(&run.out);
    assert!(told.at("shares").at("short").number() > 0);
    assert_eq!(told.at("record").at("team").at("edits").number(), 1);
    assert_eq!(on("sheet", &image, &args_of(&sheet, &["--record", name])).status, 64);
    assert_eq!(
        on("sheet", &image, &args_of(&sheet, &["--record", name, "--team", "3"])).status,
        64
    );
    // The count comes to its end.
    let image = temp.write("disc.iso", &filled_master());
    fs::write(&record, Table::of(&image).record_file(u64::from(u32::MAX) - 1)).unwrap();
    let sheet = compiled(&temp, "mkdir /d\nmkdir /e\n");
    let run = on("sheet", &image, &args_of(&sheet, &["--record", name]));
    assert_eq!(run.status, 25, "{}", run.err);
    assert!(run.err.contains("line 2 of 2: mkdir /e: refused 25"), "{}", run.err);
    assert_eq!(
        fs::read_to_string(&record).unwrap(),
        Table::of(&image).record_file(u32::MAX.into())
    );
}

#[test]
fn a_run_answers_in_json() {
    let stage = Stage::usual();
    let before = State::of(&stage.image);
    let dry = Json::read(&stage.run(&["--dry-run", "--json"]).out);
    assert!(dry.at("dry_run").flag() && !dry.at("written").flag());
    assert!(dry.at("edits").list().iter().all(|edit| !edit.at("written").flag()));
    assert_eq!(State::of(&stage.image), before);
    let told = Json::read(&stage.run(&["--json"]).out);
    stage.is_at(9);
    let number = |name: &str| told.at(name).number();
    assert_eq!(["status", "lines", "from", "ran"].map(number), [0, 9, 1, 9]);
    assert_eq!(told.at("edit").text(), "sheet");
    assert_eq!(told.at("sheet").text(), stage.sheet.to_str().unwrap());
    assert_eq!((told.at("line"), told.at("finished")), (&Json::Null, &Json::Null));
    assert!(told.at("written").flag() && !told.at("dry_run").flag());
    assert_eq!(told.at("record").at("edits").number(), 9);
    assert_eq!(told.at("record"), dry.at("record"));
    let edits = told.at("edits").list().iter().zip(dry.at("edits").list());
    for (n, ((edit, dry), command)) in edits.zip(commands(DAY)).enumerate() {
        assert_eq!(edit.at("line").number() as usize, n + 1);
        assert_eq!((edit.at("edit").text(), edit.at("path").text()), (command[0], command[1]));
        // As the command of that name tells it.
        stage.reset(n);
        let single = json(command[0], &stage.image, &command[1..]);
        for name in ["path_bytes", "written", "table", "entries", "renumbered", "lost", "notes"] {
            assert_eq!(edit.at(name), single.at(name), "line {}: {name}", n + 1);
            assert!(name == "written" || dry.at(name) == edit.at(name), "line {}: {name}", n + 1);
        }
    }
    // Every field is told.
    let help = run(&["help", "sheet"]).out;
    for name in fields(&told) {
        assert!(help.contains(&name), "{name}");
    }
}

// Cut -------------------------------------------------------------------------------------

const END: u32 = 0x4_0000;

/// Free space full of bytes that say where they are from, and names that are shared.
fn master() -> Vec<u8> {
    let entries = [
        file("film", 0x8000, 0x3210),
        file("next", 0xB210, 0x700),
        folder("d", vec![file("song", 0xC000, 0x2001)]),
        file("far", 0x3_8000, 0x1800),
    ];
    program_master(&entries, END, 79)
}

/// What is told of the line that was finished: its number.
fn finished(stage: &Stage, told: &str, record: Option<&Path>) -> usize {
    let before = format!("finished an edit that was cut: {}, line ", stage.sheet.display());
    let rest = told.split(&before).nth(1).unwrap_or_else(|| panic!("{told}"));
    let (n, rest) = rest.split_once(&format!(" of {}: ", stage.count())).unwrap();
    let n: usize = n.parse().unwrap();
    let command = commands(&fs::read_to_string(stage.temp.at("text")).unwrap())[n - 1].join(" ");
    let words = command.split(' ').take(2).collect::<Vec<_>>().join(" ");
    assert!(rest.starts_with(&words), "{rest}");
    let (image, sheet) = (stage.image.display(), stage.sheet.display());
    match n == stage.count() {
        true => assert!(told.contains("that was the last line of the sheet"), "{told}"),
        false => {
            let record = record.map(|record| format!(" --record {}", record.display()));
            let rest = format!("{}{}", n + 1, record.unwrap_or_default());
            let next = format!("go on with `counter sheet {image} {sheet} --from {rest}`");
            assert!(told.contains(&next), "{told}");
        }
    }
    n
}

/// The second write to the image of line `n`: what the line does is begun, and not done.
fn in_line(shim: Shim, stage: &Stage, n: usize) -> At {
    stage.reset(0);
    let log = stage.temp.at("log");
    let _ = fs::remove_file(&log);
    let mut command = program();
    command.arg("sheet").arg(&stage.image).args(args_of(&stage.sheet, &[]));
    shim.log(&mut command, &log);
    assert!(command.output().unwrap().status.success());
    stage.reset(0);
    let is_done = |step: &Step| {
        step.what == b'a' && String::from_utf8_lossy(&step.bytes).contains("\"answer\":\"done\"")
    };
    let (mut done, mut before) = (0, 0);
    for step in read_log(&log) {
        done += usize::from(is_done(&step));
        before += usize::from(done + 1 < n && (step.what, step.on) == (b'w', IMAGE));
    }
    image_write(before + 2)
}

/// Full at any step: the exit status says what became of the line that is told, and the sheet goes on.
#[test]
fn a_disk_that_is_full_at_any_step_ends_the_sheet_between_two_lines() {
    let Some(shim) = Shim::get() else { return };
    let text = "move /film 0x20000\nadd /d/new.bin\nresize /next 0x100\n";
    let stage = Stage::new(Temp::in_memory(), &master(), text);
    let record = stage.temp.at("totals");
    let name = record.to_str().unwrap();
    let mut seen = Vec::new();
    for step in 1.. {
        stage.reset(0);
        fs::write(&record, &stage.records[0]).unwrap();
        let mut command = program();
        command.arg("sheet").arg(&stage.image).args(args_of(&stage.sheet, &["--record", name]));
        shim.at(&mut command, At { kinds: "wscf", files: "", n: step }, Do::From(FULL));
        let run: Run = command.output().unwrap().into();
        if run.status == 0 {
            break;
        }
        seen.push(run.status);
        assert!([74, 78].contains(&run.status), "{step}: {} {}", run.status, run.err);
        // A gate that is closed, of which nobody knows whether the disk has it so, is none.
        let open = fs::read(journal_of(&stage.image)).is_ok_and(|bytes| bytes.first() == Some(&1));
        assert!(!open || run.status == 78, "{step}: {}", run.err);
        let mut at = (0..=3).find(|&n| fs::read(&stage.image).unwrap() == stage.images[n]);
        if open {
            at = Some(finished(&stage, &done("recover", &stage.image, &[]), Some(&record)));
        }
        let at = at.unwrap_or_else(|| panic!("{step}: {}", run.err));
        stage.is_at(at);
        assert_eq!(fs::read_to_string(&record).unwrap(), stage.records[at], "{step}");
        // It was told where to go on, once it had begun.
        let has_begun = run.err.contains(", line ");
        assert!(has_begun || at == 0, "{step}: {}", run.err);
        if at < 3 {
            let next = format!(" --from {} --record {name}`", at + 1);
            assert!(!has_begun || run.err.contains(&next), "{step}: {}", run.err);
            let run = stage.run(&["--from", &(at + 1).to_string(), "--record", name]);
            assert_eq!(run.status, 0, "{step}: {}", run.err);
        }
        stage.is_at(3);
        assert_eq!(fs::read_to_string(&record).unwrap(), stage.records[3], "{step}");
    }
    for status in [74, 78] {
        assert!(seen.contains(&status), "{seen:?}");
    }
    println!("{seen:?}");
}

/// Killed anywhere: the line that is written is finished all the same, and the sheet goes on behind it.
#[test]
fn a_sheet_that_is_killed_goes_on() {
    let text: String = (0..12)
        .map(|n| match n % 3 {
            0 => format!("mkdir /d/m{n}\n"),
            1 => format!("move /film {}\n", if n % 2 == 0 { "0x20000" } else { "0x28001" }),
            _ => format!("resize /far {}\n", 0x1000 + n),
        })
        .collect();
    let stage = Stage::new(Temp::new(), &master(), &text);
    let record = stage.temp.at("totals");
    let name = record.to_str().unwrap();
    let mut random = Random(u64::from(std::process::id()) | 1 << 40);
    let mut seen = Vec::new();
    for _ in 0..16 {
        stage.reset(0);
        fs::write(&record, &stage.records[0]).unwrap();
        let mut command = program();
        command.arg("sheet").arg(&stage.image).args(args_of(&stage.sheet, &["--record", name]));
        let mut child = command.stdout(Stdio::null()).stderr(Stdio::null()).spawn().unwrap();
        thread::sleep(Duration::from_micros(random.below(60_000) as u64));
        send(&child, SIGKILL);
        child.wait().unwrap();
        let out = done("recover", &stage.image, &["--wait"]);
        assert!(out.contains("no edit was cut"), "{out}");
        let now = fs::read(&stage.image).unwrap();
        let at = stage.images.iter().position(|image| *image == now).unwrap();
        stage.is_at(at);
        assert_eq!(fs::read_to_string(&record).unwrap(), stage.records[at], "after line {at}");
        seen.push(at);
        if at < 12 {
            let from = (at + 1).to_string();
            assert_eq!(stage.run(&["--from", &from, "--record", name]).status, 0);
            stage.is_at(12);
            assert_eq!(fs::read_to_string(&record).unwrap(), stage.records[12]);
        }
    }
    println!("{seen:?}");
}

/// Ctrl-C and its like end a sheet between two lines, and it is told behind which.
#[test]
fn a_signal_ends_a_sheet_between_two_lines() {
    let text: String = (0..300).map(|n| format!("add /new{n}\n")).collect();
    // Room for all of them behind the table.
    let mut master = small_master();
    master.resize(0x9000, 0);
    put(&mut master, 0x434, 0x9000);
    put(&mut master, 0x440 + 12 + 4, 0x8000);
    let stage = Stage::new(Temp::in_memory(), &master, &text);
    let mut seen = Vec::new();
    for (turn, signal) in [SIGINT, SIGTERM, SIGHUP, 10, SIGQUIT, SIGINT].into_iter().enumerate() {
        stage.reset(0);
        let mut command = program();
        command.arg("sheet").arg(&stage.image).args(args_of(&stage.sheet, &[]));
        let mut child = command.stdout(Stdio::piped()).stderr(Stdio::piped()).spawn().unwrap();
        // Nobody minds a signal before the program is ready for it.
        wait_for_output(&mut child, 1 + 20 * turn);
        send(&child, signal);
        let run: Run = child.wait_with_output().unwrap().into();
        let at = stage.images.iter().position(|bytes| *bytes == fs::read(&stage.image).unwrap());
        let at = at.unwrap();
        seen.push(at);
        stage.is_at(at);
        // It may have come to its end before the signal came.
        assert!(run.signal == Some(signal) || at == stage.count(), "{}", run.err);
        if at < stage.count() {
            let line = format!("{}, line {} of 300: ", stage.sheet.display(), at + 1);
            assert!(run.err.contains(&line), "{}", run.err);
            assert!(
                run.err.contains(&format!(
                    "go on with `counter sheet {} {} --from {}`",
                    stage.image.display(),
                    stage.sheet.display(),
                    at + 1
                )),
                "{}",
                run.err
            );
        }
    }
    println!("{seen:?}");
    assert!(seen.iter().any(|&at| at > 0 && at < 300), "{seen:?}");
}

/// Waits until so many lines are said.
fn wait_for_output(child: &mut Child, lines: usize) {
    let out = child.stdout.as_mut().unwrap();
    let mut byte = [0];
    let mut left = lines;
    while left > 0 && out.read(&mut byte).unwrap() == 1 {
        left -= usize::from(byte == *b"\n");
    }
}

/// Whoever else uses the image is told of the line; a next edit finishes it and tells with which the sheet
/// goes on.
#[test]
fn the_line_that_was_cut_is_told_by_every_command() {
    let Some(shim) = Shim::get() else { return };
    let stage = Stage::new(Temp::in_memory(), &master(), THREE);
    let at = in_line(shim, &stage, 2);
    let cut = || {
        stage.reset(0);
        let mut command = program();
        command.arg("sheet").arg(&stage.image).args(args_of(&stage.sheet, &["--json"]));
        shim.at(&mut command, at, Do::From(FULL));
        let run: Run = command.output().unwrap().into();
        assert_eq!(run.status, 78, "{}", run.err);
        run
    };
    let run = cut();
    let line = format!("{}, line 2 of 3: move /film to 0x20000", stage.sheet.display());
    let next = format!(
        "go on with `counter sheet {} {} --from 3`",
        stage.image.display(),
        stage.sheet.display()
    );
    assert!(
        run.err.contains(&format!("line 1 ran and stays; once this one is finished, {next}")),
        "{}",
        run.err
    );
    let told = Json::read(&run.out);
    assert_eq!((told.at("status").number(), told.at("line").number()), (78, 2));
    assert_eq!(told.at("edits").list().len(), 1);
    for args in [
        &["list"][..],
        &["mkdir", "x", "--dry-run"],
        &["sheet", stage.sheet.to_str().unwrap(), "--dry-run"],
    ] {
        let run = on(args[0], &stage.image, &args[1..]);
        assert_eq!(run.status, 78);
        assert!(
            run.err.contains(&format!("an edit of this image was cut ({line})")),
            "{}",
            run.err
        );
    }
    let told = json("recover", &stage.image, &[]);
    assert_eq!(told.at("finished").text(), line);
    let sheet = told.at("sheet");
    assert_eq!(sheet.at("file").text(), stage.sheet.to_str().unwrap());
    assert_eq!(["line", "lines", "from"].map(|name| sheet.at(name).number()), [2, 3, 3]);
    stage.is_at(2);
    assert_eq!(json("recover", &stage.image, &[]).at("sheet"), &Json::Null);

    // The next edit, and another sheet, finish it and go on with their own.
    cut();
    let run = on("mkdir", &stage.image, &["x"]);
    assert_eq!(run.status, 0, "{}", run.err);
    assert!(
        run.err.contains(&format!("counter: finished an edit that was cut: {line}; {next}\n")),
        "{}",
        run.err
    );
    cut();
    let other = stage.temp.write("other.sheet", &sheet_of(&[line_of("/y")]));
    let told = Json::read(&on("sheet", &stage.image, &args_of(&other, &["--json"])).out);
    assert_eq!(told.at("finished").text(), line);
    assert_eq!(told.at("ran").number(), 1);
    // The same sheet wants to be told with which line.
    cut();
    let run = stage.run(&[]);
    assert_eq!(run.status, 64, "{}", run.err);
    assert!(
        run.err.contains("--from 3 goes on; --from 1 would run all lines again"),
        "{}",
        run.err
    );
    stage.is_at(2);
    assert_eq!(stage.run(&["--from", "3"]).status, 0);
    stage.is_at(3);
    cut();
    let run = stage.run(&["--from", "3"]);
    assert_eq!(run.status, 0, "{}", run.err);
    assert!(run.err.contains("finished an edit that was cut"), "{}", run.err);
    stage.is_at(3);
}

/// Cut at that step of its second line of three.
fn cut_in_two(shim: Shim, at: At, stage: &Stage) {
    stage.reset(0);
    let mut command = program();
    command.arg("sheet").arg(&stage.image).args(args_of(&stage.sheet, &[]));
    shim.at(&mut command, at, Do::From(FULL));
    let run: Run = command.output().unwrap().into();
    assert_eq!(run.status, 78, "{}", run.err);
}

const THREE: &str = "add /d/new.bin\nmove /film 0x20000\nresize /far 0x1001\n";

/// Under any name it is the same sheet, and another one under its name is not.
#[test]
fn a_sheet_is_known_by_its_bytes() {
    let Some(shim) = Shim::get() else { return };
    let stage = Stage::new(Temp::in_memory(), &master(), THREE);
    let at = in_line(shim, &stage, 2);
    let bytes = fs::read(&stage.sheet).unwrap();
    let same = |run: Run, why: &str| {
        assert_eq!((run.status, run.out.lines().count()), (64, 0), "{}", run.err);
        assert!(run.err.contains(why), "{}", run.err);
        stage.is_at(2);
    };
    let was_cut =
        "line 2 of 3 was cut and is finished now, and nothing more was done; --from 3 goes on";
    let (copy, link) = (stage.temp.write("copy", &bytes), stage.temp.at("link"));
    std::os::unix::fs::symlink(&stage.sheet, &link).unwrap();
    for sheet in [&copy, &link] {
        cut_in_two(shim, at, &stage);
        same(on("sheet", &stage.image, &args_of(sheet, &[])), was_cut);
    }
    cut_in_two(shim, at, &stage);
    let mut command = program();
    command.arg("sheet").arg(&stage.image).arg("/dev/stdin").stdin(Stdio::piped());
    let mut child = command.stdout(Stdio::piped()).stderr(Stdio::piped()).spawn().unwrap();
    child.stdin.take().unwrap().write_all(&bytes).unwrap();
    same(child.wait_with_output().unwrap().into(), was_cut);
    // With the line that was finished just now.
    cut_in_two(shim, at, &stage);
    same(stage.run(&["--from", "2"]), "line 2 is done; --from 3 goes on; nothing more was done");
    cut_in_two(shim, at, &stage);
    let run = stage.run(&["--json"]);
    let told = Json::read(&run.out);
    let number = |name: &str| told.at(name).number();
    assert_eq!(["status", "line", "from", "lines", "ran"].map(number), [64, 2, 3, 3, 0]);
    assert!(told.at("finished").text().contains("line 2 of 3: move /film to 0x20000"));

    // Another sheet under its name: it is run as any other, and nobody is told to go on with it.
    cut_in_two(shim, at, &stage);
    fs::write(&stage.sheet, sheet_of(&[line_of("/y")])).unwrap();
    let other = format!("line 2 of 3 of another sheet that was at {}: ", stage.sheet.display());
    let run = on("list", &stage.image, &[]);
    assert!(run.status == 78 && run.err.contains(&other), "{}", run.err);
    let run = stage.run(&[]);
    assert_eq!(run.status, 0, "{}", run.err);
    assert!(run.err.contains(&other) && !run.err.contains("go on with"), "{}", run.err);
    for (is_gone, why) in [
        (false, "of that sheet, which is not there any more, line 3 is the next"),
        (true, "day.sheet is not there any more, of which line 3 is the next"),
    ] {
        for is_json in [false, true] {
            fs::write(&stage.sheet, &bytes).unwrap();
            cut_in_two(shim, at, &stage);
            match is_gone {
                true => fs::remove_file(&stage.sheet).unwrap(),
                false => fs::write(&stage.sheet, sheet_of(&[])).unwrap(),
            }
            if is_json {
                let told = json("recover", &stage.image, &[]);
                assert!(!told.at("sheet").at("there").flag());
                continue;
            }
            if is_gone {
                // Nothing is finished without a sheet, and it is told what does it.
                let run = stage.run(&[]);
                assert_eq!(run.status, 66, "{}", run.err);
                let recover = format!("`counter recover {}` finishes it", stage.image.display());
                assert!(run.err.contains(&recover) && journal_of(&stage.image).exists());
            }
            let out = done("recover", &stage.image, &[]);
            assert!(out.contains(why) && !out.contains("go on with"), "{out}");
            stage.is_at(2);
        }
    }
}

/// The command that is told goes on as it stands, with the record and the team, whatever the files are called.
#[test]
fn the_command_that_is_told_can_be_pasted() {
    let Some(shim) = Shim::get() else { return };
    let stage = Stage::new(Temp::in_memory(), &master(), THREE);
    let at = in_line(shim, &stage, 2);
    let temp = Temp::in_memory();
    temp.write("my disc.iso", &master());
    temp.write(
        "-day's",
        &fs::read(compiled(&temp, "mkdir /e\nmkdir /d/no/x\nmkdir /f\n")).unwrap(),
    );
    temp.write("teams", b"0 none 0 Red and blue\n1 none 0 Green\n");
    let shell = |command: &str| {
        let all = format!("counter() {{ {} \"$@\"; }}; {command}", env!("CARGO_BIN_EXE_counter"));
        let mut sh = Command::new("sh");
        sh.args(["-c", &all]).current_dir(temp.at("")).env("LC_ALL", "C.UTF-8");
        sh.stdin(Stdio::null());
        sh
    };
    let sh = |command: &str| Run::from(shell(command).output().unwrap());
    // On a disk that is full in the midst of line 2.
    let cut = |command: &str| {
        let mut command = shell(command);
        shim.at(&mut command, at, Do::From(FULL));
        Run::from(command.output().unwrap())
    };
    let told = |err: &str| {
        let rest = err.split("go on with ").nth(1).unwrap_or_else(|| panic!("{err}"));
        rest.split('`').nth(1).unwrap().to_string()
    };
    let run = sh("counter record 'my disc.iso' --record '-r 1' --teams teams");
    assert_eq!(run.status, 0, "{}", run.err);
    let run = sh("counter sheet --record '-r 1' --team 'Red and blue' -- 'my disc.iso' \"-day's\"");
    assert_eq!(run.status, 18, "{}", run.err);
    let wanted = "counter sheet --from 2 --record '-r 1' --team 'Red and blue' -- 'my disc.iso' '-day'\\''s'";
    assert_eq!(told(&run.err), wanted);
    assert_eq!(sh("counter mkdir 'my disc.iso' /d/no --record '-r 1' --team 1").status, 0);
    let run = sh(wanted);
    assert_eq!(run.status, 0, "{}", run.err);
    // As recovery tells it.
    temp.write("my disc.iso", &master());
    temp.write("-day's", &fs::read(compiled(&temp, THREE)).unwrap());
    assert_eq!(sh("counter record 'my disc.iso' --record '-r 1' --teams teams --force").status, 0);
    let run = cut("counter sheet --record '-r 1' --team Green -- 'my disc.iso' \"-day's\"");
    assert_eq!(run.status, 78, "{}", run.err);
    let next = told(&sh("counter recover 'my disc.iso'").out);
    let record = format!(" --record '{}' --team 1", temp.at("-r 1").display());
    assert!(next.contains("--from ") && next.contains(&record), "{next}");
    let run = sh(&next);
    assert_eq!(run.status, 0, "{}", run.err);
    let green = sh("counter record -- '-r 1'").out;
    assert!(green.contains("Green") && green.contains("edits 3"), "{green}");
    // Of a pipe no name is told.
    temp.write("disc.iso", &master());
    let run = cut("cat './-day'\\''s' | counter sheet disc.iso /dev/stdin");
    assert_eq!(run.status, 78, "{}", run.err);
    let next = "go on with the same sheet: `counter sheet disc.iso FILE --from 3`";
    assert!(run.err.contains(next), "{}", run.err);
    let out = sh("counter recover disc.iso").out;
    assert!(out.contains(next), "{out}");
}

fn line_of(path: &str) -> Line {
    line(1, path, 0, 0)
}

/// On a terminal it is told at which line a long sheet is, which has its record alone from line to line. Ctrl-C
/// lets the line be finished, and ends the sheet behind it.
#[test]
fn a_long_sheet_shows_its_progress_on_a_terminal() {
    let Some(shim) = Shim::get() else { return };
    let temp = Temp::new();
    let image = temp.at("disc.iso");
    sparse(&image, &usual(0x10_0000, 0x40_0000), 0xA0_0000);
    let sheet = compiled(&temp, "mkdir /x\nmove /movie/intro.thp 0x600000\nmkdir /y\n");
    let singles = [temp.at("one.iso"), temp.at("two.iso")];
    fs::copy(&image, &singles[0]).unwrap();
    done("mkdir", &singles[0], &["/x"]);
    fs::copy(&singles[0], &singles[1]).unwrap();
    done("move", &singles[1], &["/movie/intro.thp", "0x600000"]);
    let Some((mut shows, writes)) = terminal() else {
        not_tried("progress of a sheet: no terminal to be had");
        return;
    };
    let mut command = program();
    let record = temp.at("totals");
    let rest = ["--record", record.to_str().unwrap()];
    command.arg("sheet").arg(&image).args(args_of(&sheet, &rest)).stdout(Stdio::null());
    command.stderr(writes);
    // Table and word of line 1, and then the copy.
    let (mut child, step) = shim.stopped(&temp, command, image_write(4));
    let (tell, told) = std::sync::mpsc::channel();
    thread::spawn(move || {
        let mut part = [0; 1024];
        while let Ok(count @ 1..) = shows.read(&mut part) {
            let _ = tell.send(String::from_utf8_lossy(&part[..count]).into_owned());
        }
    });
    let mut all = String::new();
    let mut wait_for = |wanted: &str| {
        while !all.contains(wanted) {
            all += &told.recv_timeout(Duration::from_secs(60)).unwrap_or_else(|_| panic!("{all}"));
        }
        all.clone()
    };
    let shown = wait_for("line 2 of 3: writing: ");
    assert!(shown.contains("\r\x1b[Kline 2 of 3: writing: "), "{shown:?}");
    let after = |at: usize| Table::of(&singles[at]).record_file(at as u64 + 1);
    assert_eq!(fs::read_to_string(&record).unwrap(), after(0));
    assert_eq!(on("mkdir", &singles[0], &[&["/y"], &rest[..]].concat()).status, 75);
    send(&child, SIGINT);
    wait_for("Ctrl-C (SIGINT): the edit is finished first");
    drop(step);
    let shown = wait_for("--from 3 --record ");
    let behind = ["line 3 of 3: ", "came before it", "lines 1 to 2 ran and stay"];
    assert!(behind.iter().all(|words| shown.contains(words)), "{shown}");
    assert_eq!(child.wait().unwrap().signal(), Some(SIGINT));
    assert!(fs::read(&image).unwrap() == fs::read(&singles[1]).unwrap());
    assert_eq!(fs::read_to_string(&record).unwrap(), after(1));
    assert!(!journal_of(&image).exists());
}
