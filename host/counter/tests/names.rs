//! Japanese names: shown and taken in UTF-8, on terminals with another code, and as bytes. The bytes of a
//! character are those of the published table (CP932.TXT of the Unicode Consortium).

mod support;

use std::ffi::OsStr;
use std::fs;
use std::os::unix::ffi::OsStrExt;
use std::path::{Path, PathBuf};
use std::process::Command;
use support::shim::*;
use support::*;

const END: u32 = 0x20_0000;

/// Names and their texts. The trail byte of the first characters is 0x5C, as is a backslash.
const HYOU: &[u8] = b"\x95\x5c.bin";
const SOURCE: &[u8] = b"\x83\x5c\x81\x5b\x83\x58";
const TEN: &[u8] = b"\x8f\x5c";
const KANA: &[u8] = b"\xb1\xb2\xb3";
/// One character for two pairs: it is turned back into the second.
const TWIN: &[u8] = b"\xed\x40";
const OTHER_TWIN: &[u8] = b"\xfa\x5c";
/// A pair without a character, and one whose trail byte is a letter.
const EMPTY_PAIR: &[u8] = b"\x81\xad.";
const EMPTY_LETTER: &[u8] = b"\x82\x40";

/// The entries' paths in table order, as text and as escapes alone.
const PATHS: [(&str, &str); 10] = [
    ("/", "/"),
    ("/表.bin", r"/\x95\x5c.bin"),
    ("/ソース/", r"/\x83\x5c\x81\x5b\x83\x58/"),
    ("/ソース/十", r"/\x83\x5c\x81\x5b\x83\x58/\x8f\x5c"),
    ("/ソース/ｱｲｳ", r"/\x83\x5c\x81\x5b\x83\x58/\xb1\xb2\xb3"),
    (r"/\xed\x40", r"/\xed\x40"),
    ("/纊", r"/\xfa\x5c"),
    (r"/\x81\xad.", r"/\x81\xad."),
    (r"/\x82\x40", r"/\x82\x40"),
    ("/plain", "/plain"),
];

fn entries() -> Vec<Wish> {
    vec![
        file(HYOU, 0x6_0000, 0x1960),
        folder(SOURCE, vec![file(TEN, 0x7_0000, 0x123), file(KANA, 0x7_1000, 0x33)]),
        file(TWIN, 0x8_0000, 5),
        file(OTHER_TWIN, 0x8_1000, 6),
        file(EMPTY_PAIR, 0x8_2000, 7),
        file(EMPTY_LETTER, 0x8_3000, 8),
        file("plain", 0x8_4000, 9),
    ]
}

fn master(temp: &Temp) -> PathBuf {
    let path = temp.at("japanese.iso");
    sparse(&path, &entries(), END);
    path
}

/// The path of entry `number` in the image's bytes, a folder's with `/` at the end.
fn bytes_of(image: &Path, number: usize) -> Vec<u8> {
    let entry = &Table::of(image).entries[number];
    let end: &[u8] = if entry.folder { b"/" } else { b"" };
    [&entry.bytes[..], end].concat()
}

const SJIS: &str = "ja_JP.SJIS";

/// Runs in a locale, with words that are bytes.
fn within(locale: &str, command: &str, image: &Path, rest: &[&[u8]]) -> Run {
    let rest = rest.iter().map(|word| OsStr::from_bytes(word));
    program().env("LC_ALL", locale).arg(command).arg(image).args(rest).output().unwrap().into()
}

fn hex(bytes: &[u8]) -> String {
    bytes.iter().map(|byte| format!("{byte:02x}")).collect()
}

// Shown -----------------------------------------------------------------------------------

#[test]
fn list_has_the_bytes_whatever_the_terminal() {
    let temp = Temp::new();
    let image = master(&temp);
    let wanted = Table::of(&image).listing_bytes();
    for locale in ["", "C", "C.UTF-8", SJIS] {
        for rest in [&[][..], &[&b"--bytes"[..]]] {
            let run = within(locale, "list", &image, rest);
            assert_eq!((run.status, &run.bytes), (0, &wanted), "{locale}");
        }
    }
    assert_eq!(json("info", &image, &[]).at("files").number(), 8);
    assert!(done("check", &image, &[]).contains("opens: 8 files, 1 folder, "));
}

#[test]
fn tree_stands_in_columns() {
    let temp = Temp::new();
    let image = master(&temp);
    // A wide character takes two columns, half-width katakana one.
    let wanted = r"/               6.71 KiB  8 files
|-- 表.bin      6.34 KiB  at 0x00060000
|-- ソース/        342 B  2 files
|   |-- 十         291 B  at 0x00070000
|   `-- ｱｲｳ         51 B  at 0x00071000
|-- \xed\x40         5 B  at 0x00080000
|-- 纊               6 B  at 0x00081000
|-- \x81\xad.        7 B  at 0x00082000
|-- \x82\x40         8 B  at 0x00083000
`-- plain            9 B  at 0x00084000
";
    assert_eq!(done("tree", &image, &[]), wanted);
    let escaped = within(SJIS, "tree", &image, &[]).out;
    assert!(escaped.contains("|   `-- \\xb1\\xb2\\xb3                51 B"), "{escaped}");
    assert!(escaped.is_ascii() && escaped.contains(r"|-- \x83\x5c\x81\x5b\x83\x58/ "), "{escaped}");
    // On a terminal that shows the bytes each of them takes a column.
    let raw = within("C.UTF-8", "tree", &image, &[b"--bytes"]).bytes;
    let lines: Vec<&[u8]> = raw.split(|&b| b == b'\n').collect();
    assert_eq!(lines[1], b"|-- \x95\x5c.bin    6.34 KiB  at 0x00060000");
    assert_eq!(lines[2], b"|-- \x83\x5c\x81\x5b\x83\x58/      342 B  2 files");
}

#[test]
fn utf_8_is_taken_for_granted_unless_the_locale_names_another_code() {
    let temp = Temp::new();
    let image = master(&temp);
    let paths = |set: &[(&str, &str)]| {
        let mut command = program();
        command.env_remove("LC_ALL").env_remove("LC_CTYPE").env_remove("LANG");
        command.envs(set.iter().copied()).arg("tree").arg(&image).arg("--paths");
        Run::from(command.output().unwrap()).out
    };
    let text: String = PATHS.iter().map(|(text, _)| format!("{text}\n")).collect();
    let escaped: String = PATHS.iter().map(|(_, escaped)| format!("{escaped}\n")).collect();
    for set in [
        &[][..],
        &[("LANG", "C")],
        &[("LANG", "POSIX")],
        &[("LANG", "ja_JP")],
        &[("LANG", "ja_JP.utf8")],
        &[("LANG", "ja_JP.UTF-8@cjkwide")],
        &[("LC_ALL", ""), ("LC_CTYPE", "C.UTF-8"), ("LANG", SJIS)],
    ] {
        assert_eq!(paths(set), text, "{set:?}");
    }
    for set in [
        &[("LANG", SJIS)][..],
        &[("LANG", "ja_JP.eucJP")],
        &[("LC_CTYPE", "de_DE.ISO-8859-15@euro"), ("LANG", "C.UTF-8")],
        &[("LC_ALL", SJIS), ("LC_CTYPE", "C.UTF-8")],
    ] {
        assert_eq!(paths(set), escaped, "{set:?}");
    }
}

#[test]
fn what_is_shown_is_taken() {
    let temp = Temp::new();
    let image = master(&temp);
    for (number, (text, escaped)) in PATHS.iter().enumerate() {
        let bytes = bytes_of(&image, number);
        // As text, as escapes, as the bytes of a Shift-JIS terminal, and as bytes.
        let ways: [(&str, &[u8], bool); 5] = [
            ("C.UTF-8", text.as_bytes(), false),
            ("C.UTF-8", escaped.as_bytes(), false),
            (SJIS, escaped.as_bytes(), false),
            (SJIS, &bytes, false),
            ("C.UTF-8", &bytes, true),
        ];
        for (locale, path, raw) in ways {
            let path = if number == 0 { path } else { path.strip_suffix(b"/").unwrap_or(path) };
            let words = [path, b"--json", b"--bytes"];
            let run = within(locale, "find", &image, &words[..2 + usize::from(raw)]);
            assert_eq!(run.status, 0, "{locale} {path:x?}: {}", run.err);
            let told = Json::read(&run.out);
            assert_eq!(told.at("number").number(), number as u64);
            assert_eq!(told.at("path").text(), *text);
            assert_eq!(told.at("path_bytes").text(), hex(&bytes));
        }
        let shown = within("C.UTF-8", "find", &image, &[escaped.trim_end_matches('/').as_bytes()]);
        assert!(shown.out.starts_with(&format!("path              {text}\n")), "{}", shown.out);
        let shown = within(SJIS, "find", &image, &[escaped.trim_end_matches('/').as_bytes()]);
        assert!(shown.out.starts_with(&format!("path              {escaped}\n")), "{}", shown.out);
    }
    assert_eq!(on("find", &image, &[r"/\xED\x40"]).status, 0);
    assert_eq!(on("find", &image, &[r"/\x95\x5C.bin"]).status, 0);
    let folder = within("C.UTF-8", "find", &image, &["ソース/十".as_bytes()]);
    assert!(folder.out.contains("\nfolder            /ソース/\n"), "{}", folder.out);
    let raw = within("C.UTF-8", "find", &image, &[b"--bytes", b"\x83\x5c\x81\x5b\x83\x58"]);
    assert!(raw.bytes.starts_with(b"path              /\x83\x5c\x81\x5b\x83\x58/\nentry "));
}

/// Every pair and every single byte from 0xA1 on is a name that opens; no two look the same, and each is
/// found again by what it looks like.
#[test]
fn every_unit_has_a_text_of_its_own() {
    let leads = || (0x81..=0x9F).chain(0xE0..=0xFC);
    let trails = || (0x40..=0x7E).chain(0x80..=0xFC);
    let pairs = leads().flat_map(|lead| trails().map(move |trail| vec![lead, trail]));
    let names: Vec<Vec<u8>> = pairs.chain((0xA1..=0xDF).map(|byte| vec![byte])).collect();
    assert_eq!(names.len(), 60 * 188 + 63);
    let temp = Temp::new();
    let image = temp.at("every.iso");
    let entries: Vec<Wish> = names.iter().map(|name| file(name, 0, 0)).collect();
    sparse(&image, &entries, END);
    let paths = done("tree", &image, &["--paths"]);
    let lines: Vec<&str> = paths.lines().collect();
    assert_eq!(lines.len(), names.len() + 1);
    let mut different = lines.clone();
    different.sort();
    different.dedup();
    assert_eq!(different.len(), lines.len());
    let of = |name: &[u8]| lines[1 + names.iter().position(|known| known == name).unwrap()];
    // The first and last of each part of the table, and what it has twice.
    for (name, text) in [
        (b"\x81\x40", "/\u{3000}"),
        (b"\x81\x5f", "/＼"),
        (b"\x81\x60", "/～"),
        (b"\x81\x7c", "/－"),
        (b"\x81\x91", "/￠"),
        (b"\x82\xa0", "/あ"),
        (b"\x84\xbe", "/╂"),
        (b"\x87\x40", "/①"),
        (b"\x88\x9f", "/亜"),
        (b"\x98\x72", "/腕"),
        (b"\x98\x9f", "/弌"),
        (b"\xea\xa4", "/熙"),
        (b"\xfa\x40", "/ⅰ"),
        (b"\xfc\x4b", "/黑"),
        (b"\x81\xca", "/￢"),
        (b"\x87\x90", r"/\x87\x90"),
        (b"\x81\xe0", "/≒"),
        (b"\xee\xef", r"/\xee\xef"),
        (b"\xfc\xfc", r"/\xfc\xfc"),
    ] {
        assert_eq!(of(name), text, "{name:x?}");
    }
    for (name, text) in [(0xA1, "/｡"), (0xB1, "/ｱ"), (0xDF, "/ﾟ")] {
        assert_eq!(of(&[name]), text);
    }
    // A list of all of them: none is unknown.
    let list = temp.write("list.txt", paths.replacen("/\n", "", 1).as_bytes());
    let copy = temp.at("copy.iso");
    fs::copy(&image, &copy).unwrap();
    let told =
        json("compare", &image, &[copy.to_str().unwrap(), "--given", list.to_str().unwrap()]);
    assert_eq!(told.at("unknown").list().len(), 0);
    assert_eq!(told.at("files").list().len(), names.len());
    for (file, name) in told.at("files").list().iter().zip(&names) {
        assert_eq!(file.at("path_bytes").text(), hex(&[b"/", &name[..]].concat()));
        assert!(file.at("given").flag(), "{name:x?}");
    }
}

#[test]
fn without_cp932_there_are_only_escapes() {
    let temp = Temp::new();
    let image = master(&temp);
    // A module that is not there, in the place of the system's own.
    let modules = "module CP932// INTERNAL NONE 1\nmodule INTERNAL CP932// NONE 1\n";
    temp.write("gconv-modules", modules.as_bytes());
    let run = |args: &[&str]| -> Run {
        let mut command = program();
        command.env("GCONV_PATH", temp.at("")).arg(args[0]).arg(&image).args(&args[1..]);
        command.output().unwrap().into()
    };
    let paths = run(&["tree", "--paths"]);
    let escaped: String = PATHS.iter().map(|(_, escaped)| format!("{escaped}\n")).collect();
    assert_eq!((paths.status, paths.out), (0, escaped));
    assert_eq!(run(&["find", r"\x95\x5c.bin"]).status, 0);
    // What is written then is said.
    let (said, out) = ("iconv has no CP932: names are written with \\xHH", temp.at("out"));
    let extracted = run(&["extract", "--all", out.to_str().unwrap()]);
    assert_eq!((extracted.status, extracted.err.contains(said)), (0, true), "{}", extracted.err);
    assert!(below(&out) == wanted(&image, |number| PATHS[number].1.into()));
    let hashed = run(&["hash"]);
    assert_eq!((hashed.status, hashed.err.contains(said)), (0, true), "{}", hashed.err);
    let raw = run(&["hash", "--bytes"]);
    assert_eq!((raw.status, raw.err.as_str()), (0, ""));
    let refused = run(&["find", "表.bin"]);
    assert_eq!(refused.status, 64);
    assert!(refused.err.contains("this system's iconv has no CP932"), "{}", refused.err);
    assert!(refused.err.contains("表 (U+8868)"), "{}", refused.err);
}

// Taken -----------------------------------------------------------------------------------

#[test]
fn a_character_that_shift_jis_does_not_have_is_an_error_in_words() {
    let temp = Temp::new();
    let image = master(&temp);
    let before = State::of(&image);
    for (path, named) in [
        ("/caf\u{e9}", "é (U+00E9)"),
        ("/\u{20b9f}る", "\u{20b9f} (U+20B9F)"),
        // They would become \ and ~.
        ("/\u{a5}100", "¥ (U+00A5)"),
        ("/\u{203e}", "‾ (U+203E)"),
        ("/\u{a0}", "(U+00A0)"),
        ("/\u{80}", "(U+0080)"),
        // A character and its mark, where there is one character for both.
        ("/か\u{3099}", "(U+3099)"),
        // A tag, which iconv passes over.
        ("/\u{e0041}", "(U+E0041)"),
    ] {
        for command in ["find", "cat", "add", "mkdir"] {
            let run = on(command, &image, &[path]);
            assert_eq!((run.status, run.out.as_str()), (64, ""), "{path}: {}", run.err);
            assert!(run.err.contains(named) && run.err.contains("Shift-JIS"), "{}", run.err);
        }
        assert_eq!(on("move", &image, &[path, "0x90000"]).status, 64);
    }
    for path in [&b"/\x95\x5c.bin"[..], b"/\xff", b"/\xe8\xa1"] {
        let run = within("C.UTF-8", "find", &image, &[path]);
        assert_eq!(run.status, 64);
        assert!(run.err.contains("--bytes") && run.err.contains("\\xHH"), "{}", run.err);
    }
    let run = within("C.UTF-8", "find", &image, &[b"/\x95\x5c.bin"]);
    assert!(run.err.contains(r#""/\x95\.bin" is no UTF-8"#), "{}", run.err);
    let told = on("find", &image, &["\u{a5}", "--json"]);
    assert_eq!(Json::read(&told.out).at("status").number(), 64);
    assert_eq!(State::of(&image), before);
    // The wave dash is one that the table has under another number.
    let out = accepted(&image, &["add", "/あ\u{301c}ん"]);
    assert!(out.contains("added /あ～ん as entry 10"), "{out}");
    assert_eq!(Table::of(&image).entries[10].bytes, b"/\x82\xa0\x81\x60\x82\xf1");
}

#[test]
fn a_backslash_cuts_where_it_is_no_trail_byte_and_no_escape() {
    let temp = Temp::new();
    let image = master(&temp);
    for path in [r"ソース\十", r"\ソース\\十", r"ソース/.\十", r"表.bin\..\ソース\十"]
    {
        let found = on("find", &image, &[path]);
        match path.contains("..") {
            // A file is no folder.
            true => assert_eq!(found.status, 17, "{path}"),
            false => assert!(found.out.starts_with("path              /ソース/十\n"), "{path}"),
        }
    }
    // `\x41` is below 0x80: entry x41 of folder a. Behind a lead byte it is a trail byte.
    accepted(&image, &["mkdir", r"a\x41"]);
    accepted(&image, &["mkdir", r"\x82\x41b\x7e"]);
    accepted(&image, &["mkdir", r"\x81A"]);
    let bytes: Vec<Vec<u8>> = (10..15).map(|number| bytes_of(&image, number)).collect();
    assert_eq!(bytes[..2], [b"/a/".to_vec(), b"/a/x41/".to_vec()]);
    assert_eq!(bytes[2..4], [b"/\x82\x41b/".to_vec(), b"/\x82\x41b/x7e/".to_vec()]);
    // 0x81 0x41 is a comma.
    assert_eq!(bytes[4], b"/\x81\x41/");
    assert!(done("tree", &image, &["--paths"]).ends_with("/、/\n"));
    // A backslash of the terminal's own code, and one that is a trail byte there.
    let run = within(SJIS, "find", &image, &[b"\x83\x5c\x81\x5b\x83\x58\\\x8f\x5c"]);
    assert!(run.out.contains("entry             3\n"), "{}{}", run.out, run.err);
    let run = within(SJIS, "find", &image, &[b"\x83\x5c\\x81\\x5b\x83\x58/\\x8f\x5c"]);
    assert!(run.out.contains("entry             3\n"), "{}{}", run.out, run.err);
    // With --bytes there are no escapes.
    let run = within("C.UTF-8", "find", &image, &[b"--bytes", b"\\x82\\x41b"]);
    assert_eq!(run.status, 18, "{}", run.err);
    let run = within("C.UTF-8", "find", &image, &[b"--bytes", b"a\\x41"]);
    assert_eq!(run.status, 0, "{}", run.err);
}

/// An escaped lead byte and half of a character make no pair that anyone means: 0x81 0x95 is one, and the
/// 0x5C of 表 would cut the path.
#[test]
fn a_character_behind_an_escaped_lead_byte_is_an_error() {
    let temp = Temp::new();
    let image = master(&temp);
    let before = State::of(&image);
    let lead = r"\x81 is a lead byte: give its trail byte as \xHH too";
    for path in [r"/\x81表", r"/\x81表x", r"/\x81ｱ", r"/a\x81あ/b"] {
        for command in ["find", "add", "mkdir"] {
            let run = on(command, &image, &[path]);
            assert_eq!((run.status, run.out.as_str()), (64, ""), "{path}: {}", run.err);
            assert!(run.err.contains(lead), "{}", run.err);
        }
        let list = temp.write("list.txt", path.as_bytes());
        let args = [image.to_str().unwrap(), "--given", list.to_str().unwrap()];
        let copy = temp.at("copy.iso");
        fs::copy(&image, &copy).unwrap();
        let run = on("compare", &copy, &args);
        assert_eq!(run.status, 65, "{path}: {}", run.out);
        assert!(run.err.contains("line 1: ") && run.err.contains(lead), "{}", run.err);
    }
    let run = within(SJIS, "find", &image, &[b"\\x81\x95\x5c"]);
    assert_eq!(run.status, 64, "{}", run.out);
    assert!(run.err.contains(r"give its trail byte as \xHH too"), "{}", run.err);
    assert_eq!(State::of(&image), before);
    // A sign that can be the trail byte is it, a backslash too.
    accepted(&image, &["mkdir", r"\x81\b"]);
    assert_eq!(bytes_of(&image, 10), b"/\x81\x5cb/");
    // Behind a lead byte that has its trail byte a character is one by itself.
    accepted(&image, &["mkdir", r"\x81\x81表"]);
    assert_eq!(bytes_of(&image, 11), b"/\x81\x81\x95\x5c/");
}

#[test]
fn a_locale_of_another_code_takes_escapes_alone() {
    let temp = Temp::new();
    let image = master(&temp);
    for locale in ["ja_JP.eucJP", "de_DE.ISO-8859-15@euro"] {
        for (path, status) in [(&b"/\x95\x5c.bin"[..], 64), (br"/\x95\x5c.bin", 0), (b"plain", 0)] {
            let run = within(locale, "find", &image, &[path]);
            assert_eq!(run.status, status, "{locale} {path:x?}: {}", run.err);
            assert!(status == 0 || run.err.contains("neither UTF-8 nor Shift-JIS"), "{}", run.err);
        }
        assert_eq!(within(locale, "find", &image, &[b"/\x95\x5c.bin", b"--bytes"]).status, 0);
    }
}

/// The names of the system's own files are not the image's: they are not turned into Shift-JIS.
#[test]
fn names_of_the_system_s_files_are_told_by_their_bytes() {
    let temp = Temp::new();
    let image = master(&temp);
    let other = temp.at("表.iso");
    fs::copy(&image, &other).unwrap();
    let bytes = r"/\xe8\xa1\xa8.iso";
    let run = within(SJIS, "check", &other, &[]);
    assert!(run.out.contains(&format!("{bytes}: opens")), "{}", run.out);
    assert!(within("C.UTF-8", "check", &other, &[]).out.contains("/表.iso: opens"));
    let run = within(SJIS, "check", &temp.at("無.iso"), &[]);
    assert!(run.err.contains(r"/\xe7\x84\xa1.iso: no such file"), "{}", run.err);
    let run = within("C.UTF-8", "check", &temp.at("").join(OsStr::from_bytes(b"\x96\xb3")), &[]);
    assert!(run.err.contains(r"/\x96\xb3: no such file"), "{}", run.err);
}

/// What a terminal obeys instead of showing it: ends of lines, an escape, controls of eight bits, marks and
/// controls of the direction of writing.
const OBEYED: [char; 22] = [
    '\n', '\r', '\t', '\u{7}', '\u{1b}', '\u{7f}', '\u{85}', '\u{9b}', '\u{61c}', '\u{200e}',
    '\u{200f}', '\u{2028}', '\u{2029}', '\u{202a}', '\u{202b}', '\u{202c}', '\u{202d}', '\u{202e}',
    '\u{2066}', '\u{2067}', '\u{2068}', '\u{2069}',
];

/// That nothing in an answer is obeyed but the ends of its lines, as many as there are to be.
fn is_harmless(what: &str, text: &str, lines: Option<usize>) {
    let found = text.chars().find(|c| *c != '\n' && OBEYED.contains(c));
    assert_eq!(found, None, "{what}: {text:?}");
    if let Some(lines) = lines {
        assert_eq!(text.lines().count(), lines, "{what}: {text:?}");
    }
}

#[test]
fn nothing_that_came_from_elsewhere_is_obeyed() {
    let temp = Temp::new();
    let image = master(&temp);
    for obeyed in OBEYED {
        let odd = format!("x{obeyed}[2Jx");
        let told: String = obeyed.to_string().bytes().map(|b| format!("\\x{b:02x}")).collect();
        let told = format!("x{told}[2Jx");
        let disc = temp.at(&odd);
        fs::copy(&image, &disc).unwrap();
        let other = temp.at(&format!("other{odd}"));
        fs::copy(&image, &other).unwrap();
        let missing = format!("{}/none{odd}", temp.at("").display());
        let clip = temp.write(&format!("clip{odd}"), b"clip");
        let list = temp.write(&format!("list{odd}"), b"../\n");
        let same = temp.write(&format!("same{odd}"), b"/plain\n");
        let words = |path: &Path| path.to_str().unwrap().to_string();
        let new = |end: &str| words(&temp.at(&format!("new{odd}{end}")));
        let (disc, clip, list, same) = (words(&disc), words(&clip), words(&list), words(&same));
        let other = words(&other);
        let (svg, page) = (new(".svg"), new(".html"));
        let totals = new(".totals");
        let sized = words(&temp.write(&format!("sized{odd}"), b"/plain 1\n"));
        let folder = temp.at(&format!("folder{odd}"));
        fs::create_dir(&folder).unwrap();
        fs::write(folder.join(&odd), b"").unwrap();
        let (folder, master) = (words(&folder), new(".iso"));
        let wish =
            |out, from, source| vec!["new", out, "--size", "1M", "--code", "GCTE", from, source];
        // The command line, whether it is told, and how many lines standard error has.
        let lines: Vec<(Vec<&str>, bool, usize)> = vec![
            (vec![&odd], true, 1),
            (vec!["help", &odd], true, 1),
            (vec!["find", &disc, &odd], true, 1),
            (vec!["place", &disc, &odd], true, 1),
            (vec!["check", &missing], true, 1),
            (vec!["check", &disc], true, 0),
            (vec!["info", &disc], false, 0),
            (vec!["compare", &disc, &missing], true, 1),
            (vec!["compare", &disc, &disc, "--given", &list], true, 1),
            (vec!["compare", &disc, &disc, "--given", &missing], true, 1),
            (vec!["compare", &disc, &disc, "--given", &same], true, 1),
            (vec!["map", &disc, &svg], true, 0),
            (vec!["map", &disc, &svg], true, 1),
            (vec!["report", &disc, &other, "--given", &same, &page], false, 0),
            (vec!["hash", &disc], false, 0),
            (vec!["fill", &disc, "plain", &clip], true, 0),
            (vec!["fill", &disc, "plain", &missing], true, 1),
            (vec!["fill", &disc, "plain", "--from", &disc], true, 1),
            (vec!["fill", &disc, "plain", &clip, "--size", &odd], true, 1),
            (vec!["extract", &disc, "plain", &clip], true, 1),
            (vec!["dol", &disc, "--out", &clip], true, 1),
            (vec!["rewrite", &disc, "--record", &totals], false, 0),
            (vec!["record", &disc, "--record", &totals], true, 1),
            (vec!["record", &disc, "--record", &totals, "--force"], true, 0),
            (vec!["record", &totals], false, 0),
            (vec!["record", &totals, "--record", &clip], true, 1),
            (vec!["record", &disc, "--teams", &missing], true, 1),
            (vec!["record", &disc, "--teams", &list], true, 1),
            (vec!["rewrite", &disc, "--record", &totals, "--team", &odd], true, 1),
            (vec!["rewrite", &disc, "--record", &clip], true, 1),
            (vec!["recover", &missing], true, 1),
            (vec!["maximum", &disc, &odd], true, 1),
            (wish(&disc, "--from", &sized), true, 1),
            (wish(&master, "--from", &missing), true, 1),
            (wish(&master, "--from", &list), true, 1),
            (wish(&master, "--from-dir", &missing), true, 1),
            (wish(&master, "--from-dir", &folder), true, 1),
            (wish(&master, "--from", &sized), true, 0),
        ];
        for (args, tells, count) in lines {
            let run = run(&args);
            let what = format!("{obeyed:?} {args:?}");
            is_harmless(&what, &run.out, None);
            is_harmless(&what, &run.err, Some(count));
            let text = [&run.out[..], &run.err].concat();
            assert!(!tells || text.contains(&told), "{what}: {text}");
        }
        // An option, and the files that are written.
        let option = format!("--{odd}");
        let run = run(&["check", &disc, &option]);
        is_harmless(&option, &run.err, Some(1));
        assert!(run.err.contains(&format!("has no option --{told}")), "{}", run.err);
        for file in [&svg, &page] {
            is_harmless(file, &fs::read_to_string(file).unwrap(), None);
        }
        for file in [&disc, &other] {
            fs::remove_file(file).unwrap();
        }
    }
}

// Edits -----------------------------------------------------------------------------------

#[test]
fn edits_take_names_and_keep_their_bytes() {
    let temp = Temp::new();
    let image = master(&temp);
    let out = accepted(&image, &["mkdir", "能力/表示"]);
    assert!(out.starts_with("made /能力/ as entry 10\nmade /能力/表示/ as entry 11\n"), "{out}");
    let out = accepted(&image, &["add", "能力/表示/予定.txt"]);
    assert!(out.starts_with("added /能力/表示/予定.txt as entry 12\n"), "{out}");
    // A name is cut off at the last /; 0x5C in it is a trail byte.
    let out = accepted(&image, &["add", "/能力/噂"]);
    assert!(out.starts_with("added /能力/噂 as entry 13\n"), "{out}");
    let table = Table::of(&image);
    let wanted: [&[u8]; 4] = [
        b"/\x94\x5c\x97\xcd",
        b"/\x94\x5c\x97\xcd/\x95\x5c\x8e\xa6",
        b"/\x94\x5c\x97\xcd/\x95\x5c\x8e\xa6/\x97\x5c\x92\xe8.txt",
        b"/\x94\x5c\x97\xcd/\x89\x5c",
    ];
    for (entry, bytes) in table.entries[10..].iter().zip(wanted) {
        assert_eq!(entry.bytes, bytes);
    }
    let bytes = span(&image, 0x6_0000, 0x1960);
    let out = accepted(&image, &["move", "/表.bin", "0x180000"]);
    assert!(out.contains("moved /表.bin: 0x60000 -> 0x180000, 6,496 bytes"), "{out}");
    assert_eq!(span(&image, 0x18_0000, 0x1960), bytes);
    let out = accepted(&image, &["resize", "ソース/十", "0x100"]);
    assert!(out.contains("resized /ソース/十: 291 -> 256 bytes"), "{out}");
    let clip = clip(0x2345, 9);
    let from = temp.write("clip.bin", &clip);
    let wanted = filled(&image, b"/\x83\x5c\x81\x5b\x83\x58/\xb1\xb2\xb3", &clip);
    let out = accepted(&image, &["fill", "ソース/ｱｲｳ", from.to_str().unwrap()]);
    assert!(out.contains("filled /ソース/ｱｲｳ with "), "{out}");
    assert!(fs::read(&image).unwrap() == wanted);
    assert_eq!(on("cat", &image, &["ソース/ｱｲｳ"]).bytes, clip);
    // The old names stay where they were, byte for byte.
    assert_eq!(bytes_of(&image, 5), b"/\xed\x40");
    assert_eq!(bytes_of(&image, 6), b"/\xfa\x5c");
    // An edit in bytes, and its answer.
    let run = within("C.UTF-8", "mkdir", &image, &[b"--bytes", b"\x8f\x5c\\\x95\x5c"]);
    assert!(
        run.bytes
            .starts_with(b"made /\x8f\x5c/ as entry 14\nmade /\x8f\x5c/\x95\x5c/ as entry 15\n")
    );
    let run = within("C.UTF-8", "mkdir", &image, &[b"--bytes", b"\xb1", b"--dry-run"]);
    assert!(run.bytes.starts_with(b"dry run: made /\xb1/ as entry 16\ndry run: table: "));
    let run = within(SJIS, "add", &image, &[b"\x8f\x5c/\xdf"]);
    assert!(run.out.starts_with("added /\\x8f\\x5c/\\xdf as entry 16\n"), "{}", run.out);
    assert_eq!(on("list", &image, &[]).bytes, Table::of(&image).listing_bytes());
}

#[test]
fn refusals_name_the_byte_or_the_lead_byte() {
    let temp = Temp::new();
    let image = master(&temp);
    let stray = "name byte (a lead byte 0x81 without its trail byte)";
    let cases: [(&[&str], i32, &str); 16] = [
        (&["add", r"a\x81"], 12, stray),
        (&["add", r"\x81.bin"], 12, stray),
        (&["add", r"表\xfc"], 12, "name byte (a lead byte 0xfc without its trail byte)"),
        (&["add", r"\x80"], 12, "name byte (the byte 0x80)"),
        (&["add", r"\xa0"], 12, "name byte (the byte 0xa0)"),
        (&["add", r"ｱ\xfd"], 12, "name byte (the byte 0xfd)"),
        (&["add", "a\tb"], 12, "name byte (the byte 0x09)"),
        // Insert tests 13 before 12.
        (&["add", r"\x81:"], 13, "unsafe or empty name (it holds :)"),
        (&["add", r"\x81\x81\b"], 13, r"unsafe or empty name (it holds \)"),
        (&["add", "ソース/"], 13, "unsafe or empty name (it is empty)"),
        (&["mkdir", r"new/\x81/表"], 12, stray),
        (&["mkdir", r"new/\x81:/b"], 13, "unsafe or empty name (it holds :)"),
        (&["mkdir", r"表.bin/x"], 17, "/x: refused 17: directory wanted"),
        (&["find", r"表.bin\x"], 17, "(/表.bin is a file)"),
        (&["find", r"ソース/\x81/十"], 18, r"ソース/\x81/十: refused 18: not found"),
        (&["move", r"ソース\x81", "0x90000"], 18, r"ソース\x81: refused 18: not found"),
    ];
    for (args, number, words) in cases {
        match args[0] {
            "find" => assert_eq!(on("find", &image, &args[1..]).status, number, "{args:?}"),
            _ => refused(&image, args, number),
        }
        let run = on(args[0], &image, &args[1..]);
        assert!(run.err.contains(words), "{args:?}: {}", run.err);
    }
    // A stray lead byte counts for itself: what follows is looked at anew.
    refused(&image, &["mkdir", r"\x81//.."], 12);
    let run = within(SJIS, "add", &image, &[b"\x95\x5c/x"]);
    assert_eq!(run.err, "counter: \\x95\\x5c: refused 18: not found\n");
    let told = Json::read(&on("add", &image, &["表\\x81", "--json"]).out);
    assert_eq!(told.at("about").text(), "add 表\\x81");
    assert_eq!(told.at("refused").number(), 12);
}

#[test]
fn an_image_with_a_wrong_name_is_refused_in_words() {
    let temp = Temp::new();
    let cases: [(&[u8], i32, &str); 12] = [
        (b"a\x81", 12, r#"entry 1 is called "a\x81": a lead byte 0x81 without its trail byte)"#),
        (b"\x81\x3a", 12, r#"entry 1 is called "\x81:": a lead byte 0x81 without its trail byte)"#),
        (b"\x95\x5c\xfd", 12, r#"entry 1 is called "表\xfd": the byte 0xfd)"#),
        (b"\x95\x5c\x1f", 12, r#"entry 1 is called "表\x1f": the byte 0x1f)"#),
        (b"\xa0", 12, r#"entry 1 is called "\xa0": the byte 0xa0)"#),
        (b"\x7f", 12, r#"entry 1 is called "\x7f": the byte 0x7f)"#),
        (b"\x81\x7f", 12, r#"entry 1 is called "\x81\x7f": a lead byte 0x81"#),
        (b"\x81\x81\x5c", 13, r#"entry 1 is called "＝\": it holds \)"#),
        (b"\x95\x5c:", 13, r#"entry 1 is called "表:": it holds :)"#),
        (b"\xb1/", 13, r#"entry 1 is called "ｱ/": it holds /)"#),
        (b"..", 13, r#"entry 1 is called "..")"#),
        (b"\x95\x5c\x5c\xff", 12, r#"entry 1 is called "表\\xff": the byte 0xff)"#),
    ];
    for (name, number, words) in cases {
        let image = temp.at("wrong.iso");
        sparse(&image, &[file(name, 0x6_0000, 5)], END);
        let run = on("check", &image, &[]);
        assert_eq!(run.status, number, "{name:x?}: {}", run.err);
        assert!(run.err.contains(words), "{words}: {}", run.err);
        assert_eq!(on("list", &image, &[]).out, format!("refused {number}\n"));
        fs::remove_file(&image).unwrap();
    }
    // A name that begins in the midst of another's pair is cut from its own start.
    let image = temp.at("shared.iso");
    sparse(&image, &[file(b"\x81\x81\x5c", 0x6_0000, 5), file("b", 0x7_0000, 6)], END);
    let mut bytes = fs::read(&image).unwrap();
    put(&mut bytes, FST + 12, 1);
    put(&mut bytes, FST + 24, 4);
    fs::write(&image, &bytes).unwrap();
    assert_eq!(done("tree", &image, &["--paths"]), "/\n/―\n/b\n");
    put(&mut bytes, FST + 24, 0);
    fs::write(&image, &bytes).unwrap();
    let run = on("check", &image, &[]);
    assert_eq!(run.status, 13);
    assert!(run.err.contains(r#"entry 2 is called "＝\": it holds \)"#), "{}", run.err);
    // A long name is cut between its characters.
    fs::remove_file(&image).unwrap();
    sparse(
        &image,
        &[file([b"a".to_vec(), b"\x95\x5c".repeat(40), b":".to_vec()].concat(), 0, 0)],
        END,
    );
    let run = on("check", &image, &[]);
    assert!(run.err.contains(&format!("\"a{}...\": it holds :", "表".repeat(29))), "{}", run.err);
}

#[test]
fn an_edit_that_was_cut_is_finished_with_the_image_s_bytes() {
    let temp = Temp::new();
    let image = master(&temp);
    let after = temp.at("after.iso");
    fs::copy(&image, &after).unwrap();
    done("move", &after, &["表.bin", "0x180000"]);
    let Some(shim) = Shim::get() else { return };
    let mut command = program();
    command.args(["move", image.to_str().unwrap(), "表.bin", "0x180000"]);
    shim.at(&mut command, image_write(2), Do::From(FULL));
    let cut = Run::from(command.output().unwrap());
    assert_eq!(cut.status, 78, "{}", cut.err);
    assert!(cut.err.contains("(move 表.bin to 0x180000)"), "{}", cut.err);
    let told = within(SJIS, "check", &image, &[]);
    assert_eq!(told.status, 78);
    assert!(told.err.contains(r"(move \x95\x5c.bin to 0x180000)"), "{}", told.err);
    let told = within(SJIS, "recover", &image, &[]);
    assert_eq!(told.status, 0, "{}", told.err);
    assert!(told.out.contains(r"cut: move \x95\x5c.bin to 0x180000"), "{}", told.out);
    assert!(fs::read(&image).unwrap() == fs::read(&after).unwrap());
}

// Out of the image ------------------------------------------------------------------------

/// Files below a folder with their bytes, sorted.
fn below(folder: &Path) -> Vec<(Vec<u8>, Vec<u8>)> {
    let mut found = Vec::new();
    for entry in fs::read_dir(folder).unwrap() {
        let path = entry.unwrap().path();
        let name = path.file_name().unwrap().as_bytes().to_vec();
        match path.is_dir() {
            false => found.push((name, fs::read(path).unwrap())),
            true => found.extend(
                below(&path)
                    .into_iter()
                    .map(|(below, bytes)| ([&name, &b"/"[..], &below].concat(), bytes)),
            ),
        }
    }
    found.sort();
    found
}

fn wanted(image: &Path, name: impl Fn(usize) -> Vec<u8>) -> Vec<(Vec<u8>, Vec<u8>)> {
    let files = Table::of(image).entries.into_iter().enumerate().filter(|(_, entry)| !entry.folder);
    let mut files: Vec<_> = files
        .map(|(number, entry)| {
            (name(number)[1..].to_vec(), span(image, entry.offset.into(), entry.size.into()))
        })
        .collect();
    files.sort();
    files
}

#[test]
fn extract_writes_utf_8_names_or_the_bytes() {
    let temp = Temp::new();
    let image = master(&temp);
    for (i, locale) in ["C.UTF-8", "C", SJIS].into_iter().enumerate() {
        let out = temp.at(&format!("out{i}"));
        let run = within(locale, "extract", &image, &[b"--all", out.as_os_str().as_bytes()]);
        assert_eq!(run.status, 0, "{}", run.err);
        assert!(below(&out) == wanted(&image, |number| PATHS[number].0.into()), "{locale}");
        let (_, escaped) = PATHS[3];
        match locale == SJIS {
            true => assert!(run.out.contains(&format!("{escaped} -> ")), "{}", run.out),
            false => assert!(run.out.contains("/ソース/十 -> "), "{}", run.out),
        }
        assert!(locale != SJIS || run.out.is_ascii());
    }
    let out = temp.at("raw");
    let run =
        within("C.UTF-8", "extract", &image, &[b"--all", out.as_os_str().as_bytes(), b"--bytes"]);
    assert_eq!(run.status, 0, "{}", run.err);
    assert!(below(&out) == wanted(&image, |number| bytes_of(&image, number)));
    // One file, into a folder.
    let told = json("extract", &image, &["表.bin", temp.at("").to_str().unwrap()]);
    let file = &told.at("files").list()[0];
    assert_eq!(file.at("path_bytes").text(), hex(b"/\x95\x5c.bin"));
    let path = temp.at("表.bin");
    assert_eq!(fs::read(&path).unwrap(), span(&image, 0x6_0000, 0x1960));
    assert!(file.at("file").text().ends_with("/表.bin"));
    assert!(hex(path.as_os_str().as_bytes()).ends_with(&hex("/表.bin".as_bytes())));
    assert!(file.at("file_bytes").text().ends_with(&hex("/表.bin".as_bytes())));
}

/// A file system takes 255 bytes; in UTF-8 a half-width katakana has three, as an escape a pair has eight.
#[test]
fn a_name_too_long_for_a_file_is_refused_before_anything_is_written() {
    let temp = Temp::new();
    for (name, has, fits) in [
        (b"\xb1".repeat(85), 255, true),
        (b"\xb1".repeat(86), 258, false),
        (b"\x81\xad".repeat(31), 248, true),
        (b"\x81\xad".repeat(32), 256, false),
    ] {
        let image = temp.at("long.iso");
        sparse(&image, &[file("first", 0x6_0000, 5), file(&name, 0x7_0000, 6)], END);
        let out = temp.at("out");
        let (words, name) = (["--all", out.to_str().unwrap()], name.len());
        let run = on("extract", &image, &words);
        match fits {
            true => assert_eq!(run.status, 0, "{}", run.err),
            false => {
                assert_eq!((run.status, out.exists()), (73, false), "{}", run.err);
                let told = format!("it has {has} bytes, and 255 are the most; nothing was written");
                assert!(run.err.contains(&told), "{}", run.err);
                assert!(run.err.contains(&format!("with --bytes it has {name})")), "{}", run.err);
                done("extract", &image, &[&words[..], &["--bytes"]].concat());
            }
        }
        assert_eq!(fs::read_dir(&out).unwrap().count(), 2);
        fs::remove_dir_all(&out).unwrap();
        fs::remove_file(&image).unwrap();
    }
}

/// Two entries of one name: refused, or told apart by a number that makes no third one of it.
#[test]
fn two_entries_that_would_be_one_file() {
    let temp = Temp::new();
    let image = temp.at("double.iso");
    let (name, third) = (b"\x95\x5c", b"\x95\x5c~2");
    sparse(&image, &[file(name, 0x6_0000, 5), file(name, 0x7_0000, 6), file(third, 0, 0)], END);
    let out = temp.at("out");
    let words = ["--all", out.to_str().unwrap()];
    for more in [&[][..], &["--bytes"]] {
        let run = on("extract", &image, &[&words[..], more].concat());
        assert_eq!((run.status, out.exists()), (73, false), "{}", run.err);
        let told = "/表: entries 1 and 2 would be one file, ";
        assert!(run.err.contains(told), "{}", run.err);
        let shown = if more.is_empty() { "/out/表;" } else { r"/out/\x95\;" };
        assert!(run.err.contains(shown), "{}", run.err);
    }
    done("extract", &image, &[&words[..], &["--number"]].concat());
    let names: Vec<_> = below(&out).into_iter().map(|(name, bytes)| (name, bytes.len())).collect();
    let wanted = [("表", 5), ("表~2", 0), ("表~2~2", 6)];
    assert_eq!(names, wanted.map(|(name, size)| (name.as_bytes().to_vec(), size)));
}

#[test]
fn a_manifest_is_held_by_sha256sum_and_by_compare() {
    let temp = Temp::new();
    let image = master(&temp);
    for (options, name) in [(&[][..], "text"), (&["--bytes"][..], "raw")] {
        let manifest = temp.write(&format!("{name}.sums"), &on("hash", &image, options).bytes);
        let files = temp.at(name);
        done("extract", &image, &[&["--all", files.to_str().unwrap()], options].concat());
        let held = Command::new("sha256sum")
            .args(["--check", "--strict", "--quiet", manifest.to_str().unwrap()])
            .current_dir(&files)
            .output();
        let held = Run::from(held.expect("sha256sum"));
        assert_eq!((held.status, held.out.as_str()), (0, ""), "{}", held.err);
        // The lines are sha256sum's own.
        for path in fs::read_dir(&files).unwrap().map(|entry| entry.unwrap().path()) {
            if path.is_dir() {
                continue;
            }
            let name = path.file_name().unwrap();
            let own = Command::new("sha256sum").arg(name).current_dir(&files).output();
            let (own, text) = (own.unwrap().stdout, fs::read(&manifest).unwrap());
            assert!(text.windows(own.len()).any(|part| part == own), "{name:?}");
        }
        // It says by itself how its names are written.
        for more in [&[][..], &["--bytes"]] {
            let args = [&[image.to_str().unwrap(), "--json"][..], more].concat();
            let told = Json::read(&done("compare", &manifest, &args));
            assert!(told.at("passed").flag());
            let files = told.at("files").list();
            assert_eq!(files.len(), 8);
            assert!(files.iter().all(|file| file.at("status").text() == "unchanged"));
            assert_eq!(files[0].at("path_bytes").text(), hex(b"/\x95\x5c.bin"));
            assert_eq!(files[3].at("path_bytes").text(), hex(b"/\xed\x40"));
        }
    }
    let text = fs::read_to_string(temp.at("text.sums")).unwrap();
    assert!(text.contains("\n# folder ソース/\n") && text.contains("  ソース/ｱｲｳ\n"), "{text}");
    let raw = fs::read(temp.at("raw.sums")).unwrap();
    assert!(raw.starts_with(b"# counter manifest 2\n# names bytes\n"));
    // A manifest is UTF-8 whatever the terminal.
    assert_eq!(within(SJIS, "hash", &image, &[]).out, text);
    // One that names what no image can have is none.
    for (from, to) in [("ソース", "ソ:ス"), ("表.bin", "caf\u{e9}"), (r"\\x82\\x40", r"\\x82\x40")]
    {
        let spoiled = text.replace(from, to);
        let end = spoiled.find("# sum of the lines above").unwrap();
        let lines = temp.write("lines", &spoiled.as_bytes()[..end]);
        let sum = Command::new("sha256sum").arg(&lines).output().expect("sha256sum");
        let sum = String::from_utf8(sum.stdout).unwrap()[..64].to_string();
        let last = format!("{}# sum of the lines above {sum}\n", &spoiled[..end]);
        let manifest = temp.write("spoiled.sums", last.as_bytes());
        let run = on("compare", &manifest, &[image.to_str().unwrap()]);
        assert_eq!(run.status, 65, "{to}: {}", run.err);
        assert!(run.err.contains("is none of a manifest"), "{to}: {}", run.err);
    }
}

#[test]
fn compare_and_report_take_a_list_and_tell_names() {
    let temp = Temp::new();
    let before = master(&temp);
    let after = temp.at("after.iso");
    fs::copy(&before, &after).unwrap();
    done("move", &after, &["表.bin", "0x180000"]);
    done("resize", &after, &["ソース/十", "5"]);
    done("move", &after, &[r"\xed\x40", "0x190000"]);
    let name = after.to_str().unwrap();
    let compare = |list: &[u8], more: &[&str]| {
        let list = temp.write("list.txt", list);
        let args = [&[name, "--given", list.to_str().unwrap()][..], more].concat();
        on("compare", &before, &args)
    };
    let run = compare(b"", &["--only-differences"]);
    assert_eq!(run.status, 1);
    let lines: Vec<&str> = run.out.lines().collect();
    assert_eq!(lines[0], "moved            /表.bin  offset 0x60000 -> 0x180000  [NOT GIVEN]");
    assert_eq!(lines[1], "resized          /ソース/十  size 291 -> 5  [NOT GIVEN]");
    assert_eq!(lines[2], r"moved            /\xed\x40  offset 0x80000 -> 0x190000  [NOT GIVEN]");
    // As text, with separators of both kinds, with a mark at the start and returns, as escapes.
    for list in [
        "/表.bin\n/ソース/十\n\\xed\\x40\n",
        "\u{feff}表.bin\r\n\\ソース\\十\r\n/\\xED\\x40\r\n",
        "\\x95\\x5c.bin\nソース\\\n\\xed@",
        "/ソース/../表.bin\n/\\x83\\x5c\\x81[\\x83X/\n\\xed\\x40",
    ] {
        let run = compare(list.as_bytes(), &[]);
        assert_eq!(run.status, 0, "{list}: {}{}", run.out, run.err);
        assert_eq!(run.err, "", "{list}");
    }
    // The bytes themselves. In them the three bytes of the mark are the start of a name.
    let run = compare(b"\x95\x5c.bin\n\x83\x5c\x81\x5b\x83\x58\\\n\xed\x40\n", &["--bytes"]);
    assert_eq!(run.status, 0, "{}", run.err);
    assert!(run.bytes.starts_with(b"moved            /\x95\x5c.bin  offset "));
    let run = compare(b"\xef\xbb\xbf\x40", &["--bytes", "--json"]);
    let told = Json::read(&run.out);
    assert_eq!(told.at("unknown_bytes").list()[0].text(), "2fefbbbf40");
    // 十 ends in 0x5C: that is no folder.
    let run = compare("ソース/十\n表.bin\n纊/\n\\xed@".as_bytes(), &[]);
    assert_eq!(run.status, 0, "{}", run.out);
    assert!(run.err.contains("the list has /纊/, which neither image has"), "{}", run.err);
    for (list, words) in [
        (&b"a\n\x95\x5c.bin\n"[..], "line 2: \"\\x95\\.bin\" is no UTF-8"),
        ("caf\u{e9}".as_bytes(), "line 1: \"café\": é (U+00E9) has no bytes in Shift-JIS"),
        ("表/..".as_bytes(), "line 1: \"表/..\" leads to the root"),
    ] {
        let run = compare(list, &[]);
        assert_eq!(run.status, 65);
        assert!(run.err.contains(words), "{}", run.err);
    }
    let page = temp.at("report.html");
    let list = temp.write("list.txt", "表.bin\nソース/\n\\xed\\x40\n".as_bytes());
    let args = [name, "--given", list.to_str().unwrap(), page.to_str().unwrap()];
    assert_eq!(on("report", &before, &args).status, 0);
    let page = fs::read_to_string(&page).unwrap();
    for words in ["<code>/表.bin</code>", "<code>/ソース/十</code>", r"<code>/\xed\x40</code>"]
    {
        assert!(page.contains(words), "{words}");
    }
    assert!(page.contains("<li><code>ソース/</code></li>"));
    assert!(page.contains("<title>/表.bin: 0x180000, 6,496 bytes"));
    // Standard output is the terminal's, where it names files.
    let args: [&[u8]; 2] = [name.as_bytes(), b"--only-differences"];
    let run = within(SJIS, "compare", &before, &args);
    assert!(run.out.starts_with(r"moved            /\x95\x5c.bin  offset"), "{}", run.out);
}

#[test]
fn json_has_the_text_and_the_bytes() {
    let temp = Temp::new();
    let image = master(&temp);
    for options in [&[][..], &["--bytes"]] {
        let told = json("list", &image, options);
        for (number, entry) in told.at("entries").list().iter().enumerate() {
            assert_eq!(entry.at("path").text(), PATHS[number].0);
            assert_eq!(entry.at("path_bytes").text(), hex(&bytes_of(&image, number)));
        }
        let told = json("tree", &image, options);
        let root = told.at("children").list();
        assert_eq!((told.at("name").text(), told.at("name_bytes").text()), ("", ""));
        assert_eq!(root[0].at("name").text(), "表.bin");
        assert_eq!(root[0].at("name_bytes").text(), "955c2e62696e");
        let kana = &root[1].at("children").list()[1];
        assert_eq!((kana.at("name").text(), kana.at("name_bytes").text()), ("ｱｲｳ", "b1b2b3"));
        assert_eq!(root[2].at("name").text(), r"\xed\x40");
    }
    let told = json("cat", &image, &["纊"]);
    assert_eq!((told.at("path").text(), told.at("path_bytes").text()), ("/纊", "2ffa5c"));
    let told = json("mkdir", &image, &["能力", "--dry-run"]);
    assert_eq!((told.at("path").text(), told.at("path_bytes").text()), ("能力", "945c97cd"));
    let made = &told.at("entries").list()[0];
    assert_eq!((made.at("path").text(), made.at("path_bytes").text()), ("/能力/", "2f945c97cd2f"));
    assert_eq!(json("rewrite", &image, &["--dry-run"]).at("path_bytes"), &Json::Null);
    let svg = temp.at("map.svg");
    let told = json("map", &image, &[svg.to_str().unwrap()]);
    let named = |name: &str| {
        let mut pieces = told.at("pieces").list().iter();
        pieces.find(|piece| piece.at("name").text() == name).unwrap().at("name_bytes").text()
    };
    assert_eq!(named("/表.bin"), "2f955c2e62696e");
    assert_eq!(named("table"), "7461626c65");
}

#[test]
fn a_map_has_the_text_and_room_for_it() {
    let temp = Temp::new();
    let long = b"\x95\x5c".repeat(60);
    let image = temp.at("long.iso");
    sparse(&image, &[file(&long, 0x10_0000, 0x8_0000), folder(SOURCE, vec![])], END);
    let svg = temp.at("map.svg");
    within(SJIS, "map", &image, &[svg.as_os_str().as_bytes()]);
    let picture = fs::read_to_string(&svg).unwrap();
    assert!(picture.contains(">/ソース/</text>"));
    // Its path would be 720 points wide; 540 are there.
    let cut = picture.split("monospace").find(|part| part.contains("表...")).unwrap();
    let letters = cut.matches('表').count();
    assert!((35..45).contains(&letters), "{letters}: {cut}");
}

#[test]
fn bash_completes_names_as_they_are_typed() {
    let temp = Temp::new();
    let image = master(&temp);
    let program = Path::new(env!("CARGO_BIN_EXE_counter")).parent().unwrap();
    let path = format!("{}:{}", program.display(), std::env::var("PATH").unwrap());
    let offered = |cur: &str| -> String {
        let line = format!(
            "compopt() {{ :; }}; . <(counter help bash); COMP_WORDS=(counter find '{}' '{cur}'); \
             COMP_CWORD=3; _counter; printf '%s\\n' \"${{COMPREPLY[@]}}\"",
            image.display()
        );
        let run = Command::new("bash")
            .args(["--norc", "-c", &line])
            .env("PATH", &path)
            .env("LC_ALL", "C.UTF-8")
            .output()
            .expect("bash");
        assert_eq!(String::from_utf8_lossy(&run.stderr), "");
        String::from_utf8_lossy(&run.stdout).into_owned()
    };
    assert_eq!(offered("/表"), "/表.bin\n");
    assert_eq!(offered("/ソース/"), "/ソース/\n/ソース/十\n/ソース/ｱｲｳ\n");
    // An escape as the shell has it, whole and in its midst.
    for typed in [r"/\x8", r"/\\x8"] {
        assert_eq!(offered(typed), "/\\\\x81\\\\xad.\n/\\\\x82\\\\x40\n");
    }
}
