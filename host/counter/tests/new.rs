//! `new`: masters from a list and from a folder, held to images that are put together here.

mod support;

use std::fs::{self, File};
use std::os::unix::ffi::OsStrExt;
use std::os::unix::fs::symlink;
use std::path::{Path, PathBuf};
use std::process::{Child, Command, Stdio};
use support::*;

const SIGBUS: i32 = 7;

/// A new master of so many bytes: the table, and files where they have to lie.
fn master(size: usize, entries: &[Wish], files: &[(u32, &[u8])]) -> Vec<u8> {
    let table = table(entries);
    let mut image = vec![0; size];
    image[..4].copy_from_slice(b"GCTE");
    put(&mut image, 0x1C, 0xC233_9F3D);
    put(&mut image, 0x424, 0x440);
    put(&mut image, 0x428, table.len() as u32);
    put(&mut image, 0x434, size as u32);
    image[0x440..0x440 + table.len()].copy_from_slice(&table);
    for (offset, bytes) in files {
        image[*offset as usize..][..bytes.len()].copy_from_slice(bytes);
    }
    image
}

fn new(out: &Path, size: &str, from: &str, source: &Path, more: &[&str]) -> Run {
    let source = source.to_str().unwrap();
    let mut rest = vec!["--size", size, "--code", "GCTE", from, source];
    rest.extend(more);
    on("new", out, &rest)
}

/// What is in a folder.
fn names(folder: &Path) -> Vec<String> {
    let entries = fs::read_dir(folder).unwrap();
    let mut names: Vec<String> =
        entries.map(|entry| entry.unwrap().file_name().to_string_lossy().into_owned()).collect();
    names.sort();
    names
}

// From a list -----------------------------------------------------------------------------

const LIST: &[u8] =
    b"/opening.bnr 0x1960\ntext/fr/lines.bin 0x7fff\n\n/text/de/lines.bin\t32769\r\n\
                      text/de/empty   0\n/text/a b  1\n";

#[test]
fn a_list_makes_a_master() {
    let temp = Temp::new();
    let (list, out) = (temp.write("wishes.txt", LIST), temp.at("new.iso"));
    // The rests of their last clusters: 26,272, none, 32,766, 1 and 32,767.
    let wanted = master(
        0x2_8001,
        &[
            file("opening.bnr", 0x8000, 0x1960),
            folder(
                "text",
                vec![
                    file("a b", 0x2_8000, 1),
                    folder("de", vec![file("empty", 0, 0), file("lines.bin", 0x1_0000, 32_769)]),
                    folder("fr", vec![file("lines.bin", 0x2_0000, 0x7FFF)]),
                ],
            ),
        ],
        &[],
    );
    let dry = new(&out, "0x28001", "--from", &list, &["--dry-run"]);
    assert_eq!((dry.status, dry.err.as_str()), (0, ""));
    assert_eq!(names(&temp.at("")), ["wishes.txt"], "a dry run writes nothing");
    let run = new(&out, "0x28001", "--from", &list, &[]);
    assert_eq!((run.status, run.err.as_str()), (0, ""));
    assert!(fs::read(&out).unwrap() == wanted);
    assert_eq!(
        run.out,
        format!(
            "made {}: 163,841 bytes, game code GCTE, 5 files, 3 folders\n\
             /opening.bnr at 0x8000: 6,496 bytes\n/text/a b at 0x28000: 1 byte\n/text/de/empty: empty\n\
             /text/de/lines.bin at 0x10000: 32,769 bytes\n/text/fr/lines.bin at 0x20000: 32,767 bytes\n\
             table: 161 bytes\nused 73,282 bytes, free 90,559 bytes, largest free region 32,767 bytes\n\
             done: written and synced\n",
            out.display()
        )
    );
    let said: String = run.out.lines().take(8).map(|line| format!("dry run: {line}\n")).collect();
    assert_eq!(dry.out, said + "dry run: all this would be done; nothing was written\n");
    assert_eq!(done("list", &out, &[]), Table::of(&out).listing());
    assert_eq!(names(&temp.at("")), ["new.iso", "wishes.txt"]);
    // Other commands take it as any other.
    let clip = temp.write("clip", b"bonjour");
    done("fill", &out, &["text/fr/lines.bin", clip.to_str().unwrap()]);
    assert_eq!(span(&out, 0x2_0000, 8), b"bonjour\0");
    // A byte less has no place; that is told, and how many are wanted.
    let run = new(&temp.at("small.iso"), "0x28000", "--from", &list, &[]);
    assert_eq!(run.status, 21);
    assert!(run.err.contains("refused 21: no space ("), "{}", run.err);
    assert!(
        run.err.contains("(--size has to be at least 163,841: header, table and files"),
        "{}",
        run.err
    );
    assert!(!temp.at("small.iso").exists());
}

#[test]
fn the_order_of_lines_is_no_matter() {
    let temp = Temp::new();
    let mut lines: Vec<&[u8]> = LIST.split(|&b| b == b'\n').collect();
    lines.reverse();
    let (list, back) = (temp.write("l", LIST), temp.write("r", &lines.join(&b'\n')));
    for (from, out) in [(&list, "a.iso"), (&back, "b.iso")] {
        assert_eq!(new(&temp.at(out), "1M", "--from", from, &[]).status, 0);
    }
    assert!(fs::read(temp.at("a.iso")).unwrap() == fs::read(temp.at("b.iso")).unwrap());
}

#[test]
fn the_answer_as_json() {
    let temp = Temp::new();
    let (list, out) = (temp.write("wishes.txt", LIST), temp.at("new.iso"));
    for dry in [true, false] {
        let more: &[&str] = if dry { &["--json", "--dry-run"] } else { &["--json"] };
        let run = new(&out, "0x28001", "--from", &list, more);
        let told = Json::read(&run.out);
        let number = |name: &str| told.at(name).number();
        assert_eq!((number("status"), number("size"), number("fst_size")), (0, 0x2_8001, 161));
        assert_eq!(told.at("dry_run").flag(), dry);
        assert_eq!(told.at("written").flag(), !dry);
        assert_eq!((told.at("game_code").text(), number("used")), ("GCTE", 73_282));
        assert_eq!((number("free"), number("largest_free")), (90_559, 32_767));
        let files = told.at("files").list();
        let paths: Vec<&str> = files.iter().map(|file| file.at("path").text()).collect();
        assert_eq!(paths[..3], ["/opening.bnr", "/text/a b", "/text/de/empty"]);
        assert_eq!((files[1].at("offset").number(), files[1].at("size").number()), (0x2_8000, 1));
        assert!(told.at("left_out").list().is_empty() && told.at("notes").list().is_empty());
        let help = run_help();
        assert!(fields(&told).iter().all(|name| help.contains(name)), "{help}");
    }
    let run = new(&out, "0x28001", "--from", &list, &["--json"]);
    assert_eq!((run.status, Json::read(&run.out).at("status").number()), (73, 73));
    let run = new(&temp.at("x"), "0x28000", "--from", &list, &["--json"]);
    let told = Json::read(&run.out);
    assert_eq!(
        (run.status, told.at("refused").number(), told.at("least").number()),
        (21, 21, 0x2_8001)
    );
}

fn run_help() -> String {
    run(&["help", "new"]).out
}

fn fields(json: &Json) -> Vec<String> {
    match json {
        Json::Object(fields) => fields
            .iter()
            .flat_map(|(name, value)| [vec![name.clone()], self::fields(value)].concat())
            .collect(),
        Json::List(items) => items.iter().flat_map(fields).collect(),
        _ => Vec::new(),
    }
}

#[test]
fn lines_in_every_form() {
    let temp = Temp::new();
    let out = temp.at("new.iso");
    let made = |list: &[u8], more: &[&str]| -> Result<Vec<(String, u32)>, Run> {
        let list = temp.write("wishes.txt", list);
        let run = new(&out, "4M", "--from", &list, more);
        if run.status != 0 {
            assert_eq!(names(&temp.at("")), ["wishes.txt"], "{}", run.err);
            return Err(run);
        }
        let entries = Table::of(&out).entries.into_iter().filter(|entry| !entry.folder);
        fs::remove_file(&out).unwrap();
        let hex = |bytes: Vec<u8>| match String::from_utf8(bytes) {
            Ok(text) => text,
            Err(e) => format!("{:x?}", e.into_bytes()),
        };
        Ok(entries.map(|entry| (hex(entry.bytes), entry.size)).collect())
    };
    let one = |list: &[u8]| made(list, &[]).unwrap_or_else(|run| panic!("{list:?}: {}", run.err));
    let file = |path: &str, size| vec![(path.to_string(), size)];
    assert_eq!(one(b""), []);
    assert_eq!(one(b"\n\r\n\n"), []);
    assert_eq!(one(b"a 12"), file("/a", 12));
    assert_eq!(one(b"\xEF\xBB\xBF/a \t 0x12\t \r\n"), file("/a", 0x12));
    assert_eq!(one(b" a 1K\n \t b\t2\n"), [("/a".into(), 1024), ("/b".into(), 2)]);
    assert_eq!(one(b"/ a 1\n"), file("/ a", 1));
    assert_eq!(one(b"a  b   c 1\n"), file("/a  b   c", 1));
    assert_eq!(one(b"a 7\t1\n"), file("/a 7", 1));
    assert_eq!(one(b"1 1\n"), file("/1", 1));
    assert_eq!(one("表示.bin 1".as_bytes()), file("[2f, 95, 5c, 8e, a6, 2e, 62, 69, 6e]", 1));
    assert_eq!(one(b"\\x81\\xad/\\x95A\\xb1 1"), file("[2f, 81, ad, 2f, 95, 41, b1]", 1));
    let raw = made(b"/\x95\x5c\x8e\xa6/\xb1 x 1", &["--bytes"]).ok().unwrap();
    assert_eq!(raw, file("[2f, 95, 5c, 8e, a6, 2f, b1, 20, 78]", 1));
    for (list, words) in [
        (&b"a"[..], "line 1: a path is wanted"),
        (b"ok 1\na b\n", "line 2: b: a number is wanted"),
        (b"\n\na -1\n", "line 3: -1: a number is wanted"),
        (b"a 4G", "line 1: 4G: above 2^32 - 1"),
        (b"a 1\tb 2", "line 1: b 2: a number is wanted"),
        (b"a\0b 2", "line 1: a zero byte"),
        (b"\xff\xfea\0 \x001\0", "UTF-16"),
        (b"\x95\x5c 1", "line 1: \"\\x95\\\" is no UTF-8"),
        ("é 1".as_bytes(), "line 1: \"é\": é (U+00E9) has no bytes in Shift-JIS"),
    ] {
        let run = made(list, &[]).err().unwrap();
        assert_eq!(run.status, 65, "{list:?}: {}", run.err);
        assert!(run.err.contains(words), "{list:?}: {}", run.err);
    }
    assert_eq!(new(&out, "4M", "--from", &temp.at("nothing"), &[]).status, 66);
    let run = new(&out, "4M", "--from", &temp.at(""), &[]);
    assert_eq!(run.status, 66);
    assert!(run.err.contains("a folder; --from-dir takes one"), "{}", run.err);
    // So many lines, and an end of the last one, are no line too many.
    let most = "\n".repeat(99_999);
    assert_eq!(one((most.clone() + "a 1\n").as_bytes()), file("/a", 1));
    let run = made((most + "a 1\n\n").as_bytes(), &[]).err().unwrap();
    assert_eq!(run.status, 65);
    assert!(run.err.contains("no list has more than 100,000 lines"), "{}", run.err);
}

/// The status is the number; the line, and what is wrong with it, are told; nothing is made.
#[test]
fn what_the_library_refuses() {
    let temp = Temp::new();
    let out = temp.at("new.iso");
    let deep = "d/".repeat(65) + "x 1\n";
    let long = "a".repeat(1025) + " 1\n";
    let cases: [(&str, i32, &[&str]); 21] = [
        ("ok 1\na:b 1\n", 13, &["line 2: /a:b: it holds :"]),
        ("a//b 1\n", 13, &["line 1: /a//b: a part of it is empty"]),
        ("//a 1\n", 13, &["line 1: //a: a part of it is empty"]),
        ("/ 1\n", 13, &["line 1: /: a part of it is empty"]),
        ("a/ 1\n", 13, &["line 1: /a/: a part of it is empty"]),
        ("a/../b 1\n", 13, &["line 1: /a/../b: a part of it is .."]),
        ("./b 1\n", 13, &["line 1: /./b: a part of it is ."]),
        ("a\\b 1\n", 13, &["it holds \\"]),
        ("\\x81/b 1\n", 12, &["line 1: /\\x81/b: a lead byte 0x81 without its trail byte"]),
        ("a\u{7f} 1\n", 12, &["line 1: /a\\x7f: the byte 0x7f"]),
        // 13 of any part comes before 12 of any.
        ("\\x81/.. 1\n", 13, &["a part of it is .."]),
        // The first in the order of bytes, whichever line it has.
        ("z: 1\nb\\x81 1\n", 12, &["line 2: /b\\x81"]),
        ("a 1\nb 2\na 3\n", 19, &["lines 1 and 3: both are /a"]),
        ("/a 1\nb 2\na 3\n", 19, &["lines 1 and 3: both are /a"]),
        ("a/c 1\na 2\n", 19, &["lines 1 and 2: /a is a file in one, and a folder in the other"]),
        ("a 1\na-b 1\na/c 2\n", 19, &["lines 1 and 3: /a is a file in one"]),
        ("x/a/b/c 1\nx/a 2\n", 19, &["lines 1 and 2: /x/a is a file in one"]),
        (&deep, 9, &["line 1: /d/d/", "65 folders one in another, and 64 are the most"]),
        (&long, 9, &["line 1: /aaa", "the path has 1,025 bytes, and 1,024 are the most"]),
        (
            "a 0xffffffff\nb 0xffffffff\n",
            21,
            &["take 8,589,967,359 bytes, and no disc is that large"],
        ),
        ("a 1\nb 0x8000\nc 0x800000\n", 21, &["at least 8,454,145: "]),
    ];
    for (text, number, words) in cases {
        let list = temp.write("wishes.txt", text.as_bytes());
        for more in [&[][..], &["--dry-run"]] {
            let run = new(&out, "4M", "--from", &list, more);
            assert_eq!(run.status, number, "{text}: {}{}", run.out, run.err);
            assert!(run.err.contains(&format!("refused {number}: ")), "{text}: {}", run.err);
            for words in words {
                assert!(run.err.contains(words), "{text}: {}", run.err);
            }
            assert_eq!(run.out, "");
            assert_eq!(names(&temp.at("")), ["wishes.txt"]);
        }
    }
    // Names that differ in case alone are told, and a name that `extract` can give no file.
    let list =
        temp.write("wishes.txt", ["a 1\nA 1\n", &"b".repeat(256), " 1\n"].concat().as_bytes());
    let run = new(&out, "4M", "--from", &list, &["--dry-run"]);
    assert!(
        run.out.contains("note: /a: a game that looks up without case finds /A"),
        "{}",
        run.out
    );
    assert!(run.out.contains("the name has 256 bytes"), "{}", run.out);
}

#[test]
fn as_many_and_as_long_as_a_table_takes() {
    let temp = Temp::new();
    let limit = |lines: Vec<String>, wanted: Result<(), &str>| {
        let list = temp.write("wishes.txt", lines.concat().as_bytes());
        let run = new(&temp.at("new.iso"), "4M", "--from", &list, &["--dry-run"]);
        match wanted {
            Ok(()) => assert_eq!(run.status, 0, "{}", run.err),
            Err(words) => {
                assert_eq!(run.status, 9, "{}", run.err);
                assert!(run.err.contains(words), "{}", run.err);
            }
        }
    };
    let flat = |count| (0..count).map(|k| format!("{k:05} 0\n")).collect::<Vec<_>>();
    limit(flat(16_383), Ok(()));
    limit(flat(16_384), Err("the table would have 16,385 entries, and 16,384 are the most"));
    let long = |count| (0..count).map(|k| format!("{k:01023} 0\n")).collect::<Vec<_>>();
    limit(long(1024), Ok(()));
    let more = [long(1023), vec![format!("{} 0\n", "a".repeat(1024))]].concat();
    limit(more, Err("the table would have 1,048,577 bytes of names, and 1,048,576 are the most"));
    limit(vec!["d/".repeat(64) + "x 0\n"], Ok(()));
}

/// The least size that is told is taken, and a byte less is not.
#[test]
fn the_least_size_is_exact() {
    let temp = Temp::new();
    let mut random = 0x2545_F491_4F6C_DD1D_u64;
    let mut below = |most: u64| {
        random ^= random << 13;
        random ^= random >> 7;
        random ^= random << 17;
        random % most
    };
    for round in 0..60 {
        let lines = (0..below(12)).map(|k| {
            let folders = "d/".repeat(below(3) as usize);
            let size = match below(4) {
                0 => 0,
                1 => below(4) * 0x8000,
                2 => below(0x8000),
                _ => below(0x5_0000),
            };
            format!("{folders}{}{k} {size}\n", "x".repeat(below(200) as usize))
        });
        let list = temp.write("wishes.txt", lines.collect::<String>().as_bytes());
        let made = |size: u64| {
            let more = ["--dry-run", "--json"];
            let run = new(&temp.at("new.iso"), &size.to_string(), "--from", &list, &more);
            (run.status, Json::read(&run.out))
        };
        let (status, told) = made(0);
        assert_eq!(status, 21, "{round}");
        let least = told.at("least").number() as u64;
        assert_eq!(made(least).0, 0, "{round}: {least}");
        assert_eq!(made(least - 1).0, 21, "{round}: {least}");
    }
}

#[test]
fn a_large_one_takes_no_room() {
    let temp = Temp::new();
    let list = temp.write("wishes.txt", b"movie/intro.thp 1G\nopening.bnr 0x1960\n");
    let out = temp.at("new.iso");
    assert_eq!(new(&out, "0x57058000", "--from", &list, &[]).status, 0);
    assert_eq!(fs::metadata(&out).unwrap().len(), 0x5705_8000);
    assert!(on_disk(&out) < 0x10_0000, "{}", on_disk(&out));
    assert_eq!(done("list", &out, &[]), Table::of(&out).listing());
}

// From a folder ---------------------------------------------------------------------------

/// The same files, folders and bytes.
fn is_same(a: &Path, b: &Path) {
    assert_eq!(names(a), names(b));
    for name in fs::read_dir(a).unwrap().map(|entry| entry.unwrap().file_name()) {
        let (a, b) = (a.join(&name), b.join(&name));
        match a.is_dir() {
            true => is_same(&a, &b),
            false => assert!(fs::read(&a).unwrap() == fs::read(&b).unwrap(), "{}", a.display()),
        }
    }
}

/// A folder with files of every length at the edges, and names of every kind.
fn tree(temp: &Temp) -> PathBuf {
    let folder = temp.at("files");
    for inner in ["text/de", "text/fr", "audio", "音/ｶﾅ"] {
        fs::create_dir_all(folder.join(inner)).unwrap();
    }
    for (i, (name, len)) in [
        ("opening.bnr", 0x1960),
        ("text/de/lines.bin", 0x8001),
        ("text/fr/lines.bin", 0x7FFF),
        ("text/fr/empty", 0),
        ("text/a b", 1),
        ("text-", 0x8000),
        ("audio/theme.adp", 0x1_2345),
        ("音/ｶﾅ/表示.bin", 17),
        ("音/\\x81\\xad", 3),
    ]
    .into_iter()
    .enumerate()
    {
        fs::write(folder.join(name), clip(len, i as u32)).unwrap();
    }
    folder
}

#[test]
fn a_folder_comes_back_byte_for_byte() {
    let temp = Temp::new();
    let (folder, out, back) = (tree(&temp), temp.at("new.iso"), temp.at("back"));
    let dry = new(&out, "2M", "--from-dir", &folder, &["--dry-run"]);
    assert_eq!(dry.status, 0, "{}", dry.err);
    assert_eq!(names(&temp.at("")), ["files"]);
    let run = new(&out, "2M", "--from-dir", &folder, &[]);
    assert_eq!((run.status, run.err.as_str()), (0, ""));
    assert!(run.out.contains("9 files, 6 folders\n"), "{}", run.out);
    assert!(run.out.ends_with("done: written and synced\n"), "{}", run.out);
    assert_eq!(names(&temp.at("")), ["files", "new.iso"]);
    done("extract", &out, &["--all", back.to_str().unwrap()]);
    is_same(&folder, &back);
    // Nothing but header, table and files is not zero.
    let table = Table::of(&out);
    let mut image = fs::read(&out).unwrap();
    assert_eq!(image.len(), 0x20_0000);
    image[..table.table_end as usize].fill(0);
    for entry in table.entries.iter().filter(|entry| !entry.folder) {
        assert_eq!(entry.offset % 0x8000, 0, "{}", entry.path);
        image[entry.offset as usize..][..entry.size as usize].fill(0);
    }
    assert!(image.iter().all(|&b| b == 0));
    // The same from a list, but for the files' bytes.
    let lines = table
        .entries
        .iter()
        .filter(|entry| !entry.folder)
        .map(|entry| [&entry.bytes[..], format!("\t{}\n", entry.size).as_bytes()].concat());
    let list = temp.write("wishes.txt", &lines.collect::<Vec<_>>().concat());
    let listed = temp.at("listed.iso");
    assert_eq!(new(&listed, "2M", "--from", &list, &["--bytes"]).status, 0);
    assert_eq!(Table::of(&listed), table);
    // With --bytes the files have the image's bytes for names.
    let raw = temp.at("raw");
    done("extract", &out, &["--all", raw.to_str().unwrap(), "--bytes"]);
    let again = temp.at("again.iso");
    assert_eq!(new(&again, "2M", "--from-dir", &raw, &["--bytes"]).status, 0);
    assert!(fs::read(&again).unwrap() == fs::read(&out).unwrap());
    assert_ne!(new(&temp.at("wrong.iso"), "2M", "--from-dir", &raw, &[]).status, 0);
}

/// The line of help that writes a LIST of a disc does.
#[test]
fn the_list_of_a_disc() {
    let temp = Temp::new();
    let (folder, out, again) = (tree(&temp), temp.at("new.iso"), temp.at("again.iso"));
    assert_eq!(new(&out, "2M", "--from-dir", &folder, &[]).status, 0);
    let help = run_help().split_whitespace().collect::<Vec<_>>().join(" ");
    let line = help.split('`').find(|part| part.starts_with("counter list disc.iso |")).unwrap();
    let behind = line.split_once('|').unwrap().1;
    let line = format!("{} list {} |{behind}", env!("CARGO_BIN_EXE_counter"), out.display());
    let list = Command::new("bash").args(["-c", &line]).output().unwrap().stdout;
    let list = temp.write("wishes.txt", &list);
    assert_eq!(new(&again, "2M", "--from", &list, &["--bytes"]).status, 0);
    assert_eq!(Table::of(&again), Table::of(&out));
}

#[test]
fn folders_that_hold_no_file_are_told() {
    let temp = Temp::new();
    let (folder, out) = (tree(&temp), temp.at("new.iso"));
    fs::create_dir_all(folder.join("empty/in/it")).unwrap();
    fs::create_dir_all(folder.join("text/none")).unwrap();
    let run = new(&out, "2M", "--from-dir", &folder, &["--json"]);
    assert_eq!(run.status, 0, "{}", run.err);
    let told = Json::read(&run.out);
    let left_out: Vec<&str> = told.at("left_out").list().iter().map(Json::text).collect();
    let wanted = ["empty", "text/none"].map(|name| folder.join(name).display().to_string());
    assert_eq!(left_out, wanted);
    assert!(
        told.at("notes").list()[0]
            .text()
            .ends_with("empty holds no file: the new master does not have it")
    );
    assert!(Table::of(&out).entries.iter().all(|entry| !entry.path.contains("none")));
    // A folder with nothing in it is a master with nothing in it.
    let nothing = temp.at("nothing");
    fs::create_dir(&nothing).unwrap();
    let out = temp.at("root.iso");
    assert_eq!(new(&out, "0x44b", "--from-dir", &nothing, &[]).status, 21);
    assert_eq!(new(&out, "0x44c", "--from-dir", &nothing, &[]).status, 0);
    assert!(fs::read(&out).unwrap() == master(0x44C, &[], &[]));
    // That is told.
    let words = "there are no files: the master has an empty table";
    let list = temp.write("wishes.txt", b"\n");
    for (from, source) in [("--from", &list), ("--from-dir", &nothing)] {
        let out = temp.at("none.iso");
        let run = new(&out, "1M", from, source, &["--dry-run"]);
        assert!(run.out.contains(&format!("\ndry run: note: {words}\n")), "{}", run.out);
        let run = new(&out, "1M", from, source, &["--dry-run", "--json"]);
        assert_eq!(Json::read(&run.out).at("notes").list()[0].text(), words);
    }
}

#[test]
fn what_in_a_folder_is_no_plain_file() {
    let temp = Temp::new();
    let (folder, out) = (tree(&temp), temp.at("new.iso"));
    let fails = |status: i32, words: &str| {
        let run = new(&out, "2M", "--from-dir", &folder, &[]);
        assert_eq!(run.status, status, "{words}: {}{}", run.out, run.err);
        assert!(run.err.contains(words), "{words}: {}", run.err);
        assert!(!out.exists());
    };
    let odd = folder.join("text/odd");
    symlink("lines.bin", &odd).unwrap();
    fails(66, "/text/odd: a symbolic link");
    fs::remove_file(&odd).unwrap();
    assert!(Command::new("mkfifo").arg(&odd).status().unwrap().success());
    fails(66, "/text/odd: a special file");
    fs::remove_file(&odd).unwrap();
    fs::write(folder.join("é"), b"").unwrap();
    fails(65, "has no bytes in Shift-JIS");
    fs::remove_file(folder.join("é")).unwrap();
    fs::write(folder.join(std::ffi::OsStr::from_bytes(b"\x95\x5c")), b"").unwrap();
    fails(65, "is no UTF-8");
    fs::remove_file(folder.join(std::ffi::OsStr::from_bytes(b"\x95\x5c"))).unwrap();
    fs::write(folder.join("a:b"), b"").unwrap();
    fails(13, "/files/a:b: /a:b: it holds :");
    fs::remove_file(folder.join("a:b")).unwrap();
    // Both are one name in Shift-JIS.
    fs::write(folder.join("～"), b"").unwrap();
    fs::write(folder.join("〜"), b"").unwrap();
    fails(19, "both are /～");
    fs::remove_file(folder.join("〜")).unwrap();
    let large = File::create(folder.join("large")).unwrap();
    large.set_len(1 << 32).unwrap();
    fails(65, "it has 4,294,967,296 bytes, and a file of an image at most 4,294,967,295");
    large.set_len(0x20_0000).unwrap();
    fails(21, "at least 2,457,601: ");
    for source in ["files/opening.bnr", "nowhere"] {
        assert_eq!(new(&out, "2M", "--from-dir", &temp.at(source), &[]).status, 66);
    }
}

// OUT -------------------------------------------------------------------------------------

#[test]
fn what_is_there_stays() {
    let temp = Temp::new();
    let (list, folder) = (temp.write("wishes.txt", LIST), tree(&temp));
    let file = temp.write("there.iso", b"mine");
    let (link, inner) = (temp.at("link.iso"), temp.at("folder.iso"));
    symlink("nowhere", &link).unwrap();
    fs::create_dir(&inner).unwrap();
    let before = names(&temp.at(""));
    for out in [&file, &link, &inner] {
        for (from, source) in [("--from", &list), ("--from-dir", &folder)] {
            for more in [&[][..], &["--dry-run"]] {
                let run = new(out, "1M", from, source, more);
                assert_eq!(run.status, 73, "{}", run.err);
                assert!(run.err.contains("is there already"), "{}", run.err);
            }
        }
    }
    assert_eq!(fs::read(&file).unwrap(), b"mine");
    assert_eq!(names(&temp.at("")), before);
    // A journal that would be taken for one of the new image's.
    let left = temp.write("new.iso.counter-journal", b"");
    let run = new(&temp.at("new.iso"), "1M", "--from", &list, &[]);
    assert_eq!(run.status, 73, "{}", run.err);
    assert!(run.err.contains("iso.counter-journal"), "{}", run.err);
    fs::remove_file(left).unwrap();
    // The longest name that an edit has a journal for.
    let out = temp.at(&"x".repeat(239));
    assert_eq!(new(&out, "1M", "--from", &list, &[]).status, 0);
    done("mkdir", &out, &["fr"]);
    fs::remove_file(out).unwrap();
    // Where it cannot be made, and a name that has another use.
    assert_eq!(new(&temp.at("nowhere/new.iso"), "1M", "--from", &list, &[]).status, 73);
    assert_eq!(new(&temp.at("x.iso.counter-journal"), "1M", "--from", &list, &[]).status, 64);
    assert_eq!(names(&temp.at("")), before);
    // A name without a folder is one where one stands; a link on the way is followed.
    symlink(".", temp.at("way")).unwrap();
    for out in ["here.iso", "way/there too.iso"] {
        let words = ["new", out, "--size=1M", "--code=GCTE", "--from", "wishes.txt"];
        let run: Run = program().args(words).current_dir(temp.at("")).output().unwrap().into();
        assert_eq!(run.status, 0, "{}", run.err);
    }
    assert!(temp.at("here.iso").is_file() && temp.at("there too.iso").is_file());
}

/// What is no place for a new image is told at once, in a dry run too.
#[test]
fn where_it_cannot_be_made() {
    let temp = Temp::new();
    let list = temp.write("wishes.txt", LIST);
    temp.write("x.iso.counter-journal", b"");
    let before = names(&temp.at(""));
    let long = |len: usize| "x".repeat(len);
    let cases = [
        ("x.iso", 73, "x.iso.counter-journal"),
        ("x.iso/", 64, "no name of a file"),
        ("new.iso/.", 64, "no name of a file"),
        ("", 64, "no name of a file"),
        (".", 64, "no name of a file"),
        ("..", 64, "no name of a file"),
        ("nowhere/new.iso", 73, "no such file"),
        ("wishes.txt/new.iso", 73, "wishes.txt/new.iso: "),
        (&long(256), 73, "too long"),
        (&long(255), 73, "counter-journal: "),
        (&long(240), 73, "counter-journal: "),
    ];
    for (out, status, words) in cases {
        for more in [&[][..], &["--dry-run"]] {
            let line = ["new", out, "--size=1M", "--code=GCTE", "--from", list.to_str().unwrap()];
            let mut command = program();
            command.args(line).args(more).current_dir(temp.at(""));
            let run: Run = command.output().unwrap().into();
            assert_eq!(run.status, status, "{out}: {}{}", run.out, run.err);
            assert!(run.err.contains(words), "{out}: {}", run.err);
            assert_eq!(names(&temp.at("")), before, "{out}");
        }
    }
}

/// A folder that may not be written to, and a file that may not be read, are told before anything is written. Whoever
/// may do everything tries it as another user.
#[test]
fn what_is_not_allowed() {
    let temp = Temp::new();
    let list = temp.write("wishes.txt", LIST);
    let files = temp.at("files");
    fs::create_dir(&files).unwrap();
    let secret = temp.write("files/secret", b"mine");
    let counter = copied(&temp);
    mode(&secret, 0o000);
    for (folder, from, source, status) in [
        (0o777, "--from", &list, 0),
        (0o555, "--from", &list, 73),
        (0o777, "--from-dir", &files, 77),
    ] {
        mode(&temp.at(""), folder);
        for more in [&["--dry-run"][..], &[]] {
            let mut command = held_back(&counter);
            command.arg("new").arg(temp.at("new.iso")).args(["--size", "1M", "--code", "GCTE"]);
            let run: Run = command.arg(from).arg(source).args(more).output().unwrap().into();
            assert_eq!(run.status, status, "{}", run.err);
            assert_eq!(run.err.contains("permission denied"), status != 0, "{}", run.err);
        }
        if status == 0 {
            fs::remove_file(temp.at("new.iso")).unwrap();
        }
        assert_eq!(names(&temp.at("")), ["counter", "counter-write", "files", "wishes.txt"]);
    }
}

/// Neither the new image nor what a cut left of one is a file of the next.
#[test]
fn a_folder_that_holds_a_new_image() {
    let temp = Temp::new();
    let folder = tree(&temp);
    symlink("files/text", temp.at("way")).unwrap();
    for out in ["files/new.iso", "files/text/de/new.iso", "way/new.iso"] {
        let run = new(&temp.at(out), "2M", "--from-dir", &folder, &[]);
        assert_eq!(run.status, 65, "{out}: {}", run.err);
        assert!(run.err.contains("/files, of which it is made"), "{}", run.err);
    }
    let out = temp.at("new.iso");
    for name in ["counter-new.", "counter-new.1x", "counter-new.17"] {
        let left = folder.join("text").join(name);
        fs::write(&left, b"").unwrap();
        let run = new(&out, "2M", "--from-dir", &folder, &["--dry-run"]);
        match name {
            "counter-new.17" => {
                assert_eq!(run.status, 65, "{}", run.err);
                assert!(run.err.contains("/files/text/counter-new.17: a name"), "{}", run.err);
            }
            _ => assert_eq!(run.status, 0, "{}", run.err),
        }
        fs::remove_file(left).unwrap();
    }
}

#[test]
fn wrong_usage() {
    let temp = Temp::new();
    let (list, folder) = (temp.write("wishes.txt", LIST), tree(&temp));
    let (list, folder) = (list.to_str().unwrap(), folder.to_str().unwrap());
    let out = temp.at("new.iso");
    let cases: [&[&str]; 13] = [
        &[],
        &["--size", "1M", "--code", "GCTE"],
        &["--size", "1M", "--from", list],
        &["--code", "GCTE", "--from", list],
        &["--size", "1M", "--code", "GCTE", "--from", list, "--from-dir", folder],
        &["--size", "1M", "--code", "GCTE01", "--from", list],
        &["--size", "1M", "--code", "GCT", "--from", list],
        &["--size", "1M", "--code", "GC\u{e9}", "--from", list],
        &["--size", "1M", "--code", "GC\tE", "--from", list],
        &["--size", "4G", "--code", "GCTE", "--from", list],
        &["--size", "1M", "--size", "1M", "--code", "GCTE", "--from", list],
        &["--size", "1M", "--code", "GCTE", "--code", "GCTE", "--from", list],
        &["more", "--size", "1M", "--code", "GCTE", "--from", list],
    ];
    for rest in cases {
        let run = on("new", &out, rest);
        assert_eq!(run.status, 64, "{rest:?}: {}", run.err);
        assert!(!out.exists());
    }
    assert_eq!(run(&["new"]).status, 64);
    // What is missing is told.
    for (rest, words) in [
        (&["--code", "GCTE", "--from", list][..], "--size SIZE is missing"),
        (&["--size", "1M", "--from", list], "--code GAME is missing"),
        (&["--size", "1M", "--code", "GCTE"], "--from LIST or --from-dir DIR is missing"),
    ] {
        let run = on("new", &out, rest);
        assert!(run.err.contains(words), "{}", run.err);
    }
}

// When it is cut --------------------------------------------------------------------------

/// A disk that is full at the n-th step that takes room, for every n: nothing is left.
#[test]
fn on_a_full_disk_nothing_is_left() {
    let temp = Temp::new();
    let (list, folder) = (temp.write("wishes.txt", LIST), tree(&temp));
    let before = names(&temp.at(""));
    for (from, source) in [("--from", &list), ("--from-dir", &folder)] {
        let mut steps = 0;
        loop {
            let words = ["--size", "2M", "--code", "GCTE", from, source.to_str().unwrap()];
            let mut command = program();
            command.arg("new").arg(temp.at("new.iso")).args(words);
            let run: Run =
                command.env("COUNTER_FULL_FROM", (steps + 1).to_string()).output().unwrap().into();
            if run.status == 0 {
                break;
            }
            assert_eq!(run.status, 74, "{}", run.err);
            assert!(run.err.contains("the disk is full"), "{}", run.err);
            assert_eq!(names(&temp.at("")), before);
            steps += 1;
        }
        assert_eq!(steps, 3, "the file, its front, the sync");
        fs::remove_file(temp.at("new.iso")).unwrap();
    }
    // Files may not be as long.
    let line = format!(
        "ulimit -f 1024; exec {} new {} --size 2M --code GCTE --from {}",
        env!("CARGO_BIN_EXE_counter"),
        temp.at("new.iso").display(),
        list.display()
    );
    let run: Run = Command::new("bash").args(["-c", &line]).output().unwrap().into();
    assert_eq!(run.status, 74, "{}", run.err);
    assert_eq!(names(&temp.at("")), before);
}

/// A run that waits, with its new file in the midst of the writing.
fn cut_short(temp: &Temp, from: &str, source: &Path) -> (Child, File) {
    let mut command = program();
    command.arg("new").arg(temp.at("new.iso"));
    command.args(["--size", "0x10000000", "--code", "GCTE", from, source.to_str().unwrap()]);
    waiting(temp, command, |child| {
        let early = temp.at(&format!("counter-new.{}", child.id()));
        fs::metadata(early).is_ok_and(|told| told.len() == 0x1000_0000)
    })
}

/// A list whose table the pipe cannot hold.
fn many(temp: &Temp) -> PathBuf {
    let lines: Vec<String> = (0..8000).map(|k| format!("{k:05} 1\n")).collect();
    temp.write("wishes.txt", lines.concat().as_bytes())
}

#[test]
fn a_run_that_is_cut_leaves_nothing() {
    for number in [SIGHUP, SIGINT, SIGQUIT, SIGTERM, SIGBUS] {
        let temp = Temp::new();
        let (child, log) = cut_short(&temp, "--from", &many(&temp));
        assert_eq!(names(&temp.at("")).len(), 3);
        send(&child, number);
        let run: Run = child.wait_with_output().unwrap().into();
        drop(log);
        match number {
            // As a page that cannot be had says it.
            SIGBUS => assert_eq!(run.status, 74, "{}", run.err),
            _ => assert_eq!(run.signal, Some(number), "{}", run.err),
        }
        let words = if number == SIGBUS { "of the new image" } else { "; nothing was made" };
        assert!(run.err.contains(words) && run.out.is_empty(), "{number}: {}", run.err);
        assert_eq!(names(&temp.at("")), ["log", "wishes.txt"], "{number}");
    }
    // Nobody can tidy up after SIGKILL; but there is no OUT.
    let temp = Temp::new();
    let (mut child, _log) = cut_short(&temp, "--from", &many(&temp));
    child.kill().unwrap();
    child.wait().unwrap();
    let early = format!("counter-new.{}", child.id());
    assert_eq!(names(&temp.at("")), [&early, "log", "wishes.txt"]);
}

/// Those that nobody answers wait until the new image is there; SIGUSR1 to SIGPWR, and the first of real time.
#[test]
fn other_signals_wait() {
    for number in [10, 12, 14, 24, 26, 27, 29, 30, 34] {
        let temp = Temp::new();
        let (child, log) = cut_short(&temp, "--from", &many(&temp));
        send(&child, number);
        let run = go_on(child, log);
        assert_eq!(run.signal, Some(number), "{}", run.err);
        let words = format!("signal {number} came meanwhile; the new image is made and synced");
        assert!(run.err.contains(&words), "{}", run.err);
        assert!(run.out.ends_with("done: written and synced\n"), "{number}");
        assert_eq!(names(&temp.at("")), ["log", "new.iso", "wishes.txt"], "{number}");
    }
    // Nor is there an edit where the answer cannot be printed.
    let temp = Temp::new();
    let mut command = program();
    command.arg("new").arg(temp.at("new.iso")).args(["--size", "1M", "--code", "GCTE", "--from"]);
    command.arg(temp.write("wishes.txt", LIST)).stderr(Stdio::piped());
    command.stdout(File::options().write(true).open("/dev/full").unwrap());
    let run: Run = command.spawn().unwrap().wait_with_output().unwrap().into();
    assert_eq!(run.status, 76, "{}", run.err);
    assert!(run.err.contains("the new image is made and synced, but its answer"), "{}", run.err);
    assert!(temp.at("new.iso").is_file());
}

#[test]
fn what_changes_meanwhile() {
    // Another file by the name of OUT, and a file of DIR that becomes longer, or goes.
    for case in ["nothing", "taken", "longer", "gone"] {
        let temp = Temp::new();
        let folder = temp.at("files");
        fs::create_dir(&folder).unwrap();
        for k in 0..400 {
            fs::write(folder.join(format!("{k:0200}")), [k as u8; 3]).unwrap();
        }
        let (child, log) = cut_short(&temp, "--from-dir", &folder);
        let last = folder.join(format!("{:0200}", 399));
        let (status, words) = match case {
            "taken" => {
                temp.write("new.iso", b"mine");
                (73, "is there already")
            }
            "longer" => {
                fs::write(&last, b"four").unwrap();
                (65, "it had 3 bytes, and has 4 now")
            }
            "gone" => {
                fs::remove_file(&last).unwrap();
                (66, "no such file")
            }
            _ => (0, ""),
        };
        let run = go_on(child, log);
        assert_eq!(run.status, status, "{case}: {}", run.err);
        assert!(run.err.contains(words), "{case}: {}", run.err);
        match case {
            "nothing" => assert_eq!(names(&temp.at("")), ["files", "log", "new.iso"]),
            "taken" => assert_eq!(fs::read(temp.at("new.iso")).unwrap(), b"mine"),
            _ => assert_eq!(names(&temp.at("")), ["files", "log"], "{case}"),
        }
        assert!(names(&temp.at("")).iter().all(|name| !name.starts_with("counter-new")), "{case}");
    }
}
