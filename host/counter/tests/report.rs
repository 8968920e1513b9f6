//! `report`: the page for the publisher; and the pictures, of large images too.

mod support;

use std::fs;
use std::path::{Path, PathBuf};
use std::process::Command;
use support::*;

const END: u32 = 0x20_0000;

fn pair(temp: &Temp, entries: &[Wish]) -> (PathBuf, PathBuf) {
    let (before, after) = (temp.at("before.iso"), temp.at("after.iso"));
    sparse(&before, entries, END);
    fs::copy(&before, &after).unwrap();
    (before, after)
}

fn text(path: &Path) -> &str {
    path.to_str().unwrap()
}

/// SHA-256 by another program.
fn sum(path: &Path) -> String {
    let run = Command::new("sha256sum").arg(path).output().expect("sha256sum");
    String::from_utf8_lossy(&run.stdout)[..64].to_string()
}

/// Tags are nested, and no text holds a stray `<` or `&`.
fn well_formed(page: &str) {
    let mut open: Vec<&str> = Vec::new();
    for part in page.split('<').skip(1) {
        let (tag, words) = part.split_once('>').expect("an ended tag");
        for entity in words.split('&').skip(1) {
            let name = entity.split(';').next().unwrap();
            let known = ["amp", "lt", "gt", "quot", "#10003", "#10007", "#8226"];
            assert!(known.contains(&name), "&{name}");
        }
        let name = tag.split(' ').next().unwrap();
        if tag.starts_with('!') || tag.ends_with('/') || ["meta", "br"].contains(&name) {
            continue;
        }
        match tag.strip_prefix('/') {
            Some(name) => assert_eq!(open.pop(), Some(name), "{part:.100}"),
            None => open.push(name),
        }
    }
    assert!(open.is_empty(), "{open:?}");
}

#[test]
fn the_page_holds_what_the_publisher_asks() {
    let temp = Temp::new();
    let (before, after) = pair(&temp, &usual(0x10_0000, 0x4_5678));
    done("move", &after, &["audio/theme.adp", "0x190000"]);
    done("resize", &after, &["text/en/msg.bin", "0x1000"]);
    done("mkdir", &after, &["extra"]);
    let list = temp.write("given.txt", b"/audio/theme.adp\nno/such\n");
    let page = temp.at("report.html");
    let run = on("report", &before, &[text(&after), text(&page), "--given", text(&list)]);
    assert_eq!(run.status, 1, "{}", run.err);
    assert!(run.out.contains("FAILED: 1 difference not on the list"), "{}", run.out);
    let html = fs::read_to_string(&page).unwrap();
    well_formed(&html);
    let version = support::run(&["--version"]).out;
    let library = version.lines().nth(1).unwrap().rsplit(' ').next().unwrap();
    let words = [
        "<title>Failed: licence check of GCTE01 Counter's test</title>",
        "1 difference not on the list.",
        "8 files: 6 unchanged, 1 moved, 1 resized, 0 changed, 0 new, 0 gone.",
        "Without leave: <code>/text/en/msg.bin</code> (resized).",
        "<li><code>/audio/theme.adp</code></li>",
        "In neither image: <code>/no/such</code>.",
        "0x80000",
        "0x190000",
        "4,660",
        "4,096",
        "<code>/extra/</code>",
        "Header",
        "System area",
        "Table",
        "written anew",
        "Order of the entries",
        "Free space",
        "Before",
        "After",
        library,
    ];
    for words in words {
        assert!(html.contains(words), "{words}");
    }
    // Nothing is fetched from anywhere.
    for outside in ["<script", "<link", "src=", "url(", "@import", "href="] {
        assert!(!html.contains(outside), "{outside}");
    }
    assert_eq!(html.matches("http").count(), html.matches("http://www.w3.org/2000/svg").count());
    // What differs and has no leave stands before what has.
    let first = html.find("<h3><code>/text/en/msg.bin").unwrap();
    assert!(first < html.find("<h3><code>/audio/theme.adp").unwrap());
    // The sums are those of the files.
    for (image, path) in [(&before, "/text/en/msg.bin"), (&after, "/text/en/msg.bin")] {
        let file = temp.write("file", &on("cat", image, &[path]).bytes);
        for path in [&file, image] {
            assert!(html.contains(&sum(path)), "{}", path.display());
        }
    }
    // Given both, it passes; a manifest stands for the first image.
    let list = temp.write("both.txt", b"/audio/theme.adp\n/text/en/msg.bin\n");
    let sums = temp.write("before.sums", done("hash", &before, &[]).as_bytes());
    for (i, first) in [&before, &sums].into_iter().enumerate() {
        let page = temp.at(&format!("passed{i}.html"));
        let args = [text(&after), text(&page), "--given", text(&list)];
        let run = on("report", first, &args);
        assert_eq!(run.status, 0, "{}", run.err);
        let html = fs::read_to_string(&page).unwrap();
        well_formed(&html);
        assert!(html.contains("<title>Passed: ") && html.contains("class=\"verdict good\""));
    }
    let page = temp.at("json.html");
    let run = on("report", &before, &[text(&after), text(&page), "--json"]);
    assert_eq!((run.status, Json::read(&run.out).at("passed").flag()), (1, false));
}

#[test]
fn a_list_that_covers_all_is_told_on_the_page() {
    let temp = Temp::new();
    let (before, after) = pair(&temp, &usual(0x10_0000, 0x4_5678));
    let list = temp.write("given.txt", b"/\n");
    let page = temp.at("report.html");
    let args = [text(&after), text(&page), "--given", text(&list)];
    assert_eq!(on("report", &before, &args).status, 0);
    let html = fs::read_to_string(&page).unwrap();
    assert!(html.contains("it covers every file and folder"));
    assert!(html.contains("Passed, by a list that covers everything"));
    assert!(!html.contains("class=\"verdict good\""));
}

#[test]
fn odd_names_stay_text() {
    let temp = Temp::new();
    let odd = "<script>alert(1)<";
    let entries = [file(odd, 0x6_0000, 0x8000), file("\"'&amp;", 0x7_0000, 0x8000)];
    let (before, after) = pair(&temp, &entries);
    done("move", &after, &[odd, "0x90000"]);
    done("move", &after, &["\"'&amp;", "0xA0000"]);
    let list = temp.write("given.txt", b"<b>bold</b>\n");
    let (page, svg) = (temp.at("report.html"), temp.at("both.svg"));
    let args = [text(&after), text(&page), "--given", text(&list)];
    assert_eq!(on("report", &before, &args).status, 1);
    let html = fs::read_to_string(&page).unwrap();
    well_formed(&html);
    assert!(!html.contains("<script") && !html.contains("<b>"));
    assert!(html.contains("&lt;script&gt;alert(1)&lt;") && html.contains("&quot;'&amp;amp;"));
    assert_eq!(on("compare", &before, &[text(&after), "--map", text(&svg)]).status, 1);
    well_formed(&fs::read_to_string(&svg).unwrap());
}

#[test]
fn the_page_comes_out_the_same_again() {
    let temp = Temp::new();
    let (before, after) = pair(&temp, &usual(0x10_0000, 0x4_5678));
    let page = |name: &str| {
        let path = temp.at(name);
        let run = program()
            .args(["report", text(&before), text(&after), text(&path)])
            .env("SOURCE_DATE_EPOCH", "951782400")
            .output()
            .unwrap();
        assert!(run.status.success());
        fs::read_to_string(path).unwrap()
    };
    let first = page("one.html");
    assert!(first.contains("Made on 2000-02-29 00:00 UTC by counter "));
    assert_eq!(first, page("two.html"));
}

// Pictures --------------------------------------------------------------------------------

/// An image of `count` files in 40 folders, with long names.
fn many(temp: &Temp, name: &str, count: usize) -> PathBuf {
    let leak = |text: String| -> &'static str { text.leak() };
    let each = 0x400u32;
    let start = 0x20_0000;
    let mut folders = Vec::new();
    let mut number = 0u32;
    for f in 0..40 {
        let mut files = Vec::new();
        for _ in 0..count / 40 {
            let name = leak(format!("a_file_with_a_rather_long_name_{number:05}.bin"));
            files.push(file(name, start + number * each, each / 2 + number % 300));
            number += 1;
        }
        folders.push(folder(leak(format!("folder_number_{f:02}")), files));
    }
    let path = temp.at(name);
    sparse(&path, &folders, start + number * each + 0x10_0000);
    path
}

#[test]
fn a_map_of_12_000_files_is_small_and_loses_none() {
    let temp = Temp::new();
    let image = many(&temp, "many.iso", 12_000);
    let out = temp.at("map.svg");
    done("map", &image, &[text(&out)]);
    let picture = fs::read_to_string(&out).unwrap();
    println!("{} bytes", picture.len());
    assert!(picture.len() < 1_000_000, "{}", picture.len());
    // Every file is a rectangle with a title or a stroke, in one of the colours of 41 folders.
    let strokes: usize = picture.split("<path d=\"").skip(1).map(|p| p.matches('h').count()).sum();
    let titles = picture.matches("<title>/folder_number_").count();
    assert!(strokes + titles >= 12_000, "{strokes} strokes, {titles} titles");
    let colours: std::collections::HashSet<&str> =
        picture.split("stroke=\"#").skip(1).map(|part| &part[..6]).collect();
    assert!(colours.len() >= 40, "{} colours", colours.len());
    // Side by side too.
    let copy = temp.at("copy.iso");
    fs::copy(&image, &copy).unwrap();
    done("move", &copy, &["/folder_number_07/a_file_with_a_rather_long_name_02100.bin", "auto"]);
    let both = temp.at("both.svg");
    assert_eq!(on("compare", &image, &[text(&copy), "--map", text(&both)]).status, 1);
    let picture = fs::read_to_string(&both).unwrap();
    println!("{} bytes side by side", picture.len());
    assert!(picture.len() < 2_000_000, "{}", picture.len());
    let framed =
        "stroke=\"#000000\" stroke-width=\"2\"><title>/folder_number_07/a_file_with_a_rather";
    // Before and after; a row's end may cut it in two.
    assert!((2..=4).contains(&picture.matches(framed).count()));
}

#[test]
fn rows_that_are_wholly_free_are_folded() {
    let temp = Temp::new();
    // A disc of 64 MiB, of which the first 2 MiB and 4 KiB near the end are used: rows of 2 MiB.
    let mut entries = usual(0x10_0000, 0x4_5678);
    entries.push(file("last", 0x3F0_0000, 0x1000));
    let image = temp.at("free.iso");
    sparse(&image, &entries, 0x400_0000);
    let out = temp.at("map.svg");
    done("map", &image, &[text(&out)]);
    let picture = fs::read_to_string(&out).unwrap();
    let words = "30 rows, all free: 0x200000 to 0x3e00000, 60 MiB";
    assert_eq!(picture.matches(&format!(">{words}</text>")).count(), 1, "{picture}");
    // The first row and the last, and what the folded ones begin with.
    for start in ["0x00000000", "0x00200000", "0x03e00000"] {
        assert!(picture.contains(&format!(">{start}</text>")), "{start}");
    }
    assert!(!picture.contains(">0x00400000</text>"));
    // Side by side the same rows are folded: one that is used in either is shown in both.
    let copy = temp.at("copy.iso");
    fs::copy(&image, &copy).unwrap();
    done("move", &copy, &["last", "0x2000000"]);
    let both = temp.at("both.svg");
    assert_eq!(on("compare", &image, &[text(&copy), "--map", text(&both)]).status, 1);
    let picture = fs::read_to_string(&both).unwrap();
    well_formed(&picture);
    for words in
        ["15 rows, all free: 0x200000 to 0x2000000", "14 rows, all free: 0x2200000 to 0x3e00000"]
    {
        assert_eq!(picture.matches(&format!(">{words}")).count(), 4, "{words}: {picture}");
    }
}

#[test]
fn a_region_is_labelled_once_and_no_label_is_hidden() {
    let temp = Temp::new();
    let image = temp.at("usual.iso");
    sparse(&image, &usual(0x10_0000, 0x4_5678), END);
    let out = temp.at("map.svg");
    done("map", &image, &[text(&out)]);
    let picture = fs::read_to_string(&out).unwrap();
    // Five rows of the film, one label; the lists name it once more by its path.
    assert_eq!(picture.matches(">intro.thp 277 KiB</text>").count(), 1);
    assert_eq!(picture.matches("/movie/intro.thp</text>").count(), 1);
    // The start of the disc and the rows: the program once in each, and no box over the system area.
    assert_eq!(picture.matches(">program 176 KiB</text>").count(), 2);
    let boxes = |title: &str| -> Vec<(f64, f64, f64)> {
        let number = |tag: &str, name: &str| -> f64 {
            let at = tag.find(&format!(" {name}=\"")).unwrap() + name.len() + 3;
            tag[at..].split('"').next().unwrap().parse().unwrap()
        };
        picture
            .lines()
            .filter(|line| line.contains(&format!("<title>{title}: 0x")))
            .map(|tag| (number(tag, "x"), number(tag, "y"), number(tag, "width")))
            .collect()
    };
    for (x, y, wide) in boxes("program") {
        for (left, top, width) in boxes("system area") {
            let apart = top != y || left + width <= x + 0.3 || x + wide <= left + 0.3;
            assert!(apart, "{x} {y} {wide}: {left} {width}");
        }
    }
    // A file of 1,023 bytes keeps a width.
    assert!(boxes("/audio/se/se001.dsp").iter().all(|(_, _, wide)| *wide >= 2.0));
}
