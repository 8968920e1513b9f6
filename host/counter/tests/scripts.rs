//! For scripts: what an edit answers as JSON, and a place that is found.

mod support;

use support::*;

fn place(entry: &Json, side: &str) -> (u64, u64) {
    let place = entry.at(side);
    (place.at("offset").number(), place.at("size").number())
}

#[test]
fn edits_answer_in_json() {
    let temp = Temp::new();
    let image = usual_master(&temp);
    let before = State::of(&image);
    let told = json("move", &image, &["opening.bnr", "0x190002", "--dry-run"]);
    assert!(told.at("dry_run").flag() && !told.at("written").flag());
    assert_eq!(State::of(&image), before);

    let told = json("move", &image, &["opening.bnr", "0x190002"]);
    assert_eq!((told.at("status").number(), told.at("edit").text()), (0, "move"));
    assert_eq!(told.at("path").text(), "opening.bnr");
    assert!(told.at("written").flag() && !told.at("dry_run").flag());
    let entries = told.at("entries").list();
    assert_eq!(entries.len(), 1);
    assert_eq!(entries[0].at("path").text(), "/opening.bnr");
    assert_eq!(place(&entries[0], "before"), (0x6_0000, 0x1960));
    assert_eq!(place(&entries[0], "after"), (0x19_0002, 0x1960));
    assert!(told.at("notes").list()[0].text().contains("no multiple of 4"));

    let told = json("resize", &image, &["opening.bnr", "0x1960"]);
    assert!(!told.at("written").flag() && told.at("entries").list().is_empty());

    let size = Table::of(&image).table_end - FST as u64;
    let told = json("mkdir", &image, &["text/de/new"]);
    let paths: Vec<&str> =
        told.at("entries").list().iter().map(|entry| entry.at("path").text()).collect();
    assert_eq!(paths, ["/text/de/", "/text/de/new/"]);
    let entry = &told.at("entries").list()[0];
    assert_eq!(entry.at("kind").text(), "directory");
    assert_eq!((entry.at("before"), entry.at("after")), (&Json::Null, &Json::Null));
    let table = told.at("table");
    assert_eq!(table.at("before").number(), size);
    assert_eq!(table.at("after").number(), size + (12 + 3) + (12 + 4));

    let told = json("add", &image, &["text/de/new/x"]);
    let entry = &told.at("entries").list()[0];
    let number = entry.at("number").number() as usize;
    assert_eq!(Table::of(&image).entries[number].path, "/text/de/new/x");
    assert_eq!((entry.at("before"), place(entry, "after")), (&Json::Null, (0, 0)));
    assert!(json("rewrite", &image, &[]).at("entries").list().is_empty());

    // A refusal and an error too, and nothing is changed.
    let before = State::of(&image);
    let run = on("move", &image, &["opening.bnr", "0x190100", "--json"]);
    assert_eq!((run.status, Json::read(&run.out).at("refused").number()), (20, 20));
    let run = on("move", &image, &["opening.bnr", "x", "--json"]);
    assert_eq!((run.status, Json::read(&run.out).at("status").number()), (64, 64));
    assert_eq!(State::of(&image), before);
}

#[test]
fn a_place_is_found_for_a_file_that_moves() {
    let temp = Temp::new();
    let image = usual_master(&temp);
    let bytes = span(&image, 0x9_0400, 0x3FF);
    let told = json("place", &image, &["0x3FF"]);
    let wanted = told.at("offset").number();
    let text = done("move", &image, &["audio/se/se001.dsp", "auto", "--dry-run"]);
    assert!(text.contains(&format!("0x90400 -> {wanted:#x}")), "{text}");
    done("move", &image, &["audio/se/se001.dsp", "auto"]);
    let entry = Table::of(&image).entry("/audio/se/se001.dsp").clone();
    assert_eq!(u64::from(entry.offset), wanted);
    assert_eq!(span(&image, wanted, 0x3FF), bytes);
    assert_eq!(span(&image, 0x9_0400, 0x3FF), vec![0; 0x3FF]);

    // No place of that size, a folder, and a path that is not there: as for a number.
    let before = State::of(&image);
    let run = on("move", &image, &["audio", "auto"]);
    assert_eq!(run.status, 16, "{}", run.err);
    assert_eq!(on("move", &image, &["nothing", "auto"]).status, 18);
    let small = temp.write("small.iso", &small_master());
    let run = on("move", &small, &["a", "auto"]);
    assert_eq!(run.status, 21, "{}", run.err);
    assert!(run.err.contains("no free place on a multiple of 0x8000"), "{}", run.err);
    assert_eq!(State::of(&image), before);
    // A file of that name is no number.
    assert_eq!(on("resize", &image, &["opening.bnr", "auto"]).status, 64);
}
