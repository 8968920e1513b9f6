//! Teams: the record that holds them, made from a list; whose edit it is; what 27 and 28 say; all of it on
//! files. The numbers come from the small master, by hand, and from the tests' own reader of tables; none from
//! libcounter.

mod support;

use std::fs;
use std::io;
use std::os::unix::fs::{MetadataExt, PermissionsExt, chown};
use std::os::unix::process::CommandExt;
use std::path::{Path, PathBuf};
use std::process::Command;
use support::shim::*;
use support::*;

/// The small master: its table ends at 1114, /a has 256 bytes at 1280, the disc ends at 8192. 1370 bytes are
/// used, 6822 free, 6656 of them in the largest free region.
fn small(temp: &Temp) -> PathBuf {
    temp.write("small.iso", &filled_master())
}

/// A record's text: used bytes, the largest free region, and a line a team.
fn text(used: u64, largest: u64, teams: &str) -> String {
    let count = teams.lines().count();
    format!("counter record 2\nused {used} largest {largest} teams {count}\n{teams}")
}

/// The small master's.
fn first(teams: &str) -> String {
    text(1370, 6656, teams)
}

fn read(file: &Path) -> String {
    fs::read_to_string(file).unwrap()
}

/// A record of the small master with these lines.
fn record(temp: &Temp, teams: &str) -> PathBuf {
    temp.write("totals", first(teams).as_bytes())
}

/// Runs an edit with a record, by a team.
fn by(team: &str, image: &Path, file: &Path, args: &[&str]) -> Run {
    let more = ["--record", file.to_str().unwrap(), "--team", team];
    on(args[0], image, &[&args[1..], &more].concat())
}

/// The same, which must be done; what it says of the record. The dry run says it too.
fn said(team: &str, image: &Path, file: &Path, args: &[&str]) -> String {
    let line = |run: &Run| {
        let lines: Vec<&str> = run.out.lines().rev().skip(1).take(2).collect();
        format!("{}\n{}\n", lines[1], lines[0])
    };
    let (before, kept) = (State::of(image), read(file));
    let dry = by(team, image, file, &[args, &["--dry-run"]].concat());
    assert_eq!(dry.status, 0, "{args:?}: {}", dry.err);
    assert_eq!((State::of(image), read(file)), (before, kept), "{args:?}");
    let run = by(team, image, file, args);
    assert_eq!(run.status, 0, "{args:?}: {}", run.err);
    assert!(!journal_of(image).exists(), "{args:?}");
    assert_eq!(line(&dry).replace("dry run: ", ""), line(&run), "{args:?}");
    line(&run)
}

/// The same, which must end with this status and leave image and record as they were; what JSON says of it.
fn not_done(
    team: &str,
    image: &Path,
    file: &Path,
    args: &[&str],
    status: i32,
    words: &str,
) -> Json {
    let (before, kept) = (State::of(image), fs::read(file).ok());
    let mut told = Json::Null;
    for more in [&["--dry-run"][..], &["--json"], &["--json", "--dry-run"], &[]] {
        let run = by(team, image, file, &[args, more].concat());
        assert_eq!(run.status, status, "{args:?}: {}", run.err);
        assert!(run.err.contains(words), "{args:?}: {}", run.err);
        if more.contains(&"--json") {
            let now = Json::read(&run.out);
            assert!(told == Json::Null || told == now, "{args:?}: {}", run.out);
            told = now;
        } else {
            assert_eq!(run.out, "", "{args:?}");
        }
        assert_eq!(State::of(image), before, "{args:?}");
        assert_eq!(fs::read(file).ok(), kept, "{args:?}");
        assert!(!journal_of(image).exists(), "{args:?}");
    }
    told
}

/// Makes a record with teams from a list.
fn make(temp: &Temp, image: &Path, list: &str) -> Run {
    let list = temp.write("teams.txt", list.as_bytes());
    let (file, list) = (temp.at("totals"), list.to_str().unwrap().to_string());
    let rest = ["--record", file.to_str().unwrap(), "--teams", &list, "--force"];
    on("record", image, &rest)
}

// By example ------------------------------------------------------------------------------

#[test]
fn two_teams_by_turns() {
    let temp = Temp::new();
    let image = small(&temp);
    let file = temp.at("totals");
    let run = make(&temp, &image, "# the desk's teams\n0 none 0 art\n\n1 7000 167 sound effects\n");
    let made = format!(
        "used 1,370 bytes, free 6,822 bytes, largest free region 6,656 bytes, edits 0\n\
         team  name           limit  share  taken  left of limit  left of share  edits\n\
         \x20  0  art             none      0      0           none              0      0\n\
         \x20  1  sound effects  7,000    167      0          7,000            167      0\n\
         written to {}\n",
        file.display()
    );
    assert_eq!((run.status, run.out), (0, made), "{}", run.err);
    assert_eq!(
        read(&file),
        first(
            "team 0 limit none share 0 taken 0 edits 0 name art\n\
             team 1 limit 7000 share 167 taken 0 edits 0 name sound effects\n"
        )
    );
    let line = said("art", &image, &file, &["resize", "a", "257"]);
    assert_eq!(
        line,
        "used 1,371 bytes, free 6,821 bytes, largest free region 6,655 bytes, edits 1\n\
         team art: taken 1 byte, no limit, 0 bytes left of its share of 0 bytes, edits 1\n"
    );
    // To 6,912 bytes it would leave 166 free, which is no less than what art has left of its share: 0.
    let line = said("sound effects", &image, &file, &["resize", "a", "6912"]);
    assert_eq!(
        line,
        "used 8,026 bytes, free 166 bytes, largest free region 166 bytes, edits 2\n\
         team sound effects: taken 6,655 bytes, limit 7,000 bytes, 0 bytes left of its share of 167 bytes, edits 1\n"
    );
    let line = said("0x1", &image, &file, &["resize", "a", "0"]);
    assert!(line.contains("team sound effects: taken 0 bytes, limit 7,000 bytes, 167 bytes left"));
    // What it gives back beyond what it had taken is nobody's.
    assert_eq!(
        read(&file),
        text(
            1114,
            7078,
            "team 0 limit none share 0 taken 1 edits 1 name art\n\
             team 1 limit 7000 share 167 taken 0 edits 2 name sound effects\n"
        )
    );
    // 7,078 bytes are free, and 167 of them the other team's.
    let told = not_done(
        "art",
        &image,
        &file,
        &["resize", "a", "6912"],
        28,
        "resize a to 6,912 bytes: refused 28: free bytes below the other teams' shares (the edit costs 6,912 \
         bytes and leaves 166 free, and the other teams have 167 yet to take of their shares: 1 short)\n",
    );
    let shares = told.at("shares");
    let numbers = ["team", "cost", "free", "others", "short"].map(|name| shares.at(name).number());
    assert_eq!(numbers, [0, 6912, 166, 167, 1]);
    assert_eq!((shares.at("name").text(), told.at("refused").number()), ("art", 28));
    assert_eq!(told.at("cause").text(), "free bytes below the other teams' shares");
    said("art", &image, &file, &["resize", "a", "6911"]);

    // All of them, without the image.
    let wanted = "used 8,025 bytes, largest free region 166 bytes, edits 4\n\
         team  name           limit  share  taken  left of limit  left of share  edits\n\
         \x20  0  art             none      0  6,912           none              0      2\n\
         \x20  1  sound effects  7,000    167      0          7,000            167      2\n";
    let name = file.to_str().unwrap();
    let shown = support::run(&["record", name]);
    assert_eq!((shown.status, shown.out.as_str()), (0, wanted), "{}", shown.err);
    let told = Json::read(&support::run(&["record", name, "--json"]).out);
    let record = told.at("record");
    let numbers = ["used", "largest_free", "edits"].map(|name| record.at(name).number());
    assert_eq!((numbers, record.at("free")), ([8025, 166, 4], &Json::Null));
    let [art, sound] = record.at("teams").list() else { panic!("{told:?}") };
    let fields = ["number", "limit", "share", "taken", "left_of_share", "edits"];
    assert_eq!(fields.map(|name| art.at(name).number()), [0, 4_294_967_295, 0, 6912, 0, 2]);
    assert_eq!(fields.map(|name| sound.at(name).number()), [1, 7000, 167, 0, 167, 2]);
    assert_eq!(art.at("left_of_limit"), &Json::Null);
    assert_eq!(sound.at("left_of_limit").number(), 7000);
    assert_eq!([art, sound].map(|team| team.at("name").text()), ["art", "sound effects"]);
}

/// The order of the tests, and what each says. Cost 0 is tested too.
#[test]
fn limits_and_shares_that_are_passed_are_told() {
    let temp = Temp::new();
    let image = small(&temp);
    let (rewrite, same) = (["rewrite"], ["resize", "a", "256"]);
    for args in [&rewrite[..], &same] {
        // Team 0 has taken more than it may.
        let file = record(&temp, "team 0 limit 5 share 0 taken 9 edits 3 name art\n");
        let words = "refused 27: taken bytes above the team's limit (team art has taken 9 bytes and the edit \
                     costs nothing: 4 above its limit of 5; if it may take more, raise the limit in the record's FILE)";
        let told = not_done("art", &image, &file, args, 27, words);
        let limit = told.at("limit");
        let fields = ["team", "taken", "cost", "limit", "above"];
        assert_eq!(fields.map(|name| limit.at(name).number()), [0, 9, 0, 5, 4]);
        assert_eq!(told.at("detail").text(), &words[words.find('(').unwrap() + 1..words.len() - 1]);
        // One that has as much as it may.
        let file = record(&temp, "team 0 limit 9 share 0 taken 9 edits 3 name art\n");
        let line = said("art", &image, &file, args);
        assert!(line.contains(
            "taken 9 bytes, limit 9 bytes, 0 bytes left of its share of 0 bytes, edits 4"
        ));
        // Of the 6,822 free bytes another team has one more yet to take.
        let lines = "team 0 limit none share 9 taken 0 edits 0\nteam 15 limit 0 share 6823 taken 0 edits 0 name x\n";
        let file = record(&temp, lines);
        let words = "(the edit costs nothing and leaves 6,822 free, and the other teams have 6,823 yet to take of \
                     their shares: 1 short)";
        let told = not_done("0", &image, &file, args, 28, words);
        let shares = told.at("shares");
        assert_eq!((shares.at("name"), shares.at("cost").number()), (&Json::Null, 0));
        let file = record(&temp, &lines.replace("6823", "6822"));
        let line = said("0", &image, &file, args);
        assert!(line.contains(
            "\nteam 0: taken 0 bytes, no limit, 9 bytes left of its share of 9 bytes, edits 1\n"
        ));
        assert_eq!(
            read(&file),
            first(&lines.replace("6823", "6822").replacen("edits 0", "edits 1", 1))
        );
    }
    // 27 before 28 before 25.
    let full = "team 0 limit 5 share 0 taken 9 edits 4294967295 name art\n";
    let other = "team 1 limit 0 share 6823 taken 0 edits 0 name x\n";
    let of = |team: &str, other: &str| record(&temp, &[team, other].concat());
    not_done("art", &image, &of(full, other), &rewrite, 27, "refused 27");
    not_done("art", &image, &of(&full.replacen('5', "9", 1), other), &rewrite, 28, "refused 28");
    let file = of(&full.replacen('5', "9", 1), &other.replace("6823", "6822"));
    let words = "refused 25: used bytes or edit count would leave 0 to 2^32 - 1 (the count of team art is at its \
                 end; `counter record IMAGE --record FILE --teams LIST --force` makes a new one, in which no team has taken anything)";
    not_done("art", &image, &file, &rewrite, 25, words);
    // Another team's count plays no part.
    let line =
        said("x", &image, &of(&full.replacen('5', "9", 1), &other.replace("6823", "0")), &rewrite);
    assert!(line.contains(", edits 4,294,967,296\nteam x: "), "{line}");
    // The edit's own refusals come first.
    not_done("art", &image, &of(full, other), &["move", "a", "0x400"], 21, "refused 21");
    not_done("art", &image, &of(full, other), &["add", "a"], 19, "refused 19");

    // No limit is one too, and the highest.
    let file = record(&temp, "team 0 limit none share 0 taken 4294967290 edits 0 name art\n");
    let words = "(team art has taken 4,294,967,290 bytes and the edit costs 14 bytes: 9 above 4,294,967,295, the \
                 most that any team can take)";
    not_done("art", &image, &file, &["mkdir", "d"], 27, words);

    // An edit that gives bytes back, and one that costs some.
    let file = record(&temp, "team 0 limit 5 share 0 taken 9 edits 0 name art\n");
    let words =
        "team art has taken 9 bytes and the edit gives 1 byte back: 3 above its limit of 5; if it";
    let told = not_done("art", &image, &file, &["resize", "a", "255"], 27, words);
    assert_eq!(told.at("limit").at("cost"), &Json::Number(-1.0));
    let words =
        "team art has taken 9 bytes and the edit costs 14 bytes: 18 above its limit of 5; if it";
    not_done("art", &image, &file, &["mkdir", "d"], 27, words);
    let line = said("art", &image, &file, &["resize", "a", "252"]);
    assert!(line.contains("\nteam art: taken 5 bytes, limit 5 bytes"), "{line}");
    let image = small(&temp);
    let file = record(
        &temp,
        "team 0 limit 0 share 0 taken 0 edits 0\nteam 1 limit 0 share 7000 taken 0 edits 0\n",
    );
    let words = "(the edit gives 6 bytes back and leaves 6,828 free, and the other teams have 7,000 yet to take of \
                 their shares: 172 short)";
    let told = not_done("0", &image, &file, &["resize", "a", "250"], 28, words);
    assert_eq!(told.at("shares").at("cost"), &Json::Number(-6.0));
}

/// A limit may be as high as it goes, and open; every kind of edit carries a team.
#[test]
fn every_edit_carries_its_team() {
    let temp = Temp::new();
    let given = temp.write("clip", &clip(300, 7));
    let edits: [(&[&str], u64); 7] = [
        (&["add", "b"], 14),
        (&["mkdir", "d/e"], 28),
        (&["mkdir", "."], 0),
        (&["move", "a", "0x600"], 0),
        (&["resize", "a", "300"], 44),
        (&["fill", "a", given.to_str().unwrap()], 44),
        (&["rewrite"], 0),
    ];
    for (args, cost) in edits {
        let image = small(&temp);
        let file = record(&temp, "team 7 limit 44 share 50 taken 0 edits 41 name seven\n");
        let line = said("seven", &image, &file, args);
        let left = 50 - cost;
        let words = format!(
            "\nteam seven: taken {cost} bytes, limit 44 bytes, {left} bytes left of its share of 50 bytes, edits 42\n"
        );
        assert!(line.ends_with(&words), "{args:?}: {line}");
        let table = Table::of(&image);
        let team = format!("team 7 limit 44 share 50 taken {cost} edits 42 name seven\n");
        assert_eq!(read(&file), text(table.used(), table.largest(), &team), "{args:?}");
        let more = ["--record", file.to_str().unwrap(), "--team=7"];
        let told = json("resize", &image, &[&["a", "0"], &more[..]].concat());
        let team = told.at("record").at("team");
        let fields = ["number", "limit", "share", "left_of_share", "left_of_limit", "edits"];
        let taken = team.at("taken").number();
        let wanted = [7, 44, 50, 50 - taken, 44 - taken, 43];
        assert_eq!(fields.map(|name| team.at(name).number()), wanted, "{args:?}");
        assert_eq!(team.at("name").text(), "seven");
        assert_eq!(told.at("record").at("edits").number(), 43);
    }
    // Without teams there is none to be told.
    let image = small(&temp);
    assert_eq!(json("rewrite", &image, &[]).at("record").at("team"), &Json::Null);
}

/// Edits at random by three teams, against the rule as it is written: cost and free bytes are those of the same
/// edit of a copy without a record.
#[test]
fn any_edits_by_three_teams() {
    let temp = Temp::in_memory();
    let image = usual_master(&temp);
    let free = Table::of(&image);
    let free = free.end - free.used();
    // Limit, share, taken, edits.
    let mut teams =
        [[u64::from(u32::MAX), 0, 0, 0], [free / 3, free / 2, 0, 0], [900, free / 2, 0, 0]];
    let list = format!("2 900 {0} c\n0 none 0 a\n1 {1} {0} b\n", free / 2, free / 3);
    assert_eq!(make(&temp, &image, &list).status, 0);
    let file = temp.at("totals");
    let wanted = |teams: &[[u64; 4]; 3], table: &Table| {
        let mut out = String::new();
        for ([limit, share, taken, edits], (k, name)) in
            teams.iter().zip([(0, "a"), (1, "b"), (2, "c")])
        {
            let limit = if k == 0 { "none".into() } else { limit.to_string() };
            out += &format!(
                "team {k} limit {limit} share {share} taken {taken} edits {edits} name {name}\n"
            );
        }
        text(table.used(), table.largest(), &out)
    };
    assert_eq!(read(&file), wanted(&teams, &Table::of(&image)));
    let mut random = 0x1357_9BDFu32;
    let mut below = |n: u32| {
        random ^= random << 13;
        random ^= random >> 17;
        random ^= random << 5;
        random % n
    };
    let mut seen = [0; 3];
    for turn in 0..150 {
        let table = Table::of(&image);
        let files: Vec<&Entry> = table.entries.iter().filter(|entry| !entry.folder).collect();
        let one = files[below(files.len() as u32) as usize];
        let path = one.path.as_str();
        let (place, size) = (below(0x20_0000).to_string(), below(0xC_0000).to_string());
        let name = format!("new{}", below(40));
        let args = match below(7) {
            0 => vec!["add", &name],
            1 => vec!["mkdir", &name],
            2 => vec!["move", path, &place],
            3 => vec!["rewrite"],
            _ => vec!["resize", path, &size],
        };
        let copy = temp.write("copy.iso", &fs::read(&image).unwrap());
        let own = on(args[0], &copy, &args[1..]);
        let (after, team) = (Table::of(&copy), below(3) as usize);
        let name = ["a", "b", "c"][team];
        let [limit, _, taken, _] = teams[team];
        let left = |team: &[u64; 4]| team[1].saturating_sub(team[2]);
        let others: u64 = teams.iter().map(left).sum::<u64>() - left(&teams[team]);
        let above = (taken + after.used()).saturating_sub(limit + table.used());
        let short = others.saturating_sub(after.end - after.used());
        let run = by(name, &image, &file, &args);
        let what = format!("{turn}, {name} {args:?}: {}{}", run.out, run.err);
        match own.status {
            0 if above > 0 => {
                assert_eq!(run.status, 27, "{what}");
                let words = format!(": {} above its limit of {};", grouped(above), grouped(limit));
                assert!(run.err.contains(&words), "{what}");
                seen[1] += 1;
            }
            0 if short > 0 => {
                assert_eq!(run.status, 28, "{what}");
                assert!(run.err.contains(&format!("shares: {} short)", grouped(short))), "{what}");
                seen[2] += 1;
            }
            0 => {
                assert_eq!(run.status, 0, "{what}");
                teams[team][2] = (taken + after.used()).saturating_sub(table.used());
                teams[team][3] += 1;
                assert!(fs::read(&image).unwrap() == fs::read(&copy).unwrap(), "{what}");
                seen[0] += 1;
            }
            other => assert_eq!(run.status, other, "{what}"),
        }
        assert_eq!(read(&file), wanted(&teams, &Table::of(&image)), "{what}");
        assert!(
            Table::of(&image).end - Table::of(&image).used() >= teams.iter().map(left).sum(),
            "{what}"
        );
    }
    println!("accepted, 27, 28: {seen:?}");
    assert!(seen.iter().all(|count| *count > 5), "{seen:?}");
}

// Whose edit it is ------------------------------------------------------------------------

#[test]
fn a_team_is_named_exactly_where_the_record_has_teams() {
    let temp = Temp::new();
    let image = small(&temp);
    let file = record(
        &temp,
        "team 0 limit none share 0 taken 0 edits 0 name art\nteam 3 limit none share 0 taken 0 edits 0\n",
    );
    let name = file.to_str().unwrap().to_string();
    let before = (State::of(&image), read(&file));
    let wrong = |args: &[&str], words: &str| {
        for more in [&["--dry-run"][..], &[]] {
            let run = on("resize", &image, &[&["a", "9"], args, more].concat());
            assert_eq!((run.status, run.out.as_str()), (64, ""), "{args:?}: {}", run.err);
            assert!(run.err.contains(words), "{args:?}: {}", run.err);
            assert_eq!((State::of(&image), read(&file)), before, "{args:?}");
        }
    };
    let has = format!("the record {name} has the teams 0 art, 3\n");
    wrong(&["--record", &name], &format!("--team NAME or NUMBER is missing: {has}"));
    for team in ["Art", "artist", "", "1", "16", "4294967296", "-1", " art", "0x"] {
        let words =
            format!("--team \"{team}\": the record {name} has no such team; it has 0 art, 3\n");
        wrong(&["--record", &name, "--team", team], &words);
    }
    wrong(&["--team", "art"], "--team is for --record FILE, a record that has teams\n");
    let run = on("resize", &image, &["a", "9", "--record", &name, "--team"]);
    assert!(run.status == 64 && run.err.contains("--team wants a team's name or number\n"));
    wrong(&["--record", &name, "--team", "0", "--team", "3"], "--team is given twice");
    for team in ["art", "0", "0x0", "3", "03"] {
        assert_eq!(by(team, &image, &file, &["rewrite", "--dry-run"]).status, 0, "{team}");
    }

    // A record without teams, and none yet.
    let plain = temp.write("plain", b"counter record 1\nused 1370 largest 6656 edits 4\n");
    let plain = plain.to_str().unwrap();
    let words = format!(
        "--team: the record {plain} has no teams; leave it out, or `counter record IMAGE --record FILE --teams LIST \
         --force` makes a new one with teams\n"
    );
    wrong(&["--record", plain, "--team", "0"], &words);
    let none = temp.at("none");
    let words = format!(
        "--team: there is no record yet, {}; `counter record IMAGE --record FILE --teams LIST` makes one with teams\n",
        none.display()
    );
    wrong(&["--record", none.to_str().unwrap(), "--team", "0"], &words);
    assert!(!none.exists());
    let out = done("rewrite", &image, &["--record", plain]);
    assert!(out.contains("largest free region 6,656 bytes, edits 5\ndone: "), "{out}");
    assert_eq!(read(Path::new(plain)), "counter record 1\nused 1370 largest 6656 edits 5\n");
    // Commands that take no record take no team.
    for args in [&["maximum", "0"][..], &["recover"], &["record"], &["check"]] {
        let run = on(args[0], &image, &[&args[1..], &["--team", "0"]].concat());
        assert_eq!(run.status, 64, "{args:?}: {}", run.err);
        assert!(run.err.contains("has no option --team"), "{args:?}: {}", run.err);
    }
}

/// Nor does it matter how a terminal shows a name.
#[test]
fn a_name_may_be_any_text() {
    let temp = Temp::new();
    let image = small(&temp);
    let run = make(&temp, &image, "0 none 1 音楽\n1 none 1 Éva  &\t Zoë\n2 none 1 -x\n");
    let table = "team  name       limit  share  taken  left of limit  left of share  edits\n\
                 \x20  0  音楽        none      1      0           none              1      0\n\
                 \x20  1  Éva & Zoë   none      1      0           none              1      0\n\
                 \x20  2  -x          none      1      0           none              1      0\n";
    assert!(run.status == 0 && run.out.contains(table), "{}{}", run.out, run.err);
    let file = temp.at("totals");
    for name in ["音楽", "Éva & Zoë", "-x"] {
        let line = said(name, &image, &file, &["rewrite"]);
        assert!(line.contains(&format!("\nteam {name}: taken 0 bytes")), "{line}");
    }
    let mut command = program();
    command.env("LC_ALL", "ja_JP.eucJP").args(["record", file.to_str().unwrap()]);
    let run: Run = command.output().unwrap().into();
    assert!(run.status == 0 && run.out.is_ascii(), "{}{}", run.out, run.err);
    assert!(run.out.contains("\\xe9\\x9f\\xb3\\xe6\\xa5\\xbd"), "{}", run.out);
    let told = json("record", &file, &[]);
    assert_eq!(told.at("record").at("teams").list()[0].at("name").text(), "音楽");
}

// The list --------------------------------------------------------------------------------

#[test]
fn numbers_of_a_list_are_written_as_others_are() {
    let temp = Temp::new();
    let image = small(&temp);
    let list = "\u{feff}  # a note\r\n\t\r\n 0xF\t4K 0x10 \r\n3 - 1k\n2 0xffffffff 0   two\n1 none 1M one # 1";
    let run = make(&temp, &image, list);
    assert_eq!(run.status, 65, "{}", run.err);
    assert!(run.err.contains(", line 6: the name \"one # 1\": it holds a #"), "{}", run.err);
    let run = make(&temp, &image, &list.replace(" # 1", ""));
    assert_eq!(run.status, 0, "{}", run.err);
    let text = first(
        "team 1 limit none share 1048576 taken 0 edits 0 name one\n\
         team 2 limit none share 0 taken 0 edits 0 name two\n\
         team 3 limit none share 1024 taken 0 edits 0\n\
         team 15 limit 4096 share 16 taken 0 edits 0\n",
    );
    assert_eq!(read(&temp.at("totals")), text);
}

#[test]
fn a_list_that_is_wrong_is_told_with_its_line() {
    let temp = Temp::new();
    let image = small(&temp);
    let file = record(&temp, "team 0 limit none share 0 taken 0 edits 7\n");
    let kept = read(&file);
    let long = "x".repeat(101);
    let wrong: [(&str, &str); 25] = [
        ("0 1 1 a\n\n0 2 2 b\n", ", line 3: team 0 is there twice\n"),
        ("16 1 1 a\n", ", line 1: there is no team 16: teams have the numbers 0 to 15\n"),
        ("4294967296 1 1 a\n", ", line 1: team 4294967296: above 2^32 - 1"),
        ("-1 1 1 a\n", ", line 1: team -1: a number is wanted"),
        ("# x\nart 1 1\n", ", line 2: team art: a number is wanted"),
        ("0 7,000 1 a\n", ", line 1: limit 7,000: a number of bytes is wanted, or `none`\n"),
        ("0 4G 1 a\n", ", line 1: limit 4G: above 2^32 - 1 (4,294,967,295)"),
        ("0 open 1 a\n", ", line 1: limit open: a number of bytes is wanted, or `none`\n"),
        ("0 1 none a\n", ", line 1: share none: a number is wanted"),
        ("0 1 -1 a\n", ", line 1: share -1: a number is wanted"),
        ("0 1\n", ", line 1: a team's number, its limit, its share and its name are wanted\n"),
        (
            "0 1 1 7\n",
            ", line 1: the name \"7\": this is a number, and --team would take it for one\n",
        ),
        ("0 1 1 0x1f\n", "the name \"0x1f\": this is a number"),
        ("0 1 1 99999999999K\n", "this is a number"),
        ("0 1 1 a b\n1 1 1 a  b\n", ", line 2: the name \"a b\" is that of team 0 already\n"),
        (
            "0 1 1 a\u{202e}b\n",
            ", line 1: the name \"a\\xe2\\x80\\xaeb\": it holds a control character",
        ),
        ("0 1 1 a\u{1b}[2J\n", ", line 1: this line holds a control character\n"),
        ("0 1 1 a\r1 2 2 b\n", ", line 1: this line holds a control character\n"),
        ("0 1 1 a\u{c}1 2 2 b\n", ", line 1: this line holds a control character\n"),
        ("0 1 1 \u{3000}\n", "the name \"\u{3000}\": it is blank, at one end or altogether\n"),
        ("0 1 1 a\u{a0}\n", ": it is blank, at one end or altogether\n"),
        ("0 1 1 a\u{200b}\n", "it holds a character that shows nothing\n"),
        ("0 1 1 a\u{feff}b\n", "it holds a character that shows nothing\n"),
        (&format!("0 1 1 {long}\n"), "it has 101 bytes, and 100 are the most\n"),
        ("# nobody\n\n", ": it names no team\n"),
    ];
    for (list, words) in wrong {
        let run = make(&temp, &image, list);
        assert_eq!((run.status, run.out.as_str()), (65, ""), "{list}: {}", run.err);
        assert!(run.err.contains(words), "{list}: {}", run.err);
        assert_eq!(read(&file), kept);
    }
    let list = temp.write("teams.txt", b"0 1 1 \xE9\n");
    let list = list.to_str().unwrap();
    let run = on("record", &image, &["--teams", list]);
    assert!(run.status == 65 && run.err.contains(", line 1: this is no UTF-8"), "{}", run.err);
    for (list, status) in [("nothing", 66), (temp.at("").to_str().unwrap(), 66)] {
        let run = on("record", &image, &["--teams", list]);
        assert_eq!(run.status, status, "{list}: {}", run.err);
    }
    let run = on("record", &image, &["--teams", list, "--teams", list]);
    assert!(run.status == 64 && run.err.contains("--teams is given twice"), "{}", run.err);
    // The longest name, sixteen times.
    let longest: String =
        (0..16).map(|k| format!("{k} none 4294967295 {k:x}{}\n", "x".repeat(99))).collect();
    assert_eq!(make(&temp, &image, &longest.replace(" 0x", " yx")).status, 0);
    assert_eq!(on("record", &file, &[]).status, 0);
}

/// No limit and no share is refused. What cannot come out even is said.
#[test]
fn shares_that_are_too_large_are_told() {
    let temp = Temp::new();
    let image = small(&temp);
    let list = "0 4294967295 6822 a\n1 0 0 b\n";
    let run = make(&temp, &image, list);
    assert!(run.status == 0 && !run.out.contains("note: "), "{}{}", run.out, run.err);
    let run = make(&temp, &image, "0 4294967295 6822 a\n1 0 1 b\n2 9 10\n");
    let notes = "note: all shares together are 6,833 bytes, and 6,822 are free: a team may be refused (28) within \
                 its share\n\
                 note: the share of team b is 1 byte and its limit 0: what is above the limit is kept for it, and \
                 it can never take that\n\
                 note: the share of team 2 is 10 bytes and its limit 9: what is above the limit is kept for it, and \
                 it can never take that\n\
                 written to ";
    assert!(run.status == 0 && run.out.contains(notes), "{}{}", run.out, run.err);
    let all: String = (0..16).map(|k| format!("{k} 0 4294967295\n")).collect();
    let run = make(&temp, &image, &all);
    assert!(
        run.out.contains("all shares together are 68,719,476,720 bytes, and 6,822"),
        "{}",
        run.out
    );
    // Without a FILE the list is only looked at.
    let list = temp.at("teams.txt");
    let told = json("record", &image, &["--teams", list.to_str().unwrap()]);
    assert_eq!(told.at("notes").list().len(), 17);
    assert_eq!((told.at("out"), told.at("record").at("teams").list().len()), (&Json::Null, 16));
    assert_eq!(told.at("record").at("free").number(), 6822);
    assert_eq!(json("record", &image, &[]).at("notes").list().len(), 0);
}

// The file --------------------------------------------------------------------------------

#[test]
fn a_spoiled_record_with_teams_is_told() {
    let temp = Temp::new();
    let image = small(&temp);
    let good = "team 0 limit 70 share 8 taken 1 edits 2 name a name b\nteam 1 limit none share 0 taken 0 edits 0\n";
    let file = record(&temp, good);
    let line = said("a name b", &image, &file, &["rewrite"]);
    assert!(
        line.contains("\nteam a name b: taken 1 byte, limit 70 bytes, 7 bytes left of"),
        "{line}"
    );
    let good = first(good);
    let fields = "line 3: `team N limit N share N taken N edits N name NAME` is wanted";
    let written = "line 3 is not as the program writes it";
    let spoiled: [(String, &str); 25] = [
        (
            good.replace("record 2", "record 3"),
            "its first line is of no version that this program knows",
        ),
        (good.replace("record 2", "record 1"), "line 2: `used N largest N edits N` is wanted"),
        (good.replace("1370", "-1370"), "line 2: `used N largest N teams N` is wanted"),
        (good.replace(" teams 2", ""), "line 2: `used N largest N teams N` is wanted"),
        (good.replace("teams 2", "teams 1"), "it has 2 teams, and line 2 says 1"),
        (
            good.lines().take(3).map(|line| format!("{line}\n")).collect(),
            "it has 1 team, and line 2 says 2",
        ),
        (good.replace("1370", "01370"), "line 2 is not as the program writes it"),
        (good.replace("limit 70", "limit 4294967296"), fields),
        (good.replace("limit 70", "limit 4294967295"), written),
        (good.replace("share 8", "share none"), written),
        (good.replace("share 8", "share"), fields),
        (good.replace("share 8", "share 08"), written),
        (good.replace("taken", "tokan"), fields),
        (good.replace("team 0", "team 16"), "line 3: there is no team 16"),
        (good.replace("team 1", "team 0"), "line 4: team 0 is there twice"),
        (good.replace("name b", "#"), "line 3: the name \"a #\": it holds a #"),
        (good.replace("name a name b", "name 7"), "line 3: the name \"7\": this is a number"),
        (format!("{good}\n"), "line 5: `team N limit"),
        (good.replace("\n", "\r\n"), "its lines end with CR LF; LF alone is wanted"),
        (format!("\u{feff}{good}"), "it begins with a byte order mark; none is wanted"),
        (
            good.replace("name a name b", "name a  b"),
            "line 3: the name \"a  b\": it holds two spaces",
        ),
        (good.replace("name b", "name b "), "line 3: the name \"a name b \": it is blank, at one"),
        (good.replace("name a name b", "name "), "line 3: the name \"\": it is blank, at one end"),
        (good.trim_end().into(), "line 4 is not as the program writes it"),
        (first(""), "it has the form of one with teams, and no team"),
    ];
    for (text, why) in &spoiled {
        fs::write(&file, text).unwrap();
        let words = format!("this record is torn, or of another version of counter: {why}");
        let anew = match text.trim_start_matches('\u{feff}').starts_with("counter record 2") {
            true => {
                ". Put it right by hand, or `counter record IMAGE --record FILE --teams LIST --force` makes a new one"
            }
            false => {
                ". Take it away: then the edit makes a new one, which counts from 0. Nothing was written\n"
            }
        };
        not_done("a", &image, &file, &["move", "a", "0x600"], 65, &words);
        not_done("a", &image, &file, &["move", "a", "0x600"], 65, anew);
        for more in [&["--json"][..], &[]] {
            let run = on("record", &file, more);
            assert_eq!(run.status, 65, "{text}: {}", run.err);
            assert!(run.err.contains(&words), "{text}: {}", run.err);
        }
    }
    // Teams that are in another order, and names that are equal.
    let lines: Vec<&str> = good.split_inclusive('\n').collect();
    fs::write(&file, [lines[0], lines[1], lines[3], lines[2]].concat()).unwrap();
    not_done("a", &image, &file, &["rewrite"], 65, "line 3 is not as the program writes it");
    fs::write(&file, good.replace("edits 0\n", "edits 0 name a name b\n")).unwrap();
    not_done(
        "a",
        &image,
        &file,
        &["rewrite"],
        65,
        "line 4: the name \"a name b\" is that of team 0 already",
    );
    for len in 0..good.len() {
        fs::write(&file, &good[..len]).unwrap();
        assert_eq!(by("1", &image, &file, &["rewrite"]).status, 65, "{len}");
    }
    // What is in no record is no number of the file's.
    fs::write(&file, [&good[..], &" ".repeat(0x1000)].concat()).unwrap();
    not_done("1", &image, &file, &["rewrite"], 65, ": this is no record; name another file");
}

#[test]
fn a_record_is_shown_without_its_image() {
    let temp = Temp::new();
    let image = small(&temp);
    let plain = temp.write("plain", b"counter record 1\nused 1370 largest 6656 edits 4\n");
    let out = "used 1,370 bytes, largest free region 6,656 bytes, edits 4\nit has no teams\n";
    assert_eq!(done("record", &plain, &[]), out);
    let told = json("record", &plain, &[]);
    let record = told.at("record");
    assert_eq!((record.at("edits").number(), record.at("teams")), (4, &Json::Null));
    // By a link; while it is in use; and nothing is written.
    let link = temp.at("link");
    std::os::unix::fs::symlink(&plain, &link).unwrap();
    let before = State::of(&plain);
    let held = fs::File::open(&plain).unwrap();
    held.lock().unwrap();
    assert_eq!(done("record", &link, &[]), out);
    assert_eq!(State::of(&plain), before);
    drop(held);
    // It is no image.
    let (file, list) = (temp.at("totals"), temp.write("teams.txt", b"0 1 1\n"));
    for more in [["--record", file.to_str().unwrap()], ["--teams", list.to_str().unwrap()]] {
        let run = on("record", &plain, &more);
        assert_eq!(run.status, 64, "{more:?}: {}", run.err);
        assert!(run.err.contains("this is a record; --record and --teams want an image"));
        assert!(!file.exists());
    }
    assert_eq!(on("info", &plain, &[]).status, 3);
    // Nor is an image a record, whatever game it is.
    let mut bytes = filled_master();
    bytes[..15].copy_from_slice(b"counter record ");
    put(&mut bytes, 0x1C, 0xC233_9F3D);
    bytes.truncate(0xFFF);
    put(&mut bytes, 0x434, 0xFFF);
    let odd = temp.write("odd.iso", &bytes);
    assert!(done("record", &odd, &[]).starts_with("used 1,370 bytes, free 2,725 bytes, "));
    let run = on("record", &image, &["--record", odd.to_str().unwrap(), "--force"]);
    assert!(
        run.status == 73 && run.err.contains("is there already, and is no record"),
        "{}",
        run.err
    );
}

#[test]
fn teams_are_not_lost_unsaid() {
    let temp = Temp::new();
    let image = small(&temp);
    let file = record(&temp, "team 0 limit none share 5 taken 9 edits 4 name art\n");
    let (name, kept) = (file.to_str().unwrap(), read(&file));
    for more in [&["--force"][..], &[]] {
        let run = on("record", &image, &[&["--record", name], more].concat());
        assert_eq!(run.status, 73, "{more:?}: {}", run.err);
        assert_eq!(read(&file), kept);
        let has =
            "is there already, and has teams; --force --teams LIST replaces it, or take it away";
        assert!(run.err.contains(has), "{}", run.err);
    }
    // One without teams goes for one with teams, or for another without.
    let list = temp.write("teams.txt", b"0 none 5 art\n");
    for (more, wanted) in [
        (&[][..], "counter record 1\nused 1370 largest 6656 edits 0\n".into()),
        (
            &["--teams", list.to_str().unwrap()],
            first("team 0 limit none share 5 taken 0 edits 0 name art\n"),
        ),
    ] {
        let plain = temp.write("plain", b"counter record 1\nused 1370 largest 6656 edits 4\n");
        let args = ["--record", plain.to_str().unwrap()];
        let run = on("record", &image, &[&args, more].concat());
        assert_eq!(run.status, 73, "{}", run.err);
        assert!(run.err.contains("is there already; --force replaces it"), "{}", run.err);
        done("record", &image, &[&args, more, &["--force"]].concat());
        assert_eq!(read(&plain), wanted);
    }
    // Somebody edits without it.
    done("mkdir", &image, &["d"]);
    let words = format!(
        "`counter record {0} --record {name} --teams LIST --force` makes a new one, in which no team has taken anything",
        image.display()
    );
    not_done("art", &image, &file, &["rewrite"], 65, &words);
    let note = "note: what the teams had taken in the record that was there, and their edits, are set to 0\n";
    let run = make(&temp, &image, "0 none 5 art\n");
    assert!(run.status == 0 && run.out.contains(note), "{}{}", run.out, run.err);
    let run = make(&temp, &image, "0 none 5 art\n");
    assert!(run.status == 0 && !run.out.contains("note: "), "{}{}", run.out, run.err);
    assert_eq!(
        read(&file),
        text(1384, 6656, "team 0 limit none share 5 taken 0 edits 0 name art\n")
    );
}

/// Whoever edits and is not the owner of the record keeps its group, if he is of it.
#[test]
fn the_group_of_the_file_is_kept() {
    if fs::metadata("/proc/self").unwrap().uid() != 0 {
        not_tried("a record of a group: only root makes files of others");
        return;
    }
    let temp = Temp::new();
    let (image, file) =
        (small(&temp), record(&temp, "team 0 limit none share 0 taken 0 edits 0\n"));
    // Where the program is built nobody else may be let in.
    let own = copied(&temp);
    for (path, mode) in [(&temp.at(""), 0o777), (&image, 0o666), (&file, 0o664)] {
        fs::set_permissions(path, fs::Permissions::from_mode(mode)).unwrap();
    }
    chown(&file, Some(1001), Some(2000)).unwrap();
    let mut command = Command::new(&own);
    command.arg("rewrite").arg(&image).args(["--team", "0", "--record"]).arg(&file);
    command.env_remove("COUNTER_WRITE");
    // SAFETY: between fork and exec only these calls of the system are made.
    unsafe {
        command.pre_exec(|| {
            let made = setgroups(1, &2000) | setgid(1002) | setuid(1002);
            if made == 0 { Ok(()) } else { Err(io::Error::last_os_error()) }
        });
    }
    let run: Run = command.output().unwrap().into();
    assert_eq!(run.status, 0, "{}", run.err);
    let told = fs::metadata(&file).unwrap();
    assert_eq!((told.uid(), told.gid(), told.mode() & 0o777), (1002, 2000, 0o664));
}

unsafe extern "C" {
    fn setgroups(count: usize, groups: *const u32) -> i32;
    fn setgid(group: u32) -> i32;
    fn setuid(user: u32) -> i32;
}

// Cuts ------------------------------------------------------------------------------------

const TEAMS: &str = "team 0 limit none share 0 taken 4 edits 4 name art\nteam 9 limit 700 share 9 taken 0 edits 1\n";

/// An edit of team 9 that is cut when its table was written.
fn cut(shim: Shim, temp: &Temp, args: &[&str]) -> (PathBuf, PathBuf) {
    let (image, file) = (small(temp), record(temp, TEAMS));
    let mut command = program();
    command
        .arg(args[0])
        .arg(&image)
        .args(&args[1..])
        .arg("--record")
        .arg(&file)
        .args(["--team", "9"]);
    // Behind the copy.
    shim.at(&mut command, image_write(2), Do::From(FULL));
    let run: Run = command.output().unwrap().into();
    assert_eq!(run.status, 78, "{}", run.err);
    assert!(journal_of(&image).exists());
    assert_eq!(read(&file), first(TEAMS));
    (image, file)
}

#[test]
fn a_cut_edit_is_counted_for_its_team_when_it_is_finished() {
    let Some(shim) = Shim::get() else { return };
    let temp = Temp::in_memory();
    let moved = ["move", "a", "0x1000"];
    let text = text(1370, 3840, &TEAMS.replace("edits 1", "edits 2"));
    let (image, file) = cut(shim, &temp, &moved);
    let place = fs::canonicalize(&file).unwrap();
    let out = done("recover", &image, &[]);
    let wanted = format!(
        "finished an edit that was cut: move a to 0x1000\n\
         used 1,370 bytes, free 6,822 bytes, largest free region 3,840 bytes, edits 6\n\
         team 9: taken 0 bytes, limit 700 bytes, 9 bytes left of its share of 9 bytes, edits 2\n\
         record written to {}\ndone: written and synced\n",
        place.display()
    );
    assert_eq!((out, read(&file)), (wanted, text.clone()));
    let (image, _) = cut(shim, &temp, &moved);
    // What an option is for is told of commands that have it.
    for (args, told) in
        [(&["record"][..], false), (&["mkdir", "e", "--dry-run"], false), (&["info"], true)]
    {
        let run = on(args[0], &image, &args[1..]);
        assert_eq!((run.status, run.err.contains("--as-is")), (78, told), "{args:?}: {}", run.err);
    }
    let told = json("recover", &image, &[]);
    let team = told.at("record").at("team");
    assert_eq!((team.at("number").number(), team.at("edits").number()), (9, 2));
    assert_eq!(told.at("record").at("edits").number(), 6);

    // The next edit finishes it first, whatever becomes of that one.
    let (image, file) = cut(shim, &temp, &moved);
    let run = by("art", &image, &file, &["mkdir", "d"]);
    assert_eq!(run.status, 0, "{}", run.err);
    assert!(run.err.contains("finished an edit that was cut: move a to 0x1000; record written"));
    let both = text.replace("1370", "1384").replace("taken 4 edits 4", "taken 18 edits 5");
    assert_eq!(read(&file), both);
    let (image, file) = cut(shim, &temp, &moved);
    let run = on("rewrite", &image, &["--record", file.to_str().unwrap()]);
    assert_eq!((run.status, read(&file)), (64, text.clone()), "{}", run.err);
    // A record that is another by then keeps the journal.
    let (image, file) = cut(shim, &temp, &moved);
    let other = first(&TEAMS.replace("taken 4", "taken 5"));
    fs::write(&file, &other).unwrap();
    let run = on("recover", &image, &[]);
    assert_eq!(run.status, 78, "{}", run.err);
    assert!(run.err.contains("totals: another program changed this record since"), "{}", run.err);
    assert_eq!(read(&file), other);
    let run = on("recover", &image, &["--without-record"]);
    assert!(run.status == 0 && run.out.contains("\nteam 9: "), "{}{}", run.out, run.err);
    assert_eq!(read(&file), other);
}

/// Whatever becomes of the edit, the record is the image's, and its team has the edit if it was done.
#[test]
fn the_record_goes_with_the_edit_when_the_disk_is_full() {
    let Some(shim) = Shim::get() else { return };
    let temp = Temp::in_memory();
    let first = first(TEAMS);
    for (args, taken) in
        [(&["resize", "a", "300"][..], 44), (&["mkdir", "d"], 14), (&["resize", "a", "256"], 0)]
    {
        let mut seen = Vec::new();
        for n in 1.. {
            let (image, file) = (small(&temp), temp.write("totals", first.as_bytes()));
            let mut command = program();
            command.arg(args[0]).arg(&image).args(&args[1..]).arg("--record").arg(&file);
            command.args(["--team", "9"]);
            shim.at(&mut command, At { kinds: "wscf", files: "", n }, Do::From(FULL));
            let run: Run = command.output().unwrap().into();
            seen.push(run.status);
            let what = format!("{args:?}, full from {n}: {}{}", run.out, run.err);
            assert!([0, 74, 78].contains(&run.status), "{what}");
            if run.status == 78 {
                let open =
                    fs::read(journal_of(&image)).is_ok_and(|bytes| bytes.first() == Some(&1));
                let out = done("recover", &image, &[]);
                assert_eq!(out.contains("\nteam 9: taken "), open, "{what}: {out}");
            }
            let table = Table::of(&image);
            let team = format!("taken {taken} edits 2");
            let lines = match run.status {
                74 => TEAMS.into(),
                _ => TEAMS.replace("taken 0 edits 1", &team),
            };
            let wanted = text(table.used(), table.largest(), &lines);
            assert_eq!(read(&file), wanted, "{what}");
            if run.status == 0 {
                break;
            }
        }
        assert!(seen.contains(&74), "{args:?}: {seen:?}");
    }
}
