//! `counter help`, from the table of commands.

use crate::args::{FORMS, Form, GROUPS, Group};
use crate::cause::CAUSES;
use std::fmt::Write;

pub const USAGE: &str = "usage: counter COMMAND IMAGE ...   (`counter help` has the commands)\n";

/// What the command is for, in one line.
pub const PURPOSE: &str = "GameCube disc images, looked at, edited, compared and made";

/// What `help` knows besides the commands.
pub const SUBJECTS: [(&str, &str); 5] = [
    ("names", "how names are shown and taken"),
    ("safety", "what is promised of an edit, and when it is cut"),
    ("exit", "every exit status"),
    ("json", "the fields of every answer"),
    ("all", "everything, on one page"),
];

const WIDTH: usize = 100;

/// The first page: it fits a screen of 80 columns and 24 lines.
pub fn first() -> String {
    let mut out = format!(
        "counter: {PURPOSE}\n\n\
         \x20 counter COMMAND IMAGE ...\n\
         \x20 counter help COMMAND       what it does, its options, examples\n\n"
    );
    for (group, name) in GROUPS {
        let names = FORMS.iter().filter(|form| form.group == group).map(|form| form.name);
        let names: Vec<&str> = names.collect();
        let _ = writeln!(out, "{name:<7}{}", names.join(" "));
    }
    out.push_str(
        "\nAn edit, step by step\n\
         \x20 counter check disc.iso                                 does it open?\n\
         \x20 cp disc.iso /mnt/before.iso && sync                    a copy, on another disk\n\
         \x20 cmp disc.iso /mnt/before.iso                           is it whole?\n\
         \x20 counter find disc.iso /text/msg.bin                    how far can it grow?\n\
         \x20 counter fill disc.iso /text/msg.bin new.bin --dry-run\n\
         \x20 counter fill disc.iso /text/msg.bin new.bin            the file is new.bin now\n\
         \x20 counter compare /mnt/before.iso disc.iso --given LIST  no other file differs?\n\n\
         More: counter help ",
    );
    let subjects: Vec<&str> = SUBJECTS.iter().map(|(name, _)| *name).collect();
    let _ = writeln!(out, "{}; or man counter.", subjects.join(" | "));
    out.push_str(
        "`counter help man`, bash, zsh and fish write the man page and completions.\n\
         The bare list, tree and info show a built-in small master.\n",
    );
    out
}

/// What `help` can be asked about.
pub fn known() -> impl Iterator<Item = &'static str> {
    FORMS.iter().map(|form| form.name).chain(SUBJECTS.iter().map(|(name, _)| *name))
}

fn all() -> String {
    let mut out = format!(
        "counter: {PURPOSE}\n\n\
         \x20 counter COMMAND IMAGE ...\n\
         \x20 counter help COMMAND      (or counter COMMAND --help)\n\n\
         The bare commands list, tree and info, and map --demo, show a built-in small master.\n\
         `counter help man`, bash, zsh and fish write the man page and completions (host/install).\n"
    );
    for (group, name) in GROUPS {
        let _ = writeln!(out, "\n{name}");
        for form in FORMS.iter().filter(|form| form.group == group) {
            command(&mut out, form);
        }
    }
    out.push_str(&arguments(FORMS));
    let compare = Form::find("compare").expect("a command");
    out.push_str("\nThe licence check: counter compare BEFORE AFTER --given LIST\n");
    out.push_str(&paragraphs(compare.more));
    out.push_str(NAMES);
    out.push_str(SAFETY);
    out.push_str(&json(FORMS));
    out.push_str(&statuses());
    out
}

/// Help on one subject: a command, or one of `SUBJECTS`.
pub fn about(subject: &str) -> Option<String> {
    match subject {
        "names" => return Some(NAMES.trim_start().to_string()),
        "safety" => return Some(SAFETY.trim_start().to_string()),
        "exit" => return Some(statuses().trim_start().to_string()),
        "json" => return Some(json(FORMS).trim_start().to_string()),
        "all" => return Some(all()),
        _ => {}
    }
    let form = Form::find(subject)?;
    let mut out = String::new();
    command(&mut out, form);
    if !form.more.is_empty() {
        let _ = writeln!(out, "\n{}", paragraphs(form.more).trim_end());
    }
    let form = std::slice::from_ref(form);
    out.push_str(&arguments(form));
    out.push_str("\nExamples\n");
    for example in form[0].examples {
        let _ = writeln!(out, "  {example}");
    }
    if form[0].has("--json") {
        out.push_str(&json(form));
    }
    if form[0].group == Group::Edit {
        out.push_str(SAFETY);
    }
    out.push('\n');
    if form[0].has("--bytes") {
        out.push_str("`counter help names` tells how names are shown and taken.\n");
    }
    out.push_str("`counter help exit` has every exit status.\n");
    Some(out)
}

fn command(out: &mut String, form: &Form) {
    for usage in form.usages() {
        let _ = writeln!(out, "{}", wrapped(&usage, 2, 6));
    }
    let _ = writeln!(out, "{}", wrapped(form.words, 6, 6));
}

/// Text in lines of at most `WIDTH` letters, the first one `first` letters in, the others `rest`.
fn wrapped(text: &str, first: usize, rest: usize) -> String {
    let mut out = " ".repeat(first);
    let mut column = first;
    let mut begun = false;
    for word in text.split(' ') {
        let long = word.chars().count();
        if begun && column + 1 + long > WIDTH {
            let _ = write!(out, "\n{}", " ".repeat(rest));
            column = rest;
        } else if begun {
            out.push(' ');
            column += 1;
        }
        out.push_str(word);
        column += long;
        begun = true;
    }
    out
}

/// Each line of `text` as a paragraph.
fn paragraphs(text: &str) -> String {
    text.lines().map(|line| wrapped(line, 2, 2) + "\n").collect()
}

/// Those of all commands, for the man page.
pub fn all_arguments() -> String {
    arguments(FORMS).trim_start().to_string()
}

/// The operands and options of these commands, each once.
fn arguments(forms: &[Form]) -> String {
    let mut told: Vec<(String, &str)> = Vec::new();
    let mut add = |name: String, words| {
        if !told.iter().any(|(known, _)| *known == name) {
            told.push((name, words));
        }
    };
    // Where some commands need an operand and others do not, the former say what it is.
    for needed in [true, false] {
        let operands = forms.iter().flat_map(|form| form.operands);
        for operand in operands.filter(|operand| operand.needed == needed) {
            add(operand.name.into(), operand.words);
        }
    }
    for flag in forms.iter().flat_map(|form| form.flags) {
        let value = flag.value.map_or(String::new(), |(value, _)| format!(" {value}"));
        add(format!("{}{value}", flag.name), flag.words);
    }
    add("--".into(), "what follows is no option");
    let mut out = String::from("\nArguments\n");
    let wide = told.iter().map(|(name, _)| name.len()).max().unwrap_or(0);
    for (name, words) in told {
        let line = wrapped(words, wide + 4, wide + 4);
        let _ = writeln!(out, "  {name:<wide$}  {}", line.trim_start());
    }
    out
}

/// What the JSON of each command holds. ENTRY is told behind them.
const FIELDS: &[(&str, &str)] = &[
    (
        "info",
        "image image_bytes game_code maker game_name disc version audio_streaming stream_buffer wii_magic \
         gamecube_magic debug_offset debug_address dol_offset fst_offset fst_size fst_maximum \
         user_position user_size disc_size unused_43c disc_end table_end entries files directories used \
         free free_regions largest_free fst_left fst_above fst_rewritten fst_rewritten_above \
         program_behind_table program{offset size behind_table} banner{kind short_title short_maker \
         long_title long_maker comment}; banner: of /opening.bnr, or null",
    ),
    ("list", "total used entries[ENTRY] free[offset size]"),
    (
        "tree",
        "ENTRY with name name_bytes for path path_bytes; a directory's also with bytes files \
         children[...]; the root's also with program{offset size behind_table}",
    ),
    (
        "free",
        "disc_end free program{offset size behind_table} regions[offset size]; with --clusters also \
         cluster_size clusters, and regions[offset size before clusters rest]",
    ),
    ("find", "ENTRY with largest_size (null for a directory)"),
    ("place", "size align offset room; room: the free bytes from offset on"),
    (
        "clear",
        "image size budget tried all_tried offset end aligned cost bound files[number path path_bytes offset size to \
         detail] no_place largest_left table_in_run moves[path path_bytes offset] accepted refusal{number cause \
         detail} untried clears place room out notes[...]; budget: null where all are tried; all_tried: whether there are no more \
         candidates; aligned: the run's first multiple of 0x8000, or null; to: where a file goes, or null, and detail \
         why it stays; no_place: how many stay; largest_left: the largest free region that is left outside of the \
         run; table_in_run: where the table ends that the next edit writes, if that is behind the run's start, else \
         null; refusal: of every edit that writes a table, or null; with either no_place is null and there are no \
         moves; moves: in an order in which each is accepted; accepted: how many of them, from the first on, a \
         private copy accepted; untried: why there is no such copy, or null; clears: whether the run is free once \
         the moves are made, all of which were accepted, and a new file can go there; place: where it goes, and \
         room: how many bytes are free from there on then, or null; out: OUT of --sheet, or null. With a budget of 0 tried is 0, files and moves are \
         empty, and what is not known is null",
    ),
    (
        "record",
        "status record{used free largest_free edits teams[TEAM]} notes[...] out; edits: of all teams; teams: null \
         where there are none; out: FILE of --record, or null; a FILE in the place of IMAGE: no notes and out, and \
         free is null",
    ),
    ("cat", "path path_bytes offset size hex"),
    ("extract", "bytes files[path path_bytes file file_bytes size]"),
    ("dol", "offset size entry_point bss_address bss_size sections[name offset address size]"),
    (
        "map",
        "out disc_end pieces[kind name name_bytes offset size]; kind: system program table file free; with --clear \
         also run{offset end size cost bound tried all_tried files}; files: how many are in it",
    ),
    (
        "check",
        "status opens entries files disc_end used free fst_size fst_maximum fst_left fst_above fst_rewritten \
         fst_rewritten_above stored_parents[number path path_bytes stored parent] root{name_offset parent} \
         unused_texts unused_texts_at REWRITE \
         alike[path path_bytes found found_bytes] notes[...]; stored_parents: folders whose stored parent \
         is not the one that they are nested in; unused_texts: bytes of the table's texts that no entry \
         uses; alike: names that a game which looks up without case does not find, and what it finds in their \
         place",
    ),
    ("compare", COMPARED),
    (
        "compare",
        "with --tables: status before after cut[name] same_tree difference{number parts[...] before{ENTRY} \
         after{ENTRY}} same_tables same_rewritten tables{before{entries fst_offset fst_size REWRITE} \
         after{entries fst_offset fst_size REWRITE}}; difference: the first entry that differs, or null; parts: name \
         kind folder offset size, or none where one image ends before that entry, which is null there; same_tables: \
         as they are now; same_rewritten: as a rewrite would write them, refused for room or the maximum (21, 26) or \
         not; null where a limit refuses one (9)",
    ),
    ("report", COMPARED),
    ("mkdir", EDITED),
    ("add", EDITED),
    ("move", EDITED),
    ("resize", EDITED),
    ("fill", EDITED),
    ("rewrite", EDITED),
    (
        "maximum",
        "status edit dry_run written fst_maximum{before after} fst_size fst_left fst_above fst_rewritten \
         fst_rewritten_above notes[...]",
    ),
    (
        "sheet",
        "status edit sheet lines from ran line dry_run written finished edits[line edit path path_bytes written \
         table{before after} entries[number path path_bytes kind before{offset size} after{offset size}] \
         renumbered{first last} lost notes[...] record{..}] record{used free largest_free edits team{TEAM}}; lines: \
         how many the sheet has; from: the first that was to run; ran: how many of them ran; line: the one at which \
         the sheet stopped, or null; written: whether the image was; finished: an edit that was cut before and is \
         finished now, or null; edits: of the lines that ran, in a dry run of those that would, as of an edit; record: \
         as that line, and as all leave it. A refusal at a line has all of this too. Where a line was cut before and no other was run, \
         line is that one, from the next or null, ran 0, finished null if it is not, and there are no edits and no \
         record. After a failing page the program begins anew: from and ran tell of the first one's lines too, edits \
         only of those since; of the last line the answer is that of recover",
    ),
    ("sheet", "with --compile: status edit out dry_run written lines bytes"),
    (
        "sheet",
        "with --show: status edit sheet lines edits[line edit path path_bytes offset size]; offset: of a move, else \
         null; size: of a resize, else null",
    ),
    (
        "recover",
        "status edit finished written out record{used free largest_free edits team{TEAM}} sheet{file line lines from there}; \
         finished: the edit that was \
         cut, or null; out: the FILE of its --record, where it was written, or null; record: as it is after that edit, or null (maximum has none); \
         sheet: the line of a sheet that it was, and with which the sheet goes on (null if it was the last), or null; \
         there: whether FILE is that sheet still",
    ),
    (
        "new",
        "status out dry_run written size game_code fst_size used free largest_free files[path path_bytes offset \
         size] left_out[folder] notes[...]; left_out: folders of DIR that hold no file",
    ),
    (
        "tables",
        "status into entries fst_size tables masters[file file_bytes table[ENTRY]]; entries: of each table, the root \
         among them; tables: how many",
    ),
];

const COMPARED: &str = "status before after manifest manifest_sum before_sum after_sum passed cut[name] \
    covers_all order_changed free_space \
    counts{unchanged moved resized changed new gone} areas[name status changed given field offset] \
    folders[path path_bytes status given] unknown[path] unknown_bytes[path] files[path path_bytes first \
    status moved resized changed hidden alike given before{offset size} after{offset size}]; changed: null where it cannot be told; an area's status: unchanged, changed, unknown or, \
    of the table, `written anew`; its offset: of the first byte that differs, by a manifest that of the part; alike: \
    what a game that looks up without case finds in its place, or null; manifest_sum: of the manifest itself; before_sum: of the image that it names, \
    both null without one; cut: those of which an edit was cut; free_space: unchanged, changed or \
    unknown; files and folders: only those that differ, with --only-differences";

const EDITED: &str = "status edit path path_bytes dry_run written table{before after} \
    entries[number path path_bytes kind before{offset size} after{offset size}] \
    renumbered{first last} lost notes[...] \
    record{used free largest_free edits team{TEAM}}; edits: of all teams; team: null where there are none; \
    written: whether the image was, whatever became of the \
    FILE of --record; entries: those that are new or differ; renumbered: those that have higher numbers \
    afterwards, or null; lost: how many bytes that the file held are gone; where all paths take more than 64 MiB, path is `entry N` and \
    path_bytes null";

fn json(forms: &[Form]) -> String {
    let mut out = String::from(
        "\nJSON (--json)\n  Every document has status, the exit status; so has that of an error, wrong usage too. A number is in\n  base ten, offsets and sizes in bytes. Paths and names are texts; beside each stand its bytes, in base\n  sixteen (path_bytes, name_bytes), --bytes or not.\n",
    );
    for (name, fields) in FIELDS.iter().filter(|(name, _)| forms.iter().any(|f| f.name == *name)) {
        let line = wrapped(fields, 11, 11);
        let _ = writeln!(out, "  {name:<8} {}", line.trim_start());
    }
    if forms.iter().any(|form| ["list", "tree", "find", "compare", "tables"].contains(&form.name)) {
        out.push_str("  ENTRY    number kind parent path path_bytes, and offset size (kind file) or next (kind directory)\n");
    }
    if forms.iter().any(|form| form.has("--record") || form.name == "recover") {
        out.push_str(
            "  TEAM     number name limit share taken left_of_limit left_of_share edits; name: or null; limit:\n\
             \x20          4294967295 is none, and left_of_limit then null\n",
        );
    }
    if forms.iter().any(|form| form.name == "info") {
        out.push_str("  game_code, maker, game_name: character n is byte n\n");
    }
    if forms.iter().any(|form| ["info", "check", "maximum"].contains(&form.name)) {
        out.push_str(
            "  fst_left: what is left of fst_maximum, or null where that is 0 (no maximum); fst_above: by how many\n\
             \x20 bytes the table is above it, or 0; fst_rewritten: the table's size as an edit writes it, no name\n\
             \x20 shared; fst_rewritten_above: by how many bytes that is above it, or 0 (where it is not 0 every edit\n\
             \x20 that writes a table is refused); both are null where there is no maximum, or where a limit\n\
             \x20 refuses a rewrite (9)\n",
        );
    }
    if forms.iter().any(|form| ["check", "compare"].contains(&form.name)) {
        out.push_str(
            "  REWRITE  rewrite_alters_at rewrite_refused rewrite_alters_bytes rewrite_first_altered rewrite_size\n\
             \x20          rewrite_refusal rewrite_cause rewrite_detail; rewrite_alters_at: where the table begins to be\n\
             \x20          another than a rewrite would write (where one of both ends, too), or null; rewrite_refused: 9\n\
             \x20          where a limit refuses that table, else null; rewrite_alters_bytes: how many bytes become\n\
             \x20          others, of those from the table's start to the end of the longer table, old or new;\n\
             \x20          rewrite_first_altered: the first of them, or null; rewrite_size: of the table that it would\n\
             \x20          write, null where a limit refuses that (9). rewrite_refusal (9, 21, 26), rewrite_cause and\n\
             \x20          rewrite_detail: of a refused one, else null; where there is no memory to try one,\n\
             \x20          rewrite_detail alone says so. In both cases nothing is altered, and rewrite_alters_bytes and\n\
             \x20          rewrite_first_altered are null\n",
        );
    }
    if forms.iter().any(|form| ["info", "tree", "free"].contains(&form.name)) {
        out.push_str("  program: null where the image names none\n");
    }
    if forms.iter().any(|form| form.name == "fill") {
        out.push_str(
            "  clip{name size}: of a fill; entries has the file that was filled in any case\n",
        );
    }
    out.push_str("  A refusal: status refused cause about detail; 26 also table{before after maximum above}, 27\n  limit{team name taken cost limit above}, 28 shares{team name cost free others short}, and 21 of `new`\n  least, which is the least --size, of `clear` and `map` most, which is the longest run that there is.\n  Another error: status error.\n");
    out
}

const NAMES: &str = "
Names
  - An image has its names in Shift-JIS, as Windows has it (CP932): bytes 0x20 to 0x7E and 0xA1 to
    0xDF, and pairs of a lead byte (0x81 to 0x9F, 0xE0 to 0xFC) with a trail byte (0x40 to 0x7E,
    0x80 to 0xFC). They are shown and taken in UTF-8. A trail byte 0x5C is no \\ and cuts no path.
  - What has no character of its own is shown by its bytes, \\x81\\xad, and is taken so: in a PATH,
    a LIST and a TEXT \\xHH is a byte from 0x80 on, or the trail byte of a lead byte that stands
    before it. A letter or a sign right behind a lead byte that is given so is its trail byte where it
    can be, a \\ too; another character there is an error. Any other \\ cuts a path like /. So where a
    folder holds a name like xfade, write text/xfade: text\\xfade has a byte 0xfa.
  - Some pairs share a character; it then means one of them, and the others are shown by their bytes,
    so that no two names have the same text.
  - A character that Shift-JIS does not have is an error (64, in a LIST or a TEXT 65), and so are the
    yen sign and the overline, of which it would make \\ and ~. Where it has a near one, as the
    full-width tilde for the wave dash, that is taken.
  - Where the locale (LC_ALL, LC_CTYPE, LANG) names another code than UTF-8, standard output and
    standard error have every byte from 0x80 on as \\xHH. A PATH is then taken in \\xHH, and where the
    locale names Shift-JIS also in bytes. Files are UTF-8 in any case: LIST, TEXT, manifest, picture,
    page, and the names of those that are extracted. Where the system's iconv has no CP932, there are
    no characters, only \\xHH.
  - With --bytes names are the image's bytes, for scripts: in a PATH, a LIST and a TEXT, on standard
    output, in a manifest and in the names of extracted files. Standard error, JSON, pictures and pages
    keep text. A manifest says by itself which of both it has.
  - `counter list` always has the bytes; `counter tree --paths` has every path as PATH takes it.
  - PATH goes by case, and many games do not: of two names in a folder that differ in case only they
    find the first. Letter by letter that is A to Z and, as pairs, the full-width Latin, the Greek and
    the Cyrillic letters; byte by byte, as C's tolower does it, A to Z also where it is a trail byte,
    so that 0x83 0x41 and 0x83 0x61 are one. Names that are the same in either way are told.
  - A new name of more than 255 bytes, which `extract` can give no file, and a new path of more than
    1,024, which no command can reach, are told too.
";

const SAFETY: &str = "
Safety
  - An edit makes all its tests before it writes its first byte. A refusal leaves every byte of the
    file and its time of modification as they were. That is proved of the library that edits.
  - The image is locked while it is used: readers share it, an editor has it alone. A second editor
    is told to wait (75). Other programs may ignore the lock.
  - `done` is said after every byte has been synced to the disk.
  - Images are opened for reading alone, but by one program: counter-write, which lies beside counter
    and is started by every edit. Before it writes to the image it writes a journal beside it,
    IMAGE.counter-journal: all that the edit will write, the clip of a fill too, which takes its room
    once more until the edit is done. The journal is on the disk before the first byte of the image
    changes, and is closed when the last one is there. So an edit that is cut anywhere (by a power
    cut, SIGKILL, a disk that fails or is full) is finished from it: `counter recover IMAGE` does it,
    and so does the next edit before it begins. Then the image is what the edit makes of it, every
    byte. Where a cut leaves no journal, or a closed one, the image is as it was, or the edit is done.
    That is proved of every disk that behaves as docs/DISK.md says; that a real file does so is
    argued there, and tested.
  - While there is the journal of an edit that was cut, commands that only read refuse (78); all but
    `record` take --as-is.
  - A journal of another image is never applied: its length, the number of its file and its header
    tell. The rest of the image is not compared, so if you bring an image back from a copy, take its
    journal away; if you rename the image, rename the journal with it. The FILE of a record (--record)
    may stay where it is: the journal names it by its absolute path. A journal is found by the
    image's name, after every symbolic link; by another hard link of the image it is not seen. One of
    a version before, which began with `counter journal`, is finished by that version alone.
  - Ctrl-C, SIGHUP, SIGQUIT and SIGTERM are answered at once: before the writing begins the program
    ends, and the image is as it was; from then on the edit is finished first, and about how long that
    takes is told. Every other signal but SIGKILL waits until the edit is done and synced. The program
    then says what became of it and ends by the signal.
  - On a terminal an edit that takes more than a second tells how far it is.
  - A program (main.dol) that lies behind the table is used like a file, and no edit writes there.
    `info` and `free` tell where it lies.
  - A header may state a maximum for the table (FST maximum, at 0x42c): games on two discs load the
    table of either into one place in memory. An edit that would write a larger one is refused (26)
    and says by how many bytes; `info` tells how much is left. An image whose table is above it opens,
    which `check` tells, and may be edited down to it. 0 states no maximum. `counter maximum` writes the
    field, and no other edit does; the line `header: FST maximum` of LIST gives leave for it.
  - Holes of a sparse image, blocks that a reflink copy shares and, on a copy-on-write disk (btrfs,
    ZFS), all blocks take new room when they are written. It is looked for first; if there is too
    little, nothing is written (74). If room fails in the midst of an edit all the same (78), make
    room, then `counter recover`.
  - A record (--record FILE) goes with the edit: what comes back is in the journal, and in FILE before
    the journal is closed. So it counts an edit that was cut once it is finished, and only then. If
    FILE cannot be written then, the journal stays (78), and what to do is told. `counter help record`
    says more.
  - Not promised: a disk that says it has synced what it has not; programs that ignore the lock.
  - A sheet is as many edits as it has lines, and what is said of an edit holds of each. Ctrl-C and the
    other signals end it between two lines at the latest. Where it is cut in a line, the journal tells
    at which one; cut between two lines, the last one that was told is done.
  - So keep a copy of an image that cannot be had again, on another disk, try with --dry-run, and
    let `counter compare` tell what changed.
";

fn statuses() -> String {
    let mut out = format!(
        "\nExit status, and what it says of the image of an edit\n   0  done: written and synced, or there was nothing to write\n   1  compare, report: something differs without leave, or with --tables the trees do; else as below\n      1 to {}: refused, nothing changed, not even the time of modification\n",
        CAUSES.len()
    );
    for (i, cause) in CAUSES.iter().enumerate() {
        out.push_str(&format!("  {:2}  refused: {cause}\n", i + 1));
    }
    out.push_str(
        "  64  wrong usage; a PATH that is no UTF-8, or has a character that Shift-JIS does not have;\n\
         \x20     an image to be edited, or the FILE of its record, whose name is no UTF-8;\n\
         \x20     --record: a FILE that is the image, a clip, a journal, a folder or a special file;\n\
         \x20     --team: left out with a record that has teams, given with another, or no team of it;\n\
         \x20     fill: a clip that is the image or a journal;\n\
         \x20     sheet: --from with no such line; where a line of the same sheet was cut and is finished now, --from\n\
         \x20     left out, or with that line;\n\
         \x20     clear, map: a budget of 0 with --sheet, or for a picture\n\
         \x20 65  compare, report: an image too short for a header, a LIST or a manifest that is wrong;\n\
         \x20     a command that shows every path: more than 64 MiB of them;\n\
         \x20     --record: a FILE that is torn or no record, or whose used bytes or largest free region\n\
         \x20     are not the image's;\n\
         \x20     record: a FILE that is torn in the place of IMAGE; --teams: a LIST that is wrong;\n\
         \x20     fill: a clip of no bytes without --empty, or of other than --size bytes;\n\
         \x20     new: a LIST that is wrong; OUT in DIR; in DIR a name that Shift-JIS does not have, a\n\
         \x20     counter-new.N, a file of 4 GiB or more, one whose length changes meanwhile, or more than\n\
         \x20     100,000 files;\n\
         \x20     sheet: a TEXT that is wrong, with line and column, or a sheet already; a sheet or a text of more\n\
         \x20     than 16 MiB;\n\
         \x20     clear: --sheet where there are no moves, or where they do not free the run\n\
         \x20 66  no such image or clip, or a folder in its place, or a special file in the image's;\n\
         \x20     --given, --from, --teams LIST: no such LIST, or a folder in its place; sheet: no such FILE or\n\
         \x20     TEXT, or a folder in its place;\n\
         \x20     new: no such DIR, or a file in its place, or a link or a special file in it\n\
         \x20 70  the library or counter-write answered what it never should, or counter-write is not there\n\
         \x20 73  an output, a journal or a record cannot be created, or is there already;\n\
         \x20     extract: two entries would be one file, or a name has too many bytes for a file;\n\
         \x20     tables: a DIR that is no folder; in it a name that one of the masters has, or a journal beside it\n\
         \x20 74  input/output error; the disk is full\n\
         \x20 75  another program is using the image, or the record's FILE\n\
         \x20 77  not allowed: a read-only file or disk, or no permission\n\
         \x20     64 to 75 and 77: the image is as it was; `new` and `tables` leave nothing\n\
         \x20     sheet: where a line is told, all this is of that line; those before it are done and stay,\n\
         \x20     and so is one that was cut before and is told to be finished now\n\
         \x20 76  the edit, or the new image, is written and synced, but its answer could not be printed;\n\
         \x20     tables: the masters are made, not synced\n\
         \x20 78  an edit was cut: the image may hold a part of it, and its journal is there;\n\
         \x20     `counter recover IMAGE` finishes the edit. Or only its record is not written yet: the\n\
         \x20     last line says so. compare, report: nothing differs without leave, but an edit was cut of an\n\
         \x20     image that was read --as-is\n\
         \x20 128 + n  ended by signal n: before an edit wrote anything, or when it was written and synced;\n\
         \x20     the last line says which. After SIGKILL (137) the edit may still be going on (75), and is finished;\n\
         \x20     where counter-write was killed too, there may be a journal: see 78\n",
    );
    out
}
