//! The command line: one table of commands, from which arguments are read and `help`, the man page
//! and the completions are made.

use crate::failure::{Failure, Outcome};
use crate::names;
use crate::text::{count, nearest, number, one_line};
use std::ffi::{OsStr, OsString};
use std::os::unix::ffi::OsStringExt;
use std::path::{Path, PathBuf};

// The table -------------------------------------------------------------------------------

/// What an operand or an option's value is.
#[derive(Clone, Copy, PartialEq, Eq, Debug)]
pub enum Value {
    /// A file that is there.
    File,
    /// A file or folder that is made.
    New,
    /// A path in the image.
    Entry,
    Number,
}

pub struct Operand {
    pub name: &'static str,
    pub value: Value,
    pub needed: bool,
    pub words: &'static str,
}

pub struct Flag {
    pub name: &'static str,
    pub value: Option<(&'static str, Value)>,
    pub words: &'static str,
}

#[derive(Clone, Copy, PartialEq, Eq)]
pub enum Group {
    Look,
    Check,
    Edit,
    Make,
}

pub const GROUPS: [(Group, &str); 4] =
    [(Group::Look, "Look"), (Group::Check, "Check"), (Group::Edit, "Edit"), (Group::Make, "Make")];

/// A command: its operands, the image first, its options, and what is said about it.
pub struct Form {
    pub name: &'static str,
    pub group: Group,
    pub operands: &'static [&'static Operand],
    pub flags: &'static [&'static Flag],
    pub words: &'static str,
    pub more: &'static str,
    /// Each is tried by the tests.
    pub examples: &'static [&'static str],
}

const fn needed(name: &'static str, value: Value, words: &'static str) -> Operand {
    Operand { name, value, needed: true, words }
}

const IMAGE: Operand = needed("IMAGE", Value::File, "the disc image, a file of the system");
const BARE: Operand = Operand {
    name: "IMAGE",
    value: Value::File,
    needed: false,
    words: "the disc image; the bare command shows a built-in small master",
};
const BEFORE: Operand =
    needed("BEFORE", Value::File, "the image as it was, or a manifest of it (`counter hash`)");
const AFTER: Operand = needed("AFTER", Value::File, "the image as it is");
const PATH: Operand = needed(
    "PATH",
    Value::Entry,
    "a path in the image, from the root on, in UTF-8; cut at / and \\, but \\xHH is a byte from 0x80 on; `.` \
     stays, `..` goes back; at most 1,024 bytes in the image",
);
const NEW: Operand = needed(
    "PATH",
    Value::Entry,
    "the folder's path, as `find` takes it, a / and the new name, which is all that stands behind the last /",
);
const DEST: Operand = needed(
    "DEST",
    Value::New,
    "a new file or folder, or an empty folder; for a file also `-`: standard output (./- is a file)",
);
const MASTER: Operand = needed("OUT", Value::New, "the new image, a new file");
const SVG: Operand = needed("OUT.svg", Value::New, "the picture, a new file");
const HTML: Operand = needed("OUT.html", Value::New, "the page, a new file");
const PLACE: Operand = needed(
    "OFFSET|auto",
    Value::Number,
    "a number as SIZE is written, or `auto`: the largest free place on a multiple of 0x8000",
);
const SIZE: Operand = needed(
    "SIZE",
    Value::Number,
    "base ten or with 0x, with K, M or G for 2^10, 2^20, 2^30; below 2^32",
);
const SHEET: Operand =
    needed("FILE", Value::File, "the sheet, a file of the system; with --compile a new one");
const COMPILE: Flag = Flag {
    name: "--compile",
    value: Some(("TEXT", Value::File)),
    words: "makes FILE of the text in TEXT, an edit a line, in the place of running it",
};
const BUDGET: Flag = Flag {
    name: "--budget",
    value: Some(("N", Value::Number)),
    words: "tries the first N candidates alone; without it all are tried",
};
const MOVES: Flag = Flag {
    name: "--sheet",
    value: Some(("OUT", Value::New)),
    words: "writes the moves as a sheet, a new file, which `counter sheet IMAGE OUT` runs",
};
const RUN_IN_MAP: Flag = Flag {
    name: "--clear",
    value: Some(("SIZE", Value::Number)),
    words: "marks the run of SIZE bytes that `counter clear` finds, and the files in it",
};
const SHOW: Flag = Flag {
    name: "--show",
    value: None,
    words: "writes the text of FILE to standard output, in the place of running it",
};
const FROM_LINE: Flag = Flag {
    name: "--from",
    value: Some(("LINE", Value::Number)),
    words: "begins with this line, from 1 on; those before it are checked and not run",
};
const CLIP: Operand =
    needed("CLIP", Value::File, "the new bytes, a file of the system, or `-`: standard input");
const FROM: Flag = Flag {
    name: "--from",
    value: Some(("OTHER[:PATH]", Value::File)),
    words: "takes the new bytes out of the image OTHER, in the place of CLIP: its file at PATH, or at the same \
            path as in IMAGE",
};
const CLIP_SIZE: Flag = Flag {
    name: "--size",
    value: Some(("N", Value::Number)),
    words: "how many bytes are expected; a clip that has more or fewer is not taken (65)",
};
const DISC_END: Flag = Flag {
    name: "--size",
    value: Some(("SIZE", Value::Number)),
    words: "how long the image is, and where its disc ends; a GameCube disc has 0x57058000",
};
const CODE: Flag = Flag {
    name: "--code",
    value: Some(("GAME", Value::Number)),
    words: "the game code, four characters of ASCII",
};
const WANTED: Flag = Flag {
    name: "--from",
    value: Some(("LIST", Value::File)),
    words: "the files: a text file with a path and a size a line",
};
const FOLDER: Flag = Flag {
    name: "--from-dir",
    value: Some(("DIR", Value::File)),
    words: "the files: those of the folder DIR and of all folders in it, each with its bytes",
};
const SMALL: Operand = needed(
    "ENTRIES",
    Value::Number,
    "how many entries each table has, the root among them: 1 to 8",
);
const INTO: Flag = Flag {
    name: "--into",
    value: Some(("DIR", Value::New)),
    words: "the folder for the masters, which is made if it is not there; nothing in it is overwritten",
};
const EMPTY: Flag = Flag {
    name: "--empty",
    value: None,
    words: "lets a clip of no bytes pass, which empties the file",
};
const MAXIMUM: Operand = needed(
    "N",
    Value::Number,
    "the most bytes that the table may have, as SIZE is written; 0 states none",
);
const ALIGN: Operand = Operand {
    name: "ALIGN",
    value: Value::Number,
    needed: false,
    words: "a power of two; without it 0x8000",
};

const JSON: Flag =
    Flag { name: "--json", value: None, words: "the answer as JSON, a refusal or an error too" };
const WAIT: Flag = Flag {
    name: "--wait",
    value: None,
    words: "waits while another program uses the image, instead of ending with 75",
};
const DRY: Flag = Flag {
    name: "--dry-run",
    value: None,
    words: "works on a private copy in memory, tells what would happen, touches nothing",
};
const DRY_NEW: Flag = Flag {
    name: "--dry-run",
    value: None,
    words: "makes it in memory alone, tries what can be tried without a write (OUT's name and folder, the files of \
            DIR, the room for them on the disk), and tells what would be made",
};
const RECORD: Flag = Flag {
    name: "--record",
    value: Some(("FILE", Value::New)),
    words: "keeps the record (used bytes, largest free region, edits, teams) in FILE; see `counter help record`",
};
const TEAM: Flag = Flag {
    name: "--team",
    value: Some(("NAME|NUMBER", Value::Number)),
    words: "whose edit it is, where the record in FILE has teams",
};
const TEAMS: Flag = Flag {
    name: "--teams",
    value: Some(("LIST", Value::File)),
    words: "the teams: a text file with number, limit, share and name of each, one team a line",
};
const FORCE: Flag = Flag {
    name: "--force",
    value: None,
    words: "replaces a record that is there; no other file is overwritten",
};
const AS_IS: Flag = Flag {
    name: "--as-is",
    value: None,
    words: "reads the image although an edit of it was cut (78), as it is now",
};
const ANYWAY: Flag = Flag {
    name: "--anyway",
    value: None,
    words: "lets a journal pass that was written for another file with the same contents",
};
const WITHOUT: Flag = Flag {
    name: "--without-record",
    value: None,
    words: "finishes the edit and leaves the FILE of its --record as it is, without this edit",
};
const BYTES: Flag = Flag {
    name: "--bytes",
    value: None,
    words: "names are the image's bytes, as they are: in PATH, LIST, TEXT and DIR, on standard output, in a manifest \
            and in the names of extracted files; JSON stays as it is",
};
const PATHS: Flag = Flag {
    name: "--paths",
    value: None,
    words: "each path on a line of its own, as PATH and LIST take it; not with --json. The first is /, which \
            in a LIST stands for everything",
};
const NUMBER: Flag = Flag {
    name: "--number",
    value: None,
    words: "the second of two equal names gets its entry's number behind it: x, then x~2",
};
const PUBLIC: Flag = Flag {
    name: "--all",
    value: None,
    words: "also CRC32, MD5 and SHA-1 of the whole image, as public databases of discs have them",
};
const ALL: Flag = Flag { name: "--all", value: None, words: "everything, in the place of PATH" };
const CLUSTERS: Flag = Flag {
    name: "--clusters",
    value: None,
    words: "counts each free region in clusters of 0x8000 bytes, for planners",
};
const DEMO: Flag =
    Flag { name: "--demo", value: None, words: "the built-in small master, in the place of IMAGE" };
const OUT: Flag = Flag {
    name: "--out",
    value: Some(("FILE", Value::New)),
    words: "writes the program (dol), or the manifest (hash), to a new file; nothing is overwritten",
};
const GIVEN: Flag = Flag {
    name: "--given",
    value: Some(("LIST", Value::File)),
    words: "what may differ, one path or `header: FIELD` a line; a second --given adds to the first",
};
const ONLY: Flag = Flag {
    name: "--only-differences",
    value: None,
    words: "leaves out the lines of what is unchanged",
};
const MAP: Flag = Flag {
    name: "--map",
    value: Some(("OUT.svg", Value::New)),
    words: "draws both discs side by side, into a new file",
};

const TABLES: Flag = Flag {
    name: "--tables",
    value: None,
    words: "compares trees and tables alone, of two images; tells what a rewrite makes of these. Not with --given, \
            --only-differences or --map",
};

const LOOK: &[&Flag] = &[&JSON, &WAIT, &AS_IS];
const NAMED: &[&Flag] = &[&BYTES, &JSON, &WAIT, &AS_IS];
const EDIT: &[&Flag] = &[&RECORD, &TEAM, &DRY, &BYTES, &JSON, &WAIT];

const fn look(
    name: &'static str,
    operands: &'static [&'static Operand],
    words: &'static str,
    examples: &'static [&'static str],
) -> Form {
    Form { name, group: Group::Look, operands, flags: LOOK, words, more: "", examples }
}

const fn edit(
    name: &'static str,
    operands: &'static [&'static Operand],
    words: &'static str,
    examples: &'static [&'static str],
) -> Form {
    Form { name, group: Group::Edit, operands, flags: EDIT, words, more: "", examples }
}

pub const FORMS: &[Form] = &[
    look(
        "info",
        &[&BARE],
        "the header's fields, the totals, what is left of the table's maximum, where the program lies, and the \
         title and the maker of the banner (/opening.bnr)",
        &["counter info disc.iso", "counter info"],
    ),
    Form {
        flags: NAMED,
        more: "Names are always the image's bytes here; --json and `tree --paths` have them as text.",
        ..look(
            "list",
            &[&BARE],
            "totals, entries and free regions, one line each, for programs",
            &["counter list disc.iso", "counter list disc.iso --json"],
        )
    },
    Form {
        flags: &[&PATHS, &BYTES, &JSON, &WAIT, &AS_IS],
        ..look(
            "tree",
            &[&BARE],
            "folders and files as a tree, with offsets and sizes",
            &["counter tree disc.iso", "counter tree disc.iso --paths | grep /text/"],
        )
    },
    Form {
        flags: &[&CLUSTERS, &JSON, &WAIT, &AS_IS],
        more: FREE,
        ..look(
            "free",
            &[&IMAGE],
            "the free regions; with --clusters counted in clusters of 0x8000 bytes",
            &["counter free disc.iso", "counter free disc.iso --clusters"],
        )
    },
    Form {
        flags: NAMED,
        ..look(
            "find",
            &[&IMAGE, &PATH],
            "the entry at PATH: place, size, and how far it can grow where it lies",
            &["counter find disc.iso /audio/theme.adp"],
        )
    },
    look(
        "place",
        &[&IMAGE, &SIZE, &ALIGN],
        "the largest free place for SIZE bytes on a multiple of ALIGN",
        &["counter place disc.iso 64K", "counter place disc.iso 0x1000 4"],
    ),
    Form {
        flags: &[&BUDGET, &MOVES, &BYTES, &JSON, &WAIT, &AS_IS],
        more: CLEAR,
        ..look(
            "clear",
            &[&IMAGE, &SIZE],
            "where SIZE bytes in a row cost least to make free, as for a large film: the run, the files in it, and \
             the moves that take each of them to a free place",
            &[
                "counter clear disc.iso 1M",
                "counter clear disc.iso 1200K --sheet moves.sheet",
                "counter sheet disc.iso moves.sheet --dry-run",
            ],
        )
    },
    Form {
        flags: &[&RECORD, &TEAMS, &FORCE, &JSON, &WAIT],
        more: TOTALS,
        ..look(
            "record",
            &[&IMAGE],
            "a new record: used bytes, free bytes, the largest free region, and 0 edits; with --record \
             written to FILE. Of a FILE in the place of IMAGE: the record in it, and its teams as a table",
            &[
                "counter record disc.iso",
                "counter record disc.iso --record disc.totals",
                "counter record disc.totals",
                "counter record disc.iso --record disc.totals --teams teams.txt --force",
                "counter mkdir disc.iso /text/de --record disc.totals --team French",
                "counter record disc.totals",
            ],
        )
    },
    Form {
        flags: NAMED,
        ..look(
            "cat",
            &[&IMAGE, &PATH],
            "writes the file's bytes to standard output",
            &["counter cat disc.iso /opening.bnr > opening.bnr"],
        )
    },
    Form {
        flags: &[&ALL, &NUMBER, &BYTES, &JSON, &WAIT, &AS_IS],
        more: "Files get their names in UTF-8, or with --bytes in the image's bytes. Nothing that is there is \
               overwritten. Two entries that would be one file, and a name of more than 255 bytes (in UTF-8 \
               86 half-width katakana), are refused before anything is written; --number keeps the two \
               apart.",
        ..look(
            "extract",
            &[&IMAGE, &PATH, &DEST],
            "writes the file or folder at PATH, or everything, to DEST",
            &[
                "counter extract disc.iso /audio audio",
                "counter extract disc.iso --all files",
                "counter extract disc.iso /opening.bnr - | sha256sum",
            ],
        )
    },
    Form {
        flags: &[&OUT, &JSON, &WAIT, &AS_IS],
        ..look(
            "dol",
            &[&IMAGE],
            "the program's header; with --out the program itself",
            &["counter dol disc.iso", "counter dol disc.iso --out main.dol"],
        )
    },
    Form {
        flags: &[&DEMO, &RUN_IN_MAP, &BUDGET, &JSON, &WAIT, &AS_IS],
        ..look(
            "map",
            &[&IMAGE, &SVG],
            "draws table, program, files and free space as an SVG picture; rows that are wholly free are folded",
            &[
                "counter map disc.iso disc.svg",
                "counter map --demo demo.svg",
                "counter map disc.iso run.svg --clear 1M",
            ],
        )
    },
    Form {
        group: Group::Check,
        ..look(
            "check",
            &[&IMAGE],
            "opens the image, or says which refusal it meets and why; tells of a table above its maximum, of \
             stored parents that are not the nesting's, of texts that no entry uses, of how many bytes of the \
             table a rewrite would alter, and of names that differ in case alone",
            &["counter check disc.iso"],
        )
    },
    Form {
        group: Group::Check,
        flags: &[&GIVEN, &ONLY, &MAP, &TABLES, &BYTES, &JSON, &WAIT, &AS_IS],
        more: COMPARE,
        ..look(
            "compare",
            &[&BEFORE, &AFTER],
            "each file: unchanged, moved, resized, changed, new or gone; with --given the licence check; with --tables \
             whether two masters have the same tree",
            &[
                "counter compare before.iso disc.iso --given given.txt",
                "counter compare before.sums disc.iso --given given.txt --only-differences",
                "counter compare before.iso disc.iso --given given.txt --map both.svg",
                "counter compare ours.iso theirs.iso --tables",
            ],
        )
    },
    Form {
        group: Group::Check,
        flags: &[&OUT, &PUBLIC, &BYTES, &WAIT, &AS_IS],
        more: MANIFEST,
        ..look(
            "hash",
            &[&IMAGE],
            "a manifest: the SHA-256 of the header's fields, the table, the program and each file",
            &[
                "counter hash disc.iso --out disc.sums",
                "counter compare disc.sums disc.iso",
                "counter hash disc.iso --all --out all.sums",
            ],
        )
    },
    Form {
        group: Group::Check,
        flags: &[&GIVEN, &BYTES, &JSON, &WAIT, &AS_IS],
        more: REPORT,
        ..look(
            "report",
            &[&BEFORE, &AFTER, &HTML],
            "what compare finds, as one page for the publisher, to be read and printed",
            &["counter report before.iso disc.iso --given given.txt report.html"],
        )
    },
    edit(
        "mkdir",
        &[&IMAGE, &PATH],
        "makes the folder PATH, and the folders on the way to it",
        &["counter mkdir disc.iso /text/de"],
    ),
    edit(
        "add",
        &[&IMAGE, &NEW],
        "adds an empty file as the last one of its folder; all behind the last / is its name",
        &["counter add disc.iso /text/fr/new.bin"],
    ),
    edit(
        "move",
        &[&IMAGE, &PATH, &PLACE],
        "moves the file at PATH to OFFSET, which must be free, or to a place that is found",
        &[
            "counter move disc.iso /opening.bnr 0x1a0000 --dry-run",
            "counter move disc.iso /opening.bnr auto",
        ],
    ),
    edit(
        "resize",
        &[&IMAGE, &PATH, &SIZE],
        "gives the file at PATH the size SIZE; what cannot grow where it lies goes to the largest free \
         place on a multiple of 0x8000; new bytes are what the free space held",
        &["counter resize disc.iso /text/en/msg.bin 8K"],
    ),
    Form {
        flags: &[&FROM, &CLIP_SIZE, &EMPTY, &RECORD, &TEAM, &DRY, &BYTES, &JSON, &WAIT],
        more: FILL,
        ..edit(
            "fill",
            &[&IMAGE, &PATH, &CLIP],
            "makes the file at PATH exactly the bytes of CLIP; what cannot grow where it lies goes to the \
             largest free place on a multiple of 0x8000",
            &[
                "counter fill disc.iso /text/en/msg.bin msg.bin",
                "counter fill disc.iso /text/fr/msg.bin --from before.iso",
                "counter fill disc.iso /text/en/msg.bin --from before.iso:/text/fr/msg.bin",
                "counter cat before.iso /text/fr/msg.bin | counter fill disc.iso /text/fr/msg.bin - --size 4661",
            ],
        )
    },
    Form {
        flags: &[&RECORD, &TEAM, &DRY, &JSON, &WAIT],
        ..edit(
            "rewrite",
            &[&IMAGE],
            "writes the table anew, each name by itself",
            &["counter rewrite disc.iso --dry-run", "counter rewrite disc.iso --json"],
        )
    },
    Form {
        flags: &[&DRY, &JSON, &WAIT],
        more: STATED,
        ..edit(
            "maximum",
            &[&IMAGE, &MAXIMUM],
            "states N as the FST maximum, the four bytes at 0x42c, and writes nothing else",
            &["counter maximum disc.iso 64K --dry-run", "counter maximum disc.iso 0"],
        )
    },
    Form {
        flags: &[&COMPILE, &SHOW, &FROM_LINE, &RECORD, &TEAM, &DRY, &BYTES, &JSON, &WAIT],
        more: RUN,
        ..edit(
            "sheet",
            &[&IMAGE, &SHEET],
            "runs a sheet, a list of edits in one file: it is checked whole, then each line is an edit of its own, \
             up to the first that is refused",
            &[
                "counter sheet --compile day.txt day.sheet",
                "counter sheet --show day.sheet",
                "counter sheet disc.iso day.sheet --dry-run",
                "counter sheet disc.iso day.sheet",
                "counter sheet disc.iso rest.sheet --from 2",
            ],
        )
    },
    Form {
        flags: &[&ANYWAY, &WITHOUT, &JSON, &WAIT],
        more: RECOVER,
        ..edit(
            "recover",
            &[&IMAGE],
            "finishes an edit that was cut, from its journal",
            &["counter recover disc.iso"],
        )
    },
    Form {
        name: "new",
        group: Group::Make,
        operands: &[&MASTER],
        flags: &[&DISC_END, &CODE, &WANTED, &FOLDER, &DRY_NEW, &BYTES, &JSON],
        words: "makes a master: a header, a table and files, each on a multiple of 0x8000, with nothing else on \
                the disc",
        more: NEW_MASTER,
        examples: &[
            "counter new new.iso --size 0x57058000 --code GCLE --from wishes.txt --dry-run",
            "counter new new.iso --size 0x57058000 --code GCLE --from wishes.txt",
            "counter new filled.iso --size 2M --code GCLE --from-dir parts",
        ],
    },
    Form {
        name: "tables",
        group: Group::Make,
        operands: &[&SMALL],
        flags: &[&INTO, &JSON],
        words: "makes masters for tests: every table of so many entries, each shape once, in a small master of its \
                own",
        more: SMALL_TABLES,
        examples: &["counter tables 3 --into small", "counter tree small/5.iso"],
    },
];

const FREE: &str = "\
A program (main.dol) behind the table is not free; the last line tells where it lies.
With --clusters each region is told as the bytes before its first multiple of 0x8000, the whole \
clusters from there on, and the rest: before + 0x8000 * clusters + rest = size. A region whose first \
multiple of 0x8000 is at or past its end is all \"before\".";

const CLEAR: &str = "\
A run is so many bytes in a row between the table's end and the disc end, with no byte of a program (main.dol) behind \
the table. It costs the sizes of the files that have a byte of it, each file whole, since a file moves whole. \
Candidates are the runs that start where the table, a file that is not empty or such a program ends, from the table \
on. The cheapest one that was tried is told, of equal ones the first. With all of them tried no run is cheaper, \
wherever it starts; else it is told by how many bytes another may be, at most.
Each file in it goes to a place that is free and outside of the run, if there is one: the largest file first, into \
the smallest free region that has room, but last into that right behind the table, where further entries need room; \
on a multiple of the power of two, up to 0x8000, that it lies on now, or where no such place is left on one of 4, or \
on any. What a file leaves outside of the run is for those after it. The moves are tried on a private copy, at most \
1,024 of them, as many as a sheet has. Where the next edit would write a table that ends behind the run's start, \
which one with shared names does when it is written anew, no moves are told: a rewrite comes first. Nor are any where \
every edit that writes a table is refused, which is told with its cause.
Where a file has no place, or no command moves it, another run may do, which costs more: one is told if it is the \
cheapest of fewer candidates, or of a larger SIZE, as far as these are looked through. More than all free bytes no \
move makes free: files have to be made smaller.
A new file's entry makes the table longer, and a run may start at the table's end. So add the file first, empty; ask; \
make the moves; then move the file to the run, and fill it. It goes to the run's first multiple of 0x8000, as games' \
files have it, if SIZE bytes are free from there on once the moves are made, else to its first multiple of 4, from \
where up to 3 fewer may be free: then ask for 3 more. How many bytes it may have there is told. To have it on a \
multiple of 0x8000 in any case ask for 0x7fff bytes more than it has, and take the one that is told. Right behind the \
table it leaves no room for a further entry, which is told.
A record goes by every edit: give --record, and --team, with each of the commands that are told. For the licence \
check the files that are moved belong on LIST: `counter sheet --show OUT` has their paths, each between `move` and a \
number.
Where there is no such run (21), it is told how long one can be. A budget of 0 tries none. --sheet makes no sheet \
(65) where there are no moves, or where they do not free the run.";

const TOTALS: &str = "\
After every edit its record is told: used and free bytes, the size of the largest free region (0 if there \
is none), and how many edits were accepted since the record was made, those too that had nothing to write; \
where it has teams, also what is so of the team. Without --record one is made for the one edit, so that edits is 1.
With --record an edit takes the record in FILE and leaves there what comes back; where there is no FILE, \
a new record without teams is made of the image first. A refused edit and a dry run leave FILE as it was. FILE is \
a text of two lines, and of one more for each team. A symbolic link to it is followed, and its mode is kept. It may not be the image, a clip, a \
journal, a folder or a special file (64). While an edit uses it, another one that wants it is told to wait \
(75), or waits with --wait.
What comes back is in the edit's journal, and in FILE before the journal is closed. So an edit that was cut is \
counted when `counter recover` or the next edit finishes it, and only then. If FILE cannot be written then, or \
somebody changed it, the journal stays (78): `counter recover` tries it again, and with --without-record it \
leaves FILE as it is. The journal names FILE by its absolute path: an image that is moved takes its journal \
along, and FILE stays where it is. A cut can leave a file counter-record.N beside FILE, which is of no use.
If used bytes or largest free region in FILE are not the image's, somebody edited without it, or it is \
another image's: the edit is not begun (65). Then make a new record with --force, or take FILE away. An edit \
without FILE that left both numbers as they were is not noticed, and not counted. An edit after the \
4,294,967,295th, of its team where there are teams, is refused (25).
Up to 16 teams edit an image by turns. With --teams the new record has those of LIST, a text file in UTF-8 with a line \
for each: its number (0 to 15), limit, share and name, parted by spaces. Limit and share are bytes, written as SIZE; \
a limit of `none` or - is none. A name has at most 100 bytes, is no number, holds no # and no control characters, may \
have spaces in it or be left out. \
Empty lines, and those that begin with #, say nothing. A LIST that is wrong is an error (65), which names the line. No \
limit or share is refused; shares that are together more than the free bytes, or above their limits, are told. Without \
--record the record is only shown.
With such a record every edit wants --team, the name or the number of a team that LIST has (64). What an edit costs, \
the used bytes after it less those before, is added to what its team has taken, which is never below 0. It is refused \
if that would be above the team's limit (27), or if fewer bytes would be free after it than all other teams together \
have yet to take of their shares (28), and says by how many, as --dry-run does. `counter record FILE` shows all teams. \
--force without --teams does not replace a record that has teams (73); with --teams what they had taken is 0 again. \
Their lines in FILE are `team N limit N share N taken N edits N name NAME`, in the order of their numbers and ended by \
LF, with `none` for no limit: a limit, a share or a name may be changed there by hand.";

const FILL: &str = "\
A clip of no bytes is not taken (65), from whatever source, unless --empty or --size 0 says that it is meant: \
behind a | it most likely says that the command before it failed. Where that one is cut short, only --size can \
tell. So rather take a file out of another image with --from than through a |.
OTHER is read like any image: one that does not open is refused with its number, one with a journal is 78, and it \
may not be IMAGE itself (64). What follows the last : is PATH, unless a file has the whole name. A CLIP by the \
name of a journal is not taken (64).";

const STATED: &str = "\
Many masters state just the size of their table, so that every mkdir and add is refused (26). How much more the game \
has room for in memory only the publisher knows; of a game on two discs both state the same.
N may be below the size of the table, which is told: then no edit that writes a table is done. The edit has a \
journal like any other; it is none of the library's, and counts in no record (--record). `compare` tells it, and the \
line `header: FST maximum` of LIST gives leave for it.";

const RUN: &str = "\
TEXT is a text file in UTF-8 of at most 16 MiB and 100,000 lines. A line is `mkdir PATH`, `add PATH`, `move PATH \
OFFSET` or `resize PATH SIZE`, with a path and a number as the commands of these names take them; but mkdir makes one \
folder, whose parent is there, its path has no / at its end, and move knows no `auto`. The path goes up to the line's end, or to the number, without \
the spaces and tabs around it, and may have spaces in it. It may stand in quotes: then \\xHH is any byte, \\\\ and \
\\\" stand for themselves, and it is taken as it is; without, one that no image takes is an error. Empty lines, and those that begin with #, say nothing. What is wrong is told with line and \
column (65). --show writes a text that compiles to the same lines. What a sheet is, docs/FORMAT.md tells.
The sheet is checked before the image is looked at: where it is none (30), what is wrong is told, and nothing is done. \
It may have 1,024 lines. Then each line is tried, has its journal, is written and synced, and is counted in the FILE of \
--record, like an edit by its command. The first that is refused ends the sheet, with its number as exit status: the \
lines before it are done and stay. Once what is wrong is put right, --from LINE goes on. --dry-run tells up to the first \
refusal what each line would do, on what the lines before it would leave, and the record then.
Where a sheet is cut in a line, `counter recover` and the next edit finish that line and tell which it is, and with which \
the sheet goes on. Cut between two lines, the last one that was told is done. `counter sheet` finishes a line too, and \
then begins with no line of the same sheet unless --from says with which, and not with that one (64): it might have been \
run already. A sheet is known by its bytes, whatever its file is called.";

const COMPARE: &str = "\
LIST is a text file in UTF-8 of at most 16 MiB and 100,000 lines, one path a line as PATH is given; a line that ends in / stands for that folder and all in it. / \
alone stands for everything, and that is said aloud. A line that leads to the root in another way, or \
above it, is an error (65).
A line `header: FIELD` gives leave for a field of the header, as `header: FST maximum`; no entry has a `:` in its \
name, so it is no path. FIELD is game code, maker, disc, version, audio, stream buffer, unused 0x0A, Wii magic, \
GameCube magic, game name, debug offset, debug address, unused 0x408, DOL offset, FST offset, FST size, FST \
maximum, user position, user size, disc size or unused 0x43C; another name is an error (65).
Exit status 1 if a file or folder that is not on LIST differs in place, size or bytes, is gone, or is \
hidden by another entry of its name that stands before it now, or of one that differs in case alone and so hides it \
from games that look up without case; also if a field of the header without leave (but \
for the table's size), the system area, the program, the disc end or what lies behind it differ, with the place of \
the first byte. New files and folders, another order of the entries and other bytes in the free \
space are told and do not fail the check.
The table must be as it was, byte for byte, or exactly what a rewrite of this tree writes (`written anew`), which \
it is after every edit that writes one. Any other, a stored parent that is not the nesting's or bytes behind the \
names, fails the check.
Files are matched by path, equal names in one folder by their order; a path on LIST means the first.
With a manifest in the place of BEFORE the sums are compared. A file that became shorter has no sum to \
be held against; its bytes are then not compared, which is told. Anyone can write a manifest, so its own SHA-256 is \
told: hold it against what its maker told you elsewhere. One that leaves out a part of the disc, or that names the \
sum of AFTER and says otherwise of it, is none (65). One of version 1 has no sum of the table: a table that is not \
what a rewrite writes is then `unknown`, and fails the check.
With --as-is an image of which an edit was cut does not pass (78), since it may hold a part of the edit.
An image too short for a header ends compare with 65, since 1 says that something differs; every other \
refusal ends it with its own number.
With --tables the trees and tables of two images are compared, and no file's bytes are read. It tells whether both \
have the same tree (the entries' names, order, kinds and folders, the files' offsets and sizes) or where they first \
differ; whether their tables are the same bytes now; whether the tables that a rewrite would write of them are, \
which is so exactly where the trees are the same; and of each what a rewrite would alter: how many bytes become others, \
of those from the table's start to the end of the longer table, old or new, and the table's size. A rewrite is tried on \
a private copy, and where there is no memory for one, that is told; one that is refused is told with its cause, and \
leaves the table as it is. Exit status 0 if the trees are the same (78 with --as-is, if an edit of one was cut), 1 if \
they are not, whatever becomes of the tables.";

const MANIFEST: &str = "\
A line for each file, as sha256sum writes it: the sum, two spaces, the path. Everything else is on \
lines that begin with #: before each file its place and size, the folders, the header's fields, the system \
area, the table, the program, the free regions and what lies behind the disc end. After `counter extract IMAGE \
--all DIR`, `sha256sum -c` holds the files in DIR to the manifest. The last line is the sum of all \
lines above it, so that a manifest that was cut is recognised.
Paths are in UTF-8, with --bytes in the image's bytes, and compare and report see which. A \\ in a file's \
path is doubled and its line begins with one, as sha256sum has it.
Give --out and not `>`: a shell empties the file behind `>` before counter begins, so that `counter hash only.iso > \
only.iso` loses the image. --out makes a new file, and tells its SHA-256, which whoever checks by the manifest must \
know from elsewhere; no file is overwritten, neither an image nor its journal or record.";

const REPORT: &str = "\
The page holds all it shows: verdict, LIST, each file that differs with place, size and SHA-256 before \
and after, both maps, the sums of both images and of a manifest, this program's version and its library's sum. \
The exit status is that of compare; the page is written in either case. It is green only where the check passed by \
a list that does not cover everything, of images of which no edit was cut.";

const RECOVER: &str = "\
Where there is no journal, or a closed one, no edit was cut, and the image is not touched. A journal of another \
image, or of a version before, is not applied (78), and neither it nor the image is touched.
An edit with --record is counted in its FILE before the journal is closed. Where somebody changed FILE since, nothing is \
touched (78). If FILE cannot be written, the image is what the edit makes of it, and the journal stays (78).";

const NEW_MASTER: &str = "\
LIST is a text file in UTF-8 of at most 16 MiB and 100,000 lines. A line is a path, spaces or tabs, and a size, as \
SIZE is written; the path may have spaces in it. Where a tab stands behind the path's beginning, the first one ends \
it. Spaces and tabs around a path are no part of it: a name that begins with one is written with a / before it, and \
one that ends with one only DIR can have. The path is cut at / alone, and one / may stand before it; \\xHH is a byte \
as in PATH. Lines may be in any order; there are no comments. `counter list disc.iso | LC_ALL=C sed -nE \
's/^f [0-9]+ [0-9]+ ([0-9]+) (.*)/\\2 \\1/p'` writes the LIST of a disc for --bytes.
The files of a LIST are zeros, to be filled later (`counter fill`). Those of DIR have its bytes, and `counter extract \
OUT --all` gives them back. Names go through Shift-JIS, and a few characters come back as their double; see `counter \
help names`. A link or a special file in DIR is an error (66), a file of 4 GiB or more, a counter-new.N and an OUT in \
DIR are others (65). A folder that holds no file is left out, which is told: a new master has no such folders.
Refused is an unsafe or empty part of a path (13), a byte that no name has (12), a path twice, or one that is a file \
and a folder too (19), a path or a table past a limit (9), and what has no place below SIZE (21). The path that is \
refused is told, and how large SIZE has to be at least.
The table has the files in the order of their paths' bytes, and so they lie on the disc, but for one that comes last: \
the one whose last block of 0x8000 bytes is used least, of equal ones the first.
OUT is made as counter-new.N in its folder, and gets its name when all of it is on the disk; nothing that is there is \
overwritten. A refusal, an error, Ctrl-C, SIGHUP, SIGQUIT and SIGTERM leave nothing; every other signal but SIGKILL \
waits until OUT is there. After SIGKILL or a power cut counter-new.N may be, which is of no use.
Free space and the files of a LIST take no room on the disk; the files of DIR do, their zeros too. There is no program \
(main.dol) on it, and no maker code: wit takes it for a disc only with two capitals or digits at offset 4.";

const SMALL_TABLES: &str = "\
A shape says which of a table's entries are folders, and where each of these ends. Each shape that opens is there once: \
1, 2, 6, 22, 90, 394, 1,806 or 8,558 tables of 1 to 8 entries, the root among them; another number is refused (9). They \
stand in the order of their entries, from the first behind the root on: a file before a folder, and of two folders the \
one that ends first. Files are empty, and the entries are called a, b, c and so on.
The masters are 1.iso, 2.iso and so on in that order, with as many digits as the last one has: 0001.iso to 8558.iso. \
The names begin with 1 for every number of entries, so that each wants a DIR of its own. Each is the small master of \
docs/FORMAT.md, 8 KiB, with the table put over its own at 0x440 and the table's size in the header, and nothing else \
changed: that of 1 entry has 12 bytes, and the other 14 of the small master's stay behind it. A line for each has its paths, a folder's with / at the end, and the root's only \
where that is alone.
DIR may hold other files. If one of the names is there, or a journal beside it, that is told, and nothing is written \
(73). An error, Ctrl-C, SIGHUP, SIGQUIT and SIGTERM leave nothing, nor a DIR that was made; what cannot be \
taken away is told. Once the writing has begun every other signal but SIGKILL waits for the end. The masters are not synced: after SIGKILL or a power cut some may be there, or be cut \
short. Take them away, and make them again.";

// The arguments ---------------------------------------------------------------------------

pub struct Args {
    pub form: &'static Form,
    /// None: the built-in small master.
    pub image: Option<PathBuf>,
    /// Those after the image.
    operands: Vec<OsString>,
    pub json: bool,
    pub wait: bool,
    pub dry: bool,
    pub only_differences: bool,
    pub as_is: bool,
    pub anyway: bool,
    pub without_record: bool,
    pub force: bool,
    pub all: bool,
    pub number: bool,
    pub clusters: bool,
    /// Trees and tables alone are compared.
    pub tables: bool,
    pub paths: bool,
    /// An empty clip is meant.
    pub empty: bool,
    /// How many bytes a clip is to have, or a new master.
    pub size: Option<u32>,
    /// The game code of a new master, and the folder with its files.
    pub code: Option<OsString>,
    pub folder: Option<PathBuf>,
    /// Names are the image's bytes.
    pub raw: bool,
    demo: bool,
    pub given: Vec<PathBuf>,
    /// The other image, and behind a `:` a path in it; or the list of a new master's files.
    pub from: Option<PathBuf>,
    /// The folder for the masters of small tables.
    pub into: Option<PathBuf>,
    /// The text that a sheet is made of.
    pub compile: Option<PathBuf>,
    /// The sheet of the moves that clear a run.
    pub sheet: Option<PathBuf>,
    /// The size of a run to be marked, and how many candidates may be tried for one.
    pub clear: Option<u32>,
    pub budget: Option<u32>,
    /// A sheet is shown as text.
    pub show: bool,
    /// The line with which a sheet begins.
    pub first: Option<u32>,
    pub record: Option<PathBuf>,
    /// The list of a record's teams, and the team that an edit goes by.
    pub teams: Option<PathBuf>,
    pub team: Option<OsString>,
    pub out: Option<PathBuf>,
    pub map: Option<PathBuf>,
}

impl Args {
    /// The operand after the image with this number, as bytes.
    pub fn bytes(&self, n: usize) -> Vec<u8> {
        self.operands[n].clone().into_vec()
    }

    /// The same where it is a path in the image, as the image has it.
    pub fn entry(&self, n: usize) -> Outcome<Vec<u8>> {
        names::taken(&self.bytes(n)).map_err(Failure::usage)
    }

    pub fn path(&self, n: usize) -> PathBuf {
        PathBuf::from(&self.operands[n])
    }

    /// Whether --all stands in the place of PATH.
    fn takes_all(&self) -> bool {
        self.all && self.form.operands.iter().any(|operand| operand.value == Value::Entry)
    }

    /// Whether --from stands in the place of CLIP.
    fn takes_from(&self) -> bool {
        self.from.is_some() && self.form.operands.iter().any(|operand| operand.name == "CLIP")
    }

    /// Whether something else stands in the place of IMAGE.
    fn is_without_image(&self) -> bool {
        self.demo || self.compile.is_some() || self.show
    }

    /// Whether the built-in small master does.
    pub fn shows_built_in(&self) -> bool {
        self.form.has_image() && self.image.is_none() && self.compile.is_none() && !self.show
    }

    /// The files and folders that it is to make.
    pub fn made(&self) -> Vec<&Path> {
        let behind = self.form.operands.iter().skip(1);
        let new = behind.zip(&self.operands).filter(|(operand, _)| operand.value == Value::New);
        let image = self.image.as_ref().filter(|_| self.form.group == Group::Make);
        let options = [&self.out, &self.map, &self.sheet, &self.into];
        let options = options.into_iter().flatten().chain(image);
        let options = options.map(PathBuf::as_path);
        let sheet = self.operands.first().filter(|_| self.compile.is_some()).map(Path::new);
        new.map(|(_, path)| Path::new(path)).chain(options).chain(sheet).collect()
    }

    /// One that may be left out.
    pub fn optional(&self, n: usize) -> Option<Vec<u8>> {
        self.operands.get(n).map(|operand| operand.clone().into_vec())
    }

    /// Reads what follows the command's name.
    pub fn read(form: &'static Form, rest: Vec<OsString>) -> Outcome<Args> {
        let mut args = Args {
            form,
            image: None,
            operands: Vec::new(),
            json: false,
            wait: false,
            dry: false,
            only_differences: false,
            as_is: false,
            anyway: false,
            without_record: false,
            force: false,
            all: false,
            number: false,
            clusters: false,
            tables: false,
            paths: false,
            empty: false,
            size: None,
            code: None,
            folder: None,
            raw: false,
            demo: false,
            given: Vec::new(),
            from: None,
            into: None,
            compile: None,
            sheet: None,
            clear: None,
            budget: None,
            show: false,
            first: None,
            record: None,
            teams: None,
            team: None,
            out: None,
            map: None,
        };
        let bare = rest.is_empty();
        let mut rest = rest.into_iter();
        let mut options = true;
        while let Some(arg) = rest.next() {
            match arg.to_str() {
                Some("--") if options => options = false,
                Some(text) if options && text.len() > 1 && text.starts_with('-') => {
                    args.option(text, &mut rest)?;
                }
                _ => args.operands.push(arg),
            }
        }
        args.place_operands(bare)?;
        if args.force && args.record.is_none() {
            return Err(Failure::usage("--force is for --record FILE"));
        }
        if args.team.is_some() && args.record.is_none() {
            return Err(Failure::usage("--team is for --record FILE, a record that has teams"));
        }
        if args.budget.is_some() && form.has("--clear") && args.clear.is_none() {
            return Err(Failure::usage("--budget is for --clear SIZE"));
        }
        args.fit_a_sheet()?;
        Ok(args)
    }

    fn option(&mut self, text: &str, rest: &mut impl Iterator<Item = OsString>) -> Outcome<()> {
        let (name, value) = match text.split_once('=') {
            Some((name, value)) => (name, Some(OsString::from(value))),
            None => (text, None),
        };
        let Some(flag) = self.form.flags.iter().find(|flag| flag.name == name) else {
            let near = nearest(name, self.form.flags.iter().map(|flag| flag.name));
            let near = near.map_or(String::new(), |near| format!("; is {near} meant?"));
            let text = format!("{} has no option {}{near}", self.form.name, one_line(name));
            return Err(Failure::usage(text));
        };
        if flag.value.is_none() && value.is_some() {
            return Err(Failure::usage(format!("{name} takes no value")));
        }
        let mut given = |what| match value.clone().or_else(|| rest.next()) {
            Some(given) => Ok(given),
            None => Err(Failure::usage(format!("{name} wants {what}"))),
        };
        let mut file = || given("the name of a file").map(PathBuf::from);
        let twice = || Failure::usage(format!("{name} is given twice"));
        match name {
            "--json" => self.json = true,
            "--wait" => self.wait = true,
            "--dry-run" => self.dry = true,
            "--only-differences" => self.only_differences = true,
            "--as-is" => self.as_is = true,
            "--anyway" => self.anyway = true,
            "--without-record" => self.without_record = true,
            "--force" => self.force = true,
            "--all" => self.all = true,
            "--number" => self.number = true,
            "--clusters" => self.clusters = true,
            "--tables" => self.tables = true,
            "--paths" => self.paths = true,
            "--bytes" => self.raw = true,
            "--demo" => self.demo = true,
            "--given" => self.given.push(file()?),
            "--record" if self.record.is_some() => return Err(twice()),
            "--record" => self.record = Some(file()?),
            "--teams" if self.teams.is_some() => return Err(twice()),
            "--teams" => self.teams = Some(file()?),
            "--team" if self.team.is_some() => return Err(twice()),
            "--team" => self.team = Some(given("a team's name or number")?),
            "--from" if self.from.is_some() || self.first.is_some() => return Err(twice()),
            "--from" if self.form.name == "sheet" => {
                self.first = Some(count_given(given("the number of a line")?)?);
            }
            "--from" => self.from = Some(file()?),
            "--into" if self.into.is_some() => return Err(twice()),
            "--into" => self.into = Some(given("the name of a folder")?.into()),
            "--size" if self.size.is_some() => return Err(twice()),
            "--size" => self.size = Some(number_given(given("a number of bytes")?)?),
            "--clear" if self.clear.is_some() => return Err(twice()),
            "--clear" => self.clear = Some(number_given(given("a number of bytes")?)?),
            "--budget" if self.budget.is_some() => return Err(twice()),
            "--budget" => {
                self.budget = Some(count_given(given("a number of candidates")?)?);
            }
            "--sheet" if self.sheet.is_some() => return Err(twice()),
            "--sheet" => self.sheet = Some(file()?),
            "--empty" => self.empty = true,
            "--code" if self.code.is_some() => return Err(twice()),
            "--code" => self.code = Some(given("a game code")?),
            "--from-dir" if self.folder.is_some() => return Err(twice()),
            "--from-dir" => self.folder = Some(file()?),
            "--map" => self.map = Some(file()?),
            "--compile" if self.compile.is_some() => return Err(twice()),
            "--compile" => self.compile = Some(file()?),
            "--show" => self.show = true,
            _ => self.out = Some(file()?),
        }
        Ok(())
    }

    /// Where a sheet is not run, that its other options are left out.
    fn fit_a_sheet(&self) -> Outcome<()> {
        let instead = match (&self.compile, self.show) {
            (None, false) => return Ok(()),
            (Some(_), _) => "--compile",
            (None, true) => "--show",
        };
        let given = [
            ("--show", self.show && self.compile.is_some()),
            ("--from", self.first.is_some()),
            ("--record", self.record.is_some()),
            ("--wait", self.wait),
            ("--dry-run", self.dry && self.show),
        ];
        match given.into_iter().find(|(_, is_given)| *is_given) {
            None => Ok(()),
            Some((name, _)) => Err(Failure::usage(format!("{instead} does not go with {name}"))),
        }
    }

    /// Takes the image from the operands, and holds their number to the command's.
    fn place_operands(&mut self, bare: bool) -> Outcome<()> {
        let left_out = [self.takes_all(), self.is_without_image(), self.takes_from()];
        let left_out = left_out.map(usize::from).iter().sum::<usize>();
        let most = self.form.operands.len() - left_out;
        let least = self.form.operands.iter().filter(|operand| operand.needed).count() - left_out;
        let got = self.operands.len();
        // Without an image only the bare command shows the small master: elsewhere it is likely that
        // a name is missing.
        if got < least || got > most || (got == 0 && !bare) {
            return Err(Failure::usage(format!("usage: {}", self.form.usages().join(", or "))));
        }
        if self.form.has_image() && !self.is_without_image() && got > 0 {
            self.image = Some(PathBuf::from(self.operands.remove(0)));
        }
        if self.takes_all() {
            self.operands.insert(0, OsString::from("/"));
        }
        Ok(())
    }
}

/// The value of an option that is an offset or a size.
fn number_given(given: OsString) -> Outcome<u32> {
    number(&given.into_vec()).map_err(Failure::usage)
}

/// That of one that is another number.
fn count_given(given: OsString) -> Outcome<u32> {
    count(&given.into_vec()).map_err(Failure::usage)
}

impl Form {
    pub fn find(name: &str) -> Option<&'static Form> {
        FORMS.iter().find(|form| form.name == name)
    }

    pub fn has(&self, flag: &str) -> bool {
        self.flags.iter().any(|known| known.name == flag)
    }

    /// Whether its operands begin with an image.
    fn has_image(&self) -> bool {
        self.operands.first().is_some_and(|operand| operand.value != Value::Number)
    }

    /// Help is wanted, and nothing else.
    pub fn asks_help(rest: &[OsString]) -> bool {
        let options = rest.iter().take_while(|arg| *arg != OsStr::new("--"));
        options.into_iter().any(|arg| arg == "--help" || arg == "-h")
    }

    /// Each way to use the command, on one line each.
    pub fn usages(&self) -> Vec<String> {
        let own = self.usage();
        match self.name {
            "sheet" => {
                let rest = "[--bytes] [--json]";
                let made = format!("counter sheet --compile TEXT FILE [--dry-run] {rest}");
                vec![own, made, format!("counter sheet --show FILE {rest}")]
            }
            _ => vec![own],
        }
    }

    /// The command with its operands and options, on one line.
    pub fn usage(&self) -> String {
        let mut out = format!("counter {}", self.name);
        for operand in self.operands {
            let instead = match (self.name, operand.name) {
                ("extract", "PATH") => "PATH|--all",
                ("map", "IMAGE") => "IMAGE|--demo",
                ("record", "IMAGE") => "IMAGE|FILE",
                ("fill", "CLIP") => "CLIP|--from OTHER[:PATH]",
                ("new", "OUT") => "OUT --size SIZE --code GAME --from LIST|--from-dir DIR",
                ("tables", "ENTRIES") => "ENTRIES --into DIR",
                (_, name) => name,
            };
            out.push_str(&match operand.needed {
                true => format!(" {instead}"),
                false => format!(" [{instead}]"),
            });
        }
        // Those that stand in the place of an operand are told there.
        let told = |name: &str| match name {
            "--all" => self.name == "extract",
            "--size" => self.name == "new",
            "--from" => self.name != "sheet",
            name => {
                ["--demo", "--from-dir", "--into", "--code", "--compile", "--show"].contains(&name)
            }
        };
        for flag in self.flags.iter().filter(|flag| !told(flag.name)) {
            out.push_str(&match flag.value {
                Some((value, _)) => format!(" [{} {value}]", flag.name),
                None => format!(" [{}]", flag.name),
            });
        }
        out
    }
}
