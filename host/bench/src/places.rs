//! Calls of the library and of an earlier one, each at four places in memory (build.rs). Without an earlier library it is this one.

use crate::measure::Watch;
use crate::sides::{Call, RECORD, TEAM};
use counter_sys::{RECORD_WORDS, Record, TEAMS};
use std::time::Duration;

macro_rules! at_four_places {
    ($name:ident: $args:tt $($symbol:ident)*) => {
        pub const $name: [unsafe extern "C" fn $args -> u32; 4] = {
            unsafe extern "C" {
                $(fn $symbol $args -> u32;)*
            }
            [$($symbol),*]
        };
    };
}

macro_rules! before_and_now {
    ($call:ident $before:ident $now:ident $args:tt: $($earlier:ident)*, $($later:ident)*) => {
        pub type $call = unsafe extern "C" fn $args -> u32;

        at_four_places!($now: $args $($later)*);

        #[cfg(before)]
        at_four_places!($before: $args $($earlier)*);

        #[cfg(not(before))]
        pub const $before: [$call; 4] = $now;
    };
}

before_and_now!(
    Open OPEN_BEFORE OPEN
    (image: *const u8, n: usize, words: *mut u32, m: usize, disc: *mut u32):
    before_open_0 before_open_1 before_open_2 before_open_3,
    now_open_0 now_open_1 now_open_2 now_open_3
);

before_and_now!(
    Lookup LOOKUP_BEFORE LOOKUP
    (image: *const u8, n: usize, words: *mut u32, m: usize, start: u32, path: *const u8, k: usize, entry: *mut u32):
    before_lookup_0 before_lookup_1 before_lookup_2 before_lookup_3,
    now_lookup_0 now_lookup_1 now_lookup_2 now_lookup_3
);

/// As `before_and_now` for an edit, by what it takes behind record and team. The earlier library may have no teams, or no records.
macro_rules! edit_before_and_now {
    ($before:ident $now:ident ($($arg:ident: $type:ty),*): $($earlier:ident)*, $($later:ident)*) => {
        at_four_places!($now: (
            image: *mut u8, n: usize, words: *mut u32, m: usize, bytes: *mut u8, room: usize,
            record: *mut u32, team: u32 $(, $arg: $type)*
        ) $($later)*);

        #[cfg(all(before, teams_before))]
        at_four_places!($before: (
            image: *mut u8, n: usize, words: *mut u32, m: usize, bytes: *mut u8, room: usize,
            record: *mut u32, team: u32 $(, $arg: $type)*
        ) $($earlier)*);

        #[cfg(all(before, records_before, not(teams_before)))]
        at_four_places!($before: (
            image: *mut u8, n: usize, words: *mut u32, m: usize, bytes: *mut u8, room: usize,
            record: *mut u32 $(, $arg: $type)*
        ) $($earlier)*);

        #[cfg(all(before, not(records_before)))]
        at_four_places!($before: (
            image: *mut u8, n: usize, words: *mut u32, m: usize, bytes: *mut u8, room: usize
            $(, $arg: $type)*
        ) $($earlier)*);

        #[cfg(not(before))]
        pub use $now as $before;
    };
}

/// A call of an edit of the earlier library: it gets the team only where it has teams, the record only where it has records.
#[cfg(any(not(before), teams_before))]
macro_rules! call_before {
    ($edit:ident($($lent:expr),*; $record:expr, $team:expr $(, $given:expr)*)) => {
        $edit($($lent,)* $record, $team $(, $given)*)
    };
}

#[cfg(all(before, records_before, not(teams_before)))]
macro_rules! call_before {
    ($edit:ident($($lent:expr),*; $record:expr, $team:expr $(, $given:expr)*)) => {
        $edit($($lent,)* $record $(, $given)*)
    };
}

#[cfg(all(before, not(records_before)))]
macro_rules! call_before {
    ($edit:ident($($lent:expr),*; $record:expr, $team:expr $(, $given:expr)*)) => {
        $edit($($lent),* $(, $given)*)
    };
}

before_and_now!(
    Totals TOTALS_BEFORE TOTALS
    (image: *const u8, n: usize, words: *mut u32, m: usize, answer: *mut u32):
    before_totals_0 before_totals_1 before_totals_2 before_totals_3,
    now_totals_0 now_totals_1 now_totals_2 now_totals_3
);

at_four_places!(
    MAKE_RECORD:
    (image: *const u8, n: usize, words: *mut u32, m: usize, limits: *const u32, shares: *const u32, record: *mut u32)
    now_make_record_0 now_make_record_1 now_make_record_2 now_make_record_3
);

at_four_places!(
    CLEAR:
    (image: *const u8, n: usize, words: *mut u32, m: usize, size: u32, budget: u32, answer: *mut u32)
    now_clear_0 now_clear_1 now_clear_2 now_clear_3
);

edit_before_and_now!(
    INSERT_FILE_BEFORE INSERT_FILE
    (parent: u32, name: *const u8, k: usize, made: *mut u32):
    before_insert_file_0 before_insert_file_1 before_insert_file_2 before_insert_file_3,
    now_insert_file_0 now_insert_file_1 now_insert_file_2 now_insert_file_3
);

edit_before_and_now!(
    INSERT_DIRECTORY_BEFORE INSERT_DIRECTORY
    (parent: u32, name: *const u8, k: usize, made: *mut u32):
    before_insert_directory_0 before_insert_directory_1 before_insert_directory_2 before_insert_directory_3,
    now_insert_directory_0 now_insert_directory_1 now_insert_directory_2 now_insert_directory_3
);

edit_before_and_now!(
    MAKE_DIRECTORIES_BEFORE MAKE_DIRECTORIES
    (start: u32, path: *const u8, k: usize, end: *mut u32):
    before_make_directories_0 before_make_directories_1 before_make_directories_2 before_make_directories_3,
    now_make_directories_0 now_make_directories_1 now_make_directories_2 now_make_directories_3
);

edit_before_and_now!(
    MOVE_BEFORE MOVE
    (file: u32, to: u32):
    before_move_file_0 before_move_file_1 before_move_file_2 before_move_file_3,
    now_move_file_0 now_move_file_1 now_move_file_2 now_move_file_3
);

edit_before_and_now!(
    RESIZE_BEFORE RESIZE
    (file: u32, to: u32):
    before_resize_file_0 before_resize_file_1 before_resize_file_2 before_resize_file_3,
    now_resize_file_0 now_resize_file_1 now_resize_file_2 now_resize_file_3
);

edit_before_and_now!(
    FILL_BEFORE FILL
    (file: u32, clip: *const u8, k: usize):
    before_fill_file_0 before_fill_file_1 before_fill_file_2 before_fill_file_3,
    now_fill_file_0 now_fill_file_1 now_fill_file_2 now_fill_file_3
);

edit_before_and_now!(
    REWRITE_BEFORE REWRITE
    ():
    before_rewrite_0 before_rewrite_1 before_rewrite_2 before_rewrite_3,
    now_rewrite_0 now_rewrite_1 now_rewrite_2 now_rewrite_3
);

at_four_places!(
    MOVE_COPY:
    (
        image: *mut u8, n: usize, words: *mut u32, m: usize, bytes: *mut u8, room: usize,
        record: *const u32, team: u32, file: u32, to: u32
    )
    now_move_copy_0 now_move_copy_1 now_move_copy_2 now_move_copy_3
);

at_four_places!(
    MOVE_TABLE:
    (
        image: *mut u8, n: usize, words: *mut u32, m: usize, bytes: *mut u8, room: usize,
        record: *mut u32, team: u32, file: u32, to: u32, span: *mut u32
    )
    now_move_table_0 now_move_table_1 now_move_table_2 now_move_table_3
);

at_four_places!(
    RESIZE_COPY:
    (
        image: *mut u8, n: usize, words: *mut u32, m: usize, bytes: *mut u8, room: usize,
        record: *const u32, team: u32, file: u32, to: u32
    )
    now_resize_copy_0 now_resize_copy_1 now_resize_copy_2 now_resize_copy_3
);

at_four_places!(
    RESIZE_TABLE:
    (
        image: *mut u8, n: usize, words: *mut u32, m: usize, bytes: *mut u8, room: usize,
        record: *mut u32, team: u32, file: u32, to: u32, span: *mut u32
    )
    now_resize_table_0 now_resize_table_1 now_resize_table_2 now_resize_table_3
);

at_four_places!(
    ZERO:
    (image: *mut u8, n: usize, words: *mut u32, m: usize, offset: u32, size: u32)
    now_zero_0 now_zero_1 now_zero_2 now_zero_3
);

at_four_places!(
    SHEET:
    (
        image: *mut u8, n: usize, words: *mut u32, m: usize, bytes: *mut u8, room: usize,
        record: *mut u32, team: u32, sheet: *const u8, k: usize, line: *mut u32
    )
    now_sheet_0 now_sheet_1 now_sheet_2 now_sheet_3
);

/// The time of a call, and the number that it answers.
fn timed(call: impl FnOnce() -> u32) -> (Duration, u32) {
    let start = Watch::start();
    let number = call();
    (start.elapsed(), number)
}

/// Of a call that is accepted.
fn accepted((time, number): (Duration, u32)) -> Duration {
    assert_eq!(number, 0);
    time
}

pub fn time_open(open: Open, image: &[u8], words: &mut [u32]) -> Duration {
    let mut disc = [0; 5];
    let (at, len) = (words.as_mut_ptr(), words.len());
    accepted(timed(|| unsafe { open(image.as_ptr(), image.len(), at, len, disc.as_mut_ptr()) }))
}

/// A record made, at one of the four places.
pub fn time_record(
    place: usize,
    image: &[u8],
    words: &mut [u32],
    [limits, shares]: &[[u32; TEAMS]; 2],
) -> Duration {
    let (make, mut record) = (MAKE_RECORD[place], [0; RECORD_WORDS]);
    let (image, n, at, len) = (image.as_ptr(), image.len(), words.as_mut_ptr(), words.len());
    let (limits, shares, r) = (limits.as_ptr(), shares.as_ptr(), record.as_mut_ptr());
    accepted(timed(|| unsafe { make(image, n, at, len, limits, shares, r) }))
}

/// A run to clear, by size and budget, at one of the four places; it answers this number.
pub fn time_clear(
    place: usize,
    image: &[u8],
    words: &mut [u32],
    [size, budget]: [u32; 2],
    number: u32,
) -> Duration {
    let (clear, mut found) = (CLEAR[place], [0; 4]);
    let (image, n, at, len) = (image.as_ptr(), image.len(), words.as_mut_ptr(), words.len());
    let answer = found.as_mut_ptr();
    let (time, answered) = timed(|| unsafe { clear(image, n, at, len, size, budget, answer) });
    assert_eq!(answered, number);
    time
}

/// From the root.
pub fn time_lookup(lookup: Lookup, image: &[u8], words: &mut [u32], path: &[u8]) -> Duration {
    let mut entry = [0; 4];
    let (image, n, at, len) = (image.as_ptr(), image.len(), words.as_mut_ptr(), words.len());
    let (path, k) = (path.as_ptr(), path.len());
    accepted(timed(|| unsafe { lookup(image, n, at, len, 0, path, k, entry.as_mut_ptr()) }))
}

/// What an edit works with.
pub struct Case {
    pub image: Vec<u8>,
    pub words: Vec<u32>,
    pub bytes: Vec<u8>,
}

/// A line of a sheet: its kind, the path that is looked up, the name behind it of a new entry, and its new offset or size.
pub struct Line {
    pub kind: u32,
    pub sought: Vec<u8>,
    pub name: Vec<u8>,
    pub number: u32,
}

/// What an edit took, the number that it answered, and the record that came back.
pub struct Edited {
    pub time: Duration,
    pub number: u32,
    pub record: Record,
}

impl Case {
    /// An edit that is accepted: by the earlier library (`side` 0) or by this one (1), at one of its places in memory.
    pub fn time(&mut self, call: &Call, side: usize, place: usize) -> Duration {
        let Edited { time, number, .. } = self.edit(call, side, place, self.bytes.len());
        accepted((time, number))
    }

    /// With as many of the bytes as are asked for. Either library is called with nothing between.
    pub fn edit(&mut self, call: &Call, side: usize, place: usize, room: usize) -> Edited {
        let (mut record, mut answer) = (RECORD.slots(), [0]);
        if side == 0 && !cfg!(teams_before) {
            // Used bytes, the largest free region, and the count of edits.
            record = [0; RECORD_WORDS];
            record[0] = RECORD.used;
        }
        let (r, a) = (record.as_mut_ptr(), answer.as_mut_ptr());
        let (image, n) = (self.image.as_mut_ptr(), self.image.len());
        let (words, m) = (self.words.as_mut_ptr(), self.words.len());
        let bytes = self.bytes[..room].as_mut_ptr();
        // The call of that side at that place, with what it takes behind the record.
        macro_rules! call {
            ($before:ident $now:ident $(, $given:expr)*) => {
                if side == 0 {
                    let edit = $before[place];
                    timed(|| unsafe {
                        call_before!(edit(image, n, words, m, bytes, room; r, TEAM $(, $given)*))
                    })
                } else {
                    let edit = $now[place];
                    timed(|| unsafe { edit(image, n, words, m, bytes, room, r, TEAM $(, $given)*) })
                }
            };
        }
        let (time, number) = match call {
            Call::InsertFile(parent, name) => {
                call!(INSERT_FILE_BEFORE INSERT_FILE, *parent, name.as_ptr(), name.len(), a)
            }
            Call::InsertDirectory(parent, name) => {
                call!(INSERT_DIRECTORY_BEFORE INSERT_DIRECTORY, *parent, name.as_ptr(), name.len(), a)
            }
            Call::MakeDirectories(path) => {
                call!(MAKE_DIRECTORIES_BEFORE MAKE_DIRECTORIES, 0, path.as_ptr(), path.len(), a)
            }
            Call::Move(file, to) => call!(MOVE_BEFORE MOVE, *file, *to),
            Call::Resize(file, to) => call!(RESIZE_BEFORE RESIZE, *file, *to),
            Call::Fill(file, clip) => call!(FILL_BEFORE FILL, *file, clip.as_ptr(), clip.len()),
            Call::Rewrite => call!(REWRITE_BEFORE REWRITE),
            _ => unreachable!(),
        };
        Edited { time, number, record: Record::of(record) }
    }

    /// A sheet, with a team that may take anything; the line is 0 where all ran.
    pub fn sheet(&mut self, sheet: &[u8], place: usize) -> (Edited, u32) {
        let (run, mut record, mut line) = (SHEET[place], RECORD.slots(), [0]);
        let (r, l) = (record.as_mut_ptr(), line.as_mut_ptr());
        let (image, n) = (self.image.as_mut_ptr(), self.image.len());
        let (words, m) = (self.words.as_mut_ptr(), self.words.len());
        let (bytes, room) = (self.bytes.as_mut_ptr(), self.bytes.len());
        let (time, number) = timed(|| unsafe {
            run(image, n, words, m, bytes, room, r, TEAM, sheet.as_ptr(), sheet.len(), l)
        });
        (Edited { time, number, record: Record::of(record) }, line[0])
    }

    /// The lines of a sheet as single calls, each behind the lookup of its path.
    pub fn one_by_one(&mut self, lines: &[Line], place: usize) -> Edited {
        let (mut record, mut entry, mut made) = (RECORD.slots(), [0; 4], [0]);
        let (r, e, a) = (record.as_mut_ptr(), entry.as_mut_ptr(), made.as_mut_ptr());
        let (image, n) = (self.image.as_mut_ptr(), self.image.len());
        let (words, m) = (self.words.as_mut_ptr(), self.words.len());
        let (bytes, room) = (self.bytes.as_mut_ptr(), self.bytes.len());
        let lookup = LOOKUP[place];
        let (directory, file) = (INSERT_DIRECTORY[place], INSERT_FILE[place]);
        let (moved, resized) = (MOVE[place], RESIZE[place]);
        let all = || unsafe {
            for line in lines {
                let path = line.sought.as_ptr();
                let mut number = lookup(image, n, words, m, 0, path, line.sought.len(), e);
                let (name, k) = (line.name.as_ptr(), line.name.len());
                number |= match line.kind {
                    1 => directory(image, n, words, m, bytes, room, r, TEAM, *e, name, k, a),
                    2 => file(image, n, words, m, bytes, room, r, TEAM, *e, name, k, a),
                    3 => moved(image, n, words, m, bytes, room, r, TEAM, *e, line.number),
                    _ => resized(image, n, words, m, bytes, room, r, TEAM, *e, line.number),
                };
                if number != 0 {
                    return number;
                }
            }
            0
        };
        let (time, number) = timed(all);
        Edited { time, number, record: Record::of(record) }
    }

    /// A move or a resize that is accepted, in three calls.
    pub fn three(&mut self, call: &Call, place: usize) -> Edited {
        let (copy, table, file, to) = match *call {
            Call::Move(file, to) => (MOVE_COPY[place], MOVE_TABLE[place], file, to),
            Call::Resize(file, to) => (RESIZE_COPY[place], RESIZE_TABLE[place], file, to),
            _ => unreachable!(),
        };
        let (zero, mut record, mut span) = (ZERO[place], RECORD.slots(), [0; 2]);
        let (r, s) = (record.as_mut_ptr(), span.as_mut_ptr());
        let (image, n) = (self.image.as_mut_ptr(), self.image.len());
        let (words, m) = (self.words.as_mut_ptr(), self.words.len());
        let (bytes, room) = (self.bytes.as_mut_ptr(), self.bytes.len());
        let (time, number) = timed(|| unsafe {
            copy(image, n, words, m, bytes, room, r, TEAM, file, to)
                | table(image, n, words, m, bytes, room, r, TEAM, file, to, s)
                | zero(image, n, words, m, *s, *s.add(1))
        });
        Edited { time, number, record: Record::of(record) }
    }
}
