//! libcounter.a from Rust: the C functions (`ffi`), and beside each a call on slices.
//!
//! A call answers `Ok` or the number of the cause (1 to 30). Working memory is lent in a `Memory`;
//! it is zero after every call, whatever it held.

pub mod ffi;
pub mod guarded;

/// A refusal: the number of its cause.
pub type Answer<T> = Result<T, u32>;

/// Working memory for one call after another.
pub struct Memory<'a> {
    pub words: &'a mut [u32],
    pub bytes: &'a mut [u8],
}

/// What opening tells of an image.
#[derive(Debug, Clone, Copy, PartialEq, Eq)]
pub struct Opened {
    pub fst_offset: u32,
    pub fst_size: u32,
    pub disc_end: u32,
    pub entries: u32,
    pub used: u32,
}

#[derive(Debug, Clone, Copy, PartialEq, Eq)]
pub enum Entry {
    File { number: u32, offset: u32, size: u32 },
    Directory { number: u32, parent: u32, next: u32 },
}

impl Entry {
    pub fn number(&self) -> u32 {
        match *self {
            Entry::File { number, .. } | Entry::Directory { number, .. } => number,
        }
    }
}

#[derive(Debug, Clone, Copy, PartialEq, Eq)]
pub struct Region {
    pub offset: u32,
    pub size: u32,
}

/// The cheapest of the runs that were tried: how many those were, where it starts, the sizes of the files
/// that it touches, and what it costs more, at most, than any run.
#[derive(Debug, Clone, Copy, PartialEq, Eq)]
pub struct CheapestRun {
    pub tried: u32,
    pub offset: u32,
    pub cost: u32,
    pub bound: u32,
}

/// A part of an image with a position.
#[derive(Debug, Clone, Copy, PartialEq, Eq)]
pub struct Window {
    pub start: u64,
    pub length: u64,
    pub position: u64,
}

/// One of the teams that edit an image by turns: the most bytes that it may take, the free bytes that are kept
/// for it, how many it has taken, and how many edits of its own were accepted.
#[repr(C)]
#[derive(Debug, Clone, Copy, Default, PartialEq, Eq)]
pub struct Team {
    pub limit: u32,
    pub share: u32,
    pub taken: u32,
    pub edits: u32,
}

/// Goes into every edit and comes back: used bytes, the size of the largest free region (0 if there
/// is none), and the teams.
#[repr(C)]
#[derive(Debug, Clone, Copy, PartialEq, Eq)]
pub struct Record {
    pub used: u32,
    pub largest: u32,
    pub teams: [Team; TEAMS],
}

/// Whose a used region is.
#[derive(Debug, Clone, Copy, PartialEq, Eq)]
pub enum Owner {
    /// The bytes from 0 up to the table's end.
    Table,
    Program,
    /// The file with this number.
    Entry(u32),
}

/// What of an image a refusal of opening is about.
#[derive(Debug, Clone, Copy, PartialEq, Eq)]
pub enum About {
    /// Nothing more is told than the number.
    Image,
    /// The first entry behind the root that is refused: 5, 6, 9 for its depth, 10 to 13.
    Entry(u32),
    /// Two used regions that share a byte: 14.
    Shared(Owner, Owner),
    /// A used region that passes the disc end: 14.
    PastEnd(Owner),
    /// The first section, 0 to 6 of text and 7 to 17 of data, whose offset + size passes 2^32 - 1: 24.
    Section(u32),
}

/// The number that opening refuses an image with, and what of it that is about.
#[derive(Debug, Clone, Copy, PartialEq, Eq)]
pub struct Fault {
    pub number: u32,
    pub about: About,
}

/// Where an edit sheet stopped: the number of the cause, and the line that is refused, from 1; 0 before the first.
#[derive(Debug, Clone, Copy, PartialEq, Eq)]
pub struct Stopped {
    pub number: u32,
    pub line: u32,
}

/// Words of one entry in the list that `entries` fills.
pub const ENTRY_WORDS: usize = 6;

/// Words of one region in the lists that `free_regions` and `free_clusters` fill.
pub const REGION_WORDS: usize = 2;
pub const CLUSTER_WORDS: usize = 3;

/// Teams of a record, and words of each of them and of all.
pub const TEAMS: usize = 16;
pub const TEAM_WORDS: usize = 4;
pub const RECORD_WORDS: usize = 2 + TEAMS * TEAM_WORDS;

/// Words of a DOL header.
pub const DOL_WORDS: usize = 57;

/// Bytes of a disc header.
pub const HEADER_SIZE: usize = 0x440;

/// Bytes of an edit sheet's header, and of each of its lines.
pub const SHEET_HEADER_SIZE: usize = 16;
pub const SHEET_LINE_SIZE: usize = 16;

/// Bytes of a cluster.
pub const CLUSTER_SIZE: u32 = 0x8000;

/// Limits, as counter.h has them: of an image that opens, and of what an edit makes.
pub const MOST_ENTRIES: usize = 16_384;
pub const MOST_TEXT: usize = 1_048_576;
pub const MOST_LEVELS: usize = 64;
/// Bytes of a path that is passed in, or that a sheet's line has.
pub const MOST_PATH: usize = 1_024;
/// Lines of an edit sheet.
pub const MOST_LINES: usize = 1_024;
/// Entries, the root among them, that `small_tables` goes up to.
pub const MOST_SMALL: u32 = 8;

/// What an image within them wants to be lent at most.
pub const MOST_REGIONS: usize = MOST_ENTRIES + 1;
pub const MOST_WORDS: usize = 4 * (MOST_ENTRIES + 2);
pub const MOST_TABLE: usize = 12 * MOST_ENTRIES + MOST_TEXT;

/// Bytes of all tables of `MOST_SMALL` entries.
pub const MOST_SMALL_TABLES: usize = 941_380;

/// Bytes of one small table of so many entries, at least 1.
pub const fn small_table_size(entries: u32) -> usize {
    14 * entries as usize - 2
}

/// A call of a C function: a slice that it reads (`in`) or is lent (`mut`) goes in as a pointer and a
/// length, a number or slots of fixed length (`=`) as they are.
#[macro_export]
macro_rules! call {
    (@ $name:ident [$($done:expr),*]) => { $crate::ffi::$name($($done),*) };
    (@ $name:ident [$($done:expr),*] in $slice:expr $(, $($rest:tt)*)?) => {
        $crate::call!(@ $name [$($done,)* $slice.as_ptr(), $slice.len()] $($($rest)*)?)
    };
    (@ $name:ident [$($done:expr),*] mut $slice:expr $(, $($rest:tt)*)?) => {
        $crate::call!(@ $name [$($done,)* $slice.as_mut_ptr(), $slice.len()] $($($rest)*)?)
    };
    (@ $name:ident [$($done:expr),*] = $given:expr $(, $($rest:tt)*)?) => {
        $crate::call!(@ $name [$($done,)* $given] $($($rest)*)?)
    };
    ($name:ident($($given:tt)*)) => { $crate::call!(@ $name [] $($given)*) };
}

fn told(number: u32) -> Answer<()> {
    if number == 0 { Ok(()) } else { Err(number) }
}

fn entry(answer: [u32; 4]) -> Entry {
    let [number, kind, first, second] = answer;
    match kind {
        0 => Entry::File { number, offset: first, size: second },
        _ => Entry::Directory { number, parent: first, next: second },
    }
}

fn opened(answer: [u32; 5]) -> Opened {
    let [fst_offset, fst_size, disc_end, entries, used] = answer;
    Opened { fst_offset, fst_size, disc_end, entries, used }
}

fn window(answer: [u64; 3]) -> Window {
    Window { start: answer[0], length: answer[1], position: answer[2] }
}

fn owner(number: u32) -> Owner {
    match number {
        0 => Owner::Table,
        u32::MAX => Owner::Program,
        number => Owner::Entry(number),
    }
}

fn about([kind, first, second]: [u32; 3]) -> About {
    match kind {
        0 => About::Image,
        1 => About::Entry(first),
        2 => About::Shared(owner(first), owner(second)),
        3 => About::PastEnd(owner(first)),
        _ => About::Section(first),
    }
}

// Reading ---------------------------------------------------------------------------------

/// The header as it is read and written back.
pub fn header(image: &[u8]) -> Answer<[u8; HEADER_SIZE]> {
    let mut fields = [0; HEADER_SIZE];
    told(unsafe { call!(counter_header(in image, = &mut fields)) })?;
    Ok(fields)
}

pub fn open(image: &[u8], memory: &mut Memory) -> Answer<Opened> {
    let mut answer = [0; 5];
    told(unsafe { call!(counter_open(in image, mut memory.words, = &mut answer)) })?;
    Ok(opened(answer))
}

/// What opening refuses an image for; none where it opens.
pub fn fault(image: &[u8], words: &mut [u32]) -> Option<Fault> {
    let mut answer = [0; 4];
    unsafe { call!(counter_fault(in image, mut words, = &mut answer)) };
    let [number, kind, first, second] = answer;
    (number != 0).then(|| Fault { number, about: about([kind, first, second]) })
}

/// The disc end and the used total.
pub fn totals(image: &[u8], memory: &mut Memory) -> Answer<(u32, u32)> {
    let mut answer = [0; 2];
    told(unsafe { call!(counter_totals(in image, mut memory.words, = &mut answer)) })?;
    Ok((answer[0], answer[1]))
}

/// The program's region, before the table or behind it; none where the DOL offset is 0.
pub fn program(image: &[u8], memory: &mut Memory) -> Answer<Option<Region>> {
    let mut answer = [0; 2];
    told(unsafe { call!(counter_program(in image, mut memory.words, = &mut answer)) })?;
    let [offset, size] = answer;
    Ok((offset != 0).then_some(Region { offset, size }))
}

pub fn entry_at(image: &[u8], memory: &mut Memory, number: u32) -> Answer<Entry> {
    let mut answer = [0; 4];
    told(unsafe { call!(counter_entry(in image, mut memory.words, = number, = &mut answer)) })?;
    Ok(entry(answer))
}

pub fn lookup(image: &[u8], memory: &mut Memory, start: u32, path: &[u8]) -> Answer<Entry> {
    let mut answer = [0; 4];
    told(unsafe {
        call!(counter_lookup(in image, mut memory.words, = start, in path, = &mut answer))
    })?;
    Ok(entry(answer))
}

/// Six words an entry in `list`: kind, the directory it is nested in, offset (0 for a directory),
/// size or next, the place of its name in the image, the name's length.
pub fn entries(image: &[u8], memory: &mut Memory, list: &mut [u32]) -> Answer<Opened> {
    let mut answer = [0; 5];
    told(unsafe { call!(counter_entries(in image, mut memory.words, mut list, = &mut answer)) })?;
    Ok(opened(answer))
}

/// The listing in front of `text`; the answer is its length.
pub fn list(image: &[u8], memory: &mut Memory, text: &mut [u8]) -> Answer<u64> {
    let mut answer = [0; 1];
    told(unsafe { call!(counter_list(in image, mut memory.words, mut text, = &mut answer)) })?;
    Ok(answer[0])
}

/// What the listing program writes, in front of `text`; the answer is its length.
pub fn report(image: &[u8], memory: &mut Memory, text: &mut [u8]) -> Answer<u64> {
    let mut answer = [0; 1];
    told(unsafe { call!(counter_report(in image, mut memory.words, mut text, = &mut answer)) })?;
    Ok(answer[0])
}

/// The table that `rewrite` would write, in front of `table`; the answer is its length.
pub fn table_anew(image: &[u8], words: &mut [u32], table: &mut [u8]) -> Answer<usize> {
    let mut length = [0; 1];
    told(unsafe { call!(counter_table_anew(in image, mut words, mut table, = &mut length)) })?;
    Ok(length[0] as usize)
}

/// Offset and size of each free region in `list`; the answer is how many there are.
pub fn free_regions(image: &[u8], memory: &mut Memory, list: &mut [u32]) -> Answer<u32> {
    let mut answer = [0; 1];
    told(unsafe {
        call!(counter_free_regions(in image, mut memory.words, mut list, = &mut answer))
    })?;
    Ok(answer[0])
}

/// Of each free region in `list` the bytes before its first multiple of 0x8000, the whole clusters and
/// the rest; the answer is how many regions there are.
pub fn free_clusters(image: &[u8], memory: &mut Memory, list: &mut [u32]) -> Answer<u32> {
    let mut answer = [0; 1];
    told(unsafe {
        call!(counter_free_clusters(in image, mut memory.words, mut list, = &mut answer))
    })?;
    Ok(answer[0])
}

pub fn max_region_size(image: &[u8], memory: &mut Memory, offset: u32, size: u32) -> Answer<u32> {
    let mut answer = [0; 1];
    told(unsafe {
        call!(counter_max_region_size(in image, mut memory.words, = offset, = size, = &mut answer))
    })?;
    Ok(answer[0])
}

pub fn max_file_size(image: &[u8], memory: &mut Memory, number: u32) -> Answer<u32> {
    let mut answer = [0; 1];
    told(unsafe {
        call!(counter_max_file_size(in image, mut memory.words, = number, = &mut answer))
    })?;
    Ok(answer[0])
}

pub fn allocate(image: &[u8], memory: &mut Memory, size: u32, align: u32) -> Answer<Region> {
    let mut answer = [0; 2];
    told(unsafe {
        call!(counter_allocate(in image, mut memory.words, = size, = align, = &mut answer))
    })?;
    Ok(Region { offset: answer[0], size: answer[1] })
}

/// Where the least has to be moved away for `size` bytes in a row; none where no run was tried, for a budget
/// of 0.
pub fn clear(
    image: &[u8],
    memory: &mut Memory,
    size: u32,
    budget: u32,
) -> Answer<Option<CheapestRun>> {
    let mut answer = [0; 4];
    told(unsafe {
        call!(counter_clear(in image, mut memory.words, = size, = budget, = &mut answer))
    })?;
    let [tried, offset, cost, bound] = answer;
    Ok((tried != 0).then_some(CheapestRun { tried, offset, cost, bound }))
}

pub fn open_file(image: &[u8], memory: &mut Memory, number: u32) -> Answer<Window> {
    let mut answer = [0; 3];
    told(unsafe { call!(counter_open_file(in image, mut memory.words, = number, = &mut answer)) })?;
    Ok(window(answer))
}

/// The DOL header's words and the window of the executable; its length is the file size.
pub fn open_dol(image: &[u8], memory: &mut Memory) -> Answer<([u32; DOL_WORDS], Window)> {
    let mut header = [0; DOL_WORDS];
    let mut answer = [0; 3];
    told(unsafe {
        call!(counter_open_dol(in image, mut memory.words, = &mut header, = &mut answer))
    })?;
    Ok((header, window(answer)))
}

// Names and paths -------------------------------------------------------------------------

/// How many bytes the first unit of a text has (0 for an empty text), and what it is refused for in a
/// name: 0, 12 or 13.
pub fn unit(text: &[u8]) -> (usize, u32) {
    let mut unit = [0; 2];
    // It is never refused.
    unsafe { call!(counter_unit(in text, = &mut unit)) };
    (unit[0] as usize, unit[1])
}

/// How many bytes the first component of a path has.
pub fn component(path: &[u8]) -> usize {
    let mut length = [0; 1];
    // It is never refused.
    unsafe { call!(counter_component(in path, = &mut length)) };
    length[0] as usize
}

/// What opening refuses an entry's name for: 0, 12 or 13.
pub fn name(name: &[u8]) -> u32 {
    unsafe { call!(counter_name(in name)) }
}

// Windows ---------------------------------------------------------------------------------

impl Window {
    fn slots(&self) -> [u64; 3] {
        [self.start, self.length, self.position]
    }

    pub fn seek_start(&mut self, position: u64) -> Answer<()> {
        let mut slots = self.slots();
        told(unsafe { call!(counter_seek_start(= &mut slots, = position)) })?;
        *self = window(slots);
        Ok(())
    }

    pub fn seek_current(&mut self, distance: i64) -> Answer<()> {
        let mut slots = self.slots();
        told(unsafe { call!(counter_seek_current(= &mut slots, = distance)) })?;
        *self = window(slots);
        Ok(())
    }

    pub fn seek_end(&mut self, distance: i64) -> Answer<()> {
        let mut slots = self.slots();
        told(unsafe { call!(counter_seek_end(= &mut slots, = distance)) })?;
        *self = window(slots);
        Ok(())
    }

    /// How many bytes were read; the position moves on by as many.
    pub fn read(&mut self, image: &[u8], buf: &mut [u8]) -> Answer<u64> {
        let mut slots = self.slots();
        let mut answer = [0; 1];
        told(unsafe { call!(counter_read(= &mut slots, in image, mut buf, = &mut answer)) })?;
        *self = window(slots);
        Ok(answer[0])
    }
}

// Edits -----------------------------------------------------------------------------------

impl Record {
    pub fn slots(&self) -> [u32; RECORD_WORDS] {
        let mut slots = [0; RECORD_WORDS];
        let [used, largest, teams @ ..] = &mut slots;
        (*used, *largest) = (self.used, self.largest);
        for (slots, team) in teams.as_chunks_mut().0.iter_mut().zip(&self.teams) {
            *slots = [team.limit, team.share, team.taken, team.edits];
        }
        slots
    }

    pub fn of(slots: [u32; RECORD_WORDS]) -> Record {
        let [used, largest, teams @ ..] = slots;
        let team = |k| {
            let [limit, share, taken, edits] = teams.as_chunks().0[k];
            Team { limit, share, taken, edits }
        };
        Record { used, largest, teams: std::array::from_fn(team) }
    }

    /// An edit that takes this record and gives it back, a refused one too.
    fn through(&mut self, edit: impl FnOnce(&mut [u32; RECORD_WORDS]) -> u32) -> Answer<()> {
        let mut slots = self.slots();
        let number = edit(&mut slots);
        *self = Record::of(slots);
        told(number)
    }
}

/// A record of the image: its used total, its largest free region, and the teams with these limits and shares,
/// which have taken nothing.
pub fn make_record(
    image: &[u8],
    memory: &mut Memory,
    limits: &[u32; TEAMS],
    shares: &[u32; TEAMS],
) -> Answer<Record> {
    let mut slots = [0; RECORD_WORDS];
    told(unsafe {
        call!(counter_make_record(in image, mut memory.words, = limits, = shares, = &mut slots))
    })?;
    Ok(Record::of(slots))
}

/// The new entry's number.
pub fn insert_file(
    image: &mut [u8],
    memory: &mut Memory,
    record: &mut Record,
    team: u32,
    parent: u32,
    name: &[u8],
) -> Answer<u32> {
    let mut answer = [0; 1];
    record.through(|r| unsafe {
        call!(counter_insert_file(
            mut image, mut memory.words, mut memory.bytes, = r, = team, = parent, in name, = &mut answer
        ))
    })?;
    Ok(answer[0])
}

/// The new entry's number.
pub fn insert_directory(
    image: &mut [u8],
    memory: &mut Memory,
    record: &mut Record,
    team: u32,
    parent: u32,
    name: &[u8],
) -> Answer<u32> {
    let mut answer = [0; 1];
    record.through(|r| unsafe {
        call!(counter_insert_directory(
            mut image, mut memory.words, mut memory.bytes, = r, = team, = parent, in name, = &mut answer
        ))
    })?;
    Ok(answer[0])
}

/// The number of the entry where the path ends.
pub fn make_directories(
    image: &mut [u8],
    memory: &mut Memory,
    record: &mut Record,
    team: u32,
    start: u32,
    path: &[u8],
) -> Answer<u32> {
    let mut answer = [0; 1];
    record.through(|r| unsafe {
        call!(counter_make_directories(
            mut image, mut memory.words, mut memory.bytes, = r, = team, = start, in path, = &mut answer
        ))
    })?;
    Ok(answer[0])
}

pub fn move_file(
    image: &mut [u8],
    memory: &mut Memory,
    record: &mut Record,
    team: u32,
    number: u32,
    new_offset: u32,
) -> Answer<()> {
    record.through(|r| unsafe {
        call!(counter_move_file(
            mut image, mut memory.words, mut memory.bytes, = r, = team, = number, = new_offset
        ))
    })
}

pub fn resize_file(
    image: &mut [u8],
    memory: &mut Memory,
    record: &mut Record,
    team: u32,
    number: u32,
    new_size: u32,
) -> Answer<()> {
    record.through(|r| unsafe {
        call!(counter_resize_file(
            mut image, mut memory.words, mut memory.bytes, = r, = team, = number, = new_size
        ))
    })
}

/// Afterwards the file is exactly the clip.
pub fn fill_file(
    image: &mut [u8],
    memory: &mut Memory,
    record: &mut Record,
    team: u32,
    number: u32,
    clip: &[u8],
) -> Answer<()> {
    record.through(|r| unsafe {
        call!(counter_fill_file(
            mut image, mut memory.words, mut memory.bytes, = r, = team, = number, in clip
        ))
    })
}

/// Writes the table anew.
pub fn rewrite(
    image: &mut [u8],
    memory: &mut Memory,
    record: &mut Record,
    team: u32,
) -> Answer<()> {
    record.through(|r| unsafe {
        call!(counter_rewrite(mut image, mut memory.words, mut memory.bytes, = r, = team))
    })
}

// A move or a resize in three calls -------------------------------------------------------

/// The copy: makes all tests of the move, and writes the bytes at their new place. The record is only read.
pub fn move_copy(
    image: &mut [u8],
    memory: &mut Memory,
    record: &Record,
    team: u32,
    number: u32,
    new_offset: u32,
) -> Answer<()> {
    let slots = record.slots();
    told(unsafe {
        call!(counter_move_copy(
            mut image, mut memory.words, mut memory.bytes, = &slots, = team, = number, = new_offset
        ))
    })
}

/// The same of a resize.
pub fn resize_copy(
    image: &mut [u8],
    memory: &mut Memory,
    record: &Record,
    team: u32,
    number: u32,
    new_size: u32,
) -> Answer<()> {
    let slots = record.slots();
    told(unsafe {
        call!(counter_resize_copy(
            mut image, mut memory.words, mut memory.bytes, = &slots, = team, = number, = new_size
        ))
    })
}

/// The table: makes the same tests again, and writes the table. The answer is the span that is left to be zeroed;
/// offset and size 0 where there is none.
pub fn move_table(
    image: &mut [u8],
    memory: &mut Memory,
    record: &mut Record,
    team: u32,
    number: u32,
    new_offset: u32,
) -> Answer<Region> {
    let mut span = [0; 2];
    record.through(|r| unsafe {
        call!(counter_move_table(
            mut image, mut memory.words, mut memory.bytes, = r, = team, = number, = new_offset, = &mut span
        ))
    })?;
    Ok(Region { offset: span[0], size: span[1] })
}

/// The same of a resize.
pub fn resize_table(
    image: &mut [u8],
    memory: &mut Memory,
    record: &mut Record,
    team: u32,
    number: u32,
    new_size: u32,
) -> Answer<Region> {
    let mut span = [0; 2];
    record.through(|r| unsafe {
        call!(counter_resize_table(
            mut image, mut memory.words, mut memory.bytes, = r, = team, = number, = new_size, = &mut span
        ))
    })?;
    Ok(Region { offset: span[0], size: span[1] })
}

/// The zeros: over the span, if every byte of it is free. An empty one may lie anywhere.
pub fn zero(image: &mut [u8], words: &mut [u32], span: Region) -> Answer<()> {
    told(unsafe { call!(counter_zero(mut image, mut words, = span.offset, = span.size)) })
}

// An edit sheet ---------------------------------------------------------------------------

/// Runs the lines of a sheet in order, up to the first that is refused. Image and record are those after the lines
/// before that one.
pub fn sheet(
    image: &mut [u8],
    memory: &mut Memory,
    record: &mut Record,
    team: u32,
    sheet: &[u8],
) -> Result<(), Stopped> {
    let mut line = [0; 1];
    let run = record.through(|r| unsafe {
        call!(counter_sheet(
            mut image, mut memory.words, mut memory.bytes, = r, = team, in sheet, = &mut line
        ))
    });
    run.map_err(|number| Stopped { number, line: line[0] })
}

// A new master ----------------------------------------------------------------------------

/// Writes a fresh image over what `image` holds below `disc_end`: a file for each of the sizes, by the
/// paths, each of which is ended by a zero byte.
pub fn master(
    image: &mut [u8],
    memory: &mut Memory,
    game_code: &[u8; 4],
    disc_end: u32,
    sizes: &[u32],
    paths: &[u8],
) -> Answer<()> {
    told(unsafe {
        call!(counter_master(
            mut image, mut memory.words, mut memory.bytes, = game_code, = disc_end, in sizes, in paths
        ))
    })
}

// Every small table -----------------------------------------------------------------------

/// The tables of all shapes of so many entries in front of `list`; the answer is how many there are, and each
/// has `small_table_size` bytes.
pub fn small_tables(entries: u32, list: &mut [u8]) -> Answer<u32> {
    let mut answer = [0; 1];
    told(unsafe { call!(counter_small_tables(= entries, mut list, = &mut answer)) })?;
    Ok(answer[0])
}
