//! What the probe's language does not reach: windows that no call gives; each call on slices; the
//! program's region; an image with nothing in it; every small table, opened.

use counter_sys::guarded::Guarded;
use counter_sys::{
    CheapestRun, Entry, Memory, Opened, Record, Region, Stopped, TEAMS, Team, Window, call,
};
use std::array;
use std::collections::BTreeSet;

/// The small master.
fn small_master() -> Vec<u8> {
    let mut image = vec![0; 0x2000];
    put(&mut image, 0x1c, &[0xc2, 0x33, 0x9f, 0x3d]);
    put(&mut image, 0x424, &[0, 0, 4, 0x40, 0, 0, 0, 0x1a]);
    put(&mut image, 0x434, &[0, 0, 0x20, 0]);
    put(&mut image, 0x440, &[1, 0, 0, 0, 0, 0, 0, 0, 0, 0, 0, 2]);
    put(&mut image, 0x44c, &[0, 0, 0, 0, 0, 0, 5, 0, 0, 0, 1, 0, b'a', 0]);
    image
}

fn put(image: &mut [u8], at: usize, bytes: &[u8]) {
    image[at..at + bytes.len()].copy_from_slice(bytes);
}

/// A line of a sheet: its kind, path, new offset and new size.
type Line<'a> = (u32, &'a [u8], u32, u32);

/// A sheet: the header, the lines, and each line's path behind them, in their order.
fn sheet_of(lines: &[Line]) -> Vec<u8> {
    let (mut numbers, mut texts) = (vec![], vec![]);
    for (kind, path, offset, size) in lines {
        numbers.extend([*kind, texts.len() as u32, *offset, *size]);
        texts.extend([path, &[0][..]].concat());
    }
    let count = lines.len() as u32;
    let header = [count, 16, 16 + 16 * count, texts.len() as u32];
    let words = header.into_iter().chain(numbers).flat_map(u32::to_be_bytes);
    words.chain(texts).collect()
}

/// The team that edits carry where nothing else is said.
const TEAM: u32 = 5;

/// A record with these numbers, the last two of that team, which may take anything. Each other team has numbers of its
/// own, has taken its share, and cannot make an edit more.
fn record(used: u32, largest: u32, taken: u32, edits: u32) -> Record {
    let other = |k: u32| Team { limit: k, share: 100 + k, taken: 200 + k, edits: u32::MAX };
    let mut teams = array::from_fn(|k| other(k as u32));
    teams[TEAM as usize] = Team { limit: u32::MAX, share: 300, taken, edits };
    Record { used, largest, teams }
}

/// Its listing.
const LISTING: &[u8] =
    b"total 8192 used 1370\nd 0 0 2 /\nf 1 1280 256 /a\nr 1114 166\nr 1536 6656\n";

#[test]
fn a_window_past_the_last_place() {
    let image = small_master();
    let past = Window { start: 1, length: 5, position: u64::MAX };
    let mut window = past;
    let mut buf = [7; 4];
    assert_eq!(window.read(&image, &mut buf), Ok(0));
    assert_eq!((window, buf), (past, [7; 4]));
    assert_eq!(window.seek_current(0), Ok(()));
    assert_eq!(window, past);
    assert_eq!(window.seek_start(u64::MAX), Err(23));
    assert_eq!(window, past);
    assert_eq!(window.seek_current(1), Ok(()));
    assert_eq!(window, Window { position: 0, ..past });
    assert_eq!(window.seek_end(-6), Err(23));
    assert_eq!(window.seek_end(-5), Ok(()));
    assert_eq!(window.position, 0);
    let mut from_nothing = Window { start: 0, length: 5, position: 0 };
    assert_eq!(from_nothing.seek_current(-1), Ok(()));
    assert_eq!(from_nothing.position, u64::MAX);
}

#[test]
fn the_calls_on_slices() {
    let mut image = small_master();
    let (mut words, mut bytes) = ([9; 28], [9; 68]); // as many as the last tree wants
    let mut memory = Memory { words: &mut words, bytes: &mut bytes };
    let opened =
        Opened { fst_offset: 0x440, fst_size: 0x1a, disc_end: 0x2000, entries: 2, used: 1370 };
    assert_eq!(counter_sys::open(&image, &mut memory), Ok(opened));
    assert_eq!(counter_sys::header(&image).unwrap()[..], image[..0x440]);
    assert_eq!(counter_sys::totals(&image, &mut memory), Ok((0x2000, 1370)));
    assert_eq!(counter_sys::program(&image, &mut memory), Ok(None));
    let a = Entry::File { number: 1, offset: 0x500, size: 0x100 };
    assert_eq!(counter_sys::entry_at(&image, &mut memory, 1), Ok(a));
    assert_eq!(counter_sys::lookup(&image, &mut memory, 0, b"./a"), Ok(a));
    let root = Entry::Directory { number: 0, parent: 0, next: 2 };
    assert_eq!(counter_sys::lookup(&image, &mut memory, 0, b""), Ok(root));
    let mut list = [5; 13];
    assert_eq!(counter_sys::entries(&image, &mut memory, &mut list), Ok(opened));
    assert_eq!(list, [1, 0, 0, 2, 0, 0, 0, 0, 0x500, 0x100, 0x458, 1, 5]);
    let mut list = [5; 5];
    assert_eq!(counter_sys::free_regions(&image, &mut memory, &mut list), Ok(2));
    assert_eq!(list, [0x45a, 0xa6, 0x600, 0x1a00, 5]);
    let mut list = [5; 7];
    assert_eq!(counter_sys::free_clusters(&image, &mut memory, &mut list[..5]), Err(9));
    assert_eq!(list, [5; 7]);
    assert_eq!(counter_sys::free_clusters(&image, &mut memory, &mut list), Ok(2));
    assert_eq!(list, [0xa6, 0, 0, 0x1a00, 0, 0, 5]);
    let mut text = [5; LISTING.len() + 1];
    assert_eq!(counter_sys::list(&image, &mut memory, &mut text), Ok(LISTING.len() as u64));
    assert_eq!((&text[..LISTING.len()], text[LISTING.len()]), (LISTING, 5));
    let mut text = [5; LISTING.len() - 1];
    assert_eq!(counter_sys::list(&image, &mut memory, &mut text), Err(9));
    assert_eq!(text, [5; LISTING.len() - 1]);
    assert_eq!(counter_sys::report(&image, &mut memory, &mut text), Ok(10));
    assert_eq!((&text[..10], text[10]), (&b"refused 9\n"[..], 5));
    let mut table = [5; 27];
    assert_eq!(counter_sys::table_anew(&image, memory.words, &mut table[..25]), Err(9));
    assert_eq!(table, [5; 27]);
    assert_eq!(counter_sys::table_anew(&image, memory.words, &mut table), Ok(26));
    assert_eq!((&table[..26], table[26]), (&image[0x440..0x45a], 5));
    assert_eq!(counter_sys::max_region_size(&image, &mut memory, 0x600, 1), Ok(0x1a00));
    assert_eq!(counter_sys::max_file_size(&image, &mut memory, 1), Ok(0x1b00));
    let place = Region { offset: 0x600, size: 0x1a00 };
    assert_eq!(counter_sys::allocate(&image, &mut memory, 0x100, 0x100), Ok(place));
    let run = CheapestRun { tried: 1, offset: 0x45a, cost: 0x100, bound: 0x100 };
    assert_eq!(counter_sys::clear(&image, &mut memory, 167, 1), Ok(Some(run)));
    assert_eq!(counter_sys::clear(&image, &mut memory, 167, 0), Ok(None));
    assert_eq!(counter_sys::clear(&image, &mut memory, 7079, 0), Err(21));
    let window = Window { start: 0x500, length: 0x100, position: 0 };
    assert_eq!(counter_sys::open_file(&image, &mut memory, 1), Ok(window));
    let (header, window) = counter_sys::open_dol(&image, &mut memory).unwrap();
    assert_eq!((header[7], window.start), (0xc233_9f3d, 0));
    let limits = array::from_fn(|k| 1000 + k as u32);
    let shares = array::from_fn(|k| 100 + k as u32);
    let made = counter_sys::make_record(&image, &mut memory, &limits, &shares).unwrap();
    let new = |k: usize| Team { limit: limits[k], share: shares[k], taken: 0, edits: 0 };
    assert_eq!(made, Record { used: 1370, largest: 0x1a00, teams: array::from_fn(new) });
    let after = |used, largest, taken, edits| {
        let mut record = made;
        (record.used, record.largest) = (used, largest);
        record.teams[TEAM as usize] = Team { taken, edits, ..new(TEAM as usize) };
        record
    };
    let mut record = made;
    let (m, r) = (&mut memory, &mut record);
    assert_eq!(counter_sys::insert_file(&mut image, m, r, TEAM, 0, b"b"), Ok(2));
    assert_eq!(counter_sys::insert_directory(&mut image, m, r, TEAM, 0, b"c"), Ok(3));
    assert_eq!(counter_sys::make_directories(&mut image, m, r, TEAM, 3, b"d"), Ok(4));
    assert_eq!(*r, after(1370 + 42, 0x1a00, 42, 3));
    assert_eq!(counter_sys::move_file(&mut image, m, r, TEAM, 1, 0x600), Ok(()));
    assert_eq!(*r, after(1370 + 42, 0x1900, 42, 4));
    assert_eq!(counter_sys::resize_file(&mut image, m, r, TEAM, 1, 0x10), Ok(()));
    assert_eq!(*r, after(1370 + 42 - 0xf0, 0x19f0, 0, 5));
    assert_eq!(counter_sys::fill_file(&mut image, m, r, TEAM, 1, b"the clip"), Ok(()));
    assert_eq!(&image[0x600..0x610], b"the clip\0\0\0\0\0\0\0\0");
    assert_eq!(*r, after(1370 + 42 - 0xf8, 0x19f8, 0, 6));
    assert_eq!(counter_sys::rewrite(&mut image, m, r, TEAM), Ok(()));
    assert_eq!(*r, after(1370 + 42 - 0xf8, 0x19f8, 0, 7));
    assert_eq!(counter_sys::insert_file(&mut image, m, r, TEAM, 0, b"e"), Err(9));
    assert_eq!(*r, after(1370 + 42 - 0xf8, 0x19f8, 0, 7));
    let none = Region { offset: 0, size: 0 };
    assert_eq!(counter_sys::resize_copy(&mut image, m, r, TEAM, 1, 0x100), Ok(()));
    assert_eq!(*r, after(1370 + 42 - 0xf8, 0x19f8, 0, 7));
    assert_eq!(counter_sys::resize_table(&mut image, m, r, TEAM, 1, 0x100), Ok(none));
    assert_eq!(*r, after(1370 + 42, 0x1900, 0xf8, 8));
    assert_eq!(counter_sys::move_copy(&mut image, m, r, TEAM, 1, 0x700), Ok(()));
    let left = Region { offset: 0x600, size: 0x100 };
    assert_eq!(counter_sys::move_table(&mut image, m, r, TEAM, 1, 0x700), Ok(left));
    assert_eq!(*r, after(1370 + 42, 0x1800, 0xf8, 9));
    assert_eq!((&image[0x600..0x608], &image[0x700..0x708]), (&b"the clip"[..], &b"the clip"[..]));
    assert_eq!(counter_sys::zero(&mut image, m.words, left), Ok(()));
    assert_eq!((&image[0x600..0x608], &image[0x700..0x708]), (&[0; 8][..], &b"the clip"[..]));
    assert_eq!(counter_sys::zero(&mut image, m.words, Region { size: 0x101, ..left }), Err(29));
    let stopped = |number, line| Err(Stopped { number, line });
    let lines = sheet_of(&[(2, b"c", 0, 0)]);
    assert_eq!(counter_sys::sheet(&mut image, m, r, TEAM, &lines), stopped(19, 1));
    assert_eq!(*r, after(1370 + 42, 0x1800, 0xf8, 9));
    let lines = sheet_of(&[(4, b"a", 0, 0x10), (3, b"c/../a", 0x800, 0), (4, b"b", 0, 1)]);
    assert_eq!(counter_sys::sheet(&mut image, m, r, TEAM, &lines), stopped(21, 3));
    assert_eq!(*r, after(1370 + 42 - 0xf0, 0x17f0, 8, 11));
    assert_eq!((&image[0x700..0x708], &image[0x800..0x808]), (&[0; 8][..], &b"the clip"[..]));
    assert_eq!(counter_sys::sheet(&mut image, m, r, TEAM, &lines[..15]), stopped(30, 0));
    assert_eq!(*r, after(1370 + 42 - 0xf0, 0x17f0, 8, 11));
    let lines = sheet_of(&[(4, b"a", 0, 0)]);
    assert_eq!(counter_sys::sheet(&mut image, m, r, TEAM, &lines), Ok(()));
    assert_eq!(*r, after(1370 + 42 - 0x100, 0x1b7c, 0, 12));
    assert!(words == [0; 28] && bytes == [0; 68]);
}

/// Functions of one C signature answer differently here, and so do two arguments of one type in the other order: no
/// linker and no compiler sees one taken for the other, and a proof only sees that each does what it says of itself.
#[test]
fn no_name_and_no_argument_is_taken_for_another() {
    let image = small_master();
    let (mut words, mut bytes) = ([9; 28], [9; 100]);
    let mut memory = Memory { words: &mut words, bytes: &mut bytes };
    let m = &mut memory;
    // From the start, from where it is, from the end.
    let at = |sought: fn(&mut Window) -> Result<(), u32>| {
        let mut window = Window { start: 0x500, length: 0x100, position: 7 };
        sought(&mut window).map(|()| window.position)
    };
    assert_eq!(at(|window| window.seek_start(3)), Ok(3));
    assert_eq!(at(|window| window.seek_current(3)), Ok(10));
    assert_eq!(at(|window| window.seek_end(3)), Ok(0x103));
    // Answers of as many slots.
    assert_eq!(counter_sys::totals(&image, m), Ok((0x2000, 1370)));
    assert_eq!(counter_sys::program(&image, m), Ok(None));
    assert_eq!(counter_sys::max_file_size(&image, m, 1), Ok(0x1b00));
    let (mut regions, mut clusters) = ([0; 6], [0; 6]);
    assert_eq!(counter_sys::free_regions(&image, m, &mut regions), Ok(2));
    assert_eq!(counter_sys::free_clusters(&image, m, &mut clusters), Ok(2));
    assert_eq!((regions[2], clusters[2]), (0x600, 0));
    let mut text = [0; LISTING.len()];
    assert_eq!(counter_sys::list(&image[..0x1fff], m, &mut text), Err(4));
    assert_eq!(counter_sys::report(&image[..0x1fff], m, &mut text), Ok(10));
    // A text's first unit and a path's first component.
    assert_eq!(counter_sys::unit(b"ab/c"), (1, 0));
    assert_eq!(counter_sys::component(b"ab/c"), 2);
    // Offset and size, size and alignment, size and budget.
    assert_eq!(counter_sys::max_region_size(&image, m, 0x600, 2), Ok(0x1a00));
    assert_eq!(counter_sys::max_region_size(&image, m, 2, 0x600), Ok(0x600));
    let place = Region { offset: 0x800, size: 0x1800 };
    assert_eq!(counter_sys::allocate(&image, m, 3, 0x400), Ok(place));
    assert_eq!(counter_sys::allocate(&image, m, 0x400, 3), Err(22));
    let run = |offset| CheapestRun { tried: 2, offset, cost: 0, bound: 0 };
    assert_eq!(counter_sys::clear(&image, m, 167, 2), Ok(Some(run(0x600))));
    assert_eq!(counter_sys::clear(&image, m, 2, 167), Ok(Some(run(0x45a))));
    // Number and offset, number and size: 1 is a number, and no place that is free.
    let edited = |edit: &mut dyn FnMut(&mut [u8], &mut Record) -> Result<(), u32>| {
        let (mut edited, given) = (image.clone(), record(1370, 0, 0, 7));
        let mut back = given;
        let answer = edit(&mut edited, &mut back);
        assert_eq!(back.teams[TEAM as usize].edits, 7 + u32::from(answer.is_ok()));
        assert_eq!(back == given, answer.is_err());
        answer.map(|()| edited)
    };
    let word = |edited: &[u8], at: usize| edited[at..at + 4].to_vec();
    let moved =
        edited(&mut |image, record| counter_sys::move_file(image, m, record, TEAM, 1, 0x800));
    assert_eq!(word(&moved.unwrap(), 0x450), [0, 0, 8, 0]);
    let moved =
        edited(&mut |image, record| counter_sys::move_file(image, m, record, TEAM, 0x800, 1));
    assert_eq!(moved, Err(15));
    let sized =
        edited(&mut |image, record| counter_sys::resize_file(image, m, record, TEAM, 1, 0x80));
    assert_eq!(word(&sized.unwrap(), 0x454), [0, 0, 0, 0x80]);
    let sized =
        edited(&mut |image, record| counter_sys::resize_file(image, m, record, TEAM, 0x80, 1));
    assert_eq!(sized, Err(15));
    // Copy and table, of a move and of a resize: the copy of neither moves the record on.
    let copied = |copy: &mut dyn FnMut(&mut [u8], &Record) -> Result<(), u32>| {
        let (mut copied, given) = (image.clone(), record(1370, 0, 0, 7));
        copied[0x500] = 3;
        copy(&mut copied, &given).map(|()| (copied[0x800], word(&copied, 0x450)))
    };
    let at = vec![0, 0, 5, 0];
    assert_eq!(
        copied(&mut |i, r| counter_sys::move_copy(i, m, r, TEAM, 1, 0x800)),
        Ok((3, at.clone()))
    );
    assert_eq!(copied(&mut |i, r| counter_sys::move_copy(i, m, r, TEAM, 0x800, 1)), Err(15));
    assert_eq!(copied(&mut |i, r| counter_sys::resize_copy(i, m, r, TEAM, 1, 0x800)), Ok((0, at)));
    assert_eq!(copied(&mut |i, r| counter_sys::resize_copy(i, m, r, TEAM, 0x800, 1)), Err(15));
    let span = |given: Result<Region, u32>, offset: u32, size: u32| {
        given.map(|found| assert_eq!(found, Region { offset, size }))
    };
    let moved =
        edited(&mut |i, r| span(counter_sys::move_table(i, m, r, TEAM, 1, 0x800), 0x500, 0x100));
    assert_eq!(word(&moved.unwrap(), 0x450), [0, 0, 8, 0]);
    let sized =
        edited(&mut |i, r| span(counter_sys::resize_table(i, m, r, TEAM, 1, 0x80), 0x580, 0x80));
    assert_eq!(word(&sized.unwrap(), 0x454), [0, 0, 0, 0x80]);
    let refused = [
        edited(&mut |i, r| span(counter_sys::move_table(i, m, r, TEAM, 0x800, 1), 0, 0)),
        edited(&mut |i, r| span(counter_sys::resize_table(i, m, r, TEAM, 0x80, 1), 0, 0)),
    ];
    assert_eq!(refused, [Err(15), Err(15)]);
    // Offset and size.
    let mut zeroed = image.clone();
    let region = Region { offset: 0x600, size: 2 };
    assert_eq!(counter_sys::zero(&mut zeroed, m.words, region), Ok(()));
    let region = Region { offset: 2, size: 0x600 };
    assert_eq!(counter_sys::zero(&mut zeroed, m.words, region), Err(29));
    // A file, a directory, a path.
    let number =
        |given: Result<u32, u32>, wanted: u32| given.map(|found| assert_eq!(found, wanted));
    let file =
        edited(&mut |image, r| number(counter_sys::insert_file(image, m, r, TEAM, 0, b"b"), 2))
            .unwrap();
    assert_eq!(word(&file, 0x458), [0, 0, 0, 2]);
    let directory = edited(&mut |image, r| {
        number(counter_sys::insert_directory(image, m, r, TEAM, 0, b"b"), 2)
    });
    assert_eq!(word(&directory.unwrap(), 0x458), [1, 0, 0, 2]);
    let path = b"b/c";
    let refused = [
        edited(&mut |image, r| number(counter_sys::insert_file(image, m, r, TEAM, 0, path), 0)),
        edited(&mut |image, r| {
            number(counter_sys::insert_directory(image, m, r, TEAM, 0, path), 0)
        }),
    ];
    assert_eq!(refused, [Err(13), Err(13)]);
    let path = edited(&mut |image, r| {
        number(counter_sys::make_directories(image, m, r, TEAM, 0, path), 3)
    });
    let path = path.unwrap();
    assert_eq!((word(&path, 0x458), word(&path, 0x464)), (vec![1, 0, 0, 2], vec![1, 0, 0, 4]));
    // Kinds, and a line's offset and size.
    let mut run = |lines: &[Line]| {
        let (mut run, mut back) = (image.clone(), record(1370, 0, 0, 7));
        let answer = counter_sys::sheet(&mut run, m, &mut back, TEAM, &sheet_of(lines));
        let edits = 7 + if answer.is_ok() { lines.len() as u32 } else { 0 };
        assert_eq!(back.teams[TEAM as usize].edits, edits);
        answer.map(|()| run)
    };
    let made = run(&[(1, b"b", 0, 0)]).unwrap();
    assert_eq!(word(&made, 0x458), [1, 0, 0, 2]);
    let made = run(&[(2, b"b", 0, 0)]).unwrap();
    assert_eq!(word(&made, 0x458), [0, 0, 0, 2]);
    let made = run(&[(3, b"a", 0x800, 0)]).unwrap();
    assert_eq!((word(&made, 0x450), word(&made, 0x454)), (vec![0, 0, 8, 0], vec![0, 0, 1, 0]));
    let made = run(&[(4, b"a", 0, 0x80)]).unwrap();
    assert_eq!((word(&made, 0x450), word(&made, 0x454)), (vec![0, 0, 5, 0], vec![0, 0, 0, 0x80]));
    for (kind, offset, size) in [(1, 1, 0), (2, 0, 1), (3, 0, 0x800), (4, 0x80, 0)] {
        assert_eq!(run(&[(kind, b"a", offset, size)]), Err(Stopped { number: 30, line: 0 }));
    }
    // A rewrite, and a clip as long as the file.
    assert_eq!(edited(&mut |image, r| counter_sys::rewrite(image, m, r, TEAM)), Ok(image.clone()));
    let filled = edited(&mut |image, r| counter_sys::fill_file(image, m, r, TEAM, 1, &[7; 0x100]));
    assert_eq!(filled.unwrap()[0x500..0x600], [7; 0x100]);
}

/// What a rewrite would write, wherever it finds no place: a shared name is written twice.
#[test]
fn the_table_of_a_rewrite() {
    let mut image = small_master();
    put(&mut image, 0x42b, &[0x26]);
    put(&mut image, 0x44b, &[3]);
    put(&mut image, 0x458, &[0, 0, 0, 0, 0, 0, 4, 0x67, 0, 0, 0, 1, b'a', 0]);
    let (mut words, mut bytes, mut table) = ([9; 20], [9; 40], [5; 41]);
    let got = counter_sys::table_anew(&image, &mut words, &mut table[..39]);
    assert_eq!((got, table), (Err(9), [5; 41]));
    assert_eq!(counter_sys::table_anew(&image, &mut words[1..], &mut table), Err(9));
    assert_eq!(counter_sys::table_anew(&image, &mut words, &mut table), Ok(40));
    assert_eq!((&table[36..], words), (&b"a\0a\0\x05"[..], [0; 20]));
    // The last byte of that table would lie in the second file.
    let mut memory = Memory { words: &mut words, bytes: &mut bytes };
    let mut record = record(0, 0, 0, 0);
    assert_eq!(counter_sys::rewrite(&mut image, &mut memory, &mut record, TEAM), Err(21));
    put(&mut image, 0x45f, &[0x68]);
    counter_sys::table_anew(&image, memory.words, &mut table).unwrap();
    assert_eq!(counter_sys::rewrite(&mut image, &mut memory, &mut record, TEAM), Ok(()));
    assert_eq!(image[0x440..0x468], table[..40]);
}

/// By units: a pair's trail byte is no separator, and a lead byte without one is no pair.
#[test]
fn names_and_paths() {
    let units: [(&[u8], (usize, u32)); 12] = [
        (b"", (0, 0)),
        (b"a:", (1, 0)),
        (b"/", (1, 13)),
        (b"\\a", (1, 13)),
        (b":", (1, 13)),
        (b"\0", (1, 12)),
        (b"\x7f", (1, 12)),
        (b"\xa0", (1, 12)),
        (b"\xa1", (1, 0)),
        (b"\x81\\", (2, 0)),
        (b"\x81/", (1, 12)),
        (b"\x81", (1, 12)),
    ];
    for (text, wanted) in units {
        assert_eq!(counter_sys::unit(text), wanted, "{text:x?}");
    }
    let paths: [(&[u8], usize); 7] = [
        (b"", 0),
        (b"/a", 0),
        (b"a/b/c", 1),
        (b"ab\\c", 2),
        (b"abc", 3),
        (b"\x81\\/", 2),
        (b"\x81/a", 1),
    ];
    for (path, wanted) in paths {
        assert_eq!(counter_sys::component(path), wanted, "{path:x?}");
    }
    let names: [(&[u8], u32); 9] = [
        (b"", 13),
        (b".", 13),
        (b"..", 13),
        (b"...", 0),
        (b"a b", 0),
        (b"a/b", 13),
        (b"\x81\\", 0),
        (b"\x81:", 12),
        (b"a\0", 12),
    ];
    for (name, wanted) in names {
        assert_eq!(counter_sys::name(name), wanted, "{name:x?}");
    }
}

/// What a refusal of opening is about, of each kind.
#[test]
fn what_a_refusal_is_about() {
    use counter_sys::{About, Fault, Owner};
    let told = |changed: &[(usize, &[u8])]| {
        let (mut image, mut words) = (small_master(), [9; 16]);
        for (at, bytes) in changed {
            image[*at..at + bytes.len()].copy_from_slice(bytes);
        }
        let fault = counter_sys::fault(&image, &mut words);
        assert_eq!(words, [0; 16]);
        fault
    };
    let fault = |number, about| Some(Fault { number, about });
    assert_eq!(told(&[]), None);
    assert_eq!(counter_sys::fault(&[], &mut []), fault(1, About::Image));
    assert_eq!(counter_sys::fault(&small_master(), &mut [9; 15]), fault(9, About::Image));
    assert_eq!(told(&[(0x440, &[2])]), fault(6, About::Image));
    assert_eq!(told(&[(0x44c, &[2])]), fault(6, About::Entry(1)));
    assert_eq!(told(&[(0x44b, &[3])]), fault(5, About::Entry(2)));
    assert_eq!(told(&[(0x458, &[0x7f])]), fault(12, About::Entry(1)));
    // At the table, past the disc end.
    assert_eq!(told(&[(0x452, &[4])]), fault(14, About::Shared(Owner::Table, Owner::Entry(1))));
    assert_eq!(told(&[(0x454, &[1])]), fault(14, About::PastEnd(Owner::Entry(1))));
    // A program before the table, over the file, past the disc end, and past the image; sums of 2^32 - 1 and 2^32.
    let program = |at: u32, changed: &[(usize, &[u8])]| {
        told(&[&[(0x420, &at.to_be_bytes()[..])], changed].concat())
    };
    let (table, own, a) = (Owner::Table, Owner::Program, Owner::Entry(1));
    assert_eq!(program(0x100, &[]), fault(14, About::Shared(table, own)));
    assert_eq!(program(0x480, &[]), fault(14, About::Shared(own, a)));
    assert_eq!(program(0x1000, &[(0x1090, &[1])]), fault(14, About::PastEnd(own)));
    assert_eq!(program(0x1f1c, &[]), None);
    assert_eq!(program(0x1f1d, &[]), fault(24, About::Image));
    assert_eq!(program(0x1000, &[(0x1044, &[0xff; 4])]), fault(14, About::PastEnd(own)));
    let sum: [(usize, &[u8]); 2] = [(0x1024, &[0x80]), (0x10b4, &[0x80])];
    assert_eq!(program(0x1000, &sum), fault(24, About::Section(9)));
}

/// The file is the clip afterwards, and what it loses is zero. A clip of its own size wants no bytes.
#[test]
fn a_file_filled_with_a_clip() {
    let fill = |image: &mut [u8], bytes: usize, number, clip: &[u8]| {
        let (mut words, mut bytes) = ([9; 16], vec![9; bytes]);
        let mut memory = Memory { words: &mut words, bytes: &mut bytes };
        let mut record = record(0x8000_0000, 7, 0, 0);
        let got = counter_sys::fill_file(image, &mut memory, &mut record, TEAM, number, clip);
        assert_eq!(record.teams[TEAM as usize].edits, u32::from(got.is_ok()));
        assert!(words == [0; 16] && bytes.iter().all(|&b| b == 0));
        got
    };
    let mut image = small_master();
    image[0x500..0x600].fill(3);
    let mut wanted = image.clone();
    assert_eq!(fill(&mut image, 26, 0, &[7; 0x1b01]), Err(16));
    assert_eq!(fill(&mut image, 26, 2, &[7; 0x1b01]), Err(15));
    assert_eq!(fill(&mut image, 26, 1, &[7; 0x1b01]), Err(21));
    assert_eq!(fill(&mut image, 25, 1, &[7; 0xff]), Err(9));
    assert_eq!(fill(&mut image[..0x1fff], 26, 1, &[7; 0xff]), Err(4));
    assert!(image == wanted);
    let lengths = [0x100, 0x10, 0, 0x1b00, 1];
    for (len, byte) in lengths.into_iter().zip(7..) {
        assert_eq!(fill(&mut image, 26, 1, &vec![byte; len]), Ok(()));
        wanted[0x500..].fill(0);
        wanted[0x500..0x500 + len].fill(byte);
        wanted[0x454..0x458].copy_from_slice(&(len as u32).to_be_bytes());
        assert!(image == wanted, "{len:#x}");
    }
    assert_eq!(fill(&mut image, 0, 1, b"x"), Ok(()));
    wanted[0x500] = b'x';
    assert!(image == wanted);
}

/// Used bytes, taken bytes and the count move from the numbers that went in, whatever the image; the largest region
/// is the new image's. A refusal gives back what went in, and 25 is one.
#[test]
fn a_record_that_holds_anything() {
    const MOST: u32 = u32::MAX;
    let resize = |used, edits, new_size| {
        let (mut image, mut words, mut bytes) = (small_master(), [9; 16], [9; 26]);
        let mut memory = Memory { words: &mut words, bytes: &mut bytes };
        let mut back = record(used, 7, 1, edits);
        let got = counter_sys::resize_file(&mut image, &mut memory, &mut back, TEAM, 1, new_size);
        assert!(words == [0; 16] && bytes == [0; 26]);
        assert!(got.is_ok() || image == small_master());
        let Team { taken, edits, .. } = back.teams[TEAM as usize];
        assert_eq!(back, record(back.used, back.largest, taken, edits));
        (got, back.used, back.largest, taken, edits)
    };
    // A byte more, a byte less, the present size, one that finds no place.
    assert_eq!(resize(0, 0, 0x101), (Ok(()), 1, 0x19ff, 2, 1));
    assert_eq!(resize(MOST, 0, 0x101), (Err(25), MOST, 7, 1, 0));
    assert_eq!(resize(MOST - 1, 0, 0x101), (Ok(()), MOST, 0x19ff, 2, 1));
    assert_eq!(resize(0, 0, 0xff), (Err(25), 0, 7, 1, 0));
    assert_eq!(resize(1, 0, 0xff), (Ok(()), 0, 0x1a01, 0, 1));
    assert_eq!(resize(1, MOST, 0xff), (Err(25), 1, 7, 1, MOST));
    assert_eq!(resize(1, MOST - 1, 0xff), (Ok(()), 0, 0x1a01, 0, MOST));
    assert_eq!(resize(2, 0, 0xfe), (Ok(()), 0, 0x1a02, 0, 1));
    assert_eq!(resize(MOST, 5, 0x100), (Ok(()), MOST, 0x1a00, 1, 6));
    assert_eq!(resize(0, MOST, 0x100), (Err(25), 0, 7, 1, MOST));
    assert_eq!(resize(MOST, MOST, 0x1b01), (Err(21), MOST, 7, 1, MOST));
    // It is all one file then.
    assert_eq!(resize(0, 0, 0x1b00), (Ok(()), 0x1a00, 166, 0x1a01, 1));
}

type Edit = fn(&mut [u8], &mut Memory, &mut Record, u32) -> Result<(), u32>;

/// Edits of the small master, and what each of them costs.
const EDITS: [(Edit, i64); 13] = [
    (|i, m, r, team| counter_sys::insert_file(i, m, r, team, 0, b"b").map(|_| ()), 14),
    (|i, m, r, team| counter_sys::insert_directory(i, m, r, team, 0, b"bb").map(|_| ()), 15),
    (|i, m, r, team| counter_sys::make_directories(i, m, r, team, 0, b"n/m").map(|_| ()), 28),
    (|i, m, r, team| counter_sys::move_file(i, m, r, team, 1, 0x600), 0),
    (|i, m, r, team| counter_sys::resize_file(i, m, r, team, 1, 0x1b00), 0x1a00),
    (|i, m, r, team| counter_sys::resize_file(i, m, r, team, 1, 0x100), 0),
    (|i, m, r, team| counter_sys::resize_file(i, m, r, team, 1, 0), -0x100),
    (|i, m, r, team| counter_sys::fill_file(i, m, r, team, 1, &[7; 0x105]), 5),
    (|i, m, r, team| counter_sys::fill_file(i, m, r, team, 1, b"clip"), -0xfc),
    (|i, m, r, team| counter_sys::rewrite(i, m, r, team), 0),
    (|i, m, r, team| counter_sys::move_table(i, m, r, team, 1, 0x600).map(|_| ()), 0),
    (|i, m, r, team| counter_sys::resize_table(i, m, r, team, 1, 0x1b00).map(|_| ()), 0x1a00),
    (|i, m, r, team| counter_sys::resize_table(i, m, r, team, 1, 0).map(|_| ()), -0x100),
];

/// Each edit at the bounds of 27, 28 and 25, by the first team, one between and the last; and by one that there is not.
/// What is refused gives back all of the record.
#[test]
fn an_edit_of_a_team() {
    const MOST: u32 = u32::MAX;
    for ((edit, cost), own) in EDITS.into_iter().flat_map(|edit| [0, 7, 15].map(|own| (edit, own)))
    {
        let number = |number: i64| u32::try_from(number + cost).unwrap();
        // So much is kept for one of the others as will be free; another one has taken a byte more than its share.
        let mut given = Record {
            used: 5000,
            largest: 3,
            teams: [Team { edits: MOST, ..Team::default() }; TEAMS],
        };
        given.teams[own] = Team { limit: number(300), share: MOST, taken: 300, edits: 8 };
        let (one, other) = ((own + 1) % TEAMS, (own + 15) % TEAMS);
        given.teams[one] =
            Team { share: u32::try_from(6832 - cost).unwrap(), taken: 10, ..given.teams[one] };
        given.teams[other] = Team { share: 5, taken: 6, ..given.teams[other] };
        let made = |team: u32, change: &dyn Fn(&mut Record)| {
            let (mut image, mut words, mut bytes) = (small_master(), [9; 28], [9; 68]);
            let mut memory = Memory { words: &mut words, bytes: &mut bytes };
            let mut record = given;
            change(&mut record);
            let changed = record;
            let answer = edit(&mut image, &mut memory, &mut record, team);
            assert!(words == [0; 28] && bytes == [0; 68]);
            assert!(answer.is_ok() || (image == small_master() && record == changed));
            answer.map(|()| record)
        };
        let by = |change: &dyn Fn(&mut Record)| made(own as u32, change);
        let after = by(&|_| ()).unwrap();
        let mut wanted = Record { used: number(5000), largest: after.largest, ..given };
        wanted.teams[own] = Team { taken: number(300), edits: 9, ..given.teams[own] };
        assert_eq!(after, wanted);
        assert_ne!(after.largest, 3);
        for team in [16, 17, 1 << 16, MOST] {
            assert_eq!(made(team, &|_| ()), Err(15));
        }
        // The limit, what is kept, and the other remainders, a byte more each.
        assert_eq!(by(&|record| record.teams[own].limit -= 1), Err(27));
        assert_eq!(by(&|record| record.teams[own].taken += 1), Err(27));
        assert_eq!(by(&|record| record.teams[one].share += 1), Err(28));
        assert_eq!(by(&|record| record.teams[one].taken -= 1), Err(28));
        assert_eq!(by(&|record| record.teams[other].share += 2), Err(28));
        assert_eq!(by(&|record| record.teams[other].taken -= 2), Err(28));
        for full in (0..TEAMS).filter(|team| *team != own) {
            assert_eq!(by(&|record| record.teams[full].share = MOST), Err(28));
        }
        // Its own share plays no part, and what is taken goes down to 0 at least.
        let less =
            by(&|record| record.teams[own] = Team { limit: MOST, share: 0, taken: 1, edits: 0 });
        let taken = u32::try_from((1 + cost).max(0)).unwrap();
        assert_eq!(less.unwrap().teams[own], Team { limit: MOST, share: 0, taken, edits: 1 });
        // As much taken as a number holds, and a byte more.
        let open = |taken| Team { limit: MOST, share: 0, taken, edits: 0 };
        let room = MOST - u32::try_from(cost.max(0)).unwrap();
        assert!(by(&|record| record.teams[own] = open(room)).is_ok());
        if room < MOST {
            assert_eq!(by(&|record| record.teams[own] = open(room + 1)), Err(27));
        }
        // Its count, and used bytes.
        assert_eq!(by(&|record| record.teams[own].edits = MOST), Err(25));
        assert_eq!(
            by(&|record| record.teams[own].edits = MOST - 1).unwrap().teams[own].edits,
            MOST
        );
        let (least, most) = ((-cost).max(0), i64::from(MOST) - cost.max(0));
        for (used, answer) in
            [(least - 1, Err(25)), (least, Ok(())), (most, Ok(())), (most + 1, Err(25))]
        {
            if let Ok(used) = u32::try_from(used) {
                assert_eq!(by(&|record| record.used = used).map(|_| ()), answer);
            }
        }
        // 27 before 28 before 25.
        let full = |record: &mut Record| record.teams[own].edits = MOST;
        let kept = |record: &mut Record| record.teams[one].share += 1;
        assert_eq!(
            by(&|record| {
                full(record);
                kept(record)
            }),
            Err(28)
        );
        assert_eq!(
            by(&|record| {
                full(record);
                kept(record);
                record.teams[own].limit -= 1
            }),
            Err(27)
        );
    }
}

/// The small master with bytes in `a` and behind it, and what the three calls are lent, between margins.
struct Parts {
    image: Guarded<u8>,
    words: Guarded<u32>,
    bytes: Guarded<u8>,
    record: Guarded<u32>,
    span: Guarded<u32>,
    team: u32,
}

impl Parts {
    fn of(team: u32, record: Record) -> Parts {
        let mut image = small_master();
        for (place, byte) in image[0x500..].iter_mut().zip(1..) {
            *place = (byte % 251) as u8;
        }
        Parts {
            image: Guarded::of(&image),
            words: Guarded::new(16),
            bytes: Guarded::new(26),
            record: Guarded::of(&record.slots()),
            span: Guarded::new(2),
            team,
        }
    }

    /// Working memory is zero, and nothing is touched beside what was lent, nor bytes where none were.
    fn after(&mut self, number: u32, has_bytes: bool) -> u32 {
        assert!(self.words.margins_stay() && self.words.is_zero());
        assert!(if has_bytes { self.bytes.is_zero() } else { self.bytes.stays_from(0) });
        assert!(self.bytes.margins_stay() && self.image.margins_stay());
        assert!(self.record.margins_stay() && self.span.margins_stay());
        self.words.mark();
        self.bytes.mark();
        number
    }

    fn copy(&mut self, moves: bool, number: u32, to: u32) -> u32 {
        self.span.mark();
        let (i, w, b) = (self.image.slice_mut(), self.words.slice_mut(), self.bytes.slice_mut());
        let (record, team) = (self.record.slots(), self.team);
        let before = *record;
        let answer = unsafe {
            if moves {
                call!(counter_move_copy(mut i, mut w, mut b, = record, = team, = number, = to))
            } else {
                call!(counter_resize_copy(mut i, mut w, mut b, = record, = team, = number, = to))
            }
        };
        assert!(self.record.slice() == before && self.span.stays_from(0));
        self.after(answer, true)
    }

    fn table(&mut self, moves: bool, number: u32, to: u32) -> u32 {
        self.span.mark();
        let (i, w, b) = (self.image.slice_mut(), self.words.slice_mut(), self.bytes.slice_mut());
        let (record, team, span) = (self.record.slots(), self.team, self.span.slots());
        let before = *record;
        let answer = unsafe {
            if moves {
                call!(counter_move_table(mut i, mut w, mut b, = record, = team, = number, = to, = span))
            } else {
                call!(counter_resize_table(mut i, mut w, mut b, = record, = team, = number, = to, = span))
            }
        };
        assert!(answer == 0 || (self.span.stays_from(0) && self.record.slice() == before));
        self.after(answer, true)
    }

    fn zero(&mut self, offset: u32, size: u32) -> u32 {
        let (image, words) = (self.image.slice_mut(), self.words.slice_mut());
        let answer = unsafe { call!(counter_zero(mut image, mut words, = offset, = size)) };
        self.after(answer, false)
    }
}

/// Each call writes its own part and no other byte; the three are the single edit, the record too.
#[test]
fn each_call_writes_its_own_part() {
    // Whether it moves, to what, what is left to be zeroed, and where the copy lies.
    let cases = [
        (true, 0x600, [0x500, 0x100], 0x600..0x700),
        (true, 0x1f00, [0x500, 0x100], 0x1f00..0x2000),
        (false, 0x80, [0x580, 0x80], 0..0),
        (false, 0, [0x500, 0x100], 0..0),
        (false, 0x1b00, [0, 0], 0..0),
        (false, 0x100, [0, 0], 0..0),
    ];
    for (moves, to, span, copied) in cases {
        let mut parts = Parts::of(TEAM, record(5000, 3, 300, 8));
        let start = parts.image.slice().to_vec();
        let (mut whole, mut back) = (start.clone(), record(5000, 3, 300, 8));
        let (mut words, mut bytes) = ([9; 16], [9; 26]);
        let m = &mut Memory { words: &mut words, bytes: &mut bytes };
        let edit = if moves { counter_sys::move_file } else { counter_sys::resize_file };
        assert_eq!(edit(&mut whole, m, &mut back, TEAM, 1, to), Ok(()));

        assert_eq!(parts.copy(moves, 1, to), 0);
        let mut wanted = start.clone();
        let kept = copied.len();
        wanted[copied].copy_from_slice(&start[0x500..0x500 + kept]);
        assert!(parts.image.slice() == wanted);
        assert_eq!(parts.table(moves, 1, to), 0);
        // The file's offset and size in its entry; the FST size stays.
        wanted[0x44c..0x45a].copy_from_slice(&whole[0x44c..0x45a]);
        assert!(parts.image.slice() == wanted);
        assert_eq!((parts.span.slice(), parts.record.slice()), (&span[..], &back.slots()[..]));
        assert_eq!(parts.zero(span[0], span[1]), 0);
        assert!(parts.image.slice() == whole);

        // The table without the copy, and with six bytes behind its text, which become zero.
        let mut parts = Parts::of(TEAM, record(5000, 3, 300, 8));
        put(parts.image.slice_mut(), 0x428, &[0, 0, 0, 0x20]);
        put(parts.image.slice_mut(), 0x45a, b"slack\0");
        let written = to != 0x100;
        let mut wanted = if written { start } else { parts.image.slice().to_vec() };
        wanted[0x44c..0x45a].copy_from_slice(&whole[0x44c..0x45a]);
        assert_eq!(parts.table(moves, 1, to), 0);
        assert!(parts.image.slice() == wanted);
        assert_eq!(parts.span.slice(), span);
    }
}

/// The span ends where its offset and its size say, as whole numbers.
#[test]
fn zeros_where_all_is_free() {
    let mut parts = Parts::of(TEAM, record(0, 0, 0, 0));
    let start = parts.image.slice().to_vec();
    for (offset, size) in [
        (0, 1),
        (0x459, 1),
        (0x45a, 0xa7),
        (0x45a, 0x1ba6),
        (0x500, 0x100),
        (0x600, 0x1a01),
        (0x600, 0xffff_fa00),
        (0x600, 0xffff_ffff),
        (0x2000, 1),
        (u32::MAX, 1),
        (u32::MAX, u32::MAX),
    ] {
        assert_eq!(parts.zero(offset, size), 29, "{offset:#x} {size:#x}");
    }
    for offset in [0, 0x500, 0x2000, 0x2001, u32::MAX] {
        assert_eq!(parts.zero(offset, 0), 0, "{offset:#x}");
    }
    assert!(parts.image.slice() == start);
    let mut wanted = start;
    for (offset, size) in [(0x45a, 0xa6), (0x700, 1), (0x1fff, 1), (0x600, 0x1a00)] {
        assert_eq!(parts.zero(offset, size), 0, "{offset:#x} {size:#x}");
        wanted[offset as usize..(offset + size) as usize].fill(0);
        assert!(parts.image.slice() == wanted, "{offset:#x} {size:#x}");
    }
}

/// By every test of the single edit, those of team and record too; the image stays, and the span.
#[test]
fn parts_are_refused_as_the_single_edit() {
    let (open, full) = (record(5000, 3, 300, 8), record(5000, 3, 300, u32::MAX));
    let mut limited = open;
    limited.teams[TEAM as usize].limit = 299;
    let mut kept = open;
    kept.teams[0] = Team { share: 6823, taken: 0, ..kept.teams[0] };
    let cases = [
        (TEAM, open, true, 2, 0x600, 15),
        (TEAM, open, false, 0, 1, 16),
        (TEAM, open, true, 1, 0x501, 20),
        (TEAM, open, true, 1, 0x1f01, 21),
        (TEAM, open, false, 1, 0x1b01, 21),
        (16, open, true, 1, 0x600, 15),
        (u32::MAX, full, false, 0, 1, 15),
        (TEAM, limited, true, 1, 0x600, 27),
        (TEAM, limited, false, 1, 0x100, 27),
        (TEAM, kept, true, 1, 0x600, 28),
        (TEAM, full, false, 1, 0x100, 25),
        (TEAM, full, true, 1, 0x600, 25),
    ];
    for (team, record, moves, number, to, refusal) in cases {
        let mut parts = Parts::of(team, record);
        let start = parts.image.slice().to_vec();
        assert_eq!(parts.copy(moves, number, to), refusal);
        assert_eq!(parts.table(moves, number, to), refusal);
        assert!(parts.image.slice() == start);
    }
    // Too little memory, and a stated maximum.
    let mut parts = Parts::of(TEAM, open);
    parts.bytes = Guarded::new(25);
    assert_eq!([parts.copy(true, 1, 0x600), parts.table(true, 1, 0x600)], [9, 9]);
    assert_eq!([parts.copy(false, 1, 0x100), parts.table(false, 1, 0x100)], [0, 0]);
    parts.words = Guarded::new(15);
    assert_eq!([parts.copy(true, 1, 0x600), parts.table(true, 1, 0x600)], [9, 9]);
    assert_eq!([parts.zero(0, 0), parts.zero(0x600, 1)], [9, 9]);
    let mut parts = Parts::of(TEAM, open);
    parts.image.slice_mut()[0x42f] = 25;
    assert_eq!([parts.copy(true, 1, 0x600), parts.table(true, 1, 0x600)], [26, 26]);
    assert_eq!([parts.copy(false, 1, 0x100), parts.table(false, 1, 0x100)], [0, 0]);
}

/// A sheet on the small master, with everything lent between margins. The number and the line; image and record are
/// those that come back.
fn run_between_margins(
    image: &mut Vec<u8>,
    record: &mut Record,
    team: u32,
    lent: [usize; 2],
    sheet: &[u8],
) -> (u32, u32) {
    let (mut i, mut r, mut s) =
        (Guarded::of(image), Guarded::of(&record.slots()), Guarded::of(sheet));
    let (mut w, mut b, mut line) =
        (Guarded::<u32>::new(lent[0]), Guarded::<u8>::new(lent[1]), Guarded::<u32>::new(1));
    let (image_lent, words, bytes) = (i.slice_mut(), w.slice_mut(), b.slice_mut());
    let (record_lent, read, slot) = (r.slots(), s.slice_mut(), line.slots());
    let number = unsafe {
        call!(counter_sheet(
            mut image_lent, mut words, mut bytes, = record_lent, = team, in read, = slot
        ))
    };
    assert!(w.is_zero() && b.is_zero());
    assert!(w.margins_stay() && b.margins_stay() && i.margins_stay());
    assert!(r.margins_stay() && line.margins_stay());
    assert!(s.margins_stay() && s.slice() == sheet);
    *image = i.slice().to_vec();
    *record = Record::of(*r.slots());
    (number, line.slice()[0])
}

/// A refusal before the lines leaves image and record, and the line is then 0; a later one leaves what the lines
/// before it made of both.
#[test]
fn sheets_up_to_the_refused_line() {
    let given = record(5000, 3, 300, 8);
    let run = |team, lent, sheet: &[u8]| {
        let (mut image, mut record) = (small_master(), given);
        let told = run_between_margins(&mut image, &mut record, team, lent, sheet);
        (told, image, record)
    };
    let stays = |team, lent, sheet: &[u8]| {
        let (told, image, record) = run(team, lent, sheet);
        assert!(image == small_master() && record == given, "{told:?}");
        told
    };
    let lines: [Line; 4] =
        [(1, b"d", 0, 0), (2, b"d/f", 0, 0), (3, b"d/../a", 0x800, 0), (4, b"q", 0, 7)];
    let (ample, sheet) = ([64, 100], sheet_of(&lines));
    // 30 before opening, opening before the team, both before the first line.
    assert_eq!(stays(TEAM, ample, &sheet[..15]), (30, 0));
    assert_eq!(stays(16, [0, 0], &sheet[..sheet.len() - 1]), (30, 0));
    assert_eq!(stays(16, [15, 0], &sheet), (9, 0));
    assert_eq!(stays(16, [16, 0], &sheet), (15, 0));
    assert_eq!(stays(TEAM, [16, 0], &sheet), (9, 1));
    assert_eq!(stays(TEAM, [15, 0], &sheet_of(&[])), (9, 0));
    assert_eq!(stays(16, [16, 0], &sheet_of(&[])), (15, 0));
    assert_eq!(stays(TEAM, [16, 0], &sheet_of(&[])), (0, 0));
    // Each line by the single call, on what the lines before it left.
    let (mut image, mut back) = (small_master(), given);
    let (mut words, mut bytes) = ([9; 64], [9; 100]);
    let m = &mut Memory { words: &mut words, bytes: &mut bytes };
    for (k, line) in lines.iter().enumerate() {
        let of = |count| run(TEAM, ample, &sheet_of(&lines[..count]));
        assert_eq!(of(k), ((0, 0), image.clone(), back));
        let (i, r) = (&mut image, &mut back);
        let number = match k {
            0 => counter_sys::insert_directory(i, m, r, TEAM, 0, b"d").map(|_| ()),
            1 => counter_sys::insert_file(i, m, r, TEAM, 2, b"f").map(|_| ()),
            2 => counter_sys::move_file(i, m, r, TEAM, 1, line.2),
            _ => counter_sys::lookup(i, m, 0, line.1).map(|_| ()),
        };
        let told = number.map_or_else(|number| (number, k as u32 + 1), |()| (0, 0));
        assert_eq!(of(k + 1), (told, image.clone(), back));
    }
    // The record's tests are each line's own: room for one more edit, then for two.
    for (edits, line) in [(u32::MAX, 1), (u32::MAX - 1, 2), (u32::MAX - 2, 3)] {
        let mut back = given;
        back.teams[TEAM as usize].edits = edits;
        let told = run_between_margins(&mut small_master(), &mut back, TEAM, ample, &sheet);
        assert_eq!((told, back.teams[TEAM as usize].edits), ((25, line), u32::MAX));
    }
}

/// Header, lines and texts may overlap, and only a path that a line has must be ended.
#[test]
fn where_a_sheet_lies() {
    let told = |sheet: &[u8]| {
        let (mut image, mut record) = (small_master(), record(5000, 3, 300, 8));
        run_between_margins(&mut image, &mut record, TEAM, [64, 100], sheet)
    };
    let bytes = |words: &[u32]| -> Vec<u8> { words.iter().flat_map(|w| w.to_be_bytes()).collect() };
    // A line from byte 12 on: its kind is the texts' length, and its path, an empty one, stands in that number too.
    assert_eq!(told(&bytes(&[1, 12, 12, 4, 2, 0, 0])), (16, 1));
    // From byte 0 on: of kind 1 its path has no byte, of kind 4 it begins in the number of lines.
    assert_eq!(told(&bytes(&[1, 0, 0, 0])), (30, 0));
    let more = [4, 0, 0, 0x100].repeat(3);
    assert_eq!(told(&bytes(&[&[4, 0, 0, 64][..], &more].concat())), (16, 1));
    // Texts that nobody ended are no line's.
    let mut sheet = sheet_of(&[(4, b"a", 0, 0x100)]);
    assert_eq!(told(&sheet), (0, 0));
    sheet.push(b'x');
    sheet[15] += 1;
    assert_eq!(told(&sheet), (0, 0));
    // The offset of the last zero byte, and of the byte behind it.
    sheet[23] = 1;
    assert_eq!(told(&sheet), (16, 1));
    sheet[23] = 2;
    assert_eq!(told(&sheet), (30, 0));
    // Ends that fit, and ends a byte behind; 2^28 lines, whose bytes would wrap to none.
    assert_eq!(told(&bytes(&[0, 16, 16, 0])), (0, 0));
    assert_eq!(told(&bytes(&[0, 17, 16, 0])), (30, 0));
    assert_eq!(told(&bytes(&[0, 16, 17, 0])), (30, 0));
    assert_eq!(told(&bytes(&[0, 16, 16, 1])), (30, 0));
    assert_eq!(told(&bytes(&[0, 0, u32::MAX, 17])), (30, 0));
    assert_eq!(told(&bytes(&[1 << 28, 0, 0, 16])), (30, 0));
    // As many lines as there may be, and one more, all of them one line.
    let many = |count: usize| vec![(4, &b"a"[..], 0, 0x100); count];
    assert_eq!(told(&sheet_of(&many(counter_sys::MOST_LINES))), (0, 0));
    assert_eq!(told(&sheet_of(&many(counter_sys::MOST_LINES + 1))), (30, 0));
}

/// The header's word at 0x42c bounds the table that an edit writes; 0 does not. The small master's has 26 bytes,
/// with an entry called `b` 40.
#[test]
fn a_stated_maximum() {
    for (most, rewritten, inserted) in [
        (0, Ok(()), Ok(2)),
        (1, Err(26), Err(26)),
        (25, Err(26), Err(26)),
        (26, Ok(()), Err(26)),
        (39, Ok(()), Err(26)),
        (40, Ok(()), Ok(2)),
        (u32::MAX, Ok(()), Ok(2)),
    ] {
        let mut image = small_master();
        image[0x42c..0x430].copy_from_slice(&most.to_be_bytes());
        let (before, mut record) = (image.clone(), record(1, 7, 0, 3));
        let (mut words, mut bytes) = ([9; 20], [9; 40]);
        let mut memory = Memory { words: &mut words, bytes: &mut bytes };
        let m = &mut memory;
        assert_eq!(counter_sys::open(&image, m).unwrap().used, 1370);
        assert_eq!(counter_sys::rewrite(&mut image, m, &mut record, TEAM), rewritten, "{most}");
        assert!(image == before);
        assert_eq!(record.teams[TEAM as usize].edits, 3 + u32::from(rewritten.is_ok()));
        // The present size writes no table.
        assert_eq!(counter_sys::resize_file(&mut image, m, &mut record, TEAM, 1, 0x100), Ok(()));
        assert_eq!(
            counter_sys::fill_file(&mut image, m, &mut record, TEAM, 1, &[0; 0x100]),
            Ok(())
        );
        assert!(image == before);
        let kept = record;
        assert_eq!(counter_sys::insert_file(&mut image, m, &mut record, TEAM, 0, b"b"), inserted);
        assert_eq!((image == before, record == kept), (inserted.is_err(), inserted.is_err()));
        assert_eq!(image[0x42c..0x430], most.to_be_bytes());
        assert!(words == [0; 20] && bytes == [0; 40]);
    }
}

/// A program is at least as long as its header; its window is not. Behind the table it is used, and there
/// is a free region more than entries.
#[test]
fn a_program_behind_the_table() {
    let mut image = small_master();
    image[0x420..0x424].copy_from_slice(&[0, 0, 0x10, 0]);
    let mut words = [9; 16];
    let mut memory = Memory { words: &mut words, bytes: &mut [] };
    let m = &mut memory;
    let program = Region { offset: 0x1000, size: 0xe4 };
    assert_eq!(counter_sys::program(&image, m), Ok(Some(program)));
    assert_eq!(counter_sys::totals(&image, m), Ok((0x2000, 1370 + 0xe4)));
    let mut list = [5; 7];
    assert_eq!(counter_sys::free_regions(&image, m, &mut list[..5]), Err(9));
    assert_eq!(counter_sys::free_regions(&image, m, &mut list), Ok(3));
    assert_eq!(list, [0x45a, 0xa6, 0x600, 0xa00, 0x10e4, 0xf1c, 5]);
    let mut list = [5; 9];
    assert_eq!(counter_sys::free_clusters(&image, m, &mut list[..8]), Err(9));
    assert_eq!(counter_sys::free_clusters(&image, m, &mut list), Ok(3));
    assert_eq!(list, [0xa6, 0, 0, 0xa00, 0, 0, 0xf1c, 0, 0]);
    assert_eq!(counter_sys::open_dol(&image, m).unwrap().1.length, 0);
    // The first text section: 0x23 bytes from 0x100 on.
    image[0x1002] = 1;
    image[0x1093] = 0x23;
    let program = Region { offset: 0x1000, size: 0x123 };
    assert_eq!(counter_sys::program(&image, m), Ok(Some(program)));
    assert_eq!(counter_sys::open_dol(&image, m).unwrap().1.length, 0x123);
    assert_eq!(counter_sys::max_file_size(&image, m, 1), Ok(0xb00));
    assert_eq!(words, [0; 16]);
}

/// Between the header and the table it is among the bytes up to the table's end.
#[test]
fn a_program_before_the_table() {
    let mut image = small_master();
    image.copy_within(0x440..0x45a, 0x524);
    image[0x440..0x524].fill(0);
    image[0x420..0x428].copy_from_slice(&[0, 0, 4, 0x40, 0, 0, 5, 0x24]);
    image[0x536] = 6; // `a` lies at 0x600
    let mut words = [9; 16];
    let mut memory = Memory { words: &mut words, bytes: &mut [] };
    let m = &mut memory;
    let program = Region { offset: 0x440, size: 0xe4 };
    assert_eq!(counter_sys::program(&image, m), Ok(Some(program)));
    assert_eq!(counter_sys::totals(&image, m), Ok((0x2000, 0x53e + 0x100)));
    let mut list = [5; 6];
    assert_eq!(counter_sys::free_regions(&image, m, &mut list), Ok(2));
    assert_eq!(list, [0x53e, 0xc2, 0x700, 0x1900, 5, 5]);
    // A byte longer it reaches into the table: text section 0 is 0xe5 bytes from 0 on.
    image[0x4d3] = 0xe5;
    assert_eq!(counter_sys::program(&image, m), Err(14));
    // Its sum is 2^32.
    image[0x440..0x444].fill(0xff);
    image[0x4d3] = 1;
    assert_eq!(counter_sys::program(&image, m), Err(24));
    assert_eq!(words, [0; 16]);
}

/// Cause 1 comes before every other one, whatever is lent.
#[test]
fn an_empty_image() {
    let mut image = [];
    let (mut words, mut bytes) = ([9; 2], [9; 2]);
    let mut memory = Memory { words: &mut words, bytes: &mut bytes };
    let m = &mut memory;
    let r = &mut record(7, 8, 9, 10);
    assert_eq!(counter_sys::header(&image), Err(1));
    assert_eq!(counter_sys::open(&image, m), Err(1));
    assert_eq!(counter_sys::totals(&image, m), Err(1));
    assert_eq!(counter_sys::program(&image, m), Err(1));
    assert_eq!(counter_sys::entry_at(&image, m, 9), Err(1));
    assert_eq!(counter_sys::lookup(&image, m, 9, &[0; 1025]), Err(1));
    assert_eq!(counter_sys::entries(&image, m, &mut []), Err(1));
    assert_eq!(counter_sys::free_regions(&image, m, &mut []), Err(1));
    assert_eq!(counter_sys::free_clusters(&image, m, &mut []), Err(1));
    assert_eq!(counter_sys::list(&image, m, &mut []), Err(1));
    assert_eq!(counter_sys::max_region_size(&image, m, 0, 0), Err(1));
    assert_eq!(counter_sys::max_file_size(&image, m, 9), Err(1));
    assert_eq!(counter_sys::allocate(&image, m, 1, 0), Err(1));
    assert_eq!(counter_sys::open_file(&image, m, 9), Err(1));
    assert_eq!(counter_sys::open_dol(&image, m), Err(1));
    assert_eq!(counter_sys::table_anew(&image, m.words, &mut []), Err(1));
    assert_eq!(counter_sys::make_record(&image, m, &[1; TEAMS], &[1; TEAMS]), Err(1));
    assert_eq!(counter_sys::insert_file(&mut image, m, r, 16, 9, b""), Err(1));
    assert_eq!(counter_sys::insert_directory(&mut image, m, r, 16, 9, b""), Err(1));
    assert_eq!(counter_sys::make_directories(&mut image, m, r, 16, 9, &[0; 1025]), Err(1));
    assert_eq!(counter_sys::move_file(&mut image, m, r, 16, 9, 0), Err(1));
    assert_eq!(counter_sys::resize_file(&mut image, m, r, 16, 9, 0), Err(1));
    assert_eq!(counter_sys::fill_file(&mut image, m, r, 16, 9, b""), Err(1));
    assert_eq!(counter_sys::rewrite(&mut image, m, r, 16), Err(1));
    assert_eq!(counter_sys::move_copy(&mut image, m, r, 16, 9, 0), Err(1));
    assert_eq!(counter_sys::resize_copy(&mut image, m, r, 16, 9, 0), Err(1));
    assert_eq!(counter_sys::move_table(&mut image, m, r, 16, 9, 0), Err(1));
    assert_eq!(counter_sys::resize_table(&mut image, m, r, 16, 9, 0), Err(1));
    for (offset, size) in [(0, 0), (0, 1), (u32::MAX, 0), (u32::MAX, u32::MAX)] {
        assert_eq!(counter_sys::zero(&mut image, m.words, Region { offset, size }), Err(1));
    }
    for lines in [&[][..], &[(4, &[b'/'; 1025][..], 0, 0)]] {
        let stopped = Err(Stopped { number: 1, line: 0 });
        assert_eq!(counter_sys::sheet(&mut image, m, r, 16, &sheet_of(lines)), stopped);
    }
    // But for a sheet that is none.
    let stopped = Err(Stopped { number: 30, line: 0 });
    assert_eq!(counter_sys::sheet(&mut image, m, r, 16, &[]), stopped);
    assert_eq!(*r, record(7, 8, 9, 10));
    assert_eq!((words, bytes), ([0; 2], [0; 2]));
}

/// A master with these files of no bytes, in a buffer of `room` bytes that are not zero, all of it disc; with as many
/// words and bytes as a tree of so many entries with so long texts wants.
fn master_of(paths: &[u8], files: usize, entries: usize, texts: usize) -> Result<Vec<u8>, u32> {
    let (mut words, mut bytes) = (vec![9; 4 * (entries + 2)], vec![9; 12 * entries + texts]);
    let mut image = vec![9; 0x440 + bytes.len()];
    let (disc_end, sizes) = (image.len() as u32, vec![0; files]);
    let memory = &mut Memory { words: &mut words, bytes: &mut bytes };
    let made = counter_sys::master(&mut image, memory, b"GAME", disc_end, &sizes, paths);
    assert!(words.iter().all(|word| *word == 0) && bytes.iter().all(|byte| *byte == 0));
    assert!(made.is_ok() || image.iter().all(|byte| *byte == 9));
    made.map(|()| image)
}

/// The paths of so many files in the root, rising, with names of so many bytes.
fn flat(files: usize, len: usize) -> Vec<u8> {
    (0..files).flat_map(|k| format!("{k:0len$}\0").into_bytes()).collect()
}

/// 16,384 entries with the root, 1,048,576 bytes of texts; one more of either is 9, with memory for it too.
#[test]
fn a_new_master_at_its_limits() {
    let made = master_of(&flat(16_383, 5), 16_383, 16_384, 6 * 16_383).unwrap();
    let (mut words, mut bytes) = (vec![9; counter_sys::MOST_WORDS], [9; 0]);
    let m = &mut Memory { words: &mut words, bytes: &mut bytes };
    assert_eq!(counter_sys::open(&made, m).unwrap().entries, 16_384);
    let last = Entry::File { number: 16_383, offset: 0, size: 0 };
    assert_eq!(counter_sys::lookup(&made, m, 0, b"16382"), Ok(last));
    assert_eq!(master_of(&flat(16_384, 5), 16_384, 16_385, 6 * 16_384), Err(9));

    let texts = counter_sys::MOST_TEXT;
    let made = master_of(&flat(1024, 1023), 1024, 1025, texts).unwrap();
    assert_eq!(counter_sys::open(&made, m).unwrap().fst_size as usize, 12 * 1025 + texts);
    let more = [&flat(1023, 1023)[..], &[b'a'; 1024], &[0]].concat();
    assert_eq!(master_of(&more, 1024, 1025, texts + 1), Err(9));
}

/// Whatever the table's size, the files begin on the first multiple of 0x8000 behind it.
#[test]
fn a_new_master_whose_table_passes_a_cluster() {
    // 1,000 names of 20 bytes: the table ends at 0x440 + 12 * 1001 + 21 * 1000 = 34,100.
    let paths = flat(1000, 20);
    let mut sizes = vec![0; 1000];
    sizes[7] = 1;
    let mut image = vec![9; 0x1_0001];
    let (mut words, mut bytes) = (vec![9; 4 * 1003], vec![9; 12 * 1001 + 21 * 1000]);
    let m = &mut Memory { words: &mut words, bytes: &mut bytes };
    let mut make = |disc_end| counter_sys::master(&mut image, m, b"GAME", disc_end, &sizes, &paths);
    assert_eq!(make(0x1_0000), Err(21));
    assert_eq!(make(0x1_0001), Ok(()));
    let seventh = Entry::File { number: 8, offset: 0x1_0000, size: 1 };
    assert_eq!(counter_sys::entry_at(&image, m, 8), Ok(seventh));
    assert_eq!((&image[..4], &image[0x1_0000..]), (&b"GAME"[..], &[0][..]));
}

/// Each of them opens in the small master, and a rewrite would write it as it is.
#[test]
fn every_small_table() {
    for (entries, number) in (1..).zip([1, 2, 6, 22, 90, 394, 1806, 8558]) {
        let size = counter_sys::small_table_size(entries);
        let all = number as usize * size;
        let mut list = Guarded::<u8>::new(all + 1);
        assert_eq!(counter_sys::small_tables(entries, &mut list.slice_mut()[..all - 1]), Err(9));
        assert!(list.stays_from(0));
        assert_eq!(counter_sys::small_tables(entries, list.slice_mut()), Ok(number));
        assert!(list.stays_from(all));
        let tables: BTreeSet<&[u8]> = list.slice()[..all].chunks(size).collect();
        assert_eq!(tables.len() as u32, number);
        let (mut words, mut anew) = (vec![9; 4 * (entries as usize + 2)], vec![9; size]);
        for table in tables {
            let mut image = small_master();
            put(&mut image, 0x428, &(size as u32).to_be_bytes());
            put(&mut image, 0x440, table);
            let memory = &mut Memory { words: &mut words, bytes: &mut [] };
            assert_eq!(counter_sys::open(&image, memory).unwrap().entries, entries);
            assert_eq!(counter_sys::table_anew(&image, memory.words, &mut anew), Ok(size));
            assert!(anew == table);
        }
    }
    // Of nine there would be 41,586.
    let mut list = vec![9; 41_586 * counter_sys::small_table_size(9)];
    for entries in [0, 9, 10, 1 << 31, (1 << 31) + 8, u32::MAX] {
        assert_eq!(counter_sys::small_tables(entries, &mut list), Err(9));
    }
    assert!(list.iter().all(|byte| *byte == 9));
    assert_eq!(counter_sys::small_tables(counter_sys::MOST_SMALL, &mut list), Ok(8558));
    for entries in 0..=9 {
        assert_eq!(counter_sys::small_tables(entries, &mut []), Err(9));
    }
}
