//! The calls, each with everything it is lent between margins, and what it promises of them held
//! to afterwards: working memory zero; the image as it was, unless an edit was accepted; list words
//! past the answer, and on a refusal all slots, lists and the record, as they were; after an accepted
//! edit the record as the image's totals have moved, and in it the edit's own team alone; of a part of an
//! edit its own bytes alone, and refused as the edit is; behind the disc end of a new master all as it was; of a sheet
//! that is refused at a line what its lines before leave; the small tables in a list, which is all that is lent.

use crate::language::{Answer, Stop};
use crate::zeros::Zeros;
pub use counter_sys::ENTRY_WORDS;
use counter_sys::guarded::{Element, Guarded};
use counter_sys::{
    CLUSTER_WORDS, DOL_WORDS, HEADER_SIZE, RECORD_WORDS, REGION_WORDS, Record, SHEET_HEADER_SIZE,
    SHEET_LINE_SIZE, TEAMS, Team, call,
};
use std::ops::Range;

/// Words of a list lent beyond what an answer takes.
const SPARE: usize = 3;

/// The most words of a list that `lend_list` lends, whatever it is told: no answer comes near it
/// (16,385 regions of three words), so a longer list gives the same, and memory cannot hold 2^64.
const LONGEST_LIST: usize = 1 << 20;

/// The same in bytes, for the small tables: those of eight entries take 941,380, of nine it would be 5,156,664.
const LONGEST_BYTES: usize = 1 << 23;

/// As many are long enough.
const ENOUGH_BYTES: usize = 1 << 20;

/// The most entries of an image that opens, with the root.
const MOST_ENTRIES: usize = 16_384;

pub struct Lender {
    pub image: Guarded<u8>,
    before: Vec<u8>,
    words: Guarded<u32>,
    bytes: Guarded<u8>,
    /// Words of the list that the free regions are written to, or bytes of that of the small tables; none:
    /// long enough.
    list: Option<usize>,
    /// The record in use: every edit takes it, and what comes back is kept.
    pub record: Option<Record>,
    /// The team that edits carry while a record is in use.
    pub team: u32,
}

/// A call on the image and the working words that fills a list; how many regions goes into the slot.
type Fill = fn(&[u8], &mut [u32], &mut [u32], &mut [u32; 1]) -> u32;

/// A call that fills a list with so many words for each free region.
#[derive(Clone, Copy)]
pub struct PerRegion {
    pub words: usize,
    fill: Fill,
}

pub const REGIONS: PerRegion = PerRegion {
    words: REGION_WORDS,
    fill: |image, words, list, answer| unsafe {
        call!(counter_free_regions(in image, mut words, mut list, = answer))
    },
};

pub const CLUSTERS: PerRegion = PerRegion {
    words: CLUSTER_WORDS,
    fill: |image, words, list, answer| unsafe {
        call!(counter_free_clusters(in image, mut words, mut list, = answer))
    },
};

/// An edit of a file or a part of one, on the image, the words, the bytes, the record, the team and two numbers.
type OfFile<const N: usize> = fn(
    &mut [u8],
    &mut [u32],
    &mut [u8],
    &mut [u32; RECORD_WORDS],
    u32,
    [u32; 2],
    &mut [u32; N],
) -> u32;

/// An edit that can be made in parts.
#[derive(Clone, Copy)]
pub struct InParts {
    whole: OfFile<0>,
    copy: OfFile<0>,
    table: OfFile<2>,
}

macro_rules! in_parts {
    ($whole:ident, $copy:ident, $table:ident) => {
        InParts {
            whole: |i, w, b, record, team, [number, to], _| unsafe {
                call!($whole(mut i, mut w, mut b, = record, = team, = number, = to))
            },
            copy: |i, w, b, record, team, [number, to], _| unsafe {
                call!($copy(mut i, mut w, mut b, = record, = team, = number, = to))
            },
            table: |i, w, b, record, team, [number, to], span| unsafe {
                call!($table(mut i, mut w, mut b, = record, = team, = number, = to, = span))
            },
        }
    };
}

pub const MOVE: InParts = in_parts!(counter_move_file, counter_move_copy, counter_move_table);
pub const RESIZE: InParts =
    in_parts!(counter_resize_file, counter_resize_copy, counter_resize_table);

/// What a call does with the image; a new master is written as an edit is, zeros want no working bytes, and of a sheet
/// that is refused lines may have run.
#[derive(Clone, Copy, PartialEq)]
enum Does {
    Look,
    Edit,
    Zero,
    Sheet,
}

/// What an accepted call does with the record.
#[derive(Clone, Copy, PartialEq)]
enum OfRecord {
    Moves,
    Stays,
}

fn hold(fact: bool, what: &'static str) -> Answer<()> {
    if fact { Ok(()) } else { Err(Stop::Dirty(what)) }
}

/// The slots of an accepted answer; a refused one leaves them as they were.
fn answered<T: Element, const N: usize>(cause: u32, slots: &mut Guarded<T>) -> Answer<[T; N]> {
    hold(slots.stays_from(if cause == 0 { N } else { 0 }), "answer")?;
    if cause == 0 { Ok(*slots.slots()) } else { Err(Stop::Refused(cause)) }
}

/// What an accepted edit of this team makes of a record, where it costs so much; none where it would leave the
/// numbers that a record can hold.
fn moved(given: Record, team: u32, cost: i64, largest: u32) -> Option<Record> {
    let moved = |number: u32| i64::from(number) + cost;
    let mut record = Record { used: moved(given.used).try_into().ok()?, largest, ..given };
    let team = record.teams.get_mut(team as usize)?;
    team.taken = moved(team.taken).max(0).try_into().ok()?;
    team.edits = team.edits.checked_add(1)?;
    Some(record)
}

/// Whether accepted edits of this team, so many, can have made this of a record, where they cost so much together.
/// Each leaves at least 0 taken bytes, so what is taken may be more than the sum.
fn moved_along(
    given: Record,
    back: Record,
    (team, edits): (u32, u32),
    cost: i64,
    largest: u32,
) -> bool {
    if edits == 0 {
        return back == given;
    }
    let place = team as usize;
    let (Some(own), Some(now)) = (given.teams.get(place), back.teams.get(place)) else {
        return false;
    };
    let (Ok(used), Some(count)) =
        (u32::try_from(i64::from(given.used) + cost), own.edits.checked_add(edits))
    else {
        return false;
    };
    let mut wanted = Record { used, largest, ..given };
    wanted.teams[place] = Team { taken: now.taken, edits: count, ..*own };
    let (least, taken) = ((i64::from(own.taken) + cost).max(0), i64::from(now.taken));
    back == wanted && if edits == 1 { taken == least } else { taken >= least }
}

fn number_at(bytes: &[u8], at: usize) -> Option<u32> {
    bytes.get(at..)?.first_chunk().map(|word| u32::from_be_bytes(*word))
}

/// A word of an image that a call accepted, so that it is there.
fn word(image: &[u8], at: usize) -> Answer<u32> {
    number_at(image, at).ok_or(Stop::Dirty("image: does not open"))
}

/// The sheet of the first lines of another; none where that has not so many, or is none.
fn first_lines(sheet: &[u8], count: u32) -> Option<Vec<u8>> {
    let [all, lines, texts, length] = [0, 4, 8, 12].map(|at| number_at(sheet, at));
    let (lines, texts, length) = (lines? as usize, texts? as usize, length? as usize);
    let size = SHEET_LINE_SIZE * count as usize;
    let (lines, texts) = (sheet.get(lines..lines + size)?, sheet.get(texts..texts + length)?);
    let words = [count, SHEET_HEADER_SIZE as u32, (SHEET_HEADER_SIZE + size) as u32, length as u32];
    let header = words.map(u32::to_be_bytes);
    (count <= all?).then(|| [header.as_flattened(), lines, texts].concat())
}

/// The least range outside of which the two are the same; they are as long as each other.
fn changed(now: &[u8], before: &[u8]) -> Range<usize> {
    let Some(start) = now.iter().zip(before).position(|(a, b)| a != b) else {
        return 0..0;
    };
    let behind = now.iter().rev().zip(before.iter().rev()).position(|(a, b)| a != b);
    start..now.len() - behind.unwrap_or(0)
}

/// The two are the same outside these ranges, which may lie past them; they are as long as each other.
fn same_but_in<const N: usize>(one: &[u8], other: &[u8], mut ranges: [Range<usize>; N]) -> bool {
    ranges.sort_by_key(|range| range.start);
    let mut at = 0;
    for range in ranges {
        let start = range.start.min(one.len());
        if at < start && one[at..start] != other[at..start] {
            return false;
        }
        at = at.max(range.end.min(one.len()));
    }
    one[at..] == other[at..]
}

/// One of the free regions holds all of it.
fn is_free(free: &[[u32; REGION_WORDS]], part: &Range<usize>) -> bool {
    free.iter()
        .map(|region| region.map(|n| n as usize))
        .any(|[offset, size]| offset <= part.start && part.end <= offset + size)
}

impl Lender {
    pub fn new() -> Self {
        Self {
            image: Guarded::new(0),
            before: vec![],
            words: Guarded::new(65_544),
            bytes: Guarded::new(2_097_152),
            list: None,
            record: None,
            team: 0,
        }
    }

    pub fn lend(&mut self, words: usize, bytes: usize) {
        self.words = Guarded::new(words);
        self.bytes = Guarded::new(bytes);
    }

    /// From here on `lent_regions` and `lent_tables` lend a list of `len` elements; none: one that is long
    /// enough.
    pub fn lend_list(&mut self, len: Option<usize>) {
        self.list = len;
    }

    /// One call on the image with `N` slots for its answer.
    fn call<T: Element, const N: usize>(
        &mut self,
        does: Does,
        run: impl FnOnce(&mut Self, &mut [T; N]) -> u32,
    ) -> Answer<[T; N]> {
        let mut answer = Guarded::new(N);
        self.words.mark();
        let takes_bytes = matches!(does, Does::Edit | Does::Sheet);
        if takes_bytes {
            self.bytes.mark();
        }
        self.before.clear();
        self.before.extend_from_slice(self.image.slice());
        let cause = run(self, answer.slots());
        hold(self.words.is_zero(), "words")?;
        hold(self.words.margins_stay(), "beside words")?;
        if takes_bytes {
            hold(self.bytes.is_zero(), "bytes")?;
        }
        hold(self.bytes.margins_stay(), "beside bytes")?;
        hold(self.image.margins_stay(), "beside image")?;
        if does == Does::Look || cause != 0 && does != Does::Sheet {
            hold(self.image.slice() == &self.before[..], "image")?;
        }
        answered(cause, &mut answer)
    }

    /// A reading call with `N` slots for its answer.
    fn look<const N: usize>(
        &mut self,
        run: impl FnOnce(&[u8], &mut [u32], &mut [u32; N]) -> u32,
    ) -> Answer<[u32; N]> {
        self.call(Does::Look, |lender, answer| {
            run(lender.image.slice(), lender.words.slice_mut(), answer)
        })
    }

    fn edit<const N: usize>(
        &mut self,
        run: impl FnOnce(
            &mut [u8],
            &mut [u32],
            &mut [u8],
            &mut [u32; RECORD_WORDS],
            u32,
            &mut [u32; N],
        ) -> u32,
    ) -> Answer<[u32; N]> {
        self.with_record(OfRecord::Moves, run)
    }

    /// What an edit takes: the record in use, and the team; where there is none, a fresh one of the image, in which
    /// team 0 may take anything. The first is this fresh one, or the number that the image is refused with.
    fn taken(&mut self) -> Answer<(Result<Record, u32>, Record, u32)> {
        let fresh = match self.fresh_record([u32::MAX; TEAMS], [0; TEAMS]) {
            Err(Stop::Refused(number)) => Err(number),
            made => Ok(made?),
        };
        let marked = Record::of([u32::MARK; RECORD_WORDS]);
        let given = self.record.or(fresh.ok()).unwrap_or(marked);
        let team = if self.record.is_some() { self.team } else { 0 };
        Ok((fresh, given, team))
    }

    /// An edit with `N` slots for its answer, or a part of one. A fresh record that it took is dropped.
    fn with_record<const N: usize>(
        &mut self,
        of_record: OfRecord,
        run: impl FnOnce(
            &mut [u8],
            &mut [u32],
            &mut [u8],
            &mut [u32; RECORD_WORDS],
            u32,
            &mut [u32; N],
        ) -> u32,
    ) -> Answer<[u32; N]> {
        let (fresh, given, team) = self.taken()?;
        let mut record = Guarded::of(&given.slots());
        let lent = &mut record;
        let result = self.call(Does::Edit, |lender, answer| {
            let (words, bytes) = (lender.words.slice_mut(), lender.bytes.slice_mut());
            run(lender.image.slice_mut(), words, bytes, lent.slots(), team, answer)
        });
        let back = Record::of(*record.slots());
        self.record = self.record.map(|_| back);
        hold(record.margins_stay(), "beside record")?;
        match (&result, fresh) {
            (Ok(_), Ok(before)) => {
                let [used, largest] = self.totals_afresh()?;
                let cost = i64::from(used) - i64::from(before.used);
                let wanted = match of_record {
                    OfRecord::Moves => moved(given, team, cost, largest),
                    OfRecord::Stays => Some(given),
                };
                hold(Some(back) == wanted, "record")?;
            }
            (Ok(_), Err(_)) => hold(false, "record: refused where the edit is not")?,
            (Err(Stop::Refused(number)), made) => {
                hold(back == given, "record")?;
                hold(made.is_ok() || made == Err(*number), "record: refused with another number")?;
            }
            (Err(_), _) => (),
        }
        result
    }

    // Records -------------------------------------------------------------------------------

    fn fresh_record(&mut self, limits: [u32; TEAMS], shares: [u32; TEAMS]) -> Answer<Record> {
        let (mut lent_limits, mut lent_shares) = (Guarded::of(&limits), Guarded::of(&shares));
        let (most, kept) = (lent_limits.slots(), lent_shares.slots());
        let result = self.look(|image, words, record| unsafe {
            call!(counter_make_record(in image, mut words, = most, = kept, = record))
        });
        hold(lent_limits.margins_stay() && lent_limits.slice() == limits, "limits")?;
        hold(lent_shares.margins_stay() && lent_shares.slice() == shares, "shares")?;
        result.map(Record::of)
    }

    /// Used bytes and the largest free region as the calls tell them that have them.
    fn totals_afresh(&self) -> Answer<[u32; 2]> {
        let (used, free) = self.space_afresh()?;
        Ok([used, free.iter().map(|region| region[1]).max().unwrap_or(0)])
    }

    /// Used bytes, and offset and size of each free region. An image that does not open is dirty, whatever its
    /// header holds.
    fn space_afresh(&self) -> Answer<(u32, Vec<[u32; REGION_WORDS]>)> {
        let count = self.word(self.word(0x424)? as usize + 8)? as usize;
        hold(count <= MOST_ENTRIES, "image: does not open")?;
        let (mut words, mut list) = (vec![0; 4 * (count + 2)], vec![0; REGION_WORDS * (count + 1)]);
        let (mut totals, mut regions) = ([0; 2], [0; 1]);
        let image = self.image.slice();
        let causes = unsafe {
            [
                call!(counter_totals(in image, mut words, = &mut totals)),
                call!(counter_free_regions(in image, mut words, mut list, = &mut regions)),
            ]
        };
        hold(causes == [0; 2], "image: does not open")?;
        let found = list.as_chunks().0.iter().take(regions[0] as usize);
        Ok((totals[1], found.copied().collect()))
    }

    /// Makes a record of the image and takes it into use; a refusal leaves what was in use.
    pub fn make_record(&mut self, limits: [u32; TEAMS], shares: [u32; TEAMS]) -> Answer<Record> {
        let record = self.fresh_record(limits, shares)?;
        let [used, largest] = self.totals_afresh()?;
        let team = |k| Team { limit: limits[k], share: shares[k], taken: 0, edits: 0 };
        let wanted = Record { used, largest, teams: std::array::from_fn(team) };
        hold(record == wanted, "record: not as the other calls")?;
        self.record = Some(record);
        Ok(record)
    }

    // Reading -------------------------------------------------------------------------------

    pub fn header(&mut self) -> Answer<[u8; HEADER_SIZE]> {
        let mut fields = Guarded::new(HEADER_SIZE);
        self.before.clear();
        self.before.extend_from_slice(self.image.slice());
        let image = self.image.slice();
        let cause = unsafe { call!(counter_header(in image, = fields.slots())) };
        hold(self.image.margins_stay() && self.image.slice() == &self.before[..], "image")?;
        answered(cause, &mut fields)
    }

    /// FST offset and size, which are the header's; disc end; entries; used total.
    pub fn open(&mut self) -> Answer<[u32; 5]> {
        let opened: [u32; 5] = self.look(|image, words, answer| unsafe {
            call!(counter_open(in image, mut words, = answer))
        })?;
        hold(opened[..2] == [self.word(0x424)?, self.word(0x428)?], "open: not the header's FST")?;
        Ok(opened)
    }

    fn word(&self, at: usize) -> Answer<u32> {
        word(self.image.slice(), at)
    }

    pub fn totals(&mut self) -> Answer<[u32; 2]> {
        self.look(|image, words, answer| unsafe {
            call!(counter_totals(in image, mut words, = answer))
        })
    }

    pub fn entry(&mut self, number: u32) -> Answer<[u32; 4]> {
        self.look(|image, words, answer| unsafe {
            call!(counter_entry(in image, mut words, = number, = answer))
        })
    }

    /// The number of the entry found; the rest of the answer is what `entry` says of it.
    pub fn lookup(&mut self, start: u32, path: &[u8]) -> Answer<u32> {
        let path = Guarded::of(path);
        let lent = path.slice();
        let found: [u32; 4] = self.look(|image, words, answer| unsafe {
            call!(counter_lookup(in image, mut words, = start, in lent, = answer))
        })?;
        hold(path.margins_stay(), "beside path")?;
        hold(self.entry(found[0])? == found, "lookup: not as entry")?;
        Ok(found[0])
    }

    /// One call that fills a list of `len` words, `used` of them if it is accepted.
    fn filled<const N: usize>(
        &mut self,
        len: usize,
        used: impl FnOnce(&[u32; N]) -> usize,
        run: impl FnOnce(&[u8], &mut [u32], &mut [u32], &mut [u32; N]) -> u32,
    ) -> Answer<(Vec<u32>, [u32; N])> {
        let mut list = Guarded::new(len);
        let lent = &mut list;
        let result = self.look(|image, words, answer| run(image, words, lent.slice_mut(), answer));
        match result {
            Ok(answer) => {
                let used = used(&answer);
                hold(used <= len && list.stays_from(used), "list")?;
                Ok((list.slice()[..used].to_vec(), answer))
            }
            Err(stop) => {
                hold(list.stays_from(0), "list")?;
                Err(stop)
            }
        }
    }

    fn fill_entries(&mut self, len: usize) -> Answer<(Vec<u32>, [u32; 5])> {
        let used = |answer: &[u32; 5]| ENTRY_WORDS * answer[3] as usize;
        self.filled(len, used, |image, words, list, answer| unsafe {
            call!(counter_entries(in image, mut words, mut list, = answer))
        })
    }

    fn fill_regions(&mut self, each: PerRegion, len: usize) -> Answer<Vec<u32>> {
        let used = |answer: &[u32; 1]| each.words * answer[0] as usize;
        Ok(self.filled(len, used, each.fill)?.0)
    }

    /// Entries of the image, or some number if it does not open.
    fn entry_count(&mut self) -> Answer<usize> {
        match self.open() {
            Ok(opened) => Ok(opened[3] as usize),
            Err(Stop::Refused(_)) => Ok(1),
            Err(stop) => Err(stop),
        }
    }

    /// The list in a longer one than it needs; and it fits one of its length and no shorter one.
    pub fn entries(&mut self) -> Answer<Vec<u32>> {
        let count = self.entry_count()?;
        let (list, answer) = self.fill_entries(ENTRY_WORDS * count + SPARE)?;
        hold(answer == self.open()?, "entries: not as open")?;
        hold(self.fill_entries(list.len())?.0 == list, "entries: exact list")?;
        let short = self.fill_entries(list.len() - 1);
        hold(matches!(short, Err(Stop::Refused(9))), "entries: short list")?;
        Ok(list)
    }

    /// The same for what is told of the free regions.
    pub fn regions(&mut self, each: PerRegion) -> Answer<Vec<u32>> {
        let count = self.entry_count()?;
        let list = self.fill_regions(each, each.words * (count + 1) + SPARE)?;
        hold(self.fill_regions(each, list.len())? == list, "free regions: exact list")?;
        if !list.is_empty() {
            let short = self.fill_regions(each, list.len() - 1);
            hold(matches!(short, Err(Stop::Refused(9))), "free regions: short list")?;
        }
        Ok(list)
    }

    /// What is told of the free regions, in a list as `lend_list` has it.
    pub fn lent_regions(&mut self, each: PerRegion) -> Answer<Vec<u32>> {
        match self.list {
            Some(len) => self.fill_regions(each, len.min(LONGEST_LIST)),
            None => self.regions(each),
        }
    }

    fn fill_text(&mut self, len: usize) -> Answer<Vec<u8>> {
        let mut text = Guarded::<u8>::new(len);
        let lent = &mut text;
        let result = self.call(Does::Look, |lender, answer: &mut [u64; 1]| {
            let (image, words) = (lender.image.slice(), lender.words.slice_mut());
            let text = lent.slice_mut();
            unsafe { call!(counter_list(in image, mut words, mut text, = answer)) }
        });
        let used = result.as_ref().map_or(0, |[used]| *used as usize);
        hold(used <= len && text.stays_from(used), "text")?;
        result?;
        Ok(text.slice()[..used].to_vec())
    }

    /// The text in a longer buffer than it needs, `len` of it at least; and it fits one of its length
    /// and no shorter one.
    pub fn text(&mut self, len: usize) -> Answer<Vec<u8>> {
        let text = self.fill_text(len + SPARE)?;
        hold(self.fill_text(text.len())? == text, "text: exact buffer")?;
        let short = self.fill_text(text.len() - 1);
        hold(matches!(short, Err(Stop::Refused(9))), "text: short buffer")?;
        Ok(text)
    }

    pub fn max_region_size(&mut self, offset: u32, size: u32) -> Answer<u32> {
        let [most] = self.look(|image, words, answer| unsafe {
            call!(counter_max_region_size(in image, mut words, = offset, = size, = answer))
        })?;
        Ok(most)
    }

    pub fn max_file_size(&mut self, number: u32) -> Answer<u32> {
        let [most] = self.look(|image, words, answer| unsafe {
            call!(counter_max_file_size(in image, mut words, = number, = answer))
        })?;
        Ok(most)
    }

    pub fn allocate(&mut self, size: u32, align: u32) -> Answer<[u32; 2]> {
        self.look(|image, words, answer| unsafe {
            call!(counter_allocate(in image, mut words, = size, = align, = answer))
        })
    }

    /// How many runs were tried, where the cheapest of them starts, its cost and the bound; none where none
    /// was tried.
    pub fn clear(&mut self, size: u32, budget: u32) -> Answer<Option<[u32; 4]>> {
        let found = self.look(|image, words, answer| unsafe {
            call!(counter_clear(in image, mut words, = size, = budget, = answer))
        })?;
        hold(found[0] <= budget, "clear: more tried than the budget allows")?;
        hold(found[0] != 0 || found == [0; 4], "clear: none tried, and an answer")?;
        Ok((found[0] != 0).then_some(found))
    }

    pub fn open_file(&mut self, number: u32) -> Answer<[u64; 3]> {
        self.call(Does::Look, |lender, window| {
            let (image, words) = (lender.image.slice(), lender.words.slice_mut());
            unsafe { call!(counter_open_file(in image, mut words, = number, = window)) }
        })
    }

    /// The header's words, which are those of the image at the DOL offset, and the window.
    pub fn open_dol(&mut self) -> Answer<([u32; DOL_WORDS], [u64; 3])> {
        let mut header = Guarded::<u32>::new(DOL_WORDS);
        let lent = &mut header;
        let result = self.call(Does::Look, |lender, window: &mut [u64; 3]| {
            let (image, words) = (lender.image.slice(), lender.words.slice_mut());
            unsafe { call!(counter_open_dol(in image, mut words, = lent.slots(), = window)) }
        });
        hold(header.stays_from(if result.is_ok() { DOL_WORDS } else { 0 }), "DOL header")?;
        let (header, window) = (*header.slots(), result?);
        let at = self.word(0x420)? as usize;
        for (i, word) in header.iter().enumerate() {
            hold(*word == self.word(at + 4 * i)?, "DOL header: not the image's")?;
        }
        hold(window[0] == at as u64 && window[2] == 0, "DOL window")?;
        Ok((header, window))
    }

    // Windows -------------------------------------------------------------------------------

    /// A seek of `window`: 0 or the cause; a refused one leaves the window as it was.
    pub fn seek(window: &mut [u64; 3], run: impl FnOnce(&mut [u64; 3]) -> u32) -> Answer<u32> {
        let mut lent = Guarded::of(window);
        let cause = run(lent.slots());
        hold(lent.margins_stay(), "beside window")?;
        let moved: [u64; 3] = *lent.slots();
        hold(moved[..2] == window[..2] && (cause == 0 || moved == *window), "window")?;
        *window = moved;
        Ok(cause)
    }

    /// A read of `window` into `len` bytes of 0xAA: how many were read, and the bytes.
    pub fn read(&mut self, window: &mut [u64; 3], len: usize) -> Answer<(u64, Vec<u8>)> {
        let mut lent = Guarded::of(window);
        let mut buf = Guarded::of(&vec![0xaa; len]);
        let mut answer = Guarded::new(1);
        let (image, bytes) = (self.image.slice(), buf.slice_mut());
        let cause =
            unsafe { call!(counter_read(= lent.slots(), in image, mut bytes, = answer.slots())) };
        hold(lent.margins_stay(), "beside window")?;
        hold(buf.margins_stay(), "beside buffer")?;
        let [count] = answered(cause, &mut answer)?;
        let moved: [u64; 3] = *lent.slots();
        hold(moved == [window[0], window[1], window[2].wrapping_add(count)], "window")?;
        *window = moved;
        Ok((count, buf.slice().to_vec()))
    }

    // Edits ---------------------------------------------------------------------------------

    pub fn insert_file(&mut self, parent: u32, name: &[u8]) -> Answer<u32> {
        let name = Guarded::of(name);
        let name = name.slice();
        let [number] = self.edit(|image, words, bytes, record, team, answer| unsafe {
            call!(counter_insert_file(
                mut image, mut words, mut bytes, = record, = team, = parent, in name, = answer
            ))
        })?;
        Ok(number)
    }

    pub fn insert_directory(&mut self, parent: u32, name: &[u8]) -> Answer<u32> {
        let name = Guarded::of(name);
        let name = name.slice();
        let [number] = self.edit(|image, words, bytes, record, team, answer| unsafe {
            call!(counter_insert_directory(
                mut image, mut words, mut bytes, = record, = team, = parent, in name, = answer
            ))
        })?;
        Ok(number)
    }

    pub fn make_directories(&mut self, start: u32, path: &[u8]) -> Answer<u32> {
        let path = Guarded::of(path);
        let path = path.slice();
        let [number] = self.edit(|image, words, bytes, record, team, answer| unsafe {
            call!(counter_make_directories(
                mut image, mut words, mut bytes, = record, = team, = start, in path, = answer
            ))
        })?;
        Ok(number)
    }

    pub fn move_file(&mut self, number: u32, new_offset: u32) -> Answer<()> {
        let [] = self.edit(|image, words, bytes, record, team, _| unsafe {
            call!(counter_move_file(mut image, mut words, mut bytes, = record, = team, = number, = new_offset))
        })?;
        Ok(())
    }

    pub fn resize_file(&mut self, number: u32, new_size: u32) -> Answer<()> {
        let [] = self.edit(|image, words, bytes, record, team, _| unsafe {
            call!(counter_resize_file(mut image, mut words, mut bytes, = record, = team, = number, = new_size))
        })?;
        Ok(())
    }

    fn fill_with(&mut self, number: u32, clip: &[u8]) -> Answer<()> {
        let [] = self.edit(|image, words, bytes, record, team, _| unsafe {
            call!(counter_fill_file(mut image, mut words, mut bytes, = record, = team, = number, in clip))
        })?;
        Ok(())
    }

    /// The bytes of a file.
    fn file(&mut self, number: u32) -> Answer<&[u8]> {
        let [_, _, offset, size] = self.entry(number)?.map(|word| word as usize);
        if size == 0 {
            return Ok(&[]);
        }
        self.image.slice().get(offset..offset + size).ok_or(Stop::Dirty("file: past the image"))
    }

    /// The clip stays, and an accepted fill makes the file exactly the clip.
    pub fn fill_file(&mut self, number: u32, clip: &[u8]) -> Answer<()> {
        let lent = Guarded::of(clip);
        let result = self.fill_with(number, lent.slice());
        hold(lent.margins_stay(), "beside clip")?;
        hold(lent.slice() == clip, "clip")?;
        result?;
        hold(self.file(number)? == clip, "file: not the clip")
    }

    /// The same with zeros. Only the library reads them, and nobody can write to them.
    pub fn fill_with_zeros(&mut self, number: u32, clip: &Zeros) -> Answer<()> {
        self.fill_with(number, clip.slice())?;
        let file = self.file(number)?;
        let same = file.len() == clip.slice().len() && file.iter().all(|byte| *byte == 0);
        hold(same, "file: not the clip")
    }

    pub fn rewrite(&mut self) -> Answer<()> {
        let [] = self.edit(|image, words, bytes, record, team, _| unsafe {
            call!(counter_rewrite(mut image, mut words, mut bytes, = record, = team))
        })?;
        Ok(())
    }

    // Parts of edits ------------------------------------------------------------------------

    /// A part of an edit: refused as the whole edit is, which is made on a copy of the image. The answer, and the
    /// image that the whole edit leaves.
    fn part<const N: usize>(
        &mut self,
        of_record: OfRecord,
        (part, whole): (OfFile<N>, OfFile<0>),
        numbers: [u32; 2],
    ) -> Answer<([u32; N], Vec<u8>)> {
        let mut made = (0, vec![]);
        let result = self.with_record(of_record, |image, words, bytes, record, team, answer| {
            let (mut its_image, mut its_record) = (image.to_vec(), *record);
            let (mut its_words, mut its_bytes) = (vec![0; words.len()], vec![0; bytes.len()]);
            let (i, w, b, r) = (&mut its_image, &mut its_words, &mut its_bytes, &mut its_record);
            made.0 = whole(i, w, b, r, team, numbers, &mut []);
            made.1 = its_image;
            part(image, words, bytes, record, team, numbers, answer)
        });
        let number = match &result {
            Ok(_) => 0,
            Err(Stop::Refused(number)) => *number,
            Err(_) => made.0,
        };
        hold(number == made.0, "part: not refused as the whole edit")?;
        Ok((result?, made.1))
    }

    /// The old table and the new one, and the header's FST size.
    fn of_table(&self, whole: &[u8]) -> Answer<[Range<usize>; 2]> {
        let size = |image: &[u8]| word(image, 0x428);
        let at = self.word(0x424)? as usize;
        let longer = size(&self.before)?.max(size(whole)?);
        Ok([at..at + longer as usize, 0x428..0x42c])
    }

    /// The copy. What it writes was free, and is one stretch no longer than the file; all else that the whole edit
    /// writes is the table, and zeros where the file was.
    pub fn copy(&mut self, edit: InParts, number: u32, to: u32) -> Answer<()> {
        let (file, space) = (self.entry(number), self.space_afresh());
        let parts = (edit.copy, edit.whole);
        let ([], whole) = self.part(OfRecord::Stays, parts, [number, to])?;
        let [_, _, offset, size] =
            file.or(Err(Stop::Dirty("copy: of no file")))?.map(|n| n as usize);
        let now = self.image.slice();
        let copied = changed(now, &self.before);
        hold(copied.len() <= size, "copy: longer than the file")?;
        let (_, free) = space?;
        hold(copied.is_empty() || is_free(&free, &copied), "copy: over used bytes")?;
        let [table, field] = self.of_table(&whole)?;
        let behind = [table, field, offset..offset + size];
        hold(same_but_in(now, &whole, behind), "copy: not the whole edit's")
    }

    /// The table, and what is left to be zeroed. It writes the whole edit's table and its size; what is left is the
    /// file's old place, or the end of it that the file has no more.
    pub fn table(&mut self, edit: InParts, number: u32, to: u32) -> Answer<[u32; 2]> {
        let file = self.entry(number);
        let parts = (edit.table, edit.whole);
        let (span, whole) = self.part(OfRecord::Moves, parts, [number, to])?;
        let now = self.image.slice();
        let [table, field] = self.of_table(&whole)?;
        for part in [&table, &field] {
            let same = now.get(part.clone()) == whole.get(part.clone());
            hold(same, "table: not the whole edit's")?;
        }
        hold(same_but_in(now, &self.before, [table, field]), "table: more than the table")?;
        let [_, _, old, had] = file.or(Err(Stop::Dirty("table: of no file")))?;
        let [_, _, new, has] = self.entry(number)?;
        let kept = if new == old { had.min(has) } else { 0 };
        let left = if kept < had { [old + kept, had - kept] } else { [0, 0] };
        hold(span == left, "table: span")?;
        Ok(span)
    }

    /// The zeros: written exactly where every byte of the span is free.
    pub fn zero(&mut self, offset: u32, size: u32) -> Answer<()> {
        let space = self.space_afresh();
        let result = self.call(Does::Zero, |lender, _: &mut [u32; 0]| {
            let (image, words) = (lender.image.slice_mut(), lender.words.slice_mut());
            unsafe { call!(counter_zero(mut image, mut words, = offset, = size)) }
        });
        let span = offset as usize..offset as usize + size as usize;
        if matches!(result, Ok(_) | Err(Stop::Refused(29))) {
            let (_, free) = space?;
            let due = span.is_empty() || is_free(&free, &span);
            hold(result.is_ok() == due, "zero: not where it is free")?;
        }
        let [] = result?;
        let now = self.image.slice();
        hold(same_but_in(now, &self.before, [span.clone()]), "zero: beside the span")?;
        let zeros = now.get(span.clone()).unwrap_or(&[]);
        hold(span.is_empty() || zeros.len() == span.len(), "zero: past the image")?;
        hold(zeros.iter().all(|byte| *byte == 0), "zero: not zero")
    }

    // An edit sheet -------------------------------------------------------------------------

    /// The lines of a sheet. Where it is refused at one, image and record are those that the lines before it leave as
    /// a sheet of their own, which all run.
    pub fn sheet(&mut self, sheet: &[u8]) -> Answer<()> {
        let (fresh, given, team) = self.taken()?;
        let (lent, mut record) = (Guarded::of(sheet), Guarded::of(&given.slots()));
        let mut line = Guarded::new(1);
        let (read, taken, slot) = (lent.slice(), record.slots(), line.slots());
        let result = self.call(Does::Sheet, |lender, _: &mut [u32; 0]| {
            let (image, words) = (lender.image.slice_mut(), lender.words.slice_mut());
            let bytes = lender.bytes.slice_mut();
            unsafe {
                call!(counter_sheet(
                    mut image, mut words, mut bytes, = taken, = team, in read, = slot
                ))
            }
        });
        let number = match result {
            Ok([]) => 0,
            Err(Stop::Refused(number)) => number,
            Err(stop) => return Err(stop),
        };
        let back = Record::of(*record.slots());
        self.record = self.record.map(|_| back);
        hold(record.margins_stay(), "beside record")?;
        hold(lent.margins_stay() && lent.slice() == sheet, "sheet")?;
        hold(line.margins_stay(), "beside line")?;
        let [line] = *line.slots();
        let count = number_at(sheet, 0).unwrap_or(0);
        hold(line <= count && (line == 0 || number != 0), "line")?;
        hold(line == 0 || number != 30, "line: of a sheet that is none")?;
        let ran = if number == 0 { count } else { line.saturating_sub(1) };
        let stays = self.image.slice() == &self.before[..];
        hold(ran > 0 || stays, "image")?;
        match fresh {
            Ok(before) => {
                let [used, largest] = self.totals_afresh()?;
                let cost = i64::from(used) - i64::from(before.used);
                hold(moved_along(given, back, (team, ran), cost, largest), "record")?;
            }
            Err(refused) => {
                hold(number == 30 || number == refused, "record: refused with another number")?;
                hold(line == 0 && back == given, "record")?;
            }
        }
        if number != 0 && ran > 0 {
            let first = first_lines(sheet, ran).ok_or(Stop::Dirty("line: in no sheet"))?;
            let (mut image, mut record, mut line) = (self.before.clone(), given.slots(), [0; 1]);
            let (mut words, mut bytes) = (vec![0; self.words.len()], vec![0; self.bytes.len()]);
            let (i, r, l) = (&mut image, &mut record, &mut line);
            let refused = unsafe {
                call!(counter_sheet(mut i, mut words, mut bytes, = r, = team, in first, = l))
            };
            hold(refused == 0 && line == [0], "line: one before it does not run")?;
            hold(self.image.slice() == image, "image: not as the lines before leave it")?;
            hold(back == Record::of(record), "record: not as the lines before leave it")?;
        }
        if number == 0 { Ok(()) } else { Err(Stop::AtLine(number, line)) }
    }

    // A new master --------------------------------------------------------------------------

    /// It takes no record. What is accepted opens, and the bytes behind its disc end stay.
    pub fn master(
        &mut self,
        disc_end: u32,
        game_code: [u8; 4],
        sizes: &[u32],
        paths: &[u8],
    ) -> Answer<()> {
        let mut lent_code = Guarded::of(&game_code);
        let (lent_sizes, lent_paths) = (Guarded::of(sizes), Guarded::of(paths));
        let (code, list, texts) = (lent_code.slots(), lent_sizes.slice(), lent_paths.slice());
        let result = self.call(Does::Edit, |lender, _: &mut [u32; 0]| {
            let (image, words) = (lender.image.slice_mut(), lender.words.slice_mut());
            let bytes = lender.bytes.slice_mut();
            unsafe {
                call!(counter_master(
                    mut image, mut words, mut bytes, = code, = disc_end, in list, in texts
                ))
            }
        });
        hold(lent_code.margins_stay() && lent_code.slice() == game_code, "game code")?;
        hold(lent_sizes.margins_stay() && lent_sizes.slice() == sizes, "sizes")?;
        hold(lent_paths.margins_stay() && lent_paths.slice() == paths, "paths")?;
        let [] = result?;
        let behind = disc_end as usize;
        hold(self.image.slice().get(behind..) == self.before.get(behind..), "behind the disc end")?;
        self.totals_afresh()?;
        Ok(())
    }

    // Every small table ---------------------------------------------------------------------

    /// How many tables there are, and their bytes, in a list as `lend_list` has it. Image, words and bytes
    /// have no part in it.
    pub fn lent_tables(&self, entries: u32) -> Answer<(u32, Vec<u8>)> {
        match self.list {
            Some(len) => fill_tables(entries, len.min(LONGEST_BYTES)),
            None => tables(entries),
        }
    }
}

/// The tables in a list of `len` bytes.
fn fill_tables(entries: u32, len: usize) -> Answer<(u32, Vec<u8>)> {
    let (mut list, mut answer) = (Guarded::<u8>::new(len), Guarded::new(1));
    let bytes = list.slice_mut();
    let cause = unsafe { call!(counter_small_tables(= entries, mut bytes, = answer.slots())) };
    let result = answered(cause, &mut answer);
    let used = result.as_ref().map_or(Some(0), |[number]| bytes_of_tables(entries, *number));
    let used = used.filter(|used| *used <= len).ok_or(Stop::Dirty("list: more than it holds"))?;
    hold(list.stays_from(used), "list")?;
    let [number] = result?;
    Ok((number, list.slice()[..used].to_vec()))
}

/// Bytes of so many tables; none where no table has so many entries, or memory cannot hold them.
fn bytes_of_tables(entries: u32, number: u32) -> Option<usize> {
    let each = u64::from(entries).checked_mul(14)?.checked_sub(2)?;
    each.checked_mul(number.into())?.try_into().ok()
}

/// The tables in a longer list than they take; and they fit one of their length and no shorter one.
fn tables(entries: u32) -> Answer<(u32, Vec<u8>)> {
    let told = fill_tables(entries, ENOUGH_BYTES)?;
    hold(fill_tables(entries, told.1.len())? == told, "tables: exact list")?;
    hold(!told.1.is_empty(), "tables: none")?;
    let short = fill_tables(entries, told.1.len() - 1);
    hold(matches!(short, Err(Stop::Refused(9))), "tables: short list")?;
    Ok(told)
}

#[cfg(test)]
mod tests {
    use super::*;

    /// What an accepted edit must not leave: no header, no table, more entries than there may be, a
    /// table that does not open.
    #[test]
    fn a_broken_header_is_dirty() {
        let mut header = vec![0; HEADER_SIZE + 12];
        header[0x427] = 0x40;
        let mut images = vec![vec![], header[..0x426].to_vec(), header];
        for table in [[0xff; 4], [0, 0, 4, 0x45], [0, 0, 4, 0x40]] {
            let mut image = images[2].clone();
            image[0x424..0x428].copy_from_slice(&table);
            image[0x448..].fill(0xff);
            images.push(image);
        }
        for image in images {
            let mut lender = Lender::new();
            lender.image = Guarded::of(&image);
            assert!(matches!(lender.totals_afresh(), Err(Stop::Dirty(_))), "{}", image.len());
        }
    }

    /// What differs lies in these ranges, in any order, over each other or past the end.
    #[test]
    fn what_changed_is_told() {
        let before = [0; 8];
        for (places, told) in [(&[][..], 0..0), (&[0], 0..1), (&[7], 7..8), (&[2, 5], 2..6)] {
            let mut now = before;
            places.iter().for_each(|place| now[*place] = 1);
            assert_eq!(changed(&now, &before), told);
            assert!(same_but_in(&now, &before, [told.clone()]));
            assert!(same_but_in(&now, &before, [9..9, told.clone(), 0..0]));
            assert!(same_but_in(&now, &before, [3..99, told.clone(), 1..4]));
            for place in places {
                let (first, behind) = (0..*place, place + 1..99);
                assert!(!same_but_in(&now, &before, [behind, first]));
            }
            assert_eq!(same_but_in(&now, &before, [1 << 40..1 << 41]), told.is_empty());
        }
        let free = [[2, 3], [6, 1]];
        assert!(is_free(&free, &(2..5)) && is_free(&free, &(6..7)));
        assert!(!is_free(&free, &(1..3)) && !is_free(&free, &(4..7)) && !is_free(&free, &(6..8)));
    }

    /// Along several edits what is taken may be more than their cost.
    #[test]
    fn a_record_moves_along() {
        fn of(used: u32, largest: u32, taken: u32, edits: u32) -> Record {
            let mut teams = [Team::default(); TEAMS];
            teams[9] = Team { limit: 90, share: 8, taken, edits };
            Record { used, largest, teams }
        }
        let given = of(50, 7, 10, 3);
        let after = |used, taken, edits| of(used, 8, taken, edits);
        let holds = |edits, cost, back| moved_along(given, back, (9, edits), cost, 8);
        assert!(holds(0, 0, given) && !holds(0, 0, after(50, 10, 3)));
        for (edits, cost, back, right) in [
            (1, 6, after(56, 16, 4), true),
            (1, 6, after(56, 17, 4), false),
            (1, -12, after(38, 0, 4), true),
            (2, 6, after(56, 16, 5), true),
            (2, 6, after(56, 18, 5), true),
            (2, 6, after(56, 15, 5), false),
            (2, 6, after(56, 16, 4), false),
            (2, 6, after(57, 16, 5), false),
            (2, -12, after(38, 0, 5), true),
            (2, -12, after(38, 2, 5), true),
            (2, -8, after(42, 0, 5), false),
        ] {
            assert_eq!(holds(edits, cost, back), right, "{edits} {cost}");
        }
        let mut other = after(56, 16, 5);
        other.teams[8].taken = 1;
        assert!(!holds(2, 6, other));
        assert!(moved_along(given, given, (16, 0), 0, 8));
        assert!(!moved_along(given, given, (16, 1), 0, 7));
        assert!(!moved_along(given, after(0, 0, 4), (9, 1), -51, 8));
    }

    /// The first lines of a sheet, wherever it has them.
    #[test]
    fn lines_that_stand_first() {
        let bytes = |words: &[u32]| -> Vec<u8> {
            words.iter().flat_map(|word| word.to_be_bytes()).collect()
        };
        let sheet = bytes(&[2, 20, 16, 4, 0x6100_6200, 3, 0, 7, 0, 4, 2, 0, 9]);
        let first = bytes(&[1, 16, 32, 4, 3, 0, 7, 0, 0x6100_6200]);
        assert_eq!(first_lines(&sheet, 1), Some(first));
        let both = bytes(&[2, 16, 48, 4, 3, 0, 7, 0, 4, 2, 0, 9, 0x6100_6200]);
        assert_eq!(first_lines(&sheet, 2), Some(both));
        assert_eq!(first_lines(&sheet, 3), None);
        assert_eq!(first_lines(&sheet[..51], 2), None);
        assert_eq!(first_lines(&sheet[..15], 0), None);
    }

    /// Used bytes move as the image's, the team's taken bytes too, but to 0 at least; the others stay.
    #[test]
    fn a_record_moves() {
        const MOST: u32 = u32::MAX;
        let team = |k| Team { limit: k, share: k + 1, taken: k, edits: k + 3 };
        let full = Team { taken: MOST, edits: MOST, ..Team::default() };
        let mut given =
            Record { used: 5, largest: 7, teams: std::array::from_fn(|k| team(k as u32)) };
        given.teams[1] = full;
        for (cost, used, taken) in [(6, 11, 15), (0, 5, 9), (-5, 0, 4)] {
            let mut wanted = Record { used, largest: 8, ..given };
            wanted.teams[9] = Team { taken, edits: 13, ..team(9) };
            assert_eq!(moved(given, 9, cost, 8), Some(wanted));
        }
        let mut wanted = Record { used: 0, largest: 8, ..given };
        wanted.teams[3] = Team { taken: 0, edits: 7, ..team(3) };
        assert_eq!(moved(given, 3, -5, 8), Some(wanted));
        // Used bytes below 0 and above the most; a count, taken bytes above it; no such team.
        for (used, team, cost) in
            [(4, 9, -5), (MOST, 9, 1), (5, 1, 0), (5, 1, 1), (5, 16, 0), (5, MOST, 0)]
        {
            assert_eq!(moved(Record { used, ..given }, team, cost, 8), None);
        }
    }
}
