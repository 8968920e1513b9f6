//! What Counter has to answer, from the original's answer and the rules, and which entry of
//! docs/DIFFERENCES.md the two differ under.

use crate::calls::{Call, hex, unhex};
use crate::codec::Codec;
use crate::rules::{self, Bound, Change, Entry, Record, Refusal, TEAMS, Tree, word};
use std::fmt::Write as _;

/// The entries of docs/DIFFERENCES.md that a comparison can meet.
#[derive(Clone, Copy, PartialEq, Eq, PartialOrd, Ord, Debug)]
pub enum Class {
    NameWithoutZero,
    NameBehindZero,
    Bounds,
    Sums,
    TableEnd,
    Regions,
    RegionsFirst,
    NestedNext,
    CutEntry,
    // Of a text with several of these it is the first.
    NotText,
    UnknownPair,
    UnwrittenPair,
    OtherPair,
    NameBytes,
    Limits,
    Alignment,
    MaxRegion,
    HalfDone,
    TableOverFile,
    DolSum,
    ProgramHeader,
    ProgramPlace,
    ProgramFree,
    ProgramSpace,
    ProgramEdits,
    LongClip,
    Totals,
    Teams,
    Maximum,
}

pub const CLASSES: [(Class, &str); 29] = [
    (Class::NameWithoutZero, "Game name without a zero byte"),
    (Class::NameBehindZero, "Game name with bytes behind its first zero byte"),
    (Class::Bounds, "FST offset below 0x440; image shorter than the disc end"),
    (Class::Sums, "Disc end or table end above 2^32 - 1"),
    (Class::TableEnd, "Table end past the disc end"),
    (Class::Regions, "Files that overlap, pass the disc end or lie in the table"),
    (Class::RegionsFirst, "Such files together with a cause that comes before 14 (9 to 13, 24)"),
    (Class::NestedNext, "A nested next past its parent's"),
    (Class::CutEntry, "An entry that the table cuts off, with an unknown kind"),
    (Class::NotText, "Names and paths with a lead byte without its trail, 0xA0 or 0xFD to 0xFF"),
    (Class::UnknownPair, "Names and paths with pairs that the codec does not read"),
    (Class::UnwrittenPair, "Names and paths with pairs that the codec reads and does not write"),
    (Class::OtherPair, "Names and paths with pairs that the codec writes as others"),
    (Class::NameBytes, "Names with bytes below 0x20, 0x7F or 0x80"),
    (
        Class::Limits,
        "Entries over 16,384, texts over 1,048,576 bytes, depth over 64, paths over 1,024 bytes, \
         little memory",
    ),
    (Class::Alignment, "Alignment 0; alignment 3"),
    (
        Class::MaxRegion,
        "`max_region_size` with offset + size above 2^32 - 1; alignment sums above it",
    ),
    (Class::HalfDone, "A move or a growth whose new table does not fit"),
    (
        Class::TableOverFile,
        "A table that grows over the place a file was just moved to, or grown in",
    ),
    (Class::DolSum, "DOL sum above 2^32 - 1"),
    (
        Class::ProgramHeader,
        "A program whose header passes the image, or with a sum above 2^32 - 1, at opening",
    ),
    (Class::ProgramPlace, "A program across the table, over a file or past the disc end"),
    (Class::ProgramFree, "Free regions and used total with a program behind the table"),
    (Class::ProgramSpace, "Largest sizes and allocation with a program behind the table"),
    (Class::ProgramEdits, "Edits that would take some of a program behind the table"),
    (Class::LongClip, "A clip above 2^32 - 1 bytes"),
    (Class::Totals, "A record whose used bytes or edit count would leave 0 to 2^32 - 1"),
    (
        Class::Teams,
        "A team above 15, one that would pass its limit, or one that leaves less free than the \
         other teams' shares",
    ),
    (Class::Maximum, "A new table above the stated maximum"),
];

/// What an edit takes beside its arguments: a record, and the team that it carries.
#[derive(Clone, Copy, Debug)]
pub struct Account {
    pub record: Record,
    pub team: u32,
}

/// A call and what it is made on.
pub struct Given<'a> {
    pub image: &'a [u8],
    /// What opening says by the rules, with the words lent.
    pub opened: &'a Result<Tree, Refusal>,
    pub call: &'a Call,
    pub words: usize,
    pub bytes: usize,
    /// What an edit takes; none: a fresh record of the image, which meets neither 27, 28 nor 25.
    pub account: Option<Account>,
    pub codec: &'a Codec,
    /// The entry for the image's names, if some do not come back.
    pub others: Option<Class>,
}

/// The answer that Counter has to give; the entry that the original differs under.
#[derive(Debug)]
pub struct Verdict {
    pub expected: String,
    pub class: Option<Class>,
}

/// The number for a kind of the original's errors.
fn number(kind: &str) -> Option<u32> {
    Some(match kind {
        "Io:UnexpectedEof" | "Text:Other:Io:UnexpectedEof" => 1,
        "WiiNotSupported" => 2,
        "InvalidMagic" => 3,
        "Fst:Io:UnexpectedEof" => 5,
        "Fst:UnrecognizedKind" => 6,
        "Fst:RootIsNotDirectory" => 7,
        "Fst:StringTable:MissingNullTerminator" => 8,
        "Fst:InvalidNextIndex" => 10,
        "Fst:StringTable:InvalidOffset" => 11,
        "Fst:Decode" | "Fst:Encode" => 12,
        "Fst:UnsafeName" => 13,
        "Oracle:NoSuchEntry" => 15,
        "Fst:ExpectedFile" => 16,
        "Fst:ExpectedDirectory" => 17,
        "Fst:NotFound" => 18,
        "Fst:AlreadyExists" => 19,
        "OverlappingMove" => 20,
        "NotEnoughSpace" => 21,
        "Io:InvalidInput" => 23,
        "Dol:Io:UnexpectedEof" => 24,
        _ => return None,
    })
}

/// The original's answer in Counter's form, as far as it has one.
pub fn mapped(answer: &str) -> String {
    let mut words = answer.split(' ');
    match words.next() {
        Some("err") => {
            let kind = words.next().unwrap_or("");
            number(kind).map_or_else(|| format!("err {kind}"), |number| format!("err {number}"))
        }
        Some("panic") => "panic".into(),
        _ => answer.replace("=err:Io:InvalidInput", "=err:23"),
    }
}

/// The header's fields as the `header` command writes them.
fn header_line(image: &[u8]) -> String {
    const FIELDS: [(&str, usize, usize, bool); 21] = [
        ("game_code", 0, 4, false),
        ("maker_code", 4, 2, false),
        ("disc_id", 6, 1, true),
        ("version", 7, 1, true),
        ("audio_streaming", 8, 1, true),
        ("stream_buffer_size", 9, 1, true),
        ("unused_00a", 0x0a, 14, false),
        ("wii_magic", 0x18, 4, true),
        ("gcn_magic", 0x1c, 4, true),
        ("game_name", 0x20, 0x3e0, false),
        ("debug_monitor_offset", 0x400, 4, true),
        ("debug_monitor_addr", 0x404, 4, true),
        ("unused_408", 0x408, 0x18, false),
        ("dol_offset", 0x420, 4, true),
        ("fst_offset", 0x424, 4, true),
        ("fst_size", 0x428, 4, true),
        ("fst_max_size", 0x42c, 4, true),
        ("user_position", 0x430, 4, true),
        ("user_size", 0x434, 4, true),
        ("disc_size", 0x438, 4, true),
        ("unused_43c", 0x43c, 4, true),
    ];
    let mut line = String::from("ok");
    for (name, at, len, is_number) in FIELDS {
        let field = &image[at..at + len];
        if is_number {
            let value = field.iter().fold(0u32, |n, b| n << 8 | u32::from(*b));
            write!(line, " {name}={value}").unwrap();
        } else {
            let len = field.iter().rposition(|b| *b != 0).map_or(0, |i| i + 1);
            write!(line, " {name}={}", hex(&field[..len])).unwrap();
        }
    }
    line + " written=same"
}

/// What is odd about the game name.
pub fn odd_name(image: &[u8]) -> Option<Class> {
    let name = image.get(0x20..0x400)?;
    match name.iter().position(|b| *b == 0) {
        None => Some(Class::NameWithoutZero),
        Some(end) if name[end..].iter().any(|b| *b != 0) => Some(Class::NameBehindZero),
        Some(_) => None,
    }
}

fn refused(number: u32) -> String {
    format!("err {number}")
}

/// Whether the original meets a pair that it does not read before it comes to what the rules refuse.
fn unknown_before(codec: &Codec, image: &[u8], refusal: Refusal) -> bool {
    let last = match refusal.number {
        10 | 13 => refusal.entry,
        11 => refusal.entry - 1,
        _ => usize::MAX,
    };
    let mut names = rules::names(image).into_iter().take(last);
    names.any(|name| codec.class(&image[name]) == Some(Class::UnknownPair))
}

/// The entry for an image that the rules refuse, where the original answers `answer` to the call.
fn class_of_refusal(given: &Given, refusal: Refusal, answer: &str) -> Option<Class> {
    let (image, call) = (given.image, given.call);
    if answer == "err Text:NoNulTerminator" {
        return (odd_name(image) == Some(Class::NameWithoutZero)).then_some(Class::NameWithoutZero);
    }
    let entry = refusal.entry;
    let files_are_bad = || rules::files_are_bad(image);
    if matches!(refusal.number, 9..=13 | 24) && answer == "panic" && files_are_bad() {
        return Some(Class::RegionsFirst);
    }
    if matches!(refusal.number, 10 | 11 | 13 | 14 | 24)
        && answer == "err 12"
        && unknown_before(given.codec, image, refusal)
    {
        return Some(Class::UnknownPair);
    }
    // The original opens whatever the program is; these calls panic on an image that it opens.
    let opened =
        opens(answer) || answer == "panic" && matches!(call, Call::Alloc(..) | Call::MaxRegion(..));
    match refusal.number {
        4 => Some(match rules::bounds(image).unwrap() {
            Bound::FstOffset | Bound::ImageShort => Class::Bounds,
            Bound::DiscEnd => Class::Sums,
            Bound::TableEnd => {
                let end = word(image, 0x424) as u64 + word(image, 0x428) as u64;
                if end > u32::MAX as u64 { Class::Sums } else { Class::TableEnd }
            }
        }),
        5 => {
            let at = word(image, 0x424) as usize + 12 * entry;
            let inside = 12 * entry < word(image, 0x428) as usize;
            (answer == "err 6" && inside && image[at] > 1).then_some(Class::CutEntry)
        }
        9 => Some(Class::Limits),
        10 => refusal.past_parent.then_some(Class::NestedNext),
        12 => {
            let name = rules::name(image, entry).unwrap();
            given.codec.reads(&image[name]).then_some(Class::NameBytes)
        }
        14 if files_are_bad() => (answer == "panic" || opened).then_some(Class::Regions),
        14 => opened.then_some(Class::ProgramPlace),
        24 if answer == "panic" && matches!(call, Call::Dol | Call::DolWindow(_)) => {
            Some(Class::DolSum)
        }
        24 => opened.then_some(Class::ProgramHeader),
        _ => None,
    }
}

/// Whether an answer, in Counter's form, shows that the image was opened; a list is skipped then if a name
/// of it cannot be written.
fn opens(answer: &str) -> bool {
    let number = answer.strip_prefix("err ").and_then(|number| number.parse::<u32>().ok());
    answer.starts_with("ok") || answer == "skip" || number.is_some_and(|number| number > 14)
}

/// The new directories that a path makes, as the length of each name and its depth; none if the
/// path leads into trouble.
fn made(tree: &Tree, start: usize, path: &[u8]) -> Option<Vec<(usize, usize)>> {
    // Places in the old tree are its numbers, new ones go on behind.
    let old = tree.entries.len();
    let mut new: Vec<(usize, &[u8], usize)> = vec![]; // parent, name, depth
    let (mut at, mut stack) = (start, vec![]);
    for part in rules::components(path) {
        if at < old && !tree.entries[at].directory {
            return None;
        }
        match part {
            b"" | b"." => (),
            b".." => at = stack.pop()?,
            _ => {
                stack.push(at);
                let found = new.iter().position(|(parent, name, _)| *parent == at && *name == part);
                let found = found
                    .map(|i| old + i)
                    .or_else(|| if at < old { tree.child(at, part) } else { None });
                at = found.unwrap_or_else(|| {
                    let depth = if at < old { tree.depth(at) } else { new[at - old].2 };
                    new.push((at, part, depth + 1));
                    old + new.len() - 1
                });
            }
        }
    }
    Some(new.iter().map(|(_, name, depth)| (name.len(), *depth)).collect())
}

/// The tree that an edit makes: entries, texts, depth of its new directories.
pub struct New {
    pub entries: usize,
    pub texts: usize,
    pub depth: usize,
}

impl New {
    pub fn of(tree: &Tree, call: &Call) -> Option<Self> {
        let mut new = Self { entries: tree.entries.len(), texts: tree.texts(), depth: 0 };
        match call {
            Call::InsertFile(_, name) => {
                new.entries += 1;
                new.texts += name.len() + 1;
            }
            Call::InsertDirectory(parent, name) => {
                new.entries += 1;
                new.texts += name.len() + 1;
                new.depth = tree.depth(*parent as usize) + 1;
            }
            Call::MakeDirectories(start, path) => {
                for (length, depth) in made(tree, *start as usize, path)? {
                    new.entries += 1;
                    new.texts += length + 1;
                    new.depth = new.depth.max(depth);
                }
            }
            _ => (),
        }
        Some(new)
    }

    /// 12 for the root, and for each further entry 12, its name and one.
    pub fn size(&self) -> u64 {
        (12 * self.entries + self.texts) as u64
    }

    /// 9, by the tree's limits or by the memory lent.
    pub fn past_limits(&self, words: usize, bytes: usize) -> bool {
        self.past_tree_limits() || words < 4 * (self.entries + 2) || (bytes as u64) < self.size()
    }

    pub fn past_tree_limits(&self) -> bool {
        self.entries > rules::ENTRIES || self.texts > rules::TEXTS || self.depth > rules::DEPTH
    }
}

fn file(tree: &Tree, number: u32) -> Option<&Entry> {
    tree.entries.get(number as usize).filter(|entry| !entry.directory)
}

/// A file that gets its present size: no table is measured or written.
pub fn keeps_size(tree: &Tree, call: &Call) -> bool {
    let same = |(number, size)| file(tree, number).is_some_and(|file| file.size as u64 == size);
    call.resizes().is_some_and(same)
}

/// The place an edit gives to its file: none if there is none, or no file.
pub fn new_place(tree: &Tree, call: &Call) -> Option<(u64, u64)> {
    if let Call::Move(number, offset) = call {
        let size = file(tree, *number)?.size as u64;
        return (size == 0 || tree.most(*offset as u64, 0) >= size)
            .then_some((*offset as u64, size));
    }
    let Some((number, size)) = call.resizes() else { return Some((0, 0)) };
    let entry = file(tree, number)?;
    let (offset, old) = (entry.offset as u64, entry.size as u64);
    if size <= old || size <= tree.most(offset, old) {
        return Some((offset, size));
    }
    Some((tree.place(size, rules::ALIGN)?.0, size))
}

/// The table's end and all other used regions after an edit, by its new table and the place that it
/// gives to its file; none if it has no place, or its path leads into trouble. An edit that is refused
/// may have regions that overlap.
fn regions_after(tree: &Tree, call: &Call) -> Option<(u64, Vec<(u64, u64)>)> {
    if call.target().is_some_and(|target| target as usize >= tree.entries.len()) {
        return None;
    }
    let (mut table_end, mut moved) = (tree.table_end(), None);
    if !keeps_size(tree, call) {
        table_end = tree.fst_offset + New::of(tree, call)?.size();
        let place = new_place(tree, call)?;
        let of_file = matches!(call, Call::Move(..)) || call.resizes().is_some();
        moved = call.target().filter(|_| of_file).map(|number| (number as usize, place));
    }
    let files = tree.entries.iter().enumerate().filter(|(_, entry)| !entry.directory);
    let place = |(number, file): (usize, &Entry)| match moved {
        Some((edited, place)) if edited == number => place,
        _ => (file.offset as u64, file.size as u64),
    };
    let mut regions: Vec<(u64, u64)> = files.map(place).filter(|(_, size)| *size > 0).collect();
    regions.extend(tree.behind());
    Some((table_end, regions))
}

/// The used bytes after an edit; none as above.
pub fn used_after(tree: &Tree, call: &Call) -> Option<u64> {
    let (table_end, regions) = regions_after(tree, call)?;
    Some(table_end + regions.iter().map(|(_, size)| size).sum::<u64>())
}

/// What an edit that is accepted but for its record does to the image.
fn change(tree: &Tree, call: &Call) -> Result<Change, String> {
    let (table_end, regions) =
        regions_after(tree, call).ok_or("accepted, and there is no place")?;
    let after = used_after(tree, call).unwrap();
    let free =
        rules::free(regions, table_end, tree.disc_end).map_err(|_| "accepted over a file")?;
    let largest = rules::largest(&free);
    let free = free.iter().map(|(_, size)| size).sum();
    Ok(Change { before: tree.used(), after, free, largest })
}

/// What such an edit makes of its record, or the number that it is refused with.
pub fn record_after(
    tree: &Tree,
    call: &Call,
    account: Account,
) -> Result<Result<Record, u32>, String> {
    let team = account.team as usize;
    if team >= TEAMS {
        return Ok(Err(15));
    }
    Ok(account.record.moved(team, change(tree, call)?))
}

/// A growth that finds another place, on an image with a program behind its table: the original
/// would grow over the program, or look for a place in it, so it is told the place. A fill is then
/// asked for once more, of the file's own size.
pub fn told_where(tree: &Tree, call: &Call) -> Option<String> {
    let (number, _) = call.resizes()?;
    tree.behind()?;
    let file = file(tree, number)?;
    let (place, size) = new_place(tree, call)?;
    let (offset, old) = (file.offset as u64, file.size as u64);
    let stays = size <= old || size <= tree.most(offset, old);
    (!stays).then(|| format!("place {number} {place} {size}"))
}

/// An edit of an image with a program behind its table, which the original takes for free space:
/// places and the table's room are judged here, all else by the original. `answer` is the original's
/// on the place that it was told, if it was told one.
fn judge_beside_program(tree: &Tree, given: &Given, answer: &str) -> Result<Verdict, String> {
    let told = mapped(answer);
    let same = |expected: String| Ok(Verdict { expected, class: None });
    let place = new_place(tree, given.call);
    // A growth without a place is 21 before 20.
    let nowhere = place.is_none() && given.call.resizes().is_some() && told == "err 20";
    if told.starts_with("err ") && told != "err 21" && !nowhere {
        return match answer.ends_with("changed") {
            true => Err("refused by its own number, and the image changed".into()),
            false => same(told),
        };
    }
    if keeps_size(tree, given.call) {
        return same(told);
    }
    let new = New::of(tree, given.call).ok_or("a path with trouble, and accepted or 21")?;
    if place.is_some() && new.past_limits(given.words, given.bytes) {
        return Ok(Verdict { expected: refused(9), class: Some(Class::Limits) });
    }
    let fits = new.size() <= tree.most(tree.fst_offset, tree.fst_size);
    let over = place.is_some_and(|(at, size)| size > 0 && tree.fst_offset + new.size() > at);
    if place.is_some() && fits && !over {
        return match told.starts_with("ok") {
            true => same(told),
            false => Err("no space, though place and table have it".into()),
        };
    }
    let class = match told.as_str() {
        "err 21" => answer.ends_with("changed").then_some(Class::HalfDone),
        "panic" if over => Some(Class::TableOverFile),
        "panic" if place.is_some() => return Err("a panic that is on no list".into()),
        _ => Some(Class::ProgramEdits),
    };
    Ok(Verdict { expected: refused(21), class })
}

/// An edit of an image that opens. The original's answer says too whether its refusal left the
/// image changed.
fn judge_edit(tree: &Tree, given: &Given, answer: &str) -> Result<Verdict, String> {
    let told = mapped(answer);
    let same = |expected: String| Ok(Verdict { expected, class: None });
    let limits = || Ok(Verdict { expected: refused(9), class: Some(Class::Limits) });
    if keeps_size(tree, given.call) {
        return same(told);
    }
    if told.starts_with("ok") {
        let new = New::of(tree, given.call).ok_or("accepted along a path with trouble")?;
        return if new.past_limits(given.words, given.bytes) { limits() } else { same(told) };
    }
    if told == "err 21" && new_place(tree, given.call).is_none() {
        if answer.ends_with("changed") {
            return Err("no place, and the image changed".into());
        }
        return same(told);
    }
    if told != "err 21" && told != "panic" {
        return if answer.ends_with("changed") {
            Err("refused by its own number, and the image changed".into())
        } else {
            same(told)
        };
    }
    // The table does not fit, or only over the file's new place.
    let new = New::of(tree, given.call).ok_or("a path with trouble, and the table's 21")?;
    let (offset, size) = new_place(tree, given.call).ok_or("no place, and a panic")?;
    let fits = new.size() <= tree.most(tree.fst_offset, tree.fst_size);
    if told == "panic" {
        if !fits || size == 0 || tree.fst_offset + new.size() <= offset {
            return Err("a panic that is on no list".into());
        }
        if new.past_limits(given.words, given.bytes) {
            return limits();
        }
        return Ok(Verdict { expected: refused(21), class: Some(Class::TableOverFile) });
    }
    if fits {
        return Err("no space, though place and table have it".into());
    }
    if new.past_limits(given.words, given.bytes) {
        return limits();
    }
    let class = answer.ends_with("changed").then_some(Class::HalfDone);
    Ok(Verdict { expected: told, class })
}

/// A clip above 2^32 - 1 bytes is 21, behind 15 and 16; the original panics before it looks at the
/// entry.
fn judge_long_clip(tree: &Tree, number: u32, answer: &str) -> Result<Verdict, String> {
    let expected = match tree.entries.get(number as usize) {
        None => refused(15),
        Some(entry) if entry.directory => refused(16),
        Some(_) => refused(21),
    };
    // 15 is the driver's own.
    if mapped(answer) == expected && expected == refused(15) {
        return Ok(Verdict { expected, class: None });
    }
    match answer {
        "panic same" => Ok(Verdict { expected, class: Some(Class::LongClip) }),
        _ => Err("a clip above 2^32 - 1 bytes, and no panic".into()),
    }
}

type Regions = Vec<(u64, u64)>;

/// The original's free regions after the program is taken out of them.
fn without(mut regions: Regions, (at, size): (u64, u64)) -> Result<Regions, String> {
    let end = at + size;
    let holds = |(start, len): &(u64, u64)| *start <= at && end <= start + len;
    let i =
        regions.iter().position(holds).ok_or("the program is not in the original's free list")?;
    let (start, len) = regions[i];
    let parts = [(start, at - start), (end, start + len - end)];
    regions.splice(i..=i, parts.into_iter().filter(|(_, size)| *size > 0));
    Ok(regions)
}

/// The original's listing after the program is taken out of it: the used total, and the regions.
fn listing_without(listing: &[u8], program: (u64, u64)) -> Result<Vec<u8>, String> {
    // Byte by byte, whatever the names hold.
    let text: String = listing.iter().map(|byte| char::from(*byte)).collect();
    let number = |word: Option<&str>| -> Result<u64, String> {
        word.and_then(|word| word.parse().ok()).ok_or_else(|| "a listing".into())
    };
    let (mut out, mut regions) = (String::new(), vec![]);
    for line in text.split_terminator('\n') {
        let mut words = line.split(' ');
        match words.next() {
            Some("total") => {
                let (total, used) = (number(words.next())?, number(words.nth(1))?);
                writeln!(out, "total {total} used {}", used + program.1).unwrap();
            }
            Some("r") => regions.push((number(words.next())?, number(words.next())?)),
            _ => writeln!(out, "{line}").unwrap(),
        }
    }
    for (at, size) in without(regions, program)? {
        writeln!(out, "r {at} {size}").unwrap();
    }
    Ok(out.chars().map(|byte| byte as u8).collect())
}

/// The listing that Counter has to give after an edit, from the original's answer.
pub fn listing_after(answer: &str, image_after: &Tree) -> Result<String, String> {
    match (image_after.behind(), answer.strip_prefix("ok ")) {
        (Some(program), Some(text)) => {
            Ok(format!("ok {}", hex(&listing_without(&unhex(text), program)?)))
        }
        _ => Ok(answer.into()),
    }
}

/// Regions as `free` writes them.
fn regions_of(told: &str) -> Regions {
    let words: Vec<u64> = told.split([' ', ':']).skip(1).map(|n| n.parse().unwrap()).collect();
    words.chunks(2).map(|c| (c[0], c[1])).collect()
}

/// The record that is made of an image with these free regions: what is not free is used.
fn record_by(regions: &Regions, disc_end: u64, limits: &[u32], shares: &[u32]) -> String {
    let used = disc_end - regions.iter().map(|(_, size)| size).sum::<u64>();
    format!("ok {}", Record::made(used, rules::largest(regions), limits, shares))
}

/// What the original says of free space, on an image with a program behind its table, which it
/// takes for free: its free list is compared without the program's bytes, and the rest of it not at
/// all.
fn judge_space(
    tree: &Tree,
    given: &Given,
    told: &str,
    program: (u64, u64),
) -> Result<Option<Verdict>, String> {
    if told == "panic" || told.starts_with("err") && told != "err 21" {
        return Ok(None);
    }
    let numbers = || told.split([' ', ':']).skip(1).map(|n| n.parse::<u64>().unwrap());
    let differs = |expected: String, class| {
        let class = (expected != told).then_some(class);
        Ok(Some(Verdict { expected, class }))
    };
    match given.call {
        Call::Free | Call::MakeRecord(..) => {
            let regions = without(regions_of(told), program)?;
            if regions != tree.free {
                return Err("the original's free list without the program".into());
            }
            if let Call::MakeRecord(limits, shares) = given.call {
                let [theirs, expected] = [&regions_of(told), &regions]
                    .map(|r| record_by(r, tree.disc_end, limits, shares));
                let class = (expected != theirs).then_some(Class::ProgramFree);
                return Ok(Some(Verdict { expected, class }));
            }
            let words: Vec<String> = regions.iter().map(|(at, n)| format!(" {at}:{n}")).collect();
            differs(format!("ok{}", words.concat()), Class::ProgramFree)
        }
        Call::Used => {
            let used = numbers().sum::<u64>() + program.1;
            if used != tree.used() {
                return Err("the original's used total and the program".into());
            }
            differs(format!("ok {used}"), Class::ProgramFree)
        }
        Call::Listing => differs(listing_after(told, tree)?, Class::ProgramFree),
        Call::MaxRegion(offset, size) => {
            let most = tree.most(*offset as u64, *size as u64);
            differs(format!("ok {most}"), Class::ProgramSpace)
        }
        Call::MaxFile(number) => {
            let file = &tree.entries[*number as usize];
            let most = tree.most(file.offset as u64, file.size as u64);
            differs(format!("ok {most}"), Class::ProgramSpace)
        }
        Call::Alloc(size, align) => differs(
            match tree.place(*size as u64, *align as u64) {
                Some((offset, rest)) => format!("ok {offset} {rest}"),
                None => refused(21),
            },
            Class::ProgramSpace,
        ),
        _ => Ok(None),
    }
}

fn judge_look(tree: &Tree, given: &Given, answer: &str) -> Result<Verdict, String> {
    let told = mapped(answer);
    let differs = |expected: String, class| Ok(Verdict { expected, class: Some(class) });
    match given.call {
        Call::Alloc(_, align) if !align.is_power_of_two() => {
            return differs(refused(22), Class::Alignment);
        }
        Call::Alloc(size, align) if told == "panic" => {
            let align = *align as u64;
            if tree.free.iter().all(|(at, _)| at + align - 1 <= u32::MAX as u64) {
                return Err("a panic that is on no list".into());
            }
            let expected = match tree.place(*size as u64, align) {
                Some((offset, rest)) => format!("ok {offset} {rest}"),
                None => refused(21),
            };
            return differs(expected, Class::MaxRegion);
        }
        Call::MaxRegion(offset, size) if told == "panic" => {
            if offset.checked_add(*size).is_some() {
                return Err("a panic that is on no list".into());
            }
            let most = tree.most(*offset as u64, *size as u64);
            return differs(format!("ok {most}"), Class::MaxRegion);
        }
        Call::Dol | Call::DolWindow(_) => {
            let at = word(given.image, 0x420) as usize;
            if let Some(header) = given.image.get(at..at + 0xe4) {
                let past = |i: usize| {
                    word(header, 4 * i).checked_add(word(header, 4 * (36 + i))).is_none()
                };
                if (0..18).any(past) {
                    return differs(refused(24), Class::DolSum);
                }
            }
        }
        _ => (),
    }
    if told == "panic" || told == "huge" || told.starts_with("usage") {
        return Err("an answer that is on no list".into());
    }
    if let Some(program) = tree.behind()
        && let Some(verdict) = judge_space(tree, given, &told, program)?
    {
        return Ok(verdict);
    }
    if let Call::MakeRecord(limits, shares) = given.call
        && told.starts_with("ok")
    {
        let regions = regions_of(&told);
        if regions != tree.free {
            return Err("the original's free list".into());
        }
        let expected = record_by(&regions, tree.disc_end, limits, shares);
        return Ok(Verdict { expected, class: None });
    }
    Ok(Verdict { expected: told, class: None })
}

/// Whether an edit that is answered `expected` is refused for its table's place, and not for its file's.
pub fn no_room(tree: &Tree, call: &Call, expected: &str) -> bool {
    expected == "err 21" && call.edits() && new_place(tree, call).is_some()
}

/// Whether an edit writes a table that is larger than the image allows: the new one, as it is written,
/// whatever the present one is. One that gives a file its present size writes none.
fn above_maximum(tree: &Tree, call: &Call) -> bool {
    call.edits()
        && !keeps_size(tree, call)
        && New::of(tree, call).is_some_and(|new| tree.forbids(new.size()))
}

/// `answer`: the original's; `twin`: its answer to the call's twin, if it has one. 26 comes just
/// before the table's 21, and 27, 28 and 25 last.
pub fn judge(given: &Given, answer: &str, twin: Option<&str>) -> Result<Verdict, String> {
    let verdict = judge_call(given, answer, twin)?;
    if let Ok(tree) = given.opened
        && (verdict.expected.starts_with("ok") || no_room(tree, given.call, &verdict.expected))
        && above_maximum(tree, given.call)
    {
        return Ok(Verdict { expected: refused(26), class: Some(Class::Maximum) });
    }
    if let (Some(account), Ok(tree)) = (given.account, given.opened)
        && verdict.expected.starts_with("ok")
        && let Err(number) = record_after(tree, given.call, account)?
    {
        let class = if number == 25 { Class::Totals } else { Class::Teams };
        return Ok(Verdict { expected: refused(number), class: Some(class) });
    }
    Ok(verdict)
}

/// The same, whatever maximum the image states and the record holds.
fn judge_call(given: &Given, answer: &str, twin: Option<&str>) -> Result<Verdict, String> {
    let told = mapped(answer);
    if let Call::Window(..) = given.call {
        return Ok(Verdict { expected: told, class: None });
    }
    if let Call::Header = given.call {
        let expected = match rules::header(given.image) {
            Ok(()) => header_line(given.image),
            Err(number) => refused(number),
        };
        if told == expected {
            return Ok(Verdict { expected, class: None });
        }
        let class = odd_name(given.image).ok_or("the header")?;
        return Ok(Verdict { expected, class: Some(class) });
    }
    let of_text = || given.call.text().and_then(|text| given.codec.class(text));
    let tree = match given.opened {
        Ok(tree) => tree,
        Err(refusal) => {
            let expected = refused(refusal.number);
            let told = if answer == "skip" { twin.map_or(told, mapped) } else { told };
            if told == expected {
                let class = if answer == "skip" { of_text() } else { None };
                return Ok(Verdict { expected, class });
            }
            let class = class_of_refusal(given, *refusal, &told);
            let class = class.ok_or_else(|| format!("the rules refuse with {refusal:?}"))?;
            return Ok(Verdict { expected, class: Some(class) });
        }
    };
    if told == "err Text:NoNulTerminator" && twin.is_none() {
        return Err("opens, and the original refuses the game name".into());
    }
    if let (Call::Open, Some(class), None) = (given.call, given.others, twin) {
        // The original has no names to be asked with in their place.
        let class = (told != "ok").then_some(class);
        return Ok(Verdict { expected: "ok".into(), class });
    }
    if given.account.is_some_and(|account| account.team as usize >= TEAMS) {
        let expected = refused(15);
        let class = (told != expected).then_some(Class::Teams);
        return Ok(Verdict { expected, class });
    }
    let path = matches!(given.call, Call::Lookup(..) | Call::MakeDirectories(..));
    if path && given.call.text().unwrap().len() > rules::PATH {
        return Ok(Verdict { expected: refused(9), class: Some(Class::Limits) });
    }
    let by = |answer: &str| match (given.call.edits(), given.call.resizes()) {
        (_, Some((number, size))) if size > u32::MAX as u64 => {
            judge_long_clip(tree, number, answer)
        }
        (true, _) if tree.behind().is_some() => judge_beside_program(tree, given, answer),
        (true, _) => judge_edit(tree, given, answer),
        (false, _) => judge_look(tree, given, answer),
    };
    let Some(twin) = twin else { return by(answer) };
    let mut verdict = by(twin)?;
    if let Some(class) = of_text().or(given.others) {
        if told != mapped(twin) {
            verdict.class = Some(class);
        }
    } else if told != verdict.expected && verdict.class.is_none() {
        // Told where to go, since it takes the program for free space.
        verdict.class = Some(Class::ProgramEdits);
    }
    Ok(verdict)
}
