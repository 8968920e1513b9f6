//! `compare`: what differs between two images, file by file, and whether it was given leave to.

use crate::area::{Area, Was, header, old_header, program, system, table, tail};
use crate::args::Args;
use crate::disc::{self, Disc};
use crate::failure::{CUT, DATA, Failure, Outcome};
use crate::given::Given;
use crate::image::{Desk, Image, same_file};
use crate::json::{self, Json};
use crate::layout::{Layout, Record};
use crate::manifest::{Manifest, PROGRAM, Part, SYSTEM, TABLE, TAIL, is_manifest, of_field, sums};
use crate::map::{self, Marks};
use crate::names;
use crate::out::say;
use crate::progress::Progress;
use crate::save::{save, vacant};
use crate::sha256::{Sum, hex};
use crate::stored::{self, first_difference};
use crate::text::{counted, grouped};
use std::collections::{HashMap, HashSet};
use std::fmt::Write as _;
use std::io::Write as _;
use std::path::Path;

const STEP: usize = 4 << 20;

pub fn compare(args: &Args) -> Outcome<u8> {
    args.map.as_deref().map_or(Ok(()), vacant)?;
    let pair = Pair::read(args)?;
    let found = pair.compare(Given::read(&args.given)?)?;
    if let Some(out) = &args.map {
        let both = map::side_by_side(pair.before.layout(), &pair.after, &found.marks());
        save(out, both.as_bytes())?;
    }
    let out = match args.json {
        true => found.json(args.only_differences).document().into_bytes(),
        false => found.text(args.only_differences),
    };
    say(&out)?;
    Ok(found.status())
}

// The two images --------------------------------------------------------------------------

/// What was: an image, or a manifest of it.
pub enum Before {
    Image(Image, Layout),
    Manifest(Manifest),
}

impl Before {
    pub fn layout(&self) -> &Layout {
        match self {
            Before::Image(_, layout) => layout,
            Before::Manifest(manifest) => &manifest.layout,
        }
    }
}

pub struct Pair {
    pub before: Before,
    pub image: Image,
    pub after: Layout,
    /// As they were given.
    pub names: (String, String),
}

impl Pair {
    pub fn read(args: &Args) -> Outcome<Pair> {
        let path = args.image.as_deref().expect("BEFORE");
        let after = args.path(0);
        let before = match is_manifest(path) {
            true => Before::Manifest(Manifest::read(path)?),
            false => opened(path).map(|(image, layout)| Before::Image(image, layout))?,
        };
        if is_manifest(&after) {
            let text = format!("{}: a manifest; AFTER is an image", names::file(&after));
            return Err(Failure::usage(text));
        }
        let names = (names::file(path), names::file(&after));
        let (image, after) = opened(&after)?;
        if let Before::Image(old, _) = &before {
            two_files(old, &image)?;
        }
        Ok(Pair { before, image, after, names })
    }

    pub fn cut(&self) -> Vec<&str> {
        let before = match &self.before {
            Before::Image(image, _) => image.is_cut(),
            Before::Manifest(manifest) => manifest.cut,
        };
        cut([(before, &self.names.0), (self.image.is_cut(), &self.names.1)])
    }
}

/// The names of those of which an edit was cut, so that they hold a part of it, maybe.
pub fn cut(sides: [(bool, &str); 2]) -> Vec<&str> {
    sides.into_iter().filter(|(cut, _)| *cut).map(|(_, name)| name).collect()
}

fn opened(path: &Path) -> Outcome<(Image, Layout)> {
    let (image, mut desk, disc) = one_of_two(path)?;
    let layout = Layout::of(&image, &mut desk, &disc.with_paths()?)?;
    Ok((image, layout))
}

/// Opens one of the two. Status 1 says that something differs, so the refusal 1 becomes 65.
pub fn one_of_two(path: &Path) -> Outcome<(Image, Desk, Disc)> {
    disc::opened(Some(path)).map_err(|failure| match failure {
        Failure::Refused { number: 1, .. } => Failure::error(DATA, failure.to_string()),
        other => other,
    })
}

/// That they are no one file, which agrees with itself whatever it holds.
pub fn two_files(a: &Image, b: &Image) -> Outcome<()> {
    let told = |image: &Image| image.file().and_then(|file| file.metadata().ok());
    match (told(a), told(b)) {
        (Some(one), Some(other)) if same_file(&one, &other) => {
            let text = format!("{} and {} are one and the same file", a.name, b.name);
            Err(Failure::usage(text))
        }
        _ => Ok(()),
    }
}

// Rows ------------------------------------------------------------------------------------

/// An entry with what tells it from others of its name.
struct Item<'a> {
    record: &'a Record,
    /// Path, kinds, and the place among equal names of each part.
    key: Vec<u8>,
    /// Lookup finds it: no part of its path has an equal name before it.
    first: bool,
    /// What a game that looks up without case finds in its place, or in that of a folder on its path.
    alike: Option<&'a Record>,
}

fn items(records: &[Record]) -> Vec<Item<'_>> {
    let mut items: Vec<Item> = Vec::with_capacity(records.len());
    let mut seen: HashMap<(u32, &[u8], bool), u32> = HashMap::new();
    let pairs = names::alike(records.iter().map(|record| (record.parent, record.name())));
    let found: HashMap<usize, usize> = pairs.into_iter().map(|(at, hidden)| (hidden, at)).collect();
    for record in records {
        let (parent, name) = (record.parent, record.name());
        let of_kind =
            |seen: &HashMap<_, u32>, kind| seen.get(&(parent, name, kind)).copied().unwrap_or(0);
        let alone = of_kind(&seen, true) + of_kind(&seen, false) == 0;
        let place = of_kind(&seen, record.folder);
        let (above, first, alike) = match record.number {
            0 => (&[][..], true, None),
            number => {
                seen.insert((parent, name, record.folder), place + 1);
                let above = &items[parent as usize];
                let alike = found.get(&(number as usize)).map(|&at| &records[at]);
                (&above.key[..], above.first && alone, alike.or(above.alike))
            }
        };
        let kind = if record.folder { 'd' } else { 'f' };
        let key = [above, b"/", name, format!(":{kind}{place}").as_bytes()].concat();
        items.push(Item { record, key, first, alike });
    }
    items
}

/// One file or folder in the two images.
pub struct Row {
    pub path: Vec<u8>,
    /// In the table where it was, or else in the new one; and in the new one.
    number: u32,
    now: Option<u32>,
    first: bool,
    pub folder: bool,
    pub before: Option<(u32, u32)>,
    pub after: Option<(u32, u32)>,
    /// The sum that a manifest has.
    pub sum: Option<Sum>,
    /// Whether the bytes that both have differ; None where that cannot be told.
    changed: Option<bool>,
    /// Lookup found it, and finds another entry of that name now, or a lookup without case does.
    hidden: bool,
    /// What a lookup without case finds now in its place, or in a folder's of its path.
    alike: Option<Vec<u8>>,
    pub given: bool,
}

impl Row {
    fn moved(&self) -> bool {
        matches!((self.before, self.after), (Some(b), Some(a)) if b.0 != a.0)
    }

    fn resized(&self) -> bool {
        matches!((self.before, self.after), (Some(b), Some(a)) if b.1 != a.1)
    }

    fn changed(&self) -> bool {
        self.changed == Some(true)
    }

    pub fn status(&self) -> String {
        match (self.before, self.after) {
            (None, _) => return "new".into(),
            (_, None) => return "gone".into(),
            _ => {}
        }
        let parts = [
            (self.moved(), "moved"),
            (self.resized(), "resized"),
            (self.changed(), "changed"),
            (self.hidden, "hidden"),
        ];
        let told: Vec<&str> = parts.iter().filter(|(is, _)| *is).map(|(_, word)| *word).collect();
        if told.is_empty() { "unchanged".into() } else { told.join("+") }
    }

    /// It differs in place, size or bytes from what was there, or is gone.
    pub fn differs(&self) -> bool {
        self.before.is_some() && self.status() != "unchanged"
    }

    pub fn breaks(&self) -> bool {
        self.differs() && !self.given
    }

    /// How many bytes both have.
    fn common(&self) -> u64 {
        match (self.before, self.after) {
            (Some(b), Some(a)) => b.1.min(a.1).into(),
            _ => 0,
        }
    }
}

fn matched(old: &[Item], new: &[Item]) -> Vec<Row> {
    let found: HashMap<&[u8], &Item> = new.iter().map(|item| (&item.key[..], item)).collect();
    let known: HashSet<&[u8]> = old.iter().map(|item| &item.key[..]).collect();
    let mut rows = Vec::new();
    for item in old {
        let now = found.get(&item.key[..]);
        let mut row = row(item, Some(item.record), now.copied());
        row.hidden = now.is_some_and(|now| {
            item.first && !now.first || item.alike.is_none() && now.alike.is_some()
        });
        rows.push(row);
    }
    for item in new.iter().filter(|item| !known.contains(&item.key[..])) {
        rows.push(row(item, None, Some(item)));
    }
    rows
}

fn row(item: &Item, before: Option<&Record>, now: Option<&Item>) -> Row {
    let after = now.map(|now| now.record);
    Row {
        path: item.record.path.clone(),
        number: item.record.number,
        now: after.map(|record| record.number),
        first: item.first,
        folder: item.record.folder,
        before: before.map(|record| record.place),
        after: after.map(|record| record.place),
        sum: item.record.sum,
        changed: None,
        hidden: false,
        alike: now.and_then(|now| now.alike).map(|record| record.path.clone()),
        given: false,
    }
}

/// Whether the entries that both have stand in another order.
fn reordered(old: &[Item], new: &[Item]) -> bool {
    let keys = |items: &[Item]| -> HashSet<Vec<u8>> {
        items.iter().map(|item| item.key.clone()).collect()
    };
    let (had, has) = (keys(old), keys(new));
    let before = old.iter().filter(|item| has.contains(&item.key)).map(|item| &item.key);
    let after = new.iter().filter(|item| had.contains(&item.key)).map(|item| &item.key);
    before.ne(after)
}

// Bytes -----------------------------------------------------------------------------------

/// The bytes that are free before and after.
pub enum FreeSpace {
    Unchanged,
    /// How many bytes differ, where that is known, and where the first is, or its region.
    Changed(Option<u64>, u64),
    /// Regions of a manifest that hold something now have no sum to be held against.
    Unknown(usize, usize),
}

impl FreeSpace {
    pub fn word(&self) -> &'static str {
        match self {
            FreeSpace::Unchanged => "unchanged",
            FreeSpace::Changed(..) => "changed",
            FreeSpace::Unknown(..) => "unknown",
        }
    }

    fn words(&self) -> String {
        match self {
            FreeSpace::Unchanged => "free space".into(),
            FreeSpace::Changed(Some(bytes), first) => {
                let bytes = counted(*bytes as usize, "byte differs", "bytes differ");
                format!("free space: {bytes}, the first at {first:#x}")
            }
            FreeSpace::Changed(None, at) => {
                format!("free space: the region at {at:#x} has other bytes")
            }
            FreeSpace::Unknown(used, all) => {
                format!(
                    "free space: {used} of {} hold something now",
                    counted(*all, "region", "regions")
                )
            }
        }
    }
}

/// Two images' bytes, and how far they have been compared.
struct Bytes<'a> {
    a: &'a [u8],
    b: &'a [u8],
    progress: &'a Progress,
}

impl Bytes<'_> {
    /// Whether the two spans hold the same bytes.
    fn equal(&self, at: u64, to: u64, size: u64) -> bool {
        self.first(at, to, size).is_none()
    }

    /// Where in the second one the spans differ first.
    fn first(&self, at: u64, to: u64, size: u64) -> Option<u64> {
        // An empty file's place may be anything.
        if size == 0 {
            return None;
        }
        let span = |bytes: &'_ [u8], at: u64| -> Option<std::ops::Range<usize>> {
            let end = at.checked_add(size)?;
            (end <= bytes.len() as u64).then_some(at as usize..end as usize)
        };
        let (Some(a), Some(b)) = (span(self.a, at), span(self.b, to)) else { return Some(to) };
        let mut before = to;
        for (a, b) in self.a[a].chunks(STEP).zip(self.b[b].chunks(STEP)) {
            self.progress.advance(a.len() as u64);
            if a != b {
                return first_difference(a, b).map(|i| before + i as u64);
            }
            before += a.len() as u64;
        }
        None
    }

    /// How many bytes of the span differ, and where the first is.
    fn differing(&self, start: u64, end: u64) -> (u64, Option<u64>) {
        let (mut count, mut first) = (0, None);
        let span = start as usize..end as usize;
        let mut at = start;
        for (a, b) in self.a[span.clone()].chunks(STEP).zip(self.b[span].chunks(STEP)) {
            self.progress.advance(a.len() as u64);
            if a != b {
                let differing = a.iter().zip(b).enumerate().filter(|(_, (a, b))| a != b);
                for (i, _) in differing {
                    count += 1;
                    first = first.or(Some(at + i as u64));
                }
            }
            at += a.len() as u64;
        }
        (count, first)
    }
}

/// So many lines of one kind are told, and the others counted.
pub const TOLD: usize = 12;

impl Pair {
    pub fn compare(&self, given: Given) -> Outcome<Comparison<'_>> {
        let before = self.before.layout();
        let (old, new) = (items(&before.records), items(&self.after.records));
        let mut rows = matched(&old, &new);
        for row in &mut rows {
            row.given = row.first && given.covers(&row.path);
        }
        let (areas, free, sum) = match &self.before {
            Before::Image(image, layout) => self.bytes(image, layout, &mut rows, &given),
            Before::Manifest(manifest) => self.held(manifest, &mut rows, &given),
        };
        let unknown = given.unknown(rows.iter().map(|row| &row.path[..]));
        for path in unknown.iter().take(TOLD) {
            let path = names::text(path);
            eprintln!("counter: the list has {path}, which neither image has (a folder ends in /)");
        }
        if unknown.len() > TOLD {
            let more = grouped((unknown.len() - TOLD) as u64);
            eprintln!("counter: the list has {more} more that neither image has");
        }
        let reordered = reordered(&old, &new);
        let found = Comparison { pair: self, rows, areas, reordered, free, given, unknown, sum };
        found.holds_together()?;
        Ok(found)
    }

    /// Byte by byte.
    fn bytes(
        &self,
        image: &Image,
        old: &Layout,
        rows: &mut [Row],
        given: &Given,
    ) -> (Vec<Area>, FreeSpace, Option<Sum>) {
        let new = &self.after;
        let shared = shared_free(old, new);
        let behind = old.behind().map_or(0, |program| program.size.into());
        let total = rows.iter().map(Row::common).sum::<u64>()
            + old.table_end()
            + shared.iter().map(|(start, end)| end - start).sum::<u64>()
            + behind
            + old.tail().1;
        let progress = Progress::start("comparing", total);
        let bytes = Bytes { a: image.bytes(), b: self.image.bytes(), progress: &progress };
        for row in rows {
            row.changed = match (row.before, row.after) {
                (Some(b), Some(a)) => Some(!bytes.equal(b.0.into(), a.0.into(), row.common())),
                _ => None,
            };
        }
        let first = |(at, size): (u64, u64)| bytes.first(at, at, size);
        let mut areas = header(given, |field| first((field.at as u64, field.size as u64)));
        areas.push(system(old, new, &first));
        let tables = [stored::table(image, old.fst), stored::table(&self.image, new.fst)];
        let at = first_difference(tables[0], tables[1]);
        let was = at.map(|at| u64::from(new.fst.0) + at as u64);
        areas.push(table(new, tables[1], was.map_or(Was::Same, Was::Differs)));
        areas.extend(program(old, new, given, &first));
        areas.push(tail(old, new, given, &first));
        let (mut count, mut at) = (0, None);
        for (start, end) in shared {
            let (differing, first) = bytes.differing(start, end);
            count += differing;
            at = at.or(first);
        }
        let free = at.map_or(FreeSpace::Unchanged, |at| FreeSpace::Changed(Some(count), at));
        (areas, free, None)
    }

    /// Sum by sum.
    fn held(
        &self,
        manifest: &Manifest,
        rows: &mut [Row],
        given: &Given,
    ) -> (Vec<Area>, FreeSpace, Option<Sum>) {
        let (old, new) = (&manifest.layout, &self.after);
        let shared = shared_free(old, new);
        let free_now = |part: &&Part| {
            let (start, end) = (part.offset, part.offset + part.size);
            shared.iter().any(|span| span.0 <= start && end <= span.1)
        };
        let free: Vec<&Part> = manifest.free.iter().filter(free_now).collect();
        let parts: Vec<&Part> = manifest.parts.iter().chain(free.iter().copied()).collect();
        let mut wanted: Vec<Option<(u64, u64)>> = rows.iter().map(comparable).collect();
        wanted.extend(parts.iter().map(|part| {
            let end = part.offset.checked_add(part.size);
            end.is_some_and(|end| end <= new.bytes).then_some((part.offset, part.size))
        }));
        wanted.push(Some((0, new.bytes)));
        let spans: Vec<(u64, u64)> = wanted.iter().map(|span| span.unwrap_or((0, 0))).collect();
        let progress = Progress::start("comparing", spans.iter().map(|span| span.1).sum());
        let mut found = sums(self.image.bytes(), &spans, &progress);
        let whole = found.pop();
        let of_parts = found.split_off(rows.len());
        let held = parts.iter().zip(&of_parts).zip(&wanted[rows.len()..]);
        let mut same: Vec<bool> =
            held.map(|((part, sum), span)| span.is_some() && part.sum == *sum).collect();
        for (row, (sum, span)) in rows.iter_mut().zip(found.into_iter().zip(&wanted)) {
            row.changed = span.map(|_| Some(sum) != row.sum);
        }
        let same_free = same.split_off(manifest.parts.len());
        let areas = self.held_areas(manifest, &same, whole == Some(manifest.image), given);
        let spoiled = free.iter().zip(same_free).find(|(_, same)| !same);
        let told = match (spoiled, manifest.free.len() - free.len()) {
            (Some((part, _)), _) => FreeSpace::Changed(None, part.offset),
            (None, 0) => FreeSpace::Unchanged,
            (None, used) => FreeSpace::Unknown(used, manifest.free.len()),
        };
        (areas, told, whole)
    }

    /// What is no file, where `same` says of each part of the manifest whether its sum is the same. A sum
    /// tells no byte: where it is another, the part's start stands for it.
    fn held_areas(
        &self,
        manifest: &Manifest,
        same: &[bool],
        same_image: bool,
        given: &Given,
    ) -> Vec<Area> {
        let (old, new) = (&manifest.layout, &self.after);
        let differs = |name: &str| -> Option<u64> {
            let at = manifest.parts.iter().position(|part| part.name == name);
            at.map_or(Some(0), |at| (!same[at]).then_some(manifest.parts[at].offset))
        };
        let mut areas = match manifest.version {
            1 => old_header(&differs),
            _ => header(given, |field| differs(&of_field(field))),
        };
        areas.push(system(old, new, &|_| differs(SYSTEM)).by_sum(old.system()));
        let was = match manifest.version {
            1 if same_image => Was::Same,
            1 => Was::Unknown,
            _ if old.fst.1 == new.fst.1 && differs(TABLE).is_none() => Was::Same,
            _ => Was::Other,
        };
        areas.push(table(new, stored::table(&self.image, new.fst), was));
        let behind = old.behind().map_or((0, 0), |at| (at.offset.into(), at.size.into()));
        let program = program(old, new, given, &|_| differs(PROGRAM));
        areas.extend(program.map(|area| area.by_sum(behind)));
        areas.push(tail(old, new, given, &|_| differs(TAIL)).by_sum(old.tail()));
        areas
    }
}

/// Where the bytes lie now that a manifest's sum is of; None if the file is gone, new or shorter.
fn comparable(row: &Row) -> Option<(u64, u64)> {
    match (row.before, row.after) {
        (Some(b), Some(a)) if !row.folder && a.1 >= b.1 => Some((a.0.into(), b.1.into())),
        _ => None,
    }
}

/// What is free in both, as starts and ends.
fn shared_free(old: &Layout, new: &Layout) -> Vec<(u64, u64)> {
    let spans = |layout: &Layout| -> Vec<(u64, u64)> {
        let span = |start: u32, size: u32| (u64::from(start), u64::from(start) + u64::from(size));
        layout.free.iter().map(|region| span(region.offset, region.size)).collect()
    };
    let (a, b) = (spans(old), spans(new));
    let (mut i, mut j) = (0, 0);
    let mut shared = Vec::new();
    while i < a.len() && j < b.len() {
        let (start, end) = (a[i].0.max(b[j].0), a[i].1.min(b[j].1));
        if start < end {
            shared.push((start, end));
        }
        if a[i].1 < b[j].1 { i += 1 } else { j += 1 }
    }
    shared
}

// The answer ------------------------------------------------------------------------------

pub struct Comparison<'a> {
    pub pair: &'a Pair,
    pub rows: Vec<Row>,
    pub areas: Vec<Area>,
    pub reordered: bool,
    pub free: FreeSpace,
    pub given: Given,
    pub unknown: Vec<Vec<u8>>,
    /// The sum of the image as it is, where it was worked out.
    pub sum: Option<Sum>,
}

impl Comparison<'_> {
    /// How many differences have no leave.
    pub fn broken(&self) -> usize {
        let rows = self.rows.iter().filter(|row| row.breaks()).count();
        rows + self.areas.iter().filter(|area| area.breaks()).count()
    }

    /// That a manifest which names the sum of the image at hand says of it what is so.
    fn holds_together(&self) -> Outcome<()> {
        let Before::Manifest(manifest) = &self.pair.before else { return Ok(()) };
        if self.sum != Some(manifest.image) {
            return Ok(());
        }
        let differs: Vec<&Row> =
            self.rows.iter().filter(|row| row.status() != "unchanged").collect();
        let area = self.areas.iter().find(|area| area.differs());
        let what = match (differs.first(), area) {
            (Some(row), _) if row.before.is_none() => format!("lacks {}", names::text(&row.path)),
            (Some(row), _) => format!("says otherwise of {}", names::text(&row.path)),
            (None, Some(area)) => format!("says otherwise of the {}", area.words()),
            (None, None) => return Ok(()),
        };
        let more = match differs.len() {
            0 | 1 => String::new(),
            more => format!(" and {}", counted(more - 1, "entry more", "entries more")),
        };
        let text = format!(
            "{}: the manifest names the sum of {}, and {what}{more}: lines of it were left out or changed",
            self.pair.names.0, self.pair.names.1
        );
        Err(Failure::error(DATA, text))
    }

    /// Nothing differs without leave, and no edit was cut of what was compared.
    pub fn passed(&self) -> bool {
        self.broken() == 0 && self.pair.cut().is_empty()
    }

    /// What is to be known besides, in sentences.
    pub fn remarks(&self) -> Vec<String> {
        let mut remarks: Vec<String> = self.pair.cut().into_iter().map(cut_words).collect();
        if let Before::Manifest(manifest) = &self.pair.before {
            remarks.push(format!(
                "the manifest {} has SHA-256 {}: hold that against what its maker told you elsewhere, since \
                 anyone can write a manifest",
                self.pair.names.0,
                hex(&manifest.own)
            ));
            remarks.push(format!(
                "it says that it is of {}, SHA-256 {}",
                manifest.layout.name,
                hex(&manifest.image)
            ));
            if manifest.version == 1 {
                remarks.push(
                    "it is of version 1, which has no sum of the table: `counter hash` of the image as it was \
                     makes one that has"
                        .into(),
                );
            }
        }
        if let Some(sum) = &self.sum {
            remarks.push(format!("{} has SHA-256 {}", self.pair.names.1, hex(sum)));
        }
        remarks
    }

    /// The entries that differ, are gone or new, for the maps.
    pub fn marks(&self) -> Marks {
        let differ = || self.rows.iter().filter(|row| row.status() != "unchanged");
        let before = differ().filter(|row| row.before.is_some()).map(|row| row.number);
        (before.collect(), differ().filter_map(|row| row.now).collect())
    }

    pub fn status(&self) -> u8 {
        match (self.broken(), self.passed()) {
            (0, true) => 0,
            (0, false) => CUT,
            _ => 1,
        }
    }

    fn count(&self, of: impl Fn(&Row) -> bool) -> usize {
        self.rows.iter().filter(|row| !row.folder && of(row)).count()
    }

    /// How often each word was said of a file.
    pub fn counts(&self) -> [(&'static str, usize); 6] {
        [
            ("unchanged", self.count(|row| row.status() == "unchanged")),
            ("moved", self.count(Row::moved)),
            ("resized", self.count(Row::resized)),
            ("changed", self.count(Row::changed)),
            ("new", self.count(|row| row.before.is_none())),
            ("gone", self.count(|row| row.after.is_none())),
        ]
    }

    /// The counts in one line.
    pub fn totals(&self) -> String {
        let told: Vec<String> = self
            .counts()
            .iter()
            .map(|(word, n)| format!("{} {word}", grouped(*n as u64)))
            .collect();
        format!("{}: {}", counted(self.count(|_| true), "file", "files"), told.join(", "))
    }

    /// The verdict in one line.
    pub fn verdict(&self) -> String {
        let list =
            if self.given.listed { "not on the list" } else { "not given (there is no list)" };
        match self.broken() {
            0 if self.passed() => format!("passed: nothing differs that is {list}"),
            0 => format!("UNFINISHED: nothing differs that is {list}, but an edit was cut"),
            broken => format!("FAILED: {} {list}", counted(broken, "difference", "differences")),
        }
    }

    /// What is no file: a word and what it is about.
    pub fn others(&self) -> Vec<(&'static str, String)> {
        let word = |changed| if changed { "changed" } else { "unchanged" };
        let mut told: Vec<(&str, String)> =
            self.areas.iter().map(|area| (area.status, area.words())).collect();
        told.push((word(self.reordered), "order of the entries".into()));
        told.push((self.free.word(), self.free.words()));
        told
    }

    fn text(&self, only_differences: bool) -> Vec<u8> {
        let mut out = Vec::new();
        let shown = |row: &&Row| row.status() != "unchanged" || !(row.folder || only_differences);
        for row in self.rows.iter().filter(shown) {
            let _ = write!(out, "{:<16} ", row.status());
            out.extend(names::shown(&row.path));
            let mut line = String::new();
            if !row.first {
                let _ = write!(line, " (entry {})", row.number);
            }
            line.push_str(&difference(row));
            if row.differs() {
                line.push_str(if row.given { "  [given]" } else { "  [NOT GIVEN]" });
            }
            let _ = writeln!(out, "{line}");
        }
        for (i, (status, name)) in self.others().into_iter().enumerate() {
            if status != "unchanged" || !only_differences {
                let leave = match self.areas.get(i).filter(|area| area.differs()) {
                    None => "",
                    Some(area) if area.given => "  [given]",
                    Some(_) => "  [NOT GIVEN]",
                };
                let _ = writeln!(out, "{status:<16} ({name}){leave}");
            }
        }
        for remark in self.remarks() {
            let _ = writeln!(out, "{remark}");
        }
        let _ = writeln!(out, "{}", self.totals());
        if self.given.covers_all() {
            out.extend(b"the list has the line /: it covers every file and folder\n");
        }
        let _ = writeln!(out, "{}", self.verdict());
        out
    }

    pub fn json(&self, only_differences: bool) -> Json {
        let shown = |row: &&Row| row.status() != "unchanged" || !only_differences;
        let files = self.rows.iter().filter(|row| !row.folder).filter(shown).map(row_json);
        let folders = self.rows.iter().filter(|row| row.folder).filter(shown).map(|row| {
            let mut fields = Vec::from(json::path(&row.path));
            fields.push(("status", row.status().into()));
            fields.push(("given", row.given.into()));
            Json::Object(fields)
        });
        let areas = self.areas.iter().map(Area::json);
        let own = match &self.pair.before {
            Before::Manifest(manifest) => Some((hex(&manifest.own), hex(&manifest.image))),
            Before::Image(..) => None,
        };
        let (own, image) = own.unzip();
        let cut = self.pair.cut().into_iter().map(Json::from);
        let counts = self.counts().into_iter().map(|(word, n)| (word, Json::from(n)));
        let unknown = self.unknown.iter().map(|path| names::text(path).into());
        let unknown_bytes = self.unknown.iter().map(|path| hex(path).into());
        Json::Object(vec![
            ("status", u32::from(self.status()).into()),
            ("before", self.pair.names.0.as_str().into()),
            ("after", self.pair.names.1.as_str().into()),
            ("manifest", own.is_some().into()),
            ("manifest_sum", own.into()),
            ("before_sum", image.into()),
            ("after_sum", self.sum.as_ref().map(|sum| hex(sum)).into()),
            ("passed", self.passed().into()),
            ("cut", Json::List(cut.collect())),
            ("covers_all", self.given.covers_all().into()),
            ("order_changed", self.reordered.into()),
            ("free_space", self.free.word().into()),
            ("counts", Json::Object(counts.collect())),
            ("files", Json::List(files.collect())),
            ("folders", Json::List(folders.collect())),
            ("areas", Json::List(areas.collect())),
            ("unknown", Json::List(unknown.collect())),
            ("unknown_bytes", Json::List(unknown_bytes.collect())),
        ])
    }
}

/// What is to be known of an image of which an edit was cut.
pub fn cut_words(name: &str) -> String {
    format!(
        "an edit of {name} was cut, and it may hold a part of it: `counter recover` finishes the edit"
    )
}

fn difference(row: &Row) -> String {
    let mut out = String::new();
    if let (Some(before), Some(after)) = (row.before, row.after) {
        if row.moved() {
            let _ = write!(out, "  offset {:#x} -> {:#x}", before.0, after.0);
        }
        if row.resized() {
            let _ =
                write!(out, "  size {} -> {}", grouped(before.1.into()), grouped(after.1.into()));
        }
        if row.hidden && row.alike.is_none() {
            out.push_str("  (another entry of its name stands before it)");
        }
        if row.changed.is_none() && !row.folder {
            out.push_str("  (shorter than its sum's bytes, which were not compared)");
        }
    }
    if let Some(found) = row.alike.as_ref().filter(|_| row.hidden || row.before.is_none()) {
        let found = names::text(found);
        let _ = write!(out, "  (a game that looks up without case finds {found} in its place)");
    }
    out
}

fn row_json(row: &Row) -> Json {
    let place = |at: Option<(u32, u32)>| {
        at.map(|(offset, size)| {
            Json::Object(vec![("offset", offset.into()), ("size", size.into())])
        })
    };
    let [path, path_bytes] = json::path(&row.path);
    Json::Object(vec![
        path,
        path_bytes,
        ("first", row.first.into()),
        ("status", row.status().into()),
        ("moved", row.moved().into()),
        ("resized", row.resized().into()),
        ("changed", row.changed.into()),
        ("hidden", row.hidden.into()),
        ("alike", row.alike.as_ref().map(|path| names::text(path)).into()),
        ("given", row.given.into()),
        ("before", place(row.before).unwrap_or(Json::Null)),
        ("after", place(row.after).unwrap_or(Json::Null)),
    ])
}
