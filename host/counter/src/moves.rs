//! The moves that clear a run: each file in its way to a place that is free and outside of it. They are tried
//! on a private copy.

use crate::account;
use crate::anew::Anew;
use crate::cause::cause;
use crate::disc::{Disc, Space, TOO_LONG, table_end};
use crate::failure::{Failure, INPUT_OUTPUT, INTERNAL, Outcome};
use crate::header::FST_SIZE_AT;
use crate::image::{Desk, Image};
use crate::places::{Rooms, copied, plan};
use crate::progress::Progress;
use crate::sheet::{self, Kind, Line};
use crate::way::{Blocking, Way, span};
use counter_sys::{self as counter, MOST_LINES, MOST_PATH, Region, Stopped};
use std::collections::HashSet;
use std::ops::Range;

/// What becomes of a file in the way.
#[derive(Clone, Copy, PartialEq, Eq)]
pub enum Goes {
    To(u32),
    /// Nothing that is left has room for it.
    NoPlace,
    /// No command reaches it, since another entry's path is the same, or that of a folder above it.
    Hidden,
    /// The same, since its path is longer than any may be.
    TooLong,
    /// No place was looked for.
    Unasked,
}

impl Goes {
    /// Why it stays.
    pub fn detail(self) -> Option<&'static str> {
        match self {
            Goes::To(_) => None,
            Goes::NoPlace => Some("no free place is left for it"),
            Goes::Unasked => Some("no place was looked for"),
            Goes::Hidden => Some("its path does not lead to it"),
            Goes::TooLong => Some(TOO_LONG),
        }
    }
}

/// What the next edit does to the table, whatever it moves.
pub struct NextTable {
    /// Why it is refused, and every edit that writes a table.
    pub refusal: Option<(u32, String)>,
    /// Where it ends then, and where it ends now.
    pub end: u64,
    now: u64,
}

impl NextTable {
    pub fn read(image: &Image, desk: &mut Desk, disc: &Disc) -> Outcome<NextTable> {
        let anew = Anew::read(image, desk, disc)?;
        let len = anew.table.as_ref().map_or(0, |table| table.len() as u64);
        let end = u64::from(disc.opened.fst_offset) + len;
        Ok(NextTable { refusal: anew.refusal(), end, now: table_end(&disc.opened) })
    }

    /// What lies from here on is apart from both.
    fn both(&self) -> u64 {
        self.end.max(self.now)
    }
}

pub struct Moves<'a> {
    files: &'a [Blocking<'a>],
    /// What becomes of each.
    pub goes: Vec<Goes>,
    /// Those that go, in an order in which each is accepted.
    order: Vec<(usize, u32)>,
    /// The largest free region outside of the run, once all are made.
    pub largest_left: u64,
    /// Where the free bytes end that the run is a part of then; its own end where it is not free.
    pub end: u64,
    /// Where no place is looked for, since the next edit is refused, or writes a table that ends behind the
    /// run's start.
    is_unasked: bool,
    /// Why they are not tried on a private copy.
    pub untried: Option<String>,
}

impl<'a> Moves<'a> {
    pub fn planned(disc: &Disc, way: &'a Way<'a>, next: &NextTable) -> Moves<'a> {
        let (files, run) = (&way.files[..], way.span());
        let mut rooms = Rooms::new(free(disc), &run, next.both());
        let mut moves = Moves {
            files,
            goes: vec![Goes::Unasked; files.len()],
            order: Vec::new(),
            largest_left: 0,
            end: run.end,
            is_unasked: next.refusal.is_some() || next.end > run.start,
            untried: None,
        };
        if !moves.is_unasked {
            moves.plan(disc, &mut rooms);
        }
        moves.largest_left = rooms.largest();
        if moves.frees_run() {
            moves.end = rooms.end();
        }
        moves
    }

    fn plan(&mut self, disc: &Disc, rooms: &mut Rooms) {
        let reached = reached(disc);
        let goes = |file: &Blocking| match reached[file.node.number as usize] {
            false => Goes::Hidden,
            true if path(file).len() > MOST_PATH => Goes::TooLong,
            true => Goes::NoPlace,
        };
        self.goes = self.files.iter().map(goes).collect();
        let asked = (0..self.files.len()).filter(|&i| self.goes[i] == Goes::NoPlace);
        self.order = plan(self.files, asked.collect(), rooms);
        for &(i, to) in &self.order {
            self.goes[i] = Goes::To(to);
        }
    }

    /// How many there are.
    pub fn count(&self) -> usize {
        self.order.len()
    }

    /// How many files have none; not known where no place was looked for.
    pub fn stay(&self) -> Option<usize> {
        (!self.is_unasked).then(|| self.files.len() - self.count())
    }

    /// Each with its file.
    pub fn each(&self) -> impl Iterator<Item = (&'a Blocking<'a>, u32)> {
        self.order.iter().map(|&(i, to)| (&self.files[i], to))
    }

    /// Each with the path by which commands take its file.
    pub fn words(&self) -> impl Iterator<Item = (&'a [u8], u32)> {
        self.each().map(|(file, to)| (path(file), to))
    }

    /// The lines of a sheet of them, as many as one has at most. No more are tried.
    pub fn lines(&self) -> Vec<Line> {
        let line = |(path, to): (&[u8], u32)| Line { kind: Kind::Move(to), path: path.to_vec() };
        self.words().take(MOST_LINES).map(line).collect()
    }

    /// How many were tried and are accepted.
    pub fn accepted(&self) -> usize {
        if self.untried.is_some() { 0 } else { self.count().min(MOST_LINES) }
    }

    /// Whether the run is free once they are made.
    pub fn frees_run(&self) -> bool {
        self.stay() == Some(0)
    }

    /// Tries them on a private copy, a few at once, so that what they write there takes little memory.
    pub fn try_out(
        &mut self,
        image: &Image,
        desk: &mut Desk,
        disc: &Disc,
        next: &NextTable,
        run: Range<u64>,
    ) -> Outcome<()> {
        const AT_ONCE: usize = 16;
        if self.order.is_empty() {
            return Ok(());
        }
        let _progress = Progress::start("trying the moves", 0);
        let table = disc.opened.fst_offset as usize..next.both() as usize;
        let kept = [FST_SIZE_AT..FST_SIZE_AT + 4, table];
        let copied = copied(free(disc), self.files, next.both());
        let lines = self.lines();
        let mut record = account::open(disc.opened.used);
        let mut last: Option<Image> = None;
        for (before, lines) in (0..).step_by(AT_ONCE).zip(lines.chunks(AT_ONCE)) {
            let mut copy = match last.as_ref().unwrap_or(image).trial(&copied, &kept) {
                Err(Failure::Error { status: INPUT_OUTPUT, text }) => {
                    self.untried = Some(text);
                    return Ok(());
                }
                copy => copy?,
            };
            let bytes = sheet::written(lines);
            counter::sheet(copy.bytes_mut(), &mut desk.lend(), &mut record, 0, &bytes)
                .map_err(|Stopped { number, line }| refused(image, before + line, number))?;
            last = Some(copy);
        }
        if let Some(copy) = last.filter(|_| self.frees_run() && lines.len() == self.count()) {
            let free = Space::read(&copy, desk)?.free;
            let has_run = |region: &Region| {
                let region = span(region.offset, region.size);
                region.start <= run.start && run.end <= region.end
            };
            if !free.iter().any(has_run) {
                return Err(otherwise(image));
            }
        }
        Ok(())
    }
}

fn free(disc: &Disc) -> impl Iterator<Item = Range<u64>> {
    disc.free.iter().map(|region| span(region.offset, region.size))
}

/// No move that is planned is refused.
fn refused(image: &Image, line: u32, number: u32) -> Failure {
    let (name, cause) = (&image.name, cause(number).unwrap_or_default());
    let text =
        format!("{name}: libcounter refuses move {line} of those planned: {number} ({cause})");
    Failure::error(INTERNAL, text)
}

/// What the rules say of these moves, and what came of them.
fn otherwise(image: &Image) -> Failure {
    let text = format!("{}: libcounter makes moves otherwise than they were planned", image.name);
    Failure::error(INTERNAL, text)
}

/// The path by which commands take the file.
fn path<'a>(file: &Blocking<'a>) -> &'a [u8] {
    match file.node.path.split_first() {
        Some((_, rest)) if rest.len() == MOST_PATH => rest,
        _ => &file.node.path,
    }
}

/// Of each entry whether its path leads to it: of equal names in a folder the first is found.
fn reached(disc: &Disc) -> Vec<bool> {
    let mut known: HashSet<(u32, &[u8])> = HashSet::new();
    let mut reached: Vec<bool> = Vec::with_capacity(disc.nodes.len());
    for node in &disc.nodes {
        let is_first = known.insert((node.parent, &node.name));
        reached.push(is_first && reached.get(node.parent as usize).is_none_or(|&above| above));
    }
    reached
}
