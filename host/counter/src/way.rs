//! A run of bytes that is to be free: the one that the library finds, which costs least, and what is in its
//! way.

use crate::disc::{CLUSTER, Disc, Kind, Node, table_end};
use crate::failure::{Failure, INTERNAL, Measures, Outcome};
use crate::image::{Desk, Image};
use crate::json::Json;
use crate::program::Program;
use crate::text::{bytes, counted, grouped};
use counter_sys::{self as counter, CheapestRun};
use std::ops::Range;

/// What is asked for: so many bytes in a row, and how many candidates may be tried; none says all.
#[derive(Clone, Copy)]
pub struct Wish {
    pub size: u32,
    pub budget: Option<u32>,
}

/// The cheapest run that was tried.
pub struct Way<'a> {
    pub size: u32,
    pub run: CheapestRun,
    /// Whether every candidate was.
    pub all_tried: bool,
    /// How long a run can be.
    pub longest: u64,
    /// The files that have a byte of it, as they lie.
    pub files: Vec<Blocking<'a>>,
}

/// A file that has bytes.
#[derive(Clone, Copy)]
pub struct Blocking<'a> {
    pub node: &'a Node,
    pub offset: u32,
    pub size: u32,
}

impl Blocking<'_> {
    pub fn span(&self) -> Range<u64> {
        span(self.offset, self.size)
    }
}

pub fn span(offset: u32, size: u32) -> Range<u64> {
    u64::from(offset)..u64::from(offset) + u64::from(size)
}

/// The bytes that both have; an empty one shares none.
pub fn meet(a: &Range<u64>, b: &Range<u64>) -> Range<u64> {
    let start = a.start.max(b.start);
    start..a.end.min(b.end).max(start)
}

impl Wish {
    /// None where none was tried: then there is a run, and the budget is 0.
    pub fn find<'a>(
        &self,
        image: &Image,
        desk: &mut Desk,
        disc: &'a Disc,
    ) -> Outcome<Option<Way<'a>>> {
        let program = Program::read(image, desk, &disc.opened)?.filter(|program| program.behind);
        let program = program.map_or(0..0, |at| span(at.place.offset, at.place.size));
        let mut clear = |budget| {
            let found = self.cheapest(image, desk, budget);
            found.map_err(|number| self.refused(number, disc, &program))
        };
        let budget = self.budget.unwrap_or(u32::MAX);
        let Some(run) = clear(budget)? else { return Ok(None) };
        // More of them are tried with a larger budget, if there are more.
        let more = match budget.checked_add(1).filter(|_| run.tried == budget) {
            Some(larger) => clear(larger)?,
            None => None,
        };
        let all_tried = more.is_none_or(|more| more.tried == run.tried);
        let longest = longest(disc, &program).0;
        let files = blocking(disc, &self.span(&run));
        let way = Way { size: self.size, run, all_tried, longest, files };
        way.holds_together(image, disc, &program)?;
        Ok(Some(way))
    }

    /// The cheapest of so many candidates, if that are some.
    pub fn cheapest(
        &self,
        image: &Image,
        desk: &mut Desk,
        budget: u32,
    ) -> Result<Option<CheapestRun>, u32> {
        counter::clear(image.bytes(), &mut desk.lend(), self.size, budget)
    }

    /// The most candidates, from the first on, of which another run is the cheapest. It costs more, unless
    /// there are none.
    pub fn before(&self, image: &Image, desk: &mut Desk, run: &CheapestRun) -> Result<u32, u32> {
        let (mut before, mut with) = (0, run.tried);
        while with - before > 1 {
            let budget = before + (with - before) / 2;
            match self.cheapest(image, desk, budget)? {
                Some(found) if found.offset == run.offset => with = budget,
                _ => before = budget,
            }
        }
        Ok(before)
    }

    fn span(&self, run: &CheapestRun) -> Range<u64> {
        span(run.offset, self.size)
    }

    /// The refusal, with how long a run can be.
    fn refused(&self, number: u32, disc: &Disc, program: &Range<u64>) -> Failure {
        let what = bytes(self.size.into());
        let failure = Failure::refused(number, format!("a run of {what}"));
        if number != 21 {
            return failure;
        }
        let (most, words) = longest(disc, program);
        let words = match self.size {
            0 => format!("a run has at least 1 byte; {words}"),
            _ => words,
        };
        failure.because(words).measured(Measures::Most(most))
    }
}

/// How long a run can be, and where it lies then.
fn longest(disc: &Disc, program: &Range<u64>) -> (u64, String) {
    let mut marks = vec![(table_end(&disc.opened), "the table's end")];
    if !program.is_empty() {
        let Range { start, end } = *program;
        marks.extend([(start, "the program's start"), (end, "the program's end")]);
    }
    marks.push((disc.opened.disc_end.into(), "the disc end"));
    let stretches = marks.chunks(2).map(|pair| (pair[1].0.saturating_sub(pair[0].0), pair));
    // Of equal ones the first.
    match stretches.rev().max_by_key(|(long, _)| *long) {
        Some((most @ 1.., [(from, start), (to, stop)])) => {
            let bytes = grouped(most);
            (most, format!("the longest has {bytes}, from {start}, {from:#x}, to {stop}, {to:#x}"))
        }
        _ => (0, "between the table's end and the disc end there is room for none".into()),
    }
}

/// The files that have a byte of the run, as they lie.
fn blocking<'a>(disc: &'a Disc, run: &Range<u64>) -> Vec<Blocking<'a>> {
    let files = disc.nodes.iter().filter_map(|node| match node.kind {
        Kind::File { offset, size } => Some(Blocking { node, offset, size }),
        Kind::Directory { .. } => None,
    });
    let mut found: Vec<_> = files.filter(|file| !meet(&file.span(), run).is_empty()).collect();
    found.sort_by_key(|file| file.offset);
    found
}

impl Way<'_> {
    pub fn span(&self) -> Range<u64> {
        span(self.run.offset, self.size)
    }

    /// Its first multiple of what games' files begin on.
    pub fn aligned(&self) -> Option<u32> {
        let at = self.run.offset.checked_next_multiple_of(CLUSTER)?;
        (u64::from(at) < self.span().end).then_some(at)
    }

    /// That the answer is a run, and costs these files.
    fn holds_together(&self, image: &Image, disc: &Disc, program: &Range<u64>) -> Outcome<()> {
        let span = self.span();
        let cost: u64 = self.files.iter().map(|file| u64::from(file.size)).sum();
        let is_run = table_end(&disc.opened) <= span.start
            && span.end <= disc.opened.disc_end.into()
            && meet(&span, program).is_empty();
        match is_run && cost == self.run.cost.into() {
            true => Ok(()),
            false => {
                let text = format!("{}: libcounter tells a run that the files belie", image.name);
                Err(Failure::error(INTERNAL, text))
            }
        }
    }

    pub fn json(&self) -> Json {
        Json::Object(vec![
            ("offset", self.run.offset.into()),
            ("end", self.span().end.into()),
            ("size", self.size.into()),
            ("cost", self.run.cost.into()),
            ("bound", self.run.bound.into()),
            ("tried", self.run.tried.into()),
            ("all_tried", self.all_tried.into()),
            ("files", self.files.len().into()),
        ])
    }

    /// The run in words.
    pub fn words(&self) -> String {
        let Range { start, end } = self.span();
        let files = counted(self.files.len(), "file", "files");
        let [cost, size] = [self.run.cost, self.size].map(|number| bytes(number.into()));
        match self.run.cost {
            0 => format!("a free run of {size}: {start:#x} to {end:#x}"),
            _ => format!("a run of {size}: {start:#x} to {end:#x}, {files} of {cost} in its way"),
        }
    }
}
