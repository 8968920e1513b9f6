//! A second writing of a run to clear, by docs/RULES.md alone: the starts are tried one by one, those too
//! that are no candidates.

use crate::rules::{self, Tree};

/// Up to so many bytes behind the table every one is tried as a start.
const EVERY_BYTE: u64 = 0x1000;

/// What lies on a disc that opens.
pub struct Occupied {
    pub table_end: u64,
    pub disc_end: u64,
    /// The program where it lies behind the table, and the files that have a byte: offset and size.
    pub program: Option<(u64, u64)>,
    pub files: Vec<(u64, u64)>,
    pub free_bytes: u64,
    /// The size of the largest free region.
    pub largest: u64,
}

/// A run and what it costs.
#[derive(Clone, Copy, Debug, PartialEq, Eq)]
pub struct Run {
    pub start: u64,
    pub cost: u64,
}

/// What is told of the cheapest run tried.
#[derive(Clone, Copy, Debug, PartialEq, Eq)]
pub struct Cheapest {
    pub tried: u64,
    pub run: Run,
    pub bound: u64,
}

/// A run, that none was tried, or a refusal's number.
pub type Answer = Result<Option<Cheapest>, u32>;

/// Runs of one size: those at the starts that were tried, the candidates, and what none costs less than.
pub struct Runs {
    pub tried: Vec<Run>,
    pub candidates: Vec<Run>,
    pub floor: u64,
}

/// Whether a byte of the region is one of `size` from `start` on.
pub fn touches(start: u64, size: u64, (at, length): (u64, u64)) -> bool {
    length > 0 && at < start + size && start < at + length
}

impl Occupied {
    pub fn of(tree: &Tree) -> Self {
        let files = tree.entries.iter().filter(|entry| !entry.directory && entry.size > 0);
        Self {
            table_end: tree.table_end(),
            disc_end: tree.disc_end,
            program: tree.behind(),
            files: files.map(|file| (file.offset as u64, file.size as u64)).collect(),
            free_bytes: tree.free_bytes(),
            largest: rules::largest(&tree.free),
        }
    }

    /// The used regions behind the table.
    fn behind(&self) -> impl Iterator<Item = (u64, u64)> {
        self.files.iter().copied().chain(self.program)
    }

    /// Where used regions end, rising.
    pub fn ends(&self) -> Vec<u64> {
        let mut ends = vec![self.table_end];
        ends.extend(self.behind().map(|(at, size)| at + size));
        ends.sort();
        ends
    }

    pub fn is_run(&self, start: u64, size: u64) -> bool {
        self.table_end <= start
            && start + size <= self.disc_end
            && !self.program.is_some_and(|program| touches(start, size, program))
    }

    pub fn cost(&self, start: u64, size: u64) -> u64 {
        self.files.iter().filter(|file| touches(start, size, **file)).map(|(_, size)| size).sum()
    }

    /// The starts to try: every byte. Where those are too many, each at which a run begins or ends to touch
    /// something, and those beside it: between two of them every run touches the same.
    fn starts(&self, size: u64) -> Vec<u64> {
        if self.disc_end - self.table_end <= EVERY_BYTE {
            return (self.table_end..=self.disc_end).collect();
        }
        let edges = self.behind().flat_map(|(at, length)| [at + length, at.saturating_sub(size)]);
        let edges = edges.chain([self.table_end, self.disc_end.saturating_sub(size)]);
        let mut starts: Vec<u64> =
            edges.flat_map(|edge| edge.saturating_sub(1)..edge + 2).collect();
        starts.sort();
        starts.dedup();
        starts
    }

    pub fn runs(&self, size: u64) -> Runs {
        let ends = self.ends();
        let starts = if size == 0 { vec![] } else { self.starts(size) };
        let runs = starts.into_iter().filter(|start| self.is_run(*start, size));
        let tried: Vec<Run> =
            runs.map(|start| Run { start, cost: self.cost(start, size) }).collect();
        let at_end = tried.iter().filter(|run| ends.binary_search(&run.start).is_ok());
        let floor =
            if size <= self.largest { 0 } else { size.saturating_sub(self.free_bytes).max(1) };
        Runs { candidates: at_end.copied().collect(), tried, floor }
    }
}

impl Runs {
    /// The least that any run costs.
    pub fn least(&self) -> Option<u64> {
        self.tried.iter().map(|run| run.cost).min()
    }

    pub fn answer(&self, budget: u64) -> Answer {
        if self.tried.is_empty() {
            return Err(21);
        }
        let all = self.candidates.len() as u64;
        let tried = all.min(budget);
        let within = &self.candidates[..tried as usize];
        // Of equals the first.
        let Some(run) = within.iter().min_by_key(|run| (run.cost, run.start)) else {
            return Ok(None);
        };
        let bound = if tried == all { 0 } else { run.cost - self.floor };
        Ok(Some(Cheapest { tried, run: *run, bound }))
    }

    /// What is wrong with what is told of the cheapest run, whatever the answer has to be.
    pub fn wrong(&self, disc: &Occupied, size: u64, told: &Cheapest) -> Option<&'static str> {
        let Cheapest { run: Run { start, cost }, bound, .. } = *told;
        if !disc.is_run(start, size) {
            Some("it is none")
        } else if cost != disc.cost(start, size) {
            Some("its cost is not its own")
        } else if self.least() < cost.checked_sub(bound) {
            Some("another is cheaper than the bound allows")
        } else {
            None
        }
    }
}
