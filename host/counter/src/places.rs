//! Where files can go that are in a run's way: to free places outside of it, in an order in which each move
//! is accepted.

use crate::disc::CLUSTER;
use crate::way::{Blocking, meet, span};
use std::cmp::Reverse;
use std::collections::{BTreeMap, BTreeSet};
use std::ops::Range;

/// Free regions outside of a run, none right behind another: where each starts and ends, and the same by
/// their sizes.
pub struct Rooms {
    free: BTreeMap<u64, u64>,
    sizes: BTreeSet<(u64, u64)>,
    run: Range<u64>,
    /// Where the table ends, and they begin.
    start: u64,
}

impl Rooms {
    /// Those of these regions, from `start` on.
    pub fn new(free: impl Iterator<Item = Range<u64>>, run: &Range<u64>, start: u64) -> Rooms {
        let run = run.clone();
        let mut rooms = Rooms { free: BTreeMap::new(), sizes: BTreeSet::new(), run, start };
        for region in free {
            rooms.add(region.start.max(start)..region.end.max(start));
        }
        rooms
    }

    /// The size of the largest, 0 if there is none.
    pub fn largest(&self) -> u64 {
        self.sizes.last().map_or(0, |(size, _)| *size)
    }

    /// Where the free bytes end that lie behind the run; its own end if there are none.
    pub fn end(&self) -> u64 {
        self.free.get(&self.run.end).copied().unwrap_or(self.run.end)
    }

    fn put(&mut self, room: Range<u64>) {
        if !room.is_empty() {
            self.free.insert(room.start, room.end);
            self.sizes.insert((room.end - room.start, room.start));
        }
    }

    fn remove(&mut self, start: u64) -> Option<u64> {
        let end = self.free.remove(&start)?;
        self.sizes.remove(&(end - start, start));
        Some(end)
    }

    /// What of these bytes lies outside of the run is free from here on.
    fn add(&mut self, bytes: Range<u64>) {
        let apart =
            [bytes.start..bytes.end.min(self.run.start), bytes.start.max(self.run.end)..bytes.end];
        for mut part in apart.into_iter().filter(|part| !part.is_empty()) {
            let before = self.free.range(..part.start).next_back();
            if let Some((&start, _)) = before.filter(|(_, end)| **end == part.start) {
                self.remove(start);
                part.start = start;
            }
            part.end = self.remove(part.end).unwrap_or(part.end);
            self.put(part);
        }
    }

    /// A place for so many bytes on a multiple of `align`, which is used from here on: the first one in the
    /// smallest region that has one, but last in that right behind the table, where further entries need
    /// room.
    fn take(&mut self, size: u64, align: u64) -> Option<u32> {
        let sizes = self.sizes.range((size, 0)..);
        let mut fits = sizes.filter_map(|&(bytes, start)| {
            let at = start.next_multiple_of(align);
            (at + size <= start + bytes).then_some((start, at))
        });
        let first = fits.next()?;
        let (start, at) = match first.0 == self.start {
            true => fits.next().unwrap_or(first),
            false => first,
        };
        let end = self.remove(start)?;
        self.put(start..at);
        self.put(at + size..end);
        u32::try_from(at).ok()
    }
}

/// The largest power of two, up to that of games' files, that a file lies on a multiple of.
pub fn step(offset: u32) -> u32 {
    1 << offset.trailing_zeros().min(CLUSTER.trailing_zeros())
}

/// Where files go, those with these numbers, in an order in which each move is accepted: the largest first,
/// each to a multiple of the power of two that it lies on now if there is one, else of 4, else anywhere. What
/// a file leaves outside of the run is for those after it. Those that are left out have no place.
pub fn plan(files: &[Blocking], mut left: Vec<usize>, rooms: &mut Rooms) -> Vec<(usize, u32)> {
    left.sort_by_key(|&i| (Reverse(files[i].size), files[i].offset));
    let mut moves = Vec::new();
    // What a file leaves may be the place of one before it.
    loop {
        let known = moves.len();
        left.retain(|&i| {
            let Blocking { offset, size, .. } = files[i];
            let own = step(offset);
            let steps = [own, 4, 1].into_iter().filter(|&step| step <= own).map(u64::from);
            let place = steps.into_iter().find_map(|step| rooms.take(size.into(), step));
            if let Some(to) = place {
                rooms.add(span(offset, size));
                moves.push((i, to));
            }
            place.is_none()
        });
        if left.is_empty() || moves.len() == known {
            return moves;
        }
    }
}

/// Parts of a disc that moves only copy and zero: what of it the library reads lies in none. Rising, as long
/// as they can be.
pub fn copied(
    free: impl Iterator<Item = Range<u64>>,
    files: &[Blocking],
    start: u64,
) -> Vec<Range<u64>> {
    let mut parts: Vec<_> = free.chain(files.iter().map(Blocking::span)).collect();
    parts.sort_by_key(|part| part.start);
    let mut whole: Vec<Range<u64>> = Vec::new();
    for part in parts {
        let part = meet(&part, &(start..u64::MAX));
        match whole.last_mut() {
            Some(last) if last.end == part.start => last.end = part.end,
            _ if part.is_empty() => {}
            _ => whole.push(part),
        }
    }
    whole
}
