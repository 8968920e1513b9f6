//! Why an edit is refused, in words and in numbers: what the image shows of it, and for a table above its maximum and
//! a team above its limit what the library makes of the same edit on an image that is written in memory only.

use crate::account::{self, Spent, Turn};
use crate::call::{Call, What, Wish, refused};
use crate::disc::{CLUSTER, Disc, Kind, a_file_on, table_anew, table_end};
use crate::failure::Failure;
use crate::header::Header;
use crate::image::{Desk, Image};
use crate::maximum::{explained, new_size};
use counter_sys::{self as counter, Opened};
use std::ops::Range;

/// The refusal of an edit with this number. What is tried is written to `image`, in memory, which shows nothing
/// afterwards.
pub fn refusal(
    number: u32,
    (wish, call): (&Wish, &Call),
    image: &mut Image,
    desk: &mut Desk,
    before: &Disc,
    turn: &Turn,
) -> Failure {
    let refused = refused(wish, number);
    match number {
        17 => refused.because(a_file_on(image, desk, wish.path().unwrap_or_default())),
        25 => turn.at_its_end(refused),
        26 => above_maximum(refused, call, image, desk, before, turn),
        27 | 28 => match spent(call, image, desk, before) {
            Some(spent) if number == 27 => turn.above_limit(refused, &spent),
            Some(spent) => turn.below_shares(refused, &spent),
            None => refused,
        },
        _ => refused,
    }
}

/// 26, with by how many bytes: whatever else could fail here leaves the number as it is.
fn above_maximum(
    refusal: Failure,
    call: &Call,
    image: &mut Image,
    desk: &mut Desk,
    before: &Disc,
    turn: &Turn,
) -> Failure {
    let Ok(header) = Header::read(image.bytes()) else { return refusal };
    let given = (turn.account.record, turn.team);
    let after = new_size(call, image.bytes_mut(), desk, given);
    let Ok(anew) = table_anew(image, desk) else { return refusal };
    let sizes = (before.opened.fst_size.into(), anew.len() as u64, after);
    explained(refusal, sizes, header.fst_maximum().into())
}

/// What the edit would do to the space: a record that refuses nothing tells it.
fn spent(call: &Call, image: &mut Image, desk: &mut Desk, before: &Disc) -> Option<Spent> {
    let spans = stand_ins(call, image, desk, before);
    image.stand_in(&spans).ok()?;
    let Opened { used: before, disc_end, .. } = before.opened;
    let mut record = account::open(before);
    call.run(image.bytes_mut(), desk.lend(), &mut record, 0).ok()?;
    let after = record.used;
    Some(Spent { before, after, free: disc_end.saturating_sub(after) })
}

/// The parts of the image whose bytes the library copies or writes over and never looks at: the file's
/// place and, where they are free, those that it may get.
fn stand_ins(call: &Call, image: &Image, desk: &mut Desk, disc: &Disc) -> Vec<Range<u64>> {
    let Some(Kind::File { offset, size }) = call.file().map(|at| disc.nodes[at as usize].kind)
    else {
        return Vec::new();
    };
    let span = |at: u32, size: u32| u64::from(at)..u64::from(at) + u64::from(size);
    let mut found = |size: u32| {
        let place = counter::allocate(image.bytes(), &mut desk.lend(), size, CLUSTER);
        place.ok().map(|place| place.offset)
    };
    let old = span(offset, size);
    let mut places = Vec::new();
    match call.what {
        What::Move(_, to) => places.push(span(to, size)),
        What::Resize(_, to) if to > size => places.extend(found(to).map(|at| span(at, size))),
        What::Fill(_, clip) if clip.len() > size as usize => {
            let len = u32::try_from(clip.len()).unwrap_or(u32::MAX);
            places.push(old.end..old.start + u64::from(len));
            places.extend(found(len).map(|at| span(at, len)));
        }
        _ => {}
    }
    // A table that grows must find its own bytes behind it. Where there is none anew, the edit is refused.
    let anew = table_anew(image, desk).map_or(u64::MAX, |table| table.len() as u64);
    let tables = table_end(&disc.opened).max(anew.saturating_add(disc.opened.fst_offset.into()));
    let free = |place: &Range<u64>| {
        place.start >= tables
            && disc.free.iter().any(|region| {
                let region = span(region.offset, region.size);
                region.start <= place.start && place.end <= region.end
            })
    };
    places.retain(free);
    places.push(old);
    places
}
