//! What counter-write decides on an edit before anything is written, and the image as the edit leaves it, to be told.

use crate::account::{Account, Turn};
use crate::beside::Note;
use crate::call::{Call, What, Wish};
use crate::disc::{Disc, Kind, Node};
use crate::explain::refusal;
use crate::failure::{DATA, Failure, INTERNAL, Outcome};
use crate::fault::About;
use crate::header::Header;
use crate::image::{Desk, Image};
use crate::kept::Kept;
use crate::maximum::Maximum;
use crate::names;
use crate::planned::Planned;
use crate::writer::{Answer, Lent, Writer};

/// An edit, with all that goes with it.
pub struct Asked<'a> {
    pub wish: &'a Wish,
    pub call: &'a Call<'a>,
    pub before: &'a Disc,
    pub turn: &'a Turn,
    pub kept: Option<&'a Kept>,
    pub clip: Option<&'a Lent>,
    /// What whoever finishes it should know of it.
    pub note: Note,
}

pub struct Decision {
    pub planned: Planned,
    /// The entry's number in the new table, where the edit makes one.
    pub found: Option<u32>,
    pub after: Disc,
    /// The record as it comes back.
    pub turn: Turn,
    /// Where the edit states another maximum: before and after, and the table held against it.
    pub stated: Option<(u32, u32)>,
    pub maximum: Option<Maximum>,
    /// Whether the image stays as it is.
    pub is_nothing: bool,
}

impl Decision {
    /// Whether a clip is written.
    pub fn fills(&self) -> bool {
        !self.is_nothing && !self.planned.clip.is_empty()
    }
}

/// Has it decided. The image here is afterwards as the edit leaves it, in memory, as far as that is looked at; the
/// program waits for a yes or a no.
pub fn decide(
    asked: &Asked,
    writer: &mut Writer,
    image: &mut Image,
    desk: &mut Desk,
) -> Outcome<Decision> {
    let planned = planned(asked, writer, image, desk)?;
    let Asked { wish, call, turn, .. } = asked;
    let account = match (call.what, planned.record) {
        (What::Maximum(_), None) => turn.account.clone(),
        (_, Some(record)) => Account { record, names: turn.account.names.clone() },
        (_, None) => return Err(otherwise(image)),
    };
    let is_nothing = planned.leaves(image.bytes()) && !brings_clip(wish, &planned, image)?;
    let stated = match call.what {
        What::Maximum(to) => Some((maximum(image)?, to)),
        _ => None,
    };
    planned.put(image.bytes_mut());
    let after = Disc::read(image, desk).map_err(|_| otherwise(image))?;
    let maximum = match stated {
        Some(_) => Some(Maximum::read(image, desk, &after.opened)?),
        None => None,
    };
    let found = call.makes_entry().then_some(planned.number);
    let turn = Turn { account, team: turn.team };
    let decision = Decision { planned, found, after, turn, stated, maximum, is_nothing };
    match is_as_asked(wish, call, &decision) {
        true => Ok(decision),
        false => Err(otherwise(image)),
    }
}

fn planned(
    asked: &Asked,
    writer: &mut Writer,
    image: &mut Image,
    desk: &mut Desk,
) -> Outcome<Planned> {
    let Asked { wish, call, before, turn, kept, clip, note } = asked;
    writer.note(&note.written());
    let names = &turn.account.names;
    let teams = names.numbers().map(|team| (team, names.name(team)));
    writer.record(kept.map(|kept| &*kept.file), teams);
    writer.totals(&turn.account.record);
    if let (Wish::Fill(_, bytes), Some(clip)) = (wish, clip) {
        writer.clip(clip, bytes.start(), bytes.len);
    }
    writer.edit(&call.request(turn.team));
    let answer = writer.answer();
    if let Answer::Refused(number) = answer {
        return Err(refusal(number, (wish, call), image, desk, before, turn));
    }
    let about = About {
        name: &image.name,
        place: image.path().unwrap_or("".as_ref()),
        record: kept.map(|kept| &*kept.file),
        clip: wish.clip_name(),
        edit: &wish.words(),
    };
    match answer {
        Answer::Decided(planned) => Ok(*planned),
        Answer::Failed(fault) => Err(about.failed(&fault)),
        Answer::Lost(why) => Err(about.lost_early(&why)),
        Answer::Unkept => {
            let record = about.record.map_or(String::new(), names::file);
            let text = format!("{record}: the record's text is longer than a journal holds");
            Err(Failure::error(DATA, text + "; nothing was written"))
        }
        _ => Err(otherwise(image)),
    }
}

/// The program answers what it cannot answer to this edit of this image.
fn otherwise(image: &Image) -> Failure {
    let text = format!(
        "{}: counter-write reads this edit otherwise than counter; nothing was written",
        image.name
    );
    Failure::error(INTERNAL, text)
}

fn maximum(image: &Image) -> Outcome<u32> {
    Header::read(image.bytes()).map(|header| header.fst_maximum()).map_err(|_| otherwise(image))
}

/// Whether a clip is written that is not there already.
fn brings_clip(wish: &Wish, planned: &Planned, image: &Image) -> Outcome<bool> {
    let Wish::Fill(_, clip) = wish else { return Ok(false) };
    let place = planned.clip.start as usize..planned.clip.end as usize;
    clip.is(image.bytes().get(place).unwrap_or_default()).map(|is| !is)
}

/// Whether it makes the entry, or leaves the file, that it is about.
fn is_as_asked(wish: &Wish, call: &Call, decision: &Decision) -> bool {
    let after = &decision.after;
    let node = |at: Option<u32>| after.nodes.get(at? as usize);
    let is_called = |name: &[u8]| {
        let named = |node: &Node| !after.has_paths() || node.name == name;
        node(decision.found).filter(|node| named(node))
    };
    let place = |at: u32| match node(Some(at)).map(|node| node.kind) {
        Some(Kind::File { offset, size }) => Some((offset, size)),
        _ => None,
    };
    match (call.what, wish) {
        (What::Insert(_, name), _) => is_called(name).is_some_and(|node| !node.is_directory()),
        (What::InsertFolder(_, name), _) => is_called(name).is_some_and(Node::is_directory),
        (What::MakeFolders(_), _) => node(decision.found).is_some(),
        (What::Move(at, to), _) => place(at).is_some_and(|(offset, _)| offset == to),
        (What::Resize(at, to), _) => place(at).is_some_and(|(_, size)| size == to),
        (What::Fill(at, _), Wish::Fill(_, clip)) => {
            place(at).is_some_and(|(_, size)| u64::from(size) == clip.len)
        }
        _ => after.opened.fst_size == decision.planned.new_size(),
    }
}
