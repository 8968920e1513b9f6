//! An edit that is decided on is carried out by counter-write, once there is room for it.

use crate::beside::{self, Beside, Line, Note};
use crate::call::Wish;
use crate::decision::Decision;
use crate::disk;
use crate::failure::{Failure, INPUT_OUTPUT, INTERNAL, Outcome};
use crate::fault::About;
use crate::finishing::{self, Finished, How, Opened};
use crate::image::Image;
use crate::kept::Kept;
use crate::planned::Planned;
use crate::progress::Progress;
use crate::text::human;
use crate::writer::{Answer, Fault, For, Lent, On, Writer};
use crate::{room, signals};
use std::fs::{self, File};
use std::path::Path;
use std::time::Instant;

/// The image to be edited with its writer, and the edit of it that was cut and is finished now.
pub fn open(path: &Path, clip: Option<&Lent>) -> Outcome<Opened> {
    let opened = finishing::open(path, &How::default(), clip)?;
    if let Some(finished) = &opened.finished {
        let Finished { words, file, on, .. } = finished;
        let file =
            file.as_ref().map_or(String::new(), |file| format!("; record written to {file}"));
        let on = on.as_ref().map_or(String::new(), |on| format!("; {on}"));
        eprintln!("counter: finished an edit that was cut: {words}{file}{on}");
        // The next one is not begun yet.
        signals::begin_writing(true);
    }
    Ok(opened)
}

/// The image to try an edit on, and a writer that only decides, on what is in it.
pub fn open_dry(path: &Path, clip: Option<&Lent>) -> Outcome<Opened> {
    let image = Image::dry(path)?;
    let file = image.file().ok_or_else(|| Failure::error(INTERNAL, "an edit without a file"))?;
    let writer = deciding(&image, file, clip)?;
    Ok(Opened { image, writer, finished: None })
}

/// A writer that only decides, on what is in this file.
pub fn deciding(image: &Image, file: &File, clip: Option<&Lent>) -> Outcome<Writer> {
    let mut writer = Writer::start(For::Decisions(file), image.bytes().len() as u64, clip)?;
    match writer.answer() {
        Answer::Ready { .. } => Ok(writer),
        Answer::Failed(fault) => Err(not_wanted(image, &fault.reason())),
        Answer::Lost(why) => Err(not_wanted(image, &why)),
        _ => Err(not_wanted(image, OTHERWISE)),
    }
}

/// The writer lets go of an edit that it was told not to make.
pub fn declined(image: &Image, writer: &mut Writer) -> Outcome<()> {
    match writer.answer() {
        Answer::Declined => Ok(()),
        Answer::Lost(why) => Err(not_wanted(image, &why)),
        _ => Err(not_wanted(image, OTHERWISE)),
    }
}

const OTHERWISE: &str = "counter-write answers otherwise than counter expects";

fn not_wanted(image: &Image, why: &str) -> Failure {
    Failure::error(INTERNAL, format!("{}: {why}; nothing was written", image.name))
}

/// What whoever finishes an edit should know of it.
pub fn note(wish: &Wish, team: u32, kept: Option<&Kept>, line: Option<Line>) -> Note {
    let (edit, maximum) = (Some(wish.words()), matches!(wish, Wish::Maximum(_)));
    Note { edit, maximum, team, old: kept.map(Kept::sum), line }
}

// Before anything is written --------------------------------------------------------------

/// Bytes of a block of most disks, and what the disk may want besides for its own books.
const BLOCK: u64 = 0x1000;
const SLACK: u64 = 0x1_0000;
const MORE_SLACK: u64 = 0x10_0000;

/// Holes, blocks that a reflink copy shares, and every block of a copy-on-write disk take new room once
/// they are written, and so does the journal, which holds table and clip; without room nothing is begun.
pub fn enough_room(image: &Image, planned: &Planned) -> Outcome<()> {
    let (Some(file), Some(left)) = (image.file(), image.file().and_then(room::left)) else {
        return Ok(());
    };
    let end = image.bytes().len() as u64;
    let elsewhere = room::copies_on_write(file);
    let (mut needed, mut shared) = (0, 0);
    for span in planned.spans() {
        if span.is_empty() {
            continue;
        }
        let span = span.start / BLOCK * BLOCK..span.end.next_multiple_of(BLOCK).min(end);
        shared += if elsewhere { span.end - span.start } else { room::shared(file, span.clone()) };
        needed += if elsewhere { 0 } else { room::holes(file, span) };
    }
    needed += shared;
    let clip = (planned.clip.end - planned.clip.start).next_multiple_of(BLOCK);
    let journal = planned.table.bytes.len() as u64 + 4 * BLOCK;
    let slack = if shared > 0 { MORE_SLACK } else { SLACK };
    // A journal that finds no room is told before the image is written; all else has to be sure.
    let short = needed > 0 && needed + needed / 64 + clip + journal + slack > left;
    if !disk::assumes_room() && (short || clip > left) {
        let text = format!(
            "{}: the disk is full: the edit takes {} of new room (holes, blocks shared with a copy, a \
             copy-on-write disk, or a clip), the disk has {} left; nothing was written",
            image.name,
            human(needed + clip),
            human(left)
        );
        return Err(Failure::error(INPUT_OUTPUT, text));
    }
    Ok(())
}

// The writing -----------------------------------------------------------------------------

/// An edit that is decided on.
pub struct Work<'a> {
    pub wish: &'a Wish,
    pub decision: &'a Decision,
    /// The line of a sheet that it is, and of how many.
    pub line: Option<(u32, u32)>,
    /// Since when it is worked at, a sheet's lines before it too.
    pub since: Instant,
}

/// Journal, image and record, each synced. What a cut leaves at any point, recovery finishes. Where an error does not
/// say that its journal is kept (78), nothing was written.
pub fn carry_out(
    work: &Work,
    image: &Image,
    writer: &mut Writer,
    kept: Option<&mut Kept>,
) -> Outcome<()> {
    let Work { wish, decision, line, since } = work;
    enough_room(image, &decision.planned)?;
    if let Some(kept) = &kept {
        kept.is_unchanged()?;
    }
    signals::begin_writing(true);
    if let Some(number) = signals::no_way_back() {
        let text = format!("{}: {}; nothing was written", image.name, signals::stopped_by(number));
        return Err(Failure::Signal { number, text });
    }
    let what = line.map_or("writing".into(), |(line, of)| format!("line {line} of {of}: writing"));
    let progress = Progress::within(*since, &what, decision.planned.amount());
    let edit = wish.words();
    let about = About {
        name: &image.name,
        place: image.path().unwrap_or("".as_ref()),
        record: kept.as_ref().map(|kept| &*kept.file),
        clip: wish.clip_name(),
        edit: &edit,
    };
    writer.go();
    loop {
        match writer.answer() {
            Answer::Progress(bytes) => progress.reach(bytes),
            Answer::Done => break,
            Answer::Failed(fault) if is_settled(&fault, about.place, writer) => {
                return Err(match is_done(work, image, kept.as_deref()) {
                    true => about.not_closed(&fault),
                    false => about.not_begun(&fault),
                });
            }
            Answer::Failed(fault) => return Err(about.failed(&fault)),
            Answer::Lost(why) => return Err(about.lost(&why)),
            _ => return Err(about.lost(OTHERWISE)),
        }
    }
    if let Some(kept) = kept {
        kept.is_replaced(decision.turn.account.text());
    }
    Ok(())
}

/// Whether the journal failed, and is closed: then the image is as it was, or as the edit makes it.
fn is_settled(fault: &Fault, place: &Path, writer: &mut Writer) -> bool {
    let is_journal = matches!(fault.on, On::Journal | On::Folder);
    fault.begun && is_journal && {
        writer.end();
        matches!(beside::look(place), Ok(Beside::Nothing))
    }
}

/// Which of both it is.
fn is_done(work: &Work, image: &Image, kept: Option<&Kept>) -> bool {
    let Work { wish, decision, .. } = work;
    let text = || kept.and_then(|kept| fs::read(&kept.file).ok()).unwrap_or_default();
    match wish {
        _ if decision.is_nothing => text() == decision.turn.account.text().into_bytes(),
        _ => image.file().is_some_and(|file| {
            // The mapping here shows what is decided, and not what became of it.
            let clip = match wish {
                Wish::Fill(_, clip) => clip.is_in(file, decision.planned.clip.start),
                _ => Ok(true),
            };
            clip.unwrap_or(false) && decision.planned.is_in(file)
        }),
    }
}
