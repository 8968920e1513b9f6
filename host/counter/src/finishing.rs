//! An edit that was cut is finished, by counter-write: for `recover`, and before the next edit. Here is told which one it
//! is, and looked whether its record is still the one that it was cut with.

use crate::account::Turn;
use crate::args::Args;
use crate::beside::{self, Beside, Journal, Line, Note, Now};
use crate::failure::{CANNOT_CREATE, CUT, Failure, Outcome, UNSAID};
use crate::fault::About;
use crate::image::{Desk, Image, untold};
use crate::json::Json;
use crate::kept::{self, Kept, Misfit};
use crate::names;
use crate::names::for_terminal;
use crate::out::say;
use crate::progress::Progress;
use crate::record;
use crate::signals;
use crate::writer::{Answer, For, Lent, Writer};
use counter_sys as counter;
use std::os::unix::ffi::OsStrExt;
use std::path::{Path, PathBuf};

pub fn recover(args: &Args) -> Outcome<()> {
    let path = args.image.as_deref().expect("recover has an image");
    let how = How { anyway: args.anyway, without_record: args.without_record };
    let Opened { writer, finished, .. } = open(path, &how, None)?;
    drop(writer);
    let told = match &finished {
        _ if args.json => json(finished.as_ref()).document(),
        None => "there is no journal: no edit was cut, nothing is to be done\n".into(),
        Some(edit) => format!(
            "finished an edit that was cut: {}\n{}{}{}done: written and synced\n",
            edit.words,
            edit.turn.as_ref().map_or(String::new(), |turn| turn.line(edit.disc_end)),
            edit.file.as_ref().map_or(String::new(), |file| format!("record written to {file}\n")),
            edit.on.as_ref().map_or(String::new(), |on| format!("{on}\n"))
        ),
    };
    let told = for_terminal(&told).into_bytes();
    if finished.is_some() { finish(&told) } else { say(&told) }
}

fn json(finished: Option<&Finished>) -> Json {
    Json::Object(vec![
        ("status", 0u32.into()),
        ("edit", "recover".into()),
        ("finished", finished.map(|edit| edit.words.as_str()).into()),
        ("written", finished.is_some().into()),
        ("out", finished.and_then(|edit| edit.file.as_deref()).into()),
        (
            "record",
            finished
                .and_then(|edit| edit.turn.as_ref().map(|turn| turn.json(edit.disc_end)))
                .into(),
        ),
        ("sheet", finished.and_then(|edit| edit.line.as_ref().map(line_json)).into()),
    ])
}

fn line_json(line: &Line) -> Json {
    Json::Object(vec![
        ("file", names::file(&line.sheet).into()),
        ("line", line.number.into()),
        ("lines", line.of.into()),
        ("from", (line.number < line.of).then_some(line.number + 1).into()),
        ("there", (line.now() == Now::Same).into()),
    ])
}

/// The record that goes with a sheet.
pub struct With {
    pub file: PathBuf,
    pub team: Option<String>,
}

impl With {
    fn of(file: &Path, turn: &Turn) -> With {
        let has_teams = !turn.account.names.is_empty();
        With { file: file.into(), team: has_teams.then(|| turn.team.to_string()) }
    }
}

/// What is left of the sheet of this line from line `next` on.
fn go_on(line: &Line, next: u32, image: &Path, with: Option<&With>) -> String {
    let file = || names::file(&line.sheet);
    match line.now() {
        _ if next > line.of => "that was the last line of the sheet".into(),
        Now::Same => from(Some(&line.sheet), image, next, with),
        Now::Nowhere => from(None, image, next, with),
        Now::Gone => format!("{} is not there any more, of which line {next} is the next", file()),
        Now::Another => {
            format!("of that sheet, which is not there any more, line {next} is the next")
        }
    }
}

/// The command that runs a sheet from a line on. One that came through a pipe has no name.
pub fn from(sheet: Option<&Path>, image: &Path, line: u32, with: Option<&With>) -> String {
    let files = [image, sheet.unwrap_or(Path::new("FILE"))];
    let [image, file] = files.map(names::word);
    let mut options = format!("--from {line}");
    if let Some(With { file, team }) = with {
        options += &format!(" --record {}", names::word(file));
        options.extend(team.iter().map(|team| format!(" --team {}", names::word(team))));
    }
    let same = if sheet.is_none() { "the same sheet: " } else { "" };
    match files.iter().any(|file| file.as_os_str().as_bytes().starts_with(b"-")) {
        true => format!("go on with {same}`counter sheet {options} -- {image} {file}`"),
        false => format!("go on with {same}`counter sheet {image} {file} {options}`"),
    }
}

/// An edit that was cut and is finished now: in words, and what its record is then. Another FST maximum counts
/// in none.
pub struct Finished {
    pub words: String,
    turn: Option<Turn>,
    /// The record's file, where it was written.
    pub file: Option<String>,
    /// The line of a sheet that it is, and what is left of that.
    pub line: Option<Line>,
    pub on: Option<String>,
    disc_end: u32,
}

/// Says the last word of an edit; that it is done and synced is told by the status too. Then a signal
/// that came meanwhile has its turn.
pub fn finish(text: &[u8]) -> Outcome<()> {
    finish_as(text, "during the edit", "the edit is done and synced")
}

/// The same of what is not an edit of an image.
pub fn finish_as(text: &[u8], during: &str, done: &str) -> Outcome<()> {
    if let Err(why) = say(text) {
        let text = format!("{done}, but its answer could not be printed: {why}");
        return Err(Failure::error(UNSAID, text));
    }
    match signals::signalled() {
        None => Ok(()),
        Some(number) => {
            let text = format!("{} came {during}; {done}", signals::name(number));
            Err(Failure::Signal { number, text })
        }
    }
}

/// What `recover` may be told.
#[derive(Default)]
pub struct How {
    /// A journal passes that was written for another file with the same contents.
    anyway: bool,
    /// The record's file stays as it is.
    without_record: bool,
}

// The finishing ---------------------------------------------------------------------------

/// An image that can be edited by its writer, and the edit of it that was cut and is finished now.
pub struct Opened {
    pub image: Image,
    pub writer: Writer,
    pub finished: Option<Finished>,
}

/// Opens the image, and starts its writer, which finishes an edit that was cut.
pub fn open(path: &Path, how: &How, clip: Option<&Lent>) -> Outcome<Opened> {
    let image = Image::edit(path)?;
    let place = image.path().unwrap_or(path).to_path_buf();
    loop {
        let cut = found(&image, &place)?.map(|journal| Cut::new(*journal, &image, &place, how));
        let cut = cut.transpose()?;
        if let Some((writer, finished)) = started(&image, &place, cut, how, clip)? {
            return Ok(Opened { image, writer, finished });
        }
        image.wait_for_others()?;
    }
}

/// The journal of an edit that was cut. While another program is at it, the image is in use.
fn found(image: &Image, place: &Path) -> Outcome<Option<Box<Journal>>> {
    let beside = match beside::look(place) {
        Ok(Beside::Nothing) => return Ok(None),
        _ => image.while_still(|| beside::look(place))?,
    };
    match beside.map_err(|e| untold(place, &e))? {
        Beside::Nothing => Ok(None),
        Beside::InTheWay => Err(in_the_way(place)),
        Beside::Old => Err(old(place)),
        Beside::Cut(journal) => Ok(Some(journal)),
    }
}

/// An edit that was cut, and may be finished.
struct Cut {
    words: String,
    note: Note,
    /// The record's file, what the edit leaves in it, and its lock.
    record: Option<(PathBuf, Turn)>,
    _kept: Option<Kept>,
}

impl Cut {
    fn new(journal: Journal, image: &Image, place: &Path, how: &How) -> Outcome<Cut> {
        let told = image.file().map(|file| file.metadata());
        let told = told.transpose().map_err(|e| untold(place, &e))?;
        match told.is_some_and(|told| journal.is_of(&told)) {
            _ if !journal.fits(image.bytes()) => {
                return Err(useless(place, "it belongs to another image"));
            }
            false if !how.anyway => return Err(doubtful(place)),
            _ => {}
        }
        let Journal { record, note, .. } = journal;
        let words = note.words();
        let mut kept = None;
        let record = match record {
            None => None,
            Some((file, text)) => {
                let turn = record::of(&text, note.team)
                    .ok_or_else(|| useless(place, "what it has for a record is none"))?;
                if !how.without_record {
                    let is_one = kept::before_or_behind(&file, note.old.as_ref(), &text);
                    kept = Some(is_one.map_err(|why| misfit(place, &file, &words, why))?);
                }
                Some((file, turn))
            }
        };
        Ok(Cut { words, note, record, _kept: kept })
    }

    /// What its note alone tells.
    fn told(note: &[u8]) -> Cut {
        let note = Note::read(note);
        Cut { words: note.words(), note, record: None, _kept: None }
    }

    /// The record that goes with its sheet.
    fn with(&self, how: &How) -> Option<With> {
        let written = self.record.as_ref().filter(|_| !how.without_record);
        written.map(|(file, turn)| With::of(file, turn))
    }

    /// As its writer has finished it.
    fn finished(self, image: &Image, place: &Path, how: &How) -> Outcome<Finished> {
        let with = self.with(how);
        let Cut { words, note, record, .. } = self;
        let mut desk = Desk::new();
        let opened = counter::open(image.bytes(), &mut desk.lend())
            .map_err(|number| not_opened(place, &words, number))?;
        let written = record.as_ref().filter(|_| !how.without_record);
        if let (None, Some((file, _))) = (written, &record) {
            eprintln!("counter: {}: left as it is, without this edit", names::file(file));
        }
        let file = written.map(|(file, _)| names::file(file));
        let turn = match (record, note.maximum) {
            (_, true) => None,
            (Some((_, turn)), _) => Some(turn),
            (None, _) => Some(record::alone(image, &mut desk)?),
        };
        let line = note.line;
        let on = line.as_ref().map(|line| left(line, line.number + 1, image, with.as_ref()));
        Ok(Finished { words, turn, file, line, on, disc_end: opened.disc_end })
    }
}

/// What is left of the sheet of a line; the image is called as it was given.
fn left(line: &Line, next: u32, image: &Image, with: Option<&With>) -> String {
    go_on(line, next, Path::new(&image.name), with)
}

/// The writer, once it waits for requests; none where another program is at the image.
fn started(
    image: &Image,
    place: &Path,
    cut: Option<Cut>,
    how: &How,
    clip: Option<&Lent>,
) -> Outcome<Option<(Writer, Option<Finished>)>> {
    let progress = cut.as_ref().map(|_| {
        signals::begin_writing(false);
        Progress::start("recovering", 0)
    });
    let How { anyway, without_record } = *how;
    let what = For::Edits { place, anyway, without_record };
    let mut writer = Writer::start(what, image.bytes().len() as u64, clip)?;
    let answer = loop {
        match writer.answer() {
            Answer::Progress(bytes) => {
                progress.iter().for_each(|progress| progress.reach(bytes));
            }
            answer => break answer,
        }
    };
    drop(progress);
    let words = cut.as_ref().map(|cut| cut.words.clone());
    let about = About {
        name: &image.name,
        place,
        record: cut.as_ref().and_then(|cut| cut.record.as_ref()).map(|(file, _)| &**file),
        clip: None,
        edit: words.as_deref().unwrap_or("an edit that was cut"),
    };
    let why = match answer {
        Answer::Ready { finished: false, .. } => return Ok(Some((writer, None))),
        Answer::Ready { finished: true, note } => {
            // Another program was cut between the look and the lock.
            let cut = cut.unwrap_or_else(|| Cut::told(&note));
            let finished = cut.finished(image, place, how)?;
            return Ok(Some((writer, Some(finished))));
        }
        Answer::Locked => return Ok(None),
        Answer::InTheWay => in_the_way(place),
        Answer::Old => old(place),
        Answer::Another => {
            useless(place, "it belongs to another image, or bytes of it were changed")
        }
        Answer::Failed(fault) if cut.is_some() && !fault.begun => {
            unfinished(place, about.edit, &fault.reason())
        }
        Answer::Failed(fault) => about.failed(&fault),
        Answer::Lost(why) if cut.is_some() => about.lost(&why),
        Answer::Lost(why) => about.lost_early(&why),
        _ if cut.is_some() => about.lost(OTHERWISE),
        _ => about.lost_early(OTHERWISE),
    };
    let line = cut.as_ref().and_then(|cut| Some((cut.note.line.as_ref()?, cut.with(how))));
    Err(match line.filter(|_| why.status() == CUT) {
        Some((line, with)) => {
            let on = left(line, line.number + 1, image, with.as_ref());
            why.then(format!("; {on}"), Vec::new())
        }
        None => why,
    })
}

// What is said: what happened, what state the image is in, what to do next ------------------

const OTHERWISE: &str = "counter-write answers otherwise than counter expects";

fn cut(text: String) -> Failure {
    Failure::error(CUT, text)
}

fn useless(path: &Path, why: &str) -> Failure {
    cut(format!(
        "{}: this journal cannot be used: {why}. Neither it nor the image was touched. Look at the image \
         with `counter check --as-is {}` and compare it with your copy; once you know that it is as it \
         should be, take the journal away",
        names::file(beside::beside(path)),
        names::file(path)
    ))
}

/// No edit was cut here, and none can begin.
fn in_the_way(path: &Path) -> Failure {
    let text = format!(
        "{}: this is where the journal of an edit belongs, and it is no file: a folder, a special file or a link. \
         It is no journal, and nothing was written. Take it away",
        names::file(beside::beside(path))
    );
    Failure::error(CANNOT_CREATE, text)
}

fn old(path: &Path) -> Failure {
    let (journal, image) = (names::file(beside::beside(path)), names::file(path));
    cut(format!(
        "{journal}: this journal is of a version of counter before this one. Nothing was touched. Finish the edit \
         with the version that wrote it (`counter recover {image}` there), or go back to your copy of the image and \
         take the journal away"
    ))
}

fn unfinished(path: &Path, words: &str, why: &str) -> Failure {
    cut(format!(
        "{0}: {why}: the edit that was cut ({words}) was not finished. Neither the image nor its journal was \
         touched; try `counter recover {0}` again",
        names::file(path)
    ))
}

fn not_opened(path: &Path, words: &str, number: u32) -> Failure {
    cut(format!(
        "{}: the edit that was cut ({words}) was finished as its journal says, but the image does not open \
         (refused {number}). Go back to your copy",
        names::file(path)
    ))
}

fn doubtful(path: &Path) -> Failure {
    cut(format!(
        "{0}: its journal was written for another file. Nothing was touched. If the image was brought back \
         from a copy, take {1} away. If it is the one that was cut (now on another disk, or the disk has \
         no lasting numbers), `counter recover --anyway {0}` finishes the edit",
        names::file(path),
        names::file(beside::beside(path))
    ))
}

/// Nothing is finished, so that the record is not left behind the image.
fn misfit(path: &Path, file: &Path, words: &str, why: Misfit) -> Failure {
    let (file, image) = (names::file(file), names::file(path));
    let (why, then) = match why {
        Misfit::Unread(why) => (why.to_string(), ""),
        Misfit::Changed => (format!("{file}: another program changed this record since"), PUT_BACK),
        Misfit::Gone => (format!("{file}: this record is not there any more"), PUT_BACK),
        Misfit::NoRecord => (format!("{file}: this is no record"), PUT_BACK),
        Misfit::NoFile => {
            (format!("{file}: no file is here any more, but a link or the like"), PUT_BACK)
        }
    };
    cut(format!(
        "{why}. So the edit that was cut ({words}) was not finished: neither the image nor its journal was touched. \
         {then}`counter recover {image}` finishes it; `counter recover {image} --without-record` does so too, and \
         leaves the record as it is"
    ))
}

const PUT_BACK: &str = "Put the record back as it was, then ";
