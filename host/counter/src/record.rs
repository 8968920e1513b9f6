//! The totals record: used bytes, the size of the largest free region, and of each team what it may take, has
//! taken, and how many of its edits were accepted. It goes into every edit and comes back; `--record FILE`
//! keeps it from one run to the next.
//!
//! What comes back is in the journal, and in FILE before the journal is closed. So an edit that was cut is counted
//! exactly if it is finished.

use crate::account::{self, Account, Turn};
use crate::args::Args;
use crate::disc::{not_opened, space};
use crate::failure::{CANNOT_CREATE, DATA, Failure, Outcome};
use crate::image::{Desk, Image};
use crate::json::Json;
use crate::kept::{self, Kept};
use crate::names;
use crate::os;
use crate::out::say;
use crate::teams::Listed;
use crate::text::grouped;
use crate::writer::not_utf8;
use counter_sys::{self as counter, Record};
use std::ffi::OsStr;
use std::path::Path;

// The record in use -----------------------------------------------------------------------

/// One of the image as it is, without an edit.
fn made(image: &Image, desk: &mut Desk, listed: Listed) -> Outcome<Account> {
    let Listed { names, limits, shares } = listed;
    let record = counter::make_record(image.bytes(), &mut desk.lend(), &limits, &shares)
        .map_err(|number| not_opened(image, number))?;
    Ok(Account { record, names })
}

/// The same without teams.
pub fn fresh(image: &Image, desk: &mut Desk) -> Outcome<Account> {
    made(image, desk, Listed::none())
}

/// The record that goes into an edit, from the file or fresh. The file is locked, unless the run is dry.
pub fn in_use(
    args: &Args,
    file: Option<&Path>,
    image: &Image,
    desk: &mut Desk,
) -> Outcome<(Turn, Option<Kept>)> {
    let fresh = fresh(image, desk)?;
    let Some(file) = file else {
        return Ok((Turn { account: fresh, team: 0 }, None));
    };
    if file.to_str().is_none() {
        return Err(not_utf8(file, "a record whose path"));
    }
    let kept = Kept::open(file, !args.dry)?;
    let there = read(&kept)?;
    let team = whose(file, there.as_ref(), args.team.as_deref())?;
    let account = match there {
        None => fresh,
        Some(account) if is_of(&account.record, &fresh.record) => account,
        Some(account) => return Err(of_another(file, image, &account, &fresh.record)),
    };
    Ok((Turn { account, team }, Some(kept)))
}

fn is_of(record: &Record, fresh: &Record) -> bool {
    (record.used, record.largest) == (fresh.used, fresh.largest)
}

/// The team that an edit goes by: one is named exactly if the record has teams.
fn whose(file: &Path, account: Option<&Account>, given: Option<&OsStr>) -> Outcome<u32> {
    const MAKE: &str = "`counter record IMAGE --record FILE --teams LIST";
    let shown = names::file(file);
    let teams = account.filter(|account| !account.names.is_empty()).map(|account| &account.names);
    Err(Failure::usage(match (teams, given) {
        (None, None) => return Ok(0),
        (None, Some(_)) if account.is_none() => {
            format!("--team: there is no record yet, {shown}; {MAKE}` makes one with teams")
        }
        (None, Some(_)) => format!(
            "--team: the record {shown} has no teams; leave it out, or {MAKE} --force` makes a new one with teams"
        ),
        (Some(names), None) => format!(
            "--team NAME or NUMBER is missing: the record {shown} has the teams {}",
            names.told()
        ),
        (Some(names), Some(given)) => match names.find(given) {
            Some(team) => return Ok(team),
            None => format!(
                "--team \"{}\": the record {shown} has no such team; it has {}",
                names::file(given),
                names.told()
            ),
        },
    }))
}

/// The record that an edit without a file leaves.
pub fn alone(image: &Image, desk: &mut Desk) -> Outcome<Turn> {
    let mut account = fresh(image, desk)?;
    account.record.teams[0].edits = 1;
    Ok(Turn { account, team: 0 })
}

/// The record that an edit of a team leaves in its file, if the text is one of a record with that team.
pub fn of(text: &[u8], team: u32) -> Option<Turn> {
    let account = Account::parse(text).ok()?;
    let has_team = account.names.numbers().any(|number| number == team);
    let is_one = if account.names.is_empty() { team == 0 } else { has_team };
    is_one.then_some(Turn { account, team })
}

// The command -----------------------------------------------------------------------------

/// `record`: a new one of the image, or one that is there.
pub fn record(args: &Args) -> Outcome<()> {
    if let Some(kept) = itself(args) {
        return shown(args, &kept);
    }
    let listed = match &args.teams {
        Some(list) => Listed::read(list)?,
        None => Listed::none(),
    };
    let place = kept::place(args, None)?;
    let (image, mut desk, space) = space(args.image.as_deref())?;
    let account = made(&image, &mut desk, listed)?;
    let mut notes = account.notes(space.opened.disc_end);
    if let Some(place) = &place {
        let mut kept = Kept::open(place, true)?;
        may_be_replaced(&kept, args)?;
        notes.extend(forgotten(&kept));
        os::holding(|| kept.put(&account.text()))?;
    }
    let (end, file) = (space.opened.disc_end, args.record.as_ref().map(names::file));
    if args.json {
        let notes = notes.into_iter().map(Json::from).collect();
        let fields = vec![
            ("record", account.json(Some(end))),
            ("notes", Json::List(notes)),
            ("out", file.into()),
        ];
        return say(Json::answer(fields).document().as_bytes());
    }
    let table = if account.names.is_empty() { String::new() } else { account.table() };
    let notes: String = notes.into_iter().map(|note| format!("note: {note}\n")).collect();
    let written = file.map_or(String::new(), |file| format!("written to {file}\n"));
    say([account.line(Some(end)), table, notes, written].concat().as_bytes())
}

/// What is gone with the record that was replaced.
fn forgotten(kept: &Kept) -> Option<String> {
    let old = Account::parse(kept.bytes.as_deref()?).ok()?;
    let counted = old.record.teams.iter().any(|team| team.taken > 0 || team.edits > 0);
    (counted && !old.names.is_empty()).then(|| {
        "what the teams had taken in the record that was there, and their edits, are set to 0"
            .into()
    })
}

/// What stands in the place of IMAGE, if that is a record.
fn itself(args: &Args) -> Option<Kept> {
    let kept = Kept::open(args.image.as_deref()?, false).ok()?;
    kept.bytes.as_deref().is_some_and(account::begins).then_some(kept)
}

/// A record that is there, without an image.
fn shown(args: &Args, kept: &Kept) -> Outcome<()> {
    let file = names::file(&kept.file);
    if args.record.is_some() || args.teams.is_some() {
        let text = format!("{file}: this is a record; --record and --teams want an image");
        return Err(Failure::usage(text));
    }
    let account = Account::parse(kept.bytes.as_deref().unwrap_or_default()).map_err(|why| {
        let text = format!("{file}: this record is torn, or of another version of counter: {why}");
        Failure::error(DATA, text)
    })?;
    if args.json {
        let fields = vec![("record", account.json(None))];
        return say(Json::answer(fields).document().as_bytes());
    }
    let table = match account.names.is_empty() {
        true => "it has no teams\n".into(),
        false => account.table(),
    };
    say([account.line(None), table].concat().as_bytes())
}

/// Only a record is replaced, and only if that is wanted; one with teams by one with teams.
fn may_be_replaced(kept: &Kept, args: &Args) -> Outcome<()> {
    let why = match &kept.bytes {
        None => return Ok(()),
        Some(bytes) if !account::begins(bytes) => "is there already, and is no record",
        Some(bytes) if account::has_teams(bytes) && args.teams.is_none() => {
            "is there already, and has teams; --force --teams LIST replaces it, or take it away"
        }
        Some(_) if !args.force => "is there already; --force replaces it",
        Some(_) => return Ok(()),
    };
    Err(Failure::error(CANNOT_CREATE, format!("{}: {why}", names::file(&kept.file))))
}

// What went wrong -------------------------------------------------------------------------

/// The record in the file; None if there is no file.
fn read(kept: &Kept) -> Outcome<Option<Account>> {
    let Some(bytes) = &kept.bytes else {
        return Ok(None);
    };
    let file = names::file(&kept.file);
    let why = match Account::parse(bytes) {
        Ok(account) => return Ok(Some(account)),
        Err(_) if !account::begins(bytes) => "this is no record; name another file".into(),
        Err(why) => {
            let anew = match account::has_teams(bytes) {
                true => {
                    "Put it right by hand, or `counter record IMAGE --record FILE --teams LIST --force` makes a \
                     new one, in which no team has taken anything"
                }
                false => "Take it away: then the edit makes a new one, which counts from 0",
            };
            format!("this record is torn, or of another version of counter: {why}. {anew}")
        }
    };
    Err(Failure::error(DATA, format!("{file}: {why}. Nothing was written")))
}

fn of_another(file: &Path, image: &Image, account: &Account, now: &Record) -> Failure {
    let (teams, or) = match account.names.is_empty() {
        true => ("", ", which counts from 0; or take the file away"),
        false => (" --teams LIST", ", in which no team has taken anything"),
    };
    let text = format!(
        "{0}: this record is not that of {1} as it is: it has {2} bytes used and {3} in the largest free \
         region, the image {4} and {5}. Somebody edited without it, or it is another image's; nothing was \
         written. `counter record {1} --record {0}{teams} --force` makes a new one{or}",
        names::file(file),
        image.name,
        grouped(account.record.used.into()),
        grouped(account.record.largest.into()),
        grouped(now.used.into()),
        grouped(now.largest.into())
    );
    Failure::error(DATA, text)
}
