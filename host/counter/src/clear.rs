//! `clear`: where the least has to be moved away for so many bytes in a row, and the moves that do it.

use crate::anew::all_refused;
use crate::args::{Args, Form};
use crate::cause::cause;
use crate::disc::{CLUSTER, Disc, not_opened, opened};
use crate::failure::{DATA, Failure, Outcome};
use crate::image::{Desk, Image};
use crate::json::{self, Json};
use crate::maximum::LEAST_ENTRY;
use crate::moves::{Goes, Moves, NextTable};
use crate::names::{self, for_terminal, shown};
use crate::out::say;
use crate::places::step;
use crate::save::{save, vacant};
use crate::sheet;
use crate::text::{both, bytes, counted, grouped, line, number, size};
use crate::way::{Blocking, Way, Wish};
use counter_sys::{CheapestRun, MOST_LINES};
use std::fmt::Write;
use std::os::unix::ffi::OsStrExt;
use std::path::Path;

pub fn clear(args: &Args) -> Outcome<()> {
    let size = number(&args.bytes(0)).map_err(Failure::usage)?;
    let wish = Wish { size, budget: args.budget };
    if let Some(out) = &args.sheet {
        if args.budget == Some(0) {
            return Err(Failure::usage(
                "--budget 0 tries no run, so there are no moves for --sheet",
            ));
        }
        vacant(out)?;
    }
    let (image, mut desk, disc) = opened(args.image.as_deref())?;
    let disc = disc.with_paths()?;
    let way = wish.find(&image, &mut desk, &disc)?;
    let Some(way) = &way else {
        return say(&match args.json {
            true => json(&image, &wish, None).document().into_bytes(),
            false => b"tried             none, with a budget of 0; there is a run\n".to_vec(),
        });
    };
    let next = NextTable::read(&image, &mut desk, &disc)?;
    let mut moves = Moves::planned(&disc, way, &next);
    moves.try_out(&image, &mut desk, &disc, &next, way.span())?;
    let free = u64::from(disc.opened.disc_end.saturating_sub(disc.opened.used));
    let short = u64::from(size).saturating_sub(free);
    let other = match moves.stay() {
        Some(1..) if short == 0 => other(&wish, &image, &mut desk, &disc, way, &next)?,
        _ => None,
    };
    let answer = Answer { args, image: &image, way, next, moves, short, other };
    let made = args.sheet.as_deref().map(|out| answer.make_sheet(out)).transpose()?;
    say(&match args.json {
        true => json(&image, &wish, Some(&answer)).document().into_bytes(),
        false => answer.text(made),
    })
}

struct Answer<'a> {
    args: &'a Args,
    image: &'a Image,
    way: &'a Way<'a>,
    next: NextTable,
    moves: Moves<'a>,
    /// How many bytes are asked for that are not free anywhere.
    short: u64,
    /// Where a file stays: another run whose files all find a place.
    other: Option<(String, CheapestRun)>,
}

/// Another run, whose files all find a place: the cheapest of fewer candidates, or one of some bytes more.
/// With what to ask for it. It costs more, unless a budget had left it out.
fn other(
    wish: &Wish,
    image: &Image,
    desk: &mut Desk,
    disc: &Disc,
    way: &Way,
    next: &NextTable,
) -> Outcome<Option<(String, CheapestRun)>> {
    const LOOKED_AT: u32 = 16;
    let freed = |wish: &Wish, desk: &mut Desk| {
        let way = wish.find(image, desk, disc)?;
        Ok(way.map(|way| (way.run, Moves::planned(disc, &way, next).frees_run())))
    };
    let mut run = way.run;
    for _ in 0..LOOKED_AT {
        let before = wish.before(image, desk, &run).map_err(|number| not_opened(image, number))?;
        match freed(&Wish { budget: Some(before), ..*wish }, desk)? {
            None => break,
            Some((found, true)) => return Ok(Some((format!("--budget {before}"), found))),
            Some((found, false)) => run = found,
        }
    }
    let too = if wish.budget.is_some() { " and the same --budget" } else { "" };
    // A little more costs least, so the steps grow: by a 128th of SIZE more, then by two more, and so on, to
    // a little over twice SIZE.
    let part = (u64::from(wish.size) / 128).max(1);
    let mut size = u64::from(wish.size);
    for parts in 1..=u64::from(LOOKED_AT) {
        size += part * parts;
        let Ok(size) = u32::try_from(size) else { break };
        let larger = Wish { size, ..*wish };
        match freed(&larger, desk) {
            Ok(Some((found, true))) => return Ok(Some((format!("a SIZE of {size}{too}"), found))),
            Ok(_) => {}
            Err(Failure::Refused { .. }) => break,
            Err(why) => return Err(why),
        }
    }
    Ok(None)
}

impl Answer<'_> {
    /// Writes the moves as a sheet, and says so.
    fn make_sheet(&self, out: &Path) -> Outcome<String> {
        if let Some(why) = self.no_sheet() {
            return Err(Failure::error(DATA, format!("{}: {why}", self.image.name)));
        }
        let lines = self.moves.lines();
        let sheet = sheet::written(&lines);
        sheet::holds(&sheet, &lines)?;
        save(out, &sheet)?;
        let lines = counted(lines.len(), "line", "lines");
        Ok(format!("made {}: {lines}, {}", names::file(out), bytes(sheet.len() as u64)))
    }

    /// Why one of the moves is of no use.
    fn no_sheet(&self) -> Option<String> {
        let free =
            || (self.moves.count() == 0).then(|| "the run is free, so there are no moves".into());
        self.unasked().or_else(|| self.not_freed()).or_else(free)
    }

    /// Whether it is free once the moves are made, all of which were accepted, so that a new file can go
    /// there.
    fn clears(&self) -> bool {
        self.moves.frees_run() && self.moves.accepted() == self.moves.count()
    }

    /// Where a new file goes, and how many bytes are free from there on then: to the first multiple of 0x8000
    /// if that leaves room for as many as are asked for, else to the first one of 4, if there is one.
    fn place(&self) -> Option<(u32, u64)> {
        let room = |at: u32| self.moves.end.saturating_sub(at.into());
        let aligned = self.way.aligned().filter(|&at| room(at) >= self.way.size.into());
        let fourth = || self.way.run.offset.checked_next_multiple_of(4).filter(|&at| room(at) > 0);
        let at = aligned.or_else(fourth).unwrap_or(self.way.run.offset);
        self.moves.frees_run().then(|| (at, room(at)))
    }

    // What is said ------------------------------------------------------------------------

    fn text(&self, made: Option<String>) -> Vec<u8> {
        let mut tail = self.stay();
        for note in self.notes() {
            let _ = writeln!(tail, "note: {note}");
        }
        let head = self.head().into_bytes();
        [head, self.table(), for_terminal(&tail).into_bytes(), self.commands(made)].concat()
    }

    fn head(&self) -> String {
        let (run, files) = (&self.way.run, self.way.files.len());
        let mut out = String::new();
        line(&mut out, "offset", both(run.offset));
        line(&mut out, "end", both(self.way.span().end as u32));
        line(&mut out, "size", size(self.way.size.into()));
        let aligned = match self.way.aligned() {
            None => format!("no multiple of {CLUSTER:#x} is in it"),
            Some(at) => {
                let rest = self.moves.end - u64::from(at);
                format!("{}, with {} from there on", both(at), bytes(rest))
            }
        };
        line(&mut out, "aligned", aligned);
        let tried = counted(run.tried as usize, "candidate", "candidates");
        let others = if self.way.all_tried { "all that there are" } else { "and there are more" };
        line(&mut out, "tried", format!("{tried}, {others}"));
        let cost = match files {
            0 => "0: the run is free".into(),
            _ => format!("{}, {}", size(run.cost.into()), counted(files, "file", "files")),
        };
        line(&mut out, "cost", cost);
        let cheaper = match run.bound {
            0 => "no run is".into(),
            bound => format!("another run may be, by {} at most", size(bound.into())),
        };
        line(&mut out, "cheaper", cheaper);
        out
    }

    /// The files in it, as they lie.
    fn table(&self) -> Vec<u8> {
        let mut out = Vec::new();
        for (file, goes) in self.way.files.iter().zip(&self.moves.goes) {
            if out.is_empty() {
                out.extend(b"    offset        size          bytes     goes to  path\n");
            }
            let Blocking { node, offset, size } = *file;
            let to = match goes {
                Goes::To(to) => format!("{to:#010x}"),
                Goes::Unasked => "-".into(),
                _ => "none".into(),
            };
            let bytes = grouped(size.into());
            out.extend(format!("{offset:#010x}  {size:#010x}  {bytes:>13}  {to:>10}  ").bytes());
            out.extend(shown(&node.path));
            out.push(b'\n');
        }
        out
    }

    /// Of the files that stay, why.
    fn stay(&self) -> String {
        let mut out = String::new();
        for why in [Goes::NoPlace, Goes::Hidden, Goes::TooLong] {
            let files = self.way.files.iter().zip(&self.moves.goes);
            let sizes = files.filter(|(_, goes)| **goes == why).map(|(file, _)| file.size);
            let sizes: Vec<u64> = sizes.map(u64::from).collect();
            let files = match (sizes.len(), bytes(sizes.iter().sum())) {
                (0, _) => continue,
                (1, all) => format!("1 file of {all}"),
                (many, all) => format!("{} files of {all} together", grouped(many as u64)),
            };
            let _ = match why {
                Goes::NoPlace => writeln!(
                    out,
                    "no place is left for {files}; the largest free region that is left outside of the run has {}",
                    bytes(self.moves.largest_left)
                ),
                Goes::Hidden if sizes.len() > 1 => {
                    writeln!(out, "no command moves {files}: their paths do not lead to them")
                }
                why => {
                    writeln!(out, "no command moves {files}: {}", why.detail().unwrap_or_default())
                }
            };
        }
        out
    }

    fn notes(&self) -> Vec<String> {
        let mut notes: Vec<String> = self.unasked().into_iter().collect();
        notes.extend(self.without_place());
        if self.image.is_cut() {
            let name = &self.image.name;
            notes.push(format!(
                "an edit of {name} was cut, and the next one finishes it first: ask again then"
            ));
        }
        notes.extend(self.off_step());
        notes.extend(self.little_room());
        notes.extend(self.off_multiple());
        notes.extend(self.behind_table());
        let (count, most) = (self.moves.count(), MOST_LINES);
        if count > most && self.args.sheet.is_some() {
            let [count, most] = [count, most].map(|count| grouped(count as u64));
            notes.push(format!(
                "a sheet has at most {most} lines, and there are {count} moves: ask again once those are made"
            ));
        }
        notes
    }

    /// Why no moves are told.
    fn unasked(&self) -> Option<String> {
        let NextTable { refusal, end, .. } = &self.next;
        if let Some((number, why)) = refusal {
            return Some(format!("no moves are told: {}", all_refused(*number, why)));
        }
        self.table_in_run()?;
        Some(format!(
            "no moves are told: the next edit writes the table anew, and then it ends at {end:#x}, behind the run's \
             start; give `{}`, and ask again",
            String::from_utf8_lossy(&self.command("rewrite", b"", &[]))
        ))
    }

    fn table_in_run(&self) -> Option<u64> {
        let NextTable { refusal, end, .. } = &self.next;
        (refusal.is_none() && *end > self.way.span().start).then_some(*end)
    }

    /// That the moves leave files in the run.
    fn not_freed(&self) -> Option<String> {
        let stay = counted(self.moves.stay().filter(|&stay| stay > 0)?, "file stays", "files stay");
        let moves = match self.moves.count() {
            0 => "no move frees the run",
            _ => "these moves do not free the run",
        };
        Some(format!("{moves}: {stay} in it"))
    }

    /// What may help where a file stays.
    fn without_place(&self) -> Option<String> {
        if self.short > 0 {
            let short = bytes(self.short);
            return Some(format!(
                "SIZE is {short} more than all that is free: files have to be made smaller by as much, no move does it"
            ));
        }
        if self.moves.stay().is_none_or(|stay| stay == 0) {
            return None;
        }
        Some(match &self.other {
            Some((ask, run)) => format!(
                "with {ask} every file finds a place: that run, at {:#x}, costs {}",
                run.offset,
                bytes(run.cost.into())
            ),
            None => "another run, which costs more, may do; a larger SIZE may show one".into(),
        })
    }

    /// A size that leaves room for what was asked for on a multiple of `step`, if a run can be that long.
    fn larger(&self, step: u32) -> Option<u32> {
        let larger = self.way.size.checked_add(step - 1)?;
        (u64::from(larger) <= self.way.longest).then_some(larger)
    }

    /// That a new file has fewer bytes than were asked for: the run's first multiple of 4 is behind its
    /// start.
    fn little_room(&self) -> Option<String> {
        let size = u64::from(self.way.size);
        let (at, room) = self.place().filter(|(_, room)| *room < size)?;
        let only = format!(
            "from {at:#x} on, the first multiple of 4, there is room for only {}, {} fewer than SIZE",
            bytes(room),
            size - room
        );
        Some(match self.larger(4) {
            Some(larger) => format!("{only}: ask for {}", grouped(larger.into())),
            None => format!("{only}; no run is 3 bytes longer"),
        })
    }

    /// That a new file's place is on no multiple of 0x8000, and what would be.
    fn off_multiple(&self) -> Option<String> {
        let (at, _) = self.place().filter(|(at, _)| !at.is_multiple_of(CLUSTER))?;
        let shorter = self.way.aligned().map(|aligned| {
            let room = bytes(self.moves.end - u64::from(aligned));
            format!("a file of at most {room} can go to {aligned:#x} in its place")
        });
        let more = self.larger(CLUSTER).map(|larger| {
            let size = bytes(self.way.size.into());
            format!("for one of {size} ask for {} bytes, 0x7fff more", grouped(larger.into()))
        });
        let what: Vec<String> = shorter.into_iter().chain(more).collect();
        let off = format!("{at:#x} is no multiple of {CLUSTER:#x}");
        (!what.is_empty()).then(|| format!("{off}: {}", what.join("; ")))
    }

    /// That what goes right behind the table leaves it no room.
    fn behind_table(&self) -> Option<String> {
        let places = self.moves.each().map(|(_, to)| to).chain(self.place().map(|(at, _)| at));
        let is_near = |at: &u32| u64::from(*at) < self.next.end + LEAST_ENTRY;
        let at = places.filter(is_near).min()?;
        Some(format!(
            "what goes to {at:#x} lies right behind the table: no entry can be added while it is there"
        ))
    }

    /// Of the files that find no place on the multiple that they lie on.
    fn off_step(&self) -> Vec<String> {
        const TOLD: usize = 12;
        let moved = self.moves.each().filter(|(file, to)| step(*to) < step(file.offset));
        let moved: Vec<_> = moved.collect();
        let told = moved.iter().take(TOLD).map(|(file, to)| {
            let (path, step) = (names::short(&file.node.path), step(file.offset));
            format!("{path} lies on a multiple of {step:#x}, and {to:#x} is none: no place on one is left")
        });
        let mut notes: Vec<String> = told.collect();
        if moved.len() > TOLD {
            notes.push(format!("so it is with {} more", grouped((moved.len() - TOLD) as u64)));
        }
        notes
    }

    // The commands ------------------------------------------------------------------------

    /// A command about the image and a path, as a shell takes it: the path as it is, and the command's words.
    fn command(&self, name: &str, path: &[u8], words: &[&[u8]]) -> Vec<u8> {
        let image = self.args.image.as_deref().unwrap_or(Path::new("IMAGE"));
        let dashed = [image.as_os_str().as_bytes(), path].iter().any(|it| it.starts_with(b"-"));
        let knows_raw = Form::find(name).is_some_and(|form| form.has("--bytes"));
        let raw = if self.args.raw && knows_raw { "--bytes " } else { "" };
        let dashes = if dashed { "-- " } else { "" };
        let mut out = format!("counter {name} {raw}{dashes}{}", names::word(image)).into_bytes();
        words.iter().for_each(|word| out.extend([b" ", *word].concat()));
        out
    }

    /// Those that make the run free, and then bring a new file there.
    fn commands(&self, made: Option<String>) -> Vec<u8> {
        let count = self.moves.count();
        // A sheet may have a part of the moves.
        let is_whole = made.is_none() || count <= MOST_LINES;
        let head = match (made, count) {
            (_, 0) => String::new(),
            (Some(made), _) => format!("{made}; {}\n", self.tried(true)),
            (None, 1) => format!("1 move; {}\n", self.tried(true)),
            (None, _) => {
                let tried = self.tried(count <= MOST_LINES);
                format!("{} moves, in this order; {tried}\n", grouped(count as u64))
            }
        };
        let mut lines: Vec<Vec<u8>> = match &self.args.sheet {
            Some(sheet) => {
                let path = sheet.as_os_str().as_bytes();
                vec![self.command("sheet", path, &[names::word(sheet).as_bytes()])]
            }
            None => {
                let moves = self.moves.words();
                moves.map(|(path, to)| self.a_move(path, to)).collect()
            }
        };
        if let Some((at, room)) = self.place().filter(|_| is_whole) {
            let file = format!("a new file of at most {}", bytes(room));
            let words = format!("then {file} (added, empty, before this was asked) goes there by");
            lines.push(words.into_bytes());
            lines.push(self.a_move(b"PATH", at));
            lines.push(self.command("fill", b"PATH", &[b"PATH", b"CLIP"]));
        }
        lines.extend(self.not_freed().map(String::into_bytes));
        let lines = lines.into_iter().flat_map(|line| [line, b"\n".to_vec()].concat());
        for_terminal(&head).into_bytes().into_iter().chain(lines).collect()
    }

    fn a_move(&self, path: &[u8], to: u32) -> Vec<u8> {
        self.command("move", path, &[&names::path_word(path), format!("{to:#x}").as_bytes()])
    }

    /// What a private copy says of the moves, of all of them or of the first ones.
    fn tried(&self, all: bool) -> String {
        match &self.moves.untried {
            Some(why) => format!("not tried: {why}"),
            None if all => "tried on a private copy and accepted:".into(),
            None => {
                let most = grouped(MOST_LINES as u64);
                format!("the first {most} were tried on a private copy and accepted:")
            }
        }
    }
}

// JSON ------------------------------------------------------------------------------------

/// None where no run was tried.
fn json(image: &Image, wish: &Wish, answer: Option<&Answer>) -> Json {
    let way = answer.map(|answer| answer.way);
    let moves = answer.map(|answer| &answer.moves);
    let run = way.map(|way| way.run);
    let files =
        answer.into_iter().flat_map(|answer| answer.way.files.iter().zip(&answer.moves.goes));
    let files = files.map(|(file, goes)| {
        let [path, path_bytes] = json::path(&file.node.path);
        let to = if let Goes::To(to) = goes { Some(*to) } else { None };
        Json::Object(vec![
            ("number", file.node.number.into()),
            path,
            path_bytes,
            ("offset", file.offset.into()),
            ("size", file.size.into()),
            ("to", to.into()),
            ("detail", goes.detail().into()),
        ])
    });
    let each = moves.into_iter().flat_map(Moves::words).map(|(path, to)| {
        let [path, path_bytes] = json::path(path);
        Json::Object(vec![path, path_bytes, ("offset", to.into())])
    });
    let refusal = answer.and_then(|answer| answer.next.refusal.as_ref()).map(|(number, why)| {
        Json::Object(vec![
            ("number", (*number).into()),
            ("cause", cause(*number).into()),
            ("detail", why.as_str().into()),
        ])
    });
    let untried = moves.and_then(|moves| moves.untried.as_deref());
    let place = answer.and_then(Answer::place);
    let notes = answer.map(Answer::notes).unwrap_or_default();
    let out = answer.and_then(|answer| answer.args.sheet.as_ref()).map(names::file);
    Json::answer(vec![
        ("image", image.name.as_str().into()),
        ("size", wish.size.into()),
        ("budget", wish.budget.into()),
        ("tried", run.map_or(0, |run| run.tried).into()),
        ("all_tried", way.is_some_and(|way| way.all_tried).into()),
        ("offset", run.map(|run| run.offset).into()),
        ("end", way.map(|way| way.span().end).into()),
        ("aligned", way.and_then(Way::aligned).into()),
        ("cost", run.map(|run| run.cost).into()),
        ("bound", run.map(|run| run.bound).into()),
        ("files", Json::List(files.collect())),
        ("no_place", moves.and_then(Moves::stay).into()),
        ("largest_left", moves.map(|moves| moves.largest_left).into()),
        ("table_in_run", answer.and_then(Answer::table_in_run).into()),
        ("moves", Json::List(each.collect())),
        ("accepted", moves.map_or(0, Moves::accepted).into()),
        ("refusal", refusal.into()),
        ("untried", untried.into()),
        ("clears", answer.is_some_and(Answer::clears).into()),
        ("place", place.map(|(at, _)| at).into()),
        ("room", place.map(|(_, room)| room).into()),
        ("out", out.into()),
        ("notes", Json::List(notes.into_iter().map(Json::from).collect())),
    ])
}
