//! `sheet`: a sheet is run line by line, made of its text, or shown as that.

use crate::account::Turn;
use crate::args::Args;
use crate::beside;
use crate::call::{Call, Wish};
use crate::carry::{self, Work, note};
use crate::decision::{Asked, Decision, decide};
use crate::disc::Disc;
use crate::edited;
use crate::failure::{CUT, DATA, Failure, INPUT_OUTPUT, INTERNAL, Outcome, UNSAID};
use crate::finishing::{Finished, Opened, With, finish_as, from};
use crate::image::{Desk, Image};
use crate::json::{self, Json};
use crate::kept::{self, Kept};
use crate::lines::LONGEST;
use crate::names;
use crate::out::say;
use crate::outline::Outline;
use crate::progress::Progress;
use crate::record;
use crate::save::{save, vacant};
use crate::script;
use crate::sheet::{self, Kind, Line, Sheet};
use crate::signals;
use crate::text::counted;
use crate::told::{answer, dry, led, left};
use crate::writer::Writer;
use std::fs;
use std::path::{Path, PathBuf};
use std::time::Instant;

pub fn sheet(args: &Args) -> Outcome<()> {
    match &args.compile {
        Some(text) => compile(args, text),
        None if args.show => show(args),
        None => run(args),
    }
}

fn in_lines(count: u32) -> String {
    counted(count as usize, "line", "lines")
}

// Its text --------------------------------------------------------------------------------

fn compile(args: &Args, text: &Path) -> Outcome<()> {
    let out = args.path(0);
    vacant(&out)?;
    let lines = script::read(text)?;
    let bytes = sheet::written(&lines);
    sheet::holds(&bytes, &lines)?;
    if !args.dry {
        save(&out, &bytes)?;
    }
    if args.json {
        let fields = vec![
            ("edit", args.form.name.into()),
            ("out", names::file(&out).into()),
            ("dry_run", args.dry.into()),
            ("written", (!args.dry).into()),
            ("lines", lines.len().into()),
            ("bytes", bytes.len().into()),
        ];
        return say(Json::answer(fields).document().as_bytes());
    }
    let size = counted(bytes.len(), "byte", "bytes");
    let made = format!("made {}: {}, {size}\n", names::file(&out), in_lines(lines.len() as u32));
    say(&if args.dry { dry(made.as_bytes()) } else { made.into_bytes() })
}

fn show(args: &Args) -> Outcome<()> {
    let sheet = Sheet::read(&args.path(0))?;
    let (mut text, mut list) = (Vec::new(), Vec::new());
    for (line, n) in sheet.lines().zip(1u32..) {
        text.extend(script::written(&line));
        if text.len() as u64 > LONGEST {
            let name = names::file(&sheet.file);
            let why = format!("{name}: its text has more than 16 MiB, and none may have more");
            return Err(Failure::error(DATA, why));
        }
        list.push(Json::Object(shown(&line, n)));
    }
    if args.json {
        let fields = vec![
            ("edit", args.form.name.into()),
            ("sheet", names::file(&sheet.file).into()),
            ("lines", sheet.count().into()),
            ("edits", Json::List(list)),
        ];
        return say(Json::answer(fields).document().as_bytes());
    }
    say(&text)
}

fn shown(line: &Line, n: u32) -> Vec<(&'static str, Json)> {
    let (offset, size) = match line.kind {
        Kind::MakeFolder | Kind::Add => (None, None),
        Kind::Move(offset) => (Some(offset), None),
        Kind::Resize(size) => (None, Some(size)),
    };
    let [path, path_bytes] = json::path(&line.path);
    vec![
        ("line", n.into()),
        ("edit", line.kind.name().into()),
        path,
        path_bytes,
        ("offset", offset.into()),
        ("size", size.into()),
    ]
}

// The run ---------------------------------------------------------------------------------

fn run(args: &Args) -> Outcome<()> {
    let path = args.image.as_deref().expect("a sheet is run on an image");
    let sheet = Sheet::read(&args.path(0)).map_err(|why| without_sheet(path, why))?;
    let begin = first(args, &sheet)?;
    let file = kept::place(args, None)?;
    let (image, writer, finished) = opened(args, path)?;
    if let Some(finished) = &finished {
        may_begin(args, &sheet, finished)?;
    }
    let mut desk = Desk::new();
    let disc = Disc::read(&image, &mut desk)?;
    let (turn, kept) = record::in_use(args, file.as_deref(), &image, &mut desk)?;
    let (writer, outline) = match writer {
        Some(writer) => (writer, None),
        // What a line leaves is put there, and the next one is decided on that.
        None => {
            let outline = Outline::of(&image, &disc)?;
            (carry::deciding(&image, &outline.file, None)?, Some(outline))
        }
    };
    let table = disc.opened.fst_size;
    let run = Run {
        args,
        path,
        sheet,
        begin,
        written: false,
        finished: finished.map(|finished| finished.words),
        since: Instant::now(),
        table,
        image,
        writer,
        outline,
        desk,
        disc,
        turn,
        kept,
        results: Vec::new(),
        unsaid: None,
    };
    run.all()
}

/// The line to begin with.
fn first(args: &Args, sheet: &Sheet) -> Outcome<u32> {
    let Some(first) = args.first else { return Ok(1) };
    // One without lines is done from the first on.
    match (1..=sheet.count().max(1)).contains(&first) {
        true => Ok(first),
        false => Err(Failure::usage(format!(
            "--from {first}: {} has {}, numbered from 1 on",
            names::file(&sheet.file),
            in_lines(sheet.count())
        ))),
    }
}

/// A line of the same sheet was cut: whoever runs it again most likely does not want all lines again, nor that
/// one.
fn may_begin(args: &Args, sheet: &Sheet, finished: &Finished) -> Outcome<()> {
    let Some(cut) = finished.line.as_ref().filter(|cut| cut.sum == sheet.sum) else {
        return Ok(());
    };
    let (n, of) = (cut.number, cut.of);
    let next = match n < of {
        true => format!("--from {} goes on", n + 1),
        false => "it was the last one".into(),
    };
    let why = match args.first {
        None => format!(
            "line {n} of {of} was cut and is finished now, and nothing more was done; {next}; --from 1 would run \
             all lines again"
        ),
        Some(first) if first == n => format!("line {n} is done; {next}; nothing more was done"),
        Some(_) => return Ok(()),
    };
    let why = Failure::usage(format!("{}: {why}", names::file(&sheet.file)));
    Err(why.then(String::new(), of_cut(args, cut, Some(&finished.words))))
}

/// What the answer holds of a line that was cut, where no other was run.
fn of_cut(
    args: &Args,
    line: &beside::Line,
    finished: Option<&String>,
) -> Vec<(&'static str, Json)> {
    vec![
        ("edit", args.form.name.into()),
        ("sheet", names::file(&line.sheet).into()),
        ("lines", line.of.into()),
        ("from", (line.number < line.of).then_some(line.number + 1).into()),
        ("ran", 0u32.into()),
        ("line", line.number.into()),
        ("dry_run", args.dry.into()),
        ("written", finished.is_some().into()),
        ("finished", finished.map(String::as_str).into()),
    ]
}

/// The image, and its writer if the run is not dry. Where an edit was cut and is not finished, the answer holds its
/// line.
fn opened(args: &Args, path: &Path) -> Outcome<(Image, Option<Writer>, Option<Finished>)> {
    let standing = beside::line(&place(path));
    let opened = match args.dry {
        true => Image::dry(path).map(|image| (image, None, None)),
        false => carry::open(path, None)
            .map(|Opened { image, writer, finished }| (image, Some(writer), finished)),
    };
    opened.map_err(|why| match standing {
        Some(line) if [CUT, INPUT_OUTPUT].contains(&why.status()) => {
            why.then(String::new(), of_cut(args, &line, None))
        }
        _ => why,
    })
}

fn place(image: &Path) -> PathBuf {
    fs::canonicalize(image).unwrap_or(image.to_path_buf())
}

/// An edit of the image may have been cut, although there is no sheet to be read.
fn without_sheet(path: &Path, why: Failure) -> Failure {
    let image = names::word(path);
    let cut = format!(
        "; there is the journal of an edit of this image: unless another program is at it now, `counter recover \
         {image}` finishes it"
    );
    if beside::is_cut(&place(path)) { why.then(cut, Vec::new()) } else { why }
}

struct Run<'a> {
    args: &'a Args,
    path: &'a Path,
    sheet: Sheet,
    /// The line with which it begins.
    begin: u32,
    /// An edit that was cut before, in words.
    finished: Option<String>,
    since: Instant,
    /// The table's size before the first line.
    table: u32,
    /// As the lines so far leave it, in what is looked at of it.
    image: Image,
    writer: Writer,
    /// What the lines of a dry run are decided on.
    outline: Option<Outline>,
    desk: Desk,
    disc: Disc,
    turn: Turn,
    kept: Option<Kept>,
    /// Whether the image was.
    written: bool,
    results: Vec<Json>,
    /// Why an answer could not be printed.
    unsaid: Option<Failure>,
}

impl Run<'_> {
    fn all(mut self) -> Outcome<()> {
        for n in self.begin..=self.sheet.count() {
            let done = self.may_go_on(n).and_then(|()| self.line(n));
            if let Err(why) = done {
                return Err(self.stopped(n, why));
            }
        }
        let ran = in_lines(self.sheet.count() + 1 - self.begin);
        let words = match self.written {
            true => format!("done: {ran}, written and synced\n"),
            false => format!("done: {ran}, there was nothing to write\n"),
        };
        let last = match (self.args.json, self.args.dry) {
            (true, _) => Json::answer(self.fields(None)).document().into_bytes(),
            (false, true) => dry(&self.left()),
            (false, false) => [self.left(), words.into_bytes()].concat(),
        };
        if self.args.dry {
            return say(&last);
        }
        // Its journal goes, and the image is free.
        drop(self.writer);
        match self.unsaid {
            None => finish_as(&last, "during the sheet", "the sheet is done and synced"),
            Some(why) => {
                let text = "the sheet is done and synced, but its answer could not be printed";
                Err(Failure::error(UNSAID, format!("{text}: {why}")))
            }
        }
    }

    /// A signal has its turn between two lines.
    fn may_go_on(&self, n: u32) -> Outcome<()> {
        match signals::signalled() {
            Some(number) if n > self.begin && !self.args.dry => Err(Failure::Signal {
                number,
                text: format!("{} came before it", signals::name(number)),
            }),
            _ => Ok(()),
        }
    }

    fn line(&mut self, n: u32) -> Outcome<()> {
        let line = self.sheet.line(n);
        let name = line.kind.name();
        let wish = Wish::of_line(line);
        let call = Call::of_line(&wish, &self.image, &mut self.desk)?;
        let decision = self.decided(n, &wish, &call)?;
        let told = match self.args.json {
            true => {
                self.results.push(self.result(n, name, &wish, &call, &decision));
                None
            }
            false => {
                let mut told = answer(&wish, &call, &self.disc, &decision);
                if self.args.dry {
                    told.extend(record_after(&decision).into_bytes());
                }
                Some(led(format!("line {n}: ").as_bytes(), &told))
            }
        };
        let done = match &self.outline {
            Some(outline) => {
                self.writer.stop();
                carry::declined(&self.image, &mut self.writer)
                    .and_then(|()| outline.put(&decision.planned, &self.image))
            }
            None => self.carry_out(n, &wish, &decision),
        };
        done.inspect_err(|_| _ = self.results.pop())?;
        (self.disc, self.turn) = (decision.after, decision.turn);
        self.tell(told)
    }

    fn decided(&mut self, n: u32, wish: &Wish, call: &Call) -> Outcome<Decision> {
        let (of, kept) = (self.sheet.count(), self.kept.as_ref());
        let Sheet { place, sum, .. } = &self.sheet;
        let line = beside::Line { number: n, of, sheet: place.clone(), sum: *sum };
        let asked = Asked {
            wish,
            call,
            before: &self.disc,
            turn: &self.turn,
            kept,
            clip: None,
            note: note(wish, self.turn.team, kept, Some(line)),
        };
        let what = format!("line {n} of {of}: trying");
        let _progress = Progress::within(self.since, &what, 0);
        decide(&asked, &mut self.writer, &mut self.image, &mut self.desk)
    }

    fn carry_out(&mut self, n: u32, wish: &Wish, decision: &Decision) -> Outcome<()> {
        let work = Work { wish, decision, line: Some((n, self.sheet.count())), since: self.since };
        match decision.is_nothing && self.kept.is_none() {
            true => {
                self.writer.stop();
                carry::declined(&self.image, &mut self.writer)?;
            }
            false => {
                carry::carry_out(&work, &self.image, &mut self.writer, self.kept.as_mut())?;
            }
        }
        self.written |= !decision.is_nothing;
        // The next one is not begun yet.
        signals::begin_writing(true);
        Ok(())
    }

    // What is said ------------------------------------------------------------------------

    /// A line is told once it is done. Where nobody hears it, the others are done all the same.
    fn tell(&mut self, told: Option<Vec<u8>>) -> Outcome<()> {
        let Some(told) = told else { return Ok(()) };
        if self.args.dry {
            return say(&led(b"dry run: ", &told));
        }
        if self.unsaid.is_none() {
            self.unsaid = say(&told).err();
        }
        Ok(())
    }

    /// The table's size and the record, as the lines that ran leave them.
    fn left(&self) -> Vec<u8> {
        left(self.table, &self.disc, &self.turn)
    }

    /// Why it stopped at line `n`, what became of the lines before, and how it goes on.
    fn stopped(&mut self, n: u32, why: Failure) -> Failure {
        if let Failure::Pipe = why {
            return why;
        }
        let (count, dry) = (self.sheet.count(), self.args.dry);
        let why = why.at(&format!("{}, line {n} of {count}", names::file(&self.sheet.file)));
        let is_cut = why.status() == CUT;
        if !self.args.json && self.unsaid.is_none() {
            let left = self.left();
            let _ = say(&if dry { led(b"dry run: ", &left) } else { left });
        }
        let (first, last) = (self.begin, n - 1);
        let ran = match (dry, n - first) {
            (true, 0) => "no line would run".into(),
            (true, 1) => format!("line {last} would run"),
            (true, _) => format!("lines {first} to {last} would run"),
            (false, 0) => "no line ran".into(),
            (false, 1) => format!("line {last} ran and stays"),
            (false, _) => format!("lines {first} to {last} ran and stay"),
        };
        let team = self.args.team.as_ref().map(names::file);
        let with = self.args.record.clone().map(|file| With { file, team });
        let from = |n: u32| from(self.sheet.named(), self.path, n, with.as_ref());
        let then = match &why {
            _ if dry => "nothing was written".into(),
            _ if why.status() == INTERNAL => "no other was run".into(),
            _ if is_cut && n == count => "this one is the last".into(),
            _ if is_cut => format!("once this one is finished, {}", from(n + 1)),
            Failure::Refused { .. } => format!("once this one is put right, {}", from(n)),
            _ => from(n),
        };
        why.then(format!("; {ran}; {then}"), self.fields(Some(n)))
    }

    /// What the answer holds besides its status; the line is one that did not run.
    fn fields(&mut self, line: Option<u32>) -> Vec<(&'static str, Json)> {
        let ran = line.unwrap_or(self.sheet.count() + 1) - self.begin;
        vec![
            ("edit", self.args.form.name.into()),
            ("sheet", names::file(&self.sheet.file).into()),
            ("lines", self.sheet.count().into()),
            ("from", self.begin.into()),
            ("ran", ran.into()),
            ("line", line.into()),
            ("dry_run", self.args.dry.into()),
            ("written", self.written.into()),
            ("finished", self.finished.take().into()),
            ("edits", Json::List(std::mem::take(&mut self.results))),
            ("record", self.turn.json(self.disc.opened.disc_end)),
        ]
    }

    fn result(&self, n: u32, name: &str, wish: &Wish, call: &Call, decision: &Decision) -> Json {
        let [path, path_bytes] = json::path(wish.path().unwrap_or_default());
        let written = !self.args.dry && !decision.is_nothing;
        let mut fields = vec![
            ("line", n.into()),
            ("edit", name.into()),
            path,
            path_bytes,
            ("written", written.into()),
        ];
        fields.extend(edited::answer(wish, call, &self.disc, decision));
        fields.push(("record", decision.turn.json(decision.after.opened.disc_end)));
        Json::Object(fields)
    }
}

/// The record as a line leaves it.
fn record_after(decision: &Decision) -> String {
    decision.turn.line(decision.after.opened.disc_end)
}
