//! `counter`: looks at GameCube disc images, edits them, compares them and makes them, over libcounter.a.
//!
//! No module knows one that knows it, not even in a round (tests/layers.rs).

// Before all others: its macros are theirs too.
#[macro_use]
mod out;

mod account;
mod anew;
mod area;
mod args;
mod banner;
mod beside;
mod call;
mod carry;
mod cause;
mod clear;
mod clip;
mod compare;
mod decision;
mod digests;
mod disc;
mod disk;
mod dol;
mod edit;
mod edited;
mod explain;
mod failure;
mod fault;
mod finishing;
mod given;
mod header;
#[cfg(test)]
mod headers;
mod help;
mod image;
mod json;
mod kept;
mod layout;
mod lines;
mod look;
mod make;
mod manifest;
mod map;
mod maximum;
mod moves;
mod names;
mod os;
mod outline;
mod pages;
mod places;
mod planned;
mod program;
mod progress;
mod record;
mod report;
mod room;
mod run;
mod save;
mod script;
mod sha256;
mod sheet;
mod signals;
mod small;
mod stored;
mod tables;
mod take;
mod teams;
mod text;
mod told;
mod tree;
mod trouble;
mod units;
mod value;
mod version;
mod wanted;
mod way;
mod writer;

use args::{Args, FORMS, Form};
use cause::cause;
use failure::{Failure, Measures, Outcome, Whose};
use json::Json;
use out::say;
use std::env;
use std::ffi::OsString;
use std::process;
use version::{LIBRARY, VERSION};

fn main() {
    os::catch_signals();
    let mut rest = env::args_os().skip(1);
    let json = env::args_os().skip(1).take_while(|arg| arg != "--").any(|arg| arg == "--json");
    let command = rest.next();
    let status = match command.as_ref().and_then(|name| name.to_str()) {
        None if command.is_none() => {
            eprint!("{}", help::USAGE);
            failure::USAGE.into()
        }
        Some("help" | "--help" | "-h") => finish(helped(rest.next()), json),
        Some("--version" | "-V" | "version") => {
            let text = format!("counter {VERSION}\nlibcounter.a SHA-256 {LIBRARY}\n");
            finish(say(text.as_bytes()).map(|()| 0), false)
        }
        name => match name.and_then(Form::find) {
            Some(form) => {
                let rest: Vec<OsString> = rest.collect();
                if Form::asks_help(&rest) {
                    finish(helped(Some(form.name.into())), false)
                } else {
                    finish(Args::read(form, rest).and_then(run), json)
                }
            }
            None => {
                let shown = names::file(command.unwrap_or_default());
                let near = text::nearest(&shown, FORMS.iter().map(|form| form.name));
                let near = near.map_or(String::new(), |near| format!("; is {near} meant?"));
                let text = format!("no command {shown}{near} (`counter help` has them)");
                finish(Err(Failure::usage(text)), json)
            }
        },
    };
    process::exit(status);
}

fn helped(subject: Option<OsString>) -> Outcome<u8> {
    let text = match subject {
        None => help::first(),
        Some(subject) => subject
            .to_str()
            .and_then(|subject| help::about(subject).or_else(|| pages::page(subject)))
            .ok_or_else(|| {
                let shown = names::file(&subject);
                let near = text::nearest(&shown, help::known());
                let near = near.map_or(String::new(), |near| format!("; is {near} meant?"));
                Failure::usage(format!("no help on {shown}{near}"))
            })?,
    };
    say(text.as_bytes())?;
    Ok(0)
}

/// Carries the command out; the answer is the exit status.
fn run(args: Args) -> Outcome<u8> {
    if args.shows_built_in() {
        eprintln!("counter: no IMAGE given: this is the {}", image::BUILT_IN);
    }
    if args.wait {
        image::wait_for_others();
    }
    // Whatever is put under such a name would be taken for an edit that was cut.
    if let Some(path) = args.made().into_iter().find(|path| beside::is_ours(path)) {
        let text = format!("{}: this is {}; name another file", names::file(path), beside::OURS);
        return Err(Failure::usage(text));
    }
    image::as_is(args.as_is, args.form.has("--as-is"));
    names::keep_raw(args.raw);
    match args.form.name {
        "info" => look::info(&args)?,
        "list" => tree::list(&args)?,
        "tree" => tree::tree(&args)?,
        "free" => look::free(&args)?,
        "find" => look::find(&args)?,
        "place" => look::place(&args)?,
        "clear" => clear::clear(&args)?,
        "check" => look::check(&args)?,
        "extract" => take::extract(&args)?,
        "cat" => take::cat(&args)?,
        "dol" => dol::dol(&args)?,
        "map" => map::map(&args)?,
        "hash" => manifest::hash(&args)?,
        "record" => record::record(&args)?,
        "compare" if args.tables => return tables::compare(&args),
        "compare" => return compare::compare(&args),
        "report" => return report::report(&args),
        "recover" => finishing::recover(&args)?,
        "new" => make::new(&args)?,
        "tables" => small::tables(&args)?,
        "sheet" => run::sheet(&args)?,
        _ => edit::edit(&args)?,
    }
    Ok(0)
}

/// Says what went wrong, and gives the exit status.
fn finish(outcome: Outcome<u8>, json: bool) -> i32 {
    let failure = match outcome {
        Ok(status) => return status.into(),
        Err(failure) => failure,
    };
    if let Failure::Pipe = failure {
        return os::end_by(os::SIGPIPE);
    }
    let (text, status, signal) = (failure.to_string(), failure.status(), failure.signal());
    if json {
        let _ = say(told(failure).document().as_bytes());
    }
    eprintln!("counter: {text}");
    signal.map_or(status.into(), os::end_by)
}

/// A failure as JSON.
fn told(failure: Failure) -> Json {
    let mut fields = vec![("status", Json::from(u32::from(failure.status())))];
    let (failure, more) = match failure {
        Failure::Stopped { why, fields, .. } => (*why, fields),
        other => (other, Vec::new()),
    };
    match &failure {
        Failure::Refused { number, what, detail, measures } => {
            fields.push(("refused", (*number).into()));
            fields.push(("cause", cause(*number).into()));
            fields.push(("about", what.as_str().into()));
            fields.push(("detail", detail.as_deref().into()));
            fields.extend(measures.as_ref().map(measured));
        }
        other => fields.push(("error", other.to_string().into())),
    }
    fields.extend(more);
    Json::Object(fields)
}

/// What a refusal is about, in numbers.
fn measured(measures: &Measures) -> (&'static str, Json) {
    let of = |team: &Whose| [("team", team.number.into()), ("name", team.name.as_deref().into())];
    let all = |team: &Whose, numbers: Vec<(&'static str, Json)>| {
        Json::Object(of(team).into_iter().chain(numbers).collect())
    };
    match measures {
        Measures::Table { before, after, maximum, above } => {
            let [before, after, maximum, above] =
                [before, after, maximum, above].map(|&n| n.into());
            let numbers =
                vec![("before", before), ("after", after), ("maximum", maximum), ("above", above)];
            ("table", Json::Object(numbers))
        }
        Measures::Least(least) => ("least", (*least).into()),
        Measures::Most(most) => ("most", (*most).into()),
        Measures::Limit { team, taken, cost, limit, above } => {
            let numbers = vec![
                ("taken", (*taken).into()),
                ("cost", (*cost).into()),
                ("limit", (*limit).into()),
                ("above", (*above).into()),
            ];
            ("limit", all(team, numbers))
        }
        Measures::Shares { team, cost, free, others, short } => {
            let numbers = vec![
                ("cost", (*cost).into()),
                ("free", (*free).into()),
                ("others", (*others).into()),
                ("short", (*short).into()),
            ];
            ("shares", all(team, numbers))
        }
    }
}
