//! The commands that edit: decided on and carried out by counter-write, which makes every test before it writes a
//! byte, and a journal; told here.

use crate::args::Args;
use crate::call::{Call, Wish};
use crate::carry::{self, Work, note};
use crate::decision::{Asked, decide};
use crate::disc::Disc;
use crate::edited;
use crate::failure::Outcome;
use crate::finishing::{Opened, finish};
use crate::image::Desk;
use crate::kept;
use crate::out::say;
use crate::progress::Progress;
use crate::record;
use crate::told::{dry, report};
use std::time::Instant;

pub fn edit(args: &Args) -> Outcome<()> {
    let path = args.image.as_deref().expect("an edit has an image");
    let wish = Wish::read(args, path)?;
    let file = kept::place(args, wish.clip())?;
    let clip = wish.lend_clip()?;
    let open = if args.dry { carry::open_dry } else { carry::open };
    let Opened { mut image, mut writer, .. } = open(path, clip.as_ref())?;
    let mut desk = Desk::new();
    let before = Disc::read(&image, &mut desk)?;
    let (turn, mut kept) = record::in_use(args, file.as_deref(), &image, &mut desk)?;
    let call = Call::new(&wish, &image, &mut desk)?;
    let progress = Progress::start("trying", 0);
    let asked = Asked {
        wish: &wish,
        call: &call,
        before: &before,
        turn: &turn,
        kept: kept.as_ref(),
        clip: clip.as_ref(),
        note: note(&wish, turn.team, kept.as_ref(), None),
    };
    let decision = decide(&asked, &mut writer, &mut image, &mut desk)?;
    drop(progress);
    let text = report(&wish, &call, &before, &decision);
    let told = args
        .json
        .then(|| edited::json(args, &wish, &call, &before, &decision).document().into_bytes());
    if args.dry {
        return say(&told.unwrap_or_else(|| dry(&text)));
    }
    let done = |words: &str| {
        told.unwrap_or_else(|| [&text, format!("done: {words}\n").as_bytes()].concat())
    };
    if decision.is_nothing && kept.is_none() {
        drop(writer);
        return say(&done("there was nothing to write"));
    }
    let work = Work { wish: &wish, decision: &decision, line: None, since: Instant::now() };
    carry::carry_out(&work, &image, &mut writer, kept.as_mut())?;
    // Its journal goes, and the image is free.
    drop(writer);
    finish(&done(match decision.is_nothing {
        true => "there was nothing to write",
        false => "written and synced",
    }))
}
