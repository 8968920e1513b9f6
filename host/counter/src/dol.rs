//! `dol`: the program's header, and the program itself.

use crate::args::Args;
use crate::disc::not_opened;
use crate::failure::Outcome;
use crate::image::{Desk, Image};
use crate::json::Json;
use crate::out::say;
use crate::progress::Progress;
use crate::save::save_window;
use crate::text::{both, hex, human, line, section, size};
use counter_sys::{self as counter, DOL_WORDS};
use std::fmt::Write;

/// The program's header, taken apart.
pub struct Dol {
    pub start: u32,
    pub size: u64,
    pub words: [u32; DOL_WORDS],
    pub window: counter::Window,
}

impl Dol {
    pub fn read(image: &Image, desk: &mut Desk) -> Result<Dol, u32> {
        let (words, window) = counter::open_dol(image.bytes(), &mut desk.lend())?;
        Ok(Dol { start: window.start as u32, size: window.length, words, window })
    }

    /// Name, offset in the program, address and size of each part that has bytes.
    pub fn sections(&self) -> Vec<(String, u32, u32, u32)> {
        let mut found = Vec::new();
        for i in 0..18 {
            let (offset, address, size) = (self.words[i], self.words[18 + i], self.words[36 + i]);
            if size != 0 {
                found.push((section(i), offset, address, size));
            }
        }
        found
    }
}

pub fn dol(args: &Args) -> Outcome<()> {
    let image = Image::read(args.image.as_deref())?;
    let mut desk = Desk::new();
    let dol = Dol::read(&image, &mut desk).map_err(|number| not_opened(&image, number))?;
    if let Some(out) = &args.out {
        let progress = Progress::start("dol", dol.window.length);
        save_window(&image, dol.window, out, &progress)?;
    }
    match args.json {
        true => say(dol_json(&dol).document().as_bytes()),
        false => say(dol_text(&dol).as_bytes()),
    }
}

fn dol_json(dol: &Dol) -> Json {
    let sections = dol.sections().into_iter().map(|(name, offset, address, size)| {
        Json::Object(vec![
            ("name", name.into()),
            ("offset", offset.into()),
            ("address", address.into()),
            ("size", size.into()),
        ])
    });
    Json::answer(vec![
        ("offset", dol.start.into()),
        ("size", dol.size.into()),
        ("entry_point", dol.words[56].into()),
        ("bss_address", dol.words[54].into()),
        ("bss_size", dol.words[55].into()),
        ("sections", Json::List(sections.collect())),
    ])
}

fn dol_text(dol: &Dol) -> String {
    let mut out = String::new();
    if dol.start == 0 {
        out.push_str(
            "The DOL offset is 0: the image names no program. Its first bytes, read as one:\n",
        );
    }
    line(&mut out, "offset", both(dol.start));
    line(&mut out, "size", size(dol.size));
    line(&mut out, "entry point", hex(dol.words[56]));
    line(&mut out, "bss", format!("{} of {}", hex(dol.words[54]), size(dol.words[55].into())));
    for (name, offset, address, bytes) in dol.sections() {
        let _ = writeln!(
            out,
            "{name:<17} offset {offset:#010x}  address {address:#010x}  size {bytes:#010x} ({})",
            human(bytes.into())
        );
    }
    out
}
