//! The edits: what is asked on the command line, and the one edit that it comes to: as counter-write is asked for it,
//! and as a call of the library, by which a refusal is explained.

use crate::args::Args;
use crate::clip::Clip;
use crate::disc::{A_FOLDER, CLUSTER, TOO_LONG, a_file_on, no_path};
use crate::failure::{Failure, Outcome};
use crate::image::{Desk, Image};
use crate::names::{short, text};
use crate::sheet::{Kind, Line};
use crate::text::{grouped, number};
use crate::units::{parts, trouble};
use crate::writer::{Lent, digits};
use counter_sys::{self as counter, MOST_PATH, Memory, Record};
use std::fs::Metadata;
use std::path::Path;

/// What was asked, in the words of the command line.
pub enum Wish {
    MakeFolders(Vec<u8>),
    /// One folder, whose parent is there: a sheet makes no others.
    MakeFolder(Vec<u8>),
    Add(Vec<u8>),
    Move(Vec<u8>, u32),
    /// To a place that is found.
    MoveAway(Vec<u8>),
    Resize(Vec<u8>, u32),
    Fill(Vec<u8>, Clip),
    Rewrite,
    /// Another FST maximum.
    Maximum(u32),
}

impl Wish {
    pub fn read(args: &Args, image: &Path) -> Outcome<Wish> {
        let given = |n| number(&args.bytes(n)).map_err(Failure::usage);
        let wanted = || given(1);
        Ok(match args.form.name {
            "mkdir" => Wish::MakeFolders(args.entry(0)?),
            "add" => Wish::Add(args.entry(0)?),
            "move" if args.bytes(1) == b"auto" => Wish::MoveAway(args.entry(0)?),
            "move" => Wish::Move(args.entry(0)?, wanted()?),
            "resize" => Wish::Resize(args.entry(0)?, wanted()?),
            "fill" => {
                let path = args.entry(0)?;
                let clip = Clip::open(args, &path, image)?;
                Wish::Fill(path, clip)
            }
            "maximum" => Wish::Maximum(given(0)?),
            _ => Wish::Rewrite,
        })
    }

    /// What a line of a sheet asks for.
    pub fn of_line(Line { kind, path }: Line) -> Wish {
        match kind {
            Kind::MakeFolder => Wish::MakeFolder(path),
            Kind::Add => Wish::Add(path),
            Kind::Move(to) => Wish::Move(path, to),
            Kind::Resize(to) => Wish::Resize(path, to),
        }
    }

    /// The path that it is about.
    pub fn path(&self) -> Option<&[u8]> {
        match self {
            Wish::MakeFolders(path)
            | Wish::MakeFolder(path)
            | Wish::Add(path)
            | Wish::Move(path, _)
            | Wish::MoveAway(path)
            | Wish::Resize(path, _)
            | Wish::Fill(path, _) => Some(path),
            Wish::Rewrite | Wish::Maximum(_) => None,
        }
    }

    /// What is told of the clip's file, where there is a clip.
    pub fn clip(&self) -> Option<Metadata> {
        match self {
            Wish::Fill(_, clip) => clip.told(),
            _ => None,
        }
    }

    /// The clip's file, for the program that writes it.
    pub fn lend_clip(&self) -> Outcome<Option<Lent>> {
        match self {
            Wish::Fill(_, clip) => clip.lend().map(Some),
            _ => Ok(None),
        }
    }

    /// How the clip is called.
    pub fn clip_name(&self) -> Option<&str> {
        match self {
            Wish::Fill(_, clip) => Some(&clip.name),
            _ => None,
        }
    }

    /// How it is called where it is refused.
    pub fn words(&self) -> String {
        let path = self.path().map(called).unwrap_or_default();
        match self {
            Wish::MakeFolders(_) | Wish::MakeFolder(_) => format!("mkdir {path}"),
            Wish::Add(_) => format!("add {path}"),
            Wish::Move(_, to) => format!("move {path} to {to:#x}"),
            Wish::MoveAway(_) => format!("move {path} to a place of its size"),
            Wish::Resize(_, to) => format!("resize {path} to {} bytes", grouped((*to).into())),
            Wish::Fill(_, clip) => format!("fill {path} with {}", clip.words()),
            Wish::Rewrite => "rewrite".into(),
            Wish::Maximum(to) => format!("maximum {}", grouped((*to).into())),
        }
    }

    /// What is wrong with the names that it would make, where they are refused with 12 or 13.
    fn trouble(&self, number: u32) -> Option<String> {
        match self {
            Wish::Add(path) | Wish::MakeFolder(path) => match cut(path).1 {
                name @ (b"." | b"..") => Some(format!("no entry is called {}", text(name))),
                name => trouble(name, number),
            },
            Wish::MakeFolders(path) => {
                let mut parts = parts(path).into_iter().filter(|part| !part.is_empty());
                parts.find_map(|part| trouble(part, number))
            }
            _ => None,
        }
    }
}

/// The same with paths looked up.
#[derive(Clone, Copy)]
pub struct Call<'a> {
    pub what: What<'a>,
}

#[derive(Clone, Copy)]
pub enum What<'a> {
    MakeFolders(&'a [u8]),
    Insert(u32, &'a [u8]),
    InsertFolder(u32, &'a [u8]),
    Move(u32, u32),
    Resize(u32, u32),
    /// With zeros in the place of the clip.
    Fill(u32, &'a [u8]),
    Rewrite,
    Maximum(u32),
}

impl<'a> What<'a> {
    /// What is wished for, with paths looked up by `find`; a place that is not known yet is 0.
    fn of<E>(wish: &'a Wish, mut find: impl FnMut(&[u8]) -> Result<u32, E>) -> Result<What<'a>, E> {
        Ok(match wish {
            Wish::MakeFolders(path) => What::MakeFolders(path),
            Wish::MakeFolder(path) => {
                let (folder, name) = cut(path);
                What::InsertFolder(find(folder)?, name)
            }
            Wish::Add(path) => {
                let (folder, name) = cut(path);
                What::Insert(find(folder)?, name)
            }
            Wish::Move(path, to) => What::Move(find(path)?, *to),
            Wish::MoveAway(path) => What::Move(find(path)?, 0),
            Wish::Resize(path, to) => What::Resize(find(path)?, *to),
            Wish::Fill(path, clip) => What::Fill(find(path)?, clip.zeros()),
            Wish::Rewrite => What::Rewrite,
            Wish::Maximum(to) => What::Maximum(*to),
        })
    }
}

impl<'a> Call<'a> {
    pub fn new(wish: &'a Wish, image: &Image, desk: &mut Desk) -> Outcome<Call<'a>> {
        let find = |path: &[u8]| {
            counter::lookup(image.bytes(), &mut desk.lend(), 0, path)
                .map(|entry| entry.number())
                .map_err(|refused| no_path(image, desk, refused, path))
        };
        let mut what = What::of(wish, find)?;
        if let (Wish::MoveAway(_), What::Move(at, place)) = (wish, &mut what) {
            *place = place_for(*at, image, desk).map_err(|number| refused(wish, number))?;
        }
        Ok(Call { what })
    }

    /// The same of a line of a sheet. No path of one is longer than 1,024 bytes (9).
    pub fn of_line(wish: &'a Wish, image: &Image, desk: &mut Desk) -> Outcome<Call<'a>> {
        let path = wish.path().unwrap_or_default();
        if path.len() > MOST_PATH {
            return Err(refused(wish, 9).because(TOO_LONG));
        }
        let find = |path: &[u8]| {
            counter::lookup(image.bytes(), &mut desk.lend(), 0, path).map(|entry| entry.number())
        };
        match What::of(wish, find) {
            Ok(what) => Ok(Call { what }),
            Err(17) => Err(refused(wish, 17).because(a_file_on(image, desk, path))),
            Err(number) => Err(refused(wish, number)),
        }
    }

    /// The words in which counter-write is asked for it.
    pub fn request(&self, team: u32) -> String {
        match self.what {
            What::MakeFolders(path) => format!("edit {team} make-directories {}", digits(path)),
            What::Insert(parent, name) => {
                format!("edit {team} insert-file {parent} {}", digits(name))
            }
            What::InsertFolder(parent, name) => {
                format!("edit {team} insert-directory {parent} {}", digits(name))
            }
            What::Move(at, to) => format!("edit {team} move {at} {to}"),
            What::Resize(at, to) => format!("edit {team} resize {at} {to}"),
            What::Fill(at, _) => format!("edit {team} fill {at}"),
            What::Rewrite => format!("edit {team} rewrite"),
            What::Maximum(to) => format!("maximum {to}"),
        }
    }

    /// Whether it makes an entry, whose number is told.
    pub fn makes_entry(&self) -> bool {
        matches!(self.what, What::MakeFolders(_) | What::Insert(..) | What::InsertFolder(..))
    }

    /// The file whose place or bytes it changes, where it is about one.
    pub fn file(&self) -> Option<u32> {
        match self.what {
            What::Move(at, _) | What::Resize(at, _) | What::Fill(at, _) => Some(at),
            _ => None,
        }
    }

    /// The same edit by the library, of an image that is written in memory only. The record comes back.
    pub fn run(
        &self,
        image: &mut [u8],
        mut memory: Memory,
        record: &mut Record,
        team: u32,
    ) -> Result<(), u32> {
        let memory = &mut memory;
        match self.what {
            What::MakeFolders(path) => {
                counter::make_directories(image, memory, record, team, 0, path).map(drop)
            }
            What::Insert(parent, name) => {
                counter::insert_file(image, memory, record, team, parent, name).map(drop)
            }
            What::InsertFolder(parent, name) => {
                counter::insert_directory(image, memory, record, team, parent, name).map(drop)
            }
            What::Move(at, to) => counter::move_file(image, memory, record, team, at, to),
            What::Resize(at, to) => counter::resize_file(image, memory, record, team, at, to),
            What::Fill(at, clip) => counter::fill_file(image, memory, record, team, at, clip),
            What::Rewrite => counter::rewrite(image, memory, record, team),
            // No call of the library writes it.
            What::Maximum(_) => Ok(()),
        }
    }
}

/// A path in words. A sheet's can be empty, and of any length.
fn called(path: &[u8]) -> String {
    match path.len() {
        0 => "\"\"".into(),
        1..=MOST_PATH => text(path),
        _ => short(path),
    }
}

/// Whether its first name is `..`.
fn above_root(path: &[u8]) -> bool {
    parts(path).into_iter().find(|part| !part.is_empty()) == Some(b"..")
}

/// A path cut at its last `/`, which is in no pair: the folder, and the name in it.
fn cut(path: &[u8]) -> (&[u8], &[u8]) {
    match path.iter().rposition(|&b| b == b'/') {
        Some(at) => (&path[..at], &path[at + 1..]),
        None => (&[], path),
    }
}

/// The largest free place for file `at`, as a file that has to move in order to grow finds it.
fn place_for(at: u32, image: &Image, desk: &mut Desk) -> Result<u32, u32> {
    let size = counter::open_file(image.bytes(), &mut desk.lend(), at)?.length as u32;
    counter::allocate(image.bytes(), &mut desk.lend(), size, CLUSTER).map(|place| place.offset)
}

/// The library's refusal, with what it means for this edit.
pub fn refused(wish: &Wish, number: u32) -> Failure {
    let failure = Failure::refused(number, wish.words());
    match (number, wish) {
        (9, Wish::MakeFolders(path)) if path.len() > MOST_PATH => failure.because(TOO_LONG),
        (9, Wish::Rewrite) => {
            failure.because("with no name shared the table would pass its limits")
        }
        (9, _) => failure.because("more entries, bytes of names or levels than a table may have"),
        (12 | 13, _) => match wish.trouble(number) {
            Some(trouble) => failure.because(trouble),
            None => failure,
        },
        (16, _) => failure.because(A_FOLDER),
        (18, Wish::MakeFolder(path) | Wish::Add(path)) if above_root(path) => {
            failure.because("a path begins at the root, and nothing is above it")
        }
        // Of a line alone: a command looks the path up itself.
        (18, Wish::MakeFolder(path) | Wish::Add(path)) => failure.because(format!(
            "there is no folder {}; a line makes one folder alone",
            called(cut(path).0)
        )),
        (20, Wish::Move(..)) => failure.because("the new place overlaps the old one"),
        (21, Wish::Move(..)) => failure
            .because("the new place is not free, or the table has no room; see `counter free`"),
        (21, Wish::MoveAway(_)) => failure.because(
            "no free place on a multiple of 0x8000 is that long, or the table has no room; see \
             `counter free`",
        ),
        (21, Wish::Fill(_, clip)) if clip.len > u32::MAX.into() => {
            failure.because("a file has at most 4,294,967,295 bytes")
        }
        (21, Wish::Resize(..) | Wish::Fill(..)) => failure.because(
            "it cannot grow where it lies, and no free place on a multiple of 0x8000 is that long, \
             or the table has no room; see `counter free`",
        ),
        (21, _) => failure.because("what lies behind the table leaves no room for a larger one"),
        _ => failure,
    }
}
