//! `tables`: every small table, each put into the small master, and a file for each.

use crate::args::Args;
use crate::disc::{Disc, Node};
use crate::disk::{self, On};
use crate::failure::{CANNOT_CREATE, Failure, INPUT_OUTPUT, INTERNAL, Outcome};
use crate::finishing::finish_as;
use crate::header::FST_SIZE_AT;
use crate::image::{Desk, Image, same_file};
use crate::json::Json;
use crate::names::{self, shown};
use crate::progress::Progress;
use crate::save::{not_made, vacant_image};
use crate::sha256::hex;
use crate::signals;
use crate::text::{bytes, count, counted};
use crate::tree::entries_json;
use counter_sys::{self as counter, HEADER_SIZE, MOST_SMALL, MOST_SMALL_TABLES, small_table_size};
use std::env;
use std::ffi::OsStr;
use std::fs::{self, Metadata};
use std::io::{self, ErrorKind};
use std::os::unix::ffi::OsStrExt;
use std::path::{Path, PathBuf};

pub fn tables(args: &Args) -> Outcome<()> {
    let entries = count(&args.bytes(0)).map_err(Failure::usage)?;
    // `--into "$DIR"` with no DIR gives no name.
    let into = args.into.as_deref().filter(|into| !into.as_os_str().is_empty());
    let into = into.ok_or_else(|| {
        Failure::usage(format!("--into DIR is missing; usage: {}", args.form.usage()))
    })?;
    signals::begin_making();
    let set = Set::read(entries, into)?;
    // Where there is no folder, none of the names is taken, and whether one can be made is told then.
    if into.is_dir() {
        set.masters.iter().try_for_each(|master| vacant_image(&master.file))?;
    }
    let text = match args.json {
        true => set.json().document().into_bytes(),
        false => set.text(),
    };
    set.write()?;
    finish_as(&text, "meanwhile", "the set of masters is made")
}

/// A master for each table of so many entries, the root among them.
struct Set<'a> {
    entries: u32,
    into: &'a Path,
    /// One behind the other, in the order of the masters.
    tables: Vec<u8>,
    masters: Vec<Master>,
}

struct Master {
    file: PathBuf,
    /// As opening reads them from it.
    nodes: Vec<Node>,
}

impl Set<'_> {
    /// Each is opened here, so that nothing is written of a set with one that does not open.
    fn read(entries: u32, into: &Path) -> Outcome<Set<'_>> {
        let mut tables = vec![0; MOST_SMALL_TABLES];
        let count = counter::small_tables(entries, &mut tables)
            .map_err(|number| refused(entries, number))? as usize;
        tables.truncate(count * small_table_size(entries));
        let digits = count.to_string().len();
        let (mut image, mut desk) = (Image::read(None)?, Desk::to_read(entries));
        let mut masters = Vec::with_capacity(count);
        for (table, number) in tables.chunks(small_table_size(entries)).zip(1..) {
            put(&mut image, table);
            let disc = Disc::read(&image, &mut desk).map_err(|why| {
                Failure::error(INTERNAL, format!("table {number} of libcounter: {why}"))
            })?;
            let file = into.join(format!("{number:0digits$}.iso"));
            masters.push(Master { file, nodes: disc.nodes });
        }
        Ok(Set { entries, into, tables, masters })
    }

    fn table_size(&self) -> usize {
        small_table_size(self.entries)
    }

    // What is said ------------------------------------------------------------------------

    fn text(&self) -> Vec<u8> {
        let mut out = Vec::new();
        for master in &self.masters {
            out.extend([master.name().as_bytes(), b"  ", &master.paths(), b"\n"].concat());
        }
        let summary = format!(
            "made {} in {}: every table of {}, {} each\n",
            counted(self.masters.len(), "master", "masters"),
            names::file(self.into),
            counted(self.entries as usize, "entry", "entries"),
            bytes(self.table_size() as u64)
        );
        out.extend(summary.bytes());
        out
    }

    fn json(&self) -> Json {
        let masters = self.masters.iter().map(|master| {
            Json::Object(vec![
                ("file", master.file.display().to_string().into()),
                ("file_bytes", hex(master.file.as_os_str().as_bytes()).into()),
                ("table", entries_json(&master.nodes)),
            ])
        });
        Json::answer(vec![
            ("into", self.into.display().to_string().into()),
            ("entries", self.entries.into()),
            ("fst_size", self.table_size().into()),
            ("tables", self.masters.len().into()),
            ("masters", Json::List(masters.collect())),
        ])
    }

    // The writing -------------------------------------------------------------------------

    /// Makes the folder, if it is not there, and the files. Whatever goes wrong, and where a signal comes in
    /// time, nothing of them is left, or it is told. Nothing is synced, as of files that are extracted: they
    /// can be made again at any time, and a sync of each of thousands takes minutes.
    fn write(&self) -> Outcome<()> {
        signals::begin_writing(true);
        let mut made = Made::default();
        self.write_each(&mut made).map_err(|why| match (why, made.take_away()) {
            (Failure::Signal { number, text }, left) => {
                let left = left.unwrap_or_else(|| "nothing is left of the masters".into());
                Failure::Signal { number, text: format!("{text}; {left}") }
            }
            (Failure::Error { status, text }, Some(left)) => {
                Failure::error(status, format!("{text}; {left}"))
            }
            (why, _) => why,
        })
    }

    fn write_each<'a>(&'a self, made: &mut Made<'a>) -> Outcome<()> {
        let mut image = Image::read(None)?;
        let size = image.bytes().len() as u64;
        let progress = Progress::start("tables", size * self.masters.len() as u64);
        made.folder(self.into)?;
        for (table, master) in self.tables.chunks(self.table_size()).zip(&self.masters) {
            go_on()?;
            put(&mut image, table);
            made.file(master, image.bytes())?;
            progress.advance(size);
        }
        let _ = signals::no_way_back();
        go_on()
    }
}

impl Master {
    fn name(&self) -> &OsStr {
        self.file.file_name().unwrap_or_default()
    }

    /// Of its entries but the root, which stands only where it is alone.
    fn paths(&self) -> Vec<u8> {
        let first = usize::from(self.nodes.len() > 1);
        let paths = self.nodes[first..].iter().map(|node| shown(&node.path));
        paths.collect::<Vec<_>>().join(&b' ')
    }
}

/// Puts a table over that of the small master, and its size into the header. Where it is the shorter one,
/// what is behind it stays.
fn put(image: &mut Image, table: &[u8]) {
    let image = image.bytes_mut();
    image[HEADER_SIZE..][..table.len()].copy_from_slice(table);
    image[FST_SIZE_AT..][..4].copy_from_slice(&(table.len() as u32).to_be_bytes());
}

fn refused(entries: u32, number: u32) -> Failure {
    let what = format!("tables of {}", counted(entries as usize, "entry", "entries"));
    let why = format!("a small table has 1 to {MOST_SMALL} entries, the root among them");
    Failure::refused(number, what).because(why)
}

/// An error if a signal came in time.
fn go_on() -> Outcome<()> {
    match signals::given_up() {
        None => Ok(()),
        Some(number) => Err(Failure::Signal { number, text: signals::stopped_by(number) }),
    }
}

/// What there is of a set so far. The program works in its folder, so that all of it is found although the
/// folder is renamed meanwhile.
#[derive(Default)]
struct Made<'a> {
    /// Whether the folder was not there.
    folder: bool,
    files: Vec<(&'a OsStr, Metadata)>,
}

impl<'a> Made<'a> {
    fn folder(&mut self, path: &Path) -> Outcome<()> {
        let is_new = is_new_folder(path)?;
        env::set_current_dir(path).map_err(|e| {
            if is_new {
                let _ = fs::remove_dir(path);
            }
            not_made(path, &e)
        })?;
        self.folder = is_new;
        Ok(())
    }

    /// A new file: one that somebody else put there meanwhile stays.
    fn file(&mut self, master: &'a Master, bytes: &[u8]) -> Outcome<()> {
        let failed = |e: io::Error| Failure::file(INPUT_OUTPUT, &master.file, &e);
        let name = master.name();
        let file =
            disk::create(On::Image, name.as_ref()).map_err(|e| not_made(&master.file, &e))?;
        self.files.push((name, file.metadata().map_err(failed)?));
        disk::write_at(On::Image, &file, 0, bytes).map_err(failed)
    }

    /// What could not be taken away, if there is something.
    fn take_away(self) -> Option<String> {
        let left = self.files.iter().filter_map(|(name, made)| gone(take_away(name, made)).err());
        let left: Vec<io::Error> = left.collect();
        // Its name of now. It has none where it was taken away itself.
        let folder = env::current_dir().ok()?;
        let at = |why| Failure::file(INPUT_OUTPUT, &folder, why);
        if let Some(why) = left.first() {
            let left = counted(left.len(), "master is", "masters are");
            return Some(format!("{left} left in {}", at(why)));
        }
        let removed = if self.folder { gone(fs::remove_dir(&folder)) } else { Ok(()) };
        match removed {
            Ok(()) => None,
            // Somebody else has put something there.
            Err(why) if why.kind() == ErrorKind::DirectoryNotEmpty => None,
            Err(why) => Some(format!("nothing is left of the masters but the folder {}", at(&why))),
        }
    }
}

/// Whether there was none by this name.
fn is_new_folder(path: &Path) -> Outcome<bool> {
    let Err(why) = fs::create_dir(path) else { return Ok(true) };
    let text = match (why.kind(), fs::metadata(path)) {
        (ErrorKind::AlreadyExists, Ok(told)) if told.is_dir() => return Ok(false),
        // A link into a folder that is closed.
        (ErrorKind::AlreadyExists, Err(e)) if e.kind() == ErrorKind::PermissionDenied => {
            return Err(not_made(path, &e));
        }
        (ErrorKind::AlreadyExists, _) => "is there, and is no folder",
        (ErrorKind::NotFound, _) => "the folder that it should stand in is not there",
        (ErrorKind::NotADirectory, _) => "what it should stand in is no folder",
        _ => return Err(not_made(path, &why)),
    };
    Err(Failure::error(CANNOT_CREATE, format!("{}: {text}", names::file(path))))
}

/// Takes a file away, if it is still the one that was made: somebody else's by that name stays. (That one
/// comes between the look and the removal cannot be helped.) A disk may give the number of a file that is
/// gone to the next one; then the time of birth tells them apart, where it is kept.
fn take_away(name: &OsStr, made: &Metadata) -> io::Result<()> {
    let there = fs::symlink_metadata(name)?;
    match same_file(&there, made) && there.created().ok() == made.created().ok() {
        true => fs::remove_file(name),
        false => Ok(()),
    }
}

/// What is not there need not be taken away.
fn gone(removed: io::Result<()>) -> io::Result<()> {
    match removed {
        Err(e) if e.kind() == ErrorKind::NotFound => Ok(()),
        removed => removed,
    }
}
