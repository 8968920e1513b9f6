//! `new`: a master from a list of files, or from a folder. The library makes it in memory; header and table go
//! to a new file, and what is zero stays a hole in it. A folder's files are then filled in by the library, and
//! the file gets its name when all of it is on the disk.

use crate::account;
use crate::args::Args;
use crate::disc::{Disc, Kind, Node, table_end};
use crate::disk::{self, On};
use crate::failure::{DATA, Failure, INPUT_OUTPUT, INTERNAL, Measures, Outcome};
use crate::finishing::finish_as;
use crate::image::{Desk, Image, cannot_open};
use crate::json::{self, Json};
use crate::names::{self, shown};
use crate::os::{self, Access, Mapping};
use crate::out::say;
use crate::progress::Progress;
use crate::room;
use crate::save::{not_made, vacant_image};
use crate::signals;
use crate::text::{counted, grouped, human};
use crate::told::{dry, of_new};
use crate::wanted::{Files, Source, Trouble, UNFINISHED, Wanted};
use counter_sys::{self as counter, HEADER_SIZE, MOST_TABLE};
use std::ffi::OsStr;
use std::fs::{self, File};
use std::io::{self, ErrorKind};
use std::os::unix::ffi::OsStrExt;
use std::os::unix::fs::OpenOptionsExt;
use std::path::{Path, PathBuf};
use std::process;

/// What is asked for.
struct Wish<'a> {
    /// As it was given, and its place, whatever leads to its folder.
    out: &'a Path,
    place: PathBuf,
    size: u32,
    code: [u8; 4],
    files: Files,
    /// Whether the files are filled.
    filled: bool,
}

impl Wish<'_> {
    fn code(&self) -> String {
        String::from_utf8_lossy(&self.code).into_owned()
    }

    fn lengths(&self) -> impl Iterator<Item = u64> {
        self.files.files.iter().map(|file| file.size.into())
    }
}

pub fn new(args: &Args) -> Outcome<()> {
    let usage = |why: &str| Failure::usage(format!("{why}; usage: {}", args.form.usage()));
    let out = args.image.as_deref().ok_or_else(|| usage("OUT is missing"))?;
    let size = args.size.ok_or_else(|| usage("--size SIZE is missing"))?;
    let code = args.code.as_deref().ok_or_else(|| usage("--code GAME is missing"))?;
    let (code, filled) = (game_code(code)?, args.folder.is_some());
    signals::begin_making();
    let place = resolved(out)?;
    vacant_image(&place)?;
    let files = match (&args.from, &args.folder) {
        (Some(list), None) => Files::listed(list)?,
        (None, Some(folder)) => Files::found(folder, &place)?,
        (None, None) => return Err(usage("--from LIST or --from-dir DIR is missing")),
        _ => return Err(usage("--from and --from-dir: one of them is wanted")),
    };
    let wish = Wish { out, place, size, code, files, filled };
    let mut desk = Desk::new();
    let image = made(&wish, &mut desk)?;
    let disc = Disc::read(&image, &mut desk)?.with_paths()?;
    are_wanted(&wish, &disc)?;
    if filled {
        try_to_fill(&wish)?;
    }
    let text = match args.json {
        true => told(args, &wish, &disc).document().into_bytes(),
        false => words(&wish, &disc),
    };
    match (args.dry, args.json) {
        (true, true) => return say(&text),
        (true, false) => return say(&dry(&text)),
        _ => {}
    }
    let front = image.bytes()[..table_end(&disc.opened) as usize].to_vec();
    drop(image);
    write(&wish, &disc, &mut desk, &front)?;
    let last: &[u8] = if args.json { b"" } else { b"done: written and synced\n" };
    finish_as(&[&text, last].concat(), "meanwhile", "the new image is made and synced")
}

fn game_code(code: &OsStr) -> Outcome<[u8; 4]> {
    let plain = |code: &[u8; 4]| code.iter().all(|byte| (b' '..=b'~').contains(byte));
    let code: Option<[u8; 4]> = code.as_bytes().try_into().ok();
    code.filter(plain)
        .ok_or_else(|| Failure::usage("--code: a game code has four characters of ASCII, as GCLE"))
}

/// The place of OUT, whatever leads to its folder; names may be made there.
fn resolved(out: &Path) -> Outcome<PathBuf> {
    let bytes = out.as_os_str().as_bytes();
    let (folder, name) =
        bytes.split_at(bytes.iter().rposition(|&b| b == b'/').map_or(0, |at| at + 1));
    if matches!(name, b"" | b"." | b"..") {
        return Err(Failure::usage(format!("\"{}\": this is no name of a file", names::file(out))));
    }
    let folder = if folder.is_empty() { b"." } else { folder };
    let folder = fs::canonicalize(OsStr::from_bytes(folder)).map_err(|e| not_made(out, &e))?;
    os::may_write(&folder).map_err(|e| not_made(out, &e))?;
    Ok(folder.join(OsStr::from_bytes(name)))
}

/// The new image in memory: header and table are in it, and what is behind them is zero.
fn made(wish: &Wish, desk: &mut Desk) -> Outcome<Image> {
    let (sizes, paths) = (wish.files.sizes(), wish.files.paths());
    let mut image = Image::blank(wish.out, wish.size as usize, HEADER_SIZE + MOST_TABLE)?;
    let bytes = image.bytes_mut();
    counter::master(bytes, &mut desk.lend(), &wish.code, wish.size, &sizes, &paths)
        .map_err(|number| refused(wish, number))?;
    Ok(image)
}

/// The table has the files in the order in which the library was given them, and no others.
fn are_wanted(wish: &Wish, disc: &Disc) -> Outcome<()> {
    let has = files(disc).map(|(node, _, size)| (&node.path[1..], size));
    let wanted = wish.files.files.iter().map(|file| (&file.path[..], file.size));
    match has.eq(wanted) {
        true => Ok(()),
        false => Err(Failure::error(INTERNAL, "the files of libcounter are not those wanted")),
    }
}

fn refused(wish: &Wish, number: u32) -> Failure {
    let failure = Failure::refused(number, format!("new {}", names::file(wish.out)));
    match wish.files.trouble(number) {
        Some(Trouble { why, least: Some(least) }) => {
            failure.because(why).measured(Measures::Least(least))
        }
        Some(Trouble { why, least: None }) => failure.because(why),
        None => failure,
    }
}

// What is said ----------------------------------------------------------------------------

fn files(disc: &Disc) -> impl Iterator<Item = (&Node, u32, u32)> {
    disc.nodes.iter().filter_map(|node| match node.kind {
        Kind::File { offset, size } => Some((node, offset, size)),
        Kind::Directory { .. } => None,
    })
}

/// Used bytes, free bytes, the largest free region.
fn totals(disc: &Disc) -> [u32; 3] {
    let largest = disc.free.iter().map(|region| region.size).max();
    let used = disc.opened.used;
    [used, disc.opened.disc_end - used, largest.unwrap_or(0)]
}

fn notes(wish: &Wish, disc: &Disc, spell: fn(&[u8]) -> Vec<u8>) -> Vec<Vec<u8>> {
    let left_out = wish.files.left_out.iter().map(|folder| {
        format!("{} holds no file: the new master does not have it", names::file(folder)).into()
    });
    let new: Vec<&Node> = disc.nodes.iter().skip(1).collect();
    let empty = wish.files.files.is_empty();
    let empty = empty.then(|| b"there are no files: the master has an empty table".to_vec());
    left_out.chain(empty).chain(of_new(&new, disc, spell)).collect()
}

fn words(wish: &Wish, disc: &Disc) -> Vec<u8> {
    let count = files(disc).count();
    let mut out = format!(
        "made {}: {} bytes, game code {}, {}, {}\n",
        names::file(wish.out),
        grouped(wish.size.into()),
        wish.code(),
        counted(count, "file", "files"),
        counted(disc.nodes.len() - 1 - count, "folder", "folders"),
    )
    .into_bytes();
    for (node, offset, size) in files(disc) {
        let place = match size {
            0 => ": empty\n".into(),
            _ => format!(" at {offset:#x}: {}\n", counted(size as usize, "byte", "bytes")),
        };
        out.extend([&shown(&node.path)[..], place.as_bytes()].concat());
    }
    for note in notes(wish, disc, shown) {
        out.extend([b"note: ", &note[..], b"\n"].concat());
    }
    let [used, free, largest] = totals(disc).map(|number| grouped(number.into()));
    let table = grouped(disc.opened.fst_size.into());
    out.extend(format!("table: {table} bytes\n").bytes());
    out.extend(
        format!("used {used} bytes, free {free} bytes, largest free region {largest} bytes\n")
            .bytes(),
    );
    out
}

fn told(args: &Args, wish: &Wish, disc: &Disc) -> Json {
    let files = files(disc).map(|(node, offset, size)| {
        let mut fields = Vec::from(json::path(&node.path));
        fields.extend([("offset", offset.into()), ("size", size.into())]);
        Json::Object(fields)
    });
    let spell = |name: &[u8]| names::text(name).into_bytes();
    let notes = notes(wish, disc, spell).into_iter();
    let notes = notes.map(|note| String::from_utf8_lossy(&note).into_owned().into());
    let left_out = wish.files.left_out.iter().map(|folder| folder.display().to_string().into());
    let [used, free, largest] = totals(disc);
    Json::answer(vec![
        ("out", wish.out.display().to_string().into()),
        ("dry_run", args.dry.into()),
        ("written", (!args.dry).into()),
        ("size", wish.size.into()),
        ("game_code", wish.code().into()),
        ("fst_size", disc.opened.fst_size.into()),
        ("used", used.into()),
        ("free", free.into()),
        ("largest_free", largest.into()),
        ("files", Json::List(files.collect())),
        ("left_out", Json::List(left_out.collect())),
        ("notes", Json::List(notes.collect())),
    ])
}

// The writing -----------------------------------------------------------------------------

/// Makes the file under another name in the same folder, and gives it its own when it is on the disk. Whatever
/// goes wrong, nothing of it is left.
fn write(wish: &Wish, disc: &Disc, desk: &mut Desk, front: &[u8]) -> Outcome<()> {
    signals::let_others_wait();
    let (early, file) = begin(&wish.place).map_err(|e| not_made(wish.out, &e))?;
    let done = fill_in(wish, disc, desk, front, &early, file).and_then(|()| {
        // From here on it is only a moment.
        signals::begin_writing(false);
        put_in_place(&early, &wish.place).map_err(|e| not_made(wish.out, &e))
    });
    if done.is_err() {
        let _ = fs::remove_file(&early);
    }
    os::unfinished(None);
    done
}

/// A new file in the folder of `out`, which a signal that people send takes away. One that SIGKILL or a power cut left has its
/// name for good.
fn begin(out: &Path) -> io::Result<(PathBuf, File)> {
    let mut number = process::id();
    loop {
        let path = out.with_file_name(format!("{UNFINISHED}{number}"));
        let created = os::holding(|| {
            let created = disk::create(On::Image, &path);
            if created.is_ok() {
                os::unfinished(Some(&path));
            }
            created
        });
        match created {
            Err(e) if e.kind() == ErrorKind::AlreadyExists => number = number.wrapping_add(1),
            created => return created.map(|file| (path, file)),
        }
    }
}

fn put_in_place(early: &Path, out: &Path) -> io::Result<()> {
    disk::rename_new(On::Image, early, out)?;
    disk::sync_folder(out).inspect_err(|_| {
        let _ = fs::remove_file(out);
    })
}

/// Header and table, then the files.
fn fill_in(
    wish: &Wish,
    disc: &Disc,
    desk: &mut Desk,
    front: &[u8],
    early: &Path,
    file: File,
) -> Outcome<()> {
    let failed = |e: io::Error| Failure::file(INPUT_OUTPUT, wish.out, &e);
    file.set_len(wish.size.into()).map_err(failed)?;
    disk::write_at(On::Image, &file, 0, front).map_err(failed)?;
    if !wish.filled {
        return disk::sync(On::Image, &file).map_err(failed);
    }
    let progress = Progress::start("new", wish.lengths().sum());
    let mut image = Image::fresh(early, file)?;
    let mut record = account::open(disc.opened.used);
    for ((node, ..), wanted) in files(disc).zip(&wish.files.files) {
        let Source::File(path) = &wanted.source else { continue };
        let clip = contents(path, wanted)?;
        counter::fill_file(
            image.bytes_mut(),
            &mut desk.lend(),
            &mut record,
            0,
            node.number,
            clip.bytes(),
        )
        .map_err(|number| Failure::refused(number, names::text(&node.path)))?;
        progress.advance(wanted.size.into());
    }
    image.sync().map_err(failed)
}

/// What can be found out before anything is written: that the files can be read, and that there is room.
fn try_to_fill(wish: &Wish) -> Outcome<()> {
    for file in &wish.files.files {
        if let Source::File(path) = &file.source {
            opened(path)?;
        }
    }
    let folder = wish.place.parent().unwrap_or(Path::new("/"));
    let folder = File::open(folder).map_err(|e| not_made(wish.out, &e))?;
    enough_room(wish.out, &folder, wish.lengths())
}

fn opened(path: &Path) -> Outcome<File> {
    // Something else may have its name meanwhile.
    let opened = File::options().read(true).custom_flags(os::O_NONBLOCK).open(path);
    opened.map_err(|e| cannot_open(path, &e))
}

/// The file's bytes, which must be as many as the master has room for.
fn contents(path: &Path, wanted: &Wanted) -> Outcome<Mapping> {
    let failed = |e: io::Error| cannot_open(path, &e);
    let file = opened(path)?;
    let len = file.metadata().map_err(failed)?.len();
    if len != u64::from(wanted.size) {
        let (had, has) = (grouped(wanted.size.into()), grouped(len));
        let text = format!("{}: it had {had} bytes, and has {has} now", names::file(path));
        return Err(Failure::error(DATA, text));
    }
    Mapping::new(&file, wanted.size as usize, Access::Read).map_err(failed)
}

/// A file that is mapped can say only by a signal that the disk is full, so that is asked before; the disk
/// wants some of it for its own books.
fn enough_room(out: &Path, on: &File, sizes: impl Iterator<Item = u64>) -> Outcome<()> {
    const BLOCK: u64 = 0x1000;
    const SLACK: u64 = 0x1_0000;
    let files: u64 = sizes.map(|size| size.next_multiple_of(BLOCK)).sum();
    let needed = files + files / 64 + SLACK;
    match room::left(on) {
        Some(left) if needed > left && !disk::assumes_room() => {
            let text = format!(
                "{}: the disk is full: the new image takes {}, and the disk has {} left; nothing was written",
                names::file(out),
                human(needed),
                human(left)
            );
            Err(Failure::error(INPUT_OUTPUT, text))
        }
        _ => Ok(()),
    }
}
