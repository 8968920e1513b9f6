//! Files out of an image: `cat` and `extract`.

use crate::args::Args;
use crate::disc::{Disc, Kind, Node, no_path, opened};
use crate::failure::{CANNOT_CREATE, Failure, Outcome};
use crate::image::{Desk, Image};
use crate::json::{self, Json};
use crate::names::{self, LONGEST_FILE, shown};
use crate::out::say;
use crate::progress::Progress;
use crate::save::{pump, save_window};
use crate::sha256::hex;
use crate::text::{counted, human};
use counter_sys::{self as counter, Window};
use std::collections::{HashMap, HashSet};
use std::ffi::OsString;
use std::fs;
use std::io::{self, Write};
use std::os::unix::ffi::{OsStrExt, OsStringExt};
use std::path::{Path, PathBuf};

fn window_of(image: &Image, desk: &mut Desk, number: u32, path: &[u8]) -> Outcome<Window> {
    counter::open_file(image.bytes(), &mut desk.lend(), number)
        .map_err(|refused| no_path(image, desk, refused, path))
}

// cat -------------------------------------------------------------------------------------

pub fn cat(args: &Args) -> Outcome<()> {
    let (image, mut desk, disc) = opened(args.image.as_deref())?;
    let path = args.entry(0)?;
    let node = disc.find(&image, &mut desk, &path)?;
    let window = window_of(&image, &mut desk, node.number, &path)?;
    let progress = Progress::start("cat", window.length);
    if !args.json {
        return pump(&image, window, &progress, say);
    }
    let Kind::File { offset, size } = node.kind else { unreachable!("a window is of a file") };
    let mut fields = Vec::from(json::path(&disc.path(&image, node)));
    fields.extend([("offset", offset.into()), ("size", size.into())]);
    let head = Json::answer(fields).document();
    let head = head.trim_end_matches(['\n', '}']);
    say(format!("{head},\n  \"hex\": \"").as_bytes())?;
    pump(&image, window, &progress, |part| say(hex(part).as_bytes()))?;
    say(b"\"\n}\n")
}

// extract ---------------------------------------------------------------------------------

/// Where each entry goes: its number and its place on the disk, folders before what is in them.
struct Plan {
    folders: Vec<PathBuf>,
    files: Vec<(u32, PathBuf)>,
    bytes: u64,
}

pub fn extract(args: &Args) -> Outcome<()> {
    if args.path(1).as_os_str() == "-" {
        return match args.json {
            true => {
                Err(Failure::usage("extract to - writes the file's bytes alone; see `cat --json`"))
            }
            false => cat(args),
        };
    }
    let (image, mut desk, disc) = opened(args.image.as_deref())?;
    let disc = disc.with_paths()?;
    let node = disc.find(&image, &mut desk, &args.entry(0)?)?;
    let mut to = args.path(1);
    if !node.is_directory() && to.is_dir() {
        to.push(file_name(node));
    }
    let plan = plan(&disc, node, &to, args.number)?;
    disc.tell_of_escapes();
    let mut out = Vec::new();
    if node.is_directory() {
        folder(&to)?;
    }
    for path in &plan.folders {
        fs::create_dir(path).map_err(|e| Failure::file(CANNOT_CREATE, path, &e))?;
    }
    let progress = Progress::start("extract", plan.bytes);
    for (number, path) in &plan.files {
        let from = &disc.nodes[*number as usize];
        let window = window_of(&image, &mut desk, *number, &from.path)?;
        save_window(&image, window, path, &progress)?;
        out.push((from, path, window.length));
    }
    drop(progress);
    report(args, &plan, &out)
}

fn report(args: &Args, plan: &Plan, out: &[(&Node, &PathBuf, u64)]) -> Outcome<()> {
    if args.json {
        let files = out.iter().map(|(node, path, size)| {
            let mut fields = Vec::from(json::path(&node.path));
            fields.push(("file", path.display().to_string().into()));
            fields.push(("file_bytes", hex(path.as_os_str().as_bytes()).into()));
            fields.push(("size", (*size).into()));
            Json::Object(fields)
        });
        let json = Json::answer(vec![
            ("bytes", plan.bytes.into()),
            ("files", Json::List(files.collect())),
        ]);
        return say(json.document().as_bytes());
    }
    let mut text = Vec::new();
    for (node, path, size) in out {
        let file = match names::are_raw() {
            true => path.as_os_str().as_bytes().to_vec(),
            false => names::file(path).into_bytes(),
        };
        text.extend([&shown(&node.path)[..], b" -> ", &file].concat());
        let _ = writeln!(text, " ({})", human(*size));
    }
    let _ = writeln!(text, "{}, {}", counted(out.len(), "file", "files"), human(plan.bytes));
    say(&text)
}

/// What an entry is called outside the image: in UTF-8, or in its bytes. Either way different names stay
/// different.
fn file_name(node: &Node) -> OsString {
    OsString::from_vec(names::written(&node.name))
}

/// A new folder, or one that is there and empty.
fn folder(path: &Path) -> Outcome<()> {
    match fs::create_dir(path) {
        Ok(()) => Ok(()),
        Err(e) if e.kind() == io::ErrorKind::AlreadyExists && empty(path) => Ok(()),
        Err(e) => Err(Failure::file(CANNOT_CREATE, path, &e)),
    }
}

fn empty(path: &Path) -> bool {
    fs::read_dir(path).is_ok_and(|mut entries| entries.next().is_none())
}

fn plan(disc: &Disc, top: &Node, to: &Path, number_equal: bool) -> Outcome<Plan> {
    let mut plan = Plan { folders: Vec::new(), files: Vec::new(), bytes: 0 };
    let end = match top.kind {
        Kind::File { .. } => top.number + 1,
        Kind::Directory { next } => next.max(top.number + 1),
    };
    let mut places: Vec<PathBuf> = vec![to.to_path_buf()];
    let mut taken: HashMap<PathBuf, u32> = HashMap::new();
    let names: HashSet<(u32, OsString)> = match number_equal {
        true => disc.nodes.iter().map(|node| (node.parent, file_name(node))).collect(),
        false => HashSet::new(),
    };
    for number in top.number..end {
        let node = &disc.nodes[number as usize];
        if number > top.number {
            let above = &places[(node.parent - top.number) as usize];
            let place = match number_equal {
                true => unused(above, node, &names, &taken),
                false => above.join(file_name(node)),
            };
            if let Some(other) = taken.insert(place.clone(), number) {
                return Err(one_file(&disc.nodes[other as usize], node, &place));
            }
            places.push(place);
        }
        let place = &places[(number - top.number) as usize];
        if place.file_name().is_some_and(|name| name.len() > LONGEST_FILE) {
            return Err(too_long(node, place));
        }
        match node.kind {
            Kind::File { size, .. } => {
                plan.files.push((number, place.clone()));
                plan.bytes += u64::from(size);
            }
            Kind::Directory { .. } if number > top.number => plan.folders.push(place.clone()),
            Kind::Directory { .. } => {}
        }
    }
    Ok(plan)
}

/// Two entries with one name, which nothing outside the image could keep apart.
fn one_file(first: &Node, second: &Node, place: &Path) -> Failure {
    let text = format!(
        "{}: entries {} and {} would be one file, {}; nothing was written (--number keeps them apart)",
        names::text(&second.path),
        first.number,
        second.number,
        names::file(place)
    );
    Failure::error(CANNOT_CREATE, text)
}

/// A name that no file can have. In UTF-8 a half-width katakana takes three bytes, and a pair without a
/// character eight.
fn too_long(node: &Node, place: &Path) -> Failure {
    let has = place.file_name().map_or(0, |name| name.len());
    let mut text = format!(
        "{}: as a file's name it has {has} bytes, and {LONGEST_FILE} are the most; nothing was written",
        names::text(&node.path)
    );
    if !names::are_raw() && node.name.len() <= LONGEST_FILE {
        text += &format!(" (with --bytes it has {})", node.name.len());
    }
    Failure::error(CANNOT_CREATE, text)
}

/// The entry's place in its folder. The second of two equal names gets its number behind it; `names` are
/// what the entries of each folder are called.
fn unused(
    above: &Path,
    node: &Node,
    names: &HashSet<(u32, OsString)>,
    taken: &HashMap<PathBuf, u32>,
) -> PathBuf {
    let own = file_name(node);
    let mut name = own.clone();
    while taken.contains_key(&above.join(&name))
        || name != own && names.contains(&(node.parent, name.clone()))
    {
        name.push(format!("~{}", node.number));
    }
    above.join(name)
}
