//! `list` and `tree`: every entry, for programs and for people.

use crate::args::Args;
use crate::disc::{Disc, Kind, Node, not_opened, opened};
use crate::failure::{Failure, Outcome};
use crate::image::{Desk, Image};
use crate::json::{self, Json};
use crate::names::{columns, shown};
use crate::out::say;
use crate::program::Program;
use crate::text::{counted, human};
use counter_sys::{self as counter, Region};
use std::io::Write;

// list ------------------------------------------------------------------------------------

/// The listing (RULES), for an image of any size.
pub fn list(args: &Args) -> Outcome<()> {
    let (image, mut desk, disc) = match opened(args.image.as_deref()) {
        Ok(opened) => opened,
        Err(failure) => {
            if let (Failure::Refused { number, .. }, false) = (&failure, args.json) {
                say(format!("refused {number}\n").as_bytes())?;
            }
            return Err(failure);
        }
    };
    match args.json {
        true => say(list_json(&disc.with_paths()?).document().as_bytes()),
        false if disc.has_paths() => list_whole(&image, &mut desk, &disc),
        false => list_in_parts(&image, &disc),
    }
}

/// No line is longer but for its path.
const LINE: usize = 48;

/// The library's own listing, names in their bytes.
fn list_whole(image: &Image, desk: &mut Desk, disc: &Disc) -> Outcome<()> {
    let paths: usize = disc.nodes.iter().map(|node| node.path.len()).sum();
    let mut text = vec![0; paths + LINE * (1 + disc.nodes.len() + disc.free.len())];
    let len = counter::list(image.bytes(), &mut desk.lend(), &mut text)
        .map_err(|number| not_opened(image, number))?;
    say(&text[..len as usize])
}

const PART: usize = 1 << 20;

/// The same where the paths are too long to be held at once: names can share one long text.
fn list_in_parts(image: &Image, disc: &Disc) -> Outcome<()> {
    let mut out =
        format!("total {} used {}\n", disc.opened.disc_end, disc.opened.used).into_bytes();
    for node in &disc.nodes {
        let (letter, first, second) = match node.kind {
            Kind::File { offset, size } => ('f', offset, size),
            Kind::Directory { next } => ('d', node.parent, next),
        };
        let _ = write!(out, "{letter} {} {first} {second} ", node.number);
        out.extend(disc.path(image, node));
        out.push(b'\n');
        if out.len() > PART {
            say(&out)?;
            out.clear();
        }
    }
    for region in &disc.free {
        let _ = writeln!(out, "r {} {}", region.offset, region.size);
    }
    say(&out)
}

/// An entry in JSON, but for its path or name: what a file has, or what a directory has.
pub fn node_fields(node: &Node) -> Vec<(&'static str, Json)> {
    let mut fields = vec![("number", Json::from(node.number))];
    match node.kind {
        Kind::File { offset, size } => {
            fields.push(("kind", "file".into()));
            fields.push(("parent", node.parent.into()));
            fields.push(("offset", offset.into()));
            fields.push(("size", size.into()));
        }
        Kind::Directory { next } => {
            fields.push(("kind", "directory".into()));
            fields.push(("parent", node.parent.into()));
            fields.push(("next", next.into()));
        }
    }
    fields
}

pub fn region_fields(region: &Region) -> Vec<(&'static str, Json)> {
    vec![("offset", region.offset.into()), ("size", region.size.into())]
}

pub fn free_json(free: &[Region]) -> Json {
    Json::List(free.iter().map(|region| Json::Object(region_fields(region))).collect())
}

/// Entries in JSON, with their paths.
pub fn entries_json(nodes: &[Node]) -> Json {
    let entries = nodes.iter().map(|node| {
        let mut fields = node_fields(node);
        fields.extend(json::path(&node.path));
        Json::Object(fields)
    });
    Json::List(entries.collect())
}

fn list_json(disc: &Disc) -> Json {
    Json::answer(vec![
        ("total", disc.opened.disc_end.into()),
        ("used", disc.opened.used.into()),
        ("entries", entries_json(&disc.nodes)),
        ("free", free_json(&disc.free)),
    ])
}

// tree ------------------------------------------------------------------------------------

/// Bytes and files in each directory, with all below it; a file counts for itself.
pub fn weights(disc: &Disc) -> Vec<(u64, usize)> {
    let mut weights = vec![(0, 0); disc.nodes.len()];
    for node in disc.nodes.iter().rev() {
        let at = node.number as usize;
        if let Kind::File { size, .. } = node.kind {
            weights[at] = (size.into(), 1);
        }
        if at > 0 {
            let (bytes, files) = weights[at];
            let above = &mut weights[node.parent as usize];
            *above = (above.0 + bytes, above.1 + files);
        }
    }
    weights
}

pub fn tree(args: &Args) -> Outcome<()> {
    let (image, mut desk, disc) = opened(args.image.as_deref())?;
    let disc = disc.with_paths()?;
    let weights = weights(&disc);
    if args.json && args.paths {
        return Err(Failure::usage("tree: --paths or --json, and not both"));
    }
    if !args.json {
        return say(&if args.paths { paths(&disc) } else { tree_text(&disc, &weights) });
    }
    let mut fields = branch_fields(&disc, &weights, 0);
    fields.push(("program", Program::read(&image, &mut desk, &disc.opened)?.into()));
    say(Json::answer(fields).document().as_bytes())
}

/// The numbers of a directory's own entries.
fn children(disc: &Disc, number: u32) -> Vec<u32> {
    let Kind::Directory { next } = disc.nodes[number as usize].kind else {
        return Vec::new();
    };
    let mut found = Vec::new();
    let mut at = number + 1;
    while at < next {
        found.push(at);
        at = match disc.nodes[at as usize].kind {
            Kind::File { .. } => at + 1,
            Kind::Directory { next } => next,
        };
    }
    found
}

/// Directories are at most 64 deep, so this goes at most 65 deep.
fn branch_fields(disc: &Disc, weights: &[(u64, usize)], number: u32) -> Vec<(&'static str, Json)> {
    let node = &disc.nodes[number as usize];
    let mut fields = node_fields(node);
    fields.extend(json::name(&node.name));
    if node.is_directory() {
        let below = children(disc, number);
        fields.push(("bytes", weights[number as usize].0.into()));
        fields.push(("files", weights[number as usize].1.into()));
        let below = below.into_iter().map(|child| branch_fields(disc, weights, child));
        fields.push(("children", Json::List(below.map(Json::Object).collect())));
    }
    fields
}

/// Every path on a line of its own.
fn paths(disc: &Disc) -> Vec<u8> {
    disc.nodes.iter().flat_map(|node| [shown(&node.path), b"\n".to_vec()]).flatten().collect()
}

/// A line of the tree: the branches before a name, the name, and what is said about it.
struct Row {
    before: String,
    name: Vec<u8>,
    about: String,
}

impl Row {
    fn columns(&self) -> usize {
        self.before.len() + columns(&self.name)
    }
}

fn tree_text(disc: &Disc, weights: &[(u64, usize)]) -> Vec<u8> {
    let (bytes, files) = weights[0];
    let about = about_folder(bytes, files);
    let mut rows = vec![Row { before: String::new(), name: b"/".to_vec(), about }];
    branch(disc, weights, 0, "", &mut rows);
    let width = rows.iter().map(Row::columns).max().unwrap_or(0);
    let mut out = Vec::new();
    for row in rows {
        out.extend(row.before.as_bytes());
        out.extend(shown(&row.name));
        let _ = writeln!(out, "{}  {}", " ".repeat(width - row.columns()), row.about);
    }
    out
}

fn about_folder(bytes: u64, files: usize) -> String {
    format!("{:>9}  {}", human(bytes), counted(files, "file", "files"))
}

fn branch(disc: &Disc, weights: &[(u64, usize)], number: u32, before: &str, rows: &mut Vec<Row>) {
    let below = children(disc, number);
    for (i, &child) in below.iter().enumerate() {
        let last = i + 1 == below.len();
        let node = &disc.nodes[child as usize];
        let knee = format!("{before}{}", if last { "`-- " } else { "|-- " });
        let (bytes, files) = weights[child as usize];
        let (end, about): (&[u8], String) = match node.kind {
            Kind::File { offset, size } => {
                (b"", format!("{:>9}  at {offset:#010x}", human(size.into())))
            }
            Kind::Directory { .. } => (b"/", about_folder(bytes, files)),
        };
        rows.push(Row { before: knee, name: [&node.name, end].concat(), about });
        let before = format!("{before}{}", if last { "    " } else { "|   " });
        branch(disc, weights, child, &before, rows);
    }
}
