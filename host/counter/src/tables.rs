//! `compare --tables`: whether two images have the same tree, and with it whether a rewrite writes the
//! same table of both. No file's bytes are read.

use crate::anew::Anew;
use crate::args::Args;
use crate::compare::{cut, cut_words, one_of_two, two_files};
use crate::disc::{Disc, Kind, Node};
use crate::failure::{CUT, Failure, INTERNAL, Outcome};
use crate::image::Image;
use crate::json::{self, Json};
use crate::manifest::is_manifest;
use crate::names::{self, for_terminal, shown};
use crate::out::say;
use crate::stored;
use crate::text::counted;
use crate::tree::node_fields;
use std::path::Path;

pub fn compare(args: &Args) -> Outcome<u8> {
    fits(args)?;
    let before = args.image.as_deref().expect("BEFORE");
    let found = Masters::read(before, &args.path(0))?;
    let out = match args.json {
        true => found.json().document().into_bytes(),
        false => found.text(),
    };
    say(&out)?;
    Ok(found.status())
}

/// That nothing is asked for which tables alone do not tell.
fn fits(args: &Args) -> Outcome<()> {
    let idle = [
        ("--given", !args.given.is_empty()),
        ("--only-differences", args.only_differences),
        ("--map", args.map.is_some()),
    ];
    match idle.into_iter().find(|(_, given)| *given) {
        Some((name, _)) => Err(Failure::usage(format!(
            "{name} and --tables: with --tables trees and tables alone are compared"
        ))),
        None => Ok(()),
    }
}

// The two images --------------------------------------------------------------------------

struct Side {
    image: Image,
    disc: Disc,
    anew: Anew,
}

impl Side {
    fn name(&self) -> &str {
        &self.image.name
    }

    fn table(&self) -> &[u8] {
        stored::table(&self.image, self.disc.fst())
    }

    fn nodes(&self) -> &[Node] {
        &self.disc.nodes
    }

    fn path(&self, node: &Node) -> Vec<u8> {
        self.disc.path(&self.image, node)
    }
}

struct Masters {
    before: Side,
    after: Side,
    /// None where both have the same tree.
    difference: Option<Difference>,
}

impl Masters {
    fn read(before: &Path, after: &Path) -> Outcome<Masters> {
        for path in [before, after] {
            if is_manifest(path) {
                let path = names::file(path);
                let text = format!("{path}: a manifest; --tables wants two images");
                return Err(Failure::usage(text));
            }
        }
        let (before, after) = (one_of_two(before)?, one_of_two(after)?);
        two_files(&before.0, &after.0)?;
        let [before, after] = [before, after].map(|(image, mut desk, disc)| {
            let anew = Anew::read(&image, &mut desk, &disc)?;
            Ok(Side { image, disc, anew })
        });
        let (before, after) = (before?, after?);
        let difference = difference(&before, &after);
        let found = Masters { before, after, difference };
        found.holds_together()?;
        Ok(found)
    }

    fn sides(&self) -> [&Side; 2] {
        [&self.before, &self.after]
    }

    /// The same tree and the same table written anew are one and the same.
    fn holds_together(&self) -> Outcome<()> {
        match self.same_anew() {
            Some(same) if same != self.difference.is_none() => {
                let [a, b] = self.sides().map(Side::name);
                let text = format!("{a} and {b}: libcounter tells trees and tables that disagree");
                Err(Failure::error(INTERNAL, text))
            }
            _ => Ok(()),
        }
    }

    fn same_now(&self) -> bool {
        self.before.table() == self.after.table()
    }

    /// None where a limit refuses one of them.
    fn same_anew(&self) -> Option<bool> {
        match (&self.before.anew.table, &self.after.anew.table) {
            (Ok(a), Ok(b)) => Some(a == b),
            _ => None,
        }
    }

    fn cut(&self) -> Vec<&str> {
        cut(self.sides().map(|side| (side.image.is_cut(), side.name())))
    }

    fn status(&self) -> u8 {
        match (&self.difference, self.cut().is_empty()) {
            (Some(_), _) => 1,
            (None, false) => CUT,
            (None, true) => 0,
        }
    }
}

// The trees -------------------------------------------------------------------------------

/// The first entry in which two trees differ.
struct Difference {
    number: usize,
    /// In what; nothing where one of the images has no such entry.
    parts: Vec<&'static str>,
}

fn difference(a: &Side, b: &Side) -> Option<Difference> {
    let pairs = a.nodes().iter().zip(b.nodes()).enumerate();
    let mut found = pairs.map(|(number, (x, y))| {
        let parts = unlike((&a.image, x), (&b.image, y));
        Difference { number, parts }
    });
    let [one, other] = [a, b].map(|side| side.nodes().len());
    let end = Difference { number: one.min(other), parts: Vec::new() };
    found.find(|found| !found.parts.is_empty()).or((one != other).then_some(end))
}

/// In what two entries differ that have the same number, and the same entries before them. Where a
/// folder ends goes by the folders of those behind it.
fn unlike((a, x): (&Image, &Node), (b, y): (&Image, &Node)) -> Vec<&'static str> {
    let (offset, size) = match (x.kind, y.kind) {
        (Kind::File { offset, size }, Kind::File { offset: other, size: long }) => {
            (offset != other, size != long)
        }
        _ => (false, false),
    };
    let parts = [
        ("name", x.stored_name(a) != y.stored_name(b)),
        ("kind", x.is_directory() != y.is_directory()),
        ("folder", x.parent != y.parent),
        ("offset", offset),
        ("size", size),
    ];
    parts.into_iter().filter(|(_, differs)| *differs).map(|(part, _)| part).collect()
}

// The answer ------------------------------------------------------------------------------

/// Sizes of two tables, the same or not.
fn sizes(same: bool, sizes: [usize; 2]) -> String {
    let [one, other] = sizes.map(|size| counted(size, "byte", "bytes"));
    match (same, one == other) {
        (true, _) => format!("the same, {one}"),
        (false, true) => format!("not the same, {one} each"),
        (false, false) => format!("not the same, {one} and {other}"),
    }
}

impl Masters {
    fn text(&self) -> Vec<u8> {
        let mut out = self.trees();
        let now = sizes(self.same_now(), self.sides().map(|side| side.table().len()));
        let mut lines = vec![format!("tables now: {now}"), self.anew()];
        for side in self.sides() {
            lines.push(format!("{}: {}", side.name(), side.anew.words()));
        }
        lines.extend(self.cut().into_iter().map(cut_words));
        lines.push("only trees and tables were compared: no file's bytes were read".into());
        for line in lines {
            out.extend([for_terminal(&line).as_bytes(), b"\n"].concat());
        }
        out
    }

    fn trees(&self) -> Vec<u8> {
        let [a, b] = self.sides().map(Side::name);
        let Some(Difference { number, parts }) = &self.difference else {
            let entries = counted(self.before.nodes().len(), "entry", "entries");
            let words = "with the same names, order, kinds, folders, offsets and sizes";
            let line = format!("{a} and {b} have the same tree: {entries}, {words}\n");
            return for_terminal(&line).into_bytes();
        };
        let longer = if self.before.nodes().len() > *number { a } else { b };
        let what = match parts.is_empty() {
            true => format!("{longer} has more entries, from entry {number} on"),
            false => format!("entry {number} is the first that differs, by {}", parts.join(", ")),
        };
        let first = format!("{a} and {b} do not have the same tree: {what}\n");
        let mut out = for_terminal(&first).into_bytes();
        for side in self.sides() {
            out.extend(for_terminal(&format!("  {}: ", side.name())).as_bytes());
            match side.nodes().get(*number) {
                Some(node) => out.extend(entry(side, node)),
                None => out.extend(format!("no entry {number}").as_bytes()),
            }
            out.push(b'\n');
        }
        out
    }

    /// Of the tables written anew.
    fn anew(&self) -> String {
        let none = |side: &Side, number| {
            format!("none of {}, which a limit refuses ({number})", side.name())
        };
        let words = match self.sides().map(|side| side.anew.table.as_ref()) {
            [Ok(a), Ok(b)] => sizes(a == b, [a.len(), b.len()]),
            [Err(number), Err(_)] => format!("none, a limit refuses both ({number})"),
            [Err(number), Ok(_)] => none(&self.before, number),
            [Ok(_), Err(number)] => none(&self.after, number),
        };
        format!("tables as a rewrite would write them: {words}")
    }

    fn json(&self) -> Json {
        let cut = self.cut().into_iter().map(Json::from).collect();
        let tables = vec![("before", of_table(&self.before)), ("after", of_table(&self.after))];
        Json::Object(vec![
            ("status", u32::from(self.status()).into()),
            ("before", self.before.name().into()),
            ("after", self.after.name().into()),
            ("cut", Json::List(cut)),
            ("same_tree", self.difference.is_none().into()),
            ("difference", self.told().unwrap_or(Json::Null)),
            ("same_tables", self.same_now().into()),
            ("same_rewritten", self.same_anew().into()),
            ("tables", Json::Object(tables)),
        ])
    }

    fn told(&self) -> Option<Json> {
        let Difference { number, parts } = self.difference.as_ref()?;
        let entry = |side: &Side| {
            side.nodes().get(*number).map_or(Json::Null, |node| {
                let mut fields = node_fields(node);
                fields.extend(json::path(&side.path(node)));
                Json::Object(fields)
            })
        };
        let parts = parts.iter().map(|part| Json::from(*part)).collect();
        Some(Json::Object(vec![
            ("number", (*number).into()),
            ("parts", Json::List(parts)),
            ("before", entry(&self.before)),
            ("after", entry(&self.after)),
        ]))
    }
}

/// An entry in one line.
fn entry(side: &Side, node: &Node) -> Vec<u8> {
    let folder = &side.nodes()[node.parent as usize];
    let (kind, place) = match node.kind {
        Kind::File { offset, size } => {
            let size = counted(size as usize, "byte", "bytes");
            ("file ", format!(" at {offset:#x}, {size}"))
        }
        Kind::Directory { .. } => ("folder ", String::new()),
    };
    let [path, above] = [node, folder].map(|node| shown(&side.path(node)));
    let number = format!(" (entry {})", folder.number);
    [kind.as_bytes(), &path, place.as_bytes(), b", in ", &above, number.as_bytes()].concat()
}

fn of_table(side: &Side) -> Json {
    let opened = &side.disc.opened;
    let mut fields = vec![
        ("entries", opened.entries.into()),
        ("fst_offset", opened.fst_offset.into()),
        ("fst_size", opened.fst_size.into()),
    ];
    fields.extend(side.anew.fields());
    Json::Object(fields)
}
