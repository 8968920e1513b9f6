//! `map`: the disc as a picture. Rows of equal length hold the whole disc from left to right and
//! from top to bottom; above them its start, enlarged, since header, program and table are small.

use crate::args::Args;
use crate::disc::{Disc, opened};
use crate::failure::{Failure, Outcome};
use crate::image::{Desk, Image};
use crate::json::{self, Json};
use crate::layout::Layout;
use crate::names;
use crate::out::say;
use crate::save::save;
use crate::text::{self, counted, escape, grouped, human};
use crate::way::{Way, Wish, meet};
use counter_sys::HEADER_SIZE;
use std::collections::{BTreeMap, HashSet};
use std::fmt::Write as _;

pub fn map(args: &Args) -> Outcome<()> {
    let (image, mut desk, disc) = opened(args.image.as_deref())?;
    let disc = disc.with_paths()?;
    let way = to_clear(args, &image, &mut desk, &disc)?;
    let layout = Layout::of(&image, &mut desk, &disc)?;
    let folders = Folders::of(&[&layout]);
    let blocking = way.iter().flat_map(|way| &way.files).map(|file| file.node.number);
    let pieces = pieces(&layout, &folders, &blocking.collect());
    let mut picture = Picture::new(&layout, &pieces, &folders, 30.0, 1050.0);
    picture.free = free_rows(&layout, &pieces);
    picture.way = way.as_ref();
    picture.whole();
    let out = args.path(0);
    save(&out, document(1200.0, picture.y, &picture.out).as_bytes())?;
    if !args.json {
        let files = counted(layout.files().count(), "file", "files");
        let regions = counted(layout.free.len(), "free region", "free regions");
        let run = way.map_or(String::new(), |way| format!(", {}", way.words()));
        return say(format!("{}: {files}, {regions}{run}\n", names::file(&out)).as_bytes());
    }
    let pieces = pieces.iter().map(|piece| {
        let [name, name_bytes] = json::name(&piece.bytes);
        Json::Object(vec![
            ("kind", piece.what.name().into()),
            name,
            name_bytes,
            ("offset", piece.start.into()),
            ("size", piece.size.into()),
        ])
    });
    let mut fields = vec![
        ("out", out.display().to_string().into()),
        ("disc_end", layout.disc_end.into()),
        ("pieces", Json::List(pieces.collect())),
    ];
    fields.extend(way.map(|way| ("run", way.json())));
    say(Json::answer(fields).document().as_bytes())
}

/// The run that is to be marked, if one is.
fn to_clear<'a>(
    args: &Args,
    image: &Image,
    desk: &mut Desk,
    disc: &'a Disc,
) -> Outcome<Option<Way<'a>>> {
    let Some(size) = args.clear else { return Ok(None) };
    match (Wish { size, budget: args.budget }).find(image, desk, disc)? {
        None => Err(Failure::usage("--budget 0 tries no run: there is none to be marked")),
        way => Ok(way),
    }
}

/// Entries to be marked, by their numbers, before and after.
pub type Marks = (HashSet<u32>, HashSet<u32>);

/// Two discs beside each other, folders in the same colours; what differs has a frame.
pub fn side_by_side(before: &Layout, after: &Layout, marks: &Marks) -> String {
    let folders = Folders::of(&[before, after]);
    let (mut out, mut bottom) = (String::new(), 0.0f64);
    let sides = [("Before", before, &marks.0, 20.0), ("After", after, &marks.1, 700.0)];
    let pieces = sides.map(|(_, layout, marked, _)| pieces(layout, &folders, marked));
    let mut free = [free_rows(before, &pieces[0]), free_rows(after, &pieces[1])];
    if before.disc_end == after.disc_end {
        // Rows that stand beside each other are folded together.
        let both: Vec<bool> = free[0].iter().zip(&free[1]).map(|(a, b)| *a && *b).collect();
        free = [both.clone(), both];
    }
    for ((heading, layout, _, left), (pieces, free)) in
        sides.into_iter().zip(pieces.iter().zip(free))
    {
        let mut picture = Picture::new(layout, pieces, &folders, left, 570.0);
        picture.free = free;
        picture.half(heading);
        bottom = bottom.max(picture.y);
        out.push_str(&picture.out);
    }
    let mut legend = Legend { x: 20.0, y: bottom + 6.0, right: 1340.0, left: 20.0, lines: 6 };
    for (name, colour) in KINDS.iter().copied().chain(folders.named()) {
        legend.add(&mut out, name, colour);
    }
    if !(marks.0.is_empty() && marks.1.is_empty()) {
        legend.framed(&mut out, "differs");
    }
    document(1360.0, legend.y + 20.0, &out)
}

fn document(width: f64, height: f64, content: &str) -> String {
    let height = height + 10.0;
    format!(
        "<svg xmlns=\"http://www.w3.org/2000/svg\" width=\"{width}\" height=\"{height:.0}\" \
         viewBox=\"0 0 {width} {height:.0}\" font-family=\"sans-serif\" font-size=\"12\">\n\
         <rect width=\"100%\" height=\"100%\" fill=\"#ffffff\"/>\n{content}</svg>\n"
    )
}

// Pieces ----------------------------------------------------------------------------------

#[derive(Clone, Copy, PartialEq, Eq)]
enum What {
    System,
    Program,
    Table,
    File,
    Free,
}

impl What {
    fn name(self) -> &'static str {
        match self {
            What::System => "system",
            What::Program => "program",
            What::Table => "table",
            What::File => "file",
            What::Free => "free",
        }
    }
}

/// A piece of the disc.
struct Piece {
    what: What,
    /// A file's is its path, in the image's bytes and as text.
    bytes: Vec<u8>,
    name: String,
    start: u64,
    size: u64,
    colour: String,
    marked: bool,
}

impl Piece {
    fn end(&self) -> u64 {
        self.start + self.size
    }

    fn about(&self) -> String {
        let (start, size) = (self.start, self.size);
        format!("{}: {start:#x}, {} bytes ({})", self.name, grouped(size), human(size))
    }

    fn short(&self) -> &str {
        self.name.rsplit('/').next().unwrap_or("")
    }
}

const HEADER: &str = "#343a40";
const SYSTEM: &str = "#868e96";
const PROGRAM: &str = "#f08c00";
const TABLE: &str = "#e03131";
const FREE: &str = "#f1f3f5";

/// What a legend says of pieces that are no files.
const KINDS: [(&str, &str); 5] = [
    ("header", HEADER),
    ("system area", SYSTEM),
    ("program", PROGRAM),
    ("table", TABLE),
    ("free", FREE),
];

/// The folders of the root, each with a colour; files of the root itself have the first.
struct Folders(Vec<(String, String)>);

impl Folders {
    /// Those of all layouts: a folder has one colour in all of them.
    fn of(layouts: &[&Layout]) -> Folders {
        let mut names = vec!["/".to_string()];
        let mut known: HashSet<&[u8]> = HashSet::new();
        for layout in layouts {
            for record in layout.records.iter().skip(1) {
                if record.folder && record.parent == 0 && known.insert(&record.path) {
                    names.push(record.text());
                }
            }
        }
        Folders(names.into_iter().enumerate().map(|(i, name)| (name, colour(i))).collect())
    }

    fn named(&self) -> impl Iterator<Item = (&str, &str)> {
        self.0.iter().map(|(name, colour)| (name.as_str(), colour.as_str()))
    }
}

/// The first folders' colours, each far from the others. Red and orange are left to the table and the
/// program, grey to the system area.
const COLOURS: [&str; 24] = [
    "#1c7ed6", "#2f9e44", "#9c36b5", "#12b5cb", "#f06595", "#0b3d91", "#94d82d", "#5c3d99",
    "#20c997", "#a3683c", "#74c0fc", "#1b5e20", "#e599f7", "#6b7a00", "#800060", "#ffd43b",
    "#00695c", "#845ef7", "#b2f2bb", "#66320a", "#c08497", "#003f5c", "#99e9f2", "#d6336c",
];

/// The i-th of any number of colours. Behind the first ones hues from green over blue to pink, each far
/// from the last few, in five tones.
fn colour(i: usize) -> String {
    const GOLDEN: f64 = 0.618_033_988_749_895;
    const TONES: [(f64, f64); 5] =
        [(0.62, 0.40), (0.50, 0.66), (0.75, 0.24), (0.40, 0.54), (0.35, 0.33)];
    if let Some(colour) = COLOURS.get(i) {
        return colour.to_string();
    }
    let hue = 85.0 + 245.0 * ((i as f64 * GOLDEN + 0.5) % 1.0);
    let (saturation, lightness) = TONES[i % TONES.len()];
    let reach = saturation * f64::min(lightness, 1.0 - lightness);
    let part = |n: f64| {
        let k = (n + hue / 30.0) % 12.0;
        let value = lightness - reach * f64::min(k - 3.0, 9.0 - k).clamp(-1.0, 1.0);
        (value * 255.0).round() as u8
    };
    format!("#{:02x}{:02x}{:02x}", part(0.0), part(8.0), part(4.0))
}

/// Black or white, whichever is read better on the colour.
fn ink(colour: &str) -> &'static str {
    let part = |at: usize| f64::from(u8::from_str_radix(&colour[at..at + 2], 16).unwrap_or(0));
    let light = 0.299 * part(1) + 0.587 * part(3) + 0.114 * part(5);
    if light > 140.0 { "#212529" } else { "#ffffff" }
}

/// All pieces that have bytes. None covers another.
fn pieces(layout: &Layout, folders: &Folders, marked: &HashSet<u32>) -> Vec<Piece> {
    let mut pieces = Vec::new();
    let mut add = |what, bytes: &[u8], start: u64, size: u64, colour: &str, marked| {
        if size > 0 {
            let (bytes, name, colour) = (bytes.to_vec(), names::text(bytes), colour.to_string());
            pieces.push(Piece { what, bytes, name, start, size, colour, marked });
        }
    };
    for region in &layout.free {
        add(What::Free, b"free", region.offset.into(), region.size.into(), FREE, false);
    }
    let colours = of_root_folders(layout);
    let known: BTreeMap<&str, &str> = folders.named().collect();
    for record in layout.files() {
        let (offset, size) = record.place;
        let colour = known.get(colours[record.number as usize].as_str()).copied().unwrap_or(SYSTEM);
        let marked = marked.contains(&record.number);
        add(What::File, &record.path, offset.into(), size.into(), colour, marked);
    }
    let header = HEADER_SIZE as u64;
    add(What::System, b"header", 0, header, HEADER, false);
    // The system area lies around a program before the table.
    let fst = u64::from(layout.fst.0).max(header);
    let (start, size) = layout
        .program
        .map_or((fst, 0), |program| (program.place.offset.into(), u64::from(program.place.size)));
    let (from, until) = (start.clamp(header, fst), (start + size).clamp(header, fst));
    add(What::System, b"system area", header, from - header, SYSTEM, false);
    add(What::System, b"system area", until, fst - until, SYSTEM, false);
    add(What::Program, b"program", start, size, PROGRAM, false);
    add(What::Table, b"table", layout.fst.0.into(), layout.fst.1.into(), TABLE, false);
    pieces
}

/// How many bytes a row of the whole disc shows.
fn each_row(layout: &Layout) -> u64 {
    u64::from(layout.disc_end).max(1).div_ceil(ROWS)
}

/// Which rows hold nothing but free space.
fn free_rows(layout: &Layout, pieces: &[Piece]) -> Vec<bool> {
    let (end, each) = (u64::from(layout.disc_end).max(1), each_row(layout));
    let used = |start: u64| {
        let in_it = |piece: &&Piece| piece.start < start + each && start < piece.end();
        pieces.iter().filter(in_it).any(|piece| piece.what != What::Free)
    };
    (0..ROWS).map(|row| row * each).filter(|start| *start < end).map(|start| !used(start)).collect()
}

/// For each entry the path of its folder at the root; what lies in the root itself has `/`.
fn of_root_folders(layout: &Layout) -> Vec<String> {
    let mut found: Vec<String> = Vec::with_capacity(layout.records.len());
    for record in &layout.records {
        found.push(match (record.parent, record.folder) {
            (0, true) => record.text(),
            (0, false) => "/".into(),
            (parent, _) => found[parent as usize].clone(),
        });
    }
    found
}

// The picture -----------------------------------------------------------------------------

const ROWS: u64 = 32;
const ROW: f64 = 22.0;
const GAP: f64 = 3.0;
/// The height of a run of rows that are wholly free; a single one is shown as it is.
const FOLDED: f64 = 14.0;
/// What the address in front of a row takes.
const MARGIN: f64 = 80.0;
/// The least width of a file, a table or a program.
const LEAST: f64 = 2.0;
/// So many pieces at most have a rectangle of their own, with a title; the smaller rest is drawn as
/// one path a colour, since thousands of titles would make the picture large.
const TITLED: usize = 1500;

/// About the width of a text of 12 points in the sans-serif fonts of browsers, the wider ones.
fn width(words: &str) -> f64 {
    let letter = |c: char| match c {
        'i' | 'j' | 'l' | '.' | ',' | ':' | ';' | '\'' | '|' | '!' | ' ' => 4.0,
        'f' | 't' | 'r' | '(' | ')' | '[' | ']' | '/' | '\\' | '-' | '"' | '*' => 5.0,
        'm' | 'w' | 'M' | 'W' | '@' | '%' => 11.5,
        'A'..='Z' | '_' | '&' | '#' | '~' | '<' | '>' | '=' | '+' => 9.0,
        c if text::wide(c) => 12.5,
        _ => 7.5,
    };
    words.chars().map(letter).sum()
}

/// The text, or its start, as wide as there is room.
fn cut(words: &str, room: f64) -> String {
    if width(words) <= room {
        return words.to_string();
    }
    let mut out = String::new();
    for c in words.chars() {
        if width(&out) + 20.0 > room {
            break;
        }
        out.push(c);
    }
    out + "..."
}

struct Picture<'a> {
    layout: &'a Layout,
    pieces: &'a [Piece],
    folders: &'a Folders,
    /// In which order they are drawn: a small file over a larger one, table and program over all.
    order: Vec<usize>,
    /// Those that are drawn with a title.
    titled: HashSet<usize>,
    left: f64,
    span: f64,
    /// The rows that are wholly free, and folded where several are.
    free: Vec<bool>,
    /// The run that is marked.
    way: Option<&'a Way<'a>>,
    out: String,
    y: f64,
}

fn text(out: &mut String, x: f64, y: f64, style: &str, words: &str) {
    let _ = writeln!(out, "<text x=\"{x:.1}\" y=\"{y:.1}\" {style}>{}</text>", escape(words));
}

fn box_of(out: &mut String, x: f64, y: f64, colour: &str) {
    let _ = writeln!(
        out,
        "<rect x=\"{x:.1}\" y=\"{y:.1}\" width=\"11\" height=\"11\" fill=\"{colour}\" stroke=\"#adb5bd\" stroke-width=\"0.5\"/>"
    );
}

const BOLD: &str = "font-size=\"14\" font-weight=\"bold\"";
const MONO: &str = "font-family=\"monospace\" font-size=\"11\"";

impl<'a> Picture<'a> {
    fn new(
        layout: &'a Layout,
        pieces: &'a [Piece],
        folders: &'a Folders,
        left: f64,
        span: f64,
    ) -> Self {
        let mut order: Vec<usize> = (0..pieces.len()).collect();
        order.sort_by_key(|&i| (!pieces[i].marked, u64::MAX - pieces[i].size));
        let titled = order.iter().copied().take(TITLED).collect();
        let layer = |piece: &Piece| match piece.what {
            What::Free => 0,
            What::System => 1,
            What::File => 2,
            What::Program | What::Table => 3,
        };
        order.sort_by_key(|&i| (layer(&pieces[i]), u64::MAX - pieces[i].size));
        let (free, out) = (Vec::new(), String::new());
        Picture { layout, pieces, folders, order, titled, left, span, free, way: None, out, y: 0.0 }
    }

    /// Everything, on a page of its own.
    fn whole(&mut self) {
        let game = self.layout.game.clone();
        let title = if game.is_empty() { self.layout.name.clone() } else { game };
        text(
            &mut self.out,
            self.left,
            38.0,
            "font-size=\"22\" font-weight=\"bold\"",
            &cut(&title, 620.0),
        );
        let about = self.about();
        text(&mut self.out, self.left, 58.0, "fill=\"#495057\"", &about);
        self.y = 72.0;
        self.totals();
        self.start();
        let each = self.each();
        self.heading(&format!("The whole disc: each row is {} ({each:#x})", human(each)));
        self.colours();
        self.rows();
        self.y += 22.0;
        self.lists();
    }

    /// What one of two discs shows.
    fn half(&mut self, heading: &str) {
        let x = self.left;
        text(&mut self.out, x, 32.0, "font-size=\"18\" font-weight=\"bold\"", heading);
        let title = cut(&format!("{}  {}", self.layout.name, self.layout.game), 480.0);
        text(&mut self.out, x + 80.0, 32.0, "fill=\"#495057\"", &title);
        let about = self.about();
        text(&mut self.out, x, 52.0, "fill=\"#495057\"", &about);
        self.y = 76.0;
        let each = self.each();
        self.heading(&format!("The start of the disc, enlarged, then rows of {}", human(each)));
        let until = self.start_end();
        self.strip(0, until, ROW + 8.0, &[0]);
        self.y += ROW + 22.0;
        self.rows();
    }

    fn about(&self) -> String {
        let end = u64::from(self.layout.disc_end);
        let files = counted(self.layout.files().count(), "file", "files");
        let free = human(self.layout.free_bytes());
        let name =
            if self.span > 600.0 { format!("{}: ", self.layout.name) } else { String::new() };
        format!("{name}a disc of {} bytes ({}), {files}, {free} free", grouped(end), human(end))
    }

    fn heading(&mut self, words: &str) {
        text(&mut self.out, self.left, self.y, BOLD, words);
        self.y += 12.0;
    }

    /// One bar for the whole disc, with a legend in numbers.
    fn totals(&mut self) {
        let end = u64::from(self.layout.disc_end).max(1);
        let files: u64 = self.layout.files().map(|file| u64::from(file.place.1)).sum();
        let behind = self.layout.behind().map_or(0, |program| u64::from(program.size));
        let system = u64::from(self.layout.fst.0);
        let parts = [
            ("before the table", system, SYSTEM),
            ("table", self.layout.fst.1.into(), TABLE),
            ("program", behind, PROGRAM),
            ("files", files, self.folders.0[0].1.as_str()),
            ("free", self.layout.free_bytes(), FREE),
        ];
        let parts: Vec<_> =
            parts.into_iter().filter(|part| part.1 > 0 || part.0 != "program").collect();
        let (full, y) = (self.span + MARGIN, self.y);
        let mut x = self.left;
        for &(name, size, colour) in &parts {
            let wide = size as f64 / end as f64 * full;
            rect(&mut self.out, (x, y), (wide, 20.0), colour, &format!("{name}: {}", human(size)));
            x += wide;
        }
        self.frame(self.left, y, full, 20.0);
        x = self.left;
        for (name, size, colour) in parts {
            box_of(&mut self.out, x, y + 30.0, colour);
            let share = size as f64 / end as f64 * 100.0;
            let share = match size {
                0 => "0%".to_string(),
                _ if share < 0.1 => "below 0.1%".to_string(),
                _ => format!("{share:.1}%"),
            };
            let words = format!("{name} {} ({share})", human(size));
            text(&mut self.out, x + 16.0, y + 40.0, "", &words);
            x += width(&words) + 40.0;
        }
        self.y = y + 72.0;
    }

    fn frame(&mut self, x: f64, y: f64, wide: f64, high: f64) {
        let _ = writeln!(
            self.out,
            "<rect x=\"{x:.1}\" y=\"{y:.1}\" width=\"{wide:.1}\" height=\"{high:.1}\" fill=\"none\" stroke=\"#adb5bd\"/>"
        );
    }

    /// Where the enlarged start ends: somewhat behind table and program.
    fn start_end(&self) -> u64 {
        // A program far behind the table would make the rest too small.
        let table_end = self.layout.table_end();
        let near = self.pieces.iter().filter(|piece| is_system(piece)).map(Piece::end);
        let last = near.filter(|end| *end <= 8 * table_end).max().unwrap_or(table_end);
        (last + last / 6).min(self.layout.disc_end.into()).max(1)
    }

    fn start(&mut self) {
        let until = self.start_end();
        self.heading(&format!(
            "The start of the disc, enlarged: 0 to {until:#x} ({})",
            human(until)
        ));
        self.strip(0, until, ROW + 8.0, &[0]);
        self.y += ROW + 16.0;
        let mut x = self.left + MARGIN;
        let mut told: HashSet<&str> = HashSet::new();
        for piece in self.pieces.iter().filter(|piece| is_system(piece)) {
            if !told.insert(piece.name.as_str()) {
                continue;
            }
            let words = match piece.name.as_str() {
                "system area" => "system area".to_string(),
                name => format!("{name} at {:#x}, {}", piece.start, human(piece.size)),
            };
            box_of(&mut self.out, x, self.y, &piece.colour);
            text(&mut self.out, x + 16.0, self.y + 10.0, "", &words);
            x += width(&words) + 40.0;
        }
        self.y += 42.0;
    }

    /// Which folder of the root has which colour.
    fn colours(&mut self) {
        let mut legend = Legend {
            x: self.left + MARGIN,
            y: self.y,
            left: self.left + MARGIN,
            right: self.left + MARGIN + self.span,
            lines: 5,
        };
        for (name, colour) in self.folders.named() {
            legend.add(&mut self.out, name, colour);
        }
        self.y = legend.y + 20.0;
        if let Some(way) = self.way {
            let mut legend = Legend { x: legend.left, y: self.y, lines: 1, ..legend };
            legend.outlined(&mut self.out, &way.words());
            if !way.files.is_empty() {
                legend.framed(&mut self.out, "a file in its way");
            }
            self.y = legend.y + 20.0;
        }
    }

    fn each(&self) -> u64 {
        each_row(self.layout)
    }

    fn rows(&mut self) {
        let end = u64::from(self.layout.disc_end).max(1);
        let each = self.each();
        let starts: Vec<u64> =
            (0..ROWS).map(|row| row * each).filter(|start| *start < end).collect();
        let mut row = 0;
        // Those of the run are shown.
        let run = self.way.map_or(0..0, Way::span);
        let is_folded = |row: usize| {
            self.free[row] && meet(&(starts[row]..starts[row] + each), &run).is_empty()
        };
        let folded: Vec<bool> = (0..starts.len()).map(is_folded).collect();
        while row < starts.len() {
            let free = folded[row..].iter().take_while(|folded| **folded).count();
            if free > 1 {
                let until = (starts[row] + free as u64 * each).min(end);
                self.folded(starts[row], until, free);
                row += free;
                continue;
            }
            self.strip(starts[row], starts[row] + each, ROW, &starts);
            self.y += ROW + GAP;
            row += 1;
        }
    }

    /// Several rows that are wholly free, as one low one.
    fn folded(&mut self, from: u64, until: u64, rows: usize) {
        let (left, y) = (self.left + MARGIN, self.y);
        let style = format!("text-anchor=\"end\" {MONO} fill=\"#495057\"");
        text(&mut self.out, left - 8.0, y + FOLDED - 3.0, &style, &format!("{from:#010x}"));
        let words =
            format!("{rows} rows, all free: {from:#x} to {until:#x}, {}", human(until - from));
        rect(&mut self.out, (left, y), (self.span, FOLDED), FREE, &words);
        let _ = writeln!(
            self.out,
            "<rect x=\"{left:.1}\" y=\"{y:.1}\" width=\"{:.1}\" height=\"{FOLDED:.1}\" fill=\"none\" \
             stroke=\"#adb5bd\" stroke-dasharray=\"4 3\"/>",
            self.span
        );
        text(
            &mut self.out,
            left + 4.0,
            y + FOLDED - 3.0,
            "font-size=\"11\" fill=\"#868e96\"",
            &words,
        );
        self.y += FOLDED + GAP;
    }

    /// The pieces from `from` up to `until` as one row. `starts` are those of all rows, so that a
    /// piece is labelled once, where it is widest.
    fn strip(&mut self, from: u64, until: u64, high: f64, starts: &[u64]) {
        let y = self.y;
        let each = until - from;
        let scale = self.span / each as f64;
        let left = self.left + MARGIN;
        let style = format!("text-anchor=\"end\" {MONO} fill=\"#495057\"");
        text(&mut self.out, left - 8.0, y + high / 2.0 + 4.0, &style, &format!("{from:#010x}"));
        rect(&mut self.out, (left, y), (self.span, high), FREE, "free");
        let (mut labels, mut small) = (String::new(), BTreeMap::<&str, String>::new());
        for &i in &self.order {
            let piece = &self.pieces[i];
            if piece.end() <= from || until <= piece.start {
                continue;
            }
            let (start, stop) = (piece.start.max(from), piece.end().min(until));
            let x = left + (start - from) as f64 * scale;
            let exact = (stop - start) as f64 * scale;
            let kept = piece.what == What::Free || start > piece.start;
            let wide = if kept { exact } else { exact.max(LEAST) };
            // At the right end the least width reaches to the left.
            let x = x.min(left + self.span - wide);
            if piece.marked {
                let wide = wide.max(4.0).min(self.span);
                let x = x.min(left + self.span - wide);
                marked(&mut labels, (x, y), (wide, high), &piece.colour, &piece.about());
            } else if self.titled.contains(&i) && exact >= 1.0 || self.pieces.len() <= TITLED {
                rect(&mut self.out, (x, y), (wide, high), &piece.colour, &piece.about());
            } else if piece.what != What::Free {
                let path = small.entry(&piece.colour).or_default();
                let _ = write!(path, "M{x:.1} {:.0}h{wide:.1}", y + high / 2.0);
            }
            if widest(piece, starts, each) == from {
                label(&mut labels, piece, x, y + high / 2.0 + 4.0, exact);
            }
        }
        for (colour, path) in small {
            let _ = writeln!(
                self.out,
                "<path d=\"{path}\" stroke=\"{colour}\" stroke-width=\"{high:.0}\"/>"
            );
        }
        self.frame(left, y, self.span, high);
        self.out.push_str(&labels);
        if let Some(way) = self.way {
            let part = meet(&(from..until), &way.span());
            if !part.is_empty() {
                let wide = ((part.end - part.start) as f64 * scale).max(LEAST);
                let x = (left + (part.start - from) as f64 * scale).min(left + self.span - wide);
                outlined(&mut self.out, (x, y), (wide, high), &way.words());
            }
        }
    }

    /// The largest files and the largest free regions.
    fn lists(&mut self) {
        let top = self.y;
        let of = |what| {
            let mut found: Vec<&Piece> = self.pieces.iter().filter(|p| p.what == what).collect();
            found.sort_by_key(|piece| (u64::MAX - piece.size, piece.start));
            found.truncate(12);
            found
        };
        let (files, free) = (of(What::File), of(What::Free));
        self.column(self.left, "Largest files", &files);
        let left = self.y;
        self.y = top;
        self.column(self.left + 770.0, "Largest free regions", &free);
        self.y = self.y.max(left);
    }

    fn column(&mut self, x: f64, heading: &str, pieces: &[&Piece]) {
        text(&mut self.out, x, self.y, BOLD, heading);
        for piece in pieces {
            self.y += 18.0;
            box_of(&mut self.out, x, self.y - 10.0, &piece.colour);
            text(&mut self.out, x + 20.0, self.y, MONO, &format!("{:#010x}", piece.start));
            let right = format!("text-anchor=\"end\" {MONO}");
            text(&mut self.out, x + 172.0, self.y, &right, &human(piece.size));
            if piece.what == What::File {
                let name = cut(&piece.name, 540.0);
                text(&mut self.out, x + 190.0, self.y, MONO, &name);
            }
        }
        self.y += 10.0;
    }
}

fn is_system(piece: &Piece) -> bool {
    matches!(piece.what, What::System | What::Program | What::Table)
}

/// The start of the row that shows most of the piece, the first among equals.
fn widest(piece: &Piece, starts: &[u64], each: u64) -> u64 {
    let first = (piece.start / each).min(starts.len() as u64 - 1) * each;
    let of = |start: u64| piece.end().min(start + each).saturating_sub(piece.start.max(start));
    let next = first + each;
    if starts.contains(&next) && of(next) > of(first) { next } else { first }
}

/// The piece's name, and its size where both fit.
fn label(out: &mut String, piece: &Piece, x: f64, y: f64, wide: f64) {
    let long = format!("{} {}", piece.short(), human(piece.size));
    let fits = |words: &str| width(words) + 8.0 <= wide;
    let words = if fits(&long) { &long } else { piece.short() };
    if fits(words) && (piece.what != What::Free || fits(&long)) {
        let fill = if piece.what == What::Free { "#868e96" } else { ink(&piece.colour) };
        text(out, x + 4.0, y, &format!("fill=\"{fill}\""), words);
    }
}

fn rect(out: &mut String, at: (f64, f64), size: (f64, f64), colour: &str, title: &str) {
    let edge = if size.0 > 4.0 { " stroke=\"#ffffff\" stroke-width=\"0.4\"" } else { "" };
    let _ = writeln!(
        out,
        "<rect x=\"{:.1}\" y=\"{:.1}\" width=\"{:.1}\" height=\"{:.0}\" fill=\"{colour}\"{edge}><title>{}</title></rect>",
        at.0,
        at.1,
        size.0,
        size.1,
        escape(title)
    );
}

/// The same with a frame.
fn marked(out: &mut String, at: (f64, f64), size: (f64, f64), colour: &str, title: &str) {
    let _ = writeln!(
        out,
        "<rect x=\"{:.1}\" y=\"{:.1}\" width=\"{:.1}\" height=\"{:.0}\" fill=\"{colour}\" stroke=\"#000000\" stroke-width=\"2\"><title>{}</title></rect>",
        at.0,
        at.1 + 1.0,
        size.0,
        size.1 - 2.0,
        escape(title)
    );
}

/// A frame around what is drawn there.
fn outlined(out: &mut String, at: (f64, f64), size: (f64, f64), title: &str) {
    let _ = writeln!(
        out,
        "<rect x=\"{:.1}\" y=\"{:.1}\" width=\"{:.1}\" height=\"{:.0}\" fill=\"none\" stroke=\"#000000\" \
         stroke-width=\"3\" stroke-dasharray=\"7 3\"><title>{}</title></rect>",
        at.0,
        at.1 - 1.0,
        size.0,
        size.1 + 2.0,
        escape(title)
    );
}

/// Names behind boxes, in lines; what does not go into the last line is counted.
struct Legend {
    x: f64,
    y: f64,
    left: f64,
    right: f64,
    lines: usize,
}

impl Legend {
    fn add(&mut self, out: &mut String, name: &str, colour: &str) {
        let name = cut(name, 200.0);
        if self.room(width(&name) + 36.0) {
            box_of(out, self.x, self.y, colour);
            text(out, self.x + 16.0, self.y + 10.0, "", &name);
            self.x += width(&name) + 36.0;
        }
    }

    fn framed(&mut self, out: &mut String, name: &str) {
        if self.room(width(name) + 36.0) {
            marked(out, (self.x, self.y - 1.0), (11.0, 13.0), "#ffffff", name);
            text(out, self.x + 16.0, self.y + 10.0, "", name);
        }
    }

    fn outlined(&mut self, out: &mut String, name: &str) {
        if self.room(width(name) + 36.0) {
            outlined(out, (self.x, self.y), (11.0, 11.0), name);
            text(out, self.x + 16.0, self.y + 10.0, "", name);
            self.x += width(name) + 36.0;
        }
    }

    fn room(&mut self, wide: f64) -> bool {
        if self.lines > 0 && self.x + wide > self.right {
            self.lines -= 1;
            if self.lines > 0 {
                self.x = self.left;
                self.y += 18.0;
            }
        }
        self.lines > 0
    }
}
