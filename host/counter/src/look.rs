//! The commands that look at an image.

use crate::anew::Anew;
use crate::args::Args;
use crate::banner::Banner;
use crate::disc::{
    CLUSTER, Clusters, Disc, Kind, Node, Space, free_clusters, not_opened, opened, space, table_end,
};
use crate::failure::{Failure, Outcome};
use crate::header::{FIELDS, Field, Header};
use crate::image::Image;
use crate::json::{self, Json, latin};
use crate::maximum::Maximum;
use crate::names::{self, shown as shown_name};
use crate::out::say;
use crate::program::Program;
use crate::record;
use crate::stored::Stored;
use crate::text::{both, counted, grouped, hex, human, label, line, number, shown, size};
use crate::tree::{free_json, node_fields, region_fields, weights};
use crate::trouble;
use counter_sys as counter;
use std::fmt::Write;

// info ------------------------------------------------------------------------------------

/// The header's single bytes, and its 4-byte numbers.
fn numbers(size: usize) -> impl Iterator<Item = &'static Field> {
    FIELDS.iter().filter(move |field| field.size == size && field.name != "game code")
}

pub fn info(args: &Args) -> Outcome<()> {
    let (image, mut desk, disc) = space(args.image.as_deref())?;
    let header = Header::read(image.bytes()).map_err(|n| not_opened(&image, n))?;
    let maximum = Maximum::read(&image, &mut desk, &disc.opened)?;
    let program = Program::read(&image, &mut desk, &disc.opened)?;
    let largest = record::fresh(&image, &mut desk)?.record.largest;
    if args.json {
        let mut fields = info_fields(&image, &header, &disc);
        fields.push(("largest_free", largest.into()));
        fields.extend(maximum.fields());
        fields.push(("program_behind_table", program.is_some_and(|at| at.behind).into()));
        fields.push(("program", program.into()));
        fields.push(("banner", Banner::read(&image, &mut desk, &header).into()));
        return say(Json::answer(fields).document().as_bytes());
    }
    let mut text = info_text(&image, &header, &disc);
    line(&mut text, "largest free", size(largest.into()));
    maximum.lines(&mut text);
    line(&mut text, "program", program.map_or("none".into(), |program| program.words()));
    if let Some(banner) = Banner::read(&image, &mut desk, &header) {
        line(&mut text, "banner title", banner.title().unwrap_or("none"));
        line(&mut text, "banner maker", banner.maker().unwrap_or("none"));
    }
    say(names::for_terminal(&text).as_bytes())
}

fn info_fields(image: &Image, header: &Header, disc: &Space) -> Vec<(&'static str, Json)> {
    let mut fields = vec![
        ("image", Json::from(image.name.as_str())),
        ("image_bytes", image.bytes().len().into()),
        ("game_code", latin(header.bytes(0, 4))),
        ("maker", latin(header.bytes(4, 2))),
        ("game_name", latin(header.game_name())),
    ];
    for field in numbers(1) {
        fields.push((field.key, u32::from(header.bytes(field.at, 1)[0]).into()));
    }
    for field in numbers(4) {
        fields.push((field.key, header.word(field.at).into()));
    }
    fields.push(("disc_end", disc.opened.disc_end.into()));
    fields.push(("table_end", table_end(&disc.opened).into()));
    fields.push(("entries", disc.opened.entries.into()));
    fields.push(("files", disc.files.into()));
    fields.push(("directories", (disc.folders() + 1).into()));
    fields.push(("used", disc.opened.used.into()));
    fields.push(("free", disc.free_bytes().into()));
    fields.push(("free_regions", disc.free.len().into()));
    fields
}

fn info_text(image: &Image, header: &Header, disc: &Space) -> String {
    let mut out = String::new();
    line(&mut out, "image", &image.name);
    line(&mut out, "file size", size(image.bytes().len() as u64));
    line(&mut out, "game", shown(header.game()));
    line(&mut out, "name", shown(header.game_name()));
    for field in numbers(1) {
        line(&mut out, field.shown, header.bytes(field.at, 1)[0]);
    }
    for field in numbers(4) {
        line(&mut out, field.shown, hex(header.word(field.at)));
    }
    line(&mut out, "disc end", size(disc.opened.disc_end.into()));
    line(&mut out, "entries", disc.opened.entries);
    line(&mut out, "files", disc.files);
    line(&mut out, "folders", format!("{} and the root", disc.folders()));
    line(&mut out, "used", size(disc.opened.used.into()));
    let regions = counted(disc.free.len(), "region", "regions");
    line(&mut out, "free", format!("{} in {regions}", size(disc.free_bytes())));
    out
}

// free, find, check -----------------------------------------------------------------------

pub fn free(args: &Args) -> Outcome<()> {
    let (image, mut desk, disc) = space(args.image.as_deref())?;
    let clusters = args.clusters.then(|| free_clusters(&image, &mut desk)).transpose()?;
    let program = Program::read(&image, &mut desk, &disc.opened)?;
    if args.json {
        let mut fields = vec![
            ("disc_end", disc.opened.disc_end.into()),
            ("free", disc.free_bytes().into()),
            ("program", program.into()),
        ];
        fields.extend(match &clusters {
            Some(clusters) => clusters_fields(&disc, clusters),
            None => vec![("regions", free_json(&disc.free))],
        });
        return say(Json::answer(fields).document().as_bytes());
    }
    let mut text = match &clusters {
        Some(clusters) => clusters_text(&disc, clusters),
        None => free_text(&disc),
    };
    // What no file holds and is not free.
    if let Some(program) = program.filter(|program| program.behind) {
        let _ = writeln!(text, "not free: the program, {}", program.words());
    }
    say(text.as_bytes())
}

fn free_text(disc: &Space) -> String {
    let mut out = format!("{:>10}  {:>10}  {:>13}\n", "offset", "size", "bytes");
    for region in &disc.free {
        let bytes = u64::from(region.size);
        let _ = writeln!(
            out,
            "{:#010x}  {:#010x}  {:>13}  {}",
            region.offset,
            region.size,
            grouped(bytes),
            human(bytes)
        );
    }
    let regions = counted(disc.free.len(), "region", "regions");
    let total = disc.free_bytes();
    let _ = writeln!(
        out,
        "{} free of {} in {regions}",
        size(total),
        human(disc.opened.disc_end.into())
    );
    out
}

fn whole_clusters(clusters: &[Clusters]) -> usize {
    clusters.iter().map(|region| region.whole as usize).sum()
}

fn clusters_fields(disc: &Space, clusters: &[Clusters]) -> Vec<(&'static str, Json)> {
    let regions = disc.free.iter().zip(clusters).map(|(region, in_clusters)| {
        let mut fields = region_fields(region);
        fields.push(("before", in_clusters.before.into()));
        fields.push(("clusters", in_clusters.whole.into()));
        fields.push(("rest", in_clusters.rest.into()));
        Json::Object(fields)
    });
    vec![
        ("cluster_size", CLUSTER.into()),
        ("clusters", whole_clusters(clusters).into()),
        ("regions", Json::List(regions.collect())),
    ]
}

/// Six places hold what lies beside the whole clusters of a region: at most 32,767 bytes on each side.
fn clusters_text(disc: &Space, clusters: &[Clusters]) -> String {
    let mut out = format!(
        "{:>10}  {:>10}  {:>6}  {:>8}  {:>6}\n",
        "offset", "size", "before", "clusters", "rest"
    );
    for (region, in_clusters) in disc.free.iter().zip(clusters) {
        let _ = writeln!(
            out,
            "{:#010x}  {:#010x}  {:>6}  {:>8}  {:>6}",
            region.offset,
            region.size,
            grouped(in_clusters.before.into()),
            grouped(in_clusters.whole.into()),
            grouped(in_clusters.rest.into())
        );
    }
    let whole = counted(whole_clusters(clusters), "whole cluster", "whole clusters");
    let regions = counted(disc.free.len(), "region", "regions");
    let beside = clusters.iter().map(|region| u64::from(region.before) + u64::from(region.rest));
    let _ = writeln!(out, "{whole} of {CLUSTER:#x} bytes in {regions}");
    let _ = writeln!(out, "{} free beside them", size(beside.sum()));
    out
}

pub fn find(args: &Args) -> Outcome<()> {
    let (image, mut desk, disc) = opened(args.image.as_deref())?;
    let path = args.entry(0)?;
    let node = disc.find(&image, &mut desk, &path)?;
    let grow = match node.kind {
        Kind::Directory { .. } => None,
        Kind::File { .. } => {
            let size = counter::max_file_size(image.bytes(), &mut desk.lend(), node.number);
            Some(size.map_err(|n| Failure::refused(n, names::text(&path)))?)
        }
    };
    if args.json {
        let mut fields = node_fields(node);
        fields.extend(json::path(&disc.path(&image, node)));
        fields.push(("largest_size", grow.into()));
        return say(Json::answer(fields).document().as_bytes());
    }
    let (mut first, mut last) = (String::new(), String::new());
    line(&mut first, "entry", node.number);
    line(&mut first, "kind", if node.is_directory() { "folder" } else { "file" });
    match node.kind {
        Kind::File { offset, size: bytes } => {
            line(&mut last, "offset", both(offset));
            line(&mut last, "size", size(bytes.into()));
            line(&mut last, "can grow here to", size(grow.unwrap_or(bytes).into()));
        }
        Kind::Directory { next } => {
            let (bytes, files) = weights(&disc)[node.number as usize];
            line(&mut last, "entries below", next.saturating_sub(node.number + 1));
            line(&mut last, "files below", format!("{files}, {}", size(bytes)));
        }
    }
    let named = |name, path: &[u8]| [label(name).as_bytes(), &shown_name(path), b"\n"].concat();
    let folder = &disc.nodes[node.parent as usize];
    let [path, folder] = [("path", node), ("folder", folder)]
        .map(|(name, node)| named(name, &disc.path(&image, node)));
    say(&[&path, first.as_bytes(), &folder, last.as_bytes()].concat())
}

pub fn place(args: &Args) -> Outcome<()> {
    let wish = number(&args.bytes(0)).map_err(Failure::usage)?;
    let align = args.optional(1).map(|text| number(&text)).transpose().map_err(Failure::usage)?;
    let align = align.unwrap_or(CLUSTER);
    let (image, mut desk, _) = space(args.image.as_deref())?;
    let found =
        counter::allocate(image.bytes(), &mut desk.lend(), wish, align).map_err(|number| {
            let what = format!("{} bytes on a multiple of {align:#x}", grouped(wish.into()));
            let failure = Failure::refused(number, format!("a place for {what}"));
            if number == 21 { failure.because("see `counter free`") } else { failure }
        })?;
    if args.json {
        let json = Json::answer(vec![
            ("size", wish.into()),
            ("align", align.into()),
            ("offset", found.offset.into()),
            ("room", found.size.into()),
        ]);
        return say(json.document().as_bytes());
    }
    let mut out = String::new();
    line(&mut out, "offset", both(found.offset));
    line(&mut out, "room", size(found.size.into()));
    say(out.as_bytes())
}

/// Names that are told one by one; the others are counted.
const TOLD: usize = 12;

/// Entries that a game which looks up without case does not find, each behind the one that it finds.
fn alike(disc: &Disc) -> Vec<(&Node, &Node)> {
    let names = disc.nodes.iter().map(|node| (node.parent, &node.name[..]));
    let pairs = names::alike(names).into_iter();
    pairs.map(|(found, hidden)| (&disc.nodes[found], &disc.nodes[hidden])).collect()
}

pub fn check(args: &Args) -> Outcome<()> {
    let (image, mut desk, disc) = opened(args.image.as_deref())?;
    let space = Space::read(&image, &mut desk)?;
    let maximum = Maximum::read(&image, &mut desk, &disc.opened)?;
    let stored = Stored::read(&image, &disc);
    let anew = Anew::read(&image, &mut desk, &disc)?;
    let mut notes: Vec<String> = maximum.note().into_iter().collect();
    notes.extend(trouble::nkit(image.bytes()).map(String::from));
    notes.extend(stored.notes());
    notes.extend(anew.notes());
    let alike = alike(&disc);
    if !disc.has_paths() {
        notes.push(
            "its paths take more than 64 MiB: names that differ in case alone are not looked for"
                .into(),
        );
    }
    let told = alike.iter().take(TOLD).map(|(found, hidden)| {
        let [found, hidden] = [found, hidden].map(|node| names::short(&node.path));
        format!("{hidden}: a game that looks up without case finds {found} in its place")
    });
    notes.extend(told);
    if alike.len() > TOLD {
        notes.push(format!("so it is with {} more", grouped((alike.len() - TOLD) as u64)));
    }
    if args.json {
        let mut fields = vec![
            ("opens", true.into()),
            ("entries", disc.opened.entries.into()),
            ("files", space.files.into()),
            ("disc_end", disc.opened.disc_end.into()),
            ("used", disc.opened.used.into()),
            ("free", space.free_bytes().into()),
            ("fst_size", disc.opened.fst_size.into()),
            ("fst_maximum", maximum.stated.into()),
        ];
        fields.extend(maximum.fields());
        fields.extend(stored.fields());
        fields.extend(anew.fields());
        let pairs = alike.iter().map(|(found, hidden)| {
            let [path, path_bytes] = json::path(&hidden.path);
            let [(_, text), (_, bytes)] = json::path(&found.path);
            Json::Object(vec![path, path_bytes, ("found", text), ("found_bytes", bytes)])
        });
        fields.push(("alike", Json::List(pairs.collect())));
        fields.push(("notes", Json::List(notes.into_iter().map(Json::from).collect())));
        return say(Json::answer(fields).document().as_bytes());
    }
    let mut text = format!(
        "{}: opens: {}, {}, {} used and {} free of {}\n",
        image.name,
        counted(space.files, "file", "files"),
        counted(space.folders(), "folder", "folders"),
        human(disc.opened.used.into()),
        human(space.free_bytes()),
        human(disc.opened.disc_end.into())
    );
    if anew.alters_nothing() {
        let _ = writeln!(text, "{}", anew.words());
    }
    for note in notes {
        let _ = writeln!(text, "note: {note}");
    }
    say(names::for_terminal(&text).as_bytes())
}
