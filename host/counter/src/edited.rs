//! What an edit did, as JSON.

use crate::args::Args;
use crate::call::{Call, Wish};
use crate::decision::Decision;
use crate::disc::{Disc, Kind, Node};
use crate::json::{self, Json};
use crate::maximum::Maximum;
use crate::names;
use crate::told::{lost, notes, renumbered};
use std::collections::{HashMap, HashSet};

/// `decision` is the edit as it was decided on.
pub fn json(args: &Args, wish: &Wish, call: &Call, before: &Disc, decision: &Decision) -> Json {
    let nothing = decision.is_nothing;
    if let Some(maximum) = &decision.maximum {
        return stated(args, decision, maximum);
    }
    let [path, path_bytes] = match wish.path() {
        Some(path) => json::path(path),
        None => [("path", Json::Null), ("path_bytes", Json::Null)],
    };
    let mut fields = vec![
        ("status", 0u32.into()),
        ("edit", args.form.name.into()),
        path,
        path_bytes,
        ("dry_run", args.dry.into()),
        ("written", (!args.dry && !nothing).into()),
    ];
    fields.extend(answer(wish, call, before, decision));
    fields.push(("record", decision.turn.json(decision.after.opened.disc_end)));
    if let Wish::Fill(_, clip) = wish {
        let clip = vec![("name", clip.name.as_str().into()), ("size", clip.len.into())];
        fields.push(("clip", Json::Object(clip)));
    }
    Json::Object(fields)
}

/// What the edit did, but for what it leaves.
pub fn answer(
    wish: &Wish,
    call: &Call,
    before: &Disc,
    decision: &Decision,
) -> Vec<(&'static str, Json)> {
    let after = &decision.after;
    // A fill writes other bytes where the place may be the same.
    let filled = call.file().filter(|_| decision.fills());
    let table = Json::Object(vec![
        ("before", before.opened.fst_size.into()),
        ("after", after.opened.fst_size.into()),
    ]);
    let notes = notes(call, before, decision, |name| names::text(name).into_bytes());
    let notes = notes.into_iter().map(|note| String::from_utf8_lossy(&note).into_owned().into());
    let renumbered = renumbered(call, before, decision)
        .map(|(first, last)| Json::Object(vec![("first", first.into()), ("last", last.into())]));
    vec![
        ("table", table),
        ("entries", Json::List(entries(before, after, filled))),
        ("renumbered", renumbered.into()),
        ("lost", lost(wish, call, before, decision).into()),
        ("notes", Json::List(notes.collect())),
    ]
}

/// Another maximum, and the table held against it.
fn stated(args: &Args, decision: &Decision, maximum: &Maximum) -> Json {
    let (before, after) = decision.stated.unwrap_or_default();
    let stated = Json::Object(vec![("before", before.into()), ("after", after.into())]);
    let mut fields = vec![
        ("status", 0u32.into()),
        ("edit", args.form.name.into()),
        ("dry_run", args.dry.into()),
        ("written", (!args.dry && !decision.is_nothing).into()),
        ("fst_maximum", stated),
        ("fst_size", decision.after.opened.fst_size.into()),
    ];
    fields.extend(maximum.fields());
    fields.push(("notes", Json::List(maximum.note().into_iter().map(Json::from).collect())));
    Json::Object(fields)
}

/// Those that are new, lie elsewhere or have another size, and the one that was filled.
fn entries(before: &Disc, after: &Disc, filled: Option<u32>) -> Vec<Json> {
    let mut known: HashMap<&[u8], &Node> = HashMap::new();
    for node in &before.nodes {
        known.entry(&node.path).or_insert(node);
    }
    let mut seen: HashSet<&[u8]> = HashSet::new();
    let mut entries = Vec::new();
    for node in &after.nodes {
        let was = known.get(&node.path[..]).copied();
        // A path means the first entry that has it.
        let differs = was.is_none_or(|was| place(was) != place(node));
        if seen.insert(&node.path) && (differs || filled == Some(node.number)) {
            entries.push(entry(was, node, after.has_paths()));
        }
    }
    entries
}

fn place(node: &Node) -> Option<(u32, u32)> {
    match node.kind {
        Kind::File { offset, size } => Some((offset, size)),
        Kind::Directory { .. } => None,
    }
}

/// Where paths are not kept, `entry N` stands for them.
fn entry(before: Option<&Node>, after: &Node, named: bool) -> Json {
    let told = |node: Option<&Node>| {
        node.and_then(place).map_or(Json::Null, |(offset, size)| {
            Json::Object(vec![("offset", offset.into()), ("size", size.into())])
        })
    };
    let [path, path_bytes] = json::path(&after.path);
    let path_bytes = if named { path_bytes } else { ("path_bytes", Json::Null) };
    Json::Object(vec![
        ("number", after.number.into()),
        path,
        path_bytes,
        ("kind", if after.is_directory() { "directory" } else { "file" }.into()),
        ("before", told(before)),
        ("after", told(Some(after))),
    ])
}
