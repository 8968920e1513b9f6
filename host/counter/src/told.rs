//! What an edit did, in words.

use crate::account::Turn;
use crate::call::{Call, What, Wish};
use crate::decision::Decision;
use crate::disc::{Disc, Kind, Node};
use crate::maximum::Maximum;
use crate::names::{self, shown};
use crate::text::{counted, grouped, size};
use counter_sys::MOST_PATH;
use std::collections::HashSet;
use std::io::Write;

/// A line with a name or a path between its words.
fn named(out: &mut Vec<u8>, before: &str, path: &[u8], after: &str) {
    out.extend([before.as_bytes(), &shown(path), after.as_bytes(), b"\n"].concat());
}

/// `decision` is the edit as it was decided on.
pub fn report(wish: &Wish, call: &Call, before: &Disc, decision: &Decision) -> Vec<u8> {
    let mut out = answer(wish, call, before, decision);
    if decision.maximum.is_none() {
        out.extend(left(before.opened.fst_size, &decision.after, &decision.turn));
    }
    out
}

/// What edits leave: the table's size, where it was another, and the record.
pub fn left(old: u32, after: &Disc, turn: &Turn) -> Vec<u8> {
    let new = after.opened.fst_size;
    let table = match old == new {
        true => String::new(),
        false => format!("table: {} -> {} bytes\n", grouped(old.into()), grouped(new.into())),
    };
    (table + &turn.line(after.opened.disc_end)).into_bytes()
}

/// What the edit did, but for what it leaves.
pub fn answer(wish: &Wish, call: &Call, before: &Disc, decision: &Decision) -> Vec<u8> {
    let (after, nothing) = (&decision.after, decision.is_nothing);
    let mut out = Vec::new();
    if let Some(maximum) = &decision.maximum {
        stated(&mut out, decision.stated, maximum);
        return out;
    }
    match call.what {
        What::MakeFolders(_) => {
            named_as(&mut out, "made ", &new_entries(call, before, decision));
            if out.is_empty() {
                let anew = if nothing { "" } else { "; the table was written anew" };
                let _ = writeln!(out, "every folder of the path was there{anew}");
            }
        }
        What::Insert(..) => named_as(&mut out, "added ", &new_entries(call, before, decision)),
        What::InsertFolder(..) => named_as(&mut out, "made ", &new_entries(call, before, decision)),
        What::Move(at, _) | What::Resize(at, _) | What::Fill(at, _) => {
            placed(&mut out, wish, &before.nodes[at as usize], &after.nodes[at as usize], nothing);
            match lost(wish, call, before, decision) {
                0 => {}
                lost => out.extend(lost_words(wish, lost).as_bytes()),
            }
        }
        What::Rewrite if nothing => out.extend(b"the table is as a rewrite leaves it\n"),
        _ => out.extend(b"the table was written anew\n"),
    }
    if let Some((first, last)) = renumbered(call, before, decision) {
        let _ = writeln!(out, "entries {first} to {last} have higher numbers now");
    }
    for note in notes(call, before, decision, shown) {
        out.extend([b"note: ", &note[..], b"\n"].concat());
    }
    out
}

/// What a dry run says.
pub fn dry(text: &[u8]) -> Vec<u8> {
    led(b"dry run: ", &[text, b"all this would be done; nothing was written\n"].concat())
}

/// Each line of the text with the same before it.
pub fn led(before: &[u8], text: &[u8]) -> Vec<u8> {
    text.split_inclusive(|&b| b == b'\n').flat_map(|line| [before, line].concat()).collect()
}

/// Another maximum, and the table held against it.
fn stated(out: &mut Vec<u8>, change: Option<(u32, u32)>, maximum: &Maximum) {
    let bytes = |stated: u32| match stated {
        0 => "0 (none stated)".into(),
        _ => size(stated.into()),
    };
    let mut text = match change {
        Some((old, new)) if old != new => {
            format!("FST maximum: {} -> {}\n", bytes(old), bytes(new))
        }
        _ => format!("FST maximum: {} already\n", bytes(maximum.stated as u32)),
    };
    maximum.lines(&mut text);
    if let Some(note) = maximum.note() {
        text += &format!("note: {note}\n");
    }
    out.extend(text.as_bytes());
}

fn named_as(out: &mut Vec<u8>, what: &str, nodes: &[&Node]) {
    for node in nodes {
        named(out, what, &node.path, &format!(" as entry {}", node.number));
    }
}

/// Those that the edit made.
fn new_entries<'a>(call: &Call, before: &Disc, decision: &'a Decision) -> Vec<&'a Node> {
    let after = &decision.after;
    match (call.what, decision.found) {
        (What::Insert(..) | What::InsertFolder(..), Some(number)) => {
            vec![&after.nodes[number as usize]]
        }
        (What::MakeFolders(_), _) => {
            // Where paths are not kept, `entry N` stands for them, and only the new numbers are told.
            let known: HashSet<&[u8]> = before.nodes.iter().map(|node| &node.path[..]).collect();
            after.nodes.iter().filter(|node| !known.contains(&node.path[..])).collect()
        }
        _ => Vec::new(),
    }
}

/// The first and the last of the entries that have other numbers afterwards: those behind the new one.
pub fn renumbered(call: &Call, before: &Disc, decision: &Decision) -> Option<(u32, u32)> {
    let first = new_entries(call, before, decision).first()?.number;
    let last = before.nodes.len() as u32 - 1;
    (first <= last).then_some((first, last))
}

/// What an editor should know of the edit. Names and paths are spelt as `spell` does it.
pub fn notes(
    call: &Call,
    before: &Disc,
    decision: &Decision,
    spell: fn(&[u8]) -> Vec<u8>,
) -> Vec<Vec<u8>> {
    if let What::Move(_, to) = call.what {
        let notes = places(to, decision.after.opened.disc_end);
        return notes.into_iter().map(String::into_bytes).collect();
    }
    of_new(&new_entries(call, before, decision), &decision.after, spell)
}

/// What there is to know of new entries, none of which is the root.
pub fn of_new(new: &[&Node], after: &Disc, spell: fn(&[u8]) -> Vec<u8>) -> Vec<Vec<u8>> {
    if new.is_empty() || !after.has_paths() {
        return Vec::new();
    }
    let long = new.iter().flat_map(|node| too_long(node, spell));
    long.chain(without_case(new, after, spell)).collect()
}

/// Places that the rules allow and other programs stumble over (host/PEERS.md).
fn places(to: u32, disc_end: u32) -> Vec<String> {
    let mut notes = Vec::new();
    if !to.is_multiple_of(4) {
        notes.push(format!("{to:#x} is no multiple of 4; other programs may not read it"));
    }
    if to > disc_end {
        notes
            .push(format!("{to:#x} is behind the disc end; other programs may not read the image"));
    }
    notes
}

/// A name that `extract` can give no file, and a path that no command takes.
fn too_long(node: &Node, spell: fn(&[u8]) -> Vec<u8>) -> Vec<Vec<u8>> {
    let mut notes = Vec::new();
    let mut note = |words: String| {
        notes.push([&spell(&node.path)[..], b": ", words.as_bytes()].concat());
    };
    let most = names::LONGEST_FILE;
    match (node.name.len(), names::text(&node.name).len()) {
        (own, _) if own > most => note(format!(
            "the name has {own} bytes, and a file's at most {most}: `extract` refuses it"
        )),
        (_, text) if text > most => note(format!(
            "the name has {text} bytes in UTF-8, and a file's at most {most}: `extract` refuses it without \
             --bytes"
        )),
        _ => {}
    }
    // From the root on, without the `/` at either end: the shortest way to write it.
    let path = node.path.strip_suffix(b"/").unwrap_or(&node.path);
    match path.len() - 1 {
        ..MOST_PATH => {}
        MOST_PATH => {
            note("the path is at its longest: it is taken without its first / alone".into())
        }
        long => note(format!(
            "the path has {} bytes, and PATH at most {}: no command can reach it",
            grouped(long as u64),
            grouped(MOST_PATH as u64)
        )),
    }
    notes
}

/// New entries that hide one of their folder, or are hidden by it, from a game that looks up without case.
fn without_case(
    new: &[&Node],
    after: &Disc,
    spell: fn(&[u8]) -> Vec<u8>,
) -> impl Iterator<Item = Vec<u8>> {
    let folders: HashSet<u32> = new.iter().map(|node| node.parent).collect();
    let new: HashSet<u32> = new.iter().map(|node| node.number).collect();
    let beside = after.nodes.iter().filter(|node| folders.contains(&node.parent));
    let beside: Vec<&Node> = beside.collect();
    let pairs = names::alike(beside.iter().map(|node| (node.parent, &node.name[..])));
    let pairs = pairs.into_iter().map(move |(a, b)| [a, b].map(|at| beside[at]));
    let pairs = pairs.filter(move |pair| pair.iter().any(|node| new.contains(&node.number)));
    pairs.map(move |pair| {
        let [found, hidden] = pair.map(|node| spell(&node.path));
        let words = [&b": a game that looks up without case finds "[..], b" in its place"];
        [&hidden[..], words[0], &found, words[1]].concat()
    })
}

/// How many bytes that the file holds are gone afterwards: those that a shrink cuts, and all of them where a
/// fill writes.
pub fn lost(wish: &Wish, call: &Call, before: &Disc, decision: &Decision) -> u64 {
    let of = |disc: &Disc| match call.file().map(|at| disc.nodes[at as usize].kind) {
        Some(Kind::File { size, .. }) => u64::from(size),
        _ => 0,
    };
    match wish {
        Wish::Resize(..) => of(before).saturating_sub(of(&decision.after)),
        Wish::Fill(..) if !decision.is_nothing => of(before),
        _ => 0,
    }
}

/// The same in words.
fn lost_words(wish: &Wish, lost: u64) -> String {
    let bytes = counted(lost as usize, "byte", "bytes");
    match wish {
        Wish::Fill(..) => format!("lost: {bytes}, all that it held\n"),
        _ => format!("lost: {bytes} at its end\n"),
    }
}

fn placed(out: &mut Vec<u8>, wish: &Wish, before: &Node, after: &Node, nothing: bool) {
    let (Kind::File { offset, size }, Kind::File { offset: to, size: now }) =
        (before.kind, after.kind)
    else {
        return;
    };
    let path = &after.path;
    let (old, new) = (grouped(size.into()), grouped(now.into()));
    match wish {
        Wish::Resize(..) if size == now => {
            named(out, "", path, &format!(" has {new} bytes already"))
        }
        Wish::Resize(..) => named(out, "resized ", path, &format!(": {old} -> {new} bytes")),
        Wish::Fill(_, clip) if nothing => {
            let holds = format!(" holds {} already, byte for byte: {new} bytes", clip.name);
            named(out, "", path, &holds);
        }
        Wish::Fill(_, clip) => {
            let with = format!(" with {}, byte for byte: {old} -> {new} bytes", clip.name);
            named(out, "filled ", path, &with);
        }
        _ => {}
    }
    if offset != to {
        named(out, "moved ", path, &format!(": {offset:#x} -> {to:#x}, {new} bytes"));
    } else if !matches!(wish, Wish::Resize(..)) {
        named(out, "", path, &format!(" stays at {to:#x}"));
    }
    if now > size && matches!(wish, Wish::Resize(..)) {
        let from = u64::from(to) + u64::from(size);
        let _ = writeln!(out, "its new bytes, from {from:#x} on, are what the free space held");
    }
}
