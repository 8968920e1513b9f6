//! `report`: what compare finds, as one page for the publisher.

use crate::args::Args;
use crate::compare::{Before, Comparison, Pair, Row, TOLD};
use crate::failure::{CUT, Outcome};
use crate::given::Given;
use crate::layout::Layout;
use crate::manifest::sums;
use crate::map;
use crate::names;
use crate::out::say;
use crate::progress::Progress;
use crate::save::{save, vacant};
use crate::sha256::{Sum, hex};
use crate::text::{counted, date, escape, grouped, human};
use crate::version::{LIBRARY, VERSION};
use std::env;
use std::fmt::Write;
use std::time::{SystemTime, UNIX_EPOCH};

pub fn report(args: &Args) -> Outcome<u8> {
    let out = args.path(1);
    vacant(&out)?;
    let pair = Pair::read(args)?;
    let found = pair.compare(Given::read(&args.given)?)?;
    save(&out, page(&found).as_bytes())?;
    let text = match args.json {
        true => found.json(false).document(),
        false => {
            let remarks = found.remarks().into_iter().map(|remark| remark + "\n");
            let remarks: String = remarks.collect();
            let file = names::file(&out);
            format!("{remarks}{}\n{file}: {}\n", found.totals(), found.verdict())
        }
    };
    say(text.as_bytes())?;
    Ok(found.status())
}

// Sums ------------------------------------------------------------------------------------

/// Sums of both images, and of each row before and after.
struct Sums {
    images: (Sum, Sum),
    rows: Vec<(Option<Sum>, Option<Sum>)>,
}

fn hashed(found: &Comparison, rows: &[&Row]) -> Sums {
    let wide = |place: (u32, u32)| (u64::from(place.0), u64::from(place.1));
    let after = &found.pair.after;
    let spans = |whole: u64, of: fn(&Row) -> Option<(u32, u32)>| -> Vec<(u64, u64)> {
        let each = rows.iter().map(|row| of(row).map_or((0, 0), wide));
        std::iter::once((0, whole)).chain(each).collect()
    };
    // The image's own may be known already.
    let new = spans(if found.sum.is_some() { 0 } else { after.bytes }, |row| row.after);
    let old = spans(found.pair.before.layout().bytes, |row| row.before);
    let total: u64 = new.iter().chain(&old).map(|span| span.1).sum();
    let progress = Progress::start("hashing", total);
    let new = sums(found.pair.image.bytes(), &new, &progress);
    let old = match &found.pair.before {
        Before::Image(image, _) => sums(image.bytes(), &old, &progress),
        Before::Manifest(manifest) => {
            let each = rows.iter().map(|row| row.sum.unwrap_or_default());
            std::iter::once(manifest.image).chain(each).collect()
        }
    };
    let told = rows
        .iter()
        .enumerate()
        .map(|(i, row)| (row.before.map(|_| old[i + 1]), row.after.map(|_| new[i + 1])));
    Sums { images: (old[0], found.sum.unwrap_or(new[0])), rows: told.collect() }
}

// The page --------------------------------------------------------------------------------

fn page(found: &Comparison) -> String {
    let differs = |row: &&Row| !row.folder && row.status() != "unchanged";
    let mut rows: Vec<&Row> = found.rows.iter().filter(differs).collect();
    // What has no leave comes first.
    rows.sort_by_key(|row| (!row.breaks(), row.before.is_none()));
    let sums = hashed(found, &rows);
    let mut out = String::new();
    let word = verdict_of(found).2;
    let game = &found.pair.after.game;
    let game = if game.is_empty() { &found.pair.after.name } else { game };
    let _ = write!(
        out,
        "<!DOCTYPE html>\n<html lang=\"en\">\n<head>\n<meta charset=\"utf-8\">\n\
         <meta name=\"viewport\" content=\"width=device-width, initial-scale=1\">\n\
         <title>{word}: licence check of {}</title>\n<style>{STYLE}</style>\n</head>\n<body>\n",
        escape(game)
    );
    let _ = writeln!(out, "<header><p class=\"kind\">Licence check of a disc image</p>");
    let _ = writeln!(out, "<h1>{}</h1></header>", escape(game));
    verdict(&mut out, found);
    images(&mut out, found, &sums);
    listed(&mut out, found);
    files(&mut out, &rows, &sums);
    folders(&mut out, found);
    areas(&mut out, found);
    let before = found.pair.before.layout();
    let maps = map::side_by_side(before, &found.pair.after, &found.marks());
    let _ = writeln!(
        out,
        "<section class=\"maps\"><h2>The disc before and after</h2>\n<p>Each row is a part of the disc, \
         from its first byte at the top left to its last at the bottom right. A file that differs, is new \
         or is gone has a black frame.</p>\n{maps}</section>"
    );
    foot(&mut out);
    out
}

/// How the verdict looks: its class, its mark and its word.
fn verdict_of(found: &Comparison) -> (&'static str, &'static str, &'static str) {
    // A list that covers everything makes passing easy, and an image of which an edit was cut is to be
    // another yet; both are no green.
    match (found.status(), found.given.covers_all()) {
        (0, false) => ("good", "&#10003;", "Passed"),
        (0, true) => ("warn", "&#10003;", "Passed, by a list that covers everything"),
        (CUT, _) => ("warn", "&#8226;", "Unfinished"),
        _ => ("bad", "&#10007;", "Failed"),
    }
}

fn verdict(out: &mut String, found: &Comparison) {
    let (class, mark, word) = verdict_of(found);
    let verdict = found.verdict();
    let words = verdict.split_once(": ").map_or(verdict.as_str(), |(_, words)| words);
    let _ = writeln!(
        out,
        "<section class=\"verdict {class}\"><p class=\"word\">{mark} {word}</p>\n<p>{}.</p>\n<p>{}.</p>",
        escape(&capital(words)),
        escape(&found.totals())
    );
    let broken: Vec<&Row> = found.rows.iter().filter(|row| row.breaks()).collect();
    let areas = found.areas.iter().filter(|area| area.breaks()).map(|area| escape(&area.words()));
    let told = broken.iter().take(8).map(|row| {
        format!("<code>{}</code> ({})", path(&row.path), row.status().replace('+', ", "))
    });
    let mut told: Vec<String> = areas.chain(told).collect();
    if broken.len() > 8 {
        told.push(format!("and {} more", grouped(broken.len() as u64 - 8)));
    }
    if !told.is_empty() {
        let _ = writeln!(out, "<p>Without leave: {}.</p>", told.join(", "));
    }
    for name in found.pair.cut() {
        let _ = writeln!(
            out,
            "<p class=\"loud\">An edit of <code>{}</code> was cut, and it was read as it is: it may hold a part of \
             the edit. Finish the edit (<code>counter recover</code>) and make this page again.</p>",
            escape(name)
        );
    }
    if found.given.covers_all() {
        out.push_str(
            "<p class=\"loud\">The list has the line <code>/</code>: it covers every file and folder, so \
             that only the header, the system area, the table, the program and what lies behind the disc end \
             are checked.</p>\n",
        );
    }
    out.push_str("</section>\n");
}

fn path(bytes: &[u8]) -> String {
    escape(&names::text(bytes))
}

fn capital(words: &str) -> String {
    let mut letters = words.chars();
    letters.next().map_or(String::new(), |first| first.to_uppercase().chain(letters).collect())
}

fn images(out: &mut String, found: &Comparison, sums: &Sums) {
    let before = found.pair.before.layout();
    let note = match found.pair.before {
        Before::Manifest(_) => " (from its manifest)",
        Before::Image(..) => "",
    };
    out.push_str("<section><h2>The two images</h2>\n<table class=\"images\">\n");
    let mut side = |name: &str, layout: &Layout, sum: &Sum| {
        let _ = writeln!(
            out,
            "<tr><th scope=\"row\">{name}</th><td><code>{}</code><br>{} bytes, {}, the disc ends at \
             {:#x}<br><span class=\"sum\">SHA-256 {}</span></td></tr>",
            escape(&layout.name),
            grouped(layout.bytes),
            counted(layout.files().count(), "file", "files"),
            layout.disc_end,
            hex(sum)
        );
    };
    side(&format!("Before{note}"), before, &sums.images.0);
    side("After", &found.pair.after, &sums.images.1);
    out.push_str("</table>\n");
    if let Before::Manifest(manifest) = &found.pair.before {
        let _ = writeln!(
            out,
            "<p class=\"loud\">The manifest itself, <code>{}</code>, has <span class=\"sum\">SHA-256 {}</span>. \
             Anyone can write a manifest: hold this sum against the one that its maker gave you elsewhere.</p>",
            escape(&found.pair.names.0),
            hex(&manifest.own)
        );
        if manifest.version == 1 {
            out.push_str(
                "<p class=\"loud\">It is of version 1, which has no sum of the table.</p>\n",
            );
        }
    }
    out.push_str("</section>\n");
}

fn areas(out: &mut String, found: &Comparison) {
    out.push_str(
        "<section><h2>Header, program and the rest of the disc</h2>\n<table class=\"areas\">\n",
    );
    for (i, (word, name)) in found.others().into_iter().enumerate() {
        let area = found.areas.get(i).filter(|area| area.differs());
        let (class, mark) = match (word, area.map(|area| area.given)) {
            ("unchanged", _) | (_, Some(true)) => ("good", "&#10003;"),
            (_, Some(false)) => ("bad", "&#10007;"),
            _ => ("told", "&#8226;"),
        };
        let note = match (class, area) {
            ("told", _) => " <span class=\"note\">(told; does not fail the check)</span>",
            ("good", Some(_)) => " <span class=\"tag good\">on the list</span>",
            ("bad", _) => " <span class=\"tag bad\">NOT ON THE LIST</span>",
            _ => "",
        };
        let _ = writeln!(
            out,
            "<tr><td class=\"mark {class}\">{mark}</td><td>{}</td><td>{word}{note}</td></tr>",
            escape(&capital(&name))
        );
    }
    out.push_str("</table></section>\n");
}

fn listed(out: &mut String, found: &Comparison) {
    out.push_str("<section><h2>The list of what may differ</h2>\n");
    match (found.given.listed, found.given.lines.is_empty()) {
        (false, _) => out.push_str("<p>No list was given: nothing may differ.</p>\n"),
        (true, true) => out.push_str("<p>The list is empty: nothing may differ.</p>\n"),
        _ => {
            out.push_str("<ol class=\"list\">\n");
            for line in &found.given.lines {
                let _ = writeln!(out, "<li><code>{}</code></li>", escape(line));
            }
            out.push_str("</ol>\n");
        }
    }
    if !found.unknown.is_empty() {
        let told = found.unknown.iter().take(TOLD);
        let mut paths: Vec<String> =
            told.map(|unknown| format!("<code>{}</code>", path(unknown))).collect();
        if found.unknown.len() > TOLD {
            paths.push(format!("and {} more", grouped((found.unknown.len() - TOLD) as u64)));
        }
        let _ = writeln!(out, "<p class=\"loud\">In neither image: {}.</p>", paths.join(", "));
    }
    out.push_str("</section>\n");
}

fn files(out: &mut String, rows: &[&Row], sums: &Sums) {
    out.push_str("<section><h2>Files that differ</h2>\n");
    if rows.is_empty() {
        out.push_str("<p>None.</p></section>\n");
        return;
    }
    for (row, sums) in rows.iter().zip(&sums.rows) {
        let (class, leave) = match (row.before.is_none(), row.given) {
            (true, _) => ("told", ""),
            (false, true) => ("good", "on the list"),
            (false, false) => ("bad", "NOT ON THE LIST"),
        };
        let _ = writeln!(
            out,
            "<article><h3><code>{}</code> <span class=\"tag\">{}</span> \
             <span class=\"tag {class}\">{leave}</span></h3>\n<table>\n<thead><tr><th></th>\
             <th class=\"right\">Place</th><th class=\"right\">Bytes</th><th>SHA-256</th></tr></thead>",
            path(&row.path),
            row.status().replace('+', ", ")
        );
        file(out, "before", row.before.zip(sums.0));
        file(out, "after", row.after.zip(sums.1));
        out.push_str("</table></article>\n");
    }
    out.push_str("</section>\n");
}

/// Place, size and sum of a file, in one of the images.
fn file(out: &mut String, side: &str, told: Option<((u32, u32), Sum)>) {
    let _ = match told {
        None => writeln!(
            out,
            "<tr><th scope=\"row\">{side}</th><td class=\"right\">not there</td><td></td><td></td></tr>"
        ),
        Some(((offset, size), sum)) => writeln!(
            out,
            "<tr><th scope=\"row\">{side}</th><td class=\"right\">{offset:#x}</td>\
             <td class=\"right\" title=\"{}\">{}</td><td class=\"sum\">{}</td></tr>",
            human(size.into()),
            grouped(size.into()),
            hex(&sum)
        ),
    };
}

fn folders(out: &mut String, found: &Comparison) {
    let differs = |row: &&Row| row.folder && row.status() != "unchanged";
    let rows: Vec<&Row> = found.rows.iter().filter(differs).collect();
    if rows.is_empty() {
        return;
    }
    out.push_str("<section><h2>Folders that are new or gone</h2>\n<table class=\"areas\">\n");
    for row in rows {
        let (class, leave) = match (row.before.is_none(), row.given) {
            (true, _) => ("told", ""),
            (false, true) => ("good", "on the list"),
            (false, false) => ("bad", "NOT ON THE LIST"),
        };
        let _ = writeln!(
            out,
            "<tr><td><code>{}</code></td><td>{}</td><td><span class=\"tag {class}\">{leave}</span></td></tr>",
            path(&row.path),
            row.status()
        );
    }
    out.push_str("</table></section>\n");
}

fn foot(out: &mut String) {
    let _ = writeln!(
        out,
        "<footer><p>Made on {} by counter {VERSION}, with libcounter.a of SHA-256 \
         <span class=\"sum\">{LIBRARY}</span>.</p>\n\
         <p>Whoever has both images can make this page again: <code>counter report BEFORE AFTER --given \
         LIST OUT.html</code>. <code>sha256sum</code> on an image, or on a file out of it (<code>counter \
         extract</code>), gives the sums above.</p></footer>\n</body>\n</html>",
        date(now())
    );
}

/// Seconds since 1970; SOURCE_DATE_EPOCH stands for now where a page has to come out the same again.
fn now() -> u64 {
    let told = env::var("SOURCE_DATE_EPOCH").ok().and_then(|text| text.parse().ok());
    told.unwrap_or_else(|| {
        SystemTime::now().duration_since(UNIX_EPOCH).map_or(0, |since| since.as_secs())
    })
}

const STYLE: &str = "
:root { --good: #2b8a3e; --bad: #c92a2a; --told: #5c6370; --line: #dee2e6; }
* { box-sizing: border-box; }
body { font: 15px/1.45 system-ui, sans-serif; color: #212529; background: #fff; max-width: 960px;
  margin: 0 auto; padding: 28px 20px; }
h1 { font-size: 26px; margin: 0 0 18px; overflow-wrap: anywhere; }
h2 { font-size: 17px; margin: 30px 0 8px; padding-bottom: 4px; border-bottom: 2px solid var(--line); }
p { margin: 6px 0; }
.kind { margin: 0; color: var(--told); text-transform: uppercase; letter-spacing: .06em; font-size: 12px; }
.verdict { border: 2px solid; border-left-width: 12px; border-radius: 4px; padding: 12px 18px; }
.verdict.good { border-color: var(--good); background: #ebfbee; }
.verdict.warn { border-color: #e67700; background: #fff9db; }
.verdict.bad { border-color: var(--bad); background: #fff5f5; }
.verdict .word { font-size: 24px; font-weight: 700; margin: 0; }
.verdict.good .word { color: var(--good); }
.verdict.bad .word { color: var(--bad); }
.loud { font-weight: 700; border: 2px solid #e67700; background: #fff9db; padding: 8px 12px; border-radius: 4px; }
table { border-collapse: collapse; width: 100%; }
td, th { text-align: left; vertical-align: top; padding: 5px 10px 5px 0; border-bottom: 1px solid var(--line);
  font-weight: normal; }
thead th { font-size: 12px; color: var(--told); }
th[scope=row] { white-space: nowrap; color: var(--told); width: 70px; }
.images th[scope=row] { width: 130px; white-space: normal; color: inherit; font-weight: 600; }
.right { text-align: right; white-space: nowrap; }
code, .sum { font-family: ui-monospace, \"DejaVu Sans Mono\", monospace; font-size: 12px; overflow-wrap: anywhere; }
.sum { font-size: 11px; }
.note { color: var(--told); font-size: 12px; }
.mark { width: 24px; font-weight: 700; }
.mark.good { color: var(--good); } .mark.bad { color: var(--bad); } .mark.told { color: var(--told); }
article { margin: 0 0 16px; border: 1px solid var(--line); border-radius: 4px; overflow: hidden; }
article h3 { margin: 0; padding: 6px 10px; background: #f8f9fa; font-weight: 400; }
article code { font-size: 13px; font-weight: 600; }
article thead th { padding-top: 3px; padding-bottom: 1px; border-bottom: 0; }
article th:first-child { padding-left: 10px; width: 76px; }
article .right { width: 108px; }
article td.sum { padding-left: 14px; line-height: 20px; }
article th:last-child { padding-left: 14px; }
article tr:last-child > * { border-bottom: 0; }
.tag { display: inline-block; font-size: 12px; padding: 0 7px; border: 1px solid var(--line); border-radius: 9px;
  margin-left: 4px; white-space: nowrap; }
.tag.good { color: var(--good); border-color: var(--good); }
.tag.bad { color: #fff; background: var(--bad); border-color: var(--bad); font-weight: 700; }
.tag.told { color: var(--told); }
.tag:empty { display: none; }
.list { margin: 6px 0; padding-left: 34px; }
.list.long { columns: 2; }
.maps svg { width: 100%; height: auto; border: 1px solid var(--line); }
footer { margin-top: 30px; padding-top: 10px; border-top: 2px solid var(--line); font-size: 12px; color: var(--told); }
@page { size: A4; margin: 14mm; }
@media print {
  body { font-size: 10.5pt; padding: 0; max-width: none; }
  h2 { break-after: avoid; }
  .verdict, .maps, article, tr, footer { break-inside: avoid; }
  .maps h2, .maps p { break-after: avoid; }
  .sum { font-size: 6.9pt; }
  article .right { width: 26mm; }
  * { print-color-adjust: exact; -webkit-print-color-adjust: exact; }
}
";
