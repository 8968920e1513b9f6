//! The current image, and the commands.

use crate::calls::{CLUSTERS, ENTRY_WORDS, Lender, MOVE, PerRegion, REGIONS, RESIZE};
use crate::language::{Answer, FNV_START, Stop, Words, fnv, hex, number, signed};
use crate::zeros::Zeros;
use counter_sys::guarded::Guarded;
use counter_sys::{Record, ffi};
use std::collections::HashMap;
use std::fmt::Write as _;
use std::fs;

/// The disc header's fields: name, offset, size, and whether it is a number.
const FIELDS: [(&str, usize, usize, bool); 21] = [
    ("game_code", 0, 4, false),
    ("maker_code", 4, 2, false),
    ("disc_id", 6, 1, true),
    ("version", 7, 1, true),
    ("audio_streaming", 8, 1, true),
    ("stream_buffer_size", 9, 1, true),
    ("unused_00a", 0x0a, 14, false),
    ("wii_magic", 0x18, 4, true),
    ("gcn_magic", 0x1c, 4, true),
    ("game_name", 0x20, 0x3e0, false),
    ("debug_monitor_offset", 0x400, 4, true),
    ("debug_monitor_addr", 0x404, 4, true),
    ("unused_408", 0x408, 0x18, false),
    ("dol_offset", 0x420, 4, true),
    ("fst_offset", 0x424, 4, true),
    ("fst_size", 0x428, 4, true),
    ("fst_max_size", 0x42c, 4, true),
    ("user_position", 0x430, 4, true),
    ("user_size", 0x434, 4, true),
    ("disc_size", 0x438, 4, true),
    ("unused_43c", 0x43c, 4, true),
];

const MAX_IMAGE: usize = 1 << 33;
const MAX_CLIP: usize = 1 << 33;
const MAX_READ: u64 = 1 << 24;

pub struct State {
    lender: Lender,
    saved: HashMap<String, Vec<u8>>,
}

/// An entry of a listing.
struct Line {
    directory: bool,
    parent: u32,
    /// Offset and size, or 0 and next.
    numbers: [u32; 2],
    children: usize,
    path: Vec<u8>,
}

impl State {
    pub fn new() -> Self {
        Self { lender: Lender::new(), saved: HashMap::new() }
    }

    pub fn answer(&mut self, line: &str) -> String {
        let mut words = Words(line.split_ascii_whitespace());
        let command = words.0.next().unwrap_or("");
        let result = match command {
            "image" | "dump" | "size" | "patch" | "peek" | "save" | "load" | "hash" => {
                self.bytes(command, words)
            }
            "window" | "filewindow" | "dolwindow" => self.window(command, words),
            "make_record" | "set_record" | "record" | "drop_record" | "team" => {
                self.record(command, words)
            }
            "insert_file" | "insert_dir" | "mkdirs" | "move" | "resize" | "replace"
            | "replace_zeros" | "rewrite" => self.edit(command, words),
            "move_copy" | "move_table" | "resize_copy" | "resize_table" | "zero" => {
                self.part(command, words)
            }
            "sheet" => self.sheet(words),
            "master" => self.master(words),
            "tables" => self.tables(words),
            _ => self.look(command, words),
        };
        match result {
            Ok(answer) => answer,
            Err(Stop::Refused(number)) => format!("err {number}"),
            Err(Stop::AtLine(number, line)) => format!("err {number} {line}"),
            Err(Stop::Dirty(what)) => format!("dirty {what}"),
            Err(Stop::Usage(why)) => format!("usage {why}"),
        }
    }

    // The image's bytes; Counter has no part in these ---------------------------------------

    fn length(&self) -> Answer<String> {
        Ok(format!("ok {}", self.lender.image.len()))
    }

    fn bytes(&mut self, command: &str, mut words: Words) -> Answer<String> {
        let image = &mut self.lender.image;
        match command {
            "image" => {
                let path = words.last()?;
                let bytes = fs::read(path).map_err(|_| Stop::Usage("cannot be read"))?;
                *image = Guarded::of(&bytes);
            }
            "dump" => {
                fs::write(words.last()?, image.slice())
                    .map_err(|_| Stop::Usage("cannot be written"))?;
            }
            "size" => {
                let len = words.size()?;
                words.end()?;
                if len > MAX_IMAGE {
                    return Err(Stop::Usage("too long"));
                }
                let kept = image.len().min(len);
                let mut new = Guarded::new(len);
                new.slice_mut()[..kept].copy_from_slice(&image.slice()[..kept]);
                new.slice_mut()[kept..].fill(0);
                *image = new;
            }
            "patch" => {
                let (at, bytes) = (words.size()?, words.bytes()?);
                words.end()?;
                let place = image.slice_mut().get_mut(at..at.saturating_add(bytes.len()));
                place.ok_or(Stop::Usage("past the image"))?.copy_from_slice(&bytes);
            }
            "peek" => {
                let (at, len) = (words.size()?, words.size()?);
                words.end()?;
                let place = image.slice().get(at..at.saturating_add(len));
                return Ok(format!("ok {}", hex(place.ok_or(Stop::Usage("past the image"))?)));
            }
            "save" => {
                let saved = self.saved.entry(words.last()?.into()).or_default();
                saved.clear();
                saved.extend_from_slice(image.slice());
            }
            "load" => {
                let saved = self.saved.get(words.last()?).ok_or(Stop::Usage("not saved"))?;
                *image = Guarded::of(saved);
            }
            _ => {
                words.end()?;
                let hash = fnv(FNV_START, image.slice());
                return Ok(format!("ok {hash:016x} {}", image.len()));
            }
        }
        self.length()
    }

    // Looking -------------------------------------------------------------------------------

    fn look(&mut self, command: &str, mut words: Words) -> Answer<String> {
        let (mut numbers, mut path) = ([0; 2], vec![]);
        match command {
            "lend" => {
                let (count, bytes) = (words.size()?, words.size()?);
                words.end()?;
                if count > MAX_IMAGE / 4 || bytes > MAX_IMAGE {
                    return Err(Stop::Usage("too long"));
                }
                self.lender.lend(count, bytes);
                return Ok("ok".into());
            }
            "lend_list" => {
                let len = words.size_or_none()?;
                words.end()?;
                self.lender.lend_list(len);
                return Ok("ok".into());
            }
            "maxregion" | "alloc" | "clear" => numbers = [words.word()?, words.word()?],
            "maxfile" | "entry" => numbers[0] = words.word()?,
            "lookup" => (numbers[0], path) = (words.word()?, words.bytes()?),
            "header" | "open" | "list" | "listing" | "free" | "clusters" | "used" | "total"
            | "dol" => (),
            _ => return Err(Stop::Usage("no such command")),
        }
        words.end()?;
        let lender = &mut self.lender;
        Ok(match command {
            "header" => self.header()?,
            "open" => {
                lender.open()?;
                "ok".into()
            }
            "list" => self.list()?,
            "listing" => self.listing()?,
            "free" => self.regions(REGIONS)?,
            "clusters" => self.regions(CLUSTERS)?,
            "total" => format!("ok {}", lender.totals()?[0]),
            "used" => format!("ok {}", lender.totals()?[1]),
            "entry" => {
                let [number, kind, first, second] = lender.entry(numbers[0])?;
                format!("ok {}:{number}:{first}:{second}", if kind == 0 { "f" } else { "d" })
            }
            "lookup" => format!("ok {}", lender.lookup(numbers[0], &path)?),
            "maxfile" => format!("ok {}", lender.max_file_size(numbers[0])?),
            "maxregion" => format!("ok {}", lender.max_region_size(numbers[0], numbers[1])?),
            "alloc" => {
                let [offset, size] = lender.allocate(numbers[0], numbers[1])?;
                format!("ok {offset} {size}")
            }
            "clear" => match lender.clear(numbers[0], numbers[1])? {
                Some([tried, offset, cost, bound]) => format!("ok {tried} {offset} {cost} {bound}"),
                None => "ok none".into(),
            },
            _ => self.dol()?,
        })
    }

    fn header(&mut self) -> Answer<String> {
        let fields = self.lender.header()?;
        let mut out = String::from("ok");
        for (name, at, len, is_number) in FIELDS {
            let field = &fields[at..at + len];
            if is_number {
                let number = field.iter().fold(0u32, |n, b| n << 8 | u32::from(*b));
                write!(out, " {name}={number}").unwrap();
            } else {
                let len = field.iter().rposition(|b| *b != 0).map_or(0, |i| i + 1);
                write!(out, " {name}={}", hex(&field[..len])).unwrap();
            }
        }
        let same = self.lender.image.slice()[..fields.len()] == fields[..];
        write!(out, " written={}", if same { "same" } else { "differs" }).unwrap();
        Ok(out)
    }

    /// The entries in table order, with their paths.
    fn lines(&mut self) -> Answer<Vec<Line>> {
        let list = self.lender.entries()?;
        let image = self.lender.image.slice();
        let mut lines: Vec<Line> = vec![];
        for (number, entry) in list.chunks(ENTRY_WORDS).enumerate() {
            let (directory, parent) = (entry[0] == 1, entry[1]);
            let mut path = vec![];
            if number > 0 {
                let around =
                    lines.get_mut(parent as usize).ok_or(Stop::Dirty("entries: parent"))?;
                around.children += 1;
                path.clone_from(&around.path);
                let (at, len) = (entry[4] as usize, entry[5] as usize);
                path.extend(image.get(at..at + len).ok_or(Stop::Dirty("entries: name"))?);
            }
            if directory {
                path.push(b'/');
            }
            let numbers = [entry[2], entry[3]];
            lines.push(Line { directory, parent, numbers, children: 0, path });
        }
        Ok(lines)
    }

    fn list(&mut self) -> Answer<String> {
        let mut out = String::from("ok");
        for (i, line) in self.lines()?.iter().enumerate() {
            let ([offset, size], path) = (line.numbers, hex(&line.path));
            if line.directory {
                let (parent, children) = (line.parent, line.children);
                write!(out, " d:{i}:{parent}:{size}:{children}:{path}").unwrap();
            } else {
                write!(out, " f:{i}:{offset}:{size}:{path}").unwrap();
            }
        }
        Ok(out)
    }

    /// The free regions, rising: the numbers of each.
    fn regions(&mut self, each: PerRegion) -> Answer<String> {
        let mut out = String::from("ok");
        for region in self.lender.lent_regions(each)?.chunks(each.words) {
            let numbers: Vec<String> = region.iter().map(u32::to_string).collect();
            write!(out, " {}", numbers.join(":")).unwrap();
        }
        Ok(out)
    }

    /// The listing, built of what the other calls say; `counter_list` says the same.
    fn listing(&mut self) -> Answer<String> {
        let [_, _, total, _, used] = self.lender.open()?;
        let mut out = format!("total {total} used {used}\n").into_bytes();
        for (i, line) in self.lines()?.iter().enumerate() {
            let [offset, size] = line.numbers;
            if line.directory {
                out.extend(format!("d {i} {} {size} ", line.parent).bytes());
            } else {
                out.extend(format!("f {i} {offset} {size} ").bytes());
            }
            out.extend(&line.path);
            out.push(b'\n');
        }
        for region in self.lender.regions(REGIONS)?.chunks(REGIONS.words) {
            out.extend(format!("r {} {}\n", region[0], region[1]).bytes());
        }
        if self.lender.text(out.len())? != out {
            return Err(Stop::Dirty("listing: not as the other calls"));
        }
        Ok(format!("ok {}", hex(&out)))
    }

    fn dol(&mut self) -> Answer<String> {
        let (header, mut window) = self.lender.open_dol()?;
        let size = (0..18).map(|i| u64::from(header[i]) + u64::from(header[36 + i])).max().unwrap();
        let (mut read, mut hash) = (0, FNV_START);
        loop {
            let (count, buf) = self.lender.read(&mut window, 1 << 16)?;
            if count == 0 {
                break;
            }
            read += count;
            hash = fnv(hash, &buf[..count as usize]);
        }
        Ok(format!("ok {size} {} {read} {hash:016x}", window[1]))
    }

    fn window(&mut self, command: &str, mut words: Words) -> Answer<String> {
        let mut window = match command {
            "window" => [words.number()?, words.number()?, 0],
            "filewindow" => {
                let number = words.word()?;
                self.lender.open_file(number)?
            }
            _ => self.lender.open_dol()?.1,
        };
        let mut out = String::from("ok");
        for op in words.0 {
            let (kind, value) = op.split_once(':').ok_or(Stop::Usage("an op is KIND:NUMBER"))?;
            let moved = match kind {
                "s" => {
                    let position = number(value)?;
                    Lender::seek(&mut window, |slots| unsafe {
                        ffi::counter_seek_start(slots, position)
                    })?
                }
                "c" | "e" => {
                    let distance = signed(value)?;
                    let seek =
                        if kind == "c" { ffi::counter_seek_current } else { ffi::counter_seek_end };
                    Lender::seek(&mut window, |slots| unsafe { seek(slots, distance) })?
                }
                "r" => {
                    let len = number(value)?;
                    if len > MAX_READ {
                        return Err(Stop::Usage("r: above 2^24"));
                    }
                    let (count, buf) = self.lender.read(&mut window, len as usize)?;
                    write!(out, " r={count}:{}", hex(&buf)).unwrap();
                    continue;
                }
                _ => return Err(Stop::Usage("ops are s c e r")),
            };
            match moved {
                0 => write!(out, " {kind}={}", window[2]).unwrap(),
                cause => write!(out, " {kind}=err:{cause}").unwrap(),
            }
        }
        Ok(out)
    }

    // The record ----------------------------------------------------------------------------

    fn record(&mut self, command: &str, mut words: Words) -> Answer<String> {
        let lender = &mut self.lender;
        match command {
            "make_record" => {
                let (limits, shares) = (words.of_teams()?, words.of_teams()?);
                words.end()?;
                lender.make_record(limits, shares)?;
            }
            "set_record" => {
                let (used, largest) = (words.word()?, words.word()?);
                lender.record = Some(Record { used, largest, teams: words.teams()? });
            }
            "record" => words.end()?,
            "drop_record" => {
                words.end()?;
                lender.record = None;
                return Ok("ok".into());
            }
            _ => {
                let team = words.word()?;
                words.end()?;
                lender.team = team;
                return Ok("ok".into());
            }
        }
        let Some(Record { used, largest, teams }) = lender.record else {
            return Ok("ok none".into());
        };
        let mut out = format!("ok {used} {largest}");
        for team in teams {
            let [limit, share, taken, edits] = [team.limit, team.share, team.taken, team.edits];
            write!(out, " {limit}:{share}:{taken}:{edits}").unwrap();
        }
        Ok(out)
    }

    // Editing -------------------------------------------------------------------------------

    fn edit(&mut self, command: &str, mut words: Words) -> Answer<String> {
        let target = if command == "rewrite" { 0 } else { words.word()? };
        let (mut name, mut number, mut length) = (vec![], 0, 0);
        match command {
            "move" | "resize" => number = words.word()?,
            "replace" => name = words.named_bytes()?,
            "replace_zeros" => length = words.size()?,
            "rewrite" => (),
            _ => name = words.bytes()?,
        }
        words.end()?;
        if length > MAX_CLIP {
            return Err(Stop::Usage("too long"));
        }
        let lender = &mut self.lender;
        Ok(match command {
            "insert_file" => format!("ok {}", lender.insert_file(target, &name)?),
            "insert_dir" => format!("ok {}", lender.insert_directory(target, &name)?),
            "mkdirs" => format!("ok {}", lender.make_directories(target, &name)?),
            "move" => {
                lender.move_file(target, number)?;
                "ok".into()
            }
            "resize" => {
                lender.resize_file(target, number)?;
                "ok".into()
            }
            "replace" => {
                lender.fill_file(target, &name)?;
                "ok".into()
            }
            "replace_zeros" => {
                let zeros = Zeros::new(length).ok_or(Stop::Usage("cannot be reserved"))?;
                lender.fill_with_zeros(target, &zeros)?;
                "ok".into()
            }
            _ => {
                lender.rewrite()?;
                "ok".into()
            }
        })
    }

    fn part(&mut self, command: &str, mut words: Words) -> Answer<String> {
        let (first, second) = (words.word()?, words.word()?);
        words.end()?;
        let lender = &mut self.lender;
        let edit = if command.starts_with("move") { MOVE } else { RESIZE };
        match command {
            "zero" => lender.zero(first, second)?,
            "move_copy" | "resize_copy" => lender.copy(edit, first, second)?,
            _ => {
                let [offset, size] = lender.table(edit, first, second)?;
                return Ok(format!("ok {offset} {size}"));
            }
        }
        Ok("ok".into())
    }

    // An edit sheet -------------------------------------------------------------------------

    fn sheet(&mut self, mut words: Words) -> Answer<String> {
        let sheet = words.named_bytes()?;
        words.end()?;
        self.lender.sheet(&sheet)?;
        Ok("ok".into())
    }

    // A new master --------------------------------------------------------------------------

    fn master(&mut self, mut words: Words) -> Answer<String> {
        let disc_end = words.word()?;
        let code = words.named_bytes()?;
        let code = code.try_into().map_err(|_| Stop::Usage("a game code has 4 bytes"))?;
        let (sizes, paths) = (words.list()?, words.named_bytes()?);
        words.end()?;
        self.lender.master(disc_end, code, &sizes, &paths)?;
        Ok("ok".into())
    }

    // Every small table ---------------------------------------------------------------------

    fn tables(&mut self, mut words: Words) -> Answer<String> {
        let entries = words.word()?;
        words.end()?;
        let (number, bytes) = self.lender.lent_tables(entries)?;
        Ok(format!("ok {number} {} {:016x}", bytes.len(), fnv(FNV_START, &bytes)))
    }
}
