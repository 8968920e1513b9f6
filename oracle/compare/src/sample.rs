//! A fixed sample of the original's answers, as a script of host/replay: images of many shapes,
//! calls that look at them and lists of edits. Each expected answer is the original's, or, where
//! the two differ by an entry of docs/DIFFERENCES.md, that of the rules.

use crate::calls::{self, Call, hex, unhex};
use crate::child::Side;
use crate::codec::{Codec, StandIns};
use crate::judge::{Given, New, judge, told_where};
use crate::masters;
use crate::maxima;
use crate::random::Random;
use crate::rules::{self, MAXIMUM, Refusal, Tree, set_word, word};
use std::collections::BTreeMap;

const WORDS: usize = 16_384;
const BYTES: usize = 65_536;
const LIST: usize = 1_024;
const IMAGE: usize = 131_072;

/// By how much each byte of a clip is larger than the one before; those of the images by 1.
const CLIP_STEP: usize = 3;

pub struct Sample {
    oracle: Side,
    codec: Codec,
    out: String,
    image: Vec<u8>,
    opened: Result<Tree, Refusal>,
    lent: (usize, usize, usize),
    pub calls: usize,
    pub numbers: BTreeMap<u32, usize>,
    long: usize,
    inserts: bool,
    /// Whether two of five edits are fills.
    fills: bool,
    /// Whether images state maxima near the sizes of their tables.
    maxima: bool,
}

/// FNV-1a of 64 bits.
fn fnv(bytes: &[u8]) -> u64 {
    let fold = |h: u64, b: &u8| (h ^ u64::from(*b)).wrapping_mul(0x100_0000_01b3);
    bytes.iter().fold(0xcbf2_9ce4_8422_2325, fold)
}

/// Numbers from 10 on are in base 16.
fn shown(number: u64) -> String {
    if number < 10 { number.to_string() } else { format!("{number:#x}") }
}

/// A text as it is, or in base 16.
fn quoted(text: &[u8]) -> String {
    if text.iter().all(|b| (0x20..0x7f).contains(b) && *b != b'"') {
        format!("\"{}\"", String::from_utf8_lossy(text))
    } else {
        format!(":{}", hex(text))
    }
}

/// The numbers of an answer, whatever stands between them.
fn numbers(answer: &str) -> Vec<u32> {
    answer.split([' ', ':']).filter_map(|text| text.parse().ok()).collect()
}

impl Sample {
    pub fn new(oracle: &str, inserts: bool, fills: bool, maxima: bool) -> std::io::Result<Self> {
        let mut oracle = Side::start(oracle)?;
        let codec = Codec::of(&mut oracle);
        Ok(Self {
            oracle,
            codec,
            out: String::new(),
            image: vec![],
            opened: Err(Refusal { number: 1, entry: 0, past_parent: false }),
            lent: (WORDS, BYTES, LIST),
            calls: 0,
            numbers: BTreeMap::new(),
            long: 0,
            inserts,
            fills,
            maxima,
        })
    }

    /// A sample over `images` images.
    pub fn make(mut self, seed: u64, images: u64) -> (String, Self) {
        for i in 0..images {
            let mut r = Random::new(seed.wrapping_mul(0x9e37_79b9).wrapping_add(i));
            let damaged = r.chance(30);
            let mut image = loop {
                let image =
                    if damaged { masters::damaged(&mut r) } else { masters::master(&mut r) };
                let table = if image.len() < 0x440 { 0 } else { word(&image, 0x428) };
                if image.len() <= IMAGE && table < 400 && self.comes_back(&image) {
                    break image;
                }
            };
            if self.maxima && image.len() >= 0x440 {
                let maximum = maxima::any(&mut r, &image);
                set_word(&mut image, MAXIMUM, maximum);
            }
            self.begin(&mut r, image);
            let looks = if self.opened.is_ok() { r.within(4, 8) } else { r.within(1, 3) };
            for _ in 0..looks {
                self.look(&mut r);
            }
            if self.opened.is_err() {
                continue;
            }
            for _ in 0..r.within(5, 14) {
                self.edit(&mut r);
                if r.chance(40) {
                    self.look(&mut r);
                }
            }
        }
        (std::mem::take(&mut self.out), self)
    }

    /// Whether all names of an image that opens come back: others are not the original's to judge.
    fn comes_back(&self, image: &[u8]) -> bool {
        let opened = rules::open(image, usize::MAX);
        opened.map_or(true, |tree| {
            tree.entries.iter().all(|entry| self.codec.class(&entry.name).is_none())
        })
    }

    fn line(&mut self, line: &str) {
        self.out.push_str(line);
        self.out.push('\n');
    }

    /// A call with its number and the words of its answer, none with a refusal.
    fn call(&mut self, line: &str, expected: &str, answer: &[u64]) {
        let words: Vec<String> = answer.iter().map(|word| format!(" {}", shown(*word))).collect();
        let number = self.number(expected);
        self.line(&format!("{line} = {number}{}", words.concat()));
    }

    fn ask(&mut self, line: String) -> String {
        self.oracle.ask(&[line]).remove(0)
    }

    /// Starts on an image: header and table as they are, in place of all else a run of bytes.
    fn begin(&mut self, r: &mut Random, mut image: Vec<u8>) {
        let first = r.byte();
        let mut kept: Vec<(usize, usize)> = vec![(0x18, 0x20), (0x420, 0x43c)];
        if image.len() >= 0x440 {
            let at = word(&image, 0x424) as usize;
            let end = at.saturating_add(word(&image, 0x428) as usize);
            let end = end.min(at.saturating_add(400)).min(image.len());
            if at < end {
                kept.push((at, end));
            }
            let dol = word(&image, 0x420) as usize;
            let apart = dol >= end || dol >= 0x440 && dol + 0xe4 <= at;
            if apart && dol + 0xe4 <= image.len() && r.chance(95) {
                kept.push((dol, dol + 0xe4));
            }
        }
        let from = 0x440.min(image.len());
        let old = std::mem::take(&mut image);
        image.resize(old.len(), 0);
        for (i, byte) in image[from..].iter_mut().enumerate() {
            *byte = first.wrapping_add(i as u8);
        }
        self.line("size 0");
        self.line(&format!("size {:#x}", image.len()));
        if from < image.len() {
            self.line(&format!("fill {from:#x} {:#x} 1 :{first:02x}", image.len() - from));
        }
        for (at, end) in kept {
            let end = end.min(old.len());
            if at < end {
                image[at..end].copy_from_slice(&old[at..end]);
                self.line(&format!("patch {at:#x} :{}", hex(&old[at..end])));
            }
        }
        self.line(&format!("lend {WORDS:#x} {BYTES:#x} {LIST:#x}"));
        self.lent = (WORDS, BYTES, LIST);
        self.ask("size 0".into());
        self.ask(format!("size {}", image.len()));
        self.ask(format!("patch 0 {}", hex(&image)));
        self.opened = rules::open(&image, WORDS);
        self.image = image;
    }

    fn lend(&mut self, words: usize, bytes: usize, list: usize) {
        let lent = (words.min(WORDS), bytes.min(BYTES), list.min(LIST));
        if self.lent != lent {
            self.lent = lent;
            self.line(&format!("lend {:#x} {:#x} {:#x}", lent.0, lent.1, lent.2));
        }
    }

    fn lend_for(&mut self, r: &mut Random, call: &Call) {
        let Ok(tree) = &self.opened else { return self.lend(WORDS, BYTES, LIST) };
        let n = tree.entries.len();
        let (old, regions) = (4 * (n + 2), tree.free.len());
        let new = New::of(tree, call);
        let (least, table) = new.map_or((old, 64), |new| (4 * (new.entries + 2), new.size()));
        let list = if *call == Call::List { 6 * n } else { 2 * regions };
        match r.below(30) {
            0 => self.lend(least, table as usize, list),
            1 => self.lend(least - 1, BYTES, LIST),
            2 if call.edits() => self.lend(WORDS, table as usize - 1, LIST),
            2 if matches!(call, Call::List | Call::Free) && list > 0 => {
                self.lend(WORDS, BYTES, list - 1)
            }
            _ if self.lent != (WORDS, BYTES, LIST) => self.lend(WORDS, BYTES, LIST),
            _ => (),
        }
    }

    /// The answer that the rules want: the original's in Counter's form.
    fn expected(&mut self, call: &Call) -> Option<String> {
        self.oracle.ask(&["save before".into()]);
        let answer = self.ask(call.line());
        let told = self.opened.as_ref().ok().and_then(|tree| told_where(tree, call));
        let mut twin = None;
        if let Some(text) = call.text()
            && self.codec.class(text).is_some()
        {
            // With a pair that does not come back the image would be another one.
            if rules::units(text).all(rules::fit) {
                return None;
            }
            let text = StandIns::default().twin(&self.codec, text);
            twin = Some(call.line_of_any(&text));
        }
        let twin = twin.or(told).map(|twin| {
            self.oracle.ask(&["load before".into()]);
            let answer = self.ask(twin);
            if call.fills() {
                self.ask(call.line());
            }
            answer
        });
        let opened = match &self.opened {
            Ok(tree) if self.lent.0 >= 4 * (tree.entries.len() + 2) => self.opened.clone(),
            _ => rules::open(&self.image, self.lent.0),
        };
        let (words, bytes, _) = self.lent;
        let (image, codec, others) = (&self.image[..], &self.codec, None);
        let account = None;
        let given = Given { image, opened: &opened, call, words, bytes, account, codec, others };
        let verdict = judge(&given, &answer, twin.as_deref()).ok()?;
        Some(verdict.expected)
    }

    /// The number of an answer, 0 if it is accepted.
    fn number(&mut self, expected: &str) -> u32 {
        self.calls += 1;
        let number = expected.strip_prefix("err ").map_or(0, |number| number.parse().unwrap());
        *self.numbers.entry(number).or_default() += 1;
        number
    }

    fn too_long(&mut self, call: &Call) -> bool {
        let length = call.text().map_or(0, |text| text.len());
        self.long += usize::from(length > 60);
        length > 1_100 || length > 60 && self.long > 24
    }

    fn look(&mut self, r: &mut Random) {
        let call = calls::look(r, self.opened.as_ref().ok(), &self.image);
        let skipped =
            matches!(call, Call::Header | Call::Listing | Call::Window(..) | Call::DolWindow(_));
        if skipped || self.too_long(&call) {
            return;
        }
        self.lend_for(r, &call);
        let Some(mut expected) = self.expected(&call) else { return };
        if let Ok(tree) = &self.opened
            && expected.starts_with("ok")
        {
            let needed = match call {
                Call::List => 6 * tree.entries.len(),
                Call::Free => 2 * tree.free.len(),
                _ => 0,
            };
            if needed > self.lent.2 {
                expected = "err 9".into();
            }
        }
        self.record_look(r, &call, &expected);
    }

    /// The words of an answer that is accepted.
    fn answer(&mut self, call: &Call, expected: &str) -> Vec<u64> {
        match call {
            Call::Open => self.opened_words().to_vec(),
            Call::List => [self.opened_words().to_vec(), self.entry_words()].concat(),
            Call::Used | Call::Total => {
                let opened = self.opened_words();
                vec![opened[2], opened[4]]
            }
            Call::Entry(number) => self.entry(*number),
            Call::Lookup(..) => self.entry(numbers(expected)[0]),
            Call::Free => {
                let words = numbers(expected);
                let count = words.len() as u64 / 2;
                [count].into_iter().chain(words.into_iter().map(u64::from)).collect()
            }
            Call::FileWindow(number, _) => {
                let told = numbers(&self.ask(format!("entry {number}")));
                vec![told[1].into(), told[2].into(), 0]
            }
            Call::Dol => {
                let at = word(&self.image, 0x420);
                let header = (0..57).map(|i| word(&self.image, at as usize + 4 * i).into());
                let window = [at.into(), numbers(expected)[1].into(), 0];
                window.into_iter().chain(header).collect()
            }
            _ => numbers(expected).into_iter().map(u64::from).collect(),
        }
    }

    fn record_look(&mut self, r: &mut Random, call: &Call, expected: &str) {
        let line = match call {
            Call::Open => "open".into(),
            Call::List => "entries".into(),
            Call::Used | Call::Total => "totals".into(),
            Call::Entry(number) => format!("entry {}", shown((*number).into())),
            Call::Lookup(a, path) => format!("lookup {} {}", shown((*a).into()), quoted(path)),
            Call::Free => "free_regions".into(),
            Call::MaxRegion(a, b) => format!("max_region_size {a:#x} {b:#x}"),
            Call::Alloc(a, b) => format!("allocate {a:#x} {b:#x}"),
            Call::MaxFile(number) => format!("max_file_size {}", shown((*number).into())),
            Call::FileWindow(number, _) => format!("open_file {}", shown((*number).into())),
            _ => "open_dol".into(),
        };
        let accepted = expected.starts_with("ok");
        let answer = if accepted { self.answer(call, expected) } else { vec![] };
        self.call(&line, expected, &answer);
        match call {
            Call::FileWindow(number, _) if accepted => {
                self.window(r, &format!("filewindow {number}"), answer[1])
            }
            Call::Dol if accepted => self.window(r, "dolwindow", answer[1]),
            _ => (),
        }
    }

    /// A seek and a read of the window just opened.
    fn window(&mut self, r: &mut Random, opener: &str, length: u64) {
        let position = r.below(length.min(0x1000) as usize + 2);
        let asked = r.below(64);
        let answer = self.ask(format!("{opener} s:{position} r:{asked} c:0"));
        let words: Vec<&str> = answer["ok ".len()..].split(' ').collect();
        let (count, bytes) = words[1]["r=".len()..].split_once(':').unwrap();
        let count: usize = count.parse().unwrap();
        let mut buffer = unhex(bytes);
        buffer[count..].fill(b'.');
        let at = |word: &str| word["s=".len()..].parse::<u64>().unwrap();
        self.call(&format!("seek_start {position:#x}"), "ok", &[at(words[0])]);
        self.number("ok");
        let end = at(words[2]);
        self.line(&format!("read {asked:#x} = 0 {count:#x} {end:#x} {}", quoted(&buffer)));
    }

    /// Number, kind, offset or parent, size or next.
    fn entry(&mut self, number: u32) -> Vec<u64> {
        let answer = self.ask(format!("entry {number}"));
        let told = numbers(&answer);
        let kind = u32::from(answer.starts_with("ok d"));
        [told[0], kind, told[1], told[2]].into_iter().map(u64::from).collect()
    }

    /// FST offset and size, disc end, entries, used total: the original's, and the program where it
    /// lies behind the table.
    fn opened_words(&mut self) -> [u64; 5] {
        let total = numbers(&self.ask("total".into()))[0];
        let behind = self.opened.as_ref().ok().and_then(|tree| tree.behind());
        let used = numbers(&self.ask("used".into()))[0] + behind.map_or(0, |(_, size)| size) as u32;
        let entries = self.ask("list".into()).split(' ').count() as u32 - 1;
        [word(&self.image, 0x424), word(&self.image, 0x428), total, entries, used].map(u64::from)
    }

    /// Six words an entry: kind, nested in, offset, size or next, place of the name, its length.
    fn entry_words(&mut self) -> Vec<u64> {
        let list = self.ask("list".into());
        let at = word(&self.image, 0x424);
        let count = list.split(' ').count() as u32 - 1;
        let mut words = vec![];
        // Where the original's list has no word: a file's parent is the directory last open.
        let mut around: Vec<(u32, u32)> = vec![];
        for (k, entry) in list.split(' ').skip(1).enumerate() {
            let k = k as u32;
            while around.last().is_some_and(|(_, next)| k >= *next) {
                around.pop();
            }
            let parent = around.last().map_or(0, |(directory, _)| *directory);
            let parts: Vec<&str> = entry.split(':').collect();
            let path = unhex(parts.last().unwrap());
            let path = path.strip_suffix(b"/").unwrap_or(&path);
            let length = path.len() - path.iter().rposition(|b| *b == b'/').map_or(0, |i| i + 1);
            let name = word(&self.image, (at + 12 * k) as usize) & 0xff_ffff;
            let (place, length) =
                if k == 0 { (0, 0) } else { (at + 12 * count + name, length as u32) };
            let number = |i: usize| parts[i].parse::<u32>().unwrap();
            if parts[0] == "d" {
                words.extend([1, parent, 0, number(3), place, length]);
                around.push((k, number(3)));
            } else {
                words.extend([0, parent, number(2), number(3), place, length]);
            }
        }
        words.into_iter().map(u64::from).collect()
    }

    /// From here on the image states this maximum.
    fn state(&mut self, maximum: u32) {
        set_word(&mut self.image, MAXIMUM, maximum);
        self.opened = rules::open(&self.image, WORDS);
        let bytes = hex(&maximum.to_be_bytes());
        self.line(&format!("patch {MAXIMUM:#x} :{bytes}"));
        self.ask(format!("patch {MAXIMUM} {bytes}"));
    }

    fn edit(&mut self, r: &mut Random) {
        let Ok(tree) = &self.opened else { return };
        let mut call = if self.fills && r.chance(40) {
            calls::fill(r, tree, self.image.len())
        } else {
            calls::edit(r, tree, self.inserts)
        };
        if let Call::Fill(_, clip) = &mut call {
            // As a script writes it in few words.
            let first = clip.first().copied().unwrap_or(0);
            for (i, byte) in clip.iter_mut().enumerate() {
                *byte = first.wrapping_add((CLIP_STEP * i) as u8);
            }
        }
        let inside = match call {
            Call::InsertDirectory(number, _) | Call::MakeDirectories(number, _) => {
                (number as usize) < tree.entries.len()
            }
            _ => true,
        };
        let maximum = (self.maxima && r.chance(40)).then(|| maxima::beside(r, tree, &call));
        if self.too_long(&call) {
            return;
        }
        if let Some(maximum) = maximum {
            self.state(maximum);
        }
        if inside {
            self.lend_for(r, &call);
        }
        let Some(expected) = self.expected(&call) else { return };
        let line = match &call {
            Call::InsertFile(a, name) => format!("insert_file {a:#x} {}", quoted(name)),
            Call::InsertDirectory(a, name) => format!("insert_directory {a:#x} {}", quoted(name)),
            Call::MakeDirectories(a, path) => format!("make_directories {a:#x} {}", quoted(path)),
            Call::Move(a, b) => format!("move_file {a:#x} {b:#x}"),
            Call::Resize(a, b) => format!("resize_file {a:#x} {b:#x}"),
            Call::Fill(a, clip) if clip.len() <= 8 => format!("fill_file {a:#x} {}", quoted(clip)),
            Call::Fill(a, clip) => {
                format!("fill_file {a:#x} {:#x} {CLIP_STEP} :{:02x}", clip.len(), clip[0])
            }
            Call::FillZeros(a, length) => format!("fill_zeros {a:#x} {length:#x}"),
            _ => "rewrite".into(),
        };
        let mut answer = vec![];
        if expected.starts_with("ok") {
            let peek = self.ask(format!("peek 0 {}", self.image.len()));
            self.image = unhex(peek.strip_prefix("ok ").unwrap());
            self.opened = rules::open(&self.image, WORDS);
            answer.extend(numbers(&expected).first().map(|number| u64::from(*number)));
        } else {
            self.oracle.ask(&["load before".into()]);
        }
        answer.insert(0, fnv(&self.image));
        self.call(&line, &expected, &answer);
    }

    pub fn finish(self) {
        self.oracle.finish();
    }
}
