//! 16,384 names into one text of 1 MiB: what each call costs. The Rust cannot take part: it would copy 17 GB of names.

use crate::images::{self, FST_OFFSET};
use crate::measure::{Watch, micros};
use crate::sides::{Call, Lent};
use counter_sys::{self as counter, Memory};
use std::time::Duration;

const COUNT: usize = 16384;
const TEXTS: usize = 1 << 20;
const BAR: Duration = Duration::from_millis(50);

/// Where the texts of the names start: the first two bytes are a text that no entry uses.
const FIRST: usize = 2;

struct Case {
    kind: &'static str,
    /// The texts behind that first one.
    texts: Vec<u8>,
    /// Where entry k's name starts.
    name_at: fn(usize) -> usize,
    /// What opening answers.
    number: u32,
}

/// A text of `length` bytes with its end: `unit` as often as there is room, and `last`.
fn text(length: usize, unit: &[u8], last: &[u8]) -> Vec<u8> {
    let mut text = unit.repeat((length - 1 - last.len()) / unit.len());
    text.extend(last);
    text.resize(length, 0);
    text
}

fn cases() -> Vec<Case> {
    const HALF: usize = TEXTS / 2;
    const LAST: usize = COUNT - 1;
    let whole = |unit: &[u8], last: &[u8]| text(TEXTS - FIRST, unit, last);
    let case = |kind, texts, name_at, number| Case { kind, texts, name_at, number };
    let halves = [text(HALF - FIRST, b"a", b""), text(HALF, b"a", b"")].concat();
    // A byte before the pairs, so that they start at odd places.
    let odd = [b"a", &text(TEXTS - FIRST - 1, b"\x95\x5c", b"")[..]].concat();
    // Leads alone make pairs: a name with an odd number of them is refused.
    let (even_leads, odd_leads) = (whole(b"\x81\x81", b""), whole(b"\x81", b""));
    vec![
        case("each name one byte shorter", whole(b"a", b""), |k| FIRST + k, 0),
        case("each name one byte longer", whole(b"a", b""), |k| FIRST + COUNT - k, 0),
        case("the same name each time", whole(b"a", b""), |_| FIRST, 0),
        case("two names in turn", halves, |k| FIRST + k % 2 * HALF, 0),
        case("pairs, names at their starts", whole(b"\x83\x41", b""), |k| FIRST + 2 * k, 0),
        case("pairs, names inside them", whole(b"\x83\x41", b""), |k| FIRST + 2 * k + 1, 0),
        case("pairs of trail 0x5C, names at their starts", odd, |k| FIRST + 2 * k - 1, 0),
        case("leads, an even number", even_leads.clone(), |k| FIRST + 2 * k, 0),
        case("leads, an odd number", odd_leads, |k| FIRST + 2 * k + 1, 0),
        case("leads and `A`, each cut fit", whole(b"\x81", b"A"), |k| FIRST + k, 0),
        case(
            "leads, an odd number in the last name only",
            even_leads,
            |k| if k == LAST { FIRST + 1 } else { FIRST + 2 * k },
            12,
        ),
        case(
            "leads and 0x5C, a trail but in the last name",
            whole(b"\x81", b"\\"),
            |k| if k == LAST { FIRST } else { FIRST + 2 * k + 1 },
            13,
        ),
    ]
}

impl Case {
    /// One directory of files of 32 bytes. The text that no entry uses is the byte `first`.
    fn image(&self, first: u8) -> Vec<u8> {
        let texts = [&[first, 0], &self.texts[..]].concat();
        let table = 12 * COUNT + texts.len();
        let data = (FST_OFFSET + table + 0x20000).next_multiple_of(0x8000);
        let disc_end = data + 64 * COUNT + 0x20000;
        let mut image = vec![0; disc_end];
        images::write_header(&mut image, table, disc_end as u32);
        let mut put = |k: usize, words: [u32; 3]| {
            let at = FST_OFFSET + 12 * k;
            for (i, word) in words.iter().enumerate() {
                image[at + 4 * i..at + 4 * i + 4].copy_from_slice(&word.to_be_bytes());
            }
        };
        put(0, [1 << 24, 0, COUNT as u32]);
        for k in 1..COUNT {
            // The files lie in no order.
            let place = (k * 7919) % COUNT;
            put(k, [(self.name_at)(k) as u32, (data + 64 * place) as u32, 32]);
        }
        image[FST_OFFSET + 12 * COUNT..][..texts.len()].copy_from_slice(&texts);
        image
    }

    /// The longest name, and with `b` in the place of its last byte: fit as it was, since `b` may stand alone and be a trail.
    fn longest(&self) -> Vec<u8> {
        let at = (1..COUNT).map(self.name_at).min().unwrap() - FIRST;
        let mut name: Vec<u8> = self.texts[at..].iter().copied().take_while(|&b| b != 0).collect();
        *name.last_mut().unwrap() = b'b';
        name
    }

    /// The start of that name, 1,024 bytes with a `b` at the end.
    fn path(&self) -> Vec<u8> {
        let mut path = self.longest();
        path.truncate(1023);
        path.push(b'b');
        path
    }

    /// Name, call, and what it answers if the image opens: written anew, names are not shared, and the texts pass their limit (9).
    fn calls(&self) -> Vec<(&'static str, Call, u32)> {
        let path = self.path();
        vec![
            ("open", Call::Open, 0),
            ("lookup, 1,024 bytes", Call::Lookup(path.clone()), 18),
            ("free regions", Call::FreeRegions, 0),
            ("allocate", Call::Allocate(64, 32), 0),
            ("move", Call::Move(1, 0x140000), 9),
            ("resize", Call::Resize(1, 16), 9),
            ("fill", Call::Fill(1, vec![b'c'; 16].into()), 9),
            ("rewrite", Call::Rewrite, 9),
            ("insert a file, 1,024 bytes", Call::InsertFile(0, path.clone()), 9),
            ("make-directories, 1,024 bytes", Call::MakeDirectories(path), 9),
        ]
    }

    fn row(&self, misses: &mut Vec<String>, name: &str, wanted: u32, number: u32, time: Duration) {
        let kind = self.kind;
        assert_eq!(number, if self.number == 0 { wanted } else { self.number }, "{kind}, {name}");
        println!("| {kind} | {name} | {number} | {} |", micros(time));
        if time > BAR {
            misses.push(format!("{kind}, {name}: {}", micros(time)));
        }
    }

    fn run(&self, misses: &mut Vec<String>, lent: &mut Lent) {
        let mut image = self.image(b'a');
        for (name, call, wanted) in self.calls() {
            let runs: Vec<_> = (0..3).map(|_| lent.run(&call, &mut image)).collect();
            let time = runs.iter().map(|run| run.0).min().unwrap();
            self.row(misses, name, wanted, runs[0].1.as_ref().err().copied().unwrap_or(0), time);
        }
        let mut list = vec![0; counter::ENTRY_WORDS * COUNT];
        let memory = &mut Memory { words: &mut lent.words, bytes: &mut lent.bytes };
        let start = Watch::start();
        let answer = counter::entries(&image, memory, &mut list);
        self.row(misses, "entries", 0, answer.err().unwrap_or(0), start.elapsed());
        // The worst: a name as long as the texts, which differs from them in its last byte; and names that have to be looked at, since
        // some byte of the texts is unfit.
        let (time, answer) = lent.run(&Call::InsertFile(0, self.longest()), &mut image);
        self.row(misses, "insert a file, a name as long", 9, answer.err().unwrap_or(0), time);
        let (time, answer) = lent.run(&Call::Open, &mut self.image(b':'));
        let name = "open, an unfit byte in a text of no entry";
        self.row(misses, name, 0, answer.err().unwrap_or(0), time);
    }
}

pub fn run(misses: &mut Vec<String>) {
    println!();
    println!("| 16,384 names into 1 MiB of texts | call | answer | Counter, µs |");
    println!("|---|---|---|---|");
    let mut lent = Lent::new(COUNT, 12 * COUNT + TEXTS, COUNT + 1);
    for case in cases() {
        case.run(misses, &mut lent);
    }
}
