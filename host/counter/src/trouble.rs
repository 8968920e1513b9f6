//! More words for a refusal of opening. The library tells which entry it is about, which regions or which
//! section (`fault`); what stands there is read here, to be told. Where it tells no such trouble, nothing
//! is said.

use crate::header::{DOL_OFFSET, Header};
use crate::names;
use crate::text::{grouped, section};
use crate::units;
use counter_sys::{
    self as counter, About, DOL_WORDS, Fault, HEADER_SIZE, MOST_ENTRIES, MOST_LEVELS, MOST_TEXT,
    MOST_WORDS, Owner,
};

/// What is wrong, if the refusal `number` can be told in more words.
pub fn words(image: &[u8], number: u32) -> Option<String> {
    let have = image.len();
    match number {
        1..=3 if form(image).is_some() => form(image),
        1 if have == 0 => Some("the file is empty".into()),
        1 => Some(format!("the file has {have} bytes, a header {HEADER_SIZE}")),
        2 => Some("this is a Wii disc".into()),
        3 => Some("this is no GameCube disc image".into()),
        4 => bounds(image),
        _ => Spoiled::of(image)?.words(number),
    }
}

/// Forms in which an image is kept otherwise than byte for byte, by their first bytes.
const FORMS: [(&[u8], &str); 6] = [
    (b"RVZ\x01", "RVZ"),
    (b"WIA\x01", "WIA"),
    (b"CISO", "CISO"),
    (b"\x01\xC0\x0B\xB1", "GCZ"),
    (b"WBFS", "WBFS"),
    (b"\x1F\x8B", "gzip"),
];

/// Which of them it is, and what makes an image of it.
fn form(image: &[u8]) -> Option<String> {
    let (_, name) = FORMS.iter().find(|(magic, _)| image.starts_with(magic))?;
    Some(match *name {
        "gzip" => "this is a gzip file; `gunzip -k IMAGE` makes an image of it".into(),
        name => format!(
            "this is an image in the form {name}; `dolphin-tool convert -f iso -i IMAGE -o NEW.iso` makes a \
             plain one of it"
        ),
    })
}

/// What is to be known of an NKit image, whose header looks like any other: files are moved and bytes left
/// out.
pub fn nkit(image: &[u8]) -> Option<&'static str> {
    image.get(0x200..)?.starts_with(b"NKIT").then_some(
        "this is an NKit image: files are moved in it and bytes left out. NKit's `ConvertToISO IMAGE` makes \
         the disc's own image of it",
    )
}

/// Which numbers of 4 to tell: the library says no more than that they disagree.
fn bounds(image: &[u8]) -> Option<String> {
    let header = Header::read(image).ok()?;
    let (fst, table_end) = header.table();
    let disc_end = header.disc_end();
    let have = image.len();
    Some(if fst < HEADER_SIZE as u64 {
        format!("FST offset {fst:#x}")
    } else if disc_end > u64::from(u32::MAX) {
        format!("disc end {disc_end:#x}")
    } else if table_end > disc_end {
        format!("table end {table_end:#x}, disc end {disc_end:#x}")
    } else {
        format!("the file has {have} bytes, the disc {disc_end}")
    })
}

/// Bytes of a program's header.
const DOL_SIZE: u64 = 4 * DOL_WORDS as u64;

fn word(bytes: &[u8], at: u64) -> Option<u32> {
    let four = bytes.get(usize::try_from(at).ok()?..)?.first_chunk()?;
    Some(u32::from_be_bytes(*four))
}

/// An image that does not open, with its table. What is not there is not told.
struct Spoiled<'a> {
    image: &'a [u8],
    header: Header,
    table: &'a [u8],
}

/// From where to where, and how it is called.
type Place = (u64, u64, String);

impl<'a> Spoiled<'a> {
    fn of(image: &'a [u8]) -> Option<Spoiled<'a>> {
        let header = Header::read(image).ok()?;
        let (start, end) = header.table();
        let table = image.get(start as usize..end as usize)?;
        Some(Spoiled { image, header, table })
    }

    fn words(&self, number: u32) -> Option<String> {
        match counter::fault(self.image, &mut vec![0; MOST_WORDS]) {
            Some(fault) if fault.number == number => self.told(fault),
            // `dol` reads a program at 0, too, where opening takes it for none.
            None if number == 24 => self.section((0..18).find(|&i| self.passes(i))?),
            _ => None,
        }
    }

    fn told(&self, fault: Fault) -> Option<String> {
        match (fault.number, fault.about) {
            (5, _) => {
                let (have, count) = (self.table.len(), self.entry(0)?[2]);
                let wanted = 12 * u64::from(count);
                Some(format!("the table has {have} bytes, and {count} entries take {wanted}"))
            }
            (9, About::Entry(k)) => {
                Some(format!("entry {k} is a folder deeper than {MOST_LEVELS} levels"))
            }
            (9, _) => Some(limits()),
            // The root's own kind, and a count of 0.
            (6 | 10, About::Image) => self.about_entry(0, fault.number),
            (number, About::Entry(k)) => self.about_entry(k, number),
            (_, About::Shared(a, b)) => self.shared(a, b),
            (_, About::PastEnd(owner)) => {
                let (start, end, name) = self.region(owner)?;
                let disc_end = self.header.disc_end();
                Some(format!("{name} {start:#x} to {end:#x}, the disc ends at {disc_end:#x}"))
            }
            (_, About::Section(i)) => self.section(i),
            (24, About::Image) => {
                let (at, have) = (self.program_offset(), self.image.len());
                let end = at + DOL_SIZE;
                Some(format!("the program's header {at:#x} to {end:#x}, the file has {have} bytes"))
            }
            _ => None,
        }
    }

    // Entries -----------------------------------------------------------------------------

    /// The three words of an entry: kind and name offset; offset or parent; size or next.
    fn entry(&self, k: u32) -> Option<[u32; 3]> {
        let at = 12 * u64::from(k);
        Some([word(self.table, at)?, word(self.table, at + 4)?, word(self.table, at + 8)?])
    }

    fn name(&self, k: u32) -> Option<&'a [u8]> {
        let texts = 12 * u64::from(self.entry(0)?[2]);
        let at = texts + u64::from(self.entry(k)?[0] & 0xFF_FFFF);
        self.table.get(usize::try_from(at).ok()?..)?.split(|&b| b == 0).next()
    }

    fn about_entry(&self, k: u32, number: u32) -> Option<String> {
        let [first, _, third] = self.entry(k)?;
        match number {
            6 => Some(format!("entry {k} has kind {}", first >> 24)),
            10 => Some(format!("entry {k} has next {third}")),
            11 => Some(format!("entry {k} has name offset {}", first & 0xFF_FFFF)),
            12 | 13 => {
                let name = self.name(k)?;
                let why = units::trouble(name, number).map(|why| format!(": {why}"));
                let called = names::short(name);
                Some(format!("entry {k} is called \"{called}\"{}", why.unwrap_or_default()))
            }
            _ => None,
        }
    }

    // Regions -----------------------------------------------------------------------------

    fn region(&self, owner: Owner) -> Option<Place> {
        Some(match owner {
            Owner::Table => (0, self.header.table().1, "the table".into()),
            Owner::Program => {
                let at = self.program_offset();
                (at, at + self.program_size(), "the program".into())
            }
            Owner::Entry(k) => {
                let [_, offset, size] = self.entry(k)?;
                let called = names::short(self.name(k)?);
                let end = u64::from(offset) + u64::from(size);
                (offset.into(), end, format!("entry {k} \"{called}\""))
            }
        })
    }

    fn shared(&self, a: Owner, b: Owner) -> Option<String> {
        let both = match (a, b) {
            // It may lie before the table, so what it lies over there is told.
            (Owner::Table, Owner::Program) | (Owner::Program, Owner::Table) => {
                [self.before(self.program_offset()), self.region(Owner::Program)?]
            }
            _ => {
                let mut both = [self.region(a)?, self.region(b)?];
                both.sort();
                both
            }
        };
        let told = both.map(|(start, end, name)| format!("{name} {start:#x} to {end:#x}"));
        Some(told.join(" and "))
    }

    /// What a program from `at` on lies over, of the bytes up to the table's end.
    fn before(&self, at: u64) -> Place {
        let (start, end) = self.header.table();
        match HEADER_SIZE as u64 {
            header if at < header => (0, header, "the header".into()),
            _ => (start, end, "the table".into()),
        }
    }

    // The program -------------------------------------------------------------------------

    fn program_offset(&self) -> u64 {
        self.header.word(DOL_OFFSET).into()
    }

    /// A section's offset and size.
    fn numbers(&self, i: u32) -> Option<(u32, u32)> {
        let at = self.program_offset() + 4 * u64::from(i);
        Some((word(self.image, at)?, word(self.image, at + 0x90)?))
    }

    fn passes(&self, i: u32) -> bool {
        self.numbers(i).is_some_and(|(offset, size)| offset.checked_add(size).is_none())
    }

    /// How many bytes it takes, only to be told: of an image that does not open the library tells no region.
    fn program_size(&self) -> u64 {
        let sections = (0..18).filter_map(|i| self.numbers(i));
        let ends = sections.map(|(offset, size)| u64::from(offset) + u64::from(size));
        ends.max().unwrap_or(0).max(DOL_SIZE)
    }

    fn section(&self, i: u32) -> Option<String> {
        let (at, (offset, size), name) =
            (self.program_offset(), self.numbers(i)?, section(i as usize));
        Some(format!("the program at {at:#x}: {name} has offset {offset:#x} and size {size:#x}"))
    }
}

fn limits() -> String {
    let [entries, text] = [MOST_ENTRIES, MOST_TEXT].map(|most| grouped(most as u64));
    format!("more than {entries} entries, {text} bytes of names or {MOST_LEVELS} levels")
}
