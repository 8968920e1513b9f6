//! A journal read and made by itself, as docs/DISK.md and crates/journal/specs/Journal.antt say it: tests spoil
//! what an honest program never writes.

use super::power::HEAD;

/// Where things are in the image, and how many bytes: the clip, the table, the zeros behind it, the word of the
/// header, the zeros where the file was.
#[derive(Debug, Clone, Copy, PartialEq, Eq)]
pub struct Step {
    pub at: u64,
    pub len: u64,
    /// Where its bytes stand in the journal, 0 for zeros.
    pub from: u64,
}

#[derive(Debug, Clone, PartialEq, Eq)]
pub struct Journal {
    pub gates: [u8; 2],
    pub image_len: u64,
    pub number: u64,
    /// One more than the record's bytes; 0 without one.
    pub record_count: u64,
    pub note_len: u64,
    /// From, to, and how many.
    pub copy: [u64; 3],
    pub steps: [Step; 5],
    pub header: Vec<u8>,
    /// The record's text, the note, the word, the table and the clip.
    pub rest: Vec<u8>,
}

/// The path of the record, and the front's words.
#[derive(Debug, Clone, PartialEq, Eq)]
pub struct Note {
    pub path: Vec<u8>,
    pub words: Vec<u8>,
}

fn number(bytes: &[u8], at: usize) -> u64 {
    u64::from_be_bytes(bytes[at..at + 8].try_into().unwrap())
}

/// The sum that stands behind what is noted: of all behind the gates.
fn sum(bytes: &[u8]) -> u64 {
    bytes.iter().fold(0, |sum: u64, &byte| {
        sum.wrapping_mul(0x9E37_79B9_7F4A_7C15).wrapping_add(u64::from(byte) + 1)
    })
}

impl Journal {
    pub fn read(bytes: &[u8]) -> Journal {
        let numbers: Vec<u64> = (0..22).map(|k| number(bytes, 2 + 8 * k)).collect();
        let step = |k: usize| {
            let [at, len, from] = numbers[7 + 3 * k..10 + 3 * k].try_into().unwrap();
            Step { at, len, from }
        };
        let steps = [0, 1, 2, 3, 4].map(step);
        let end = (steps[0].from + steps[0].len) as usize;
        Journal {
            gates: [bytes[0], bytes[1]],
            image_len: numbers[0],
            number: numbers[1],
            record_count: numbers[2],
            note_len: numbers[3],
            copy: [numbers[4], numbers[5], numbers[6]],
            steps,
            header: bytes[178..HEAD].to_vec(),
            rest: bytes[HEAD..end].to_vec(),
        }
    }

    /// The journal's bytes, with the sum that belongs to them.
    pub fn bytes(&self) -> Vec<u8> {
        let mut bytes = self.gates.to_vec();
        let first = [self.image_len, self.number, self.record_count, self.note_len];
        let steps = self.steps.iter().flat_map(|step| [step.at, step.len, step.from]);
        for number in first.into_iter().chain(self.copy).chain(steps) {
            bytes.extend(number.to_be_bytes());
        }
        bytes.extend(&self.header);
        bytes.extend(&self.rest);
        bytes.extend(sum(&bytes[2..]).to_be_bytes());
        bytes
    }

    fn parts(&self) -> [usize; 2] {
        let record = self.record_count.saturating_sub(1) as usize;
        [record, record + self.note_len as usize]
    }

    pub fn record(&self) -> Option<&[u8]> {
        (self.record_count > 0).then(|| &self.rest[..self.parts()[0]])
    }

    pub fn note(&self) -> Note {
        let [start, end] = self.parts();
        let note = &self.rest[start..end];
        let (path, words) =
            note[4..].split_at(u32::from_be_bytes(note[..4].try_into().unwrap()) as usize);
        Note { path: path.to_vec(), words: words.to_vec() }
    }

    /// Another record, or none, and another note.
    pub fn with(&self, record: Option<&[u8]>, note: &Note) -> Journal {
        let len = (note.path.len() as u32).to_be_bytes();
        let note = [&len[..], &note.path, &note.words].concat();
        self.with_parts(record, &note)
    }

    /// The same with a note that is none.
    pub fn with_parts(&self, record: Option<&[u8]>, note: &[u8]) -> Journal {
        let end = self.parts()[1];
        let mut other = self.clone();
        other.record_count = record.map_or(0, |text| text.len() as u64 + 1);
        other.note_len = note.len() as u64;
        other.rest = [record.unwrap_or_default(), note, &self.rest[end..]].concat();
        let by = other.rest.len() as i64 - self.rest.len() as i64;
        for step in &mut other.steps {
            if step.from > 0 {
                step.from = step.from.wrapping_add_signed(by);
            }
        }
        other
    }
}
