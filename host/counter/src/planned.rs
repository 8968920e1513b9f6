//! All that one edit writes to an image, as counter-write decided on it before anything is written: bytes copied, a
//! clip, the table, zeros behind it, a word of the header, zeros at the end; in this order.

use crate::header::FST_SIZE_AT;
use crate::value::Value;
use counter_sys::{RECORD_WORDS, Record};
use std::fs::File;
use std::ops::Range;
use std::os::unix::fs::FileExt;

#[derive(Debug, Clone, PartialEq, Eq)]
pub struct Planned {
    /// The number of the entry, 0 where there is none.
    pub number: u32,
    /// The table's size before.
    pub old_size: u32,
    /// So many bytes go from one place to another.
    pub from: u64,
    pub copy: Range<u64>,
    pub clip: Range<u64>,
    pub table: Bytes,
    pub tail: Range<u64>,
    /// Nothing, or four bytes.
    pub word: Bytes,
    pub lost: Range<u64>,
    /// The record as it comes back; none with another FST maximum.
    pub record: Option<Record>,
}

/// Bytes, and where they go.
#[derive(Debug, Clone, PartialEq, Eq)]
pub struct Bytes {
    pub at: u64,
    pub bytes: Vec<u8>,
}

impl Bytes {
    pub fn span(&self) -> Range<u64> {
        self.at..self.at + self.bytes.len() as u64
    }
}

impl Planned {
    /// What an answer tells of it, for an image of `len` bytes; none if something would lie outside.
    pub fn read(answer: &Value, len: u64) -> Option<Planned> {
        let word = |name: &str| u32::try_from(answer.get(name)?.number()?).ok();
        let list = |name: &str| answer.get(name)?.list();
        let within = |at: u64, bytes: u64| match at.checked_add(bytes) {
            _ if bytes == 0 => Some(0..0),
            Some(end) if end <= len => Some(at..end),
            _ => None,
        };
        let numbers =
            |name: &str| list(name)?.iter().map(Value::number).collect::<Option<Vec<_>>>();
        let span = |name: &str| match numbers(name)?[..] {
            [at, bytes] => within(at, bytes),
            _ => None,
        };
        let bytes = |name: &str| match list(name)? {
            [at, bytes] => {
                let bytes = bytes.bytes()?;
                within(at.number()?, bytes.len() as u64).map(|span| Bytes { at: span.start, bytes })
            }
            _ => None,
        };
        let [from, to, copied] = numbers("copy")?.try_into().ok()?;
        within(from, copied)?;
        Some(Planned {
            number: word("number")?,
            old_size: word("old_size")?,
            from,
            copy: within(to, copied)?,
            clip: span("clip")?,
            table: bytes("table")?,
            tail: span("tail")?,
            word: bytes("word").filter(|word| matches!(word.bytes.len(), 0 | 4))?,
            lost: span("lost")?,
            record: record(&numbers("totals")?)?,
        })
    }

    /// Every byte that is written lies in one of these.
    pub fn spans(&self) -> [Range<u64>; 6] {
        let (table, word) = (self.table.span(), self.word.span());
        [self.copy.clone(), self.clip.clone(), table, self.tail.clone(), word, self.lost.clone()]
    }

    /// How many bytes are written to the image and to the journal, which holds the clip too.
    pub fn amount(&self) -> u64 {
        let spans = self.spans();
        let [_, clip, table, ..] = spans.each_ref().map(|span| span.end - span.start);
        let image: u64 = spans.iter().map(|span| span.end - span.start).sum();
        image + clip + table
    }

    /// Whether header, table and places stay as they are in the image.
    pub fn leaves(&self, image: &[u8]) -> bool {
        let is = |bytes: &Bytes| part(image, &bytes.span()) == bytes.bytes;
        let zero = part(image, &self.tail).iter().all(|&b| b == 0);
        self.copy.is_empty() && self.lost.is_empty() && is(&self.table) && is(&self.word) && zero
    }

    /// Whether table and header of the file are as they are to be.
    pub fn is_in(&self, file: &File) -> bool {
        [&self.table, &self.word].into_iter().all(|Bytes { at, bytes }| {
            let mut now = vec![0; bytes.len()];
            file.read_exact_at(&mut now, *at).is_ok() && now == *bytes
        })
    }

    /// Puts table and header into an image. What lies elsewhere is not looked at to tell what an edit did.
    pub fn put(&self, image: &mut [u8]) {
        for Bytes { at, bytes } in [&self.table, &self.word] {
            image[*at as usize..][..bytes.len()].copy_from_slice(bytes);
        }
        image[self.tail.start as usize..self.tail.end as usize].fill(0);
    }

    /// The table's size afterwards.
    pub fn new_size(&self) -> u32 {
        match self.word.bytes.as_chunks().0 {
            [word] if self.word.at == FST_SIZE_AT as u64 => u32::from_be_bytes(*word),
            _ => self.old_size,
        }
    }
}

fn part<'a>(image: &'a [u8], span: &Range<u64>) -> &'a [u8] {
    image.get(span.start as usize..span.end as usize).unwrap_or_default()
}

/// The record of so many numbers; of none there is none.
fn record(numbers: &[u64]) -> Option<Option<Record>> {
    if numbers.is_empty() {
        return Some(None);
    }
    let words: Vec<u32> = numbers.iter().map(|&n| n.try_into().ok()).collect::<Option<_>>()?;
    let words: [u32; RECORD_WORDS] = words.try_into().ok()?;
    Some(Some(Record::of(words)))
}

#[cfg(test)]
mod tests {
    use super::*;

    const TABLE: &str = "010203";

    fn answer(copy: &str, totals: &str) -> Value {
        let text = format!(
            "{{\"answer\":\"decided\",\"number\":1,\"old_size\":5,\"copy\":{copy},\"clip\":[0,0],\
             \"table\":[1088,\"{TABLE}\"],\"tail\":[1091,2],\"word\":[1064,\"00000003\"],\"lost\":[1280,256],\
             \"totals\":{totals}}}"
        );
        Value::read(&text).unwrap()
    }

    #[test]
    fn what_is_decided_is_read_and_put() {
        let numbers: Vec<String> = (0..RECORD_WORDS).map(|n| n.to_string()).collect();
        let totals = format!("[{}]", numbers.join(","));
        let planned = Planned::read(&answer("[1280,1536,256]", &totals), 2048).unwrap();
        assert_eq!((planned.from, planned.copy.clone()), (1280, 1536..1792));
        assert_eq!((planned.number, planned.old_size, planned.new_size()), (1, 5, 3));
        let record = planned.record.unwrap();
        assert_eq!((record.used, record.largest), (0, 1));
        assert_eq!((record.teams[0].limit, record.teams[15].edits), (2, 65));
        let mut image = vec![9; 2048];
        assert!(!planned.leaves(&image));
        planned.put(&mut image);
        assert_eq!(image[1088..1094], [1, 2, 3, 0, 0, 9]);
        assert_eq!(image[1063..1069], [9, 0, 0, 0, 3, 9]);
        // What is copied and zeroed is written again in any case.
        assert!(!planned.leaves(&image));
        let same = Planned { copy: 0..0, lost: 0..0, ..planned };
        assert!(same.leaves(&image));
    }

    #[test]
    fn nothing_outside_of_the_image_is() {
        for (copy, len) in [
            ("[1280,1536,256]", 1791),
            ("[2000,1536,256]", 2048),
            ("[0,0,18446744073709551615]", 99),
        ] {
            assert_eq!(Planned::read(&answer(copy, "[]"), len), None, "{copy} {len}");
        }
        assert_eq!(Planned::read(&answer("[1280,1536,256]", "[1]"), 2048), None);
        assert_eq!(Planned::read(&answer("[1280,1536]", "[]"), 2048), None);
        assert!(Planned::read(&answer("[1280,1536,256]", "[]"), 2048).is_some());
    }
}
