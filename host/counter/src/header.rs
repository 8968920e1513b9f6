//! The disc header, as the library reads it.

use crate::text::one_line;
use counter_sys::{self as counter, HEADER_SIZE};

/// A field of the header.
pub struct Field {
    /// As documents call it, and as `info` does.
    pub name: &'static str,
    pub shown: &'static str,
    /// As JSON calls it.
    pub key: &'static str,
    pub at: usize,
    pub size: usize,
}

const fn field(name: &'static str, key: &'static str, at: usize, size: usize) -> Field {
    Field { name, shown: name, key, at, size }
}

/// The 21 fields; together they are the header.
pub const FIELDS: [Field; 21] = [
    field("game code", "game_code", 0, 4),
    field("maker", "maker", 4, 2),
    field("disc", "disc", 6, 1),
    field("version", "version", 7, 1),
    Field { shown: "audio streaming", ..field("audio", "audio_streaming", 8, 1) },
    field("stream buffer", "stream_buffer", 9, 1),
    Field { shown: "unused at 0xa", ..field("unused 0x0A", "unused_0a", 0xA, 14) },
    field("Wii magic", "wii_magic", 0x18, 4),
    field("GameCube magic", "gamecube_magic", 0x1C, 4),
    field("game name", "game_name", 0x20, 0x3E0),
    field("debug offset", "debug_offset", 0x400, 4),
    field("debug address", "debug_address", 0x404, 4),
    Field { shown: "unused at 0x408", ..field("unused 0x408", "unused_408", 0x408, 0x18) },
    field("DOL offset", "dol_offset", DOL_OFFSET, 4),
    field("FST offset", "fst_offset", FST_OFFSET, 4),
    field(FST_SIZE, "fst_size", FST_SIZE_AT, 4),
    field("FST maximum", "fst_maximum", FST_MAXIMUM_AT, 4),
    field("user position", "user_position", 0x430, 4),
    field("user size", "user_size", 0x434, 4),
    field("disc size", "disc_size", 0x438, 4),
    Field { shown: "unused at 0x43c", ..field("unused 0x43C", "unused_43c", 0x43C, 4) },
];

/// The one field that edits write.
pub const FST_SIZE: &str = "FST size";

/// Where the numbers stand that are looked at by themselves.
pub const DOL_OFFSET: usize = 0x420;
const FST_OFFSET: usize = 0x424;
pub const FST_SIZE_AT: usize = 0x428;
pub const FST_MAXIMUM_AT: usize = 0x42C;

impl Field {
    /// The field of that name, whatever the case; where there is none, what there is.
    pub fn named(text: &str) -> Result<&'static Field, String> {
        let words: Vec<&str> = text.split_whitespace().collect();
        let wanted = words.join(" ");
        let is = |name: &str| name.eq_ignore_ascii_case(&wanted);
        let found = FIELDS.iter().find(|field| is(field.name) || is(field.shown));
        found.ok_or_else(|| {
            let names: Vec<&str> = FIELDS.iter().map(|field| field.name).collect();
            format!("the header has no field \"{}\"; it has {}", one_line(text), names.join(", "))
        })
    }
}

/// The disc header's 0x440 bytes.
pub struct Header([u8; HEADER_SIZE]);

impl Header {
    pub fn read(bytes: &[u8]) -> Result<Header, u32> {
        counter::header(bytes).map(Header)
    }

    pub fn bytes(&self, at: usize, len: usize) -> &[u8] {
        &self.0[at..at + len]
    }

    pub fn word(&self, at: usize) -> u32 {
        u32::from_be_bytes(self.0[at..at + 4].try_into().expect("four bytes"))
    }

    /// The most bytes that the table may have; 0 states no maximum.
    pub fn fst_maximum(&self) -> u32 {
        self.word(FST_MAXIMUM_AT)
    }

    /// Where the table begins and ends, as the header has it.
    pub fn table(&self) -> (u64, u64) {
        let start = u64::from(self.word(FST_OFFSET));
        (start, start + u64::from(self.word(FST_SIZE_AT)))
    }

    /// The same for the disc end, for an image that does not open.
    pub fn disc_end(&self) -> u64 {
        u64::from(self.word(0x434)) + u64::from(self.word(0x438))
    }

    /// The game's six letters, without zero bytes at the end.
    pub fn game(&self) -> &[u8] {
        let code = self.bytes(0, 6);
        let end = code.iter().rposition(|&b| b != 0).map_or(0, |at| at + 1);
        &code[..end]
    }

    /// The game name up to its first zero byte.
    pub fn game_name(&self) -> &[u8] {
        let field = self.bytes(0x20, 0x3E0);
        let end = field.iter().position(|&b| b == 0).unwrap_or(field.len());
        &field[..end]
    }
}

#[cfg(test)]
mod tests {
    use super::*;

    #[test]
    fn the_fields_are_the_header() {
        let mut end = 0;
        for field in &FIELDS {
            assert_eq!(field.at, end, "{}", field.name);
            end += field.size;
            assert_eq!(Field::named(&field.name.to_uppercase()).unwrap().at, field.at);
            assert_eq!(Field::named(field.shown).unwrap().at, field.at);
        }
        assert_eq!(end, HEADER_SIZE);
        assert!(Field::named("unused").is_err() && Field::named("").is_err());
    }
}
