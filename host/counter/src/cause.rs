//! Why the library refuses, in words: the one place of the program that has them. They are those of the
//! library's `Display` (crates/refusal), and counter.h has them for C; tests/c.rs holds the three together.

/// The cause with number n is the n-th.
pub const CAUSES: [&str; 30] = [
    "header field past the image",
    "Wii magic",
    "not GameCube magic",
    "FST offset below 0x440, disc end above 2^32 - 1, table end past it, or image shorter than it",
    "entry past the table",
    "kind above 1",
    "root a file",
    "last text unended",
    "limit or memory",
    "next at or before its entry, past the count or past its parent's next",
    "name offset at or past the texts' end",
    "name byte",
    "unsafe or empty name",
    "used regions overlap or pass the disc end",
    "no such entry",
    "file wanted",
    "directory wanted",
    "not found",
    "name exists",
    "move overlaps itself",
    "no space",
    "alignment no power of two",
    "seek",
    "DOL header past the image, or a sum above 2^32 - 1",
    "used bytes or edit count would leave 0 to 2^32 - 1",
    "new table above the maximum",
    "taken bytes above the team's limit",
    "free bytes below the other teams' shares",
    "span to be zeroed not wholly free",
    "no edit sheet: its count, bounds, or a line's kind, fields or path",
];

/// None where no call answers the number.
pub fn cause(number: u32) -> Option<&'static str> {
    CAUSES.get((number as usize).checked_sub(1)?).copied()
}
