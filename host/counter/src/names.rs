//! Names and paths: their bytes in an image, and the text that people read and type.
//!
//! An image has them in Shift-JIS (CP932). How a text is cut into units, and which of them a name may hold,
//! the library tells; the characters are those of the system's iconv. Nothing else in the program knows the
//! code.

use crate::text::{is_obeyed, one_line, width};
use crate::units::{is_lead, is_pair, is_unit, unit, units};
use std::collections::HashMap;
use std::env;
use std::ffi::{CStr, OsStr, c_char, c_int, c_void};
use std::fmt::Write;
use std::os::unix::ffi::OsStrExt;
use std::ptr::null_mut;
use std::sync::OnceLock;
use std::sync::atomic::{AtomicBool, Ordering};

// Without case ----------------------------------------------------------------------------

/// The small letter of a capital one: ASCII's, and as pairs the full-width Latin, the Greek and the Cyrillic
/// ones. Any other unit is its own.
fn small(unit: &[u8]) -> Vec<u8> {
    match *unit {
        [byte] => vec![byte.to_ascii_lowercase()],
        [0x82, trail @ 0x60..=0x79] => vec![0x82, trail + 0x21],
        [0x83, trail @ 0x9F..=0xB6] => vec![0x83, trail + 0x20],
        // Between the small ones lies 0x7F, which is no trail byte.
        [0x84, trail @ 0x40..=0x4E] => vec![0x84, trail + 0x30],
        [0x84, trail @ 0x4F..=0x60] => vec![0x84, trail + 0x31],
        _ => unit.to_vec(),
    }
}

/// A name as a game takes it that looks up without case, in either of two ways: letter by letter, or byte by
/// byte, as C's `tolower` does it, where the trail byte of a pair becomes a small letter too.
fn folded(name: &[u8]) -> [Vec<u8>; 2] {
    [units(name).flat_map(small).collect(), name.to_ascii_lowercase()]
}

/// Names of the same folder that differ, and are the same to a game that looks up without case: it finds the
/// first of them. Each name is given with its folder; of each that is not found, the place of the one that is
/// found, and its own.
pub fn alike<'a>(names: impl Iterator<Item = (u32, &'a [u8])>) -> Vec<(usize, usize)> {
    let names: Vec<(u32, &[u8])> = names.collect();
    let mut first: HashMap<(u32, usize, Vec<u8>), usize> = HashMap::new();
    let mut found = Vec::new();
    for (at, (folder, name)) in names.iter().enumerate() {
        let before = folded(name).into_iter().enumerate().map(|(way, folded)| {
            let before = *first.entry((*folder, way, folded)).or_insert(at);
            (names[before].1 != *name).then_some(before)
        });
        // Both ways are looked at, so that both know the name.
        let before: Vec<Option<usize>> = before.collect();
        found.extend(before.into_iter().flatten().min().map(|before| (before, at)));
    }
    found
}

// The code --------------------------------------------------------------------------------

unsafe extern "C" {
    fn iconv_open(to: *const c_char, from: *const c_char) -> *mut c_void;
    fn iconv(
        code: *mut c_void,
        from: *mut *mut c_char,
        left: *mut usize,
        to: *mut *mut c_char,
        room: *mut usize,
    ) -> usize;
    fn iconv_close(code: *mut c_void) -> c_int;
}

const UTF_8: &CStr = c"UTF-8";
const CP932: &CStr = c"CP932";

/// One way from one code to another.
struct Code(*mut c_void);

impl Code {
    /// None where the system does not have it.
    fn open(from: &CStr, to: &CStr) -> Option<Code> {
        // SAFETY: both are ended texts.
        let code = unsafe { iconv_open(to.as_ptr(), from.as_ptr()) };
        (code as isize != -1).then_some(Code(code))
    }

    /// The bytes of one character in the other code, if it has it.
    fn turn(&self, bytes: &[u8]) -> Option<Vec<u8>> {
        let (mut from, mut left) = (bytes.as_ptr() as *mut c_char, bytes.len());
        let mut out = [0u8; 16];
        let (mut to, mut room) = (out.as_mut_ptr() as *mut c_char, out.len());
        // SAFETY: the descriptor is open; iconv reads `left` bytes, writes `room` at most, and leaves what
        // it reads as it is. The first call forgets what a refused character has left behind.
        let told = unsafe {
            iconv(self.0, null_mut(), null_mut(), null_mut(), null_mut());
            iconv(self.0, &mut from, &mut left, &mut to, &mut room)
        };
        let len = out.len() - room;
        (told as isize != -1 && left == 0).then(|| out[..len].to_vec())
    }
}

impl Drop for Code {
    fn drop(&mut self) {
        // SAFETY: it is open, and not used again.
        unsafe { iconv_close(self.0) };
    }
}

/// The unit's character, if it is from 0xA1 on and has one of its own: some pairs share one, which then
/// stands for the pair that it is turned back into. None has one where the system has no CP932.
fn character(unit: &[u8]) -> Option<char> {
    static FOUND: OnceLock<Vec<Option<char>>> = OnceLock::new();
    FOUND.get_or_init(characters)[place(unit)]
}

/// A unit's place among all of them.
fn place(unit: &[u8]) -> usize {
    unit.iter().fold(0, |place, byte| place << 8 | usize::from(*byte))
}

/// Whether the system has no CP932, so that these names have no characters.
pub fn have_no_characters(mut names: impl Iterator<Item = impl AsRef<[u8]>>) -> bool {
    names.any(|name| !name.as_ref().is_ascii()) && Code::open(CP932, UTF_8).is_none()
}

fn characters() -> Vec<Option<char>> {
    let mut found = vec![None; 0x1_0000];
    let Some((read, write)) = Code::open(CP932, UTF_8).zip(Code::open(UTF_8, CP932)) else {
        return found;
    };
    let one = |unit: &[u8]| {
        let text = read.turn(unit)?;
        let mut letters = std::str::from_utf8(&text).ok()?.chars();
        let letter = letters.next().filter(|_| letters.next().is_none())?;
        (write.turn(&text)? == unit).then_some(letter)
    };
    for pair in (0..=u16::MAX).map(u16::to_be_bytes).filter(|pair| is_unit(pair)) {
        found[place(&pair)] = one(&pair);
    }
    for single in (0x80..=u8::MAX).map(|byte| [byte]).filter(|byte| is_unit(byte)) {
        found[place(&single)] = one(&single);
    }
    found
}

/// The bytes of a character above U+007F. ¥ and ‾ are none: CP932 would have them as `\` and `~`.
fn bytes_of(letter: char) -> Result<Vec<u8>, String> {
    let named = || format!("{} (U+{:04X})", one_line(&letter.to_string()), u32::from(letter));
    let code = Code::open(UTF_8, CP932).ok_or_else(|| {
        let why =
            "has no bytes here: this system's iconv has no CP932; \\xHH and --bytes need none";
        format!("{} {why}", named())
    })?;
    let bytes = code.turn(letter.encode_utf8(&mut [0; 4]).as_bytes());
    let one = |bytes: &Vec<u8>| is_unit(bytes) && !bytes.is_ascii();
    bytes.filter(one).ok_or_else(|| {
        format!("{} has no bytes in Shift-JIS (CP932), in which an image has its names", named())
    })
}

// Shown -----------------------------------------------------------------------------------

fn escape(out: &mut String, unit: &[u8]) {
    for byte in unit {
        let _ = write!(out, "\\x{byte:02x}");
    }
}

fn escaped_bytes(unit: &[u8]) -> Vec<u8> {
    let mut out = String::new();
    escape(&mut out, unit);
    out.into_bytes()
}

fn spelt(bytes: &[u8], letter: impl Fn(&[u8]) -> Option<char>) -> String {
    let mut out = String::new();
    for unit in units(bytes) {
        match unit {
            [byte @ b' '..=b'~'] => out.push(*byte as char),
            _ => match letter(unit) {
                Some(letter) => out.push(letter),
                None => escape(&mut out, unit),
            },
        }
    }
    out
}

/// A name or a path as text, for words, JSON and files. What has no character of its own is escaped, each
/// byte as `\xHH`; since no name has a `\` of its own, no two names have the same text.
pub fn text(bytes: &[u8]) -> String {
    spelt(bytes, character)
}

/// The start of a name or a path, which may be long, for what is said.
pub fn short(name: &[u8]) -> String {
    let mut len = 0;
    for unit in units(name) {
        if len + unit.len() > 60 {
            return format!("{}...", text(&name[..len]));
        }
        len += unit.len();
    }
    text(name)
}

/// A name or a path with every byte from 0x80 on escaped.
fn escaped(bytes: &[u8]) -> String {
    spelt(bytes, |_| None)
}

/// Text in Latin-1, which discs for other countries than Japan have; what is no character is escaped.
pub fn latin(bytes: &[u8]) -> String {
    let mut out = String::new();
    for byte in bytes {
        match (*byte as char).is_control() {
            true => escape(&mut out, &[*byte]),
            false => out.push(*byte as char),
        }
    }
    out
}

/// The code of the terminal.
#[derive(Clone, Copy, PartialEq, Eq)]
enum Terminal {
    Utf8,
    ShiftJis,
    Other,
}

/// UTF-8 is taken for granted unless the locale names another code: the locales C and POSIX name none.
fn terminal() -> Terminal {
    static FOUND: OnceLock<Terminal> = OnceLock::new();
    *FOUND.get_or_init(|| {
        let mut told = ["LC_ALL", "LC_CTYPE", "LANG"].into_iter().filter_map(env::var_os);
        let told = told.find(|value| !value.is_empty()).unwrap_or_default();
        let told = told.to_string_lossy().to_lowercase();
        let locale = told.split('@').next().unwrap_or_default();
        let code = locale.split_once('.').map(|(_, code)| code.replace(['-', '_'], ""));
        match code.as_deref() {
            None | Some("utf8") => Terminal::Utf8,
            Some("sjis" | "shiftjis" | "cp932" | "ms932" | "windows31j") => Terminal::ShiftJis,
            Some(_) => Terminal::Other,
        }
    })
}

fn terminal_has_utf_8() -> bool {
    terminal() == Terminal::Utf8
}

static RAW: AtomicBool = AtomicBool::new(false);

/// Whether names are the image's bytes, on standard output and wherever they are taken.
pub fn keep_raw(wanted: bool) {
    RAW.store(wanted, Ordering::Relaxed);
}

pub fn are_raw() -> bool {
    RAW.load(Ordering::Relaxed)
}

/// A name or a path for standard output.
pub fn shown(bytes: &[u8]) -> Vec<u8> {
    match (are_raw(), terminal_has_utf_8()) {
        (true, _) => bytes.to_vec(),
        (false, true) => text(bytes).into_bytes(),
        (false, false) => escaped(bytes).into_bytes(),
    }
}

/// How many columns of a terminal that takes. On one that shows the bytes, as many as there are bytes.
pub fn columns(bytes: &[u8]) -> usize {
    match (are_raw(), terminal_has_utf_8()) {
        (true, _) => bytes.len(),
        (false, true) => width(&text(bytes)),
        (false, false) => escaped(bytes).len(),
    }
}

/// How many bytes a file's name may have (Linux's NAME_MAX).
pub const LONGEST_FILE: usize = 255;

/// A name or a path in files that others read: text, or bytes where they are kept.
pub fn written(bytes: &[u8]) -> Vec<u8> {
    if are_raw() { bytes.to_vec() } else { text(bytes).into_bytes() }
}

/// A path in quotes: whatever might be taken for something else is escaped, so that it can hold any bytes but
/// zero.
pub fn quoted(path: &[u8]) -> Vec<u8> {
    let mut out = b"\"".to_vec();
    for unit in units(path) {
        match unit {
            [byte @ (b'"' | b'\\')] => out.extend([b'\\', *byte]),
            [b' '..=b'~'] => out.extend(unit),
            _ if are_raw() && is_unit(unit) => out.extend(unit),
            _ if are_raw() => out.extend(escaped_bytes(unit)),
            _ => out.extend(shown(unit)),
        }
    }
    out.push(b'"');
    out
}

/// Words for the terminal; on one without UTF-8 characters are escaped like the bytes that they stand for.
pub fn for_terminal(words: &str) -> String {
    if terminal_has_utf_8() || words.is_ascii() {
        return words.to_string();
    }
    let mut out = String::new();
    for letter in words.chars() {
        match letter.is_ascii() {
            true => out.push(letter),
            false => match bytes_of(letter) {
                Ok(bytes) => escape(&mut out, &bytes),
                Err(_) => out.push('?'),
            },
        }
    }
    out
}

/// The name of a file of the system, for what is said: what of it is no UTF-8 or would be obeyed is
/// escaped, and on a terminal without UTF-8 every byte from 0x80 on.
pub fn file(name: impl AsRef<OsStr>) -> String {
    let mut out = String::new();
    for chunk in name.as_ref().as_bytes().utf8_chunks() {
        for letter in chunk.valid().chars() {
            match (letter.is_ascii() || terminal_has_utf_8()) && !is_obeyed(letter) {
                true => out.push(letter),
                false => escape(&mut out, letter.encode_utf8(&mut [0; 4]).as_bytes()),
            }
        }
        escape(&mut out, chunk.invalid());
    }
    out
}

/// The same as a word of a command, as a shell takes it: where something of it is escaped, as bash, zsh and
/// ksh take it.
pub fn word(name: impl AsRef<OsStr>) -> String {
    let (bytes, shown) = (name.as_ref().as_bytes(), file(&name));
    if shown.as_bytes() == bytes {
        return String::from_utf8_lossy(&for_shell(bytes)).into_owned();
    }
    let mut out = String::from("$'");
    for byte in bytes {
        match byte {
            b'\'' | b'\\' => out.extend(['\\', *byte as char]),
            b' '..=b'~' => out.push(*byte as char),
            _ => escape(&mut out, &[*byte]),
        }
    }
    out + "'"
}

/// A path of the image as a word of a command, as PATH is taken.
pub fn path_word(path: &[u8]) -> Vec<u8> {
    for_shell(&shown(path))
}

fn for_shell(word: &[u8]) -> Vec<u8> {
    let plain = |c: char| c.is_alphanumeric() || "_-./+,:@%=".contains(c);
    match std::str::from_utf8(word) {
        Ok(text) if !text.is_empty() && text.chars().all(plain) => word.to_vec(),
        _ => {
            let parts: Vec<&[u8]> = word.split(|&b| b == b'\'').collect();
            [b"'", &parts.join(&br"'\''"[..])[..], b"'"].concat()
        }
    }
}

// Taken -----------------------------------------------------------------------------------

/// The bytes of a name or a path of the command line, or what is wrong with it.
pub fn taken(text: &[u8]) -> Result<Vec<u8>, String> {
    match terminal() {
        _ if are_raw() => Ok(text.to_vec()),
        Terminal::Utf8 => from_text(text),
        Terminal::Other if !text.is_ascii() => Err(format!(
            "\"{}\": the locale's code is neither UTF-8 nor Shift-JIS; bytes can be given as \\xHH, or with \
             --bytes",
            file(OsStr::from_bytes(text))
        )),
        _ => from_escaped(text),
    }
}

/// The same for one in a file, which is UTF-8 whatever the terminal takes.
pub fn read(text: &[u8]) -> Result<Vec<u8>, String> {
    if are_raw() { Ok(text.to_vec()) } else { from_text(text) }
}

/// The bytes of a path in quotes that the text begins with, and where the text goes on; or where something is
/// wrong with it, and what. In quotes `\xHH` is any byte, and `\\` and `\"` stand for themselves.
pub fn unquoted(text: &[u8]) -> Result<(Vec<u8>, usize), (usize, String)> {
    const KNOWN: &str = "in quotes a \\ is one of \\\\, \\\" and \\xHH";
    let (mut bytes, mut at) = (Vec::new(), 1);
    loop {
        let rest = &text[at..];
        let len = match rest {
            [] => return Err((0, "the quote is not ended".into())),
            [b'"', ..] => return Ok((bytes, at + 1)),
            [0, ..] => return Err((at, ZERO.into())),
            [b'\\', byte @ (b'"' | b'\\'), ..] => {
                bytes.push(*byte);
                2
            }
            [b'\\', ..] => match hex_byte(rest) {
                Some(0) => return Err((at, ZERO.into())),
                Some(byte) => {
                    bytes.push(byte);
                    ESCAPE
                }
                None => return Err((at, KNOWN.into())),
            },
            _ if are_raw() => {
                let (unit, _) = unit(rest).unwrap_or_default();
                bytes.extend(unit);
                unit.len()
            }
            _ => {
                let letter = first_letter(rest).ok_or_else(|| (at, "this is no UTF-8".into()))?;
                match letter.is_ascii() {
                    true => bytes.push(letter as u8),
                    false => bytes.extend(bytes_of(letter).map_err(|why| (at, why))?),
                }
                letter.len_utf8()
            }
        };
        at += len;
    }
}

/// What is said of a zero byte in a path.
pub const ZERO: &str = "a zero byte, which no path has";

fn first_letter(text: &[u8]) -> Option<char> {
    // No letter is longer.
    text[..text.len().min(4)].utf8_chunks().next()?.valid().chars().next()
}

/// Bytes as far as they are taken.
#[derive(Default)]
struct Taken {
    bytes: Vec<u8>,
    /// The last one, if it is a lead byte that has no trail byte yet.
    lead: Option<u8>,
}

impl Taken {
    /// Takes what was typed as it is. Of a lead byte that was given as `\xHH` it is the trail byte where it
    /// can be; but a character from 0x80 on is one by itself, and not half of it is meant.
    fn typed(&mut self, bytes: &[u8]) -> Result<(), String> {
        if let Some(lead) = self.lead
            && bytes[0] >= 0x80
            && is_pair(lead, bytes[0])
        {
            return Err(format!("\\x{lead:02x} is a lead byte: give its trail byte as \\xHH too"));
        }
        self.push(bytes);
        Ok(())
    }

    fn is_trail(&self, byte: u8) -> bool {
        self.lead.is_some_and(|lead| is_pair(lead, byte))
    }

    fn push(&mut self, bytes: &[u8]) {
        for &byte in bytes {
            self.lead = (!self.is_trail(byte) && is_lead(byte)).then_some(byte);
            self.bytes.push(byte);
        }
    }

    /// Takes `\xHH`, if the text begins with it: a byte from 0x80 on, or one below that where it is the
    /// trail byte of the lead byte before it. Any other `\` is a separator, as it always was.
    fn escape(&mut self, text: &[u8]) -> bool {
        let Some(byte) = hex_byte(text) else { return false };
        let meant = byte >= 0x80 || self.is_trail(byte);
        if meant {
            self.push(&[byte]);
        }
        meant
    }
}

/// Length of `\xHH`.
const ESCAPE: usize = 4;

/// The byte of a `\xHH` that the text begins with.
fn hex_byte(text: &[u8]) -> Option<u8> {
    let digit = |c: u8| (c as char).to_digit(16);
    let [b'\\', b'x', high, low, ..] = *text else { return None };
    Some((16 * digit(high)? + digit(low)?) as u8)
}

/// The bytes of text.
pub fn from_text(text: &[u8]) -> Result<Vec<u8>, String> {
    let named = || file(OsStr::from_bytes(text));
    let text = std::str::from_utf8(text).map_err(|_| {
        format!("\"{}\" is no UTF-8; bytes can be given as \\xHH, or with --bytes", named())
    })?;
    let (mut taken, mut rest) = (Taken::default(), text);
    while let Some(letter) = rest.chars().next() {
        if taken.escape(rest.as_bytes()) {
            rest = &rest[ESCAPE..];
            continue;
        }
        let bytes = match letter.is_ascii() {
            true => Ok(vec![letter as u8]),
            false => bytes_of(letter),
        };
        let told = bytes.and_then(|bytes| taken.typed(&bytes));
        told.map_err(|why| format!("\"{}\": {why}", one_line(text)))?;
        rest = &rest[letter.len_utf8()..];
    }
    Ok(taken.bytes)
}

/// The bytes of what a Shift-JIS terminal gives: bytes as they are, with escapes between them.
fn from_escaped(text: &[u8]) -> Result<Vec<u8>, String> {
    let (mut taken, mut rest) = (Taken::default(), text);
    while let Some((unit, after)) = unit(rest) {
        if taken.escape(rest) {
            rest = &rest[ESCAPE..];
            continue;
        }
        taken.typed(unit).map_err(|why| format!("\"{}\": {why}", escaped(text)))?;
        rest = after;
    }
    Ok(taken.bytes)
}

#[cfg(test)]
mod tests {
    use super::*;

    /// Whatever stands beside what, text and escapes lead back to the bytes.
    #[test]
    fn what_is_spelt_is_read_back() {
        let mut state = 0x2545_F491_4F6C_DD1Du64;
        let mut next = |below: u64| {
            state ^= state << 13;
            state ^= state >> 7;
            state ^= state << 17;
            (state % below) as usize
        };
        const BYTES: &[u8] =
            b"\x81\x95\xe0\xed\xfc\x5c\x40\x7e\xad\xb1\xdf\x80\xa0\xfdAax8105c/.: ";
        let mut tried = 0;
        for _ in 0..100_000 {
            let bytes: Vec<u8> = (0..next(8)).map(|_| BYTES[next(BYTES.len() as u64)]).collect();
            // Where `\` cuts, `x81` behind it would be taken for an escape: no name has one.
            if units(&bytes).any(|unit| unit == b"\\") {
                continue;
            }
            assert_eq!(from_text(text(&bytes).as_bytes()), Ok(bytes.clone()), "{bytes:x?}");
            assert_eq!(from_text(escaped(&bytes).as_bytes()), Ok(bytes.clone()), "{bytes:x?}");
            assert_eq!(from_escaped(escaped(&bytes).as_bytes()), Ok(bytes.clone()));
            assert_eq!(from_escaped(&bytes), Ok(bytes));
            tried += 1;
        }
        assert!(tried > 50_000, "{tried}");
    }

    /// The letters of the published table (CP932.TXT of the Unicode Consortium), by their characters.
    #[test]
    fn names_that_differ_in_case_only_are_alike() {
        let alike = |a: &str, b: &str| {
            let [a, b] = [a, b].map(|name| from_text(name.as_bytes()).unwrap());
            !super::alike([(0, &a[..]), (0, &b[..])].into_iter()).is_empty()
        };
        let capitals = ["ABCXYZ", "ＡＢＣＭＮＸＹＺ", "ΑΒΓΜΝΧΨΩ", "АБЕЁМНОПЭЮЯ"];
        for name in capitals {
            for letter in name.chars() {
                let small = letter.to_lowercase().to_string();
                assert!(alike(&letter.to_string(), &small), "{letter}");
                assert!(alike(&small, &format!("{letter}")), "{letter}");
                assert!(!alike(&small, &small), "{letter}");
            }
            assert!(alike(&format!("/x{name}表.bin"), &format!("/X{}表.BIN", name.to_lowercase())));
        }
        // ア and ヂ, 0x8341 and 0x8361: byte by byte a capital A and a small one.
        assert!(alike("ア", "ヂ"));
        for (a, b) in [("a", "b"), ("A", "Ａ"), ("あ", "ア"), ("ｱ", "ア"), ("А", "П"), ("a", "a.")]
        {
            assert!(!alike(a, b), "{a} {b}");
        }
        // Of one folder, the first of them; an equal name is another matter.
        let names: [(u32, &[u8]); 7] =
            [(0, b"a"), (1, b"A"), (0, b"b"), (0, b"A"), (0, b"a"), (1, b"a"), (0, b"B")];
        assert_eq!(super::alike(names.into_iter()), [(0, 3), (1, 5), (2, 6)]);
    }
}
