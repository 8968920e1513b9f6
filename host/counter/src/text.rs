//! Numbers and lines as people read them.

use std::fmt::{Display, Write};

/// 1234567 as `1,234,567`.
pub fn grouped(number: u64) -> String {
    let digits = number.to_string();
    let mut out = String::new();
    for (i, digit) in digits.chars().enumerate() {
        if i > 0 && (digits.len() - i).is_multiple_of(3) {
            out.push(',');
        }
        out.push(digit);
    }
    out
}

/// A size in the largest unit that it reaches: `256 B`, `1.5 KiB`, `1.36 GiB`.
pub fn human(size: u64) -> String {
    const UNITS: [(&str, u32); 3] = [("GiB", 30), ("MiB", 20), ("KiB", 10)];
    for (unit, shift) in UNITS {
        let one = 1u64 << shift;
        if size >= one {
            let hundredths = (size as u128 * 100 / one as u128) as u64;
            let (whole, rest) = (hundredths / 100, hundredths % 100);
            return match whole {
                0..=9 if rest != 0 => format!("{whole}.{rest:02} {unit}"),
                0..=99 if rest >= 10 => format!("{whole}.{} {unit}", rest / 10),
                _ => format!("{whole} {unit}"),
            };
        }
    }
    format!("{size} B")
}

/// One line of `name  value`.
pub fn line(out: &mut String, name: &str, value: impl Display) {
    let _ = writeln!(out, "{}", format!("{}{value}", label(name)).trim_end());
}

/// What a line begins with.
pub fn label(name: &str) -> String {
    format!("{name:<17} ")
}

pub fn hex(number: u32) -> String {
    format!("{number:#x}")
}

/// A number as 0x and in base ten.
pub fn both(number: u32) -> String {
    format!("{number:#x} ({})", grouped(number.into()))
}

/// A number of bytes as 0x, in base ten, and in a unit.
pub fn size(number: u64) -> String {
    match number {
        0..1024 => format!("{number:#x} ({})", bytes(number)),
        _ => format!("{number:#x} ({}, {})", bytes(number), human(number)),
    }
}

/// How the i-th section of a program is called.
pub fn section(i: usize) -> String {
    if i < 7 { format!("text{i}") } else { format!("data{}", i - 7) }
}

/// `one` or `many` after the number.
pub fn counted(number: usize, one: &str, many: &str) -> String {
    format!("{} {}", grouped(number as u64), if number == 1 { one } else { many })
}

/// So many bytes.
pub fn bytes(number: u64) -> String {
    counted(number as usize, "byte", "bytes")
}

/// A number as the command line takes it: its digits, their base, and by how many bits K, M or G shifts it.
fn parts(text: &[u8]) -> Option<(&str, u32, u32)> {
    let text = std::str::from_utf8(text).ok()?;
    let (digits, shift) = match text.as_bytes().last() {
        Some(b'K' | b'k') => (&text[..text.len() - 1], 10),
        Some(b'M' | b'm') => (&text[..text.len() - 1], 20),
        Some(b'G' | b'g') => (&text[..text.len() - 1], 30),
        _ => (text, 0),
    };
    let (digits, base) = match digits.strip_prefix("0x").or(digits.strip_prefix("0X")) {
        Some(digits) => (digits, 16),
        None => (digits, 10),
    };
    let sound = !digits.is_empty() && digits.chars().all(|c| c.is_digit(base));
    sound.then_some((digits, base, shift))
}

/// Whether it is written as a number is, be it too large for one.
pub fn is_number(text: &[u8]) -> bool {
    parts(text).is_some()
}

/// A number as the command line takes it: base ten or 0x, then K, M or G for 2^10, 2^20, 2^30.
pub fn number(text: &[u8]) -> Result<u32, String> {
    parsed(text, ", the largest offset and size")
}

/// The same for one that is neither an offset nor a size.
pub fn count(text: &[u8]) -> Result<u32, String> {
    parsed(text, "")
}

/// The same, with what the largest number is.
fn parsed(text: &[u8], what: &str) -> Result<u32, String> {
    let shown = start_of(text);
    let (digits, base, shift) = parts(text).ok_or_else(|| {
        format!("{shown}: a number is wanted, in base ten or with 0x, with K, M or G")
    })?;
    let large = || format!("{shown}: above 2^32 - 1 (4,294,967,295){what}");
    let value = u64::from_str_radix(digits, base).map_err(|_| large())?;
    let value = value.checked_mul(1 << shift).ok_or_else(large)?;
    u32::try_from(value).map_err(|_| large())
}

/// Bytes that may be in any code, for what is said about them: those of the header, and arguments.
pub fn shown(bytes: &[u8]) -> String {
    let mut out = String::new();
    for &b in bytes {
        match b {
            b' '..=b'~' => out.push(b as char),
            _ => out.push_str(&format!("\\x{b:02x}")),
        }
    }
    out
}

/// The same, of which the start is enough.
pub fn start_of(bytes: &[u8]) -> String {
    const MOST: usize = 40;
    match bytes.get(..MOST) {
        Some(start) if bytes.len() > MOST => shown(start) + "...",
        _ => shown(bytes),
    }
}

/// The known word that is nearest to one that was typed, if it is near: one of which it is the start, or that is
/// at most two letters off.
pub fn nearest(typed: &str, known: impl Iterator<Item = &'static str>) -> Option<&'static str> {
    let typed = typed.to_lowercase();
    let off = |word: &str| match word.starts_with(&typed) && typed.len() > 1 {
        true => 0,
        false => letters_off(&typed, word),
    };
    let near = known.map(|word| (off(word), word)).min_by_key(|(off, _)| *off);
    near.filter(|(off, word)| *off <= 2 && *off < word.len().min(typed.len())).map(|near| near.1)
}

/// How many letters have to be put in, taken out, changed or swapped with the next one.
fn letters_off(a: &str, b: &str) -> usize {
    let (a, b): (Vec<char>, Vec<char>) = (a.chars().collect(), b.chars().collect());
    if a.len() > 40 {
        return a.len();
    }
    let mut off = vec![vec![0; b.len() + 1]; a.len() + 1];
    for i in 0..=a.len() {
        for j in 0..=b.len() {
            if i == 0 || j == 0 {
                off[i][j] = i + j;
                continue;
            }
            let changed = usize::from(a[i - 1] != b[j - 1]);
            let mut least = off[i - 1][j - 1] + changed;
            least = least.min(off[i - 1][j] + 1).min(off[i][j - 1] + 1);
            if i > 1 && j > 1 && a[i - 1] == b[j - 2] && a[i - 2] == b[j - 1] {
                least = least.min(off[i - 2][j - 2] + 1);
            }
            off[i][j] = least;
        }
    }
    off[a.len()][b.len()]
}

/// Whether a character takes two columns of a terminal: Unicode's East Asian Width W or F, of those that
/// Shift-JIS has.
pub fn wide(c: char) -> bool {
    matches!(c, '\u{2e80}'..='\u{9fff}' | '\u{f900}'..='\u{faff}' | '\u{ff01}'..='\u{ff60}'
        | '\u{ffe0}'..='\u{ffe6}')
}

/// How many columns of a terminal the text takes.
pub fn width(text: &str) -> usize {
    let columns = |c| match c {
        // What is put over the letter before it.
        '\u{300}'..='\u{36f}' | '\u{3099}' | '\u{309a}' | '\u{fe00}'..='\u{fe0f}' => 0,
        // Hangul and pictures, which no name in an image has.
        '\u{1100}'..='\u{115f}' | '\u{ac00}'..='\u{d7a3}' | '\u{1f300}'..='\u{1faff}' => 2,
        c if wide(c) => 2,
        _ => 1,
    };
    text.chars().map(columns).sum()
}

/// Whether a terminal or a page obeys a character and does not show it: controls, ends of lines, and what turns
/// the direction of writing.
pub fn is_obeyed(c: char) -> bool {
    c.is_control()
        || matches!(c, '\u{61c}' | '\u{200e}' | '\u{200f}' | '\u{2028}'..='\u{202e}')
        || matches!(c, '\u{2066}'..='\u{2069}')
}

/// Text that came from elsewhere, as people may read it in a line: what would be obeyed is told by its bytes, as
/// `\xHH`. All that the program says passes here.
pub fn one_line(text: &str) -> String {
    let mut out = String::new();
    for c in text.chars() {
        match is_obeyed(c) {
            true => out.push_str(&shown(c.encode_utf8(&mut [0; 4]).as_bytes())),
            false => out.push(c),
        }
    }
    out
}

/// Text as XML and HTML take it.
pub fn escape(text: &str) -> String {
    let mut out = String::new();
    for c in text.chars() {
        match c {
            '&' => out.push_str("&amp;"),
            '<' => out.push_str("&lt;"),
            '>' => out.push_str("&gt;"),
            '"' => out.push_str("&quot;"),
            c if is_obeyed(c) => out.push_str(&one_line(&c.to_string())),
            c => out.push(c),
        }
    }
    out
}

/// Seconds since 1970 as a date and a time of day.
pub fn date(seconds: u64) -> String {
    let (days, rest) = (seconds / 86_400, seconds % 86_400);
    // Years of 365.2425 days that begin in March, so that a leap day is the last of its year.
    let days = days + 719_468;
    let (era, day) = (days / 146_097, days % 146_097);
    let year = (day - day / 1_460 + day / 36_524 - day / 146_096) / 365;
    let day = day - (365 * year + year / 4 - year / 100);
    let month = (5 * day + 2) / 153;
    let (day, month) =
        (day - (153 * month + 2) / 5 + 1, if month < 10 { month + 3 } else { month - 9 });
    let year = year + era * 400 + u64::from(month <= 2);
    format!("{year}-{month:02}-{day:02} {:02}:{:02} UTC", rest / 3_600, rest / 60 % 60)
}

#[cfg(test)]
mod tests {
    use super::date;

    /// As `date -u` writes them.
    #[test]
    fn dates() {
        for (seconds, wanted) in [
            (0, "1970-01-01 00:00 UTC"),
            (951_782_399, "2000-02-28 23:59 UTC"),
            (951_782_400, "2000-02-29 00:00 UTC"),
            (1_709_251_199, "2024-02-29 23:59 UTC"),
            (1_794_787_200, "2026-11-16 00:00 UTC"),
            (4_107_542_400, "2100-03-01 00:00 UTC"),
        ] {
            assert_eq!(date(seconds), wanted);
        }
    }
}
