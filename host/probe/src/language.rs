//! Words of a command line, and how bytes and numbers are written in it.

use counter_sys::{TEAMS, Team};

/// Why a command has no plain answer.
pub enum Stop {
    /// Counter refused: the number of the cause.
    Refused(u32),
    /// The same of a sheet, with the number of a line.
    AtLine(u32, u32),
    /// A call left something in a state that it must not.
    Dirty(&'static str),
    /// The command line is wrong.
    Usage(&'static str),
}

pub type Answer<T> = Result<T, Stop>;

pub struct Words<'a>(pub std::str::SplitAsciiWhitespace<'a>);

impl<'a> Words<'a> {
    pub fn text(&mut self) -> Answer<&'a str> {
        self.0.next().ok_or(Stop::Usage("a word is missing"))
    }

    /// A word behind which there is none.
    pub fn last(&mut self) -> Answer<&'a str> {
        let text = self.text()?;
        self.end().map(|()| text)
    }

    pub fn number(&mut self) -> Answer<u64> {
        number(self.text()?)
    }

    pub fn size(&mut self) -> Answer<usize> {
        size(self.text()?)
    }

    /// A size, or `-` where none is named.
    pub fn size_or_none(&mut self) -> Answer<Option<usize>> {
        match self.text()? {
            "-" => Ok(None),
            text => size(text).map(Some),
        }
    }

    pub fn word(&mut self) -> Answer<u32> {
        word(self.text()?)
    }

    /// Numbers of 32 bits parted by commas; `-` stands for none.
    pub fn list(&mut self) -> Answer<Vec<u32>> {
        match self.text()? {
            "-" => Ok(vec![]),
            text => text.split(',').map(word).collect(),
        }
    }

    /// A number of 32 bits for each team, team 0 first, parted by commas; 0 for those that are not named, and
    /// `-` or nothing names none.
    pub fn of_teams(&mut self) -> Answer<[u32; TEAMS]> {
        let named = match self.0.next().unwrap_or("-") {
            "-" => vec![],
            text => text.split(',').map(word).collect::<Answer<_>>()?,
        };
        let mut all = [0; TEAMS];
        all.get_mut(..named.len()).ok_or(Stop::Usage("too many teams"))?.copy_from_slice(&named);
        Ok(all)
    }

    /// All other words, `LIMIT:SHARE:TAKEN:EDITS` for each team, team 0 first; 0 for those that are not named.
    pub fn teams(&mut self) -> Answer<[Team; TEAMS]> {
        let mut all = [Team::default(); TEAMS];
        for (place, text) in all.iter_mut().zip(self.0.by_ref()) {
            *place = team(text)?;
        }
        self.end()?;
        Ok(all)
    }

    /// Bytes in hexadecimal; `-` or nothing stands for none.
    pub fn bytes(&mut self) -> Answer<Vec<u8>> {
        unhex(self.0.next().unwrap_or("-"))
    }

    /// The same where a word has to be there: `-` stands for none.
    pub fn named_bytes(&mut self) -> Answer<Vec<u8>> {
        unhex(self.text()?)
    }

    pub fn end(&mut self) -> Answer<()> {
        if self.0.next().is_none() { Ok(()) } else { Err(Stop::Usage("too many words")) }
    }
}

pub fn number(text: &str) -> Answer<u64> {
    match text.strip_prefix("0x") {
        Some(digits) => u64::from_str_radix(digits, 16),
        None => text.parse(),
    }
    .map_err(|_| Stop::Usage("not a number"))
}

fn word(text: &str) -> Answer<u32> {
    u32::try_from(number(text)?).map_err(|_| Stop::Usage("above 32 bits"))
}

fn team(text: &str) -> Answer<Team> {
    let numbers = text.split(':').map(word).collect::<Answer<Vec<_>>>()?;
    match numbers[..] {
        [limit, share, taken, edits] => Ok(Team { limit, share, taken, edits }),
        _ => Err(Stop::Usage("a team is LIMIT:SHARE:TAKEN:EDITS")),
    }
}

fn size(text: &str) -> Answer<usize> {
    Ok(usize::try_from(number(text)?).unwrap_or(usize::MAX))
}

pub fn signed(text: &str) -> Answer<i64> {
    text.parse().map_err(|_| Stop::Usage("not a distance"))
}

fn unhex(text: &str) -> Answer<Vec<u8>> {
    if text == "-" {
        return Ok(vec![]);
    }
    let digit = |c: u8| (c as char).to_digit(16).map(|d| d as u8);
    let bytes = text.as_bytes();
    if !bytes.len().is_multiple_of(2) {
        return Err(Stop::Usage("odd hexadecimal"));
    }
    bytes
        .chunks(2)
        .map(|c| Some(digit(c[0])? << 4 | digit(c[1])?))
        .collect::<Option<_>>()
        .ok_or(Stop::Usage("not hexadecimal"))
}

pub fn hex(bytes: &[u8]) -> String {
    const DIGITS: &[u8; 16] = b"0123456789abcdef";
    if bytes.is_empty() {
        return "-".into();
    }
    let mut out = String::with_capacity(2 * bytes.len());
    for b in bytes {
        out.push(DIGITS[usize::from(b >> 4)] as char);
        out.push(DIGITS[usize::from(b & 15)] as char);
    }
    out
}

/// FNV-1a of 64 bits, carried on from `hash`.
pub fn fnv(hash: u64, bytes: &[u8]) -> u64 {
    bytes.iter().fold(hash, |h, b| (h ^ u64::from(*b)).wrapping_mul(0x100000001b3))
}

pub const FNV_START: u64 = 0xcbf29ce484222325;
