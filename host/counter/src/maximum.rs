//! The maximum that the header states for the table: games on two discs load the table of either into one
//! place in memory. An edit that would write a larger one is refused (26); an image that has one opens.

use crate::call::Call;
use crate::disc::{not_opened, table_anew};
use crate::failure::{Failure, Measures, Outcome};
use crate::header::Header;
use crate::image::{Desk, Image};
use crate::json::Json;
use crate::text::{bytes, grouped, line, size};
use counter_sys::{Memory, Opened, Record};

/// The least that an entry adds to the table: 12 bytes, a name of one, and its zero byte.
pub const LEAST_ENTRY: u64 = 14;

/// Sizes in bytes.
pub struct Maximum {
    /// 0 where the header states none.
    pub stated: u64,
    /// The table's as it is.
    table: u64,
    /// The table's as an edit writes it, each name by itself; not looked for where no maximum is stated, and
    /// none where a limit refuses it (9).
    rewritten: Option<u64>,
}

impl Maximum {
    pub fn read(image: &Image, desk: &mut Desk, opened: &Opened) -> Outcome<Maximum> {
        let header = Header::read(image.bytes()).map_err(|n| not_opened(image, n))?;
        let (stated, table) = (header.fst_maximum().into(), opened.fst_size.into());
        let rewritten = match stated {
            0 => None,
            _ => table_anew(image, desk).ok().map(|anew| anew.len() as u64),
        };
        Ok(Maximum { stated, table, rewritten })
    }

    fn left(&self, size: u64) -> Option<u64> {
        (self.stated > 0).then(|| self.stated.saturating_sub(size))
    }

    fn above(&self, size: u64) -> u64 {
        if self.stated > 0 { size.saturating_sub(self.stated) } else { 0 }
    }

    // What is said ------------------------------------------------------------------------

    pub fn fields(&self) -> [(&'static str, Json); 4] {
        [
            ("fst_left", self.left(self.table).into()),
            ("fst_above", self.above(self.table).into()),
            ("fst_rewritten", self.rewritten.into()),
            ("fst_rewritten_above", self.rewritten.map(|size| self.above(size)).into()),
        ]
    }

    pub fn lines(&self, out: &mut String) {
        line(out, "table", self.held(self.table));
        if let Some(rewritten) = self.rewritten.filter(|&size| size != self.table) {
            line(out, "table, rewritten", self.held(rewritten));
        }
    }

    /// A size held against the maximum.
    fn held(&self, table: u64) -> String {
        let most = grouped(self.stated);
        let words = match (self.left(table), self.above(table)) {
            (None, _) => "no maximum stated".into(),
            (Some(left), 0) => format!("{} left of the maximum of {most}", bytes(left)),
            (_, above) => format!("{} above the maximum of {most}", bytes(above)),
        };
        format!("{}, {words}", size(table))
    }

    /// What an editor should know before the first edit.
    pub fn note(&self) -> Option<String> {
        const ALL_REFUSED: &str = "every edit that writes a table is refused";
        let table = self.table;
        let told = |size| {
            let [above, most] = [self.above(size), self.stated].map(grouped);
            format!("{}, {above} above the maximum of {most} that the header states", bytes(size))
        };
        let Some(rewritten) = self.rewritten else {
            return (self.above(table) > 0).then(|| format!("the table has {}", told(table)));
        };
        match (self.above(table), self.above(rewritten)) {
            (0, 0) => None,
            (0, _) => Some(format!(
                "the table, rewritten with no name shared, has {}; {ALL_REFUSED}",
                told(rewritten)
            )),
            (_, 0) => Some(format!(
                "the table has {}; a rewrite brings it down to {}",
                told(table),
                grouped(rewritten)
            )),
            _ if rewritten == table => {
                Some(format!("the table has {}; {ALL_REFUSED}", told(table)))
            }
            (_, above) => Some(format!(
                "the table has {}; rewritten it would have {}, {} above; {ALL_REFUSED}",
                told(table),
                grouped(rewritten),
                grouped(above)
            )),
        }
    }
}

// Refusals --------------------------------------------------------------------------------

/// The refusal with 26 of an edit, with what it is about: the sizes of the table as it is, of the same
/// written anew, and of the one that the edit would write.
pub fn explained(
    refusal: Failure,
    (table, rewritten, after): (u64, u64, u64),
    maximum: u64,
) -> Failure {
    const MORE: &str = "if the publisher allows it, `counter maximum IMAGE N` states more, or 0 for no \
                        maximum, and the line `header: FST maximum` of LIST gives leave for it";
    let shared = if rewritten > table { ", with no name shared," } else { "" };
    let room = match maximum.checked_sub(rewritten) {
        None => format!("so is every table that an edit would write; {MORE}"),
        Some(..LEAST_ENTRY) => format!("no further entry fits; {MORE}"),
        Some(left) => {
            let room = bytes(left);
            format!("there is room for {room} of new entries, 13 and the name's each; {MORE}")
        }
    };
    let above = after.saturating_sub(maximum);
    let [most, more] = [maximum, above].map(grouped);
    refusal
        .because(format!(
            "the new table{shared} has {}, {more} above the maximum of {most} that the header states at \
             0x42c; {room}",
            bytes(after)
        ))
        .measured(Measures::Table { before: table, after, maximum, above })
}

/// The size of the table that an edit which is refused with 26 would write. Too few working bytes for it are
/// 9, which is tested before 26: so it is the least number of them with which the answer is 26 still.
pub fn new_size(
    call: &Call,
    image: &mut [u8],
    desk: &mut Desk,
    (record, team): (Record, u32),
) -> u64 {
    let (mut short, mut enough) = (0, desk.lend().bytes.len());
    while enough - short > 1 {
        let some = short + (enough - short) / 2;
        let Memory { words, bytes } = desk.lend();
        let memory = Memory { words, bytes: &mut bytes[..some] };
        let mut record = record;
        match call.run(image, memory, &mut record, team) {
            Err(26) => enough = some,
            _ => short = some,
        }
    }
    enough as u64
}
