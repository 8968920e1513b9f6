//! What a rewrite would make of an image: the table that it writes, and what it alters. It is tried on a
//! private copy.

use crate::account::Turn;
use crate::call::{Call, Wish, refused};
use crate::cause::cause;
use crate::disc::{Disc, table_anew, table_end};
use crate::explain;
use crate::failure::{Failure, INPUT_OUTPUT, INTERNAL, Outcome};
use crate::image::{Desk, Image};
use crate::json::Json;
use crate::record::fresh;
use crate::stored::{self, Departure, departure, first_difference, what_lies_at};
use crate::text::{counted, grouped};

pub struct Anew {
    /// The table that a rewrite writes, or the number with which a limit refuses it (9).
    pub table: Result<Vec<u8>, u32>,
    /// Where the table as it is begins to be another, and what lies there.
    departs: Option<(u64, String)>,
    rewrite: Rewrite,
}

/// What becomes of a rewrite.
enum Rewrite {
    Done(Altered),
    /// Nothing is altered: the number, and more in words.
    Refused(u32, String),
    /// No private copy is to be had: why.
    Untried(String),
}

/// What a rewrite alters of an image, whose only other bytes that it writes are the table's size in the
/// header.
struct Altered {
    /// How many bytes are others afterwards, from the table's start to the end of the longer table, old
    /// or new. They are the image's: behind a shorter old table those that lie there, behind a shorter
    /// new one zeros. So where zeros stand behind the names, the first lies behind the place where the
    /// table departs, or there is none.
    bytes: usize,
    /// Where the first of them is, and what lies there.
    first: Option<(u64, String)>,
    /// The table's size before and after.
    sizes: (u32, u32),
}

impl Anew {
    pub fn read(image: &Image, desk: &mut Desk, disc: &Disc) -> Outcome<Anew> {
        let (table, fst) = (table_anew(image, desk), disc.fst());
        let departs = match departure(image, fst, &table) {
            Departure::At(at) => {
                Some((at, what_lies_at(at, fst.0.into(), stored::table(image, fst))))
            }
            Departure::None | Departure::Refused(_) => None,
        };
        let rewrite = match &table {
            Ok(table) => tried(table, image, desk, disc)?,
            Err(number) => refusal(refused(&Wish::Rewrite, *number))?,
        };
        Ok(Anew { table, departs, rewrite })
    }

    pub fn alters_nothing(&self) -> bool {
        matches!(&self.rewrite, Rewrite::Done(altered) if altered.is_nothing())
    }

    /// What an editor should know of it.
    pub fn notes(&self) -> Vec<String> {
        let told = match &self.rewrite {
            Rewrite::Done(_) if self.alters_nothing() => return Vec::new(),
            Rewrite::Done(_) => {
                let anew = "every edit that writes the table writes it anew";
                return vec![format!("{}; {anew}", self.words())];
            }
            // That is told with the maximum.
            Rewrite::Refused(26, _) => None,
            Rewrite::Refused(number, why) => Some(all_refused(*number, why)),
            Rewrite::Untried(_) => Some(self.words()),
        };
        let departs = self.departs.as_ref().map(|(at, what)| {
            format!("what a rewrite would write differs from the table first at {at:#x}, {what}")
        });
        departs.into_iter().chain(told).collect()
    }

    /// Where it is refused, and with it every edit that writes the table: the number, and more in words.
    pub fn refusal(self) -> Option<(u32, String)> {
        match self.rewrite {
            Rewrite::Refused(number, why) => Some((number, why)),
            Rewrite::Done(_) | Rewrite::Untried(_) => None,
        }
    }

    /// What becomes of the image, in words.
    pub fn words(&self) -> String {
        match &self.rewrite {
            Rewrite::Done(_) if self.alters_nothing() => "a rewrite would alter nothing".into(),
            Rewrite::Done(altered) => format!("a rewrite would alter {}", altered.words()),
            Rewrite::Refused(number, why) => {
                let cause = cause(*number).unwrap_or_default();
                format!("a rewrite is refused {number}: {cause} ({why}); the table stays as it is")
            }
            Rewrite::Untried(why) => format!("a rewrite could not be tried: {why}"),
        }
    }

    pub fn fields(&self) -> Vec<(&'static str, Json)> {
        let (altered, refusal, detail) = match &self.rewrite {
            Rewrite::Done(altered) => (Some(altered), None, None),
            Rewrite::Refused(number, why) => (None, Some(*number), Some(why)),
            Rewrite::Untried(why) => (None, None, Some(why)),
        };
        let at = |place: &Option<(u64, String)>| place.as_ref().map(|(at, _)| *at);
        vec![
            ("rewrite_alters_at", at(&self.departs).into()),
            ("rewrite_refused", self.table.as_ref().err().copied().into()),
            ("rewrite_alters_bytes", altered.map(|altered| altered.bytes).into()),
            ("rewrite_first_altered", altered.and_then(|altered| at(&altered.first)).into()),
            ("rewrite_size", self.table.as_ref().ok().map(Vec::len).into()),
            ("rewrite_refusal", refusal.into()),
            ("rewrite_cause", refusal.and_then(cause).into()),
            ("rewrite_detail", detail.cloned().into()),
        ]
    }
}

impl Altered {
    fn is_nothing(&self) -> bool {
        self.bytes == 0 && self.sizes.0 == self.sizes.1
    }

    fn words(&self) -> String {
        let (old, new) = self.sizes;
        let sizes = format!("its size, {} -> {} bytes", grouped(old.into()), grouped(new.into()));
        let Some((at, what)) = &self.first else {
            return format!("no byte of the table, only {sizes}");
        };
        let bytes = counted(self.bytes, "byte", "bytes");
        let size = if old == new { String::new() } else { format!(", and {sizes}") };
        format!("{bytes} of the table, first at {at:#x}, {what}{size}")
    }
}

/// `copy` is the image after it.
fn altered(image: &Image, copy: &Image, before: &Disc, after: &Disc) -> Altered {
    let (start, old_size) = before.fst();
    let end = table_end(&before.opened).max(table_end(&after.opened));
    let part = |image: &Image| image.bytes()[start as usize..end as usize].to_vec();
    let (old, new) = (part(image), part(copy));
    let table = &old[..old_size as usize];
    let first = first_difference(&old, &new).map(|at| u64::from(start) + at as u64);
    Altered {
        bytes: old.iter().zip(&new).filter(|(old, new)| old != new).count(),
        first: first.map(|at| (at, what_lies_at(at, start.into(), table))),
        sizes: (old_size, after.opened.fst_size),
    }
}

/// The rewrite that is to write this table.
fn tried(table: &[u8], image: &Image, desk: &mut Desk, disc: &Disc) -> Outcome<Rewrite> {
    let turn = Turn { account: fresh(image, desk)?, team: 0 };
    let call = Call::new(&Wish::Rewrite, image, desk)?;
    let mut copy = match image.trial(&[], &[]) {
        Err(Failure::Error { status: INPUT_OUTPUT, text }) => return Ok(Rewrite::Untried(text)),
        copy => copy?,
    };
    let mut record = turn.account.record;
    match call.run(copy.bytes_mut(), desk.lend(), &mut record, turn.team) {
        Ok(()) => {}
        Err(21) => return refusal(refused(&Wish::Rewrite, 21).because(format!(
            "with no name shared the table has {}, and what lies behind it leaves no room for them",
            counted(table.len(), "byte", "bytes")
        ))),
        Err(number) => {
            let edit = (&Wish::Rewrite, &call);
            return refusal(explain::refusal(number, edit, &mut copy, desk, disc, &turn));
        }
    }
    let after = Disc::read(&copy, desk)?;
    match stored::table(&copy, after.fst()) == table {
        true => Ok(Rewrite::Done(altered(image, &copy, disc, &after))),
        false => {
            let text = format!("{}: libcounter writes another table than it tells", image.name);
            Err(Failure::error(INTERNAL, text))
        }
    }
}

/// What a rewrite's refusal says of other edits.
pub fn all_refused(number: u32, why: &str) -> String {
    let cause = cause(number).unwrap_or_default();
    format!("a rewrite, and every edit that writes the table, is refused {number} ({cause}): {why}")
}

fn refusal(failure: Failure) -> Outcome<Rewrite> {
    match failure {
        Failure::Refused { number, detail, .. } => {
            Ok(Rewrite::Refused(number, detail.unwrap_or_default()))
        }
        other => Err(other),
    }
}
