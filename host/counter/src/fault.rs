//! What is said where counter-write could not do what it was asked: a file failed, or it ended. What happened, what
//! state the image is in, what to do next.

use crate::beside;
use crate::failure::{CANNOT_CREATE, CUT, Failure, INPUT_OUTPUT, INTERNAL, NOT_ALLOWED};
use crate::names;
use crate::writer::{Fault, Kind, On};
use std::path::Path;

/// What an edit is about, to be told.
pub struct About<'a> {
    /// The image as it was given, and its place.
    pub name: &'a str,
    pub place: &'a Path,
    pub record: Option<&'a Path>,
    /// How the clip is called.
    pub clip: Option<&'a str>,
    /// The edit in words.
    pub edit: &'a str,
}

const NOTHING: &str = "; nothing was written";

impl About<'_> {
    /// A file failed.
    pub fn failed(&self, fault: &Fault) -> Failure {
        match fault.begun {
            true => self.cut(fault),
            false => self.not_begun(fault),
        }
    }

    /// The same where nothing was written all the same.
    pub fn not_begun(&self, fault: &Fault) -> Failure {
        let why = fault.reason();
        let (status, text) = match fault.on {
            On::Journal | On::Folder => {
                let status = if fault.kind == Kind::Full { INPUT_OUTPUT } else { CANNOT_CREATE };
                let journal = names::file(beside::beside(self.place));
                (status, format!("{journal}: the journal of the edit cannot be written: {why}"))
            }
            On::Clip => (INPUT_OUTPUT, format!("{}: {why}", self.clip.unwrap_or("the clip"))),
            On::Record => (status_of(fault.kind), self.not_recorded(&why)),
            On::Image => (status_of(fault.kind), format!("{}: {why}", self.name)),
        };
        Failure::error(status, text + NOTHING)
    }

    fn cut(&self, fault: &Fault) -> Failure {
        let (image, why) = (names::file(self.place), fault.reason());
        let room = if fault.kind == Kind::Full { "make room on the disk, then " } else { "" };
        Failure::error(
            CUT,
            match fault.on {
                On::Record => format!(
                    "{}. The edit is written and synced, and its journal is kept: `counter recover {image}` writes the \
                 record once that can be done; `counter recover {image} --without-record` leaves the record as it is",
                    self.not_recorded(&why)
                ),
                _ => format!(
                    "{image}: {why}: the image may hold a part of the edit ({}). Nothing is lost: {room}`counter recover \
                 {image}` finishes it",
                    self.edit
                ),
            },
        )
    }

    fn not_recorded(&self, why: &str) -> String {
        let record = self.record.map_or("the record".into(), names::file);
        format!("{record}: the record cannot be written: {why}")
    }

    /// All is on the disk, but for the journal's end.
    pub fn not_closed(&self, fault: &Fault) -> Failure {
        let (journal, image) = (names::file(beside::beside(self.place)), names::file(self.place));
        let text = format!(
            "{journal}: {}: the edit is written and synced, but whether its journal is closed for good is not known; \
             should a power cut bring it back, `counter recover {image}` ends it",
            fault.reason()
        );
        Failure::error(CUT, text)
    }

    /// It ended, or said something else, while it wrote.
    pub fn lost(&self, why: &str) -> Failure {
        let image = names::file(self.place);
        Failure::error(
            CUT,
            format!(
                "{image}: {why}: the image may hold a part of the edit ({}). Nothing is lost: `counter recover {image}` \
             finishes it",
                self.edit
            ),
        )
    }

    /// The same before it wrote.
    pub fn lost_early(&self, why: &str) -> Failure {
        Failure::error(INTERNAL, format!("{why}{NOTHING}"))
    }
}

fn status_of(kind: Kind) -> u8 {
    if kind == Kind::Denied { NOT_ALLOWED } else { INPUT_OUTPUT }
}
