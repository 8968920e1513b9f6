//! Why a command did not do what was asked: a refusal with its number, or an error with its exit
//! status.

use crate::cause::cause;
use crate::json::Json;
use crate::names;
use std::fmt;
use std::io;
use std::path::Path;

/// Exit statuses besides 0 and the refusals' numbers.
pub const USAGE: u8 = 64;
pub const DATA: u8 = 65;
pub const NO_INPUT: u8 = 66;
pub const INTERNAL: u8 = 70;
pub const CANNOT_CREATE: u8 = 73;
pub const INPUT_OUTPUT: u8 = 74;
pub const BUSY: u8 = 75;
/// The edit is written and synced, but its answer could not be printed.
pub const UNSAID: u8 = 76;
pub const NOT_ALLOWED: u8 = 77;
/// An edit was cut: the image may hold a part of it, or its record is not written, and there is a
/// journal. The only status with which the image may be neither as it was nor as the edit makes it.
/// (signals.rs has its number too.)
pub const CUT: u8 = 78;

/// The signal that says that nobody reads the output.
const SIGPIPE: u8 = 13;

#[derive(Debug)]
pub enum Failure {
    /// The proved library said no. `what` is what it was asked about, `detail` more than the number, in
    /// words, and `measures` in numbers.
    Refused { number: u32, what: String, detail: Option<String>, measures: Option<Measures> },
    /// Anything else that went wrong.
    Error { status: u8, text: String },
    /// A signal came at a place where the program could stop.
    Signal { number: i32, text: String },
    /// A sheet stopped at a line: why, what became of the others, and that in the fields of an answer.
    Stopped { why: Box<Failure>, then: String, fields: Vec<(&'static str, Json)> },
    /// Whoever read the output went away.
    Pipe,
}

/// What a refusal is about, in numbers.
#[derive(Debug, Clone)]
pub enum Measures {
    /// 26, a table that an edit would write: its size before and after, the maximum, and by how many bytes
    /// it is above.
    Table { before: u64, after: u64, maximum: u64, above: u64 },
    /// 21 of `new`: how large a new master has to be.
    Least(u64),
    /// 21 of `clear`: how long a run can be, 0 where there is room for none.
    Most(u64),
    /// 27, whose edit it is, what that team has taken and what the edit costs it, and by how many bytes both
    /// are above its limit.
    Limit { team: Whose, taken: u32, cost: i64, limit: u32, above: u64 },
    /// 28, whose edit it is and what it costs, the bytes that it would leave free, those that the other teams
    /// have yet to take of their shares, and how many are short.
    Shares { team: Whose, cost: i64, free: u64, others: u64, short: u64 },
}

/// A team.
#[derive(Debug, Clone)]
pub struct Whose {
    pub number: u32,
    pub name: Option<String>,
}

pub type Outcome<T> = Result<T, Failure>;

impl Failure {
    pub fn refused(number: u32, what: impl Into<String>) -> Failure {
        if cause(number).is_none() {
            let text = format!("libcounter answered {number}, which is no number of a cause");
            return Failure::Error { status: INTERNAL, text };
        }
        Failure::Refused { number, what: what.into(), detail: None, measures: None }
    }

    /// The same refusal with more said about it.
    pub fn because(mut self, more: impl Into<String>) -> Failure {
        if let Failure::Refused { detail, .. } = &mut self {
            *detail = Some(more.into());
        }
        self
    }

    /// The same refusal of something that is called otherwise.
    pub fn about(mut self, other: &str) -> Failure {
        if let Failure::Refused { what, .. } = &mut self {
            *what = other.into();
        }
        self
    }

    /// The same refusal with what it is about in numbers.
    pub fn measured(mut self, numbers: Measures) -> Failure {
        if let Failure::Refused { measures, .. } = &mut self {
            *measures = Some(numbers);
        }
        self
    }

    /// The same at a line of a sheet.
    pub fn at(self, line: &str) -> Failure {
        let placed = |words: String| format!("{line}: {words}");
        match self {
            Failure::Refused { number, what, detail, measures } => {
                Failure::Refused { number, what: placed(what), detail, measures }
            }
            Failure::Error { status, text } => Failure::Error { status, text: placed(text) },
            Failure::Signal { number, text } => Failure::Signal { number, text: placed(text) },
            other => other,
        }
    }

    /// The same error with more said behind it.
    pub fn with(self, more: &str) -> Failure {
        match self {
            Failure::Error { status, text } => Failure::Error { status, text: text + more },
            Failure::Signal { number, text } => Failure::Signal { number, text: text + more },
            other => other,
        }
    }

    /// The same with what becomes of a sheet.
    pub fn then(self, then: String, fields: Vec<(&'static str, Json)>) -> Failure {
        Failure::Stopped { why: Box::new(self), then, fields }
    }

    pub fn error(status: u8, text: impl Into<String>) -> Failure {
        Failure::Error { status, text: text.into() }
    }

    pub fn usage(text: impl Into<String>) -> Failure {
        Failure::error(USAGE, text)
    }

    /// An input/output error about a file.
    pub fn file(status: u8, path: &Path, error: &io::Error) -> Failure {
        let text = match error.kind() {
            io::ErrorKind::StorageFull | io::ErrorKind::QuotaExceeded => "the disk is full".into(),
            io::ErrorKind::NotFound => "no such file".into(),
            io::ErrorKind::PermissionDenied => "permission denied".into(),
            io::ErrorKind::AlreadyExists => "is there already, and nothing is overwritten".into(),
            _ => error.to_string(),
        };
        Failure::error(status, format!("{}: {text}", names::file(path)))
    }

    pub fn status(&self) -> u8 {
        match self {
            Failure::Refused { number, .. } => *number as u8,
            Failure::Error { status, .. } => *status,
            Failure::Signal { number, .. } => 128 + *number as u8,
            Failure::Stopped { why, .. } => why.status(),
            Failure::Pipe => 128 + SIGPIPE,
        }
    }

    /// The signal by which the program ends.
    pub fn signal(&self) -> Option<i32> {
        match self {
            Failure::Signal { number, .. } => Some(*number),
            Failure::Stopped { why, .. } => why.signal(),
            Failure::Pipe => Some(SIGPIPE.into()),
            _ => None,
        }
    }
}

impl fmt::Display for Failure {
    fn fmt(&self, f: &mut fmt::Formatter<'_>) -> fmt::Result {
        match self {
            Failure::Refused { number, what, detail, .. } => {
                write!(f, "{what}: refused {number}: {}", cause(*number).unwrap_or_default())?;
                match detail {
                    Some(more) => write!(f, " ({more})"),
                    None => Ok(()),
                }
            }
            Failure::Error { text, .. } | Failure::Signal { text, .. } => f.write_str(text),
            Failure::Stopped { why, then, .. } => write!(f, "{why}{then}"),
            Failure::Pipe => f.write_str("standard output was closed"),
        }
    }
}
