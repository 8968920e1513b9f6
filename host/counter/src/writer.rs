//! counter-write, the proved program that alone opens an image for writing: started here, asked in lines of words,
//! heard in lines of JSON. It is in a process group of its own, so that Ctrl-C does not cut it, and it ends when
//! nothing more is asked.

use crate::failure::{Failure, INTERNAL, Outcome};
use crate::names;
use crate::os;
use crate::planned::Planned;
use crate::sha256::hex;
use crate::value::Value;
use counter_sys::Record;
use std::env;
use std::ffi::{OsStr, OsString};
use std::fmt::Display;
use std::fs::File;
use std::io::{self, BufRead, BufReader, Write};
use std::os::fd::{AsRawFd, OwnedFd};
use std::os::unix::ffi::OsStrExt;
use std::os::unix::process::{CommandExt, ExitStatusExt};
use std::path::{self, Path, PathBuf};
use std::process::{Child, ChildStdin, ChildStdout, Command, Stdio};

/// How the program is called, and what names another in its place.
const NAME: &str = "counter-write";
const INSTEAD: &str = "COUNTER_WRITE";

/// What it is started for.
#[derive(Clone, Copy)]
pub enum For<'a> {
    /// Edits of the image at this place, which is no link.
    Edits { place: &'a Path, anyway: bool, without_record: bool },
    /// Decisions alone, on what is in this file.
    Decisions(&'a File),
}

pub struct Writer {
    child: Child,
    requests: Option<ChildStdin>,
    answers: BufReader<ChildStdout>,
    /// Requests that are not sent yet.
    early: Vec<u8>,
    /// How long the image is.
    len: u64,
}

pub enum Answer {
    Ready {
        finished: bool,
        note: Vec<u8>,
    },
    Locked,
    InTheWay,
    Old,
    Another,
    Refused(u32),
    Unread,
    Unkept,
    Decided(Box<Planned>),
    Progress(u64),
    Done,
    Declined,
    Failed(Fault),
    /// It ended, or said what is none of these: why.
    Lost(String),
}

/// A file failed.
pub struct Fault {
    pub on: On,
    /// Whether image and record may be others than they were.
    pub begun: bool,
    pub kind: Kind,
    pub why: String,
}

#[derive(Debug, Clone, Copy, PartialEq, Eq)]
pub enum On {
    Image,
    Journal,
    Record,
    Clip,
    Folder,
}

#[derive(Debug, Clone, Copy, PartialEq, Eq)]
pub enum Kind {
    Full,
    Denied,
    Missing,
    Exists,
    Short,
    Other,
}

impl Fault {
    pub fn reason(&self) -> String {
        match (self.kind, self.on) {
            (Kind::Full, _) => "the disk is full".into(),
            (Kind::Short, On::Clip) => "it became shorter meanwhile".into(),
            (Kind::Missing, _) => "no such file".into(),
            _ => self.why.clone(),
        }
    }
}

/// A file that the program inherits, and finds by this name.
pub struct Lent(OwnedFd);

impl Lent {
    pub fn new(file: &File) -> io::Result<Lent> {
        os::lend(file).map(Lent)
    }

    fn name(&self) -> String {
        format!("/proc/self/fd/{}", self.0.as_raw_fd())
    }
}

impl Writer {
    /// Starts it, with a clip for it to read if there is one.
    pub fn start(what: For, len: u64, clip: Option<&Lent>) -> Outcome<Writer> {
        let program = program();
        let mut command = Command::new(&program);
        let failed = |why: io::Error| not_started(&program, &why);
        // As long as this is there, the program may inherit it.
        let _clip = clip;
        let mut image = None;
        match what {
            For::Edits { place, anyway, without_record } => {
                let folder = place.parent().unwrap_or(Path::new("/"));
                let flags = [(anyway, "--anyway"), (without_record, "--without-record")];
                command
                    .args(flags.into_iter().filter(|(given, _)| *given).map(|(_, flag)| flag))
                    .arg(name_of(place)?)
                    .current_dir(folder);
            }
            For::Decisions(file) => {
                let lent = image.insert(Lent::new(file).map_err(failed)?);
                command.args(["--dry-run", &lent.name()]);
            }
        }
        command.stdin(Stdio::piped()).stdout(Stdio::piped()).process_group(0);
        let mut child = command.spawn().map_err(failed)?;
        let requests = child.stdin.take();
        let answers = BufReader::new(child.stdout.take().expect("it is a pipe"));
        Ok(Writer { child, requests, answers, early: Vec::new(), len })
    }

    // What is asked -----------------------------------------------------------------------

    fn ask(&mut self, words: impl Display) {
        let _ = writeln!(self.early, "{words}");
    }

    /// What whoever finishes the next edits should know of them.
    pub fn note(&mut self, note: &[u8]) {
        self.ask(format_args!("note {}", digits(note)));
    }

    /// The record's file that goes with the next edits, and the teams that its text names.
    pub fn record<'a>(
        &mut self,
        file: Option<&Path>,
        teams: impl Iterator<Item = (u32, Option<&'a str>)>,
    ) {
        let file = file.map_or(&b""[..], |file| file.as_os_str().as_bytes());
        self.ask(format_args!("record {}", digits(file)));
        for (number, name) in teams {
            let name = digits(name.unwrap_or_default().as_bytes());
            self.ask(format_args!("listed {number} {name}"));
        }
    }

    pub fn totals(&mut self, record: &Record) {
        let words = record.slots().map(|word| word.to_string());
        self.ask(format_args!("totals {}", words.join(" ")));
    }

    pub fn clip(&mut self, clip: &Lent, start: u64, len: u64) {
        self.ask(format_args!("clip {start} {len} {}", digits(clip.name().as_bytes())));
    }

    /// An edit, in the words that ask for it.
    pub fn edit(&mut self, words: &str) {
        self.ask(words);
    }

    pub fn go(&mut self) {
        self.ask("go");
    }

    pub fn stop(&mut self) {
        self.ask("stop");
    }

    // What is heard -----------------------------------------------------------------------

    /// Sends what was asked, and waits for an answer.
    pub fn answer(&mut self) -> Answer {
        if let Some(requests) = &mut self.requests {
            // Whoever does not listen any more has said why, or ended.
            let _ = requests.write_all(&self.early);
            self.early.clear();
        }
        let mut line = String::new();
        match self.answers.read_line(&mut line) {
            Ok(0) => Answer::Lost(self.ended()),
            Ok(_) => self.read(&line).unwrap_or_else(|| {
                Answer::Lost(format!("{NAME} answers otherwise than counter expects"))
            }),
            Err(why) => Answer::Lost(format!("{NAME}: {why}")),
        }
    }

    fn read(&self, line: &str) -> Option<Answer> {
        let value = Value::read(line.strip_suffix('\n')?)?;
        let number = |name: &str| value.get(name)?.number();
        let text = |name: &str| value.get(name)?.text();
        Some(match text("answer")? {
            "ready" => {
                let finished = match text("found")? {
                    "nothing" => false,
                    "finished" => true,
                    _ => return None,
                };
                Answer::Ready { finished, note: value.get("note")?.bytes()? }
            }
            "locked" => Answer::Locked,
            "in_the_way" => Answer::InTheWay,
            "old" => Answer::Old,
            "another" => Answer::Another,
            "refused" => Answer::Refused(number("number")?.try_into().ok()?),
            "unread" => Answer::Unread,
            "unkept" => Answer::Unkept,
            "decided" => Answer::Decided(Box::new(Planned::read(&value, self.len)?)),
            "progress" => Answer::Progress(number("bytes")?),
            "done" => Answer::Done,
            "declined" => Answer::Declined,
            "failed" => Answer::Failed(Fault {
                on: on(text("on")?)?,
                begun: value.get("begun")?.flag()?,
                kind: kind(text("kind")?),
                why: text("why")?.into(),
            }),
            _ => return None,
        })
    }

    /// Asks nothing more, and waits until it has ended.
    pub fn end(&mut self) {
        drop(self.requests.take());
        let _ = self.child.wait();
    }

    /// The same, and says how it ended.
    fn ended(&mut self) -> String {
        drop(self.requests.take());
        let how = match self.child.wait() {
            Err(why) => why.to_string(),
            Ok(status) => match (status.signal(), status.code()) {
                (Some(signal), _) => format!("signal {signal}"),
                (None, code) => format!("status {}", code.unwrap_or_default()),
            },
        };
        format!("{NAME} ended without an answer ({how})")
    }
}

/// Its journal goes when nothing more is asked, and with it its lock.
impl Drop for Writer {
    fn drop(&mut self) {
        self.end();
    }
}

fn on(text: &str) -> Option<On> {
    Some(match text {
        "image" => On::Image,
        "journal" => On::Journal,
        "record" => On::Record,
        "clip" => On::Clip,
        "folder" => On::Folder,
        _ => return None,
    })
}

fn kind(text: &str) -> Kind {
    match text {
        "full" => Kind::Full,
        "denied" => Kind::Denied,
        "missing" => Kind::Missing,
        "exists" => Kind::Exists,
        "short" => Kind::Short,
        _ => Kind::Other,
    }
}

/// Bytes in a request.
pub fn digits(bytes: &[u8]) -> String {
    if bytes.is_empty() { "-".into() } else { hex(bytes) }
}

/// The program beside this one.
fn program() -> PathBuf {
    if let Some(other) = env::var_os(INSTEAD).filter(|other| !other.is_empty()) {
        // It is started in another folder.
        return path::absolute(&other).unwrap_or(other.into());
    }
    let beside = env::current_exe().map(|counter| counter.with_file_name(NAME));
    beside.unwrap_or(NAME.into())
}

fn not_started(program: &Path, why: &io::Error) -> Failure {
    let why = match why.kind() {
        io::ErrorKind::NotFound => "no such file".into(),
        _ => why.to_string(),
    };
    let text = format!(
        "{}: this program, which writes to images, cannot be started: {why}. It belongs beside counter; nothing \
         was written",
        names::file(program)
    );
    Failure::error(INTERNAL, text)
}

/// The name by which it finds the image. It is the last argument, so it may look like a flag.
fn name_of(place: &Path) -> Outcome<OsString> {
    let name = place.file_name().unwrap_or(OsStr::new(""));
    match name.to_str() {
        Some(name) => Ok(name.into()),
        None => Err(not_utf8(place, "an image whose name")),
    }
}

/// What has a name that the program cannot be told.
pub fn not_utf8(path: &Path, what: &str) -> Failure {
    let text = format!(
        "{}: {what} is no UTF-8 cannot be written to; give it another name",
        names::file(path)
    );
    Failure::usage(text)
}

#[cfg(test)]
mod tests {
    use super::*;

    /// A program that says these lines, whatever it is asked.
    fn saying(lines: &str) -> Writer {
        let mut command = Command::new("/bin/sh");
        command.args(["-c", &format!("printf '%s' '{lines}'; exec cat > /dev/null")]);
        command.stdin(Stdio::piped()).stdout(Stdio::piped()).process_group(0);
        let mut child = command.spawn().unwrap();
        let requests = child.stdin.take();
        let answers = BufReader::new(child.stdout.take().unwrap());
        Writer { child, requests, answers, early: Vec::new(), len: 0x2000 }
    }

    #[test]
    fn answers_are_heard() {
        let mut writer = saying(
            "{\"answer\":\"ready\",\"found\":\"finished\",\"note\":\"7b7d\"}\n\
             {\"answer\":\"refused\",\"number\":21}\n\
             {\"answer\":\"failed\",\"on\":\"image\",\"begun\":true,\"kind\":\"full\",\"why\":\"no space\"}\n\
             {\"answer\":\"progress\",\"bytes\":16777216}\n\
             {\"answer\":\"done\",\"number\":0}\n\
             {\"answer\":\"ready\"}\n",
        );
        assert!(matches!(writer.answer(), Answer::Ready { finished: true, note } if note == b"{}"));
        assert!(matches!(writer.answer(), Answer::Refused(21)));
        let Answer::Failed(fault) = writer.answer() else { panic!("it did not fail") };
        assert_eq!((fault.on, fault.begun, fault.kind), (On::Image, true, Kind::Full));
        assert_eq!(fault.reason(), "the disk is full");
        assert!(matches!(writer.answer(), Answer::Progress(0x100_0000)));
        assert!(matches!(writer.answer(), Answer::Done));
        assert!(matches!(writer.answer(), Answer::Lost(_)));
    }

    #[test]
    fn an_end_without_an_answer_is_told() {
        let mut writer = saying("{\"answer\":\"locked\"}\n");
        assert!(matches!(writer.answer(), Answer::Locked));
        drop(writer.requests.take());
        let Answer::Lost(why) = writer.answer() else { panic!("it answered") };
        assert_eq!(why, "counter-write ended without an answer (status 0)");
    }

    #[test]
    fn names_and_bytes_are_given() {
        assert_eq!(name_of(Path::new("/a/disc.iso")).unwrap(), "disc.iso");
        assert!(name_of(Path::new(OsStr::from_bytes(b"/a/\xFF.iso"))).is_err());
        assert_eq!((digits(b""), digits(b"ab")), ("-".into(), "6162".into()));
    }
}
