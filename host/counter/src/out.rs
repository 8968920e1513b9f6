//! What the program says: answers on standard output, everything else on standard error.

use crate::failure::{Failure, INPUT_OUTPUT, Outcome};
use crate::names::for_terminal;
use crate::text::one_line;
use std::fmt::Arguments;
use std::io::{self, Write};

/// As in std, but for one thing: nobody may be there to hear it, and that ends nothing.
macro_rules! eprintln {
    ($($words:tt)*) => { $crate::out::complain(format_args!("{}\n", format_args!($($words)*))) };
}

/// The same without a line feed.
macro_rules! eprint {
    ($($words:tt)*) => { $crate::out::complain(format_args!($($words)*)) };
}

/// Writes to standard error, if that can be done. Nothing in it is obeyed but the ends of its lines.
pub fn complain(words: Arguments) {
    let words = words.to_string();
    let lines: Vec<String> = words.split('\n').map(one_line).collect();
    let words = for_terminal(&lines.join("\n"));
    let mut err = io::stderr().lock();
    let _ = err.write_all(words.as_bytes()).and_then(|()| err.flush());
}

/// Writes to standard output.
pub fn say(bytes: &[u8]) -> Outcome<()> {
    let mut out = io::stdout().lock();
    out.write_all(bytes).and_then(|()| out.flush()).map_err(|e| match e.kind() {
        io::ErrorKind::BrokenPipe => Failure::Pipe,
        io::ErrorKind::StorageFull => {
            Failure::error(INPUT_OUTPUT, "standard output: the disk is full")
        }
        _ => Failure::error(INPUT_OUTPUT, format!("standard output: {e}")),
    })
}
