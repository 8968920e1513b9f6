//! Counter behind the oracle's command language: one command a line on standard input, one answer
//! line each. The language is that of oracle/README.md, with these commands more:
//!
//! - `clusters`: `ok` and, for each free region, rising, `BEFORE:CLUSTERS:REST`: the bytes before
//!   its first multiple of 0x8000, the whole clusters from there on, the bytes behind them;
//! - `lend_list N`: `ok`; from here on `free` and `clusters` lend a list of exactly N words, and `tables` one
//!   of exactly N bytes (N of 64 bits), and `err 9` is a list that is too short. `lend_list -`, and so at the
//!   start: one that is long enough, for `tables` of 1,048,576 bytes, and it is held besides that the exact
//!   length does and a word, or a byte, less is 9;
//! - `clear N BUDGET`: `ok TRIED OFFSET COST BOUND`: how many of the runs of N bytes were tried, where the
//!   cheapest of them starts, what it costs and the bound; `ok none` where none was tried;
//! - `make_record LIMITS SHARES`: makes a record of the current image, which is in use from here on. Each of
//!   the two: at most 16 numbers parted by commas, team 0 first, or `-`; teams that are not named get 0. Both,
//!   or the second, may be left out. It answers as `record` does. Refused: what was in use, or none, stays;
//! - `set_record USED LARGEST TEAM..`: the same with these numbers, whatever the image is. A team is
//!   `LIMIT:SHARE:TAKEN:EDITS`, team 0 first; those that are not named are all 0;
//! - `record`: `ok USED LARGEST` and 16 teams, as they are written above, of the record in use, or `ok none`;
//! - `drop_record`: `ok`; none is in use, as at the start;
//! - `team T`: `ok`; the team that edits carry from here on while a record is in use. T has 32 bits, at the
//!   start it is 0;
//! - `master DISC_END CODE SIZES PATHS`: `ok`; writes a new master into the current image, whatever that
//!   holds, and keeps its length. CODE: the game code, 4 bytes. SIZES: numbers parted by commas, or `-`.
//!   PATHS: the bytes of all paths, with the zero bytes that end them. It takes no record and alters none;
//! - `move_copy N OFF`, `resize_copy N SIZE`: `ok`; the copy of `move` or `resize` alone. Nothing of the record moves;
//! - `move_table N OFF`, `resize_table N SIZE`: `ok OFFSET SIZE`; the table of the same, and what is left to be
//!   zeroed, `0 0` where nothing is;
//! - `zero OFFSET SIZE`: `ok`; zeros there. It takes neither record nor team nor working bytes;
//! - `sheet HEX`: `ok` where all its lines ran, else `err N LINE`, LINE 0 or the line from 1. Image and record are then
//!   those after the lines before it, with 0 and 1 as they were;
//! - `tables N`: `ok NUMBER LENGTH HASH`: how many small tables of N entries there are, how many bytes they
//!   take together, and the hash of these bytes as `hash` has it. Neither the image nor `lend` has any part
//!   in it.
//!
//! Every edit hands in the record in use and keeps what comes back, from a refused call too; a copy, a table and a sheet
//! do as well. Where none is in use it hands in a fresh one of the image, with team 0 and limits that it cannot pass,
//! and drops it.
//!
//! A refusal is `err N` with the number of its cause. `dirty WHAT` means that a call left working
//! memory, the record, or something beside what it was lent, in another state than it promises.

mod calls;

mod language;
mod state;
mod zeros;

use state::State;
use std::io::{self, BufRead, BufReader, BufWriter, Write};

fn main() -> io::Result<()> {
    let mut input = BufReader::with_capacity(1 << 20, io::stdin().lock());
    let mut output = BufWriter::with_capacity(1 << 16, io::stdout().lock());
    let mut state = State::new();
    let mut line = vec![];
    while input.read_until(b'\n', &mut line)? > 0 {
        let answer = match std::str::from_utf8(&line) {
            Ok(text) => state.answer(text),
            Err(_) => "usage not UTF-8".into(),
        };
        writeln!(output, "{answer}")?;
        // Whoever writes one command at a time waits for its answer.
        if !input.buffer().contains(&b'\n') {
            output.flush()?;
        }
        line.clear();
    }
    output.flush()
}
