//! Signals: those that end the program at once, those that wait while the image is written, and the
//! one that says that a mapped page could not be had.

use crate::failure::INPUT_OUTPUT;
use std::ffi::{CString, c_char};
use std::fmt::Arguments;
use std::io::{self, IsTerminal, Write};
use std::os::unix::ffi::OsStrExt;
use std::path::Path;
use std::ptr;
use std::sync::OnceLock;
use std::sync::atomic::{AtomicBool, AtomicI32, AtomicPtr, AtomicU8, AtomicU64, Ordering};
use std::time::Instant;

const SIGHUP: i32 = 1;
const SIGINT: i32 = 2;
const SIGQUIT: i32 = 3;
const SIGBUS: i32 = 7;
const SIGTERM: i32 = 15;
const SIGXFSZ: i32 = 25;
pub const SIGPIPE: i32 = 13;
const SIG_DFL: usize = 0;
const SIG_IGN: usize = 1;
const SIG_BLOCK: i32 = 0;
const SIG_UNBLOCK: i32 = 1;

/// What a signal does if nobody minds it: these do not end a program (CHLD, CONT, the stops, URG,
/// WINCH).
const HARMLESS: [i32; 8] = [17, 18, 19, 20, 21, 22, 23, 28];

/// `sigset_t`: signal n is bit n - 1.
#[repr(C)]
#[derive(Clone, Copy)]
struct Set([u64; 16]);

impl Set {
    fn one(number: i32) -> Set {
        let mut set = Set([0; 16]);
        set.0[0] = 1 << (number - 1);
        set
    }

    fn has(&self, number: i32) -> bool {
        self.0[0] & (1 << (number - 1)) != 0
    }
}

unsafe extern "C" {
    fn signal(number: i32, handler: usize) -> usize;
    fn raise(number: i32) -> i32;
    fn pthread_sigmask(how: i32, set: *const Set, old: *mut Set) -> i32;
    fn sigpending(set: *mut Set) -> i32;
    fn write(fd: i32, buf: *const u8, len: usize) -> isize;
    fn unlink(path: *const c_char) -> i32;
    fn _exit(status: i32) -> !;
}

/// Those that people send.
const SENT: [i32; 4] = [SIGHUP, SIGINT, SIGQUIT, SIGTERM];

/// How far an edit, or what else is made, is: nothing is begun; it can be given up; it is finished whatever comes; it
/// is given up.
const READING: u8 = 0;
const FREE: u8 = 1;
const FOR_GOOD: u8 = 2;
const GIVEN_UP: u8 = 3;

static CAUGHT: AtomicI32 = AtomicI32::new(0);
static STAGE: AtomicU8 = AtomicU8::new(READING);
static HOLDING: AtomicBool = AtomicBool::new(false);
/// New images are made.
static MAKING: AtomicBool = AtomicBool::new(false);
/// Signals that whoever started the program had blocked.
static BLOCKED: OnceLock<u64> = OnceLock::new();
static UNFINISHED: AtomicPtr<c_char> = AtomicPtr::new(ptr::null_mut());
/// When writing began, and how many milliseconds an edit took that was finished before; how many milliseconds
/// later it is expected to end, and how many thousandths of what is done are left.
static BEGUN: OnceLock<Instant> = OnceLock::new();
static BEFORE: AtomicU64 = AtomicU64::new(0);
static END: AtomicU64 = AtomicU64::new(0);
static LEFT: AtomicU64 = AtomicU64::new(0);

const CUT_READING: &[u8] =
    b"counter: input/output error: the image could not be read to its end (did it shrink?)\n";
const CUT_MAKING: &[u8] =
    b"counter: input/output error: what is read became shorter, or the disk failed or is full; nothing is left \
      of the new file\n";
const CUT_NEW: &[u8] =
    b"counter: input/output error: a file of DIR became shorter, or the disk failed or is full; nothing is left \
      of the new image\n";
/// How a signal that people send is called.
fn called(number: i32) -> &'static str {
    match number {
        SIGHUP => "a hang-up",
        SIGINT => "Ctrl-C (SIGINT)",
        SIGQUIT => "SIGQUIT",
        _ => "a kill (SIGTERM)",
    }
}

/// The same of any signal.
pub fn name(number: i32) -> String {
    match SENT.contains(&number) {
        true => called(number).into(),
        false => format!("signal {number}"),
    }
}

pub fn stopped_by(number: i32) -> String {
    format!("stopped by {}", called(number))
}

/// Says something from within a handler, where nothing may be locked or allocated.
fn tell(words: Arguments) {
    let mut text = [0; 256];
    let mut rest = &mut text[..];
    let _ = rest.write_fmt(words);
    let left = rest.len();
    unsafe { write(2, text.as_ptr(), text.len() - left) };
}

/// While the image is written or something else that must be whole is done, the signal is noted, and what
/// becomes of it is said at once. Otherwise it ends the program.
extern "C" fn caught(number: i32) {
    if STAGE.load(Ordering::SeqCst) != READING {
        noted(number);
    } else if HOLDING.load(Ordering::SeqCst) {
        CAUGHT.store(number, Ordering::SeqCst);
    } else {
        stop(number);
    }
}

fn noted(number: i32) {
    let _ = CAUGHT.compare_exchange(0, number, Ordering::SeqCst, Ordering::SeqCst);
    let free = STAGE.compare_exchange(FREE, GIVEN_UP, Ordering::SeqCst, Ordering::SeqCst);
    // Over the progress that may stand in the line.
    let line = if io::stderr().is_terminal() { "\r\x1b[K" } else { "" };
    let name = called(number);
    match (free, seconds_left()) {
        // It was said at the first one.
        (Err(GIVEN_UP), _) if is_making() => {}
        (Ok(_), _) if is_making() => {
            tell(format_args!("{line}counter: {name}: what was made is taken away\n"))
        }
        (Ok(_) | Err(GIVEN_UP), _) => {
            tell(format_args!("{line}counter: {name}: the edit is given up\n"))
        }
        _ if is_making() => {
            tell(format_args!("{line}counter: {name}: what is made is finished first\n"))
        }
        (_, 0) => tell(format_args!("{line}counter: {name}: the edit is finished first\n")),
        (_, left) => tell(format_args!(
            "{line}counter: {name}: the edit is finished first: about {left} s\n"
        )),
    }
}

/// How many milliseconds ago writing began.
fn now() -> u64 {
    let since = BEGUN.get().map_or(0, |begun| begun.elapsed().as_millis() as u64);
    since.saturating_sub(BEFORE.load(Ordering::SeqCst))
}

/// 0 where nothing is known.
fn seconds_left() -> u64 {
    let left = match END.load(Ordering::SeqCst).checked_sub(now()) {
        // It takes longer than was thought.
        None | Some(0) => now() * LEFT.load(Ordering::SeqCst) / 1000,
        Some(left) => left,
    };
    left.div_ceil(1000)
}

/// So much of the edit is done, and so much left: it is thought to go on as it did.
pub fn expect(done: u64, left: u64) {
    let share = left.saturating_mul(1000) / done.max(1);
    LEFT.store(share, Ordering::SeqCst);
    END.store(now() + now().saturating_mul(share) / 1000, Ordering::SeqCst);
}

/// Says so, takes a file that is not finished away, and ends as the signal ends a program.
fn stop(number: i32) {
    let what = if is_making() { "nothing was made" } else { "the image is as it was" };
    tell(format_args!("counter: stopped by {}; {what}\n", called(number)));
    let unfinished = UNFINISHED.load(Ordering::SeqCst);
    unsafe {
        if !unfinished.is_null() {
            unlink(unfinished);
        }
        signal(number, SIG_DFL);
        raise(number);
    }
}

/// A mapped page could not be had, and there is nothing to go back to. No image that was there is written through a
/// mapping, so nothing of one is lost.
extern "C" fn cut_off(_: i32) {
    let unfinished = UNFINISHED.load(Ordering::SeqCst);
    let text = match unfinished.is_null() {
        true => CUT_READING,
        false if is_making() => CUT_NEW,
        false => CUT_MAKING,
    };
    unsafe {
        if !unfinished.is_null() {
            unlink(unfinished);
        }
        write(2, text.as_ptr(), text.len());
        _exit(INPUT_OUTPUT.into())
    }
}

/// From here on Ctrl-C, a hang-up, a kill and a failing disk are dealt with as said above.
pub fn catch_signals() {
    for number in SENT {
        unsafe {
            // What whoever started the program ignores (nohup), stays ignored.
            if signal(number, caught as *const () as usize) == SIG_IGN {
                signal(number, SIG_IGN);
            }
        }
    }
    unsafe {
        signal(SIGBUS, cut_off as *const () as usize);
        // A write past the limit of a file's size is an error like others.
        signal(SIGXFSZ, SIG_IGN);
    }
}

/// From here on something is written: every signal waits for the end, but for the one that a failing page
/// sends. Those that people send are answered. What can be given up can be until `no_way_back`; before which a
/// signal came, is given up at once.
pub fn begin_writing(can_be_given_up: bool) {
    let _ = BEGUN.set(Instant::now());
    BEFORE.fetch_add(now(), Ordering::SeqCst);
    expect(1, 0);
    STAGE.store(if can_be_given_up { FREE } else { FOR_GOOD }, Ordering::SeqCst);
    if can_be_given_up && CAUGHT.load(Ordering::SeqCst) != 0 {
        STAGE.store(GIVEN_UP, Ordering::SeqCst);
    }
    let_others_wait();
}

/// From here on new images are made, and no image is touched.
pub fn begin_making() {
    MAKING.store(true, Ordering::SeqCst);
}

fn is_making() -> bool {
    MAKING.load(Ordering::SeqCst)
}

/// Every signal waits for the end, but for those that people send and the one that a failing page sends.
pub fn let_others_wait() {
    let mut all = Set([u64::MAX; 16]);
    for number in SENT.into_iter().chain([SIGBUS]) {
        all.0[0] &= !Set::one(number).0[0];
    }
    let mut blocked = Set([0; 16]);
    unsafe { pthread_sigmask(SIG_BLOCK, &all, &mut blocked) };
    let _ = BLOCKED.set(blocked.0[0]);
}

/// The signal for which the edit is given up, if it is.
pub fn given_up() -> Option<i32> {
    let given_up = STAGE.load(Ordering::SeqCst) == GIVEN_UP;
    given_up.then(|| CAUGHT.load(Ordering::SeqCst))
}

/// From here on it is finished, unless it was given up before: then the signal.
pub fn no_way_back() -> Option<i32> {
    let _ = STAGE.compare_exchange(FREE, FOR_GOOD, Ordering::SeqCst, Ordering::SeqCst);
    given_up()
}

/// A signal that came or waits since the image was written and would end the program, if one does.
pub fn signalled() -> Option<i32> {
    if let number @ 1.. = CAUGHT.load(Ordering::SeqCst) {
        return Some(number);
    }
    let mut waiting = Set([0; 16]);
    unsafe { sigpending(&mut waiting) };
    waiting.0[0] &= !BLOCKED.get().copied().unwrap_or(0);
    (1..=64).find(|&number| waiting.has(number) && !HARMLESS.contains(&number) && minded(number))
}

/// Whether the signal is not ignored.
fn minded(number: i32) -> bool {
    unsafe {
        let was = signal(number, SIG_DFL);
        signal(number, was);
        was != SIG_IGN
    }
}

/// Does something that no signal may cut; one that came meanwhile has its turn then.
pub fn holding<T>(work: impl FnOnce() -> T) -> T {
    HOLDING.store(true, Ordering::SeqCst);
    let done = work();
    HOLDING.store(false, Ordering::SeqCst);
    match CAUGHT.load(Ordering::SeqCst) {
        0 => {}
        number => stop(number),
    }
    done
}

/// The file that a signal takes away, since it is not finished; None once it is.
pub fn unfinished(path: Option<&Path>) {
    let name = path.and_then(|path| CString::new(path.as_os_str().as_bytes()).ok());
    // The name may be in use by the handler, so it is never given back.
    let name = name.map_or(ptr::null_mut(), CString::into_raw);
    UNFINISHED.store(name, Ordering::SeqCst);
}

/// Ends the program as signal `number` ends a program, so that a shell sees it.
pub fn end_by(number: i32) -> i32 {
    unsafe {
        signal(number, SIG_DFL);
        pthread_sigmask(SIG_UNBLOCK, &Set::one(number), ptr::null_mut());
        raise(number);
    }
    128 + number
}

#[cfg(test)]
mod tests {
    use super::*;
    use crate::headers::{hold, of_c};

    #[test]
    fn the_numbers_are_the_systems() {
        hold(
            &["signal.h"],
            &of_c!(SIGHUP SIGINT SIGQUIT SIGBUS SIGTERM SIGXFSZ SIGPIPE SIG_BLOCK SIG_UNBLOCK),
        );
        let harmless = ["CHLD", "CONT", "STOP", "TSTP", "TTIN", "TTOU", "URG", "WINCH"]
            .map(|name| format!("SIG{name}"));
        let harmless = harmless.iter().zip(HARMLESS).map(|(name, is)| (name.as_str(), is.into()));
        let mut facts: Vec<(&str, i128)> = harmless.collect();
        facts.push(("(size_t)SIG_DFL", SIG_DFL as i128));
        facts.push(("(size_t)SIG_IGN", SIG_IGN as i128));
        facts.push(("sizeof(sigset_t)", size_of::<Set>() as i128));
        hold(&["signal.h"], &facts);
    }
}
