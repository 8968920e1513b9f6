//! What the program asks of the operating system beyond std: a mapped file, memory that stands in for
//! parts of it, a file that another program inherits, and a name that nothing has yet. (Signals and room on
//! the disk have files of their own.)

pub use crate::signals::{SIGPIPE, catch_signals, end_by, holding, unfinished};
use std::ffi::{CString, c_char};
use std::fs::{self, File};
use std::io::{self, ErrorKind};
use std::ops::Range;
use std::os::fd::{AsRawFd, FromRawFd, OwnedFd};
use std::os::unix::ffi::OsStrExt;
use std::path::Path;
use std::ptr;
use std::sync::mpsc::{self, RecvTimeoutError, Sender};
use std::thread::{self, JoinHandle};
use std::time::Duration;

#[cfg(not(all(
    target_os = "linux",
    target_pointer_width = "64",
    any(
        target_arch = "x86_64",
        target_arch = "aarch64",
        target_arch = "riscv64",
        target_arch = "loongarch64"
    )
)))]
compile_error!("the numbers below are those of Linux on these processors");

const PROT_READ: i32 = 1;
const PROT_WRITE: i32 = 2;
const MAP_SHARED: i32 = 1;
const MAP_PRIVATE: i32 = 2;
const MAP_ANONYMOUS: i32 = 0x20;
const MAP_NORESERVE: i32 = 0x4000;
const MS_SYNC: i32 = 4;
const MAP_FIXED: i32 = 0x10;
const MADV_DONTNEED: i32 = 4;
const MFD_CLOEXEC: u32 = 1;

const READ_WRITE_SEARCH: i32 = 7;
const READ_WRITE: i32 = 6;
const AT_FDCWD: i32 = -100;
const RENAME_NOREPLACE: u32 = 1;
const ENOSYS: i32 = 38;
const EINVAL: i32 = 22;

pub const O_NONBLOCK: i32 = 0x800;
pub const EROFS: i32 = 30;

unsafe extern "C" {
    fn mmap(addr: *mut u8, len: usize, prot: i32, flags: i32, fd: i32, offset: i64) -> *mut u8;
    fn munmap(addr: *mut u8, len: usize) -> i32;
    fn msync(addr: *mut u8, len: usize, flags: i32) -> i32;
    fn madvise(addr: *mut u8, len: usize, advice: i32) -> i32;
    fn memfd_create(name: *const c_char, flags: u32) -> i32;
    fn access(path: *const c_char, mode: i32) -> i32;
    fn renameat2(
        from_folder: i32,
        from: *const c_char,
        to_folder: i32,
        to: *const c_char,
        flags: u32,
    ) -> i32;
    fn dup(fd: i32) -> i32;
}

/// How a file is mapped.
#[derive(Clone, Copy, PartialEq, Eq)]
pub enum Access {
    /// Read only.
    Read,
    /// Written in memory only; the file stays as it is.
    Private,
    /// Written through to the file.
    Shared,
}

/// A file's bytes in memory.
pub struct Mapping {
    start: *mut u8,
    len: usize,
    access: Access,
    /// Parts for which other memory stands in.
    relief: Option<Relief>,
}

impl Mapping {
    pub fn new(file: &File, len: usize, access: Access) -> io::Result<Mapping> {
        let (prot, flags) = match access {
            Access::Read => (PROT_READ, MAP_SHARED),
            Access::Private => (PROT_READ | PROT_WRITE, MAP_PRIVATE | MAP_NORESERVE),
            Access::Shared => (PROT_READ | PROT_WRITE, MAP_SHARED),
        };
        Mapping::of(file.as_raw_fd(), len, access, prot, flags)
    }

    /// Zeros to be read, which take no memory.
    pub fn zeros(len: usize) -> io::Result<Mapping> {
        let flags = MAP_PRIVATE | MAP_ANONYMOUS | MAP_NORESERVE;
        Mapping::of(-1, len, Access::Read, PROT_READ, flags)
    }

    /// Zeros to be written to, which take memory where that is done.
    pub fn blank(len: usize) -> io::Result<Mapping> {
        let flags = MAP_PRIVATE | MAP_ANONYMOUS | MAP_NORESERVE;
        Mapping::of(-1, len, Access::Private, PROT_READ | PROT_WRITE, flags)
    }

    fn of(fd: i32, len: usize, access: Access, prot: i32, flags: i32) -> io::Result<Mapping> {
        if len == 0 {
            return Ok(Mapping { start: ptr::null_mut(), len, access, relief: None });
        }
        let start = unsafe { mmap(ptr::null_mut(), len, prot, flags, fd, 0) };
        if start as isize == -1 {
            return Err(io::Error::last_os_error());
        }
        Ok(Mapping { start, len, access, relief: None })
    }

    pub fn bytes(&self) -> &[u8] {
        if self.len == 0 {
            return &[];
        }
        unsafe { std::slice::from_raw_parts(self.start, self.len) }
    }

    /// The bytes to write to. A mapping made for reading has none.
    pub fn bytes_mut(&mut self) -> &mut [u8] {
        if self.len == 0 || self.access == Access::Read {
            return &mut [];
        }
        unsafe { std::slice::from_raw_parts_mut(self.start, self.len) }
    }

    /// Whether what is written to it stays in memory.
    pub fn is_private(&self) -> bool {
        self.access == Access::Private
    }

    /// Waits until what was written has reached the file's disk.
    pub fn sync(&self) -> io::Result<()> {
        if self.len == 0 || self.access != Access::Shared {
            return Ok(());
        }
        match unsafe { msync(self.start, self.len, MS_SYNC) } {
            0 => Ok(()),
            _ => Err(io::Error::last_os_error()),
        }
    }
}

/// A multiple of every system's pages, and the memory that stands in for many of them.
const PAGE: usize = 0x1_0000;
const STAND_IN: usize = 0x20_0000;

impl Mapping {
    /// Lets one small piece of memory stand in for all whole pages of `spans` of a private mapping, again
    /// and again. What is copied there takes no memory; what is read there says nothing.
    pub fn stand_in(&mut self, spans: &[Range<usize>]) -> io::Result<()> {
        let whole = |span: &Range<usize>| {
            span.start.next_multiple_of(PAGE)..span.end.min(self.len) / PAGE * PAGE
        };
        let worth = |span: &Range<usize>| span.end > span.start + 2 * STAND_IN;
        let spans: Vec<Range<usize>> = spans.iter().map(whole).filter(worth).collect();
        if spans.is_empty() || self.access != Access::Private {
            return Ok(());
        }
        // Without it the copy takes its memory.
        let Ok(memory) = memory().and_then(|file| file.set_len(STAND_IN as u64).map(|()| file))
        else {
            return Ok(());
        };
        let mut taken = Vec::new();
        for span in spans {
            taken.push((self.start as usize + span.start, span.end - span.start));
            self.replace(span, &memory)?;
        }
        self.relief = Relief::start(taken);
        Ok(())
    }

    fn replace(&mut self, span: Range<usize>, memory: &File) -> io::Result<()> {
        let (fd, end) = (memory.as_raw_fd(), span.end);
        for at in span.step_by(STAND_IN) {
            let (prot, flags) = (PROT_READ | PROT_WRITE, MAP_SHARED | MAP_FIXED);
            let place = unsafe { self.start.add(at) };
            let got = unsafe { mmap(place, STAND_IN.min(end - at), prot, flags, fd, 0) };
            if got as isize == -1 {
                return Err(io::Error::last_os_error());
            }
        }
        Ok(())
    }
}

/// An empty file in memory.
pub fn memory() -> io::Result<File> {
    match unsafe { memfd_create(c"counter".as_ptr(), MFD_CLOEXEC) } {
        fd if fd < 0 => Err(io::Error::last_os_error()),
        fd => Ok(unsafe { File::from_raw_fd(fd) }),
    }
}

/// While pages that stand in are used, lets go of those that were: they are the same few, but the
/// system counts them once for every place.
struct Relief {
    stop: Sender<()>,
    watch: JoinHandle<()>,
}

impl Relief {
    /// None where no thread can be had: then the system counts them.
    fn start(spans: Vec<(usize, usize)>) -> Option<Relief> {
        let (stop, stopped) = mpsc::channel();
        let pause = Duration::from_millis(10);
        let watch = thread::Builder::new().spawn(move || {
            while stopped.recv_timeout(pause) == Err(RecvTimeoutError::Timeout) {
                for &(start, len) in &spans {
                    unsafe { madvise(start as *mut u8, len, MADV_DONTNEED) };
                }
            }
        });
        watch.ok().map(|watch| Relief { stop, watch })
    }

    fn end(self) {
        drop(self.stop);
        let _ = self.watch.join();
    }
}

/// The same file once more, for a program that is started to inherit.
pub fn lend(file: &File) -> io::Result<OwnedFd> {
    match unsafe { dup(file.as_raw_fd()) } {
        fd if fd < 0 => Err(io::Error::last_os_error()),
        fd => Ok(unsafe { OwnedFd::from_raw_fd(fd) }),
    }
}

fn c_path(path: &Path) -> io::Result<CString> {
    Ok(CString::new(path.as_os_str().as_bytes())?)
}

fn answer(got: i32) -> io::Result<()> {
    if got == 0 { Ok(()) } else { Err(io::Error::last_os_error()) }
}

/// Whether names in a folder may be made, changed and synced.
pub fn may_write(folder: &Path) -> io::Result<()> {
    let folder = c_path(folder)?;
    answer(unsafe { access(folder.as_ptr(), READ_WRITE_SEARCH) })
}

/// Whether a file may be read and written to.
pub fn may_write_to(file: &Path) -> io::Result<()> {
    let file = c_path(file)?;
    answer(unsafe { access(file.as_ptr(), READ_WRITE) })
}

/// Gives a file a name that nothing has yet.
pub fn rename_new(from: &Path, to: &Path) -> io::Result<()> {
    let (old, new) = (c_path(from)?, c_path(to)?);
    let (old, new) = (old.as_ptr(), new.as_ptr());
    let done = answer(unsafe { renameat2(AT_FDCWD, old, AT_FDCWD, new, RENAME_NOREPLACE) });
    match done {
        // A disk that cannot do it at once.
        Err(e) if matches!(e.raw_os_error(), Some(EINVAL | ENOSYS)) => {
            match fs::symlink_metadata(to).is_ok() {
                true => Err(ErrorKind::AlreadyExists.into()),
                false => fs::rename(from, to),
            }
        }
        done => done,
    }
}

impl Drop for Mapping {
    fn drop(&mut self) {
        if let Some(relief) = self.relief.take() {
            relief.end();
        }
        if self.len != 0 {
            unsafe { munmap(self.start, self.len) };
        }
    }
}

#[cfg(test)]
mod tests {
    use super::*;
    use crate::headers::{hold, of_c};

    #[test]
    fn the_numbers_are_the_systems() {
        let headers = ["errno.h", "fcntl.h", "stdio.h", "sys/mman.h", "unistd.h"];
        hold(
            &headers,
            &of_c!(PROT_READ PROT_WRITE MAP_SHARED MAP_PRIVATE MAP_ANONYMOUS MAP_NORESERVE MAP_FIXED MS_SYNC
                MADV_DONTNEED MFD_CLOEXEC AT_FDCWD RENAME_NOREPLACE ENOSYS EINVAL EROFS O_NONBLOCK),
        );
        let facts = [
            ("R_OK | W_OK | X_OK", READ_WRITE_SEARCH.into()),
            ("R_OK | W_OK", READ_WRITE.into()),
            ("sizeof(off_t)", size_of::<i64>() as i128),
        ];
        hold(&headers, &facts);
    }
}
