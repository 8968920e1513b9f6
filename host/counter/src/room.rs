//! Room on the disk: how much of what is to be written takes new room.

use std::fs::File;
use std::io;
use std::ops::Range;
use std::os::fd::AsRawFd;

const SEEK_DATA: i32 = 3;
const SEEK_HOLE: i32 = 4;
const ENXIO: i32 = 6;

/// `FS_IOC_FIEMAP`, and its flag for an extent that other files share.
const FIEMAP: u64 = 0xC020_660B;
const SHARED: u32 = 0x2000;
const EXTENTS: usize = 64;

/// File systems that never write a block in its place: btrfs, ZFS, bcachefs, F2FS, NILFS.
const COPY_ON_WRITE: [u32; 5] = [0x9123_683E, 0x2FC1_2FC1, 0xCA45_1A4E, 0xF2F5_2010, 0x3434];

/// The start of `struct statvfs`; the rest is room for what the system writes behind it.
#[repr(C)]
struct Statvfs {
    block_size: u64,
    fragment_size: u64,
    blocks: u64,
    free: u64,
    available: u64,
    rest: [u64; 16],
}

/// `struct statfs` begins with the file system's magic number; the rest is room.
type Statfs = [u64; 32];

#[repr(C)]
#[derive(Clone, Copy)]
struct Extent {
    logical: u64,
    physical: u64,
    length: u64,
    reserved: [u64; 2],
    flags: u32,
    more: [u32; 3],
}

#[repr(C)]
struct Extents {
    start: u64,
    length: u64,
    flags: u32,
    mapped: u32,
    count: u32,
    reserved: u32,
    extents: [Extent; EXTENTS],
}

unsafe extern "C" {
    fn lseek(fd: i32, offset: i64, whence: i32) -> i64;
    fn fstatvfs(fd: i32, buf: *mut Statvfs) -> i32;
    fn fstatfs(fd: i32, buf: *mut Statfs) -> i32;
    fn ioctl(fd: i32, request: u64, ...) -> i32;
}

/// How many bytes of `span` are holes, which take room on the disk once written.
pub fn holes(file: &File, span: Range<u64>) -> u64 {
    let fd = file.as_raw_fd();
    let (mut at, end) = (span.start, span.end);
    let mut found = 0;
    while at < end {
        let data = unsafe { lseek(fd, at as i64, SEEK_DATA) };
        if data < 0 {
            let none = io::Error::last_os_error().raw_os_error() == Some(ENXIO);
            return if none { found + (end - at) } else { found };
        }
        let data = (data as u64).min(end);
        found += data - at;
        let hole = unsafe { lseek(fd, data as i64, SEEK_HOLE) };
        if hole < 0 {
            return found;
        }
        at = (hole as u64).max(data + 1);
    }
    found
}

/// How many bytes of `span` lie in blocks that other files share (a reflink copy), which are written
/// elsewhere.
pub fn shared(file: &File, span: Range<u64>) -> u64 {
    let none =
        Extent { logical: 0, physical: 0, length: 0, reserved: [0; 2], flags: 0, more: [0; 3] };
    let (mut at, end) = (span.start, span.end);
    let mut found = 0;
    while at < end {
        let mut map = Extents {
            start: at,
            length: end - at,
            flags: 0,
            mapped: 0,
            count: EXTENTS as u32,
            reserved: 0,
            extents: [none; EXTENTS],
        };
        if unsafe { ioctl(file.as_raw_fd(), FIEMAP, &mut map) } != 0 || map.mapped == 0 {
            return found;
        }
        for extent in &map.extents[..map.mapped.min(EXTENTS as u32) as usize] {
            let stop = extent.logical.saturating_add(extent.length);
            if extent.flags & SHARED != 0 {
                found += stop.min(end).saturating_sub(extent.logical.max(span.start));
            }
            at = stop.max(at + 1);
        }
    }
    found
}

/// Whether the file system writes every block to a new place.
pub fn copies_on_write(file: &File) -> bool {
    let mut told: Statfs = [0; 32];
    match unsafe { fstatfs(file.as_raw_fd(), &mut told) } {
        0 => COPY_ON_WRITE.contains(&(told[0] as u32)),
        _ => false,
    }
}

/// Bytes that can still be written to the disk that holds `file`.
pub fn left(file: &File) -> Option<u64> {
    let mut told = Statvfs {
        block_size: 0,
        fragment_size: 0,
        blocks: 0,
        free: 0,
        available: 0,
        rest: [0; 16],
    };
    match unsafe { fstatvfs(file.as_raw_fd(), &mut told) } {
        0 => told.available.checked_mul(told.fragment_size),
        _ => None,
    }
}

#[cfg(test)]
mod tests {
    use super::*;
    use crate::headers::{hold, of_c};
    use std::mem::offset_of;

    #[test]
    fn numbers_and_layouts_are_the_systems() {
        let headers = [
            "errno.h",
            "linux/fiemap.h",
            "linux/fs.h",
            "linux/magic.h",
            "sys/statfs.h",
            "sys/statvfs.h",
            "unistd.h",
        ];
        hold(&headers, &of_c!(SEEK_DATA SEEK_HOLE ENXIO));
        macro_rules! at {
            ($whole:ident $($field:ident $name:literal)*) => {
                [$((concat!("offsetof(struct ", $name, ")"), offset_of!($whole, $field) as i128)),*]
            };
        }
        hold(
            &headers,
            &at!(Statvfs block_size "statvfs, f_bsize" fragment_size "statvfs, f_frsize"
                blocks "statvfs, f_blocks" free "statvfs, f_bfree" available "statvfs, f_bavail"),
        );
        hold(
            &headers,
            &at!(Extent logical "fiemap_extent, fe_logical" physical "fiemap_extent, fe_physical"
                length "fiemap_extent, fe_length" reserved "fiemap_extent, fe_reserved64"
                flags "fiemap_extent, fe_flags" more "fiemap_extent, fe_reserved"),
        );
        hold(
            &headers,
            &at!(Extents start "fiemap, fm_start" length "fiemap, fm_length" flags "fiemap, fm_flags"
                mapped "fiemap, fm_mapped_extents" count "fiemap, fm_extent_count"
                reserved "fiemap, fm_reserved" extents "fiemap, fm_extents"),
        );
        let facts = [
            ("FS_IOC_FIEMAP", FIEMAP.into()),
            ("FIEMAP_EXTENT_SHARED", SHARED.into()),
            ("BTRFS_SUPER_MAGIC", COPY_ON_WRITE[0].into()),
            ("F2FS_SUPER_MAGIC", COPY_ON_WRITE[3].into()),
            ("NILFS_SUPER_MAGIC", COPY_ON_WRITE[4].into()),
            ("sizeof(struct fiemap_extent)", size_of::<Extent>() as i128),
            ("sizeof(struct statvfs) <= sizeof(long [21])", 1),
            ("sizeof(long [21])", size_of::<Statvfs>() as i128),
            ("sizeof(struct statfs) <= sizeof(long [32])", 1),
            ("sizeof(long [32])", size_of::<Statfs>() as i128),
            ("offsetof(struct statfs, f_type)", 0),
            ("sizeof(((struct statfs *)0)->f_type)", size_of::<u64>() as i128),
        ];
        hold(&headers, &facts);
    }
}
