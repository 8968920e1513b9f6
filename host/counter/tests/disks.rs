//! Disks that are nearly full: ext4, XFS with a reflink copy, and btrfs on loop devices, with more and
//! more room left. Whatever the status, the image is as it was, or as the edit makes it, or `recover`
//! makes it so once there is room; a new image is whole, or there is none, and so is a set of small tables.
//! Needs leave to mount, and the file system's mkfs; says so if not.

mod support;

use std::fs;
use std::process::Command;
use support::*;

const END: u32 = 0x100_0000;
const FROM: u32 = 0x10_0000;
const SIZE: u32 = 0x40_0000;
const TO: u32 = 0x80_0000;

/// $1 file system, $2 folder with before.iso and after.iso, $3 program, $4 size, $5 and $6 the edit of
/// the film and what it takes; then KiB left, with `!` behind for an edit that does not look for room
/// first. Prints a line for each: left, status, state of the image, the same after `recover`, and what
/// is left beside the image.
const SCRIPT: &str = r#"set -e
fs=$1; dir=$2; counter=$3; size=$4; edit=$5; what=$6; shift 6
truncate -s "$size" "$dir/$fs.img"
case $fs in
    ext4) mkfs.ext4 -q -m 0 -F "$dir/$fs.img" ;;
    xfs) mkfs.xfs -q -m reflink=1 "$dir/$fs.img" ;;
    btrfs) mkfs.btrfs -q "$dir/$fs.img" >&2 ;;
esac
mkdir "$dir/$fs"
mount -o loop "$dir/$fs.img" "$dir/$fs"
cd "$dir/$fs"
state() {
    if cmp -s disc.iso "$dir/before.iso"; then echo before
    elif cmp -s disc.iso "$dir/after.iso"; then echo after
    else echo other; fi
}
for left; do
    rm -f -- *.iso *.counter-* filler; sync
    cp --sparse=never "$dir/before.iso" disc.iso
    if [ "$fs" != ext4 ]; then cp --reflink=always disc.iso copy.iso; fi
    sync
    full=$(df -k --output=avail . | tail -1)
    fill=$((full - ${left%!}))
    until [ "$fill" -le 0 ] || fallocate -l "${fill}K" filler 2>/dev/null; do
        fill=$((fill - 512))
    done
    sync
    status=0
    unset COUNTER_ASSUME_ROOM
    case $left in *!) export COUNTER_ASSUME_ROOM=1 ;; esac
    "$counter" "$edit" disc.iso movie/intro.thp "$what" > "$dir/said" 2>&1 || status=$?
    sed "s/^/$fs $left: /" "$dir/said" >&2
    found=$(state)
    rm -f filler; sync
    again=0
    "$counter" recover disc.iso > "$dir/said" 2>&1 || again=$?
    sed "s/^/$fs $left: /" "$dir/said" >&2
    beside=none
    [ ! -e disc.iso.counter-journal ] || beside=journal
    echo "$left $status $found $again $(state) $beside"
done
cd /; umount "$dir/$fs"
"#;

/// Runs a script that mounts; None, said aloud, where the machine does not allow it.
fn tried(command: &mut Command, fs: &str) -> Option<Run> {
    let path = std::env::var("PATH").unwrap_or_default();
    let Ok(output) = command.env("PATH", format!("{path}:/usr/sbin:/sbin")).output() else {
        not_tried(&format!("on {fs}: no unshare here"));
        return None;
    };
    let run = Run::from(output);
    let missing = ["mkfs", "mount:", "unshare:", "not permitted", "loop"];
    if run.out.is_empty() && run.status != 0 && missing.iter().any(|word| run.err.contains(word)) {
        not_tried(&format!("on {fs}: {}", run.err.lines().next().unwrap_or_default()));
        return None;
    }
    Some(run)
}

fn nearly_full(fs: &str, size: &str, edit: &str, left: &str) {
    let temp = Temp::new();
    let what = match edit {
        "fill" => temp.write("clip.bin", &clip(SIZE as usize, 7)).to_str().unwrap().to_string(),
        _ => TO.to_string(),
    };
    let before = temp.at("before.iso");
    sparse(&before, &usual(FROM, SIZE), END);
    // No zeros and no holes: free space has its bytes too, as a real disc's.
    let mut bytes = fs::read(&before).unwrap();
    pattern(&mut bytes[0x10_0000..], 5);
    fs::write(&before, &bytes).unwrap();
    fs::copy(&before, temp.at("after.iso")).unwrap();
    done(edit, &temp.at("after.iso"), &["movie/intro.thp", &what]);

    let mut command = Command::new("unshare");
    command.args(["-m", "sh", "-c", SCRIPT, "sh", fs]).arg(temp.at(""));
    command.arg(env!("CARGO_BIN_EXE_counter")).args([size, edit, &what]);
    command.args(left.split(' '));
    let Some(run) = tried(&mut command, fs) else {
        return;
    };
    println!("{fs}: left, status, image, recover, image, beside\n{}{}", run.out, run.err);
    assert_eq!(run.status, 0, "{fs}: {}{}", run.out, run.err);
    assert_eq!(run.out.lines().count(), left.split(' ').count());
    for line in run.out.lines() {
        let words: Vec<&str> = line.split(' ').collect();
        let [_, status, found, again, then, beside] = words[..] else { panic!("{line}") };
        match status {
            "0" => assert_eq!((found, again, then), ("after", "0", "after"), "{fs} {line}"),
            "74" | "73" => {
                assert_eq!((found, again, then), ("before", "0", "before"), "{fs} {line}")
            }
            // Where the journal's gate was not opened, the edit was not begun.
            "78" => {
                assert!(again == "0" && ["before", "after"].contains(&then), "{fs} {line}");
                assert!(then == "after" || found == "before", "{fs} {line}");
            }
            _ => panic!("{fs} {line}: {}", run.err),
        }
        assert_eq!(beside, "none", "{fs} {line}");
    }
}

#[test]
fn a_nearly_full_ext4_is_no_danger() {
    nearly_full("ext4", "64M", "move", "0 0! 4! 16! 64! 4096");
    nearly_full("ext4", "64M", "fill", "0 0! 64! 3000 3000! 4000! 4200 4200! 8192");
}

#[test]
fn a_nearly_full_xfs_with_a_reflink_copy_is_no_danger() {
    nearly_full(
        "xfs",
        "320M",
        "move",
        "0 64 8192 8500 9300 12000 0! 64! 256! 1024! 3000! 4000! 4200! 4400! 5000! 6000! 8000! 8300!",
    );
    nearly_full("xfs", "320M", "fill", "0 64 4200 9300 12000 0! 64! 4200! 5000! 8000! 8300! 9000!");
}

#[test]
fn a_nearly_full_btrfs_is_no_danger() {
    nearly_full(
        "btrfs",
        "160M",
        "move",
        "0 64 8192 13000 14000 20000 0! 64! 256! 1024! 3000! 4000! 4200! 4400! 5000! 6000! 8000! 8300! 8500! 9000! 12000!",
    );
    nearly_full("btrfs", "160M", "fill", "0 64 8192 14000 20000 0! 4200! 5000! 8000! 8500! 12000!");
}

// A new master ----------------------------------------------------------------------------

/// $1 folder with the folder `files` and new.iso, which it makes, $2 program; then KiB left, as above. Prints a line
/// for each: left, status, what there is of the new image, how many other files, and the status of a dry run before.
const NEW: &str = r#"set -e
dir=$1; counter=$2; shift 2
truncate -s 32M "$dir/ext4.img"
mkfs.ext4 -q -m 0 -F "$dir/ext4.img"
mkdir "$dir/ext4"
mount -o loop "$dir/ext4.img" "$dir/ext4"
cd "$dir/ext4"
for left; do
    rm -f -- *.iso counter-new.* filler; sync
    fill=$(($(df -k --output=avail . | tail -1) - ${left%!}))
    until [ "$fill" -le 0 ] || fallocate -l "${fill}K" filler 2>/dev/null; do
        fill=$((fill - 512))
    done
    sync
    status=0
    unset COUNTER_ASSUME_ROOM
    case $left in *!) export COUNTER_ASSUME_ROOM=1 ;; esac
    dry=0
    "$counter" new new.iso --size 16M --code GCTE --from-dir "$dir/files" --dry-run >&2 || dry=$?
    "$counter" new new.iso --size 16M --code GCTE --from-dir "$dir/files" > "$dir/said" 2>&1 || status=$?
    sed "s/^/$left: /" "$dir/said" >&2
    found=none
    if [ -e new.iso ]; then
        found=part
        if cmp -s new.iso "$dir/new.iso"; then found=whole; fi
    fi
    echo "$left $status $found $(find . -type f ! -name new.iso ! -name filler | wc -l) $dry"
done
cd /; umount "$dir/ext4"
"#;

#[test]
fn a_new_master_on_a_nearly_full_ext4_is_whole_or_none() {
    let temp = Temp::new();
    fs::create_dir(temp.at("files")).unwrap();
    for (k, len) in [0, 1, 0x8000, 0x40_0000, 0x1_2345].into_iter().enumerate() {
        temp.write(&format!("files/{k}"), &clip(len, k as u32));
    }
    let folder = temp.at("files").to_str().unwrap().to_string();
    let rest = ["--size", "16M", "--code", "GCTE", "--from-dir", &folder];
    done("new", &temp.at("new.iso"), &rest);
    let left = ["0!", "4!", "64!", "1000!", "4000!", "4200!", "8000!", "0", "4100", "4200", "8000"];
    let mut command = Command::new("unshare");
    command.args(["-m", "sh", "-c", NEW, "sh"]).arg(temp.at(""));
    command.arg(env!("CARGO_BIN_EXE_counter")).args(left);
    let Some(run) = tried(&mut command, "ext4") else {
        return;
    };
    println!("left, status, image, others\n{}{}", run.out, run.err);
    assert_eq!(run.status, 0, "{}{}", run.out, run.err);
    assert_eq!(run.out.lines().count(), left.len());
    for line in run.out.lines() {
        let words: Vec<&str> = line.split(' ').collect();
        match words[1..] {
            ["0", "whole", "0", "0"] => {}
            // The folder may find no room for another name. Where room is looked for, a dry run does so too.
            ["73" | "74", "none", "0", dry] => {
                assert!(words[0] != "8000", "{line}");
                assert!(words[0].ends_with('!') || dry == "74", "{line}");
            }
            _ => panic!("{line}: {}", run.err),
        }
    }
}

// A set of small tables -------------------------------------------------------------------

/// $1 folder with the folder `small`, a set of 394, $2 program; then KiB left, or `names` for a disk with
/// room for few files. Prints a line for each: left, status, what there is of the set.
const SMALL: &str = r#"set -e
dir=$1; counter=$2; shift 2
mkdir "$dir/ext4"
for left; do
    truncate -s 32M "$dir/ext4.img"
    case $left in
        names) mkfs.ext4 -q -m 0 -F -N 128 "$dir/ext4.img" ;;
        *) mkfs.ext4 -q -m 0 -F "$dir/ext4.img" ;;
    esac
    mount -o loop "$dir/ext4.img" "$dir/ext4"
    cd "$dir/ext4"
    if [ "$left" != names ]; then
        fill=$(($(df -k --output=avail . | tail -1) - left))
        until [ "$fill" -le 0 ] || fallocate -l "${fill}K" filler 2>/dev/null; do
            fill=$((fill - 512))
        done
    fi
    sync
    status=0
    "$counter" tables 6 --into small > "$dir/said" 2>&1 || status=$?
    tail -n 1 "$dir/said" | sed "s/^/$left: /" >&2
    found=none
    if [ -e small ]; then
        found=part
        if diff -rq small "$dir/small" >&2; then found=whole; fi
    fi
    echo "$left $status $found"
    cd /; umount "$dir/ext4"
    rm "$dir/ext4.img"
done
"#;

#[test]
fn a_set_of_small_tables_on_a_nearly_full_ext4_is_whole_or_none() {
    let temp = Temp::new();
    let set = temp.at("small");
    assert_eq!(run(&["tables", "6", "--into", set.to_str().unwrap()]).status, 0);
    let left = ["0", "4", "64", "1000", "3000", "8000", "names"];
    let mut command = Command::new("unshare");
    command.args(["-m", "sh", "-c", SMALL, "sh"]).arg(temp.at(""));
    command.arg(env!("CARGO_BIN_EXE_counter")).args(left);
    let Some(run) = tried(&mut command, "ext4") else {
        return;
    };
    println!("left, status, set\n{}{}", run.out, run.err);
    assert_eq!(run.status, 0, "{}{}", run.out, run.err);
    assert_eq!(run.out.lines().count(), left.len());
    for line in run.out.lines() {
        let words: Vec<&str> = line.split(' ').collect();
        match words[1..] {
            ["0", "whole"] => assert_eq!(words[0], "8000", "{line}"),
            ["74", "none"] => assert!(words[0] != "8000", "{line}"),
            _ => panic!("{line}: {}", run.err),
        }
    }
}

// A power cut -----------------------------------------------------------------------------

/// $1 folder with before.iso and after.iso, $2 program, $3 new offset, $4 reflink file system below.
/// An ext4 in a file; while the edit runs, that file is cloned again and again: each clone is what a
/// power cut would have left. Prints for each: image, journal, status of `recover`, image.
const CUTS: &str = r#"set -e
dir=$1; counter=$2; to=$3; below=$4
mkdir "$dir/below" "$dir/disk"
truncate -s 600M "$dir/below.img"
case $below in
    xfs) mkfs.xfs -q -m reflink=1 "$dir/below.img" ;;
    btrfs) mkfs.btrfs -q "$dir/below.img" >&2 ;;
esac
mount -o loop "$dir/below.img" "$dir/below"
truncate -s 64M "$dir/below/disk"
mkfs.ext4 -q -m 0 -F "$dir/below/disk"
mount -o loop "$dir/below/disk" "$dir/disk"
cp "$dir/before.iso" "$dir/disk/disc.iso"; sync
"$counter" move "$dir/disk/disc.iso" movie/intro.thp "$to" >&2 &
edit=$!
count=0
while kill -0 $edit 2>/dev/null && [ $count -lt 24 ]; do
    cp --reflink=always "$dir/below/disk" "$dir/below/cut$count"
    count=$((count + 1))
done
wait $edit
umount "$dir/disk"
state() {
    if cmp -s "$dir/disk/disc.iso" "$dir/before.iso"; then echo before
    elif cmp -s "$dir/disk/disc.iso" "$dir/after.iso"; then echo after
    else echo other; fi
}
for cut in $(seq 0 $((count - 1))); do
    mount -o loop "$dir/below/cut$cut" "$dir/disk"
    found=$(state); journal=none
    [ ! -e "$dir/disk/disc.iso.counter-journal" ] || journal=there
    status=0
    "$counter" recover "$dir/disk/disc.iso" >&2 || status=$?
    echo "$found $journal $status $(state)"
    umount "$dir/disk"
done
umount "$dir/below"
"#;

fn power_cuts(below: &str, to: u32, from: u32) {
    let temp = Temp::new();
    let before = temp.at("before.iso");
    sparse(&before, &usual(from, SIZE), END);
    let mut bytes = fs::read(&before).unwrap();
    pattern(&mut bytes[0x10_0000..], 6);
    fs::write(&before, &bytes).unwrap();
    fs::copy(&before, temp.at("after.iso")).unwrap();
    done("move", &temp.at("after.iso"), &["movie/intro.thp", &to.to_string()]);
    let mut command = Command::new("unshare");
    command.args(["-m", "sh", "-c", CUTS, "sh"]).arg(temp.at(""));
    command.arg(env!("CARGO_BIN_EXE_counter")).args([&to.to_string(), below]);
    let Some(run) = tried(&mut command, below) else {
        return;
    };
    println!("{below}: image, journal, recover, image\n{}{}", run.out, run.err);
    assert_eq!(run.status, 0, "{}{}", run.out, run.err);
    for line in run.out.lines() {
        let words: Vec<&str> = line.split(' ').collect();
        let [found, journal, status, then] = words[..] else { panic!("{line}") };
        assert_eq!(status, "0", "{line}: {}", run.err);
        match journal {
            "none" => assert!(found != "other" && then == found, "{line}"),
            _ => assert_eq!(then, "after", "{line}"),
        }
    }
}

#[test]
fn a_power_cut_on_ext4_is_recovered() {
    // Upwards: the kernel writes the zeros and the table before the copy.
    power_cuts("xfs", TO, FROM);
    power_cuts("btrfs", FROM, TO);
}
