//! Paths as long as they may be: steps down and back, and as many new directories as fit.

use crate::images::{self, Node, Plan};
use crate::sides::Call;

/// An empty directory, one of files, and behind it an empty one in another: the farthest that a directory can be from the one it is in,
/// and the most entries that can stand behind a new one.
pub fn plan(n: usize) -> Plan {
    let node = |name: &str, is_directory, first, second| Node {
        name: name.as_bytes().to_vec(),
        is_directory,
        first,
        second,
    };
    let end = n as u32;
    let mut nodes =
        vec![node("", true, 0, end), node("x", true, 0, 2), node("y", true, 0, end - 2)];
    for k in 3..n - 2 {
        nodes.push(node(&format!("{k}"), false, 0, 0));
    }
    nodes.push(node("z", true, 0, end));
    nodes.push(node("z", true, end - 2, end));
    images::plan_of_empty_files(nodes)
}

/// `z/../z/../z`, up to 1,024 bytes.
pub fn back_and_forth() -> Call {
    Call::Lookup([&b"z/../".repeat(204)[..], b"z"].concat())
}

/// `z/z/../../z/z/../../z`, up to 1,024 bytes.
pub fn two_back_and_forth() -> Call {
    Call::Lookup([&b"z/z/../../".repeat(102)[..], b"z"].concat())
}

/// `000/../001/../`, up to 1,024 bytes: 146 new directories.
pub fn many_new() -> Call {
    let path: String = (0..146).map(|k| format!("{k:03}/../")).collect();
    Call::MakeDirectories(path.trim_end_matches("/../").as_bytes().to_vec())
}

/// The same in the first directory, before all other entries.
pub fn many_new_first() -> Call {
    let path: String = (0..145).map(|k| format!("/{k:03}/..")).collect();
    Call::MakeDirectories(format!("x{path}").into_bytes())
}

/// `z/z/0/1/2 ..`: as deep as it may be.
pub fn deep_new() -> Call {
    let path: String = (0..62).map(|k| format!("/{k}")).collect();
    Call::MakeDirectories(format!("z/z{path}").into_bytes())
}

/// The same in the first directory, before all other entries.
pub fn deep_new_first() -> Call {
    let path: String = (0..63).map(|k| format!("/{k}")).collect();
    Call::MakeDirectories(format!("x{path}").into_bytes())
}
