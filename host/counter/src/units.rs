//! Names and paths cut into units and parts, and judged: all of it as the library tells.

use counter_sys as counter;

/// The first unit, a pair or a single byte, and what follows it.
pub fn unit(bytes: &[u8]) -> Option<(&[u8], &[u8])> {
    match counter::unit(bytes).0 {
        0 => None,
        len => Some(bytes.split_at(len)),
    }
}

pub fn units(mut bytes: &[u8]) -> impl Iterator<Item = &[u8]> {
    std::iter::from_fn(move || {
        let (unit, rest) = unit(bytes)?;
        bytes = rest;
        Some(unit)
    })
}

/// Whether the two bytes are one unit.
pub fn is_pair(lead: u8, trail: u8) -> bool {
    counter::unit(&[lead, trail]).0 == 2
}

/// Whether the byte begins a pair where a pair's second byte follows.
pub fn is_lead(byte: u8) -> bool {
    is_pair(byte, b'@')
}

/// Whether the bytes are one unit, and one that a name may hold.
pub fn is_unit(bytes: &[u8]) -> bool {
    counter::unit(bytes) == (bytes.len(), 0)
}

/// The first unit for which a name is refused with the number.
fn refused_with(name: &[u8], number: u32) -> Option<&[u8]> {
    units(name).find(|unit| counter::unit(unit).1 == number)
}

/// A path's parts, as lookup cuts it.
pub fn parts(mut path: &[u8]) -> Vec<&[u8]> {
    let mut parts = Vec::new();
    loop {
        let (part, rest) = path.split_at(counter::component(path));
        parts.push(part);
        match rest {
            [_, behind @ ..] => path = behind,
            [] => return parts,
        }
    }
}

/// Whether an entry of an image that opens can be called so.
pub fn is_name(name: &[u8]) -> bool {
    counter::name(name) == 0
}

/// What is wrong with a name, or with a path's parts, that the library refused with 12 or 13.
pub fn trouble(name: &[u8], number: u32) -> Option<String> {
    match number {
        12 => match *refused_with(name, 12)? {
            [lead] if is_lead(lead) => {
                Some(format!("a lead byte {lead:#x} without its trail byte"))
            }
            [byte, ..] => Some(format!("the byte {byte:#04x}")),
            [] => None,
        },
        13 if name.is_empty() => Some("it is empty".into()),
        13 => refused_with(name, 13).map(|unit| format!("it holds {}", unit[0] as char)),
        _ => None,
    }
}

#[cfg(test)]
mod tests {
    use super::*;

    #[test]
    fn a_path_is_cut_at_units() {
        let cases: [(&[u8], &[&[u8]]); 7] = [
            (b"", &[b""]),
            (b"/a\\b/", &[b"", b"a", b"b", b""]),
            (b"\x95\x5c\\\x95\x5c", &[b"\x95\x5c", b"\x95\x5c"]),
            (b"\x81\x81\x5c\x41", &[b"\x81\x81", b"A"]),
            (b"\x81/\x5c", &[b"\x81", b"", b""]),
            (b"\x81\x5c/\x81", &[b"\x81\x5c", b"\x81"]),
            (b"\xb1\\\xdf", &[b"\xb1", b"\xdf"]),
        ];
        for (path, wanted) in cases {
            assert_eq!(parts(path), wanted, "{path:x?}");
        }
    }
}
