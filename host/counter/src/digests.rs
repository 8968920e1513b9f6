//! CRC32, MD5 (RFC 1321) and SHA-1 (FIPS 180-4), by which public databases know a disc. They guard nothing: whoever
//! wants can make another file with the same.

use crate::sha256::hex;
use std::thread;

pub const NAMES: [&str; 3] = ["crc32", "md5", "sha1"];

/// The three sums of the bytes, with their names.
pub fn digests(bytes: &[u8]) -> Vec<(&'static str, String)> {
    let sums: [fn(&[u8]) -> String; 3] = [
        |bytes| format!("{:08x}", crc32(bytes)),
        |bytes| hex(&md5(bytes)),
        |bytes| hex(&sha1(bytes)),
    ];
    thread::scope(|scope| {
        // Where no thread can be had, this one does it.
        let worker = |sum: fn(&[u8]) -> String| {
            let worker = thread::Builder::new().spawn_scoped(scope, move || sum(bytes));
            worker.map_err(|_| sum)
        };
        let work: Vec<_> = sums.into_iter().map(worker).collect();
        let found = work.into_iter().map(|worker| match worker {
            Ok(worker) => worker.join().expect("a sum"),
            Err(sum) => sum(bytes),
        });
        NAMES.into_iter().zip(found).collect()
    })
}

/// The polynomial of zip and Ethernet, bits reversed. Eight bytes at a time.
fn crc32(bytes: &[u8]) -> u32 {
    let step = |c: u32| if c & 1 == 1 { (c >> 1) ^ 0xEDB8_8320 } else { c >> 1 };
    let mut tables = [[0u32; 256]; 8];
    for i in 0..256u32 {
        tables[0][i as usize] = (0..8).fold(i, |c, _| step(c));
    }
    for t in 1..8 {
        for i in 0..256 {
            let c = tables[t - 1][i];
            tables[t][i] = (c >> 8) ^ tables[0][(c & 0xFF) as usize];
        }
    }
    let mut crc = !0u32;
    let eights = bytes.chunks_exact(8);
    let rest = eights.remainder();
    for eight in eights {
        let word = u64::from_le_bytes(eight.try_into().expect("eight bytes")) ^ u64::from(crc);
        let each = word.to_le_bytes().into_iter().zip(tables.iter().rev());
        crc = each.fold(0, |crc, (byte, table)| crc ^ table[usize::from(byte)]);
    }
    !rest.iter().fold(crc, |crc, &b| (crc >> 8) ^ tables[0][usize::from(crc as u8 ^ b)])
}

/// The blocks of 64 bytes of a message: itself, a bit 1, zeros, and its length in bits.
fn blocks(bytes: &[u8], length: [u8; 8], mut block: impl FnMut(&[u8])) {
    let whole = bytes.chunks_exact(64);
    let mut end = [whole.remainder(), &[0x80]].concat();
    whole.for_each(&mut block);
    while end.len() % 64 != 56 {
        end.push(0);
    }
    end.extend(length);
    end.chunks_exact(64).for_each(block);
}

/// The i-th four bytes of a block.
fn four(block: &[u8], i: usize) -> [u8; 4] {
    block[4 * i..4 * i + 4].try_into().expect("four bytes")
}

fn added<const N: usize>(state: &mut [u32; N], more: [u32; N]) {
    for (word, more) in state.iter_mut().zip(more) {
        *word = word.wrapping_add(more);
    }
}

fn md5(bytes: &[u8]) -> Vec<u8> {
    const TURNS: [[u32; 4]; 4] =
        [[7, 12, 17, 22], [5, 9, 14, 20], [4, 11, 16, 23], [6, 10, 15, 21]];
    // RFC 1321: 4294967296 times abs(sin(i)), i in radians.
    let sines: [u32; 64] =
        std::array::from_fn(|i| (((i + 1) as f64).sin().abs() * 4_294_967_296.0) as u32);
    let mut state = [0x6745_2301u32, 0xEFCD_AB89, 0x98BA_DCFE, 0x1032_5476];
    let bits = (bytes.len() as u64).wrapping_mul(8).to_le_bytes();
    blocks(bytes, bits, |block| {
        let words: [u32; 16] = std::array::from_fn(|i| u32::from_le_bytes(four(block, i)));
        let [mut a, mut b, mut c, mut d] = state;
        for i in 0..64 {
            let (f, at) = match i / 16 {
                0 => ((b & c) | (!b & d), i),
                1 => ((d & b) | (!d & c), (5 * i + 1) % 16),
                2 => (b ^ c ^ d, (3 * i + 5) % 16),
                _ => (c ^ (b | !d), 7 * i % 16),
            };
            let sum = a.wrapping_add(f).wrapping_add(sines[i]).wrapping_add(words[at]);
            (a, d, c) = (d, c, b);
            b = b.wrapping_add(sum.rotate_left(TURNS[i / 16][i % 4]));
        }
        added(&mut state, [a, b, c, d]);
    });
    state.map(u32::to_le_bytes).concat()
}

fn sha1(bytes: &[u8]) -> Vec<u8> {
    let mut state = [0x6745_2301u32, 0xEFCD_AB89, 0x98BA_DCFE, 0x1032_5476, 0xC3D2_E1F0];
    let bits = (bytes.len() as u64).wrapping_mul(8).to_be_bytes();
    blocks(bytes, bits, |block| {
        let mut words = [0u32; 80];
        for i in 0..80 {
            words[i] = match i {
                0..16 => u32::from_be_bytes(four(block, i)),
                _ => words[i - 3] ^ words[i - 8] ^ words[i - 14] ^ words[i - 16],
            };
            words[i] = if i < 16 { words[i] } else { words[i].rotate_left(1) };
        }
        let [mut a, mut b, mut c, mut d, mut e] = state;
        for (i, word) in words.into_iter().enumerate() {
            let (f, k) = match i / 20 {
                0 => ((b & c) | (!b & d), 0x5A82_7999u32),
                1 => (b ^ c ^ d, 0x6ED9_EBA1),
                2 => ((b & c) | (b & d) | (c & d), 0x8F1B_BCDC),
                _ => (b ^ c ^ d, 0xCA62_C1D6),
            };
            let sum = [f, e, k, word].into_iter().fold(a.rotate_left(5), u32::wrapping_add);
            (e, d, c, b, a) = (d, c, b.rotate_left(30), a, sum);
        }
        added(&mut state, [a, b, c, d, e]);
    });
    state.map(u32::to_be_bytes).concat()
}

#[cfg(test)]
mod tests {
    use super::*;

    /// RFC 1321's and FIPS 180's examples, and the check value of CRC32's catalogue.
    #[test]
    fn known_sums() {
        assert_eq!(crc32(b"123456789"), 0xCBF4_3926);
        assert_eq!(crc32(b""), 0);
        let long =
            b"12345678901234567890123456789012345678901234567890123456789012345678901234567890";
        for (message, sum) in [
            (&b""[..], "d41d8cd98f00b204e9800998ecf8427e"),
            (b"abc", "900150983cd24fb0d6963f7d28e17f72"),
            (long, "57edf4a22be3c955ac49da2e2107b67a"),
        ] {
            assert_eq!(hex(&md5(message)), sum);
        }
        let two = b"abcdbcdecdefdefgefghfghighijhijkijkljklmklmnlmnomnopnopq";
        for (message, sum) in [
            (&b"abc"[..], "a9993e364706816aba3e25717850c26c9cd0d89d"),
            (two, "84983e441c3bd26ebaae4aa1f95129e5e54670f1"),
            (&[b'a'; 1_000_000], "34aa973cd4c4daa4f61eeb2bdbad27316534016f"),
        ] {
            assert_eq!(hex(&sha1(message)), sum);
        }
    }
}
