//! SHA-256 (FIPS 180-4). Also compiled into the build script, so it knows no other module.

use std::iter;
use std::num::Wrapping;
use std::ops::{Add, BitAnd, BitXor};

/// The first 32 bits of the fractional parts of the cube roots of the first 64 primes.
const K: [u32; 64] = [
    0x428a2f98, 0x71374491, 0xb5c0fbcf, 0xe9b5dba5, 0x3956c25b, 0x59f111f1, 0x923f82a4, 0xab1c5ed5,
    0xd807aa98, 0x12835b01, 0x243185be, 0x550c7dc3, 0x72be5d74, 0x80deb1fe, 0x9bdc06a7, 0xc19bf174,
    0xe49b69c1, 0xefbe4786, 0x0fc19dc6, 0x240ca1cc, 0x2de92c6f, 0x4a7484aa, 0x5cb0a9dc, 0x76f988da,
    0x983e5152, 0xa831c66d, 0xb00327c8, 0xbf597fc7, 0xc6e00bf3, 0xd5a79147, 0x06ca6351, 0x14292967,
    0x27b70a85, 0x2e1b2138, 0x4d2c6dfc, 0x53380d13, 0x650a7354, 0x766a0abb, 0x81c2c92e, 0x92722c85,
    0xa2bfe8a1, 0xa81a664b, 0xc24b8b70, 0xc76c51a3, 0xd192e819, 0xd6990624, 0xf40e3585, 0x106aa070,
    0x19a4c116, 0x1e376c08, 0x2748774c, 0x34b0bcb5, 0x391c0cb3, 0x4ed8aa4a, 0x5b9cca4f, 0x682e6ff3,
    0x748f82ee, 0x78a5636f, 0x84c87814, 0x8cc70208, 0x90befffa, 0xa4506ceb, 0xbef9a3f7, 0xc67178f2,
];

/// The first 32 bits of the fractional parts of the square roots of the first 8 primes.
const START: [u32; 8] = [
    0x6a09e667, 0xbb67ae85, 0x3c6ef372, 0xa54ff53a, 0x510e527f, 0x9b05688c, 0x1f83d9ab, 0x5be0cd19,
];

/// A sum, 32 bytes.
pub type Sum = [u8; 32];

type Block = [u8; 64];

/// A message that comes in parts.
pub struct Sha256 {
    way: Way,
    state: [u32; 8],
    /// The start of a block that is not full yet.
    rest: Vec<u8>,
    length: u64,
}

impl Sha256 {
    pub fn new() -> Sha256 {
        Sha256::by(Way::best())
    }

    fn by(way: Way) -> Sha256 {
        Sha256 { way, state: START, rest: Vec::with_capacity(64), length: 0 }
    }

    pub fn update(&mut self, mut bytes: &[u8]) {
        self.length = self.length.wrapping_add(bytes.len() as u64);
        if !self.rest.is_empty() {
            let taken = bytes.len().min(64 - self.rest.len());
            self.rest.extend(&bytes[..taken]);
            bytes = &bytes[taken..];
            if self.rest.len() < 64 {
                return;
            }
            self.way.blocks(&mut self.state, self.rest.as_chunks().0);
            self.rest.clear();
        }
        let (whole, rest) = bytes.as_chunks();
        self.way.blocks(&mut self.state, whole);
        self.rest.extend(rest);
    }

    /// The message ends here: a bit 1, zeros, and the length in bits.
    pub fn finish(mut self) -> Sum {
        let bits = self.length.wrapping_mul(8);
        let mut end = [0; 64];
        end[0] = 0x80;
        self.update(&end[..64 - (self.rest.len() + 8) % 64]);
        self.update(&bits.to_be_bytes());
        let mut sum = [0; 32];
        for (bytes, word) in sum.chunks_exact_mut(4).zip(self.state) {
            bytes.copy_from_slice(&word.to_be_bytes());
        }
        sum
    }
}

/// By what of the processor sums are made. No value is one that the processor has not.
#[derive(Clone, Copy)]
enum Way {
    Plain,
    #[cfg(target_arch = "x86_64")]
    Wide,
    #[cfg(target_arch = "x86_64")]
    Intel,
}

impl Way {
    fn best() -> Way {
        #[cfg(target_arch = "x86_64")]
        if intel::there() {
            return Way::Intel;
        }
        #[cfg(target_arch = "x86_64")]
        if wide::there() {
            return Way::Wide;
        }
        Way::Plain
    }

    /// Blocks of a message.
    fn blocks(self, state: &mut [u32; 8], blocks: &[Block]) {
        match self {
            Way::Plain => plain(state, blocks),
            // SAFETY: the processor has it.
            #[cfg(target_arch = "x86_64")]
            Way::Wide => unsafe { wide::blocks(state, blocks) },
            // SAFETY: the processor has it.
            #[cfg(target_arch = "x86_64")]
            Way::Intel => unsafe { intel::blocks(state, blocks) },
        }
    }
}

// Without the instructions ----------------------------------------------------------------

/// A word of each of some messages, or of one.
trait Words: Copy + Add<Output = Self> + BitXor<Output = Self> + BitAnd<Output = Self> {
    fn turned(self, count: u32) -> Self;
}

/// A word of each of some blocks, or of one.
trait OfBlocks: Words {
    fn all(word: u32) -> Self;
    fn shifted(self, count: u32) -> Self;
}

impl Words for Wrapping<u32> {
    #[inline(always)]
    fn turned(self, count: u32) -> Self {
        Wrapping(self.0.rotate_right(count))
    }
}

impl OfBlocks for Wrapping<u32> {
    #[inline(always)]
    fn all(word: u32) -> Self {
        Wrapping(word)
    }

    #[inline(always)]
    fn shifted(self, count: u32) -> Self {
        Wrapping(self.0 >> count)
    }
}

/// What the 64 rounds take in, with their constants, from a block's 16 words, which stand first.
#[inline(always)]
fn schedule<W: OfBlocks>(taken: &mut [W; 64]) {
    let with_constant = |word: &mut W, t: usize| *word = *word + W::all(K[t]);
    for t in 16..64 {
        let (early, late) = (taken[t - 15], taken[t - 2]);
        let s0 = early.turned(7) ^ early.turned(18) ^ early.shifted(3);
        let s1 = late.turned(17) ^ late.turned(19) ^ late.shifted(10);
        taken[t] = taken[t - 16] + s0 + taken[t - 7] + s1;
        with_constant(&mut taken[t - 16], t - 16);
    }
    for t in 48..64 {
        with_constant(&mut taken[t], t);
    }
}

/// The 64 rounds of a block of each message.
#[inline(always)]
fn rounds<W: Words>(state: &mut [W; 8], word: impl Fn(usize) -> W) {
    let [mut a, mut b, mut c, mut d, mut e, mut f, mut g, mut h] = *state;
    // The names turn in the place of the values.
    macro_rules! round {
        ($t:expr, $a:ident $b:ident $c:ident $d:ident $e:ident $f:ident $g:ident $h:ident) => {
            let s1 = $e.turned(6) ^ $e.turned(11) ^ $e.turned(25);
            let choice = $g ^ ($e & ($f ^ $g));
            $h = $h + word($t) + choice + s1;
            $d = $d + $h;
            let s0 = $a.turned(2) ^ $a.turned(13) ^ $a.turned(22);
            let majority = $b ^ (($a ^ $b) & ($b ^ $c));
            $h = $h + majority + s0;
        };
    }
    for t in (0..64).step_by(8) {
        round!(t, a b c d e f g h);
        round!(t + 1, h a b c d e f g);
        round!(t + 2, g h a b c d e f);
        round!(t + 3, f g h a b c d e);
        round!(t + 4, e f g h a b c d);
        round!(t + 5, d e f g h a b c);
        round!(t + 6, c d e f g h a b);
        round!(t + 7, b c d e f g h a);
    }
    for (word, more) in state.iter_mut().zip([a, b, c, d, e, f, g, h]) {
        *word = *word + more;
    }
}

fn plain(state: &mut [u32; 8], blocks: &[Block]) {
    let mut sums = state.map(Wrapping);
    for block in blocks {
        let mut taken = [Wrapping(0); 64];
        for (word, bytes) in taken.iter_mut().zip(block.as_chunks().0) {
            *word = Wrapping(u32::from_be_bytes(*bytes));
        }
        schedule(&mut taken);
        rounds(&mut sums, |t| taken[t]);
    }
    *state = sums.map(|word| word.0);
}

/// By vectors of AVX2, which are made by functions for such a processor alone.
#[cfg(target_arch = "x86_64")]
mod wide {
    use super::{Block, LANES, Lane, OfBlocks, STEP, Words, plain, rounds, schedule};
    use std::arch::x86_64::*;
    use std::array::from_fn;
    use std::mem::transmute;
    use std::num::Wrapping;
    use std::ops::{Add, BitAnd, BitXor};

    pub fn there() -> bool {
        is_x86_feature_detected!("avx2")
            && is_x86_feature_detected!("bmi1")
            && is_x86_feature_detected!("bmi2")
    }

    /// A word of each of eight.
    #[derive(Clone, Copy)]
    #[repr(transparent)]
    struct Eight(__m256i);

    /// A word of each of two, in the lower half of 64 bits; what is above it means nothing.
    #[derive(Clone, Copy)]
    struct Two(__m128i);

    macro_rules! operation {
        ($words:ident, $operation:ident, $name:ident, $intrinsic:ident) => {
            impl $operation for $words {
                type Output = Self;
                #[inline(always)]
                fn $name(self, other: Self) -> Self {
                    // SAFETY: there is a vector, so the processor has them.
                    $words(unsafe { $intrinsic(self.0, other.0) })
                }
            }
        };
    }
    operation!(Eight, Add, add, _mm256_add_epi32);
    operation!(Eight, BitXor, bitxor, _mm256_xor_si256);
    operation!(Eight, BitAnd, bitand, _mm256_and_si256);
    operation!(Two, Add, add, _mm_add_epi32);
    operation!(Two, BitXor, bitxor, _mm_xor_si128);
    operation!(Two, BitAnd, bitand, _mm_and_si128);

    impl Words for Eight {
        #[inline(always)]
        fn turned(self, count: u32) -> Self {
            // SAFETY: as above.
            let left = unsafe { _mm256_sll_epi32(self.0, _mm_cvtsi32_si128(32 - count as i32)) };
            self.shifted(count) ^ Eight(left)
        }
    }

    impl OfBlocks for Eight {
        #[inline(always)]
        fn all(word: u32) -> Self {
            // SAFETY: it is asked where there are other vectors.
            Eight(unsafe { _mm256_set1_epi32(word as i32) })
        }

        #[inline(always)]
        fn shifted(self, count: u32) -> Self {
            // SAFETY: as above.
            Eight(unsafe { _mm256_srl_epi32(self.0, _mm_cvtsi32_si128(count as i32)) })
        }
    }

    impl Words for Two {
        /// Where the word stands twice in its 64 bits, one shift turns it.
        #[inline(always)]
        fn turned(self, count: u32) -> Self {
            // SAFETY: as above.
            unsafe {
                let twice = _mm_shuffle_epi32(self.0, 0b10_10_00_00);
                Two(_mm_srl_epi64(twice, _mm_cvtsi32_si128(count as i32)))
            }
        }
    }

    impl Two {
        #[inline(always)]
        fn of(words: [u32; 2]) -> Self {
            // SAFETY: every processor of this kind has it.
            Two(unsafe { _mm_set_epi32(0, words[1] as i32, 0, words[0] as i32) })
        }
    }

    /// What the rounds take in of eight blocks, block by block in each vector.
    #[target_feature(enable = "avx2")]
    #[inline]
    fn take(taken: &mut [Eight; 64], blocks: [&Block; LANES]) {
        let swap = _mm256_set_epi64x(
            0x0c0d_0e0f_0809_0a0b,
            0x0405_0607_0001_0203,
            0x0c0d_0e0f_0809_0a0b,
            0x0405_0607_0001_0203,
        );
        for (quarter, words) in taken[..16].as_chunks_mut::<4>().0.iter_mut().enumerate() {
            let mut rows = [swap; 4];
            for (i, row) in rows.iter_mut().enumerate() {
                let [low, high] = [i, i + 4].map(|i| blocks[i][16 * quarter..][..16].as_ptr());
                // SAFETY: both loads are of these 16 bytes.
                let bytes = unsafe { _mm256_loadu2_m128i(high.cast(), low.cast()) };
                *row = _mm256_shuffle_epi8(bytes, swap);
            }
            // Done twice, it makes columns of rows.
            for _ in 0..2 {
                let [a, b, c, d] = rows;
                rows = [
                    _mm256_unpacklo_epi32(a, c),
                    _mm256_unpackhi_epi32(a, c),
                    _mm256_unpacklo_epi32(b, d),
                    _mm256_unpackhi_epi32(b, d),
                ];
            }
            *words = rows.map(Eight);
        }
        schedule(taken);
    }

    /// The words that the vectors are of.
    fn words(taken: &[Eight; 64]) -> &[[u32; LANES]; 64] {
        // SAFETY: a vector is eight words.
        unsafe { transmute(taken) }
    }

    /// Blocks of one message, eight at once but for the rounds.
    #[target_feature(enable = "avx2,bmi1,bmi2")]
    pub fn blocks(state: &mut [u32; 8], blocks: &[Block]) {
        let mut taken = [Eight::all(0); 64];
        let mut sums = state.map(Wrapping);
        let (eights, rest) = blocks.as_chunks();
        for eight in eights {
            take(&mut taken, eight.each_ref());
            for i in 0..LANES {
                rounds(&mut sums, |t| Wrapping(words(&taken)[t][i]));
            }
        }
        *state = sums.map(|word| word.0);
        plain(state, rest);
    }

    /// As many blocks of two messages.
    #[target_feature(enable = "avx2,bmi1,bmi2")]
    pub fn two(states: &mut [[u32; 8]; 2], messages: [&[Block]; 2]) {
        let mut taken = [[Eight::all(0); 64]; 2];
        let mut sums: [Two; 8] = from_fn(|i| Two::of([states[0][i], states[1][i]]));
        let [(ones, rest), (others, other_rest)] = messages.map(|blocks| blocks.as_chunks());
        for (one, other) in ones.iter().zip(others) {
            take(&mut taken[0], one.each_ref());
            take(&mut taken[1], other.each_ref());
            let [one, other] = taken.each_ref().map(words);
            for i in 0..LANES {
                rounds(&mut sums, |t| Two::of([one[t][i], other[t][i]]));
            }
        }
        states[0] = sums.map(|words| _mm_extract_epi32::<0>(words.0) as u32);
        states[1] = sums.map(|words| _mm_extract_epi32::<2>(words.0) as u32);
        plain(&mut states[0], rest);
        plain(&mut states[1], other_rest);
    }

    /// As many blocks of eight messages.
    #[target_feature(enable = "avx2,bmi1,bmi2")]
    pub fn eight(states: &mut [[u32; 8]; LANES], messages: [&[Block]; LANES]) {
        let mut taken = [Eight::all(0); 64];
        let of_word = |i: usize| -> [u32; LANES] { from_fn(|lane| states[lane][i]) };
        // SAFETY: a vector is eight words.
        let mut sums: [Eight; 8] = from_fn(|i| unsafe { transmute(of_word(i)) });
        for at in 0..messages[0].len() {
            take(&mut taken, messages.map(|blocks| &blocks[at]));
            rounds(&mut sums, |t| taken[t]);
        }
        // SAFETY: as above.
        let sums: [[u32; LANES]; 8] = unsafe { transmute(sums) };
        *states = from_fn(|lane| sums.map(|words| words[lane]));
    }

    /// So many blocks of each message, of which there is one at least and `N` at most.
    fn step<const N: usize>(
        lanes: &mut [Lane],
        count: usize,
        take: impl Fn(&mut [[u32; 8]; N], [&[Block]; N]),
    ) {
        // A place without a message goes with the first, and nobody asks for what it finds.
        let lane = |i: usize| lanes.get(i).unwrap_or(&lanes[0]);
        let mut states = from_fn(|i| lane(i).sha.state);
        let messages = from_fn(|i| &lane(i).left.as_chunks().0[..count]);
        take(&mut states, messages);
        for (lane, state) in lanes.iter_mut().zip(states) {
            lane.sha.state = state;
            lane.sha.length += 64 * count as u64;
            lane.left = &lane.left[64 * count..];
        }
    }

    /// Each message as far as two are left, and then `alone`.
    #[target_feature(enable = "avx2,bmi1,bmi2")]
    pub fn side_by_side<'a>(
        width: usize,
        mut messages: impl Iterator<Item = Lane<'a>>,
        mut alone: impl FnMut(Lane<'a>),
        advance: &impl Fn(usize),
    ) {
        let mut lanes: Vec<Lane> = Vec::with_capacity(width);
        loop {
            lanes.extend(messages.by_ref().take(width - lanes.len()));
            if lanes.len() < 2 {
                return lanes.into_iter().for_each(alone);
            }
            let least = lanes.iter().map(|lane| lane.left.len()).min().unwrap_or(0);
            let count = least.min(STEP) / 64;
            match lanes.len() {
                2 => step(&mut lanes, count, |states, messages| two(states, messages)),
                _ => step(&mut lanes, count, |states, messages| eight(states, messages)),
            }
            advance(64 * count * lanes.len());
            lanes.extract_if(.., |lane| lane.left.len() < 64).for_each(&mut alone);
        }
    }
}

// Many messages ---------------------------------------------------------------------------

/// So many messages go side by side at most.
pub const LANES: usize = 8;

/// A step is so long, so that it is told how far the sums are.
const STEP: usize = 1 << 20;

/// A message on its way.
struct Lane<'a> {
    number: usize,
    sha: Sha256,
    left: &'a [u8],
}

/// Whether two messages take less side by side than one after the other.
pub fn has_lanes() -> bool {
    match Way::best() {
        #[cfg(target_arch = "x86_64")]
        Way::Wide => true,
        _ => false,
    }
}

/// The sums of the messages that `next` gives, each told with its number; `advance` is told how many bytes are done.
/// As many as `width` go side by side where that takes less.
pub fn sums<'a>(
    width: usize,
    next: impl FnMut() -> Option<(usize, &'a [u8])>,
    told: impl FnMut(usize, Sum),
    advance: impl Fn(usize),
) {
    sums_by(Way::best(), width, next, told, advance);
}

fn sums_by<'a>(
    way: Way,
    width: usize,
    next: impl FnMut() -> Option<(usize, &'a [u8])>,
    mut told: impl FnMut(usize, Sum),
    advance: impl Fn(usize),
) {
    let messages =
        iter::from_fn(next).map(|(number, left)| Lane { number, sha: Sha256::by(way), left });
    let alone = |lane: Lane| {
        let Lane { number, mut sha, left } = lane;
        for part in left.chunks(STEP) {
            sha.update(part);
            advance(part.len());
        }
        told(number, sha.finish());
    };
    match (way, width) {
        // SAFETY: the processor has it.
        #[cfg(target_arch = "x86_64")]
        (Way::Wide, 2..) => unsafe { wide::side_by_side(width, messages, alone, &advance) },
        _ => messages.for_each(alone),
    }
}

/// The same by the SHA extensions of x86.
#[cfg(target_arch = "x86_64")]
mod intel {
    use super::{Block, K};
    use std::arch::x86_64::*;

    pub fn there() -> bool {
        is_x86_feature_detected!("sha")
            && is_x86_feature_detected!("ssse3")
            && is_x86_feature_detected!("sse4.1")
    }

    /// The instructions want the words a, b, e, f in one register and c, d, g, h in another.
    #[target_feature(enable = "sha,ssse3,sse4.1")]
    pub fn blocks(state: &mut [u32; 8], blocks: &[Block]) {
        let swap = _mm_set_epi64x(0x0c0d_0e0f_0809_0a0b, 0x0405_0607_0001_0203);
        // SAFETY: each load and store is of 16 bytes of `state`, of a block of 64, or of `K`.
        unsafe {
            let words = state.as_mut_ptr().cast::<__m128i>();
            let first = _mm_shuffle_epi32(_mm_loadu_si128(words), 0xB1);
            let second = _mm_shuffle_epi32(_mm_loadu_si128(words.add(1)), 0x1B);
            let mut abef = _mm_alignr_epi8(first, second, 8);
            let mut cdgh = _mm_blend_epi16(second, first, 0xF0);
            for block in blocks {
                let (old_abef, old_cdgh) = (abef, cdgh);
                let block = block.as_ptr().cast::<__m128i>();
                let mut w = [_mm_setzero_si128(); 4];
                for i in 0..16 {
                    w[i % 4] = match i {
                        0..4 => _mm_shuffle_epi8(_mm_loadu_si128(block.add(i)), swap),
                        _ => {
                            let (w1, w2, w3) = (w[(i + 1) % 4], w[(i + 2) % 4], w[(i + 3) % 4]);
                            let sum = _mm_add_epi32(
                                _mm_sha256msg1_epu32(w[i % 4], w1),
                                _mm_alignr_epi8(w3, w2, 4),
                            );
                            _mm_sha256msg2_epu32(sum, w3)
                        }
                    };
                    let k = _mm_loadu_si128(K.as_ptr().add(4 * i).cast());
                    let k = _mm_add_epi32(w[i % 4], k);
                    cdgh = _mm_sha256rnds2_epu32(cdgh, abef, k);
                    abef = _mm_sha256rnds2_epu32(abef, cdgh, _mm_shuffle_epi32(k, 0x0E));
                }
                abef = _mm_add_epi32(abef, old_abef);
                cdgh = _mm_add_epi32(cdgh, old_cdgh);
            }
            let first = _mm_shuffle_epi32(abef, 0x1B);
            let second = _mm_shuffle_epi32(cdgh, 0xB1);
            _mm_storeu_si128(words, _mm_blend_epi16(first, second, 0xF0));
            _mm_storeu_si128(words.add(1), _mm_alignr_epi8(second, first, 8));
        }
    }
}

/// Bytes as people write a sum: in base sixteen, two digits each.
pub fn hex(bytes: &[u8]) -> String {
    use std::fmt::Write;
    let mut out = String::with_capacity(2 * bytes.len());
    for byte in bytes {
        let _ = write!(out, "{byte:02x}");
    }
    out
}

#[cfg(test)]
mod tests {
    use super::*;
    use std::cell::Cell;
    use std::collections::HashMap;

    fn sum(parts: &[&[u8]]) -> String {
        let mut sha = Sha256::new();
        parts.iter().for_each(|part| sha.update(part));
        hex(&sha.finish())
    }

    /// NIST's examples: FIPS 180-4's "abc" and the message of 448 bits, and from the long and short
    /// message tests of the Cryptographic Algorithm Validation Program the empty one; one million
    /// times "a" from FIPS 180-2, B.3.
    #[test]
    fn nist_vectors() {
        let of_448 = "abcdbcdecdefdefgefghfghighijhijkijkljklmklmnlmnomnopnopq";
        let cases: [(&[u8], &str); 6] = [
            (b"", "e3b0c44298fc1c149afbf4c8996fb92427ae41e4649b934ca495991b7852b855"),
            (b"abc", "ba7816bf8f01cfea414140de5dae2223b00361a396177a9cb410ff61f20015ad"),
            (of_448.as_bytes(), "248d6a61d20638b8e5c026930c3e6039a33ce45964ff2167f6ecedd419db06c1"),
            (&[0xd3], "28969cdfa74a12c82f3bad960b0b000aca2ac329deea5c2328ebc6f2ba9802c1"),
            (&[0x11, 0xaf], "5ca7133fa735326081558ac312c620eeca9970d1e70a4b95533d956f072d1f98"),
            (
                &[0xb4, 0x19, 0x0e],
                "dff2e73091f6c05e528896c4c831b9448653dc2ff043528f6769437bc7b975c2",
            ),
        ];
        for (message, wanted) in cases {
            assert_eq!(sum(&[message]), wanted);
        }
        let million = vec![b'a'; 1_000_000];
        assert_eq!(
            sum(&[&million]),
            "cdc76e5c9914fb9281a1c7e284d73e67f1809a48a497200e046d39ccc7112cd0"
        );
    }

    /// Those that the processor has.
    fn ways() -> Vec<Way> {
        vec![
            #[cfg(target_arch = "x86_64")]
            wide::there().then_some(Way::Wide),
            #[cfg(target_arch = "x86_64")]
            intel::there().then_some(Way::Intel),
            Some(Way::Plain),
        ]
        .into_iter()
        .flatten()
        .collect()
    }

    fn of(message: &[u8], way: Way) -> Sum {
        let mut sha = Sha256::by(way);
        sha.update(message);
        sha.finish()
    }

    fn bytes(count: usize) -> Vec<u8> {
        (0..count as u32).map(|i| (i.wrapping_mul(i) / 11) as u8).collect()
    }

    /// The vectors above go through the best way; the others agree with it.
    #[test]
    fn the_ways_agree() {
        let bytes = bytes(64 * 40);
        for start in 0..9 {
            for end in (start..start + 700).chain(bytes.len() - 70..=bytes.len()) {
                let wanted = of(&bytes[start..end], Way::best());
                for way in ways() {
                    assert_eq!(of(&bytes[start..end], way), wanted, "{start} {end}");
                }
            }
        }
        for way in ways() {
            assert_eq!(
                hex(&of(b"abc", way)),
                "ba7816bf8f01cfea414140de5dae2223b00361a396177a9cb410ff61f20015ad"
            );
        }
    }

    /// Each message has its own sum and is told once, and each byte is counted once.
    fn hold(way: Way, width: usize, messages: &[&[u8]]) {
        let (mut given, mut found) = (messages.iter().copied().enumerate(), HashMap::new());
        let done = Cell::new(0);
        let told = |i, sum| assert_eq!(found.insert(i, sum), None);
        sums_by(way, width, || given.next(), told, |count| done.set(done.get() + count));
        assert_eq!(done.get(), messages.iter().map(|message| message.len()).sum::<usize>());
        for (i, message) in messages.iter().enumerate() {
            assert_eq!(found[&i], of(message, Way::Plain), "{width} {} {i}", messages.len());
        }
    }

    #[test]
    fn messages_side_by_side() {
        let bytes = bytes(40_000);
        for count in 0..30 {
            let message = |i: usize| &bytes[i * 7..][..(i * i * 37) % (1 + 1000 * (count % 7))];
            let messages: Vec<&[u8]> = (0..count).map(message).collect();
            for way in ways() {
                for width in [1, 2, 3, LANES] {
                    hold(way, width, &messages);
                }
            }
        }
    }

    /// Of many lengths about the ends of blocks and of eight blocks, in many places.
    #[test]
    fn two_side_by_side() {
        let bytes = bytes(3000);
        for one in (0..1100).step_by(13) {
            for other in (0..1100).step_by(37) {
                let messages = [&bytes[other % 64..][..one], &bytes[one..][..other]];
                ways().into_iter().for_each(|way| hold(way, 2, &messages));
            }
        }
    }

    #[test]
    fn parts_of_any_length_are_one_message() {
        let bytes: Vec<u8> = (0..300u32).map(|i| (i * 7) as u8).collect();
        let whole = sum(&[&bytes]);
        for first in 0..bytes.len() {
            for second in [first, (first + 1).min(300), (first + 63).min(300), 300] {
                let parts = [&bytes[..first], &bytes[first..second], &bytes[second..]];
                assert_eq!(sum(&parts), whole);
            }
        }
    }
}
