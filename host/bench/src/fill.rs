//! A fill with a clip of 1 GiB, beside memcpy of the clip and memset of the place that the file leaves.

use crate::giant::{print_head, print_line};
use crate::images::{self, Plan};
use crate::measure::Watch;
use crate::sides::{self, Call, Lent};
use std::rc::Rc;
use std::time::Duration;

const N: usize = 1 << 30;
const DISC_END: u32 = 0x9B00_0000;
const ROUNDS: usize = 9;
const KINDS: [(usize, bool); 4] = [(16, true), (16, false), (16384, true), (16384, false)];
const FILL: &str = "fill with 1 GiB";

/// Name, the file's size before, and the bytes free behind it.
const CASES: [(&str, u32, usize); 5] = [
    ("64 bytes grow", 64, N),
    ("512 MiB grow", 1 << 29, N),
    ("64 bytes go elsewhere", 64, 0),
    ("512 MiB go elsewhere", 1 << 29, 0),
    ("1 GiB stays", 1 << 30, 0),
];

/// An image, and where its file lies before and after.
struct Case {
    plan: Plan,
    from: usize,
    size: usize,
    to: usize,
}

impl Case {
    fn new((entries, sorted): (usize, bool), size: u32, room: usize) -> Self {
        let mut plan = images::plan_with_room(entries, sorted, size, room);
        plan.disc_end = DISC_END;
        let (from, size) = (plan.nodes[plan.file as usize].first as usize, size as usize);
        let to = if size + room < N { plan.free as usize } else { from };
        Self { plan, from, size, to }
    }

    fn moves(&self) -> bool {
        self.to != self.from
    }

    /// The image as it was before the fill.
    fn restore(&self, image: &mut [u8]) {
        image[self.to..][..N].fill(0);
        images::write(&self.plan, image);
    }

    /// What no fill can do without.
    fn copy_and_zero(&self, clip: &[u8], image: &mut [u8]) -> Duration {
        let start = Watch::start();
        image[self.to..][..N].copy_from_slice(clip);
        if self.moves() {
            image[self.from..][..self.size].fill(0);
        }
        start.elapsed()
    }

    /// The shortest times of memcpy and memset, of the Rust and of Counter.
    fn times(&self, clip: &Rc<[u8]>, image: &mut Vec<u8>) -> [Duration; 3] {
        image.fill(0);
        images::write(&self.plan, image);
        let call = Call::Fill(self.plan.file, clip.clone());
        let id = sides::id_of(image, self.plan.file);
        // Without a new table no bytes are wanted.
        let table = if self.size == N { 0 } else { images::table_of(&self.plan.nodes).len() };
        let mut lent = Lent::new(self.plan.nodes.len(), table, 0);

        // Both sides come to the same image.
        sides::rust_edits(&call, image, id);
        assert!(image[self.to..][..N] == clip[..]);
        assert!(!self.moves() || self.to.is_multiple_of(0x8000));
        let after = image.clone();
        self.restore(image);
        assert_eq!(lent.run(&call, image).1, Ok(vec![]));
        assert!(*image == after);
        drop(after);

        let mut best = [Duration::MAX; 3];
        for _ in 0..ROUNDS {
            for (side, best) in best.iter_mut().enumerate() {
                self.restore(image);
                let time = match side {
                    0 => self.copy_and_zero(clip, image),
                    1 => sides::rust_edits(&call, image, id).0,
                    _ => lent.run(&call, image).0,
                };
                *best = (*best).min(time);
                assert!(image[self.to..][..4096] == clip[..4096]);
            }
        }
        best
    }
}

pub fn run(misses: &mut Vec<String>) {
    print_head(FILL);
    let clip = (0..N).map(|i| (i % 251) as u8).collect();
    let mut image = vec![0; DISC_END as usize];
    for kind in KINDS {
        for (name, size, room) in CASES {
            let times = Case::new(kind, size, room).times(&clip, &mut image);
            print_line(misses, FILL, name, kind, times);
        }
    }
}
