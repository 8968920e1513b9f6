//! Times: interleaved runs, and the shortest of them.

use std::time::{Duration, Instant};

/// Rounds of one case: at least `LEAST`, then until its time, as a rule `BUDGET`, has passed or there are `MOST`.
const LEAST: usize = 15;
const MOST: usize = 3000;
const BUDGET: Duration = Duration::from_millis(400);

/// The shortest times of some contenders, one run of each in turn.
pub fn shortest<const N: usize>(round: impl FnMut(usize) -> Duration) -> [Duration; N] {
    shortest_within(BUDGET, round)
}

pub fn shortest_within<const N: usize>(
    budget: Duration,
    mut round: impl FnMut(usize) -> Duration,
) -> [Duration; N] {
    let mut best = [Duration::MAX; N];
    let start = Instant::now();
    let mut rounds = 0;
    while rounds < LEAST || rounds < MOST && start.elapsed() < budget {
        for (side, best) in best.iter_mut().enumerate() {
            *best = (*best).min(round(side));
        }
        rounds += 1;
    }
    best
}

/// For where a few percent count: as many rounds as there is time for, and of each contender the time that nine runs of ten take at
/// least, which neither others at work nor a clock that is set make another.
pub fn tenth<const N: usize>(
    budget: Duration,
    mut round: impl FnMut(usize) -> Duration,
) -> [Duration; N] {
    let mut times = [const { vec![] }; N];
    let start = Instant::now();
    while times[0].len() < LEAST || start.elapsed() < budget {
        for (side, times) in times.iter_mut().enumerate() {
            times.push(round(side));
        }
    }
    times.map(|mut times| {
        times.sort();
        times[times.len() / 10]
    })
}

#[repr(C)]
struct Timespec {
    seconds: i64,
    nanos: i64,
}

unsafe extern "C" {
    fn clock_gettime(clock: i32, time: *mut Timespec) -> i32;
}

/// Linux's number of the clock that runs while this thread does.
const CLOCK_THREAD_CPUTIME_ID: i32 = 3;

/// The time that this thread has run: long runs are not charged for what others did meanwhile.
pub fn thread_time() -> Duration {
    let mut time = Timespec { seconds: 0, nanos: 0 };
    assert_eq!(unsafe { clock_gettime(CLOCK_THREAD_CPUTIME_ID, &mut time) }, 0);
    Duration::new(time.seconds as u64, time.nanos as u32)
}

/// The time of one call: by the clock, or, where it is long enough for others to run meanwhile, by the thread's own time.
pub struct Watch {
    thread: Duration,
    clock: Instant,
}

const LONG: Duration = Duration::from_micros(200);

impl Watch {
    pub fn start() -> Self {
        Self { thread: thread_time(), clock: Instant::now() }
    }

    pub fn elapsed(&self) -> Duration {
        let time = self.clock.elapsed();
        if time < LONG { time } else { time.min(thread_time() - self.thread) }
    }
}

pub fn micros(time: Duration) -> String {
    let micros = time.as_nanos() as f64 / 1000.0;
    match micros {
        m if m < 100.0 => format!("{m:.2}"),
        m if m < 10_000.0 => format!("{m:.0}"),
        m => format!("{:.1} ms", m / 1000.0),
    }
}

pub fn ratio(a: Duration, b: Duration) -> f64 {
    a.as_nanos() as f64 / b.as_nanos().max(1) as f64
}

/// The parts of an image that an edit changes, to put them back between two runs.
pub struct Undo {
    blocks: Vec<(usize, Vec<u8>)>,
}

const BLOCK: usize = 4096;

impl Undo {
    pub fn between(before: &[u8], after: &[u8]) -> Self {
        assert_eq!(before.len(), after.len());
        let pairs = before.chunks(BLOCK).zip(after.chunks(BLOCK)).enumerate();
        let blocks = pairs
            .filter(|(_, (old, new))| old != new)
            .map(|(i, (old, _))| (i * BLOCK, old.to_vec()))
            .collect();
        Self { blocks }
    }

    pub fn apply(&self, image: &mut [u8]) {
        for (at, old) in &self.blocks {
            image[*at..*at + old.len()].copy_from_slice(old);
        }
    }
}
