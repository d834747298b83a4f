//! Times several ways of doing the same, by turns.

use crate::port::{stand_at, PLACES};
use crate::table::geometric_mean;
use std::hint::black_box;
use std::sync::OnceLock;
use std::time::Duration;

/// Rounds at each place of the port, of one batch of calls on every side; where so many would be long, no more than these or
/// than go into that time of the processor.
pub const ROUNDS: usize = 7;
pub const FEWEST_ROUNDS: usize = 3;
pub const LONGEST: Duration = Duration::from_millis(1000);

/// How long a batch takes, about.
pub const BATCH: Duration = Duration::from_millis(2);

/// Copies of inputs are made for as many calls as go into a cache, but not for more than so many; and so many calls on
/// copies, or on copies of so many bytes, are a batch at most.
const CACHE_BYTES: usize = 1 << 18;
const MOST_COPIES: usize = 64;
const MOST_CALLS_ON_COPIES: usize = 256;
const MOST_COPIED_BYTES: usize = 1 << 26;

/// One of the ways: it makes so many calls and says how long they took.
pub struct Side<'a> {
    timed: Box<dyn FnMut(usize) -> Duration + 'a>,
    most: usize,
}

impl<'a> Side<'a> {
    /// Calls on the inputs by turns, which are left as they are.
    pub fn new<T, R>(inputs: &'a [T], mut call: impl FnMut(&T) -> R + 'a) -> Self {
        let mut turns = inputs.iter().cycle();
        let timed = move |calls: usize| {
            time(|| {
                for input in turns.by_ref().take(calls) {
                    black_box(call(black_box(input)));
                }
            })
        };
        Side {
            timed: Box::new(timed),
            most: usize::MAX,
        }
    }

    /// Calls that change what they are given: a copy of each input in turn, of about so many bytes. It is made before, and
    /// dropped after, outside of what is timed.
    pub fn on_copies<T: Clone, R>(
        inputs: &'a [T],
        bytes: usize,
        mut call: impl FnMut(&mut T) -> R + 'a,
    ) -> Self {
        let bytes = bytes.max(1);
        let at_a_time = (CACHE_BYTES / bytes).clamp(1, MOST_COPIES);
        let mut turns = inputs.iter().cycle();
        let timed = move |calls: usize| {
            let mut left = calls;
            let mut taken = Duration::ZERO;
            while left > 0 {
                let now = turns.by_ref().take(left.min(at_a_time));
                let mut copies: Vec<T> = now.cloned().collect();
                left -= copies.len();
                taken += time(|| {
                    for copy in &mut copies {
                        black_box(call(black_box(copy)));
                    }
                });
            }
            taken
        };
        Side {
            timed: Box::new(timed),
            most: (MOST_COPIED_BYTES / bytes).clamp(1, MOST_CALLS_ON_COPIES),
        }
    }

    /// How many calls fill a batch.
    fn batch_size(&mut self) -> usize {
        let mut calls = 1;
        loop {
            let taken = (self.timed)(calls);
            if calls >= self.most {
                return self.most;
            }
            if taken >= BATCH / 4 {
                let fill = BATCH.as_nanos() * calls as u128 / taken.as_nanos();
                return (fill as usize).clamp(1, self.most);
            }
            calls *= 2;
        }
    }
}

/// The nanoseconds that a call takes, for each side: the geometric mean over the places of the median at each.
pub fn medians(mut sides: Vec<Side>) -> Vec<f64> {
    let calls: Vec<usize> = sides.iter_mut().map(Side::batch_size).collect();
    let mut times = vec![vec![vec![]; PLACES]; sides.len()];
    let start = processor_time();
    for round in 0..ROUNDS {
        if round >= FEWEST_ROUNDS && processor_time() - start > LONGEST {
            break;
        }
        for place in 0..PLACES {
            stand_at(place);
            // Whatever slows one side of a round down falls to the others as often.
            for turn in 0..sides.len() {
                let side = (round + place + turn) % sides.len();
                let taken = (sides[side].timed)(calls[side]);
                times[side][place].push(taken.as_nanos() as f64 / calls[side] as f64);
            }
        }
    }
    let over_places = |times: Vec<Vec<f64>>| geometric_mean(times.into_iter().map(median));
    times.into_iter().map(over_places).collect()
}

fn median<T: PartialOrd + Copy>(mut times: Vec<T>) -> T {
    times.sort_by(|a, b| a.partial_cmp(b).expect("times can be compared"));
    times[times.len() / 2]
}

/// What a long call answers, and the least time of three.
pub fn fewest<R>(mut call: impl FnMut() -> R) -> (R, Duration) {
    let mut timed = || {
        let mut answer = None;
        let taken = time(|| answer = Some(black_box(call())));
        (answer.expect("it was called"), taken)
    };
    let more = [timed(), timed()];
    more.into_iter().fold(
        timed(),
        |least, next| {
            if next.1 < least.1 {
                next
            } else {
                least
            }
        },
    )
}

/// The processor's time for some work, without what taking the time takes.
fn time(work: impl FnOnce()) -> Duration {
    static OF_NOTHING: OnceLock<Duration> = OnceLock::new();
    let nothing = || median((0..1001).map(|_| raw_time(|| ())).collect());
    let taken = raw_time(work).saturating_sub(*OF_NOTHING.get_or_init(nothing));
    taken.max(Duration::from_nanos(1))
}

fn raw_time(work: impl FnOnce()) -> Duration {
    let start = processor_time();
    work();
    processor_time() - start
}

/// How long this thread has had a processor: what else runs on the machine does not count.
fn processor_time() -> Duration {
    #[repr(C)]
    struct Time {
        seconds: i64,
        nanoseconds: i64,
    }
    extern "C" {
        fn clock_gettime(clock: i32, time: *mut Time) -> i32;
    }
    const THREAD_PROCESSOR_TIME: i32 = 3;
    let mut time = Time {
        seconds: 0,
        nanoseconds: 0,
    };
    // SAFETY: the C library, with which every Rust program on Linux is linked, writes one such record.
    let failed = unsafe { clock_gettime(THREAD_PROCESSOR_TIME, &mut time) };
    assert_eq!(failed, 0, "Linux has this clock");
    Duration::new(time.seconds as u64, time.nanoseconds as u32)
}
