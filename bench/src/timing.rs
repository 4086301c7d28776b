//! Times of two sides that do the same work, taken in turn: processor time, which other work on the machine disturbs least.

use std::time::{Duration, Instant};

#[repr(C)]
#[derive(Clone, Copy, Default)]
struct TimeVal {
    seconds: i64,
    micros: i64,
}

/// Linux's `struct rusage`, whose other fields are not read here.
#[repr(C)]
#[derive(Default)]
struct Usage {
    user: TimeVal,
    system: TimeVal,
    others: [i64; 14],
}

unsafe extern "C" {
    fn getrusage(who: i32, usage: *mut Usage) -> i32;
    fn clock_gettime(clock: i32, time: *mut TimeVal) -> i32;
}

const RUSAGE_CHILDREN: i32 = -1;
const CLOCK_THREAD_CPUTIME_ID: i32 = 3;

/// The processor time of all children that have ended, in seconds.
pub fn children_seconds() -> f64 {
    let mut usage = Usage::default();
    assert_eq!(unsafe { getrusage(RUSAGE_CHILDREN, &mut usage) }, 0);
    let seconds = |time: TimeVal| time.seconds as f64 + time.micros as f64 * 1e-6;
    seconds(usage.user) + seconds(usage.system)
}

/// The processor time of this thread, in seconds. The clock's second number is nanoseconds.
fn thread_seconds() -> f64 {
    let mut time = TimeVal::default();
    assert_eq!(
        unsafe { clock_gettime(CLOCK_THREAD_CPUTIME_ID, &mut time) },
        0
    );
    time.seconds as f64 + time.micros as f64 * 1e-9
}

/// The shortest and the middle of some times, in seconds.
#[derive(Clone, Copy)]
pub struct Side {
    pub best: f64,
    pub median: f64,
}

impl Side {
    pub fn of(mut times: Vec<f64>) -> Side {
        times.sort_by(f64::total_cmp);
        Side {
            best: times[0],
            median: times[times.len() / 2],
        }
    }
}

pub struct Times {
    pub ours: Side,
    pub plain: Side,
}

impl Times {
    /// How long ours takes for each second of plain Rust, by the best of each.
    pub fn ratio(&self) -> f64 {
        self.ours.best / self.plain.best
    }

    pub fn median_ratio(&self) -> f64 {
        self.ours.median / self.plain.median
    }
}

/// Runs both sides in turn, for a time in all and at least so many rounds. Short work is done many times for each reading of the clock.
pub fn in_turn(
    least: usize,
    lasting: Duration,
    mut ours: impl FnMut(),
    mut plain: impl FnMut(),
) -> Times {
    let first = Instant::now();
    ours();
    plain();
    let count = 1 + (50e-6 / first.elapsed().as_secs_f64()) as u32;
    let sample = |work: &mut dyn FnMut()| {
        let start = thread_seconds();
        (0..count).for_each(|_| work());
        (thread_seconds() - start) / f64::from(count)
    };
    let mut times = (Vec::new(), Vec::new());
    let start = Instant::now();
    while times.0.len() < least || start.elapsed() < lasting {
        times.0.push(sample(&mut ours));
        times.1.push(sample(&mut plain));
    }
    Times {
        ours: Side::of(times.0),
        plain: Side::of(times.1),
    }
}
