// Times: the same work by both sides in turn, several times over, and the medians.
use crate::lent::{opaque, Side};
use crate::{library, rust_forward};
use std::time::{Duration, Instant};

// nanoseconds
pub struct Medians {
    pub library: f64,
    pub rust: f64,
}

impl Medians {
    pub fn ratio(&self) -> f64 {
        self.library / self.rust
    }

    pub fn each(&self, parts: f64) -> Medians {
        Medians { library: self.library / parts, rust: self.rust / parts }
    }
}

#[repr(C)]
struct Timespec {
    seconds: i64,
    nanoseconds: i64,
}

extern "C" {
    fn clock_gettime(clock: i32, time: *mut Timespec) -> i32;
}

// The processor time of this process: what else runs on the machine then counts little.
fn now() -> f64 {
    const PROCESS_CPUTIME: i32 = 2;
    let mut time = Timespec { seconds: 0, nanoseconds: 0 };
    if unsafe { clock_gettime(PROCESS_CPUTIME, &mut time) } != 0 {
        panic!("no clock");
    }
    time.seconds as f64 * 1e9 + time.nanoseconds as f64
}

pub fn time<T: Copy>(work: impl FnOnce() -> T) -> f64 {
    let start = now();
    opaque(work());
    now() - start
}

// the time of one call, from as many of them as take about a millisecond
pub fn time_of_one<T: Copy>(mut call: impl FnMut() -> T) -> f64 {
    let (start, mut calls, mut took) = (now(), 0.0, 0.0);
    while took < 1e6 {
        opaque(call());
        calls += 1.0;
        took = now() - start;
    }
    took / calls
}

fn median(mut times: Vec<f64>) -> f64 {
    times.sort_by(|a, b| a.total_cmp(b));
    let middle = times.len() / 2;
    if times.len() % 2 == 1 {
        times[middle]
    } else {
        (times[middle - 1] + times[middle]) / 2.0
    }
}

// how often and how long a figure is measured: `least` turns, then as many as the budget allows, up to 31
pub struct Turns {
    pub least: usize,
    pub budget: Duration,
}

// of the least turns
pub fn median_of(turns: &Turns, mut timed: impl FnMut() -> f64) -> f64 {
    median((0..turns.least).map(|_| timed()).collect())
}

// `timed` does the work with the calls of one side and answers how long it took
pub fn alternate(turns: &Turns, mut timed: impl FnMut(&Side) -> f64) -> Medians {
    let start = Instant::now();
    let (mut library, mut rust) = (Vec::new(), Vec::new());
    while library.len() < turns.least || (library.len() < 31 && start.elapsed() < turns.budget) {
        library.push(timed(&library::SIDE));
        rust.push(timed(&rust_forward::SIDE));
    }
    Medians { library: median(library), rust: median(rust) }
}
