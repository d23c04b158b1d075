// Where the run is, said also when a call faults or does not end, so that it can be repeated from its seed and round.
use crate::call::KINDS;
use std::os::raw::{c_int, c_uint, c_void};
use std::sync::atomic::{AtomicU64, AtomicUsize, Ordering::Relaxed};

extern "C" {
    fn signal(number: c_int, handler: extern "C" fn(c_int)) -> usize;
    fn alarm(seconds: c_uint) -> c_uint;
    fn write(file: c_int, bytes: *const c_void, len: usize) -> isize;
    fn _exit(status: c_int) -> !;
}

#[cfg(address_checks)]
extern "C" {
    fn __sanitizer_set_death_callback(callback: extern "C" fn());
}

const PATIENCE: c_uint = 120; // seconds
const SIGNALS: [(c_int, &str); 6] = [
    (4, "an illegal instruction"),
    (6, "an abort"),
    (7, "a bus error"),
    (8, "an arithmetic fault"),
    (11, "an access outside the slices"),
    (14, "no end in sight"),
];

static SEED: AtomicU64 = AtomicU64::new(0);
static ROUND: AtomicU64 = AtomicU64::new(0);
static CALL: AtomicU64 = AtomicU64::new(0);
static KIND: AtomicUsize = AtomicUsize::new(0);

pub fn begin(seed: u64) {
    SEED.store(seed, Relaxed);
    for (number, _) in SIGNALS {
        unsafe { signal(number, faulted) };
    }
    #[cfg(address_checks)]
    unsafe {
        __sanitizer_set_death_callback(dying)
    };
}

// each 64th round winds the alarm up again
pub fn round(round: u64) {
    ROUND.store(round, Relaxed);
    if round % 64 == 0 {
        unsafe { alarm(PATIENCE) };
    }
}

pub fn call(number: u64, kind: usize) {
    CALL.store(number, Relaxed);
    KIND.store(kind, Relaxed);
}

fn say(text: &str) {
    unsafe { write(2, text.as_ptr() as *const c_void, text.len()) };
}

// a number in decimal, without asking for memory
fn say_number(text: &str, number: u64) {
    if number > 9 {
        say_number(text, number / 10);
    } else {
        say(text);
    }
    let digit = (number % 10) as usize;
    say(&"0123456789"[digit..digit + 1]);
}

extern "C" fn faulted(signal: c_int) {
    say("\nfault: ");
    say(SIGNALS.iter().find(|(number, _)| *number == signal).map_or("a signal", |(_, text)| text));
    dying();
    unsafe { _exit(1) };
}

// one plain step after the other: the stack may not be aligned here as compiled loops over arrays expect
extern "C" fn dying() {
    say("\nin ");
    say(KINDS[KIND.load(Relaxed)].name);
    say_number(", seed ", SEED.load(Relaxed));
    say_number(" round ", ROUND.load(Relaxed));
    say_number(" call ", CALL.load(Relaxed));
    say("\n");
}

// the same of a mismatch
pub fn place() -> String {
    let [seed, round, call] = [&SEED, &ROUND, &CALL].map(|number| number.load(Relaxed));
    format!("seed {} round {} call {}", seed, round, call)
}
