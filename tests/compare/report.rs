// Counts what was compared, by kind, and which groups of checks passed.
use std::fmt::Debug;
use std::time::Instant;

// Ok, or the text of the first mismatch
pub type Outcome = Result<(), String>;

#[derive(Clone, Copy)]
pub enum Kind {
    Fresh,
    Count,
    First,
    Delivery,
    RefusedDelivery,
    Run,
    Row,
    LeastCost,
    Lookup,
    Carry,
    Hop,
    Packet,
    Refusal,
    Stack,
    Example,
}

const NAMES: [&str; 15] = [
    "fresh tables",
    "counts",
    "first waiting",
    "deliveries",
    "refused deliveries",
    "runs",
    "rows",
    "least costs",
    "lookups",
    "carries",
    "hops of packets under way",
    "packets under way",
    "refused calls",
    "stack routines",
    "printed examples",
];

pub struct Report {
    pub networks: u64,
    counts: [u64; 15],
    refusals: [u64; 10], // how often each refusal number was the right answer
    passed: u64,
    failed: u64,
}

impl Report {
    pub fn new() -> Report {
        Report { networks: 0, counts: [0; 15], refusals: [0; 10], passed: 0, failed: 0 }
    }

    pub fn count(&mut self, kind: Kind, many: u64) {
        self.counts[kind as usize] += many;
    }

    pub fn met(&mut self, refusal: u64) {
        self.refusals[refusal as usize] += 1;
    }

    // compares one answer; `call` says which one
    pub fn same<T: PartialEq + Debug>(&mut self, kind: Kind, got: T, want: T, call: impl Fn() -> String) -> Outcome {
        self.counts[kind as usize] += 1;
        if got == want {
            Ok(())
        } else {
            Err(format!("{}\n  library:     {:?} (hex {:x?})\n  independent: {:?} (hex {:x?})", call(), got, got, want, want))
        }
    }

    // runs one group of checks, which ends at its first mismatch
    pub fn group(&mut self, name: &str, body: impl FnOnce(&mut Report) -> Outcome) {
        let begun = Instant::now();
        let outcome = body(self);
        let seconds = begun.elapsed().as_secs_f64();
        match outcome {
            Ok(()) => {
                self.passed += 1;
                println!("ok   {} ({:.2} s)", name, seconds);
            }
            Err(text) => {
                self.failed += 1;
                println!("FAIL {} ({:.2} s)\nmismatch: {}", name, seconds, text);
            }
        }
    }

    // prints the counts and the closing line; answers the exit status
    pub fn close(&self) -> i32 {
        let answers: u64 = self.counts.iter().sum();
        println!("{} networks, {} answers compared:", self.networks, answers);
        for (name, count) in NAMES.iter().zip(self.counts.iter()) {
            println!("  {:>9} {}", count, name);
        }
        let met: Vec<String> = (1..10).map(|i| format!("{}: {}", i, self.refusals[i])).collect();
        println!("among them refusals {}", met.join(", "));
        println!("{} passed, {} failed", self.passed, self.failed);
        i32::from(self.failed != 0)
    }
}
