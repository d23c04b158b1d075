// Measures the library's calls against an independent Rust implementation of them, in one process, each figure the median of turns taken alternately.

mod agree;
#[path = "../include/bannogwy.rs"]
mod bannogwy;
mod clock;
mod lent;
mod library;
mod measure_packets;
mod measure_tables;
mod random;
mod report;
#[path = "../tests/compare/rng.rs"]
mod rng;
mod rust_forward;
mod rust_least;
mod rust_network;
mod rust_run;
mod rust_table;

use std::time::Duration;

// how much is measured: `deliveries` is the most of one run, `rounds` how often a set of packets is carried
pub struct Scale {
    turns: clock::Turns,
    deliveries: u32,
    packets: usize,
    rounds: usize,
}

const FULL: Scale =
    Scale { turns: clock::Turns { least: 3, budget: Duration::from_secs(2) }, deliveries: 3_000_000, packets: 4_000, rounds: 20 };

fn measure(report: &mut report::Report, scale: &Scale) -> agree::Outcome {
    agree::everywhere(&mut rng::Rng::new(9), 600)?;
    measure_packets::lookups(report, scale)?;
    measure_tables::runs(report, scale)?;
    measure_tables::growth(report, scale)?;
    measure_packets::carries(report, scale)?;
    measure_tables::whole_tables(report, scale)
}

fn main() {
    let mut report = report::Report::new();
    let status = match measure(&mut report, &FULL) {
        Ok(()) => report.close(),
        Err(text) => {
            eprintln!("bench: {}", text);
            2
        }
    };
    std::process::exit(status);
}
