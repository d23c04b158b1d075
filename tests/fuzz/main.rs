// Asks the library for anything at all: raw numbers and slices, mostly not quite right, each answer and each slice compared with an independent
// program's. Usage: fuzz SECONDS [SEED [ROUND]]; a round depends on the seed and its number alone, so that a failure is repeated from there.
#![no_main]
#![allow(unknown_lints)]
#![allow(unexpected_cfgs)]

#[macro_use]
#[path = "../lent_call.rs"]
mod lent_call;

#[path = "../../include/bannogwy.rs"]
mod bannogwy;
mod call;
mod case;
mod draw_call;
mod draw_case;
mod draw_network;
mod draw_numbers;
mod draw_packet;
mod draw_table;
mod memory;
mod met;
mod model;
mod model_headers;
mod model_network;
mod model_packets;
mod model_table;
#[path = "../planted.rs"]
mod planted;
#[allow(dead_code)]
#[path = "../compare/rng.rs"]
mod rng;
mod round;
#[allow(dead_code)]
#[path = "../compare/stacks.rs"]
mod stacks;
mod watch;

use case::Case;
use memory::Vast;
use met::Met;
use std::ffi::CStr;
use std::os::raw::c_char;
use std::time::Instant;

// the number at this place of the command line, or the one given; none where it is no number
fn argument(argc: i32, argv: *const *const c_char, place: i32, other: u64) -> Option<u64> {
    if place >= argc {
        return Some(other);
    }
    unsafe { CStr::from_ptr(*argv.add(place as usize)) }.to_str().ok()?.parse().ok()
}

#[no_mangle]
pub extern "C" fn main(argc: i32, argv: *const *const c_char) -> i32 {
    let numbers = [(1, 10), (2, 1), (3, 0)].map(|(place, other)| argument(argc, argv, place, other));
    match numbers {
        [Some(seconds), Some(seed), Some(round)] => fuzz(seconds, seed, round),
        _ => {
            eprintln!("fuzz: SECONDS, SEED and ROUND are numbers");
            2
        }
    }
}

// rounds until the time is over or one fails; the exit status
fn fuzz(seconds: u64, seed: u64, first: u64) -> i32 {
    let vast = Vast::new();
    println!("seed {}, {} seconds from round {}{}", seed, seconds, first, if vast.is_empty() { ", no slices above 2^32" } else { "" });
    let mut case = Case::new(vast);
    let mut met = Met::new();
    let mut round = first;
    watch::begin(seed);
    let begun = Instant::now();
    while begun.elapsed().as_secs() < seconds {
        watch::round(round);
        if let Err(text) = round::play(&mut case, &mut met, seed, round) {
            println!("mismatch: {}, {}", watch::place(), text);
            return 1;
        }
        round += 1;
    }
    let never = met.print();
    let rate = met.calls() as f64 / begun.elapsed().as_secs_f64();
    println!("{} calls in {} rounds, {:.0} a second; {} kinds of answer never met", met.calls(), round - first, rate, never);
    i32::from(never > 0)
}
