// Compares the library with an independent program on random networks, broken tables and the specification's examples.
// Usage: compare [tiny | quick | full] [seed]. It has C's start, and not Rust's.
#![no_main]
#![allow(unknown_lints)]
#![allow(unexpected_cfgs)]

#[macro_use]
#[path = "../lent_call.rs"]
mod lent_call;

#[path = "../../include/bannogwy.rs"]
mod bannogwy;
mod calls;
mod checks_broken;
mod checks_limits;
mod checks_networks;
mod checks_refusals;
mod checks_smallnet;
mod checks_stacks;
mod least;
mod lent;
mod network;
mod packet;
mod pair;
#[path = "../planted.rs"]
mod planted;
mod quiet;
mod report;
mod rng;
mod scale;
mod shapes;
mod stacks;
mod table;

use scale::{Scale, Size};
use std::ffi::CStr;
use std::os::raw::c_char;

fn argument(argc: i32, argv: *const *const u8, place: i32) -> Option<String> {
    if place >= argc {
        return None;
    }
    let text = unsafe { CStr::from_ptr(*argv.add(place as usize) as *const c_char) };
    Some(text.to_string_lossy().into_owned())
}

#[no_mangle]
pub extern "C" fn main(argc: i32, argv: *const *const u8) -> i32 {
    let size = match argument(argc, argv, 1).as_deref() {
        None | Some("full") => Size::Full,
        Some("quick") => Size::Quick,
        Some("tiny") => Size::Tiny,
        Some(other) => {
            eprintln!("compare: no scale named {}", other);
            return 2;
        }
    };
    let seed = match argument(argc, argv, 2).map(|text| text.parse::<u32>()) {
        None => 1,
        Some(Ok(seed)) => u64::from(seed),
        Some(Err(_)) => {
            eprintln!("compare: the seed is a number below 2^32");
            return 2;
        }
    };
    let scale = Scale { size, seed };
    println!("scale {:?}, seed {}", size, seed);
    let mut report = report::Report::new();
    checks_smallnet::all(&mut report);
    checks_stacks::all(&mut report, &scale);
    checks_refusals::all(&mut report, &scale);
    checks_networks::all(&mut report, &scale);
    checks_broken::all(&mut report, &scale);
    checks_limits::all(&mut report, &scale);
    report.close()
}
