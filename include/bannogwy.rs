// The library's calls for Rust, as bannogwy.h declares and explains them. Take it into a program by
//     #[path = ".../include/bannogwy.rs"]
//     mod bannogwy;
// and link the library: rustc -L native=target/staticlib -l static=bannogwy
#![allow(dead_code)]

#[repr(C)]
#[derive(Clone, Copy, Default, Debug, PartialEq, Eq)]
pub struct Tally {
    pub deliveries: u32,
    pub offers: u32,
    pub refused: u32,
}

// an answer is refused where the top bit is set, and then its low bits are the refusal's number
pub fn is_refused(answer: u64) -> bool {
    answer >> 63 == 1
}

pub fn refusal(answer: u64) -> u32 {
    if is_refused(answer) {
        (answer & 255) as u32
    } else {
        0
    }
}

// whether a lookup says forward, or first waiting found a message
pub fn is_found(answer: u64) -> bool {
    answer >> 62 & 1 == 1
}

// of a lookup that says forward: the next node, the function to apply first, the number of the stack after it, and the row's cost
pub fn forward(answer: u64) -> (usize, usize, usize, u32) {
    ((answer >> 56 & 63) as usize, (answer >> 48 & 255) as usize, (answer >> 32 & 65_535) as usize, answer as u32)
}

// of a message that first waiting found: sender, receiver, destination and stack number
pub fn message(answer: u64) -> (usize, usize, usize, usize) {
    ((answer >> 56 & 63) as usize, (answer >> 48 & 255) as usize, (answer >> 40 & 255) as usize, answer as u32 as usize)
}

#[rustfmt::skip]
extern "C" {
    pub fn bannogwy_fresh(
        n: usize, p: usize, h: usize, links: *const u16, links_len: usize, functions: *const u16, functions_len: usize,
        cost: *mut u32, cost_len: usize, way: *mut u16, way_len: usize, waiting: *mut u32, waiting_len: usize,
    ) -> u64;
    pub fn bannogwy_count(
        n: usize, p: usize, h: usize, links: *const u16, links_len: usize, functions: *const u16, functions_len: usize,
        cost: *const u32, cost_len: usize, way: *const u16, way_len: usize, waiting: *const u32, waiting_len: usize,
    ) -> u64;
    pub fn bannogwy_first_waiting(
        n: usize, p: usize, h: usize, links: *const u16, links_len: usize, functions: *const u16, functions_len: usize,
        cost: *const u32, cost_len: usize, way: *const u16, way_len: usize, waiting: *const u32, waiting_len: usize,
    ) -> u64;
    pub fn bannogwy_deliver(
        n: usize, p: usize, h: usize, links: *const u16, links_len: usize, functions: *const u16, functions_len: usize,
        cost: *mut u32, cost_len: usize, way: *mut u16, way_len: usize, waiting: *mut u32, waiting_len: usize,
        sender: usize, receiver: usize, destination: usize, number: usize,
    ) -> u64;
    pub fn bannogwy_run(
        n: usize, p: usize, h: usize, links: *const u16, links_len: usize, functions: *const u16, functions_len: usize,
        cost: *mut u32, cost_len: usize, way: *mut u16, way_len: usize, waiting: *mut u32, waiting_len: usize,
        limit: u32, answer: *mut u64, answer_len: usize,
    ) -> u64;
    pub fn bannogwy_lookup(
        n: usize, p: usize, h: usize, links: *const u16, links_len: usize, functions: *const u16, functions_len: usize,
        cost: *const u32, cost_len: usize, way: *const u16, way_len: usize, waiting: *const u32, waiting_len: usize,
        node: usize, destination: usize, stack: *const u8, stack_len: usize,
    ) -> u64;
    pub fn bannogwy_carry(
        n: usize, p: usize, h: usize, links: *const u16, links_len: usize, functions: *const u16, functions_len: usize,
        cost: *const u32, cost_len: usize, way: *const u16, way_len: usize, waiting: *const u32, waiting_len: usize,
        node: usize, destination: usize, stack: *const u8, stack_len: usize, limit: usize, answer: *mut u64, answer_len: usize,
    ) -> u64;
    pub fn bannogwy_stack_count(p: usize, h: usize) -> u64;
    pub fn bannogwy_number_of(p: usize, h: usize, stack: *const u8, stack_len: usize) -> u64;
    pub fn bannogwy_stack_of(p: usize, h: usize, number: usize, out: *mut u8, out_len: usize) -> u64;
    pub fn bannogwy_applied(p: usize, h: usize, function: usize, number: usize) -> u64;
    pub fn bannogwy_inverse_of(p: usize, function: usize) -> u64;
    pub fn bannogwy_read_stack(
        h: usize, packet: *const u8, packet_len: usize, out: *mut u8, out_len: usize, answer: *mut u64, answer_len: usize,
    ) -> u64;
    pub fn bannogwy_tally_add(tally: *mut Tally, deliveries: u64, offers: u64, refused: u32);
}
