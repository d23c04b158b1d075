// The library's calls on slices that lie between guards.
pub use crate::bannogwy::is_refused;
use crate::bannogwy::{
    bannogwy_applied, bannogwy_carry, bannogwy_count, bannogwy_deliver, bannogwy_first_waiting, bannogwy_fresh, bannogwy_inverse_of,
    bannogwy_lookup, bannogwy_number_of, bannogwy_run, bannogwy_stack_count, bannogwy_stack_of,
};
use crate::lent::{Lent, Word};
use crate::network::Network;

const FLAG: u64 = 1 << 62;

pub fn refused(number: u64) -> u64 {
    1 << 63 | number
}

// a first waiting message, and a forward, as the header packs them
pub fn first_word(sender: usize, receiver: usize, destination: usize, number: usize) -> u64 {
    FLAG | (sender as u64) << 56 | (receiver as u64) << 48 | (destination as u64) << 40 | number as u64
}

pub fn forward_word(next: usize, function: usize, number: usize, cost: u32) -> u64 {
    FLAG | (next as u64) << 56 | (function as u64) << 48 | (number as u64) << 32 | u64::from(cost)
}

// what an answer slice holds before a call
pub fn untouched(len: usize) -> Vec<u64> {
    Lent::<u64>::junk(len).part().to_vec()
}

// the whole of what a call is lent. `thorough`: compare every slice with the kept copy at each call.
pub struct Case {
    pub n: usize,
    pub p: usize,
    pub h: usize,
    pub links: Lent<u16>,
    pub functions: Lent<u16>,
    pub cost: Lent<u32>,
    pub way: Lent<u16>,
    pub waiting: Lent<u32>,
    pub thorough: bool,
}

fn intact<T: Word>(name: &str, slice: &str, lent: &Lent<T>) -> Result<(), String> {
    if lent.guards_hold() {
        Ok(())
    } else {
        Err(format!("{} wrote beside the slice `{}`", name, slice))
    }
}

fn unchanged<T: Word>(name: &str, slice: &str, lent: &Lent<T>) -> Result<(), String> {
    if lent.is_kept() {
        Ok(())
    } else {
        Err(format!("{} changed the slice `{}`", name, slice))
    }
}

impl Case {
    // the network with a table full of junk
    pub fn new(net: &Network) -> Case {
        let rows = net.rows();
        Case {
            n: net.n,
            p: net.p,
            h: net.h,
            links: Lent::new(&net.link_words()),
            functions: Lent::new(&net.function_words()),
            cost: Lent::junk(rows),
            way: Lent::junk(rows),
            waiting: Lent::junk(rows),
            thorough: rows <= 4_096,
        }
    }

    pub fn keep(&mut self) {
        self.cost.keep();
        self.way.keep();
        self.waiting.keep();
    }

    // the table is as it was kept
    pub fn is_kept(&self, name: &str) -> Result<(), String> {
        unchanged(name, "cost", &self.cost)?;
        unchanged(name, "way", &self.way)?;
        unchanged(name, "waiting", &self.waiting)
    }

    // after each call: the guards hold, the network is as it was, and so is the table unless the call may write it
    fn checked(&mut self, name: &str, answer: u64, wrote: bool) -> Result<u64, String> {
        intact(name, "cost", &self.cost)?;
        intact(name, "way", &self.way)?;
        intact(name, "waiting", &self.waiting)?;
        unchanged(name, "links", &self.links)?;
        unchanged(name, "functions", &self.functions)?;
        if self.thorough && wrote {
            self.keep();
        } else if self.thorough {
            self.is_kept(&format!("{} (answer {:x})", name, answer))?;
        }
        Ok(answer)
    }

    pub fn fresh(&mut self) -> Result<u64, String> {
        let answer = unsafe { call!(self, bannogwy_fresh) };
        self.checked("fresh", answer, !is_refused(answer))
    }

    pub fn count(&mut self) -> Result<u64, String> {
        let answer = unsafe { call!(self, bannogwy_count) };
        self.checked("count", answer, false)
    }

    pub fn first_waiting(&mut self) -> Result<u64, String> {
        let answer = unsafe { call!(self, bannogwy_first_waiting) };
        self.checked("first_waiting", answer, false)
    }

    pub fn deliver(&mut self, sender: usize, receiver: usize, destination: usize, number: usize) -> Result<u64, String> {
        let answer = unsafe { call!(self, bannogwy_deliver, sender, receiver, destination, number) };
        self.checked("deliver", answer, !is_refused(answer))
    }

    // the answer and the answer slice, of this length
    pub fn run(&mut self, limit: u32, len: usize) -> Result<(u64, Vec<u64>), String> {
        let mut slice: Lent<u64> = Lent::junk(len);
        let answer = unsafe { call!(self, bannogwy_run, limit, slice.pointer(), slice.len()) };
        intact("run", "answer", &slice)?;
        // a delivery that refuses keeps what was done before
        let kept = is_refused(answer) && answer != refused(4) && answer != refused(7);
        Ok((self.checked("run", answer, !kept)?, slice.part().to_vec()))
    }

    pub fn lookup(&mut self, u: usize, d: usize, stack: &[u8]) -> Result<u64, String> {
        let mut lent = Lent::new(stack);
        let answer = unsafe { call!(self, bannogwy_lookup, u, d, lent.pointer(), lent.len()) };
        unchanged("lookup", "stack", &lent)?;
        self.checked("lookup", answer, false)
    }

    pub fn carry(&mut self, u: usize, d: usize, stack: &[u8], limit: usize, len: usize) -> Result<(u64, Vec<u64>), String> {
        let mut lent = Lent::new(stack);
        let mut slice: Lent<u64> = Lent::junk(len);
        let answer = unsafe { call!(self, bannogwy_carry, u, d, lent.pointer(), lent.len(), limit, slice.pointer(), slice.len()) };
        intact("carry", "answer", &slice)?;
        unchanged("carry", "stack", &lent)?;
        Ok((self.checked("carry", answer, false)?, slice.part().to_vec()))
    }
}

pub fn stack_count(p: usize, h: usize) -> u64 {
    unsafe { bannogwy_stack_count(p, h) }
}

pub fn number_of(p: usize, h: usize, stack: &[u8]) -> Result<u64, String> {
    let mut lent = Lent::new(stack);
    let answer = unsafe { bannogwy_number_of(p, h, lent.pointer(), lent.len()) };
    unchanged("number_of", "stack", &lent)?;
    Ok(answer)
}

// the answer and the buffer, of this length
pub fn stack_of(p: usize, h: usize, number: usize, len: usize) -> Result<(u64, Vec<u8>), String> {
    let mut out: Lent<u8> = Lent::junk(len);
    let answer = unsafe { bannogwy_stack_of(p, h, number, out.pointer(), out.len()) };
    intact("stack_of", "out", &out)?;
    Ok((answer, out.part().to_vec()))
}

pub fn applied(p: usize, h: usize, function: usize, number: usize) -> u64 {
    unsafe { bannogwy_applied(p, h, function, number) }
}

pub fn inverse_of(p: usize, function: usize) -> u64 {
    unsafe { bannogwy_inverse_of(p, function) }
}
