// The independent side: fresh, count and first waiting.
use crate::lent::{Network, Table};
use crate::rust_network::{accepts, checked, found, neighbours, refused, NO_ROW, NO_WAY};

pub fn fresh(net: &Network, table: &mut Table) -> u64 {
    let s = match checked(net, table) {
        Ok(s) => s,
        Err(number) => return refused(number),
    };
    table.cost.fill(NO_ROW);
    table.way.fill(NO_WAY);
    table.waiting.fill(0);
    let mut waiting = 0;
    for d in 0..net.n {
        let bits = neighbours(net, d);
        for x in (0..net.p).filter(|&x| accepts(net, d, x)) {
            let row = (d * net.n + d) * s + x;
            table.cost[row] = 0;
            table.waiting[row] = bits;
            waiting += u64::from(bits.count_ones());
        }
    }
    waiting
}

pub fn count(net: &Network, table: &Table) -> u64 {
    match checked(net, table) {
        Ok(_) => table.waiting.iter().map(|word| u64::from(word.count_ones())).sum(),
        Err(number) => refused(number),
    }
}

pub fn first_waiting(net: &Network, table: &Table) -> u64 {
    let s = match checked(net, table) {
        Ok(s) => s,
        Err(number) => return refused(number),
    };
    match first_word(&table.waiting) {
        Some(row) => {
            let (block, receiver) = (row / s, table.waiting[row].trailing_zeros() as usize);
            found(block / net.n, receiver) | ((block % net.n) as u64) << 40 | (row % s + 1) as u64
        }
        None => 0,
    }
}

// Where the first word stands that is not 0. Not inlined: the loop is tighter so.
#[inline(never)]
pub fn first_word(words: &[u32]) -> Option<usize> {
    words.iter().position(|&word| word != 0)
}
