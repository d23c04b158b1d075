// The independent side: which networks and tables are refused, what a node accepts, what a function makes of a stack.
use crate::lent::{Network, Table};

pub const CEILING: u32 = 2_147_303_427;
pub const NO_ROW: u32 = u32::MAX;
pub const NO_WAY: u16 = u16::MAX;

pub fn refused(number: u64) -> u64 {
    1 << 63 | number
}

pub fn found(high: usize, second: usize) -> u64 {
    1 << 62 | (high as u64) << 56 | (second as u64) << 48
}

// S, or refusal 1, 2 or 3
pub fn checked(net: &Network, table: &Table) -> Result<usize, u64> {
    let (n, p, h) = (net.n, net.p, net.h);
    if !(1..=32).contains(&n) || !(1..=8).contains(&p) || !(1..=12).contains(&h) {
        return Err(1);
    }
    // within 64 bits for the largest p and h
    let s = net.stack_count();
    if n * s > 16_384 || net.links.len() != n * n || net.functions.len() != 3 * n * p * p {
        return Err(1);
    }
    if !two_way(&net.links, n) {
        return Err(2);
    }
    let rows = n * n * s;
    if table.cost.len() != rows || table.way.len() != rows || table.waiting.len() != rows {
        return Err(3);
    }
    Ok(s)
}

fn two_way(links: &[u16], n: usize) -> bool {
    for (u, row) in links.chunks_exact(n).enumerate() {
        if row[u] != 0 {
            return false;
        }
        for (there, other) in row[..u].iter().zip(links.chunks_exact(n)) {
            if (*there == 0) != (other[u] == 0) {
                return false;
            }
        }
    }
    true
}

// where the price of a node's function stands
pub fn function_at(p: usize, node: usize, kind: usize, a: usize, b: usize) -> usize {
    ((node * 3 + kind) * p + a) * p + b
}

pub fn accepts(net: &Network, node: usize, x: usize) -> bool {
    let p = net.p;
    let [convert, wrap, unwrap] = [0, 1, 2].map(|kind| &net.functions[function_at(p, node, kind, 0, 0)..][..p * p]);
    (0..p).any(|y| convert[x * p + y] != 0 || wrap[x * p + y] != 0 || unwrap[y * p + x] != 0)
}

// bit V for each neighbour V
pub fn neighbours(net: &Network, node: usize) -> u32 {
    net.links[node * net.n..][..net.n].iter().enumerate().fold(0, |word, (v, &link)| word | u32::from(link != 0) << v)
}

// the number of the stack that a function makes of this one, where it is applicable; a wrap at full height would pass S
pub fn applied(p: usize, s: usize, (kind, a, b): (usize, usize, usize), number: usize) -> Option<usize> {
    let (rest, top) = ((number - 1) / p, (number - 1) % p);
    match kind {
        0 if top == a => Some(number - a + b),
        1 if top == a && p * number + b < s => Some(p * number + b + 1),
        2 if top == b && rest != 0 && (rest - 1) % p == a => Some(rest),
        _ => None,
    }
}
