// The independent program's lookup and carry.
use crate::model_network::{Network, Table};
use crate::model_table::{CEILING, NO_ROW};
use crate::planted::planted;
use crate::stacks;

pub enum Look {
    Delivered,
    Forward(Hop),
    Refused(u64),
}

pub struct Hop {
    pub next: usize,
    pub function: usize,
    pub stack: Vec<u8>,
    pub cost: u32,
    pub paid: u64,
}

pub struct Carried {
    pub hops: u64,
    pub spent: u64,
    pub node: usize,
    pub stack: Vec<u8>,
    pub refused: u64,
}

pub fn lookup(net: &Network, table: &Table, u: usize, d: usize, stack: &[u8]) -> Look {
    let number = match net.number(stack) {
        Some(number) if u < net.n && d < net.n => number,
        _ => return Look::Refused(4),
    };
    if u == d && stack.len() == 1 && net.accepts(d, stack[0]) {
        return Look::Delivered;
    }
    let row = net.row(u, d, number);
    let cost = table.cost[row];
    let highest = if planted("ceiling_one_lower") { CEILING - 1 } else { CEILING };
    if cost == NO_ROW {
        return Look::Refused(6);
    }
    if cost == 0 || cost > highest {
        return Look::Refused(7);
    }
    let (next, function) = (usize::from(table.way[row]) / 256, usize::from(table.way[row]) % 256);
    match made(net, u, next, function, stack) {
        Some((stack, paid)) => Look::Forward(Hop { next, function, stack, cost, paid }),
        None => Look::Refused(7),
    }
}

// the stack after a hop and what the hop costs; none where the way names no node, link, or function that U has and that applies
fn made(net: &Network, u: usize, next: usize, function: usize, stack: &[u8]) -> Option<(Vec<u8>, u64)> {
    if next >= net.n {
        return None;
    }
    let link = net.link(u, next)?;
    let (change, a, b) = stacks::function(function).filter(|&(_, a, b)| (a as usize) < net.p && (b as usize) < net.p)?;
    let price = net.price(u, change, a, b)?;
    Some((stacks::apply(change, a, b, stack, net.h)?, link + price))
}

// none where refusal 4 applies
pub fn carry(net: &Network, table: &Table, u: usize, d: usize, stack: &[u8], limit: usize) -> Option<Carried> {
    if limit > 16_384 || matches!(lookup(net, table, u, d, stack), Look::Refused(4)) {
        return None;
    }
    let mut c = Carried { hops: 0, spent: 0, node: u, stack: stack.to_vec(), refused: 0 };
    loop {
        c.refused = match lookup(net, table, c.node, d, &c.stack) {
            Look::Delivered => 0,
            Look::Refused(refused) => refused,
            Look::Forward(_) if c.hops == limit as u64 => 8,
            Look::Forward(hop) => {
                c.hops += 1;
                c.spent += hop.paid;
                c.node = hop.next;
                c.stack = hop.stack;
                continue;
            }
        };
        return Some(c);
    }
}
