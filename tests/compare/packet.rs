// What the table says to a packet: the next hop, and where it comes in a number of hops.
use crate::network::Network;
use crate::planted::planted;
use crate::stacks;
use crate::table::{Table, CEILING, NO_ROW};

pub struct Hop {
    pub next: usize,
    pub function: usize,
    pub stack: Vec<u8>,
    pub cost: u32,
    pub paid: u32,
}

pub enum Lookup {
    Delivered,
    Forward(Hop),
    Refused(u64),
}

pub struct Carried {
    pub hops: u64,
    pub spent: u64,
    pub node: usize,
    pub stack: Vec<u8>,
    pub refused: u64,
}

// refusal 4 of lookup and carry
fn in_range(net: &Network, u: usize, d: usize, stack: &[u8]) -> bool {
    u < net.n && d < net.n && stacks::number(net.p, net.h, stack).is_some()
}

pub fn lookup(net: &Network, table: &Table, u: usize, d: usize, stack: &[u8]) -> Lookup {
    if !in_range(net, u, d, stack) {
        return Lookup::Refused(4);
    }
    if net.arrived(u, d, stack) {
        return Lookup::Delivered;
    }
    let row = table.row(&(u, d, stack.to_vec()));
    if row.cost == NO_ROW {
        return Lookup::Refused(6);
    }
    if row.cost == 0 || row.cost > CEILING {
        return Lookup::Refused(7);
    }
    match hop(net, u, row.next, row.function, stack) {
        Some((stack, paid)) => Lookup::Forward(Hop { next: row.next, function: row.function, stack, cost: row.cost, paid }),
        None => Lookup::Refused(7),
    }
}

// the stack after a hop and what it costs; none where the node can't make it
pub fn hop(net: &Network, u: usize, next: usize, function: usize, stack: &[u8]) -> Option<(Vec<u8>, u32)> {
    let link = net.link(u, next)?;
    let (change, a, b) = stacks::function(function)?;
    let can = net.function(u, change, a, b)?;
    Some((stacks::apply(change, a, b, stack, net.h)?, link.there + can.price))
}

pub fn carry(net: &Network, table: &Table, u: usize, d: usize, stack: &[u8], limit: usize) -> Carried {
    let mut c = Carried { hops: 0, spent: 0, node: 0, stack: Vec::new(), refused: 4 };
    if !in_range(net, u, d, stack) || limit > 16_384 {
        return c;
    }
    c.node = u;
    c.stack = stack.to_vec();
    loop {
        let limit_first = planted("limit_first") && c.hops == limit as u64 && !net.arrived(c.node, d, &c.stack);
        c.refused = match lookup(net, table, c.node, d, &c.stack) {
            _ if limit_first => 8,
            Lookup::Delivered => 0,
            Lookup::Refused(refused) => refused,
            Lookup::Forward(hop) => {
                if c.hops < limit as u64 {
                    c.hops += 1;
                    c.spent += u64::from(hop.paid);
                    c.node = hop.next;
                    c.stack = hop.stack;
                    continue;
                }
                8
            }
        };
        return c;
    }
}
