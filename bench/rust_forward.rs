// The independent side: lookup and carry.
use crate::lent::{Network, Packet, Side, Table};
use crate::rust_network::{accepts, applied, checked, found, function_at, refused, CEILING, NO_ROW};
use crate::rust_run::{run, run_by_sixteen};
use crate::rust_table::{count, first_waiting, fresh};

pub const SIDE: Side = Side { fresh, count, first_waiting, run, lookup, carry };
pub const SIDE_BY_SIXTEEN: Side = Side { run: run_by_sixteen, ..SIDE };

struct Hop {
    next: usize,
    function: usize,
    number: usize,
    cost: u32,
    spends: u64,
}

fn lookup(net: &Network, table: &Table, node: usize, destination: usize, stack: &[u8]) -> u64 {
    match begin(net, table, node, destination, stack) {
        Err(number) => refused(number),
        Ok((_, number)) if delivered(net, node, destination, number) => 0,
        Ok((s, number)) => match hop(net, table, s, (node, destination, number)) {
            Ok(hop) => found(hop.next, hop.function) | (hop.number as u64) << 32 | u64::from(hop.cost),
            Err(number) => refused(number),
        },
    }
}

fn carry(net: &Network, table: &Table, packet: &Packet, limit: usize) -> (u64, [u64; 4]) {
    let (mut node, destination) = (packet.node, packet.destination);
    let (s, mut number) = match begin(net, table, node, destination, &packet.stack) {
        Ok(_) if limit > 16_384 => return (refused(4), [0; 4]),
        Ok(begun) => begun,
        Err(number) => return (refused(number), [0; 4]),
    };
    let (mut hops, mut spent) = (0, 0);
    let end = loop {
        if delivered(net, node, destination, number) {
            break 0;
        }
        let hop = match hop(net, table, s, (node, destination, number)) {
            Ok(hop) => hop,
            Err(number) => break refused(number),
        };
        if hops == limit as u64 {
            break refused(8);
        }
        hops += 1;
        spent += hop.spends;
        node = hop.next;
        number = hop.number;
    };
    (end, [hops, spent, node as u64, number as u64])
}

// S and the stack's number, or refusal 1, 2, 3 or 4
fn begin(net: &Network, table: &Table, node: usize, destination: usize, stack: &[u8]) -> Result<(usize, usize), u64> {
    let s = checked(net, table)?;
    if node >= net.n || destination >= net.n || stack.is_empty() || stack.len() > net.h {
        return Err(4);
    }
    let mut number = 0;
    for q in stack.iter().map(|&q| usize::from(q)) {
        if q >= net.p {
            return Err(4);
        }
        number = net.p * number + q + 1;
    }
    Ok((s, number))
}

fn delivered(net: &Network, node: usize, destination: usize, number: usize) -> bool {
    node == destination && number <= net.p && accepts(net, node, number - 1)
}

// what the row says, or refusal 6 or 7
fn hop(net: &Network, table: &Table, s: usize, (node, destination, number): (usize, usize, usize)) -> Result<Hop, u64> {
    let row = (node * net.n + destination) * s + number - 1;
    let (cost, way) = (table.cost[row], usize::from(table.way[row]));
    if cost == NO_ROW {
        return Err(6);
    }
    let (next, function) = (way >> 8, way & 255);
    let (kind, a, b) = (function >> 6, function >> 3 & 7, function & 7);
    if cost == 0 || cost > CEILING || next >= net.n || kind > 2 || a >= net.p || b >= net.p {
        return Err(7);
    }
    let (link, word) = (net.links[node * net.n + next], net.functions[function_at(net.p, node, kind, a, b)]);
    if link == 0 || word == 0 {
        return Err(7);
    }
    let number = applied(net.p, s, (kind, a, b), number).ok_or(7u64)?;
    Ok(Hop { next, function, number, cost, spends: u64::from(link) + u64::from(word - 1) })
}
