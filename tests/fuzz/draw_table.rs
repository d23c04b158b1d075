// Tables: fresh, on the way, settled, any of these with rows spoiled, and words drawn without regard.
use crate::draw_numbers::fill;
use crate::model_network::{Network, Table};
use crate::model_table::{fresh, run, CEILING, NO_ROW, NO_WAY};
use crate::rng::Rng;
use crate::stacks::{self, Change};

// a table for this network
pub fn draw(rng: &mut Rng, net: &Network, table: &mut Table) {
    let style = rng.below(10);
    if style == 0 {
        table.cost.copy_from_slice(&fill::<u32>(rng, net.rows()));
        table.way.copy_from_slice(&fill::<u16>(rng, net.rows()));
        table.waiting.copy_from_slice(&fill::<u32>(rng, net.rows()));
        return;
    }
    fresh(net, table);
    if style < 6 {
        let most = 1 + 40_000 / net.rows();
        run(net, table, rng.below(most.min(60)) as u64);
    }
    let percent = match style {
        1..=4 => 0,
        5 | 6 => rng.pick(&[2, 10, 30]),
        _ => 100,
    };
    let kind = rng.below(KINDS);
    for row in 0..net.rows() {
        if percent > 0 && rng.chance(percent) {
            spoil(rng, net, table, row, kind);
        }
    }
}

pub const KINDS: usize = 14;

// one row, in one of these many ways
pub fn spoil(rng: &mut Rng, net: &Network, table: &mut Table, row: usize, kind: usize) {
    let (u, _, number) = net.place(row);
    match kind {
        0 => table.cost[row] = rng.cost(CEILING),
        1 => table.way[row] = rng.word() as u16,
        2 => table.waiting[row] = rng.word() as u32,
        3 => table.waiting[row] |= 1 << rng.below(32),
        4..=6 => table.waiting[row] |= net.neighbours(u),
        7 => {
            table.cost[row] = rng.cost(CEILING);
            table.waiting[row] = rng.word() as u32 & net.neighbours(u);
        }
        8 => {
            table.cost[row] = NO_ROW;
            table.way[row] = NO_WAY;
        }
        9 => table.way[row] ^= 1 << rng.below(16),
        _ => {
            table.cost[row] = if rng.chance(80) { rng.between(1, 9) as u32 } else { rng.cost(CEILING) };
            table.way[row] = way(rng, net, u, number);
        }
    }
}

// a function that applies to the stack, for the most part one that U has, and a node that it has a link to
fn way(rng: &mut Rng, net: &Network, u: usize, number: usize) -> u16 {
    let stack = net.stack(number).unwrap_or_default();
    let (mut next, mut function) = (rng.below(net.n + 1), rng.below(256));
    for _ in 0..8 {
        let q = rng.below(net.p) as u8;
        let (change, a, b) = match (rng.below(3), &stack[..]) {
            (0, [.., below, top]) => (Change::Unwrap, *below, *top),
            (1, [.., top]) => (Change::Wrap, *top, q),
            (_, [.., top]) => (Change::Convert, *top, q),
            _ => (Change::Convert, q, q),
        };
        function = stacks::function_number(change, a, b);
        if net.price(u, change, a, b).is_some() {
            break;
        }
    }
    let near: Vec<usize> = (0..net.n).filter(|&v| net.link(u, v).is_some()).collect();
    if !near.is_empty() && rng.chance(95) {
        next = rng.pick(&near);
    }
    (256 * next + function) as u16
}
