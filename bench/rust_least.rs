// What somebody would write who wants the final table only: Dijkstra on the graph of (node, stack), once for each destination.
use crate::lent::{Network, Table};
use crate::rust_network::{accepts, function_at, NO_ROW, NO_WAY};
use std::cmp::Reverse;
use std::collections::BinaryHeap;

type Heap = BinaryHeap<Reverse<(u32, u32)>>;

struct Least<'a> {
    net: &'a Network,
    s: usize,
    // for each node V the nodes U with a link to V, and its cost
    hops_to: Vec<Vec<(usize, u32)>>,
    heap: Heap,
}

// the table at quiet: least costs, a way of that cost, no message
pub fn settle(net: &Network, table: &mut Table) {
    table.cost.fill(NO_ROW);
    table.way.fill(NO_WAY);
    table.waiting.fill(0);
    let link = |u: usize, v: usize| u32::from(net.links[u * net.n + v]);
    let hops_to = (0..net.n).map(|v| (0..net.n).filter(|&u| link(u, v) != 0).map(|u| (u, link(u, v))).collect()).collect();
    let mut least = Least { net, s: net.stack_count(), hops_to, heap: Heap::new() };
    for destination in 0..net.n {
        least.destination(table, destination);
    }
}

impl Least<'_> {
    fn row(&self, node: usize, destination: usize, number: usize) -> usize {
        (node * self.net.n + destination) * self.s + number - 1
    }

    fn destination(&mut self, table: &mut Table, destination: usize) {
        for x in (0..self.net.p).filter(|&x| accepts(self.net, destination, x)) {
            table.cost[self.row(destination, destination, x + 1)] = 0;
            self.heap.push(Reverse((0, (destination * self.s + x) as u32)));
        }
        while let Some(Reverse((cost, vertex))) = self.heap.pop() {
            let (node, number) = (vertex as usize / self.s, vertex as usize % self.s + 1);
            if cost == table.cost[self.row(node, destination, number)] {
                self.reach(table, destination, node, number, cost);
            }
        }
    }

    // every hop that ends at `node` with the stack of this number
    fn reach(&mut self, table: &mut Table, destination: usize, node: usize, number: usize, cost: u32) {
        let (p, rest, top) = (self.net.p, (number - 1) / self.net.p, (number - 1) % self.net.p);
        for at in 0..self.hops_to[node].len() {
            let (before, link) = self.hops_to[node][at];
            let grids = &self.net.functions[function_at(p, before, 0, 0, 0)..][..3 * p * p];
            let mut offer = |word: u16, function: usize, number: usize| {
                let row = (before * self.net.n + destination) * self.s + number - 1;
                let cost = cost + link + u32::from(word.wrapping_sub(1));
                if word != 0 && cost < table.cost[row] {
                    table.cost[row] = cost;
                    table.way[row] = (node << 8 | function) as u16;
                    self.heap.push(Reverse((cost, (before * self.s + number - 1) as u32)));
                }
            };
            for a in 0..p {
                offer(grids[a * p + top], a << 3 | top, number - top + a);
            }
            if rest != 0 {
                let a = (rest - 1) % p;
                offer(grids[(p + a) * p + top], 64 | a << 3 | top, rest);
            }
            if p * number < self.s {
                for b in 0..p {
                    offer(grids[(2 * p + top) * p + b], 128 | top << 3 | b, p * number + b + 1);
                }
            }
        }
    }
}
