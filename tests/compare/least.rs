// Least costs by Dijkstra's method, over the hops backwards. It knows nothing of tables or messages.
use crate::network::Network;
use crate::stacks;
use std::cmp::Reverse;
use std::collections::BinaryHeap;

pub struct Graph<'a> {
    net: &'a Network,
    into: Vec<Vec<(usize, u64)>>, // for each vertex the vertices that have a hop to it, and its cost
}

impl<'a> Graph<'a> {
    // a vertex is a stack's place in the list and a node
    fn vertex(net: &Network, node: usize, rank: usize) -> usize {
        rank * net.n + node
    }

    pub fn new(net: &'a Network) -> Graph<'a> {
        let mut into = vec![Vec::new(); net.n * net.stacks.list.len()];
        for (rank, stack) in net.stacks.list.iter().enumerate() {
            for u in 0..net.n {
                for f in &net.functions[u] {
                    if let Some(made) = stacks::apply(f.change, f.a, f.b, stack, net.h) {
                        let reached = net.stacks.number(&made) - 1;
                        for l in &net.links[u] {
                            let weight = u64::from(l.there) + u64::from(f.price);
                            into[Graph::vertex(net, l.to, reached)].push((Graph::vertex(net, u, rank), weight));
                        }
                    }
                }
            }
        }
        Graph { net, into }
    }

    // the least cost of a route to `destination` from each node (second) with each stack of the list (first)
    pub fn to(&self, destination: usize) -> Vec<Vec<Option<u64>>> {
        let net = self.net;
        let mut known: Vec<Option<u64>> = vec![None; self.into.len()];
        let mut heap = BinaryHeap::new();
        for x in (0..net.p).filter(|&x| net.accepts(destination, x as u8)) {
            heap.push(Reverse((0, Graph::vertex(net, destination, x))));
        }
        while let Some(Reverse((cost, at))) = heap.pop() {
            if known[at].is_some() {
                continue;
            }
            known[at] = Some(cost);
            for &(from, weight) in &self.into[at] {
                if known[from].is_none() {
                    heap.push(Reverse((cost + weight, from)));
                }
            }
        }
        known.chunks(net.n).map(|part| part.to_vec()).collect()
    }
}
