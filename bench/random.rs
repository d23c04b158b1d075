// Random networks of a given density, and random packets.
use crate::lent::{Network, Packet};
use crate::rng::Rng;
use crate::rust_forward::SIDE;
use crate::rust_network::function_at;

pub type Sizes = (usize, usize, usize);

// The first of random networks on which a run delivers 1,000 messages or more.
pub fn lively_network(rng: &mut Rng, sizes: Sizes, density: usize) -> Network {
    loop {
        let net = network(rng, sizes, density);
        let mut table = net.table();
        (SIDE.fresh)(&net, &mut table);
        let (_, [done, _]) = (SIDE.run)(&net, &mut table, 1_000);
        if done == 1_000 {
            return net;
        }
    }
}

// Each pair of nodes is linked and each function is there with a chance of `density` per cent. Besides, a random tree links all nodes and each
// node passes every second protocol unchanged, so that there are routes at the lowest density too.
pub fn network(rng: &mut Rng, sizes: Sizes, density: usize) -> Network {
    let mut net = unlinked(rng, sizes, density);
    for u in 1..net.n {
        let v = rng.below(u);
        link(rng, &mut net, u, v);
        for v in 0..u {
            if rng.chance(density) {
                link(rng, &mut net, u, v);
            }
        }
    }
    net
}

// with this many links in all, and functions of this density
pub fn network_with_links(rng: &mut Rng, sizes: Sizes, links: usize, density: usize) -> Network {
    let mut net = unlinked(rng, sizes, density);
    for u in 1..net.n {
        let v = rng.below(u);
        link(rng, &mut net, u, v);
    }
    let mut left = links + 1 - net.n;
    while left > 0 {
        let (u, v) = (rng.below(net.n), rng.below(net.n));
        if u != v && net.links[u * net.n + v] == 0 {
            link(rng, &mut net, u, v);
            left -= 1;
        }
    }
    net
}

fn unlinked(rng: &mut Rng, (n, p, h): Sizes, density: usize) -> Network {
    let mut net = Network { n, p, h, links: vec![0; n * n], functions: vec![0; n * 3 * p * p] };
    for word in net.functions.iter_mut() {
        if rng.chance(density) {
            *word = rng.between(1, 50) as u16;
        }
    }
    for (node, a) in (0..n).flat_map(|node| (0..p).map(move |a| (node, a))) {
        if rng.chance(50) {
            net.functions[function_at(p, node, 0, a, a)] = 1;
        }
    }
    net
}

fn link(rng: &mut Rng, net: &mut Network, u: usize, v: usize) {
    net.links[u * net.n + v] = rng.between(1, 100) as u16;
    net.links[v * net.n + u] = rng.between(1, 100) as u16;
}

// a packet anywhere, all heights alike
pub fn packet(rng: &mut Rng, net: &Network) -> Packet {
    let (node, destination, height) = (rng.below(net.n), rng.below(net.n), rng.between(1, net.h));
    Packet { node, destination, stack: (0..height).map(|_| rng.below(net.p) as u8).collect() }
}

// the stack with this number
pub fn stack_of(p: usize, mut number: usize) -> Vec<u8> {
    let mut stack = Vec::new();
    while number > 0 {
        stack.insert(0, ((number - 1) % p) as u8);
        number = (number - 1) / p;
    }
    stack
}
