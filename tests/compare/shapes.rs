// Random networks of many shapes: who is linked, what links cost, who can do what at which price.
use crate::network::Network;
use crate::rng::Rng;
use crate::stacks::Change;

const CHANGES: [Change; 3] = [Change::Convert, Change::Wrap, Change::Unwrap];

// sizes (p, h) with few stacks, with some, and those at the limits with the number of nodes
const FEW: [(usize, usize); 14] =
    [(1, 1), (1, 2), (1, 5), (1, 12), (2, 1), (2, 2), (2, 3), (2, 4), (3, 1), (3, 2), (3, 3), (4, 2), (5, 1), (8, 1)];
const SOME: [(usize, usize); 9] = [(2, 3), (2, 4), (2, 5), (3, 3), (3, 4), (4, 3), (6, 2), (8, 2), (1, 12)];
pub const LIMITS: [(usize, usize, usize); 8] =
    [(32, 2, 8), (28, 8, 3), (2, 2, 12), (32, 8, 2), (32, 1, 12), (12, 4, 5), (1, 2, 12), (10, 3, 6)];

pub fn small(rng: &mut Rng) -> Network {
    let (p, h) = rng.pick(&FEW);
    let most = if p * h > 8 { 4 } else { 6 };
    let n = rng.between(1, most);
    let density = rng.pick(&[0, 1, 2, 3, 4, 5, 20, 50, 100]);
    let functions = rng.pick(&[0, 5, 15, 30, 60, 90]);
    make(rng, n, p, h, density, functions)
}

pub fn medium(rng: &mut Rng) -> Network {
    let (p, h) = rng.pick(&SOME);
    let n = rng.between(5, 14);
    let density = rng.pick(&[1, 2, 3, 4, 15, 30]);
    let functions = rng.pick(&[5, 15, 30, 60]);
    make(rng, n, p, h, density, functions)
}

// `density`: 0 none, 1 line, 2 ring, 3 star, 4 tree, 5 two islands, else per cent of all pairs
pub fn make(rng: &mut Rng, n: usize, p: usize, h: usize, density: usize, functions: usize) -> Network {
    let mut net = Network::new(n, p, h);
    let dear = rng.below(6);
    let shuffled = shuffle(rng, n);
    for i in 0..n {
        for k in 0..i {
            let joined = match density {
                0 => false,
                1 => k + 1 == i,
                2 => k + 1 == i || (k == 0 && i + 1 == n),
                3 => k == 0,
                4 => k == (i - 1) / 2,
                5 => k + 2 == i,
                percent => rng.chance(percent),
            };
            if joined {
                let (there, back) = (link_cost(rng, dear), link_cost(rng, dear));
                net.join(shuffled[i], shuffled[k], there, back);
            }
        }
    }
    // one node in three of some networks only passes packets on, wraps or unwraps
    let specialists = rng.chance(40);
    let price = rng.below(5);
    for node in 0..n {
        let special = if specialists { rng.below(6) } else { 9 };
        for (which, &change) in CHANGES.iter().enumerate() {
            for a in 0..p {
                for b in 0..p {
                    let passes = special < 3 && which == 0 && a == b && rng.chance(80);
                    if passes || (special > 2 || special == which) && rng.chance(functions) {
                        let price = price_of(rng, price);
                        net.can(node, change, a, b, price);
                    }
                }
            }
        }
        let middle = net.functions[node].len() / 2;
        net.functions[node].rotate_left(middle);
    }
    net
}

fn shuffle(rng: &mut Rng, n: usize) -> Vec<usize> {
    let mut list: Vec<usize> = (0..n).collect();
    for i in (1..n).rev() {
        list.swap(i, rng.below(i + 1));
    }
    list
}

fn link_cost(rng: &mut Rng, style: usize) -> u32 {
    match style {
        0 => 1,
        1 => rng.between(1, 3) as u32,
        2 => rng.between(1, 100) as u32,
        3 => rng.between(1, 65_535) as u32,
        4 => 65_535,
        _ => rng.pick(&[1, 2, 7, 300, 65_534, 65_535]),
    }
}

fn price_of(rng: &mut Rng, style: usize) -> u32 {
    match style {
        0 => 0,
        1 => rng.between(0, 3) as u32,
        2 => rng.between(0, 65_534) as u32,
        3 => 65_534,
        _ => rng.pick(&[0, 1, 5, 255, 256, 65_533, 65_534]),
    }
}
