// Sizes and networks: mostly valid ones, some of them with a few words spoiled or with words drawn without regard.
use crate::draw_numbers::fill;
use crate::rng::Rng;

// p, h and the most nodes that keep the table small
const SMALL: [(usize, usize, usize); 17] = [
    (1, 1, 7),
    (1, 2, 6),
    (1, 5, 5),
    (1, 12, 4),
    (2, 1, 6),
    (2, 2, 5),
    (2, 3, 4),
    (2, 4, 3),
    (3, 1, 5),
    (3, 2, 4),
    (4, 2, 3),
    (5, 1, 4),
    (6, 1, 4),
    (6, 2, 2),
    (7, 1, 3),
    (8, 1, 4),
    (8, 2, 2),
];
// n, p and h: many nodes with few stacks
const WIDE: [(usize, usize, usize); 6] = [(32, 1, 1), (31, 1, 2), (32, 2, 1), (17, 2, 2), (32, 1, 3), (20, 8, 1)];
// n x S just within its bound
const WHOLE: [(usize, usize, usize); 9] =
    [(2, 2, 12), (1, 2, 12), (32, 8, 2), (12, 4, 5), (3, 4, 6), (28, 8, 3), (32, 2, 8), (4, 3, 7), (4, 5, 5)];
// n x S just above it, or far
const BEYOND: [(usize, usize, usize); 12] = [
    (3, 2, 12),
    (29, 8, 3),
    (13, 4, 5),
    (4, 4, 6),
    (32, 2, 9),
    (5, 3, 7),
    (5, 5, 5),
    (1, 3, 9),
    (1, 8, 12),
    (32, 8, 12),
    (1, 7, 12),
    (2, 8, 11),
];

pub struct Sizes {
    pub n: usize,
    pub p: usize,
    pub h: usize,
    pub whole: bool, // the table has its right length, and not a short one that is quickly drawn
}

pub fn sizes(rng: &mut Rng) -> Sizes {
    let ((n, p, h), whole) = match rng.below(4_000) {
        0 => (rng.pick(&WHOLE), true),
        1..=199 => (rng.pick(&WHOLE), false),
        200..=399 => (rng.pick(&BEYOND), false),
        400..=519 => (rng.pick(&WIDE), true),
        _ => {
            let (p, h, most) = rng.pick(&SMALL);
            (([1, rng.between(2, most)][usize::from(rng.chance(95))], p, h), true)
        }
    };
    Sizes { n, p, h, whole }
}

fn link_cost(rng: &mut Rng, style: usize) -> u16 {
    match style {
        0 => 1,
        1 => rng.between(1, 4) as u16,
        2 => rng.between(1, 65_535) as u16,
        _ => rng.pick(&[1, 2, 300, 65_534, 65_535]),
    }
}

// n x n words
pub fn links(rng: &mut Rng, n: usize) -> Vec<u16> {
    let (percent, style, spoilt) = (rng.pick(&[10, 40, 60, 80, 100]), rng.below(4), rng.below(16));
    if spoilt == 0 {
        return fill(rng, n * n);
    }
    let mut words = vec![0; n * n];
    for u in 0..n {
        for v in 0..u {
            if rng.chance(percent) {
                words[u * n + v] = link_cost(rng, style);
                words[v * n + u] = link_cost(rng, style);
            }
        }
    }
    if spoilt == 1 {
        for _ in 0..rng.between(1, 3) {
            words[rng.below(n * n)] = rng.pick(&[0, 1, 65_535]);
        }
    }
    words
}

// for each node three p x p grids of words
pub fn functions(rng: &mut Rng, n: usize, p: usize) -> Vec<u16> {
    let (percent, style) = (rng.pick(&[5, 20, 40, 60, 90]), rng.below(5));
    if style == 0 {
        return fill(rng, n * 3 * p * p);
    }
    let mut word = || match style {
        _ if !rng.chance(percent) => 0,
        1 => 1,
        2 => rng.between(1, 4) as u16,
        3 => rng.word() as u16,
        _ => rng.pick(&[1, 2, 256, 65_534, 65_535]),
    };
    (0..n * 3 * p * p).map(|_| word()).collect()
}
