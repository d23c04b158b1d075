// What must hold of a quiet table: least costs, ways that pay for themselves, and packets that arrive for the cost they were shown.
use crate::least::Graph;
use crate::packet;
use crate::pair::Pair;
use crate::report::{Kind, Outcome, Report};
use crate::stacks::text;
use crate::table::NO_ROW;

// every cost is the least one and stands exactly where there is a route; its way is a hop on a cheapest route; nothing waits
pub fn least(b: &Pair, r: &mut Report) -> Outcome {
    let graph = Graph::new(&b.net);
    let s = b.net.stacks.list.len();
    for d in 0..b.net.n {
        let costs = graph.to(d);
        for u in 0..b.net.n {
            for (rank, stack) in b.net.stacks.list.iter().enumerate() {
                let at = (u * b.net.n + d) * s + rank;
                let (cost, way) = (b.case.cost.part()[at], usize::from(b.case.way.part()[at]));
                let what =
                    || format!("{}: quiet, row of node {} destination {} stack {}: cost {}, way {}", b.label, u, d, text(stack), cost, way);
                r.same(Kind::LeastCost, (cost != NO_ROW).then(|| u64::from(cost)), costs[rank][u], what)?;
                if cost == NO_ROW || cost == 0 {
                    r.same(Kind::Row, way, 65_535, what)?;
                    continue;
                }
                let left = packet::hop(&b.net, u, way / 256, way % 256, stack).and_then(|(made, paid)| {
                    let rest = costs[b.net.stacks.number(&made) - 1][way / 256]?;
                    Some(rest + u64::from(paid))
                });
                r.same(Kind::Row, Some(u64::from(cost)), left, what)?;
            }
        }
    }
    let waits = b.case.waiting.part().iter().any(|&word| word != 0);
    r.same(Kind::Row, waits, false, || format!("{}: a message waits after a run to quiet", b.label))
}

// lookup and carry from one row, with the limits where something changes
pub fn travel(b: &mut Pair, r: &mut Report, u: usize, d: usize, stack: &[u8]) -> Outcome {
    b.lookup(r, u, d, stack)?;
    let hops = b.carry(r, u, d, stack, 16_384)?;
    b.carry(r, u, d, stack, hops)?;
    b.carry(r, u, d, stack, hops + 1)?;
    if hops > 0 {
        b.carry(r, u, d, stack, hops - 1)?;
        b.carry(r, u, d, stack, 0)?;
        b.carry(r, u, d, stack, hops / 2)?;
    }
    Ok(())
}

// stacks that lookup and carry must refuse, and places that they have no row for
pub fn astray(b: &mut Pair, r: &mut Report) -> Outcome {
    let (n, p, h) = (b.net.n, b.net.p, b.net.h);
    let mut high = vec![0; h + 1];
    let whole: Vec<u8> = vec![(p - 1) as u8; h];
    let mut bad = whole.clone();
    let at = b.rng.below(h);
    bad[at] = b.rng.pick(&[p as u8, 255, p as u8 + 1]);
    for (u, d) in [(0, 0), (n - 1, 0), (n, 0), (0, n), (usize::MAX, 0), (0, 1 << 32), (n - 1, n - 1)] {
        for stack in [&[], &high[..], &whole[..], &bad[..]] {
            b.lookup(r, u, d, stack)?;
            for limit in [0, 16_384, 16_385, usize::MAX] {
                b.carry(r, u, d, stack, limit)?;
            }
        }
    }
    high.resize(4_000, 0);
    b.lookup(r, 0, 0, &high)
}

// every row of a small table, `most` random ones of a large one
pub fn journeys(b: &mut Pair, r: &mut Report, most: usize) -> Outcome {
    let s = b.net.stacks.list.len();
    if b.net.rows() <= most {
        for at in 0..b.net.rows() {
            let stack = b.net.stacks.list[at % s].clone();
            travel(b, r, at / s / b.net.n, at / s % b.net.n, &stack)?;
        }
    } else {
        for _ in 0..most {
            let (u, d, rank) = (b.rng.below(b.net.n), b.rng.below(b.net.n), b.rng.below(s));
            let stack = b.net.stacks.list[rank].clone();
            travel(b, r, u, d, &stack)?;
        }
    }
    astray(b, r)
}
