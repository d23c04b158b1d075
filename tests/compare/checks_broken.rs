// Tables that no run from fresh makes: random words everywhere, or a right table with something wrong in it.
use crate::pair::Pair;
use crate::report::{Outcome, Report};
use crate::scale::Scale;
use crate::shapes;
use crate::stacks::{self, Change};
use crate::table::CEILING;

pub fn all(r: &mut Report, scale: &Scale) {
    r.group("broken tables: count and first waiting", |r| {
        scale.each(40, [10, 30, 400], |seed| {
            let mut b = broken(r, seed, 6);
            b.count_and_first(r)
        })
    });
    r.group("broken tables: deliveries", |r| {
        scale.each(41, [20, 40, 600], |seed| {
            let mut b = broken(r, seed, 6);
            for _ in 0..80 {
                let message = if b.rng.chance(30) { Some(b.any_message()) } else { b.waiting() };
                if let Some(message) = message {
                    b.deliver(r, &message, true)?;
                }
            }
            b.count_and_first(r)
        })
    });
    r.group("broken tables: runs", |r| {
        scale.each(42, [20, 40, 800], |seed| {
            let mut b = broken(r, seed, 6);
            for limit in [0, 1, 2, 10, 100, 2_000] {
                b.run(r, limit)?;
            }
            b.count_and_first(r)?;
            b.fresh(r)
        })
    });
    r.group("broken tables: every lookup and carry", |r| {
        scale.each(43, [10, 20, 500], |seed| {
            let mut b = broken(r, seed, 7);
            packets(&mut b, r)
        })
    });
}

fn packets(b: &mut Pair, r: &mut Report) -> Outcome {
    let s = b.net.stacks.list.len();
    for at in 0..b.net.rows() {
        let stack = b.net.stacks.list[at % s].clone();
        let (u, d) = (at / s / b.net.n, at / s % b.net.n);
        b.lookup(r, u, d, &stack)?;
        let limit = b.rng.pick(&[0, 1, 2, 3, 10, 100]);
        let hops = b.carry(r, u, d, &stack, limit)?;
        b.carry(r, u, d, &stack, hops)?;
        b.carry(r, u, d, &stack, hops.saturating_sub(1))?;
    }
    // rows that point in a ring use up any limit
    let (u, d, rank) = (b.rng.below(b.net.n), b.rng.below(b.net.n), b.rng.below(s));
    let stack = b.net.stacks.list[rank].clone();
    b.carry(r, u, d, &stack, 16_384)?;
    b.carry(r, u, d, &stack, 16_385)?;
    Ok(())
}

// a network with a table of one of several kinds of wrong, in both
fn broken(r: &mut Report, seed: u64, kinds: usize) -> Pair {
    let mut b = Pair::new(r, seed, shapes::small);
    let kind = b.rng.below(kinds);
    b.label = format!("{}, broken table of kind {}", b.label, kind);
    let worked = if b.case.fresh().is_ok() { b.rng.below(60) as u32 } else { 0 };
    let _ = b.case.run(worked, 2);
    let everywhere = kind < 2 || kind == 3 || kind == 6;
    for at in 0..b.net.rows() {
        if everywhere || b.rng.chance(15) {
            spoil(&mut b, kind, at);
        }
    }
    b.case.keep();
    b.adopt();
    b
}

fn spoil(b: &mut Pair, kind: usize, at: usize) {
    let n = b.net.n;
    let s = b.net.stacks.list.len();
    let u = at / s / n;
    let rng = &mut b.rng;
    let some = rng.word();
    match kind {
        // random words
        0 => {
            b.case.cost.set(at, some as u32);
            b.case.way.set(at, (some >> 32) as u16);
            b.case.waiting.set(at, rng.word() as u32);
        }
        // costs that a table may have, messages to nodes only
        1 => {
            b.case.cost.set(at, rng.cost(CEILING));
            b.case.way.set(at, (some >> 32) as u16);
            let near: u32 = b.net.links[u].iter().map(|l| 1 << l.to).sum();
            b.case.waiting.set(at, rng.word() as u32 & near);
        }
        2 => b.case.cost.set(at, rng.cost(CEILING)),
        // ways to a neighbour by a function that fits the stack, but which the node may not have
        3 => {
            let function = match (rng.below(4), &b.net.stacks.list[at % s][..]) {
                (0, [.., top]) => stacks::function_number(Change::Convert, *top, rng.below(b.net.p) as u8),
                (1, [.., top]) => stacks::function_number(Change::Wrap, *top, rng.below(b.net.p) as u8),
                (2, [.., below, top]) => stacks::function_number(Change::Unwrap, *below, *top),
                _ => rng.below(256),
            };
            let near = b.net.links[u].get(rng.below(n)).map(|l| l.to);
            b.case.way.set(at, (256 * near.unwrap_or(rng.below(n + 1)) + function) as u16);
            b.case.cost.set(at, rng.pick(&[1, 2, 9, CEILING]));
        }
        // one message more, for anybody at all
        4 => {
            let word = b.case.waiting.part()[at] | 1 << rng.below(32);
            b.case.waiting.set(at, word);
        }
        5 => {
            let any = rng.pick(&[0, 1 << 31, 1 << n.min(31), u32::MAX, 1]);
            b.case.waiting.set(at, any);
            b.case.cost.set(at, rng.pick(&[0, 1, CEILING, CEILING + 1, u32::MAX - 1, u32::MAX]));
        }
        // hops that the node may make, to anywhere: packets go round and round
        _ => {
            let stack = &b.net.stacks.list[at % s];
            let fits = b.net.functions[u].iter().find(|f| stacks::apply(f.change, f.a, f.b, stack, b.net.h).is_some());
            if let (Some(f), Some(l)) = (fits, b.net.links[u].get(rng.below(n))) {
                b.case.cost.set(at, if rng.chance(8) { rng.cost(CEILING) } else { rng.between(1, 9) as u32 });
                b.case.way.set(at, (256 * l.to + stacks::function_number(f.change, f.a, f.b)) as u16);
            }
        }
    }
}
