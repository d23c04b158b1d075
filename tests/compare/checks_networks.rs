// Random networks from fresh: single deliveries in random order, runs, quiet tables, packets under way.
use crate::calls::{is_refused, refused};
use crate::network::Network;
use crate::packet;
use crate::pair::Pair;
use crate::quiet;
use crate::report::{Kind, Outcome, Report};
use crate::rng::Rng;
use crate::scale::Scale;
use crate::shapes;

type Make = fn(&mut Rng) -> Network;

pub fn all(r: &mut Report, scale: &Scale) {
    let (small, medium): (Make, Make) = (shapes::small, shapes::medium);
    r.group("small networks: fresh, count and first waiting", |r| scale.each(1, [20, 40, 400], |seed| begin(r, seed, small)));
    r.group("small networks: deliveries in random order, every row after each", |r| {
        scale.each(2, [20, 25, 400], |seed| deliveries(r, seed, small, 400, 1))
    });
    r.group("medium networks: deliveries in random order", |r| scale.each(3, [2, 3, 60], |seed| deliveries(r, seed, medium, 6_000, 700)));
    r.group("small networks: runs with limits", |r| scale.each(4, [20, 25, 300], |seed| runs(r, seed, small)));
    r.group("medium networks: runs with limits", |r| scale.each(5, [2, 2, 30], |seed| runs(r, seed, medium)));
    r.group("small networks: quiet, least costs, every lookup and carry", |r| {
        scale.each(6, [10, 20, 400], |seed| settled(r, seed, small, 4_096))
    });
    r.group("medium networks: quiet, least costs, lookups and carries", |r| {
        scale.each(7, [1, 2, 60], |seed| settled(r, seed, medium, 1_500))
    });
    r.group("small networks: packets under way while messages are delivered", |r| {
        scale.each(8, [10, 20, 400], |seed| under_way(r, seed, small, 60))
    });
    r.group("medium networks: packets under way while messages are delivered", |r| {
        scale.each(9, [2, 2, 60], |seed| under_way(r, seed, medium, 400))
    });
}

fn begin(r: &mut Report, seed: u64, make: Make) -> Outcome {
    let mut b = Pair::new(r, seed, make);
    b.fresh(r)?;
    b.count_and_first(r)?;
    // and again over a table that was at work
    b.run(r, 5)?;
    b.count_and_first(r)?;
    b.fresh(r)
}

// up to `most` deliveries, one in five of them a message that may not wait; the whole table at every `pause`
fn deliveries(r: &mut Report, seed: u64, make: Make, most: usize, pause: usize) -> Outcome {
    let mut b = Pair::new(r, seed, make);
    b.fresh(r)?;
    for turn in 1..=most {
        let message = if b.rng.chance(20) { Some(b.any_message()) } else { b.waiting() };
        if let Some(message) = message {
            b.deliver(r, &message, turn % pause == 0)?;
            // the same again is refused, unless the row has won a new message meanwhile
            if b.rng.chance(10) {
                b.deliver(r, &message, turn % pause == 0)?;
            }
        }
        if turn % pause == 0 {
            b.count_and_first(r)?;
        }
    }
    b.compare(r, "deliveries")
}

fn runs(r: &mut Report, seed: u64, make: Make) -> Outcome {
    let mut b = Pair::new(r, seed, make);
    b.fresh(r)?;
    for limit in [0, 1, 2, 7, 50, 1_000] {
        b.run(r, limit)?;
        b.count_and_first(r)?;
    }
    if b.net.rows() <= 4_096 {
        b.run(r, u32::MAX)?;
        b.run(r, u32::MAX)?;
        b.fresh(r)?;
        b.run(r, 0x8000_0000)?;
    } else {
        b.run(r, 40_000)?;
    }
    b.count_and_first(r)
}

fn settled(r: &mut Report, seed: u64, make: Make, most: usize) -> Outcome {
    let mut b = Pair::new(r, seed, make);
    b.fresh(r)?;
    // some deliveries in random order first, so that quiet is reached on different ways
    for _ in 0..b.rng.below(200) {
        if let Some(message) = b.waiting() {
            b.deliver(r, &message, false)?;
        }
    }
    b.case.run(u32::MAX, 2)?;
    b.adopt();
    quiet::least(&b, r)?;
    quiet::journeys(&mut b, r, most)
}

// packets that were shown a cost go on hop by hop, with deliveries between the hops
fn under_way(r: &mut Report, seed: u64, make: Make, packets: usize) -> Outcome {
    let mut b = Pair::new(r, seed, make);
    b.fresh(r)?;
    for _ in 0..packets {
        for _ in 0..b.rng.below(12) {
            if let Some(message) = b.waiting() {
                b.deliver(r, &message, false)?;
            }
        }
        let (u, d, rank) = (b.rng.below(b.net.n), b.rng.below(b.net.n), b.rng.below(b.net.stacks.list.len()));
        let stack = b.net.stacks.list[rank].clone();
        if b.case.lookup(u, d, &stack)? != refused(6) {
            packet_on(&mut b, r, u, d, stack)?;
        }
    }
    b.compare(r, "packets under way")
}

fn packet_on(b: &mut Pair, r: &mut Report, mut u: usize, d: usize, mut stack: Vec<u8>) -> Outcome {
    let told = |b: &Pair, text: String| format!("{}: packet under way: {}", b.label, text);
    let mut purse = None;
    loop {
        let answer = b.case.lookup(u, d, &stack)?;
        r.same(Kind::Hop, is_refused(answer), false, || told(b, format!("refused at {} for {} with {:?}", u, d, stack)))?;
        if answer == 0 {
            return r.same(Kind::Packet, b.net.arrived(u, d, &stack), true, || told(b, format!("delivered at {} with {:?}", u, stack)));
        }
        let (next, function) = ((answer >> 56 & 63) as usize, (answer >> 48 & 255) as usize);
        let (number, cost) = ((answer >> 32 & 65_535) as usize, answer & 0xFFFF_FFFF);
        let left: u64 = *purse.get_or_insert(cost);
        let place = format!("at {} for {} with {:?}", u, d, stack);
        let what = || told(b, format!("{}: forward to {} function {} number {} cost {}", place, next, function, number, cost));
        let (made, paid) = packet::hop(&b.net, u, next, function, &stack).ok_or_else(what)?;
        r.same(Kind::Hop, (number, made.len() <= b.net.h), (b.net.stacks.number(&made), true), what)?;
        r.same(Kind::Hop, cost <= left && u64::from(paid) <= left, true, what)?;
        purse = Some(left - u64::from(paid));
        u = next;
        stack = made;
        for _ in 0..b.rng.below(6) {
            if let Some(message) = b.waiting() {
                b.deliver(r, &message, false)?;
            }
        }
    }
}
