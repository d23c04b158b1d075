// The largest networks there are, and the sizes just beyond.
use crate::calls::{is_refused, refused, Case};
use crate::lent::Lent;
use crate::network::Network;
use crate::pair::Pair;
use crate::quiet;
use crate::report::{Kind, Outcome, Report};
use crate::scale::{Scale, Size};
use crate::shapes;
use crate::stacks;

pub fn all(r: &mut Report, scale: &Scale) {
    r.group("sizes: p=8 h=3 has room for 28 nodes, p=2 h=12 for 2", boundaries);
    r.group("one node: no message ever", |r| scale.each(20, [5, 20, 60], |seed| one_node(r, seed)));
    if scale.size == Size::Tiny {
        return;
    }
    r.group("sizes: every p and h with the most nodes, and with one more", all_boundaries);
    for (i, &(n, p, h)) in shapes::LIMITS.iter().enumerate() {
        let full = scale.size == Size::Full;
        r.group(&format!("at the limits: n={} p={} h={}", n, p, h), |r| {
            let shapes: &[(usize, usize)] = if full { &[(1, 40), (2, 25), (10, 20)] } else { &[(2, 20)] };
            for (k, &(density, functions)) in shapes.iter().enumerate() {
                let seed = scale.first_seed(21 + i as u64) + k as u64;
                large(r, seed, (n, p, h), density, functions, full).map_err(|text| format!("seed {}: {}", seed, text))?;
            }
            Ok(())
        });
    }
}

// accepted or refused with all lengths right, as far as there are such lengths
fn sized(r: &mut Report, n: usize, p: usize, h: usize, stacks: usize, want: u64) -> Outcome {
    let rows = n * n * stacks;
    let links = vec![0; n * n];
    let functions = vec![0; n * 3 * p * p];
    let (links, functions) = (Lent::new(&links), Lent::new(&functions));
    let (cost, way, waiting) = (Lent::junk(rows), Lent::junk(rows), Lent::junk(rows));
    let mut case = Case { n, p, h, links, functions, cost, way, waiting, thorough: true };
    let got = case.fresh()?;
    r.same(Kind::Example, got, want, || format!("fresh with n={} p={} h={}, S={}", n, p, h, stacks))?;
    let got = case.count()?;
    let waits = if want == 0 { 0 } else { refused(1) };
    r.same(Kind::Example, got, waits, || format!("count with n={} p={} h={}, S={}", n, p, h, stacks))
}

fn boundaries(r: &mut Report) -> Outcome {
    let two = (1..13).map(|k| 1usize << k).sum();
    sized(r, 28, 8, 3, 8 + 64 + 512, 0)?;
    sized(r, 29, 8, 3, 8 + 64 + 512, refused(1))?;
    sized(r, 2, 2, 12, two, 0)?;
    sized(r, 3, 2, 12, two, refused(1))?;
    sized(r, 32, 1, 12, 12, 0)?;
    sized(r, 33, 1, 1, 1, refused(1))?;
    sized(r, 32, 2, 8, 510, 0)?;
    sized(r, 32, 2, 9, 1_022, refused(1))?;
    sized(r, 1, 1, 13, 13, refused(1))?;
    sized(r, 1, 9, 1, 9, refused(1))?;
    sized(r, 1, 4, 6, 5_460, 0)?;
    sized(r, 3, 4, 6, 5_460, 0)?;
    sized(r, 4, 4, 6, 5_460, refused(1))?;
    sized(r, 1, 5, 6, 19_530, refused(1))?;
    sized(r, 1, 8, 12, 1_000, refused(1))
}

// for every p and h the most nodes that there is room for, and one more
fn all_boundaries(r: &mut Report) -> Outcome {
    for p in 1..=8 {
        for h in 1..=12 {
            let count = stacks::count(p, h).unwrap_or(0) as usize;
            let most = (16_384 / count).min(32);
            if most > 0 {
                sized(r, most, p, h, count, 0)?;
            }
            sized(r, most + 1, p, h, count.min(20_000), refused(1))?;
        }
    }
    Ok(())
}

fn one_node(r: &mut Report, seed: u64) -> Outcome {
    let mut b = Pair::new(r, seed, |rng| {
        let (p, h) = rng.pick(&[(1, 1), (2, 3), (3, 2), (1, 12), (8, 1), (2, 5)]);
        let functions = rng.pick(&[0, 30, 100]);
        shapes::make(rng, 1, p, h, 100, functions)
    });
    b.fresh(r)?;
    let count = b.case.count()?;
    r.same(Kind::Example, count, 0, || format!("{}: count of one node", b.label))?;
    b.run(r, 10)?;
    quiet::least(&b, r)?;
    quiet::journeys(&mut b, r, 200)
}

fn large(r: &mut Report, seed: u64, (n, p, h): (usize, usize, usize), density: usize, functions: usize, full: bool) -> Outcome {
    let mut b = Pair::new(r, seed, |rng| -> Network { shapes::make(rng, n, p, h, density, functions) });
    let (few, most) = if full { (6_000, 3_000) } else { (300, 100) };
    b.fresh(r)?;
    b.count_and_first(r)?;
    for turn in 1..=few {
        let message = if b.rng.chance(10) { Some(b.any_message()) } else { b.waiting() };
        if let Some(message) = message {
            b.deliver(r, &message, turn % 3_000 == 0)?;
        }
    }
    b.count_and_first(r)?;
    b.run(r, few as u32)?;
    // on to quiet: by run, or in rounds, since table order takes many times as many deliveries in a large table
    let swift = b.net.rows() < 40_000;
    if swift {
        b.case.run(u32::MAX, 2)?;
    } else {
        rounds(&mut b)?;
    }
    b.adopt();
    b.run(r, u32::MAX)?;
    b.count_and_first(r)?;
    if full || n < 5 {
        quiet::least(&b, r)?;
    }
    b.case.keep();
    quiet::journeys(&mut b, r, most)?;
    b.case.is_kept("lookups and carries")
}

// the library alone delivers all messages that wait, round by round
fn rounds(b: &mut Pair) -> Outcome {
    let s = b.net.stacks.list.len();
    loop {
        let words = b.case.waiting.part().to_vec();
        let mut done = 0;
        for (at, &word) in words.iter().enumerate().filter(|(_, &word)| word != 0) {
            for v in (0..32).filter(|v| word >> v & 1 == 1) {
                let answer = b.case.deliver(at / s / b.net.n, v, at / s % b.net.n, at % s + 1)?;
                if is_refused(answer) {
                    return Err(format!("{}: delivery of a waiting message to {} refused: {:x}", b.label, v, answer));
                }
                done += 1;
            }
        }
        if done == 0 {
            return Ok(());
        }
    }
}
