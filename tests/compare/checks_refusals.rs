// Refusals 1, 2, 3, 4 and 9 of the seven calls: each boundary alone, and several at once, where the first in order is given.
use crate::calls::{refused, untouched, Case};
use crate::lent::Lent;
use crate::network;
use crate::pair::Pair;
use crate::report::{Kind, Outcome, Report};
use crate::rng::Rng;
use crate::scale::Scale;
use crate::shapes;

const HUGE: [usize; 5] = [usize::MAX, 1 << 32, 1 << 63, (1 << 32) + 1, 1 << 31];

pub fn all(r: &mut Report, scale: &Scale) {
    r.group("refusal 1: every size out of range, from every call", |r| sizes(r, scale.many(3_000, 20_000, 300_000) as u128));
    r.group("refusal 1: lengths of links and functions", |r| scale.each(60, [3, 6, 25], |seed| lengths(r, seed)));
    r.group("refusal 2: the diagonal and one-way links", |r| scale.each(61, [5, 8, 40], |seed| one_way(r, seed)));
    r.group("refusal 3: lengths of the table's slices", |r| scale.each(62, [3, 6, 25], |seed| tables(r, seed)));
    r.group("refusals 1 to 4 at once: the first in order", |r| scale.each(63, [5, 10, 60], |seed| mixed(r, seed)));
    r.group("refusal 9: short answer slices", |r| scale.each(64, [5, 10, 60], |seed| short(r, seed)));
}

// the parts of a case, to be changed before they are lent
struct Parts {
    sizes: [usize; 3],
    links: Vec<u16>,
    functions: Vec<u16>,
    tables: [usize; 3],
}

impl Parts {
    fn of(b: &Pair) -> Parts {
        let tables = [b.net.rows(); 3];
        Parts { sizes: [b.net.n, b.net.p, b.net.h], links: b.net.link_words(), functions: b.net.function_words(), tables }
    }

    fn want(&self) -> u64 {
        network::refusal(self.sizes[0], self.sizes[1], self.sizes[2], &self.links, self.functions.len(), self.tables)
    }

    fn case(&self) -> Case {
        let [n, p, h] = self.sizes;
        let (links, functions) = (Lent::new(&self.links), Lent::new(&self.functions));
        let (cost, way, waiting) = (Lent::junk(self.tables[0]), Lent::junk(self.tables[1]), Lent::junk(self.tables[2]));
        Case { n, p, h, links, functions, cost, way, waiting, thorough: true }
    }

    fn label(&self) -> String {
        let (links, functions) = (self.links.len(), self.functions.len());
        format!("[n, p, h] {:?}, {} links, {} functions, table slices {:?}", self.sizes, links, functions, self.tables)
    }

    // all seven calls refuse with `want`, be their own arguments right or out of range
    fn refused_by_all(&self, r: &mut Report) -> Outcome {
        let want = self.want();
        if want == 0 {
            return Err(format!("a test that refuses nothing: {}", self.label()));
        }
        r.met(want);
        let (n, h) = (self.sizes[0], self.sizes[2].min(20));
        let mut case = self.case();
        let w = refused(want);
        let say = |call: &str| format!("{} with {}", call, self.label());
        let got = [case.fresh()?, case.count()?, case.first_waiting()?];
        r.same(Kind::Refusal, got, [w; 3], || say("fresh, count, first_waiting"))?;
        let got = [case.deliver(0, 0, 0, 1)?, case.deliver(n, 0, 0, 1)?, case.deliver(0, 0, 0, 0)?, case.deliver(0, 1, 0, usize::MAX)?];
        r.same(Kind::Refusal, got, [w; 4], || say("deliver"))?;
        let high = vec![0; h + 1];
        let got = [
            case.lookup(0, 0, &[0])?,
            case.lookup(0, n, &[0])?,
            case.lookup(0, 0, &[])?,
            case.lookup(0, 0, &high)?,
            case.lookup(0, 0, &[255])?,
        ];
        r.same(Kind::Refusal, got, [w; 5], || say("lookup"))?;
        let zeros = [vec![0; 4], untouched(6).split_off(4)].concat();
        for (node, stack, limit) in [(0, &[0u8][..], 5), (n, &[0], 5), (0, &[], 5), (0, &[0], 16_385), (0, &[0], 0)] {
            let got = case.carry(node, 0, stack, limit, 6)?;
            r.same(Kind::Refusal, got, (w, zeros.clone()), || say("carry"))?;
        }
        for limit in [0, 1, u32::MAX] {
            let (answer, slice) = case.run(limit, 3)?;
            r.same(Kind::Refusal, answer, w, || say("run"))?;
            r.same(Kind::Refusal, &slice[..], &[0, 0, untouched(3)[2]][..], || say("run: deliveries and offers"))?;
        }
        Ok(())
    }
}

fn sizes(r: &mut Report, most_rows: u128) -> Outcome {
    let mut list = vec![[0, 2, 2], [33, 2, 2], [4, 0, 2], [4, 9, 2], [4, 2, 0], [4, 2, 13], [29, 8, 3], [3, 2, 12], [1, 8, 12]];
    list.extend([[32, 8, 12], [0, 0, 0], [33, 9, 13], [33, 1, 1], [1, 9, 1], [1, 1, 13], [1, 3, 9], [32, 2, 9], [1, 8, 5], [5, 3, 7]]);
    for huge in HUGE {
        list.extend([[huge, 1, 1], [1, huge, 1], [1, 1, huge], [huge, huge, huge]]);
    }
    for sizes in list {
        // with the lengths that would be right, as far as they are small, and with others
        let [n, p, h] = sizes.map(|size| size.min(40) as u128);
        let count: u128 = (1..=h.min(13) as u32).map(|k| p.pow(k)).sum();
        let rows = (n * n * count).min(most_rows) as usize;
        for tables in [[rows; 3], [0; 3], [17; 3]] {
            let (links, functions) = (vec![0; (n * n) as usize], vec![1; (n * 3 * p * p) as usize]);
            Parts { sizes, links, functions, tables }.refused_by_all(r)?;
        }
        Parts { sizes, links: Vec::new(), functions: Vec::new(), tables: [0; 3] }.refused_by_all(r)?;
    }
    Ok(())
}

// one more, one less, none, and some other lengths
fn wrong(len: usize) -> Vec<usize> {
    let list = [len + 1, len.wrapping_sub(1), 0, 2 * len, len / 2, len + 64];
    list.iter().copied().filter(|&other| other != len && other < 1 << 20).collect()
}

fn lengths(r: &mut Report, seed: u64) -> Outcome {
    let b = Pair::new(r, seed, shapes::small);
    for len in wrong(b.net.n * b.net.n) {
        let mut parts = Parts::of(&b);
        parts.links.resize(len, 0);
        parts.refused_by_all(r)?;
        parts.tables[0] += 1;
        parts.refused_by_all(r)?;
    }
    for len in wrong(b.net.function_words().len()) {
        let mut parts = Parts::of(&b);
        parts.functions.resize(len, 1);
        parts.refused_by_all(r)?;
        parts.links[0] = 1;
        parts.refused_by_all(r)?;
    }
    Ok(())
}

fn one_way(r: &mut Report, seed: u64) -> Outcome {
    let b = Pair::new(r, seed, shapes::small);
    let n = b.net.n;
    for u in 0..n {
        for v in 0..n {
            let mut parts = Parts::of(&b);
            let word = &mut parts.links[u * n + v];
            *word = if *word == 0 { 1 } else { 0 };
            parts.refused_by_all(r)?;
            parts.tables[2] -= 1;
            parts.refused_by_all(r)?;
        }
    }
    Ok(())
}

fn tables(r: &mut Report, seed: u64) -> Outcome {
    let b = Pair::new(r, seed, shapes::small);
    for which in 0..3 {
        for len in wrong(b.net.rows()) {
            let mut parts = Parts::of(&b);
            parts.tables[which] = len;
            parts.refused_by_all(r)?;
        }
    }
    for len in wrong(b.net.rows()) {
        let mut parts = Parts::of(&b);
        parts.tables = [len; 3];
        parts.refused_by_all(r)?;
    }
    Ok(())
}

fn spoil(rng: &mut Rng, parts: &mut Parts) {
    match rng.below(4) {
        0 => {
            let which = rng.below(3);
            parts.sizes[which] = rng.pick(&[0, 1, 2, 3, 4, 5, 8, 9, 12, 13, 32, 33, usize::MAX]);
        }
        1 => {
            let len = parts.links.len() + rng.below(3);
            parts.links.resize(len.saturating_sub(1), 1);
        }
        2 if !parts.links.is_empty() => {
            let at = rng.below(parts.links.len());
            parts.links[at] = rng.pick(&[0, 1, 65_535]);
        }
        _ => {
            let which = rng.below(3);
            parts.tables[which] = (parts.tables[which] + rng.below(3)).saturating_sub(1);
        }
    }
}

// several wrong at once; where it happens that nothing is, the calls' own refusals are compared
fn mixed(r: &mut Report, seed: u64) -> Outcome {
    let mut b = Pair::new(r, seed, shapes::small);
    for _ in 0..40 {
        let mut parts = Parts::of(&b);
        for _ in 0..b.rng.between(1, 4) {
            spoil(&mut b.rng, &mut parts);
        }
        if parts.want() != 0 {
            parts.refused_by_all(r)?;
        }
    }
    b.fresh(r)?;
    b.run(r, 30)?;
    for _ in 0..100 {
        let message = b.any_message();
        b.deliver(r, &message, true)?;
    }
    let rows = b.net.rows();
    crate::quiet::journeys(&mut b, r, rows.min(100))
}

// too short for an answer: nothing is done
fn short(r: &mut Report, seed: u64) -> Outcome {
    let mut b = Pair::new(r, seed, shapes::small);
    b.fresh(r)?;
    for len in 0..2 {
        let limit = b.rng.pick(&[0, 1, 100, u32::MAX]);
        let got = b.case.run(limit, len)?;
        r.met(9);
        r.same(Kind::Refusal, got, (refused(9), untouched(len)), || format!("{}: run {} with an answer slice of {}", b.label, limit, len))?;
    }
    b.compare(r, "runs with short answer slices")?;
    b.run(r, u32::MAX)?;
    let all: Vec<(usize, u8)> = (0..b.net.n).flat_map(|d| (0..b.net.p as u8).map(move |x| (d, x))).collect();
    for (d, x) in all {
        for len in 0..4 {
            let got = b.case.carry(d, d, &[x], 16_384, len)?;
            let what = || format!("{}: carry with an answer slice of {}", b.label, len);
            if b.net.arrived(d, d, &[x]) {
                r.met(9);
                r.same(Kind::Refusal, got, (refused(9), untouched(len)), what)?;
            } else {
                no_room(r, got, len, what)?;
            }
        }
    }
    let mut parts = Parts::of(&b);
    while parts.want() == 0 {
        spoil(&mut b.rng, &mut parts);
    }
    let mut case = parts.case();
    for len in 0..2 {
        let got = case.run(5, len)?;
        no_room(r, got, len, || format!("run with an answer slice of {} and {}", len, parts.label()))?;
        let got = case.carry(0, 0, &[0], 5, len)?;
        no_room(r, got, len, || format!("carry with an answer slice of {} and {}", len, parts.label()))?;
    }
    Ok(())
}

// A slice too short for the answer is refused before anything else is looked at: nothing is done and nothing is written.
fn no_room(r: &mut Report, got: (u64, Vec<u64>), len: usize, what: impl Fn() -> String) -> Outcome {
    r.same(Kind::Refusal, got, (refused(9), untouched(len)), what)
}
