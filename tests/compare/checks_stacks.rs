// The bare stack routines: all small sizes wholly, large ones at random.
use crate::calls::{applied, inverse_of, number_of, refused, stack_count, stack_of};
use crate::lent::Lent;
use crate::report::{Kind, Outcome, Report};
use crate::rng::Rng;
use crate::scale::Scale;
use crate::stacks::{self, Change};

const ODD: [usize; 6] = [usize::MAX, 1 << 32, 1 << 63, 255, 256, (1 << 32) + 2];

pub fn all(r: &mut Report, scale: &Scale) {
    let most = scale.many(300, 3_000, 60_000);
    let wide = scale.many(40, 130, 600);
    r.group("stack_count", counts);
    r.group("number_of and stack_of: every stack of small sizes", |r| every_stack(r, wide));
    r.group("applied: every function on every stack of small sizes", |r| every_function(r, wide));
    r.group("inverse_of: every function", inverses);
    r.group("stack routines: random sizes up to p=8 h=12", |r| random(r, scale.seed, most));
}

fn or_four(answer: Option<u128>) -> u64 {
    answer.map_or(refused(4), |number| number as u64)
}

fn counts(r: &mut Report) -> Outcome {
    for p in (0..12).chain(ODD) {
        for h in (0..16).chain(ODD) {
            r.same(Kind::Stack, stack_count(p, h), or_four(stacks::count(p, h)), || format!("stack_count {} {}", p, h))?;
        }
    }
    r.same(Kind::Example, stack_count(8, 12), 78_536_544_840, || "stack_count 8 12".to_string())
}

// the sizes with at most `most` stacks
fn sizes(most: usize) -> Vec<(usize, usize)> {
    let all = (1..=8).flat_map(|p| (1..=12).map(move |h| (p, h)));
    all.filter(|&(p, h)| stacks::count(p, h).map_or(false, |count| count <= most as u128)).collect()
}

// a buffer of `len` after stack_of: the stack at its front, or nothing new
fn buffer(len: usize, stack: Option<&[u8]>) -> (u64, Vec<u8>) {
    let mut out = Lent::<u8>::junk(len).part().to_vec();
    match stack {
        Some(stack) if stack.len() <= len => {
            out[..stack.len()].copy_from_slice(stack);
            (stack.len() as u64, out)
        }
        _ => (refused(4), out),
    }
}

fn written(r: &mut Report, p: usize, h: usize, number: usize, len: usize, stack: Option<&[u8]>) -> Outcome {
    let got = stack_of(p, h, number, len)?;
    r.same(Kind::Stack, got, buffer(len, stack), || format!("stack_of {} {} {} with a buffer of {}", p, h, number, len))
}

fn numbered(r: &mut Report, p: usize, h: usize, stack: &[u8], want: Option<u128>) -> Outcome {
    let got = number_of(p, h, stack)?;
    r.same(Kind::Stack, got, or_four(want), || format!("number_of {} {} {:?}", p, h, stack))
}

fn every_stack(r: &mut Report, wide: usize) -> Outcome {
    for (p, h) in sizes(wide) {
        let list = stacks::all(p, h);
        for (i, stack) in list.iter().enumerate() {
            numbered(r, p, h, stack, Some(i as u128 + 1))?;
            for len in 0..=h + 2 {
                written(r, p, h, i + 1, len, Some(stack))?;
            }
        }
        for number in [0, list.len() + 1].iter().copied().chain(ODD).filter(|&number| number == 0 || number > list.len()) {
            for len in [0, 1, h, h + 1, 30] {
                written(r, p, h, number, len, None)?;
            }
        }
        numbered(r, p, h, &[], None)?;
        numbered(r, p, h, &vec![0; h + 1], None)?;
        numbered(r, p, h, &[0; 700], None)?;
        for at in 0..h {
            let mut bad = vec![0; h];
            bad[at] = p as u8;
            numbered(r, p, h, &bad, None)?;
            bad[at] = 255;
            numbered(r, p, h, &bad, None)?;
        }
    }
    for (p, h) in [(0, 3), (9, 3), (2, 0), (2, 13), (usize::MAX, 2), (2, usize::MAX), (0, 0)] {
        numbered(r, p, h, &[0], None)?;
        numbered(r, p, h, &[], None)?;
        written(r, p, h, 1, 5, None)?;
        written(r, p, h, 0, 0, None)?;
    }
    Ok(())
}

// a function's number with a and b below p
fn known(p: usize, function: usize) -> Option<(Change, u8, u8)> {
    stacks::function(function).filter(|&(_, a, b)| (a as usize) < p && (b as usize) < p)
}

fn apply(p: usize, h: usize, function: usize, number: usize) -> u64 {
    let stack = match stacks::stack(p, h, number as u128) {
        Some(stack) => stack,
        None => return refused(4),
    };
    match known(p, function) {
        Some((change, a, b)) => stacks::apply(change, a, b, &stack, h).map_or(0, |made| or_four(stacks::number(p, h, &made))),
        None => refused(4),
    }
}

fn every_function(r: &mut Report, wide: usize) -> Outcome {
    for (p, h) in sizes(wide) {
        let count = stacks::all(p, h).len();
        for number in (0..=count + 1).chain(ODD) {
            for function in (0..256).chain(ODD) {
                let want = apply(p, h, function, number);
                r.same(Kind::Stack, applied(p, h, function, number), want, || format!("applied {} {} {} {}", p, h, function, number))?;
            }
        }
    }
    for (p, h) in [(0, 3), (9, 3), (2, 0), (2, 13), (usize::MAX, 2), (2, usize::MAX)] {
        r.same(Kind::Stack, applied(p, h, 0, 1), refused(4), || format!("applied {} {} 0 1", p, h))?;
    }
    // P12: wrap a in b on ab is not applicable at height 2
    r.same(Kind::Example, applied(2, 2, 64 + 1, 4), 0, || "P12".to_string())
}

fn inverses(r: &mut Report) -> Outcome {
    for p in (0..12).chain(ODD) {
        for function in (0..520).chain(ODD) {
            let taken_back = known(p, function).filter(|_| (1..=8).contains(&p)).map(|(change, a, b)| match change {
                Change::Convert => stacks::function_number(Change::Convert, b, a),
                Change::Wrap => stacks::function_number(Change::Unwrap, a, b),
                Change::Unwrap => stacks::function_number(Change::Wrap, a, b),
            });
            let want = or_four(taken_back.map(|number| number as u128));
            r.same(Kind::Stack, inverse_of(p, function), want, || format!("inverse_of {} {}", p, function))?;
        }
    }
    Ok(())
}

fn random(r: &mut Report, seed: u64, most: usize) -> Outcome {
    let mut rng = Rng::new(seed ^ 0x57AC);
    for _ in 0..most {
        let (p, h) = (rng.between(1, 8), rng.between(1, 12));
        let height = rng.between(1, h + 1);
        let stack: Vec<u8> = (0..height).map(|_| rng.below(p) as u8).collect();
        let number = stacks::number(p, h, &stack);
        numbered(r, p, h, &stack, number)?;
        let count = stacks::count(p, h).map_or(0, |count| count as usize);
        let number = match rng.below(8) {
            0 => count + rng.below(3),
            _ => rng.below(count) + 1,
        };
        let known = stacks::stack(p, h, number as u128);
        for len in [0, height.saturating_sub(1), h, h + 1, rng.below(14)] {
            written(r, p, h, number, len, known.as_deref())?;
        }
        let function = 64 * rng.below(3) + 8 * rng.below(p) + rng.below(p);
        for function in [function, rng.below(300)] {
            let want = apply(p, h, function, number);
            r.same(Kind::Stack, applied(p, h, function, number), want, || format!("applied {} {} {} {}", p, h, function, number))?;
        }
    }
    Ok(())
}
