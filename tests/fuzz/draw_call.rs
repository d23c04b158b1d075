// One call: which one, its own numbers, and the slices that only it is lent.
use crate::call::Call;
use crate::case::{Case, Common};
use crate::draw_numbers::{fill, lend, mostly, odd};
use crate::draw_packet;
use crate::memory::Lent;
use crate::model_network::lent;
use crate::model_table::NO_ROW;
use crate::rng::Rng;
use crate::stacks;

pub fn draw(rng: &mut Rng, case: &mut Case) -> Call {
    match rng.below(112) {
        0..=3 => Call::Fresh,
        4..=7 => Call::Count,
        8..=13 => Call::FirstWaiting,
        14..=39 => message(rng, &mut case.common),
        40..=45 => running(rng, case),
        46..=63 => {
            let (node, destination) = packet(rng, case);
            Call::Lookup { node, destination }
        }
        64..=77 => carrying(rng, case),
        78..=81 => adding(rng, &mut case.tally),
        82..=93 => reading(rng, case),
        _ => bare(rng, case),
    }
}

// from a random row on, and round again, the first that the test holds of
fn row(rng: &mut Rng, rows: usize, test: impl Fn(usize) -> bool) -> Option<usize> {
    let start = rng.below(rows);
    (start..rows).chain(0..start).find(|&row| test(row))
}

fn message(rng: &mut Rng, common: &mut Common) -> Call {
    let mut m = [common.n, common.n, common.n, 2].map(|bound| rng.below(bound.clamp(1, 40)));
    if let Ok((net, table)) = lent(common) {
        m[3] = rng.between(1, net.s);
        let waits = row(rng, net.rows(), |row| table.waiting[row] != 0);
        if let (Some(row), true) = (waits, rng.chance(80)) {
            let (sender, destination, number) = net.place(row);
            // for the most part to a neighbour
            let near = table.waiting[row] & net.neighbours(sender);
            let word = if near == 0 || rng.chance(20) { table.waiting[row] } else { near };
            let bits: Vec<usize> = (0..32).filter(|bit| word >> bit & 1 == 1).collect();
            m = [sender, rng.pick(&bits), destination, number];
        }
    }
    let [sender, receiver, destination, number] = m.map(|right| mostly(rng, right, 3));
    Call::Deliver { sender, receiver, destination, number }
}

fn running(rng: &mut Rng, case: &mut Case) -> Call {
    room(rng, &mut case.answer, 2);
    let some = rng.word() as u32;
    let limit = match rng.below(8) {
        0 => 0,
        1 => 1,
        2 => 2,
        3 | 4 => some % 30,
        5 => some % 1_000,
        6 => some,
        _ => u32::MAX,
    };
    Call::Run { limit }
}

fn carrying(rng: &mut Rng, case: &mut Case) -> Call {
    room(rng, &mut case.answer, 4);
    let (node, destination) = packet(rng, case);
    let limit = match rng.below(50) {
        0 => 16_384,
        1 => 16_385,
        2 => odd(rng, 16_384),
        3..=20 => rng.below(4),
        _ => rng.below(60),
    };
    Call::Carry { node, destination, limit }
}

// an answer slice for this many numbers, or for fewer or more
fn room(rng: &mut Rng, answer: &mut Lent<u64>, right: usize) {
    let len = match rng.below(10) {
        0 => rng.below(right),
        1 => rng.below(20),
        2 => right + 1,
        _ => right,
    };
    answer.want = fill(rng, len);
    answer.lend(rng);
}

// a node, a destination and, as the lent stack, a stack that the table has a row for
fn packet(rng: &mut Rng, case: &mut Case) -> (usize, usize) {
    let (mut node, mut destination) = (rng.below(3), rng.below(3));
    let (p, h) = (case.common.p, case.common.h);
    let mut stack = vec![rng.below(2) as u8];
    if let Ok((net, table)) = lent(&mut case.common) {
        let kind = rng.below(10);
        let test = |row: usize| kind == 0 || table.cost[row] != NO_ROW && (kind < 3 || table.cost[row] != 0);
        let place = net.place(row(rng, net.rows(), test).unwrap_or(0));
        node = place.0;
        destination = place.1;
        stack = net.stack(place.2).unwrap_or_default();
    }
    lend_stack(rng, case, stack, p, h);
    (mostly(rng, node, 3), mostly(rng, destination, 3))
}

// a few times in a hundred empty, too high, or with a protocol that there is not
fn lend_stack(rng: &mut Rng, case: &mut Case, mut stack: Vec<u8>, p: usize, h: usize) {
    match rng.below(40) {
        0 => stack.clear(),
        1 => stack.resize(h.min(20) + rng.below(2), 0),
        2 if !stack.is_empty() => {
            let at = rng.below(stack.len());
            stack[at] = mostly(rng, p, 50) as u8;
        }
        3 => {
            let len = rng.below(16);
            stack = fill(rng, len);
        }
        _ => {}
    }
    case.stack.want = stack;
    lend(rng, &mut case.stack, 2);
}

// a buffer for a stack of this height, or a shorter or a longer one
fn buffer(rng: &mut Rng, out: &mut Lent<u8>, height: usize) {
    let len = rng.pick(&[0, height - 1, height, height, height + 1, 12, 20]);
    out.want = fill(rng, len);
    out.lend(rng);
}

fn reading(rng: &mut Rng, case: &mut Case) -> Call {
    let h = rng.between(1, 12);
    let height = match rng.below(16) {
        0 => 13,
        1 | 2 => h + 1,
        3..=5 => h,
        _ => rng.between(1, h),
    };
    case.packet.want = draw_packet::draw(rng, height);
    lend(rng, &mut case.packet, 2);
    buffer(rng, &mut case.out, height);
    room(rng, &mut case.answer, 4);
    let h = match rng.below(30) {
        0 => 0,
        1 => 13,
        2 => odd(rng, h),
        _ => h,
    };
    Call::ReadStack { h }
}

fn adding(rng: &mut Rng, tally: &mut Lent<u32>) -> Call {
    let mut number = || {
        let some = rng.word();
        match rng.below(40) {
            0 => some,
            1 => u64::MAX - some % 3,
            2 => (1 << 32) - some % 3,
            3 => (1 << 32) + some % 3,
            4..=9 => some >> 32,
            _ => some % 1_000,
        }
    };
    tally.want = (0..3).map(|_| number() as u32).collect();
    let call = Call::TallyAdd { deliveries: number(), offers: number(), refused: number() as u32 };
    tally.lend(rng);
    call
}

fn bare(rng: &mut Rng, case: &mut Case) -> Call {
    let (p, h) = (rng.between(1, 8), rng.between(1, 12));
    let most = stacks::count(p, h).unwrap_or(1) as usize;
    let number = if rng.chance(20) { most } else { rng.between(1, most) };
    let function = if rng.chance(15) { rng.below(300) } else { 64 * rng.below(3) + 8 * rng.below(p) + rng.below(p) };
    let stack = stacks::stack(p, h, number as u128).unwrap_or_default();
    let (p, h) = (mostly(rng, p, 4), mostly(rng, h, 4));
    let (number, function) = (mostly(rng, number, 8), mostly(rng, function, 4));
    match rng.below(6) {
        0 => Call::StackCount { p, h },
        1 => {
            lend_stack(rng, case, stack, p, h);
            Call::NumberOf { p, h }
        }
        2 => {
            buffer(rng, &mut case.out, stack.len());
            Call::StackOf { p, h, number }
        }
        3 | 4 => Call::Applied { p, h, function: fitting(rng, &stack, function), number },
        _ => Call::InverseOf { p, function },
    }
}

// a function that looks at the top of this stack, or the one given
fn fitting(rng: &mut Rng, stack: &[u8], function: usize) -> usize {
    match (rng.below(3), stack) {
        (0, [.., below, top]) => 128 + 8 * *below as usize + *top as usize,
        (1, [.., top]) if function < 128 => function / 64 * 64 + 8 * *top as usize + function % 8,
        _ => function,
    }
}
