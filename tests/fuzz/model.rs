// What each call must answer, and what every slice must hold after it: the specification once more, on raw numbers and slices.
use crate::call::Call;
use crate::case::Case;
use crate::model_headers::read_stack;
use crate::model_network::lent;
use crate::model_packets::{carry, lookup, Look};
use crate::model_table::{count, deliver, first_waiting, fresh, run, Message, Ran};
use crate::planted::planted;
use crate::stacks::{self, Change};

fn refused(number: u64) -> u64 {
    1 << 63 | number
}

// a forward or a first message: a node, a function or a second node, and the rest
fn found(node: usize, second: usize, rest: u64) -> u64 {
    1 << 62 | (node as u64) << 56 | (second as u64) << 48 | rest
}

// a call that answers 0 where nothing refuses
fn end(refusal: u64) -> u64 {
    if refusal == 0 {
        0
    } else {
        refused(refusal)
    }
}

// the answer; the slices' `want` becomes what they must hold. A run that would take too long is asked for less.
pub fn answer(case: &mut Case, call: &mut Call) -> u64 {
    match *call {
        Call::Fresh | Call::Count | Call::FirstWaiting | Call::Deliver { .. } => on_table(case, call).unwrap_or_else(refused),
        Call::Run { ref mut limit } => running(case, limit),
        Call::Lookup { node, destination } => looking(case, node, destination).unwrap_or_else(refused),
        Call::Carry { node, destination, limit } => carrying(case, node, destination, limit),
        Call::TallyAdd { deliveries, offers, refused } => tally(&mut case.tally.want, [deliveries, offers, u64::from(refused)]),
        Call::StackCount { p, h } => number_or_4(stacks::count(p, h)),
        Call::NumberOf { p, h } => number_or_4(stacks::number(p, h, case.stack.words())),
        Call::StackOf { p, h, number } => written(&mut case.out.want, stacks::stack(p, h, number as u128)),
        Call::Applied { p, h, function, number } => applied(p, h, function, number).unwrap_or_else(|| refused(4)),
        Call::InverseOf { p, function } => inverse(p, function).unwrap_or_else(|| refused(4)),
        Call::ReadStack { h } => end(read_stack(h, case.packet.words(), &mut case.out.want, &mut case.answer.want)),
    }
}

fn on_table(case: &mut Case, call: &Call) -> Result<u64, u64> {
    let (net, mut table) = lent(&mut case.common)?;
    match *call {
        Call::Fresh => {
            fresh(&net, &mut table);
            Ok(count(&net, &table))
        }
        Call::Count => Ok(count(&net, &table)),
        Call::Deliver { sender, receiver, destination, number } => {
            deliver(&net, &mut table, &Message { sender, receiver, destination, number })
        }
        _ => {
            let first = first_waiting(&net, &table);
            Ok(first.map_or(0, |m| found(m.sender, m.receiver, (m.destination as u64) << 40 | m.number as u64)))
        }
    }
}

fn running(case: &mut Case, limit: &mut u32) -> u64 {
    if case.answer.len() < if planted("run_needs_three") { 3 } else { 2 } {
        return refused(9);
    }
    let ran = match lent(&mut case.common) {
        Err(refused) => Ran { refused, ..Ran::default() },
        Ok((net, mut table)) => {
            let most = (*limit).min(2_000_000 / (500 + net.rows() as u32));
            let ran = run(&net, &mut table, u64::from(most));
            if ran.done == u64::from(most) {
                *limit = most;
            }
            ran
        }
    };
    case.answer.want[..2].copy_from_slice(&[ran.done, ran.offers]);
    end(ran.refused)
}

fn looking(case: &mut Case, node: usize, destination: usize) -> Result<u64, u64> {
    let (net, table) = lent(&mut case.common)?;
    match lookup(&net, &table, node, destination, case.stack.words()) {
        Look::Delivered => Ok(0),
        Look::Refused(refused) => Err(refused),
        Look::Forward(hop) => {
            let number = net.number(&hop.stack).unwrap_or(0) as u64;
            Ok(found(hop.next, hop.function, number << 32 | u64::from(hop.cost)))
        }
    }
}

fn carrying(case: &mut Case, node: usize, destination: usize, limit: usize) -> u64 {
    let room = case.answer.len();
    if room < 4 {
        if planted("short_answer_written") {
            case.answer.want.fill(0);
        }
        return refused(9);
    }
    let (numbers, refusal) = match lent(&mut case.common) {
        Err(refusal) => ([0; 4], refusal),
        Ok((net, table)) => match carry(&net, &table, node, destination, case.stack.words(), limit) {
            None => ([0; 4], 4),
            Some(c) => ([c.hops, c.spent, c.node as u64, net.number(&c.stack).unwrap_or(0) as u64], c.refused),
        },
    };
    case.answer.want[..4].copy_from_slice(&numbers);
    end(refusal)
}

// 1 where a counter stops
fn tally(counters: &mut [u32], more: [u64; 3]) -> u64 {
    for (counter, more) in counters.iter_mut().zip(more) {
        *counter = (u128::from(*counter) + u128::from(more)).min(u128::from(u32::MAX)) as u32;
    }
    u64::from(counters.contains(&u32::MAX))
}

fn number_or_4(number: Option<u128>) -> u64 {
    number.map_or(refused(4), |number| number as u64)
}

fn written(out: &mut [u8], stack: Option<Vec<u8>>) -> u64 {
    match stack {
        Some(stack) if stack.len() <= out.len() => {
            out[..stack.len()].copy_from_slice(&stack);
            stack.len() as u64
        }
        Some(stack) if planted("written_on_refusal") => {
            let room = out.len();
            out.copy_from_slice(&stack[..room]);
            refused(4)
        }
        _ => refused(4),
    }
}

// kind, a and b of a function of p protocols
fn function(p: usize, number: usize) -> Option<(Change, u8, u8)> {
    stacks::function(number).filter(|&(_, a, b)| (a as usize) < p && (b as usize) < p)
}

fn applied(p: usize, h: usize, number: usize, stack: usize) -> Option<u64> {
    let stack = stacks::stack(p, h, stack as u128)?;
    let (change, a, b) = function(p, number)?;
    Some(stacks::apply(change, a, b, &stack, h).and_then(|made| stacks::number(p, h, &made)).unwrap_or(0) as u64)
}

fn inverse(p: usize, number: usize) -> Option<u64> {
    let (change, a, b) = function(p, number).filter(|_| p <= 8)?;
    Some(match change {
        Change::Convert => stacks::function_number(Change::Convert, b, a),
        Change::Wrap => stacks::function_number(Change::Unwrap, a, b),
        Change::Unwrap => stacks::function_number(Change::Wrap, a, b),
    } as u64)
}
