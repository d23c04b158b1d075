// Stacks as lists of protocols, bottom to top. Numbers here are ranks: lower stacks first, then in the order of a dictionary.
use crate::planted::planted;
use std::collections::HashMap;

// all stacks of p protocols up to height h in the order of their numbers: each stack is followed, later, by those that lie on it
pub fn all(p: usize, h: usize) -> Vec<Vec<u8>> {
    let mut list: Vec<Vec<u8>> = (0..p).map(|q| vec![q as u8]).collect();
    let mut at = 0;
    while at < list.len() {
        if list[at].len() < h {
            for q in 0..p {
                let mut higher = list[at].clone();
                higher.push(q as u8);
                list.push(higher);
            }
        }
        at += 1;
    }
    list
}

pub struct Stacks {
    pub list: Vec<Vec<u8>>,
    ranks: HashMap<Vec<u8>, usize>,
}

impl Stacks {
    pub fn new(p: usize, h: usize) -> Stacks {
        let list = all(p, h);
        let ranks = list.iter().cloned().enumerate().map(|(i, s)| (s, i)).collect();
        Stacks { list, ranks }
    }

    // 0 for what is no stack here
    pub fn number(&self, stack: &[u8]) -> usize {
        self.ranks.get(stack).map_or(0, |i| i + 1)
    }

    pub fn stack(&self, number: usize) -> Option<&Vec<u8>> {
        self.list.get(number.checked_sub(1)?)
    }
}

pub fn sizes_fit(p: usize, h: usize) -> bool {
    (1..=8).contains(&p) && (1..=12).contains(&h)
}

// how many stacks there are; none where p or h is out of range
pub fn count(p: usize, h: usize) -> Option<u128> {
    if !sizes_fit(p, h) {
        return None;
    }
    Some((1..=h as u32).map(|height| (p as u128).pow(height)).sum())
}

// how many stacks are lower than `height`, and then the rank among those of this height
pub fn number(p: usize, h: usize, stack: &[u8]) -> Option<u128> {
    if !sizes_fit(p, h) || stack.is_empty() || stack.len() > h || stack.iter().any(|&q| q as usize >= p) {
        return None;
    }
    let lower: u128 = (1..stack.len() as u32).map(|height| (p as u128).pow(height)).sum();
    let rank: u128 = stack.iter().rev().enumerate().map(|(i, &q)| q as u128 * (p as u128).pow(i as u32)).sum();
    Some(lower + rank + 1)
}

pub fn stack(p: usize, h: usize, number: u128) -> Option<Vec<u8>> {
    if number == 0 || number > count(p, h)? {
        return None;
    }
    let mut rank = number - 1;
    let mut height = 1;
    while rank >= (p as u128).pow(height) {
        rank -= (p as u128).pow(height);
        height += 1;
    }
    Some((0..height).rev().map(|i| (rank / (p as u128).pow(i) % p as u128) as u8).collect())
}

#[derive(Clone, Copy, PartialEq, Eq, Debug)]
pub enum Change {
    Convert,
    Wrap,
    Unwrap,
}

// kind, a and b of a function's number; none where there is no such kind
pub fn function(number: usize) -> Option<(Change, u8, u8)> {
    let (a, b) = ((number % 64 / 8) as u8, (number % 8) as u8);
    match number / 64 {
        0 => Some((Change::Convert, a, b)),
        1 => Some((Change::Wrap, a, b)),
        2 => Some((Change::Unwrap, a, b)),
        _ => None,
    }
}

pub fn function_number(change: Change, a: u8, b: u8) -> usize {
    64 * change as usize + 8 * a as usize + b as usize
}

// what a function makes of a stack
pub fn apply(change: Change, a: u8, b: u8, stack: &[u8], h: usize) -> Option<Vec<u8>> {
    match (change, stack) {
        (Change::Convert, [rest @ .., top]) if *top == a => Some([rest, &[b]].concat()),
        (Change::Wrap, [.., top]) if *top == a && stack.len() < h => Some([stack, &[b]].concat()),
        (Change::Unwrap, [rest @ .., below, top]) if *below == a && *top == b => Some([rest, &[a]].concat()),
        _ => None,
    }
}

// the stack H of height at most h of which the function makes this one
pub fn before(change: Change, a: u8, b: u8, stack: &[u8], h: usize) -> Option<Vec<u8>> {
    if planted("stack_forward") {
        return apply(change, a, b, stack, h);
    }
    let highest = if planted("height_untested") { h + 1 } else { h };
    let top = *stack.last()?;
    let mut found = stack.to_vec();
    match change {
        Change::Convert if top == b => {
            found.pop();
            found.push(a);
        }
        Change::Wrap if top == b && found.len() > 1 && found[found.len() - 2] == a => {
            found.pop();
        }
        Change::Unwrap if top == a && found.len() < highest => found.push(b),
        _ => return None,
    }
    Some(found)
}

// letters bottom to top, as the specification prints stacks
pub fn text(stack: &[u8]) -> String {
    stack.iter().map(|&q| (b'a' + q % 26) as char).collect()
}
