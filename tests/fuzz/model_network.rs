// The independent program's network: the lent numbers and slices themselves, and refusals 1, 2 and 3, which every call tests first.
use crate::case::Common;
use crate::planted::planted;
use crate::stacks::{self, Change};

pub const CHANGES: [Change; 3] = [Change::Convert, Change::Wrap, Change::Unwrap];

pub struct Network<'a> {
    pub n: usize,
    pub p: usize,
    pub h: usize,
    pub s: usize,
    links: &'a [u16],
    functions: &'a [u16],
}

pub struct Table<'a> {
    pub cost: &'a mut [u32],
    pub way: &'a mut [u16],
    pub waiting: &'a mut [u32],
}

impl<'a> Network<'a> {
    // none where refusal 1 applies
    pub fn sized(n: usize, p: usize, h: usize, links: &'a [u16], functions: &'a [u16]) -> Option<Network<'a>> {
        let s = stacks::count(p, h).filter(|s| (1..=32).contains(&n) && n as u128 * s <= 16_384)? as usize;
        let right = links.len() == n * n && functions.len() == n * 3 * p * p;
        Some(Network { n, p, h, s, links, functions }).filter(|_| right)
    }

    // refusal 2 does not apply
    pub fn goes_both_ways(&self) -> bool {
        (0..self.n).all(|u| self.link(u, u).is_none() && (0..u).all(|v| self.link(u, v).is_some() == self.link(v, u).is_some()))
    }

    pub fn rows(&self) -> usize {
        self.n * self.n * self.s
    }

    pub fn link(&self, u: usize, v: usize) -> Option<u64> {
        Some(u64::from(self.links[u * self.n + v])).filter(|&cost| cost != 0)
    }

    // the bits of the nodes that U has a link to
    pub fn neighbours(&self, u: usize) -> u32 {
        (0..self.n).filter(|&v| self.link(u, v).is_some()).map(|v| 1 << v).sum()
    }

    pub fn price(&self, u: usize, change: Change, a: u8, b: u8) -> Option<u64> {
        let grid = 3 * u + change as usize;
        u64::from(self.functions[(grid * self.p + a as usize) * self.p + b as usize]).checked_sub(1)
    }

    pub fn accepts(&self, d: usize, x: u8) -> bool {
        let has = |change, a, b| self.price(d, change, a, b).is_some();
        (0..self.p as u8).any(|y| has(Change::Convert, x, y) || has(Change::Wrap, x, y) || has(Change::Unwrap, y, x))
    }

    pub fn row(&self, u: usize, d: usize, number: usize) -> usize {
        (u * self.n + d) * self.s + number - 1
    }

    // node, destination and stack number of a row
    pub fn place(&self, row: usize) -> (usize, usize, usize) {
        (row / self.s / self.n, row / self.s % self.n, row % self.s + 1)
    }

    pub fn number(&self, stack: &[u8]) -> Option<usize> {
        stacks::number(self.p, self.h, stack).map(|number| number as usize)
    }

    pub fn stack(&self, number: usize) -> Option<Vec<u8>> {
        stacks::stack(self.p, self.h, number as u128)
    }
}

// what is lent, as a network and a table, or refusal 1, 2 or 3
pub fn lent(common: &mut Common) -> Result<(Network<'_>, Table<'_>), u64> {
    let Common { n, p, h, links, functions, cost, way, waiting } = common;
    let network = Network::sized(*n, *p, *h, links.words(), functions.words()).ok_or(1u64)?;
    let rows = network.rows();
    let wrong = [cost.len(), way.len(), waiting.len()].iter().any(|&len| len != rows);
    if planted("three_before_two") && wrong {
        return Err(3);
    }
    if !network.goes_both_ways() {
        return Err(2);
    }
    if wrong {
        return Err(3);
    }
    Ok((network, Table { cost: &mut cost.want, way: &mut way.want, waiting: &mut waiting.want }))
}
