// A network as lists: each node's neighbours and each node's functions. Only `link_words` and `function_words` know how it is lent.
use crate::planted::planted;
use crate::stacks::{self, Change, Stacks};

pub struct Function {
    pub change: Change,
    pub a: u8,
    pub b: u8,
    pub price: u32,
}

#[derive(Clone, Copy)]
pub struct Link {
    pub to: usize,
    pub there: u32, // the cost from the node that has this link
    pub back: u32,  // the cost to it
}

pub struct Network {
    pub n: usize,
    pub p: usize,
    pub h: usize,
    pub links: Vec<Vec<Link>>, // by node, in ascending order of `to`
    pub functions: Vec<Vec<Function>>,
    pub stacks: Stacks,
}

impl Network {
    pub fn new(n: usize, p: usize, h: usize) -> Network {
        let functions = (0..n).map(|_| Vec::new()).collect();
        Network { n, p, h, links: vec![Vec::new(); n], functions, stacks: Stacks::new(p, h) }
    }

    // a link between two nodes that have none yet
    pub fn join(&mut self, u: usize, v: usize, there: u32, back: u32) {
        if u != v && self.link(u, v).is_none() {
            self.links[u].push(Link { to: v, there, back });
            self.links[v].push(Link { to: u, there: back, back: there });
            self.links[u].sort_by_key(|l| l.to);
            self.links[v].sort_by_key(|l| l.to);
        }
    }

    pub fn can(&mut self, node: usize, change: Change, a: usize, b: usize, price: u32) {
        self.functions[node].push(Function { change, a: a as u8, b: b as u8, price });
    }

    pub fn link(&self, u: usize, v: usize) -> Option<Link> {
        self.links.get(u)?.iter().find(|l| l.to == v).copied()
    }

    pub fn function(&self, node: usize, change: Change, a: u8, b: u8) -> Option<&Function> {
        self.functions[node].iter().find(|f| f.change == change && f.a == a && f.b == b)
    }

    // "It accepts, as a destination, exactly what it receives."
    pub fn accepts(&self, node: usize, x: u8) -> bool {
        self.functions[node].iter().any(|f| match f.change {
            Change::Unwrap if planted("unwrap_row") => f.a == x,
            Change::Unwrap => f.b == x,
            _ => f.a == x,
        })
    }

    // a packet at `node` with this stack has arrived
    pub fn arrived(&self, node: usize, destination: usize, stack: &[u8]) -> bool {
        node == destination && stack.len() == 1 && self.accepts(destination, stack[0])
    }

    pub fn rows(&self) -> usize {
        self.n * self.n * self.stacks.list.len()
    }

    // the n x n words of the header, row U column V
    pub fn link_words(&self) -> Vec<u16> {
        let mut words = vec![0; self.n * self.n];
        for (u, list) in self.links.iter().enumerate() {
            for l in list {
                words[u * self.n + l.to] = l.there as u16;
            }
        }
        words
    }

    // for each node three p x p grids, row a column b, of price + 1
    pub fn function_words(&self) -> Vec<u16> {
        let square = self.p * self.p;
        let mut words = vec![0; self.n * 3 * square];
        for (u, list) in self.functions.iter().enumerate() {
            for f in list {
                let grid = (u * 3 + f.change as usize) * square;
                words[grid + f.a as usize * self.p + f.b as usize] = (f.price + 1) as u16;
            }
        }
        words
    }
}

// refusals 1, 2 and 3 for any numbers and slices, which every call tests first; 0 where none applies
pub fn refusal(n: usize, p: usize, h: usize, links: &[u16], functions: usize, tables: [usize; 3]) -> u64 {
    let count = match stacks::count(p, h) {
        Some(count) if (1..=32).contains(&n) && n as u128 * count <= 16_384 => count as usize,
        _ => return 1,
    };
    if links.len() != n * n || functions != n * 3 * p * p {
        return 1;
    }
    for u in 0..n {
        for v in 0..=u {
            let (there, back) = (links[u * n + v], links[v * n + u]);
            if (there == 0) != (back == 0) || (u == v && there != 0) {
                return 2;
            }
        }
    }
    if tables.iter().any(|&len| len != n * n * count) {
        return 3;
    }
    0
}
