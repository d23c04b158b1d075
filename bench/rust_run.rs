// The independent side: run, in first-waiting order, with a flag for each (node, destination) block that may hold a message.
use crate::lent::{Network, Table};
use crate::rust_network::{checked, function_at, neighbours, refused, CEILING};
use crate::rust_table::first_word;

pub fn run(net: &Network, table: &mut Table, limit: u32) -> (u64, [u64; 2]) {
    run_with(first_word, net, table, limit)
}

// the same, by a search that a programmer might write after having measured the plain one
pub fn run_by_sixteen(net: &Network, table: &mut Table, limit: u32) -> (u64, [u64; 2]) {
    run_with(first_word_by_sixteen, net, table, limit)
}

// the same, sixteen words in one step
#[inline(never)]
fn first_word_by_sixteen(words: &[u32]) -> Option<usize> {
    let chunk = words.chunks(16).position(|words| words.iter().fold(0, |any, word| any | word) != 0)?;
    first_word(&words[16 * chunk..]).map(|place| 16 * chunk + place)
}

fn run_with(search: impl Fn(&[u32]) -> Option<usize>, net: &Network, table: &mut Table, limit: u32) -> (u64, [u64; 2]) {
    let s = match checked(net, table) {
        Ok(s) => s,
        Err(number) => return (refused(number), [0, 0]),
    };
    let mut running = Running::new(net, s);
    let (mut done, mut offers) = (0, 0);
    while done < u64::from(limit) {
        let message = match running.first(&search, &table.waiting) {
            Some(message) => message,
            None => break,
        };
        match running.deliver(table, &message) {
            Ok(rows) => offers += rows,
            Err(number) => return (refused(number), [done, offers]),
        }
        done += 1;
    }
    (0, [done, offers])
}

struct Message {
    sender: usize,
    receiver: usize,
    destination: usize,
    number: usize,
    row: usize,
}

struct Running<'a> {
    net: &'a Network,
    s: usize,
    neighbours: [u32; 32],
    // for each node bit D: its block for destination D may hold a message
    flags: [u32; 32],
}

impl<'a> Running<'a> {
    fn new(net: &'a Network, s: usize) -> Running<'a> {
        let (mut bits, mut flags) = ([0; 32], [0; 32]);
        for node in 0..net.n {
            bits[node] = neighbours(net, node);
            flags[node] = u32::MAX >> (32 - net.n);
        }
        Running { net, s, neighbours: bits, flags }
    }

    fn first(&mut self, search: impl Fn(&[u32]) -> Option<usize>, waiting: &[u32]) -> Option<Message> {
        for sender in 0..self.net.n {
            while self.flags[sender] != 0 {
                let destination = self.flags[sender].trailing_zeros() as usize;
                let block = (sender * self.net.n + destination) * self.s;
                let words = &waiting[block..][..self.s];
                if let Some(place) = search(words) {
                    let receiver = words[place].trailing_zeros() as usize;
                    return Some(Message { sender, receiver, destination, number: place + 1, row: block + place });
                }
                self.flags[sender] &= self.flags[sender] - 1;
            }
        }
        None
    }

    // how many rows took an offer, or refusal 4 or 7
    fn deliver(&mut self, table: &mut Table, message: &Message) -> Result<u64, u64> {
        let (net, receiver) = (self.net, message.receiver);
        if receiver >= net.n {
            return Err(4);
        }
        let (cost, link) = (table.cost[message.row], net.links[receiver * net.n + message.sender]);
        if cost > CEILING || link == 0 {
            return Err(7);
        }
        table.waiting[message.row] &= !(1 << receiver);
        let block = (receiver * net.n + message.destination) * self.s;
        let mut hearing = Hearing {
            cost: &mut table.cost[block..][..self.s],
            way: &mut table.way[block..][..self.s],
            waiting: &mut table.waiting[block..][..self.s],
            heard: cost + u32::from(link),
            next: (message.sender as u16) << 8,
            neighbours: self.neighbours[receiver],
            rows: 0,
        };
        hearing.offers(net, receiver, message.number);
        let rows = hearing.rows;
        if rows > 0 {
            self.flags[receiver] |= 1 << message.destination;
        }
        Ok(rows)
    }
}

// the receiver's block, and what its rows are offered
struct Hearing<'a> {
    cost: &'a mut [u32],
    way: &'a mut [u16],
    waiting: &'a mut [u32],
    heard: u32,
    next: u16,
    neighbours: u32,
    rows: u64,
}

impl Hearing<'_> {
    // for each function of the receiver and the stack from which it makes the heard one
    fn offers(&mut self, net: &Network, receiver: usize, number: usize) {
        let (p, rest, top) = (net.p, (number - 1) / net.p, (number - 1) % net.p);
        let grids = &net.functions[function_at(p, receiver, 0, 0, 0)..][..3 * p * p];
        for a in 0..p {
            self.offer(grids[a * p + top], a << 3 | top, number - top + a);
        }
        if rest != 0 {
            let a = (rest - 1) % p;
            self.offer(grids[(p + a) * p + top], 64 | a << 3 | top, rest);
        }
        if p * number < self.cost.len() {
            for b in 0..p {
                self.offer(grids[(2 * p + top) * p + b], 128 | top << 3 | b, p * number + b + 1);
            }
        }
    }

    // `word`: what the grid says of this function; `number`: of the row
    fn offer(&mut self, word: u16, function: usize, number: usize) {
        if word == 0 {
            return;
        }
        let (row, offer) = (number - 1, self.heard + u32::from(word - 1));
        if offer < self.cost[row] {
            self.cost[row] = offer;
            self.way[row] = self.next | function as u16;
            self.waiting[row] |= self.neighbours;
            self.rows += 1;
        }
    }
}
