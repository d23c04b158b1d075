// A routing table as maps: rows by node, destination and stack; messages by the row that they are about.
use crate::network::Network;
use crate::planted::planted;
use crate::stacks::{self, Change};
use std::collections::{BTreeMap, BTreeSet, HashMap};

pub const NO_ROW: u32 = 4_294_967_295;
pub const CEILING: u32 = 16_383 * 131_069;

#[derive(Clone, Copy, PartialEq, Eq, Debug)]
pub struct Row {
    pub cost: u32,
    pub next: usize,
    pub function: usize,
}

const NOTHING: Row = Row { cost: NO_ROW, next: 255, function: 255 };

// node, destination, height, stack: in this order rows follow each other in the table
pub type Place = (usize, usize, usize, Vec<u8>);

pub struct Message {
    pub sender: usize,
    pub receiver: usize,
    pub destination: usize,
    pub number: usize,
}

// deliveries done, offers taken, and the refusal that ended a run or 0
pub struct Ran {
    pub done: u64,
    pub offers: u64,
    pub refused: u64,
}

#[derive(Clone)]
pub struct Table {
    rows: HashMap<(usize, usize, Vec<u8>), Row>,
    pub waiting: BTreeMap<Place, BTreeSet<usize>>,
}

impl Table {
    pub fn empty() -> Table {
        Table { rows: HashMap::new(), waiting: BTreeMap::new() }
    }

    pub fn fresh(net: &Network) -> Table {
        let mut table = Table::empty();
        for d in 0..net.n {
            for x in (0..net.p as u8).filter(|&x| net.accepts(d, x)) {
                table.put(d, d, vec![x], Row { cost: 0, ..NOTHING });
                table.tell(d, d, vec![x], net.links[d].iter().map(|l| l.to));
            }
        }
        table
    }

    pub fn put(&mut self, u: usize, d: usize, stack: Vec<u8>, row: Row) {
        if row == NOTHING {
            self.rows.remove(&(u, d, stack));
        } else {
            self.rows.insert((u, d, stack), row);
        }
    }

    pub fn tell(&mut self, u: usize, d: usize, stack: Vec<u8>, who: impl Iterator<Item = usize>) {
        let mut who = who.peekable();
        if who.peek().is_some() {
            self.waiting.entry((u, d, stack.len(), stack)).or_default().extend(who);
        }
    }

    pub fn row(&self, key: &(usize, usize, Vec<u8>)) -> Row {
        self.rows.get(key).copied().unwrap_or(NOTHING)
    }

    pub fn count(&self) -> u64 {
        self.waiting.values().map(|set| set.len() as u64).sum()
    }

    pub fn first(&self, net: &Network) -> Option<Message> {
        let ((sender, destination, _, stack), who) = self.waiting.iter().next()?;
        let receiver = if planted("highest_bit") { who.iter().next_back() } else { who.iter().next() };
        Some(Message { sender: *sender, receiver: *receiver?, destination: *destination, number: net.stacks.number(stack) })
    }

    // how many rows took an offer, or the refusal
    pub fn deliver(&mut self, net: &Network, m: &Message) -> Result<u64, u64> {
        let in_range = m.sender < net.n && m.receiver < net.n && m.destination < net.n;
        let stack = match net.stacks.stack(m.number) {
            Some(stack) if in_range => stack.clone(),
            _ if planted("five_before_four") => return Err(5),
            _ => return Err(4),
        };
        let place = (m.sender, m.destination, stack.len(), stack);
        let waits = self.waiting.get(&place).map_or(false, |set| set.contains(&m.receiver));
        if !waits {
            return Err(5);
        }
        let heard = self.row(&(m.sender, m.destination, place.3.clone())).cost;
        let link = match net.link(m.receiver, m.sender) {
            Some(link) if heard <= CEILING => link,
            _ => return Err(7),
        };
        if let Some(set) = self.waiting.get_mut(&place) {
            set.remove(&m.receiver);
            if set.is_empty() || planted("all_bits_cleared") {
                self.waiting.remove(&place);
            }
        }
        let fare = if planted("link_other_way") { link.back } else { link.there };
        Ok(self.hear(net, m, &place.3, heard, fare))
    }

    // the receiver tries each of its functions
    fn hear(&mut self, net: &Network, m: &Message, stack: &[u8], heard: u32, fare: u32) -> u64 {
        let mut taken = 0;
        let mut so_far = heard;
        for f in &net.functions[m.receiver] {
            let found = match stacks::before(f.change, f.a, f.b, stack, net.h) {
                Some(found) => found,
                None => continue,
            };
            let offer = so_far.saturating_add(fare + f.price);
            if planted("price_adds_up") {
                so_far = so_far.saturating_add(f.price);
            }
            let key = (m.receiver, m.destination, found);
            let old = self.row(&key).cost;
            if offer < old || (planted("takes_equal") && offer == old) {
                let (u, d, found) = key;
                self.put(u, d, found.clone(), Row { cost: offer, next: m.sender, function: number(f.change, f.a, f.b) });
                self.tell(u, d, found, net.links[u].iter().map(|l| l.to));
                taken += 1;
            }
        }
        taken
    }

    pub fn run(&mut self, net: &Network, limit: u32) -> Ran {
        let mut ran = Ran { done: 0, offers: 0, refused: 0 };
        while ran.done < u64::from(limit) {
            let message = match self.first(net) {
                Some(message) => message,
                None => break,
            };
            match self.deliver(net, &message) {
                Ok(offers) => {
                    ran.done += 1;
                    ran.offers += offers;
                }
                Err(refused) => {
                    ran.refused = refused;
                    break;
                }
            }
        }
        ran
    }
}

fn number(change: Change, a: u8, b: u8) -> usize {
    stacks::function_number(change, a, b)
}
