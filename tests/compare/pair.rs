// One network under test: the library's table and the independent one side by side, and each call made to both.
use crate::calls::{first_word, forward_word, refused, untouched, Case};
use crate::network::Network;
use crate::packet::{self, Lookup};
use crate::report::{Kind, Outcome, Report};
use crate::rng::Rng;
use crate::stacks::text;
use crate::table::{Message, Row, Table};

pub struct Pair {
    pub net: Network,
    pub case: Case,
    pub table: Table,
    pub rng: Rng,
    pub label: String,
}

impl Pair {
    // `make` draws the network; both tables start as junk
    pub fn new(r: &mut Report, seed: u64, make: impl FnOnce(&mut Rng) -> Network) -> Pair {
        let mut rng = Rng::new(seed);
        let net = make(&mut rng);
        r.networks += 1;
        let label = format!("network of n={} p={} h={}", net.n, net.p, net.h);
        let case = Case::new(&net);
        Pair { net, case, table: Table::empty(), rng, label }
    }

    fn told(&self, call: String) -> String {
        format!("{}: {}", self.label, call)
    }

    pub fn fresh(&mut self, r: &mut Report) -> Outcome {
        self.table = Table::fresh(&self.net);
        let answer = self.case.fresh()?;
        r.same(Kind::Fresh, answer, self.table.count(), || self.told("fresh".to_string()))?;
        self.compare(r, "fresh")
    }

    // every row of the three slices
    pub fn compare(&self, r: &mut Report, after: &str) -> Outcome {
        let (cost, way, waiting) = (self.case.cost.part(), self.case.way.part(), self.case.waiting.part());
        let mut messages = self.table.waiting.iter().peekable();
        let mut at = 0;
        for u in 0..self.net.n {
            for d in 0..self.net.n {
                let mut key = (u, d, Vec::with_capacity(self.net.h));
                for stack in &self.net.stacks.list {
                    key.2.clear();
                    key.2.extend_from_slice(stack);
                    let row = self.table.row(&key);
                    let mut word = 0u32;
                    if let Some((place, who)) = messages.peek() {
                        if place.0 == u && place.1 == d && place.3 == *stack {
                            word = who.iter().map(|&v| 1u32 << v).sum();
                            messages.next();
                        }
                    }
                    let want = (row.cost, 256 * row.next + row.function, word);
                    let got = (cost[at], usize::from(way[at]), waiting[at]);
                    if got != want {
                        let what = format!("{}, row of node {} destination {} stack {}: (cost, way, waiting)", after, u, d, text(stack));
                        return r.same(Kind::Row, got, want, || self.told(what.clone()));
                    }
                    at += 1;
                }
            }
        }
        r.count(Kind::Row, at as u64);
        match messages.next() {
            None => Ok(()),
            Some((place, _)) => Err(self.told(format!("{}: the library has no message about {:?}", after, place))),
        }
    }

    pub fn count_and_first(&mut self, r: &mut Report) -> Outcome {
        let (count, first) = (self.case.count()?, self.case.first_waiting()?);
        let want = self.table.first(&self.net).map_or(0, |m| first_word(m.sender, m.receiver, m.destination, m.number));
        r.same(Kind::Count, count, self.table.count(), || self.told("count".to_string()))?;
        r.same(Kind::First, first, want, || self.told("first_waiting".to_string()))
    }

    // a message that waits, by a random row and neighbour
    pub fn waiting(&mut self) -> Option<Message> {
        let height = self.rng.between(1, self.net.h);
        let from = (self.rng.below(self.net.n), self.rng.below(self.net.n), height, vec![self.rng.below(self.net.p) as u8]);
        let (place, who) = self.table.waiting.range(from..).next().or_else(|| self.table.waiting.iter().next())?;
        let receiver = *who.iter().nth(self.rng.below(who.len()))?;
        Some(Message { sender: place.0, receiver, destination: place.1, number: self.net.stacks.number(&place.3) })
    }

    // numbers around the ranges, so that deliver refuses most of them
    pub fn any_message(&mut self) -> Message {
        let (n, s) = (self.net.n, self.net.stacks.list.len());
        if self.rng.chance(40) {
            if let Some(message) = self.waiting() {
                return self.spoiled(message);
            }
        }
        let (sender, receiver) = (self.rng.below(n + 1), self.rng.below(n + 1));
        Message { sender, receiver, destination: self.rng.below(n + 1), number: self.rng.below(s + 2) }
    }

    // a message that waits with one number wrong, in such ways that a narrow word or a shift might not tell
    fn spoiled(&mut self, mut m: Message) -> Message {
        let s = self.net.stacks.list.len();
        let which = self.rng.below(4);
        let field = [&mut m.sender, &mut m.receiver, &mut m.destination, &mut m.number];
        let more = self.rng.pick(&[1, 32, 64, 256, 1 << 16, 1 << 32, 1 << 63, s, self.net.n]);
        for (i, number) in field.into_iter().enumerate() {
            if i == which {
                *number = if self.rng.chance(10) { usize::MAX } else { *number + more };
            }
        }
        m
    }

    // one delivery to both; whether the independent one was done
    pub fn deliver(&mut self, r: &mut Report, m: &Message, compare: bool) -> Result<bool, String> {
        let want = self.table.deliver(&self.net, m);
        let got = self.case.deliver(m.sender, m.receiver, m.destination, m.number)?;
        let call = format!("deliver {} to {} about ({}, number {})", m.sender, m.receiver, m.destination, m.number);
        let kind = if want.is_ok() { Kind::Delivery } else { Kind::RefusedDelivery };
        r.met(want.err().unwrap_or(0));
        r.same(kind, got, want.unwrap_or_else(refused), || self.told(call.clone()))?;
        if compare {
            self.compare(r, &call)?;
        }
        Ok(want.is_ok())
    }

    // a run of both from the same table
    pub fn run(&mut self, r: &mut Report, limit: u32) -> Outcome {
        let want = self.table.run(&self.net, limit);
        let answer = if want.refused == 0 { 0 } else { refused(want.refused) };
        let got = self.case.run(limit, 3)?;
        r.met(want.refused);
        let slice = vec![want.done, want.offers, untouched(3)[2]];
        let call = format!("run {}: answer, [deliveries, offers, left alone]", limit);
        r.same(Kind::Run, got, (answer, slice), || self.told(call.clone()))?;
        self.compare(r, &call)
    }

    pub fn lookup(&mut self, r: &mut Report, u: usize, d: usize, stack: &[u8]) -> Outcome {
        let want = match packet::lookup(&self.net, &self.table, u, d, stack) {
            Lookup::Delivered => 0,
            Lookup::Refused(number) => {
                r.met(number);
                refused(number)
            }
            Lookup::Forward(hop) => forward_word(hop.next, hop.function, self.net.stacks.number(&hop.stack), hop.cost),
        };
        let got = self.case.lookup(u, d, stack)?;
        r.same(Kind::Lookup, got, want, || self.told(format!("lookup at {} for {} with {:?}", u, d, stack)))
    }

    // one carry of both; the independent one's hops
    pub fn carry(&mut self, r: &mut Report, u: usize, d: usize, stack: &[u8], limit: usize) -> Result<usize, String> {
        let want = packet::carry(&self.net, &self.table, u, d, stack, limit);
        r.met(want.refused);
        let len = 4 + self.rng.below(2);
        let mut slice = vec![want.hops, want.spent, want.node as u64, self.net.stacks.number(&want.stack) as u64];
        slice.extend(untouched(len).drain(4..));
        let answer = if want.refused == 0 { 0 } else { refused(want.refused) };
        let got = self.case.carry(u, d, stack, limit, len)?;
        let call = || self.told(format!("carry from {} to {} with {:?}, limit {}", u, d, stack, limit));
        r.same(Kind::Carry, got, (answer, slice), call)?;
        Ok(want.hops as usize)
    }

    // takes the independent table from the library's slices
    pub fn adopt(&mut self) {
        let s = self.net.stacks.list.len();
        let mut table = Table::empty();
        for at in 0..self.case.cost.len() {
            let (u, d, stack) = (at / s / self.net.n, at / s % self.net.n, &self.net.stacks.list[at % s]);
            let (cost, way, word) = (self.case.cost.part()[at], usize::from(self.case.way.part()[at]), self.case.waiting.part()[at]);
            table.put(u, d, stack.clone(), Row { cost, next: way / 256, function: way % 256 });
            table.tell(u, d, stack.clone(), (0..32).filter(|v| word >> v & 1 == 1));
        }
        self.table = table;
    }
}
