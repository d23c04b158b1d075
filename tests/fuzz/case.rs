// All that is lent to a call, and the call itself.
use crate::bannogwy::{
    bannogwy_applied, bannogwy_carry, bannogwy_count, bannogwy_deliver, bannogwy_first_waiting, bannogwy_fresh, bannogwy_inverse_of,
    bannogwy_lookup, bannogwy_number_of, bannogwy_read_stack, bannogwy_run, bannogwy_stack_count, bannogwy_stack_of, bannogwy_tally_add,
};
use crate::call::Call;
use crate::memory::{Lent, Slice, Vast};
use crate::planted::planted;

// the network and the table, lent to each of the seven calls
pub struct Common {
    pub n: usize,
    pub p: usize,
    pub h: usize,
    pub links: Lent<u16>,
    pub functions: Lent<u16>,
    pub cost: Lent<u32>,
    pub way: Lent<u16>,
    pub waiting: Lent<u32>,
}

pub struct Case {
    pub common: Common,
    pub stack: Lent<u8>,
    pub answer: Lent<u64>,
    pub out: Lent<u8>,
    pub tally: Lent<u32>,
    pub packet: Lent<u8>,
}

impl Case {
    pub fn new(vast: Vast) -> Case {
        let (links, functions) = (Lent::new("links", vast), Lent::new("functions", vast));
        let (cost, way, waiting) = (Lent::new("cost", vast), Lent::new("way", vast), Lent::new("waiting", vast));
        Case {
            common: Common { n: 0, p: 0, h: 0, links, functions, cost, way, waiting },
            stack: Lent::new("stack", vast),
            answer: Lent::new("answer", vast),
            out: Lent::new("out", vast),
            tally: Lent::new("tally", vast),
            packet: Lent::new("packet", vast),
        }
    }

    fn slices(&mut self) -> [&mut dyn Slice; 10] {
        let c = &mut self.common;
        let (stack, answer, out, tally, packet) = (&mut self.stack, &mut self.answer, &mut self.out, &mut self.tally, &mut self.packet);
        [&mut c.links, &mut c.functions, &mut c.cost, &mut c.way, &mut c.waiting, stack, answer, out, tally, packet]
    }

    // what the library answers; while it works, the bytes beside the slices are shut
    pub fn ask(&mut self, asked: Call) -> u64 {
        self.slices().into_iter().for_each(|slice| slice.shut());
        let answer = unsafe { self.library(asked) };
        self.slices().into_iter().for_each(|slice| slice.open());
        answer
    }

    unsafe fn library(&self, asked: Call) -> u64 {
        let common = &self.common;
        let (stack, height) = (self.stack.pointer(), self.stack.len());
        let (out, out_len, answer, answer_len) = (self.out.pointer(), self.out.len(), self.answer.pointer(), self.answer.len());
        match asked {
            Call::Fresh => call!(common, bannogwy_fresh),
            Call::Count => call!(common, bannogwy_count),
            Call::FirstWaiting => call!(common, bannogwy_first_waiting),
            Call::Deliver { sender, receiver, destination, number } => {
                call!(common, bannogwy_deliver, sender, receiver, destination, number)
            }
            Call::Run { limit } => call!(common, bannogwy_run, limit, answer, answer_len),
            Call::Lookup { node, destination } => call!(common, bannogwy_lookup, node, destination, stack, height),
            Call::Carry { node, destination, limit } => {
                call!(common, bannogwy_carry, node, destination, stack, height, limit, answer, answer_len)
            }
            Call::TallyAdd { deliveries, offers, refused } => {
                bannogwy_tally_add(self.tally.pointer().cast(), deliveries, offers, refused);
                u64::from((0..3).any(|counter| *self.tally.pointer().add(counter) == u32::MAX))
            }
            Call::StackCount { p, h } => bannogwy_stack_count(p, h),
            Call::NumberOf { p, h } => bannogwy_number_of(p, h, stack, height + self.too_long(h)),
            Call::StackOf { p, h, number } => bannogwy_stack_of(p, h, number, out, out_len),
            Call::Applied { p, h, function, number } => bannogwy_applied(p, h, function, number),
            Call::InverseOf { p, function } => bannogwy_inverse_of(p, function),
            Call::ReadStack { h } => bannogwy_read_stack(h, self.packet.pointer(), self.packet.len(), out, out_len, answer, answer_len),
        }
    }

    // planted: one protocol more than is lent, so that the library reads it from the page without access or, under the address checks, beside
    fn too_long(&self, h: usize) -> usize {
        let longer = planted("longer_than_lent") && (1..h).contains(&self.stack.len());
        usize::from(longer && self.stack.is_open_behind() == cfg!(address_checks))
    }

    // every slice is as the independent program has it
    pub fn check(&mut self) -> Result<(), String> {
        self.slices().into_iter().try_for_each(|slice| slice.check())
    }

    // what this call is lent, and nothing that an earlier round left, so that a repeated round says the same
    pub fn lent(&self, asked: Call) -> String {
        let c = &self.common;
        let network = format!("n {} p {} h {}, links {} functions {}", c.n, c.p, c.h, c.links.len(), c.functions.len());
        let table = format!("cost {} way {} waiting {}", c.cost.len(), c.way.len(), c.waiting.len());
        let (stack, packet, answer, out) = (&self.stack.want, &self.packet, self.answer.len(), self.out.len());
        let own = match asked {
            Call::Run { .. } => format!(", answer {}", answer),
            Call::Lookup { .. } | Call::NumberOf { .. } => format!(", stack {:?}", stack),
            Call::Carry { .. } => format!(", stack {:?}, answer {}", stack, answer),
            Call::StackOf { .. } => format!(", out {}", out),
            Call::ReadStack { .. } => format!(", packet {} {:02x?}, out {}, answer {}", packet.len(), packet.want, out, answer),
            _ => String::new(),
        };
        format!("{} {}{}", network, table, own)
    }
}
