// The independent program's calls on a table: fresh, count, first waiting, deliver and run, one row after the other.
use crate::model_network::{Network, Table, CHANGES};
use crate::planted::planted;
use crate::stacks;

pub const NO_ROW: u32 = 4_294_967_295;
pub const NO_WAY: u16 = 65_535;
pub const CEILING: u32 = 16_383 * 131_069;

#[derive(Clone, Copy)]
pub struct Message {
    pub sender: usize,
    pub receiver: usize,
    pub destination: usize,
    pub number: usize,
}

// deliveries done, offers that rows took, and the refusal that ended the run or 0
#[derive(Default)]
pub struct Ran {
    pub done: u64,
    pub offers: u64,
    pub refused: u64,
    pub quiet: bool,
}

pub fn fresh(net: &Network, table: &mut Table) {
    table.cost.fill(NO_ROW);
    table.way.fill(NO_WAY);
    table.waiting.fill(0);
    for d in 0..net.n {
        for x in (0..net.p as u8).filter(|&x| net.accepts(d, x)) {
            let row = net.row(d, d, x as usize + 1);
            table.cost[row] = 0;
            table.waiting[row] = net.neighbours(d);
        }
    }
}

pub fn count(net: &Network, table: &Table) -> u64 {
    let seen = if planted("bits_of_nodes_only") && net.n < 32 { (1 << net.n) - 1 } else { u32::MAX };
    table.waiting.iter().map(|word| u64::from((word & seen).count_ones())).sum()
}

pub fn first_waiting(net: &Network, table: &Table) -> Option<Message> {
    let row = table.waiting.iter().position(|&word| word != 0)?;
    let receiver = (0..32).find(|bit| table.waiting[row] >> bit & 1 == 1)?;
    let (sender, destination, number) = net.place(row);
    Some(Message { sender, receiver, destination, number })
}

// how many rows took an offer, or the refusal
pub fn deliver(net: &Network, table: &mut Table, m: &Message) -> Result<u64, u64> {
    if m.sender >= net.n || m.receiver >= net.n || m.destination >= net.n {
        return Err(4);
    }
    let heard = net.stack(m.number).ok_or(4u64)?;
    let row = net.row(m.sender, m.destination, m.number);
    if table.waiting[row] >> m.receiver & 1 == 0 {
        return Err(5);
    }
    let cost = table.cost[row];
    let link = net.link(m.receiver, m.sender).filter(|_| cost <= CEILING).ok_or(7u64)?;
    table.waiting[row] &= !(1 << m.receiver);
    if planted("one_bit_more_cleared") {
        table.waiting[row] &= table.waiting[row].wrapping_sub(1);
    }
    Ok(hear(net, table, m, &heard, u64::from(cost) + link))
}

// the receiver tries each of its functions; `so_far` is the sender's cost and the link
fn hear(net: &Network, table: &mut Table, m: &Message, heard: &[u8], so_far: u64) -> u64 {
    let u = m.receiver;
    let all = CHANGES.iter().flat_map(|&change| (0..net.p as u8).flat_map(move |a| (0..net.p as u8).map(move |b| (change, a, b))));
    let mut took = 0;
    for (change, a, b) in all {
        let price = match net.price(u, change, a, b) {
            Some(price) => price,
            None => continue,
        };
        let before = stacks::before(change, a, b, heard, net.h).and_then(|stack| net.number(&stack));
        let row = match before {
            Some(number) => net.row(u, m.destination, number),
            None => continue,
        };
        let offer = so_far + price;
        if offer < u64::from(table.cost[row]) {
            table.cost[row] = offer as u32;
            table.way[row] = (256 * m.sender + stacks::function_number(change, a, b)) as u16;
            table.waiting[row] |= net.neighbours(u);
            took += 1;
        }
    }
    took
}

pub fn run(net: &Network, table: &mut Table, limit: u64) -> Ran {
    let mut ran = Ran::default();
    while ran.done < limit && ran.refused == 0 && !ran.quiet {
        match first_waiting(net, table).map(|message| deliver(net, table, &message)) {
            None => ran.quiet = true,
            Some(Err(refused)) => ran.refused = refused,
            Some(Ok(offers)) => {
                ran.done += 1;
                ran.offers += offers;
            }
        }
    }
    ran
}
