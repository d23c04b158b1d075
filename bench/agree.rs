// Before anything is timed: both sides answer alike and leave the same table, on good networks, on refused input and on broken tables.
use crate::lent::{Network, Packet, Side, Table};
use crate::random;
use crate::rng::Rng;
use crate::{library, rust_forward};

pub type Outcome = Result<(), String>;

const SIDES: [&Side; 2] = [&library::SIDE, &rust_forward::SIDE];

fn same<T: PartialEq>(what: &str, net: &Network, results: [T; 2], show: impl Fn(&T) -> String) -> Outcome {
    let [library, rust] = results;
    if library == rust {
        return Ok(());
    }
    Err(format!("the two sides disagree: {} of {}: library {}, Rust {}", what, net.name(), show(&library), show(&rust)))
}

fn same_tables(what: &str, net: &Network, tables: [Table; 2]) -> Outcome {
    same(what, net, tables, |_| "another table".to_string())
}

pub fn fresh(net: &Network, tables: &mut [Table; 2]) -> Outcome {
    let mut side = 0;
    let answers = SIDES.map(|calls| {
        side += 1;
        (calls.fresh)(net, &mut tables[side - 1])
    });
    same("fresh", net, answers, |answer| format!("{:x}", answer))
}

// what a run answers, and how it leaves the table that both begin with; the one after the run, and how many deliveries were done
pub fn run(net: &Network, table: &Table, limit: u32) -> Result<(Table, u64), String> {
    let mut tables = [table.clone(), table.clone()];
    let mut answers = [(0, [0; 2]); 2];
    for (side, calls) in SIDES.iter().enumerate() {
        answers[side] = (calls.run)(net, &mut tables[side], limit);
    }
    let done = answers[0].1[0];
    same("run", net, answers, |answer| format!("{:x?}", answer))?;
    let kept = tables[0].clone();
    same_tables("the table after run", net, tables)?;
    Ok((kept, done))
}

pub fn reading(net: &Network, table: &Table) -> Outcome {
    same("count", net, SIDES.map(|calls| (calls.count)(net, table)), |answer| format!("{:x}", answer))?;
    same("first waiting", net, SIDES.map(|calls| (calls.first_waiting)(net, table)), |answer| format!("{:x}", answer))
}

pub fn packet(net: &Network, table: &Table, packet: &Packet, limit: usize) -> Outcome {
    let Packet { node, destination, stack } = packet;
    let name = |call: &str| format!("{} from {} to {} with {:?}", call, node, destination, stack);
    let answers = SIDES.map(|calls| (calls.lookup)(net, table, *node, *destination, stack));
    same(&name("lookup"), net, answers, |answer| format!("{:x}", answer))?;
    let answers = SIDES.map(|calls| (calls.carry)(net, table, packet, limit));
    same(&name("carry"), net, answers, |answer| format!("{:x?}", answer))
}

// small networks, as they are and spoiled in every way that a call refuses
pub fn everywhere(rng: &mut Rng, networks: usize) -> Outcome {
    for turn in 0..networks {
        let sizes = rng.pick(&[(1, 1, 1), (2, 2, 3), (3, 3, 2), (4, 2, 4), (5, 3, 3), (6, 1, 5), (3, 8, 2)]);
        let mut net = random::network(rng, sizes, 30);
        let mut tables = [net.table(), net.table()];
        fresh(&net, &mut tables)?;
        let table = tables[0].clone();
        same_tables("the fresh table", &net, tables)?;
        let (mut table, _) = run(&net, &table, rng.below(300) as u32)?;
        let packets: Vec<Packet> = (0..200).map(|_| any_packet(rng, &net)).collect();
        spoil(rng, &mut net, &mut table, turn % 12);
        all_calls(rng, &net, &table, &packets)?;
    }
    Ok(())
}

// one in four of which a call refuses
fn any_packet(rng: &mut Rng, net: &Network) -> Packet {
    let mut any = random::packet(rng, net);
    match rng.below(20) {
        0 => any.node = net.n,
        1 => any.destination = net.n,
        2 => any.stack.clear(),
        3 => any.stack = vec![0; net.h + 1],
        4 => any.stack[0] = net.p as u8,
        _ => {}
    }
    any
}

fn all_calls(rng: &mut Rng, net: &Network, table: &Table, packets: &[Packet]) -> Outcome {
    reading(net, table)?;
    run(net, table, rng.below(100) as u32)?;
    let mut tables = [table.clone(), table.clone()];
    fresh(net, &mut tables)?;
    same_tables("the table after fresh", net, tables)?;
    for any in packets {
        packet(net, table, any, rng.pick(&[0, 1, 3, 16_384, 16_385]))?;
    }
    Ok(())
}

// 0 to 3: nothing
fn spoil(rng: &mut Rng, net: &mut Network, table: &mut Table, how: usize) {
    let rows = table.cost.len();
    match how {
        4 => net.n = rng.pick(&[0, net.n + 1, 33]),
        5 => net.p = rng.pick(&[0, net.p + 1, 9]),
        6 => net.h = rng.pick(&[0, net.h + 1, 13]),
        7 => net.links[rng.below(net.n) * net.n] ^= 1,
        8 => net.links[(net.n + 1) * rng.below(net.n)] = 1,
        9 => table.way.truncate(rows - 1),
        10 => {
            table.cost.iter_mut().for_each(|cost| *cost = rng.pick(&[0, 1, 2_147_303_427, 2_147_303_428, u32::MAX - 1, u32::MAX]));
            table.way.iter_mut().for_each(|way| *way = (rng.below(net.n + 1) << 8 | rng.below(256)) as u16);
        }
        11 => table.waiting[rng.below(rows)] = rng.word() as u32,
        _ => {}
    }
}
