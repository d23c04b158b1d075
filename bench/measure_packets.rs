// Lookups of random packets, and carries over the longest routes, on settled tables.
use crate::agree::{self, Outcome};
use crate::clock::{alternate, time};
use crate::lent::{opaque, Network, Packet, Table};
use crate::random::{self, Sizes};
use crate::report::Report;
use crate::rng::Rng;
use crate::rust_least;
use crate::rust_network::{applied, NO_WAY};
use crate::Scale;

const LOOKUP_BAR: f64 = 1.3;
const LIMIT: usize = 16_384;

fn settled(rng: &mut Rng, sizes: Sizes, density: usize) -> (Network, Table) {
    let net = random::lively_network(rng, sizes, density);
    let mut table = net.table();
    rust_least::settle(&net, &mut table);
    (net, table)
}

pub fn lookups(report: &mut Report, scale: &Scale) -> Outcome {
    report.section("Lookup of random packets on a settled table, each with its checks of the whole network: time of one lookup");
    let mut rng = Rng::new(1);
    for sizes in [(4, 2, 8), (11, 2, 8), (32, 2, 8), (28, 8, 3)] {
        let (net, table) = settled(&mut rng, sizes, 60);
        let packets: Vec<Packet> = (0..scale.packets).map(|_| random::packet(&mut rng, &net)).collect();
        for packet in &packets {
            agree::packet(&net, &table, packet, LIMIT)?;
        }
        let times = alternate(&scale.turns, |side| {
            time(|| {
                for packet in &packets {
                    opaque(opaque(side.lookup)(&net, &table, packet.node, packet.destination, &packet.stack));
                }
            })
        });
        let forwards = packets.iter().filter(|packet| forwards(&net, &table, packet)).count();
        let what = format!("lookup {}, {} % forward", net.name(), forwards * 100 / packets.len());
        report.line(&what, &times.each(packets.len() as f64), Some(LOOKUP_BAR));
    }
    Ok(())
}

fn forwards(net: &Network, table: &Table, packet: &Packet) -> bool {
    (crate::library::SIDE.lookup)(net, table, packet.node, packet.destination, &packet.stack) >> 62 == 1
}

pub fn carries(report: &mut Report, scale: &Scale) -> Outcome {
    report.section("Carry over the 100 longest routes of a settled table, the network checked once: time of one hop");
    let mut rng = Rng::new(2);
    for sizes in [(11, 2, 8), (32, 2, 8), (28, 8, 3)] {
        let (net, table) = settled(&mut rng, sizes, 5);
        let (packets, hops) = longest(&net, &table, 100);
        for packet in &packets {
            agree::packet(&net, &table, packet, LIMIT)?;
        }
        let times = alternate(&scale.turns, |side| {
            time(|| {
                for packet in packets.iter().cycle().take(packets.len() * scale.rounds) {
                    opaque(opaque(side.carry)(&net, &table, packet, LIMIT).1);
                }
            })
        });
        let mean = hops as f64 / packets.len() as f64;
        report.line(&format!("carry {}, {:.1} hops a route", net.name(), mean), &times.each((hops * scale.rounds as u64) as f64), None);
    }
    Ok(())
}

// packets on the routes of the most hops, and these hops in all
fn longest(net: &Network, table: &Table, most: usize) -> (Vec<Packet>, u64) {
    let (s, hops) = (net.stack_count(), hops_of(net, table));
    let mut rows: Vec<usize> = (0..hops.len()).collect();
    rows.sort_by_key(|&row| std::cmp::Reverse(hops[row]));
    rows.truncate(most);
    let packet = |&row: &usize| Packet { node: row / s / net.n, destination: row / s % net.n, stack: random::stack_of(net.p, row % s + 1) };
    (rows.iter().map(packet).collect(), rows.iter().map(|&row| hops[row]).sum())
}

// how many hops each row of a settled table is from its destination; the next row of a route costs less, so it is known before
fn hops_of(net: &Network, table: &Table) -> Vec<u64> {
    let (n, s) = (net.n, net.stack_count());
    let mut rows: Vec<usize> = (0..table.cost.len()).filter(|&row| table.way[row] != NO_WAY).collect();
    rows.sort_by_key(|&row| table.cost[row]);
    let mut hops = vec![0; table.cost.len()];
    for row in rows {
        let (next, function) = (usize::from(table.way[row] >> 8), usize::from(table.way[row] & 255));
        let function = (function >> 6, function >> 3 & 7, function & 7);
        let number = applied(net.p, s, function, row % s + 1).expect("a way of a settled table");
        hops[row] = hops[(next * n + row / s % n) * s + number - 1] + 1;
    }
    hops
}
