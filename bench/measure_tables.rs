// Runs from fresh to quiet, their growth with the number of nodes, and the calls that read or write a whole table.
use crate::agree::{self, Outcome};
use crate::clock::{alternate, median_of, time, time_of_one, Medians};
use crate::lent::{opaque, Network, Side, Table};
use crate::random;
use crate::report::Report;
use crate::rng::Rng;
use crate::rust_forward::SIDE_BY_SIXTEEN;
use crate::rust_least;
use crate::Scale;

const RUN_BAR: f64 = 1.5;
const GROWTH_BAR: f64 = 3.0;

// at most `limit` deliveries from the fresh table `begin`: how many there were, how the table was then, how long it took
struct Run {
    limit: u32,
    begin: Table,
    deliveries: u64,
    end: Table,
    times: Medians,
}

// verified, then timed
fn run(net: &Network, scale: &Scale) -> Result<Run, String> {
    let mut tables = [net.table(), net.table()];
    agree::fresh(net, &mut tables)?;
    let ([begin, mut work], limit) = (tables, scale.deliveries);
    let (end, deliveries) = agree::run(net, &begin, limit)?;
    agree::reading(net, &end)?;
    let times = alternate(&scale.turns, |side| timed_run(side, net, &begin, &mut work, limit));
    Ok(Run { limit, begin, deliveries, end, times })
}

fn timed_run(side: &Side, net: &Network, begin: &Table, work: &mut Table, limit: u32) -> f64 {
    work.clone_from(begin);
    time(|| opaque(side.run)(net, work, limit))
}

pub fn runs(report: &mut Report, scale: &Scale) -> Outcome {
    report.section("Run from fresh: time of the whole run, or of its first deliveries");
    let mut rng = Rng::new(3);
    for (sizes, density) in with_densities(&[(11, 3, 4), (32, 2, 8), (28, 8, 3), (2, 2, 12)]) {
        let net = random::lively_network(&mut rng, sizes, density);
        let run = run(&net, scale)?;
        let first = if run.is_whole() { "" } else { "the first " };
        let what = format!("run {} density {} %, {}{} deliveries", net.name(), density, first, run.deliveries);
        report.line(&what, &run.times, Some(RUN_BAR));
        report.line("  each delivery", &run.times.each(run.deliveries as f64), None);
        against_sixteen(report, scale, &net, &run)?;
        against_dijkstra(report, scale, &net, &run)?;
    }
    Ok(())
}

fn with_densities(sizes: &[random::Sizes]) -> Vec<(random::Sizes, usize)> {
    sizes.iter().flat_map(|&sizes| [5, 20, 60].map(|density| (sizes, density))).collect()
}

impl Run {
    fn is_whole(&self) -> bool {
        self.end.waiting.iter().all(|&word| word == 0)
    }
}

fn against_sixteen(report: &mut Report, scale: &Scale, net: &Network, run: &Run) -> Outcome {
    let mut work = net.table();
    let rust = median_of(&scale.turns, || timed_run(&SIDE_BY_SIXTEEN, net, &run.begin, &mut work, run.limit));
    if work != run.end {
        return Err(format!("the two sides disagree: run by sixteen of {}", net.name()));
    }
    report.line("  against Rust that searches 16 words at once", &Medians { library: run.times.library, rust }, None);
    Ok(())
}

fn against_dijkstra(report: &mut Report, scale: &Scale, net: &Network, run: &Run) -> Outcome {
    let mut table = net.table();
    let rust = median_of(&scale.turns, || time(|| rust_least::settle(net, &mut table)));
    let what = if run.is_whole() {
        if table.cost != run.end.cost {
            return Err(format!("the two sides disagree: least costs of {}", net.name()));
        }
        "  against Dijkstra"
    } else {
        "  against Dijkstra, which fills the whole table: more than"
    };
    report.line(what, &Medians { library: run.times.library, rust }, None);
    Ok(())
}

// the same p and h, four neighbours a node in the mean
pub fn growth(report: &mut Report, scale: &Scale) -> Outcome {
    report.section("Growth: time of one delivery of a run, with four neighbours a node");
    let mut rng = Rng::new(4);
    let mut each = Vec::new();
    for n in [11, 32] {
        let net = random::network_with_links(&mut rng, (n, 2, 8), 2 * n, 20);
        let run = run(&net, scale)?;
        let times = run.times.each(run.deliveries as f64);
        report.line(&format!("delivery {}, {} deliveries", net.name(), run.deliveries), &times, None);
        each.push(times.library);
    }
    report.ratio("library: a delivery at n=32 to one at n=11", each[1] / each[0], Some(GROWTH_BAR));
    Ok(())
}

pub fn whole_tables(report: &mut Report, scale: &Scale) -> Outcome {
    report.section("Calls on a whole table at quiet: time of one call");
    let mut rng = Rng::new(5);
    for sizes in [(11, 3, 4), (32, 2, 8), (28, 8, 3)] {
        let net = random::network(&mut rng, sizes, 20);
        let mut tables = [net.table(), net.table()];
        agree::fresh(&net, &mut tables)?;
        let [mut table, _] = tables;
        let times = alternate(&scale.turns, |side| time_of_one(|| opaque(side.fresh)(&net, &mut table)));
        report.line(&format!("fresh {}, {} rows", net.name(), net.rows()), &times, None);
        rust_least::settle(&net, &mut table);
        agree::reading(&net, &table)?;
        let times = alternate(&scale.turns, |side| time_of_one(|| opaque(side.count)(&net, &table)));
        report.line(&format!("count {}", net.name()), &times, None);
        let times = alternate(&scale.turns, |side| time_of_one(|| opaque(side.first_waiting)(&net, &table)));
        report.line(&format!("first waiting {}", net.name()), &times, None);
    }
    Ok(())
}
