// What the calls of one round are lent: a network and a table, and then sizes and lengths that do not belong to them.
use crate::case::Common;
use crate::draw_network::{functions, links, sizes};
use crate::draw_numbers::{fill, lend, odd};
use crate::draw_table;
use crate::model_network::{Network, Table};
use crate::rng::Rng;

pub fn draw(rng: &mut Rng, common: &mut Common) {
    let sizes = sizes(rng);
    common.n = sizes.n;
    common.p = sizes.p;
    common.h = sizes.h;
    common.links.want = links(rng, sizes.n);
    common.functions.want = functions(rng, sizes.n, sizes.p);
    draw_rows(rng, common, sizes.whole);
    if rng.chance(8) {
        spoil_sizes(rng, common);
    }
    lend(rng, &mut common.links, 2);
    lend(rng, &mut common.functions, 2);
    lend(rng, &mut common.cost, 2);
    lend(rng, &mut common.way, 2);
    lend(rng, &mut common.waiting, 2);
}

fn draw_rows(rng: &mut Rng, common: &mut Common, whole: bool) {
    let Common { n, p, h, links, functions, cost, way, waiting } = common;
    match Network::sized(*n, *p, *h, &links.want, &functions.want) {
        Some(net) if whole => {
            cost.want.resize(net.rows(), 0);
            way.want.resize(net.rows(), 0);
            waiting.want.resize(net.rows(), 0);
            draw_table::draw(rng, &net, &mut Table { cost: &mut cost.want, way: &mut way.want, waiting: &mut waiting.want });
        }
        _ => {
            let rows = rng.below(300);
            cost.want = fill(rng, rows);
            way.want = fill(rng, rows);
            waiting.want = fill(rng, rows);
        }
    }
}

fn spoil_sizes(rng: &mut Rng, common: &mut Common) {
    let Common { n, p, h, .. } = common;
    let all = rng.chance(20);
    let one = rng.below(3);
    for (which, (size, most)) in [(n, 32), (p, 8), (h, 12)].into_iter().enumerate() {
        if all || one == which {
            *size = if rng.chance(40) { most + rng.below(2) } else { odd(rng, *size) };
        }
    }
}
