// The small network that the specification prints whole, and its examples P1 to P11.
use crate::calls::{number_of, refused, stack_count};
use crate::network::Network;
use crate::pair::Pair;
use crate::report::{Kind, Outcome, Report};
use crate::stacks::{self, text, Change};
use crate::table::NO_ROW;

const PRINTED: &str = "\
0 0 a 0 - -
0 1 a 2 1 a>a
0 3 a 12 1 a>a
1 1 a 0 - -
1 3 a 10 2 a>ab
2 1 ab 4 1 ab>a
2 2 b 0 - -
2 3 ab 2 3 ab>a
3 3 a 0 - -
waiting 0
";

pub fn all(r: &mut Report) {
    r.group("P1 to P4: numbers of stacks", |r| {
        let got = [number_of(2, 3, &[0])?, number_of(2, 3, &[1])?, number_of(2, 3, &[0, 1])?, number_of(2, 3, &[1, 0])?];
        r.same(Kind::Example, got, [1, 2, 4, 5], || "P1, P2: a, b, ab, ba".to_string())?;
        let got = [number_of(2, 3, &[0, 1, 0])?, stack_count(2, 3), number_of(2, 3, &[1, 1, 1])?];
        r.same(Kind::Example, got, [9, 14, 14], || "P3, P4: aba, S, bbb".to_string())
    });
    r.group("smallnet: P5 to P7, a fresh table and its first delivery", first_delivery);
    r.group("smallnet: P8 to P11, packets at quiet", packets);
    r.group("smallnet: the printed table", printed);
}

fn smallnet() -> Network {
    let mut net = Network::new(4, 2, 2);
    net.join(0, 1, 2, 7);
    net.join(1, 2, 3, 3);
    net.join(2, 3, 1, 4);
    net.can(0, Change::Convert, 0, 0, 0);
    net.can(1, Change::Wrap, 0, 1, 5);
    net.can(2, Change::Unwrap, 0, 1, 1);
    net.can(3, Change::Convert, 0, 0, 0);
    net
}

fn first_delivery(r: &mut Report) -> Outcome {
    let mut b = Pair::new(r, 0, |_| smallnet());
    let fresh = b.case.fresh()?;
    r.same(Kind::Example, fresh, 6, || "P5 fresh".to_string())?;
    let (rows, before) = (b.case.deliver(3, 2, 3, 1)?, b.case.cost.part().to_vec());
    // node 2, destination 3, stack ab, number 4
    let cost = before[(2 * 4 + 3) * 6 + 3];
    let count = b.case.count()?;
    r.same(Kind::Example, (rows, cost, count), (1, 2, 7), || "P6 deliver 3 to 2 about (3, a): rows, cost, waiting".to_string())?;
    let again = b.case.deliver(3, 2, 3, 1)?;
    r.same(Kind::Example, again, refused(5), || "P7 the same again".to_string())
}

fn packets(r: &mut Report) -> Outcome {
    let mut b = Pair::new(r, 0, |_| smallnet());
    b.fresh(r)?;
    b.run(r, u32::MAX)?;
    let p8 = b.case.carry(0, 3, &[0], 16_384, 4)?;
    r.same(Kind::Example, p8, (0, vec![3, 12, 3, 1]), || "P8 carry 0 to 3 with a".to_string())?;
    let p9 = b.case.carry(0, 3, &[0], 2, 4)?;
    r.same(Kind::Example, p9, (refused(8), vec![2, 10, 2, 4]), || "P9 limit 2".to_string())?;
    let p9 = b.case.carry(0, 3, &[0], 3, 4)?;
    r.same(Kind::Example, p9, (0, vec![3, 12, 3, 1]), || "P9 limit 3".to_string())?;
    let p10 = b.case.carry(3, 3, &[0], 0, 4)?;
    r.same(Kind::Example, p10, (0, vec![0, 0, 3, 1]), || "P10 carry 3 to 3 with a, limit 0".to_string())?;
    let p11 = b.case.lookup(0, 2, &[0])?;
    r.same(Kind::Example, p11, refused(6), || "P11 lookup 0 to 2 with a".to_string())
}

fn printed(r: &mut Report) -> Outcome {
    let mut b = Pair::new(r, 0, |_| smallnet());
    b.case.fresh()?;
    b.case.run(u32::MAX, 2)?;
    let mut lines = String::new();
    for (at, &cost) in b.case.cost.part().iter().enumerate().filter(|(_, &cost)| cost != NO_ROW) {
        let (u, d, stack) = (at / 24, at / 6 % 4, &b.net.stacks.list[at % 6]);
        let way = usize::from(b.case.way.part()[at]);
        let hop = match stacks::function(way % 256) {
            None => "- -".to_string(),
            Some((change, a, b)) => format!("{} {}", way / 256, tops(change, a, b)),
        };
        lines += &format!("{} {} {} {} {}\n", u, d, text(stack), cost, hop);
    }
    lines += &format!("waiting {}\n", b.case.count()?);
    r.same(Kind::Example, lines.as_str(), PRINTED, || "smallnet".to_string())
}

// what is on top before and after
fn tops(change: Change, a: u8, b: u8) -> String {
    match change {
        Change::Convert => format!("{}>{}", text(&[a]), text(&[b])),
        Change::Wrap => format!("{}>{}", text(&[a]), text(&[a, b])),
        Change::Unwrap => format!("{}>{}", text(&[a, b]), text(&[a])),
    }
}
