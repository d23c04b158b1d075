// One round: a network and a table are drawn, and then calls are made on them, each first by the independent program.
use crate::case::{Case, Common};
use crate::draw_call;
use crate::draw_case;
use crate::draw_table;
use crate::met::Met;
use crate::model;
use crate::model_network::lent;
use crate::rng::Rng;
use crate::watch;

pub fn play(case: &mut Case, met: &mut Met, seed: u64, round: u64) -> Result<(), String> {
    let start = Rng::new(seed).word() ^ Rng::new(!round).word();
    let mut rng = Rng::new(start);
    draw_case::draw(&mut rng, &mut case.common);
    let calls = if lent(&mut case.common).is_ok() { rng.between(10, 60) } else { rng.between(2, 8) };
    for number in 0..calls {
        if rng.chance(15) {
            spoil(&mut rng, &mut case.common);
        }
        one_call(case, met, &mut rng, number as u64)?;
    }
    Ok(())
}

fn one_call(case: &mut Case, met: &mut Met, rng: &mut Rng, number: u64) -> Result<(), String> {
    let mut call = draw_call::draw(rng, case);
    watch::call(number, call.kind());
    let want = model::answer(case, &mut call);
    let got = case.ask(call);
    met.count(call.kind(), want, case.answer.len());
    let answered = if got == want { Ok(()) } else { Err(format!("  library:     {:x}\n  independent: {:x}", got, want)) };
    answered.and_then(|()| case.check()).map_err(|text| format!("{:?}, {}\n{}", call, case.lent(call), text))
}

// a few rows of the table, in the library's slices and the independent program's
fn spoil(rng: &mut Rng, common: &mut Common) {
    if let Ok((net, mut table)) = lent(common) {
        for _ in 0..rng.between(1, 4) {
            let (row, kind) = (rng.below(net.rows()), rng.below(draw_table::KINDS));
            draw_table::spoil(rng, &net, &mut table, row, kind);
        }
        common.cost.rewrite();
        common.way.rewrite();
        common.waiting.rewrite();
    }
}
