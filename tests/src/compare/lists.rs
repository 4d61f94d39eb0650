//! Lists of calls: any ones, and those that meet bounds, fill queues or come to the last cycle.

use super::list::{By, List};
use super::steps::{self, about};
use super::{Run, many, sets};
use crate::offers::MOST_TRIAL;
use crate::plan::Plan;
use crate::random;
use crate::slips::{met_bursts, met_exactly, met_late, refuted};
use crate::worst::{Lists, Worst, worst_wait};

/// A list of so many calls, with refused and unfed ones between them. A flow is offered more often than
/// others, and now and then has about as many packets waiting from the start as the generator may leave.
fn calls(run: &mut Run, plan: Plan, calls: usize) {
    let flows = plan.flows.len();
    let room = plan.delivery_words();
    let mut list = List::new(run, plan);
    let steps = run.random.pick(&[10, 50, 90]);
    let often = run.random.index(flows) as u32;
    if run.random.percent(20) {
        let waiting = MOST_TRIAL + 1 - run.random.index(8);
        list.offer_set(run, &vec![often; waiting]);
    }
    for _ in 0..calls {
        let single = run.random.pick(&[By::Offer, By::Trial]);
        match run.random.from(1, 100) {
            1 => {
                let unknown = flows as u32 + run.random.pick(&[0, 1, 1 << 20]);
                list.offer_by(run, single, &[unknown]);
            }
            2 => {
                let short = run.random.index(room);
                list.step(run, short)
            }
            3 => {
                let (room, short) = (about(run.random, room), run.random.index(flows));
                let step = steps::telling(run.random, &mut list.memory, room, short);
                list.kept_step(run, step)
            }
            4..8 => list.unfed(run),
            8..13 => {
                let step = many::any(run.random, &mut list.memory, room);
                list.kept_step(run, step)
            }
            13..16 => {
                let flows = sets::list(run.random, flows);
                list.offer_set(run, &flows);
            }
            _ if run.random.percent(steps) => {
                let past = run.random.index(7);
                list.step(run, room + past)
            }
            _ => {
                let any = run.random.index(flows) as u32;
                let flow = if run.random.percent(20) { often } else { any };
                list.offer_by(run, single, &[flow]);
            }
        }
    }
    list.end();
}

/// A short list of a random plan on this torus, seldom a long one.
pub fn round(run: &mut Run, sx: i64, sy: i64) {
    let flows = random::flow_count(run.random);
    let plan = random::plan(run.random, sx, sy, flows);
    let calls = if run.random.percent(2) { 6000 } else { 200 };
    self::calls(run, plan, calls);
}

/// A saturated run: before each step an offer of every flow that has few packets waiting, by any call.
pub fn saturated(run: &mut Run, plan: Plan, steps: usize) {
    let room = plan.delivery_words();
    let flows = plan.flows.len() as u32;
    let mut list = List::new(run, plan);
    for _ in 0..steps {
        let flows: Vec<u32> = (0..flows).filter(|&flow| list.waiting(flow) < 2).collect();
        let by = run.random.pick(&By::ALL);
        list.offer_by(run, by, &flows);
        list.step(run, room);
    }
    list.end();
}

/// As many offers as are taken, and two more; then a few steps, with an offer of the generator before
/// each.
pub fn full_queue(run: &mut Run) {
    let mut list = List::new(run, met_exactly().0);
    for _ in 0..65_537 {
        list.offer_by(run, By::Offer, &[1]);
    }
    for _ in 0..9 {
        list.offer_by(run, By::Trial, &[1]);
        list.step(run, 80);
        list.offer_by(run, By::Offer, &[1]);
    }
    list.end();
}

/// Really long sets, one past the room of two queues and one that nearly fills them; sets that are
/// refused at the brim, in front of and behind a number that isn't a flow's; and steps between sets.
pub fn full_queues_by_sets(run: &mut Run) {
    let mut list = List::new(run, met_exactly().0);
    for entries in [65_536, 65_532] {
        list.offer_set(run, &[1, 3].repeat(entries));
    }
    for flows in [&[1, 1, 1, 1][..], &[3, 1, 3, 1, 1], &[3, 3], &[3], &[1, 3], &[3]] {
        list.offer_set(run, flows);
    }
    for _ in 0..9 {
        for flows in [&[0, 1, 1][..], &[2, 4, 1, 1], &[0, 1, 3, 1, 4, 3], &[1, 3], &[]] {
            list.offer_set(run, flows);
        }
        list.step(run, 80);
    }
    list.end();
}

/// The lists that refute each slipped window, the one that meets the bound, and those that meet the windows of bursts,
/// with the offers before each step by each call.
pub fn worst_lists(run: &mut Run) {
    let lists = refuted().into_iter().map(|row| {
        let worst = worst_wait(&row.plan, row.f);
        (row.plan, worst)
    });
    let bursts = met_bursts().into_iter().flat_map(|row| {
        let mut lists = Lists::of(&row.plan);
        let worst = |k| lists.longest_wait(row.f, k, k as i64);
        let worst: Vec<_> = (1..=row.windows.len()).map(worst).collect();
        worst.into_iter().map(move |worst| (row.plan.clone(), worst))
    });
    for (plan, Worst { offers, .. }) in lists.chain([met_exactly()]).chain(bursts) {
        let room = plan.delivery_words();
        for by in By::ALL {
            let mut list = List::new(run, plan.clone());
            for flows in &offers {
                list.offer_by(run, by, flows);
                list.step(run, room);
            }
            list.end();
        }
    }
}

/// A list to the last cycle and past it: one call passes nearly all cycles, and every form of step and offer
/// has the rest.
pub fn last_cycles(run: &mut Run) {
    let plan = met_exactly().0;
    let room = plan.delivery_words();
    let mut list = List::new(run, plan);
    list.offer_set(run, &[0, 1, 2, 3, 1, 1]);
    let step = steps::many(run.random, &mut list.memory, 9 * room, u32::MAX - 30);
    list.kept_step(run, step);
    for cycle in 0..40 {
        list.offer_by(run, By::ALL[cycle % 3], &[1, 3]);
        list.step(run, room);
    }
    list.end();
}

/// The list that meets the bound of a slow flow. It takes two of its periods, so nothing is kept of
/// its flights.
pub fn slow_list(run: &mut Run) {
    let (plan, Worst { offers, .. }) = met_late();
    let mut list = List::new(run, plan);
    for flows in offers {
        list.offer_by(run, By::Offer, &flows);
        let step = steps::any(run.random, &mut list.memory, 10, 2);
        let _ = list.call(run, step);
    }
    list.end();
}
