//! The parts of the comparison: fixed boundaries first, then rounds. Each round has a seed of its
//! own, the last one's + 1, which gives the torus too, so that 256 rounds go through all sizes.

use super::{
    Others, Run, Tally, bounds, lists, many, orders, periods, reasons, recent, sets, states, trial,
};
use crate::lent::Engine;
use crate::random::{Random, plan};
use crate::table;
use std::time::{Duration, Instant};

/// How long the rounds go on: as many as the gate runs, or so many seconds.
#[derive(Clone, Copy)]
pub enum Extent {
    Gate,
    Seconds(u64),
}

const GATE_ROUNDS: u64 = 512;

/// The window, the burst, the flight bound and the notes.
pub fn bounds(host: Engine, seed: u64, extent: Extent) -> Tally {
    bounds_of(&mut Others::one(host), seed, extent)
}

pub fn bounds_of(others: &mut Others, seed: u64, extent: Extent) -> Tally {
    let (mut tally, mut random) = (Tally::new(seed), Random::new(seed));
    bounds::boundaries(&mut Run { others, tally: &mut tally, random: &mut random });
    rounds("bounds", &mut tally, extent, |tally, random, sx, sy| {
        bounds::round(&mut Run { others, tally, random }, sx, sy);
    });
    if let Extent::Gate = extent {
        tally.turning.came_up_often();
    }
    all_came_up(&tally, true);
    tally
}

/// Reset, offer, the trial generator's offer, sets of offers, all forms of step, recent flights and write.
pub fn engine(host: Engine, seed: u64, extent: Extent) -> Tally {
    engine_of(&mut Others::one(host), seed, extent)
}

pub fn engine_of(others: &mut Others, seed: u64, extent: Extent) -> Tally {
    let (mut tally, mut random) = (Tally::new(seed), Random::new(seed));
    boundaries(&mut Run { others, tally: &mut tally, random: &mut random });
    let by_hand = tally.reasons;
    rounds("engine", &mut tally, extent, |tally, random, sx, sy| {
        let run = &mut Run { others, tally, random };
        for round in [
            lists::round,
            states::round,
            recent::round,
            sets::round,
            trial::round,
            reasons::round,
            many::round,
        ] {
            round(run, sx, sy);
        }
    });
    if let Extent::Gate = extent {
        reasons::came_up_often([0, 1, 2, 3, 4, 5].map(|at| tally.reasons[at] - by_hand[at]));
    }
    long_lists(&mut Run { others, tally: &mut tally, random: &mut random });
    tally.bursts.came_up();
    all_came_up(&tally, false);
    tally
}

/// What is at a boundary of one of the engine's calls, the quickest first.
pub fn boundaries(run: &mut Run) {
    orders::orders(run);
    trial::boundaries(run);
    sets::boundaries(run);
    states::resets(run);
    recent::boundaries(run);
    many::boundaries(run);
    periods::slow_states(run);
    states::boundaries(run);
    reasons::boundaries(run);
    sets::long_lists(run);
    periods::round_trips(run);
}

/// Lists that are long, or that take long queues.
fn long_lists(run: &mut Run) {
    lists::worst_lists(run);
    lists::slow_list(run);
    lists::last_cycles(run);
    many::interrupted(run);
    lists::full_queue(run);
    lists::full_queues_by_sets(run);
    trial::queues(run);
    for (size, flows) in [(4, 16), (8, 64), (16, 256)] {
        let plan = plan(run.random, size, size, flows);
        lists::saturated(run, plan, 60);
    }
    sets::past_all_queues(run);
}

/// Each call, of the bounds or of the engine, has been accepted, and refused with each number that it has.
fn all_came_up(tally: &Tally, bounds: bool) {
    for row in table::rows(bounds) {
        tally.must_have_come_up(row.call.name(), row.numbers());
    }
}

pub(crate) fn rounds(
    part: &str,
    tally: &mut Tally,
    extent: Extent,
    mut round: impl FnMut(&mut Tally, &mut Random, i64, i64),
) {
    let began = Instant::now();
    let mut told = began;
    for number in 0.. {
        match extent {
            Extent::Gate if number == GATE_ROUNDS => break,
            Extent::Seconds(most) if began.elapsed().as_secs() >= most => break,
            _ => {}
        }
        let (sx, sy) = (1 + tally.seed % 16, 1 + tally.seed / 16 % 16);
        round(tally, &mut Random::new(tally.seed), sx as i64, sy as i64);
        tally.seed += 1;
        if told.elapsed() >= Duration::from_secs(5) {
            told = Instant::now();
            let seconds = began.elapsed().as_secs();
            eprintln!(
                "{part}: {seconds} s, {} rounds, {} calls, {} words",
                number + 1,
                tally.calls(),
                tally.words
            );
        }
    }
}
