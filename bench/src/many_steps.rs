//! What is timed of many steps in one call, per cycle: beside another engine's, and beside single steps.

use crate::calls::{batch, cases};
use crate::loads::{Case, Load, case};
use crate::times::{Sides, print_row};
use second::lent::{Call, Engine, Lent};
use std::hint::black_box;

const LOADS: [Load; 4] = [Load::Idle, Load::Few, Load::Standard, Load::Saturated];
/// The cycles of a call: so many that the processor doesn't learn an 8 by 8 torus's branches by heart, as
/// it does those of 200.
const CYCLES: u32 = 400;
/// A stream's pings of all flows, and the cycles from one to the next.
const PINGS: usize = 1000;
const PING_CYCLES: u32 = 100_000;

const STEP_AND_STEPS: Sides = Sides { names: ["step", "steps"], before_turn: |_| (), lacking: &[] };

/// Steps of both in one call, on states of every load and in streams of few packets.
pub fn time(sides: Sides, first: Engine, second: Engine) {
    for case in cases(sides, first, second, &LOADS) {
        let state = case.state();
        print_row(
            "steps",
            &case,
            sides.alternate(
                CYCLES as usize,
                many(first, &case, &state),
                many(second, &case, &state),
            ),
        );
    }
    for load in [Load::Pings, Load::Waiting] {
        let case = case(8, 64, load);
        print_row(
            "steps",
            &case,
            sides.alternate(
                PINGS * PING_CYCLES as usize,
                stream(first, &case),
                stream(second, &case),
            ),
        );
    }
}

/// Steps in one call beside single steps of the same engine.
pub fn time_beside_step(host: Engine) {
    let sides = STEP_AND_STEPS;
    sides.print_header();
    for case in cases(sides, host, host, &LOADS) {
        let state = case.state();
        let single = batch(host, case.stepping(&state, Call::Step), CYCLES as usize, |_, _| ());
        print_row(
            "steps",
            &case,
            sides.alternate(CYCLES as usize, single, many(host, &case, &state)),
        );
    }
}

/// Steps in one call, which has room for the deliveries of all.
fn many<'a>(host: Engine<'a>, case: &Case, state: &[u32]) -> impl FnMut() + use<'a> {
    let mut lent = case.stepping(state, Call::Steps(CYCLES));
    lent.delivery.resize(CYCLES as usize * case.room(), 0);
    batch(host, lent, 1, |_, _| ())
}

/// Pings of all flows, each followed by steps in one call up to the next.
fn stream<'a>(host: Engine<'a>, case: &Case) -> impl FnMut() + use<'a> {
    let start = case.start();
    let mut memories = case.stepping(&start, Call::Steps(PING_CYCLES));
    memories.delivery.resize(2 * case.room(), 0);
    let mut list: Vec<u32> = (0..case.flows as u32).collect();
    move || {
        memories.state.copy_from_slice(&start);
        let lent = &mut Lent { list: &mut list, ..memories.lent() };
        for _ in 0..PINGS {
            for call in [Call::OfferSet, Call::Steps(PING_CYCLES)] {
                lent.call = call;
                black_box(host(lent));
            }
        }
    }
}
