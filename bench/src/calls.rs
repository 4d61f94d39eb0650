//! What is timed of each call.

use crate::loads::{Case, Load, SIZES, case};
use crate::many_steps;
use crate::plain::step;
use crate::times::{Sides, print_row};
use second::book::PER_DELIVERY;
use second::lent::{Call, Copied, Engine, Lent};
use second::plan::RECORD;
use second::recent::Record;
use std::hint::black_box;

const BATCH: usize = 50;
/// The entries of a long list. A batch of them fits into the queues, as every flow comes in turn.
const LONG: usize = 4096;
/// The packets of every flow that wait for the trial generator's offers. A batch of them is accepted.
const FEW: u32 = 100;

/// Makes a call another one, by its position in a row of them.
type Change = fn(&mut Lent, usize);

/// A row of calls: its name, the function of hrt.h, what the first is lent, and what changes from one to the
/// next.
type Timed = (&'static str, &'static str, Copied, Change);

/// So many calls in a row. Each turn starts from the same state.
pub fn batch<'a>(
    host: Engine<'a>,
    mut memories: Copied,
    calls: usize,
    change: Change,
) -> impl FnMut() + use<'a> {
    let state = memories.state.clone();
    move || {
        memories.state.copy_from_slice(&state);
        let lent = &mut memories.lent();
        for at in 0..calls {
            change(lent, at);
            black_box(host(lent));
        }
    }
}

/// The cases of these loads whose plans both sides take.
pub fn cases(sides: Sides, first: Engine, second: Engine, loads: &[Load]) -> Vec<Case> {
    let is_taken = |host: Engine, case: &Case| host(&mut on_file(case, Call::Notes).lent()) == 0;
    let mut cases = Vec::new();
    for (size, flows) in SIZES {
        for &load in loads {
            let case = case(size, flows, load);
            if sides.both(|| is_taken(first, &case), || is_taken(second, &case)) {
                cases.push(case);
            } else {
                let load = load.name();
                println!("{load} {size}x{size}: not timed, one of the two refuses its plan");
            }
        }
    }
    cases
}

/// What a call on a plan file is lent.
fn on_file(case: &Case, call: Call) -> Copied {
    Copied { call, file: case.file.clone(), ..Copied::default() }
}

/// Window, bursts and flight bound of each flow, and the bounds of the whole listing.
pub fn bounds(sides: Sides, first: Engine, second: Engine) {
    let loads = [Load::Light, Load::Slow, Load::Climbing, Load::Bursts, Load::Saturated];
    sides.print_header();
    for case in cases(sides, first, second, &loads) {
        let (flows, lent) = (case.flows, on_file(&case, Call::Notes));
        let bursts: (usize, Change) = match case.load {
            Load::Bursts => (flows * burst_of(&lent.file, 0), each_burst),
            _ => (flows, |lent, at| lent.call = burst(at, burst_of(lent.file, at))),
        };
        let of_flows: [(&str, &str, (usize, Change)); 3] = [
            ("window", "hrt_window", (flows, |lent, at| lent.call = window(at))),
            ("burst", "hrt_burst", bursts),
            ("flight", "hrt_flight", (flows, |lent, at| lent.call = flight(at))),
        ];
        for (name, function, (calls, change)) in of_flows {
            if sides.both_have(function) {
                let row = |host| batch(host, lent.clone(), calls, change);
                print_row(name, &case, sides.alternate(calls, row(first), row(second)));
            }
        }
        let bounds = |host| batch(host, lent.clone(), 1 + 2 * flows, next_bound);
        print_row("bounds", &case, sides.alternate(1, bounds(first), bounds(second)));
    }
}

fn window(flow: usize) -> Call {
    Call::Window(flow as u32)
}

/// σ of a flow in a plan file without notes.
fn burst_of(file: &[u8], flow: usize) -> usize {
    file[RECORD * flow + 6].into()
}

fn burst(flow: usize, packets: usize) -> Call {
    Call::Burst(flow as u32, packets as u32)
}

/// Every burst of every flow, where all have the same σ.
fn each_burst(lent: &mut Lent, at: usize) {
    let most = burst_of(lent.file, 0);
    lent.call = burst(at / most, at % most + 1);
}

fn flight(flow: usize) -> Call {
    Call::Flight(flow as u32)
}

/// The notes, then window and flight bound of each flow.
fn next_bound(lent: &mut Lent, at: usize) {
    lent.call = match at {
        0 => Call::Notes,
        _ if at % 2 == 1 => window(at / 2),
        _ => flight(at / 2 - 1),
    };
}

/// All forms of step and offer, reset, write, recent flights and many steps: the calls that both sides have.
pub fn engine(sides: Sides, first: Engine, second: Engine) {
    sides.print_header();
    for case in cases(sides, first, second, &[Load::Light, Load::Slow, Load::Saturated]) {
        let state = case.state();
        for (name, function, lent, change) in rows(&case, &state) {
            if sides.both_have(function) {
                let row = |host| batch(host, lent.clone(), BATCH, change);
                print_row(name, &case, sides.alternate(BATCH, row(first), row(second)));
            }
        }
        if sides.both_have("hrt_recent") {
            for (name, last) in [("recent16", 16), ("recent 4", 4)] {
                let row = |host| feeds(host, &case, &state, last);
                print_row(name, &case, sides.alternate(BATCH, row(first), row(second)));
            }
        }
    }
    if sides.both_have("hrt_steps") {
        many_steps::time(sides, first, second);
    }
}

/// A batch of each call from this state, with every flow in turn.
fn rows(case: &Case, state: &[u32]) -> Vec<Timed> {
    let stays: Change = |_, _| ();
    let on_state = |call| case.stepping(state, call);
    let set = |entries| {
        let list = (0..entries).map(|entry| (entry % case.flows) as u32).collect();
        Copied { list, ..on_state(Call::OfferSet) }
    };
    let trial = case.with_waiting(state.to_vec(), FEW);
    let reasons = vec![0; case.flows];
    vec![
        ("step", "hrt_step", on_state(Call::Step), stays),
        ("reasons", "hrt_step_reasons", Copied { reasons, ..on_state(Call::StepReasons) }, stays),
        ("offer", "hrt_offer", on_state(Call::Offer(0)), |lent, at| {
            lent.call = Call::Offer(at as u32 % lent.state[2])
        }),
        ("trial", "hrt_offer_trial", case.stepping(&trial, Call::OfferTrial(0)), |lent, at| {
            lent.call = Call::OfferTrial(at as u32 % lent.state[2])
        }),
        ("set", "hrt_offer_set", set(case.flows), stays),
        ("set 4096", "hrt_offer_set", set(LONG), stays),
        ("reset", "hrt_reset", Copied { file: case.file.clone(), ..on_state(Call::Reset) }, stays),
        (
            "write",
            "hrt_write",
            Copied { target: vec![0; case.file.len()], ..on_state(Call::Write) },
            stays,
        ),
    ]
}

/// The deliveries of steps in a row, each step's fed on the state that the last one leaves. The
/// records are full for the most part.
fn feeds<'a>(host: Engine<'a>, case: &Case, state: &[u32], last: u32) -> impl FnMut() + use<'a> {
    let (state, mut deliveries) = delivered(case, state);
    let records = vec![Record::default(); case.flows];
    let mut memories = Copied { records, ..case.stepping(&state, Call::Recent(last)) };
    move || {
        let lent = &mut memories.lent();
        for deliveries in &mut deliveries {
            lent.deliveries = deliveries;
            black_box(host(lent));
        }
    }
}

/// The state after a batch of steps, and what each of them delivered.
fn delivered(case: &Case, state: &[u32]) -> (Vec<u32>, Vec<Vec<u32>>) {
    let mut memory = state.to_vec();
    let mut delivery = vec![0; case.room()];
    let mut deliver = || {
        let exits = step(&mut memory, &mut delivery);
        delivery[..PER_DELIVERY * exits as usize].to_vec()
    };
    let deliveries = (0..BATCH).map(|_| deliver()).collect();
    (memory, deliveries)
}
