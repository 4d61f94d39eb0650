//! Faults of a step with reasons other than in what it tells: its refusals, its memories and the step
//! itself, each as a call with that fault in it.

use super::simulator::{OneCall, Slip, refused};
use second::calls;
use second::lent::Part::{Answer, Delivery, Reasons, State};
use second::lent::{Call, Lent};
use second::state::{judge, waiting_at};

/// How many flows and routers the words say there are, in a memory of eight words or more.
fn flows(lent: &Lent) -> usize {
    lent.state[2] as usize
}

fn routers(lent: &Lent) -> usize {
    lent.state[0] as usize * lent.state[1] as usize
}

/// The call, but for 19 where this holds: it tells as many reasons as there are words for.
fn with_room(lent: &mut Lent, holds: impl Fn(&Lent) -> bool) -> u64 {
    if lent.number() != 19 || !holds(lent) {
        return lent.right();
    }
    let mut list = lent.reasons.to_vec();
    list.resize(flows(lent), 0);
    let answer = Lent { reasons: &mut list, ..lent.again() }.right();
    lent.reasons.copy_from_slice(&list[..lent.reasons.len()]);
    answer
}

/// The call, refused with 19 where it is accepted and this holds.
fn barred(lent: &mut Lent, holds: impl Fn(&Lent) -> bool) -> u64 {
    lent.but(0, refused(19, 0), holds)
}

/// The call, but for this in place of 19.
fn for_19(lent: &mut Lent, number: u64, place: usize) -> u64 {
    lent.but(19, refused(number, place), |_| true)
}

/// The call, but for this answer where it is accepted, by what it left.
fn answering(lent: &mut Lent, count: impl Fn(&Lent) -> usize) -> u64 {
    let answer = lent.right();
    if answer < 1 << 32 { count(lent) as u64 } else { answer }
}

/// Tells as many reasons as there are words for; 0 to all flows in the last cycle, which has none.
fn tell(lent: &mut Lent) {
    let book = judge(lent.state).unwrap();
    let told = book.clone().step_reasons(usize::MAX, usize::MAX);
    let (_, told) = told.unwrap_or((Vec::new(), vec![0; book.plan.flows.len()]));
    lent.reasons.iter_mut().zip(told).for_each(|(word, reason)| *word = reason);
}

/// The call, and the first so many words behind the last flow filled, where it is accepted.
fn filling(lent: &mut Lent, most: impl Fn(usize) -> usize) -> u64 {
    lent.then(0, |lent| {
        let flows = flows(lent);
        lent.reasons[flows..].iter_mut().take(most(flows)).for_each(|word| *word = 1);
    })
}

pub const FAULTS: &[Slip] = &[
    // 19: where it is given, and what with.
    ("19 never, and as many words as fit", Answer, |lent| with_room(lent, |_| true)),
    ("19 for an empty list alone", Answer, |lent| with_room(lent, |lent| !lent.reasons.is_empty())),
    ("19 by the flows that wait", Answer, |lent| {
        with_room(lent, |lent| {
            let waits = |&flow: &usize| lent.state[waiting_at(flow)] > 0;
            (0..flows(lent)).filter(waits).count() <= lent.reasons.len()
        })
    }),
    ("19 by the low byte of F", Answer, |lent| {
        with_room(lent, |lent| lent.reasons.len() >= flows(lent) as u8 as usize)
    }),
    ("19 past F words", Answer, |lent| barred(lent, |lent| lent.reasons.len() > flows(lent))),
    ("19 past 256 words", Answer, |lent| barred(lent, |lent| lent.reasons.len() > 256)),
    ("19 below a word for each router", Answer, |lent| {
        barred(lent, |lent| lent.reasons.len() < routers(lent))
    }),
    ("19 by the delivery memory", Answer, |lent| {
        barred(lent, |lent| lent.delivery.len() < flows(lent))
    }),
    ("the list's length for the place", Answer, |lent| {
        let place = lent.reasons.len();
        for_19(lent, 19, place)
    }),
    ("the flow count for the place", Answer, |lent| {
        let place = lent.state.get(2).map_or(0, |&flows| flows as usize);
        for_19(lent, 19, place)
    }),
    ("12 for 19", Answer, |lent| for_19(lent, 12, 0)),
    ("16 for 19", Answer, |lent| for_19(lent, 16, 0)),
    ("18 for 19", Answer, |lent| for_19(lent, 18, 0)),
    // The order of refusals.
    ("19 for an empty list before all", Answer, |lent| {
        if lent.reasons.is_empty() { refused(19, 0) } else { lent.right() }
    }),
    // What is lent stays where a call is refused.
    ("the step done where 19 is due", State, |lent| {
        lent.then(19, |lent| {
            let delivery = &mut lent.delivery.to_vec();
            calls::step(lent.state, delivery).unwrap();
        })
    }),
    ("deliveries written where 19 is due", Delivery, |lent| {
        lent.then(19, |lent| {
            let state = &mut lent.state.to_vec();
            calls::step(state, lent.delivery).unwrap();
        })
    }),
    ("reasons told where 19 is due", Reasons, |lent| lent.then(19, |lent| tell(lent))),
    ("reasons told where 10 is due", Reasons, |lent| lent.then(10, |lent| tell(lent))),
    ("reasons told where 11 is due", Reasons, |lent| lent.then(11, |lent| tell(lent))),
    // The words that are written.
    ("every word past the last flow", Reasons, |lent| filling(lent, |_| usize::MAX)),
    ("a list filled up to 256 words", Reasons, |lent| filling(lent, |flows| 256 - flows)),
    ("the first word one too far", Reasons, |lent| {
        let first = lent.reasons.to_vec();
        lent.then(0, |lent| {
            let most = lent.reasons.len().min(flows(lent) + 1);
            lent.reasons.copy_within(..most - 1, 1);
            lent.reasons[0] = first[0];
        })
    }),
    // The step itself.
    ("no step", State, |lent| {
        let state = lent.state.to_vec();
        lent.then(0, |lent| lent.state.copy_from_slice(&state))
    }),
    ("two steps", State, |lent| {
        lent.then(0, |lent| {
            let delivery = &mut lent.delivery.to_vec();
            // The last cycle takes no second one.
            let _ = calls::step(lent.state, delivery);
        })
    }),
    ("deliveries not written", Delivery, |lent| {
        let delivery = lent.delivery.to_vec();
        lent.then(0, |lent| lent.delivery.copy_from_slice(&delivery))
    }),
    ("0 for the count of exits", Answer, |lent| answering(lent, |_| 0)),
    ("the count of flows answered", Answer, |lent| answering(lent, |lent| flows(lent))),
    ("the count of entries answered", Answer, |lent| {
        answering(lent, |lent| {
            let told = &lent.reasons[..flows(lent)];
            told.iter().filter(|&&reason| reason == 0).count()
        })
    }),
    ("a plain step, and nothing told", Reasons, |lent| match lent.number() {
        0 => Lent { call: Call::Step, ..lent.again() }.right(),
        _ => lent.right(),
    }),
];

/// A plain step, refused with 19 as though it were lent no list.
pub const PLAIN: &[Slip] = &[("19 as though it were lent no list", Answer, |lent| {
    lent.call.returned(calls::step_reasons(lent.state, lent.delivery, &mut []))
})];
