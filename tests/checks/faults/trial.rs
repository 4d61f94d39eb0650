//! Faults of the trial generator's offer, each as a call with that fault in it, and the generator's limit
//! in the sonar's offers.

use super::simulator::{Fault, OneCall, Slip, in_call, refused, slips};
use second::lent::Part::{Answer, State};
use second::lent::{Call, Lent};
use second::state::{HEADER, PER_FLOW, judge, waiting_at};
use std::cell::Cell;

fn flow(lent: &Lent) -> u32 {
    if let Call::OfferTrial(flow) = lent.call { flow } else { 0 }
}

fn count(lent: &Lent) -> u32 {
    lent.state[2]
}

/// The flow's words.
fn words<'a>(lent: &'a mut Lent) -> &'a mut [u32] {
    let at = HEADER + PER_FLOW * flow(lent) as usize;
    &mut lent.state[at..][..PER_FLOW]
}

/// How many packets of a flow wait, as far as there is such a word.
fn waiting_of(lent: &Lent, flow: u32) -> u32 {
    lent.state.get(waiting_at(flow as usize)).copied().unwrap_or(0)
}

fn waiting(lent: &Lent) -> u32 {
    waiting_of(lent, flow(lent))
}

/// How many packets of the flow have entered.
fn entered(lent: &Lent) -> u32 {
    lent.state[waiting_at(flow(lent) as usize) - 1]
}

/// How many packets of each flow wait.
fn queues(lent: &Lent) -> impl Iterator<Item = u32> {
    (0..count(lent)).map(|flow| waiting_of(lent, flow))
}

/// The call with 18 decided in this way.
fn full_by(lent: &mut Lent, is_full: impl Fn(&Lent) -> bool) -> u64 {
    match lent.number() {
        0 | 18 if is_full(lent) => refused(18, 0),
        0 | 18 => {
            words(lent)[9] += 1;
            0
        }
        _ => lent.right(),
    }
}

/// The call with another place for a number.
fn placed(lent: &mut Lent, number: u64, place: fn(&Lent) -> u32) -> u64 {
    let told = refused(number, place(lent) as usize);
    lent.but(number, told, |_| true)
}

/// The call with another flow.
fn naming(lent: &mut Lent, flow: u32) -> u64 {
    Lent { call: Call::OfferTrial(flow), ..lent.again() }.right()
}

/// The call, but for words that would be a state with this change: they are taken for one.
fn judged(lent: &mut Lent, change: impl Fn(&mut [u32])) -> u64 {
    let mut changed = lent.copied();
    change(&mut changed.state);
    if lent.number() != 9 || judge(&changed.state).is_err() {
        return lent.right();
    }
    let answer = changed.lent().right();
    if answer == 0 {
        words(lent)[9] += 1;
    }
    answer
}

const FAULTS: &[Slip] = &[
    ("it stops at 256", Answer, |lent| full_by(lent, |lent| waiting(lent) >= 256)),
    ("255 alone refused", Answer, |lent| full_by(lent, |lent| waiting(lent) == 255)),
    ("a low byte of 255 refused", Answer, |lent| full_by(lent, |lent| waiting(lent) as u8 == 255)),
    ("18 at 65,535 alone", Answer, |lent| full_by(lent, |lent| waiting(lent) == 65_535)),
    ("18 never", Answer, |lent| full_by(lent, |_| false)),
    ("the sonar's offer", Answer, |lent| {
        Lent { call: Call::Offer(flow(lent)), ..lent.again() }.right()
    }),
    ("13 for 18", Answer, |lent| lent.but(18, refused(13, 0), |_| true)),
    ("13 at 65,535", Answer, |lent| lent.but(18, refused(13, 0), |lent| waiting(lent) == 65_535)),
    ("the limit for the place", Answer, |lent| placed(lent, 18, |_| 255)),
    ("the flow for the place of 18", Answer, |lent| placed(lent, 18, flow)),
    ("the flow for the place of 12", Answer, |lent| placed(lent, 12, flow)),
    ("the waiting packets for the place", Answer, |lent| placed(lent, 18, waiting)),
    ("nothing added", State, |lent| lent.then(0, |lent| words(lent)[9] -= 1)),
    ("two added", State, |lent| lent.then(0, |lent| words(lent)[9] += 1)),
    ("waiting set to 1", State, |lent| lent.then(0, |lent| words(lent)[9] = 1)),
    ("waiting set to the limit", State, |lent| lent.then(0, |lent| words(lent)[9] = 255)),
    ("entered raised too", State, |lent| lent.then(0, |lent| words(lent)[8] += 1)),
    ("a token given", State, |lent| lent.then(0, |lent| words(lent)[6] += 1)),
    ("a cycle passed", State, |lent| {
        lent.then(0, |lent| lent.state[3] = lent.state[3].wrapping_add(1))
    }),
    ("added to flow 0", State, |lent| {
        lent.then(0, |lent| {
            words(lent)[9] -= 1;
            lent.state[waiting_at(0)] += 1;
        })
    }),
    ("added where 18 is due", State, |lent| lent.then(18, |lent| words(lent)[9] += 1)),
    ("packets over the limit dropped", State, |lent| lent.then(18, |lent| words(lent)[9] = 255)),
    ("added to flow 0 where 12 is due", State, |lent| {
        lent.then(12, |lent| lent.state[waiting_at(0)] += 1)
    }),
    ("18 before 12 where a queue is full", Answer, |lent| {
        lent.but(12, refused(18, 0), |lent| queues(lent).any(|waiting| waiting >= 255))
    }),
    ("18 before 12 by a flow's low byte", Answer, |lent| {
        lent.but(12, refused(18, 0), |lent| waiting_of(lent, flow(lent) % 256) >= 255)
    }),
    ("waiting not judged", Answer, |lent| {
        judged(lent, |words| {
            let queues = words.get_mut(HEADER..).unwrap_or_default().chunks_exact_mut(PER_FLOW);
            queues.for_each(|flow| flow[9] = flow[9].min(65_535));
        })
    }),
    ("the last register not judged", Answer, |lent| {
        judged(lent, |words| words.iter_mut().rev().take(4).for_each(|word| *word = 0))
    }),
    ("entered packets counted", Answer, |lent| full_by(lent, |lent| entered(lent) >= 255)),
    ("all packets since reset counted", Answer, |lent| {
        full_by(lent, |lent| entered(lent).saturating_add(waiting(lent)) >= 255)
    }),
    ("packets on their way counted", Answer, |lent| {
        full_by(lent, |lent| {
            let book = judge(lent.state).unwrap();
            let of_flow = |&&line: &&usize| book.lines[line].flow == flow(lent) as usize;
            waiting(lent) as usize + book.placed.iter().filter(of_flow).count() >= 255
        })
    }),
    ("the queues of all flows counted", Answer, |lent| {
        full_by(lent, |lent| queues(lent).sum::<u32>() >= 255)
    }),
    ("any flow's full queue", Answer, |lent| {
        full_by(lent, |lent| queues(lent).any(|waiting| waiting >= 255))
    }),
    ("the next flow's queue", Answer, |lent| {
        full_by(lent, |lent| waiting_of(lent, (flow(lent) + 1) % count(lent)) >= 255)
    }),
    ("flow 0's queue", Answer, |lent| full_by(lent, |lent| waiting_of(lent, 0) >= 255)),
    ("flow F taken for the last", Answer, |lent| {
        let is_next = lent.number() == 12 && flow(lent) == count(lent);
        naming(lent, flow(lent) - is_next as u32)
    }),
    ("a flow of 8 bits", Answer, |lent| naming(lent, flow(lent) as u8 as u32)),
    ("a flow of 16 bits", Answer, |lent| naming(lent, flow(lent) as u16 as u32)),
    ("refused without a token", Answer, |lent| {
        lent.but(0, refused(18, 0), |lent| lent.state[waiting_at(flow(lent) as usize) - 3] == 0)
    }),
    ("refused in the last cycle", Answer, |lent| {
        lent.but(0, refused(11, 0), |lent| lent.state[3] == u32::MAX)
    }),
];

/// The call, but for the generator's own packets, which alone are counted, from a reset on.
fn own_counted() -> Fault {
    let own = Cell::new(0);
    let mut fault =
        in_call(Call::OfferTrial(0), "its own packets counted", &[Answer], move |lent| {
            if lent.call == Call::Reset {
                own.set(0);
            }
            let Call::OfferTrial(_) = lent.call else {
                return lent.right();
            };
            let answer = full_by(lent, |_| own.get() >= 255);
            own.set(own.get() + (answer == 0) as u32);
            answer
        });
    fault.sees_all = true;
    fault
}

/// The sonar's packets of these flows, refused with this number where the generator's would be.
fn stopped(lent: &mut Lent, flows: &[u32], number: u64) -> u64 {
    if lent.number() == 0 {
        let mut book = judge(lent.state).unwrap();
        if let Some(full) = flows.iter().position(|&flow| book.offer_trial(flow).is_err()) {
            return refused(number, full);
        }
    }
    lent.right()
}

pub fn faults() -> Vec<Fault> {
    let mut faults: Vec<_> = slips(Call::OfferTrial(0), FAULTS).collect();
    faults.push(own_counted());
    for number in [13, 18] {
        let name = format!("stopped at 255 with {number}");
        faults.push(in_call(Call::Offer(0), &name, &[Answer], move |lent| match lent.call {
            Call::Offer(flow) => stopped(lent, &[flow], number),
            _ => lent.right(),
        }));
        faults.push(in_call(Call::OfferSet, &name, &[Answer], move |lent| {
            let list = lent.list.to_vec();
            stopped(lent, &list, number)
        }));
    }
    faults
}
