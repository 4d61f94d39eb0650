//! Faults of the reasons that a step tells, each as what is told in place of the right one.

use super::simulator::{Fault, OneCall, in_call};
use second::book::{Book, Line, Router, Side};
use second::lent::{Call, Lent, Part};
use second::plan::Port;
use second::state::judge;
use std::cell::RefCell;

/// A cycle in which reasons are told: the books before and after it, the words that were lent for
/// reasons, and what is right to tell there.
pub struct Cycle {
    before: Book,
    after: Book,
    lent: Vec<u32>,
    right: Vec<u32>,
}

/// All pairs of reasons that may apply to one flow: the second is right.
pub const ORDERS: [(u32, u32); 9] =
    [(2, 1), (3, 1), (4, 1), (5, 1), (3, 2), (4, 2), (5, 2), (5, 3), (5, 4)];

/// The right call, but for what an accepted step tells to each flow.
fn telling(name: &str, word: impl Fn(&Cycle, usize) -> u32 + 'static) -> Fault {
    in_call(Call::StepReasons, name, &[Part::Reasons], move |lent: &mut Lent| {
        let (words, reasons) = (lent.state.to_vec(), lent.reasons.to_vec());
        lent.then(0, |lent| {
            let cycle = Cycle::new(&words, reasons);
            (0..cycle.right.len()).for_each(|flow| lent.reasons[flow] = word(&cycle, flow));
        })
    })
}

/// Every fault in what is told.
pub fn faults() -> Vec<Fault> {
    let mut faults: Vec<_> = FAULTS.iter().map(|&(name, word)| telling(name, word)).collect();
    for &(name, told, right, holds) in INSTEAD {
        faults.push(telling(name, move |cycle, flow| {
            cycle.but(flow, told, right, holds(cycle, flow))
        }));
    }
    for (told, right) in ORDERS {
        faults.push(telling(&format!("{told} before {right}"), move |cycle, flow| {
            cycle.but(flow, told, &[right], cycle.applies(flow, told))
        }));
    }
    let last = RefCell::new(Vec::new());
    faults.push(telling("the reasons of the step before", move |cycle, flow| {
        let mut last = last.borrow_mut();
        if last.len() != cycle.right.len() {
            *last = cycle.right.clone();
        }
        std::mem::replace(&mut last[flow], cycle.right[flow])
    }));
    faults
}

impl Cycle {
    fn new(words: &[u32], lent: Vec<u32>) -> Cycle {
        let before = judge(words).unwrap();
        let mut after = before.clone();
        let (_, right) = after.step_reasons(usize::MAX, lent.len()).unwrap();
        Cycle { before, after, lent, right }
    }

    fn port(&self, flow: usize) -> Port {
        self.before.plan.port(flow)
    }

    fn is_east(&self, flow: usize) -> bool {
        self.port(flow) == Port::East
    }

    fn waiting(&self, flow: usize) -> usize {
        self.before.waiting[flow].len()
    }

    fn tokens(&self, flow: usize) -> i64 {
        self.before.buckets[flow].tokens
    }

    /// A token comes in this cycle.
    fn refills(&self, flow: usize) -> bool {
        self.before.buckets[flow].count + 1 == self.before.plan.flows[flow].period
    }

    /// The packet in a register of the flow's router.
    fn held(&self, flow: usize, side: Side) -> Option<&Line> {
        let is_there = |line: &&Line| {
            line.place
                .is_some_and(|place| place.router == self.before.client(flow) && place.side == side)
        };
        self.before.lines.iter().find(is_there)
    }

    fn west(&self, flow: usize) -> bool {
        self.held(flow, Side::W).is_some()
    }

    fn north(&self, flow: usize) -> bool {
        self.held(flow, Side::N).is_some()
    }

    /// W's packet turns S.
    fn turns(&self, flow: usize) -> bool {
        let column = self.before.client(flow).column;
        self.held(flow, Side::W).is_some_and(|line| self.before.plan.flows[line.flow].xd == column)
    }

    /// The packet on this side is at its destination.
    fn leaves(&self, flow: usize, side: Side) -> bool {
        let client = self.before.client(flow);
        self.held(flow, side).is_some_and(|line| {
            let flow = &self.before.plan.flows[line.flow];
            (flow.xd, flow.yd) == (client.column, client.row)
        })
    }

    /// The packet that takes S leaves.
    fn exits(&self, flow: usize) -> bool {
        self.leaves(flow, if self.turns(flow) { Side::W } else { Side::N })
    }

    /// The flows of the flow's client.
    fn of_client(&self, flow: usize) -> impl Iterator<Item = usize> {
        let client = self.before.client(flow);
        (0..self.right.len()).filter(move |&other| self.before.client(other) == client)
    }

    /// The flow of its client that entered.
    fn entered(&self, flow: usize) -> Option<usize> {
        self.of_client(flow).find(|&other| self.right[other] == 0)
    }

    /// A lower-numbered flow of another client, for which this holds of both clients, entered.
    fn lower_elsewhere(&self, flow: usize, holds: fn(Router, Router) -> bool) -> bool {
        let client = self.before.client(flow);
        (0..flow).any(|lower| {
            let other = self.before.client(lower);
            other != client && holds(other, client) && self.right[lower] == 0
        })
    }

    /// Does a reason apply to a flow, whichever others do?
    fn applies(&self, flow: usize, reason: u32) -> bool {
        match reason {
            0 => self.right[flow] == 0,
            1 => self.waiting(flow) == 0,
            2 => self.tokens(flow) == 0,
            3 => self.is_east(flow) && self.west(flow),
            4 => !self.is_east(flow) && (self.turns(flow) || self.north(flow)),
            _ => self.entered(flow).is_some_and(|lower| lower < flow),
        }
    }

    /// The right reason, but for this flow's word, which is left.
    fn leaving(&self, flow: usize, left: usize) -> u32 {
        if flow == left { self.lent[flow] } else { self.right[flow] }
    }

    /// This reason where the right one is among these and this holds.
    fn but(&self, flow: usize, told: u32, right: &[u32], holds: bool) -> u32 {
        if holds && right.contains(&self.right[flow]) { told } else { self.right[flow] }
    }
}

/// A reason that is told in place of these where they are right and this holds.
const INSTEAD: &[(&str, u32, &[u32], fn(&Cycle, usize) -> bool)] = &[
    ("1 for the last packet, which entered", 1, &[0], |cycle, flow| cycle.waiting(flow) == 1),
    ("2 for the last token, which was spent", 2, &[0], |cycle, flow| cycle.tokens(flow) == 1),
    ("2 for the last token, spent by the last but one packet", 2, &[0], |cycle, flow| {
        cycle.tokens(flow) == 1 && cycle.waiting(flow) == 2
    }),
    ("5 for the flow that entered", 5, &[0], |_, _| true),
    ("4 for an entry by S", 4, &[0], |cycle, flow| !cycle.is_east(flow)),
    ("3 for an entry by E", 3, &[0], |cycle, flow| cycle.is_east(flow)),
    ("0 for a flow that could enter", 0, &[5], |_, _| true),
    ("1 with one packet waiting", 1, &[2, 3, 4, 5], |cycle, flow| cycle.waiting(flow) == 1),
    ("1 by the low byte of waiting", 1, &[2, 3, 4, 5], |cycle, flow| {
        cycle.waiting(flow) as u8 == 0
    }),
    ("2 with one token left", 2, &[3, 4, 5], |cycle, flow| cycle.tokens(flow) == 1),
    ("2 where the count is 0", 2, &[3, 4, 5], |cycle, flow| cycle.before.buckets[flow].count == 0),
    ("3 for a port S", 3, &[0, 4, 5], |cycle, flow| !cycle.is_east(flow) && cycle.west(flow)),
    ("3 for a port S where W turns", 3, &[4], |cycle, flow| {
        !cycle.is_east(flow) && cycle.turns(flow)
    }),
    ("3 by N", 3, &[0, 5], |cycle, flow| cycle.is_east(flow) && cycle.north(flow)),
    ("3 by the entry of a lower flow", 3, &[5], |cycle, flow| cycle.is_east(flow)),
    ("3 not by a packet that turns", 5, &[3], |cycle, flow| cycle.turns(flow)),
    ("3 not by a packet that goes on", 5, &[3], |cycle, flow| !cycle.turns(flow)),
    ("0 for a port E where W turns", 0, &[3], |cycle, flow| cycle.turns(flow)),
    ("4 for a port E where W turns", 4, &[3], |cycle, flow| cycle.turns(flow)),
    ("4 for a port E where N goes S", 4, &[0, 5], |cycle, flow| {
        cycle.is_east(flow) && cycle.north(flow)
    }),
    ("4 not by W", 5, &[4], |cycle, flow| cycle.turns(flow) && !cycle.north(flow)),
    ("4 not by N", 5, &[4], |cycle, flow| !cycle.turns(flow)),
    ("4 not where N is deflected", 5, &[4], |cycle, flow| cycle.turns(flow) && cycle.north(flow)),
    ("4 not by an exit", 5, &[4], |cycle, flow| cycle.exits(flow)),
    ("4 not by an exit from W", 5, &[4], |cycle, flow| cycle.turns(flow) && cycle.exits(flow)),
    ("4 not by an exit from N", 5, &[4], |cycle, flow| !cycle.turns(flow) && cycle.exits(flow)),
    ("0 for an exit from N", 0, &[4], |cycle, flow| !cycle.turns(flow) && cycle.exits(flow)),
    ("4 by an exit alone", 5, &[4], |cycle, flow| !cycle.exits(flow)),
    ("4 not for a flow to its own client", 5, &[4], |cycle, flow| cycle.before.plan.dy(flow) == 0),
    ("4 by a W packet that doesn't turn", 4, &[0, 5], |cycle, flow| {
        !cycle.is_east(flow) && cycle.west(flow)
    }),
    ("4 by the entry of a lower flow", 4, &[5], |cycle, flow| !cycle.is_east(flow)),
    ("5 by a flow of another client", 5, &[1, 2, 3, 4], |cycle, flow| {
        cycle.lower_elsewhere(flow, |_, _| true)
    }),
    ("5 by a flow of the same column", 5, &[3, 4], |cycle, flow| {
        cycle.lower_elsewhere(flow, |a, b| a.column == b.column)
    }),
    ("5 by a flow of the same row", 5, &[3, 4], |cycle, flow| {
        cycle.lower_elsewhere(flow, |a, b| a.row == b.row)
    }),
    ("5 by the client's first flow alone", 0, &[5], |cycle, flow| {
        cycle.entered(flow) != cycle.of_client(flow).next()
    }),
    ("6 for a lower flow's entry", 6, &[5], |_, _| true),
];

/// What is told to a flow in a cycle.
const FAULTS: &[(&str, fn(&Cycle, usize) -> u32)] = &[
    ("reasons from 1", |cycle, flow| cycle.right[flow] + 1),
    ("0 for every flow", |_, _| 0),
    ("a bit for each reason that applies", |cycle, flow| {
        (0..6).map(|reason| (cycle.applies(flow, reason) as u32) << reason).sum()
    }),
    ("the last that applies", |cycle, flow| {
        (0..6).rev().find(|&reason| cycle.applies(flow, reason)).unwrap()
    }),
    ("the flow before's reason", |cycle, flow| cycle.right[flow.saturating_sub(1)]),
    ("the next flow's reason", |cycle, flow| cycle.right[(flow + 1).min(cycle.right.len() - 1)]),
    ("reasons from the last flow on", |cycle, flow| cycle.right[cycle.right.len() - 1 - flow]),
    ("one reason for all flows of a client", |cycle, flow| {
        cycle.right[cycle.of_client(flow).next().unwrap()]
    }),
    ("judged on the state after the step", |cycle, flow| {
        let after = cycle.after.clone().step_reasons(usize::MAX, cycle.lent.len());
        after.map_or(cycle.right[flow], |(_, told)| told[flow])
    }),
    ("1 for an entry that leaves at once", |cycle, flow| {
        let flow_of = &cycle.before.plan.flows[flow];
        let own = (flow_of.xs, flow_of.ys) == (flow_of.xd, flow_of.yd);
        cycle.but(flow, 1, &[0], own)
    }),
    ("2 where the bucket isn't full", |cycle, flow| {
        let full = cycle.before.plan.flows[flow].burst;
        cycle.but(flow, 2, &[3, 4, 5], cycle.tokens(flow) < full)
    }),
    ("2 by the tokens after the cycle's count", |cycle, flow| {
        let next = (3..6).find(|&reason| cycle.applies(flow, reason));
        cycle.but(flow, next.unwrap_or(0), &[2], cycle.refills(flow))
    }),
    ("3 and 4 for each other", |cycle, flow| match cycle.right[flow] {
        3 => 4,
        4 => 3,
        right => right,
    }),
    ("3 and 4 by ΔY", |cycle, flow| {
        let told = if cycle.before.plan.dy(flow) > 0 { 4 } else { 3 };
        cycle.but(flow, told, &[3, 4], true)
    }),
    ("4 by the entry of a lower flow by S", |cycle, flow| {
        let by_south = cycle.entered(flow).is_some_and(|lower| !cycle.is_east(lower));
        cycle.but(flow, 4, &[5], by_south && !cycle.is_east(flow))
    }),
    ("5 by a higher-numbered flow", |cycle, flow| {
        let higher = cycle.entered(flow).is_some_and(|other| other > flow);
        cycle.but(flow, 5, &[1, 2, 3, 4], higher)
    }),
    ("5 by a lower flow that waits", |cycle, flow| {
        let lower = cycle.of_client(flow).any(|lower| lower < flow && cycle.waiting(lower) > 0);
        cycle.but(flow, 5, &[3, 4], lower)
    }),
    ("5 by a flow of the same port alone", |cycle, flow| {
        let other_port = cycle.entered(flow).is_some_and(|l| cycle.port(l) != cycle.port(flow));
        cycle.but(flow, 0, &[5], other_port)
    }),
    ("5 by a flow of the other port alone", |cycle, flow| {
        let same_port = cycle.entered(flow).is_some_and(|l| cycle.port(l) == cycle.port(flow));
        cycle.but(flow, 0, &[5], same_port)
    }),
    ("an entered flow's word left", |cycle, flow| cycle.but(flow, cycle.lent[flow], &[0], true)),
    ("the word of a flow without packets left", |cycle, flow| {
        cycle.but(flow, cycle.lent[flow], &[1], true)
    }),
    ("the first flow's word left", |cycle, flow| cycle.leaving(flow, 0)),
    ("the last flow's word left", |cycle, flow| cycle.leaving(flow, cycle.right.len() - 1)),
    ("flow 255's word left", |cycle, flow| cycle.leaving(flow, 255)),
    ("the low byte of a word alone", |cycle, flow| cycle.lent[flow] & !0xFF | cycle.right[flow]),
    ("the low two bytes of a word alone", |cycle, flow| {
        cycle.lent[flow] & !0xFFFF | cycle.right[flow]
    }),
    ("added to the lent word", |cycle, flow| cycle.lent[flow].wrapping_add(cycle.right[flow])),
];
