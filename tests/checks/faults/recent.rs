//! Faults of recent flights, each as a call with that fault in it.

use super::simulator::{OneCall, Slip, refused};
use second::lent::Part::{Answer, Records};
use second::lent::{Call, Lent};
use second::plan::Plan;
use second::recent::{Kept, Record, feed, flight, groups, held, holding, is_of_plan};
use second::state::judge;
use second::turning::most_deflections;

/// The deliveries kept at most.
fn last(lent: &Lent) -> u32 {
    if let Call::Recent(last) = lent.call { last } else { 0 }
}

/// The call with each delivery kept in this way.
fn kept_by(lent: &mut Lent, keep: impl Fn(&mut Record, Kept, usize)) -> u64 {
    let (answer, last) = (lent.answer(), last(lent) as usize);
    if answer == 0 {
        for group in groups(lent.deliveries) {
            let kept = (flight(group) as u32, group[4]);
            keep(&mut lent.records[group[0] as usize], kept, last);
        }
    }
    answer
}

/// The call with each delivery kept as it should be, and then this, by what the record was.
fn kept_and(lent: &mut Lent, then: impl Fn(&mut Record, &Record, Kept, usize)) -> u64 {
    kept_by(lent, |record, kept, last| {
        let old = *record;
        keep(record, kept, last);
        then(record, &old, kept, last);
    })
}

/// The call with each delivery of a flow in the plan judged in this way.
fn judged_by(lent: &mut Lent, is_right: impl Fn(&Plan, [u32; 5]) -> bool) -> u64 {
    let answer = lent.answer();
    if ![0, 12].contains(&(answer >> 32)) {
        return answer;
    }
    let plan = judge(lent.state).unwrap().plan;
    let is_right =
        |&group: &[u32; 5]| (group[0] as usize) < plan.flows.len() && is_right(&plan, group);
    if !groups(lent.deliveries).iter().all(is_right) {
        return refused(12, 0);
    }
    feed_all(lent, |_| true);
    0
}

/// The call with the flight of D deflections judged in this way, and D as it should be.
fn flight_by(lent: &mut Lent, is_right: impl Fn(&Plan, [u32; 5], i64) -> bool) -> u64 {
    judged_by(lent, |plan, group| {
        let (dy, d) = (plan.dy(group[0] as usize), group[4] as i64);
        d <= dy && is_right(plan, group, d)
    })
}

/// Feeds the deliveries for which this holds.
fn feed_all(lent: &mut Lent, fed: impl FnMut(&[u32; 5]) -> bool) {
    let last = last(lent) as usize;
    for group in groups(lent.deliveries).into_iter().filter(fed) {
        feed(lent.records, group, last);
    }
}

/// The call with other deliveries.
fn reading(lent: &mut Lent, mut deliveries: Vec<u32>) -> u64 {
    Lent { deliveries: &mut deliveries, ..lent.again() }.right()
}

/// The call with another L where it is this one.
fn taking(lent: &mut Lent, this: u32, other: u32) -> u64 {
    let call = if last(lent) == this { Call::Recent(other) } else { lent.call };
    Lent { call, ..lent.again() }.right()
}

fn has_good_l(lent: &Lent) -> bool {
    (1..=16).contains(&last(lent))
}

fn flows(lent: &Lent) -> usize {
    lent.state[2] as usize
}

/// Keeps a delivery as it should be.
fn keep(record: &mut Record, kept: Kept, last: usize) {
    let mut all = held(record, last);
    all.push(kept);
    *record = holding(&all[all.len().saturating_sub(last)..]);
}

/// Puts back what stood in these places of a record.
fn put_back(record: &mut Record, old: &Record, places: std::ops::Range<usize>) {
    record.flights[places.clone()].copy_from_slice(&old.flights[places.clone()]);
    record.deflections[places.clone()].copy_from_slice(&old.deflections[places]);
}

/// ΔX + ΔY of a group's flow.
fn offsets(plan: &Plan, group: [u32; 5]) -> i64 {
    plan.dx(group[0] as usize) + plan.dy(group[0] as usize)
}

pub const FAULTS: &[Slip] = &[
    ("the newest dropped, not the oldest", Records, |lent| {
        kept_by(lent, |record, kept, last| match held(record, last).len() == last {
            true => *record = holding(&held(record, last)),
            false => keep(record, kept, last),
        })
    }),
    ("zeros not put behind", Records, |lent| {
        kept_and(lent, |record, old, _, _| put_back(record, old, record.held as usize..16))
    }),
    ("zeros up to L alone", Records, |lent| {
        kept_and(lent, |record, old, _, last| put_back(record, old, last..16))
    }),
    ("a maximum that stays when its flight has gone", Records, |lent| {
        kept_and(lent, |record, old, _, last| {
            if *old == holding(&held(old, last)) {
                record.longest = record.longest.max(old.longest);
            }
        })
    }),
    ("a maximum of deflections that stays when its packet has gone", Records, |lent| {
        kept_and(lent, |record, old, _, last| {
            if *old == holding(&held(old, last)) {
                record.most = record.most.max(old.most);
            }
        })
    }),
    ("a caller's maximum believed", Records, |lent| {
        kept_and(lent, |record, old, kept, last| {
            if held(old, last).len() < last && old.held > 0 && old.held as usize <= last {
                record.longest = old.longest.max(kept.0);
            }
        })
    }),
    ("a record that says more than L kept", Records, |lent| {
        kept_by(lent, |record, kept, last| {
            record.held = record.held.min(last as u32);
            keep(record, kept, last);
        })
    }),
    ("a record that says L taken as empty", Records, |lent| {
        kept_by(lent, |record, kept, last| {
            record.held = if record.held as usize == last { 0 } else { record.held };
            keep(record, kept, last);
        })
    }),
    ("a record that says more than L emptied without a delivery", Records, |lent| {
        if lent.answer() == 0 {
            let (last, flows) = (last(lent), flows(lent));
            let records = lent.records[..flows].iter_mut().filter(|record| record.held > last);
            records.for_each(|record| *record = Record::default());
        }
        lent.right()
    }),
    ("a flight without its 2", Records, |lent| {
        kept_by(lent, |record, (flight, d), last| keep(record, (flight - 2, d), last))
    }),
    ("flight and deflections exchanged", Records, |lent| {
        kept_by(lent, |record, (flight, d), last| keep(record, (d, flight), last))
    }),
    ("groups fed before a later one is refused", Records, |lent| {
        lent.then(12, |lent| {
            let plan = judge(lent.state).unwrap().plan;
            let mut good = true;
            feed_all(lent, |&group| {
                good &= is_of_plan(&plan, group);
                good
            });
        })
    }),
    ("a wrong delivery passed over", Answer, |lent| {
        if lent.number() != 12 {
            return lent.right();
        }
        let plan = judge(lent.state).unwrap().plan;
        feed_all(lent, |&group| is_of_plan(&plan, group));
        0
    }),
    ("the last group fed first", Records, |lent| {
        let deliveries = groups(lent.deliveries).into_iter().rev().flatten().collect();
        reading(lent, deliveries)
    }),
    ("only the first L groups read", Answer, |lent| {
        let groups = if has_good_l(lent) { last(lent) as usize } else { lent.deliveries.len() };
        let most = lent.deliveries.len().min(5 * groups);
        reading(lent, lent.deliveries[..most].to_vec())
    }),
    ("a broken last group read", Answer, |lent| {
        let mut deliveries = lent.deliveries.to_vec();
        deliveries.resize(deliveries.len().next_multiple_of(5), 0);
        reading(lent, deliveries)
    }),
    ("a last group that isn't broken left out", Records, |lent| {
        let most = lent.deliveries.len().saturating_sub(1);
        reading(lent, lent.deliveries[..most].to_vec())
    }),
    ("D compared with ΔX", Answer, |lent| {
        judged_by(lent, |plan, group| {
            let (dx, d) = (plan.dx(group[0] as usize), group[4] as i64);
            d <= dx && flight(group) == offsets(plan, group) + d * plan.sx + 2
        })
    }),
    ("D compared with the turning rows", Answer, |lent| {
        judged_by(lent, |plan, group| {
            let most = most_deflections(plan, group[0] as usize);
            is_of_plan(plan, group) && group[4] as i64 <= most
        })
    }),
    ("D not compared", Answer, |lent| {
        judged_by(lent, |plan, group| {
            flight(group) == offsets(plan, group) + group[4] as i64 * plan.sx + 2
        })
    }),
    ("Sy charged for a deflection", Answer, |lent| {
        flight_by(lent, |plan, group, d| flight(group) == offsets(plan, group) + d * plan.sy + 2)
    }),
    ("a flight that is too short taken", Answer, |lent| {
        flight_by(lent, |plan, group, d| flight(group) <= offsets(plan, group) + d * plan.sx + 2)
    }),
    ("flight by wrapping 32-bit numbers", Answer, |lent| {
        flight_by(lent, |plan, group, d| {
            let flight = group[3].wrapping_sub(group[2]).wrapping_add(2) as i64;
            flight == offsets(plan, group) + d * plan.sx + 2
        })
    }),
    ("an exit after the clock refused", Answer, |lent| {
        let clock = lent.state.get(3).copied().unwrap_or(0);
        judged_by(lent, |plan, group| is_of_plan(plan, group) && group[3] < clock)
    }),
    ("serial 0 refused", Answer, |lent| {
        judged_by(lent, |plan, group| is_of_plan(plan, group) && group[1] > 0)
    }),
    ("L 17 taken as 16", Answer, |lent| taking(lent, 17, 16)),
    ("L 0 taken as 16", Answer, |lent| taking(lent, 0, 16)),
    ("more records than flows refused", Answer, |lent| {
        lent.but(0, refused(16, 0), |lent| lent.records.len() > flows(lent))
    }),
    ("nothing checked without a delivery", Answer, |lent| {
        if lent.deliveries.len() < 5 { 0 } else { lent.right() }
    }),
];
