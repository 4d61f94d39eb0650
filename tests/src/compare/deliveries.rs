//! Deliveries made up for a plan: those that are, those that nearly are, and lists of them.

use crate::plan::Plan;
use crate::random::Random;

/// A delivery of a flow, whether or not it can be one. What is past 32 bits is lost; the serial is 0,
/// since none is asked for.
fn delivery(f: usize, entry: i64, exit: i64, d: i64) -> [u32; 5] {
    [f as u32, 0, entry as u32, exit as u32, d as u32]
}

/// Cycles from entry to exit.
fn span(plan: &Plan, f: usize, d: i64) -> i64 {
    plan.dx(f) + plan.dy(f) + d * plan.sx
}

/// Deliveries of a flow: without a deflection and with the most, entered first or left last.
pub fn good(plan: &Plan, f: usize) -> Vec<[u32; 5]> {
    let last = u32::MAX as i64;
    let ends = [0, plan.dy(f)].map(|d| {
        let span = span(plan, f, d);
        [delivery(f, 0, span, d), delivery(f, last - span, last, d)]
    });
    ends.concat()
}

/// A delivery of a flow, but for the flow's number: the first that isn't in the plan.
pub fn of_no_flow(plan: &Plan, f: usize) -> [u32; 5] {
    delivery(plan.flows.len(), 0, span(plan, f, 0), 0)
}

/// What nearly is a delivery of a flow. A few of them are.
pub fn nearly(plan: &Plan, f: usize) -> Vec<[u32; 5]> {
    let (dy, sx, last) = (plan.dy(f), plan.sx, u32::MAX as i64);
    let (least, most) = (span(plan, f, 0), span(plan, f, dy));
    let from = |entry: i64, span, d| delivery(f, entry, entry + span, d);
    // Times Sx, this many deflections are past 2^32.
    let many = (1 << 32) / sx + 1;
    vec![
        of_no_flow(plan, f),
        delivery(plan.flows.len() + 1, 9, 9 + least, 0),
        delivery(u32::MAX as usize, 9, 9 + least, 0),
        // D over ΔY, and the flight that it would have.
        from(9, span(plan, f, dy + 1), dy + 1),
        from(9, span(plan, f, many), many),
        // A flight too long or too short.
        from(9, most + 1, dy),
        from(9, most - 1, dy),
        from(9, most - sx, dy),
        from(9, most + dy * (plan.sy - sx), dy),
        from(9, least + sx, 0),
        from(9, least + 2, 0),
        from(9, least - 2, 0),
        // An exit past the last cycle, or before the entry.
        from(last, least, 0),
        from(last - most + 1, most, dy),
        from(9, -1, 0),
        from(9, -2, 0),
        from(99, -least, 0),
        from(99, -99, 0),
    ]
}

pub fn any_good(random: &mut Random, plan: &Plan) -> [u32; 5] {
    let f = random.index(plan.flows.len());
    good_of(random, plan, f)
}

/// A delivery of a flow with any D that it may have, and any serial.
pub fn good_of(random: &mut Random, plan: &Plan, f: usize) -> [u32; 5] {
    let d = random.from(0, plan.dy(f));
    let span = span(plan, f, d);
    let latest = u32::MAX as i64 - span;
    let entry = match random.from(0, 9) {
        0 => 0,
        1 => latest,
        2..6 => random.from(0, latest),
        _ => random.from(0, 1000),
    };
    let mut group = delivery(f, entry, entry + span, d);
    group[1] = random.word();
    group
}

/// Deliveries of a plan, few or many, seldom one that isn't, and some words behind.
pub fn list(random: &mut Random, plan: &Plan) -> Vec<u32> {
    let most = random.pick(&[0, 1, 3, 40, 300]);
    let mut list: Vec<_> = (0..random.from(0, most)).map(|_| any_good(random, plan)).collect();
    if random.percent(20) && !list.is_empty() {
        let choices = nearly(plan, random.index(plan.flows.len()));
        let at = random.index(list.len());
        list[at] = random.pick(&choices);
    }
    let mut list = list.concat();
    let behind = random.index(5);
    list.extend(random.words(behind));
    list
}
