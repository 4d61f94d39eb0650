//! Faults of the burst call: in the packets that it takes, in the window that it searches, and in the order of its
//! refusals.

use super::bounds::{READ, past_the_last, window_slips};
use super::records;
use super::simulator::{Fault, OneCall, Slip, in_call, refused, slips};
use second::lent::Part::Answer;
use second::lent::{Call, Lent};
use second::plan::{Plan, read};
use second::window::{Rival, burst, interference, least_burst, rivals, window};

const BURST: Call = Call::Burst(0, 0);

/// The plan, the flow and the packets, where the flow is one of the plan.
fn named(lent: &Lent) -> Option<(Plan, usize, i64)> {
    let Call::Burst(flow, packets) = lent.call else {
        return None;
    };
    let (plan, _) = read(lent.file).ok()?;
    ((flow as usize) < plan.flows.len()).then_some((plan, flow as usize, packets.into()))
}

/// Some window, as the call returns it.
fn returned(window: Option<i64>, f: usize) -> u64 {
    window.map_or(refused(14, f), |t| t as u64)
}

/// The window found by this, where the packets are taken.
fn by(lent: &mut Lent, find: impl Fn(&Plan, usize, i64) -> Option<i64>) -> u64 {
    within(lent, of, find)
}

/// The window found by this, where there are packets, and no more than these.
fn within(
    lent: &mut Lent,
    most: impl Fn(&Plan, usize) -> i64,
    find: impl Fn(&Plan, usize, i64) -> Option<i64>,
) -> u64 {
    match named(lent) {
        Some((plan, f, k)) if !(1..=most(&plan, f)).contains(&k) => refused(20, 0),
        Some((plan, f, k)) => returned(find(&plan, f, k), f),
        None => lent.right(),
    }
}

/// No more packets taken than these.
fn most(lent: &mut Lent, most: impl Fn(&Plan, usize) -> i64) -> u64 {
    within(lent, most, burst)
}

/// So many packets read from the number.
fn read_as(lent: &mut Lent, packets: fn(u32) -> u32) -> u64 {
    match lent.call {
        Call::Burst(flow, k) => {
            Lent { call: Call::Burst(flow, packets(k)), ..lent.again() }.right()
        }
        _ => lent.right(),
    }
}

/// The burst of a flow.
fn of(plan: &Plan, f: usize) -> i64 {
    plan.flows[f].burst
}

/// 14 in place of 20, where this finds nothing.
fn searched_first(lent: &mut Lent, find: fn(&Plan, usize, i64) -> Option<i64>) -> u64 {
    match named(lent) {
        Some((plan, f, k)) if find(&plan, f, k).is_none() => refused(14, f),
        _ => lent.right(),
    }
}

/// Half of the windows that are left is passed over at each turn.
fn by_halves(plan: &Plan, f: usize, k: i64) -> Option<i64> {
    let rivals = rivals(plan, f);
    let (mut low, mut high) = (1, 65_536);
    while low < high {
        let t = (low + high) / 2;
        if interference(&rivals, t) + k as u32 <= t { high = t } else { low = t + 1 }
    }
    (low <= 65_535).then_some(low.into())
}

/// From a t that is none to this one.
fn by_leaps(plan: &Plan, f: usize, k: i64, next: fn(u32, u32) -> u32) -> Option<i64> {
    let rivals = rivals(plan, f);
    let (mut t, k) = (1, k as u32);
    while t <= 65_535 {
        let demand = interference(&rivals, t);
        if demand + k <= t {
            return Some(t.into());
        }
        t = next(demand, k);
    }
    None
}

const FAULTS: &[Slip] = &[
    ("I(t) + k below t", Answer, |lent| by(lent, |plan, f, k| burst(plan, f, k + 1))),
    ("T for every k", Answer, |lent| by(lent, |plan, f, _| window(plan, f))),
    ("T and a cycle for each packet more", Answer, |lent| {
        by(lent, |plan, f, k| Some(window(plan, f)? + k - 1))
    }),
    ("k times T", Answer, |lent| by(lent, |plan, f, k| Some(window(plan, f)? * k))),
    ("T and P for each packet more", Answer, |lent| {
        by(lent, |plan, f, k| Some(window(plan, f)? + (k - 1) * plan.flows[f].period))
    }),
    ("k times P+T-1", Answer, |lent| {
        by(lent, |plan, f, k| Some((window(plan, f)? + plan.flows[f].period - 1) * k))
    }),
    ("all of the bucket", Answer, |lent| by(lent, |plan, f, _| burst(plan, f, of(plan, f)))),
    ("its own share counted too", Answer, |lent| {
        by(lent, |plan, f, k| {
            let (burst, period) = (of(plan, f) as u32, plan.flows[f].period as u32);
            let mut all = rivals(plan, f);
            all.push(Rival { burst, period, spread: 0 });
            least_burst(&all, k)
        })
    }),
    ("no window answered as 65,535", Answer, |lent| lent.but(14, 65_535, |_| true)),
    ("the last window not found", Answer, |lent| {
        by(lent, |plan, f, k| burst(plan, f, k).filter(|&t| t < 65_535))
    }),
    ("a search past the last window", Answer, |lent| {
        by(lent, |plan, f, k| burst(plan, f, k).or_else(|| past_the_last(plan, f, k)))
    }),
    ("halves of the windows passed over", Answer, |lent| by(lent, by_halves)),
    ("a leap too far by one", Answer, |lent| {
        by(lent, |plan, f, k| by_leaps(plan, f, k, |demand, k| demand + k + 1))
    }),
    ("leaps of twice the packets", Answer, |lent| {
        by(lent, |plan, f, k| by_leaps(plan, f, k, |demand, k| demand + 2 * k))
    }),
    ("no packets taken", Answer, |lent| match named(lent) {
        Some((plan, f, 0)) => returned(burst(&plan, f, 0), f),
        _ => lent.right(),
    }),
    ("no packets taken for one", Answer, |lent| read_as(lent, |k| k.max(1))),
    ("one packet too many taken", Answer, |lent| most(lent, |plan, f| of(plan, f) + 1)),
    ("a bucket never emptied", Answer, |lent| most(lent, |plan, f| of(plan, f) - 1)),
    ("255 packets taken of any flow", Answer, |lent| most(lent, |_, _| 255)),
    ("the burst of flow 0", Answer, |lent| most(lent, |plan, _| of(plan, 0))),
    ("the burst of the flow before", Answer, |lent| {
        most(lent, |plan, f| of(plan, f.saturating_sub(1)))
    }),
    ("the largest burst", Answer, |lent| {
        most(lent, |plan, _| (0..plan.flows.len()).map(|f| of(plan, f)).max().unwrap())
    }),
    ("the packets' low byte", Answer, |lent| read_as(lent, |k| k % 256)),
    ("the packets' low two bytes", Answer, |lent| read_as(lent, |k| k % 65_536)),
    ("the packets' top bit lost", Answer, |lent| read_as(lent, |k| k & !(1 << 31))),
    ("the flow as the place of 20", Answer, |lent| match lent.call {
        Call::Burst(flow, _) => lent.but(20, refused(20, flow as usize), |_| true),
        _ => lent.right(),
    }),
    ("14 before 20 of a flow without T", Answer, |lent| {
        searched_first(lent, |plan, f, _| window(plan, f))
    }),
    ("14 before 20 of too many packets", Answer, |lent| {
        searched_first(lent, |plan, f, k| burst(plan, f, k.min(65_536)))
    }),
    ("20 of no packets before the plan is read", Answer, |lent| match lent.call {
        Call::Burst(_, 0) => refused(20, 0),
        _ => lent.right(),
    }),
    ("a refusal as the window returns it", Answer, |lent| match lent.number() {
        0 => lent.right(),
        number => 65_536 + number,
    }),
    ("a flow too many", Answer, |lent| match lent.call {
        Call::Burst(flow, k) if lent.number() == 12 => {
            Lent { call: Call::Burst(flow - 1, k), ..lent.again() }.right()
        }
        _ => lent.right(),
    }),
    ("the flow's low byte", Answer, |lent| match lent.call {
        Call::Burst(flow, k) => Lent { call: Call::Burst(flow % 256, k), ..lent.again() }.right(),
        _ => lent.right(),
    }),
];

pub fn faults() -> Vec<Fault> {
    let mut faults: Vec<_> = slips(BURST, FAULTS).chain(slips(BURST, READ)).collect();
    faults.extend(records::of_call(BURST, &[Answer]));
    faults.extend(window_slips().map(|slip| {
        in_call(BURST, format!("{slip:?}"), &[Answer], move |lent| {
            by(lent, |plan, f, k| slip.burst(plan, f, k))
        })
    }));
    faults
}
