//! Faults of the window, the flight bound and the notes.

use super::records;
use super::simulator::{Fault, OneCall, Slip, in_call, slips};
use second::lent::Part::Answer;
use second::lent::{Call, Lent};
use second::plan::{Flow, MOST_BYTES, Plan, TRAILER, read};
use second::slips::rows::RowSlip;
use second::slips::{Slip as WindowSlip, refuted};
use second::turning::{most_deflections, turning_for};
use second::window::{Rival, interference, least, rivals, window_call};

const FLIGHT: Call = Call::Flight(0);
const WINDOW: Call = Call::Window(0);

/// The plan and the flow's number, where the call is accepted.
fn accepted(lent: &Lent) -> Option<(Plan, usize)> {
    let (Call::Flight(flow) | Call::Window(flow)) = lent.call else {
        return None;
    };
    let (plan, _) = read(lent.file).ok()?;
    (lent.number() == 0).then_some((plan, flow as usize))
}

/// A window as its call returns it.
fn returned(t: Option<i64>) -> u64 {
    t.map_or(65_536 + 14, |t| t as u64)
}

/// T of a flow with other shares of its rivals in I(t).
fn shared(lent: &mut Lent, share: fn(&Rival, u32) -> u32) -> u64 {
    let Some((plan, f)) = accepted(lent) else {
        return lent.right();
    };
    let rivals = rivals(&plan, f);
    returned(least(|t| rivals.iter().map(|rival| share(rival, t)).sum::<u32>() < t))
}

/// What a search for B of k packets, or T of one, finds that goes on behind 65,535.
pub fn past_the_last(plan: &Plan, f: usize, k: i64) -> Option<i64> {
    let rivals = rivals(plan, f);
    (65_536..66_000).find(|&t| interference(&rivals, t) + k as u32 <= t).map(i64::from)
}

/// The flight bound of an accepted call, by this.
fn bound(lent: &mut Lent, bound: impl Fn(&Plan, usize) -> i64) -> u64 {
    match accepted(lent) {
        Some((plan, f)) => bound(&plan, f) as u64,
        None => lent.right(),
    }
}

/// The flight bound with other offsets.
fn flown(lent: &mut Lent, offsets: fn(&Plan, usize) -> (i64, i64)) -> u64 {
    bound(lent, |plan, f| {
        let (dx, dy) = offsets(plan, f);
        dx + dy + turning_for(plan, f, dy) * plan.sx + 2
    })
}

/// The remainder of a 32-bit difference that wraps where it passes below 0: right only where the
/// size is a power of two.
fn wrapped(from: i64, to: i64, size: i64) -> i64 {
    ((to as u32).wrapping_sub(from as u32) % size as u32) as i64
}

const FLIGHTS: &[Slip] = &[
    ("columns of a difference that wraps", Answer, |lent| {
        flown(lent, |plan, f| (wrapped(plan.flows[f].xs, plan.flows[f].xd, plan.sx), plan.dy(f)))
    }),
    ("rows of a difference that wraps", Answer, |lent| {
        flown(lent, |plan, f| (plan.dx(f), wrapped(plan.flows[f].ys, plan.flows[f].yd, plan.sy)))
    }),
    ("columns counted round Sy", Answer, |lent| {
        flown(lent, |plan, f| {
            let Flow { xs, xd, .. } = plan.flows[f];
            ((xd - xs).rem_euclid(plan.sy), plan.dy(f))
        })
    }),
    ("rows counted northward", Answer, |lent| {
        flown(lent, |plan, f| {
            let Flow { ys, yd, .. } = plan.flows[f];
            (plan.dx(f), (ys - yd).rem_euclid(plan.sy))
        })
    }),
    ("Sy charged for a deflection", Answer, |lent| {
        bound(lent, |plan, f| plan.dx(f) + plan.dy(f) + most_deflections(plan, f) * plan.sy + 2)
    }),
    ("counted as exit - entry", Answer, |lent| flown(lent, |plan, f| (plan.dx(f) - 2, plan.dy(f)))),
    ("a flow too many", Answer, |lent| match lent.call {
        Call::Flight(flow) if lent.number() == 12 => {
            Lent { call: Call::Flight(flow - 1), ..lent.again() }.right()
        }
        _ => lent.right(),
    }),
];

const WINDOWS: &[Slip] = &[
    ("the ceiling of t+J", Answer, |lent| {
        shared(lent, |rival, t| rival.burst + (t + rival.spread).div_ceil(rival.period))
    }),
    ("the floor and one more for the ceiling", Answer, |lent| {
        shared(lent, |rival, t| rival.burst + (t - 1 + rival.spread) / rival.period + 1)
    }),
    ("no window answered as 65,535", Answer, |lent| lent.but(14, 65_535, |_| true)),
    ("a search past the last window", Answer, |lent| match lent.call {
        Call::Window(flow) if lent.number() == 14 => {
            let (plan, _) = read(lent.file).unwrap();
            returned(past_the_last(&plan, flow as usize, 1))
        }
        _ => lent.right(),
    }),
    ("the last window not found", Answer, |lent| match lent.right() {
        65_535 => returned(None),
        answer => answer,
    }),
    ("14 by rates of the period's low two bytes", Answer, |lent| {
        let rate = |rival: &Rival| (1 << 31) / (rival.period % 65_536).max(1) as u64;
        let filled = accepted(lent)
            .is_some_and(|(plan, f)| rivals(&plan, f).iter().map(rate).sum::<u64>() >= 1 << 31);
        if filled { returned(None) } else { lent.right() }
    }),
    ("a refusal below 65,536", Answer, |lent| lent.right() % 65_536),
    ("the place for the number", Answer, |lent| match lent.call {
        Call::Window(flow) => window_call(lent.file, flow).unwrap_or_else(|no| 65_536 + no.place),
        _ => lent.right(),
    }),
];

/// Faults that each of the bounds may have.
pub const READ: &[Slip] = &[
    ("a byte too many taken", Answer, |lent| {
        let cut = lent.file.len().saturating_sub(MOST_BYTES).min(1);
        let mut file = lent.file[cut..].to_vec();
        Lent { file: &mut file, ..lent.again() }.right()
    }),
    ("a start that wraps", Answer, |lent| {
        lent.but(5, 0, |lent| {
            let (body, trailer) = lent.file.split_at(lent.file.len() - TRAILER);
            let start = u32::from_le_bytes(trailer[..4].try_into().unwrap());
            let count = u16::from_le_bytes(trailer[4..6].try_into().unwrap()) as u32;
            start.wrapping_add(8 * count) == body.len() as u32
        })
    }),
];

const NOTES: &[Slip] = &[("notes up to the trailer", Answer, |lent| {
    let end = lent.file.len().saturating_sub(TRAILER) as u64;
    if lent.number() == 0 { end } else { lent.right() }
})];

pub fn faults() -> Vec<Fault> {
    let mut faults: Vec<_> = slips(FLIGHT, FLIGHTS).collect();
    faults.extend(slips(WINDOW, WINDOWS).chain(slips(Call::Notes, NOTES)));
    for call in [Call::Notes, FLIGHT, WINDOW] {
        faults.extend(slips(call, READ));
    }
    faults.extend(records::of_call(WINDOW, &[Answer]));
    for slip in window_slips() {
        faults.push(in_call(WINDOW, format!("{slip:?}"), &[Answer], move |lent| {
            match (lent.call, read(lent.file)) {
                (Call::Window(flow), Ok((plan, _))) if (flow as usize) < plan.flows.len() => {
                    returned(slip.window(&plan, flow as usize))
                }
                _ => lent.right(),
            }
        }));
    }
    faults.extend(RowSlip::OF_FLIGHTS.map(|slip| {
        in_call(FLIGHT, format!("{slip:?}"), &[Answer], move |lent| {
            bound(lent, |plan, f| slip.flight_bound(plan, f))
        })
    }));
    faults
}

/// The slips of windows: those that lists refute, and those that only make windows larger.
pub fn window_slips() -> impl Iterator<Item = WindowSlip> {
    let refuted = refuted().into_iter().map(|row| row.slip);
    refuted.chain(RowSlip::LARGER.map(WindowSlip::Rows))
}
