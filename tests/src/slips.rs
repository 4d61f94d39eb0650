//! Slips that a router hand would make in the window, of one packet or of a burst, each with a small plan that refutes
//! it: some list of offers makes a lone packet wait longer than the slipped T allows.

mod refuted;
pub mod rows;

use crate::plan::{Plan, Port};
use crate::window::{Rival, interference, least, least_burst, rivals_by, spread};
pub use refuted::{MetBurst, Refuted, met_bursts, met_exactly, met_late, refuted};
use rows::RowSlip;

#[derive(Clone, Copy, Debug, PartialEq, Eq)]
pub enum Slip {
    /// J = 0 for all: a flow downstream counted by its source curve.
    NoSpread,
    /// One in the turning rows.
    Rows(RowSlip),
    /// Port S: r < ΔY of g, as though the exit didn't share S.
    LastRowSpared,
    /// A flow of the same client that uses the other port isn't counted.
    OtherPortIgnored,
    /// Port E: a packet that turns S at f's router isn't counted.
    TurningIgnored,
    /// Port E: packets of other rows, which come by when deflected, aren't counted.
    OtherRowsIgnored,
    /// Sy for Sx in the spread.
    SyForSx,
    /// I(t) ≤ t in place of I(t) < t, or one packet less of a burst.
    EqualAllowed,
    /// 01's own curve, σ + ⌊(t−1+J)/P⌋, with U3's regulator.
    FloorForCeiling,
}

impl Slip {
    /// The spread of g at f's source with this slip.
    fn spread(self, plan: &Plan, f: usize, g: usize) -> Option<i64> {
        if let Slip::Rows(slip) = self {
            return slip.spread(plan, f, g);
        }
        let right = spread(plan, f, g)?;
        let (source, rival) = (&plan.flows[f], &plan.flows[g]);
        let r = (source.ys - rival.ys).rem_euclid(plan.sy);
        let same_client = (source.xs, source.ys) == (rival.xs, rival.ys);
        let passing = |port| plan.port(f) == port && !same_client;
        let counted = match self {
            Slip::LastRowSpared => !(passing(Port::South) && r == plan.dy(g)),
            Slip::OtherPortIgnored => !(same_client && plan.port(f) != plan.port(g)),
            Slip::TurningIgnored => !(passing(Port::East) && rival.xd == source.xs),
            Slip::OtherRowsIgnored => !(passing(Port::East) && r > 0),
            _ => true,
        };
        let spread = match self {
            Slip::NoSpread => 0,
            Slip::SyForSx => right / plan.sx * plan.sy,
            _ => right,
        };
        counted.then_some(spread)
    }

    /// T of flow f with this slip.
    pub fn window(self, plan: &Plan, f: usize) -> Option<i64> {
        self.burst(plan, f, 1)
    }

    /// B of k packets of flow f with this slip.
    pub fn burst(self, plan: &Plan, f: usize, k: i64) -> Option<i64> {
        let rivals: Vec<Rival> = rivals_by(plan, |g| self.spread(plan, f, g));
        let floor = |t| rivals.iter().map(|r| r.burst + (t - 1 + r.spread) / r.period).sum::<u32>();
        match self {
            Slip::EqualAllowed => least(|t| interference(&rivals, t) + k as u32 <= t + 1),
            Slip::FloorForCeiling => least(|t| floor(t) + k as u32 <= t),
            _ => least_burst(&rivals, k),
        }
    }
}
