//! Slips in U8's turning rows, for windows and for flight bounds.

use crate::plan::{Plan, Port};
use crate::turning::is_turning;
use crate::window::spread_by;

/// A slip of flow g at the source of flow f. In a flight bound both are the same flow.
#[derive(Clone, Copy, Debug, PartialEq, Eq)]
pub enum RowSlip {
    /// Port S, or a flight: the last row isn't counted.
    SouthOneRowLess,
    /// Port E: rows are counted among the first r−2.
    EastOneRowLess,
    /// Port E: f's row must turn for g's source column.
    RowForSourceColumn,
    /// Port E: f itself doesn't make its row turn.
    OwnFlowLeftOut,
    /// Port E: f's row needn't turn.
    RowNotNeeded,
    /// Rows that turn for g's source column are counted.
    SourceColumnCounted,
    /// A flow that starts in column x makes its row turn for x too.
    StraightCounted,
    /// The source's own row is counted too.
    SourceRowCounted,
    /// The source's own row is counted, and the last one isn't.
    FromSourceRow,
    /// Rows are counted northward.
    Northward,
    /// Rows from row 0 on, south of the last one, aren't counted.
    NoWrap,
    /// Every row counts.
    EveryRow,
}

impl RowSlip {
    /// Those that only make windows larger: no list refutes them.
    pub const LARGER: [RowSlip; 4] = [
        RowSlip::RowNotNeeded,
        RowSlip::StraightCounted,
        RowSlip::SourceRowCounted,
        RowSlip::EveryRow,
    ];

    /// Those that a flight bound may have.
    pub const OF_FLIGHTS: [RowSlip; 8] = [
        RowSlip::SouthOneRowLess,
        RowSlip::SourceColumnCounted,
        RowSlip::StraightCounted,
        RowSlip::SourceRowCounted,
        RowSlip::FromSourceRow,
        RowSlip::Northward,
        RowSlip::NoWrap,
        RowSlip::EveryRow,
    ];

    /// The spread of g at f's source with this slip.
    pub fn spread(self, plan: &Plan, f: usize, g: usize) -> Option<i64> {
        spread_by(plan, f, g, self.row_turns(plan, f, g), |r| self.rows(plan, f, g, r))
    }

    /// The flight bound of f with this slip.
    pub fn flight_bound(self, plan: &Plan, f: usize) -> i64 {
        plan.flight(f, self.rows(plan, f, f, plan.dy(f)))
    }

    /// Does f's row turn for g?
    fn row_turns(self, plan: &Plan, f: usize, g: usize) -> bool {
        let (y, rival) = (plan.flows[f].ys, plan.flows[g]);
        match self {
            RowSlip::RowForSourceColumn => is_turning(plan, y, rival.xs),
            RowSlip::OwnFlowLeftOut => {
                let mut others = plan.clone();
                others.flows.remove(f);
                is_turning(&others, y, rival.xd)
            }
            RowSlip::RowNotNeeded | RowSlip::EveryRow => true,
            _ => is_turning(plan, y, rival.xd),
        }
    }

    /// How many of the first r rows south of g's source count at f's.
    fn rows(self, plan: &Plan, f: usize, g: usize, r: i64) -> i64 {
        let source = plan.flows[g];
        let souths = match (self, plan.port(f)) {
            (RowSlip::SouthOneRowLess, _) if f == g => 1..=r - 1,
            (RowSlip::SouthOneRowLess, Port::South) => 1..=r - 1,
            (RowSlip::EastOneRowLess, Port::East) => 1..=r - 1,
            (RowSlip::SourceRowCounted, _) => 0..=r,
            (RowSlip::FromSourceRow, _) => 0..=r - 1,
            _ => 1..=r,
        };
        let counts = |south: &i64| {
            let y = match self {
                RowSlip::Northward => source.ys - south,
                _ => source.ys + south,
            };
            let (row, is_past) = (y.rem_euclid(plan.sy), y >= plan.sy);
            match self {
                RowSlip::EveryRow => true,
                RowSlip::NoWrap if is_past => false,
                RowSlip::SourceColumnCounted => is_turning(plan, row, source.xs),
                RowSlip::StraightCounted => {
                    plan.flows.iter().any(|flow| (flow.ys, flow.xd) == (row, source.xd))
                }
                _ => is_turning(plan, row, source.xd),
            }
        };
        souths.filter(counts).count() as i64
    }
}
