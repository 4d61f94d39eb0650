//! Rows that turn, by U8: plans in which one row does, each in its turn, or all but one do, and how often turning rows
//! changed the bounds of random plans.

use super::{Memory, Run};
use crate::lent::Call;
use crate::plan::Plan;
use crate::slips::rows::RowSlip;
use crate::window::{flight_bound, spread, spread_of_01};
use std::ops::Range;

/// A flow of row y that turns into column 0.
fn turn(y: i64) -> [i64; 6] {
    [1, y, 0, y, 600, 1]
}

/// Each of these rows with every row.
fn pairs(rows: Range<i64>, sy: i64) -> impl Iterator<Item = (i64, i64)> {
    rows.flat_map(move |row| (0..sy).map(move |other| (row, other)))
}

fn compare(run: &mut Run, plan: &Plan, flow: usize) {
    let memory = &mut Memory::of_file(&plan.file(&[]));
    run.accepts(Call::Window(flow as u32), memory);
    run.accepts(Call::Flight(flow as u32), memory);
}

/// A rival goes down column 0 from one of these rows to any, flow 0 starts in any row, and any row turns. The rival's
/// period is 2, so that T tells its spread. Flow 0 has port S, or port E and turns its row for the rival or doesn't; or
/// it is the rival itself, with two rows that turn.
fn one_row(run: &mut Run, sy: i64, sources: Range<i64>) {
    for (ys, yd) in pairs(sources, sy) {
        for (y, turning) in pairs(0..sy, sy) {
            for f in [[0, y, 0, y, 9, 1], [1, y, 0, y, 9, 1], [1, y, 2, y, 9, 1]] {
                let plan = Plan::of(3, sy, &[f, [0, ys, 0, yd, 2, 1], turn(turning)]);
                compare(run, &plan, 0);
            }
            let plan = Plan::of(3, sy, &[[0, ys, 0, yd, 2, 1], turn(y), turn(turning)]);
            compare(run, &plan, 0);
        }
    }
}

/// All rows but one turn for column 0, down which flow 2 goes as far as it can to row y. There flow 0 meets it by port S,
/// flow 1 by port E, and flow 3 starts and goes as far.
pub fn all_but(spared: i64, y: i64) -> Plan {
    let mut flows = vec![
        [0, y, 0, y, 9, 1],
        [2, y, 3, y, 9, 1],
        [0, (y + 1) % 16, 0, y, 2, 1],
        [0, y, 0, (y + 15) % 16, 600, 1],
    ];
    flows.extend((0..16).filter(|&row| row != spared).map(turn));
    Plan::of(16, 16, &flows)
}

pub fn boundaries(run: &mut Run) {
    for sy in 1..=4 {
        one_row(run, sy, 0..sy);
    }
    one_row(run, 16, 13..14);
    for (spared, y) in pairs(0..16, 16) {
        (0..4).for_each(|flow| compare(run, &all_but(spared, y), flow));
    }
}

/// How often turning rows changed the bounds of a flow or its conflicts with others, beside 01's, and how often not.
#[derive(Clone, Copy, Default)]
pub struct Changes {
    dropped: u64,
    smaller_spread: u64,
    same_spread: u64,
    smaller_bound: u64,
    same_bound: u64,
}

impl Changes {
    /// Counts what became of flow f's conflicts.
    pub fn count_conflicts(&mut self, plan: &Plan, f: usize) {
        for g in 0..plan.flows.len() {
            match (spread_of_01(plan, f, g), spread(plan, f, g)) {
                (Some(_), None) => self.dropped += 1,
                (Some(0), _) | (None, _) => {}
                (Some(before), Some(now)) if now < before => self.smaller_spread += 1,
                _ => self.same_spread += 1,
            }
        }
    }

    /// Counts what became of flow f's flight bound.
    pub fn count_bound(&mut self, plan: &Plan, f: usize) {
        let (before, now) = (RowSlip::EveryRow.flight_bound(plan, f), flight_bound(plan, f));
        if now < before {
            self.smaller_bound += 1;
        } else if plan.dy(f) > 0 {
            self.same_bound += 1;
        }
    }

    /// Each with what it is.
    pub fn counts(&self) -> [(&'static str, u64); 5] {
        [
            ("conflicts dropped, the row doesn't turn", self.dropped),
            ("spreads smaller than every row's", self.smaller_spread),
            ("spreads of every row", self.same_spread),
            ("flight bounds smaller than every row's", self.smaller_bound),
            ("flight bounds of every row", self.same_bound),
        ]
    }

    /// Each came up often in the gate's rounds.
    pub fn came_up_often(&self) {
        for (change, count) in self.counts() {
            assert!(count >= 100, "{change}: came up {count} times");
        }
    }
}
