//! U8's turning rows, counted row by row and flow by flow.

use crate::plan::Plan;

/// "A row is turning for column x if some flow starts in that row in another column and has destination column x."
pub fn is_turning(plan: &Plan, y: i64, x: i64) -> bool {
    plan.flows.iter().any(|flow| flow.ys == y && flow.xs != x && flow.xd == x)
}

/// The rows that are turning for column x among the first r rows south of row y. Row y isn't one of them.
pub fn turning_rows(plan: &Plan, x: i64, y: i64, r: i64) -> i64 {
    let mut rows = 0;
    for south in 1..=r {
        if is_turning(plan, (y + south) % plan.sy, x) {
            rows += 1;
        }
    }
    rows
}

/// The turning rows for xd of flow f among the first r rows south of its source.
pub fn turning_for(plan: &Plan, f: usize, r: i64) -> i64 {
    turning_rows(plan, plan.flows[f].xd, plan.flows[f].ys, r)
}

/// "At most the number of turning rows among the ΔY rows south of the source": D of flow f in a run from reset.
pub fn most_deflections(plan: &Plan, f: usize) -> i64 {
    turning_for(plan, f, plan.dy(f))
}
