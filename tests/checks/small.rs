//! Small plans, for all of their lists to be tried.

use second::plan::Plan;
use second::random::Random;

/// The plans of two flows on tori of these sizes, the first from (0,0), with these periods and bursts.
pub fn of_two_flows(sizes: &[(i64, i64)], rates: [[i64; 2]; 2]) -> impl Iterator<Item = Plan> {
    sizes.iter().flat_map(move |&(sx, sy)| {
        let clients = sx * sy;
        let client = move |at: i64| [at % sx, at / sx % sy];
        (0..clients * clients * clients).map(move |at| {
            let [[xd, yd], [xs, ys], [xd_1, yd_1]] =
                [at, at / clients, at / clients / clients].map(client);
            let [[period, burst], [period_1, burst_1]] = rates;
            let first = [0, 0, xd, yd, period, burst];
            Plan::of(sx, sy, &[first, [xs, ys, xd_1, yd_1, period_1, burst_1]])
        })
    })
}

/// Random plans of three flows, whose destinations are mostly in column 0, with periods and bursts up to these, and up to
/// so many states of their buckets.
pub fn of_three_flows(
    random: &mut Random,
    [period, burst]: [i64; 2],
    states: i64,
) -> impl Iterator<Item = Plan> {
    let plan = move || {
        let (sx, sy) = (random.from(2, 3), random.from(2, 3));
        let mut flow = || {
            let [xs, xd] = [(); 2].map(|()| random.from(0, sx - 1));
            let [ys, yd] = [(); 2].map(|()| random.from(0, sy - 1));
            let xd = if random.percent(60) { 0 } else { xd };
            [xs, ys, xd, yd, random.from(1, period), random.from(1, burst)]
        };
        Plan::of(sx, sy, &[flow(), flow(), flow()])
    };
    let buckets = |plan: &Plan| -> i64 {
        plan.flows.iter().map(|flow| flow.period * (flow.burst + 1)).product()
    };
    std::iter::repeat_with(plan).filter(move |plan| buckets(plan) <= states)
}
