//! U8's sentences on the second simulator alone: plans worked out by hand, every list of small plans, and random
//! plans beside 01's own windows and bounds.

use super::small::{of_three_flows, of_two_flows};
use second::calls::step;
use second::compare::turning::all_but;
use second::plan::Plan;
use second::random::{Random, any_plan};
use second::slips::rows::RowSlip;
use second::state::{judge, words};
use second::turning::{is_turning, most_deflections, turning_rows};
use second::window::*;
use second::worst::Lists;

#[test]
fn a_row_turns_by_a_flow_of_another_column() {
    let plan = Plan::of(4, 4, &[[0, 1, 2, 3, 9, 1], [3, 2, 3, 0, 9, 1], [2, 3, 2, 1, 9, 1]]);
    let turning: Vec<_> = (0..16).filter(|at| is_turning(&plan, at / 4, at % 4)).collect();
    assert_eq!(turning, [6], "row 1 for column 2 alone");
}

/// Rows 0, 1, 3 and 5 of six turn for column 0.
#[test]
fn rows_are_counted_south_of_the_source_and_over_the_last() {
    let turning = [0, 1, 3, 5].map(|y| [1, y, 0, y, 9, 1]);
    let plan = Plan::of(2, 6, &turning);
    let counts = |y| [0, 1, 2, 3, 4, 5].map(|r| turning_rows(&plan, 0, y, r));
    assert_eq!(counts(0), [0, 1, 1, 2, 2, 3]);
    assert_eq!(counts(2), [0, 1, 1, 2, 3, 4]);
    assert_eq!(counts(5), [0, 1, 2, 2, 3, 3]);
}

/// "Flight bounds use that count; 01's 20, 12 .. change with it." With both in one plan, row 0 turns for column 3,
/// and the second's packets pass it.
#[test]
fn flight_bounds_use_that_count() {
    let (far, south) = ([0, 0, 3, 3, 9, 1], [3, 3, 3, 1, 9, 1]);
    let bounds = |flows: &[[i64; 6]]| {
        let plan = Plan::of(4, 4, flows);
        (0..flows.len()).map(|f| flight_bound(&plan, f)).collect::<Vec<_>>()
    };
    assert_eq!(bounds(&[far]), [8]);
    assert_eq!(bounds(&[south]), [4]);
    assert_eq!(bounds(&[far, south]), [8, 8]);
    assert_eq!(bounds(&[far, south, [2, 1, 3, 1, 9, 1]]), [12, 12, 3]);
}

/// "01's .. J 8 change[s] with it": the rival passes rows 1 and 2 of its column, and one or both turn.
#[test]
fn spreads_at_port_s() {
    let (f, g) = ([0, 2, 0, 3, 10, 1], [0, 0, 0, 3, 8, 1]);
    let turn = |y| [1, y, 0, y, 100, 1];
    for (flows, j, t) in [
        (&[f, g][..], 0, 3),
        (&[f, g, turn(0)], 0, 3),
        (&[f, g, turn(3)], 0, 3),
        (&[f, g, turn(1)], 4, 3),
        (&[f, g, turn(1), turn(1)], 4, 3),
        (&[f, g, turn(1), turn(2)], 8, 6),
    ] {
        let plan = Plan::of(4, 4, flows);
        assert_eq!((spread(&plan, 0, 1), window(&plan, 0)), (Some(j), Some(t)), "{flows:?}");
    }
}

/// "An E conflict with r ≥ 1 needs row r to turn for g's column", which is g's destination column.
#[test]
fn an_e_conflict_needs_the_row_to_turn() {
    let (f, g) = ([1, 2, 2, 2, 10, 1], [0, 0, 1, 3, 8, 1]);
    let spread_with = |more: &[[i64; 6]]| spread(&Plan::of(4, 4, &[&[f, g], more].concat()), 0, 1);
    assert_eq!(spread_with(&[]), None);
    assert_eq!(spread_with(&[[1, 2, 1, 0, 9, 1]]), None, "straight down the column");
    assert_eq!(spread_with(&[[2, 2, 0, 0, 9, 1]]), None, "into g's source column");
    assert_eq!(spread_with(&[[3, 1, 1, 2, 9, 1]]), None, "the row before");
    assert_eq!(spread_with(&[[3, 2, 1, 2, 9, 1]]), Some(0));
    assert_eq!(spread_with(&[[3, 2, 1, 2, 9, 1], [3, 1, 1, 1, 9, 1]]), Some(4));
    assert_eq!(spread_with(&[[3, 2, 1, 2, 9, 1], [3, 0, 1, 0, 9, 1]]), Some(0));
}

/// With 15 rows that turn, J is 15 × 16 at port S and 14 × 16 at port E, and a flight has 15 deflections.
#[test]
fn the_widest_spreads() {
    for y in 0..16 {
        let plan = all_but((y + 1) % 16, y);
        assert_eq!([0, 1].map(|f| spread(&plan, f, 2)), [Some(240), Some(224)]);
        assert_eq!([0, 1].map(|f| window(&plan, f)), [Some(251), Some(231)]);
        let plan = all_but(y, y);
        assert_eq!([0, 1].map(|f| spread(&plan, f, 2)), [Some(224), None]);
        assert_eq!(flight_bound(&plan, 3), 257);
    }
}

/// f itself makes its row turn. g itself never does for its own packets: its row is none of those south of it.
#[test]
fn every_flow_counts() {
    let plan = Plan::of(2, 4, &[[0, 2, 1, 2, 1, 1], [0, 0, 1, 2, 5, 1]]);
    assert_eq!(spread(&plan, 0, 1), Some(0));
    let mut random = Random::new(7);
    for _ in 0..200 {
        let plan = any_plan(&mut random);
        let g = random.index(plan.flows.len());
        let mut without = plan.clone();
        let rival = without.flows.remove(g);
        for r in 0..plan.sy {
            let [with, without] =
                [&plan, &without].map(|plan| turning_rows(plan, rival.xd, rival.ys, r));
            assert_eq!(with, without);
        }
    }
}

/// The limit on D is one from reset. In these words, which form a state but which no list reaches, a packet is
/// deflected in a row that doesn't turn.
#[test]
fn a_made_up_state_may_deflect_anywhere() {
    let plan = Plan::of(2, 2, &[[0, 0, 0, 1, 9, 2]]);
    assert_eq!(most_deflections(&plan, 0), 0);
    let mut state = words(&second::book::Book::new(plan));
    (state[3], state[16]) = (3, 2);
    let row_1 = state.len() - 16;
    state[row_1..row_1 + 8].copy_from_slice(&[1, 1, 0, 1, 1, 2, 2, 0]);
    assert!(judge(&state).is_ok());
    assert_eq!(step(&mut state, &mut [0; 20]), Ok(1));
    let lines = judge(&state).unwrap().lines;
    assert_eq!(lines.iter().map(|line| (line.serial, line.d)).collect::<Vec<_>>(), [(2, 1)]);
}

/// All plans of two flows that send whenever they can, on small tori, the first from (0,0): over all lists every count
/// is met and none is passed.
#[test]
fn each_count_of_two_flows_is_met() {
    let mut met = Met::default();
    for plan in of_two_flows(&[(2, 2), (2, 3), (3, 2), (3, 3)], [[1, 1], [1, 1]]) {
        met.all_lists(&plan);
    }
    assert_eq!((met.plans, met.counts), (1225, [176, 176]));
}

/// Random small plans of three flows, whose destinations are mostly in column 0: over all lists every count is met
/// and none is passed, and no wait of a lone packet passes its bound, which many meet.
#[test]
fn no_list_passes_the_count_or_the_bound() {
    let mut met = Met::default();
    for plan in of_three_flows(&mut Random::new(9), [4, 2], 32).take(60) {
        met.all_lists(&plan);
    }
    assert_eq!(met.counts[0], met.counts[1], "{met:?}");
    assert!(met.counts[1] >= 30 && met.waits[1] >= 10, "{met:?}");
}

#[derive(Debug, Default)]
struct Met {
    plans: usize,
    /// Flows whose rows may deflect, and those of them whose packets are deflected as often as the count says.
    counts: [usize; 2],
    /// Flows with rivals and a window, and those of them that wait as long as the bound says.
    waits: [usize; 2],
}

impl Met {
    fn all_lists(&mut self, plan: &Plan) {
        self.plans += 1;
        let mut lists = Lists::of(plan);
        for (f, d) in lists.most_deflections().into_iter().enumerate() {
            let most = most_deflections(plan, f);
            assert!(d <= most, "flow {f}: D {d} over {most}: {plan:?}");
            self.counts[0] += (most > 0) as usize;
            self.counts[1] += (most > 0 && d == most) as usize;
            if let Some(t) = window(plan, f) {
                let (wait, bound) = (lists.longest_wait(f, 1, 0).wait, lone_wait(plan, f, t));
                assert!(wait <= bound, "flow {f}: wait {wait} over {bound}: {plan:?}");
                self.waits[0] += (t > 1) as usize;
                self.waits[1] += (t > 1 && wait == bound) as usize;
            }
        }
    }
}

/// "No window may grow through this": beside 01's own spreads, each flow's rivals and spreads, its T and its bound
/// are the same or less.
#[test]
fn no_window_grows() {
    let mut random = Random::new(8);
    for _ in 0..150 {
        let plan = any_plan(&mut random);
        let f = random.index(plan.flows.len());
        for g in 0..plan.flows.len() {
            let (now, before) = (spread(&plan, f, g), spread_of_01(&plan, f, g));
            assert!(now <= before, "{now:?} {before:?}: {plan:?}");
        }
        let before = least_window(&rivals_by(&plan, |g| spread_of_01(&plan, f, g)));
        let now = window(&plan, f);
        assert!(before.is_none_or(|before| now.is_some_and(|now| now <= before)), "{plan:?}");
        assert!(flight_bound(&plan, f) <= RowSlip::EveryRow.flight_bound(&plan, f), "{plan:?}");
    }
}
