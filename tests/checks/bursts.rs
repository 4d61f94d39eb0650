//! U9's sentences on the second simulator alone: bursts worked out by hand, every list of small plans, and random plans.

use super::small::{of_three_flows, of_two_flows};
use second::book::Book;
use second::bursts::{Bursts, Kept};
use second::compare::plans::{LAST_WINDOW, PAST_THE_LAST, late_burst};
use second::plan::{Plan, Refusal};
use second::promises::Limits;
use second::random::{Random, any_plan};
use second::slips::met_bursts;
use second::window::*;
use second::worst::{Lists, Worst};

/// One rival with P 10 and σ 1: I(t) is 2 up to t = 11, 3 up to 21.
#[test]
fn b_is_the_least_window_with_room_for_k() {
    let plan = Plan::of(4, 4, &[[1, 0, 2, 0, 9, 12], [0, 0, 3, 0, 10, 1]]);
    assert_eq!(bursts(&plan, 0), [3, 4, 5, 6, 7, 8, 9, 10, 11, 13, 14, 15]);
    assert_eq!(bursts(&plan, 1), [1], "without rivals k packets take k cycles");
}

/// "A k outside 1 to σ is 20, after 12; a burst with no such window is 14." Flow 1 fills the link of flow 0.
#[test]
fn refusals_come_in_order() {
    let file = Plan::of(4, 4, &[[1, 0, 2, 0, 9, 3], [0, 0, 3, 0, 1, 2]]).file(&[]);
    let no = |number, place| Err(Refusal { number, place });
    for ((flow, packets), answer) in [
        ((0, 1), no(14, 0)),
        ((0, 3), no(14, 0)),
        ((0, 0), no(20, 0)),
        ((0, 4), no(20, 0)),
        ((1, 2), Ok(2)),
        ((1, 0), no(20, 0)),
        ((1, 3), no(20, 0)),
        ((1, u32::MAX), no(20, 0)),
        ((2, 1), no(12, 0)),
        ((2, 0), no(12, 0)),
        ((u32::MAX, u32::MAX), no(12, 0)),
    ] {
        assert_eq!(burst_call(&file, flow, packets), answer, "flow {flow}, {packets} packets");
    }
    assert_eq!(burst_call(&file[1..], 2, 0), no(5, 0));
    let file = Plan::of(4, 4, &[[0, 0, 3, 0, 1, 2], [1, 0, 2, 0, 9, 3]]).file(&[]);
    assert_eq!(burst_call(&file, 1, 3), no(14, 1));
}

/// The last window, and one past it, where a packet less has a window.
#[test]
fn the_search_ends_at_65_535() {
    for packets in [2, 3, 200] {
        for slow in [&[][..], &[65_536]] {
            let windows = |numbers| bursts(&late_burst(numbers, slow, packets), 0);
            let (last, past) = (windows(LAST_WINDOW), windows(PAST_THE_LAST));
            assert_eq!((last.len() as i64, last.last()), (packets, Some(&65_535)));
            assert_eq!(past.len() as i64, packets - 1);
        }
    }
}

/// "B for k = 1 is T", and all of a flow's windows in one search are those by themselves.
#[test]
fn b_of_1_is_t_and_b_grows() {
    let mut random = Random::new(10);
    for _ in 0..100 {
        let plan = any_plan(&mut random);
        let f = random.index(plan.flows.len());
        let all = bursts(&plan, f);
        assert_eq!(all.first().copied(), window(&plan, f), "{plan:?}");
        assert!(all.is_sorted_by(|less, more| less < more), "{plan:?}");
        let burst = plan.flows[f].burst;
        for k in [1, random.from(1, burst), burst] {
            let alone = second::window::burst(&plan, f, k);
            assert_eq!(all.get(k as usize - 1).copied(), alone, "{k} packets: {plan:?}");
        }
    }
}

/// Runs the list in a fresh book, under U9's promise. Gives the cycles until the last packet of f has entered, from
/// its offer.
fn replay(plan: &Plan, f: usize, worst: &Worst) -> i64 {
    let (mut book, limits) = (Book::new(plan.clone()), Limits::of_all(plan));
    let (mut bursts, mut kept) = (Bursts::default(), Kept::default());
    for flows in &worst.offers {
        book.offer_set(flows).unwrap();
        bursts.watch(&book, &limits, &mut kept);
        book.step(plan.delivery_words()).unwrap();
        bursts.watch(&book, &limits, &mut kept);
    }
    let last = book.lines.iter().rfind(|line| line.flow == f).unwrap();
    last.entry.unwrap() - last.offer + 1
}

/// Over all lists every B of these is met, so that a cycle less would be refuted.
#[test]
fn windows_are_met_exactly() {
    for row in met_bursts() {
        assert_eq!(bursts(&row.plan, row.f), row.windows);
        let mut lists = Lists::of(&row.plan);
        for (k, &b) in (1..).zip(&row.windows) {
            let worst = lists.longest_wait(row.f, k, k as i64);
            assert_eq!((worst.wait + 1, replay(&row.plan, row.f, &worst)), (b, b), "{k} packets");
        }
    }
}

/// "At least k tokens": with a token less, B is passed by far, as the next comes a period later.
#[test]
fn a_token_less_is_not_enough() {
    let row = met_bursts().swap_remove(0);
    let mut lists = Lists::of(&row.plan);
    let mut worst = |k: usize| lists.longest_wait(row.f, k, k as i64 - 1);
    assert_eq!([1, 2, 3, 4].map(|k| worst(k).wait + 1), [31, 32, 32, 32]);
    assert_eq!(row.windows, [3, 4, 5, 7]);
}

/// What all lists of some plans come to.
#[derive(Debug, Default, PartialEq)]
struct Met {
    plans: usize,
    books: usize,
    /// Bursts of two packets or more of flows with rivals.
    bursts: usize,
    /// Those that take as many cycles as B says.
    met: usize,
    /// Those that take more than T and a cycle for each packet behind the first.
    past_t: usize,
    /// Those that would take more than B with a token less.
    past_with_a_token_less: usize,
}

impl Met {
    /// All lists of a plan, for bursts of these flows: none takes more cycles than B says.
    fn all_lists(&mut self, plan: &Plan, flows: &[usize]) {
        let bursts: Vec<_> = flows.iter().map(|&f| (f, bursts(plan, f))).collect();
        if bursts.iter().all(|(_, windows)| windows.len() < 2 || windows[0] == 1) {
            return;
        }
        let mut lists = Lists::of(plan);
        self.plans += 1;
        self.books += lists.books();
        for (f, windows) in bursts.iter().filter(|(_, windows)| windows.first() > Some(&1)) {
            for (k, &b) in (1..).zip(windows).skip(1) {
                let mut cycles = |tokens| lists.longest_wait(*f, k, tokens as i64).wait + 1;
                let worst = cycles(k);
                assert!(worst <= b, "flow {f}, {k} packets: {worst} over {b}: {plan:?}");
                self.bursts += 1;
                self.met += (worst == b) as usize;
                self.past_t += (worst > windows[0] + k as i64 - 1) as usize;
                self.past_with_a_token_less += (cycles(k - 1) > b) as usize;
            }
        }
    }
}

/// All plans of two flows on small tori, the first from (0,0), and each of them in its turn the one with bursts.
#[test]
fn no_list_of_two_flows_passes_b() {
    let (mut met, sizes) = (Met::default(), [(3, 1), (1, 3), (2, 2), (2, 3), (3, 2)]);
    for (f, rates) in [[[6, 3], [3, 1]], [[3, 1], [6, 3]]].into_iter().enumerate() {
        for plan in of_two_flows(&sizes, rates) {
            met.all_lists(&plan, &[f]);
        }
    }
    println!("{met:?}");
    let (past_t, past_with_a_token_less) = (358, 972);
    let all =
        Met { plans: 486, books: 124_452, bursts: 972, met: 738, past_t, past_with_a_token_less };
    assert_eq!(met, all);
}

/// Random small plans of three flows.
#[test]
fn no_list_of_three_flows_passes_b() {
    let mut met = Met::default();
    for plan in of_three_flows(&mut Random::new(11), [6, 3], 128).take(120) {
        met.all_lists(&plan, &[0, 1, 2]);
    }
    println!("{met:?}");
    assert!(met.met >= 20 && met.past_t >= 10 && met.past_with_a_token_less > 0, "{met:?}");
}
