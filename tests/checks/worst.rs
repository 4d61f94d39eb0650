//! The plans that refute a slipped T: their worst waits, reached by a list of offers, pass the
//! slipped bound and keep to the right one.

use second::book::Book;
use second::promises::{Limits, check};
use second::slips::{met_exactly, met_late, refuted};
use second::window::{lone_wait, window};
use second::worst::{Worst, worst_wait};

/// Runs the list in a fresh book, under 01's promises. Gives the wait of the last packet of f.
fn replay(worst: &Worst, plan: &second::plan::Plan, f: usize) -> i64 {
    let mut book = Book::new(plan.clone());
    let mut delivered = Vec::new();
    for flows in &worst.offers {
        for &flow in flows {
            book.offer(flow).unwrap();
        }
        delivered.extend(book.step(plan.delivery_words()).unwrap());
    }
    check(&book, &Limits::of_all(&book.plan), &delivered);
    let last = book.lines.iter().rfind(|line| line.flow == f).unwrap();
    assert_eq!(last.q, 0, "a lone packet");
    last.entry.unwrap() - last.offer
}

#[test]
fn each_slip_is_refuted() {
    for row in refuted() {
        let (plan, f) = (&row.plan, row.f);
        let name = format!("{:?}", row.slip);
        assert_eq!(window(plan, f), Some(row.window), "{name}");
        assert_eq!(row.slip.window(plan, f), Some(row.slipped), "{name}");
        let worst = worst_wait(plan, f);
        assert_eq!(worst.wait, row.wait, "{name}");
        assert_eq!(replay(&worst, plan, f), row.wait, "{name}");
        assert!(lone_wait(plan, f, row.slipped) < row.wait, "{name} would pass");
        assert!(row.wait <= lone_wait(plan, f, row.window), "{name}: past the bound");
    }
}

#[test]
fn the_bound_is_met_exactly() {
    let (plan, list) = met_exactly();
    assert_eq!(window(&plan, 0), Some(17));
    assert_eq!((list.wait, lone_wait(&plan, 0, 17)), (16, 16));
    assert_eq!(replay(&list, &plan, 0), 16);
}

#[test]
fn a_slow_flows_bound_is_met_exactly() {
    let (plan, list) = met_late();
    assert_eq!(window(&plan, 0), Some(3));
    assert_eq!((list.wait, lone_wait(&plan, 0, 3)), (65_537, 65_537));
    assert_eq!(replay(&list, &plan, 0), 65_537);
}

/// All 28,374 books that lists of this plan reach.
#[test]
fn no_list_passes_the_bound_that_is_met() {
    assert_eq!(worst_wait(&met_exactly().0, 0).wait, 16);
}
