//! Runs of one flow, and how each ends.

use super::*;
use crate::ending::Stop;
use hrt::limits::{waiting_at, CLOCK_AT, LAST_CLOCK};
use hrt::{Flow, Plan};

/// A run of one flow, (0,0) to (3,3) on 4 by 4, from this clock on.
fn run_from(clock: u32, offers: &'static str) -> Run<&'static [u8]> {
    run_of(clock, offers.as_bytes())
}

fn run_of<R: Read>(clock: u32, offers: R) -> Run<R> {
    run_with(10, clock, offers)
}

fn run_with<R: Read>(period: u32, clock: u32, offers: R) -> Run<R> {
    let flow = Flow { xs: 0, ys: 0, xd: 3, yd: 3, period, burst: 1 };
    let fresh = State::fresh(4, 4, &[flow]).unwrap();
    let plan = Plan::read(fresh.write(b"").unwrap()).unwrap();
    let tallies = tallies(&plan, &fresh).unwrap();
    let mut words = fresh.words().to_vec();
    words[CLOCK_AT] = clock;
    let state = State::of_words(words).unwrap();
    Run::new(state, tallies, Offers::of("offers".to_string(), offers))
}

#[test]
fn the_clock_ends_with_refusal_11() {
    let mut run = run_from(LAST_CLOCK - 3, "4294967292 0\n4294967294 0");
    let end = run.go_to_end().unwrap();
    assert_eq!(end, End::Refused(Refusal { number: 11, place: 0 }));
    assert_eq!((run.state.clock(), run.offered, run.left, run.here), (LAST_CLOCK, 2, 0, 2));
    let ending = run.last_checks(end).ending().unwrap_err();
    assert_eq!(ending.stop, Stop::Failed);
    assert_eq!(ending.messages, ["hrt: step: refused 11 0; ./hrt explain 11 says why"]);
}

#[test]
fn the_last_cycle_is_run() {
    let mut run = run_from(LAST_CLOCK - 7, "4294967288 0");
    assert_eq!(run.go_to_end().unwrap(), End::Left);
    assert_eq!((run.state.clock(), run.left), (LAST_CLOCK, 1));
}

#[test]
fn a_broken_bound_is_loud() {
    let mut run = run_from(0, "0 0");
    run.tallies[0] = Tally::new(0, 10, Some(1), 7);
    let end = run.go_to_end().unwrap();
    assert_eq!(end, End::Broken("packet 1 of flow 0: flight 8, bound 7".to_string()));
    let ending = end.ending().unwrap_err();
    assert_eq!(ending.stop, Stop::Broken);
    assert!(ending.messages[0].starts_with("hrt: A BOUND IS BROKEN: packet 1 of flow 0"));
}

#[test]
fn a_refused_delivery_is_told() {
    let mut run = run_from(0, "0 0");
    run.records = Some(Records::new(0, 4));
    let broken = "a step's own deliveries are refused 16 0".to_string();
    assert_eq!(run.go_to_end().unwrap(), End::Broken(broken));
}

#[test]
fn records_have_the_last_deliveries() {
    let mut run = run_from(0, "0 0\n1 0\n2 0");
    run.records = Some(Records::new(1, 2));
    assert_eq!(run.records.as_ref().unwrap().cells(0), ["0", "-", "-"]);
    assert_eq!(run.go_to_end().unwrap(), End::Left);
    assert_eq!(run.records.unwrap().cells(0), ["2", "8", "0"]);
}

/// Offers that can be read to here.
struct Torn(&'static [u8]);

impl Read for Torn {
    fn read(&mut self, buffer: &mut [u8]) -> io::Result<usize> {
        match self.0.read(buffer) {
            Ok(0) => Err(io::Error::other("torn")),
            read => read,
        }
    }
}

/// What a run's reasons are at its end, those of its one flow being counted.
fn reasons(mut run: Run<impl Read>) -> (End, [u64; 6]) {
    run.why = Some(Why::new(0, &run.state).unwrap());
    let end = run.go_to_end().unwrap();
    (run.last_checks(end), run.why.unwrap().cycles)
}

#[test]
fn reasons_are_counted_to_each_end() {
    let offers = "0 0\n1 0\n2 0";
    assert_eq!(reasons(run_from(0, offers)), (End::Left, [3, 6, 18, 0, 0, 0]));
    for (cycles, counted) in [(0, [0; 6]), (1, [1, 0, 0, 0, 0, 0]), (5, [1, 0, 4, 0, 0, 0])] {
        let run = Run { cycles: Some(cycles), ..run_from(0, offers) };
        assert_eq!(reasons(run), (End::Cycles, counted));
    }
    for (offers, counted) in [("0 0\n7 1", [1, 6, 0, 0, 0, 0]), ("3 0\n7 x", [0, 3, 0, 0, 0, 0])] {
        let (end, cycles) = reasons(run_from(0, offers));
        assert!(matches!(end, End::Fault(_)), "{end:?}");
        assert_eq!(cycles, counted);
    }
    let unreadable = End::Unreadable("the offers can't be read: torn".to_string());
    let run = run_of(0, Torn(b"0 0\n5 0\n"));
    assert_eq!(reasons(run), (unreadable, [1, 4, 0, 0, 0, 0]));
    let refused = End::Refused(Refusal { number: 11, place: 0 });
    let run = run_from(LAST_CLOCK - 3, "4294967293 0\n4294967293 0");
    assert_eq!(reasons(run), (refused, [1, 1, 1, 0, 0, 0]));
}

#[test]
fn a_cycle_without_a_reason_is_told() {
    let mut run = run_from(0, "0 0");
    run.cycles = Some(3);
    assert_eq!(run.go_to_end().unwrap(), End::Cycles);
    run.why = Some(Why::new(0, &run_from(0, "").state).unwrap());
    let broken = "of 3 cycles 0 have a reason".to_string();
    assert_eq!(run.last_checks(End::Cycles), End::Broken(broken));
}

#[test]
fn a_set_is_offered_in_its_cycle() {
    let mut run = run_from(0, "0 0\n4 0 0 0\n5 0\n");
    run.cycles = Some(5);
    assert_eq!(run.go_to_end().unwrap(), End::Cycles);
    assert_eq!((run.offered, run.left, run.here), (4, 0, 4));
    run.cycles = None;
    assert_eq!(run.go_to_end().unwrap(), End::Left);
    assert_eq!((run.offered, run.left, run.here), (5, 5, 0));
}

#[test]
fn a_trial_line_is_offered_in_its_cycle() {
    let mut run = run_from(0, "0 trial 0\n4 0\n4 trial 0\n");
    run.cycles = Some(4);
    assert_eq!(run.go_to_end().unwrap(), End::Cycles);
    assert_eq!((run.offered, run.left, run.here), (1, 0, 1));
    run.cycles = None;
    assert_eq!(run.go_to_end().unwrap(), End::Left);
    assert_eq!((run.offered, run.left, run.here), (3, 3, 0));
}

#[test]
fn a_refused_trial_line_is_counted() {
    let mut run = run_from(0, "0 0\n0 trial 0\n0 0\n0 trial 0");
    let mut words = run.state.words().to_vec();
    words[waiting_at(0)] = 254;
    run.state = State::of_words(words).unwrap();
    assert_eq!(run.offer_all().unwrap(), None);
    assert_eq!((run.offered, run.here, run.tallies[0].refused), (4, 2, 2));
    assert_eq!(run.state.waiting(0), 256);
}

#[test]
fn a_faulty_trial_line_is_told_with_its_line() {
    let mut run = run_from(0, "0 0\n4 trial 1\n");
    let text = "flow 1 is not in the plan; its flows are 0 to 0 (refused 12 0)";
    assert_eq!(run.go_to_end().unwrap(), End::Fault(format!("offers:2: {text}")));
    assert_eq!((run.state.clock(), run.offered, run.here), (4, 1, 1));
}

#[test]
fn a_faulty_set_is_told_with_its_line() {
    let mut run = run_from(0, "0 0\n4 0 1 0\n");
    let text = "flow 1, the line's 2nd flow, is not in the plan; its flows are 0 to 0";
    let fault = format!("offers:2: {text} (refused 12 1)");
    assert_eq!(run.go_to_end().unwrap(), End::Fault(fault));
    assert_eq!((run.state.clock(), run.offered, run.here), (4, 1, 1));
}

#[test]
fn a_missing_packet_is_told() {
    let mut run = run_from(0, "0 0\n9 0");
    run.cycles = Some(3);
    assert_eq!(run.go_to_end().unwrap(), End::Cycles);
    assert_eq!(watch(&run.state, &run.tallies, run.here), Ok(()));
    run.here += 1;
    let broken = "1 packets are waiting or in flight, not 2".to_string();
    assert_eq!(run.last_checks(End::Cycles), End::Broken(broken));
}

#[test]
fn a_packet_that_waits_past_its_bound_is_told() {
    // Of two packets at once the second waits for its token, 10 cycles; the bound is made 3.
    let mut run = run_from(0, "0 0\n0 0");
    run.tallies[0] = Tally::new(0, 1, Some(2), 20);
    run.cycles = Some(6);
    let end = run.go_to_end().unwrap();
    assert_eq!(end, End::Cycles);
    let broken = "packet 2 of flow 0: wait 6, bound 3".to_string();
    assert_eq!(run.last_checks(end), End::Broken(broken));
}

/// How a run ends, and what it leaves: its state, its counts and its flow's tally and record.
fn ran(mut run: Run<impl Read>) -> impl PartialEq + std::fmt::Debug {
    run.records = Some(Records::new(1, 3));
    let end = run.go_to_end().unwrap();
    let end = run.last_checks(end);
    let Tally { offered, left, longest_wait, nearest, longest_flight, .. } = run.tallies[0];
    let tally = (offered, left, longest_wait, nearest, longest_flight);
    let record = run.records.unwrap().cells(0);
    (end, run.state.words().to_vec(), (run.offered, run.left), tally, record)
}

#[test]
fn many_steps_in_one_call_are_as_single_ones() {
    let streams =
        ["0 0", "0 0\n1 0\n1 0", "3 0\n4 0\n5000 0 0 0 0", "1020 0\n1024 0\n9000 0\n9000 1"];
    // Waits and flights over the bounds are told when the packet leaves, in the cycles in which all are
    // looked at, or at the end.
    let bounds = [(None, 8), (Some(1), 7), (Some(1), 8), (Some(600), 8), (Some(1500), 8)];
    for (period, stream) in [10, 1023, 1024, 3000].into_iter().flat_map(|p| streams.map(|s| (p, s)))
    {
        for (window, flight) in bounds {
            for cycles in [None, Some(1024), Some(1025), Some(2500), Some(9002)] {
                let run = |singly| {
                    let run = run_with(period, 0, stream.as_bytes());
                    let tallies = vec![Tally::new(0, 1, window, flight)];
                    ran(Run { tallies, cycles, singly, ..run })
                };
                assert_eq!(run(0), run(LAST_CLOCK), "{period} {stream} {window:?} {cycles:?}");
            }
        }
    }
}

#[test]
fn idle_cycles_are_leapt_over() {
    let mut run = run_from(0, "7 0\n4000000000 0\n4294967288 0");
    assert_eq!(run.go_to_end().unwrap(), End::Left);
    assert_eq!((run.state.clock(), run.left), (LAST_CLOCK, 3));
    let mut run = run_with(16_777_215, 0, &b"0 0 0 0"[..]);
    assert_eq!(run.go_to_end().unwrap(), End::Left);
    assert_eq!((run.state.clock(), run.left), (2 * 16_777_215 + 7, 3));
}

#[test]
fn a_call_that_ends_early_is_gone_on_from() {
    let offers = "0 0".to_string() + &" 0".repeat(999);
    let mut run = run_with(1, 0, offers.as_bytes());
    assert_eq!(run.go_to_end().unwrap(), End::Left);
    assert_eq!((run.state.clock(), run.left), (1006, 1000));
}

#[test]
fn a_call_ends_where_it_should() {
    let mut run = run_from(5, "");
    let ahead = |next: Option<u32>, cycles, run: &mut Run<_>| {
        run.next = next.map(|cycle| Offer { cycle, of: Of::Flow(0) });
        run.cycles = cycles;
        run.ahead()
    };
    assert_eq!(ahead(None, None, &mut run), LAST_CLOCK - 5);
    assert_eq!(ahead(Some(9), None, &mut run), 4);
    assert_eq!(ahead(Some(9), Some(7), &mut run), 2);
    assert_eq!(ahead(Some(9), Some(12), &mut run), 4);
    assert_eq!(ahead(None, Some(LAST_CLOCK), &mut run), LAST_CLOCK - 5);
}
