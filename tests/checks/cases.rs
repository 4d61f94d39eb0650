//! 01's "Cases on both sides", on the second simulator alone, each with its own plan.

use second::book::{Book, Router};
use second::compare::plans::{LAST_WINDOW, PAST_THE_LAST, late_window};
use second::plan::{Flow, Plan, Refusal, read};
use second::state::{judge, words};
use second::window::{flight_bound, interference, listing, rivals, spread, window, window_call};
use second::{calls, random};

/// A plan on the 4 by 4 torus: each flow's six numbers.
fn four_by_four(flows: &[[i64; 6]]) -> Plan {
    let flows = flows.iter().map(|&numbers| Flow::from_numbers(numbers)).collect();
    Plan { sx: 4, sy: 4, flows }
}

/// Offers one packet of each flow in cycle 0 and steps until all have left. Gives each line's
/// entry, exit and D.
fn one_packet_each(plan: Plan) -> Vec<(i64, i64, i64)> {
    let mut book = Book::new(plan);
    for f in 0..book.plan.flows.len() {
        assert_eq!(book.offer(f as u32), Ok(0));
    }
    while book.lines.iter().any(|line| line.exit.is_none()) {
        book.step(book.plan.delivery_words()).unwrap();
    }
    book.lines.iter().map(|line| (line.entry.unwrap(), line.exit.unwrap().0, line.d)).collect()
}

fn no(number: u64, place: u64) -> Result<u64, Refusal> {
    Err(Refusal { number, place })
}

/// Alone in its plan, a flow's bound is its flight.
#[test]
fn flights_unhindered_and_their_bounds() {
    for (ends, dx, dy, flight) in
        [([0, 0, 3, 3], 3, 3, 8), ([3, 3, 3, 1], 0, 2, 4), ([2, 2, 2, 2], 0, 0, 2)]
    {
        let [xs, ys, xd, yd] = ends;
        let plan = four_by_four(&[[xs, ys, xd, yd, 1, 1]]);
        assert_eq!((plan.dx(0), plan.dy(0)), (dx, dy));
        assert_eq!(flight_bound(&plan, 0), flight);
        let (entry, exit, d) = one_packet_each(plan)[0];
        assert_eq!((exit - entry + 2, d), (flight, 0));
    }
}

#[test]
fn a_turning_packet_deflects_one_at_its_destination() {
    let lines = one_packet_each(four_by_four(&[[0, 0, 0, 1, 10, 1], [3, 1, 0, 1, 10, 1]]));
    assert_eq!(lines, [(0, 5, 1), (0, 1, 0)]);
    let flights: Vec<_> = lines.iter().map(|(entry, exit, _)| exit - entry + 2).collect();
    assert_eq!(flights, [7, 3]);
}

/// Serial 1 of flow 0 is deflected at its destination by flow 1's packet, and serial 2 passes it.
#[test]
fn a_flows_packets_out_of_order() {
    let mut book = Book::new(four_by_four(&[[0, 0, 0, 1, 1, 2], [3, 1, 0, 1, 9, 1]]));
    for flow in [0, 0, 1] {
        book.offer(flow).unwrap();
    }
    let exits: Vec<_> = (0..6).flat_map(|_| book.step(80).unwrap()).collect();
    assert_eq!(exits, [[1, 1, 0, 1, 0], [0, 2, 1, 2, 0], [0, 1, 0, 5, 1]]);
}

#[test]
fn windows() {
    let f = [1, 0, 2, 0, 10, 1];
    for (period, burst, t) in [(10, 1, Some(3)), (2, 3, Some(7)), (1, 1, None)] {
        let plan = four_by_four(&[f, [0, 0, 3, 0, period, burst]]);
        assert_eq!(window(&plan, 0), t);
        let answer = t.map_or(no(14, 0), |t| Ok(t as u64));
        assert_eq!(window_call(&plan.file(&[]), 0), answer);
    }
    let plan = four_by_four(&[[0, 2, 0, 3, 10, 1], [0, 0, 0, 3, 8, 1]]);
    assert_eq!((spread(&plan, 0, 1), window(&plan, 0)), (Some(0), Some(3)));
}

#[test]
fn the_last_window() {
    let plan = late_window(LAST_WINDOW, &[]);
    assert_eq!((spread(&plan, 0, 1), window(&plan, 0)), (Some(2), Some(65_535)));
    let plan = late_window(PAST_THE_LAST, &[]);
    assert_eq!((spread(&plan, 0, 1), spread(&plan, 0, 2)), (Some(3), Some(0)));
    assert_eq!(window_call(&plan.file(&[]), 0), no(14, 0));
    assert!(interference(&rivals(&plan, 0), 65_536) < 65_536);
}

#[test]
fn the_next_token_comes_after_a_period() {
    let mut book = Book::new(four_by_four(&[[0, 0, 1, 0, 10, 1]]));
    book.offer(0).unwrap();
    let mut tokens = Vec::new();
    for _ in 0..12 {
        tokens.push(book.buckets[0].tokens);
        book.step(80).unwrap();
    }
    assert_eq!(book.lines[0].entry, Some(0));
    assert_eq!(tokens, [1, 0, 0, 0, 0, 0, 0, 0, 0, 0, 1, 1]);
}

/// U3: "A flow with P 10 and σ 1 may then enter in two neighbouring cycles", and "a token that finds
/// it full is lost".
#[test]
fn two_neighbouring_cycles() {
    let mut book = Book::new(four_by_four(&[[2, 2, 2, 2, 10, 1]]));
    for _ in 0..9 {
        book.step(80).unwrap();
    }
    for _ in 0..4 {
        book.offer(0).unwrap();
    }
    for _ in 9..35 {
        book.step(80).unwrap();
    }
    let entries: Vec<_> = book.lines.iter().map(|line| line.entry.unwrap()).collect();
    assert_eq!(entries, [9, 10, 20, 30]);
}

/// U3: "the state no longer needs count 0 at a full bucket". The count stays below P.
#[test]
fn a_full_bucket_may_have_any_count() {
    let mut state = words(&Book::new(four_by_four(&[[0, 0, 1, 0, 10, 2]])));
    for tokens in 0..=2 {
        for count in 0..10 {
            state[14..16].copy_from_slice(&[tokens, count]);
            assert!(judge(&state).is_ok(), "{tokens} tokens and count {count}");
        }
        state[15] = 10;
        assert_eq!(judge(&state).unwrap_err(), Refusal { number: 9, place: 0 });
    }
}

/// The entry promise is one from reset. In words with no token and count 0, which form a state but
/// which no list reaches, a packet waits for a whole period, and P + T − 2 is one cycle less.
#[test]
fn an_empty_bucket_with_count_0_breaks_the_promise() {
    let plan = Plan::of(1, 1, &[[0, 0, 0, 0, 2, 1]]);
    assert_eq!(window(&plan, 0), Some(1));
    let mut state = words(&Book::new(plan));
    state[14..16].copy_from_slice(&[0, 0]);
    assert_eq!(calls::offer(&mut state, 0), Ok(0));
    let exits = [0; 3].map(|_| calls::step(&mut state, &mut [0; 5]).unwrap());
    assert_eq!(exits, [0, 0, 1]);
}

#[test]
fn the_last_offer_and_the_last_cycle() {
    let mut book = Book::new(four_by_four(&[[0, 0, 1, 0, 10, 1]]));
    for _ in 0..65_535 {
        assert_eq!(book.offer(0), Ok(0));
    }
    assert_eq!(book.offer(0), no(13, 0));
    let mut state = words(&Book::new(four_by_four(&[[0, 0, 1, 0, 10, 1]])));
    let mut delivery = [7; 80];
    state[3] = 4_294_967_294;
    assert_eq!(calls::step(&mut state, &mut delivery), Ok(0));
    assert_eq!(state[3], 4_294_967_295);
    assert_eq!(calls::step(&mut state, &mut delivery), no(11, 0));
}

#[test]
fn plan_sizes() {
    assert_eq!(read(&[0; 11]).unwrap_err(), Refusal { number: 1, place: 0 });
    for (size, taken) in [(1, true), (16, true), (17, false)] {
        let mut plan = four_by_four(&[[0, 0, 0, 0, 10, 1]]);
        (plan.sx, plan.sy) = (size, 1);
        let answer = read(&plan.file(&[])).map(|(plan, _)| plan.sx);
        let expected = if taken { Ok(size) } else { Err(Refusal { number: 3, place: 0 }) };
        assert_eq!(answer, expected);
    }
}

#[test]
fn the_smallest_torus() {
    let plan = Plan::of(1, 1, &[[0, 0, 0, 0, 3, 2]]);
    let mut book = Book::new(plan);
    for _ in 0..3 {
        book.offer(0).unwrap();
    }
    let exits: Vec<_> = (0..4).map(|_| book.step(5).unwrap()).collect();
    assert_eq!(
        exits,
        [vec![[0, 1, 0, 0, 0]], vec![[0, 2, 1, 1, 0]], vec![], vec![[0, 3, 3, 3, 0]]]
    );
    assert_eq!(book.lines[2].exit, Some((3, Router { row: 0, column: 0 })));
}

/// One column or one row, with a packet that crosses two links and one that goes round the end.
#[test]
fn one_column_and_one_row() {
    let lines = [(0, 2, 0), (0, 1, 0)];
    let flows = four_by_four(&[[0, 0, 0, 2, 9, 1], [0, 2, 0, 0, 9, 1]]).flows;
    assert_eq!(one_packet_each(Plan { sx: 1, sy: 3, flows }), lines);
    let flows = four_by_four(&[[0, 0, 2, 0, 9, 1], [2, 0, 0, 0, 9, 1]]).flows;
    assert_eq!(one_packet_each(Plan { sx: 3, sy: 1, flows }), lines);
}

#[test]
fn the_sample_listing() {
    let file = [
        0x01, 0x00, 0x02, 0x00, 0x0A, 0x00, 0x01, 0x00, 0x00, 0x00, 0x03, 0x00, 0x0A, 0x00, 0x01,
        0x00, 0x00, 0x00, 0x00, 0x00, 0x02, 0x00, 0x04, 0x04, 0x48, 0x52, 0x54, 0x50,
    ];
    assert_eq!(listing(&file), "flow port window flight wait\n0 E 3 3 11\n1 E 1 5 9\n");
    assert_eq!(listing(&file[..11]), "refused 1 0\n");
    let mut damaged = file;
    damaged[27] = 0x51;
    assert_eq!(listing(&damaged), "refused 2 0\n");
    damaged = file;
    damaged[14] = 0;
    assert_eq!(listing(&damaged), "refused 7 1\n");
    let mut slow = file;
    slow[15] = 1;
    assert_eq!(listing(&slow), "flow port window flight wait\n0 E 3 3 11\n1 E 1 5 65545\n");
}

/// A state that no run reaches (two lines with one serial) is a state all the same.
#[test]
fn made_up_states_are_states() {
    let mut random = random::Random::new(1);
    for _ in 0..300 {
        let plan = random::any_plan(&mut random);
        let state = random::state(&mut random, &plan);
        let book = judge(&state).expect("made to be a state");
        assert_eq!(words(&book), state, "the lines give the words back");
    }
}
