//! Periods of three bytes, by U5: plan files with each boundary of P, rivals that are slow, states of
//! slow flows, and plan files that come back from their states byte for byte.

use super::{Memory, Run, Twin, states, steps};
use crate::book::Book;
use crate::lent::Call;
use crate::plan::{Flow, MOST_PERIOD, Plan, file_of};
use crate::random::LONG_PERIODS;
use crate::state::{size, words};

/// Files with each boundary of P, and with the refusals 6 and 7 in every order, for P of two bytes and
/// of three.
pub fn files() -> Vec<Vec<u8>> {
    let mut files = Vec::new();
    for (low, middle, top) in triples([0, 1, 128, 255]) {
        for burst in [0, 1, 255] {
            let between = record(low, middle, burst, top);
            files.push(file(&[record(9, 0, 255, 0), between, record(0, 1, 255, 1)]));
        }
    }
    let records = [
        record(9, 0, 1, 0),
        record(0, 0, 1, 1),
        // P or σ 0, or both.
        record(0, 0, 1, 0),
        record(0, 0, 0, 1),
        record(0, 0, 0, 0),
        // Off the torus, alone and with P or σ 0.
        [5, 1, 2, 0, 9, 0, 1, 1],
        [3, 1, 2, 3, 0, 0, 1, 0],
        [3, 3, 2, 0, 9, 0, 0, 255],
    ];
    files.extend(triples(records).map(|(first, second, third)| file(&[first, second, third])));
    files
}

/// The record of a flow from (3,1) to (2,0), with these bytes of P and this burst.
pub fn record(low: u8, middle: u8, burst: u8, top: u8) -> [u8; 8] {
    [3, 1, 2, 0, low, middle, burst, top]
}

/// All triples of these.
fn triples<T: Copy, const N: usize>(values: [T; N]) -> impl Iterator<Item = (T, T, T)> {
    (0..N * N * N).map(move |at| (values[at / N / N], values[at / N % N], values[at % N]))
}

/// The file of these records on a 5 by 3 torus, without notes.
pub fn file(records: &[[u8; 8]]) -> Vec<u8> {
    file_of(&[], records, 5, 3)
}

/// Flow 0 has the longest period; its rivals, of the same client, have these periods and this burst.
fn of_one_client(periods: impl IntoIterator<Item = i64>, burst: i64) -> Plan {
    let flow = |period, burst| Flow { xs: 0, ys: 0, xd: 1, yd: 2, period, burst };
    let rivals = periods.into_iter().map(|period| flow(period, burst));
    let flows = [flow(MOST_PERIOD, 1)].into_iter().chain(rivals).collect();
    Plan { sx: 2, sy: 3, flows }
}

/// Rivals that are all slow, and slow ones among quick ones that nearly fill the link.
pub fn slow_rivals() -> Vec<Plan> {
    vec![
        of_one_client(LONG_PERIODS, 1),
        of_one_client(LONG_PERIODS, 255),
        of_one_client([16; 15].into_iter().chain([MOST_PERIOD; 16]), 1),
        of_one_client([3, 3].into_iter().chain(LONG_PERIODS), 7),
    ]
}

/// Rivals whose rates fill the link exactly, with slow ones among them: halves down to 2^-23, and many
/// of 2^-16. Each with the last one's period a cycle longer and shorter too.
pub fn filled_links() -> Vec<Plan> {
    let halves = |least| (1..=least).map(|power| 1 << power);
    let few: Vec<i64> = halves(23).chain([1 << 23]).collect();
    let many: Vec<i64> = halves(11).chain([65_536; 32]).collect();
    let about = |periods: Vec<i64>| {
        [-1, 0, 1].map(|more| {
            let mut periods = periods.clone();
            *periods.last_mut().unwrap() += more;
            of_one_client(periods, 1)
        })
    };
    [few, many].into_iter().flat_map(about).collect()
}

/// States of a flow that waits for a token: every call on them, and steps in a row about the end of its
/// period and where bytes of its count turn over. And periods that are too long for a state.
pub fn slow_states(run: &mut Run) {
    for period in LONG_PERIODS {
        for turn in [256, 65_536, period - 65_536, period] {
            let count = (turn - 3).clamp(0, period - 1);
            let state = waiting_state(period as u32, count as u32);
            states::every_call(run, &state);
            let memory = &mut run.on(&state, 1);
            for _ in 0..6 {
                let step = steps::any(run.random, memory, 10, 1);
                run.accepts(step, memory);
            }
        }
    }
    let past = MOST_PERIOD as u32 + 1;
    for period in [past, past + 1, past + 65_536, 1 << 31, u32::MAX] {
        states::every_call(run, &waiting_state(period, 0));
    }
}

/// A flow with this period and count, no token and two packets waiting, on a 1 by 2 torus.
pub fn waiting_state(period: u32, count: u32) -> Vec<u32> {
    let flow = Flow { xs: 0, ys: 0, xd: 0, yd: 1, period: 1, burst: 2 };
    let mut state = words(&Book::new(Plan { sx: 1, sy: 2, flows: vec![flow] }));
    (state[12], state[14], state[15], state[17]) = (period, 0, count, 2);
    state
}

/// Plan files with every low and middle byte of P come back from their states byte for byte.
pub fn round_trips(run: &mut Run) {
    for top in [0, 1, 255] {
        for middle in 0..=255 {
            let records: Vec<_> = (0..=255).map(|low| record(low, middle, 1, top)).collect();
            round_trip(run, &file(&records));
        }
    }
}

/// A reset, and what writing gives back of its state: the same bytes.
fn round_trip(run: &mut Run, file: &[u8]) {
    let memory = &mut Memory::of_file(file);
    memory.state = Twin::noise_words(run.random, size(256, 15));
    if run.accepts(Call::Reset, memory) {
        run.write(memory, &[], file.len());
        assert!(memory.target.got() == file, "expected the bytes that reset read: {file:?}");
    }
}
