//! Streams with long pauses, in which a run goes from offer to offer in few calls: far offers, slow flows,
//! many exits between two offers, and the clock's end.

use super::expected::{Entry, Options};
use super::program::{Program, write};
use super::streams::{Pauses, Stream, compare, sample, stream};
use crate::book::LAST_CLOCK;
use crate::compare::Tally;
use crate::plan::{Flow, Plan};
use crate::random::{self, LONG_PERIODS, Random};
use std::time::{Duration, Instant};

/// Runs of these lines to their end and to each of these cycles, with exits and recent flights.
fn each(
    program: &Program,
    tally: &mut Tally,
    plan: &Plan,
    lines: &[(i64, Vec<u32>)],
    cycles: &[i64],
) {
    for cycles in cycles.iter().copied().map(Some).chain([None]) {
        let options = Options { cycles, recent: Some(3), ..Options::default() };
        compare(program, tally, plan, &Stream::of(lines.to_vec()), options);
    }
}

/// Offers after long pauses, and a packet that waits long for its token.
pub fn far(program: &Program, tally: &mut Tally) {
    let lines = [
        (7, vec![1, 1, 0]),
        (1_031, vec![0]),
        (99_999_999, vec![0, 1]),
        (100_000_000, vec![0, 0, 0]),
        (4_000_000_000, vec![1, 1]),
    ];
    let cycles = [8, 1_024, 1_031, 99_999_999, 100_000_001, 3_999_999_999, 4_000_000_015];
    each(program, tally, &sample(), &lines, &cycles);

    let flows = [[0, 0, 3, 1, 12_000_000, 1], [1, 0, 3, 0, 16_777_215, 2]].map(Flow::from_numbers);
    let slow = Plan { sx: 4, sy: 2, flows: flows.to_vec() };
    let lines = [(5, vec![0, 1, 0, 1, 1]), (12_000_000, vec![0]), (30_000_000, vec![0, 1])];
    each(program, tally, &slow, &lines, &[12_000_001, 29_999_999, 50_000_000]);
}

/// More packets leave between two offers than one call has room for.
pub fn many_exits(program: &Program, tally: &mut Tally) {
    let flow = |at: i64| Flow::from_numbers([at % 3, at / 3, (at + 1) % 3, at / 3, 2, 1]);
    let plan = Plan { sx: 3, sy: 3, flows: (0..9).map(flow).collect() };
    let all = |packets: u32| (0..9 * packets).map(|at| at % 9).collect::<Vec<_>>();
    let lines = [(0, all(60)), (1, all(1)), (3_000, all(40)), (3_001, vec![0])];
    each(program, tally, &plan, &lines, &[3_020, 70]);
}

/// The last cycles: packets that leave just in time, that are in flight at the end, and that wait.
pub fn last_clock(program: &Program, tally: &mut Tally) {
    for before in [1, 3, 4, 12] {
        let lines = [(3, vec![0]), (LAST_CLOCK - before, vec![1, 0, 1])];
        each(program, tally, &sample(), &lines, &[LAST_CLOCK - 1, LAST_CLOCK]);
    }
}

/// A thousand pings of all flows of 8 by 8 in 100,000,000 cycles run in half a second.
pub fn pings(program: &Program) {
    let flow = |at: i64| {
        let (x, y) = (at % 8, at / 8);
        Flow::from_numbers([x, y, (5 * x + y) % 8, (3 * y + 1) % 8, 2_000, 1])
    };
    let plan = Plan { sx: 8, sy: 8, flows: (0..64).map(flow).collect() };
    write(&program.file("run.plan"), &plan.file(b""));
    let stream = Stream::of((1..=1_000).map(|ping| (ping * 100_000, (0..64).collect())).collect());
    let began = Instant::now();
    let got = program.answer(&["run", "run.plan", "--summary"], stream.text.as_bytes());
    assert!(began.elapsed() < Duration::from_millis(500), "{:?}", began.elapsed());
    let text = String::from_utf8(got.out).unwrap();
    let left = |row: &str| row.split_whitespace().nth(3).unwrap().parse().unwrap_or(0);
    assert_eq!(text.lines().map(left).sum::<u64>(), 64_000, "{text}");
    assert_eq!((got.status, got.err.as_str()), (0, ""));
}

/// A stream with long pauses of a random plan, often with slow flows.
pub fn round(program: &Program, tally: &mut Tally, random: &mut Random, sx: i64, sy: i64) {
    let flows = random.from(1, 6) as usize;
    let mut plan = random::plan(random, sx, sy, flows);
    if random.percent(50) {
        plan.flows[random.index(flows)].period = random.pick(&LONG_PERIODS);
    }
    let lines = 1 + random.index(20);
    let longest = random.pick(&[1_000, 100_000, 20_000_000, 900_000_000]);
    let late = LAST_CLOCK - random.from(1, 5_000);
    let first = random.pick(&[0, 0, 0, 4_000_000_000, late]);
    let stream = stream(random, &plan, lines, Pauses { first, chance: 60, longest });
    let last = stream.entries.iter().filter_map(Entry::cycle).max().unwrap_or(0);
    let cycles = random.percent(30).then(|| random.from(0, last + longest).min(LAST_CLOCK));
    let recent = random.percent(40).then(|| 1 + random.index(16));
    let summary = random.percent(20);
    compare(program, tally, &plan, &stream, Options { cycles, recent, summary, why: None });
}
