//! Times of one piece of work by two engines, alternating.

use crate::loads::Case;
use std::time::{Duration, Instant};

/// Two engines side by side: what each is called, what is done before a turn of the first (0) or the
/// second (1), and the functions that the first lacks.
#[derive(Clone, Copy)]
pub struct Sides<'a> {
    pub names: [&'static str; 2],
    pub before_turn: fn(usize),
    pub lacking: &'a [&'a str],
}

pub const PLAIN_AND_ARCHIVE: Sides =
    Sides { names: ["plain", "archive"], before_turn: |_| (), lacking: &[] };

/// Pairs of turns: the first engine, then the second. Others share the machine, so the best turn of each
/// gives its time, and the median of the pairs' ratios the ratio.
const PAIRS: usize = 41;
/// The least time of a turn: the work is done as often as that takes.
const LEAST_TURN: Duration = Duration::from_micros(500);

/// Nanoseconds per call of each, and the second's share of the first.
pub struct Times {
    first: f64,
    second: f64,
    ratio: f64,
}

impl Sides<'_> {
    pub fn both_have(self, function: &str) -> bool {
        !self.lacking.contains(&function)
    }

    /// Do both say so?
    pub fn both(self, first: impl Fn() -> bool, second: impl Fn() -> bool) -> bool {
        (self.before_turn)(0);
        let said = first();
        (self.before_turn)(1);
        said && second()
    }

    /// The times of two works. Each does a batch of so many calls.
    pub fn alternate(
        self,
        calls: usize,
        mut first: impl FnMut(),
        mut second: impl FnMut(),
    ) -> Times {
        let mut pair = || {
            let works: [&mut dyn FnMut(); 2] = [&mut first, &mut second];
            let mut side = 0;
            works.map(|work| {
                (self.before_turn)(side);
                side += 1;
                turn(calls, work)
            })
        };
        let mut pairs = [(); PAIRS].map(|()| pair());
        let best =
            |which: usize| pairs.iter().map(|pair| pair[which]).fold(f64::INFINITY, f64::min);
        let (first, second) = (best(0), best(1));
        pairs.sort_by(|a, b| (a[1] / a[0]).total_cmp(&(b[1] / b[0])));
        let [middle_first, middle_second] = pairs[PAIRS / 2];
        Times { first, second, ratio: middle_second / middle_first }
    }

    pub fn print_header(self) {
        let [first, second] = self.names.map(|name| format!("{name} ns"));
        println!(
            "call     torus  flows  load      {first:>10}  {second:>10}  ratio  {second} per router+flow"
        );
    }
}

/// Nanoseconds per call in one turn.
fn turn(calls: usize, work: &mut dyn FnMut()) -> f64 {
    let mut batches = 0;
    let began = Instant::now();
    loop {
        work();
        batches += 1;
        let spent = began.elapsed();
        if spent >= LEAST_TURN {
            return spent.as_nanos() as f64 / (batches * calls) as f64;
        }
    }
}

pub fn print_row(call: &str, case: &Case, times: Times) {
    let Case { size, flows, load, .. } = case;
    let Times { first, second, ratio } = times;
    let torus = format!("{size}x{size}");
    let load = load.name();
    let share = second / (case.routers() + flows) as f64;
    let decimals = if second < 10.0 { 2 } else { 0 };
    println!(
        "{call:8} {torus:6} {flows:5}  {load:9} {first:10.decimals$}  {second:10.decimals$}  {ratio:5.2}  {share:10.2}"
    );
}
