//! The desk program beside the second simulator: what `run` prints for random plans and streams, the
//! round trip of `show` and `plan`, each fault of texts and streams, long periods, long pauses, lines of
//! several flows and of the trial generator, why a flow waits, the windows of bursts, and how it ends.

pub mod bursts;
mod ends;
pub mod expected;
mod faults;
pub mod kept;
mod periods;
pub mod program;
mod sets;
mod sparse;
mod streams;
mod texts;
mod trials;
pub mod why;

use crate::compare::Tally;
use crate::compare::parts::{Extent, rounds};
use program::Program;

/// Of a hundred rounds so many have a stream with long pauses too, and so many the bursts of a plan.
const SPARSE: i64 = 40;
const BURSTS: i64 = 30;

/// Runs the whole part. The program writes in a folder of its own.
pub fn run(program: &str, seed: u64, extent: Extent) -> Tally {
    let program = Program::new(program);
    let mut tally = Tally::new(seed);
    calls(&program, &mut tally, extent);
    ends::processes(&program);
    bursts::most(&program);
    periods::longest(&program);
    sparse::pings(&program);
    tally
}

/// What is compared call by call.
pub fn calls(program: &Program, tally: &mut Tally, extent: Extent) {
    faults::texts(program, tally);
    faults::streams(program, tally);
    ends::calls(program, tally);
    ends::interrupted(program, tally);
    why::each_reason(program, tally);
    why::each_ending(program, tally);
    why::both_ends(program, tally);
    why::spelled(program, tally);
    why::words(program, tally);
    why::unknown(program, tally);
    bursts::plans(program, tally);
    bursts::both_ends(program, tally);
    streams::full_queue(program, tally);
    sets::behind_each_other(program, tally);
    sets::full_queue(program, tally);
    streams::met_exactly(program, tally);
    periods::texts(program, tally);
    periods::refused(program, tally);
    periods::runs(program, tally);
    sparse::far(program, tally);
    sparse::many_exits(program, tally);
    sparse::last_clock(program, tally);
    trials::alone(program, tally);
    trials::beside_the_sonar(program, tally);
    trials::full_queue(program, tally);
    trials::queues(program, tally);
    sets::full_queues(program, tally);
    rounds("desk", tally, extent, |tally, random, sx, sy| {
        texts::round(program, tally, random, sx, sy);
        streams::round(program, tally, random, sx, sy);
        if random.percent(SPARSE) {
            sparse::round(program, tally, random, sx, sy);
        }
        if random.percent(BURSTS) {
            bursts::round(program, tally, random, sx, sy);
        }
    });
}
