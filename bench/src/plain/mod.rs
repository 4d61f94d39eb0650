//! The calls in plain Rust: the honest baseline. Written for speed, with every check of 01's
//! table, of U1, U4, U6, U7 and U9, and with U5's periods and U8's turning rows, on the same memory; safe Rust with no
//! heap.

mod bounds;
mod files;
mod offers;
mod plan;
mod recent;
mod state;
mod step;
mod steps;

use bounds::burst;
pub use bounds::{flight, notes, window};
pub use files::reset;
pub use plan::numbers;
use second::lent::{Call, Lent};
use second::offers::{MOST_TRIAL, MOST_WAITING};
pub use step::step;

/// What plain Rust answers.
pub fn plain(lent: &mut Lent) -> u64 {
    match lent.call {
        Call::Notes => notes(lent.file),
        Call::Flight(flow) => flight(lent.file, flow),
        Call::Window(flow) => window(lent.file, flow).into(),
        Call::Burst(flow, packets) => burst(lent.file, flow, packets),
        Call::Reset => reset(lent.file, lent.state),
        Call::Offer(flow) => offers::offer(lent.state, flow, MOST_WAITING as u32, 13),
        Call::OfferTrial(flow) => offers::offer(lent.state, flow, MOST_TRIAL as u32, 18),
        Call::OfferSet => offers::offer_set(lent.state, lent.list),
        Call::Step => step(lent.state, lent.delivery),
        Call::Steps(cycles) => steps::steps(lent.state, lent.delivery, cycles),
        Call::StepReasons => step::step_reasons(lent.state, lent.delivery, lent.reasons),
        Call::Recent(last) => recent::recent(lent.state, lent.deliveries, lent.records, last),
        Call::Write => files::write(lent.state, lent.notes, lent.target),
    }
}

fn refused(number: u64, place: usize) -> u64 {
    number << 32 | place as u64
}

/// (to − from) mod size, for numbers below the size.
fn offset(from: u32, to: u32, size: u32) -> u32 {
    if to >= from { to - from } else { to + size - from }
}

/// The place after this one on a ring of so many.
fn next(place: usize, size: usize) -> usize {
    if place + 1 == size { 0 } else { place + 1 }
}
