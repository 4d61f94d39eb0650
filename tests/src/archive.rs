//! The archive, through the binding that every Rust host uses.

use crate::lent::{Call, Lent};
use crate::recent::Record;
use hrt::{Recent, calls};

/// What the linked archive answers.
pub fn archive(lent: &mut Lent) -> u64 {
    match lent.call {
        Call::Notes => calls::notes(lent.file),
        Call::Flight(flow) => calls::flight(lent.file, flow),
        Call::Window(flow) => calls::window(lent.file, flow).into(),
        Call::Burst(flow, packets) => calls::burst(lent.file, flow, packets),
        Call::Reset => calls::reset(lent.file, lent.state),
        Call::Offer(flow) => calls::offer(lent.state, flow),
        Call::OfferTrial(flow) => calls::offer_trial(lent.state, flow),
        Call::OfferSet => calls::offer_set(lent.state, lent.list),
        Call::Step => calls::step(lent.state, lent.delivery),
        Call::Steps(cycles) => calls::steps(lent.state, lent.delivery, cycles),
        Call::StepReasons => calls::step_reasons(lent.state, lent.delivery, lent.reasons),
        Call::Recent(last) => {
            calls::recent(lent.state, lent.deliveries, as_bound(lent.records), last)
        }
        Call::Write => calls::write(lent.state, lent.notes, lent.target),
    }
}

/// The same records where they stand, as the binding has them: 35 words each.
fn as_bound(records: &mut [Record]) -> &mut [Recent] {
    const { assert!(size_of::<Record>() == size_of::<Recent>() && size_of::<Record>() == 35 * 4) };
    // SAFETY: both are words alone, as many and laid out as in C.
    unsafe { std::slice::from_raw_parts_mut(records.as_mut_ptr().cast(), records.len()) }
}
