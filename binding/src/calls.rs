//! The functions of include/hrt.h, one by one, on slices: what they return is not decoded.
//!
//! A slice is never null and knows its length, and a lent `&mut` overlaps nothing else, so what the
//! header asks of its caller always holds here.

use crate::Recent;

mod raw {
    use super::Recent;

    extern "C" {
        pub fn hrt_window(plan: *const u8, plan_bytes: usize, flow: u32) -> u32;
        pub fn hrt_burst(plan: *const u8, plan_bytes: usize, flow: u32, packets: u32) -> u64;
        pub fn hrt_flight(plan: *const u8, plan_bytes: usize, flow: u32) -> u64;
        pub fn hrt_notes(plan: *const u8, plan_bytes: usize) -> u64;
        pub fn hrt_reset(
            plan: *const u8,
            plan_bytes: usize,
            state: *mut u32,
            state_words: usize,
        ) -> u64;
        pub fn hrt_offer(state: *mut u32, state_words: usize, flow: u32) -> u64;
        pub fn hrt_offer_trial(state: *mut u32, state_words: usize, flow: u32) -> u64;
        pub fn hrt_offer_set(
            state: *mut u32,
            state_words: usize,
            flows: *const u32,
            flow_count: usize,
        ) -> u64;
        pub fn hrt_step(
            state: *mut u32,
            state_words: usize,
            delivery: *mut u32,
            delivery_words: usize,
        ) -> u64;
        pub fn hrt_steps(
            state: *mut u32,
            state_words: usize,
            delivery: *mut u32,
            delivery_words: usize,
            cycles: u32,
        ) -> u64;
        pub fn hrt_step_reasons(
            state: *mut u32,
            state_words: usize,
            delivery: *mut u32,
            delivery_words: usize,
            reasons: *mut u32,
            reason_words: usize,
        ) -> u64;
        pub fn hrt_recent(
            state: *const u32,
            state_words: usize,
            deliveries: *const u32,
            delivery_words: usize,
            records: *mut Recent,
            record_count: usize,
            last: u32,
        ) -> u64;
        pub fn hrt_write(
            state: *const u32,
            state_words: usize,
            notes: *const u8,
            notes_bytes: usize,
            target: *mut u8,
            target_bytes: usize,
        ) -> u64;
    }
}

/// The least window T of a flow, or 65,536 + the refusal's number.
#[inline]
pub fn window(plan: &[u8], flow: u32) -> u32 {
    unsafe { raw::hrt_window(plan.as_ptr(), plan.len(), flow) }
}

/// The least window B of a burst, so many packets of a flow.
#[inline]
pub fn burst(plan: &[u8], flow: u32, packets: u32) -> u64 {
    unsafe { raw::hrt_burst(plan.as_ptr(), plan.len(), flow, packets) }
}

/// The flight bound of a flow.
#[inline]
pub fn flight(plan: &[u8], flow: u32) -> u64 {
    unsafe { raw::hrt_flight(plan.as_ptr(), plan.len(), flow) }
}

/// The length of the notes, which lead the file.
#[inline]
pub fn notes(plan: &[u8]) -> u64 {
    unsafe { raw::hrt_notes(plan.as_ptr(), plan.len()) }
}

/// Makes the state of a plan. Answers 0.
#[inline]
pub fn reset(plan: &[u8], state: &mut [u32]) -> u64 {
    unsafe { raw::hrt_reset(plan.as_ptr(), plan.len(), state.as_mut_ptr(), state.len()) }
}

/// Offers one packet of a flow. Answers 0.
#[inline]
pub fn offer(state: &mut [u32], flow: u32) -> u64 {
    unsafe { raw::hrt_offer(state.as_mut_ptr(), state.len(), flow) }
}

/// Offers one packet of a flow for the trial generator. Answers 0.
#[inline]
pub fn offer_trial(state: &mut [u32], flow: u32) -> u64 {
    unsafe { raw::hrt_offer_trial(state.as_mut_ptr(), state.len(), flow) }
}

/// Offers one packet for each entry of a list of flows, all or none. Answers 0.
#[inline]
pub fn offer_set(state: &mut [u32], flows: &[u32]) -> u64 {
    unsafe { raw::hrt_offer_set(state.as_mut_ptr(), state.len(), flows.as_ptr(), flows.len()) }
}

/// One cycle. Answers the number of exits, for each of which it delivers five words.
#[inline]
pub fn step(state: &mut [u32], delivery: &mut [u32]) -> u64 {
    let (words, room) = (state.len(), delivery.len());
    unsafe { raw::hrt_step(state.as_mut_ptr(), words, delivery.as_mut_ptr(), room) }
}

/// So many cycles, each delivering behind the last, as far as the delivery memory and the clock go.
/// Answers the number of all exits.
#[inline]
pub fn steps(state: &mut [u32], delivery: &mut [u32], cycles: u32) -> u64 {
    let (words, room) = (state.len(), delivery.len());
    unsafe { raw::hrt_steps(state.as_mut_ptr(), words, delivery.as_mut_ptr(), room, cycles) }
}

/// One cycle, which also writes a word for each flow: why it didn't enter, 1 to 5, or 0 if it did.
/// Answers the number of exits.
#[inline]
pub fn step_reasons(state: &mut [u32], delivery: &mut [u32], reasons: &mut [u32]) -> u64 {
    let (words, room, told) = (state.len(), delivery.len(), reasons.len());
    let (state, delivery) = (state.as_mut_ptr(), delivery.as_mut_ptr());
    unsafe { raw::hrt_step_reasons(state, words, delivery, room, reasons.as_mut_ptr(), told) }
}

/// Feeds deliveries, five words each, to the records of their flows, which then hold the last ones,
/// at most `last` each. Answers 0.
#[inline]
pub fn recent(state: &[u32], deliveries: &[u32], records: &mut [Recent], last: u32) -> u64 {
    let (words, count) = (state.len(), records.len());
    let (state, records) = (state.as_ptr(), records.as_mut_ptr());
    let (deliveries, delivered) = (deliveries.as_ptr(), deliveries.len());
    unsafe { raw::hrt_recent(state, words, deliveries, delivered, records, count, last) }
}

/// Writes the plan file of a state, behind the notes. Answers the file's length in bytes.
#[inline]
pub fn write(state: &[u32], notes: &[u8], target: &mut [u8]) -> u64 {
    let (words, room) = (state.len(), target.len());
    let (state, target) = (state.as_ptr(), target.as_mut_ptr());
    unsafe { raw::hrt_write(state, words, notes.as_ptr(), notes.len(), target, room) }
}
