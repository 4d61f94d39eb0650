//! Each call as 01 or 02 states it, on lent memory: what it answers and what the memory is afterwards.

use crate::book::{Book, Delivery};
use crate::lent::{Call, Lent};
use crate::plan::{MOST_BYTES, Refusal, read, refuse};
use crate::recent::{self, Record};
use crate::state::{judge, words};
use crate::window::{burst_call, flight_call, window_call};

pub type Answer = Result<u64, Refusal>;

/// The second simulator's answer to a call.
pub fn answer(lent: &mut Lent) -> Answer {
    match lent.call {
        Call::Notes => notes(lent.file),
        Call::Flight(flow) => flight_call(lent.file, flow),
        Call::Window(flow) => window_call(lent.file, flow),
        Call::Burst(flow, packets) => burst_call(lent.file, flow, packets),
        Call::Reset => reset(lent.file, lent.state),
        Call::Offer(flow) => offer(lent.state, flow),
        Call::OfferTrial(flow) => offer_trial(lent.state, flow),
        Call::OfferSet => offer_set(lent.state, lent.list),
        Call::Step => step(lent.state, lent.delivery),
        Call::Steps(cycles) => steps(lent.state, lent.delivery, cycles),
        Call::StepReasons => step_reasons(lent.state, lent.delivery, lent.reasons),
        Call::Recent(last) => recent(lent.state, lent.deliveries, lent.records, last),
        Call::Write => write(lent.state, lent.notes, lent.target),
    }
}

/// The second simulator as an engine.
pub fn simulator(lent: &mut Lent) -> u64 {
    lent.call.returned(answer(lent))
}

/// The notes' call: the length of the notes, which lead the file.
pub fn notes(file: &[u8]) -> Answer {
    read(file).map(|(_, notes)| notes.len() as u64)
}

/// Reset: plan, then 8.
pub fn reset(file: &[u8], memory: &mut [u32]) -> Answer {
    let (plan, _) = read(file)?;
    if memory.len() < plan.state_words() {
        return refuse(8, 0);
    }
    lay_down(&Book::new(plan), memory);
    Ok(0)
}

/// Writes the book's words over the front of the memory; what is past them stays.
fn lay_down(book: &Book, memory: &mut [u32]) {
    let words = words(book);
    memory[..words.len()].copy_from_slice(&words);
}

/// A call on the book that the memory holds: 8 and 9, then its own refusals. What it leaves of the book
/// is laid down, if it isn't refused.
fn change<T>(
    memory: &mut [u32],
    call: impl FnOnce(&mut Book) -> Result<T, Refusal>,
) -> Result<T, Refusal> {
    let mut book = judge(memory)?;
    let given = call(&mut book)?;
    lay_down(&book, memory);
    Ok(given)
}

/// Offer: 8 and 9, then 12, 13.
pub fn offer(memory: &mut [u32], flow: u32) -> Answer {
    change(memory, |book| book.offer(flow))
}

/// The trial generator's offer: 8 and 9, then 12, 18.
pub fn offer_trial(memory: &mut [u32], flow: u32) -> Answer {
    change(memory, |book| book.offer_trial(flow))
}

/// A set of offers: 8 and 9, then 12 or 13 of the first entry that would be refused.
pub fn offer_set(memory: &mut [u32], flows: &[u32]) -> Answer {
    change(memory, |book| book.offer_set(flows))
}

/// A form of step, which writes its exits over the front of the delivery memory and answers their count.
pub fn deliver(
    memory: &mut [u32],
    delivery: &mut [u32],
    step: impl FnOnce(&mut Book, usize) -> Result<Vec<Delivery>, Refusal>,
) -> Answer {
    let room = delivery.len();
    let exits = change(memory, |book| step(book, room))?.concat();
    delivery[..exits.len()].copy_from_slice(&exits);
    Ok(exits.len() as u64 / 5)
}

/// Step: 8 and 9, then 10, 11.
pub fn step(memory: &mut [u32], delivery: &mut [u32]) -> Answer {
    deliver(memory, delivery, |book, room| book.step(room))
}

/// Many steps: 8 and 9, then 10, 11, for no cycle too.
pub fn steps(memory: &mut [u32], delivery: &mut [u32], cycles: u32) -> Answer {
    deliver(memory, delivery, |book, room| book.steps(room, cycles))
}

/// A step with reasons: 8 and 9, then 10, 11, 19.
pub fn step_reasons(memory: &mut [u32], delivery: &mut [u32], reasons: &mut [u32]) -> Answer {
    deliver(memory, delivery, |book, room| {
        let (exits, why) = book.step_reasons(room, reasons.len())?;
        reasons[..why.len()].copy_from_slice(&why);
        Ok(exits)
    })
}

/// Recent flights: 8 and 9, then 16, 17, 12.
pub fn recent(memory: &[u32], deliveries: &[u32], records: &mut [Record], last: u32) -> Answer {
    let plan = judge(memory)?.plan;
    if records.len() < plan.flows.len() {
        return refuse(16, 0);
    }
    if !(1..=recent::ROOM as u32).contains(&last) {
        return refuse(17, 0);
    }
    let groups = recent::groups(deliveries);
    if !groups.iter().all(|&group| recent::is_of_plan(&plan, group)) {
        return refuse(12, 0);
    }
    for group in groups {
        recent::feed(records, group, last as usize);
    }
    Ok(0)
}

/// Writing: 8 and 9, then 1, 15.
pub fn write(memory: &[u32], notes: &[u8], target: &mut [u8]) -> Answer {
    let plan = judge(memory)?.plan;
    let length = plan.file_bytes(notes.len());
    if length > MOST_BYTES {
        return refuse(1, 0);
    }
    if target.len() < length {
        return refuse(15, 0);
    }
    target[..length].copy_from_slice(&plan.file(notes));
    Ok(length as u64)
}
