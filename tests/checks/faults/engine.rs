//! Faults of reset, offer, write and all forms of step, and of every call that judges the words of a state.

use super::records;
use super::simulator::{Fault, OneCall, Slip, refused, slips};
use second::book::Book;
use second::lent::Part::{Answer, Delivery, File, State, Target};
use second::lent::{Call, Lent};
use second::plan::{RECORD, change_records};
use second::state::{HEADER, PER_FLOW, judge};
use second::turning::most_deflections;

/// P, σ, tokens and count of the flows that the words say there are.
fn buckets(words: &mut [u32]) -> impl Iterator<Item = &mut [u32]> {
    let flows = words.get(2).map_or(0, |&flows| flows as usize);
    let words = words.get_mut(HEADER..).unwrap_or_default().chunks_exact_mut(PER_FLOW);
    words.take(flows).map(|flow| &mut flow[4..8])
}

/// The call, and this change of the buckets of which this holds, where it is accepted.
fn bucket_after(lent: &mut Lent, holds: fn(&[u32]) -> bool, change: fn(&mut [u32])) -> u64 {
    lent.then(0, |lent| buckets(lent.state).filter(|bucket| holds(bucket)).for_each(change))
}

fn is_full(bucket: &[u32]) -> bool {
    bucket[2] == bucket[1]
}

/// A full bucket whose count has come round: a token is lost, if it isn't spent in the same cycle.
fn is_round(bucket: &[u32]) -> bool {
    is_full(bucket) && bucket[3] == 0
}

/// A token too early: where this holds of a bucket after a step.
fn token_at(lent: &mut Lent, is_over: fn(&[u32]) -> bool) -> u64 {
    bucket_after(lent, is_over, |bucket| {
        bucket[2] = bucket[1].min(bucket[2] + 1);
        bucket[3] = 0;
    })
}

/// Faults that each form of step may have.
pub const STEPPED: &[Slip] = &[
    ("a clock that stands still", State, |lent| {
        lent.then(0, |lent| lent.state[3] = lent.state[3].wrapping_sub(1))
    }),
    ("deliveries one deflection short", Delivery, |lent| {
        let answer = lent.right();
        if (1..1 << 32).contains(&answer) && lent.delivery[4] > 0 {
            lent.delivery[4] -= 1;
        }
        answer
    }),
    ("11 where it comes to the last clock", Answer, |lent| match lent.right() {
        exits if exits < 1 << 32 && lent.state[3] == u32::MAX => refused(11, 0),
        answer => answer,
    }),
    ("a counter that rests in a full bucket", State, |lent| {
        bucket_after(lent, is_full, |bucket| bucket[3] = 0)
    }),
    ("a token that finds its bucket full, kept", State, |lent| {
        bucket_after(lent, is_round, |bucket| bucket[2] += 1)
    }),
    ("a count that doesn't return where a token is lost", State, |lent| {
        bucket_after(lent, is_round, |bucket| bucket[3] = bucket[0] - 1)
    }),
    ("a count of two bytes", State, |lent| {
        bucket_after(lent, |_| true, |bucket| bucket[3] &= 0xFFFF)
    }),
    ("a token after the low two bytes of P", State, |lent| {
        token_at(lent, |bucket| bucket[3] > 0 && bucket[3] == bucket[0] & 0xFFFF)
    }),
    ("a token after 65,535 cycles of a longer period", State, |lent| {
        token_at(lent, |bucket| bucket[0] > 65_535 && bucket[3] == 65_535)
    }),
];

const STEPS: [Call; 3] = [Call::Step, Call::Steps(0), Call::StepReasons];

/// The call on words that are judged with other buckets: it is refused by that, or else taken and not done.
fn judged(lent: &mut Lent, change: fn(&mut [u32])) -> u64 {
    let mut words = lent.state.to_vec();
    buckets(&mut words).for_each(change);
    match judge(&words) {
        Ok(_) if lent.number() == 9 => 0,
        Err(no) if lent.number() == 0 => refused(no.number, 0),
        _ => lent.right(),
    }
}

/// Does the state hold a packet with more deflections than there are turning rows?
fn passes_the_count(book: Book) -> bool {
    let lines = book.placed.iter().map(|&line| &book.lines[line]);
    lines.into_iter().any(|line| line.d > most_deflections(&book.plan, line.flow))
}

/// Faults that each call that judges the words of a state may have: a bucket judged as though it were another, or D by
/// what holds from reset alone.
const JUDGED: &[Slip] = &[
    ("a period of 2^24 taken", Answer, |lent| {
        judged(lent, |bucket| bucket[0] -= (bucket[0] == 1 << 24) as u32)
    }),
    ("a period judged by its low three bytes", Answer, |lent| {
        judged(lent, |bucket| bucket[0] &= 0xFF_FFFF)
    }),
    ("a period judged by its low two bytes", Answer, |lent| {
        judged(lent, |bucket| bucket[0] &= 0xFFFF)
    }),
    ("a period over 65,535 refused", Answer, |lent| {
        judged(lent, |bucket| bucket[0] *= (bucket[0] <= 65_535) as u32)
    }),
    ("a count over 65,535 refused", Answer, |lent| {
        judged(lent, |bucket| bucket[0] *= (bucket[3] <= 65_535) as u32)
    }),
    ("D over the turning rows refused", Answer, |lent| {
        let is_barred = lent.number() == 0 && judge(lent.state).is_ok_and(passes_the_count);
        if is_barred { refused(9, 0) } else { lent.right() }
    }),
];

const OFFERED: &[Slip] = &[("9 for a full bucket with a count", Answer, |lent| {
    let counts = |bucket: &mut [u32]| is_full(bucket) && bucket[3] > 0;
    let is_barred = lent.number() == 0 && buckets(lent.state).any(counts);
    if is_barred { refused(9, 0) } else { lent.right() }
})];

/// Writing, and this change of the records in the target.
fn rewrite(lent: &mut Lent, change: fn(&mut [u8; RECORD])) -> u64 {
    let answer = lent.right();
    if answer < 1 << 32 {
        let written = &mut lent.target[..answer as usize];
        written.copy_from_slice(&change_records(written, change));
    }
    answer
}

const WRITTEN: &[Slip] = &[
    ("the top byte of P not written", Target, |lent| rewrite(lent, |record| record[7] = 0)),
    ("P's bytes written in a row", Target, |lent| rewrite(lent, |record| record.swap(6, 7))),
    ("the top byte of P written for its middle one", Target, |lent| {
        rewrite(lent, |record| record[5] = record[7])
    }),
];

pub fn faults() -> Vec<Fault> {
    let judges = Call::ALL.into_iter().filter(|call| !call.takes().contains(&File));
    let judged = judges.flat_map(|call| slips(call, JUDGED));
    let stepped = STEPS.into_iter().flat_map(|call| slips(call, STEPPED));
    let misread = records::of_call(Call::Reset, &[Answer, State]);
    let own = slips(Call::Offer(0), OFFERED).chain(slips(Call::Write, WRITTEN));
    judged.chain(stepped).chain(misread).chain(own).collect()
}
