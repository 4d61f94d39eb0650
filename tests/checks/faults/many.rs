//! Faults of many steps in one call, each as a call with that fault in it.

use super::simulator::{Fault, OneCall, Slip, in_call, refused, slips};
use second::book::{self, Book, Bucket, PER_DELIVERY};
use second::calls;
use second::lent::Part::{Answer, Delivery, State};
use second::lent::{Call, Lent};
use second::plan::Flow;
use second::recent::groups;

fn cycles(lent: &Lent) -> u32 {
    if let Call::Steps(cycles) = lent.call { cycles } else { 0 }
}

/// The words that one step's deliveries take.
fn least(lent: &Lent) -> usize {
    PER_DELIVERY * (lent.state[0] * lent.state[1]) as usize
}

/// The call with cycles passed at once in this way.
fn passing(lent: &mut Lent, pass: impl Fn(&mut Book, i64) -> i64) -> u64 {
    let cycles = cycles(lent);
    let steps = |book: &mut Book, room| book.steps_passing(room, cycles, pass);
    lent.call.returned(calls::deliver(lent.state, lent.delivery, steps))
}

/// The call with as many cycles passed as would be idle after this change.
fn idle_after(lent: &mut Lent, change: impl Fn(&mut Book)) -> u64 {
    passing(lent, |book, most| {
        let mut changed = book.clone();
        change(&mut changed);
        let idle = changed.pass_idle(most);
        book.pass(idle);
        idle
    })
}

/// The call with this change of a book where idle cycles have passed, so many since this one.
fn bent(lent: &mut Lent, bend: impl Fn(&mut Book, &Book, i64)) -> u64 {
    passing(lent, |book, most| {
        let before = book.clone();
        let idle = book.pass_idle(most);
        if idle > 0 {
            bend(book, &before, idle);
        }
        idle
    })
}

/// The call with buckets that are this where idle cycles have passed, by what they were.
fn counting(lent: &mut Lent, count: impl Fn(&Flow, Bucket, i64) -> Bucket) -> u64 {
    bent(lent, |book, before, idle| {
        let buckets = before.plan.flows.iter().zip(&before.buckets);
        book.buckets = buckets.map(|(flow, &bucket)| count(flow, bucket, idle)).collect();
    })
}

/// Is it refused for no cycle? Then it is for any.
fn is_refused(lent: &Lent) -> bool {
    Lent { call: Call::Steps(0), ..lent.copied().lent() }.right() >= 1 << 32
}

/// The call with another number of cycles, if it isn't refused.
fn running(lent: &mut Lent, other: impl Fn(u32, &Lent) -> u32) -> u64 {
    let cycles = cycles(lent);
    let cycles = if is_refused(lent) { cycles } else { other(cycles, lent) };
    Lent { call: Call::Steps(cycles), ..lent.again() }.right()
}

/// The call with so many words of delivery memory, if it isn't refused. What doesn't fit is lost.
fn with_room(lent: &mut Lent, room: impl Fn(usize, usize) -> usize) -> u64 {
    if is_refused(lent) {
        return lent.right();
    }
    let (words, least) = (lent.delivery.len(), least(lent));
    let mut delivery = lent.delivery.to_vec();
    delivery.resize(room(words, least).max(least), 0);
    let answer = Lent { delivery: &mut delivery, ..lent.again() }.right();
    let fits = words.min(delivery.len());
    lent.delivery[..fits].copy_from_slice(&delivery[..fits]);
    answer
}

/// The call, but for this answer where it is accepted, by the exits of each step that has some.
fn answering(lent: &mut Lent, answer: impl Fn(&[&[book::Delivery]]) -> usize) -> u64 {
    match lent.right() {
        exits if exits < 1 << 32 => {
            let exits = groups(&lent.delivery[..PER_DELIVERY * exits as usize]);
            answer(&by_step(&exits)) as u64
        }
        no => no,
    }
}

/// The call, and this where it ends early.
fn ending(lent: &mut Lent, end: impl Fn(&mut Lent, u64) -> u64) -> u64 {
    let begins = lent.state.get(3).copied();
    let answer = lent.right();
    let ran = begins.map(|clock| lent.state[3] - clock);
    if answer < 1 << 32 && ran < Some(cycles(lent)) { end(lent, answer) } else { answer }
}

/// The exits of each step that has some.
fn by_step(exits: &[book::Delivery]) -> Vec<&[book::Delivery]> {
    exits.chunk_by(|one, next| one[3] == next[3]).collect()
}

/// A bucket that has counted so many cycles since its last token.
fn counted(flow: &Flow, bucket: Bucket, cycles: i64) -> Bucket {
    let tokens = flow.burst.min(bucket.tokens + cycles / flow.period);
    Bucket { tokens, count: cycles % flow.period }
}

/// Cycles that are passed and shouldn't be, and steps that are too few or too many. They show in the answer, in the
/// state or in the deliveries.
const RUNS: &[(&str, fn(&mut Lent) -> u64)] = &[
    ("a leap over a flow that has a token", |lent| {
        idle_after(lent, |book| {
            let flows = book.waiting.iter_mut().zip(&book.buckets);
            flows.filter(|(_, bucket)| bucket.tokens > 0).for_each(|(lines, _)| lines.clear());
        })
    }),
    ("a leap over a token that comes", |lent| {
        idle_after(lent, |book| {
            let flows = book.waiting.iter_mut().zip(&book.buckets);
            flows.filter(|(_, bucket)| bucket.tokens == 0).for_each(|(lines, _)| lines.clear());
        })
    }),
    ("a leap that doesn't look at the last flow", |lent| {
        idle_after(lent, |book| book.waiting.last_mut().unwrap().clear())
    }),
    ("a leap that looks at the last flow alone", |lent| {
        idle_after(lent, |book| {
            let (_, others) = book.waiting.split_last_mut().unwrap();
            others.iter_mut().for_each(|lines| lines.clear());
        })
    }),
    ("a leap over packets in flight", |lent| idle_after(lent, |book| book.placed.clear())),
    ("a leap over one packet in flight", |lent| {
        idle_after(lent, |book| {
            book.placed.pop();
        })
    }),
    ("a leap one cycle too far", |lent| {
        passing(lent, |book, most| {
            let idle = book.pass_idle(most);
            let further = idle > 0 && idle < most && book.clone().pass_idle(1) == 0;
            book.pass(further as i64);
            idle + further as i64
        })
    }),
    ("a cycle too many", |lent| running(lent, |cycles, _| cycles.saturating_add(1))),
    ("a cycle too few", |lent| running(lent, |cycles, _| cycles.saturating_sub(1))),
    ("no cycle taken for one", |lent| running(lent, |cycles, _| cycles.max(1))),
    ("one cycle at most", |lent| running(lent, |cycles, _| cycles.min(1))),
    ("cycles of one byte", |lent| running(lent, |cycles, _| cycles as u8 as u32)),
    ("cycles of two bytes", |lent| running(lent, |cycles, _| cycles as u16 as u32)),
    ("cycles of three bytes", |lent| running(lent, |cycles, _| cycles & 0xFF_FFFF)),
    ("cycles with a sign", |lent| running(lent, |cycles, _| (cycles as i32).max(0) as u32)),
    ("an end a cycle before the last clock", |lent| {
        running(lent, |cycles, lent| cycles.min(u32::MAX - 1 - lent.state[3]))
    }),
    ("cycles taken for the clock to come to", |lent| {
        running(lent, |cycles, lent| cycles.saturating_sub(lent.state[3]))
    }),
    ("one step more than the room allows", |lent| with_room(lent, |lent, least| lent + least)),
    ("room judged at the start alone", |lent| with_room(lent, |lent, _| lent + 9999)),
    ("an early end at exactly enough room", |lent| with_room(lent, |lent, _| lent - 1)),
    ("an early end a delivery too early", |lent| with_room(lent, |lent, _| lent - 5)),
    ("an early end without room for two steps", |lent| with_room(lent, |lent, least| lent - least)),
    ("an end a word too late", |lent| with_room(lent, |lent, _| lent + 1)),
];

/// What idle cycles come to, where the call ends or is refused, and its deliveries and their count.
const FAULTS: &[Slip] = &[
    ("a lost token kept over a leap", State, |lent| {
        counting(lent, |flow, bucket, idle| {
            let tokens = bucket.tokens + (bucket.count + idle) / flow.period;
            Bucket { tokens, ..counted(flow, bucket, bucket.count + idle) }
        })
    }),
    ("one token at most over a leap", State, |lent| {
        counting(lent, |flow, bucket, idle| {
            let after = counted(flow, bucket, bucket.count + idle);
            Bucket { tokens: after.tokens.min(bucket.tokens + 1), ..after }
        })
    }),
    ("a count not taken mod P over a leap", State, |lent| {
        counting(lent, |flow, bucket, idle| {
            let count = bucket.count + idle;
            Bucket { count, ..counted(flow, bucket, count) }
        })
    }),
    ("a count that rests in a full bucket over a leap", State, |lent| {
        counting(lent, |flow, bucket, idle| match bucket.tokens == flow.burst {
            true => bucket,
            false => counted(flow, bucket, bucket.count + idle),
        })
    }),
    ("a count and a leap added in 32 bits", State, |lent| {
        counting(lent, |flow, bucket, idle| {
            counted(flow, bucket, (bucket.count + idle) as u32 as i64)
        })
    }),
    ("a leap of two bytes in the buckets", State, |lent| {
        counting(lent, |flow, bucket, idle| counted(flow, bucket, bucket.count + (idle & 0xFFFF)))
    }),
    ("the clock not advanced over a leap", State, |lent| {
        bent(lent, |book, before, _| book.clock = before.clock)
    }),
    ("the clock advanced by one over a leap", State, |lent| {
        bent(lent, |book, before, _| book.clock = before.clock + 1)
    }),
    ("the last clock passed", State, |lent| {
        ending(lent, |lent, answer| {
            lent.state[3] %= u32::MAX;
            answer
        })
    }),
    ("refused where it should end early", Answer, |lent| ending(lent, |_, _| refused(10, 0))),
    ("refused with 11 where it should end early", Answer, |lent| {
        ending(lent, |_, _| refused(11, 0))
    }),
    ("nothing answered where it ends early", Answer, |lent| ending(lent, |_, _| 0)),
    ("room asked for all cycles at the start", Answer, |lent| {
        lent.but(0, refused(10, 0), |lent| {
            lent.delivery.len() < least(lent) * cycles(lent) as usize
        })
    }),
    ("nothing judged for no cycle", Answer, |lent| match cycles(lent) {
        0 => 0,
        _ => lent.right(),
    }),
    ("10 and 11 not judged for no cycle", Answer, |lent| match (cycles(lent), lent.number()) {
        (0, 10 | 11) => 0,
        _ => lent.right(),
    }),
    ("deliveries of a later step over an earlier one's", Delivery, |lent| {
        let (before, answer) = (lent.delivery.to_vec(), lent.right());
        let exits = if answer < 1 << 32 { PER_DELIVERY * answer as usize } else { 0 };
        let exits = groups(&lent.delivery[..exits]);
        lent.delivery.copy_from_slice(&before);
        for step in by_step(&exits) {
            lent.delivery[..PER_DELIVERY * step.len()].copy_from_slice(step.as_flattened());
        }
        answer
    }),
    ("exits of the last step only answered", Answer, |lent| {
        answering(lent, |steps| steps.last().map_or(0, |step| step.len()))
    }),
    ("exits of the first step only answered", Answer, |lent| {
        answering(lent, |steps| steps.first().map_or(0, |step| step.len()))
    }),
    ("the steps with exits counted", Answer, |lent| answering(lent, |steps| steps.len())),
    ("an answer of one byte", Answer, |lent| {
        answering(lent, |steps| steps.concat().len() as u8 as usize)
    }),
    ("the steps answered", Answer, |lent| {
        let begins = lent.state.get(3).copied().unwrap_or(0);
        match lent.right() {
            exits if exits < 1 << 32 => (lent.state[3] - begins) as u64,
            no => no,
        }
    }),
];

pub fn faults() -> Vec<Fault> {
    let call = Call::Steps(0);
    let runs =
        RUNS.iter().map(|&(name, does)| in_call(call, name, &[Answer, State, Delivery], does));
    runs.chain(slips(call, FAULTS)).collect()
}
