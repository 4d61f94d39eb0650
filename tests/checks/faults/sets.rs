//! Faults of sets of offers, each as a call with that fault in it.

use super::simulator::{OneCall, Slip, refused};
use second::lent::Lent;
use second::lent::Part::{Answer, State};
use second::state::{judge, waiting_at};

/// What the call without a fault answers: a number, or 0, and a place.
fn answer(lent: &Lent) -> (u64, usize) {
    let answer = lent.answer();
    (answer >> 32, answer as u32 as usize)
}

/// The number and the place of the entry that is refused, if one is.
fn refused_entry(lent: &Lent) -> Option<(u64, usize)> {
    Some(answer(lent)).filter(|(number, _)| [12, 13].contains(number))
}

fn count(lent: &Lent) -> u32 {
    lent.state[2]
}

fn add(lent: &mut Lent, entries: &[u32]) {
    entries.iter().for_each(|&flow| lent.state[waiting_at(flow as usize)] += 1);
}

/// The call, but for these entries added where the list is accepted.
fn adding(lent: &mut Lent, entries: impl Fn(&[u32]) -> Vec<u32>) -> u64 {
    let answer = lent.answer();
    if answer == 0 {
        add(lent, &entries(lent.list));
    }
    answer
}

/// The call, but for the place of a refused entry, which follows from the list and its position.
fn placed(lent: &mut Lent, place: impl Fn(&[u32], usize) -> usize) -> u64 {
    match refused_entry(lent) {
        Some((number, at)) => refused(number, place(lent.list, at)),
        None => lent.right(),
    }
}

/// The call, but for the entries before a refused one that are left added: those that follow from
/// its number and flow.
fn leaving(lent: &mut Lent, left: impl Fn(u64, u32, u32) -> bool) -> u64 {
    let Some((number, at)) = refused_entry(lent) else {
        return lent.right();
    };
    let (before, flow) = (&lent.list[..at], lent.list[at]);
    let entries: Vec<_> = before.iter().copied().filter(|&e| left(number, flow, e)).collect();
    add(lent, &entries);
    refused(number, at)
}

/// The call with 13 decided in this way: by how many packets of the entry's flow waited before the
/// call, how many entries before it are of that flow, and its position.
fn full_by(lent: &mut Lent, is_full: impl Fn(u32, u32, u32) -> bool) -> u64 {
    if judge(lent.state).is_err() {
        return lent.right();
    }
    let mut named = vec![0; count(lent) as usize];
    for (at, &flow) in lent.list.iter().enumerate() {
        let Some(before) = named.get_mut(flow as usize) else {
            return refused(12, at);
        };
        if is_full(lent.state[waiting_at(flow as usize)], *before, at as u32) {
            return refused(13, at);
        }
        *before += 1;
    }
    add(lent, &lent.list.to_vec());
    0
}

/// The call with the list changed.
fn reading(lent: &mut Lent, mut list: Vec<u32>) -> u64 {
    Lent { list: &mut list, ..lent.again() }.right()
}

/// The call with each number changed.
fn naming(lent: &mut Lent, change: fn(u32) -> u32) -> u64 {
    let list = lent.list.iter().map(|&flow| change(flow)).collect();
    reading(lent, list)
}

/// The call, but for an empty list that is accepted where a number is due.
fn empty(lent: &mut Lent, number: u64) -> u64 {
    lent.but(number, 0, |lent| lent.list.is_empty())
}

pub const FAULTS: &[Slip] = &[
    ("the second of two equal numbers not counted", State, |lent| {
        adding(lent, |list| {
            let first = |&at: &usize| !list[..at].contains(&list[at]);
            (0..list.len()).filter(first).map(|at| list[at]).collect()
        })
    }),
    ("the last entry dropped", State, |lent| {
        adding(lent, |list| list[..list.len().saturating_sub(1)].to_vec())
    }),
    ("the first entry dropped", State, |lent| {
        adding(lent, |list| list.iter().copied().skip(1).collect())
    }),
    ("the first entry added for each", State, |lent| {
        adding(lent, |list| list.iter().map(|_| list[0]).collect())
    }),
    ("waiting set to the entries, not raised by them", State, |lent| {
        if lent.answer() == 0 {
            lent.list.iter().for_each(|&flow| lent.state[waiting_at(flow as usize)] = 0);
        }
        lent.right()
    }),
    ("the first entries left added after a refusal", State, |lent| leaving(lent, |_, _, _| true)),
    ("the first entries left added after 12", State, |lent| {
        leaving(lent, |number, _, _| number == 12)
    }),
    ("the first entries left added after 13", State, |lent| {
        leaving(lent, |number, _, _| number == 13)
    }),
    ("entries of other flows left added", State, |lent| {
        leaving(lent, |_, flow, entry| entry != flow)
    }),
    ("the refused entry taken back too", State, |lent| {
        let place = answer(lent).1;
        lent.then(13, |lent| lent.state[waiting_at(lent.list[place] as usize)] -= 1)
    }),
    ("the entries before a refused one accepted", Answer, |lent| {
        let Some((_, at)) = refused_entry(lent) else {
            return lent.right();
        };
        add(lent, &lent.list[..at].to_vec());
        0
    }),
    ("an unknown number passed over", Answer, |lent| {
        let known = |flow: &u32| lent.state.get(2).is_none_or(|count| flow < count);
        let list = lent.list.iter().copied().filter(known).collect();
        reading(lent, list)
    }),
    ("the flow for the place", Answer, |lent| placed(lent, |list, at| list[at] as usize)),
    ("place 0, as of one offer", Answer, |lent| placed(lent, |_, _| 0)),
    ("places from the list's end", Answer, |lent| placed(lent, |list, at| list.len() - 1 - at)),
    ("a place among the entries of its flow", Answer, |lent| {
        placed(lent, |list, at| list[..at].iter().filter(|&&flow| flow == list[at]).count())
    }),
    ("a place of 16 bits", Answer, |lent| placed(lent, |_, at| at as u16 as usize)),
    ("13 one late with repeats", Answer, |lent| {
        full_by(lent, |waiting, before, _| waiting == 65_535 || waiting + before >= 65_536)
    }),
    ("13 one early with repeats", Answer, |lent| {
        full_by(lent, |waiting, before, _| waiting + before >= 65_535 - (before > 0) as u32)
    }),
    ("13 by what waited before the call", Answer, |lent| {
        full_by(lent, |waiting, _, _| waiting >= 65_535)
    }),
    ("13 by the entries of every flow", Answer, |lent| {
        full_by(lent, |waiting, _, at| waiting + at >= 65_535)
    }),
    ("13 never", Answer, |lent| full_by(lent, |_, _, _| false)),
    ("12 anywhere before 13", Answer, |lent| match answer(lent) {
        (13, at) => {
            let unknown = (at..lent.list.len()).find(|&at| lent.list[at] >= count(lent));
            unknown.map_or(refused(13, at), |unknown| refused(12, unknown))
        }
        _ => lent.right(),
    }),
    ("the last unknown number for the first", Answer, |lent| match answer(lent) {
        (12, _) => {
            let last = lent.list.iter().rposition(|&flow| flow >= count(lent));
            refused(12, last.unwrap())
        }
        _ => lent.right(),
    }),
    ("an empty list refused", Answer, |lent| {
        lent.but(0, refused(12, 0), |lent| lent.list.is_empty())
    }),
    ("an empty list accepted where 9 is due", Answer, |lent| empty(lent, 9)),
    ("an empty list accepted where 8 is due", Answer, |lent| empty(lent, 8)),
    ("the count of entries answered", Answer, |lent| match lent.right() {
        0 => lent.list.len() as u64,
        no => no,
    }),
    ("more entries than flows refused", Answer, |lent| {
        let most = lent.state.get(2).map_or(0, |&flows| flows as usize);
        lent.but(0, refused(12, most), |lent| lent.list.len() > most)
    }),
    ("numbers of 8 bits", Answer, |lent| naming(lent, |flow| flow as u8 as u32)),
    ("numbers of 16 bits", Answer, |lent| naming(lent, |flow| flow as u16 as u32)),
];
