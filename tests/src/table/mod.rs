//! For each call its refusals in their order, each with how far it is from being due, and what the call reads and
//! writes. The words and bytes are read as they are lent, whether or not an earlier refusal is due.

mod said;

use crate::book::PER_DELIVERY;
use crate::lent::{Call, Lent, Part};
use crate::offers::{MOST_TRIAL, MOST_WAITING};
use crate::plan::{MOST_BYTES, TRAILER};
use crate::recent::ROOM;
use crate::state::{HEADER, size};
use Due::{Below, Room, Search, Where};
use said::*;

/// A call's refusals in their order, and the memories that it writes.
pub struct Row {
    pub call: Call,
    pub refusals: Vec<No>,
    pub writes: Vec<Written>,
}

/// A refusal.
pub struct No {
    pub number: u64,
    pub due: Due,
    pub place: fn(&Lent) -> usize,
    /// It can't be told where fewer than eight words of a state are lent, or fewer bytes than a trailer has.
    pub is_behind: bool,
}

/// Where a refusal is due.
#[derive(Clone, Copy)]
pub enum Due {
    /// Where the memory has fewer places than these, as far as they can be told.
    Room(Part, fn(&Lent) -> Option<usize>),
    /// Where this is below 0, as far as it can be told.
    Below(fn(&Lent) -> Option<i64>),
    /// Where this holds.
    Where(fn(&Lent) -> bool),
    /// Where a search finds nothing, which begins where nothing else is due.
    Search,
}

/// A memory that an accepted call writes, as far as this place, by what it left and what it answers.
pub struct Written {
    pub part: Part,
    pub end: fn(&Lent, u64) -> usize,
    /// Its last place is written anew, and not left as it is by every accepted call.
    pub last: bool,
}

impl Row {
    /// The memories that it only reads.
    pub fn reads(&self) -> impl Iterator<Item = Part> {
        let is_written = |part: &Part| self.writes.iter().any(|written| written.part == *part);
        self.call.takes().iter().copied().filter(move |part| !is_written(part))
    }

    /// The end of what it wrote in a memory, by what it left and answered.
    pub fn end(&self, at: usize, lent: &Lent, answer: u64) -> usize {
        (self.writes[at].end)(lent, answer)
    }

    /// Its numbers, each once.
    pub fn numbers(&self) -> Vec<u64> {
        let mut numbers: Vec<_> = self.refusals.iter().map(|no| no.number).collect();
        numbers.sort();
        numbers.dedup();
        numbers
    }

    /// The first refusal that is due, but for one by a search.
    pub fn first_due(&self, lent: &Lent) -> Option<usize> {
        self.refusals.iter().position(|no| no.is_due(lent))
    }
}

impl No {
    /// How far it is from being due, below 0 where it is.
    pub fn margin(&self, lent: &Lent) -> Option<i64> {
        match self.due {
            Due::Room(part, needed) => Some(lent.places(part) as i64 - needed(lent)? as i64),
            Due::Below(margin) => margin(lent),
            Due::Where(holds) => Some(-(holds(lent) as i64)),
            Due::Search => None,
        }
    }

    pub fn is_due(&self, lent: &Lent) -> bool {
        self.margin(lent).is_some_and(|margin| margin < 0)
    }

    /// It is for something past a limit.
    pub fn is_limit(&self) -> bool {
        matches!(self.due, Due::Room(..) | Due::Below(_))
    }
}

/// A refusal with place 0.
fn no(number: u64, due: Due) -> No {
    No { number, due, place: |_| 0, is_behind: false }
}

/// One that is told by what stands behind the first words, or by a trailer.
fn behind(no: No) -> No {
    No { is_behind: true, ..no }
}

/// The refusals of a plan file, flow by flow 6 before 7, and then these.
fn on_a_file(own: Vec<No>) -> Vec<No> {
    let six = |lent: &Lent| match [first_off_the_torus(lent), first_without_rate(lent)] {
        [Some(off), Some(without)] => off <= without,
        [off, _] => off.is_some(),
    };
    let file = vec![
        no(1, Room(Part::File, |_| Some(TRAILER))),
        no(1, Below(|lent| Some(MOST_BYTES as i64 - lent.file.len() as i64))),
        no(2, Where(|lent| trailer(lent).is_some() && !lent.file.ends_with(b"HRTP"))),
        no(
            3,
            Below(|lent| {
                trailer(lent).map(|[.., x, y]| within(x.min(y), 1, 16).min(16 - x.max(y)))
            }),
        ),
        no(4, Below(|lent| trailer(lent).map(|[_, count, ..]| within(count, 1, 256)))),
        no(5, Where(has_another_start)),
        No { place: |lent| first_off_the_torus(lent).unwrap(), ..no(6, Where(six)) },
        No {
            place: |lent| first_without_rate(lent).unwrap(),
            ..no(7, Where(|lent| first_without_rate(lent).is_some()))
        },
    ];
    file.into_iter().chain(own).map(behind).collect()
}

/// The refusals of the words of a state, and then these.
fn on_a_state(own: Vec<No>) -> Vec<No> {
    let state = vec![
        no(8, Room(Part::State, |_| Some(HEADER))),
        no(9, Where(has_no_header)),
        no(8, Room(Part::State, state_words)),
        behind(no(9, Where(has_no_rest))),
    ];
    state.into_iter().chain(own).collect()
}

/// 12 or 13, of the first entry that would be refused.
fn in_set() -> Vec<No> {
    let twelve = |lent: &Lent| match firsts_in_set(lent) {
        [Some(unknown), Some(full)] => unknown < full,
        [unknown, _] => unknown.is_some(),
    };
    let thirteen = |lent: &Lent| firsts_in_set(lent)[1].is_some();
    vec![
        No { place: |lent| firsts_in_set(lent)[0].unwrap(), ..no(12, Where(twelve)) },
        behind(No { place: |lent| firsts_in_set(lent)[1].unwrap(), ..no(13, Where(thirteen)) }),
    ]
}

fn stepping() -> Vec<No> {
    vec![
        no(10, Room(Part::Delivery, |lent| Some(PER_DELIVERY * said(lent)?.1))),
        no(11, Below(|lent| Some((u32::MAX - 1) as i64 - *lent.state.get(3)? as i64))),
    ]
}

/// The refusals of a call, and what it writes. The state's last word is one of a register, and the offers leave
/// those as they are.
pub fn row(call: Call) -> Row {
    let in_file = || no(12, Below(|lent| Some(trailer(lent)?[1] - 1 - named(lent)? as i64)));
    let search = || No { place: |lent| named(lent).unwrap(), ..no(14, Search) };
    let in_state = || no(12, Below(|lent| Some(flows(lent)? as i64 - 1 - named(lent)? as i64)));
    let state =
        |last| Written { part: Part::State, end: |lent, _| state_words(lent).unwrap(), last };
    let exits = || Written {
        part: Part::Delivery,
        end: |_, exits| PER_DELIVERY * exits as usize,
        last: true,
    };
    let by_flow = |part| Written { part, end: |lent, _| flows(lent).unwrap(), last: true };
    let (refusals, writes) = match call {
        Call::Notes => (on_a_file(vec![]), vec![]),
        Call::Flight(_) => (on_a_file(vec![in_file()]), vec![]),
        Call::Window(_) => (on_a_file(vec![in_file(), search()]), vec![]),
        Call::Burst(..) => {
            let own = vec![in_file(), no(20, Below(room_in_bucket)), search()];
            (on_a_file(own), vec![])
        }
        Call::Reset => {
            let needed = |lent: &Lent| {
                trailer(lent).map(|[_, count, x, y]| size(count as usize, (x * y) as usize))
            };
            (on_a_file(vec![no(8, Room(Part::State, needed))]), vec![state(true)])
        }
        Call::Offer(_) => {
            let own = vec![in_state(), behind(no(13, Below(|lent| room(lent, MOST_WAITING))))];
            (on_a_state(own), vec![state(false)])
        }
        Call::OfferTrial(_) => {
            let own = vec![in_state(), behind(no(18, Below(|lent| room(lent, MOST_TRIAL))))];
            (on_a_state(own), vec![state(false)])
        }
        Call::OfferSet => (on_a_state(in_set()), vec![state(false)]),
        Call::Step | Call::Steps(_) => (on_a_state(stepping()), vec![state(true), exits()]),
        Call::StepReasons => {
            let own = stepping().into_iter().chain([no(19, Room(Part::Reasons, flows))]);
            (on_a_state(own.collect()), vec![state(true), exits(), by_flow(Part::Reasons)])
        }
        Call::Recent(_) => {
            let last = |lent: &Lent| match lent.call {
                Call::Recent(last) => Some(within(last.into(), 1, ROOM as i64)),
                _ => None,
            };
            let strange = no(12, Where(has_a_strange_delivery));
            let own = vec![no(16, Room(Part::Records, flows)), no(17, Below(last)), strange];
            (on_a_state(own), vec![by_flow(Part::Records)])
        }
        Call::Write => {
            let long = |lent: &Lent| Some(MOST_BYTES as i64 - file_bytes(lent)? as i64);
            let own = vec![no(1, Below(long)), no(15, Room(Part::Target, file_bytes))];
            let end = |_: &Lent, length| length as usize;
            (on_a_state(own), vec![Written { part: Part::Target, end, last: true }])
        }
    };
    Row { call, refusals, writes }
}

/// The rows of the bounds, or of the engine's calls.
pub fn rows(bounds: bool) -> impl Iterator<Item = Row> {
    Call::ALL.into_iter().filter(move |call| call.is_bound() == bounds).map(row)
}
