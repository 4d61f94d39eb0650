//! The calls of the C interface, and the memories that are lent to them: the archive answers them, and so may
//! another engine.

use crate::calls::Answer;
use crate::recent::Record;

/// A call, with the numbers that it is handed.
#[derive(Clone, Copy, Debug, Default, PartialEq, Eq)]
pub enum Call {
    #[default]
    Notes,
    /// Of a flow.
    Flight(u32),
    /// Of a flow.
    Window(u32),
    /// Of a flow, and so many packets.
    Burst(u32, u32),
    Reset,
    /// Of a flow.
    Offer(u32),
    /// Of a flow.
    OfferTrial(u32),
    OfferSet,
    Step,
    /// So many cycles.
    Steps(u32),
    StepReasons,
    /// So many deliveries kept at most.
    Recent(u32),
    Write,
}

impl Call {
    pub fn name(self) -> &'static str {
        match self {
            Call::Notes => "notes",
            Call::Flight(_) => "flight",
            Call::Window(_) => "window",
            Call::Burst(..) => "burst",
            Call::Reset => "reset",
            Call::Offer(_) => "offer",
            Call::OfferTrial(_) => "offer_trial",
            Call::OfferSet => "offer_set",
            Call::Step => "step",
            Call::Steps(_) => "steps",
            Call::StepReasons => "step_reasons",
            Call::Recent(_) => "recent",
            Call::Write => "write",
        }
    }

    /// Each call, with 0 for its numbers.
    pub const ALL: [Call; 13] = [
        Call::Notes,
        Call::Flight(0),
        Call::Window(0),
        Call::Burst(0, 0),
        Call::Reset,
        Call::Offer(0),
        Call::OfferTrial(0),
        Call::OfferSet,
        Call::Step,
        Call::Steps(0),
        Call::StepReasons,
        Call::Recent(0),
        Call::Write,
    ];

    /// The memories that it takes.
    pub fn takes(self) -> &'static [Part] {
        match self {
            Call::Notes | Call::Flight(_) | Call::Window(_) | Call::Burst(..) => &[Part::File],
            Call::Reset => &[Part::File, Part::State],
            Call::Offer(_) | Call::OfferTrial(_) => &[Part::State],
            Call::OfferSet => &[Part::State, Part::List],
            Call::Step | Call::Steps(_) => &[Part::State, Part::Delivery],
            Call::StepReasons => &[Part::State, Part::Delivery, Part::Reasons],
            Call::Recent(_) => &[Part::State, Part::Deliveries, Part::Records],
            Call::Write => &[Part::State, Part::Notes, Part::Target],
        }
    }

    /// The memory that is this part, lent in this way, if it takes it.
    fn lends<'a, M, T>(
        self,
        part: Part,
        memory: &'a mut M,
        lend: fn(&'a mut M) -> &'a mut [T],
    ) -> &'a mut [T] {
        if self.takes().contains(&part) { lend(memory) } else { &mut [] }
    }

    /// Is it one of the bounds, on a plan file alone?
    pub fn is_bound(self) -> bool {
        self.takes() == [Part::File]
    }

    /// An answer as the call returns it: its value, or number × 2^32 + place; of the window 65,536 + number.
    pub fn returned(self, answer: Answer) -> u64 {
        answer.unwrap_or_else(|no| match self {
            Call::Window(_) => 65_536 + no.number,
            _ => (no.number << 32) + no.place,
        })
    }

    /// The number of a refusal that the call returned, or 0.
    pub fn number(self, returned: u64) -> u64 {
        match self {
            Call::Window(_) => returned.saturating_sub(65_536),
            _ => returned >> 32,
        }
    }
}

/// What a call leaves: its answer, and its memories.
#[derive(Clone, Copy, Debug, PartialEq, Eq)]
pub enum Part {
    Answer,
    File,
    State,
    List,
    Delivery,
    Reasons,
    Deliveries,
    Records,
    Notes,
    Target,
}

impl Part {
    pub fn name(self) -> String {
        format!("{self:?}").to_lowercase()
    }
}

/// A call and all memories that there are.
#[derive(Clone, Debug, Default, PartialEq)]
pub struct Memories<Bytes, Words, Records> {
    pub call: Call,
    /// A plan file.
    pub file: Bytes,
    pub state: Words,
    /// The flows of a set.
    pub list: Words,
    /// For a step's deliveries.
    pub delivery: Words,
    /// For a step's reasons.
    pub reasons: Words,
    /// Deliveries to be fed to the records.
    pub deliveries: Words,
    pub records: Records,
    /// Notes to be written.
    pub notes: Bytes,
    /// For a file that is written.
    pub target: Bytes,
}

/// A call with what is lent to it.
pub type Lent<'a> = Memories<&'a mut [u8], &'a mut [u32], &'a mut [Record]>;

/// A call with memories of its own.
pub type Copied = Memories<Vec<u8>, Vec<u32>, Vec<Record>>;

/// An engine: what it answers to a call, as the call returns it.
pub type Engine<'a> = &'a dyn Fn(&mut Lent) -> u64;

impl<Bytes, Words, Records> Memories<Bytes, Words, Records> {
    /// Lends each memory that the call takes in this way. The others are empty.
    pub fn lend<'a>(
        &'a mut self,
        bytes: fn(&'a mut Bytes) -> &'a mut [u8],
        words: fn(&'a mut Words) -> &'a mut [u32],
        records: fn(&'a mut Records) -> &'a mut [Record],
    ) -> Lent<'a> {
        let call = self.call;
        Lent {
            call,
            file: call.lends(Part::File, &mut self.file, bytes),
            state: call.lends(Part::State, &mut self.state, words),
            list: call.lends(Part::List, &mut self.list, words),
            delivery: call.lends(Part::Delivery, &mut self.delivery, words),
            reasons: call.lends(Part::Reasons, &mut self.reasons, words),
            deliveries: call.lends(Part::Deliveries, &mut self.deliveries, words),
            records: call.lends(Part::Records, &mut self.records, records),
            notes: call.lends(Part::Notes, &mut self.notes, bytes),
            target: call.lends(Part::Target, &mut self.target, bytes),
        }
    }
}

impl Lent<'_> {
    /// How many words, records or bytes a memory has.
    pub fn places(&self, part: Part) -> usize {
        crate::with_memory!(part, memory in &self => memory.len())
    }

    /// The same once more, for a call within this one.
    pub fn again(&mut self) -> Lent<'_> {
        self.lend(|bytes| bytes, |words| words, |records| records)
    }

    pub fn copied(&self) -> Copied {
        Copied {
            call: self.call,
            file: self.file.to_vec(),
            state: self.state.to_vec(),
            list: self.list.to_vec(),
            delivery: self.delivery.to_vec(),
            reasons: self.reasons.to_vec(),
            deliveries: self.deliveries.to_vec(),
            records: self.records.to_vec(),
            notes: self.notes.to_vec(),
            target: self.target.to_vec(),
        }
    }
}

impl Copied {
    pub fn lent(&mut self) -> Lent<'_> {
        self.lend(Vec::as_mut_slice, Vec::as_mut_slice, Vec::as_mut_slice)
    }
}

/// Does something with the memory that a part names, whatever it is made of, or with two of that part.
#[macro_export]
macro_rules! with_memory {
    ($part:expr, $memory:ident in &mut $all:ident => $does:expr) => {
        $crate::with_memory!(@ $part, $does, $memory [&mut] $all)
    };
    ($part:expr, $memory:ident in &$all:ident => $does:expr) => {
        $crate::with_memory!(@ $part, $does, $memory [&] $all)
    };
    ($part:expr, $memory:ident in &mut $all:ident, $other:ident in &$others:ident => $does:expr) => {
        $crate::with_memory!(@ $part, $does, $memory [&mut] $all, $other [&] $others)
    };
    (@ $part:expr, $does:expr, $($memory:ident [$($lent:tt)+] $all:ident),+) => {
        match $part {
            $crate::lent::Part::Answer => panic!("the answer is no memory"),
            $crate::lent::Part::File => { $(let $memory = $($lent)+ $all.file;)+ $does }
            $crate::lent::Part::State => { $(let $memory = $($lent)+ $all.state;)+ $does }
            $crate::lent::Part::List => { $(let $memory = $($lent)+ $all.list;)+ $does }
            $crate::lent::Part::Delivery => { $(let $memory = $($lent)+ $all.delivery;)+ $does }
            $crate::lent::Part::Reasons => { $(let $memory = $($lent)+ $all.reasons;)+ $does }
            $crate::lent::Part::Deliveries => { $(let $memory = $($lent)+ $all.deliveries;)+ $does }
            $crate::lent::Part::Records => { $(let $memory = $($lent)+ $all.records;)+ $does }
            $crate::lent::Part::Notes => { $(let $memory = $($lent)+ $all.notes;)+ $does }
            $crate::lent::Part::Target => { $(let $memory = $($lent)+ $all.target;)+ $does }
        }
    };
}
