//! One call after the other, each by the second simulator and by the other engines: the answers and all memories
//! are compared.

use super::{Memory, Tally, Twin};
use crate::calls::{self, Answer};
use crate::lent::{Call, Copied, Engine, Lent, Part};
use crate::random::Random;
use crate::with_memory;
use std::panic::resume_unwind;

/// A comparison under way.
pub struct Run<'a, 'b> {
    pub others: &'a mut Others<'b>,
    pub tally: &'a mut Tally,
    pub random: &'a mut Random,
}

/// The engines that are compared at once, each until it differs. The comparison ends where all do.
pub struct Others<'a> {
    engines: Vec<Other<'a>>,
}

/// An engine that is compared.
pub struct Other<'a> {
    pub engine: Engine<'a>,
    /// The call that is its own, if one alone is: it has the others from the simulator.
    pub call: Option<&'static str>,
    /// What was told of its first difference.
    pub told: Option<String>,
}

impl<'a> Others<'a> {
    /// One engine alone.
    pub fn one(engine: Engine<'a>) -> Others<'a> {
        Others::of(vec![Other { engine, call: None, told: None }])
    }

    pub fn of(engines: Vec<Other<'a>>) -> Others<'a> {
        Others { engines }
    }

    /// The call by each that doesn't differ yet, on what it was before.
    fn compare(&mut self, tally: &mut Tally, memory: &mut Memory, before: &Copied, answer: Answer) {
        let is_own = |call: Option<&str>| call.is_none_or(|call| call == before.call.name());
        for other in self.engines.iter_mut().filter(|other| is_own(other.call)) {
            if other.told.is_none() {
                memory.give(before);
                let got = (other.engine)(&mut memory.got());
                other.told = difference(tally, memory, answer, got).map(|(part, how)| {
                    let (seed, call) = (tally.seed, before.call.name());
                    format!("seed {seed}, {call}, {}: {how}; {before:?}", part.name())
                });
            }
        }
        if self.engines.iter().all(|other| other.told.is_some()) {
            let told = self.engines[0].told.clone().unwrap();
            if self.engines.len() == 1 { panic!("{told}") } else { resume_unwind(Box::new(told)) }
        }
        memory.settle();
    }

    /// What was told of each.
    pub fn told(self) -> impl Iterator<Item = Option<String>> {
        self.engines.into_iter().map(|other| other.told)
    }
}

impl Run<'_, '_> {
    /// A call by all. Gives what it is to answer.
    pub fn call(&mut self, call: Call, memory: &mut Memory) -> Answer {
        self.call_by(call, memory, calls::answer)
    }

    /// Is the call to be accepted? It is made by all.
    pub fn accepts(&mut self, call: Call, memory: &mut Memory) -> bool {
        self.call(call, memory).is_ok()
    }

    /// A call by all, where this gives what is expected.
    pub fn call_by(
        &mut self,
        call: Call,
        memory: &mut Memory,
        expected: impl FnOnce(&mut Lent) -> Answer,
    ) -> Answer {
        memory.call = call;
        let before = memory.expected().copied();
        let answer = expected(&mut memory.expected());
        self.tally.count(call.name(), answer.map_or_else(|no| no.number, |_| 0));
        self.others.compare(self.tally, memory, &before, answer);
        if let (Call::StepReasons, Ok(_)) = (call, answer) {
            let flows = memory.words()[2] as usize;
            self.tally.tell(&memory.reasons.expected()[..flows]);
        }
        answer
    }

    /// Writing these notes to a target of so many bytes of noise.
    pub fn write(&mut self, memory: &mut Memory, notes: &[u8], room: usize) {
        memory.notes = Twin::exact(notes);
        memory.target = Twin::noise_bytes(self.random, room);
        self.accepts(Call::Write, memory);
    }

    /// A state alone: these words, with noise around them, and so much of it behind.
    pub fn on(&mut self, state: &[u32], past: usize) -> Memory {
        Memory::of(Twin::words(self.random, state, past))
    }
}

/// What differs first, and how: the answer, or else a memory.
fn difference(
    tally: &mut Tally,
    memory: &Memory,
    answer: Answer,
    got: u64,
) -> Option<(Part, String)> {
    let expected = memory.call.returned(answer);
    if expected != got {
        return Some((Part::Answer, format!("expected {expected} ({answer:?}), got {got}")));
    }
    for &part in memory.call.takes() {
        with_memory!(part, twin in &memory => {
            tally.words += twin.expected.len() as u64;
            if let Some((place, expected, got)) = twin.difference() {
                let how = format!("place {place}: expected {expected:?}, got {got:?}");
                return Some((part, how));
            }
        });
    }
    None
}
