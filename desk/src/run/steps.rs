//! Many cycles in one call, where no offer comes between them. The call is taken back where it went past
//! the run's end, and where single steps might have had something to tell: then they are made.

use super::{leave, refused_step, Run};
use crate::end::End;
use crate::watch::{all_kept, WATCH};
use hrt::limits::LAST_CLOCK;
use hrt::State;
use std::io::{self, Read};

/// Where packets are waiting or in flight, a call goes over at most so many words of states, one state for
/// each cycle. That takes some tenth of a second, so that an interrupt doesn't wait longer.
const WORK: u32 = 1 << 27;

impl<R: Read> Run<R> {
    /// How many cycles come before the next offer, the cycle that was asked for and the last clock.
    pub(super) fn ahead(&self) -> u32 {
        let next = self.next.map(|offer| offer.cycle);
        let until = [next, self.cycles].into_iter().flatten().fold(LAST_CLOCK, u32::min);
        until - self.state.clock()
    }

    /// At most so many cycles in one call, and what leaves in them.
    pub(super) fn steps(&mut self, ahead: u32) -> io::Result<Option<End>> {
        let start = self.state.clock();
        self.before.clear();
        self.before.extend_from_slice(self.state.words());
        if let Err(refusal) = self.state.steps(self.at_once(ahead)).map(drop) {
            return Ok(Some(refused_step(refusal)));
        }
        let cycles = self.state.clock() - start;
        if !all_kept(&self.state, &self.tallies, start, self.here) {
            return self.apart(start, cycles);
        }
        if let Some(fewer) = self.to_the_end(start).filter(|&fewer| fewer < cycles) {
            return self.again(fewer);
        }
        if self.feed().is_err() {
            return self.apart(start, cycles);
        }
        match leave(Ok(self.state.deliveries()), &mut self.tallies, &mut self.output)? {
            Ok(left) => {
                self.count(cycles, left);
                Ok(None)
            }
            Err(end) => Ok(Some(end)),
        }
    }

    /// How many of so many cycles are taken in one call. They are idle where no packet is here.
    fn at_once(&self, ahead: u32) -> u32 {
        match self.here {
            0 => ahead,
            _ => ahead.min(WORK / self.state.words().len() as u32),
        }
    }

    /// After how many cycles from this clock on the run ends, if everything has left.
    fn to_the_end(&self, start: u32) -> Option<u32> {
        let exits = self.state.deliveries();
        match self.ended && exits.len() as u64 == self.here {
            true => exits.last().map(|last| last.exit + 1 - start),
            false => None,
        }
    }

    /// Takes so many cycles from this clock on back, in which there may be something to tell: half of them
    /// are tried again, or if they are few all are stepped one by one.
    fn apart(&mut self, start: u32, cycles: u32) -> io::Result<Option<End>> {
        if cycles > WATCH {
            return self.again(cycles / 2);
        }
        self.singly = start + cycles;
        Ok(self.take_back().err())
    }

    /// Takes the last call back, and makes one of so many cycles.
    fn again(&mut self, cycles: u32) -> io::Result<Option<End>> {
        match self.take_back() {
            Ok(()) => self.steps(cycles),
            Err(end) => Ok(Some(end)),
        }
    }

    fn take_back(&mut self) -> Result<(), End> {
        let broken = |refusal| End::Broken(format!("the words of a state are {refusal}"));
        self.state = State::of_words(self.before.clone()).map_err(broken)?;
        Ok(())
    }
}
