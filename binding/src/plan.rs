//! Plan files.

use crate::{calls, Answer, Refusal, State};

/// A plan file that the archive accepts.
#[derive(Clone, Debug, PartialEq, Eq)]
pub struct Plan {
    bytes: Vec<u8>,
    notes: usize,
}

impl Plan {
    /// Has a file judged: refusals 1 to 7. A file longer than
    /// [`MOST_PLAN_BYTES`](crate::limits::MOST_PLAN_BYTES) is refused with 1, so a reader may stop
    /// one byte past that.
    pub fn read(bytes: Vec<u8>) -> Result<Plan, Refusal> {
        let notes = Answer::of(calls::notes(&bytes)).done()? as usize;
        Ok(Plan { bytes, notes })
    }

    /// The whole file.
    pub fn bytes(&self) -> &[u8] {
        &self.bytes
    }

    /// The notes, which lead the file: any bytes.
    pub fn notes(&self) -> &[u8] {
        &self.bytes[..self.notes]
    }

    /// The least window T of a flow, 1 to 65,535. Refusals 12 and 14.
    pub fn window(&self, flow: u32) -> Answer {
        Answer::of_window(calls::window(&self.bytes, flow), flow)
    }

    /// The least window B of a burst, so many packets of a flow, 1 to its σ: offered before one step to
    /// an empty queue with a token for each, all have entered after B cycles. Refusals 12, 20 and 14.
    pub fn burst(&self, flow: u32, packets: u32) -> Answer {
        Answer::of(calls::burst(&self.bytes, flow, packets))
    }

    /// The flight bound of a flow. Refusal 12.
    pub fn flight(&self, flow: u32) -> Answer {
        Answer::of(calls::flight(&self.bytes, flow))
    }

    /// The state at clock 0, with every queue empty. An accepted plan isn't refused.
    pub fn reset(&self) -> Result<State, Refusal> {
        State::reset(&self.bytes)
    }
}
