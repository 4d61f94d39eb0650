//! The last deliveries of each flow, as the archive keeps them.

use crate::tally::Broken;
use hrt::{Recent, State};

/// A record for each flow, of its last so many deliveries.
pub struct Records {
    records: Vec<Recent>,
    last: u32,
}

impl Records {
    pub fn new(flows: usize, last: u32) -> Records {
        Records { records: vec![Recent::default(); flows], last }
    }

    /// Feeds what the last step, or the last steps in one call, delivered.
    pub fn feed(&mut self, state: &State) -> Result<(), Broken> {
        let answer = state.recent(&mut self.records, self.last).done();
        answer.map(drop).map_err(|refusal| format!("a step's own deliveries are {refusal}"))
    }

    /// A flow's cells in the table: how many are held, the longest flight and the most deflections.
    pub fn cells(&self, flow: usize) -> [String; 3] {
        match &self.records[flow] {
            Recent { held: 0, .. } => ["0", "-", "-"].map(str::to_string),
            Recent { held, longest, most, .. } => {
                [held, longest, most].map(|number| number.to_string())
            }
        }
    }
}
