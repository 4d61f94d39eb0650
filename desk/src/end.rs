//! Why a run ends, what is said of it, and what the program then ends with.

use crate::ending::{Ending, Stop};
use crate::tally::Broken;
use hrt::Refusal;

/// Why a run ends.
#[derive(Debug, PartialEq, Eq)]
pub enum End {
    /// The stream has ended and everything has left.
    Left,
    /// The cycle that was asked for.
    Cycles,
    /// The step was refused: the clock's last cycle.
    Refused(Refusal),
    /// A fault in the stream.
    Fault(String),
    /// The stream can't be read any further.
    Unreadable(String),
    Signal(u8),
    /// What can't happen.
    Broken(Broken),
}

impl End {
    /// How the run ended, below the table.
    pub fn said(&self, clock: u32) -> String {
        let how = match self {
            End::Left => "everything has left",
            End::Cycles => "as asked",
            End::Refused(_) => "the clock goes no further",
            End::Fault(_) => "at a faulty line",
            End::Unreadable(_) => "the offers can't be read any further",
            End::Signal(_) => "interrupted",
            End::Broken(_) => "A BOUND IS BROKEN",
        };
        format!("ended at cycle {clock}: {how}")
    }

    /// What the program ends with.
    pub fn ending(self) -> Result<(), Ending> {
        match self {
            End::Left | End::Cycles => Ok(()),
            End::Refused(refusal) => {
                let number = refusal.number;
                Err(Ending::failed(format!("step: {refusal}; ./hrt explain {number} says why")))
            }
            End::Fault(text) => Err(Ending::at(Stop::Wrong, text)),
            End::Unreadable(text) => Err(Ending::wrong(text)),
            End::Signal(number) => Err(Ending { stop: Stop::Signal(number), messages: Vec::new() }),
            End::Broken(text) => Err(Ending::broken(format!(
                "A BOUND IS BROKEN: {text}. This is proved not to happen, so the program or this machine is at \
                 fault: don't rely on any output, and report it with the plan and the offers"
            ))),
        }
    }
}
