//! What a call answers, decoded.

use std::error::Error;
use std::fmt;

/// Why a call said no: a number of docs/REFUSALS.md, and a place.
#[derive(Clone, Copy, Debug, PartialEq, Eq)]
pub struct Refusal {
    pub number: u32,
    /// The flow of the refusals 6, 7 and 14; where a list of flows is offered, the position of 12 and
    /// 13 in it, from 0; otherwise 0.
    pub place: u32,
}

impl fmt::Display for Refusal {
    /// As the listing prints it: `refused 2 0`.
    fn fmt(&self, out: &mut fmt::Formatter) -> fmt::Result {
        write!(out, "refused {} {}", self.number, self.place)
    }
}

impl Error for Refusal {}

/// The answer of a call.
#[derive(Clone, Copy, Debug, PartialEq, Eq)]
pub enum Answer {
    Done(u32),
    Refused(Refusal),
}

impl Answer {
    /// The answer that a call other than the window's returned: its value, or number × 2^32 + place.
    #[inline]
    pub fn of(returned: u64) -> Answer {
        let (number, low) = ((returned >> 32) as u32, returned as u32);
        match number {
            0 => Answer::Done(low),
            _ => Answer::Refused(Refusal { number, place: low }),
        }
    }

    /// The answer that the window call returned for this flow of an accepted plan: the window, or
    /// 65,536 + number. It returns no place; that of 14 is the flow.
    pub fn of_window(returned: u32, flow: u32) -> Answer {
        match returned.checked_sub(65_536) {
            None => Answer::Done(returned),
            Some(number) => {
                let place = if number == 14 { flow } else { 0 };
                Answer::Refused(Refusal { number, place })
            }
        }
    }

    /// The value, or the refusal as an error.
    pub fn done(self) -> Result<u32, Refusal> {
        match self {
            Answer::Done(value) => Ok(value),
            Answer::Refused(refusal) => Err(refusal),
        }
    }
}

#[cfg(test)]
mod tests {
    use super::*;

    #[test]
    fn answers_are_decoded() {
        let refused = |number, place| Answer::Refused(Refusal { number, place });
        assert_eq!(Answer::of(0), Answer::Done(0));
        assert_eq!(Answer::of(u32::MAX.into()), Answer::Done(u32::MAX));
        assert_eq!(Answer::of(7 << 32 | 255), refused(7, 255));
        assert_eq!(Answer::of_window(65_535, 3), Answer::Done(65_535));
        assert_eq!(Answer::of_window(65_536 + 14, 3), refused(14, 3));
        assert_eq!(Answer::of_window(65_536 + 12, 300), refused(12, 0));
        assert_eq!(Answer::of(2 << 32).done(), Err(Refusal { number: 2, place: 0 }));
        assert_eq!(Refusal { number: 2, place: 0 }.to_string(), "refused 2 0");
    }
}
