//! Why a flow didn't enter.

/// Whether a flow entered in a step, or why it didn't: the first of these that applies, judged on the
/// state before the step.
#[derive(Clone, Copy, Debug, PartialEq, Eq)]
pub enum Reason {
    /// It entered.
    Entered = 0,
    /// It had nothing waiting.
    NothingWaiting = 1,
    /// It had no token.
    NoToken = 2,
    /// Its port is E and W held a packet.
    WestHeld = 3,
    /// Its port is S and a network packet took S; one that exits there takes S too.
    SouthTaken = 4,
    /// A lower-numbered flow of its client entered.
    LowerEntered = 5,
}

impl Reason {
    /// All of them, in the order in which they are judged.
    pub const ALL: [Reason; 6] = [
        Reason::Entered,
        Reason::NothingWaiting,
        Reason::NoToken,
        Reason::WestHeld,
        Reason::SouthTaken,
        Reason::LowerEntered,
    ];

    /// The reason that a word of a step names, 0 to 5.
    pub fn of(word: u32) -> Option<Reason> {
        Reason::ALL.get(word as usize).copied()
    }
}

#[cfg(test)]
mod tests {
    use super::*;

    #[test]
    fn words_are_decoded() {
        for (word, reason) in Reason::ALL.into_iter().enumerate() {
            assert_eq!(reason as usize, word);
            assert_eq!(Reason::of(word as u32), Some(reason));
        }
        assert_eq!(Reason::of(6), None);
        assert_eq!(Reason::of(u32::MAX), None);
    }
}
