//! The forms of step: what they are lent besides the state.

use super::{Memory, Twin};
use crate::lent::Call;
use crate::random::Random;

/// A plain step, lent so many words for its deliveries.
pub fn plain(random: &mut Random, memory: &mut Memory, room: usize) -> Call {
    memory.delivery = Twin::noise_words(random, room);
    Call::Step
}

/// A step lent so many words for its deliveries, and so many for reasons.
pub fn telling(random: &mut Random, memory: &mut Memory, room: usize, told: usize) -> Call {
    memory.delivery = Twin::noise_words(random, room);
    memory.reasons = Twin::noise_words(random, told);
    Call::StepReasons
}

/// Many steps, lent so many words for their deliveries.
pub fn many(random: &mut Random, memory: &mut Memory, room: usize, cycles: u32) -> Call {
    memory.delivery = Twin::noise_words(random, room);
    Call::Steps(cycles)
}

/// One cycle by any form of step, lent so many words for its deliveries, and enough for the reasons of so many
/// flows.
pub fn any(random: &mut Random, memory: &mut Memory, room: usize, flows: usize) -> Call {
    match random.from(0, 4) {
        0 => many(random, memory, room, 1),
        1 | 2 => plain(random, memory, room),
        _ => {
            let told = flows + random.index(4);
            telling(random, memory, room, told)
        }
    }
}

/// About so many words: as many or a few more, seldom fewer.
pub fn about(random: &mut Random, words: usize) -> usize {
    match random.from(0, 9) {
        0 => random.index(words + 1),
        1 => words.saturating_sub(1),
        2..5 => words + random.index(9),
        _ => words,
    }
}
