//! Memory that is lent twice, to the simulator and to the other engine.

use crate::lent::{Copied, Lent, Memories};
use crate::random::Random;
use crate::recent::Record;
use crate::with_memory;
use std::ops::Range;

/// Memory to be lent twice, with noise around it.
#[derive(Clone, Debug, Default, PartialEq)]
pub struct Twin<T> {
    pub expected: Vec<T>,
    pub got: Vec<T>,
    pub lent: Range<usize>,
}

/// A call with all its memories, each lent twice.
pub type Memory = Memories<Twin<u8>, Twin<u32>, Twin<Record>>;

impl Memory {
    /// The memories that the simulator is lent.
    pub fn expected(&mut self) -> Lent<'_> {
        self.lend(Twin::expected, Twin::expected, Twin::expected)
    }

    /// The memories that the other engine is lent.
    pub fn got(&mut self) -> Lent<'_> {
        self.lend(Twin::got, Twin::got, Twin::got)
    }

    /// Gives the other engine this to be lent.
    pub fn give(&mut self, lent: &Copied) {
        for &part in lent.call.takes() {
            with_memory!(part, twin in &mut self, lent in &lent => twin.got().copy_from_slice(lent));
        }
    }

    /// Gives the other engine what is expected.
    pub fn settle(&mut self) {
        for &part in self.call.takes() {
            with_memory!(part, twin in &mut self => twin.got.copy_from_slice(&twin.expected));
        }
    }

    /// A state alone.
    pub fn of(state: Twin<u32>) -> Memory {
        Memory { state, ..Memory::default() }
    }

    /// A plan file alone.
    pub fn of_file(file: &[u8]) -> Memory {
        Memory { file: Twin::exact(file), ..Memory::default() }
    }

    /// The words of the state, as they are to be.
    pub fn words(&self) -> &[u32] {
        &self.state.expected[self.state.lent.clone()]
    }
}

pub const GUARD: usize = 4;

impl<T: Clone> Twin<T> {
    /// Lends the memory without its first and last few places.
    pub fn new(whole: Vec<T>) -> Twin<T> {
        let lent = GUARD..whole.len() - GUARD;
        Twin { expected: whole.clone(), got: whole, lent }
    }

    /// Lends this, and nothing is around it.
    pub fn exact(whole: &[T]) -> Twin<T> {
        Twin { expected: whole.to_vec(), got: whole.to_vec(), lent: 0..whole.len() }
    }

    pub fn expected(&mut self) -> &mut [T] {
        &mut self.expected[self.lent.clone()]
    }

    pub fn got(&mut self) -> &mut [T] {
        &mut self.got[self.lent.clone()]
    }
}

impl<T: PartialEq> Twin<T> {
    /// The first place, from that of the first word lent, where the two differ, and what stands there.
    pub fn difference(&self) -> Option<(i64, &T, &T)> {
        if self.expected == self.got {
            return None;
        }
        let mut places = self.expected.iter().zip(&self.got).enumerate();
        let (at, (expected, got)) = places.find(|(_, (expected, got))| expected != got)?;
        Some((at as i64 - self.lent.start as i64, expected, got))
    }
}

impl Twin<u32> {
    /// So many lent words of noise.
    pub fn noise_words(random: &mut Random, length: usize) -> Twin<u32> {
        Twin::new(random.words(length + 2 * GUARD))
    }

    /// These words, then so many of noise.
    pub fn words(random: &mut Random, words: &[u32], past: usize) -> Twin<u32> {
        let mut whole = random.words(words.len() + past + 2 * GUARD);
        whole[GUARD..GUARD + words.len()].copy_from_slice(words);
        Twin::new(whole)
    }
}

impl Twin<u8> {
    /// So many lent bytes of noise.
    pub fn noise_bytes(random: &mut Random, length: usize) -> Twin<u8> {
        Twin::new(random.bytes(length + 2 * GUARD))
    }

    /// These bytes, with noise around them.
    pub fn bytes(random: &mut Random, bytes: &[u8]) -> Twin<u8> {
        Twin::new([&random.bytes(GUARD), bytes, &random.bytes(GUARD)].concat())
    }
}
