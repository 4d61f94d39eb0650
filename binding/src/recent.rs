//! The last deliveries of a flow, in a record that the host owns.

use crate::limits::MOST_RECENT;

/// What is kept of a flow's last deliveries. The default holds none.
#[repr(C)]
#[derive(Clone, Copy, Debug, Default, PartialEq, Eq)]
pub struct Recent {
    /// How many deliveries are held.
    pub held: u32,
    /// The longest flight among them.
    pub longest: u32,
    /// The most deflections among them.
    pub most: u32,
    /// The flight of each, oldest first, zeros behind.
    pub flights: [u32; MOST_RECENT as usize],
    /// The deflections of each, oldest first, zeros behind.
    pub deflections: [u32; MOST_RECENT as usize],
}
