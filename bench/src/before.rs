//! Another archive beside this one, both linked: `bench/run before` gives their functions other
//! names, and each exported function goes on to one of the two, by a switch.

use crate::calls;
use crate::times::Sides;
use second::archive::archive;
use std::sync::atomic::{AtomicU8, Ordering};

unsafe extern "C" {
    /// 0 for the archive before, 1 for this one.
    static hrt_side: AtomicU8;
}

fn take(side: usize) {
    // SAFETY: a byte of the archive's own, which nobody else writes.
    unsafe { hrt_side.store(side as u8, Ordering::Relaxed) }
}

/// Times the calls that both have. What the archive before lacks goes on to this one whatever the
/// switch says, so it isn't timed.
pub fn time(lacking: &[&str]) {
    let sides = Sides { names: ["before", "now"], before_turn: take, lacking };
    calls::bounds(sides, &archive, &archive);
    calls::engine(sides, &archive, &archive);
    for function in lacking {
        println!("{function}: not timed, the archive before lacks it");
    }
}
