//! What can't happen, looked for in the state of a run: a packet that is missing, or one that is in flight
//! or waits past its bound.

use crate::tally::{Broken, Tally};
use hrt::{Delivery, Packet, State};

/// How often the bounds of packets in flight and waiting are looked at, besides at each exit and at the
/// end: where the clock is a multiple of this.
pub const WATCH: u32 = 1 << 10;

/// `here` packets are waiting or in flight, none is in flight past its bound, and none that enters next
/// waits past it: so a run that goes on comes to an end.
pub fn watch(state: &State, tallies: &[Tally], here: u64) -> Result<(), Broken> {
    let clock = state.clock();
    let mut found = 0;
    for packet in state.packets() {
        tallies[packet.flow as usize].check_flight(&packet, clock)?;
        found += 1;
    }
    for (flow, tally) in tallies.iter().enumerate() {
        let waiting = state.waiting(flow);
        tally.check_first(clock, waiting)?;
        found += u64::from(waiting);
    }
    match found == here {
        true => Ok(()),
        false => Err(format!("{found} packets are waiting or in flight, not {here}")),
    }
}

/// The same at the end of a run, with the bounds of all packets that are in flight or waiting then.
pub fn watch_end(state: &State, tallies: &mut [Tally], here: u64) -> Result<(), Broken> {
    for packet in state.packets() {
        tallies[packet.flow as usize].see(&packet)?;
    }
    for (flow, tally) in tallies.iter().enumerate() {
        tally.check_waiting(state.clock(), state.waiting(flow))?;
    }
    watch(state, tallies, here)
}

/// Is it certain that each of the last steps in one call, which began at this clock with `here` packets
/// waiting or in flight, would have had nothing to tell by itself? A packet that kept its bound when it
/// left, entered or is looked at now was within it in all cycles before. A packet that leaves twice in
/// these steps is told when its exits are counted.
pub fn all_kept(state: &State, tallies: &[Tally], start: u32, here: u64) -> bool {
    let clock = state.clock();
    let left = |exit: Delivery| {
        let tally = &tallies[exit.flow as usize];
        (start..clock).contains(&exit.exit) && tally.check_exit(&exit).is_ok()
    };
    let entered = |packet: Packet| {
        tallies[packet.flow as usize].check_entry(packet.serial, packet.entry).is_ok()
    };
    let found = || {
        let here = here.checked_sub(state.deliveries().len() as u64);
        here.is_some_and(|here| watch(state, tallies, here).is_ok())
    };
    let is_watched = start / WATCH != clock / WATCH;
    state.deliveries().all(left) && (!is_watched || state.packets().all(entered) && found())
}
