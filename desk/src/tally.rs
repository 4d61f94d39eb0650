//! What is kept of a flow in a run: its counts, its longest wait and flight, and its packets that
//! haven't left.

use hrt::{Answer, Delivery, Packet, Plan, Refusal, State};
use std::collections::VecDeque;

/// A wait, and the bound that held for its packet where its flow has a window.
#[derive(Clone, Copy, Debug, PartialEq, Eq)]
pub struct Wait {
    pub cycles: u32,
    pub bound: Option<u64>,
}

impl Wait {
    /// Is it longer, or as long with a lower bound?
    fn is_over(self, other: Wait) -> bool {
        (self.cycles, other.bound) > (other.cycles, self.bound)
    }
}

/// An accepted packet: when it was offered, and how many of its flow were waiting then, those before
/// it in its own set among them.
#[derive(Clone, Copy)]
struct Accepted {
    offer: u32,
    q: u16,
    left: bool,
}

/// One flow's tally.
pub struct Tally {
    pub flow: u32,
    pub offered: u64,
    pub refused: u64,
    pub left: u64,
    pub longest_wait: Option<Wait>,
    /// The least that a bound exceeded its packet's wait by.
    pub nearest: Option<u64>,
    pub longest_flight: Option<u32>,
    pub flight_bound: u32,
    /// P + T − 1, where the flow has a window T: a packet waits at most (q + 1) times that, less 1.
    turn: Option<u64>,
    /// The accepted packets from serial `first` on.
    packets: VecDeque<Accepted>,
    first: u64,
}

/// What can't happen: a bound broken, or a packet delivered that isn't there.
pub type Broken = String;

impl Tally {
    pub fn new(flow: u32, period: u32, window: Option<u32>, flight_bound: u32) -> Tally {
        Tally {
            flow,
            offered: 0,
            refused: 0,
            left: 0,
            longest_wait: None,
            nearest: None,
            longest_flight: None,
            flight_bound,
            turn: window.map(|window| u64::from(period) + u64::from(window) - 1),
            packets: VecDeque::new(),
            first: 1,
        }
    }

    /// An offer that was accepted in this cycle, with so many of the flow waiting.
    pub fn accept(&mut self, cycle: u32, waiting: u32) {
        self.offered += 1;
        self.packets.push_back(Accepted { offer: cycle, q: waiting as u16, left: false });
    }

    /// An offer that was refused for want of room in a queue.
    pub fn refuse(&mut self) {
        self.offered += 1;
        self.refused += 1;
    }

    /// A packet that has left: when it was offered.
    pub fn leave(&mut self, exit: &Delivery) -> Result<u32, Broken> {
        let packet = self.find(exit.serial)?;
        let flight = exit.flight();
        self.left += 1;
        self.longest_flight = self.longest_flight.max(Some(flight));
        self.count_wait(exit.serial, packet, exit.entry)?;
        self.keeps_flight(exit.serial, flight.into())?;
        self.forget(exit.serial);
        Ok(packet.offer)
    }

    /// A packet that has left was there and kept its bounds. Nothing is counted.
    pub fn check_exit(&self, exit: &Delivery) -> Result<(), Broken> {
        self.check_entry(exit.serial, exit.entry)?;
        self.keeps_flight(exit.serial, exit.flight().into())
    }

    /// A packet that entered in this cycle was there and hadn't waited past its bound. Nothing is counted.
    pub fn check_entry(&self, serial: u32, entry: u32) -> Result<(), Broken> {
        let wait = self.wait(serial, self.find(serial)?, entry)?;
        self.spare(serial, wait).map(drop)
    }

    /// A packet that is in flight at the end: its wait counts too.
    pub fn see(&mut self, packet: &Packet) -> Result<(), Broken> {
        let accepted = self.find(packet.serial)?;
        self.count_wait(packet.serial, accepted, packet.entry)
    }

    /// A packet in flight that hasn't left before this cycle can still keep its flight bound.
    pub fn check_flight(&self, packet: &Packet, clock: u32) -> Result<(), Broken> {
        self.keeps_flight(packet.serial, u64::from(clock - packet.entry) + 2)
    }

    /// No packet of those waiting has waited past its bound; `waiting` of them are the last.
    pub fn check_waiting(&self, clock: u32, waiting: u32) -> Result<(), Broken> {
        let entered = self.packets.len() - waiting as usize;
        (entered..self.packets.len()).try_for_each(|at| self.check_one(clock, at))
    }

    /// The packet that enters next hasn't waited past its bound.
    pub fn check_first(&self, clock: u32, waiting: u32) -> Result<(), Broken> {
        match waiting {
            0 => Ok(()),
            _ => self.check_one(clock, self.packets.len() - waiting as usize),
        }
    }

    fn check_one(&self, clock: u32, at: usize) -> Result<(), Broken> {
        let packet = self.packets[at];
        let wait = clock - packet.offer;
        match self.bound(packet) {
            Some(bound) if u64::from(wait) > bound => {
                Err(self.broken((self.first + at as u64) as u32, "wait", wait.into(), bound))
            }
            _ => Ok(()),
        }
    }

    fn bound(&self, packet: Accepted) -> Option<u64> {
        self.turn.map(|turn| (u64::from(packet.q) + 1) * turn - 1)
    }

    fn find(&self, serial: u32) -> Result<Accepted, Broken> {
        let at = u64::from(serial).checked_sub(self.first);
        let packet = at.and_then(|at| self.packets.get(usize::try_from(at).ok()?));
        match packet {
            Some(packet) if !packet.left => Ok(*packet),
            _ => Err(format!("packet {serial} of flow {} left but wasn't there", self.flow)),
        }
    }

    /// Marks a packet as gone, and drops those in front that are.
    fn forget(&mut self, serial: u32) {
        self.packets[(u64::from(serial) - self.first) as usize].left = true;
        while self.packets.front().is_some_and(|packet| packet.left) {
            self.packets.pop_front();
            self.first += 1;
        }
    }

    fn count_wait(&mut self, serial: u32, packet: Accepted, entry: u32) -> Result<(), Broken> {
        let wait = self.wait(serial, packet, entry)?;
        if self.longest_wait.is_none_or(|longest| wait.is_over(longest)) {
            self.longest_wait = Some(wait);
        }
        let spare = self.spare(serial, wait)?;
        self.nearest = self.nearest.into_iter().chain(spare).min();
        Ok(())
    }

    /// The wait of a packet that entered in this cycle.
    fn wait(&self, serial: u32, packet: Accepted, entry: u32) -> Result<Wait, Broken> {
        match entry.checked_sub(packet.offer) {
            Some(cycles) => Ok(Wait { cycles, bound: self.bound(packet) }),
            None => Err(format!("packet {serial} of flow {} entered unoffered", self.flow)),
        }
    }

    /// By how much a packet's wait stayed below its bound, if it has one.
    fn spare(&self, serial: u32, wait: Wait) -> Result<Option<u64>, Broken> {
        let Some(bound) = wait.bound else {
            return Ok(None);
        };
        match bound.checked_sub(wait.cycles.into()) {
            Some(spare) => Ok(Some(spare)),
            None => Err(self.broken(serial, "wait", wait.cycles.into(), bound)),
        }
    }

    fn keeps_flight(&self, serial: u32, flight: u64) -> Result<(), Broken> {
        let bound = self.flight_bound.into();
        match flight > bound {
            true => Err(self.broken(serial, "flight", flight, bound)),
            false => Ok(()),
        }
    }

    /// The q of each packet that hasn't left, by serial.
    #[cfg(test)]
    pub fn queues(&self) -> Vec<u16> {
        self.packets.iter().map(|packet| packet.q).collect()
    }

    fn broken(&self, serial: u32, what: &str, found: u64, bound: u64) -> Broken {
        format!("packet {serial} of flow {}: {what} {found}, bound {bound}", self.flow)
    }
}

/// A tally for each flow, with the archive's bounds.
pub fn tallies(plan: &Plan, state: &State) -> Result<Vec<Tally>, Refusal> {
    let tally = |flow: usize| {
        let window = match plan.window(flow as u32) {
            Answer::Done(window) => Some(window),
            Answer::Refused(Refusal { number: 14, .. }) => None,
            Answer::Refused(refusal) => return Err(refusal),
        };
        let flight_bound = plan.flight(flow as u32).done()?;
        Ok(Tally::new(flow as u32, state.flow(flow).period, window, flight_bound))
    };
    (0..state.flows()).map(tally).collect()
}

#[cfg(test)]
mod tests {
    use super::*;
    use hrt::limits::{LAST_CLOCK, MOST_PERIOD, MOST_WAITING, MOST_WINDOW};

    /// P 10 and T 2: a packet behind q others waits at most 11 × (q + 1) − 1.
    fn tally() -> Tally {
        Tally::new(3, 10, Some(2), 8)
    }

    fn exit(serial: u32, entry: u32, exit: u32) -> Delivery {
        Delivery { flow: 3, serial, entry, exit, deflections: 0 }
    }

    #[test]
    fn packets_may_leave_in_any_order() {
        let mut tally = tally();
        for q in 0..3 {
            tally.accept(5, q);
        }
        assert_eq!(tally.leave(&exit(2, 20, 23)), Ok(5));
        assert_eq!(tally.leave(&exit(1, 15, 21)), Ok(5));
        assert_eq!(tally.longest_wait, Some(Wait { cycles: 15, bound: Some(21) }));
        assert_eq!((tally.nearest, tally.longest_flight, tally.left), (Some(0), Some(8), 2));
        assert_eq!(tally.packets.len(), 1);
    }

    #[test]
    fn what_is_over_a_bound_is_broken() {
        let mut tally = tally();
        tally.accept(5, 0);
        assert_eq!(tally.check_first(15, 1), Ok(()));
        let broken = Err("packet 1 of flow 3: wait 11, bound 10".to_string());
        assert_eq!(tally.check_first(16, 1), broken);
        assert_eq!(tally.check_waiting(16, 1), broken);
        assert_eq!(tally.leave(&exit(1, 16, 17)), broken.map(|()| 0));
        tally.accept(5, 0);
        let broken = Err("packet 2 of flow 3: flight 9, bound 8".to_string());
        assert_eq!(tally.leave(&exit(2, 6, 13)), broken);
    }

    #[test]
    fn the_largest_bounds_are_whole() {
        let mut tally = Tally::new(3, MOST_PERIOD, Some(MOST_WINDOW), 8);
        tally.accept(0, 0);
        tally.accept(0, MOST_WAITING - 1);
        let wait = |cycles, bound| Some(Wait { cycles, bound: Some(bound) });
        assert_eq!(tally.leave(&exit(1, 16_842_748, 16_842_750)), Ok(0));
        assert_eq!((tally.longest_wait, tally.nearest), (wait(16_842_748, 16_842_748), Some(0)));
        assert_eq!(tally.leave(&exit(2, LAST_CLOCK - 2, LAST_CLOCK - 1)), Ok(0));
        assert_eq!(tally.longest_wait, wait(LAST_CLOCK - 2, 1_103_789_555_714));
    }

    #[test]
    fn a_flight_without_an_end_is_broken() {
        let packet = Packet { flow: 3, serial: 1, entry: 4, deflections: 0 };
        assert_eq!(tally().check_flight(&packet, 10), Ok(()));
        let broken = Err("packet 1 of flow 3: flight 9, bound 8".to_string());
        assert_eq!(tally().check_flight(&packet, 11), broken);
    }

    #[test]
    fn packets_that_are_not_there_are_told() {
        let mut tally = tally();
        tally.accept(5, 0);
        for (serial, entry) in [(0, 6), (2, 6), (1, 4)] {
            assert!(tally.leave(&exit(serial, entry, 7)).is_err());
        }
        let mut tally = Tally::new(3, 10, None, 8);
        tally.accept(5, 0);
        tally.accept(5, 1);
        assert!(tally.leave(&exit(2, 6, 7)).is_ok());
        assert!(tally.leave(&exit(2, 6, 7)).is_err());
    }
}
