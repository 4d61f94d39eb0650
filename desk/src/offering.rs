//! Offers to the archive, of one packet for the sonar or the trial generator, or of a set, and what they
//! are to the flows' tallies.

use crate::offers::named;
use crate::tally::{Broken, Tally};
use hrt::{Answer, Refusal, State};

/// The refusal of a full queue, by the sonar's calls and by the trial generator's.
const FULL: u32 = 13;
const FULL_FOR_TRIAL: u32 = 18;

/// Why an offer ends the run.
#[derive(Debug, PartialEq, Eq)]
pub enum Wrong {
    /// A flow that isn't in the plan: what is said of it.
    Unknown(String),
    Broken(Broken),
}

/// Offers one packet: how many are accepted, none if its queue is full.
#[inline]
pub fn offer(
    state: &mut State,
    tallies: &mut [Tally],
    cycle: u32,
    flow: u32,
) -> Result<u64, Wrong> {
    offer_by(State::offer, FULL, state, tallies, cycle, flow)
}

/// Offers one packet for the trial generator: how many are accepted, none if too many of its flow wait.
pub fn offer_trial(
    state: &mut State,
    tallies: &mut [Tally],
    cycle: u32,
    flow: u32,
) -> Result<u64, Wrong> {
    offer_by(State::offer_trial, FULL_FOR_TRIAL, state, tallies, cycle, flow)
}

/// Offers one packet by this call, whose refusal of a full queue has this number.
#[inline]
fn offer_by(
    call: impl Fn(&mut State, u32) -> Answer,
    full: u32,
    state: &mut State,
    tallies: &mut [Tally],
    cycle: u32,
    flow: u32,
) -> Result<u64, Wrong> {
    let at = flow as usize;
    let waiting = if at < tallies.len() { state.waiting(at) } else { 0 };
    match call(state, flow) {
        Answer::Done(_) => {
            tallies[at].accept(cycle, waiting);
            Ok(1)
        }
        Answer::Refused(Refusal { number, .. }) if number == full => {
            tallies[at].refuse();
            Ok(0)
        }
        Answer::Refused(refusal @ Refusal { number: 12, .. }) => {
            let flow = named(&flow.to_string(), None);
            Err(unknown(&flow, tallies, &format!(" ({refusal})")))
        }
        Answer::Refused(refusal) => Err(broken(refusal)),
    }
}

/// Offers a packet of each of these flows, all or none: how many are accepted. `queues` has a word
/// for each flow of the plan.
pub fn offer_set(
    state: &mut State,
    tallies: &mut [Tally],
    queues: &mut [u32],
    cycle: u32,
    flows: &[u32],
) -> Result<u64, Wrong> {
    for &flow in flows {
        if let Some(queue) = queues.get_mut(flow as usize) {
            *queue = state.waiting(flow as usize);
        }
    }
    match state.offer_set(flows) {
        Answer::Done(_) => {
            for &flow in flows {
                let queue = &mut queues[flow as usize];
                tallies[flow as usize].accept(cycle, *queue);
                *queue += 1;
            }
            Ok(flows.len() as u64)
        }
        Answer::Refused(Refusal { number: FULL, .. }) => refuse_set(tallies, flows),
        Answer::Refused(refusal @ Refusal { number: 12, place })
            if (place as usize) < flows.len() =>
        {
            Err(unknown_of(flows, place as usize, tallies, &format!(" ({refusal})")))
        }
        Answer::Refused(refusal) => Err(broken(refusal)),
    }
}

/// A set without room for all its packets: each is refused at its own flow. A flow behind the first
/// that found no room may still not be in the plan.
fn refuse_set(tallies: &mut [Tally], flows: &[u32]) -> Result<u64, Wrong> {
    if let Some(at) = flows.iter().position(|&flow| flow as usize >= tallies.len()) {
        return Err(unknown_of(flows, at, tallies, ""));
    }
    for &flow in flows {
        tallies[flow as usize].refuse();
    }
    Ok(0)
}

fn unknown_of(flows: &[u32], at: usize, tallies: &[Tally], refusal: &str) -> Wrong {
    unknown(&named(&flows[at].to_string(), Some(at)), tallies, refusal)
}

fn unknown(flow: &str, tallies: &[Tally], refusal: &str) -> Wrong {
    Wrong::Unknown(not_in_plan(flow, tallies.len()) + refusal)
}

/// What is said of a flow that a plan of so many flows doesn't have.
pub fn not_in_plan(flow: &str, flows: usize) -> String {
    format!("{flow} is not in the plan; its flows are 0 to {}", flows - 1)
}

fn broken(refusal: Refusal) -> Wrong {
    Wrong::Broken(format!("an offer is {refusal}"))
}

#[cfg(test)]
mod tests {
    use super::*;
    use hrt::limits::waiting_at;
    use hrt::Flow;

    const FLOW: Flow = Flow { xs: 0, ys: 0, xd: 3, yd: 3, period: 10, burst: 1 };

    /// Three flows with so many packets waiting, P 10 and T 2: a packet behind q others waits at most
    /// 11 × (q + 1) − 1.
    struct Case {
        state: State,
        tallies: Vec<Tally>,
        queues: Vec<u32>,
    }

    impl Case {
        fn new(waiting: [u32; 3]) -> Case {
            let mut words = State::fresh(4, 4, &[FLOW; 3]).unwrap().words().to_vec();
            for (flow, waiting) in waiting.into_iter().enumerate() {
                words[waiting_at(flow)] = waiting;
            }
            let tallies = (0..3).map(|flow| Tally::new(flow, 10, Some(2), 8)).collect();
            Case { state: State::of_words(words).unwrap(), tallies, queues: vec![0; 3] }
        }

        fn one(&mut self, flow: u32) -> Result<u64, Wrong> {
            offer(&mut self.state, &mut self.tallies, 5, flow)
        }

        fn trial(&mut self, flow: u32) -> Result<u64, Wrong> {
            offer_trial(&mut self.state, &mut self.tallies, 5, flow)
        }

        fn set(&mut self, flows: &[u32]) -> Result<u64, Wrong> {
            offer_set(&mut self.state, &mut self.tallies, &mut self.queues, 5, flows)
        }

        fn waiting(&self) -> [u32; 3] {
            [0, 1, 2].map(|flow| self.state.waiting(flow))
        }

        /// What each flow's tally has as offered and as refused.
        fn counts(&self) -> [(u64, u64); 3] {
            [0, 1, 2].map(|flow| (self.tallies[flow].offered, self.tallies[flow].refused))
        }
    }

    fn unknown(flow: &str, refusal: &str) -> Result<u64, Wrong> {
        let text = format!("{flow} is not in the plan; its flows are 0 to 2{refusal}");
        Err(Wrong::Unknown(text))
    }

    #[test]
    fn a_packet_of_a_set_is_behind_those_before_it() {
        let mut case = Case::new([3, 0, 0]);
        assert_eq!(case.set(&[1, 0, 1, 0, 1]), Ok(5));
        assert_eq!(case.set(&[1, 2]), Ok(2));
        assert_eq!(case.waiting(), [5, 4, 1]);
        assert_eq!(case.counts(), [(2, 0), (4, 0), (1, 0)]);
        let q = [0, 1, 2].map(|flow| case.tallies[flow].queues());
        assert_eq!(q, [vec![3, 4], vec![0, 1, 2, 3], vec![0]]);
    }

    #[test]
    fn a_set_without_room_is_refused_whole() {
        let mut case = Case::new([0, 65_533, 7]);
        assert_eq!(case.set(&[1, 2, 1, 0, 1, 2]), Ok(0));
        assert_eq!(case.waiting(), [0, 65_533, 7]);
        assert_eq!(case.counts(), [(1, 1), (3, 3), (2, 2)]);
        assert!((0..3).all(|flow| case.tallies[flow].queues().is_empty()));
        assert_eq!(case.set(&[1, 2, 1]), Ok(3));
        assert_eq!(case.waiting(), [0, 65_535, 8]);
        assert_eq!(case.tallies[1].queues(), [65_533, 65_534]);
    }

    #[test]
    fn a_flow_that_is_not_in_the_plan_is_told_with_its_place() {
        let mut case = Case::new([0, 65_535, 0]);
        let before = case.state.clone();
        for (flows, flow, refusal) in [
            (&[3, 0][..], "flow 3, the line's 1st flow,", " (refused 12 0)"),
            (&[0, 9, 1, 3], "flow 9, the line's 2nd flow,", " (refused 12 1)"),
            (&[0, 2, u32::MAX], "flow 4294967295, the line's 3rd flow,", " (refused 12 2)"),
            (&[0, 1, 2, 3, 4], "flow 3, the line's 4th flow,", ""),
        ] {
            assert_eq!(case.set(flows), unknown(flow, refusal));
        }
        for told in [case.one(3), case.trial(3)] {
            assert_eq!(told, unknown("flow 3", " (refused 12 0)"));
        }
        assert_eq!((case.counts(), case.state), ([(0, 0); 3], before));
    }

    #[test]
    fn one_packet_is_accepted_or_refused() {
        let mut case = Case::new([0, 65_534, 0]);
        for (flow, accepted) in [(1, 1), (1, 0), (0, 1)] {
            assert_eq!(case.one(flow), Ok(accepted));
        }
        assert_eq!(case.waiting(), [1, 65_535, 0]);
        assert_eq!(case.counts(), [(1, 0), (2, 1), (0, 0)]);
        assert_eq!(case.tallies[1].queues(), [65_534]);
    }

    #[test]
    fn the_trial_generator_stops_at_255_waiting() {
        let mut case = Case::new([0, 253, 65_535]);
        for (flow, accepted) in [(1, 1), (1, 1), (1, 0), (0, 1), (2, 0)] {
            assert_eq!(case.trial(flow), Ok(accepted));
        }
        assert_eq!(case.waiting(), [1, 255, 65_535]);
        assert_eq!((case.one(1), case.trial(1), case.set(&[1, 1])), (Ok(1), Ok(0), Ok(2)));
        assert_eq!(case.waiting(), [1, 258, 65_535]);
        assert_eq!(case.counts(), [(1, 0), (7, 2), (1, 1)]);
        assert_eq!(case.tallies[1].queues(), [253, 254, 255, 256, 257]);
    }

    #[test]
    fn another_calls_refusal_is_broken() {
        let refused =
            |number| move |_: &mut State, _: u32| Answer::Refused(Refusal { number, place: 0 });
        for (full, other) in [(FULL, FULL_FOR_TRIAL), (FULL_FOR_TRIAL, FULL)] {
            let Case { mut state, mut tallies, .. } = Case::new([0; 3]);
            let broken = Err(Wrong::Broken(format!("an offer is refused {other} 0")));
            assert_eq!(offer_by(refused(full), full, &mut state, &mut tallies, 5, 1), Ok(0));
            assert_eq!(offer_by(refused(other), full, &mut state, &mut tallies, 5, 1), broken);
            assert_eq!((tallies[1].offered, tallies[1].refused), (1, 1));
        }
    }
}
