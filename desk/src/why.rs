//! Why a flow waits: in how many cycles each reason was its, as the archive tells them.

use crate::offering::not_in_plan;
use crate::tally::Broken;
use hrt::{Delivery, Reason, Refusal, State};
use std::fmt;

/// What a word is before a step writes it: no reason.
const UNWRITTEN: u32 = u32::MAX;

/// One flow's reasons.
pub struct Why {
    flow: usize,
    /// A step's word for each flow.
    words: Vec<u32>,
    /// How many packets of the flow had entered before the last step.
    entered: u32,
    /// The cycle of the first step.
    first: u32,
    /// In how many cycles it was each reason.
    pub cycles: [u64; Reason::ALL.len()],
}

impl Why {
    /// Nothing is counted so far. If the flow isn't in the plan, what is said of that.
    pub fn new(flow: u32, state: &State) -> Result<Why, String> {
        let (flow, flows) = (flow as usize, state.flows());
        if flow >= flows {
            return Err(not_in_plan(&format!("flow {flow} of --why"), flows));
        }
        let cycles = [0; Reason::ALL.len()];
        Ok(Why { flow, words: vec![UNWRITTEN; flows], entered: 0, first: state.clock(), cycles })
    }

    /// One cycle that tells reasons: the packets that leave.
    pub fn step<'a>(
        &mut self,
        state: &'a mut State,
    ) -> Result<impl ExactSizeIterator<Item = Delivery> + 'a, Refusal> {
        self.words[self.flow] = UNWRITTEN;
        self.entered = state.entered(self.flow);
        state.step_reasons(&mut self.words)
    }

    /// Counts the flow's reason in the last step, after which the state is this. It is 0 just where a
    /// packet of the flow entered.
    pub fn count(&mut self, state: &State) -> Result<(), Broken> {
        let Why { flow, entered: before, .. } = *self;
        let (word, after) = (self.words[flow], state.entered(flow));
        let Some(reason) = Reason::of(word) else {
            return Err(format!("flow {flow} has the word {word}, which is no reason"));
        };
        if after.wrapping_sub(before) != u32::from(reason == Reason::Entered) {
            let entered = format!("{before} of its packets entered before the step, {after} after");
            return Err(format!("flow {flow} has reason {word}, but {entered}"));
        }
        self.cycles[reason as usize] += 1;
        Ok(())
    }

    /// Every cycle before this clock was counted.
    pub fn check(&self, clock: u32) -> Result<(), Broken> {
        let counted: u64 = self.cycles.iter().sum();
        match u64::from(clock - self.first) {
            stepped if stepped == counted => Ok(()),
            stepped => Err(format!("of {stepped} cycles {counted} have a reason")),
        }
    }
}

/// The table, with a blank line in front.
impl fmt::Display for Why {
    fn fmt(&self, out: &mut fmt::Formatter) -> fmt::Result {
        const HEAD: &str = "cycles";
        let digits = self.cycles.map(|cycles| cycles.to_string().len());
        let width = digits.into_iter().fold(HEAD.len(), usize::max);
        writeln!(out, "\nwhy  {HEAD:>width$}  flow {}", self.flow)?;
        for (reason, cycles) in Reason::ALL.into_iter().zip(self.cycles) {
            writeln!(out, "{:>3}  {cycles:>width$}  {}", reason as u32, said(reason))?;
        }
        Ok(())
    }
}

/// A reason in U7's words.
fn said(reason: Reason) -> &'static str {
    match reason {
        Reason::Entered => "it entered",
        Reason::NothingWaiting => "nothing waiting",
        Reason::NoToken => "no token",
        Reason::WestHeld => "its port is E and W held a packet",
        Reason::SouthTaken => "its port is S and a network packet took S",
        Reason::LowerEntered => "a lower-numbered flow of its client entered",
    }
}

#[cfg(test)]
mod tests {
    use super::*;
    use hrt::Flow;

    /// Three flows on 4 by 4. Flow 0's packets turn S at the client of flows 1 and 2, whose ports are S
    /// and E.
    fn state() -> State {
        let flow = |xs, xd, yd| Flow { xs, ys: 0, xd, yd, period: 10, burst: 1 };
        State::fresh(4, 4, &[flow(0, 1, 1), flow(1, 1, 2), flow(1, 2, 0)]).unwrap()
    }

    /// The cycles of these offers, each counted.
    fn counted(flow: u32, state: &mut State, offers: &[&[u32]]) -> Why {
        let mut why = Why::new(flow, state).unwrap();
        for flows in offers {
            state.offer_set(flows).done().unwrap();
            assert!(why.step(state).is_ok());
            assert_eq!(why.count(state), Ok(()));
        }
        why
    }

    #[test]
    fn each_cycle_is_counted_under_its_reason() {
        let mut offers = [&[][..]; 12];
        (offers[0], offers[1]) = (&[0], &[1, 2, 2]);
        for (flow, cycles) in
            [(0, [1, 11, 0, 0, 0, 0]), (1, [1, 10, 0, 0, 1, 0]), (2, [2, 2, 6, 1, 0, 1])]
        {
            let why = counted(flow, &mut state(), &offers);
            assert_eq!((why.cycles, why.check(12)), (cycles, Ok(())));
        }
    }

    #[test]
    fn cycles_are_counted_from_the_first_step() {
        let mut state = state();
        assert!(state.step().is_ok());
        let why = counted(2, &mut state, &[&[], &[2], &[]]);
        assert_eq!((why.cycles, why.check(4)), ([1, 2, 0, 0, 0, 0], Ok(())));
        let told = |clock, told: &str| assert_eq!(why.check(clock), Err(told.to_string()));
        told(3, "of 2 cycles 3 have a reason");
        told(5, "of 4 cycles 3 have a reason");
    }

    #[test]
    fn a_table_has_all_reasons() {
        let mut why = Why::new(1, &state()).unwrap();
        assert!(why.to_string().starts_with("\nwhy  cycles  flow 1\n  0       0  it entered\n"));
        why.cycles = [7, 16_777_215, 0, 65_536, 0, u64::from(u32::MAX)];
        let table = "
why      cycles  flow 1
  0           7  it entered
  1    16777215  nothing waiting
  2           0  no token
  3       65536  its port is E and W held a packet
  4           0  its port is S and a network packet took S
  5  4294967295  a lower-numbered flow of its client entered
";
        assert_eq!(why.to_string(), table);
    }

    #[test]
    fn a_flow_that_is_not_in_the_plan_is_told() {
        for flow in [3, 255] {
            let text = format!("flow {flow} of --why is not in the plan; its flows are 0 to 2");
            assert_eq!(Why::new(flow, &state()).err(), Some(text));
        }
    }

    #[test]
    fn a_wrong_word_is_broken() {
        let mut state = state();
        let mut why = counted(0, &mut state, &[&[0], &[]]);
        let before = why.cycles;
        for (word, entered, told) in [
            (6, 1, "the word 6, which is no reason"),
            (UNWRITTEN, 1, "the word 4294967295, which is no reason"),
            (0, 1, "reason 0, but 1 of its packets entered before the step, 1 after"),
            (1, 0, "reason 1, but 0 of its packets entered before the step, 1 after"),
            (5, 2, "reason 5, but 2 of its packets entered before the step, 1 after"),
        ] {
            (why.words[0], why.entered) = (word, entered);
            assert_eq!(why.count(&state), Err(format!("flow 0 has {told}")));
        }
        assert_eq!(why.cycles, before);
    }
}
