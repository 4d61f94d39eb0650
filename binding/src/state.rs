//! The state of a run, in words that the host owns.

use crate::limits::{
    delivery_words, entered_at, flow_at, state_words, waiting_at, CLOCK_AT, EXIT_WORDS, HEAD_WORDS,
    MOST_FLOWS, MOST_PLAN_BYTES, MOST_SIDE, MOST_STATE_WORDS, RECORD_BYTES, REGISTER_WORDS,
    TRAILER_BYTES,
};
use crate::{calls, Answer, Recent, Refusal};

/// A flow's six plan numbers: source and destination by column and row, period P and burst σ.
#[derive(Clone, Copy, Debug, PartialEq, Eq)]
pub struct Flow {
    pub xs: u32,
    pub ys: u32,
    pub xd: u32,
    pub yd: u32,
    pub period: u32,
    pub burst: u32,
}

impl Flow {
    /// The numbers in the order of a plan's record.
    pub fn numbers(&self) -> [u32; 6] {
        [self.xs, self.ys, self.xd, self.yd, self.period, self.burst]
    }
}

/// A packet that left.
#[derive(Clone, Copy, Debug, PartialEq, Eq)]
pub struct Delivery {
    pub flow: u32,
    /// The number of the packet among the flow's accepted offers, from 1.
    pub serial: u32,
    pub entry: u32,
    pub exit: u32,
    pub deflections: u32,
}

impl Delivery {
    /// The flight: exit − entry + 2 cycles.
    #[inline]
    pub fn flight(&self) -> u32 {
        self.exit - self.entry + 2
    }
}

/// A packet in a link register: it has entered and hasn't left.
#[derive(Clone, Copy, Debug, PartialEq, Eq)]
pub struct Packet {
    pub flow: u32,
    pub serial: u32,
    pub entry: u32,
    pub deflections: u32,
}

/// For how many exits of each router [`State::steps`] has room.
const STEPS_ROOM: usize = 16;

/// A state, with room for what a step delivers, or many of them. States are equal if their words are.
#[derive(Clone, Debug)]
pub struct State {
    words: Vec<u32>,
    delivery: Vec<u32>,
    /// How many words the last step, or the last steps in one call, delivered; none if it was refused.
    delivered: usize,
}

impl PartialEq for State {
    fn eq(&self, other: &State) -> bool {
        self.words == other.words
    }
}

impl Eq for State {}

impl State {
    /// The state of a plan file at clock 0. Refusals 1 to 7.
    pub fn reset(plan: &[u8]) -> Result<State, Refusal> {
        let mut words = vec![0; MOST_STATE_WORDS];
        Answer::of(calls::reset(plan, &mut words)).done()?;
        Ok(State::cut(words))
    }

    /// The state at clock 0 of a torus with these flows, for [`State::write`] to make a plan file of.
    /// Refusal 9 if a number is out of its range.
    pub fn fresh(sx: u32, sy: u32, flows: &[Flow]) -> Result<State, Refusal> {
        let mut words = vec![sx, sy, flows.len() as u32, 0, 0, 0, 0, 0];
        for flow in flows {
            words.extend(flow.numbers());
            words.extend([flow.burst, 0, 0, 0]);
        }
        let registers = state_words(sx.min(MOST_SIDE), sy.min(MOST_SIDE), 0) - HEAD_WORDS;
        words.resize(words.len() + registers, 0);
        State::of_words(words)
    }

    /// A state that the host has kept as words. Refusals 8 and 9 if the words form no state.
    pub fn of_words(words: Vec<u32>) -> Result<State, Refusal> {
        let mut file = [0; TRAILER_BYTES + RECORD_BYTES * MOST_FLOWS];
        Answer::of(calls::write(&words, &[], &mut file)).done()?;
        Ok(State::cut(words))
    }

    /// Words that form a state, without those past its size.
    fn cut(mut words: Vec<u32>) -> State {
        let (sx, sy) = (words[0], words[1]);
        words.truncate(state_words(sx, sy, words[2] as usize));
        State { words, delivery: vec![0; delivery_words(sx, sy)], delivered: 0 }
    }

    /// The words, as the scope document's "State memory" lays them out.
    pub fn words(&self) -> &[u32] {
        &self.words
    }

    /// Offers one packet of a flow, before the step of this cycle. Refusals 12 and 13.
    #[inline]
    pub fn offer(&mut self, flow: u32) -> Answer {
        Answer::of(calls::offer(&mut self.words, flow))
    }

    /// Offers one packet of a flow for the trial generator, which must not fill the sonar's queues.
    /// Refusals 12, and 18 with [`MOST_TRIAL`](crate::limits::MOST_TRIAL) or more packets of the flow
    /// waiting, whoever offered them.
    #[inline]
    pub fn offer_trial(&mut self, flow: u32) -> Answer {
        Answer::of(calls::offer_trial(&mut self.words, flow))
    }

    /// Offers one packet for each entry of a list of flows, before the step of this cycle: all are
    /// accepted or none is. The place of refusals 12 and 13 is the position of the first entry that
    /// would be refused, the entries before it being counted.
    #[inline]
    pub fn offer_set(&mut self, flows: &[u32]) -> Answer {
        Answer::of(calls::offer_set(&mut self.words, flows))
    }

    /// One cycle: the packets that leave, routers by row, then column. Refusal 11.
    #[inline]
    pub fn step(&mut self) -> Result<impl ExactSizeIterator<Item = Delivery> + '_, Refusal> {
        let answer = calls::step(&mut self.words, &mut self.delivery);
        self.deliver(answer)
    }

    /// So many [steps](State::step) in one call: the packets that leave, step by step. It ends early
    /// where its room for deliveries is used up, but not before the first step, and at the last clock:
    /// [`State::clock`] tells how many ran. Cycles in which nothing can move take hardly any time.
    /// Refusal 11.
    #[inline]
    pub fn steps(
        &mut self,
        cycles: u32,
    ) -> Result<impl ExactSizeIterator<Item = Delivery> + '_, Refusal> {
        let room = STEPS_ROOM * delivery_words(self.sx(), self.sy());
        if self.delivery.len() < room {
            self.delivery.resize(room, 0);
        }
        let answer = calls::steps(&mut self.words, &mut self.delivery, cycles);
        self.deliver(answer)
    }

    /// A [step](State::step) that also writes a word for each flow: whether it entered or why it
    /// didn't, a [`Reason`](crate::Reason). Words after the last flow stay. Refusals 11, and 19 with
    /// fewer words than flows.
    #[inline]
    pub fn step_reasons(
        &mut self,
        reasons: &mut [u32],
    ) -> Result<impl ExactSizeIterator<Item = Delivery> + '_, Refusal> {
        let answer = calls::step_reasons(&mut self.words, &mut self.delivery, reasons);
        self.deliver(answer)
    }

    /// What a step that answered this delivered.
    #[inline]
    fn deliver(
        &mut self,
        answer: u64,
    ) -> Result<impl ExactSizeIterator<Item = Delivery> + '_, Refusal> {
        self.delivered = 0;
        let exits = Answer::of(answer).done()?;
        self.delivered = EXIT_WORDS * exits as usize;
        Ok(self.deliveries())
    }

    /// The packets that left in the last step, or in the last steps in one call; none if it was refused.
    #[inline]
    pub fn deliveries(&self) -> impl ExactSizeIterator<Item = Delivery> + '_ {
        let words = &self.delivery[..self.delivered];
        words.chunks_exact(EXIT_WORDS).map(|exit| Delivery {
            flow: exit[0],
            serial: exit[1],
            entry: exit[2],
            exit: exit[3],
            deflections: exit[4],
        })
    }

    /// Feeds what the last step, or the last steps in one call, delivered to records, one for each
    /// flow, which then hold the flow's last deliveries, at most `last` of them. Refusals 16 and 17.
    #[inline]
    pub fn recent(&self, records: &mut [Recent], last: u32) -> Answer {
        let deliveries = &self.delivery[..self.delivered];
        Answer::of(calls::recent(&self.words, deliveries, records, last))
    }

    /// The plan file of the state, with these notes in front. Refusal 1.
    pub fn write(&self, notes: &[u8]) -> Result<Vec<u8>, Refusal> {
        let length = notes.len() + RECORD_BYTES * self.flows() + TRAILER_BYTES;
        let mut file = vec![0; length.min(MOST_PLAN_BYTES)];
        let length = Answer::of(calls::write(&self.words, notes, &mut file)).done()?;
        file.truncate(length as usize);
        Ok(file)
    }

    /// The columns of the torus.
    pub fn sx(&self) -> u32 {
        self.words[0]
    }

    /// The rows of the torus.
    pub fn sy(&self) -> u32 {
        self.words[1]
    }

    /// The count of flows.
    pub fn flows(&self) -> usize {
        self.words[2] as usize
    }

    /// The cycle of the next step.
    #[inline]
    pub fn clock(&self) -> u32 {
        self.words[CLOCK_AT]
    }

    /// A flow's plan numbers.
    pub fn flow(&self, flow: usize) -> Flow {
        let [xs, ys, xd, yd, period, burst] =
            [0, 1, 2, 3, 4, 5].map(|at| self.words[flow_at(flow) + at]);
        Flow { xs, ys, xd, yd, period, burst }
    }

    /// How many packets of a flow have entered.
    #[inline]
    pub fn entered(&self, flow: usize) -> u32 {
        self.words[entered_at(flow)]
    }

    /// How many packets of a flow wait at its source.
    #[inline]
    pub fn waiting(&self, flow: usize) -> u32 {
        self.words[waiting_at(flow)]
    }

    /// The packets in flight, register by register.
    pub fn packets(&self) -> impl Iterator<Item = Packet> + '_ {
        let registers = &self.words[flow_at(self.flows())..];
        registers.chunks_exact(REGISTER_WORDS).filter(|register| register[0] != 0).map(|register| {
            Packet {
                flow: register[0] - 1,
                serial: register[1],
                entry: register[2],
                deflections: register[3],
            }
        })
    }
}

#[cfg(test)]
mod tests {
    use super::*;
    use crate::limits::{LAST_CLOCK, MOST_PERIOD};

    const FLOW: Flow = Flow { xs: 0, ys: 0, xd: 3, yd: 3, period: 10, burst: 2 };

    #[test]
    fn fresh_words_are_those_of_a_reset() {
        let state = State::fresh(4, 5, &[FLOW, FLOW]).unwrap();
        assert_eq!(State::reset(&state.write(b"notes").unwrap()).unwrap(), state);
        assert_eq!((state.sx(), state.sy(), state.flows(), state.clock()), (4, 5, 2, 0));
        assert_eq!(state.flow(1), FLOW);
    }

    #[test]
    fn a_period_has_the_records_last_byte_on_top() {
        for (period, [low, middle, top]) in [
            (1, [1, 0, 0]),
            (65_535, [0xFF, 0xFF, 0]),
            (65_536, [0, 0, 1]),
            (0x12_34_56, [0x56, 0x34, 0x12]),
            (MOST_PERIOD, [0xFF, 0xFF, 0xFF]),
        ] {
            let state = State::fresh(4, 4, &[Flow { period, ..FLOW }]).unwrap();
            let file = state.write(b"").unwrap();
            assert_eq!(file[..RECORD_BYTES], [0, 0, 3, 3, low, middle, 2, top]);
            assert_eq!(State::reset(&file).unwrap().flow(0).period, period);
        }
    }

    #[test]
    fn numbers_out_of_range_form_no_state() {
        let number = |sx, sy, flows: &[Flow]| State::fresh(sx, sy, flows).unwrap_err().number;
        assert_eq!(number(17, 4, &[FLOW]), 9);
        assert_eq!(number(4, u32::MAX, &[FLOW]), 9);
        assert_eq!(number(4, 3, &[FLOW]), 9);
        assert_eq!(number(4, 4, &[]), 9);
        assert_eq!(number(4, 4, &[FLOW; 257]), 9);
        assert_eq!(number(4, 4, &[Flow { period: 0, ..FLOW }]), 9);
        assert_eq!(number(4, 4, &[Flow { period: MOST_PERIOD + 1, ..FLOW }]), 9);
        assert_eq!(State::of_words(vec![4; 7]).unwrap_err().number, 8);
    }

    #[test]
    fn a_state_is_kept_as_words() {
        let mut state = State::fresh(4, 4, &[FLOW]).unwrap();
        assert_eq!(state.offer(1), Answer::Refused(Refusal { number: 12, place: 0 }));
        state.offer(0).done().unwrap();
        assert_eq!((state.entered(0), state.waiting(0)), (0, 1));
        assert_eq!(state.step().unwrap().len(), 0);
        assert_eq!((state.entered(0), state.waiting(0)), (1, 0));
        let packet = Packet { flow: 0, serial: 1, entry: 0, deflections: 0 };
        assert_eq!(state.packets().collect::<Vec<_>>(), [packet]);
        let mut kept = state.words().to_vec();
        kept.resize(MOST_STATE_WORDS, 7);
        assert_eq!(State::of_words(kept), Ok(state));
    }

    #[test]
    fn a_set_is_offered_whole_or_not() {
        let mut state = State::fresh(4, 4, &[FLOW, FLOW]).unwrap();
        assert_eq!(state.offer_set(&[]), Answer::Done(0));
        assert_eq!(state.offer_set(&[1, 0, 1]), Answer::Done(0));
        assert_eq!((state.waiting(0), state.waiting(1)), (1, 2));
        let before = state.clone();
        let unknown = Answer::Refused(Refusal { number: 12, place: 2 });
        assert_eq!(state.offer_set(&[0, 1, 2, 3]), unknown);
        let full = Answer::Refused(Refusal { number: 13, place: 65_533 });
        assert_eq!(state.offer_set(&[1; 65_534]), full);
        assert_eq!(state, before);
    }

    #[test]
    fn records_hold_the_last_deliveries() {
        let mut state = State::fresh(4, 4, &[Flow { period: 1, ..FLOW }, FLOW]).unwrap();
        let mut records = [Recent::default(); 3];
        records[2].held = 99;
        let behind = records[2];
        for _ in 0..12 {
            state.offer(0).done().unwrap();
            assert!(state.step().is_ok());
            assert_eq!(state.recent(&mut records, 3), Answer::Done(0));
        }
        assert_eq!((records[0].held, records[0].longest, records[0].most), (3, 8, 0));
        assert_eq!(records[0].flights[..4], [8, 8, 8, 0]);
        assert_eq!(records[1..], [Recent::default(), behind]);
        let number = |records: &mut [Recent], last| state.recent(records, last).done().unwrap_err();
        assert_eq!(number(&mut records[..1], 0), Refusal { number: 16, place: 0 });
        assert_eq!(number(&mut records, 0), Refusal { number: 17, place: 0 });
        assert_eq!(number(&mut records, 17), Refusal { number: 17, place: 0 });
    }

    #[test]
    fn many_steps_are_as_single_ones() {
        let mut single = State::fresh(4, 4, &[Flow { period: 1, ..FLOW }, FLOW]).unwrap();
        single.offer_set(&[0; 600]).done().unwrap();
        single.offer_set(&[1; 3]).done().unwrap();
        let mut many = single.clone();
        let mut ended_early = 0;
        for cycles in [0, 1, 7, 60, 1000, 1000, 1000] {
            let until = many.clock() + cycles;
            let left: Vec<Delivery> = many.steps(cycles).unwrap().collect();
            assert_eq!(many.deliveries().collect::<Vec<_>>(), left);
            let mut alone = Vec::new();
            while single.clock() < many.clock() {
                alone.extend(single.step().unwrap());
            }
            assert_eq!((left, &many), (alone, &single));
            ended_early += u32::from(many.clock() < until);
        }
        assert_eq!(ended_early, 2);
        assert_eq!(many.steps(LAST_CLOCK).unwrap().len(), 0);
        assert_eq!(many.clock(), LAST_CLOCK);
        assert_eq!(many.steps(0).err(), Some(Refusal { number: 11, place: 0 }));
        assert_eq!(many.deliveries().len(), 0);
    }

    #[test]
    fn a_step_tells_why_a_flow_waits() {
        let mut state = State::fresh(4, 4, &[FLOW, FLOW]).unwrap();
        let mut reasons = [9; 3];
        state.offer_set(&[0, 0, 0, 1]).done().unwrap();
        for told in [[0, 5, 9], [0, 5, 9], [2, 0, 9], [2, 1, 9]] {
            assert_eq!(state.step_reasons(&mut reasons).unwrap().len(), 0);
            assert_eq!(reasons, told);
        }
        let before = state.clone();
        let short = Refusal { number: 19, place: 0 };
        assert_eq!(state.step_reasons(&mut reasons[..1]).err(), Some(short));
        assert_eq!((state, reasons), (before, [2, 1, 9]));
    }

    #[test]
    fn a_refused_step_delivers_nothing() {
        let flow = Flow { xd: 0, yd: 0, ..FLOW };
        let mut words = State::fresh(1, 1, &[flow]).unwrap().words().to_vec();
        words[CLOCK_AT] = LAST_CLOCK - 1;
        let mut state = State::of_words(words).unwrap();
        state.offer(0).done().unwrap();
        assert_eq!(state.step().unwrap().len(), 1);
        assert!(state.step().is_err());
        let mut records = [Recent::default()];
        assert_eq!(state.recent(&mut records, 16), Answer::Done(0));
        assert_eq!(records[0].held, 0);
    }
}
