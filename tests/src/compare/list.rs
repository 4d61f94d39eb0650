//! A list of calls after a reset: the book is fed each call's kind and arguments, and after each
//! call its answer, its deliveries and reasons and the words of its state are compared, whole.

use super::{Memory, Run, Twin, recent, sets, steps};
use crate::book::{Book, Delivery};
use crate::bursts::Bursts;
use crate::calls::Answer;
use crate::lent::{Call, Lent};
use crate::plan::{Plan, Refusal};
use crate::promises::{Limits, check, check_live, check_reasons, check_set};
use crate::random;
use crate::state::words;

/// The call by which packets are offered.
#[derive(Clone, Copy)]
pub enum By {
    Offer,
    Trial,
    Set,
}

impl By {
    pub const ALL: [By; 3] = [By::Offer, By::Trial, By::Set];
}

/// A list under way.
pub struct List {
    book: Book,
    /// The state, and the flows' records, which keep so many deliveries at most.
    pub memory: Memory,
    last: u32,
    limits: Limits,
    bursts: Bursts,
    delivered: Vec<Delivery>,
}

impl List {
    /// Resets noise to this plan. The promises of entries are watched for few flows of a large plan.
    pub fn new(run: &mut Run, plan: Plan) -> List {
        let file = plan.file(&random::notes(run.random, &plan));
        let past = run.random.index(9);
        let mut memory = Memory::of_file(&file);
        memory.state = Twin::noise_words(run.random, plan.state_words() + past);
        run.accepts(Call::Reset, &mut memory);
        let flows = plan.flows.len();
        let watched = run.random.index(flows);
        let limits = Limits::of(&plan, |f| flows <= 6 || f == watched);
        let book = Book::new(plan);
        let last = recent::keep(run.random, &mut memory, flows);
        List { book, memory, last, limits, bursts: Bursts::default(), delivered: Vec::new() }
    }

    /// How many packets of a flow wait.
    pub fn waiting(&self, flow: u32) -> usize {
        self.book.waiting[flow as usize].len()
    }

    /// A call that is fed to the book.
    pub fn call(&mut self, run: &mut Run, call: Call) -> Answer {
        let (book, delivered) = (&mut self.book, &mut self.delivered);
        let answer = run.call_by(call, &mut self.memory, |lent| feed(book, delivered, lent));
        check_live(&self.book, &self.limits);
        self.bursts.watch(&self.book, &self.limits, &mut run.tally.bursts);
        answer
    }

    /// A set, lent with other entries around it.
    pub fn offer_set(&mut self, run: &mut Run, flows: &[u32]) -> bool {
        self.memory.list = sets::lent(run.random, flows, self.book.plan.flows.len());
        self.call(run, Call::OfferSet).is_ok()
    }

    /// A packet of each of these flows, by this call: are all to be accepted?
    pub fn offer_by(&mut self, run: &mut Run, by: By, flows: &[u32]) -> bool {
        let call = match by {
            By::Offer => Call::Offer,
            By::Trial => Call::OfferTrial,
            By::Set => return self.offer_set(run, flows),
        };
        flows.iter().filter(|&&flow| self.call(run, call(flow)).is_err()).count() == 0
    }

    /// One cycle by any form of step, which is lent so many words for its deliveries.
    pub fn step(&mut self, run: &mut Run, room: usize) {
        let step = steps::any(run.random, &mut self.memory, room, self.book.plan.flows.len());
        self.kept_step(run, step);
    }

    /// A step. Its deliveries are then fed to the flows' records.
    pub fn kept_step(&mut self, run: &mut Run, step: Call) {
        if let Ok(exits) = self.call(run, step) {
            recent::feed_step(run, &mut self.memory, exits, self.last);
        }
    }

    /// A call that isn't fed to the book: writing, a refused reset, or too little of the state lent.
    pub fn unfed(&mut self, run: &mut Run) {
        let (size, flows) = (self.book.plan.state_words(), self.book.plan.flows.len());
        let memory = &mut self.memory;
        let (whole, file) = (memory.state.lent.clone(), memory.file.lent.clone());
        let kept = std::mem::take(&mut memory.records);
        if run.random.percent(60) {
            memory.state.lent.end = whole.start + run.random.index(size);
        }
        let short = memory.state.lent != whole;
        match run.random.from(0, 6) {
            0 if short => {
                run.accepts(Call::Offer(0), memory);
            }
            1 if short => {
                run.accepts(Call::OfferTrial(0), memory);
            }
            2 if short => {
                let step = steps::any(run.random, memory, 1280, flows);
                run.accepts(step, memory);
            }
            3 => {
                if !short {
                    memory.file.lent.end = run.random.index(file.end);
                }
                run.accepts(Call::Reset, memory);
            }
            4 if short => sets::on_words(run, memory, flows),
            5 => recent::on_words(run, memory, flows),
            _ => {
                let notes = run.random.bytes(9);
                let length = self.book.plan.file_bytes(notes.len());
                let room = length + 3 - run.random.index(5);
                run.write(memory, &notes, room);
            }
        }
        (self.memory.state.lent, self.memory.file.lent) = (whole, file);
        self.memory.records = kept;
    }

    /// The promises on all lines, at the end.
    pub fn end(self) {
        check(&self.book, &self.limits, &self.delivered);
    }
}

/// Feeds the book a call's kind and arguments: what it is to answer and to leave.
fn feed(book: &mut Book, delivered: &mut Vec<Delivery>, lent: &mut Lent) -> Answer {
    let answer = match lent.call {
        Call::Offer(flow) => book.offer(flow),
        Call::OfferTrial(flow) => book.offer_trial(flow),
        Call::OfferSet => {
            let before = book.clone();
            let answer = book.offer_set(lent.list);
            check_set(&before, lent.list, answer, book);
            answer
        }
        _ => fed_step(book, lent).map(|exits| {
            put(lent.delivery, &exits.concat());
            delivered.extend(&exits);
            exits.len() as u64
        }),
    };
    put(lent.state, &words(book));
    answer
}

/// The exits of a form of step. Its reasons are told.
fn fed_step(book: &mut Book, lent: &mut Lent) -> Result<Vec<Delivery>, Refusal> {
    let room = lent.delivery.len();
    match lent.call {
        Call::Step => book.step(room),
        Call::Steps(cycles) => book.steps(room, cycles),
        Call::StepReasons => {
            let before = book.clone();
            let (exits, told) = book.step_reasons(room, lent.reasons.len())?;
            check_reasons(&before, &told, book);
            put(lent.reasons, &told);
            Ok(exits)
        }
        call => panic!("{call:?} isn't fed to the book"),
    }
}

/// Puts words over the front of a memory.
fn put(memory: &mut [u32], words: &[u32]) {
    memory[..words.len()].copy_from_slice(words);
}
