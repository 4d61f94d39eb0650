//! `run`: a stream of offers through the archive, each made before the step of its cycle.

mod steps;

use crate::end::End;
use crate::ending::Ending;
use crate::input::{self, is_standard, read_plan};
use crate::offering::{offer, offer_set, offer_trial, Wrong};
use crate::offers::{Next, Of, Offer, Offers, LINE};
use crate::output::Output;
use crate::plan::{self, cant_print};
use crate::progress::Progress;
use crate::recent::Records;
use crate::signals::{self, Interruptible};
use crate::tally::{tallies, Broken, Tally};
use crate::watch::{watch, watch_end, WATCH};
use crate::why::Why;
use hrt::{Delivery, Refusal, State};
use std::ffi::OsString;
use std::io::{self, stdin, IsTerminal, Read};

/// What a run is asked for.
pub struct Request {
    pub plan: OsString,
    pub offers: OsString,
    /// The cycle before which it ends, if it hasn't already.
    pub cycles: Option<u32>,
    /// How many of each flow's last deliveries are looked at, if any.
    pub recent: Option<u32>,
    /// The flow whose reasons are counted, if any.
    pub why: Option<u32>,
    /// The table alone, without the exits.
    pub summary: bool,
}

pub fn run(request: Request) -> Result<(), Ending> {
    if is_standard(&request.plan) && is_standard(&request.offers) {
        let text =
            "plan and offers can't both come from standard input; name a file for one of them";
        return Err(Ending::wrong(text.to_string()));
    }
    let plan = read_plan(&request.plan)?;
    let state = plan.reset().map_err(plan::refused)?;
    let why = request.why.map(|flow| Why::new(flow, &state)).transpose().map_err(Ending::wrong)?;
    let offers = input::open(&request.offers)?;
    if is_standard(&request.offers) && stdin().is_terminal() {
        eprintln!("offers are read from here: a line {LINE} each, and ctrl-D at the end");
    }
    signals::note_interrupts().map_err(|why| Ending::failed(format!("no pipe: {why}")))?;
    let tallies = tallies(&plan, &state).map_err(plan::refused)?;
    let exits = !request.summary;
    let mut run = Run {
        cycles: request.cycles,
        records: request.recent.map(|last| Records::new(state.flows(), last)),
        why,
        output: Output::new(exits),
        progress: Progress::new(exits),
        ..Run::new(state, tallies, Offers::of(offers.name, Interruptible(offers.file)))
    };
    let end = run.go_to_end().map_err(cant_print)?;
    run.progress.end();
    let end = run.last_checks(end);
    let why = run.why.as_ref().map(Why::to_string).unwrap_or_default();
    let below = why + &end.said(run.state.clock());
    let table = run.output.table(&run.tallies, &run.state, run.records.as_ref(), &below);
    table.map_err(cant_print)?;
    end.ending()
}

/// A run under way.
struct Run<R> {
    state: State,
    tallies: Vec<Tally>,
    /// Room for the queues that a set finds.
    queues: Vec<u32>,
    records: Option<Records>,
    why: Option<Why>,
    offers: Offers<R>,
    /// An offer that is read, and whose cycle hasn't come.
    next: Option<Offer>,
    ended: bool,
    cycles: Option<u32>,
    /// Cycles before this clock are stepped one by one.
    singly: u32,
    /// The state's words before the last steps in one call.
    before: Vec<u32>,
    offered: u64,
    left: u64,
    /// Packets waiting or in flight.
    here: u64,
    output: Output,
    progress: Progress,
}

impl<R: Read> Run<R> {
    fn new(state: State, tallies: Vec<Tally>, offers: Offers<R>) -> Run<R> {
        Run {
            state,
            queues: vec![0; tallies.len()],
            tallies,
            records: None,
            why: None,
            offers,
            next: None,
            ended: false,
            cycles: None,
            singly: 0,
            before: Vec::new(),
            offered: 0,
            left: 0,
            here: 0,
            output: Output::new(false),
            progress: Progress::new(false),
        }
    }

    /// Offers and steps until there is nothing more to do.
    fn go_to_end(&mut self) -> io::Result<End> {
        loop {
            if let Some(number) = signals::noted() {
                return Ok(End::Signal(number));
            }
            if self.cycles == Some(self.state.clock()) {
                return Ok(End::Cycles);
            }
            if let Some(end) = self.offer_all()? {
                return Ok(end);
            }
            if self.ended && self.here == 0 {
                return Ok(End::Left);
            }
            if let Some(end) = self.advance()? {
                return Ok(end);
            }
        }
    }

    /// The cycles up to the next offer or the run's end, or some of them. One alone is a step, and so is
    /// each where reasons are asked for, and each before `singly`; a step at the last clock is refused.
    fn advance(&mut self) -> io::Result<Option<End>> {
        let ahead = self.ahead();
        match self.why.is_some() || self.state.clock() < self.singly || ahead <= 1 {
            true => self.step(),
            false => self.steps(ahead),
        }
    }

    /// Offers what the stream has for this cycle.
    fn offer_all(&mut self) -> io::Result<Option<End>> {
        let clock = self.state.clock();
        loop {
            let offer = match self.next {
                Some(offer) => offer,
                None if self.ended => return Ok(None),
                None => match self.offers.next() {
                    Next::Offer(offer) => offer,
                    Next::End => {
                        self.ended = true;
                        return Ok(None);
                    }
                    Next::Later => {
                        if let Some(end) = self.read_on()? {
                            return Ok(Some(end));
                        }
                        continue;
                    }
                    Next::Fault(text) => return Ok(Some(End::Fault(text))),
                },
            };
            if offer.cycle > clock {
                self.next = Some(offer);
                return Ok(None);
            }
            self.next = None;
            if let Some(end) = self.offer(offer) {
                return Ok(Some(end));
            }
        }
    }

    /// Reads more of the stream. What has left is printed before that may take its time.
    fn read_on(&mut self) -> io::Result<Option<End>> {
        self.output.flush()?;
        if let Err(why) = self.offers.read_on() {
            return Ok(Some(End::Unreadable(format!("the offers can't be read: {why}"))));
        }
        Ok(signals::noted().map(End::Signal))
    }

    /// Offers what a line has.
    fn offer(&mut self, line: Offer) -> Option<End> {
        let Run { state, tallies, queues, offers, .. } = self;
        let (packets, accepted) = match line.of {
            Of::Flow(flow) => (1, offer(state, tallies, line.cycle, flow)),
            Of::Trial(flow) => (1, offer_trial(state, tallies, line.cycle, flow)),
            Of::Set => {
                let flows = offers.set();
                (flows.len() as u64, offer_set(state, tallies, queues, line.cycle, flows))
            }
        };
        match accepted {
            Ok(accepted) => {
                self.offered += packets;
                self.here += accepted;
                None
            }
            Err(Wrong::Unknown(text)) => Some(End::Fault(self.offers.at_line(&text))),
            Err(Wrong::Broken(text)) => Some(End::Broken(text)),
        }
    }

    /// One cycle, and what leaves in it.
    fn step(&mut self) -> io::Result<Option<End>> {
        let Run { state, tallies, output, .. } = self;
        let left = match &mut self.why {
            None => leave(state.step(), tallies, output)?,
            Some(why) => leave(why.step(state), tallies, output)?,
        };
        let left = match left {
            Ok(left) => left,
            Err(end) => return Ok(Some(end)),
        };
        self.count(1, left);
        if let Err(broken) = self.keep() {
            return Ok(Some(End::Broken(broken)));
        }
        if self.state.clock().is_multiple_of(WATCH) {
            let watched = watch(&self.state, &self.tallies, self.here);
            return Ok(watched.err().map(End::Broken));
        }
        Ok(None)
    }

    /// Counts the packets that left in so many cycles.
    fn count(&mut self, cycles: u32, left: u64) {
        self.left += left;
        self.here -= left;
        self.progress.cycles(cycles, self.state.clock(), self.offered, self.left);
    }

    /// What is kept of the last step: its reason, and its deliveries.
    fn keep(&mut self) -> Result<(), Broken> {
        if let Some(why) = &mut self.why {
            why.count(&self.state)?;
        }
        self.feed()
    }

    /// Feeds what the last step, or the last steps in one call, delivered to the records.
    fn feed(&mut self) -> Result<(), Broken> {
        match &mut self.records {
            Some(records) if self.state.deliveries().len() > 0 => records.feed(&self.state),
            _ => Ok(()),
        }
    }

    /// What is still to be looked at when the run has ended.
    fn last_checks(&mut self, end: End) -> End {
        if let End::Broken(_) = end {
            return end;
        }
        let Run { state, tallies, why, .. } = self;
        let watched = watch_end(state, tallies, self.here);
        let counted = |()| why.as_ref().map_or(Ok(()), |why| why.check(state.clock()));
        watched.and_then(counted).err().map_or(end, End::Broken)
    }
}

/// Enters what a step, or many in one call, delivered in the tallies and prints it: how many left, or why
/// the run ends. Inlined in each kind of step, so that none has a call more.
#[inline(always)]
fn leave(
    exits: Result<impl Iterator<Item = Delivery>, Refusal>,
    tallies: &mut [Tally],
    output: &mut Output,
) -> io::Result<Result<u64, End>> {
    let exits = match exits {
        Ok(exits) => exits,
        Err(refusal) => return Ok(Err(refused_step(refusal))),
    };
    let mut left = 0;
    for exit in exits {
        match tallies[exit.flow as usize].leave(&exit) {
            Ok(offer) => output.exit(offer, &exit)?,
            Err(broken) => return Ok(Err(End::Broken(broken))),
        }
        left += 1;
    }
    Ok(Ok(left))
}

fn refused_step(refusal: Refusal) -> End {
    match refusal.number {
        11 => End::Refused(refusal),
        _ => End::Broken(format!("a step is {refusal}")),
    }
}

#[cfg(test)]
mod tests;
