//! What `run` prints, by the packet book's lines, U1's records, U4's sets of flows, U6's trial generator
//! and U7's reasons.

use super::why::Why;
use crate::book::{Book, Delivery, LAST_CLOCK, Line};
use crate::offers::MOST_WAITING;
use crate::plan::{Plan, Refusal};
use crate::recent::{Record, feed};
use crate::window::{flight_bound, window};
use std::collections::HashMap;
use std::fmt::Write;

/// The last cycles of a pause, so many, are stepped one by one.
const MOST_SINGLE: i64 = 400;

/// A stream's next line.
#[derive(Clone, Debug)]
pub enum Entry {
    /// A packet for each flow that is named: every one is accepted or none is.
    Offer { cycle: i64, flows: Vec<u32> },
    /// A packet for the trial generator.
    Trial { cycle: i64, flow: u32 },
    /// A line that is no offer of this plan, or goes back.
    Fault,
}

impl Entry {
    /// The cycle of an offer.
    pub fn cycle(&self) -> Option<i64> {
        match self {
            Entry::Offer { cycle, .. } | Entry::Trial { cycle, .. } => Some(*cycle),
            Entry::Fault => None,
        }
    }
}

/// How a run is called.
#[derive(Clone, Copy, Debug, Default, PartialEq, Eq, Hash)]
pub struct Options {
    pub cycles: Option<i64>,
    pub recent: Option<usize>,
    pub summary: bool,
    /// The flow whose reasons are asked for.
    pub why: Option<usize>,
}

/// The run as the book has it.
struct Run {
    book: Book,
    offered: Vec<u64>,
    refused: Vec<u64>,
    /// The book's line of each packet, by its flow and serial.
    by_packet: HashMap<(usize, i64), usize>,
    /// The book's lines in the order of their exits.
    exits: Vec<usize>,
    /// The flows' last deliveries, if they are asked for.
    records: Option<Vec<Record>>,
    /// A flow's reasons, if they are asked for.
    why: Option<Why>,
    /// How it ended.
    end: &'static str,
}

/// How a run ends at the last clock, whose step is refused with 11.
pub const NO_FURTHER: &str = "the clock goes no further";

/// What is printed for these entries.
pub fn printed(plan: &Plan, entries: &[Entry], options: Options) -> String {
    let run = ran(plan, entries, options);
    let mut text = String::new();
    if !options.summary {
        text += EXIT_HEADS;
        text += "\n";
        for &line in &run.exits {
            let line = &run.book.lines[line];
            let (entry, exit) = (line.entry.unwrap(), line.exit.unwrap().0);
            let Line { flow, serial, offer, d, .. } = line;
            let (wait, flight) = (entry - offer, exit - entry + 2);
            writeln!(text, "{exit} {flow} {serial} {offer} {entry} {wait} {d} {flight}").unwrap();
        }
        text += "\n";
    }
    text += &table(&run);
    text += &run.why.map(|why| why.table()).unwrap_or_default();
    writeln!(text, "ended at cycle {}: {}", run.book.clock, run.end).unwrap();
    text
}

fn ran(plan: &Plan, entries: &[Entry], options: Options) -> Run {
    let mut run = Run::new(plan, options);
    let mut entries = entries.iter().peekable();
    loop {
        let clock = run.book.clock;
        if options.cycles == Some(clock) {
            run.end = "as asked";
            return run;
        }
        while let Some(entry) = entries.peek() {
            match entry {
                entry if entry.cycle() > Some(clock) => break,
                Entry::Offer { flows, .. } => run.offer(flows),
                Entry::Trial { flow, .. } => run.offer_trial(*flow),
                Entry::Fault => {
                    run.end = "at a faulty line";
                    return run;
                }
            }
            entries.next();
        }
        let all_left = run.book.placed.is_empty() && run.book.waiting.iter().all(|w| w.is_empty());
        if entries.peek().is_none() && all_left {
            run.end = "everything has left";
            return run;
        }
        if clock == LAST_CLOCK {
            run.end = NO_FURTHER;
            return run;
        }
        let next = entries.peek().and_then(|entry| entry.cycle());
        let until = [next, options.cycles].into_iter().flatten().fold(LAST_CLOCK, i64::min);
        let ahead = until - clock;
        if run.why.is_none() && ahead > MOST_SINGLE && run.book.pass_idle(ahead) > 0 {
            continue;
        }
        for delivery in run.step() {
            let [flow, serial, ..] = delivery;
            run.exits.push(run.by_packet[&(flow as usize, serial as i64)]);
            if let (Some(records), Some(last)) = (&mut run.records, options.recent) {
                feed(records, delivery, last);
            }
        }
    }
}

impl Run {
    fn new(plan: &Plan, options: Options) -> Run {
        let flows = plan.flows.len();
        Run {
            book: Book::new(plan.clone()),
            offered: vec![0; flows],
            refused: vec![0; flows],
            by_packet: HashMap::new(),
            exits: Vec::new(),
            records: options.recent.map(|_| vec![Record::default(); flows]),
            why: options.why.map(|flow| Why { flow, cycles: [0; 6] }),
            end: "",
        }
    }

    fn step(&mut self) -> Vec<Delivery> {
        let (words, flows) = (5 * self.book.plan.routers(), self.book.plan.flows.len());
        let Some(why) = &mut self.why else {
            return self.book.step(words).unwrap();
        };
        let (exits, reasons) = self.book.step_reasons(words, flows).unwrap();
        why.cycles[reasons[why.flow] as usize] += 1;
        exits
    }

    fn offer(&mut self, flows: &[u32]) {
        let has_room = has_room(&self.book, flows);
        for &flow in flows {
            if has_room {
                self.book.offer(flow).unwrap();
            }
            self.count(flow, has_room);
        }
    }

    fn offer_trial(&mut self, flow: u32) {
        let answer = self.book.offer_trial(flow);
        assert!(matches!(answer, Ok(0) | Err(Refusal { number: 18, place: 0 })), "{answer:?}");
        self.count(flow, answer.is_ok());
    }

    /// Counts a packet that was offered. An accepted one has the book's last line.
    fn count(&mut self, flow: u32, accepted: bool) {
        self.offered[flow as usize] += 1;
        if !accepted {
            self.refused[flow as usize] += 1;
            return;
        }
        let line = self.book.lines.last().unwrap();
        self.by_packet.insert((line.flow, line.serial), self.book.lines.len() - 1);
    }
}

/// Is there room for a packet of each of these flows, a flow named twice having two?
fn has_room(book: &Book, flows: &[u32]) -> bool {
    let mut waiting: Vec<usize> = book.waiting.iter().map(|waiting| waiting.len()).collect();
    for &flow in flows {
        waiting[flow as usize] += 1;
    }
    waiting.iter().all(|&waiting| waiting <= MOST_WAITING)
}

pub const EXIT_HEADS: &str = "exit flow serial offer entry wait deflections flight";
pub const HEADS: &str =
    "flow offered refused left waiting flying wait wait-bound spare nearest flight flight-bound";
pub const RECENT_HEADS: &str = "held longest most";

/// The table: columns to the right, two blanks apart.
fn table(run: &Run) -> String {
    let mut rows = vec![HEADS.split(' ').map(String::from).collect::<Vec<_>>()];
    rows.extend((0..run.book.plan.flows.len()).map(|f| row(run, f)));
    if let Some(records) = &run.records {
        rows[0].extend(RECENT_HEADS.split(' ').map(String::from));
        for (row, record) in rows[1..].iter_mut().zip(records) {
            let none = record.held == 0;
            let shown = |number: u32| if none { "-".to_string() } else { number.to_string() };
            row.extend([record.held.to_string(), shown(record.longest), shown(record.most)]);
        }
    }
    let width = |column: usize| rows.iter().map(|row| row[column].len()).max().unwrap();
    let widths: Vec<_> = (0..rows[0].len()).map(width).collect();
    let mut text = String::new();
    for row in &rows {
        let cells = row.iter().zip(&widths).map(|(cell, width)| format!("{cell:>width$}"));
        text += &cells.collect::<Vec<_>>().join("  ");
        text += "\n";
    }
    text
}

fn row(run: &Run, f: usize) -> Vec<String> {
    let plan = &run.book.plan;
    let lines: Vec<&Line> = run.book.lines.iter().filter(|line| line.flow == f).collect();
    let left = lines.iter().filter(|line| line.exit.is_some()).count();
    let waiting = lines.iter().filter(|line| line.entry.is_none()).count();
    let flying = lines.len() - left - waiting;
    let t = window(plan, f);
    let bound = |line: &Line| t.map(|t| (line.q + 1) * (plan.flows[f].period + t - 1) - 1);
    let entered = lines.iter().filter_map(|line| Some((line.entry? - line.offer, bound(line))));
    let longest = entered.clone().max_by_key(|(wait, bound)| (*wait, bound.map(|bound| -bound)));
    let nearest = entered.filter_map(|(wait, bound)| Some(bound? - wait)).min();
    let flight = lines.iter().filter_map(|line| Some(line.exit?.0 - line.entry? + 2)).max();
    let shown = |number: Option<i64>| number.map_or("-".to_string(), |number| number.to_string());
    let (wait, wait_bound) = (longest.map(|(wait, _)| wait), longest.and_then(|(_, bound)| bound));
    let spare = wait_bound.map(|bound| bound - wait.unwrap());
    let counts = [f as u64, run.offered[f], run.refused[f], left as u64];
    let counts = counts.into_iter().chain([waiting as u64, flying as u64]);
    counts
        .map(|count| count.to_string())
        .chain([wait, wait_bound, spare, nearest, flight].map(shown))
        .chain([flight_bound(plan, f).to_string()])
        .collect()
}
