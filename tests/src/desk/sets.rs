//! Lines with several flows: what is told of a faulty flow among them, and queues without room for all
//! of a line's packets.

use super::expected::Options;
use super::program::Program;
use super::streams::{LINE, Stream, compare, sample};
use crate::compare::Tally;
use crate::random::{self, Random};

/// What is wrong with a flow of a line.
#[derive(Clone, Copy, Debug)]
pub enum Fault {
    NoNumber,
    /// More than a word holds.
    TooLarge,
    /// The first number that no flow has.
    Unknown,
}

impl Fault {
    /// A line of so many flows with this fault in one of them, for a plan with `count` flows, and what
    /// is told of it.
    pub fn line(self, cycle: i64, count: usize, before: usize, flows: usize) -> (String, String) {
        let wrong = match self {
            Fault::NoNumber => "-1".to_string(),
            Fault::TooLarge => "4294967296".to_string(),
            Fault::Unknown => count.to_string(),
        };
        let mut line = cycle.to_string();
        for at in 0..flows {
            line += " ";
            line += &if at == before { wrong.clone() } else { (at % count).to_string() };
        }
        let place = (flows > 1).then(|| format!("the line's {} flow", ordinal(before + 1)));
        (line, self.told(&wrong, place, count, before))
    }

    fn told(self, wrong: &str, place: Option<String>, count: usize, before: usize) -> String {
        let aside = place.as_ref().map(|place| format!(", {place},")).unwrap_or_default();
        let unknown = format!("flow {wrong}{aside} is not in the plan");
        match self {
            Fault::NoNumber => {
                let flow = place.unwrap_or("the flow".to_string());
                format!("{flow} is '{wrong}', which is no whole number; {LINE}")
            }
            Fault::TooLarge => unknown,
            Fault::Unknown => {
                format!("{unknown}; its flows are 0 to {} (refused 12 {before})", count - 1)
            }
        }
    }
}

fn ordinal(number: usize) -> String {
    let is_teen = (11..=13).contains(&(number % 100));
    let ending = ["th", "st", "nd", "rd"].get(number % 10).filter(|_| !is_teen);
    format!("{number}{}", ending.unwrap_or(&"th"))
}

/// Lines with a fault in one of several flows, and what is told of each, for a plan of two flows: each
/// fault in each place of short lines, and in places far behind.
pub fn faulty(cycle: i64) -> Vec<(String, String)> {
    let mut lines = Vec::new();
    for fault in [Fault::NoNumber, Fault::TooLarge, Fault::Unknown] {
        for flows in [2, 3] {
            lines.extend((0..flows).map(|before| fault.line(cycle, 2, before, flows)));
        }
    }
    let places = [4, 11, 12, 13, 21, 22, 23, 111];
    lines.extend(places.map(|place| Fault::Unknown.line(cycle, 2, place - 1, 111)));
    lines
}

/// Packets of one line wait behind each other: the bound of each has its own q.
pub fn behind_each_other(program: &Program, tally: &mut Tally) {
    let options = Options { summary: true, ..Options::default() };
    for lines in [
        vec![(0, vec![1, 1])],
        vec![(0, vec![1, 0, 1, 1, 0])],
        vec![(0, vec![1]), (0, vec![1, 0, 1]), (3, vec![1, 1, 0]), (3, vec![0])],
    ] {
        compare(program, tally, &sample(), &Stream::of(lines), options);
    }
}

/// The longest line of one flow: with its newline it has 65,536 bytes.
pub const LONGEST: usize = 32_767;

/// A queue that lines of several flows fill to its last place. Where one packet of a line finds no
/// room, none of them is accepted, and the run goes on.
pub fn full_queue(program: &Program, tally: &mut Tally) {
    let plan = crate::slips::met_exactly().0;
    let lines = [
        (0, vec![1; LONGEST]),
        (0, vec![1; LONGEST]),
        (0, vec![2, 1, 0, 1]),
        (0, vec![3, 1, 3]),
        (0, vec![0, 1, 2]),
        (0, vec![0, 2, 0]),
        (0, vec![1]),
        (1, vec![1, 1]),
        (1, vec![0, 1, 3]),
        (40, vec![0, 0]),
    ];
    let options = Options { cycles: Some(2004), summary: true, ..Options::default() };
    compare(program, tally, &plan, &Stream::of(lines.to_vec()), options);

    // A flow that isn't in the plan is told, also behind one that finds no room.
    let told = "flow 4, the line's 3rd flow, is not in the plan; its flows are 0 to 3";
    let stream = Stream::of(lines[..4].to_vec()).with_fault("0 0 1 4 2\n", told);
    compare(program, tally, &plan, &stream, options);
}

/// Full queues of random plans, and short lines that often name a flow whose queue is full.
pub fn full_queues(program: &Program, tally: &mut Tally) {
    for seed in 0..4 {
        let mut random = Random::new(tally.seed + seed);
        let flows = random.from(1, 4) as usize;
        let plan = random::plan(&mut random, 4, 3, flows);
        let full = random.index(flows) as u32;
        let mut lines = vec![(0, vec![full; LONGEST]), (0, vec![full; LONGEST - 3])];
        let mut cycle = 0;
        for _ in 0..40 {
            cycle += random.from(0, 1);
            let flow = |_| if random.percent(40) { full } else { random.index(flows) as u32 };
            let count = 1 + cycle as usize % 4;
            lines.push((cycle, (0..count).map(flow).collect()));
        }
        let options = Options { cycles: Some(120), recent: Some(3), ..Options::default() };
        compare(program, tally, &plan, &Stream::of(lines), options);
    }
}
