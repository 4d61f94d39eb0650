//! Lines of the trial generator: what is told of a faulty one, and queues in which it finds no room.

use super::expected::{Entry, Options};
use super::program::Program;
use super::sets::LONGEST;
use super::streams::{LINE, Stream, compare, sample};
use crate::compare::Tally;
use crate::random::{self, Random};

/// Faulty lines behind one of this cycle, and what is told of each, for a plan with `count` flows.
pub fn faulty(cycle: i64, count: usize) -> Vec<(String, String)> {
    let count_of = |flows| format!("trial has {flows} behind it; it takes one: CYCLE trial FLOW");
    let no_number = |flow| format!("{flow}, which is no whole number; {LINE}");
    let unknown = |flow: &str| {
        let last = count - 1;
        format!("flow {flow} is not in the plan; its flows are 0 to {last} (refused 12 0)")
    };
    let next = count.to_string();
    let cases = [
        ("trial", count_of("no flow")),
        ("trial # 0", count_of("no flow")),
        ("trial 0 0", count_of("2 flows")),
        ("trial 0 x", count_of("2 flows")),
        ("trial trial 0", count_of("2 flows")),
        ("trial 0 0 0 # 0", count_of("3 flows")),
        ("trial x", no_number("the flow is 'x'")),
        ("trial -1 # 0", no_number("the flow is '-1'")),
        ("trial trial", no_number("the flow is 'trial'")),
        ("trial0", no_number("the flow is 'trial0'")),
        ("Trial 0", no_number("the line's 1st flow is 'Trial'")),
        ("trials 0 0", no_number("the line's 1st flow is 'trials'")),
        ("0 trial", no_number("the line's 2nd flow is 'trial'")),
        ("0 trial 0", no_number("the line's 2nd flow is 'trial'")),
        ("trial 4294967296", "flow 4294967296 is not in the plan".to_string()),
        ("trial 4294967295", unknown("4294967295")),
        (&format!("trial {next}"), unknown(&next)),
    ];
    cases.map(|(behind, told)| (format!("{cycle} {behind}"), told)).to_vec()
}

fn trial(cycle: i64, flow: u32) -> Entry {
    Entry::Trial { cycle, flow }
}

fn sonar(cycle: i64, flows: &[u32]) -> Entry {
    Entry::Offer { cycle, flows: flows.to_vec() }
}

/// More packets of the generator than may wait, all at once.
pub fn alone(program: &Program, tally: &mut Tally) {
    let stream = Stream::of_entries(vec![trial(0, 1); 260]);
    let options = Options { cycles: Some(1), summary: true, ..Options::default() };
    compare(program, tally, &sample(), &stream, options);
}

/// Packets of the sonar and of the generator in one queue, about 255 of them: each counts for the
/// other, and only the generator finds no room. Then the queue empties, and there is room again.
pub fn beside_the_sonar(program: &Program, tally: &mut Tally) {
    let mut entries = vec![sonar(0, &[1; 253]), trial(0, 1), trial(0, 1), trial(0, 1)];
    entries.extend([sonar(0, &[1]), trial(0, 1), trial(0, 0), sonar(0, &[1, 0, 1]), trial(0, 1)]);
    entries.extend((1..60).flat_map(|cycle| [trial(cycle, 1), trial(cycle, 0), trial(cycle, 1)]));
    entries.extend([sonar(60, &[1]), trial(60, 1), sonar(60, &[1, 1])]);
    for summary in [true, false] {
        let options = Options { recent: Some(2), summary, ..Options::default() };
        compare(program, tally, &sample(), &Stream::of_entries(entries.clone()), options);
    }
}

/// The sonar fills a queue to its last place: its own packets and the generator's are refused.
pub fn full_queue(program: &Program, tally: &mut Tally) {
    let full = [1; LONGEST];
    let mut entries = vec![trial(0, 1), sonar(0, &full), sonar(0, &full), trial(0, 1)];
    entries.extend([sonar(0, &[1]), trial(0, 1), sonar(0, &[1]), sonar(0, &[0, 1]), trial(0, 0)]);
    entries.extend([trial(2, 1), sonar(2, &[1]), sonar(2, &[1])]);
    let options = Options { cycles: Some(40), summary: true, ..Options::default() };
    compare(program, tally, &sample(), &Stream::of_entries(entries), options);
}

/// Queues of random plans, of which one has about 255 packets: lines of all kinds often name it.
pub fn queues(program: &Program, tally: &mut Tally) {
    for seed in 0..6 {
        let mut random = Random::new(tally.seed + seed);
        let flows = random.from(1, 4) as usize;
        let plan = random::plan(&mut random, 4, 3, flows);
        let most = random.index(flows) as u32;
        let waiting = random.from(245, 260) as usize;
        let mut entries = vec![sonar(0, &vec![most; waiting])];
        let mut cycle = 0;
        for _ in 0..200 {
            cycle += random.from(0, 1);
            let flow = if random.percent(70) { most } else { random.index(flows) as u32 };
            entries.push(match random.from(0, 9) {
                0 => sonar(cycle, &[flow, most]),
                1..3 => sonar(cycle, &[flow]),
                _ => trial(cycle, flow),
            });
        }
        let options = Options { cycles: Some(400), recent: Some(3), ..Options::default() };
        compare(program, tally, &plan, &Stream::of_entries(entries), options);
    }
}
