//! `--why`: the table of a flow's reasons by U7, each reason and each ending, the ends of the flows' range,
//! and what is no flow of the plan.

use super::ends::sentence;
use super::expected::{Options, printed};
use super::program::{Program, same_lines, write};
use super::streams::{Stream, compare, sample};
use crate::compare::Tally;
use crate::plan::{Flow, Plan};
use std::fs;

/// U7's words for the six reasons, by their numbers.
pub const WORDS: [&str; 6] = [
    "it entered",
    "nothing waiting",
    "no token",
    "its port is E and W held a packet",
    "its port is S and a network packet took S",
    "a lower-numbered flow of its client entered",
];

/// In how many cycles each reason was this flow's.
#[derive(Clone, Copy, Debug, PartialEq, Eq)]
pub struct Why {
    pub flow: usize,
    pub cycles: [u64; 6],
}

impl Why {
    /// The table, behind a blank line: numbers to the right, two blanks apart.
    pub fn table(&self) -> String {
        let longest = self.cycles.iter().map(|cycles| cycles.to_string().len()).max().unwrap();
        let width = longest.max("cycles".len());
        let mut text = format!("\nwhy  {:>width$}  flow {}\n", "cycles", self.flow);
        for (reason, (cycles, words)) in self.cycles.iter().zip(WORDS).enumerate() {
            text += &format!("  {reason}  {cycles:>width$}  {words}\n");
        }
        text
    }
}

/// A line of the table: the reason, its cycles and its words.
pub fn row(line: &str) -> Option<(usize, u64, &str)> {
    let (reason, rest) = line.trim_start().split_once("  ")?;
    let (cycles, words) = rest.trim_start().split_once("  ")?;
    let reason = reason.parse().ok()?;
    WORDS.contains(&words).then_some((reason, cycles.parse().ok()?, words))
}

/// Three flows on 4 by 4. Flow 0's packets turn S at the client of flows 1 and 2, whose ports are S and E,
/// and flow 1 goes before flow 2 there.
fn all_reasons() -> Plan {
    let flows =
        [[0, 0, 1, 1, 3, 2], [1, 0, 1, 2, 5, 2], [1, 0, 2, 0, 7, 1]].map(Flow::from_numbers);
    Plan { sx: 4, sy: 4, flows: flows.to_vec() }
}

/// Lines of one flow each: every flow has packets waiting in some cycles and none in others.
fn lines() -> Vec<(i64, Vec<u32>)> {
    (0..36).map(|at| (at / 6 * 4 + at % 6 / 3, vec![at as u32 % 3])).collect()
}

/// Each flow of a plan whose flows wait for all reasons.
pub fn each_reason(program: &Program, tally: &mut Tally) {
    let mut came_up = [false; 6];
    for flow in 0..3 {
        let options = Options { summary: flow != 1, why: Some(flow), ..Options::default() };
        let stream = Stream::of(lines());
        for line in printed(&all_reasons(), &stream.entries, options).lines() {
            if let Some((reason, 1.., _)) = row(line) {
                came_up[reason] = true;
            }
        }
        compare(program, tally, &all_reasons(), &stream, options);
    }
    assert_eq!(came_up, [true; 6]);
}

/// Runs that end before everything has left, in each of the first cycles, or at a faulty line.
pub fn each_ending(program: &Program, tally: &mut Tally) {
    for cycles in [0, 1, 2, 3, 20, 41] {
        let options = Options { cycles: Some(cycles), why: Some(2), ..Options::default() };
        compare(program, tally, &all_reasons(), &Stream::of(lines()), options);
    }
    let told = "flow 3 is not in the plan; its flows are 0 to 2 (refused 12 0)";
    for until in [0, 1, 36] {
        let cycle = lines()[..until].last().map_or(0, |(cycle, _)| *cycle);
        let stream =
            Stream::of(lines()[..until].to_vec()).with_fault(&format!("{cycle} 3\n"), told);
        let options = Options { recent: Some(2), why: Some(1), ..Options::default() };
        compare(program, tally, &all_reasons(), &stream, options);
    }
}

/// The first flow and the last of the largest plan.
pub fn both_ends(program: &Program, tally: &mut Tally) {
    let flow = |flow: i64| Flow::from_numbers([flow % 16, flow / 16, 15 - flow % 16, 3, 6000, 3]);
    let plan = Plan { sx: 16, sy: 16, flows: (0..256).map(flow).collect() };
    let lines = [0, 255, 254, 0, 255, 255, 1].map(|flow| (2, vec![flow]));
    for flow in [0, 255] {
        let options = Options { summary: true, why: Some(flow), ..Options::default() };
        compare(program, tally, &plan, &Stream::of(lines.to_vec()), options);
    }
}

/// A flow's number may have zeros in front, and stand in the option's own word.
pub fn spelled(program: &Program, tally: &mut Tally) {
    let stream = Stream::of(vec![(0, vec![1]), (0, vec![1]), (1, vec![0])]);
    write(&program.file("run.plan"), &sample().file(b""));
    for (words, flow) in [
        (&["--why", "1"][..], 1),
        (&["--why", "00"], 0),
        (&["--why=0000000000000000000001"], 1),
        (&["--why=0", "--summary", "-"], 0),
    ] {
        let summary = words.contains(&"--summary");
        let options = Options { summary, why: Some(flow), ..Options::default() };
        let words = [&["run", "run.plan"], words].concat();
        let got = program.call(tally, &words, stream.text.as_bytes());
        assert_eq!((got.status, got.err.as_str()), (0, ""), "{words:?}");
        same_lines(tally, &words, &printed(&sample(), &stream.entries, options), &got.out);
    }
}

/// What is no flow's number, or given twice.
pub fn words(program: &Program, tally: &mut Tally) {
    let told = |is: &str| format!("the number of --why is {is}; it must be 0 to 255");
    let large = ["256", "300", "4294967296", "18446744073709551616"].map(|flow| (flow, told(flow)));
    let others = ["", "-1", "+1", "0,1", "1.0", "0x1", "x", "--summary"];
    let others = others.map(|flow| (flow, told(&format!("'{flow}', which is no whole number"))));
    for (flow, told) in large.into_iter().chain(others) {
        for words in [&["--why", flow][..], &[&format!("--why={flow}")]] {
            let words = [&["run", "a"], words].concat();
            sentence(program.call(tally, &words, b""), 2, &format!("hrt: {told}"));
        }
    }
    for (words, told) in [
        (&["run", "a", "--why"][..], "run takes a number behind --why; ./hrt run"),
        (&["run", "a", "--why", "0", "--why=0"], "run takes --why once; ./hrt run"),
        (&["show", "a", "--why", "0"], "show has no option '--why'; ./hrt show"),
    ] {
        let told = format!("hrt: {told} --help says more");
        sentence(program.call(tally, words, b""), 2, &told);
    }
}

/// A flow that isn't in the plan is told before anything is run, whatever the offers are.
pub fn unknown(program: &Program, tally: &mut Tally) {
    let [one, two] = [1, 2].map(|flows| {
        let plan = Plan { flows: sample().flows[..flows].to_vec(), ..sample() };
        (plan, flows - 1)
    });
    for ((plan, last), flow) in [(&one, 1), (&two, 2), (&two, 3), (&two, 255)] {
        write(&program.file("run.plan"), &plan.file(b""));
        let told =
            format!("hrt: flow {flow} of --why is not in the plan; its flows are 0 to {last}");
        for offers in ["", "0 0\n", "0 9\n"] {
            write(&program.file("offers"), offers.as_bytes());
            for file in ["offers", "-", "nothing"] {
                let words = ["run", "run.plan", file, "--why", &flow.to_string()];
                sentence(program.call(tally, &words, offers.as_bytes()), 2, &told);
            }
        }
    }
    fs::remove_file(program.file("offers")).unwrap();
}
