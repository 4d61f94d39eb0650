//! Random plans and streams through `run`.

use super::expected::{Entry, NO_FURTHER, Options, printed};
use super::program::{Program, same_lines, write};
use super::sets::Fault;
use super::trials;
use crate::book::LAST_CLOCK;
use crate::compare::Tally;
use crate::plan::{Flow, Plan};
use crate::random::{self, Random};

/// What a line is, as a fault says it, and examples of it.
pub const LINE: &str = "a line is CYCLE FLOW .. or CYCLE trial FLOW";
pub const EXAMPLES: &str = "as 120 3, 120 3 4 4 or 120 trial 3";

/// The plan of 01's sample listing: two flows in a row, with T 3 and 1.
pub fn sample() -> Plan {
    let flows = [[1, 0, 2, 0, 10, 1], [0, 0, 3, 0, 10, 1]].map(Flow::from_numbers);
    Plan { sx: 4, sy: 4, flows: flows.to_vec() }
}

/// A stream: its entries, their text, and what is told of its last line if that is faulty.
pub struct Stream {
    pub entries: Vec<Entry>,
    pub text: String,
    pub told: Option<String>,
}

impl Stream {
    /// A line for each of these cycles and flows.
    pub fn of(lines: Vec<(i64, Vec<u32>)>) -> Stream {
        let entry = |(cycle, flows)| Entry::Offer { cycle, flows };
        Stream::of_entries(lines.into_iter().map(entry).collect())
    }

    /// A line for each of these entries.
    pub fn of_entries(entries: Vec<Entry>) -> Stream {
        let text = entries.iter().map(|entry| words(entry).join(" ") + "\n").collect();
        Stream { entries, text, told: None }
    }

    /// The stream with one more line, which is faulty.
    pub fn with_fault(mut self, line: &str, told: &str) -> Stream {
        self.told =
            Some(format!("standard input:{}: {told}\n", self.text.matches('\n').count() + 1));
        self.text += line;
        self.entries.push(Entry::Fault);
        self
    }
}

/// The words of an offer's line: its cycle first.
fn words(entry: &Entry) -> Vec<String> {
    match entry {
        Entry::Offer { cycle, flows } => {
            [cycle.to_string()].into_iter().chain(flows.iter().map(u32::to_string)).collect()
        }
        Entry::Trial { cycle, flow } => vec![cycle.to_string(), "trial".into(), flow.to_string()],
        Entry::Fault => panic!("a faulty line has its own text"),
    }
}

/// A short stream of a random plan, seldom a long one.
pub fn round(program: &Program, tally: &mut Tally, random: &mut Random, sx: i64, sy: i64) {
    let most = random.pick(&[1, 2, 4, 9]);
    let flows = random.from(1, most) as usize;
    let plan = random::plan(random, sx, sy, flows);
    let lines = if random.percent(3) { 5000 } else { random.index(200) };
    let stream = stream(random, &plan, lines, SHORT_PAUSES);
    let bounded = random.percent(30) || is_long(&plan, &stream);
    let cycles = bounded.then(|| random.from(0, 2000));
    let recent = random.percent(40).then(|| 1 + random.index(16));
    let summary = random.percent(20);
    let why = random.percent(30).then(|| random.index(flows));
    let options = Options { cycles, recent, summary, why };
    compare(program, tally, &plan, &stream, options);
}

/// May a run of this stream take long to its end?
fn is_long(plan: &Plan, stream: &Stream) -> bool {
    let packets = |entry: &Entry| match entry {
        Entry::Offer { flows, .. } => flows.len() as i64,
        Entry::Trial { .. } => 1,
        Entry::Fault => 0,
    };
    let packets: i64 = stream.entries.iter().map(packets).sum();
    plan.flows.iter().any(|flow| flow.period * packets > 20_000)
}

/// The cycle from which on a stream has lines, the chance in a hundred of a pause before a line, and the
/// longest.
#[derive(Clone, Copy)]
pub struct Pauses {
    pub first: i64,
    pub chance: i64,
    pub longest: i64,
}

const SHORT_PAUSES: Pauses = Pauses { first: 0, chance: 2, longest: 300 };

/// Lines of one flow or several and of the trial generator, with blanks, comments and either end of
/// line.
pub fn stream(random: &mut Random, plan: &Plan, lines: usize, pauses: Pauses) -> Stream {
    let count = plan.flows.len();
    let mut stream = Stream::of(Vec::new());
    let newline = random.pick(&["\n", "\r\n"]);
    let gap = random.pick(&[0, 1, 3, 40]);
    let several = random.pick(&[0, 10, 50]);
    let trials = random.pick(&[0, 10, 60]);
    let mut cycle = pauses.first;
    for _ in 0..lines {
        if random.percent(50) {
            cycle += random.from(0, gap);
        }
        if random.percent(pauses.chance) {
            cycle += random.from(0, pauses.longest);
        }
        cycle = cycle.min(LAST_CLOCK - 1);
        let entry = if random.percent(trials) {
            Entry::Trial { cycle, flow: random.index(count) as u32 }
        } else {
            Entry::Offer { cycle, flows: flows(random, count, several) }
        };
        if random.percent(3) {
            stream.text += random.pick(&["# nothing", "", " \t", "#", "  # 9 9"]);
            stream.text += newline;
        }
        stream.text += &line(random, &words(&entry));
        stream.text += newline;
        stream.entries.push(entry);
    }
    if random.percent(20) {
        let (line, told) = faulty(random, count, cycle);
        stream = stream.with_fault(&(line + newline), &told);
    }
    if random.percent(30) && stream.text.ends_with('\n') {
        stream.text.truncate(stream.text.len() - newline.len());
    }
    stream
}

/// The flows of a line: one, or with this chance in a hundred several, some of them named again.
fn flows(random: &mut Random, count: usize, several: i64) -> Vec<u32> {
    let most = if random.percent(several) { random.pick(&[2, 2, 3, 5, 20]) } else { 1 };
    let mut flows: Vec<u32> = (0..most).map(|_| random.index(count) as u32).collect();
    if most > 1 && random.percent(30) {
        flows[1] = flows[0];
    }
    flows
}

/// The text of a line with these words.
fn line(random: &mut Random, words: &[String]) -> String {
    match random.from(0, 19) {
        0 => format!(" {} ", words.join("\t ")),
        1 => format!("{} # from head {}", words.join(" "), words[1]),
        2 => {
            let padded = |word: &String| match word.parse::<u32>() {
                Ok(number) => format!("{number:014}"),
                Err(_) => word.clone(),
            };
            words.iter().map(padded).collect::<Vec<_>>().join(" ")
        }
        _ => words.join(" "),
    }
}

/// A faulty line behind one of this cycle, and what is told of it.
fn faulty(random: &mut Random, count: usize, cycle: i64) -> (String, String) {
    match random.from(0, 6) {
        0 => (cycle.to_string(), format!("what is '{cycle}'? {LINE}, {EXAMPLES}")),
        1 if cycle > 0 => {
            let back = cycle - 1;
            let told = format!("cycle {back} comes after cycle {cycle}; cycles never go back");
            (format!("{back} {}", random.pick(&["0", "0 0", "trial 0"])), told)
        }
        2 => {
            let mut lines = trials::faulty(cycle, count);
            lines.swap_remove(random.index(lines.len()))
        }
        _ => {
            let flows = 1 + random.index(5);
            let before = random.index(flows);
            let fault = random.pick(&[Fault::NoNumber, Fault::TooLarge, Fault::Unknown]);
            fault.line(cycle, count, before, flows)
        }
    }
}

/// Compares what is printed, and what is told of a fault that the run has come to.
pub fn compare(
    program: &Program,
    tally: &mut Tally,
    plan: &Plan,
    stream: &Stream,
    options: Options,
) {
    let file = plan.file(b"");
    write(&program.file("run.plan"), &file);
    let numbers = [
        ("--cycles", options.cycles.map(|cycles| cycles.to_string())),
        ("--recent", options.recent.map(|last| last.to_string())),
        ("--why", options.why.map(|flow| flow.to_string())),
    ];
    let mut words = vec!["run", "run.plan"];
    for (option, number) in &numbers {
        words.extend(number.iter().flat_map(|number| [*option, number]));
    }
    if options.summary {
        words.push("--summary");
    }
    let got = program.call(tally, &words, stream.text.as_bytes());
    let with = (&file, options, &stream.text);
    let make = || printed(plan, &stream.entries, options);
    let expected = match &program.kept {
        Some(kept) => kept.expected((file.clone(), stream.text.clone(), options), make),
        None => make(),
    };
    same_lines(tally, &with, &expected, &got.out);
    let ended = |how: &str| expected.trim_end().ends_with(how);
    let (status, told) = match stream.told.as_deref() {
        Some(told) if ended("at a faulty line") => (2, told),
        _ if ended(NO_FURTHER) => (1, "hrt: step: refused 11 0; ./hrt explain 11 says why\n"),
        _ => (0, ""),
    };
    assert_eq!((got.status, got.err.as_str()), (status, told), "seed {}: {with:?}", tally.seed);
}

/// More packets than may wait: some are refused, and the run goes on. It ends before a packet would
/// enter, in a cycle in which none leaves.
pub fn full_queue(program: &Program, tally: &mut Tally) {
    let plan = crate::slips::met_exactly().0;
    let mut lines = vec![(0, vec![1]); 65_540];
    lines.push((40, vec![0]));
    let options = Options { cycles: Some(2004), recent: Some(16), ..Options::default() };
    compare(program, tally, &plan, &Stream::of(lines), options);
}

/// The list that meets a bound exactly: nothing is spared, whether a cycle's flows are offered one by
/// one or at once.
pub fn met_exactly(program: &Program, tally: &mut Tally) {
    let (plan, worst) = crate::slips::met_exactly();
    let cycles = || (0..).zip(&worst.offers).filter(|(_, flows)| !flows.is_empty());
    let at_once = cycles().map(|(cycle, flows)| (cycle, flows.clone())).collect();
    let one_by_one =
        cycles().flat_map(|(cycle, flows)| flows.iter().map(move |&flow| (cycle, vec![flow])));
    let options = Options { summary: true, ..Options::default() };
    for lines in [one_by_one.collect(), at_once] {
        let stream = Stream::of(lines);
        let table = printed(&plan, &stream.entries, options);
        assert!(table.lines().any(|row| row.split_whitespace().nth(9) == Some("0")), "{table}");
        compare(program, tally, &plan, &stream, options);
    }
}
