//! Faults of the desk in what --why counts, when it prints it, and which flows it takes.

use super::kinds::*;
use second::desk::program::{Call, Output};
use second::desk::why::{WORDS, Why, row};

pub fn faults() -> Vec<Fault> {
    let mut faults = vec![
        of_flow("the flows of --why counted from 1", |flow, _| flow.saturating_sub(1)),
        of_flow("flow 0's reasons, whichever flow is asked for", |_, _| 0),
        of_flow("the last flow's reasons, whichever flow is asked for", |_, flows| flows - 1),
        cycles("the reason of the step before", 0, |call, end, cycles| {
            if let Some(before) = clock(end).checked_sub(1) {
                *cycles = until(call, before);
                cycles[0] += 1;
            }
        }),
        cycles("the last entry counted by the empty queue that it leaves", 0, |_, end, cycles| {
            if end.contains("everything has left") && cycles[0] > 0 {
                cycles[0] -= 1;
                cycles[1] += 1;
            }
        }),
        cycles("the first cycle not counted", 0, |call, end, cycles| {
            let first = until(call, clock(end).min(1));
            *cycles = std::array::from_fn(|reason| cycles[reason] - first[reason]);
        }),
        cycles("the last cycle not counted", 1, |call, end, cycles| {
            *cycles = until(call, clock(end).saturating_sub(1));
        }),
        cycles("cycles held in 16 bits", 2, |_, _, cycles| {
            *cycles = cycles.map(|cycles| cycles % 65_536);
        }),
        table("reasons without a cycle left out", "  2       0  no token", |_, _, why| {
            let table = why.table();
            let is_left_out = |line: &str| matches!(row(line.trim_end()), Some((_, 0, _)));
            table.split_inclusive('\n').filter(|line| !is_left_out(line)).collect()
        }),
        table("the words of 3 and 4 exchanged", WORDS[4], |_, _, why| {
            let table = why.table().replace(WORDS[3], "3").replace(WORDS[4], WORDS[3]);
            table.replace("  3\n", &format!("  {}\n", WORDS[4]))
        }),
        table("another flow's number in the heading", "why  cycles  flow 1", |_, _, why| {
            Why { flow: why.flow + 1, ..why }.table()
        }),
        output("the table behind how the run ended", "right: \"ended at cycle", |output| {
            if let Some((front, why, end)) = apart(output) {
                output.out = (front + &end + &why.table()).into_bytes();
            }
        }),
        unasked("the table though it isn't asked for", "right: \"\"", "--why=0"),
        table("no table with --recent", "right: \"ended at cycle", |call, _, why| {
            if call.has("--recent") { String::new() } else { why.table() }
        }),
        by_hand("the last flow for one that isn't in the plan", LAST_FLOW, |call| {
            match flows(call) {
                0 => call.answer(),
                flows => with_number(call, "--why", |flow| flow.min(flows - 1)),
            }
        }),
        number("flow 0 for 256", "the number of --why is 256", "--why", |flow| flow % 256),
        word_as("the number of --why is '+1'", ["+1", "1"]),
        word_as("which is no whole number", ["00", "0O"]),
        second_passed_over("--why", "--why=0"),
        by_hand("an unknown flow told behind the run", "right: []", |call| {
            let output = call.answer();
            match call.words {
                ["run", .., "--why", _] if output.err.contains(" of --why is not in the plan") => {
                    Output { out: call.with_words(&call.words[..3]).out, ..output }
                }
                _ => output,
            }
        }),
        status("left: (1, \"hrt: flow 1 of --why", " of --why is not in the plan", 1),
    ];
    faults.extend((0..36).filter(|at| at / 6 != at % 6).map(|at| moved(at / 6, at % 6)));
    let endings = ["everything has left", "as asked", "at a faulty line", "interrupted"];
    faults.extend(endings.map(without_table));
    faults
}

const LAST_FLOW: &str = "flow 1 of --why is not in the plan; its flows are 0 to 0";

/// What is printed, apart: what is before the table, the table, and how the run ended.
fn apart(output: &Output) -> Option<(String, Why, String)> {
    let text = std::str::from_utf8(&output.out).ok()?;
    let (front, rest) = text.split_at(text.find("\nwhy ")?);
    let (table, end) = rest.split_at(rest.find("ended at cycle ")?);
    let heading = table.lines().nth(1)?;
    let flow = heading.rsplit(' ').next()?.parse().ok()?;
    let cycles: Vec<u64> = table.lines().filter_map(row).map(|(_, cycles, _)| cycles).collect();
    Some((front.to_string(), Why { flow, cycles: cycles.try_into().ok()? }, end.to_string()))
}

/// Changes the table by how the run ended.
fn of_table(output: Output, change: impl FnOnce(&str, Why) -> String) -> Output {
    match apart(&output) {
        Some((front, why, end)) => {
            Output { out: (front + &change(&end, why) + &end).into_bytes(), ..output }
        }
        None => output,
    }
}

/// Another table, by how the run ended.
fn table(
    name: &str,
    told: &str,
    change: impl Fn(&Call, &str, Why) -> String + Send + 'static,
) -> Fault {
    by_hand(name, told, move |call| of_table(call.answer(), |end, why| change(call, end, why)))
}

/// Other cycles, by how the run ended: those of this reason differ first.
fn cycles(name: &str, reason: usize, change: fn(&Call, &str, &mut [u64; 6])) -> Fault {
    table(name, &format!("columns cycles of {reason}."), move |call, end, mut why| {
        change(call, end, &mut why.cycles);
        why.table()
    })
}

/// The cycles of one reason counted as another.
fn moved(from: usize, to: usize) -> Fault {
    let name = format!("'{}' counted as '{}'", WORDS[from], WORDS[to]);
    table(&name, &format!("columns cycles of {}.", from.min(to)), move |_, _, mut why| {
        why.cycles[to] += std::mem::take(&mut why.cycles[from]);
        why.table()
    })
}

/// No table of a run that ends so.
fn without_table(ended: &'static str) -> Fault {
    table(&format!("no table {ended}"), &format!("{ended}\""), move |_, end, why| {
        if end.contains(ended) { String::new() } else { why.table() }
    })
}

/// Another flow's reasons in the table of the one that is asked for, by its number and the flows' count.
fn of_flow(name: &str, other: fn(u64, u64) -> u64) -> Fault {
    by_hand(name, "columns cycles of 1.", move |call| {
        let output = call.answer();
        let Some((_, Why { flow, .. }, _)) = apart(&output) else {
            return output;
        };
        let others = with_number(call, "--why", |flow| other(flow, flows(call)));
        of_table(others, |_, why| Why { flow, ..why }.table())
    })
}

/// How many flows the plan of a call has, if it can be read.
fn flows(call: &Call) -> u64 {
    plan_of(call).map_or(0, |plan| plan.flows.len() as u64)
}

/// The clock at which a run ended.
fn clock(end: &str) -> u64 {
    value(end.split([' ', ':']).nth(3).unwrap()) as u64
}

/// What is counted before this clock.
fn until(call: &Call, clock: u64) -> [u64; 6] {
    let clock = clock.to_string();
    let mut words = call.words.to_vec();
    if let Some(at) = words.iter().position(|word| *word == "--cycles") {
        words.drain(at..at + 2);
    }
    words.extend(["--cycles", &clock]);
    apart(&call.with_words(&words)).map_or([0; 6], |(_, why, _)| why.cycles)
}
