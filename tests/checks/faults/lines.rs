//! Faults of the desk in lines with several flows.

use super::desk::lone_bounds;
use super::kinds::*;
use second::desk::program::{Call, Output};

pub fn faults() -> Vec<Fault> {
    vec![
        flows("a refused line stays partly added", "columns refused left", |cycle, flows| {
            flows.iter().map(|flow| format!("{cycle} {flow}\n")).collect()
        }),
        flows("flows behind the first passed over", "columns offered left", |cycle, flows| {
            format!("{cycle} {}\n", flows[0])
        }),
        flows("a flow that is named twice offered once", "columns offered left", |cycle, flows| {
            let once = flows.chunk_by(u32::eq).map(|same| format!(" {}", same[0]));
            format!("{cycle}{}\n", once.collect::<String>())
        }),
        by_hand("two equal flows with one q", "columns wait-bound spare", same_q),
        // A refused line counted once, and not at all; no flow of the plan behind a full queue.
        lines_as("columns offered refused.", ["0 0 1 2\n", "0 1\n"]),
        lines_as("columns offered refused.", ["0 0 1 2\n", ""]),
        lines_as("columns offered refused", ["0 0 1 4 2\n", "0 0 1 2\n"]),
        // Places told from 0, and that of a refused flow one too low.
        told_as(
            "left: (2, \"offers:4: the line's 2nd flow is 'x'",
            &[["1st", "0th"], ["2nd", "1st"], ["3rd", "2nd"], ["4th", "3rd"]],
        ),
        told_as(
            "left: (2, \"offers:4: flow 2, the line's 1st flow,",
            &[
                ["flow 2, the line's 2nd", "flow 2, the line's 1st"],
                ["(refused 12 1)", "(refused 12 0)"],
            ],
        ),
        by_hand("the packets before a faulty flow added", "columns offered waiting.", partly_added),
        offers_as("the line's 3rd flow is 'x'", [" x 0 # 1", " 0"]),
        file("a too long line cut off", TOO_LONG, "offers", |bytes| {
            let cut = |line: &[u8]| [&line[..line.len().min(65_535)], b"\n"].concat();
            bytes.split(|&byte| byte == b'\n').flat_map(cut).collect()
        }),
    ]
}

const TOO_LONG: &str = "right: (2, \"offers:4: the line is too long";

/// Lines read instead of one, made of its cycle and its flows, if it has nothing else.
fn flows(name: &str, told: &str, change: fn(u32, &[u32]) -> String) -> Fault {
    let read = move |line: &str| {
        let numbers: Result<Vec<u32>, _> = line.split_whitespace().map(str::parse).collect();
        match numbers.as_deref() {
            Ok([cycle, flows @ ..]) if !flows.is_empty() => change(*cycle, flows),
            _ => line.to_string(),
        }
    };
    by_hand(name, told, move |call| with_lines(call, read))
}

/// Where the stream is one line: the bounds of packets with none in front of them.
fn same_q(call: &Call) -> Output {
    let count = |wanted: u8| call.input.iter().filter(|&&byte| byte == wanted).count();
    match call.words {
        ["run", "run.plan", ..] if count(b'\n') == 1 && count(b' ') > 1 => lone_bounds(call),
        _ => call.answer(),
    }
}

/// The table as if flow 0, in front of one that isn't in the plan, had been added.
fn partly_added(call: &Call) -> Output {
    let output = call.answer();
    let is_behind = output.err.contains("refused 12") && !output.err.contains("refused 12 0");
    of_rows(output, |row| {
        if is_behind && row[0] == "0" {
            add(&mut row[1], 1);
            add(&mut row[4], 1);
        }
    })
}
