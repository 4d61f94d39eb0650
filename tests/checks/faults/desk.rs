//! Faults of the desk in what is printed and told, in the words, and in the files that are left.

use super::kinds::*;
use second::desk::expected::EXIT_HEADS;
use second::desk::program::{Call, Output, write};
use second::plan::Plan;
use second::window::{lone_wait, window};
use std::fs;

pub fn faults() -> Vec<Fault> {
    vec![
        exits("wait and flight exchanged", "columns wait flight.", |line| line.swap(5, 7)),
        exits("the flight without its 2", "columns flight.", |line| line[7] -= 2),
        exits("serials from 0", "columns serial.", |line| line[2] -= 1),
        exits("deflections not counted", "columns deflections.", |line| line[6] = 0),
        output("exits of a cycle in another order", "columns flow", exits_exchanged),
        by_hand("offers after the step of their cycle", "columns exit entry wait.", |call| {
            late_offers(call, |_| true)
        }),
        rows("left counted at the entry", "columns left flying.", |row| {
            let flying = std::mem::replace(&mut row[5], "0".into());
            add(&mut row[3], value(&flying));
        }),
        by_hand("the bound with another packet's q", "columns wait-bound spare.", lone_bounds),
        rows("nearest = spare", "columns nearest.", |row| row[9] = row[8].clone()),
        rows("a refused offer counted as accepted", "columns refused.", |row| row[2] = "0".into()),
        output("the table's last flow missing", "ended at cycle", last_row_missing),
        number("a step too many with --cycles", "columns", "--cycles", |cycles| {
            cycles + u64::from(cycles < u32::MAX.into())
        }),
        word_as(EXIT_HEADS, ["--summary", ""]),
        number("the last L - 1 deliveries for the last L", "columns held", "--recent", |last| {
            last - u64::from((2..=16).contains(&last))
        }),
        rows("held = left", "columns held.", |row| row[12] = row[3].clone()),
        rows("longest = flight", "columns longest.", |row| row[13] = row[10].clone()),
        rows("the most deflections not told", "columns most.", |row| {
            if row[14] != "-" {
                row[14] = "0".into();
            }
        }),
        rows("0 where nothing has left", "columns longest most.", |row| {
            row[13..].iter_mut().for_each(|cell| *cell = cell.replace('-', "0"));
        }),
        unasked("recent flights unasked", "flight-bound  held  longest  most", "--recent=4"),
        number("L 17 taken as 16", "the number of --recent is 17", "--recent", |last| last.min(16)),
        second_passed_over("--recent", "--recent=4"),
        status("left: (0, \"offers:4: ", "offers:4: ", 0),
        told_as("left: \"mode.txt:4: ", &[["mode.txt:3: ", "mode.txt:4: "]]),
        output("only the first fault of a text told", "there is no flow", |output| {
            if let Some((first, _)) = output.err.split_once("\nmode.txt:") {
                output.err = format!("{first}\n");
            }
        }),
        by_hand("an escape lost by show", "is no escape", |call| match call.words {
            ["show", ..] => of_lines(call.answer(), |line| line.replace("\\\\", "\\")),
            _ => call.answer(),
        }),
        left_by_plan("a plan written at a fault", "right: [111, 108, 100]", 2, "mode.plan"),
        left_by_plan("a file left at a fault", "left: [\".mode.plan.1\", ", 2, ".mode.plan.1"),
        left_by_plan("a file left behind", "left: [\".mode.plan.1\", ", 0, ".mode.plan.1"),
        by_hand("an old plan that stays", "left: [111, 108, 100]", old_plan_stays),
    ]
}

fn exits_exchanged(output: &mut Output) {
    in_lines(output, |lines| {
        let first = |at: usize| exit(&lines[at]).map(|numbers| numbers[0]);
        let same = |at: &usize| first(*at).is_some() && first(*at) == first(*at - 1);
        if let Some(at) = (1..lines.len()).find(same) {
            lines.swap(at - 1, at);
        }
    });
}

fn last_row_missing(output: &mut Output) {
    in_lines(output, |lines| {
        if lines.last().is_some_and(|line| line.starts_with("ended at")) {
            lines.remove(lines.len() - 2);
        }
    });
}

/// Offers from standard input, those of such cycles a cycle later than their lines say.
pub fn late_offers(call: &Call, is_late: impl Fn(i64) -> bool) -> Output {
    let late = |line: &str| match line.split_once(' ').map(|(cycle, flow)| (cycle.parse(), flow)) {
        Some((Ok(cycle), flow)) if is_late(cycle) => format!("{} {flow}\n", cycle + 1),
        _ => format!("{line}\n"),
    };
    if call.words.first() != Some(&"run") || call.has("--summary") || call.input.is_empty() {
        return call.answer();
    }
    let text = String::from_utf8_lossy(call.input).lines().map(late).collect::<String>();
    of_exits(call.with_input(text.as_bytes()), |line| {
        if is_late(line[3] - 1) {
            line[3] -= 1;
            line[5] += 1;
        }
    })
}

/// Every wait beside the bound of a packet with none in front of it.
pub fn lone_bounds(call: &Call) -> Output {
    with_bounds(call, |plan, flow, t, _| lone_wait(plan, flow, t))
}

/// Every wait beside another bound, made of the plan, the flow, its T and the bound.
pub fn with_bounds(call: &Call, change: fn(&Plan, usize, i64, i64) -> i64) -> Output {
    let output = call.answer();
    let Some(plan) = plan_of(call) else {
        return output;
    };
    of_rows(output, |row| {
        let flow = value(&row[0]) as usize;
        if let ("run", Some(t), true) = (call.words[0], window(&plan, flow), row[6] != "-") {
            let bound = change(&plan, flow, t, value(&row[7]));
            row[7] = bound.to_string();
            row[8] = (bound - value(&row[6])).to_string();
        }
    })
}

/// A file that a call of plan leaves where it ends with this status.
fn left_by_plan(name: &str, told: &str, status: i32, file: &'static str) -> Fault {
    by_hand(name, told, move |call| {
        let output = call.answer();
        if call.words.first() == Some(&"plan") && output.status == status {
            write(&call.desk.file(file), b"new");
        }
        output
    })
}

/// A plan that is told to be written, and isn't, where there is an old one.
fn old_plan_stays(call: &Call) -> Output {
    let path = call.words.get(2).map(|name| call.desk.file(name)).filter(|path| path.is_file());
    let old = path.as_ref().and_then(|path| fs::read(path).ok());
    let output = call.answer();
    if let (Some("plan"), Some(path), Some(old)) = (call.words.first().copied(), path, old) {
        write(&path, &old);
    }
    output
}
