//! Faults of the desk in lines of the trial generator.

use super::desk::lone_bounds;
use super::kinds::*;
use second::desk::program::{Call, Output};

pub fn faults() -> Vec<Fault> {
    vec![
        // The generator's line offered by the sonar's call.
        lines_as("columns refused waiting.", ["trial ", ""]),
        where_trial("the generator's own packets alone count", "columns refused left", |call| {
            with_lines(call, |line| match is_trial_alone(call) {
                true => line.to_string(),
                false => line.replace("trial ", ""),
            })
        }),
        where_trial("the sonar's line as the generator's", "columns refused left", |call| {
            with_lines(call, |line| match line.trim_end().split(' ').collect::<Vec<_>>()[..] {
                [cycle, flow] if flow.parse::<u32>().is_ok() => format!("{cycle} trial {flow}\n"),
                _ => line.to_string(),
            })
        }),
        room("the generator's offers stop at 254", -1),
        room("the generator's offers stop at 256", 1),
        where_trial("a trial line passed over", "columns offered refused", |call| {
            with_lines(call, |line| if line.contains("trial ") { "\n" } else { line }.to_string())
        }),
        where_trial("a refused trial line not counted", "columns offered refused.", |call| {
            of_rows(call.answer(), |row| {
                let refused = std::mem::replace(&mut row[2], "0".into());
                add(&mut row[1], -value(&refused));
            })
        }),
        where_trial("a refused trial line as accepted", "columns refused.", |call| {
            of_rows(call.answer(), |row| row[2] = "0".into())
        }),
        where_trial("q without the generator's packets", "columns wait-bound spare.", lone_bounds),
        offers_as("trial has 2 flows behind it", ["trial 0 0\n", "0 0\n"]),
        offers_as("trial has 2 flows behind it", ["trial 0 x\n", "trial 0\n"]),
        offers_as("trial has no flow behind it", ["6 trial\n", "\n"]),
        offers_as("the line's 1st flow is 'Trial'", ["Trial", "trial"]),
        offers_as("the line's 2nd flow is 'trial'", [" 0 trial\n", " trial 0\n"]),
        told_as(
            "left: (2, \"offers:3: trial has no flow behind it",
            &[["offers:4: trial has", "offers:3: trial has"]],
        ),
    ]
}

/// A fault where the generator offers something.
fn where_trial(name: &str, told: &str, caller: fn(&Call) -> Output) -> Fault {
    by_hand(name, told, move |call| match has_trial(call.input) {
        true => caller(call),
        false => call.answer(),
    })
}

fn has_trial(input: &[u8]) -> bool {
    input.windows(5).any(|word| word == b"trial")
}

/// Is every line the generator's?
fn is_trial_alone(call: &Call) -> bool {
    call.input.split_inclusive(|&byte| byte == b'\n').all(has_trial)
}

/// Where the generator alone offers: a flow that has refused packets with so many more accepted.
fn room(name: &str, more: i64) -> Fault {
    by_hand(name, "columns refused waiting.", move |call| {
        of_rows(call.answer(), |row| {
            if has_trial(call.input) && is_trial_alone(call) && row[2] != "0" {
                add(&mut row[2], -more);
                add(&mut row[4], more);
            }
        })
    })
}
