//! Faults of the desk in going from offer to offer: where a call of many cycles begins and ends, and what
//! is kept of it.

use super::desk::late_offers;
use super::kinds::*;
use second::book::LAST_CLOCK;
use second::desk::program::{Call, Output};

/// A pause that one call goes through.
const FAR: i64 = 1_000;
const LAST_CYCLE: i64 = LAST_CLOCK - 1;

pub fn faults() -> Vec<Fault> {
    vec![
        by_hand("a cycle too many before a far offer", "columns exit entry wait.", late_far_offers),
        by_hand("exits behind the first call's room lost", "\n right: \"\"", first_room_alone),
        by_hand("--cycles passed over to the next offer", "left: \"\"\n right: \"", |call| {
            with_number(call, "--cycles", |cycles| {
                let offers = cycles_of(call.input).into_iter().map(|cycle| cycle as u64);
                let next = offers.filter(|_| !call.has("--why")).find(|&cycle| cycle >= cycles);
                next.unwrap_or(cycles)
            })
        }),
        by_hand("a wait counted to the call and not to the entry", "columns wait.", |call| {
            of_exits(call.answer(), |line| {
                line[5] = begin(&cycles_of(call.input), line[4]) - line[3];
            })
        }),
        by_hand("the end of the call for that of the run", "everything has left\"", |call| {
            let is_compared = call.has("run.plan") && !call.has("--why");
            of_end(call.answer(), |cycle, how| {
                cycle + i64::from(is_compared && how == "everything has left")
            })
        }),
        by_hand("the last call's deliveries alone", "columns held.", last_call_alone),
        by_hand("the last cycle not run", "ended at cycle 4294967294", |call| {
            of_end(call.answer(), |cycle, _| cycle.min(LAST_CYCLE))
        }),
        output("no refusal at the last clock", "left: (0, \"\")", |output| {
            if output.err.contains("refused 11") {
                (output.err, output.status) = (String::new(), 0);
            }
        }),
    ]
}

/// The cycles of a stream's offers.
fn cycles_of(input: &[u8]) -> Vec<i64> {
    let text = String::from_utf8_lossy(input);
    text.lines().filter_map(|line| line.split_whitespace().next()?.parse().ok()).collect()
}

/// The cycle in which the call begins that has this one: the last offer's.
fn begin(offers: &[i64], cycle: i64) -> i64 {
    offers[..offers.partition_point(|&offer| offer <= cycle)].last().copied().unwrap_or(0)
}

/// Changes the cycle at which a run ended, by how it did.
fn of_end(output: Output, change: impl Fn(i64, &str) -> i64) -> Output {
    of_lines(output, |line| {
        let ended = line.strip_prefix("ended at cycle ").and_then(|end| end.split_once(": "));
        ended.map_or(line.to_string(), |(cycle, how)| {
            format!("ended at cycle {}: {how}", change(value(cycle), how))
        })
    })
}

/// Offers behind a long pause, each a cycle later than its line says.
fn late_far_offers(call: &Call) -> Output {
    let offers = cycles_of(call.input);
    late_offers(call, |cycle| {
        let before = begin(&offers, cycle - 1);
        (before + FAR..LAST_CYCLE).contains(&cycle) && offers.contains(&cycle)
    })
}

/// Of the exits between two offers, those for which the first call has room.
fn first_room_alone(call: &Call) -> Output {
    let (mut output, plan, offers) = (call.answer(), plan_of(call), cycles_of(call.input));
    let room = plan.map_or(usize::MAX, |plan| 15 * plan.routers());
    let (mut start, mut left) = (0, 0);
    let is_kept = |line: &String| {
        exit(line).is_none_or(|numbers| {
            let begun = begin(&offers, numbers[0]);
            left = if begun == start { left + 1 } else { 1 };
            start = begun;
            left <= room
        })
    };
    in_lines(&mut output, |lines| lines.retain(is_kept));
    output
}

/// As many deliveries held as the flow had in the last call, at most L.
fn last_call_alone(call: &Call) -> Output {
    let output = call.answer();
    let exits: Vec<Vec<i64>> =
        String::from_utf8_lossy(&output.out).lines().filter_map(exit).collect();
    let start = exits.last().map_or(0, |last| begin(&cycles_of(call.input), last[0]));
    of_rows(output, |row| {
        let flow = value(&row[0]);
        let last = exits.iter().filter(|exit| exit[1] == flow && exit[0] >= start).count();
        if let (Ok(held), false) = (row[12].parse(), call.has("--summary")) {
            row[12] = last.min(held).to_string();
        }
    })
}
