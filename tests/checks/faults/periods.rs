//! Faults of the desk in periods.

use super::desk::with_bounds;
use super::kinds::*;
use second::desk::program::{Output, write};
use second::plan::{MOST_PERIOD, RECORD, TRAILER, change_records};
use std::fs;

type Record = [u8; RECORD];

pub fn faults() -> Vec<Fault> {
    vec![
        // Modulo 16,777,216.
        text_as("the period P is 20000000", "mode.txt", ["20000000", "3222784"]),
        most("the period P is 65536; it must be 1 to 65535", 65_535),
        most("the period P is 16777215; it must be 1 to 16777214", 16_777_214),
        told_as("it must be 1 to 65535", &[["16777215", "65535"]]),
        written("the top byte of P not written", "0, 0, 1, 1, 0, 0, 7, 0, ", |r| r[7] = 0),
        written("P written from the top", "left: [0, 0, 1, 1, 0, 0, 7, 1, ", |r| r.swap(4, 7)),
        written("the burst behind P", "left: [0, 0, 1, 1, 1, 0, 0, 7, ", |r| r.swap(6, 7)),
        shown("the top byte of P not shown", "flow 0 0 1 1 0 7", |period, _| period % 65_536),
        shown("the burst as P's top byte", "flow 0 0 1 1 458753 7", |period, burst| {
            period % 65_536 + 65_536 * burst
        }),
        refused("a last byte that isn't 0 refused", |record| record[7] != 0),
        refused("65,536 refused as no period", |record| record[4..6] == [0, 0]),
        records("no period taken for 65,536", NO_PERIOD, "mode.plan", |record| {
            if record[4..6] == [0, 0] {
                record[7] = record[7].max(1);
            }
        }),
        records(
            "a token every P modulo 65,536",
            "columns exit entry wait.",
            "run.plan",
            |record| {
                record[7] = 0;
            },
        ),
        by_hand("bounds by P modulo 65,536", "columns wait-bound spare.", |call| {
            with_bounds(call, |plan, flow, t, bound| {
                let turn = |period| period + t - 1;
                let period = plan.flows[flow].period;
                (bound + 1) / turn(period) * turn(period % 65_536) - 1
            })
        }),
    ]
}

const NO_PERIOD: &str = "right: (1, \"mode.plan: refused 7 1";

/// A text with a longer period than this told as faulty.
fn most(told: &'static str, most: i64) -> Fault {
    let period = |line: &str| line.strip_prefix("flow ")?.split(' ').nth(4)?.parse::<i64>().ok();
    by_hand(&format!("a period over {most} refused"), told, move |call| {
        let name = call.words.get(1).filter(|_| call.words[0] == "plan");
        let text = name.and_then(|name| fs::read_to_string(call.desk.file(name)).ok());
        let is_long = |line| (most + 1..=MOST_PERIOD).contains(&period(line).unwrap_or(0));
        match text.unwrap_or_default().lines().position(is_long) {
            Some(at) => {
                let err = format!("{}:{}: {told}\n", call.words[1], at + 1);
                Output { out: Vec::new(), err, status: 2 }
            }
            None => call.answer(),
        }
    })
}

/// The records of a plan read as others than they are.
fn records(name: &str, told: &str, plan: &'static str, change: fn(&mut Record)) -> Fault {
    file(name, told, plan, move |file| change_records(file, change))
}

/// mode.plan left with other records than it should.
fn written(name: &str, told: &str, change: fn(&mut Record)) -> Fault {
    by_hand(name, told, move |call| {
        let output = call.answer();
        if call.words == ["plan", "mode.txt", "mode.plan"] {
            let path = call.desk.file("mode.plan");
            write(&path, &change_records(&fs::read(&path).unwrap(), change));
        }
        output
    })
}

/// mode.plan shown with other periods: they are made of the period and the burst.
fn shown(name: &str, told: &str, change: fn(i64, i64) -> i64) -> Fault {
    by_hand(name, told, move |call| {
        of_lines(call.answer(), |line| match line.split(' ').collect::<Vec<_>>()[..] {
            ["flow", xs, ys, xd, yd, period, burst] if call.words == ["show", "mode.plan"] => {
                let period = change(value(period), value(burst));
                format!("flow {xs} {ys} {xd} {yd} {period} {burst}")
            }
            _ => line.to_string(),
        })
    })
}

/// mode.plan refused by show with 7 for such a record.
fn refused(name: &str, is_refused: fn(&[u8]) -> bool) -> Fault {
    by_hand(name, "refused 7 4", move |call| {
        let file = fs::read(call.desk.file("mode.plan")).unwrap_or_default();
        let records = &file[..file.len().saturating_sub(TRAILER)];
        match (call.words, records.chunks(RECORD).position(is_refused)) {
            (["show", "mode.plan"], Some(flow)) => {
                let err = format!("mode.plan: refused 7 {flow}; ./hrt explain 7 says why\n");
                Output { out: Vec::new(), err, status: 1 }
            }
            _ => call.answer(),
        }
    })
}
