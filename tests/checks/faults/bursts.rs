//! Faults of the desk in the windows of bursts: which are asked for, which lines are printed and how, and
//! what is told.

use super::kinds::*;
use second::desk::bursts::HEADS;
use second::desk::program::{Call, Output};
use second::plan::Plan;
use second::window::burst;

pub fn faults() -> Vec<Fault> {
    vec![
        windows("T for every burst", |plan, flow, _| burst(plan, flow, 1)),
        windows("T and a cycle for each packet more", |plan, flow, packets| {
            Some(burst(plan, flow, 1)? + packets - 1)
        }),
        windows("T for each packet", |plan, flow, packets| Some(packets * burst(plan, flow, 1)?)),
        windows("the window of a packet more", |plan, flow, packets| {
            burst(plan, flow, packets + 1)
        }),
        windows("the window of a packet less", |plan, flow, packets| {
            burst(plan, flow, 1.max(packets - 1))
        }),
        windows("the largest burst's window for each", |plan, flow, _| {
            burst(plan, flow, plan.flows[flow].burst)
        }),
        windows("flow 0's windows for each flow", |plan, _, packets| burst(plan, 0, packets)),
        windows("the windows of the flow before", |plan, flow, packets| {
            burst(plan, flow.saturating_sub(1), packets)
        }),
        cells("the window for the wait", "columns wait.", |_, cells| cells[3] = cells[2].clone()),
        cells("the lone wait of the window", "columns wait.", |plan, cells| {
            let period = plan.flows[value(&cells[0]) as usize].period;
            if cells[3] != "-" {
                add(&mut cells[3], period - 1);
            }
        }),
        cells("window and wait exchanged", "columns window wait.", |_, cells| cells.swap(2, 3)),
        cells("flow and packets exchanged", "columns flow packets.", |_, cells| cells.swap(0, 1)),
        cells("flows from 1", "columns flow.", |_, cells| add(&mut cells[0], 1)),
        cells("packets from 0", "columns packets.", |_, cells| add(&mut cells[1], -1)),
        cells("0 where there is no window", "columns window wait.", |_, cells| {
            cells[2..].iter_mut().for_each(|cell| *cell = cell.replace('-', "0"));
        }),
        cells("65,536 where there is no window", "columns window wait.", |_, cells| {
            cells[2] = cells[2].replace('-', "65536");
            cells[3] = cells[3].replace('-', "65535");
        }),
        lines("columns to the right", "columns .", |_, lines| {
            lines.iter_mut().for_each(|line| *line = line.replace(' ', "  "));
        }),
        lines("no heading", "columns flow packets window wait.", |_, lines| drop(lines.remove(0))),
        only("one packet alone left out", "the length", |_, [_, packets]| packets > 1),
        only("the largest burst left out", "the length", |plan, [flow, packets]| {
            packets < plan.flows[flow].burst as usize
        }),
        only("no burst over flow 0's", "columns flow packets.", |plan, [_, packets]| {
            packets <= plan.flows[0].burst as usize
        }),
        only("no burst over 254", "the length", |_, [_, packets]| packets < 255),
        only("the 256th flow left out", "the length", |_, [flow, _]| flow < 255),
        only("a flow alone left out", "the length", |plan, _| plan.flows.len() > 1),
        only("no line without a window", "columns flow window wait.", |plan, [flow, packets]| {
            burst(plan, flow, packets as i64).is_some()
        }),
        only("no second line without a window", "columns flow packets.", has_smaller),
        only("no flow behind one without a window", "the length", |plan, [flow, _]| {
            (0..flow).all(|before| burst(plan, before, 1).is_some())
        }),
        lines("a burst more than the tokens", "columns flow packets", |plan, lines| {
            let flows = plan.flows.iter().zip(0..);
            lines.extend(flows.map(|(flow, at)| format!("{at} {} - -\n", flow.burst + 1)));
            lines[1..].sort_by_key(|line| numbers(line));
        }),
        of_bursts("no window told as a refusal", "run.plan: refused 14", |call, output| {
            if call.has("run.plan") && output.out.windows(2).any(|bytes| bytes == b" -") {
                output.err = "run.plan: refused 14 1; ./hrt explain 14 says why\n".to_string();
                output.status = 1;
            }
        }),
        of_bursts("the heading above a refused plan", "right: []", |_, output| {
            if output.err.contains(": refused ") {
                output.out = format!("{HEADS}\n").into_bytes();
            }
        }),
        of_bursts(
            "a refused plan with status 0",
            "left: (0, \"no.plan: refused 2 0",
            |_, output| {
                if output.err.contains(": refused ") {
                    output.status = 0;
                }
            },
        ),
        passed_over("a second file passed over", "bursts takes one plan file", "b"),
        passed_over("an option passed over", "bursts has no option '--recent'", "--recent"),
    ]
}

/// Another output of a call of bursts.
fn of_bursts(name: &str, told: &str, change: fn(&Call, &mut Output)) -> Fault {
    by_hand(name, told, move |call| {
        let mut output = call.answer();
        if call.words.first() == Some(&"bursts") {
            change(call, &mut output);
        }
        output
    })
}

/// Other lines where a plan's bursts are printed.
fn lines(
    name: &str,
    told: &str,
    change: impl Fn(&Plan, &mut Vec<String>) + Send + 'static,
) -> Fault {
    by_hand(name, told, move |call| {
        let mut output = call.answer();
        if let (["bursts", "run.plan"], Some(plan)) = (call.words, plan_of(call)) {
            in_lines(&mut output, |lines| change(&plan, lines));
        }
        output
    })
}

/// The flow and the packets of a line.
fn numbers(line: &str) -> [usize; 2] {
    let mut cells = line.split(' ').map(|cell| cell.parse().unwrap());
    [cells.next().unwrap(), cells.next().unwrap()]
}

/// The lines of these flows and packets alone.
fn only(name: &str, told: &str, is_kept: fn(&Plan, [usize; 2]) -> bool) -> Fault {
    lines(name, told, move |plan, lines| {
        let heading = lines.remove(0);
        lines.retain(|line| is_kept(plan, numbers(line)));
        lines.insert(0, heading);
    })
}

/// Has the burst of a packet less a window, if there is one?
fn has_smaller(plan: &Plan, [flow, packets]: [usize; 2]) -> bool {
    packets == 1 || burst(plan, flow, packets as i64 - 1).is_some()
}

/// The cells of each burst's line changed.
fn cells(name: &str, told: &str, change: impl Fn(&Plan, &mut [String]) + Send + 'static) -> Fault {
    lines(name, told, move |plan, lines| {
        for line in &mut lines[1..] {
            let mut cells: Vec<_> = line.trim_end().split(' ').map(String::from).collect();
            change(plan, &mut cells);
            *line = cells.join(" ") + "\n";
        }
    })
}

/// Another window for each burst, by the plan, the flow and the packets.
fn windows(name: &str, window: fn(&Plan, usize, i64) -> Option<i64>) -> Fault {
    cells(name, "columns window wait.", move |plan, cells| {
        let window = window(plan, value(&cells[0]) as usize, value(&cells[1]));
        let shown =
            |number: Option<i64>| number.map_or("-".to_string(), |number| number.to_string());
        (cells[2], cells[3]) = (shown(window), shown(window.map(|window| window - 1)));
    })
}

/// The words from this one on passed over.
fn passed_over(name: &str, told: &str, from: &'static str) -> Fault {
    by_hand(name, told, move |call| match call.words.iter().position(|word| *word == from) {
        Some(at) if call.words[0] == "bursts" => call.with_words(&call.words[..at]),
        _ => call.answer(),
    })
}
