//! Bursts, by U9: flows and packets about their limits, every burst of small plans, and windows about the last.

use super::plans::{LAST_WINDOW, PAST_THE_LAST, late_burst};
use super::{Memory, Run, Twin, no_flows, periods};
use crate::lent::Call;
use crate::plan::{MOST_PERIOD, Plan};
use crate::random;
use crate::slips::{met_bursts, refuted};

/// Files on both sides of the plan's refusals, with each of the burst's own due or not; then bursts that are searched.
pub fn boundaries(run: &mut Run, files: &mut [Memory]) {
    for memory in files {
        for (flow, packets) in [(0, 0), (3, 1), (256, 0), (u32::MAX, u32::MAX), (0, 256)] {
            run.accepts(Call::Burst(flow, packets), memory);
        }
    }
    let small = refuted().into_iter().map(|row| row.plan);
    let small = small.chain(met_bursts().into_iter().map(|row| row.plan));
    for plan in small.chain([many_sizes(), filled_link()]) {
        for flow in 0..plan.flows.len() {
            let memory = &mut in_noise(run, &plan);
            refusals(run, memory, &plan, flow);
            searches(run, memory, flow, 1..=plan.flows[flow].burst);
        }
    }
    for plan in periods::slow_rivals() {
        few(run, &plan, 1);
    }
    late(run);
}

/// Flows of one client with bursts about their ends, so slow that each burst has a window.
fn many_sizes() -> Plan {
    Plan::of(2, 1, &[3, 1, 255, 2, 254, 4].map(|burst| [0, 0, 1, 0, MOST_PERIOD, burst]))
}

/// Flow 1 fills the link alone, so that flow 0 has no window; flow 1 has one.
fn filled_link() -> Plan {
    Plan::of(2, 1, &[[0, 0, 1, 0, 9, 3], [0, 0, 1, 0, 1, 2]])
}

/// Bursts of flow 0 whose windows are the last, and that would have the next: with a packet less they have one.
fn late(run: &mut Run) {
    for packets in [2, 3, 200] {
        for slow in [&[][..], &[65_536]] {
            for numbers in [LAST_WINDOW, PAST_THE_LAST] {
                let memory = &mut in_noise(run, &late_burst(numbers, slow, packets.into()));
                let last = run.call(Call::Burst(0, packets), memory);
                assert_eq!(last.ok(), (numbers == LAST_WINDOW).then_some(65_535));
                assert!(run.accepts(Call::Burst(0, packets - 1), memory));
            }
        }
    }
}

/// The plan's file, with any notes, and noise around it.
fn in_noise(run: &mut Run, plan: &Plan) -> Memory {
    let file = plan.file(&random::notes(run.random, plan));
    Memory { file: Twin::bytes(run.random, &file), ..Memory::default() }
}

/// Bursts of a flow of a random plan.
pub fn of_any(run: &mut Run, plan: &Plan) {
    let flow = run.random.index(plan.flows.len());
    few(run, plan, flow);
}

/// Bursts of one packet, of σ and of some between; one alone of a flow without T, since its search takes longest.
fn few(run: &mut Run, plan: &Plan, flow: usize) {
    let memory = &mut in_noise(run, plan);
    refusals(run, memory, plan, flow);
    let burst = plan.flows[flow].burst;
    let between = run.random.from(1, burst);
    if run.accepts(Call::Window(flow as u32), memory) {
        searches(run, memory, flow, [1, between, burst]);
    } else {
        run.accepts(Call::Burst(flow as u32, between as u32), memory);
    }
}

/// Packets that are none, more than σ, or have the low bits of some that aren't; and numbers that aren't those of a flow.
fn refusals(run: &mut Run, memory: &mut Memory, plan: &Plan, flow: usize) {
    let burst = plan.flows[flow].burst as u32;
    for packets in [0, burst + 1, 256, burst + 256, burst + (1 << 16), 1 << 31 | burst, u32::MAX] {
        run.accepts(Call::Burst(flow as u32, packets), memory);
    }
    for unknown in no_flows(flow, plan.flows.len()) {
        let packets = run.random.from(0, burst.into()) as u32;
        run.accepts(Call::Burst(unknown, packets), memory);
    }
}

/// Bursts of more and more packets: B of 1 is T, and each packet more takes a cycle or more.
fn searches(
    run: &mut Run,
    memory: &mut Memory,
    flow: usize,
    packets: impl IntoIterator<Item = i64>,
) {
    let window = run.call(Call::Window(flow as u32), memory);
    let mut last = (1, window.unwrap_or(u64::MAX));
    for packets in packets {
        let found = run.call(Call::Burst(flow as u32, packets as u32), memory);
        assert!(packets > 1 || found == window, "B of 1 is T: {memory:?}");
        let (least, found) =
            (last.1.saturating_add((packets - last.0) as u64), found.unwrap_or(u64::MAX));
        assert!(least <= found, "B grows with the packets: {memory:?}");
        last = (packets, found);
    }
}
