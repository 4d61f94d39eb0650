//! The bounds part: window, burst, flight bound and notes.

use super::{Memory, Run, bursts, periods, plans, turning};
use crate::lent::Call;
use crate::plan::{Flow, Plan};
use crate::random;
use crate::slips::refuted;

fn all_three(run: &mut Run, memory: &mut Memory, flow: u32) {
    notes_and_flight(run, memory, flow);
    run.accepts(Call::Window(flow), memory);
}

fn notes_and_flight(run: &mut Run, memory: &mut Memory, flow: u32) {
    run.accepts(Call::Notes, memory);
    run.accepts(Call::Flight(flow), memory);
}

/// Every ΔX and ΔY of every size: flows between all pairs of columns, then between all pairs of
/// rows, on tori that are no squares.
fn offsets(run: &mut Run) {
    for size in 1..=16 {
        let other = 17 - size;
        let pairs = || (0..size * size).map(|pair| (pair / size, pair % size));
        let flow = |xs, ys, xd, yd| Flow { xs, ys, xd, yd, period: 9, burst: 1 };
        let across = pairs().map(|(from, to)| flow(from, 0, to, 0)).collect();
        let down = pairs().map(|(from, to)| flow(0, from, 0, to)).collect();
        for plan in
            [Plan { sx: size, sy: other, flows: across }, Plan { sx: other, sy: size, flows: down }]
        {
            let memory = &mut Memory::of_file(&plan.file(&[]));
            (0..plan.flows.len() as u32).for_each(|f| notes_and_flight(run, memory, f));
        }
    }
}

/// Every boundary, the plans that refute a slipped window, slow rivals, every offset, rows that turn, bursts, and filled
/// links, once. The windows of the files at a boundary, which take longest to find, come late.
pub fn boundaries(run: &mut Run) {
    let mut files: Vec<_> =
        plans::at_boundaries().iter().map(|file| Memory::of_file(file)).collect();
    for memory in &mut files {
        all_three(run, memory, u32::MAX);
        for flow in [0, 1, 2, 3, 255, 256, 257, 65_536] {
            notes_and_flight(run, memory, flow);
        }
    }
    for plan in refuted().into_iter().map(|row| row.plan).chain(periods::slow_rivals()) {
        let memory = &mut Memory::of_file(&plan.file(&[]));
        for flow in 0..=plan.flows.len() as u32 {
            all_three(run, memory, flow);
        }
    }
    offsets(run);
    turning::boundaries(run);
    bursts::boundaries(run, &mut files);
    for memory in &mut files {
        run.accepts(Call::Window(0), memory);
        run.accepts(Call::Burst(0, 2), memory);
    }
    for plan in periods::filled_links() {
        all_three(run, &mut Memory::of_file(&plan.file(&[])), 0);
    }
}

/// A random plan on this torus, and damaged copies of its file.
pub fn round(run: &mut Run, sx: i64, sy: i64) {
    let flows = random::flow_count(run.random);
    let plan = random::plan(run.random, sx, sy, flows);
    let file = plan.file(&random::notes(run.random, &plan));
    let memory = &mut Memory::of_file(&file);
    for flow in (0..flows as u32).chain([flows as u32, flows as u32 + 1, u32::MAX]) {
        notes_and_flight(run, memory, flow);
    }
    (0..flows).for_each(|flow| run.tally.turning.count_bound(&plan, flow));
    bursts::of_any(run, &plan);
    for _ in 0..4 {
        let flow = run.random.index(flows + 1);
        all_three(run, memory, flow as u32);
        if flow < flows {
            run.tally.turning.count_conflicts(&plan, flow);
        }
    }
    for _ in 0..20 {
        let mut damaged = file.clone();
        plans::damage(run.random, &mut damaged);
        let flow = run.random.index(flows + 1) as u32;
        let memory = &mut Memory::of_file(&damaged);
        notes_and_flight(run, memory, flow);
        let packets = run.random.pick(&[0, 1, 256]);
        if run.random.percent(10) {
            all_three(run, memory, flow);
            run.accepts(Call::Burst(flow, packets), memory);
        }
    }
}
