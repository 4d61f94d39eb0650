//! What 01 promises of the book after every list, U4 of a set, U6 of the trial generator's offer, U7 of a step with
//! reasons and U8 of every D, asserted on its own lines. U9's promise of a burst is in `bursts`.

use crate::book::{Book, Delivery, Line};
use crate::calls::Answer;
use crate::offers::MOST_TRIAL;
use crate::plan::{Plan, Port, Refusal, refuse};
use crate::turning::most_deflections;
use crate::window::bursts;

/// What is promised of each flow's packets in a run from reset.
pub struct Limits {
    /// B of 1, which is T, to σ packets of the flows whose entries are watched, as far as they have one.
    windows: Vec<Vec<i64>>,
    /// The most deflections, by U8.
    deflections: Vec<i64>,
}

impl Limits {
    /// With the windows of the flows that `watch` names.
    pub fn of(plan: &Plan, watch: impl Fn(usize) -> bool) -> Limits {
        let watched = |f| {
            if watch(f) { bursts(plan, f) } else { Vec::new() }
        };
        let flows = 0..plan.flows.len();
        let deflections = flows.clone().map(|f| most_deflections(plan, f)).collect();
        Limits { windows: flows.map(watched).collect(), deflections }
    }

    /// With the windows of every flow.
    pub fn of_all(plan: &Plan) -> Limits {
        Limits::of(plan, |_| true)
    }

    /// B of 1, 2 and so on packets of a flow.
    pub fn windows(&self, f: usize) -> &[i64] {
        &self.windows[f]
    }
}

/// The promises on all lines, that the list delivered exactly the lines with an exit, and what
/// buckets have from reset.
pub fn check(book: &Book, limits: &Limits, delivered: &[Delivery]) {
    for line in &book.lines {
        check_line(book, limits, line);
    }
    check_indexes(book);
    check_delivered(book, delivered);
    check_buckets(book);
}

/// The promises on the lines that can still change: enough after a single call.
pub fn check_live(book: &Book, limits: &Limits) {
    let waiting = book.waiting.iter().filter_map(|lines| lines.front());
    for &line in book.placed.iter().chain(waiting) {
        check_line(book, limits, &book.lines[line]);
    }
}

/// U4 on a set that was answered so: accepted, it leaves what its single offers leave, one after the
/// other; refused, it leaves the book as it was, and its number is that of the first of these that is
/// refused, whose position is the place.
pub fn check_set(before: &Book, flows: &[u32], answer: Answer, after: &Book) {
    let mut single = before.clone();
    let refused = flows.iter().enumerate().find_map(|(position, &flow)| {
        let number = single.offer(flow).err()?.number;
        Some(Refusal { number, place: position as u64 })
    });
    assert_eq!(answer, refused.map_or(Ok(0), Err), "the first entry that is refused");
    let left = if refused.is_some() { before } else { &single };
    assert!(after == left, "all at once, one by one: {flows:?}");
}

/// U6 on an offer of the generator that was answered so: where 255 packets or more of the flow
/// wait, 18 and the book as it was; else what the sonar's offer answers and leaves.
pub fn check_trial(before: &Book, flow: u32, answer: Answer, after: &Book) {
    let mut of_sonar = before.clone();
    let waiting = before.waiting.get(flow as usize).map_or(0, |lines| lines.len());
    let expected = if waiting >= MOST_TRIAL { refuse(18, 0) } else { of_sonar.offer(flow) };
    assert_eq!(answer, expected, "{waiting} wait in flow {flow}");
    assert!(after == &of_sonar, "the generator's packet of flow {flow}, and the sonar's");
}

/// U7 on an accepted step that told these reasons: 0 just where a flow's entered count rose; else 1 or 2
/// where the flow had no packet or no token, 3 or 4 where by 01's rule 3 its port wasn't open, and 5 in
/// what is left, where a lower-numbered flow of its client has entered.
pub fn check_reasons(before: &Book, reasons: &[u32], after: &Book) {
    let entered = |flow: usize| after.entered[flow] > before.entered[flow];
    let expected = before.open_ports().into_iter().enumerate().map(|(flow, is_open)| {
        let client = before.client(flow);
        match before.plan.port(flow) {
            _ if entered(flow) => 0,
            _ if before.waiting[flow].is_empty() => 1,
            _ if before.buckets[flow].tokens == 0 => 2,
            Port::East if !is_open => 3,
            Port::South if !is_open => 4,
            _ => {
                let mut lower = (0..flow).filter(|&lower| before.client(lower) == client);
                assert!(lower.any(entered), "nothing bars flow {flow}: {reasons:?}");
                5
            }
        }
    });
    assert_eq!(expected.collect::<Vec<_>>(), reasons, "clock {}", before.clock);
}

fn check_line(book: &Book, limits: &Limits, line: &Line) {
    let plan = &book.plan;
    let f = line.flow;
    if let Some(t) = limits.windows[f].first() {
        let latest = line.offer + (line.q + 1) * (plan.flows[f].period + t - 1) - 1;
        let by = line.entry.unwrap_or(book.clock);
        assert!(by <= latest, "{line:?} enters after {latest}, clock {}", book.clock);
    }
    assert!(line.d <= plan.dy(f), "more deflections than ΔY: {line:?}");
    let turning = limits.deflections[f];
    assert!(line.d <= turning, "more deflections than the {turning} turning rows: {line:?}");
    let due = |entry: i64| entry + plan.dx(f) + plan.dy(f) + line.d * plan.sx;
    match (line.entry, line.exit) {
        (Some(entry), Some((exit, router))) => {
            let destination = (plan.flows[f].xd, plan.flows[f].yd);
            assert_eq!((router.column, router.row), destination, "left elsewhere: {line:?}");
            assert_eq!(exit, due(entry), "left at another time: {line:?}");
            assert_eq!(line.place, None, "left and still there: {line:?}");
        }
        (Some(entry), None) => {
            assert!(line.place.is_some(), "entered and nowhere: {line:?}");
            assert!(book.clock <= due(entry), "still there at {}: {line:?}", book.clock);
        }
        (None, exit) => assert_eq!((line.place, exit), (None, None), "not entered: {line:?}"),
    }
}

/// From reset the counter never rests, so its count is the clock's remainder; and an empty bucket
/// is never a whole period from its next token.
fn check_buckets(book: &Book) {
    for (bucket, flow) in book.buckets.iter().zip(&book.plan.flows) {
        assert_eq!(bucket.count, book.clock % flow.period, "{bucket:?} at {}", book.clock);
        assert!(bucket.tokens > 0 || bucket.count > 0, "{bucket:?} at {}", book.clock);
    }
}

/// The book's indexes and serials say what the lines say.
fn check_indexes(book: &Book) {
    let flows = book.plan.flows.len();
    let (mut lines, mut entered, mut waiting) = (vec![0; flows], vec![0; flows], vec![0; flows]);
    let mut placed = 0;
    for line in &book.lines {
        lines[line.flow] += 1;
        assert_eq!(line.serial, lines[line.flow], "serials count a flow's lines");
        entered[line.flow] += line.entry.is_some() as i64;
        waiting[line.flow] += line.entry.is_none() as usize;
        placed += line.place.is_some() as usize;
    }
    assert_eq!(entered, book.entered);
    assert_eq!(waiting, book.waiting.iter().map(|lines| lines.len()).collect::<Vec<_>>());
    assert_eq!(placed, book.placed.len());
}

fn check_delivered(book: &Book, delivered: &[Delivery]) {
    let left = book.lines.iter().filter_map(|line| {
        let numbers = [line.flow as i64, line.serial, line.entry?, line.exit?.0, line.d];
        Some(numbers.map(|number| number as u32))
    });
    let (mut left, mut delivered) = (left.collect::<Vec<_>>(), delivered.to_vec());
    left.sort();
    delivered.sort();
    assert_eq!(left, delivered, "each line with an exit is delivered once, and nothing else");
}
