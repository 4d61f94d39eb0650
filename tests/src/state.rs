//! The state's words, by 01's "State memory" with U5's periods: written from a book's lines, and
//! judged.

use crate::book::{Book, Bucket, Line, Place, Router, Side};
use crate::offers::MOST_WAITING;
use crate::plan::{Flow, MOST_PERIOD, Plan, Refusal, refuse};

pub const HEADER: usize = 8;
pub const PER_FLOW: usize = 10;
pub const PER_REGISTER: usize = 4;

/// How many words the state of so many flows and routers has: a router has two registers.
pub fn size(flows: usize, routers: usize) -> usize {
    HEADER + PER_FLOW * flows + 2 * PER_REGISTER * routers
}

/// The words of the state that the book stands for.
pub fn words(book: &Book) -> Vec<u32> {
    let plan = &book.plan;
    let flows = plan.flows.len();
    let mut words = vec![plan.sx, plan.sy, flows as i64, book.clock, 0, 0, 0, 0];
    for f in 0..flows {
        words.extend(plan.flows[f].numbers());
        words.extend([book.buckets[f].tokens, book.buckets[f].count]);
        words.extend([book.entered[f], book.waiting[f].len() as i64]);
    }
    words.resize(plan.state_words(), 0);
    for &line in &book.placed {
        let line = &book.lines[line];
        let at = register_at(plan, line.place.unwrap());
        let packet = [line.flow as i64 + 1, line.serial, line.entry.unwrap(), line.d];
        words[at..at + PER_REGISTER].copy_from_slice(&packet);
    }
    words.into_iter().map(|word| word.try_into().unwrap()).collect()
}

/// Where a flow's waiting packets are counted.
pub fn waiting_at(flow: usize) -> usize {
    HEADER + PER_FLOW * flow + 9
}

/// Where the words of a register start: by row, then column, W before N.
pub fn register_at(plan: &Plan, place: Place) -> usize {
    let router = (place.router.row * plan.sx + place.router.column) as usize;
    let register = 2 * router + (place.side == Side::N) as usize;
    HEADER + PER_FLOW * plan.flows.len() + PER_REGISTER * register
}

/// All registers' places, in the order of their words.
pub fn places(plan: &Plan) -> Vec<Place> {
    let mut places = Vec::new();
    for row in 0..plan.sy {
        for column in 0..plan.sx {
            for side in [Side::W, Side::N] {
                places.push(Place { router: Router { row, column }, side });
            }
        }
    }
    places
}

/// How many cycles ago a flow's packet with so many deflections entered that is in this place.
pub fn age(plan: &Plan, f: usize, place: Place, d: i64) -> i64 {
    let (flow, dx, Router { row, column }) = (plan.flows[f], plan.dx(f), place.router);
    let r = (row - flow.ys).rem_euclid(plan.sy);
    match place.side {
        Side::N => dx + r + d * plan.sx,
        Side::W if r == 0 => (column - flow.xs).rem_euclid(plan.sx),
        Side::W => dx + r + (d - 1) * plan.sx + (column - flow.xd - 1).rem_euclid(plan.sx) + 1,
    }
}

/// Do the words form a state? 8 under eight words; 9 for the first eight words; 8 for the whole
/// size; 9 for the rest. If they do: a book with a line for each packet that they hold.
/// Words past the size don't matter. Offer and q of an entered line aren't in the words.
pub fn judge(memory: &[u32]) -> Result<Book, Refusal> {
    if memory.len() < HEADER {
        return refuse(8, 0);
    }
    let word = |at: usize| memory[at] as i64;
    let (sx, sy, count, clock) = (word(0), word(1), word(2), word(3));
    let in_range = (1..=16).contains(&sx) && (1..=16).contains(&sy) && (1..=256).contains(&count);
    if !in_range || (4..8).any(|at| word(at) != 0) {
        return refuse(9, 0);
    }
    let flow_at = |f: usize| HEADER + PER_FLOW * f;
    let mut plan = Plan { sx, sy, flows: Vec::new() };
    let no_flow = Flow::from_numbers([0; 6]);
    plan.flows.resize(count as usize, no_flow);
    if memory.len() < plan.state_words() {
        return refuse(8, 0);
    }
    for (f, flow) in plan.flows.iter_mut().enumerate() {
        *flow = Flow::from_numbers([0, 1, 2, 3, 4, 5].map(|i| word(flow_at(f) + i)));
    }
    let mut book = Book::new(plan);
    book.clock = clock;
    for f in 0..count as usize {
        let [tokens, counter, entered, waiting] = [6, 7, 8, 9].map(|i| word(flow_at(f) + i));
        let flow = book.plan.flows[f];
        let on_torus = flow.xs < sx && flow.xd < sx && flow.ys < sy && flow.yd < sy;
        let ranges = (1..=MOST_PERIOD).contains(&flow.period) && (1..=255).contains(&flow.burst);
        let bucket = tokens <= flow.burst && counter < flow.period;
        if !(on_torus && ranges && bucket && waiting <= MOST_WAITING as i64 && entered <= clock) {
            return refuse(9, 0);
        }
        book.buckets[f] = Bucket { tokens, count: counter };
        book.entered[f] = entered;
        for _ in 0..waiting {
            book.add_waiting_line(f);
        }
    }
    for place in places(&book.plan) {
        let at = register_at(&book.plan, place);
        let packet = [0, 1, 2, 3].map(|i| word(at + i));
        if packet == [0; 4] {
            continue;
        }
        if !in_place(&book, place, packet) {
            return refuse(9, 0);
        }
        let [flow, serial, entry, d] = packet;
        let flow = (flow - 1) as usize;
        book.placed.push(book.lines.len());
        let (offer, q, exit) = (entry, 0, None);
        let (entry, place) = (Some(entry), Some(place));
        book.lines.push(Line { flow, serial, offer, q, d, entry, place, exit });
    }
    Ok(book)
}

/// May a register hold this packet (flow + 1, serial, entry, D)?
fn in_place(book: &Book, place: Place, [flow, serial, entry, d]: [i64; 4]) -> bool {
    let plan = &book.plan;
    if !(1..=plan.flows.len() as i64).contains(&flow) {
        return false;
    }
    let f = (flow - 1) as usize;
    let (row, column) = (place.router.row, place.router.column);
    let (dx, dy, xd) = (plan.dx(f), plan.dy(f), plan.flows[f].xd);
    let e = book.clock - entry;
    let r = (row - plan.flows[f].ys).rem_euclid(plan.sy);
    let there = match place.side {
        Side::N => {
            let rows = 1 <= r && r <= dy;
            column == xd && rows && d < r && e == dx + r + d * plan.sx
        }
        Side::W if r == 0 => {
            let j = (column - plan.flows[f].xs).rem_euclid(plan.sx);
            1 <= j && j <= dx && d == 0 && e == j
        }
        Side::W => {
            let j = match (column - xd).rem_euclid(plan.sx) {
                0 => plan.sx,
                j => j,
            };
            r <= dy && 1 <= d && d <= r && e == dx + r + (d - 1) * plan.sx + j
        }
    };
    there && e >= 1 && 1 <= serial && serial <= book.entered[f]
}
