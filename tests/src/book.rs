//! The packet book, by 01's "The packet book" and "One cycle": one line per accepted packet. Its offers
//! are in `offers`, the step that tells reasons in `reasons`, many steps in one call in `steps`.
//! The lines are the truth; what else the book keeps (which lines wait, which have a place, how
//! many have entered) is an index of them, for speed, checked against the lines in `promises`.

use crate::plan::{Plan, Port, Refusal, refuse};
use std::collections::VecDeque;

pub const LAST_CLOCK: i64 = u32::MAX as i64;

#[derive(Clone, Copy, Debug, PartialEq, Eq, Hash, PartialOrd, Ord)]
pub enum Side {
    W,
    N,
}

/// A router, or a client: row before column, as routers are ordered.
#[derive(Clone, Copy, Debug, PartialEq, Eq, Hash, PartialOrd, Ord)]
pub struct Router {
    pub row: i64,
    pub column: i64,
}

/// A link register: the W or the N input of a router.
#[derive(Clone, Copy, Debug, PartialEq, Eq, Hash, PartialOrd, Ord)]
pub struct Place {
    pub router: Router,
    pub side: Side,
}

#[derive(Clone, Debug, PartialEq, Eq)]
pub struct Line {
    pub flow: usize,
    pub serial: i64,
    pub offer: i64,
    pub q: i64,
    pub d: i64,
    pub entry: Option<i64>,
    pub place: Option<Place>,
    pub exit: Option<(i64, Router)>,
}

#[derive(Clone, Copy, Debug, PartialEq, Eq)]
pub struct Bucket {
    pub tokens: i64,
    pub count: i64,
}

/// The five words of a delivery: flow, serial, entry cycle, exit cycle, D.
pub type Delivery = [u32; PER_DELIVERY];
pub const PER_DELIVERY: usize = 5;

#[derive(Clone, Debug, PartialEq, Eq)]
pub struct Book {
    pub plan: Plan,
    pub clock: i64,
    pub buckets: Vec<Bucket>,
    pub lines: Vec<Line>,
    /// For each flow its waiting lines, lowest serial first.
    pub waiting: Vec<VecDeque<usize>>,
    /// The lines that have a place.
    pub placed: Vec<usize>,
    /// For each flow how many of its lines have an entry.
    pub entered: Vec<i64>,
}

/// Where a packet goes in a cycle.
#[derive(PartialEq)]
enum Way {
    South,
    East,
}

impl Book {
    pub fn new(plan: Plan) -> Book {
        let full = |flow: &crate::plan::Flow| Bucket { tokens: flow.burst, count: 0 };
        let flows = plan.flows.len();
        Book {
            clock: 0,
            buckets: plan.flows.iter().map(full).collect(),
            lines: Vec::new(),
            waiting: vec![VecDeque::new(); flows],
            placed: Vec::new(),
            entered: vec![0; flows],
            plan,
        }
    }

    /// Drops the lines that have left. For a search, which looks at the future only.
    pub fn forget_exits(&mut self) {
        let old = std::mem::take(&mut self.lines);
        for line in self.placed.iter_mut().chain(self.waiting.iter_mut().flatten()) {
            self.lines.push(old[*line].clone());
            *line = self.lines.len() - 1;
        }
    }

    /// A step that is lent this many words of delivery memory: its exits, in order.
    pub fn step(&mut self, delivery_words: usize) -> Result<Vec<Delivery>, Refusal> {
        self.may_step(delivery_words)?;
        let old = self.lines_by_place();
        let mut exits = self.move_lines(&old);
        self.enter_lines(&old, &mut exits);
        self.clock += 1;
        exits.sort();
        Ok(exits.into_iter().map(|(_, line)| self.delivery(line)).collect())
    }

    /// The refusals of a step that is lent this many words of delivery memory.
    pub fn may_step(&self, delivery_words: usize) -> Result<(), Refusal> {
        if delivery_words < self.plan.delivery_words() {
            return refuse(10, 0);
        }
        if self.clock == LAST_CLOCK {
            return refuse(11, 0);
        }
        Ok(())
    }

    fn delivery(&self, line: usize) -> Delivery {
        let Line { flow, serial, d, entry, exit, .. } = self.lines[line].clone();
        let (entry, (exit, _)) = (entry.unwrap(), exit.unwrap());
        [flow as i64, serial, entry, exit, d].map(|number| number.try_into().unwrap())
    }

    /// For each place the line that stands there. No two lines share one.
    fn lines_by_place(&self) -> Vec<Option<usize>> {
        let mut at = vec![None; 2 * self.plan.routers()];
        for &line in &self.placed {
            let place = self.lines[line].place.unwrap();
            let before = at[self.place_number(place)].replace(line);
            assert_eq!(before, None, "two lines in one place: {place:?}");
        }
        at
    }

    /// Registers run by row, then column, W before N.
    fn place_number(&self, place: Place) -> usize {
        let router = place.router.row * self.plan.sx + place.router.column;
        2 * router as usize + (place.side == Side::N) as usize
    }

    /// Rule 1 for a W packet, or none: does W of this router go S?
    fn w_goes_south(&self, old: &[Option<usize>], router: Router) -> bool {
        match old[self.place_number(Place { router, side: Side::W })] {
            Some(line) => self.plan.flows[self.lines[line].flow].xd == router.column,
            None => false,
        }
    }

    /// Rules 1 and 2, from the old places. Gives the lines that exit and their routers.
    fn move_lines(&mut self, old: &[Option<usize>]) -> Vec<(Router, usize)> {
        let mut exits = Vec::new();
        for line in std::mem::take(&mut self.placed) {
            let Place { router, side } = self.lines[line].place.unwrap();
            let turn = self.w_goes_south(old, router);
            let way = match side {
                Side::W if turn => Way::South,
                Side::W => Way::East,
                Side::N if turn => Way::East,
                Side::N => Way::South,
            };
            if side == Side::N && way == Way::East {
                self.lines[line].d += 1;
            }
            self.send(line, router, way, &mut exits);
        }
        exits
    }

    /// Sends a line S or E from a router: to its exit, or to the next register.
    fn send(&mut self, line: usize, from: Router, way: Way, exits: &mut Vec<(Router, usize)>) {
        let Router { row, column } = from;
        let flow = &self.plan.flows[self.lines[line].flow];
        let at_destination = (column, row) == (flow.xd, flow.yd);
        let place = match way {
            Way::South if at_destination => None,
            Way::South => {
                let row = (row + 1) % self.plan.sy;
                Some(Place { router: Router { row, column }, side: Side::N })
            }
            Way::East => {
                let column = (column + 1) % self.plan.sx;
                Some(Place { router: Router { row, column }, side: Side::W })
            }
        };
        self.lines[line].place = place;
        if place.is_some() {
            self.placed.push(line);
        } else {
            self.lines[line].exit = Some((self.clock, from));
            exits.push((from, line));
        }
    }

    /// Rules 3 and 4: at each client the lowest-numbered flow that can enters; then all buckets.
    fn enter_lines(&mut self, old: &[Option<usize>], exits: &mut Vec<(Router, usize)>) {
        let mut taken = vec![false; self.plan.routers()];
        for flow in 0..self.plan.flows.len() {
            let client = self.client(flow);
            let number = self.place_number(Place { router: client, side: Side::W }) / 2;
            let ready = !self.waiting[flow].is_empty() && self.buckets[flow].tokens > 0;
            if ready && !taken[number] && self.port_open(old, client, self.plan.port(flow)) {
                taken[number] = true;
                self.enter(flow, client, exits);
            }
            self.count_bucket(flow);
        }
    }

    /// The router of a flow's client.
    pub fn client(&self, flow: usize) -> Router {
        Router { row: self.plan.flows[flow].ys, column: self.plan.flows[flow].xs }
    }

    /// For each flow, whether its port is open.
    pub fn open_ports(&self) -> Vec<bool> {
        let old = self.lines_by_place();
        let is_open = |flow| self.port_open(&old, self.client(flow), self.plan.port(flow));
        (0..self.plan.flows.len()).map(is_open).collect()
    }

    fn port_open(&self, old: &[Option<usize>], router: Router, port: Port) -> bool {
        let empty = |side| old[self.place_number(Place { router, side })].is_none();
        match port {
            Port::East => empty(Side::W),
            Port::South => empty(Side::N) && !self.w_goes_south(old, router),
        }
    }

    fn enter(&mut self, flow: usize, client: Router, exits: &mut Vec<(Router, usize)>) {
        self.buckets[flow].tokens -= 1;
        self.entered[flow] += 1;
        let line = self.waiting[flow].pop_front().unwrap();
        self.lines[line].entry = Some(self.clock);
        let way = match self.plan.port(flow) {
            Port::East => Way::East,
            Port::South => Way::South,
        };
        self.send(line, client, way, exits);
    }

    /// Rule 4 by U3, after entry: the count advances every cycle and returns to 0 at P. That gives a
    /// token; one that finds the bucket full is lost.
    fn count_bucket(&mut self, flow: usize) {
        let (period, burst) = (self.plan.flows[flow].period, self.plan.flows[flow].burst);
        let bucket = &mut self.buckets[flow];
        bucket.count += 1;
        if bucket.count == period {
            *bucket = Bucket { tokens: burst.min(bucket.tokens + 1), count: 0 };
        }
    }
}
