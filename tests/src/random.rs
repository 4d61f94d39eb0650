//! Random numbers with a seed (splitmix64), and random plans, notes and states made with them.

use crate::book::{Book, Bucket, Place, Side};
use crate::offers::MOST_TRIAL;
use crate::plan::{Flow, MOST_PERIOD, Plan};
use crate::state::{PER_REGISTER, age, places, register_at, waiting_at};

pub struct Random(u64);

impl Random {
    pub fn new(seed: u64) -> Random {
        Random(seed)
    }

    pub fn draw(&mut self) -> u64 {
        self.0 = self.0.wrapping_add(0x9E37_79B9_7F4A_7C15);
        let mut z = self.0;
        z = (z ^ (z >> 30)).wrapping_mul(0xBF58_476D_1CE4_E5B9);
        z = (z ^ (z >> 27)).wrapping_mul(0x94D0_49BB_1331_11EB);
        z ^ (z >> 31)
    }

    pub fn word(&mut self) -> u32 {
        self.draw() as u32
    }

    /// A number from low to high, both included.
    pub fn from(&mut self, low: i64, high: i64) -> i64 {
        low + (self.draw() % (high - low + 1) as u64) as i64
    }

    pub fn index(&mut self, length: usize) -> usize {
        (self.draw() % length as u64) as usize
    }

    pub fn percent(&mut self, chance: i64) -> bool {
        self.from(1, 100) <= chance
    }

    pub fn pick<T: Copy>(&mut self, choices: &[T]) -> T {
        choices[self.index(choices.len())]
    }

    pub fn bytes(&mut self, length: usize) -> Vec<u8> {
        (0..length).map(|_| self.draw() as u8).collect()
    }

    pub fn words(&mut self, length: usize) -> Vec<u32> {
        (0..length).map(|_| self.word()).collect()
    }
}

/// How many flows a plan has: often few, up to 256.
pub fn flow_count(random: &mut Random) -> usize {
    let most = random.pick(&[1, 2, 4, 12, 40, 256]);
    random.from(if most == 256 { 200 } else { 1 }, most) as usize
}

/// Long periods: about the ends of two bytes and of three, and with low bytes of 0.
pub const LONG_PERIODS: [i64; 8] =
    [65_535, 65_536, 65_537, 0x1_0100, 0x2_0000, 0xFF_0000, MOST_PERIOD - 1, MOST_PERIOD];

/// The period of a slow flow: a telling one, one with low bytes of 0, or any over 65,535.
fn long_period(random: &mut Random) -> i64 {
    match random.from(0, 9) {
        0..4 => random.pick(&LONG_PERIODS),
        4 => 65_536 * random.from(1, 255),
        5 => 256 * random.from(256, 65_535),
        _ => random.from(65_536, MOST_PERIOD),
    }
}

/// A plan on an sx by sy torus. Clients are shared by several flows, some flows are
/// self-addressed; periods and bursts are small, large or at their ends. Some plans have slow flows
/// among the others, some have few destination columns, for which many rows turn, and some mostly flows straight down
/// their column.
pub fn plan(random: &mut Random, sx: i64, sy: i64, flows: usize) -> Plan {
    let clients = random.from(1, flows as i64) as usize;
    let places: Vec<_> =
        (0..clients).map(|_| (random.from(0, sx - 1), random.from(0, sy - 1))).collect();
    let longest = random.pick(&[1, 3, 12, 60, 600, 65_535]);
    let largest = random.pick(&[1, 2, 4, 255]);
    let slow = random.pick(&[0, 0, 0, 0, 10, 60]);
    let straight = random.pick(&[0, 0, 0, 30, 70]);
    let columns: Vec<_> = match random.pick(&[0, 0, 0, 1, 2]) {
        0 => (0..sx).collect(),
        few => (0..few).map(|_| random.from(0, sx - 1)).collect(),
    };
    let mut flow = || {
        let (xs, ys) = random.pick(&places);
        let (xd, yd) = match random.from(0, 9) {
            0 => (xs, ys),
            1 => (xs, random.from(0, sy - 1)),
            2 => random.pick(&places),
            _ if random.percent(straight) => (xs, random.from(0, sy - 1)),
            _ => (random.pick(&columns), random.from(0, sy - 1)),
        };
        let period = if random.percent(slow) {
            long_period(random)
        } else if random.percent(10) {
            longest
        } else {
            random.from(1, longest)
        };
        let burst = if random.percent(10) { largest } else { random.from(1, largest) };
        Flow { xs, ys, xd, yd, period, burst }
    };
    let flows = (0..flows).map(|_| flow()).collect();
    Plan { sx, sy, flows }
}

pub fn any_plan(random: &mut Random) -> Plan {
    let (sx, sy) = (random.from(1, 16), random.from(1, 16));
    let flows = flow_count(random);
    plan(random, sx, sy, flows)
}

/// Notes that the plan's file has room for: often none or few, seldom as many as fit.
pub fn notes(random: &mut Random, plan: &Plan) -> Vec<u8> {
    let room = crate::plan::MOST_BYTES - plan.file(&[]).len();
    let length = match random.from(0, 19) {
        0 => room,
        1 => random.index(room),
        2..8 => 0,
        _ => random.index(40),
    };
    random.bytes(length)
}

/// Words that form a state of this plan, whether or not a run from reset reaches it.
pub fn state(random: &mut Random, plan: &Plan) -> Vec<u32> {
    let last = u32::MAX as i64;
    let clock = match random.from(0, 7) {
        0 => last,
        1 => last - 1,
        2 => random.from(0, last),
        3 => random.from(0, 30),
        _ => random.from(0, 1000),
    };
    let mut book = Book::new(plan.clone());
    book.clock = clock;
    for (f, flow) in plan.flows.iter().enumerate() {
        let tokens = if random.percent(30) { flow.burst } else { random.from(0, flow.burst) };
        book.buckets[f] = Bucket { tokens, count: count(random, flow.period) };
        book.entered[f] = if random.percent(20) { clock } else { random.from(0, clock) };
    }
    let mut words = crate::state::words(&book);
    for f in 0..plan.flows.len() {
        let waiting = match random.from(0, 99) {
            0 if f < 4 => random.from(65_534, 65_535),
            1 if f < 4 => random.from(0, 65_535),
            2 | 3 if f < 16 => MOST_TRIAL as i64 + random.from(-2, 2),
            2..40 => 0,
            _ => random.from(0, 5),
        };
        words[waiting_at(f)] = waiting as u32;
    }
    let load = random.pick(&[0, 10, 50, 90, 100]);
    for place in places(plan) {
        if random.percent(load) {
            let at = register_at(plan, place);
            if let Some(packet) = packet(random, &book, place) {
                let packet = packet.map(|number| number as u32);
                words[at..at + PER_REGISTER].copy_from_slice(&packet);
            }
        }
    }
    words
}

/// A count below the period: often the last. A slow flow's is often near the last too, or about to
/// turn its two low bytes over.
fn count(random: &mut Random, period: i64) -> i64 {
    let (highest, near) = (period - 1, random.from(0, 12));
    match random.from(0, 9) {
        0..3 => highest,
        3 if period > 65_535 => highest - near,
        4 if period > 65_535 => {
            let turns = random.from(1, (highest / 65_536).max(1));
            highest.min(65_536 * turns - near)
        }
        _ => random.from(0, highest),
    }
}

/// A packet that may be in this place (flow + 1, serial, entry, D), if a few tries find one.
fn packet(random: &mut Random, book: &Book, place: Place) -> Option<[i64; 4]> {
    let plan = &book.plan;
    for _ in 0..20 {
        let f = random.index(plan.flows.len());
        let (dx, dy, flow) = (plan.dx(f), plan.dy(f), plan.flows[f]);
        let column = place.router.column;
        let r = (place.router.row - flow.ys).rem_euclid(plan.sy);
        let in_rows = 1 <= r && r <= dy;
        let on_its_way = (1..=dx).contains(&(column - flow.xs).rem_euclid(plan.sx));
        let d = match place.side {
            Side::N if column == flow.xd && in_rows => random.from(0, r - 1),
            Side::W if r == 0 && on_its_way => 0,
            Side::W if in_rows => random.from(1, r),
            _ => continue,
        };
        let e = age(plan, f, place, d);
        if e <= book.clock && book.entered[f] > 0 {
            return Some([f as i64 + 1, random.from(1, book.entered[f]), book.clock - e, d]);
        }
    }
    None
}
