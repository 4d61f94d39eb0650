//! The plans and states that are timed: three sizes, each with nothing to do, lightly and fully loaded,
//! and with slow flows.

use crate::plain::{reset, step};
use second::book::PER_DELIVERY;
use second::lent::{Call, Copied};
use second::plan::{Flow, MOST_PERIOD, Plan};
use second::random::Random;
use second::state::{HEADER, PER_FLOW, size, waiting_at};

/// How much traffic a plan asks for.
#[derive(Clone, Copy, Debug, PartialEq)]
pub enum Load {
    /// Flows all over the torus that send seldom.
    Light,
    /// As light, but every other flow is for housekeeping, with a period over 65,535.
    Slow,
    /// Flows of one client that nearly fill it: windows near 65,535, found by many small leaps.
    Climbing,
    /// As light, but with bursts of 16 packets.
    Bursts,
    /// Flows all over the torus that send whenever they can.
    Saturated,
    /// As light, but nothing waits and nothing is in flight.
    Idle,
    /// Flows all over the torus that send one after the other: some four packets are in flight.
    Few,
    /// Flows all over the torus that together use about half of its links.
    Standard,
    /// As light, with one packet of each flow now and then.
    Pings,
    /// As pings, but packets of the first flow, with a period of 12,000,000, always wait.
    Waiting,
}

impl Load {
    /// Its name in a row.
    pub fn name(self) -> String {
        format!("{self:?}").to_lowercase()
    }
}

/// Sizes of the torus, and flows.
pub const SIZES: [(i64, usize); 3] = [(4, 16), (8, 64), (16, 256)];

pub struct Case {
    pub size: i64,
    pub flows: usize,
    pub load: Load,
    pub file: Vec<u8>,
}

/// One flow from every client to a random one; or, climbing, all flows from one client.
pub fn case(size: i64, flows: usize, load: Load) -> Case {
    let mut random = Random::new(flows as u64);
    let count = flows as i64;
    let flow = |f: i64| {
        let (xs, ys) = (f % size, f / size);
        let (xd, yd) = (random.from(0, size - 1), random.from(0, size - 1));
        match load {
            Load::Slow if f % 2 == 1 => {
                let period = random.from(65_536, MOST_PERIOD);
                Flow { xs, ys, xd, yd, period, burst: 4 }
            }
            Load::Waiting if f == 0 => Flow { xs, ys, xd, yd, period: 12_000_000, burst: 1 },
            Load::Light | Load::Slow | Load::Idle | Load::Pings | Load::Waiting => {
                Flow { xs, ys, xd, yd, period: 10 * count, burst: 1 }
            }
            Load::Bursts => Flow { xs, ys, xd, yd, period: 10 * count, burst: 16 },
            Load::Few => Flow { xs, ys, xd, yd, period: count * size / 4, burst: 1 },
            Load::Standard => {
                let period = random.from(size / 2, 2 * size);
                Flow { xs, ys, xd, yd, period, burst: 2 }
            }
            Load::Saturated => Flow { xs, ys, xd, yd, period: 1, burst: 2 },
            Load::Climbing => {
                Flow { xs: 0, ys: 0, xd, yd, period: count, burst: climbing_burst(count) }
            }
        }
    };
    let plan = Plan { sx: size, sy: size, flows: (0..count).map(flow).collect() };
    Case { size, flows, load, file: plan.file(&[]) }
}

/// With count − 1 rivals of period count, T is count × their bursts + 1.
fn climbing_burst(count: i64) -> i64 {
    (65_534 / count / (count - 1)).min(255)
}

impl Case {
    pub fn words(&self) -> usize {
        size(self.flows, self.routers())
    }

    pub fn routers(&self) -> usize {
        (self.size * self.size) as usize
    }

    /// The words of the deliveries of a step.
    pub fn room(&self) -> usize {
        PER_DELIVERY * self.routers()
    }

    /// The state after some hundred cycles, with packets of every flow waiting unless it is idle.
    pub fn state(&self) -> Vec<u32> {
        let mut state = self.start();
        let mut delivery = vec![0; self.room()];
        if self.load != Load::Idle {
            state = self.with_waiting(state, 30_000);
        }
        for _ in 0..300 {
            step(&mut state, &mut delivery);
        }
        state
    }

    /// The state that the load starts from.
    pub fn start(&self) -> Vec<u32> {
        let mut state = vec![0; self.words()];
        reset(&self.file, &mut state);
        match self.load {
            Load::Few => self.spread_tokens(&mut state),
            Load::Waiting => state[waiting_at(0)] = 30_000,
            _ => {}
        }
        state
    }

    /// What a call on such a state is lent, with room for a step's deliveries.
    pub fn stepping(&self, state: &[u32], call: Call) -> Copied {
        Copied { call, state: state.to_vec(), delivery: vec![0; self.room()], ..Copied::default() }
    }

    /// The flows' next tokens come one after the other, over a whole period.
    fn spread_tokens(&self, state: &mut [u32]) {
        let flows = state[HEADER..].as_chunks_mut::<PER_FLOW>().0;
        for (f, flow) in flows[..self.flows].iter_mut().enumerate() {
            flow[7] = f as u32 * flow[4] / self.flows as u32;
        }
    }

    /// The state, but for so many packets of every flow that wait.
    pub fn with_waiting(&self, mut state: Vec<u32>, waiting: u32) -> Vec<u32> {
        for flow in 0..self.flows {
            state[waiting_at(flow)] = waiting;
        }
        state
    }
}
