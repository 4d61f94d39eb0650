//! What README says of a burst to file: k packets of a flow at once, from reset on and at least B + k×P cycles
//! apart, find an empty queue and k tokens each time, so that each packet waits at most B − 1.

use second::book::Book;
use second::plan::Plan;
use second::random::{Random, plan};
use second::window::burst;

/// A flow, and the bursts that it is offered.
struct Bursts {
    flow: usize,
    packets: i64,
    window: i64,
}

impl Bursts {
    /// Some burst of a plan that doesn't take long.
    fn of(random: &mut Random, plan: &Plan) -> Option<Bursts> {
        let flow = random.index(plan.flows.len());
        let packets = random.from(1, plan.flows[flow].burst.min(6));
        let window = burst(plan, flow, packets)?;
        (window <= 200).then_some(Bursts { flow, packets, window })
    }

    /// The fewest cycles between two bursts.
    fn apart(&self, plan: &Plan) -> i64 {
        self.window + self.packets * plan.flows[self.flow].period
    }

    /// Does each of some bursts, so many cycles apart or seldom more, find an empty queue and a token for
    /// each packet, whatever the other flows offer? Those that do have entered in time.
    fn find_all(&self, random: &mut Random, plan: &Plan, apart: i64) -> bool {
        let mut book = Book::new(plan.clone());
        let others = random.pick(&[20, 60, 100]);
        let mut due = random.from(0, 30);
        for _ in 0..4 {
            while book.clock < due {
                self.cycle(random, &mut book, others);
            }
            let tokens = book.buckets[self.flow].tokens;
            if !book.waiting[self.flow].is_empty() || tokens < self.packets {
                return false;
            }
            let begun = book.clock;
            book.offer_set(&vec![self.flow as u32; self.packets as usize]).unwrap();
            while book.clock < begun + self.window {
                self.cycle(random, &mut book, others);
            }
            assert!(book.waiting[self.flow].is_empty(), "{} packets of {plan:?}", self.packets);
            due = begun + apart + if random.percent(30) { random.from(0, 40) } else { 0 };
        }
        true
    }

    /// One cycle, before which some of the other flows are offered a packet.
    fn cycle(&self, random: &mut Random, book: &mut Book, chance: i64) {
        for flow in (0..book.plan.flows.len()).filter(|&flow| flow != self.flow) {
            if random.percent(chance) && book.waiting[flow].len() < 9 {
                book.offer(flow as u32).unwrap();
            }
        }
        book.step(book.plan.delivery_words()).unwrap();
        book.forget_exits();
    }
}

/// Two cycles less is too little for some of them.
#[test]
fn bursts_that_are_far_enough_apart() {
    let mut random = Random::new(9);
    let mut too_early = 0;
    for _ in 0..3_000 {
        let (sx, sy) = (random.from(1, 4), random.from(1, 4));
        let flows = random.from(1, 5) as usize;
        let mut plan = plan(&mut random, sx, sy, flows);
        plan.flows.iter_mut().for_each(|flow| flow.period = flow.period.min(25));
        let Some(bursts) = Bursts::of(&mut random, &plan) else {
            continue;
        };
        let apart = bursts.apart(&plan);
        assert!(bursts.find_all(&mut random, &plan, apart), "{apart} apart: {plan:?}");
        too_early += !bursts.find_all(&mut random, &plan, apart - 2) as u32;
    }
    assert!(too_early > 20, "{too_early} bursts too early");
}
