//! States made by hand, a few packets in their registers and a few flows that wait, each with the reasons
//! that its flows are told by U7.

use crate::book::{Book, Bucket, Place, Router, Side};
use crate::plan::{Flow, Plan};
use crate::state::{PER_REGISTER, age, register_at, waiting_at, words};

/// A state, and what a step on it tells.
pub struct Scene {
    pub what: &'static str,
    pub sx: i64,
    pub sy: i64,
    pub flows: Vec<Waits>,
    pub packets: Vec<Packet>,
    pub reasons: Vec<u32>,
}

/// A flow: xs, ys, xd, yd, how many tokens of two it has, and how many packets wait.
pub type Waits = [i64; 6];

/// A packet of a flow in a register: the flow, the router's column and row, the side, and D.
pub type Packet = (usize, [i64; 2], Side, i64);

impl Scene {
    /// Its plan, with this period of all flows.
    pub fn plan(&self, period: i64) -> Plan {
        let flow = |&[xs, ys, xd, yd, ..]: &Waits| Flow { xs, ys, xd, yd, period, burst: 2 };
        Plan { sx: self.sx, sy: self.sy, flows: self.flows.iter().map(flow).collect() }
    }

    /// Its words, with this period of all flows.
    pub fn state(&self, period: i64) -> Vec<u32> {
        let mut book = Book::new(self.plan(period));
        book.clock = 90;
        book.entered.fill(3);
        for (bucket, flow) in book.buckets.iter_mut().zip(&self.flows) {
            *bucket = Bucket { tokens: flow[4], count: 0 };
        }
        let mut state = words(&book);
        for (f, flow) in self.flows.iter().enumerate() {
            state[waiting_at(f)] = flow[5] as u32;
        }
        for &(f, [column, row], side, d) in &self.packets {
            let place = Place { router: Router { row, column }, side };
            let entry = book.clock - age(&book.plan, f, place, d);
            let packet = [f as u32 + 1, 2, entry as u32, d as u32];
            let at = register_at(&book.plan, place);
            state[at..at + PER_REGISTER].copy_from_slice(&packet);
        }
        state
    }
}

/// A packet in W or N of the router (1,1) on a 3 by 3 torus: its source and destination, and its D.
type Held = Option<([i64; 4], i64)>;

/// In W: one that goes on E, one that turns S and goes on there, one that turns S and leaves, and one that
/// was deflected in this row, has come round, turns S and leaves.
const GOES_ON: Held = Some(([0, 1, 2, 1], 0));
const TURNS: Held = Some(([0, 1, 1, 2], 0));
const LEAVES: Held = Some(([0, 1, 1, 1], 0));
const RETURNS: Held = Some(([1, 0, 1, 1], 1));
const IN_WEST: [Held; 5] = [None, GOES_ON, TURNS, LEAVES, RETURNS];

/// In N: one that goes on S, and one that leaves. If W's packet turns, they are deflected E.
const FALLS: Held = Some(([1, 0, 1, 2], 0));
const DROPS_OUT: Held = Some(([1, 0, 1, 1], 0));
const IN_NORTH: [Held; 3] = [None, FALLS, DROPS_OUT];

/// A flow of the client (1,1) by E, one by S, and one to that client itself, by S too.
const fn east(tokens: i64, waiting: i64) -> Waits {
    [1, 1, 2, 1, tokens, waiting]
}
const fn south(tokens: i64, waiting: i64) -> Waits {
    [1, 1, 1, 2, tokens, waiting]
}
const fn own(tokens: i64, waiting: i64) -> Waits {
    [1, 1, 1, 1, tokens, waiting]
}

/// A flow of another client, where nothing comes by.
const fn away(tokens: i64, waiting: i64) -> Waits {
    [2, 2, 2, 0, tokens, waiting]
}

/// Scenes of the router (1,1): what they show, what W and N hold, the flows and their reasons.
type AtRouter<'a> = (&'static str, Held, Held, &'a [Waits], &'a [u32]);

const AT_ROUTER: &[AtRouter] = &[
    ("a packet enters by E", None, None, &[east(1, 1)], &[0]),
    ("a packet enters by S", None, None, &[south(1, 1)], &[0]),
    ("a packet enters and leaves", None, None, &[own(1, 1)], &[0]),
    ("nothing waiting", None, None, &[east(2, 0), south(1, 0)], &[1, 1]),
    ("no token", None, None, &[east(0, 1), south(0, 3)], &[2, 2]),
    ("256 packets, no token", None, None, &[south(0, 256), own(1, 0)], &[2, 1]),
    ("256 packets, a full bucket", GOES_ON, None, &[east(2, 256)], &[3]),
    // The first that applies.
    ("1 before 2", None, None, &[east(0, 0), south(0, 0)], &[1, 1]),
    ("1 and 2 before 3", GOES_ON, None, &[east(1, 0), east(0, 1)], &[1, 2]),
    ("1 and 2 before 4", None, FALLS, &[own(1, 0), south(0, 1)], &[1, 2]),
    ("1 and 2 before 5", None, None, &[east(1, 1), east(1, 0), south(0, 1)], &[0, 1, 2]),
    ("3 before 5", GOES_ON, None, &[south(1, 1), east(1, 1)], &[0, 3]),
    ("4 before 5", None, FALLS, &[east(1, 1), south(1, 1)], &[0, 4]),
    ("4 by an exit before 5", None, DROPS_OUT, &[east(1, 1), own(1, 1)], &[0, 4]),
    // W held: E is closed whatever W's packet does, and S by one that turns.
    ("W goes on, S is open", GOES_ON, None, &[east(1, 1), south(1, 1)], &[3, 0]),
    ("W goes on, the exit is open", GOES_ON, None, &[own(1, 1), east(2, 2)], &[0, 3]),
    ("W turns S", TURNS, None, &[east(1, 1), south(1, 1)], &[3, 4]),
    ("W leaves", LEAVES, None, &[east(1, 1), south(1, 1)], &[3, 4]),
    ("W has come round and leaves", RETURNS, None, &[east(1, 1), own(1, 1)], &[3, 4]),
    // N held: S is closed, by N's packet or by W's that turns, and E by W alone.
    ("N goes S", None, FALLS, &[south(1, 1), east(1, 1)], &[4, 0]),
    ("N leaves", None, DROPS_OUT, &[south(1, 1), east(1, 1)], &[4, 0]),
    ("W goes on, N goes S", GOES_ON, FALLS, &[east(1, 1), south(1, 1)], &[3, 4]),
    ("W goes on, N leaves", GOES_ON, DROPS_OUT, &[own(1, 1), east(1, 1)], &[4, 3]),
    ("W turns S, N is deflected", TURNS, FALLS, &[east(1, 1), own(1, 1)], &[3, 4]),
    ("W leaves, N is deflected", LEAVES, FALLS, &[south(1, 1), east(1, 1)], &[4, 3]),
    ("N is deflected at its destination", TURNS, DROPS_OUT, &[own(1, 1), east(1, 1)], &[4, 3]),
    ("W leaves in its place", RETURNS, DROPS_OUT, &[east(1, 1), south(1, 1)], &[3, 4]),
    // One flow of a client enters: the lowest-numbered that may, by whichever port.
    ("5 by E and E", None, None, &[east(1, 1), east(1, 1)], &[0, 5]),
    ("5 by S and S", None, None, &[own(1, 1), south(1, 1)], &[0, 5]),
    ("5 by E and S", None, None, &[east(1, 1), south(1, 1)], &[0, 5]),
    ("5 by S and E", None, None, &[south(1, 1), east(1, 1)], &[0, 5]),
    (
        "5 behind 1 and 2",
        None,
        None,
        &[east(1, 0), south(0, 1), own(1, 1), east(2, 5)],
        &[1, 2, 0, 5],
    ),
    ("5 behind one that is barred", GOES_ON, None, &[east(1, 1), own(1, 1), own(1, 1)], &[3, 0, 5]),
    (
        "5 between 4 and 4",
        None,
        FALLS,
        &[south(1, 1), east(1, 1), east(1, 1), own(1, 1)],
        &[4, 0, 5, 4],
    ),
    ("away enters", None, None, &[away(1, 1), east(1, 1)], &[0, 0]),
    (
        "away enters, bars its own",
        None,
        None,
        &[away(1, 1), east(1, 0), south(0, 1), away(1, 1)],
        &[0, 1, 2, 5],
    ),
    (
        "away enters, both ports barred",
        TURNS,
        None,
        &[away(1, 1), east(1, 1), south(1, 1)],
        &[0, 3, 4],
    ),
];

/// The flows, with W and N of (1,1) holding these. The packets' own flows come behind, and have nothing
/// waiting.
fn at_router(&(what, west, north, flows, reasons): &AtRouter) -> Scene {
    let (mut flows, mut reasons) = (flows.to_vec(), reasons.to_vec());
    let mut packets = Vec::new();
    for (side, held) in [(Side::W, west), (Side::N, north)] {
        if let Some(([xs, ys, xd, yd], d)) = held {
            packets.push((flows.len(), [1, 1], side, d));
            flows.push([xs, ys, xd, yd, 2, 0]);
            reasons.push(1);
        }
    }
    Scene { what, sx: 3, sy: 3, flows, packets, reasons }
}

/// Scenes of other tori: what they show, Sx and Sy, the flows, the packets and the reasons.
type Elsewhere = (&'static str, [i64; 2], &'static [Waits], &'static [Packet], &'static [u32]);

/// One column, and one row: two flows of the client in the middle, two whose packets come by there, and
/// one of the last client.
const COLUMN: &[Waits] = &[
    [0, 1, 0, 2, 1, 1],
    [0, 1, 0, 1, 1, 1],
    [0, 0, 0, 2, 2, 0],
    [0, 0, 0, 1, 2, 0],
    [0, 2, 0, 2, 1, 1],
];
const ROW: &[Waits] = &[
    [1, 0, 2, 0, 1, 1],
    [1, 0, 1, 0, 1, 1],
    [0, 0, 2, 0, 2, 0],
    [0, 0, 1, 0, 2, 0],
    [2, 0, 0, 0, 1, 1],
];
/// Two flows of the client (0,0) on 2 by 2, and two whose packets come there round an end.
const ENDS: &[Waits] =
    &[[0, 0, 1, 0, 1, 1], [0, 0, 0, 1, 1, 1], [1, 0, 0, 1, 2, 0], [0, 1, 0, 0, 2, 0]];
/// Flows of the one client that there is.
const ALONE: &[Waits] =
    &[[0, 0, 0, 0, 1, 0], [0, 0, 0, 0, 0, 1], [0, 0, 0, 0, 1, 1], [0, 0, 0, 0, 1, 1]];

const W: Side = Side::W;
const N: Side = Side::N;

const ELSEWHERE: &[Elsewhere] = &[
    ("one column", [1, 3], COLUMN, &[], &[0, 5, 1, 1, 0]),
    ("one column, N goes S", [1, 3], COLUMN, &[(2, [0, 1], N, 0)], &[4, 4, 1, 1, 0]),
    ("one column, N leaves", [1, 3], COLUMN, &[(3, [0, 1], N, 0)], &[4, 4, 1, 1, 0]),
    ("one column, W goes S", [1, 3], COLUMN, &[(2, [0, 1], W, 1)], &[4, 4, 1, 1, 0]),
    ("one column, W leaves", [1, 3], COLUMN, &[(3, [0, 1], W, 1)], &[4, 4, 1, 1, 0]),
    (
        "one column, W leaves, N deflected",
        [1, 3],
        COLUMN,
        &[(3, [0, 1], W, 1), (2, [0, 1], N, 0)],
        &[4, 4, 1, 1, 0],
    ),
    ("one column, N leaves below", [1, 3], COLUMN, &[(2, [0, 2], N, 0)], &[0, 5, 1, 1, 4]),
    ("one column, deflected below", [1, 3], COLUMN, &[(2, [0, 2], N, 1)], &[0, 5, 1, 1, 4]),
    ("one row", [3, 1], ROW, &[], &[0, 5, 1, 1, 0]),
    ("one row, W goes on", [3, 1], ROW, &[(2, [1, 0], W, 0)], &[3, 0, 1, 1, 0]),
    ("one row, W leaves", [3, 1], ROW, &[(3, [1, 0], W, 0)], &[3, 4, 1, 1, 0]),
    ("one row, W leaves further east", [3, 1], ROW, &[(2, [2, 0], W, 0)], &[0, 5, 1, 1, 3]),
    ("round no end", [2, 2], ENDS, &[], &[0, 5, 1, 1]),
    ("round the end of a row", [2, 2], ENDS, &[(2, [0, 0], W, 0)], &[3, 4, 1, 1]),
    ("round the end of a column", [2, 2], ENDS, &[(3, [0, 0], N, 0)], &[0, 4, 1, 1]),
    ("round both", [2, 2], ENDS, &[(2, [0, 0], W, 0), (3, [0, 0], N, 0)], &[3, 4, 1, 1]),
    ("one router alone", [1, 1], ALONE, &[], &[1, 2, 0, 5]),
];

fn elsewhere(&(what, [sx, sy], flows, packets, reasons): &Elsewhere) -> Scene {
    let (flows, packets, reasons) = (flows.to_vec(), packets.to_vec(), reasons.to_vec());
    Scene { what, sx, sy, flows, packets, reasons }
}

/// The scenes with their reasons.
pub fn scenes() -> impl Iterator<Item = Scene> {
    AT_ROUTER.iter().map(at_router).chain(ELSEWHERE.iter().map(elsewhere))
}

/// Every scene of the router (1,1) with two of its flows, each with or without a token and a packet,
/// whatever W and N hold. The reasons aren't written down.
pub fn all_pairs() -> Vec<Scene> {
    let has = [(0, 0), (0, 1), (1, 0), (1, 1)];
    let flows = [east, south, own].map(|flow| has.map(|(tokens, waiting)| flow(tokens, waiting)));
    let flows = flows.concat();
    let mut scenes = Vec::new();
    for west in IN_WEST {
        for north in IN_NORTH {
            for &first in &flows {
                for &second in &flows {
                    let pair = [first, second];
                    scenes.push(at_router(&("any two flows", west, north, &pair, &[])));
                }
            }
        }
    }
    scenes
}
