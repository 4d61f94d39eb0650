//! The limits of plans, states and calls.

/// The most bytes of a plan file.
pub const MOST_PLAN_BYTES: usize = 65_536;
/// The bytes of a flow's record in a plan file.
pub const RECORD_BYTES: usize = 8;
/// The bytes of a plan file's trailer.
pub const TRAILER_BYTES: usize = 12;
/// The most columns, and the most rows, of a torus; the least is 1.
pub const MOST_SIDE: u32 = 16;
/// The most flows of a plan; the least is 1.
pub const MOST_FLOWS: usize = 256;
/// The longest period of a flow; the shortest is 1.
pub const MOST_PERIOD: u32 = 16_777_215;
/// The largest burst of a flow; the smallest is 1.
pub const MOST_BURST: u32 = 255;
/// The largest window that is looked for; the smallest is 1.
pub const MOST_WINDOW: u32 = 65_535;
/// The most packets of a flow that wait at its source.
pub const MOST_WAITING: u32 = 65_535;
/// The most packets of a flow that wait, whoever offered them, after an offer of the trial generator.
pub const MOST_TRIAL: u32 = 255;
/// The last value of the clock, at which a step is refused.
pub const LAST_CLOCK: u32 = u32::MAX;
/// The fewest deliveries that a flow's record may be asked to keep.
pub const LEAST_RECENT: u32 = 1;
/// The most deliveries that a flow's record may be asked to keep.
pub const MOST_RECENT: u32 = 16;

/// The words of a state's head: Sx, Sy, F, the clock and four zeros.
pub const HEAD_WORDS: usize = 8;
/// The words of a flow in a state.
pub const FLOW_WORDS: usize = 10;
/// The words of a link register in a state; each router has two registers.
pub const REGISTER_WORDS: usize = 4;
/// The words that an exit delivers.
pub const EXIT_WORDS: usize = 5;

/// How many words the state of a plan has.
pub const fn state_words(sx: u32, sy: u32, flows: usize) -> usize {
    HEAD_WORDS + FLOW_WORDS * flows + 2 * REGISTER_WORDS * (sx * sy) as usize
}

/// How many words a step must be lent for its deliveries.
pub const fn delivery_words(sx: u32, sy: u32) -> usize {
    EXIT_WORDS * (sx * sy) as usize
}

/// Where a state has its clock.
pub const CLOCK_AT: usize = 3;

/// Where a state has the first word of a flow.
pub const fn flow_at(flow: usize) -> usize {
    HEAD_WORDS + FLOW_WORDS * flow
}

/// Where a state has the count of a flow's packets that have entered.
pub const fn entered_at(flow: usize) -> usize {
    flow_at(flow) + 8
}

/// Where a state has the count of a flow's packets that wait.
pub const fn waiting_at(flow: usize) -> usize {
    flow_at(flow) + 9
}

/// The words of the largest state.
pub const MOST_STATE_WORDS: usize = state_words(MOST_SIDE, MOST_SIDE, MOST_FLOWS);
