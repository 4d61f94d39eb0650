//! Windows and flight bounds, by 01's "Windows" with U3's curve, U5's periods and U8's turning rows, and U9's windows of
//! bursts. The search goes t by t, with no leaps, and ends at 65,535 however long a period is.

use crate::plan::{Plan, Port, Refusal, read, refuse};
use crate::turning::{is_turning, most_deflections, turning_for};

/// The spread J of flow g at the source of flow f, or None where g doesn't conflict with f.
pub fn spread(plan: &Plan, f: usize, g: usize) -> Option<i64> {
    let row_turns = is_turning(plan, plan.flows[f].ys, plan.flows[g].xd);
    spread_by(plan, f, g, row_turns, |r| turning_for(plan, g, r))
}

/// The spread, where f's row turns for g or doesn't, by how many of the first r rows south of g's source count.
pub fn spread_by(
    plan: &Plan,
    f: usize,
    g: usize,
    row_turns: bool,
    rows: impl Fn(i64) -> i64,
) -> Option<i64> {
    if g == f {
        return None;
    }
    let (x, y) = (plan.flows[f].xs, plan.flows[f].ys);
    let rival = &plan.flows[g];
    if (rival.xs, rival.ys) == (x, y) {
        return Some(0);
    }
    let r = (y - rival.ys).rem_euclid(plan.sy);
    let j = (x - rival.xs).rem_euclid(plan.sx);
    match plan.port(f) {
        Port::East if r == 0 => (1 <= j && j <= plan.dx(g)).then_some(0),
        Port::East => (r <= plan.dy(g) && row_turns).then(|| plan.sx * rows(r - 1)),
        Port::South => (rival.xd == x && r <= plan.dy(g)).then(|| plan.sx * rows(r)),
    }
}

/// 01's own spread, by which every row turns. No window by U8 is larger than the one by this.
pub fn spread_of_01(plan: &Plan, f: usize, g: usize) -> Option<i64> {
    spread_by(plan, f, g, true, |r| r)
}

/// A conflicting flow as I(t) sees it.
#[derive(Clone, Copy)]
pub struct Rival {
    pub burst: u32,
    pub period: u32,
    pub spread: u32,
}

pub fn rivals(plan: &Plan, f: usize) -> Vec<Rival> {
    rivals_by(plan, |g| spread(plan, f, g))
}

/// The rivals by some rule that gives the spread of a flow that conflicts.
pub fn rivals_by(plan: &Plan, rule: impl Fn(usize) -> Option<i64>) -> Vec<Rival> {
    let rival = |g: usize| {
        let (burst, period) = (plan.flows[g].burst as u32, plan.flows[g].period as u32);
        rule(g).map(|spread| Rival { burst, period, spread: spread as u32 })
    };
    (0..plan.flows.len()).filter_map(rival).collect()
}

/// I(t) = the sum of σ + ⌈(t−1+J)/P⌉, by U3.
pub fn interference(rivals: &[Rival], t: u32) -> u32 {
    rivals.iter().map(|r| r.burst + (t - 1 + r.spread).div_ceil(r.period)).sum()
}

/// The least t from 1 to 65,535 with I(t) < t.
pub fn least_window(rivals: &[Rival]) -> Option<i64> {
    least(|t| interference(rivals, t) < t)
}

/// The least t from 1 to 65,535 with I(t) + k ≤ t, by U9.
pub fn least_burst(rivals: &[Rival], k: i64) -> Option<i64> {
    least(|t| interference(rivals, t) + k as u32 <= t)
}

/// The least t from 1 to 65,535 that is a window.
pub fn least(is_window: impl Fn(u32) -> bool) -> Option<i64> {
    (1..=65_535).find(|&t| is_window(t)).map(i64::from)
}

/// T of flow f.
pub fn window(plan: &Plan, f: usize) -> Option<i64> {
    least_window(&rivals(plan, f))
}

/// B of so many packets of flow f.
pub fn burst(plan: &Plan, f: usize, packets: i64) -> Option<i64> {
    least_burst(&rivals(plan, f), packets)
}

/// B of 1, 2 and so on to σ packets of flow f, as far as they have one, in one search: I(t) never falls, so each is
/// larger than the last.
pub fn bursts(plan: &Plan, f: usize) -> Vec<i64> {
    let (rivals, most) = (rivals(plan, f), plan.flows[f].burst as usize);
    let mut k = 1;
    let is_next = |&t: &u32| {
        let fits = interference(&rivals, t) + k <= t;
        k += fits as u32;
        fits
    };
    (1..=65_535).filter(is_next).take(most).map(i64::from).collect()
}

pub fn flight_bound(plan: &Plan, f: usize) -> i64 {
    plan.flight(f, most_deflections(plan, f))
}

/// The longest wait of a packet offered with none waiting.
pub fn lone_wait(plan: &Plan, f: usize, window: i64) -> i64 {
    plan.flows[f].period + window - 2
}

fn plan_with_flow(file: &[u8], flow: u32) -> Result<(Plan, usize), Refusal> {
    let (plan, _) = read(file)?;
    let flow = flow as usize;
    if flow < plan.flows.len() { Ok((plan, flow)) } else { refuse(12, 0) }
}

/// The window call: plan, 12, 14.
pub fn window_call(file: &[u8], flow: u32) -> Result<u64, Refusal> {
    let (plan, f) = plan_with_flow(file, flow)?;
    found(window(&plan, f), f)
}

/// A window of flow f, or 14.
fn found(window: Option<i64>, f: usize) -> Result<u64, Refusal> {
    window.map_or_else(|| refuse(14, f), |t| Ok(t as u64))
}

/// The call of a burst's window: plan, 12, 20, 14.
pub fn burst_call(file: &[u8], flow: u32, packets: u32) -> Result<u64, Refusal> {
    let (plan, f) = plan_with_flow(file, flow)?;
    if !(1..=plan.flows[f].burst).contains(&packets.into()) {
        return refuse(20, 0);
    }
    found(burst(&plan, f, packets.into()), f)
}

/// The flight bound's call: plan, 12.
pub fn flight_call(file: &[u8], flow: u32) -> Result<u64, Refusal> {
    let (plan, f) = plan_with_flow(file, flow)?;
    Ok(flight_bound(&plan, f) as u64)
}

/// What the listing prints for this file.
pub fn listing(file: &[u8]) -> String {
    listing_by(file, window, flight_bound)
}

/// The listing by some rules that give T and the flight bound of a flow.
pub fn listing_by(
    file: &[u8],
    window: impl Fn(&Plan, usize) -> Option<i64>,
    flight_bound: impl Fn(&Plan, usize) -> i64,
) -> String {
    let plan = match read(file) {
        Ok((plan, _)) => plan,
        Err(no) => return format!("refused {} {}\n", no.number, no.place),
    };
    let mut text = String::from("flow port window flight wait\n");
    for f in 0..plan.flows.len() {
        let port = if plan.port(f) == Port::East { 'E' } else { 'S' };
        let (t, wait) = match window(&plan, f) {
            Some(t) => (t.to_string(), lone_wait(&plan, f, t).to_string()),
            None => ("-".to_string(), "-".to_string()),
        };
        text += &format!("{f} {port} {t} {} {wait}\n", flight_bound(&plan, f));
    }
    text
}
