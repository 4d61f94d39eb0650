//! Plan files at the boundary of each refusal, and damaged ones.

use super::periods;
use crate::plan::{Flow, MOST_BYTES, MOST_PERIOD, Plan, RECORD, TRAILER, file_of};
use crate::random::Random;

/// Files on both sides of the refusals 1 to 7, with one fault and with two at once. Those with late windows, which
/// take longest, are the last.
pub fn at_boundaries() -> Vec<Vec<u8>> {
    let mut files = periods::files();
    files.extend(changed(&base(), &[0, 1, 2, 3, 4, 5, 15, 16, 17, 254, 255]));
    for file in changed(&base(), &[0, 17]) {
        files.extend(changed(&file, &[0, 17]));
    }
    files.extend(lengths());
    files.extend([1, 2, 3].map(wrapped_start));
    files.extend(late_windows().iter().map(|plan| plan.file(&[])));
    files
}

/// Columns and rivals with a spread with which flow 0 of `late_window` has the window 65,535, and with which it
/// would have 65,536.
pub const LAST_WINDOW: (i64, i64) = (2, 8);
pub const PAST_THE_LAST: (i64, i64) = (3, 1);

/// Flow 0 with this window T, or just past the last one.
pub fn late_window(numbers: (i64, i64), slow: &[i64]) -> Plan {
    late_burst(numbers, slow, 1)
}

/// Flow 0 has the longest period, and as many packets in a burst. Its rivals come down its column: eight with periods 2,
/// 4 to 256, and slow ones with these periods. The last flow makes row 1 turn, so that those of row 0 have the spread
/// Sx: the slow ones and so many of the eight. The first has burst 247, less 2 for each slow one, which adds so much to
/// I(t) until its period is over, and less 1 for each packet behind the first; the others have burst 1.
pub fn late_burst((columns, above): (i64, i64), slow: &[i64], packets: i64) -> Plan {
    let flow = |ys, period, burst| Flow::from_numbers([0, ys, 0, 2, period, burst]);
    let mut flows = vec![flow(2, MOST_PERIOD, packets)];
    flows.push(flow(0, 2, 248 - 2 * slow.len() as i64 - packets));
    flows.extend((2..=8).map(|power| flow((power > above) as i64, 1 << power, 1)));
    flows.extend(slow.iter().map(|&period| flow(0, period, 1)));
    flows.push(Flow::from_numbers([1, 1, 0, 1, MOST_PERIOD, 1]));
    Plan { sx: columns, sy: 3, flows }
}

/// Windows about the last, without slow rivals and with them. A period of 65,535 is over in the last
/// window, which is none then.
pub fn late_windows() -> Vec<Plan> {
    let slow = [&[][..], &[65_535], &[65_536], &[65_536, 65_537, MOST_PERIOD]];
    let late = |slow| [LAST_WINDOW, PAST_THE_LAST].map(|numbers| late_window(numbers, slow));
    slow.into_iter().flat_map(late).collect()
}

/// Three flows on a 5 by 3 torus, with notes.
fn base() -> Vec<u8> {
    let flows = [[0, 0, 4, 2, 65_535, 255], [4, 2, 0, 0, 1, 1], [3, 1, 3, 1, 256, 7]];
    Plan::of(5, 3, &flows).file(b"notes")
}

/// The file with one byte changed: each byte of records and trailer, to each of these values.
fn changed(file: &[u8], values: &[u8]) -> Vec<Vec<u8>> {
    let mut files = Vec::new();
    for at in file.len() - 3 * RECORD - TRAILER..file.len() {
        for &value in values {
            let mut changed = file.to_vec();
            changed[at] = value;
            files.push(changed);
        }
    }
    files
}

/// So many records are missing in front, and the start is as far below 2^32: no match, since
/// nothing wraps.
fn wrapped_start(missing: usize) -> Vec<u8> {
    let mut file = base().split_off(5 + RECORD * missing);
    let trailer = file.len() - TRAILER;
    let start = ((RECORD * missing) as u32).wrapping_neg();
    file[trailer..trailer + 4].copy_from_slice(&start.to_le_bytes());
    file
}

/// Lengths from 0, the longest file and one byte more, with other refusals too, and the counts 1, 256 and 257.
fn lengths() -> Vec<Vec<u8>> {
    let base = base();
    let mut files: Vec<Vec<u8>> = (0..=base.len()).map(|length| base[..length].to_vec()).collect();
    files.extend((0..base.len()).map(|from| base[from..].to_vec()));
    for flows in [1, 255, 256, 257] {
        let flow = Flow::from_numbers([15, 15, 0, 0, 900, 1]);
        let plan = Plan { sx: 16, sy: 16, flows: vec![flow; flows] };
        let room = MOST_BYTES - plan.file(&[]).len();
        for notes in [0, 1, room - 1, room, room + 1] {
            files.push(plan.file(&vec![0x48; notes]));
        }
    }
    for record in [[16, 0, 0, 0, 9, 0, 1, 0], [0; RECORD]] {
        files.push(file_of(&vec![0x48; MOST_BYTES - RECORD - TRAILER + 1], &[record], 16, 16));
    }
    files.push(vec![0; MOST_BYTES]);
    files.push(vec![0; MOST_BYTES + 1]);
    files
}

/// Damages a file: bytes changed, cut off, added or moved. It may still be a plan.
pub fn damage(random: &mut Random, file: &mut Vec<u8>) {
    for _ in 0..random.from(1, 3) {
        let length = file.len();
        // Most damage is near the trailer, where it is told soonest.
        let at = if random.percent(50) {
            length.saturating_sub(1 + random.index(12))
        } else {
            random.index(length + 1)
        };
        match random.from(0, 9) {
            0 => file.truncate(at),
            1 => file.extend(random.bytes(8)),
            2 => file.insert(at, 0),
            3 if length > 0 => drop(file.remove(at.min(length - 1))),
            4 => file.rotate_left(at),
            _ if length > 0 => {
                let at = at.min(length - 1);
                let near = [
                    file[at].wrapping_sub(1),
                    file[at].wrapping_add(1),
                    random.draw() as u8,
                    0,
                    16,
                    17,
                ];
                file[at] = random.pick(&near);
            }
            _ => file.push(0),
        }
    }
}
