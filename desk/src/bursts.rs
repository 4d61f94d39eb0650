//! `bursts`: for each flow, within how many cycles a burst of so many of its packets enters.

use crate::ending::Ending;
use crate::input::read_plan;
use crate::plan::{print, refused};
use hrt::{Answer, Refusal};
use std::ffi::OsString;

const HEADS: &str = "flow packets window wait\n";
/// The refusal of a burst that has no window.
const NO_WINDOW: u32 = 14;

/// Prints a line for each flow and each of its bursts, a flow's lines as soon as they are known.
pub fn bursts(plan_path: OsString) -> Result<(), Ending> {
    let plan = read_plan(&plan_path)?;
    let state = plan.reset().map_err(refused)?;
    print(HEADS.as_bytes())?;
    for flow in 0..state.flows() {
        let burst = |packets| plan.burst(flow as u32, packets);
        let windows = windows(state.flow(flow).burst, burst).map_err(refused)?;
        print(lines(flow, &windows).as_bytes())?;
    }
    Ok(())
}

/// The windows of bursts of 1 packet, 2 and so on up to so many. Where one has none, no larger one has.
fn windows(most: u32, burst: impl FnMut(u32) -> Answer) -> Result<Vec<Option<u32>>, Refusal> {
    let mut windows = Vec::new();
    for answer in (1..=most).map(burst) {
        match answer {
            Answer::Done(window) => windows.push(Some(window)),
            Answer::Refused(Refusal { number: NO_WINDOW, .. }) => break,
            Answer::Refused(refusal) => return Err(refusal),
        }
    }
    windows.resize(most as usize, None);
    Ok(windows)
}

/// The flow, the packets, the window and the longest wait that it leaves to one of them.
fn lines(flow: usize, windows: &[Option<u32>]) -> String {
    let line = |(packets, window): (usize, &Option<u32>)| match window {
        Some(window) => format!("{flow} {packets} {window} {}\n", window - 1),
        None => format!("{flow} {packets} - -\n"),
    };
    (1..).zip(windows).map(line).collect()
}

#[cfg(test)]
mod tests {
    use super::*;

    const NONE: Answer = Answer::Refused(Refusal { number: NO_WINDOW, place: 3 });

    #[test]
    fn each_burst_up_to_the_first_without_a_window_is_asked_for_once() {
        for (most, last, expected) in [
            (1, 1, vec![Some(7)]),
            (3, 3, vec![Some(7), Some(14), Some(21)]),
            (4, 2, vec![Some(7), Some(14), None, None]),
            (2, 0, vec![None, None]),
        ] {
            let mut asked = Vec::new();
            let found = windows(most, |packets| {
                asked.push(packets);
                if packets <= last {
                    Answer::Done(7 * packets)
                } else {
                    NONE
                }
            });
            assert_eq!(found, Ok(expected));
            assert_eq!(asked, (1..=most.min(last + 1)).collect::<Vec<_>>());
        }
    }

    #[test]
    fn another_refusal_is_told() {
        for number in [1, 12, 13, 15, 20, 26] {
            let refusal = Refusal { number, place: 0 };
            let burst =
                |packets| if packets < 3 { Answer::Done(9) } else { Answer::Refused(refusal) };
            assert_eq!(windows(5, burst), Err(refusal));
        }
    }

    #[test]
    fn lines_count_packets_from_1() {
        assert_eq!(lines(0, &[Some(1)]), "0 1 1 0\n");
        let windows = [Some(3), Some(65_535), None];
        assert_eq!(lines(255, &windows), "255 1 3 2\n255 2 65535 65534\n255 3 - -\n");
    }
}
