//! The desk's comparison notices what it should: each of these faults, for its own reason. DESK names
//! the program, which tests/desk builds before it runs this.

mod faults {
    pub mod bursts;
    pub mod desk;
    pub mod kinds;
    pub mod lines;
    pub mod periods;
    pub mod sparse;
    pub mod trial_lines;
    pub mod why;
}

use faults::kinds::Fault;
use faults::{bursts, desk, lines, periods, sparse, trial_lines, why};
use second::compare::Tally;
use second::compare::parts::Extent;
use second::desk::expected::{EXIT_HEADS, HEADS, RECENT_HEADS};
use second::desk::kept::Kept;
use second::desk::program::Program;
use second::desk::why::row;
use second::desk::{bursts::HEADS as BURST_HEADS, calls};
use std::panic::{AssertUnwindSafe, catch_unwind, set_hook, take_hook};
use std::sync::{Arc, Mutex};
use std::{iter, thread};

#[test]
fn faults_are_noticed() {
    let desk = std::env::var("DESK").expect("DESK names the desk program");
    let kinds = [desk::faults, lines::faults, periods::faults, sparse::faults];
    let kinds = kinds.into_iter().chain([trial_lines::faults, why::faults, bursts::faults]);
    let faults: Vec<Fault> = kinds.flat_map(|faults| faults()).collect();
    println!("{} planted faults", faults.len());
    let faults = Mutex::new(faults.into_iter());
    let kept = Arc::new(Kept::default());
    let hook = take_hook();
    set_hook(Box::new(|_| ()));
    let next = || faults.lock().unwrap().next();
    let missed = || iter::from_fn(next).filter_map(|fault| missed(&desk, fault, &kept)).collect();
    let missed: Vec<Vec<String>> = thread::scope(|scope| {
        [(); 2].map(|()| scope.spawn(missed)).map(|thread| thread.join().unwrap()).into()
    });
    set_hook(hook);
    let missed = missed.concat();
    assert!(missed.is_empty(), "{}", missed.join("\n"));
}

/// What is wrong with how a fault is noticed, if anything is.
fn missed(desk: &str, Fault { name, told, caller }: Fault, kept: &Arc<Kept>) -> Option<String> {
    let program = Program::planted(desk, caller, kept);
    let compared = || calls(&program, &mut Tally::new(1), Extent::Gate);
    let Err(why) = catch_unwind(AssertUnwindSafe(compared)) else {
        return Some(format!("{name}: not noticed"));
    };
    let by = *why.downcast::<String>().unwrap();
    let by = columns(&by).unwrap_or(by);
    (!by.contains(&told)).then(|| format!("{name}: noticed, but by {by}"))
}

/// The names of the columns in which two lines of a run differ, if that is what is told.
fn columns(told: &str) -> Option<String> {
    let [left, right] = ["  left: \"", " right: \""]
        .map(|side| told.lines().find_map(|line| line.strip_prefix(side)?.strip_suffix('"')));
    let (left, right) = (left?, right?);
    if let (Some((reason, _, words)), Some((other, _, others))) = (row(left), row(right)) {
        return ((reason, words) == (other, others))
            .then(|| format!("columns cycles of {reason}."));
    }
    // The heading of reasons has as many words as a burst's line.
    if left.starts_with("why ") {
        return None;
    }
    let [left, right] = [left, right].map(|line| line.split_whitespace().collect::<Vec<_>>());
    let with_recent = format!("{HEADS} {RECENT_HEADS}");
    let heads = [BURST_HEADS, EXIT_HEADS, HEADS, &with_recent];
    let heads = heads.map(|heads| heads.split(' ').collect::<Vec<_>>());
    let heads =
        heads.iter().find(|heads| heads.len() == left.len() && heads.len() == right.len())?;
    let differ = (0..heads.len()).filter(|&at| left[at] != right[at]).map(|at| heads[at]);
    Some(format!("columns {}.", differ.collect::<Vec<_>>().join(" ")))
}
