//! The comparison notices what it should: each of these faults, planted in the second simulator, and by what it
//! changes. And the comparing program tells wrong words.

mod faults {
    pub mod bounds;
    pub mod burst_calls;
    pub mod engine;
    pub mod listing;
    pub mod many;
    pub mod reasons;
    pub mod recent;
    pub mod records;
    pub mod routine;
    pub mod sets;
    pub mod simulator;
    pub mod telling;
    pub mod trial;
}

use faults::simulator::{Fault, Kind, slips};
use faults::{
    bounds, burst_calls, engine, listing, many, reasons, recent, routine, sets, telling, trial,
};
use second::compare::parts::{self, Extent};
use second::compare::{self, Other, Others, Run, Tally};
use second::lent::{Call, Lent};
use second::plan::refuse;
use second::random::Random;
use second::{calls, table};
use std::any::Any;
use std::collections::BTreeMap;
use std::panic::{AssertUnwindSafe, catch_unwind, set_hook, take_hook};
use std::process::Command;
use std::thread;

/// Every fault.
fn planted() -> Vec<Fault> {
    let mut planted = routine::faults();
    planted.extend(engine::faults());
    planted.extend(many::faults());
    planted.extend(trial::faults());
    planted.extend(reasons::faults());
    planted.extend(bounds::faults());
    planted.extend(burst_calls::faults());
    planted.extend(listing::faults());
    for (call, by_hand) in [
        (Call::OfferSet, sets::FAULTS),
        (Call::Step, telling::PLAIN),
        (Call::StepReasons, telling::FAULTS),
        (Call::Recent(0), recent::FAULTS),
    ] {
        planted.extend(slips(call, by_hand));
    }
    planted
}

/// What the comparison tells of each fault of the bounds, or of the engine's calls: all are compared at once.
fn told_of_calls<'a>(faults: &[&'a Fault], bounds: bool) -> Vec<(&'a Fault, Option<String>)> {
    let (mut planted, mut others) = (Vec::new(), Vec::new());
    for &fault in faults {
        if let Kind::Call(call, engine) = &fault.kind
            && call.is_bound() == bounds
        {
            planted.push(fault);
            let call = (!fault.sees_all).then_some(call.name());
            others.push(Other { engine, call, told: None });
        }
    }
    let mut others = Others::of(others);
    let compare = if bounds { parts::bounds_of } else { parts::engine_of };
    let ended = catch_unwind(AssertUnwindSafe(|| compare(&mut others, 1, Extent::Gate))).err();
    let ended = ended.map(text);
    planted.into_iter().zip(others.told().map(|told| told.or(ended.clone()))).collect()
}

/// What the comparison tells of a fault of the listing.
fn told_of_listing(fault: &Fault) -> Option<(&Fault, Option<String>)> {
    let Kind::Listing(print) = &fault.kind else {
        return None;
    };
    let print = |file: &[u8]| print(file).into_bytes();
    let compared = || drop(compare::listing::run(print, 1, Extent::Gate));
    Some((fault, catch_unwind(AssertUnwindSafe(compared)).err().map(text)))
}

/// What a comparison told as it ended.
fn text(why: Box<dyn Any + Send>) -> String {
    match why.downcast::<String>() {
        Ok(told) => *told,
        Err(why) => why.downcast_ref::<&str>().copied().unwrap_or_default().to_string(),
    }
}

/// A fault that isn't noticed, or is noticed by something else than what it changes.
fn missed((fault, told): (&Fault, Option<String>)) -> Option<String> {
    let Some(told) = told else {
        return Some(format!("{}: not noticed", fault.name));
    };
    let told = told.split_once(", ").map_or(&*told, |(_seed, told)| told);
    let by = |(call, part): &(&str, String)| told.starts_with(&format!("{call}, {part}: "));
    let brief: String = told.chars().take(100).collect();
    (!fault.told.iter().any(by)).then(|| format!("{}: noticed, but by {brief}", fault.name))
}

/// The faults that are missed among every second one of all.
fn missed_among(half: usize) -> Vec<String> {
    let planted = planted();
    let faults: Vec<_> = planted.iter().skip(half).step_by(2).collect();
    let mut told = told_of_calls(&faults, true);
    told.extend(told_of_calls(&faults, false));
    told.extend(faults.iter().filter_map(|fault| told_of_listing(fault)));
    assert_eq!(told.len(), faults.len());
    told.into_iter().filter_map(missed).collect()
}

#[test]
fn faults_are_noticed() {
    let mut counts = BTreeMap::new();
    for fault in planted() {
        *counts.entry(fault.told[0].0).or_insert(0) += 1;
    }
    println!("planted: {counts:?}, {} in all", counts.values().sum::<i32>());
    let hook = take_hook();
    set_hook(Box::new(|_| ()));
    let missed = thread::scope(|scope| {
        let halves = [0, 1].map(|half| scope.spawn(move || missed_among(half)));
        halves.map(|half| half.join().unwrap()).concat()
    });
    set_hook(hook);
    assert!(missed.is_empty(), "{}", missed.join("\n"));
}

/// Wherever the comparison's boundaries come, the table gives the refusal that is due.
#[test]
fn the_table_tells_what_is_due() {
    let checked = |lent: &mut Lent| {
        let row = table::row(lent.call);
        let due = row.first_due(lent).map(|at| &row.refusals[at]);
        let due = due.map(|no| lent.call.returned(refuse(no.number, (no.place)(lent))));
        let answer = calls::simulator(lent);
        let refused = Some(answer).filter(|_| ![0, 14].contains(&lent.call.number(answer)));
        assert_eq!(due, refused, "{:?}", lent.call);
        answer
    };
    let (mut tally, mut random) = (Tally::new(1), Random::new(1));
    let others = &mut Others::one(&checked);
    let run = &mut Run { others, tally: &mut tally, random: &mut random };
    compare::bounds::boundaries(run);
    parts::boundaries(run);
}

#[test]
fn wrong_words_are_told() {
    for (words, why) in [
        ("", "it takes a part"),
        ("listings", "there is no part 'listings'"),
        ("listing", "the part listing takes a program"),
        ("listing --seed 1", "the part listing takes a program"),
        ("bounds --second 1", "there is no option '--second'"),
        ("bounds --seconds", "--seconds takes a number"),
        ("engine --seed one", "--seed takes a number"),
        ("engine --seed 1 2", "there is no option '2'"),
    ] {
        let program = env!("CARGO_BIN_EXE_second");
        let output = Command::new(program).args(words.split_whitespace()).output().unwrap();
        let told = String::from_utf8(output.stderr).unwrap();
        assert_eq!(output.status.code(), Some(2), "{words}");
        assert!(told.starts_with(&format!("second: {why}\n")), "{words}: {told}");
    }
}
