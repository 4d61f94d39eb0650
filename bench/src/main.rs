//! Times the archive beside plain Rust, alternating in one run. See USAGE.

#[cfg(feature = "before")]
mod before;
#[cfg_attr(not(all(feature = "bounds", feature = "engine")), allow(dead_code))]
mod calls;
#[cfg(feature = "engine")]
mod desk;
mod listing;
mod loads;
#[cfg_attr(not(feature = "engine"), allow(dead_code))]
mod many_steps;
mod plain;
#[cfg(feature = "engine")]
mod processor;
mod times;

use plain::plain;
#[cfg(any(feature = "bounds", feature = "engine"))]
use second::archive::archive;
use second::compare;
use second::compare::parts::{self, Extent};
use std::process::exit;
#[cfg(any(feature = "bounds", feature = "engine"))]
use times::PLAIN_AND_ARCHIVE;

const USAGE: &str =
    "usage: bench bounds|engine          times the archive's calls (--features bounds, engine)
       bench before [LACKING..]     times it beside another archive (--features before), but for the
                                    functions that the other lacks
       bench desk PROGRAM           times a million offers through the desk (--features engine)
       bench listing PROGRAM        times the listing program
       bench agree                  compares plain Rust with the second simulator";

fn main() {
    let arguments: Vec<String> = std::env::args().skip(1).collect();
    let words: Vec<&str> = arguments.iter().map(String::as_str).collect();
    if let Some(part) = words.first().filter(|part| is_left_out(part)) {
        wrong(&format!("it is built without the part {part}"))
    }
    match words[..] {
        #[cfg(feature = "bounds")]
        ["bounds"] => calls::bounds(PLAIN_AND_ARCHIVE, &plain, &archive),
        #[cfg(feature = "engine")]
        ["engine"] => {
            calls::engine(PLAIN_AND_ARCHIVE, &plain, &archive);
            many_steps::time_beside_step(&archive);
        }
        #[cfg(feature = "before")]
        ["before", ref lacking @ ..] => {
            match lacking.iter().find(|name| !name.starts_with("hrt_")) {
                None => before::time(lacking),
                Some(word) => wrong(&format!("there is no option '{word}'")),
            }
        }
        #[cfg(feature = "engine")]
        ["desk", program] if !program.starts_with("--") => desk::time(program, &archive),
        ["listing", program] if !program.starts_with("--") => listing::time(program),
        ["plain-listing"] => listing::plain(),
        ["agree"] => agree(),
        [part @ ("listing" | "desk")] => wrong(&format!("the part {part} takes a program")),
        ["bounds" | "engine" | "agree", word, ..]
        | ["listing" | "desk", _, word, ..]
        | ["listing" | "desk", word] => wrong(&format!("there is no option '{word}'")),
        [part, ..] => wrong(&format!("there is no part '{part}'")),
        [] => wrong("it takes a part"),
    }
}

/// The part needs a feature that this build lacks.
fn is_left_out(part: &str) -> bool {
    match part {
        "bounds" => !cfg!(feature = "bounds"),
        "engine" | "desk" => !cfg!(feature = "engine"),
        "before" => !cfg!(feature = "before"),
        _ => false,
    }
}

fn wrong(why: &str) -> ! {
    eprintln!("bench: {why}\n{USAGE}");
    exit(2)
}

/// The baseline is honest: it answers, writes and prints what the second simulator does.
fn agree() {
    let plain_text = |file: &[u8]| listing::text(file).into_bytes();
    for (part, tally) in [
        ("bounds", parts::bounds(&plain, 1, Extent::Gate)),
        ("engine", parts::engine(&plain, 1, Extent::Gate)),
        ("listing", compare::listing::run(plain_text, 1, Extent::Gate)),
    ] {
        let (calls, memory) = (tally.calls(), tally.words);
        println!("plain {part}: {calls} answers and {memory} words or bytes, no difference");
    }
}
