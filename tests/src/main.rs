//! Compares the archive, or the listing or desk program, with the second simulator.

use second::compare::parts::Extent;
use second::compare::{Tally, listing};
use std::process::exit;
use std::time::{SystemTime, UNIX_EPOCH};

const USAGE: &str = "usage: second bounds|engine [--seconds N] [--seed N]
       second listing|desk PROGRAM [--seconds N] [--seed N]
Without --seconds: the gate's rounds, with the gate's seed.
The parts bounds and engine are compared if built with --features bounds, engine.";

const GATE_SEED: u64 = 1;

fn main() {
    let arguments: Vec<String> = std::env::args().skip(1).collect();
    let words: Vec<&str> = arguments.iter().map(String::as_str).collect();
    let (part, program, options) = match words[..] {
        [part @ ("bounds" | "engine"), ref options @ ..] => (part, "", Options::read(options)),
        [part @ ("listing" | "desk"), program, ref options @ ..] if !program.starts_with("--") => {
            (part, program, Options::read(options))
        }
        [part @ ("listing" | "desk"), ..] => wrong(&format!("the part {part} takes a program")),
        [part, ..] => wrong(&format!("there is no part '{part}'")),
        [] => wrong("it takes a part"),
    };
    let extent = options.seconds.map_or(Extent::Gate, Extent::Seconds);
    let chosen = if options.seconds.is_some() { from_the_time() } else { GATE_SEED };
    let seed = options.seed.unwrap_or(chosen);
    println!("{part}: seed {seed}");
    let tally = match part {
        "bounds" => bounds(seed, extent),
        "engine" => engine(seed, extent),
        "desk" => second::desk::run(program, seed, extent),
        _ => listing::run(|file| listing::printed(program, file), seed, extent),
    };
    for ((call, number), count) in &tally.answers {
        let answer = match number {
            _ if *call == "desk" => format!("status {number}"),
            0 => "accepted".to_string(),
            _ => format!("refused {number}"),
        };
        println!("{call:12} {answer:10} {count:9}");
    }
    for (reason, count) in tally.reasons.iter().enumerate().filter(|(_, count)| **count > 0) {
        println!("{:12} reason {reason:3} {count:9}", "step_reasons");
    }
    let counts = tally.turning.counts().into_iter().chain(tally.bursts.counts());
    for (what, count) in counts.filter(|(_, count)| *count > 0) {
        println!("{what:39} {count:9}");
    }
    let (calls, memory) = (tally.calls(), tally.words);
    println!("{part}: {calls} answers and {memory} words or bytes compared, no difference");
}

fn wrong(why: &str) -> ! {
    eprintln!("second: {why}\n{USAGE}");
    exit(2)
}

#[derive(Default)]
struct Options {
    seconds: Option<u64>,
    seed: Option<u64>,
}

impl Options {
    fn read(mut words: &[&str]) -> Options {
        let mut options = Options::default();
        while let [name, rest @ ..] = words {
            let option = match *name {
                "--seconds" => &mut options.seconds,
                "--seed" => &mut options.seed,
                _ => wrong(&format!("there is no option '{name}'")),
            };
            let value = rest.first().and_then(|word| word.parse().ok());
            *option = Some(value.unwrap_or_else(|| wrong(&format!("{name} takes a number"))));
            words = &rest[1..];
        }
        options
    }
}

fn from_the_time() -> u64 {
    SystemTime::now().duration_since(UNIX_EPOCH).unwrap().as_secs()
}

#[cfg(feature = "bounds")]
fn bounds(seed: u64, extent: Extent) -> Tally {
    second::compare::parts::bounds(&second::archive::archive, seed, extent)
}

#[cfg(not(feature = "bounds"))]
fn bounds(_: u64, _: Extent) -> Tally {
    wrong("it is built without the part bounds")
}

#[cfg(feature = "engine")]
fn engine(seed: u64, extent: Extent) -> Tally {
    second::compare::parts::engine(&second::archive::archive, seed, extent)
}

#[cfg(not(feature = "engine"))]
fn engine(_: u64, _: Extent) -> Tally {
    wrong("it is built without the part engine")
}
