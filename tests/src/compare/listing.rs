//! The listing: what is printed for a plan file.

use super::parts::{Extent, rounds};
use super::{Tally, periods, plans};
use crate::plan::read;
use crate::random::{self, Random};
use crate::slips::refuted;
use crate::window::listing;
use std::io::Write;
use std::process::{Command, Stdio};

/// Compares what `print` gives for files of telling lengths, for plans that refute a slipped window,
/// for late windows and slow rivals, for some files at the boundary of a refusal, and for random and
/// damaged plans.
pub fn run(print: impl Fn(&[u8]) -> Vec<u8>, seed: u64, extent: Extent) -> Tally {
    let mut tally = Tally::new(seed);
    for length in [0, 11, 12, 65_535, 65_536, 65_537, 70_000] {
        compare(&print, &mut tally, &vec![0x50; length]);
    }
    let slipped = refuted().into_iter().map(|row| row.plan);
    for plan in slipped.chain(plans::late_windows()).chain(periods::slow_rivals()) {
        compare(&print, &mut tally, &plan.file(&[]));
    }
    for file in plans::at_boundaries().iter().step_by(16) {
        compare(&print, &mut tally, file);
    }
    rounds("listing", &mut tally, extent, |tally, random, sx, sy| {
        round(&print, tally, random, sx, sy)
    });
    tally.must_have_come_up("listing", 1..=7);
    tally
}

/// What a program prints for a file on standard input. It must end well.
pub fn printed(program: &str, file: &[u8]) -> Vec<u8> {
    let mut child = Command::new(program)
        .stdin(Stdio::piped())
        .stdout(Stdio::piped())
        .spawn()
        .unwrap_or_else(|why| panic!("{program} doesn't start: {why}"));
    // A program that has seen enough may close its input early.
    let _ = child.stdin.take().unwrap().write_all(file);
    let output = child.wait_with_output().unwrap();
    assert!(output.status.success(), "{program}: {}, file {file:?}", output.status);
    output.stdout
}

type Print<'a> = &'a dyn Fn(&[u8]) -> Vec<u8>;

fn round(print: Print, tally: &mut Tally, random: &mut Random, sx: i64, sy: i64) {
    let flows = random.from(1, 9) as usize;
    let plan = random::plan(random, sx, sy, flows);
    let mut file = plan.file(&random::notes(random, &plan));
    compare(print, tally, &file);
    plans::damage(random, &mut file);
    compare(print, tally, &file);
}

fn compare(print: Print, tally: &mut Tally, file: &[u8]) {
    let expected = listing(file);
    let got = print(file);
    tally.count("listing", read(file).map_or_else(|no| no.number, |_| 0));
    tally.words += got.len() as u64;
    let got = String::from_utf8_lossy(&got);
    let seed = tally.seed;
    assert!(
        expected == got,
        "seed {seed}, listing, text: expected {expected:?}, got {got:?}; {file:?}"
    );
}
