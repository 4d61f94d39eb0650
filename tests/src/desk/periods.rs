//! Periods of one, two and three bytes: their bytes in a record, their text both ways, and runs in
//! which they are waited out.

use super::ends::sentence;
use super::expected::Options;
use super::program::{Program, same_lines, write};
use super::streams::{Stream, compare};
use crate::compare::Tally;
use crate::plan::{Flow, MOST_PERIOD, Plan, file_of};
use std::fs;

/// Periods, and each one's low, middle and top byte.
const PERIODS: [(u32, [u8; 3]); 10] = [
    (1, [1, 0, 0]),
    (255, [0xFF, 0, 0]),
    (256, [0, 1, 0]),
    (65_535, [0xFF, 0xFF, 0]),
    (65_536, [0, 0, 1]),
    (65_537, [1, 0, 1]),
    (65_792, [0, 1, 1]),
    (0x12_34_56, [0x56, 0x34, 0x12]),
    (16_777_214, [0xFE, 0xFF, 0xFF]),
    (16_777_215, [0xFF, 0xFF, 0xFF]),
];

/// The record of a flow from (0,0) to (1,1): the top byte of P is the last.
fn record([low, middle, top]: [u8; 3], burst: u8) -> [u8; 8] {
    [0, 0, 1, 1, low, middle, burst, top]
}

/// The plan file of these records on 4 by 3.
fn file(records: &[[u8; 8]]) -> Vec<u8> {
    file_of(&[], records, 4, 3)
}

/// A text of all periods gives their records, and these give the text back.
pub fn texts(program: &Program, tally: &mut Tally) {
    let file = file(&PERIODS.map(|(_, bytes)| record(bytes, 7)));
    let flows = PERIODS.map(|(period, _)| format!("flow 0 0 1 1 {period} 7\n"));
    let text = format!("torus 4 3\n{}", flows.concat());
    write(&program.file("mode.txt"), text.as_bytes());
    let said = program.call(tally, &["plan", "mode.txt", "mode.plan"], b"");
    assert_eq!((said.status, said.err.as_str()), (0, ""));
    assert_eq!(fs::read(program.file("mode.plan")).unwrap(), file);
    let shown = program.call(tally, &["show", "mode.plan"], b"");
    assert_eq!((shown.status, shown.err.as_str()), (0, ""));
    assert_eq!(String::from_utf8_lossy(&shown.out), text);
}

/// A record without a period, whose three bytes are 0, or without a burst is refused with 7.
pub fn refused(program: &Program, tally: &mut Tally) {
    let good = record([0, 0, 1], 7);
    for bad in [record([0; 3], 7), record([0, 0, 1], 0), record([0xFF; 3], 0), record([0; 3], 0)] {
        write(&program.file("mode.plan"), &file(&[good, bad]));
        for word in ["show", "bursts", "run"] {
            let told = "mode.plan: refused 7 1; ./hrt explain 7 says why";
            sentence(program.call(tally, &[word, "mode.plan"], b""), 1, told);
        }
    }
}

/// Flows from a client to itself, with these periods and bursts.
fn lone(flows: &[(i64, i64)]) -> Plan {
    let flow = |&(period, burst)| Flow::from_numbers([0, 0, 0, 0, period, burst]);
    Plan { sx: 1, sy: 1, flows: flows.iter().map(flow).collect() }
}

/// A packet that is offered a cycle after the only token was taken waits for the next one as long as
/// its bound allows. And bounds of ten digits, as a bucket of the longest period is emptied.
pub fn runs(program: &Program, tally: &mut Tally) {
    let options = |summary| Options { summary, why: Some(0), ..Options::default() };
    for period in [65_537, 65_536] {
        let stream = Stream::of(vec![(0, vec![0]), (1, vec![0])]);
        compare(program, tally, &lone(&[(period, 1)]), &stream, options(false));
    }
    let stream = Stream::of(vec![(0, vec![0; 255])]);
    compare(program, tally, &lone(&[(MOST_PERIOD, 255)]), &stream, options(true));
}

/// The longest period waited out, by the last of 256 packets. T is 3, so its bound is
/// 256 × (P + 2) − 1, which is more than a word holds.
pub fn longest(program: &Program) {
    let plan = lone(&[(MOST_PERIOD, 255), (MOST_PERIOD, 1)]);
    write(&program.file("run.plan"), &plan.file(b""));
    let stream = Stream::of(vec![(0, vec![0; 256])]);
    let words = ["run", "run.plan", "--summary", "--why", "0"];
    let got = program.answer(&words, stream.text.as_bytes());
    let expected = "\
flow  offered  refused  left  waiting  flying      wait  wait-bound       spare   nearest  flight  flight-bound
   0      256        0   256        0       0  16777215  4294967551  4278190336  16777216       2             2
   1        0        0     0        0       0         -           -           -         -       -             2

why    cycles  flow 0
  0       256  it entered
  1         0  nothing waiting
  2  16776960  no token
  3         0  its port is E and W held a packet
  4         0  its port is S and a network packet took S
  5         0  a lower-numbered flow of its client entered
ended at cycle 16777216: everything has left
";
    same_lines(&Tally::new(0), &plan, expected, &got.out);
    assert_eq!((got.status, got.err.as_str()), (0, ""));
}
