//! Faults of a hand that takes a record's bytes for others. The calls are right on what it takes them
//! for.

use super::simulator::{Fault, OneCall, in_call};
use second::lent::{Call, Lent, Part};
use second::plan::{RECORD, change_records};

/// What a record is taken for: xs, ys, xd, yd, P's low and middle byte, σ and P's top byte.
pub type Misread = fn(&mut [u8; RECORD]);

pub const FAULTS: &[(&str, Misread)] = &[
    ("the top byte of P taken as its low one", |record| {
        let [.., low, middle, _, top] = *record;
        period(record, [top, low, middle]);
    }),
    ("the top byte of P taken as its middle one", |record| record.swap(5, 7)),
    ("the top byte of P ignored", |record| record[7] = 0),
    ("a last byte that isn't 0 refused", |record| {
        if record[7] != 0 {
            period(record, [0; 3]);
        }
    }),
    ("P judged 0 by its low two bytes", |record| {
        if record[4..6] == [0, 0] {
            period(record, [0; 3]);
        }
    }),
    ("P's bytes taken in a row, and the last as burst", |record| record.swap(6, 7)),
    ("a period of 0 taken for the longest", |record| {
        if [record[4], record[5], record[7]] == [0; 3] {
            period(record, [255; 3]);
        }
    }),
    ("a period over 65,535 taken for 65,535", |record| {
        if record[7] != 0 {
            period(record, [255, 255, 0]);
        }
    }),
    ("the top bit of P lost", |record| record[7] &= 127),
    ("a burst of 0 taken where the last byte isn't 0", |record| {
        record[6] += (record[6] == 0 && record[7] != 0) as u8
    }),
];

/// Writes P's three bytes, low to top.
fn period(record: &mut [u8; RECORD], bytes: [u8; 3]) {
    [record[4], record[5], record[7]] = bytes;
}

/// The call with each of these, which shows in one of these parts.
pub fn of_call(call: Call, parts: &[Part]) -> impl Iterator<Item = Fault> {
    FAULTS.iter().map(move |&(name, misread)| {
        in_call(call, name, parts, move |lent| {
            let mut file = change_records(lent.file, misread);
            Lent { file: &mut file, ..lent.again() }.right()
        })
    })
}
