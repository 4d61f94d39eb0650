//! What a run prints: a line per exit, and the table.

use crate::bytes::put_decimal;
use crate::recent::Records;
use crate::tally::Tally;
use hrt::{Delivery, State};
use std::io::{self, stdout, Write};

/// Standard output, with what is still to be written.
pub struct Output {
    bytes: Vec<u8>,
    /// Are exits printed, or the table alone?
    exits: bool,
}

const FULL: usize = 1 << 16;
/// The longest line of an exit, with a blank in front: eight numbers of ten digits at most.
const LINE: usize = 1 + 8 * 11;

impl Output {
    pub fn new(exits: bool) -> Output {
        let mut bytes = Vec::with_capacity(FULL + 128);
        if exits {
            bytes.extend_from_slice(b"exit flow serial offer entry wait deflections flight\n");
        }
        Output { bytes, exits }
    }

    pub fn exit(&mut self, offer: u32, exit: &Delivery) -> io::Result<()> {
        if !self.exits {
            return Ok(());
        }
        let Delivery { flow, serial, entry, deflections, .. } = *exit;
        let wait = entry - offer;
        let numbers = [exit.exit, flow, serial, offer, entry, wait, deflections, exit.flight()];
        let mut line = [b' '; LINE];
        line[LINE - 1] = b'\n';
        let mut place = LINE - 1;
        for number in numbers.into_iter().rev() {
            place -= put_decimal(&mut line[..place], number) + 1;
        }
        self.bytes.extend_from_slice(&line[place + 1..]);
        if self.bytes.len() >= FULL {
            self.flush()?;
        }
        Ok(())
    }

    pub fn flush(&mut self) -> io::Result<()> {
        let mut out = stdout().lock();
        out.write_all(&self.bytes)?;
        self.bytes.clear();
        out.flush()
    }

    /// The table, with three columns more if there are records, and what stands below it.
    pub fn table(
        &mut self,
        tallies: &[Tally],
        state: &State,
        records: Option<&Records>,
        below: &str,
    ) -> io::Result<()> {
        let mut rows = vec![HEADS.map(str::to_string).to_vec()];
        let flows = tallies.iter().enumerate();
        rows.extend(flows.map(|(flow, tally)| row(flow, tally, state).to_vec()));
        if let Some(records) = records {
            rows[0].extend(RECENT_HEADS.map(str::to_string));
            for (flow, row) in rows[1..].iter_mut().enumerate() {
                row.extend(records.cells(flow));
            }
        }
        let width = |column: usize| rows.iter().map(|row| row[column].len()).max().unwrap_or(0);
        let widths: Vec<usize> = (0..rows[0].len()).map(width).collect();
        if self.exits {
            self.bytes.push(b'\n');
        }
        for row in &rows {
            let cells = row.iter().zip(&widths).map(|(cell, &width)| format!("{cell:>width$}"));
            writeln!(self.bytes, "{}", cells.collect::<Vec<_>>().join("  "))?;
        }
        writeln!(self.bytes, "{below}")?;
        self.flush()
    }
}

const HEADS: [&str; 12] = [
    "flow",
    "offered",
    "refused",
    "left",
    "waiting",
    "flying",
    "wait",
    "wait-bound",
    "spare",
    "nearest",
    "flight",
    "flight-bound",
];

const RECENT_HEADS: [&str; 3] = ["held", "longest", "most"];

fn row(flow: usize, tally: &Tally, state: &State) -> [String; 12] {
    let shown = |number: Option<u64>| number.map_or("-".to_string(), |number| number.to_string());
    let wait = tally.longest_wait.map(|wait| wait.cycles.into());
    let bound = tally.longest_wait.and_then(|wait| wait.bound);
    let spare = wait.zip(bound).map(|(wait, bound)| bound.saturating_sub(wait));
    [
        flow.to_string(),
        tally.offered.to_string(),
        tally.refused.to_string(),
        tally.left.to_string(),
        state.waiting(flow).to_string(),
        (u64::from(state.entered(flow)) - tally.left).to_string(),
        shown(wait),
        shown(bound),
        shown(spare),
        shown(tally.nearest),
        shown(tally.longest_flight.map(u64::from)),
        tally.flight_bound.to_string(),
    ]
}
