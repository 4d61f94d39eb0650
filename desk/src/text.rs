//! A plan as text: `torus SX SY`, `flow XS YS XD YD P SIGMA`, `note TEXT`, `#` and blank lines.

use crate::bytes::{counted, escaped, fields, is_blank, number, quoted, unescaped};
use hrt::limits::{
    MOST_BURST, MOST_FLOWS, MOST_PERIOD, MOST_PLAN_BYTES, MOST_SIDE, RECORD_BYTES, TRAILER_BYTES,
};
use hrt::{Flow, Plan};
use std::fmt::Write;

/// What a plan's text says.
#[derive(Clone, Debug, PartialEq, Eq)]
pub struct Mode {
    pub sx: u32,
    pub sy: u32,
    pub flows: Vec<Flow>,
    pub notes: Vec<u8>,
}

/// A fault of a line: what is wrong and what would be right.
#[derive(Debug, PartialEq, Eq)]
pub struct Fault {
    pub line: usize,
    pub text: String,
}

/// The mode of a text, or all its faults by line.
pub fn read(text: &[u8]) -> Result<Mode, Vec<Fault>> {
    if text.len() <= MOST_PLAN_BYTES && Plan::read(text.to_vec()).is_ok() {
        let text = "this is a plan file, not a text; ./hrt show prints its text".to_string();
        return Err(vec![Fault { line: 1, text }]);
    }
    let mut reader = Reader { torus: first_torus(text), ..Reader::default() };
    for (at, line) in lines(text).enumerate() {
        reader.line = at + 1;
        reader.read_line(line);
    }
    reader.end()
}

/// The lines of a text, which end in LF or CRLF; the last one needn't. A byte order mark is skipped.
fn lines(text: &[u8]) -> impl Iterator<Item = &[u8]> {
    let text = text.strip_prefix(b"\xef\xbb\xbf").unwrap_or(text);
    let text = text.strip_suffix(b"\n").unwrap_or(text);
    text.split(|&byte| byte == b'\n').map(|line| line.strip_suffix(b"\r").unwrap_or(line))
}

/// The sizes of the first torus line that has no fault.
fn first_torus(text: &[u8]) -> Option<[u32; 2]> {
    let torus = |line| match fields(line).collect::<Vec<_>>()[..] {
        [b"torus", sx, sy] => Some([side(sx, "SX").ok()?, side(sy, "SY").ok()?]),
        _ => None,
    };
    lines(text).find_map(torus)
}

fn side(field: &[u8], name: &str) -> Result<u32, String> {
    number(field, name, 1, MOST_SIDE)
}

/// A text half read.
#[derive(Default)]
struct Reader {
    torus: Option<[u32; 2]>,
    line: usize,
    torus_line: Option<usize>,
    flows: Vec<(usize, Flow)>,
    /// How many flow lines there are, the faulty ones too.
    flow_lines: usize,
    notes: Vec<u8>,
    /// For each note line its number and where its bytes end in the notes.
    note_ends: Vec<(usize, usize)>,
    faults: Vec<Fault>,
}

impl Reader {
    fn fault(&mut self, text: String) {
        self.faults.push(Fault { line: self.line, text });
    }

    fn read_line(&mut self, line: &[u8]) {
        let start = line.iter().position(|&byte| !is_blank(byte)).unwrap_or(line.len());
        let line = &line[start..];
        let length = line.iter().position(|&byte| is_blank(byte)).unwrap_or(line.len());
        let (word, rest) = line.split_at(length);
        match word {
            b"note" => self.note(rest.get(1..).unwrap_or(&[])),
            b"torus" => self.torus(&fields(rest).collect::<Vec<_>>()),
            b"flow" => self.flow(&fields(rest).collect::<Vec<_>>()),
            [] | [b'#', ..] => {}
            _ => {
                let text = "a line starts with torus, flow, note or #";
                self.fault(format!("what is '{}'? {text}", quoted(word)));
            }
        }
    }

    fn note(&mut self, text: &[u8]) {
        match unescaped(text) {
            Ok(bytes) => self.notes.extend(bytes),
            Err(wrong) => self.fault(wrong),
        }
        self.note_ends.push((self.line, self.notes.len()));
    }

    fn torus(&mut self, numbers: &[&[u8]]) {
        if let Some(line) = self.torus_line {
            self.fault(format!(
                "a second torus line; the torus is given once, and line {line} does"
            ));
            return;
        }
        self.torus_line = Some(self.line);
        let [sx, sy] = numbers[..] else {
            let count = counted(numbers.len(), "number");
            self.fault(format!("torus has {count} behind it; it takes two: torus SX SY"));
            return;
        };
        for (field, name) in [(sx, "SX, the count of columns,"), (sy, "SY, the count of rows,")] {
            if let Err(wrong) = side(field, name) {
                self.fault(wrong);
            }
        }
    }

    fn flow(&mut self, numbers: &[&[u8]]) {
        self.flow_lines += 1;
        let [xs, ys, xd, yd, period, burst] = numbers[..] else {
            let count = counted(numbers.len(), "number");
            self.fault(format!(
                "flow has {count} behind it; it takes six: flow XS YS XD YD P SIGMA"
            ));
            return;
        };
        let [sx, sy] = self.torus.unwrap_or([MOST_SIDE; 2]);
        let read = [
            coordinate(xs, "XS", "column", sx),
            coordinate(ys, "YS", "row", sy),
            coordinate(xd, "XD", "column", sx),
            coordinate(yd, "YD", "row", sy),
            number(period, "the period P", 1, MOST_PERIOD),
            number(burst, "the burst SIGMA", 1, MOST_BURST),
        ];
        let mut numbers = [0; 6];
        let mut good = true;
        for (number, read) in numbers.iter_mut().zip(read) {
            match read {
                Ok(read) => *number = read,
                Err(wrong) => {
                    self.fault(wrong);
                    good = false;
                }
            }
        }
        if good {
            let [xs, ys, xd, yd, period, burst] = numbers;
            self.flows.push((self.line, Flow { xs, ys, xd, yd, period, burst }));
        }
        if self.flow_lines == MOST_FLOWS + 1 {
            self.fault(format!(
                "this is flow line {}; a plan has 1 to {MOST_FLOWS} flows",
                MOST_FLOWS + 1
            ));
        }
    }

    /// What only the whole text tells.
    fn end(mut self) -> Result<Mode, Vec<Fault>> {
        if self.torus_line.is_none() {
            self.fault("there is no torus line; the torus is given as torus SX SY".to_string());
        }
        if self.flow_lines == 0 {
            self.fault(format!(
                "there is no flow; a plan has 1 to {MOST_FLOWS}, each as flow XS YS XD YD P SIGMA"
            ));
        }
        let flows = self.flow_lines.min(MOST_FLOWS);
        let room = MOST_PLAN_BYTES - TRAILER_BYTES - RECORD_BYTES * flows;
        if let Some(&(line, _)) = self.note_ends.iter().find(|(_, end)| *end > room) {
            let all = self.notes.len();
            let text = format!(
                "the notes outgrow a plan file here: they have {all} bytes, and beside {flows} flows there is room for {room}"
            );
            self.faults.push(Fault { line, text });
        }
        match self.torus {
            Some([sx, sy]) if self.faults.is_empty() => {
                let flows = self.flows.into_iter().map(|(_, flow)| flow).collect();
                Ok(Mode { sx, sy, flows, notes: self.notes })
            }
            _ => {
                self.faults.sort_by_key(|fault| fault.line);
                Err(self.faults)
            }
        }
    }
}

fn coordinate(field: &[u8], name: &str, axis: &str, size: u32) -> Result<u32, String> {
    number(field, &format!("{name}, a {axis},"), 0, size - 1)
        .map_err(|wrong| format!("{wrong} on a torus of {size} {axis}s"))
}

/// The text of a mode: `read` gives the mode back.
pub fn write(mode: &Mode) -> String {
    let mut text = format!("torus {} {}\n", mode.sx, mode.sy);
    for note in mode.notes.split_inclusive(|&byte| byte == b'\n') {
        match note.strip_suffix(b"\n") {
            Some([]) => text += "note\n",
            Some(note) => push_line(&mut text, &format!("note {}", escaped(note))),
            None => push_line(&mut text, &format!("note {}\\c", escaped(note))),
        }
    }
    for flow in &mode.flows {
        let Flow { xs, ys, xd, yd, period, burst } = flow;
        push_line(&mut text, &format!("flow {xs} {ys} {xd} {yd} {period} {burst}"));
    }
    text
}

fn push_line(text: &mut String, line: &str) {
    writeln!(text, "{line}").expect("a string takes what is written");
}
