//! A stream of offers: lines `CYCLE FLOW ..` and `CYCLE trial FLOW`, cycles never going back. One
//! buffer of it is kept.

use crate::bytes::{counted, decimal, fields, number, quoted};
use hrt::limits::LAST_CLOCK;
use std::io::{self, ErrorKind, Read};

/// What a line is, in messages: a cycle, and one flow or several, or one for the trial generator.
pub const LINE: &str = "CYCLE FLOW .. or CYCLE trial FLOW";
/// The word in front of the trial generator's flow.
const TRIAL: &[u8] = b"trial";
/// A line and its newline fit in a buffer.
const BUFFER: usize = 1 << 16;
const LONGEST_LINE: usize = BUFFER - 1;
/// The last cycle that has a step.
const LAST_CYCLE: u32 = LAST_CLOCK - 1;

/// What a line offers before the step of its cycle.
#[derive(Clone, Copy, Debug, PartialEq, Eq)]
pub struct Offer {
    pub cycle: u32,
    pub of: Of,
}

#[derive(Clone, Copy, Debug, PartialEq, Eq)]
pub enum Of {
    /// One packet of this flow.
    Flow(u32),
    /// One packet of this flow for the trial generator.
    Trial(u32),
    /// A packet of each of several flows, all or none. `Offers::set` has them until the next line is
    /// read.
    Set,
}

/// What a read finds next.
#[derive(Debug, PartialEq, Eq)]
pub enum Next {
    Offer(Offer),
    End,
    /// The next line isn't here yet: the input must be read on.
    Later,
    /// What is wrong with this line and what would be right.
    Fault(String),
}

/// The stream, by lines.
pub struct Offers<R> {
    name: String,
    input: R,
    buffer: Box<[u8]>,
    /// The bytes of the buffer that are still to be read.
    start: usize,
    end: usize,
    ended: bool,
    line: u64,
    cycle: u32,
    /// Room for the flows of a set.
    flows: Vec<u32>,
}

impl<R: Read> Offers<R> {
    pub fn of(name: String, input: R) -> Offers<R> {
        let buffer = vec![0; BUFFER].into_boxed_slice();
        let (start, end, ended) = (0, 0, false);
        Offers { name, input, buffer, start, end, ended, line: 0, cycle: 0, flows: Vec::new() }
    }

    /// The flows of the set that was read last, in the order of its line.
    pub fn set(&self) -> &[u32] {
        &self.flows
    }

    /// The next offer, as far as the input has been read.
    pub fn next(&mut self) -> Next {
        loop {
            let rest = &self.buffer[self.start..self.end];
            if let Some((offer, past)) = plain(rest) {
                self.line += 1;
                self.start += past;
                return self.in_order(offer);
            }
            let (length, past) = match rest.iter().position(|&byte| byte == b'\n') {
                Some(length) => (length, length + 1),
                None if !self.ended && rest.len() == BUFFER => {
                    self.line += 1;
                    let most = format!("a line is {LINE}, in at most {LONGEST_LINE} bytes");
                    return self.fault(&format!("the line is too long; {most}"));
                }
                None if !self.ended => return Next::Later,
                None if rest.is_empty() => return Next::End,
                None => (rest.len(), rest.len()),
            };
            let line = &rest[..length];
            let offer = offer(line.strip_suffix(b"\r").unwrap_or(line), &mut self.flows);
            self.line += 1;
            self.start += past;
            match offer {
                Ok(None) => {}
                Ok(Some(offer)) => return self.in_order(offer),
                Err(wrong) => return self.fault(&wrong),
            }
        }
    }

    /// The offer, unless its cycle goes back.
    #[inline]
    fn in_order(&mut self, offer: Offer) -> Next {
        if offer.cycle < self.cycle {
            let (now, last) = (offer.cycle, self.cycle);
            let wrong = format!("cycle {now} comes after cycle {last}; cycles never go back");
            return self.fault(&wrong);
        }
        self.cycle = offer.cycle;
        Next::Offer(offer)
    }

    fn fault(&self, wrong: &str) -> Next {
        Next::Fault(self.at_line(wrong))
    }

    /// What is wrong at the line that was read last.
    pub fn at_line(&self, wrong: &str) -> String {
        format!("{}:{}: {wrong}", self.name, self.line)
    }

    /// Reads on. An interrupt may come in between.
    pub fn read_on(&mut self) -> io::Result<()> {
        self.buffer.copy_within(self.start..self.end, 0);
        self.end -= self.start;
        self.start = 0;
        match self.input.read(&mut self.buffer[self.end..]) {
            Ok(0) => self.ended = true,
            Ok(length) => self.end += length,
            Err(why) if why.kind() == ErrorKind::Interrupted => {}
            Err(why) => return Err(why),
        }
        Ok(())
    }
}

/// The offer of a whole line in front that is two short numbers with one space between them, as most
/// are, and the line's length.
fn plain(bytes: &[u8]) -> Option<(Offer, usize)> {
    let (cycle, first) = short(bytes, b' ')?;
    let (flow, second) = short(&bytes[first..], b'\n')?;
    Some((Offer { cycle, of: Of::Flow(flow) }, first + second))
}

/// The number in front, of at most nine digits, if this byte ends it, and its length with that byte.
#[inline]
fn short(bytes: &[u8], end: u8) -> Option<(u32, usize)> {
    let mut number = 0u64;
    for (at, &byte) in bytes.iter().take(10).enumerate() {
        if byte == end {
            return (at > 0).then_some((number as u32, at + 1));
        }
        let digit = byte.wrapping_sub(b'0');
        if digit > 9 {
            return None;
        }
        number = 10 * number + u64::from(digit);
    }
    None
}

/// The offer of a line, or none of a blank one or a comment. The flows of a set are put in `flows`.
fn offer(line: &[u8], flows: &mut Vec<u32>) -> Result<Option<Offer>, String> {
    let mut fields = fields(line).peekable();
    let Some(cycle) = fields.next() else {
        return Ok(None);
    };
    if fields.peek().is_none() {
        let (line, right) = (quoted(line), "as 120 3, 120 3 4 4 or 120 trial 3");
        return Err(format!("what is '{line}'? a line is {LINE}, {right}"));
    }
    let cycle = number(cycle, "the cycle", 0, LAST_CYCLE)?;
    let of = match fields.next_if_eq(&TRIAL) {
        Some(_) => of_trial(fields)?,
        None => of_flows(fields, flows)?,
    };
    Ok(Some(Offer { cycle, of }))
}

/// One packet for the trial generator: the word takes one flow.
fn of_trial<'a>(mut fields: impl Iterator<Item = &'a [u8]> + Clone) -> Result<Of, String> {
    let count = fields.clone().count();
    match (fields.next(), count) {
        (Some(field), 1) => flow(field, || None).map(Of::Trial),
        _ => {
            let flows = counted(count, "flow");
            Err(format!("trial has {flows} behind it; it takes one: CYCLE trial FLOW"))
        }
    }
}

/// One packet, or a set, whose flows are put in `flows`.
fn of_flows<'a>(
    fields: impl Iterator<Item = &'a [u8]> + Clone,
    flows: &mut Vec<u32>,
) -> Result<Of, String> {
    flows.clear();
    for field in fields.clone() {
        let before = flows.len();
        let of_several = || (fields.clone().count() > 1).then_some(before);
        flows.push(flow(field, of_several)?);
    }
    Ok(match flows[..] {
        [flow] => Of::Flow(flow),
        _ => Of::Set,
    })
}

/// The flow of a field. A fault is told with how many flows are before it on a line of several.
#[inline]
fn flow(field: &[u8], before: impl Fn() -> Option<usize>) -> Result<u32, String> {
    match decimal(field).map(u32::try_from) {
        Some(Ok(flow)) => Ok(flow),
        faulty => Err(no_flow(field, before(), faulty.is_some())),
    }
}

/// Why a field, with so many flows before it on a line of several, is no flow.
fn no_flow(field: &[u8], before: Option<usize>, is_number: bool) -> String {
    let field = quoted(field);
    if is_number {
        return format!("{} is not in the plan", named(&field, before));
    }
    let flow = before.map_or("the flow".to_string(), place);
    format!("{flow} is '{field}', which is no whole number; a line is {LINE}")
}

/// A flow as a message names it: by its number, and by its place on a line of several.
pub fn named(flow: &str, before: Option<usize>) -> String {
    match before {
        None => format!("flow {flow}"),
        Some(before) => format!("flow {flow}, {},", place(before)),
    }
}

/// The flow that has so many before it on its line.
fn place(before: usize) -> String {
    let place = before + 1;
    let ending = match (place % 10, place % 100) {
        (_, 11..=13) => "th",
        (1, _) => "st",
        (2, _) => "nd",
        (3, _) => "rd",
        _ => "th",
    };
    format!("the line's {place}{ending} flow")
}

#[cfg(test)]
mod tests {
    use super::*;

    /// Gives a byte at a time, with interrupts in between.
    struct Slow<'a>(&'a [u8], bool);

    impl Read for Slow<'_> {
        fn read(&mut self, buffer: &mut [u8]) -> io::Result<usize> {
            self.1 = !self.1;
            if self.1 {
                return Err(ErrorKind::Interrupted.into());
            }
            self.0.take(1).read(buffer).inspect(|&length| self.0 = &self.0[length..])
        }
    }

    /// A line's offer, and the flows of its set.
    type Found = (Offer, Vec<u32>);

    fn one(cycle: u32, flow: u32) -> Found {
        (Offer { cycle, of: Of::Flow(flow) }, Vec::new())
    }

    fn trial(cycle: u32, flow: u32) -> Found {
        (Offer { cycle, of: Of::Trial(flow) }, Vec::new())
    }

    fn set(cycle: u32, flows: &[u32]) -> Found {
        (Offer { cycle, of: Of::Set }, flows.to_vec())
    }

    /// What each line offers, and how the stream ends.
    fn all(input: impl Read) -> (Vec<Found>, Next) {
        let mut offers = Offers::of("offers".to_string(), input);
        let mut found = Vec::new();
        loop {
            match offers.next() {
                Next::Later => offers.read_on().unwrap(),
                Next::Offer(offer @ Offer { of: Of::Set, .. }) => {
                    assert!(offers.set().len() > 1);
                    found.push((offer, offers.set().to_vec()));
                }
                Next::Offer(offer) => found.push((offer, Vec::new())),
                last => return (found, last),
            }
        }
    }

    #[test]
    fn a_stream_is_the_same_in_any_pieces() {
        for text in [
            "",
            "\n",
            "0 0",
            "0 0\r\n# x\n 1\t2 # y\n\n4294967294 007\n",
            "0 0\n1 1 1\n2 2",
            "0 5 6\r\n1 1\n3  2\t1 1 # 4\n3 1 1",
            "0 trial 5\r\n1 1\n3  trial\t1 # 4\n3 trial 007",
            "0 0\n1 1 x\n2 2",
            "0 0\n1 trial 1 1\n2 2",
            "9 0\n8 0\n",
        ] {
            assert_eq!(all(text.as_bytes()), all(Slow(text.as_bytes(), false)), "{text}");
        }
        let found = all("0 0\r\n# x\n 1\t2 # y\n\n4294967294 007\n".as_bytes());
        let offers = [one(0, 0), one(1, 2), one(4294967294, 7)];
        assert_eq!(found, (offers.to_vec(), Next::End));
    }

    #[test]
    fn a_line_may_have_several_flows() {
        let found = all("0 5 6\r\n1 1\n3  2\t1 1 # 4\n3 4294967295 007".as_bytes());
        let offers = [set(0, &[5, 6]), one(1, 1), set(3, &[2, 1, 1]), set(3, &[4294967295, 7])];
        assert_eq!(found, (offers.to_vec(), Next::End));
    }

    #[test]
    fn a_line_may_be_the_trial_generators() {
        let found = all("0 trial 5\r\n1 1\n3  trial\t1 # 4\n3 2 2\n3 trial 007".as_bytes());
        let offers = [trial(0, 5), one(1, 1), trial(3, 1), set(3, &[2, 2]), trial(3, 7)];
        assert_eq!(found, (offers.to_vec(), Next::End));
    }

    /// A faulty second line that has this behind its cycle.
    fn faulty(behind: &str, fault: &str) {
        let text = format!("3 1 2\n4 {behind}\n");
        let fault = Next::Fault(format!("offers:2: {fault}"));
        assert_eq!(all(text.as_bytes()), (vec![set(3, &[1, 2])], fault), "{behind}");
    }

    fn no_number(flow: &str) -> String {
        format!("{flow}, which is no whole number; a line is CYCLE FLOW .. or CYCLE trial FLOW")
    }

    #[test]
    fn a_faulty_flow_is_told_with_its_place() {
        let eleven = "9 ".repeat(10) + "x";
        for (flows, flow) in [
            ("x", "the flow is 'x'"),
            ("x # y", "the flow is 'x'"),
            ("x 0", "the line's 1st flow is 'x'"),
            ("0 -1 y", "the line's 2nd flow is '-1'"),
            ("0 1 2,3", "the line's 3rd flow is '2,3'"),
            (&eleven, "the line's 11th flow is 'x'"),
        ] {
            faulty(flows, &no_number(flow));
        }
        faulty("4294967296", "flow 4294967296 is not in the plan");
        faulty("0 4294967296", "flow 4294967296, the line's 2nd flow, is not in the plan");
    }

    #[test]
    fn a_faulty_trial_line_is_told() {
        let count = |flows| format!("trial has {flows} behind it; it takes one: CYCLE trial FLOW");
        for (behind, fault) in [
            ("trial", count("no flow")),
            ("trial # 0", count("no flow")),
            ("trial 0 1", count("2 flows")),
            ("trial trial 0", count("2 flows")),
            ("trial 0 x 1", count("3 flows")),
            ("trial x", no_number("the flow is 'x'")),
            ("trial trial", no_number("the flow is 'trial'")),
            ("trial0", no_number("the flow is 'trial0'")),
            ("Trial 0", no_number("the line's 1st flow is 'Trial'")),
            ("0 trial", no_number("the line's 2nd flow is 'trial'")),
            ("trial 4294967296", "flow 4294967296 is not in the plan".to_string()),
        ] {
            faulty(behind, &fault);
        }
    }

    #[test]
    fn places_are_counted_from_1() {
        let places = ["1st", "2nd", "3rd", "4th", "11th", "12th", "13th", "21st", "102nd", "111th"];
        for place in places {
            let count: usize = place.trim_end_matches(char::is_alphabetic).parse().unwrap();
            assert_eq!(super::place(count - 1), format!("the line's {place} flow"));
        }
    }

    #[test]
    fn no_line_is_kept_that_is_too_long() {
        let longest = "0".to_string() + &" 7".repeat((BUFFER - 2) / 2);
        assert_eq!(longest.len(), LONGEST_LINE);
        let text = "#".repeat(LONGEST_LINE) + "\n0 0\n" + &longest + "\n" + &longest + " \n";
        let (found, last) = all(text.as_bytes());
        assert_eq!(found, [one(0, 0), set(0, &[7; (BUFFER - 2) / 2])]);
        let line = "a line is CYCLE FLOW .. or CYCLE trial FLOW, in at most 65535 bytes";
        assert_eq!(last, Next::Fault(format!("offers:4: the line is too long; {line}")));
    }
}
