//! The second simulator as an engine with a fault, and what the comparison is to tell of it.

use second::calls::simulator;
use second::lent::{Call, Lent, Part};
use second::plan::refuse;

/// A fault.
pub struct Fault {
    pub name: String,
    /// The call and the part of what it leaves that are to be told, as the comparison names them.
    pub told: Vec<(&'static str, String)>,
    pub kind: Kind,
    /// It sees the other calls too, which it has as they should be.
    pub sees_all: bool,
}

/// What has the fault: a call of the engine or of the bounds, or the listing.
pub enum Kind {
    Call(Call, Box<dyn Fn(&mut Lent) -> u64>),
    Listing(Box<dyn Fn(&[u8]) -> String>),
}

/// A fault made by hand: its name, the part in which it shows, and a call with that fault in it.
pub type Slip = (&'static str, Part, fn(&mut Lent) -> u64);

/// The call with this fault, which shows in one of these parts.
pub fn in_call(
    call: Call,
    name: impl AsRef<str>,
    parts: &[Part],
    does: impl Fn(&mut Lent) -> u64 + 'static,
) -> Fault {
    let name = format!("{}: {}", call.name(), name.as_ref());
    let told = parts.iter().map(|part| (call.name(), part.name())).collect();
    Fault { name, told, kind: Kind::Call(call, Box::new(does)), sees_all: false }
}

/// The call with each of these faults.
pub fn slips(call: Call, slips: &'static [Slip]) -> impl Iterator<Item = Fault> {
    slips.iter().map(move |&(name, part, does)| in_call(call, name, &[part], does))
}

/// What a refused call returns, unless it is the window's.
pub fn refused(number: u64, place: usize) -> u64 {
    Call::Notes.returned(refuse(number, place))
}

/// One call with what is lent to it, for a fault to answer in its place or to change what it leaves.
pub trait OneCall {
    /// The call without a fault.
    fn right(&mut self) -> u64;

    /// What the call without a fault answers. What is lent stays.
    fn answer(&self) -> u64;

    /// The number that the call without a fault answers, or 0. What is lent stays.
    fn number(&self) -> u64;

    /// The call, but for this answer in place of a number, where this holds.
    fn but(&mut self, number: u64, answer: u64, holds: impl Fn(&Self) -> bool) -> u64;

    /// The call, and this change where it answers a number.
    fn then(&mut self, number: u64, change: impl FnOnce(&mut Self)) -> u64;
}

impl OneCall for Lent<'_> {
    fn right(&mut self) -> u64 {
        simulator(self)
    }

    fn answer(&self) -> u64 {
        simulator(&mut self.copied().lent())
    }

    fn number(&self) -> u64 {
        self.call.number(self.answer())
    }

    fn but(&mut self, number: u64, answer: u64, holds: impl Fn(&Self) -> bool) -> u64 {
        if self.number() == number && holds(self) { answer } else { self.right() }
    }

    fn then(&mut self, number: u64, change: impl FnOnce(&mut Self)) -> u64 {
        let answer = self.right();
        if self.call.number(answer) == number {
            change(self);
        }
        answer
    }
}
