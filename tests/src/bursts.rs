//! U9's promise, watched on the book's own lines in a run from reset. "All k have entered once B cycles are stepped" is
//! asked wherever k lines of a flow wait and it has k tokens, of the first k, whether or not its queue was empty.

use crate::book::Book;
use crate::promises::Limits;
use std::collections::BTreeMap;

/// The promises that are open.
#[derive(Default)]
pub struct Bursts {
    /// Of each waiting line that has one.
    open: BTreeMap<usize, Promise>,
}

/// That a line has entered before this clock.
#[derive(Clone, Copy, Debug)]
struct Promise {
    due: i64,
    /// It is U9's own: the line is the last of several offered before one step to an empty queue. And the flow has rivals.
    is_own: bool,
}

/// How many of these promises were kept.
#[derive(Clone, Copy, Debug, Default)]
pub struct Kept {
    pub own: u64,
    own_in_the_last_cycle: u64,
    other: u64,
}

impl Bursts {
    /// After each call: asks for what is due, and takes down what is promised from here on.
    pub fn watch(&mut self, book: &Book, limits: &Limits, kept: &mut Kept) {
        self.open.retain(|&line, promise| {
            let line = &book.lines[line];
            let by = line.entry.unwrap_or(book.clock);
            assert!(by < promise.due, "{line:?} {promise:?}, clock {}", book.clock);
            line.entry.inspect(|&entry| kept.count(*promise, entry)).is_none()
        });
        for (f, waiting) in book.waiting.iter().enumerate() {
            let with_token = waiting.iter().take(book.buckets[f].tokens as usize);
            let is_offered_now = |line: usize| book.lines[line].offer == book.clock;
            let is_burst = waiting.front().is_some_and(|&line| is_offered_now(line));
            for ((at, &line), window) in with_token.enumerate().zip(limits.windows(f)) {
                let has_rivals = *window > at as i64 + 1;
                let (due, is_own) = (book.clock + window, is_burst && at > 0 && has_rivals);
                let promise = self.open.entry(line).or_insert(Promise { due, is_own });
                promise.due = promise.due.min(due);
            }
        }
    }
}

impl Kept {
    fn count(&mut self, promise: Promise, entry: i64) {
        self.own += promise.is_own as u64;
        self.own_in_the_last_cycle += (promise.is_own && entry + 1 == promise.due) as u64;
        self.other += !promise.is_own as u64;
    }

    /// Each with what it is.
    pub fn counts(&self) -> [(&'static str, u64); 3] {
        [
            ("bursts among rivals, entered in time", self.own),
            ("as many in the last cycle promised", self.own_in_the_last_cycle),
            ("other packets with tokens, in time", self.other),
        ]
    }

    /// Each came up in the gate's lists.
    pub fn came_up(&self) {
        for (what, count) in self.counts() {
            assert!(count >= 20, "{what}: came up {count} times");
        }
    }
}
