//! What the program answered to a call and what is expected of it, kept for planted programs that have the
//! same call.

use super::expected::Options;
use super::program::Output;
use std::collections::HashMap;
use std::hash::Hash;
use std::io::ErrorKind;
use std::sync::Mutex;

/// All that an answer depends on: the words, what the files have that they name, the standard input, and
/// how many lines are printed before an interrupt.
type Asked = (Vec<String>, Vec<Result<Vec<u8>, ErrorKind>>, Vec<u8>, Option<usize>);
/// A plan file, a stream's text and the options.
type Ran = (Vec<u8>, String, Options);

#[derive(Default)]
pub struct Kept {
    answers: Mutex<HashMap<Asked, Output>>,
    expected: Mutex<HashMap<Ran, String>>,
}

impl Kept {
    /// The answer to a call, which is made again where it leaves a file.
    pub fn answer(&self, asked: Asked, make: impl FnOnce() -> Output) -> Output {
        let may_leave = asked.0.first().is_some_and(|word| word == "plan");
        kept(&self.answers, asked, make, |output| !may_leave || output.status != 0)
    }

    /// What a run of this plan file, text and options is expected to print.
    pub fn expected(&self, ran: Ran, make: impl FnOnce() -> String) -> String {
        kept(&self.expected, ran, make, |_| true)
    }
}

fn kept<K: Eq + Hash, T: Clone>(
    all: &Mutex<HashMap<K, T>>,
    key: K,
    make: impl FnOnce() -> T,
    is_kept: impl FnOnce(&T) -> bool,
) -> T {
    if let Some(known) = all.lock().unwrap().get(&key) {
        return known.clone();
    }
    let made = make();
    if is_kept(&made) {
        all.lock().unwrap().insert(key, made.clone());
    }
    made
}
