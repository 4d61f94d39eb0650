//! The words that the program is called with.

use crate::bytes::number;
use crate::ending::Ending;
use crate::run::Request;
use hrt::limits::{LAST_CLOCK, LEAST_RECENT, MOST_FLOWS, MOST_RECENT};
use std::ffi::OsString;
use std::os::unix::ffi::OsStrExt;

/// What is asked for.
pub enum Work {
    /// A text, and its plan file if that is named.
    Plan(OsString, Option<OsString>),
    Show(OsString),
    Bursts(OsString),
    Run(Request),
}

/// The words behind the first, apart.
#[derive(Default)]
struct Words {
    files: Vec<OsString>,
    cycles: Option<u32>,
    recent: Option<u32>,
    why: Option<u32>,
    summary: bool,
}

pub fn read(mut words: impl Iterator<Item = OsString>) -> Result<Work, Ending> {
    let word = words.next().unwrap_or_default();
    let word = match word.to_str() {
        Some(word @ ("plan" | "show" | "bursts" | "run")) => word,
        _ => return Err(Ending::wrong("./hrt --help says how to call it".to_string())),
    };
    let Words { files, cycles, recent, why, summary } = apart(word, words)?;
    let mut files = files.into_iter();
    let work = match (word, files.next(), files.next()) {
        ("plan", Some(text), plan) => Some(Work::Plan(text, plan)),
        ("show", Some(plan), None) => Some(Work::Show(plan)),
        ("bursts", Some(plan), None) => Some(Work::Bursts(plan)),
        ("run", Some(plan), offers) => {
            let offers = offers.unwrap_or_else(|| OsString::from("-"));
            Some(Work::Run(Request { plan, offers, cycles, recent, why, summary }))
        }
        _ => None,
    };
    match work {
        Some(work) if files.next().is_none() => Ok(work),
        _ => Err(wrong(word, "takes", takes(word))),
    }
}

/// The files that a word takes.
fn takes(word: &str) -> &str {
    match word {
        "plan" => "a text, and a plan file to write if it isn't the text's name with .plan",
        "show" | "bursts" => "one plan file",
        _ => "a plan file, and a file of offers if they don't come on standard input",
    }
}

fn wrong(word: &str, verb: &str, what: &str) -> Ending {
    Ending::wrong(format!("{word} {verb} {what}; ./hrt {word} --help says more"))
}

fn apart(word: &str, mut words: impl Iterator<Item = OsString>) -> Result<Words, Ending> {
    let mut apart = Words::default();
    while let Some(next) = words.next() {
        let bytes = next.as_bytes();
        if bytes == b"--" {
            apart.files.extend(words);
            break;
        }
        match (bytes, numbered(bytes)) {
            (b"--summary", _) if word == "run" => apart.summary = true,
            (_, Some((option, Some(value)))) if word == "run" => apart.number(option, value)?,
            (_, Some((option, None))) if word == "run" => {
                let Some(value) = words.next() else {
                    return Err(wrong(word, "takes", &format!("a number behind {option}")));
                };
                apart.number(option, value.as_bytes())?;
            }
            ([b'-', _, ..], _) => {
                let option = format!("option '{}'", next.to_string_lossy());
                return Err(wrong(word, "has no", &option));
            }
            _ => apart.files.push(next),
        }
    }
    Ok(apart)
}

/// An option that takes a number, and the number if it stands in the same word.
fn numbered(word: &[u8]) -> Option<(&'static str, Option<&[u8]>)> {
    ["--cycles", "--recent", "--why"].into_iter().find_map(|option| {
        match word.strip_prefix(option.as_bytes())? {
            [] => Some((option, None)),
            [b'=', value @ ..] => Some((option, Some(value))),
            _ => None,
        }
    })
}

impl Words {
    /// Takes the number of an option, which is given once.
    fn number(&mut self, option: &str, value: &[u8]) -> Result<(), Ending> {
        let (taken, least, most) = match option {
            "--cycles" => (&mut self.cycles, 0, LAST_CLOCK),
            "--recent" => (&mut self.recent, LEAST_RECENT, MOST_RECENT),
            _ => (&mut self.why, 0, MOST_FLOWS as u32 - 1),
        };
        if taken.is_some() {
            return Err(wrong("run", "takes", &format!("{option} once")));
        }
        let held = number(value, &format!("the number of {option}"), least, most);
        *taken = Some(held.map_err(Ending::wrong)?);
        Ok(())
    }
}
