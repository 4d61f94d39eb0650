//! A fault of the desk, and how each kind is planted: the program's own answer to a call, with something
//! changed in what is printed or told, in the words, or in the offers and files that are read.

use second::desk::program::{Call, Caller, Output, write};
use second::plan::{Plan, read};
use std::fs;

pub struct Fault {
    pub name: String,
    /// What the difference must tell: columns that differ, or words.
    pub told: String,
    pub caller: Caller,
}

/// Any answer.
pub fn by_hand(name: &str, told: &str, caller: impl Fn(&Call) -> Output + Send + 'static) -> Fault {
    Fault { name: name.to_string(), told: told.to_string(), caller: Box::new(caller) }
}

/// The output changed.
pub fn output(name: &str, told: &str, change: impl Fn(&mut Output) + Send + 'static) -> Fault {
    by_hand(name, told, move |call| {
        let mut output = call.answer();
        change(&mut output);
        output
    })
}

/// Each exit's numbers changed.
pub fn exits(name: &str, told: &str, change: fn(&mut [i64])) -> Fault {
    by_hand(name, told, move |call| of_exits(call.answer(), change))
}

/// The cells of each flow's row changed.
pub fn rows(name: &str, told: &str, change: fn(&mut [String])) -> Fault {
    by_hand(name, told, move |call| of_rows(call.answer(), change))
}

/// Another status where something is told.
pub fn status(told: &str, where_told: &'static str, status: i32) -> Fault {
    output(&format!("status {status} at {where_told:?}"), told, move |output| {
        if output.err.contains(where_told) {
            output.status = status;
        }
    })
}

/// Something told as something else.
pub fn told_as(told: &str, pairs: &'static [[&str; 2]]) -> Fault {
    output(&format!("told as {pairs:?}"), told, move |output| {
        for [this, that] in pairs {
            output.err = output.err.replace(this, that);
        }
    })
}

/// A word of a run read as another, or passed over if that is empty.
pub fn word_as(told: &str, [this, that]: [&'static str; 2]) -> Fault {
    by_hand(&format!("the word {this:?} read as {that:?}"), told, move |call| {
        let mut words = call.words.to_vec();
        if words.first() == Some(&"run") {
            words.iter_mut().filter(|word| **word == this).for_each(|word| *word = that);
            words.retain(|word| *word != that || !that.is_empty());
        }
        call.with_words(&words)
    })
}

/// Another number of an option.
pub fn number(name: &str, told: &str, option: &'static str, change: fn(u64) -> u64) -> Fault {
    by_hand(name, told, move |call| with_number(call, option, change))
}

/// A run with an option that isn't asked for.
pub fn unasked(name: &str, told: &str, option: &'static str) -> Fault {
    let asked = option.split('=').next().unwrap();
    by_hand(name, told, move |call| match call.words {
        ["run", "run.plan", rest @ ..] if !rest.iter().any(|word| word.starts_with(asked)) => {
            call.with_words(&[call.words, &[option]].concat())
        }
        _ => call.answer(),
    })
}

/// The second of an option's two words passed over.
pub fn second_passed_over(option: &'static str, second: &'static str) -> Fault {
    let name = format!("the second of two {option} passed over");
    by_hand(&name, &format!("run takes {option} once"), move |call| {
        let is_twice = call.has(option) && call.has(second);
        let words = call.words.iter().filter(|word| !is_twice || **word != second);
        call.with_words(&words.copied().collect::<Vec<_>>())
    })
}

/// Something in the lines of a stream from standard input read as something else.
pub fn lines_as(told: &str, [this, that]: [&'static str; 2]) -> Fault {
    let name = format!("{this:?} in a line read as {that:?}");
    by_hand(&name, told, move |call| with_lines(call, |line| line.replace(this, that)))
}

/// Something in a file of offers read as something else, so that its fault isn't told.
pub fn offers_as(told: &str, pair: [&'static str; 2]) -> Fault {
    text_as(&format!("right: (2, \"offers:4: {told}"), "offers", pair)
}

/// Something in a text read as something else.
pub fn text_as(told: &str, name: &'static str, [this, that]: [&'static str; 2]) -> Fault {
    file(&format!("{this:?} read as {that:?}"), told, name, move |bytes| {
        String::from_utf8_lossy(bytes).replace(this, that).into_bytes()
    })
}

/// A file read as another.
pub fn file(
    name: &str,
    told: &str,
    file: &'static str,
    change: impl Fn(&[u8]) -> Vec<u8> + Send + 'static,
) -> Fault {
    by_hand(name, told, move |call| {
        let path = call.desk.file(file);
        match fs::read(&path) {
            Ok(bytes) if call.has(file) => {
                write(&path, &change(&bytes));
                let output = call.answer();
                write(&path, &bytes);
                output
            }
            _ => call.answer(),
        }
    })
}

pub fn value(cell: &str) -> i64 {
    cell.parse().unwrap()
}

/// Adds to a cell.
pub fn add(cell: &mut String, more: i64) {
    *cell = (value(cell) + more).to_string();
}

/// Changes the lines of what is printed, all at once. Other bytes than text stay as they are.
pub fn in_lines(output: &mut Output, change: impl FnOnce(&mut Vec<String>)) {
    if let Ok(text) = std::str::from_utf8(&output.out) {
        let mut lines = text.split_inclusive('\n').map(String::from).collect();
        change(&mut lines);
        output.out = lines.concat().into_bytes();
    }
}

/// Changes each line of what is printed.
pub fn of_lines(mut output: Output, change: impl Fn(&str) -> String) -> Output {
    in_lines(&mut output, |lines| {
        for line in lines {
            let end = line.trim_end_matches('\n').len();
            line.replace_range(..end, &change(&line[..end]));
        }
    });
    output
}

/// The eight numbers of an exit's line.
pub fn exit(line: &str) -> Option<Vec<i64>> {
    let numbers: Result<Vec<i64>, _> = line.trim_end().split(' ').map(str::parse).collect();
    numbers.ok().filter(|numbers| numbers.len() == 8)
}

pub fn of_exits(output: Output, change: impl Fn(&mut [i64])) -> Output {
    of_lines(output, |line| match exit(line) {
        Some(mut numbers) => {
            change(&mut numbers);
            numbers.iter().map(i64::to_string).collect::<Vec<_>>().join(" ")
        }
        None => line.to_string(),
    })
}

/// Changes the cells of each flow's row in the table; they end where they did. Those of recent flights are
/// empty where they aren't asked for, and stay so.
pub fn of_rows(output: Output, change: impl Fn(&mut [String])) -> Output {
    of_lines(output, |line| {
        let mut cells: Vec<String> = line.split_whitespace().map(String::from).collect();
        let is_row = [12, 15].contains(&cells.len());
        if !is_row || cells[..6].iter().any(|cell| cell.parse::<u64>().is_err()) {
            return line.to_string();
        }
        let mut rest = line;
        let width = |cell: &String| {
            let end = rest.find(cell.as_str()).unwrap() + cell.len();
            rest = &rest[end..];
            end
        };
        let widths: Vec<usize> = cells.iter().map(width).collect();
        cells.resize(15, String::new());
        change(&mut cells);
        cells.iter().zip(widths).map(|(cell, width)| format!("{cell:>width$}")).collect()
    })
}

pub fn with_number(call: &Call, option: &str, change: impl Fn(u64) -> u64) -> Output {
    let mut words = call.words.to_vec();
    let at = words.iter().position(|word| *word == option).map(|at| at + 1);
    let number = at.and_then(|at| words.get(at)?.parse().ok()).map(|was| change(was).to_string());
    if let (Some(at), Some(number)) = (at, &number) {
        words[at] = number;
    }
    call.with_words(&words)
}

pub fn with_lines(call: &Call, change: impl Fn(&str) -> String) -> Output {
    match (call.words, std::str::from_utf8(call.input)) {
        (["run", "run.plan", ..], Ok(text)) => {
            call.with_input(text.split_inclusive('\n').map(change).collect::<String>().as_bytes())
        }
        _ => call.answer(),
    }
}

/// The plan of a call, if it can be read.
pub fn plan_of(call: &Call) -> Option<Plan> {
    let file = fs::read(call.desk.file(call.words.get(1)?)).ok()?;
    read(&file).ok().map(|(plan, _)| plan)
}
