//! Faults of the listing, as what it prints in place of the right text for a file.

use super::bounds::{past_the_last, window_slips};
use super::records;
use super::simulator::{Fault, Kind};
use second::plan::{MOST_BYTES, change_records};
use second::slips::rows::RowSlip;
use second::window::{flight_bound, listing, listing_by, window};

/// What a faulty listing prints for a file whose right listing is this text.
type Print = fn(&[u8], &str) -> String;

/// A listing that prints this for a file.
fn printing(name: &str, print: impl Fn(&[u8]) -> String + 'static) -> Fault {
    let (name, told) = (format!("listing: {name}"), vec![("listing", "text".to_string())]);
    Fault { name, told, kind: Kind::Listing(Box::new(print)), sees_all: false }
}

pub fn faults() -> Vec<Fault> {
    let mut faults = Vec::new();
    for &(name, print) in FAULTS {
        faults.push(printing(name, move |file| print(file, &listing(file))));
    }
    for &(name, misread) in records::FAULTS {
        faults.push(printing(name, move |file| listing(&change_records(file, misread))));
    }
    for slip in window_slips() {
        let rule = move |plan: &_, f| slip.window(plan, f);
        faults
            .push(printing(&format!("{slip:?}"), move |file| listing_by(file, rule, flight_bound)));
    }
    for slip in RowSlip::OF_FLIGHTS {
        let rule = move |plan: &_, f| slip.flight_bound(plan, f);
        let name = format!("{slip:?} in flights");
        faults.push(printing(&name, move |file| listing_by(file, window, rule)));
    }
    faults
}

const FAULTS: &[(&str, Print)] = &[
    ("a line too few", |_, text| match text.trim_end().rsplit_once('\n') {
        Some((lines, _)) => format!("{lines}\n"),
        None => text.into(),
    }),
    ("flows from 1", |_, text| {
        of_each_line(text, |fields| fields[0] = (number(&fields[0]) + 1).to_string())
    }),
    ("the other port", |_, text| {
        of_each_line(text, |fields| {
            fields[1] = if fields[1] == "E" { "S" } else { "E" }.into();
        })
    }),
    ("0 for no window", |_, text| text.replace('-', "0")),
    ("no flight bound without a window", |_, text| {
        of_each_line(text, |fields| {
            if fields[2] == "-" {
                fields[3] = "-".into();
            }
        })
    }),
    ("a flight bound of exit - entry", |_, text| {
        of_each_line(text, |fields| fields[3] = (number(&fields[3]) - 2).to_string())
    }),
    ("a wait one cycle short", |_, text| of_each_wait(text, |wait| (number(wait) - 1).to_string())),
    ("a wait of two bytes", |_, text| {
        of_each_wait(text, |wait| (number(wait) % 65_536).to_string())
    }),
    ("a wait's first six digits", |_, text| {
        of_each_wait(text, |wait| wait[..wait.len().min(6)].to_string())
    }),
    ("a wait's last six digits", |_, text| {
        of_each_wait(text, |wait| (number(wait) % 1_000_000).to_string())
    }),
    ("a search past the last window", |file, _| {
        listing_by(
            file,
            |plan, f| window(plan, f).or_else(|| past_the_last(plan, f, 1)),
            flight_bound,
        )
    }),
    ("two spaces between fields", |_, text| text.replace(' ', "  ")),
    ("no newline at the end", |_, text| text.trim_end().into()),
    ("a header before a refusal", |_, text| match is_refused(text) {
        true => format!("flow port window flight wait\n{text}"),
        false => text.into(),
    }),
    ("a refusal without its flow", |_, text| match is_refused(text) {
        true => format!("{} 0\n", text.rsplit_once(' ').unwrap().0),
        false => text.into(),
    }),
    ("only so many bytes read as a plan may have", |file, _| {
        listing(&file[..file.len().min(MOST_BYTES)])
    }),
];

fn is_refused(text: &str) -> bool {
    text.starts_with("refused")
}

fn number(field: &str) -> i64 {
    field.parse().unwrap()
}

/// Changes the wait of each flow that has one.
fn of_each_wait(text: &str, change: impl Fn(&str) -> String) -> String {
    of_each_line(text, |fields| {
        if fields[4] != "-" {
            fields[4] = change(&fields[4]);
        }
    })
}

/// Changes the five fields of each flow's line.
fn of_each_line(text: &str, change: impl Fn(&mut Vec<String>)) -> String {
    if is_refused(text) {
        return text.into();
    }
    let (header, lines) = text.split_once('\n').unwrap();
    let changed = |line: &str| {
        let mut fields: Vec<String> = line.split(' ').map(String::from).collect();
        change(&mut fields);
        fields.join(" ") + "\n"
    };
    format!("{header}\n{}", lines.lines().map(changed).collect::<String>())
}
