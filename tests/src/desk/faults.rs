//! Each fault of a text and of a stream, one by one: what is told, the status, and that nothing is
//! written.

use super::expected::{Entry, Options, printed};
use super::program::{Program, same_lines, write};
use super::streams::{EXAMPLES, LINE, sample};
use super::{sets, trials};
use crate::compare::Tally;
use crate::plan::{Flow, Plan};
use std::fs;

/// A text, and the faults told: line and sentence.
type Case = (String, Vec<(usize, String)>);

fn case(text: &str, faults: &[(usize, &str)]) -> Case {
    let faults = faults.iter().map(|(line, fault)| (*line, fault.to_string())).collect();
    (text.to_string(), faults)
}

/// A text with one good flow and this line.
fn with(line: &str, fault: &str) -> Case {
    case(&format!("torus 4 3\nflow 0 0 1 1 10 1\n{line}\n"), &[(3, fault)])
}

const ESCAPES: &str = "a backslash is written \\\\, any byte \\x and two hexadecimal digits, and \\c at the line's end leaves out the newline";
const NO_FLOW: &str = "there is no flow; a plan has 1 to 256, each as flow XS YS XD YD P SIGMA";
const NO_TORUS: &str = "there is no torus line; the torus is given as torus SX SY";

fn number_faults() -> Vec<Case> {
    let on = |axis: &str, size: i64| {
        format!("it must be 0 to {} on a torus of {size} {axis}s", size - 1)
    };
    let mut cases = vec![
        with("flow 4 0 1 1 10 1", &format!("XS, a column, is 4; {}", on("column", 4))),
        with("flow 0 3 1 1 10 1", &format!("YS, a row, is 3; {}", on("row", 3))),
        with("flow 0 0 4 1 10 1", &format!("XD, a column, is 4; {}", on("column", 4))),
        with("flow 0 0 1 256 10 1", &format!("YD, a row, is 256; {}", on("row", 3))),
        with("flow 0 0 1 1 10 0", "the burst SIGMA is 0; it must be 1 to 255"),
        with("flow 0 0 1 1 10 300", "the burst SIGMA is 300; it must be 1 to 255"),
    ];
    for number in ["-1", "+1", "1.5", "0x10", "ten", "1,000", "10s", "\\n"] {
        let shown = number.replace('\\', "\\\\");
        cases.push(period(number, &format!("'{shown}', which is no whole number")));
    }
    // Both ends, and numbers whose low 24, 32, 64 or 128 bits are a period.
    for number in [
        "0",
        "16777216",
        "20000000",
        "4294967297",
        "18446744073709551617",
        "340282366920938463463374607431768211457",
    ] {
        cases.push(period(number, number));
    }
    cases
}

/// A text with a faulty period, which is told as this.
fn period(number: &str, told: &str) -> Case {
    with(
        &format!("flow 0 0 1 1 {number} 1"),
        &format!("the period P is {told}; it must be 1 to 16777215"),
    )
}

fn line_faults() -> Vec<Case> {
    let behind = "it takes six: flow XS YS XD YD P SIGMA";
    let second = "a second torus line; the torus is given once, and line 1 does";
    let start = "a line starts with torus, flow, note or #";
    let long = "x".repeat(50);
    vec![
        with("flow", &format!("flow has no number behind it; {behind}")),
        with("flow 1", &format!("flow has one number behind it; {behind}")),
        with("flow 0 0 1 1 10", &format!("flow has 5 numbers behind it; {behind}")),
        with("flow 0 0 1 1 10 1 1", &format!("flow has 7 numbers behind it; {behind}")),
        with("flow 0 0 1 1 # 10 1", &format!("flow has 4 numbers behind it; {behind}")),
        with("torus 4 3", second),
        with("Flow 0 0 1 1 10 1", &format!("what is 'Flow'? {start}")),
        with("noted", &format!("what is 'noted'? {start}")),
        with("0 0 1 1 10 1", &format!("what is '0'? {start}")),
        with(&long, &format!("what is '{}..'? {start}", &long[..40])),
        with("\u{1b}[2J", &format!("what is '\\x1b[2J'? {start}")),
        with("note a\\q", &format!("'\\q' is no escape; {ESCAPES}")),
        with("note C:\\new", &format!("'\\n' is no escape; {ESCAPES}")),
        with("note D:\\", &format!("'\\' is no escape; {ESCAPES}")),
        with("note \\x4", &format!("'\\x4' is no escape; {ESCAPES}")),
        with("note \\x4g.", &format!("'\\x4g' is no escape; {ESCAPES}")),
    ]
}

fn whole_faults() -> Vec<Case> {
    let plan = Plan { sx: 1, sy: 1, flows: vec![Flow::from_numbers([0, 0, 0, 0, 10, 1])] };
    let plan_file = String::from_utf8(plan.file(b"")).expect("small numbers are ASCII");
    let flow = "flow 0 0 0 0 10 1\n";
    let room = 65_536 - 12 - 8;
    let note = format!("note {}\n", "x".repeat(999));
    let outgrow = format!(
        "the notes outgrow a plan file here: they have 66000 bytes, and beside 1 flows there is room for {room}"
    );
    vec![
        case("", &[(1, NO_TORUS), (1, NO_FLOW)]),
        case("# nothing\n\n", &[(2, NO_TORUS), (2, NO_FLOW)]),
        case("torus 4 4", &[(1, NO_FLOW)]),
        case(flow, &[(1, NO_TORUS)]),
        case(
            &format!("{flow}torus 0 4"),
            &[(2, "SX, the count of columns, is 0; it must be 1 to 16")],
        ),
        case(
            &format!("{flow}torus 4 17"),
            &[(2, "SY, the count of rows, is 17; it must be 1 to 16")],
        ),
        case(
            &format!("{flow}torus 4"),
            &[(2, "torus has one number behind it; it takes two: torus SX SY")],
        ),
        case(
            &format!("{flow}torus 4 4 4"),
            &[(2, "torus has 3 numbers behind it; it takes two: torus SX SY")],
        ),
        case(
            &format!("torus 1 1\n{}", flow.repeat(300)),
            &[(258, "this is flow line 257; a plan has 1 to 256 flows")],
        ),
        case(&format!("torus 1 1\n{flow}{}", note.repeat(66)), &[(68, outgrow.as_str())]),
        case(
            "torus 4 4\nflow 9 9 1 1 10 1\nwhat\nflow 0 0 1 1 16777216 300",
            &[
                (2, "XS, a column, is 9; it must be 0 to 3 on a torus of 4 columns"),
                (2, "YS, a row, is 9; it must be 0 to 3 on a torus of 4 rows"),
                (3, "what is 'what'? a line starts with torus, flow, note or #"),
                (4, "the period P is 16777216; it must be 1 to 16777215"),
                (4, "the burst SIGMA is 300; it must be 1 to 255"),
            ],
        ),
        case(&plan_file, &[(1, "this is a plan file, not a text; ./hrt show prints its text")]),
    ]
}

/// Every fault is told with its place, the status is 2, and an old file stays as it was.
pub fn texts(program: &Program, tally: &mut Tally) {
    for (text, faults) in [number_faults(), line_faults(), whole_faults()].concat() {
        write(&program.file("mode.txt"), text.as_bytes());
        write(&program.file("mode.plan"), b"old");
        let got = program.call(tally, &["plan", "mode.txt"], b"");
        let told = faults.iter().map(|(line, fault)| format!("mode.txt:{line}: {fault}\n"));
        assert_eq!(got.err, told.collect::<String>(), "{text}");
        assert_eq!((got.status, &got.out[..]), (2, &b""[..]), "{text}");
        assert_eq!(fs::read(program.file("mode.plan")).unwrap(), b"old", "{text}");
        assert_eq!(program.files(), ["mode.plan", "mode.txt"], "{text}");
    }
}

/// Each faulty line ends the run with status 2, after the table so far.
pub fn streams(program: &Program, tally: &mut Tally) {
    let plan = sample();
    write(&program.file("mode.plan"), &plan.file(b""));
    let [first, second] =
        [(0, 0), (6, 1)].map(|(cycle, flow)| Entry::Offer { cycle, flows: vec![flow] });
    let expected = printed(&plan, &[first, second, Entry::Fault], Options::default());
    let last = "it must be 0 to 4294967294";
    let long = format!("the line is too long; {LINE}, in at most 65535 bytes");
    let what = |line: &str| format!("what is '{line}'? {LINE}, {EXAMPLES}");
    let no_cycle =
        |cycle: &str| format!("the cycle is '{cycle}', which is no whole number; {last}");
    let no_flow = |flow: &str| format!("{flow}, which is no whole number; {LINE}");
    let single = [
        ("7", what("7")),
        ("seven", what("seven")),
        ("trial", what("trial")),
        ("7 # 0", what("7 # 0")),
        ("x 0", no_cycle("x")),
        ("x 0 0", no_cycle("x")),
        ("x trial", no_cycle("x")),
        ("trial 7 0", no_cycle("trial")),
        ("-1 0", no_cycle("-1")),
        ("4294967295 0", format!("the cycle is 4294967295; {last}")),
        ("4294967295 0 1", format!("the cycle is 4294967295; {last}")),
        ("4294967295 trial 0", format!("the cycle is 4294967295; {last}")),
        ("99999999999999999999 0", format!("the cycle is 99999999999999999999; {last}")),
        ("7 -1", no_flow("the flow is '-1'")),
        ("7 0,1", no_flow("the flow is '0,1'")),
        ("7 -1 # 0", no_flow("the flow is '-1'")),
        ("7 0 1 x 0 # 1", no_flow("the line's 3rd flow is 'x'")),
        ("6 2", "flow 2 is not in the plan; its flows are 0 to 1 (refused 12 0)".to_string()),
        ("7 4294967296", "flow 4294967296 is not in the plan".to_string()),
        ("5 0", "cycle 5 comes after cycle 6; cycles never go back".to_string()),
        ("5 0 1", "cycle 5 comes after cycle 6; cycles never go back".to_string()),
        ("5 trial 0", "cycle 5 comes after cycle 6; cycles never go back".to_string()),
        (&"#".repeat(70_000), long.clone()),
        (&format!("7{}", " 0".repeat(32_768)), long.clone()),
        (&format!("7 trial 0{}", " ".repeat(65_527)), long),
    ];
    let single = single.map(|(line, fault)| (line.to_string(), fault));
    let cases = single.into_iter().chain(sets::faulty(6)).chain(trials::faulty(6, 2));
    for (line, fault) in cases {
        write(&program.file("offers"), format!("# two offers\n0 0\n6 1\n{line}\n6 0\n").as_bytes());
        let got = program.call(tally, &["run", "mode.plan", "offers"], b"");
        assert_eq!(
            (got.status, got.err.as_str()),
            (2, &format!("offers:4: {fault}\n")[..]),
            "{line}"
        );
        same_lines(tally, &line, &expected, &got.out);
    }
    for name in ["offers", "mode.plan"] {
        fs::remove_file(program.file(name)).unwrap();
    }
}
