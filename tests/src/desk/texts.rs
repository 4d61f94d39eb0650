//! Round trips: `plan` of `show` gives a plan file's bytes back.

use super::program::{Program, write};
use crate::compare::Tally;
use crate::plan::{MOST_BYTES, Plan};
use crate::random::{self, Random};
use std::fs;

pub fn round(program: &Program, tally: &mut Tally, random: &mut Random, sx: i64, sy: i64) {
    let flows = random::flow_count(random);
    let plan = random::plan(random, sx, sy, flows);
    let notes =
        if random.percent(50) { random::notes(random, &plan) } else { lines(random, &plan) };
    let file = plan.file(&notes);
    write(&program.file("random.plan"), &file);
    let shown = program.call(tally, &["show", "random.plan"], b"");
    assert_eq!((shown.status, shown.err.as_str()), (0, ""), "seed {}", tally.seed);
    let text = String::from_utf8(shown.out).expect("a text is UTF-8");
    assert_eq!(but_notes(&text), expected(&plan), "seed {}", tally.seed);
    let text = changed(random, text);
    let said = program.call(tally, &["plan", "-", "again.plan"], text.as_bytes());
    assert_eq!((said.status, said.err.as_str()), (0, ""), "seed {}", tally.seed);
    let (count, bytes) =
        (if flows == 1 { "1 flow" } else { &format!("{flows} flows") }, file.len());
    assert_eq!(
        String::from_utf8_lossy(&said.out),
        format!(
            "again.plan: {count} on {sx} by {sy}, {} bytes of notes, {bytes} bytes in all\n",
            notes.len()
        )
    );
    let again = fs::read(program.file("again.plan")).unwrap();
    assert!(again == file, "seed {}: {text}", tally.seed);
    let names = program.files();
    assert!(!names.iter().any(|name| name.starts_with('.')), "left behind: {names:?}");
}

/// Notes of text lines, with everything in them that has to be escaped.
fn lines(random: &mut Random, plan: &Plan) -> Vec<u8> {
    let pieces: [&[u8]; 22] = [
        b"head",
        b"head",
        b"\n",
        b"\n",
        b"\r",
        b"\r\n",
        b"\\",
        b"\\c",
        b"\\x41",
        b" ",
        b"  ",
        b"\t",
        b"\0",
        b"#",
        b"# note",
        b"\x7f",
        b"\xff",
        b"\xc3",
        b"HRTP",
        b"flow 0 0 0 0 1 1",
        "12°".as_bytes(),
        "\u{85}\u{2028}".as_bytes(),
    ];
    let mut notes = Vec::new();
    for _ in 0..random.index(30) {
        notes.extend(random.pick(&pieces));
    }
    notes.truncate(MOST_BYTES - plan.file(&[]).len());
    notes
}

fn but_notes(text: &str) -> String {
    let is_note = |line: &&str| line.starts_with("note");
    text.split_inclusive('\n').filter(|line| !is_note(line)).collect()
}

fn expected(plan: &Plan) -> String {
    let mut text = format!("torus {} {}\n", plan.sx, plan.sy);
    for flow in &plan.flows {
        let numbers = flow.numbers().map(|number| number.to_string()).join(" ");
        text += &format!("flow {numbers}\n");
    }
    text
}

/// The same text for the reader of plans: other ends of lines, blanks and comments.
fn changed(random: &mut Random, text: String) -> String {
    let newline = random.pick(&["\n", "\n", "\r\n"]);
    let mut changed = String::new();
    for line in text.lines() {
        if random.percent(5) {
            changed += random.pick(&["", "  ", "# a comment", "\t#", "#torus 1 1"]);
            changed += newline;
        }
        if line.starts_with("note") {
            changed += random.pick(&["", "", " "]);
            changed += line;
        } else {
            let blank = random.pick(&[" ", " ", "  ", "\t"]);
            changed += &line.replace(' ', blank);
            changed += random.pick(&["", "", "", " ", " # a comment"]);
        }
        changed += newline;
    }
    if random.percent(20) {
        changed += "# note HRTP";
    } else if random.percent(30) {
        changed.truncate(changed.len() - newline.len());
    }
    if random.percent(10) {
        changed.insert(0, '\u{feff}');
    }
    changed
}
