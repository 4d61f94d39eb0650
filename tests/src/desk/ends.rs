//! How the program ends: wrong words, files that can't be read or written, an interrupt, a closed
//! pipe, and a stream that is far longer than the memory that it is given.

use super::program::{Output, Program, same_lines, signal, write};
use super::why::Why;
use crate::compare::Tally;
use crate::plan::{Flow, Plan};
use std::io::{BufWriter, Write};
use std::process::{Child, Command, Stdio};
use std::time::{Duration, Instant};
use std::{fs, thread};

const MODE: &[u8] = b"torus 4 4\nflow 1 0 2 0 10 1\nflow 0 0 3 0 10 1\n";
const BURSTS: &[u8] = b"flow packets window wait\n0 1 3 2\n1 1 1 0\n";

/// What calls tell.
pub fn calls(program: &Program, tally: &mut Tally) {
    write(&program.file("mode.txt"), MODE);
    assert_eq!(program.call(tally, &["plan", "mode.txt", "a mode.plan"], b"").status, 0);
    words(program, tally);
    files(program, tally);
    standard_streams(program, tally);
}

/// What only a running program shows.
pub fn processes(program: &Program) {
    closed_pipe(program);
    busy(program);
    long_stream(program);
}

/// One sentence, and the status.
pub fn sentence(got: Output, status: i32, text: &str) {
    assert_eq!((got.status, got.err), (status, format!("{text}\n")), "{text}");
    assert_eq!(got.out, b"", "{text}");
}

fn words(program: &Program, tally: &mut Tally) {
    let plan = "a text, and a plan file to write if it isn't the text's name with .plan";
    let run = "a plan file, and a file of offers if they don't come on standard input";
    let one = |word| format!("{word} takes one plan file; ./hrt {word} --help says more");
    let last = "it must be 1 to 16";
    let cases: [(&[&str], String); 26] = [
        (&[], "./hrt --help says how to call it".to_string()),
        (&["lists"], "./hrt --help says how to call it".to_string()),
        (&["plan"], format!("plan takes {plan}; ./hrt plan --help says more")),
        (&["plan", "a", "b", "c"], format!("plan takes {plan}; ./hrt plan --help says more")),
        (&["show"], one("show")),
        (&["show", "a", "b"], one("show")),
        (
            &["show", "--summary"],
            "show has no option '--summary'; ./hrt show --help says more".to_string(),
        ),
        (&["bursts"], one("bursts")),
        (&["bursts", "a", "b"], one("bursts")),
        (
            &["bursts", "a", "--recent", "4"],
            "bursts has no option '--recent'; ./hrt bursts --help says more".to_string(),
        ),
        (&["run"], format!("run takes {run}; ./hrt run --help says more")),
        (&["run", "a", "b", "c"], format!("run takes {run}; ./hrt run --help says more")),
        (
            &["run", "--cycle", "3"],
            "run has no option '--cycle'; ./hrt run --help says more".to_string(),
        ),
        (
            &["run", "a", "--cycles"],
            "run takes a number behind --cycles; ./hrt run --help says more".to_string(),
        ),
        (
            &["run", "a", "--cycles", "4294967296"],
            "the number of --cycles is 4294967296; it must be 0 to 4294967295".to_string(),
        ),
        (
            &["run", "a", "--cycles=x"],
            "the number of --cycles is 'x', which is no whole number; it must be 0 to 4294967295"
                .to_string(),
        ),
        (
            &["run", "a", "--recent"],
            "run takes a number behind --recent; ./hrt run --help says more".to_string(),
        ),
        (&["run", "a", "--recent", "0"], format!("the number of --recent is 0; {last}")),
        (&["run", "a", "--recent", "17"], format!("the number of --recent is 17; {last}")),
        (
            &["run", "a", "--recent=4294967297"],
            format!("the number of --recent is 4294967297; {last}"),
        ),
        (
            &["run", "a", "--recent", "four"],
            format!("the number of --recent is 'four', which is no whole number; {last}"),
        ),
        (
            &["run", "a", "--recent="],
            format!("the number of --recent is '', which is no whole number; {last}"),
        ),
        (
            &["run", "a", "--cycles=5", "--cycles", "50"],
            "run takes --cycles once; ./hrt run --help says more".to_string(),
        ),
        (
            &["run", "a", "--recent", "4", "--recent=4"],
            "run takes --recent once; ./hrt run --help says more".to_string(),
        ),
        (
            &["plan", "a", "--recent", "4"],
            "plan has no option '--recent'; ./hrt plan --help says more".to_string(),
        ),
        (
            &["run", "-"],
            "plan and offers can't both come from standard input; name a file for one of them"
                .to_string(),
        ),
    ];
    for (words, text) in cases {
        sentence(program.call(tally, words, b""), 2, &format!("hrt: {text}"));
    }
}

fn files(program: &Program, tally: &mut Tally) {
    fs::create_dir(program.file("folder")).unwrap();
    write(&program.file("no.plan"), b"torus 4 4\n\n\n");
    let cases: [(&[&str], i32, &str); 12] = [
        (&["show", "nothing"], 2, "hrt: there is no file 'nothing'"),
        (&["show", "folder"], 2, "hrt: 'folder' is a folder, not a file"),
        (&["show", "no.plan"], 1, "no.plan: refused 2 0; ./hrt explain 2 says why"),
        (&["bursts", "nothing"], 2, "hrt: there is no file 'nothing'"),
        (&["bursts", "folder"], 2, "hrt: 'folder' is a folder, not a file"),
        (&["bursts", "no.plan"], 1, "no.plan: refused 2 0; ./hrt explain 2 says why"),
        (&["run", "no.plan"], 1, "no.plan: refused 2 0; ./hrt explain 2 says why"),
        (&["run", "a mode.plan", "nothing"], 2, "hrt: there is no file 'nothing'"),
        (&["plan", "nothing"], 2, "hrt: there is no file 'nothing'"),
        (&["plan", "mode.txt", "folder"], 2, "hrt: 'folder' is a folder, not a file"),
        (&["plan", "mode.txt", "no/where"], 2, "hrt: there is no folder for 'no/where'"),
        (
            &["plan", "mode.txt", "./mode.txt"],
            2,
            "hrt: './mode.txt' is the text itself; name another file for the plan",
        ),
    ];
    for (words, status, text) in cases {
        sentence(program.call(tally, words, b""), status, text);
    }
    let named = "hrt: a text that is no file needs a name for its plan: ./hrt plan TEXT PLAN";
    sentence(program.call(tally, &["plan", "-"], MODE), 2, named);
    assert_eq!(program.files(), ["a mode.plan", "folder", "mode.txt", "no.plan"]);
    fs::remove_dir(program.file("folder")).unwrap();
    fs::remove_file(program.file("no.plan")).unwrap();
}

/// `-` and /dev/stdin, on either side of a pipe; a file behind a link is replaced, not the link.
fn standard_streams(program: &Program, tally: &mut Tally) {
    let plan = fs::read(program.file("a mode.plan")).unwrap();
    for name in ["-", "/dev/stdin"] {
        assert_eq!(program.call(tally, &["show", name], &plan).out, MODE);
        assert_eq!(program.call(tally, &["bursts", name], &plan).out, BURSTS);
        assert_eq!(program.call(tally, &["plan", name, "-"], MODE).out, plan);
        assert_eq!(
            program.call(tally, &["plan", name, "/dev/stdout"], MODE).out[..plan.len()],
            plan
        );
        let run = program.call(tally, &["run", "a mode.plan", name, "--summary"], b"0 0");
        assert!(run.out.ends_with(b"ended at cycle 2: everything has left\n"), "{run:?}");
        let run = program.call(tally, &["run", "--summary", "--", name, "mode.txt"], &plan);
        let cycle = "the cycle is 'torus', which is no whole number; it must be 0 to 4294967294";
        assert_eq!(run.err, format!("mode.txt:1: {cycle}\n"));
    }
    write(&program.file("old.plan"), b"old");
    std::os::unix::fs::symlink("old.plan", program.file("link")).unwrap();
    assert_eq!(program.call(tally, &["plan", "mode.txt", "link"], b"").status, 0);
    assert_eq!(fs::read(program.file("old.plan")).unwrap(), plan);
    assert!(fs::symlink_metadata(program.file("link")).unwrap().is_symlink());
    fs::remove_file(program.file("link")).unwrap();
    fs::remove_file(program.file("old.plan")).unwrap();
}

/// An interrupt while more offers are awaited: the table so far, and the reasons so far if they are asked
/// for.
pub fn interrupted(program: &Program, tally: &mut Tally) {
    let tables = "exit flow serial offer entry wait deflections flight
1 0 1 0 0 0 0 3
7 1 1 4 4 0 0 5

flow  offered  refused  left  waiting  flying  wait  wait-bound  spare  nearest  flight  flight-bound
   0        2        0     1        1       0     0          11     11       11       3             3
   1        1        0     1        0       0     0           9      9        9       5             5
";
    let reasons = Why { flow: 0, cycles: [1, 8, 0, 0, 0, 0] }.table();
    for (words, reasons) in [(&[][..], ""), (&["--why", "0"], &reasons)] {
        let words = [&["run", "a mode.plan"], words].concat();
        let got = program.interrupt(tally, &words, b"0 0\n4 1\n9 0\n", 2);
        let expected = format!("{tables}{reasons}ended at cycle 9: interrupted\n");
        same_lines(tally, &words, &expected, &got.out);
        assert_eq!((got.status, got.err.as_str()), (130, ""));
    }
}

/// Nobody reads on: it ends without a word.
fn closed_pipe(program: &Program) {
    let mut child = program.start(&["run", "a mode.plan"]);
    let mut stdin = child.stdin.take().unwrap();
    drop(child.stdout.take());
    for cycle in 0..1_000_000 {
        if writeln!(stdin, "{} 0", 10 * cycle).is_err() {
            break;
        }
    }
    drop(stdin);
    ends_quietly(child);
    let mut child = program.start(&["bursts", "-"]);
    drop(child.stdout.take());
    let plan = fs::read(program.file("a mode.plan")).unwrap();
    child.stdin.take().unwrap().write_all(&plan).unwrap();
    ends_quietly(child);
}

fn ends_quietly(child: Child) {
    let output = child.wait_with_output().unwrap();
    assert_eq!((output.stderr, output.status.code()), (Vec::new(), None));
}

/// A signal while all flows of the largest torus wait and their packets keep it busy for long: it answers
/// within a second.
fn busy(program: &Program) {
    let flow = |at: i64| {
        let (x, y) = (at % 16, at / 16);
        Flow::from_numbers([x, y, (x + 7) % 16, (y + 9) % 16, 6_000 + 37 * at, 1])
    };
    let plan = Plan { sx: 16, sy: 16, flows: (0..256).map(flow).collect() };
    write(&program.file("run.plan"), &plan.file(b""));
    let flows: String = (0..256).map(|flow| format!(" {flow}")).collect();
    let line = format!("0{}\n", flows.repeat(60));
    for (name, status) in [("INT", 130), ("TERM", 143)] {
        let mut child = program.start(&["run", "run.plan", "--summary"]);
        let mut stdin = child.stdin.take().unwrap();
        stdin.write_all(line.repeat(100).as_bytes()).unwrap();
        drop(stdin);
        thread::sleep(Duration::from_millis(300));
        signal(&child, name);
        let sent = Instant::now();
        let output = child.wait_with_output().unwrap();
        assert!(sent.elapsed() < Duration::from_secs(1), "{name}: {:?}", sent.elapsed());
        assert!(output.stdout.ends_with(b": interrupted\n"), "{name}: {output:?}");
        assert_eq!((output.status.code(), output.stderr), (Some(status), Vec::new()));
    }
}

/// Offers that would take more memory than there is if they were kept, as lines or as packets.
fn long_stream(program: &Program) {
    const OFFERS: u64 = 6_000_000;
    const KILOBYTES: u64 = 24_000;
    const { assert!(8 * OFFERS > 1000 * KILOBYTES) };
    write(&program.file("small.txt"), b"torus 1 1\nflow 0 0 0 0 1 1\n");
    let plan = program.start(&["plan", "small.txt"]).wait_with_output().unwrap();
    assert!(plan.status.success());
    let limited = format!("ulimit -v {KILOBYTES}; exec \"$@\"");
    let mut child = Command::new("sh")
        .args(["-c", &limited, "sh", program.path(), "run", "small.plan", "--summary"])
        .current_dir(program.file("."))
        .stdin(Stdio::piped())
        .stdout(Stdio::piped())
        .spawn()
        .unwrap();
    let mut stdin = BufWriter::new(child.stdin.take().unwrap());
    for cycle in 0..OFFERS {
        writeln!(stdin, "{cycle} 0").unwrap();
    }
    drop(stdin);
    let output = child.wait_with_output().unwrap();
    let text = String::from_utf8(output.stdout).unwrap();
    assert!(
        text.contains(&format!("   0  {OFFERS}        0  {OFFERS}        0       0 ")),
        "{text}"
    );
    assert!(output.status.success());
    for name in ["small.txt", "small.plan"] {
        fs::remove_file(program.file(name)).unwrap();
    }
}
