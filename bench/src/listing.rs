//! The whole listing: the program, and the same in plain Rust as a program of its own.

use crate::loads::{Load, SIZES, case};
use crate::plain::{flight, notes, numbers, window};
use crate::times::{PLAIN_AND_ARCHIVE, print_row};
use std::io::{Read, Write, stdin, stdout};
use std::process::{Command, Stdio};

/// The listing in plain Rust, from standard input to standard output.
pub fn plain() {
    let mut file = Vec::new();
    stdin().take(65_537).read_to_end(&mut file).unwrap();
    stdout().write_all(text(&file).as_bytes()).unwrap();
}

/// What the listing in plain Rust prints for this file.
pub fn text(file: &[u8]) -> String {
    use std::fmt::Write;
    let start = notes(file);
    let mut text = String::new();
    if start >> 32 != 0 {
        return format!("refused {} {}\n", start >> 32, start as u32);
    }
    text += "flow port window flight wait\n";
    let records = file[start as usize..file.len() - 12].as_chunks::<8>().0;
    for (f, record) in records.iter().enumerate() {
        let [xs, _, xd, _, period, _] = numbers(record);
        let port = if xs == xd { 'S' } else { 'E' };
        let flight = flight(file, f as u32);
        let line = match window(file, f as u32) {
            t @ 1..65_536 => writeln!(text, "{f} {port} {t} {flight} {}", period + t - 2),
            _ => writeln!(text, "{f} {port} - {flight} -"),
        };
        line.unwrap();
    }
    text
}

/// Starting the program, handing it a plan and reading what it prints.
pub fn time(program: &str) {
    let this = std::env::current_exe().unwrap();
    PLAIN_AND_ARCHIVE.print_header();
    for (size, flows) in SIZES {
        for load in [Load::Light, Load::Slow, Load::Climbing, Load::Saturated] {
            let case = case(size, flows, load);
            let plain = || run(Command::new(&this).arg("plain-listing"), &case.file);
            let proved = || run(&mut Command::new(program), &case.file);
            assert_eq!(plain(), proved(), "the listings differ");
            print_row(
                "listing",
                &case,
                PLAIN_AND_ARCHIVE.alternate(1, || drop(plain()), || drop(proved())),
            );
        }
    }
}

fn run(command: &mut Command, file: &[u8]) -> Vec<u8> {
    let mut child = command.stdin(Stdio::piped()).stdout(Stdio::piped()).spawn().unwrap();
    child.stdin.take().unwrap().write_all(file).unwrap();
    child.wait_with_output().unwrap().stdout
}
