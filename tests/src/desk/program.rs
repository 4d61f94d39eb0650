//! The program under test, and a folder for its files.
//!
//! A fault may be planted in how it is called: then the comparison must notice.

use super::kept::Kept;
use crate::compare::Tally;
use std::cell::Cell;
use std::io::{BufRead, BufReader, Read, Write};
use std::path::{Path, PathBuf};
use std::process::{self, Child, Command, Stdio};
use std::sync::Arc;
use std::sync::atomic::{AtomicU32, Ordering};
use std::{fs, thread};

pub struct Program {
    path: String,
    folder: PathBuf,
    caller: Caller,
    /// What is known of calls that other planted programs have had too.
    pub(super) kept: Option<Arc<Kept>>,
    /// How many lines a call prints before it is interrupted, if it is.
    interrupt: Cell<Option<usize>>,
}

/// A call with these words and this standard input.
pub struct Call<'a> {
    pub desk: &'a Program,
    pub words: &'a [&'a str],
    pub input: &'a [u8],
}

impl Call<'_> {
    /// What the program itself gives.
    pub fn answer(&self) -> Output {
        self.desk.answer(self.words, self.input)
    }

    /// What it gives for other words.
    pub fn with_words(&self, words: &[&str]) -> Output {
        self.desk.answer(words, self.input)
    }

    /// What it gives for another standard input.
    pub fn with_input(&self, input: &[u8]) -> Output {
        self.desk.answer(self.words, input)
    }

    pub fn has(&self, word: &str) -> bool {
        self.words.contains(&word)
    }
}

/// What a call gives, and leaves in the folder.
pub type Caller = Box<dyn Fn(&Call) -> Output + Send>;

/// What a call of the program printed, and its status (-1 if a signal ended it).
#[derive(Clone, Debug)]
pub struct Output {
    pub out: Vec<u8>,
    pub err: String,
    pub status: i32,
}

impl Program {
    pub fn new(path: &str) -> Program {
        Program::made(path, Box::new(|call| call.answer()), None)
    }

    /// The program as this caller makes it look.
    pub fn planted(path: &str, caller: Caller, kept: &Arc<Kept>) -> Program {
        Program::made(path, caller, Some(kept.clone()))
    }

    fn made(path: &str, caller: Caller, kept: Option<Arc<Kept>>) -> Program {
        static MADE: AtomicU32 = AtomicU32::new(0);
        let path = fs::canonicalize(path).unwrap_or_else(|why| panic!("{path}: {why}"));
        let path = path.into_os_string().into_string().unwrap();
        let number = MADE.fetch_add(1, Ordering::Relaxed);
        let folder = std::env::temp_dir().join(format!("desk.{}.{number}", process::id()));
        fs::create_dir(&folder).unwrap_or_else(|why| panic!("{}: {why}", folder.display()));
        Program { path, folder, caller, kept, interrupt: Cell::new(None) }
    }

    pub fn path(&self) -> &str {
        &self.path
    }

    /// A file of the folder.
    pub fn file(&self, name: &str) -> PathBuf {
        self.folder.join(name)
    }

    /// The folder's files, hidden ones too.
    pub fn files(&self) -> Vec<String> {
        let entries = fs::read_dir(&self.folder).unwrap();
        let name = |entry: fs::DirEntry| entry.file_name().into_string().unwrap();
        let mut names: Vec<_> = entries.map(|entry| name(entry.unwrap())).collect();
        names.sort();
        names
    }

    pub fn start(&self, words: &[&str]) -> Child {
        Command::new(&self.path)
            .args(words)
            .current_dir(&self.folder)
            .stdin(Stdio::piped())
            .stdout(Stdio::piped())
            .stderr(Stdio::piped())
            .spawn()
            .unwrap_or_else(|why| panic!("{} doesn't start: {why}", self.path))
    }

    /// Calls the program in its folder.
    pub fn call(&self, tally: &mut Tally, words: &[&str], input: &[u8]) -> Output {
        let output = (self.caller)(&Call { desk: self, words, input });
        *tally.answers.entry(("desk", output.status.unsigned_abs().into())).or_default() += 1;
        tally.words += output.out.len() as u64;
        output
    }

    /// Calls the program, and interrupts it once it has printed so many lines and awaits more input.
    pub fn interrupt(
        &self,
        tally: &mut Tally,
        words: &[&str],
        input: &[u8],
        lines: usize,
    ) -> Output {
        self.interrupt.set(Some(lines));
        let output = self.call(tally, words, input);
        self.interrupt.set(None);
        output
    }

    /// What the program itself gives.
    pub fn answer(&self, words: &[&str], input: &[u8]) -> Output {
        let make = || self.answer_now(words, input);
        match &self.kept {
            // A path leads out of the folder.
            Some(kept) if !words.iter().any(|word| word.contains('/')) => {
                let file = |word: &&str| fs::read(self.file(word)).map_err(|why| why.kind());
                let files = words.iter().map(file).collect();
                let words = words.iter().map(|word| word.to_string()).collect();
                kept.answer((words, files, input.to_vec(), self.interrupt.get()), make)
            }
            _ => make(),
        }
    }

    fn answer_now(&self, words: &[&str], input: &[u8]) -> Output {
        let child = self.start(words);
        let output = match self.interrupt.get() {
            None => to_its_end(child, input),
            Some(lines) => interrupted(child, input, lines),
        };
        let err = String::from_utf8(output.stderr).unwrap();
        Output { out: output.stdout, err, status: output.status.code().unwrap_or(-1) }
    }
}

fn to_its_end(mut child: Child, input: &[u8]) -> process::Output {
    let mut stdin = child.stdin.take().unwrap();
    thread::scope(|scope| {
        // A program that has seen enough may close its input early.
        scope.spawn(move || drop(stdin.write_all(input)));
        child.wait_with_output().unwrap()
    })
}

fn interrupted(mut child: Child, input: &[u8], lines: usize) -> process::Output {
    let mut stdin = child.stdin.take().unwrap();
    let mut stdout = BufReader::new(child.stdout.take().unwrap());
    let _ = stdin.write_all(input);
    let mut out = Vec::new();
    for _ in 0..lines {
        stdout.read_until(b'\n', &mut out).unwrap();
    }
    signal(&child, "INT");
    stdout.read_to_end(&mut out).unwrap();
    let output = child.wait_with_output().unwrap();
    drop(stdin);
    process::Output { stdout: out, ..output }
}

/// Sends a signal of this name.
pub fn signal(child: &Child, name: &str) {
    let kill = Command::new("kill").args(["-s", name, &child.id().to_string()]).status().unwrap();
    assert!(kill.success());
}

impl Drop for Program {
    fn drop(&mut self) {
        let _ = fs::remove_dir_all(&self.folder);
    }
}

/// Compares what was printed line by line.
pub fn same_lines(tally: &Tally, with: &dyn std::fmt::Debug, expected: &str, got: &[u8]) {
    let got = String::from_utf8_lossy(got);
    for (at, (expected, got)) in expected.lines().zip(got.lines()).enumerate() {
        assert_eq!(expected, got, "seed {}, line {}: {with:?}", tally.seed, at + 1);
    }
    assert_eq!(expected.len(), got.len(), "seed {}, the length: {with:?}", tally.seed);
}

pub fn write(path: &Path, bytes: &[u8]) {
    fs::write(path, bytes).unwrap_or_else(|why| panic!("{}: {why}", path.display()));
}
