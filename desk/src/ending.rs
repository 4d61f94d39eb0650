//! How the program ends when something is wrong: what it says on standard error, and its status.

use std::process::ExitCode;

/// Why it stopped.
#[derive(Clone, Copy, Debug, PartialEq, Eq)]
pub enum Stop {
    /// A refused plan, or something outside failed, as a full disk.
    Failed,
    /// Wrong words, a missing or unreadable file, or a fault in a text or stream.
    Wrong,
    /// What is proved didn't hold.
    Broken,
    /// A signal of this number.
    Signal(u8),
}

impl Stop {
    fn status(self) -> u8 {
        match self {
            Stop::Failed => 1,
            Stop::Wrong => 2,
            Stop::Broken => 3,
            Stop::Signal(number) => 128 + number,
        }
    }
}

/// The end of a program that didn't do what it was asked.
#[derive(Debug, PartialEq, Eq)]
pub struct Ending {
    pub stop: Stop,
    pub messages: Vec<String>,
}

impl Ending {
    /// What is wrong at a place of a file that the message names.
    pub fn at(stop: Stop, message: String) -> Ending {
        Ending { stop, messages: vec![message] }
    }

    pub fn wrong(message: String) -> Ending {
        Ending::at(Stop::Wrong, format!("hrt: {message}"))
    }

    pub fn failed(message: String) -> Ending {
        Ending::at(Stop::Failed, format!("hrt: {message}"))
    }

    pub fn broken(message: String) -> Ending {
        Ending::at(Stop::Broken, format!("hrt: {message}"))
    }

    /// Says it, and gives the status.
    pub fn tell(&self) -> ExitCode {
        for message in &self.messages {
            eprintln!("{message}");
        }
        ExitCode::from(self.stop.status())
    }
}
