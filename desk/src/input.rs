//! Files that are read: by name, or `-` for standard input.

use crate::ending::{Ending, Stop};
use hrt::limits::MOST_PLAN_BYTES;
use hrt::Plan;
use std::ffi::{OsStr, OsString};
use std::fs::File;
use std::io::{stdin, ErrorKind, Read};
use std::os::fd::AsFd;

/// A file to read, and its name in messages.
pub struct Input {
    pub name: String,
    pub file: File,
}

pub fn is_standard(path: &OsStr) -> bool {
    path == "-"
}

pub fn open(path: &OsStr) -> Result<Input, Ending> {
    if is_standard(path) {
        let file = stdin().as_fd().try_clone_to_owned().map(File::from);
        let name = "standard input".to_string();
        return file.map(|file| Input { name, file }).map_err(|why| cant_read(path, &why));
    }
    let name = path.to_string_lossy().into_owned();
    let file = File::open(path).map_err(|why| cant_read(path, &why))?;
    if file.metadata().is_ok_and(|data| data.is_dir()) {
        return Err(Ending::wrong(format!("'{name}' is a folder, not a file")));
    }
    Ok(Input { name, file })
}

fn cant_read(path: &OsStr, why: &std::io::Error) -> Ending {
    let name = path.to_string_lossy();
    Ending::wrong(match why.kind() {
        ErrorKind::NotFound => format!("there is no file '{name}'"),
        ErrorKind::PermissionDenied => format!("'{name}' may not be read"),
        _ => format!("'{name}' can't be read: {why}"),
    })
}

/// The bytes of a file, or the first so many of them.
pub fn read_most(input: &mut Input, most: usize) -> Result<Vec<u8>, Ending> {
    let mut bytes = Vec::new();
    let read = (&mut input.file).take(most as u64).read_to_end(&mut bytes);
    read.map_err(|why| Ending::wrong(format!("'{}' can't be read: {why}", input.name)))?;
    Ok(bytes)
}

/// A plan file that the archive accepts.
pub fn read_plan(path: &OsString) -> Result<Plan, Ending> {
    let mut input = open(path)?;
    let bytes = read_most(&mut input, MOST_PLAN_BYTES + 1)?;
    Plan::read(bytes).map_err(|refusal| {
        let number = refusal.number;
        let text = format!("{}: {refusal}; ./hrt explain {number} says why", input.name);
        Ending::at(Stop::Failed, text)
    })
}
