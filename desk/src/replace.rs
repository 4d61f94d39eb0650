//! A file takes an old one's place whole or not at all.

use crate::ending::Ending;
use std::ffi::{OsStr, OsString};
use std::fs::{self, File, OpenOptions};
use std::io::{self, ErrorKind, Write};
use std::os::unix::fs::MetadataExt;
use std::path::{Path, PathBuf};

/// Is the file at this path the one that is open?
pub fn is_same_file(file: &File, path: &OsStr) -> bool {
    match (file.metadata(), fs::metadata(path)) {
        (Ok(one), Ok(other)) => {
            one.is_file() && (one.dev(), one.ino()) == (other.dev(), other.ino())
        }
        _ => false,
    }
}

/// Writes the bytes to a file beside the target, has `check` judge what that file then holds, and
/// only then gives it the target's name.
pub fn replace(
    target: &OsStr,
    bytes: &[u8],
    check: impl FnOnce(Vec<u8>) -> Result<(), Ending>,
) -> Result<(), Ending> {
    let name = target.to_string_lossy();
    let cant = |why: io::Error| match why.kind() {
        ErrorKind::NotFound => Ending::wrong(format!("there is no folder for '{name}'")),
        ErrorKind::PermissionDenied => Ending::wrong(format!("'{name}' may not be written")),
        _ => Ending::failed(format!("'{name}' can't be written: {why}")),
    };
    let old = fs::metadata(target).ok();
    match &old {
        Some(old) if old.is_dir() => {
            return Err(Ending::wrong(format!("'{name}' is a folder, not a file")));
        }
        Some(old) if old.permissions().readonly() => {
            return Err(Ending::wrong(format!("'{name}' is write-protected")));
        }
        // A device or a pipe is written to, not replaced.
        Some(old) if !old.is_file() => {
            check(bytes.to_vec())?;
            let file = OpenOptions::new().write(true).open(target);
            return file.and_then(|mut file| file.write_all(bytes)).map_err(cant);
        }
        _ => {}
    }
    // The file that a link leads to is replaced, not the link.
    let place = fs::canonicalize(target).unwrap_or_else(|_| PathBuf::from(target));
    let Some(temporary) = temporary(&place) else {
        return Err(Ending::wrong(format!("'{name}' is no name for a file")));
    };
    let written = write_new(&temporary, bytes, old.map(|old| old.permissions()));
    let result = written.map_err(cant).and_then(|written| {
        check(written)?;
        fs::rename(&temporary, &place).map_err(cant)
    });
    if result.is_err() {
        let _ = fs::remove_file(&temporary);
    }
    result
}

/// The name of a file that is being written: beside its place, and this process's own.
fn temporary(place: &Path) -> Option<PathBuf> {
    let mut name = OsString::from(".");
    name.push(place.file_name()?);
    name.push(format!(".{}", std::process::id()));
    Some(place.with_file_name(name))
}

/// Writes a new file, and reads back what it holds.
fn write_new(
    path: &Path,
    bytes: &[u8],
    permissions: Option<fs::Permissions>,
) -> io::Result<Vec<u8>> {
    let mut file = OpenOptions::new().write(true).create_new(true).open(path)?;
    file.write_all(bytes)?;
    if let Some(permissions) = permissions {
        file.set_permissions(permissions)?;
    }
    file.sync_all()?;
    fs::read(path)
}
