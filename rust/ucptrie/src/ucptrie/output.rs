//! Where the bytes of a table go: to standard output, into a file, or nowhere if a file is compared
//! with them.
use crate::clap::ArgMatches;
use crate::host::fs::File;
use crate::host::io::Write;
use crate::host::*;
use crate::host::{fs, io};
use crate::support::AllocError;
use crate::support::prelude::*;
use crate::ucptrie_inputs::error::{Error, about, about_arguments, said};
use crate::ucptrie_inputs::streams::put;
use crate::ucptrie_tables::compare::{Difference, first_difference};

/// Where the bytes go.
#[derive(Clone, Copy)]
pub enum Target<'a> {
    /// To standard output.
    Output,
    /// Into the file of this name.
    File(&'a str),
    /// Nowhere: the file of this name is compared with them.
    Check(&'a str),
}

/// Returns where the arguments send the bytes.
pub fn target_of<'a>(matches: &ArgMatches<'a>) -> Result<Target<'a>, Error> {
    match (matches.get_str("output"), matches.get_str("check")) {
        (None | Some("-"), None) => Ok(Target::Output),
        (Some(path), None) => Ok(Target::File(path)),
        (None, Some(path)) => Ok(Target::Check(path)),
        (Some(_), Some(_)) => {
            let why = "either --output or --check, not both";
            Err(about_arguments("arguments", why))
        }
    }
}

/// How many names of temporary files are tried.
const NAMES: u32 = 1000;

/// Returns a name beside the file's.
fn beside(path: &str, number: u32) -> Result<String, AllocError> {
    let mut name = String::new();
    write!(name, "{path}.{number}.tmp")?;
    Ok(name)
}

/// Makes a file beside the one of this name, and returns its name.
fn made_beside(rt: &HostRuntime, path: &str) -> io::Result<(String, File)> {
    for number in 0..NAMES {
        let name = beside(path, number)?;
        match File::create_new(rt, name.as_str()) {
            Ok(file) => return Ok((name, file)),
            Err(error) if matches!(error.kind(), io::ErrorKind::AlreadyExists) => {}
            Err(error) => return Err(error),
        }
    }
    Err(io::Error::from(io::ErrorKind::AlreadyExists))
}

/// Writes a new file, gives it the permissions of the old one of this name, if there is one, and
/// puts it in that one's place. `name` is its name until then.
fn put_in_place(
    rt: &HostRuntime,
    mut file: File,
    name: &str,
    path: &str,
    bytes: &[u8],
) -> io::Result<()> {
    if let Ok(old) = fs::metadata(rt, path) {
        file.set_permissions(old.permissions())?;
    }
    file.write_all(bytes)?;
    fs::rename(rt, name, path)
}

/// Writes the file of this name, under another name until all is written.
fn replace(rt: &HostRuntime, path: &str, bytes: &[u8]) -> io::Result<()> {
    let (name, file) = made_beside(rt, path)?;
    let written = put_in_place(rt, file, name.as_str(), path, bytes);
    if written.is_err() {
        let _ = fs::remove_file(rt, name.as_str());
    }
    written
}

/// Writes the file of this name, or of the name that a symbolic link leads to. A device or a pipe
/// is written in place.
fn write_file(rt: &HostRuntime, path: &str, bytes: &[u8]) -> io::Result<()> {
    match fs::metadata(rt, path) {
        Ok(old) if old.is_file() => replace(rt, fs::canonicalize(rt, path)?.as_str(), bytes),
        Ok(_) => fs::write(rt, path, bytes),
        Err(_) => replace(rt, path, bytes),
    }
}

/// Returns the line about a file with other bytes. Binary bytes have no lines.
fn other_line(path: &str, place: Difference, is_binary: bool) -> Result<String, AllocError> {
    let mut line = String::new();
    write!(
        line,
        "{path}: is not what this command writes: the first difference is "
    )?;
    if is_binary {
        write!(line, "at offset {}", place.offset)?;
    } else {
        write!(line, "in line {}", place.line)?;
    }
    Ok(line)
}

/// Compares the file of this name with the bytes.
fn check(rt: &HostRuntime, path: &str, bytes: &[u8], is_binary: bool) -> Result<(), Error> {
    let found = match fs::read(rt, path) {
        Ok(found) => found,
        Err(error) => return Err(about(path, error)),
    };
    match first_difference(&found, bytes) {
        None => Ok(()),
        Some(place) => Err(said(other_line(path, place, is_binary))),
    }
}

/// Sends the bytes to their target.
pub fn deliver(
    rt: &HostRuntime,
    target: Target<'_>,
    bytes: &[u8],
    is_binary: bool,
) -> Result<(), Error> {
    match target {
        Target::Output => put(rt, bytes),
        Target::Check(path) => check(rt, path, bytes, is_binary),
        Target::File(path) => match write_file(rt, path, bytes) {
            Ok(()) => Ok(()),
            Err(error) => Err(about(path, error)),
        },
    }
}
