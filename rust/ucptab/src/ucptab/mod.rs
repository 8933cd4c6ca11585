//! Prints the values of a code point trie that is built of the rows on standard input.

use crate::host::env;
use crate::host::io::{self, ErrorKind, Read, Write};
use crate::host::process::ExitCode;
use crate::host::*;
use crate::ledger::Brand;
use crate::ledger::Steps;
use crate::ledger::{Blank, Ledger};
use crate::support::prelude::*;
use crate::ucptab_table::error::{RowError, TableError};
use crate::ucptab_table::message::row_line_message;
use crate::ucptab_table::streams::{Failed, Sink, Source};
use crate::ucptab_table::text::write_fault;
use crate::ucptab_table::{run_words, write_usage};

/// The name of standard input in messages.
const INPUT: &str = "standard input";

/// A reader with a count of its failures, the last one, and the first line that is not a row.
struct Input<R: Read, L: Ledger> {
    reader: R,
    failures: Steps<L>,
    error: Option<io::Error>,
    /// The line's number, counted from 1, and its fault.
    fault: Option<(u64, RowError)>,
    line: Vec<u8>,
}

impl<R: Read, L: Ledger> Source for Input<R, L> {
    fn read(&mut self, buf: &mut [u8]) -> Result<usize, Failed> {
        match self.reader.read(buf) {
            Ok(n) => Ok(n),
            Err(error) => {
                self.failures.tick();
                self.error = Some(error);
                Err(Failed)
            }
        }
    }

    fn note_fault(&mut self, number: u64, line: &[u8], fault: RowError) {
        if self.line.try_extend_from_slice(line).is_ok() {
            self.fault = Some((number, fault));
        }
    }
}

/// A writer with a count of its failures, and the last one.
struct Output<W: Write, L: Ledger> {
    writer: W,
    failures: Steps<L>,
    error: Option<io::Error>,
}

impl<W: Write, L: Ledger> Sink for Output<W, L> {
    fn write(&mut self, buf: &[u8]) -> Result<(), Failed> {
        match self.writer.write_all(buf) {
            Ok(()) => Ok(()),
            Err(error) => {
                self.failures.tick();
                self.error = Some(error);
                Err(Failed)
            }
        }
    }
}

/// Prints why there are no arguments, and returns the status: the line of a failed allocation, or
/// the usage line if an argument is not valid text.
fn without_words<W: Sink>(writer: &mut W, why: ErrorKind) -> u8 {
    if why != ErrorKind::OutOfMemory {
        write_usage(writer);
        return 2;
    }
    let _ = write_fault(writer, TableError::Memory);
    1
}

/// Says on standard error that a stream failed, unless its reader has closed the pipe.
fn say(rt: &HostRuntime, stream: &str, failure: &Option<io::Error>) {
    match failure {
        Some(error) if error.kind() != ErrorKind::BrokenPipe => {
            let _ = writeln!(io::stderr(), "ucptab: {stream}: {error}");
        }
        _ => {}
    }
}

/// Says on standard error which line is not a row, what was expected of it, and a hint.
fn say_fault(rt: &HostRuntime, number: u64, fault: RowError, line: &[u8]) {
    if let Ok(message) = row_line_message(INPUT, number, fault, line) {
        let _ = writeln!(io::stderr(), "ucptab: {message}");
    }
}

/// Runs the program over standard input and output, and returns its status. Each stream has a
/// ledger for its failures.
fn status<L: Ledger, K: Ledger>(rt: &HostRuntime, reads: Blank, writes: Blank) -> u8 {
    let mut reader = Input {
        reader: rt.stdin(),
        failures: Steps::<L>::new(reads),
        error: None,
        fault: None,
        line: Vec::new(),
    };
    let mut writer = Output {
        writer: rt.stdout(),
        failures: Steps::<K>::new(writes),
        error: None,
    };
    let args = match env::args(rt) {
        Ok(args) => args,
        Err(error) => return without_words(&mut writer, error.kind()),
    };
    let Ok(words) = args.skip(1).collect() else {
        let _ = write_fault(&mut writer, TableError::Memory);
        return 1;
    };
    let words: Vec<String> = words;
    let status = run_words(&words, &mut reader, &mut writer);
    say(rt, INPUT, &reader.error);
    if let Some((number, fault)) = reader.fault {
        say_fault(rt, number, fault, &reader.line);
    }
    say(rt, "standard output", &writer.error);
    status
}

pub(crate) fn main(rt: HostRuntime) -> ExitCode {
    ExitCode::from(status::<Brand, Brand>(&rt, Blank::new(1), Blank::new(1)))
}
