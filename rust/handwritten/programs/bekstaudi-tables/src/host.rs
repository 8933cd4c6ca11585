//! What the programs use of Rattle's std that Rust's std has in another form: the runtime that is
//! passed around, words, files and streams, and texts whose growth may fail.
#![allow(dead_code)]

use crate::support::{AllocError, AllocFailed, BTreeMap};
use core::borrow::Borrow;
use core::fmt;

/// The runtime of a program.
pub struct HostRuntime;

impl HostRuntime {
    /// Returns the standard input.
    pub fn stdin(&self) -> Stdin {
        Stdin
    }

    /// Returns the standard output, which is not buffered.
    pub fn stdout(&self) -> Stdout {
        Stdout
    }

    /// Returns the standard error.
    pub fn stderr(&self) -> std::io::Stderr {
        std::io::stderr()
    }
}

/// Which standard streams were closed when the program started. Rust's std opens `/dev/null` in
/// their place before `main`, so the loader calls `look` before that.
#[cfg(target_os = "linux")]
mod closed {
    use std::io;
    use std::os::fd::AsFd;
    use std::sync::atomic::{AtomicBool, Ordering};

    static INPUT: AtomicBool = AtomicBool::new(false);
    static OUTPUT: AtomicBool = AtomicBool::new(false);

    /// What Linux returns for a closed stream: `EBADF`.
    const CLOSED: i32 = 9;

    fn is_closed(stream: impl AsFd) -> bool {
        let copy = stream.as_fd().try_clone_to_owned();
        copy.is_err_and(|it| it.raw_os_error() == Some(CLOSED))
    }

    extern "C" fn look() {
        INPUT.store(is_closed(io::stdin()), Ordering::Relaxed);
        OUTPUT.store(is_closed(io::stdout()), Ordering::Relaxed);
    }

    // The one use of unsafe code in the programs: the name of a section, which has to be right.
    #[allow(unsafe_code)]
    #[used]
    #[unsafe(link_section = ".init_array")]
    static LOOK: extern "C" fn() = look;

    fn expect_open(was_closed: &AtomicBool) -> io::Result<()> {
        match was_closed.load(Ordering::Relaxed) {
            true => Err(io::Error::from_raw_os_error(CLOSED)),
            false => Ok(()),
        }
    }

    /// Returns an error if the standard input was closed.
    pub fn expect_input() -> io::Result<()> {
        expect_open(&INPUT)
    }

    /// Returns an error if the standard output was closed.
    pub fn expect_output() -> io::Result<()> {
        expect_open(&OUTPUT)
    }
}

/// Elsewhere, a closed stream is what std makes of it.
#[cfg(not(target_os = "linux"))]
mod closed {
    pub fn expect_input() -> std::io::Result<()> {
        Ok(())
    }

    pub fn expect_output() -> std::io::Result<()> {
        Ok(())
    }
}

/// The standard input. A read fails if it was closed.
pub struct Stdin;

impl std::io::Read for Stdin {
    fn read(&mut self, bytes: &mut [u8]) -> std::io::Result<usize> {
        closed::expect_input()?;
        std::io::stdin().read(bytes)
    }
}

/// The standard output. Each write reports its own failure, and fails if it was closed.
pub struct Stdout;

#[cfg(unix)]
impl std::io::Write for Stdout {
    fn write(&mut self, bytes: &[u8]) -> std::io::Result<usize> {
        use std::os::fd::AsFd;
        closed::expect_output()?;
        // Not through std's own buffer, which would write again at the end what failed before.
        std::fs::File::from(std::io::stdout().as_fd().try_clone_to_owned()?).write(bytes)
    }

    fn flush(&mut self) -> std::io::Result<()> {
        Ok(())
    }
}

#[cfg(not(unix))]
impl std::io::Write for Stdout {
    fn write(&mut self, bytes: &[u8]) -> std::io::Result<usize> {
        let mut stdout = std::io::stdout().lock();
        stdout.write_all(bytes)?;
        stdout.flush()?;
        Ok(bytes.len())
    }

    fn flush(&mut self) -> std::io::Result<()> {
        Ok(())
    }
}

/// The words of the command line.
pub mod env {
    use super::{AllocError, HostRuntime};
    use std::io;

    /// Words of the command line.
    pub struct Args(std::vec::IntoIter<String>);

    impl Args {
        /// Returns the words after the first `count`.
        pub fn skip(mut self, count: usize) -> Args {
            for _ in 0..count {
                self.0.next();
            }
            self
        }

        /// Returns the words.
        pub fn collect(self) -> Result<Vec<String>, AllocError> {
            Ok(self.0.collect())
        }
    }

    /// Returns the words, the name of the program first.
    ///
    /// # Errors
    /// Returns an error of the kind `InvalidData` if a word is not UTF-8.
    pub fn args(_: &HostRuntime) -> io::Result<Args> {
        let words: Result<Vec<_>, _> = std::env::args_os().map(|it| it.into_string()).collect();
        match words {
            Ok(words) => Ok(Args(words.into_iter())),
            Err(_) => Err(io::Error::new(
                io::ErrorKind::InvalidData,
                "a word is not UTF-8",
            )),
        }
    }
}

/// Files.
pub mod fs {
    use super::HostRuntime;
    use std::io;

    /// An open file.
    pub struct File(std::fs::File);

    impl File {
        /// Makes a file, which must not exist yet, for writing.
        pub fn create_new(_: &HostRuntime, path: &str) -> io::Result<File> {
            std::fs::File::create_new(path).map(File)
        }

        /// Sets who may do what with the file.
        pub fn set_permissions(&self, permissions: std::fs::Permissions) -> io::Result<()> {
            self.0.set_permissions(permissions)
        }
    }

    impl io::Write for File {
        fn write(&mut self, bytes: &[u8]) -> io::Result<usize> {
            self.0.write(bytes)
        }

        fn flush(&mut self) -> io::Result<()> {
            self.0.flush()
        }
    }

    /// Returns the bytes of a file.
    pub fn read(_: &HostRuntime, path: &str) -> io::Result<Vec<u8>> {
        std::fs::read(path)
    }

    /// Writes a file.
    pub fn write(_: &HostRuntime, path: &str, bytes: &[u8]) -> io::Result<()> {
        std::fs::write(path, bytes)
    }

    /// Returns what a file is.
    pub fn metadata(_: &HostRuntime, path: &str) -> io::Result<std::fs::Metadata> {
        std::fs::metadata(path)
    }

    /// Returns the name of a file without symbolic links.
    ///
    /// # Errors
    /// Also returns an error if that name is not UTF-8.
    pub fn canonicalize(_: &HostRuntime, path: &str) -> io::Result<String> {
        let name = std::fs::canonicalize(path)?.into_os_string().into_string();
        name.map_err(|_| io::ErrorKind::InvalidFilename.into())
    }

    /// Gives a file another name, and takes that from the file that has it.
    pub fn rename(_: &HostRuntime, from: &str, to: &str) -> io::Result<()> {
        std::fs::rename(from, to)
    }

    /// Removes a file.
    pub fn remove_file(_: &HostRuntime, path: &str) -> io::Result<()> {
        std::fs::remove_file(path)
    }
}

/// The clock.
pub mod time {
    use super::HostRuntime;
    use std::io;
    use std::time::Duration;

    /// What the clock showed.
    #[derive(Clone, Copy)]
    pub struct Instant(std::time::Instant);

    impl Instant {
        /// Returns what the clock shows.
        pub fn now(_: &HostRuntime) -> io::Result<Instant> {
            Ok(Instant(std::time::Instant::now()))
        }

        /// Returns the time since then.
        pub fn elapsed(&self, _: &HostRuntime) -> io::Result<Duration> {
            Ok(self.0.elapsed())
        }
    }
}

#[allow(unused_imports)]
pub use std::{io, process};

/// What errors of Rattle's crates say of allocations.
pub trait IsMemory {
    /// Returns whether an allocation failed, which ends the program.
    fn is_memory(&self) -> bool {
        false
    }
}

impl<E: core::error::Error> IsMemory for E {}

/// Lists to which another one is appended, if allocation succeeds.
pub trait Lists {
    fn try_append(&mut self, other: &mut Self) -> Result<(), AllocError>;
}

impl<T> Lists for Vec<T> {
    fn try_append(&mut self, other: &mut Self) -> Result<(), AllocError> {
        self.try_reserve(other.len()).map_err(|_| AllocError)?;
        self.append(other);
        Ok(())
    }
}

impl From<AllocError> for io::Error {
    fn from(_: AllocError) -> io::Error {
        io::ErrorKind::OutOfMemory.into()
    }
}

impl From<AllocError> for bekstaudi::zerovec::MemoryError {
    fn from(_: AllocError) -> Self {
        bekstaudi::zerovec::MemoryError
    }
}

impl<T> From<AllocFailed<T>> for io::Error {
    fn from(_: AllocFailed<T>) -> io::Error {
        io::ErrorKind::OutOfMemory.into()
    }
}

/// A text to which `write!` appends, if allocation succeeds.
pub trait Text {
    fn write_fmt(&mut self, arguments: fmt::Arguments<'_>) -> Result<(), AllocError>;
}

impl Text for String {
    fn write_fmt(&mut self, arguments: fmt::Arguments<'_>) -> Result<(), AllocError> {
        fmt::write(&mut Growing(self), arguments).map_err(|_| AllocError)
    }
}

/// A text as Rust's formatter writes to it.
struct Growing<'a>(&'a mut String);

impl fmt::Write for Growing<'_> {
    fn write_str(&mut self, text: &str) -> fmt::Result {
        self.0.try_reserve(text.len()).map_err(|_| fmt::Error)?;
        self.0.push_str(text);
        Ok(())
    }
}

/// A set of keys.
pub struct BTreeSet<K>(BTreeMap<K, ()>);

impl<K: Ord> BTreeSet<K> {
    /// Returns the empty set.
    pub fn new() -> Self {
        BTreeSet(BTreeMap::new())
    }

    /// Adds a key.
    pub fn try_insert(&mut self, key: K) -> Result<(), AllocError> {
        self.0.try_insert(key, ()).map(|_| ())
    }

    /// Returns whether the set contains the key.
    pub fn contains<Q: Ord + ?Sized>(&self, key: &Q) -> bool
    where
        K: Borrow<Q>,
    {
        self.0.contains_key(key)
    }

    /// Returns the number of keys.
    pub fn len(&self) -> usize {
        self.0.len()
    }
}
