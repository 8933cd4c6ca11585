//! TOML: `toml` in the form of Rattle's crate.

pub use ::toml::Value;
pub use ::toml::value::Table;

/// Errors of reading.
pub mod de {
    use core::ops::Range;

    /// Why a text is not TOML. Its message lives as long as the program.
    #[derive(Clone, Copy, Debug, PartialEq, Eq)]
    pub struct Error {
        /// Where the line starts.
        pub(super) start: usize,
        pub(super) message: &'static str,
    }

    impl Error {
        /// Returns whether an allocation failed, which ends the program.
        pub fn is_memory(&self) -> bool {
            false
        }

        pub fn span(&self) -> Option<Range<usize>> {
            Some(self.start..self.start)
        }

        pub fn message(&self) -> &str {
            self.message
        }
    }
}

/// Returns the table of a text in TOML.
///
/// # Errors
/// Returns an error if the text is not TOML.
pub fn table_from_str(text: &str) -> Result<Table, de::Error> {
    ::toml::from_str(text).map_err(|error: ::toml::de::Error| toml_error(text, &error.to_string()))
}

/// Takes an error of `toml` apart, which names the line as `line N`: before 0.6 behind the message,
/// `MESSAGE at line N column M`, and later in a line in front of it.
fn toml_error(text: &str, shown: &str) -> de::Error {
    let digits = |rest: &str| {
        rest.chars()
            .take_while(char::is_ascii_digit)
            .collect::<String>()
    };
    let line = shown
        .split_once("line ")
        .and_then(|(_, rest)| digits(rest).parse().ok());
    let message = match shown.rsplit_once(" at line ") {
        Some((message, _)) if !shown.contains('\n') => message.to_string(),
        _ => shown
            .lines()
            .filter(|it| !it.contains('|'))
            .skip(1)
            .collect::<Vec<_>>()
            .join(", "),
    };
    let lines = text.split_inclusive('\n').take(line.unwrap_or(1) - 1);
    de::Error {
        start: lines.map(str::len).sum(),
        message: message.leak(),
    }
}
