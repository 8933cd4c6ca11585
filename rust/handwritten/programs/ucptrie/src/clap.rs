//! The command line: `clap` in the form of Rattle's crate. What is read lives as long as the program.

use crate::host::{HostRuntime, Stdout};
use crate::support::AllocError;
use core::marker::PhantomData;
use core::ops::RangeFrom;
use std::io::Write;

pub use ::clap::ArgAction;

/// Parsers of values.
pub mod builder {
    /// What the value of an argument has to be.
    #[derive(Clone, Copy)]
    pub enum ValueParser<'a> {
        /// Any text.
        String,
        /// One of these texts.
        Names(&'a [&'a str]),
        /// A number in this range, both bounds included.
        Signed(i64, i64),
    }
}

/// What kinds of errors there are.
pub mod error {
    /// Why words are not taken. An allocation that fails ends the program.
    #[allow(dead_code)]
    pub enum ErrorKind {
        OutOfMemory,
        Other,
    }
}

use builder::ValueParser;
use error::ErrorKind;

impl From<ValueParser<'static>> for ::clap::builder::ValueParser {
    fn from(parser: ValueParser<'static>) -> Self {
        match parser {
            ValueParser::String => ::clap::builder::ValueParser::string(),
            ValueParser::Names(names) => ::clap::builder::PossibleValuesParser::new(names).into(),
            ValueParser::Signed(first, last) => {
                let parser = ::clap::builder::RangedI64ValueParser::<u32>::new();
                parser.range(first..=last).into()
            }
        }
    }
}

/// An argument.
pub struct Arg<'a>(::clap::Arg, PhantomData<&'a ()>);

impl Arg<'_> {
    pub fn new(id: &'static str) -> Self {
        Arg(::clap::Arg::new(id), PhantomData)
    }

    fn with(self, change: impl FnOnce(::clap::Arg) -> ::clap::Arg) -> Self {
        Arg(change(self.0), PhantomData)
    }

    pub fn required(self, is_required: bool) -> Self {
        self.with(|it| it.required(is_required))
    }

    pub fn help(self, text: &'static str) -> Self {
        self.with(|it| it.help(text))
    }

    pub fn value_names(self, names: &'static [&'static str]) -> Self {
        self.with(|it| it.value_names(names))
    }

    pub fn value_parser(self, parser: ValueParser<'static>) -> Self {
        self.with(|it| it.value_parser(parser))
    }

    pub fn default_values(self, values: &'static [&'static str]) -> Self {
        self.with(|it| it.default_values(values))
    }

    pub fn long(self, name: &'static str) -> Self {
        self.with(|it| it.long(name))
    }

    pub fn short(self, letter: char) -> Self {
        self.with(|it| it.short(letter))
    }

    pub fn action(self, action: ArgAction) -> Self {
        self.with(|it| it.action(action))
    }

    pub fn num_args(self, range: RangeFrom<usize>) -> Self {
        self.with(|it| it.num_args(range))
    }
}

/// A command.
pub struct Command<'a>(::clap::Command, PhantomData<&'a ()>);

impl<'a> Command<'a> {
    pub fn new(name: &'static str) -> Self {
        Command(::clap::Command::new(name), PhantomData)
    }

    fn with(self, change: impl FnOnce(::clap::Command) -> ::clap::Command) -> Self {
        Command(change(self.0), PhantomData)
    }

    pub fn about(self, text: &'static str) -> Self {
        self.with(|it| it.about(text))
    }

    pub fn version(self, text: &'static str) -> Self {
        self.with(|it| it.version(text))
    }

    pub fn subcommand_required(self, is_required: bool) -> Self {
        self.with(|it| it.subcommand_required(is_required))
    }

    pub fn arg(self, arg: Arg<'a>) -> Result<Self, AllocError> {
        Ok(self.with(|it| it.arg(arg.0)))
    }

    pub fn subcommands(self, commands: Vec<Command<'a>>) -> Result<Self, AllocError> {
        Ok(self.with(|it| it.subcommands(commands.into_iter().map(|it| it.0))))
    }

    /// Returns what the words say, the name of the program first.
    pub fn try_get_matches_from(self, words: &[String]) -> Result<ArgMatches<'a>, Error> {
        let found = self.0.try_get_matches_from(words).map_err(Error)?;
        Ok(ArgMatches(Box::leak(Box::new(found))))
    }
}

/// Why words are not taken.
pub struct Error(::clap::Error);

impl Error {
    pub fn kind(&self) -> ErrorKind {
        ErrorKind::Other
    }

    /// Prints the text. Unlike clap, it reports that a closed standard output takes none.
    pub fn print(&self, _: &HostRuntime) -> std::io::Result<()> {
        if self.0.use_stderr() {
            return self.0.print();
        }
        Stdout.write_all(self.0.render().to_string().as_bytes())
    }

    pub fn exit_code(&self) -> i32 {
        if self.0.use_stderr() { 2 } else { 0 }
    }
}

/// What the words say. An argument that the command does not have is missing.
pub struct ArgMatches<'a>(&'a ::clap::ArgMatches);

impl<'a> ArgMatches<'a> {
    pub fn subcommand(&self) -> Option<(&'a str, &'a ArgMatches<'a>)> {
        let (name, found) = self.0.subcommand()?;
        Some((name, Box::leak(Box::new(ArgMatches(found)))))
    }

    pub fn get_str(&self, id: &str) -> Option<&'a str> {
        self.0.try_get_one::<String>(id).ok()?.map(String::as_str)
    }

    pub fn get_strs(&self, id: &str) -> Option<&'a [&'a str]> {
        let texts = self.0.try_get_many::<String>(id).ok()??.map(String::as_str);
        Some(Vec::leak(texts.collect()))
    }

    pub fn get_one(&self, id: &str) -> Option<u32> {
        self.0.try_get_one::<u32>(id).ok()?.copied()
    }
}
