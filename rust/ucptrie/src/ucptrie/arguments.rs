//! The arguments of the program.
use crate::clap::builder::ValueParser;
use crate::clap::{Arg, ArgAction, Command};
use crate::host::*;
use crate::support::AllocError;
use crate::support::prelude::*;

/// The program's version, which is that of the file VERSION.
const VERSION: &str = "0.2.0";

/// How an argument is given.
#[derive(Clone, Copy)]
pub enum Place {
    /// `--id VALUE`, anywhere.
    Option,
    /// The same, as often as needed.
    Options,
    /// `--id VALUE`, or this letter after one `-`.
    Short(char),
    /// One word, by its position.
    Word,
    /// This word and all that follow.
    Words,
}

/// One argument of a command.
#[derive(Clone, Copy)]
pub struct Argument {
    pub id: &'static str,
    place: Place,
    required: bool,
    /// What help calls the value. If it is empty, help shows the id.
    value_name: &'static [&'static str],
    /// Which values are accepted.
    pub values: ValueParser<'static>,
    /// The value if the argument is left out, if there is one.
    pub default: &'static [&'static str],
    help: &'static str,
}

/// An option that accepts any value and may be left out.
const OPTION: Argument = Argument {
    id: "",
    place: Place::Option,
    required: false,
    value_name: &[],
    values: ValueParser::String,
    default: &[],
    help: "",
};

/// An option with a value of 32 bits, which is tested as `value_parser!(u32)` does.
const NUMBER: Argument = Argument {
    value_name: &["N"],
    values: ValueParser::Signed(0, 0xffffffff),
    ..OPTION
};

/// The name of a file.
const FILE: Argument = Argument {
    id: "file",
    place: Place::Word,
    required: true,
    value_name: &["FILE"],
    help: "A table in ICU's binary form, in JSON or in TOML; - for standard input",
    ..OPTION
};

/// What the input is.
const FORMAT: Argument = Argument {
    id: "format",
    help: "What FILE is; if left out, its start decides",
    ..OPTION
};

/// The property of a TOML file.
const PROPERTY: Argument = Argument {
    id: "property",
    value_name: &["NAME"],
    help: "The property in TOML: its key, long_name or short_name",
    ..OPTION
};

/// The field of a file with several in each line.
const FIELD: Argument = Argument {
    id: "field",
    help: "The field with the value, counted from 0",
    ..NUMBER
};

/// The files with the names of values and of properties.
const ALIASES: Argument = Argument {
    id: "aliases",
    place: Place::Options,
    value_name: &["FILE"],
    help: "PropertyValueAliases.txt: names of values; PropertyAliases.txt: names of properties",
    ..OPTION
};

/// Where a trie starts in a file.
const OFFSET: Argument = Argument {
    id: "offset",
    help: "The byte at which a trie starts, in a file with several",
    ..NUMBER
};

/// The form in which a table is written.
const FORM: Argument = Argument {
    id: "as",
    values: ValueParser::Names(&[
        "icu",
        "toml",
        "json",
        "c",
        "bks",
        "rust",
        "rust-static",
        "rows",
        "names",
    ]),
    required: true,
    help: "The output form; names: lines NUMBER;NAME. An enum in source has at most 4096 names",
    ..OPTION
};

/// The start of each name in source.
const NAME: Argument = Argument {
    id: "name",
    default: &["table"],
    help: "The name in C and Rust",
    ..OPTION
};

/// The file that a table is written into.
const OUTPUT: Argument = Argument {
    id: "output",
    place: Place::Short('o'),
    value_name: &["FILE"],
    help: "Write this file, once all is done",
    ..OPTION
};

/// The file that a table is compared with.
const CHECK: Argument = Argument {
    id: "check",
    value_name: &["FILE"],
    help: "Write nothing; succeed if this file is what would be written",
    ..OPTION
};

/// The type of the trie.
const TYPE: Argument = Argument {
    id: "type",
    values: ValueParser::Names(&["fast", "small"]),
    help: "fast: two reads below 10000; small: a smaller trie",
    ..OPTION
};

/// How many bits a value has.
const WIDTH: Argument = Argument {
    id: "width",
    values: ValueParser::Names(&["8", "16", "32"]),
    help: "How many bits a value has",
    ..OPTION
};

/// The error value.
const ERROR: Argument = Argument {
    id: "error",
    help: "The value above 10FFFF",
    ..NUMBER
};

/// The arguments of `build`.
const BUILD: [Argument; 14] = [
    Argument {
        required: false,
        help: "Rows HEX;N or HEX..HEX;N, or a file of the Unicode Character Database",
        ..FILE
    },
    Argument {
        values: ValueParser::Names(&[
            "rows",
            "properties",
            "code-points",
            "unicode-data",
            "unihan",
        ]),
        ..FORMAT
    },
    Argument {
        help: "The property: in a file of several, its lines; with --aliases, its values",
        ..PROPERTY
    },
    FIELD,
    Argument {
        id: "values",
        values: ValueParser::Names(&["names", "decimal", "hexadecimal", "set"]),
        help: "What values are; names get numbers in order of first appearance",
        ..OPTION
    },
    ALIASES,
    Argument {
        default: &["fast"],
        ..TYPE
    },
    Argument {
        default: &["32"],
        ..WIDTH
    },
    Argument {
        id: "default",
        help: "The value of a code point in no row; by default as the rows or --aliases say, or 0",
        ..NUMBER
    },
    Argument {
        help: "The value above 10FFFF; by default the stated error value, or 0",
        ..ERROR
    },
    FORM,
    NAME,
    OUTPUT,
    CHECK,
];

/// The arguments of `convert`: a table, what changes, and the form in which it is written.
const CONVERT: [Argument; 10] = [
    FILE, PROPERTY, OFFSET, TYPE, WIDTH, ERROR, FORM, NAME, OUTPUT, CHECK,
];

/// Files, each with the properties that are wanted.
const FILES: Argument = Argument {
    id: "files",
    place: Place::Words,
    help: "Files of the Unicode Character Database; of several properties in one, those after `:`",
    value_name: &["FILE[:PROPERTY,..]"],
    ..FILE
};

/// The arguments of `join`: properties, and the form in which their table is written.
const JOIN: [Argument; 9] = [
    FILES,
    ALIASES,
    Argument {
        default: &["fast"],
        ..TYPE
    },
    Argument {
        help: "How many bits a value has; by default the fewest that all values fit",
        ..WIDTH
    },
    Argument {
        help: "The value above 10FFFF and of ill-formed text; by default that of FFFD",
        ..ERROR
    },
    Argument {
        required: false,
        default: &["rows"],
        help: "The output form; names: lines NUMBER;VALUE;.. with a value of each property",
        ..FORM
    },
    NAME,
    OUTPUT,
    CHECK,
];

/// The arguments of `list`: files.
const LIST: [Argument; 1] = [Argument {
    help: "Files of the Unicode Character Database; - for standard input",
    value_name: &["FILE"],
    ..FILES
}];

/// The arguments of `words`: a word list, and the form in which its trie is written.
const WORDS: [Argument; 6] = [
    Argument {
        required: false,
        help: "Lines KEY;VALUE; - for standard input",
        ..FILE
    },
    Argument {
        values: ValueParser::Names(&["words", "icu"]),
        default: &["words"],
        help: "What FILE is: lines, or the units of a trie",
        ..FORMAT
    },
    Argument {
        values: ValueParser::Names(&["icu", "c", "rust", "rust-static", "rows"]),
        help: "The output form",
        ..FORM
    },
    Argument {
        default: &["words"],
        ..NAME
    },
    OUTPUT,
    CHECK,
];

/// The arguments of `show`: a table.
const SHOW: [Argument; 3] = [FILE, PROPERTY, OFFSET];

/// The arguments of `get` and `explain`: a table, and the asked numbers.
const GET: [Argument; 5] = [
    FILE,
    PROPERTY,
    OFFSET,
    Argument {
        id: "asked",
        place: Place::Words,
        required: false,
        value_name: &["HEX"],
        help: "A number of 1 to 8 hexadecimal digits, or a range HEX..HEX",
        ..FILE
    },
    Argument {
        id: "from",
        value_name: &["FILE"],
        help: "A file with HEX or HEX..HEX on each line",
        ..OPTION
    },
];

/// The arguments of `diff`: two tables.
const DIFF: [Argument; 3] = [
    PROPERTY,
    Argument {
        id: "first",
        ..FILE
    },
    Argument {
        id: "second",
        ..FILE
    },
];

/// The arguments of `set`.
const SET: [Argument; 11] = [
    Argument {
        required: false,
        help: "What build or convert reads, or a set in TOML or in ICU's serialized form",
        ..FILE
    },
    Argument {
        values: ValueParser::Names(&[
            "rows",
            "properties",
            "code-points",
            "unicode-data",
            "unihan",
            "table",
            "toml",
            "serialized",
        ]),
        help: "What FILE is; if left out, its start decides, but not for serialized",
        ..FORMAT
    },
    Argument {
        help: "The property, as in build and in convert",
        ..PROPERTY
    },
    OFFSET,
    FIELD,
    Argument {
        id: "value",
        help: "The value whose code points are the set; 1 if left out, or a property's own",
        ..OPTION
    },
    ALIASES,
    Argument {
        values: ValueParser::Names(&[
            "rows",
            "icu",
            "json",
            "toml",
            "c",
            "rust",
            "rust-static",
            "c-frozen",
            "rust-frozen",
        ]),
        help: "The output form",
        ..FORM
    },
    Argument {
        default: &["set"],
        help: "The name in C, Rust and TOML",
        ..NAME
    },
    OUTPUT,
    CHECK,
];

/// A command, what help says of it, and its arguments.
struct Row {
    name: &'static str,
    about: &'static str,
    arguments: &'static [Argument],
}

/// The commands that make tables, sets and word lists.
static MAKING: [Row; 5] = [
    Row {
        name: "build",
        about: "Builds a table from rows or from a file of the Unicode Character Database",
        arguments: &BUILD,
    },
    Row {
        name: "join",
        about: "Builds a table of several properties, whose values are their combinations",
        arguments: &JOIN,
    },
    Row {
        name: "convert",
        about: "Writes a table in another form, or of another type, width or error value",
        arguments: &CONVERT,
    },
    Row {
        name: "set",
        about: "Writes the set of the code points with a value",
        arguments: &SET,
    },
    Row {
        name: "words",
        about: "Writes a word list as a unit trie, which ICU's UCharsTrie reads",
        arguments: &WORDS,
    },
];

/// The commands that show what files and tables have.
static SHOWING: [Row; 5] = [
    Row {
        name: "list",
        about: "Prints the properties of files, and how many values each has",
        arguments: &LIST,
    },
    Row {
        name: "show",
        about: "Prints the header of a table, its sizes and its ranges",
        arguments: &SHOW,
    },
    Row {
        name: "get",
        about: "Prints the value of each number in a table",
        arguments: &GET,
    },
    Row {
        name: "explain",
        about: "Prints which cells of a table the look-up of each number reads",
        arguments: &GET,
    },
    Row {
        name: "diff",
        about: "Prints the ranges in which two tables differ, with the value of each",
        arguments: &DIFF,
    },
];

/// Returns the arguments of the command with this name in some rows, or none.
fn arguments_in(rows: &'static [Row], name: &str) -> &'static [Argument] {
    for row in rows {
        if row.name == name {
            return row.arguments;
        }
    }
    &[]
}

/// Returns the arguments of a command that makes something.
fn making_arguments(name: &str) -> &'static [Argument] {
    arguments_in(&MAKING, name)
}

/// Returns the arguments of the command with this name, in the order of the help. Each command has
/// some.
pub fn arguments_of(name: &str) -> &'static [Argument] {
    let making = making_arguments(name);
    if making.is_empty() {
        arguments_in(&SHOWING, name)
    } else {
        making
    }
}

/// Sets what help calls the argument's value.
fn with_value_name<'a>(argument: Arg<'a>, row: &Argument) -> Arg<'a> {
    argument.value_names(row.value_name)
}

/// Sets which values the argument accepts.
fn with_value_parser<'a>(argument: Arg<'a>, row: &Argument) -> Arg<'a> {
    argument.value_parser(row.values)
}

/// Sets the value that the argument has if it is left out.
fn with_default<'a>(argument: Arg<'a>, row: &Argument) -> Arg<'a> {
    argument.default_values(row.default)
}

/// Sets how the argument is given.
fn placed<'a>(argument: Arg<'a>, row: &Argument) -> Arg<'a> {
    match row.place {
        Place::Option => argument.long(row.id),
        Place::Options => argument.long(row.id).action(ArgAction::Append),
        Place::Short(letter) => argument.long(row.id).short(letter),
        Place::Word => argument,
        Place::Words => argument.num_args(1..),
    }
}

/// Returns the argument in clap's form.
fn arg_of<'a>(row: &Argument) -> Arg<'a> {
    let argument = Arg::new(row.id).required(row.required).help(row.help);
    let named = with_value_name(argument, row);
    let tested = with_value_parser(named, row);
    placed(with_default(tested, row), row)
}

/// Returns a command with the arguments of its row.
fn command_of<'a>(row: &Row) -> Result<Command<'a>, AllocError> {
    let mut command = Command::new(row.name).about(row.about);
    for argument in row.arguments {
        command = command.arg(arg_of(argument))?;
    }
    Ok(command)
}

/// Appends commands in clap's form.
fn push_commands<'a>(commands: &mut Vec<Command<'a>>, rows: &[Row]) -> Result<(), AllocError> {
    for row in rows {
        let command = command_of(row)?;
        commands.try_push(command)?;
    }
    Ok(())
}

/// Returns the commands that make something in clap's form.
fn making_commands<'a>() -> Result<Vec<Command<'a>>, AllocError> {
    let mut commands = Vec::new();
    push_commands(&mut commands, &MAKING)?;
    Ok(commands)
}

/// Returns all commands in clap's form.
fn commands<'a>() -> Result<Vec<Command<'a>>, AllocError> {
    let mut commands = making_commands()?;
    push_commands(&mut commands, &SHOWING)?;
    Ok(commands)
}

/// Returns the program's command line in clap's form.
pub fn program_words<'a>() -> Result<Command<'a>, AllocError> {
    let commands = commands()?;
    Command::new("ucptrie")
        .about("Makes code point tries from rows, and reads them")
        .version(VERSION)
        .subcommand_required(true)
        .subcommands(commands)
}
