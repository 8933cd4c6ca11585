//! A table as source in C.

use crate::host::*;
use crate::support::AllocError;
use crate::support::prelude::*;
use crate::ucptab_table::pattern::Number::{Decimal, Hexadecimal};
use crate::ucptab_table::pattern::{push_named, push_pattern};
use crate::ucptrie_forms::cells::{push_data, push_index};
use crate::ucptrie_forms::header::{header_numbers, push_sizes};
use crate::ucptrie_tables::source::index1_offset;
use crate::ucptrie_tables::table::Table;

/// The look-up in the three stages of the format, without ICU. Each `@` is replaced by the
/// name.
const LOOK_UP: &str = "\
// The value of c, and the error value above 10FFFF. It needs no ICU.
static inline uint32_t @_get(uint32_t c) {
    uint32_t i, part = (c >> 4) & 31;
    if (c < @_fastLimit) return @_trieData[@_trieIndex[c >> 6] + (c & 63)];
    if (c > 0x10ffff) return @_trieData[@_dataLength - 1];
    if (c >= @_highStart) return @_trieData[@_dataLength - 2];
    i = @_trieIndex[@_trieIndex[(c >> 14) + @_index1] + ((c >> 9) & 31)];
    if (i < 0x8000) {
        i = @_trieIndex[i + part];
    } else { // eight offsets of 18 bits have nine cells, the first one for their upper bits
        i = (i & 0x7fff) + part / 8 * 9;
        part &= 7;
        i = (((uint32_t)@_trieIndex[i] << (2 + 2 * part)) & 0x30000) | @_trieIndex[i + 1 + part];
    }
    return @_trieData[i + (c & 15)];
}
";

/// Appends the array of the index, up to the end of its cells.
fn push_index_array(text: &mut String, table: &Table, name: &str) -> Result<(), AllocError> {
    let (_, index, _) = table.trie.parts();
    let size = [Decimal(index.len())];
    push_pattern(
        text,
        "static const uint16_t @_trieIndex[%]={\n",
        name,
        &size,
    )?;
    push_index(text, table, "")
}

/// Appends the array of the data, up to the end of its cells.
fn push_data_array(text: &mut String, table: &Table, name: &str) -> Result<(), AllocError> {
    let (_, _, values) = table.trie.parts();
    let sizes = [Decimal(table.width.bits() as usize), Decimal(values.len())];
    let front = "\n};\n\nstatic const uint%_t @_trieData[%]={\n";
    push_pattern(text, front, name, &sizes)?;
    push_data(text, table, "")
}

/// What follows the data: the numbers that the look-up needs.
const NUMBERS: &str = "
};

enum {
    @_fastLimit = %,
    @_highStart = %,
    @_index1 = %,
    @_dataLength = %
};

";

/// Appends the end of the data, and the numbers that the look-up needs.
fn push_numbers(text: &mut String, table: &Table, name: &str) -> Result<(), AllocError> {
    let (header, _, values) = table.trie.parts();
    let numbers = [
        Hexadecimal(header.trie_type.fast_limit()),
        Hexadecimal(header.high_start),
        Decimal(index1_offset(header.trie_type) as usize),
        Decimal(values.len()),
    ];
    push_pattern(text, NUMBERS, name, &numbers)
}

/// The trie for ICU's functions and macros (usrc_writeUCPTrie).
const STRUCT: &str = "
// The trie for ICU, if <unicode/ucptrie.h> is included before.
#ifdef UCPTRIE_FAST_GET
static const UCPTrie @_trie={
    @_trieIndex,
    { @_trieData },
    %, %,
    %, %,
    %, %,
    0, 0,
    %, %,
    %,
};
#endif
";

/// Appends the trie for ICU.
fn push_struct(text: &mut String, table: &Table, name: &str) -> Result<(), AllocError> {
    push_pattern(text, STRUCT, name, &header_numbers(table))
}

/// Appends the look-up.
fn push_look_up(text: &mut String, name: &str) -> Result<(), AllocError> {
    push_named(text, LOOK_UP, name)
}

/// Returns the table in C: the two arrays, a look-up over them that needs no ICU, and the trie for
/// ICU if its header is included before.
pub(crate) fn c_text(table: &Table, name: &str) -> Result<String, AllocError> {
    let mut text = String::new();
    push_sizes(&mut text, table)?;
    text.try_push_str("\n#include <stdint.h>\n\n")?;
    push_index_array(&mut text, table, name)?;
    push_data_array(&mut text, table, name)?;
    push_numbers(&mut text, table, name)?;
    push_look_up(&mut text, name)?;
    push_struct(&mut text, table, name)?;
    Ok(text)
}
