//# text mod
use bekstaudi::codepointtrie::{CodePointTrieBuilder, TrieType, text};

let mut builder = CodePointTrieBuilder::new(0u8, 9, TrieType::Fast);
builder.set_range_value(0x61..=0x7A, 2);
let letters = builder.build();
// Each character with its value, and from which byte on the text has no letter.
let values: Vec<_> = text::values_of(&letters, "a7").collect();
assert_eq!(values, [('a', 2), ('7', 0)]);
assert_eq!(text::span_of_values(&letters, "ab7", |value| value == 2), 2);
// The values alone, of bytes that may be ill-formed.
let mut buffer = [0; 3];
text::copy_values(&letters, b"a\xFFb", &mut buffer);
assert_eq!(buffer, [2, 9, 2]);
//# copy copy_values
use bekstaudi::codepointtrie::{CodePointTrieBuilder, TrieType, text::copy_values};

let mut builder = CodePointTrieBuilder::new(0u8, 99, TrieType::Fast);
builder.set_range_value(0x61..=0x7A, 2);
builder.set_range_value(0x41..=0x5A, 1);
let categories = builder.build();
let mut buffer = [0; 4];
let copied = copy_values(&categories, b"a\xF1\x80\x80B1 ", &mut buffer);
// The space did not fit.
assert_eq!((copied.values, copied.bytes), (4, 6));
assert_eq!(buffer, [2, 99, 1, 0]);
//# find find_value
use bekstaudi::codepointtrie::{CodePointTrieBuilder, TrieType, text::find_value};

let mut builder = CodePointTrieBuilder::new(0u8, 9, TrieType::Fast);
builder.set_range_value(0x30..=0x39, 1);
let digits = builder.build();
let found = find_value(&digits, "ab1", |value| value == 1).expect("a digit");
assert_eq!((found.offset, found.character, found.value), (2, '1', 1));
//# find span_of_values
use bekstaudi::codepointtrie::{CodePointTrieBuilder, TrieType, text::span_of_values};

let mut builder = CodePointTrieBuilder::new(0u8, 9, TrieType::Fast);
builder.set_range_value(0x61..=0x7A, 2);
let letters = builder.build();
assert_eq!(span_of_values(&letters, "ab1", |value| value == 2), 2);
//# indices value_indices_of
use bekstaudi::codepointtrie::{CodePointTrieBuilder, TrieType, text::value_indices_of};

let mut builder = CodePointTrieBuilder::new(0u8, 9, TrieType::Fast);
builder.set_value(0xE9, 2);
builder.set_range_value(0x41..=0x5A, 1);
let categories = builder.build();
let values: Vec<_> = value_indices_of(&categories, "\u{E9}B").collect();
assert_eq!(values, [(0, '\u{E9}', 2), (2, 'B', 1)]);
//# utf16 values_of_utf16
use bekstaudi::codepointtrie::{CodePointTrieBuilder, TrieType, text::values_of_utf16};

let mut builder = CodePointTrieBuilder::new(0u8, 9, TrieType::Fast);
builder.set_range_value(0xD800..=0xDFFF, 18);
builder.set_value(0x1D400, 1);
let categories = builder.build();
let values: Vec<_> = values_of_utf16(&categories, &[0xD835, 0xDC00, 0x31, 0xD835]).collect();
// The last unit is a lone surrogate, which has the value of its code point.
assert_eq!(values, [(0x1D400, 1), (0x31, 0), (0xD835, 18)]);
//# utf8 values_of_utf8
use bekstaudi::codepointtrie::{CodePointTrieBuilder, TrieType, text::values_of_utf8};

let mut builder = CodePointTrieBuilder::new(0u8, 9, TrieType::Fast);
builder.set_range_value(0x61..=0x7A, 2);
let letters = builder.build();
let values: Vec<_> = values_of_utf8(&letters, b"a\xF1\x80\x80b").collect();
assert_eq!(values, [('a', 2), ('\u{FFFD}', 9), ('b', 2)]);
//# values values_of
use bekstaudi::codepointtrie::{CodePointTrieBuilder, TrieType, text::values_of};

let mut builder = CodePointTrieBuilder::new(0u8, 9, TrieType::Fast);
builder.set_range_value(0x61..=0x7A, 2);
let letters = builder.build();
let values: Vec<_> = values_of(&letters, "aB").collect();
assert_eq!(values, [('a', 2), ('B', 0)]);
