//! Tables in constants. The compiler runs the tests of these functions, so a bad table does not
//! compile.

#![expect(clippy::panic)] // In a constant, a panic is an error of the compiler.

use crate::char16trie::Char16Trie;
use crate::codepointinvlist::CodePointInversionList;
use crate::codepointtrie::{CodePointTrie, CodePointTrieError, CodePointTrieHeader, TrieValue};
use crate::zerovec::ule::{AsULE, UleError};
use crate::zerovec::{CODE_POINT_LIMIT, PotentialCodePoint, ZeroSlice, ZeroVec};

/// A packed type whose cells a constant can check.
///
/// [`trie_values!`](crate::trie_values) implements it for the enum that it declares. If `CELLS`
/// and [`AsULE::from_unaligned`] disagree, look-ups may panic, but read nothing out of bounds.
///
/// ```
/// use bekstaudi::zerovec::{ConstCells, ZeroSlice, ule::AsULE};
/// use bekstaudi::zeroslice;
///
/// /// A number from 0 to 99, in one byte.
/// #[derive(Clone, Copy, Debug, PartialEq, Eq)]
/// struct Percent(u8);
///
/// impl AsULE for Percent {
///     const WIDTH: usize = 1;
///
///     fn to_unaligned(self) -> [u8; 4] {
///         [self.0, 0, 0, 0]
///     }
///
///     fn from_unaligned(bytes: &[u8]) -> Option<Self> {
///         Some(Percent(bytes[0])).filter(|it| it.0 < 100)
///     }
/// }
///
/// impl ConstCells for Percent {
///     const CELLS: &'static [(u32, u32)] = &[(0, 99)];
/// }
///
/// static SHARES: ZeroSlice<'static, Percent> = zeroslice!(Percent as u8; [20, 80]);
/// assert_eq!(SHARES.get(1), Some(Percent(80)));
/// ```
pub trait ConstCells: AsULE {
    /// The cells that are values, each as the number of its bytes, lowest byte first: ranges with
    /// both bounds included.
    const CELLS: &'static [(u32, u32)];

    /// Whether the type is signed. [`zeroslice!`](crate::zeroslice) then packs -1 as the cell 255 of
    /// one byte, and 255 does not compile.
    const IS_SIGNED: bool = false;
}

/// A value of tries in constants.
///
/// [`trie_values!`](crate::trie_values) implements it for the enum that it declares.
///
/// ```
/// use bekstaudi::codepointtrie::{CodePointTrie, ConstValue, NotAValue, TrieValue};
/// use bekstaudi::zerovec::{ConstCells, ule::AsULE};
///
/// /// Whether a character is a letter, in one byte: its number is 0 or 1.
/// #[derive(Clone, Copy, Debug, PartialEq, Eq)]
/// struct IsLetter(bool);
///
/// impl AsULE for IsLetter {
///     const WIDTH: usize = 1;
///
///     fn to_unaligned(self) -> [u8; 4] {
///         u32::from(self.0).to_le_bytes()
///     }
///
///     fn from_unaligned(bytes: &[u8]) -> Option<Self> {
///         IsLetter::try_from_u32(bytes[0].into()).ok()
///     }
/// }
///
/// impl TrieValue for IsLetter {
///     type TryFromU32Error = NotAValue;
///
///     fn to_u32(self) -> u32 {
///         self.0.into()
///     }
///
///     fn try_from_u32(number: u32) -> Result<Self, NotAValue> {
///         match number {
///             0 | 1 => Ok(IsLetter(number == 1)),
///             _ => Err(NotAValue),
///         }
///     }
/// }
///
/// impl ConstCells for IsLetter {
///     const CELLS: &'static [(u32, u32)] = &[(0, 1)];
/// }
///
/// // Its numbers are those of its cells.
/// impl ConstValue for IsLetter {}
///
/// mod made {
/// #   pub mod letters {
/// #     pub type Value = u8;
/// #     pub const TRIE_TYPE: u8 = 1;
/// #     pub const HIGH_START: u32 = 0x1000;
/// #     pub const SHIFTED12_HIGH_START: u16 = 0x1;
/// #     pub const INDEX3_NULL_OFFSET: u16 = 0x7fff;
/// #     pub const DATA_NULL_OFFSET: u32 = 0xfffff;
/// #     pub const NULL_VALUE: u32 = 0x1;
/// #     pub static INDEX: [u16; 64] = [0; 64];
/// #     pub static DATA: [Value; 64] = [1; 64];
/// #   }
/// # /*
///     include!("letters.rs"); // ucptrie build --as rust --name letters
/// # */
/// }
///
/// static LETTERS: CodePointTrie<'static, IsLetter> = bekstaudi::trie_of!(made::letters as IsLetter);
/// assert_eq!(LETTERS.get('A'), IsLetter(true));
/// ```
pub trait ConstValue: TrieValue + ConstCells {
    /// The numbers that [`TrieValue::try_from_u32`] accepts: ranges with both bounds included.
    const NUMBERS: &'static [(u32, u32)] = Self::CELLS;
}

macro_rules! values {
    ($($value:ty: $is_signed:literal, $cells:expr $(, $numbers:expr)?;)*) => {
        $(
            impl ConstCells for $value {
                const CELLS: &'static [(u32, u32)] = &$cells;
                const IS_SIGNED: bool = $is_signed;
            }

            impl ConstValue for $value {
                $(const NUMBERS: &'static [(u32, u32)] = &$numbers;)?
            }
        )*
    };
}

values! {
    u8: false, [(0, 0xFF)];
    u16: false, [(0, 0xFFFF)];
    u32: false, [(0, u32::MAX)];
    // Any cell is a signed value, whose number has the sign's bit in all bits above.
    i8: true, [(0, 0xFF)], [(0, 0x7F), (0xFFFF_FF80, u32::MAX)];
    i16: true, [(0, 0xFFFF)], [(0, 0x7FFF), (0xFFFF_8000, u32::MAX)];
    i32: true, [(0, u32::MAX)];
    char: false, [(0, 0xD7FF), (0xE000, 0x10_FFFF)];
}

impl ConstCells for PotentialCodePoint {
    const CELLS: &'static [(u32, u32)] = &[(0, 0xFF_FFFF)];
}

/// Returns whether one of the ranges contains the number.
const fn is_in(ranges: &[(u32, u32)], number: u32) -> bool {
    let mut i = 0;
    while i < ranges.len() {
        if ranges[i].0 <= number && number <= ranges[i].1 {
            return true;
        }
        i += 1;
    }
    false
}

/// Returns the number of a cell, lowest byte first.
const fn number_at(bytes: &[u8], start: usize, width: usize) -> u32 {
    let mut number = 0;
    let mut i = 0;
    while i < width && i < 4 {
        number |= (bytes[start + i] as u32) << (8 * i);
        i += 1;
    }
    number
}

/// Checks that bytes are packed values, like [`ZeroVec::parse_bytes`].
const fn test_cells<T: ConstCells>(bytes: &[u8]) -> Result<(), UleError> {
    if !bytes.len().is_multiple_of(T::WIDTH) {
        return Err(UleError::Length);
    }
    let greatest = if T::WIDTH < 4 { (1 << (8 * T::WIDTH)) - 1 } else { u32::MAX };
    if matches!(T::CELLS, [(0, last)] if *last == greatest) {
        return Ok(());
    }
    let mut start = 0;
    while start < bytes.len() {
        if !is_in(T::CELLS, number_at(bytes, start, T::WIDTH)) {
            return Err(UleError::Cell(start / T::WIDTH));
        }
        start += T::WIDTH;
    }
    Ok(())
}

impl<T: AsULE> ZeroVec<'_, T> {
    /// Returns the empty vector. Does not allocate.
    #[must_use]
    pub const fn new() -> Self {
        ZeroVec::from_packed(&[])
    }
}

impl<'a, T: ConstCells> ZeroSlice<'a, T> {
    /// Returns a view of bytes, which are tested as by [`ZeroVec::parse_bytes`].
    ///
    /// # Errors
    /// - [`UleError::Length`] if the number of bytes is not a multiple of the width of a value.
    /// - [`UleError::Cell`] otherwise, with the index of the first cell that is not a value.
    pub const fn try_from_static(bytes: &'a [u8]) -> Result<Self, UleError> {
        match test_cells::<T>(bytes) {
            Ok(()) => Ok(ZeroSlice::from_packed(bytes)),
            Err(error) => Err(error),
        }
    }

    /// Returns a view of bytes. In a constant, bytes that are not packed values do not compile.
    ///
    /// # Panics
    /// Panics if [`try_from_static`](Self::try_from_static) returns an error.
    #[must_use]
    pub const fn from_static(bytes: &'a [u8]) -> Self {
        match ZeroSlice::try_from_static(bytes) {
            Ok(slice) => slice,
            Err(UleError::Length) => {
                panic!("the number of bytes is not a multiple of the width of a value")
            }
            Err(UleError::Cell(_)) => panic!("a cell is not a value of the type"),
        }
    }
}

/// Returns the least and the greatest number that a cell of the type can be, for
/// [`zeroslice!`](crate::zeroslice).
#[doc(hidden)]
#[must_use]
pub const fn number_bounds<T: ConstCells>() -> (i128, i128) {
    let count = 1 << (8 * T::WIDTH);
    if T::IS_SIGNED { (-count / 2, count / 2 - 1) } else { (0, count - 1) }
}

/// Returns the least and the greatest number that a cell of the type can be, either as that of a
/// value or of its bytes, for [`trie_of!`](crate::trie_of).
#[doc(hidden)]
#[must_use]
pub const fn table_bounds<T: ConstCells>() -> (i128, i128) {
    (number_bounds::<T>().0, (1 << (8 * T::WIDTH)) - 1)
}

/// Packs numbers, for [`zeroslice!`](crate::zeroslice).
///
/// # Panics
/// Panics if a number is outside of these bounds.
#[doc(hidden)]
#[must_use]
pub const fn packed<const N: usize, const BYTES: usize>(
    numbers: &[i128; N],
    (least, greatest): (i128, i128),
    width: usize,
) -> [u8; BYTES] {
    let mut bytes = [0; BYTES];
    let mut i = 0;
    // No loop over the bytes of a number: the compiler interprets this, and that takes longer.
    while i < N {
        let (number, start) = (numbers[i], i * width);
        assert!(least <= number && number <= greatest, "a number is not a value of the type");
        bytes[start] = number as u8;
        if width > 1 {
            bytes[start + 1] = (number >> 8) as u8;
        }
        if width > 2 {
            bytes[start + 2] = (number >> 16) as u8;
        }
        if width > 3 {
            bytes[start + 3] = (number >> 24) as u8;
        }
        i += 1;
    }
    bytes
}

/// Packs an array of numbers in a constant, and returns a
/// [`ZeroSlice<'static, _>`](crate::zerovec::ZeroSlice).
///
/// `zeroslice!(u16; [1, 2])` packs values of a type of this crate. For other types of values, the
/// array has their numbers: `zeroslice!(PotentialCodePoint as u32; [0x41, 0x5B])`. A number that is
/// not a value of the type does not compile.
///
/// The compiler interprets the packing: 100,000 numbers take 2 seconds. For a large table, let
/// [`ZeroSlice::from_static`] borrow a file of packed cells, lowest byte first. That takes no time,
/// except that each cell of an enum is tested:
///
/// ```
/// use bekstaudi::zerovec::ZeroSlice;
///
/// # macro_rules! include_bytes { ($path:literal) => { &[0x34, 0x12, 0xFF, 0] } }
/// static NUMBERS: ZeroSlice<'static, u16> = ZeroSlice::from_static(include_bytes!("numbers.bin"));
/// assert_eq!(NUMBERS.get(1), Some(255));
/// ```
///
/// A small one can be in the source:
///
/// ```
/// use bekstaudi::zerovec::{PotentialCodePoint, ZeroSlice};
/// use bekstaudi::zeroslice;
///
/// static NUMBERS: ZeroSlice<'static, u16> = zeroslice!(u16; [0x1234, 255]);
/// assert_eq!(NUMBERS.as_bytes(), [0x34, 0x12, 0xFF, 0]);
/// const ENDS: ZeroSlice<PotentialCodePoint> = zeroslice!(PotentialCodePoint as u32; [0x1F600]);
/// assert_eq!(ENDS.as_bytes(), [0, 0xF6, 1]);
/// ```
///
/// Numbers that are not values of the type do not compile:
///
/// ```compile_fail,E0080
/// use bekstaudi::zerovec::{PotentialCodePoint, ZeroSlice};
///
/// const ENDS: ZeroSlice<PotentialCodePoint> =
///     bekstaudi::zeroslice!(PotentialCodePoint as u32; [0x100_0000]);
/// ```
///
/// ```compile_fail,E0080
/// # use bekstaudi::zerovec::{PotentialCodePoint, ZeroSlice};
/// const ENDS: ZeroSlice<PotentialCodePoint> =
///     bekstaudi::zeroslice!(PotentialCodePoint as i32; [-1]);
/// ```
///
/// ```compile_fail,E0080
/// # use bekstaudi::zerovec::ZeroSlice;
/// const NUMBERS: ZeroSlice<u8> = bekstaudi::zeroslice!(u8 as i32; [-1]);
/// ```
///
/// ```compile_fail,E0080
/// # use bekstaudi::zerovec::ZeroSlice;
/// const NUMBERS: ZeroSlice<u16> = bekstaudi::zeroslice!(u16 as i64; [-2]);
/// ```
///
/// ```compile_fail,E0080
/// # use bekstaudi::zerovec::ZeroSlice;
/// const NUMBERS: ZeroSlice<i8> = bekstaudi::zeroslice!(i8 as i32; [200]);
/// ```
#[macro_export]
macro_rules! zeroslice {
    ($value:ty; $values:expr) => {
        $crate::zeroslice!($value as $value; $values)
    };
    ($value:ty as $number:ty; $values:expr) => {
        $crate::zeroslice!(@number_bounds; $value as $number; $values)
    };
    // The names of constants are not hygienic, so they are ones that no caller has.
    (@$bounds:ident; $value:ty as $number:ty; $values:expr) => {{
        const __BEKSTAUDI_NUMBERS: &[$number] = &$values;
        #[allow(long_running_const_eval)]
        const __BEKSTAUDI_BYTES: &[u8; __BEKSTAUDI_NUMBERS.len()
                 * <$value as $crate::zerovec::ule::AsULE>::WIDTH] = &{
            let numbers = __BEKSTAUDI_NUMBERS;
            let mut wide = [0; __BEKSTAUDI_NUMBERS.len()];
            let mut i = 0;
            while i < numbers.len() {
                wide[i] = numbers[i] as i128;
                i += 1;
            }
            let width = <$value as $crate::zerovec::ule::AsULE>::WIDTH;
            $crate::zerovec::packed(&wide, $crate::zerovec::$bounds::<$value>(), width)
        };
        #[allow(long_running_const_eval)]
        const __BEKSTAUDI_SLICE: $crate::zerovec::ZeroSlice<'static, $value> =
            $crate::zerovec::ZeroSlice::from_static(__BEKSTAUDI_BYTES);
        __BEKSTAUDI_SLICE
    }};
}

/// Checks the parts of a trie, like [`CodePointTrie::try_new`].
const fn test_parts<T: ConstValue>(
    header: &CodePointTrieHeader,
    index: &[u8],
    data: &[u8],
) -> Result<(), CodePointTrieError> {
    if data.is_empty() {
        return Err(CodePointTrieError::EmptyDataVector);
    }
    if !is_in(T::NUMBERS, header.null_value) {
        return Err(CodePointTrieError::InvalidNullValue);
    }
    let blocks = header.trie_type.fast_index_len();
    if index.len() / 2 < blocks {
        return Err(CodePointTrieError::IndexTooShortForFastAccess);
    }
    let mut i = 0;
    while i < blocks {
        let offset = index[2 * i] as usize | (index[2 * i + 1] as usize) << 8;
        if data.len() / T::WIDTH < offset + 64 {
            return Err(CodePointTrieError::DataTooShortForFastAccess);
        }
        i += 1;
    }
    Ok(())
}

/// Returns the null value of a table of unsigned cells as the number of a value, for
/// [`trie_of!`](crate::trie_of): the number of a negative value has the sign in all bits above.
#[doc(hidden)]
#[must_use]
pub const fn null_number<T: ConstValue>(cell: u32) -> u32 {
    if T::WIDTH == 0 || T::WIDTH > 3 || is_in(T::NUMBERS, cell) || cell >> (8 * T::WIDTH) != 0 {
        return cell;
    }
    let above = 32 - 8 * T::WIDTH as u32;
    ((cell << above).cast_signed() >> above).cast_unsigned()
}

/// Panics if parts do not form a trie.
const fn require_parts<T: ConstValue>(header: &CodePointTrieHeader, index: &[u8], data: &[u8]) {
    match test_parts::<T>(header, index, data) {
        Ok(()) => {}
        Err(CodePointTrieError::EmptyDataVector) => panic!("the data are empty"),
        Err(CodePointTrieError::InvalidNullValue) => {
            panic!("the null value is not the number of a value")
        }
        Err(CodePointTrieError::IndexTooShortForFastAccess) => {
            panic!("the index has fewer cells than there are blocks below the fast limit")
        }
        Err(_) => panic!("the fast index names a block that ends outside the data"),
    }
}

/// Tries in constants.
impl<'trie, T: ConstValue> CodePointTrie<'trie, T> {
    /// Makes a trie of these parts, which it borrows. The parts are tested as by
    /// [`try_new`](Self::try_new), also in a constant.
    ///
    /// # Errors
    /// Returns the error that [`try_new`](Self::try_new) returns for these parts.
    pub const fn try_from_static(
        header: CodePointTrieHeader,
        index: ZeroSlice<'trie, u16>,
        data: ZeroSlice<'trie, T>,
    ) -> Result<Self, CodePointTrieError> {
        match test_parts::<T>(&header, index.as_bytes(), data.as_bytes()) {
            Ok(()) => Ok(CodePointTrie {
                header,
                index: index.as_zerovec(),
                data: data.as_zerovec(),
            }),
            Err(error) => Err(error),
        }
    }

    /// Makes a trie of these parts, which it borrows. In a constant, parts that do not form a trie
    /// do not compile. For parts that `ucptrie` writes, use [`trie_of!`](crate::trie_of), whose docs
    /// say how long the check takes.
    ///
    /// ```
    /// use bekstaudi::codepointtrie::{CodePointTrie, CodePointTrieHeader, TrieType};
    /// use bekstaudi::zeroslice;
    ///
    /// const HEADER: CodePointTrieHeader = CodePointTrieHeader {
    ///     high_start: 0x1000,
    ///     shifted12_high_start: 1,
    ///     index3_null_offset: 0x7FFF,
    ///     data_null_offset: 0xF_FFFF,
    ///     null_value: 0,
    ///     trie_type: TrieType::Small,
    /// };
    /// // 62 cells of 7, then the high value and the error value.
    /// const CELLS: [u8; 64] = {
    ///     let mut cells = [7; 64];
    ///     cells[62] = 0;
    ///     cells[63] = 9;
    ///     cells
    /// };
    /// static TRIE: CodePointTrie<'static, u8> =
    ///     CodePointTrie::from_static(HEADER, zeroslice!(u16; [0; 64]), zeroslice!(u8; CELLS));
    /// assert_eq!((TRIE.get('A'), TRIE.get32(0x1000), TRIE.get32(0x11_0000)), (7, 0, 9));
    /// ```
    ///
    /// With one cell less, the fast index names a block that ends outside the data:
    ///
    /// ```compile_fail,E0080
    /// # use bekstaudi::codepointtrie::{CodePointTrie, CodePointTrieHeader, TrieType};
    /// # use bekstaudi::zeroslice;
    /// # const HEADER: CodePointTrieHeader = CodePointTrieHeader {
    /// #     high_start: 0x1000,
    /// #     shifted12_high_start: 1,
    /// #     index3_null_offset: 0x7FFF,
    /// #     data_null_offset: 0xF_FFFF,
    /// #     null_value: 0,
    /// #     trie_type: TrieType::Small,
    /// # };
    /// static TRIE: CodePointTrie<'static, u8> =
    ///     CodePointTrie::from_static(HEADER, zeroslice!(u16; [0; 64]), zeroslice!(u8; [7; 63]));
    /// ```
    ///
    /// # Panics
    /// Panics if [`try_from_static`](Self::try_from_static) returns an error.
    #[must_use]
    pub const fn from_static(
        header: CodePointTrieHeader,
        index: ZeroSlice<'trie, u16>,
        data: ZeroSlice<'trie, T>,
    ) -> Self {
        require_parts::<T>(&header, index.as_bytes(), data.as_bytes());
        CodePointTrie {
            header,
            index: index.as_zerovec(),
            data: data.as_zerovec(),
        }
    }
}

/// Makes a trie of the module that `ucptrie build --as rust` writes, in a constant.
///
/// The program is in Bekstaudi's repository, as this crate is:
///
/// ```sh
/// cargo install --path rust/ucptrie
/// ucptrie build --as rust --name table --width 8 --default 0 --error 0 < rows.txt > table.rs
/// ```
///
/// Each row is `HEX;N` or `HEX..HEX;N`: a range of code points and the number of their value.
///
/// `trie_of!(table)` has the module's numbers as values, and `trie_of!(table as Kind)` the values of a
/// type with these numbers, such as an enum of [`trie_values!`](crate::trie_values). A number that is
/// not a value of the type does not compile. This includes the numbers of `--default` and `--error`, which
/// are 0 if they are not given. For a signed type, a number is the cell of a value: 255 is the `i8` -1.
///
/// Each build of your crate packs and checks the table, except that an incremental one keeps the
/// result. A few kilobytes take less than 0.2 seconds, 100,000 cells 2 to 4 seconds. For a larger table, give
/// [`CodePointTrie::from_static`] the index and the data by [`ZeroSlice::from_static`] over
/// `include_bytes!`, which takes no time: both as packed cells, lowest byte first.
///
/// ```
/// use bekstaudi::codepointtrie::CodePointTrie;
///
/// mod made {
/// # /*
///     include!("table.rs");
/// # */
/// #   pub mod table {
/// #     pub type Value = u8;
/// #     pub const TRIE_TYPE: u8 = 1;
/// #     pub const HIGH_START: u32 = 0x1000;
/// #     pub const SHIFTED12_HIGH_START: u16 = 0x1;
/// #     pub const INDEX3_NULL_OFFSET: u16 = 0x7fff;
/// #     pub const DATA_NULL_OFFSET: u32 = 0xfffff;
/// #     pub const NULL_VALUE: u32 = 0x1;
/// #     pub static INDEX: [u16; 64] = [0; 64];
/// #     pub static DATA: [Value; 64] = [1; 64];
/// #   }
/// }
///
/// bekstaudi::trie_values! {
///     enum Kind: u8 {
///         Other = 0,
///         Letter = 1,
///         Digit = 2,
///     }
/// }
///
/// static KINDS: CodePointTrie<'static, Kind> = bekstaudi::trie_of!(made::table as Kind);
/// assert_eq!(KINDS.get('A'), Kind::Letter);
/// ```
///
/// If the values are names, as in the files of the Unicode Character Database, `ucptrie` numbers them
/// and writes an enum too. With `--as rust-static` it also writes the static trie of the enum. With
/// `--as rust`, `trie_of!` gives the numbers, and the enum has `try_from`:
///
/// ```sh
/// ucptrie build Scripts.txt --values names --width 8 --as rust --name scripts > scripts.rs
/// ```
///
/// ```
/// use bekstaudi::codepointtrie::CodePointTrie;
///
/// mod made {
/// # /*
///     include!("scripts.rs");
/// # */
/// #   pub mod scripts {
/// #     pub type Value = u8;
/// #     pub const TRIE_TYPE: u8 = 1;
/// #     pub const HIGH_START: u32 = 0x1000;
/// #     pub const SHIFTED12_HIGH_START: u16 = 0x1;
/// #     pub const INDEX3_NULL_OFFSET: u16 = 0x7fff;
/// #     pub const DATA_NULL_OFFSET: u32 = 0xfffff;
/// #     pub const NULL_VALUE: u32 = 0x0;
/// #     pub static INDEX: [u16; 64] = [0; 64];
/// #     pub static DATA: [Value; 64] = [1; 64];
/// #   }
/// #   #[derive(Debug, PartialEq, Eq)]
/// #   pub enum Scripts {
/// #     Unlisted = 0,
/// #     Latin = 1,
/// #   }
/// #   impl TryFrom<u8> for Scripts {
/// #     type Error = u8;
/// #     fn try_from(value: u8) -> Result<Scripts, u8> {
/// #       match value {
/// #         0 => Ok(Scripts::Unlisted),
/// #         1 => Ok(Scripts::Latin),
/// #         _ => Err(value),
/// #       }
/// #     }
/// #   }
/// }
/// use made::Scripts;
///
/// static SCRIPTS: CodePointTrie<'static, u8> = bekstaudi::trie_of!(made::scripts);
/// assert_eq!(Scripts::try_from(SCRIPTS.get('A')), Ok(Scripts::Latin));
/// ```
#[macro_export]
macro_rules! trie_of {
    ($($table:ident)::+) => {
        $crate::trie_of!($($table)::+ as $($table)::+::Value)
    };
    ($($table:ident)::+ as $value:ty) => {{
        const __BEKSTAUDI_TRIE: $crate::codepointtrie::CodePointTrie<'static, $value> =
            $crate::codepointtrie::CodePointTrie::from_static(
                $crate::codepointtrie::CodePointTrieHeader {
                    high_start: $($table)::+::HIGH_START,
                    shifted12_high_start: $($table)::+::SHIFTED12_HIGH_START,
                    index3_null_offset: $($table)::+::INDEX3_NULL_OFFSET,
                    data_null_offset: $($table)::+::DATA_NULL_OFFSET,
                    null_value: $crate::codepointtrie::null_number::<$value>($($table)::+::NULL_VALUE),
                    trie_type: match $($table)::+::TRIE_TYPE {
                        0 => $crate::codepointtrie::TrieType::Fast,
                        _ => $crate::codepointtrie::TrieType::Small,
                    },
                },
                $crate::zeroslice!(u16; $($table)::+::INDEX),
                $crate::zeroslice!(
                    @table_bounds; $value as $($table)::+::Value; $($table)::+::DATA
                ),
            );
        __BEKSTAUDI_TRIE
    }};
}

/// The error of [`CodePointInversionList::try_from_static`]: the boundaries are not an inversion
/// list.
#[derive(Clone, Copy, Debug, PartialEq, Eq, Hash)]
pub struct InvalidStaticSet;

impl core::fmt::Display for InvalidStaticSet {
    fn fmt(&self, f: &mut core::fmt::Formatter<'_>) -> core::fmt::Result {
        f.write_str("the boundaries are not an inversion list")
    }
}

impl core::error::Error for InvalidStaticSet {}

/// Returns the number of code points in the set with these packed boundaries, or `None` if they are
/// not an inversion list, as [`is_valid_zv`](crate::codepointinvlist::is_valid_zv) tests it.
const fn valid_size(ends: &[u8]) -> Option<u32> {
    if !ends.len().is_multiple_of(6) {
        return None;
    }
    let mut next = 0;
    let mut size = 0;
    let mut start = 0;
    while start < ends.len() {
        let end = number_at(ends, start, 3);
        if end < next || end > CODE_POINT_LIMIT {
            return None;
        }
        size = end - size;
        next = end + 1;
        start += 3;
    }
    Some(size)
}

/// Returns the number of code points in the set with these packed boundaries.
///
/// # Panics
/// Panics if they are not an inversion list.
const fn size_or_panic(ends: &[u8]) -> u32 {
    match valid_size(ends) {
        Some(size) => size,
        None => panic!("the boundaries are not an inversion list"),
    }
}

/// Sets in constants.
impl<'data> CodePointInversionList<'data> {
    /// Returns the set with these boundaries, which it borrows. They are tested as by
    /// [`try_from_inversion_list`](Self::try_from_inversion_list), also in a constant.
    ///
    /// # Errors
    /// Returns [`InvalidStaticSet`] if the boundaries are not an inversion list.
    pub const fn try_from_static(
        ends: ZeroSlice<'data, PotentialCodePoint>,
    ) -> Result<Self, InvalidStaticSet> {
        match valid_size(ends.as_bytes()) {
            Some(size) => Ok(CodePointInversionList {
                ends: ends.as_zerovec(),
                size,
            }),
            None => Err(InvalidStaticSet),
        }
    }

    /// Returns the set with these boundaries, which it borrows. In a constant, boundaries that are
    /// not an inversion list do not compile.
    ///
    /// ```
    /// use bekstaudi::codepointinvlist::CodePointInversionList;
    /// use bekstaudi::zerovec::PotentialCodePoint;
    /// use bekstaudi::zeroslice;
    ///
    /// static LETTERS: CodePointInversionList<'static> = CodePointInversionList::from_static(
    ///     zeroslice!(PotentialCodePoint as u32; [0x41, 0x5B, 0x61, 0x7B]),
    /// );
    /// assert!(LETTERS.contains('Z') && !LETTERS.contains('['));
    /// ```
    ///
    /// The boundaries that `ucptrie set --as rust --name letters` writes become a set like this:
    ///
    /// ```
    /// # use bekstaudi::codepointinvlist::CodePointInversionList;
    /// # use bekstaudi::zerovec::PotentialCodePoint;
    /// # use bekstaudi::zeroslice;
    /// mod made {
    /// # /*
    ///     include!("letters.rs");
    /// # */
    /// #   pub mod letters {
    /// #     pub static BOUNDARIES: [u32; 2] = [0x41, 0x5B];
    /// #   }
    /// }
    /// static LETTERS: CodePointInversionList<'static> = CodePointInversionList::from_static(
    ///     zeroslice!(PotentialCodePoint as u32; made::letters::BOUNDARIES),
    /// );
    /// assert_eq!(LETTERS.size(), 26);
    /// ```
    ///
    /// Boundaries that are not strictly ascending do not compile:
    ///
    /// ```compile_fail,E0080
    /// # use bekstaudi::codepointinvlist::CodePointInversionList;
    /// # use bekstaudi::zerovec::PotentialCodePoint;
    /// # use bekstaudi::zeroslice;
    /// static LETTERS: CodePointInversionList<'static> = CodePointInversionList::from_static(
    ///     zeroslice!(PotentialCodePoint as u32; [0x41, 0x5B, 0x5B, 0x7B]),
    /// );
    /// ```
    ///
    /// # Panics
    /// Panics if the boundaries are not an inversion list.
    #[must_use]
    pub const fn from_static(ends: ZeroSlice<'data, PotentialCodePoint>) -> Self {
        CodePointInversionList {
            ends: ends.as_zerovec(),
            size: size_or_panic(ends.as_bytes()),
        }
    }
}

// What databake writes, under the Rust crate's names. Each function tests its parts nevertheless.
impl<'data> CodePointInversionList<'data> {
    #[doc(hidden)]
    #[must_use]
    pub const fn from_parts_unchecked(ends: ZeroVec<'data, PotentialCodePoint>, _: u32) -> Self {
        let size = size_or_panic(ends.as_bytes());
        CodePointInversionList { ends, size }
    }
}

impl<'trie, T: ConstValue> CodePointTrie<'trie, T> {
    #[doc(hidden)]
    #[must_use]
    pub const fn from_parts_unstable_unchecked_v1(
        header: CodePointTrieHeader,
        index: ZeroVec<'trie, u16>,
        data: ZeroVec<'trie, T>,
        _error_value: T,
        _null_value: T,
    ) -> Self {
        require_parts::<T>(&header, index.as_bytes(), data.as_bytes());
        CodePointTrie { header, index, data }
    }
}

impl<'data> Char16Trie<'data> {
    /// Returns the trie of these units, which it borrows. Like [`new`](Self::new), it does not
    /// validate them, also in a constant: look-ups return on all units.
    /// [`unit_trie!`](crate::unit_trie) also validates them.
    ///
    /// ```
    /// use bekstaudi::{char16trie::Char16Trie, zeroslice};
    ///
    /// // The map of "ab" to 3.
    /// static WORDS: Char16Trie<'static> =
    ///     Char16Trie::from_static(zeroslice!(u16; [0x31, 0x61, 0x62, 0x8003]));
    /// assert_eq!(WORDS.longest_match_str("abc"), Some((2, 3)));
    /// ```
    #[must_use]
    pub const fn from_static(units: ZeroSlice<'data, u16>) -> Self {
        Char16Trie::new(units.as_zerovec())
    }
}
