//! Look-ups in code point tries.
use crate::slice;

/// A trie's value: a number that is stored as bytes, lowest first.
pub trait Value: Copy + PartialEq {
    type Cell: Copy;
    fn of_cell(cell: Self::Cell) -> Self;
    fn of_number(number: u32) -> Self;
    fn number(self) -> u32;
}

macro_rules! value {
    ($type:ty, $bytes:literal) => {
        impl Value for $type {
            type Cell = [u8; $bytes];

            #[inline]
            fn of_cell(cell: Self::Cell) -> Self {
                <$type>::from_le_bytes(cell)
            }

            #[inline]
            fn of_number(number: u32) -> Self {
                number as $type
            }

            #[inline]
            fn number(self) -> u32 {
                self as u32
            }
        }
    };
}

value!(u8, 1);
value!(u16, 2);
value!(u32, 4);

/// The parts of a trie as the driver passes them.
#[repr(C)]
#[derive(Clone, Copy)]
pub struct Parts {
    index: *const u8,
    index_len: usize,
    data: *const u8,
    data_len: usize,
    high_start: u32,
    data_null_offset: u32,
    null_value: u32,
    index3_null_offset: u16,
    is_fast: bool,
}

/// A trie over borrowed cells. `of_parts` asserts that its fast path stays inside the data.
pub struct Trie<'a, T: Value> {
    index: &'a [[u8; 2]],
    data: &'a [T::Cell],
    pub high_start: u32,
    pub null_block: u32,
    pub null_table: u32,
    pub is_fast: bool,
    pub null: T,
    error: T,
}

pub const LAST: u32 = 0x10_FFFF;

impl<T: Value> Trie<'_, T> {
    /// # Safety
    /// The parts are slices of whole cells that outlive the trie.
    pub unsafe fn of_parts(parts: &Parts) -> Self {
        let index: &[[u8; 2]] = unsafe { slice(parts.index.cast(), parts.index_len / 2) };
        let data: &[T::Cell] =
            unsafe { slice(parts.data.cast(), parts.data_len / size_of::<T::Cell>()) };
        let near = if parts.is_fast { 0x400 } else { 0x40 };
        let farthest = index[..near].iter().map(|cell| u16::from_le_bytes(*cell) as usize).max();
        assert!(
            farthest.is_some_and(|block| block + 63 < data.len()),
            "the fast path leaves the data"
        );
        Trie {
            index,
            data,
            high_start: parts.high_start,
            null_block: parts.data_null_offset,
            null_table: parts.index3_null_offset as u32,
            is_fast: parts.is_fast,
            null: T::of_number(parts.null_value),
            error: T::of_cell(data[data.len() - 1]),
        }
    }

    /// Returns the last code point of the fast path.
    #[inline(always)]
    fn last_near(&self) -> u32 {
        if self.is_fast { 0xFFFF } else { 0xFFF }
    }

    #[inline]
    pub fn index_at(&self, place: u32) -> Option<u32> {
        self.index.get(place as usize).map(|cell| u16::from_le_bytes(*cell) as u32)
    }

    #[inline]
    pub fn value_at(&self, place: u32) -> Option<T> {
        self.data.get(place as usize).map(|cell| T::of_cell(*cell))
    }

    /// Returns the value of the code points from the high start on.
    pub fn high_value(&self) -> Option<T> {
        self.value_at((self.data.len() as u32).wrapping_sub(2))
    }

    /// Returns the value by two reads without a bounds test.
    ///
    /// # Safety
    /// `c` is at most `last_near`.
    #[inline(always)]
    unsafe fn near_value(&self, c: u32) -> T {
        unsafe {
            let block = u16::from_le_bytes(*self.index.get_unchecked((c >> 6) as usize));
            T::of_cell(*self.data.get_unchecked(block as usize + (c & 63) as usize))
        }
    }

    /// Reads the first two index stages: the offset of the table of the block of 512 code points.
    #[inline]
    pub fn table_of(&self, c: u32) -> Option<u32> {
        let first = (c >> 14) + if self.is_fast { 0x400 - 4 } else { 0x40 };
        self.index_at(self.index_at(first)?.wrapping_add(c >> 9 & 31))
    }

    /// Reads the third index stage: the offset of the block of 16 values that is entry `nth` of a
    /// table. If bit 15 of `table` is set, the entries have 18 bits: in groups of eight, with their
    /// high bits in the cell before them.
    #[inline]
    pub fn block_of(&self, table: u32, nth: u32) -> Option<u32> {
        if table & 0x8000 == 0 {
            return self.index_at(table + nth);
        }
        let group = (table & 0x7FFF) + (nth & !7) + (nth >> 3);
        let within = nth & 7;
        let high = self.index_at(group)? << (2 + 2 * within) & 0x3_0000;
        Some(high | self.index_at(group + 1 + within)?)
    }

    fn far_place(&self, c: u32) -> Option<u32> {
        if c >= self.high_start {
            return Some((self.data.len() as u32).wrapping_sub(2));
        }
        let table = self.table_of(c)?;
        Some(self.block_of(table, c >> 4 & 31)? + (c & 15))
    }

    #[inline(never)]
    fn far_value(&self, c: u32) -> T {
        self.far_place(c).and_then(|place| self.value_at(place)).unwrap_or(self.error)
    }

    /// Calls the slow path, which `#[cold]` marks as rare.
    #[cold]
    #[inline(always)]
    fn rare_value(&self, c: u32) -> T {
        self.far_value(c)
    }

    #[inline(always)]
    pub fn get32(&self, c: u32) -> T {
        if c <= self.last_near() {
            unsafe { self.near_value(c) }
        } else if c <= LAST {
            self.rare_value(c)
        } else {
            self.error
        }
    }

    #[inline(always)]
    pub fn get(&self, c: char) -> T {
        let c = c as u32;
        if c <= self.last_near() { unsafe { self.near_value(c) } } else { self.rare_value(c) }
    }
}

/// A trie whose type is known at compile time.
struct Typed<'a, T: Value, const FAST: bool>(&'a Trie<'a, T>);

impl<T: Value, const FAST: bool> Typed<'_, T, FAST> {
    #[inline(always)]
    fn get32(&self, c: u32) -> T {
        if c <= if FAST { 0xFFFF } else { 0xFFF } {
            unsafe { self.0.near_value(c) }
        } else if c <= LAST {
            self.0.rare_value(c)
        } else {
            self.0.error
        }
    }
}

/// Returns the number of a value, or its square: each loop is compiled for both.
#[inline(always)]
fn power<T: Value, const SQUARED: bool>(value: T) -> u64 {
    let number = value.number() as u64;
    if SQUARED { number.wrapping_mul(number) } else { number }
}

#[inline(never)]
fn add_values<T: Value, const SQUARED: bool>(trie: &Trie<T>, points: &[u32], sum: u64) -> u64 {
    points.iter().fold(sum, |sum, c| sum.wrapping_add(power::<T, SQUARED>(trie.get32(*c))))
}

#[inline(never)]
fn add_typed<T: Value, const FAST: bool, const SQUARED: bool>(
    trie: &Typed<T, FAST>,
    points: &[u32],
    sum: u64,
) -> u64 {
    points.iter().fold(sum, |sum, c| sum.wrapping_add(power::<T, SQUARED>(trie.get32(*c))))
}

#[inline(never)]
fn add_text<const SQUARED: bool>(trie: &Trie<u8>, text: &str, _: u64, sum: u64) -> u64 {
    text.chars().fold(sum, |sum, c| sum + power::<u8, SQUARED>(trie.get(c)))
}

#[inline(never)]
fn add_indices<const SQUARED: bool>(trie: &Trie<u8>, text: &str, _: u64, sum: u64) -> u64 {
    text.char_indices().fold(sum, |sum, (i, c)| sum + (i as u64 ^ power::<u8, SQUARED>(trie.get(c))))
}

#[inline(never)]
fn add_found<const SQUARED: bool>(trie: &Trie<u8>, text: &str, wanted: u64, sum: u64) -> u64 {
    let mut characters = text.char_indices();
    let found = characters.find(|(_, c)| power::<u8, SQUARED>(trie.get(*c)) == wanted);
    sum + found.map_or(text.len(), |(i, _)| i) as u64
}

/// Runs this many turns, starting from 0. Each takes the sum of the last, so that the compiler
/// removes none.
pub fn over(turns: usize, mut turn: impl FnMut(u64) -> u64) -> u64 {
    (0..turns).fold(0, |sum, _| turn(sum))
}

fn typed_sum<T: Value>(trie: &Trie<T>, points: &[u32], turns: usize) -> u64 {
    if trie.is_fast {
        typed_added_often(&Typed::<T, true>(trie), points, turns)
    } else {
        typed_added_often(&Typed::<T, false>(trie), points, turns)
    }
}

fn typed_added_often<T: Value, const FAST: bool>(
    trie: &Typed<T, FAST>,
    points: &[u32],
    turns: usize,
) -> u64 {
    let first = |sum| add_typed::<T, FAST, false>(trie, points, sum);
    over(turns / 2, |sum| add_typed::<T, FAST, true>(trie, points, first(sum)))
}

macro_rules! calls {
    ($value:ty, $get:ident, $typed:ident, $answers:ident) => {
        #[unsafe(no_mangle)]
        unsafe extern "C" fn $get(
            parts: &Parts,
            points: *const u32,
            len: usize,
            turns: usize,
        ) -> u64 {
            let (trie, points) = unsafe { (Trie::<$value>::of_parts(parts), slice(points, len)) };
            let first = |sum| add_values::<$value, false>(&trie, points, sum);
            over(turns / 2, |sum| add_values::<$value, true>(&trie, points, first(sum)))
        }

        #[unsafe(no_mangle)]
        unsafe extern "C" fn $typed(
            parts: &Parts,
            points: *const u32,
            len: usize,
            turns: usize,
        ) -> u64 {
            let (trie, points) = unsafe { (Trie::<$value>::of_parts(parts), slice(points, len)) };
            typed_sum(&trie, points, turns)
        }

        #[unsafe(no_mangle)]
        unsafe extern "C" fn $answers(
            parts: &Parts,
            points: *const u32,
            len: usize,
            answers: *mut u32,
            room: usize,
        ) -> bool {
            let (trie, points) = unsafe { (Trie::<$value>::of_parts(parts), slice(points, len)) };
            let answers = unsafe { std::slice::from_raw_parts_mut(answers, room) };
            points.iter().zip(answers).for_each(|(c, answer)| *answer = trie.get32(*c).number());
            true
        }
    };
}

calls!(u8, rust_get_8, rust_typed_8, rust_answers_8);
calls!(u16, rust_get_16, rust_typed_16, rust_answers_16);
calls!(u32, rust_get_32, rust_typed_32, rust_answers_32);

/// Each pair of turns has its own wanted value.
macro_rules! text_calls {
    ($call:ident, $add:ident) => {
        #[unsafe(no_mangle)]
        unsafe extern "C" fn $call(
            parts: &Parts,
            text: *const u8,
            len: usize,
            turns: usize,
        ) -> u64 {
            let (trie, text) = unsafe { (Trie::<u8>::of_parts(parts), slice(text, len)) };
            // As in ours, the text is UTF-8, and no time goes into a test of that.
            let text = unsafe { std::str::from_utf8_unchecked(text) };
            (0..turns as u64 / 2).fold(0, |sum, wanted| {
                let sum = $add::<false>(&trie, text, wanted, sum);
                $add::<true>(&trie, text, wanted, sum)
            })
        }
    };
}

text_calls!(rust_text_8, add_text);
text_calls!(rust_indices_8, add_indices);
text_calls!(rust_find_8, add_found);

#[inline(never)]
fn add_copied<const SQUARED: bool>(trie: &Trie<u8>, text: &str, values: &mut [u8], sum: u64) -> u64 {
    values.iter_mut().zip(text.chars()).for_each(|(value, c)| *value = trie.get(c));
    values.iter().fold(sum, |sum, value| sum + power::<u8, SQUARED>(*value))
}

#[unsafe(no_mangle)]
unsafe extern "C" fn rust_copy_8(
    parts: &Parts,
    text: *const u8,
    len: usize,
    values: *mut u8,
    room: usize,
    turns: usize,
) -> u64 {
    let (trie, text) = unsafe { (Trie::<u8>::of_parts(parts), slice(text, len)) };
    let values = unsafe { std::slice::from_raw_parts_mut(values, room) };
    let text = unsafe { std::str::from_utf8_unchecked(text) };
    over(turns / 2, |sum| {
        let sum = add_copied::<false>(&trie, text, values, sum);
        add_copied::<true>(&trie, text, values, sum)
    })
}

/// Returns the value of `A` in the trie of these parts.
#[inline(never)]
fn made(parts: &Parts) -> u64 {
    unsafe { Trie::<u8>::of_parts(parts) }.get32(0x41).number() as u64
}

#[unsafe(no_mangle)]
unsafe extern "C" fn rust_try_new_8(parts: &Parts, turns: usize) -> u64 {
    over(turns, |sum| sum + made(&Parts { null_value: sum as u32 & 1, ..*parts }))
}
