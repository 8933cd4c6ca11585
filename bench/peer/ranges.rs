//! The ranges of code point tries, and the sets of their values.
use crate::mixed;
use crate::set_builder::Builder;
use crate::tries::{LAST, Parts, Trie, Value, over};

/// The code points from `first` to `last`, both inclusive, with their value.
#[derive(Clone)]
struct Range<T> {
    first: u32,
    last: u32,
    value: T,
}

/// The offset of no block and no table.
const NOWHERE: u32 = u32::MAX;

impl<T: Value> Trie<'_, T> {
    /// Returns the range that starts at `first` and ends before the value changes. Repeated blocks
    /// and tables are skipped whole, and so are those of the null value.
    fn range_from(&self, first: u32) -> Option<Range<T>> {
        if first > LAST {
            return None;
        }
        if first >= self.high_start {
            return Some(Range { first, last: LAST, value: self.high_value()? });
        }
        let mut seen: Option<T> = None;
        let (mut last_table, mut last_block) = (NOWHERE, NOWHERE);
        let mut c = first;
        while c < self.high_start {
            let (table, mut nth, entries, length);
            if c <= 0xFFFF && (self.is_fast || c <= 0xFFF) {
                (table, nth, length) = (0, c >> 6, 64);
                entries = if self.is_fast { 0x400 } else { 0x40 };
            } else {
                table = self.table_of(c)?;
                if table == last_table && c - first >= 512 {
                    c += 512;
                    continue;
                }
                last_table = table;
                if table == self.null_table {
                    match seen {
                        Some(value) if value != self.null => {
                            return Some(Range { first, last: c - 1, value });
                        }
                        _ => seen = Some(self.null),
                    }
                    last_block = self.null_block;
                    c = (c + 512) & !511;
                    continue;
                }
                (nth, entries, length) = (c >> 4 & 31, 32, 16);
            }
            while nth < entries {
                let block = self.block_of(table, nth)?;
                nth += 1;
                if block == last_block && c - first >= length {
                    c += length;
                    continue;
                }
                last_block = block;
                let end = (c + length) & !(length - 1);
                if block == self.null_block {
                    match seen {
                        Some(value) if value != self.null => {
                            return Some(Range { first, last: c - 1, value });
                        }
                        _ => seen = Some(self.null),
                    }
                    c = end;
                    continue;
                }
                let mut place = block + (c & (length - 1));
                let value = match seen {
                    Some(value) => value,
                    None => self.value_at(place)?,
                };
                seen = Some(value);
                while c < end {
                    if self.value_at(place)? != value {
                        return Some(Range { first, last: c - 1, value });
                    }
                    place += 1;
                    c += 1;
                }
            }
        }
        let value = seen?;
        let last = if self.high_value()? == value { LAST } else { c - 1 };
        Some(Range { first, last, value })
    }

    fn ranges(&self) -> Ranges<'_, T> {
        Ranges { trie: self, next: 0 }
    }
}

struct Ranges<'a, T: Value> {
    trie: &'a Trie<'a, T>,
    next: u32,
}

impl<T: Value> Iterator for Ranges<'_, T> {
    type Item = Range<T>;

    fn next(&mut self) -> Option<Range<T>> {
        let range = self.trie.range_from(self.next)?;
        self.next = range.last + 1;
        Some(range)
    }
}

#[inline(never)]
fn mixed_ranges<T: Value>(trie: &Trie<T>, sum: u64) -> u64 {
    trie.ranges().fold(sum, |sum, range| mixed(sum, range.last ^ range.value.number()))
}

macro_rules! calls {
    ($value:ty, $ranges:ident) => {
        #[unsafe(no_mangle)]
        unsafe extern "C" fn $ranges(parts: &Parts, turns: usize) -> u64 {
            let trie = unsafe { Trie::<$value>::of_parts(parts) };
            over(turns, |sum| mixed_ranges(&trie, sum))
        }
    };
}

calls!(u8, rust_ranges_8);
calls!(u16, rust_ranges_16);
calls!(u32, rust_ranges_32);

#[unsafe(no_mangle)]
unsafe extern "C" fn rust_setfor_8(parts: &Parts, value: u8, turns: usize) -> u64 {
    let trie = unsafe { Trie::<u8>::of_parts(parts) };
    over(turns, |sum| {
        let mut builder = Builder::default();
        for range in trie.ranges().filter(|range| range.value == value) {
            builder.add_range(range.first, range.last + 1);
        }
        sum.wrapping_add(builder.build().mixed())
    })
}
