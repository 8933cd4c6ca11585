//! Sets of code points: inversion lists of packed boundaries.
use crate::tries::over;
use crate::{mixed, slice};

/// A boundary in three bytes, lowest first.
pub type Cell = [u8; 3];

pub fn number(cell: &Cell) -> u32 {
    u32::from_le_bytes([cell[0], cell[1], cell[2], 0])
}

/// A set over owned or borrowed cells, with the number of its members.
pub struct Set<C: AsRef<[Cell]>> {
    cells: C,
    size: u32,
}

impl<C: AsRef<[Cell]>> Set<C> {
    /// Makes the set from these boundaries, which must ascend and be even in number.
    pub fn of_cells(cells: C) -> Self {
        let ends = cells.as_ref();
        assert!(
            ends.len() % 2 == 0 && ends.windows(2).all(|pair| number(&pair[0]) < number(&pair[1]))
        );
        let size = ends.chunks(2).map(|pair| number(&pair[1]) - number(&pair[0])).sum();
        Set { cells, size }
    }

    pub fn ends(&self) -> &[Cell] {
        self.cells.as_ref()
    }

    /// The ranges, each as its first member and the code point after its last.
    pub fn ranges(&self) -> impl ExactSizeIterator<Item = (u32, u32)> + '_ {
        self.ends().chunks(2).map(|pair| (number(&pair[0]), number(&pair[1])))
    }

    /// Returns the position in the list of the start of the range that contains `c`.
    fn range_of(&self, c: u32) -> Option<usize> {
        if c > 0xFF_FFFF {
            return None;
        }
        match self.ends().binary_search_by(|end| number(end).cmp(&c)) {
            Ok(place) => (place % 2 == 0).then_some(place),
            Err(place) => (place % 2 != 0 && place < self.ends().len()).then(|| place - 1),
        }
    }

    pub fn contains32(&self, c: u32) -> bool {
        self.range_of(c).is_some()
    }

    pub fn contains(&self, c: char) -> bool {
        self.range_of(c as u32).is_some()
    }

    /// Returns how many members are below `c`, if `c` is a member.
    #[inline]
    fn position32(&self, c: u32) -> Option<usize> {
        let mut below = 0;
        for (start, end) in self.ranges() {
            if c < start {
                return None;
            }
            if c < end {
                return Some((below + (c - start)) as usize);
            }
            below += end - start;
        }
        None
    }

    /// Like the crate's, but the crate also accepts a range whose last code point is one past the
    /// range that should contain it.
    fn contains_set(&self, other: &Self) -> bool {
        if other.size > self.size {
            return false;
        }
        let mut others = other.ranges();
        let mut wanted = others.next();
        for (start, end) in self.ranges() {
            loop {
                let Some((from, till)) = wanted else {
                    return true;
                };
                if from < start || till > end {
                    break;
                }
                wanted = others.next();
            }
        }
        wanted.is_none()
    }

    /// Mixes all ranges into one number.
    pub fn mixed(&self) -> u64 {
        self.ranges().fold(0, |sum, (start, end)| mixed(mixed(sum, start), end - 1))
    }
}

/// # Safety
/// The bytes are whole cells.
pub unsafe fn set<'a>(bytes: *const u8, len: usize) -> Set<&'a [Cell]> {
    Set::of_cells(unsafe { slice(bytes as *const Cell, len / 3) })
}

/// Adds to `sum` the number of characters of a text that are in the set.
#[inline(never)]
fn add_held<C: AsRef<[Cell]>>(set: &Set<C>, text: &str, sum: u64) -> u64 {
    text.chars().fold(sum, |sum, c| sum + set.contains(c) as u64)
}

#[unsafe(no_mangle)]
unsafe extern "C" fn rust_contains(
    ends: *const u8,
    len: usize,
    points: *const u32,
    count: usize,
) -> u64 {
    let (set, points) = unsafe { (set(ends, len), slice(points, count)) };
    points.iter().map(|c| set.contains32(*c) as u64).sum()
}

#[unsafe(no_mangle)]
unsafe extern "C" fn rust_contains_text(
    ends: *const u8,
    len: usize,
    text: *const u8,
    count: usize,
    turns: usize,
) -> u64 {
    let (set, text) = unsafe { (set(ends, len), slice(text, count)) };
    std::str::from_utf8(text).map_or(u64::MAX, |text| over(turns, |sum| add_held(&set, text, sum)))
}

#[unsafe(no_mangle)]
unsafe extern "C" fn rust_position(
    ends: *const u8,
    len: usize,
    points: *const u32,
    count: usize,
) -> u64 {
    let (set, points) = unsafe { (set(ends, len), slice(points, count)) };
    points.iter().map(|c| set.position32(*c).unwrap_or(7) as u64).sum()
}

#[inline(never)]
fn added_ranges(set: &Set<&[Cell]>, sum: u64) -> u64 {
    set.ranges().fold(sum, |sum, (start, end)| sum + (start ^ 7) as u64 + (end - 1) as u64)
}

#[unsafe(no_mangle)]
unsafe extern "C" fn rust_set_iter(ends: *const u8, len: usize, turns: usize) -> u64 {
    let set = unsafe { set(ends, len) };
    over(turns, |sum| added_ranges(&set, sum))
}

/// Adds to `sum` the numbers of all characters in the set. A range may have surrogates in it.
#[inline(never)]
fn added_chars(set: &Set<&[Cell]>, sum: u64) -> u64 {
    let chars = set.ranges().flat_map(|(start, end)| (start..end).filter_map(char::from_u32));
    let mut sum = sum;
    for c in chars {
        sum += (c as u32 ^ 7) as u64;
    }
    sum
}

#[unsafe(no_mangle)]
unsafe extern "C" fn rust_set_iter_chars(ends: *const u8, len: usize, turns: usize) -> u64 {
    let set = unsafe { set(ends, len) };
    over(turns, |sum| added_chars(&set, sum))
}

#[unsafe(no_mangle)]
unsafe extern "C" fn rust_contains_set(
    a: *const u8,
    a_len: usize,
    b: *const u8,
    b_len: usize,
    turns: usize,
) -> u64 {
    let (a, b) = unsafe { (set(a, a_len), set(b, b_len)) };
    over(turns, |sum| sum + std::hint::black_box(&a).contains_set(&b) as u64)
}
