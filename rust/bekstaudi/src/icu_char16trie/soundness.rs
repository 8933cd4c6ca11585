//! Whether units are a trie: there has to be a node at each index that the root leads to.
//!
//! Each node comes before those that it leads to, so one pass over the units is enough. A node that
//! is valid so far marks, in `wanted`, the indices at which other nodes are required.

use crate::icu_char16trie::encoded::{
    delta_end, entry_child, lower_part, node_end, node_number, run_len, short_end, short_number,
    two_at, unit_at,
};
use crate::icu_char16trie::impl_const::{
    MAX_BRANCH_LINEAR_SUB_NODE_LENGTH, MIN_LINEAR_MATCH, MIN_VALUE_LEAD, VALUE_IS_FINAL,
};
use crate::icu_char16trie::trie::Char16Trie;
use crate::icu_zerovec::{MemoryError, ZeroSlice};
use crate::support::prelude::*;

/// Marks `place` as the index of a required node. `None` if there is no unit.
#[inline]
fn want(wanted: &mut [bool], place: usize) -> Option<()> {
    if place >= wanted.len() {
        return None;
    }
    wanted[place] = true;
    Some(())
}

/// Checks a row of at most five entries and marks the nodes that it leads to. Its units must ascend
/// and be at least `from`. Returns one more than the last unit.
fn check_row(
    units: ZeroSlice<'_, u16>,
    wanted: &mut [bool],
    row: usize,
    count: usize,
    from: usize,
) -> Option<usize> {
    let mut left = count;
    let mut place = row;
    let mut least = from;
    while left > 1 {
        let (unit, value) = two_at(units, place)?;
        let child = entry_child(units, place + 2, value)?;
        if usize::from(unit) < least {
            return None;
        }
        want(wanted, child)?;
        least = usize::from(unit) + 1;
        place = short_end(place + 2, value % VALUE_IS_FINAL);
        left -= 1;
    }
    let last = unit_at(units, place)?;
    if usize::from(last) < least {
        return None;
    }
    want(wanted, place + 1)?;
    Some(usize::from(last) + 1)
}

/// Checks a part of a branch and marks the nodes that it leads to. Its units must ascend and be at
/// least `from`. Returns one more than the last unit. The recursion is at most 16 deep.
fn check_part(
    units: ZeroSlice<'_, u16>,
    wanted: &mut [bool],
    part: usize,
    count: usize,
    from: usize,
) -> Option<usize> {
    if count <= MAX_BRANCH_LINEAR_SUB_NODE_LENGTH {
        return check_row(units, wanted, part, count, from);
    }
    let (split, delta) = two_at(units, part)?;
    let low = lower_part(units, part + 2, delta)?;
    let half = count / 2;
    let next = check_part(units, wanted, low, half, from)?;
    if usize::from(split) < next {
        return None;
    }
    let high = delta_end(part + 2, delta);
    check_part(units, wanted, high, count - half, usize::from(split))
}

/// Checks the own units of a match node and marks the nodes that it leads to. `low` is the low six
/// bits of its lead unit, and `place` is the index after the lead and its value.
fn check_match(
    units: ZeroSlice<'_, u16>,
    wanted: &mut [bool],
    place: usize,
    low: u16,
) -> Option<()> {
    if low >= MIN_LINEAR_MATCH {
        return want(wanted, place + run_len(low));
    }
    if low > 0 {
        check_part(units, wanted, place, usize::from(low) + 1, 0)?;
        return Some(());
    }
    let length = unit_at(units, place)?;
    if length == 0 {
        return None;
    }
    check_part(units, wanted, place + 1, usize::from(length) + 1, 0)?;
    Some(())
}

/// Checks the own units of a node and marks the nodes that it leads to.
#[inline]
pub(crate) fn check_node(
    units: ZeroSlice<'_, u16>,
    wanted: &mut [bool],
    place: usize,
) -> Option<()> {
    let lead = unit_at(units, place)?;
    if lead >= VALUE_IS_FINAL {
        short_number(units, place + 1, lead - VALUE_IS_FINAL)?;
        return Some(());
    }
    if lead < MIN_VALUE_LEAD {
        return check_match(units, wanted, place + 1, lead);
    }
    node_number(units, place + 1, lead)?;
    let end = node_end(place + 1, lead);
    check_match(units, wanted, end, lead % MIN_VALUE_LEAD)
}

/// Returns true if there is a node at each marked index.
#[inline]
pub(crate) fn has_all_wanted(units: ZeroSlice<'_, u16>, wanted: &mut [bool]) -> bool {
    for place in 0..units.len() {
        if wanted[place] && check_node(units, wanted, place).is_none() {
            return false;
        }
    }
    true
}

impl<'data> Char16Trie<'data> {
    /// Returns true if the units are the trie of some map. Then a listing of them, even if they are
    /// untrusted, gives exactly the entries of that map.
    ///
    /// [`Char16Trie::new`] does not check this, and the Rust crate and ICU have no such check.
    /// [`Char16Trie::count_entries`] returns the number of entries, and so how long a listing
    /// takes.
    ///
    /// The units are a trie if there is a valid node at each index that the root leads to. The
    /// lead, the value and the linear match or branch of a node must be complete. A branch must
    /// have at least two entries, and its units must strictly ascend, also relative to its split
    /// units. An empty list of units is the trie of the empty map. Units that no node leads to are
    /// ignored. Two nodes may lead to the same node, as in tries from ICU's builder.
    ///
    /// Takes time linear in the number of units if no two branches share a part. In untrusted units
    /// they may, and a branch has up to 65,536 entries: then it takes up to 65,536 steps for each
    /// unit, of about 5 ns each. The slowest 848 kB that we know take 2 s. Allocates one byte for
    /// each unit.
    ///
    /// ```
    /// use bekstaudi::char16trie::Char16Trie;
    ///
    /// // The map of "ab" to 3.
    /// let trie = Char16Trie::new([0x31, 0x61, 0x62, 0x8003].into_iter().collect());
    /// assert!(trie.try_is_trie()?);
    /// // No node after the linear match.
    /// let trie = Char16Trie::new([0x31, 0x61, 0x62].into_iter().collect());
    /// assert!(!trie.try_is_trie()?);
    /// // The units of the branch descend.
    /// let trie = Char16Trie::new([1, 0x62, 0x8001, 0x61, 0x8002].into_iter().collect());
    /// assert!(!trie.try_is_trie()?);
    /// # Ok::<(), Box<dyn std::error::Error>>(())
    /// ```
    ///
    /// # Errors
    /// Returns `MemoryError` if an allocation fails.
    #[inline]
    pub fn try_is_trie(&self) -> Result<bool, MemoryError> {
        let units = self.data.as_slice();
        if units.is_empty() {
            return Ok(true);
        }
        let mut wanted = try_vec![false; units.len()]?;
        wanted[0] = true;
        Ok(has_all_wanted(units, &mut wanted))
    }
}
