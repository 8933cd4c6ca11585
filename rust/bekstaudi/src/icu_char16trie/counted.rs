//! Counts the entries of a trie.
//!
//! Several nodes may lead to the same node, so a few units can have very many entries. A node comes
//! before the nodes that it leads to, and its entries are its own value and theirs. So the nodes
//! are counted from the last one back to the root.

use crate::icu_char16trie::encoded::{
    delta_end, entry_child, lower_part, node_end, run_len, short_end, two_at, unit_at,
};
use crate::icu_char16trie::impl_const::{
    MAX_BRANCH_LINEAR_SUB_NODE_LENGTH, MIN_LINEAR_MATCH, MIN_VALUE_LEAD, VALUE_IS_FINAL,
};
use crate::icu_char16trie::soundness::has_all_wanted;
use crate::icu_char16trie::trie::Char16Trie;
use crate::icu_zerovec::{MemoryError, ZeroSlice};
use crate::support::prelude::*;

/// Returns the count at `place`, or 0 past the end.
#[inline]
fn count_at(counts: &[u64], place: usize) -> u64 {
    counts.get(place).copied().unwrap_or(0)
}

/// Returns the sum of two counts, or `u64::MAX` if it overflows.
#[inline]
fn both_counts(first: u64, second: u64) -> u64 {
    first.saturating_add(second)
}

/// Returns the number of entries of the nodes of a row, which has at most five entries.
fn count_row(units: ZeroSlice<'_, u16>, counts: &[u64], row: usize, count: usize) -> Option<u64> {
    let mut left = count;
    let mut place = row;
    let mut total = 0;
    while left > 1 {
        let (_unit, value) = two_at(units, place)?;
        let child = entry_child(units, place + 2, value)?;
        total = both_counts(total, count_at(counts, child));
        place = short_end(place + 2, value % VALUE_IS_FINAL);
        left -= 1;
    }
    let _last = unit_at(units, place)?;
    Some(both_counts(total, count_at(counts, place + 1)))
}

/// Returns the number of entries of the nodes of a part of a branch. The recursion is at most 16
/// deep.
#[inline]
fn count_part(units: ZeroSlice<'_, u16>, counts: &[u64], part: usize, count: usize) -> Option<u64> {
    if count <= MAX_BRANCH_LINEAR_SUB_NODE_LENGTH {
        return count_row(units, counts, part, count);
    }
    let (_split, delta) = two_at(units, part)?;
    let low = lower_part(units, part + 2, delta)?;
    let half = count / 2;
    let lower = count_part(units, counts, low, half)?;
    let high = delta_end(part + 2, delta);
    let upper = count_part(units, counts, high, count - half)?;
    Some(both_counts(lower, upper))
}

/// Returns the number of entries of the nodes that a match node leads to. `low` is the low six bits
/// of its lead unit, and `place` is the index after the lead and its value.
#[inline]
fn count_match(units: ZeroSlice<'_, u16>, counts: &[u64], place: usize, low: u16) -> Option<u64> {
    if low >= MIN_LINEAR_MATCH {
        let after = count_at(counts, place + run_len(low));
        return Some(after);
    }
    if low > 0 {
        return count_part(units, counts, place, usize::from(low) + 1);
    }
    let length = unit_at(units, place)?;
    count_part(units, counts, place + 1, usize::from(length) + 1)
}

/// Returns the number of entries of a node, given the counts of the nodes that it leads to.
#[inline]
fn count_node(units: ZeroSlice<'_, u16>, counts: &[u64], place: usize) -> Option<u64> {
    let lead = unit_at(units, place)?;
    if lead >= VALUE_IS_FINAL {
        return Some(1);
    }
    if lead < MIN_VALUE_LEAD {
        return count_match(units, counts, place + 1, lead);
    }
    let end = node_end(place + 1, lead);
    let longer = count_match(units, counts, end, lead % MIN_VALUE_LEAD)?;
    Some(both_counts(1, longer))
}

/// Counts the entries of each node that is marked in `wanted`.
#[inline]
fn count_wanted(units: ZeroSlice<'_, u16>, wanted: &[bool], counts: &mut [u64]) {
    let mut place = units.len();
    while place > 0 {
        place -= 1;
        if wanted[place] {
            let count = count_node(units, counts, place).unwrap_or(0);
            counts[place] = count;
        }
    }
}

/// Returns the number of entries of the root, or `None` if the units are not a trie. Only the root
/// is marked in `wanted`.
#[inline]
fn count_at_root(
    units: ZeroSlice<'_, u16>,
    wanted: &mut [bool],
    counts: &mut [u64],
) -> Option<u64> {
    if !has_all_wanted(units, wanted) {
        return None;
    }
    count_wanted(units, wanted, counts);
    Some(counts[0])
}

impl<'data> Char16Trie<'data> {
    /// Returns the number of entries of the trie, capped at `u64::MAX`, or `None` if the units are
    /// not a trie, which is when [`Char16Trie::is_trie`] returns false.
    ///
    /// Takes time linear in the number of units, however many entries there are, if no two branches
    /// share a part. In untrusted units they may, and a branch has up to 65,536 entries: then it
    /// takes up to 65,536 steps for each unit, of 10 to 15 ns each. Allocates nine bytes for each
    /// unit.
    ///
    /// ```
    /// use bekstaudi::char16trie::Char16Trie;
    ///
    /// // The map of "a" to 1 and "ab" to 2.
    /// let trie = Char16Trie::new([0x30, 0x61, 0xB0, 0x62, 0x8002].into_iter().collect());
    /// assert_eq!(trie.try_count_entries()?, Some(2));
    /// // Twenty branches, each of two units that both lead to the next one.
    /// let mut units = [1, 0x61, 1, 0x62].repeat(20);
    /// units.push(0x8001);
    /// let trie = Char16Trie::new(units.into_iter().collect());
    /// assert_eq!(trie.try_count_entries()?, Some(1 << 20));
    /// # Ok::<(), Box<dyn std::error::Error>>(())
    /// ```
    ///
    /// # Errors
    /// Returns `MemoryError` if an allocation fails.
    #[inline]
    pub fn try_count_entries(&self) -> Result<Option<u64>, MemoryError> {
        let units = self.data.as_slice();
        if units.is_empty() {
            return Ok(Some(0));
        }
        let mut wanted = try_vec![false; units.len()]?;
        wanted[0] = true;
        let mut counts = try_vec![0u64; units.len()]?;
        Ok(count_at_root(units, &mut wanted, &mut counts))
    }
}
