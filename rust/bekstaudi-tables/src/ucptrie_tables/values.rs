//! The same numbers as values of another type.

use crate::host::*;
use crate::support::prelude::*;
use bekstaudi::codepointtrie::CodePointTrie;
use bekstaudi::codepointtrie::MapError;
use bekstaudi::codepointtrie::TrieValue;

/// Returns the value with the number of another type's value, or that number if there is no such
/// value.
fn same_number<T: TrieValue, P: TrieValue>(value: T) -> Result<P, u32> {
    let number = value.to_u32();
    let Ok(same) = P::try_from_u32(number) else {
        return Err(number);
    };
    Ok(same)
}

/// Returns the trie that has the same numbers as values of another type.
///
/// Tries the error value, the null value and each cell, in this order. `Closure` has the first
/// number for which there is no such value.
pub fn with_values_of<P: TrieValue, T: TrieValue>(
    trie: &CodePointTrie<'_, T>,
) -> Result<CodePointTrie<'static, P>, MapError<u32>> {
    trie.try_alloc_map_value_fallible(|value: T| same_number::<T, P>(value))
}
