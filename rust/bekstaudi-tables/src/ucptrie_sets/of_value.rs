//! The set of the code points that have a value in a trie.

use crate::host::*;
use crate::support::prelude::*;
use crate::ucptrie_sets::error::ValueSetError;
use bekstaudi::codepointinvlist::CodePointInversionList;
use bekstaudi::codepointtrie::CodePointTrie;

/// Returns the set of the code points that have the value in the trie.
///
/// # Errors
/// - `ValueSetError::NotCoherent` if and only if the trie is not coherent. Tries that are
///   built are coherent; a trie from a file may not be.
/// - `ValueSetError::Memory` if an allocation fails.
pub fn set_of_value(
    trie: &CodePointTrie<'_, u32>,
    value: u32,
) -> Result<CodePointInversionList<'static>, ValueSetError> {
    if !trie.is_coherent() {
        return Err(ValueSetError::NotCoherent);
    }
    let set = trie.try_get_set_for_value(value)?;
    Ok(set)
}
