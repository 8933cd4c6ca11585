//! Reading the data of a trie as values of another type.

use crate::icu_trie::cptrie::CodePointTrie;
use crate::icu_trie::error::ConvertError;
use crate::icu_trie_core::header::CodePointTrieHeader;
use crate::icu_trie_core::value::TrieValue;
use crate::icu_zerovec::ZeroVec;
use crate::icu_zerovec::ule::{AsULE, UleError};
use crate::support::prelude::*;

/// Returns the value of the other type that has the same packed bytes, or `None` if there is none.
#[inline]
fn same_packed<T: AsULE, P: AsULE>(value: T) -> Option<P> {
    P::from_unaligned(&value.to_unaligned()[..P::WIDTH])
}

impl<'trie, T: TrieValue> CodePointTrie<'trie, T> {
    /// Converts the trie to values of another type of the same width, without copying.
    ///
    /// The index and the bytes of the data are unchanged, and borrowed or owned as before. The
    /// header's null value becomes the other type's number for the same packed bytes.
    ///
    /// # Errors
    /// The trie is dropped, and the first of these that applies is returned:
    /// - `Width` if values of the two types take different numbers of bytes;
    /// - `Cell` with the position of the first data cell that is not a value of the other type,
    ///   which may be the error value;
    /// - `ErrorOrNull` if the packed bytes of the null value are not a value of the other type.
    pub fn try_into_converted_explained<P: TrieValue>(
        self,
    ) -> Result<CodePointTrie<'trie, P>, ConvertError> {
        if T::WIDTH != P::WIDTH {
            return Err(ConvertError::Width);
        }
        let null = self.null_value();
        let CodePointTrie {
            header,
            index,
            data,
        } = self;
        let data = match data.try_into_converted::<P>() {
            Ok(data) => data,
            Err(UleError::Cell(i)) => return Err(ConvertError::Cell(i)),
            Err(UleError::Length) => unreachable!(),
        };
        let Some(null) = same_packed::<T, P>(null) else {
            return Err(ConvertError::ErrorOrNull);
        };
        Ok(CodePointTrie::with_data(header, index, data, null))
    }

    /// Returns the trie of parts that were already checked, with this null value.
    pub(crate) fn with_data(
        header: CodePointTrieHeader,
        index: ZeroVec<'trie, u16>,
        data: ZeroVec<'trie, T>,
        null: T,
    ) -> Self {
        CodePointTrie {
            header: CodePointTrieHeader {
                null_value: null.to_u32(),
                ..header
            },
            index,
            data,
        }
    }
}
