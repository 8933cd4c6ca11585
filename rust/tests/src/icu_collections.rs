//! The crate `icu_collections`, as `examples` names it.

pub(crate) mod codepointtrie {
    pub(crate) use crate::codepointtrie::*;
    pub(crate) use crate::icu_trie_core::cells::Cells;
    pub(crate) use crate::icu_trie_core::coherent::is_coherent;
    pub(crate) use crate::icu_trie_core::lookup::{look_up, look_up_whole};
    pub(crate) use crate::icu_trie_core::walk::walk;
    pub(crate) use crate::ledger::Steps;

    /// Without the feature `json`: the numbers of the header, by their keys in JSON.
    #[cfg(not(feature = "json"))]
    pub(crate) mod json {
        use crate::codepointtrie::{CodePointTrie, TrieValue};

        pub(crate) struct Whole(Header);

        impl Whole {
            pub(crate) fn get(&self, key: &str) -> Option<&Header> {
                (key == "header").then_some(&self.0)
            }
        }

        pub(crate) struct Header(crate::codepointtrie::CodePointTrieHeader);

        impl Header {
            pub(crate) fn get(&self, key: &str) -> Option<Number> {
                let number = match key {
                    "data_null_offset" => self.0.data_null_offset,
                    "index3_null_offset" => u32::from(self.0.index3_null_offset),
                    "null_value" => self.0.null_value,
                    "high_start" => self.0.high_start,
                    _ => return None,
                };
                Some(Number(number))
            }
        }

        pub(crate) struct Number(u32);

        impl Number {
            pub(crate) fn as_u64(&self) -> Option<u64> {
                Some(u64::from(self.0))
            }
        }

        pub(crate) fn to_json<T: TrieValue>(trie: &CodePointTrie<'_, T>) -> Result<Whole, ()> {
            Ok(Whole(Header(trie.parts().0)))
        }
    }
}
pub(crate) use crate::{
    char16trie, codepointinvlist, codepointinvliststringlist, iterator_utils, zerovec,
};
