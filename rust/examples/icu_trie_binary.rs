//# binary mod
use bekstaudi::codepointtrie::{CodePointTrieBuilder, TrieType, binary};

let mut builder = CodePointTrieBuilder::new(0u8, 9, TrieType::Small);
builder.set_range_value(0x41..=0x5A, 1);
let bytes = binary::to_binary(&builder.build())?;
// The bytes of a file are read in place, at any address.
let (trie, size) = binary::from_binary::<u8>(&bytes)?;
assert_eq!((trie.get('A'), size), (1, bytes.len()));
//# binary from_binary
use bekstaudi::codepointtrie::binary::{from_binary, to_binary};
use bekstaudi::codepointtrie::planes::get_planes_trie;

let mut bytes = to_binary(&get_planes_trie())?;
bytes.extend(b"next");
let (trie, len) = from_binary::<u8>(&bytes)?;
assert_eq!(trie.get32(0x1F600), 1);
assert_eq!(&bytes[len..], b"next");
//# binary from_binary_any
use bekstaudi::codepointtrie::binary::{AnyWidthTrie, from_binary_any, to_binary};
use bekstaudi::codepointtrie::planes::get_planes_trie;

let bytes = to_binary(&get_planes_trie())?;
let (trie, len) = from_binary_any(&bytes)?;
assert!(matches!(trie, AnyWidthTrie::Bits8(trie) if trie.get32(0x1F600) == 1));
assert_eq!(len, bytes.len());
//# swapped from_binary_swapped
use bekstaudi::codepointtrie::binary::{from_binary_swapped, to_binary};
use bekstaudi::codepointtrie::planes::get_planes_trie;

let mut bytes = to_binary(&get_planes_trie())?;
// The trie in the other byte order: the signature, and 16-bit units up to the data.
let data = 16 + 2 * usize::from(u16::from_le_bytes([bytes[6], bytes[7]]));
bytes[..4].reverse();
bytes[4..data].chunks_mut(2).for_each(|unit| unit.reverse());
let (trie, len) = from_binary_swapped::<u8>(&bytes)?;
assert_eq!(trie.get32(0x1F600), 1);
assert_eq!(len, bytes.len());
//# write to_binary
use bekstaudi::codepointtrie::binary::{from_binary, to_binary};
use bekstaudi::codepointtrie::planes::get_planes_trie;

let trie = get_planes_trie();
let bytes = to_binary(&trie)?;
assert_eq!(from_binary(&bytes)?, (trie, bytes.len()));
