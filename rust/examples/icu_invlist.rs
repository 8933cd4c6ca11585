//# codepointinvlist/builder CodePointInversionListBuilder
use bekstaudi::codepointinvlist::CodePointInversionListBuilder;

let mut builder = CodePointInversionListBuilder::new();
builder.add_range('A'..='Z');
builder.remove_char('Q');
let set = builder.build();
assert!(set.contains('P') && !set.contains('Q'));
assert_eq!(set.size(), 25);
//# codepointinvlist/cpinvlist CodePointInversionList
use bekstaudi::codepointinvlist::CodePointInversionList;

let ends = [0x41, 0x5B, 0x61, 0x7B];
let letters = CodePointInversionList::try_from_u32_inversion_list_slice(&ends)?;
assert!(letters.contains('Z') && letters.contains32(0x61));
assert!(!letters.contains32(0x5B));
assert_eq!(letters.iter_ranges().last(), Some(0x61..=0x7A));
assert_eq!(letters, ('A'..='Z').chain('a'..='z').collect());
//# codepointinvlist/cpinvlist as_inversion_list
use bekstaudi::codepointinvlist::CodePointInversionList;
use bekstaudi::zerovec::ZeroVec;

let letters = CodePointInversionList::try_from('a'..='z')?;
let ends = letters.as_inversion_list();
// What a file stores of the set, and the set that borrows it.
let bytes = ends.as_bytes();
assert_eq!(bytes, [0x61, 0, 0, 0x7B, 0, 0]);
let same = CodePointInversionList::try_from_inversion_list(ZeroVec::parse_bytes(bytes)?)?;
assert_eq!(same, letters);
