//# serialized mod
use bekstaudi::codepointinvlist::{CodePointInversionList, serialized};

let set = CodePointInversionList::try_from('a'..='z')?;
let units = serialized::to_serialized(&set)?;
assert_eq!(units, [2, 0x61, 0x7B]);
assert_eq!(serialized::from_serialized(&units)?.0, set);
//# serialized to_serialized
use bekstaudi::codepointinvlist::CodePointInversionList;
use bekstaudi::codepointinvlist::serialized::to_serialized;

let set: CodePointInversionList = [0x61..=0x7A, 0x1F600..=0x10FFFF].into_iter().collect();
assert_eq!(to_serialized(&set)?, [0x8004, 2, 0x61, 0x7B, 1, 0xF600]);
//# serialized write_serialized
use bekstaudi::codepointinvlist::CodePointInversionList;
use bekstaudi::codepointinvlist::serialized::write_serialized;

let set = CodePointInversionList::try_from('a'..='z')?;
let mut units = [0; 8];
let len = write_serialized(&set, &mut units)?;
assert_eq!(units[..len], [2, 0x61, 0x7B]);
