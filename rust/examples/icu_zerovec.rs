//# mod
//# ule AsULE
use bekstaudi::zerovec::{ZeroVec, ule::AsULE};

/// A general category, stored in one byte. There are 30 of them.
#[derive(Clone, Copy, Debug, PartialEq, Eq)]
struct Category(u8);

impl AsULE for Category {
    const WIDTH: usize = 1;

    fn to_unaligned(self) -> [u8; 4] {
        [self.0, 0, 0, 0]
    }

    fn from_unaligned(bytes: &[u8]) -> Option<Self> {
        (bytes[0] < 30).then_some(Category(bytes[0]))
    }
}

let categories = ZeroVec::<Category>::parse_bytes(&[1, 29])?;
assert_eq!(categories.get(1), Some(Category(29)));
assert!(ZeroVec::<Category>::parse_bytes(&[30]).is_err());
//# code_point PotentialCodePoint
use bekstaudi::zerovec::PotentialCodePoint;

let last = PotentialCodePoint::try_from(0x10FFFF);
assert_eq!(last.map(u32::from), Ok(0x10FFFF));
assert_eq!(PotentialCodePoint::try_from(0x1000000), Err(0x1000000));
//# slice ZeroSlice
use bekstaudi::zerovec::ZeroVec;

let numbers = ZeroVec::<u16>::parse_bytes(&[1, 0, 2, 0])?;
let view = numbers.as_slice();
assert_eq!(view.last(), Some(2));
assert_eq!(view.as_zerovec(), numbers);
//# vec ZeroVec
use bekstaudi::zerovec::{ZeroVec, ule::UleError};

let points = ZeroVec::<char>::parse_bytes(&[0x41, 0, 0, 0, 0xF6, 1])?;
assert_eq!(points.first(), Some('A'));
assert_eq!(points.get(1), Some('\u{1F600}'));
// 0xD800 is a surrogate.
let error = ZeroVec::<char>::parse_bytes(&[0x41, 0, 0, 0, 0xD8, 0]);
assert_eq!(error, Err(UleError::Cell(1)));
//# vec alloc_from_slice
use bekstaudi::zerovec::ZeroVec;

let numbers = ZeroVec::<u16>::alloc_from_slice(&[0x1234, 255])?;
assert_eq!(numbers.as_bytes(), [0x34, 0x12, 0xFF, 0]);
//# vec alloc_from_iter
use bekstaudi::zerovec::ZeroVec;

let codes = ZeroVec::<u32>::alloc_from_iter("AZ".chars().map(u32::from))?;
assert_eq!(codes.as_bytes(), [0x41, 0, 0, 0, 0x5A, 0, 0, 0]);
//# vec binary_search
use bekstaudi::zerovec::ZeroVec;

let numbers = ZeroVec::<u32>::alloc_from_slice(&[10, 20, 30])?;
assert_eq!(numbers.binary_search(&20), Ok(1));
assert_eq!(numbers.binary_search(&25), Err(2));
