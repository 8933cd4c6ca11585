//! Packed vectors of a type of which several byte sequences encode the same value.

use crate::examples::categories::Category;
use crate::zerovec::ZeroVec;
use crate::zerovec::ule::{AsULE, UleError};
use std::hash::{BuildHasher, BuildHasherDefault, DefaultHasher, Hash};

/// A flag. Any byte but zero is a flag that is on.
#[derive(Clone, Copy, Debug, PartialEq, Eq)]
struct Flag(bool);

const ON: Flag = Flag(true);

const OFF: Flag = Flag(false);

impl AsULE for Flag {
    const WIDTH: usize = 1;

    fn to_unaligned(self) -> [u8; 4] {
        [u8::from(self.0), 0, 0, 0]
    }

    fn from_unaligned(bytes: &[u8]) -> Option<Flag> {
        Some(Flag(bytes[0] != 0))
    }
}

fn hash_of(value: &impl Hash) -> u64 {
    BuildHasherDefault::<DefaultHasher>::default().hash_one(value)
}

/// Bytes of flags, and whether the flags are off, on, on and off.
static FLAGS: [([u8; 4], bool); 4] = [
    ([0, 1, 1, 0], true),
    ([0, 7, 1, 0], true),
    ([0, 255, 128, 0], true),
    ([0, 255, 0, 0], false),
];

/// Other bytes of the same flags are equal and have the same hash. Other flags are not equal and
/// have other hashes. Both vectors keep their bytes.
#[test]
fn encodings_of_flags() {
    let owned = ZeroVec::alloc_from_slice(&[OFF, ON, ON, OFF]).expect("no memory");
    for (bytes, alike) in FLAGS {
        let lent = ZeroVec::<Flag>::parse_bytes(&bytes).expect("no flags");
        let found = [
            lent == owned,
            lent.as_slice() == owned.as_slice(),
            hash_of(&lent) == hash_of(&owned),
        ];
        assert_eq!(found, [alike; 3], "{bytes:?}");
        assert_eq!((lent.as_bytes(), lent.get(1)), (&bytes[..], Some(ON)));
    }
    assert_eq!(owned.as_bytes(), [0, 1, 1, 0]);
}

/// A conversion leaves the bytes unchanged and does not pack the values again. 255 is the byte of no
/// category.
#[test]
fn flags_converted() {
    let flags = ZeroVec::<Flag>::parse_bytes(&[0, 255]).expect("no flags");
    let numbers = flags.try_into_converted::<u8>().expect("no numbers");
    assert_eq!(numbers, [0u8, 255].into_iter().collect());
    let flags = numbers.try_into_converted::<Flag>().expect("no flags");
    assert_eq!((flags.first(), flags.last()), (Some(OFF), Some(ON)));
    assert_eq!(
        flags.try_into_converted::<Category>().err(),
        Some(UleError::Cell(1))
    );
}
