//# value TrieValue
use bekstaudi::codepointtrie::{CodePointTrieBuilder, TrieType, TrieValue};
use bekstaudi::zerovec::ule::AsULE;

// `trie_values!` declares such an enum with all of these impls.
/// Three of the general categories, with the numbers that ICU gives them.
#[derive(Clone, Copy, Debug, PartialEq, Eq)]
enum Category {
    Unassigned = 0,
    UppercaseLetter = 1,
    LowercaseLetter = 2,
}

impl TrieValue for Category {
    type TryFromU32Error = String;

    fn to_u32(self) -> u32 {
        self as u32
    }

    fn try_from_u32(i: u32) -> Result<Self, String> {
        match i {
            0 => Ok(Category::Unassigned),
            1 => Ok(Category::UppercaseLetter),
            2 => Ok(Category::LowercaseLetter),
            _ => Err(format!("no category has the number {i}")),
        }
    }
}

impl AsULE for Category {
    const WIDTH: usize = 1;

    fn to_unaligned(self) -> [u8; 4] {
        [self as u8, 0, 0, 0]
    }

    fn from_unaligned(bytes: &[u8]) -> Option<Self> {
        Category::try_from_u32(u32::from(bytes[0])).ok()
    }
}

let none = Category::Unassigned;
let mut builder = CodePointTrieBuilder::new(none, none, TrieType::Fast);
builder.set_range_value(0x41..=0x5A, Category::UppercaseLetter);
builder.set_range_value(0x61..=0x7A, Category::LowercaseLetter);
let trie = builder.build();
assert_eq!(trie.get('A'), Category::UppercaseLetter);
assert_eq!(trie.get_set_for_value(Category::LowercaseLetter).size(), 26);
