//! Enums as values of tries.

/// Returns ranges that contain the same numbers, ascending and joined, and then empty ones; and how
/// many are not empty. For [`trie_values!`](crate::trie_values).
#[doc(hidden)]
#[must_use]
pub const fn joined<const N: usize>(mut numbers: [u32; N]) -> ([(u32, u32); N], usize) {
    let mut ranges = [(1, 0); N];
    let mut count: usize = 0;
    let mut i = 0;
    while i < N {
        let mut place = i;
        while place > 0 && numbers[place - 1] > numbers[place] {
            (numbers[place - 1], numbers[place]) = (numbers[place], numbers[place - 1]);
            place -= 1;
        }
        i += 1;
    }
    let mut i = 0;
    while i < N {
        if count > 0 && ranges[count - 1].1 == numbers[i].wrapping_sub(1) {
            ranges[count - 1].1 = numbers[i];
        } else {
            ranges[count] = (numbers[i], numbers[i]);
            count += 1;
        }
        i += 1;
    }
    (ranges, count)
}

/// Returns the value that has this name, or else the first one whose name matches it loosely. For
/// [`trie_values!`](crate::trie_values).
#[doc(hidden)]
#[must_use]
pub fn named<T: Copy>(values: &[T], name_of: fn(T) -> &'static str, name: &str) -> Option<T> {
    fn significant(text: &str) -> impl Iterator<Item = u8> {
        let bytes = text.bytes().filter(|it| !b" -_".contains(it));
        bytes.map(|it| it.to_ascii_lowercase())
    }
    let is_loose = |it: &&T| significant(name_of(**it)).eq(significant(name));
    let exact = values.iter().find(|it| name_of(**it) == name);
    exact.or_else(|| values.iter().find(is_loose)).copied()
}

/// Declares an enum whose values a trie can store, also in a constant.
///
/// The type after the name, `u8`, `u16` or `u32`, is that of a value's cell. Each value has a
/// number, a literal that is not negative. Attributes on the enum, such as more derives, and on its
/// values apply to them, except that `#[cfg(..)]` on a value does not compile.
///
/// Up to 256 values, a look-up takes as long as one of a number. With more, it takes a call.
///
/// The enum has the constant `ALL`, a slice of its values as they are declared; `name`, which returns
/// the name of a value; and `from_name`, which returns the value with a name. A name that is no
/// value's own is compared without case, spaces, hyphens and underscores, as Unicode compares the names of
/// property values, so `GreekExt` is also the value of `Greek_Ext` and `greek ext`.
///
/// The enum gets [`AsULE`](crate::zerovec::ule::AsULE),
/// [`TrieValue`](crate::codepointtrie::TrieValue), [`ConstCells`](crate::zerovec::ConstCells) and
/// [`ConstValue`](crate::codepointtrie::ConstValue), beside `Clone`, `Copy`, `Debug`, `PartialEq`,
/// `Eq`, `PartialOrd`, `Ord` and `Hash`.
///
/// ```
/// use bekstaudi::codepointtrie::{CodePointTrieBuilder, TrieType};
///
/// bekstaudi::trie_values! {
///     /// A kind of character.
///     pub enum Kind: u8 {
///         /// Neither of the others.
///         Other = 0,
///         Letter = 1,
///         Digit = 2,
///     }
/// }
///
/// let mut builder = CodePointTrieBuilder::new(Kind::Other, Kind::Other, TrieType::Small);
/// builder.set_range_value(0x30..=0x39, Kind::Digit);
/// assert_eq!(builder.build().get('7'), Kind::Digit);
/// assert_eq!(Kind::ALL, [Kind::Other, Kind::Letter, Kind::Digit]);
/// assert_eq!((Kind::Digit.name(), Kind::from_name("letter")), ("Digit", Some(Kind::Letter)));
/// ```
#[macro_export]
macro_rules! trie_values {
    (
        $(#[$meta:meta])*
        $vis:vis enum $value:ident: $number:ident {
            $($(#[$inner:meta])* $name:ident = $n:literal),+ $(,)?
        }
    ) => {
        $(#[$meta])*
        #[derive(Clone, Copy, Debug, PartialEq, Eq, PartialOrd, Ord, Hash)]
        #[repr($number)]
        $vis enum $value {
            $($(#[$inner])* $name = $n),+
        }

        #[allow(dead_code, deprecated)]
        impl $value {
            /// All values, in the order in which they are declared.
            pub const ALL: &'static [Self] = &[$($value::$name),+];

            /// Returns the name of the value, as it is declared.
            #[must_use]
            pub const fn name(self) -> &'static str {
                match self {
                    $($value::$name => ::core::stringify!($name),)+
                }
            }

            /// Returns the value of a name, or `None` if it is no value's name. A name that is not
            /// exactly one of these is compared without case, spaces, hyphens and underscores.
            #[must_use]
            pub fn from_name(name: &str) -> ::core::option::Option<Self> {
                $crate::codepointtrie::named(&[$($value::$name),+], Self::name, name)
            }
        }

        #[allow(deprecated)]
        impl $crate::zerovec::ule::AsULE for $value {
            const WIDTH: usize = ::core::mem::size_of::<$number>();

            #[inline]
            fn to_unaligned(self) -> [u8; 4] {
                (self as u32).to_le_bytes()
            }

            // The compiler turns the look-up of a few values into a comparison. It makes a call of it
            // if it is not forced to, and takes long for many values if it is.
            #[inline(always)]
            fn from_unaligned(bytes: &[u8]) -> ::core::option::Option<Self> {
                #[inline(always)]
                fn value_of(number: $number) -> ::core::option::Option<$value> {
                    match number {
                        $($n => ::core::option::Option::Some($value::$name),)+
                        _ => ::core::option::Option::None,
                    }
                }

                #[inline(never)]
                fn value_of_many(number: $number) -> ::core::option::Option<$value> {
                    value_of(number)
                }

                let mut cell = [0; ::core::mem::size_of::<$number>()];
                cell.copy_from_slice(&bytes[..::core::mem::size_of::<$number>()]);
                let number = <$number>::from_le_bytes(cell);
                if const { [$($n as $number),+].len() <= 256 } {
                    value_of(number)
                } else {
                    value_of_many(number)
                }
            }
        }

        impl $crate::codepointtrie::TrieValue for $value {
            type TryFromU32Error = $crate::codepointtrie::NotAValue;

            #[inline(always)]
            fn to_u32(self) -> u32 {
                self as u32
            }

            #[inline]
            fn try_from_u32(
                number: u32,
            ) -> ::core::result::Result<Self, $crate::codepointtrie::NotAValue> {
                const WIDTH: usize = ::core::mem::size_of::<$number>();
                let bytes = number.to_le_bytes();
                let (cell, above) = bytes.split_at(WIDTH);
                match <Self as $crate::zerovec::ule::AsULE>::from_unaligned(cell) {
                    ::core::option::Option::Some(value) if above.iter().all(|byte| *byte == 0) => {
                        ::core::result::Result::Ok(value)
                    }
                    _ => ::core::result::Result::Err($crate::codepointtrie::NotAValue),
                }
            }
        }

        impl $crate::zerovec::ConstCells for $value {
            const CELLS: &'static [(u32, u32)] = {
                const NUMBERS: &[u32] = &[$($n),+];
                #[allow(long_running_const_eval)]
                const JOINED: &([(u32, u32); NUMBERS.len()], usize) =
                    &$crate::zerovec::joined([$($n),+]);
                JOINED.0.split_at(JOINED.1).0
            };
        }

        impl $crate::codepointtrie::ConstValue for $value {}
    };
}
