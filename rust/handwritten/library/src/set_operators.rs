//! Operators of sets of code points, each over the methods of the builder.

use crate::codepointinvlist::{CodePointInversionList, CodePointInversionListBuilder};
use core::ops::{BitAnd, BitOr, BitXor, Not, Sub};

/// Operators of two sets, each with the method of the builder that it calls.
macro_rules! operators {
    ($($(#[$docs:meta])* $operator:ident::$function:ident = $change:ident;)*) => {
        $(
            $(#[$docs])*
            ///
            /// # Panics
            /// Panics if an allocation fails.
            impl $operator<&CodePointInversionList<'_>> for &CodePointInversionList<'_> {
                type Output = CodePointInversionList<'static>;

                fn $function(
                    self,
                    other: &CodePointInversionList<'_>,
                ) -> CodePointInversionList<'static> {
                    let mut builder = CodePointInversionListBuilder::new();
                    builder.add_set(self);
                    builder.$change(other);
                    builder.build()
                }
            }
        )*
    };
}

operators! {
    /// Returns the union: the code points that are in at least one of the sets (ICU:
    /// `UnicodeSet::addAll`).
    BitOr::bitor = add_set;
    /// Returns the intersection: the code points that are in both sets (ICU:
    /// `UnicodeSet::retainAll`).
    BitAnd::bitand = retain_set;
    /// Returns the difference: the code points that are in the first set but not in the second one
    /// (ICU: `UnicodeSet::removeAll`).
    Sub::sub = remove_set;
    /// Returns the symmetric difference: the code points that are in exactly one of the sets (ICU:
    /// `UnicodeSet::complementAll`).
    BitXor::bitxor = complement_set;
}

/// Returns the complement: the code points, including surrogates, that are not in the set (ICU:
/// `UnicodeSet::complement`).
///
/// # Panics
/// Panics if an allocation fails.
impl Not for &CodePointInversionList<'_> {
    type Output = CodePointInversionList<'static>;

    fn not(self) -> CodePointInversionList<'static> {
        let mut builder = CodePointInversionListBuilder::new();
        builder.add_set(self);
        builder.complement();
        builder.build()
    }
}
