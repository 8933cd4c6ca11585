//! Sets of code points as inversion lists, the form in which ICU's UnicodeSet stores them.
//!
//! An inversion list is the ascending list of a set's boundaries. `[0x41, 0x5B]` is the set of the
//! letters A to Z: it starts at 0x41 and stops before 0x5B. Each set has exactly one such list.

use crate::support::prelude::*;
mod builder;
mod conversions;
mod cpinvlist;
mod equality;
mod error;
mod iter;
mod json;
mod range_of;
pub mod sizes;
pub mod utils;

pub use builder::CodePointInversionListBuilder;
pub use cpinvlist::CodePointInversionList;
pub use error::{InvalidSetError, RangeError, SetError, SetJsonError, TryRangeError};
pub use iter::{IterChars, IterRanges, IterRangesComplemented};
pub use range_of::{RangeOf, RangePoint};
pub use utils::{deconstruct_range, is_valid_zv};
