//! Sets of code points and strings, like ICU's UnicodeSet with strings.
//!
//! - `codepointinvliststringlist`: the type
//!   [`codepointinvliststringlist::CodePointInversionListAndStringList`]
//!   - `set`: the set and its queries
//!   - `make`: constructors, from a list of strings or from texts in any order
//!   - `equality`: equality of sets
//!   - `json`: conversion to and from JSON
//!   - `error`: errors for invalid lists of strings and JSON values

use crate::support::prelude::*;
pub mod codepointinvliststringlist;
