//! Sets of code points and strings. A string has any number of code points except one; the empty
//! string is allowed.

use crate::support::prelude::*;
mod equality;
mod error;
mod json;
mod make;
mod set;

pub use error::{InvalidStringList, StringListJsonError};
pub use set::CodePointInversionListAndStringList;
