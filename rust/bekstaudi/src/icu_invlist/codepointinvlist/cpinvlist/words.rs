//! The words of three steps of a search among packed boundaries.

use crate::support::prelude::*;
pub(super) use tested::last_words;

mod tested;
