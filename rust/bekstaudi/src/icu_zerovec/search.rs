//! The search of ascending packed values, with two bodies under one contract. In `proved` a proof takes
//! the place of the test of an index. In `tested` it uses std's partition point of a slice.
use crate::support::prelude::*;
mod tested;

pub(crate) use tested::binary_search;
