//! A map from code points to 32-bit numbers, from which a trie is built.
//!
//! - `number_map`: [`NumberMap`](number_map::NumberMap), the map as the build uses it
//! - `blocks`: the numbers in blocks of 16 code points

use crate::support::prelude::*;
mod blocks;
pub(crate) mod number_map;
