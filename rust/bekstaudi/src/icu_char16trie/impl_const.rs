//! The constants of the format, with the Rust crate's names, which are those of ICU's
//! `ucharstrie.h`. The builder uses the same constants.

use crate::support::prelude::*;
/// The largest number of entries in a row. A part of a branch with more entries is split.
pub const MAX_BRANCH_LINEAR_SUB_NODE_LENGTH: usize = 5;

/// The low six bits of a linear match of one unit. Below it they describe a branch.
pub const MIN_LINEAR_MATCH: u16 = 0x30;

/// The largest number of units in a linear match.
pub const MAX_LINEAR_MATCH_LENGTH: u16 = 0x10;

/// The least lead with a value. It is also 2^6: a lead's low six bits are its remainder.
pub const MIN_VALUE_LEAD: u16 = MIN_LINEAR_MATCH + MAX_LINEAR_MATCH_LENGTH;

/// The bit that a final value sets in its unit. In a row a unit without it is a jump. The other
/// bits are the number's lead.
pub const VALUE_IS_FINAL: u16 = 0x8000;

/// The least lead of a final value or a jump of two units.
pub const MIN_TWO_UNIT_VALUE_LEAD: u16 = 0x4000;

/// The lead of a final value or a jump of three units.
pub const THREE_UNIT_VALUE_LEAD: u16 = 0x7fff;

/// The least lead unit of a node with an intermediate value of two units.
pub const MIN_TWO_UNIT_NODE_VALUE_LEAD: u16 = 0x4040;

/// The least lead unit of a node with an intermediate value of three units.
pub const THREE_UNIT_NODE_VALUE_LEAD: u16 = 0x7fc0;

/// The lead in `MIN_TWO_UNIT_NODE_VALUE_LEAD`: bits 6 to 14, minus one.
pub const MIN_TWO_UNIT_NODE_LEAD: u16 = (MIN_TWO_UNIT_NODE_VALUE_LEAD >> 6) - 1;

/// The lead in `THREE_UNIT_NODE_VALUE_LEAD`: bits 6 to 14, minus one.
pub const THREE_UNIT_NODE_LEAD: u16 = (THREE_UNIT_NODE_VALUE_LEAD >> 6) - 1;

/// The least lead of a delta of two units.
pub const MIN_TWO_UNIT_DELTA_LEAD: u16 = 0xfc00;

/// The lead of a delta of three units.
pub const THREE_UNIT_DELTA_LEAD: u16 = 0xffff;
