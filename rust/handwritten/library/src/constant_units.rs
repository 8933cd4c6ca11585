//! Unit tries in constants: the test of `try_is_trie`, without an allocation, for the compiler to
//! run. Its functions are those of `icu_char16trie::soundness`, in the Rust that constants may use.

use crate::icu_char16trie::impl_const::{
    MAX_BRANCH_LINEAR_SUB_NODE_LENGTH, MIN_LINEAR_MATCH, MIN_TWO_UNIT_DELTA_LEAD,
    MIN_TWO_UNIT_NODE_LEAD, MIN_TWO_UNIT_VALUE_LEAD, MIN_VALUE_LEAD, THREE_UNIT_DELTA_LEAD,
    THREE_UNIT_NODE_LEAD, THREE_UNIT_VALUE_LEAD, VALUE_IS_FINAL,
};

/// Reads the number with this lead, whose other units start at `place`: the number, and the index
/// after it. `None` if a unit is missing.
const fn number(
    units: &[u16],
    place: usize,
    lead: u16,
    two: u16,
    three: u16,
) -> Option<(u32, usize)> {
    if lead < two {
        return Some((lead as u32, place));
    }
    let count = if lead < three { 1 } else { 2 };
    if units.len() < count || place > units.len() - count {
        return None;
    }
    let high = if lead < three { lead - two } else { units[place] };
    let low = units[place + count - 1];
    Some(((high as u32) << 16 | low as u32, place + count))
}

/// Marks `start + distance` as the index of a required node, and returns whether there is a unit.
const fn want(wanted: &mut [bool], start: usize, distance: usize) -> bool {
    match start.checked_add(distance) {
        Some(place) if place < wanted.len() => {
            wanted[place] = true;
            true
        }
        _ => false,
    }
}

/// Checks a row of at most five entries, whose units ascend and are at least `least`, and marks the
/// nodes that it leads to. Returns one more than the last unit.
const fn check_row(
    units: &[u16],
    wanted: &mut [bool],
    row: usize,
    count: usize,
    mut least: u32,
) -> Option<u32> {
    let mut left = count;
    let mut place = row;
    while left > 1 {
        if units.len() < 2 || place > units.len() - 2 || (units[place] as u32) < least {
            return None;
        }
        let (lead, value) = (units[place + 1] % VALUE_IS_FINAL, units[place + 1]);
        let (two, three) = (MIN_TWO_UNIT_VALUE_LEAD, THREE_UNIT_VALUE_LEAD);
        let Some((jump, end)) = number(units, place + 2, lead, two, three) else {
            return None;
        };
        let is_marked = if value < VALUE_IS_FINAL {
            want(wanted, end, jump as usize)
        } else {
            want(wanted, place, 1)
        };
        if !is_marked {
            return None;
        }
        least = units[place] as u32 + 1;
        place = end;
        left -= 1;
    }
    if place >= units.len() || (units[place] as u32) < least || !want(wanted, place, 1) {
        return None;
    }
    Some(units[place] as u32 + 1)
}

/// Checks a part of a branch, as `check_row` does. The recursion is at most 16 deep.
const fn check_part(
    units: &[u16],
    wanted: &mut [bool],
    part: usize,
    count: usize,
    least: u32,
) -> Option<u32> {
    if count <= MAX_BRANCH_LINEAR_SUB_NODE_LENGTH {
        return check_row(units, wanted, part, count, least);
    }
    if units.len() < 2 || part > units.len() - 2 {
        return None;
    }
    let (two, three) = (MIN_TWO_UNIT_DELTA_LEAD, THREE_UNIT_DELTA_LEAD);
    let Some((delta, high)) = number(units, part + 2, units[part + 1], two, three) else {
        return None;
    };
    let Some(low) = high.checked_add(delta as usize) else {
        return None;
    };
    let split = units[part] as u32;
    match check_part(units, wanted, low, count / 2, least) {
        Some(next) if next <= split => check_part(units, wanted, high, count - count / 2, split),
        _ => None,
    }
}

/// Checks the own units of a match node and marks the nodes that it leads to. `low` is the low six
/// bits of its lead unit, and `place` is the index after the lead and its value.
const fn check_match(units: &[u16], wanted: &mut [bool], place: usize, low: u16) -> bool {
    if low >= MIN_LINEAR_MATCH {
        return want(wanted, place, (low - MIN_LINEAR_MATCH) as usize + 1);
    }
    if low > 0 {
        return check_part(units, wanted, place, low as usize + 1, 0).is_some();
    }
    place < units.len()
        && units[place] > 0
        && check_part(units, wanted, place + 1, units[place] as usize + 1, 0).is_some()
}

/// Checks the own units of a node and marks the nodes that it leads to.
const fn check_node(units: &[u16], wanted: &mut [bool], place: usize) -> bool {
    let lead = units[place];
    if lead >= VALUE_IS_FINAL {
        let (two, three) = (MIN_TWO_UNIT_VALUE_LEAD, THREE_UNIT_VALUE_LEAD);
        return number(units, place + 1, lead - VALUE_IS_FINAL, two, three).is_some();
    }
    if lead < MIN_VALUE_LEAD {
        return check_match(units, wanted, place + 1, lead);
    }
    let (two, three) = (MIN_TWO_UNIT_NODE_LEAD, THREE_UNIT_NODE_LEAD);
    match number(units, place + 1, (lead >> 6) - 1, two, three) {
        Some((_, end)) => check_match(units, wanted, end, lead % MIN_VALUE_LEAD),
        None => false,
    }
}

/// Returns whether the units are the trie of some map, for [`unit_trie!`](crate::unit_trie).
#[doc(hidden)]
#[must_use]
pub const fn is_unit_trie<const N: usize>(units: &[u16; N]) -> bool {
    let mut wanted = [false; N];
    let mut place = 0;
    while place < N {
        if (place == 0 || wanted[place]) && !check_node(units, &mut wanted, place) {
            return false;
        }
        place += 1;
    }
    true
}

/// Makes a unit trie of an array of its units in a constant, and returns a
/// [`Char16Trie<'static>`](crate::char16trie::Char16Trie). Units that are not the trie of a map do
/// not compile. The test is that of `try_is_trie`.
///
/// The compiler interprets the test: 100,000 units take 5 seconds. For a large dictionary, let the trie
/// borrow the file that `ucptrie words --as icu` writes. That takes no time, since its units are not
/// tested, and look-ups return on all units:
///
/// ```
/// use bekstaudi::{char16trie::Char16Trie, zerovec::ZeroSlice};
///
/// # macro_rules! include_bytes { ($path:literal) => { &[0x31, 0, 0x61, 0, 0x62, 0, 3, 0x80] } }
/// static WORDS: Char16Trie<'static> =
///     Char16Trie::from_static(ZeroSlice::from_static(include_bytes!("words.icu")));
/// assert_eq!(WORDS.longest_match_str("abc"), Some((2, 3)));
/// ```
///
/// The units of a small one may be those that `ucptrie words --as rust --name words` writes:
///
/// ```
/// use bekstaudi::char16trie::Char16Trie;
///
/// mod made {
/// # /*
///     include!("words.rs");
/// # */
/// #   pub mod words {
/// #     pub static UNITS: [u16; 4] = [0x31, 0x61, 0x62, 0x8003];
/// #   }
/// }
///
/// static WORDS: Char16Trie<'static> = bekstaudi::unit_trie!(made::words::UNITS);
/// assert_eq!(WORDS.longest_match_str("abc"), Some((2, 3)));
/// ```
///
/// There is no node after the linear match of these two units:
///
/// ```compile_fail,E0080
/// use bekstaudi::char16trie::Char16Trie;
///
/// static WORDS: Char16Trie<'static> = bekstaudi::unit_trie!([0x31, 0x61, 0x62]);
/// ```
#[macro_export]
macro_rules! unit_trie {
    ($units:expr) => {{
        #[allow(long_running_const_eval)]
        const _: () =
            assert!($crate::char16trie::is_unit_trie(&$units), "the units are not a trie");
        // Names of constants are not hygienic, so this is one that no caller has.
        const __BEKSTAUDI_UNITS: $crate::char16trie::Char16Trie<'static> =
            $crate::char16trie::Char16Trie::from_static($crate::zeroslice!(u16; $units));
        __BEKSTAUDI_UNITS
    }};
}
