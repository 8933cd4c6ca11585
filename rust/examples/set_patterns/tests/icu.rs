//! Compares the sets of patterns with those of ICU4C, which these commands write:
//!
//! ```sh
//! cc tests/icu.c -licuuc -o icu
//! ./icu < tests/patterns.txt > tests/sets.txt
//! ```

use set_patterns::parse;
use std::{fmt::Write, fs};

/// The ranges and strings of a pattern's set, as tests/icu.c prints them.
fn items(pattern: &str) -> String {
    let Ok(set) = parse(pattern) else {
        return "fault".into();
    };
    let mut items = String::new();
    for range in set.code_points().iter_ranges() {
        write!(items, "{:X}-{:X} ", range.start(), range.end()).unwrap();
    }
    for string in set.strings() {
        let numbers: String = string.chars().map(|c| format!("{:X} ", u32::from(c))).collect();
        write!(items, "{{ {numbers}}} ").unwrap();
    }
    items
}

#[test]
fn sets_are_those_of_icu() {
    let patterns = fs::read_to_string("tests/patterns.txt").unwrap();
    let sets = fs::read_to_string("tests/sets.txt").expect("what the commands above write");
    assert_eq!(patterns.lines().count(), sets.lines().count());
    let mut wrong = 0;
    for (pattern, wanted) in patterns.lines().zip(sets.lines()) {
        let found = items(pattern);
        if found != wanted {
            println!("{pattern}: {:?}\n  {found:.200}\n  {wanted:.200}", parse(pattern).err());
            wrong += 1;
        }
    }
    println!("{} patterns, {wrong} wrong", patterns.lines().count());
    assert_eq!(wrong, 0);
}
