//! Compares the clusters with those of Unicode's GraphemeBreakTest.txt.

use graphemes::graphemes;
use std::fs;

#[test]
fn clusters_are_those_of_unicode() {
    let file = fs::read_to_string("/usr/share/unicode/auxiliary/GraphemeBreakTest.txt").unwrap();
    let mut count = 0;
    for line in file
        .lines()
        .filter_map(|it| it.split('#').next())
        .filter(|it| !it.trim().is_empty())
    {
        // ÷ 0061 × 0308 ÷ 0062 ÷
        let clusters = line.split('÷').filter(|it| !it.trim().is_empty());
        let wanted: Vec<String> = clusters
            .map(|it| it.split_whitespace().filter_map(character).collect())
            .collect();
        assert_eq!(
            graphemes(&wanted.concat()).collect::<Vec<_>>(),
            wanted,
            "{line}"
        );
        count += 1;
    }
    assert!(count > 500);
}

/// The character with this number in hexadecimal, or none for a sign between characters.
fn character(hexadecimal: &str) -> Option<char> {
    u32::from_str_radix(hexadecimal, 16)
        .ok()
        .and_then(char::from_u32)
}
