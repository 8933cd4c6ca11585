//! Compares the forms with those of all lines of Unicode's NormalizationTest.txt:
//!
//! ```sh
//! bzcat /usr/share/unicode/NormalizationTest.txt.bz2 > tests/NormalizationTest.txt
//! ```

use normalize::{nfc, nfd};
use std::{collections::HashSet, fs};

/// The lines of the file, each as the part that it is in and its five texts.
fn lines() -> Vec<(String, Vec<String>)> {
    let file = fs::read_to_string("tests/NormalizationTest.txt").expect("the file of the command above");
    let mut part = "";
    let mut lines = Vec::new();
    for line in file.lines().filter(|it| !it.starts_with('#')) {
        match line.strip_prefix('@').and_then(|it| it.split_whitespace().next()) {
            Some(name) => part = name,
            // 1E0A;1E0A;0044 0307;1E0A;0044 0307; # ..
            None => lines.push((part.to_string(), line.split(';').take(5).map(text).collect())),
        }
    }
    lines
}

/// The text of numbers in hexadecimal.
fn text(numbers: &str) -> String {
    let character = |it| char::from_u32(u32::from_str_radix(it, 16).ok()?);
    numbers.split(' ').map(|it| character(it).expect("a character")).collect()
}

#[test]
fn forms_are_those_of_unicode() {
    let lines = lines();
    assert!(lines.len() > 15_000, "{} lines", lines.len());
    for (_, texts) in &lines {
        for (i, text) in texts.iter().enumerate() {
            let (composed, decomposed) = if i < 3 { (1, 2) } else { (3, 4) };
            assert_eq!(nfc(text), texts[composed], "NFC of {texts:?}[{i}]");
            assert_eq!(nfd(text), texts[decomposed], "NFD of {texts:?}[{i}]");
        }
    }
}

#[test]
fn characters_that_part_1_does_not_list_stay() {
    let lines = lines();
    let part = lines.iter().filter(|(part, _)| part == "Part1");
    let listed: HashSet<&str> = part.map(|(_, texts)| texts[0].as_str()).collect();
    for text in ('\0'..=char::MAX).map(String::from).filter(|it| !listed.contains(it.as_str())) {
        assert_eq!((nfc(&text), nfd(&text)), (text.clone(), text));
    }
}
