// Prints the ranges of the static set in made.rust-static.
include!("made.rust-static");
fn main() {
    for range in MADE.iter_ranges() {
        let (first, last) = (*range.start(), *range.end());
        for c in first..=last {
            assert!(MADE.contains32(c));
        }
        let end = if first < last { format!("..{last:04X}") } else { String::new() };
        println!("{first:04X}{end};1");
    }
    assert!(!MADE.contains32(0x110000));
}
