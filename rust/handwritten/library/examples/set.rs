//! A set of code points: built of ranges, asked, and split into its ranges again.

use bekstaudi::codepointinvlist::CodePointInversionListBuilder;

fn main() {
    let mut builder = CodePointInversionListBuilder::new();
    builder.add_range('a'..='z');
    builder.add_range('0'..='9');
    builder.remove_char('q');
    let set = builder.build();
    assert!(set.contains('p') && !set.contains('q'));
    assert_eq!(set.size(), 35);
    for range in set.iter_ranges() {
        println!("U+{:04X}..U+{:04X}", range.start(), range.end());
    }
    println!("the first {} bytes are in the set", set.span("abc-123", true));
}
