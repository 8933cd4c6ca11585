// Prints the ranges of equal values of the trie in table.rs, and fails unless its error value is 255.
#![allow(dead_code)]
include!("table.rs");
fn main() {
    let mut start = 0;
    for c in 1..=0x110000 {
        if c == 0x110000 || table::get(c) != table::get(start) {
            if start < c - 1 {
                print!("{start:04X}..");
            }
            println!("{:04X};{}", c - 1, table::get(start));
            start = c;
        }
    }
    assert_eq!(table::get(0x110000), 255);
}
