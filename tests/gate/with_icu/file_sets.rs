// Prints the ranges of the Rust sources that rows.rs lists.
include!("sets.rs");
type Contains = fn(u32) -> bool;
static SETS: &[(&str, Contains)] = &include!("rows.rs");
fn main() {
    for (name, contains) in SETS {
        println!("{name}");
        let mut start = None;
        for c in 0..=0x110000u32 {
            match (contains(c), start) {
                (true, None) => start = Some(c),
                (false, Some(first)) => {
                    println!("{first:X}..{:X}", c - 1);
                    start = None;
                }
                _ => {}
            }
        }
    }
}
