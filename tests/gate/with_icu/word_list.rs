// Prints the units of the word list in words.rs.
use std::io::Write;
include!("words.rs");
fn main() {
    let bytes: Vec<u8> = words::UNITS.iter().flat_map(|unit| unit.to_le_bytes()).collect();
    std::io::stdout().write_all(&bytes).unwrap();
}
