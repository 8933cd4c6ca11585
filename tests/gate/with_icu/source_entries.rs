// Prints the entries of the static trie in made.rust-static.
include!("made.rust-static");
fn main() {
    for (key, value) in MADE.iter2() {
        assert_eq!(MADE.get_str(&key), Some(value));
        println!("{key};{value}");
    }
}
