// Compares the methods of a joined table with the tables of the single properties.
#[path = "joined.rs"] mod joined;
#[path = "ea.rs"] mod ea;
#[path = "emoji.rs"] mod emoji;
use joined::Joined;
fn main() {
    for c in 0..0x110000 {
        let value = Joined::of(c).unwrap();
        assert_eq!(value.ea() as u32, u32::from(ea::ea::get(c)), "{c:04X}");
        assert_eq!(format!("{:?}", value.ea()), format!("{:?}", ea::Ea::of(c).unwrap()), "{c:04X}");
        assert_eq!(u8::from(value.emoji_presentation()), emoji::emoji::get(c), "{c:04X}");
    }
}
