//! Colours as text.

use spacetime::{Palette, Rgb};

#[test]
fn colours_are_read_and_written_as_hexadecimal() {
    for (text, colour) in
        [("#215caf", Rgb(0x21, 0x5c, 0xaf)), ("#ABCDEF", Rgb(0xab, 0xcd, 0xef)), ("#1f0", Rgb(17, 255, 0))]
    {
        assert_eq!(Rgb::from_hex(text), Some(colour));
        assert_eq!(Rgb::from_hex(&colour.to_hex()), Some(colour));
    }
    assert_eq!(
        (Rgb(0, 10, 255).to_hex(), format!("{}", Rgb(0, 10, 255))),
        ("#000aff".to_string(), "#000aff".to_string())
    );
    for text in ["", "#", "fff", "#ff", "#ffff", "#fffff", "#fffffff", "#ggg", "#+ff", "#12345é", "# ff"] {
        assert_eq!(Rgb::from_hex(text), None, "{text}");
    }
}

#[test]
fn a_palette_is_read_as_three_colours() {
    assert_eq!(Palette::from_hex("#0e0e0e", "#f1f1f1", "#7ba7f0"), Some(Palette::DARK));
    assert_eq!(Palette::from_hex("#0e0e0e", "#f1f1f1", "blue"), None);
}
