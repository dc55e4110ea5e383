//! Colours: palettes, mixes, and the colours of index bytes (RULES, Colours).

use std::fmt;

use crate::{Refusal, ffi};

/// An sRGB colour: red, green and blue.
#[derive(Copy, Clone, Debug, PartialEq, Eq, Hash, Default)]
pub struct Rgb(pub u8, pub u8, pub u8);

impl Rgb {
    /// The colour that `#rrggbb` or `#rgb` says; nothing for any other text.
    ///
    /// ```
    /// use spacetime::Rgb;
    ///
    /// assert_eq!(Rgb::from_hex("#215caf"), Some(Rgb(0x21, 0x5c, 0xaf)));
    /// assert_eq!(Rgb::from_hex("#fff"), Some(Rgb(255, 255, 255)));
    /// assert_eq!(Rgb::from_hex("white"), None);
    /// ```
    pub fn from_hex(text: &str) -> Option<Self> {
        let digits =
            text.strip_prefix('#')?.chars().map(|digit| digit.to_digit(16).and_then(|it| u8::try_from(it).ok()));
        match digits.collect::<Option<Vec<u8>>>()?[..] {
            [r, s, g, h, b, c] => Some(Self(16 * r + s, 16 * g + h, 16 * b + c)),
            [r, g, b] => Some(Self(17 * r, 17 * g, 17 * b)),
            _ => None,
        }
    }

    /// The colour as `#rrggbb`, in lower case.
    ///
    /// ```
    /// use spacetime::Rgb;
    ///
    /// assert_eq!(Rgb(0x21, 0x5c, 0xaf).to_hex(), "#215caf");
    /// ```
    pub fn to_hex(self) -> String {
        self.to_string()
    }

    /// The colour `t` of the way from this one to another. `t` is held to 0..1, and a NaN counts as 0.
    ///
    /// ```
    /// use spacetime::Rgb;
    ///
    /// assert_eq!(Rgb(255, 255, 255).mix(Rgb(0, 0, 0), 0.5), Rgb(128, 128, 128));
    /// ```
    #[must_use]
    pub fn mix(self, other: Self, t: f64) -> Self {
        let [red, green, blue] = ffi::mix(self.bytes(), other.bytes(), t);
        Self(red, green, blue)
    }

    const fn bytes(self) -> [u8; 3] {
        [self.0, self.1, self.2]
    }
}

impl fmt::Display for Rgb {
    /// Writes `#rrggbb`.
    fn fmt(&self, f: &mut fmt::Formatter<'_>) -> fmt::Result {
        write!(f, "#{:02x}{:02x}{:02x}", self.0, self.1, self.2)
    }
}

/// The three colours of a picture.
#[derive(Copy, Clone, Debug, PartialEq, Eq, Hash)]
pub struct Palette {
    /// Paper.
    pub background: Rgb,
    /// The darkest ink.
    pub ink: Rgb,
    /// The head; what it swept is tinted with it.
    pub accent: Rgb,
}

impl Palette {
    /// White paper, near-black ink, blue.
    pub const LIGHT: Self =
        Self { background: Rgb(0xff, 0xff, 0xff), ink: Rgb(0x11, 0x11, 0x11), accent: Rgb(0x21, 0x5c, 0xaf) };

    /// Near-black paper, near-white ink, a lighter blue.
    pub const DARK: Self =
        Self { background: Rgb(0x0e, 0x0e, 0x0e), ink: Rgb(0xf1, 0xf1, 0xf1), accent: Rgb(0x7b, 0xa7, 0xf0) };

    /// The palette of three colours that [`Rgb::from_hex`] takes.
    ///
    /// ```
    /// use spacetime::Palette;
    ///
    /// assert_eq!(Palette::from_hex("#fff", "#111111", "#215caf"), Some(Palette::LIGHT));
    /// ```
    pub fn from_hex(background: &str, ink: &str, accent: &str) -> Option<Self> {
        let [background, ink, accent] = [background, ink, accent].map(Rgb::from_hex);
        Some(Self { background: background?, ink: ink?, accent: accent? })
    }

    fn bytes(&self) -> [u8; 9] {
        let mut bytes = [0; 9];
        for (part, colour) in bytes.chunks_exact_mut(3).zip([self.background, self.ink, self.accent]) {
            part.copy_from_slice(&colour.bytes());
        }
        bytes
    }
}

impl Default for Palette {
    fn default() -> Self {
        Self::LIGHT
    }
}

/// Writes red, green, blue and 255 for each byte of an index to `out`.
///
/// Refusal: [`Refusal::OutputLength`] where `out` has not four bytes for each.
///
/// ```
/// use spacetime::{Palette, index, rgba};
///
/// let mut out = [0; 8];
/// rgba(&[index::SWEPT, 32], &Palette::LIGHT, &mut out)?;
/// assert_eq!(out, [177, 198, 227, 255, 136, 136, 136, 255]);
/// # Ok::<(), spacetime::Refusal>(())
/// ```
pub fn rgba(index: &[u8], palette: &Palette, out: &mut [u8]) -> Result<(), Refusal> {
    ffi::rgba(index, &palette.bytes(), out)
}
