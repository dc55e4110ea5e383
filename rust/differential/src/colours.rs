//! The rules on colours (RULES, Colours), plainly.

/// Background, ink and accent, three bytes each.
pub type Palette = [u8; 9];

pub const LIGHT: Palette = [0xff, 0xff, 0xff, 0x11, 0x11, 0x11, 0x21, 0x5c, 0xaf];
pub const DARK: Palette = [0x0e, 0x0e, 0x0e, 0xf1, 0xf1, 0xf1, 0x7b, 0xa7, 0xf0];

/// One channel of a mix: a NaN is 0, any other number is held to 0..1, and a half goes away from zero.
pub fn mixed(a: u8, b: u8, t: f64) -> u8 {
    let held = match t {
        t if t >= 1.0 => 1.0,
        t if t > 0.0 => t,
        _ => 0.0,
    };
    let value = f64::from(a) + (f64::from(b) - f64::from(a)) * held;
    // A byte less a half is exact, so no rounding stands between the value and the byte.
    (0..=u8::MAX).rev().find(|&byte| value >= f64::from(byte) - 0.5).unwrap_or(0)
}

/// What `spacetime_rgba` writes into an output of a length.
pub fn rgba(index: &[u8], palette: &Palette, length: usize) -> Result<Vec<u8>, u32> {
    if index.len().checked_mul(4) != Some(length) {
        return Err(10);
    }
    Ok(index.iter().flat_map(|&byte| pixel(byte, palette)).collect())
}

fn pixel(index: u8, palette: &Palette) -> [u8; 4] {
    let channel = |at: usize| match index {
        0 => palette[at],
        1..=64 => whole(palette[at], palette[3 + at], index),
        254 => mixed(palette[at], palette[6 + at], 0.35),
        255 => palette[6 + at],
        _ => palette[3 + at],
    };
    [channel(0), channel(1), channel(2), 255]
}

/// A channel of the ink `i`, in whole numbers.
fn whole(a: u8, b: u8, i: u8) -> u8 {
    let (a, b, i) = (i32::from(a), i32::from(b), i32::from(i));
    ((128 * a + 2 * (b - a) * i + 64) / 128) as u8
}
