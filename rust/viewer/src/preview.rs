//! A picture in a terminal: half blocks in 24-bit colour, two pixels to a character.

use std::io::{self, Write};

/// Colours, four bytes a pixel, line by line.
#[derive(Copy, Clone, Debug)]
pub struct Image<'a> {
    pub rgba: &'a [u8],
    pub width: usize,
    pub height: usize,
}

type Colour = [u8; 3];

/// Writes the image, made smaller where it has more pixels than the terminal's columns and lines have room for.
pub fn write(out: &mut impl Write, image: Image, columns: usize, lines: usize) -> io::Result<()> {
    let (width, height) = shown(image, columns.max(1), 2 * lines.max(1));
    for top in (0..height).step_by(2) {
        let mut last = None;
        for x in 0..width {
            let upper = image.mean(x, top, width, height);
            let lower = (top + 1 < height).then(|| image.mean(x, top + 1, width, height));
            half_blocks(out, upper, lower, &mut last)?;
        }
        writeln!(out, "\x1b[0m")?;
    }
    Ok(())
}

/// The size that fits, with the same proportions as far as whole pixels go.
fn shown(image: Image, columns: usize, lines: usize) -> (usize, usize) {
    let width = image.width.min(columns);
    let height = (image.height * width / image.width).max(1);
    if height <= lines {
        return (width, height);
    }
    ((image.width * lines / image.height).clamp(1, columns), lines)
}

/// Writes the upper pixel as the character's colour and the lower as its ground; colours that stand are not said again.
fn half_blocks(
    out: &mut impl Write,
    upper: Colour,
    lower: Option<Colour>,
    last: &mut Option<(Colour, Option<Colour>)>,
) -> io::Result<()> {
    if *last != Some((upper, lower)) {
        let [red, green, blue] = upper;
        write!(out, "\x1b[38;2;{red};{green};{blue}m")?;
        if let Some([red, green, blue]) = lower {
            write!(out, "\x1b[48;2;{red};{green};{blue}m")?;
        }
        *last = Some((upper, lower));
    }
    out.write_all("▀".as_bytes())
}

impl Image<'_> {
    /// The mean colour of the pixels that become pixel (x, y) of a width and height that are not larger.
    fn mean(&self, x: usize, y: usize, width: usize, height: usize) -> Colour {
        let (left, right) = (x * self.width / width, (x + 1) * self.width / width);
        let (top, bottom) = (y * self.height / height, (y + 1) * self.height / height);
        let mut sums = [0; 3];
        for line in top..bottom {
            for pixel in self.rgba[4 * (line * self.width + left)..4 * (line * self.width + right)].chunks_exact(4) {
                for (sum, &channel) in sums.iter_mut().zip(pixel) {
                    *sum += usize::from(channel);
                }
            }
        }
        let count = (right - left) * (bottom - top);
        sums.map(|sum| u8::try_from((sum + count / 2) / count).expect("a mean of bytes"))
    }
}

#[cfg(test)]
mod tests {
    use super::{Image, write};

    fn preview(rgba: &[u8], width: usize, columns: usize, lines: usize) -> String {
        let mut out = Vec::new();
        write(&mut out, Image { rgba, width, height: rgba.len() / 4 / width }, columns, lines).unwrap();
        String::from_utf8(out).unwrap()
    }

    const RED: [u8; 4] = [255, 0, 0, 255];
    const BLUE: [u8; 4] = [0, 0, 255, 255];

    #[test]
    fn two_lines_of_pixels_are_one_of_characters() {
        let shown = preview(&[RED, RED, BLUE, BLUE].concat(), 2, 80, 24);
        assert_eq!(shown, "\x1b[38;2;255;0;0m\x1b[48;2;0;0;255m▀▀\x1b[0m\n");
    }

    #[test]
    fn a_last_line_alone_has_no_ground() {
        assert_eq!(preview(&RED, 1, 80, 24), "\x1b[38;2;255;0;0m▀\x1b[0m\n");
    }

    #[test]
    fn a_wide_picture_is_made_smaller_by_means() {
        let shown = preview(&[RED, BLUE, RED, BLUE].concat(), 2, 1, 24);
        assert_eq!(shown, "\x1b[38;2;128;0;128m▀\x1b[0m\n");
    }

    #[test]
    fn a_high_picture_keeps_to_the_lines() {
        let shown = preview(&RED.repeat(100 * 4096), 100, 80, 10);
        assert_eq!((shown.lines().count(), shown.matches('▀').count()), (10, 10));
        let shown = preview(&RED.repeat(4096 * 2), 4096, 0, 0);
        assert_eq!(shown.matches('▀').count(), 1);
    }
}
