//! A picture as a PNG: the index bytes as they are, the colours of all 256 as the palette, and texts that say what it shows.

use std::io;

use png::{BitDepth, ColorType, Compression, Encoder};
use spacetime::{Palette, Picture, rgba};

/// A keyword and its text.
pub type Text = (&'static str, String);

pub fn encode(picture: &Picture, palette: &Palette, texts: Vec<Text>) -> io::Result<Vec<u8>> {
    let mut out = Vec::new();
    let mut encoder = Encoder::new(&mut out, picture.width(), picture.height());
    encoder.set_color(ColorType::Indexed);
    encoder.set_depth(BitDepth::Eight);
    encoder.set_compression(Compression::Best);
    encoder.set_palette(colours(palette));
    for (keyword, text) in texts {
        encoder.add_text_chunk(keyword.to_string(), text)?;
    }
    let mut writer = encoder.write_header()?;
    writer.write_image_data(picture.index_buffer())?;
    writer.finish()?;
    Ok(out)
}

/// Red, green and blue of each index byte, by the library.
pub fn colours(palette: &Palette) -> Vec<u8> {
    let index: Vec<u8> = (0..=u8::MAX).collect();
    let mut colours = [0; 4 * 256];
    rgba(&index, palette, &mut colours).expect("four bytes for each");
    colours.chunks_exact(4).flat_map(|pixel| &pixel[..3]).copied().collect()
}
