//! A picture as its file has it: index bytes, record and symbols, from which clicks are answered as they were when it was drawn.

use std::fs::File;
use std::io::BufReader;
use std::path::Path;

use png::{BitDepth, ColorType, Decoder, Info, Reader};
use spacetime::{LentSide, LentTape, MAX_SIDE, Overview, Palette, Picture, RECORD_WORDS, Refusal, index, word};

use crate::image;
use crate::texts::{RECORD, UNDER_HEADS};
use crate::words::quoted;

type Record = [u64; RECORD_WORDS];

/// The picture in a file that this command wrote, or a sentence.
pub fn read(file: &Path) -> Result<Picture, String> {
    let name = quoted(&file.to_string_lossy());
    let opened = File::open(file).map_err(|error| format!("{name} cannot be read ({error}): name another file."))?;
    let foreign = || format!("{name} is no picture of this command's: name a PNG that spacetime wrote.");
    let reader = Decoder::new(BufReader::new(opened)).read_info().map_err(|_| foreign())?;
    picture(reader).ok_or_else(foreign)
}

fn picture(mut reader: Reader<BufReader<File>>) -> Option<Picture> {
    let info = reader.info();
    let is_indexed = (info.color_type, info.bit_depth) == (ColorType::Indexed, BitDepth::Eight);
    if !is_indexed || !has_own_palette(info) || info.width > MAX_SIDE || info.height > MAX_SIDE {
        return None;
    }
    let words: Vec<u64> = text(info, RECORD)?.split(',').map(|word| word.parse().ok()).collect::<Option<_>>()?;
    let record: Record =
        words.try_into().ok().filter(|record: &Record| record[word::WIDTH] == u64::from(info.width))?;
    let under_heads = text(info, UNDER_HEADS).unwrap_or_default().as_bytes().to_vec();
    let mut bytes = vec![0; reader.output_buffer_size()];
    reader.next_frame(&mut bytes).ok()?;
    match Picture::from_parts(record, bytes.clone(), Vec::new()) {
        // All but the store is sound, so the store can be made by it.
        Err(Refusal::StoreLength) => {
            let store = store(&record, &bytes, &under_heads)?;
            Picture::from_parts(record, bytes, store).ok()
        }
        in_bins => in_bins.ok(),
    }
}

/// Whether the bytes are still index bytes: a program that makes files smaller may number the colours anew.
fn has_own_palette(info: &Info) -> bool {
    let own = [Palette::LIGHT, Palette::DARK].map(|palette| image::colours(&palette));
    info.palette.as_deref().is_some_and(|palette| own.iter().any(|own| own == palette))
}

fn text<'a>(info: &'a Info, keyword: &str) -> Option<&'a str> {
    let texts = &info.uncompressed_latin1_text;
    texts.iter().find(|text| text.keyword == keyword).map(|text| text.text.as_str())
}

/// The symbols of a picture in cells, from the first line of each row.
fn store(record: &Record, bytes: &[u8], under_heads: &[u8]) -> Option<Vec<u8>> {
    let at = |place: usize| usize::try_from(record[place]).expect("pixels of a sound record");
    let shades = shades(u32::try_from(record[word::SYMBOLS]).expect("at most 64"));
    let mut store = Vec::new();
    for row in 0..at(word::ROWS) {
        let line = &bytes[row * at(word::ROW_PX) * at(word::WIDTH)..][at(word::MARGIN)..];
        for &byte in line.iter().step_by(at(word::CELL_PX)).take(at(word::CELLS)) {
            store.push(match byte {
                index::PAPER | index::SWEPT => 0,
                index::HEAD => under_heads.get(row)?.checked_sub(b'0')?,
                ink => u8::try_from(shades.iter().position(|&shade| shade == ink)?).expect("at most 64"),
            });
        }
    }
    Some(store)
}

/// The ink of each symbol, by the library: a row of all of them, left of the head. Blank needs no run.
fn shades(symbols: u32) -> Vec<u8> {
    let order = Overview { total: 0, extent: (0, i64::from(symbols) - 1) };
    let mut picture = Picture::overview(symbols, 1, symbols, &order).expect("1 to 64 cells");
    let inwards: Vec<u8> = (1..u8::try_from(symbols).expect("at most 64")).collect();
    let left = LentSide { symbols: &inwards, lengths: &vec![1; inwards.len()] };
    let head = i64::from(symbols);
    picture.draw_lent_row(LentTape { head, left, ..LentTape::default() }, None).expect("a row for it");
    picture.index_buffer().to_vec()
}
