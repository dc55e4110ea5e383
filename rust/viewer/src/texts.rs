//! What a file says of the picture in it, as texts of the PNG: the order in a reader's words, and what a click needs.

use spacetime::{Picture, index};

use crate::arguments::Drawing;
use crate::drawing::{Drawn, View};
use crate::image::Text;

/// The words of the picture's record, with commas between.
pub const RECORD: &str = "Record";
/// In cells, the symbol under the head of each row, a digit a row, and a dot where no head is drawn.
pub const UNDER_HEADS: &str = "Under the heads";

/// The texts of a picture, the same for the same order.
pub fn of(drawing: &Drawing, drawn: &Drawn) -> Vec<Text> {
    let picture = &drawn.picture;
    let (window, first_step) = (picture.tape_range(), picture.row(0).expect("there is one row at least").0);
    let mut texts = vec![
        ("Machine", drawing.machine_text.clone()),
        ("Input", drawing.order.input.iter().copied().map(digit).collect()),
        ("Mode", mode(drawing.order.view).to_string()),
        ("Size", format!("{}x{}", picture.width(), picture.height())),
        ("Window", format!("{}..{}", window.start(), window.end())),
        ("Steps", format!("{first_step}..{}", drawn.steps)),
        ("Cell size", picture.cell_px().map_or("less than a pixel".to_string(), |size| size.to_string())),
        (RECORD, picture.record().map(|word| word.to_string()).join(",")),
    ];
    if picture.cell_px().is_some() {
        texts.push((UNDER_HEADS, under_heads(picture)));
    }
    texts
}

pub fn mode(view: View) -> &'static str {
    match view {
        View::Overview { .. } => "overview",
        View::Exact { .. } => "exact",
    }
}

fn digit(symbol: u8) -> char {
    char::from(b'0' + symbol)
}

fn under_heads(picture: &Picture) -> String {
    let width = picture.width();
    let lines = picture.index_buffer().chunks_exact(usize::try_from(width).expect("at most 4096"));
    let first_lines = lines.step_by(usize::try_from(picture.row_height()).expect("at most 4096"));
    let symbol = |(row, line): (u32, &[u8])| {
        let column = line.iter().position(|&byte| byte == index::HEAD)?;
        picture.locate(u32::try_from(column).expect("below the width"), row * picture.row_height())?.symbol
    };
    (0..picture.rows()).zip(first_lines).map(|row| symbol(row).map_or('.', digit)).collect()
}
