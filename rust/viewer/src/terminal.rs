//! What a terminal can show.

use std::env;
use std::io::{self, IsTerminal};

use console::Term;
use spacetime::{Palette, Picture};

use crate::preview::{self, Image};

/// The preview, where standard output is a terminal that shows colours, and they are wanted (NO_COLOR).
pub fn preview(picture: &Picture, palette: &Palette) -> String {
    let no_colour = env::var_os("NO_COLOR").is_some_and(|value| !value.is_empty());
    if !io::stdout().is_terminal() || no_colour || is_dumb() {
        return String::new();
    }
    // A line is left for what follows the picture, and one for the prompt.
    let (lines, columns) = Term::stdout().size_checked().filter(|size| size.0 > 2 && size.1 > 0).unwrap_or((24, 80));
    let rgba = picture.rgba(palette);
    let image = Image { rgba: &rgba, width: picture.width() as usize, height: picture.height() as usize };
    let mut out = Vec::new();
    preview::write(&mut out, image, columns.into(), usize::from(lines) - 2).expect("memory takes all");
    String::from_utf8_lossy(&out).into_owned()
}

/// Whether the terminal knows no more than lines of plain text.
pub fn is_dumb() -> bool {
    env::var_os("TERM").is_some_and(|terminal| terminal == "dumb")
}
