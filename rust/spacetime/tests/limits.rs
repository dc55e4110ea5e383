//! The constants, held to what the library does.

use spacetime::{
    Exact, HEAD_RANGE_TINT, MAX_AUTO_CELL_PX, MAX_CELLS, MAX_POSITION, MAX_SIDE, MAX_SYMBOLS, MIN_AUTO_ROWS, Overview,
    Palette, Picture, Refusal, index, rgba,
};

fn overview(width: u32, symbols: u32, extent: (i64, i64)) -> Result<Picture, Refusal> {
    Picture::overview(width, 1, symbols, &Overview { total: 0, extent })
}

#[test]
fn what_is_within_a_limit_is_taken_and_what_is_beyond_is_not() {
    let cells = MAX_CELLS.cast_signed();
    for (taken, beyond, refusal) in [
        (overview(MAX_SIDE, 2, (0, 0)), overview(MAX_SIDE + 1, 2, (0, 0)), Refusal::Size),
        (overview(1, MAX_SYMBOLS, (0, 0)), overview(1, MAX_SYMBOLS + 1, (0, 0)), Refusal::Symbols),
        (overview(1, 2, (0, cells - 1)), overview(1, 2, (0, cells)), Refusal::Cells),
        (
            overview(1, 2, (MAX_POSITION, MAX_POSITION)),
            overview(1, 2, (MAX_POSITION, MAX_POSITION + 1)),
            Refusal::Position,
        ),
    ] {
        assert_eq!((taken.is_ok(), beyond), (true, Err(refusal)));
    }
}

#[test]
fn a_fit_chooses_by_the_original_s_numbers() {
    let size = |cells: u32, width| overview(width, 2, (0, i64::from(cells) - 1)).unwrap().cell_px();
    assert_eq!(size(10, 10 * MAX_AUTO_CELL_PX), Some(MAX_AUTO_CELL_PX));
    assert_eq!(size(10, 10 * MAX_AUTO_CELL_PX - 1), Some(MAX_AUTO_CELL_PX - 1));
    assert_eq!(size(10, 1000), Some(MAX_AUTO_CELL_PX));

    let rows = u32::try_from(MIN_AUTO_ROWS).unwrap();
    let exact = |height| {
        let heads = vec![0; height as usize];
        let order = Exact { first_step: 0, cell_px: None, heads: &heads, written: None, halted: false };
        Picture::exact(100, height, 2, &order).unwrap().cell_px()
    };
    assert_eq!((exact(2 * rows), exact(2 * rows - 1)), (Some(2), Some(1)), "as many rows at least");
}

#[test]
fn the_swept_tint_is_the_library_s() {
    for palette in [Palette::LIGHT, Palette::DARK] {
        let mut colour = [0; 4];
        rgba(&[index::SWEPT], &palette, &mut colour).unwrap();
        let mixed = palette.background.mix(palette.accent, HEAD_RANGE_TINT);
        assert_eq!(colour, [mixed.0, mixed.1, mixed.2, 255]);
    }
}
