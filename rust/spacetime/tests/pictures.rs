//! Worked pictures (RULES) and refusals, through the safe calls.

use std::iter;
use std::ops::RangeInclusive;

use spacetime::{CellRef, Exact, Overview, Picture, RECORD_WORDS, Refusal, Run, Tape, Upright, index};

fn head_on(cur: u8, head: i64) -> Tape {
    Tape { head, cur, ..Tape::default() }
}

fn overview(width: u32, height: u32, total: u64, extent: (i64, i64)) -> Result<Picture, Refusal> {
    Picture::overview(width, height, 2, &Overview { total, extent })
}

/// Worked picture 1, with a symbol under the head in its first row.
fn passed(symbol: u8) -> Picture {
    let order = Exact { first_step: 0, cell_px: Some(2), heads: &[0, 1], written: Some((0, 0)), halted: false };
    let mut picture = Picture::exact(8, 4, 2, &order).unwrap();
    picture.draw_row(&head_on(symbol, 0), None).unwrap();
    picture.draw_row(&Tape { left: vec![Run { symbol: 1, len: 1 }], ..head_on(0, 1) }, None).unwrap();
    picture
}

#[test]
fn an_exact_picture_is_located() {
    let picture = passed(1);
    assert_eq!(picture.locate(0, 3), Some(CellRef { step: 1, from: -1, to: -1, symbol: Some(0) }));
    assert_eq!(picture.locate(2, 0), Some(CellRef { step: 0, from: 0, to: 0, symbol: Some(1) }));
    assert_eq!(picture.row(1), Some((1, 2..4)));
    assert_eq!(picture.row(2), None);
    assert_eq!((picture.rows(), picture.rows_done()), (2, 2));
}

#[test]
fn swept_cells_are_tinted_in_an_overview_alone() {
    let mut seen = overview(20, 10, 4, (0, 2)).unwrap();
    seen.draw_row(&head_on(0, 0), Some((0, 1))).unwrap();
    assert_eq!(seen.index_buffer()[..20], line([255, 254, 0]));
    assert_eq!(seen.locate(0, 0), None, "a margin");
    assert_eq!(seen.locate(19, 0), None, "a margin");

    let order = Exact { first_step: 0, cell_px: None, heads: &[0], written: None, halted: true };
    let mut exact = Picture::exact(20, 10, 2, &order).unwrap();
    assert_eq!(exact.draw_row(&head_on(0, 0), Some((0, 1))), Err(Refusal::Swept));
    assert_eq!(exact.rows_done(), 0);
}

/// Three cells of six pixels between margins of one.
fn line(cells: [u8; 3]) -> Vec<u8> {
    let cells = cells.into_iter().flat_map(|byte| [byte; 6]);
    iter::once(0).chain(cells).chain([0]).collect()
}

#[test]
fn pictures_are_equal_by_what_they_show() {
    let mut a = overview(4, 3, 5, (0, 9)).unwrap();
    let mut b = overview(4, 3, 50, (0, 9)).unwrap();
    assert_eq!(a, b, "nothing is drawn yet");
    a.draw_row(&head_on(1, 0), None).unwrap();
    assert_ne!(a, b, "one row and none");
    b.draw_row(&head_on(1, 0), None).unwrap();
    assert_eq!(a, b, "step 0 in each");
    for picture in [&mut a, &mut b] {
        picture.draw_row(&head_on(1, 0), None).unwrap();
    }
    assert_ne!(a, b, "step 3 and step 25");
    assert_ne!(overview(4, 3, 5, (0, 9)), overview(4, 3, 5, (0, 99)), "another window");
    assert_ne!(overview(4, 3, 5, (0, 9)), overview(3, 4, 5, (0, 9)), "another size");
    a.open();
    assert_eq!(a.rows_done(), 0);
    assert!(a.index_buffer().iter().all(|&byte| byte == index::PAPER));
}

#[test]
fn an_upright_is_refused_below_the_rows_drawn() {
    let mut picture = overview(4, 3, 5, (0, 9)).unwrap();
    picture.draw_row(&head_on(1, 0), None).unwrap();
    assert_eq!(picture.upright(0, 0..=0), Ok(Upright::Unknown), "the head hides its bin");
    assert_eq!(picture.upright(3, 0..=0), Ok(Upright::No));
    for (column, rows) in [(4, 0..=0), (0, 0..=1), (0, RangeInclusive::new(1, 0))] {
        assert_eq!(picture.upright(column, rows), Err(Refusal::Upright));
    }
}

#[test]
fn a_head_counts_as_what_it_passes_over() {
    let (over_a_mark, over_blank) = (passed(1), passed(0));
    assert_eq!(over_a_mark.index_buffer(), over_blank.index_buffer());
    assert_ne!(over_a_mark, over_blank, "they look equal, one hidden symbol apart");
    assert_eq!(over_a_mark, passed(1));
    assert_eq!(over_a_mark.upright(2, 0..=1), Ok(Upright::Yes));
    assert_eq!(over_blank.upright(2, 0..=1), Ok(Upright::No));
    assert_eq!(over_blank.upright(2, 1..=1), Ok(Upright::Yes));
}

#[test]
fn a_head_in_bins_is_unknown_unless_another_pixel_says_no() {
    let mut picture = overview(4, 3, 5, (0, 9)).unwrap();
    let beside = Tape { right: vec![Run { symbol: 1, len: 1 }, Run { symbol: 0, len: 2 }], ..head_on(0, -1) };
    for tape in [&head_on(1, 2), &beside, &head_on(0, 9)] {
        picture.draw_row(tape, None).unwrap();
    }
    assert_eq!(picture.index_buffer(), [19, 255, 0, 0, 19, 19, 0, 0, 0, 0, 0, 255]);
    assert_eq!(picture.upright(0, 0..=1), Ok(Upright::Yes));
    assert_eq!(picture.upright(1, 0..=1), Ok(Upright::Unknown));
    assert_eq!(picture.upright(1, 0..=2), Ok(Upright::No));
}

#[test]
fn swept_paper_is_no_mark() {
    let mut picture = overview(20, 10, 4, (0, 2)).unwrap();
    picture.draw_row(&head_on(1, 0), Some((0, 1))).unwrap();
    assert_eq!(picture.index_buffer()[..20], line([255, 254, 0]));
    assert_eq!(
        [0, 1, 7, 13].map(|column| picture.upright(column, 0..=0)),
        [Upright::No, Upright::Yes, Upright::No, Upright::No].map(Ok)
    );
}

#[test]
fn a_refused_row_changes_nothing() {
    let mut picture = overview(4, 1, 5, (0, 9)).unwrap();
    let before = picture.clone();
    let empty = Tape { left: vec![Run { symbol: 1, len: 0 }], ..Tape::default() };
    assert_eq!(picture.draw_row(&empty, None), Err(Refusal::Runs));
    assert_eq!(picture.draw_row(&head_on(2, 0), None), Err(Refusal::Runs));
    let run = |symbol| Run { symbol, len: 1 };
    let blank_outermost = Tape { left: vec![run(0), run(1)], ..Tape::default() };
    assert_eq!(picture.draw_row(&blank_outermost, None), Err(Refusal::Unjoined));
    let equal_neighbours = Tape { right: vec![run(1), run(1)], ..head_on(0, i64::MAX) };
    assert_eq!(picture.draw_row(&equal_neighbours, None), Err(Refusal::Unjoined));
    assert_eq!(picture.draw_row(&head_on(0, i64::MAX), None), Err(Refusal::Reach));
    assert_eq!(picture.draw_row(&head_on(0, 0), Some((1, 0))), Err(Refusal::Swept));
    assert_eq!((picture.rows_done(), &picture), (0, &before));
    picture.draw_row(&head_on(1, 0), None).unwrap();
    assert_eq!(picture.draw_row(&head_on(1, 0), None), Err(Refusal::Complete));
}

#[test]
fn fits_are_refused_by_number() {
    let refused = |width, extent| overview(width, 1, 0, extent).unwrap_err().number().unwrap();
    assert_eq!(refused(4097, (0, 0)), 1);
    assert_eq!(refused(1, (0, i64::MAX)), 3);
    assert_eq!(refused(1, (1, 0)), 4);
    assert_eq!(refused(1, (0, 1 << 50)), 6);
    assert!(overview(1, 1, 0, (0, (1 << 50) - 1)).is_ok());
    let none = Exact { first_step: 0, cell_px: None, heads: &[], written: None, halted: false };
    assert_eq!(Picture::exact(1, 1, 2, &none).unwrap_err(), Refusal::Heads);
    assert_eq!(Picture::exact(1, 1, 65, &none).unwrap_err(), Refusal::Symbols);
}

#[test]
fn a_fit_takes_as_many_heads_as_it_says() {
    for (width, height, cell_px) in
        [(8, 4, None), (8, 4, Some(0)), (8, 4, Some(2)), (8, 4, Some(3)), (8, 4, Some(u32::MAX)), (3, 9, Some(5))]
    {
        let limit = Exact::row_limit(width, height, cell_px);
        let fit = |count: usize| {
            let heads = vec![0; count];
            let order = Exact { first_step: 0, cell_px, heads: &heads, written: None, halted: false };
            Picture::exact(width, height, 2, &order).map(|picture| picture.rows())
        };
        assert!(fit(limit).is_ok(), "{width} {height} {cell_px:?}");
        assert_eq!(fit(limit + 1), Err(Refusal::Heads), "{width} {height} {cell_px:?}");
    }
}

#[test]
fn a_picture_is_made_of_its_parts() {
    let mut drawn = overview(20, 10, 4, (0, 2)).unwrap();
    drawn.draw_row(&head_on(1, 1), None).unwrap();
    let parts = (*drawn.record(), drawn.index_buffer().to_vec(), drawn.store().to_vec());
    let mut made = Picture::from_parts(parts.0, parts.1.clone(), parts.2.clone()).unwrap();
    assert_eq!((&made, made.locate(7, 0)), (&drawn, drawn.locate(7, 0)));
    assert_eq!((made.cell_px(), made.row_height(), made.rows_done()), (Some(6), 2, 1));
    assert_eq!(made.draw_row(&head_on(1, 2), None), drawn.draw_row(&head_on(1, 2), None));
    assert_eq!(made, drawn, "it is drawn on");

    let made = |record, index, store| Picture::from_parts(record, index, store).unwrap_err();
    assert_eq!(made([0; RECORD_WORDS], parts.1.clone(), parts.2.clone()), Refusal::Record);
    assert_eq!(made(parts.0, vec![0; 199], parts.2.clone()), Refusal::IndexLength);
    assert_eq!(made(parts.0, parts.1.clone(), vec![0]), Refusal::StoreLength);
    let bins = overview(4, 3, 5, (0, 9)).unwrap();
    assert_eq!((bins.cell_px(), bins.store()), (None, &[][..]));
    assert_eq!(made(*bins.record(), bins.index_buffer().to_vec(), vec![0]), Refusal::StoreLength);
}
