//! Tapes that own their runs, and tapes that are lent.

use spacetime::{LentSide, LentTape, Overview, Picture, Refusal, Run, Tape};

/// 2 0 0 1 [1] 0 2 2 2, the head on position 10.
fn owned() -> Tape {
    let run = |(symbol, len)| Run { symbol, len };
    Tape {
        left: [(2, 1), (0, 2), (1, 1)].map(run).to_vec(),
        cur: 1,
        right: [(2, 3), (0, 1)].map(run).to_vec(),
        head: 10,
    }
}

const LENT: LentTape = LentTape {
    head: 10,
    cur: 1,
    left: LentSide { symbols: &[2, 0, 1], lengths: &[1, 2, 1] },
    right: LentSide { symbols: &[2, 0], lengths: &[3, 1] },
};

#[test]
fn a_lent_tape_answers_as_an_owned_one() {
    assert_eq!(LENT.window(3, 5, 11), Ok(vec![0, 2, 0, 0, 1, 1, 0, 2, 2, 2, 0]));
    assert_eq!(LENT.window(3, 5, 11), owned().window(3, 5, 11));
    for position in [i64::MIN, 5, 6, 7, 10, 13, 14, i64::MAX] {
        assert_eq!(LENT.get(3, position), owned().get(3, position));
    }
    let fitted = Picture::overview(30, 10, 3, &Overview { total: 1, extent: (6, 14) }).unwrap();
    let (mut from_lent, mut from_owned) = (fitted.clone(), fitted);
    assert_eq!(from_lent.draw_lent_row(LENT, Some((6, 7))), from_owned.draw_row(&owned(), Some((6, 7))));
    assert_eq!((from_lent.store(), &from_lent), (from_owned.store(), &from_owned));
}

#[test]
fn a_lent_side_has_as_many_symbols_as_lengths() {
    let uneven = LentTape { left: LentSide { symbols: &[1], lengths: &[] }, ..LENT };
    assert_eq!(uneven.get(3, 0), Err(Refusal::Runs));
    assert_eq!(uneven.window(3, 0, 5), Err(Refusal::Runs));
    let mut picture = Picture::overview(4, 3, 3, &Overview { total: 5, extent: (0, 9) }).unwrap();
    assert_eq!(picture.draw_lent_row(uneven, None), Err(Refusal::Runs));
}

#[test]
fn a_window_of_any_length_is_refused_or_answered() {
    for length in [usize::MAX, usize::MAX / 2, 1 << 62] {
        assert_eq!(LENT.window(3, 0, length), Err(Refusal::Memory));
        assert_eq!(owned().window(3, 0, length), Err(Refusal::Memory));
    }
    assert_eq!(LENT.window(2, 0, usize::MAX), Err(Refusal::Runs), "the tape is looked at first");
    assert_eq!(LENT.window(3, 0, 0), Ok(Vec::new()));
    assert_eq!(Refusal::Memory.number(), None);
}

#[test]
fn a_window_goes_to_memory_that_is_lent() {
    let mut out = [9; 3];
    assert_eq!(LENT.window_into(3, 9, &mut out), Ok(()));
    assert_eq!(out, [1, 1, 0]);
    assert_eq!(LENT.window_into(2, 9, &mut out), Err(Refusal::Runs));
    assert_eq!(out, [1, 1, 0], "a refused call changes nothing");
}
