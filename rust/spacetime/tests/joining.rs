//! Tapes that are joined.

use spacetime::{Refusal, Run, Tape};

fn run(symbol: u8, len: u64) -> Run {
    Run { symbol, len }
}

/// Runs of one symbol on both sides, blank ones at the outer ends, and a blank one between others.
fn imported() -> Tape {
    Tape {
        head: -4,
        cur: 2,
        left: vec![run(0, 1), run(0, 2), run(1, 1), run(1, 1), run(0, 3), run(2, 1)],
        right: vec![run(2, 1), run(2, 1 << 40), run(2, 7), run(1, 1)],
    }
}

#[test]
fn joined_sides_have_the_same_symbols_in_fewer_runs() {
    let mut tape = imported();
    assert_eq!(tape.join(3), Ok((3, 2)));
    assert_eq!(tape.left, [run(1, 2), run(0, 3), run(2, 1)]);
    assert_eq!(tape.right, [run(2, (1 << 40) + 8), run(1, 1)]);
    assert_eq!(tape.window(3, -20, 40), imported().window(3, -20, 40));
}

#[test]
fn joining_again_changes_nothing() {
    let mut once = imported();
    once.join(3).unwrap();
    let mut twice = once.clone();
    assert_eq!(twice.join(3), Ok((0, 0)));
    assert_eq!(twice, once);
}

#[test]
fn blank_sides_join_to_none() {
    let mut tape = Tape { left: vec![run(0, 1); 5], right: vec![run(0, 1 << 62)], ..Tape::default() };
    assert_eq!(tape.join(1), Ok((5, 1)));
    assert_eq!(tape, Tape::default());
}

#[test]
fn refused_tapes_keep_their_runs() {
    let empty_run = Tape { right: vec![run(2, 1), run(2, 0)], ..imported() };
    let too_long = Tape { left: vec![run(0, 1 << 62), run(0, 1)], ..imported() };
    for (tape, symbols, refusal) in [
        (imported(), 65, Refusal::Symbols),
        (imported(), 2, Refusal::Runs),
        (empty_run, 3, Refusal::Runs),
        (too_long, 3, Refusal::Reach),
    ] {
        let mut refused = tape.clone();
        assert_eq!(refused.join(symbols), Err(refusal));
        assert_eq!(refused, tape);
    }
}
