//! The hall book of document 01, cases A to K and M. (L is in day_sheet.) All but
//! B, whose hall is too large for it, in the training room too, and with rings for lists
//! (ring.rs has their A and B). Document 02, Job 6: "The need grows by P words, so cases A
//! and B say 21 and 2,403".

mod board;

use board::{list, Board, Step};
use reference::{answer, Hall, Limits, Refusal};

const HALL: Limits = Limits::HALL;

/// The answer to opening this hall in a table of `words` words.
fn open(limits: Limits, desks: u16, screens: u16, positions: u16, words: usize) -> u32 {
    let mut table = vec![0xAA; 2 * words];
    answer(reference::open(limits, desks, screens, positions, &mut table))
}

fn need(limits: Limits, desks: u16, screens: u16, positions: u16) -> usize {
    Hall::new(limits, desks, screens, positions).unwrap().need()
}

#[test]
fn case_a() {
    for limits in [HALL, Limits::TRAINING] {
        assert_eq!(need(limits, 1, 1, 1), 21);
        assert_eq!(open(limits, 1, 1, 1, 20), 4 << 16);
        assert_eq!(open(limits, 1, 1, 1, 21), 0);
    }
}

#[test]
fn case_b() {
    assert_eq!(need(HALL, 16, 4, 64), 2403);
    assert_eq!(open(HALL, 17, 4, 64, 2403), 1 << 16);
    assert_eq!(open(HALL, 16, 4, 64, 2403), 0);
}

/// A first swap fills the position, so that each of the three replaces one.
#[test]
fn case_c() {
    for mut board in Board::open_every_kind(1, 1, 1) {
        assert_eq!(board.swap(1, 1, 10), Ok(0));
        for session in [10, 20] {
            assert_eq!(board.swap(1, 1, session + 10), Ok(session));
            assert_eq!(board.retire(1), Ok(session));
        }
        assert_eq!(board.swap(1, 1, 40), Ok(30));
        assert_eq!(board.retire(1), Err(Refusal::NoRoom));
        assert_eq!(answer(board.retire(1)), 14 << 16);
    }
}

#[test]
fn case_d() {
    for mut board in Board::open_every_kind(1, 1, 1) {
        assert_eq!(board.swap(1, 1, 300), Ok(0));
        assert_eq!(board.take(1, 1, 1), Ok(300));
        assert_eq!(board.swap(1, 1, 7), Ok(300));
        assert_eq!(board.retire(1), Ok(300));
        assert_eq!(board.collect(1), Ok(0));
        assert_eq!(board.drop(1, 1), Ok(300));
        assert_eq!(board.collect(1), Ok(300));
        assert_eq!(board.retire(1), Err(Refusal::OwesNothing));
    }
}

#[test]
fn case_e() {
    for mut board in Board::open_every_kind(2, 1, 2) {
        board.wait(1, &[5, 5]);
        board.show(2, 1, 5);
        assert_eq!(board.collect(1), Ok(5));
        assert_eq!(board.list(1), list(0, 0, 1, &[5]));
    }
}

#[test]
fn case_f() {
    for mut board in Board::open_every_kind(3, 1, 2) {
        board.wait(1, &[5]);
        board.show(1, 1, 5);
        assert_eq!(board.collect(1), Ok(0));
        assert_eq!(board.drop(1, 1), Ok(5));
        assert_eq!(board.collects(1, 3), [0, 0, 5]);
    }
}

#[test]
fn case_g() {
    for mut board in Board::open_every_kind(3, 1, 2) {
        board.wait(1, &[5]);
        assert_eq!(board.collect(1), Ok(0));
        board.wait(1, &[6]);
        assert_eq!(board.collects(1, 3), [5, 0, 6]);
    }
}

#[test]
fn case_h() {
    for mut board in Board::open_every_kind(1, 1, 2) {
        board.show(1, 1, 5);
        assert_eq!(board.take(1, 1, 1), Err(Refusal::ScreenFull));
    }
}

#[test]
fn case_i() {
    for mut board in Board::open_every_kind(1, 1, 1) {
        board.changes_nothing(Step::Collect(1), 0);
    }
}

#[test]
fn case_j() {
    for mut board in Board::open_every_kind(1, 1, 1) {
        assert_eq!(board.swap(1, 1, 0), Ok(0));
        assert_eq!(board.retire(1), Err(Refusal::OwesNothing));
    }
}

#[test]
fn case_k() {
    for mut board in Board::open_every_kind(1, 1, 1) {
        assert_eq!(board.swap(1, 1, 5), Ok(0));
        assert_eq!(board.swap(1, 1, 6), Ok(5));
        assert_eq!(board.swap(1, 1, 7), Err(Refusal::Owing));
    }
}

#[test]
fn case_m() {
    for mut board in Board::open_every_kind(3, 1, 2) {
        board.wait(1, &[5]);
        board.show(3, 1, 5);
        assert_eq!(board.collect(1), Ok(0));
        assert_eq!(board.drop(3, 1), Ok(5));
        assert_eq!(board.collect(1), Ok(5));
    }
}
