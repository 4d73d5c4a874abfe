//! Repeats: swaps to the session already there, or of 0 onto an empty position
//! (document 02, Job 1). Each case distinguishes the right board from the wrong
//! one that its comment describes.

mod board;

use board::{list, Board};
use reference::{place, Refusal};

/// Wrong: a repeat makes the desk owe a session that still stands at the
/// position.
#[test]
fn a_repeat_owes_nothing() {
    let mut board = Board::open(1, 1, 1);
    assert_eq!(board.swap(1, 1, 5), Ok(0));
    board.repeat(1, 1);
    board.repeat(1, 1);
    assert_eq!(board.retire(1), Err(Refusal::OwesNothing));
    assert_eq!(board.swap(1, 1, 6), Ok(5));
    assert_eq!(board.retire(1), Ok(5));
}

/// Wrong: a repeat owes nothing only if the desk that put the session sends it.
#[test]
fn a_repeat_by_another_desk_owes_nothing() {
    let mut board = Board::open(2, 1, 1);
    assert_eq!(board.swap(1, 1, 65_535), Ok(0));
    board.repeat(2, 1);
    assert_eq!(board.retire(2), Err(Refusal::OwesNothing));
    assert_eq!(board.retire(1), Err(Refusal::OwesNothing));
}

/// Wrong: a repeat is a swap for linking. Desk 3 repeats between the take of
/// desk 2 and the swap of desk 1 that replaces what was taken: the take is
/// linked to the retirement by desk 1, and desk 3 has none.
#[test]
fn a_repeat_between_a_take_and_the_next_swap() {
    let mut board = Board::open(3, 1, 1);
    assert_eq!(board.swap(1, 1, 5), Ok(0));
    assert_eq!(board.take(2, 1, 1), Ok(5));
    board.repeat(3, 1);
    assert_eq!(board.retire(3), Err(Refusal::OwesNothing));
    assert_eq!(board.swap(1, 1, 6), Ok(5));
    assert_eq!(board.retire(1), Ok(5));
    assert_eq!(board.collects(3, 2), [0, 0]);
    assert_eq!(board.collects(1, 2), [0, 0]);
    assert_eq!(board.list(1), list(0, 0, 1, &[5]));
    assert_eq!(board.drop(2, 1), Ok(5));
    assert_eq!(board.collects(1, 2), [0, 5]);
}

/// Wrong: 0 onto an empty position is refused, as a take of one is.
#[test]
fn none_onto_an_empty_position() {
    let mut board = Board::open(2, 1, 1);
    board.repeat(1, 1);
    board.repeat(2, 1);
    assert_eq!(board.retire(1), Err(Refusal::OwesNothing));
    assert_eq!(board.swap(1, 1, 5), Ok(0));
    assert_eq!(board.swap(1, 1, 0), Ok(5));
    assert_eq!(board.retire(1), Ok(5));
    board.repeat(1, 1);
}

/// Wrong: the comparison comes before 12, so that a repeat is accepted while the
/// desk owes; perhaps it writes what the desk owes, too. (A refusal that writes
/// fails in `Board`.)
#[test]
fn a_repeat_while_owing() {
    let mut board = Board::open(2, 1, 2);
    assert_eq!(board.swap(1, 1, 5), Ok(0));
    assert_eq!(board.swap(1, 1, 6), Ok(5));
    assert_eq!(board.swap(1, 1, 6), Err(Refusal::Owing));
    assert_eq!(board.swap(1, 1, 5), Err(Refusal::Owing));
    assert_eq!(board.swap(1, 2, 0), Err(Refusal::Owing));
    board.repeat(2, 1);
    assert_eq!(board.retire(1), Ok(5));
    board.repeat(1, 1);
}

/// Wrong: as before. The position holds what the desk owes and what is sent.
#[test]
fn a_repeat_of_what_is_owed() {
    let mut board = Board::open(1, 1, 2);
    assert_eq!(board.swap(1, 1, 7), Ok(0));
    assert_eq!(board.swap(1, 2, 7), Ok(0));
    assert_eq!(board.swap(1, 1, 8), Ok(7));
    assert_eq!(board.swap(1, 2, 7), Err(Refusal::Owing));
    assert_eq!(board.record(1, place::OWED), 7);
}

/// Wrong: a session that stands at any position is a repeat. It is one only at
/// the position that the swap names.
#[test]
fn a_session_at_a_second_position() {
    let mut board = Board::open(1, 1, 2);
    assert_eq!(board.swap(1, 1, 5), Ok(0));
    assert_eq!(board.swap(1, 2, 6), Ok(0));
    assert_eq!(board.swap(1, 2, 5), Ok(6));
    assert_eq!(board.retire(1), Ok(6));
    board.repeat(1, 1);
    board.repeat(1, 2);
    assert_eq!(board.swap(1, 1, 0), Ok(5));
    assert_eq!(board.retire(1), Ok(5));
    board.repeat(1, 2);
}

/// Wrong: sessions are compared by one of their bytes.
#[test]
fn sessions_that_share_a_byte() {
    let mut board = Board::open(1, 1, 1);
    assert_eq!(board.swap(1, 1, 0x0105), Ok(0));
    for (old, new) in [(0x0105, 0x0005), (0x0005, 0x0500), (0x0500, 0x0501)] {
        assert_eq!(board.swap(1, 1, new), Ok(old));
        assert_eq!(board.retire(1), Ok(old));
        assert_eq!(board.collect(1), Ok(old));
    }
}

/// Wrong: a repeat writes nothing, so it asks nothing.
#[test]
fn the_questions_come_before_the_comparison() {
    let mut board = Board::open(2, 1, 1);
    assert_eq!(board.swap(1, 1, 5), Ok(0));
    assert_eq!(board.swap(3, 1, 5), Err(Refusal::NoDesk));
    assert_eq!(board.swap(0, 1, 5), Err(Refusal::NoDesk));
    assert_eq!(board.swap(1, 2, 0), Err(Refusal::NoPosition));
    assert_eq!(board.swap(1, 0, 0), Err(Refusal::NoPosition));
    board.set_record(2, place::WAITING, 1);
    assert_eq!(board.swap(1, 1, 5), Err(Refusal::Unsound));
}

/// With a full list and a screen that shows what stands there. Words past the
/// need and an odd last byte stay too, also where the repeat is refused.
#[test]
fn a_repeat_changes_the_message_number_alone() {
    let mut board = Board::open(1, 2, 3);
    board.wait(1, &[5, 6, 7, 8]);
    board.show(1, 2, 5);
    board.table.extend([0xEE; 7]);
    for position in 1..=3 {
        board.repeat(1, position);
    }
    assert_eq!(board.swap(1, 3, 0), Ok(5));
    for position in 1..=3 {
        assert_eq!(board.swap(1, position, 0), Err(Refusal::Owing));
    }
}
