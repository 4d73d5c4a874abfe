//! Cases of our own in addition to the hall book. Each distinguishes the right
//! board from the wrong one that its comment describes.

mod board;

use board::{list, Board};
use reference::place;

/// Wrong: every tested copy of a session that some screen shows is kept. Then
/// all three 7s would stay, and a list could fill up with them.
#[test]
fn one_screen_keeps_one_copy() {
    let mut board = Board::open(2, 1, 2);
    board.wait(1, &[7, 7, 7]);
    board.show(2, 1, 7);
    assert_eq!(board.collect(1), Ok(7));
    assert_eq!(board.list(1), list(1, 0, 1, &[7, 7]));
}

/// Wrong: a session retired in mid-reading joins the tested ones. Screen 1 has
/// been read before it takes 6; 6 would be handed back while it is shown.
#[test]
fn retired_in_mid_reading_waits_for_the_next() {
    let mut board = Board::open(3, 1, 2);
    board.wait(1, &[5]);
    assert_eq!(board.collect(1), Ok(0));
    board.show(1, 1, 6);
    board.wait(1, &[6]);
    assert_eq!(board.collects(1, 4), [5, 0, 0, 0]);
    assert_eq!(board.drop(1, 1), Ok(6));
}

/// Wrong: two screens that show the same session mark the same place. Both
/// retirements of 5 may be guarded, so both must stay.
#[test]
fn two_screens_keep_two_copies() {
    let mut board = Board::open(2, 1, 2);
    board.wait(1, &[5, 5]);
    board.show(1, 1, 5);
    board.show(2, 1, 5);
    assert_eq!(board.collect(1), Ok(0));
    assert_eq!(board.list(1), list(0, 0, 2, &[5, 5]));
}

/// Wrong: as before, with the two screens read by different collects.
#[test]
fn a_mark_lasts_from_collect_to_collect() {
    let mut board = Board::open(4, 1, 2);
    board.wait(1, &[5, 5]);
    board.show(2, 1, 5);
    board.show(3, 1, 5);
    assert_eq!(board.collects(1, 2), [0, 0]);
    assert_eq!(board.list(1), list(0, 0, 2, &[5, 5]));
}

/// Wrong: the desk's own screens are skipped.
#[test]
fn own_screens_are_read() {
    let mut board = Board::open(1, 2, 2);
    board.wait(1, &[5]);
    board.show(1, 2, 5);
    assert_eq!(board.collect(1), Ok(0));
    assert_eq!(board.list(1), list(0, 0, 1, &[5]));
}

/// Wrong: handing back comes before settling, one collect late.
#[test]
fn the_settling_collect_hands_back() {
    let mut board = Board::open(1, 1, 1);
    board.wait(1, &[5]);
    assert_eq!(board.collect(1), Ok(5));
}

/// Wrong: kept sessions go behind those already waiting.
#[test]
fn kept_sessions_go_ahead_of_the_waiting() {
    let mut board = Board::open(3, 1, 2);
    board.wait(1, &[5]);
    board.show(1, 1, 5);
    assert_eq!(board.collect(1), Ok(0));
    board.wait(1, &[6]);
    assert_eq!(board.collect(1), Ok(0));
    assert_eq!(board.list(1), list(0, 0, 2, &[5, 6]));
    assert_eq!(board.drop(1, 1), Ok(5));
    assert_eq!(board.collects(1, 3), [0, 5, 6]);
}

/// Wrong: the last copy is marked instead of the first. The first 5 would then
/// be handed back ahead of 6.
#[test]
fn the_first_copy_is_marked() {
    let mut board = Board::open(2, 1, 2);
    board.wait(1, &[5, 6, 5]);
    board.show(2, 1, 5);
    assert_eq!(board.collects(1, 2), [6, 5]);
}

/// Wrong: the newest is handed back first.
#[test]
fn the_oldest_is_handed_back_first() {
    let mut board = Board::open(1, 2, 1);
    board.wait(1, &[5, 6, 7]);
    assert_eq!(board.collects(1, 4), [5, 6, 7, 0]);
}

/// Wrong: unmarked sessions join at the front of ready. 7 would overtake 6.
#[test]
fn unmarked_join_the_end_of_ready() {
    let mut board = Board::open(1, 1, 1);
    board.wait(1, &[5, 6]);
    assert_eq!(board.collect(1), Ok(5));
    board.wait(1, &[7]);
    assert_eq!(board.collects(1, 2), [6, 7]);
}

/// Wrong: the collect that settles begins a new pass as well. 6 would be
/// tested already, and back one collect early.
#[test]
fn the_settling_collect_begins_no_new_pass() {
    let mut board = Board::open(3, 1, 1);
    board.wait(1, &[5]);
    assert_eq!(board.collect(1), Ok(0));
    board.wait(1, &[6]);
    assert_eq!(board.collect(1), Ok(5));
    assert_eq!(board.list(1), list(0, 0, 1, &[6]));
    assert_eq!(board.record(1, place::SCANNED), 0);
    assert_eq!(board.collects(1, 2), [0, 6]);
}

/// Wrong: any session on a screen marks any tested place.
#[test]
fn only_its_own_session_marks_a_place() {
    let mut board = Board::open(2, 1, 2);
    board.wait(1, &[5]);
    board.show(2, 1, 6);
    assert_eq!(board.collect(1), Ok(5));
}

/// Wrong: marks count list places, not tested ones. With 8 still ready the
/// mark of tested place 0 would lie on the place of another.
#[test]
fn marks_count_tested_places() {
    let mut board = Board::open(3, 1, 2);
    board.wait(1, &[8, 8, 8]);
    assert_eq!(board.collects(1, 2), [0, 8]);
    board.wait(1, &[5, 6]);
    board.show(1, 1, 5);
    assert_eq!(board.collect(1), Ok(8));
    assert_eq!(board.list(1), list(1, 2, 0, &[8, 5, 6]));
    assert_eq!(board.record(1, place::MARKS), 1);
    assert_eq!(board.collects(1, 2), [8, 6]);
}

/// Wrong: the first collect reads the whole hall.
#[test]
fn a_collect_reads_two_screens() {
    let mut board = Board::open(5, 1, 2);
    board.wait(1, &[5]);
    for scanned in [2, 4] {
        assert_eq!(board.collect(1), Ok(0));
        assert_eq!(board.record(1, place::SCANNED), scanned);
    }
    board.show(5, 1, 5);
    assert_eq!(board.collect(1), Ok(0));
    assert_eq!(board.list(1), list(0, 0, 1, &[5]));
}

/// In the largest hall all 128 places and all eight mark words are used.
#[test]
fn the_largest_list_is_read_and_settled() {
    let mut board = Board::open(16, 4, 64);
    board.wait(9, &[5; 128]);
    for desk in 1..=16 {
        for screen in 1..=4 {
            board.show(desk, screen, 5);
        }
    }
    assert_eq!(board.collects(9, 31), [0; 31]);
    assert_eq!(board.record(9, place::SCANNED), 62);
    assert_eq!(board.collect(9), Ok(5));
    assert_eq!(board.list(9), list(63, 0, 64, &[5; 127]));
}
