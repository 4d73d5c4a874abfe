//! The questions in their order, and soundness clause by clause, each at the
//! last value that passes and the first that does not.

mod board;

use board::Board;
use reference::{answer, place, set_word, word, Hall, Limits, Refusal};

const HALL: Limits = Limits::HALL;

fn is_sound(table: &[u8]) -> bool {
    reference::is_sound(HALL, table)
}

fn opening(desks: u16, screens: u16, positions: u16, bytes: usize) -> u32 {
    let mut table = vec![0xAA; bytes];
    let reply = reference::open(HALL, desks, screens, positions, &mut table);
    if reply.is_err() {
        assert!(table.iter().all(|&byte| byte == 0xAA));
    }
    answer(reply)
}

#[test]
fn an_opening_asks_in_order() {
    assert_eq!(opening(0, 0, 0, 0), 1 << 16);
    assert_eq!(opening(17, 5, 65, 0), 1 << 16);
    assert_eq!(opening(16, 0, 0, 0), 2 << 16);
    assert_eq!(opening(16, 5, 65, 0), 2 << 16);
    assert_eq!(opening(16, 4, 0, 0), 3 << 16);
    assert_eq!(opening(16, 4, 65, 0), 3 << 16);
    assert_eq!(opening(16, 4, 64, 2 * 2402), 4 << 16);
    assert_eq!(opening(16, 4, 64, 2 * 2403), 0);
}

#[test]
fn an_odd_last_byte_is_no_part_of_the_table() {
    assert_eq!(opening(1, 1, 1, 41), 4 << 16);
    let mut table = [0xAA; 43];
    assert_eq!(reference::open(HALL, 1, 1, 1, &mut table), Ok(0));
    assert_eq!(table[42], 0xAA);
}

#[test]
fn words_past_the_need_are_left_alone() {
    let mut table = [0xAA; 50];
    assert_eq!(reference::open(HALL, 1, 1, 1, &mut table), Ok(0));
    assert_eq!(reference::swap(HALL, 0, 1, 1, 5, &mut table), Ok(0));
    assert_eq!(reference::swap(HALL, 1, 1, 1, 6, &mut table), Ok(5));
    assert_eq!(reference::retire(HALL, 2, 1, &mut table), Ok(5));
    assert_eq!(reference::collect(HALL, 3, 1, &mut table), Ok(5));
    assert_eq!(table[42..], [0xAA; 8]);
}

#[test]
fn opening_again_starts_afresh() {
    let mut board = Board::open(2, 2, 2);
    let fresh = board.table.clone();
    board.wait(1, &[5, 6]);
    board.show(2, 2, 5);
    assert_ne!(board.table, fresh);
    assert_eq!(reference::open(HALL, 2, 2, 2, &mut board.table), Ok(0));
    assert_eq!(board.table, fresh);
}

#[test]
fn steps_ask_in_order() {
    let mut board = Board::open(2, 1, 1);
    assert_eq!(board.take(3, 2, 2), Err(Refusal::NoDesk));
    assert_eq!(board.take(0, 0, 0), Err(Refusal::NoDesk));
    assert_eq!(board.take(2, 2, 2), Err(Refusal::NoScreen));
    assert_eq!(board.take(2, 0, 0), Err(Refusal::NoScreen));
    assert_eq!(board.take(2, 1, 2), Err(Refusal::NoPosition));
    assert_eq!(board.take(2, 1, 0), Err(Refusal::NoPosition));
    assert_eq!(board.take(2, 1, 1), Err(Refusal::PositionEmpty));
    assert_eq!(board.drop(3, 2), Err(Refusal::NoDesk));
    assert_eq!(board.drop(2, 2), Err(Refusal::NoScreen));
    assert_eq!(board.drop(2, 1), Err(Refusal::ScreenEmpty));
    assert_eq!(board.swap(3, 2, 5), Err(Refusal::NoDesk));
    assert_eq!(board.swap(2, 2, 5), Err(Refusal::NoPosition));
    assert_eq!(board.retire(3), Err(Refusal::NoDesk));
    assert_eq!(board.collect(3), Err(Refusal::NoDesk));
}

#[test]
fn numbers_are_16_bits_wide() {
    let mut board = Board::open(1, 1, 1);
    assert_eq!(board.collect(257), Err(Refusal::NoDesk));
    assert_eq!(board.drop(1, 257), Err(Refusal::NoScreen));
    assert_eq!(board.swap(1, 257, 5), Err(Refusal::NoPosition));
    assert_eq!(board.swap(1, 1, 65_535), Ok(0));
    assert_eq!(board.take(1, 1, 1), Ok(65_535));
}

/// An owed session with a full list is 14; a full list alone is 13.
#[test]
fn owing_is_asked_before_room() {
    let mut board = Board::open(1, 1, 1);
    board.wait(1, &[5, 6]);
    assert_eq!(board.retire(1), Err(Refusal::OwesNothing));
}

#[test]
fn short_tables_are_unsound() {
    let board = Board::open(1, 1, 1);
    for bytes in 0..board.table.len() {
        let mut table = board.table[..bytes].to_vec();
        assert_eq!(answer(reference::collect(HALL, 0, 9, &mut table)), 5 << 16);
    }
}

/// A hall of 5 screens, desk 2 during a reading: its list has 2 ready, 3
/// tested and 1 waiting; 2 screens read, tested places 0 and 2 marked.
fn reading() -> Board {
    let mut board = Board::open(5, 1, 2);
    for (at, value) in [
        (place::SCANNED, 2),
        (place::READY, 2),
        (place::TESTED, 3),
        (place::WAITING, 1),
        (place::MARKS, 0b101),
    ] {
        board.set_record(2, at, value);
    }
    for at in 0..6 {
        board.set_record(2, place::LIST + at, 5);
    }
    assert!(is_sound(&board.table));
    board
}

/// Is the reading board still sound with these words of desk 2 changed?
fn sound_with(changes: &[(usize, u16)]) -> bool {
    let mut board = reading();
    for &(at, value) in changes {
        board.set_record(2, at, value);
    }
    let sound = is_sound(&board.table);
    let before = board.table.clone();
    let unsound = answer(reference::collect(HALL, 0, 0, &mut board.table)) == 5 << 16;
    assert_eq!(board.table, before);
    assert_eq!(unsound, !sound);
    sound
}

#[test]
fn sums_of_counts() {
    let full: Vec<_> = (6..10).map(|at| (place::LIST + at, 5)).collect();
    let with = |counts: &[(usize, u16)]| sound_with(&[&full[..], counts].concat());
    assert!(with(&[(place::WAITING, 5)]));
    assert!(!with(&[(place::WAITING, 6)]));
    assert!(with(&[(place::READY, 6)]));
    assert!(!with(&[(place::READY, 7)]));
}

/// Ready 65,535 and waiting 4 sum to 3 in 16 bits; with 3 tested that is 6.
#[test]
fn sums_do_not_wrap() {
    assert!(!sound_with(&[(place::READY, 65_535), (place::WAITING, 4)]));
    assert!(!sound_with(&[(place::READY, 32_768), (place::WAITING, 32_771)]));
}

#[test]
fn used_and_unused_places() {
    assert!(!sound_with(&[(place::LIST, 0)]));
    assert!(!sound_with(&[(place::LIST + 5, 0)]));
    assert!(!sound_with(&[(place::LIST + 6, 1)]));
    assert!(!sound_with(&[(place::LIST + 9, 256)]));
    assert!(sound_with(&[(place::LIST + 5, 256)]));
}

#[test]
fn marks_on_tested_places_only() {
    assert!(sound_with(&[(place::MARKS, 0b110)]));
    assert!(!sound_with(&[(place::MARKS, 0b1000)]));
    for word in 1..8 {
        assert!(!sound_with(&[(place::MARKS, 0), (place::MARKS + word, 1)]));
        assert!(!sound_with(&[(place::MARKS, 0), (place::MARKS + word, 0x8000)]));
    }
}

#[test]
fn marked_places_are_at_most_those_read() {
    assert!(!sound_with(&[(place::MARKS, 0b111)]));
    assert!(sound_with(&[(place::MARKS, 0b111), (place::SCANNED, 4)]));
}

/// No marks: with marks, k would have a lower bound.
#[test]
fn screens_read_so_far() {
    let sound = |scanned| sound_with(&[(place::SCANNED, scanned), (place::MARKS, 0)]);
    assert!(sound(2) && sound(4));
    for scanned in [0, 1, 3, 5, 6, 258, 65_534] {
        assert!(!sound(scanned));
    }
}

#[test]
fn nothing_tested_nothing_read() {
    let none = [(place::TESTED, 0), (place::WAITING, 4)];
    assert!(!sound_with(&[&none[..], &[(place::MARKS, 0)]].concat()));
    assert!(sound_with(&[&none[..], &[(place::MARKS, 0), (place::SCANNED, 0)]].concat()));
    assert!(!sound_with(&[&none[..], &[(place::MARKS, 1), (place::SCANNED, 0)]].concat()));
}

/// With one or two screens no k is valid while something is tested.
#[test]
fn small_halls_test_nothing_between_steps() {
    for desks in [1, 2] {
        for scanned in 0..4 {
            let mut board = Board::open(desks, 1, 1);
            board.set_record(1, place::TESTED, 1);
            board.set_record(1, place::LIST, 5);
            board.set_record(1, place::SCANNED, scanned);
            assert!(!is_sound(&board.table));
        }
    }
}

#[test]
fn the_header_is_asked_for_its_ranges() {
    for (at, value) in [(0, 0), (0, 17), (1, 0), (1, 5), (2, 0), (2, 65), (2, 65_535)] {
        let mut table = Board::open(16, 4, 64).table;
        set_word(&mut table, at, value);
        assert!(!is_sound(&table));
    }
}

/// Positions, screens, what a desk owes and its message number may hold anything.
#[test]
fn soundness_asks_nothing_of_the_rest() {
    let mut board = reading();
    let hall: Hall = board.hall;
    for at in 3..hall.screens_of_hall().end {
        set_word(&mut board.table, at, 65_535);
    }
    board.set_record(2, place::OWED, 65_535);
    (1..=5).for_each(|desk| board.set_next(desk, 65_535));
    assert!(is_sound(&board.table));
    assert_eq!(word(&board.table, 3), 65_535);
}
