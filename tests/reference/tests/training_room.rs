//! The training room (document 02, Job 5): its limits, and the question 22 of an
//! opening and of a swap. "Wrong:" describes a board that the case distinguishes
//! from the right one. (hall_book.rs runs the hall book in the training room too.)

mod board;

use board::{list, Board, Step};
use reference::{answer, is_sound, place, set_word, Hall, Limits, Refusal, Reply};

const HALL: Limits = Limits::HALL;
const TRAINING: Limits = Limits::TRAINING;

fn open(desks: u16, screens: u16, positions: u16) -> Board {
    Board::open_in(TRAINING, desks, screens, positions)
}

/// The reply number to an opening in a table of so many bytes.
fn opening(limits: Limits, desks: u16, screens: u16, positions: u16, bytes: usize) -> u32 {
    let mut table = vec![0xAA; bytes];
    let reply = reference::open(limits, desks, screens, positions, &mut table);
    if reply.is_err() {
        assert!(table.iter().all(|&byte| byte == 0xAA));
    }
    answer(reply) >> 16
}

/// The bytes of the largest hall's need.
const MAX_BYTES: usize = 2 * 2403;

fn all_halls() -> impl Iterator<Item = (u16, u16, u16)> {
    (1..=16).flat_map(|desks| {
        (1..=4).flat_map(move |screens| (1..=64).map(move |positions| (desks, screens, positions)))
    })
}

#[test]
fn the_number_of_the_refusal() {
    assert_eq!(answer(Err(Refusal::OverLimits)), 22 << 16);
}

/// Wrong: 5 desks, 2 screens, or fewer than 4, 1 and 64.
#[test]
fn every_hall_within_the_limits() {
    for (desks, screens, positions) in all_halls() {
        let expected = if desks <= 4 && screens <= 1 { 0 } else { 22 };
        assert_eq!(opening(TRAINING, desks, screens, positions, MAX_BYTES), expected);
        assert_eq!(opening(HALL, desks, screens, positions, MAX_BYTES), 0);
    }
}

/// Wrong: 1 to 3 ask the limits of the training room, or 22 comes before one of
/// them.
#[test]
fn the_halls_questions_come_first() {
    let opening = |desks, screens, positions| opening(TRAINING, desks, screens, positions, 0);
    for desks in [0, 17, 65_535] {
        assert_eq!(opening(desks, 2, 65), 1);
        assert_eq!(opening(desks, 1, 1), 1);
    }
    for screens in [0, 5, 65_535] {
        assert_eq!(opening(5, screens, 65), 2);
        assert_eq!(opening(16, screens, 1), 2);
        assert_eq!(opening(4, screens, 1), 2);
    }
    for positions in [0, 65, 65_535] {
        assert_eq!(opening(5, 1, positions), 3);
        assert_eq!(opening(4, 2, positions), 3);
        assert_eq!(opening(4, 1, positions), 3);
    }
}

/// Wrong: the table's length is asked before 22.
#[test]
fn the_length_is_asked_last() {
    assert_eq!(opening(TRAINING, 5, 1, 1, 0), 22);
    assert_eq!(opening(TRAINING, 4, 2, 1, 0), 22);
    assert_eq!(opening(TRAINING, 16, 4, 64, MAX_BYTES - 1), 22);
    assert_eq!(opening(TRAINING, 4, 1, 64, 2 * 159 - 1), 4);
    assert_eq!(opening(TRAINING, 4, 1, 64, 2 * 159), 0);
}

/// All five steps, with numbers that a training room has.
fn steps(limits: Limits, table: &mut [u8]) -> [Reply; 5] {
    let all = [
        Step::Take(1, 1, 1),
        Step::Drop(1, 1),
        Step::Swap(1, 1, 5),
        Step::Retire(1),
        Step::Collect(1),
    ];
    all.map(|step| step.on(limits, 0, table))
}

/// Wrong: soundness asks the hall's limits. A table of the hall is refused with 5,
/// also where the step would be refused for another reason.
#[test]
fn tables_of_the_hall() {
    for (desks, screens, positions) in all_halls() {
        let mut table = Board::open(desks, screens, positions).table;
        let in_training = desks <= 4 && screens == 1;
        assert!(is_sound(HALL, &table));
        assert_eq!(is_sound(TRAINING, &table), in_training);
        if !in_training {
            assert_eq!(steps(TRAINING, &mut table), [Err(Refusal::Unsound); 5]);
            let too_large = reference::swap(TRAINING, 0, 17, 65, 1_000, &mut table);
            assert_eq!(too_large, Err(Refusal::Unsound));
        }
    }
}

/// The layout is that of the hall, so each board reads the other's tables.
#[test]
fn a_table_of_both_rooms() {
    let mut board = open(4, 1, 2);
    assert_eq!(board.table, Board::open(4, 1, 2).table);
    assert_eq!(board.swap(1, 1, 999), Ok(0));
    assert_eq!(reference::swap(HALL, 0, 2, 2, 1_000, &mut board.table), Ok(0));
    assert_eq!(reference::take(HALL, 0, 3, 1, 1, &mut board.table), Ok(999));
    assert_eq!(board.take(4, 1, 2), Ok(1_000));
    assert_eq!(reference::drop(HALL, 1, 4, 1, &mut board.table), Ok(1_000));
    assert_eq!(board.drop(3, 1), Ok(999));
}

/// Wrong: the limit is 998, 1,000 or 1,023, or a comparison of one byte.
#[test]
fn every_session() {
    let fresh = open(1, 1, 1);
    for session in 0..=65_535 {
        let mut table = fresh.table.clone();
        let reply = reference::swap(TRAINING, 0, 1, 1, session, &mut table);
        if session <= 999 {
            assert_eq!(reply, Ok(0));
        } else {
            assert_eq!(reply, Err(Refusal::OverLimits));
            assert_eq!(table, fresh.table);
        }
        let reply = reference::swap(HALL, 0, 1, 1, session, &mut fresh.table.clone());
        assert_eq!(reply, Ok(0));
    }
}

/// Wrong: 22 comes before 5, 6 or 8, or after 12.
#[test]
fn a_swap_asks_in_order() {
    let mut board = open(2, 1, 1);
    assert_eq!(board.swap(3, 1, 1_000), Err(Refusal::NoDesk));
    assert_eq!(board.swap(0, 2, 1_000), Err(Refusal::NoDesk));
    assert_eq!(board.swap(1, 2, 1_000), Err(Refusal::NoPosition));
    assert_eq!(board.swap(1, 0, 1_000), Err(Refusal::NoPosition));
    assert_eq!(board.swap(1, 1, 1_000), Err(Refusal::OverLimits));
    assert_eq!(board.swap(1, 1, 5), Ok(0));
    assert_eq!(board.swap(1, 1, 6), Ok(5));
    assert_eq!(board.swap(1, 1, 1_000), Err(Refusal::OverLimits));
    assert_eq!(board.swap(1, 1, 999), Err(Refusal::Owing));
    board.set_record(2, place::WAITING, 1);
    assert_eq!(board.swap(1, 1, 1_000), Err(Refusal::Unsound));
}

/// Wrong: a repeat of a session over the limit is accepted, since it puts nothing;
/// or it is refused with 12 while the desk owes.
#[test]
fn a_repeat_over_the_limit() {
    let mut board = open(1, 1, 2);
    let position = board.hall.position(1);
    set_word(&mut board.table, position, 1_000);
    assert_eq!(board.swap(1, 1, 1_000), Err(Refusal::OverLimits));
    assert_eq!(board.swap(1, 2, 5), Ok(0));
    assert_eq!(board.swap(1, 2, 6), Ok(5));
    assert_eq!(board.swap(1, 1, 1_000), Err(Refusal::OverLimits));
    assert_eq!(board.swap(1, 2, 6), Err(Refusal::Owing));
    assert_eq!(board.retire(1), Ok(5));
    board.repeat(1, 2);
}

/// Wrong: soundness asks the sessions in a table for their limit, or a step does. A
/// session over it goes through all five.
#[test]
fn sessions_over_the_limit_in_a_table() {
    let mut board = open(1, 1, 1);
    let position = board.hall.position(1);
    set_word(&mut board.table, position, 65_535);
    assert_eq!(board.take(1, 1, 1), Ok(65_535));
    assert_eq!(board.swap(1, 1, 0), Ok(65_535));
    assert_eq!(board.retire(1), Ok(65_535));
    assert_eq!(board.list(1), list(0, 0, 1, &[65_535]));
    assert_eq!(board.collect(1), Ok(0));
    assert_eq!(board.drop(1, 1), Ok(65_535));
    assert_eq!(board.collect(1), Ok(65_535));
}

/// Wrong: as before. All positions, screens, owed sessions and lists are over it.
#[test]
fn soundness_asks_no_session_for_its_limit() {
    let mut board = open(4, 1, 64);
    let hall: Hall = board.hall;
    for at in 3..hall.screens_of_hall().end {
        set_word(&mut board.table, at, 1_000);
    }
    for desk in 1..=4 {
        board.set_record(desk, place::OWED, 1_000);
        board.set_record(desk, place::READY, 8);
        (0..8).for_each(|at| board.set_record(desk, place::LIST + at, 65_535));
    }
    assert!(is_sound(TRAINING, &board.table));
    assert_eq!(board.drop(4, 1), Ok(1_000));
    assert_eq!(board.retire(4), Err(Refusal::NoRoom));
    assert_eq!(board.collect(4), Ok(65_535));
    assert_eq!(board.retire(4), Ok(1_000));
}

/// The largest training room: all eight places of a list, and all four screens.
#[test]
fn the_largest_list() {
    let mut board = open(4, 1, 64);
    let sessions = [999, 998, 997, 996, 995, 994, 993, 992];
    board.wait(4, &sessions);
    assert_eq!(board.swap(4, 1, 5), Ok(0));
    assert_eq!(board.swap(4, 1, 999), Ok(5));
    assert_eq!(board.retire(4), Err(Refusal::NoRoom));
    assert_eq!(board.take(1, 1, 1), Ok(999));
    assert_eq!(board.collects(4, 2), [0, 998]);
    assert_eq!(board.list(4), list(6, 0, 1, &[997, 996, 995, 994, 993, 992, 999]));
    assert_eq!(board.retire(4), Ok(5));
}
