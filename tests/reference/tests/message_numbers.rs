//! Message numbers (document 02, Job 6): the word of each desk, the question 23, and
//! which calls move a number on. Each case distinguishes the right board from the
//! wrong one that its comment describes. `Board` checks of every step that an
//! accepted one moves its desk's number on, and no other, and that a refused one
//! moves none.

mod board;

use board::Step::{self, Collect, Drop, Retire, Swap, Take};
use board::{list, Board};
use reference::{answer, place, set_word, word, Hall, Limits, Refusal};

const OTHER: Result<u16, Refusal> = Err(Refusal::OtherMessage);

#[test]
fn the_number_of_the_refusal() {
    assert_eq!(answer(OTHER), 23 << 16);
}

/// Wrong: the need is without the new words.
#[test]
fn the_need_grows_by_a_word_for_each_desk() {
    for desks in 1..=16 {
        for screens in 1..=4 {
            for positions in [1, 64] {
                let hall = Hall::new(Limits::HALL, desks, screens, positions).unwrap();
                let [desks, screens, positions] = [desks, screens, positions].map(usize::from);
                let all = desks * screens;
                assert_eq!(hall.need(), 3 + positions + all + desks * (14 + 2 * all));
            }
        }
    }
}

/// Wrong: the word is the first of the record. In this hall the records are words 6
/// to 23 and 24 to 41.
#[test]
fn the_word_is_the_last_of_the_record() {
    let mut board = Board::open(2, 1, 1);
    assert_eq!(board.table.len(), 2 * 42);
    assert_eq!(board.collect(1), Ok(0));
    assert_eq!(board.collects(2, 3), [0, 0, 0]);
    let not_zero = (3..42).filter(|&at| word(&board.table, at) != 0);
    let not_zero: Vec<_> = not_zero.map(|at| (at, word(&board.table, at))).collect();
    assert_eq!(not_zero, [(23, 1), (41, 3)]);
}

/// Wrong: an opening leaves the numbers as they were.
#[test]
fn an_opening_starts_at_0() {
    let mut board = Board::open(3, 2, 1);
    let fresh = board.table.clone();
    (1..=3).for_each(|desk| board.set_next(desk, 7));
    assert_eq!(board.send(7, Collect(2)), Ok(0));
    assert_eq!(reference::open(Limits::HALL, 3, 2, 1, &mut board.table), Ok(0));
    assert_eq!(board.table, fresh);
    (1..=3).for_each(|desk| assert_eq!(board.send(0, Collect(desk)), Ok(0)));
}

/// Tables on which the five steps of desk 1 are accepted, in the hall and in the
/// training room.
fn accepted() -> Vec<(Board, Step)> {
    let mut all = Vec::new();
    for step in [Take(1, 1, 1), Drop(1, 1), Swap(1, 1, 6), Retire(1), Collect(1)] {
        for mut board in Board::open_every_kind(2, 1, 2) {
            board.wait(1, &[8]);
            assert_eq!(board.swap(1, 1, 5), Ok(0));
            match step {
                Drop(..) => assert_eq!(board.take(1, 1, 1), Ok(5)),
                Retire(_) => assert_eq!(board.swap(1, 1, 7), Ok(5)),
                _ => (),
            }
            all.push((board, step));
        }
    }
    all
}

/// Wrong: one byte is compared; any number that has not been used is accepted; a
/// number may be one late or one early.
#[test]
fn every_number() {
    for (board, step) in accepted() {
        for next in [0, 1, 255, 256, 0x7FFF, 0x8000, 65_534, 65_535] {
            let mut board = Board { table: board.table.clone(), ..board };
            board.set_next(1, next);
            let table = board.table.clone();
            for message in (0..=65_535).filter(|&message| message != next) {
                assert_eq!(step.on(board.limits, message, &mut board.table), OTHER);
            }
            assert_eq!(board.table, table);
            assert!(board.send(next, step).is_ok());
        }
    }
}

/// Wrong: the number stays at 65,535, or goes from 65,534 to 0 or from 65,535 to 1.
#[test]
fn from_65535_to_0() {
    for (board, step) in accepted() {
        let next = [65_533, 65_534, 65_535, 0, 1];
        for pair in next.windows(2) {
            let mut board = Board { table: board.table.clone(), ..board };
            board.set_next(1, pair[0]);
            assert!(board.send(pair[0], step).is_ok());
            assert_eq!(board.next(1), Some(pair[1]));
        }
    }
}

/// "A repeat is refused until 65,536 accepted calls have gone by."
#[test]
fn once_around() {
    let mut board = Board::open(1, 1, 1);
    for message in 0..=65_535 {
        assert_eq!(board.send(message, Collect(1)), Ok(0));
        assert_eq!(board.send(message, Collect(1)), OTHER);
    }
    assert_eq!(board.send(0, Collect(1)), Ok(0));
}

/// Wrong: a refused call moves the number on too.
#[test]
fn a_refused_call_may_be_sent_again() {
    for mut board in Board::open_every_kind(2, 1, 1) {
        assert_eq!(board.send(0, Take(1, 1, 1)), Err(Refusal::PositionEmpty));
        assert_eq!(board.send(0, Drop(1, 1)), Err(Refusal::ScreenEmpty));
        assert_eq!(board.send(0, Retire(1)), Err(Refusal::OwesNothing));
        assert_eq!(board.send(0, Take(1, 2, 1)), Err(Refusal::NoScreen));
        assert_eq!(board.send(0, Swap(1, 2, 5)), Err(Refusal::NoPosition));
        assert_eq!(board.send(1, Swap(1, 1, 5)), OTHER);
        assert_eq!(board.send(0, Swap(1, 1, 5)), Ok(0));
        assert_eq!(board.send(1, Take(1, 1, 1)), Ok(5));
        assert_eq!(board.send(2, Take(1, 1, 1)), Err(Refusal::ScreenFull));
        assert_eq!(board.send(2, Swap(1, 1, 6)), Ok(5));
        assert_eq!(board.send(3, Swap(1, 1, 7)), Err(Refusal::Owing));
        assert_eq!(board.send(3, Retire(1)), Ok(5));
    }
}

/// Wrong: a repeat of what stands at the position does not move the number on.
#[test]
fn a_repeat_moves_it_on() {
    for mut board in Board::open_every_kind(1, 1, 1) {
        assert_eq!(board.send(0, Swap(1, 1, 0)), Ok(0));
        assert_eq!(board.send(0, Swap(1, 1, 0)), OTHER);
        assert_eq!(board.send(1, Swap(1, 1, 5)), Ok(0));
        assert_eq!(board.send(2, Swap(1, 1, 5)), Ok(5));
        assert_eq!(board.send(2, Swap(1, 1, 5)), OTHER);
        assert_eq!(board.send(3, Swap(1, 1, 5)), Ok(5));
    }
}

/// Wrong: a collect that hands nothing back does not move the number on, because it
/// changes nothing else.
#[test]
fn a_collect_of_nothing_moves_it_on() {
    for mut board in Board::open_every_kind(3, 1, 1) {
        assert_eq!(board.send(0, Collect(2)), Ok(0));
        assert_eq!(board.send(0, Collect(2)), OTHER);
        assert_eq!(board.send(1, Collect(2)), Ok(0));
        board.wait(2, &[5]);
        assert_eq!(board.send(5, Collect(2)), Ok(0));
        assert_eq!(board.record(2, place::SCANNED), 2);
        assert_eq!(board.send(5, Collect(2)), OTHER);
        assert_eq!(board.send(6, Collect(2)), Ok(5));
    }
}

/// "a repeated collect loses a session for good": no longer.
#[test]
fn a_collect_sent_twice_loses_nothing() {
    for mut board in Board::open_every_kind(1, 1, 1) {
        board.wait(1, &[5, 6]);
        let message = board.next(1).unwrap();
        assert_eq!(board.send(message, Collect(1)), Ok(5));
        assert_eq!(board.send(message, Collect(1)), OTHER);
        assert_eq!(board.list(1), list(1, 0, 0, &[6]));
        assert_eq!(board.send(message + 1, Collect(1)), Ok(6));
    }
}

/// Wrong: 23 is asked before 5 or 6.
#[test]
fn soundness_and_the_desk_are_asked_first() {
    for mut board in Board::open_every_kind(2, 1, 1) {
        (1..=2).for_each(|desk| board.set_next(desk, 300));
        let of_desk =
            |desk| [Take(desk, 1, 1), Drop(desk, 1), Swap(desk, 1, 5), Retire(desk), Collect(desk)];
        for message in [0, 299, 300, 65_535] {
            for step in [0, 3, 257].into_iter().flat_map(of_desk) {
                assert_eq!(board.send(message, step), Err(Refusal::NoDesk));
            }
        }
        board.set_record(2, place::WAITING, 1);
        for message in [0, 299, 300, 65_535] {
            for step in [0, 1, 3].into_iter().flat_map(of_desk) {
                assert_eq!(board.send(message, step), Err(Refusal::Unsound));
            }
        }
    }
}

/// Wrong: 23 is asked after 7, after 8 or 22, or last.
#[test]
fn it_is_asked_before_the_rest() {
    let mut board = Board::open_in(Limits::TRAINING, 1, 1, 2);
    assert_eq!(board.send(1, Take(1, 2, 3)), OTHER);
    assert_eq!(board.send(0, Take(1, 2, 3)), Err(Refusal::NoScreen));
    assert_eq!(board.send(1, Drop(1, 0)), OTHER);
    assert_eq!(board.send(0, Drop(1, 0)), Err(Refusal::NoScreen));
    assert_eq!(board.send(1, Take(1, 1, 3)), OTHER);
    assert_eq!(board.send(0, Take(1, 1, 3)), Err(Refusal::NoPosition));
    assert_eq!(board.send(1, Swap(1, 0, 1_000)), OTHER);
    assert_eq!(board.send(0, Swap(1, 0, 1_000)), Err(Refusal::NoPosition));
    assert_eq!(board.send(1, Swap(1, 1, 1_000)), OTHER);
    assert_eq!(board.send(0, Swap(1, 1, 1_000)), Err(Refusal::OverLimits));
    assert_eq!(board.send(1, Take(1, 1, 1)), OTHER);
    assert_eq!(board.send(0, Take(1, 1, 1)), Err(Refusal::PositionEmpty));
    assert_eq!(board.send(1, Drop(1, 1)), OTHER);
    assert_eq!(board.send(0, Drop(1, 1)), Err(Refusal::ScreenEmpty));
    assert_eq!(board.send(1, Retire(1)), OTHER);
    assert_eq!(board.send(0, Retire(1)), Err(Refusal::OwesNothing));
    board.wait(1, &[5, 6]);
    board.show(1, 1, 7);
    assert_eq!(board.swap(1, 2, 0), Ok(7));
    let message = board.next(1).unwrap();
    assert_eq!(board.send(message + 1, Take(1, 1, 1)), OTHER);
    assert_eq!(board.send(message, Take(1, 1, 1)), Err(Refusal::ScreenFull));
    assert_eq!(board.send(message + 1, Swap(1, 1, 8)), OTHER);
    assert_eq!(board.send(message, Swap(1, 1, 8)), Err(Refusal::Owing));
    assert_eq!(board.send(message + 1, Retire(1)), OTHER);
    assert_eq!(board.send(message, Retire(1)), Err(Refusal::NoRoom));
}

/// Wrong: there is one number for the whole hall, or that of another desk is asked.
#[test]
fn each_desk_counts_for_itself() {
    for mut board in Board::open_every_kind(3, 1, 1) {
        for (desk, next) in [(1, 300), (2, 0), (3, 65_535)] {
            board.set_next(desk, next);
        }
        assert_eq!(board.send(0, Collect(1)), OTHER);
        assert_eq!(board.send(301, Collect(2)), OTHER);
        assert_eq!(board.send(65_535, Swap(3, 1, 5)), Ok(0));
        assert_eq!(board.send(300, Take(1, 1, 1)), Ok(5));
        assert_eq!(board.send(0, Take(2, 1, 1)), Ok(5));
        assert_eq!(board.send(0, Drop(3, 1)), Err(Refusal::ScreenEmpty));
        assert_eq!([1, 2, 3].map(|desk| board.next(desk)), [Some(301), Some(1), Some(0)]);
    }
}

/// Wrong: soundness asks the word for something.
#[test]
fn every_number_is_sound() {
    let mut board = Board::open(2, 1, 1);
    for next in 0..=65_535 {
        board.set_next(2, next);
        assert!(reference::is_sound(Limits::HALL, &board.table));
    }
    assert_eq!(board.collect(1), Ok(0));
}

/// "tables of the former layout are not converted": a word is missing for each desk.
/// One with a word to spare may pass as sound by chance; nothing guards against that.
#[test]
fn tables_of_the_former_layout() {
    let mut former = vec![0; 2 * 20];
    (0..3).for_each(|at| set_word(&mut former, at, 1));
    assert_eq!(reference::collect(Limits::HALL, 0, 1, &mut former), Err(Refusal::Unsound));
    former.extend([9, 0]);
    assert_eq!(reference::collect(Limits::HALL, 0, 1, &mut former), OTHER);
    assert_eq!(reference::collect(Limits::HALL, 9, 1, &mut former), Ok(0));
}
