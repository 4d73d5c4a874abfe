//! The board whose lists are rings (document 02, Job 9). "Wrong:" describes a board that
//! the case distinguishes from the right one. (hall_book.rs and message_numbers.rs run on
//! this board too.)

mod board;

use board::{list, Board, Step};
use reference::{
    first_board, is_sound, next_message, place, set_word, Hall, Limits, List, Refusal,
};

const RING: Limits = Limits::RING;

fn open(desks: u16, screens: u16, positions: u16) -> Board {
    Board::open_in(RING, desks, screens, positions)
}

/// The places of a desk's list as they are stored, from the first.
fn stored(board: &Board, desk: u16) -> Vec<u16> {
    (0..board.hall.places()).map(|at| board.record(desk, place::LIST + at)).collect()
}

/// A board of 1 1 1 whose list begins here and has these waiting.
fn of_two_places(beginning: u16, sessions: &[u16]) -> Board {
    let mut board = open(1, 1, 1);
    board.set_beginning(1, beginning);
    board.wait(1, sessions);
    board
}

/// A board of 3 1 1, so of six places, whose list begins here, with these waiting.
fn of_six_places(beginning: u16, sessions: &[u16]) -> Board {
    let mut board = open(3, 1, 1);
    board.set_beginning(1, beginning);
    board.wait(1, sessions);
    board
}

fn is_sound_ring(board: &Board) -> bool {
    is_sound(RING, &board.table)
}

/// Wrong: the need of the first board.
#[test]
fn the_need_is_a_word_more_for_each_desk() {
    let need = |limits, (desks, screens, positions)| {
        Hall::new(limits, desks, screens, positions).unwrap().need()
    };
    assert_eq!(need(RING, (1, 1, 1)), 22);
    assert_eq!(need(RING, (16, 4, 64)), 2419);
    for hall in [(1, 1, 1), (2, 1, 1), (6, 1, 12), (4, 4, 64), (16, 4, 64)] {
        assert_eq!(need(RING, hall), need(Limits::HALL, hall) + usize::from(hall.0));
        let mut table = vec![0xAA; 2 * need(RING, hall)];
        let short = table.len() - 1;
        let (desks, screens, positions) = hall;
        let mut open =
            |bytes| reference::open(RING, desks, screens, positions, &mut table[..bytes]);
        assert_eq!(open(short), Err(Refusal::TableShort));
        assert_eq!(open(short + 1), Ok(0));
        assert!(!is_sound(RING, &table[..short]));
        assert!(is_sound(RING, &table));
    }
}

/// Wrong: an opening leaves the beginnings.
#[test]
fn an_opening_begins_at_0() {
    for (desks, screens) in [(1, 1), (3, 2), (16, 4)] {
        let board = open(desks, screens, 1);
        assert!(board.table[6..].iter().all(|&byte| byte == 0));
        assert!((1..=desks).all(|desk| board.beginning(desk) == 0));
    }
}

/// Wrong: the beginning before the message number.
#[test]
fn the_beginning_is_the_last_word() {
    let mut board = of_two_places(0, &[5]);
    assert_eq!(board.collect(1), Ok(5));
    assert_eq!(board.next(1), Some(4));
    assert_eq!(board.record(1, place::LIST + 2), 4);
    assert_eq!(board.record(1, place::LIST + 3), 1);
    assert_eq!(board.hall.record(1).len(), place::LIST + 4);
}

/// Wrong: the rest of the list moves up, or the place keeps its session.
#[test]
fn a_hand_back_turns_the_list() {
    let mut board = of_six_places(0, &[5, 6, 7]);
    assert_eq!(board.collects(1, 2), [0, 5]);
    assert_eq!(stored(&board, 1), [0, 6, 7, 0, 0, 0]);
    assert_eq!(board.beginning(1), 1);
    assert_eq!(board.list(1), list(2, 0, 0, &[6, 7]));
    assert_eq!(board.collects(1, 2), [6, 7]);
    assert_eq!(stored(&board, 1), [0; 6]);
    assert_eq!(board.beginning(1), 3);
}

/// Wrong: it turns back, by another number of places, or past the last place.
#[test]
fn the_beginning_runs_on_from_the_last_place_to_the_first() {
    for hall in [(1, 1, 1), (1, 2, 1), (3, 1, 1), (16, 4, 2)] {
        let (desks, screens, positions) = hall;
        let mut board = open(desks, screens, positions);
        let places = board.hall.places();
        for back in 1..=2 * places + 1 {
            board.wait(desks, &[7]);
            let collects = board.hall.all_screens().div_ceil(2);
            assert_eq!(board.collects(desks, collects).last(), Some(&7));
            assert_eq!(usize::from(board.beginning(desks)), back % places);
        }
        assert!((1..desks).all(|desk| board.beginning(desk) == 0));
    }
}

/// Wrong: a list that runs empty begins at 0 again, or a collect moves its beginning.
#[test]
fn an_empty_list_keeps_its_beginning() {
    for beginning in 0..6 {
        let mut board = of_six_places(beginning, &[]);
        board.changes_nothing(Step::Collect(1), 0);
        board.wait(1, &[5]);
        assert_eq!(board.beginning(1), beginning);
        assert_eq!(board.collects(1, 2), [0, 5]);
        assert_eq!(board.beginning(1), (beginning + 1) % 6);
        board.changes_nothing(Step::Collect(1), 0);
    }
}

/// Wrong: a session is retired to the place after the used ones counted from the first,
/// or the beginning moves.
#[test]
fn a_retire_goes_around_the_end() {
    let board = of_two_places(1, &[5, 6]);
    assert_eq!(stored(&board, 1), [6, 5]);
    let board = of_six_places(4, &[5, 6, 7]);
    assert_eq!(stored(&board, 1), [7, 0, 0, 0, 5, 6]);
    assert_eq!(board.beginning(1), 4);
    assert_eq!(board.list(1), list(0, 0, 3, &[5, 6, 7]));
}

/// Wrong: one place stays unused, so that a full list differs from an empty one.
#[test]
fn every_place_can_be_used() {
    for beginning in 0..6 {
        let mut board = of_six_places(beginning, &[1, 2, 3, 4, 5, 6]);
        assert!(stored(&board, 1).iter().all(|&session| session != 0));
        assert_eq!(board.swap(1, 1, 7), Ok(0));
        assert_eq!(board.swap(1, 1, 0), Ok(7));
        assert_eq!(board.retire(1), Err(Refusal::NoRoom));
        assert_eq!(board.collects(1, 2), [0, 1]);
        assert_eq!(board.retire(1), Ok(7));
        assert_eq!(stored(&board, 1)[usize::from(beginning)], 7);
    }
}

/// Wrong: the beginning is not asked, in its high byte or at 2S.
#[test]
fn a_beginning_past_the_list_is_unsound() {
    for (desks, screens) in [(1, 1), (3, 1), (16, 4)] {
        let mut board = open(desks, screens, 1);
        let places = 2 * desks * screens;
        for desk in [1, desks] {
            for beginning in 0..places {
                board.set_beginning(desk, beginning);
                assert!(is_sound_ring(&board));
            }
            for beginning in [places, places + 1, 255, 256, 0x8000, 65_535] {
                board.set_beginning(desk, beginning);
                assert!(!is_sound_ring(&board), "{beginning} of {places} places");
                assert_eq!(board.collect(desk), Err(Refusal::Unsound));
            }
            board.set_beginning(desk, 0);
        }
    }
}

/// Wrong: soundness reads the list from its first place.
#[test]
fn soundness_reads_from_the_beginning() {
    for beginning in 0..6_u16 {
        for used in 0..=6_u16 {
            let mut board = open(3, 1, 1);
            board.set_beginning(1, beginning);
            board.set_record(1, place::READY, used);
            let slots = (0..used).map(|at| usize::from((beginning + at) % 6));
            slots.for_each(|slot| board.set_record(1, place::LIST + slot, 9));
            assert!(is_sound_ring(&board));
            for other in (0..6).filter(|&other| other != beginning) {
                board.set_beginning(1, other);
                assert_eq!(is_sound_ring(&board), used == 0 || used == 6);
            }
        }
    }
}

/// Wrong: a place counts as used, or as unused, beyond the end.
#[test]
fn every_place_around_the_end_is_asked() {
    for slot in 0..6 {
        let mut board = of_six_places(4, &[5, 6, 7]);
        let at = place::LIST + slot;
        let is_used = board.record(1, at) != 0;
        board.set_record(1, at, if is_used { 0 } else { 9 });
        assert!(!is_sound_ring(&board), "place {slot}");
    }
}

/// Mark j is of the tested session that is j-th in the list's order. Wrong: it is of a
/// place.
#[test]
fn marks_count_in_the_order_of_the_list() {
    for beginning in 0..6 {
        let mut board = of_six_places(beginning, &[5, 6, 7]);
        let screen = board.hall.screen(2, 1);
        set_word(&mut board.table, screen, 6);
        assert_eq!(board.collect(1), Ok(0));
        assert_eq!(board.record(1, place::MARKS), 0b010);
        assert_eq!(board.collect(1), Ok(5));
        assert_eq!(board.list(1), list(1, 0, 1, &[7, 6]));
        assert_eq!(board.beginning(1), (beginning + 1) % 6);
    }
}

/// Wrong: settling stores the list from its first place on, moves its beginning, or
/// forgets what is around the end.
#[test]
fn settling_goes_around_the_end() {
    for beginning in 0..6 {
        let mut board = of_six_places(beginning, &[5, 6, 5, 8]);
        for (desk, session) in [(1, 5), (2, 6)] {
            let screen = board.hall.screen(desk, 1);
            set_word(&mut board.table, screen, session);
        }
        assert_eq!(board.collect(1), Ok(0));
        assert_eq!(board.record(1, place::MARKS), 0b0011);
        assert_eq!(board.beginning(1), beginning);
        assert_eq!(board.collect(1), Ok(5));
        assert_eq!(board.beginning(1), (beginning + 1) % 6);
        assert_eq!(board.list(1), list(1, 0, 2, &[8, 5, 6]));
        assert_eq!(stored(&board, 1)[usize::from(beginning)], 0);
    }
}

/// Nothing is ready after it: the marked ones stay where they are.
#[test]
fn settling_alone_leaves_the_beginning() {
    for beginning in 0..6 {
        let mut board = of_six_places(beginning, &[5]);
        let screen = board.hall.screen(3, 1);
        set_word(&mut board.table, screen, 5);
        assert_eq!(board.collects(1, 2), [0, 0]);
        assert_eq!(board.beginning(1), beginning);
        assert_eq!(board.list(1), list(0, 0, 1, &[5]));
    }
}

/// Wrong: another desk's beginning.
#[test]
fn each_desk_has_its_own_beginning() {
    let mut board = open(3, 1, 1);
    for desk in 1..=3 {
        board.set_beginning(desk, 2 * desk - 1);
        board.wait(desk, &[desk, desk + 10]);
    }
    for desk in 1..=3 {
        assert_eq!(board.list(desk), list(0, 0, 2, &[desk, desk + 10]));
        assert_eq!(board.collects(desk, 3), [0, desk, desk + 10]);
        assert_eq!(board.beginning(desk), (2 * desk + 1) % 6);
    }
}

/// The first board's table of 1 1 1 is a word short. Wrong: it is taken for a ring.
#[test]
fn the_first_boards_table_is_no_ring() {
    let first = Board::open(1, 1, 1);
    assert!(!is_sound(RING, &first.table));
    let ring = open(1, 1, 1);
    assert_eq!(next_message(List::Ring, &ring.table, 1), Some(0));
    assert!(is_sound(Limits::HALL, &ring.table), "with a word to spare");
}

/// Wrong: the places are read from the first, or the beginnings stay.
#[test]
fn the_first_board_that_a_ring_reads_as() {
    let mut ring = of_six_places(4, &[5, 6, 7]);
    let mut first = Board::open(3, 1, 1);
    first.wait(1, &[5, 6, 7]);
    assert_eq!(first_board(&ring.table), Some(first.table.clone()));
    let with_spare = [&ring.table[..], &[1, 2, 3]].concat();
    assert_eq!(first_board(&with_spare), Some([&first.table[..], &[1, 2, 3]].concat()));
    ring.set_beginning(1, 3);
    assert_eq!(first_board(&ring.table), None);
}

/// A small generator: the same histories each time.
struct Random(u64);

impl Random {
    fn below(&mut self, limit: u16) -> u16 {
        self.0 =
            self.0.wrapping_mul(6_364_136_223_846_793_005).wrapping_add(1_442_695_040_888_963_407);
        ((self.0 >> 33) % u64::from(limit)) as u16
    }

    fn step(&mut self, hall: &Hall) -> Step {
        let desk = self.below(hall.desks + 1);
        let screen = 1 + self.below(hall.screens);
        let position = 1 + self.below(hall.positions);
        match self.below(8) {
            0 => Step::Take(desk, screen, position),
            1 => Step::Drop(desk, screen),
            2 | 3 => Step::Swap(desk, position, self.below(5)),
            4 | 5 => Step::Retire(desk),
            _ => Step::Collect(desk),
        }
    }
}

/// Job 9: "any sequence of steps gets the same replies from both boards, and .. the ring
/// read from its beginning is the first board's list."
#[test]
fn histories_beside_the_first_board() {
    let mut random = Random(9);
    for (desks, screens, positions) in [(1, 1, 1), (2, 1, 2), (3, 1, 2), (2, 2, 3), (16, 4, 64)] {
        let mut ring = open(desks, screens, positions);
        let mut first = Board::open(desks, screens, positions);
        let mut handed_back = vec![0; usize::from(desks)];
        for _ in 0..4000 {
            let step = random.step(&first.hall);
            let reply = first.step(step);
            assert_eq!(ring.step(step), reply);
            assert!(first_board(&ring.table).as_ref() == Some(&first.table));
            if let (Step::Collect(desk), Ok(1..)) = (step, reply) {
                handed_back[usize::from(desk) - 1] += 1;
            }
            for (desk, back) in (1..).zip(&handed_back) {
                assert_eq!(usize::from(ring.beginning(desk)), back % ring.hall.places());
            }
        }
        let turned = handed_back.iter().any(|&back| back > 2 * ring.hall.places());
        assert!(turned || desks == 16, "a list that turns twice");
    }
}
