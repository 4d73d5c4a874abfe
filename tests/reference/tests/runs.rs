//! Runs of steps in one call (document 02, Job 8). Each case distinguishes the right
//! board from the wrong one that its comment describes.

mod board;

use board::Board;
use board::Step::{self, Collect, Drop, Retire, Swap, Take};
use reference::{place, run, set_word, word, Limits, Refusal, Reply};

/// Code, message number, desk, screen, position, session.
type Words = [u16; 6];

/// In words that a code lacks: within no hall.
const ANY: u16 = 7777;

/// In a reply table before the run.
const OLD: u8 = 0xEE;

fn words(message: u16, step: Step) -> Words {
    match step {
        Take(desk, screen, position) => [1, message, desk, screen, position, ANY],
        Drop(desk, screen) => [2, message, desk, screen, ANY, ANY],
        Swap(desk, position, session) => [3, message, desk, ANY, position, session],
        Retire(desk) => [4, message, desk, ANY, ANY, ANY],
        Collect(desk) => [5, message, desk, ANY, ANY, ANY],
    }
}

fn bytes(words: &[u16]) -> Vec<u8> {
    words.iter().flat_map(|word| word.to_le_bytes()).collect()
}

/// A swap, a take, another swap, the retire, the drop and the collect, which hands back.
fn all_kinds() -> [Words; 6] {
    [
        words(0, Swap(1, 1, 5)),
        words(1, Take(1, 1, 1)),
        words(2, Swap(1, 1, 6)),
        words(3, Retire(1)),
        words(4, Drop(1, 1)),
        words(5, Collect(1)),
    ]
}

/// Runs the steps with a reply table of so many bytes, and gives the answer and that
/// table.
fn run_on(table: &mut [u8], steps: &[u8], reply_bytes: usize) -> (Reply, Vec<u8>) {
    let mut replies = vec![OLD; reply_bytes];
    let reply = run(steps, &mut replies, table);
    (reply, replies)
}

/// The reply numbers and sessions of an accepted run.
fn replies(board: &mut Board, steps: &[Words]) -> Vec<[u16; 2]> {
    let (reply, replies) = run_on(&mut board.table, &bytes(&steps.concat()), 4 * steps.len());
    assert_eq!(reply, Ok(0));
    (0..steps.len()).map(|at| [word(&replies, 2 * at), word(&replies, 2 * at + 1)]).collect()
}

/// Every byte of both tables is as it was.
fn is_refused(table: &[u8], steps: &[u8], reply_bytes: usize, with: Refusal) {
    let mut after = table.to_vec();
    let (reply, replies) = run_on(&mut after, steps, reply_bytes);
    assert_eq!(reply, Err(with));
    assert_eq!(after, table);
    assert_eq!(replies, vec![OLD; reply_bytes]);
}

/// A table that is unsound only because k is not 0.
fn unsound() -> Vec<u8> {
    let mut board = Board::open(2, 2, 2);
    board.set_record(2, place::SCANNED, 2);
    assert!(!reference::is_sound(Limits::HALL, &board.table));
    board.table
}

/// Wrong: a code stands for another step; a reply is session, number; the run replies
/// what its last step did.
#[test]
fn all_kinds_of_steps() {
    let mut board = Board::open(1, 1, 1);
    let got = replies(&mut board, &all_kinds());
    assert_eq!(got, [[0, 0], [0, 5], [0, 5], [0, 5], [0, 5], [0, 5]]);
    assert_eq!(board.next(1), Some(6));
    assert_eq!(word(&board.table, board.hall.position(1)), 6);
}

/// Wrong: the screen and the position of a take are exchanged, or the position and the
/// session of a swap.
#[test]
fn the_words_of_a_step() {
    let mut board = Board::open(3, 2, 4);
    let steps = [
        words(0, Swap(3, 4, 2)),
        words(1, Take(3, 2, 4)),
        words(2, Swap(3, 1, 3)),
        words(3, Take(3, 1, 1)),
    ];
    assert_eq!(replies(&mut board, &steps), [[0, 0], [0, 2], [0, 0], [0, 3]]);
    assert_eq!(word(&board.table, board.hall.position(4)), 2);
    assert_eq!(word(&board.table, board.hall.position(1)), 3);
    assert_eq!(word(&board.table, board.hall.screen(3, 2)), 2);
    assert_eq!(word(&board.table, board.hall.screen(3, 1)), 3);
    assert_eq!(replies(&mut board, &[words(4, Drop(3, 2))]), [[0, 2]]);
    assert_eq!(word(&board.table, board.hall.screen(3, 1)), 3);
}

/// "replies and final words equal the steps sent singly", after every number of steps.
#[test]
fn as_sent_singly() {
    let mut state: u64 = 1;
    let mut below = |limit: u64| {
        state = state.wrapping_mul(6_364_136_223_846_793_005).wrapping_add(1);
        ((state >> 33) % limit) as u16
    };
    let (mut singly, mut steps, mut expected) = (Board::open(3, 1, 2), Vec::new(), Vec::new());
    for _ in 0..300 {
        let (desk, screen, position) = (below(4), 1 + below(2), below(3));
        let step = match below(6) {
            0 => Take(desk, screen, position),
            1 => Drop(desk, screen),
            2 => Swap(desk, position, 5 + below(3)),
            3 => Retire(desk),
            _ => Collect(desk),
        };
        let message = singly.next(desk).unwrap_or(0).wrapping_add(below(8) / 7);
        steps.push(words(message, step));
        let reply = singly.send(message, step);
        let answer = reference::answer(reply);
        expected.push([(answer >> 16) as u16, answer as u16]);
        let mut board = Board::open(3, 1, 2);
        assert_eq!(replies(&mut board, &steps), expected);
        assert_eq!(board.table, singly.table);
    }
}

/// Wrong: some code outside 1 to 5 is taken for a step, by its low byte or as shorthand;
/// the steps past the first 65,535 are left out.
#[test]
fn every_code() {
    let mut board = Board::open(1, 1, 1);
    board.wait(1, &[5]);
    assert_eq!(board.swap(1, 1, 6), Ok(0));
    let table = board.table.clone();
    let codes = (0..=65_535).filter(|code| !(1..=5).contains(code));
    let steps = codes.map(|code| [code, 4, 1, 1, 1, 7]).cycle().take(70_000);
    let steps: Vec<Words> = steps.collect();
    assert!(replies(&mut board, &steps).iter().all(|&reply| reply == [17, 0]));
    assert_eq!(board.table, table);
}

/// Wrong: a bad code moves the desk's number on, or ends the run.
#[test]
fn after_a_bad_code_the_run_goes_on() {
    let mut board = Board::open(2, 1, 1);
    let bad = [6, 0, 1, 1, 1, 5];
    let steps =
        [bad, words(0, Swap(1, 1, 5)), bad, [0, 1, 1, 1, 1, 5], words(1, Take(1, 1, 1)), bad];
    let expected = [[17, 0], [0, 0], [17, 0], [17, 0], [0, 5], [17, 0]];
    assert_eq!(replies(&mut board, &steps), expected);
    assert_eq!(board.next(1), Some(2));
}

/// Wrong: the desk, or the message number, is asked for before the code.
#[test]
fn a_bad_code_is_asked_nothing_else() {
    let mut board = Board::open(2, 1, 1);
    let steps = [[9, 0, 0, 0, 0, 0], [6, 1, 1, 1, 1, 1], [0, 0, 3, 2, 2, 2]];
    assert_eq!(replies(&mut board, &steps), [[17, 0]; 3]);
}

/// Wrong: a refused step ends the run, or the steps after it reply as it did.
#[test]
fn after_a_refusal_the_run_goes_on() {
    let mut board = Board::open(1, 1, 1);
    let steps = [
        words(0, Take(2, 1, 1)),
        words(1, Take(1, 1, 1)),
        words(0, Drop(1, 2)),
        words(0, Take(1, 1, 2)),
        words(0, Take(1, 1, 1)),
        words(0, Drop(1, 1)),
        words(0, Retire(1)),
        words(0, Swap(1, 1, 5)),
        words(1, Take(1, 1, 1)),
        words(2, Take(1, 1, 1)),
        words(2, Swap(1, 1, 6)),
        words(3, Swap(1, 1, 7)),
        words(3, Retire(1)),
    ];
    let numbers: Vec<u16> = replies(&mut board, &steps).iter().map(|&[number, _]| number).collect();
    assert_eq!(numbers, [6, 23, 7, 8, 10, 11, 13, 0, 0, 9, 0, 12, 0]);
    let steps = [
        words(4, Swap(1, 1, 7)),
        words(5, Retire(1)),
        words(6, Swap(1, 1, 8)),
        words(7, Retire(1)),
    ];
    assert_eq!(replies(&mut board, &steps), [[0, 6], [0, 6], [0, 7], [14, 0]]);
}

/// Wrong: the message number of a step is ignored; a step that is delivered twice is
/// done twice; a number does not run on from 65,535 to 0 inside a run.
#[test]
fn message_numbers_are_asked_step_by_step() {
    let mut board = Board::open(2, 1, 1);
    board.wait(2, &[5, 6]);
    board.set_next(2, 65_534);
    let steps = [
        words(65_533, Collect(2)),
        words(65_534, Collect(2)),
        words(65_534, Collect(2)),
        words(0, Collect(1)),
        words(65_535, Collect(2)),
        words(0, Collect(2)),
        words(256, Collect(1)),
        words(1, Collect(1)),
    ];
    let expected = [[23, 0], [0, 5], [23, 0], [0, 0], [0, 6], [0, 0], [23, 0], [0, 0]];
    assert_eq!(replies(&mut board, &steps), expected);
    assert_eq!([board.next(1), board.next(2)], [Some(2), Some(1)]);
}

/// Wrong: a word that the code lacks is asked for, or used.
#[test]
fn words_that_a_code_lacks_are_ignored() {
    for step in [Take(1, 2, 1), Drop(1, 1), Swap(1, 1, 9), Retire(1), Collect(1)] {
        for value in [0, 1, 2, 3, 255, 256, 65_535] {
            let mut board = Board::open(2, 2, 2);
            board.show(1, 1, 5);
            assert_eq!(board.swap(1, 1, 7), Ok(0));
            if let Retire(_) = step {
                assert_eq!(board.swap(1, 1, 8), Ok(7));
            }
            let words = words(board.next(1).unwrap(), step);
            let mut expected = Board { table: board.table.clone(), ..board };
            let reply = replies(&mut expected, &[words]);
            assert_eq!(reply[0][0], 0);
            let others = words.map(|word| if word == ANY { value } else { word });
            assert_eq!(replies(&mut board, &[others]), reply);
            assert_eq!(board.table, expected.table);
        }
    }
}

/// Wrong: 4 asks for one word a step; half a reply, or an odd byte, is room; a short
/// reply table is filled as far as it goes.
#[test]
fn two_words_a_step() {
    let steps = bytes(&all_kinds().concat());
    for length in 0..=6 {
        let steps = &steps[..12 * length];
        for reply_bytes in 0..32 {
            let mut board = Board::open(1, 1, 1);
            if reply_bytes < 4 * length {
                is_refused(&board.table, steps, reply_bytes, Refusal::TableShort);
            } else {
                let (reply, _) = run_on(&mut board.table, steps, reply_bytes);
                assert_eq!(reply, Ok(0));
                assert_eq!(board.next(1), Some(length as u16));
            }
        }
    }
}

/// Wrong: the rest of the reply table, or its odd byte, is cleared.
#[test]
fn reply_words_past_the_run_are_not_written() {
    for more in 0..9 {
        let mut board = Board::open(1, 1, 1);
        let steps = bytes(&all_kinds().concat());
        let (reply, replies) = run_on(&mut board.table, &steps, 24 + more);
        assert_eq!(reply, Ok(0));
        assert_eq!(replies[24..], vec![OLD; more]);
    }
}

/// Wrong: an unsound table is not asked about, or at each step, with 5 in its reply.
#[test]
fn an_unsound_table() {
    let unsound = unsound();
    for steps in [&all_kinds()[..], &all_kinds()[..1], &[[6; 6]], &[[0; 6], words(0, Collect(1))]] {
        let steps = bytes(&steps.concat());
        for more in [0, 1, 8] {
            is_refused(&unsound, &steps, steps.len() / 3 + more, Refusal::Unsound);
        }
    }
    for table in [&unsound[..unsound.len() - 1], &[], &[1], &[0; 100]] {
        is_refused(table, &bytes(&words(0, Collect(1))), 4, Refusal::Unsound);
    }
}

/// Wrong: 5 is asked before 4.
#[test]
fn the_reply_table_is_asked_about_first() {
    let steps = bytes(&all_kinds().concat());
    for reply_bytes in [0, 22, 23] {
        is_refused(&unsound(), &steps, reply_bytes, Refusal::TableShort);
        is_refused(&[], &steps, reply_bytes, Refusal::TableShort);
    }
}

/// Wrong: an empty run is not asked 5, or has no room in an empty reply table.
#[test]
fn an_empty_run() {
    for reply_bytes in [0, 1, 2, 4, 5] {
        for steps in [&[][..], &[5], &bytes(&words(0, Collect(1)))[..11]] {
            is_refused(&unsound(), steps, reply_bytes, Refusal::Unsound);
            is_refused(&[], steps, reply_bytes, Refusal::Unsound);
            let mut board = Board::open(1, 1, 1);
            let table = board.table.clone();
            let accepted = (Ok(0), vec![OLD; reply_bytes]);
            assert_eq!(run_on(&mut board.table, steps, reply_bytes), accepted);
            assert_eq!(board.table, table);
        }
    }
}

/// Wrong: the words left over are a step, with zeros for those that it does not have;
/// they want room for a reply.
#[test]
fn fewer_than_six_words_left_over_are_no_step() {
    let steps =
        bytes(&[words(0, Swap(1, 1, 5)), words(1, Collect(1)), words(2, Collect(1))].concat());
    for step_bytes in 0..=steps.len() {
        let length = step_bytes / 12;
        for more in [0, 4] {
            let mut board = Board::open(1, 1, 1);
            let (reply, replies) =
                run_on(&mut board.table, &steps[..step_bytes], 4 * length + more);
            assert_eq!(reply, Ok(0));
            assert_eq!(replies, [vec![0; 4 * length], vec![OLD; more]].concat());
            assert_eq!(board.next(1), Some(length as u16));
        }
    }
}

/// Wrong: words past the need, or an odd byte of the table, are asked about or written.
#[test]
fn the_table_may_be_longer() {
    let mut board = Board::open(1, 1, 1);
    board.table.extend([OLD; 7]);
    assert_eq!(replies(&mut board, &all_kinds())[5], [0, 5]);
    assert_eq!(board.table[2 * board.hall.need()..], [OLD; 7]);
}

/// Wrong: the sessions are those of the training room, or its sizes.
#[test]
fn the_limits_are_those_of_the_hall() {
    let mut board = Board::open(16, 4, 64);
    let steps = [words(0, Swap(16, 64, 65_535)), words(1, Take(16, 4, 64))];
    assert_eq!(replies(&mut board, &steps), [[0, 0], [0, 65_535]]);
    let mut board = Board::open(4, 1, 1);
    assert_eq!(replies(&mut board, &[words(0, Swap(4, 1, 1000))]), [[0, 0]]);
    set_word(&mut board.table, 0, 17);
    is_refused(&board.table, &bytes(&words(0, Collect(1))), 4, Refusal::Unsound);
}
