//! Sheets of the training room (document 02, Job 5): the opening's 22, and sessions
//! over 999. "Wrong:" describes a program that the case distinguishes from the right
//! one.

mod sheet;

use reference::sheet::Format::{Archive, Edition1, Edition2};
use reference::sheet::MAX_BYTES;
use reference::Limits;
use sheet::{encoded, in_groups, lines_in_room, needed_groups, CASE_D, LINES_OF_CASE_D, SMALLEST};

fn lines(sheet: &[u8]) -> String {
    lines_in_room(Limits::TRAINING, Edition1, sheet)
}

/// The lines of a sheet that opens the smallest hall and continues with these
/// bytes.
fn lines_after_opening(rest: &[u8]) -> String {
    let lines = lines(&[&SMALLEST, rest].concat());
    lines.strip_prefix("0 0 0 0\n").expect("an accepted opening").to_string()
}

fn assert_header(sheet: &[u8], line: &str) {
    assert_eq!(lines(sheet), format!("{line}\nend 0 0 0\n"), "{sheet:?}");
}

#[test]
fn case_d_whole() {
    assert_eq!(lines(&CASE_D), LINES_OF_CASE_D);
}

#[test]
fn the_empty_sheet() {
    assert_header(&[], "0 0 15 0");
}

#[test]
fn the_limits_of_the_opening() {
    assert_header(&[4, 1, 64], "0 0 0 0");
    assert_header(&[5, 1, 64], "0 0 22 0");
    assert_header(&[4, 2, 64], "0 0 22 0");
    assert_header(&[16, 4, 64], "0 0 22 0");
}

/// Wrong: 22 is a reply like that of a step, and the reading goes on.
#[test]
fn the_opening_ends_the_reading() {
    assert_header(&[5, 1, 1, 5, 1], "0 0 22 0");
    assert_header(&[1, 2, 1, 9], "0 0 22 0");
}

#[test]
fn the_opening_asks_in_order() {
    assert_header(&[17, 2, 65], "0 0 1 0");
    assert_header(&[0, 2, 1], "0 0 1 0");
    assert_header(&[5, 5, 65], "0 0 2 0");
    assert_header(&[5, 0, 1], "0 0 2 0");
    assert_header(&[5, 2, 65], "0 0 3 0");
    assert_header(&[5, 2, 0], "0 0 3 0");
}

/// 15, 16 and 19 in a header come before 22.
#[test]
fn all_header_numbers_are_read_before_the_opening_asks() {
    assert_header(&[5, 2], "0 0 15 2");
    assert_header(&[5, 0x80, 0x80, 0x04, 1], "0 0 16 1");
    assert_header(&[5, 2, 0x81, 0x00], "0 0 19 2");
}

/// Wrong: the limit of a session is 998, 1,000 or 1,023; or 22 is its number, or a
/// step refused by the board.
#[test]
fn every_session() {
    for session in 0..=65_535 {
        let swap = encoded(&[3, 1, 1, session], 1);
        let expected =
            if session <= 999 { "1 3 0 0\nend 1 0 0\n" } else { "1 3 16 6\nend 0 0 0\n" };
        assert_eq!(lines_after_opening(&swap), expected, "{session}");
    }
}

/// Wrong: a session over the limit is refused once the record is read, and the
/// reading goes on.
#[test]
fn a_session_over_the_limit_ends_the_reading() {
    let sheet = [3, 1, 1, 5, 3, 1, 1, 0xE8, 0x07, 5, 1];
    assert_eq!(lines_after_opening(&sheet), "1 3 0 0\n2 3 16 10\nend 1 0 0\n");
}

/// A desk or a position outside the hall does not hide it: all fields are read
/// before the step asks.
#[test]
fn a_session_over_the_limit_before_the_step_asks() {
    assert_eq!(lines_after_opening(&[3, 9, 9, 0xE8, 0x07]), "1 3 16 6\nend 0 0 0\n");
    assert_eq!(lines_after_opening(&[3, 9, 9, 0xE7, 0x07]), "1 3 6 0\nend 0 1 0\n");
}

/// A padded 999 is 19, a padded 1,000 is 16: 19 is asked after 16.
#[test]
fn padded_sessions() {
    for (session, number) in [(0, 19), (5, 19), (999, 19), (1_000, 16), (16_383, 16)] {
        let padded = in_groups(session, needed_groups(session) + 1);
        let lines = lines_after_opening(&[&[3, 1, 1][..], &padded].concat());
        assert_eq!(lines, format!("1 3 {number} 6\nend 0 0 0\n"), "{session}");
    }
}

#[test]
fn sessions_that_stop() {
    for cut in [&[][..], &[0xE8], &[0xE8, 0x87]] {
        let lines = lines_after_opening(&[&[3, 1, 1], cut].concat());
        assert_eq!(lines, "1 3 15 6\nend 0 0 0\n");
    }
    assert_eq!(lines_after_opening(&[3, 1, 1, 0xE8, 0x87, 0x80]), "1 3 16 6\nend 0 0 0\n");
}

/// Wrong: other numbers are held to 999 too.
#[test]
fn other_numbers_keep_their_limit() {
    for number in [999, 1_000, 65_535] {
        let after_opening = |numbers: &[u16]| lines_after_opening(&encoded(numbers, 1));
        for code in [4, 5] {
            let expected = format!("1 {code} 6 0\nend 0 1 0\n");
            assert_eq!(after_opening(&[code, number]), expected);
        }
        assert_eq!(after_opening(&[1, number, 1, 1]), "1 1 6 0\nend 0 1 0\n");
        assert_eq!(after_opening(&[1, 1, number, 1]), "1 1 7 0\nend 0 1 0\n");
        assert_eq!(after_opening(&[1, 1, 1, number]), "1 1 8 0\nend 0 1 0\n");
        assert_eq!(after_opening(&[2, 1, number]), "1 2 7 0\nend 0 1 0\n");
        assert_eq!(after_opening(&[3, 1, number, 5]), "1 3 8 0\nend 0 1 0\n");
        assert_eq!(after_opening(&[number]), format!("1 {number} 17 0\nend 0 0 0\n"));
        assert_header(&encoded(&[number, 1, 1], 1), "0 0 1 0");
        assert_header(&encoded(&[1, number, 1], 1), "0 0 2 0");
        assert_header(&encoded(&[1, 1, number], 1), "0 0 3 0");
    }
}

/// Wrong: the limit is one of the format, or of all sheets.
#[test]
fn the_limit_is_that_of_the_room() {
    for format in [Edition1, Archive, Edition2] {
        let first = format.first_numbers();
        let swap = |session| encoded(&[first, &[1, 1, 1, 3, 1, 1, session]].concat(), 1);
        let accepted = "0 0 0 0\n1 3 0 0\nend 1 0 0\n";
        assert_eq!(lines_in_room(Limits::HALL, format, &swap(65_535)), accepted);
        assert_eq!(lines_in_room(Limits::TRAINING, format, &swap(999)), accepted);
        let offset = first.len() + 6;
        let refused = format!("0 0 0 0\n1 3 16 {offset}\nend 0 0 0\n");
        assert_eq!(lines_in_room(Limits::TRAINING, format, &swap(1_000)), refused);
    }
}

#[test]
fn the_longest_sheet() {
    let mut sheet = vec![4, 1, 64];
    (0..32_766).for_each(|_| sheet.extend([5, 4]));
    assert!(lines(&sheet).ends_with("32766 5 0 0\nend 32766 0 0\n"));
    sheet.resize(MAX_BYTES + 1, 5);
    assert_header(&sheet, "0 0 18 0");
}
