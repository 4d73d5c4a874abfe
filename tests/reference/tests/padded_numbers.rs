//! Numbers with a zero group at the high end: 19 in the new reader only
//! (document 02, Job 3). The offset that their line prints is among the cases of
//! day_sheet.rs.

mod sheet;

use reference::sheet::Fault::Padded;
use reference::sheet::Format::{Archive, Edition1};
use sheet::{encoded, in_groups, lines, lines_after_opening, lines_in, needed_groups, number_in};

/// Every number in shortest form, and with zero groups up to the third byte.
#[test]
fn every_number_of_every_length() {
    for number in 0..=65_535 {
        let needed = needed_groups(number);
        assert_eq!(number_in(Edition1, &in_groups(number, needed)), Ok(number));
        assert_eq!(number_in(Archive, &in_groups(number, needed)), Ok(number));
        for groups in needed + 1..=3 {
            let padded = in_groups(number, groups);
            assert_eq!(number_in(Edition1, &padded), Err(Padded { offset: 0 }), "{padded:?}");
            assert_eq!(number_in(Archive, &padded), Ok(number));
        }
    }
}

#[test]
fn zero_is_one_byte() {
    assert_eq!(number_in(Edition1, &[0x00]), Ok(0));
    assert_eq!(number_in(Edition1, &[0x80, 0x00]), Err(Padded { offset: 0 }));
    assert_eq!(number_in(Edition1, &[0x80, 0x80, 0x00]), Err(Padded { offset: 0 }));
    assert_eq!(lines(&[0x00, 1, 1]), "0 0 1 0\nend 0 0 0\n");
    assert_eq!(lines_after_opening(&[3, 1, 1, 0x00]), "1 3 0 0\nend 1 0 0\n");
}

#[test]
fn zero_groups_below_the_highest() {
    assert_eq!(number_in(Edition1, &[0x80, 0x01]), Ok(128));
    assert_eq!(number_in(Edition1, &[0x80, 0x80, 0x01]), Ok(16_384));
    assert_eq!(number_in(Edition1, &[0x81, 0x80, 0x01]), Ok(16_385));
}

#[test]
fn asked_after_15_and_16() {
    assert_eq!(lines(&[0x80]), "0 0 15 0\nend 0 0 0\n");
    assert_eq!(lines(&[0x80, 0x80]), "0 0 15 0\nend 0 0 0\n");
    assert_eq!(lines(&[0x80, 0x80, 0x80]), "0 0 16 0\nend 0 0 0\n");
    assert_eq!(lines(&[0x80, 0x80, 0x80, 0x00]), "0 0 16 0\nend 0 0 0\n");
    assert_eq!(lines(&[0x80, 0x80, 0x00]), "0 0 19 0\nend 0 0 0\n");
}

/// A padded number ends the reading before a later number can give 15 or 16.
#[test]
fn asked_of_each_number_in_turn() {
    assert_eq!(lines(&[0x81, 0x00, 0x80]), "0 0 19 0\nend 0 0 0\n");
    assert_eq!(lines(&[1, 0x81, 0x00, 0xFF, 0xFF, 0x04]), "0 0 19 1\nend 0 0 0\n");
    assert_eq!(lines_after_opening(&[1, 1, 0x81, 0x00]), "1 1 19 5\nend 0 0 0\n");
}

#[test]
fn asked_before_the_opening_the_code_and_the_step() {
    assert_eq!(lines(&[17, 0x81, 0x00, 1]), "0 0 19 1\nend 0 0 0\n");
    assert_eq!(lines(&[1, 5, 0x81, 0x00]), "0 0 19 2\nend 0 0 0\n");
    assert_eq!(lines_after_opening(&[0x86, 0x00]), "1 0 19 3\nend 0 0 0\n");
    assert_eq!(lines_after_opening(&[0x80, 0x00]), "1 0 19 3\nend 0 0 0\n");
    assert_eq!(lines_after_opening(&[1, 9, 9, 0x89, 0x00]), "1 1 19 6\nend 0 0 0\n");
}

#[test]
fn a_code_out_of_range_before_a_padded_field() {
    assert_eq!(lines_after_opening(&[6, 0x81, 0x00]), "1 6 17 0\nend 0 0 0\n");
}

/// The code prints as 0 only if it is the padded number itself.
#[test]
fn the_reading_ends() {
    let lines = lines_after_opening(&[5, 1, 0x85, 0x00, 1, 5, 1]);
    assert_eq!(lines, "1 5 0 0\n2 0 19 5\nend 1 0 0\n");
    let lines = lines_after_opening(&[4, 1, 5, 0x81, 0x00, 5, 1]);
    assert_eq!(lines, "1 4 13 0\n2 5 19 6\nend 0 1 0\n");
}

/// A swap to 300, a take of it and a retire; then the same in longer numbers.
#[test]
fn the_old_reader_prints_the_same_lines() {
    let numbers = [1, 1, 1, 3, 1, 1, 300, 1, 1, 1, 1, 4, 1];
    let expected = "0 0 0 0\n1 3 0 0\n2 1 0 300\n3 4 13 0\nend 2 1 0\n";
    assert_eq!(lines(&encoded(&numbers, 1)), expected);
    for least_groups in 1..=3 {
        assert_eq!(lines_in(Archive, &encoded(&numbers, least_groups)), expected);
    }
}
