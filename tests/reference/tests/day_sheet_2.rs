//! Edition 2 of the day sheet (document 02, Job 4): what starts it, codes 9 to 13,
//! and the questions 17, 20 and 21, each in its place.

mod sheet;

use reference::sheet::Format::{Archive, Edition1, Edition2};
use reference::sheet::MAX_BYTES;
use sheet::{lines_in, stopping_line_in, CASE_D, CASE_D_2, LINES_OF_CASE_D, SMALLEST_2};

fn lines(sheet: &[u8]) -> String {
    lines_in(Edition2, sheet)
}

/// The lines of a sheet that opens the smallest hall and continues with these
/// bytes.
fn lines_after_opening(rest: &[u8]) -> String {
    let lines = lines(&[&SMALLEST_2, rest].concat());
    lines.strip_prefix("0 0 0 0\n").expect("an accepted opening").to_string()
}

fn assert_header(sheet: &[u8], line: &str) {
    assert_eq!(lines(sheet), format!("{line}\nend 0 0 0\n"), "{sheet:?}");
}

/// A record of each step, with the fields after its desk.
const STEPS: [(u8, &[u8]); 5] = [(1, &[1, 1]), (2, &[1]), (3, &[1, 7]), (4, &[]), (5, &[])];

#[test]
fn case_d_whole() {
    assert_eq!(lines(&CASE_D_2), LINES_OF_CASE_D);
}

#[test]
fn a_header_alone() {
    assert_header(&SMALLEST_2, "0 0 0 0");
    assert_header(&[0, 2, 16, 4, 64], "0 0 0 0");
}

#[test]
fn cut_headers() {
    for cut in 0..SMALLEST_2.len() {
        assert_header(&SMALLEST_2[..cut], &format!("0 0 15 {cut}"));
    }
}

#[test]
fn an_opening_that_is_refused() {
    assert_header(&[0, 2, 0, 1, 1], "0 0 1 0");
    assert_header(&[0, 2, 17, 5, 65, 5, 1], "0 0 1 0");
    assert_header(&[0, 2, 16, 5, 65], "0 0 2 0");
    assert_header(&[0, 2, 16, 4, 65], "0 0 3 0");
    assert_header(&[0, 2, 0, 1], "0 0 15 4");
}

/// 21 is asked of the first number before the second is read.
#[test]
fn a_first_number_other_than_0() {
    for first in 1..=127 {
        assert_header(&[first], "0 0 21 0");
        assert_header(&[first, 2, 1, 1, 1], "0 0 21 0");
    }
    assert_header(&[0x80, 0x02], "0 0 21 0");
    assert_header(&[0xFF, 0xFF, 0x03], "0 0 21 0");
    assert_header(&[1, 0x80], "0 0 21 0");
    assert_header(&[2, 2, 1, 1, 1], "0 0 21 0");
}

/// It is asked straight after the edition is read, before P, c and L are.
#[test]
fn an_edition_other_than_2() {
    for edition in (0..=127).filter(|&edition| edition != 2) {
        assert_header(&[0, edition], "0 0 21 0");
        assert_header(&[0, edition, 1, 1, 1, 5, 1], "0 0 21 0");
    }
    assert_header(&[0, 0x82, 0x02], "0 0 21 0");
    assert_header(&[0, 0x82, 0x80, 0x02, 1, 1, 1], "0 0 21 0");
    assert_header(&[0, 3, 0x80], "0 0 21 0");
    assert_header(&[0, 1, 17, 1, 1], "0 0 21 0");
}

#[test]
fn bad_first_numbers_come_before_21() {
    for (bad, number) in [
        (&[0x80][..], 15),
        (&[0x81, 0x80], 15),
        (&[0x80, 0x80, 0x80], 16),
        (&[0x81, 0x80, 0x04], 16),
        (&[0x80, 0x00], 19),
        (&[0x82, 0x00, 1, 1], 19),
        (&[0x83, 0x80, 0x00, 1], 19),
    ] {
        assert_header(bad, &format!("0 0 {number} 0"));
        assert_header(&[&[0], bad].concat(), &format!("0 0 {number} 1"));
        assert_header(&[&[0, 2], bad].concat(), &format!("0 0 {number} 2"));
    }
}

/// Nothing else says which edition a sheet has.
#[test]
fn an_edition_1_sheet() {
    assert_header(&CASE_D, "0 0 21 0");
    assert_header(&[1, 1, 1], "0 0 21 0");
}

/// "An edition 1 reader that gets through the first three numbers meets that 0 as
/// P and says 1".
#[test]
fn an_edition_1_reader() {
    for format in [Archive, Edition1] {
        assert_eq!(lines_in(format, &CASE_D_2), "0 0 1 0\nend 0 0 0\n");
        assert_eq!(lines_in(format, &SMALLEST_2), "0 0 1 0\nend 0 0 0\n");
        assert_eq!(lines_in(format, &[0, 2]), "0 0 15 2\nend 0 0 0\n");
        assert_eq!(lines_in(format, &[0, 2, 0x80, 0x80, 0x04]), "0 0 16 2\nend 0 0 0\n");
        for code in 9..=13 {
            let found = stopping_line_in(format, &[1, 1, 1, 5, 1, code]);
            assert_eq!(found, format!("2 {code} 17 0"));
        }
    }
    assert_eq!(lines_in(Edition1, &[0, 2, 0x81, 0x00]), "0 0 19 2\nend 0 0 0\n");
}

/// Each shorthand code after each step: the line is that of the code it stands for.
#[test]
fn every_shorthand_code() {
    for (first, first_fields) in STEPS {
        for (code, fields) in STEPS {
            let written = [&[0, 2, 2, 1, 1, first, 2], first_fields, &[code + 8], fields].concat();
            let edition_1 = [&[2, 1, 1, first, 2], first_fields, &[code, 2], fields].concat();
            assert_eq!(lines(&written), lines_in(Edition1, &edition_1));
        }
    }
}

#[test]
fn other_desks_are_written_out() {
    let sheet = [0, 2, 3, 1, 1, 5, 1, 5, 2, 13, 5, 1, 4, 3, 12];
    let expected = "0 0 0 0\n1 5 0 0\n2 5 0 0\n3 5 0 0\n4 5 0 0\n5 4 13 0\n6 4 13 0\nend 4 2 0\n";
    assert_eq!(lines(&sheet), expected);
}

/// Only the record before counts, not one of the same step or an earlier one.
#[test]
fn the_record_before() {
    let sheet = [0, 2, 2, 1, 1, 5, 1, 4, 2, 5, 1, 12];
    assert_eq!(lines(&sheet), "0 0 0 0\n1 5 0 0\n2 4 13 0\n3 5 0 0\n4 4 13 0\nend 2 2 0\n");
    let again = [0, 2, 2, 1, 1, 5, 1, 4, 2, 5, 2];
    assert_eq!(lines(&again), "0 0 0 0\n1 5 0 0\n2 4 13 0\n3 5 20 0\nend 1 1 0\n");
}

/// Also where the board refused that record.
#[test]
fn the_desk_of_a_refused_record() {
    assert_eq!(lines_after_opening(&[4, 1, 13]), "1 4 13 0\n2 5 0 0\nend 1 1 0\n");
    assert_eq!(lines_after_opening(&[4, 1, 5, 1]), "1 4 13 0\n2 5 20 0\nend 0 1 0\n");
    let refused_between = [0, 2, 2, 1, 1, 5, 1, 4, 2, 13];
    assert_eq!(lines(&refused_between), "0 0 0 0\n1 5 0 0\n2 4 13 0\n3 5 0 0\nend 2 1 0\n");
}

/// Desks outside the hall are carried; the board refuses them with 6.
#[test]
fn desks_outside_the_hall() {
    for desk in [&[0][..], &[2], &[17], &[0x80, 0x01], &[0xFF, 0xFF, 0x03]] {
        let shorthand = lines_after_opening(&[&[5], desk, &[12, 9, 1, 1, 5, 1]].concat());
        assert_eq!(shorthand, "1 5 6 0\n2 4 6 0\n3 1 6 0\n4 5 0 0\nend 1 3 0\n");
        let written_out = lines_after_opening(&[&[5], desk, &[4], desk].concat());
        assert_eq!(written_out, "1 5 6 0\n2 4 20 0\nend 0 1 0\n");
    }
}

/// Desk 256 is not desk 0, nor is desk 257 desk 1.
#[test]
fn desks_that_share_a_byte() {
    assert_eq!(lines_after_opening(&[5, 1, 5, 0x81, 0x02]), "1 5 0 0\n2 5 6 0\nend 1 1 0\n");
    assert_eq!(lines_after_opening(&[5, 0, 5, 0x80, 0x02]), "1 5 6 0\n2 5 6 0\nend 0 2 0\n");
    assert_eq!(lines_after_opening(&[5, 0x81, 0x02, 13]), "1 5 6 0\n2 5 6 0\nend 0 2 0\n");
}

#[test]
fn codes_out_of_range() {
    for code in (0..=127).filter(|code| !matches!(code, 1..=5 | 9..=13)) {
        assert_eq!(lines_after_opening(&[code]), format!("1 {code} 17 0\nend 0 0 0\n"));
        let later = lines_after_opening(&[5, 1, code, 1, 1, 1]);
        assert_eq!(later, format!("1 5 0 0\n2 {code} 17 0\nend 1 0 0\n"));
    }
    assert_eq!(lines_after_opening(&[0x89, 0x02]), "1 265 17 0\nend 0 0 0\n");
    assert_eq!(lines_after_opening(&[0xFF, 0xFF, 0x03]), "1 65535 17 0\nend 0 0 0\n");
}

#[test]
fn a_shorthand_code_in_the_first_record() {
    for (code, fields) in STEPS {
        let found = lines_after_opening(&[&[code + 8], fields, &[5, 1]].concat());
        assert_eq!(found, format!("1 {code} 20 0\nend 0 0 0\n"));
    }
}

#[test]
fn a_desk_written_out_though_unchanged() {
    for (first, first_fields) in STEPS {
        for (code, fields) in STEPS {
            let sheet =
                [&SMALLEST_2[..], &[first, 9], first_fields, &[code, 9], fields, &[5, 1]].concat();
            assert_eq!(
                lines(&sheet),
                format!("0 0 0 0\n1 {first} 6 0\n2 {code} 20 0\nend 0 1 0\n")
            );
        }
    }
}

/// Also after a record whose desk was left out.
#[test]
fn a_desk_written_out_after_shorthand() {
    assert_eq!(lines_after_opening(&[5, 1, 13, 5, 1]), "1 5 0 0\n2 5 0 0\n3 5 20 0\nend 2 0 0\n");
}

/// A bad field comes before 20, in both kinds. A shorthand code prints as the code
/// that it stands for.
#[test]
fn fields_come_before_20() {
    let bad_fields = [(&[][..], 15), (&[0x80], 15), (&[0x80, 0x80, 0x04], 16), (&[0x81, 0x00], 19)];
    for (code, fields) in STEPS {
        for before in 0..fields.len() {
            for (bad, number) in bad_fields {
                let first = [&[code + 8], &fields[..before], bad].concat();
                let expected = format!("1 {code} {number} {}\nend 0 0 0\n", 6 + before);
                assert_eq!(lines_after_opening(&first), expected);
                let again = [&[5, 1, code, 1], &fields[..before], bad].concat();
                let expected = format!("1 5 0 0\n2 {code} {number} {}\nend 1 0 0\n", 9 + before);
                assert_eq!(lines_after_opening(&again), expected);
                let shorthand = [&[5, 1, code + 8], &fields[..before], bad].concat();
                let expected = format!("1 5 0 0\n2 {code} {number} {}\nend 1 0 0\n", 8 + before);
                assert_eq!(lines_after_opening(&shorthand), expected);
            }
        }
    }
}

/// A written out desk is a field like the others.
#[test]
fn the_offset_of_a_desk() {
    assert_eq!(lines_after_opening(&[5]), "1 5 15 6\nend 0 0 0\n");
    assert_eq!(lines_after_opening(&[5, 0x81, 0x00]), "1 5 19 6\nend 0 0 0\n");
    assert_eq!(lines_after_opening(&[5, 1, 4, 0x80, 0x80, 0x04]), "1 5 0 0\n2 4 16 8\nend 1 0 0\n");
}

#[test]
fn padded_numbers() {
    for padded in [&[0x89, 0x00][..], &[0x8D, 0x80, 0x00], &[0x85, 0x00]] {
        let found = lines_after_opening(&[&[5, 1], padded, &[1, 1]].concat());
        assert_eq!(found, "1 5 0 0\n2 0 19 7\nend 1 0 0\n");
    }
    assert_eq!(lines_after_opening(&[5, 1, 10, 0x81, 0x00]), "1 5 0 0\n2 2 19 8\nend 1 0 0\n");
}

/// 20 and 21 print 0 in the session column and end the reading.
#[test]
fn after_20_and_21_nothing_is_read() {
    assert_header(&[1, 2, 1, 1, 1, 5, 1], "0 0 21 0");
    assert_header(&[0, 3, 1, 1, 1, 5, 1], "0 0 21 0");
    assert_eq!(lines_after_opening(&[13, 5, 1, 5, 1]), "1 5 20 0\nend 0 0 0\n");
    assert_eq!(lines_after_opening(&[5, 1, 5, 1, 0x80]), "1 5 0 0\n2 5 20 0\nend 1 0 0\n");
}

/// The smallest hall, a collect, and collects of one byte.
fn long_sheet(bytes: usize) -> Vec<u8> {
    let mut sheet = vec![13; bytes];
    sheet[..7].copy_from_slice(&[0, 2, 1, 1, 1, 5, 1]);
    sheet
}

#[test]
fn the_longest_sheet_is_read() {
    let lines = lines(&long_sheet(MAX_BYTES));
    assert_eq!(lines.lines().count(), 1 + 65_530 + 1);
    assert!(lines.ends_with("65530 5 0 0\nend 65530 0 0\n"));
}

#[test]
fn one_byte_more_is_too_long() {
    assert_header(&long_sheet(65_537), "0 0 18 0");
    assert_header(&[1; 65_537], "0 0 18 0");
}

#[test]
fn the_largest_offsets() {
    let stopping_line = |end: &[u8]| {
        let sheet = [&long_sheet(MAX_BYTES - end.len()), end].concat();
        stopping_line_in(Edition2, &sheet)
    };
    assert_eq!(stopping_line(&[4]), "65530 4 15 65536");
    assert_eq!(stopping_line(&[9, 1]), "65529 1 15 65536");
    assert_eq!(stopping_line(&[0x8D]), "65530 0 15 65535");
    assert_eq!(stopping_line(&[0x80, 0x80, 0x04]), "65528 0 16 65533");
    assert_eq!(stopping_line(&[10, 0x81, 0x00]), "65528 2 19 65534");
    assert_eq!(stopping_line(&[5, 1]), "65529 5 20 0");
    assert_eq!(stopping_line(&[14]), "65530 14 17 0");
}
