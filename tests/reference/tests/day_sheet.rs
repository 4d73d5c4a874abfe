//! The day sheet of documents 01 and 02: whole case D, case L, the empty sheet,
//! each way in which a reading can end, and the offset that its line prints.

mod sheet;

use reference::sheet::Fault::{BadNumber, Padded, SheetShort};
use reference::sheet::Format::{self, Archive, Edition1};
use reference::sheet::{Reader, MAX_BYTES};
use sheet::{
    lines, lines_after_opening, number_in, stopping_line, stopping_line_in, CASE_D,
    LINES_OF_CASE_D, SMALLEST,
};

#[test]
fn case_d_whole() {
    assert_eq!(lines(&CASE_D), LINES_OF_CASE_D);
}

#[test]
fn the_empty_sheet() {
    assert_eq!(lines(&[]), "0 0 15 0\nend 0 0 0\n");
}

/// Document 02, Job 3: "`81 00` in case L becomes 19 in the new reader only."
#[test]
fn case_l() {
    for format in [Edition1, Archive] {
        assert_eq!(number_in(format, &[0xFF, 0xFF, 0x03]), Ok(65_535));
        assert_eq!(number_in(format, &[0x80, 0x80, 0x04]), Err(BadNumber { offset: 0 }));
        assert_eq!(number_in(format, &[0x80]), Err(SheetShort { offset: 0 }));
    }
    assert_eq!(number_in(Edition1, &[0x81, 0x00]), Err(Padded { offset: 0 }));
    assert_eq!(number_in(Archive, &[0x81, 0x00]), Ok(1));
}

/// A sheet that stops before a third byte is 15, also where it could only
/// have become too large.
#[test]
fn numbers_that_stop() {
    for format in [Edition1, Archive] {
        assert_eq!(number_in(format, &[]), Err(SheetShort { offset: 0 }));
        assert_eq!(number_in(format, &[0xFF, 0xFF]), Err(SheetShort { offset: 0 }));
        assert_eq!(number_in(format, &[0xFF, 0xFF, 0x83]), Err(BadNumber { offset: 0 }));
        assert_eq!(number_in(format, &[0x80, 0x80, 0x80, 0x00]), Err(BadNumber { offset: 0 }));
    }
}

#[test]
fn zero_groups_at_the_high_end() {
    assert_eq!(number_in(Archive, &[0x81, 0x80, 0x00]), Ok(1));
    let mut reader = Reader::new(&[0x80, 0x80, 0x00, 0xAC, 0x82, 0x00], Archive);
    assert_eq!((reader.number(), reader.number()), (Ok(0), Ok(300)));
    assert!(reader.at_end());
}

#[test]
fn an_opening_that_is_refused() {
    assert_eq!(lines(&[17, 5, 65]), "0 0 1 0\nend 0 0 0\n");
    assert_eq!(lines(&[16, 5, 65]), "0 0 2 0\nend 0 0 0\n");
    assert_eq!(lines(&[16, 4, 65]), "0 0 3 0\nend 0 0 0\n");
    assert_eq!(lines(&[16, 4, 64]), "0 0 0 0\nend 0 0 0\n");
}

/// Nothing after it is read.
#[test]
fn a_refused_opening_ends_the_reading() {
    assert_eq!(lines(&[0, 1, 1, 5, 1, 9]), "0 0 1 0\nend 0 0 0\n");
}

#[test]
fn all_header_numbers_are_read_before_the_opening_asks() {
    assert_eq!(lines(&[0, 0]), "0 0 15 2\nend 0 0 0\n");
    assert_eq!(lines(&[0, 0x80, 0x80, 0x04, 1]), "0 0 16 1\nend 0 0 0\n");
}

#[test]
fn a_code_cut_short() {
    assert_eq!(lines_after_opening(&[5, 1, 0x85]), "1 5 0 0\n2 0 15 5\nend 1 0 0\n");
}

#[test]
fn a_code_too_large_to_read() {
    assert_eq!(lines_after_opening(&[0x80, 0x80, 0x04]), "1 0 16 3\nend 0 0 0\n");
}

#[test]
fn codes_out_of_range() {
    assert_eq!(lines_after_opening(&[0, 1, 1]), "1 0 17 0\nend 0 0 0\n");
    assert_eq!(lines_after_opening(&[6]), "1 6 17 0\nend 0 0 0\n");
    assert_eq!(lines_after_opening(&[0x85, 0x02, 1]), "1 261 17 0\nend 0 0 0\n");
}

/// Every record cut at each of its fields, and with a bad number there.
#[test]
fn fields_that_end_the_reading() {
    let records: [&[u8]; 5] = [&[1, 1, 1, 1], &[2, 1, 1], &[3, 1, 1, 7], &[4, 1], &[5, 1]];
    for record in records {
        for cut in 1..record.len() {
            let offset = SMALLEST.len() + cut;
            let (cut, code) = (&record[..cut], record[0]);
            assert_eq!(lines_after_opening(cut), format!("1 {code} 15 {offset}\nend 0 0 0\n"));
            let bad = [cut, &[0xFF, 0xFF, 0x04, 1]].concat();
            assert_eq!(lines_after_opening(&bad), format!("1 {code} 16 {offset}\nend 0 0 0\n"));
        }
    }
}

/// The desk is checked only once the whole record is read.
#[test]
fn all_fields_are_read_before_the_step_asks() {
    assert_eq!(lines_after_opening(&[1, 9, 9]), "1 1 15 6\nend 0 0 0\n");
    assert_eq!(lines_after_opening(&[1, 9, 9, 9]), "1 1 6 0\nend 0 1 0\n");
}

/// Fields of a swap: desk, position, session; of a take: desk, screen, position.
#[test]
fn the_order_of_fields() {
    let sheet = [2, 3, 4, 3, 2, 4, 5, 1, 2, 3, 4];
    assert_eq!(lines(&sheet), "0 0 0 0\n1 3 0 0\n2 1 0 5\nend 2 0 0\n");
}

#[test]
fn a_refused_step_does_not_end_the_reading() {
    assert_eq!(lines_after_opening(&[4, 1, 5, 1]), "1 4 13 0\n2 5 0 0\nend 1 1 0\n");
}

/// 0 onto an empty position, then a session twice.
#[test]
fn a_repeat_is_an_accepted_step() {
    let lines = lines_after_opening(&[3, 1, 1, 0, 3, 1, 1, 5, 3, 1, 1, 5, 4, 1]);
    assert_eq!(lines, "1 3 0 0\n2 3 0 0\n3 3 0 5\n4 4 13 0\nend 3 1 0\n");
}

/// Two desks in turn, with refused steps, a repeat and a desk outside the hall among
/// theirs: none is refused with 23.
#[test]
fn each_step_has_the_message_number_of_its_desk() {
    let sheet = [2, 1, 1, 5, 1, 5, 2, 4, 1, 5, 1, 3, 2, 1, 0, 5, 3, 5, 2, 4, 2, 5, 2, 5, 1];
    let expected = "0 0 0 0\n1 5 0 0\n2 5 0 0\n3 4 13 0\n4 5 0 0\n5 3 0 0\n6 5 6 0\n\
        7 5 0 0\n8 4 13 0\n9 5 0 0\n10 5 0 0\nend 7 3 0\n";
    assert_eq!(lines(&sheet), expected);
}

/// Only a session handed back counts in the third count.
#[test]
fn what_is_handed_back() {
    let replaced = [3, 1, 1, 5, 3, 1, 1, 6, 4, 1];
    let lines = lines_after_opening(&[&replaced[..], &[5, 1, 5, 1]].concat());
    assert_eq!(lines, "1 3 0 0\n2 3 0 5\n3 4 0 5\n4 5 0 5\n5 5 0 0\nend 5 0 1\n");
}

/// A sheet of `bytes` bytes: the smallest hall, then collects by desk 5.
fn long_sheet(bytes: usize) -> Vec<u8> {
    let mut sheet = vec![5; bytes];
    sheet[..3].copy_from_slice(&SMALLEST);
    sheet
}

#[test]
fn the_longest_sheet_is_read() {
    let lines = lines(&long_sheet(MAX_BYTES));
    assert_eq!(MAX_BYTES, 65_536);
    assert!(lines.ends_with("32766 5 6 0\n32767 5 15 65536\nend 0 32766 0\n"));
}

#[test]
fn one_byte_more_is_too_long() {
    assert_eq!(lines(&long_sheet(65_537)), "0 0 18 0\nend 0 0 0\n");
    assert_eq!(lines(&[0x80; 65_537]), "0 0 18 0\nend 0 0 0\n");
}

/// As many records as a sheet can hold, each with its line.
#[test]
fn a_long_day() {
    let mut sheet = vec![16, 4, 64];
    (0..32_766).for_each(|_| sheet.extend([5, 16]));
    let lines = lines(&sheet);
    assert_eq!(lines.lines().count(), 1 + 32_766 + 1);
    assert!(lines.ends_with("32766 5 0 0\nend 32766 0 0\n"));
}

/// Bytes that are missing, that do not end, and that are too many or too large,
/// each with the reply number.
const BAD_NUMBERS: [(&[u8], u32); 6] = [
    (&[], 15),
    (&[0x80], 15),
    (&[0xFF, 0xFF], 15),
    (&[0x80, 0x80, 0x04], 16),
    (&[0xFF, 0xFF, 0x7F, 1, 1], 16),
    (&[0x80, 0x80, 0x80, 0x00], 16),
];

/// 0, 1, 0 and 300 with zero groups at the high end.
const PADDED_NUMBERS: [&[u8]; 4] =
    [&[0x80, 0x00], &[0x81, 0x00], &[0x80, 0x80, 0x00], &[0xAC, 0x82, 0x00]];

/// Each bad number after these bytes prints the same offset, in the line that
/// begins like this.
fn assert_offset_in(format: Format, before: &[u8], line: &str, offset: usize) {
    for (bad, number) in BAD_NUMBERS {
        let expected = format!("{line} {number} {offset}");
        let found = stopping_line_in(format, &[before, bad].concat());
        assert_eq!(found, expected, "{before:?}, {bad:?}");
    }
}

/// The same in both formats; and so does each padded number, with 19, in
/// shortest form.
fn assert_offset(before: &[u8], line: &str, offset: usize) {
    assert_offset_in(Edition1, before, line, offset);
    assert_offset_in(Archive, before, line, offset);
    for padded in PADDED_NUMBERS {
        let expected = format!("{line} 19 {offset}");
        assert_eq!(stopping_line(&[before, padded].concat()), expected, "{before:?}, {padded:?}");
    }
}

#[test]
fn the_offset_in_the_header() {
    assert_offset(&[], "0 0", 0);
    assert_offset(&[1], "0 0", 1);
    assert_offset(&[1, 1], "0 0", 2);
}

/// A sheet may end where a code would begin, so not every bad number applies.
#[test]
fn the_offset_of_a_code() {
    assert_eq!(lines_after_opening(&[0x80]), "1 0 15 3\nend 0 0 0\n");
    assert_eq!(lines_after_opening(&[0x81, 0x80]), "1 0 15 3\nend 0 0 0\n");
    assert_eq!(lines_after_opening(&[0xFF, 0xFF, 0x04]), "1 0 16 3\nend 0 0 0\n");
    assert_eq!(lines_after_opening(&[0x81, 0x80, 0x80, 0]), "1 0 16 3\nend 0 0 0\n");
    for padded in PADDED_NUMBERS {
        assert_eq!(lines_after_opening(padded), "1 0 19 3\nend 0 0 0\n");
    }
}

#[test]
fn the_offset_of_each_field() {
    let field_counts = [(1, 3), (2, 2), (3, 3), (4, 1), (5, 1)];
    for (code, count) in field_counts {
        for before in 0..count {
            let sheet = [&SMALLEST, &[code][..], &vec![1; before]].concat();
            assert_offset(&sheet, &format!("1 {code}"), 4 + before);
        }
    }
}

/// It counts from the start of the sheet, not of the record.
#[test]
fn the_offset_in_a_later_record() {
    let first = [1, 1, 1, 3, 1, 1, 7];
    assert_offset(&[&first[..], &[5]].concat(), "2 5", 8);
    assert_offset(&[&first[..], &[3, 1, 1]].concat(), "2 3", 10);
    assert_offset(&[&first[..], &[5, 1, 1, 1]].concat(), "3 1", 11);
}

/// All bytes of a number before it count.
#[test]
fn the_offset_after_long_numbers() {
    assert_offset(&[0x80, 0x01], "0 0", 2);
    assert_offset(&[0x80, 0x01, 0xFF, 0xFF, 0x03], "0 0", 5);
    assert_offset(&[1, 1, 1, 3, 1, 1, 0xAC, 0x02, 5], "2 5", 9);
    assert_offset(&[1, 1, 1, 1, 0xFF, 0xFF, 0x03, 1], "1 1", 8);
}

/// So do zero groups, in a sheet of the archive.
#[test]
fn the_offset_after_zero_groups() {
    let assert_offset = |before: &[u8], line, at| assert_offset_in(Archive, before, line, at);
    assert_offset(&[0x81, 0x00], "0 0", 2);
    assert_offset(&[0x81, 0x00, 0x81, 0x80, 0x00], "0 0", 5);
    assert_offset(&[0x81, 0x00, 0x81, 0x80, 0x00, 1, 5], "1 5", 7);
    assert_offset(&[1, 1, 1, 0x85, 0x80, 0x00], "1 5", 6);
    assert_offset(&[1, 1, 1, 1, 0x81, 0x00, 1], "1 1", 7);
}

#[test]
fn other_numbers_print_no_offset() {
    assert_eq!(lines(&[0, 1, 1]), "0 0 1 0\nend 0 0 0\n");
    assert_eq!(lines(&[1, 0, 1]), "0 0 2 0\nend 0 0 0\n");
    assert_eq!(lines(&[1, 1, 0]), "0 0 3 0\nend 0 0 0\n");
    assert_eq!(lines_after_opening(&[5, 1, 9]), "1 5 0 0\n2 9 17 0\nend 1 0 0\n");
    assert_eq!(lines(&[1; 65_537]), "0 0 18 0\nend 0 0 0\n");
}

/// A long sheet with an even number of bytes ends where a desk should begin.
#[test]
fn offsets_of_more_than_a_byte() {
    assert_eq!(stopping_line(&long_sheet(256)), "127 5 15 256");
    assert_eq!(stopping_line(&long_sheet(32_768)), "16383 5 15 32768");
}

/// 65,536 is where the longest sheet ends; it is more than 16 bits can hold.
#[test]
fn the_largest_offsets() {
    let ends_with = |end: &[u8]| [&long_sheet(MAX_BYTES - end.len()), end].concat();
    assert_eq!(stopping_line(&ends_with(&[5])), "32767 5 15 65536");
    assert_eq!(stopping_line(&ends_with(&[3, 1, 1])), "32766 3 15 65536");
    assert_eq!(stopping_line(&ends_with(&[0x85])), "32767 0 15 65535");
    assert_eq!(stopping_line(&ends_with(&[4, 0x80, 0x80])), "32766 4 15 65534");
    assert_eq!(stopping_line(&ends_with(&[0x80, 0x80, 0x04])), "32766 0 16 65533");
    assert_eq!(stopping_line(&ends_with(&[0x81, 0x00])), "32766 5 19 65534");
    assert_eq!(stopping_line(&ends_with(&[0x81, 0x80, 0x00])), "32766 0 19 65533");
}
