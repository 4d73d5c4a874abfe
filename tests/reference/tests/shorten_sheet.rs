//! Old sheets in shortest form, and the line that a refused sheet gives
//! (document 02, Job 3).

mod sheet;

use reference::sheet::Format::Archive;
use reference::sheet::{Conversion, MAX_BYTES};
use sheet::{encoded, in_groups, lines, lines_in, needed_groups, CASE_D, SMALLEST};

/// A hall and each step, with numbers of one, two and three groups.
fn numbers() -> Vec<u16> {
    let records: [&[u16]; 7] = [
        &[2, 3, 64],
        &[3, 1, 64, 65_535],
        &[1, 300, 3, 128],
        &[2, 16_384, 127],
        &[4, 16_383],
        &[5, 0],
        &[3, 2, 64, 0],
    ];
    records.concat()
}

fn shortened(sheet: &[u8]) -> Vec<u8> {
    Conversion::SHORTEN.output(sheet)
}

/// The output for a sheet that is refused is a line and nothing else.
fn refusal(sheet: &[u8]) -> String {
    String::from_utf8(shortened(sheet)).expect("plain text")
}

#[test]
fn a_sheet_in_shortest_form_stays() {
    assert_eq!(shortened(&SMALLEST), SMALLEST);
    assert_eq!(shortened(&CASE_D), CASE_D);
    let sheet = encoded(&numbers(), 1);
    assert_eq!(shortened(&sheet), sheet);
}

#[test]
fn every_number_padded() {
    let shortest = encoded(&numbers(), 1);
    assert_eq!(shortened(&encoded(&numbers(), 2)), shortest);
    assert_eq!(shortened(&encoded(&numbers(), 3)), shortest);
    assert_eq!(shortened(&encoded(&[16, 4, 64], 3)), [16, 4, 64]);
}

/// Each number of the header and of each record in turn.
#[test]
fn one_number_padded() {
    let numbers = numbers();
    let shortest = encoded(&numbers, 1);
    for (at, &number) in numbers.iter().enumerate() {
        let (before, after) = (encoded(&numbers[..at], 1), encoded(&numbers[at + 1..], 1));
        for groups in needed_groups(number) + 1..=3 {
            let sheet = [&before[..], &in_groups(number, groups), &after].concat();
            assert_eq!(shortened(&sheet), shortest, "{sheet:?}");
        }
    }
}

/// As the session of a swap, in as many groups as can be.
#[test]
fn every_number() {
    let before = [1, 1, 1, 3, 1, 1];
    for session in 0..=65_535 {
        let shortest = [&before, &in_groups(session, needed_groups(session))[..]].concat();
        assert_eq!(shortened(&[&before, &in_groups(session, 3)[..]].concat()), shortest);
    }
}

#[test]
fn the_same_lines() {
    for least_groups in 1..=3 {
        let sheet = encoded(&numbers(), least_groups);
        assert_eq!(lines(&shortened(&sheet)), lines_in(Archive, &sheet));
    }
}

/// The board would refuse these records; the sheet is accepted.
#[test]
fn numbers_outside_the_hall_are_kept() {
    assert_eq!(shortened(&[1, 1, 1, 5, 0xE8, 0x87, 0x00]), [1, 1, 1, 5, 0xE8, 0x07]);
    assert_eq!(shortened(&[1, 1, 1, 2, 0x80, 0x00, 9]), [1, 1, 1, 2, 0, 9]);
}

/// The questions of the opening, in its order, once all three numbers are read.
#[test]
fn refused_halls() {
    for least_groups in 1..=3 {
        let refusal = |hall: [u16; 3]| refusal(&encoded(&hall, least_groups));
        assert_eq!(refusal([0, 0, 0]), "1 0\n");
        assert_eq!(refusal([17, 1, 1]), "1 0\n");
        assert_eq!(refusal([16, 5, 65]), "2 0\n");
        assert_eq!(refusal([16, 0, 64]), "2 0\n");
        assert_eq!(refusal([16, 4, 65]), "3 0\n");
        assert_eq!(refusal([16, 4, 0]), "3 0\n");
    }
    assert_eq!(refusal(&[0, 0x80]), "15 1\n");
    assert_eq!(refusal(&[0, 1, 0x80, 0x80, 0x04]), "16 2\n");
}

/// Nothing after a refused hall is read.
#[test]
fn a_refused_hall_with_records() {
    assert_eq!(refusal(&[17, 1, 1, 5, 1]), "1 0\n");
    assert_eq!(refusal(&[1, 0x85, 0x00, 1, 6]), "2 0\n");
}

#[test]
fn no_sheet_at_all() {
    assert_eq!(refusal(&[]), "15 0\n");
}

/// Cut inside each number and before each field. The offset counts the bytes of
/// the sheet as it was.
#[test]
fn cut_sheets() {
    let records: [&[u16]; 6] =
        [&[1, 1, 1], &[1, 1, 1, 1], &[2, 1, 1], &[3, 1, 1, 300], &[4, 1], &[5, 1]];
    for least_groups in 1..=3 {
        let mut before = Vec::new();
        for record in records {
            for (at, &number) in record.iter().enumerate() {
                let number = encoded(&[number], least_groups);
                // A sheet may end where a record begins.
                let first = usize::from(at == 0 && !before.is_empty());
                for cut in first..number.len() {
                    let sheet = [&before[..], &number[..cut]].concat();
                    assert_eq!(refusal(&sheet), format!("15 {}\n", before.len()), "{sheet:?}");
                }
                before.extend(number);
            }
        }
    }
}

/// Too large or too long, after padded numbers.
#[test]
fn numbers_too_large() {
    assert_eq!(refusal(&[0x80, 0x80, 0x80, 0x00]), "16 0\n");
    assert_eq!(refusal(&[0x81, 0x00, 0xFF, 0xFF, 0x04, 1]), "16 2\n");
    assert_eq!(refusal(&[0x81, 0x00, 0x81, 0x80, 0x00, 1, 0x80, 0x80, 0x04]), "16 6\n");
    assert_eq!(refusal(&[1, 1, 1, 0x85, 0x00, 0xFF, 0xFF, 0x7F]), "16 5\n");
    assert_eq!(refusal(&[1, 1, 1, 5, 0x81, 0x80, 0x00, 0x85, 0x80, 0x80, 0x00]), "16 7\n");
}

#[test]
fn codes_out_of_range() {
    assert_eq!(refusal(&[1, 1, 1, 0]), "17 0\n");
    assert_eq!(refusal(&[1, 1, 1, 0x80, 0x00]), "17 0\n");
    assert_eq!(refusal(&[1, 1, 1, 0x86, 0x80, 0x00]), "17 0\n");
    assert_eq!(refusal(&[1, 1, 1, 0x85, 0x02, 1]), "17 0\n");
    assert_eq!(refusal(&[1, 1, 1, 6, 0x80]), "17 0\n");
}

/// What was read before the fault is not written.
#[test]
fn a_refusal_is_the_whole_output() {
    assert_eq!(refusal(&[1, 1, 1, 0x85, 0x00, 1, 4, 1, 6]), "17 0\n");
    assert_eq!(refusal(&[1, 1, 1, 0x85, 0x00, 1, 4, 1, 5]), "15 9\n");
}

/// A hall, then collects in numbers of two groups, in so many bytes.
fn long_sheet(bytes: usize) -> Vec<u8> {
    let records = [0x85, 0x00, 0x81, 0x00].into_iter().cycle();
    SMALLEST.into_iter().chain(records).take(bytes).collect()
}

#[test]
fn the_longest_sheet() {
    let whole = [&[0x81, 0x00, 1, 1], &long_sheet(MAX_BYTES - 1)[3..]].concat();
    assert_eq!((MAX_BYTES, whole.len()), (65_536, 65_536));
    let shortest = shortened(&whole);
    assert_eq!((shortest.len(), &shortest[..7]), (32_769, &[1, 1, 1, 5, 1, 5, 1][..]));
    let cut = [&long_sheet(MAX_BYTES - 1), &[5][..]].concat();
    assert_eq!(refusal(&cut), "15 65536\n");
    assert_eq!(refusal(&long_sheet(MAX_BYTES)), "15 65535\n");
}

/// Also where it would be shorter than that.
#[test]
fn one_byte_more_is_too_long() {
    assert_eq!(refusal(&long_sheet(65_537)), "18 0\n");
    assert_eq!(refusal(&[0; 65_537]), "18 0\n");
}
