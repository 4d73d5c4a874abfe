//! A sheet of one edition in the other, and the line that a refused sheet gives
//! (document 02, Job 4).

mod sheet;

use reference::sheet::Format::{self, Edition1, Edition2};
use reference::sheet::{Conversion, MAX_BYTES};
use sheet::{encoded, lines_in, CASE_D, CASE_D_2, SMALLEST, SMALLEST_2};

fn to_2(sheet: &[u8]) -> Vec<u8> {
    Conversion::TO_EDITION_2.output(sheet)
}

fn to_1(sheet: &[u8]) -> Vec<u8> {
    Conversion::TO_EDITION_1.output(sheet)
}

/// A sheet in both editions: each converter gives the other, and its lines.
fn assert_same(edition_1: &[u8], edition_2: &[u8]) {
    assert_eq!(to_2(edition_1), edition_2, "{edition_1:?}");
    assert_eq!(to_1(edition_2), edition_1, "{edition_2:?}");
    assert_eq!(lines_in(Edition1, edition_1), lines_in(Edition2, edition_2));
}

fn assert_refused(convert: fn(&[u8]) -> Vec<u8>, sheet: &[u8], line: &str) {
    let output = String::from_utf8(convert(sheet)).expect("plain text");
    assert_eq!(output, format!("{line}\n"), "{sheet:?}");
}

#[test]
fn case_d() {
    assert_same(&CASE_D, &CASE_D_2);
}

#[test]
fn a_header_alone() {
    assert_same(&SMALLEST, &SMALLEST_2);
    assert_same(&[16, 4, 64], &[0, 2, 16, 4, 64]);
}

/// The desk is left out after a record of the same desk, whatever the steps are.
#[test]
fn every_pair_of_steps() {
    let steps: [(u8, &[u8]); 5] = [(1, &[1, 1]), (2, &[1]), (3, &[1, 7]), (4, &[]), (5, &[])];
    for (first, first_fields) in steps {
        for (code, fields) in steps {
            assert_same(
                &[&[2, 1, 1, first, 2], first_fields, &[code, 2], fields].concat(),
                &[&[0, 2, 2, 1, 1, first, 2], first_fields, &[code + 8], fields].concat(),
            );
            assert_same(
                &[&[2, 1, 1, first, 1], first_fields, &[code, 2], fields].concat(),
                &[&[0, 2, 2, 1, 1, first, 1], first_fields, &[code, 2], fields].concat(),
            );
        }
    }
}

#[test]
fn desks_in_turn() {
    assert_same(&[3, 1, 1, 5, 1, 5, 2, 5, 1, 5, 1], &[0, 2, 3, 1, 1, 5, 1, 5, 2, 5, 1, 13]);
    assert_same(&[2, 1, 1, 5, 1, 5, 1, 5, 2, 5, 2], &[0, 2, 2, 1, 1, 5, 1, 13, 5, 2, 13]);
}

/// "Desks outside the hall are carried; the board refuses them."
#[test]
fn desks_outside_the_hall() {
    for desk in [0, 2, 17, 127, 128, 256, 257, 16_383, 16_384, 65_535] {
        let bytes = encoded(&[desk], 1);
        assert_same(
            &[&[1, 1, 1, 5], &bytes[..], &[4], &bytes, &[5, 1]].concat(),
            &[&[0, 2, 1, 1, 1, 5], &bytes[..], &[12, 5, 1]].concat(),
        );
    }
}

#[test]
fn desks_that_share_a_byte() {
    assert_same(&[1, 1, 1, 5, 1, 5, 0x81, 0x02], &[0, 2, 1, 1, 1, 5, 1, 5, 0x81, 0x02]);
    assert_same(&[1, 1, 1, 5, 0, 5, 0x80, 0x02], &[0, 2, 1, 1, 1, 5, 0, 5, 0x80, 0x02]);
}

/// Sessions and the other fields of every length.
#[test]
fn every_session() {
    for session in 0..=65_535 {
        let swap = encoded(&[1, session], 1);
        assert_same(
            &[&[1, 1, 1, 4, 1, 3, 1], &swap[..]].concat(),
            &[&[0, 2, 1, 1, 1, 4, 1, 11], &swap[..]].concat(),
        );
    }
}

#[test]
fn refused_halls() {
    for (hall, line) in [
        ([0, 0, 0], "1 0"),
        ([17, 5, 65], "1 0"),
        ([16, 0, 64], "2 0"),
        ([16, 5, 65], "2 0"),
        ([16, 4, 0], "3 0"),
        ([16, 4, 65], "3 0"),
    ] {
        assert_refused(to_2, &hall, line);
        assert_refused(to_2, &[&hall[..], &[5]].concat(), line);
        assert_refused(to_1, &[&[0, 2], &hall[..]].concat(), line);
        assert_refused(to_1, &[&[0, 2], &hall[..], &[5]].concat(), line);
    }
}

#[test]
fn the_other_edition() {
    assert_refused(to_2, &CASE_D_2, "1 0");
    assert_refused(to_2, &[0, 2], "15 2");
    assert_refused(to_1, &CASE_D, "21 0");
    assert_refused(to_1, &[1], "21 0");
    assert_refused(to_1, &[0, 1, 1, 1, 1], "21 0");
    assert_refused(to_1, &[0, 3, 0x80], "21 0");
}

/// The offset counts the bytes of the sheet that is read.
#[test]
fn bad_numbers() {
    for (bad, number) in [
        (&[0x80][..], 15),
        (&[0xFF, 0xFF], 15),
        (&[0x80, 0x80, 0x04], 16),
        (&[0xFF, 0xFF, 0xFF, 0x00], 16),
        (&[0x80, 0x00], 19),
        (&[0x81, 0x80, 0x00], 19),
    ] {
        for before in [&[][..], &[1], &[1, 1], &[1, 1, 1], &[1, 1, 1, 5], &[1, 1, 1, 3, 1, 1]] {
            let line = format!("{number} {}", before.len());
            assert_refused(to_2, &[before, bad].concat(), &line);
        }
        for before in [
            &[][..],
            &[0],
            &[0, 2],
            &[0, 2, 1, 1],
            &[0, 2, 1, 1, 1, 5],
            &[0, 2, 1, 1, 1, 5, 1, 13, 9],
        ] {
            let line = format!("{number} {}", before.len());
            assert_refused(to_1, &[before, bad].concat(), &line);
        }
    }
}

#[test]
fn cut_sheets() {
    assert_refused(to_2, &[], "15 0");
    assert_refused(to_2, &[1, 1, 1, 5, 1, 5], "15 6");
    assert_refused(to_1, &[], "15 0");
    assert_refused(to_1, &[0, 2, 1, 1, 1, 5], "15 6");
    assert_refused(to_1, &[0, 2, 1, 1, 1, 5, 1, 9, 1], "15 9");
}

#[test]
fn codes_out_of_range() {
    for code in [0, 6, 7, 8, 9, 10, 11, 12, 13, 14, 127] {
        assert_refused(to_2, &[1, 1, 1, 5, 1, code, 1], "17 0");
    }
    for code in [0, 6, 7, 8, 14, 127] {
        assert_refused(to_1, &[0, 2, 1, 1, 1, 5, 1, code, 1], "17 0");
    }
}

#[test]
fn refused_with_20() {
    assert_refused(to_1, &[0, 2, 1, 1, 1, 13], "20 0");
    assert_refused(to_1, &[0, 2, 1, 1, 1, 9, 1], "15 7");
    assert_refused(to_1, &[0, 2, 1, 1, 1, 9, 1, 1, 5, 1], "20 0");
    assert_refused(to_1, &[0, 2, 1, 1, 1, 5, 1, 5, 1], "20 0");
    assert_refused(to_1, &[0, 2, 1, 1, 1, 5, 9, 5, 9], "20 0");
}

/// Each of two desks in turn, so nothing is left out; then an end.
fn without_repeats(header: &[u8], bytes: usize) -> Vec<u8> {
    let records = [5, 1, 5, 2].into_iter().cycle();
    header.iter().copied().chain(records).take(bytes).collect()
}

/// To edition 2 a sheet without repeats grows by two bytes.
#[test]
fn the_longest_output_of_edition_2() {
    let longest = without_repeats(&[2, 1, 1, 2, 2, 1], MAX_BYTES - 2);
    assert_same(&longest, &[&[0, 2], &longest[..]].concat());
    assert_refused(to_2, &without_repeats(&[2, 1, 1], MAX_BYTES - 1), "18 0");
    assert_refused(to_2, &without_repeats(&[2, 1, 1, 2, 2, 1], MAX_BYTES), "18 0");
    let one_repeat = [&without_repeats(&[2, 1, 1], MAX_BYTES - 3), &[5, 1][..]].concat();
    assert_eq!((one_repeat.len(), to_2(&one_repeat).len()), (65_535, 65_536));
}

/// The first record has its desk; collects of one byte follow, so many.
fn repeats(first: &[u8], records: usize) -> Vec<u8> {
    [&SMALLEST_2, first, &vec![13; records]].concat()
}

/// To edition 1 a record of one byte gets its desk back.
#[test]
fn the_longest_output_of_edition_1() {
    let longest = repeats(&[2, 1, 1], 32_765);
    let edition_1 = [&SMALLEST[..], &[2, 1, 1], &[5, 1].repeat(32_765)].concat();
    assert_eq!(edition_1.len(), MAX_BYTES);
    assert_same(&edition_1, &longest);
    assert_refused(to_1, &repeats(&[5, 1], 32_766), "18 0");
    assert_refused(to_1, &repeats(&[5, 1], MAX_BYTES - 7), "18 0");
    let three_bytes = [5, 0xFF, 0xFF, 0x03];
    assert_eq!(to_1(&repeats(&three_bytes, 16_382)).len(), 65_535);
    assert_refused(to_1, &repeats(&three_bytes, 16_383), "18 0");
}

/// A sheet whose reading ends has no output: 18 is that of a whole sheet.
#[test]
fn what_ends_the_reading_comes_before_a_long_output() {
    let long = without_repeats(&[2, 1, 1], MAX_BYTES - 1);
    assert_refused(to_2, &[&long, &[5][..]].concat(), "15 65536");
    assert_refused(to_2, &[&long, &[6][..]].concat(), "17 0");
    let long = repeats(&[5, 1], 40_000);
    assert_refused(to_1, &[&long, &[5][..]].concat(), "15 40008");
    assert_refused(to_1, &[&long, &[5, 1][..]].concat(), "20 0");
}

#[test]
fn sheets_that_are_too_long() {
    assert_refused(to_2, &[1; MAX_BYTES + 1], "18 0");
    assert_refused(to_1, &[0; MAX_BYTES + 1], "18 0");
}

/// Every sheet of these bytes, up to so many of them: at most one reader accepts
/// it, a converter accepts what its reader does, and the way back gives the sheet.
#[test]
fn every_short_sheet() {
    let bytes = [0, 1, 2, 3, 5, 13];
    let mut sheets: Vec<Vec<u8>> = vec![Vec::new()];
    for _ in 0..7 {
        let longer = |sheet: &Vec<u8>| bytes.map(|byte| [&sheet[..], &[byte]].concat());
        sheets = sheets.iter().flat_map(longer).collect();
        for sheet in &sheets {
            assert!(!(is_accepted(Edition1, sheet) && is_accepted(Edition2, sheet)));
            assert_there_and_back(Conversion::TO_EDITION_2, Conversion::TO_EDITION_1, sheet);
            assert_there_and_back(Conversion::TO_EDITION_1, Conversion::TO_EDITION_2, sheet);
        }
    }
}

fn assert_there_and_back(there: Conversion, back: Conversion, sheet: &[u8]) {
    let converted = there.convert(sheet);
    assert_eq!(converted.is_ok(), is_accepted(there.from, sheet));
    if let Ok(converted) = converted {
        assert_eq!(lines_in(there.to, &converted), lines_in(there.from, sheet));
        assert_eq!(back.output(&converted), sheet);
    }
}

/// No line is one that ends a reading.
fn is_accepted(format: Format, sheet: &[u8]) -> bool {
    let ends_reading = |number: u32| matches!(number, 1..=3 | 15..=21);
    let lines = lines_in(format, sheet);
    let of_records = lines.lines().filter(|line| !line.starts_with("end"));
    let mut numbers = of_records.map(|line| line.split(' ').nth(2).expect("four words"));
    !numbers.any(|number| ends_reading(number.parse().expect("a number")))
}
