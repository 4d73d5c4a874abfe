//! The sheets that are timed: each as long as a sheet can be, and whole.

use crate::records::{in_edition, length, Edition, Record};

const BYTES: usize = 65_536;

/// No record of these sheets is longer.
const MAX_RECORD: usize = 5;

pub struct Sheet {
    pub name: &'static str,
    pub bytes: Vec<u8>,
}

/// The longest sheets of this edition.
pub fn longest(edition: Edition) -> Vec<Sheet> {
    sheets(edition, edition)
}

/// The sheets of edition 2 that are the longest in edition 1.
pub fn longest_in_edition_1() -> Vec<Sheet> {
    sheets(Edition::Two, Edition::One)
}

/// Sheets of one edition, as long as they can be in another.
fn sheets(edition: Edition, filled: Edition) -> Vec<Sheet> {
    let sheet = |name, header: [u8; 3], records: Vec<Record>| {
        let bytes = in_edition(edition, header, &records);
        Sheet { name, bytes }
    };
    let largest = [16, 4, 64];
    vec![
        sheet("retires and collects, hall 16 4 64", largest, retires_and_collects(filled)),
        sheet("takes, drops and repeats, hall 16 4 64", largest, takes_drops_repeats(filled)),
        sheet("collects alone, hall 1 1 1", [1, 1, 1], collects_alone(filled)),
        sheet("steps refused with 6 to 14, hall 16 4 64", largest, refused(filled)),
    ]
}

/// Every screen shows a session; all desks in turn replace one, retire it and
/// collect three times.
fn retires_and_collects(filled: Edition) -> Vec<Record> {
    let mut records = Vec::new();
    for position in 1..=64 {
        records.push(vec![3, 1, position, position]);
    }
    for desk in 1..=16 {
        records.extend((1..=4).map(|screen| vec![1, desk, screen, 4 * (desk - 1) + screen]));
    }
    let turn = |turn: usize| {
        let (desk, position) = ((turn % 16) as u8 + 1, (turn * 7 % 64) as u8 + 1);
        let swap = vec![3, desk, position, 0x80 | (turn % 128) as u8, 0x01];
        [swap, vec![4, desk], vec![5, desk], vec![5, desk], vec![5, desk]]
    };
    fill(filled, records, (0..).flat_map(turn))
}

/// A position is swapped from none to none: that is a repeat, and owes nothing.
fn takes_drops_repeats(filled: Edition) -> Vec<Record> {
    let turn = |turn: usize| {
        let (desk, screen) = ((turn % 16) as u8 + 1, (turn / 16 % 4) as u8 + 1);
        [vec![1, desk, screen, 1], vec![2, desk, screen], vec![3, desk, 64, 0]]
    };
    fill(filled, vec![vec![3, 1, 1, 0xAC, 0x02]], (0..).flat_map(turn))
}

fn collects_alone(filled: Edition) -> Vec<Record> {
    fill(filled, Vec::new(), std::iter::repeat(vec![5, 1]))
}

/// Desk 1 has a full list and owes one more; position 2 is empty.
fn refused(filled: Edition) -> Vec<Record> {
    let mut records = vec![vec![3, 1, 1, 5]];
    for turn in 0..128 {
        records.extend([vec![3, 1, 1, 6 + turn % 2], vec![4, 1]]);
    }
    records.extend([vec![3, 1, 1, 8], vec![1, 1, 1, 1]]);
    let refused = [
        vec![1, 17, 1, 1],
        vec![1, 1, 5, 1],
        vec![3, 1, 65, 9],
        vec![1, 1, 1, 1],
        vec![1, 1, 2, 2],
        vec![2, 1, 2],
        vec![3, 1, 1, 9],
        vec![4, 2],
        vec![4, 1],
    ];
    fill(filled, records, refused.into_iter().cycle())
}

/// Records up to the longest sheet of this edition. Collects of desk 1 take up
/// what is left, after a drop if that is odd in edition 1.
fn fill(
    edition: Edition,
    mut records: Vec<Record>,
    mut more: impl Iterator<Item = Record>,
) -> Vec<Record> {
    let header = edition.first_bytes().len() + 3;
    let mut bytes = header + length(edition, None, &records);
    let mut push = |record: Record, bytes: &mut usize| {
        *bytes += length(edition, records.last().map(|before| before[1]), &[record.clone()]);
        records.push(record);
    };
    while BYTES - bytes > MAX_RECORD + 3 {
        let record = more.next().expect("records without end");
        assert!(record.len() <= MAX_RECORD);
        push(record, &mut bytes);
    }
    if edition == Edition::One && bytes % 2 != BYTES % 2 {
        push(vec![2, 1, 1], &mut bytes);
    }
    while bytes < BYTES {
        push(vec![5, 1], &mut bytes);
    }
    assert_eq!(bytes, BYTES);
    records
}
