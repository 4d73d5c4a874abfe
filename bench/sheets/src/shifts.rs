//! Shifts, and how many bytes each edition takes for them.

use crate::records::{in_edition, Edition, Record};

const HALL: [u8; 3] = [16, 4, 64];
const RECORDS: usize = 10_000;

/// The most records in a row that one desk has, in each of the shifts.
const LONGEST_ROWS: [usize; 4] = [1, 3, 7, 15];

pub fn print_lengths() {
    println!("bytes of a shift of {RECORDS} records, hall 16 4 64, a desk working for some records in a row");
    println!();
    println!("{:<44}{:>9}{:>11}{:>9}", "records in a row", "edition 1", "edition 2", "ratio");
    for most in LONGEST_ROWS {
        let records = shift(most);
        let [one, two] =
            [Edition::One, Edition::Two].map(|edition| in_edition(edition, HALL, &records).len());
        let name = format!("1 to {most}, on average {:.1}", (1 + most) as f64 / 2.0);
        println!("{name:<44}{one:>9}{two:>11}{:>9.2}", two as f64 / one as f64);
    }
}

/// Desks in rows of up to so many records. A desk swaps, retires and collects, or
/// takes and drops; sessions have two bytes.
fn shift(most: usize) -> Vec<Record> {
    let mut random = Random(1);
    let mut records = Vec::new();
    let mut desk_before = 0;
    while records.len() < RECORDS {
        let desk = (desk_before + random.below(15)) % 16 + 1;
        let row = 1 + random.below(most);
        records.extend((0..row).map(|_| any_record(&mut random, desk as u8)));
        desk_before = desk;
    }
    records.truncate(RECORDS);
    records
}

fn any_record(random: &mut Random, desk: u8) -> Record {
    let position = random.below(64) as u8 + 1;
    let screen = random.below(4) as u8 + 1;
    match random.below(7) {
        0 => vec![3, desk, position, 0x80 | random.below(128) as u8, 0x01],
        1 => vec![4, desk],
        2 | 3 | 4 => vec![5, desk],
        5 => vec![1, desk, screen, position],
        _ => vec![2, desk, screen],
    }
}

/// A linear congruential generator: the shifts are always the same.
struct Random(u64);

impl Random {
    fn below(&mut self, limit: usize) -> usize {
        self.0 =
            self.0.wrapping_mul(6_364_136_223_846_793_005).wrapping_add(1_442_695_040_888_963_407);
        (self.0 >> 33) as usize % limit
    }
}
