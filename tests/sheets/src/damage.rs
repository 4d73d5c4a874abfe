//! Damage to the bytes of a sheet.

use crate::rng::Rng;

/// A prefix of the sheet.
pub fn cut(rng: &mut Rng, mut sheet: Vec<u8>) -> Vec<u8> {
    let length = rng.within(0, sheet.len());
    sheet.truncate(length);
    sheet
}

/// One to three damages.
pub fn damage(rng: &mut Rng, mut sheet: Vec<u8>) -> Vec<u8> {
    for _ in 0..rng.within(1, 3) {
        if !sheet.is_empty() {
            damage_once(rng, &mut sheet);
        }
    }
    sheet
}

fn damage_once(rng: &mut Rng, sheet: &mut Vec<u8>) {
    let at = rng.below(sheet.len());
    match rng.below(7) {
        0 => sheet[at] ^= 1 << rng.below(8),
        1 => sheet[at] |= 0x80,
        2 => sheet[at] = rng.word() as u8,
        3 => sheet[at] = rng.pick(&[0x00, 0x7F, 0x80, 0xFF]),
        4 => sheet.insert(at, rng.word() as u8),
        5 => drop(sheet.remove(at)),
        _ => {
            let again = sheet[at..].to_vec();
            sheet.extend(again);
        }
    }
}
