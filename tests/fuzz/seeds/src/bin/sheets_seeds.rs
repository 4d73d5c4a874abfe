//! Writes sheets of tests/sheets as inputs of fuzz_sheets, one file each, the
//! fixed ones first:
//!
//!     sheets_seeds FOLDER COUNT

use reference::sheet::Format;
use reference::Limits;
use sheets::{fixed_sheets, sheet};
use std::path::Path;
use std::{env, fs};

/// What the programs read.
const READ: [(Format, Limits); 4] = [
    (Format::Archive, Limits::HALL),
    (Format::Edition1, Limits::HALL),
    (Format::Edition2, Limits::HALL),
    (Format::Edition1, Limits::TRAINING),
];

fn main() {
    let arguments: Vec<String> = env::args().collect();
    let [_, folder, count] = &arguments[..] else { panic!("sheets_seeds FOLDER COUNT") };
    let count: u64 = count.parse().expect("a count");
    let fixed = READ[1..].iter().flat_map(|&(format, limits)| fixed_sheets(format, limits));
    let made = (0..count).map(|number| {
        let (format, limits) = READ[number as usize % READ.len()];
        sheet(format, limits, 1, number)
    });
    for (number, sheet) in fixed.chain(made).enumerate() {
        let file = Path::new(folder).join(format!("sheet-{number:05}"));
        fs::write(file, sheet).expect("a file in the folder");
    }
}
