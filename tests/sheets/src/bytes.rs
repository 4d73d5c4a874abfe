//! Encodes the numbers of a sheet, and formats sheets in hex.

/// The largest number of three groups.
pub const MAX_IN_THREE: u32 = (1 << 21) - 1;

/// Appends a number: groups of seven bits, lowest first, at least `least_groups`.
pub fn put(sheet: &mut Vec<u8>, number: u32, least_groups: usize) {
    let mut rest = number;
    let mut groups = 1;
    while rest > 0x7F || groups < least_groups {
        sheet.push(rest as u8 | 0x80);
        rest >>= 7;
        groups += 1;
    }
    sheet.push(rest as u8);
}

/// `01*3 05 01`: bytes in hex, runs of three and more counted.
pub fn hex(sheet: &[u8]) -> String {
    let runs = sheet.chunk_by(|a, b| a == b);
    let parts: Vec<String> = runs
        .map(|run| match run.len() {
            1 => format!("{:02X}", run[0]),
            2 => format!("{0:02X} {0:02X}", run[0]),
            length => format!("{:02X}*{length}", run[0]),
        })
        .collect();
    parts.join(" ")
}

pub fn from_hex(text: &str) -> Result<Vec<u8>, String> {
    let mut sheet = Vec::new();
    for part in text.split_whitespace() {
        let (byte, times) = part.split_once('*').unwrap_or((part, "1"));
        let byte = u8::from_str_radix(byte, 16).map_err(|error| format!("{part}: {error}"))?;
        let times: usize = times.parse().map_err(|error| format!("{part}: {error}"))?;
        sheet.extend(vec![byte; times]);
    }
    Ok(sheet)
}
