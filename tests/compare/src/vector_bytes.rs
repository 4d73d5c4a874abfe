//! Bytes as the vectors write them: hex pieces joined by dots.

/// A piece `HEX*n` stands n times; `-` is no bytes.
pub fn bytes(text: &str) -> Result<Vec<u8>, String> {
    let mut bytes = Vec::new();
    for piece in text.split('.').filter(|_| text != "-") {
        let (digits, times) = piece.split_once('*').unwrap_or((piece, "1"));
        let times: usize = times.parse().map_err(|error| format!("{piece}: {error}"))?;
        bytes.extend(from_hex(digits)?.repeat(times));
    }
    Ok(bytes)
}

fn from_hex(digits: &str) -> Result<Vec<u8>, String> {
    let all_hex = digits.bytes().all(|digit| digit.is_ascii_hexdigit());
    if digits.is_empty() || digits.len() % 2 != 0 || !all_hex {
        return Err(format!("'{digits}' is not bytes in hex"));
    }
    let byte = |at| u8::from_str_radix(&digits[at..at + 2], 16).expect("two digits in hex");
    Ok((0..digits.len()).step_by(2).map(byte).collect())
}
