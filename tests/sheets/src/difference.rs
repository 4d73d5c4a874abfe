//! How the outputs of two programs differ, in words.

use crate::bytes::hex;
use crate::program::Output;

/// An output, and the name of what gave it.
pub type Named<'a> = (&'a str, &'a Output);

/// The first line in which a program's output differs from what is expected; the
/// last newline counts as one.
pub fn first_difference_in_lines(expected: Named, found: Named) -> Option<String> {
    first_difference(expected, found, |expected, found| {
        let expected: Vec<_> = expected.split(|&byte| byte == b'\n').collect();
        let found: Vec<_> = found.split(|&byte| byte == b'\n').collect();
        let at = equal_at_start(&expected, &found);
        let shown = [shown_line(expected.get(at)), shown_line(found.get(at))];
        (format!("line {}", at + 1), shown)
    })
}

/// The first byte in which a program's output differs from what is expected.
pub fn first_difference_in_bytes(expected: Named, found: Named) -> Option<String> {
    first_difference(expected, found, |expected, found| {
        let at = equal_at_start(expected, found);
        (format!("byte {at}"), [shown_bytes(expected, at), shown_bytes(found, at)])
    })
}

/// A program that fails is never right.
fn first_difference(
    (expected_name, expected): Named,
    (name, found): Named,
    explain: impl Fn(&[u8], &[u8]) -> (String, [String; 2]),
) -> Option<String> {
    match (expected, found) {
        (Ok(expected), Ok(found)) if expected == found => None,
        (Ok(expected), Ok(found)) => {
            let (place, [expected, found]) = explain(expected, found);
            Some(format!("{place}: {expected_name} {expected}, {name} {found}"))
        }
        _ => Some(format!("{expected_name}: {}; {name}: {}", ended(expected), ended(found))),
    }
}

fn equal_at_start<T: PartialEq>(one: &[T], other: &[T]) -> usize {
    one.iter().zip(other).take_while(|(one, other)| one == other).count()
}

fn shown_line(line: Option<&&[u8]>) -> String {
    match line {
        Some(line) => format!("'{}'", line.escape_ascii()),
        None => "has no such line".into(),
    }
}

/// The line of a refusal, which starts with a digit; or a few bytes of a sheet.
fn shown_bytes(output: &[u8], at: usize) -> String {
    match &output[at..] {
        _ if output.first().is_some_and(u8::is_ascii_digit) => shown_line(Some(&output)),
        [] => "has no such byte".into(),
        bytes => hex(&bytes[..bytes.len().min(8)]),
    }
}

fn ended(output: &Output) -> String {
    match output {
        Ok(written) => format!("{} bytes written", written.len()),
        Err(how) => how.clone(),
    }
}
