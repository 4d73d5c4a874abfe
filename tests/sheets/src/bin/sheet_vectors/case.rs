//! The cases of a file of published sheets, and what a program must write.

use crate::vector_bytes::bytes;

/// A sheet for a program, and what the program must write.
#[derive(Debug)]
pub struct Case {
    /// The file and the line where it begins.
    pub place: String,
    pub program: String,
    pub sheet: Vec<u8>,
    output: Output,
}

#[derive(Debug)]
enum Output {
    /// Not given yet.
    None,
    Lines(Lines),
    /// A sheet.
    Bytes(Vec<u8>),
}

/// Lines of text, each with its newline.
#[derive(Debug, Default)]
struct Lines {
    above: Vec<String>,
    /// The lines below `...`, if there is one.
    below: Option<Vec<String>>,
}

/// The cases of a file.
pub fn cases(file: &str, text: &str) -> Result<Vec<Case>, String> {
    let mut cases = Vec::new();
    for (number, line) in (1..).zip(text.lines()) {
        let place = format!("{file}:{number}");
        add_line(&mut cases, &place, line).map_err(|fault| format!("{place}: {fault}"))?;
    }
    match cases.iter().find(|case| case.output.is_missing()) {
        Some(case) => Err(format!("{}: {}: no output to compare", case.place, case.program)),
        None if cases.is_empty() => Err(format!("{file}: no cases")),
        None => Ok(cases),
    }
}

/// Adds the cases of a later file, which replace those of earlier files with the
/// same sheet for the same program: a later job may change what comes out.
pub fn add_later(cases: &mut Vec<Case>, later: Vec<Case>) {
    let is_replaced = |case: &Case| later.iter().any(|other| other.has_sheet_of(case));
    cases.retain(|case| !is_replaced(case));
    cases.extend(later);
}

fn add_line(cases: &mut Vec<Case>, place: &str, line: &str) -> Result<(), String> {
    if line.is_empty() || line.starts_with('#') {
        return Ok(());
    }
    let last = cases.last_mut().ok_or(format!("'{line}': no program before it"));
    if let Some(text) = line.strip_prefix("> ") {
        last?.output.lines()?.add(format!("{text}\n"));
    } else if line == "..." {
        last?.output.lines()?.leave_out()?;
    } else if let Some(sheet) = line.strip_prefix("= ") {
        last?.output.set_bytes(bytes(sheet)?)?;
    } else {
        cases.push(Case::new(place, line)?);
    }
    Ok(())
}

impl Case {
    /// `day_sheet 010101050105`
    fn new(place: &str, line: &str) -> Result<Case, String> {
        let is_named = line.starts_with(|first: char| first.is_ascii_lowercase());
        let words: Vec<&str> = line.split(' ').collect();
        let (true, [program, sheet]) = (is_named, &words[..]) else {
            return Err(format!("'{line}': not a program and its sheet"));
        };
        Ok(Case {
            place: place.into(),
            program: program.to_string(),
            sheet: bytes(sheet)?,
            output: Output::None,
        })
    }

    fn has_sheet_of(&self, other: &Case) -> bool {
        self.program == other.program && self.sheet == other.sheet
    }

    /// The first difference of what a program wrote, if there is one.
    pub fn difference(&self, written: &[u8]) -> Option<String> {
        match &self.output {
            Output::None => unreachable!("a case without output is a fault of its file"),
            Output::Lines(lines) => lines.difference(written),
            Output::Bytes(sheet) => difference_in_bytes(sheet, written),
        }
    }
}

impl Output {
    /// Nothing to compare, or nothing above or below the lines that are left out.
    fn is_missing(&self) -> bool {
        match self {
            Output::None => true,
            Output::Lines(Lines { above, below }) => {
                above.is_empty() || below.as_ref().is_some_and(Vec::is_empty)
            }
            Output::Bytes(_) => false,
        }
    }

    /// The lines, to add one.
    fn lines(&mut self) -> Result<&mut Lines, String> {
        if let Output::None = self {
            *self = Output::Lines(Lines::default());
        }
        match self {
            Output::Lines(lines) => Ok(lines),
            _ => Err("lines after the bytes of a sheet".into()),
        }
    }

    fn set_bytes(&mut self, sheet: Vec<u8>) -> Result<(), String> {
        match self {
            Output::None => *self = Output::Bytes(sheet),
            Output::Lines(_) => return Err("the bytes of a sheet after lines".into()),
            Output::Bytes(_) => return Err("two sheets".into()),
        }
        Ok(())
    }
}

impl Lines {
    fn add(&mut self, line: String) {
        self.below.as_mut().unwrap_or(&mut self.above).push(line);
    }

    fn leave_out(&mut self) -> Result<(), String> {
        match self.below.replace(Vec::new()) {
            None => Ok(()),
            Some(_) => Err("lines are left out twice".into()),
        }
    }

    fn difference(&self, printed: &[u8]) -> Option<String> {
        let lines: Vec<&[u8]> = printed.split_inclusive(|&byte| byte == b'\n').collect();
        let below = self.below.as_deref().unwrap_or_default();
        first_difference(&self.above, &lines, 0)
            .or_else(|| self.wrong_count(lines.len()))
            .or_else(|| first_difference(below, &lines, lines.len() - below.len()))
    }

    /// Where lines are left out, there is at least one.
    fn wrong_count(&self, lines: usize) -> Option<String> {
        let (more, expected) = match &self.below {
            Some(below) => ("more than ", self.above.len() + below.len()),
            None => ("", self.above.len()),
        };
        let right = if self.below.is_some() { lines > expected } else { lines == expected };
        (!right).then(|| format!("expected {more}{expected} lines, printed {lines}"))
    }
}

/// The first of these lines that is not among the printed ones, from `start` on.
fn first_difference(expected: &[String], lines: &[&[u8]], start: usize) -> Option<String> {
    let mut numbered = (start..).zip(expected);
    let differs = |(at, line): &(usize, &String)| lines.get(*at) != Some(&line.as_bytes());
    let (at, line) = numbered.find(differs)?;
    let printed = lines.get(at).map_or("nothing".into(), |line| shown(line));
    Some(format!("line {}: expected {}, printed {printed}", at + 1, shown(line.as_bytes())))
}

fn shown(line: &[u8]) -> String {
    format!("'{}'", line.escape_ascii())
}

/// The first byte that differs, or how many there are.
fn difference_in_bytes(expected: &[u8], written: &[u8]) -> Option<String> {
    let mut pairs = expected.iter().zip(written).enumerate();
    match pairs.find(|(_, (expected, written))| expected != written) {
        Some((at, (byte, other))) => {
            Some(format!("byte {at}: expected {byte:02x}, written {other:02x}"))
        }
        None => (expected.len() != written.len())
            .then(|| format!("expected {} bytes, written {}", expected.len(), written.len())),
    }
}

#[cfg(test)]
mod tests {
    use super::*;

    const WHOLE: &str = "# A comment.\n\nday_sheet 0101*2.05\n> 0 0 0 0\n> 1 5 15 5\n> end 0 0 0\n";
    const LEFT_OUT: &str = "day_sheet -\n> a\n> b\n...\n> b\n> c\n";

    fn only(text: &str) -> Case {
        cases("file", text).expect("a case").pop().expect("a case")
    }

    fn fault(text: &str) -> String {
        cases("file", text).expect_err("a fault")
    }

    #[test]
    fn a_case() {
        let case = only(WHOLE);
        assert_eq!((case.place.as_str(), case.program.as_str()), ("file:3", "day_sheet"));
        assert_eq!(case.sheet, [1, 1, 1, 1, 5]);
    }

    #[test]
    fn all_lines_and_nothing_else() {
        let case = only(WHOLE);
        let agrees = |printed: &str| case.difference(printed.as_bytes()).is_none();
        assert!(agrees("0 0 0 0\n1 5 15 5\nend 0 0 0\n"));
        for other in [
            "",
            "\n",
            "0 0 0 0\n1 5 15 5\n",
            "0 0 0 0\nend 0 0 0\n",
            "0 0 0 0\n1 5 15 0\nend 0 0 0\n",
            "0 0 0 0\n1 5 15 5 \nend 0 0 0\n",
            "0 0 0 0\n1 5 15 5\r\nend 0 0 0\n",
            "0 0 0 0\n1 5 15 5\nend 0 0 0",
            "0 0 0 0\n1 5 15 5\nend 0 0 0\n\n",
            "0 0 0 0\n1 5 15 5\nend 0 0 0\nend 0 0 0\n",
            "\n0 0 0 0\n1 5 15 5\nend 0 0 0\n",
        ] {
            assert!(!agrees(other), "{other:?}");
        }
    }

    #[test]
    fn lines_above_and_below() {
        let case = only(LEFT_OUT);
        let agrees = |printed: &str| case.difference(printed.as_bytes()).is_none();
        assert!(agrees("a\nb\nx\nb\nc\n"));
        assert!(agrees("a\nb\nx\ny\nz\nb\nc\n"));
        for other in [
            "a\nb\nc\n",
            "a\nb\nb\nc\n",
            "a\nx\nx\nb\nc\n",
            "a\nb\nx\nx\nc\n",
            "a\nb\nx\nb\nc",
            "a\nb\nx\nb\nc\nd\n",
            "a\nb\nx\nxb\nc\n",
        ] {
            assert!(!agrees(other), "{other:?}");
        }
    }

    #[test]
    fn the_first_difference() {
        let case = only(WHOLE);
        let printed = b"0 0 0 0\n1 5 15 0\n";
        let expected = r"line 2: expected '1 5 15 5\n', printed '1 5 15 0\n'";
        assert_eq!(case.difference(printed).as_deref(), Some(expected));
        let expected = "line 3: expected 'end 0 0 0\\n', printed nothing";
        assert_eq!(case.difference(b"0 0 0 0\n1 5 15 5\n").as_deref(), Some(expected));
        let longer = b"0 0 0 0\n1 5 15 5\nend 0 0 0\nend 0 0 0\n";
        let expected = "expected 3 lines, printed 4";
        assert_eq!(case.difference(longer).as_deref(), Some(expected));
    }

    #[test]
    fn the_bytes_of_a_sheet() {
        let case = only("shorten_sheet 8100.01*2\n= 01.01*2\n");
        assert_eq!(
            (case.program.as_str(), &case.sheet[..]),
            ("shorten_sheet", &[0x81, 0, 1, 1][..])
        );
        assert_eq!(case.difference(&[1, 1, 1]), None);
        let difference = |written: &[u8]| case.difference(written).expect("a difference");
        assert_eq!(difference(&[1, 1]), "expected 3 bytes, written 2");
        assert_eq!(difference(&[1, 1, 1, 5]), "expected 3 bytes, written 4");
        assert_eq!(difference(b"\x01\x01\x01\n"), "expected 3 bytes, written 4");
        assert_eq!(difference(&[]), "expected 3 bytes, written 0");
        assert_eq!(difference(&[0x81, 0, 1, 1]), "byte 0: expected 01, written 81");
        assert_eq!(difference(&[1, 1, 0xAC]), "byte 2: expected 01, written ac");
    }

    #[test]
    fn no_bytes_at_all() {
        let case = only("shorten_sheet -\n= -\n");
        assert_eq!(case.difference(&[]), None);
        assert!(case.difference(b"\n").is_some());
    }

    /// The line of a refusal is text; the same bytes in hex are no other case.
    #[test]
    fn a_line_in_place_of_a_sheet() {
        for text in ["shorten_sheet -\n> 15 0\n", "shorten_sheet -\n= 313520300a\n"] {
            let case = only(text);
            assert_eq!(case.difference(b"15 0\n"), None);
            for other in [&b"15 0"[..], b"15 0\n\n", b"15 1\n", b"15\n", b""] {
                assert!(case.difference(other).is_some(), "{other:?}");
            }
        }
    }

    /// The second file has one sheet of the first, written in other pieces, and
    /// one of its sheets for another program.
    #[test]
    fn a_later_file_replaces() {
        let mut all = Vec::new();
        add_later(&mut all, cases("1", "a 0101\n> old\nb 0101\n> x\na 02\n> x\n").expect("cases"));
        add_later(&mut all, cases("2", "a 01*2\n> new\nb 02\n> x\na 03\n> x\n").expect("cases"));
        let places: Vec<&str> = all.iter().map(|case| case.place.as_str()).collect();
        assert_eq!(places, ["1:3", "1:5", "2:1", "2:3", "2:5"]);
        assert_eq!(all[2].difference(b"new\n"), None);
    }

    /// A file may show a sheet twice, as it may show anything twice.
    #[test]
    fn a_file_replaces_nothing_of_its_own() {
        let mut all = Vec::new();
        add_later(&mut all, cases("1", "a 01\n> x\na 01\n> y\n").expect("cases"));
        assert_eq!(all.len(), 2);
    }

    #[test]
    fn faults_of_a_file() {
        assert_eq!(fault("# Nothing.\n\n"), "file: no cases");
        assert_eq!(fault("> 0 0 0 0\n"), "file:1: '> 0 0 0 0': no program before it");
        assert_eq!(fault("...\n"), "file:1: '...': no program before it");
        assert_eq!(fault("day_sheet 012\n> a\n"), "file:1: '012' is not bytes in hex");
        assert_eq!(
            fault("day_sheet -\nday_sheet -\n> a\n"),
            "file:1: day_sheet: no output to compare"
        );
        assert_eq!(fault("day_sheet -\n> a\n...\n"), "file:1: day_sheet: no output to compare");
        assert_eq!(fault("day_sheet -\n...\n> a\n"), "file:1: day_sheet: no output to compare");
        assert_eq!(fault("day_sheet -\n> a\n...\n...\n"), "file:4: lines are left out twice");
        assert_eq!(fault("= 01\n"), "file:1: '= 01': no program before it");
        assert_eq!(fault("a -\n= 0\n"), "file:2: '0' is not bytes in hex");
        assert_eq!(fault("a -\n= 01 02\n"), "file:2: '01 02' is not bytes in hex");
        assert_eq!(fault("a -\n= 01\n= 01\n"), "file:3: two sheets");
        assert_eq!(fault("a -\n> a\n= 01\n"), "file:3: the bytes of a sheet after lines");
        assert_eq!(fault("a -\n= 01\n> a\n"), "file:3: lines after the bytes of a sheet");
        assert_eq!(fault("a -\n= 01\n...\n"), "file:3: lines after the bytes of a sheet");
        for line in ["day_sheet", "day_sheet 01 02", "=01", ">b", " > b"] {
            let expected = format!("file:3: '{line}': not a program and its sheet");
            assert_eq!(fault(&format!("day_sheet -\n> a\n{line}\n")), expected);
        }
    }
}
