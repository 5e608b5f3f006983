//! The log program, by "The log program" of document 01.

use crate::fields;
use crate::lines;
use crate::wire::{self, ChecksumModel};
use std::io::{self, BufRead, Write};

/// The first line of the report.
const HEADER: &str = "line id verdict";

/// The most hexadecimal pairs in a line: protected identifier, eight data bytes, checksum.
const PAIRS_MAX: usize = 10;

/// The bytes of the longest line that isn't text: its pairs and the spaces between them.
const LINE_LENGTH_MAX: usize = 3 * PAIRS_MAX - 1;

/// The verdict on a line, and the identifier where it is shown.
#[derive(Debug, Clone, Copy, PartialEq, Eq)]
enum Verdict {
    Text,
    Parity,
    Unknown(u8),
    Length(u8),
    Checksum(u8),
    Right(u8),
}

/// Reads a log and writes the report: the header, then a line for each line of the log.
pub fn report(mut input: impl BufRead, mut output: impl Write) -> io::Result<()> {
    writeln!(output, "{HEADER}")?;
    let mut line = Vec::new();
    let mut number: u64 = 0;
    while lines::read_line(&mut input, &mut line, LINE_LENGTH_MAX + 1)? {
        number += 1;
        writeln!(output, "{number} {}", shown(judge(&line)))?;
    }
    output.flush()
}

/// Gives the text of a verdict with the identifier before it.
fn shown(verdict: Verdict) -> String {
    match verdict {
        Verdict::Text => "-- text".to_string(),
        Verdict::Parity => "-- parity".to_string(),
        Verdict::Unknown(identifier) => format!("{identifier:02X} unknown"),
        Verdict::Length(identifier) => format!("{identifier:02X} length"),
        Verdict::Checksum(identifier) => format!("{identifier:02X} checksum"),
        Verdict::Right(identifier) => format!("{identifier:02X} ok"),
    }
}

/// Gives the first verdict that applies to a line.
///
/// A line above `LINE_LENGTH_MAX` may be cut short anywhere behind that length.
fn judge(line: &[u8]) -> Verdict {
    let Some(bytes) = frame_bytes(line) else {
        return Verdict::Text;
    };
    let Ok(identifier) = wire::frame_identifier(bytes[0]) else {
        return Verdict::Parity;
    };
    let Some((length, model)) = known_frame(identifier) else {
        return Verdict::Unknown(identifier);
    };
    if bytes.len() != 1 + length + 1 {
        return Verdict::Length(identifier);
    }
    let data = &bytes[1..1 + length];
    if wire::checksum(identifier, model, data) == Ok(bytes[1 + length]) {
        Verdict::Right(identifier)
    } else {
        Verdict::Checksum(identifier)
    }
}

/// Reads 1 to 10 hexadecimal pairs with one space between, or gives nothing.
fn frame_bytes(line: &[u8]) -> Option<Vec<u8>> {
    if line.len() > LINE_LENGTH_MAX {
        return None;
    }
    let pairs: Vec<&[u8]> = line.split(|&byte| byte == b' ').collect();
    fields::pairs(&pairs)
}

/// Gives the length and the checksum model of a frame of the built-in table or a diagnostic one.
fn known_frame(identifier: u8) -> Option<(usize, ChecksumModel)> {
    match identifier {
        2 => Some((1, ChecksumModel::Enhanced)),
        60 | 61 => Some((8, ChecksumModel::Classic)),
        _ => None,
    }
}

#[cfg(test)]
mod tests {
    use super::*;

    /// Gives the report on a log.
    fn report_of(input: &[u8]) -> String {
        let mut output = Vec::new();
        report(input, &mut output).unwrap();
        String::from_utf8(output).unwrap()
    }

    /// Tests that a line has this verdict, with its identifier.
    fn expect(line: &str, verdict: &str) {
        assert_eq!(shown(judge(line.as_bytes())), verdict, "line {line:?}");
    }

    #[test]
    fn the_log_of_the_paper() {
        let expected = "line id verdict\n1 02 ok\n2 02 checksum\n3 -- parity\n";
        assert_eq!(report_of(b"42 00 BD\n42 00 BC\n43 00 BD\n"), expected);
        assert_eq!(report_of(b"42 00 BD\n42 00 BC\n43 00 BD"), expected);
    }

    #[test]
    fn ends_of_input() {
        assert_eq!(report_of(b""), "line id verdict\n");
        assert_eq!(report_of(b"\n"), "line id verdict\n1 -- text\n");
        assert_eq!(
            report_of(b"42 00 BD\n\n"),
            "line id verdict\n1 02 ok\n2 -- text\n"
        );
    }

    #[test]
    fn texts() {
        for line in [
            "",
            " ",
            "4",
            "4 2",
            "42 ",
            " 42",
            "42  00 BD",
            "42 00 BD ",
            "42 00 BD\r",
            "42 00 bd",
            "4200BD",
            "42,00,BD",
            "42 0 BD",
            "42 00 BD 0",
            "42\t00\tBD",
            "G0",
            "-- 00",
            "\0",
        ] {
            expect(line, "-- text");
        }
        expect(&vec!["3C"; 11].join(" "), "-- text");
        expect(&vec!["43"; 11].join(" "), "-- text");
        expect(&"3C ".repeat(10), "-- text");
        assert_eq!(judge(b"42 00 \xFF\xFF"), Verdict::Text);
    }

    #[test]
    fn parities() {
        for line in [
            "43", "02", "C2 00 BD", "82 00 BD", "00", "BC 00", "FD", "3E", "3F",
        ] {
            expect(line, "-- parity");
        }
        expect(&vec!["43"; 10].join(" "), "-- parity");
    }

    #[test]
    fn unknown_identifiers() {
        expect("80", "00 unknown");
        expect("C1 00", "01 unknown");
        expect("03 00 FC", "03 unknown");
        expect("FE 00", "3E unknown");
        expect("BF 00", "3F unknown");
        expect(&vec!["80"; 10].join(" "), "00 unknown");
    }

    #[test]
    fn lengths() {
        for count in (1..=10).filter(|&count| count != 3) {
            expect(&vec!["42"; count].join(" "), "02 length");
        }
        for count in 1..=9 {
            expect(&vec!["3C"; count].join(" "), "3C length");
            expect(&vec!["7D"; count].join(" "), "3D length");
        }
    }

    #[test]
    fn checksums() {
        expect("42 00 FF", "02 checksum");
        expect("42 BD 00", "02 ok");
        expect("42 BD FF", "02 checksum");
        expect("3C 00 00 00 00 00 00 00 00 FF", "3C ok");
        expect("3C 00 00 00 00 00 00 00 00 00", "3C checksum");
        expect("3C 00 00 00 00 00 00 00 00 C3", "3C checksum");
        expect("7D 01 02 03 04 05 06 07 08 DB", "3D ok");
        expect("7D FF 00 00 00 00 00 00 00 00", "3D ok");
        expect("7D FF 00 00 00 00 00 00 00 FF", "3D checksum");
    }

    #[test]
    fn long_lines() {
        let mut log = b"42 00 BD".to_vec();
        log.resize(200_000, b' ');
        log.extend(b"\n42 00 BD");
        assert_eq!(report_of(&log), "line id verdict\n1 -- text\n2 02 ok\n");
    }
}
