//! Lines of standard input, of any length and with a bounded part kept.

use std::io::{self, BufRead, ErrorKind};

/// Reads one line without its newline and tells whether there was one.
///
/// Only its first `kept_max` bytes are kept.
pub fn read_line(
    input: &mut impl BufRead,
    line: &mut Vec<u8>,
    kept_max: usize,
) -> io::Result<bool> {
    line.clear();
    let mut begun = false;
    loop {
        let available = match input.fill_buf() {
            Ok(bytes) => bytes,
            Err(error) if error.kind() == ErrorKind::Interrupted => continue,
            Err(error) => return Err(error),
        };
        if available.is_empty() {
            return Ok(begun);
        }
        begun = true;
        let newline = available.iter().position(|&byte| byte == b'\n');
        let part = &available[..newline.unwrap_or(available.len())];
        let room = kept_max - line.len();
        line.extend_from_slice(&part[..part.len().min(room)]);
        let used = part.len() + usize::from(newline.is_some());
        input.consume(used);
        if newline.is_some() {
            return Ok(true);
        }
    }
}

#[cfg(test)]
mod tests {
    use super::*;
    use std::io::BufReader;

    /// Gives all lines of an input, the same for each size of the input buffer.
    fn lines_of(input: &[u8], kept_max: usize) -> Vec<Vec<u8>> {
        let mut results = [1, 2, 3, 7, 65_536].map(|size| {
            let mut reader = BufReader::with_capacity(size, input);
            let (mut line, mut lines) = (Vec::new(), Vec::new());
            while read_line(&mut reader, &mut line, kept_max).unwrap() {
                lines.push(line.clone());
            }
            lines
        });
        results.sort();
        assert_eq!(results[0], results[4]);
        results[0].clone()
    }

    #[test]
    fn ends_of_input() {
        assert!(lines_of(b"", 5).is_empty());
        assert_eq!(lines_of(b"\n", 5), [b""]);
        assert_eq!(lines_of(b"\n\n", 5), [b"", b""]);
        assert_eq!(lines_of(b"a", 5), [b"a"]);
        assert_eq!(lines_of(b"a\n", 5), [b"a"]);
        assert_eq!(lines_of(b"a\n\nb", 5), [&b"a"[..], b"", b"b"]);
    }

    #[test]
    fn long_lines_are_cut() {
        assert_eq!(
            lines_of(b"12345\n123456\n1234567890\n1", 5),
            [&b"12345"[..], b"12345", b"12345", b"1"]
        );
    }
}
