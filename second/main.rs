//! The second program: answers the bench script, or judges a log where its argument is `log`.

mod answers;
mod bench;
mod cluster;
mod diagnostic;
mod fields;
mod fits;
mod lines;
mod log;
mod master;
mod reassembler;
mod refusal;
mod script;
mod settings;
mod signals;
mod state;
mod table;
#[cfg(test)]
mod table_words;
mod timing;
mod transfer;
mod wire;

use bench::Bench;
use std::io::{self, BufRead, BufReader, BufWriter, Write};
use std::process::ExitCode;

/// The size of the input and the output buffer in bytes.
const BUFFER_SIZE: usize = 65_536;

/// The bytes kept of a script's line: one above the limit shows that a line is too long.
const KEPT_MAX: usize = script::LINE_LENGTH_MAX + 1;

fn main() -> ExitCode {
    let input = BufReader::with_capacity(BUFFER_SIZE, io::stdin().lock());
    let output = BufWriter::with_capacity(BUFFER_SIZE, io::stdout().lock());
    let arguments: Vec<String> = std::env::args().skip(1).collect();
    let arguments: Vec<&str> = arguments.iter().map(String::as_str).collect();
    let result = match arguments.as_slice() {
        [] => run_script(input, output),
        ["log"] => log::report(input, output),
        _ => Err(io::Error::other("usage: second [log]")),
    };
    match result {
        Ok(()) => ExitCode::SUCCESS,
        Err(error) => {
            eprintln!("second: {error}");
            ExitCode::FAILURE
        }
    }
}

/// Answers every line of a script.
fn run_script(mut input: impl BufRead, mut output: impl Write) -> io::Result<()> {
    let mut bench = Bench::new();
    let mut line = Vec::with_capacity(KEPT_MAX);
    while lines::read_line(&mut input, &mut line, KEPT_MAX)? {
        if let Some(text) = bench.answer(&line) {
            writeln!(output, "{text}")?;
        }
    }
    output.flush()
}

#[cfg(test)]
mod tests {
    use super::*;

    /// Gives the whole output for a script, the same for each size of the input buffer.
    fn output_of(input: &[u8]) -> String {
        let mut outputs = [1, 2, 3, 7, 65_536].map(|size| {
            let mut output = Vec::new();
            run_script(BufReader::with_capacity(size, input), &mut output).unwrap();
            String::from_utf8(output).unwrap()
        });
        outputs.sort();
        assert_eq!(outputs[0], outputs[4]);
        outputs[0].clone()
    }

    #[test]
    fn ends_of_input() {
        assert_eq!(output_of(b""), "");
        assert_eq!(output_of(b"\n"), "");
        assert_eq!(output_of(b"\n\n"), "");
        assert_eq!(output_of(b"#"), "");
        assert_eq!(output_of(b"pid 0"), "pid 80\n");
        assert_eq!(output_of(b"pid 0\n"), "pid 80\n");
        assert_eq!(output_of(b"pid 0\n\n"), "pid 80\n");
        assert_eq!(output_of(b"\r\n"), "?\n");
    }

    #[test]
    fn several_lines() {
        let input = b"# comment\npid 0\n\nid 43\ntock\nchecksum 2 enhanced 00\n\0\xFF";
        assert_eq!(output_of(input), "pid 80\nrefused 11\n?\nchecksum BD\n?\n");
    }

    #[test]
    fn the_bench_is_kept_from_line_to_line() {
        let input = b"room 2\ntake 01 02 08 09 00 00 00 00\ntable 0 0 0 0 0\ntaken";
        assert_eq!(output_of(input), "room 2\ndone 2\naccepted\ntaken 08 09\n");
    }

    #[test]
    fn long_lines() {
        for length in [20_000, 20_001, 20_002, 70_000] {
            let mut input = b"pid ".to_vec();
            input.resize(length - 1, b'0');
            input.extend_from_slice(b"5\npid 1");
            let first = if length == 20_000 { "pid 85" } else { "?" };
            assert_eq!(output_of(&input), format!("{first}\npid C1\n"));
        }
    }

    #[test]
    fn long_comments() {
        let mut input = vec![b'#'; 70_000];
        assert_eq!(output_of(&input), "");
        input.extend_from_slice(b"\npid 1\n");
        assert_eq!(output_of(&input), "pid C1\n");
    }
}
