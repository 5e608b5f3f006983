//! The command line of a test, the program under test and the comparison of its output.

use std::io::{Read, Write};
use std::process::{exit, Child, Command, Stdio};
use std::sync::mpsc;
use std::thread;
use std::time::Duration;

/// The most seconds that the program under test may take for one input.
const SECONDS_MAX: u64 = 120;

/// The most characters shown of a line.
const SHOWN_MAX: usize = 200;

/// What the command line asks for: SEED COUNT PROGRAM [ARGUMENT ..] [--only N].
pub struct Options {
    /// The name of the test.
    pub test: &'static str,
    /// What one case of the test is called.
    case: &'static str,
    pub seed: u64,
    pub count: u64,
    /// The program under test and its arguments.
    pub program: Vec<String>,
    /// The only case to run.
    pub only: Option<u64>,
}

impl Options {
    /// Reads the command line.
    pub fn read(test: &'static str, case: &'static str) -> Options {
        let mut words: Vec<String> = std::env::args().skip(1).collect();
        let usage = || -> ! { fail(test, "usage: SEED COUNT PROGRAM [ARGUMENT ..] [--only N]") };
        let mut only = None;
        if let Some(at) = words.iter().position(|word| word == "--only") {
            let option: Vec<String> = words.drain(at..words.len().min(at + 2)).collect();
            only = option.get(1).and_then(|number| number.parse().ok());
            if only.is_none() {
                usage();
            }
        }
        let [seed, count, program @ ..] = words.as_slice() else {
            usage()
        };
        let (Ok(seed), Ok(count), false) = (seed.parse(), count.parse(), program.is_empty()) else {
            usage()
        };
        Options {
            test,
            case,
            seed,
            count,
            program: program.to_vec(),
            only,
        }
    }

    /// The numbers of the cases to run.
    pub fn cases(&self) -> std::ops::RangeInclusive<u64> {
        match self.only {
            Some(only) => only..=only,
            None => 1..=self.count,
        }
    }

    /// Prints the last line, to standard error where standard output has the case.
    pub fn tell_all_the_same(&self, answers: &str) {
        let (count, cases) = (self.cases().count(), self.test);
        let text = format!(
            "{count} {cases}, {answers}, all the same (seed {})",
            self.seed
        );
        match self.only {
            Some(_) => eprintln!("{text}"),
            None => println!("{text}"),
        }
    }

    /// Tells where the program under test differs, and ends the test.
    pub fn report(&self, case: u64, line: (usize, &[u8]), difference: &Difference) -> ! {
        let test = self.test;
        let (seed, noun) = (self.seed, self.case);
        eprintln!("{test}: seed {seed}, {noun} {case}, line {}", line.0);
        eprintln!("{test}: line      {}", shown(line.1));
        eprintln!(
            "{test}: expected  {}",
            shown_or_nothing(&difference.expected)
        );
        eprintln!("{test}: answered  {}", shown_or_nothing(&difference.given));
        if let Some(fault) = &difference.fault {
            eprintln!("{test}: {fault}");
        }
        let program = self.program.join(" ");
        let count = self.count;
        eprintln!("{test}: repeat with: {test} {seed} {count} {program} --only {case}");
        exit(1)
    }
}

/// Ends the test with a message.
pub fn fail(test: &str, message: &str) -> ! {
    eprintln!("{test}: {message}");
    exit(1)
}

/// What a program did with an input.
pub struct Outcome {
    output: Vec<u8>,
    /// How the program ended, where that is not status 0.
    fault: Option<String>,
}

/// Runs the program under test on an input.
pub fn run(options: &Options, input: Vec<u8>) -> Outcome {
    let mut child = Command::new(&options.program[0])
        .args(&options.program[1..])
        .stdin(Stdio::piped())
        .stdout(Stdio::piped())
        .spawn()
        .unwrap_or_else(|error| fail(options.test, &format!("{}: {error}", options.program[0])));
    let mut stdin = child.stdin.take().expect("a pipe");
    let mut stdout = child.stdout.take().expect("a pipe");
    // A program that ends early closes the pipe; its output and status tell the rest.
    thread::spawn(move || stdin.write_all(&input));
    let (sender, receiver) = mpsc::channel();
    thread::spawn(move || {
        let mut output = Vec::new();
        let read = stdout.read_to_end(&mut output);
        // Nobody receives it any more where the time is over.
        let _ = sender.send(read.map(|_| output));
    });
    match receiver.recv_timeout(Duration::from_secs(SECONDS_MAX)) {
        Ok(Ok(output)) => {
            let fault = ending_fault(&mut child);
            Outcome { output, fault }
        }
        _ => {
            // It may have ended by itself meanwhile.
            let _ = child.kill();
            Outcome {
                output: Vec::new(),
                fault: Some(format!("no end of output after {SECONDS_MAX} seconds")),
            }
        }
    }
}

/// Waits for the end of a program and tells where it is not status 0.
fn ending_fault(child: &mut Child) -> Option<String> {
    match child.wait() {
        Ok(status) if status.success() => None,
        Ok(status) => Some(format!("it ended with {status}")),
        Err(error) => Some(format!("{error}")),
    }
}

/// The first difference between the expected lines and an output.
pub struct Difference {
    /// The number of the answer, from 0.
    pub at: usize,
    expected: Option<Vec<u8>>,
    given: Option<Vec<u8>>,
    fault: Option<String>,
}

/// Compares an output with the expected text, whose lines all have their newline.
pub fn compare(expected: &[u8], outcome: Outcome) -> Option<Difference> {
    let Outcome { output, fault } = outcome;
    if output == expected && fault.is_none() {
        return None;
    }
    let mut expected_lines = expected.split_inclusive(|&byte| byte == b'\n');
    let mut given_lines = output.split_inclusive(|&byte| byte == b'\n');
    let mut at = 0;
    loop {
        let (expected, given) = (expected_lines.next(), given_lines.next());
        if expected != given || expected.is_none() {
            return Some(Difference {
                at,
                expected: expected.map(<[u8]>::to_vec),
                given: given.map(<[u8]>::to_vec),
                fault,
            });
        }
        at += 1;
    }
}

/// The start of a line for a person to read; the newline at its end is not shown.
fn shown(line: &[u8]) -> String {
    let line = line.strip_suffix(b"\n").unwrap_or(line);
    let kept = line.iter().take(SHOWN_MAX);
    let text: String = kept
        .flat_map(|&byte| std::ascii::escape_default(byte))
        .map(char::from)
        .collect();
    match line.len() {
        0..=SHOWN_MAX => text,
        length => format!("{text}.. ({length} bytes)"),
    }
}

/// The start of a line that may be missing.
fn shown_or_nothing(line: &Option<Vec<u8>>) -> String {
    match line {
        Some(line) if line.ends_with(b"\n") => shown(line),
        Some(line) => format!("{} (without a newline)", shown(line)),
        None => "(nothing)".to_string(),
    }
}
