//! Runs seeded random logs through a log program and compares it with the second program's report.
//!
//! Usage: logs SEED COUNT LINLOG [ARGUMENT ..] [--only N]. The same seed gives the same logs. At
//! the first difference it prints what is needed to repeat it and ends with status 1. With --only
//! it runs log N alone and writes it to standard output.

#[path = "logs/entries.rs"]
mod entries;
#[path = "../second/fields.rs"]
#[allow(dead_code)]
mod fields;
#[path = "../second/lines.rs"]
mod lines;
#[path = "../second/log.rs"]
mod log;
#[path = "scripts/program.rs"]
mod program;
#[path = "scripts/random.rs"]
#[allow(dead_code)]
mod random;
#[path = "../second/refusal.rs"]
#[allow(dead_code)]
mod refusal;
#[path = "../second/wire.rs"]
mod wire;

use program::Options;
use random::Random;
use std::io::Write;

/// Sizes of buffers that a log program may have; lines are made to meet their ends.
const BORDERS: [usize; 8] = [64, 512, 1_024, 4_096, 8_192, 32_768, 65_536, 131_072];

fn main() {
    let options = Options::read("logs", "log");
    let mut judged = 0;
    for case in options.cases() {
        let log = any_log(&mut Random::of_case(options.seed, case));
        if options.only.is_some() {
            let written = std::io::stdout().write_all(&log);
            written.unwrap_or_else(|error| program::fail("logs", &error.to_string()));
        }
        let expected = expected_report(&log);
        let outcome = program::run(&options, log.clone());
        if let Some(difference) = program::compare(&expected, outcome) {
            // The report's first line is its header, so its line N stands for the log's line N - 1.
            let line = difference.at.checked_sub(1);
            let text = line.and_then(|line| log.split(|&byte| byte == b'\n').nth(line));
            options.report(case, (difference.at, text.unwrap_or(&[])), &difference);
        }
        judged += expected.iter().filter(|&&byte| byte == b'\n').count() - 1;
    }
    options.tell_all_the_same(&format!("{judged} lines"));
}

/// The report that the second program gives.
fn expected_report(log: &[u8]) -> Vec<u8> {
    let mut report = Vec::new();
    let written = log::report(log, &mut report);
    written.unwrap_or_else(|error| program::fail("logs", &error.to_string()));
    report
}

/// A log of any kind, in one of three cases without its last newline.
fn any_log(random: &mut Random) -> Vec<u8> {
    let mut log = match random.below(100) {
        0..=1 => Vec::new(),
        2..=4 => vec![b'\n'; random.between(1, 5)],
        5..=54 => {
            let count = random.between(1, 300);
            log_of_lines(random, count)
        }
        55..=79 => log_at_a_border(random),
        80..=95 => log_with_long_lines(random),
        96..=97 => log_of_short_lines(random),
        _ => log_of_size(random, 1_000_000),
    };
    if log.last() == Some(&b'\n') && random.once_in(3) {
        log.pop();
    }
    log
}

/// Adds a line and its newline.
fn add(log: &mut Vec<u8>, line: &[u8]) {
    log.extend_from_slice(line);
    log.push(b'\n');
}

/// A log of this many lines.
fn log_of_lines(random: &mut Random, count: usize) -> Vec<u8> {
    let mut log = Vec::new();
    for _ in 0..count {
        let line = entries::line(random);
        add(&mut log, &line);
    }
    log
}

/// A log of at least this many bytes.
fn log_of_size(random: &mut Random, size: usize) -> Vec<u8> {
    let mut log = Vec::new();
    while log.len() < size {
        let line = entries::line(random);
        add(&mut log, &line);
    }
    log
}

/// A log of more than 65,536 short lines.
fn log_of_short_lines(random: &mut Random) -> Vec<u8> {
    let mut log = Vec::new();
    for _ in 0..random.between(66_000, 140_000) {
        let line = random.one_of(&["", "42", "43", "80", "42 00 BD", "x"]);
        add(&mut log, line.as_bytes());
    }
    log
}

/// A log in which a line lies across the end of a buffer, at any place of the line.
fn log_at_a_border(random: &mut Random) -> Vec<u8> {
    let border = random.one_of(&BORDERS);
    let before = random.between(0, 33);
    let mut log = Vec::new();
    let begin = border - before;
    if random.once_in(2) {
        while log.len() + 40 < begin {
            let line = entries::line(random);
            add(&mut log, &line);
        }
        log.truncate(begin);
    }
    let rest = begin.saturating_sub(log.len() + 1);
    let filling = entries::long_line(random, rest);
    add(&mut log, &filling);
    for _ in 0..random.between(1, 40) {
        let line = match random.below(2) {
            0 => entries::right_line(random),
            _ => entries::line(random),
        };
        add(&mut log, &line);
    }
    log
}

/// A log with lines of all lengths up to 200,000 bytes between short ones.
fn log_with_long_lines(random: &mut Random) -> Vec<u8> {
    let mut log = Vec::new();
    for _ in 0..random.between(1, 6) {
        let (short, any) = (random.between(1, 6), random.between(33, 5_000));
        log.extend(log_of_lines(random, short));
        let border = random.between(65_530, 70_000);
        let length = random.one_of(&[any, any, any, any, border, border, 200_000]);
        let line = entries::long_line(random, length);
        add(&mut log, &line);
    }
    let short = random.between(0, 6);
    log.extend(log_of_lines(random, short));
    log
}
