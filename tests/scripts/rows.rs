//! Rows of values: right ones, some with a bad pair or of unequal length, and lines that are none.

use crate::draft::Script;
use crate::lines::{damage, with_changed_field};
use crate::random::Random;
use crate::runs::{select, slot};
use crate::table::{SignalKind, Table};
use crate::tables::{list_table, right_table, table_line, Size};
use crate::values::{missing_number, read_signal, value_beyond, value_inside};

/// A signal number and a value.
type Pair = (usize, u64);

/// Fields that make a row none, and some that do not.
const FIELDS: [&str; 16] = [
    "",
    ":",
    "::",
    ";",
    "0:",
    ":0",
    "x",
    "-1",
    "+1",
    "0x1",
    "0",
    "00",
    "65535",
    "65536",
    "4294967295",
    "4294967296",
];

/// Rows of all lengths on a table, with slots running, and lines that are no rows.
pub fn rows(script: &mut Script) {
    let sizes = [Size::Tiny, Size::Small, Size::Middle, Size::Limit];
    let size = script.random.one_of(&sizes);
    let table = if script.random.once_in(3) {
        list_table(&mut script.random)
    } else {
        right_table(&mut script.random, size)
    };
    let line = table_line(&mut script.random, &table.concat());
    script.say(line);
    script.say("fresh");
    select(script);
    for _ in 0..script.random.between(5, 25) {
        let count = any_count(&mut script.random);
        match script.random.below(8) {
            0 => malformed_row(script),
            1..=2 => slot(script),
            _ => write_row(script, count),
        }
    }
    script.say("frames");
    script.say("pending");
}

/// Writes a short row, once in sixteen times a longer one.
pub fn write_some(script: &mut Script) {
    let count = short_count(&mut script.random);
    write_row(script, count);
}

/// Writes a short row with one to three signals of a frame at any places of it.
pub fn write_frame(script: &mut Script, frame: usize) {
    let of_frame = scalars(script, |table, number| {
        let mut placements = table.placements_of(number);
        placements.any(|placement| placement.frame == frame)
    });
    let count = short_count(&mut script.random);
    let mut pairs = right_pairs(script, count);
    if !of_frame.is_empty() {
        for _ in 0..script.random.between(1, 3) {
            let pair = right_pair(script, &of_frame);
            let place = script.random.between(0, pairs.len());
            pairs.insert(place, pair);
        }
    }
    write_pairs(script, pairs);
}

/// A number of pairs, mostly small.
fn short_count(random: &mut Random) -> usize {
    if random.once_in(16) {
        any_count(random)
    } else {
        random.one_of(&[0, 1, 1, 2, 2, 3, 4, 5, 6])
    }
}

/// A number of pairs from 0 to 300.
fn any_count(random: &mut Random) -> usize {
    match random.below(8) {
        0..=4 => random.between(0, 8),
        5..=6 => random.between(9, 60),
        _ if random.once_in(3) => random.one_of(&[255, 256, 257, 299, 300]),
        _ => random.between(61, 300),
    }
}

/// Writes a row of this many pairs, mostly of right ones.
fn write_row(script: &mut Script, count: usize) {
    let pairs = right_pairs(script, count);
    write_pairs(script, pairs);
}

/// Right pairs of any signals, in half of the cases of three signals or fewer; none where the
/// table has no published scalar.
fn right_pairs(script: &mut Script, count: usize) -> Vec<Pair> {
    let mut signals = scalars(script, |_, _| true);
    if signals.is_empty() {
        return Vec::new();
    }
    script.random.shuffle(&mut signals);
    if script.random.once_in(2) {
        signals.truncate(script.random.between(1, 3));
    }
    let pairs = (0..count).map(|_| right_pair(script, &signals));
    pairs.collect()
}

/// A right pair of one of these signals, given by their numbers and widths.
fn right_pair(script: &mut Script, signals: &[(usize, usize)]) -> Pair {
    let (number, width) = script.random.one_of(signals);
    (number, value_inside(script, width))
}

/// The numbers and widths of the published scalars of which this holds.
fn scalars(script: &Script, holds: impl Fn(&Table, usize) -> bool) -> Vec<(usize, usize)> {
    numbers(script, |table, number| {
        is_published(table, number, SignalKind::Scalar) && holds(table, number)
    })
}

/// The numbers and widths of the signals of which this holds.
fn numbers(script: &Script, holds: impl Fn(&Table, usize) -> bool) -> Vec<(usize, usize)> {
    let Some(table) = script.table() else {
        return Vec::new();
    };
    let signals = table.signals.iter().enumerate();
    let found = signals.filter(|&(number, _)| holds(table, number));
    found
        .map(|(number, signal)| (number, signal.width))
        .collect()
}

/// Tells whether a signal is of this kind and the master publishes it.
fn is_published(table: &Table, number: usize, kind: SignalKind) -> bool {
    table.signals[number].kind == kind && table.publishes(number)
}

/// Writes these pairs, in some cases with bad ones among them or as rows of unequal length.
fn write_pairs(script: &mut Script, mut pairs: Vec<Pair>) {
    if script.random.once_in(5) {
        put_bad_pairs(script, &mut pairs);
    }
    let (mut signals, mut values): (Vec<usize>, Vec<u64>) = pairs.into_iter().unzip();
    if script.random.once_in(16) {
        make_unequal(&mut script.random, &mut signals, &mut values);
    }
    let line = row_line(&mut script.random, &signals, &values);
    let answer = script.say(line);
    look(script, &answer, &signals);
}

/// Puts a bad pair in the place of any pair, often of the first or the last; once in three times
/// two or three, so that a later one may have a lower number.
fn put_bad_pairs(script: &mut Script, pairs: &mut Vec<Pair>) {
    if pairs.is_empty() {
        pairs.push((0, 0));
    }
    for _ in 0..script.random.one_of(&[1, 1, 1, 1, 2, 3]) {
        let last = pairs.len() - 1;
        let any = script.random.between(0, last);
        let place = script.random.one_of(&[0, last, any, any]);
        pairs[place] = bad_pair(script);
    }
}

/// A pair that is refused with 4, 5, 6 or 7, in some cases for two reasons.
fn bad_pair(script: &mut Script) -> Pair {
    let refusal = script.random.one_of(&[4, 5, 6, 7]);
    let signals = match refusal {
        4 => Vec::new(),
        5 => numbers(script, |table, number| !table.publishes(number)),
        6 => numbers(script, |table, number| {
            is_published(table, number, SignalKind::Array)
        }),
        _ => scalars(script, |_, _| true),
    };
    if signals.is_empty() {
        let value = script.random.one_of(&[0, 1, u64::from(u32::MAX)]);
        return (missing_number(script), value);
    }
    let (number, width) = script.random.one_of(&signals);
    if refusal == 7 || script.random.once_in(3) {
        return (number, value_beyond(script, width.min(16)));
    }
    (number, 0)
}

/// Makes one of two rows shorter or longer than the other.
fn make_unequal(random: &mut Random, signals: &mut Vec<usize>, values: &mut Vec<u64>) {
    let kept = random.below(signals.len() + 1);
    match random.below(8) {
        0..=1 => values.push(0),
        2..=3 => signals.push(0),
        4 => values.clear(),
        5 => signals.clear(),
        6 => values.truncate(kept),
        _ => signals.truncate(kept),
    }
}

/// The line for a row, once in sixteen times with zeros before its numbers.
fn row_line(random: &mut Random, signals: &[usize], values: &[u64]) -> String {
    let digits = match random.below(16) {
        0 => random.between(2, 12),
        _ => 1,
    };
    let mut line = "row".to_string();
    for number in signals {
        line.push_str(&format!(" {number:0digits$}"));
    }
    line.push_str(" :");
    for value in values {
        line.push_str(&format!(" {value:0digits$}"));
    }
    line
}

/// Looks at what a row may have changed, nearly always after a refused one.
fn look(script: &mut Script, answer: &str, signals: &[usize]) {
    let refused = answer.starts_with("refused");
    if refused || script.random.once_in(3) {
        script.say("pending");
    }
    let many = script.frame_count() > 8;
    if script.random.once_in(if many { 8 } else { 2 }) {
        script.say("frames");
    }
    if refused && script.random.once_in(2) {
        script.say("state");
    }
    if !signals.is_empty() && script.random.once_in(2) {
        let number = script.random.one_of(signals);
        read_signal(script, number, 95);
    }
}

/// A row with one field changed, now and then damaged further; mostly it is none then.
pub fn malformed_row(script: &mut Script) {
    let count = script.random.below(5);
    let pairs = right_pairs(script, count);
    let (signals, values): (Vec<usize>, Vec<u64>) = pairs.into_iter().unzip();
    let row = row_line(&mut script.random, &signals, &values);
    let colon = signals.len() + 1;
    let mut line = changed_row(&mut script.random, &row, colon).into_bytes();
    if script.random.once_in(3) {
        damage(&mut script.random, &mut line);
    }
    script.say(line);
    look(script, "", &[]);
}

/// A row with a field changed, often at the colon.
fn changed_row(random: &mut Random, row: &str, colon: usize) -> String {
    let any = random.between(1, row.split(' ').count() - 1);
    let at = random.one_of(&[any, colon]);
    let field = random.one_of(&FIELDS);
    with_changed_field(random, row, at, field)
}

/// Rows of 4,997 pairs, the last one right or bad, that fill a line; and one byte more.
pub fn longest_rows(script: &mut Script) {
    let number = script.random.one_of(&[0, 1, 5]);
    let signals = format!(" {number}").repeat(4_997);
    let values = " 0".repeat(4_996);
    for last in [1, 65_536] {
        let line = format!("row{signals} :{values} {last:08}");
        script.say(line.clone());
        script.say(line + "0");
    }
    script.say("frames");
}
