//! Lines that set a part of the state: at the limits of their numbers, and malformed ones.

use crate::draft::{with_bytes, Script};
use crate::lines::{number_near, NUMBERS};
use crate::random::Random;

/// Lines with one number, `N` in its place, and the largest number that it takes.
const LIMITS: [(&str, u128); 21] = [
    ("set wait N", 65_535),
    ("set entry N", 65_535),
    ("set request N", 65_535),
    ("set open frame N", 65_535),
    ("set count N", 255),
    ("set written N", 1),
    ("set message sending N 7 1", 255),
    ("set message sending 1 N 0", 65_535),
    ("set message sending 1 7 N", 65_535),
    ("set status N 0 0 00", 1),
    ("set status 0 N 0 42", 1),
    ("set status 0 0 N FF", 1),
    ("set pending N 1", 59),
    ("set pending 0 N", 1),
    ("set received N 0", 255),
    ("set received N none", 255),
    ("set received 0 N", 65_535),
    ("set assembly N 7 5 1", 255),
    ("set assembly 1 N 5 1", 65_535),
    ("set assembly 1 7 N 1", 65_535),
    ("set assembly 1 7 5 N", 255),
];

/// Lines that are right.
const LINES: [&str; 25] = [
    "set wait 1",
    "set entry 0",
    "set entry none",
    "set request 0",
    "set request none",
    "set open nothing",
    "set open frame 0",
    "set open request",
    "set open response",
    "set count 2",
    "set bytes 01 23 45 67 89 AB CD EF 0F",
    "set written 1",
    "set message none",
    "set message sending 1 7 1",
    "set message completed",
    "set message failed",
    "set status 1 1 1 A5",
    "set pending 3 1",
    "set received 0 1",
    "set received 2 none",
    "set assembly none",
    "set assembly 5 20 11 2",
    "received",
    "state",
    "assembly",
];

/// Lines with a word or a number in the place of another one, or too few or too many of them.
const ODD_LINES: [&str; 53] = [
    "set",
    "set ",
    "set none",
    "set wait none",
    "set wait nothing",
    "set wait",
    "set wait 1 1",
    "set entry nothing",
    "set entry",
    "set entry 1 none",
    "set request nothing",
    "set request request",
    "set open none",
    "set open 0",
    "set open",
    "set open frame",
    "set open frame none",
    "set open frame 0 0",
    "set open request 0",
    "set open nothing 0",
    "set count none",
    "set bytes 00",
    "set bytes 00 11 22 33 44 55 66 77",
    "set bytes 00 11 22 33 44 55 66 77 88 99",
    "set bytes 00 11 22 33 44 55 66 77 8a",
    "set bytes 001122334455667788",
    "set written none",
    "set written 1 1",
    "set written 10",
    "set message nothing",
    "set message sending",
    "set message sending 1 7",
    "set message sending 1 7 1 1",
    "set message failed 1",
    "set message complete",
    "set status 1 1 1",
    "set status 1 1 1 aB",
    "set status 1 1 1 0 0",
    "set status 7 00",
    "set pending 1",
    "set pending 1 none",
    "set received",
    "set received 1",
    "set received none",
    "set received none 1",
    "set received 1 nothing",
    "set received 1 never",
    "set received 1 2 3",
    "set received 1 none 3",
    "received 1",
    "set assembly nothing",
    "set assembly 5 20 11",
    "set assembly 5 20 11 2 2",
];

/// Fields to be put in the place of another one.
const FIELDS: [&str; 20] = [
    "",
    "none",
    "None",
    "0",
    "1",
    "2",
    "00",
    "0A",
    "0a",
    "AB",
    "ab",
    "x",
    "-1",
    "+1",
    "nothing",
    "frame",
    "sending",
    "completed",
    "set",
    "256",
];

/// Every line with its number at the limit, just above it, and near it or far above it.
pub fn limits(script: &mut Script) {
    for (line, limit) in LIMITS {
        let near = number_near(&mut script.random, limit);
        let mut numbers = [limit.to_string(), (limit + 1).to_string(), near];
        script.random.shuffle(&mut numbers);
        for number in numbers {
            script.say(line.replace('N', &number));
            look(script);
        }
    }
}

/// Every odd line, and right ones with one field too few, too many or of another kind.
pub fn malformed(script: &mut Script) {
    let mut odd_lines = ODD_LINES;
    script.random.shuffle(&mut odd_lines);
    for odd in odd_lines {
        script.say(odd);
        look(script);
        let line = script.random.one_of(&LINES);
        let line = malformed_line(&mut script.random, line);
        script.say(line);
        look(script);
    }
}

/// Looks at what a line may have set.
fn look(script: &mut Script) {
    let shows = [
        "state", "state", "assembly", "pending", "received", "message", "tick",
    ];
    let line = script.random.one_of(&shows);
    script.say(line);
}

/// A line with one field left out, put in or changed, or as it was.
fn malformed_line(random: &mut Random, line: &str) -> String {
    let mut fields: Vec<&str> = line.split(' ').collect();
    let at = random.between(1, fields.len());
    let field = random.one_of(&FIELDS);
    let present = at < fields.len();
    match random.below(8) {
        0 if present => {
            fields.remove(at);
        }
        1 => fields.insert(at, field),
        2 => fields.push(field),
        3 | 4 if present => fields[at] = field,
        5 if present => return line.replace(fields[at], &fields[at].to_lowercase()),
        6 if present => return line.replace(fields[at], &fields[at].to_uppercase()),
        7 => fields.truncate(at),
        _ => {}
    }
    fields.join(" ")
}

/// A right line that sets anything, with any numbers.
pub fn any_line(random: &mut Random) -> String {
    let (line, _) = random.one_of(&LIMITS);
    let any = random.one_of(&NUMBERS);
    let number = random.one_of(&[0, 0, 1, 1, 2, 5, any]);
    let bytes = random.bytes(9);
    match random.below(6) {
        0 => random.one_of(&LINES).to_string(),
        1 => with_bytes("set bytes", &bytes),
        _ => line.replace('N', &number.to_string()),
    }
}
