//! Single lines: requests about the wire, damaged lines, odd lines and long ones.

use crate::draft::{with_bytes, Script};
use crate::random::Random;
use crate::rows::longest_rows;
use crate::settings_lines;

/// The most bytes of a line.
const LINE_LENGTH_MAX: usize = 20_000;

/// Bytes to be put into lines.
const BYTES: &[u8] = b"  0123456789ABCDEFGHabcdefgxyzTICK/:@`#?.,-+\r\t\x0b\0\x7f\x80\xFF";

/// Numbers at and around the limits of their places, and far above them.
pub const NUMBERS: [u128; 24] = [
    0,
    1,
    59,
    60,
    63,
    64,
    255,
    256,
    257,
    512,
    513,
    4_095,
    4_096,
    4_097,
    65_535,
    65_536,
    65_537,
    (1 << 32) - 1,
    1 << 32,
    (1 << 32) + 1,
    1 << 48,
    1 << 63,
    1 << 64,
    (1 << 64) + 1,
];

/// Requests with one number, `N` in its place, and the largest number that it takes.
const LIMITS: [(&str, u128); 22] = [
    ("table N", 65_535),
    ("table 0 0 0 N", 65_535),
    ("table 0 0 0 0 N", 65_535),
    ("buffer N", 512),
    ("write N 0", 65_535),
    ("write 0 N", (1 << 32) - 1),
    ("writes N 00", 65_535),
    ("row N : 0", 65_535),
    ("row 0 N :", 65_535),
    ("row 0 : N", (1 << 32) - 1),
    ("row : 0 N", (1 << 32) - 1),
    ("read N", 65_535),
    ("reads N", 65_535),
    ("select N", 65_535),
    ("send N 1", 255),
    ("send 1 N", (1 << 32) - 1),
    ("ahead N", 65_535),
    ("judge N 1", (1 << 32) - 1),
    ("judge 1 N", (1 << 32) - 1),
    ("pid N", 255),
    ("checksum N enhanced 00", 255),
    ("room N", 4_096),
];

/// Requests with their numbers at the limit, just above it and far above it.
pub fn limits(script: &mut Script) {
    for _ in 0..script.random.between(20, 60) {
        let (line, limit) = script.random.one_of(&LIMITS);
        let number = number_near(&mut script.random, limit);
        script.say(line.replace('N', &number));
    }
}

/// A number at a limit, just above it or far above it, sometimes with zeros before it.
pub fn number_near(random: &mut Random, limit: u128) -> String {
    let any = random.one_of(&NUMBERS);
    let power = 1_u128 << random.one_of(&[8, 16, 32, 48, 63, 64, 65, 96]);
    let numbers = [
        limit,
        limit,
        limit + 1,
        limit + 1,
        limit + 2,
        power,
        power + 1,
        any,
    ];
    let number = random.one_of(&numbers);
    let zeros = random.one_of(&[0, 0, 0, 1, 20, 40]);
    format!("{}{number}", "0".repeat(zeros))
}

/// Requests about identifiers and checksums.
pub fn wire(script: &mut Script) {
    for _ in 0..script.random.between(20, 100) {
        let line = wire_line(&mut script.random);
        script.say(line);
    }
    if script.random.once_in(4) {
        for number in 0..256 {
            script.say(format!("pid {number}"));
            script.say(format!("id {number:02X}"));
        }
    }
}

/// One request about identifiers or checksums.
fn wire_line(random: &mut Random) -> String {
    let identifier = match random.below(4) {
        0 => random.below(256),
        1 => random.one_of(&[0, 59, 60, 61, 62, 63, 64, 255]),
        _ => random.below(64),
    };
    match random.below(6) {
        0 => return format!("pid {identifier}"),
        1 => return format!("id {:02X}", random.byte()),
        _ => {}
    }
    let count = random.one_of(&[0, 1, 1, 2, 3, 4, 5, 6, 7, 8, 8, 9, 10, 12]);
    let mut data = random.bytes(count);
    for byte in &mut data {
        // bytes at the ends of the range come often, so that sums meet 255 and 256
        if random.once_in(3) {
            *byte = random.one_of(&[0x00, 0xFF, 0x01, 0xFE]);
        }
    }
    let model = random.one_of(&["classic", "enhanced"]);
    with_bytes(&format!("checksum {identifier} {model}"), &data)
}

/// A number for a place in a line, mostly small.
fn number(random: &mut Random) -> u128 {
    if random.once_in(4) {
        random.one_of(&NUMBERS)
    } else {
        random.below(12) as u128
    }
}

/// A line of any request but `table`, right apart from numbers above their limits.
fn any_line(random: &mut Random) -> String {
    let (one, two) = (number(random), number(random));
    let count = random.below(10);
    let bytes = with_bytes("", &random.bytes(count));
    match random.below(44) {
        0..=1 => format!("buffer {one}"),
        2 => "fresh".to_string(),
        3..=5 => format!("write {one} {two}"),
        6..=8 => format!("writes {one}{bytes}"),
        9..=10 => format!("read {one}"),
        11 => format!("reads {one}"),
        12 => format!("select {one}"),
        13 => format!("lend{bytes}"),
        14..=15 => format!("tick{}", random.one_of(&["", "", "", " "])),
        16..=17 => format!("byte {:02X}", random.byte()),
        18 => "status".to_string(),
        19..=20 => format!("send {one} {two}"),
        21 => "message".to_string(),
        22 => format!("ahead {one}"),
        23 => random
            .one_of(&[
                "pending", "frames", "out", "taken", "state", "assembly", "received", "received",
            ])
            .to_string(),
        24..=26 => wire_line(random),
        27 => format!("room {one}"),
        28..=34 => settings_lines::any_line(random),
        35..=36 => format!("row {one} : {two}"),
        37 => format!("row {one} {two} : {two} {one}"),
        38..=39 => format!("judge {one} {two}"),
        40 => random
            .one_of(&["row :", "row 0 :", "row : 0", "row 0 0 : 1 2"])
            .to_string(),
        _ => format!("take{bytes}"),
    }
}

/// A line for a table of few words, damaged.
fn damaged_table_line(random: &mut Random) -> Vec<u8> {
    let zeros = " 0".repeat(random.below(6));
    let line = random.one_of(&["table", "table 0 0 0 1 0 0 2 0 1", "table 1 0 0 0 0 2 1"]);
    let mut line = format!("{line}{zeros}").into_bytes();
    damage(random, &mut line);
    line
}

/// A line with one of its fields left out, changed or joined to the one before, or with one put in or added.
pub fn with_changed_field(random: &mut Random, line: &str, at: usize, field: &str) -> String {
    let mut fields: Vec<&str> = line.split(' ').collect();
    match random.below(5) {
        0 => {
            fields.remove(at);
        }
        1 => fields.insert(at, field),
        2 => fields[at] = field,
        3 => fields.push(field),
        _ => return fields[..at].join(" ") + &fields[at..].join(" "),
    }
    fields.join(" ")
}

/// Damages a line in one place.
pub fn damage(random: &mut Random, line: &mut Vec<u8>) {
    let at = random.below(line.len());
    let byte = random.one_of(BYTES);
    let space = line.iter().position(|&byte| byte == b' ');
    let digit = line.iter().rposition(u8::is_ascii_hexdigit);
    match random.below(15) {
        0..=2 => line[at] = byte,
        3..=4 => line.insert(at, byte),
        5..=6 => {
            line.remove(at);
        }
        7 => line[at] = line[at].to_ascii_uppercase(),
        8 => line[at] = line[at].to_ascii_lowercase(),
        9 if random.once_in(2) => line[space.unwrap_or(at)] = random.one_of(b"\t\r,;\0"),
        9 => line.insert(space.unwrap_or(at), b' '),
        10 => line.insert(0, b' '),
        11 => line.push(random.one_of(b"  \r\t\0")),
        12 => line.extend_from_slice(random.one_of(&[" 0", " 00", "0", "00", " x"]).as_bytes()),
        13 => line.make_ascii_uppercase(),
        _ => line[digit.unwrap_or(at)] = random.one_of(b"/:@G`gaf"),
    }
}

/// Adds a damaged line of any request.
pub fn damaged_line(script: &mut Script) {
    let mut line = any_line(&mut script.random).into_bytes();
    damage(&mut script.random, &mut line);
    script.say(line);
}

/// Lines of all requests, damaged and not, odd ones and now and then long ones.
pub fn any_lines(script: &mut Script) {
    for _ in 0..script.random.between(40, 200) {
        match script.random.below(12) {
            0 => {
                let line = odd_line(&mut script.random);
                script.say(line);
            }
            1..=4 => {
                let line = any_line(&mut script.random);
                script.say(line);
            }
            5 => {
                let line = damaged_table_line(&mut script.random);
                script.say(line);
            }
            _ => damaged_line(script),
        }
    }
}

/// A line at the edges of the format.
fn odd_line(random: &mut Random) -> Vec<u8> {
    let count = random.below(40);
    match random.below(8) {
        0 => Vec::new(),
        1 => b"#".to_vec(),
        2 => [b"# ".to_vec(), random.bytes(count)].concat(),
        3 => random.bytes(count),
        4 if random.once_in(2) => random.one_of(&[" #", " # tick", "\r#", "tick #"]).into(),
        4 => vec![random.one_of(b" \r\t\0\xFF?")],
        5 => [b"pid ".to_vec(), vec![b'0'; count], b"2".to_vec()].concat(),
        6 => [
            b"write 0 ".to_vec(),
            vec![b'0'; count],
            b"4294967296".to_vec(),
        ]
        .concat(),
        _ => [b"send 1 ".to_vec(), vec![b'9'; count + 1]].concat(),
    }
    .into_iter()
    .filter(|&byte| byte != b'\n')
    .collect()
}

/// Long lines, with short ones between them, and two at the largest length.
pub fn long_lines(script: &mut Script) {
    for length in [LINE_LENGTH_MAX, LINE_LENGTH_MAX + 1] {
        script.say(format!("pid {}5", "0".repeat(length - 5)));
    }
    longest_rows(script);
    for _ in 0..script.random.between(3, 8) {
        let line = long_line(&mut script.random);
        script.say(line);
        let short = any_line(&mut script.random);
        script.say(short);
    }
}

/// The head, the filling and the tail of lines that may be long.
const LONG_LINES: [(&[u8], &[u8], &[u8]); 19] = [
    (b"pid ", b"0", b"5"),
    (b"table 0 0 0 0 ", b"0", b"0"),
    (b"table 1 0 0 0 0 2 1 1", b" 0", b""),
    (b"table 00 0 0 0 0", b" 7", b""),
    (b"set received 0 ", b"0", b"5"),
    (b"checksum 5 classic", b" 00", b""),
    (b"writes 0", b" 5A", b""),
    (b"row", b" 0", b" :"),
    (b"row :", b" 7", b""),
    (b"row 0 : ", b"0", b"1"),
    (b"take 01 01", b" 00", b""),
    (b"lend", b" A5", b""),
    (b"write 0 ", b"0", b"1"),
    (b"judge 1 ", b"0", b"1"),
    (b"#", b"#", b""),
    (b"# ", b"tick ", b""),
    (b"tick", b" ", b""),
    (b"x", b"\xFF", b"\r"),
    (b" ", b"\0", b"tick"),
];

/// A line of about the largest length, or far longer.
fn long_line(random: &mut Random) -> Vec<u8> {
    let lengths = [
        LINE_LENGTH_MAX - 1,
        LINE_LENGTH_MAX,
        LINE_LENGTH_MAX,
        LINE_LENGTH_MAX + 1,
        LINE_LENGTH_MAX + 2,
        40_000,
        65_536,
        150_000,
    ];
    let length = random.one_of(&lengths);
    let (head, filling, tail) = random.one_of(&LONG_LINES);
    let mut line = head.to_vec();
    while line.len() + filling.len() + tail.len() <= length {
        line.extend_from_slice(filling);
    }
    line.extend_from_slice(tail);
    line
}

/// Messages lent of the largest length, one more and others.
pub fn lent_lengths(script: &mut Script) {
    for length in [0, 1, 4_095, 4_096, 4_097, 5_000] {
        let bytes = script.random.bytes(length);
        script.say_bytes("lend", &bytes);
        script.say("tick");
    }
}
