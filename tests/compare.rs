//! Runs seeded random requests through two programs and compares their outputs byte by byte.
//!
//! Usage: compare SEED CHECKSUMS FIRST SECOND. The same seed gives the same requests: CHECKSUMS checksum requests, about
//! a fifth as many table requests, judge requests behind each of these, and the rest. Where the outputs differ it
//! prints the seed, the first request that is answered differently and both answers, and ends with status 1.

#[allow(dead_code)]
#[path = "scripts/damaged.rs"]
mod damaged;
#[allow(dead_code)]
#[path = "scripts/random.rs"]
mod random;
#[allow(dead_code)]
#[path = "scripts/signal_tables.rs"]
mod signal_tables;
#[allow(dead_code)]
#[path = "scripts/tables.rs"]
mod tables;
#[path = "scripts/times.rs"]
mod times;

use damaged::{damaged_table, hostile_words};
use random::Random;
use std::io::Write;
use std::process::{exit, Command, Stdio};
use tables::{right_table, slot_table, table_line, Sections, Size};
use times::{change_delays, judge_line, slots, Slot};

/// The most bytes of a request.
const LINE_LENGTH_MAX: usize = 20_000;

/// The number of checksum requests for each right table with its damaged ones.
const CHECKSUMS_PER_TABLE: usize = 25;

/// The number of damaged tables made from each right one.
const DAMAGED_PER_TABLE: usize = 4;

/// The number of judge requests behind a right table.
const JUDGED_RIGHT: usize = 5;

/// The number of judge requests behind a damaged table.
const JUDGED_DAMAGED: usize = 2;

/// Judge lines at the edges of the format, and at the limits of their numbers.
const ODD_JUDGE_LINES: [&str; 48] = [
    "judge", "judge ", "judge 1", "judge 1 ", "judge 1 2 ", "judge 1 2 3", "judge  1 2", "judge 1  2", " judge 1 2",
    "judge 1 -2", "judge -1 2", "judge +1 2", "judge 1 x", "judge x 1", "judge 0x1 2", "judge 1 A", "judge 1.0 2",
    "judge 1,2", "judge 1 : 2", "judge\t1 2", "judge 1\t2", "judge 1 2\r", "judge1 2", "judges 1 2", "judg 1 2",
    "Judge 1 2", "JUDGE 1 2", "judge 1 4294967296", "judge 4294967296 1", "judge 4294969032 4294967396",
    "judge 18446744073709551617 1", "judge 1 18446744073709551617", "judge 0 0", "judge 0 1", "judge 1 0", "judge 00 1",
    "judge 65536 1", "judge 1 65536", "judge 67272 65636", "judge 4294967295 1", "judge 1 4294967295",
    "judge 4294967295 4294967295", "judge 1 1", "judge 65535 65535", "judge 65535 1", "judge 1 65535",
    "judge 0000000000000000000001736 00000000000000000000100", "judge 1735 100",
];

/// A checksum request with 0 to 12 data bytes; three in four name an identifier below 64.
fn checksum_request(random: &mut Random) -> String {
    let id = if random.below(4) == 0 { random.below(256) } else { random.below(64) };
    let model = if random.below(2) == 0 { "classic" } else { "enhanced" };
    let mut line = format!("checksum {id} {model}");
    for _ in 0..random.below(13) {
        // bytes at the ends of the range come often, so that sums meet 255 and 256
        let byte = match random.below(8) {
            0 => 0x00,
            1 => 0xFF,
            2 => 0x01,
            _ => random.byte(),
        };
        line.push_str(&format!(" {byte:02X}"));
    }
    line
}

/// A request of any kind with one byte changed, put in or taken out.
fn damaged_request(random: &mut Random) -> Vec<u8> {
    let mut line = match random.below(4) {
        0 => format!("pid {}", random.below(300)),
        1 => format!("id {:02X}", random.byte()),
        2 => judge_line(random, &[]),
        _ => checksum_request(random),
    }
    .into_bytes();
    damage_byte(random, &mut line);
    line
}

/// Changes, puts in or takes out one byte of a line.
fn damage_byte(random: &mut Random, line: &mut Vec<u8>) {
    let at = random.below(line.len());
    let byte = *b" 0123456789ABCDEFabcdef#\r\t\0pidchecksum\xFF".get(random.below(40)).unwrap_or(&b'x');
    match random.below(3) {
        0 => line[at] = byte,
        1 => line.insert(at, byte),
        _ => {
            line.remove(at);
        }
    }
}

/// The size of a table: mostly small, a few at the limits.
fn table_size(random: &mut Random) -> Size {
    match random.below(64) {
        0 => Size::Limit,
        1..=3 => Size::Large,
        4..=15 => Size::Middle,
        16..=31 => Size::Tiny,
        _ => Size::Small,
    }
}

/// The request to check a table.
fn table_line_of(random: &mut Random, words: &[u16]) -> Vec<u8> {
    table_line(random, words).into_bytes()
}

/// A right table, in some cases without signals or with other delays.
fn table_to_judge(random: &mut Random) -> Sections {
    let size = table_size(random);
    let mut table = if random.once_in(4) { slot_table(random, size) } else { right_table(random, size) };
    if random.once_in(2) {
        change_delays(random, &mut table);
    }
    table
}

/// So many requests to judge the table, mostly with numbers that fill one of these slots or nearly do.
fn judge_requests(random: &mut Random, slots: &[Slot], count: usize) -> Vec<Vec<u8>> {
    (0..count).map(|_| judge_line(random, slots).into_bytes()).collect()
}

/// A right table, damaged ones made from it and now and then random words or a damaged line, the judge behind each.
fn table_requests(random: &mut Random) -> Vec<Vec<u8>> {
    let table = table_to_judge(random);
    let slots = slots(&table.concat());
    let mut lines = vec![table_line_of(random, &table.concat())];
    lines.extend(judge_requests(random, &slots, JUDGED_RIGHT));
    for _ in 0..DAMAGED_PER_TABLE {
        let damaged = damaged_table(random, &table);
        lines.push(table_line_of(random, &damaged.concat()));
        lines.extend(judge_requests(random, &slots, JUDGED_DAMAGED));
    }
    if random.once_in(16) {
        let words = hostile_words(random);
        lines.push(table_line_of(random, &words));
        lines.extend(judge_requests(random, &slots, JUDGED_DAMAGED));
    }
    if random.once_in(16) {
        let mut line = table_line_of(random, &table.concat());
        damage_byte(random, &mut line);
        lines.push(line);
        lines.extend(judge_requests(random, &slots, JUDGED_DAMAGED));
    }
    lines
}

/// A table line of this length: zeros, the first one twice where the length is even.
fn table_of_zeros(length: usize) -> Vec<u8> {
    let mut line = if length % 2 == 0 { b"table 00".to_vec() } else { b"table 0".to_vec() };
    while line.len() < length {
        line.extend_from_slice(b" 0");
    }
    line
}

/// Lines at the edges of the format: separators, letters, digits and lengths.
fn odd_lines() -> Vec<Vec<u8>> {
    let mut lines: Vec<Vec<u8>> = [
        "", "#", "# pid 1", " ", "pid", "pid ", " pid 1", "pid  1", "pid 1 ", "pid 256", "pid 0000000000000000000000001",
        "pid 18446744073709551617", "pid -1", "pid 1x", "id", "id ", "id 8", "id 080", "id c1", "id 80 ", "id 80 80",
        "checksum", "checksum 1", "checksum 1 classic", "checksum 1 classic ", "checksum 1 enhanced", "checksum 1 both 00",
        "checksum 1 classic 0", "checksum 1 classic 00 0a", "checksum 1 classic 00  00", "checksum 256 classic 00",
        "checksum 1 classic..", "checksum 1 classic00", "checksum 1 classicenhanced 00", "tock", "?", "pid 1\r", "\r",
        "table", "table ", " table", "table 1 ", "table 61", "table 65535", "table 65536", "table 61 65536", "table x",
        "table 61 x", "table 0", "table 0 0", "table 0 0 0", "table 0 0 0 0", "table 0 0 0 0 0", "table 0 0 0 0 0 ",
        "table 0 0 0 0 0 0", "table  0 0 0 0 0", "table 0 0  0 0 0", "table 00000 0 0 0 0", "table 0 0 0 0 0000000065536",
        "table 0 0 0 0 65537", "table 0 0 0 0 4294967296", "table 18446744073709551616 0 0 0 0", "table 0 0 0 0 -0",
        "table +0 0 0 0 0", "table 0 0 0 0 0\r", "table\t0 0 0 0 0", "table 0 0 0 0 0x0", "table 0 0 0 0 FF", "table ..",
        "table0 0 0 0 0", "tables", "Table 0 0 0 0 0", "table 60 256 60 256 512", "table 60 256 60 256 513",
        "table 60 256 60 257", "table 60 256 61", "table 60 257", "table 0 1 0 0 0", "table 0 1 0 0 0 0 1 0",
        "table 0 1 0 0 0 0 1 0 0", "table 0 0 0 0 1 0 0 0", "table 0 0 1 0 0 0 0",
    ]
    .iter()
    .map(|line| line.as_bytes().to_vec())
    .collect();
    for length in [LINE_LENGTH_MAX - 1, LINE_LENGTH_MAX, LINE_LENGTH_MAX + 1, 3 * LINE_LENGTH_MAX] {
        let mut number = b"pid ".to_vec();
        number.resize(length - 1, b'0');
        number.push(b'5');
        lines.push(number);
        let mut data = b"checksum 5 classic".to_vec();
        while data.len() + 3 <= length {
            data.extend_from_slice(b" 00");
        }
        lines.push(data);
        lines.push(table_of_zeros(length));
        lines.push([b"table 0 0 0 0 ".to_vec(), vec![b'0'; length - 14]].concat());
        lines.push(vec![b'#'; length]);
        lines.push(vec![b'x'; length]);
    }
    lines
}

/// Odd judge lines, and long ones; then the same on a table whose only slot has one tick for eight bytes.
fn odd_judge_lines() -> Vec<Vec<u8>> {
    let mut lines: Vec<Vec<u8>> = ODD_JUDGE_LINES.iter().map(|line| line.as_bytes().to_vec()).collect();
    for length in [LINE_LENGTH_MAX - 1, LINE_LENGTH_MAX, LINE_LENGTH_MAX + 1, 3 * LINE_LENGTH_MAX] {
        lines.push(format!("judge {}1736 100", "0".repeat(length - 14)).into_bytes());
        lines.push(format!("judge 1735 {}100", "0".repeat(length - 14)).into_bytes());
    }
    [lines.clone(), vec![b"table 0 0 0 1 0 0 2 0 1".to_vec()], lines].concat()
}

/// All requests: odd judge lines before any table, every identifier, every byte, odd lines, the checksums, damaged
/// lines and the tables; the last lacks its newline.
fn requests(seed: u64, checksums: usize) -> Vec<Vec<u8>> {
    let mut random = Random::of_case(seed, 0);
    let mut lines = odd_judge_lines();
    lines.extend((0..256).map(|n| format!("pid {n}").into_bytes()));
    lines.extend((0..256).map(|n| format!("id {n:02X}").into_bytes()));
    lines.extend(odd_lines());
    lines.extend(odd_judge_lines());
    for _ in 0..checksums {
        lines.push(checksum_request(&mut random).into_bytes());
        if random.below(16) == 0 {
            lines.push(damaged_request(&mut random));
        }
    }
    for _ in 0..checksums / CHECKSUMS_PER_TABLE {
        lines.extend(table_requests(&mut random));
    }
    lines.push(b"pid 1".to_vec());
    lines
}

/// What a program writes when it reads this input.
fn output_of(program: &str, input: &[u8]) -> Vec<u8> {
    let mut child = Command::new(program)
        .stdin(Stdio::piped())
        .stdout(Stdio::piped())
        .spawn()
        .unwrap_or_else(|error| fail(&format!("{program} does not start: {error}")));
    let mut stdin = child.stdin.take().unwrap();
    let input = input.to_vec();
    let writer = std::thread::spawn(move || stdin.write_all(&input));
    let output = child.wait_with_output().unwrap_or_else(|error| fail(&format!("{program}: {error}")));
    if writer.join().unwrap().is_err() || !output.status.success() {
        fail(&format!("{program} stopped early: {}", output.status));
    }
    output.stdout
}

fn fail(message: &str) -> ! {
    eprintln!("compare: {message}");
    exit(1)
}

/// The start of a line, for a person to read.
fn shown(line: Option<&[u8]>) -> String {
    match line {
        Some(line) => {
            let bytes = line.iter().take(LINE_LENGTH_MAX);
            bytes.flat_map(|&byte| std::ascii::escape_default(byte)).map(char::from).collect()
        }
        None => "(nothing)".to_string(),
    }
}

/// Prints the first request that two outputs answer differently.
fn report(seed: u64, lines: &[Vec<u8>], first: &[u8], second: &[u8]) -> ! {
    let mut asked = lines.iter().filter(|line| !line.is_empty() && line[0] != b'#');
    let mut firsts = first.split(|&byte| byte == b'\n');
    let mut seconds = second.split(|&byte| byte == b'\n');
    loop {
        let (line, one, two) = (asked.next(), firsts.next(), seconds.next());
        if one != two || one.is_none() {
            eprintln!("compare: seed {seed}, request {}", shown(line.map(Vec::as_slice)));
            eprintln!("compare: first  {}", shown(one));
            fail(&format!("second {}", shown(two)));
        }
    }
}

fn main() {
    let words: Vec<String> = std::env::args().collect();
    let [_, seed, checksums, first, second] = words.as_slice() else {
        fail("usage: compare SEED CHECKSUMS FIRST SECOND");
    };
    let (Ok(seed), Ok(checksums)) = (seed.parse::<u64>(), checksums.parse::<usize>()) else {
        fail("SEED and CHECKSUMS are numbers");
    };
    let lines = requests(seed, checksums);
    let input = lines.join(&b'\n');
    let (one, two) = (output_of(first, &input), output_of(second, &input));
    let answered = lines.iter().filter(|line| !line.is_empty() && line[0] != b'#').count();
    if one != two || one.iter().filter(|&&byte| byte == b'\n').count() != answered {
        report(seed, &lines, &one, &two);
    }
    println!("compare: seed {seed}: {} lines, {answered} answers, all the same", lines.len());
}
