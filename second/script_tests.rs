//! Tests of the script's lines: what is a request and what answers `?`.

use super::*;
use crate::bench::Bench;

/// Tests that a line has this answer on a bench that has seen no line.
fn expect(line: &[u8], text: &str) {
    let shown = String::from_utf8_lossy(line);
    assert_eq!(
        Bench::new().answer(line).as_deref(),
        Some(text),
        "line {shown:?}"
    );
}

/// Tests that each of these lines is no request.
fn expect_no_request(lines: &[&[u8]]) {
    for line in lines {
        expect(line, "?");
    }
}

/// Tests that a line is this request.
fn expect_request(line: &[u8], request: Request) {
    assert_eq!(read(line), Line::Request(request));
}

#[test]
fn requests() {
    let (signal, value, nad, length) = (65_535, u32::MAX, 255, u32::MAX);
    expect_request(b"write 65535 4294967295", Request::Write { signal, value });
    expect_request(b"send 255 4294967295", Request::Send { nad, length });
    expect_request(b"ahead 65535", Request::Ahead { frame: 65_535 });
    expect_request(b"select 65535", Request::Select { schedule: 65_535 });
    expect_request(b"buffer 512", Request::Buffer(512));
    expect_request(b"room 4096", Request::Room(4_096));
    expect_request(b"table 1 65535", Request::Table(vec![1, 65_535]));
}

#[test]
fn none_or_more_bytes() {
    let (signal, bytes) = (3, vec![10, 255]);
    expect_request(b"writes 3 0A FF", Request::WriteArray { signal, bytes });
    let bytes = vec![];
    expect_request(b"writes 3", Request::WriteArray { signal, bytes });
    expect_request(b"table", Request::Table(vec![]));
    expect_request(b"lend", Request::Lend(vec![]));
    expect_request(b"lend 01 02", Request::Lend(vec![1, 2]));
    expect_request(b"take", Request::Take(vec![]));
}

#[test]
fn rows() {
    let (signals, values) = (vec![3, 65_535], vec![0, u32::MAX]);
    let row = |signals: &[u16], values: &[u32]| Request::WriteRow {
        signals: signals.to_vec(),
        values: values.to_vec(),
    };
    expect_request(b"row 3 65535 : 0 4294967295", row(&signals, &values));
    expect_request(b"row 003 065535 : 00 04294967295", row(&signals, &values));
    expect_request(b"row 1 2 3 : 4", row(&[1, 2, 3], &[4]));
    expect_request(b"row 3 :", row(&[3], &[]));
    expect_request(b"row : 5", row(&[], &[5]));
    expect_request(b"row :", row(&[], &[]));
}

#[test]
fn lines_that_are_no_rows() {
    expect_no_request(&[
        b"row",
        b"row ",
        b"row 1",
        b"row 1 2",
        b"row : :",
        b"row 1 : 2 : 3",
        b"row 1 2 : : 3",
        b"row:",
        b"row 1: 2",
        b"row 1 :2",
        b"row 1:2",
        b"row 1 :: 2",
        b"row 1 ; 2",
        b"row  :",
        b"row : ",
        b"row  1 : 2",
        b"row 1  : 2",
        b"row 1 :  2",
        b"row 1 : 2 ",
        b" row 1 : 2",
        b"row 1 : 2\r",
        b"row 1\t: 2",
        b"row x : 2",
        b"row 1 : 0x2",
        b"row -1 : 2",
        b"row 1 : -2",
        b"row 65536 : 0",
        b"row 1 65536 : 0 0",
        b"row 1 : 4294967296",
        b"row 1 1 : 0 4294967296",
        b"ROW 1 : 2",
        b"Row 1 : 2",
        b"rows 1 : 2",
        b": 1",
    ]);
}

#[test]
fn judge_lines() {
    let judge = |tick, bit| Request::Judge { tick, bit };
    expect_request(b"judge 1736 100", judge(1_736, 100));
    expect_request(b"judge 0 4294967295", judge(0, u32::MAX));
    expect_request(b"judge 04294967295 000", judge(u32::MAX, 0));
    expect_no_request(&[
        b"judge",
        b"judge ",
        b"judge 1",
        b"judge 1 ",
        b"judge 1 2 ",
        b"judge 1 2 3",
        b"judge  1 2",
        b"judge 1  2",
        b" judge 1 2",
        b"judge 1 2\r",
        b"judge 1\t2",
        b"judge 1 -2",
        b"judge +1 2",
        b"judge 1 x",
        b"judge 1 : 2",
        b"judge 1 4294967296",
        b"judge 4294967296 1",
        b"judge 1 18446744073709551617",
        b"Judge 1 2",
        b"JUDGE 1 2",
        b"judges 1 2",
        b"judge1 2",
    ]);
}

#[test]
fn judge_lines_at_the_length_limit() {
    let mut line = b"judge ".to_vec();
    line.resize(LINE_LENGTH_MAX - 3, b'0');
    line.extend(b"1 1");
    assert_eq!(line.len(), LINE_LENGTH_MAX);
    expect(&line, "refused 1 0");
    line.insert(6, b'0');
    expect(&line, "?");
}

#[test]
fn rows_at_the_length_limit() {
    let mut line = b"row 000".to_vec();
    line.extend(b" 0".repeat(4_998));
    line.extend(b" :");
    line.extend(b" 0".repeat(4_997));
    line.extend(b"\r");
    assert_eq!(line.len(), LINE_LENGTH_MAX);
    expect(&line, "?");
    line.pop();
    line.extend(b"0");
    expect(&line, "refused 1 0");
    line.extend(b"0");
    expect(&line, "?");
}

#[test]
fn numbers_above_their_limits() {
    expect_no_request(&[
        b"buffer 513",
        b"buffer 4294967296",
        b"write 65536 0",
        b"write 0 4294967296",
        b"writes 65536 00",
        b"read 65536",
        b"reads 65536",
        b"select 65536",
        b"ahead 65536",
        b"send 256 1",
        b"send 1 4294967296",
        b"room 4097",
        b"pid 256",
        b"checksum 256 classic 00",
        b"table 65536",
    ]);
}

#[test]
fn wrong_numbers_of_fields() {
    expect_no_request(&[
        b"buffer",
        b"buffer 1 1",
        b"fresh 1",
        b"write",
        b"write 1",
        b"write 1 1 1",
        b"writes",
        b"read",
        b"read 1 1",
        b"reads",
        b"reads 1 1",
        b"select",
        b"select 1 1",
        b"tick 1",
        b"byte",
        b"byte 00 00",
        b"status 1",
        b"send",
        b"send 1",
        b"send 1 1 1",
        b"message 1",
        b"ahead",
        b"ahead 1 1",
        b"pending 1",
        b"frames 1",
        b"out 1",
        b"received 1",
        b"received none",
        b"room",
        b"room 1 1",
        b"taken 1",
    ]);
}

#[test]
fn wrong_fields() {
    expect_no_request(&[
        b"tick ",
        b" tick",
        b"tick\r",
        b"Tick",
        b"TICK",
        b"ticks",
        b"received ",
        b" received",
        b"received\r",
        b"Received",
        b"receive",
        b"fresh ",
        b"byte 0",
        b"byte 000",
        b"byte ff",
        b"byte 0x",
        b"lend ",
        b"lend 00 ",
        b"lend  00",
        b"lend 0",
        b"lend aa",
        b"take 1",
        b"take 00 00 00 00 00 00 00 0",
        b"writes 0 ",
        b"writes 0 0",
        b"write 0 ",
        b"write  0",
        b"write -1 0",
        b"write 0 0x1",
        b"send 1 -1",
        b"room +1",
        b"buffer 8.",
    ]);
}

#[test]
fn lent_messages_at_the_limit() {
    let mut line = b"lend".to_vec();
    line.extend(b" 00".repeat(4_096));
    expect(&line, "lent 4096");
    line.extend(b" 00");
    expect(&line, "?");
}

#[test]
fn tables() {
    expect(b"table 0 0 0 0 0", "accepted");
    expect(b"table 1 0 0 0 0 59 8 3", "accepted");
    expect(b"table 1 0 0 0 0 60 8 3", "refused 1 5");
    let right = "table 1 1 1 1 1 2 1 1 0 3 7 0 0 0 0 0 0 1 0 65535";
    expect(right.as_bytes(), "accepted");
    expect(right.replace("0 3 7", "0 3 8").as_bytes(), "refused 1 10");
    let cut = right.trim_end_matches(" 65535");
    expect(cut.as_bytes(), "refused 1 19");
}

#[test]
fn short_and_long_tables() {
    expect(b"table", "refused 1 0");
    expect(b"table 0", "refused 1 1");
    expect(b"table 61", "refused 1 0");
    expect(b"table 60 257", "refused 1 1");
    expect(b"table 0 0 0 0", "refused 1 4");
    expect(b"table 0 0 0 0 513", "refused 1 4");
    expect(b"table 0 0 0 0 512", "refused 1 5");
    expect(b"table 0 0 0 0 0 0", "refused 1 5");
}

#[test]
fn odd_words() {
    expect(b"table 00000 0 0 0 0", "accepted");
    expect(b"table 0 0 0 0 00000000000000000000000000000", "accepted");
    expect(b"table 65535", "refused 1 0");
    expect(b"table 000065535", "refused 1 0");
    expect_no_request(&[
        b"table ",
        b"table 1 ",
        b"table  0 0 0 0 0",
        b"table 0 0  0 0 0",
        b"table 0 0 0 0 0 ",
        b"table 0 0 0 0 0\r",
        b"table\t0 0 0 0 0",
        b" table",
        b"table 0 0 0 0 65536",
        b"table 61 65536",
        b"table 18446744073709551616 0 0 0 0",
        b"table x",
        b"table 0 0 0 0 x",
        b"table 61 x",
        b"table 0 0 0 0 0x0",
        b"table 0 0 0 0 FF",
        b"table +0 0 0 0 0",
        b"table 0 0 0 0 -0",
        b"table 0,0,0,0,0",
        b"table ..",
    ]);
}

#[test]
fn passed_over() {
    for line in [
        &b""[..],
        b"#",
        b"# pid 1",
        b"#\0\xFF\r",
        &[b'#'; LINE_LENGTH_MAX + 1],
    ] {
        assert_eq!(Bench::new().answer(line), None);
    }
}

#[test]
fn spaces_in_the_wrong_place() {
    expect_no_request(&[
        b" ",
        b" #",
        b" pid 1",
        b"pid 1 ",
        b"pid  1",
        b"pid\t1",
        b"pid 1\r",
        b"\r",
        b"id 80\r",
        b"id 80 ",
        b"checksum 5 classic ",
        b"checksum 5 classic  00",
        b"checksum 5 classic 00 ",
        b"checksum 5 classic 00\r",
        b"checksum  5 classic 00",
    ]);
}

#[test]
fn odd_numbers() {
    expect(b"pid 0005", "pid 85");
    expect(b"checksum 002 enhanced 00", "checksum BD");
    expect_no_request(&[
        b"pid",
        b"pid ",
        b"pid 18446744073709551616",
        b"pid 18446744073709551617",
        b"pid 99999999999999999999999999999999999999999",
        b"pid +1",
        b"pid -1",
        b"pid 1x",
        b"pid 0x1",
        b"pid 1 2",
        b"checksum  classic 00",
    ]);
}

#[test]
fn odd_pairs() {
    expect_no_request(&[
        b"id",
        b"id ",
        b"id 8",
        b"id 080",
        b"id c1",
        b"id Cg",
        b"id 80 80",
        b"id 8:",
        b"id @0",
        b"id G0",
        b"checksum 5 classic 0",
        b"checksum 5 classic 000",
        b"checksum 5 classic 00 0a",
        b"checksum 5 classic ..",
        b"checksum 64 classic 00 0a",
        b"checksum 5 classic 00 00 00 00 00 00 00 00 00 0",
    ]);
}

#[test]
fn odd_keywords() {
    expect_no_request(&[
        b"?",
        b"PID 1",
        b"Pid 1",
        b"pid1",
        b"checksum",
        b"checksum 5",
        b"checksum 5 ",
        b"checksum 5 Classic 00",
        b"checksum 5 both 00",
        b"checksum classic 00",
        b"tables",
        b"table0 0 0 0 0",
        b"Table 0 0 0 0 0",
        b"TABLE 0 0 0 0 0",
        b"\0",
        b"pid 1\0",
        b"\xFF\xFE",
        b"pid \xFF",
    ]);
}

#[test]
fn lines_at_the_length_limit() {
    let mut line = b"pid ".to_vec();
    line.resize(LINE_LENGTH_MAX - 1, b'0');
    line.push(b'5');
    expect(&line, "pid 85");
    line.insert(4, b'0');
    expect(&line, "?");
}

#[test]
fn tables_at_the_length_limit() {
    let mut line = b"table 00".to_vec();
    line.extend(b" 0".repeat((LINE_LENGTH_MAX - line.len()) / 2));
    assert_eq!(line.len(), LINE_LENGTH_MAX);
    expect(&line, "refused 1 5");
    line.insert(6, b'0');
    expect(&line, "?");
}
