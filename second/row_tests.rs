//! Tests of rows of values by dialogues: their effect, their refusals, and rows in flight.

use crate::bench::tests::{play, play_on};
use crate::bench::Bench;

/// Frames 2 (signal 0, three bits) and 4 (signal 1, an array, and signal 3, eight bits) are
/// published and stand in a list with a slot at every tick; frame 5 (signal 2) is received.
const TABLE: &str = "table 3 4 2 1 4 2 1 1 4 3 1 5 1 2 0 3 5 1 16 9 0 8 1 0 8 100 \
                     0 0 0 1 1 0 2 2 0 3 1 16 0 0 0 1 0 1 0 1";

/// Gives a bench that has taken `TABLE` and a fresh call.
fn fresh_bench() -> Bench {
    let mut bench = Bench::new();
    play_on(&mut bench, &format!("{TABLE} => accepted\nfresh => fresh"));
    bench
}

/// Plays a dialogue with a fresh bench.
fn play_fresh(dialogue: &str) {
    play_on(&mut fresh_bench(), dialogue);
}

/// Gives everything that a row may change.
fn shown(bench: &mut Bench) -> [Option<String>; 5] {
    ["state", "pending", "received", "frames", "out"].map(|show| bench.answer(show.as_bytes()))
}

/// Tests that each of these requests has its answer and changes nothing.
fn expect_no_change(bench: &mut Bench, requests: &[(&str, &str)]) {
    let before = shown(bench);
    for (request, answer) in requests {
        let given = bench.answer(request.as_bytes());
        assert_eq!(given.as_deref(), Some(*answer), "request {request}");
        assert_eq!(shown(bench), before, "request {request}");
    }
}

/// The refused rows of REQUESTS.md.
const REFUSED: [(&str, &str); 4] = [
    ("row 0 9 : 8 0", "refused 7 0"),
    ("row 3 1 : 0 0", "refused 6 1"),
    ("row 3 2 : 0 0", "refused 5 1"),
    ("row 3 :", "refused 12"),
];

#[test]
fn the_numbers_of_the_request() {
    let mut bench = fresh_bench();
    expect_no_change(&mut bench, &REFUSED);
    play_on(
        &mut bench,
        "row 0 3 0 : 7 200 2 => written
        read 0 => value 2
        read 3 => value 200
        pending => pending 0 1
        frames => frames FA FF FF FF FF FF FF FF 09 09 C8 FF FF FF FF FF 01 FF FF FF FF FF FF FF",
    );
    expect_no_change(&mut bench, &REFUSED);
}

#[test]
fn empty_rows_write_nothing() {
    expect_no_change(&mut fresh_bench(), &[("row :", "written")]);
}

#[test]
fn refusals_1_to_3_come_first() {
    let rows = ["row 0 : 0", "row :", "row 0 :", "row : 0", "row 9 : 8"];
    let wrong_table = "table 0 0 0 0 0 7";
    for row in rows {
        play(&format!(
            "{row} => refused 1 0
            {wrong_table} => refused 1 5
            buffer 1 => buffer 1
            {row} => refused 1 5
            {TABLE} => accepted
            set wait 1 => set
            buffer 23 => buffer 23
            {row} => refused 2
            buffer 25 => buffer 25
            {row} => refused 2
            buffer 24 => buffer 24
            {row} => refused 3"
        ));
    }
}

#[test]
fn rows_of_unequal_length_have_no_place() {
    let rows = [
        "row 0 :",
        "row : 0",
        "row 0 3 : 0",
        "row 9 3 : 0",
        "row 9 : 8 0",
    ];
    expect_no_change(&mut fresh_bench(), &rows.map(|row| (row, "refused 12")));
}

#[test]
fn the_first_bad_pair_tells_its_own_number() {
    let mut bench = fresh_bench();
    expect_no_change(
        &mut bench,
        &[
            ("row 4 : 0", "refused 4 0"),
            ("row 65535 : 4294967295", "refused 4 0"),
            ("row 2 : 0", "refused 5 0"),
            ("row 2 : 256", "refused 5 0"),
            ("row 1 : 0", "refused 6 0"),
            ("row 1 : 65536", "refused 6 0"),
            ("row 0 : 8", "refused 7 0"),
            ("row 3 : 4294967295", "refused 7 0"),
            ("row 0 0 4 : 1 1 0", "refused 4 2"),
            ("row 0 0 2 : 1 1 0", "refused 5 2"),
            ("row 0 0 1 : 1 1 0", "refused 6 2"),
            ("row 0 0 0 : 1 1 8", "refused 7 2"),
            ("row 3 0 4 : 1 8 0", "refused 7 1"),
            ("row 1 2 : 0 0", "refused 6 0"),
        ],
    );
}

#[test]
fn single_writes_tell_no_place() {
    play_fresh(
        "write 4 0 => refused 4
        write 2 0 => refused 5
        write 1 0 => refused 6
        write 0 8 => refused 7",
    );
}

#[test]
fn a_row_in_flight_stays_pending() {
    play_fresh(
        "row 0 : 0 => written
        tick => idle
        select 0 => selected
        tick => open 42
        byte F8 => more
        row 3 0 : 1 7 => written
        out => out F8 C4
        byte C4 => success
        pending => pending 0 1
        tick => open 42
        out => out FF BD",
    );
}

#[test]
fn refused_and_empty_rows_in_flight_do_not_mark() {
    play_fresh(
        "row 0 : 0 => written
        select 0 => selected
        tick => open 42
        row 0 3 : 7 256 => refused 7 1
        row 0 : 7 7 => refused 12
        row : => written
        byte F8 => more
        byte C4 => success
        pending => pending
        tick => silent",
    );
}

#[test]
fn a_row_of_another_frame_does_not_mark() {
    play_fresh(
        "row 0 : 0 => written
        select 0 => selected
        tick => open 42
        row 3 3 : 1 2 => written
        byte F8 => more
        byte C4 => success
        pending => pending 1
        tick => open C4
        out => out 09 09 02 27",
    );
}

#[test]
fn a_long_row() {
    let (signals, values) = (" 0".repeat(4_997), " 1".repeat(4_997));
    let mut bench = fresh_bench();
    let bad = format!("row{signals} 0 :{values} 8");
    expect_no_change(&mut bench, &[(&bad, "refused 7 4997")]);
    let right = format!("row{signals} 0 :{values} 7 => written\nread 0 => value 7");
    play_on(&mut bench, &right);
}
