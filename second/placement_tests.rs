//! Tests of Req 03 by dialogues: writes, reads and receptions of signals in several frames.

use crate::bench::tests::{play, play_on};
use crate::bench::Bench;
use crate::table_words::{line, placed, worked, Records};

/// Frames 0 and 1 (identifiers 2 and 4, enhanced) are published, frames 2 and 3 (5 and 6, classic)
/// received; schedule 0 is for the list of frames 0 and 1, 1 to 4 for the frames 0 to 3.
///
/// Signal 0 stands in frames 0 and 1, signal 3 in frame 1; signal 1 stands in frames 2 and 3,
/// signal 2, an array, in frame 3.
fn table_line() -> String {
    let records = Records {
        frames: vec![[2, 1, 1], [4, 1, 1], [5, 1, 2], [6, 2, 2]],
        signals: vec![[0, 4, 5], [0, 8, 1], [1, 8, 9], [0, 4, 0]],
        placements: vec![
            [0, 0, 0],
            [0, 1, 4],
            [1, 2, 0],
            [1, 3, 8],
            [2, 3, 0],
            [3, 1, 0],
        ],
        members: vec![[0, 0], [0, 1]],
        entries: vec![
            [0, 1, 0, 1],
            [1, 0, 0, 1],
            [2, 0, 1, 1],
            [3, 0, 2, 1],
            [4, 0, 3, 1],
        ],
    };
    line(&records.words())
}

/// Gives a bench that has taken the table and a fresh call.
fn fresh_bench() -> Bench {
    let mut bench = Bench::new();
    play_on(
        &mut bench,
        &format!("{} => accepted\nfresh => fresh", table_line()),
    );
    bench
}

/// Plays a dialogue with a fresh bench.
fn play_fresh(dialogue: &str) {
    play_on(&mut fresh_bench(), dialogue);
}

/// The bytes of a frame behind its first ones, as `frames` shows them.
const REST: &str = "FF FF FF FF FF FF";

/// A reception of frame 2 with the byte 07.
const SECOND: &str = "select 3 => selected
    tick => open 85
    byte 07 => more
    byte F8 => success";

/// A reception of frame 3 with the bytes 0A and 0B.
const THIRD: &str = "select 4 => selected
    tick => open 06
    byte 0A => more
    byte 0B => more
    byte EA => success";

#[test]
fn the_worked_table() {
    let table = line(&worked().words());
    play(&format!(
        "{table} => accepted
        fresh => fresh
        frames => frames F5 FF {REST} 5F 00 {REST}
        read 0 => value 5
        read 1 => value 0
        write 0 10 => written
        frames => frames FA FF {REST} AF 00 {REST}
        pending => pending 0 1
        fresh => fresh
        write 1 200 => written
        frames => frames F5 FF {REST} 5F C8 {REST}
        pending => pending 1
        received => received"
    ));
}

#[test]
fn fresh_fills_every_placement() {
    play_fresh(&format!(
        "frames => frames F5 FF {REST} 50 FF {REST} 01 FF {REST} 09 01 {REST}"
    ));
}

#[test]
fn fresh_fills_arrays_and_scalars_over_byte_borders() {
    // 12 bits of A5C at 4, 0 and 20; three bytes of 0F at 0 and 16.
    let frames = [[1, 8, 1], [2, 8, 0], [3, 8, 1], [4, 8, 1], [5, 8, 0]];
    let signals = [[0, 12, 0xA5C], [1, 24, 15]];
    let placements = [[0, 0, 4], [0, 3, 0], [0, 2, 20], [1, 4, 16], [1, 1, 0]];
    let table = line(&placed(&frames, &signals, &placements));
    play(&format!(
        "{table} => accepted
        fresh => fresh
        frames => frames CF A5 {REST} 0F 0F 0F FF FF FF FF FF FF FF CF A5 FF FF FF FF \
         5C FA {REST} FF FF 0F 0F 0F FF FF FF
        received => received
        reads 1 => bytes 0F 0F 0F
        write 0 0 => written
        pending => pending 0 2 3
        frames => frames 0F 00 {REST} 0F 0F 0F FF FF FF FF FF FF FF 0F 00 FF FF FF FF \
         00 F0 {REST} FF FF 0F 0F 0F FF FF FF"
    ));
}

#[test]
fn a_write_sets_every_placement_and_no_other_bit() {
    play_fresh(&format!(
        "write 0 10 => written
        frames => frames FA FF {REST} A0 FF {REST} 01 FF {REST} 09 01 {REST}
        read 0 => value 10
        pending => pending 0 1
        write 3 15 => written
        frames => frames FA FF {REST} AF FF {REST} 01 FF {REST} 09 01 {REST}
        row 0 3 0 : 1 2 3 => written
        frames => frames F3 FF {REST} 32 FF {REST} 01 FF {REST} 09 01 {REST}"
    ));
}

#[test]
fn a_write_makes_only_its_frames_pending() {
    play_fresh(
        "write 3 0 => written
        pending => pending 1
        fresh => fresh
        write 0 16 => refused 7
        pending => pending
        row 0 0 : 1 16 => refused 7 1
        pending => pending
        row 0 : 5 => written
        pending => pending 0 1",
    );
}

#[test]
fn writes_of_arrays_set_every_placement() {
    let frames = [[1, 3, 1], [2, 2, 1], [3, 2, 1]];
    let table = line(&placed(&frames, &[[1, 16, 0]], &[[0, 2, 0], [0, 0, 8]]));
    play(&format!(
        "{table} => accepted
        fresh => fresh
        writes 0 12 34 => written
        frames => frames FF 12 34 FF FF FF FF FF FF FF {REST} 12 34 {REST}
        pending => pending 0 2
        reads 0 => bytes 12 34"
    ));
}

#[test]
fn a_write_in_flight_marks_the_transfer_of_any_of_its_frames() {
    play_fresh(
        "write 0 10 => written
        select 0 => selected
        tick => open 42
        out => out FA C2
        byte FA => more
        byte C2 => success
        pending => pending 1
        tick => open C4
        out => out A0 9A
        write 0 3 => written
        out => out A0 9A
        pending => pending 0 1
        byte A0 => more
        byte 9A => success
        pending => pending 0 1
        tick => open 42
        out => out F3 C9
        row 0 : 3 => written
        byte F3 => more
        byte C9 => success
        pending => pending 0 1",
    );
}

#[test]
fn a_write_to_other_frames_does_not_mark() {
    play_fresh(
        "write 0 5 => written
        select 1 => selected
        tick => open 42
        write 3 1 => written
        byte F5 => more
        byte C7 => success
        pending => pending 1",
    );
}

#[test]
fn reads_of_published_signals_go_by_the_first_placement() {
    let mut bench = fresh_bench();
    bench.master.buffer[0] = 0xF1;
    bench.master.buffer[8] = 0x2F;
    play_on(&mut bench, "read 0 => value 1\nread 3 => value 15");
}

#[test]
fn never_received() {
    // The frame bytes are zeros after `table` and after `buffer`.
    let table = table_line();
    play(&format!(
        "{table} => accepted
        received => received
        read 1 => value 1
        reads 2 => bytes 09
        read 0 => value 0
        fresh => fresh
        buffer 32 => buffer 32
        read 1 => value 1
        reads 2 => bytes 09
        read 0 => value 0
        set received 1 2 => set
        read 1 => value 0
        reads 2 => bytes 09
        set received 1 none => set
        read 1 => value 1"
    ));
}

#[test]
fn the_placement_received_last_is_read() {
    play_fresh(&format!(
        "{SECOND}
        received => received 1 2
        read 1 => value 7
        reads 2 => bytes 09
        {THIRD}
        received => received 1 3 2 4
        read 1 => value 11
        reads 2 => bytes 0A
        {SECOND}
        received => received 1 2 2 4
        read 1 => value 7
        reads 2 => bytes 0A"
    ));
}

#[test]
fn receptions_in_the_other_order() {
    play_fresh(&format!(
        "{THIRD}
        received => received 1 3 2 4
        read 1 => value 11
        {SECOND}
        received => received 1 2 2 4
        read 1 => value 7
        frames => frames F5 FF {REST} 50 FF {REST} 07 FF {REST} 0A 0B {REST}"
    ));
}

#[test]
fn a_failed_reception_changes_nothing() {
    play_fresh(&format!(
        "select 3 => selected
        tick => open 85
        received => received
        byte 07 => more
        received => received
        byte F7 => failure
        received => received
        read 1 => value 1
        {THIRD}
        select 3 => selected
        tick => open 85
        byte 07 => more
        received => received 1 3 2 4
        byte F9 => failure
        received => received 1 3 2 4
        read 1 => value 11
        tick => open 85
        byte 07 => more
        tick => open 85
        tick => open 85
        received => received 1 3 2 4
        read 1 => value 11"
    ));
}

#[test]
fn only_received_frames_set_receptions() {
    play_fresh(
        "select 1 => selected
        tick => open 42
        byte F5 => more
        byte C7 => success
        received => received
        select 2 => selected
        tick => open C4
        byte 50 => more
        byte EA => success
        received => received",
    );
}

#[test]
fn responses_set_no_reception() {
    let frames = [[2, 8, 0]];
    let mut records = Records {
        frames: frames.to_vec(),
        signals: vec![[1, 64, 3]],
        placements: vec![[0, 0, 0]],
        ..Records::default()
    };
    records.entries = vec![[0, 3, 0, 1]];
    let bytes = "byte 00 => more\n".repeat(8);
    play(&format!(
        "{} => accepted
        select 0 => selected
        tick => open 7D
        {bytes}byte FF => response 00 00 00 00 00 00 00 00
        received => received
        reads 0 => bytes 03 03 03 03 03 03 03 03",
        line(&records.words())
    ));
}

#[test]
fn table_and_fresh_forget_receptions_and_buffer_does_not() {
    let table = table_line();
    play_fresh(&format!(
        "{THIRD}
        buffer 32 => buffer 32
        received => received 1 3 2 4
        read 1 => value 0
        fresh => fresh
        received => received
        {SECOND}
        {table} => accepted
        received => received
        set received 255 65535 => set
        table 9 => refused 1 1
        received => received"
    ));
}

#[test]
fn receptions_that_are_set_are_read() {
    play_fresh(&format!(
        "{SECOND}
        {THIRD}
        set received 1 2 => set
        read 1 => value 7
        set received 1 3 => set
        read 1 => value 11
        set received 1 none => set
        read 1 => value 1
        received => received 2 4
        set received 2 none => set
        reads 2 => bytes 09
        received => received"
    ));
}

#[test]
fn receptions_are_shown_by_ascending_signals_whether_they_fit_or_not() {
    play(
        "received => received
        set received 255 65535 => set
        set received 0 0 => set
        set received 7 511 => set
        received => received 0 0 7 511 255 65535
        set received 7 3 => set
        received => received 0 0 7 3 255 65535
        set received 0 none => set
        received => received 7 3 255 65535
        set received 255 none => set
        set received 007 none => set
        received => received",
    );
}

#[test]
fn refused_calls_leave_receptions() {
    play_fresh(&format!(
        "{SECOND}
        set received 200 1 => set
        byte 00 => refused 3
        read 1 => refused 3
        write 0 1 => refused 3
        received => received 1 2 200 1
        set received 200 none => set
        buffer 31 => buffer 31
        fresh => refused 2
        received => received 1 2"
    ));
}

/// As many signals and placements as there may be: signals 0 to 254, one bit each, in frames 0 to 3
/// and again in frames 4 to 7; signal 255 in frames 59 and 58, which are received.
fn largest_line() -> String {
    let mut records = Records {
        frames: (0..60).map(|n| [n, 8, u16::from(n < 58)]).collect(),
        signals: vec![[0, 1, 0]; 256],
        entries: vec![[0, 0, 58, 1], [0, 0, 59, 1]],
        ..Records::default()
    };
    for s in 0..255 {
        let (frame, offset) = (s / 64, s % 64);
        let twice = [[s, frame, offset], [s, 4 + frame, offset]];
        records.placements.extend(twice);
    }
    records.placements.extend([[255, 59, 0], [255, 58, 0]]);
    assert_eq!(records.placements.len(), 512);
    line(&records.words())
}

#[test]
fn the_largest_numbers() {
    // Enhanced over the protected identifier of 58, BA, and 01: BA + 01 + 7 x FF gives BB, so 44.
    play(&format!(
        "{} => accepted
        fresh => fresh
        write 254 1 => written
        pending => pending 3 7
        read 254 => value 1
        read 255 => value 0
        set received 255 512 => set
        read 255 => refused 3
        set received 255 509 => set
        read 255 => refused 3
        set received 255 510 => set
        read 255 => value 0
        set entry 0 => set
        set open frame 58 => set
        set count 8 => set
        set bytes 01 FF FF FF FF FF FF FF FF => set
        byte 44 => success
        received => received 255 511
        read 255 => value 1
        set received 255 510 => set
        read 255 => value 0",
        largest_line()
    ));
}
