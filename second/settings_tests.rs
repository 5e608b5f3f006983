//! Tests of the `set` lines and of what calls do with states that no history has.

use crate::bench::tests::{play, play_fresh};

/// The answer to `state` after fresh.
const FRESH: &str = "state wait 0 entry none request none open nothing count 0 \
                     bytes FF FF FF FF FF FF FF FF FF written 0 message none status 0 0 0 00";

#[test]
fn the_fresh_state() {
    play(&format!("state => {FRESH}\nassembly => assembly none"));
    play_fresh(&format!("state => {FRESH}"));
}

#[test]
fn every_part_is_set_and_shown() {
    play(
        "set wait 65535 => set
        set entry 65535 => set
        set request 65535 => set
        set open frame 65535 => set
        set count 255 => set
        set bytes 00 01 02 03 04 05 06 07 FF => set
        set written 1 => set
        set message sending 255 65535 65535 => set
        set status 1 0 1 FF => set
        set pending 59 1 => set
        set pending 0 01 => set
        set received 255 65535 => set
        set received 00 00 => set
        received => received 0 0 255 65535
        state => state wait 65535 entry 65535 request 65535 open frame 65535 count 255 bytes 00 01 02 03 04 05 06 07 FF written 1 message sending 255 65535 65535 status 1 0 1 FF
        pending => pending 0 59
        set pending 59 0 => set
        pending => pending 0
        set wait 000 => set
        set entry none => set
        set request none => set
        set open request => set
        set written 00 => set
        set message completed => set
        set status 00 001 0 0A => set
        state => state wait 0 entry none request none open request count 255 bytes 00 01 02 03 04 05 06 07 FF written 0 message completed status 0 1 0 0A
        set open response => set
        set message failed => set
        state => state wait 0 entry none request none open response count 255 bytes 00 01 02 03 04 05 06 07 FF written 0 message failed status 0 1 0 0A",
    );
}

#[test]
fn table_and_fresh_set_all_parts_anew() {
    let parts = "set open nothing => set
        set count 7 => set
        set bytes 00 01 02 03 04 05 06 07 08 => set
        set written 1 => set
        set status 0 1 0 42 => set
        set pending 0 1 => set
        set received 2 2 => set";
    play_fresh(&format!(
        "{parts}\nfresh => fresh\nstate => {FRESH}\npending => pending\nreceived => received
        {parts}\ntable 9 => refused 1 1\nstate => {FRESH}\npending => pending\nreceived => received"
    ));
}

/// Tests that each of these lines answers `?` and sets nothing.
fn expect_nothing_set(lines: &[&str]) {
    for line in lines {
        play(&format!(
            "set {line}=> ?\nstate => {FRESH}\nreceived => received\nassembly => assembly none"
        ));
    }
}

#[test]
fn numbers_above_their_limits() {
    expect_nothing_set(&[
        "wait 65536",
        "entry 65536",
        "request 65536",
        "open frame 65536",
        "count 256",
        "written 2",
        "message sending 256 1 0",
        "message sending 1 65536 0",
        "message sending 1 1 65536",
        "status 2 0 0 00",
        "status 0 2 0 00",
        "status 0 0 2 00",
        "pending 60 0",
        "pending 0 2",
        "received 256 0",
        "received 256 none",
        "received 65536 0",
        "received 0 65536",
        "received 255 4294967296",
        "assembly 256 7 5 1",
        "assembly 1 65536 5 1",
        "assembly 1 7 65536 1",
        "assembly 1 7 5 256",
    ]);
}

#[test]
fn too_few_fields() {
    expect_nothing_set(&[
        "wait",
        "entry",
        "request",
        "open",
        "open frame",
        "count",
        "written",
        "bytes",
        "bytes 00 00 00 00 00 00 00 00",
        "message",
        "message sending",
        "message sending 1 1",
        "status 0 0 0",
        "pending 0",
        "received",
        "received 0",
        "received none",
        "assembly",
        "assembly 1 7 5",
    ]);
}

#[test]
fn too_many_fields() {
    expect_nothing_set(&[
        "wait 1 1",
        "entry 1 1",
        "open nothing 1",
        "open frame 1 1",
        "open request 1",
        "open response 1",
        "written 0 0",
        "bytes 00 00 00 00 00 00 00 00 00 00",
        "message none 1",
        "message sending 1 1 0 0",
        "message completed 1",
        "message failed 1",
        "status 0 0 0 00 00",
        "pending 0 0 0",
        "received 0 0 0",
        "received 0 none 0",
        "received 0 0 none",
        "assembly 1 7 5 1 1",
        "assembly none 1",
    ]);
}

#[test]
fn other_fields() {
    expect_nothing_set(&[
        " wait 1",
        "Wait 1",
        "state",
        "wait none",
        "entry None",
        "request nothing",
        "open none",
        "open 1",
        "count -1",
        "bytes 00 00 00 00 00 00 00 00 0a",
        "message done",
        "status 0 0 0 0",
        "status 0 0 0 ff",
        "received none 0",
        "received none none",
        "received 0 never",
        "received 0 None",
        "received 0 -1",
        "received  0 0",
        "received 0  0",
        "Received 0 0",
        "reception 0 0",
        "assembly nothing",
    ]);
    play("set => ?\nSet wait 1 => ?\nstate 1 => ?\nassembly 1 => ?\nreceived 1 => ?\nreceived none => ?");
}

#[test]
fn a_closed_transfer_leaves_the_record_of_a_fresh_state() {
    play_fresh(&format!(
        "set entry 4 => set
        set open response => set
        set count 8 => set
        set bytes 01 02 03 04 05 06 07 08 09 => set
        set written 1 => set
        byte DB => response 01 02 03 04 05 06 07 08
        set entry none => set
        set status 0 0 0 00 => set
        state => {FRESH}"
    ));
}

#[test]
fn a_tick_that_closes_and_opens_nothing_leaves_the_record() {
    let rest = "count 7 bytes 00 01 02 03 04 05 06 07 08 written 1 message none status 0 0 0 00";
    play_fresh(&format!(
        "set count 7 => set
        set bytes 00 01 02 03 04 05 06 07 08 => set
        set written 1 => set
        tick => idle
        state => state wait 0 entry none request none open nothing {rest}
        set request 0 => set
        tick => silent
        write 0 0 => written
        state => state wait 1 entry 0 request none open nothing {rest}
        tick => open 42
        state => state wait 1 entry 0 request none open frame 0 count 0 bytes F8 C4 FF FF FF FF FF FF FF written 0 message none status 0 0 0 00"
    ));
}

#[test]
fn sent_bytes_are_compared_as_they_are_set() {
    play_fresh(
        "set entry 1 => set
        set open frame 0 => set
        set bytes 12 34 56 78 9A BC DE F0 11 => set
        out => out 12 34
        byte 12 => more
        set bytes 12 35 56 78 9A BC DE F0 11 => set
        byte 35 => success
        set open frame 0 => set
        set count 1 => set
        byte FF => success
        pending => pending",
    );
}

#[test]
fn received_bytes_stand_behind_those_that_are_set() {
    play(
        "table 1 0 0 1 0 5 3 2 0 0 0 4 => accepted
        set entry 0 => set
        set open frame 0 => set
        set bytes 01 EE EE EE 55 66 77 88 99 => set
        set count 1 => set
        byte 02 => more
        state => state wait 0 entry 0 request none open frame 0 count 2 bytes 01 02 EE EE 55 66 77 88 99 written 0 message none status 0 0 0 00
        byte 03 => more
        byte F9 => success
        frames => frames 01 02 03 00 00 00 00 00
        status => status 8502",
    );
}

#[test]
fn out_stands_alone_where_the_master_sends_nothing() {
    play_fresh(
        "set bytes 01 02 03 04 05 06 07 08 09 => set
        out => out
        set open frame 0 => set
        out => out 01 02
        set open frame 2 => set
        out => out
        set open frame 3 => set
        out => out
        set open response => set
        out => out
        set open request => set
        out => out 01 02 03 04 05 06 07 08 09",
    );
}

#[test]
fn a_second_transfer_counted_is_an_overrun() {
    for (parts, word) in [
        ("0 0 0 FF", "4202"),
        ("1 0 0 00", "4207"),
        ("0 1 0 00", "4206"),
        ("0 0 1 00", "4206"),
    ] {
        play_fresh(&format!(
            "set status {parts} => set
            set entry 1 => set
            set open frame 0 => set
            set count 1 => set
            byte FF => success
            status => status {word}"
        ));
    }
}

#[test]
fn a_mark_keeps_what_is_pending() {
    for (pending, written, left) in [(0, 0, ""), (0, 1, ""), (1, 0, ""), (1, 1, " 0")] {
        play_fresh(&format!(
            "set entry 1 => set
            set open frame 0 => set
            set count 1 => set
            set pending 0 {pending} => set
            set written {written} => set
            byte FF => success
            pending => pending{left}"
        ));
    }
}

#[test]
fn a_message_goes_on_from_any_frame() {
    play(
        "table 0 0 0 1 0 0 2 0 1 => accepted
        lend 01 02 03 04 05 06 07 08 09 0A 0B 0C => lent 12
        set message sending 7 12 1 => set
        select 0 => selected
        tick => open 3C
        out => out 07 21 06 07 08 09 0A 0B A4
        set count 8 => set
        byte A4 => success
        tick => open 3C
        out => out 07 22 0C FF FF FF FF FF CA
        set count 8 => set
        byte CA => success
        message => completed",
    );
}

#[test]
fn a_wait_of_0_starts_a_slot() {
    play_fresh(
        "set entry 1 => set
        tick => open 85
        set entry 1 => set
        tick => refused 3
        set open nothing => set
        set wait 1 => set
        tick => open 85
        set open nothing => set
        set entry 1 => set
        set wait 2 => set
        tick => waiting
        set request 3 => set
        tick => open 7D",
    );
}

#[test]
fn reassemblies() {
    play(
        "room 20 => room 20
        set assembly 5 20 17 3 => set
        assembly => assembly 5 20 17 3
        take 05 23 0A 0B 0C 0D 0E 0F => done 20
        assembly => assembly none
        taken => taken 00 00 00 00 00 00 00 00 00 00 00 00 00 00 00 00 00 0A 0B 0C
        set assembly 5 21 17 3 => set
        take 05 23 0A 0B 0C 0D 0E 0F => refused 2
        take 05 23 0A 0B 0C 0D 0E => refused 11
        take 06 23 0A 0B 0C 0D 0E 0F => ignored
        take 05 22 0A 0B 0C 0D 0E 0F => broken
        take 05 23 0A 0B 0C 0D 0E 0F => ignored",
    );
}

#[test]
fn reassemblies_at_the_ends_of_what_fits() {
    for (parts, fits) in [
        ("1 7 5 1", true),
        ("0 7 5 1", false),
        ("1 6 5 1", false),
        ("1 4095 5 1", true),
        ("1 4096 5 1", false),
        ("1 4095 4085 9", true),
        ("1 4095 4091 10", true),
        ("1 4095 4097 11", false),
        ("1 11 5 1", true),
        ("1 11 11 2", false),
        ("1 12 11 2", true),
        ("1 12 10 1", false),
        ("1 12 6 1", false),
        ("1 12 4 0", false),
        ("1 12 0 0", false),
        ("1 12 5 0", false),
        ("1 12 5 2", false),
        ("1 12 5 17", false),
        ("1 200 89 15", true),
        ("1 200 95 0", true),
        ("1 200 95 16", false),
        ("1 200 101 1", true),
    ] {
        for (frame, answer) in [
            ("00 01 00 00 00 00 00 00", "ignored"),
            ("00 01 00 00 00 00 00", "refused 11"),
        ] {
            let answer = if fits { answer } else { "refused 3" };
            play(&format!(
                "set assembly {parts} => set
                take {frame} => {answer}
                assembly => assembly {parts}"
            ));
        }
    }
}
