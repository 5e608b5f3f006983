//! Tests of the master by dialogues: slots, transfers, pending, status and messages.

use crate::bench::tests::{play, play_fresh};

#[test]
fn nothing_selected() {
    play_fresh(
        "tick => idle
        tick => idle
        select 1 => selected
        select 0 => selected
        tick => silent
        tick => silent",
    );
}

#[test]
fn waits_and_cycles() {
    play_fresh(
        "select 1 => selected
        tick => open 42
        tick => waiting
        tick => open 85
        tick => open 42
        tick => waiting
        select 1 => selected
        tick => open 42
        select 0 => selected
        tick => waiting
        tick => silent
        select 3 => selected
        tick => open 7D
        tick => open 7D",
    );
}

#[test]
fn a_transfer_may_span_waiting_ticks() {
    play_fresh(
        "select 1 => selected
        tick => open 42
        byte F8 => more
        tick => waiting
        out => out F8 C4
        byte C4 => success
        out => out
        byte C4 => refused 8
        status => status 4202
        status => status 0000",
    );
}

#[test]
fn the_first_pending_member_is_opened_again_after_a_failure() {
    play_fresh(
        "write 0 1 => written
        writes 1 01 02 => written
        pending => pending 0 1
        ahead 0 => ahead 1
        ahead 1 => ahead 0
        select 0 => selected
        tick => open C4
        byte 02 => failure
        pending => pending 0 1
        tick => open C4
        byte 01 => more
        tick => open C4
        byte 01 => more
        byte 02 => more
        pending => pending 0 1
        byte 38 => success
        pending => pending 0
        ahead 0 => ahead 0
        tick => open 42
        byte F9 => more
        byte C3 => success
        pending => pending
        tick => silent",
    );
}

#[test]
fn a_write_in_flight_stays_pending() {
    play_fresh(
        "write 0 0 => written
        select 0 => selected
        tick => open 42
        write 0 7 => written
        out => out F8 C4
        byte F8 => more
        byte C4 => success
        pending => pending 0
        tick => open 42
        out => out FF BD
        byte FF => more
        writes 1 00 00 => written
        byte BD => success
        pending => pending 1",
    );
}

#[test]
fn a_write_in_an_earlier_transfer_does_not_count_later() {
    play_fresh(
        "write 0 0 => written
        select 0 => selected
        tick => open 42
        write 0 0 => written
        tick => open 42
        byte F8 => more
        byte C4 => success
        pending => pending",
    );
}

#[test]
fn frame_slots_end_pending_too() {
    play_fresh(
        "write 0 0 => written
        select 1 => selected
        tick => open 42
        byte F8 => more
        byte C4 => success
        pending => pending
        select 1 => selected
        tick => waiting
        tick => open 42
        write 0 1 => written
        byte F8 => more
        byte C4 => success
        pending => pending 0",
    );
}

#[test]
fn received_frames() {
    play_fresh(
        "select 1 => selected
        tick => open 42
        tick => waiting
        tick => open 85
        out => out
        byte 07 => more
        read 2 => value 1
        byte F7 => failure
        read 2 => value 1
        status => status 8501
        tick => open 42
        tick => waiting
        tick => open 85
        byte 07 => more
        byte F8 => success
        read 2 => value 7
        status => status 8502
        pending => pending
        frames => frames F8 FF FF FF FF FF FF FF 09 09 FF FF FF FF FF FF 07 FF FF FF FF FF FF FF",
    );
}

#[test]
fn slots_without_a_response_do_not_count() {
    play_fresh(
        "select 3 => selected
        tick => open 7D
        tick => open 7D
        status => status 0000
        byte 00 => more
        tick => open 7D
        status => status 7D01
        byte 00 => more
        tick => open 7D
        byte 00 => more
        tick => open 7D
        status => status 7D05
        status => status 0000",
    );
}

#[test]
fn responses() {
    play_fresh(
        "select 3 => selected
        tick => open 7D
        byte 01 => more
        byte 02 => more
        byte 03 => more
        byte 04 => more
        byte 05 => more
        byte 06 => more
        byte 07 => more
        byte 08 => more
        byte DB => response 01 02 03 04 05 06 07 08
        status => status 7D02
        frames => frames F8 FF FF FF FF FF FF FF 09 09 FF FF FF FF FF FF 01 FF FF FF FF FF FF FF",
    );
}

#[test]
fn the_message_of_the_paper() {
    play_fresh(
        "lend 01 02 03 04 05 06 07 => lent 7
        send 5 7 => sending
        select 2 => selected
        tick => open 3C
        out => out 05 10 07 01 02 03 04 05 D4
        byte 05 => more
        byte 10 => more
        byte 07 => more
        byte 01 => more
        byte 02 => more
        lend 00 00 00 00 00 0A 0B => lent 7
        byte 03 => more
        byte 04 => more
        byte 05 => more
        byte D4 => success
        message => sending
        tick => open 3C
        out => out 05 21 0A 0B FF FF FF FF C4
        byte 05 => more
        byte 21 => more
        byte 0A => more
        byte 0B => more
        byte FF => more
        byte FF => more
        byte FF => more
        byte FF => more
        byte C4 => success
        message => completed
        status => status 3C06
        tick => silent
        send 0 1 => sending
        message => sending",
    );
}

#[test]
fn failed_messages() {
    play_fresh(
        "lend 01 => lent 1
        send 5 1 => sending
        select 2 => selected
        tick => open 3C
        byte 04 => failure
        message => failed
        status => status 3C01
        lend => lent 0
        tick => silent
        send 5 1 => sending
        lend 02 => lent 1
        tick => open 3C
        tick => silent
        message => failed
        status => status 0000
        send 255 1 => sending
        tick => open 3C
        byte FF => more
        select 1 => selected
        tick => open 42
        message => failed
        status => status 3C01",
    );
}

#[test]
fn a_delay_of_1_starts_a_slot_at_every_tick_and_65535_waits() {
    play(
        "table 0 0 0 2 0 0 3 0 1 1 3 0 65535 => accepted
        select 0 => selected
        tick => open 7D
        tick => open 7D
        select 1 => selected
        tick => open 7D",
    );
    let mut bench = crate::bench::Bench::new();
    bench.answer(b"table 0 0 0 1 0 0 3 0 65535");
    bench.answer(b"select 0");
    assert_eq!(bench.answer(b"tick").unwrap(), "open 7D");
    for _ in 1..65_535 {
        assert_eq!(bench.answer(b"tick").unwrap(), "waiting");
    }
    assert_eq!(bench.answer(b"tick").unwrap(), "open 7D");
}

#[test]
fn fresh_begins_anew_and_leaves_the_lent_message() {
    play_fresh(
        "write 0 7 => written
        lend 01 => lent 1
        send 1 1 => sending
        select 2 => selected
        tick => open 3C
        byte 01 => more
        select 1 => selected
        fresh => fresh
        out => out
        pending => pending
        message => none
        read 0 => value 0
        tick => idle
        status => status 0000
        send 1 1 => sending
        select 2 => selected
        tick => open 3C",
    );
}

#[test]
fn a_whole_message_of_4095_bytes_takes_683_frames() {
    let mut bench = crate::bench::Bench::new();
    bench.answer(b"table 0 0 0 1 0 0 2 0 1");
    bench.lent = vec![0xA5; 4_095];
    bench.answer(b"send 1 4095");
    bench.answer(b"select 0");
    for _ in 0..683 {
        assert_eq!(bench.answer(b"message").unwrap(), "sending");
        assert_eq!(bench.answer(b"tick").unwrap(), "open 3C");
        for byte in bench.master.out() {
            bench.answer(format!("byte {byte:02X}").as_bytes());
        }
    }
    assert_eq!(bench.answer(b"message").unwrap(), "completed");
}
