//! Tests of the bench by dialogues: the wire, settings, shows, signals and every refusal.

use super::*;

/// Three frames (2 and 4 published, 5 received and classic), a list (4, then 2), a schedule for
/// the list, one for the frames 2 and 5, one for requests and one for responses.
///
/// Each signal, three bits, an array and eight bits, stands at offset 0 of a frame of its own.
pub const TABLE: &str = "table 3 3 2 5 3 2 1 1 4 2 1 5 1 2 0 3 0 1 16 9 0 8 1 0 0 0 1 1 0 2 2 0 \
                         0 1 0 0 0 1 0 1 1 0 0 2 1 0 2 1 2 2 0 1 3 3 0 1";

/// Plays a dialogue with a bench: lines of a request and its answer, with `=>` between.
pub fn play_on(bench: &mut Bench, dialogue: &str) {
    for line in dialogue
        .lines()
        .map(str::trim)
        .filter(|line| !line.is_empty())
    {
        let (request, answer) = line.split_once("=>").expect("a request and an answer");
        let given = bench.answer(request.trim_end().as_bytes());
        assert_eq!(given.as_deref(), Some(answer.trim()), "request {request}");
    }
}

/// Plays a dialogue with a bench that has seen no line.
pub fn play(dialogue: &str) {
    play_on(&mut Bench::new(), dialogue);
}

/// Plays a dialogue with a bench that has taken `TABLE` and a fresh call.
pub fn play_fresh(dialogue: &str) {
    let mut bench = Bench::new();
    play_on(&mut bench, &format!("{TABLE} => accepted\nfresh => fresh"));
    play_on(&mut bench, dialogue);
}

#[test]
fn numbers_of_the_paper() {
    play(
        "pid 0 => pid 80
        pid 1 => pid C1
        pid 2 => pid 42
        pid 4 => pid C4
        pid 5 => pid 85
        pid 60 => pid 3C
        pid 61 => pid 7D
        id 80 => id 0
        id 7D => id 61
        checksum 0 classic 4A 55 93 E5 => checksum E6
        checksum 0 classic 00 => checksum FF
        checksum 0 classic FF => checksum 00
        checksum 0 classic FF 01 => checksum FE
        checksum 2 enhanced 00 => checksum BD
        checksum 60 enhanced 00 => checksum FF
        checksum 63 enhanced 00 => checksum FF
        checksum 59 enhanced 00 => checksum 04",
    );
}

#[test]
fn refusal_11() {
    play(
        "pid 64 => refused 11
        pid 255 => refused 11
        id 43 => refused 11
        id 00 => refused 11
        checksum 64 classic 00 => refused 11
        checksum 255 enhanced 00 => refused 11
        checksum 5 classic => refused 11
        checksum 5 enhanced => refused 11
        checksum 5 classic 00 00 00 00 00 00 00 00 00 => refused 11
        checksum 5 classic 00 00 00 00 00 00 00 00 => checksum FF
        take => refused 11
        take 01 01 00 00 00 00 00 => refused 11
        take 01 01 00 00 00 00 00 00 00 => refused 11
        take 01 01 00 00 00 00 00 00 => ignored",
    );
}

#[test]
fn before_the_first_table() {
    play(
        "fresh => refused 1 0
        write 0 0 => refused 1 0
        writes 0 00 => refused 1 0
        row 0 : 0 => refused 1 0
        read 0 => refused 1 0
        reads 0 => refused 1 0
        select 0 => refused 1 0
        tick => refused 1 0
        byte 00 => refused 1 0
        status => refused 1 0
        send 1 0 => refused 1 0
        message => refused 1 0
        ahead 0 => refused 1 0
        pending => pending
        frames => frames
        received => received
        out => out
        taken => taken",
    );
}

#[test]
fn refusal_1_comes_before_all_others() {
    play(
        "table 1 0 0 1 0 2 1 0 0 0 0 0 => refused 1 11
        buffer 7 => buffer 7
        fresh => refused 1 11
        write 9 99999 => refused 1 11
        writes 9 => refused 1 11
        row 9 : => refused 1 11
        read 9 => refused 1 11
        reads 9 => refused 1 11
        select 9 => refused 1 11
        tick => refused 1 11
        byte 00 => refused 1 11
        status => refused 1 11
        send 1 0 => refused 1 11
        message => refused 1 11
        ahead 9 => refused 1 11
        frames => frames 00 00 00 00 00 00 00",
    );
}

#[test]
fn refusal_2() {
    play_fresh(
        "write 0 5 => written
        select 1 => selected
        buffer 23 => buffer 23
        fresh => refused 2
        write 9 99999 => refused 2
        writes 9 => refused 2
        row 9 : => refused 2
        read 9 => refused 2
        reads 9 => refused 2
        tick => refused 2
        byte 00 => refused 2
        select 9 => refused 4
        select 0 => selected
        status => status 0000
        send 1 0 => refused 9
        send 1 1 => sending
        message => sending
        ahead 0 => ahead 0
        ahead 2 => refused 4
        tick => refused 2
        pending => pending 0
        buffer 25 => buffer 25
        tick => refused 2
        buffer 24 => buffer 24
        tick => refused 3
        lend 00 => lent 1
        tick => open 42
        out => out 00 BD",
    );
}

#[test]
fn refusal_3() {
    play_fresh(
        "lend 00 00 => lent 2
        tick => idle
        send 1 1 => sending
        tick => refused 3
        select 1 => selected
        tick => refused 3
        lend 00 => lent 1
        tick => open 42
        lend => lent 0
        tick => refused 3
        byte 00 => failure
        status => status 4201
        lend 07 => lent 1
        tick => waiting
        tick => open 85
        message => sending",
    );
}

#[test]
fn refusals_4_to_7() {
    play_fresh(
        "write 3 0 => refused 4
        writes 3 00 => refused 4
        read 3 => refused 4
        reads 65535 => refused 4
        select 4 => refused 4
        ahead 2 => refused 4
        ahead 3 => refused 4
        write 2 999 => refused 5
        writes 2 00 => refused 5
        write 1 99999 => refused 6
        writes 0 => refused 6
        read 1 => refused 6
        reads 0 => refused 6
        reads 2 => refused 6
        write 0 8 => refused 7
        write 0 65536 => refused 7
        write 0 4294967295 => refused 7
        writes 1 => refused 7
        writes 1 00 => refused 7
        writes 1 00 00 00 => refused 7
        pending => pending
        frames => frames F8 FF FF FF FF FF FF FF 09 09 FF FF FF FF FF FF 01 FF FF FF FF FF FF FF",
    );
}

#[test]
fn refusals_8_to_10() {
    play_fresh(
        "byte 00 => refused 8
        send 1 0 => refused 9
        send 1 4096 => refused 9
        send 1 65537 => refused 9
        send 1 4294967295 => refused 9
        message => none
        send 1 4095 => sending
        send 1 4096 => refused 9
        send 1 0 => refused 9
        send 1 1 => refused 10
        message => sending",
    );
}

#[test]
fn signals() {
    play_fresh(
        "read 0 => value 0
        write 0 7 => written
        read 0 => value 7
        reads 1 => bytes 09 09
        writes 1 12 FE => written
        reads 1 => bytes 12 FE
        read 2 => value 1
        pending => pending 0 1
        frames => frames FF FF FF FF FF FF FF FF 12 FE FF FF FF FF FF FF 01 FF FF FF FF FF FF FF",
    );
}

#[test]
fn signals_of_the_paper() {
    play(
        "table 2 2 0 0 2 7 2 1 8 3 1 0 12 0 0 16 0 0 0 4 1 1 4 => accepted
        fresh => fresh
        write 0 2748 => written
        write 1 4660 => written
        frames => frames CF AB FF FF FF FF FF FF 4F 23 F1 FF FF FF FF FF",
    );
}

#[test]
fn tables_make_zeros_and_a_fresh_state() {
    let zeros = "frames 00 00 00 00 00 00 00 00";
    play_fresh(&format!(
        "write 0 1 => written
        select 0 => selected
        tick => open 42
        send 1 2 => sending
        table 1 1 0 1 1 2 1 1 0 8 255 0 0 0 0 0 0 9 => accepted
        pending => pending
        out => out
        message => none
        status => status 0000
        tick => idle
        {frames} => {zeros}
        read 0 => value 0
        table 1 9 => refused 1 2
        {frames} => {zeros}
        table 60 => refused 1 1
        table 61 => refused 1 0
        {frames} => {frames}",
        frames = "frames"
    ));
}

#[test]
fn tables_leave_the_lent_message_and_the_reassembler() {
    play(
        "lend 0A 0B => lent 2
        room 8 => room 8
        take 05 10 08 01 02 03 04 05 => started
        table 0 0 0 1 0 0 2 0 1 => accepted
        send 5 2 => sending
        select 0 => selected
        tick => open 3C
        out => out 05 02 0A 0B FF FF FF FF E3
        table 9 => refused 1 1
        take 05 21 06 07 08 FF FF FF => done 8
        taken => taken 01 02 03 04 05 06 07 08",
    );
}

#[test]
fn lines_that_are_no_requests_do_nothing() {
    play_fresh(
        "select 1 => selected
        tick => open 42
        table 65536 => ?
        fresh x => ?
        buffer 513 => ?
        out => out F8 C4
        tick  => waiting
        room 3 => room 3
        room 4097 => ?
        taken => taken 00 00 00",
    );
}

#[test]
fn rooms() {
    play(
        "room 4096 => room 4096
        room 6 => room 6
        take 01 06 01 02 03 04 05 06 => done 6
        taken => taken 01 02 03 04 05 06
        room 0 => room 0
        taken => taken
        take 01 01 01 01 01 01 01 01 => ignored
        room 9 => room 9
        take 01 10 09 01 02 03 04 05 => started
        take 01 22 01 02 03 04 05 06 => broken
        take 01 10 09 01 02 03 04 05 => started
        room 9 => room 9
        take 01 21 01 02 03 04 05 06 => ignored
        taken => taken 00 00 00 00 00 00 00 00 00",
    );
}
