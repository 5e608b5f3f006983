//! Tests of refusal 3: each clause at both sides of its boundary, in every call.

use crate::bench::tests::{play, play_on, TABLE};
use crate::bench::Bench;
use crate::table_words::{line, placed};

/// Every call that tests whether the state fits.
const CALLS: [&str; 20] = [
    "write 0 0",
    "write 9 9",
    "writes 1 01 02",
    "writes 0",
    "row 0 : 0",
    "row 9 : 9",
    "row 9 :",
    "row :",
    "read 0",
    "reads 1",
    "reads 0",
    "select 0",
    "select 9",
    "tick",
    "byte 00",
    "status",
    "send 1 1",
    "send 1 0",
    "message",
    "ahead 0",
];

/// Gives a bench that has taken `TABLE` and a fresh call, then these parts, a comma between them.
fn bench_with(parts: &str) -> Bench {
    let mut bench = Bench::new();
    play_on(&mut bench, &format!("{TABLE} => accepted\nfresh => fresh"));
    for part in parts.split(", ") {
        play_on(&mut bench, &format!("set {part} => set"));
    }
    bench
}

/// Tests that every call refuses a state with 3 and changes nothing.
fn expect_misfit(parts: &str) {
    let mut bench = bench_with(parts);
    let shows = ["state", "pending", "received", "frames", "out"];
    let before = shows.map(|show| bench.answer(show.as_bytes()));
    for call in CALLS {
        play_on(&mut bench, &format!("{call} => refused 3"));
    }
    assert_eq!(shows.map(|show| bench.answer(show.as_bytes())), before);
    play_on(&mut bench, "fresh => fresh\ntick => idle");
}

/// Tests that no call refuses a state with 3.
fn expect_fit(parts: &str) {
    for call in CALLS.into_iter().filter(|&call| call != "tick") {
        let given = bench_with(parts).answer(call.as_bytes());
        assert_ne!(given.as_deref(), Some("refused 3"), "{parts}: {call}");
    }
}

/// Tests that a state fits with the first part and not with the second.
fn expect_border(parts: &str, fitting: &str, other: &str) {
    expect_fit(&format!("{parts}, {fitting}"));
    expect_misfit(&format!("{parts}, {other}"));
}

#[test]
fn names() {
    expect_border("wait 0", "request 3", "request 4");
    expect_border("wait 0", "entry 4", "entry 5");
    expect_border("wait 0", "request none", "request 65535");
    expect_border("wait 0", "entry none", "entry 65535");
    expect_border("wait 0", "pending 1 1", "pending 3 1");
    expect_border("wait 0", "pending 59 0", "pending 59 1");
    expect_border("entry 1", "open frame 0", "open frame 3");
    expect_misfit("entry 1, open frame 65535");
}

#[test]
fn waits() {
    expect_border("entry none", "wait 0", "wait 1");
    expect_border("entry 0", "wait 1", "wait 2");
    expect_border("entry 1", "wait 2", "wait 3");
    expect_border("entry 1, request 3", "wait 0", "wait 65535");
    expect_misfit("entry 5, wait 1");
}

#[test]
fn pending_bits() {
    expect_border("pending 0 1, pending 1 1", "pending 2 0", "pending 2 1");
}

#[test]
fn entries_that_cannot_open_what_is_open() {
    for open in ["frame 0", "frame 2", "request", "response"] {
        expect_misfit(&format!("message sending 1 1 0, open {open}"));
    }
    expect_border("entry 1", "open frame 0", "open frame 1");
    expect_border("entry 2", "open frame 2", "open frame 0");
    expect_border("entry 0", "open frame 0", "open frame 2");
    expect_border("entry 0", "open frame 1", "open response");
    expect_border("entry 4", "open response", "open frame 0");
    for entry in [0, 1, 2, 3] {
        expect_misfit(&format!(
            "message sending 1 1 0, entry {entry}, open response"
        ));
    }
    for entry in [0, 1, 2, 4] {
        expect_misfit(&format!(
            "message sending 1 1 0, entry {entry}, open request"
        ));
    }
    expect_misfit("entry 3, message sending 1 1 0, open frame 0");
}

#[test]
fn requests_need_a_message_being_sent() {
    expect_border(
        "entry 3, open request",
        "message sending 0 7 1",
        "message none",
    );
    expect_misfit("entry 3, open request, message completed");
    expect_misfit("entry 3, open request, message failed");
}

#[test]
fn counts_of_bytes() {
    expect_border("entry 1, open frame 0", "count 1", "count 2");
    expect_border("entry 0, open frame 1", "count 2", "count 3");
    expect_border("entry 2, open frame 2", "count 1", "count 255");
    expect_border("entry 4, open response", "count 8", "count 9");
    let request = "entry 3, message sending 1 1 0, open request";
    expect_border(request, "count 8", "count 9");
    expect_fit("entry 3, count 255, written 1");
}

#[test]
fn messages() {
    expect_border("wait 0", "message sending 0 1 0", "message sending 255 0 0");
    expect_border(
        "wait 0",
        "message sending 1 4095 682",
        "message sending 1 4096 0",
    );
    expect_border("wait 0", "message sending 1 6 0", "message sending 1 6 1");
    expect_border("wait 0", "message sending 1 7 1", "message sending 1 7 2");
    expect_misfit("message sending 1 4095 683");
    expect_misfit("message sending 1 65535 65535");
    expect_fit("message completed");
    expect_fit("message failed");
}

#[test]
fn receptions() {
    // Signals 0 and 1 are published; signal 2 is received, in placement 2.
    expect_border("wait 0", "received 2 2", "received 2 3");
    expect_border("wait 0", "received 2 none", "received 2 1");
    expect_border("received 2 2", "received 0 none", "received 0 0");
    expect_border("received 2 2", "received 1 none", "received 1 1");
    expect_border("received 2 2", "received 3 none", "received 3 3");
    expect_border("received 2 2", "received 255 none", "received 255 2");
    for other in ["2 0", "2 65535", "0 2", "1 2", "3 2", "3 0", "255 0"] {
        expect_misfit(&format!("received {other}"));
    }
}

#[test]
fn receptions_in_one_of_several_placements() {
    // Signal 0 stands in frames 0 and 1, both received; signal 1 in frame 1; signal 2 is published.
    let frames = [[1, 2, 0], [2, 2, 0], [3, 2, 1]];
    let signals = [[0, 4, 0], [0, 4, 0], [0, 4, 0]];
    let placements = [[0, 1, 0], [0, 0, 0], [1, 1, 4], [2, 2, 0]];
    let table = line(&placed(&frames, &signals, &placements));
    let right = ["0 0", "0 1", "0 none", "1 2", "2 none", "3 none"];
    let wrong = [
        "0 2", "0 3", "0 4", "1 0", "1 1", "1 3", "2 3", "2 0", "3 3",
    ];
    let rights = right.map(|part| (part, "none"));
    let wrongs = wrong.map(|part| (part, "refused 3"));
    for (part, answer) in rights.into_iter().chain(wrongs) {
        play(&format!(
            "{table} => accepted\nset received {part} => set\nmessage => {answer}"
        ));
    }
}

#[test]
fn refusals_1_and_2_come_before_3() {
    let mut bench = bench_with("wait 1");
    play_on(
        &mut bench,
        "buffer 23 => buffer 23
        tick => refused 2
        byte 00 => refused 2
        write 9 9 => refused 2
        read 9 => refused 2
        select 9 => refused 3
        status => refused 3
        send 1 0 => refused 3
        message => refused 3
        ahead 9 => refused 3
        fresh => refused 2
        table 0 0 0 0 0 0 => refused 1 5
        set wait 1 => set
        select 0 => refused 1 5
        tick => refused 1 5",
    );
}

#[test]
fn a_lent_message_of_another_length() {
    play(
        "table 0 0 0 2 0 0 2 0 1 0 3 0 9 => accepted
        lend 0A 0B => lent 2
        set message sending 5 2 0 => set
        set entry 1 => set
        set wait 9 => set
        tick => waiting
        lend 0A => lent 1
        tick => refused 3
        message => sending
        set message completed => set
        tick => waiting",
    );
}
