//! Tests of the judge: times, each kind of slot, the entry told, refusals and lines.
//!
//! At a bit time of 100 a frame of 1 to 8 bytes takes 756, 896, .. 1,736 microseconds, which are
//! 54, 64, .. 124 ticks of 14 microseconds.

use super::*;
use crate::bench::tests::{play, play_on};
use crate::bench::Bench;
use crate::table_words::unplaced;
use Judged::{Holds, Short};

/// Gives a table of frames with these lengths, all published, these members and these entries.
fn table(lengths: &[u16], members: &[[u16; 2]], entries: &[[u16; 4]]) -> Table {
    let numbered = (0..).zip(lengths);
    let frames: Vec<[u16; 3]> = numbered.map(|(n, &length)| [n, length, 1]).collect();
    Table::read(&unplaced(&frames, members, entries)).expect("a right table")
}

/// Gives a table of one frame in one slot.
fn one_slot(length: u16, delay: u16) -> Table {
    table(&[length], &[], &[[0, 0, 0, delay]])
}

/// Tests what the judge says of a table at a tick length and a bit time.
fn expect(table: &Table, tick: u32, bit: u32, judged: Judged) {
    let given = judge(table, tick, bit);
    assert_eq!(given, Ok(judged), "tick {tick}, bit {bit}");
}

/// Tests that a table holds at a tick length and a bit time, and at no shorter tick.
fn expect_least_tick(table: &Table, tick: u32, bit: u32) {
    expect(table, tick, bit, Holds);
    expect(table, tick - 1, bit, Short(0));
}

#[test]
fn the_numbers_of_the_request() {
    expect_least_tick(&one_slot(8, 1), 434, 25);
    expect_least_tick(&one_slot(8, 1), 18, 1);
    expect_least_tick(&one_slot(1, 1), 76, 10);
    expect(&one_slot(8, 65_535), 656, 65_535, Holds);
}

#[test]
fn bit_times_of_document_001() {
    assert_eq!(shortest_bits(0), 44);
    assert_eq!(shortest_bits(1), 54);
    assert_eq!(shortest_bits(8), 124);
    assert_eq!(frame_hundredths(8, 1), 1_736);
    assert_eq!(frame_hundredths(8, 65_535), 113_768_760);
    assert_eq!(slot_hundredths(65_535, 65_535), 429_483_622_500);
}

#[test]
fn bit_rates() {
    // 19,200, 20,000 and 9,600 bit/s: 904,456, 868,000 and 1,808,912 hundredths.
    expect_least_tick(&one_slot(8, 1), 9_045, 521);
    expect_least_tick(&one_slot(8, 1), 8_680, 500);
    expect_least_tick(&one_slot(8, 1), 18_090, 1_042);
    expect_least_tick(&one_slot(8, 2), 4_523, 521);
    expect_least_tick(&one_slot(1, 1), 3_939, 521);
}

#[test]
fn every_length_exactly_full() {
    let full = [54, 64, 74, 84, 94, 104, 114, 124];
    for (length, delay) in (1..).zip(full) {
        let full_slot = one_slot(length, delay);
        expect(&full_slot, 14, 100, Holds);
        expect(&full_slot, 13, 100, Short(0));
        expect(&full_slot, 14, 101, Short(0));
        expect(&one_slot(length, delay - 1), 14, 100, Short(0));
        expect(&one_slot(length, delay + 1), 14, 100, Holds);
    }
}

#[test]
fn products_above_32_bits() {
    let longest = one_slot(8, 65_535);
    // 100 x 65,535 x 656 is the first product of these above 2^32, by 4,128,704.
    for tick in [18, 655, 656, 657, 672, 673, 1_311, 65_535] {
        expect(&longest, tick, 65_535, Holds);
    }
    expect(&longest, 17, 65_535, Short(0));
    expect(&longest, 1, 3_775, Holds);
    expect(&longest, 1, 3_776, Short(0));
}

#[test]
fn requests_and_responses_have_eight_bytes() {
    for kind in [2, 3] {
        let slot = |delay| table(&[], &[], &[[0, kind, 0, delay]]);
        expect(&slot(124), 14, 100, Holds);
        expect(&slot(123), 14, 100, Short(0));
        // Also where every frame of the table is shorter.
        let beside = table(&[1, 2], &[], &[[0, kind, 0, 123]]);
        expect(&beside, 14, 100, Short(0));
    }
}

#[test]
fn a_received_frame_counts() {
    let words = |delay| [1, 0, 0, 1, 0, 2, 4, 0, 0, 0, 0, delay];
    expect(&Table::read(&words(84)).unwrap(), 14, 100, Holds);
    expect(&Table::read(&words(83)).unwrap(), 14, 100, Short(0));
}

#[test]
fn a_list_needs_room_for_each_member() {
    for lengths in [[5, 1, 2], [2, 5, 1], [1, 2, 5], [5, 5, 1], [1, 5, 5]] {
        let members = [[0, 0], [0, 1], [0, 2]];
        let slot = |delay| table(&lengths, &members, &[[0, 1, 0, delay]]);
        expect(&slot(94), 14, 100, Holds);
        expect(&slot(93), 14, 100, Short(0));
    }
}

#[test]
fn a_list_has_its_own_members_only() {
    // List 0 has frame 2, list 1 frames 3 and 1; frame 0 is in no slot.
    let members = [[0, 2], [1, 3], [1, 1]];
    let entries = |first, second| [[0, 1, 0, first], [0, 1, 1, second]];
    let slots = |first, second| table(&[8, 3, 1, 2], &members, &entries(first, second));
    expect(&slots(54, 74), 14, 100, Holds);
    expect(&slots(53, 74), 14, 100, Short(0));
    expect(&slots(54, 73), 14, 100, Short(1));
}

#[test]
fn a_member_in_a_slot_of_its_own() {
    let entries = [[0, 0, 1, 54], [0, 1, 0, 124], [0, 0, 0, 124]];
    let members = [[0, 1], [0, 0]];
    expect(&table(&[8, 1], &members, &entries), 14, 100, Holds);
    expect(&table(&[8, 1], &members, &entries), 14, 101, Short(0));
}

#[test]
fn the_first_short_entry_by_its_number_in_the_table() {
    let entries = |delays: [u16; 5]| {
        let schedules = [0, 0, 1, 1, 2];
        let pairs = schedules.into_iter().zip(delays);
        let entries: Vec<_> = pairs.map(|(number, delay)| [number, 3, 0, delay]).collect();
        table(&[], &[], &entries)
    };
    expect(&entries([124, 124, 124, 124, 124]), 14, 100, Holds);
    expect(&entries([124, 123, 124, 124, 124]), 14, 100, Short(1));
    expect(&entries([124, 124, 123, 124, 124]), 14, 100, Short(2));
    expect(&entries([124, 124, 124, 123, 123]), 14, 100, Short(3));
    expect(&entries([124, 124, 124, 124, 123]), 14, 100, Short(4));
    expect(&entries([123, 124, 124, 124, 1]), 14, 100, Short(0));
}

#[test]
fn no_entries_hold() {
    expect(&table(&[], &[], &[]), 1, 65_535, Holds);
    expect(&table(&[8], &[[0, 0]], &[]), 1, 65_535, Holds);
}

#[test]
fn refusal_13() {
    let tables = [table(&[], &[], &[]), one_slot(8, 1)];
    let wrong = [0, 65_536, 65_636, 1 << 31, u32::MAX];
    for table in &tables {
        for time in wrong {
            assert_eq!(judge(table, time, 1), Err(Refusal::TimeOutOfRange));
            assert_eq!(judge(table, 1_000, time), Err(Refusal::TimeOutOfRange));
            assert_eq!(judge(table, time, time), Err(Refusal::TimeOutOfRange));
        }
        for time in [1, 65_535] {
            assert!(judge(table, time, 1).is_ok());
            assert!(judge(table, 1, time).is_ok());
        }
    }
}

#[test]
fn refusal_1_comes_first() {
    play(
        "judge 1 1 => refused 1 0
        judge 0 0 => refused 1 0
        table 0 0 0 1 0 0 3 0 x => ?
        judge 0 65536 => refused 1 0
        table 0 0 0 1 0 0 3 0 0 => refused 1 8
        judge 1736 100 => refused 1 8
        judge 0 100 => refused 1 8
        table 0 0 0 1 0 0 3 0 1 => accepted
        judge 0 100 => refused 13
        table 0 0 0 1 0 0 3 0 x => ?
        judge 1736 100 => holds
        judge 1735 100 => short 0",
    );
}

#[test]
fn the_state_and_the_buffer_do_not_matter() {
    let mut bench = Bench::new();
    play_on(
        &mut bench,
        "table 1 0 1 2 0 2 1 1 0 0 0 1 0 1 0 2 0 1 => accepted
        set entry 9 => set
        set wait 9 => set
        set open frame 7 => set
        set pending 59 1 => set
        set message sending 1 0 9 => set
        set received 9 9 => set
        buffer 3 => buffer 3
        tick => refused 2
        message => refused 3",
    );
    let shows = ["state", "pending", "received", "frames", "out"];
    let before = shows.map(|show| bench.answer(show.as_bytes()));
    play_on(
        &mut bench,
        "judge 1736 100 => holds
        judge 1735 100 => short 1
        judge 755 100 => short 0
        judge 0 100 => refused 13
        judge 1736 => ?",
    );
    assert_eq!(shows.map(|show| bench.answer(show.as_bytes())), before);
}
