//! Tests of the table check.

use super::*;
use crate::table_words::{placed, unplaced, worked, Records, Triple};

/// Two frames published and two not, with signals, two lists and two schedules.
///
/// Signal 0 stands in both published frames.
fn small_table() -> Vec<u16> {
    let records = Records {
        frames: vec![[7, 8, 1], [0, 2, 0], [59, 2, 3], [20, 4, 2]],
        signals: vec![[0, 12, 4095], [0, 1, 1], [1, 48, 255], [0, 16, 65_535]],
        placements: vec![[0, 0, 3], [0, 2, 4], [1, 1, 0], [2, 0, 16], [3, 3, 4]],
        members: vec![[0, 2], [1, 0]],
        entries: vec![
            [0, 0, 3, 1],
            [0, 1, 1, 65_535],
            [1, 2, 0, 10],
            [1, 3, 0, 10],
        ],
    };
    records.words()
}

/// The largest table: all counts at their limits; signal s stands in frames s % 60 and one more.
fn largest_table() -> Vec<u16> {
    let places = (0..256).flat_map(|s| {
        let offset = s / 60 * 12;
        [[s, s % 60, offset], [s, (s + 1) % 60, offset + 6]]
    });
    let records = Records {
        frames: (0..60).map(|n| [59 - n, 8, 1]).collect(),
        signals: vec![[0, 6, 63]; 256],
        placements: places.collect(),
        members: (0..60).map(|n| [n, n]).collect(),
        entries: (0..256).map(|n| [n, 1, n % 60, 1]).collect(),
    };
    records.words()
}

/// A frame of this length alone, published, with one signal at offset 0.
fn one_signal(length: u16, signal: Triple) -> Vec<u16> {
    placed(&[[0, length, 1]], &[signal], &[[0, 0, 0]])
}

/// A frame of this length alone, published, with these signals at these offsets.
fn one_frame(length: u16, signals: &[(Triple, u16)]) -> Vec<u16> {
    let records: Vec<Triple> = signals.iter().map(|&(signal, _)| signal).collect();
    let offsets = (0..).zip(signals);
    let placements: Vec<Triple> = offsets.map(|(s, &(_, offset))| [s, 0, offset]).collect();
    placed(&[[0, length, 1]], &records, &placements)
}

/// Tests that a table is right.
fn expect_right(words: &[u16]) {
    assert_eq!(first_fault(words), None, "table {words:?}");
}

/// Tests that a table has its first fault here.
fn expect_fault(words: &[u16], position: usize) {
    assert_eq!(first_fault(words), Some(position), "table {words:?}");
}

/// Gives all values that are right at this position behind the words before it.
fn right_values(words: &[u16], position: usize) -> Vec<u16> {
    let before = &words[..position];
    expect_fault(before, position);
    let mut marks = Marks::none();
    for (position, &word) in before.iter().enumerate() {
        marks.add(&before[..position], word);
    }
    (0..=u16::MAX)
        .filter(|&word| is_right(&marks, before, word))
        .collect()
}

/// Tests that exactly these values are right at this position.
fn expect_values(words: &[u16], position: usize, values: impl IntoIterator<Item = u16>) {
    let expected: Vec<u16> = values.into_iter().collect();
    assert_eq!(right_values(words, position), expected, "at {position}");
}

/// Tests where the first fault is when one word of a table is another one.
fn expect_fault_with(words: &[u16], place: usize, word: u16, position: usize) {
    let mut words = words.to_vec();
    words[place] = word;
    expect_fault(&words, position);
}

#[test]
fn tables_without_records() {
    expect_right(&[0, 0, 0, 0, 0]);
    for length in 0..5 {
        expect_fault(&[0; 5][..length], length);
    }
    expect_fault(&[0; 6], 5);
    expect_fault(&[0; 9_000], 5);
}

#[test]
fn counts() {
    for (position, max) in [(0, 60), (1, 256), (2, 60), (3, 256), (4, 512)] {
        expect_values(&[0; 5], position, 0..=max);
        expect_values(&[60, 256, 60, 256, 512], position, 0..=max);
    }
    expect_fault(&[61], 0);
    expect_fault(&[61, 257, 61, 257, 513], 0);
    expect_fault(&[60, 257, 61], 1);
    expect_fault(&[60, 256, 60, 256, 513], 4);
    expect_fault(&[60, 256, 60, 256, 512], 5);
}

#[test]
fn counts_alone_need_no_frames() {
    expect_fault(&[0, 1, 0, 0, 0, 0, 1, 0], 8);
    expect_fault(&[0, 1, 0, 0, 1, 0, 1, 0, 0, 0, 0], 9);
    expect_fault(&[0, 0, 0, 0, 1, 0, 0, 0], 5);
    expect_fault(&[0, 0, 1, 0, 0, 0, 0], 6);
    expect_fault(&[0, 0, 0, 1, 0, 0, 0, 0, 1], 7);
    expect_fault(&[0, 0, 0, 1, 0, 0, 1, 0, 1], 7);
    expect_right(&[0, 0, 0, 1, 0, 0, 2, 0, 1]);
    expect_right(&[0, 0, 0, 1, 0, 0, 3, 0, 1]);
}

#[test]
fn the_small_table_is_right() {
    expect_right(&small_table());
}

#[test]
fn missing_words() {
    for words in [small_table(), worked().words()] {
        for length in 0..words.len() {
            expect_fault(&words[..length], length);
        }
    }
}

#[test]
fn surplus_words() {
    for mut words in [small_table(), worked().words()] {
        let length = words.len();
        for word in [0, 1, 65_535] {
            words.push(word);
            expect_fault(&words, length);
        }
    }
}

#[test]
fn a_wrong_word_comes_before_a_missing_or_surplus_one() {
    let mut words = small_table();
    words[6] = 9;
    expect_fault(&words[..7], 6);
    expect_fault(&words, 6);
    words.push(0);
    expect_fault(&words, 6);
}

#[test]
fn frames() {
    let words = unplaced(&[[7, 1, 0], [9, 8, 3]], &[], &[]);
    expect_right(&words);
    expect_values(&words, 5, 0..=59);
    expect_values(&words, 6, 1..=8);
    expect_values(&words, 7, 0..=3);
    expect_values(&words, 8, (0..=59).filter(|&identifier| identifier != 7));
    expect_values(&words, 9, 1..=8);
    expect_values(&words, 10, 0..=3);
}

#[test]
fn repeated_identifiers() {
    expect_fault(&unplaced(&[[5, 1, 0], [6, 1, 0], [5, 1, 0]], &[], &[]), 11);
    expect_fault(&unplaced(&[[5, 1, 0], [5, 1, 0], [5, 1, 0]], &[], &[]), 8);
    expect_right(&unplaced(&[[1, 2, 3], [2, 3, 1], [3, 1, 2]], &[], &[]));
}

#[test]
fn signal_kinds_and_widths() {
    // No frame is looked at: a frame of one byte, and none at all.
    for words in [
        one_signal(1, [0, 1, 0]),
        vec![1, 1, 0, 0, 0, 7, 1, 0, 0, 1, 0],
    ] {
        expect_values(&words, 8, 0..=1);
        expect_values(&words, 9, 1..=16);
    }
    let words = one_signal(1, [1, 8, 0]);
    expect_values(&words, 9, (8..=64).step_by(8));
    expect_values(&[0, 1, 0, 0, 0, 1, 8, 0], 6, (8..=64).step_by(8));
}

#[test]
fn start_values() {
    for width in 1..=15 {
        let words = one_signal(8, [0, width, 0]);
        expect_values(&words, 10, 0..=(1 << width) - 1);
    }
    expect_values(&one_signal(8, [0, 16, 0]), 10, 0..=65_535);
    for width in [8, 16, 64] {
        expect_values(&one_signal(8, [1, width, 0]), 10, 0..=255);
    }
}

#[test]
fn the_worked_table_and_its_faults() {
    let words = worked().words();
    expect_right(&words);
    assert_eq!(words.len(), 32);
    for (place, word, position) in [
        (17, 1, 17),
        (20, 1, 24),
        (21, 0, 21),
        (21, 2, 21),
        (10, 0, 21),
        (22, 13, 22),
        (22, 16, 22),
        (22, 12, 25),
        (23, 2, 23),
        (23, 0, 24),
        (4, 2, 23),
        (4, 0, 17),
        (4, 513, 4),
    ] {
        expect_fault_with(&words, place, word, position);
    }
}

#[test]
fn too_few_placements() {
    // Without the last placement the word at 23 is the right list number 0, and wrong all the same.
    let mut records = worked();
    records.placements.truncate(2);
    let words = records.words();
    expect_fault(&words, 23);
    expect_fault(&words[..23], 23);
    expect_fault(&words[..24], 23);
    // Without members and entries no word stands there.
    records.members.clear();
    records.entries.clear();
    let mut words = records.words();
    assert_eq!(words.len(), 23);
    expect_fault(&words, 23);
    words.push(0);
    expect_fault(&words, 23);
    // Without any placement.
    records.placements.clear();
    expect_fault(&records.words(), 17);
    assert_eq!(records.words().len(), 17);
}

#[test]
fn no_word_behind_too_few_placements_is_right() {
    let words = [1, 2, 1, 1, 1, 7, 8, 1, 0, 1, 0, 0, 1, 0, 0, 0, 0, 0, 0];
    expect_values(&words, 17, []);
}

#[test]
fn signal_words_of_placements() {
    let frames = [[0, 8, 1], [1, 8, 1], [2, 8, 1]];
    let signals = [[0, 1, 0], [0, 2, 0], [0, 3, 0]];
    let placements = [[0, 0, 0], [0, 1, 0], [1, 0, 8], [2, 0, 16], [2, 1, 16]];
    let words = placed(&frames, &signals, &placements);
    expect_right(&words);
    expect_values(&words, 23, [0]);
    expect_values(&words, 26, [0, 1]);
    expect_values(&words, 29, [0, 1]);
    expect_values(&words, 32, [1, 2]);
    expect_values(&words, 35, [2]);
}

#[test]
fn no_signal_may_be_passed_over() {
    let (frames, signals) = ([[0, 8, 1]], [[0, 1, 0]; 3]);
    let gap = placed(&frames, &signals, &[[0, 0, 0], [2, 0, 1]]);
    expect_fault(&gap, 20);
    let back = placed(&frames, &signals, &[[0, 0, 0], [1, 0, 1], [0, 0, 2]]);
    expect_fault(&back, 23);
    let late = placed(&frames, &signals, &[[1, 0, 0], [2, 0, 1]]);
    expect_fault(&late, 17);
    // Without signals no placement is right.
    expect_fault(&placed(&frames, &[], &[[0, 0, 0]]), 8);
}

#[test]
fn frame_words_of_placements() {
    // Frames 0, 2 and 3 are published, 1 and 4 received.
    let frames = [[9, 8, 1], [8, 8, 0], [7, 8, 3], [6, 8, 1], [5, 8, 2]];
    let signals = [[0, 4, 0], [0, 4, 0]];
    let placements = [[0, 2, 0], [0, 0, 0], [0, 3, 0], [1, 4, 0], [1, 1, 0]];
    let words = placed(&frames, &signals, &placements);
    expect_right(&words);
    expect_values(&words, 27, 0..=4);
    expect_values(&words, 30, [0, 3]);
    expect_values(&words, 33, [3]);
    expect_values(&words, 36, 0..=4);
    expect_values(&words, 39, [1]);
}

#[test]
fn mixed_publishers_are_the_frame_s_fault() {
    for flags in 0..=3 {
        let placements = [[0, 0, 0], [0, 1, 0]];
        let mixed = [[9, 8, flags], [8, 8, flags ^ 1]];
        expect_fault(&placed(&mixed, &[[0, 4, 0]], &placements), 18);
        let other_model = [[9, 8, flags], [8, 8, flags ^ 2]];
        expect_right(&placed(&other_model, &[[0, 4, 0]], &placements));
    }
}

#[test]
fn a_signal_stands_once_in_a_frame() {
    let frames = [[9, 8, 1], [8, 8, 1]];
    let twice = placed(&frames, &[[0, 4, 0]], &[[0, 0, 0], [0, 0, 8]]);
    expect_fault(&twice, 18);
    let later = placed(&frames, &[[0, 4, 0]], &[[0, 0, 0], [0, 1, 8], [0, 0, 8]]);
    expect_fault(&later, 21);
    // Another signal may stand there.
    let signals = [[0, 4, 0], [0, 4, 0]];
    let placements = [[0, 0, 0], [0, 1, 0], [1, 1, 8], [1, 0, 8]];
    expect_right(&placed(&frames, &signals, &placements));
}

#[test]
fn scalar_offsets() {
    for length in 1..=8 {
        for width in [1, 2, 7, 8, 9, 16] {
            let words = one_signal(length, [0, width, 0]);
            let end = (8 * length + 1).saturating_sub(width);
            expect_values(&words, 13, 0..end);
        }
    }
}

#[test]
fn array_offsets() {
    for length in 1..=8 {
        for width in (8..=64).step_by(8) {
            let words = one_signal(length, [1, width, 0]);
            let end = (8 * length + 1).saturating_sub(width);
            expect_values(&words, 13, (0..end).step_by(8));
        }
    }
}

#[test]
fn a_signal_that_fits_no_frame_is_the_offset_s_fault() {
    expect_fault(&one_signal(1, [0, 9, 0]), 13);
    expect_fault(&one_signal(7, [1, 64, 0]), 13);
    expect_right(&one_signal(8, [1, 64, 0]));
}

#[test]
fn offsets_beside_earlier_placements() {
    for earlier in [[0, 8, 0], [1, 8, 0]] {
        let offsets_of = |signal| right_values(&one_frame(4, &[(earlier, 16), (signal, 0)]), 19);
        let sixteen: Vec<u16> = vec![0];
        assert_eq!(offsets_of([0, 16, 0]), sixteen);
        assert_eq!(offsets_of([0, 15, 0]), [0, 1]);
        let eight: Vec<u16> = (0..=8).chain([24]).collect();
        assert_eq!(offsets_of([0, 8, 0]), eight);
        let single: Vec<u16> = (0..=15).chain(24..=31).collect();
        assert_eq!(offsets_of([0, 1, 0]), single);
        assert_eq!(offsets_of([1, 8, 0]), [0, 8, 24]);
        assert_eq!(offsets_of([1, 16, 0]), [0]);
        assert_eq!(offsets_of([1, 24, 0]), []);
    }
}

#[test]
fn an_overlap_is_the_offset_s_fault() {
    let bit = [0, 1, 0];
    expect_fault(&one_frame(1, &[(bit, 0), (bit, 0)]), 19);
    expect_fault(&one_frame(8, &[([0, 4, 0], 8), ([1, 64, 0], 0)]), 19);
    expect_fault(&one_frame(8, &[([1, 64, 0], 0), ([0, 4, 0], 30)]), 19);
    let third = [([0, 4, 0], 0), ([0, 4, 0], 8), ([0, 2, 0], 3)];
    expect_fault(&one_frame(2, &third), 25);
}

#[test]
fn every_placement_takes_its_bits() {
    // Signal 0 stands in frames 0, 1 and 2 at 0, 8 and 4; signal 1 of one bit in one of them.
    let frames = [[0, 2, 1], [1, 2, 1], [2, 2, 1]];
    let signals = [[0, 4, 0], [0, 1, 0]];
    for (frame, begin) in [(0, 0), (1, 8), (2, 4)] {
        let placements = [[0, 0, 0], [0, 1, 8], [0, 2, 4], [1, frame, 0]];
        let words = placed(&frames, &signals, &placements);
        let free = (0..16).filter(|&bit| bit < begin || bit >= begin + 4);
        expect_values(&words, 31, free);
    }
}

#[test]
fn signals_of_other_frames_do_not_overlap() {
    let frames = [[0, 8, 0], [1, 8, 0]];
    let signals = [[1, 64, 0], [0, 4, 0], [1, 56, 0]];
    let words = placed(&frames, &signals, &[[0, 0, 0], [1, 1, 60], [2, 1, 0]]);
    expect_right(&words);
}

#[test]
fn list_numbers() {
    let frames: Vec<[u16; 3]> = (0..5).map(|n| [n, 1, 1]).collect();
    let words = unplaced(&frames, &[[0, 0], [0, 1], [1, 2], [2, 3], [2, 4]], &[]);
    expect_right(&words);
    expect_values(&words, 20, [0]);
    expect_values(&words, 22, [0, 1]);
    expect_values(&words, 24, [0, 1]);
    expect_values(&words, 26, [1, 2]);
    expect_values(&words, 28, [2, 3]);
}

#[test]
fn member_frames() {
    let frames = [[9, 1, 0], [8, 1, 1], [7, 1, 2], [6, 1, 3], [5, 1, 1]];
    let words = unplaced(&frames, &[[0, 3], [0, 1], [1, 4]], &[]);
    expect_right(&words);
    expect_values(&words, 21, [1, 3, 4]);
    expect_values(&words, 23, [1, 4]);
    expect_values(&words, 25, [4]);
}

#[test]
fn schedule_numbers() {
    let entries = [[0, 2, 0, 1], [0, 2, 0, 1], [1, 3, 0, 1], [2, 2, 0, 1]];
    let words = unplaced(&[], &[], &entries);
    expect_right(&words);
    expect_values(&words, 5, [0]);
    expect_values(&words, 9, [0, 1]);
    expect_values(&words, 13, [0, 1]);
    expect_values(&words, 17, [1, 2]);
}

#[test]
fn entry_kinds_and_delays() {
    let words = unplaced(&[], &[], &[[0, 2, 0, 1]]);
    expect_values(&words, 6, 0..=3);
    expect_values(&words, 8, 1..=65_535);
}

#[test]
fn entry_targets() {
    let targets_of = |kind| {
        let frames = [[9, 1, 1], [8, 1, 0], [7, 1, 1]];
        let words = unplaced(&frames, &[[0, 2], [1, 0]], &[[0, kind, 0, 1]]);
        right_values(&words, 20)
    };
    assert_eq!(targets_of(0), [0, 1, 2]);
    assert_eq!(targets_of(1), [0, 1]);
    assert_eq!(targets_of(2), [0]);
    assert_eq!(targets_of(3), [0]);
}

#[test]
fn the_largest_table() {
    let mut words = largest_table();
    assert_eq!(words.len(), 3_633);
    expect_right(&words);
    expect_fault(&words[..3_632], 3_632);
    words.push(0);
    expect_fault(&words, 3_633);
}

#[test]
fn late_faults_of_the_largest_table() {
    // Frames begin at 5, signals at 185, placements at 953, members at 2,489, entries at 2,609.
    let words = largest_table();
    expect_values(&words, 182, [0]);
    expect_values(&words, 951, 1..=16);
    expect_values(&words, 952, 0..=63);
    expect_values(&words, 2_483, [254, 255]);
    expect_values(&words, 2_486, [255]);
    expect_values(&words, 2_487, (0..60).filter(|&frame| frame != 15));
    // In frame 16 the bits 0 to 47 are taken by the signals 15, 16, 75, 76, .. 196.
    expect_values(&words, 2_488, 48..=58);
    expect_values(&words, 2_607, [58, 59]);
    expect_values(&words, 2_608, [59]);
    expect_values(&words, 3_629, [254, 255]);
    expect_values(&words, 3_631, 0..=59);
    expect_values(&words, 3_632, 1..=65_535);
}
