//! Every limit of the table's counts and columns, at both sides: the rest of the table is right.

use crate::damage::calls;
use crate::damaged::RECORD_WORDS;
use crate::draft::Script;
use crate::signal_tables::Signals;
use crate::tables::{right_table, sections, table_line, Sections, Size};
use crate::tables::{COUNTS, COUNT_PLACE, ENTRIES, FRAMES, MEMBERS, PLACEMENTS, SIGNALS};

/// A table that has one record of each kind and room for others.
///
/// Signal 0 stands in both published frames.
fn small_table() -> Sections {
    let signals = Signals {
        records: vec![[0, 3, 7], [1, 16, 9], [0, 4, 0]],
        places: vec![vec![[0, 0], [1, 5]], vec![[0, 8]], vec![[2, 20]]],
    };
    sections(
        &[[2, 8, 1], [4, 1, 3], [5, 3, 0]],
        &signals,
        &[[0, 1], [1, 0]],
        &[[0, 0, 2, 1], [0, 1, 1, 2], [1, 2, 0, 3], [2, 3, 0, 4]],
    )
}

/// Places of the small table, with words that are right there and words that are not.
const LIMITS: [(usize, usize, &[u16], &[u16]); 34] = [
    (FRAMES, 0, &[0, 59], &[60, 61, 63, 64, 256, 65_535]),
    (FRAMES, 3, &[0, 59], &[2, 60, 65_535]),
    (FRAMES, 6, &[0, 59], &[2, 4, 60]),
    (FRAMES, 1, &[8], &[0, 2, 9, 255, 256, 65_535]),
    (FRAMES, 4, &[1, 8], &[0, 9, 257]),
    (FRAMES, 2, &[1, 3], &[0, 2, 4, 5, 256, 257, 65_535]),
    (FRAMES, 5, &[1, 3], &[0, 2, 4]),
    (FRAMES, 8, &[0, 1, 2, 3], &[4, 7, 256]),
    (SIGNALS, 0, &[0], &[1, 2, 3, 256, 65_535]),
    (SIGNALS, 1, &[3], &[0, 2, 4, 8, 16, 17, 256, 65_535]),
    (SIGNALS, 2, &[0, 7], &[8, 9, 65_535]),
    (SIGNALS, 3, &[0, 1], &[2, 3, 256]),
    (
        SIGNALS,
        4,
        &[8, 16, 48, 56],
        &[0, 1, 7, 9, 17, 60, 64, 72, 65_528],
    ),
    (SIGNALS, 5, &[0, 255], &[256, 257, 65_535]),
    (SIGNALS, 7, &[1, 4], &[0, 5, 16, 17]),
    (SIGNALS, 8, &[0, 15], &[16, 17, 32, 65_535]),
    (PLACEMENTS, 0, &[0], &[1, 2, 3, 65_535]),
    (PLACEMENTS, 3, &[0], &[1, 2, 3, 256, 65_535]),
    (PLACEMENTS, 6, &[1], &[0, 2, 3, 257, 65_535]),
    (PLACEMENTS, 9, &[2], &[0, 1, 3, 4, 258, 65_535]),
    (PLACEMENTS, 1, &[0], &[1, 2, 3, 256, 65_535]),
    (PLACEMENTS, 4, &[1], &[0, 2, 3, 257, 65_535]),
    (PLACEMENTS, 7, &[0, 2], &[1, 3, 256, 65_535]),
    (PLACEMENTS, 10, &[0, 2], &[1, 3, 258, 65_535]),
    (
        PLACEMENTS,
        2,
        &[0, 1, 5, 24, 61],
        &[6, 8, 22, 62, 63, 64, 65_535],
    ),
    (PLACEMENTS, 5, &[0, 5], &[6, 7, 8, 9, 256, 65_535]),
    (
        PLACEMENTS,
        8,
        &[8, 16, 48],
        &[0, 1, 9, 12, 56, 63, 64, 65_528],
    ),
    (PLACEMENTS, 11, &[0, 20], &[21, 24, 25, 65_535]),
    (MEMBERS, 0, &[0], &[1, 2, 65_535]),
    (MEMBERS, 2, &[0, 1], &[2, 3, 65_535]),
    (MEMBERS, 3, &[0], &[1, 2, 3, 4, 65_535]),
    (ENTRIES, 4, &[0, 1], &[2, 3, 65_535]),
    (ENTRIES, 6, &[0, 1], &[2, 3, 65_535]),
    (ENTRIES, 3, &[1, 65_535], &[0]),
];

/// The small table with a word at a limit or beyond it, for each limit, with calls on it.
pub fn columns(script: &mut Script) {
    for (section, at, right, wrong) in LIMITS {
        for &word in right.iter().chain(wrong) {
            let mut table = small_table();
            table[section][at] = word;
            say_table(script, &table.concat());
        }
    }
}

/// Targets of entries at the ends of what their kinds take, and kinds with another's target.
pub fn targets(script: &mut Script) {
    for kind in [0, 1, 2, 3, 4, 256] {
        for target in [0, 1, 2, 3, 256, 65_535] {
            let mut table = small_table();
            table[ENTRIES][9] = kind;
            table[ENTRIES][10] = target;
            say_table(script, &table.concat());
        }
    }
}

/// Counts at their limits and one more, in front of as many records as they count.
pub fn counts(script: &mut Script) {
    let mut table = right_table(&mut script.random, Size::Limit);
    say_table(script, &table.concat());
    let mut longer = table.concat();
    longer.push(script.random.one_of(&[0, 1, 65_535]));
    say_table(script, &longer);
    longer.truncate(longer.len() - 2);
    say_table(script, &longer);
    let section = script.random.between(FRAMES, ENTRIES);
    let (size, count) = (RECORD_WORDS[section], COUNT_PLACE[section]);
    let first = table[section][..size].to_vec();
    let last = table[section].split_off(table[section].len() - size);
    table[COUNTS][count] -= 1;
    say_table(script, &table.concat());
    table[COUNTS][count] += 2;
    table[section].extend(last);
    table[section].extend(first);
    say_table(script, &table.concat());
}

/// A table line and some calls on it.
fn say_table(script: &mut Script, words: &[u16]) {
    let line = table_line(&mut script.random, words);
    script.say(line);
    let count = script.random.one_of(&[0, 0, 0, 1, 3]);
    calls(script, count);
}
