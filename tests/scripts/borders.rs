//! Tables with words at the ends of what their places take, and just beyond them.

use crate::damage::calls;
use crate::damaged::{place, RECORD_WORDS};
use crate::draft::Script;
use crate::tables::{
    right_table, table_line, Sections, Size, COUNTS, ENTRIES, FRAMES, MEMBERS, PLACEMENTS, SIGNALS,
};

/// Words at the ends of what this place takes, and just beyond them.
fn border_words(table: &Sections, section: usize, at: usize) -> Vec<u16> {
    let words = &table[section];
    let size = RECORD_WORDS[section];
    let column = at % size;
    let before = at.checked_sub(size).map_or(0, |before| words[before]);
    let frames = table[COUNTS][0];
    let members = table[MEMBERS].chunks(2);
    let lists = members.last().map_or(0, |member| member[0] + 1);
    match (section, column) {
        (COUNTS, _) => vec![60, 61, 256, 257, 512, 513],
        (FRAMES, 0) => vec![0, 59, 60, 61, before],
        (FRAMES, 1) => vec![0, 1, 8, 9],
        (FRAMES, _) => vec![0, 1, 2, 3, 4],
        (SIGNALS, _) => signal_border_words(&words[at - column..], column),
        (PLACEMENTS | MEMBERS | ENTRIES, 0) => {
            vec![before, before + 1, before + 2, before.saturating_sub(1)]
        }
        (PLACEMENTS, 1) => vec![0, frames, frames - 1, before],
        (PLACEMENTS, _) => offset_border_words(table, &words[at - column..]),
        (MEMBERS, _) => vec![frames, before],
        (ENTRIES, 1) => vec![0, 1, 2, 3, 4],
        (ENTRIES, 2) => vec![0, 1, frames, frames - 1, lists, lists.saturating_sub(1)],
        _ => vec![0, 1, 65_535],
    }
}

/// Words for the kind, the width or the start value of a signal.
fn signal_border_words(record: &[u16], column: usize) -> Vec<u16> {
    let end = 1_u32 << record[1].min(16);
    match column {
        0 => vec![0, 1, 2],
        1 => vec![0, 1, 7, 8, 9, 12, 16, 17, 18, 24, 56, 63, 64, 65, 72],
        _ => vec![0, 255, 256, end as u16, (end - 1) as u16],
    }
}

/// Words for the offset of a placement.
fn offset_border_words(table: &Sections, record: &[u16]) -> Vec<u16> {
    let [signal, frame, offset] = [record[0], record[1], record[2]];
    let bits = 8 * table[FRAMES][3 * usize::from(frame) + 1];
    let last = bits - table[SIGNALS][3 * usize::from(signal) + 1];
    let near = [offset + 1, offset.saturating_sub(1), offset / 8 * 8];
    [near.to_vec(), vec![bits, bits - 1, last, last + 1, 0, 8]].concat()
}

/// A small right table and many copies of it, each with one word at a border.
pub fn borders(script: &mut Script) {
    let size = script.random.one_of(&[Size::Tiny, Size::Small]);
    let table = right_table(&mut script.random, size);
    for _ in 0..script.random.between(30, 80) {
        let (section, at) = place(&mut script.random, &table);
        let words = border_words(&table, section, at);
        let mut damaged = table.clone();
        damaged[section][at] = script.random.one_of(&words);
        let line = table_line(&mut script.random, &damaged.concat());
        script.say(line);
        let count = script.random.one_of(&[0, 0, 1, 2]);
        calls(script, count);
    }
}

/// Tables of one or two frames and signals, with the words of these at all borders.
pub fn signal_borders(script: &mut Script) {
    for _ in 0..script.random.between(30, 80) {
        let random = &mut script.random;
        let signals = random.one_of(&[1, 1, 2]);
        let placements = random.one_of(&[signals, signals, signals, 0, 1, 2, 3]);
        let mut words = vec![2, signals, 0, 0, placements];
        for identifier in [7, 8] {
            let length = random.one_of(&[1, 2, 3, 8, 8]);
            words.extend([identifier, length, random.one_of(&[1, 1, 1, 3, 0])]);
        }
        for _ in 0..signals {
            let any = random.below(66) as u16;
            let width = random.one_of(&[1, 3, 7, 8, 8, 9, 15, 16, 16, 17, 24, 56, 64, 65, any]);
            let end = 1_u32.checked_shl(width.into()).unwrap_or(0) as u16;
            let ends = [255, 256, end, end.wrapping_sub(1), 65_535];
            let any = random.one_of(&ends);
            let kind = u16::from(width % 8 == 0 && random.once_in(2));
            words.extend([kind, width, random.one_of(&[0, 0, 1, any])]);
        }
        for number in 0..placements {
            let any = random.below(64) as u16;
            let offset = random.one_of(&[0, 0, 8, 8, 16, 47, 48, 49, 56, 63, 64, any]);
            let signal = number * signals / placements;
            words.extend([signal, random.one_of(&[0, 0, 1, 1, 1, 2]), offset]);
        }
        let line = table_line(random, &words);
        if script.say(line) == "accepted" {
            script.say("fresh");
            script.say("frames");
        }
    }
}
